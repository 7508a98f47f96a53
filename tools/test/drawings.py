#!/usr/bin/env python3
"""Tells whether Graphviz takes what `vcnet draw` prints: tools/test/drawings.py VCNET [FOLDER].

It hands each network of examples/ that `VCNET check` accepts to `VCNET draw`, and to `VCNET draw --after N` for some N, and what that prints
to `dot -Tsvg`. A network is printed, and the script fails, where VCNET ends with another status than 0, where dot fails or warns, or where
the drawing has not one place for each node and switch and one edge for each wire, virtual link and channel inside a node. With FOLDER it
keeps the drawings there. It wants Graphviz.

Made with rattle-kit-13f, logic dac8208d650f15bf.
"""
import glob
import json
import os
import subprocess
import sys

ROOT = os.path.dirname(os.path.dirname(os.path.dirname(os.path.abspath(__file__))))

# after how many events a network is drawn: none, a few while credit comes and packets are under way, and more than an example has
AFTER = (0, 5, 40, 200, 1000000)


def is_accepted(vcnet, text):
    """Whether the network is one that can be drawn."""
    return subprocess.run([vcnet, "check"], input=text, capture_output=True, check=False).returncode == 0


def wanted(text):
    """How many places and edges the drawing of a network has."""
    network = json.loads(text)
    inside = sum("node" in channel for channel in network.get("channels", []))
    places, edges = (sum(len(network.get(key, [])) for key in keys) for keys in (("nodes", "switches"), ("wires", "vlinks")))
    return places, edges + inside


def fault_of(vcnet, words, text, to):
    """What is wrong with the drawing of a network by these words, or nothing; one that is well is kept in the file `to`, if there is one."""
    drawn = subprocess.run([vcnet, "draw", *words], input=text, capture_output=True, check=False)
    if drawn.returncode:
        return f"status {drawn.returncode}"
    svg = subprocess.run(["dot", "-Tsvg"], input=drawn.stdout, capture_output=True, check=False)
    if svg.returncode or svg.stderr:
        return svg.stderr.decode() or f"dot ends with status {svg.returncode}"
    found = tuple(svg.stdout.count(b'<g id="%s' % it) for it in (b"node", b"edge"))
    if found != wanted(text):
        return f"{found} places and edges in place of {wanted(text)}"
    if to:
        with open(to, "wb") as it:
            it.write(svg.stdout)
    return ""


def texts(vcnet):
    """The name and the text of each example that can be drawn."""
    for file in sorted(glob.glob(f"{ROOT}/examples/*.json")):
        with open(file, "rb") as it:
            text = it.read()
        if is_accepted(vcnet, text):
            yield os.path.basename(file).removesuffix(".json"), text


def main(vcnet, folder=""):
    networks = dict(texts(vcnet))
    ways = [("", []), *((f"_{after}", ["--after", str(after)]) for after in AFTER)]
    told = []
    for name, text in networks.items():
        faults = [(end, fault_of(vcnet, words, text, folder and f"{folder}/{name}{end}.svg")) for end, words in ways]
        told += [f"{name}{end}: {fault}" for end, fault in faults if fault]
    print("\n".join([*told, f"{len(networks)} networks, {len(told)} faults"]))
    return 1 if told or not networks else 0


if __name__ == "__main__":
    if len(sys.argv) not in (2, 3):
        sys.exit(__doc__)
    sys.exit(main(*sys.argv[1:]))
