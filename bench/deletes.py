#!/usr/bin/env python3
"""Tells whether long lists of deleting links make `vcnet check` or `vcnet deadlock` slow.

Usage: bench/deletes.py VCNET, VCNET being the built program (crates/vcnet/out/vcnet). For each network, with 32 deleting links and with
2,000,000, and for each of the two words: the median of five runs in seconds, the peak memory in MiB, and the line that was printed.
The texts of a network mean the same but for their length, so what the longer takes more is its reading and one pass over its lists.
`bench/deletes.py LENGTH` writes the text of the first network with that many.

- circle: one switch with 15 wires to itself, and a virtual link whose packets may leave by any of their 30 ends, over and over.
- tables: check.py's 32 switches in a row, each with a list of its own, and 256 virtual links over all of them.

Made with rattle-kit-13f, logic dac8208d650f15bf.
"""
import json
import pathlib
import statistics
import sys

import check

LENGTHS = (32, 2_000_000)


def circle(length):
    """One switch, with a list of that many links: its first, which no packet leaves by, again and again."""
    wires = [["a", 0, "s", 0], ["b", 0, "s", 1]] + [["s", link, "s", link + 1] for link in range(2, 32, 2)]
    switch = {"name": "s", "table": [[0, 16, 2, 31]], "delete": [0] * length}
    nodes = [{"name": "a", "process": "skip"}, {"name": "b", "process": "skip"}]
    vlinks = [{"name": "v", "a": ["a", 0, 1, [1]], "b": ["b", 0, 1, [1]]}]
    return {"version": 2, "nodes": nodes, "switches": [switch], "wires": wires, "vlinks": vlinks}


def tables(length):
    """Switches in a row, whose lists have that many links together: link 3 of each, which has no wire, again and again."""
    network = check.tables()
    switches = network["switches"]
    for switch in switches:
        switch["delete"] = [3] * (length // len(switches))
    return network


def text(network):
    return json.dumps(network, separators=(",", ":")).encode()


def main():
    if len(sys.argv) < 2:
        sys.exit(__doc__)
    if sys.argv[1].isdigit():
        sys.stdout.buffer.write(text(circle(int(sys.argv[1]))))
        return
    program = pathlib.Path(sys.argv[1]).resolve()
    for name, made in (("circle", circle), ("tables", tables)):
        for length in LENGTHS:
            network = text(made(length))
            for word in ("check", "deadlock"):
                runs = [check.run(program, word, network) for _ in range(5)]
                seconds = statistics.median(seconds for seconds, _, _ in runs)
                memory = max(memory for _, memory, _ in runs)
                print(f"{name:8} {length:8} {word:8} {seconds:8.3f} s {memory:8.1f} MiB  {runs[0][2]}")


if __name__ == "__main__":
    main()
