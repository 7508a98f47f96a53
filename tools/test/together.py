#!/usr/bin/env python3
"""Tells whether networks do the same as one node: tools/test/together.py VCNET [COUNT [FIRST]].

It makes COUNT networks by chance (2,000), numbered from FIRST on (1), whose labels deliver, which `deadlock` calls free, of processes
without ALT and `stopch`, and runs each by `step` and by `step --together`. Where both come to rest, each channel must have the same messages taken in the same order,
and both must end alike. Most nodes output and input by one schedule, so that most networks take messages; in some of them two of a
node's communications change places, or a process is any by chance, so that it waits for ever. A network of which the two differ is
printed; the last lines count what was compared.

Made with rattle-kit-13f, logic dac8208d650f15bf.
"""
import collections
import json
import re
import subprocess
import sys

import alike
from alike import chance, pick, whole


def ends_of(network):
    """Each channel's name and kind, and the nodes that output and input on it."""
    vlinks = {it["name"]: (it["a"][0], it["b"][0]) for it in network["vlinks"]}
    for it in network["channels"]:
        home = vlinks[it["vlink"]][:: 1 if it["way"] == "ab" else -1] if "vlink" in it else (it["node"], it["node"])
        yield it["name"], it["kind"], *home


def repeated(process, count):
    return process if count == 1 else {"for": ["k", 0, count, process]}


def by_schedule(network):
    """Gives each node its part of a list of messages, in the list's order."""
    parts, channels = collections.defaultdict(list), list(ends_of(network))
    for name, kind, sender, taker in [pick(channels) for _ in range(whole(1, 8)) if channels]:
        literal = alike.Writer([], [], []).value(kind) if kind == "bytes" else whole(-50, 50)
        output, taken = {"out": [name, literal]}, {"in": [name, f"y{kind}"]}
        if sender == taker:
            parts[sender].append({"par": [output, taken]})
            continue
        count = pick([1, 1, 1, 2, 3])
        variables = [(f"y{kind}", kind), ("k", "int")]
        if chance() < 0.3:
            output["out"][1] = alike.Writer(variables, [], []).value(kind)
        parts[sender].append(repeated(output, count))
        parts[taker].append(repeated(taken, count))
    for node in network["nodes"]:
        of_node = parts[node["name"]]
        if chance() < 0.1 and len(of_node) > 1:
            at = whole(1, len(of_node) - 1)
            of_node[at - 1 : at + 1] = of_node[at - 1 : at + 1][::-1]
        if chance() < 0.85:
            node["vars"] = [["yint", "int"], ["ybytes", "bytes"], ["k", "int"]]
            node["process"] = {"seq": of_node}
    return network


def network(number):
    """The number determines it; its processes have neither ALT nor stopch."""
    alike.CHANCE.seed(number)
    while True:
        made = by_schedule(alike.delivering())
        if not {'"alt"', '"stopch"'} & set(re.findall(r'"\w+"', json.dumps(made))):
            return made


def run(program, words, file):
    ran = subprocess.run([program, "step", *words, "--limit", "100000"], input=file, capture_output=True, timeout=60, check=False)
    return ran.returncode, ran.stdout.decode()


def is_free(program, file):
    """Whether packets can't come to wait for one another in a circle; a refused network tells itself later."""
    return subprocess.run([program, "deadlock"], input=file, capture_output=True, timeout=60, check=False).returncode != 1


def compared(text):
    """What is taken on each channel, and how the run ended."""
    return [re.sub(r" offered \d+ (taken \d+) finished \d+", r" \1", line) for line in text.splitlines()]


def main(program, count=2000, first=1):
    told, differ, number = collections.Counter(), 0, int(first)
    while sum(told[it] for it in ("with messages", "without")) + differ < int(count):
        made = network(number)
        number += 1
        file = json.dumps(made).encode()
        if not is_free(program, file):
            told["with a circle"] += 1
            continue
        (status, ours), (other, theirs) = run(program, [], file), run(program, ["--together"], file)
        if status in (2, 4) or other in (2, 4):
            told[" ".join((ours if status == 2 else theirs).split()[:3])] += 1
        elif 3 in (status, other):
            told["goes on"] += 1
        elif status != other or compared(ours) != compared(theirs):
            differ += 1
            print(f"network {number - 1}:", file.decode(), ours, theirs, sep="\n", flush=True)
        else:
            told["with messages" if re.search(r" taken [1-9]", ours) else "without"] += 1
            told[f"of these {ours.splitlines()[-1]}"] += 1
    for what, times in sorted(told.items()):
        print(f"{times:6} {what}")
    print(f"{differ} of {count} networks differ, of {number - int(first)} that were made")
    return 1 if differ else 0


if __name__ == "__main__":
    if len(sys.argv) not in (2, 3, 4):
        sys.exit(__doc__)
    sys.exit(main(*sys.argv[1:]))
