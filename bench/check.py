#!/usr/bin/env python3
"""Tells how long `vcnet check`, `explain` and `deadlock` take on networks that a checker by paths could not do.

Usage: bench/check.py VCNET, VCNET being the built program (crates/vcnet/out/vcnet). For each network: the median of five runs in
seconds of processor time, the peak memory in MiB, and the first line that was printed. It fails if one takes 0.3 seconds or 50 MiB.

- ladder: examples/ladder.json, 32 switches in a row with four wires from each to the next, so over 4^30 paths each way.
- tables: 32 switches in a row, each with 64 rows, and 256 virtual links over all of them.
- fabric: two switches joined by four wires, each with 64 rows, that put one of 64 random headers before each packet of a node;
  256 virtual links.

The packets of the others can have more lists of headers than a checker could look at:

- astray: four switches in a row that each draw one of 64 headers, and a wrong end after them (494 bytes).
- nested: the same with four switches that delete the headers again; nested64 has 64 rows in each table, and nested5 five of each.
- shared: three of each, and 99 virtual links.
- line3, line5: 32 switches in a row, seven wires between neighbours, and three or five of the switches draw one of 64 headers, each of
  which leads to another group; lines has 256 virtual links.
- lists: 32 switches in a row with wires to the next three, of which half delete the front one of four headers; 256 virtual links.
- mesh: 32 switches, joined by chance, that draw at each input one of 64 headers, each with a link of its own.

Made with rattle-kit-13f, logic dac8208d650f15bf.
"""
import json
import pathlib
import random
import resource
import statistics
import subprocess
import sys

import peak

ROOT = pathlib.Path(__file__).resolve().parent.parent
LINKS = 256
SECONDS, MIB = 0.3, 50


def rows(first, last, count, out):
    """So many rows that adjoin, from the header `first` to the one before `last`."""
    cuts = [first + (last - first) * k // count for k in range(count + 1)]
    return [[lower, limit, *out] for lower, limit in zip(cuts, cuts[1:])]


def between(switches, wires):
    """A network of two nodes, with a virtual link for each pair of blocks 1000 + k at b and 2000 + k at a."""
    vlinks = [
        {"name": f"v{k}", "a": ["a", 0, 2000 + k, [1000 + k]], "b": ["b", 0, 1000 + k, [2000 + k]]}
        for k in range(LINKS)
    ]
    nodes = [{"name": "a", "process": "skip"}, {"name": "b", "process": "skip"}]
    return {"version": 2, "nodes": nodes, "switches": switches, "wires": wires, "vlinks": vlinks}


def tables():
    """Switches in a row, joined by link 4 of each and link 5 of the next."""
    names = [f"s{k}" for k in range(32)]
    switches = []
    for k, name in enumerate(names):
        on = 4 if k < 31 else 0
        back = 5 if k > 0 else 0
        table = rows(1000, 1256, 32, [on, on]) + rows(1256, 2000, 1, [on, on]) + rows(2000, 2256, 31, [back, back])
        switches.append({"name": name, "table": table})
    wires = [["a", 0, "s0", 0], ["b", 0, "s31", 0]] + [[one, 4, two, 5] for one, two in zip(names, names[1:])]
    return between(switches, wires)


def fabric():
    """Two switches that each put a random header, by which the other is found, and which is a portal there."""
    one = (
        rows(2000, 2256, 1, [0, 0])
        + rows(2256, 30000, 1, [0, 0])
        + rows(30000, 30064, 60, [4, 7])
        + rows(30064, 40000, 1, [4, 7])
        + [[40000, 40064, "portal"]]
    )
    two = (
        rows(1000, 1256, 1, [0, 0])
        + rows(1256, 30000, 1, [0, 0])
        + [[30000, 30064, "portal"]]
        + rows(30064, 40000, 1, [4, 7])
        + rows(40000, 40064, 60, [4, 7])
    )
    switches = [
        {"name": "s", "table": one, "random": [[0, 30000, 30064]]},
        {"name": "t", "table": two, "random": [[0, 40000, 40064]]},
    ]
    wires = [["a", 0, "s", 0], ["b", 0, "t", 0]] + [["s", link, "t", link] for link in range(4, 8)]
    return between(switches, wires)


def network(switches, wires, vlinks):
    """A network of two nodes that do nothing."""
    nodes = [{"name": name, "process": "skip"} for name in "ab"]
    return {"version": 2, "nodes": nodes, "switches": switches, "wires": wires, "vlinks": vlinks}


def vlinks(count, route=()):
    """Virtual links whose packets from a have these headers before that of the block at b."""
    return [{"name": f"v{k}", "a": ["a", 0, k, [*route, k]], "b": ["b", 1, k, [k]]} for k in range(count)]


def astray():
    """Switches that draw headers which nothing takes away."""
    switches = [{"name": f"s{k}", "table": [[0, 256, 1, 1]], "random": [[0, 100, 164]]} for k in range(4)]
    wires = [["a", 0, "s0", 0]] + [[f"s{k}", 1, f"s{k + 1}", 0] for k in range(3)] + [["s3", 1, "b", 0]]
    return network(switches, wires, [{"name": "v", "a": ["a", 0, 1, [1]], "b": ["b", 0, 1, [1]]}])


def nested(depth, count, links):
    """Switches that draw headers, and as many that delete them again; so many rows for the drawn ones."""
    cut = 100 if count == 2 else 163
    table = [[0, 100, 1, 1]] + (rows(100, cut, count - 2, [1, 1]) if count > 2 else []) + [[cut, 65536, 1, 1]]
    switches = [{"name": f"s{k}", "table": table, "random": [[0, 100, 164]]} for k in range(depth)]
    switches += [{"name": f"t{k}", "table": table, "delete": [1]} for k in range(depth)]
    names = [switch["name"] for switch in switches]
    wires = [[one, 1, two, 0] for one, two in zip(names, names[1:])]
    return network(switches, [["a", 0, "s0", 0], *wires, [names[-1], 1, "b", 0], ["a", 1, "b", 1]], vlinks(links))


def line(drawing, links, wide=7):
    """Switches in a row, of which some draw headers that lead to groups by chance."""
    chance = random.Random(1)
    switches = []
    for k in range(32):
        table = []
        for header in range(64):
            first = chance.randrange(wide)
            last = chance.randrange(first, wide)
            lower = 999 + header if header else 0
            table.append([lower, 1000 + header if header < 63 else 65536, 8 + first, 8 + last])
        switch = {"name": f"s{k}", "table": table if k < 31 else [[0, 1000, 0, 0], [1000, 65536, "portal"]]}
        if k in drawing:
            switch["random"] = [[1 + link, 1000, 1064] for link in range(wide)]
        switches.append(switch)
    wires = [[f"s{k}", 8 + link, f"s{k + 1}", 1 + link] for k in range(31) for link in range(wide)]
    return network(switches, [["a", 0, "s0", 0], *wires, ["s31", 0, "b", 0], ["a", 1, "b", 1]], vlinks(links))


def lists():
    """Switches in a row with six outputs to the next three, three of which delete the front one of some headers."""
    free, first, wires = [1] * 32, [0] * 32, [["a", 0, "s0", 0]]
    for k in range(31):
        first[k], free[k] = free[k], free[k] + 6
    for k in range(31):
        for out in range(6):
            to = min(31, k + 1 + out % 3)
            wires.append([f"s{k}", first[k] + out, f"s{to}", free[to]])
            free[to] += 1
    switches = [
        {"name": f"s{k}", "table": [[0, 1000, at, at + 2], [1000, 1004, at, at + 5]], "delete": [at + 3, at + 4, at + 5]}
        for k, at in enumerate(first[:31])
    ]
    switches.append({"name": "s31", "table": [[0, 1000, 31, 31], [1000, 1004, "portal"]]})
    return network(switches, wires + [["s31", 31, "b", 0], ["a", 1, "b", 1]], vlinks(LINKS, [1000] * 3))


def mesh():
    """Switches that are joined by chance and draw at each input one of 64 headers, each with a link of its own."""
    chance = random.Random(1)
    ends = [(switch, link) for switch in range(32) for link in range(1, 16)]
    chance.shuffle(ends)
    wires = [["a", 0, "s0", 0], ["b", 0, "s31", 0]]
    wires += [[f"s{one}", link, f"s{two}", other] for (one, link), (two, other) in zip(ends[::2], ends[1::2])]
    used = {f"s{k}": [] for k in range(32)}
    for name, link in [end for one, link, two, other in wires for end in ((one, link), (two, other)) if end[0] in used]:
        used[name].append(link)
    switches = []
    for name, links in used.items():
        table = [[0, 100, links[-1], links[-1]]]
        table += [[100 + k, 101 + k, link, link] for k, link in enumerate(chance.choices(links, k=62))]
        draws = [[link, 100, 164] for link in sorted(links)]
        switches.append({"name": name, "table": [*table, [162, 65536, links[0], links[0]]], "random": draws})
    ends = {"a": ["a", 0, 1, [1] * 4], "b": ["b", 0, 1, [1] * 4]}
    return network(switches, wires, [{"name": "v", **ends}])


def run(program, word, text):
    """Seconds of processor time, peak memory in MiB, and what was printed."""
    before = resource.getrusage(resource.RUSAGE_CHILDREN)
    done, _, kib = peak.run([program, word], input=text, stdout=subprocess.PIPE)
    after = resource.getrusage(resource.RUSAGE_CHILDREN)
    seconds = after.ru_utime + after.ru_stime - before.ru_utime - before.ru_stime
    return seconds, kib / 1024, done.stdout.decode().strip()


def main():
    if len(sys.argv) < 2:
        sys.exit(__doc__)
    program = pathlib.Path(sys.argv[1]).resolve()
    networks = {
        "ladder": (ROOT / "examples/ladder.json").read_bytes(),
        "tables": json.dumps(tables()).encode(),
        "fabric": json.dumps(fabric()).encode(),
    }
    hostile = {
        "astray": astray(),
        "nested": nested(4, 2, 1),
        "nested64": nested(4, 64, 1),
        "nested5": nested(5, 64, 1),
        "shared": nested(3, 2, 99),
        "line3": line((3, 6, 9), 1),
        "line5": line((3, 6, 9, 12, 15), 1),
        "lines": line((3, 6, 9), LINKS),
        "lists": lists(),
        "mesh": mesh(),
    }
    networks.update({name: json.dumps(text).encode() for name, text in hostile.items()})
    tries = [(name, word, text) for name, text in networks.items() for word in ("check", "explain", "deadlock")]
    slow = False
    for name, word, text in tries:
        runs = [run(program, word, text) for _ in range(5)]
        seconds = statistics.median(seconds for seconds, _, _ in runs)
        memory = max(memory for _, memory, _ in runs)
        slow = slow or seconds >= SECONDS or memory >= MIB
        print(f"{name:8} {word:8} {len(text):6} bytes {seconds:8.3f} s {memory:8.1f} MiB  {runs[0][2].splitlines()[0]}")
    sys.exit(slow)


if __name__ == "__main__":
    main()
