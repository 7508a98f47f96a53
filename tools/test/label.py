#!/usr/bin/env python3
"""Tries `vcnet label` on topologies, and measures what it makes: tools/test/label.py VCNET [COUNT [FIRST]].

Without COUNT it takes networks that people know (rows, rings, trees, grids, tori, hypercubes, Clos networks, regular graphs by chance) and
prints a line for each: how many switches packets pass, all ordered pairs of nodes on an average, by the shortest paths and by the labels,
and for the worst pair; the longest path; rows of tables, all and most at a switch; the greatest and the mean load of a link between
switches, where each node sends 1 to each other one; and the seconds of `vcnet label`. With COUNT it takes that many networks by chance,
numbered from FIRST on (1): up to 32 nodes and switches, parallel wires, wires of a place to itself, wires between nodes, and links in any
order. Pairs of nodes are taken 256 at a time, since a network has no more virtual links.

Each file that is made must be accepted by `vcnet check`, and `vcnet deadlock` must print `free`. A walk of its own goes along all paths
of the printed tables: each must end at the right node, and the dependencies of the file must have no cycle. It fails where one of these is
not so. Hops and loads are of all files of a network together; each file is labelled for the channels that it has.

Made with rattle-kit-13f, logic dac8208d650f15bf.
"""
import collections
import json
import random
import subprocess
import sys
import time


class Build:
    """A network: of each wire the two places, by number and then by link. The least free links are taken."""

    def __init__(self, nodes, switches):
        self.nodes, self.switches, self.wires, self.used = nodes, switches, [], collections.Counter()

    def room(self, place):
        return (4 if place[0] == "n" else 32) - self.used[place]

    def join(self, one, two, count=1):
        for _ in range(count):
            ports = []
            for place in (one, two):
                ports += [place, self.used[place]]
                self.used[place] += 1
            self.wires.append(ports)
        return self


def attached(switches, pairs, per=1, count=1):
    it = Build(switches * per, switches)
    for n in range(switches * per):
        it.join(f"n{n}", f"s{n // per}")
    for x, y in pairs:
        it.join(f"s{x}", f"s{y}", count)
    return it


def row(n, count=1):
    return attached(n, [(k, k + 1) for k in range(n - 1)], count=count)


def ring(n, count=1):
    return attached(n, [(k, (k + 1) % n) for k in range(n)], count=count)


def tree(n, arity):
    return attached(n, [((k - 1) // arity, k) for k in range(1, n)])


def product(sides, closed=False):
    """A grid of these sides, or a torus."""
    size = 1
    for side in sides:
        size *= side
    pairs = []
    for x in range(size):
        step = 1
        for side in sides:
            at = x // step % side
            if at + 1 < side:
                pairs.append((x, x + step))
            elif closed and side > 2:
                pairs.append((x - at * step, x))
            step *= side
    return attached(size, pairs)


def complete(n):
    return attached(n, [(i, j) for i in range(n) for j in range(i + 1, n)])


def clos(leaves, spines, per):
    it = Build(leaves * per, leaves + spines)
    for n in range(leaves * per):
        it.join(f"n{n}", f"s{n // per}")
    for leaf in range(leaves):
        for spine in range(spines):
            it.join(f"s{leaf}", f"s{leaves + spine}")
    return it


def regular(n, degree, seed):
    """A connected graph in which each switch has so many neighbours, by chance: two wires at a time change their ends."""
    r = random.Random(seed)
    pairs = {tuple(sorted((k, (k + d) % n))) for k in range(n) for d in range(1, degree // 2 + 1)}
    if degree % 2:
        pairs |= {(k, k + n // 2) for k in range(n // 2)}
    for _ in range(20 * len(pairs)):
        (a, b), (c, d) = r.sample(sorted(pairs), 2)
        new = {tuple(sorted((a, c))), tuple(sorted((b, d)))}
        if len({a, b, c, d}) == 4 and not new & pairs:
            pairs = pairs - {(a, b), (c, d)} | new
    return attached(n, sorted(pairs))


NAMED = {
    "row 32": lambda: row(32), "ladder 32 x 4": lambda: row(32, 4), "tree 31 by 2": lambda: tree(31, 2),
    "ring 8": lambda: ring(8), "ring 16": lambda: ring(16), "ring 32": lambda: ring(32),
    "grid 3 x 3": lambda: product([3, 3]), "grid 4 x 8": lambda: product([8, 4]), "grid 3 x 3 x 3": lambda: product([3, 3, 3]),
    "hypercube 5": lambda: product([2] * 5), "torus 4 x 4": lambda: product([4, 4], True), "torus 5 x 6": lambda: product([5, 6], True),
    "torus 4 x 8": lambda: product([4, 8], True), "Clos 8 + 4": lambda: clos(8, 4, 4), "Clos 16 + 8": lambda: clos(16, 8, 2),
    "complete 22": lambda: complete(22), "regular 16 of 3": lambda: regular(16, 3, 1), "regular 32 of 3": lambda: regular(32, 3, 1),
    "regular 32 of 4": lambda: regular(32, 4, 1), "regular 32 of 6": lambda: regular(32, 6, 1), "regular 32 of 14": lambda: regular(32, 14, 1),
}


def by_chance(seed):
    r = random.Random(seed)
    switches, nodes = r.randint(1, 32), r.randint(1, 32)
    it = Build(nodes, switches)

    def join(one, two, count):
        for _ in range(count):
            if len(it.wires) < 256 and it.room(one) > (one == two) and it.room(two):
                it.join(one, two)

    for s in range(1, switches):
        join(f"s{r.randrange(s)}", f"s{s}", r.choice([1, 1, 1, 2, 3]))
    for n in range(nodes):
        join(f"n{n}", f"s{r.randrange(switches)}", 1)
    for _ in range(r.choice([0, 2, 10, 40, 200])):
        one = f"s{r.randrange(switches)}"
        two = f"s{r.randrange(switches)}" if r.random() < 0.8 else f"n{r.randrange(nodes)}"
        if r.random() < 0.05:
            one, two = f"n{r.randrange(nodes)}", f"n{r.randrange(nodes)}"
        join(one, one if r.random() < 0.02 else two, r.choice([1, 1, 1, 2, 4]))
    for s in range(switches):
        new = r.sample(range(32), 32) if r.random() < 0.5 else range(32)
        for wire in it.wires:
            for k in (0, 2):
                if wire[k] == f"s{s}":
                    wire[k + 1] = new[wire[k + 1]]
    r.shuffle(it.wires)
    return it


def distances(it):
    """How many switches the packets between two nodes pass at least, for each pair that is joined."""
    near = collections.defaultdict(set)
    for one, _, two, _ in it.wires:
        near[one].add(two)
        near[two].add(one)
    found = {}
    for n in range(it.nodes):
        start = f"n{n}"
        far, front = {}, [start]
        hops = 0
        while front:
            to = [y for x in front for y in near[x] if y != start and y not in far]
            far.update((y, hops) for y in to)
            front = [y for y in dict.fromkeys(to) if y[0] == "s"]
            hops += 1
        found.update({(start, y): h for y, h in far.items() if y[0] == "n"})
    return found


class Walk:
    """All paths of printed files: switches passed, loads, dependencies."""

    def __init__(self):
        self.hops, self.load, self.after = {}, collections.Counter(), collections.defaultdict(set)

    def go(self, whole):
        across = {}
        for a, la, b, lb in whole["wires"]:
            across[a, la], across[b, lb] = (b, lb), (a, la)
        tables = {it["name"]: it["table"] for it in whole.get("switches", [])}
        for vlink in whole.get("vlinks", []):
            for one, two in (("a", "b"), ("b", "a")):
                node, link, _, route = vlink[one]
                assert route == [vlink[two][2]], vlink
                self.follow(across, tables, (node, link), route[0], vlink[two][0])

    def follow(self, across, tables, start, header, to):
        groups, lengths = {}, {}

        def length(port):
            place = across[port][0]
            if place not in tables:
                assert place == to, (start, place, to)
                return 0, 0
            if place not in lengths:
                lengths[place] = None
                row = next(row for row in tables[place] if row[0] <= header < row[1])
                groups[place] = [(place, link) for link in range(row[2], row[3] + 1)]
                ends = [length(it) for it in groups[place]]
                lengths[place] = 1 + min(e[0] for e in ends), 1 + max(e[1] for e in ends)
                order.append(place)
            assert lengths[place], "a path goes round"
            self.after[port].update(groups[place])
            return lengths[place]

        order = []
        self.hops[start[0], to] = length(start)
        flow = collections.Counter({across[start][0]: 1.0})
        for place in reversed(order):
            for port in groups[place]:
                self.load[port] += flow[place] / len(groups[place])
                flow[across[port][0]] += flow[place] / len(groups[place])

    def is_free(self):
        """Whether the dependencies have no cycle: ports on which none waits are taken away until none is left."""
        into = collections.Counter(q for after in self.after.values() for q in after)
        ports = set(self.after) | set(into)
        rest = [p for p in ports if not into[p]]
        taken = 0
        while rest:
            taken += 1
            for q in self.after.get(rest.pop(), ()):
                into[q] -= 1
                if not into[q]:
                    rest.append(q)
        return taken == len(ports)


def run(vcnet, word, text):
    begin = time.time()
    it = subprocess.run([vcnet, word], input=text.encode(), capture_output=True, check=False)
    return it.stdout.decode(), time.time() - begin


def measure(vcnet, name, it):
    """Labels a network for all its pairs of nodes, and answers whether all is well and what was measured."""
    shortest = distances(it)
    pairs = [(a, b) for a, b in shortest if int(a[1:]) < int(b[1:])]
    walk, rows, seconds, whole = Walk(), [], 0.0, {}
    for k in range(0, max(1, len(pairs)), 256):
        channels = [{"name": f"c{a}_{b}", "kind": "int", "from": a, "to": b} for a, b in pairs[k : k + 256]]
        text = json.dumps({"version": 1, "nodes": [{"name": f"n{n}", "process": "skip"} for n in range(it.nodes)],
                           "switches": [f"s{s}" for s in range(it.switches)], "wires": it.wires, "channels": channels})
        made, took = run(vcnet, "label", text)
        seconds = max(seconds, took)
        verdict, free = run(vcnet, "check", made)[0], run(vcnet, "deadlock", made)[0]
        if not verdict.startswith("accepted") or free != "free\n":
            print(f"{name}: {made[:60]!r} {verdict!r} {free!r}")
            return False, None
        whole = json.loads(made)
        rows = [len(switch["table"]) for switch in whole.get("switches", [])]
        walk.after.clear()
        walk.go(whole)
        if not walk.is_free():
            print(f"{name}: the dependencies have a cycle")
            return False, None
    at = {(a, la): b for a, la, b, _ in whole["wires"]} | {(b, lb): a for a, _, b, lb in whole["wires"]}
    inner = [p for p, far in at.items() if p[0][0] == "s" and far[0] == "s" and far != p[0]]
    loads = [walk.load[p] for p in inner]
    return True, (shortest, walk.hops, rows, loads, seconds)


def line(name, it, measured):
    shortest, hops, rows, loads, seconds = measured
    count = max(1, len(shortest))
    least, mean = sum(shortest.values()) / count, sum(sum(hops[p]) / 2 for p in shortest) / count
    worst = max((hops[p][1] / max(1, shortest[p]) for p in shortest), default=1)
    longest = max(shortest.values(), default=0), max((h[1] for h in hops.values()), default=0)
    load = (max(loads, default=0), sum(loads) / max(1, len(loads)))
    return (f"| {name} | {it.nodes}, {it.switches}, {len(it.wires)} | {least:.2f}, {mean:.2f} | {worst:.2f} | {longest[0]}, {longest[1]} "
            f"| {sum(rows)}, {max(rows, default=0)} | {load[0]:.1f}, {load[1]:.1f} | {seconds:.2f} |")


def main():
    vcnet = sys.argv[1]
    failed, tried, ratios, slowest = 0, 0, [], 0.0
    count = int(sys.argv[2]) if len(sys.argv) > 2 else 0
    first = int(sys.argv[3]) if len(sys.argv) > 3 else 1
    networks = [(f"network {k}", by_chance(k)) for k in range(first, first + count)] if count else [(n, make()) for n, make in NAMED.items()]
    if not count:
        print("| Network | Nodes, switches, wires | Hops: shortest, label | Worst pair | Longest: shortest, label | Rows: all, most | Load: most, mean | Seconds |")
        print("|---|---|---|---|---|---|---|---|")
    for name, it in networks:
        is_well, measured = measure(vcnet, name, it)
        tried, failed = tried + 1, failed + (not is_well)
        if is_well:
            shortest, hops, *_, seconds = measured
            slowest = max(slowest, seconds)
            if sum(shortest.values()):
                ratios.append(sum(sum(hops[p]) / 2 for p in shortest) / sum(shortest.values()))
            if not count:
                print(line(name, it, measured), flush=True)
    mean = sum(ratios) / max(1, len(ratios))
    print(f"{tried} networks, {failed} of which failed; hops / shortest {mean:.3f}, at most {max(ratios, default=1):.3f}; slowest label {slowest:.2f} s")
    return 1 if failed else 0


if __name__ == "__main__":
    if len(sys.argv) < 2:
        sys.exit(__doc__)
    sys.exit(main())
