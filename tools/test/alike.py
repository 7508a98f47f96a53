#!/usr/bin/env python3
"""Tells whether two programs that read networks answer alike: tools/test/alike.py ONE OTHER [COUNT [FIRST]].

It makes COUNT networks by chance (1,000), numbered from FIRST on (1), and gives each to both programs: `check`, and where that accepts it
`step` up to a few events and up to 20,000. A network of which the two print or answer differently is printed, as a file that can be
given to either again; the last line counts what both answered. So a build can be held against an earlier one, or against another
program of the same format. One network in four is such that its labels deliver, one has a value of its file changed, one a label, a
wire or a link, and one has labels that mostly lead astray.

Made with rattle-kit-13f, logic dac8208d650f15bf.
"""
import collections
import copy
import json
import random
import subprocess
import sys

CHANCE = random.Random()
pick, chance, whole = CHANCE.choice, CHANCE.random, CHANCE.randint


# Processes.


def expression(ints, texts, depth=0):
    """An expression over these variables, which may be a fault."""
    kind = chance()
    if depth > 2 or kind < 0.4:
        number = pick([whole(-3, 6), whole(-50, 50), 0, 255, 2**63 - 1, -(2**63)])
        return pick(ints) if ints and chance() < 0.5 else number
    if kind < 0.5 and texts:
        return ["size", pick(texts)]
    return [pick("+-*/\\"), expression(ints, texts, depth + 1), expression(ints, texts, depth + 1)]


def condition(ints, texts, depth=0):
    kind = chance()
    if depth > 2 or kind < 0.35:
        return pick([True, True, False])
    if kind < 0.75:
        return [pick(["=", "<>", "<", ">", "<=", ">="]), expression(ints, texts, 1), expression(ints, texts, 1)]
    if kind < 0.85:
        return ["not", condition(ints, texts, depth + 1)]
    return [pick(["and", "or"]), condition(ints, texts, depth + 1), condition(ints, texts, depth + 1)]


def bytes_of(texts):
    return pick(
        [
            {"text": pick(["", "hello", "x" * 33, "é", "a" * 100])},
            {"hex": pick(["", "00ff", "7f" * 32, "ab" * 65])},
            {"fill": [whole(0, 255), pick([0, 1, 31, 32, 33, 64, 65, 200])]},
            *texts,
        ]
    )


class Writer:
    """Writes processes over a node's variables, and the channels on which it outputs and inputs: lists of a name and a kind."""

    def __init__(self, variables, outputs, inputs):
        self.variables, self.outputs, self.inputs = variables, outputs, inputs
        self.ints = [name for name, kind in variables if kind == "int"]
        self.texts = [name for name, kind in variables if kind == "bytes"]

    def value(self, kind):
        return expression(self.ints, self.texts) if kind == "int" else bytes_of(self.texts)

    def process(self, depth=0):
        if depth >= 3 or chance() < 0.35:
            return pick([self.quiet, self.output, self.output, self.input, self.input, self.stop])()
        forms = [self.seq, self.par, self.branches, self.counted, self.loop, self.alternative]
        return CHANCE.choices(forms, [35, 25, 10, 8, 8, 14])[0](depth + 1)

    def quiet(self):
        if self.variables and chance() < 0.7:
            name, kind = pick(self.variables)
            return {"set": [name, self.value(kind)]}
        return pick(["skip", "skip", "stop"])

    def output(self):
        if not self.outputs:
            return self.quiet()
        name, kind = pick(self.outputs)
        return {"out": [name, self.value(kind)]}

    def held_by(self, kind):
        """The variables that may take a message of this kind."""
        return [name for name, its in self.variables if its == kind]

    def input(self):
        if self.inputs:
            name, kind = pick(self.inputs)
            if self.held_by(kind):
                return {"in": [name, pick(self.held_by(kind))]}
        return self.quiet()

    def stop(self):
        return {"stopch": pick(self.inputs)[0]} if self.inputs and chance() < 0.3 else self.input()

    def seq(self, depth):
        return {"seq": [self.process(depth) for _ in range(whole(0, 4))]}

    def par(self, depth):
        """Parts that mostly share nothing, so that their use is mostly lawful."""
        count, parts = whole(0, 3), []
        for part in range(count):
            share = (lambda them: them[part::count]) if chance() < 0.8 else (lambda them: them)
            own = Writer(share(self.variables), share(self.outputs), share(self.inputs))
            parts.append(own.process(depth))
        return {"par": parts}

    def branches(self, depth):
        return {"if": [[condition(self.ints, self.texts), self.process(depth)] for _ in range(whole(0, 3))]}

    def without(self, name):
        return Writer([it for it in self.variables if it[0] != name], self.outputs, self.inputs)

    def counted(self, depth):
        if not self.ints:
            return self.seq(depth)
        name = pick(self.ints)
        count = pick([0, 1, 2, 3, 5, -1, expression(self.ints, self.texts, 2)])
        return {"for": [name, expression(self.ints, self.texts, 2), count, self.without(name).process(depth)]}

    def loop(self, depth):
        if not self.ints or chance() < 0.2:
            return {"while": [condition(self.ints, self.texts), self.process(depth)]}
        name = pick(self.ints)
        turn = [{"set": [name, ["+", name, 1]]}, self.without(name).process(depth)]
        return {"seq": [{"set": [name, 0]}, {"while": [["<", name, whole(0, 4)], {"seq": turn}]}]}

    def alternative(self, depth):
        guards = []
        for name, kind in [pick(self.inputs) for _ in range(whole(0, 3)) if self.inputs]:
            if self.held_by(kind):
                test = condition(self.ints, self.texts) if chance() < 0.3 else True
                guards.append([test, name, pick(self.held_by(kind)), self.process(depth)])
        return {"alt": guards}


# Networks.


class Ports:
    """The links of nodes and switches that are not wired yet."""

    def __init__(self):
        self.used, self.wires = collections.defaultdict(set), []

    def free(self, place, count):
        left = [link for link in range(count) if link not in self.used[place]][:6]
        return pick(left) if left else None

    def join(self, one, two, link, other):
        """Whether the two links could be wired."""
        if link is None or other is None or link in self.used[one] or other in self.used[two]:
            return False
        self.used[one].add(link)
        self.used[two].add(other)
        self.wires.append([one, link, two, other])
        return True


def with_processes(version, names, switches, wires, vlinks):
    """A network of these, with channels by chance and a process for each node."""
    outputs, inputs, channels = collections.defaultdict(list), collections.defaultdict(list), []

    def add(sender, taker, **home):
        name, kind = f"c{len(channels)}", pick(["int", "bytes"])
        channels.append({"name": name, "kind": kind, **home})
        outputs[sender].append((name, kind))
        inputs[taker].append((name, kind))

    for vlink in vlinks:
        ends = vlink["a"][0], vlink["b"][0]
        for way, (sender, taker) in [("ab", ends), ("ba", ends[::-1])]:
            if chance() < 0.75:
                add(sender, taker, vlink=vlink["name"], way=way)
    for name in names:
        if chance() < 0.3:
            add(name, name, node=name)
    nodes = []
    for name in names:
        variables = [(f"x{k}", pick(["int", "bytes"])) for k in range(whole(0, 4))]
        variables += [(f"y{kind}", kind) for kind in sorted({kind for _, kind in inputs[name]})]
        process = Writer(variables, outputs[name], inputs[name]).process()
        nodes.append({"name": name, "vars": [list(it) for it in variables], "process": process})
    return {"version": version, "nodes": nodes, "switches": switches, "wires": wires, "vlinks": vlinks, "channels": channels}


def side_by_side(names):
    """Nodes with wires between them, and virtual links along these."""
    ports, vlinks, blocks = Ports(), [], collections.Counter()
    for k, one in enumerate(names):
        for two in names[k + 1 :]:
            for _ in range(pick([1, 1, 2])):
                ports.join(one, two, ports.free(one, 4), ports.free(two, 4))
    for one, link, two, other in CHANCE.choices(ports.wires, k=whole(1, 4)) if ports.wires else []:
        a, b = blocks[one], blocks[two]
        blocks[one] += 1
        blocks[two] += 1
        vlinks.append({"name": f"v{len(vlinks)}", "a": [one, link, a, [b]], "b": [two, other, b, [a]]})
    return [], ports.wires, vlinks


def along_switches(names, count, version):
    """Nodes at a row of switches, which send ten headers to each of the nodes' links, and delete some of them."""
    ports, groups, homes = Ports(), [], []
    for name in names:
        for _ in range(pick([1, 1, 1, 2])):
            at = whole(0, count - 1)
            link, other = ports.free(name, 4), ports.free(f"s{at}", 10)
            if ports.join(name, f"s{at}", link, other):
                homes.append((name, link, at, other))
    for at in range(count - 1):
        links = range(10 + 10 * (at % 2), 10 + 10 * (at % 2) + whole(1, 3))
        groups.append((links[0], links[-1]))
        for link in links:
            ports.join(f"s{at}", f"s{at + 1}", link, link)
    deletes = {(at, other) for _, _, at, other in homes if chance() < 0.4}

    def row(at, number):
        _, _, there, other = homes[number]
        links = (other, other) if there == at else groups[at] if there > at else groups[at - 1]
        return [10 * number, 10 * number + 10, *links]

    switches = []
    for at in range(count):
        table = [row(at, number) for number in range(len(homes))]
        switch = {"name": f"s{at}", "table": table, "delete": sorted(link for there, link in deletes if there == at)}
        own = [other for _, _, there, other in homes if there == at]
        if version == 2 and own and chance() < 0.4:
            first, size = 10 * len(homes), pick([1, 2, 4, 64])
            table.append([first, first + size, "portal"])
            switch["random"] = [[pick(own), first, first + size]]
        switches.append(switch)
    return switches, ports.wires, links_between(homes, deletes)


def links_between(homes, deletes):
    """Virtual links between nodes at switches, with routes that lead there."""
    vlinks, blocks = [], collections.Counter()
    for _ in range(whole(1, 4)):
        one, two = pick(range(len(homes))), pick(range(len(homes)))
        if homes[one][0] == homes[two][0]:
            continue
        ends = {}
        for end, number in (("a", one), ("b", two)):
            name, link, at, other = homes[number]
            place = blocks[name]
            blocks[name] += 1
            is_deleted = (at, other) in deletes
            block = 100 + place if is_deleted else 10 * number + place % 10
            route = [10 * number + whole(0, 9), block] if is_deleted else [block]
            ends[end] = (name, link, block, route)
        a, b = ends["a"], ends["b"]
        vlinks.append({"name": f"v{len(vlinks)}", "a": [*a[:3], b[3]], "b": [*b[:3], a[3]]})
    return vlinks


def delivering():
    version = pick([1, 2])
    names, count = [f"n{k}" for k in range(pick([1, 2, 2, 3, 4]))], pick([0, 0, 1, 1, 2, 3])
    made = along_switches(names, count, version) if count else side_by_side(names)
    return with_processes(version, names, *made)


def astray():
    """Switches with wires, tables and routes by chance."""
    version, ports = pick([1, 2]), Ports()
    names, switches = [f"n{k}" for k in range(pick([2, 2, 3]))], [f"s{k}" for k in range(whole(1, 4))]
    next_link = collections.Counter()

    def add(one, two):
        ports.join(one, two, next_link[one], next_link[two])
        next_link[one] += 1
        next_link[two] += 1

    for name in names:
        add(name, pick(switches))
    for _ in range(whole(0, 6) if len(switches) > 1 else 0):
        add(*CHANCE.sample(switches, 2))
    made = [table_by_chance(name, next_link[name], version) for name in switches]
    headers = lambda: [pick([0, 1, 2, 3, 5, 8, 12, 20, 100]) for _ in range(whole(1, 4))]
    vlinks = []
    for number in range(pick([1, 1, 2])):
        one, two = CHANCE.sample(names, 2)
        ends = [[name, 0, whole(0, 12) + 20 * number, headers()] for name in (one, two)]
        vlinks.append({"name": f"v{number}", "a": ends[0], "b": ends[1]})
    return with_processes(version, names, made, ports.wires, vlinks)


def table_by_chance(name, links, version):
    rows, lower, last = [], 0, max(0, links - 1)
    for number in range(count := whole(1, 4)):
        limit = 65536 if number == count - 1 and chance() < 0.7 else lower + pick([1, 2, 5, 10])
        first = whole(0, last)
        is_portal = version == 2 and chance() < 0.15
        rows.append([lower, limit, "portal"] if is_portal else [lower, limit, first, min(last, first + whole(0, 2))])
        lower = limit
    switch = {"name": name, "table": rows, "delete": sorted({whole(0, last) for _ in range(whole(0, 3))})}
    if version == 2 and chance() < 0.4:
        switch["random"] = [[whole(0, last), lower := whole(0, 12), lower + pick([1, 2, 3, 8])]]
    return switch


# Changes.

ODD = [0, 1, -1, 3, 4, 31, 32, 64, 65535, 65536, 10**20, 2**63, 1.5, True, None, "", "a", "n0", "s0", "c0", "c1", "v0", "x0"]
ODD += ["ab", "ba", "int", "bytes", "portal", "skip", "1a", "a b", "abcdefghijklmnopq", [], {}, [1], ["n0", 0], {"a": 1}]
ODD += [{"fill": [1, 70000]}, {"hex": "0"}, {"hex": "AB"}, ["x0", 1], {"seq": ["skip"]}, {"par": []}, [True, "c0", "x0", "skip"]]


def holders(value):
    """Each list and object in a value with each of its keys."""
    if isinstance(value, (dict, list)):
        for key in list(value) if isinstance(value, dict) else range(len(value)):
            yield value, key
            yield from holders(value[key])


def with_odd_values(file):
    for _ in range(pick([1, 1, 1, 2, 3])):
        holder, key = pick([*holders(file)])
        kind = chance()
        if kind < 0.4:
            holder[key] = copy.deepcopy(pick(ODD))
        elif kind < 0.55:
            del holder[key]
        elif kind < 0.7 and isinstance(holder, list):
            holder.insert(whole(0, len(holder)), copy.deepcopy(holder[key]))
        elif kind < 0.7:
            holder[pick(["zz", "name", "vars", "random", "node", "kind"])] = copy.deepcopy(pick(ODD))
        elif type(holder[key]) is int:
            holder[key] += pick([-1, 1, 10, -10])
        else:
            other, place = pick([*holders(file)])
            holder[key] = copy.deepcopy(other[place])
    return file


def with_other_labels(file):
    for _ in range(pick([1, 1, 2, 2, 3])):
        switches, numbers = file["switches"], []
        for part in (switches, file["wires"], file["vlinks"]):
            numbers += [it for it in holders(part) if type(it[0][it[1]]) is int]
        kind = chance()
        if kind < 0.15 and file["wires"]:
            file["wires"].pop(CHANCE.randrange(len(file["wires"])))
        elif kind < 0.3 and switches:
            pick(switches)["delete"].append(whole(0, 12))
        elif kind < 0.4 and file["vlinks"]:
            route = pick(file["vlinks"])[pick("ab")][3]
            route.insert(whole(0, len(route)), pick([0, 5, 10, 15, 25, 100, 101]))
        elif numbers:
            holder, key = pick(numbers)
            near = [max(0, holder[key] + by) for by in (1, -1, 10, -10)]
            holder[key] = pick([*near, whole(0, 20), pick([31, 32, 65535])])
    return file


def network(number):
    """The file of a network, which its number determines."""
    CHANCE.seed(number)
    made = [delivering, lambda: with_odd_values(delivering()), lambda: with_other_labels(delivering()), astray][number % 4]()
    return json.dumps(made, ensure_ascii=chance() < 0.5).encode()


def answer(program, words, file):
    try:
        ran = subprocess.run([program, *words], input=file, capture_output=True, timeout=60, check=False)
    except subprocess.TimeoutExpired:
        return "no end in a minute", b""
    return ran.returncode, ran.stdout


def main(one, other, count=1000, first=1):
    told, differ = collections.Counter(), 0
    for number in range(int(first), int(first) + int(count)):
        file = network(number)
        few = str(pick([0, 1, 2, 3, 5, 10, 50, 100, 300]))
        for words in (["check"], ["step", "--limit", few], ["step", "--limit", "20000"]):
            ours, theirs = answer(one, words, file), answer(other, words, file)
            if ours != theirs:
                differ += 1
                print(f"network {number}, {' '.join(words)}: {ours} and {theirs}:\n{file.decode()}", flush=True)
                break
            status, text = ours
            told[" ".join(text.decode().split()[:3]) if status == 2 else f"{words[0]} {status}"] += 1
            if status and words == ["check"]:
                break
    for what, times in sorted(told.items()):
        print(f"{times:6} {what}")
    print(f"{differ} of {count} networks differ")
    return 1 if differ else 0


if __name__ == "__main__":
    if len(sys.argv) not in (3, 4, 5):
        sys.exit(__doc__)
    sys.exit(main(*sys.argv[1:]))
