#!/usr/bin/env python3
"""Tells which lemmas say the same: tools/proof/equal_lemmas.py [MOST].

Two lemmas of the crates' proofs say the same where their statements differ in the names of their variables alone. A lemma that std
has under `std/proofs` is named, too. It shows the groups with the most lines to save, 40 or MOST of them. A lemma can be shared by
crates of which one stands on the other: it is made `pub` in the lower one.

Made with rattle-kit-13f, logic dac8208d650f15bf.
"""
import collections
import glob
import os
import re
import sys

ROOT = os.path.dirname(os.path.dirname(os.path.dirname(os.path.abspath(__file__))))
STD = "/opt/rattle/rattle/std/proofs"
# The head of a statement: its indent, what stands before its name, the name, and the type as far as the line goes.
HEAD = re.compile(r"^( *)((?:pub |abbrev |unfoldable )*)([^\s:(){}]+) : (.*)$")
NOT_HEADS = ("--", "use ", "record ", "data ", "let ", "module ")
# Shorter statements are those of facts that a proof has beside it.
SHORTEST = 30


def indent(line):
    return len(line) - len(line.lstrip())


def shape(statement):
    """A statement with its variables numbered in the order in which they are bound."""
    bound = {}
    for group in re.findall(r"[({]([^(){}:]+) :", statement):
        for name in group.split():
            bound.setdefault(name, f"v{len(bound)}")
    words = re.split(r"(\s+|[(){},.;])", statement)
    return re.sub(r"\s+", " ", "".join(bound.get(word, word) for word in words))


def lemmas(file):
    """The lemmas of a file: the shape of each, its name, its line, how many lines it takes, and whether others may use it."""
    with open(file, encoding="utf-8") as text:
        lines = text.read().split("\n")
    at = 0
    while at < len(lines):
        head = HEAD.match(lines[at])
        if not head or lines[at].lstrip().startswith(NOT_HEADS):
            at += 1
            continue
        margin, modifiers, name, statement = head.groups()
        clause = re.compile(rf"^\s*{re.escape(name)}(\s|$)")
        end = at + 1
        while end < len(lines) and indent(lines[end]) > len(margin) and not clause.match(lines[end]):
            statement += " " + lines[end].strip()
            end += 1
        last = end
        while last < len(lines) and lines[last].strip() and not HEAD.match(lines[last]):
            last += 1
        if "→" in statement and len(shape(statement)) > SHORTEST:
            yield shape(statement), name, at + 1, last - at, "pub" in modifiers
        at = end


def of_folder(folder, is_kit=False):
    """The lemmas of a folder by their shapes; of the kit those that others may use."""
    found = collections.defaultdict(list)
    for file in sorted(glob.glob(f"{folder}/**/*.antt", recursive=True)):
        for statement, name, line, length, is_public in lemmas(file):
            if is_public or not is_kit:
                found[statement].append((file, line, name, length))
    return found


def main(most=40):
    found = collections.defaultdict(list)
    for folder in sorted(glob.glob(f"{ROOT}/crates/*/proofs")):
        for statement, places in of_folder(folder).items():
            found[statement] += places
    kit = of_folder(STD, is_kit=True)
    groups = []
    for statement, places in found.items():
        spared = sum(place[3] for place in places) - (0 if statement in kit else max(place[3] for place in places))
        if spared:
            groups.append((spared, statement, places + kit.get(statement, [])[:1]))
    for spared, statement, places in sorted(groups, reverse=True)[: int(most)]:
        print(f"{spared} lines: {statement[:100]}")
        for file, line, name, _ in places:
            print(f"    {os.path.relpath(file, ROOT) if file.startswith(ROOT) else file}:{line} {name}")
    print(f"{len(groups)} groups, {sum(group[0] for group in groups)} lines")


if __name__ == "__main__":
    if len(sys.argv) > 2:
        sys.exit(__doc__)
    main(*sys.argv[1:])
