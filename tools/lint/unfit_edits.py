#!/usr/bin/env python3
"""Looks at the edits: tools/lint/unfit_edits.py [--list].

It prints a line for each of these, and fails if there is one: an edit whose first line does not say, after a `#` and in a sentence or two,
what its wrong body does; an edit that the sources do not take; and an edit that docs/PROMISES.md names and that is not there. With --list it
prints a table for each crate: its edits, what each one's wrong body does, and who tries it.

An edit is lines `file: PATH`, `old: TEXT` and `new: TEXT`, in order. Its crate's sources take it if each old text is in its file once, after
the edits before it.

Made with rattle-kit-13f, logic dac8208d650f15bf.
"""
import glob
import os
import re
import sys

ROOT = os.path.dirname(os.path.dirname(os.path.dirname(os.path.abspath(__file__))))
PAGE = f"{ROOT}/docs/PROMISES.md"
REASON = re.compile(r"# ([A-Z`].*\.)\n")
# Who tries the edits of a folder.
TRIED = {"crates": "gate", "tools": "tools"}


def text_of(path):
    with open(path, encoding="utf-8") as it:
        return it.read()


def paths():
    return sorted(glob.glob(f"{ROOT}/crates/*/must-fail/*.edit") + glob.glob(f"{ROOT}/tools/proof/edits/*/*.edit"))


def crate_and_name(path):
    steps = os.path.relpath(path, ROOT).split("/")
    return steps[1 if steps[0] == "crates" else 3], steps[-1].removesuffix(".edit")


def edits():
    """Each edit's crate, name, what it does (nothing if its first line does not say it) and who tries it."""
    found = []
    for path in paths():
        reason = REASON.match(text_of(path))
        tried = TRIED[os.path.relpath(path, ROOT).split("/")[0]]
        found.append((*crate_and_name(path), reason and reason[1], tried))
    return sorted(found)


def refusal(path, crate):
    """Why the sources of its crate do not take an edit; nothing if they do."""
    texts, file, old = {}, None, None
    for line in text_of(path).split("\n"):
        word, _, rest = line.partition(": ")
        if word == "file":
            file = rest
        elif word == "old":
            old = rest
        elif line.startswith("new:"):
            place = f"{ROOT}/crates/{crate}/{file}"
            if not os.path.isfile(place):
                return f"{file} is not there"
            text = texts.setdefault(file, text_of(place))
            if text.count(old) != 1:
                return f"{text.count(old)} times in {file}, and not once: {old.strip()}"
            texts[file] = text.replace(old, line[4:].removeprefix(" "))
    return None if texts else "it has no old and new text"


def untaken():
    """A line for each edit that the sources do not take."""
    for path in paths():
        crate, name = crate_and_name(path)
        why = refusal(path, crate)
        if why:
            yield f"{crate}/{name}: {why}"


def table(found):
    """The list of all edits."""
    by_gate = sum(tried == "gate" for *_, tried in found)
    lines = [f"There are {len(found)} edits, of which the gate tries {by_gate}."]
    for crate in sorted({it[0] for it in found}):
        lines += [f"\n### {crate}\n", "| Edit | What the wrong body does | Tried by |", "|---|---|---|"]
        lines += [f"| `{name}` | {reason} | {tried} |" for of, name, reason, tried in found if of == crate]
    return "\n".join(lines)


def main():
    found = edits()
    there = {f"{crate}/{name}" for crate, name, *_ in found}
    named = re.findall(r"`(vc_\w+/\w+)`", text_of(PAGE).split("## Wrong programs")[1])
    told = [f"{crate}/{name}: its first line does not say what it does" for crate, name, reason, _ in found if not reason]
    told += [f"docs/PROMISES.md: {it} is no edit" for it in named if it not in there]
    told += untaken()
    if "--list" in sys.argv:
        print(table(found))
    print("\n".join([*told, f"{len(found)} edits, {len(told)} faults"]))
    return 1 if told else 0


if __name__ == "__main__":
    sys.exit(main())
