#!/usr/bin/env python3
"""Tells what the proofs of a crate took, by function and by kind: tools/proof/slow_proofs.py CRATE [LINES].

A check keeps each module that it has checked in the crate's out/incremental, and one after another: so the time between two files is
what the later one took. It is right for a first check on one processor (`rm -r out/incremental; rt check --jobs 1`); after an edit the
folder holds modules of several checks. `Lts` is the borrow checker's part of a function, which grows with its ways out and what is
dropped on each; `Proof` is the search for goals without an answer; the others are what rattle writes of a function.

Made with rattle-kit-13f, logic dac8208d650f15bf.
"""
import collections
import glob
import os
import re
import sys

ROOT = os.path.dirname(os.path.dirname(os.path.dirname(os.path.abspath(__file__))))
# A module of a function: its name, and which part of its proof it is.
PART = re.compile(
    r"^(.*?)\.(Answers|Code|Given|Goals|Invariants|Kinds|Layout|Lts|Met|Mir|Named|Proof|Reads|Statement|Symbol|TheLink|Tie)\b.*$"
)


def seconds(crate):
    """The modules of a crate, each with the seconds that it took."""
    kept = glob.glob(f"{ROOT}/crates/{crate}/out/incremental/antt-checked*")
    if not kept:
        sys.exit(f"{crate} has no kept modules: check it first")
    files = sorted((os.stat(it.path).st_mtime, it.name) for it in os.scandir(kept[0]) if it.name.endswith(".oantt"))
    name = lambda file: re.sub(r"^Rattle-\w+?-(proofs|specs)\.|\.oantt$", "", file)
    return [(name(file), at - before) for (before, _), (at, file) in zip(files, files[1:])]


def show(title, sums, lines):
    print(title)
    for it, took in sorted(sums.items(), key=lambda it: -it[1])[:lines]:
        print(f"{took:8.1f}  {it}")


def main(crate, lines=20):
    modules = seconds(crate)
    functions, kinds = collections.Counter(), collections.Counter()
    for module, took in modules:
        found = PART.match(module)
        functions[found[1] if found else module] += took
        kinds[found[2] if found else "other"] += took
    print(f"{crate}: {sum(kinds.values()):.0f} seconds, {len(modules)} modules")
    show("by kind", kinds, 8)
    show("by function", functions, int(lines))


if __name__ == "__main__":
    if len(sys.argv) not in (2, 3):
        sys.exit(__doc__)
    main(*sys.argv[1:])
