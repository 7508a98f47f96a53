#!/usr/bin/env python3
"""Tells which answers of a crate its check does not need: tools/proof/needless_answers.py CRATE.

It checks a copy of the crate without any answer, and lists each answer of the crate whose goal is proved all the same, with its line.
The crates below must have been checked before. The check has `--margin`, which halves the limits of the searches, so that what is proved
then is proved with the usual limits too, but for few. It leaves out the goals of a function that calls one without a proof: call it again
after the listed answers are taken out. Then `rt check` must still prove the crate.

Made with rattle-kit-13f, logic dac8208d650f15bf.
"""
import collections
import glob
import os
import re
import shutil
import subprocess
import sys
import tempfile

KIT = "/opt/rattle/bin"
ROOT = os.path.dirname(os.path.dirname(os.path.dirname(os.path.abspath(__file__))))
GOAL = re.compile(r"(?:pub )?(\S+) : goal\.")
# What a check says of a function whose goals are open: the file that should answer them, and their names.
OPEN = re.compile(r"no proof: .*?expected answers in \./(\S+?Answers\.antt)(.*)")
NAMES = re.compile(r"did not prove ((?:`[^`]+`(?:, | and )?)+)")
# What it says of a function whose goals it left out.
LEFT_OUT = re.compile(r"has not tried the goals of `\w+::([^`]+)`")


def open_goals(crate):
    """The goals that a check without answers leaves open, by the file that should answer them, and the functions that it left out."""
    sys.dont_write_bytecode = True
    sys.path.insert(0, KIT)
    import rtlib

    words = [rtlib.RATTLE, "check", *rtlib.Crate(f"{ROOT}/crates/{crate}", ROOT, {}).words([], keeps=False), "--margin"]
    with tempfile.TemporaryDirectory() as room:
        for part in rtlib.PARTS:
            if os.path.isdir(f"{ROOT}/crates/{crate}/{part}"):
                shutil.copytree(f"{ROOT}/crates/{crate}/{part}", f"{room}/{part}")
        for file in glob.glob(f"{room}/proofs/**/Answers.antt", recursive=True):
            os.remove(file)
        told = subprocess.run(words, cwd=room, stdout=subprocess.PIPE, stderr=subprocess.STDOUT, text=True, check=False).stdout
    if "logic=" not in told:
        sys.exit(f"{crate} was not checked:\n{told[-2000:]}")
    found = collections.defaultdict(set)
    for line in told.splitlines():
        for file, rest in OPEN.findall(line):
            for names in NAMES.findall(rest):
                found[file].update(re.findall(r"`([^`]+)`", names))
    return found, set(LEFT_OUT.findall(told))


def answers(file):
    """The answers of a file: the name of each goal, its line, and how many lines it has."""
    found = []
    with open(file, encoding="utf-8") as lines:
        for number, line in enumerate(lines, 1):
            goal = GOAL.match(line)
            if goal:
                found.append([goal[1], number, 0])
            if found and line.strip():
                found[-1][2] += 1
    return found


def is_left_out(goal, name, functions):
    """Whether the goal is one of a function that was left out. Where functions call one another, the name of a goal has its function."""
    place = os.path.dirname(name).removeprefix("proofs/").split("/")
    if not place[-1].startswith("+"):
        return "::".join(place) in functions
    return any(f"::{it.split('::')[-1]}-" in f"::{goal}" for it in functions)


def is_open(goal, goals):
    """Whether the goal is open, or a part of it, or what it is a part of."""
    return any(it == goal or it.startswith(f"{goal}-") or goal.startswith(f"{it}-") for it in goals)


def main(crate):
    (goals, left_out), every, spare = open_goals(crate), 0, 0
    for file in sorted(glob.glob(f"{ROOT}/crates/{crate}/proofs/**/Answers.antt", recursive=True)):
        name = os.path.relpath(file, f"{ROOT}/crates/{crate}")
        for goal, line, lines in answers(file):
            every += lines
            if not is_open(goal, goals[name]) and not is_left_out(goal, name, left_out):
                spare += lines
                print(f"{name}:{line}: {goal}")
    print(f"{crate}: of {every} lines of answers the check does not need {spare}")


if __name__ == "__main__":
    if len(sys.argv) != 2 or sys.argv[1].startswith("-"):
        sys.exit(__doc__)
    main(sys.argv[1])
