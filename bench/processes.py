#!/usr/bin/env python3
"""Tells how many events a second processes make, and that their memory does not grow with the events.

Usage: bench/processes.py VCNET, VCNET being the built program (crates/vcnet/out/vcnet). Each network is run by `vcnet step` up to two
limits of events. Printed are the events a second between the two, and the bytes of memory that each event more took: none, but for
some pages by which two runs differ.

- while: a WHILE that counts up one variable.
- par: a PAR of 1,000 parts, each a WHILE of SKIP.
- alt: an ALT of 100 guards in a WHILE, beside 100 processes that each output on a channel of the same node.

Made with rattle-kit-13f, logic dac8208d650f15bf.
"""
import json
import pathlib
import subprocess
import sys

import peak


def node(process, variables=(), channels=()):
    """A network of one node with this process, these variables of whole numbers and these channels inside it."""
    return {
        "version": 2,
        "nodes": [{"name": "a", "vars": [[name, "int"] for name in variables], "process": process}],
        "channels": [{"name": name, "kind": "int", "node": "a"} for name in channels],
    }


def counting():
    return node({"while": [["<", "x", 10**9], {"set": ["x", ["+", "x", 1]]}]}, ["x"])


def parts():
    return node({"par": [{"while": [True, "skip"]}] * 1000})


def choices():
    names = [f"c{k}" for k in range(100)]
    senders = [{"while": [True, {"out": [name, 1]}]} for name in names]
    choice = {"while": [True, {"alt": [[True, name, "x", "skip"] for name in names]}]}
    return node({"par": [choice, *senders]}, ["x"], names)


def run(program, network, limit):
    """Seconds and peak memory in bytes of a run of so many events."""
    words = [program, "step", "--limit", str(limit)]
    done, seconds, kib = peak.run(words, input=json.dumps(network).encode(), stdout=subprocess.DEVNULL)
    if done.returncode != 3:
        sys.exit("a run that its limit does not end")
    return seconds, kib * 1024


def main():
    program = pathlib.Path(sys.argv[1]).resolve()
    for name, network, few in [("while", counting(), 10**6), ("par", parts(), 10**4), ("alt", choices(), 10**4)]:
        many = 4 * few
        first, small = run(program, network, few)
        second, large = run(program, network, many)
        rate = (many - few) / (second - first)
        print(f"{name:6} {rate:12,.0f} events a second, {(large - small) / (many - few):6.1f} bytes an event")


if __name__ == "__main__":
    if len(sys.argv) != 2:
        sys.exit(__doc__)
    main()
