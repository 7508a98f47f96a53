#!/usr/bin/env python3
"""Holds corners of the built program that no contract and no example has: tools/test/corners.py VCNET.

A refused line of events is printed without its control characters. A name of a file of events that is no UTF-8 is told. Each run has the same
output with a stack of 256 KB as with the usual one. The traffic takes little memory beside its messages. tools/test/memory.py calls it, on a program
that is built without its proofs. It says how many corners hold, and fails at the first that does not.

Made with rattle-kit-13f, logic dac8208d650f15bf.
"""
import json
import os
import pathlib
import resource
import subprocess
import sys
import tempfile

ROOT = pathlib.Path(__file__).resolve().parents[2]
# Where peak.py and unproved.py are.
sys.path += [str(ROOT / "bench"), str(ROOT / "tools")]

import peak
HELLO = (ROOT / "examples" / "hello.json").read_bytes()
STACK = 256 * 1024
# Lines of events, and what is printed of the first.
REFUSED = (
    (b"\x1b[31mevent\n", rb"\x1b[31mevent"),
    (b"event a fct 0\r\n", rb"event a fct 0\x0d"),
    (b"\x00\x7f\x9b\xc3\xa9~ \n", rb"\x00\x7f\x9b\xc3\xa9~ "),
    (rb"event \x1b" + b"\n", rb"event \x5cx1b"),
    (b"\x07", rb"\x07"),
    (b"\x1b" * 300, rb"\x1b" * 256),
)
# A network that takes messages of 65,535 bytes, and how many events make some 66 MB of them.
LONG = {
    "version": 1,
    "nodes": [{"name": "a", "vars": [["m", "bytes"]], "process": {"par": [
        {"while": [True, {"out": ["c", {"fill": [7, 65535]}]}]}, {"while": [True, {"in": ["c", "m"]}]}]}}],
    "channels": [{"name": "c", "kind": "bytes", "node": "a"}],
}
EVENTS = 3000


def outcome(words, text, stack=None):
    """What a run prints, and its status; with a stack of so many bytes, if that is said."""
    limit = stack and (lambda: resource.setrlimit(resource.RLIMIT_STACK, (stack, stack)))
    done = subprocess.run(words, input=text, capture_output=True, preexec_fn=limit, timeout=120)
    return done.stdout, done.returncode


def expect(what, got, wanted):
    if got != wanted:
        sys.exit(f"{what}: {got!r} in place of {wanted!r}")
    return 1


def refused_lines(vcnet, folder):
    """Each line is refused, and printed in characters of ASCII."""
    held = 0
    for number, (line, printed) in enumerate(REFUSED):
        events = folder / f"line-{number}"
        events.write_bytes(line)
        got = outcome([vcnet, "replay", "--events", str(events)], HELLO)
        held += expect(f"the line {line!r}", got, (b"refused event 1\n" + printed + b"\n", 2))
    return held


def names(vcnet):
    """A name that is no UTF-8 can't be given."""
    got = outcome([vcnet.encode(), b"replay", b"--events", b"\xff"], HELLO)
    return expect("a name that is no UTF-8", got, (b"error: the command line is no UTF-8\n", 5))


def nested(depth):
    """A process of this depth."""
    process = "skip"
    for _ in range(depth - 1):
        process = {"par": [process, "skip"]}
    return process


def deep_networks():
    """Networks that want much of the stack, each with the words of a command line."""
    deep = {"version": 1, "nodes": [{"name": f"n{k}", "process": nested(32)} for k in range(32)]}
    switches = [{"name": f"s{k}", "table": [[0, 1, 0, 0]]} for k in range(32)]
    brackets = b'{"version":1,"nodes":' + b"[" * 126 + b"]" * 126 + b"}"
    texts = [brackets, json.dumps(deep).encode(), json.dumps({**deep, "switches": switches}).encode()]
    texts += [(ROOT / "examples" / name).read_bytes() for name in ("sieve.json", "universal.json", "grid.json")]
    for text in texts:
        for words in (["check"], ["explain"], ["deadlock"], ["draw"], ["step"], ["step", "--stats"], ["step", "--trace"]):
            yield text, words
        yield text, ["run", "--turns", "1000000", "--trace"]


def stacks(vcnet):
    """A stack of 256 KB is enough. What a run in threads prints may differ, so of that its status counts."""
    held = 0
    for text, words in deep_networks():
        usual, small = (outcome([vcnet, *words], text, stack) for stack in (None, STACK))
        if words[0] == "run":
            usual, small = usual[1], small[1]
        held += expect(f"{words} with a stack of 256 KB", small, usual)
    return held


def memory(vcnet):
    """The traffic takes little memory beside the messages."""
    taken = outcome([vcnet, "step", "--limit", str(EVENTS)], json.dumps(LONG).encode())[0].count(b"\n") - 2
    held = 0
    for words in (["step"], ["step", "--json"], ["step", "--why"]):
        with tempfile.TemporaryFile() as text:
            text.write(json.dumps(LONG).encode())
            text.seek(0)
            _, _, kib = peak.run([vcnet, *words, "--limit", str(EVENTS)], stdin=text, stdout=subprocess.DEVNULL)
        if kib * 1024 > taken * 65535 * 1.1 + 4_000_000:
            sys.exit(f"{words}: {kib} KiB for {taken} messages of 65,535 bytes")
        held += 1
    return held


def hold(vcnet):
    """All corners."""
    with tempfile.TemporaryDirectory() as name:
        held = refused_lines(vcnet, pathlib.Path(name)) + names(vcnet) + stacks(vcnet) + memory(vcnet)
    print(f"{held} corners hold", flush=True)


if __name__ == "__main__":
    if len(sys.argv) != 2:
        sys.exit(__doc__)
    hold(os.path.abspath(sys.argv[1]))
