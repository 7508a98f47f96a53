#!/usr/bin/env python3
"""Looks at the line by which a long run shows how far it is: tools/test/progress.py VCNET.

It runs a process that never ends, with standard error on a terminal of its own or in a pipe, and with `--progress` and `--no-progress`.
Where a line is wanted it must be there, must say what is counted, and must be cleared at the end. Where none is wanted nothing may be
written. Standard output must be the same each time. It prints the cases and how many failed.

Made with rattle-kit-13f, logic dac8208d650f15bf.
"""
import os
import pty
import re
import subprocess
import sys
import tempfile

# A process that never ends.
NETWORK = '{"version":1,"nodes":[{"name":"a","process":{"while":[true,"skip"]}}]}'
CLEAR = b"\r\x1b[K"
STEP = ["step", "--limit", "30000000"]
RUN = ["run", "--turns", "20000000"]
SHOWN = {"step": rb"\d+ events, \d+/s, \d+% of the limit", "run": rb"\d+ turns, \d+/s, \d+% of the limit"}


def read_all(file):
    """What comes from a file until its other end is closed."""
    found = b""
    while True:
        try:
            part = os.read(file, 65536)
        except OSError:
            return found
        if not part:
            return found
        found += part


def run(vcnet, words, is_terminal):
    """Standard output and standard error of a run, with the second on a terminal or in a pipe."""
    ours, theirs = pty.openpty() if is_terminal else os.pipe()
    with tempfile.TemporaryFile() as network, tempfile.TemporaryFile() as out:
        network.write(NETWORK.encode())
        network.seek(0)
        program = subprocess.Popen([vcnet, *words], stdin=network, stdout=out, stderr=theirs)
        os.close(theirs)
        told = read_all(ours)
        os.close(ours)
        program.wait()
        out.seek(0)
        return out.read(), told


def fault(told, words, is_shown):
    """What is wrong with what was written on standard error, if anything is."""
    if not is_shown:
        return f"wrote {told[:60]!r}" if told else None
    if not re.search(SHOWN[words[0]], told):
        return f"shows no line: {told[:60]!r}"
    return None if told.endswith(CLEAR) else f"does not clear the line: {told[-60:]!r}"


def main(vcnet):
    failed = 0
    for words in (STEP, RUN):
        plain, _ = run(vcnet, words, False)
        for is_terminal in (True, False):
            for more, is_shown in ([], is_terminal), (["--progress"], True), (["--no-progress"], False), (["--progress", "--no-progress"], False):
                out, told = run(vcnet, words + more, is_terminal)
                wrong = fault(told, words, is_shown) or (None if out == plain else "other output")
                where = "a terminal" if is_terminal else "a pipe"
                print(f"{' '.join(words[:1] + more)}, {where}: {wrong or 'as wanted'}")
                failed += wrong is not None
    print(f"{failed} faults")
    return 1 if failed else 0


if __name__ == "__main__":
    if len(sys.argv) != 2 or sys.argv[1].startswith("-"):
        sys.exit(__doc__)
    sys.exit(main(os.path.abspath(sys.argv[1])))
