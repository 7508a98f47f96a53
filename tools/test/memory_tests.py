#!/usr/bin/env python3
"""Makes each allocation of the tests of memory fail in turn.

Usage: tools/test/memory_tests.py. The tests are those of vc_network_tests and vc_tests whose module or name says memory. They hold with
ample memory, as `rt ci` runs them, and are to hold where any one allocation is refused. They are built without their proofs, once,
and each runs as often as it makes allocations. `rt try --test --fail-alloc N` does the same for one N, but builds the tests anew.

Made with rattle-kit-13f, logic dac8208d650f15bf.
"""
import os
import pathlib
import subprocess
import sys
import tempfile

from allocations import MORE, SHIM
from unproved import main as build

CRATES = ("vc_network_tests", "vc_tests")


def run(program, test, shim, env):
    """Runs a test with a variable that the shim reads. The answer is the program's end."""
    env = {**os.environ, "LD_PRELOAD": str(shim), **env}
    return subprocess.run([program, test], capture_output=True, env=env, timeout=120)


def sweep(program, test, shim, folder):
    """Fails each allocation of a test in turn. Some more numbers are tried, since threads make their allocations in no one order."""
    count_to = folder / f"count-{os.getpid()}"
    ample = run(program, test, shim, {"COUNT_TO": str(count_to)})
    if ample.returncode or not count_to.exists():
        sys.exit(f"{test}: fails with ample memory: {ample.stdout[-300:]!r} {ample.stderr[-300:]!r}")
    count = int(count_to.read_text())
    count_to.unlink()
    for number in range(1, count + MORE + 1):
        ended = run(program, test, shim, {"FAIL_AT": str(number)})
        if ended.returncode:
            said = (ended.stdout + ended.stderr)[-300:]
            sys.exit(f"{test}: with allocation {number} of {count} refused, status {ended.returncode}: {said!r}")
    print(f"{test}: holds with each of its {count} allocations refused, and with ample memory", flush=True)


def names(program):
    """The names of the tests of memory that a built program of tests has."""
    listed = subprocess.run([program, "--list"], capture_output=True, check=True, text=True).stdout
    return [line.removesuffix(": test") for line in listed.splitlines() if "memory" in line]


def main():
    if len(sys.argv) > 1:
        sys.exit(__doc__)
    with tempfile.TemporaryDirectory() as name:
        folder = pathlib.Path(name)
        source, shim = folder / "shim.c", folder / "shim.so"
        source.write_text(SHIM)
        subprocess.run(["cc", "-O2", "-shared", "-fPIC", "-o", shim, source], check=True)
        for crate in CRATES:
            program = folder / crate
            build(str(program), crate, tests=True)
            for test in names(program):
                sweep(program, test, shim, folder)


if __name__ == "__main__":
    main()
