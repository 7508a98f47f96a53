#!/usr/bin/env python3
"""Refuses each allocation in turn, of the program and of the tests of memory: tools/test/memory.py.

It builds `vcnet`, and the tests of vc_network_tests and vc_tests, without their proofs and side by side. Then it sweeps some networks as
tools/test/allocations.py does, and each test whose name has `memory` as tools/test/memory_tests.py does, and holds the corners of tools/test/corners.py.
.ci/run runs it where there is a C compiler: there `fault memory`, `end memory` and status 4 are printed each time. It fails if a run is
neither whole nor refused. If a program cannot be built without its proofs, it says so and sweeps nothing: the gate then judges the code.

Made with rattle-kit-13f, logic dac8208d650f15bf.
"""
import concurrent.futures
import pathlib
import subprocess
import sys
import tempfile
import time

import allocations
import corners
import memory_tests
import peak
import unproved

NETWORKS = ("hello.json", "first_come.json", "ring.json", "cases/end_on_no_wire.json")


def build(folder, crate):
    """Builds the program, or a crate's tests. Little is optimised, since each of many runs is short."""
    program = folder / crate
    unproved.main(str(program), crate, tests=crate != "vcnet", level="-O1")
    return program


def sweep(job):
    """Does one job: a function, with what it is given."""
    do, *given = job
    return do(*given)


def main():
    if len(sys.argv) > 1:
        sys.exit(__doc__)
    began = time.time()
    with tempfile.TemporaryDirectory() as name, concurrent.futures.ProcessPoolExecutor() as pool:
        folder = pathlib.Path(name)
        crates = ("vcnet", *memory_tests.CRATES)
        try:
            vcnet, *tests = pool.map(build, [folder] * len(crates), crates)
        except (OSError, subprocess.CalledProcessError) as why:
            print(f"no sweeps of refused allocations, since nothing was built: {why}")
            return
        shim = peak.compiled(allocations.SHIM, "shim.so", "-shared", "-fPIC")
        jobs = [(corners.hold, str(vcnet))]
        for network in NETWORKS:
            jobs += allocations.jobs(str(vcnet), allocations.ROOT / "examples" / network, shim, folder)
        for program in tests:
            jobs += [(memory_tests.sweep, program, test, shim, folder) for test in memory_tests.names(program)]
        for _ in pool.map(sweep, jobs):
            pass
    print(f"{len(jobs) - 1} sweeps of refused allocations, 0 faults, {time.time() - began:.0f} seconds")


if __name__ == "__main__":
    main()
