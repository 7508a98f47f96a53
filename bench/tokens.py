#!/usr/bin/env python3
"""How many tokens a second are spelled and read again, for longer and longer streams.

Usage: bench/tokens.py, anywhere in the repository. The least of five runs counts.

Made with rattle-kit-13f, logic dac8208d650f15bf.
"""
import pathlib
import subprocess
import time

CRATE = pathlib.Path(__file__).resolve().parent.parent / "crates" / "token_rate"
PROGRAM = CRATE / "out" / "token_rate"


def seconds(packets: int) -> float:
    """The time of one run with so many packets."""
    start = time.perf_counter()
    subprocess.run([PROGRAM, str(packets)], check=True, stdout=subprocess.DEVNULL)
    return time.perf_counter() - start


def main() -> None:
    subprocess.run(["rt", "run", "--", "1"], cwd=CRATE, check=True, stdout=subprocess.DEVNULL)
    for packets in (10_000, 100_000, 1_000_000):
        least = min(seconds(packets) for _ in range(5))
        tokens = 35 * packets
        print(f"{tokens:>10} tokens {least:8.3f} s {tokens / least / 1e6:8.1f} million a second")


main()
