#!/usr/bin/env python3
"""Measures programs on the networks of bench/networks/: bench/bench.py ORDINARY PROGRAM.. (bench/bench.sh builds ORDINARY and calls it).

ORDINARY is the program of bench/ordinary, and each PROGRAM is a vcnet. For each network, and for `step` and `run`, it prints a line for
each program: events, the median of the seconds of its runs and the least, events a second, the median of the peak memory, and how many
times the ordinary program's seconds it took. Seconds are of the whole program, with reading and writing. The runs of the programs take
turns, so that all have the same neighbours. It fails, and says `other traffic`, where a program prints something else than the ordinary
one.

REPEAT (5) is how many runs each has, MODES (step run) what is run, NETS (bench/networks/*.json) the files, STEP (--limit 1000000000) and
RUN (--turns 1000000000 --seed 1) the words behind `step` and `run`.

Made with rattle-kit-13f, logic dac8208d650f15bf.
"""
import glob
import os
import statistics
import sys
import tempfile

import peak

HERE = os.path.dirname(os.path.abspath(__file__))
REPEAT = int(os.environ.get("REPEAT", "5"))
MODES = os.environ.get("MODES", "step run").split()
NETS = os.environ.get("NETS", "").split() or sorted(glob.glob(f"{HERE}/networks/*.json"))
WORDS = {"step": os.environ.get("STEP", "--limit 1000000000"), "run": os.environ.get("RUN", "--turns 1000000000 --seed 1")}
HEAD = f"{'network':15} {'mode':4} {'program':28} {'events':>10} {'seconds':>9} {'(least)':>8} {'events/s':>9} {'MiB':>7} {'times':>6}"


def run_of(program, mode, network):
    """One run: its seconds, its peak memory in MiB, its status, what it prints, and how many events the ordinary program tells."""
    environment = dict(os.environ, ORDINARY_STATS="1")
    with open(network, "rb") as text, tempfile.TemporaryFile() as out, tempfile.TemporaryFile() as told:
        line = [program, mode, *WORDS[mode].split()]
        done, seconds, kib = peak.run(line, stdin=text, stdout=out, stderr=told, env=environment)
        out.seek(0)
        told.seek(0)
        words = told.read().split()
        events = int(words[1]) if words[:1] == [b"events"] else None
        return seconds, kib / 1024, done.returncode, out.read(), events


def measure(programs, mode, network):
    """Prints the line of each program, and tells whether all print the same."""
    runs = {it: [] for it in programs}
    for _ in range(REPEAT):
        for program in programs:
            runs[program].append(run_of(program, mode, network))
    _, _, status, printed, events = runs[programs[0]][0]
    usual, is_same = statistics.median(it[0] for it in runs[programs[0]]), True
    for program, each in runs.items():
        seconds, memory = (statistics.median(it[n] for it in each) for n in (0, 1))
        same = all((it[2], it[3]) == (status, printed) for it in each)
        is_same = is_same and same
        name = os.path.basename(network).removesuffix(".json")
        rate = f"{events / seconds / 1e6:.2f}M" if events else "-"
        print(f"{name:15} {mode:4} {program[-28:]:28} {events or '-':>10} {seconds:9.4f} {min(it[0] for it in each):8.4f} {rate:>9}"
              f" {memory:7.1f} {seconds / usual:6.2f}" + ("" if same else "  other traffic"), flush=True)
    return is_same


def main(programs):
    print(HEAD)
    same = [measure(programs, mode, network) for network in NETS for mode in MODES]
    return 0 if all(same) else 1


if __name__ == "__main__":
    if len(sys.argv) < 2:
        sys.exit(__doc__)
    sys.exit(main(sys.argv[1:]))
