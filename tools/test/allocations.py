#!/usr/bin/env python3
"""Makes each allocation of a run fail in turn.

Usage: tools/test/allocations.py VCNET [NETWORK..], VCNET being the built program (crates/vcnet/out/vcnet), the networks those of
examples/ where none is named. Each check, explanation, search for a cycle, drawing and run by step, with what its flags add, must print what it
prints with ample memory, or that memory is short, with status 4. So must a replay of the first 1,000 events of that run. A traced
run by step may print the lines of its first events before that, each whole. Where the line of a refusal finds no memory, nothing is printed,
with that status. A run in threads, of which no two need be alike, must print a fault alone, or the traffic of a run that ended because an
actor found no memory, both with status 4; or the traffic of a run to its end, or to the end of its turns.

Made with rattle-kit-13f, logic dac8208d650f15bf.
"""
import os
import pathlib
import re
import subprocess
import sys
import tempfile

ROOT = pathlib.Path(__file__).resolve().parents[2]
# Where peak.py and unproved.py are.
sys.path += [str(ROOT / "bench"), str(ROOT / "tools")]

import peak

# Counts allocations, and refuses the one whose number is FAIL_AT; the count goes to the file COUNT_TO at the end.
SHIM = r"""
#include <errno.h>
#include <stdatomic.h>
#include <stdio.h>
#include <stdlib.h>
#include <sys/syscall.h>
#include <unistd.h>
extern void *__libc_malloc(size_t);
extern void *__libc_calloc(size_t, size_t);
extern void *__libc_realloc(void *, size_t);
extern void *__libc_memalign(size_t, size_t);
static atomic_long seen, at = -1;
static int fails(void) {
    if (at < 0) { const char *s = getenv("FAIL_AT"); at = s ? atol(s) : 0; }
    if (atomic_fetch_add(&seen, 1) + 1 == at) { errno = ENOMEM; return 1; }
    return 0;
}
void *malloc(size_t n) { return fails() ? 0 : __libc_malloc(n); }
void *calloc(size_t k, size_t n) { return fails() ? 0 : __libc_calloc(k, n); }
void *realloc(void *p, size_t n) { return fails() ? 0 : __libc_realloc(p, n); }
void *aligned_alloc(size_t a, size_t n) { return fails() ? 0 : __libc_memalign(a, n); }
void _exit(int status) {
    const char *s = getenv("COUNT_TO");
    long count = seen;
    FILE *f = s ? fopen(s, "w") : 0;
    if (f) { fprintf(f, "%ld", count); fclose(f); }
    for (;;) syscall(SYS_exit_group, status);
}
"""
SHORT = (b"fault memory\n", 4)
WORDS = (
    "check", "explain", "deadlock", "draw", "draw --after 100", "step", "step --why", "step --trace", "step --trace --why", "step --stats",
    "step --json", "step --stats --json", "step --together", "step --schedule 7",
)
TURNS = ["--turns", "200000", "--seed", "0"]
# The runs in threads make their allocations in no one order: so many are tried past those of a run with ample memory.
MORE = 40
TRAFFIC = re.compile(rb"(channel \S+ offered \d+ taken \d+ finished \d+( stopped)?\n(  \d+ .*\n)*)*end (\w+)\n")
LINES = re.compile(rb"(event [^\n]*\n)*")
STATUS = {b"done": 0, b"limit": 3, b"memory": 4}


def outcome(words, network, env):
    """What a run prints, and its status."""
    done = subprocess.run(words, input=network.read_bytes(), capture_output=True, env={**os.environ, **env})
    return done.stdout, done.returncode


def is_told(got, right, words):
    """Whether a run tells that memory is short: by that line alone, or, if it is traced, after the whole lines of its first events."""
    text, status = got
    if status != SHORT[1] or not text.endswith(SHORT[0]):
        return False
    events = text[: -len(SHORT[0])]
    if "step" not in words or "--trace" not in words:
        return events == b""
    return LINES.fullmatch(events) is not None and right[0].startswith(events)


def sweep(words, network, shim, folder):
    """Fails each allocation in turn, and says how the runs ended."""
    count_to = folder / f"count-{os.getpid()}"
    right = outcome(words, network, {"LD_PRELOAD": str(shim), "COUNT_TO": str(count_to)})
    count = int(count_to.read_text())
    # Where the line of a refusal finds no memory, nothing is printed.
    is_refused = right[0].startswith(b"refused ")
    short = unharmed = 0
    for number in range(1, count + 1):
        got = outcome(words, network, {"LD_PRELOAD": str(shim), "FAIL_AT": str(number)})
        if is_told(got, right, words) or (is_refused and got == (b"", 4)):
            short += 1
        elif got == right:
            unharmed += 1
        else:
            sys.exit(f"{network.name}: with allocation {number} refused, status {got[1]}: {got[0][:200]!r}")
    print(f"{network.name} {' '.join(words[1:])}: {count} allocations, {short} told, {unharmed} unharmed", flush=True)


def ending(got):
    """How a run in threads ended, if what it printed may be."""
    text, status = got
    if status == 4 and text in (b"fault memory\n", b"fault thread\n"):
        return text.decode().strip()
    traffic = TRAFFIC.fullmatch(text)
    if traffic and STATUS.get(traffic[4]) == status:
        return "end " + traffic[4].decode()
    return None


def sweep_threads(words, network, shim, folder):
    """Fails each allocation of a run in threads in turn, and says how the runs ended."""
    count_to = folder / f"count-{os.getpid()}"
    outcome(words, network, {"LD_PRELOAD": str(shim), "COUNT_TO": str(count_to)})
    count = int(count_to.read_text()) + MORE
    ended = {}
    for number in range(1, count + 1):
        got = outcome(words, network, {"LD_PRELOAD": str(shim), "FAIL_AT": str(number)})
        how = ending(got)
        if how is None:
            sys.exit(f"{network.name}: with allocation {number} refused, status {got[1]}: {got[0][:200]!r}")
        ended[how] = ended.get(how, 0) + 1
    told = ", ".join(f"{count} {how}" for how, count in sorted(ended.items()))
    print(f"{network.name} {' '.join(words[1:])}: {count} allocations: {told}", flush=True)


def jobs(vcnet, network, shim, folder):
    """The sweeps of a network: each a function, with what it is given."""
    events = folder / f"{network.stem}.events"
    events.write_bytes(outcome([vcnet, "step", "--trace", "--limit", "1000"], network, {})[0])
    words = [it.split() for it in WORDS] + [[*it.split(), "--events", str(events)] for it in ("replay", "replay --why")]
    is_refused = outcome([vcnet, "check"], network, {})[0].startswith(b"refused ")
    made = [(sweep, [vcnet, *it], network, shim, folder) for it in words]
    return [*made, (sweep if is_refused else sweep_threads, [vcnet, "run", *TURNS], network, shim, folder)]


def main():
    if len(sys.argv) < 2:
        sys.exit(__doc__)
    vcnet = os.path.abspath(sys.argv[1])
    networks = [pathlib.Path(name) for name in sys.argv[2:]] or sorted((ROOT / "examples").glob("*.json"))
    with tempfile.TemporaryDirectory() as name:
        folder = pathlib.Path(name)
        shim = peak.compiled(SHIM, "shim.so", "-shared", "-fPIC")
        for network in networks:
            for do, *given in jobs(vcnet, network, shim, folder):
                do(*given)


if __name__ == "__main__":
    main()
