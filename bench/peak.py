"""Runs a program, and tells its seconds and the peak memory of it alone. The scripts of this folder that tell peak memory call it.

`os.wait4` tells the peak of a process from its fork on, so of one that Python forks at least what Python has itself. So a small program in C
starts the one that is measured: it forks, executes and waits, and writes the seconds meanwhile and the kernel's `ru_maxrss` to a pipe. What
is told is then at least what that small program has, some 0.5 MiB.

Made with rattle-kit-13f, logic dac8208d650f15bf.
"""
import atexit
import os
import pathlib
import shutil
import subprocess
import sys
import tempfile

# peak FD PROGRAM WORD..: runs the program, writes its seconds and the KiB of its peak memory to FD, and ends as it does.
STARTER = r"""
#include <stdio.h>
#include <stdlib.h>
#include <sys/resource.h>
#include <sys/wait.h>
#include <time.h>
#include <unistd.h>
int main(int count, char **words) {
    if (count < 3) return 127;
    int fd = atoi(words[1]), status;
    struct rusage used;
    struct timespec start, end;
    clock_gettime(CLOCK_MONOTONIC, &start);
    pid_t child = fork();
    if (child < 0) return 127;
    if (child == 0) { close(fd); execv(words[2], words + 2); _exit(127); }
    if (wait4(child, &status, 0, &used) != child) return 127;
    clock_gettime(CLOCK_MONOTONIC, &end);
    dprintf(fd, "%.9f %ld", end.tv_sec - start.tv_sec + (end.tv_nsec - start.tv_nsec) / 1e9, used.ru_maxrss);
    return WIFEXITED(status) ? WEXITSTATUS(status) : 128 + WTERMSIG(status);
}
"""


def compiled(text, name, *flags):
    """The path of what `cc` makes of this C text, in a folder that is removed when the script ends."""
    kept = tempfile.TemporaryDirectory()
    atexit.register(kept.cleanup)
    source, made = pathlib.Path(kept.name, f"{name}.c"), pathlib.Path(kept.name, name)
    source.write_text(text)
    subprocess.run(["cc", "-O2", *flags, "-o", made, source], check=True)
    return made


_starter = None


def run(words, **streams):
    """Runs these words to the end, as `subprocess.run` does: what that gives, the seconds, and the peak memory in KiB."""
    global _starter
    program = shutil.which(words[0])
    if program is None:
        sys.exit(f"{words[0]} is no program")
    if _starter is None:
        _starter = compiled(STARTER, "peak")
    read, write = os.pipe()
    with open(read) as told:
        try:
            done = subprocess.run([_starter, str(write), program, *words[1:]], pass_fds=[write], **streams)
        finally:
            os.close(write)
        seconds, kib = told.read().split()
        return done, float(seconds), int(kib)
