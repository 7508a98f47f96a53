#!/usr/bin/env python3
"""Tries a crate's edits, and tells what each costs to refuse, and why it is refused: tools/proof/edits.py CRATE [EDIT..].

The edits are those of the crate's must-fail/, which `rt ci` tries too, and those of tools/proof/edits/CRATE, which it does not. It tries each
as `rt must-fail` does, over a copy of what `rt check` kept, so that no proof is made anew, and prints the processor
time and the stages: `front-end` and `making` come with each check, `session` is the proof itself, and `offers` the printing of a proof
file, which is made only where no file answers the goal that the edit breaks. The first line is a check without an edit. After each
edit stands what the prover says of it. It fails where an edit is not refused: the crate is still proved
with it, or it could not be compiled.

Made with rattle-kit-13f, logic dac8208d650f15bf.
"""
import glob
import importlib.machinery
import importlib.util
import os
import re
import resource
import shutil
import subprocess
import sys
import tempfile

KIT = "/opt/rattle/bin"
ROOT = os.path.dirname(os.path.dirname(os.path.dirname(os.path.abspath(__file__))))
TOLD = re.compile(r"(note: )?\S+:\d+:\d+:.*(error|it is not proved)|^(fn|struct|enum|impl) .*: not proved|^logic=")


def toolchain():
    """The kit's own command, as a module."""
    sys.dont_write_bytecode = True
    sys.path.insert(0, KIT)
    loader = importlib.machinery.SourceFileLoader("rt", f"{KIT}/rt")
    made = importlib.util.module_from_spec(importlib.util.spec_from_loader("rt", loader))
    sys.modules["rt"] = made
    loader.exec_module(made)
    return made


def processor_time():
    used = resource.getrusage(resource.RUSAGE_CHILDREN)
    return used.ru_utime + used.ru_stime


def stages(file):
    """The stages of a check that took a third of a second or more."""
    rows = [line.split() for line in open(file, encoding="utf-8") if line.startswith("stage")]
    return " ".join(f"{name}={float(took):.1f}" for _, name, took, _ in rows if float(took) >= 0.3)


def check(rt, crate, texts, kept, label):
    """Checks the crate with these texts in place of its own, and returns its processor time, and whether the prover refuses it."""
    with tempfile.TemporaryDirectory() as room:
        for part in rt.rtlib.PARTS:
            if os.path.isdir(f"{crate.folder}/{part}"):
                shutil.copytree(f"{crate.folder}/{part}", f"{room}/{part}")
        for path, text in texts.items():
            with open(f"{room}/{path}", "w", encoding="utf-8") as it:
                it.write(text)
        words = [rt.rtlib.RATTLE, "check", *crate.words(["--jobs", "1"], keeps=False)]
        words += ["--incremental", kept, "--stage-times", f"{room}/stages"]
        before = processor_time()
        how = {"stdin": subprocess.DEVNULL, "stdout": subprocess.PIPE, "stderr": subprocess.STDOUT, "text": True}
        ran = subprocess.run(words, cwd=room, check=False, **how)
        took = processor_time() - before
        print(f"{label:40} {took:6.1f} s  {stages(f'{room}/stages')}", flush=True)
        for line in ran.stdout.split("\n") if texts else []:
            if TOLD.search(line):
                print(f"    {line[:200]}")
        # (with status 3 it stopped at a limit of its own)
        return took, "\nlogic=not-proved" in ran.stdout or ran.returncode == 3


def main(name, only):
    rt = toolchain()
    os.chdir(ROOT)
    crate = next((it for it in rt.rtlib.crates_below(ROOT) if it.name == name), None)
    if crate is None or not os.path.isdir(f"{crate.folder}/out/incremental"):
        sys.exit(f"{name} is no crate that was checked")
    with tempfile.TemporaryDirectory() as kept:
        shutil.copytree(f"{crate.folder}/out/incremental", kept, dirs_exist_ok=True)
        check(rt, crate, {}, kept, "(none)")
        total, missed = 0.0, []
        for edit in rt.edits_of(crate)[0] + sorted(glob.glob(f"{ROOT}/tools/proof/edits/{name}/*.edit")):
            label = os.path.basename(edit).removesuffix(".edit")
            if not only or label in only:
                texts, why = rt.read_edit(edit, crate.folder)
                if why:
                    sys.exit(f"{label}: {why}")
                took, is_refused = check(rt, crate, texts, kept, label)
                total += took
                missed += [] if is_refused else [label]
        print(f"{total:.0f} seconds in all")
    if missed:
        sys.exit(f"not refused: {' '.join(missed)}")


if __name__ == "__main__":
    if len(sys.argv) < 2:
        sys.exit(__doc__)
    main(sys.argv[1], sys.argv[2:])
