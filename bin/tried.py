#!/usr/bin/env python3
"""Runs the tests of the crate in this folder by `rt try --test`, or if it is a program, that by `rt try`: bin/tried.py

A program has to write what the file `stdout` has. The check that `rt try` starts beside is left out: it only hints at names that a
proof would refuse, and takes as long as the build.

`rt try` builds in a session of its own, and Linux may share processors out by session (autogroups), whatever the priorities are within. So
the proofs would get half of them, and these tests, which nothing waits for, the other half.
"""
import contextlib
import os
import pathlib
import shutil
import subprocess
import sys
import tempfile

sys.dont_write_bytecode = True
sys.path.insert(0, str(pathlib.Path(__file__).resolve().parent))
import building
import toolchain

# how long a program may run, with checks on a processor that others use too
SECONDS = "900"
# the nice value of its sessions: each gets a third of what one of 0 gets
CALM = "5"


class CalmSession(subprocess.Popen):
    """A process. If it has a session of its own, that gets the nice value CALM, where sessions have one."""

    def __init__(self, *words, **how):
        super().__init__(*words, **how)
        if how.get("start_new_session"):
            with contextlib.suppress(OSError):
                pathlib.Path(f"/proc/{self.pid}/autogroup").write_text(CALM)


def program(rt):
    """Runs the program, and answers its status, or 1 if it writes something else than it should."""
    wanted, own = pathlib.Path("stdout").read_bytes(), os.dup(1)
    with tempfile.TemporaryFile() as out:
        os.dup2(out.fileno(), 1)
        try:
            # `rt try` also has an interpreter, which takes too long: it gets one step
            status = rt.main(["try", "--steps", "1", "--seconds", SECONDS])
        finally:
            sys.stdout.flush()
            os.dup2(own, 1)
        out.seek(0)
        written = out.read()
    if written != wanted:
        print("the program wrote something else than the file `stdout` has:\n" + written.decode(errors="replace"))
    return status or int(written != wanted)


def main():
    building.end_with_parent()
    subprocess.Popen = CalmSession
    rt = toolchain.load()
    if hasattr(rt.rtlib, "RATTLE"):
        rt.rtlib.RATTLE = shutil.which("true")
    return program(rt) if os.path.isfile("src/main.rt") else rt.main(["try", "--test"])


if __name__ == "__main__":
    sys.exit(main())
