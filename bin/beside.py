"""What the gate runs beside its proofs: tests of crates, the groups of tests/run, and the programs' own runs.

Each is a task like the toolchain's own (bin/lanes.py), and says what came of it in a line of its own.
"""
import json
import os
import pathlib
import re
import shutil
import subprocess
import sys
import tempfile
import threading
import time
import budget

ROOT = pathlib.Path(__file__).resolve().parent.parent
# a build of a crate's tests, and a group of tests, in bytes of memory
BUILD, GROUP = 3_000_000_000, 1_000_000_000
SECONDS = 3600
COUNTS = re.compile(r"^(\d+) passed, (\d+) failed$", re.MULTILINE)
COUNTED = re.compile(r"^test result: \w+\. (\d+) passed; (\d+) failed; 0 ignored; 0 filtered out$", re.MULTILINE)
# the programs that tests/run runs
TESTED = ("fm_cli", "fm_probe_editor", "fm_faults")


class Beside:
    """The tasks, what was counted in them, and how long each took by the clock and by processors, in seconds."""

    def __init__(self, rt, proves_tests):
        self.rt, self.proves_tests = rt, proves_tests
        self.passed, self.failed, self.spent = 0, 0, {}
        self.began, self.printing, self.ran, self.copy = time.monotonic(), threading.Lock(), {}, None
        self.crates = []

    def tasks(self, given):
        """The toolchain's tasks with these. The tests of a crate, and the programs of budget.TRIED, are tried, in place of their proof: one
        crate after another, since the build is in a session of its own, whose share of the processors bin/tried.py makes small."""
        added, before = dict(given), []
        for crate in self.crates:
            is_tried = crate.name in budget.TRIED and not self.proves_tests
            if (crate.name, "tests") in given and not self.proves_tests and (crate.has_tests() or is_tried):
                added[crate.name, "tests"] = before, 1, BUILD, lambda _given, _jobs, name=crate.name: self.tried(name)
                before = [(crate.name, "tests")]
            if (crate.name, "proof") in given and is_tried:
                added[crate.name, "proof"] = before, 0, 0, lambda given, _jobs, task=before[0]: given[task]
            elif (crate.name, "proof") in given and crate.is_program:
                added[crate.name, "run"] = [(crate.name, "proof")], 1, GROUP, lambda given, _jobs, crate=crate: self.run_program(given, crate)
        programs = [(name, "proof") for name in TESTED]
        if all(key in given for key in programs) and os.getcwd() == str(ROOT):
            for group in groups():
                added["tests/run", group] = programs, 1, GROUP, lambda given, _jobs, group=group: self.group(given, group)
        return added

    def timed(self, task, command, **how):
        """The output and status of a command, whose times are noted."""
        began = time.monotonic()
        ran = subprocess.Popen(command, stdin=subprocess.DEVNULL, stdout=subprocess.PIPE, stderr=subprocess.STDOUT, text=True, errors="replace", **how)
        ends = threading.Timer(SECONDS, ran.kill)
        ends.start()
        said = ran.stdout.read()
        _, status, used = os.wait4(ran.pid, 0)
        ends.cancel()
        ran.returncode = os.waitstatus_to_exitcode(status)
        self.spent[task] = began - self.began, time.monotonic() - self.began, used.ru_utime + used.ru_stime
        return said, ran.returncode

    def tell(self, task, passed, failed, said):
        """Counts what a task came to, and says it; all that it said if something failed."""
        began, ended, work = self.spent.get(task, (0, 0, 0))
        with self.printing:
            self.passed, self.failed = self.passed + passed, self.failed + failed
            counts = "%s: %d passed, %d failed (%.0f s, %.0f of a processor)" % (" ".join(task), passed, failed, ended - began, work)
            self.say(said.rstrip("\n") + "\n" + counts if failed else counts)

    def say(self, text):
        print(text, flush=True)

    def tried(self, name):
        """Runs the tests of a crate, or a program, by `rt try`: with checks of each index, sum and access, and no proof."""
        task = name, "tests"
        said, status = self.timed(task, [sys.executable, str(ROOT / "bin/tried.py")], cwd=pathlib.Path(self.copied(), "crates", name))
        found = COUNTED.search(said) if status == 0 else None
        passed, failed = (int(found[1]), int(found[2])) if found else (0, 1)
        if name in budget.TRIED:
            passed, failed = int(status == 0), int(status != 0)
        self.tell(task, passed, failed or int(not passed), said)
        return passed > 0 and not failed

    def copied(self):
        """A copy of the sources: the folders of the crates are locked while they are proved."""
        with self.printing:
            if self.copy is None:
                self.copy = tempfile.TemporaryDirectory(prefix=f"rt-copy-{os.getpid()}-")
                copy_sources(pathlib.Path.cwd(), pathlib.Path(self.copy.name, "repo"))
        return f"{self.copy.name}/repo"

    def group(self, given, group):
        """Runs a group of tests/run on the programs that were just proved."""
        task = "tests/run", group
        lacking = [name for name in TESTED if not given[name, "proof"]]
        if lacking:
            self.tell(task, 0, 1, f"not run, since {lacking[0]} is not proved")
            return False
        said, status = self.timed(task, [sys.executable, str(ROOT / "tests/run"), group])
        found = COUNTS.search(said)
        passed, failed = (int(found[1]), int(found[2])) if found else (0, 1)
        self.tell(task, passed, failed or int(status != 0 or passed == 0), said)
        return not failed

    def run_program(self, given, crate):
        """Runs a proved program as each compiler built it, for the toolchain, which asks for it in the end."""
        if not given[crate.name, "proof"]:
            return False
        for ending in self.rt.BACKENDS.values():
            if os.path.isfile(f"{crate.folder}/out/{crate.name}{ending}"):
                self.ran[crate.name, ending] = self.plain_run(crate, False, ending)
        return True

    def set_up(self):
        """Has the toolchain take these tasks with its own, and take runs that were made."""
        rt = self.rt
        self.plain_run, crates_of = rt.run, rt.crates_of

        def listed(*given):
            self.crates = crates_of(*given)
            return self.crates

        def run(crate, tests, ending=""):
            known = None if tests else self.ran.get((crate.name, ending))
            return self.plain_run(crate, tests, ending) if known is None else known

        rt.crates_of, rt.run = listed, run

    def end(self, times):
        """Says what was counted, writes the times to a file if there is one, and removes the copy."""
        if self.copy is not None:
            self.copy.cleanup()
        if times:
            pathlib.Path(times).write_text(json.dumps([[*task, *spent] for task, spent in self.spent.items()]))
        tried = sorted({name for name, kind in self.spent if kind == "tests"})
        for what, is_program in ("the tests of", False), ("the program", True):
            if names := [name for name in tried if (name in budget.TRIED) == is_program]:
                print(f"run by rt try and not proved: {what} {' '.join(names)}")
        if self.passed or self.failed:
            print(f"{self.passed} passed, {self.failed} failed", flush=True)


def copy_sources(root, to):
    """Copies what the toolchain reads of a repository, without what was built, to a folder that is the top of one."""
    (to / ".git").mkdir(parents=True)
    for file in ("crates.txt", "HANDLES"):
        shutil.copy(root / file, to)
    shutil.copytree(root / "crates", to / "crates", ignore=lambda _folder, names: {"out"} & set(names))


def groups():
    """The names of the groups of tests/run."""
    said = subprocess.run([sys.executable, str(ROOT / "tests/run"), "--list"], stdout=subprocess.PIPE, text=True, check=True)
    return said.stdout.split()
