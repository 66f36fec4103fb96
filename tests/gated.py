"""Tests of how the gate lays out its work and counts it: bin/lanes.py, bin/budget.py, bin/checked.py, bin/beside.py, bin/tried.py and bin/ci,
on tasks and toolchains that are made up."""
import contextlib
import errno
import importlib.machinery
import importlib.util
import json
import os
import pathlib
import shutil
import subprocess
import sys
import tempfile
import threading
import time
import types
from unittest import mock

ROOT = pathlib.Path(__file__).resolve().parent.parent
sys.path += [str(ROOT / "bin"), str(ROOT / "tests")]
import beside
import bodies
import bridged
import budget
import checked
import lanes
import refusals
import slurm_locks
import toolchain
import tried

# the lowest priority that a system has
LOWEST = 19


class Tasks:
    """Made-up tasks that note when each runs, with how many jobs, and beside which others."""

    def __init__(self):
        self.tasks, self.order, self.jobs, self.priorities, self.beside, self.now, self.lock = {}, [], {}, {}, [], set(), threading.Lock()

    def add(self, name, kind, waits=(), lines=1, memory=1, gives=True):
        self.tasks[name, kind] = list(waits), lines, memory, lambda given, jobs: self.ran((name, kind), jobs, gives)

    def ran(self, key, jobs, gives):
        with self.lock:
            self.order.append(key)
            self.jobs[key] = jobs
            self.priorities[key] = os.getpriority(os.PRIO_PROCESS, threading.get_native_id())
            self.now.add(key)
            self.beside.append(set(self.now))
        time.sleep(0.01)
        with self.lock:
            self.now.remove(key)
        return gives

    def run(self, processors=4, memory=100, minutes=None):
        return lanes.Lanes(self.tasks, processors, memory, minutes or {}).run()


def chain():
    """Two crates on one, the second with a longer chain behind it, and wrong bodies of each."""
    made = Tasks()
    made.add("low", "proof")
    made.add("short", "proof", [("low", "proof")])
    made.add("long", "proof", [("low", "proof")])
    made.add("top", "proof", [("long", "proof")])
    for name in ("low", "short", "long", "top"):
        made.add(name, "edits", [(name, "proof")])
    return made


def laid_out():
    made = chain()
    given = made.run(processors=1, minutes={("low", "proof"): 1, ("short", "proof"): 1, ("long", "proof"): 1, ("top", "proof"): 9, ("low", "edits"): 99})
    yield "each task runs once", sorted(made.order) == sorted(made.tasks) and set(given) == set(made.tasks)
    proofs = [name for name, kind in made.order if kind == "proof"]
    yield "the longest chain goes first", proofs == ["low", "long", "top", "short"]
    yield "each task runs behind those that it waits for", all(
        made.order.index(low) < made.order.index(key) for key, (waits, *_) in made.tasks.items() for low in waits)
    yield "one processor runs one task", all(len(it) == 1 for it in made.beside)
    made = Tasks()
    for number in range(9):
        made.add(f"crate{number}", "proof", memory=40 / lanes.OF_RECKONED)
    made.run()
    yield "tasks are beside each other as memory allows", max(len(it) for it in made.beside) == 2
    made = Tasks()
    made.add("alone", "proof", memory=200)
    yield "a task that needs more than there is runs alone", made.run() == {("alone", "proof"): True}
    made = Tasks()
    made.add("alone", "proof", memory=10)
    made.run()
    yield "a proof that is alone gets all processors", made.jobs["alone", "proof"] == 4
    made.add("tests", "tests")
    made.run(minutes={("alone", "proof"): 1, ("tests", "tests"): 9})
    yield "and still does beside what no proof waits for", made.jobs["alone", "proof"] == 4
    made.add("other", "proof")
    minutes = {("alone", "proof"): 5, ("tests", "tests"): 90}
    made.run(minutes=minutes)
    yield "and one less for each other proof", made.jobs["alone", "proof"] == 3
    for number in range(5):
        made.add(f"crate{number}", "proof")
    made.run(minutes=minutes)
    yield "but one at least", made.jobs["alone", "proof"] == 1
    made.run(minutes={**minutes, ("tests", "tests"): 9})
    yield "and two if its chain would take longest with one", made.jobs["alone", "proof"] == 2
    made.run(minutes={**minutes, ("alone", "proof"): 900})
    yield "and all if its chain takes longest", made.jobs["alone", "proof"] == 4
    made = Tasks()
    made.add("alone", "proof")
    made.add("tests", "tests")
    for number in range(5):
        made.add(f"crate{number}", "proof", lines=0)
    made.run(minutes={("alone", "proof"): 5, ("tests", "tests"): 90})
    yield "proofs without work are no others", made.jobs["alone", "proof"] == 4
    made = Tasks()
    for number in range(4):
        made.add(f"crate{number}", "proof")
    made.run(minutes={("crate2", "proof"): 5})
    made.add("crate2", "edits")
    made.run(minutes={("crate2", "proof"): 5})
    keys = ("crate2", "proof"), ("crate0", "proof"), ("crate3", "proof"), ("crate2", "edits")
    own = os.getpriority(os.PRIO_PROCESS, 0)
    yield "the first proof has the highest priority, and what no proof waits for the lowest", (
        [made.priorities[key] for key in keys] == [min(LOWEST, own + lower) for lower in (0, lanes.LATER, lanes.LATER, lanes.CALM)])
    made = Tasks()
    for number in range(4):
        made.add(f"crate{number}", "proof")
    made.run(minutes={("crate2", "proof"): 5})
    yield "the others get one each", [made.jobs[f"crate{it}", "proof"] for it in (0, 1, 3)] == [1, 1, 1] and made.jobs["crate2", "proof"] == 4
    made = Tasks()
    idle = next(iter(lanes.IDLE))
    for key in (("crate0", "edits"), ("crate1", "edits"), idle, ("crate2", "edits")):
        made.add(*key)
    made.run(processors=1)
    yield "what mostly waits takes no processor's place", {idle} < max(made.beside, key=len) and max(len(it - lanes.IDLE) for it in made.beside) == 1
    sides = [("tests/run", side) for side in bridged.SIDES]
    yield "each group of bridges runs in one of those", sorted(sum(bridged.SIDES.values(), ())) == sorted(bridged.GROUPS) and set(sides) < lanes.IDLE
    sides = [("tests/run", side) for side in slurm_locks.SIDES]
    yield "and each of adapters with a lock", sorted(sum(slurm_locks.SIDES.values(), ())) == sorted(slurm_locks.GROUPS) and set(sides) < lanes.IDLE
    made = Tasks()
    made.add("low", "proof", gives=False)
    made.add("low", "tests", lines=0)
    made.add("low", "edits", [("low", "proof"), ("low", "tests")])
    yield "what a failed task gave is passed on", made.run()["low", "proof"] is False and len(made.order) == 3


def budgets():
    low = {"fm_records": [], "a": ["fm_records"], "b": ["fm_records"], "c": ["a", "b"]}
    work = {"fm_records": {"proof": 2.0}, "a": {"proof": 4.0, "edits": 1.0}, "b": {"proof": 8.0}, "c": {"proof": 2.0}, "tests/run": {"fuzz": 1.0}}
    with tempfile.TemporaryDirectory() as folder:
        file, stands_on = budget.FILE, budget.stands_on
        budget.FILE, budget.stands_on = pathlib.Path(folder, "budget.json"), lambda: low
        try:
            budget.write(work)
            made = json.loads(budget.FILE.read_text())
            yield "the longest chain is a sum of proofs", made["chain"] == round(6 * budget.ROOM, 1)
            yield "all work is a sum", made["work"] == round(9 * budget.ROOM, 1)
            yield "what a run took is within its own budget", budget.compared(work)[1]
            twice = {**work, "b": {"proof": 16.0}}
            lines, is_within = budget.compared(twice)
            yield "a longer chain exceeds it", not is_within and any("chain" in line and "EXCEEDED" in line for line in lines)
            yield "the crate is named", any(line.startswith("budget: b, proof: 8.00 units, and 4.00") for line in lines)
            faster = {name: {kind: spent / 3 for kind, spent in kinds.items()} for name, kinds in work.items()}
            yield "another machine is within it", budget.compared(faster)[1]
            part = {name: kinds for name, kinds in work.items() if name != "b"}
            written = budget.FILE.read_text()
            yield "part of a run is not written", "not written" in budget.write(part) and budget.FILE.read_text() == written
            yield "part of a run is not compared", budget.compared(part) == (["budget: not compared, since not every crate was proved in this run"], True)
        finally:
            budget.FILE, budget.stands_on = file, stands_on


def kept():
    for how, link in (("by links", os.link), ("by copies", mock.Mock(side_effect=OSError(errno.EXDEV, "another disk")))):
        with mock.patch("os.link", link):
            for name, fine in kept_by():
                yield "%s, %s" % (name, how), fine


def kept_by():
    """Modules of a process that builds statements in the crate's folder are kept, and those of no other."""
    proof = b"--@ antt-checked 81\n--@ kernel one/two\nodd"
    with tempfile.TemporaryDirectory() as name, mock.patch("tempfile.tempdir", name):
        folder = pathlib.Path(name).resolve()
        crate, other = folder / "a", folder / "b"
        crate.mkdir()
        other.mkdir()
        sleeps = [sys.executable, "-c", "import time; time.sleep(60)"]
        builds = [subprocess.Popen([*sleeps, *words], cwd=place) for place, words in ((crate, ["--statements"]), (crate, []), (other, ["--statements"]))]
        try:
            with checked.kept(crate):
                for at, build in enumerate(builds):
                    place = folder / f"rattle-logic-built-locked-{build.pid}-0"
                    place.mkdir()
                    for file, text in (("other.txt", proof), ("no_proof.oantt", b"else"), (f"of_{at}.oantt", proof)):
                        (place / file).write_bytes(text)
                until(lambda: files(crate))
                (folder / f"rattle-logic-built-locked-{builds[0].pid}-0/later.oantt").write_bytes(proof)
                until(lambda: len(files(crate)) > 1)
        finally:
            for build in builds:
                build.kill()
                build.wait()
        found = {"one_two/of_0.oantt": proof, "one_two/later.oantt": proof}
        yield "what a build of statements checked is kept", files(crate) == {"out/incremental/" + file: text for file, text in found.items()}
        checked.give(crate, folder / "to")
        yield "a check begins with what was kept", files(folder / "to") == found
        checked.give(other, folder / "nothing")
        yield "a crate of which nothing was kept gives nothing", not (folder / "nothing").exists()


def files(folder):
    """The files below the folder, with their bytes."""
    return {str(it.relative_to(folder)): it.read_bytes() for it in folder.rglob("*") if it.is_file()}


def until(holds):
    """Waits at most a minute until it holds."""
    end = time.monotonic() + 60
    while not holds() and time.monotonic() < end:
        time.sleep(0.01)


def groups():
    rt = types.SimpleNamespace(BACKENDS={}, crates_of=lambda root: [], run=lambda crate, tests, ending="": True)
    made = beside.Beside(rt, False)
    lost = dict.fromkeys([(name, "proof") for name in beside.TESTED], True)
    lost[beside.TESTED[-1], "proof"] = False
    made.say = lambda text: None
    yield "a group is not run if its program is not proved", made.group(lost, "words") is False
    yield "and counts as failed", (made.passed, made.failed) == (0, 1)
    yield "there are groups, each once", len(beside.groups()) == len(set(beside.groups())) > 20


def forms():
    """Both forms of the toolchain are known, and no other; sums are worked out once, and what is left out ends at once."""
    loader = importlib.machinery.SourceFileLoader("ci", str(ROOT / "bin/ci"))
    ci = importlib.util.module_from_spec(importlib.util.spec_from_loader("ci", loader))
    loader.exec_module(ci)

    def made(functions, **more):
        return types.SimpleNamespace(**{name: eval("lambda %s: None" % ", ".join(words.split())) for name, words in functions.items()}, **more)

    keeps = types.SimpleNamespace(key=0, of_edit=0, tried=0, keep_tried=0, is_untouched=0)
    yield "a toolchain that keeps what was tried", ci.with_edits_side_by_side(made({**ci.KNOWN, **ci.KEEPS_WHAT_WAS_TRIED}, Kept=keeps, SETTLED=()))
    yield "one that tries all edits in one call", ci.with_edits_side_by_side(made({**ci.KNOWN, **ci.TRIES_ALL_IN_ONE_CALL}))
    yield "one that is neither", not ci.with_edits_side_by_side(made(ci.KNOWN))
    yield "one with other parameters", not ci.with_edits_side_by_side(made({**ci.KNOWN, **ci.TRIES_ALL_IN_ONE_CALL, "run": "crate"}))

    class Crate:
        sums = []

        def __init__(self, folder, *deps):
            self.folder, self.deps = folder, deps

        def stamp(self):
            Crate.sums.append(self.folder)
            return self.folder + "".join(it.stamp() for it in self.deps)

    low = Crate("a")
    high = Crate("d", Crate("b", low), Crate("c", low))
    before = high.stamp()
    Crate.sums.clear()
    toolchain.with_sums_once(types.SimpleNamespace(rtlib=types.SimpleNamespace(Crate=Crate)))
    yield "each sum is worked out once", high.stamp() == before and sorted(Crate.sums) == ["a", "b", "c", "d"]
    yield "and again when it is asked for again", high.stamp() == before and len(Crate.sums) == 8
    compiled = []

    class Program:
        def __init__(self, name):
            self.name = name

        def compile_by(self, backend, words, to):
            compiled.append((self.name, backend))
            return {"llvm": 0, "rattle": 7}[backend]

    with contextlib.redirect_stdout(None):
        ci.with_compilers_side_by_side(types.SimpleNamespace(Crate=Program))
        program, probe = Program("program"), Program(ci.PROBES[0])
        given = [made.compile_by(backend, [], "") for made in (program, probe) for backend in ("llvm", "rattle")]
        alone = program.compile_by("rattle", [], "")
    yield "each compiler is asked once, and its own status is given", (given, alone) == ([0, 7, 0, 0], 7) and sorted(compiled) == sorted(
        [("program", "llvm"), ("program", "rattle"), (probe.name, "llvm"), ("program", "rattle")])
    task = [], 1, 1, lambda _given, _jobs: "done"
    left = ci.only({"a"}, {"proof"}, "no edits")({(name, kind): task for name in "ab" for kind in ("proof", "tests", "edits")})
    yield "tasks that are left out end at once", {key: (it[1], it[3](None, 1)) for key, it in left.items()} == {
        ("a", "proof"): (1, "done"), ("a", "tests"): (0, True), ("a", "edits"): (0, "no edits"),
        ("b", "proof"): (0, True), ("b", "tests"): (0, True), ("b", "edits"): (0, "no edits")}


def named():
    """A method has the name that a check gives to it, with the types that stand for parameters of its type and its trait."""
    heads = {
        "pub trait Device: Drop {": "Device",
        "impl<K: Chain, V: Join> Join for JoinMap<K, V> {": "JoinMapJoin",
        "impl PacketSink for Vec<Packet> {": "VecPacketPacketSink",
        "impl<R: Read> Source for ReadAhead<BufReader<R>> {": "ReadAheadBufReaderSource",
        "impl<T: Drop> From<AllocFailed<T>> for Refusal {": "RefusalFromAllocFailed",
        "impl EntryText<(TaskId, u32)> for JoinMap<CoordId, Min<Spot>> {": "JoinMapCoordIdMinSpotEntryTextTuple2TaskIdU32",
        "impl<R: Eprint, D: Device> Device for TellingDevice<'_, R, D> {": "TellingDeviceDevice",
        "impl fmt::Display for Ending {": "EndingDisplay",
    }
    for head, owner in heads.items():
        found = bodies.name_of(("src/a.rt", 1, 2), {"src/a.rt": f"{head}\n    fn take(&self) {{\n    }}\n}}\n"})
        yield f"a method below {head}", found == f"{owner}::take"


def refused():
    """Wrong bodies are tried together, and else alone and from nothing; each is told once."""
    with tempfile.TemporaryDirectory() as name:
        folder = pathlib.Path(name)
        (folder / "src").mkdir()
        (folder / "src/lib.rt").write_text("".join("fn %s() -> u8 {\n    %d\n}\n" % (word, at) for at, word in enumerate(("one", "two", "three"))))
        edits = []
        for at in range(3):
            edits.append(str(folder / ("e%d.edit" % at)))
            pathlib.Path(edits[-1]).write_text("file: src/lib.rt\nold:     %d\nnew:     9\n" % at)
        asked, alone, told = [], [], []

        def must_fail(crate, edit, flags, kept=None):
            alone.append((edit, kept is not None))
            return edit == edits[1], "said of " + edit

        def over(seed_status):
            """A toolchain by whose check the crate as it stands is proved over what was kept, or is not."""
            return types.SimpleNamespace(must_fail=must_fail, checked=lambda *_given: types.SimpleNamespace(returncode=seed_status))

        def ask(rt, crate, names, texts, kept):
            asked.append((sorted(names), texts["src/lib.rt"].count("9")))
            return "src/lib.rt:2:5: error: it is not proved that\n"

        crate = types.SimpleNamespace(name="crate", folder=name)
        with mock.patch.object(refusals, "asked", ask):
            found = refusals.outcomes(over(0), crate, edits, lambda *it: told.append(it))
        yield "one check for edits of different functions", asked == [(["one", "three", "two"], 3)]
        yield "what is not refused there is tried alone and from nothing", alone == [(edits[1], False), (edits[2], False)]
        yield "each has its own outcome", [kind for kind, _ in found] == [True, True, False] and found[0][1].startswith("must-fail crate/e0.edit: refused")
        yield "each is told once it is known", told == list(zip(edits, found))
        for status, wanted in ((0, [(edits[1], True), (edits[2], True), (edits[2], False)]), (1, [(edits[1], False), (edits[2], False)])):
            alone.clear()
            (folder / "out/incremental/it").mkdir(parents=True, exist_ok=True)
            with mock.patch.object(refusals, "asked", ask):
                again = refusals.outcomes(over(status), crate, edits)
            yield "over what was kept, if the crate is proved over that: %d" % status, (alone, again) == (wanted, found)
        shutil.rmtree(folder / "out")
        asked.clear()
        alone.clear()

        def ask_readable(rt, crate, names, texts, kept):
            asked.append(sorted(names))
            return "".join("src/lib.rt:%d:5: error: it is not proved that\n" % (3 * at + 2) for at in range(3)) if "three" not in names else ""

        with mock.patch.object(refusals, "asked", ask_readable):
            refusals.outcomes(over(0), crate, edits)
        yield "without an answer each half is asked for", asked == [["one", "three", "two"], ["one"], ["three", "two"], ["two"], ["three"]]
        yield "what cannot be read is tried alone", alone == [(edits[2], False)]
        with mock.patch.object(refusals, "asked", lambda *_given: ""):
            found = refusals.outcomes(types.SimpleNamespace(must_fail=lambda *_given: (False, "proved")), crate, edits)
        yield "what no try refuses is not refused", found == [(False, "proved")] * 3
        causes = [refusals.cause_in(said) for said in ("read\nrattle: error[unusable]: why\nlast\n", "one\nlast\n\n", "")]
        yield "why a check is no answer is its first error, or its last line", causes == ["rattle: error[unusable]: why", "last", "it said nothing"]


def calm():
    """The session in which the tests of a crate are built has less of the processors than others, where Linux weighs sessions."""
    with tried.CalmSession(["sleep", "60"], start_new_session=True) as ran:
        file = pathlib.Path(f"/proc/{ran.pid}/autogroup")
        said = file.read_text() if file.exists() else ""
        ran.kill()
    yield "the session of a try is a calm one", not said or said.split()[-1] == tried.CALM


def all_tests():
    for tests in (laid_out, budgets, kept, groups, forms, named, refused, calm):
        yield from tests()
