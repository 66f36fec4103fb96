"""Runs of the program, timed, and of LEMON's solvers beside it (bench/lemon.cc)."""
import os
import pathlib
import re
import shlex
import shutil
import subprocess
import sys
import tempfile
import time

HERE = pathlib.Path(__file__).resolve().parent
sys.path.insert(0, str(HERE.parent / "bin"))
import kept


def add_program(parser, metavar="FILE"):
    """Lets a command line say which program is timed."""
    parser.add_argument("--program", metavar=metavar, help="what is timed; the proved program if it is not given")
    parser.add_argument("--unproved", action="store_true", help="times the unproved build with checks instead")


def choose_program(words):
    """Has the words name the program that is timed, if they name none, and answers which build it is, or None if it was named. An
    unproved build has to be asked for: its checks take time too."""
    script = "bench/" + pathlib.Path(sys.argv[0]).name
    if words.program is not None:
        if not any(map(os.path.exists, (words.program, shlex.split(words.program)[0]))):
            sys.exit("%s: no program at %s" % (script, words.program))
        return None
    if not words.unproved:
        words.program = kept.PROVED
        if not kept.is_proved():
            sys.exit("%s: no proved program, or a source is newer: bin/build makes it; --unproved times a build with checks" % script)
        return "proved"
    try:
        words.program = kept.program()
    except kept.NoBuild as why:
        sys.exit("%s: %s" % (script, why))
    os.environ.update(kept.CHECKS)
    print("%s: times an unproved build with checks, which is slower than the proved program" % script, file=sys.stderr, flush=True)
    return "unproved, with checks"


def timed(program, words, script):
    """What the program takes on the script, in seconds, and what it prints."""
    with open(script, "rb") as source, tempfile.TemporaryFile() as out:
        start = time.perf_counter()
        status = subprocess.run([program, *words], stdin=source, stdout=out).returncode
        taken = time.perf_counter() - start
        if status:
            sys.exit("bench: status %d" % status)
        out.seek(0)
        return taken, out.read()


def used(program, words, script):
    """What the program takes on the script, in seconds, and the most memory that it has, in bytes."""
    with open(script, "rb") as source, tempfile.TemporaryFile() as out:
        start = time.perf_counter()
        run = subprocess.Popen([program, *words], stdin=source, stdout=out)
        _, status, usage = os.wait4(run.pid, 0)
        taken = time.perf_counter() - start
    if status:
        sys.exit("bench: status %d" % os.waitstatus_to_exitcode(status))
    return taken, usage.ru_maxrss * 1024


def python_with(module):
    """A Python that has the module, this one or Debian's; None if neither has."""
    for python in (sys.executable, "/usr/bin/python3"):
        if shutil.which(python) and subprocess.run([python, "-c", "import " + module], stderr=subprocess.DEVNULL).returncode == 0:
            return python
    return None


def lemon(folder):
    """The program that runs LEMON's solvers, made in the folder; None, with a line that says why, if it cannot be made."""
    compiler, program = shutil.which("g++"), pathlib.Path(folder) / "lemon"
    if compiler is None:
        print("bench: skips LEMON: no g++ here")
        return None
    made = subprocess.run([compiler, "-O2", "-w", "-o", program, HERE / "lemon.cc"], stderr=subprocess.PIPE, text=True)
    if made.returncode:
        print("bench: skips LEMON: %s" % made.stderr.strip().partition("\n")[0])
        return None
    return program


def lemon_times(program, dump, cost):
    """What `run()` of each of LEMON's solvers takes on the dump, and that with reading it and making the graph, in seconds, by the
    solver's name; each has to find the cost."""
    said = subprocess.run([program, dump], stdout=subprocess.PIPE, text=True, check=True).stdout
    found = re.findall(r"^(\S+) cost (-?\d+) read (\S+) build (\S+) run (\S+)$", said, re.M)
    if not found or any(int(line[1]) != cost for line in found):
        sys.exit("bench: the costs differ: %d here, LEMON says\n%s" % (cost, said))
    return {name: (float(run) / 1000, (float(read) + float(build) + float(run)) / 1000) for name, _, read, build, run in found}


def machine():
    """What this runs on: the processor, its cores, and how much other work there is."""
    info = pathlib.Path("/proc/cpuinfo")
    named = re.search(r"^model name\s*: (.*)$", info.read_text(), re.M) if info.exists() else None
    return "%s, %d cores, load %.1f at the start" % (named[1] if named else os.uname().machine, os.cpu_count(), os.getloadavg()[0])
