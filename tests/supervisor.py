"""Processes that end with the one that asked for them, however it ends, and with all that they started.

    supervisor = Supervisor(folder)      # a process of its own: python3 tests/supervisor.py FOLDER
    process = supervisor.start(["slurmd", "-D"], folder / "log")

Daemons leave their group and session, and what they start outlives them. So they are children of a process that takes in each orphan
among its descendants, and that waits for the end of a pipe. At the end of the pipe, which comes if the asker is killed too, it kills all
its descendants and removes the folder.
"""
import contextlib
import ctypes
import json
import os
import pathlib
import select
import shutil
import signal
import subprocess
import sys
import time

PARENT_DEATH, CHILD_SUBREAPER = 1, 36
# seconds that an answer may take
PATIENCE = float(os.environ.get("PATIENCE", 300))


class Process:
    """A process that a supervisor runs."""

    def __init__(self, supervisor, pid):
        self.supervisor, self.pid = supervisor, pid

    def status(self):
        """How it ended, as `subprocess` says it, or None while it runs."""
        return self.supervisor.ask(status=self.pid)

    def wait(self, patience=PATIENCE):
        """How it ended, or None if it still runs after so many seconds."""
        end = time.monotonic() + patience
        while (status := self.status()) is None and time.monotonic() < end:
            time.sleep(0.02)
        return status

    def signal(self, number):
        with contextlib.suppress(ProcessLookupError):
            os.kill(self.pid, number)

    def kill(self):
        """Kills it, and answers how it ended. What it started goes on, as after a crash."""
        self.signal(signal.SIGKILL)
        return self.wait()


class Supervisor:
    """The asker's end of the pipe. The folder is removed in the end."""

    def __init__(self, folder):
        # in a session of its own: an interrupt typed at a terminal is for the asker
        self.run = subprocess.Popen([sys.executable, "-B", __file__, folder], stdin=subprocess.PIPE, stdout=subprocess.PIPE, text=True,
                                    start_new_session=True)

    def ask(self, **what):
        self.run.stdin.write(json.dumps(what) + "\n")
        self.run.stdin.flush()
        answer = json.loads(self.run.stdout.readline() or '{"error": "the supervisor ended"}')
        if "error" in answer:
            raise OSError(answer["error"])
        return answer["answer"]

    def start(self, command, log, **environment):
        """Starts a command whose output goes to a file, with these variables beside its own environment."""
        command = [os.fspath(word) for word in command]
        return Process(self, self.ask(start=command, log=os.fspath(log), environment={name: str(value) for name, value in environment.items()}))

    def close(self):
        """Ends all processes, and removes the folder."""
        self.run.stdin.close()
        self.run.wait(timeout=PATIENCE)
        self.run.stdout.close()


# the process

def begin():
    """Orphans among the descendants become children of this process."""
    ctypes.CDLL(None).prctl(CHILD_SUBREAPER, 1)


def end_with_parent():
    """If the supervisor itself is killed, at least what it started itself ends."""
    ctypes.CDLL(None).prctl(PARENT_DEATH, signal.SIGKILL)


def start(what, started, ended):
    with open(what["log"], "ab") as log:
        run = subprocess.Popen(what["start"], stdin=subprocess.DEVNULL, stdout=log, stderr=log, env={**os.environ, **what["environment"]},
                               start_new_session=True, preexec_fn=end_with_parent)
    # one that is not kept is waited for by the next one, which would lose its status
    started.append(run)
    ended.pop(run.pid, None)
    return run.pid


def reap(ended):
    """Takes the statuses of the children that ended."""
    with contextlib.suppress(ChildProcessError):
        while (found := os.waitpid(-1, os.WNOHANG))[0]:
            ended[found[0]] = os.waitstatus_to_exitcode(found[1])


def descendants(pid):
    """All processes below this one."""
    below = {}
    for folder in pathlib.Path("/proc").glob("[0-9]*"):
        with contextlib.suppress(OSError):
            parent = int((folder / "stat").read_text().rpartition(")")[2].split()[1])
            below.setdefault(parent, []).append(int(folder.name))
    found, left = [], [pid]
    while left:
        left += (children := below.get(left.pop(), []))
        found += children
    return found


def end_all(ended):
    """Kills all descendants. Those that were just started are found the next time."""
    while found := descendants(os.getpid()):
        for pid in found:
            with contextlib.suppress(ProcessLookupError):
                os.kill(pid, signal.SIGKILL)
        time.sleep(0.01)
        reap(ended)


def answer(line, started, ended):
    what = json.loads(line)
    try:
        return {"answer": start(what, started, ended) if "start" in what else ended.get(what["status"])}
    except (OSError, subprocess.SubprocessError) as why:
        return {"error": str(why)}


def main(folder):
    for number in signal.SIGINT, signal.SIGTERM, signal.SIGHUP:
        # not ignored, which the processes that it starts would inherit
        signal.signal(number, lambda *_: None)
    begin()
    started, ended, text = [], {}, b""
    try:
        while True:
            reap(ended)
            if not select.select([0], [], [], 0.1)[0]:
                continue
            piece = os.read(0, 1 << 16)
            if not piece:
                return
            *lines, text = (text + piece).split(b"\n")
            for line in lines:
                reap(ended)
                os.write(1, json.dumps(answer(line, started, ended)).encode() + b"\n")
    except BrokenPipeError:
        return
    finally:
        end_all(ended)
        shutil.rmtree(folder, ignore_errors=True)


if __name__ == "__main__":
    main(sys.argv[1])
