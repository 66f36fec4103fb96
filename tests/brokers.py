"""A broker and bridges as processes on the loopback address, for tests/bridged.py, examples/brokered/run and
bench/bridge. All of them end with the process that started them, by `with`."""
import fcntl
import getpass
import importlib.util
import json
import os
import pathlib
import re
import shutil
import signal
import socket
import subprocess
import sys
import tempfile
import threading
import time

ROOT = pathlib.Path(__file__).resolve().parent.parent
BRIDGE = ROOT / "bin/bridge"
PROGRAM = ROOT / "crates/fm_cli/out/fm_cli"
# the longest that anything here is waited for
PATIENCE = float(os.environ.get("PATIENCE", 60))
# the end of an answer
END = re.compile(rb"(?m)^(?:ok|refusal [0-9]+)\n\Z")
QUICK = ["--cut-interval", "0.05", "--state-interval", "0.3", "--refresh", "1", "--claim-wait", "0.3", "--ack-wait", "3"]


def mosquitto():
    """The program of the broker, or None: the one that MOSQUITTO names, one that is found, or the one where Debian
    has it."""
    named = os.environ.get("MOSQUITTO")
    found = named or shutil.which("mosquitto") or "/usr/sbin/mosquitto"
    return found if os.access(found, os.X_OK) else None


def missing():
    """The Debian packages that are not installed, of those that a broker and a bridge needs."""
    has_paho = importlib.util.find_spec("paho") is not None or subprocess.run(
        ["/usr/bin/python3", "-c", "import paho.mqtt"], stderr=subprocess.DEVNULL).returncode == 0
    return [name for name, there in (("mosquitto", mosquitto() is not None), ("python3-paho-mqtt", has_paho)) if not there]


def told(number, op):
    """The line that tells a coordinator an operation."""
    return json.dumps({"at": number, "tell": op}, separators=(",", ":")).encode() + b"\n"


def free_port():
    with socket.socket() as some:
        some.bind(("127.0.0.1", 0))
        return some.getsockname()[1]


def until(holds, patience=PATIENCE, pause=0.02):
    """Whether something holds within so many seconds, and what it came to last."""
    end = time.monotonic() + patience
    while not (found := holds()) and time.monotonic() < end:
        time.sleep(pause)
    return found


def log():
    """A file to which processes write while it is read: behind its end, wherever it was read last."""
    file = tempfile.TemporaryFile()
    fcntl.fcntl(file, fcntl.F_SETFL, fcntl.fcntl(file, fcntl.F_GETFL) | os.O_APPEND)
    return file


class Broker:
    """Mosquitto on a free port, with its store in a folder, and further lines of its configuration."""

    def __init__(self, folder, lines=("allow_anonymous true",)):
        self.folder, self.port, self.run = pathlib.Path(folder), free_port(), None
        self.file = self.folder / "mosquitto.conf"
        self.file.write_text("\n".join([
            f"listener {self.port} 127.0.0.1", "persistence true", f"persistence_location {self.folder}/", "autosave_interval 1",
            f"user {getpass.getuser()}", "log_dest none", *lines, ""]))

    def __enter__(self):
        self.start()
        return self

    def __exit__(self, *_):
        self.kill()

    def start(self):
        self.run = subprocess.Popen([mosquitto(), "-c", self.file], stdin=subprocess.DEVNULL, stdout=subprocess.DEVNULL,
                                    stderr=subprocess.DEVNULL)
        if not until(self.is_there):
            self.kill()
            raise RuntimeError("the broker does not start")

    def is_there(self):
        try:
            socket.create_connection(("127.0.0.1", self.port), timeout=1).close()
            return True
        except OSError:
            return False

    def kill(self, by=signal.SIGKILL):
        if self.run is not None:
            self.run.send_signal(by)
            self.run.wait(timeout=PATIENCE)
            self.run = None

    def forget(self):
        """Lets the store of a broker that does not run go."""
        (self.folder / "mosquitto.db").unlink(missing_ok=True)


class Bridge:
    """A bridge, whose answers are collected as they come, and what it says as JSON."""

    def __init__(self, port, number, *words, cluster="test", program=PROGRAM):
        self.number, self.heard = number, bytearray()
        self.said = log()
        command = [BRIDGE, "--cluster", cluster, "--number", str(number), "--broker", f"127.0.0.1:{port}", "--program", program]
        self.run = subprocess.Popen([*command, "--json", *words], stdin=subprocess.PIPE, stdout=subprocess.PIPE, stderr=self.said, bufsize=0)
        self.changed = threading.Condition()
        self.reader = threading.Thread(target=self.read, daemon=True)
        self.reader.start()

    def __enter__(self):
        return self

    def __exit__(self, *_):
        self.kill()
        self.said.close()

    def read(self):
        while piece := os.read(self.run.stdout.fileno(), 1 << 16):
            with self.changed:
                self.heard += piece
                self.changed.notify_all()
        with self.changed:
            self.changed.notify_all()

    def write(self, text):
        """Writes lines; what the bridge does not read, since it ended, is lost."""
        left = memoryview(text)
        try:
            while left:
                left = left[os.write(self.run.stdin.fileno(), left):]
        except OSError:
            pass

    def count(self):
        """How many answers of one line came, if no question was asked."""
        return self.heard.count(b"\n")

    def wait_for(self, count, patience=PATIENCE):
        """Whether so many lines of answers came in time."""
        end = time.monotonic() + patience
        with self.changed:
            while self.count() < count and self.reader.is_alive() and time.monotonic() < end:
                self.changed.wait(0.1)
        return self.count() >= count

    def ask(self, value, patience=PATIENCE):
        """The answer to a line, of which no answer before it is waited for."""
        with self.changed:
            begin = len(self.heard)
        self.write((json.dumps(value) if isinstance(value, dict) else value).encode() + b"\n")
        end = time.monotonic() + patience
        with self.changed:
            while not END.search(self.heard, begin) and self.reader.is_alive() and time.monotonic() < end:
                self.changed.wait(0.1)
            return bytes(self.heard[begin:])

    def graph(self):
        return self.ask({"at": self.number, "ask": "graph"})

    def events(self):
        """What it said, so far."""
        file = self.said.fileno()
        # without a seek, which would move the place where the bridge writes
        text = os.pread(file, os.fstat(file).st_size, 0)
        return [json.loads(line) for line in text.split(b"\n")[:-1]]

    def has_said(self, event):
        return any(said["event"] == event for said in self.events())

    def counts(self):
        """What it counted, if it said so."""
        return next((said["counts"] for said in reversed(self.events()) if "counts" in said), {})

    def children(self):
        """The processes that it started and that run."""
        numbers = [int(place.name) for place in pathlib.Path("/proc").glob("[0-9]*")]
        return [number for number in numbers if started_by(number) == self.run.pid]

    def kill(self):
        """Kills it, and waits until its follower saw the end of its lines, so that a store is free."""
        followers = self.children() if self.run.poll() is None else []
        if self.run.poll() is None:
            self.run.kill()
        self.run.wait(timeout=PATIENCE)
        self.reader.join(PATIENCE)
        until(lambda: not any(map(started_by, followers)))

    def end(self, patience=PATIENCE):
        """The status if there are no more lines."""
        self.run.stdin.close()
        status = self.run.wait(timeout=patience)
        self.reader.join(patience)
        return status


def started_by(process):
    """Which process started one that runs, or 0 if it runs no more."""
    try:
        # behind the name, which may have any characters
        state, parent = pathlib.Path(f"/proc/{process}/stat").read_text().rpartition(")")[2].split()[:2]
    except OSError:
        return 0
    return int(parent) if state != "Z" else 0


def have_one_graph(bridges, patience=PATIENCE):
    """The graph that all bridges come to within so many seconds, or None."""
    def graphs():
        found = {bridge.graph() for bridge in bridges}
        return found if len(found) == 1 else None
    found = until(graphs, patience, pause=0.1)
    return found.pop() if found else None


if __name__ == "__main__":
    sys.exit("tests/brokers.py is for other scripts")
