#!/usr/bin/env python3
"""Tests of the lock of bin/slurm over a broker, by name, for tests/run: adapters as processes on a real broker, with commands of Slurm that only
pretend, and that note who gave them and when.

    tests/slurm_locks.py [--program FILE] [GROUP..]

Runs the groups that are named, or all, which --help lists. Ends in a line 'N passed, M failed'. They wait most of the time. If a Debian package
is missing, says which, and runs none but the group `alone`. All traffic is on the loopback address.
"""
import argparse
import contextlib
import json
import os
import pathlib
import shutil
import signal
import subprocess
import sys
import tempfile
import threading
import time

ROOT = pathlib.Path(__file__).resolve().parent.parent
sys.dont_write_bytecode = True
sys.path[:0] = [str(ROOT / "tests"), str(ROOT / "bin")]
import brokers
import mqtt
import slurm_parts
from bridging.endings import NO_PACKAGE
from slurming.leases import Times

TIMES = Times()
# what docs/slurm.md says of how soon another one acts, in seconds
TAKES, SOON = 12.0, 2.0
# what it may take longer, and how many times longer than a short piece of work was seen to take longer than by itself
MORE, TIMES_MORE = 3.0, 40.0
PATIENCE = 300.0
LOCKED = 14
# a job that waits, and that Slurm refuses to place: so who acts gives a command in each pass
WAITING = "1|N/A|PD|net|9|0|1|1|1000|1000|||1|1|N/A|(null)|PartitionDown|(null)|\n"
# who gives a command that changes a job, and when; an adapter that the file `stop` names is stopped in the midst of a pass
COMMANDS = {
    **slurm_parts.COMMANDS,
    "squeue": """[ "$(cat FOLDER/stop 2>/dev/null)" = "$ADAPTER" ] && rm FOLDER/stop && kill -STOP $PPID\nprintf '%s' "$JOBS" """,
    "scontrol": """case $1 in update|requeuehold|release) echo "$ADAPTER $EPOCHREALTIME" >> FOLDER/given ;; esac\n"""
                + slurm_parts.COMMANDS["scontrol"]}
CONFIGURATION = """\
[slurm]
commands = {folder}
[adapter]
lock = {lock}
interval = 1
whys = 0
[use]
source = none
"""


class Busy:
    """Notes how much longer a short sleep and a little work took at most than if the processors are free, and how many processes waited for
    each processor at most."""

    def __init__(self):
        self.longest, self.crowd, self.is_over = 0.0, 1.0, threading.Event()
        self.run = threading.Thread(target=self.look, daemon=True)

    def __enter__(self):
        self.run.start()
        return self

    def __exit__(self, *_):
        self.is_over.set()
        self.run.join()

    def look(self):
        while not self.is_over.is_set():
            began = time.monotonic()
            time.sleep(0.2)
            sum(range(100000))
            self.longest = max(self.longest, time.monotonic() - began - 0.2)
            self.crowd = max(self.crowd, os.getloadavg()[0] / len(os.sched_getaffinity(0)))

    def allows(self, took, most):
        """Whether something took no longer than it may."""
        return took <= self.crowd * (most + MORE) + TIMES_MORE * self.longest


class Adapter:
    """An adapter as a process, and what it says."""

    def __init__(self, place, name, lock, *words, more="", python=()):
        self.place, self.name, self.said = place, name, brokers.log()
        file = place.folder / f"{name}.ini"
        file.write_text(CONFIGURATION.format(folder=place.folder, lock=lock) + more)
        command = [*python, str(ROOT / "bin/slurm"), "--program", str(place.program), "--json", *words, str(file)]
        self.run = subprocess.Popen(command, env=place.environment(name), stdin=subprocess.DEVNULL, stdout=subprocess.DEVNULL, stderr=self.said)

    def __enter__(self):
        return self

    def __exit__(self, *_):
        if self.run.poll() is None:
            self.run.kill()
        self.run.wait()
        self.said.close()

    def events(self, *kinds):
        """What it said, as far as it was said whole, of these kinds."""
        self.said.seek(0)
        lines = [json.loads(line) for line in self.said.read().split(b"\n")[:-1]]
        return [line for line in lines if line["event"] in kinds]

    def acts(self):
        """Whether it acts, by what it said last."""
        return [it["event"] for it in self.events("acting", "standby", "stopped", "failed")][-1:] == ["acting"]

    def acted_at(self):
        return self.events("acting")[-1]["time"]

    def stands_by(self, *texts):
        """Whether it stands by, and says one of these."""
        last = self.events("acting", "standby", "stopped", "failed")[-1:]
        return bool(last) and last[0]["event"] == "standby" and any(text in last[0]["text"] for text in texts or ("",))

    def last_words(self):
        return [it["text"] for it in self.events("acting", "standby", "stopped", "failed")][-3:]

    def ended(self, by=None):
        """Its status, behind a signal if one is given."""
        if by is not None:
            self.run.send_signal(by)
        return self.run.wait(PATIENCE)


class Place:
    """A folder with commands that pretend, and the adapters that run with them."""

    def __init__(self, program):
        self.program, self.stack = program, contextlib.ExitStack()

    def __enter__(self):
        self.folder = pathlib.Path(self.stack.enter_context(tempfile.TemporaryDirectory()))
        for name, text in COMMANDS.items():
            (self.folder / name).write_text("#!/bin/bash\n" + text.replace("FOLDER", str(self.folder)) + "\n")
            (self.folder / name).chmod(0o755)
        return self

    def __exit__(self, *_):
        self.stack.close()

    def environment(self, name):
        return {**os.environ, "NODES": slurm_parts.NODES.splitlines()[0], "JOBS": WAITING, "UPDATED": "it may not", "ADAPTER": name,
                "ASAN_OPTIONS": "abort_on_error=0:exitcode=70"}

    def adapter(self, name, lock, *words, **how):
        return self.stack.enter_context(Adapter(self, name, lock, *words, **how))

    def given(self, name=None):
        """Who gave commands, and when, in order."""
        file = self.folder / "given"
        lines = [line.split() for line in file.read_text().split("\n")[:-1]] if file.exists() else []
        return [(who, float(at)) for who, at in lines if name in (None, who)]

    def acts(self, adapter):
        """Whether an adapter acts, and gave a command since."""
        return adapter.acts() and [at for _, at in self.given(adapter.name)][-1:] > [adapter.acted_at()]


def lock_at(port, cluster="test"):
    return f"mqtt://127.0.0.1:{port}/{cluster}"


def until(holds):
    """Whether something holds in time, and what it came to last."""
    return brokers.until(holds, PATIENCE, 0.05)


def one_acts(adapters):
    """The one that acts, once one does and the others say that it does."""
    def seen():
        acting = [it for it in adapters if it.acts()]
        others = [it for it in adapters if it not in acting]
        return acting if len(acting) == 1 and all(it.stands_by("another adapter has the lock") for it in others) else None
    found = until(seen)
    return found[0] if found else None


# one acts, and what then happens

def standing_by(program):
    """Of two that begin at once one acts, and the other does once that is killed. Without the broker nobody does."""
    with Busy() as busy, tempfile.TemporaryDirectory() as folder, brokers.Broker(folder) as broker, Place(program) as place:
        lock = lock_at(broker.port)
        both = [place.adapter(name, lock) for name in ("a", "b")]
        first = one_acts(both)
        yield "one of two that begin at once acts: %s" % [it.last_words() for it in both], first is not None
        second = both[both[0] is first]
        third = place.adapter("c", lock, "--no-wait")
        status, words = third.ended(), third.last_words()
        yield "a third one does not wait: %d %s" % (status, words), status == LOCKED and "another adapter has the lock" in words[-1]
        yield from beside_a_bridge(program, broker, first)
        yield "it gives commands", until(lambda: place.acts(first))
        first.ended(signal.SIGKILL)
        took, late = taken_over(place, first, second, time.time())
        # it may not have claimed it for up to 6 s when it is killed
        yield "it is killed, and the other one acts after 4 to 12 s: %.1f" % took, TIMES.silence - TIMES.holds <= took and busy.allows(took, TAKES)
        yield "nobody gives commands in the other's time: %d" % late, late <= 1
        yield from without_broker(place, broker, second, busy)
        yield from ended_well(place, broker, second, busy)


def taken_over(place, loser, taker, moment):
    """How long after that moment another one acts, in seconds, and how many commands the one before gave behind the first one of the other. A
    command that was given in time may say so late if all processors are busy."""
    if not until(lambda: place.acts(taker)):
        return float("inf"), 0
    return taker.acted_at() - moment, sum(at > taker.acted_at() for _, at in place.given(loser.name))


def beside_a_bridge(program, broker, adapter):
    """A bridge of the same cluster and number has its number, and the adapter its lock."""
    with brokers.Bridge(broker.port, 1, *brokers.QUICK, "--connect-wait", str(PATIENCE), program=program) as bridge:
        answer, status = bridge.ask({"at": 1, "ask": "graph"}), bridge.end()
        yield "a bridge of the same cluster and number runs beside it: %d" % status, answer.endswith(b"ok\n") and status == 0
        yield "and the adapter goes on", adapter.acts()


def without_broker(place, broker, adapter, busy):
    """The broker goes away: who acts stops. It comes back: who acted does again."""
    broker.kill()
    gone = time.time()
    stops = until(lambda: not adapter.acts())
    lost = [it["time"] for it in adapter.events("standby") if "is lost" in it["text"]][-1:]
    yield "without the broker it stops acting: %s" % adapter.last_words(), stops and lost and busy.allows(lost[0] - gone, TIMES.holds)
    until(lambda: adapter.stands_by("no broker at 127.0.0.1:%d" % broker.port))
    yield "it says why: %s" % adapter.last_words(), adapter.stands_by("no broker at 127.0.0.1:%d" % broker.port)
    # its commands are over before it says anything
    time.sleep(4)
    yield "it gives no command from then on", bool(lost) and place.given()[-1][1] <= lost[0]
    broker.start()
    seen = len(adapter.events("node"))
    took, _ = taken_over(place, adapter, adapter, time.time())
    yield "it acts again, but not at once: %.1f s" % took, TIMES.silence - 1 <= took and busy.allows(took, TAKES + 3)
    yield "it begins anew: it says again which nodes are open", len(adapter.events("node")) > seen > 0


def ended_well(place, broker, adapter, busy):
    """One that ends by itself gives the lock up, and another one that stands by acts at once."""
    other = place.adapter("d", lock_at(broker.port))
    acting = one_acts([adapter, other])
    yield "one that comes stands by: %s" % other.last_words(), acting is adapter
    # it takes the lock only if it listened for long enough
    time.sleep(TIMES.silence)
    status = adapter.ended(signal.SIGTERM)
    took, late = taken_over(place, adapter, other, time.time())
    yield "who acts ends well, and the other one acts at once: %d, %.1f s, %d" % (status, took, late), status == 0 and busy.allows(took, SOON) and not late
    yield "a signal ends it, too", other.ended(signal.SIGTERM) == 0
    with mqtt.Client(broker.port) as client:
        # as if somebody had the broker keep a claim
        text = {"token": "x", "turn": 1, "running": True, "since": 0, "age": 1e9, "new": False}
        client.publish("fetohamu/test/slurm/1", json.dumps(text).encode(), retain=True)
    last = place.adapter("e", lock_at(broker.port), "--no-wait", "--passes", "1")
    yield "a claim that the broker keeps is none: %d" % last.ended(), last.events("acting")


# one that acts, and that nobody hears

def parted(program):
    """One whose messages are lost, that cannot reach the broker, or that is stopped in the midst of a pass gives no more commands once its time is
    over, and the other one acts. It stands by when it comes back."""
    with Busy() as busy, tempfile.TemporaryDirectory() as folder, brokers.Broker(folder) as broker:
        for name, harm, heal in (
                ("messages are lost", lambda proxy, _: proxy.faults.update(dropped=100), lambda proxy, _: proxy.heal()),
                ("no broker is there", lambda proxy, _: proxy.cut(), lambda proxy, _: proxy.mend()),
                ("stopped in a pass", lambda _, far: (far.place.folder / "stop").write_text("far"), lambda _, far: far.run.send_signal(signal.SIGCONT))):
            with mqtt.Proxy(broker.port) as proxy, Place(program) as place:
                far = place.adapter("far", lock_at(proxy.port, name))
                yield "%s: the first one acts" % name, until(lambda: place.acts(far))
                near = place.adapter("near", lock_at(broker.port, name))
                yield "%s: the second one stands by" % name, until(lambda: near.stands_by("another adapter has the lock"))
                proxy.deafen()
                time.sleep(TIMES.silence)
                yield "%s: before that a dead connection was replaced in time" % name, far.acts() or busy.longest > 0.5
                harm(proxy, far)
                took, _ = taken_over(place, far, near, time.time())
                yield "%s: the other one acts: %.1f s" % (name, took), busy.allows(took, TAKES + 2)
                if name == "messages are lost":
                    yield "it says that nothing comes back", until(lambda: far.stands_by("does not hand back"))
                heal(proxy, far)
                yield from comes_back(place, far, near, name)


def comes_back(place, loser, taker, name):
    """Who was parted from the broker has lost the lock, and knows it."""
    seen = until(lambda: loser.stands_by("another adapter has the lock"))
    yield "%s: it stands by when it comes back: %s" % (name, loser.last_words()), seen
    _, late = taken_over(place, loser, taker, 0)
    # who was stopped had given no command in that pass yet
    yield "%s: nobody gives commands in the other's time: %d" % (name, late), late <= (0 if "stopped" in name else 1)


# who is let in

def let_in(program):
    """TLS, users, passwords and rights: who is not let in says so, and does not act."""
    if shutil.which("mosquitto_passwd") is None or shutil.which("openssl") is None:
        print("slurm_locks: passwords and TLS are not tested, since there is no mosquitto_passwd or no openssl")
        return
    with tempfile.TemporaryDirectory() as name, Place(program) as place:
        folder = pathlib.Path(name)
        with brokers.Broker(folder, guarded(folder)) as broker:
            lock = lock_at(broker.port)
            option = {"user": "user = adapter\npassword-file = %s/secret\n" % folder, "reader": "user = reader\npassword-file = %s/secret\n" % folder,
                      "wrong": "user = adapter\npassword-file = %s/wrong\n" % folder, "ca": "ca = %s/here.pem\n" % folder,
                      "other": "ca = %s/other.pem\n" % folder}
            fine = place.adapter("fine", lock, more="[broker]\n" + option["user"] + option["ca"])
            new = place.adapter("new", lock, "--no-wait", more="[broker]\nmqtt = 5\n" + option["reader"] + option["ca"])
            for told, more, text in (("no user", option["ca"], "refuses"), ("a wrong password", option["wrong"] + option["ca"], "refuses"),
                                     ("a certificate that is not known", option["user"] + option["other"], "no TLS")):
                refused = place.adapter("refused", lock, more="[broker]\n" + more)
                status, words = refused.ended(), refused.last_words()
                yield "%s: %d %s" % (told, status, words), status == LOCKED and "cannot be had" in words[-1] and text in words[-1]
                refused = place.adapter("refused", lock, "--check", more="[broker]\n" + more)
                yield "%s, with --check" % told, refused.ended() == 13 and [it["about"] for it in refused.events("fault")] == ["the lock"]
            acts = until(fine.acts)
            yield "a user that is let in acts: %s" % fine.last_words(), acts
            status, words = new.ended(), new.last_words()
            yield "one that may not write hears that another acts: %d %s" % (status, words), status == LOCKED and "another adapter has" in words[-1]
            fine.ended(signal.SIGTERM)
            alone = place.adapter("alone", lock, "--no-wait", more="[broker]\n" + option["reader"] + option["ca"])
            status, words = alone.ended(), alone.last_words()
            yield "and does not act if none does: %d %s" % (status, words), status == LOCKED and "does not hand back" in words[-1]


def guarded(folder):
    """The lines of a broker with TLS and two users, of which one may write the adapters' topic of coordinator 1."""
    for name in "here", "other":
        made = "openssl req -x509 -newkey rsa:2048 -nodes -days 2 -subj /CN=localhost -addext subjectAltName=IP:127.0.0.1"
        subprocess.run([*made.split(), "-keyout", f"{folder}/{name}.key", "-out", f"{folder}/{name}.pem"], check=True, capture_output=True)
    secret, rules, passwords = folder / "secret", folder / "rules", folder / "passwords"
    secret.write_text("open sesame\n")
    (folder / "wrong").write_text("open barley\n")
    rules.write_text("user adapter\ntopic readwrite fetohamu/test/slurm/1\nuser reader\ntopic read fetohamu/test/#\n")
    for user, more in ("adapter", ["-c"]), ("reader", []):
        subprocess.run(["mosquitto_passwd", "-b", *more, passwords, user, "open sesame"], check=True, capture_output=True)
    for file in passwords, rules:
        file.chmod(0o600)
    return ["allow_anonymous false", f"password_file {passwords}", f"acl_file {rules}", f"certfile {folder}/here.pem", f"keyfile {folder}/here.key"]


# without a broker, and without the package

def nobody(program):
    """Without a broker an adapter stands by, and says so."""
    port = brokers.free_port()
    said = "no broker at 127.0.0.1:%d" % port
    with Place(program) as place:
        waits = place.adapter("waits", lock_at(port))
        ends = place.adapter("ends", lock_at(port), "--no-wait")
        status, words = ends.ended(), ends.last_words()
        yield "without a broker: %d %s" % (status, words), status == LOCKED and said in words[-1]
        checks = place.adapter("checks", lock_at(port), "--check")
        faults = (checks.ended(), [(it["about"], it["text"]) for it in checks.events("fault")])
        yield "with --check: %s" % (faults,), faults[0] == 13 and [about for about, _ in faults[1]] == ["the lock"] and said in faults[1][0][1]
        stands_by = until(lambda: waits.stands_by(said))
        yield "it stands by: %s" % waits.last_words(), stands_by
        yield "until a signal ends it", waits.ended(signal.SIGTERM) == 0 and not waits.events("acting") and not place.given()


def alone(program):
    """Python's paho-mqtt is wanted for a lock over a broker alone, and named if it is missing."""
    # without the folders of packages there is no paho-mqtt
    env = {"FETOHAMU_BRIDGE_TRIED": "yes", "PYTHONPATH": ""}
    with Place(program) as place:
        place.environment = lambda name, plain=place.environment: {**plain(name), **env}
        for name, lock, status in (("over a broker", lock_at(1), NO_PACKAGE), ("of a file", place.folder / "lock", 0)):
            adapter = place.adapter(name.replace(" ", "-"), lock, "--passes", "1", python=[sys.executable, "-S"])
            found, words = adapter.ended(), adapter.last_words()
            yield "a lock %s without paho-mqtt: %d %s" % (name, found, words), found == status and ("python3-paho-mqtt" in words[-1]) == (status != 0)


GROUPS = {"standing_by": standing_by, "parted": parted, "let_in": let_in, "nobody": nobody, "alone": alone}
# two groups of tests/run, which take as long as each other
SIDES = {"slurm_parted": ("parted",), "slurm_standby": tuple(it for it in GROUPS if it != "parted")}


def all_tests(program, names=tuple(GROUPS)):
    """Each test of the groups, by name; few, with a word, if a package is not installed."""
    for name in runnable(names):
        for told, fine in GROUPS[name](program):
            yield "slurm_locks: %s: %s" % (name, told), bool(fine)


def runnable(names):
    """The groups that can run here. Says so if a package is missing."""
    lacks = brokers.missing()
    if lacks:
        print("slurm_locks: skipped, since there is no %s (Debian's packages)" % " and no ".join(lacks))
    return [name for name in names if not lacks or name == "alone"]


def main():
    words = argparse.ArgumentParser(description=__doc__, formatter_class=argparse.RawDescriptionHelpFormatter)
    words.add_argument("--program", default=str(brokers.PROGRAM))
    words.add_argument("groups", nargs="*", metavar="GROUP", help=", ".join(GROUPS))
    words = words.parse_args()
    if set(words.groups) - GROUPS.keys():
        sys.exit("tests/slurm_locks.py: the groups are %s" % ", ".join(GROUPS))
    passed = failed = 0
    for group in runnable(words.groups or GROUPS):
        began, before = time.monotonic(), passed + failed
        for name, fine in all_tests(words.program, [group]):
            passed, failed = passed + fine, failed + (not fine)
            if not fine:
                print("FAILED: " + name, flush=True)
        print("%-16s%6d tests in %.0f s" % (group, passed + failed - before, time.monotonic() - began), flush=True)
    print("%d passed, %d failed" % (passed, failed))
    sys.exit(failed != 0)


if __name__ == "__main__":
    main()
