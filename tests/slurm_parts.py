"""Tests of the parts of bin/slurm by themselves: what Slurm's commands print, the configuration, ids, notes, prices, the measure of links,
the locks, and how an adapter begins and ends. What commands print was printed by Slurm 22.05.8.

    tests/slurm_parts.py [--program FILE]

Ends in a line 'N passed, M failed'.
"""
import argparse
import contextlib
import http.server
import io
import json
import os
import pathlib
import random
import signal
import subprocess
import sys
import tempfile
import threading
import time
import uuid

ROOT = pathlib.Path(__file__).resolve().parent.parent
sys.dont_write_bytecode = True
sys.path[:0] = [str(ROOT / "tests"), str(ROOT / "bin")]
import slurm_leases
import slurm_model as model
from slurming import identities, jobs, locks, nodes, notes, prices, rooms, settings, slurm, usage
from slurming.endings import Failure
from slurming.events import Events

QUEUES = frozenset(("net", "urgent"))
TASK = "01a2253a-4ee0-761a-b4fb-923f1f4c1da1"
NOTE = f"fetohamu={TASK},0,1,1795918434,0,net"
SQUEUE = f"""\
2|0,2,6%2|PD|net|4294901758|0|1|1|1795921312|1795921313|||1|1|gres:bandwidth:40|(null)|PartitionDown|(null)|
4|N/A|PD|net|4294901757|0|1|1|1795921312|N/A|||1|1|gres:bandwidth:7|afterok:1(unfulfilled)|Dependency|(null)|
5|N/A|PD|net|4294901756|0|1|1|1795921312|1795921612|||1|1|N/A|(null)|BeginTime|(null)|
6|N/A|PD|net|4294901755|0|1|1|1795921312|1795921312|||1|2|N/A|(null)|PartitionDown|(null)|
7|N/A|PD|net|4294901754|0|1|1|1795921312|1795921312||n2|1|1|N/A|(null)|PartitionDown|(null)|
8|N/A|PD|net|4294901753|0|1|1|1795921312|1795921312|||1|1|gres:bandwidth|(null)|PartitionDown|(null)|
9|N/A|PD|net|4294901752|0|1|1|1795921312|1795921312|||1|1|gres:bandwidth:1,gres:bandwidth:2|(null)|PartitionDown|(null)|
11|N/A|PD|net|4294901750|0|0|1|1795921312|1795921312|||1|1|N/A|(null)|PartitionDown|(null)|
13|N/A|PD|net|4294901749|0|1|0|1795921312|1795921312|||1|1|gres:bandwidth:5|(null)|PartitionDown|(null)|
3|N/A|PD|net|0|0|1|1|1795921312|N/A|||1|1|N/A|(null)|JobHeldUser|(null)|
10|N/A|PD|net,urgent|4294901751|0|1|1|1795921312|1795921312|||1|1|gres:bandwidth:2|(null)|PartitionDown|(null)|
2|4|CG|netrun|0|1|1|1|1795921312|1795921312|n3|n3|1|1|gres:bandwidth:40|(null)|job requeued in held state|{NOTE}|
1|N/A|R|netrun|4294901759|0|1|1|1795921312|1795921312|n2|n2|1|1|gres:bandwidth:40|(null)|None|site|x {NOTE} y|
"""
NODES = """\
NodeName=n1 Arch=x86_64 CoresPerSocket=1  CPUAlloc=0 CPUEfctv=4 CPUTot=4 CPULoad=5.73 AvailableFeatures=(null) Gres=bandwidth:100 \
NodeAddr=127.0.0.1 NodeHostName=localhost Port=36821 Version=22.05.8 OS=Linux 6.18.44 #1 SMP PREEMPT_DYNAMIC @0  RealMemory=1 State=IDLE \
ThreadsPerCore=1 TmpDisk=0 Weight=1 Partitions=net,urgent,netrun  BootTime=1795918434 SlurmdStartTime=1795921310 CfgTRES=cpu=4,mem=1M
NodeName=n3 Arch=x86_64 CoresPerSocket=1  CPUAlloc=1 CPUEfctv=4 CPUTot=4 CPULoad=5.73 Gres=bandwidth:no_consume:100(S:0) NodeAddr=::1 \
OS=Linux 6.18.44 #1 SMP  State=MIXED+NOT_RESPONDING ThreadsPerCore=2 Partitions=net,urgent,netrun  BootTime=None SlurmdStartTime=1795921310
NodeName=n4 Arch=x86_64 CPUAlloc=0 CPUTot=4 Gres=gpu:2 NodeAddr=10.0.0.4 OS=Linux 6.18.44 #1 SMP  State=IDLE+DRAIN ThreadsPerCore=1 \
Partitions=net,urgent,netrun  BootTime=1795918433 SlurmdStartTime=1795921310 Reason=a State=DOWN b [root@1795921313]
"""
PAGE = """\
# TYPE node_network_receive_bytes_total counter
node_network_receive_bytes_total{device="eth0"} 1.25e+08
node_network_receive_bytes_total{device="lo"} 5
node_network_transmit_bytes_total{device="eth0"} 2.5e+07
node_network_transmit_bytes_total{device="lo"} 5
node_time_seconds 1.7959213130025e+09
"""


# what Slurm prints

def printed_jobs():
    """Lines of squeue become jobs, and each job what it is to an adapter."""
    found, strange = slurm.read_jobs(SQUEUE, "bandwidth")
    yield "16 jobs in 13 lines: %s" % strange, (len(found), strange) == (15, [])
    by_name = {job.name: job for job in found}
    yield "the elements of an array", [job.name for job in found if job.root == 2] == ["2_0", "2_2", "2_6", "2_4"]
    yield "its throttle", [by_name[name].record.throttle for name in ("2_0", "2_6", "2_4", "1")] == [2, 2, None, None]
    seen = {name: jobs.see(job, "c", "netrun", QUEUES, 1795921313.0) for name, job in by_name.items()}
    for name, phase in (("2_0", "WAITING"), ("4", "WITHHELD"), ("5", "WITHHELD"), ("6", "WITHHELD"), ("7", "WITHHELD"), ("8", "WAITING"),
                        ("9", "WITHHELD"), ("11", "WAITING"), ("3", "WITHHELD"), ("10", "WITHHELD"), ("2_4", "LEAVING"), ("1", "RUNNING")):
        yield "job %s is %s" % (name, seen[name].phase), seen[name].phase.name == phase
    yield "what is unfit says why", {name for name, it in seen.items() if it.unfit} == {"6", "7", "9", "10"}
    yield "requests", [seen[name].request for name in ("2_0", "5", "8", "4", "1")] == [40, 0, 1, 7, 40]
    yield "who may be requeued: no job without --requeue, and no interactive one", \
        {name for name, job in by_name.items() if not job.record.may_requeue} == {"11", "13"}
    yield "a comment with a bar", by_name["1"].record.comment == f"site|x {NOTE} y"
    first, second = SQUEUE.splitlines()[:2]
    for name, line in (("too few fields", "7|N/A|PD|net|"), ("a number that is none", second.replace("1795921312", "x")),
                       ("an array that is none", first.replace("0,2,6%2", "0-")), ("words", "slurm_load_jobs error"),
                       ("a line that was cut off", second[:-1])):
        yield "no job: " + name, slurm.read_jobs(line + "\n" + SQUEUE, "bandwidth") == (found, [line])
    yield "no jobs", slurm.read_jobs("", "bandwidth") == ([], [])


def printed_nodes():
    """Lines of scontrol become nodes. What an administrator wrote as a reason is not read."""
    one, three, four = slurm.read_nodes(NODES, "bandwidth")
    yield "a node", (one.name, one.address, one.cpus, one.busy_cpus, one.threads, one.booted, one.bandwidth, one.takes_jobs) == \
        ("n1", "127.0.0.1", 4, 0, 1, 1795918434, 100, True)
    seen = three.is_up, three.takes_jobs, three.booted, three.bandwidth, three.threads
    yield "a node that does not respond", seen == (True, False, None, 100, 2)
    seen = four.is_up, four.takes_jobs, four.state, four.bandwidth
    yield "a node that is drained, without a bandwidth", seen == (True, False, "IDLE", None)
    for text, count in (("bandwidth:100", 100), ("gpu:2,bandwidth:2K", 2048), ("bandwidth:no_consume:5", 5), ("bandwidth", 1),
                        ("bandwidthx:5", None), ("bandwidth:x", None), ("(null)", None), ("bandwidth:9999999", None)):
        yield "the bandwidth of %s" % text, slurm.node_bandwidth(text, "bandwidth") == count


def requests():
    """What a job asks of the generic resource, and what is none."""
    for text, count in (("gres:bandwidth:40", 40), ("", 0), ("gres:gpu:2", 0), ("gres:gpu:2,gres:bandwidth:7", 7), ("gres:bandwidth", 1),
                        ("gres:bandwidth=9", 9), ("gres:bandwidth:0", 0), ("gres:bandwidth:1K", 1024), ("gres:bandwidth:1M", None),
                        ("gres:bandwidth:x", None), ("gres:bandwidth:-1", None), ("gres:bandwidth:1:2", None), ("gres:bandwidth:1000001", None),
                        ("gres:bandwidth:1,gres:bandwidth:2", None), ("gres:bandwidth_other:3", 0)):
        yield "the request of %r" % text, jobs.gres_count(text, "bandwidth") == count


# ids, notes, prices

def ids():
    """Ids grow with time, are of version 7, and say whose they are."""
    known = identities.task_id("blue", 7, None, 1795919954)
    # worked out by hand: 1795919954000 ms are 01a2252bc050, and the digest of the four texts with a zero byte between them is sha256's
    digest = subprocess.run(["sha256sum"], input=b"blue\0" + b"7\0\0" + b"1795919954", stdout=subprocess.PIPE).stdout[:20]
    bits = bin(int(digest, 16))[2:].zfill(80)[:74]
    wanted = "01a2252bc050" + "7%03x" % int(bits[:12], 2) + "%016x" % (2 << 62 | int(bits[12:], 2))
    yield "an id: %s" % known, known.hex == wanted
    yield "it is a UUID of version 7", (known.version, known.variant) == (7, uuid.RFC_4122)
    yield "the same job has the same id", known == identities.task_id("blue", 7, None, 1795919954)
    others = [identities.task_id(*it) for it in (("red", 7, None, 1795919954), ("blue", 8, None, 1795919954), ("blue", 7, 0, 1795919954),
                                                 ("blue", 7, 1, 1795919954), ("blue", 7, None, 1795919955))]
    yield "other jobs have others", len({known, *others}) == 6
    chance = random.Random(5)
    times = sorted(chance.randrange(0, 1 << 38) for _ in range(500))
    found = [identities.task_id("blue", chance.randrange(1, 1 << 26), chance.choice((None, 3)), it) for it in times]
    yield "ids grow with time", all(a <= b for a, b, s, t in zip(found, found[1:], times, times[1:]) if s < t)
    yield "an id names its time", [identities.submitted_at(it) for it in found] == times
    yield "an id is of its job", identities.is_of(known, "blue", 7, None)
    yield "and of no other", not any(identities.is_of(known, *it) for it in (("blue", 7, 0), ("red", 7, None), ("blue", 8, None)))
    machines = {identities.machine_id(*it) for it in (("a", "bc"), ("ab", "c"), ("a", "b"))}
    yield "machines have ids of their own", len(machines) == 3


def noted():
    """Only the adapter's own token is changed, and only a token of the job itself counts."""
    own = identities.task_id("c", 5, None, 1795919954)
    note = notes.Note(own, 3, 1, 1795918434, 2, "net")
    for text, left in (("", ""), ("x", "x "), ("x  y", "x  y "), (f"a {NOTE} b", "a b "), ("fetohamu=", ""), ("a fetohamu=1,2,3", "a "),
                       ("notfetohamu=1", "notfetohamu=1 "), (f"{NOTE} b", " b ")):
        found = notes.with_note(text, note)
        yield "a note into %r: %r" % (text, found), found == (left + note.text()).strip() and notes.read_note(found) == note
        yield "a note twice into %r" % text, notes.with_note(found, note) == found
    for text in ("", "fetohamu=", NOTE[:-4], NOTE.replace(",0,1,", ",-1,1,"), NOTE.replace("01a2", "zza2"), "x" + NOTE,
                 NOTE.replace("4ee0-", "4ee0a")):
        yield "no note: %r" % text, notes.read_note(text) is None
    for text, reason, found in (("mine", "it waits", "mine [fetohamu: it waits]"), ("mine [fetohamu: old]", "new", "mine [fetohamu: new]"),
                                ("mine [fetohamu: old]", "", "mine"), ("", "a ] b\nc", "[fetohamu: a ) b c]"), ("[other]", "", "[other]")):
        yield "a reason in %r" % text, notes.with_reason(text, reason) == found


def phases():
    """What a job is to an adapter, by its partition, state and note."""
    own = identities.task_id("c", 5, None, 1000)

    def phase(state="PD", partition="netrun", priority=9, restarts=0, reason="None", coordinator=1, incarnation=900, requeue=True, task=own):
        note = notes.Note(task, 1, coordinator, incarnation, 0, "net")
        record = jobs.Record(state, partition, priority, restarts, requeue, 1000, 1000, "", "", 1, 1, 0, "", reason, note.text(), None)
        return jobs.see(jobs.Job(5, None, record), "c", "netrun", QUEUES, 2000.0).phase.name
    held = {"priority": 0, "reason": jobs.REQUEUED_HELD}
    for wanted, how in (
            ("STARTING", {}), ("RUNNING", {"state": "R"}), ("RUNNING", {"state": "S"}), ("LEAVING", {"state": "CG"}),
            ("RETURNING", {"restarts": 1}), ("RETURNING", {"priority": 0}), ("RETURNING", {"coordinator": 0}),
            ("PREEMPTED", {"state": "R", "coordinator": 0}),
            ("RUNNING", {"state": "R", "coordinator": 0, "requeue": False}), ("WAITING", {"partition": "net"}),
            ("WITHHELD", {"partition": "net", "priority": 0}),
            ("BLOCKED", {"partition": "net", "coordinator": 0, "incarnation": 0, **held}),
            ("WITHHELD", {"partition": "net", "coordinator": 0, "incarnation": 1, **held}), ("WITHHELD", {"partition": "net", **held}),
            ("FOREIGN", {"partition": "net", "state": "R"}), ("STARTING", {"task": identities.task_id("c", 6, None, 1000)}),
            ("FOREIGN", {"state": "RV"})):
        yield "%s: %s" % (wanted, how), phase(**how) == wanted


def queued():
    """A job has its own id whatever its note says, and goes back to a queue that there is."""
    own = identities.task_id("c", 5, None, 1000)
    other = identities.task_id("c", 6, None, 1000)
    record = jobs.Record("R", "netrun", 9, 0, True, 1000, 1000, "n", "n", 1, 1, 0, "", "", notes.Note(other, 1, 1, 9, 0, "net").text(), None)
    yield "a note of another job does nothing", jobs.see(jobs.Job(5, None, record), "c", "netrun", QUEUES, 2000.0).task == str(own)
    for queue, wanted in (("urgent", "urgent"), ("gone", "net")):
        record = jobs.Record("R", "netrun", 9, 0, True, 1000, 1000, "n", "n", 1, 1, 0, "", "", notes.Note(own, 1, 1, 9, 0, queue).text(), None)
        yield "the queue %s" % queue, jobs.see(jobs.Job(5, None, record), "c", "netrun", QUEUES, 2000.0).queue == wanted


def priced():
    """The price of waiting grows with age and priority, up to its most, which is below that of preempting."""
    of = prices.Prices(wait=100, age=10, priority=0.5, most=200, preempt=300)
    for waited, priority, price in ((0, 0, 100), (59, 0, 100), (60, 0, 110), (600, 0, 200), (6000, 0, 200), (-5, 0, 100), (120, 40, 140),
                                    (0, 900, 200)):
        yield "waiting for %d s at priority %d" % (waited, priority), of.of_waiting(waited, priority) == price
    yield "preempting", (of.of_preempting(True), of.of_preempting(False)) == (300, 1000000000)


def room():
    """Slots are never fewer than what a node holds, and are what others leave."""
    def node(cpus=4, busy=0, state="IDLE", flags=(), bandwidth=100):
        return nodes.Node("n1", "", state, frozenset(flags), frozenset(), cpus, busy, 1, 1000, bandwidth)

    def sight(phase, request=10, coordinator=1):
        record = jobs.Record("", "netrun", 1, 0, True, 0, 0, "n1", "n1", 1, 1, request, "", "", "", None)
        return jobs.Sight(jobs.Job(1, None, record), TASK, notes.Note(uuid.UUID(TASK), 0, coordinator, 1000, 0, "net"), phase)
    running, starting, preempted = (sight(it) for it in (jobs.Phase.RUNNING, jobs.Phase.STARTING, jobs.Phase.PREEMPTED))
    for name, there, promised, how, wanted in (
            ("nothing", [], [], {}, (4, 4, 100, 0)), ("two run", [running] * 2, [], {"busy": 2}, (4, 2, 80, 20)),
            ("others take three", [running], [], {"busy": 4}, (1, 0, 90, 10)),
            ("others take all", [starting] * 2, [], {"busy": 4}, (2, -2, 80, 20)),
            ("more are held than fit", [running] * 3, [], {"cpus": 2, "busy": 3}, (3, -1, 70, 30)),
            ("one is promised", [running], [30], {"busy": 1}, (4, 3, 90, 40)),
            ("one that was preempted is there", [preempted], [], {"busy": 1}, (3, 3, 90, 10)),
            ("one slot is promised twice", [preempted], [5, 5], {"cpus": 1, "busy": 1}, (2, 0, 90, 20))):
        found = rooms.room_of(node(**how), there, promised, 0, 0, 1, False)
        yield "room: %s: %s" % (name, found), (found.slots, found.free, found.spare, found.used()) == wanted
    for name, is_closed, use, how in (
            ("measured", False, 0, {}), ("not measured", True, None, {}), ("drained", True, 0, {"flags": ("DRAIN",)}),
            ("down", True, 0, {"state": "DOWN"}), ("without a bandwidth", True, 0, {"bandwidth": None}),
            ("full of others", True, 0, {"busy": 4})):
        found = rooms.room_of(node(**how), [], [], use, 0, 1, False)
        yield "a node that is %s" % name, found.is_closed == is_closed and found.is_fit_for(1) == (not is_closed)
    found = rooms.room_of(node(cpus=8, busy=5), [running], [], 0, 0, 2, False)
    yield "a node whose jobs get cores of two processors, and three are taken by others: %s" % found, (found.slots, found.free) == (2, 1)
    busy = rooms.room_of(node(), [], [], 70, 5, 1, False)
    yield "a busy node", [busy.is_fit_for(it) for it in (0, 25, 26)] == [True, True, False]
    yield "a node over its bandwidth takes what asks for nothing", rooms.room_of(node(), [], [], 120, 0, 1, False).is_fit_for(0)


def incarnations():
    """An incarnation is kept unless the boot time moves by over 30 s, and is that of the notes if these fit."""
    def seen(kept, *boots, noted=()):
        return [kept.see(nodes.Node("n", "", "IDLE", frozenset(), frozenset(), 1, 0, 1, it, 1), list(noted)) for it in boots]
    yield "a boot time that moves", seen(nodes.Incarnations(), 1000, 1001, 999, 1030, 1031, 1000) == [1000, 1000, 1000, 1000, 1031, 1000]
    yield "one that is not known", seen(nodes.Incarnations(), None, 1000, None, 1001) == [None, 1000, 1000, 1000]
    yield "one that notes name", seen(nodes.Incarnations(), 1000, 1020, noted=(995, 800)) == [995, 995]
    yield "one that notes do not fit", seen(nodes.Incarnations(), 1000, noted=(800, 1031)) == [1000]


# the measure of links

def metered():
    """The greater of the last two rates by the clock of who counts; nothing before there are two, behind a pause, or after a new beginning."""
    meter = usage.Meter(10.0)
    seen = []
    for clock, received, sent, now in ((100, 0, 0, 5.0), (101, 1.25e6, 0, 6.0), (101.1, 9e9, 0, 6.05), (102, 2.5e6, 2.5e6, 7.9),
                                       (103, 2.5e6, 2.5e6, 8.9), (104, 2.5e6, 2.5e6, 9.9)):
        meter.take("n", usage.Reading(clock, received, sent), now)
        seen.append(meter.use("n", now))
    # 10 Mbit/s, 20 sent, none, none; the reading that is too close counts for nothing
    yield "uses: %s" % seen, seen == [None, None, None, 20, 20, 0]
    yield "a use that is too old", (meter.use("n", 19.8), meter.use("n", 20.0)) == (0, None)
    meter.take("n", usage.Reading(130, 5e6, 5e6), 40.0)
    yield "behind a pause", meter.use("n", 40.0) is None
    for clock, received in ((131, 5e6), (132, 5e6), (133, 1e6)):
        meter.take("n", usage.Reading(clock, received, 0), clock - 91.0)
    yield "a node that counts anew", meter.use("n", 42.0) is None
    meter.take("n", usage.Reading(90, 1e6, 0), 43.0)
    yield "a clock that was set back", meter.use("n", 43.0) is None
    for clock in (91, 92):
        meter.take("n", usage.Reading(clock, 1e6, 0), clock - 47.0)
    yield "two rates behind that", meter.use("n", 45.0) == 0
    yield "another node", meter.use("m", 45.0) is None
    yield "the last rate began with the reading before the last one", meter.began("n", 45.0) == 44.0
    without = usage.Meter(10.0, False)
    yield "no measure is wanted", (without.use("n", 1.0), without.began("n", 1.0)) == (0, 1.0)


class Pages(http.server.BaseHTTPRequestHandler):
    """An exporter that answers by the port's own behaviour."""

    def do_GET(self):
        kind = self.server.kind
        if kind == "silent":
            time.sleep(3)
        if kind == "slow":
            with contextlib.suppress(OSError):
                self.wfile.write(b"HTTP/1.0 200 OK\r\n\r\n")
                for _ in range(100):
                    self.wfile.write(b"x")
                    time.sleep(0.1)
            return
        if kind == "broken":
            self.wfile.write(b"\0\1\2nothing\r\n\r\n")
            return
        self.send_response(500 if kind == "refuses" else 200)
        self.end_headers()
        self.wfile.write((PAGE if kind in ("fine", "refuses") else PAGE.replace('"eth0"', '"eth1"') if kind == "device" else
                          PAGE.replace("node_time", "time") if kind == "time" else PAGE.replace("1.25e+08", "many")).encode())

    def log_message(self, *_words):
        pass


class Quiet(http.server.ThreadingHTTPServer):
    """A server that says nothing if who asked went away."""

    daemon_threads = True

    def handle_error(self, *_who):
        pass


@contextlib.contextmanager
def exporter(kind):
    server = Quiet(("127.0.0.1", 0), Pages)
    server.kind = kind
    threading.Thread(target=server.serve_forever, daemon=True).start()
    try:
        yield server
    finally:
        server.shutdown()
        server.server_close()


def exporters():
    """An exporter's page is read, and one that does not answer as it should costs no more than its time, and a line."""
    yield "a page", usage.read_page(PAGE, "eth0") == usage.Reading(1795921313.0025, 125000000.0, 25000000.0)
    kinds = ("fine", "silent", "slow", "broken", "refuses", "device", "time", "number")
    with contextlib.ExitStack() as stack:
        servers = {kind: stack.enter_context(exporter(kind)) for kind in kinds}
        places = {kind: "127.0.0.1:%d" % server.server_address[1] for kind, server in servers.items()} | {"nobody": "127.0.0.1:1"}
        source = usage.Exporters(lambda node: places[node.name], lambda node: "eth0", 0.4)
        asked = [nodes.Node(kind, "", "IDLE", frozenset(), frozenset(), 1, 0, 1, 1, 1) for kind in places]
        began = time.monotonic()
        found = source.read(asked)
        took = time.monotonic() - began
        yield "the one that answers", found["fine"] == usage.Reading(1795921313.0025, 125000000.0, 25000000.0)
        wrong = [kind for kind in places if kind != "fine" and not (isinstance(found[kind], str) and "\n" not in found[kind])]
        yield "the others: %s" % {kind: it for kind, it in found.items() if kind != "fine"}, not wrong
        yield "they are not waited for: %.1f s" % took, took < 2.0
        yield "the device is named", "eth0" in found["device"] and "time" in found["time"]
        again = source.read(asked)
        yield "the one that answers does so again", again["fine"] == found["fine"]


def devices():
    """The devices of this machine."""
    with tempfile.TemporaryDirectory() as folder:
        path = pathlib.Path(folder) / "eth0/statistics"
        path.mkdir(parents=True)
        (path / "rx_bytes").write_text("125\n")
        (path / "tx_bytes").write_text("7\n")
        node = nodes.Node("n", "", "IDLE", frozenset(), frozenset(), 1, 0, 1, 1, 1)
        found = usage.Devices(lambda _: "eth0", pathlib.Path(folder)).read([node])["n"]
        yield "a device", (found.received, found.sent) == (125, 7)
        yield "no device", "eth9" in usage.Devices(lambda _: "eth9", pathlib.Path(folder)).read([node])["n"]


# the configuration

WELL = {"adapter": {"lock": "/run/lock"}}
# sections, options and values that are refused
WRONG = (
    ("slurm", "queues", ""), ("slurm", "queues", "a a"), ("slurm", "queues", "a/b"), ("slurm", "run", "a b"), ("slurm", "run", "net"),
    ("slurm", "gres", ""), ("slurm", "releases", "22"), ("slurm", "releases", ""), ("slurm", "commands", "bin"),
    ("slurm", "command-wait", "0"), ("slurm", "command-wait", "nan"), ("slurm", "cluster", "a\nb"), ("slurm", "colour", "blue"),
    ("adapter", "lock", "lock"), ("adapter", "lock", ""), ("adapter", "lock", "mqtt://here"), ("adapter", "lock", "mqtt://here/"),
    ("adapter", "lock", "mqtt:///blue"), ("adapter", "lock", "mqtt://here:0/blue"), ("adapter", "lock", "mqtt://here:65536/blue"),
    ("adapter", "lock", "mqtt://here:x/blue"), ("adapter", "lock", "mqtt://a b/blue"), ("adapter", "lock", "mqtt://me@here/blue"),
    ("adapter", "lock", "mqtt://here/a/b"), ("adapter", "lock", "mqtt://here/a+b"), ("adapter", "lock", "mqtt://here/#"),
    ("adapter", "lock", "mqtt://here/" + "x" * 201), ("adapter", "lock", "mqtts://here/blue"), ("adapter", "coordinator", "65"), ("adapter", "coordinator", "0"),
    ("adapter", "interval", "0"), ("adapter", "interval", "x"), ("adapter", "start-wait", "-1"), ("adapter", "whys", "1.5"),
    ("adapter", "rounds", "-1"), ("adapter", "tasks", "0"), ("use", "source", "guess"), ("use", "port", "0"), ("use", "port", "65536"),
    ("use", "device", "a/b"), ("use", "device", ".."), ("use", "wait", "0"), ("use", "stale", "0"), ("use", "settle", "-1"),
    ("prices", "wait", "-1"), ("prices", "wait", "1000000001"), ("prices", "most", "1"), ("prices", "preempt", "5000000"),
    ("prices", "age", "inf"), ("prices", "waits", "1"), ("queue net", "most", "1"), ("queue other", "wait", "1"),
    ("node n1", "exporter", "here"), ("node n1", "exporter", "a:0"), ("node n1", "port", "1"), ("node a b", "device", "x"),
    ("colour", "x", "1"))


def configurations():
    """Wrong options are refused by one line that names them."""
    def refused(given):
        try:
            settings.settings_of(given)
        except settings.Wrong as why:
            return str(why)
        return None
    yield "the least configuration", refused(WELL) is None
    found = settings.settings_of({**WELL, "slurm": {"queues": "a, b"}, "prices": {"wait": "5", "most": "7"}, "queue b": {"preempt": "9"},
                                  "node n1": {"exporter": "h:1"}})
    yield "prices of queues", (found.prices_of("a").preempt, found.prices_of("b").preempt, found.prices_of("b").wait) == (10000000, 9, 5)
    at = [found.exporter_of(nodes.Node(name, address, "", frozenset(), frozenset(), 1, 0, 1, 1, 1))
          for name, address in (("n1", "x"), ("n2", "x"), ("n3", "::1"))]
    yield "exporters of nodes", at == ["h:1", "x:9100", "[::1]:9100"]
    for section, option, text in WRONG:
        given = {**WELL, section: {**WELL.get(section, {}), option: text}}
        why = refused(given)
        yield "[%s] %s = %r: %s" % (section, option, text, why), why is not None and f"[{section}]" in why and "\n" not in why
    yield "no lock", "lock" in (refused({}) or "")
    yield from over_brokers(refused)


def over_brokers(refused):
    """A lock over a broker, and how its broker is reached."""
    def read(lock, **options):
        found = settings.settings_of({"adapter": {"lock": lock}, **({"broker": options} if options else {})})
        return found.lock.cluster, found.access.place, found.access.version, found.access.is_tls
    for lock, options, wanted in (
            ("mqtt://here/blue", {}, ("blue", "here:1883", 3, False)), ("mqtt://h-1.example:1/my cluster", {}, ("my cluster", "h-1.example:1", 3, False)),
            ("mqtt://[::1]/blue", {}, ("blue", "[::1]:1883", 3, False)), ("mqtt://10.0.0.1:5/b", {"mqtt": "5"}, ("b", "10.0.0.1:5", 5, False)),
            ("mqtt://here/blue", {"tls": "yes"}, ("blue", "here:8883", 3, True)), ("mqtt://here/blue", {"tls": "no"}, ("blue", "here:1883", 3, False)),
            ("mqtt://here:9/blue", {"ca": "/dev/null"}, ("blue", "here:9", 3, True)),
            ("mqtt://here/blue", {"cert": "/dev/null", "key": "/dev/null"}, ("blue", "here:8883", 3, True))):
        yield "%s %s" % (lock, options), read(lock, **options) == wanted
    with tempfile.NamedTemporaryFile("w") as secret:
        secret.write("open sesame\nno more\n")
        secret.flush()
        found = settings.settings_of({"adapter": {"lock": "mqtt://here/blue"}, "broker": {"user": "one", "password-file": secret.name}})
        yield "a user and a password", (found.access.user, found.access.password) == ("one", "open sesame")
    for options in ({"mqtt": "4"}, {"user": ""}, {"password-file": "/dev/null"}, {"user": "one", "password-file": "/nowhere"}, {"tls": "maybe"},
                    {"ca": "ca.pem"}, {"ca": "/nowhere"}, {"key": "/dev/null"}, {"cert": "/nowhere"}, {"host": "here"}, {"password": "x"}):
        why = refused({"adapter": {"lock": "mqtt://here/blue"}, "broker": options})
        yield "[broker] %s: %s" % (options, why), why is not None and "[broker]" in why and "\n" not in why
    why = refused({**WELL, "broker": {}})
    yield "[broker] beside a lock that is a file: %s" % why, why is not None and "[broker]" in why


# how an adapter begins and ends

COMMANDS = {
    "sinfo": "echo slurm-wlm ${RELEASE:-22.05.8}",
    "squeue": """case "$SILENT" in yes) echo "slurm_load_jobs error: Unable to contact slurm controller" >&2; exit 1 ;; esac
printf '%s' "$JOBS" """,
    "scontrol": """case "$2 $3" in
"show config") exit 9 ;;
"config ") echo "ClusterName = test" ;;
"partition net") echo "PartitionName=net State=${NET:-DOWN} x" ;;
"partition netrun") echo "PartitionName=netrun State=UP x" ;;
"nodes -o") printf '%s\\n' "${NODES}" ;;
"JobId="*) echo "$UPDATED" >&2; [ -z "$UPDATED" ] ;;
"job "*) printf 'JobId=1\\n   Comment=mine \\n   StdErr=/dev/null\\n' ;;
*) echo "Partition $3 not found" >&2; exit 1 ;;
esac"""}


class Adapters:
    """Runs bin/slurm with commands that only pretend."""

    def __init__(self, folder, program):
        self.folder, self.program = pathlib.Path(folder), program
        for name, text in COMMANDS.items():
            (self.folder / name).write_text("#!/bin/sh\n" + text + "\n")
            (self.folder / name).chmod(0o755)
        self.file = self.folder / "slurm.ini"
        self.write()

    def write(self, more=""):
        self.file.write_text(f"[slurm]\ncommands = {self.folder}\n[adapter]\nlock = {self.folder}/lock\ninterval = 0.05\n"
                             "[use]\nsource = none\n" + more)

    def command(self, *words):
        return [str(ROOT / "bin/slurm"), "--program", str(self.program), *words, str(self.file)]

    def environment(self, **more):
        return {**os.environ, "NODES": NODES.splitlines()[0], "ASAN_OPTIONS": "abort_on_error=0:exitcode=70", **more}

    def run(self, *words, **more):
        done = subprocess.run(self.command(*words), env=self.environment(**more), stdin=subprocess.DEVNULL, stdout=subprocess.PIPE,
                              stderr=subprocess.PIPE, timeout=120)
        return done.returncode, done.stdout.decode(), done.stderr.decode()


def ends(program):
    """Wrong beginnings end with a line and a status."""
    with tempfile.TemporaryDirectory() as folder:
        adapters = Adapters(folder, program)

        def is_said(name, found, status, *texts):
            lines = found[2].splitlines()
            fine = found[0] == status and found[1] == "" and len(lines) == 1 and all(text in lines[0] for text in texts)
            return "%s: %s" % (name, found), fine and lines[0].startswith("slurm: ")
        yield is_said("--check", adapters.run("--check"), 0, "1 nodes in netrun")
        yield is_said("a queue that is UP", adapters.run("--check", NET="UP"), 13, "partition net has State=UP")
        yield is_said("a node without a bandwidth", adapters.run("--check", NODES=NODES.splitlines()[2]), 13, "n4")
        yield is_said("no nodes", adapters.run("--check", NODES=""), 13, "netrun has no nodes")
        yield is_said("another release", adapters.run(RELEASE="23.11.4"), 12, "23.11.4", "22.05")
        yield is_said("no release", adapters.run(RELEASE="none"), 12, "sinfo --version")
        yield is_said("wrong words", adapters.run("--pass", "1"), 2, "--pass")
        yield is_said("a wrong count", adapters.run("--passes", "x"), 2, "--passes", "'x'")
        for name, text, said in (("no option", "[slurm]\nrum = x\n", "already exists"), ("no section", "[slum]\n", "[slum] is no section"),
                                 ("no INI", "lock\n", "slurm.ini"), ("an option twice", "source = none\n", "source"), ("bytes", "\udcff", "utf-8")):
            adapters.write()
            with open(adapters.file, "ab") as file:
                file.write(text.encode(errors="surrogateescape"))
            yield is_said("a configuration with %s" % name, adapters.run(), 3, said)
        adapters.write("[queue urgent]\nwait = 1\n")
        yield is_said("a queue that is none", adapters.run(), 3, "[queue urgent]", "queues")
        adapters.write()
        adapters.program = "/nowhere/firmament"
        code, _, said = adapters.run("--passes", "1")
        yield "no program: %s" % said, code == 11 and "no program at /nowhere/firmament" in said
        adapters.program = "/bin/true"
        code, _, said = adapters.run("--passes", "5")
        yield "a program that ends: %s" % said, code in (11, 15) and "Traceback" not in said
        adapters.program = program
        (adapters.folder / "squeue").unlink()
        code, _, said = adapters.run("--passes", "1")
        yield "no squeue: %s" % said, code == 12 and "slurm-client" in said and "Traceback" not in said
        adapters.file.write_text("[adapter]\nlock = /nowhere/lock\n[slurm]\ncommands = %s\n" % folder)
        yield is_said("a lock that cannot be made", adapters.run(), 14, "/nowhere/lock")
        adapters.file.unlink()
        yield is_said("no configuration", adapters.run(), 3, "slurm.ini")


def faults(program):
    """What does not work is said in one line, however long it lasts, and the rest goes on."""
    waiting = "".join("%d|N/A|PD|net|9|0|1|1|1000|1000|||1|1|N/A|(null)|PartitionDown|(null)|\n" % root for root in (1, 2, 3))
    with tempfile.TemporaryDirectory() as folder:
        adapters = Adapters(folder, program)
        for name, more, text in (
                ("no right to update", {"JOBS": waiting, "UPDATED": "Access/permission denied for job 1"}, "does not let this user update jobs"),
                ("no slurmctld", {"JOBS": waiting, "SILENT": "yes"}, "Unable to contact slurm controller"),
                ("a slurmctld that goes away in a pass", {"JOBS": waiting, "UPDATED": "Unable to contact slurm controller"}, "Unable to contact"),
                ("a line that is no job", {"JOBS": "nonsense\n"}, "'nonsense'"),
                ("a node without a bandwidth", {"JOBS": "", "NODES": NODES.splitlines()[2]}, "node n4 has no Gres=bandwidth:N"),
                ("a queue that is UP", {"JOBS": "", "NET": "UP"}, "partition net has State=UP")):
            status, out, said = adapters.run("--json", "--passes", "4", **more)
            events = [json.loads(line) for line in said.splitlines()]
            found = [event["text"] for event in events if event["event"] == "fault"]
            fine = (status, out) == (0, "") and len(found) == 1 and text in found[0] and events[-1]["event"] == "stopped"
            yield "%s: %s" % (name, found), fine
        status, out, said = adapters.run("--json", "--passes", "3", JOBS=waiting, UPDATED="Requested operation is presently disabled for job 1")
        refused = [json.loads(line) for line in said.splitlines() if '"refused"' in line]
        yield "a refusal names the job: %s" % refused[:1], status == 0 and sorted(it["job"] for it in refused) == ["1", "2", "3"]


def acting(program):
    """One acts and the other stands by, until the first one is killed; a lock that is replaced ends who has it; signals end with status 0."""
    with tempfile.TemporaryDirectory() as folder:
        adapters = Adapters(folder, program)

        def begun():
            return subprocess.Popen(adapters.command("--json"), env=adapters.environment(), stdin=subprocess.DEVNULL,
                                    stdout=subprocess.DEVNULL, stderr=subprocess.PIPE, text=True)

        def until(run, event):
            for line in run.stderr:
                if json.loads(line)["event"] == event:
                    return True
            return False
        with begun() as first, begun() as second:
            runs = [first, second]
            events = [json.loads(run.stderr.readline())["event"] for run in runs]
            yield "one acts: %s" % events, sorted(events) == ["acting", "standby"]
            one, other = (first, second) if events[0] == "acting" else (second, first)
            code, _, said = adapters.run("--no-wait")
            yield "a third one does not wait: %s" % said, code == 14 and "another adapter has the lock" in said
            yield "it makes passes", until(one, "pass")
            one.kill()
            yield "the other one acts", until(other, "acting") and until(other, "pass")
            (adapters.folder / "lock").unlink()
            yield "a lock that was replaced", until(other, "failed") and other.wait(20) == 14
        for number in signal.SIGTERM, signal.SIGINT, signal.SIGHUP:
            with begun() as run:
                fine = until(run, "pass")
                run.send_signal(number)
                yield "signal %d" % number, fine and until(run, "stopped") and run.wait(20) == 0
        code, out, said = adapters.run("--passes", "2", "--json")
        kinds = [json.loads(line)["event"] for line in said.splitlines()]
        yield "two passes: %s" % kinds, (code, out, kinds) == (0, "", ["acting", "node", "pass", "pass", "stopped"])
        with open(os.devnull) as null:
            run = subprocess.Popen(adapters.command("--passes", "2"), env=adapters.environment(), stdin=null, stderr=null.fileno())
            yield "nobody can read what it says", run.wait(60) == 0


def locked():
    """The lock is one process's at a time."""
    with tempfile.TemporaryDirectory() as folder:
        path = folder + "/lock"
        first, second = locks.Lock(path), locks.Lock(path)
        yield "one has it", first.take() and not second.take()
        first.release()
        yield "and then the other", second.take() and not first.take()
        second.check()
        os.unlink(path)
        try:
            second.check()
            yield "a lock that is gone", False
        except Failure as why:
            yield "a lock that is gone", why.status == 14


def said():
    """A fault is said once, in one line, until it changes or is mended."""
    sink = io.StringIO()
    events = Events(False, sink)
    for _ in range(3):
        events.fault("a", "it fails\nbadly")
    events.mend("b")
    events.fault("a", "it fails otherwise")
    events.mend("a")
    events.mend("a")
    events.fault("a", "it fails\nbadly")
    events.detail("pass", "no one wants to know")
    wanted = ["slurm: it fails badly", "slurm: it fails otherwise", "slurm: a works again", "slurm: it fails badly"]
    yield "lines", sink.getvalue().splitlines() == wanted


def modelled():
    """The model prints what the parts read."""
    cluster = model.Slurm([model.Node("n1")])
    cluster.submit("net", request=40, array=3, throttle=2, admin=NOTE)
    found, strange = slurm.read_jobs(cluster.run(["squeue"])[1], "bandwidth")
    yield "an array of the model", ([job.name for job in found], strange, found[0].record.throttle) == (["1_0", "1_1", "1_2"], [], 2)
    node = slurm.read_nodes(cluster.run(["scontrol", "show", "nodes", "-o"])[1], "bandwidth")[0]
    yield "a node of the model", (node.name, node.cpus, node.bandwidth, node.takes_jobs) == ("n1", 2, 100, True)


def all_tests(program):
    for test in (printed_jobs, printed_nodes, requests, ids, noted, phases, queued, priced, room, incarnations, metered, exporters, devices,
                 configurations, locked, said, modelled):
        for name, fine in test():
            yield "%s: %s" % (test.__name__, name), fine
    for name, fine in slurm_leases.all_tests():
        yield "leases: " + name, fine
    for test in ends, faults, acting:
        for name, fine in test(program):
            yield "%s: %s" % (test.__name__, name), fine


def main():
    given = argparse.ArgumentParser(description=__doc__, formatter_class=argparse.RawDescriptionHelpFormatter)
    given.add_argument("--program", default=str(ROOT / "crates/fm_cli/out/fm_cli"))
    passed = failed = 0
    for name, fine in all_tests(given.parse_args().program):
        passed, failed = passed + fine, failed + (not fine)
        if not fine:
            print("FAILED: " + name)
    print("%d passed, %d failed" % (passed, failed))
    sys.exit(failed != 0)


if __name__ == "__main__":
    main()
