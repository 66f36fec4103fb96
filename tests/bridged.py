#!/usr/bin/env python3
"""Tests of bin/bridge on a real broker, by name, for tests/run: its words, its lines, its parts by themselves,
signals and TLS. Those of what it outlives are in tests/outlived.py, those of a day's use in tests/operated.py, those of
its store and of old journals in tests/bridge_stores.py, those of what it relays in tests/relayed.py, those of turns and of broken senders
in tests/senders.py, and those of rounds that it runs by itself in tests/own_rounds.py.

    tests/bridged.py [--program FILE] [--kills N] [GROUP..]

Runs the groups that are named, or all, which --help lists. --kills is how often a bridge is killed, 30 if it is not
given. Ends in a line 'N passed, M failed'. If a Debian package is missing, says which, and runs none but the group
`skipped`. All traffic is on the loopback address.
"""
import argparse
import itertools
import os
import pathlib
import shutil
import signal
import socket
import subprocess
import sys
import tempfile
import threading
import time
import types

ROOT = pathlib.Path(__file__).resolve().parent.parent
sys.path[:0] = [str(ROOT / "bench"), str(ROOT / "tests"), str(ROOT / "bin")]
import bridge_stores
import brokers
import hostile
import operated
import outlived
import own_rounds
import relayed
import senders
import stores_left
from bridging import access, claims, follower, lines as lines_of, mailbox, packets, settings
from brokers import QUICK, Bridge, Broker, told as tell, until
from clustered import agree, cluster, ended, is_refused, refused, running, told_to

KILLS = outlived.KILLS


# words, lines, and beginnings that are refused

def words(program):
    """Wrong words, and beginnings that are refused: one line and a status."""
    for name in ("a+b", "#", "a/b", "", "a\nb", "a\x7f", "x" * 201):
        yield "the cluster %r" % name[:9], is_refused(refused(1, "--number", "1", program=program, cluster=name), 2, b"cluster")
    for number in ("0", "65", "x", "-1", "1.0", ""):
        yield "the number %r" % number, is_refused(refused(1, "--number", number, program=program), 2, b"number")
    for wrong in ("--cut-count 0", "--refresh 0", "--broker a:b", "--broker :1", "--mqtt 4", "--ca /nowhere", "--key k",
                  "--password-file p", "--user u --password-file /nowhere", "--queue x", "more", "--clu a", "--rounds", "--rounds 0",
                  "--rounds -1", "--rounds x", "--rounds 86401", "--each 1", "--writers 1", "--rounds 1 --each 0",
                  "--rounds 1 --each 4294967296", "--longest-line 1000", "--listen p --longest-line 999",
                  "--listen p --longest-line 67108865", "--rounds 1 --writers 0", "--rounds 1 --writers 1,1", "--rounds 1 --writers 2,65"):
        yield "the words %s" % wrong, is_refused(refused(1, "--number", "1", *wrong.split(), program=program), 2, b"")
    port = brokers.free_port()
    found = refused(port, "--number", "1", "--connect-wait", "0.5", program=program)
    yield "no broker", is_refused(found, 12, b"no broker at 127.0.0.1:%d" % port)
    for name, other, status, why in (("no program", "/nowhere/firmament", 11, b"no program at /nowhere/firmament"),
                                     ("a program that is another", "/bin/true", 15, b"the follower ended")):
        yield name, is_refused(refused(port, "--number", "1", program=other), status, why)
    with tempfile.TemporaryDirectory() as folder:
        yield from guarded(program, pathlib.Path(folder))


def guarded(program, folder):
    """A broker that lets in a user with a password, who may write on the topics of coordinator 1 alone."""
    if shutil.which("mosquitto_passwd") is None:
        print("bridged: passwords are not tested, since there is no mosquitto_passwd")
        return
    secret, rules, passwords = folder / "secret", folder / "rules", folder / "passwords"
    secret.write_text("open sesame\n")
    secret.chmod(0o600)
    rules.write_text("user one\ntopic read fetohamu/test/#\ntopic write fetohamu/test/+/1\n")
    subprocess.run(["mosquitto_passwd", "-b", "-c", passwords, "one", "open sesame"], check=True, capture_output=True)
    for file in passwords, rules:
        file.chmod(0o600)
    with Broker(folder, ["allow_anonymous false", f"password_file {passwords}", f"acl_file {rules}"]) as broker:
        wrong = folder / "wrong"
        wrong.write_text("open barley\n")
        wrong.chmod(0o600)
        quick = ["--connect-wait", "1", "--claim-wait", "0.1"]
        for name, more in (("no user", []), ("no password", ["--user", "one"]),
                           ("a wrong password", ["--user", "one", "--password-file", wrong])):
            yield name, is_refused(refused(broker.port, "--number", "1", *quick, *more, program=program), 13, b"refuses: ")
        let_in = ["--user", "one", "--password-file", secret]
        found = refused(broker.port, "--number", "2", *quick, *let_in, program=program)
        yield "a number that the user may not write", is_refused(found, 13, b"hello/2")
        found = refused(broker.port, "--number", "1", *quick, "--tls", program=program)
        yield "TLS with a broker that has none", found[0] in (12, 13) and found[2].count(b"\n") == 1
        with Bridge(broker.port, 1, *QUICK, *let_in, program=program) as bridge:
            yield "a user that is let in", told_to([bridge], cluster(3)) and ended([bridge])


# what comes on standard input, with the answer's end
UNKNOWN = b"00000000-0000-0000-0000-000000000077"
JOB, TASK, MACHINE = (name.encode() for name in (hostile.JOB, hostile.TASK, hostile.MACHINE))
LISTED = (b"job %s 1 1 false 500 800\n" % JOB, b"machine %s 2 - - closed - - 0 0 -\n" % MACHINE, b"task %s 0 pending - - - - over\n" % TASK)
VERSION = (ROOT / "VERSION").read_bytes().strip()
REFUSED = [
    b"x", b"", b"{", b"[1]", b"\xff", b"[" * 100000, b"\0" * (follower.MOST_LINE + 1), b'{"at":1,"tell":{}}', b'{"at":1,"tell":{"job":{"id":1%s}}}' % (b"0" * 5000),
    b'{"coordinators":[1]}', b'{"renew":true}', b'{"at":1,"news":true}', b'{"at":1,"news":true,"mine":true}', b'{"at":1,"trim":0}', b'{"at":1,"deliver":"p"}',
    b'{"at":1,"cut":{"name":"p"}}', b'{"at":1,"cut":{"from":0,"to":0}}']
LINES = [
    *((line, b"refusal 16\n") for line in REFUSED), (b'{"at":1,"take":"46"}', b"refusal 6\n"), (b'{"at":2,"ask":"graph"}', b"refusal 8\n"),
    (b'{"at":1,"cut":{}}', b"0\nok\n"), (b'{"at":1,"ask":"winners"}', b"ok\n"), (b'{"ask":"agree"}', b"same\nok\n"),
    (b'{"at":1,"round":true}', b"ok\n"), (b'{"at":1,"ask":"stops"}', b"ok\n"), (b'{"at":1,"ask":"end"}', b"end 0 1\nok\n"),
    *((b'{"at":1,"round":%s}' % share, b"ok\n") for share in (b"{}", b'{"writers":[1]}', b'{"each":2,"writers":[1,3]}')),
    (b'{"at":1,"round":{"writers":[]}}', b"refusal 16\n"), (b'{"at":1,"round":{"each":0}}', b"refusal 16\n"),
    (b'{"at":2,"round":{}}', b"refusal 8\n"), (b'{"at":1,"ask":"size"}', b"limit 1000000\nfirst 0\nnext 4\npacket 45\nok\n"), (b'{"at":1,"ask":"size","of":"jobs"}', b"refusal 16\n"),
    (b'{"at":1,"ask":"why","task":"%s"}' % UNKNOWN, b"task %s is not known\nok\n" % UNKNOWN),
    (b'{"at":1,"ask":"why","task":"7"}', b"refusal 16\n"),
    # what graphs do not show: a job without tasks, a task without a spec, and a machine without a state
    *((tell(1, {kind: hostile.OPERATIONS[kind]})[:-1], b"ok\n") for kind in ("job", "progress", "report")),
    (b'{"at":1,"ask":"list"}', b"%s%s%sok\n" % LISTED), (b'{"at":1,"ask":"list","of":"jobs"}', b"%sok\n" % LISTED[0]),
    (b'{"at":1,"ask":"list","of":"machines"}', b"%sok\n" % LISTED[1]), (b'{"at":1,"ask":"list","of":"tasks"}', b"%sok\n" % LISTED[2]),
    (b'{"at":1,"ask":"list","of":"waiting"}', b"ok\n"), (b'{"at":1,"ask":"list","of":"held"}', b"refusal 16\n"),
    (b'{"at":1,"ask":"next","job":"%s"}' % JOB, b"next 2\nok\n"), (b'{"at":1,"ask":"next","task":"%s"}' % TASK, b"next 1\nok\n"),
    (b'{"at":1,"ask":"next","machine":"%s","incarnation":2}' % MACHINE, b"next 1\nok\n"),
    (b'{"at":1,"ask":"next","machine":"%s"}' % MACHINE, b"refusal 16\n"), (b'{"at":2,"ask":"list"}', b"refusal 8\n"),
    (b'{"at":1,"ask":"over"}', b"ok\n"), (b'{"at":2,"ask":"over"}', b"refusal 8\n"), (b'{"at":1,"relieve":false}', b"refusal 16\n"),
    (b'{"at":2,"relieve":true}', b"refusal 8\n"), (b'{"at":1,"ask":"end"}', b"end 0 7\nok\n"), (b'{"at":1,"relieve":true}', b"ok\n"),
    (b'{"at":2,"ask":"next","job":"%s"}' % JOB, b"refusal 8\n"), (b'{"ask":"version"}', b"firmament %s FDG1 FDG2\nok\n" % VERSION),
    (b'{"ask":"version","at":1}', b"refusal 16\n"), (b'{"at":1,"ask":"end"}', b"end 0 8\nok\n")]
NO_LINE = b"refused 16\nthe line is none that can be asked now, by its form or by a member\nok\n"
# what the bridge does itself is refused, and a check says so
CHECKED = [
    *((line, NO_LINE) for line in REFUSED if line.startswith((b'{"at"', b'{"co', b'{"re')) and b"0000" not in line),
    *((line, b"accepted\nok\n") for line in (
        b'{"at":1,"cut":{}}', b'{"ask":"agree"}', b'{"at":1,"ask":"list","of":"jobs"}', b'{"at":1,"round":{"each":1}}', b'{"at":1,"relieve":true}',
        b'{"ask":"check","line":{"renew":true}}', b'{"ask":"check","line":{}}', tell(1, {"job": hostile.OPERATIONS["job"]})[:-1])),
    (tell(1, {"job": {**hostile.OPERATIONS["job"], "writer": 0}})[:-1], b"refused 2\nwriter must be from 1 to 64\nok\n"),
    (b'{"at":1,"take":"46"}', b"refused 6\nthe digits are no packet: see byte 1\nok\n"),
    (b'{"at":2,"ask":"graph"}', b"refused 8\nno coordinator has the number 2\nok\n"), (b'{"at":1,"round":{"each":0}}', NO_LINE), (b'{}', NO_LINE)]
CHECKS = [*((b'{"ask":"check","line":%s}' % line, end) for line, end in CHECKED), (b'{"at":1,"ask":"check","line":{"renew":true}}', b"refusal 16\n"),
          (b'{"ask":"check","line":1}', b"refusal 16\n"), (b'{"ask":"check"}', b"refusal 16\n"), (b'{"at":1,"ask":"end"}', b"end 0 8\nok\n")]


def lines(program):
    """Lines of an operator are answered one by one, in order, and those that would interfere are refused."""
    with running(program, [1]) as (_, (bridge,)):
        for line, end in LINES + CHECKS:
            answer = bridge.ask(line.decode("latin-1") if line != b"\xff" else "x")
            yield "line %r: %r" % (line[:40], answer[-40:]), answer.endswith(end)
        bridge.write(b"\xff\n" + tell(1, {"job": hostile.OPERATIONS["job"]}) + b'{"at":1,"ask":"graph"}')
        end = b"refusal 16\nok\nc 1 S\np min 1 0\nok\n"
        yield "the end of lines without a line feed", bridge.end() == 0 and bridge.heard.endswith(end)
    with running(program, [1], "--store", "/dev/null/x") as (_, (bridge,)):
        said = bridge.run.wait(timeout=30), [said["event"] for said in bridge.events()]
        yield "a store that cannot be", said == (16, ["failed"])


def divided(program):
    """Bridges that know the same have rounds of their own tasks at the same time: each task is started by its writer, and by nobody else."""
    told = [{"spec": {**op["spec"], "writer": 1 + place % 3}} if "spec" in op else op for place, op in enumerate(cluster(15))]
    writers = {op["spec"]["id"].encode(): op["spec"]["writer"] for op in told if "spec" in op}
    with running(program, [1, 2, 3]) as (_, bridges):
        parts = {number: [op for op in told if op.get("spec", {"writer": 1})["writer"] == number] for number in (1, 2, 3)}
        yield "told", all([told_to([bridge], parts[bridge.number]) for bridge in bridges]) and agree(bridges, told)
        answered = [bridge.count() + 1 for bridge in bridges]
        for bridge in bridges:
            bridge.write(b'{"at":%d,"round":{"writers":[%d]}}\n' % (bridge.number, bridge.number))
        yield "rounds", all([bridge.wait_for(count) for bridge, count in zip(bridges, answered)])
        asked = lambda topic: [bridge.ask({"at": bridge.number, "ask": topic}) for bridge in bridges]
        yield "each task has one proposal", until(lambda: all(b"\nproposals 15\n" in size for size in asked("size")), pause=0.1)
        (won,) = until(lambda: len(found := set(asked("winners"))) == 1 and found, pause=0.1) or (b"",)
        lines = [line.split() for line in won.splitlines()[:-1]]
        yield "that of its writer", {task: int(coordinator) for task, _, coordinator, *_ in lines} == writers
        yield "and runs", [line[-1] for line in lines] == [b"held"] * 15 and set(asked("stops")) == {b"ok\n"}
        yield "ended", ended(bridges)


# parts of the bridge by themselves

def numbers(_program):
    """Which states need not be taken in, by the numbers of packets: what came, its number, and whether it is wanted,
    or of news whether something is missing behind it."""
    kept, state, news = "kept", "state", "news"
    for name, came in (
            ("nothing missing", [(kept, 2, 1), (news, 3, 1), (state, 4, 1), (news, 5, 0), (news, 7, 0), (state, 8, 0), (news, 9, 0)]),
            ("one missing", [(state, 4, 1), (news, 7, 1), (news, 9, 1), (state, 10, 1), (news, 11, 0), (state, 12, 0)]),
            ("a state missing, which is none", [(state, 4, 1), (news, 5, 0), (news, 7, 0), (state, 8, 0)]),
            ("two swapped", [(state, 4, 1), (news, 7, 1), (news, 5, 1), (state, 8, 1), (news, 9, 0)]),
            ("repeated", [(state, 4, 1), (news, 5, 0), (news, 5, 1)]),
            ("begun again", [(state, 10, 1), (news, 11, 0), (news, 1, 1), (state, 2, 1), (news, 3, 0)]),
            ("a state without news", [(state, 4, 1), (state, 6, 1), (news, 7, 0), (state, 8, 0)]),
            ("kept ones", [(state, 4, 1), (kept, 4, 1), (news, 5, 0), (kept, 4, 1), (state, 6, 0)]),
            ("no number", [(state, None, 1), (news, None, 1), (state, 2, 1), (news, None, 1)])):
        coverage, fine = packets.Coverage(), []
        for kind, number, is_wanted in came:
            if kind == news:
                coverage.news(1, number)
                fine.append((1 in coverage.missing()) == bool(is_wanted))
            else:
                fine.append(coverage.covers(1, number, kind == kept) != bool(is_wanted))
        yield "states: %s: %s" % (name, fine), all(fine)
        coverage.forget()
        yield "states after a new connection: %s" % name, coverage.missing() == set(range(1, 65))


def parts(program):
    """Numbers, claims, a mailbox that is full, and lines, by themselves."""
    yield from numbers(program)
    asked = [line for line, end in LINES if b'"ask"' in line and end != b"refusal 16\n"]
    yield "questions are known as such", {lines_of.kind_of(line) for line in asked} == {lines_of.Kind.QUESTION}
    asked = [line for line, end in LINES if b'"round"' in line and end == b"ok\n"]
    kinds = [lines_of.kind_of(line) for line, end in CHECKS if end != b"refusal 16\n"]
    yield "checks are known as such", set(kinds) == {lines_of.Kind.QUESTION, lines_of.Kind.CHECK_OF_OURS}
    ours = [line for line, _ in CHECKED if lines_of.kind_of(line) is lines_of.Kind.OURS]
    yield "checks of %d lines that a bridge does itself" % len(ours), len(ours) == kinds.count(lines_of.Kind.CHECK_OF_OURS) == 8
    yield "%d rounds are known as such" % len(asked), {lines_of.kind_of(line) for line in asked} == {lines_of.Kind.ROUND}
    for name in ("a\0b", "\ud800", "+", "blue"):
        try:
            yield "a name of a cluster, %r" % name, settings.cluster_name(name) == "blue"
        except argparse.ArgumentTypeError:
            yield "no name of a cluster, %r" % name, name != "blue"
    mine, other = claims.Claim(1), claims.Claim(1)
    asked = other.ask(True)
    mine.run()
    reply = mine.hear(1, asked)
    yield "who has a number says so", reply is not None and not mine.is_lost and other.hear(1, reply) is None and other.is_lost
    yield "one's own claim comes back", mine.hear(1, mine.ask(True)) is None and mine.is_back() and not mine.is_lost
    yield "a claim of another number", mine.hear(2, claims.Claim(2).ask(True)) is None and list(mine.newcomers) == [2] and not mine.is_lost
    for strange in (b"", b"7", b"{}", b'{"token":1,"turn":"x","running":0,"since":0,"new":0}', b"[" * 900, b"\xff", b" " * 2000):
        try:
            yield "a claim that is none: %r" % strange[:9], mine.hear(1, strange) is NotImplemented
        except ValueError:
            yield "a claim that is none: %r" % strange[:9], not mine.is_lost
    box = mailbox.Mailbox(threading.Condition(), 3, 10)
    for size, is_state in ((1, False), (2, False), (0, False), (11, False), (3, True), (4, True), (5, False)):
        box.put(mailbox.Parcel(5, b"x" * size, is_state, False))
    mail, parcels = box.collect(), box.take(9, 9)
    sizes = [len(parcel.packet) for parcel in parcels]
    yield "a full mailbox", (sizes, mail.too_large, mail.dropped[5]) == ([1, 2, 4], 1, 1) and not box.has_packets()
    yield from split(b"one\n\ntwo\n" + b"x" * (follower.MOST_LINE + 1) + b"\nthree\nfour", [b"one", b"", b"two", b"", b"three", b"four"])


def split(text, wanted):
    """Lines that are read from a pipe are those that were written, of which one that is too long is empty."""
    reader, writer = os.pipe()
    with os.fdopen(writer, "wb") as into, os.fdopen(reader, "rb"):
        source = lines_of.Lines(reader, threading.Condition())
        source.start()
        into.write(text)
        into.close()
        found = []
        until(lambda: found.extend(source.take(2)) or source.is_ended())
        yield "lines that are read", found == wanted


# signals, and secrets

def signals(program):
    """SIGTERM ends a bridge once it sent what it has; with --stay it goes on at the end of its lines."""
    told = list(cluster(20))
    with running(program, [1, 2], "--stay") as (_, bridges):
        yield "told", told_to(bridges, told)
        bridges[0].run.stdin.close()
        yield "one graph", agree(bridges[1:], told)
        yield "it stays", bridges[0].run.poll() is None
        for bridge, by in zip(bridges, (signal.SIGTERM, signal.SIGINT)):
            bridge.run.send_signal(by)
        yield "both end", [bridge.run.wait(timeout=60) for bridge in bridges] == [0, 0]
    with running(program, []) as (broker, _):
        reader, writer = os.pipe()
        run = subprocess.Popen([brokers.BRIDGE, "--cluster", "test", "--number", "1", "--broker", f"127.0.0.1:{broker.port}", *QUICK,
                                "--program", program], stdin=subprocess.PIPE, stdout=writer, stderr=subprocess.DEVNULL, bufsize=0)
        os.close(reader)
        os.close(writer)
        try:
            run.stdin.write(tell(1, told[0]))
            yield "nobody reads the answers", run.wait(timeout=60) == 18
        finally:
            run.kill()
            run.wait()


def secrets(program):
    """TLS with a certificate that a file of authorities knows, and with one that it does not."""
    if shutil.which("openssl") is None:
        print("bridged: TLS is not tested, since openssl is not installed")
        return
    told = list(cluster(9))
    with tempfile.TemporaryDirectory() as folder:
        for name in "here", "other":
            made = "openssl req -x509 -newkey rsa:2048 -nodes -days 2 -subj /CN=localhost -addext subjectAltName=IP:127.0.0.1"
            subprocess.run([*made.split(), "-keyout", f"{folder}/{name}.key", "-out", f"{folder}/{name}.pem"],
                           check=True, capture_output=True)
        secured = ["allow_anonymous true", f"certfile {folder}/here.pem", f"keyfile {folder}/here.key"]
        with Broker(folder, secured) as broker:
            with Bridge(broker.port, 1, *QUICK, "--ca", f"{folder}/here.pem", program=program) as bridge:
                yield "a certificate that is known", told_to([bridge], told) and ended([bridge])
            found = refused(broker.port, "--number", "1", "--connect-wait", "3", "--ca", f"{folder}/other.pem", program=program)
            yield "a certificate that is not known", is_refused(found, 13, b"TLS")
            plain = refused(broker.port, "--number", "1", "--connect-wait", "1", program=program)
            yield "no TLS with a broker that wants it", plain[0] in (12, 13) and plain[2].count(b"\n") == 1


def exposed(_program):
    """A password that others may read, or that goes to another host without TLS, is said in a line at the start, and refuses nothing."""
    readable, sent = b"can be read by others than its owner (mode 0%o)", b"without TLS"
    # no program, so that nothing goes to the host
    begun = lambda *words: refused(brokers.free_port(), "--number", "1", *words, program="/nowhere/firmament")
    with tempfile.TemporaryDirectory() as folder:
        secret = pathlib.Path(folder) / "secret"
        secret.write_text("open sesame\n")
        for mode, host, more, wanted in (
                (0o600, "127.0.0.1", "", []), (0o400, "[::1]", "", []), (0o640, "127.0.0.1", "", [readable % 0o640]),
                (0o604, "127.0.0.1", "", [readable % 0o604]), (0o600, "localhost", "", []), (0o600, "192.0.2.1", "", [sent]),
                (0o600, "[2001:db8::1]", "", [sent]), (0o600, "192.0.2.1", "--tls", []),
                (0o644, "192.0.2.1", "", [readable % 0o644, sent])):
            secret.chmod(mode)
            status, out, said = begun("--broker", host, "--user", "one", "--password-file", secret, *more.split())
            *lines, last = said.splitlines()
            fine = (status, out) == (11, b"") and b"no program" in last and len(lines) == len(wanted)
            yield "%o, %s %s: %r" % (mode, host, more, said), fine and all(map(bytes.__contains__, lines, wanted))
        yield "without a password nothing is said", is_refused(begun("--broker", "192.0.2.1"), 11, b"no program")
    read, write = os.pipe()
    os.write(write, b"open sesame\n")
    os.close(write)
    yield "a pipe is nobody else's", access.read_password(pathlib.Path(f"/dev/fd/{read}")) == ("open sesame", ())
    os.close(read)
    for addresses, fine in ((["127.0.0.1", "::1"], True), (["127.0.1.1"], True), (["192.0.2.1"], False), (["::1", "192.0.2.1"], False),
                            ([], False)):
        yield "a host of the addresses %s" % addresses, is_here_by(addresses) == fine


def is_here_by(addresses):
    """Whether a host that has these addresses is this machine, or one that has no address if there are none."""
    found = types.SimpleNamespace(**vars(socket))

    def resolved(_host, _port, **_how):
        if not addresses:
            raise socket.gaierror("no such name")
        return [(0, 0, 0, "", (address, 0)) for address in addresses]
    found.getaddrinfo, before, access.socket = resolved, access.socket, found
    try:
        return access.is_here("broker.example")
    finally:
        access.socket = before


# the example, and what happens without packages

def example(program):
    """The example runs with one command, and ends in equal dumps."""
    command = [ROOT / "examples/brokered/run", "--program", program]
    done = subprocess.run(command, stdin=subprocess.DEVNULL, capture_output=True, timeout=300)
    yield "the example: %s" % done.stdout.decode()[-300:], done.returncode == 0 and b"the three dumps are the same" in done.stdout


def skipped(_program):
    """If a package is missing, it is named, and nothing fails but what cannot run: without a broker, and without
    paho-mqtt."""
    for command, status in ([ROOT / "examples/brokered/run"], 10), ([ROOT / "tests/bridged.py", "words"], 0):
        env = {**os.environ, "MOSQUITTO": "/nowhere"}
        done = subprocess.run(command, env=env, stdin=subprocess.DEVNULL, capture_output=True, timeout=60)
        yield "%s without a broker" % command[0].name, done.returncode == status and b"mosquitto" in done.stdout + done.stderr
    # without the folders of packages there is no paho-mqtt
    done = subprocess.run([sys.executable, "-S", brokers.BRIDGE, "--cluster", "a", "--number", "1"], stdin=subprocess.DEVNULL,
                          env={**os.environ, "FETOHAMU_BRIDGE_TRIED": "yes", "PYTHONPATH": ""}, capture_output=True, timeout=60)
    yield "a bridge without paho-mqtt", is_refused((done.returncode, done.stdout, done.stderr), 10, b"python3-paho-mqtt")


GROUPS = {"parts": parts, "words": words, "lines": lines, "divided": divided, **outlived.GROUPS, **operated.GROUPS, **relayed.GROUPS,
          **senders.GROUPS, **own_rounds.GROUPS, **bridge_stores.GROUPS, "signals": signals, "secrets": secrets, "exposed": exposed,
          "example": example, "skipped": skipped}


# what the gate runs side by side, as groups of tests/run, since they mostly wait
SIDES = {"brokered_lasting": (*operated.GROUPS, *relayed.GROUPS, *senders.GROUPS, "kills", "signals", "secrets", "exposed", "example",
                              "skipped"),
         "brokered_rounds": (*own_rounds.GROUPS, *bridge_stores.GROUPS)}
SIDES["brokered"] = tuple(it for it in GROUPS if not any(it in side for side in SIDES.values()))


def all_tests(program, names=tuple(GROUPS), kills=KILLS):
    """Each test of the groups, by name; none, with a word, if a package is not installed."""
    for name in runnable(names):
        for told, fine in GROUPS[name](program, *([kills] if name == "kills" else [])):
            yield "bridged: %s: %s" % (name, told), bool(fine)


def runnable(names):
    """The groups that can run here. Says so if a package is missing."""
    lacks = brokers.missing()
    if lacks:
        print("bridged: skipped, since there is no %s (Debian's packages)" % " and no ".join(lacks))
    return [name for name in names if not lacks or name == "skipped"]


def main():
    words = argparse.ArgumentParser(description=__doc__, formatter_class=argparse.RawDescriptionHelpFormatter)
    words.add_argument("--program", default=str(brokers.PROGRAM))
    words.add_argument("--kills", type=int, default=KILLS)
    words.add_argument("groups", nargs="*", metavar="GROUP", help=", ".join(GROUPS))
    words = words.parse_args()
    if set(words.groups) - GROUPS.keys():
        sys.exit("tests/bridged.py: the groups are %s" % ", ".join(GROUPS))
    passed = failed = 0
    for group in runnable(words.groups or GROUPS):
        began, before = time.monotonic(), passed + failed
        for name, fine in itertools.chain(all_tests(words.program, [group], words.kills), stores_left.outcomes(words.program)):
            passed, failed = passed + fine, failed + (not fine)
            if not fine:
                print("FAILED: " + name, flush=True)
        print("%-16s%6d tests in %.0f s" % (group, passed + failed - before, time.monotonic() - began), flush=True)
    print("%d passed, %d failed" % (passed, failed))
    sys.exit(failed != 0)


if __name__ == "__main__":
    main()
