"""Tests of bin/bridge as an operator uses it for a day, by name, for tests/bridged.py: long lines, slow readers, followers that hang,
and many clients."""
import contextlib
import fcntl
import os
import pathlib
import random
import re
import signal
import socket
import stat
import subprocess
import tempfile
import threading
import time
import types

import brokers
import stores_left
import strict
from bridging import descriptors, follower, lines as lines_of, sketches as sketches_of
from brokers import QUICK, Bridge, Broker, told as tell, until
from clustered import agree, cluster, is_refused, refused, running, told_to


def made(folder, name, text):
    """A program with the text, in the folder."""
    file = pathlib.Path(folder) / name
    file.write_text(text)
    file.chmod(0o700)
    return str(file)


# bytes that are looked at

class Counted(bytes):
    """Bytes that were read, which count how many of them are looked at."""

    looked = 0

    def _count(self, many):
        Counted.looked += many

    def find(self, some, start=0):
        found = super().find(some, start)
        self._count((len(self) if found < 0 else found + 1) - start)
        return found

    def rfind(self, some):
        found = super().rfind(some)
        self._count(len(self) - max(found, 0))
        return found

    def split(self, some):
        self._count(len(self))
        return super().split(some)

    def __getitem__(self, place):
        found = super().__getitem__(place)
        self._count(len(found) if isinstance(found, bytes) else 1)
        return found


class CountedPattern:
    """A pattern that counts the bytes of the texts that it searches."""

    def __init__(self, pattern):
        self._pattern = pattern

    def finditer(self, text, start=0):
        Counted.looked += len(text) - start
        return self._pattern.finditer(text, start)

    def fullmatch(self, text):
        Counted.looked += len(text)
        return self._pattern.fullmatch(text)


@contextlib.contextmanager
def counting():
    """What the follower's and the operator's pipes hand over counts what is looked at."""
    system = types.SimpleNamespace(**vars(os))
    system.read = lambda *words: Counted(os.read(*words))
    pattern = follower.END
    follower.os = descriptors.os = system
    follower.END = CountedPattern(pattern)
    Counted.looked = 0
    try:
        yield
    finally:
        follower.os = descriptors.os = os
        follower.END = pattern


# a state of 7 MB, as a line of digits
STATE = 14_000_000
LONG = """#!/usr/bin/env python3
import sys
for line in sys.stdin.buffer:
    text = b"" if b"coordinators" in line else b"7" * %d + b"\\n"
    sys.stdout.buffer.write(text + b"ok\\n")
    sys.stdout.buffer.flush()
""" % STATE


def looked_at(_program):
    """No line costs more than its length: each byte of a long answer, and of a long line, is looked at a few times."""
    with tempfile.TemporaryDirectory() as folder, counting():
        process = follower.Follower(made(folder, "long", LONG), 1, 1000, follower.Waits(30, 30, lambda: float("inf")))
        answer, = process.ask([b"{}"])
        process.close()
        yield "the answer is whole", len(answer) == STATE + 4
        yield "an answer of %d bytes: %d were looked at" % (STATE, Counted.looked), STATE <= Counted.looked <= 5 * STATE
    with counting():
        reader, writer = os.pipe()
        source, found = lines_of.Lines(reader, threading.Condition()), []
        source.start()
        with os.fdopen(writer, "wb") as into:
            into.write(b"7" * STATE + b"\n")
        until(lambda: found.extend(source.take(2)) or source.is_ended())
        os.close(reader)
        yield "the line is whole", list(map(len, found)) == [STATE]
        yield "a line of %d bytes: %d were looked at" % (STATE, Counted.looked), STATE <= Counted.looked <= 5 * STATE
    yield from split_anywhere()


def split_anywhere():
    """Answers are the same wherever the pieces end, and what only looks like an end is none."""
    answers = [b"ok\n", b"refusal 16\n", b"okay\n ok\nrefusal x\n" + b"ok" * 99 + b"\nok\n", b"\nrefusal 123456789\n", b"not ok\nok\n"]
    text = b"".join(answers)
    for size in (1, 2, 3, 5, 64, len(text)):
        splitter = follower.Splitter()
        found = [answer for first in range(0, len(text), size) for answer in splitter.feed(text[first:first + size])]
        yield "answers in pieces of %d" % size, found == answers


# readers and writers that are slow, do not block, or are not there

# answers a question by so many bytes, or by how many deltas there are, hangs at a round, and cuts packets of nothing
ANSWERING = """#!/usr/bin/env python3
import sys, time
count = told = 0
for line in sys.stdin.buffer:
    text = b""
    told += b'"tell"' in line or b'"take"' in line
    if b'"end"' in line:
        text = b"end 0 %d\\n" % told
    elif b'"ask"' in line:
        text = b"7" * {size} + b"\\n"
    elif b'"cut"' in line:
        count += 1
        text = b"4644473201%016x\\n" % count
    elif b'"round"' in line:
        time.sleep(600)
    sys.stdout.buffer.write(text + b"ok\\n")
    sys.stdout.buffer.flush()
"""
ASK = b'{"at":1,"ask":"graph"}\n'


@contextlib.contextmanager
def one_bridge(program, *words, **streams):
    """A broker, and the process of a bridge with the number 1, whose streams are as given, else pipes."""
    with contextlib.ExitStack() as stack:
        broker = stack.enter_context(Broker(stack.enter_context(tempfile.TemporaryDirectory())))
        # a follower that is a script takes its time to begin if all processors are busy
        command = [brokers.BRIDGE, "--cluster", "test", "--number", "1", "--broker", f"127.0.0.1:{broker.port}", *QUICK,
                   "--connect-wait", str(brokers.PATIENCE)]
        given = {"stdin": subprocess.PIPE, "stdout": subprocess.PIPE, "stderr": subprocess.DEVNULL, **streams}
        run = subprocess.Popen([*command, "--program", program, *words], bufsize=0, **given)
        try:
            yield broker, run
        finally:
            run.kill()
            run.wait()
            for stream in run.stdin, run.stdout, run.stderr:
                if stream is not None:
                    stream.close()


def read_slowly(descriptor, pause, found=None):
    """All that can be read, in pieces of 64 KiB, with a pause before each; at the end of `found` if it is given."""
    found = bytearray() if found is None else found
    while piece := os.read(descriptor, 1 << 16):
        found += piece
        time.sleep(pause)
    return found


def slow_readers(_program):
    """Answers are written to the end, however slowly they are read, or the status says that they were not."""
    with tempfile.TemporaryDirectory() as folder:
        answering = made(folder, "answering", ANSWERING.format(size=100_000))
        with one_bridge(answering, "--end-wait", "1") as (_, run):
            run.stdin.write(ASK * 391)
            run.stdin.close()
            found = read_slowly(run.stdout.fileno(), 0.008).count(b"ok\n")
            yield "of 391 answers %d were read slowly, with status %s" % (found, run.wait()), (found, run.returncode) == (391, 0)
        with one_bridge(answering, "--end-wait", "1", stderr=subprocess.PIPE) as (_, run):
            run.stdin.write(ASK * 9)
            run.stdin.close()
            status, said = run.wait(timeout=60), run.stderr.read()
            yield "nobody reads: status %d, %r" % (status, said[-200:]), status == 18 and b"bytes of answers are left" in said
        yield from not_blocking(answering)


def not_blocking(answering):
    """Standard input and output that do not block are waited for."""
    reader, writer = os.pipe()
    os.set_blocking(reader, False)
    with one_bridge(answering, stdin=reader) as (_, run):
        os.close(reader)
        for _ in range(3):
            time.sleep(0.5)
            with contextlib.suppress(BrokenPipeError):
                os.write(writer, ASK)
        os.close(writer)
        found = read_slowly(run.stdout.fileno(), 0).count(b"ok\n")
        yield "input that does not block: %d answers, status %d" % (found, run.wait()), (found, run.returncode) == (3, 0)
    reader, writer = os.pipe()
    os.set_blocking(writer, False)
    with one_bridge(answering, stdout=writer) as (_, run):
        os.close(writer)
        run.stdin.write(ASK * 20)
        run.stdin.close()
        time.sleep(1)
        found = read_slowly(reader, 0.001).count(b"ok\n")
        os.close(reader)
        yield "output that does not block: %d answers, status %d" % (found, run.wait()), (found, run.returncode) == (20, 0)


def unread_errors(program):
    """Standard error that nobody reads stops no answers."""
    told = list(cluster(60))
    with one_bridge(program, "--trace", "--json", "--cut-count", "1", stderr=subprocess.PIPE) as (_, run):
        # a pipe that is full after some twenty lines
        fcntl.fcntl(run.stderr, fcntl.F_SETPIPE_SZ, 4096)
        threading.Thread(target=run.stdin.write, args=[b"".join(tell(1, op) for op in told)], daemon=True).start()
        heard = bytearray()
        threading.Thread(target=read_slowly, args=[run.stdout.fileno(), 0, heard], daemon=True).start()
        is_answered = until(lambda: heard.count(b"ok\n") >= len(told))
        yield "%d of %d answers while nobody reads standard error" % (heard.count(b"ok\n"), len(told)), bool(is_answered)
        run.send_signal(signal.SIGTERM)
        yield "and it ends", run.wait(timeout=60) == 0


def peak(run):
    """How many megabytes a process had at most, once that stays the same for a second."""
    def now():
        text = pathlib.Path(f"/proc/{run.pid}/status").read_text()
        return int(re.search(r"VmHWM:\s*([0-9]+) kB", text)[1]) // 1024
    last, since = now(), time.monotonic()
    while time.monotonic() - since < 1:
        time.sleep(0.1)
        if now() != last:
            last, since = now(), time.monotonic()
    return last


MOST_MEGABYTES = 150


def memory_kept(_program):
    """Answers that nobody reads, and answers that wait to be confirmed, take no more memory than --help says."""
    with tempfile.TemporaryDirectory() as folder:
        answering = made(folder, "answering", ANSWERING.format(size=1_200_000))
        with one_bridge(answering) as (_, run):
            run.stdin.write(ASK * 400)
            os.read(run.stdout.fileno(), 1)
            most = peak(run)
            yield "400 answers of 1.2 MB that are not read: %d MB" % most, most < MOST_MEGABYTES
        with one_bridge(answering, "--confirmed") as (broker, run):
            run.stdin.write(ASK)
            os.read(run.stdout.fileno(), 1)
            threading.Thread(target=read_slowly, args=[run.stdout.fileno(), 0], daemon=True).start()
            broker.kill()
            run.stdin.write(tell(1, next(cluster(0))) + ASK * 400)
            most = peak(run)
            yield "400 answers of 1.2 MB that are not confirmed: %d MB" % most, most < MOST_MEGABYTES


# long lines

# so many empty objects have 63 MB, and so much memory is left beside a line: the bridge has some 25 MB at rest, and looks at pieces
OBJECTS, LINE_MEGABYTES, BESIDE_MEGABYTES = 21_000_000, 63, 45


def heavy_lines(_program):
    """A line of many small values takes little more memory than its bytes, and one of a client that is too long takes none."""
    values = b"[%s{}]" % (b"{}," * OBJECTS)
    with tempfile.TemporaryDirectory() as folder:
        answering, path = made(folder, "answering", ANSWERING.format(size=1)), f"{folder}/door"
        with one_bridge(answering, "--listen", path) as (_, run):
            until(lambda: os.path.exists(path))
            with Talk(path) as client:
                client.ask(b'{"at":1,"x":%s}\n' % values)
                yield "a client's line of 63 MB: %d MB" % peak(run), peak(run) < BESIDE_MEGABYTES
                client.ask(b'{"at":1,"x":[%s{}]}\n' % (b"{}," * 340_000))
                yield "one within its bound: %d MB" % peak(run), peak(run) < BESIDE_MEGABYTES + LINE_MEGABYTES
                client.ask(b'{"at":1,"take":"46","x":%s}\n' % values)
                yield "one that begins as a take: %d MB" % peak(run), peak(run) < BESIDE_MEGABYTES + LINE_MEGABYTES
            for line in b'{"at":1,"x":%s}', b'{"at":1,"tell":{"job":{"more":%s}}}', b'{"ask":"check","line":{"renew":%s}}':
                run.stdin.write(line % values + b"\n")
                heard = b""
                while not heard.endswith(b"ok\n"):
                    heard += os.read(run.stdout.fileno(), 100)
                yield "a line of 63 MB, %r: %d MB" % (line, peak(run)), peak(run) < BESIDE_MEGABYTES + LINE_MEGABYTES


# refuses packets and empty lines as the program does, and answers all else by its length
MEASURING = """#!/usr/bin/env python3
import sys
for line in sys.stdin.buffer:
    text = b"end 0 0\\n" if b'"end"' in line else b"" if b'"coordinators"' in line else b"%d\\n" % (len(line) - 1)
    sys.stdout.buffer.write(b"refusal 16\\n" if line == b"\\n" else b"refusal 6\\n" if b'"take"' in line else text + b"ok\\n")
    sys.stdout.buffer.flush()
"""


def longest_lines(_program):
    """A line of a client has a bound, which an option changes; a take and a line of standard input have that of the follower."""
    usual, refused_here, handed_over = 1 << 20, b"refusal 16\n", b"refusal 6\n"
    asked = lambda size: b'{"ask":"version"%s}\n' % (b" " * (size - 17))
    digits = b"46" * usual
    with tempfile.TemporaryDirectory() as folder, running(None, []) as (broker, _):
        path, program = f"{folder}/door", made(folder, "measuring", MEASURING)
        wait = ["--connect-wait", str(brokers.PATIENCE)]
        with Bridge(broker.port, 1, *QUICK, *wait, "--listen", path, program=program) as bridge:
            bridge.ask({"ask": "version"})
            with Talk(path) as client:
                for name, line, answer in (
                        ("as long as may be", asked(usual), b"1048576\nok\n"), ("a byte longer", asked(usual + 1), refused_here),
                        ("much longer", asked(5 * usual), refused_here), ("a take", b'{"at":1,"take":"%s"}\n' % digits, handed_over),
                        ("a take with its number behind", b' { "take" : "%s" , "at" : 1 } \n' % digits, handed_over),
                        ("a take with more than digits", b'{"at":1,"take":"%s ","at":1}\n' % digits, refused_here),
                        ("a take with more members", b'{"at":1,"take":"%s","at":1,"at":1}\n' % digits, refused_here),
                        ("what only looks like one", b'{"at":1,"take":"46","x":"%s"}\n' % digits, refused_here),
                        ("the next one", asked(100), b"100\nok\n")):
                    found = client.ask(line)
                    yield "%s: %r" % (name, found[-40:]), found == answer
            yield "standard input has no such bound", bridge.ask(asked(5 * usual)[:-1].decode()) == b"5242880\nok\n"
        with Bridge(broker.port, 2, *QUICK, *wait, "--listen", path, "--longest-line", "1000", program=program) as bridge:
            bridge.ask({"ask": "version"})
            with Talk(path) as client:
                yield "another bound", client.ask(asked(1001) + asked(1000), 2) == refused_here + b"1000\nok\n"
                yield "and a take", client.ask(b'{"at":2,"take":"%s"}\n' % digits) == handed_over


def drawn_value(chance, depth=0):
    """A JSON text, with spaces, and with brackets, quotation marks and backslashes in its strings."""
    space = lambda: chance.choice(("", "", "", " ", "\t\r "))
    kind = chance.random()
    if depth > 4 or kind < 0.3:
        return chance.choice(("1", "-2.5e3", "true", "null", "7" * 70))
    if kind < 0.5:
        letters = "a", "{", "}", "[", "]", r"\"", r"\\", ",", ":", r"\u007b", "\u00e9"
        return '"%s"' % "".join(chance.choices(letters, k=chance.randrange(9)))
    parts = [space() + drawn_value(chance, depth + 1) + space() for _ in range(chance.randrange(4))]
    if kind < 0.75:
        return "[%s]" % (",".join(parts) or space())
    return "{%s}" % (",".join('%s"%s"%s:%s' % (space(), chance.choice(("a", r"\"", "}")), space(), part) for part in parts) or space())


NAMES_DRAWN = ("at", "at", "at", "tell", "take", "round", "relieve", "ask", "ask", "of", "task", "job", "machine", "incarnation", "line",
               "line", "news", "mine", "cut", "cut", "renew", "trim", "deliver", "coordinators", "x", r"\u0061t", r"t\u0065ll", "n" * 99)


def drawn_line(chance, depth=0):
    """An object with names that lines have, some of them twice."""
    space = lambda: chance.choice(("", "", " ", "\n"))
    members = []
    for _ in range(chance.choice((0, 1, 2, 2, 2, 3, 4))):
        name = chance.choice(NAMES_DRAWN)
        value = drawn_line(chance, depth + 1) if name == "line" and depth < 2 else chance.choice(("{}", "{ }", drawn_value(chance)))
        members.append('%s"%s"%s:%s%s%s' % (space(), name, space(), space(), value, space()))
    return "%s{%s}%s" % (space(), ",".join(members) or space(), space())


def sketches(_program):
    """A line is of the kind that its value is, which another reader of JSON decodes, if it is not decoded here; in pieces of any size."""
    chance, kinds = random.Random("sketches"), set()
    sizes, short = (sketches_of.FIRST, sketches_of.PIECE), lines_of.SHORT
    try:
        lines_of.SHORT = -1
        for count in range(6000):
            sketches_of.FIRST, sketches_of.PIECE = chance.choice(((1, 1), (1, 2), (2, 3), (3, 8), (64, 1 << 16)))
            line = drawn_line(chance).encode()
            wanted, found = lines_of.kind_of_value(strict.read_json(line)), lines_of.kind_of(line)
            kinds.add(found)
            if found is not wanted:
                yield "line %d: %r: %s, and not %s" % (count, line, found, wanted), False
            # what is no JSON has some kind, or none
            place = chance.randrange(len(line))
            for broken in line[:place], line[:place] + b'"' + line[place:], line + b"}", line[:place] + line[place + 1:]:
                if lines_of.kind_of(broken) not in lines_of.Kind:
                    yield "a line that is broken: %r" % broken, False
        yield "there are lines of all kinds: %d" % len(kinds), kinds == set(lines_of.Kind)
        for depth in 127, 128:
            line = b'{"at":1,"tell":%s1%s}' % (b'[{"a":' * (depth // 2), b"}]" * (depth // 2))
            yield "a line of %d levels" % depth, lines_of.kind_of(line) is lines_of.Kind.TELL
        for size in 1, 100, 1000, 1 << 16:
            sketches_of.FIRST, sketches_of.PIECE = 1, size
            line = b'{"at":1,"tell":[%s1]}' % ((b"[" * 125 + b"]" * 125 + b",") * 600)
            yield "a deep and long line, in pieces of %d" % size, lines_of.kind_of(line) is lines_of.Kind.TELL
        yield "one that is too deep", lines_of.kind_of(b'{"at":1,"tell":%s}' % (b"[" * 9999 + b"]" * 9999)) is lines_of.Kind.STRANGE
    finally:
        (sketches_of.FIRST, sketches_of.PIECE), lines_of.SHORT = sizes, short


# followers that hang, signals, and lines of a kind that the bridge does not know

def hangs(program):
    """A follower that hangs is waited for so long as --follower-wait says, and after a signal as --end-wait says; a hangup ends a bridge
    once it sent what it has."""
    with tempfile.TemporaryDirectory() as folder:
        answering = made(folder, "answering", ANSWERING.format(size=1))
        for words, by in (["--follower-wait", "1"], None), (["--end-wait", "1"], signal.SIGTERM):
            with one_bridge(answering, *words, stderr=subprocess.PIPE) as (_, run):
                run.stdin.write(ASK)
                os.read(run.stdout.fileno(), 9)
                run.stdin.write(b'{"at":1,"round":true}\n')
                if by is not None:
                    time.sleep(0.3)
                    run.send_signal(by)
                try:
                    status = run.wait(timeout=20)
                except subprocess.TimeoutExpired:
                    # who hangs holds standard error too
                    yield "a follower that hangs, %s" % by, False
                    continue
                said = run.stderr.read()
                yield "a follower that hangs, %s: %s, %r" % (by, status, said[-300:]), status == 15 and b"answered nothing" in said
    told = list(cluster(20))
    with running(program, [1, 2], each={1: ["--cut-interval", "3600", "--state-interval", "3600"]}) as (_, bridges):
        yield "told", told_to(bridges[:1], told)
        bridges[0].run.send_signal(signal.SIGHUP)
        yield "a hangup ends it well", bridges[0].run.wait(timeout=60) == 0
        yield "and it sent what it had", agree(bridges[1:], told, 10)


# accepts a line of a kind of its own, which tells an operation, cuts a packet, or changes nothing
UNKNOWN_KINDS = """#!/usr/bin/env python3
import subprocess, sys
pipe = subprocess.PIPE
run = subprocess.Popen([{program!r}, *sys.argv[1:]], stdin=pipe, stdout=pipe)
for line in sys.stdin.buffer:
    if b'"quiet"' in line:
        answer = [b"as you like\\n", b"ok\\n"]
    else:
        run.stdin.write(line.replace(b'"also"', b'"tell"').replace(b'"packet"', b'"cut"'))
        run.stdin.flush()
        answer = []
        while not answer or not answer[-1].startswith((b"ok", b"refusal")):
            answer.append(run.stdout.readline())
    sys.stdout.buffer.write(b"".join(answer))
    sys.stdout.buffer.flush()
"""


def unknown_kinds(program):
    """A line of a kind that the bridge does not know, and the follower accepts, is answered, and what it changed is sent and kept."""
    told = list(cluster(11))
    with stores_left.folder() as folder, running(program, [2]) as (broker, (other,)):
        newer = made(folder, "newer", UNKNOWN_KINDS.format(program=str(program)))
        store = ["--store", f"{folder}/store"]
        with Bridge(broker.port, 1, *QUICK, *store, program=newer) as bridge:
            yield "one that changes nothing", bridge.ask('{"at":1,"quiet":true}') == b"as you like\nok\n"
            yield "one that cuts a packet", bridge.ask('{"at":1,"packet":{}}').endswith(b"\nok\n")
            bridge.heard.clear()
            for first in range(0, len(told), 2):
                known, unknown = (tell(1, op) for op in told[first:first + 2])
                bridge.write(known + unknown.replace(b'"tell"', b'"also"'))
                yield "told by both kinds", bool(until(lambda: bridge.heard.endswith(b"ok\nok\n")))
                bridge.heard.clear()
            yield "all is known to both", agree([bridge, other], told, 20)
            bridge.kill()
        broker.kill()
        broker.forget()
        broker.start()
        with Bridge(broker.port, 1, *QUICK, *store, "--cut-interval", "3600", program=program) as bridge:
            yield "all is in the store", agree([bridge], told, 20)


# clients of a socket

class Talk:
    """A client on a socket, whose answers are collected."""

    def __init__(self, path):
        self.socket, self.heard = socket.socket(socket.AF_UNIX), bytearray()
        self.socket.settimeout(30)
        self.socket.connect(str(path))

    def __enter__(self):
        return self

    def __exit__(self, *_):
        self.socket.close()

    def write(self, text):
        self.socket.sendall(text)

    def ask(self, text, count=1):
        """The answers to so many lines."""
        self.write(text)
        begin = len(self.heard)
        while len(re.findall(rb"(?m)^(?:ok|refusal [0-9]+)\n", self.heard[begin:])) < count:
            piece = self.socket.recv(1 << 16)
            if not piece:
                break
            self.heard += piece
        return bytes(self.heard[begin:])

    def rest(self):
        """What comes until the end, behind which this end says no more."""
        self.socket.shutdown(socket.SHUT_WR)
        found = bytearray()
        with contextlib.suppress(ConnectionResetError):
            while piece := self.socket.recv(1 << 16):
                found += piece
        return bytes(found)


def clients(program):
    """Clients of a socket, and standard input, each have their own answers in order; standard input may end before."""
    # four lines for standard input, and 16 for each client
    told = list(cluster(41))
    with tempfile.TemporaryDirectory() as folder, running(program, [2]) as (broker, (other,)):
        path = pathlib.Path(folder) / "door"
        with Bridge(broker.port, 1, *QUICK, "--listen", str(path), program=program) as bridge:
            yield "standard input is one of them", told_to([bridge], told[:4])
            yield "the mode of the socket", stat.S_IMODE(path.stat().st_mode) == 0o660
            with Talk(path) as one, Talk(path) as two, Talk(path) as three:
                yield "what clients may not", two.ask(b'{"renew":true}\nx\n{"at":1,"news":true}\n', 3) == b"refusal 16\n" * 3
                for first in range(4, len(told), 3):
                    for client, op in zip((one, two, three), told[first:first + 3]):
                        client.write(tell(1, op))
                found = [client.ask(b"", 16) for client in (one, two, three)]
                yield "each is answered: %r" % found, found == [b"ok\n" * 16] * 3
                mixed = one.ask(b'{"ask":"agree"}\nx\n' + tell(1, told[0]) + b'{"ask":"agree"}\n', 4)
                yield "in the order of its lines", mixed == b"same\nok\nrefusal 16\nok\nsame\nok\n"
                bridge.run.stdin.close()
                three.write(tell(1, told[0]) * 3)
                yield "one that says no more is answered to the end", three.rest() == b"ok\n" * 3
                two.write(b'{"at":1,"ask":"gr')
                two.socket.close()
                yield "all is known to both", two is not None and agree([other], told)
                yield "it goes on at the end of standard input", one.ask(b'{"ask":"agree"}\n') == b"same\nok\n"
                found = refused(broker.port, "--number", "3", "--listen", str(path), program=program)
                yield "a socket that is answered: %r" % found[2], is_refused(found, 19, b"another process listens")
                bridge.run.send_signal(signal.SIGTERM)
                yield "it ends well, and takes its socket away", bridge.run.wait(timeout=60) == 0 and not path.exists()
                yield "its clients see the end", one.rest() == b""
        yield from sockets(broker, program, path)


def sockets(broker, program, path):
    """A socket that nobody answers is replaced; what is none is not, and what is wrong is said at once."""
    with Bridge(broker.port, 1, *QUICK, "--listen", str(path), program=program) as bridge:
        until(path.exists)
        yield "told", told_to([bridge], list(cluster(1)))
        bridge.kill()
    yield "the socket of one that was killed is there", path.exists()
    with Bridge(broker.port, 1, *QUICK, "--listen", str(path), program=program) as bridge:
        yield "and is replaced", told_to([bridge], list(cluster(1)))
        with Talk(path) as client:
            yield "by one that answers", client.ask(b'{"ask":"agree"}\n') == b"same\nok\n"
    path.unlink()
    path.write_text("a file")
    for name, place, status in (("a file", str(path), 19), ("no folder", f"{path}s/none", 19), ("a long path", "x" * 108, 2),
                                ("no path", "", 2)):
        found = refused(broker.port, "--number", "3", "--listen", place, program=program)
        yield "%s: %r" % (name, found[2]), is_refused(found, status, b"")
    yield "the file is still there", path.read_text() == "a file"


@contextlib.contextmanager
def two_pipes(longest=None):
    """Two pipes whose lines share a room, each with what reads its lines and what writes them, and the room."""
    with contextlib.ExitStack() as stack:
        wake, room, clients = threading.Condition(), lines_of.Room(), []
        for _ in range(2):
            reader, writer = os.pipe()
            stack.callback(os.close, reader)
            source = lines_of.Lines(reader, wake, room, longest)
            source.start()
            clients.append((source, stack.enter_context(os.fdopen(writer, "wb", 0))))
        yield (*clients, room)


def unfinished(_program):
    """Lines of clients that have no end yet share a bound: one that goes beyond it is read to its end and refused, and the others are
    whole. What a client may always have does not count."""
    most, lines_of.MOST_LINE = lines_of.MOST_LINE, 100
    try:
        with two_pipes() as ((one, into_one), (two, into_two), room):
            into_one.write(b"1" * 60)
            yield "the first part of a line is counted", bool(until(lambda: room.unfinished == 60))
            into_two.write(b"2" * 60)
            time.sleep(0.1)
            into_two.write(b"2\nnext\n")
            found = []
            until(lambda: found.extend(two.take(9)) or len(found) == 2)
            yield "one line too many is empty", found == [b"", b"next"]
            into_one.write(b"1\n")
            yield "the other is whole", bool(until(lambda: one.is_waiting())) and one.take(9) == [b"1" * 61]
            yield "and nothing is left", (room.unfinished, room.waiting) == (0, 0)
            for into in into_one, into_two:
                into.close()
            yield "both end", bool(until(lambda: one.is_ended() and two.is_ended()))
        with two_pipes(30) as ((one, into_one), (two, into_two), room):
            into_one.write(b'{"take":"' + b"4" * 81)
            yield "what is beyond the lesser bound is counted", bool(until(lambda: room.unfinished == 60))
            into_two.write(b"2" * 20)
            time.sleep(0.1)
            into_two.write(b"2" * 10 + b"\n")
            yield "beside a long line a usual one is whole", bool(until(lambda: two.is_waiting())) and two.take(9) == [b"2" * 30]
            into_two.write(b'{"take":"' + b"2" * 70)
            time.sleep(0.1)
            into_two.write(b'"}\n')
            yield "and a long one too many is empty", bool(until(lambda: two.is_waiting())) and two.take(9) == [b""]
            into_one.write(b'"}\n')
            yield "the first is whole", bool(until(lambda: one.is_waiting())) and one.take(9) == [b'{"take":"' + b"4" * 81 + b'"}']
            yield "and nothing is left of it", (room.unfinished, room.waiting) == (0, 0)
    finally:
        lines_of.MOST_LINE = most


def deaf_clients(_program):
    """A client that does not read is cut off behind 16 MiB of answers, and one that reads gets them all; the others go on."""
    with tempfile.TemporaryDirectory() as folder:
        answering, path = made(folder, "answering", ANSWERING.format(size=1_000_000)), f"{folder}/door"
        with one_bridge(answering, "--listen", path, "--json", stderr=subprocess.PIPE) as (_, run):
            until(lambda: os.path.exists(path))
            with Talk(path) as deaf, Talk(path) as reader:
                deaf.write(ASK * 300)
                # each answer is read before the next line, since on a busy machine 60 at once may lie behind the bound unread
                found = [len(reader.ask(ASK)) for _ in range(60)]
                yield "one that reads has %d answers of 60" % found.count(1_000_004), found == [1_000_004] * 60
                got = deaf.rest()
                yield "one that does not read has %d bytes of 300 MB" % len(got), len(got) < 20 << 20
            yield "it took %d MB" % peak(run), peak(run) < MOST_MEGABYTES
            with Talk(path) as last:
                yield "the others go on", len(last.ask(ASK)) == 1_000_004
            run.send_signal(signal.SIGTERM)
            said, status = run.stderr.read(), run.wait(timeout=60)
            yield "and it is said: %d, %r" % (status, said[-300:]), status == 0 and b'"cut_off"' in said


GROUPS = {"looked_at": looked_at, "heavy_lines": heavy_lines, "longest_lines": longest_lines, "sketches": sketches,
          "slow_readers": slow_readers, "unread_errors": unread_errors, "memory_kept": memory_kept, "hangs": hangs,
          "unknown_kinds": unknown_kinds, "clients": clients, "unfinished": unfinished,
          "deaf_clients": deaf_clients}
