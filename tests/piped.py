"""Tests of `firmament follow` at its ends, by name, for tests/streams.py: answers that come before the next line is written, bytes one
at a time, readers and writers that fail or go away, terminals, and packets between processes."""
import contextlib
import fcntl
import os
import pathlib
import pty
import random
import resource
import select
import signal
import subprocess
import tempfile
import threading
import time
import tty

import drawn
import followed
import reference
import refusing
from lined import EMPTY_GRAPH, GRAPH, NO_INPUT, NO_OUTPUT, OPEN, digits_of, end_of, every_kind, lines, seen, short, woven

ROOT = pathlib.Path(__file__).resolve().parent.parent
# how long an answer may take, before the next line is written
PATIENCE = 5
# so many interrupts of one read or write are a failure
MOST_INTERRUPTS = 16777217


class Talk:
    """A run that is written to line by line, and whose answer to a line is read before the next one is written."""

    def __init__(self, program, *words):
        self.run = subprocess.Popen([program, "follow", *words], stdin=subprocess.PIPE, stdout=subprocess.PIPE,
                                    stderr=subprocess.PIPE, bufsize=0)
        self.heard = b""

    def __enter__(self):
        return self

    def __exit__(self, *_):
        if self.run.poll() is None:
            self.run.kill()
        self.run.communicate()

    def write(self, some):
        self.run.stdin.write(some)

    def answer(self, patience=PATIENCE):
        """The next answer, or what came of it in time."""
        end = time.monotonic() + patience
        while not (found := followed.answers_in(self.heard))[0]:
            left = end - time.monotonic()
            ready = left > 0 and select.select([self.run.stdout], [], [], left)[0]
            piece = os.read(self.run.stdout.fileno(), 1 << 16) if ready else b""
            if not piece:
                found = [self.heard], b""
                break
            self.heard += piece
        (first, *more), rest = found
        self.heard = b"".join(more) + rest
        return first

    def say(self, value):
        """The answer to a line."""
        self.write(lines(value))
        return self.answer()

    def close(self):
        """There are no more lines."""
        self.run.stdin.close()
        self.run.stdin = None

    def end(self):
        """The status of the run if there are no more lines, and what else it wrote."""
        self.close()
        out, err = self.run.communicate(timeout=60)
        return self.run.returncode, self.heard + out, err


def turns(program):
    """Each answer comes before the next line is written, on streams of all kinds, and if there is no line none comes."""
    for name, text in ("short", short()), ("of every kind", every_kind()), ("woven", woven(3)):
        stream, fine = followed.Stream(), []
        with Talk(program) as talk:
            for one in followed.lines_of(text):
                answer = talk.say(one)
                fine.append(answer == stream.answer(one, answer))
            yield "a stream in turns, %s" % name, all(fine)
            yield "its end, %s" % name, talk.end() == (0, b"", b"")
    with Talk(program) as talk:
        talk.say(OPEN)
        for half in GRAPH[:9], GRAPH[9:], b"  ":
            talk.write(half)
            yield "no answer to a part of a line", talk.answer(patience=0.1) == b""
        talk.write(b"\n" + GRAPH)
        yield "an answer to the line alone", talk.answer() == EMPTY_GRAPH and talk.answer(patience=0.1) == b""
        yield "and to the rest at the end", talk.end() == (0, EMPTY_GRAPH, b"")
    with Talk(program) as talk:
        talk.write(lines(OPEN, GRAPH, b"", GRAPH))
        yield "several lines at once", [talk.answer() for _ in range(4)] == [b"ok\n", EMPTY_GRAPH, b"refusal 16\n", EMPTY_GRAPH]
        yield "and nothing else", talk.end() == (0, b"", b"")


def bytewise(program):
    """Input comes a byte at a time: by a pipe that is written so, and by reads that give no more."""
    text = every_kind()
    wanted = seen(program, text)
    with Talk(program) as talk:
        def feed():
            for place in range(len(text)):
                talk.write(text[place:place + 1])
            talk.close()
        feeder = threading.Thread(target=feed)
        feeder.start()
        out = talk.run.stdout.read()
        feeder.join()
        yield "a byte at a time by a pipe", (talk.run.wait(timeout=60), out) == wanted[:2]
    with tempfile.TemporaryDirectory() as folder:
        library = refusing.library(folder, "narrow")
        for reads, writes in (1, 1), (1, 65536), (7, 3), (65536, 1):
            env = {"LD_PRELOAD": library, "READS": str(reads), "WRITES": str(writes)}
            yield "%d bytes at a read and %d at a write" % (reads, writes), seen(program, text, env=env) == wanted


def failing(program):
    """The reader fails: the whole lines before are answered; the writer fails: what went out is a prefix of the answers."""
    text = short()
    wanted = seen(program, text)
    yield "a short stream", wanted[0] == 0
    with tempfile.TemporaryDirectory() as folder:
        library = refusing.library(folder, "narrow")
        for end in range(0, len(text) + 1, 5):
            whole = text[:text.rfind(b"\n", 0, end) + 1]
            found = seen(program, text[:end], env={"LD_PRELOAD": library, "FAILS": "1"})
            yield "a reader that fails behind %d bytes" % end, found == (3, seen(program, whole)[1], NO_INPUT)
        for room in range(len(wanted[1])):
            for writes in (65536,) if room % 16 else (65536, 1):
                found = seen(program, text, env={"LD_PRELOAD": library, "ROOM": str(room), "WRITES": str(writes)})
                yield "a writer with room for %d bytes" % room, found == (6, wanted[1][:room], NO_OUTPUT)
    with tempfile.TemporaryFile() as file:
        limit = lambda: resource.setrlimit(resource.RLIMIT_FSIZE, (40, 40))
        status, _, err = seen(program, text, stdout=file, restore_signals=False, preexec_fn=limit)
        file.seek(0)
        yield "a file with room for 40 bytes", (status, file.read(), err) == (6, wanted[1][:40], NO_OUTPUT)


def interrupted(program):
    """Signals come while the program waits to write into a full pipe, or to read from an empty one: nothing is lost, and nothing comes
    twice. A read or write that is interrupted for ever fails."""
    text = lines(OPEN) + lines(GRAPH) * 10000
    wanted = seen(program, text)
    with tempfile.TemporaryDirectory() as folder:
        library = refusing.library(folder, "narrow")
        for name, feed, drain in ("reads", 0.02, 0), ("writes", 0, 0.02):
            status, out, err, told = signalled(program, library, text, feed, drain)
            yield "signals between %s: the answers" % name, (status, out, err) == wanted
            yield "some %s are interrupted: %d" % (name, told.count(name[0])), told.count(name[0]) >= 20
        text = lines(OPEN, GRAPH)
        for name, fault in ("READ", (3, b"", NO_INPUT)), ("WRITE", (6, b"", NO_OUTPUT)):
            for more, wanted in (-1, seen(program, text)), (0, fault):
                env = {"LD_PRELOAD": library, name + "_INTERRUPTS": str(MOST_INTERRUPTS + more)}
                yield "%d interrupts of one %s" % (MOST_INTERRUPTS + more, name.lower()), seen(program, text, env=env) == wanted


def signalled(program, library, text, feed, drain):
    """A run that is sent signals all the time, from its first answer on. Its input comes in pieces, so many seconds apart, and its answers
    are taken so many seconds apart. The status and the texts of the run, and which calls were interrupted."""
    (heard, tells), (reader, writer) = os.pipe(), os.pipe()
    fcntl.fcntl(writer, fcntl.F_SETPIPE_SZ, 4096)
    env = {"LD_PRELOAD": library, "SIGNAL": str(int(signal.SIGUSR1)), "TELLS": str(tells)}
    run = subprocess.Popen([program, "follow"], stdin=subprocess.PIPE, stdout=writer, stderr=subprocess.PIPE, env=env, pass_fds=[tells])
    for end in tells, writer:
        os.close(end)

    def give():
        # if the program ends before, its status tells
        with contextlib.suppress(BrokenPipeError), run.stdin:
            for place in range(0, len(text), 4096):
                run.stdin.write(text[place:place + 4096])
                run.stdin.flush()
                time.sleep(feed)

    def send():
        while run.poll() is None:
            run.send_signal(signal.SIGUSR1)
            time.sleep(0.001)
    giver, sender = threading.Thread(target=give), threading.Thread(target=send)
    giver.start()
    # the signal is caught before the program begins
    select.select([reader], [], [])
    sender.start()
    out = b""
    while piece := os.read(reader, 4096):
        out += piece
        time.sleep(drain)
    giver.join()
    err, status = run.stderr.read(), run.wait(timeout=60)
    sender.join()
    told = b"".join(iter(lambda: os.read(heard, 1 << 16), b"")).decode()
    for end in reader, heard:
        os.close(end)
    return status, out, err, told


def typed(program):
    """Lines that are typed at a terminal are answered, and a terminal is sent the answers alone."""
    screen, end = pty.openpty()
    run = subprocess.Popen([program, "follow"], stdin=end, stdout=subprocess.PIPE, stderr=subprocess.PIPE)
    os.close(end)
    os.write(screen, lines(OPEN, GRAPH, b"x") + b"\x04")
    out, err = run.communicate(timeout=60)
    os.close(screen)
    yield "typed lines", (run.returncode, out, err) == (0, b"ok\n" + EMPTY_GRAPH + b"refusal 16\n", b"")
    screen, end = pty.openpty()
    tty.setraw(end)
    run = subprocess.Popen([program, "follow"], stdin=subprocess.PIPE, stdout=end, stderr=end)
    os.close(end)
    run.stdin.write(lines(OPEN, GRAPH))
    run.stdin.flush()
    # what a script's run says there of how far it is begins within a second
    time.sleep(1.5)
    run.stdin.close()
    status, sent = run.wait(timeout=60), sent_to(screen)
    yield "what a terminal is sent", (status, sent) == (0, b"ok\n" + EMPTY_GRAPH)


def sent_to(screen):
    """What a terminal was sent, whose other end is closed."""
    sent = b""
    try:
        while piece := os.read(screen, 1 << 16):
            sent += piece
    # the last holder of the other end has let it go
    except OSError:
        pass
    os.close(screen)
    return sent


def ends(program):
    """Streams that are none, or go away, and words that are wrong."""
    text = short()
    with open("/dev/full", "wb") as full:
        yield "a full device", seen(program, text, stdout=full)[::2] == (6, NO_OUTPUT)
        yield "a full device and no lines", seen(program, b"", stdout=full)[::2] == (0, b"")
    yield "no standard output", seen(program, text, stdout=None, preexec_fn=lambda: os.close(1))[::2] == (6, NO_OUTPUT)
    yield "no standard input", seen(program, b"", stdin=None, preexec_fn=lambda: os.close(0)) == (3, b"", NO_INPUT)
    folder = os.open(ROOT, os.O_RDONLY)
    yield "a folder as input", seen(program, b"", stdin=folder) == (3, b"", NO_INPUT)
    os.close(folder)
    reader, writer = os.pipe()
    os.close(reader)
    yield "a pipe that nobody reads", seen(program, text, stdout=writer)[0] in (6, -13)
    os.close(writer)
    with Talk(program) as talk:
        fine = talk.say(OPEN) == b"ok\n"
        talk.run.stdout.close()
        talk.write(lines(GRAPH))
        yield "a reader of answers that goes away", fine and talk.run.wait(timeout=60) in (6, -13)
        talk.run.stdout = None
    for strange in ["a"], ["--renew-after"], ["--renew-after", "0"], ["--renew-after", "1000001"], ["--renew-after", "x"], ["--at", "1"]:
        status, out, err = seen(program, text, *strange)
        yield "strange words: follow %s" % " ".join(strange), (status, out) == (2, b"") and err != b""
    for words in [], ["--renew-after", "1000000"], ["--renew-after=100000"], ["--renew-after", "1000"]:
        yield "words: follow %s" % " ".join(words), seen(program, text, *words) == seen(program, text)


def exchanges(program):
    """Packets between processes, by news and by cuts: the same operations in other orders and portions have one graph."""
    for seed in range(8):
        chance = random.Random("exchanges %d" % seed)
        told, has_rounds = drawn.Lives(chance).operations(40), seed % 4 > 1
        with Talk(program) as one, Talk(program) as other:
            fine = [one.say({"coordinators": [3]}), other.say({"coordinators": [3, 5] if seed % 2 else [5]})]
            fine += exchanged(chance, told, one, other, has_rounds)
            fine.append(other.say({"at": 5, "take": digits_of(one.say({"at": 3, "cut": {}}))}))
            fine.append(one.say({"at": 3, "take": digits_of(other.say({"at": 5, "cut": {"name": "all"}}))}))
            yield "exchange %d: lines are accepted" % seed, all(end_of(answer) == b"ok" for answer in fine)
            graphs, winners = ({talk.say({"at": at, "ask": topic}) for talk, at in ((one, 3), (other, 5))} for topic in ("graph", "winners"))
            yield "exchange %d: one graph, and the same winners" % seed, (len(graphs), len(winners)) == (1, 1)
            if not has_rounds:
                known = reference.Known([reference.operation(kind, fields) for op in told for kind, fields in op.items()])
                yield "exchange %d: that of the operations" % seed, graphs == {"".join(reference.graph(known)).encode() + b"ok\n"}
            with Talk(program) as later:
                later.say({"coordinators": [3]})
                fine = later.say({"at": 3, "take": digits_of(one.say({"at": 3, "cut": {}}))}) == b"ok\n"
                goes_on = {later.say({"at": 3, "ask": "graph"})} == graphs
                yield "exchange %d: a process goes on from the last packet" % seed, fine and goes_on


def exchanged(chance, told, one, other, has_rounds):
    """Some operations are told to the one process and some to the other, which hand on their news in between, now and then twice."""
    sides, found = ((one, 3), (other, 5)), []
    for op in told:
        (talk, at), (peer, there) = chance.sample(sides, 2)
        found.append(talk.say({"at": at, "tell": op}))
        if has_rounds and chance.random() < 0.1:
            found.append(talk.say({"at": at, "round": True}))
        if chance.random() < 0.3:
            news = talk.say({"at": at, "news": True})
            found += [news] + [peer.say({"at": there, "take": digits_of(news)}) for _ in range(chance.choice((1, 1, 2)))]
    return found


GROUPS = {"turns": turns, "bytewise": bytewise, "failing": failing, "interrupted": interrupted, "typed": typed, "ends": ends, "exchanges": exchanges}
