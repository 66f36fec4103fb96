"""Tests of the rounds that bin/bridge runs by itself, by name, for tests/bridged.py: which tasks they place, when they run and when not,
and that what they came to is kept and sent. No operator's line asks for a round here, if nothing else is said."""
import argparse
import contextlib
import pathlib
import re
import signal
import tempfile
import time
import types

import brokers
import hostile
import stores_left
from bridging import coordinator, follower, packets, rivals as rivals_of, rounds as rounds_of, settings, telling
from brokers import QUICK, Bridge, told as tell, until
from clustered import agree, ended, running, told_to
from operated import made

NUMBERS, TASKS, MACHINES = (1, 2, 3), 15, 3


# clusters whose tasks have three writers

def tasks(count=TASKS, writers=NUMBERS):
    """A job, so many tasks of the writers in turn, and one that no machine has room for."""
    yield {"job": {**hostile.OPERATIONS["job"], "wait": 1000000}}
    for place in range(count):
        yield {"spec": {**hostile.OPERATIONS["spec"], "id": "00000000-0000-0000-0001-%012x" % place,
                        "writer": writers[place % len(writers)], "request": 10}}
    yield {"spec": {**hostile.OPERATIONS["spec"], "writer": writers[-1], "request": 1000000}}


def machines(count=MACHINES):
    for place in range(count):
        yield {"machine": {**hostile.OPERATIONS["machine"], "id": hostile.MACHINE[:-2] + "%02x" % (160 + place), "slots": 50}}


def told_to_writers(bridges, told):
    """Tells each bridge the tasks whose writer it is, and the first one all else. Whether each was answered ok."""
    parts = {bridge.number: [] for bridge in bridges}
    for op in told:
        parts[op["spec"]["writer"] if "spec" in op else bridges[0].number].append(op)
    return all([told_to([bridge], parts[bridge.number]) for bridge in bridges])


def asked(bridges, topic):
    return [bridge.ask({"at": bridge.number, "ask": topic}) for bridge in bridges]


def come_to(bridges, held, waiting, patience=brokers.PATIENCE):
    """Whether so many tasks are held and waiting by what each of the bridges knows, with one proposal for each that is held."""
    wanted = [b"\nproposals %d\nwaiting %d\nheld %d\n" % (held, waiting, held)] * len(bridges)
    return bool(until(lambda: all(part in size for part, size in zip(wanted, asked(bridges, "size"))), patience, pause=0.1))


def placers(bridges):
    """Which coordinator placed each task that is held, by what all bridges know, or None if they differ."""
    found = until(lambda: len(answers := set(asked(bridges, "winners"))) == 1 and answers, pause=0.1)
    if not found:
        return None
    lines = [line.split() for line in found.pop().splitlines()[:-1]]
    return {task.decode(): int(coordinator) for task, _, coordinator, *_, state in lines if state == b"held"}


def writers_of(told):
    """The writer of each task that a machine has room for."""
    return {op["spec"]["id"]: op["spec"]["writer"] for op in told if "spec" in op and op["spec"]["request"] < 1000}


def said_of(bridge, event="round"):
    return [said for said in bridge.events() if said["event"] == event]


def placed(bridge):
    """How many tasks its rounds placed, by what it said."""
    return sum(said["places"] for said in said_of(bridge))


def counted(bridges, *kinds):
    return [bridge.counts().get(kind) for bridge in bridges for kind in kinds]


def is_quiet(bridges):
    """Whether there are no more rounds and packets: in three seconds, in which each bridge could run many series."""
    kinds = "rounds", "sent", "states_sent", "taken"
    until(lambda: (before := counted(bridges, *kinds)) and not time.sleep(1) and before == counted(bridges, *kinds), 20)
    before = counted(bridges, *kinds)
    time.sleep(3)
    return before == counted(bridges, *kinds)


# which tasks are placed, and when nothing runs

def own_rounds(program):
    """Three bridges that learn of the machines at nearly the same time place each task once, and then are quiet."""
    for words in (), ("--each", "1"):
        told, name = list(tasks()), " ".join(words) or "whole"
        with running(program, NUMBERS, "--rounds", "0.1", "--report", "0.1", *words) as (_, bridges):
            yield f"{name}: tasks are told", told_to_writers(bridges, told) and agree(bridges, told)
            before = [len(bridge.heard) for bridge in bridges]
            yield f"{name}: machines are told", told_to_writers(bridges, machines())
            each = lambda: [placed(bridge) for bridge in bridges] == [TASKS // len(NUMBERS)] * len(NUMBERS)
            yield f"{name}: each places its own tasks", bool(until(each, pause=0.1))
            heard = [bytes(bridge.heard[begin:]) for bridge, begin in zip(bridges, before)]
            yield f"{name}: and answers nobody", heard == [b"ok\n" * MACHINES, b"", b""]
            yield f"{name}: each task has one proposal", come_to(bridges, TASKS, 1)
            yield f"{name}: that of its writer", placers(bridges) == writers_of(told)
            yield f"{name}: one graph, and nothing to stop", brokers.have_one_graph(bridges) and set(asked(bridges, "stops")) == {b"ok\n"}
            most = max(said["places"] for bridge in bridges for said in said_of(bridge))
            yield f"{name}: a round placed {most} tasks at most", not words or most <= MACHINES
            yield from quiet(name, bridges)
            yield f"{name}: ended", ended(bridges)


def quiet(name, bridges):
    """Nothing changes, so no rounds run: not if others send packets of nothing either."""
    yield f"{name}: all is quiet", is_quiet(bridges)
    (taken,), before = counted(bridges[:1], "taken"), counted(bridges, "rounds")
    yield f"{name}: a round that accepts nothing", bridges[1].ask({"at": 2, "round": True}) == b"ok\n"
    heard = until(lambda: counted(bridges[:1], "taken")[0] > taken, pause=0.1)
    yield f"{name}: is heard, and no round runs", heard and is_quiet(bridges) and counted(bridges, "rounds") == before


def stand_ins(program):
    """Tasks whose writer has no bridge that runs rounds wait, until another runs rounds of that writer too."""
    told, each = list(tasks()), {number: ["--rounds", "0.1", "--report", "0.1"] for number in (1, 2)}
    with running(program, NUMBERS, each=each) as (broker, (one, two, three)):
        bridges = [one, two, three]
        yield "told", told_to_writers(bridges, told) and agree(bridges, told) and told_to_writers(bridges, machines())
        yield "tasks of a bridge without rounds wait", come_to(bridges, 10, 6)
        yield "and if it is gone", ended([three]) and is_quiet([one, two]) and come_to([one, two], 10, 6)
        yield "one ends", ended([one])
        with Bridge(broker.port, 1, *QUICK, "--rounds", "0.1", "--writers", "3,1", program=program) as one:
            yield "and comes back for two writers", come_to([one, two], 15, 1)
            stands_for = {task: 1 if writer == 3 else writer for task, writer in writers_of(told).items()}
            yield "it places the tasks of both", placers([one, two]) == stands_for
            yield "an operator's round is answered", one.ask({"at": 1, "round": True}) == b"ok\n"
            yield "ended", ended([one, two])


# rounds at two places

def two_places(program):
    """Operators of two bridges ask for rounds of all tasks at the same time: tasks are started twice, and both bridges say so, once. With
    rounds of own tasks, and with rounds at one bridge, none is, and nothing is said."""
    told = [*tasks(TASKS, NUMBERS[:2]), *machines()]
    for name, words, share, those in (("all", (), "true", (1, 2)), ("all, a few each", (), '{"each":9}', (1, 2)), ("own", (), None, (1, 2)),
                                      ("at one", (), "true", (2,)), ("beside --rounds", ("--rounds", "3600"), "true", (1, 2))):
        lines = {number: b'{"at":%d,"round":%s}\n' % (number, (share or '{"writers":[%d]}' % number).encode()) for number in those}
        with running(program, NUMBERS[:2], *words) as (_, bridges):
            yield f"{name}: told", told_to_writers(bridges, told) and agree(bridges, told)
            started = sum(asked_at_once([bridge for bridge in bridges if bridge.number in those], lines))
            are_two = share is not None and len(those) == 2
            yield f"{name}: started {started} of {TASKS}", started > TASKS if are_two else started == TASKS
            if are_two:
                # of two places that of the lesser number counts, so a further task shows that the other one places too
                further = next(op for op in tasks(99, [2]) if op.get("spec", {}).get("id", "").endswith("62"))
                bridges[1].write(tell(2, further) + lines[2])
                heard = lambda: all(b"-0001-000000000062 " in answer for answer in asked(bridges, "winners"))
                yield f"{name}: a further one", bool(until(heard, pause=0.1))
            wanted = [[[2]], [[1]]] if are_two and not words else [[], []]
            said = lambda: [[it["coordinators"] for it in said_of(bridge, "rivals")] for bridge in bridges]
            until(lambda: said() == wanted)
            # some two refreshes, in which it would be said again
            time.sleep(2.5)
            yield f"{name}: it is said {said()}", said() == wanted
            yield f"{name}: ended", ended(bridges)


def asked_at_once(bridges, lines):
    """How many tasks the rounds placed that these bridges are asked for at the same time."""
    before = [len(bridge.heard) for bridge in bridges]
    for bridge in bridges:
        bridge.write(lines[bridge.number])
    until(lambda: all(bridge.heard.endswith(b"ok\n", begin) for bridge, begin in zip(bridges, before)))
    return [len(re.findall(rb"(?m)^place .* accepted$", bridge.heard[begin:])) for bridge, begin in zip(bridges, before)]


def rivals(_program):
    """What is a round of all tasks that placed something, whose places hold tasks, and when that is looked at: once in a while, behind a
    change, and until it was said."""
    lines = ((b'{"at":1,"round":true}', True), (b'{"round":{"each":2},"at":1}', True), (b'{"at":1,"round":{}}', True),
             (b"x", False), (b"[]", False), (b'{"at":1,"round":{"writers":[1],"each":2}}', False), (b'{"at":1,"relieve":true}', False), (b"[" * 9999, False))
    yield "rounds of all", [rivals_of.is_of_all(line) for line, _ in lines] == [fine for _, fine in lines]
    answers = (PLACED, MIXED[0]), (NOTHING, b"refusal 16\n", b"place t m 1 no-slot\nok\n", b"preempt x 0 accepted\nok\n",
                                   b"place t m 1 accepted\nrefusal 9\n")
    yield "rounds that placed", [[rivals_of.has_placed(answer) for answer in some] for some in answers] == [[True] * 2, [False] * 5]
    winners = b"t 0 3 m 1 held\nu 0 1 m 1 held\nv 0 2 m 1 gone\nw 2 12 n 1 held\nok\n"
    yield "whose places hold tasks", [rivals_of.others_in(winners, number) for number in (1, 12)] == [[3, 12], [1, 3]]
    before, said = rivals_of.time, Silent()
    clock = rivals_of.time = types.SimpleNamespace(monotonic=lambda: clock.now, now=100.0)
    try:
        watch, none = (rivals_of.Rivals(given(*words), said) for words in ((), ("--rounds", "5")))
        due = [watch.is_due()]
        for each in watch, none:
            each.answered([lines[5][0], b"x"], [PLACED, PLACED])
            due.append(each.is_due())
            each.answered([b"x", lines[0][0]], [NOTHING, PLACED])
            due.append(each.is_due())
        yield "behind a round of all: %s" % due, due == [False, False, True, False, False]
        watch.look(b"t 0 2 m 1 held\nok\n")
        watch.note_change()
        due = [watch.is_due()]
        clock.now += 60
        yield "once in a refresh", not due[0] and watch.is_due() and said.said == []
        watch.look(b"ok\n")
        clock.now += 60
        yield "behind a change", not watch.is_due()
        watch.note_change()
        watch.look(winners)
        clock.now += 600
        watch.note_change()
        watch.answered([lines[0][0]], [PLACED])
        yield "and it is said once: %s" % said.said, not watch.is_due() and said.said == [("rivals", {"coordinators": [1, 3, 12]})]
    finally:
        rivals_of.time = before


# when rounds run

def given(*words):
    return settings.read_settings(["--cluster", "test", "--number", "2", *words])


@contextlib.contextmanager
def at_time(now):
    """The time, as the module of rounds sees it."""
    before, rounds_of.time = rounds_of.time, types.SimpleNamespace(monotonic=lambda: now)
    try:
        yield
    finally:
        rounds_of.time = before


class Silent(telling.Telling):
    """Keeps the events that are said."""

    def __init__(self):
        self.said = []

    def say(self, event, text, **more):
        self.said.append((event, more))


PLACED, NOTHING = b"place t m 1 accepted\nok\n", b"ok\n"
MIXED = (b"place t m 1 no-slot\nplace u m 1 accepted\nplace v n 1 accepted\npreempt x 0 accepted\npreempt y 0 gone\nok\n",
         {"accepted": 3, "refused": 2, "places": 2, "preempts": 1})


def series(program):
    """A series goes on while something is accepted, to 16 rounds, and the next one begins once something changed and the time is over."""
    for words, line in (((), b'{"at":2,"round":{"writers":[2]}}'), (("--each", "7"), b'{"at":2,"round":{"writers":[2],"each":7}}'),
                        (("--writers", "3,1"), b'{"at":2,"round":{"writers":[3,1]}}')):
        yield "the line for %s" % " ".join(words), rounds_of.line_of(given("--rounds", "5", *words)) == line
    with at_time(995):
        never, own, known = (rounds_of.Rounds(given(*words), telling.Counts(), Silent()) for words in ((), *[("--rounds", "5")] * 2))
        for each in never, own, known:
            each.begin(each is known)
        yield "who begins with what is known waits", known.next_time() == 1000
    with at_time(1000):
        never.note_change()
        yield "without a change, or --rounds, none is due", [each.next_time() for each in (never, own)] == [rounds_of.NEVER] * 2
        own.note_change()
        yield "with a change one is", own.next_time() <= 1000
        own.ran(NOTHING)
        yield "one that accepts nothing ends the series", own.next_time() == rounds_of.NEVER
        own.note_change()
        yield "and the next begins later", own.next_time() == 1005
    with at_time(1005):
        count = 0
        while own.next_time() <= 1005 and count < 99:
            own.ran(PLACED)
            count += 1
        yield "a series has %d rounds" % count, count == 16
        yield "what it left is a change", own.next_time() == 1010
    with at_time(1011):
        own.ran(b"refusal 1\n")
        yield "one that is refused ends the series", own.next_time() == rounds_of.NEVER
        own.note_change()
        yield "and is tried again after a change", own.next_time() == 1016
    yield from outcomes()
    yield from news(program)
    yield from long_series(program)


def outcomes():
    """What a round accepted and refused is counted and said; nothing is said of one without entries."""
    counts, said = telling.Counts(), Silent()
    own = rounds_of.Rounds(given("--rounds", "5"), counts, said)
    for answer in (NOTHING, MIXED[0], b"refusal 1\n"):
        own.ran(answer)
    yield "what is said of rounds: %s" % said.said, said.said == [("round", MIXED[1]), ("round_refused", {"answer": "refusal 1"})]
    yield "what is counted", (counts.rounds, counts.places, counts.preempts) == (3, 2, 1)
    filled = bytes.fromhex("46444732020000000000000007") + bytes(31) + b"\1"
    yield "packets of nothing are known", [packets.is_empty(packet) for packet in (filled[:-1] + b"\0", filled)] == [True, False]
    for text in ("64", "3,1", "0", "65", "1,1", "1,01", "", ",", "1,", "1,,2", "x", "1 2", "+1"):
        try:
            yield "the writers %r" % text, settings.numbers(text) in ([64], [3, 1])
        except argparse.ArgumentTypeError:
            yield "no writers %r" % text, text not in ("64", "3,1")


def news(program):
    """A round that accepts nothing is no news, unless other news waits; one that accepts something is."""
    one, line = coordinator.Coordinator(program, 2, 1000, follower.Waits(30, 30, lambda: float("inf"))), b'{"at":2,"round":{"writers":[1]}}'
    told = [tell(2, op)[:-1] for op in (*tasks(3, [1]), *machines())]
    with contextlib.closing(one):
        yield "a round of nothing", (one.run_round(line), one.own_news(), one.deltas) == ((NOTHING, False), 0, 1)
        one.tell(told)
        answer, has_added = one.run_round(line)
        yield "a round that places", rounds_of.outcome_of(answer) == rounds_of.Outcome(3, 0, 0) and has_added
        yield "is news", one.own_news() == len(told) + 1
        yield "with it one of nothing is", (one.run_round(line), one.own_news()) == ((NOTHING, False), len(told) + 2)
        one.cut_news(with_state=False)
        yield "and alone it is not", (one.run_round(line), one.own_news()) == ((NOTHING, False), 0)


def long_series(program):
    """Twenty rounds are needed: 16 come in a series, and the others in the next."""
    told = list(tasks(20, [1]))
    with running(program, [1], "--rounds", "2", "--each", "1") as (_, (bridge,)):
        yield "told", told_to([bridge], told) and told_to([bridge], machines(1))
        yield "all are placed", bool(until(lambda: placed(bridge) == 20, pause=0.1))
        said = said_of(bridge)
        yield "in %d rounds" % len(said), [event["places"] for event in said] == [1] * 20
        pause = said[16]["time"] - said[15]["time"] if len(said) > 16 else 0
        yield "between the series were %.1f s" % pause, pause > 1.5
        yield "ended", ended([bridge])


# other lines, refusals, and the end

# accepts something in each round, and writes down the lines that ask for rounds
PLACING = """#!/usr/bin/env python3
import sys
cut = told = 0
for line in sys.stdin.buffer:
    text = b""
    told += any(kind in line for kind in (b'"tell"', b'"take"', b'"round"'))
    if b'"round"' in line:
        text = b"place t m 1 accepted\\n"
        with open({log!r}, "ab") as log:
            log.write(line)
    elif b'"end"' in line:
        text = b"end 0 %d\\n" % told
    elif b'"cut"' in line:
        cut += 1
        text = b"4644473201%016x\\n" % cut
    sys.stdout.buffer.write(text + b"ok\\n")
    sys.stdout.buffer.flush()
"""
ROUND = b'{"at":1,"round":true}\n'
# refuses each round while a file is there
REFUSING = """#!/usr/bin/env python3
import os, subprocess, sys
run = subprocess.Popen([{program!r}, *sys.argv[1:]], stdin=subprocess.PIPE, stdout=subprocess.PIPE)
for line in sys.stdin.buffer:
    answer = [b"refusal 1\\n"] if b'"round"' in line and os.path.exists({flag!r}) else []
    if not answer:
        run.stdin.write(line)
        run.stdin.flush()
    while not answer or not answer[-1].startswith((b"ok", b"refusal")):
        answer.append(run.stdout.readline())
    sys.stdout.buffer.write(b"".join(answer))
    sys.stdout.buffer.flush()
"""


def between_lines(program):
    """Rounds without end let the lines through that wait; one that is refused is tried again once something changes; and what waits to be
    confirmed does not wait for rounds that change nothing."""
    with tempfile.TemporaryDirectory() as folder:
        log = pathlib.Path(folder) / "log"
        placing = made(folder, "placing", PLACING.format(log=str(log)))
        with running(placing, [1], "--rounds", "0.001") as (_, (bridge,)):
            bridge.write(tell(1, next(tasks())))
            yield "rounds without end", bool(until(lambda: log.exists() and log.read_bytes().count(b"\n") > 20))
            bridge.write(ROUND * 9)
            yield "lines that wait are answered", bridge.wait_for(1 + 2 * 9)
            ran = "".join("L" if line + b"\n" == ROUND else "." for line in log.read_bytes().splitlines())
            ran = ran[ran.index("L"):ran.rindex("L") + 1]
            yield "with a round between them at most: %s" % ran, "." in ran and not re.search(r"\.\.", ran)
        yield from in_the_end(placing, log)
        flag, told = pathlib.Path(folder) / "flag", list(tasks(3, [1]))
        refusing = made(folder, "refusing", REFUSING.format(program=str(program), flag=str(flag)))
        flag.touch()
        with running(refusing, [1], "--rounds", "0.1") as (_, (bridge,)):
            yield "told", told_to([bridge], [*told, *machines(1)])
            yield "that a round is refused is said", bool(until(lambda: bridge.has_said("round_refused"))) and not time.sleep(1)
            before = len(said_of(bridge, "round_refused"))
            time.sleep(1)
            flag.unlink()
            time.sleep(1)
            yield "no other runs", len(said_of(bridge, "round_refused")) == before and placed(bridge) == 0
            yield "until something changes", told_to([bridge], machines(2)) and come_to([bridge], 3, 1)
    yield from confirmed(program)


def in_the_end(placing, log):
    """A bridge that is to end, and waits for a broker that is gone, runs no rounds meanwhile but one that has begun."""
    count = lambda: log.read_bytes().count(b"\n")
    with running(placing, [1], "--rounds", "0.001", "--end-wait", "6") as (broker, (bridge,)):
        bridge.write(tell(1, next(tasks())))
        begun = count()
        until(lambda: count() > begun + 20)
        broker.kill()
        bridge.run.send_signal(signal.SIGTERM)
        before, status = count(), bridge.run.wait(timeout=60)
        yield "%d rounds ran after a signal, with status %d" % (count() - before, status), (count() - before <= 2, status) == (True, 17)


def confirmed(program):
    """An answer that waits to be confirmed does not wait for a round that accepted nothing, behind which no state is sent."""
    each = {1: ["--rounds", "0.1", "--report", "0.1", "--confirmed"]}
    with running(program, [1, 2], "--refresh", "3600", each=each) as (_, (one, two)):
        yield "told, and confirmed", told_to([one], [*tasks(3, [1]), *machines(1)])
        yield "placed", come_to([one], 3, 1) and is_quiet([one])
        before = counted([one], "rounds")
        yield "what another one tells", told_to([two], tasks(0))
        yield "is followed by a round", bool(until(lambda: counted([one], "rounds") > before, pause=0.1))
        yield "and questions are answered", one.ask({"at": 1, "ask": "winners"}).count(b" held\n") == 3


def rounds_kept(program):
    """What rounds accepted is sent in the end, and is in the store before others hear of it."""
    alone = ["--rounds", "0.1", "--cut-interval", "3600", "--state-interval", "3600", "--refresh", "3600"]
    told = list(tasks(10, [1, 3]))
    with running(program, NUMBERS, each={1: alone, 3: alone}) as (_, (one, two, three)):
        for bridge in one, three:
            own = [op for op in told if op.get("spec", {"writer": bridge.number})["writer"] == bridge.number]
            yield f"{bridge.number}: told", told_to([bridge], [*own, *machines()])
            yield f"{bridge.number}: places its tasks", bool(until(lambda: placed(bridge) == 5, pause=0.1))
        yield "nobody else knows", come_to([two], 0, 0)
        three.run.send_signal(signal.SIGTERM)
        yield "both end well", ended([one]) and three.run.wait(timeout=60) == 0
        yield "and sent what they had", come_to([two], 10, 1) and placers([two]) == writers_of(told)
    yield from killed(program)


def killed(program):
    """A bridge is killed as soon as another one hears of its rounds; the broker forgets all. It knows by its store what was heard."""
    told = list(tasks(40, [1]))
    with stores_left.folder() as folder, running(program, [2]) as (broker, (other,)):
        store = ["--store", f"{folder}/store"]
        with Bridge(broker.port, 1, *QUICK, *store, "--rounds", "0.3", "--each", "1", program=program) as bridge:
            yield "told", told_to([bridge], [*told, *machines()])
            yield "heard of", bool(until(lambda: b" held\n" in asked([other], "winners")[0], pause=0.01))
            bridge.kill()
        (heard,) = asked([other], "winners")
        other.kill()
        for words in [], ["--rounds", "0.1"]:
            broker.kill()
            broker.forget()
            broker.start()
            with Bridge(broker.port, 1, *QUICK, *store, *words, program=program) as bridge:
                if words:
                    yield "what the store has is a change: all are placed", come_to([bridge], 40, 1)
                (known,) = asked([bridge], "winners")
                lost = set(heard.splitlines()) - set(known.splitlines())
                yield "%d places were heard, and %d of them are lost" % (heard.count(b" held\n"), len(lost)), not lost


GROUPS = {"own_rounds": own_rounds, "stand_ins": stand_ins, "two_places": two_places, "rivals": rivals,
          "series": series, "between_lines": between_lines, "rounds_kept": rounds_kept}
