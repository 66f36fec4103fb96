"""Tests of whose turn it is in bin/bridge, by name, for tests/bridged.py: lines do not wait for packets nor packets for lines, and senders
whose packets are broken are heard more and more rarely."""
import contextlib
import pathlib
import tempfile
import threading
import time
import types

import hostile
import mqtt
import outlived
from bridging import digests as digests_of, follower, inbox as inbox_of, mailbox as mailbox_of, packets, telling, turns as turns_of
from brokers import QUICK, Bridge, Broker, told as tell, until
from clustered import agree, cluster, ended, running
from operated import made

# a program that notes each packet that it is handed, and takes its time for it, and for the question that it holds on
SLOW = """#!/usr/bin/env python3
import subprocess, sys, time
pipe = subprocess.PIPE
run = subprocess.Popen([{program!r}, *sys.argv[1:]], stdin=pipe, stdout=pipe)
with open({log!r}, "ab", 0) as log:
    for line in sys.stdin.buffer:
        if b'"take"' in line:
            time.sleep({delay})
            log.write(b"take\\n")
        elif b'"stops"' in line:
            time.sleep(3)
        run.stdin.write(line)
        run.stdin.flush()
        while True:
            answer = run.stdout.readline()
            sys.stdout.buffer.write(answer)
            if answer.startswith((b"ok", b"refusal")) or not answer:
                break
        sys.stdout.buffer.flush()
"""


@contextlib.contextmanager
def slowed(program, delay, *words):
    """A broker, a bridge whose program takes so many seconds for each packet, somebody else, and how many packets it was handed."""
    with contextlib.ExitStack() as stack:
        folder = stack.enter_context(tempfile.TemporaryDirectory())
        broker, log = stack.enter_context(Broker(folder)), pathlib.Path(folder) / "log"
        slow = made(folder, "slow", SLOW.format(program=str(program), log=str(log), delay=delay))
        bridge = stack.enter_context(Bridge(broker.port, 1, *QUICK, "--connect-wait", "60", *words, program=slow))
        client = stack.enter_context(mqtt.Client(broker.port))
        bridge.ask({"ask": "version"})
        yield bridge, client, lambda: log.read_bytes().count(b"\n") if log.exists() else 0


def many(first, count, number=1):
    """Packets of coordinator 9, each of a task of its own."""
    for place in range(first, first + count):
        spec = {**hostile.OPERATIONS["spec"], "id": "00000000-0000-0000-0009-%012x" % place}
        yield {"spec": spec}, outlived.packet_of([{"spec": spec}], number=number + 2 * place)


# turns

PACKETS, LINES = 40, 150


def turns(program):
    """Lines that come while many packets wait are answered before most of these are taken in, and packets are while lines are told."""
    told = [{"spec": {**hostile.OPERATIONS["spec"], "id": "00000000-0000-0000-0001-%012x" % place}} for place in range(LINES)]
    others = list(many(0, PACKETS))
    with slowed(program, 0.2) as (bridge, client, taken):
        before = bridge.count()
        bridge.write(b'{"at":1,"ask":"stops"}\n')
        time.sleep(0.5)
        for _, packet in others:
            client.publish("fetohamu/test/deltas/9", packet)
        bridge.write(b"".join(tell(1, op) for op in told))
        yield "all lines are answered", bridge.wait_for(before + 1 + LINES)
        count = taken()
        yield "%d lines waited for %d of %d packets" % (LINES, count, PACKETS), count <= PACKETS // 4
        # now there are always lines that wait
        bridge.write(b"".join(tell(1, op) for op in told) * 4)
        bridge.wait_for(before + 1 + 5 * LINES)
        yield "packets are taken in between lines: %d" % (taken() - count), taken() > count
        yield "and none is lost", agree([bridge], told + [op for op, _ in others])
        yield "ended", ended([bridge])


def paces(_program):
    """How many packets are handed over in one call: twice as many while that is quick, and as many as a turn has time for."""
    pace = turns_of.Pace()
    counts = []
    for seconds in (0.1, 0.1, 0.1, 0.1, 0.1, 2.0, 0.1, 0.1, 60.0, 600.0):
        counts.append(pace.count)
        pace.took(pace.count, seconds)
    yield "as many as are quick: %s" % counts, counts == [1, 2, 4, 8, 16, 32, 8, 16, 32, 1]
    for _ in range(20):
        pace.took(pace.count, 0.0)
    yield "and a bound", pace.count == turns_of.MOST_PACKETS
    pace.took(1, 0.1)
    yield "a few say nothing of more", pace.count == turns_of.MOST_PACKETS
    turn = turns_of.Turn(3600, 10)
    over = [turn.took(5) or turn.is_over() for _ in range(3)]
    yield "a turn of bytes", over == [False, True, True]
    yield "a turn of time", turns_of.Turn(0, 10).is_over()


# senders whose packets are broken

def patience(_program):
    """Each broken packet doubles the time for which its sender is not heard, to a bound, and each whole one halves it. What is longer than
    before is said, and the end."""
    waits, source = turns_of.Patience(), (9, False)
    found = [waits.broken(source) for _ in range(9)]
    wanted = [(float(seconds), True) for seconds in (1, 2, 4, 8, 16, 32, 64)] + [(64.0, False)] * 2
    yield "longer and longer: %s" % found, found == wanted
    yield "its states are heard", waits.broken((9, True)) == (1.0, True) and waits.broken((8, False)) == (1.0, True)
    yield "half as long, twice as long", not waits.whole(source) and waits.broken(source) == (64.0, False)
    found = [waits.whole(source) for _ in range(8)]
    yield "heard as others: %s" % found, found == [False] * 6 + [True, False]
    yield "and from the beginning", waits.broken(source) == (1.0, True)
    clock = types.SimpleNamespace(monotonic=lambda: clock.now, now=100.0)
    before, mailbox_of.time = mailbox_of.time, clock
    try:
        yield from shut_out(clock)
    finally:
        mailbox_of.time = before


def shut_out(clock):
    """What comes of a source that is not heard is counted and not kept, nor what waits of it; all else is."""
    box = mailbox_of.Mailbox(threading.Condition(), 100, 100)
    put = lambda sender, is_state: box.put(mailbox_of.Parcel(sender, b"x%d" % sender, is_state, False))
    put(8, False), put(9, False), put(9, True), put(9, False)
    box.put_digest(9, digests_of.Digest(bytes(16), 1), False)
    box.shut_out((9, False), 2.0)
    put(9, False), put(8, False)
    clock.now += 2.5
    put(9, False)
    sources = [parcel.source for parcel in box.take(100, 100) if parcel.digest is None]
    yield "what is heard: %s" % sources, sources == [(8, False), (9, True), (8, False), (9, False)]
    yield "what is not", box.collect().unheard == {(9, False): 3} and not box.has_packets()


class Said:
    """Keeps what is said, by events."""

    def __init__(self):
        self.events = []

    def say(self, event, _text, **more):
        self.events.append((event, more))


def judging(_program):
    """A packet that is broken has its sender heard less often, and its kept state not fetched again. One that is refused for lack of memory
    has neither, and is said each time."""
    said, counts = Said(), telling.Counts()
    box = mailbox_of.Mailbox(threading.Condition(), 100, 100)
    outbox = types.SimpleNamespace(is_own=lambda _: False, says=lambda _: False, came_back=lambda *_: None)
    inbox = inbox_of.Inbox(1, box, outbox, counts, said)
    parcels = [mailbox_of.Parcel(sender, bytes([sender]) * (20 + sender), sender < 6, True) for sender in (4, 5, 6, 7, 8)]
    answers = [follower.NO_MEMORY, b"refusal 6\n", follower.NO_MEMORY, b"refusal 6\n", follower.OK]
    yield "all are wanted", inbox.wanted(parcels) == parcels
    inbox.judged(parcels, answers)
    yield "what is counted", (counts.refused, counts.taken) == (4, 1)
    yield "which states are not fetched again", inbox.sources.settled() == {5}
    wanted = [{"sender": 4, "bytes": 24}, {"sender": 6, "bytes": 26}, {"sender": 5, "bytes": 25, "seconds": 1.0},
              {"sender": 7, "bytes": 27, "seconds": 1.0}]
    yield "what is said: %s" % said.events, said.events == [("refused", more) for more in wanted]
    for parcel in parcels:
        box.put(parcel)
    # another connection, on which all that is kept would come again
    inbox.sources.forget()
    yield "whose states are listened to", inbox.listened() == set(range(1, 65)) - {5}
    box.put(mailbox_of.Parcel(3, bytes(101), True, True))
    inbox.missed(box.collect())
    yield "one that is too large is not fetched again", inbox.sources.settled() == {3} and inbox.listened() == set(range(1, 65)) - {5}
    yield "and not soon on another connection", not inbox.sources.forget() and inbox.listened() == set(range(1, 65)) - {3, 5}
    sources = [parcel.sender for parcel in box.take(9, 999)]
    yield "who is heard: %s" % sources, sources == [4, 6, 8]


def flood(program):
    """A sender of broken packets is handed over a few times, and said a few times, while others are heard and lines are answered. Once its
    packets are whole it is heard again."""
    told, whole = list(cluster(9)), list(many(0, 200))
    with slowed(program, 0.2, "--report", "0.2") as (bridge, client, taken):
        broken = lambda count: b"FDG2 is no packet %d" % count
        sent = 0
        end = time.monotonic() + 6
        while time.monotonic() < end:
            for sent in range(sent + 1, sent + 21):
                client.publish("fetohamu/test/deltas/9", broken(sent))
            time.sleep(0.2)
        # at most after 0, 1, 3 and 7 s, twice as often if the loop was slow to see that
        yield "%d of %d broken packets were handed over" % (taken(), sent), taken() <= 12
        said = [it.get("seconds") for it in bridge.events() if it["event"] == "refused"]
        yield "it is said for how long none is heard: %s" % said, said and said == [1.0, 2.0, 4.0, 8.0][:len(said)]
        yield "the others are counted", bool(until(lambda: bridge.counts().get("unheard", 0) >= sent - 30))
        client.publish("fetohamu/test/deltas/8", outlived.packet_of(told, sender=8))
        yield "another one is heard", agree([bridge], told)
        known = list(told)
        for op, packet in whole:
            client.publish("fetohamu/test/deltas/9", packet)
            known.append(op)
            time.sleep(0.2)
            if bridge.has_said("heard"):
                break
        yield "it is heard again, and that is said", bridge.has_said("heard")
        client.publish("fetohamu/test/state/9", outlived.packet_of(known, number=1000), retain=True)
        yield "what was not heard comes with a state", agree([bridge], known)
        yield "ended", ended([bridge])


def own_topic(program):
    """What is broken on a bridge's own topic does not keep its states from coming back: lines are confirmed as before."""
    told = list(cluster(40))
    with running(program, [1], "--confirmed", "--report", "0.2") as (broker, (bridge,)), mqtt.Client(broker.port) as client:
        for count, op in enumerate(told):
            before = bridge.count()
            client.publish("fetohamu/test/state/1", b"FDG2 is no state %d" % count)
            client.publish("fetohamu/test/deltas/1", b"FDG2 is no packet %d" % count)
            bridge.write(tell(1, op))
            if not bridge.wait_for(before + 1, 20):
                yield "line %d is confirmed" % count, False
        counts = until(lambda: (it := bridge.counts()).get("unheard", 0) > len(told) and it)
        yield "few are handed over: %s" % counts, counts and 2 <= counts["refused"] <= 20
        yield "ended", ended([bridge])


SIZE = 20_000


def kept_rubbish(program):
    """What the broker keeps and what is no packet, digest or claim is fetched once on a connection, and not again at each refresh. What
    comes in its place is heard."""
    told, more, most = (list(cluster(count)) for count in (9, 15, 20))
    with contextlib.ExitStack() as stack:
        broker = stack.enter_context(Broker(stack.enter_context(tempfile.TemporaryDirectory())))
        proxy = stack.enter_context(mqtt.Proxy(broker.port))
        client = stack.enter_context(mqtt.Client(broker.port))
        for kind in "state", "deltas", "digest", "hello":
            client.publish(f"fetohamu/test/{kind}/9", b"x" * SIZE, retain=True)
        client.publish("fetohamu/test/state/8", b"y" * SIZE, retain=True)
        client.publish("fetohamu/test/digest/8", digests_of.Digest(packets.digest_of(b"z"), 7).text(), retain=True)
        bridge = stack.enter_context(Bridge(proxy.port, 1, *QUICK, "--report", "0.2", program=program))
        bridge.write(b"".join(tell(1, op) for op in told))
        yield "told", bridge.wait_for(len(told))
        yield "all of it came", bool(until(lambda: proxy.received.get("state", 0) >= 2 * SIZE and bridge.counts().get("refused", 0) >= 3))
        time.sleep(2)
        proxy.received.clear()
        # some four refreshes
        time.sleep(4)
        received = dict(proxy.received)
        yield "refreshes receive %s" % received, all(0 < received.get(kind, 0) < SIZE for kind in ("state", "digest", "hello"))
        yield "nor packets", received.get("deltas", 0) < SIZE
        for number, known in (9, more), (8, most):
            client.publish(f"fetohamu/test/state/{number}", outlived.packet_of(known, number=8), retain=True)
            yield "another state in its place", agree([bridge], known, 20)
        yield from spoiled_again(bridge, client)


def spoiled_again(bridge, client):
    """A whole state that comes while states of its sender are not heard is fetched once they are."""
    known, refused = list(cluster(30)), bridge.counts()["refused"]
    client.publish("fetohamu/test/state/9", b"FDG2 is none", retain=True)
    # what is broken may have said something, so the state is asked for
    client.publish("fetohamu/test/deltas/9", b"FDG2 is none either")
    yield "a broken one", bool(until(lambda: bridge.counts()["refused"] >= refused + 2))
    client.publish("fetohamu/test/state/9", outlived.packet_of(known, number=10), retain=True)
    yield "and at once a whole one", agree([bridge], known, 30)
    yield "ended", ended([bridge])


GROUPS = {"turns": turns, "paces": paces, "patience": patience, "judging": judging, "flood": flood, "own_topic": own_topic,
          "kept_rubbish": kept_rubbish}
