"""Tests of bin/bridge whatever happens to packets, bridges and the broker, by name, for tests/bridged.py: all
coordinators come to one graph, that of the operations, and nothing is lost that was answered `ok` with a store or
confirmed."""
import contextlib
import itertools
import os
import pathlib
import random
import shutil
import signal
import subprocess
import tempfile
import time

import brokers
import drawn
import hostile
import mqtt
import reference
import stores_left
from brokers import QUICK, Bridge, Broker, told as tell, until
from clustered import agree, cluster, ended, is_refused, refused, running, told_to

KILLS = 30


# clusters

def exchange(program):
    """Operations that are told at three coordinators are known at all, in each version of MQTT and with preferences
    of all kinds."""
    for version, seed in itertools.product(("3", "5"), range(2)):
        told = list(drawn.Lives(random.Random("bridged %d" % seed)).operations(90))
        with running(program, [1, 2, 64], "--mqtt", version) as (_, bridges):
            yield "version %s, %d: told" % (version, seed), told_to(bridges, told)
            yield "version %s, %d: one graph" % (version, seed), agree(bridges, told)
            yield "version %s, %d: ended" % (version, seed), ended(bridges)
            yield "version %s, %d: nothing went wrong" % (version, seed), not any(
                bridge.counts()[kind] for bridge in bridges
                for kind in ("refused", "dropped", "foreign", "lost_connections", "left_to_state"))


def quiet(program):
    """What was taken in does not go round: once all is known, packets come to an end. And coordinators that are renewed agree."""
    told = list(cluster(200))
    with running(program, [1, 2, 3], "--renew-after", "40", "--report", "0.2") as (_, bridges):
        yield "told", all([told_to(bridges, told[first:first + 50]) for first in range(0, len(told), 50) if not time.sleep(0.3)])
        yield "one graph, with renewals", agree(bridges, told)
        counted = lambda: [bridge.counts()[kind] for bridge in bridges for kind in ("sent", "states_sent", "taken")]
        time.sleep(3)
        before = counted()
        time.sleep(3)
        yield "packets come to an end: %s, %s" % (before, counted()), before == counted()
        yield "ended", ended(bridges) and all(bridge.counts()["renewals"] for bridge in bridges)


def rounds(program):
    """Rounds at several coordinators: all come to the same graph and the same winners, and a round that was answered
    outlasts a kill."""
    told = list(cluster(30))
    with stores_left.folder() as folder, running(program, [2, 3], "--refresh", "3600") as (broker, bridges):
        store = ["--store", f"{folder}/store"]
        with Bridge(broker.port, 1, *QUICK, *store, "--state-interval", "3600", program=program) as bridge:
            yield "told", told_to([bridge], told)
            placed = bridge.ask({"at": 1, "round": True})
            won = bridge.ask({"at": 1, "ask": "winners"})
            yield "a round places", placed.count(b" accepted\n") > 9 and won.count(b" held\n") == placed.count(b" accepted\n")
            bridge.kill()
        with Bridge(broker.port, 1, *QUICK, *store, program=program) as bridge:
            yield "the same won after a kill", bridge.ask({"at": 1, "ask": "winners"}) == won
            yield "a round elsewhere", bridges[0].ask({"at": 2, "round": True}).endswith(b"ok\n")
            every = [bridge, *bridges]
            yield "one graph", brokers.have_one_graph(every) is not None
            winners = lambda: len({each.ask({"at": each.number, "ask": "winners"}) for each in every}) == 1
            yield "the same winners", bool(until(winners))
    yield from rounds_alone(program)


def rounds_alone(program):
    """What a round placed is in the store, with the machines that others told of: both are known if nobody else says them again."""
    told = list(cluster(20))
    with stores_left.folder() as folder, running(program, [2]) as (broker, (other,)):
        store = ["--store", f"{folder}/store"]
        with Bridge(broker.port, 1, *QUICK, *store, program=program) as bridge:
            yield "told of tasks and of machines", told_to([bridge], told[:1] + told[11:]) and told_to([other], told[1:11])
            yield "one graph of both", agree([bridge, other], told)
            placed = bridge.ask({"at": 1, "round": True}).count(b" accepted\n")
            bridge.kill()
        other.kill()
        broker.kill()
        broker.forget()
        broker.start()
        with Bridge(broker.port, 1, *QUICK, *store, program=program) as bridge:
            yield "the places are known, on machines that are", placed > 9 and bridge.ask(
                {"at": 1, "ask": "winners"}).count(b" held\n") == placed


def sent_later(program):
    """What a store has that was not sent comes to who was there, though that one does not ask for states again."""
    told = list(cluster(30))
    with stores_left.folder() as folder, running(program, [2], "--refresh", "3600") as (broker, (other,)):
        words = [*QUICK, "--store", f"{folder}/store"]
        with Bridge(broker.port, 1, *words, program=program) as bridge:
            yield "told and sent", told_to([bridge], told[:20]) and agree([bridge, other], told[:20])
            time.sleep(1)
        with Bridge(broker.port, 1, *words, "--cut-interval", "3600", program=program) as bridge:
            yield "told and not sent", told_to([bridge], told[20:])
        with Bridge(broker.port, 1, *words, program=program) as bridge:
            yield "one graph of all", agree([bridge, other], told)


def late(program):
    """Who comes late has all that was known, also from those that are gone."""
    told = list(cluster(60))
    with running(program, [1, 2, 3]) as (broker, bridges):
        yield "told", told_to(bridges, told)
        yield "those of the beginning end", agree(bridges, told) and ended(bridges)
        with Bridge(broker.port, 4, *QUICK, program=program) as later:
            yield "one that comes when all are gone", agree([later], told)
            # until it sent what it took in, and has nothing left to send
            time.sleep(3)
            broker.kill()
            broker.forget()
            broker.start()
            with Bridge(broker.port, 5, *QUICK, program=program) as last:
                yield "one that comes when the broker forgot all", agree([last], told)


# faults of messages, kills, and brokers that forget

def faults(program):
    """Messages are dropped, repeated and swapped between bridges and broker: afterwards all know all."""
    for seed in range(3):
        told = list(cluster(150, "faults"))
        with contextlib.ExitStack() as stack:
            broker = stack.enter_context(Broker(stack.enter_context(tempfile.TemporaryDirectory())))
            proxy = stack.enter_context(mqtt.Proxy(broker.port, seed, dropped=15, repeated=15, held=15))
            bridges = [stack.enter_context(Bridge(proxy.port, number, *QUICK, program=program)) for number in (1, 2, 3)]
            fine = [told_to(bridges, told[first:first + 30]) for first in range(0, len(told), 30) if not time.sleep(0.2)]
            yield "faults %d: told" % seed, all(fine)
            if seed:
                proxy.heal()
            yield "faults %d: one graph, %s" % (seed, "healed" if seed else "with faults to the end"), agree(bridges, told)
            yield "faults %d: each kind came: %s" % (seed, proxy.made), all(proxy.made.values())


def cut_off(program):
    """Bridges lose the broker, go on telling, and find it again: nothing is lost; of two with one number one ends."""
    told = list(cluster(90))
    with contextlib.ExitStack() as stack:
        broker = stack.enter_context(Broker(stack.enter_context(tempfile.TemporaryDirectory())))
        proxy = stack.enter_context(mqtt.Proxy(broker.port))
        # with a long time until states are asked for again, so that who comes back is heard for another reason
        away, there = (stack.enter_context(Bridge(port, number, *QUICK, "--refresh", "3600", program=program))
                       for port, number in ((proxy.port, 1), (broker.port, 2)))
        yield "told", told_to([away, there], told[:30]) and agree([away, there], told[:30])
        proxy.cut()
        yield "told while one is away", told_to([away, there], told[30:60])
        other = stack.enter_context(Bridge(broker.port, 1, *QUICK, program=program))
        yield "told to another of its number", told_to([other], told[60:])
        proxy.mend()
        yield "one of the two ends", bool(until(lambda: away.run.poll() is not None or other.run.poll() is not None))
        left, gone = (away, other) if away.run.poll() is None else (other, away)
        yield "its status says why", (gone.run.wait(), [said["event"] for said in gone.events()][-2:]) == (14, ["failed", "ended"])
        yield "nothing is lost", agree([left, there], told)
        yield "the others go on", ended([left, there])


def same_number(program):
    """A number that is taken: who has it keeps it."""
    with running(program, [1, 2], "--refresh", "60") as (broker, bridges):
        yield "told", told_to(bridges, cluster(9))
        found = refused(broker.port, "--number", "1", program=program)
        yield "a number that is taken", is_refused(found, 14, b"is taken by another bridge")
        yield "and of another cluster", refused(broker.port, "--number", "1", program=program, cluster="other")[0] == 0
        yield "who has it goes on", agree(bridges, list(cluster(9))) and ended(bridges)
        both = [Bridge(broker.port, 7, *QUICK, "--claim-wait", "2", program=program) for _ in range(2)]
        with both[0], both[1]:
            yield "of two at the same time one ends", bool(until(lambda: sum(bridge.run.poll() == 14 for bridge in both) == 1))
            yield "and the other goes on", told_to([bridge for bridge in both if bridge.run.poll() is None], cluster(3))


def kills(program, count=KILLS):
    """A bridge with a store is killed at drawn moments, and its follower, and each of them alone: nothing that was answered ok is lost,
    though it is never told again."""
    # enough lines for each time, since a bridge that has nothing to answer would be waited for in vain
    told, chance, place, rate = list(cluster(40 * count)), random.Random("kills"), 0, []
    with stores_left.folder() as folder, running(program, [2]) as (broker, (other,)):
        # the follower of one that was killed alone may have the store for a while
        words = [*QUICK, "--claim-wait", "0.1", "--connect-wait", str(brokers.PATIENCE), "--store", f"{folder}/store"]
        for turn in range(count):
            with Bridge(broker.port, 1, *words, program=program) as bridge:
                bridge.write(b"".join(tell(1, op) for op in told[place:place + 40]))
                # half of the kills come behind an answer, however slow the machine is, and the others at any moment
                until(lambda: bridge.count() > 0, brokers.PATIENCE if chance.random() < 0.5 else chance.uniform(0, 1.5), pause=0.005)
                time.sleep(chance.uniform(0, 0.1))
                status = killed(bridge, turn % 3)
                yield "kill %d: ended with %s" % (turn, status), status in ((-signal.SIGKILL, 15) if turn % 3 == 2 else (-signal.SIGKILL,))
                place, rate = place + bridge.count(), rate + [bridge.count()]
                if b"refusal" in bridge.heard:
                    yield "a line is refused", False
        yield "killed %d times: %s lines were answered" % (count, rate), sum(rate) >= 20
        wanted, kept = [op["spec"]["id"].encode() for op in told[:place] if "spec" in op], listed(program, f"{folder}/store")
        yield "nothing is lost, by the store alone", all(task in kept for task in wanted)
        with Bridge(broker.port, 1, *words, program=program) as bridge:
            graph = bridge.graph()
            yield "nothing is lost", all(task in graph for task in wanted)
            yield "told to the end", told_to([bridge], told[place:])
            yield "one graph", agree([bridge, other], told)
            yield "ended", ended([bridge, other])


def listed(program, store):
    """The tasks that a follower lists which begins with a copy of the store."""
    copied = shutil.copy(store, store + ".copy")
    lines = b'{"coordinators":[1]}\n{"at":1,"ask":"list","of":"tasks"}\n'
    command = [program, "follow", "--store", copied, "--store-label", "test"]
    return subprocess.run(command, input=lines, stdout=subprocess.PIPE, check=True).stdout


def killed(bridge, way):
    """Kills a bridge alone, with its follower, or its follower alone, behind which the bridge ends by itself. Its status."""
    followers = bridge.children()
    if way < 2:
        bridge.run.kill()
    for process in followers if way else []:
        with contextlib.suppress(ProcessLookupError):
            os.kill(process, signal.SIGKILL)
    if followers:
        # it notices when it has something to ask
        bridge.write(b'{"ask":"agree"}\n')
    else:
        # it had not come so far
        bridge.kill()
    status = bridge.run.wait(timeout=brokers.PATIENCE)
    bridge.reader.join(brokers.PATIENCE)
    return status


def confirmed(program, count=6):
    """A bridge without a store that answers what the broker confirmed is killed: nothing that was answered ok is
    lost."""
    # a turn takes at most 30 lines
    told, chance, place = list(cluster(30 * count + 1)), random.Random("confirmed"), 0
    with running(program, []) as (broker, _):
        words = [*QUICK, "--claim-wait", "0.1", "--confirmed"]
        for _ in range(count):
            with Bridge(broker.port, 1, *words, program=program) as bridge:
                bridge.write(b"".join(tell(1, op) for op in told[place:place + 15]))
                bridge.wait_for(chance.randrange(1, 15))
                bridge.write(b"".join(tell(1, op) for op in told[place + 15:place + 30]))
                time.sleep(chance.uniform(0, 0.2))
                bridge.kill()
                place += bridge.count()
        yield "killed %d times" % count, place > 10
        with Bridge(broker.port, 1, *words, program=program) as bridge:
            graph = bridge.graph()
            yield "nothing is lost", all(op["spec"]["id"].encode() in graph for op in told[:place] if "spec" in op)
            broker.kill()
            bridge.write(tell(1, told[-1]))
            yield "without a broker nothing is confirmed", not bridge.wait_for(bridge.count() + 1, patience=1)
            broker.start()
            yield "and with it, it is", bool(until(lambda: bridge.heard.endswith(b"ok\nok\n"))) and ended([bridge])


def brokers_killed(program):
    """The broker is killed and started again, with its store and without: all know all, and those who come later
    too."""
    told = list(cluster(120))
    with running(program, [1, 2, 3]) as (broker, bridges):
        for part, keeps in enumerate((True, False, True, False)):
            first = part * 30
            fine = told_to(bridges, told[first:first + 10])
            broker.kill()
            if not keeps:
                broker.forget()
            fine = told_to(bridges, told[first + 10:first + 20]) and fine
            broker.start()
            fine = told_to(bridges, told[first + 20:first + 30]) and fine
            yield "part %d: told" % part, fine
            yield "part %d: one graph, %s" % (part, "store kept" if keeps else "store lost"), agree(bridges, told[:first + 30])
        with Bridge(broker.port, 4, *QUICK, program=program) as later:
            yield "one that comes later", agree([later], told[:120])
        yield "ended", ended(bridges)


# followers

SLOW = """#!/usr/bin/env python3
import subprocess, sys, time
run = subprocess.Popen([{program!r}, *sys.argv[1:]], stdin=subprocess.PIPE, bufsize=0)
naps = iter((1, 1, 1))
for line in sys.stdin.buffer:
    time.sleep(next(naps, 0.03) if b'"take"' in line else 0)
    run.stdin.write(line)
run.stdin.close()
run.wait()
"""


SHORT = """#!/usr/bin/env python3
import subprocess, sys
run = subprocess.Popen([{program!r}, *sys.argv[1:]], stdin=subprocess.PIPE, bufsize=0)
for line, _ in zip(sys.stdin.buffer, range(40)):
    run.stdin.write(line)
run.stdin.close()
run.wait()
"""


def made(folder, name, text):
    """A program with the text, in the folder."""
    file = pathlib.Path(folder) / name
    file.write_text(text)
    file.chmod(0o700)
    return str(file)


def short_queues(program):
    """A queue of one packet on the way out, where the second of two packets is left to a state: the other hears of
    that, though it does not ask for states again."""
    told, each = list(cluster(9))[:10], {1: ["--queue", "1", "--cut-count", "1", "--state-interval", "0"]}
    with running(program, [1, 2], "--refresh", "3600", each=each) as (_, bridges):
        for end in range(2, len(told) + 1, 2):
            yield "told two at once", told_to(bridges[:1], told[end - 2:end])
            yield "one graph of %d" % end, agree(bridges, told[:end])
            # until the last state came, behind which nothing is missing
            time.sleep(0.2)
        yield "news was left to states", ended(bridges) and bridges[0].counts()["left_to_state"] > 0


def followers(program):
    """A follower that is slower than the rest, at first by far, with a queue of three packets, and one that ends."""
    told = list(cluster(300))
    with tempfile.TemporaryDirectory() as folder:
        slow = made(folder, "slow", SLOW.format(program=str(program)))
        each = {3: ["--program", slow, "--queue", "3"]}
        with running(program, [1, 2, 3], "--cut-count", "3", "--cut-interval", "0.02", each=each) as (_, bridges):
            yield "told", all([told_to(bridges[:2], told[first:first + 4]) for first in range(0, len(told), 4)])
            yield "one graph", agree(bridges, told)
            yield "the slow one said that its queue was full", bridges[2].has_said("full") and ended(bridges)
            yield "and counted it", bridges[2].counts().get("dropped", 0) > 0
        short = made(folder, "short", SHORT.format(program=str(program)))
        with running(short, [1]) as (_, (bridge,)):
            bridge.write(b"".join(tell(1, op) for op in told[:100]))
            yield "a follower that ends", bridge.run.wait(timeout=60) == 15 and bridge.has_said("failed")
        silent = made(folder, "silent", "#!/bin/sh\nexec sleep 60\n")
        with running(silent, [1], "--connect-wait", "1") as (_, (bridge,)):
            yield "a follower that does not answer", bridge.run.wait(timeout=60) == 11 and bridge.has_said("failed")


# what others publish, and a broker's limits

# a packet of so many bytes has more digits than a line of a stream may have
TOO_LARGE = 34_000_000


def packet_of(told, version=b"FDG2", sender=9, number=7):
    """The bytes of a packet with the operations."""
    operations = {reference.operation(kind, fields) for op in told for kind, fields in op.items()}
    return bytes.fromhex(reference.packed(reference.Packet(sender, number, operations), version)[1].strip())


def strangers(program):
    """A foreign client publishes garbage, packets that are cut off, of other versions, too large, and claims: all is
    refused, or not heard after that, and counted, packets of the older version are taken in, and all agree."""
    told, older = list(cluster(40)), list(cluster(3))[:2] + [{"spec": {**hostile.OPERATIONS["spec"], "prefer": []}}]
    whole, chance = packet_of(told[:9]), random.Random("strangers")
    garbage = [b"\0", b"FDG2", b"FDG3" + whole[4:], whole[:-1], whole + b"\0", whole[:20], b"\xff" * 100, chance.randbytes(5000),
               whole.hex().encode()]
    with running(program, [1, 2, 3], "--report", "0.2") as (broker, bridges):
        yield "told", told_to(bridges, told[:20])
        with mqtt.Client(broker.port) as client:
            for payload, topic in itertools.product(garbage, ("deltas/1", "deltas/9", "state/2", "state/9")):
                client.publish("fetohamu/test/" + topic, payload, retain=topic.startswith("state"))
            for topic in ("deltas/0", "deltas/65", "deltas/x", "state/" + "9" * 50, "deltas/01", "hello/1", "hello/2", "hello/99"):
                client.publish("fetohamu/test/" + topic, b'{"token":1,"turn":[]}')
            for topic in ("state/1", "state/2", "deltas/1"):
                client.publish("fetohamu/test/" + topic, b"", retain=True)
            client.publish("fetohamu/test/deltas/9", b"FDG2" + bytes(TOO_LARGE))
            client.publish("fetohamu/test/state/9", b"FDG2" + bytes(TOO_LARGE), retain=True)
            # of a sender that is heard: none of its packets was broken
            client.publish("fetohamu/test/deltas/8", packet_of(older, b"FDG1", 8))
        yield "told after that", told_to(bridges, told[20:])
        yield "one graph", agree(bridges, told + older)
        for kinds, least in ((("refused",), 2), (("refused", "unheard"), 2 * len(garbage)), (("too_large",), 2), (("strange",), 7)):
            enough = lambda: all(sum(bridge.counts().get(kind, 0) for kind in kinds) >= least for bridge in bridges)
            yield "%s packets are counted" % " and ".join(kinds), bool(until(enough))
        with Bridge(broker.port, 4, *QUICK, program=program) as later:
            yield "one that comes later", agree([later], told + older)
        yield "ended", ended(bridges)


def limits(program):
    """A broker with a limit for messages, below the size of a state: it is said, and deltas are exchanged as before."""
    told = list(cluster(60))
    limited, quick = ("allow_anonymous true", "message_size_limit 2000"), ["--ack-wait", "1", "--end-wait", "2"]
    with running(program, [1, 2], *quick, lines=limited) as (_, bridges):
        yield "told", all([told_to(bridges, told[first:first + 20]) for first in range(0, len(told), 20) if not time.sleep(0.2)])
        yield "one graph", agree(bridges, told)
        yield "that a state does not come back is said", bool(until(lambda: all(bridge.has_said("unkept") for bridge in bridges)))
        yield "and in the end", [bridge.end() for bridge in bridges] == [17, 17]
    with running(program, [1], "--confirmed", *quick, lines=limited) as (_, (bridge,)):
        bridge.write(b"".join(tell(1, op) for op in told))
        is_said = until(lambda: bridge.has_said("unkept"))
        yield "what the broker does not keep is not confirmed", is_said and bridge.count() < len(told)


GROUPS = {"exchange": exchange, "quiet": quiet, "rounds": rounds, "late": late, "sent_later": sent_later, "faults": faults, "cut_off": cut_off,
          "same_number": same_number, "kills": kills, "confirmed": confirmed, "brokers_killed": brokers_killed,
          "followers": followers, "short_queues": short_queues, "strangers": strangers, "limits": limits}
