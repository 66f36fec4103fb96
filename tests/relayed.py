"""Tests of what bin/bridge relays, by name, for tests/bridged.py: claims whose clocks are wrong, brokers that do not keep what they relay,
states that are fetched only if they say something new, and the settings of examples/brokered/mosquitto.conf."""
import contextlib
import getpass
import itertools
import json
import pathlib
import shutil
import subprocess
import tempfile
import time
import types

import mqtt
import outlived
from bridging import claims, coordinator, digests as digests_of, packets
from slurming import leases
from brokers import QUICK, Bridge, Broker, told as tell, until
from clustered import agree, cluster, ended, is_refused, refused, told_to

ROOT = pathlib.Path(__file__).resolve().parent.parent


# claims

@contextlib.contextmanager
def clocks(wall, steady):
    """The clocks of a machine, as claims see them."""
    before, claims.time = claims.time, types.SimpleNamespace(time=lambda: wall, monotonic=lambda: steady)
    try:
        yield
    finally:
        claims.time = before


def begun(wall, steady):
    """The claim of a bridge that has its number since then."""
    with clocks(wall, steady):
        claim = claims.Claim(1)
        claim.run()
    return claim


def ages(_program):
    """The older bridge keeps a number whatever the clocks show, and of two that deny it to each other one does; a claim comes back only if
    it was made."""
    older, newer = begun(10000, 500), begun(10000 - 7200 + 60, 60)
    with clocks(10060, 560):
        reply = older.hear(1, asked(newer, 10060 - 7200, 61))
        yield "who is older keeps the number, though the clock of the other is two hours slow", reply is not None and not older.is_lost
    with clocks(10060 - 7200, 61):
        yield "and the other ends", newer.hear(1, asked(older, 10060, 560)) is None and newer.is_lost
    old, new = begun(10000, 500), begun(9000, 400)
    without = {name: value for name, value in json.loads(asked(old, 10060, 560)).items() if name != "age"}
    with clocks(9060, 460):
        yield "who says no age is compared by the time", new.hear(1, json.dumps(without).encode()) is not None and not new.is_lost
    yield from crossing()
    mine = claims.Claim(1)
    great = {**json.loads(mine.ask(True)), "turn": 10 ** 9}
    mine.hear(1, json.dumps(great).encode())
    yield "a turn that was not sent is not back", not mine.is_back()
    mine.hear(1, mine.ask(True))
    yield "and the next one comes back", mine.is_back()


STRANGE_NUMBERS = ("NaN", "Infinity", "-Infinity", "1e999", "-1", "1e12", "1" + "0" * 400, '"7"', "true", "false", "[]", "{}")


def strange_ages(_program):
    """A claim whose age or time is no number that can be compared is none: who has a number keeps it, and nobody is denied it."""
    for member, number in itertools.product(("age", "since"), STRANGE_NUMBERS):
        said = {"token": "x", "turn": 1, "running": True, "since": 1, "age": 1, "new": True}
        text = json.dumps({**said, member: 7077}).replace("7077", number).encode()
        mine, lease = begun(10000, 500), leases.Lease(1)
        lease.listen(0.0)
        for name, hear in (("a bridge", lambda: mine.hear(1, text)), ("an adapter of Slurm", lambda: lease.hear(text, 1.0))):
            try:
                fine = hear() is NotImplemented
            except ValueError:
                fine = not mine.is_lost and not lease.is_taken(1.0)
            yield "%s hears a claim whose %s is %s" % (name, member, number[:9]), fine
    for number in ("0", "0.5", "3", "86400000"):
        text = json.dumps({"token": "x", "turn": 1, "running": True, "since": 1, "age": 7077, "new": True}).replace("7077", number).encode()
        yield "an age of %s" % number, claims.said_in(text).age == float(number)


def kept_claims(program):
    """A claim that the broker kept is not heard, whoever had it keep that: bridges begin, go on, and hear claims as before."""
    forged = {"token": "x", "turn": 1, "running": True, "since": 1, "age": 1e9, "new": True}
    told = list(cluster(9))
    with tempfile.TemporaryDirectory() as folder, Broker(folder) as broker, mqtt.Client(broker.port) as client:
        for number in 1, 2:
            client.publish("fetohamu/test/hello/%d" % number, json.dumps(forged).encode(), retain=True)
        with contextlib.ExitStack() as stack:
            bridges = [stack.enter_context(Bridge(broker.port, number, *QUICK, program=program)) for number in (1, 2)]
            yield "told", told_to(bridges, told) and agree(bridges, told)
            time.sleep(3)
            said = [[it["text"] for it in bridge.events() if it["event"] == "broker" and "hello/1" in it["text"]] for bridge in bridges]
            yield "it is said once, with the topic: %s" % said, [len(texts) for texts in said] == [1, 1]
            found = refused(broker.port, "--number", "1", "--claim-wait", "0.3", program=program)
            yield "a number that is taken: %r" % found[2], is_refused(found, 14, b"taken by another bridge")
            yield "ended", ended(bridges)


def asked(claim, wall, steady):
    with clocks(wall, steady):
        return claim.ask(True)


def crossing():
    """Claims of bridges that are nearly as old as each other, and are heard later by so much: one keeps the number, in each order in which
    the answers are heard."""
    for difference, late, swaps in itertools.product((-0.3, -0.1, 0, 0.1, 0.3), (0, 0.2), (False, True)):
        one, two = begun(0, 100), begun(0, 100 + difference)
        claims_made = asked(one, 0, 200), asked(two, 0, 200)
        with clocks(0, 200 + late):
            answers = one.hear(1, claims_made[1]), two.hear(1, claims_made[0])
            both = [(two, answers[0]), (one, answers[1])]
            for other, answer in reversed(both) if swaps else both:
                if answer is not None:
                    other.hear(1, answer)
            # a claim that is made again changes nothing
            again = one.hear(1, claims_made[1]), two.hear(1, claims_made[0])
        lost = [one.is_lost, two.is_lost]
        name = "%s s apart, heard %s s later, %s: lost %s, %d answers" % (difference, late, swaps, lost, len(again))
        yield name, sorted(lost) == [False, True]


# brokers that do not keep what they relay

def retained(program):
    """What a broker relays and does not keep is not confirmed: at the first state of a connection, and behind the next refresh."""
    told = list(cluster(9))
    with contextlib.ExitStack() as stack:
        broker = stack.enter_context(Broker(stack.enter_context(tempfile.TemporaryDirectory())))
        proxy = stack.enter_context(mqtt.Proxy(broker.port))
        proxy.keeps_nothing = True
        words = [*QUICK, "--confirmed"]
        bridge = stack.enter_context(Bridge(proxy.port, 1, *words, program=program))
        bridge.write(b"".join(tell(1, op) for op in told[:5]))
        yield "that nothing is kept is said", bool(until(lambda: bridge.has_said("unkept")))
        yield "what is relayed and not kept is not confirmed: %d answers" % bridge.count(), bridge.count() == 0
        proxy.keeps_nothing = False
        yield "what is kept is confirmed", bridge.wait_for(5)
        with mqtt.Client(broker.port) as client:
            yield "and the broker keeps it", list(client.kept("fetohamu/test/state/1", 1)) == ["fetohamu/test/state/1"]
        proxy.keeps_nothing = True
        with mqtt.Client(broker.port) as client:
            client.publish("fetohamu/test/state/1", b"", retain=True)
        # until a refresh found that the state is gone, from which on each is asked for again
        said = len([None for said in bridge.events() if said["event"] == "unkept"])
        yield "that it is gone is found", bool(until(lambda: len([None for it in bridge.events() if it["event"] == "unkept"]) > said))
        bridge.write(b"".join(tell(1, op) for op in told[5:]))
        yield "what is told then is not confirmed", not bridge.wait_for(6, 3)
        proxy.keeps_nothing = False
        yield "until it is kept", bridge.wait_for(len(told)) and bridge.end() == 0


# states and their digests

MANY = 6


def digests(program):
    """A state is fetched only if its digest says something new: when bridges connect again, at each refresh, and when one comes late."""
    told = list(cluster(120))
    with contextlib.ExitStack() as stack:
        broker = stack.enter_context(Broker(stack.enter_context(tempfile.TemporaryDirectory())))
        proxy = stack.enter_context(mqtt.Proxy(broker.port))
        # states are sent only when bridges connect, and asked for again every 2 s
        words = [*QUICK, "--state-interval", "3600", "--refresh", "2"]
        bridges = [stack.enter_context(Bridge(proxy.port, number, *words, program=program)) for number in range(1, MANY + 1)]
        yield "told", told_to(bridges, told) and agree(bridges, told)
        proxy.cut()
        proxy.mend()
        yield "all sent their states", bool(until(lambda: len(kept(broker, "state")) == MANY))
        time.sleep(3)
        largest = max(map(len, kept(broker, "state").values()))
        # each has its own state for a connection and for a refresh
        for name, is_cut, most in ("connections", True, 4 * MANY), ("refreshes", False, 3 * MANY):
            proxy.received.clear()
            if is_cut:
                proxy.cut()
                proxy.mend()
            time.sleep(4)
            received = proxy.received.get("state", 0)
            name = "%s of %d bridges with states of %d bytes: %d bytes of states" % (name, MANY, largest, received)
            yield name, received <= most * largest
        proxy.received.clear()
        later = stack.enter_context(Bridge(proxy.port, MANY + 1, *words, program=program))
        yield "one that comes late knows all", agree([later], told, 20)
        more = list(cluster(121))
        yield "and new lines are known to all", told_to(bridges[:1], more[-1:]) and agree([*bridges, later], more, 20)


def kept(broker, kind, patience=0.5):
    """What the broker keeps on the topics of the kind, by the numbers of coordinators."""
    with mqtt.Client(broker.port) as client:
        return {int(topic.rpartition("/")[2]): text for topic, text in client.kept(f"fetohamu/test/{kind}/+", patience).items()}


def sources(_program):
    """Whose states are fetched, by what came: digests that were kept or came just now, states, and refreshes."""
    kept_one, live, state, refresh, missed = "kept", "live", "state", "refresh", "missed"
    # numbers up to 3 have digests
    without = set(range(4, 65))
    for name, came, wanted in (
            ("nothing new", [(kept_one, 1, b"known"), (kept_one, 2, b"known"), (kept_one, 3, b"known")], set()),
            ("of two that say the same one", [(kept_one, 1, b"a"), (kept_one, 2, b"a"), (kept_one, 3, b"b")], {1, 3}),
            ("none once it came", [(live, 1, b"a"), (live, 2, b"a"), (live, 3, b"known"), (state, 1, b"a")], set()),
            ("each, if one does not come", [(live, 1, b"a"), (live, 2, b"a"), (live, 3, b"known"), (refresh, 0, b"")], {1, 2}),
            ("each once, behind a refresh", [(kept_one, 1, b"known"), (kept_one, 2, b"known"), (live, 3, b"known"), (refresh, 0, b""),
                                             (state, 1, b"known")], {2}),
            ("one that does not fit its digest", [(kept_one, 1, b"known"), (live, 2, b"known"), (live, 3, b"known"), (refresh, 0, b""),
                                                  (state, 1, b"other")], {1}),
            ("one that was missed", [(live, 1, b"known"), (live, 2, b"known"), (live, 3, b"known"), (missed, 2, b""), (refresh, 0, b"")],
             {2})):
        known = {b"known"}
        found = digests_of.Sources(packets.Coverage(), known.__contains__)
        for kind, number, content in came:
            if kind in (kept_one, live):
                found.hear(number, digests_of.Digest(content, 2), kind == kept_one)
            elif kind == state:
                known.add(content)
                found.came(number, content, False)
            else:
                found.refresh() if kind == refresh else found.missed(number)
        yield "states to fetch, %s: %s" % (name, found.numbers() - without), found.numbers() == wanted | without


def old_bridges(program):
    """A digest that does not fit its state, as beside a bridge that publishes none, hides the state until the next refresh at most: if it
    is there when others connect, and if the number goes over to such a bridge."""
    told, more, most, all_told = (list(cluster(count)) for count in (20, 30, 35, 40))
    with contextlib.ExitStack() as stack:
        broker = stack.enter_context(Broker(stack.enter_context(tempfile.TemporaryDirectory())))
        proxy = stack.enter_context(mqtt.Proxy(broker.port))
        bridges = [stack.enter_context(Bridge(proxy.port, number, *QUICK, program=program)) for number in (1, 2)]
        yield "told", told_to(bridges, told) and agree(bridges, told)
        known = until(lambda: kept(broker, "digest").get(1)) or b"{}"
        yield "a digest of a state: %r" % known, set(json.loads(known)) == {"digest", "number"}
        proxy.cut()
        with mqtt.Client(broker.port) as client:
            client.publish("fetohamu/test/digest/9", known, retain=True)
            client.publish("fetohamu/test/state/9", outlived.packet_of(more), retain=True)
        proxy.mend()
        yield "a state that its digest hides", agree(bridges, more, 20)
        with mqtt.Client(broker.port) as client:
            client.publish("fetohamu/test/digest/8", known, retain=True)
            time.sleep(0.5)
            claim = {"token": "x", "turn": 1, "running": True, "since": 1, "new": True}
            client.publish("fetohamu/test/hello/8", json.dumps(claim).encode())
            client.publish("fetohamu/test/state/8", outlived.packet_of(most, number=8), retain=True)
        yield "a state of an older bridge that took the number", agree(bridges, most, 20)
        with mqtt.Client(broker.port) as client:
            # news that does not follow: something is missing, which only the state has
            client.publish("fetohamu/test/deltas/8", outlived.packet_of(told[:1], number=99))
            client.publish("fetohamu/test/state/8", outlived.packet_of(all_told, number=100), retain=True)
        yield "and what is missing of its news", agree(bridges, all_told, 20)
        yield from strange_digests(broker, bridges, known)


def strange_digests(broker, bridges, known):
    """What is no digest is refused, and a digest that is lost is published again."""
    with mqtt.Client(broker.port) as client:
        for strange in (b"7", b"{}", b"x" * 1000, b'{"digest":"00","number":1}', b'{"digest":7,"number":1}', b"[" * 150):
            client.publish("fetohamu/test/digest/9", strange)
        client.publish("fetohamu/test/digest/1", b"", retain=True)
        client.publish("fetohamu/test/digest/2", known.replace(b"number", b"other"), retain=True)
    is_there = lambda found: all(b"number" in found.get(number, b"") for number in (1, 2))
    yield "digests are published again", bool(until(lambda: is_there(kept(broker, "digest"))))
    yield "and all ends well", ended(bridges)
    yield "what is no digest is counted", all(bridge.counts()["strange"] >= 6 for bridge in bridges)


# the broker's settings

def configured(program):
    """The broker that examples/brokered/mosquitto.conf sets up: what was confirmed outlives a kill of the broker and of the bridge, users
    write their own numbers alone, and the largest packet goes through."""
    text = (ROOT / "examples/brokered/mosquitto.conf").read_text()
    yield from largest_message([line for line in text.split("\n") if line.startswith(("message_", "max_"))])
    if shutil.which("openssl") is None or shutil.which("mosquitto_passwd") is None:
        print("operated: the settings of the broker are not tested, since there is no openssl or no mosquitto_passwd")
        return
    with tempfile.TemporaryDirectory() as folder:
        broker = Broker(folder)
        prepare(pathlib.Path(folder), broker, text)
        told = list(cluster(20))
        user = lambda name: ["--ca", f"{folder}/certs/broker.pem", "--user", name, "--password-file", f"{folder}/secret"]
        with broker:
            words = [*QUICK, *user("one"), "--confirmed"]
            with Bridge(broker.port, 1, *words, cluster="blue", program=program) as bridge:
                yield "told and confirmed", told_to([bridge], told)
                # the broker writes what it keeps each second
                time.sleep(3)
                broker.kill()
                bridge.kill()
            broker.start()
            with Bridge(broker.port, 2, *QUICK, *user("two"), cluster="blue", program=program) as bridge:
                yield "what was confirmed is there", agree([bridge], told, 20) and ended([bridge])
            found = refused(broker.port, "--number", "1", "--connect-wait", "5", *user("two"), cluster="blue", program=program)
            yield "another's number: %r" % found[2], is_refused(found, 13, b"hello/1")


def prepare(folder, broker, text):
    """Certificates, passwords, rules, and the settings for this machine."""
    (folder / "certs").mkdir()
    (folder / "store").mkdir()
    made = "openssl req -x509 -newkey rsa:2048 -nodes -days 2 -subj /CN=localhost -addext subjectAltName=IP:127.0.0.1"
    files = ["-keyout", folder / "certs/broker.key", "-out", folder / "certs/broker.pem"]
    subprocess.run([*made.split(), *files], check=True, capture_output=True)
    (folder / "secret").write_text("open sesame\n")
    (folder / "secret").chmod(0o600)
    for place, name in enumerate(("one", "two", "three")):
        words = ["mosquitto_passwd", "-b", *([] if place else ["-c"]), folder / "passwords", name, "open sesame"]
        subprocess.run(words, check=True, capture_output=True)
    (folder / "rules").write_text((ROOT / "examples/brokered/rules").read_text())
    for name in "rules", "passwords":
        (folder / name).chmod(0o600)
    for before, here in (("listener 8883", f"listener {broker.port} 127.0.0.1"), ("/etc/mosquitto", str(folder)),
                         ("/var/lib/mosquitto", f"{folder}/store")):
        assert before in text
        text = text.replace(before, here)
    broker.file.write_text(f"{text}\nuser {getpass.getuser()}\nlog_dest none\n")


def largest_message(limits):
    """The largest packet of a bridge is kept."""
    most = coordinator.most_packet(64)
    with tempfile.TemporaryDirectory() as folder, Broker(folder, ["allow_anonymous true", *limits]) as broker:
        for size, is_kept in (most, True), (most + 1000, False):
            with mqtt.Client(broker.port) as client:
                client.publish("fetohamu/test/state/%d" % (1 + is_kept), bytes(size), retain=True)
            found = kept(broker, "state", 4).get(1 + is_kept, b"")
            yield "a message of %d bytes, of which %d are kept" % (size, len(found)), (len(found) == size) == is_kept


GROUPS = {"ages": ages, "strange_ages": strange_ages, "kept_claims": kept_claims, "retained": retained, "digests": digests,
          "sources": sources, "old_bridges": old_bridges,
          "configured": configured}
