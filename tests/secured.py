"""Tests of what docs/security.md claims, by name, for tests/run: who is let in by the rules of examples/brokered, what a member of a
cluster can do and for how long, how a cluster is begun anew, what TLS keeps out, and who may use sockets and files."""
import contextlib
import itertools
import json
import os
import pathlib
import pwd
import re
import shutil
import signal
import socket
import ssl
import stat
import subprocess
import sys
import tempfile
import threading

ROOT = pathlib.Path(__file__).resolve().parent.parent
if str(ROOT / "bin") not in sys.path:
    sys.path.append(str(ROOT / "bin"))
import brokers
import hostile
import mqtt
import relayed
import slurm_locks
import store_reader
import stored
import stores_left
from brokers import QUICK, Bridge, Broker, told as tell, until
from clustered import agree, cluster, ended, is_refused, refused, running, told_to
from forged import greatest, lasting, op
from outlived import packet_of
from slurming import locks as file_locks

USERS = {"one": 1, "two": 2, "three": 3}
KINDS = "deltas", "state", "digest", "hello", "slurm"
# what the settings of relayed.prepare have for each user
SECRET = "open sesame"
BAD_PASSWORD, NOT_AUTHORIZED = 4, 5
PINGREQ, PINGRESP = 12, 13
JOB, MACHINE = hostile.JOB, hostile.MACHINE


# users and rules

class Refused(Exception):
    """The broker lets a client not in; the number says why."""


class User(mqtt.Client):
    """A client over TLS with a name and a password, or with what of these is given."""

    def __init__(self, port, ca, name=None, password=None):
        plain = socket.create_connection(("127.0.0.1", port), timeout=30)
        self.socket = ssl.create_default_context(cafile=ca).wrap_socket(plain, server_hostname="127.0.0.1")
        self.source, self.number = self.socket.makefile("rb"), 0
        given = [part.encode() for part in (name, password) if part is not None]
        flags = 2 | (0x80 if name is not None else 0) | (0x40 if password is not None else 0)
        told = [os.urandom(8).hex().encode(), *given]
        self.socket.sendall(mqtt.framed(mqtt.CONNECT, 0, mqtt.text(b"MQTT") + bytes([4, flags, 0, 60]) + b"".join(map(mqtt.text, told))))
        kind, _, body = mqtt.next_packet(self.source)
        assert kind == mqtt.CONNACK
        if body[1]:
            self.socket.close()
            raise Refused(body[1])

    def subscribe(self, topic):
        """Listens, or is told that it may not."""
        self.socket.sendall(mqtt.framed(mqtt.SUBSCRIBE, 2, b"\x00\x01" + mqtt.text(topic.encode()) + b"\x00"))
        while mqtt.next_packet(self.source)[0] != mqtt.SUBACK:
            pass

    def heard_before(self, last):
        """The topics and messages that came before the message `last`."""
        found = []
        while packet := mqtt.next_packet(self.source):
            kind, _, body = packet
            if kind == mqtt.PUBLISH:
                name = mqtt.topic_of(body)
                found.append((name, body[2 + len(name.encode()):]))
                if found[-1][1] == last:
                    return found[:-1]
        return None


def can_guard():
    """Whether certificates and passwords can be made here. Says so if not."""
    lacks = [name for name in ("openssl", "mosquitto_passwd") if shutil.which(name) is None]
    if lacks:
        print("secured: users and TLS are not tested, since there is no %s" % " and no ".join(lacks))
    return not lacks


@contextlib.contextmanager
def guarded():
    """The broker of examples/brokered, and what makes a client of a user. Beside the users of the example one may read and write all, and
    one only read."""
    with tempfile.TemporaryDirectory() as folder:
        broker = Broker(folder)
        relayed.prepare(pathlib.Path(folder), broker, (ROOT / "examples/brokered/mosquitto.conf").read_text())
        for name in "all", "reader":
            subprocess.run(["mosquitto_passwd", "-b", f"{folder}/passwords", name, SECRET], check=True, capture_output=True)
        with open(f"{folder}/rules", "a") as rules:
            rules.write("\nuser all\ntopic readwrite #\ntopic read $SYS/#\n\nuser reader\ntopic read fetohamu/blue/#\n")
        with broker, contextlib.ExitStack() as stack:
            yield broker, lambda name, password=SECRET: stack.enter_context(User(broker.port, f"{folder}/certs/broker.pem", name, password))


def rules(_program):
    """Each rule of examples/brokered/rules, with what it allows and what it denies, on the broker of the settings beside it."""
    if not can_guard():
        return
    with guarded() as (_, user):
        watcher, marker = user("all"), user("all")
        watcher.subscribe("#")
        for name, number in (*USERS.items(), ("reader", 0)):
            client = user(name)
            topics = {f"fetohamu/blue/{kind}/{other}": other == number for kind in KINDS for other in USERS.values()}
            topics.update((topic, False) for topic in (
                f"fetohamu/green/deltas/{number}", f"fetohamu/blue/deltas/{number}/more", f"fetohamu/blue/deltas/{number}1",
                f"fetohamu/blue/{number}", f"deltas/{number}", "other"))
            for topic in topics:
                client.publish(topic, name.encode())
            marker.publish("last", b"last of " + name.encode())
            heard = {topic for topic, _ in watcher.heard_before(b"last of " + name.encode())}
            for topic, is_allowed in topics.items():
                yield "%s %s %s" % (name, "writes" if is_allowed else "does not write", topic), (topic in heard) == is_allowed
        yield from reading(user)


def reading(user):
    """Each user reads all of its cluster, and nothing else."""
    writer = user("all")
    blue = [f"fetohamu/blue/{kind}/{number}" for kind in KINDS for number in (*USERS.values(), 64)]
    for name, wanted in (*((name, set(blue)) for name in (*USERS, "reader")), ("all", {*blue, "fetohamu/green/state/1", "other"})):
        client = user(name)
        client.subscribe("#")
        client.subscribe("$SYS/broker/version")
        for topic in (*blue, "fetohamu/green/state/1", "other"):
            writer.publish(topic, b"")
        writer.publish(blue[0], b"last")
        heard = {topic for topic, _ in client.heard_before(b"last")}
        yield "%s reads: %s" % (name, sorted(heard ^ wanted) or "what it may"), heard - {"$SYS/broker/version"} == wanted
        yield "%s reads what the broker says of itself" % name, ("$SYS/broker/version" in heard) == (name == "all")


def accounts(_program):
    """Nobody is let in without a user's name and password, and over TLS; an account that is taken away is cut off by a SIGHUP."""
    if not can_guard():
        return
    with guarded() as (broker, user):
        for name, password, why in ((None, None, NOT_AUTHORIZED), ("one", None, NOT_AUTHORIZED), ("four", SECRET, NOT_AUTHORIZED),
                                    ("one", "open barley", NOT_AUTHORIZED), ("one", "", NOT_AUTHORIZED), ("one", SECRET, None)):
            try:
                user(name, password)
                found = None
            except Refused as refusal:
                found = refusal.args[0]
            yield "user %s with password %s: %s" % (name, password, found), found in ((BAD_PASSWORD, why) if why else (None,))
        with socket.create_connection(("127.0.0.1", broker.port), timeout=30) as plain:
            plain.sendall(mqtt.framed(mqtt.CONNECT, 0, mqtt.text(b"MQTT") + b"\x04\x02\x00\x3c" + mqtt.text(b"somebody")))
            yield "without TLS it is cut off", is_cut(plain.makefile("rb"))
        passwords = broker.folder / "passwords"
        yield "the broker's file has no password", SECRET.encode() not in passwords.read_bytes()
        client, other = user("three"), user("two")
        subprocess.run(["mosquitto_passwd", "-D", passwords, "three"], check=True, capture_output=True)
        broker.run.send_signal(signal.SIGHUP)
        yield "an account that is gone is cut off", is_cut(client.source)
        try:
            user("three")
            yield "and is not let in again", False
        except Refused as refusal:
            yield "and is not let in again: %s" % refusal, True
        other.socket.sendall(mqtt.framed(PINGREQ, 0, b""))
        yield "the others stay", mqtt.next_packet(other.source)[:1] == (PINGRESP,)


def is_cut(source):
    """Whether a connection ends, and the broker does not say that it is one."""
    try:
        packet = mqtt.next_packet(source)
        return packet is None or packet[0] != mqtt.CONNACK
    except ConnectionResetError:
        return True
    except TimeoutError:
        return False


def numbers(program):
    """By a message on hello/N the bridge of the number N ends; with the rules only the user of that number can send it."""
    claim = json.dumps({"token": "0", "turn": 1, "running": True, "since": 0, "age": 86400, "new": False}).encode()
    with running(program, [1, 2]) as (broker, (one, two)), mqtt.Client(broker.port) as client:
        yield "told", told_to([one, two], cluster(3))
        client.publish("fetohamu/test/hello/1", claim)
        yield "without rules a claim ends a bridge", bool(until(lambda: one.run.poll() is not None)) and one.run.wait() == 14
        yield "it said what it knew, and the other goes on", agree([two], list(cluster(3))) and ended([two])
    if not can_guard():
        return
    with guarded() as (broker, user):
        words = ["--ca", f"{broker.folder}/certs/broker.pem", "--user", "one", "--password-file", f"{broker.folder}/secret"]
        with Bridge(broker.port, 1, *QUICK, *words, cluster="blue", program=program) as bridge:
            yield "told over TLS", told_to([bridge], cluster(3))
            user("two").publish("fetohamu/blue/hello/1", claim)
            user("all").publish("fetohamu/blue/deltas/1", packet_of([op("job", version=2)]))
            told = [*cluster(3), op("job", version=2)]
            yield "another's claim is not heard", agree([bridge], told) and bridge.run.poll() is None
            user("one").publish("fetohamu/blue/hello/1", claim)
            yield "that of the number's own user is", bool(until(lambda: bridge.run.poll() is not None)) and bridge.run.wait() == 14


def adapters(program):
    """Messages on slurm/N keep an adapter from acting, and stop one that acts."""
    def claims(client, is_over):
        for turn in itertools.count(1):
            if is_over.wait(0.2):
                break
            text = {"token": "0", "turn": turn, "running": True, "since": 0, "age": 86400, "new": False}
            client.publish("fetohamu/test/slurm/1", json.dumps(text).encode())
    with running(program, []) as (broker, _), slurm_locks.Place(program) as place, mqtt.Client(broker.port) as client:
        acting = place.adapter("acting", slurm_locks.lock_at(broker.port))
        yield "it acts", bool(until(acting.acts))
        is_over = threading.Event()
        member = threading.Thread(target=claims, args=[client, is_over])
        member.start()
        try:
            yield "it stops", bool(until(lambda: acting.stands_by("another adapter has")))
            other = place.adapter("other", slurm_locks.lock_at(broker.port), "--no-wait")
            status, words = other.ended(), other.last_words()
            yield "another one does not act: %d %s" % (status, words), status == slurm_locks.LOCKED and "another adapter has" in words[-1]
        finally:
            is_over.set()
            member.join()
        yield "it acts again once nobody claims it", bool(until(acting.acts))


# what members can do, and for how long

def members(program):
    """A member tells any operation, whatever topic and sender its packet has, and whichever cluster it is of."""
    told = list(cluster(12))
    with running(program, [1, 3]) as (broker, bridges), mqtt.Client(broker.port) as client:
        yield "told", told_to(bridges, told) and agree(bridges, told)
        # as sender and writer 1, which is another bridge's number
        withdrawn = op("job", version=2, writer=1, withdrawn=True)
        client.publish("fetohamu/test/deltas/2", packet_of([withdrawn], sender=1, number=10 ** 6))
        yield "a job is withdrawn by a packet on another's topic", agree(bridges, [*told, withdrawn])
        line = ("job %s 2 1 true 500 800\n" % JOB).encode()
        yield "and listed so", all(line in bridge.ask({"at": bridge.number, "ask": "list", "of": "jobs"}) for bridge in bridges)
        yield "packets are not secret", bool(until(lambda: read_by_page(broker) == store_reader.decoded(packet_of([*told, withdrawn]))[2]))
        state = relayed.kept(broker, "state")[1]
        with Bridge(broker.port, 1, *QUICK, cluster="other", program=program) as other, mqtt.Client(broker.port, b"else") as member:
            yield "a coordinator of another cluster knows nothing", agree([other], [])
            member.publish("fetohamu/other/deltas/2", state)
            yield "until a packet is published there too", agree([other], [*told, withdrawn])


def read_by_page(broker):
    """What the state of coordinator 1 says that the broker keeps, to a reader who has the page of formats and no more."""
    state = relayed.kept(broker, "state").get(1)
    return state and store_reader.decoded(state)[2]


def anew(program):
    """A forged job comes back to a coordinator that has a new store in the old cluster; a new cluster that is told what the old store knew
    begins without it."""
    task, machine = "00000000-0000-0000-0001-00000000000%d", MACHINE[:-2] + "a%d"
    told = [*cluster(9), op("report", incarnation=1, used=30), op("progress", id=task % 3, attempt=2, phase="running"),
            op("spec", prefer=[{"machine": machine % 3, "credit": 7}]), op("propose", id=task % 5, machine=machine % 4)]
    machine %= 9
    left = [it for it in told if not any(machine == fields["id"] for fields in it.values())]
    forged = greatest("job", withdrawn=True)
    with stores_left.folder() as folder, running(program, []) as (broker, _):
        begin = lambda number, name, **how: Bridge(broker.port, number, *QUICK, "--store", f"{folder}/{name}", program=program, **how)
        with begin(1, "old") as bridge, mqtt.Client(broker.port) as client:
            yield "told", told_to([bridge], told) and agree([bridge], told)
            client.publish("fetohamu/test/state/9", packet_of([forged]), retain=True)
            yield "the job is withdrawn", agree([bridge], [*told, forged]) and ended([bridge])
        with begin(1, "new") as bridge:
            yield "and with a new store it is again", agree([bridge], [*told, forged]) and ended([bridge])
        done = subprocess.run([ROOT / "examples/brokered/anew", "--program", program, "--without", machine, "--", f"{folder}/old", "2"],
                              capture_output=True)
        wanted = [b"left out: job", b"left out: state"]
        yield "what is left out is said: %r" % done.stderr, [b" ".join(line.split()[:3]) for line in done.stderr.splitlines()] == wanted
        with begin(2, "anew", cluster="test-2") as bridge:
            bridge.write(done.stdout + tell(2, op("job")))
            yield "what is left is accepted", bridge.wait_for(done.stdout.count(b"\n") + 1) and b"refusal" not in bridge.heard
            yield "a new cluster has all but that", agree([bridge], left)
            yield "record by record", known_at(bridge) == store_reader.decoded(packet_of(left))[2] and ended([bridge])


def known_at(bridge):
    """What a bridge's coordinator knows, by a packet of all of it."""
    return store_reader.decoded(bytes.fromhex(bridge.ask({"at": bridge.number, "cut": {}}).split(b"\n")[0].decode()))[2]


# the way to the broker

def certificate(folder, name, *more, days=2):
    """A certificate of the authority of the folder, which is made first."""
    def openssl(*words):
        subprocess.run(["openssl", *words], cwd=folder, check=True, capture_output=True)
    if not (folder / "ca.pem").exists():
        openssl(*"req -x509 -newkey rsa:2048 -nodes -days 2 -subj /CN=authority -keyout ca.key -out ca.pem".split())
    openssl(*f"req -newkey rsa:2048 -nodes -subj /CN={name} -keyout {name}.key -out {name}.csr".split())
    (folder / f"{name}.ext").write_text("\n".join(["basicConstraints=CA:FALSE", *more, ""]))
    openssl(*f"x509 -req -in {name}.csr -CA ca.pem -CAkey ca.key -CAcreateserial -days {days} -extfile {name}.ext -out {name}.pem".split())


def certificates(program):
    """A broker with the certificate of another host, or one that is over, is not spoken to; clients may be told apart by certificates."""
    if not can_guard():
        return
    with tempfile.TemporaryDirectory() as made:
        folder = pathlib.Path(made)
        certificate(folder, "here", "subjectAltName=IP:127.0.0.1")
        certificate(folder, "elsewhere", "subjectAltName=DNS:elsewhere.example,IP:127.0.0.2")
        certificate(folder, "over", "subjectAltName=IP:127.0.0.1", days=-1)
        certificate(folder, "one")
        # also the follower has so long to begin, on a busy machine
        trusts = ["--ca", f"{folder}/ca.pem", "--connect-wait", "20"]
        for name, told in ("elsewhere", "of another host"), ("over", "that is over"):
            with Broker(folder, ["allow_anonymous true", f"certfile {folder}/{name}.pem", f"keyfile {folder}/{name}.key"]) as broker:
                found = refused(broker.port, "--number", "1", *trusts, program=program, patience=120)
                yield "a certificate %s: %r" % (told, found[2]), is_refused(found, 13, b"CERTIFICATE_VERIFY_FAILED")
        (folder / "rules").write_text("user one\ntopic read fetohamu/test/#\ntopic write fetohamu/test/+/1\n")
        (folder / "rules").chmod(0o600)
        lines = [f"certfile {folder}/here.pem", f"keyfile {folder}/here.key", f"cafile {folder}/ca.pem", "require_certificate true",
                 "use_identity_as_username true", "allow_anonymous false", f"acl_file {folder}/rules"]
        with Broker(folder, lines) as broker:
            found = refused(broker.port, "--number", "1", *trusts, program=program, patience=120)
            yield "no certificate of one's own: %r" % found[2], is_refused(found, 13, b"TLS")
            own = [*trusts, "--cert", f"{folder}/one.pem", "--key", f"{folder}/one.key"]
            found = refused(broker.port, "--number", "2", *own, program=program, patience=120)
            yield "a number that its user may not write: %r" % found[2], is_refused(found, 13, b"hello/2")
            with Bridge(broker.port, 1, *QUICK, *own, program=program) as bridge:
                yield "its own number", told_to([bridge], cluster(3)) and ended([bridge])


def passwords(program):
    """A password is in no command line and no environment of a process, and goes to the broker as it is without TLS."""
    with stores_left.folder() as folder, socket.create_server(("127.0.0.1", 0)) as door:
        secret = folder / "secret"
        secret.write_text(SECRET + "\n")
        secret.chmod(0o600)
        door.settimeout(60)
        words = ["--user", "one", "--password-file", str(secret), "--store", f"{folder}/store", "--connect-wait", "60"]
        with Bridge(door.getsockname()[1], 1, *words, program=program) as bridge:
            came, _ = door.accept()
            came.settimeout(60)
            yield "without TLS the password can be read on the way", SECRET.encode() in came.recv(1000)
            yield "there is a follower", bool(until(bridge.children))
            processes = bridge.run.pid, *bridge.children()
            texts = [pathlib.Path(f"/proc/{process}/{file}").read_bytes() for process in processes for file in ("cmdline", "environ")]
            yield "no process shows the password", len(texts) >= 4 and not any(SECRET.encode() in text for text in texts)
            came.close()


# sockets and files

SPEAKING = """
import os, socket, sys
os.setgroups([int(sys.argv[3])] if sys.argv[3] else [])
os.setgid(int(sys.argv[2]))
os.setuid(int(sys.argv[1]))
one = socket.socket(socket.AF_UNIX)
one.connect(sys.argv[4])
one.sendall(b'{"ask":"agree"}\\n')
print(one.recv(100))
"""


def sockets(program):
    """Who may write the socket of --listen may tell all that an operator may; others cannot connect."""
    if os.getuid() != 0:
        print("secured: who may use a socket is not tested, since this is not root")
        return
    nobody = pwd.getpwnam("nobody")
    with tempfile.TemporaryDirectory() as folder, running(program, []) as (broker, _):
        os.chmod(folder, 0o755)
        path = f"{folder}/door"
        with Bridge(broker.port, 1, *QUICK, "--listen", path, program=program) as bridge:
            until(lambda: os.path.exists(path) and bridge.has_said("connected"))
            modes = [stat.S_IMODE(os.stat(it).st_mode) for it in (path, path + ".lock")]
            yield "the modes of the socket and its lock: %o, %o" % (*modes,), modes == [0o660, 0o600]
            for name, group, fine in (("another user", "", False), ("one of the group", os.stat(path).st_gid, True)):
                words = [sys.executable, "-c", SPEAKING, str(nobody.pw_uid), str(nobody.pw_gid), str(group), path]
                done = subprocess.run(words, capture_output=True, timeout=60)
                said = done.stdout if fine else done.stderr
                yield "%s: %r" % (name, said[-60:]), (b"same" in said) if fine else b"PermissionError" in said
            yield "it ends", ended_by_signal(bridge)


def ended_by_signal(bridge):
    bridge.run.send_signal(signal.SIGTERM)
    return bridge.run.wait(timeout=60) == 0


def private(folder):
    """Whether a store is in a folder, and all files there are their owner's alone."""
    found = {it.name: stat.S_IMODE(it.stat().st_mode) for it in folder.iterdir()}
    yield "modes: %s" % {name: oct(mode) for name, mode in found.items()}, "store" in found and set(found.values()) == {0o600}


def files(program):
    """A bridge's store and what is beside it are the owner's alone, whatever the umask; who may write a store may forge what it knows."""
    with stores_left.folder() as folder, running(program, []) as (broker, _):
        path, before = folder / "store", os.umask(0)
        try:
            bridge = Bridge(broker.port, 1, *QUICK, "--store", str(path), program=program)
            (folder / "alone").mkdir(0o700)
            subprocess.run([program, "follow", "--store", folder / "alone/store"], input=b'{"coordinators":[1]}\n', stdout=subprocess.DEVNULL, check=True)
        finally:
            os.umask(before)
        yield from private(folder / "alone")
        shutil.rmtree(folder / "alone")
        with bridge:
            yield "told", told_to([bridge], cluster(3))
            yield from private(folder)
            yield "it ends", ended([bridge])
        yield from private(folder)
        forged = op("job", version=7, withdrawn=True)
        with path.open("ab") as store:
            store.write(stored.frame(packet_of([forged], sender=1)))
        broker.kill()
        broker.forget()
        broker.start()
        with Bridge(broker.port, 1, *QUICK, "--store", str(path), program=program) as bridge:
            yield "a packet that was added by hand is known", agree([bridge], [*cluster(3), forged]) and ended([bridge])


LOCKING = """
import fcntl, os, sys
os.setgroups([])
os.setgid(int(sys.argv[2]))
os.setuid(int(sys.argv[1]))
fcntl.flock(os.open(sys.argv[3], os.O_RDONLY), fcntl.LOCK_EX | fcntl.LOCK_NB)
"""


def locks(_program):
    """The file of an adapter's lock is the owner's alone, so another user cannot lock it."""
    if os.getuid() != 0:
        print("secured: who may lock a file is not tested, since this is not root")
        return
    nobody = pwd.getpwnam("nobody")
    with tempfile.TemporaryDirectory() as folder:
        os.chmod(folder, 0o755)
        lock, before = file_locks.Lock(f"{folder}/lock"), os.umask(0)
        try:
            yield "it is made and locked", lock.take()
        finally:
            os.umask(before)
        lock.release()
        words = [sys.executable, "-c", LOCKING, str(nobody.pw_uid), str(nobody.pw_gid), lock.name]
        done = subprocess.run(words, capture_output=True, timeout=60)
        yield "another user cannot lock it: %r" % done.stderr[-60:], b"PermissionError" in done.stderr
        yield "its owner can", lock.take()
        lock.release()


# the page

# names of tests, and the file that has them if it is not this one
CITED = re.compile(r"(`\w+`(?:, `\w+`)*)(?: of `(tests/\w+\.py)`)?")


def cited(_program):
    """Each row of the page's tables names tests that there are, or says `not tried`; and each test here is named."""
    text, named = (ROOT / "docs/security.md").read_text(), set()
    for row in re.findall(r"(?m)^\|.*\|$", text):
        cell = row.strip("| ").rpartition("|")[2].strip()
        if cell == "Tried by" or set(cell) == {"-"}:
            continue
        tests = [(name, file or "tests/secured.py") for names, file in CITED.findall(cell) for name in re.findall(r"\w+", names)]
        named |= {name for name, file in tests if file == "tests/secured.py"}
        missing = [name for name, file in tests if f"def {name}(" not in (ROOT / file).read_text()]
        yield "%s: %s" % (row[:60], missing or "named"), not missing and (bool(tests) or "not tried" in cell)
    own = {test.__name__ for test in GROUPS.values() if test.__module__ == __name__}
    yield "all are named: %s" % (own ^ named), own - named == {"cited"}


GROUPS = {test.__name__: test for test in (
    rules, accounts, numbers, adapters, members, lasting, anew, certificates, passwords, sockets, files, locks, cited)}


def all_tests(program, names=tuple(GROUPS)):
    """Each test of the groups, by name; none, with a word, if a package is not installed."""
    lacks = brokers.missing()
    if lacks:
        print("secured: skipped, since there is no %s (Debian's packages)" % " and no ".join(lacks))
    for name in names if not lacks else ():
        for told, fine in GROUPS[name](program):
            yield "secured: %s: %s" % (name, told), bool(fine)
