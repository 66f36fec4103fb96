"""Hostile inputs by name, for tests/run: numbers beyond their types and ranges, JSON at its limits, packets broken at each byte,
counts that no packet has room for, and more than is usual of all. What is drawn at random is in tests/fuzz.

    tests/hostile.py PROGRAM    changes each byte of the packets to every other value, which takes some minutes
"""
import json
import os
import random
import resource
import struct
import subprocess
import sys
import tempfile

import reference
import refusing
import strict

LIMIT = 16777216
CHANGES = 3
EMPTY = b'{"coordinators":[1],"steps":[]}'
TASK, JOB, MACHINE = ("00000000-0000-0000-0000-0000000000%02x" % n for n in (17, 1, 10))
OPERATIONS = {
    "job": {"id": JOB, "version": 1, "writer": 1, "withdrawn": False, "wait": 500, "preempt": 800},
    "spec": {"id": TASK, "version": 1, "writer": 1, "withdrawn": False, "job": JOB, "request": 100},
    "progress": {"id": TASK, "attempt": 0, "phase": "pending"},
    "machine": {"id": MACHINE, "incarnation": 1, "version": 1, "writer": 1, "up": True, "slots": 2, "nic": 1000},
    "report": {"id": MACHINE, "incarnation": 2, "number": 1, "used": 0},
    "propose": {"id": TASK, "attempt": 0, "coordinator": 1, "machine": MACHINE, "incarnation": 1}}
# the least and the greatest number of each field that has a range within its type
RANGES = {"writer": (1, 64), "coordinator": (1, 64), "wait": (0, 10 ** 9), "preempt": (0, 10 ** 9), "request": (0, 10 ** 6),
          "slots": (1, 1000), "nic": (0, 10 ** 6), "used": (0, 10 ** 9)}
TYPES = {"version": 64, "incarnation": 64, "number": 64, "attempt": 32, "wait": 32, "preempt": 32, "request": 32, "slots": 32,
         "nic": 32, "used": 32, "writer": 8, "coordinator": 8}
# job 1 at version 2 of writer 1, wait 600, preempt 800, as packet 3 of coordinator 1
PACKET = bytes.fromhex("46444732 01 0000000000000003 0000000000000001 00000000000000000000000000000001 0000000000000002 01 00"
                       "00000258 00000320 0000000000000000 0000000000000000 0000000000000000")
DONE, BROKEN = (0, b"same\n", b""), (3, b"", b"firmament: refusal 16\n")
BROKEN_STEP = (3, b"", b"firmament: refusal 16 at step 1\n")
BEYOND, STRANGER = (3, b"", b"firmament: refusal 2 at step 1\n"), (3, b"", b"firmament: refusal 8 at step 1\n")


def seen(program, words, text, **how):
    done = subprocess.run([program, *words], input=text, stdout=subprocess.PIPE, stderr=subprocess.PIPE, timeout=120, **how)
    return done.returncode, done.stdout, done.stderr


def script(*steps, numbers=(1,)):
    return json.dumps({"coordinators": list(numbers), "steps": list(steps)}).encode()


def tell(kind, at=1, **other):
    return {"at": at, "tell": {kind: {**OPERATIONS[kind], **other}}}


def numbers(program):
    """Each number of each operation at the ends of its type and range, and beyond."""
    for kind, fields in OPERATIONS.items():
        for field in fields:
            for number, answer in edges(field) if field in TYPES else ():
                text = script(tell(kind, **{field: 7077})).replace(b"7077", number.encode())
                yield "%s with %s %s" % (kind, field, number), seen(program, ["agree"], text) == answer
    for answer, places in ((STRANGER, "0 2 65 255"), (BROKEN_STEP, '256 -1 1.0 "1" true null [1] {}')):
        for at in places.split():
            yield "at " + at, seen(program, ["agree"], script(tell("job", at=7077)).replace(b"7077", at.encode())) == answer
    for step, number in (({"trim": -1}, 16), ({"trim": 2 ** 64}, 16), ({"trim": 2 ** 64 - 1}, 4), ({"round": False}, 16), ({"round": {"each": 0}}, 16), ({"round": {"each": 2 ** 32}}, 16), ({"round": {"each": 2 ** 64}}, 16),
                         ({"round": {"writers": [0]}}, 16), ({"round": {"writers": [65]}}, 16), ({"round": {"writers": [*range(1, 65), 1]}}, 16),
                         ({"round": {"writers": [1] * 100000}}, 16), ({"round": {"writers": [*range(100000)]}}, 16),
                         ({"cut": {"name": "a", "from": -1, "to": 0}}, 16), ({"cut": {"name": "a", "from": 0, "to": 2 ** 64}}, 16),
                         ({"cut": {"name": "a", "from": 0, "to": 2 ** 64 - 1}}, 4)):
        refused = (3, b"", b"firmament: refusal %d at step 1\n" % number)
        yield "%s" % step, seen(program, ["agree"], script({"at": 1, **step})) == refused


def edges(field):
    """Numbers for a field, as texts, each with the answer to an operation that has it."""
    most = 2 ** TYPES[field] - 1
    least, greatest = RANGES.get(field, (0, most))
    yield from ((text, BROKEN_STEP) for text in ("-1", str(most + 1), str(2 ** 64), "1.0", "1e0", '"1"', "true", "null"))
    yield from ((str(number), DONE) for number in (least, greatest))
    yield from ((str(number), BEYOND) for number in (0, greatest + 1, most) if not least <= number <= greatest and number <= most)


def deep(levels):
    """A script with a further member that is nested so deep that there are so many levels in all."""
    return b'{"coordinators":[1],"steps":[],"more":' + b"[" * (levels - 1) + b"]" * (levels - 1) + b"}"


def named(name, again=None):
    """A script that cuts a packet of the name, and delivers one of that name as it is written again."""
    again = name if again is None else again
    return b'{"coordinators":[1],"steps":[{"at":1,"cut":{"name":"%s"}},{"at":1,"deliver":"%s"}]}' % (name, again)


def with_members(members):
    """A script that tells of a job with these members."""
    return b'{"coordinators":[1],"steps":[{"at":1,"tell":{"job":{%s}}}]}' % members


def texts(program):
    """JSON at its limits."""
    job = json.dumps(OPERATIONS["job"])[1:-1].encode()
    everywhere = [tell("job", at=n, writer=n) for n in range(1, 65)]
    for name, text, answer in (
            ("200 brackets", b"[" * 200, BROKEN), ("200 braces", b'{"a":' * 200, BROKEN),
            ("a million brackets", b"[" * 10 ** 6, BROKEN),
            ("nested to the limit", deep(strict.DEEPEST), DONE), ("nested once more", deep(strict.DEEPEST + 1), BROKEN),
            ("nested a million times", deep(10 ** 6), BROKEN), ("nothing", b"", BROKEN), ("a space", b" ", BROKEN),
            ("two texts", EMPTY * 2, BROKEN), ("a byte order mark", b"\xef\xbb\xbf" + EMPTY, BROKEN),
            ("in UTF-16", EMPTY.decode().encode("utf-16"), BROKEN), ("no UTF-8", named(b"a\xff"), BROKEN),
            ("an overlong slash", named(b"\xc0\xaf"), BROKEN), ("a surrogate as bytes", named(b"\xed\xa0\x80"), BROKEN),
            ("a lone high surrogate", named(b"\\ud800"), BROKEN), ("a lone low surrogate", named(b"\\udc00"), BROKEN),
            ("a pair of surrogates", named(b"\\ud83d\\ude00", "\U0001f600".encode()), DONE),
            ("a name with a zero", named(b"a\\u0000b"), DONE), ("a name of no letters", named(b""), DONE),
            ("a line feed in a name", named(b"\n"), BROKEN), ("a name of a megabyte", named(b"n" * 2 ** 20), DONE),
            ("a name of a megabyte in escapes", named(b"\\u006e" * 2 ** 20, b"n" * 2 ** 20), DONE),
            ("a name that fills the text", named(b"n" * ((LIMIT - len(named(b"")) + 1) // 2)), BROKEN),
            ("a name that almost fills the text", named(b"n" * ((LIMIT - len(named(b""))) // 2)), DONE),
            ("one name twice", script({"at": 1, "cut": {"name": "a"}}, {"at": 1, "cut": {"name": "a"}}),
             (3, b"", b"firmament: refusal 16 at step 2\n")),
            ("of equal members the last", with_members(b'"wait":[],"writer":99,' + job), DONE),
            ("of equal members the last, out of range", with_members(job + b',"wait":1000000001'), BEYOND),
            ("of equal members the last, of another type", with_members(job + b',"wait":[]'), BROKEN_STEP),
            ("steps twice", b'{"coordinators":[1],"steps":[7],"steps":[]}', DONE),
            ("coordinators twice", b'{"coordinators":[],"coordinators":[1],"steps":[]}', DONE),
            ("at twice", b'{"coordinators":[1],"steps":[{"at":9,"at":1,"trim":0}]}', DONE),
            ("four machines preferred", prefers([entry(n) for n in range(1, 5)]), DONE),
            ("five machines preferred", prefers([entry(n) for n in range(1, 6)]), BROKEN_STEP),
            ("machines preferred by no list", prefers({}), BROKEN_STEP), ("by null", prefers(None), BROKEN_STEP),
            ("an entry that is none", prefers([7]), BROKEN_STEP), ("no credit", prefers([{"machine": MACHINE}]), BROKEN_STEP),
            ("no machine", prefers([{"credit": 1}]), BROKEN_STEP), ("a machine that is none", prefers([entry(1, machine="x")]), BROKEN_STEP),
            ("more of an entry", prefers([entry(1, more=1)]), DONE), ("a machine twice", prefers([entry(1), entry(1)]), BEYOND),
            ("machines that fall", prefers([entry(2), entry(1)]), BEYOND), ("a credit below", prefers([entry(1, credit=-1)]), BROKEN_STEP),
            ("the greatest credit", prefers([entry(1, credit=10 ** 9)]), DONE),
            ("a credit beyond its range", prefers([entry(1, credit=10 ** 9 + 1)]), BEYOND),
            ("a credit beyond its type", prefers([entry(1, credit=2 ** 32)]), BROKEN_STEP),
            ("a credit that is no number", prefers([entry(1, credit="1")]), BROKEN_STEP),
            ("two operations", script({"at": 1, "tell": {**tell("job")["tell"], **tell("spec")["tell"]}}), BROKEN_STEP),
            ("as many bytes as may be", EMPTY.ljust(LIMIT), DONE), ("one byte more", EMPTY.ljust(LIMIT + 1), BROKEN),
            ("64 coordinators", script(*everywhere, numbers=range(64, 0, -1)), (5, b"differ 64 63\n", b"")),
            ("65 coordinators", script(numbers=range(1, 66)), BROKEN), ("a coordinator twice", script(numbers=(1, 2, 1)), BROKEN)):
        yield name, seen(program, ["agree"], text) == answer


def entry(n, **other):
    return {"machine": "%032x" % n, "credit": 1, **other}


def prefers(listed):
    return script(tell("spec", prefer=listed))


def packets():
    """Packets of known bytes: one with a job alone, one with a record of each kind, and one in which a report beats a state."""
    told = [tell(kind) for kind in ("job", "machine", "spec", "propose")]
    for steps in ([tell("job", version=1), tell("job", version=2, wait=600), {"at": 1, "cut": {"name": "1", "from": 0, "to": 1}},
                   {"at": 1, "cut": {"name": "2", "from": 1, "to": 2}}, {"at": 1, "cut": {"name": "news", "from": 0, "to": 2}}],
                  told + [{"at": 1, "cut": {"name": "news"}}], told + [tell("report"), {"at": 1, "cut": {"name": "news"}}]):
        yield script(*steps)


def broken_packets(program, every_byte=False):
    """Packets that end early at each byte, and with each byte changed, to some others or to every other."""
    chance = random.Random(3)
    for text, length in zip(packets(), (79, 220, 214)):
        spelled = bytes.fromhex(seen(program, ["pack", "news"], text)[1].decode())
        yield "a packet of %d bytes" % length, len(spelled) == length and (length != 79 or spelled == PACKET)
        early = {seen(program, ["unpack"], spelled[:end].hex().encode()) for end in range(length)}
        yield "ends of a packet of %d bytes" % length, early == {(3, b"", b"firmament: refusal 6\n")}
        taken = 0
        for place in range(length):
            others = [byte for byte in range(256) if byte != spelled[place]]
            for byte in others if every_byte else chance.sample(others, CHANGES):
                changed = (spelled[:place] + bytes([byte]) + spelled[place + 1:]).hex().encode()
                found = seen(program, ["unpack"], changed)
                status, out, err = reference.answer(["unpack"], changed)
                taken += status == 0
                if found != (status, out.encode(), err.encode()):
                    yield "packet of %d bytes with %d at %d" % (length, byte, place), False
        yield "changed bytes of a packet of %d bytes" % length, taken > length * CHANGES // 8
        yield "a byte more", seen(program, ["unpack"], (spelled + b"\0").hex().encode()) == (3, b"", b"firmament: refusal 6\n")


def counts(program, allocator):
    """Packets whose counts say more records than there are, under little address space: no memory is asked for by a count."""
    def little():
        resource.setrlimit(resource.RLIMIT_AS, (32 << 20, 32 << 20))
    usual = allocator.run(program, ["unpack"], PACKET[:13].hex().encode() + b"00" * 32, preexec_fn=little)
    yield "an empty packet in little memory", usual[0] == (0, b"packet 1 3\n", b"")
    for place, name in ((13, "jobs"), (21, "tasks"), (29, "machines"), (37, "proposals")):
        for count in (1, 2 ** 16, 2 ** 26, 2 ** 31, 2 ** 32, 2 ** 40, 2 ** 58, 2 ** 63 - 1, 2 ** 63, 2 ** 64 - 1):
            empty = bytearray(PACKET[:13] + bytes(32))
            empty[place:place + 8] = count.to_bytes(8, "big")
            answer, counted = allocator.run(program, ["unpack"], empty.hex().encode(), preexec_fn=little)
            fine = answer == (3, b"", b"firmament: refusal 6\n") and counted["greatest"] <= usual[1]["greatest"] \
                and counted["most"] <= usual[1]["most"] + 4096 and not counted["refused"]
            yield "a packet that says %d %s: %s %s" % (count, name, answer, counted), fine


def spaces(program):
    """An endless input of spaces, one at each read: it ends with one read more than an input may have bytes."""
    with tempfile.TemporaryDirectory() as folder, open(os.path.join(folder, "reads"), "wb+") as reads:
        reads.truncate(4096)
        env = {"LD_PRELOAD": refusing.library(folder, "spaces"), "SPACES": reads.name}
        yield "spaces for ever", seen(program, ["graph"], b"", env=env) == BROKEN
        yield "%d reads of spaces" % (LIMIT + 1), struct.unpack("Q", reads.read(8)) == (LIMIT + 1,)


def sizes(program, entries=100000, machines=10000, jobs=31000):
    """More than is usual: each is answered, and not out of memory."""
    one = reference.answer(["graph"], script(tell("machine")))[1].encode()
    trims = [{"at": 1, "trim": 0}] * entries
    yield "a tell after %d entries" % entries, seen(program, ["graph"], compact(trims + [tell("machine")])) == (0, one, b"")
    tells = [tell("progress", attempt=n % 7) for n in range(entries)]
    yield "a tell after %d tells" % entries, seen(program, ["graph"], compact(tells + [tell("machine")])) == (0, one, b"")
    wide = compact([tell("machine", id="00000000-0000-0000-0000-%012x" % n) for n in range(machines)])
    status, out, err = reference.answer(["graph"], wide)
    yield "%d machines" % machines, seen(program, ["graph"], wide) == (status, out.encode(), err.encode())
    told = [tell("job", id="00000000-0000-0000-0000-%012x" % n) for n in range(jobs)]
    large = compact(told + [{"at": 1, "cut": {"name": "news"}}, {"at": 2, "deliver": "news"}], numbers=(1, 2))
    status, spelled, err = seen(program, ["pack", "news"], large)
    yield "a packet of %d jobs" % jobs, (status, len(spelled), err) == (0, 2 * (45 + 34 * jobs) + 1, b"")
    status, lines, err = seen(program, ["unpack"], spelled)
    yield "its lines", (status, lines.count(b"\n"), err) == (0, jobs + 1, b"")
    yield "it is delivered", seen(program, ["agree"], large) == DONE
    yield "it is cut off", seen(program, ["unpack"], spelled[:-3]) == (3, b"", b"firmament: refusal 6\n")


def compact(steps, numbers=(1,)):
    return json.dumps({"coordinators": list(numbers), "steps": steps}, separators=(",", ":")).encode()


def all_tests(program, allocator):
    for tests in (numbers(program), texts(program), broken_packets(program), counts(program, allocator), spaces(program),
                  sizes(program)):
        yield from tests


if __name__ == "__main__":
    differ = [name for name, fine in broken_packets(sys.argv[1], every_byte=True) if not fine]
    print("\n".join(differ + ["%d differ" % len(differ)]))
    sys.exit(bool(differ))
