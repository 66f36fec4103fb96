"""Tests of `records` and `recover` on stores that tests/stored.py writes. What they print is worked out here by docs/store.md and
docs/formats.md alone, with the packets of tests/reference.py."""
import os
import pathlib
import pwd
import re
import shutil
import subprocess
import tempfile

import reference
import store_reader
import stored
import stores_left

ROOT = pathlib.Path(__file__).resolve().parent.parent
MOST_IN_LINE = 33_554_422
UNUSABLE = b"firmament: refusal 22, since the file of the store cannot be used\n"
MOST_LABEL, MOST_LISTED = 200, 64


def unique(number):
    return reference.name(number)


def packet(sender, number, *operations, version=b"FDG2"):
    """The bytes of a packet of these operations."""
    told = {reference.operation(kind, fields) for kind, fields in operations}
    return bytes.fromhex(reference.packed(reference.Packet(sender, number, told), version)[1])


def job(of, version=1, writer=1):
    return "job", {"id": unique(of), "version": version, "writer": writer, "withdrawn": False, "wait": 500, "preempt": 800}


def machine(of):
    return "machine", {"id": unique(of), "incarnation": 1, "version": 1, "writer": 1, "up": True, "slots": 2, "nic": 1000}


def spec(of, prefer=()):
    return "spec", {"id": unique(of), "version": 1, "writer": 1, "withdrawn": False, "job": unique(1), "request": 100, "prefer": list(prefer)}


def propose(of, coordinator):
    return "propose", {"id": unique(of), "attempt": 0, "coordinator": coordinator, "machine": unique(10), "incarnation": 1}


FIRST = packet(1, 0, job(1), machine(10))
PACKETS = (FIRST, packet(2, 3, job(1, version=2, writer=2)), packet(1, 7, spec(17), propose(17, 1), propose(17, 2)), packet(2, 0))
LABELS = "west", "", "two words", "é\n\x1b[31m\x7f", "x" * MOST_LABEL
LISTS = [1, 2], [2, 1], [2], [], [64], list(range(64, 0, -1))
# records that are no head, and one that is
NO_HEADS = (b"", b"\x01", b"\x02\x01", b"\x01\x00", b"\x01\x41", b"\x02\x01\x01", bytes([65, *range(1, 65), 1]), b"\x00" + b"x" * (MOST_LABEL + 1))
NO_PACKETS = b"", b"FDG2", FIRST + b"\0", FIRST[:-1], b"FDG3" + FIRST[4:], packet(1, 0)[:4] + b"\0" + packet(1, 0)[5:]


# ---- what is to be printed

def head_in(record):
    """The coordinators and the label of a record, or None if it is no head's."""
    if not record or len(record) < 1 + record[0]:
        return None
    numbers, label = list(record[1:1 + record[0]]), record[1 + record[0]:]
    fine = len(numbers) <= MOST_LISTED and len(set(numbers)) == len(numbers) and all(1 <= n <= 64 for n in numbers) and len(label) <= MOST_LABEL
    return (numbers, label) if fine else None


def head_line(record):
    numbers, label = head_in(record)
    shown = bytes(0x3f if byte < 32 or byte == 127 else byte for byte in label)
    return b" ".join([b"head 8", *(b"%d" % n for n in (len(record), len(numbers), *numbers)), shown]) + b"\n"


def packet_line(place, record):
    found = reference.packet_in(record)
    known = reference.Known(found.operations)
    counts = (len(each) for each in (known.jobs, known.progress, known.incarnations, known.spots))
    return b"packet " + b" ".join(b"%d" % n for n in (place, len(record), found.sender, found.number, *counts)) + b"\n"


def end_of(data, place):
    """How the bytes end at a place where no whole frame is."""
    return "torn" if stored.is_torn(data[place:]) else "damaged"


def reading(data):
    """The head's record, or None; the packets with their places; and how the bytes end, and where."""
    if not data.startswith(stored.MAGIC):
        return None, [], "torn" if stored.MAGIC.startswith(data.rstrip(b"\0")) else "damaged", 0
    found, packets = stored.record_at(data, 8), []
    if found is None:
        return None, [], end_of(data, 8), 8
    head, place = found
    if head_in(head) is None:
        return None, [], "damaged", 8
    while place < len(data):
        found = stored.record_at(data, place)
        if found is None:
            return head, packets, end_of(data, place), place
        if reference.packet_in(found[0]) is None:
            return head, packets, "damaged", place
        packets.append((place, found[0]))
        place = found[1]
    return head, packets, "clean", place


def listed(data):
    head, packets, end, place = reading(data)
    text = head_line(head) if head is not None else b""
    text += b"".join(packet_line(at, record) for at, record in packets)
    return text + (b"" if end == "clean" else b"%s at byte %d\n" % (end.encode(), place))


def recovered(data):
    head, packets, _, _ = reading(data)
    text = ""
    for number in head_in(head)[0] if head is not None else ():
        found = [each for each in (reference.packet_in(record) for _, record in packets) if each.sender == number]
        if found:
            text += reference.packed(reference.Packet(number, 0, set().union(*(each.operations for each in found))))[1]
    return text.encode()


def wanted(command, data):
    """The status, and what is written."""
    _, _, end, place = reading(data)
    said = b"firmament: refusal 21 at byte %d\n" % place if end == "damaged" else b""
    return (8 if said else 0), {"records": listed, "recover": recovered}[command](data), said


# ---- the files

def cut(data):
    """The file after a crash: each front of it, and some with zeros behind."""
    for count in range(len(data) + 1):
        yield data[:count]
        yield data[:count] + bytes(7)


def changed(data):
    """The file with a byte changed: each bit of each in turn, one for a byte."""
    for place in range(len(data)):
        some = bytearray(data)
        some[place] ^= 1 << place % 8
        yield bytes(some)


def heads():
    for label in LABELS:
        for numbers in LISTS:
            yield stored.store(label, numbers, PACKETS)
    for record in NO_HEADS:
        yield stored.MAGIC + stored.frame(record) + stored.frame(FIRST)


def records():
    for record in NO_PACKETS:
        yield stored.store("west", [1, 2], [FIRST, record, FIRST])
    preferring = packet(1, 0, job(1), spec(17, [{"machine": unique(10), "credit": 5}]))
    yield stored.store("west", [1, 2], [packet(1, 0, job(1), spec(17), version=b"FDG1"), preferring, packet(3, 0, job(2))])
    yield stored.store("west", [1, 2], [packet(1, n, *(job(n * 100 + k) for k in range(90))) for n in range(20)])


def others():
    yield from (b"", b"{}", b"FMSTORE", b"FMSTORE2" + stored.store("west", [1], [])[8:], b"\0" * 4096, b"\x7fELF" * 100, FIRST.hex().encode())


def answers(program, path, data, command):
    path.write_bytes(data)
    done = subprocess.run([program, command, path], stdin=subprocess.DEVNULL, capture_output=True, timeout=120)
    seen = done.returncode, done.stdout, done.stderr
    return seen == wanted(command, data) and stores_left.is_as_read(data, command, seen) and path.read_bytes() == data


def told_again(program, data):
    """What is recovered is taken in by coordinators of a stream, which then know it."""
    path = pathlib.Path(tempfile.mkdtemp()) / "store"
    path.write_bytes(data)
    lines = subprocess.run([program, "recover", path], capture_output=True, timeout=120).stdout.split()
    stream = b'{"coordinators":[9]}\n' + b"".join(b'{"at":9,"take":"%s"}\n' % line for line in lines) + b'{"at":9,"ask":"list"}\n'
    done = subprocess.run([program, "follow"], input=stream, capture_output=True, timeout=120)
    known = reference.Known(set().union(*(reference.packet_in(record).operations for record in PACKETS)))
    path.unlink()
    path.parent.rmdir()
    return done.returncode == 0 and done.stdout == b"ok\n" * (1 + len(lines)) + "".join(reference.listing(known)).encode() + b"ok\n"


def of_jobs(first, behind):
    """The bytes of packet 0 of coordinator 1 that has a job for each number of the range."""
    fields = bytes(7) + b"\1\1\0" + (500).to_bytes(4, "big") + (800).to_bytes(4, "big")
    jobs = b"".join(number.to_bytes(16, "big") + fields for number in range(first, behind))
    return b"FDG2\1" + bytes(8) + (behind - first).to_bytes(8, "big") + jobs + bytes(24)


def halved(program, path):
    """Of two packets the longer one has one job too many for a line of a stream, and is printed as its halves."""
    count = (MOST_IN_LINE - 45) // 34
    for name, ends in (("a packet for a whole line", (1, count + 1)), ("a packet for two lines", (1, 1 + (count + 1) // 2, count + 2))):
        pieces = [of_jobs(first, behind) for first, behind in zip(ends, ends[1:])]
        yield "%s: at most so many bytes" % name, max(map(len, pieces)) <= MOST_IN_LINE < len(of_jobs(1, count + 2))
        path.write_bytes(stored.store("west", [1, 2], [of_jobs(ends[0], ends[-1])]))
        done = subprocess.run([program, "recover", path], stdin=subprocess.DEVNULL, capture_output=True, timeout=120)
        text = b"".join(piece.hex().encode() + b"\n" for piece in pieces)
        yield name, (done.returncode, done.stdout, done.stderr) == (0, text, b"")


def by_page(small):
    """The reader of tests/store_reader.py finds what the page shows of a store, and an answer that says anything else is noticed."""
    data = small + stored.frame(FIRST)[:-1]
    shown = re.search(r"(?:    .*\n)*    head 8 7 2 1 2 west\n(?:    .*\n)*", (ROOT / "docs/store.md").read_text())[0]
    listed_there = shown.replace("    ", "").encode()
    yield "the page's example", b"".join(line + b"\n" for line in store_reader.record_lines(store_reader.read(data))) == listed_there
    for command, text in (("records", listed_there), ("recover", recovered(data))):
        texts = text, text[:-1], b"", text + text, text.replace(b"1", b"2"), text.replace(b"0", b"3")
        seen = [*((0, each, b"") for each in texts), (8, text, b""), (0, text, b"firmament: refusal 21 at byte 329\n")]
        yield "what is noticed of " + command, [stores_left.is_as_read(data, command, each) for each in seen] == [True] + [False] * 7


def as_nobody():
    """A process that may read only what everyone may."""
    if os.getuid() == 0:
        nobody = pwd.getpwnam("nobody")
        os.setgroups([])
        os.setgid(nobody.pw_gid)
        os.setuid(nobody.pw_uid)


def unusable(program, folder):
    """Files that cannot be read."""
    hidden = folder / "hidden"
    hidden.write_bytes(stored.store("west", [1], []))
    hidden.chmod(0)
    # nobody may not reach the program where it was built
    program = shutil.copy(program, folder / "program")
    for command in ("records", "recover"):
        for name, path in (("a folder", folder), ("no file", folder / "none"), ("in no folder", folder / "none/store"), ("a hidden file", hidden),
                           ("no name", ""), ("a file for a folder", hidden / "store")):
            done = subprocess.run([program, command, path], capture_output=True, timeout=120, preexec_fn=as_nobody)
            yield "%s of %s" % (command, name), (done.returncode, done.stdout, done.stderr) == (9, b"", UNUSABLE)
        (folder / "empty").touch()
        done = subprocess.run([program, command, folder / "empty"], capture_output=True, timeout=120)
        yield command + " of nothing", (done.returncode, done.stdout, done.stderr) == wanted(command, b"")
    hidden.chmod(0o600)


def all_tests(program):
    small = stored.store("west", [1, 2], [FIRST, packet(2, 0)])
    yield from by_page(small)
    with tempfile.TemporaryDirectory() as folder:
        folder = pathlib.Path(folder)
        folder.chmod(0o755)
        for command in ("records", "recover"):
            for name, files in (("cuts", cut(small)), ("changed bytes", changed(small)), ("heads", heads()), ("records", records()), ("other files", others())):
                for count, data in enumerate(files):
                    yield "%s: %s %d" % (command, name, count), answers(program, folder / "store", data, command)
            (folder / "-x").write_bytes(small)
            done = subprocess.run([program, command, "--", "-x"], cwd=folder, capture_output=True, timeout=120)
            yield command + " of a name like a flag", (done.returncode, done.stdout, done.stderr) == wanted(command, small)
        yield from halved(program, folder / "store")
        yield from unusable(program, folder)
    yield "what is recovered can be told again", told_again(program, stored.store("west", [1, 2], PACKETS))
