#!/usr/bin/env python3
"""Reads the file of a store by docs/store.md and docs/formats.md alone: tests/store_reader.py FILE

It shares no code with the program, and was written by someone who had not read the program's own reader. So what both say of a file
is what the pages say. It answers the head, the packets with their records, the tail, and what each coordinator knew. As a script it
prints the lines that `firmament records` and then `firmament recover` should print.
"""
import collections
import functools
import hashlib
import itertools
import pathlib
import sys

MAGIC = b"FMSTORE1"
LONGEST_LABEL, MOST_LISTED = 200, 64
# what a frame has before its record, and in all beside it
BEFORE_RECORD, BESIDE_RECORD = 48, 49
MILLION, BILLION = 10 ** 6, 10 ** 9
# the fields of records, in the order of their encoding: bytes, and the least and the greatest value if they are not all allowed
NUMBER, TRUTH, ID, ATTEMPT, PHASE = (1, 1, 64), (1, 0, 1), (16,), (4,), (1, 0, 2)
PRICE, BANDWIDTH = (4, 0, BILLION), (4, 0, MILLION)
JOB = (8,), NUMBER, TRUTH, PRICE, PRICE
SPEC = (8,), NUMBER, TRUTH, ID, BANDWIDTH
PREFERENCE = ID, PRICE
STATE = (8,), NUMBER, TRUTH, (4, 1, 1000), BANDWIDTH
REPORT = (8,), PRICE
PROPOSAL = ID, ATTEMPT, NUMBER
SPOT = ID, (8,)

# label, a text of bytes; coordinators and packets in the order of the file; tail is clean, torn or damaged, at the place
Store = collections.namedtuple("Store", "label coordinators packets tail place")
Packet = collections.namedtuple("Packet", "place length sender number known")
# jobs, tasks, machines and proposals, each by its key: see decoded
Known = collections.namedtuple("Known", "jobs tasks machines proposals")


class NoPacket(Exception):
    """The bytes encode no packet."""


class Fields:
    """The bytes of a record of the file, read field by field."""

    def __init__(self, data):
        self.data, self.place = data, 0

    def one(self, size, least=0, most=None):
        piece = self.data[self.place:self.place + size]
        value = int.from_bytes(piece, "big")
        if len(piece) < size or value < least or (most is not None and value > most):
            raise NoPacket
        self.place += size
        return value

    def all(self, fields):
        return tuple(self.one(*field) for field in fields)

    def listed(self, count, key, value):
        """As many entries, whose keys rise strictly, each with its value."""
        found, last = {}, ()
        for _ in range(count):
            at = self.all(key)
            if at <= last:
                raise NoPacket
            last, found[at] = at, value()
        return found

    def task(self, has_preferences):
        """The progress of a task, and its spec or ()."""
        progress, spec = self.all((ATTEMPT, PHASE)), ()
        if self.one(*TRUTH):
            spec = self.all(SPEC)
            preferred = self.listed(self.one(1, 0, 4), PREFERENCE[:1], lambda: self.all(PREFERENCE[1:])) if has_preferences else {}
            spec += (tuple(machine + credit for machine, credit in preferred.items()),)
        return progress, spec

    def machine(self):
        """The incarnation of a machine, its state or (), and its report or ()."""
        incarnation, parts = self.one(8), self.one(1, 1, 3)
        return incarnation, self.all(STATE) if parts & 1 else (), self.all(REPORT) if parts & 2 else ()


# stores of tests often have one packet many times, and one store is asked for several times
@functools.lru_cache(16)
def decoded(data):
    """The sender, the number and the records of a packet in either version of the format."""
    fields, version = Fields(data), data[:4]
    if version not in (b"FDG1", b"FDG2"):
        raise NoPacket
    fields.place = 4
    sender, number = fields.all((NUMBER, (8,)))
    known = Known(fields.listed(fields.one(8), (ID,), lambda: fields.all(JOB)),
                  fields.listed(fields.one(8), (ID,), lambda: fields.task(version == b"FDG2")),
                  fields.listed(fields.one(8), (ID,), fields.machine),
                  fields.listed(fields.one(8), PROPOSAL, lambda: fields.all(SPOT)))
    if fields.place != len(data):
        raise NoPacket
    return sender, number, known


def spelled(values, fields):
    return b"".join(value.to_bytes(field[0], "big") for value, field in zip(values, fields))


def encoded(sender, number, known):
    """The packet in FDG2, so its one encoding there."""
    parts = [b"FDG2", spelled((sender, number, len(known.jobs)), (NUMBER, (8,), (8,)))]
    parts += (spelled(key + job, (ID, *JOB)) for key, job in sorted(known.jobs.items()))
    parts.append(spelled([len(known.tasks)], [(8,)]))
    for key, (progress, spec) in sorted(known.tasks.items()):
        parts.append(spelled((*key, *progress, bool(spec)), (ID, ATTEMPT, PHASE, TRUTH)))
        if spec:
            parts.append(spelled((*spec[:-1], len(spec[-1])), (*SPEC, (1,))) + b"".join(spelled(one, PREFERENCE) for one in spec[-1]))
    parts.append(spelled([len(known.machines)], [(8,)]))
    for key, (incarnation, state, report) in sorted(known.machines.items()):
        parts.append(spelled((*key, incarnation, bool(state) + 2 * bool(report)), (ID, (8,), (1,))))
        parts.append(spelled(state, STATE) + spelled(report, REPORT))
    parts.append(spelled([len(known.proposals)], [(8,)]))
    parts += (spelled(key + spot, (*PROPOSAL, *SPOT)) for key, spot in sorted(known.proposals.items()))
    return b"".join(parts)


def later_machine(one, other):
    """Of the greatest incarnation alone the greatest state and the greatest report."""
    if one[0] != other[0]:
        return max(one, other)
    return one[0], max(one[1], other[1]), max(one[2], other[2])


def joined(packets):
    """What packets say together: each register the greatest, and of proposals the least spot. No value, (), is below all."""
    joins = Known(max, lambda one, other: (max(one[0], other[0]), max(one[1], other[1])), later_machine, min)
    all_known = Known({}, {}, {}, {})
    for packet in packets:
        for into, join, records in zip(all_known, joins, packet):
            for key, value in records.items():
                into[key] = join(into[key], value) if key in into else value
    return all_known


def framed(data, place):
    """The record of the whole frame at the place, and where that ends; or the kind of tail that is there."""
    length, head = int.from_bytes(data[place:place + 8], "big"), data[place:place + 16]
    is_announced = len(head) == 16 and hashlib.sha256(head[:8]).digest()[:8] == head[8:]
    end = place + BESIDE_RECORD + length
    record = data[place + BEFORE_RECORD:end - 1]
    if is_announced and data[end - 1:end] == b"\xff" and hashlib.sha256(record).digest() == data[place + 16:place + BEFORE_RECORD]:
        return record, end
    # a front of a frame may be followed by zeros, and may end in some
    front = len(data[place:].rstrip(b"\0"))
    is_torn = front < 16 or is_announced and front < end - place
    return None, "clean" if place == len(data) else "torn" if is_torn else "damaged"


def head_of(record):
    """The coordinators and the label that a record has as a head, or None if it is no head."""
    count = record[0] if record else MOST_LISTED + 1
    numbers, label = tuple(record[1:1 + count]), record[1 + count:]
    fits = count <= MOST_LISTED and len(set(numbers)) == count and all(1 <= number <= 64 for number in numbers)
    return (numbers, label) if fits and len(label) <= LONGEST_LABEL else None


@functools.lru_cache(2)
def read(data):
    """The store that the bytes of a file have. One without a head, since it is unfinished or none, has no label."""
    if not data.startswith(MAGIC):
        front = data.rstrip(b"\0")
        return Store(None, (), [], "torn" if MAGIC.startswith(front) else "damaged", 0)
    record, end = framed(data, len(MAGIC))
    if record is None:
        return Store(None, (), [], "damaged" if end == "damaged" else "torn", len(MAGIC))
    if head_of(record) is None:
        return Store(None, (), [], "damaged", len(MAGIC))
    coordinators, label = head_of(record)
    packets = []
    while True:
        place = end
        record, end = framed(data, place)
        if record is None:
            return Store(label, coordinators, packets, end, place)
        try:
            packets.append(Packet(place, len(record), *decoded(record)))
        except NoPacket:
            return Store(label, coordinators, packets, "damaged", place)


def knowledge(store):
    """What each coordinator of the head that has packets knew by them, in the order of the head."""
    senders = {packet.sender for packet in store.packets}
    return {number: joined(packet.known for packet in store.packets if packet.sender == number)
            for number in store.coordinators if number in senders}


def ended_well(path):
    """Whether the mark beside the file says that the last process ended well, and left it as it is now."""
    mark, found = pathlib.Path(f"{path}.clean"), pathlib.Path(path).stat()
    words = found.st_ino, found.st_size, *divmod(found.st_ctime_ns, 10 ** 9)
    return mark.is_file() and mark.read_bytes() == b"clean %d %d %d %d\n" % words


def record_lines(store):
    """The lines of `firmament records`."""
    if store.label is not None:
        shown = bytes(63 if byte < 32 or byte == 127 else byte for byte in store.label)
        length = 1 + len(store.coordinators) + len(store.label)
        words = [b"%d" % number for number in (len(MAGIC), length, len(store.coordinators), *store.coordinators)]
        yield b" ".join([b"head", *words, shown])
    for packet in store.packets:
        yield b"packet " + b" ".join(b"%d" % number for number in (*packet[:4], *map(len, packet.known)))
    if store.tail != "clean":
        yield b"%s at byte %d" % (store.tail.encode(), store.place)


def main():
    store = read(pathlib.Path(sys.argv[1]).read_bytes())
    recovered = (encoded(number, 0, known).hex().encode() for number, known in knowledge(store).items())
    sys.stdout.buffer.writelines(line + b"\n" for line in itertools.chain(record_lines(store), recovered))


if __name__ == "__main__":
    main()
