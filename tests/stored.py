#!/usr/bin/env python3
"""Reads and writes the files of a store as docs/store.md says, and knows nothing else of them: tests/stored.py

Prints the file that the tests in crates/fm_tests/src/crdt/store.rt have as STORE, in rows as they stand there. The status is 1 if they have
another one. tests/salvaged.py reads and writes stores with this.
"""
import hashlib
import pathlib
import re
import sys

ROOT = pathlib.Path(__file__).resolve().parent.parent
TESTS = ROOT / "crates/fm_tests/src/crdt/store.rt"
MAGIC = b"FMSTORE1"
# packet 3 of coordinator 1: job 1 at version 2 of writer 1, not withdrawn, wait 600, preempt 800; and packet 4 of no operations
JOB = (b"FDG2" + bytes([1]) + (3).to_bytes(8, "big") + (1).to_bytes(8, "big") + (1).to_bytes(16, "big") + (2).to_bytes(8, "big")
       + bytes([1, 0]) + (600).to_bytes(4, "big") + (800).to_bytes(4, "big") + bytes(24))
NOTHING = b"FDG2" + bytes([1]) + (4).to_bytes(8, "big") + bytes(32)


class Damaged(Exception):
    """The bytes are no store from the place on."""

    def __init__(self, place):
        super().__init__(place)
        self.place = place


def length_field(count):
    """The length of a record, with its sum."""
    number = count.to_bytes(8, "big")
    return number + hashlib.sha256(number).digest()[:8]


def frame(record):
    return length_field(len(record)) + hashlib.sha256(record).digest() + record + b"\xff"


def head_record(label, numbers):
    return bytes([len(numbers), *numbers]) + label.encode()


def store(label, numbers, packets):
    """The file of a store."""
    return MAGIC + b"".join(frame(record) for record in [head_record(label, numbers), *packets])


def record_at(data, place):
    """The record whose frame begins at the place, and the place behind it; none if no whole frame is there."""
    count = int.from_bytes(data[place:place + 8], "big")
    end = place + 49 + count
    record = data[place + 48:end - 1]
    return (record, end) if end <= len(data) and data[place:end] == frame(record) else None


def is_torn(tail):
    """Whether a tail is what is left of a frame that was not written whole."""
    front = tail.rstrip(b"\0")
    if len(front) < 16:
        return True
    count = int.from_bytes(front[:8], "big")
    return front[:16] == length_field(count) and len(front) < 49 + count


def read(data):
    """The records of a file, the head first, and how many bytes they take; none and 0 if the file is unfinished."""
    if not data.startswith(MAGIC):
        if MAGIC.startswith(data.rstrip(b"\0")):
            return [], 0
        raise Damaged(0)
    records, place = [], len(MAGIC)
    while place < len(data):
        found = record_at(data, place)
        if found is None:
            if not is_torn(data[place:]):
                raise Damaged(place)
            break
        record, place = found
        records.append(record)
    return records, place if records else 0


def outcome(data):
    """How many packets are read of a file and how many bytes its store has, or the place of the damage."""
    try:
        records, whole = read(data)
    except Damaged as damage:
        return "damaged", damage.place
    return max(0, len(records) - 1), whole


def rows(data):
    """The bytes as the tests have them."""
    words = [str(byte) if byte < 10 else f"{byte:#x}" for byte in data]
    return "".join("    " + ", ".join(words[at:at + 16]) + ",\n" for at in range(0, len(words), 16))


def checks(data, ends):
    """Whether each cut of the file, with and without zeros behind it, and each changed bit is read as the tests want it."""
    for count in range(len(data) + 1):
        whole = max(end for end in (0, *ends) if end <= count)
        wanted = (max(0, ends.index(whole)) if whole else 0), whole
        assert outcome(data[:count]) == outcome(data[:count] + bytes(7)) == wanted, count
    for place in range(len(data)):
        begin = max(end for end in (0, len(MAGIC), *ends) if end <= place)
        for bit in range(8):
            changed = bytearray(data)
            changed[place] ^= 1 << bit
            assert outcome(bytes(changed)) == ("damaged", begin), (place, bit)


def main():
    data = store("west", [1, 2], [JOB, NOTHING])
    ends = [len(store("west", [1, 2], packets)) for packets in ([], [JOB], [JOB, NOTHING])]
    checks(data, ends)
    print(rows(data), end="")
    found = re.search(r"const STORE: \[u8; %d\] = \[\n(.*?)\];" % len(data), TESTS.read_text(), re.DOTALL)
    same = found and bytes(int(word, 0) for word in re.findall(r"\w+", found[1])) == data
    print("the tests have these bytes" if same else f"the tests do not have these {len(data)} bytes, of which stores end at {ends}")
    return 0 if same else 1


if __name__ == "__main__":
    sys.exit(main())
