"""The stores that tests leave. tests/store_reader.py reads each. `firmament records` and `firmament recover` must print what it finds, and
a stream that opens the store must know that. A test that has stores makes its folder by `folder`, and calls `keep` for what a store has on
the way. Behind each group tests/run tells what came of its stores, as one more test."""
import contextlib
import itertools
import json
import pathlib
import subprocess
import tempfile

import store_reader

# a packet of more bytes is recovered in pieces
MOST_IN_LINE = 33_554_422
# the content of each store that is not compared yet, with a name, and how many folders they come from
_kept, _folders = {}, []


@contextlib.contextmanager
def folder():
    """A folder that is gone in the end, and whose stores are kept to be compared."""
    with tempfile.TemporaryDirectory() as made:
        _folders.append(made)
        yield pathlib.Path(made)
        for path in sorted(pathlib.Path(made).rglob("*")):
            if path.is_file() and not path.is_symlink() and has_store(path):
                keep(path)


def has_store(path):
    """Whether a file begins as one of a store does, whatever its name."""
    with path.open("rb") as file:
        return file.read(len(store_reader.MAGIC)) == store_reader.MAGIC


def keep(path):
    """Keeps what the store at the path has now."""
    _kept.setdefault(pathlib.Path(path).read_bytes(), path)


def outcomes(program):
    """One test of all stores that were kept since the last call; none if there was no folder for them."""
    kept, folders = dict(_kept), len(_folders)
    _kept.clear()
    _folders.clear()
    if folders:
        wrong = [f"{path}: {command}" for data, path in kept.items() for command in differing(program, data)]
        yield "%d stores of %d folders are read as their page says: %s" % (len(kept), folders, wrong[:9]), bool(kept) and not wrong


def differing(program, data):
    """The commands that say of a store what the reader does not."""
    with tempfile.TemporaryDirectory() as made:
        path = pathlib.Path(made) / "store"
        path.write_bytes(data)
        for command in ("records", "recover"):
            done = subprocess.run([program, command, path], stdin=subprocess.DEVNULL, capture_output=True, timeout=120)
            if not is_as_read(data, command, (done.returncode, done.stdout, done.stderr)):
                yield command
        store = store_reader.read(data)
        # a file without a head, or without coordinators, has nothing that a stream could ask for
        if store.coordinators and not is_opened(program, store, path):
            yield "follow"


def is_opened(program, store, path):
    """Whether a stream that opens the store has coordinators which know what the reader found; or refuses it at the place of the damage."""
    lines = [{"coordinators": list(store.coordinators)}, *({"at": number, "cut": {}} for number in store.coordinators)]
    words = [program, "follow", f"--store={path}", b"--store-label=" + store.label]
    before = path.read_bytes()
    done = subprocess.run(words, input=b"".join(json.dumps(line).encode() + b"\n" for line in lines), capture_output=True, timeout=120)
    if store.tail == "damaged":
        seen = done.returncode, done.stdout, done.stderr
        is_left = path.read_bytes() == before and not store_reader.ended_well(path)
        return is_left and seen == (8, b"", b"firmament: refusal 21 at byte %d\n" % store.place)
    said = b"firmament: the store was torn at byte %d, and is cut off there\n" % store.place if store.tail == "torn" else b""
    known, nothing = store_reader.knowledge(store), store_reader.joined([])
    answers = done.stdout.splitlines()
    digits, ends = answers[1::2], [*answers[:1], *answers[2::2]]
    found = [store_reader.decoded(bytes.fromhex(each.decode()))[2] for each in digits]
    fine = (done.returncode, done.stderr) == (0, said) and set(ends) == {b"ok"} and store_reader.ended_well(path)
    return fine and found == [known.get(number, nothing) for number in store.coordinators]


def is_as_read(data, command, seen):
    """Whether a command's status and the texts that it wrote are those that the reader comes to for the file."""
    store, (status, out, err) = store_reader.read(data), seen
    is_right = {"records": is_listed, "recover": is_recovered}[command]
    said = b"firmament: refusal 21 at byte %d\n" % store.place if store.tail == "damaged" else b""
    return (status, err) == (8 if said else 0, said) and is_right(store, out)


def is_listed(store, text):
    return text == b"".join(line + b"\n" for line in store_reader.record_lines(store))


def is_recovered(store, text):
    """Whether the text has one packet of all that each coordinator knew, or pieces of it if a line cannot hold it."""
    lines = text.splitlines(keepends=True)
    for number, known in store_reader.knowledge(store).items():
        packet = store_reader.encoded(number, 0, known)
        if len(packet) <= MOST_IN_LINE:
            count = 1
            fine = lines[:1] == [packet.hex().encode() + b"\n"]
        else:
            front = packet[:5].hex().encode()
            count = sum(1 for _ in itertools.takewhile(lambda line: line.startswith(front), lines))
            fine = is_whole(packet, [bytes.fromhex(line.decode()) for line in lines[:count]])
        if not fine:
            return False
        lines = lines[count:]
    return not lines


def is_whole(packet, pieces):
    """Whether pieces that fit in lines say together what a packet says."""
    read, (sender, number, known) = [store_reader.decoded(piece) for piece in pieces], store_reader.decoded(packet)
    fit = all(len(piece) <= MOST_IN_LINE for piece in pieces) and all(piece[:2] == (sender, number) for piece in read)
    return fit and store_reader.joined(piece[2] for piece in read) == known
