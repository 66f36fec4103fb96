"""Tests of what may happen around a store, by name, for tests/run: syncs that fail, disks without room, links, locks, and streams that are closed
or do not block.

What is told here of a store's files stands in docs/store.md. Tests that need a disk of their own say so where none can be mounted.
"""
import contextlib
import fcntl
import os
import pathlib
import re
import select
import shutil
import signal
import subprocess
import threading
import time

import durable
import lined
import stored
from durable import LIST, NOT_COMPACTED, OPEN, UNUSABLE, answered, answers_in, folder, follow, is_whole, job, known, numbers, specs, superseded

REPLACED = b"firmament: refusal 22, since the file of the store was removed or replaced\n"
LOCKED = b"firmament: refusal 22, since another process has the store\n"
UNSUPPORTED = b"firmament: refusal 22, since the file system cannot lock the file of the store or keep others from reading it\n"
VICTIM = b"not of the store\n"


@contextlib.contextmanager
def running(program, path, **how):
    """A run with the store at the path, which listed its coordinators. It is killed at the end, if it still runs."""
    with subprocess.Popen([program, "follow", "--store", str(path)], stdin=subprocess.PIPE, stdout=subprocess.PIPE, stderr=subprocess.PIPE, **how) as ran:
        watch = threading.Timer(60, ran.kill)
        watch.start()
        try:
            told(ran, OPEN)
            yield ran
        finally:
            watch.cancel()
            ran.kill()


def told(ran, lines):
    """What a run answers to lines that it is told, one after another: the last line of each answer, none once it ended."""
    answers = []
    for line in lines.splitlines(keepends=True):
        with contextlib.suppress(BrokenPipeError):
            ran.stdin.write(line)
            ran.stdin.flush()
        answers.append(answered(ran.stdout))
    return answers


def ended(ran):
    """The status of a run whose input ends, and what it said on standard error."""
    with contextlib.suppress(BrokenPipeError):
        ran.stdin.close()
    said = ran.stderr.read()
    return ran.wait(), said


@contextlib.contextmanager
def disk(place, size):
    """A small disk in memory at the place, or none if it cannot be mounted."""
    place.mkdir()
    mounted = subprocess.run(["mount", "-t", "tmpfs", "-o", f"size={size}", "tmpfs", place], stderr=subprocess.DEVNULL).returncode == 0
    try:
        yield place if mounted else None
    finally:
        if mounted:
            subprocess.run(["umount", "-l", place], check=True)


def mount(image, place):
    """Whether the image of a disk could be mounted there."""
    return subprocess.run(["mount", "-o", "loop", image, place], stderr=subprocess.DEVNULL).returncode == 0


def fill(path):
    """A file that takes all the room that its disk has."""
    with open(path, "wb", buffering=0) as file, contextlib.suppress(OSError):
        while True:
            file.write(bytes(1 << 16))


def after_failed_sync(program):
    """A sync fails, and the process ends. What the next one says `ok` to is on the disk: it is there once the disk is mounted anew."""
    with folder() as place, disk(place / "host", "24m") as host:
        if not host or not shutil.which("mkfs.ext4"):
            print("store_hazards: no sync fails on a disk of its own, since none can be mounted")
            return
        image, inner = host / "image", place / "inner"
        inner.mkdir()
        subprocess.run(["truncate", "-s", "40m", image], check=True)
        subprocess.run(["mkfs.ext4", "-q", "-O", "^has_journal", image], check=True)
        if not mount(image, inner):
            print("store_hazards: no sync fails on a disk of its own, since no loop device can be had")
            return
        try:
            yield from sync_fails_on(program, host, image, inner)
        finally:
            subprocess.run(["umount", "-l", inner], check=True)


def sync_fails_on(program, host, image, inner):
    """The same on a disk that is mounted there, whose image is on a host that can be filled."""
    path, oks = inner / "store", 0
    follow(program, path, OPEN + job() + specs(0, 40))
    os.sync()
    with running(program, path) as first:
        oks = told(first, specs(40, 40)).count(b"ok\n")
        fill(host / "ballast")
        # many lines in one commit, so that several pages of the file are lost, and not one alone that the next line dirties again
        first.stdin.write(specs(80, 400))
        first.stdin.flush()
        answers = first.stdout.read().count(b"ok\n")
        status, said = ended(first)
        yield "the sync fails", status == 9 and said.startswith(UNUSABLE) and answers < 400
        sure = 80 + answers
    yield "all before it was answered", oks == 40
    (host / "ballast").unlink()
    with running(program, path) as second:
        listed = told(second, LIST)
        yield "the next process answers", listed == [b"ok\n"]
        more = told(second, specs(5000, 20)).count(b"ok\n")
        yield "and takes in lines", more == 20
        found = known_now(second)
        # killed: nothing that it might do at its end brings anything onto the disk
        second.kill()
    yield "it knows what was answered", set(numbers(sure)) <= set(found)
    lost_cache(image, inner, host.parent / "copy")
    after = follow(program, path, OPEN + LIST)
    yield "what it knew and said is on the disk", after[0] == 0 and after[1].count(b"task ") >= len(found) and set(found) <= set(known(program, path))


def known_now(ran):
    """The tasks that a run knows."""
    ran.stdin.write(LIST)
    ran.stdin.flush()
    ids = []
    while (line := ran.stdout.readline()) and line != b"ok\n":
        if line.startswith(b"task "):
            ids.append(int(line.split()[1].decode().replace("-", ""), 16))
    return ids


def lost_cache(image, inner, copy):
    """The disk as it is once its machine lost all that no sync brought onto it: its image is copied, and mounted in its place."""
    subprocess.run(["cp", "--sparse=always", image, copy], check=True)
    subprocess.run(["umount", "-l", inner], check=True)
    assert mount(copy, inner)


def marked(program):
    """A process that ended well leaves a mark, and the next one takes the file as it is. After any other end it is written anew."""
    with folder() as place:
        storing, path = durable.Storing(program, place), place / "store"
        mark = path.with_name("store.clean")
        follow(program, path, OPEN + job() + specs(0, 9))
        line = b"clean %d %d" % (path.stat().st_ino, path.stat().st_size)
        yield "the mark is of the file", mark.read_bytes().startswith(line) and mark.stat().st_mode & 0o777 == 0o600
        (done, calls) = storing.run(path, OPEN + specs(9, 1))
        yield "a file that is marked is used as it is: %s" % calls, done[0] == 0 and "r" not in calls
        with running(program, path) as ran:
            yield "no mark while it runs", not mark.exists()
            yield "it takes in a line", told(ran, specs(10, 1)) == [b"ok\n"]
        kept = [mark.read_bytes() if mark.exists() else b""]
        follow(program, path, OPEN)
        other = place / "other"
        follow(program, other, OPEN + job())
        kept += [mark.read_bytes()[:-1], b"", b"clean\n", mark.read_bytes() + b"\n", other.with_name("other.clean").read_bytes()]
        for number, forged in enumerate(kept):
            mark.write_bytes(forged)
            inode = path.stat().st_ino
            (status, out, err), calls = storing.run(path, OPEN + LIST)
            yield "written anew, by mark %d: %s" % (number, calls), (status, err) == (0, b"") and "r" in calls and path.stat().st_ino != inode
            yield "and says the same, by mark %d" % number, out.count(b"task ") == 11
        yield from unmarked_end(program, place)


def unmarked_end(program, place):
    """A process that is killed, or whose store is another cluster's, leaves no new mark."""
    path = place / "killed"
    with running(program, path) as ran:
        told(ran, job() + specs(0, 3))
    yield "killed: no mark", not path.with_name("killed.clean").exists()
    follow(program, path, OPEN)
    before = path.with_name("killed.clean").read_bytes()
    seen = follow(program, path, OPEN, "--store-label", "other")
    yield "another cluster's: the mark stays", seen[0] == 9 and path.with_name("killed.clean").read_bytes() == before


def written_in_place(program):
    """If there is no room for a second copy, a file whose process did not end well is written anew where it is."""
    with folder() as place, disk(place / "small", "2m") as small:
        if not small:
            print("store_hazards: nothing is written in place, since no small disk can be mounted")
            return
        path = small / "store"
        follow(program, path, OPEN + job() + specs(0, 8000))
        path.with_name("store.clean").unlink()
        (small / "ballast").write_bytes(bytes((2 << 20) - path.stat().st_size - (300 << 10)))
        inode, data = path.stat().st_ino, path.read_bytes()
        status, out, err = follow(program, path, OPEN + specs(8000, 3))
        yield "it goes on", (status, err, out.count(b"ok\n")) == (0, b"", 4)
        yield "in place", path.stat().st_ino == inode and path.read_bytes().startswith(data) and is_whole(path)
        yield "no copy is left", not path.with_name("store.new").exists()


def no_room(program):
    """A store that is due for compaction on a disk without room for a second copy takes in lines all the same, and says so once."""
    with folder() as place, disk(place / "small", "3m") as small:
        if not small:
            print("store_hazards: no compaction lacks room, since no small disk can be mounted")
            return
        path = small / "store"
        follow(program, path, OPEN + job() + specs(0, 12000))
        follow(program, path, OPEN)
        superseded(path)
        grown = path.stat().st_size
        (small / "ballast").write_bytes(bytes((3 << 20) - grown - (400 << 10)))
        for turn in range(3):
            status, out, err = follow(program, path, OPEN + specs(12000 + turn, 1))
            yield "start %d: it takes a line in" % turn, (status, out) == (0, b"ok\nok\n") and err.count(NOT_COMPACTED) == 1
            yield "start %d: no copy is left" % turn, not path.with_name("store.new").exists()
        with running(program, path) as ran:
            yield "many lines", told(ran, specs(12003, 40)) == [b"ok\n"] * 40
            status, err = ended(ran)
            yield "are told of once", status == 0 and err.count(NOT_COMPACTED) == 1
        (small / "ballast").unlink()
        status, _, err = follow(program, path, OPEN + specs(12043, 1))
        yield "with room it is compacted", (status, err) == (0, b"") and path.stat().st_size < grown
        yield "nothing is lost", known(program, path) == numbers(12044)


def seldom_compacted(program):
    """A store whose compact form has over 1 MiB is compacted once it has twice as many bytes, and not at each commit."""
    with folder() as place:
        storing = durable.Storing(program, place)
        (status, out, _), calls = storing.run(place / "store", OPEN + job() + specs(0, 32000))
        yield "all is answered", status == 0 and out.count(b"ok\n") == 32002
        yield "it has %d bytes" % (place / "store").stat().st_size, 3 << 19 < (place / "store").stat().st_size < 2 << 20
        # one makes the file, and one compacts it at 1 MiB
        yield "%d renames" % calls.count("r"), calls.count("r") == 2


def closed_streams(program):
    """A standard stream that is closed is no file of the store's: nothing is written there, and nothing is read from it."""
    with folder() as place:
        for redirects in ("<&-", ">&-", "<&- >&-", ">&- 2>&-", "<&- >&- 2>&-"):
            path = place / ("store" + str(len(redirects)))
            begin = f'exec "$0" follow --store "$1" {redirects}'
            done = subprocess.run(["sh", "-c", begin, program, path], input=OPEN + job() + specs(0, 3), stdout=subprocess.PIPE, stderr=subprocess.PIPE, timeout=60)
            files = [it.read_bytes() for it in place.iterdir()]
            yield redirects + ": no answer is in a file", not any(b"ok\n" in data for data in files)
            yield redirects + ": it ends, and not well", done.returncode in (3, 5, 6)
            yield redirects + ": the store is one", not path.exists() or is_whole(path)
            for it in place.iterdir():
                it.unlink()
        done = subprocess.run(["sh", "-c", 'exec "$0" follow --store "$1" 2>&-', program, place / "quiet"], input=OPEN + job() + specs(0, 3), stdout=subprocess.PIPE)
        yield "without standard error it runs as ever", (done.returncode, done.stdout) == (0, b"ok\n" * 5)


def links(program):
    """What others put where a store's further files go is never followed or overwritten, and what a store makes is its owner's alone."""
    with folder() as place:
        for kind, put in (("a link", os.symlink), ("a hard link", os.link)):
            path, victim = place / (kind + " store"), place / (kind + " victim")
            victim.write_bytes(VICTIM)
            follow(program, path, OPEN + job() + specs(0, 100))
            superseded(path)
            path.with_name(path.name + ".clean").unlink(missing_ok=True)
            for ending in (".new", ".clean", ".lock"):
                put(victim, str(path) + ending)
            status, out, err = follow(program, path, OPEN + specs(100, 1))
            yield kind + ": the store is compacted", (status, out, err) == (0, b"ok\nok\n", b"") and path.stat().st_size < durable.LEAST
            yield kind + ": what it names is as it was", victim.read_bytes() == VICTIM
            yield kind + ": all is known", known(program, path) == numbers(101)
        for mask in (0, 0o022, 0o777):
            path = place / ("mask %o" % mask)
            follow(program, path, OPEN + job(), preexec_fn=lambda mask=mask: os.umask(mask))
            modes = {it.name: it.stat().st_mode & 0o777 for it in place.iterdir() if it.name.startswith(path.name)}
            yield "the owner's alone, at umask %o: %s" % (mask, modes), set(modes.values()) == {0o600} and len(modes) == 2


def names(program):
    """The file is locked, whatever its name; and one that was removed or replaced ends the run at the next commit."""
    with folder() as place:
        path = place / "store"
        follow(program, path, OPEN + job())
        os.link(path, place / "twin")
        with running(program, path) as first:
            for name in ("store", "twin"):
                seen = follow(program, place / name, OPEN)
                yield "another process, by the name " + name, seen == (9, b"", LOCKED)
            for it in place.glob("*.lock"):
                it.unlink()
            yield "and without any file beside it", follow(program, path, OPEN) == (9, b"", LOCKED)
            yield "the first goes on", told(first, specs(0, 2)) == [b"ok\n"] * 2
        size = superseded(path)
        status, out, err = follow(program, path, OPEN + specs(2, 1))
        yield "a file with two names is not compacted", (status, out, err) == (0, b"ok\n" * 2, NOT_COMPACTED) and path.stat().st_size > size
        yield "and is one file", path.stat().st_ino == (place / "twin").stat().st_ino and known(program, place / "twin") == numbers(3)
        os.unlink(place / "twin")
        for name, change in (("removed", lambda: path.unlink()), ("moved", lambda: path.rename(place / "moved")), ("replaced", lambda: replace_file(path))):
            follow(program, path, OPEN + job())
            with running(program, path) as ran:
                before = told(ran, specs(0, 2))
                change()
                after = told(ran, specs(2, 1))
                yield name + ": no ok after that", (before, after) == ([b"ok\n"] * 2, [b""])
                yield name + ": it ends with a word", ended(ran) == (9, REPLACED)
            for it in place.iterdir():
                it.unlink()


def replace_file(path):
    """A copy takes the place of the file."""
    copy = path.with_name("copy")
    shutil.copy(path, copy)
    copy.rename(path)


def no_plain_file(program):
    """What reads a store's file refuses what is none at once: a pipe may have no end, and to open it may wait."""
    with folder() as place:
        os.mkfifo(place / "pipe")
        for word in ("records", "recover"):
            for other in (place / "pipe", place, "/dev/zero", "/dev/null"):
                try:
                    done = subprocess.run([program, word, other], stdin=subprocess.DEVNULL, stdout=subprocess.PIPE, stderr=subprocess.PIPE, timeout=20)
                    seen = done.returncode, done.stdout, done.stderr
                except subprocess.TimeoutExpired:
                    seen = "it waits"
                yield "%s of %s" % (word, other), seen == (9, b"", b"firmament: refusal 22, since the file of the store cannot be used\n")


def not_blocking(program):
    """A standard input and output that do not block are waited for."""
    text, count = OPEN + job() + specs(0, 100) + LIST * 40, 142
    wanted = lined.seen(program, text)[1]
    given, giving = os.pipe()
    taking, taken = os.pipe()
    for end in (given, taken):
        os.set_blocking(end, False)
    fcntl.fcntl(taken, fcntl.F_SETPIPE_SZ, 4096)
    with subprocess.Popen([program, "follow"], stdin=given, stdout=taken) as ran:
        os.close(given)
        os.close(taken)
        watch = threading.Timer(60, ran.kill)
        watch.start()
        giver = threading.Thread(target=give_slowly, args=(giving, text))
        giver.start()
        out = b""
        while piece := read_late(taking):
            out += piece
        giver.join()
        watch.cancel()
    os.close(taking)
    yield "all is answered", (ran.returncode, sum(answer == b"ok\n" or answer.endswith(b"\nok\n") for answer in answers_in(out))) == (0, count)
    yield "as by others", out == wanted


def give_slowly(end, text):
    """Writes the text in parts, with pauses, in which a reader finds nothing."""
    for begin in range(0, len(text), len(text) // 6 + 1):
        time.sleep(0.05)
        os.write(end, text[begin:begin + len(text) // 6 + 1])
    os.close(end)


def read_late(end):
    """Some bytes, after a pause, in which a writer finds no room."""
    select.select([end], [], [], 60)
    time.sleep(0.01)
    return os.read(end, 4096)


# what strace says of a call that came back well: a write or a cut, a sync, and a rename
WRITES = re.compile(r"(?:p?writev?(?:64|2)?|ftruncate(?:64)?)\((\d+)<(.*?)>")
SYNCS = re.compile(r"f(?:data)?sync\(\d+<(.*?)>\) += 0")
RENAMES = re.compile(r'rename(?:at2?)?\((?:AT_FDCWD(?:<.*?>)?, )?"(.*?)", (?:AT_FDCWD(?:<.*?>)?, )?"(.*?)"')


def out_of_order(lines):
    """The first line of a trace that comes too early, if any: an answer before all that was written or renamed is on the disk, or a rename before
    the file is."""
    written, renamed = set(), set()
    for line in lines:
        if found := WRITES.match(line):
            if found[1] == "1" and (written or renamed):
                return line
            if int(found[1]) > 2:
                written.add(found[2])
        elif found := SYNCS.match(line):
            written.discard(found[1])
            renamed.discard(found[1])
        elif found := RENAMES.match(line):
            if found[1] in written:
                return line
            renamed.add(os.path.dirname(found[2]))
    return None


def synced_files(program):
    """Which file each sync was of, as strace tells: at a compaction of the new file before its rename, and of the folder behind it."""
    with folder() as place:
        path, said = place / "store", place / "said"
        tracing = ["strace", "-f", "-y", "-qq", "-e", "signal=none", "-o", said, "-e", "trace=" + ",".join("?" + name for name in (
            "write", "writev", "pwrite64", "pwritev", "pwritev2", "fsync", "fdatasync", "ftruncate", "rename", "renameat", "renameat2"))]
        if not shutil.which("strace") or subprocess.run([*tracing, "true"], stderr=subprocess.DEVNULL).returncode:
            print("store_hazards: which file a sync is of is not traced, since there is no strace (Debian's package)")
            return
        follow(program, path, OPEN + job() + specs(0, 100))
        superseded(path)
        done = subprocess.run([*tracing, program, "follow", "--store", path], input=OPEN + specs(100, 3), stdout=subprocess.PIPE)
        lines = [re.sub(r"^\d+ +", "", line) for line in said.read_text().splitlines()]
        yield "it is compacted, and answers", done.stdout == b"ok\n" * 4 and sum(bool(RENAMES.match(line)) for line in lines) >= 1
        yield "all in order: %s" % out_of_order(lines), out_of_order(lines) is None
    write, sync, rename = 'write(4</a/b.new>, "x", 1) = 1', "fsync(4</a/b.new>) = 0", 'rename("/a/b.new", "/a/b") = 0'
    ends, answer = "fsync(5</a>) = 0", 'write(1</c>, "ok", 2) = 2'
    yield "such a trace is in order", out_of_order([write, sync, rename, ends, answer]) is None
    for name, lines in (("without the sync of the file", [write, rename, ends, answer]), ("with the rename before", [write, rename, sync, ends, answer]),
                        ("without the sync of the folder", [write, sync, rename, answer]), ("with another file's sync", [write, "fsync(6</a/d>) = 0", rename, ends, answer])):
        yield "a trace is refused " + name, out_of_order(lines) is not None


def no_locks(program):
    """A file system that has no locks is named, and the store refused. So is one on which a file cannot be its owner's alone."""
    with folder() as place:
        library = durable.refusing.library(str(place), "unlocking")
        for what in ("LOCKS", "MODES"):
            seen = follow(program, place / what, OPEN + job(), env={"LD_PRELOAD": library, what: "1"})
            yield "without " + what, seen == (9, b"", UNSUPPORTED)


def file_size_limits(program):
    """A limit for the size of files is a failed write, also where the signal that comes with it is not ignored by who starts the program."""
    with folder() as place:
        text = OPEN + job() + specs(0, 400)
        limited = 'trap "" XFSZ; ulimit -f 8; exec "$0" follow --store "$1"'
        done = subprocess.run(["sh", "-c", limited, program, place / "store"], input=text, stdout=subprocess.PIPE, stderr=subprocess.PIPE)
        yield "it ends with a word", done.returncode == 9 and done.stderr.startswith(UNUSABLE)
        starter = (pathlib.Path(__file__).resolve().parent.parent / "bin/firmament").read_text()
        yield "bin/firmament has the signal ignored", 'trap "" XFSZ\n' in starter and starter.index('trap "" XFSZ') < starter.index("exec")


GROUPS = {test.__name__: test for test in (
    after_failed_sync, marked, written_in_place, no_room, seldom_compacted, closed_streams, links, names, no_plain_file, not_blocking, synced_files,
    no_locks, file_size_limits)}


def all_tests(program, chosen=tuple(GROUPS)):
    for name in chosen:
        for what, fine in GROUPS[name](program):
            yield "%s, %s" % (name, what), fine
