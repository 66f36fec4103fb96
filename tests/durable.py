"""Tests of `firmament follow --store FILE`, by name, for tests/run: whatever ends a run, what was answered `ok` is known by the next one.

tests/storing.c has calls to files fail, or kills the process at one of them, and tells in which order they came.
"""
import contextlib
import json
import os
import pwd
import random
import re
import resource
import shutil
import signal
import subprocess
import threading
import time

import drawn
import lined
import refusing
import stored
from followed import answers_in as split
from stores_left import folder, keep

OPEN = b'{"coordinators":[1]}\n'
LIST = b'{"at":1,"ask":"list","of":"tasks"}\n'
GRAPH = b'{"at":1,"ask":"graph"}\n'
JOB = drawn.unique(1)
KILLS = 60
NO_SPACE, BROKEN = 28, 5
# what an operator sees if the store cannot be used
UNUSABLE = b"firmament: refusal 22"
NOT_COMPACTED = b"firmament: the store was not compacted, since no second copy can be written; the next try is at twice its size\n"
# the calls by which a mark is taken away, a copy takes the place of a file, and a mark is left
TAKES_MARK, COPIES, LEAVES_MARK = "s", "wsrs", "swss"
# a store with fewer bytes is not compacted
LEAST = 1 << 20


def spec(n):
    """The line that tells of task n."""
    return lined.line({"at": 1, "tell": {"spec": {
        "id": drawn.unique(1000 + n), "version": 1, "writer": 1, "withdrawn": False, "job": JOB, "request": n % 1000}}}) + b"\n"


def specs(first, count):
    return b"".join(spec(n) for n in range(first, first + count))


def follow(program, path, text, *words, **how):
    """The status of a run with the store at the path, and what it wrote."""
    return lined.seen(program, text, "--store", str(path), *words, **how)


def torn_line(path):
    """What the next run has to say of the store at the path on standard error: where it cuts off a torn end, if there is one."""
    data = path.read_bytes()
    whole = stored.read(data)[1]
    return b"firmament: the store was torn at byte %d, and is cut off there\n" % whole if 0 < whole < len(data) else b""


def known(program, path):
    """The tasks that are known by the store, in rising order."""
    keep(path)
    told = torn_line(path)
    status, out, err = follow(program, path, OPEN + LIST)
    assert (status, err) == (0, told), (status, err, told)
    ids = [line.split()[1].decode() for line in out.splitlines() if line.startswith(b"task ")]
    return [int(it.replace("-", ""), 16) for it in ids]


def numbers(count):
    """The ids of as many tasks, as numbers."""
    return [int(drawn.unique(1000 + n).replace("-", ""), 16) for n in range(count)]


def answers_in(out):
    """The answers, one after another."""
    return split(out)[0]


def alike(program):
    """A stream with a store, which is new, is answered as one without it."""
    for seed in range(12):
        text = lined.woven(seed)
        with folder() as place:
            plain, kept = lined.seen(program, text), follow(program, place / "store", text)
            yield "stream %d is answered alike" % seed, plain == kept


def again(program):
    """What several coordinators knew is known again, however the lines were divided among runs, and their packets join."""
    for seed in range(8):
        chance = random.Random("again %d" % seed)
        told = [lined.line({"at": chance.choice((1, 2, 3)), "tell": drawn.operation(chance)}) + b"\n" for _ in range(120)]
        opened, asked = b'{"coordinators":[1,2,3]}\n', b"".join(b'{"at":%d,"ask":"graph"}\n' % at for at in (1, 2, 3))
        whole = lined.answers(program, opened + b"".join(told) + asked)[-3:]
        with folder() as place:
            ends = sorted(chance.sample(range(len(told)), 4))
            for first, last in zip([0, *ends], [*ends, len(told)]):
                words = ["--renew-after", str(chance.choice((5, 40, 100000)))]
                status, _, err = follow(program, place / "store", opened + b"".join(told[first:last]), *words)
                yield "part %d of %d ended" % (first, seed), (status, err) == (0, b"")
            found = answers_in(follow(program, place / "store", opened + asked)[1])[-3:]
            yield "all is known again, %d" % seed, found == whole
            yield "the store is one by its page, %d" % seed, is_whole(place / "store")


def is_whole(path):
    """Whether the file is a store with nothing behind its records, as the reader that was written from the page says."""
    data = path.read_bytes()
    return stored.read(data)[1] == len(data)


def trimmed(program):
    """What was trimmed, and what came before a renewal, is in the store, within a group and across groups."""
    for lines in ((specs(0, 9) + b'{"at":1,"trim":9}\n' + specs(9, 3)), (specs(0, 9) + b'{"renew":true}\n' + specs(9, 3))):
        for slow in (False, True):
            with folder() as place:
                text = OPEN + lines
                if slow:
                    one_by_one(program, place / "store", text.splitlines(keepends=True))
                else:
                    follow(program, place / "store", text)
                yield "all tasks are known, %s, %r" % (slow, lines[-60:-40]), known(program, place / "store") == numbers(12)


def one_by_one(program, path, lines):
    """A run whose lines come each after the answer to the one before."""
    with subprocess.Popen([program, "follow", "--store", str(path)], stdin=subprocess.PIPE, stdout=subprocess.PIPE) as ran:
        for line in lines:
            ran.stdin.write(line)
            ran.stdin.flush()
            answered(ran.stdout)
        ran.stdin.close()
        return ran.wait()


def answered(out):
    """The last line of the next answer."""
    while line := out.readline():
        if line == b"ok\n" or line.startswith(b"refusal "):
            return line
    return b""


def not_awaited(program):
    """No answer waits for a line that is not whole yet: a line is answered though a part of the next is there."""
    with folder() as place, subprocess.Popen([program, "follow", "--store", str(place / "store")], stdin=subprocess.PIPE, stdout=subprocess.PIPE) as ran:
        text = OPEN + job() + specs(0, 40)
        begin = 0
        for end in (*range(7, len(text), 61), len(text)):
            ran.stdin.write(text[begin:end])
            ran.stdin.flush()
            whole = text[begin:end].count(b"\n")
            watch = threading.Timer(20, ran.kill)
            watch.start()
            answers = [answered(ran.stdout) for _ in range(whole)]
            watch.cancel()
            if whole:
                yield "answered up to byte %d" % end, answers == [b"ok\n"] * whole
            begin = end
        ran.stdin.close()


def killed(program, kills=KILLS):
    """Killed at random moments under load: each task that was answered `ok` is known, and none that was not sent."""
    chance = random.Random("killed")
    with folder() as place:
        path, sent, sure = place / "store", 0, 0
        follow(program, path, OPEN + job())
        for turn in range(kills):
            burst, count = chance.choice((1, 1, 4, 32, 400)), 3000
            more, oks = under_load(program, path, sent, count, burst, chance.uniform(0.02, 0.4))
            sure = max(sure, sent + oks)
            found = known(program, path)
            yield "kill %d: nothing lost" % turn, found[:sure] == numbers(sure)
            yield "kill %d: nothing from nowhere" % turn, found == numbers(len(found)) and len(found) <= sent + more
            sent = sure = len(found)
        yield "tasks were told: %d" % sent, sent > 10 * kills


def job():
    return lined.line({"at": 1, "tell": {"job": {"id": JOB, "version": 1, "writer": 1, "withdrawn": False, "wait": 600, "preempt": 800}}}) + b"\n"


def under_load(program, path, first, count, burst, seconds):
    """A run that is told of tasks, a burst at a time, and killed after a while: how many were sent, and how many answered `ok`."""
    ran = subprocess.Popen([program, "follow", "--store", str(path)], stdin=subprocess.PIPE, stdout=subprocess.PIPE)
    sent, oks = 0, 0
    killer = threading.Timer(seconds, ran.kill)
    with ran:
        ran.stdin.write(OPEN)
        ran.stdin.flush()
        answered(ran.stdout)
        killer.start()
        try:
            while sent < count:
                ran.stdin.write(specs(first + sent, burst))
                ran.stdin.flush()
                sent += burst
                for _ in range(burst):
                    oks += answered(ran.stdout) == b"ok\n"
        except BrokenPipeError:
            pass
        killer.cancel()
        ran.kill()
        with contextlib.suppress(BrokenPipeError):
            ran.stdin.close()
    return sent + burst, oks


class Storing:
    """Runs the program with the library of tests/storing.c."""

    def __init__(self, program, place):
        self.program, self.place = program, place
        self.library = refusing.library(str(place), "storing")

    def run(self, path, text, **asked):
        """The status of a run, what it wrote, and the letters of the calls that it made."""
        told = self.place / "told"
        told.unlink(missing_ok=True)
        env = {"LD_PRELOAD": self.library, "TOLD": str(told), **{name: str(value) for name, value in asked.items()}}
        done = follow(self.program, path, text, env=env)
        return done, told.read_text() if told.exists() else ""


def waits_for_syncs(calls):
    """Whether each answer comes behind a sync of all that was done to files before it, and there are both."""
    unsynced = False
    for call in calls:
        if call == "o" and unsynced:
            return False
        unsynced = (unsynced or call in "wtr") and call != "s"
    return "s" in calls and "o" in calls


def in_order(program):
    """No answer goes out before what it rests on was written and synced."""
    with folder() as place:
        storing = Storing(program, place)
        for lines in (specs(0, 1), specs(0, 700), GRAPH, b'{"at":1,"cut":{}}\n' + LIST):
            _, calls = storing.run(place / ("store %d" % len(lines)), OPEN + job() + lines)
            yield "synced before it is answered: %s" % calls[:60], waits_for_syncs(calls)
        _, calls = storing.run(place / ("store %d" % len(GRAPH)), OPEN + GRAPH * 9)
        yield "questions write nothing: %s" % calls, "w" not in calls[:calls.rindex("o")]


# what strace says of a call to a file that came back well, and the letter that tests/storing.c has for it
TRACED = (("w", r"p?writev?(64|2)?\((?![012]\b)"), ("o", r"writev?\(1\b"), ("s", r"f(data)?sync\("), ("t", r"ftruncate(64)?\("), ("r", r"rename(at2?)?\("))


def in_order_by_system(program):
    """The same as the system sees it, which strace tells. Says so if there is no strace that may trace a process."""
    with folder() as place:
        tracing = ["strace", "-f", "-qq", "-e", "signal=none", "-e", "trace=" + ",".join("?" + name for name in (
            "write", "writev", "pwrite64", "pwritev", "pwritev2", "fsync", "fdatasync", "ftruncate", "rename", "renameat", "renameat2")), "-o", place / "said"]
        if not shutil.which("strace") or subprocess.run([*tracing, "true"], stderr=subprocess.DEVNULL).returncode:
            print("durable: the order of system calls is not traced, since there is no strace (Debian's package)")
            return
        for count in (1, 700):
            subprocess.run([*tracing, program, "follow", "--store", place / ("store %d" % count)], input=OPEN + job() + specs(0, count), stdout=subprocess.DEVNULL)
            lines = [re.sub(r"^\d+ +", "", line) for line in (place / "said").read_text().splitlines()]
            calls = "".join(letter for line in lines for letter, form in TRACED if re.match(form, line))
            yield "synced before it is answered, by strace: %s" % calls[:60], waits_for_syncs(calls) and "w" in calls


def failing(program):
    """Each call to the file fails in turn, or the process is killed there, before the call or after: what was answered `ok` is known."""
    text = [OPEN, job(), *(spec(n) for n in range(4)), b'{"at":1,"trim":3}\n', *(spec(n) for n in range(4, 6)), b'{"renew":true}\n', spec(6)]
    with folder() as place:
        storing = Storing(program, place)
        _, calls = storing.run(place / "whole", b"".join(text))
        count = sum(call in "wstr" for call in calls)
        yield "calls are seen: %s" % calls, count >= 4
        ways = [{"ERROR": BROKEN}, {"ERROR": NO_SPACE, "SHORT": 1}, {"KILLS": 1}, {"KILLS": 2}]
        for way, at, begun in ((way, at, begun) for way in ways for at in range(1, count + 1) for begun in (False, True)):
            path = place / "failing"
            path.unlink(missing_ok=True)
            if begun:
                follow(program, path, OPEN + job() + specs(100, 2))
            (status, out, err), _ = storing.run(path, b"".join(text), AT=at, **way)
            name = "%s at call %d, %s" % (way, at, begun)
            fine = status == -signal.SIGKILL if "KILLS" in way else status == 9 and err.startswith(UNUSABLE)
            oks = sum(answer == b"ok\n" for answer in answers_in(out))
            told = [n for n, line in enumerate(text[:oks]) if b'"spec"' in line]
            wanted = set(numbers(len(told))) | set(numbers(102)[100:] if begun else [])
            yield name + ": ended as it should", fine or status == 0
            yield name + ": nothing lost", wanted <= set(known(program, path))
            yield name + ": a store by its page", is_whole(path)


def versions(first, count, tasks):
    """The lines that tell so many versions of each of so many tasks."""
    def one(version, n):
        fields = {"id": drawn.unique(1000 + n), "version": version, "writer": 1, "withdrawn": False, "job": JOB, "request": version % 1000}
        return lined.line({"at": 1, "tell": {"spec": fields}}) + b"\n"

    return b"".join(one(version, n) for version in range(first, first + count) for n in range(tasks))


def compacted(program):
    """A store in which most is superseded is compacted once it has twice the bytes, and says the same then."""
    with folder() as place:
        storing = Storing(program, place)
        tasks, count = 1000, 44
        text = OPEN + job() + versions(1, count, tasks)
        (status, out, err), calls = storing.run(place / "store", text)
        plain = lined.seen(program, text + GRAPH)
        size = (place / "store").stat().st_size
        yield "all answered", (status, err, out.count(b"ok\n")) == (0, b"", count * tasks + 2)
        # if each line came alone, they would add six times as many bytes as a store must have
        yield "it was compacted %d times" % calls.count("r"), 1 <= calls.count("r") <= 8
        yield "it has %d bytes" % size, size < LEAST + (1 << 16)
        yield "it is a store by its page", is_whole(place / "store")
        yield "all is known again", answers_in(follow(program, place / "store", OPEN + GRAPH)[1])[-1] == answers_in(plain[1])[-1]
    yield from compacted_at_once(program)
    yield from compacted_after_renewals(program)


def superseded(path, numbers=(1,)):
    """A store in which the first packet is repeated, so that it is compacted at the first commit; answers how many bytes it has."""
    records, _ = stored.read(path.read_bytes())
    times = LEAST // (len(records[1]) + 49) + 1
    path.write_bytes(stored.store("", list(numbers), records[1:] + [records[1]] * times))
    return path.stat().st_size


def compacted_at_once(program):
    """A store that was found with twice the bytes is compacted by the first line that changes something, with its mode, under its lock."""
    with folder() as place:
        path = place / "store"
        follow(program, path, OPEN + job() + specs(0, 100))
        path.chmod(0o640)
        before = superseded(path)
        asked = follow(program, path, OPEN + GRAPH)
        yield "questions leave it as it is", asked[0] == 0 and path.stat().st_size == before
        with subprocess.Popen([program, "follow", "--store", str(path)], stdin=subprocess.PIPE, stdout=subprocess.PIPE) as first:
            first.stdin.write(OPEN + specs(100, 1))
            first.stdin.flush()
            yield "the line is answered", [answered(first.stdout) for _ in range(2)] == [b"ok\n"] * 2
            after = path.stat()
            yield "it has %d bytes, and had %d" % (after.st_size, before), after.st_size < before / 20
            yield "its mode stays", after.st_mode & 0o777 == 0o640
            status, _, err = follow(program, path, OPEN)
            yield "a second process is refused after that, too", status == 9 and err.startswith(UNUSABLE)
            first.stdin.write(specs(101, 1))
            first.stdin.flush()
            yield "the next line is answered", answered(first.stdout) == b"ok\n"
            first.stdin.close()
        yield "all is known", known(program, path) == numbers(102)
        yield "one packet of all, and those after it", len(stored.read(path.read_bytes())[0]) in (2, 3)


def compacted_after_renewals(program):
    """Renewals of several coordinators, each of which puts all that is known into the store, do not have it grow without end."""
    opened = b'{"coordinators":[1,2]}\n'
    with folder() as place:
        path = place / "store"
        both = b"".join(line + line.replace(b'"at":1', b'"at":2') for line in specs(0, 400).splitlines(keepends=True))
        lines = [opened, job(), both, *[b'{"renew":true}\n'] * 60]
        one_by_one(program, path, b"".join(lines).splitlines(keepends=True))
        size = path.stat().st_size
        yield "it has %d bytes" % size, size < LEAST + (1 << 17)
        status, out, _ = follow(program, path, opened + b'{"ask":"agree"}\n' + LIST)
        yield "both know all again", status == 0 and out.count(b"task ") == 400


def compaction_fails(program):
    """Each call of a compaction fails in turn, with those behind it, or the process is killed there: what was answered `ok` is known. If a call
    on the new file alone fails, the old one is used on."""
    text = [OPEN, *(spec(n) for n in range(100, 104))]
    with folder() as place:
        storing, path = Storing(program, place), place / "store"
        follow(program, path, OPEN + job() + specs(0, 100))
        superseded(path)
        data = path.read_bytes()
        _, calls = storing.run(path, b"".join(text))
        count = sum(call in "wstr" for call in calls)
        yield "a compaction is seen: %s" % calls, "r" in calls
        yield "it is as it is documented: %s" % calls, calls == TAKES_MARK + COPIES + COPIES + "o" + LEAVES_MARK
        ways = [{"ERROR": BROKEN}, {"ERROR": NO_SPACE, "SHORT": 1}, {"KILLS": 1}, {"KILLS": 2}, {"ERROR": NO_SPACE, "MANY": 1}]
        for way, at in ((way, at) for way in ways for at in range(1, count + 1)):
            path.write_bytes(data)
            (status, out, err), _ = storing.run(path, b"".join(text), AT=at, **way)
            name = "%s at call %d" % (way, at)
            fine = status == -signal.SIGKILL if "KILLS" in way else (status, err) == compaction_ends(at, "MANY" in way)
            oks = sum(answer == b"ok\n" for answer in answers_in(out))
            found = known(program, path)
            yield name + ": ended as it should", fine
            yield name + ": nothing lost", found[:100 + max(0, oks - 1)] == numbers(100 + max(0, oks - 1))
            yield name + ": nothing from nowhere", found == numbers(len(found))
            yield name + ": a store by its page", is_whole(path)


def compaction_ends(at, is_alone):
    """How a run ends that writes its file anew and compacts it, if the call of that number fails, alone or with those behind it."""
    begun = len(TAKES_MARK)
    anew, compaction = range(begun + 1, begun + 4), range(begun + 5, begun + 8)
    if at > begun + 8 or is_alone and at in anew:
        return 0, b""
    if is_alone and at in compaction:
        return 0, NOT_COMPACTED
    # a folder that is not synced behind the rename is no compaction either
    told = NOT_COMPACTED if at in (*compaction, begun + 8) else b""
    return 9, told + UNUSABLE + b", since the file of the store cannot be used\n"


def full(program):
    """A disk that is full: no answer goes out that the store does not back, and once there is room all that was answered is known."""
    text = OPEN + job() + specs(0, 40)
    for name, room in rooms():
        with room as (place, limit, more):
            path = place / "store"
            oks = 0
            for turn in range(200):
                status, out, err = follow(program, path, OPEN + specs(oks, 40), preexec_fn=limit, restore_signals=False)
                # a pipe may bring the lines in two parts, and so in two groups, the first of which is committed and answered
                answered = out.count(b"ok\n")
                oks += max(0, answered - 1)
                if status:
                    break
            fails = status == 9 and err.startswith(UNUSABLE) and out == b"ok\n" * answered and answered <= 40
            yield "%s: it is full after %d tasks" % (name, oks), fails and oks > 0
            more()
            yield "%s: nothing lost" % name, known(program, path)[:oks] == numbers(oks)
            follow(program, path, text)
            yield "%s: with more room it goes on" % name, known(program, path)[:max(oks, 40)] == numbers(max(oks, 40)) and is_whole(path)


def rooms():
    """Folders in which a file cannot grow for long, what a run there must be limited by, and what gives room."""
    with folder() as place:
        yield "a limit for files", contextlib.nullcontext((place, lambda: resource.setrlimit(resource.RLIMIT_FSIZE, (20000, 20000)), lambda: None))
    with folder() as place:
        if subprocess.run(["mount", "-t", "tmpfs", "-o", "size=64k", "tmpfs", place], stderr=subprocess.DEVNULL).returncode == 0:
            try:
                (place / "ballast").write_bytes(bytes(20000))
                yield "a small disk", contextlib.nullcontext((place, None, (place / "ballast").unlink))
            finally:
                subprocess.run(["umount", place], check=True)


def cut_off(program):
    """Whatever front of a store's last bytes a crash leaves, and whatever zeros behind it, the rest is known, with a word."""
    with folder() as place:
        path = place / "store"
        follow(program, path, OPEN + job() + specs(0, 3))
        sure = len(path.read_bytes())
        follow(program, path, OPEN + specs(3, 4))
        data, ends = path.read_bytes(), 0
        chance = random.Random("cut off")
        for end in sorted({*chance.sample(range(sure, len(data) + 1), 30), sure, len(data)}):
            path.write_bytes(data[:end] + bytes(chance.choice((0, 0, 1, 700))))
            ends += bool(torn_line(path))
            found = known(program, path)
            yield "cut at %d" % end, numbers(3) == found[:3] and found in (numbers(3), numbers(7))
            yield "then it is whole, cut at %d" % end, is_whole(path)
            yield "and is told of no more, cut at %d" % end, torn_line(path) == b"" and known(program, path) == found
        yield "torn ends were told of", ends > 10


def unusable(program):
    """A store that cannot be used ends the run with no answer, a line that says why, and the file as it was."""
    with folder() as place:
        path = place / "store"
        follow(program, path, OPEN + job() + specs(0, 3))
        data = path.read_bytes()
        damaged = bytearray(data)
        damaged[len(data) // 2] ^= 1
        begins = len(stored.store("", [1], []))
        for name, content, words, opened, status, line in (
                ("another label", data, ["--store-label", "other"], OPEN, 9, UNUSABLE),
                ("other coordinators", data, [], b'{"coordinators":[1,2]}\n', 9, UNUSABLE),
                ("no store", b"{}\n", [], OPEN, 8, b"firmament: refusal 21 at byte 0"),
                ("a newer form", b"FMSTORE2" + data[8:], [], OPEN, 8, b"firmament: refusal 21 at byte 0"),
                ("a damaged head", data[:20] + b"\xff" + data[21:], [], OPEN, 8, b"firmament: refusal 21 at byte 8"),
                ("a damaged record", bytes(damaged), [], OPEN, 8, b"firmament: refusal 21 at byte %d" % begins)):
            path.write_bytes(content)
            seen = follow(program, path, opened + spec(9), *words)
            yield name, seen[0] == status and seen[1] == b"" and seen[2].startswith(line)
            yield name + ": unchanged", path.read_bytes() == content
        seen = follow(program, place, OPEN)
        yield "a folder", seen[0] == 9 and seen[1] == b"" and seen[2].startswith(UNUSABLE)
        os.mkfifo(place / "pipe")
        for name, aim in (("folder", place), ("pipe", place / "pipe"), ("none", place / "none" / "store"), ("itself", place / "link to itself")):
            (place / ("link to " + name)).symlink_to(aim)
        for name, other in (("a pipe", place / "pipe"), ("a device without an end", "/dev/full"), ("a link to a folder", place / "link to folder"),
                            ("a link to a pipe", place / "link to pipe"), ("a link into no folder", place / "link to none"),
                            ("a link to itself", place / "link to itself")):
            status, out, err = follow(program, other, OPEN)
            yield name, (status, out) == (9, b"") and err.startswith(UNUSABLE)
        seen = follow(program, place / "none" / "store", OPEN)
        yield "a folder that is not there", seen[0] == 9 and seen[2].startswith(UNUSABLE)
        yield from locked(program, place / "locked")
        yield from read_only(program, place)


def linked(program):
    """Of a symbolic link the file that it names is the store, is made if it is not there, and is compacted in its own place."""
    with folder() as place:
        file, link = place / "far" / "store", place / "link"
        file.parent.mkdir()
        (place / "next").symlink_to("far/store")
        link.symlink_to(place / "next")
        seen = follow(program, link, OPEN + job() + specs(0, 3))
        yield "no file yet", seen[0] == 0 and is_whole(file) and known(program, file) == numbers(3)
        size = superseded(file)
        seen = follow(program, link, OPEN + specs(3, 2))
        yield "it is compacted", seen[0] == 0 and file.stat().st_size < size and known(program, file) == known(program, link) == numbers(5)
        yield "both links stay", link.is_symlink() and (place / "next").is_symlink() and not file.is_symlink()
        yield "all else is beside the file", {it.name for it in place.iterdir()} == {"far", "next", "link"} and (file.parent / "store.clean").exists()
        with subprocess.Popen([program, "follow", "--store", str(file)], stdin=subprocess.PIPE, stdout=subprocess.PIPE) as first:
            first.stdin.write(OPEN)
            first.stdin.flush()
            answered(first.stdout)
            seen = follow(program, link, OPEN)
            yield "the file is locked", seen[:2] == (9, b"") and seen[2].startswith(UNUSABLE)
            first.stdin.close()
            yield "by one that ends well", first.wait() == 0


def locked(program, path):
    """A second process on the same file is refused, and the first goes on."""
    with subprocess.Popen([program, "follow", "--store", str(path)], stdin=subprocess.PIPE, stdout=subprocess.PIPE) as first:
        first.stdin.write(OPEN + job())
        first.stdin.flush()
        answered(first.stdout)
        answered(first.stdout)
        status, out, err = follow(program, path, OPEN)
        yield "a second process is refused", (status, out) == (9, b"") and err.startswith(UNUSABLE)
        first.stdin.write(specs(0, 2))
        first.stdin.flush()
        yield "the first goes on", [answered(first.stdout) for _ in range(2)] == [b"ok\n"] * 2
        first.stdin.close()
        yield "and ends well", first.wait() == 0
    yield "then the file is free", known(program, path) == numbers(2)


def read_only(program, place):
    """A file that nobody may write: nobody cannot use it."""
    if os.getuid() != 0:
        return
    nobody, path = pwd.getpwnam("nobody"), place / "mine"
    path.write_bytes(stored.store("", [1], []))
    # nobody may not reach where the program is
    copied = shutil.copy(program, place / "firmament")
    os.chmod(place, 0o755)
    os.chmod(copied, 0o755)
    os.chmod(path, 0o444)
    seen = follow(copied, path, OPEN, user=nobody.pw_uid)
    yield "a file that may not be written", seen[0] == 9 and seen[1] == b"" and seen[2].startswith(UNUSABLE)


def quick(program):
    """Lines that wait are answered in groups, with few syncs, and so not much slower than without a store."""
    count = 3000
    text = OPEN + job() + specs(0, count)
    with folder() as place:
        storing = Storing(program, place)
        began = time.monotonic()
        (status, out, _), calls = storing.run(place / "store", text)
        kept = time.monotonic() - began
        began = time.monotonic()
        lined.seen(program, text)
        plain = time.monotonic() - began
        yield "all answered", status == 0 and out.count(b"ok\n") == count + 2
        yield "%d syncs" % calls.count("s"), calls.count("s") < count / 50
        yield "%d lines in %.2f s, and in %.2f s without a store" % (count, kept, plain), kept < 3 * plain + 2


GROUPS = {test.__name__: test for test in (
    alike, again, trimmed, not_awaited, in_order, in_order_by_system, failing, compacted, compaction_fails, full, cut_off, unusable, linked, killed, quick)}


def all_tests(program, names=tuple(GROUPS)):
    for name in names:
        for what, fine in GROUPS[name](program):
            yield "%s, %s" % (name, what), fine
