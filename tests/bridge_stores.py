"""Tests of the store of bin/bridge, by name, for tests/bridged.py: what is known after restarts, stores that cannot be used, full disks,
and journals of earlier versions, which are taken over into a store."""
import contextlib
import fcntl
import json
import os
import pathlib
import stat
import subprocess
import time

import brokers
import refusing
import stored
import stores_left
from bridging import coordinator, follower, stores as stores_of
from brokers import QUICK, Bridge, told as tell
from clustered import agree, cluster, ended, graph_of, is_refused, refused, running, told_to
from operated import made
from outlived import packet_of

NO_SPACE, BROKEN = 28, 5
OTHERS, DAMAGED = b"refusal 22, since the store is another cluster's", b"refusal 21 at byte %d"
UNUSABLE = b"refusal 22, since the file of the store cannot be used"
IN_USE = b"refusal 22, since another process has the store"
PLAIN = ["--claim-wait", "0"]


def anew(broker):
    """Kills the broker, which forgets what it kept, and starts it again."""
    broker.kill()
    broker.forget()
    broker.start()


@contextlib.contextmanager
def alone():
    """A broker, and a folder for what bridges keep."""
    with stores_left.folder() as folder, running("", []) as (broker, _):
        yield broker, folder


def said_of(bridge, event):
    return [said for said in bridge.events() if said["event"] == event]


# what is known after a restart

def stores(program):
    """What was told is known after a kill, also if the file is torn; the file is the owner's alone, and one bridge has it."""
    told = list(cluster(3000))
    with alone() as (broker, folder):
        file = folder / "store"
        words = [*QUICK, "--claim-wait", "0", "--store", str(file)]
        with Bridge(broker.port, 1, *words, program=program) as bridge:
            yield "told", told_to([bridge], told)
            for number in ("1", "2"):
                held = refused(broker.port, "--number", number, "--connect-wait", "0.5", "--store", str(file), program=program)
                yield "a store in use, by %s: %r" % (number, held[2]), is_refused(held, 16, IN_USE)
            bridge.kill()
        yield "nobody else may read it", stat.S_IMODE(file.stat().st_mode) == 0o600
        # what a crash leaves of a record that was not written whole
        whole = file.stat().st_size
        with file.open("ab") as more:
            more.write(stored.frame(stored.JOB)[:-20])
        anew(broker)
        with Bridge(broker.port, 1, *words, program=program) as bridge:
            yield "a record that was not written whole is dropped", agree([bridge], told) and told_to([bridge], told[:2])
            said = [it["line"] for it in said_of(bridge, "follower")]
            yield "and the bridge says so: %r" % said, said == [f"firmament: the store was torn at byte {whole}, and is cut off there"]
            bridge.kill()
        anew(broker)
        with Bridge(broker.port, 1, *words, program=program) as bridge:
            yield "and the next ones are whole", agree([bridge], told) and ended([bridge])
        data = file.read_bytes()
        yield "it is a store by its page", stored.read(data)[1] == len(data)
        yield "of this cluster and number", stored.read(data)[0][0] == stored.head_record("test", [1])


def restarts(program):
    """Three bridges are killed and started again and again, and are renewed on the way: all know all, packets come to an end, and stores
    do not grow by restarts."""
    told, numbers = list(cluster(240)), (1, 2, 3)
    with alone() as (broker, folder), contextlib.ExitStack() as stack:
        def started(number):
            words = [*QUICK, "--renew-after", "20", "--report", "0.2", "--store", str(folder / str(number))]
            return stack.enter_context(Bridge(broker.port, number, *words, program=program))
        bridges = [started(number) for number in numbers]
        for part in range(4):
            some = told[part * 63:(part + 1) * 63]
            yield "part %d: told" % part, all([told_to(bridges, some[first:first + 21]) for first in (0, 21, 42) if not time.sleep(0.3)])
            for place in {part} & {0, 1, 2}:
                bridges[place].kill()
                bridges[place] = started(numbers[place])
            yield "part %d: one graph" % part, agree(bridges, told[:(part + 1) * 63])
        yield "ended", ended(bridges)
        renewals = [bridge.counts()["renewals"] for bridge in bridges]
        yield "they were renewed: %s" % renewals, all(renewals)
        sizes = lambda: [(folder / str(number)).stat().st_size for number in numbers]
        before = sizes()
        bridges = [started(number) for number in numbers]
        yield "one graph after a restart of all", agree(bridges, told)
        yield "packets come to an end", is_quiet(bridges)
        asked = [bridge.ask({"at": bridge.number, "ask": "end"}) for bridge in bridges]
        yield "what they know is one delta", asked == [b"end 0 1\nok\n"] * 3
        yield "nothing is news", all(bridge.counts()["sent"] == 0 for bridge in bridges)
        yield "and nothing is stored: %s, %s" % (before, sizes()), sizes() == before
        for bridge in bridges:
            bridge.kill()
        anew(broker)
        yield "each knows all by itself", all([agree([bridge], told) and ended([bridge]) for bridge in map(started, numbers)])


def is_quiet(bridges):
    """Whether packets come to an end: none in three seconds, in which each bridge refreshes three times."""
    counted = lambda: [bridge.counts().get(kind) for bridge in bridges for kind in ("sent", "states_sent", "taken")]
    for _ in range(5):
        before = counted()
        time.sleep(3)
        if None not in before and counted() == before:
            return True
    return False


def counted(program):
    """A coordinator with a store counts its deltas as the follower does: each line that adds something is one, and a renewal and a new
    beginning leave one, of all that was known, which is no news."""
    told, waits = list(cluster(12)), follower.Waits(30, 30, lambda: float("inf"))
    lines = [tell(1, op)[:-1] for op in told]
    with stores_left.folder() as folder:
        store = stores_of.Store(folder / "store", "test", print)
        begun = lambda: contextlib.closing(coordinator.Coordinator(program, 1, 1000, waits, store))
        fits = lambda one, count, news: (one.deltas, one.own_news(), one.tell([b'{"at":1,"ask":"end"}'])[0]) == (
            count, news, [b"end 0 %d\nok\n" % count])
        with begun() as one:
            yield "nothing", fits(one, 0, 0)
            yield "told", one.tell(lines[:20]) == ([b"ok\n"] * 20, True) and fits(one, 20, 20)
            yield "a round", one.run_round(b'{"at":1,"round":true}')[1] and fits(one, 21, 21)
            one.cut_news(with_state=True)
            yield "cut", fits(one, 21, 0)
            yield "taken in", one.take([packet_of(told[20:], number=1), b"none"]) == [b"ok\n", b"refusal 6\n"] and fits(one, 22, 0)
            one.renew()
            yield "renewed", fits(one, 1, 0)
            yield "told then", one.tell(lines[:2])[1] and fits(one, 3, 2)
            graph = one.tell([b'{"at":1,"ask":"graph"}'])
        for _ in range(2):
            with begun() as one:
                yield "begun again", fits(one, 1, 0) and one.tell([b'{"at":1,"ask":"graph"}']) == graph
                yield "and told", one.tell(lines[:1])[1] and fits(one, 2, 1)


# stores that cannot be used

def unusable_stores(program):
    """A store that is damaged, another's, or no file ends the bridge before anything is told, and is left as it is."""
    told = list(cluster(20))
    with alone() as (broker, folder):
        file = folder / "store"
        with Bridge(broker.port, 1, *QUICK, "--store", str(file), program=program) as bridge:
            # each behind the answer to the one before, so that each is a record
            yield "told one by one", all([told_to([bridge], [op]) for op in told]) and ended([bridge])
        data = file.read_bytes()
        records, _ = stored.read(data)
        begins = [len(stored.store("test", [1], records[1:end])) for end in range(1, len(records))]
        yield "a record for each", len(begins) == len(told)
        flipped = bytearray(data)
        flipped[begins[9] + 60] ^= 1
        for name, content, more, why in (
                ("a flipped bit", bytes(flipped), [], DAMAGED % begins[9]),
                ("bytes behind the end", data + b"garbage\n" * 9, [], DAMAGED % len(data)),
                ("no store", b"{}\n", [], DAMAGED % 0), ("that of another number", data, ["--number", "2"], OTHERS),
                ("that of another cluster", data, ["--cluster", "other"], OTHERS)):
            file.write_bytes(content)
            found = refused(broker.port, "--number", "1", *PLAIN, "--store", str(file), *more, program=program)
            yield "%s: %r" % (name, found[2]), is_refused(found, 16, why) and (why in OTHERS or b"firmament recover" in found[2])
            yield "%s: unchanged" % name, file.read_bytes() == content
        for name, path in (("a folder", folder), ("no folder", folder / "none" / "store")):
            found = refused(broker.port, "--number", "1", *PLAIN, "--store", str(path), program=program)
            yield "%s: %r" % (name, found[2]), is_refused(found, 16, UNUSABLE)
        yield from recovered(broker, program, folder, bytes(flipped), told[:9])
    yield from named(program)


def recovered(broker, program, folder, damaged, told):
    """What stands before a damage is handed over to a bridge with a new store."""
    (folder / "damaged").write_bytes(damaged)
    run = subprocess.run([program, "recover", folder / "damaged"], stdout=subprocess.PIPE, stderr=subprocess.PIPE)
    digits = run.stdout.decode().split()
    yield "what stands before the damage is one packet", (run.returncode, len(digits)) == (8, 1)
    anew(broker)
    with Bridge(broker.port, 1, *QUICK, "--store", str(folder / "new"), program=program) as bridge:
        yield "it is taken in", bridge.ask({"at": 1, "take": digits[0]}) == b"ok\n" and bridge.graph() == graph_of(told)
        yield "ended", ended([bridge])


def named(program):
    """A store's label is the cluster's name, of at most 200 bytes, whatever it begins with."""
    with alone() as (broker, folder):
        for name, status in (("-x", 0), ("\N{SNOWMAN}" * 66, 0), ("\N{SNOWMAN}" * 67, 2)):
            command = [brokers.BRIDGE, "--cluster=" + name, "--number", "1", "--broker", f"127.0.0.1:{broker.port}", *PLAIN,
                       f"--store={folder}/{len(name)}", "--program", program]
            found = subprocess.run(command, stdin=subprocess.DEVNULL, capture_output=True, timeout=30)
            words = b"at most 200 bytes" if status else b"connected to"
            yield "a name of %d bytes: %r" % (len(name.encode()), found.stderr[:200]), found.returncode == status and words in found.stderr
        head = stored.read((folder / "2").read_bytes())[0][0]
        yield "the label is the name", head == stored.head_record("-x", [1])


# holds the store two seconds longer than the bridge that started it
HOLDING = """#!/usr/bin/env python3
import subprocess, sys, time
run = subprocess.Popen([{program!r}, *sys.argv[1:]], stdin=subprocess.PIPE, bufsize=0)
for line in sys.stdin.buffer:
    run.stdin.write(line)
time.sleep(2)
run.stdin.close()
run.wait()
"""


def held_stores(program):
    """A bridge waits for a store that the follower of a killed one still has; and words of a follower that are no refusal are passed on."""
    told = list(cluster(9))
    with alone() as (broker, folder):
        words = [*QUICK, "--store", str(folder / "store")]
        holding = made(folder, "holding", HOLDING.format(program=str(program)))
        with Bridge(broker.port, 1, *words, program=holding) as bridge:
            yield "told", told_to([bridge], told)
            bridge.run.kill()
            bridge.run.wait()
        with Bridge(broker.port, 1, *words, program=program) as bridge:
            yield "all is known once it is free", agree([bridge], told) and ended([bridge])
        speaking = made(folder, "speaking", SPEAKING.format(program=program, count=MUCH))
        with Bridge(broker.port, 1, *words, program=speaking) as bridge:
            yield "all is known", agree([bridge], told) and ended([bridge])
            first, *more = [said["line"] for said in said_of(bridge, "follower")]
            yield "what else it says is passed on", first == "a word" and "".join(more) == "x" * MUCH


# more than a pipe holds
MUCH = 300_000
SPEAKING = """#!/bin/sh
echo 'a word' >&2
head -c {count} /dev/zero | tr '\\0' x >&2
exec {program} "$@"
"""


def last_words(_program):
    """What a follower writes to standard error is read in any pieces: why it ends is kept, and all else is passed on."""
    text = b"one\n\nfirmament: refusal 21 at byte 64\n" + b"x" * MUCH + b"\nlast"
    for size in (7, 1000, 60_000):
        reader, writer = os.pipe()
        passed = []
        words = stores_of.LastWords(reader, passed.append)
        has_more = []
        for first in range(0, len(text), size):
            os.write(writer, text[first:first + size])
            has_more.append(words.read())
        os.close(writer)
        yield "in pieces of %d: it goes on to the end" % size, all(has_more) and not words.read()
        yield "in pieces of %d: why it ends" % size, words.why == "refusal 21 at byte 64"
        yield "in pieces of %d: the rest" % size, (passed[0], "".join(passed[1:-1]), passed[-1]) == ("one", "x" * MUCH, "last")
        os.close(reader)


# full disks

FAILING = """#!/bin/sh
export LD_PRELOAD={library} {settings}
exec {program} "$@"
"""


def full_disks(program):
    """A store that can no longer be written, or a follower that is killed at a write, ends the bridge: what was answered ok is known
    afterwards, and nothing that was not told."""
    told = list(cluster(40))
    with alone() as (broker, folder):
        library = refusing.library(str(folder), "storing")
        # five calls make a new store, before the first line is told; then each group of lines is written and synced
        for settings, status in (("ERROR=%d AT=1" % NO_SPACE, 16), ("ERROR=%d AT=5" % BROKEN, 16), ("ERROR=%d AT=6" % NO_SPACE, 16),
                                 ("ERROR=%d AT=8 SHORT=1" % NO_SPACE, 16), ("ERROR=%d AT=9" % BROKEN, 16), ("KILLS=1 AT=9", 15),
                                 ("KILLS=2 AT=12", 15)):
            anew(broker)
            failing = made(folder, "failing", FAILING.format(library=library, settings=settings, program=program))
            file = folder / ("store " + settings)
            with Bridge(broker.port, 1, *QUICK, "--claim-wait", "0", "--store", str(file), program=failing) as bridge:
                for count, op in enumerate(told):
                    bridge.write(tell(1, op))
                    if not bridge.wait_for(count + 1):
                        break
                oks = bridge.count()
                yield "%s: it ends" % settings, bridge.run.wait(timeout=60) == status
                why = said_of(bridge, "failed")[-1]["text"]
                yield "%s: %s" % (settings, why), (UNUSABLE.decode() if status == 16 else "the follower ended") in why
                yield "%s: %d of %d were answered" % (settings, oks, len(told)), oks < len(told) and bridge.heard == b"ok\n" * oks
            anew(broker)
            with Bridge(broker.port, 1, *QUICK, "--claim-wait", "0", "--store", str(file), program=program) as bridge:
                graph = bridge.graph()
                yield "%s: nothing is lost" % settings, graph in [graph_of(told[:count]) for count in (oks, oks + 1)]
                yield "%s: and it goes on" % settings, told_to([bridge], told[oks:]) and agree([bridge], told) and ended([bridge])


# journals of earlier versions

PAGE = 4096


def head_of(number=1, name="test"):
    """The first line of a journal, as bridges of earlier versions wrote it."""
    return json.dumps({"fetohamu": "journal", "cluster": name, "number": number}).encode() + b"\n"


def take(packet):
    return b'{"at":1,"take":"%s"}\n' % packet.hex().encode()


def journals(told):
    """Journals of the operations in both forms: one that was never rewritten, with what a round came to amid the lines that were told, and
    one that begins with a packet of all that was known."""
    lines = [tell(1, op) for op in told]
    yield "lines as told", [*lines[:9], take(packet_of(told[9:12], sender=1, number=1)), *lines[12:]]
    yield "rewritten", [take(packet_of(told[:15], sender=1, number=30)), *lines[15:]]
    yield "rewritten by an older version", [take(packet_of(told[:15], b"FDG1", 1, 30)), *lines[15:]]


def old_journals(program):
    """A journal is told once, and what it said is in the store from then on."""
    told = [{"spec": {**op["spec"], "prefer": []}} if "spec" in op else op for op in cluster(30)]
    with alone() as (broker, folder):
        for place, (name, lines) in enumerate(journals(told)):
            old, store = folder / f"old {place}", folder / f"store {place}"
            old.write_bytes(head_of() + b"".join(lines) + tell(1, told[0])[:-20])
            content, moved = old.read_bytes(), folder / f"old {place}.taken"
            words = [*QUICK, "--claim-wait", "0", "--store", str(store), "--journal", str(old)]
            anew(broker)
            with Bridge(broker.port, 1, *words, program=program) as bridge:
                yield "%s: all is known" % name, agree([bridge], told)
                said = [(said["lines"], said["file"]) for said in said_of(bridge, "taken_over")]
                yield "%s: said of it: %s" % (name, said), said == [(len(lines), str(moved))]
                bridge.kill()
            yield "%s: the file is put away as it was" % name, not old.exists() and moved.read_bytes() == content
            anew(broker)
            with Bridge(broker.port, 1, *words, program=program) as bridge:
                yield "%s: it is in the store" % name, agree([bridge], told)
                yield "%s: and is not told again" % name, not bridge.has_said("taken_over") and ended([bridge])
        yield from told_again(broker, program, words, old, moved, told)
    yield from refused_journals(program)


def told_again(broker, program, words, old, moved, told):
    """One that was told and not yet renamed when the bridge was killed is told again, and changes nothing. No file is overwritten, and of a
    link the file that it names is renamed."""
    content, link = moved.read_bytes(), old.parent / "link"
    link.symlink_to(old)
    for count, more in enumerate(([], ["--journal", str(link)]), 2):
        old.write_bytes(content)
        with Bridge(broker.port, 1, *words, *more, program=program) as bridge:
            yield "told again, nothing changes", agree([bridge], told) and bridge.has_said("taken_over") and ended([bridge])
        other = moved.parent / f"{moved.name}-{count}"
        yield "no file is overwritten", moved.read_bytes() == other.read_bytes() == content and not old.exists()
    yield "the link stays", link.is_symlink()


def refused_journals(program):
    """A journal that is in use, of another bridge, or with a line that is refused is not taken over, and stays."""
    told = list(cluster(9))
    lines = b"".join(tell(1, op) for op in told)
    with alone() as (broker, folder):
        old, store = folder / "old", ["--store", str(folder / "store")]
        words = [*PLAIN, "--journal", str(old)]
        for name, content, why in (("another number", head_of(2) + lines, b"no journal of this cluster and number"),
                                   ("another cluster", head_of(1, "other") + lines, b"no journal of this cluster and number"),
                                   ("a line of another number", head_of() + lines + tell(2, told[0]),
                                    b"line 22 of the journal is answered by refusal 8")):
            old.write_bytes(content)
            for more in [], ["--salvage"]:
                found = refused(broker.port, "--number", "1", *words, *store, *more, program=program)
                yield "%s, %s: %r" % (name, more, found[2]), is_refused(found, 16, why) and b"--salvage" not in found[2]
                yield "%s, %s: it stays" % (name, more), old.read_bytes() == content
        with open(f"{old}.lock", "ab") as lock:
            fcntl.flock(lock, fcntl.LOCK_EX)
            found = refused(broker.port, "--number", "1", *words, *store, program=program)
            yield "one that another process uses: %r" % found[2], is_refused(found, 16, b"in use by another process")
        with Bridge(broker.port, 1, *QUICK, *store, program=program) as bridge:
            yield "nothing of all that is in the store", bridge.graph() == graph_of([]) and ended([bridge])
        for name, given, why in (("a journal without a store", words, b"give --store FILE too"),
                                 ("--salvage without a journal", [*store, "--salvage"], b"--salvage")):
            found = refused(broker.port, "--number", "1", *given, program=program)
            yield "%s: %r" % (name, found[2]), is_refused(found, 2, why)


def salvaged(program):
    """A journal with a page of zeros is refused, and nothing of it is stored; with --salvage what stands before the page is taken over, and
    the damaged file is put away."""
    told = list(cluster(90))
    whole = head_of() + b"".join(tell(1, op) for op in told)
    with alone() as (broker, folder):
        for name, page in (("its head", 0), ("a page of its middle", len(whole) // 2 // PAGE)):
            old, store = folder / f"old {page}", ["--store", str(folder / f"store {page}")]
            damaged = whole[:page * PAGE] + bytes(PAGE) + whole[(page + 1) * PAGE:]
            before = damaged[:page * PAGE].count(b"\n") - 1 if page else 0
            old.write_bytes(damaged)
            anew(broker)
            found = refused(broker.port, "--number", "1", *PLAIN, *store, "--journal", str(old), program=program)
            yield "%s is zero: %r" % (name, found[2]), is_refused(found, 16, b"--salvage")
            with Bridge(broker.port, 1, *QUICK, *store, program=program) as bridge:
                yield "%s is zero: nothing is stored" % name, bridge.graph() == graph_of([]) and ended([bridge])
            with Bridge(broker.port, 1, *QUICK, *store, "--journal", str(old), "--salvage", program=program) as bridge:
                yield "%s is zero: the %d lines before it are told" % (name, before), agree([bridge], told[:before], 10)
                said = [(said["lines"], said["file"]) for said in said_of(bridge, "salvaged")]
                yield "%s is zero: said of it: %s" % (name, said), said == [(before, f"{old}.damaged")]
                yield "%s is zero: told again" % name, told_to([bridge], told[before:before + 2])
                bridge.kill()
            kept = pathlib.Path(f"{old}.damaged")
            yield "%s is zero: the damaged file is put away" % name, kept.read_bytes() == damaged and not old.exists()
            anew(broker)
            with Bridge(broker.port, 1, *QUICK, *store, program=program) as bridge:
                yield "%s is zero: and the store goes on" % name, agree([bridge], told[:before + 2]) and ended([bridge])


GROUPS = {"stores": stores, "restarts": restarts, "counted": counted, "unusable_stores": unusable_stores, "held_stores": held_stores,
          "last_words": last_words, "full_disks": full_disks, "old_journals": old_journals, "salvaged": salvaged}
