"""Tests of what calls ask the allocator for: `fm_probe_editor steps` takes the first steps of a script, with and without the last one, and
tests/refusing.c counts. With `fm_probe_editor sights` a round is a look with the tally, and with `fm_probe_editor tallies` the tally alone. And of what
a process keeps: its resident memory. And how many allocations lines of a stream make. A record is a pair of a key and a value in a block of
64 pairs at most, which maps share."""
import json
import resource
import subprocess

import drawn

# What a pair of a task takes at least, in bytes, and so a copy of a task that is known.
PAIR = 200
# The pairs of a full block. Tasks whose ids rise fill their blocks.
FULL = 64
# How many allocations a round of a stream made that was admitted twice, and news that were joined twice. Of those of a round 11 are of the
# search of today: with the one before, it made 3,036.
ROUND_TWICE, NEWS_TWICE = 3047, 1322
# What a map has for each block: its first key, and the pointer to it. A share takes as much.
HEAD = 48


def job():
    return {"job": {"id": drawn.unique(1), "version": 1, "writer": 1, "withdrawn": False, "wait": 500, "preempt": 800}}


def spec(number):
    return {"spec": {"id": drawn.unique(1000 + number), "version": 1, "writer": 1, "withdrawn": False, "job": drawn.unique(1), "request": 100}}


def told(at, first, count):
    return [{"at": at, "tell": spec(number)} for number in range(first, first + count)]


def counted(allocator, program, coordinators, steps, count, word="steps"):
    """What was counted while the first steps of a script were taken."""
    text = json.dumps({"coordinators": list(coordinators), "steps": steps}).encode()
    (status, _, err), numbers = allocator.run(program, [word, str(count)], text)
    assert status == 0, err
    return numbers


def more(allocator, program, coordinators, steps, field, last=1, word="steps"):
    """By how much the last steps of the script raise a count."""
    before, after = (counted(allocator, program, coordinators, steps, len(steps) - less, word)[field] for less in (last, 0))
    return after - before


def around(count):
    """Full packets that go from the first of so many coordinators to the last, and from there to the first."""
    steps = []
    for at, after in zip(range(1, count + 1), [*range(2, count + 1), 1]):
        steps += [{"at": at, "cut": {"name": "p%d" % at}}, {"at": after, "deliver": "p%d" % at}]
    return steps


def stays(program):
    """What the process keeps of a Full packet that goes round 8 coordinators of a stream, in bytes of resident memory."""
    stream = subprocess.Popen([program, "follow"], stdin=subprocess.PIPE, stdout=subprocess.PIPE)
    held, count = [], 20000
    with stream, open("/proc/%d/statm" % stream.pid) as memory:
        for lines in ([{"coordinators": [*range(1, 9)]}, {"at": 1, "tell": job()}, *told(1, 0, count)], around(8)):
            for line in lines:
                stream.stdin.write(json.dumps(line).encode() + b"\n")
                stream.stdin.flush()
                # the digits of an answer come before its end
                while (answer := stream.stdout.readline()) != b"ok\n":
                    assert answer and not answer.startswith(b"refusal"), answer
            memory.seek(0)
            held.append(int(memory.read().split()[1]) * resource.getpagesize())
    stayed = held[1] - held[0]
    yield "a Full packet of 20,000 tasks round 8 coordinators leaves %d bytes, less than two copies" % stayed, stayed < 2 * PAIR * count


def allocations(allocator, program, lines, field="count"):
    """How many allocations the last line of a stream makes, or another count."""
    counts = []
    for given in lines, lines[:-1]:
        (status, _, err), numbers = allocator.run(program, ["follow"], "".join(json.dumps(line) + "\n" for line in given).encode())
        assert status == 0, err
        counts.append(numbers[field])
    return counts[0] - counts[1]


def cluster(tasks):
    """The lines of a stream that tell a coordinator ten machines and so many tasks."""
    machine = {"incarnation": 1, "version": 1, "writer": 1, "up": True, "slots": 20, "nic": 100000}
    machines = [{"at": 1, "tell": {"machine": {**machine, "id": drawn.unique(500 + number)}}} for number in range(10)]
    return [{"coordinators": [1]}, {"at": 1, "tell": job()}, *machines, *told(1, 0, tasks)]


def kept(allocator, program):
    """That a size of a stream makes the tally once: what a second one asks for does not grow with the cluster."""
    look = {"at": 1, "ask": "size"}
    sizes = [[allocations(allocator, program, [*cluster(tasks), {"at": 1, "round": True}, *[look] * times], "asked") for times in (1, 2)]
             for tasks in (100, 1000)]
    (small, again), (large, later) = sizes
    yield "a size after a round of 100 and of 1,000 tasks asks for %d and %d bytes, and again for %d and %d" % (small, large, again, later), (
        large - small > 20000 and abs(later - again) < 1024)


def once(allocator, program):
    """That a stream decides a round once, and joins a cut once: by what these took when it made them twice."""
    known = cluster(100)
    made = allocations(allocator, program, [*known, {"at": 1, "round": True}])
    yield "a round of a stream that places 100 tasks makes %d allocations, where it made %d" % (made, ROUND_TWICE), 0 < 3 * made <= 2 * ROUND_TWICE
    made = allocations(allocator, program, [*known, {"at": 1, "news": True}])
    yield "news of a stream of 111 deltas make %d allocations, where they made %d" % (made, NEWS_TWICE), 0 < 3 * made <= 2 * NEWS_TWICE


def all_tests(allocator, program):
    """Each test with whether it holds."""
    known = [{"at": 1, "tell": job()}, *told(1, 0, 10000)]
    share = HEAD * (10000 // FULL + 8)
    asked = more(allocator, program, [1], known + told(1, 10000, 1), "asked")
    yield "a new task among 10,000 asks for %d bytes, less than 4 KB" % asked, 0 < asked < 4096
    packet = [*told(2, 20000, 100), {"at": 2, "cut": {"name": "p"}}, {"at": 1, "deliver": "p"}]
    asked = more(allocator, program, [1, 2], known + packet, "asked")
    yield "a packet of 100 new tasks to 10,000 asks for %d bytes, less than 200 KB" % asked, 0 < asked < 200000
    look, cut = {"at": 1, "round": True}, {"at": 1, "cut": {"name": "q"}}
    asked = more(allocator, program, [1], known + [look, look], "asked")
    yield "a view after a view of 10,000 tasks asks for %d bytes, at most one share" % asked, 0 < asked < share + 1024
    asked = more(allocator, program, [1], known + [look, cut], "asked")
    yield "a Full packet after a view of 10,000 tasks asks for %d bytes, at most three shares" % asked, 0 < asked < 3 * share + 1024
    first = more(allocator, program, [1], known + [look], "asked", word="tallies")
    asked = more(allocator, program, [1], known + [look, look], "asked", word="tallies")
    yield "a tally of 10,000 tasks asks for %d bytes, and again, with nothing told since, for %d" % (first, asked), first > 0 and asked == 0
    asked = more(allocator, program, [1], known + [look, *told(1, 10000, 1), look], "asked", word="tallies")
    yield "a tally after one more task asks for %d bytes, less than two thirds of the first" % asked, 0 < 3 * asked < 2 * first
    first = more(allocator, program, [1], known + [look], "asked", word="sights")
    asked = more(allocator, program, [1], known + [look, look], "asked", word="sights")
    yield "a look with the tally after a look of 10,000 tasks asks for %d bytes, at most one share" % asked, 0 < asked < share + 1024
    asked = more(allocator, program, [1], known + [look, *told(1, 10000, 1), look], "asked", word="sights")
    yield "a look with the tally after one more task asks for %d bytes, less than two thirds of the first" % asked, 0 < 3 * asked < 2 * first
    ring, count = around(8), 20000
    asked = more(allocator, program, range(1, 9), [{"at": 1, "tell": job()}, *told(1, 0, count), *ring], "asked", len(ring))
    yield "a Full packet of 20,000 tasks round 8 coordinators asks for %d bytes, less than four copies" % asked, 0 < asked < 4 * PAIR * count
