#!/usr/bin/env python3
"""Tests of `firmament follow` on streams of lines, by name, for tests/run: what is answered is judged by tests/followed.py, line by
line, or was worked out by hand. Those of the ends of a process are in tests/piped.py.

    tests/streams.py [--program FILE] [--lines N] [--seconds N] [GROUP..]

Runs the groups that are named, or all, which --help lists. --lines is how many hostile lines are drawn, 10,000 if it is not given, and
--seconds how long memory is refused, 60 if it is not given, and 0 for each allocation in turn. Ends in a line 'N passed, M failed'.
"""
import argparse
import json
import pathlib
import random
import subprocess
import sys
import time

ROOT = pathlib.Path(__file__).resolve().parent.parent
sys.path[:0] = [str(ROOT / "bench"), str(ROOT / "tests")]
import drawn
import followed
import fuzzed
import hostile
import piped
import reference
import refusing
import scripts
import strict
from lined import EMPTY_GRAPH, GRAPH, MACHINE, NO_MEMORY, OPEN, OWN_NEWS, TASK
from lined import answers, asks, digits_of, end_of, every_kind, explains, judged, line, lines, records, seen, short, tell, woven

LINES, SECONDS = 10000, 60
LACKING = b"refusal 1\n"


# scripts as streams

def cases(program):
    """The scripts and packets of tests/cases as streams: what each is to print is answered in the end, or on the way."""
    for folder in sorted((ROOT / "tests/cases").iterdir()):
        words, text = (folder / "args").read_text().split("\n")[:-1], (folder / "stdin").read_bytes()
        out = (folder / "stdout").read_bytes() if (folder / "stdout").exists() else b""
        err = (folder / "stderr").read_text() if (folder / "stderr").exists() else ""
        stream, place = stream_of(words, text, err)
        yield judged("case %s" % folder.name, program, stream)
        answer = (answers(program, stream)[place:] or [b""])[0]
        if err and words[0] != "fleet":
            yield "refusal of case %s" % folder.name, answer == b"refusal %s\n" % err.split()[2].encode()
        elif words[0] == "solve":
            yield "cost of case %s" % folder.name, answer.split(b"\n")[0] == out.split(b"\n")[0]
        elif words[0] not in ("fleet", "unpack", "check"):
            yield "answer to case %s" % folder.name, answer == out + b"ok\n"


def stream_of(words, text, err):
    """The stream of a case, and the place of the line whose answer the case says."""
    if words[0] == "unpack":
        return lines(OPEN, {"at": 1, "take": text.decode().rstrip("\n")}, {"at": 1, "cut": {}}, *asks([1])), 1
    try:
        script = json.loads(text)
    except ValueError:
        return lines(OPEN, text.rstrip(b"\n"), GRAPH), 1
    stream, at = [{"coordinators": script["coordinators"]}, *script["steps"]], script["coordinators"][0]
    if "at step" in err:
        return lines(*stream, *asks([at])), int(err.split()[-1])
    if words[0] == "pack":
        cuts = [place for place, step in enumerate(stream) if step.get("cut", {}).get("name") == words[1]]
        return lines(*stream, {"at": at, "deliver": words[1]}), cuts[0] if cuts else len(stream)
    at = int(words[2]) if words[1:2] == ["--at"] else at
    last = {"ask": "agree"} if words[0] == "agree" else {"at": at, "ask": "graph" if words[0] == "fleet" else words[0]}
    return lines(*stream, last), len(stream)


def scripted(program, count=12):
    """Drawn scripts as streams are answered line by line as they are to be, and end in the texts of the script's commands."""
    for seed in range(count):
        kind = drawn.REFUSED[seed % len(drawn.REFUSED)]
        for name, text in (("gossip", drawn.gossip(seed)), ("tells", drawn.tells(seed, 3, 40)), ("corners", drawn.corners(seed)),
                           ("rounds", drawn.rounds(seed, 1 + seed % 2)), ("contended", drawn.contended(seed)),
                           *(("shared", drawn.shared(number)) for number in (seed, seed + count)),
                           ("refused", drawn.refused(seed, kind))):
            given = json.loads(text)
            stream = [{"coordinators": given["coordinators"]}, *given["steps"]]
            end = asks(given["coordinators"])
            more = lines(*end, *explains(given["coordinators"]), *records(given["coordinators"]))
            yield judged("%s %d" % (name, seed), program, half_checked(lines(*stream), name, seed) + more)
            if name in ("gossip", "tells", "corners"):
                yield "ends of %s %d" % (name, seed), ends_alike(program, text.encode(), stream + end)


def ends_alike(program, script, stream):
    """Whether the answers to questions are the texts of the script's commands, and those to cuts the packets that `pack` prints."""
    found = answers(program, lines(*stream))
    asked = {place: words for place, words in enumerate(map(command_of, stream)) if words}
    return len(found) == len(stream) and all(
        subprocess.run([program, *words], input=script, capture_output=True, timeout=120).stdout + b"ok\n" == found[place]
        for place, words in asked.items())


def command_of(value):
    """The words that print of a script what the line answers, if there are such words and one text alone."""
    if value.get("ask") in ("graph", "winners", "list"):
        return [value["ask"], "--at", str(value["at"])]
    if value.get("ask") == "agree":
        return ["agree"]
    return ["pack", "--", value["cut"]["name"]] if "cut" in value else None


def plans(program):
    """What `firmament plan` prints of examples and of drawn scripts, of each coordinator, is the plan of a least flow."""
    asked = [(file.name, file.read_text()) for file in sorted((ROOT / "examples").glob("*.json"))]
    asked += [("contended %d" % seed, drawn.contended(seed)) for seed in range(40)]
    asked += [("corners %d" % seed, drawn.corners(seed)) for seed in range(40)]
    for name, text in asked:
        script = strict.read_script(text.encode())
        # of a round it is not said which of several least flows it finds
        if any("round" in step for step in script["steps"]):
            continue
        world = reference.World(script)
        for at in script["coordinators"]:
            done = subprocess.run([program, "plan", "--at", str(at)], input=text.encode(), capture_output=True, timeout=120)
            yield "plan of %s at %d" % (name, at), is_plan(reference.Known(world.coordinators[at].taken), done)
    done = subprocess.run([program, "plan"], input=b'{"coordinators":[1],"steps":[{"at":1}]}', capture_output=True)
    refused = b"firmament: refusal 16 at step 1\n"
    yield "plan of a strange step", (done.returncode, done.stdout, done.stderr) == (3, b"", refused)


def is_plan(known, done):
    said = done.stdout.decode()
    plan = followed.plan_in(said)
    return (done.returncode, done.stderr) == (0, b"") and plan is not None and followed.is_least_plan(known, *plan) \
        and said == "".join(shown + "\n" for shown in followed.plan_lines(plan))


def day(program):
    """The stream of examples/day.follow is answered as examples/day.follow.out says."""
    text, out = ((ROOT / "examples" / name).read_bytes() for name in ("day.follow", "day.follow.out"))
    yield "a day, as it stands", seen(program, text) == (0, out, b"")
    yield "the answers that stand are those that are to come: %s" % followed.wrong(text, out), followed.wrong(text, out) is None


# lines by hand

WHOSE = b'"%s"' % TASK.encode()
EMPTY_SIZE = (b"jobs 0\nmachines 0\ntasks 0\nproposals 0\nwaiting 0\nheld 0\nover 0\nopen 0\nclosed 0\nrequested 0\nreported 0\nspare 0\n"
              b"entries 0\nlimit 1000000\nfirst 0\nnext 0\npacket 45\nok\n")
STRANGE = [
    b"", b" ", b"null", b"[]", b"{}", b"7", b"x", b'"ok"', b"ok", b'{"coordinators":[1]}', b'{"coordinators":[1,2]}',
    b'{"renew":false}', b'{"renew":1}', b'{"renew":"true"}', b'{"renew":true,"at":1}', b'{"renew":true,"more":1}',
    b'{"ask":"graph"}', b'{"ask":["agree"]}', b'{"ask":"agree","at":1}', b'{"at":1,"ask":"agree"}', b'{"at":1,"ask":"Graph"}',
    b'{"at":1,"ask":""}', b'{"at":1,"ask":true}', b'{"at":1,"ask":"graph","more":1}', b'{"at":1}', b'{"at":1,"news":false}',
    b'{"at":1,"news":1}', b'{"at":1,"mine":true}', b'{"at":1,"news":true,"mine":false}', b'{"at":1,"news":false,"mine":true}',
    b'{"at":1,"news":true,"mine":1}', b'{"at":1,"news":true,"task":"%s"}' % TASK.encode(), b'{"at":1,"news":true,"mine":true,"more":1}',
    b'{"news":true,"mine":true,"ask":"why"}', b'{"news":true}', b'{"at":1,"take":7}', b'{"at":1,"take":"4"}', b'{"at":1,"take":"4g"}',
    b'{"at":1,"take":" 46"}', b'{"at":1,"take":"46\\n"}', b'{"at":1,"take":"\xc2\xb2\xc2\xb2"}', b'{"at":1,"cut":[]}', b'{"at":1,"cut":"p"}',
    b'{"at":1,"cut":null}', b'{"at":1,"cut":{"name":7}}', b'{"at":1,"cut":{"from":0}}', b'{"at":1,"cut":{"to":0}}',
    b'{"at":1,"cut":{"name":null}}', b'{"at":1,"cut":{"from":-1,"to":0}}', b'{"at":1,"round":false}', b'{"at":1,"round":1}',
    b'{"at":1,"trim":-1}', b'{"at":1,"trim":0.0}', b'{"at":1,"deliver":7}', b'{"at":1,"tell":{}}', b'{"at":1,"tell":{"job":{}}}',
    b'{"at":1,"sell":true}', b'{"at":256,"ask":"graph"}', b'{"at":-1,"ask":"graph"}', b'{"at":1.0,"ask":"graph"}',
    *(b'{"at":1,"round":%s}' % asked for asked in (b"null", b"[]", b'{"writers":[]}', b'{"writers":[1,1]}', b'{"writers":[0]}', b'{"writers":[65]}',
                                                   b'{"writers":1}', b'{"each":0}', b'{"each":4294967296}', b'{"each":1.0}', b'{"each":1,"more":1}')),
    b'{"ask":"size"}', b'{"at":1,"ask":"Size"}', b'{"at":1,"ask":"size","of":"jobs"}',
    b'{"ask":"list"}', b'{"ask":"version","at":1}', b'{"at":1,"ask":"version"}', b'{"at":1,"ask":"List"}', b'{"at":1,"ask":"next"}',
    b'{"at":1,"ask":"list","of":"all"}', b'{"at":1,"ask":"list","of":["jobs"]}', b'{"at":1,"ask":"list","of":"jobs","more":1}',
    b'{"at":1,"ask":"next","task":17}', b'{"at":1,"ask":"next","task":%s,"job":%s}' % (WHOSE, WHOSE), b'{"at":1,"ask":"next","machine":%s}' % WHOSE,
    b'{"at":1,"ask":"next","machine":%s,"incarnation":"1"}' % WHOSE, b'{"at":1,"ask":"next","job":%s,"incarnation":1}' % WHOSE,
    b'{"at":1,"ask":"why"}', b'{"at":1,"ask":"why","task":17}', b'{"at":1,"ask":"why","task":"17"}', b'{"at":1,"ask":"graph","task":%s}' % WHOSE,
    b'{"at":1,"ask":"why","task":" %s}' % WHOSE[1:], b'{"at":1,"ask":"why","task":%s,"more":1}' % WHOSE, b'{"ask":"why","task":%s}' % WHOSE,
    b'{"at":256,"ask":"why","task":%s}' % WHOSE, b'{"at":1,"why":%s}' % WHOSE, b'{"at":1,"task":%s}' % WHOSE,
    b'{"at":"1","ask":"graph"}', b'{"at":null,"ask":"graph"}', b'{"At":1,"ask":"graph"}', b"\xff", b'{"at":1,"deliver":"\xff"}',
    b'{"at":1,"deliver":"\xed\xa0\x80"}', b'{"at":1,"deliver":"\\ud800"}', b"\xef\xbb\xbf" + GRAPH, GRAPH + b"x", GRAPH + GRAPH,
    GRAPH[:-1], b"\0" + GRAPH, b"[" * 200, b'{"a":' * 200, b'{"at":1,"ask":"graph"' + b"\0" + b"}", b'{"coordinators":{1,2}}']
# what a number without a coordinator is refused for, before all else that is wrong
AT_NOBODY = ('"ask":"graph"', '"ask":"stops"', '"ask":"end"', '"ask":"size"', '"ask":"list"', '"ask":"list","of":"jobs"',
             '"round":{}', '"round":{"writers":[3],"each":1}', '"ask":"next","task":"%s"' % TASK, '"ask":"why","task":"%s"' % TASK, '"news":true', '"news":true,"mine":true',
             '"round":true', '"trim":9', '"deliver":"none"', '"cut":{}', '"cut":{"from":2,"to":1}')
NO_PACKETS = b"", b"46", b"46444732", hostile.PACKET[:-1].hex().encode(), hostile.PACKET.hex().encode() + b"00"
NO_INTERVALS = '"trim":1', '"cut":{"from":1,"to":0}', '"cut":{"from":0,"to":1}', '"cut":{"name":"p","from":0,"to":18446744073709551615}'
ACCEPTED = [(given, EMPTY_GRAPH) for given in (
    GRAPH, b" " + GRAPH + b"\t\r", b'{"ask":"graph","at":1}', b'{"at":9,"at":1,"ask":"graph"}', b'{"at":1,"ask":[],"ask":"graph"}',
    b'{"\\u0061t":1,"ask":"gr\\u0061ph"}')] + [
    (b'{"at":2,"ask":"winners"}', b"ok\n"), (b'{"at":2,"ask":"list"}', b"ok\n"), (b'{"at":2,"ask":"next","task":%s}' % WHOSE, b"next 1\nok\n"),
    (b'{"at":2,"ask":"stops"}', b"ok\n"), (b'{"at":2,"ask":"plan"}', b"ok\n"),
    (b'{"at":2,"ask":"solve"}', b"s 0\nok\n"), (b'{"ask":"agree"}', b"same\nok\n"), (b'{"at":1,"round":true}', b"ok\n"),
    (b'{"at":1,"round":{}}', b"ok\n"), (b'{"at":1,"round":{"writers":[64,1],"each":4294967295}}', b"ok\n"), (b'{"at":2,"ask":"size"}', EMPTY_SIZE),
    (b'{"renew":true}', b"ok\n")] + [
    (b'{"at":1,"ask":"why","task":"%s"}' % form.encode(), b"task %s is not known\nok\n" % TASK.encode()) for form in (
        TASK, TASK.upper(), "{%s}" % TASK, TASK.replace("-", ""))]
# lists of coordinators that none are
NO_LISTS = (b"[]", b"[0]", b"[65]", b"[1,1]", b"[-1]", b'["1"]', b"[1.0]", b"1", b"{}", b"[1,[2]]", line([*range(1, 66)]), b'[1],"more":1')


def table():
    """Lines, each with its answer at coordinators 1 and 2 that know nothing and have one delta at most."""
    yield from ((given, b"refusal 16\n") for given in STRANGE)
    for number in 0, 3, 64, 255:
        yield from ((b'{"at":%d,%s}' % (number, asked.encode()), b"refusal 8\n") for asked in AT_NOBODY)
        yield line(tell("job", at=number, writer=65)), b"refusal 8\n"
    yield from ((line(tell("job", writer=number)), b"refusal 2\n") for number in (0, 65))
    yield from ((b'{"at":1,"take":"%s"}' % given, b"refusal 6\n") for given in NO_PACKETS)
    yield b'{"at":1,"deliver":"none"}', b"refusal 9\n"
    yield from ((b'{"at":1,%s}' % given.encode(), b"refusal 4\n") for given in NO_INTERVALS)
    yield from ACCEPTED


def by_hand(program):
    """Lines with answers that were worked out by hand, in one stream; and a stream that is opened late."""
    given = list(table())
    found = answers(program, lines(OPEN, *(one for one, _ in given)))
    yield "as many answers as lines", len(found) == len(given) + 1
    for (one, wanted), answer in zip(given, found[1:]):
        yield "line %r: %r" % (one[:80], answer[:80]), answer == wanted
    before = [one for one, _ in given if not one.startswith(b'{"coordinators":')] + [b'{"coordinators":%s}' % numbers for numbers in NO_LISTS]
    found = answers(program, lines(*before, OPEN, GRAPH))
    yield "lines before the first", found == [b"refusal 16\n"] * len(before) + [b"ok\n", EMPTY_GRAPH]
    for numbers in [64], [*range(64, 0, -1)]:
        yield judged("coordinators %s" % numbers, program, lines({"coordinators": numbers}, *asks(numbers[-2:])))
    for name, text, out in (
            ("no lines", b"", b""), ("an empty line", b"\n", b"refusal 16\n"), ("a piece", b"x", b"refusal 16\n"),
            ("a first line without a feed", OPEN, b"ok\n"), ("a last line without a feed", lines(OPEN) + GRAPH, b"ok\n" + EMPTY_GRAPH),
            ("an empty line in the end", lines(OPEN) + b"\n", b"ok\nrefusal 16\n"), ("two empty lines", b"\n\n", b"refusal 16\n" * 2)):
        yield name, seen(program, text) == (0, out, b"")


def packet_forms(program):
    """A packet is taken in with digits of either case, in both versions, with a number and a sender of anywhere."""
    told = {reference.operation(kind, {**fields, **({"prefer": []} if kind == "spec" else {})}) for kind, fields in hostile.OPERATIONS.items()}
    newer, older = (reference.packed(reference.Packet(64, 2 ** 64 - 1, told), version)[1].strip() for version in (b"FDG2", b"FDG1"))
    # the packet is one delta, and what was told is several
    questions = asks([1], tuple(topic for topic in followed.TOPICS if topic not in ("end", "size")))
    wanted = answers(program, lines(OPEN, *map(tell, hostile.OPERATIONS), *questions))[-len(questions):-1]
    for name, digits in ("newer", newer), ("older", older), ("in upper case", newer.upper()), ("in both", newer[:99] + newer[99:].upper()):
        text = lines(OPEN, {"at": 1, "take": digits}, *questions)
        yield judged("a packet %s" % name, program, text)
        yield "a packet %s is all that was told" % name, answers(program, text)[2:-1] == wanted
    for place in range(0, len(newer), 7):
        other = newer[:place] + ("0" if newer[place] != "0" else "1") + newer[place + 1:]
        yield judged("a packet with another digit %d" % place, program, lines(OPEN, {"at": 2, "take": other}, *asks([2])))


# pieces and sizes

def pieces(program):
    """A stream cut at each byte, with each line twice, with empty lines, and with other white space."""
    text = short()
    whole, given = answers(program, text), followed.lines_of(text)
    yield judged("a short stream", program, text)
    for end in range(len(text)):
        status, out, err = seen(program, text[:end])
        count, why = text[:end].count(b"\n"), followed.wrong(text[:end], out)
        fine = (status, err, why) == (0, b"", None) and followed.answers_in(out)[0][:count] == whole[:count]
        yield "the first %d bytes: %s" % (end, why), fine
    yield judged("each line twice", program, lines(*(one for one in given for _ in range(2))))
    yield judged("empty lines between", program, text.replace(b"\n", b"\n\n"))
    yield judged("carriage returns", program, text.replace(b"\n", b"\r\n"))
    yield judged("blanks before and behind", program, lines(*(b" \t%s  " % one for one in given)))
    yield judged("carriage returns alone", program, text.replace(b"\n", b"\r"))
    yield judged("line feeds within names", program, text.replace(b'"p"', b'"\n"'))


def sizes(program):
    """A line of the most bytes is one as any other; one with a byte more is refused, and the next is answered."""
    told = line(tell("machine"))
    known = reference.Known([reference.operation("machine", hostile.OPERATIONS["machine"])])
    graph = "".join(reference.graph(known)).encode() + b"ok\n"
    for name, padded, more, answer, after in (
            ("behind", told.ljust, 0, b"ok\n", graph), ("before", told.rjust, 0, b"ok\n", graph),
            ("behind", told.ljust, 1, b"refusal 16\n", EMPTY_GRAPH), ("before", told.rjust, 70000, b"refusal 16\n", EMPTY_GRAPH)):
        text = lines(OPEN, padded(strict.LINE + more), GRAPH)
        yield "blanks %s, %d bytes more" % (name, more), seen(program, text) == (0, b"ok\n" + answer + after, b"")
    for more, answer in (0, b"ok\n"), (1, b"refusal 16\n"):
        text = lines(OPEN) + told.ljust(strict.LINE + more)
        yield "a last line of %d bytes more" % more, seen(program, text) == (0, b"ok\n" + answer, b"")
    name = "n" * (strict.LINE // 2)
    cut, other = {"at": 1, "cut": {"name": name}}, {"at": 2, "deliver": name[1:]}
    found = map(end_of, answers(program, lines(OPEN, cut, {"at": 2, "deliver": name}, other, cut)))
    yield "a name of many letters", list(found) == [b"ok", b"ok", b"ok", b"refusal 9", b"refusal 16"]
    long = [b"[" * (1 << 20)] * 8
    yield "many long lines", answers(program, lines(OPEN, *long, GRAPH)) == [b"ok\n"] + [b"refusal 16\n"] * 8 + [EMPTY_GRAPH]
    yield "zeros that are too many", answers(program, lines(b"\0" * (strict.LINE + 1), OPEN)) == [b"refusal 16\n", b"ok\n"]
    yield from large(program)


def large(program):
    """A cluster of thousands of tasks, told line by line, and passed on as one packet of many digits."""
    script = json.loads("".join(scripts.script(3000)))
    last = asks([1], ("graph", "winners", "list"))
    found = answers(program, lines(OPEN, *script["steps"], {"at": 1, "cut": {}}, *last))
    known = reference.Known([reference.operation(kind, fields) for step in script["steps"] for kind, fields in step["tell"].items()])
    wanted = [("".join(text(known)) + "ok\n").encode() for text in (reference.graph, reference.winners, reference.listing)]
    yield "a cluster, told", found[:-5] == [b"ok\n"] * (len(script["steps"]) + 1) and found[-4:-1] == wanted
    digits = digits_of(found[-5])
    sized = answers(program, lines(OPEN, {"at": 1, "take": digits}, {"at": 1, "ask": "size"}))[2]
    yield "the size of that packet, %d digits: %r" % (len(digits), sized[-30:]), sized.endswith(b"\npacket %d\nok\n" % (len(digits) // 2))
    passed = answers(program, lines(OPEN, {"at": 1, "take": digits}, *last))
    yield "a cluster, in a packet of %d digits" % len(digits), passed[2:-1] == wanted


# what lines do to each other

def half_checked(text, *seed):
    """The stream, of which half of the lines are checked before they are sent."""
    chance = random.Random("checked %s" % (seed,))
    return followed.with_checks(text, lambda _line: chance.random() < 0.5)


def weaves(program, count=24):
    """Drawn streams of all kinds of lines, of which half are checked before, renewed after so many entries too: what is answered is as it
    is to be."""
    for seed in range(count):
        text = half_checked(woven(seed, strange=0.1), "woven", seed)
        for renew_after in (None, 5) if seed % 4 else (None, 1, 2, 3, 5, 17, 1000000):
            yield judged("woven %d, renewed after %s" % (seed, renew_after), program, text, renew_after)
    yield judged("every kind", program, every_kind())
    yield judged("every kind, renewed after 5", program, every_kind(), 5)


def checks(program):
    """Each line of a stream is checked before it is sent: what was said comes, and nothing else changes, also if each line renews."""
    said, many = set(), [("woven %d" % seed, woven(seed, strange=0.3)) for seed in range(8)]
    for name, text in ("every kind", every_kind()), ("short", short()), *many:
        for words in [], ["--renew-after", "1"], ["--renew-after", "3"]:
            plain, checked = answers(program, text, *words), followed.with_checks(text)
            found, given = answers(program, checked, *words), followed.lines_of(checked)
            is_one = [line == followed.CHECK % following for line, following in zip(given, given[1:])] + [False]
            others = [answer for answer, is_check in zip(found, is_one) if not is_check]
            yield "%s with checks, %s: as without" % (name, words), len(given) == len(found) and others == plain
            broken = next(filter(None, map(followed.foretold_of, given, given[1:], found, found[1:])), None)
            yield "%s with checks, %s: what was said comes: %s" % (name, words, broken), broken is None
            said |= {answer.split(b"\n")[0] for answer, is_check in zip(found, is_one) if is_check}
    wanted = {b"accepted", *(b"refused %d" % number for number in (2, 4, 6, 8, 9, 16))}
    yield "what checks say, but for %s" % (wanted - said or "nothing"), said == wanted


# lines that are refused at a coordinator 7077 that is listed, if they do not open a stream
REFUSED = [(16, b"x"), (16, b""), (16, OPEN), (8, b'{"at":65,"news":true}'), (8, b'{"at":65,"news":true,"mine":true}'), (8, b'{"at":65,"round":true}'),
           (8, b'{"at":65,"round":{"writers":[1]}}'), (16, b'{"at":7077,"round":{"each":0}}'), (9, b'{"at":7077,"deliver":"?"}'),
           (4, b'{"at":7077,"trim":1000000}'), (4, b'{"at":7077,"cut":{"name":"?","from":1,"to":0}}'), (6, b'{"at":7077,"take":"46"}'),
           (16, b'{"at":7077,"take":"4"}'), (16, b'{"at":7077,"cut":{"name":"?","from":0}}'), (2, line(tell("job", at=7077, writer=0)))]


def refused_between(program):
    """Refused lines in between change nothing: the other answers are those to the stream without them."""
    for name, text in ("every kind", every_kind()), ("woven", woven(7)), ("with rounds", woven(9)):
        given = followed.lines_of(text)
        plain = answers(program, text)
        yield "a stream to compare, %s" % name, len(plain) == len(given)
        at = b"%d" % json.loads(given[0])["coordinators"][0]
        for number, one in REFUSED:
            one = one.replace(b"7077", at)
            found = answers(program, lines(given[0], *(piece for other in given[1:] for piece in (one, other))))
            others, refusals = found[:1] + found[2::2], found[1::2]
            fine = others == plain and refusals == [b"refusal %d\n" % number] * (len(given) - 1)
            yield "%s with %r between" % (name, one), fine
    trimmed, named, again = [OPEN, tell("job"), {"at": 1, "trim": 1}], {"at": 1, "cut": {"name": "p"}}, {"at": 1, "cut": {}}
    found = answers(program, lines(*trimmed, {"at": 1, "cut": {"from": 0, "to": 1}}, named, named, again))
    plain = answers(program, lines(*trimmed, named, again))
    yield "cuts that are refused are not counted", found[3::2] == [b"refusal 5\n", b"refusal 16\n"] and found[4::2] == plain[3:]


def renewals(program):
    """Coordinators that are renewed at any place of a stream know what they knew."""
    for seed in range(3):
        chance = random.Random("renewals %d" % seed)
        told = [{"at": chance.choice((1, 2)), "tell": op} for op in drawn.Lives(chance).operations(30)]
        first = [OPEN, *told[:15], {"at": 1, "cut": {"name": "p"}}, {"at": 2, "deliver": "p"}, {"at": 1, "round": True}]
        middle, last = [{"at": 2, "take": hostile.PACKET.hex()}, *told[15:]], asks([1, 2], ("graph", "winners", "list", "stops"))
        plain = answers(program, lines(*first, *middle, *last))
        yield "a stream to compare, %d" % seed, len(plain) == len(first) + len(middle) + len(last)
        for place in range(len(middle) + 1):
            for times in 1, 2:
                given = [*first, *middle[:place], *[{"renew": True}] * times, *middle[place:], *last]
                found = answers(program, lines(*given))
                yield "renewed %d times at %d" % (times, place), len(found) == len(given) and found[-len(last):] == plain[-len(last):]
    yield from begun_anew(program)
    yield from own_news(program)


def begun_anew(program):
    """What coordinators that are renewed do not keep."""
    named, news = {"at": 1, "cut": {"name": "p"}}, {"at": 1, "news": True}
    found = answers(program, lines(OPEN, tell("job"), named, news, {"renew": True}, {"at": 1, "deliver": "p"}, named, news, news,
                                   {"at": 1, "cut": {"from": 0, "to": 2}}, {"at": 1, "trim": 1}))
    packet = lambda number, jobs: b"46444732%02x%016x%016x" % (1, number, jobs)
    yield "names are gone", (found[4], found[5], end_of(found[6])) == (b"ok\n", b"refusal 9\n", b"ok")
    yield "packets and news begin anew", [answer[:42] for answer in found[6:9]] == [packet(1, 1), packet(2, 1), packet(3, 0)]
    yield "there is one delta", found[9:] == [b"refusal 4\n", b"ok\n"]
    # the second tell is the third entry, so what was trimmed and cut before it is forgotten
    found = answers(program, lines(OPEN, tell("job"), {"at": 1, "trim": 1}, tell("job"), news, {"at": 1, "trim": 0}), "--renew-after", "3")
    yield "made anew after three entries", (found[4][:42], found[5]) == (packet(1, 1), b"ok\n")


def own_news(program):
    """Own news are runs of deltas between those that others sent, or all that is known if some delta was trimmed, or nothing."""
    mine, other = {"at": 1, **OWN_NEWS}, {"at": 1, "take": hostile.PACKET.hex()}
    cut = lambda first, end: {"at": 1, "cut": {"from": first, "to": end}}
    values = lambda given: [answer[26:] for answer in answers(program, lines(OPEN, *given))]
    none = b""
    told = [tell("job"), tell("machine"), other, other, tell("spec"), {"at": 1, "round": True}, other]
    runs, cuts = values([*told, mine, mine, mine]), values([*told, cut(0, 2), cut(4, 6)])
    yield "by runs, and then nothing", runs[8:] == [*cuts[8:], none] and none not in cuts[8:]
    yield "nothing of others", values([other, mine])[2:] == [none]
    later = values([*told, mine, tell("report"), mine, mine, mine])
    yield "what is behind others' waits", [later[8], *later[10:]] == [*cuts[8:], values([tell("report"), cut(0, 1)])[2], none]
    trimmed = values([*told, mine, {"at": 1, "trim": 5}, mine, mine])
    yield "all, if some were trimmed", trimmed[10:] == [values([*told, {"at": 1, "cut": {}}])[8], none]
    asked = values([*told, mine, {"at": 1, "trim": 2}, mine])
    yield "what was sent may be trimmed", asked[10:] == [cuts[9]]
    renewed = values([*told, mine, {"renew": True}, other, mine, mine])
    yield "after a renewal all that was known", renewed[11:] == [values([*told, {"at": 1, "cut": {}}])[8], none]
    beside = values([tell("job"), {"at": 1, "news": True}, mine, {"at": 1, "news": True}])
    yield "beside news", beside[2] == beside[3] != beside[4]


# drawn lines

def hostile_lines(draw, count):
    """So many lines, valid, nearly valid and broken, of which the first mostly opens the stream."""
    given, names, packets = [line({"coordinators": [1, 2, 3]})] if draw.odds() < 0.97 else [], [], [hostile.PACKET.hex(), ""]
    given += [draw.spelled({"at": 1, "tell": op}).encode() for op in (draw.cluster() if draw.odds() < 0.7 else ())]
    while len(given) < count:
        tree, chosen = hostile_value(draw, names, packets), draw.odds()
        if draw.odds() < 0.05:
            tree = {"ask": "check", "line": tree}
        for _ in range(draw.one_of((1, 1, 2)) if chosen < 0.3 else 0):
            tree = draw.spoiled(tree)
        text = draw.spelled(tree, 0.02 if chosen < 0.1 else 0.0).encode("utf-8", "surrogatepass")
        given.append(draw.broken(text) if chosen > 0.88 else text.replace(b"\n", b" "))
    return b"\n".join(given) + draw.one_of((b"\n", b"\n", b""))


def hostile_value(draw, names, packets):
    """What a line may say."""
    at, chosen = draw.one_of((1, 1, 2, 2, 3, draw.number(0, 255))), draw.odds()
    if chosen < 0.6:
        return {"at": at, **draw.act(draw.one_of((0, 2, 8)), names)}
    if chosen < 0.7:
        return {"at": at, "ask": draw.one_of(followed.TOPICS)}
    if chosen < 0.75:
        return draw.record(at)
    if chosen < 0.82:
        return {"at": at, "take": draw.packet().hex() if draw.odds() < 0.7 else draw.one_of(packets)}
    if chosen < 0.89:
        return {"at": at, "news": True, **({"mine": True} if draw.odds() < 0.5 else {})}
    return draw.one_of(({"ask": "agree"}, {"ask": "version"}, {"at": at, "cut": {}}, {"at": at, "cut": {"from": 0, "to": draw.whole(64)}}, {"renew": True},
                        {"coordinators": [at]}, {"at": at, "round": draw.share()}, {"at": at, "ask": "why", "task": draw.id(3)}))


def hostile_streams(program, count=LINES, each=100):
    """Drawn lines in streams of a hundred, of which half are checked before: each is answered as it is to be, and nothing stops the stream."""
    for seed in range(-(-count // each)):
        draw = fuzzed.Draw(random.Random("hostile lines %d" % seed))
        renew_after = draw.one_of((None, None, 3, 40))
        yield judged("hostile lines %d" % seed, program, half_checked(hostile_lines(draw, each), "hostile", seed), renew_after)


# memory

def kept(program, allocator):
    """Refused lines, questions, and with renewals what is known already and packets, leave nothing: ten times as many of them
    need no more memory at once."""
    strange = [b'{"at":1,"cut":{"name":"%08d","from":9,"to":1}}', b'{"at":1,"take":"46%08d"}', b'{"at":1,"deliver":"%08d"}',
               b'{"at":9,"cut":{"name":"%08d"}}', b"[[[[%08d", b'{"at":1,"news":false,"more":"%08d"}']
    asked = [line(value) for value in asks([1, 2])]
    for name, words, kind in (("refused lines", [], lambda n: strange[n % len(strange)] % n),
                              ("questions", [], lambda n: asked[n % len(asked)]),
                              ("checks", [], lambda n: followed.CHECK % (strange[n % 4] % n)),
                              ("tells", ["--renew-after", "50"], lambda n: line(tell("report", number=n, id=MACHINE[:-1] + "%x" % (n % 5)))),
                              ("packets", ["--renew-after=50"], lambda n: b'{"at":1,"cut":{"name":"%08d"}}' % n),
                              ("renewals", [], lambda n: b'{"renew":true}')):
        began, ended = (allocator.run(program, ["follow", *words], lines(OPEN, tell("job"), *map(kind, range(1000, 1000 + count))))
                        for count in (300, 3000))
        fine = ended[0][::2] == (0, b"") and len(followed.answers_in(ended[0][1])[0]) == 3002
        most = began[1]["most"], ended[1]["most"]
        yield "memory of %s: at most %d and %d bytes" % (name, *most), fine and 0 < most[0] and most[1] <= most[0] + 4096


def memory(program, allocator, seconds=SECONDS):
    """Memory is refused at each allocation of a stream of every kind of line, once, and from there on: a line is answered as with
    ample memory or refused by 1, and if it is refused, the rest is answered as if it had not been. If that would take more than
    the seconds, places are drawn."""
    text = every_kind()
    ample, counted = allocator.run(program, ["follow"], text)
    _, started = allocator.run(program, ["follow"], b"")
    why = followed.wrong(text, ample[1])
    yield "ample memory: %s" % why, ample[::2] == (0, b"") and why is None
    began, refused, runs = time.monotonic(), 0, [(many, first) for many in (1, 0) for first in range(1, counted["count"] + 2)]
    random.Random(1).shuffle(runs)
    for many, first in runs:
        if seconds and time.monotonic() - began > seconds:
            break
        found, numbers = allocator.run(program, ["follow"], text, first=first, many=many)
        why = wrong_without_memory(text, found, first <= started["count"])
        if why is None and (numbers["refused"] > 0) != (first <= counted["count"]):
            why = "%d refused of %d" % (numbers["refused"], numbers["count"])
        if why is None and many == 1 and followed.answers_in(found[1])[0].count(LACKING) > 1:
            why = "more than one line is refused"
        refused += found != ample
        yield "memory, %s refused from allocation %d on: %s" % (many or "all", first, why), why is None
    yield "lines were refused", refused > 0


def wrong_without_memory(text, found, starts):
    """What is wrong with a run that was refused memory, or None. It may not begin, if that is where memory was refused."""
    status, out, err = found
    if (status, err) == (0, b""):
        return followed.wrong(text, out, passed_over=LACKING)
    return None if starts and (status, out, err) == (4, b"", NO_MEMORY) else "status %d, %r, standard error %r" % (status, out[-99:], err)


GROUPS = {"cases": cases, "scripted": scripted, "plans": plans, "day": day, "by_hand": by_hand, "packet_forms": packet_forms,
          "pieces": pieces, "sizes": sizes, "weaves": weaves, "checks": checks, "refused_between": refused_between, "renewals": renewals, **piped.GROUPS,
          "hostile": hostile_streams, "kept": kept, "memory": memory}


def all_tests(program, allocator, names=tuple(GROUPS), count=LINES, seconds=SECONDS):
    """Each test of the groups, by name."""
    more = {"hostile": (count,), "kept": (allocator,), "memory": (allocator, seconds)}
    for name in names:
        for told, fine in GROUPS[name](program, *more.get(name, ())):
            yield "%s: %s" % (name, told), fine


def main():
    words = argparse.ArgumentParser(description=__doc__, formatter_class=argparse.RawDescriptionHelpFormatter)
    words.add_argument("--program", default=str(ROOT / "crates/fm_cli/out/fm_cli"))
    words.add_argument("--lines", type=int, default=LINES)
    words.add_argument("--seconds", type=float, default=SECONDS)
    words.add_argument("groups", nargs="*", metavar="GROUP", help=", ".join(GROUPS))
    words = words.parse_args()
    if set(words.groups) - GROUPS.keys():
        sys.exit("tests/streams.py: the groups are %s" % ", ".join(GROUPS))
    passed = failed = 0
    for group in words.groups or GROUPS:
        began, before = time.monotonic(), passed + failed
        for name, fine in all_tests(words.program, refusing.Refusing(), [group], words.lines, words.seconds):
            passed, failed = passed + fine, failed + (not fine)
            if not fine:
                print("FAILED: " + name, flush=True)
        print("%-16s%6d tests in %.0f s" % (group, passed + failed - before, time.monotonic() - began), flush=True)
    print("%d passed, %d failed" % (passed, failed))
    sys.exit(failed != 0)


if __name__ == "__main__":
    main()
