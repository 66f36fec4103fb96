"""Lines of streams, runs of `firmament follow` on them, and streams of many kinds of lines, for tests/streams.py and tests/piped.py."""
import json
import random
import subprocess

import drawn
import followed
import hostile
import reference

OPEN = b'{"coordinators":[1,2]}'
OWN_NEWS = {"news": True, "mine": True}
GRAPH = b'{"at":1,"ask":"graph"}'
EMPTY_GRAPH = b"c 1 S\np min 1 0\nok\n"
NO_OUTPUT, NO_INPUT, NO_MEMORY = (b"firmament: refusal %d\n" % number for number in (17, 16, 1))
JOB, TASK, MACHINE = hostile.JOB, hostile.TASK, hostile.MACHINE


def line(value):
    """The line of a value, without its line feed."""
    return json.dumps(value, separators=(",", ":")).encode()


def lines(*values):
    """The lines of values, and of bytes as they are, each with its line feed."""
    return b"".join((value if type(value) is bytes else line(value)) + b"\n" for value in values)


def tell(kind, at=1, **other):
    return {"at": at, "tell": {kind: {**hostile.OPERATIONS[kind], **other}}}


def asks(numbers, topics=followed.TOPICS):
    """All questions to coordinators, and whether they agree."""
    return [{"at": at, "ask": topic} for at in numbers for topic in topics] + [{"ask": "agree"}]


def explains(numbers, tasks=(TASK, drawn.unique(21), drawn.unique(24))):
    """Why tasks wait or run."""
    return [{"at": at, "ask": "why", "task": task} for at in numbers for task in tasks]


def records(numbers, tasks=(TASK, drawn.unique(21), drawn.unique(24))):
    """Lists of a kind, and what is next."""
    subjects = [{"job": JOB}, {"job": drawn.unique(2)}, *({"machine": machine, "incarnation": incarnation} for incarnation in range(1, 3)
                                                           for machine in (MACHINE, drawn.unique(11)))]
    return [{"at": at, "ask": "list", "of": kind} for at in numbers for kind in reference.LISTED] + [
        {"at": at, "ask": "next", **subject} for at in numbers for subject in (*subjects, *({"task": task} for task in tasks))]


def seen(program, text, *words, **how):
    """The status of a run on a text, and what it wrote."""
    how = how if "stdin" in how else {"input": text, **how}
    how.setdefault("stdout", subprocess.PIPE)
    done = subprocess.run([program, "follow", *words], stderr=subprocess.PIPE, timeout=300, **how)
    return done.returncode, done.stdout, done.stderr


def answers(program, text, *words):
    """The answers to the lines of a text, one after another."""
    return followed.answers_in(seen(program, text, *words)[1])[0]


def wrong(program, text, renew_after=None):
    """What is wrong with the run on a text, or None."""
    words = [] if renew_after is None else ["--renew-after", str(renew_after)]
    status, out, err = seen(program, text, *words)
    if (status, err) != (0, b""):
        return "status %d, standard error %r" % (status, err[:200])
    return followed.wrong(text, out, followed.RENEW_AFTER if renew_after is None else renew_after)


def judged(name, program, text, renew_after=None):
    """A test that a run on a text is as it is to be."""
    why = wrong(program, text, renew_after)
    return "%s: %s" % (name, why or "as it is to be"), why is None


def end_of(answer):
    """The last line of an answer."""
    return answer.split(b"\n")[-2]


def digits_of(answer):
    """The digits that a line answered."""
    return answer.split(b"\n")[0].decode()


def short():
    """A short stream, of many kinds of lines."""
    return lines(OPEN, b"", tell("job"), tell("machine"), tell("spec"), {"at": 1, "cut": {"name": "p"}}, {"at": 2, "deliver": "p"}, b"x",
                 {"at": 2, "round": True}, {"at": 2, "ask": "winners"}, {"ask": "agree"})


def every_kind():
    """A stream of lines of every kind, accepted ones and refused ones."""
    told = [tell("job"), tell("machine"), tell("machine", id=MACHINE[:-1] + "b", slots=1), tell("spec"), tell("spec", id=TASK[:-1] + "2"),
            tell("spec", id=TASK[:-1] + "3", request=700, prefer=[{"machine": MACHINE, "credit": 300}])]
    packet = reference.Packet(9, 7, {reference.operation("job", {**hostile.OPERATIONS["job"], "id": JOB[:-1] + "2"})})
    return lines(
        OPEN, *told, {"at": 1, "news": True}, {"at": 1, "cut": {"name": "some", "from": 1, "to": 4}}, {"at": 1, "ask": "plan"},
        {"at": 1, "round": True}, {"at": 2, "deliver": "some"}, {"at": 1, "cut": {}}, tell("report", at=2, incarnation=1, used=40),
        {"at": 2, "take": reference.packed(packet)[1].strip()}, b"{", tell("progress", attempt=1), {"at": 1, "news": True},
        {"at": 1, **OWN_NEWS}, {"at": 2, **OWN_NEWS}, {"at": 2, **OWN_NEWS},
        {"at": 1, "trim": 4}, {"at": 2, "round": {"writers": [1, 2], "each": 1}}, {"at": 2, "round": True}, tell("propose", at=2, attempt=1),
        *asks([2]), *explains([2]), *records([2]), {"renew": True},
        {"at": 1, "round": {}}, {"at": 2, "news": True}, {"at": 2, "deliver": "some"}, {"at": 1, "round": {"each": 0}},
        *asks([1]), {"ask": "version"}, *({"ask": "check", "line": checked} for checked in (
            tell("spec", prefer=[{"machine": MACHINE, "credit": 1}]), tell("job", writer=0), {"at": 2, "take": reference.packed(packet)[1].strip()},
            {"at": 2, "take": "46"}, {"at": 1, "cut": {"from": 2, "to": 1}}, {"at": 9, "news": True}, {"at": 1, "ask": "next", "job": JOB}, {})),
        *explains([1], [TASK, TASK[:-1] + "2", TASK[:-1] + "3", JOB]))


class Weaver:
    """Draws lines between the steps of a script: questions, news, own news, packets from elsewhere, rounds and renewals."""

    def __init__(self, seed):
        self.chance, self.stream, self.given, self.packets = random.Random("woven %d" % seed), followed.Stream(), [], []

    def add(self, value):
        """A line more. What it cuts, as far as that can be foretold, others may take in."""
        given = value if type(value) is bytes else line(value)
        self.given.append(given)
        answer = self.stream.answer(given)
        if type(value) is dict and {"cut", "news"} & value.keys() and answer.endswith(b"\nok\n"):
            self.packets.append(digits_of(answer))

    def between(self, at):
        """Such a line at the coordinator."""
        kind = self.chance.choices(("news", "mine", "cut", "agree", "renew", "round", "take", "ask", "why", "of", "version"), (6, 6, 3, 3, 1, 1, 6, 12, 6, 12, 1))[0]
        return {"agree": {"ask": "agree"}, "renew": {"renew": True}, "cut": {"at": at, "cut": {}},
                "mine": {"at": at, **OWN_NEWS}, "round": {"at": at, "round": drawn.share(self.chance)}, "take": {"at": at, "take": self.chance.choice(self.packets)},
                "ask": {"at": at, "ask": self.chance.choice(followed.TOPICS)},
                "version": {"ask": "version"}, "of": self.chance.choice(records([at])),
                "why": self.chance.choice(explains([at]))}.get(kind, {"at": at, kind: True})


    def strange(self, at):
        """A line that is refused."""
        return self.chance.choice((b"x", tell("job", at, version=9, writer=65), {"at": at, "trim": 10 ** 6}, {"at": 99, "news": True},
                                   {"at": at, "cut": {"name": "?", "from": 1, "to": 0}}, {"at": at, "deliver": "?"},
                                   {"at": at, "take": "46"}, {"at": at, "take": self.chance.choice(self.packets or ["0"])[:-1]}))


def woven(seed, strange=0.0):
    """A drawn script's steps with other lines between, and now and then one that is refused."""
    script, weaver = json.loads((drawn.gossip if seed % 3 else lambda number: drawn.rounds(number, 2))(seed)), Weaver(seed)
    for step in [{"coordinators": script["coordinators"]}, *script["steps"]]:
        weaver.add(step)
        for _ in range(2 if weaver.packets else 0):
            if weaver.chance.random() < 0.25:
                weaver.add(weaver.between(weaver.chance.choice(script["coordinators"])))
        if weaver.chance.random() < strange:
            weaver.add(weaver.strange(weaver.chance.choice(script["coordinators"])))
    return lines(*weaver.given)
