"""Runs of the program for bin/test, all in one batch: tests ask for runs before there are answers, then the unproved build makes
them all side by side (bin/runs.py), and the tests go on again with what each run answered.

So each group of tests runs twice. The first time a run is noted, and answered as tests/reference.py has it, since some tests
make further runs of an answer. A run that a batch cannot make is left out: one with an environment, a limit or a stream of its
own, one with words that are no lines, one of a large input, and one that the first time did not ask for.
"""
import collections
import contextlib
import io

import reference
import runs

LARGEST = 1 << 20


class Batch:
    """Runs that were asked for, and what they answered."""

    def __init__(self):
        self.numbers, self.answers, self.left_out, self.is_picked = {}, {}, False, True

    def run(self, words, text, **how):
        """The status of a run and what it writes, as far as the batch knows."""
        text = text.encode() if isinstance(text, str) else text
        if how or not self.takes(words, text):
            self.left_out = True
            return 0, b"", b""
        asked = tuple(words), text
        if not self.is_picked:
            return foreseen(words, text)
        if self.answers:
            self.left_out |= asked not in self.numbers
            return self.answers.get(self.numbers.get(asked), (0, b"", b""))
        self.numbers.setdefault(asked, len(self.numbers))
        return foreseen(words, text)

    @staticmethod
    def takes(words, text):
        lines = all(isinstance(word, str) and word and "\n" not in word and "{}" not in word for word in words)
        return lines and text is not None and len(text) < LARGEST

    def make(self):
        """Has the unproved build run all that was asked for."""
        asked = sorted(self.numbers, key=self.numbers.get)
        self.answers = dict(enumerate(runs.unproved(asked)))


def foreseen(words, text):
    """What the reference answers; of a solution, a flow in which every task waits or is preempted."""
    solves = list(words[:1]) == ["solve"]
    try:
        with contextlib.redirect_stderr(io.StringIO()), contextlib.redirect_stdout(io.StringIO()):
            status, out, err = reference.answers(["graph", *words[1:]] if solves else words, text)[0]
    except (reference.NotSaid, SystemExit):
        return 0, b"", b""
    return status, (unscheduled(out) if solves and status == 0 else out).encode(), err.encode()


def unscheduled(dump):
    """The text of the flow in which each task goes to its job's unscheduled aggregator."""
    rows = [line.split() for line in dump.splitlines()]
    kinds = {int(row[1]): row[2] for row in rows if row[0] == "c"}
    arcs = {(int(row[1]), int(row[2])): int(row[5]) for row in rows if row[0] == "a"}
    waits = [ends for ends in arcs if [kinds[end] for end in ends] == ["T", "U"]]
    units = collections.Counter(waits + [(job, 1) for _, job in waits])
    lines = ["f %d %d %d" % (*ends, many) for ends, many in sorted(units.items())]
    return "\n".join(["s %d" % sum(arcs[ends] * many for ends, many in units.items())] + lines + [""])
