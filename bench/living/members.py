"""A coordinator of a cluster: what it is told, the packets that it exchanges with others, its rounds, and what it knows of placements.

Which of its deltas are its own is counted as `bin/bridge` does it: all from its last cut on, since all of them are cut before packets of
others are taken in. So a packet never has what came from others.
"""
import collections

from .followers import Follower, line_of, told

# the digits of a packet, and what placements came of the deltas in it
Packet = collections.namedtuple("Packet", "digits facts")
# an entry of a plan with its answer; `number` is the incarnation of a place, and the attempt of a preempt
Entry = collections.namedtuple("Entry", "kind task number machine answer")
# what changes for a task: `kind` is entry, attempt, done or withdrawn, and an entry has who proposes and where
Fact = collections.namedtuple("Fact", "kind task attempt coordinator spot", defaults=(None, None))


class Known:
    """What one coordinator knows of placements, after the rules of docs/model.md: the present attempt of each task, who proposes what
    for each attempt, at which attempt a task was done, and which are of jobs that were withdrawn. `news` are the facts of its own since
    they were last taken."""

    def __init__(self):
        self.attempts, self.entries, self.done, self.withdrawn, self.news = {}, {}, {}, set(), []

    def attempt(self, task):
        return self.attempts.get(task, 0)

    def is_done(self, task):
        return self.done.get(task, -1) == self.attempt(task)

    def own(self, fact):
        self.news.append(fact)
        self.learn(fact)

    def learn(self, fact):
        if fact.attempt > self.attempt(fact.task):
            self.attempts[fact.task] = fact.attempt
        if fact.kind == "entry":
            self.entries.setdefault((fact.task, fact.attempt), {})[fact.coordinator] = fact.spot
        elif fact.kind == "done":
            self.done[fact.task] = max(fact.attempt, self.done.get(fact.task, 0))
        elif fact.kind == "withdrawn":
            self.withdrawn.add(fact.task)

    def placed(self, task, coordinator, spot):
        """A place of its own was accepted: the attempt that it is for, the next one if there is a proposal for the present one."""
        attempt = self.attempt(task) + ((task, self.attempt(task)) in self.entries)
        self.own(Fact("entry", task, attempt, coordinator, spot))
        return attempt

    def winner(self, task):
        """The coordinator whose proposal for the present attempt wins, and its spot, or None."""
        entries = self.entries.get((task, self.attempt(task)))
        return min(entries.items()) if entries else None

    def held(self):
        """How many tasks each spot holds: a machine at an incarnation."""
        there = (task for task, attempt in self.entries if attempt == self.attempt(task))
        return collections.Counter(self.winner(task)[1] for task in there if not self.is_done(task) and task not in self.withdrawn)

    def is_to_run(self, task, attempt, coordinator):
        """Whether the coordinator's proposal for the attempt is the one that wins, and the task is neither done nor withdrawn."""
        winner = self.winner(task)
        is_won = attempt == self.attempt(task) and winner is not None and winner[0] == coordinator
        return is_won and not self.is_done(task) and task not in self.withdrawn


class Member:
    """A coordinator in a process of its own."""

    def __init__(self, number, program, fixed=None, processor=False):
        self.number, self.known = number, Known()
        self.follower = Follower(program, number, fixed, processor)
        # the next delta's number, the first that was not cut yet, the entries of its history, and its operations since the last cut
        self.deltas = self.uncut = self.entries = self.operations = 0
        # what came and it was not told yet, packets that came, whether it does something, and whether a round is due
        self.inbox, self.mail, self.is_busy, self.is_due = [], [], False, False

    def count(self, entries):
        self.deltas += entries
        self.entries += entries

    def tell(self, operations):
        """Is told operations: the seconds."""
        taken = self.follower.tell([told(self.number, operation) for operation in operations])
        self.count(len(operations))
        self.operations += len(operations)
        return taken

    def round(self, is_own):
        """Holds a round, of its own tasks or of the whole plan: the seconds, and the entries that it carries out with their answers."""
        taken, text = self.follower.ask(line_of({"at": self.number, "round": {"writers": [self.number]} if is_own else True}))
        self.count(1)
        entries = list(map(entry_of, text.splitlines()))
        self.operations += sum(entry.answer == "accepted" for entry in entries)
        return taken, entries

    def ask(self, topic):
        """The seconds that the answer to a question takes, and its text."""
        return self.follower.ask(line_of({"at": self.number, "ask": topic}))

    def cut(self):
        """Cuts its own deltas since the last cut: the seconds, and the packet."""
        taken, text = self.follower.ask(line_of({"at": self.number, "cut": {"from": self.uncut, "to": self.deltas}}))
        facts, self.known.news = self.known.news, []
        return taken + self.let_go(), Packet(text.strip(), facts)

    def let_go(self):
        """Lets its deltas go, which were cut or nobody wants: the seconds."""
        self.uncut, self.operations = self.deltas, 0
        return self.follower.ask(line_of({"at": self.number, "trim": self.deltas}))[0]

    def take(self, packet):
        """Takes in a packet of another one, when all of its own was cut: the seconds."""
        taken, _ = self.follower.ask(line_of({"at": self.number, "take": packet.digits}))
        self.count(1)
        self.uncut = self.deltas
        return taken

    def renew(self):
        """Is made anew, which lets its history go, when all of its own was cut: the seconds."""
        taken, _ = self.follower.ask(line_of({"renew": True}))
        self.deltas = self.uncut = self.entries = 1
        return taken


def entry_of(line):
    kind, task, *words = line.split()
    if kind == "place":
        return Entry(kind, task, int(words[1]), words[0], words[2])
    return Entry(kind, task, int(words[0]), None, words[1])
