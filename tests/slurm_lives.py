"""Lives of bin/slurm on the model of Slurm in tests/slurm_model.py, with the program as its follower.

    tests/slurm_lives.py [--program FILE] [--seeds N] [--first SEED]

A life is drawn by a seed: jobs, arrays, users and administrators, failures, what other traffic there is. In some the adapter is killed after
drawn commands, or after each. In some a second one makes its passes in the midst of those of the first, or takes the lock that both have when the
first one is stopped. Each command is judged as it comes, by what the model knows to be true: that is what docs/slurm.md promises. Ends in a
line 'N passed, M failed'.
"""
import argparse
import collections
import os
import pathlib
import random
import re
import sys

ROOT = pathlib.Path(__file__).resolve().parent.parent
sys.dont_write_bytecode = True
sys.path[:0] = [str(ROOT / "tests"), str(ROOT / "bin")]
import io
import json
import slurm_model as model
from slurming import passes, settings, slurm
from slurming.endings import Failure
from slurming.events import Events
from slurming.follower import Coordinator
from slurming.leases import Lease, Times
from slurming.locks import Lost
from slurming.telling import Moment
from slurming.usage import Reading

NOTE = re.compile(r"(?:^| )fetohamu=([0-9a-f-]{36}),(\d+),(\d+),(\d+),(\d+),(\S+)")
REASON = re.compile(r" ?\[fetohamu: [^\]]*\]")
CHANGES = ("update", "requeuehold", "release")
# the adapter counts a job for a second longer than it takes to send, since its clock is some tenths of a second off at each pass
START_WAIT, AVOID, STALE, SETTLE = 4.0, 8.0, 6.0, model.RAMP + 1.0
GIVEN = {
    "slurm": {"queues": "net urgent", "cluster": "model"},
    "adapter": {"lock": "/nowhere", "start-wait": str(START_WAIT), "avoid": str(AVOID), "whys": "1"},
    "use": {"stale": str(STALE), "settle": str(SETTLE)},
    "queue urgent": {"wait": "20000000", "most": "30000000", "preempt": "100000000"}}
# and so much later a job is sent back that does not start, since passes may fail meanwhile
PATIENCE = 12.0
STEPS = 24
SEEDS = 7
EVENTS = "placed", "back", "adopted", "ended", "node", "fault", "mended"
# so many passes are enough for all jobs to end behind the last event
LAST = 160


class Killed(BaseException):
    """The adapter is killed behind the command that it gave."""


class Watched(Coordinator):
    """A coordinator whose preemptions are recorded."""

    def __init__(self, life, run, program):
        super().__init__(program, 1, 120.0)
        self.life = life
        run.followers.append(self._follower._run)
        self.proposed = set()

    def tell(self, kind, identity, **fields):
        if kind == "propose":
            self.proposed.add(identity)
        super().tell(kind, identity, **fields)

    def round(self):
        self.life.look_at_round(self.proposed)
        placed, preempted = super().round()
        self.life.preempted |= {(entry.task, entry.attempt) for entry in preempted}
        return placed, preempted


class Run:
    """An adapter: its passes, and the readings that it got."""

    def __init__(self, life, lease=None):
        self.life, self.lease, self.readings, self.followers = life, lease, collections.defaultdict(list), []
        told = Events(True, life.said)
        asked = slurm.Slurm(self, "bandwidth", lambda: life.guard(self))
        self.passes = passes.Passes(life.settings, asked, self, told, lambda: Watched(life, self, life.program))
        self.passes.know("model", False)

    def run(self, words):
        return self.life.command(self, words)

    def read(self, nodes):
        """The readings of exporters, by their clocks. The adapter's own clock is some tenths of a second off when it takes them in."""
        found = {}
        for node in (self.life.slurm.nodes[it.name] for it in nodes):
            if not node.is_answering:
                found[node.name] = "it does not answer"
                continue
            found[node.name] = reading = Reading(self.life.slurm.now + node.skew, node.received, node.sent)
            self.readings[node.name].append((reading, self.life.steady))
        return found

    def use(self, name):
        """The greater of the last two rates in Mbit/s by the exporter's clock, or nothing: worked out from all readings, each time."""
        rates, last = [], None
        for reading, steady in self.readings[name]:
            if last is not None:
                seconds = reading.clock - last[0].clock
                if not seconds:
                    continue
                if steady - last[1] > STALE or reading.received < last[0].received:
                    rates = []
                else:
                    rates.append(max(reading.received - last[0].received, reading.sent - last[0].sent) * 8e-6 / seconds)
            last = reading, steady
        is_fresh = last is not None and self.life.steady - last[1] <= STALE
        return max(rates[-2:]) if len(rates) >= 2 and is_fresh else None

    def make(self):
        self.passes.run(Moment(self.life.slurm.now, self.life.steady))

    def end_follower(self):
        """The follower is killed; the adapter finds out when it asks."""
        for follower in self.followers[-1:]:
            follower.kill()

    def close(self):
        self.passes.close()


class Life:
    """A life, and what is wrong in it. `kill_at` is the number of the command behind which the adapter is killed, or 0 for each; `kills` is
    the chance that it is killed behind a command; `is_double` gives it a second adapter; `faults` is the chance that a command is lost, or its
    answer, or that the follower ends; `stops` gives it a second adapter and both a lock, and is the chance that one is stopped before it looks at
    the lock."""

    def __init__(self, seed, program, kill_at=None, kills=0.0, is_double=False, faults=0.0, stops=0.0, steps=STEPS):
        self.chance, self.program, self.steps = random.Random("life %s" % seed), program, steps
        self.settings = settings.settings_of(GIVEN)
        self.kill_at, self.kills, self.is_double, self.faults = kill_at, kills, is_double, faults
        chance = self.chance
        self.has_urgent = chance.random() < 0.7
        # in tight lives there is one slot on each node, and jobs of the dearer queue take it from those of the other
        self.is_tight = self.has_urgent and chance.random() < 0.6
        nodes = [model.Node("n%d" % at, cpus=1 if self.is_tight else chance.choice((1, 2, 3)), skew=chance.choice((-40.0, 0.0, 7.5)))
                 for at in range(1, chance.choice((3, 4)))]
        # in calm ones what Slurm does not know of sends the same all the time, so that what each link carries is known to the test
        self.is_calm = chance.random() < 0.5
        for node in nodes:
            node.others = chance.choice((0.0, 30.0, 50.0)) if self.is_calm else 0.0
        self.slurm = model.Slurm(nodes, consumes=is_double or chance.random() < 0.5)
        self.steady, self.said = 50.0, io.StringIO()
        self.wrong, self.log, self.preempted = [], [], set()
        self.attempts, self.homes, self.words, self.ids, self.placed_at = {}, {}, {}, {}, {}
        self.commands, self.faulty, self.may_adopt, self.inner, self.is_away = 0, False, False, None, False
        self.stops, self.is_stopped, self.runs, self.lost = stops, False, [], 0
        self.is_undisturbed = not (kills or is_double or faults or stops) and kill_at is None
        self.kill_chance = random.Random("kills %s" % seed)

    # what is judged

    def judge(self, is_fine, text, *of):
        if not is_fine:
            self.wrong.append("at %d: " % (self.slurm.now - 1700000000) + text % of)

    def command(self, run, words):
        """A command of an adapter: judged, done, and perhaps the last one that it gives."""
        is_change = words[0] == "scontrol" and words[1] in CHANGES
        if self.inner is not None and self.is_double and self.chance.random() < 0.15:
            other, self.inner = self.inner, None
            other.make()
        if is_change:
            self.log.append(" ".join(words))
            self.look(run, words)
        lost = is_change and self.kill_chance.random() < self.faults and self.kill_chance.choice(("command", "answer"))
        self.faulty = self.faulty or bool(lost)
        answer = slurm.Answer(1, "", "Unable to contact slurm controller") if lost == "command" else slurm.Answer(*self.slurm.run(words))
        if is_change and answer.status == 0:
            self.look_behind(words)
        if is_change:
            self.commands += 1
            if self.kill_at in (0, self.commands) or self.kill_chance.random() < self.kills:
                raise Killed
        return slurm.Answer(124, "", "it took too long") if lost == "answer" else answer

    def guard(self, run):
        """What an adapter asks before each command that changes a job: whether it still has the lock."""
        if run.lease is None:
            return
        if not self.is_stopped and self.kill_chance.random() < self.stops:
            self.stop(run)
        if not run.lease.holds(self.steady):
            raise Lost

    def stop(self, run):
        """An adapter is stopped in the midst of a pass, until the other one has the lock and has made some passes."""
        self.is_stopped = True
        for _ in range(int(Times().silence) + self.chance.choice((2, 4))):
            self.advance(1.0)
            self.turn(next(at for at, other in enumerate(self.runs) if other is not run))
        self.is_stopped = False

    def turn(self, at):
        """An adapter asks for the lock, or claims it again, and makes a pass if it has it."""
        lease = self.runs[at].lease
        self.send(lease.claim(self.steady) or lease.beat(self.steady))
        if lease.holds(self.steady):
            self.runs[at] = self.pass_of(self.runs[at])

    def send(self, text):
        """A broker hands a claim out to all, and what they answer."""
        for lease in [run.lease for run in self.runs] if text is not None else ():
            self.send(lease.hear(text, self.steady))

    def look(self, run, words):
        """Judges a command before it is done."""
        job = self.slurm.job(words[2].removeprefix("JobId="))
        if job is None or not self.slurm.is_answering:
            return
        if words[1] == "release":
            self.judge(job.held_by in ("adapter", ""), "%s is released, and %s holds it", job.name, job.held_by)
        elif words[1] == "requeuehold":
            self.look_at_requeue(job)
        else:
            self.look_at_update(run, job, dict(word.split("=", 1) for word in words[3:]))

    def look_at_round(self, proposed):
        """Before a round the coordinator was told of all that runs."""
        for job in self.slurm.jobs:
            note = NOTE.search(job.admin)
            if job.partition == model.RUN and job.state == "R" and note and note[3] != "0" and self.slurm.nodes[job.node].is_heard:
                self.judge(note[1] in proposed or self.is_double, "a round is run, and %s was not told", job.name)

    def look_at_requeue(self, job):
        note = NOTE.search(job.admin)
        decided = note and any(task == note[1] and attempt < int(note[2]) for task, attempt in self.preempted)
        self.judge(decided, "%s is requeued, and no round preempted it", job.name)
        if not self.is_double:
            dearer = [it for it in self.slurm.jobs if self.homes.get(id_of(it)) == "urgent" and not it.is_over()]
            self.judge(self.homes[id_of(job)] == "net" and dearer, "%s is requeued for nobody", job.name)

    def look_at_update(self, run, job, fields):
        if "Comment" in fields:
            self.judge(REASON.sub("", fields["Comment"]) == self.words[id_of(job)][0], "the comment of %s becomes %r", job.name, fields["Comment"])
            return
        note = NOTE.search(fields.get("AdminComment", ""))
        self.judge(note, "%s is updated without a note", job.name)
        if note is None:
            return
        others = re.sub(r"(^| )fetohamu=\S+", "", fields["AdminComment"]).strip()
        self.judge(others == self.words[id_of(job)][1], "the administrator's comment of %s becomes %r", job.name, fields["AdminComment"])
        self.judge(self.ids.setdefault(id_of(job), note[1]) == note[1], "%s gets another id", job.name)
        if not self.is_double:
            self.judge(int(note[2]) >= self.attempts.get(note[1], 0), "the attempt of %s falls to %s", job.name, note[2])
        self.judge(int(note[5]) == job.restarts or job.state == "CG" or self.is_double, "the note of %s counts %s restarts", job.name, note[5])
        if fields.get("Partition") == model.RUN:
            self.look_at_placement(run, job, fields, note)
        elif "Partition" in fields:
            self.judge(fields["Partition"] == self.homes[id_of(job)], "%s goes back to %s", job.name, fields["Partition"])
        elif job.state == "R" and note[3] != "0":
            self.look_at_adoption(job, note)

    def look_at_placement(self, run, job, fields, note):
        """A job that is placed may start, and its node has room for it."""
        node = self.slurm.nodes.get(fields["ReqNodeList"])
        self.judge(note[3] == "1" and abs(int(note[4]) - node.booted) <= 30, "the note of %s names another node", job.name)
        self.judge(note[6] == self.homes[id_of(job)], "the note of %s names another queue", job.name)
        self.placed_at[id_of(job)] = self.slurm.now
        if job.state != "PD" or self.is_double:
            return
        is_free = job.partition in model.QUEUES and job.priority > 0 and job.begin <= self.slurm.now and not self.slurm.waits_for(job)
        self.judge(is_free and job.cpus == 1, "%s is placed, and may not start", job.name)
        self.judge(node.base == "IDLE" and not node.flags, "%s is placed on %s, which takes none", job.name, node.name)
        placed = [it for it in self.slurm.jobs if it.partition == model.RUN and it.state == "PD" and it.asked == node.name and it is not job
                  and (NOTE.search(it.admin) or "000000000")[3] != "0" and it.priority]
        there = self.slurm.there(node)
        self.judge(sum(it.cpus for it in there) + len(placed) < node.cpus, "%s is placed on %s, which has no slot", job.name, node.name)
        asked = sum(it.request for it in [*there, *placed, job])
        self.judge(asked <= 100 or not job.request, "%s is placed on %s, which is then asked for %d", job.name, node.name, asked)
        use = run.use(node.name)
        self.judge(use is not None, "%s is placed on %s, which is not measured", job.name, node.name)
        new = sum(it.request for it in placed)
        is_busy = use is not None and job.request and use + new + job.request > 100.01
        self.judge(not is_busy, "%s is placed on %s, which is busy: %s and %s", job.name, node.name, use, new)
        # what nobody knows of was the same for so long that the readings show it
        is_steady = self.slurm.now - node.changed_at > 2 * STALE
        self.judge(not is_steady or not job.request or asked + node.others < 100.01, "the link of %s is then to carry %d", node.name,
                   asked + node.others)
        if job.throttle:
            count = sum(it.root == job.root and it.partition == model.RUN and it.state in ("PD", "R", "CG") and it.submitted == job.submitted
                        for it in self.slurm.jobs)
            self.judge(count < job.throttle, "%s is placed over its throttle", job.name)

    def look_at_adoption(self, job, note):
        """The note of a job that runs is written again only if it does not say what runs."""
        node = self.slurm.nodes[job.node]
        self.judge(abs(int(note[4]) - node.shown_boot) <= 30, "%s is adopted at another incarnation", job.name)
        before = NOTE.search(job.admin)
        says = before and (before[3] != "0" and int(before[5]) == job.restarts and abs(int(before[4]) - node.booted) <= 30)
        # a round may preempt it, and the next one give it its place again
        again = any(task == note[1] and attempt < int(note[2]) for task, attempt in self.preempted)
        self.judge(not says or again or self.may_adopt or self.is_double, "the note of %s is written again, and said what runs", job.name)

    def look_behind(self, words):
        """Takes in what a command did."""
        job = self.slurm.job(words[2].removeprefix("JobId="))
        note = NOTE.search(job.admin) if job else None
        if note:
            self.attempts[note[1]] = int(note[2])

    def look_around(self, is_whole):
        """What holds at each moment; behind a whole pass also that what runs has its note."""
        for job in self.slurm.jobs:
            wanted = job.restarts + (job.state in ("R", "CG") or (job.is_over() and job.starts > job.restarts))
            self.judge(job.starts == wanted, "%s started %d times, with %d restarts", job.name, job.starts, job.restarts)
            self.judge(job.state not in ("R", "CG") or job.partition in (model.RUN, model.OTHER), "%s runs from %s", job.name, job.partition)
            if job.partition == model.RUN and job.state == "PD" and is_whole and self.is_undisturbed:
                waited = self.slurm.now - self.placed_at.get(id_of(job), self.slurm.now)
                self.judge(waited < START_WAIT + PATIENCE, "%s does not start on %s, and stays there", job.name, job.asked)
            if job.partition == model.RUN and job.state == "R" and is_whole:
                note, node = NOTE.search(job.admin), self.slurm.nodes[job.node]
                names = note and note[3] == "1" and abs(int(note[4]) - node.booted) <= 30 and int(note[5]) == job.restarts
                self.judge(names or not node.is_heard or node.base == "DOWN", "%s runs on %s, with the note %r", job.name, job.node, job.admin)
        if not self.is_double:
            for node in self.slurm.nodes.values():
                there = self.slurm.there(node, partition=model.RUN)
                self.judge(sum(job.request for job in there) <= 100, "the requests on %s are %s", node.name, [job.request for job in there])
                self.judge(len(there) <= node.cpus, "there are %d jobs on %s", len(there), node.name)

    # what is drawn

    def submit(self):
        chance = self.chance
        queue = "urgent" if self.has_urgent and chance.random() < 0.3 and self.homes else "net"
        more = {"comment": chance.choice(("", "mine", "a  b")), "admin": chance.choice(("", "x=1", "ticket 7"))}
        if chance.random() < 0.15:
            more["requeue"] = 0
        if chance.random() < 0.1:
            more["begin"] = int(self.slurm.now) + chance.choice((3, 9))
        if chance.random() < 0.1 and self.slurm.jobs:
            more["after"] = (chance.choice(self.slurm.jobs).root,)
        if chance.random() < 0.05:
            more["cpus"] = 2
        if chance.random() < 0.05:
            more["gres"] = chance.choice(("gres:bandwidth:1,gres:bandwidth:2", "gres:bandwidth:big"))
        if chance.random() < 0.2:
            more |= {"array": chance.choice((2, 4)), "throttle": chance.choice((0, 1, 2))}
        lengths, requests = ((8, 20), (0, 10, 20)) if self.is_tight else ((2, 4, 8, 12), (0, 10, 40, 60, 100))
        self.take_in(self.slurm.submit(queue, chance.choice(lengths), chance.choice(requests), **more), queue)

    def take_in(self, root, queue):
        """Remembers what users wrote of a job, and where it waits."""
        for job in self.slurm.jobs:
            if job.root == root and id_of(job) not in self.homes:
                self.homes[id_of(job)], self.words[id_of(job)] = queue, (job.comment, job.admin)

    def happen(self):
        """Draws what users, administrators, nodes and networks do."""
        chance, slurm = self.chance, self.slurm
        node = chance.choice(list(slurm.nodes.values()))
        what = chance.choice(("load", "load", "load", "boot", "cancel", "hold", "hold", "let go", "requeue", "requeue held", "drain", "resume",
                              "resume", "fail", "reboot", "refuse", "refuse", "exporter", "exporter", "other job", "silent", "forget", "unheard",
                              "priority", "ticket", "requeue", "requeue", "requeue held", "clock"))
        wanted = "R" if what in ("requeue", "requeue held", "ticket") else "PD" if what in ("hold", "let go", "priority") else "PDR"
        alive = [job for job in slurm.jobs if job.state in wanted and not job.is_over() and job.partition != model.OTHER]
        job = chance.choice(alive) if alive else None
        if what == "load" and not self.is_calm:
            node.others, node.changed_at = chance.choice((0.0, 0.0, 30.0, 50.0, 80.0)), slurm.now
        elif what == "boot":
            node.shown_boot = node.booted + chance.choice((-1, 0, 1, 2))
        elif what == "clock":
            node.booted, node.shown_boot = node.booted + 100, node.shown_boot + 100  # the node's clock was set; what runs there runs on
        elif what == "drain":
            node.flags = ("DRAIN",)
        elif what == "resume":
            node.flags, node.base, node.refuses = (), "IDLE", False
        elif what in ("fail", "reboot"):
            slurm.fail(node, what == "reboot")
        elif what == "refuse":
            node.refuses = True
        elif what == "exporter":
            node.is_answering = not node.is_answering
        elif what == "silent":
            slurm.is_answering = False
        elif what == "forget" and chance.random() < 0.5:
            self.forget()
        elif what == "unheard":
            node.is_heard = False
        elif what == "other job":
            slurm.submit(model.OTHER, chance.choice((5, 20)))
        elif job is not None:
            {"cancel": slurm.cancel, "hold": lambda it: slurm.hold(it, "user"), "let go": slurm.let_go,
             "requeue": self.requeue, "requeue held": lambda it: slurm.requeue(it, "admin", True),
             "priority": lambda it: setattr(it, "priority", it.priority and 50), "ticket": self.write}.get(what, lambda it: None)(job)

    def write(self, job):
        """An administrator writes over the note."""
        note = NOTE.search(job.admin)
        if note:
            self.attempts.pop(note[1], None)
            self.ids.pop(id_of(job), None)
        job.admin = "ticket 9"
        self.words[id_of(job)] = self.words[id_of(job)][0], job.admin
        # which queue it came from is lost, too
        self.homes[id_of(job)] = job.partition if job.partition in model.QUEUES else "net"

    def requeue(self, job):
        """A user requeues a job; sometimes no adapter looks until Slurm has started it again."""
        self.is_away = self.slurm.requeue(job, "user", False) and self.chance.random() < 0.3

    def forget(self):
        """slurmctld is killed. What it kept is the truth from then on."""
        self.slurm.forget()
        self.may_adopt = True
        self.attempts, self.ids = {}, {}
        for job in [job for job in self.slurm.jobs if id_of(job) in self.words]:
            note, words = NOTE.search(job.admin), re.sub(r"(^| )fetohamu=\S+", "", job.admin).strip()
            self.words[id_of(job)] = self.words[id_of(job)][0], words
            if note or job.partition in model.QUEUES:
                self.homes[id_of(job)] = note[6] if note and job.partition == model.RUN else job.partition

    # how it goes

    def live(self):
        """Answers what is wrong, a line each."""
        self.runs = runs = [Run(self, Lease(1) if self.stops else None) for _ in range(1 + (self.is_double or self.stops > 0))]
        for run in runs if self.stops else ():
            run.lease.listen(self.steady - Times().silence)
        try:
            for step in range(self.steps):
                for _ in range(self.chance.choice((0, 1, 1, 2))):
                    self.submit()
                for _ in range(self.chance.choice((0, 1, 1, 2))):
                    self.happen()
                self.step(runs)
            self.mend()
            for step in range(LAST):
                self.step(runs)
                if all(job.is_over() for job in self.slurm.jobs):
                    break
                if step == LAST // 4:
                    self.is_double, runs = False, runs[:1] + [run.close() for run in runs[1:]][:0]
                    self.may_adopt = True
            for job in self.slurm.jobs:
                self.judge(job.is_over(), "%s never ends: %s in %s, %s, %r", job.name, job.state, job.partition, job.reason, job.admin)
        finally:
            for run in runs:
                run.close()
        return self.wrong

    def step(self, runs):
        """A pass of each adapter, and the time behind it."""
        self.slurm.save()
        for at in range(len(runs)):
            self.inner = runs[1 - at] if self.is_double else None
            if runs[at].lease is not None:
                self.turn(at)
            else:
                runs[at] = self.pass_of(runs[at])
        self.slurm.is_answering = True
        self.advance(self.chance.choice((0.7, 1.0, 1.0, 1.3, 2.5)))

    def advance(self, seconds):
        """Time goes by, also by the clock of the adapters."""
        self.slurm.advance(seconds)
        self.steady += seconds + self.chance.choice((-0.3, 0.0, 0.3))
        self.slurm.hear() if self.chance.random() < 0.5 else None
        self.look_around(False)

    def pass_of(self, run):
        """A pass. An adapter that is killed in it is followed by another one, which begins at once."""
        if not self.is_double and (self.is_away or self.chance.random() < 0.02):
            for seconds in 2.0, 150.0:  # nobody looks for so long that Slurm starts what was requeued
                self.slurm.advance(seconds)
                self.steady += seconds
            self.may_adopt, self.is_away = True, False
        while True:
            self.faulty = False
            if self.kill_chance.random() < self.faults:
                run.end_follower()
            try:
                run.make()
            except slurm.NoAnswer:
                return run
            except Failure:
                run.close()
                return run
            except Lost:
                run.close()
                run.lease.release()
                self.lost += 1
                return Run(self, run.lease)
            except Killed:
                self.look_around(False)
                run.close()
                # the new one has no readings of its own yet
                run = Run(self)
                if self.kill_at != 0:
                    return run
                continue
            self.look_around(not self.faulty)
            return run

    def mend(self):
        """Nothing fails any more, nobody holds anything, what can never be placed is cancelled, and jobs are short."""
        self.stops = 0.0
        for node in self.slurm.nodes.values():
            node.flags, node.base, node.refuses, node.is_answering, node.others = (), "IDLE", False, True, 0.0
        self.slurm.hear()
        for job in self.slurm.jobs:
            job.length, job.left = min(job.length, 3), min(job.left, 3)
            if job.held_by in ("user", "admin"):
                self.slurm.let_go(job)
            if job.cpus > 1 or "big" in job.gres or "," in job.gres:
                self.slurm.cancel(job)


def id_of(job):
    """A job as it was submitted: Slurm's ids come again."""
    return job.born


def lives(program, count, first=0):
    """Lives in which nobody kills the adapter, and others in which it is killed after drawn commands, after each, or has a second beside it,
    or in which commands, answers and followers are lost, or the lock is."""
    kinds = (("undisturbed", {}), ("killed now and then", {"kills": 0.2}), ("killed after each command", {"kill_at": 0}),
             ("two adapters", {"is_double": True}), ("faults", {"faults": 0.1}), ("a lock over a broker", {"stops": 0.1}))
    happened, lost = collections.Counter(), 0
    for seed in range(first, first + count):
        for name, how in kinds:
            life = Life(seed, program, **how)
            wrong = life.live()
            lost += life.lost
            happened.update(json.loads(line)["event"] for line in life.said.getvalue().splitlines())
            yield "life %d, %s: %s" % (seed, name, wrong[:3] or "as promised"), not wrong
    yield "all kinds of events came: %s" % dict(happened), all(happened[event] for event in EVENTS)
    yield "adapters lost their lock %d times in the midst of a pass" % lost, lost >= count


def one_kill(program, seed, steps=8):
    """A life is lived again and again, and the adapter is killed once in each, after another command."""
    whole = Life(seed, program, steps=steps)
    wrong = whole.live()
    for at in range(1, whole.commands + 1):
        wrong = wrong or ["killed after command %d: %s" % (at, it) for it in Life(seed, program, kill_at=at, steps=steps).live()]
    yield "life %d, killed after each of %d commands: %s" % (seed, whole.commands, wrong[:3] or "as promised"), whole.commands > 0 and not wrong


def preemption(program):
    """A job of a dearer queue takes the only slot from one that runs, which is requeued, goes back, and runs again behind it."""
    for how in {}, {"kill_at": 0}:
        life = Life("of a preemption", program, **how)
        life.slurm = model.Slurm([model.Node("n1", cpus=1)])
        life.take_in(life.slurm.submit("net", 20, 20), "net")
        runs = [Run(life)]
        for step in range(40):
            if step == 6:
                life.take_in(life.slurm.submit("urgent", 3, 20), "urgent")
            life.step(runs)
        runs[0].close()
        starts = [name for _, name, _ in life.slurm.events]
        found = [(job.starts, job.restarts, job.state, job.requeued_by) for job in life.slurm.jobs]
        yield "a preemption%s: %s, %s" % (", and kills" if how else "", starts, life.wrong), \
            starts == ["1", "2", "1"] and found == [(2, 1, "CD", "adapter"), (1, 0, "CD", "")] and not life.wrong


def again(program, seed):
    """A life is the same each time."""
    first, second = Life(seed, program, kills=0.2), Life(seed, program, kills=0.2)
    first.live(), second.live()
    yield "life %d is lived twice: %d commands" % (seed, len(first.log)), first.log == second.log and len(first.log) > 0


def all_tests(program, count=SEEDS, first=0):
    os.environ.setdefault("ASAN_OPTIONS", "abort_on_error=0:exitcode=70")
    yield from preemption(program)
    yield from again(program, first)
    for seed in range(first, first + 2):
        yield from one_kill(program, seed)
    yield from lives(program, count, first)


def main():
    given = argparse.ArgumentParser(description=__doc__, formatter_class=argparse.RawDescriptionHelpFormatter)
    given.add_argument("--program", default=str(ROOT / "crates/fm_cli/out/fm_cli"))
    given.add_argument("--seeds", type=int, default=SEEDS)
    given.add_argument("--first", type=int, default=0)
    asked = given.parse_args()
    passed = failed = 0
    for name, fine in all_tests(asked.program, asked.seeds, asked.first):
        passed, failed = passed + fine, failed + (not fine)
        if not fine:
            print("FAILED: " + name, flush=True)
    print("%d passed, %d failed" % (passed, failed))
    sys.exit(failed != 0)


if __name__ == "__main__":
    main()
