"""Coordinators that live through a cluster's life in simulated time, which contains the measured time of what they do."""
import collections
import dataclasses
import heapq
import itertools

from . import causes
from .grounds import Ground
from .members import Fact
from .outside import Outside, done

# what a coordinator did between two times when it was free
Turn = collections.namedtuple("Turn", "time coordinator told telling packets taking renewal round places preempts accepted refused "
                              "memory waiting is_checked")


@dataclasses.dataclass(frozen=True)
class Settings:
    """How coordinators live. Times are seconds of simulated time."""
    seconds: float
    most_rounds: int = 0
    # operations of its own after which a coordinator sends a packet and takes in those that came, and how long one is on its way
    exchange_after: int = 100
    delay: float = 0.001
    renew_after: int = 100000
    # what a coordinator carries out of its plans: the entries of its own tasks, which were told to it, or all
    sharing: str = "own"
    # a machine measures so often, its report lags, and says such a share of what its runs ask for
    report_every: float = 20.0
    report_lag: tuple = (0.5, 3.0)
    use: tuple = (0.3, 1.1)
    # how long it takes to find out that a machine failed
    detection: float = 1.0
    first_check: int = 10
    check_every: int = 100
    samples: int = 200
    # operations in one packet of those that tell of the cluster at the start
    bulk: int = 20000
    seed: int = 1


class Simulation:
    """Events in the order of their times. `judge` is handed a coordinator before a round, now and then."""

    def __init__(self, events, members, settings, judge=None):
        self.members, self.settings, self.judge = members, settings, judge
        self.numbered = {member.number: member for member in members}
        self.ground, self.counts, self.wasted = Ground(), collections.Counter(), 0.0
        self.queue, self.serial, self.is_ended = [], itertools.count(), False
        self.turns, self.first_turns, self.latencies, self.series, self.checks = [], [], [], [], []
        self.refused, self.causes, self.rounds = collections.Counter(), collections.Counter(), 0
        self.outside = Outside(self)
        self.events = events

    def at(self, time, action, *given):
        heapq.heappush(self.queue, (time, next(self.serial), action, given))

    def live(self):
        """Lives to the end, and through an exchange of all that is not exchanged yet."""
        self.begin()
        for event in self.events:
            if event.time > 0:
                self.at(event.time, self.outside.hand, event)
        for place in range(self.settings.samples + 1):
            self.at(self.settings.seconds * place / self.settings.samples, self.sample)
        most = self.settings.most_rounds
        while self.queue and self.queue[0][0] <= self.settings.seconds and not (most and self.rounds >= most):
            time, _, action, given = heapq.heappop(self.queue)
            self.ground.advance(time)
            action(*given)
        self.finish()

    def sample(self):
        self.series.append(self.ground.sample(self.outside.live - len(self.ground.of_task)))

    # the start

    def begin(self):
        """Each coordinator is told its part of the cluster as it is at the start, and then each in turn places its tasks. The others take
        in both at once."""
        parts = {member: [] for member in self.members}
        for event in self.events:
            if event.time == 0:
                owner, operations = self.outside.handle(event)
                if operations:
                    parts[owner] += operations
        for member, operations in parts.items():
            for place in range(0, len(operations), self.settings.bulk):
                some = operations[place:place + self.settings.bulk]
                telling = member.tell(some)
                self.first_turns.append(self.turn_of(member, len(some), telling, self.spread(member)))
        for member in self.members:
            self.place_first(member)
        self.causes.clear()

    def place_first(self, member):
        """A coordinator places its tasks of the start, in rounds, as long as one places or preempts some of them."""
        starts, is_due = [], True
        while is_due:
            seconds, entries = member.round(True)
            more, preempted = self.taken_in(member, entries)
            starts, count = [start for start in starts + more if start[0] not in preempted], len(starts) + len(more)
            self.counts["preempted at the start"] += count - len(starts)
            self.first_turns.append(self.turn_of(member, 0, 0.0, self.spread(member), seconds, entries))
            is_due = bool(more or preempted) and len(more) < len(entries)
        self.start_all(member, starts)

    def spread(self, member):
        """Everybody else takes in what a coordinator has news of: the packets, the seconds of taking in, and those of renewals."""
        if len(self.members) == 1:
            member.let_go()
            return 0, 0.0, self.renewed(member)
        _, packet = member.cut()
        seconds = sum(self.took(other, packet) for other in self.members if other is not member)
        return 1, seconds, sum(map(self.renewed, self.members))

    # turns

    def hand(self, member, operations):
        """Something came that a coordinator is to be told: an operation, or the name of a task that is done."""
        member.inbox += operations
        if not member.is_busy and not self.is_ended:
            member.is_busy = True
            self.at(self.ground.time, self.turn, member)

    def turn(self, member):
        """A coordinator exchanges packets if it is time, is told what came, and holds a round if there is something new. What it sends
        was there at its last round, so others have no tasks to place that it is about to place."""
        packets, stops, taking, renewal = 0, [], 0.0, 0.0
        if member.operations >= self.settings.exchange_after or member.entries >= self.settings.renew_after:
            packets, stops, taking, renewal = self.exchange(member)
        count, more, telling = self.tell(member)
        stops += more
        seconds, entries, is_checked, starts = None, [], False, []
        if member.is_due:
            is_checked = self.check(member)
            seconds, entries = member.round(self.settings.sharing == "own")
            self.rounds += 1
            starts, preempted = self.taken_in(member, entries)
            stops += preempted
            member.is_due = bool(starts or preempted) and len(starts) < len(entries)
        turn = self.turn_of(member, count, telling, (packets, taking, renewal), seconds, entries, is_checked)
        self.turns.append(turn)
        self.at(self.ground.time + telling + taking + renewal + (seconds or 0.0), self.end_turn, member, starts, stops)

    def tell(self, member):
        """Tells a coordinator what came: how many operations, runs that are to stop, and the seconds."""
        came, member.inbox = member.inbox, []
        operations, stops = [], []
        for one in came:
            if type(one) is str:
                attempt = member.known.attempt(one)
                member.known.own(Fact("done", one, attempt))
                one = done(one, attempt)
            elif one.get("job", {}).get("withdrawn"):
                stops += self.withdrawn(member, one["job"]["id"])
            operations.append(one)
        member.is_due = member.is_due or bool(operations)
        return len(operations), stops, member.tell(operations) if operations else 0.0

    def withdrawn(self, member, job):
        """A coordinator is told that a job is withdrawn: its runs that are to stop."""
        names = [task.name for task in self.outside.jobs[job].tasks]
        for name in names:
            member.known.own(Fact("withdrawn", name, 0))
        return list(self.stops_of(member, names))

    def exchange(self, member):
        """A coordinator sends what is new of its own, and takes in what came: the packets, runs that are to stop, the seconds, and those
        of a renewal."""
        seconds, stops, came = 0.0, [], member.mail
        if len(self.members) == 1:
            seconds += member.let_go()
            member.known.news.clear()
        elif member.deltas > member.uncut:
            taken, packet = member.cut()
            seconds += taken
            for other in self.members:
                if other is not member:
                    self.at(self.ground.time + seconds + self.settings.delay, self.deliver, other, packet)
        member.mail = []
        for packet in came:
            seconds += self.took(member, packet)
            stops += self.stops_of(member, {fact.task for fact in packet.facts})
        member.is_due = member.is_due or bool(came)
        return len(came), stops, seconds, self.renewed(member)

    def deliver(self, member, packet):
        member.mail.append(packet)

    def took(self, member, packet):
        """A coordinator takes in a packet: the seconds. If it told that a task is done, and another one had begun the next attempt
        of it, it tells so again."""
        seconds = member.take(packet)
        for fact in packet.facts:
            member.known.learn(fact)
        for task in {fact.task for fact in packet.facts}:
            state = self.outside.tasks[task]
            if state.finisher is member and not member.known.is_done(task) and task not in member.inbox:
                self.counts["told done again"] += 1
                self.hand(member, [task])
        return seconds

    def renewed(self, member):
        if member.entries < self.settings.renew_after:
            return 0.0
        self.counts["renewals"] += 1
        return member.renew()

    def stops_of(self, member, tasks):
        """The runs of these tasks that the coordinator began and that are to stop, by what it knows."""
        for task in tasks:
            for key in self.ground.runs_of(task):
                if key[2] == member.number and not member.known.is_to_run(*key):
                    yield key

    def taken_in(self, member, entries):
        """What the answers to a plan come to: the runs that start, and those that stop."""
        starts, stops, preempts = [], [], causes.Preempts(member.known, self.ground.hosts)
        for entry in entries:
            if entry.answer != "accepted":
                self.refused[member.number, entry.kind, entry.answer] += 1
            elif entry.kind == "place":
                attempt = member.known.placed(entry.task, member.number, (entry.machine, entry.number))
                starts.append(((entry.task, attempt, member.number), entry.machine, entry.number))
            else:
                self.causes["preempted", preempts.cause(entry.task)] += 1
                member.known.own(Fact("attempt", entry.task, entry.number + 1))
                stops.append((entry.task, entry.number, member.number))
        self.counts["placed"] += len(starts)
        self.counts["preempted"] += len(stops)
        return starts, stops

    def end_turn(self, member, starts, stops):
        """What a turn came to happens, and the next turn begins if there is something to do."""
        for key in stops:
            self.waste(self.ground.stop(key))
        self.start_all(member, starts)
        member.is_busy = False
        if (member.inbox or member.is_due) and not self.is_ended:
            member.is_busy = True
            self.turn(member)

    def start_all(self, member, starts):
        """Tasks begin to run where they were placed, if the machine is there."""
        for key, machine, incarnation in starts:
            host, state = self.ground.hosts[machine], self.outside.tasks[key[0]]
            if not state.is_placed:
                state.is_placed = True
                if state.came > 0:
                    self.latencies.append(self.ground.time - state.came)
            if not host.is_up or host.incarnation != incarnation:
                self.counts["placed where a machine had gone"] += 1
                continue
            for what, cause in causes.of_start(key, self.ground.runs_of(key[0]), state.end):
                self.counts[what] += 1
                self.causes[what, cause] += 1
            self.ground.start(key, machine, key[0], state.task.request)
            self.at(self.ground.time + state.task.seconds, self.outside.run_ends, key)

    def waste(self, run):
        """A run was stopped, or came to its end when its task was over."""
        if run is not None:
            self.counts["runs stopped"] += 1
            self.wasted += self.ground.time - run.since

    # what is measured

    def check(self, member):
        if self.judge is None or self.rounds != self.settings.first_check and self.rounds % self.settings.check_every:
            return False
        self.checks.append({"round": self.rounds, "coordinator": member.number, **self.judge(member)})
        return True

    def turn_of(self, member, told, telling, exchanged, seconds=None, entries=(), is_checked=False):
        places = [entry for entry in entries if entry.kind == "place"]
        refused = collections.Counter(entry.answer for entry in entries if entry.answer != "accepted")
        return Turn(self.ground.time, member.number, told, telling, *exchanged, seconds, len(places), len(entries) - len(places),
                    len(entries) - sum(refused.values()), refused, member.follower.memory(),
                    self.outside.live - len(self.ground.of_task), is_checked)

    # the end

    def finish(self):
        """What goes on ends, what came is told, and all packets are exchanged until nothing is new."""
        self.is_ended = True
        lasting = self.end_turn, self.deliver, self.outside.found_out
        while self.queue:
            _, _, action, given = heapq.heappop(self.queue)
            if action in lasting:
                action(*given)
        while any(member.inbox or member.mail or member.deltas > member.uncut for member in self.members):
            for member in self.members:
                _, stops, _ = self.tell(member)
                _, more, _, _ = self.exchange(member)
                for key in stops + more:
                    self.waste(self.ground.stop(key))
            while self.queue:
                _, _, action, given = heapq.heappop(self.queue)
                action(*given)
