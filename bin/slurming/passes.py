"""A pass: reads what Slurm and the network say, tells the coordinator, runs rounds, and has Slurm do what differs.

Nothing is kept that is not in Slurm: an adapter that begins tells its coordinator all that runs, by the notes, and goes on. What
runs is told before the first round, since a coordinator that does not know it would give its place away.
"""
import collections
import dataclasses
from collections.abc import Callable, Iterable, Mapping, Sequence

from slurming.agreeing import Agreement
from slurming.events import Events
from slurming.follower import Coordinator
from slurming.jobs import Job, Phase, Sight, see
from slurming.memory import Memory
from slurming.nodes import Node
from slurming.reasons import Reasons
from slurming.rooms import Room, is_held
from slurming.settings import Settings
from slurming.slurm import Slurm
from slurming.telling import Moment, Teller
from slurming.usage import Meter, Source

# a placement that needs the slot of a preempted task comes in a later round, and so does that of a task which was preempted for another that
# then found no room
LAST_ROUNDS = 8
WITHOUT_PLACE = frozenset((Phase.WITHHELD, Phase.BLOCKED, Phase.RETURNING, Phase.PREEMPTED))


class Passes:
    """The passes of an adapter with one coordinator after the other."""

    def __init__(self, settings: Settings, slurm: Slurm, source: Source, events: Events, begin: Callable[[], Coordinator]) -> None:
        self._settings, self._slurm, self._source, self._events, self._begin = settings, slurm, source, events, begin
        self._meter = Meter(settings.stale, settings.source != "none")
        self._memory = Memory()
        self._reasons = Reasons(slurm, self._memory, events, settings.whys)
        self._queues = frozenset(settings.queues)
        self._cluster, self._is_by_cores = settings.cluster, False
        self._coordinator: Coordinator | None = None
        self._rooms: dict[str, Room] = {}
        self._open: dict[str, bool] = {}
        self.jobs = self.nodes = 0

    def know(self, cluster: str, is_by_cores: bool) -> None:
        """Takes in what Slurm is asked once: its name, and whether it gives whole cores to jobs."""
        self._cluster, self._is_by_cores = self._settings.cluster or cluster, is_by_cores

    def close(self) -> None:
        if self._coordinator is not None:
            self._coordinator.close()
            self._coordinator = None

    def run(self, moment: Moment) -> None:
        """One pass. If Slurm does not answer, nothing is done."""
        nodes = [node for node in self._slurm.nodes() if self._settings.run in node.partitions]
        jobs, strange = self._slurm.jobs([self._settings.run, *self._settings.queues])
        self._say_strange(strange)
        self.jobs, self.nodes = len(jobs), len(nodes)
        self._measure(nodes, moment.steady)
        sights = self._seen(jobs, moment)
        coordinator = self._coordinator_now()
        teller = Teller(coordinator, self._memory, self._events, self._cluster, self._per_job, self._settings.prices_of,
                        self._settings.settle, moment)
        self._tell_nodes(teller, nodes, sights)
        self._tell_placed(teller, sights)
        if not strange:
            self._tell_ended(teller, sights)
        self._tell_waiting(teller, sights)
        for _ in range(LAST_ROUNDS):
            if not self._round(teller, sights):
                break
        self._agree(teller, sights)
        self._reasons.write(sights, coordinator, moment.steady)

    # what is read

    def _say_strange(self, strange: Sequence[str]) -> None:
        if strange:
            self._events.fault("squeue", f"squeue prints {len(strange)} lines that are no job, as {strange[0][:80]!r}: what they say is left out")
        else:
            self._events.mend("squeue")

    def _measure(self, nodes: Sequence[Node], now: float) -> None:
        """Reads how busy the links are. A node whose reading fails keeps its last one until that is stale."""
        for name, reading in self._source.read(nodes).items():
            about = f"the measure of node {name}"
            if isinstance(reading, str):
                self._events.fault(about, f"node {name}: {reading}")
            else:
                self._events.mend(about)
                self._meter.take(name, reading, now)

    def _seen(self, jobs: Iterable[Job], moment: Moment) -> list[Sight]:
        """The jobs as this adapter sees them, and since when."""
        sights, memory = [], self._memory
        for job in jobs:
            sight = see(job, self._cluster, self._settings.run, self._queues, moment.wall)
            if sight.phase is Phase.FOREIGN:
                continue
            if sight.phase is Phase.PREEMPTED and sight.task in memory.kept:
                sight = dataclasses.replace(sight, phase=Phase.RUNNING)
            if sight.phase is Phase.WAITING and memory.avoided_tasks.get(sight.task, 0) > moment.steady:
                sight = dataclasses.replace(sight, phase=Phase.WITHHELD, unfit="it did not start where it was placed, and is left out for a while")
            if sight.phase is not Phase.STARTING:
                memory.starting_since.pop(sight.task, None)
            if sight.phase is Phase.RUNNING:
                memory.running_since.setdefault(sight.task, moment.steady)
            elif sight.phase is not Phase.LEAVING:
                memory.running_since.pop(sight.task, None)
            sights.append(sight)
        self._learn_throttles(sights)
        return throttled(sights, memory.throttles)

    def _learn_throttles(self, sights: Sequence[Sight]) -> None:
        """Learns the throttle of each array. squeue shows it while several elements wait that were not told apart. Of the last one it does
        not, so what was seen counts, and scontrol is asked of an array of which nothing was."""
        throttles = self._memory.throttles
        together = collections.Counter(id(sight.job.record) for sight in sights)
        waiting = [sight for sight in sights if sight.job.index is not None and sight.phase is Phase.WAITING]
        for root in set(throttles) - {sight.job.root for sight in sights}:
            del throttles[root]
        for sight in waiting:
            root, throttle = sight.job.root, sight.job.record.throttle
            if throttle or together[id(sight.job.record)] > 1:
                throttles[root] = throttle or 0
            elif root not in throttles:
                throttles[root] = self._slurm.throttle(root)

    def _per_job(self, node: Node) -> int:
        """How many of a node's processors a job of one processor takes."""
        return node.threads if self._is_by_cores else 1

    def _coordinator_now(self) -> Coordinator:
        """The coordinator, or a new one if there is none, or if it was told so many tasks that are over."""
        if self._coordinator is not None and len(self._memory.ended) > self._settings.tasks:
            self.close()
        if self._coordinator is None:
            self._memory.begin_anew()
            self._coordinator = self._begin()
        return self._coordinator

    # what the coordinator is told

    def _tell_nodes(self, teller: Teller, nodes: Sequence[Node], sights: Sequence[Sight]) -> None:
        there: dict[str, list[Sight]] = collections.defaultdict(list)
        promised: dict[str, list[int]] = collections.defaultdict(list)
        for sight in sights:
            winner = self._memory.winners.get(sight.task)
            if sight.phase is Phase.WAITING and winner is not None and winner.is_held:
                promised[self._memory.names.get(winner.spot.machine, "")].append(sight.request)
            elif sight.phase is not Phase.WAITING:
                there[sight.node].append(sight)
        self._rooms = {}
        for node in nodes:
            self._look_at_bandwidth(node)
            now = teller.moment.steady
            room = teller.tell_node(node, there[node.name], promised[node.name], self._meter.use(node.name, now),
                                    self._meter.began(node.name, now))
            if room is not None:
                self._rooms[node.name] = room
            self._say_node(node.name, "closed" if room is None or room.is_closed else "open")
        for name in sorted(set(self._memory.nodes) - {node.name for node in nodes}):
            teller.tell_gone(name)
            del self._memory.nodes[name]
            self._say_node(name, "gone")

    def _look_at_bandwidth(self, node: Node) -> None:
        about = f"the {self._settings.gres} of node {node.name}"
        if node.bandwidth is None:
            self._events.fault(about, f"node {node.name} has no Gres={self._settings.gres}:N that can be read: it gets no jobs")
        else:
            self._events.mend(about)

    def _say_node(self, name: str, state: str) -> None:
        if self._open.get(name) != state:
            self._open[name] = state
            self._events.say("node", f"node {name} is {state}", node=name, state=state)

    def _tell_placed(self, teller: Teller, sights: Sequence[Sight]) -> None:
        """Tells what has a place, and what is to have none."""
        for sight in sights:
            if is_held(sight):
                teller.tell_held(sight)
        for sight in sights:
            if sight.phase in WITHOUT_PLACE or (sight.phase is Phase.LEAVING and not is_held(sight)):
                teller.tell_waiting(sight, is_withheld=True)

    def _tell_ended(self, teller: Teller, sights: Sequence[Sight]) -> None:
        there = {sight.task for sight in sights}
        for task in [task for task in self._memory.known if task not in there]:
            teller.tell_end(task)

    def _tell_waiting(self, teller: Teller, sights: Sequence[Sight]) -> None:
        """Tells what waits, the dearest first. Each job that is new gets a round of its own: in one round all that are alike would go
        to the machine that is the cheapest before it."""
        rounds = self._settings.rounds
        waiting = [sight for sight in sights if sight.phase is Phase.WAITING]
        for sight in sorted(waiting, key=lambda it: (-teller.price_of_waiting(it), it.submitted, it.job.root, it.job.index or 0)):
            if teller.tell_waiting(sight, is_withheld=False) and rounds > 0:
                rounds -= 1
                self._round(teller, sights)

    def _round(self, teller: Teller, sights: Sequence[Sight]) -> bool:
        """Runs a round, and reports what it placed as use that is still to come. Whether it changed anything."""
        placed, preempted = teller.coordinator.round()
        for entry in preempted:
            self._memory.preempted[entry.task] = entry.attempt
            self._memory.saw(entry.task, entry.attempt + 1)
        if placed:
            requests = {sight.task: sight.request for sight in sights}
            for entry in placed:
                room = self._rooms.get(self._memory.names.get(entry.machine, ""))
                if room is not None:
                    room.promise(requests.get(entry.task, 0))
                    teller.report(room)
        return bool(placed or preempted)

    # what Slurm is told

    def _agree(self, teller: Teller, sights: Sequence[Sight]) -> None:
        """Has Slurm do what differs: first what makes room, then what takes it, the dearest first."""
        self._memory.winners = teller.coordinator.winners()
        for task, winner in self._memory.winners.items():
            if task in self._memory.known:
                self._memory.saw(task, winner.spot.attempt)
        agreement = Agreement(self._slurm, teller, self._memory, self._events, self._settings.run, self._settings.start_wait,
                              self._settings.avoid, self._rooms)
        waiting = {Phase.WAITING: 2, Phase.RUNNING: 0, Phase.PREEMPTED: 0}
        for sight in sorted(sights, key=lambda it: (waiting.get(it.phase, 1), -teller.price_of_waiting(it), it.submitted, it.job.root,
                                                    it.job.index or 0)):
            agreement.agree(sight)


def throttled(sights: Sequence[Sight], throttles: Mapping[int, int]) -> list[Sight]:
    """The jobs, with those elements of an array withheld that its throttle keeps back: those of the greatest indices."""
    taken: dict[int, int] = collections.Counter(
        sight.job.root for sight in sights if sight.phase in (Phase.STARTING, Phase.RUNNING, Phase.LEAVING, Phase.PREEMPTED))
    found = []
    for sight in sorted(sights, key=lambda it: (it.job.root, it.job.index or 0)):
        most = throttles.get(sight.job.root)
        if sight.phase is Phase.WAITING and most:
            taken[sight.job.root] += 1
            if taken[sight.job.root] > most:
                sight = dataclasses.replace(sight, phase=Phase.WITHHELD)
        found.append(sight)
    return found
