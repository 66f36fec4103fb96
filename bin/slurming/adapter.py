"""An adapter from its beginning to its end: the lock, the passes, and what ends them."""
import argparse
import collections
import signal
import threading
import time
from collections.abc import Sequence

from bridging.follower import usual_program
from bridging.package import with_paho
from slurming.endings import FOLLOWER_ENDED, LOCKED, NO_SLURM, NOT_READY, WELL, Failure
from slurming.events import Events
from slurming.follower import Coordinator
from slurming.locks import AnyLock, Lock, Lost
from slurming.passes import Passes
from slurming.settings import Settings, read_configuration, read_words
from slurming.slurm import Commands, NoAnswer, Slurm
from slurming.telling import Moment
from slurming.usage import Devices, Exporters, Source, Unmeasured

STANDBY = 0.5
# slurmctld is asked again about what rarely changes after so many seconds
ASKED_AGAIN = 60.0
# an adapter ends if so many followers ended within so many seconds
MOST_ENDS, ENDS_WITHIN = 3, 60.0


class Adapter:
    """Makes a pass after the other, as long as it has the lock."""

    def __init__(self, settings: Settings, asked: argparse.Namespace, events: Events) -> None:
        self._settings, self._asked, self._events = settings, asked, events
        self._stopping = threading.Event()
        self._lock = lock_of(settings)
        self._slurm = Slurm(Commands(settings.commands, settings.command_wait), settings.gres, self._lock.check)
        self._asked_at, self._made = float("-inf"), 0
        self._ends: collections.deque[float] = collections.deque(maxlen=MOST_ENDS)

    def stop(self, *_signal: object) -> None:
        """Ends the adapter behind the pass that it makes: in a handler of signals."""
        self._stopping.set()

    def check(self) -> int:
        """Says what is wrong with Slurm's configuration, and with the broker of the lock if it has one."""
        self._check_release()
        try:
            faults = self._faults()
            nodes = [node for node in self._slurm.nodes() if self._settings.run in node.partitions]
        except NoAnswer as why:
            raise Failure(NOT_READY, str(why)) from None
        faults += [f"partition {self._settings.run} has no nodes"] if not nodes else []
        faults += [f"node {node.name} has no Gres={self._settings.gres}:N that can be read" for node in nodes if node.bandwidth is None]
        wrong = [("the configuration of Slurm", fault) for fault in faults] + [("the lock", fault) for fault in self._lock.faults()]
        for about, fault in wrong:
            self._events.say("fault", fault, about=about)
        if not wrong:
            self._events.say("fine", f"{len(nodes)} nodes in {self._settings.run}; nothing is wrong")
        return NOT_READY if wrong else WELL

    def run(self) -> int:
        """Makes passes until a signal, or as many as are asked for, while it has the lock."""
        self._check_release()
        program = self._asked.program or usual_program()
        source = source_of(self._settings)
        begin = lambda: Coordinator(program, self._settings.coordinator, self._settings.follower_wait)
        try:
            has_lock = self._take_lock()
            while has_lock and not self._act(Passes(self._settings, self._slurm, source, self._events, begin)):
                has_lock = self._take_lock()
        finally:
            self._lock.release()
        if has_lock:
            self._events.say("stopped", f"stopped after {self._made} passes")
        return WELL

    def _take_lock(self) -> bool:
        """Waits for the lock. Whether this adapter has it, and was not stopped before."""
        said = ""
        while not self._lock.take():
            why = self._lock.why
            if self._asked.is_impatient and self._lock.is_settled:
                raise Failure(LOCKED, why)
            if said != why:
                said = why
                self._events.say("standby", f"stands by: {why}", lock=self._lock.name)
            if self._stopping.wait(STANDBY):
                return False
        self._events.say("acting", f"acts: it has the lock {self._lock.name}", lock=self._lock.name)
        return True

    def _act(self, passes: Passes) -> bool:
        """Makes passes that know nothing of what was before them, since others may have acted. Whether that is all; else the lock is lost."""
        self._asked_at = float("-inf")
        try:
            while not self._stopping.is_set():
                began = time.monotonic()
                self._lock.check()
                self._pass(passes)
                self._made += 1
                if self._made == self._asked.passes:
                    break
                self._stopping.wait(max(0.0, began + self._settings.interval - time.monotonic()))
        except Lost as why:
            self._events.say("standby", f"stands by: {why}", lock=self._lock.name)
            return False
        finally:
            passes.close()
        return True

    def _pass(self, passes: Passes) -> None:
        """A pass, or a line about why there is none."""
        began = time.monotonic()
        try:
            if began - self._asked_at > ASKED_AGAIN:
                self._inquire(passes)
                self._asked_at = began
            passes.run(Moment(time.time(), began))
        except NoAnswer as why:
            self._events.fault("Slurm", str(why))
            return
        except Failure as why:
            if why.status != FOLLOWER_ENDED:
                raise
            self._replace_follower(passes, why)
            return
        self._events.mend("Slurm")
        self._events.detail("pass", f"{passes.jobs} jobs, {passes.nodes} nodes", seconds=round(time.monotonic() - began, 4),
                            jobs=passes.jobs, nodes=passes.nodes)

    def _replace_follower(self, passes: Passes, why: Failure) -> None:
        """Has the next pass begin with a new follower, unless too many ended."""
        passes.close()
        self._ends.append(time.monotonic())
        if len(self._ends) == MOST_ENDS and self._ends[-1] - self._ends[0] < ENDS_WITHIN:
            raise why
        self._events.say("follower", f"a new follower is begun: {why}")

    def _check_release(self) -> None:
        release = self._slurm.release()
        if ".".join(release.split(".")[:2]) not in self._settings.releases:
            raise Failure(NO_SLURM, f"Slurm {release} is none of the releases that [slurm] releases names ({', '.join(self._settings.releases)})")

    def _inquire(self, passes: Passes) -> None:
        """Asks Slurm what rarely changes, and says what is wrong with it."""
        found = self._slurm.configuration()
        passes.know(found.get("ClusterName", ""), "CORE" in found.get("SelectTypeParameters", ""))
        faults = self._faults()
        if faults:
            self._events.fault("the partitions", "; ".join(faults))
        else:
            self._events.mend("the partitions")

    def _faults(self) -> list[str]:
        """What is wrong with the partitions."""
        faults = []
        for name, wanted in [(self._settings.run, "UP"), *((queue, "DOWN") for queue in self._settings.queues)]:
            try:
                state = self._slurm.partition_state(name)
            except NoAnswer as why:
                if "not found" not in str(why):
                    raise
                faults.append(f"there is no partition {name}")
                continue
            if state != wanted:
                faults.append(f"partition {name} has State={state}, and must have State={wanted}")
        return faults


def lock_of(settings: Settings) -> AnyLock:
    """The lock that the configuration names."""
    if settings.access is None or isinstance(settings.lock, str):
        return Lock(str(settings.lock))
    from slurming.broker_locks import BrokerLock  # it alone needs paho-mqtt
    return BrokerLock(settings.access, settings.lock.cluster, settings.coordinator)


def source_of(settings: Settings) -> Source:
    """What reads how busy links are."""
    if settings.source == "exporter":
        return Exporters(settings.exporter_of, settings.device_of, settings.wait)
    return Devices(settings.device_of) if settings.source == "sys" else Unmeasured()


def look_for_paho() -> None:
    try:
        with_paho()
    except Failure as why:
        raise Failure(why.status, f"the lock is over a broker, and {why}") from None


def main(given: Sequence[str]) -> int:
    asked = read_words(given)
    events = Events(asked.is_json)
    try:
        settings = read_configuration(asked.configuration)
        if settings.access is not None:
            look_for_paho()
            for text in settings.access.warnings:
                events.say("exposed", text)
        adapter = Adapter(settings, asked, events)
        if asked.is_check:
            return adapter.check()
        for number in signal.SIGTERM, signal.SIGINT, signal.SIGHUP:
            signal.signal(number, adapter.stop)
        return adapter.run()
    except Failure as why:
        events.say("failed", str(why), status=why.status)
        return why.status
