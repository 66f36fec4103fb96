"""The coordinator behind a follower: what it is told, and what it answers."""
import json
from typing import NamedTuple

from bridging.follower import OK, Follower, Waits, is_accepted
from slurming.endings import FOLLOWER_ENDED, Failure

# so many lines are told at once
AT_ONCE = 500
RENEW_AFTER = 100000
BEGINNING = 30.0
VERSIONED = ("job", "spec", "machine")


class Spot(NamedTuple):
    """Where a coordinator would run an attempt of a task: on a machine, at an incarnation."""

    attempt: int
    coordinator: int
    machine: str
    incarnation: int


class Winner(NamedTuple):
    """The proposal that counts for a task's present attempt, and whether the machine holds the task by it."""

    spot: Spot
    is_held: bool


class Placement(NamedTuple):
    """An entry of a round's plan that was carried out; a preemption has no machine."""

    task: str
    machine: str
    attempt: int


class Coordinator:
    """A stream with one coordinator, which knows nothing at the beginning. Facts are told if they say something new."""

    def __init__(self, program: str, number: int, patience: float) -> None:
        self.number = number
        self._follower = Follower(program, number, RENEW_AFTER, Waits(BEGINNING, patience, lambda: float("inf")))
        self._told: dict[tuple[str, str], dict[str, object]] = {}
        self._lines: list[bytes] = []
        self._version = 0
        # nothing was told since a round that changed nothing, so that a further one would change nothing
        self._is_settled = False

    def tell(self, kind: str, identity: str, **fields: object) -> None:
        """Tells a fact, with the next version of its register if it has versions, when something is asked or the lines are many."""
        if self._told.get((kind, identity)) == fields:
            return
        self._told[kind, identity] = fields
        self._is_settled = False
        self._version += 1
        more = {"version": self._version, "writer": self.number} if kind in VERSIONED else {}
        more = {"number": self._version} if kind == "report" else more
        self._put({"tell": {kind: {"id": identity, **more, **fields}}})

    def forget(self, task: str) -> None:
        """Nothing more is told of a task, until it comes anew."""
        for kind in "job", "spec", "progress", "propose":
            self._told.pop((kind, task), None)

    def round(self) -> tuple[list[Placement], list[Placement]]:
        """Runs a round, unless it would change nothing. Answers what it placed, and what it preempted."""
        placed: list[Placement] = []
        preempted: list[Placement] = []
        if self._is_settled:
            return placed, preempted
        for line in self._ask({"round": True}):
            words = line.split()
            if words[-1] != "accepted":
                continue
            if words[0] == "place":
                placed.append(Placement(words[1], words[2], 0))
            else:
                preempted.append(Placement(words[1], "", int(words[2])))
        self._is_settled = not (placed or preempted)
        return placed, preempted

    def winners(self) -> dict[str, Winner]:
        found = {}
        for line in self._ask({"ask": "winners"}):
            task, attempt, coordinator, machine, incarnation, state = line.split()
            found[task] = Winner(Spot(int(attempt), int(coordinator), machine, int(incarnation)), state == "held")
        return found

    def stops(self) -> set[tuple[str, int]]:
        """The attempts of tasks by this coordinator's proposals that must be stopped."""
        return {(words[1], int(words[2])) for words in map(str.split, self._ask({"ask": "stops"}))}

    def why(self, task: str) -> str:
        """Why a task waits or runs, in a line."""
        lines = self._ask({"ask": "why", "task": task})
        return lines[0].removeprefix(f"task {task} ") if lines else ""

    def close(self) -> None:
        self._follower.close()

    def _put(self, what: dict[str, object]) -> None:
        self._lines.append(json.dumps({"at": self.number, **what}, separators=(",", ":")).encode())
        if len(self._lines) >= AT_ONCE:
            self._flush()

    def _flush(self) -> None:
        lines, self._lines = self._lines, []
        for line, answer in zip(lines, self._follower.ask(lines)):
            if answer != OK:
                raise Failure(FOLLOWER_ENDED, f"the follower answers {answer.decode().strip()} to {line.decode()}")

    def _ask(self, what: dict[str, object]) -> list[str]:
        self._flush()
        line = json.dumps({"at": self.number, **what}, separators=(",", ":")).encode()
        answer = self._follower.ask([line])[0]
        if not is_accepted(answer):
            raise Failure(FOLLOWER_ENDED, f"the follower answers {answer.decode().strip()} to {line.decode()}")
        return answer[:-len(OK)].decode().splitlines()
