"""Rounds that a bridge runs by itself: the line that asks for one, when one is due, and what came of it.

They come in series. A series begins once something changed, and goes on at once as long as a round accepts something: a round with
`each` places a part of what waits, and a place that needs the slot of a preempted task comes in the round behind. So that no series is
without end, it has a limit; what it left is the change with which the next one begins."""
import dataclasses
import json
import time
from typing import Any

from bridging.follower import is_accepted
from bridging.settings import Settings
from bridging.telling import Counts, Telling

# a series has at most so many rounds
MOST_IN_SERIES = 16
NEVER = float("inf")


@dataclasses.dataclass(frozen=True)
class Outcome:
    """How many places and preempts a round accepted, and how many entries of its plan it refused."""

    places: int
    preempts: int
    refused: int

    @property
    def accepted(self) -> int:
        return self.places + self.preempts


def outcome_of(answer: bytes) -> Outcome:
    """What the answer to a round says: a line for each entry, which ends in admission's answer, and then `ok`."""
    entries = [line.split() for line in answer.splitlines()[:-1]]
    accepted = [words[0] for words in entries if words[-1] == b"accepted"]
    return Outcome(accepted.count(b"place"), accepted.count(b"preempt"), len(entries) - len(accepted))


def line_of(settings: Settings) -> bytes:
    """The line that asks for a round: of the coordinator's own tasks, if no writers are named."""
    part: dict[str, Any] = {"writers": settings.writers or [settings.number]}
    if settings.each is not None:
        part["each"] = settings.each
    return json.dumps({"at": settings.number, "round": part}, separators=(",", ":")).encode()


class Rounds:
    """When rounds run, if they are asked for at all. Nobody reads their answers, so what came of them is said and counted."""

    def __init__(self, settings: Settings, counts: Counts, telling: Telling) -> None:
        self._interval, self._counts, self._telling = settings.rounds, counts, telling
        self.line = line_of(settings)
        self._has_changed, self._in_series, self._next_at = False, 0, NEVER

    def begin(self, is_something_known: bool) -> None:
        """The bridge begins, with what a store and the states of others say. The first series waits like any other, so that what others
        send to one that comes back is known before."""
        self._has_changed = self._has_changed or is_something_known
        self._put_off()

    def _put_off(self) -> None:
        """The next series begins once so much time went by."""
        self._in_series, self._next_at = 0, time.monotonic() + (self._interval or 0)

    def note_change(self) -> None:
        """What is known may be something else since the last round."""
        self._has_changed = True

    def next_time(self) -> float:
        """When the next round is due, if nothing else changes."""
        return self._next_at if self._has_changed and self._interval is not None else NEVER

    def ran(self, answer: bytes) -> None:
        """A round ran, and was answered so. If it accepted something, that is a change, and the series goes on unless it is long enough. If
        not, or if it was refused, the next one waits for another change."""
        outcome = outcome_of(answer)
        self._has_changed = outcome.accepted > 0
        self._in_series += 1
        if not self._has_changed or self._in_series >= MOST_IN_SERIES:
            self._put_off()
        self._counts.rounds += 1
        self._counts.places += outcome.places
        self._counts.preempts += outcome.preempts
        if not is_accepted(answer):
            self._say_refusal(answer.decode().strip())
        elif outcome.accepted or outcome.refused:
            self._say(outcome)

    def _say(self, outcome: Outcome) -> None:
        text = (f"a round placed {outcome.places} tasks and preempted {outcome.preempts}; "
                f"{outcome.refused} other entries of its plan were refused")
        self._telling.say("round", text, accepted=outcome.accepted, refused=outcome.refused, places=outcome.places,
                          preempts=outcome.preempts)

    def _say_refusal(self, refusal: str) -> None:
        self._telling.say("round_refused", f"a round is answered by {refusal}, and tried again once something changes", answer=refusal)
