"""Whose a coordinator's number is, told by messages on the number's own topic. An adapter of bin/slurm has its lock in the same way, for
as long as its claims come back (slurming/leases.py).

A bridge claims its number each time that it connects. One that has the number already answers that it is taken. Of two
that ask at the same time, or that both have the number since neither could hear the other, the lesser rank keeps it. A
claim comes back to its sender too, behind all states that the broker kept: so its return says that these are here.

Ranks compare ages, in seconds of each machine's own monotonic clock: clocks that show the time may be hours apart. An age is
compared when a claim is heard, so it is off by what the way took, and of two bridges of nearly one age each may deny the
number to the other. Then the lesser token keeps it. A bridge that says no age is compared by the time since when it has the
number, as it does itself.
"""
import collections
import dataclasses
import json
import secrets
import threading
import time
from typing import Optional

MOST_CLAIM, MOST_NEWCOMERS = 1000, 64
# the numbers of claims that a bridge made
MOST_TURN = 1 << 63
# no age, and no time since 1970, has so many seconds
MOST_SECONDS = 1e11
Rank = tuple[bool, float, str]


@dataclasses.dataclass(frozen=True)
class Said:
    """A claim, or the answer to one: whose it is, for how long and since when its sender has the number, the how manieth
    of its sender, and to whom it answers that the number is taken."""

    token: str
    is_running: bool
    since: float
    age: Optional[float]
    turn: int
    is_new: bool
    taken: Optional[str]


def said_in(text: bytes) -> Said:
    """What a message says. A ValueError says that it is no claim."""
    try:
        value = json.loads(text) if len(text) <= MOST_CLAIM else None
        age, taken, turn = value.get("age"), value.get("taken"), int(value["turn"])
        if not 0 <= turn < MOST_TURN:
            raise ValueError("no turn")
        return Said(str(value["token"]), bool(value["running"]), seconds_in(value["since"]), None if age is None else seconds_in(age), turn,
                    value["new"] is True, None if taken is None else str(taken))
    except (AttributeError, TypeError, KeyError, RecursionError, OverflowError) as why:
        raise ValueError("no claim") from why


def seconds_in(value: object) -> float:
    """The number that a claim names, which can be compared with each other. A ValueError says that it is none."""
    if isinstance(value, bool) or not isinstance(value, (int, float)) or not 0 <= value <= MOST_SECONDS:
        raise ValueError("no number of seconds")
    return float(value)


class Claim:
    """The claim of one bridge. Messages are heard in the thread of the connection, so that it answers also while a
    round takes long."""

    def __init__(self, number: int) -> None:
        self._number, self._token, self._turn = number, secrets.token_hex(8), 0
        self._since, self._began = time.time(), time.monotonic()
        self._turning = threading.Lock()
        # to whom the number was denied
        self._denied: collections.OrderedDict[str, None] = collections.OrderedDict()
        self.is_running = self.is_lost = False
        self.came_back = 0
        # the numbers of others that connected, which the thread of the bridge takes out
        self.newcomers: collections.deque[int] = collections.deque(maxlen=MOST_NEWCOMERS)

    @property
    def token(self) -> str:
        return self._token

    @property
    def turn(self) -> int:
        """The how manieth claim was asked for last."""
        return self._turn

    def run(self) -> None:
        """The number is ours: no other bridge that has it answered in time."""
        self.is_running, self._since, self._began = True, time.time(), time.monotonic()

    def end(self) -> None:
        """The number is given up, as the next claim that is asked for says."""
        self.is_running = False

    def ask(self, is_new: bool) -> bytes:
        """A claim to be sent; `is_new` asks others to make their states current."""
        with self._turning:
            self._turn += 1
            return self._text(is_new, None)

    def is_back(self) -> bool:
        """Whether the last claim that was asked for came back."""
        return self.came_back == self._turn

    def _age(self) -> float:
        return time.monotonic() - self._began

    def _text(self, is_new: bool, taken: Optional[str]) -> bytes:
        value = {"token": self._token, "turn": self._turn, "running": self.is_running, "since": self._since,
                 "age": round(self._age(), 6), "new": is_new}
        return json.dumps(value if taken is None else {**value, "taken": taken}).encode()

    def hear(self, number: int, text: bytes) -> Optional[bytes]:
        """What to answer to a message about a number, or None. A ValueError says that it is no claim."""
        said = said_in(text)
        if said.token == self._token:
            # only a claim that was made counts as come back, whoever sent it
            if number == self._number and said.taken is None and said.turn <= self._turn:
                self.came_back = max(self.came_back, said.turn)
        elif number != self._number:
            if said.is_new:
                self.newcomers.append(number)
        elif self.is_lost:
            pass
        elif said.taken == self._token:
            # if each denied it to the other, both go by what both know
            self.is_lost = said.token not in self._denied or said.token < self._token
        elif said.taken is None and (said.token in self._denied or self._is_before(said)):
            self._deny(said.token)
            return self._text(False, said.token)
        elif said.taken is None:
            self.is_lost = True
        return None

    def _is_before(self, said: Said) -> bool:
        """Whether this bridge keeps the number rather than the sender of the claim."""
        mine: Rank = not self.is_running, self._since if said.age is None else -self._age(), self._token
        other: Rank = not said.is_running, said.since if said.age is None else -said.age, said.token
        return mine < other

    def _deny(self, token: str) -> None:
        self._denied[token] = None
        if len(self._denied) > MOST_NEWCOMERS:
            self._denied.popitem(last=False)
