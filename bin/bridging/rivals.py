"""Whether tasks are placed by rounds of another coordinator too, beside those of all tasks that operators ask for here. Then both may start
the same task, until each has the other's packets.

Rounds of both are seen in the winners: they name the coordinator that placed each task. All winners are as much text as a state, so
they are looked at once in a while, and only behind a round that placed something and packets of others that said something."""
import json
import re
import time
from collections.abc import Sequence

from bridging.follower import is_accepted
from bridging.lines import SHORT
from bridging.settings import Settings
from bridging.telling import Telling

# the coordinator of a winner that holds its task
HOLDER = re.compile(rb"^\S+ \S+ ([0-9]+) \S+ \S+ held$", re.MULTILINE)


def is_of_all(line: bytes) -> bool:
    """Whether a line asks for a round of the tasks of all writers."""
    try:
        asked = json.loads(line)["round"] if len(line) <= SHORT else None
    except (ValueError, TypeError, KeyError, RecursionError):
        return False
    return asked is True or (isinstance(asked, dict) and "writers" not in asked)


def has_placed(answer: bytes) -> bool:
    """Whether an answer to a round says that it placed something."""
    return is_accepted(answer) and any(line.endswith(b" accepted") for line in answer.splitlines() if line.startswith(b"place "))


def others_in(winners: bytes, number: int) -> list[int]:
    """The other coordinators whose places hold tasks, by the answer to the question for the winners."""
    return sorted(set(map(int, HOLDER.findall(winners))) - {number})


class Rivals:
    """Says once that others place tasks too. A bridge with rounds of its own says nothing: there operators are to ask for none."""

    def __init__(self, settings: Settings, telling: Telling) -> None:
        self._number, self._pause, self._telling = settings.number, settings.refresh, telling
        self._is_told, self._has_placed, self._has_heard = settings.rounds is not None, False, True
        self._look_at = 0.0

    def answered(self, lines: Sequence[bytes], answers: Sequence[bytes]) -> None:
        """Lines of operators were answered."""
        if not (self._is_told or self._has_placed):
            self._has_placed = any(answer.startswith(b"place ") and has_placed(answer) and is_of_all(line)
                                   for line, answer in zip(lines, answers))

    def note_change(self) -> None:
        """What others sent said something."""
        self._has_heard = True

    def is_due(self) -> bool:
        """Whether the winners are to be looked at."""
        return self._has_placed and self._has_heard and not self._is_told and time.monotonic() >= self._look_at

    def look(self, winners: bytes) -> None:
        self._has_heard, self._look_at = False, time.monotonic() + self._pause
        others = others_in(winners, self._number)
        if others:
            self._is_told = True
            named = f"coordinator{'s' if others[1:] else ''} {', '.join(map(str, others))}"
            said = f"rounds of all tasks were asked for here, and tasks run that {named} placed: both may start the same task"
            self._telling.say("rivals", f"{said}. Ask for rounds at one bridge, or give each bridge --rounds", coordinators=others)
