"""One coordinator behind a follower: which of its deltas are its own, and the packets that are cut of them.

What is taken in from others becomes a delta too, and `news` would send it out again, from each coordinator to each for
ever. So the deltas that came from others are kept apart: they are taken in only right after the coordinator's own were
cut, and the next cut begins behind them (Enes and others, Efficient Synchronization of State-Based CRDTs, 2019: no
back-propagation of delta groups).

Packets of news have odd numbers, and those of all that is known even ones: each cut takes two numbers, one of them for
nothing if need be. So a bridge that gets only the news sees by its numbers whether some of it is missing.
"""
import json
from collections.abc import Sequence
from typing import Optional

from bridging.endings import FOLLOWER_ENDED, Failure
from bridging.follower import MOST_LINE, NO_LINE, Follower, Waits, is_accepted
from bridging.lines import Kind, kind_of
from bridging.packets import number_of
from bridging.stores import Store
from bridging.turns import Turn

# so many lines are told at once
AT_ONCE = 512
# so many bytes of answers are worked out at once
MOST_AT_ONCE = 1 << 22
# the follower renews itself when its history is full, which would change the numbers of deltas: so it is never let
# come there
FULL_HISTORY, MOST_ENTRIES = 1000000, 900000
CHECK_OF_NO_KIND = b'{"ask":"check","line":{}}'


def take_line(number: int, packet: bytes) -> bytes:
    return b'{"at":%d,"take":"%s"}' % (number, packet.hex().encode())


def most_packet(number: int) -> int:
    """How many bytes a packet may have, so that a line can hand it over."""
    return (MOST_LINE - len(take_line(number, b""))) // 2


class Coordinator:
    """Deltas are numbered as in a stream, and entries counted as there, so that it is renewed before its history is full. What
    it knows by its store is one delta, which is not news: a state has it."""

    def __init__(self, program: str, number: int, renew_after: int, waits: Waits, store: Optional[Store] = None) -> None:
        self.number, self._renew_after, self._renews_at = number, renew_after, renew_after
        self._follower = Follower(program, number, FULL_HISTORY, waits, store)
        self.deltas = self.own = self._entries = self._end()
        # a line that the bridge does not know was accepted, so what is known may be something else
        self.may_have_changed = False

    def own_news(self) -> int:
        """How many deltas of its own were not cut yet: all from `own` on."""
        return self.deltas - self.own

    def tell(self, lines: Sequence[bytes], most: int = MOST_AT_ONCE, turn: Optional[Turn] = None) -> tuple[list[bytes], bool]:
        """The answers to an operator's lines, in order, and whether the accepted ones added something. Once the answers have
        `most` bytes, or the turn is over, or before a round, which may take long, no more lines are told, and there are fewer answers than
        lines."""
        answers: list[bytes] = []
        has_added = False
        kinds, size = [kind_of(line) for line in lines], 0
        for first, end in parts(kinds):
            if size >= most or (answers and (kinds[first] is Kind.ROUND or (turn is not None and turn.is_over()))):
                break
            some, is_more = self._tell(lines[first:end], kinds[first:end])
            answers += some
            has_added = has_added or is_more
            size += sum(map(len, some))
        return answers, has_added

    def run_round(self, line: bytes) -> tuple[bytes, bool]:
        """The answer to a line that asks for a round, and whether it accepted something. If not, the delta that it adds says
        nothing, and is no news: others would answer it by a round, and this one theirs, without end."""
        has_news = self.own_news() > 0
        (answer,), has_added = self.tell([line])
        if not (has_added or has_news):
            self.own = self.deltas
        return answer, has_added

    def _tell(self, lines: Sequence[bytes], kinds: Sequence[Kind]) -> tuple[list[bytes], bool]:
        """The answers to lines of which only the last may be other than what is told, and whether they added something. A line
        that asks for what the bridge does itself is refused here, as one of no kind, and a check of it is answered as one of
        a line of no kind, unless the follower refuses the check, since it is no JSON."""
        asked = [line for line, kind in zip(lines, kinds) if kind is not Kind.OURS]
        is_check = kinds[-1] is Kind.CHECK_OF_OURS
        heard = iter(self._follower.ask([*asked, CHECK_OF_NO_KIND] if is_check else asked))
        answers = [NO_LINE if kind is Kind.OURS else next(heard) for kind in kinds]
        if is_check and is_accepted(answers[-1]):
            answers[-1] = next(heard)
        # questions add no entry, but it does no harm to count them
        self._entries += sum(map(is_accepted, answers))
        told = sum(kind is Kind.TELL and is_accepted(answer) for kind, answer in zip(kinds, answers))
        last, has_more = kinds[-1] if is_accepted(answers[-1]) else Kind.QUESTION, False
        if told or last in (Kind.ROUND, Kind.STRANGE):
            has_more = self._count(self.deltas + told, last, answers[-1])
        if last is Kind.CUT:
            self._skip()
        elif last is Kind.STRANGE:
            self._make_even()
        return answers, told > 0 or has_more

    def _count(self, told: int, last: Kind, answer: bytes) -> bool:
        """Counts deltas, as the follower says, after accepted lines, with which the lines that were told would come to so many. Answers
        whether something else was added. If there are fewer the coordinator is renewed."""
        self.deltas = self._end()
        if last is Kind.STRANGE:
            self.may_have_changed = True
        if self.deltas < told:
            self._renew_now()
            return True
        is_empty = last is Kind.ROUND and b" accepted\n" not in answer
        return self.deltas > told and not is_empty

    def _make_even(self) -> None:
        """Has the next packet of news get an odd number again, after a line that may have cut some."""
        number = number_of(self._skip())
        if number is not None and number % 2:
            self._skip()

    def _end(self) -> int:
        """How many deltas there are."""
        answer, = self._follower.ask([b'{"at":%d,"ask":"end"}' % self.number])
        words = answer.split()
        if not is_accepted(answer) or len(words) != 4:
            raise Failure(FOLLOWER_ENDED, f"the follower does not say how many deltas it has: {answer.decode().strip()}")
        return int(words[2])

    def winners(self) -> bytes:
        """Which coordinator placed each task, and where."""
        answer, = self._follower.ask([b'{"at":%d,"ask":"winners"}' % self.number])
        return answer

    def _renew_now(self) -> None:
        answer, = self._follower.ask([b'{"renew":true}'])
        if not is_accepted(answer):
            raise Failure(FOLLOWER_ENDED, "the follower accepted a line that the bridge cannot read, and cannot be renewed")
        self.deltas = self.own = self._entries = 1

    # packets

    def _cut(self, interval: dict[str, int]) -> bytes:
        """A packet of the interval, or of all that is known if there is none."""
        answer, = self._follower.ask([json.dumps({"at": self.number, "cut": interval}).encode()])
        if not is_accepted(answer):
            raise Failure(FOLLOWER_ENDED, f"the follower refused a cut: {answer.decode().strip()}")
        self._entries += 1
        return bytes.fromhex(answer.partition(b"\n")[0].decode())

    def _skip(self) -> bytes:
        """Takes a number for a packet that is not sent, which is answered."""
        return self._cut({"from": self.deltas, "to": self.deltas})

    def cut_news(self, with_state: bool) -> tuple[bytes, Optional[bytes]]:
        """A packet of its own deltas since the last such cut, and behind it one of all that it knows if that is
        asked for."""
        packet = self._cut({"from": self.own, "to": self.deltas})
        self.own = self.deltas
        if with_state:
            return packet, self._cut({})
        self._skip()
        return packet, None

    def cut_state(self) -> bytes:
        """A packet of all that it knows."""
        self._skip()
        return self._cut({})

    def take(self, packets: Sequence[bytes]) -> list[bytes]:
        """Takes packets in from others. Answers how the follower did. All its own deltas were cut before."""
        assert self.own == self.deltas
        answers = self._follower.ask([take_line(self.number, packet) for packet in packets])
        taken = sum(map(is_accepted, answers))
        self._entries += taken
        self.deltas += taken
        self.own = self.deltas
        return answers

    def is_to_renew(self) -> bool:
        return self._entries >= self._renews_at

    def renew(self) -> None:
        """Renews the coordinator from what it knows, which drops its history. All its own deltas were cut
        before. If there is no memory for it, it is tried again later, and once the history is nearly full the bridge
        ends."""
        assert self.own == self.deltas
        answer, = self._follower.ask([b'{"renew":true}'])
        if is_accepted(answer):
            self.deltas = self.own = self._entries = 1
            self._renews_at = self._renew_after
        elif self._entries >= MOST_ENTRIES:
            raise Failure(FOLLOWER_ENDED, "the history is full, and the follower had no memory to renew it")
        else:
            self._renews_at = min(MOST_ENTRIES, self._entries + self._renew_after // 10)

    def close(self) -> None:
        self._follower.close()


def parts(kinds: Sequence[Kind]) -> list[tuple[int, int]]:
    """Where the parts of lines begin and end that are told together: in each only the last one's answer may be long, or
    needs more than to be counted, and a round is a part alone."""
    found, begin = [], 0
    for place, kind in enumerate(kinds):
        if kind is Kind.ROUND and place > begin:
            found.append((begin, place))
            begin = place
        if kind not in (Kind.TELL, Kind.OURS) or place == len(kinds) - 1:
            found.append((begin, place + 1))
            begin = place + 1
    return found
