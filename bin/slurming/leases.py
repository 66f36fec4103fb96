"""Which of several adapters has a lock over a broker, and until when it may act.

They claim the lock by messages on one topic (bridging/claims.py), which come back to who sent them too. Who has the lock claims it again each
second, and may act until `holds` seconds after it sent the last claim that came back. Another one claims the lock once it has listened for
`silence` seconds and heard no claim. It has the lock if its claim comes back within `answers` seconds, and no other came before it.

So no two have it at the same time, if the broker hands out the messages of the topic to all in one order and drops none, and if clocks go
equally fast. Say that B's claim comes back at U, and that A could act at U, since its last claim that came back was sent after U - `holds`.
B listened by then. If the broker had A's claim before B's, B heard it, and did not take the lock. If it had it after B's, A did not take the
lock by that claim, since it listened for long before it, and heard B's. So it had it already, by another claim that was before B's and was sent
less than `holds` before B's was: after U - `answers` - `holds`. B listened by then too, since that is after U - `silence`, and heard it.

Nothing here waits or sends: messages and times are handed over.
"""
import collections
import dataclasses
from typing import Optional

from bridging.claims import Claim, said_in

# so many tokens are known at most, of others and of one's own
MOST_TOKENS = 64
NEVER = float("-inf")


@dataclasses.dataclass(frozen=True)
class Times:
    """In seconds. No configuration changes them, since adapters with different ones could act at the same time."""

    beat: float = 1.0
    holds: float = 6.0
    answers: float = 3.0
    silence: float = 10.0


class Lease:
    """The lock, as one adapter knows of it. Times are by a steady clock of its own."""

    def __init__(self, number: int, times: Times = Times()) -> None:
        assert times.holds + times.answers < times.silence
        self._number, self._times = number, times
        # the claim that is made, if one is; when those were sent that did not come back, by their turns; and until when it holds the lock
        self._claim: Optional[Claim] = None
        self._sent: dict[int, float] = {}
        self._last_sent = self._until = NEVER
        self._is_held = False
        # since when all that comes is heard, if it is; when each other adapter was heard last, and whether it had the lock then
        self._since: Optional[float] = None
        self._others: collections.OrderedDict[str, tuple[float, bool]] = collections.OrderedDict()
        self._own: collections.deque[str] = collections.deque(maxlen=MOST_TOKENS)

    # the connection

    def listen(self, now: float) -> None:
        """From now on all that comes on the topic is heard."""
        self._since, self._last_sent = now, NEVER

    def cut(self) -> None:
        """Nothing is heard any more. Who has the lock has it until its time is over."""
        self._since, self._sent = None, {}
        if not self._is_held:
            self._claim = None

    def hear(self, text: bytes, now: float) -> Optional[bytes]:
        """Takes a message in, in the order of the broker. Answers what is to be sent in return, if anything is. A ValueError says that it is
        no claim."""
        said, claim = said_in(text), self._claim
        if said.token in self._own:
            if claim is not None and said.token == claim.token:
                claim.hear(self._number, text)
                self._look_at_return(claim, now)
            return None
        _, had_lock = self._others.pop(said.token, (NEVER, False))
        if had_lock and not said.is_running and said.taken is None:
            return None  # it gave the lock up, and acts no more
        self._others[said.token] = now, said.is_running
        if len(self._others) > MOST_TOKENS:
            self._others.popitem(last=False)
        if claim is not None and self._is_held:
            return claim.hear(self._number, text)
        self._claim = None  # the other one's claim came first
        return None

    def _look_at_return(self, claim: Claim, now: float) -> None:
        """A claim may have come back. Then the lock is held for longer, or from now on."""
        sent = self._sent.get(claim.came_back)
        if sent is None:
            return
        self._sent = {turn: at for turn, at in self._sent.items() if turn > claim.came_back}
        if self._is_held:
            self._until = max(self._until, sent + self._times.holds) if now < self._until else self._until
        elif now - sent <= self._times.answers:
            claim.run()
            self._is_held, self._until = True, sent + self._times.holds
        else:
            self._claim, self._since = None, now

    # the adapter

    def claim(self, now: float) -> Optional[bytes]:
        """A claim to be sent, if the lock is free as far as is known, and this adapter neither has nor claims it."""
        if self._is_held and not self.holds(now):
            self.release()  # its time was over before anybody looked
        if self._claim is not None or self._since is None:
            return None
        if now - max(self._since, self._heard_at()) < self._times.silence:
            return None
        self._claim, self._sent = Claim(self._number), {}
        self._own.append(self._claim.token)
        return self._ask(self._claim, now)

    def beat(self, now: float) -> Optional[bytes]:
        """A claim to be sent by who has the lock, if it is time for one."""
        claim = self._claim
        if claim is None or not self.holds(now) or self._since is None or now - self._last_sent < self._times.beat:
            return None
        return self._ask(claim, now)

    def _ask(self, claim: Claim, now: float) -> bytes:
        text = claim.ask(is_new=False)
        self._sent[claim.turn] = self._last_sent = now
        return text

    def holds(self, now: float) -> bool:
        """Whether this adapter has the lock, and may act now."""
        return self._is_held and now < self._until and not self.is_denied()

    def release(self) -> Optional[bytes]:
        """Ends the claim. Answers what is to be sent, if the lock was held: then others need not wait."""
        claim, was_held = self._claim, self._is_held
        self._claim, self._sent, self._is_held, self._until = None, {}, False, NEVER
        if claim is None or not was_held:
            return None
        claim.end()
        return claim.ask(is_new=False)

    # what is seen of it

    def is_listening(self) -> bool:
        return self._since is not None

    def is_failing(self, now: float) -> bool:
        """Whether a claim did not come back in time, so that another connection is to be made."""
        return self._since is not None and now - min(self._sent.values(), default=now) > self._times.answers

    def is_denied(self) -> bool:
        """Whether another one that has the lock, too, has had it for longer."""
        return self._claim is not None and self._claim.is_lost

    def is_taken(self, now: float) -> bool:
        """Whether another adapter was heard so shortly ago that it may have the lock."""
        return now - self._heard_at() < self._times.silence

    def _heard_at(self) -> float:
        return max((at for at, _ in self._others.values()), default=NEVER)
