"""Tests of which adapter of bin/slurm has a lock over a broker, and until when: drawn lives of several on a model of a broker, for
tests/slurm_parts.py.

Time is a number, and clocks go a little faster or slower than it. Messages take their time on the way to the broker and from it, and sometimes
seconds; the broker hands them out to all in one order. Connections are lost and made again, the broker goes away, adapters are killed, or stopped
and go on later. At no moment may two have the lock. Once nothing fails any more, one has it, and keeps it.
"""
import collections
import heapq
import itertools
import pathlib
import random
import sys

ROOT = pathlib.Path(__file__).resolve().parent.parent
sys.dont_write_bytecode = True
sys.path[:0] = [str(ROOT / "tests"), str(ROOT / "bin")]
from slurming.leases import Lease, Times

TIMES = Times()
LIVES = 60
# seconds in which things fail, and in which nothing does
FAILING, CALM = 240.0, 90.0
POLL, TICK = 0.5, 0.25


class Member:
    """An adapter: its lease, clock and connection. What comes while it is stopped waits."""

    def __init__(self, world, number):
        self.world, self.number, self.rate, self.offset = world, number, world.chance.uniform(0.97, 1.03), world.chance.uniform(0, 1e6)
        self.connection, self.is_heard, self.way_up, self.way_down = 0, False, 0.0, 0.0
        self.stopped_until, self.slow, self.closed = 0.0, {"up": (0.0, 0.0), "down": (0.0, 0.0)}, {"up": 0.0, "down": 0.0}
        self.waiting, self.is_acting, self.is_dropping = [], False, False
        self.lease = Lease(1)

    def clock(self):
        return self.offset + self.rate * self.world.now

    def is_stopped(self):
        return self.world.now < self.stopped_until

    def holds(self):
        return self.lease.holds(self.clock())

    def arrival(self, way, before):
        """When a message arrives that goes this way now, behind the one before it. A way may be slow, or closed for some seconds."""
        until, slowness = self.slow[way]
        return max(before, self.world.now + self.world.chance.uniform(0.001, 0.05) + (slowness if self.world.now < until else 0.0), self.closed[way])

    # what it does

    def poll(self):
        """What an adapter does again and again: it looks whether it still has the lock, or asks for it."""
        if self.is_stopped():
            return
        if not self.is_acting:
            self.send(self.lease.claim(self.clock()))
        elif not self.holds():
            self.lease.release()
        self.is_acting = self.holds()

    def tick(self):
        if self.is_stopped():
            return
        self.send(self.lease.beat(self.clock()))
        if self.lease.is_failing(self.clock()) and not self.is_dropping:
            # to end a connection may take time
            self.is_dropping = True
            self.world.at(self.world.now + self.world.chance.choice((0.0, 3.0, 30.0)), self.drop, self.connection)

    def send(self, text):
        if text is not None:
            self.way_up = self.arrival("up", self.way_up)
            self.world.at(self.way_up, self.world.relay, text, self, self.connection)

    def come(self, text, connection):
        """A message comes; behind a stop all that waits does, in order."""
        if connection != self.connection:
            return
        self.waiting.append(text)
        if not self.is_stopped():
            self.hear()

    def hear(self):
        """Takes in what came, in order."""
        waiting, self.waiting = self.waiting, []
        for text in waiting:
            self.send(self.lease.hear(text, self.clock()))
            self.world.look()

    def resume(self):
        """It goes on behind a stop. Its own threads may have done so before what waits is taken in."""
        if not self.is_stopped():
            self.hear()

    # what happens to it

    def drop(self, connection):
        if connection == self.connection:
            self.lose()

    def lose(self):
        """The connection is lost, which it sees once it is not stopped, behind what came before."""
        self.connection, self.is_heard, self.is_dropping = self.connection + 1, False, False
        self.world.at(max(self.world.now, self.stopped_until), self.see_loss, self.connection)

    def see_loss(self, connection):
        if connection != self.connection:
            return
        if self.is_stopped():
            self.world.at(self.stopped_until, self.see_loss, connection)
            return
        self.hear()
        self.lease.cut()
        self.world.at(self.world.now + self.world.chance.choice((0.3, 0.3, 1.0, 4.0)), self.connect, connection)

    def connect(self, connection):
        """Connects again, if there is a broker."""
        if connection != self.connection:
            return
        if not self.world.is_there or self.is_stopped():
            self.world.at(self.world.now + 0.3, self.connect, connection)
            return
        # the broker has the subscription, and its word of it comes later, before all other messages
        self.is_heard, self.way_up = True, self.world.now
        self.way_down = self.arrival("down", self.world.now)
        self.world.at(self.way_down, self.listen, connection)

    def listen(self, connection):
        if connection != self.connection:
            return
        if self.is_stopped():
            self.world.at(self.stopped_until, self.listen, connection)
        else:
            self.lease.listen(self.clock())

    def end(self, is_well):
        """It ends, by itself or killed, and another one begins in its place."""
        had, text = self.holds(), self.lease.release() if is_well else None
        if text is not None:
            # it waits until the broker has that
            self.world.at(self.arrival("up", self.way_up), self.world.relay, text, self, None)
        self.world.count["ended" if is_well else "killed"] += had
        self.lease, self.is_acting, self.waiting, self.stopped_until = Lease(1), False, [], 0.0
        self.lose()


class World:
    """Members and a broker. `count` says what happened."""

    def __init__(self, seed, members):
        self.chance, self.now, self.is_there = random.Random("leases %s" % seed), 0.0, True
        self.queue, self.order, self.wrong, self.count = [], itertools.count(), [], collections.Counter()
        self.members, self.last = [Member(self, number) for number in range(members)], None
        for member in self.members:
            member.lose()

    def at(self, when, call, *given):
        heapq.heappush(self.queue, (when, next(self.order), call, given))

    def relay(self, text, sender, connection):
        """The broker has a message, and hands it out to all that hear it, in the order in which it had them. It may have it when its sender is
        gone."""
        if not self.is_there or (connection not in (None, sender.connection) and self.chance.random() < 0.3):
            return
        for member in self.members:
            if member.is_heard:
                member.way_down = member.arrival("down", member.way_down)
                self.at(member.way_down, member.come, text, member.connection)

    def look(self):
        holding = [member.number for member in self.members if member.holds()]
        if len(holding) > 1:
            self.wrong.append("at %.2f %s have the lock" % (self.now, holding))
        if holding and holding != self.last:
            self.count["taken"] += 1
            self.last = holding

    def happen(self):
        """Something fails."""
        member, chance = self.chance.choice(self.members), self.chance
        what = chance.choice(("cut", "cut", "stop", "stop", "slow", "slow", "close", "close", "kill", "end", "broker"))
        if what == "cut":
            member.lose()
        elif what == "stop":
            member.stopped_until = max(member.stopped_until, self.now + chance.uniform(0, 20))
            self.at(member.stopped_until + chance.choice((0, 0.3, 0.6)), member.resume)
        elif what == "slow":
            member.slow[chance.choice(("up", "down"))] = self.now + chance.uniform(0, 20), chance.uniform(0, 8)
        elif what == "close":
            member.closed[chance.choice(("up", "down"))] = self.now + chance.uniform(0, 12)
        elif what in ("kill", "end"):
            member.end(what == "end" and not member.is_stopped())
        elif self.is_there:
            self.is_there = False
            for each in self.members:
                each.lose()
            self.at(self.now + chance.choice((0.5, 3.0, 8.0, 20.0)), self.come_back)

    def come_back(self):
        self.is_there = True

    def live(self, failing, calm):
        """Lives for so many seconds in which things fail, and behind them in which nothing does. Answers what was wrong."""
        self.begin(failing + calm + 60)
        moment = TIMES.silence + 2
        while moment < failing:
            moment += self.chance.expovariate(0.15)
            self.at(moment, self.happen)
        self.at(failing + 25, self.come_back)
        kept = None
        while self.now < failing + calm:
            self.go_on()
            if failing and self.now > failing + 60:
                holding = [member.number for member in self.members if member.holds()]
                kept = holding if kept is None else kept
                if len(holding) != 1 or holding != kept:
                    self.wrong.append("at %.2f, behind all faults, %s have the lock, and %s had it" % (self.now, holding, kept))
                    break
        return self.wrong

    def begin(self, seconds):
        """What all members do again and again for so long."""
        for member in self.members:
            for step, call in (POLL, member.poll), (TICK, member.tick):
                for at in range(int(seconds / step)):
                    self.at((at + self.chance.random() * 0.2) * step, call)

    def go_on(self):
        """The next thing happens."""
        self.now, _, call, given = heapq.heappop(self.queue)
        call(*given)
        self.look()

    def end_holder(self, is_well):
        next(member for member in self.members if member.holds()).end(is_well)

    def until_held(self, most):
        """For how long nobody has the lock from now on."""
        began = self.now
        while not any(member.holds() for member in self.members) and self.now < began + most:
            self.go_on()
        return self.now - began


# by hand

def listening(since=0.0):
    """A lease of an adapter that listens from then on."""
    lease = Lease(1)
    lease.listen(since)
    return lease


def holding(now):
    """A lease that was taken by a claim which was sent and came back then."""
    lease = listening(now - TIMES.silence)
    lease.hear(lease.claim(now), now)
    return lease


def by_hand():
    """What a claim does that comes back, or that another one makes, at each time."""
    lease = listening(100.0)
    yield "nothing is claimed before one has listened for long enough", lease.claim(109.9) is None
    text = lease.claim(110.0)
    yield "then it is", text is not None and lease.claim(110.5) is None and not lease.holds(110.5)
    lease.hear(text, 111.0)
    yield "it holds for so long from when it was sent", lease.holds(111.0) and lease.holds(115.9) and not lease.holds(116.0)
    yield "and is claimed again each second", lease.beat(110.9) is None and lease.beat(111.1) is not None and lease.beat(111.9) is None
    first, second = lease.beat(112.2), lease.beat(113.3)
    lease.hear(second, 114.0)
    yield "what comes back makes it hold for longer", lease.holds(119.2) and not lease.holds(119.4)
    lease.hear(first, 115.0)
    yield "and what was sent before that does not", lease.holds(119.2) and not lease.holds(119.4)
    late = lease.beat(118.0)
    lease.hear(late, 119.4)
    yield "what comes back when its time is over does not", not lease.holds(119.4) and not lease.holds(121.0)
    yield "it is claimed anew", lease.claim(129.5) is not None
    yield from others()
    yield from returns()


def others():
    """What claims of others do."""
    one, two = listening(), listening()
    texts = one.claim(10.0), two.claim(10.0)
    for text in texts:
        for lease in one, two:
            lease.hear(text, 10.1)
    yield "of two that claim it the first by the broker's order has it", one.holds(10.2) and not two.holds(10.2)
    one.hear(texts[1], 10.3)
    yield "and keeps it", one.holds(10.4)
    yield "the other one waits as long as it hears it", two.claim(19.9) is None and two.is_taken(20.0) and not two.is_taken(
        20.2) and two.claim(20.2) is not None
    two, three = listening(), listening()
    text = one.beat(13.0)
    for lease in one, two, three:
        lease.hear(text, 13.1)
    two.hear(listening().claim(14.0), 14.0)
    text = one.release()
    three.hear(text, 14.1)
    two.hear(text, 14.1)
    yield "who gives it up acts no more, and who hears that need not wait", not one.holds(14.0) and three.claim(14.2) is not None
    yield "unless a third one claims it", two.claim(14.2) is None
    old, new = holding(50.0), holding(50.0)
    told = [old.beat(52.0), new.beat(52.0)]
    while told:
        text = told.pop(0)
        told += [reply for reply in (old.hear(text, 52.1), new.hear(text, 52.1)) if reply is not None]
    yield "of two that have it all the same one loses it", [old.holds(52.2), new.holds(52.2)].count(True) == 1
    for text in b"", b"7", b"{}", b"\xff", b"[" * 900:
        try:
            old.hear(text, 53.0)
            yield "a claim that is none: %r" % text[:5], False
        except ValueError:
            yield "a claim that is none: %r" % text[:5], True


def returns():
    """What connections that were lost, and brokers that are slow, do to claims."""
    lease = listening()
    text = lease.claim(10.0)
    lease.cut()
    lease.listen(10.5)
    lease.hear(text, 11.0)
    yield "a claim of a connection that was lost does nothing", not lease.holds(11.0) and lease.claim(20.0) is None and lease.claim(20.5) is not None
    lease = listening()
    text = lease.claim(10.0)
    yield "a claim that does not come back is seen", not lease.is_failing(12.9) and lease.is_failing(13.1)
    lease.hear(text, 13.1)
    yield "and comes back too late", not lease.holds(13.1) and not lease.is_failing(13.2)
    yield "then others go first", lease.claim(23.0) is None and lease.claim(23.2) is not None
    lease = holding(10.0)
    lease.cut()
    yield "who has it when the connection is lost has it for the rest of its time", lease.holds(15.9) and not lease.holds(16.1) and not lease.beat(12.0)
    lease.listen(14.0)
    lease.hear(lease.beat(14.0), 14.1)
    yield "and for longer if the next one comes back", lease.holds(19.9) and not lease.holds(20.1)


def in_time():
    """With all well who stands by has it soon behind the end of who had it: the times of docs/slurm.md."""
    for is_well, most in (True, 2.0), (False, 12.0):
        longest = 0.0
        for seed in range(20):
            world = World("in time %d" % seed, 3)
            world.live(0.0, 40.0)
            world.end_holder(is_well)
            longest = max(longest, world.until_held(30.0))
        yield "one that ends%s: %.1f s at most" % (" well" if is_well else ", killed", longest), 0 < longest <= most


def all_tests():
    """Claims by hand, and lives of two, three and four adapters."""
    yield from by_hand()
    yield from in_time()
    count = collections.Counter()
    for seed in range(LIVES):
        world = World(seed, 2 + seed % 3)
        wrong = world.live(FAILING, CALM)
        count += world.count
        yield "life %d: %s" % (seed, wrong[:3] or "one at a time"), not wrong
    yield "what happened to who had it: %s" % dict(count), count["killed"] > 20 and count["ended"] > 20 and count["taken"] > 3 * LIVES


if __name__ == "__main__":
    failed = [name for name, fine in all_tests() if not fine]
    print("\n".join(failed) or "all passed")
    sys.exit(bool(failed))
