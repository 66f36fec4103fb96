"""A bridge: one coordinator, its operator's lines, and the packets that it exchanges with the others."""
import contextlib
import os
import random
import signal
import threading
import time
from collections.abc import Sequence
from typing import Optional

import kept
from bridging.answers import Answers
from bridging.broker import Broker
from bridging.claims import Claim
from bridging.coordinator import AT_ONCE, Coordinator, most_packet
from bridging.conversations import Conversations
from bridging.endings import BROKER_REFUSES, NOT_ALL_SENT, NUMBER_TAKEN, OUTPUT_FAILED, WELL, Failure
from bridging.follower import Waits, is_accepted, usual_program
from bridging.inbox import Inbox
from bridging.listening import Listener
from bridging.mailbox import MOST_BYTES as MOST_WAITING, Mailbox
from bridging.old_journal import take_over
from bridging.outbox import Outbox
from bridging.packets import content_of, number_of
from bridging.rivals import Rivals
from bridging.rounds import NEVER, Rounds
from bridging.settings import Settings, read_settings
from bridging.stores import InUse, Store
from bridging.telling import Clocks, Counts, Telling
from bridging.turns import PORTION, TURN_BYTES, Pace, Turn

LONGEST_SLEEP = 1.0
# a store that another process has is asked for again after so many seconds
PAUSE = 0.1
# a claim that did not come back is made again after so many seconds
ASKED_AGAIN = 2.0
# how many others may begin to send their states at the same time is spread over so many seconds
SPREAD = 0.2


class Bridge:
    """The loop of a bridge runs in one thread, which alone speaks with the follower. Other threads read lines, write
    answers, and keep the connection."""

    def __init__(self, settings: Settings, telling: Telling) -> None:
        self._settings, self._counts, self._telling = settings, Counts(), telling
        self._wake, self._stopping, self._stops_at = threading.Condition(threading.RLock()), False, float("inf")
        limit = most_packet(settings.number)
        self._mailbox = Mailbox(self._wake, settings.queue, limit)
        self._claim = Claim(settings.number)
        self._broker = Broker(settings, self._mailbox, self._claim)
        self._outbox = Outbox(self._broker, settings, self._counts, self._telling, limit)
        self._inbox, self._pace = Inbox(settings.number, self._mailbox, self._outbox, self._counts, self._telling), Pace()
        self._rounds, self._rivals = Rounds(settings, self._counts, self._telling), Rivals(settings, self._telling)
        self._conversations, self._answers = Conversations(self._wake, settings.longest_line), Answers()
        self._listener: Optional[Listener] = None
        self._are_read: Optional[bool] = None
        self._connection = self._turn = self._accepted = 0
        self._has_begun = self._is_new_connection = False
        self._answered: list[tuple[float, int]] = []
        self._oldest, self._back_at, self._refresh_at = 0.0, time.monotonic(), time.monotonic() + settings.refresh
        self._report_at = time.monotonic() + settings.report if settings.report else float("inf")

    # from the beginning to the end

    def run(self, program: str) -> int:
        """Runs with the program to the end of the lines, or until a signal. Answers the status."""
        self._program = program
        with contextlib.ExitStack() as ending:
            if self._settings.listen is not None:
                self._listener = Listener(self._settings.listen)
                ending.callback(self._listener.close)
            self._coordinator = self._kept_coordinator()
            ending.callback(self._close)
            self._begin()
            self._has_begun = True
            self._conversations.operator.lines.start()
            if self._listener is not None:
                self._listener.start(self._conversations)
            while not (self._stopping or self._are_lines_ended()):
                self._rest()
                self._step()
            return self._end()

    def _close(self) -> None:
        """Ends all that runs, whatever happened before."""
        if self._listener is not None:
            self._listener.close()
        self._finish_answers()
        self._broker.close()
        self._coordinator.close()
        if self._has_begun:
            self._telling.count("ended", self._counts)

    def _kept_coordinator(self) -> Coordinator:
        """A coordinator, with a store if one is asked for. A bridge that was killed may have left a follower that has the store until it
        sees the end of its lines, which is waited for."""
        asked, end = self._settings, time.monotonic() + self._settings.connect_wait
        store = None if asked.store is None else Store(asked.store, asked.cluster, self._pass_on)
        while True:
            try:
                return self._made_coordinator(store)
            except InUse:
                if self._stopping or time.monotonic() >= end:
                    raise
            time.sleep(PAUSE)

    def _made_coordinator(self, store: Optional[Store] = None) -> Coordinator:
        asked = self._settings
        waits = Waits(asked.connect_wait, asked.follower_wait, lambda: self._stops_at)
        return Coordinator(self._program, asked.number, asked.renew_after, waits, store)

    def _pass_on(self, line: str) -> None:
        """Says what the follower wrote to standard error."""
        self._telling.say("follower", f"the follower says: {line}", line=line)

    def stop(self, *_signal: object) -> None:
        """Ends the bridge once it sent what it has. In a handler of signals: the lock may be held by the thread that
        it interrupts."""
        self._stopping = True
        self._stops_at = min(self._stops_at, time.monotonic() + self._settings.end_wait)
        with self._wake:
            self._wake.notify_all()

    def _begin(self) -> None:
        """Connects, claims the number, takes an old journal over, and takes in the states that the broker keeps."""
        self._broker.connect(self._settings.connect_wait)
        self._connection = self._broker.connection
        self._claim_number()
        self._take_over()
        is_known = self._coordinator.deltas > 0
        place = f"{self._settings.access.place}, cluster {self._settings.cluster}"
        self._telling.say("connected", f"connected to {place}" + ("; something is known by the store" if is_known else ""), known=is_known)
        if is_known:
            # states that say the same are neither fetched nor added to the store again
            self._inbox.know(content_of(self._coordinator.cut_state()))
        self._exchange_all()
        self._fetch_states()
        self._inbox.is_foreign = False
        self._outbox.last_state = self._inbox.own_state
        if self._coordinator.deltas:
            self._outbox.is_stale = True
            self._outbox.want_state(0)
        self._rounds.begin(self._coordinator.deltas > 0)

    def _take_over(self) -> None:
        """Has the store keep what a journal of an earlier version says. Others hear of it by the next state."""
        taken = take_over(self._settings, self._made_coordinator, self._coordinator)
        if taken is None:
            return
        self._coordinator.own = self._coordinator.deltas
        how = f"{taken.lines} lines of the journal are in the store now, and its file is {taken.file}"
        if taken.damage:
            how = f"{taken.damage}: the lines before that are taken; {how}"
        self._telling.say("salvaged" if taken.damage else "taken_over", how, lines=taken.lines, file=str(taken.file))

    def _claim_number(self) -> None:
        """Waits for a bridge that has the number to say so, and for the claim to come back behind the states that the
        broker keeps."""
        began = asked = time.monotonic()
        while not self._claim.is_lost:
            if self._claim.is_back() and time.monotonic() - began >= self._settings.claim_wait:
                break
            if time.monotonic() - began > self._settings.connect_wait + self._settings.claim_wait:
                raise Failure(BROKER_REFUSES, "the broker does not hand back what this user publishes on "
                                              + self._broker.topic("hello", self._settings.number))
            if time.monotonic() - asked > ASKED_AGAIN and self._broker.is_connected:
                asked = time.monotonic()
                self._broker.ask_again(is_new=True)
            with self._wake:
                self._wake.wait(0.02)
        if self._claim.is_lost:
            raise Failure(NUMBER_TAKEN, self._taken())
        self._claim.run()
        self._turn = self._claim.came_back

    def _fetch_states(self) -> None:
        """Fetches the states that the broker keeps and that say something new, and takes them in, if they come in time."""
        if self._broker.hear_states(self._inbox.listened()):
            self._broker.claim(is_new=False)
            end = time.monotonic() + self._settings.connect_wait
            while not self._claim.is_back() and not self._claim.is_lost and not self._stopping and time.monotonic() < end:
                with self._wake:
                    self._wake.wait(0.02)
            self._exchange_all()

    def _exchange_all(self) -> None:
        """Takes in what came before any line is told, for as long as a connection is waited for."""
        self._exchange(Turn(self._settings.connect_wait, MOST_WAITING))

    def _taken(self) -> str:
        return f"the number {self._settings.number} of cluster {self._settings.cluster} is taken by another bridge"

    def _end(self) -> int:
        """Sends what is left, as long as the broker takes it in time. It is sent also if the number turned out to be
        another bridge's: what was accepted is to be known."""
        end = time.monotonic() + self._settings.end_wait
        while not self._is_all_sent() and not self._outbox.is_too_large and time.monotonic() < end:
            if self._outbox.is_stale:
                self._outbox.want_state(0)
            self._rest()
            self._step()
        if self._claim.is_lost:
            self._telling.say("failed", self._taken(), status=NUMBER_TAKEN)
            return NUMBER_TAKEN
        if not self._finish_answers():
            output = self._conversations.operator.writer
            why = "cannot be written" if output.is_broken else f"is not read: {output.unread} bytes of answers are left"
            self._telling.say("output", f"standard output {why}")
            return OUTPUT_FAILED
        if not self._is_all_sent():
            self._telling.say("unsent", "not all that was accepted is known to be with the broker")
            return NOT_ALL_SENT
        return WELL

    def _finish_answers(self) -> bool:
        """Waits for the answers to be read, as long as something of them is. Whether all were."""
        if self._are_read is None:
            self._are_read = self._conversations.finish(self._settings.end_wait)
        return self._are_read

    def _is_all_sent(self) -> bool:
        return self._coordinator.own_news() == 0 and self._outbox.is_empty() and not self._answers.are_waiting()

    def _are_lines_ended(self) -> bool:
        """Whether no more lines can come."""
        return self._conversations.operator.lines.is_ended() and not self._settings.stays

    # one turn of the loop

    def _rest(self) -> None:
        """Waits for something to do."""
        with self._wake:
            if self._has_work():
                return
            times = [self._refresh_at, self._report_at, self._next_round(), time.monotonic() + LONGEST_SLEEP]
            times += [self._outbox.next_time()] if self._can_send_state() else []
            times += [self._oldest + self._settings.cut_interval] if self._coordinator.own_news() else []
            self._wake.wait(max(0.001, min(times) - time.monotonic()))

    def _has_work(self) -> bool:
        """Whether a step would do something now, as far as other threads know of it."""
        can_tell = not self._stopping and self._answers.has_room() and self._conversations.is_waiting()
        return (can_tell or self._mailbox.has_news() or self._is_exchange_due()
                or (self._claim.is_lost and not self._stopping) or self._connection != self._broker.connection
                or bool(self._claim.newcomers) or self._conversations.are_ending())

    def _step(self) -> None:
        self._look_at_connection()
        self._hear()
        self._tell()
        if self._is_exchange_due():
            self._exchange(Turn())
        self._run_round()
        if self._outbox.is_state_due() and self._can_send_state() and not self._coordinator.own_news():
            began = Clocks()
            self._send_state(self._coordinator.cut_state(), began)
        if self._outbox.is_unheard_of() and not self._coordinator.own_news():
            # news of nothing, by whose number the others see that they need the state
            self._outbox.send_news(self._coordinator.cut_news(with_state=False)[0])
        if self._can_send_state():
            self._broker.hear_states(self._inbox.listened())
        self._answers.let_go(self._outbox.confirmed if self._settings.is_confirmed else self._accepted)
        for unread in self._conversations.tidy():
            self._counts.cut_off += 1
            self._telling.say("cut_off", f"a client that did not read {unread} bytes of answers is cut off", bytes=unread)
        if self._rivals.is_due():
            self._rivals.look(self._coordinator.winners())
        self._look_at_times()

    def _tell(self) -> None:
        """Tells lines that wait, for a turn. What they come to is in the store, if there is one, before the follower answers."""
        if self._conversations.operator.writer.is_broken or self._claim.is_lost:
            self._stopping = True
        if self._stopping or not self._answers.has_room():
            return
        room = max(1, self._settings.cut_count - self._coordinator.own_news())
        taken = self._conversations.take(min(AT_ONCE, room), TURN_BYTES)
        if not taken:
            return
        before = self._begin_news()
        lines = [line for _, line in taken]
        answers, has_added = self._coordinator.tell(lines, turn=Turn())
        self._rivals.answered(lines, answers)
        self._conversations.put_back(taken[len(answers):])
        self._count_added(has_added, before)
        told = sum(map(is_accepted, answers))
        self._counts.told += told
        self._counts.refused_lines += len(answers) - told
        for (conversation, _), answer in zip(taken, answers):
            self._answers.put(self._accepted, answer, conversation)

    def _next_round(self) -> float:
        """When a round of its own is due, if nothing else changes. A bridge that is to end runs none."""
        is_ending = self._stopping or self._claim.is_lost or self._are_lines_ended()
        return NEVER if is_ending else self._rounds.next_time()

    def _run_round(self) -> None:
        """Runs a round of its own if one is due: one in a step, so that lines which wait are told before the next."""
        if self._next_round() <= time.monotonic():
            before = self._begin_news()
            answer, has_added = self._coordinator.run_round(self._rounds.line)
            if has_added:
                self._count_added(has_added, before)
            self._rounds.ran(answer)

    def _begin_news(self) -> int:
        """How many deltas there are before others are added, which are news from now on if there is none yet."""
        if not self._coordinator.own_news():
            self._oldest = time.monotonic()
        return self._coordinator.deltas

    def _count_added(self, has_added: bool, before: int) -> None:
        """Counts the deltas behind the first `before`, which say something or not."""
        if has_added:
            self._rounds.note_change()
        self._count_accepted(self._coordinator.deltas - before)

    def _count_accepted(self, added: int) -> None:
        """So many deltas were added, and perhaps something else was changed by a line of an unknown kind."""
        if self._coordinator.may_have_changed:
            self._coordinator.may_have_changed, self._outbox.is_stale = False, True
            self._rounds.note_change()
            self._outbox.want_state(self._settings.state_interval)
            added = max(1, added)
        self._accepted += added
        if self._settings.is_traced:
            self._answered.append((time.time(), added))

    # exchanges

    def _is_exchange_due(self) -> bool:
        """Whether its own news is to be cut, or what came can be taken in since there is none."""
        news, is_back = self._coordinator.own_news(), self._claim.is_back() and self._turn != self._claim.came_back
        if not news:
            return self._mailbox.has_packets() or self._coordinator.is_to_renew() or is_back
        return (news >= self._settings.cut_count or time.monotonic() - self._oldest >= self._settings.cut_interval
                or self._mailbox.load() > 0.5 or self._stopping or self._are_lines_ended() or is_back)

    def _exchange(self, turn: Turn) -> None:
        """Cuts its own news and sends it, and then takes in what came, for a turn."""
        is_back, came_back = self._claim.is_back(), self._claim.came_back
        if self._coordinator.own_news():
            self._send_news()
        self._hear()
        self._take_in(turn)
        if self._coordinator.is_to_renew():
            self._coordinator.renew()
            self._counts.renewals += 1
            # its packets are numbered from the beginning, so the others need a state
            self._outbox.is_stale = True
            self._outbox.want_state(self._settings.state_interval)
        if is_back and self._turn != came_back and not self._mailbox.is_waiting_from(self._settings.number):
            self._turn = came_back
            if self._inbox.own_state != self._outbox.last_state and self._coordinator.deltas:
                self._outbox.is_gone()
            elif self._is_new_connection or self._inbox.own_digest != self._outbox.digest:
                self._tell_digest()
            self._is_new_connection = False
        if self._inbox.is_foreign:
            self._inbox.is_foreign = False
            self._counts.foreign += 1
            self._telling.say("foreign", "somebody else published a state on this coordinator's topic; it was taken in")
            self._outbox.want_state(self._settings.state_interval)

    def _send_news(self) -> None:
        """Cuts and sends its own news, and a state behind it if that is due."""
        self._outbox.want_news()
        began = Clocks()
        packet, state = self._coordinator.cut_news(self._outbox.is_state_due() and self._can_send_state())
        self._outbox.send_news(packet)
        self._trace("cut", number=number_of(packet), answered=self._answered)
        self._answered = []
        if state is not None:
            self._send_state(state, began)

    def _hear(self) -> None:
        """Looks at what came but for packets."""
        mail = self._mailbox.collect()
        self._outbox.acknowledge(mail.acknowledged)
        self._counts.strange += mail.strange
        self._counts.too_large += mail.too_large
        for text in mail.notes:
            self._telling.say("broker", text)
        self._inbox.missed(mail)
        if mail.dropped:
            dropped = sum(mail.dropped.values())
            self._telling.say("full", f"{dropped} packets came while {self._settings.queue} waited, and were dropped: "
                                      "the states that the broker keeps are asked for again", dropped=dropped)
            self._refresh_at = min(self._refresh_at, time.monotonic() + 1)

    def _take_in(self, turn: Turn) -> None:
        """Takes in packets that wait, until none does or the turn is over. Each call is of as many as were quick enough before."""
        while parcels := self._mailbox.take(self._pace.count, PORTION):
            turn.took(sum(len(parcel.packet) for parcel in parcels))
            if wanted := self._inbox.wanted(parcels):
                began = time.monotonic()
                answers = self._coordinator.take([parcel.packet for parcel in wanted])
                self._pace.took(len(wanted), time.monotonic() - began)
                if self._inbox.judged(wanted, answers):
                    self._rounds.note_change()
                    self._rivals.note_change()
                self._outbox.is_stale = self._outbox.is_stale or any(map(is_accepted, answers))
                self._trace("took", packets=[(parcel.sender, number_of(parcel.packet), parcel.is_state) for parcel in wanted])
            if turn.is_over():
                break

    def _trace(self, event: str, **more: object) -> None:
        if self._settings.is_traced:
            self._telling.say(event, event, **more)

    def _can_send_state(self) -> bool:
        """Whether the broker is there, and what it kept came and was looked at."""
        return self._broker.is_connected and self._claim.is_back() and self._turn == self._claim.came_back

    def _send_state(self, packet: bytes, began: Clocks) -> None:
        """Sends a state, whose cut began then, if a line can hand it over."""
        is_small = self._outbox.send_state(packet, self._accepted)
        self._trace("state", bytes=len(packet), **began.passed())
        if not is_small:
            most = most_packet(self._settings.number)
            why = f"the state has {len(packet)} bytes, and no line can hand over more than {most}"
            if self._settings.is_confirmed:
                raise Failure(NOT_ALL_SENT, why)
            self._telling.say("state", why + ": it is not sent", bytes=len(packet))

    # the connection, and times

    def _look_at_connection(self) -> None:
        if self._connection != self._broker.connection:
            self._connection, self._is_new_connection = self._broker.connection, True
            self._outbox.lost()
            self._counts.lost_connections += 1
            self._inbox.sources.forget()
            self._inbox.forget_own()
            self._telling.say("connection", "the connection was lost and is made again", connection=self._connection)
        if not self._claim.newcomers:
            return
        while self._claim.newcomers:
            # who comes, or comes back, may have sent what was not heard here
            self._inbox.sources.missed(self._claim.newcomers.popleft())
        if self._outbox.is_stale:
            self._outbox.want_state(0, delay=random.uniform(0, SPREAD))
        self._tell_digest()

    def _tell_digest(self) -> None:
        """Tells those that came, or came back, what its last state says, if nothing came after that."""
        if not self._outbox.is_stale:
            self._outbox.send_digest()

    def _look_at_times(self) -> None:
        now = time.monotonic()
        if self._outbox.is_stuck():
            waited = f"{self._settings.ack_wait:g} s"
            self._telling.say("stuck", f"the broker acknowledges nothing for {waited}: connecting again")
            self._outbox.lost()
            self._broker.drop()
        if self._outbox.is_unkept():
            self._telling.say("unkept", "a state was sent, and did not come back or is not kept: the broker may have a limit for "
                                        "messages, keep none, or not let this user write it")
        if self._claim.is_back() or not self._broker.is_connected:
            self._back_at = now
        if now >= self._refresh_at or now - self._back_at > self._settings.ack_wait:
            self._refresh(now)
        if now >= self._report_at:
            self._report_at = now + self._settings.report
            self._telling.count("report", self._counts)

    def _refresh(self, now: float) -> None:
        """Asks for all states again, and makes its own current."""
        self._refresh_at, self._back_at = now + self._settings.refresh, now
        if self._broker.is_connected:
            self._inbox.forget_own()
            self._inbox.sources.refresh()
            if self._outbox.is_stale:
                self._outbox.want_state(0)
            self._broker.ask_again(is_new=False, settled=self._inbox.sources.settled())


def is_open(descriptor: int) -> bool:
    try:
        os.fstat(descriptor)
        return True
    except OSError:
        return False


def main(given: Sequence[str]) -> int:
    """Runs a bridge for the words, and answers its status."""
    settings = read_settings(given)
    for descriptor in range(3):
        # one that was closed would be given to something else: now it has no lines, and cannot be written
        if not is_open(descriptor):
            os.open(os.devnull, os.O_RDONLY)
    telling = Telling(settings.number, settings.is_json)
    for text in settings.access.warnings:
        telling.say("exposed", text)
    try:
        # before signals only stop the bridge, since this may make a build
        program = settings.program or usual_program()
        if settings.program is None and not kept.is_proved():
            telling.say("unproved", "runs the unproved build, since there is no proved program, or a source is newer")
        bridge = Bridge(settings, telling)
        for number in signal.SIGTERM, signal.SIGINT, signal.SIGHUP:
            # nohup has a hangup ignored
            if number != signal.SIGHUP or signal.getsignal(number) != signal.SIG_IGN:
                signal.signal(number, bridge.stop)
        return bridge.run(program)
    except Failure as failure:
        telling.say("failed", str(failure), status=failure.status)
        return failure.status
    finally:
        telling.close()
