"""What comes in: which of the packets that came are to be taken in, and what became of those that were."""
import time
from collections.abc import Sequence
from typing import TYPE_CHECKING, Optional

from bridging.digests import Digest, Sources
from bridging.follower import NO_MEMORY, is_accepted
from bridging.mailbox import Mail, Mailbox, Parcel
from bridging.packets import Coverage, Seen, content_of, digest_of, is_empty, number_of
from bridging.telling import Counts, Telling
from bridging.turns import Patience, Source

if TYPE_CHECKING:
    # it needs paho-mqtt, and this module does not
    from bridging.outbox import Outbox


class Inbox:
    """Packets that were sent from here come back too, and so do packets that came before: neither is taken in. What
    a packet says is judged by the follower alone, which refuses bytes that are none. Who sends such is heard less often."""

    def __init__(self, number: int, mailbox: Mailbox, outbox: "Outbox", counts: Counts, telling: Telling) -> None:
        self._number, self._mailbox, self._outbox, self._counts, self._telling = number, mailbox, outbox, counts, telling
        self._patience = Patience()
        # states of its own number are always looked at, since what it sent comes back so; until when those that others sent are not heard
        self._own_states, self._own_shut_until = (number, True), 0.0
        self._digests, self._seen, self._coverage = Seen(), Seen(), Coverage()
        self.sources = Sources(self._coverage, self._is_known)
        # the state on the coordinator's own topic that the broker had kept when it was last asked, and the digest beside it
        self.own_state: Optional[bytes] = None
        self.own_digest: Optional[Digest] = None
        self.is_foreign = False

    def forget_own(self) -> None:
        """The broker is asked again for what it keeps on the coordinator's own topics."""
        self.own_state = self.own_digest = None

    def know(self, content: bytes) -> None:
        """What a state of this content says is known, as by a store."""
        self._seen.add(content)

    def wanted(self, parcels: Sequence[Parcel]) -> list[Parcel]:
        """Those of the packets that are to be taken in."""
        return [parcel for parcel in parcels if self._is_wanted(parcel)]

    def _is_known(self, content: bytes) -> bool:
        """Whether what a state says, by its digest, was taken in or sent."""
        return content in self._seen or self._outbox.says(content)

    def _hear_digest(self, parcel: Parcel, digest: Digest) -> None:
        if parcel.sender == self._number:
            self.own_digest = digest if parcel.was_kept else self.own_digest
        elif not self.sources.hear(parcel.sender, digest, parcel.was_kept):
            self._seen.add(digest.content)
            self._counts.not_fetched += 1

    def _is_wanted(self, parcel: Parcel) -> bool:
        if parcel.digest is not None:
            self._hear_digest(parcel, parcel.digest)
            return False
        digest = digest_of(parcel.packet)
        if parcel.sender == self._number and parcel.is_state:
            self.own_state = digest if parcel.was_kept else self.own_state
            self._outbox.came_back(digest, parcel.was_kept)
        if parcel.sender == self._number and self._outbox.is_own(digest):
            return False
        if parcel.source == self._own_states and time.monotonic() < self._own_shut_until:
            self._counts.unheard += 1
            return False
        self._counts.received += 1
        self._counts.received_bytes += len(parcel.packet)
        number, content = number_of(parcel.packet), content_of(parcel.packet)
        if parcel.is_state:
            is_covered = self._coverage.covers(parcel.sender, number, parcel.was_kept)
            self.sources.came(parcel.sender, content, parcel.was_kept)
            if is_covered or self._is_known(content):
                self._counts.covered += 1
                return False
            self.is_foreign = self.is_foreign or parcel.sender == self._number
        elif digest in self._digests:
            self._counts.repeated += 1
            return False
        else:
            self.sources.news(parcel.sender, number)
        self._digests.add(digest)
        self._seen.add(content)
        return True

    def missed(self, mail: Mail) -> None:
        """Packets were dropped since too many waited, or were too large, or not heard."""
        self._counts.dropped += sum(mail.dropped.values())
        self._counts.unheard += sum(mail.unheard.values())
        for sender in mail.dropped:
            self.sources.missed(sender)
        for sender, is_state in mail.unheard:
            self.sources.unheard(sender, is_state)
        for sender, size in mail.spoiled.items():
            self._hear_less((sender, True), size)
            self.sources.spoiled(sender)

    def listened(self) -> set[int]:
        """The numbers of those whose states are to come: not while they are not heard, if one that the broker keeps would come again."""
        settled = self.sources.settled()
        return (self.sources.numbers() - (self._mailbox.unheard_states() - settled)) | {self._number}

    def judged(self, parcels: Sequence[Parcel], answers: Sequence[bytes]) -> bool:
        """The follower took in some of the packets, and refused the others. Whether one that it took in says something."""
        taken = [parcel for parcel, answer in zip(parcels, answers) if is_accepted(answer)]
        broken = [parcel for parcel, answer in zip(parcels, answers) if not is_accepted(answer) and answer != NO_MEMORY]
        for parcel, answer in zip(parcels, answers):
            if not is_accepted(answer):
                self._refuse(parcel)
            if answer == NO_MEMORY:
                self._telling.say("refused", f"{described(parcel.source, len(parcel.packet))} is refused, since memory ran out", sender=parcel.sender,
                                  bytes=len(parcel.packet))
        for source, size in {parcel.source: len(parcel.packet) for parcel in broken}.items():
            self._hear_less(source, size)
        for source in {parcel.source for parcel in taken} - {parcel.source for parcel in broken}:
            if self._patience.whole(source):
                self._telling.say("heard", f"{named(source)} are heard as before", sender=source[0])
        for parcel in broken:
            if parcel.is_state and parcel.was_kept:
                self.sources.spoiled(parcel.sender)
        self._counts.taken += len(taken)
        return any(not is_empty(parcel.packet) for parcel in taken)

    def _refuse(self, parcel: Parcel) -> None:
        """A packet was refused, and is none of those that were taken in."""
        self._counts.refused += 1
        self.sources.missed(parcel.sender)
        self._seen.remove(content_of(parcel.packet))
        self._digests.remove(digest_of(parcel.packet))

    def _hear_less(self, source: Source, size: int) -> None:
        """Packets of a source are broken, of which the last one has so many bytes."""
        seconds, is_longer = self._patience.broken(source)
        if source == self._own_states:
            self._own_shut_until = time.monotonic() + seconds
        else:
            self._mailbox.shut_out(source, seconds)
        if is_longer:
            said = f"{described(source, size)} is refused: {named(source)} are not heard for {seconds:g} s"
            self._telling.say("refused", said, sender=source[0], bytes=size, seconds=seconds)


def described(source: Source, size: int) -> str:
    """A packet of so many bytes, as an operator is told of it."""
    return f"a {'state' if source[1] else 'packet'} of {size} bytes on the topic of coordinator {source[0]}"


def named(source: Source) -> str:
    """A source, as an operator is told of it."""
    return f"{'states' if source[1] else 'packets'} of coordinator {source[0]}"
