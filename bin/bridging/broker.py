"""What a bridge sends and asks for by way of the MQTT broker, and what it hears."""
from collections.abc import Collection
from typing import Any

import paho.mqtt.client as paho

from bridging.access import topic_of
from bridging.claims import Claim
from bridging.connection import QOS, Connection
from bridging.digests import digest_in
from bridging.mailbox import Mailbox, Message, Parcel
from bridging.packets import NUMBERS
from bridging.settings import Settings

LABELS = {str(number): number for number in NUMBERS}


class Broker(Connection):
    """The topics of a cluster. What a connection that was lost did not carry is in the next state."""

    def __init__(self, settings: Settings, mailbox: Mailbox, claim: Claim) -> None:
        super().__init__(settings.access, f"fm-{settings.number}-{claim.token}", settings.ack_wait)
        self._settings, self._mailbox, self._claim = settings, mailbox, claim
        self._states: set[int] = set()
        # the numbers of which the broker keeps claims, which was said
        self._kept_claims: set[int] = set()
        # the numbers of which the broker keeps something else than a digest
        self._no_digests: set[int] = set()

    def topic(self, kind: str, number: Any = "+") -> str:
        return topic_of(self._settings.cluster, kind, number)

    # what comes

    def begun(self) -> None:
        self.ask_again(is_new=True)

    def granted(self, is_granted: bool) -> None:
        if not is_granted:
            self._mailbox.note("the broker does not let this user read all topics of the cluster")

    def acknowledged(self, connection: int, message: int) -> None:
        self._mailbox.put_acknowledged((connection, message))

    def note(self, text: str) -> None:
        self._mailbox.note(text)

    def heard(self, client: paho.Client, message: paho.MQTTMessage) -> None:
        try:
            kind, _, label = message.topic.rpartition("/")
        except UnicodeDecodeError:
            kind, label = "", ""
        number = LABELS.get(label)
        if number is None:
            self._mailbox.put_strange()
        elif kind.endswith("/digest"):
            self._heard_digest(number, message)
        elif not kind.endswith("/hello"):
            self._mailbox.put(Parcel(number, message.payload, kind.endswith("/state"), bool(message.retain)))
        elif message.retain:
            self._heard_kept_claim(number)
        else:
            self._heard_claim(client, number, message.payload)

    def _heard_digest(self, number: int, message: paho.MQTTMessage) -> None:
        try:
            # one that is taken away from the broker comes as no bytes
            if message.payload:
                self._mailbox.put_digest(number, digest_in(message.payload), bool(message.retain))
        except ValueError:
            self._mailbox.put_strange()
            self._no_digests |= {number} if message.retain else set()
        else:
            self._no_digests.discard(number)

    def _heard_claim(self, client: paho.Client, number: int, text: bytes) -> None:
        try:
            reply = self._claim.hear(number, text)
        except ValueError:
            self._mailbox.put_strange()
            return
        if reply is not None:
            client.publish(self.topic("hello", number), reply, QOS)
        self._mailbox.nudge()

    def _heard_kept_claim(self, number: int) -> None:
        """A claim says something of now, and no bridge has the broker keep one: so one that was kept says nothing."""
        self._mailbox.put_strange()
        if number not in self._kept_claims:
            self._kept_claims.add(number)
            self._mailbox.note(f"the broker keeps a message on {self.topic('hello', number)}, which no bridge has it keep: it is not heard")

    # what the bridge asks for

    def ask_again(self, is_new: bool, settled: Collection[int] = ()) -> None:
        """Has the broker send the digests that it keeps once more, and its own state, and behind them the claim. On a new connection it
        sends all else too that it keeps on topics which are listened to. Later it sends neither that, nor what was no digest, nor the
        states of those that are settled."""
        own = self._settings.number
        numbers = NUMBERS if is_new else [number for number in NUMBERS if number not in self._no_digests]
        topics = [(self.topic("digest", number), self.subscription()) for number in numbers]
        if is_new:
            self._no_digests.clear()
            topics += [(self.topic(kind), self.subscription(kind == "deltas")) for kind in ("hello", "deltas")]
        self._client.subscribe([*topics, (self.topic("state", own), self.subscription())])
        stay = self._states & set(settled) - {own} if not is_new else set()
        if not is_new:
            # what is still to come is asked for again
            self._client.unsubscribe([self.topic("state", number) for number in NUMBERS if number not in (own, *stay)])
        self._states = {own} | stay
        self.claim(is_new)

    def claim(self, is_new: bool) -> None:
        """Sends the claim, which comes back behind all that was asked for before."""
        self._client.publish(self.topic("hello", self._settings.number), self._claim.ask(is_new), QOS)

    def ask_for_own_state(self) -> None:
        """Has the broker send the state that it keeps on the coordinator's own topic."""
        self._states = self._states | {self._settings.number}
        self._client.subscribe([(self.topic("state", self._settings.number), self.subscription())])

    def hear_states(self, numbers: set[int]) -> bool:
        """Has the broker send the states of these coordinators alone. Whether they are more than before."""
        more, less = numbers - self._states, self._states - numbers
        self._states = numbers
        if more:
            self._client.subscribe([(self.topic("state", number), self.subscription()) for number in sorted(more)])
        if less:
            self._client.unsubscribe([self.topic("state", number) for number in sorted(less)])
        return bool(more)

    def publish(self, kind: str, packet: bytes) -> Message:
        """Sends a packet on the topic of the kind, to be kept by the broker if it is a state, or the digest of one."""
        client, connection = self._client, self.connection
        sent = client.publish(self.topic(kind, self._settings.number), packet, QOS, retain=kind != "deltas")
        return connection, sent.mid
