"""A lock over a broker, by which of several adapters on different machines only one acts."""
import secrets
import threading
import time
from typing import Optional

import paho.mqtt.client as paho

from bridging.access import Access, topic_of
from bridging.connection import QOS, Connection
from bridging.endings import Failure
from slurming.endings import LOCKED
from slurming.leases import Lease, Times
from slurming.locks import Lost

# topics of their own: a bridge of the same cluster and number, which claims the number on `hello`, may run beside an adapter
KIND = "slurm"
TICK = 0.25
LAST_DELAY = 3.0
# so long for the broker to let a client in, and in the end for it to hand a last claim back
PATIENCE, LAST_WAIT = 5.0, 1.0


def clock() -> float:
    """Seconds by a clock that also goes while the machine is suspended."""
    return time.clock_gettime(time.CLOCK_BOOTTIME)


class BrokerLock(Connection):
    """A lock of the adapters with one broker, cluster and number. While it is held, a thread claims it again and again."""

    def __init__(self, access: Access, cluster: str, number: int, times: Times = Times()) -> None:
        super().__init__(access, f"fm-s{number}-{secrets.token_hex(8)}", PATIENCE, LAST_DELAY)
        self.name = f"mqtt://{access.place}/{cluster} (coordinator {number})"
        self._topic = topic_of(cluster, KIND, number)
        self._lease, self._times, self._turning = Lease(number, times), times, threading.Lock()
        self._ticker: Optional[threading.Thread] = None
        # why there is no connection, and why none serves; since when there is one, and whether there ever was
        self._fault = self._doubt = ""
        self._connected_at, self._was_connected = 0.0, False

    # what an adapter asks of a lock

    def take(self) -> bool:
        """Whether this process has the lock now. It may have it later if it asks again."""
        self._start()
        if self.refusal is not None and not self._was_connected:
            raise Failure(LOCKED, f"the lock {self.name} cannot be had: {self._fault or self.refusal}")
        with self._turning:
            text = self._lease.claim(clock())
            is_held = self._lease.holds(clock())
        self._send(text)
        return is_held

    def check(self) -> None:
        """Raises that it is lost if another process may have it."""
        with self._turning:
            if self._lease.holds(clock()):
                return
            is_denied = self._lease.is_denied()
            self._lease.release()
        why = "another adapter has it" if is_denied else f"no claim came back from the broker for {self._times.holds:g} s"
        raise Lost(f"the lock {self.name} is lost: {why}")

    def release(self) -> None:
        with self._turning:
            text = self._lease.release()
        if text is not None and self.is_connected:
            sent = self._client.publish(self._topic, text, QOS)
            end = time.monotonic() + LAST_WAIT
            while sent.rc == paho.MQTT_ERR_SUCCESS and not sent.is_published() and time.monotonic() < end:
                time.sleep(0.01)
        self.close(LAST_WAIT)

    def faults(self) -> list[str]:
        """What keeps any adapter from the broker."""
        try:
            self.connect(PATIENCE)
        except Failure as why:
            return [str(why)]
        finally:
            self.close(LAST_WAIT)
        return []

    @property
    def why(self) -> str:
        """Why it could not be taken."""
        if self._fault:
            return self._fault
        if self._is_taken():
            return f"another adapter has the lock {self.name}"
        return self._doubt or f"it is not known yet whether another adapter has the lock {self.name}"

    @property
    def is_settled(self) -> bool:
        return bool(self._fault or self._doubt) or self._is_taken()

    def _is_taken(self) -> bool:
        with self._turning:
            return self._lease.is_taken(clock())

    # its threads

    def _start(self) -> None:
        if self._ticker is None:
            self.begin()
            self._ticker = threading.Thread(target=self._tick, daemon=True)
            self._ticker.start()

    def _tick(self) -> None:
        """Claims the lock again while it is held, and has another connection made if this one does not serve."""
        while not self._closing.wait(TICK):
            now = clock()
            with self._turning:
                text, is_failing, is_listening = self._lease.beat(now), self._lease.is_failing(now), self._lease.is_listening()
            self._send(text)
            if is_failing:
                self._doubt = (f"the broker at {self._access.place} does not hand back in {self._times.answers:g} s what this user sends on "
                               f"{self._topic}")
            if is_failing or (self.is_connected and not is_listening and now - self._connected_at > self._times.silence):
                self.drop()

    def _send(self, text: Optional[bytes]) -> None:
        if text is not None:
            self._client.publish(self._topic, text, QOS)

    # what the client tells

    def begun(self) -> None:
        self._connected_at, self._was_connected = clock(), True
        self._client.subscribe([(self._topic, self.subscription())])

    def granted(self, is_granted: bool) -> None:
        if not is_granted:
            self._fault = f"the broker at {self._access.place} does not let this user read {self._topic}"
            return
        self._fault = ""
        with self._turning:
            self._lease.listen(clock())

    def heard(self, client: paho.Client, message: paho.MQTTMessage) -> None:
        if message.retain:
            return  # says nothing of now
        try:
            with self._turning:
                reply = self._lease.hear(message.payload, clock())
        except ValueError:
            return
        self._doubt = ""
        if reply is not None:
            client.publish(self._topic, reply, QOS)

    def ended(self) -> None:
        with self._turning:
            self._lease.cut()

    def note(self, text: str) -> None:
        self._fault = text
