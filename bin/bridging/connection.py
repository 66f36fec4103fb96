"""A connection to an MQTT broker: made, kept, and made again after it was lost, by paho-mqtt."""
import contextlib
import random
import socket
import ssl
import threading
import time
from collections.abc import Callable
from typing import Any, Optional

import paho.mqtt.client as paho
from paho.mqtt.subscribeoptions import SubscribeOptions

from bridging.access import Access
from bridging.endings import BROKER_REFUSES, NO_BROKER, Failure

KEEP_ALIVE = 20
FIRST_DELAY, LAST_DELAY = 0.25, 30.0
QOS = 1


class Client(paho.Client):
    """A client that tells why TLS was broken off, as if the broker wants a certificate, where paho's own would fail in its thread."""

    def __init__(self, broken: Callable[[int, str], None], connection: int, **named: Any) -> None:
        super().__init__(userdata=connection, **named)
        self._broken, self._connection = broken, connection

    def loop_forever(self, *given: Any, **named: Any) -> Any:
        try:
            return super().loop_forever(*given, **named)
        except ssl.SSLError as why:
            self._broken(self._connection, f"no TLS: {why.reason or why}")
            return paho.MQTT_ERR_CONN_LOST


class Connection:
    """Each connection is a client of its own, in a clean session and under a unique name: what a
    connection that was lost did not carry is not sent again by the client. What follows from it being made and lost, and from what comes, is
    said by a class of its own: in methods that the client's thread calls, and of which the keeper's calls `ended` and `note`."""

    def __init__(self, access: Access, name: str, answer_wait: float, last_delay: float = LAST_DELAY) -> None:
        self._access, self._name, self._answer_wait, self._last_delay = access, name, answer_wait, last_delay
        self._client: Any = None
        self._keeper: Optional[threading.Thread] = None
        self._over, self._closing = threading.Event(), threading.Event()
        # why the broker let the last client not in, if it said so
        self.refusal: Optional[str] = None
        self.is_connected, self.connection = False, 0

    # what follows

    def begun(self) -> None:
        """A connection was made."""

    def granted(self, is_granted: bool) -> None:
        """What was subscribed to last comes from now on, or the broker does not let the user read it."""

    def heard(self, client: paho.Client, message: paho.MQTTMessage) -> None:
        """A message came."""

    def acknowledged(self, connection: int, message: int) -> None:
        """The broker has a message that was sent."""

    def ended(self) -> None:
        """The connection was lost, and nothing more comes of it."""

    def note(self, text: str) -> None:
        """Why there is no connection."""

    # connections

    def connect(self, patience: float) -> None:
        """Connects for the first time. Refused if there is no broker in time, or it refuses."""
        end, why = time.monotonic() + patience, ""
        while time.monotonic() < end:
            try:
                self._open()
            except ssl.SSLError as fault:
                raise Failure(BROKER_REFUSES, f"no TLS with the broker at {self._access.place}: {fault.reason or fault}") from None
            except (OSError, ValueError) as fault:
                why = str(fault)
                time.sleep(FIRST_DELAY)
                continue
            self._wait_for_answer(end)
            if self.is_connected:
                self._keep_in_thread(FIRST_DELAY)
                return
            self._shut()
            if self.refusal is not None:
                raise Failure(BROKER_REFUSES, f"the broker at {self._access.place} refuses: {self.refusal}")
            why = "what answers there is no MQTT broker"
        raise Failure(NO_BROKER, f"no broker at {self._access.place}: {why}")

    def begin(self) -> None:
        """Connects as soon as there is a broker that lets it, and waits for nothing."""
        self._over.set()
        self._keep_in_thread(0.0)

    def _keep_in_thread(self, delay: float) -> None:
        self._keeper = threading.Thread(target=self._keep, args=(delay,), daemon=True)
        self._keeper.start()

    def _wait_for_answer(self, end: float) -> None:
        while not self.is_connected and not self._over.is_set() and time.monotonic() < end:
            time.sleep(0.01)

    def _open(self) -> None:
        """A client more, which connects."""
        self._over.clear()
        self.refusal = None
        self.connection += 1
        self._client = self._made()
        self._client.connect(self._access.host, self._access.port, KEEP_ALIVE)
        self._client.loop_start()

    def _made(self) -> paho.Client:
        named: dict[str, Any] = {"client_id": self._name, "reconnect_on_failure": False}
        if self._access.version == 5:
            named["protocol"] = paho.MQTTv5
        else:
            named.update(protocol=paho.MQTTv311, clean_session=True)
        if hasattr(paho, "CallbackAPIVersion"):
            named["callback_api_version"] = paho.CallbackAPIVersion.VERSION1
        client = Client(self._broken, self.connection, **named)
        if self._access.user is not None:
            client.username_pw_set(self._access.user, self._access.password)
        if self._access.is_tls:
            client.tls_set(ca_certs=self._access.ca, certfile=self._access.cert, keyfile=self._access.key)
        client.on_connect, client.on_disconnect, client.on_subscribe = self._connected, self._lost, self._subscribed
        client.on_message, client.on_publish = self._heard, self._acknowledged
        return client

    def _keep(self, delay: float) -> None:
        """Connects again whenever the connection is lost, each time after a longer delay."""
        while True:
            self._over.wait()
            was_connected, self.is_connected = self.is_connected, False
            self._shut()
            self.ended()
            delay = FIRST_DELAY if was_connected else delay
            if self._closing.wait(delay * random.uniform(0.5, 1)):
                return
            delay = max(FIRST_DELAY, min(2 * delay, self._last_delay))
            if fault := self._open_again():
                self.note(fault)
                self._over.set()

    def _open_again(self) -> str:
        """Connects, or answers why not."""
        try:
            self._open()
        except ssl.SSLError as why:
            self.refusal = f"no TLS: {why.reason or why}"
        except (OSError, ValueError) as why:
            return f"no broker at {self._access.place}: {why}"
        else:
            self._wait_for_answer(time.monotonic() + self._answer_wait)
        return "" if self.is_connected else f"the broker at {self._access.place} refuses: {self.refusal or 'it does not answer'}"

    def _shut(self) -> None:
        """Ends the client's thread, whatever the other side does."""
        client = self._client
        if client is None:
            return
        with contextlib.suppress(OSError):
            # of TLS that was not agreed on there is no end to tell
            client.disconnect()
        opened = client.socket()
        if opened is not None:
            try:
                opened.shutdown(socket.SHUT_RDWR)
            except OSError:
                pass
        client.loop_stop()

    def drop(self) -> None:
        """Ends the connection, so that another is made."""
        self._over.set()

    def close(self, patience: float = 10) -> None:
        """Ends the connection for good."""
        self._closing.set()
        self._over.set()
        if self._keeper is None:
            self._shut()
        else:
            self._keeper.join(timeout=patience)

    # messages

    def subscription(self, is_of_others: bool = False) -> Any:
        """How a topic is subscribed to; in version 5 without what was sent from here, if only that of others is wanted."""
        return SubscribeOptions(QOS, noLocal=is_of_others) if self._access.version == 5 else QOS

    # what a client tells, in its own thread

    def _connected(self, _client: paho.Client, connection: int, _flags: Any, code: Any, *_more: Any) -> None:
        if connection != self.connection:
            return
        if code != 0:
            self.refusal = paho.connack_string(code) if isinstance(code, int) else str(code)
            self._over.set()
            return
        self.is_connected = True
        self.begun()

    def _lost(self, _client: paho.Client, connection: int, _code: Any, *_more: Any) -> None:
        if connection == self.connection:
            self._over.set()

    def _broken(self, connection: int, why: str) -> None:
        if connection == self.connection:
            self.refusal = why
            self._over.set()

    def _subscribed(self, _client: paho.Client, _data: Any, _message: int, granted: Any, *_more: Any) -> None:
        self.granted(all(int(getattr(code, "value", code)) < 128 for code in granted))

    def _acknowledged(self, _client: paho.Client, connection: int, message: int, *_more: Any) -> None:
        self.acknowledged(connection, message)

    def _heard(self, client: paho.Client, _data: Any, message: paho.MQTTMessage) -> None:
        self.heard(client, message)
