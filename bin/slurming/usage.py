"""How busy the nodes' links are, as their network devices count it."""
import collections
import concurrent.futures
import http.client
import math
import pathlib
import re
import time
import urllib.request
from collections.abc import Callable, Sequence
from typing import NamedTuple, Protocol

from slurming.nodes import Node

DEVICES = pathlib.Path("/sys/class/net")
MEGABITS = 8e-6
# readings that are so close together say nothing of a rate
CLOSEST = 0.2
LONGEST_PAGE = 1 << 24
# exporters that are asked at the same time
AT_ONCE = 32


class Reading(NamedTuple):
    """Bytes that a device received and sent, at a time by the clock of who counted them."""

    clock: float
    received: float
    sent: float


class Source(Protocol):
    """Reads the devices of nodes: for each node a reading, or the reason why there is none."""

    def read(self, nodes: Sequence[Node]) -> dict[str, Reading | str]: ...


class Exporters:
    """prometheus-node-exporter on each node. One that does not answer holds up no other, and is not asked again before it answered
    or gave up."""

    def __init__(self, place: Callable[[Node], str], device: Callable[[Node], str], patience: float) -> None:
        self._place, self._device, self._patience = place, device, patience
        self._pool = concurrent.futures.ThreadPoolExecutor(AT_ONCE)
        self._asked: dict[str, concurrent.futures.Future[Reading | str]] = {}
        # no proxy stands between an adapter and its nodes
        self._opener = urllib.request.build_opener(urllib.request.ProxyHandler({}))

    def read(self, nodes: Sequence[Node]) -> dict[str, Reading | str]:
        for node in nodes:
            if node.name not in self._asked:
                self._asked[node.name] = self._pool.submit(self._ask, self._place(node), self._device(node))
        concurrent.futures.wait(list(self._asked.values()), self._patience * 1.5)
        found: dict[str, Reading | str] = {}
        for node in nodes:
            asked = self._asked[node.name]
            if asked.done():
                del self._asked[node.name]
                found[node.name] = asked.result()
            else:
                found[node.name] = f"the exporter at {self._place(node)} takes over {self._patience:g} s"
        return found

    def _ask(self, place: str, device: str) -> Reading | str:
        try:
            with self._opener.open(f"http://{place}/metrics", timeout=self._patience) as page:
                return read_page(read_all(page, time.monotonic() + self._patience), device)
        except (OSError, ValueError) as why:
            return f"the exporter at {place} does not answer ({getattr(why, 'reason', why)})"
        except Exception as why:  # what else an answer that is no HTTP leads to
            return f"the exporter at {place} answers no page ({why!r})"


def read_all(page: http.client.HTTPResponse, end: float) -> str:
    """A page that comes until then."""
    pieces, size = [], 0
    while piece := page.read1(1 << 16):
        pieces.append(piece)
        size += len(piece)
        if time.monotonic() > end or size > LONGEST_PAGE:
            raise ValueError("its page does not end")
    return b"".join(pieces).decode(errors="replace")


def read_page(text: str, device: str) -> Reading | str:
    """What an exporter's page says of a device."""
    wanted = r'^(node_time_seconds|node_network_(?:receive|transmit)_bytes_total\{device="%s"\}) (\S+)' % re.escape(device)
    found = {name.partition("{")[0]: value for name, value in re.findall(wanted, text, re.MULTILINE)}
    try:
        return Reading(*(float(found[name]) for name in
                         ("node_time_seconds", "node_network_receive_bytes_total", "node_network_transmit_bytes_total")))
    except KeyError as lacks:
        return f"the exporter says nothing of {'the time' if 'time' in str(lacks) else 'the device ' + device}"
    except ValueError:
        return f"the exporter's numbers of the device {device} cannot be read"


class Devices:
    """The devices of this machine, by its own clock."""

    def __init__(self, device: Callable[[Node], str], folder: pathlib.Path = DEVICES) -> None:
        self._device, self._folder = device, folder

    def read(self, nodes: Sequence[Node]) -> dict[str, Reading | str]:
        return {node.name: self._one(self._device(node)) for node in nodes}

    def _one(self, device: str) -> Reading | str:
        folder = self._folder / device / "statistics"
        try:
            return Reading(time.monotonic(), *(float((folder / name).read_text()) for name in ("rx_bytes", "tx_bytes")))
        except (OSError, ValueError) as why:
            return f"the device {device} cannot be read ({why})"


class Unmeasured:
    """No device is read: only what jobs ask for counts."""

    def read(self, nodes: Sequence[Node]) -> dict[str, Reading | str]:
        return {node.name: Reading(0, 0, 0) for node in nodes}


class Meter:
    """The use of each node's link in Mbit/s, of the busier direction: the greater of the last two rates, since one that is too low would
    place a task on a busy link. So a node is measured from the third reading on. A reading after a pause begins anew."""

    def __init__(self, stale: float, is_measuring: bool = True) -> None:
        self._stale, self._is_measuring = stale, is_measuring
        self._last: dict[str, tuple[Reading, float]] = {}
        self._rates: dict[str, collections.deque[float]] = {}
        self._began: dict[str, float] = {}

    def take(self, name: str, reading: Reading, now: float) -> None:
        """Takes a reading in that came now, by this process's own clock."""
        last, then = self._last.get(name, (reading, now))
        if name in self._last and 0 <= reading.clock - last.clock < CLOSEST and now - then <= self._stale:
            return
        self._last[name] = reading, now
        seconds, received, sent = reading.clock - last.clock, reading.received - last.received, reading.sent - last.sent
        rates = self._rates.setdefault(name, collections.deque(maxlen=2))
        if now - then > self._stale or seconds < 0 or received < 0 or sent < 0:
            rates.clear()  # the node was away, or began to count anew
        elif seconds:
            rates.append(max(received, sent) * MEGABITS / seconds)
            self._began[name] = then

    def began(self, name: str, now: float) -> float:
        """Since when a link is measured by the last rate, by this process's own clock: what was there then is in the use."""
        return self._began.get(name, float("-inf")) if self._is_measuring else now

    def use(self, name: str, now: float) -> int | None:
        """The use of a link, rounded up, or nothing if it is not measured."""
        if not self._is_measuring:
            return 0
        rates = self._rates.get(name, ())
        if len(rates) < 2 or now - self._last[name][1] > self._stale:
            return None
        return math.ceil(max(rates) - 1e-6)
