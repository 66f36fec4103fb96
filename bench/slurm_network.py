"""Four nodes in network namespaces of their own, each behind a link of 100 Mbit/s both ways, and a source of data, for bench/slurm.

It runs in namespaces that `unshare` made, so it changes nothing of the machine's network, and all goes with its process.

    bench/slurm_network.py serve ADDRESS PORT BYTES     sends so many bytes to each that connects
    bench/slurm_network.py load ADDRESS PORT MBITS      sends datagrams at that rate
"""
import contextlib
import os
import pathlib
import socket
import socketserver
import subprocess
import sys
import tempfile
import time

ROOT = pathlib.Path(__file__).resolve().parent.parent
sys.path[:0] = [str(ROOT / "tests")]
import slurm_lab
from slurm_lab import NODES, Lab

SOURCE, HOST = "10.77.0.100", "10.77.0.1"
ADDRESSES = {node: f"10.77.0.{11 + index}" for index, node in enumerate(NODES)}
LINK, PORT, DATAGRAM, BATCH = 100, 8000, 1400, 0.002
UDP_SEGMENT = 103
# commands beside those of the lab, and the Debian packages that have them
NEEDS = {"ip": "iproute2", "tc": "iproute2", "nsenter": "util-linux", "unshare": "util-linux", "prometheus-node-exporter": "prometheus-node-exporter"}


def missing():
    """The Debian packages that are not installed, of those that such a lab needs."""
    return slurm_lab.missing() + sorted({package for name, package in NEEDS.items() if slurm_lab.found(name) is None})


def unshared():
    """The words that run a command in network and mount namespaces of its own, or None if none may be made."""
    for more in ([], ["--user", "--map-current-user", "--keep-caps"]):
        words = ["unshare", "--net", "--mount", *more]
        if subprocess.run([*words, "true"], stdin=subprocess.DEVNULL, capture_output=True).returncode == 0:
            return words
    return None


def command(*words):
    subprocess.run(words, check=True, stdin=subprocess.DEVNULL)


def make_links():
    """A bridge here, and a namespace with a link to it for each node and for the source."""
    command("mount", "-t", "tmpfs", "none", "/run")
    command("ip", "link", "set", "lo", "up")
    command("ip", "link", "add", "br0", "type", "bridge")
    command("ip", "addr", "add", f"{HOST}/24", "dev", "br0")
    command("ip", "link", "set", "br0", "up")
    for name, address in {**ADDRESSES, "source": SOURCE}.items():
        command("ip", "netns", "add", name)
        command("ip", "link", "add", f"to-{name}", "type", "veth", "peer", "name", "eth0", "netns", name)
        command("ip", "link", "set", f"to-{name}", "master", "br0", "up")
        for words in ("link set lo up", f"addr add {address}/24 dev eth0", "link set eth0 up"):
            command("ip", "-n", name, *words.split())
        if name != "source":
            shape = f"root tbf rate {LINK}mbit burst 128kb latency 100ms".split()
            command("tc", "qdisc", "add", "dev", f"to-{name}", *shape)
            command("tc", "-n", name, "qdisc", "add", "dev", "eth0", *shape)


def inside(name, *words):
    # `ip netns exec` would hide the cgroups, and slurmd ends without them
    return ["nsenter", f"--net=/run/netns/{name}", *words]


class NetworkLab(Lab):
    """A lab whose nodes have links of their own. `placing` has the lines of slurm.conf that say how jobs are placed."""

    host = HOST

    def __init__(self, placing, is_consumed):
        super().__init__()
        self.placing, self.kind = placing, "" if is_consumed else "no_consume:"

    def inside(self, node):
        return inside(node)

    def address(self, node):
        return ADDRESSES[node]

    def gres(self, node):
        return f"bandwidth:{self.kind}{LINK}"

    def lines(self):
        return self.placing or super().lines()

    def __enter__(self):
        super().__enter__()
        for node in NODES:
            words = "--collector.disable-defaults --collector.netdev --collector.time".split()
            self.supervisor.start(inside(node, slurm_lab.found("prometheus-node-exporter"), *words, f"--web.listen-address={ADDRESSES[node]}:9100"),
                                  self.folder / f"log/exporter-{node}")
        return self

    def serve(self, size):
        """Has the source send so many bytes to each that connects."""
        self.supervisor.start(inside("source", sys.executable, "-B", __file__, "serve", SOURCE, str(PORT), str(size)), self.folder / "log/source")

    def load(self, node, rate):
        """Loads a node's link with so many Mbit/s."""
        words = inside("source", sys.executable, "-B", __file__, "load", ADDRESSES[node], "5301", str(rate))
        self.supervisor.start(words, self.folder / f"log/load-{node}")

    def carried(self, node, seconds):
        """The Mbit/s that a node's link carried towards it, over so many seconds."""
        def count():
            words = ["ip", "-n", node, "-s", "link", "show", "dev", "eth0"]
            lines = subprocess.run(words, capture_output=True, text=True, check=True).stdout.splitlines()
            return int(lines[[line.split()[0] for line in lines].index("RX:") + 1].split()[0])
        before, began = count(), time.monotonic()
        time.sleep(seconds)
        return (count() - before) * 8e-6 / (time.monotonic() - began)


# processes of the source

def serve(address, port, size):
    """Sends so many bytes to each that connects."""
    with tempfile.TemporaryFile() as data:
        data.truncate(size)

        class Sender(socketserver.BaseRequestHandler):
            def handle(self):
                with contextlib.suppress(OSError):
                    self.request.sendfile(os.fdopen(os.open(f"/proc/self/fd/{data.fileno()}", os.O_RDONLY), "rb"))

        socketserver.ThreadingTCPServer.allow_reuse_address = True
        with socketserver.ThreadingTCPServer((address, port), Sender) as server:
            server.serve_forever()


def load(address, port, rate):
    """Sends datagrams at so many Mbit/s, by bytes on the link, in batches that the kernel takes apart."""
    # what Ethernet, IP and UDP add to a datagram
    each = DATAGRAM + 42
    with socket.socket(socket.AF_INET, socket.SOCK_DGRAM) as some:
        some.setsockopt(socket.IPPROTO_UDP, UDP_SEGMENT, DATAGRAM)
        began, sent, batch = time.monotonic(), 0, bytes(DATAGRAM * 14)
        while True:
            due = int((time.monotonic() - began) * rate * 125000 / each)
            while sent < due:
                some.sendto(batch, (address, port))
                sent += 14
            time.sleep(BATCH)


if __name__ == "__main__":
    {"serve": serve, "load": load}[sys.argv[1]](sys.argv[2], *map(int, sys.argv[3:]))
