"""MQTT 3.1.1 as far as tests/bridged.py needs it: a client that publishes and listens, and a proxy between bridges
and broker that drops, repeats and swaps messages, or is cut off."""
import random
import socket
import struct
import threading
import time

CONNECT, CONNACK, PUBLISH, PUBACK, SUBSCRIBE, SUBACK, DISCONNECT = 1, 2, 3, 4, 8, 9, 14
HELD = 0.3


def text(some):
    return struct.pack(">H", len(some)) + some


def framed(kind, flags, body):
    """A packet of MQTT: its kind and flags, how long it is, and the rest."""
    length, left = b"", len(body)
    while True:
        left, low = divmod(left, 128)
        length += bytes([low | (128 if left else 0)])
        if not left:
            return bytes([kind << 4 | flags]) + length + body


def next_packet(source):
    """The kind, flags and body of the next packet of MQTT from a file, or None at its end."""
    first = source.read(1)
    length = shift = 0
    while first:
        byte = source.read(1)
        if not byte:
            return None
        length |= (byte[0] & 127) << shift
        shift += 7
        if byte[0] < 128:
            body = source.read(length)
            return (first[0] >> 4, first[0] & 15, body) if len(body) == length else None
    return None


def topic_of(body):
    return body[2:2 + struct.unpack_from(">H", body)[0]].decode()


class Client:
    """A client by which anybody may publish anything, and that hears what comes on topics."""

    def __init__(self, port, name=b"somebody"):
        self.socket = socket.create_connection(("127.0.0.1", port), timeout=30)
        self.source = self.socket.makefile("rb")
        self.socket.sendall(framed(CONNECT, 0, text(b"MQTT") + b"\x04\x02\x00\x3c" + text(name)))
        assert next_packet(self.source)[:1] == (CONNACK,)
        self.number = 0

    def __enter__(self):
        return self

    def __exit__(self, *_):
        self.socket.close()

    def publish(self, topic, payload, retain=False):
        """Publishes, and waits until the broker has it."""
        self.number += 1
        self.socket.sendall(framed(PUBLISH, 2 | retain, text(topic.encode()) + struct.pack(">H", self.number) + payload))
        while next_packet(self.source)[0] != PUBACK:
            pass

    def kept(self, topic, patience=2.0):
        """The messages that the broker keeps on the topics, by their topics."""
        self.socket.sendall(framed(SUBSCRIBE, 2, b"\x00\x01" + text(topic.encode()) + b"\x00"))
        self.socket.settimeout(patience)
        found = {}
        try:
            while packet := next_packet(self.source):
                kind, flags, body = packet
                if kind == PUBLISH and flags & 1:
                    name = topic_of(body)
                    found[name] = body[2 + len(name):]
        except TimeoutError:
            pass
        return found


class End:
    """One end of a connection, to which several threads write whole packets."""

    def __init__(self, end):
        self.socket, self.lock, self.is_deaf = end, threading.Lock(), False

    def send(self, frames):
        with self.lock:
            self.socket.sendall(frames)

    def close(self):
        try:
            self.socket.shutdown(socket.SHUT_RDWR)
        except OSError:
            pass


class Way:
    """One direction of a connection: packets go on from a source to a sink, and messages of the cluster meet with
    faults."""

    def __init__(self, proxy, near, far, is_up):
        self.proxy, self.near, self.far, self.is_up, self.held = proxy, near, far, is_up, None
        self.source = near.socket.makefile("rb")

    def run(self):
        try:
            while packet := next_packet(self.source):
                self.pass_on(*packet)
        except OSError:
            pass
        for end in self.near, self.far:
            end.close()

    def pass_on(self, kind, flags, body):
        if self.near.is_deaf:
            return
        fault = None
        if kind == PUBLISH:
            fault = self.proxy.fault()
            if self.is_up and self.proxy.keeps_nothing:
                flags &= ~1
            if not self.is_up:
                self.proxy.count(topic_of(body), len(body))
        frame = framed(kind, flags, body)
        if fault == "dropped":
            # its sender believes that it arrived
            if flags & 6:
                at = 2 + len(topic_of(body).encode())
                self.near.send(framed(PUBACK, 0, body[at:at + 2]))
            return
        if fault == "held" and self.held is None:
            self.held = frame
            threading.Timer(HELD, self.let_go).start()
            return
        self.far.send(frame * (2 if fault == "repeated" else 1))
        self.let_go()

    def let_go(self):
        """Sends the message that was held back, behind one that came after it."""
        held, self.held = self.held, None
        if held is not None:
            try:
                self.far.send(held)
            except OSError:
                pass


class Proxy:
    """A proxy on a port of its own. Of a hundred messages so many meet with each fault, drawn by a seed. If it keeps nothing, the broker
    relays what is to be kept, and keeps none of it. It counts the bytes of messages from the broker by their kind."""

    def __init__(self, port, seed=1, dropped=0, repeated=0, held=0):
        self.port_behind, self.chance = port, random.Random("proxy %s" % seed)
        self.faults = {"dropped": dropped, "repeated": repeated, "held": held}
        self.made = dict.fromkeys(self.faults, 0)
        self.keeps_nothing, self.received = False, {}
        self.door = socket.create_server(("127.0.0.1", 0))
        self.port, self.is_cut, self.ends, self.lock = self.door.getsockname()[1], False, [], threading.Lock()
        threading.Thread(target=self.run, daemon=True).start()

    def __enter__(self):
        return self

    def __exit__(self, *_):
        self.cut()
        End(self.door).close()
        self.door.close()

    def fault(self):
        with self.lock:
            drawn = self.chance.uniform(0, 100)
            for fault, share in self.faults.items():
                if drawn < share:
                    self.made[fault] += 1
                    return fault
                drawn -= share
        return None

    def count(self, topic, size):
        kind = topic.split("/")[-2]
        with self.lock:
            self.received[kind] = self.received.get(kind, 0) + size

    def heal(self):
        self.faults = dict.fromkeys(self.faults, 0)

    def cut(self):
        """Ends all connections, and takes no others, until `mend`."""
        self.is_cut = True
        for end in self.ends:
            end.close()
        self.ends = []

    def mend(self):
        self.is_cut = False

    def deafen(self):
        """Has nothing more come of the connections that there are, which stay; others are as before."""
        for end in self.ends:
            end.is_deaf = True

    def run(self):
        while True:
            try:
                near, _ = self.door.accept()
                if self.is_cut:
                    near.close()
                    continue
                far = socket.create_connection(("127.0.0.1", self.port_behind), timeout=30)
                far.settimeout(None)
            except OSError:
                if self.door.fileno() < 0:
                    return
                near.close()
                time.sleep(0.05)
                continue
            ends = End(near), End(far)
            self.ends += ends
            for way in Way(self, *ends, True), Way(self, *ends[::-1], False):
                threading.Thread(target=way.run, daemon=True).start()
