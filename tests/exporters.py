"""What prometheus-node-exporter says of nodes whose traffic a test decides."""
import contextlib
import http.server
import threading
import time

PAGE = """\
node_time_seconds {time:.6f}
node_network_receive_bytes_total{{device="eth0"}} {bytes:.0f}
node_network_transmit_bytes_total{{device="eth0"}} 7
"""


class Page(http.server.BaseHTTPRequestHandler):
    """The page of the node that the server is for."""

    def do_GET(self):
        text = self.server.exporters.page(self.server.node)
        if text is None:
            return
        # who asked may have been killed
        with contextlib.suppress(OSError):
            self.send_response(200)
            self.end_headers()
            self.wfile.write(text.encode())

    def log_message(self, *_):
        pass


class Exporters:
    """An exporter for each node, on ports of the loopback address. `others` has the Mbit/s that no job is the cause of, by node, and
    `silent` the nodes whose exporters do not answer. `fetching` says what the jobs of a node fetch now."""

    def __init__(self, nodes, fetching):
        self.others, self.silent, self.fetching = dict.fromkeys(nodes, 0), set(), fetching
        self.bytes, self.last, self.lock, self.servers = dict.fromkeys(nodes, 0.0), dict.fromkeys(nodes, time.time()), threading.Lock(), {}
        for node in nodes:
            server = http.server.ThreadingHTTPServer(("127.0.0.1", 0), Page)
            server.daemon_threads, server.exporters, server.node = True, self, node
            self.servers[node] = server
            threading.Thread(target=server.serve_forever, kwargs={"poll_interval": 0.05}, daemon=True).start()

    def __enter__(self):
        return self

    def __exit__(self, *_):
        for server in self.servers.values():
            server.shutdown()
            server.server_close()

    def port(self, node):
        return self.servers[node].server_address[1]

    def page(self, node):
        """The page of a node now, or None if its exporter is silent."""
        with self.lock:
            now = time.time()
            self.bytes[node] += (now - self.last[node]) * (self.others[node] + self.fetching(node)) * 125000
            self.last[node] = now
            return None if node in self.silent else PAGE.format(time=now, bytes=self.bytes[node])
