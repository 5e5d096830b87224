"""A group of three nodes that answer HTTP at 127.0.0.1, and what is expected of them, for tests/http."""
import http.client
import json
import os
import pathlib
import socket
import subprocess
import time

import http_clients

ROOT = pathlib.Path(__file__).resolve().parent.parent
VSYNC = str(pathlib.Path(os.environ.get("VSYNC", ROOT / "vsync")).absolute())
HOST = "127.0.0.1"
# Whether each expectation held.
results = []


def expect(right, words):
    results.append(bool(right))
    if not right:
        print(words, flush=True)


def free_ports(count, kind):
    sockets = [socket.socket(socket.AF_INET, kind) for _ in range(count)]
    for one in sockets:
        one.bind((HOST, 0))
    ports = [one.getsockname()[1] for one in sockets]
    for one in sockets:
        one.close()
    return ports


class Group:
    """Three nodes, each a process, in a folder of their own; what they keep is said by a flag. A node is silent for as many rounds before the others go on without it."""

    def __init__(self, finds, folder, keeps, silent=50):
        self.finds = finds
        self.keeps = keeps
        self.folder = pathlib.Path(folder)
        self.folder.mkdir(exist_ok=True)
        self.http = free_ports(3, socket.SOCK_STREAM)
        self.datagrams = free_ports(3, socket.SOCK_DGRAM)
        text = f'group = "http"\nsilent = {silent}\n'
        for node, port in enumerate(self.datagrams, 1):
            text += f"\n[[node]]\nnumber = {node}\nport = {port}\n"
        (self.folder / "settings.toml").write_text(text)
        self.processes = {}

    def start(self, node, contact=None, more=()):
        words = [VSYNC, "member", "settings.toml", str(node), "1", "0", "--forever", "--incarnation-file", f"incarnation{node}", *self.keeps, *more, "--http", str(self.http[node - 1])]
        words += ["--find"] if self.finds else ["--contact", contact] if contact else []
        said = open(self.folder / f"said{node}", "ab")
        self.processes[node] = subprocess.Popen(words, cwd=self.folder, stdin=subprocess.DEVNULL, stdout=said, stderr=said)

    def form(self):
        self.start(1)
        time.sleep(0.3)
        self.start(2, "1.1")
        self.start(3, "1.1")
        expect(self.await_view([1, 2, 3]), "the group forms")

    def stop(self):
        for process in self.processes.values():
            process.kill()
            process.wait()

    def connect(self, node):
        return http.client.HTTPConnection(HOST, self.http[node - 1], timeout=10)

    def ask(self, node, method, path, body=None, headers=None):
        answer = http_clients.exchange(HOST, self.http[node - 1], method, path, body, headers)
        return answer.status, answer.body, answer

    def begin(self, node, method, path, body=b""):
        """Sends a request, and returns its connection without waiting for the answer."""
        return http_clients.begin(HOST, self.http[node - 1], method, path, body)

    def status(self, node):
        return json.loads(self.ask(node, "GET", "/status")[1])

    def await_view(self, nodes, seconds=15):
        """Waits until these nodes are in one view of so many members; answers whether they are."""
        end = time.monotonic() + seconds
        while time.monotonic() < end:
            try:
                views = [self.status(node) for node in nodes]
                if all(len(view["members"]) == len(nodes) and view["view"] == views[0]["view"] for view in views):
                    return True
            except OSError:
                pass
            time.sleep(0.05)
        return False


def version_of(etag):
    """A version as numbers that have its order."""
    return token_of(etag.strip('"').encode())


def token_of(text):
    """A token as numbers that have its order: its view's counter, creator and incarnation, and its count."""
    view, count = text.decode().strip().split("/")
    counter, creator = view.split("@")
    return (int(counter), *(int(part) for part in creator.split(".")), int(count))
