"""HTTP clients for tests/http and tests/accidents: single requests, requests whose client goes away, and clients that run in threads."""
import http.client
import json
import socket
import threading
import time


class Answer:
    """The answer to one request: `status` is None if none came in time, or if the connection broke."""

    def __init__(self, status, body, headers, took):
        self.status, self.body, self.headers, self.took = status, body, headers, took

    def __repr__(self):
        return f"{self.status} {self.body[:80]!r} after {self.took:.1f} s"

    def json(self):
        """Returns the body as JSON; None if it is not JSON."""
        try:
            return json.loads(self.body)
        except ValueError:
            return None

    def getheader(self, name):
        return self.headers.get(name)


def exchange(host, port, method, path, body=None, headers=None, timeout=10):
    """Sends one request on a connection of its own, and waits for its answer.

    # Errors

    Raises OSError or HTTPException if there is no connection, or no answer in time."""
    begun = time.monotonic()
    connection = http.client.HTTPConnection(host, port, timeout=timeout)
    try:
        connection.request(method, path, body, headers or {})
        answer = connection.getresponse()
        return Answer(answer.status, answer.read(), answer.headers, time.monotonic() - begun)
    finally:
        connection.close()


def ask(host, port, method, path, body=None, headers=None, timeout=10):
    """Does the same, and returns an answer whose status is None in place of an error."""
    begun = time.monotonic()
    try:
        return exchange(host, port, method, path, body, headers, timeout)
    except (OSError, http.client.HTTPException) as fault:
        return Answer(None, repr(fault).encode(), {}, time.monotonic() - begun)


def begin(host, port, method, path, body=b"", timeout=10):
    """Sends one request, and returns its connection without waiting for the answer."""
    connection = socket.create_connection((host, port), timeout=timeout)
    connection.sendall(f"{method} {path} HTTP/1.1\r\nHost: a\r\nContent-Length: {len(body)}\r\n\r\n".encode() + body)
    return connection


def answer_on(connection):
    """Waits for the answer to the request that `begin` sent, and closes the connection."""
    begun = time.monotonic()
    try:
        answer = http.client.HTTPResponse(connection)
        answer.begin()
        return Answer(answer.status, answer.read(), answer.headers, time.monotonic() - begun)
    except (OSError, http.client.HTTPException) as fault:
        return Answer(None, repr(fault).encode(), {}, time.monotonic() - begun)
    finally:
        connection.close()


class Clients:
    """Clients that run in threads, each a function, until `over` is set or they return."""

    def __init__(self):
        self.threads = []
        self.over = threading.Event()

    def start(self, does, *words):
        thread = threading.Thread(target=does, args=words, daemon=True)
        self.threads.append(thread)
        thread.start()

    def running(self):
        """Returns how many clients have not returned."""
        return sum(thread.is_alive() for thread in self.threads)

    def join(self):
        for thread in self.threads:
            thread.join()
