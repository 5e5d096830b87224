"""More requests of tests/http: parameters, JSON, places, clients that go away, large maps, and how a node leaves."""
import base64
import contextlib
import hashlib
import http.client
import json
import selectors
import signal
import socket
import subprocess
import time
import urllib.parse

import accidents_net
import http_clients
from http_group import HOST, Group, expect

# For how long places are polled, in seconds, and how many connections may be open meanwhile: four clients that poll, one that asks, and some that have just gone.
POLLING, FEW = 8, 10
# Places for all requests, and more for /status, /metrics and / alone.
PLACES, KEPT_PLACES = 64, 8
OF_THE_NODE = ("/status", "/metrics", "/")
# A full map: keys that each node puts, with values of this many bytes; and how many clients read it at once.
KEYS, VALUE, READERS = 760, 400, 60
# How many changes are followed, and how many an answer tells at most (`http_desk::TOLD_CHANGES`).
CHANGED = 400
TOLD = 64
TRIES = 3


def until(is_so, seconds, step=0.02):
    """Waits until something is so; returns whether it is."""
    end = time.monotonic() + seconds
    while not is_so():
        if time.monotonic() > end:
            return False
        time.sleep(step)
    return True


def other_than_coordinator(group):
    first = int(group.status(1)["coordinator"].split(".")[0])
    return first, next(node for node in (1, 2, 3) if node != first)


# Parameters of a request.

UNKNOWN = [
    ("PUT", "/map/query?stabel", "stabel"), ("PUT", "/map/query?Stable", "Stable"), ("PUT", "/map/query?stable&stabel", "stabel"), ("PUT", "/map/query?after=1", "after"),
    ("PUT", "/map/query?wait=1", "wait"), ("DELETE", "/map/query?x", "x"), ("GET", "/map/query?x=1", "x"), ("GET", "/map/query?stable", "stable"),
    ("GET", "/map/query?timeout=1", "timeout"), ("GET", "/map/query?after=3@1.1/7", "after"), ("HEAD", "/map/query?x=1", None), ("GET", "/map?before=1", "before"),
    ("GET", "/map?stable", "stable"), ("GET", "/status?x", "x"), ("GET", "/metrics?x=1", "x"), ("GET", "/events?x=1", "x"),
]
BAD_VALUES = [("PUT", "/map/query?stable=false", "stable"), ("PUT", "/map/query?stable=1", "stable"), ("DELETE", "/map/query?stable=1", "stable")]
TWICE = [
    ("PUT", "/map/query?stable&stable", "stable"), ("PUT", "/map/query?timeout=1&timeout=2", "timeout"), ("DELETE", "/map/query?timeout=1&stable&timeout=1", "timeout"),
    ("GET", "/map?after=a&after=a", "after"),
]
BAD_TIMEOUTS = ["timeout=0", "timeout=31", "timeout=x", "timeout=", "timeout", "timeout=-1", "timeout=1.5", "timeout=99999999999999999999"]
OF_LOCKS = [
    ("POST", "/locks/query?x=1", "x"), ("POST", "/locks/query?stable", "stable"), ("DELETE", "/locks/query?wait=1", "wait"), ("GET", "/locks/query?wait=1", "wait"),
    ("GET", "/locks?x", "x"), ("POST", "/locks/query?wait=1&wait=1", "wait"), ("POST", "/locks/query?wait", "wait"), ("POST", "/locks/query?wait=", "wait"),
    *((method, f"/locks/query?{bad}", "timeout") for method in ("POST", "DELETE") for bad in BAD_TIMEOUTS),
]


def refused(group, test, asked):
    """Each of these requests is answered 400, with the parameter's name in the body; the body of HEAD is empty."""
    for method, path, name in asked:
        status, body, _ = group.ask(1, method, path, b"v" if method == "PUT" else None)
        expect(status == 400 and (name is None or name.encode() in body), f"{test}: {method} {path}: {status} {body[:100]!r}")


def queries(group):
    """An unknown parameter, one given twice, and one with a value that it does not take: each is refused, and the write is not carried out."""
    asked = [*UNKNOWN, *BAD_VALUES, *TWICE, *((method, f"/map/query?{bad}", "timeout") for method in ("PUT", "DELETE") for bad in BAD_TIMEOUTS)]
    refused(group, "queries", asked)
    expect(group.ask(1, "GET", "/map/query")[0] == 404, "queries: a write that is refused is carried out")
    for method, path in (("PUT", "/map/query?timeout=1"), ("PUT", "/map/query?timeout=30&stable"), ("PUT", "/map/query?stable&timeout=5"), ("DELETE", "/map/query?stable&timeout=2")):
        status, body, _ = group.ask(1, method, path, b"v" if method == "PUT" else None)
        expect(status == 200, f"queries: {method} {path}: {status} {body[:100]!r}")
    page = group.ask(1, "GET", "/")[1]
    # The page asks for its picture with the time behind it, so that no browser shows an old one.
    if b"'/picture?'" in page:
        expect(group.ask(1, "GET", f"/picture?{int(time.time() * 1000)}")[0] == 200, "queries: the page's own request for its picture")


def lock_queries(group):
    refused(group, "queries", OF_LOCKS)
    for method, path in (("POST", "/locks/query?timeout=5"), ("POST", "/locks/query?timeout=5&wait=1"), ("DELETE", "/locks/query?timeout=1")):
        status, body, _ = group.ask(1, method, path)
        expect(status == 200, f"queries: {method} {path}: {status} {body[:100]!r}")


# JSON.

VALUES = {
    "text": "grün € 😀 \u2028".encode(), "mark": "\ufeffx".encode(), "control": b"\x00\x01\t\r\x1f\x7f", "quoted": b'say "a\\b/c"', "empty": b"", "looks": b'{"base64": "AA=="}',
    "byte": b"\xff", "cut": b"ab\xe2\x82", "overlong": b"\xc0\xaf", "surrogate": b"\xed\xa0\x80", "beyond": b"\xf4\x90\x80\x80", "mixed": b"\x00 \xff\xfe",
}


def shown(value):
    """Returns what JSON shows of the bytes of a value."""
    try:
        return value.decode()
    except UnicodeDecodeError:
        return {"base64": base64.b64encode(value).decode()}


def json_values(group):
    """A value in UTF-8 is text in JSON, other bytes are in base64; so are keys. Changes are shown alike. GET of a key returns its bytes, with the same ETag."""
    tag = group.ask(1, "GET", "/map")[2].getheader("etag")
    wanted, given = {}, {}
    for name, value in VALUES.items():
        key = f"json.{name}"
        status, _, answer = group.ask(1, "PUT", f"/map/{key}", value)
        expect(status == 200, f"json: PUT of {value}: {status}")
        wanted[key], given[key] = shown(value), (value, answer.getheader("etag"))
    for key, name in (("json.grün".encode(), "json.grün"), (b'json."\\', 'json."\\'), (b"json.\xff", "base64:anNvbi7/"), (b"\xfe\xff\xfb", "base64:/v/7")):
        path = "/map/" + urllib.parse.quote(key, safe="")
        expect(group.ask(1, "PUT", path, b"of a key")[0] == 200, f"json: PUT of the key {key}")
        expect(group.ask(1, "GET", path)[1] == b"of a key", f"json: GET of the key {key}")
        wanted[name] = "of a key"
    body = group.ask(1, "GET", "/map")[1]
    for name, text in (("the map", body), ("what changed", group.ask(1, "GET", f"/map?after={urllib.parse.quote(tag)}")[1])):
        try:
            entries = json.loads(text.decode())
        except ValueError as fault:
            expect(False, f"json: {name} is not JSON: {fault}")
            continue
        for key, value in wanted.items():
            expect(entries.get(key) == value, f"json: {name}: {key} is {entries.get(key)!r}, not {value!r}")
    expect(VALUES["text"] in body and "json.grün".encode() in body, "json: text that is not ASCII is not shown as it is")
    expect(not any(byte < 0x20 for byte in body.rstrip(b"\n")), "json: a control character is shown as it is")
    for key, (value, etag) in given.items():
        status, text, answer = group.ask(1, "GET", f"/map/{key}")
        expect((status, text, answer.getheader("etag")) == (200, value, etag), f"json: GET of {key}: {status} {text!r} {answer.getheader('etag')}")
    tag = group.ask(1, "GET", "/map")[2].getheader("etag")
    expect(group.ask(1, "DELETE", "/map/%FE%FF%FB")[0] == 200, "json: DELETE of a key that is not UTF-8")
    changed = group.ask(1, "GET", f"/map?after={urllib.parse.quote(tag)}")[1]
    expect(json.loads(changed) == {"base64:/v/7": None}, f"json: after a removal: {changed!r}")


def lock_names(group):
    """Names of locks are shown in JSON as keys are."""
    for name in (b"\xff", "grün".encode()):
        expect(group.ask(1, "POST", "/locks/" + urllib.parse.quote(name))[0] == 200, f"json: the lock {name}")
    body = group.ask(1, "GET", "/locks")[1]
    expect(json.loads(body).keys() == {"base64:/w==", "grün"}, f"json: the locks {body!r}")
    for name in (b"\xff", "grün".encode()):
        expect(group.ask(1, "DELETE", "/locks/" + urllib.parse.quote(name))[0] == 200, f"json: the lock {name} is released")


# How long writes take, and who is served.

def stable_in_a_row(group):
    """In a calm group `?stable` takes 10 rounds of 20 ms at most: 20 in a row take less than 4 s. Tried again if the machine was slow."""
    for _ in range(TRIES):
        begun = time.monotonic()
        statuses = {group.ask(1 + number % 3, "PUT", f"/map/row{number}?stable", b"x")[0] for number in range(20)}
        took = time.monotonic() - begun
        if took < 4 or statuses != {200}:
            break
    expect(statuses == {200} and took < 4, f"stable: 20 in a row are answered {statuses} after {took:.1f} s")


def half_closed(group):
    """A client that closes its own half of the connection once its write was sent gets its answer."""
    for path in ("/map/half", "/map/half?stable"):
        before = group.status(2)["delivered_in_view"]
        connection = group.begin(2, "PUT", path, b"closed")
        expect(until(lambda: group.status(2)["delivered_in_view"] > before, 5), f"half closed: PUT {path} is delivered")
        with contextlib.suppress(OSError):
            connection.shutdown(socket.SHUT_WR)
        answer = http_clients.answer_on(connection)
        expect(answer.status == 200, f"half closed: PUT {path} is answered {answer}")


def changes_path(group, node):
    return "/map?after=" + urllib.parse.quote(group.ask(node, "GET", "/map")[2].getheader("etag"))


def gone_pollers(group):
    """Four clients poll for changes with a time limit of a second, again and again: those that have gone keep no place."""
    path = changes_path(group, 2)
    clients = http_clients.Clients()

    def poll():
        while not clients.over.is_set():
            http_clients.ask(HOST, group.http[1], "GET", path, timeout=1)

    for _ in range(4):
        clients.start(poll)
    most, begun = 0, time.monotonic()
    while time.monotonic() - begun < POLLING:
        most = max(most, group.status(2)["connections"])
        time.sleep(0.2)
    clients.over.set()
    clients.join()
    expect(most <= FEW, f"gone pollers: up to {most} connections")
    expect(until(lambda: group.status(2)["connections"] <= 2, 3, 0.1), f"gone pollers: {group.status(2)['connections']} connections when all have gone")


def places(group):
    """With 64 polls open /map is refused, and /status, /metrics and / are answered: 8 places are theirs alone."""
    path = changes_path(group, 3)
    expect(until(lambda: group.status(3)["connections"] == 1, 5, 0.1), "places: none is taken before")
    polls = [group.begin(3, "GET", path) for _ in range(PLACES)]
    time.sleep(0.5)
    kept = []
    try:
        refused_now = (("GET", "/map"), ("GET", "/map/a"), ("GET", "/events"), ("PUT", "/map/places"))
        for wanted, method, asked in (*((200, "GET", path) for path in OF_THE_NODE), *((503, *words) for words in refused_now), (200, "GET", "/status")):
            answer = http_clients.ask(HOST, group.http[2], method, asked, b"x" if method == "PUT" else None)
            expect(answer.status == wanted, f"places: with {PLACES} polls {method} {asked} is answered {answer}")
        time.sleep(0.3)
        for number in range(KEPT_PLACES):
            one = group.connect(3)
            kept.append(one)
            status = None
            with contextlib.suppress(OSError, http.client.HTTPException):
                one.request("GET", "/status")
                answer = one.getresponse()
                status = answer.status
                answer.read()
            expect(status == 200, f"places: number {number + 1} of {KEPT_PLACES} more is answered {status}")
        answer = http_clients.ask(HOST, group.http[2], "GET", "/status")
        expect(answer.status in (503, None), f"places: one more than all places is answered {answer}")
    finally:
        for one in [*polls, *kept]:
            one.close()
    expect(until(lambda: http_clients.ask(HOST, group.http[2], "GET", "/map").status == 200, 3, 0.1), "places: /map is answered when all have gone")


# Locks of clients that have gone.

def is_free(group, name, node=3):
    return group.ask(node, "GET", f"/locks/{name}")[0] == 404


def lock_waits(group):
    """A request that was answered 409 after `?wait` keeps its place, though its client has gone then, and whatever `?timeout` says."""
    expect(group.ask(1, "POST", "/locks/waits")[0] == 200, "lock waits: the first has it")
    answer = group.ask(2, "POST", "/locks/waits?wait=1&timeout=30")[2]
    expect(answer.status == 409 and 0.9 <= answer.took < 4, f"lock waits: the second is answered {answer}")
    time.sleep(0.5)
    expect(json.loads(group.ask(1, "GET", "/locks/waits")[1])["waiting"] == [group.status(2)["address"]], "lock waits: it waits on")
    expect(group.ask(1, "DELETE", "/locks/waits")[0] == 200, "lock waits: the first releases it")
    expect(until(lambda: json.loads(group.ask(2, "GET", "/locks/waits")[1] or b"{}").get("holder") == group.status(2)["address"], 3), "lock waits: the second holds it")
    expect(group.ask(2, "DELETE", "/locks/waits")[0] == 200, "lock waits: released")


def gone_waiters(group):
    """A client that goes away while it waits for a lock is not granted it: it is free once the holder releases it, or goes to the next; another client of the node is granted it."""
    names = [f"gone.{number}" for number in range(20)]
    waits = []
    for name in names:
        expect(group.ask(1, "POST", f"/locks/{name}")[0] == 200, "gone waiters: the first has it")
        waits.append(group.begin(2, "POST", f"/locks/{name}"))
        expect(until(lambda: json.loads(group.ask(1, "GET", f"/locks/{name}")[1])["waiting"], 3), "gone waiters: it waits")
    for connection in waits:
        connection.close()
    # A grant that meets a client on its way out is as one that the client got: the node is given time to see that they have gone.
    time.sleep(1)
    for name in names:
        expect(group.ask(1, "DELETE", f"/locks/{name}")[0] == 200, "gone waiters: the first releases it")
    free = until(lambda: group.ask(3, "GET", "/locks")[1] == b"{}\n", 3)
    time.sleep(0.3)
    held = json.loads(group.ask(3, "GET", "/locks")[1])
    expect(free and not held, f"gone waiters: {len(held)} of {len(names)} locks are held for clients that have gone: {list(held.items())[:2]}")
    for name in held:
        group.ask(2, "DELETE", f"/locks/{name}")
    for name, node in (("gone.next", 3), ("gone.other", 2)):
        expect(group.ask(1, "POST", f"/locks/{name}")[0] == 200, "gone waiters: the first has it")
        waits = group.begin(2, "POST", f"/locks/{name}")
        time.sleep(0.3)
        came, clients = [], http_clients.Clients()
        clients.start(lambda name=name, node=node: came.append(http_clients.ask(HOST, group.http[node - 1], "POST", f"/locks/{name}", timeout=8)))
        time.sleep(0.3)
        waits.close()
        time.sleep(0.5)
        expect(group.ask(1, "DELETE", f"/locks/{name}")[0] == 200, "gone waiters: the first releases it")
        clients.join()
        holder = group.ask(1, "GET", f"/locks/{name}")[1]
        expect(came[0].status == 200 and came[0].took < 5, f"gone waiters: {name}: node {node} is answered {came[0]}; the table says {holder!r}")
        expect(group.ask(node, "DELETE", f"/locks/{name}")[0] == 200, f"gone waiters: {name} is released")
        expect(until(lambda: is_free(group, name), 3), f"gone waiters: {name} is free in the end")


def gone_waiters_with_more(group):
    """A client that sends a second request behind its first, and goes away, has gone too: its request for a lock is withdrawn."""
    name = "gone.more"
    expect(group.ask(1, "POST", f"/locks/{name}")[0] == 200, "gone waiters with more: the first has it")
    waits = group.begin(2, "POST", f"/locks/{name}")
    expect(until(lambda: json.loads(group.ask(1, "GET", f"/locks/{name}")[1])["waiting"], 3), "gone waiters with more: it waits")
    waits.sendall(b"GET /status HTTP/1.1\r\nHost: a\r\n\r\n")
    time.sleep(0.2)
    waits.close()
    expect(until(lambda: not json.loads(group.ask(1, "GET", f"/locks/{name}")[1])["waiting"], 3), "gone waiters with more: nobody waits any more")
    expect(group.ask(1, "DELETE", f"/locks/{name}")[0] == 200, "gone waiters with more: the first releases it")
    expect(until(lambda: is_free(group, name), 3), "gone waiters with more: it is free in the end")


def released_at_once(group):
    """A lock that is taken and released while the node is stopped is claimed by nobody: a later client that waits for it and goes away does not keep it."""
    name = "at.once"
    group.processes[2].send_signal(signal.SIGSTOP)
    takes = group.begin(2, "POST", f"/locks/{name}")
    time.sleep(0.05)
    releases = group.begin(2, "DELETE", f"/locks/{name}")
    time.sleep(0.05)
    group.processes[2].send_signal(signal.SIGCONT)
    came = [http_clients.answer_on(one).status for one in (takes, releases)]
    expect(came == [200, 200], f"released at once: the answers are {came}")
    expect(group.ask(1, "POST", f"/locks/{name}")[0] == 200, "released at once: another node takes it")
    waits = group.begin(2, "POST", f"/locks/{name}")
    expect(until(lambda: json.loads(group.ask(1, "GET", f"/locks/{name}")[1])["waiting"], 3), "released at once: a client waits")
    waits.close()
    expect(until(lambda: not json.loads(group.ask(1, "GET", f"/locks/{name}")[1])["waiting"], 3), "released at once: nobody waits when it has gone")
    expect(group.ask(1, "DELETE", f"/locks/{name}")[0] == 200, "released at once: it is released")
    expect(until(lambda: is_free(group, name), 3), "released at once: it is free in the end")


# Many changes, and large maps.

def many_changes(group):
    """A client that follows the map over hundreds of changes gets each of them, some at a time; many such clients at once hold up nobody."""
    start = changes_path(group, 1)
    keys = [f"many.{'x' * 40}.{number}" for number in range(CHANGED)]
    connection = group.connect(1)
    for key in keys:
        connection.request("PUT", f"/map/{key}", b"1")
        expect(connection.getresponse().read() == b"done\n", f"many changes: {key} is put")
    connection.close()
    path, seen, most = start, {}, 0
    while not set(keys) <= set(seen):
        status, body, answer = group.ask(1, "GET", path)
        told = json.loads(body)
        expect(status == 200 and told, f"many changes: {status}, {len(told)} keys, {len(seen)} seen before")
        if status != 200 or not told:
            break
        most = max(most, len(told))
        seen.update(told)
        path = "/map?after=" + urllib.parse.quote(answer.getheader("etag"))
    expect(most <= TOLD, f"many changes: an answer has {most} keys")
    before = group.status(1)["view"]
    begun = time.monotonic()
    came = read_all(group, 1, READERS, start)
    took = time.monotonic() - begun
    expect({got[0] for got in came} == {b"200"} and len({got[1:] for got in came}) == 1, f"many changes: {READERS} clients get {set(came)}")
    expect(took < 5 and group.status(1)["view"] == before, f"many changes: {READERS} clients at once took {took:.1f} s; the view was {before}, and is {group.status(1)['view']}")


def read_all(group, node, count, path, seconds=60):
    """Sends a request on so many connections at once, and reads the answers as they come. Returns each answer's status, and the length and hash of its body."""
    chosen = selectors.DefaultSelector()
    heads, hashes, lengths = {}, {}, {}
    for _ in range(count):
        one = socket.create_connection((HOST, group.http[node - 1]))
        # So the node never waits for a reader.
        one.setsockopt(socket.SOL_SOCKET, socket.SO_RCVBUF, 1 << 23)
        chosen.register(one, selectors.EVENT_READ)
        heads[one], hashes[one], lengths[one] = b"", hashlib.sha256(), 0
    for one in heads:
        one.sendall(f"GET {path} HTTP/1.1\r\nHost: a\r\nConnection: close\r\n\r\n".encode())
    left, end = count, time.monotonic() + seconds
    while left and time.monotonic() < end:
        for key, _ in chosen.select(1):
            one = key.fileobj
            try:
                piece = one.recv(1 << 20)
            except OSError:
                piece = b""
            if not piece:
                chosen.unregister(one)
                one.close()
                left -= 1
                continue
            if not heads[one].endswith(b"\r\n\r\n"):
                head, found, piece = (heads[one] + piece).partition(b"\r\n\r\n")
                heads[one] = head + found
            hashes[one].update(piece)
            lengths[one] += len(piece)
    chosen.close()
    return [(heads[one][9:12], lengths[one], hashes[one].hexdigest()) for one in heads]


def large_map(folder, finds):
    """A map of 0.9 MB is read by 60 clients at once: all get the same, and no node is expelled. Tried again if a view changed, as on a machine that does not let a process run."""
    group = Group(finds, folder, ["--map"])
    try:
        group.form()
        clients = http_clients.Clients()
        wrong = []

        def fill(node):
            connection = group.connect(node)
            for number in range(KEYS):
                connection.request("PUT", f"/map/big{node}.{number}", b"\xff" * VALUE)
                answer = connection.getresponse()
                answer.read()
                if answer.status != 200:
                    wrong.append(answer.status)
            connection.close()

        for node in (1, 2, 3):
            clients.start(fill, node)
        clients.join()
        expect(not wrong, f"large map: puts are answered {wrong[:5]}")
        _, node = other_than_coordinator(group)
        expect(until(lambda: all(group.status(each)["keys"] == 3 * KEYS for each in (1, 2, 3)), 5), "large map: all nodes have all keys")
        one = group.ask(node, "GET", "/map")[1]
        expect(len(json.loads(one)) == 3 * KEYS, "large map: one client gets all")
        for _ in range(TRIES):
            before = [group.status(each)["view"] for each in (1, 2, 3)]
            begun = time.monotonic()
            came = read_all(group, node, READERS, "/map")
            took = time.monotonic() - begun
            # A node that was suspected is expelled when its silence is over.
            time.sleep(1.5)
            after = [group.status(each)["view"] for each in (1, 2, 3)]
            if after == before:
                break
            group.await_view([1, 2, 3])
        expect(after == before, f"large map: the views were {before}, and are {after} after {READERS} clients in {took:.1f} s")
        wanted = (b"200", len(one), hashlib.sha256(one).hexdigest())
        others = [got[:2] for got in came if got != wanted]
        expect(len(came) == READERS and not others, f"large map: {len(others)} of {READERS} clients get something else than all of it: {others[:3]}")
    finally:
        group.stop()


# The node itself.

def strange_and_sought(group):
    """/status and /metrics have how many strange datagrams came, and which nodes of the settings the view lacks."""
    def metric(node, name):
        return next((float(line.split()[1]) for line in group.ask(node, "GET", "/metrics")[1].decode().splitlines() if line.split()[0] == name), None)

    text = group.ask(1, "GET", "/metrics")[1].decode()
    for line in ("# TYPE vsync_strange_datagrams_total counter", "# TYPE vsync_nodes_sought gauge"):
        expect(line in text, f"strange: /metrics lacks {line}")
    status = group.status(1)
    expect(status.get("sought") == [] and metric(1, "vsync_nodes_sought") == 0, f"strange: sought is {status.get('sought')} in a whole group, {metric(1, 'vsync_nodes_sought')}")
    before = status.get("strange")
    expect(isinstance(before, int), f"strange: strange is {before}")
    with socket.socket(socket.AF_INET, socket.SOCK_DGRAM) as stranger:
        for _ in range(7):
            stranger.sendto(accidents_net.packet(accidents_net.JOIN, b"http", "3.7", status["address"]), (HOST, group.datagrams[0]))
    expect(until(lambda: group.status(1).get("strange") == (before or 0) + 7, 3), f"strange: {group.status(1).get('strange')} after {before} and seven more")
    expect(metric(1, "vsync_strange_datagrams_total") == group.status(1).get("strange"), f"strange: the metric is {metric(1, 'vsync_strange_datagrams_total')}")
    group.processes[3].kill()
    group.processes[3].wait()
    expect(until(lambda: group.status(1).get("sought") == group.status(2).get("sought") == [3], 5), f"strange: sought is {group.status(1).get('sought')} without node 3")
    expect(metric(1, "vsync_nodes_sought") == 1, f"strange: the metric is {metric(1, 'vsync_nodes_sought')} without node 3")
    group.start(3, group.status(1)["address"])
    expect(group.await_view([1, 2, 3]), "strange: node 3 comes back")
    expect(until(lambda: group.status(1).get("sought") == [], 5), "strange: none is sought any more")


def leaving(folder, finds):
    """After POST /leave the others' view lacks the node before they can suspect it, and its process ends with 0. It comes back; then the coordinator leaves."""
    group = Group(finds, folder, ["--map"], silent=150)
    try:
        group.form()
        status, body, _ = group.ask(1, "GET", "/leave")
        expect(status == 405, f"leaving: GET /leave: {status} {body!r}")
        expect(group.ask(1, "PUT", "/map/kept", b"x")[0] == 200, "leaving: a put before")
        first, other = other_than_coordinator(group)
        for node in (other, first):
            others = [each for each in (1, 2, 3) if each != node]
            address = group.status(node)["address"]
            status, body, _ = group.ask(node, "POST", "/leave?now")
            expect(status == 400 and b"now" in body, f"leaving: POST /leave?now at node {node}: {status} {body!r}")
            begun = time.monotonic()
            status, body, _ = group.ask(node, "POST", "/leave")
            expect((status, body) == (200, b"leaving\n"), f"leaving: POST /leave at node {node}: {status} {body!r}")
            left = until(lambda: all(address not in group.status(each)["members"] and group.status(each)["members"] for each in others), 2)
            expect(left, f"leaving: the others' view has node {node} after {time.monotonic() - begun:.1f} s")
            try:
                expect(group.processes[node].wait(5) == 0, f"leaving: node {node} ends with {group.processes[node].returncode}")
            except subprocess.TimeoutExpired:
                expect(False, f"leaving: node {node} does not end")
                group.processes[node].kill()
                group.processes[node].wait()
            group.start(node, group.status(others[0])["address"])
            expect(group.await_view([1, 2, 3]), f"leaving: node {node} comes back")
        for node in (1, 2, 3):
            expect(until(lambda: group.ask(node, "GET", "/map/kept")[1] == b"x", 3), f"leaving: node {node} has the value")
    finally:
        group.stop()


def lines_beside_http(folder, finds):
    """With --say beside --http the lines that are appended to the file are sent, also while writes come by HTTP; each is delivered once, at all nodes."""
    group = Group(finds, folder, ["--map"])
    lines = group.folder / "lines"
    lines.touch()
    try:
        group.start(1, more=("--say", "lines"))
        time.sleep(0.5)
        if group.processes[1].poll() is not None:
            expect(False, f"lines: a node with --say beside --http ends with {group.processes[1].returncode}")
            return
        group.start(2, "1.1")
        group.start(3, "1.1")
        expect(group.await_view([1, 2, 3]), "lines: the group forms")
        came, clients = {}, http_clients.Clients()

        def write(place):
            for number in range(50):
                key = f"http{place}.{number}"
                came[key] = http_clients.ask(HOST, group.http[0], "PUT", f"/map/{key}", str(number).encode()).status

        for place in range(4):
            clients.start(write, place)
        for number in range(50):
            with open(lines, "a") as file:
                file.write(f"put line{number} {number}\nput last {number}\n")
            time.sleep(0.01)
        clients.join()
        expect(len(came) == 200 and set(came.values()) == {200}, f"lines: puts by HTTP are answered {set(came.values())}")
        wanted = {f"line{number}": str(number) for number in range(50)} | {key: key.split(".")[1] for key in came} | {"last": "49"}
        for node in (1, 2, 3):
            expect(until(lambda: json.loads(group.ask(node, "GET", "/map")[1]) == wanted, 10, 0.1), f"lines: node {node} has another map than what was written")
        with open(lines, "a") as file:
            file.write("\x04\n")
        try:
            expect(group.processes[1].wait(5) == 0, f"lines: the line that ends a node ends it with {group.processes[1].returncode}")
        except subprocess.TimeoutExpired:
            expect(False, "lines: the line that ends a node does not end it")
    finally:
        group.stop()
