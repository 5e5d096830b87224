"""A group of real processes of `vsync member` over a network of accidents_net, for tests/accidents: its nodes, what their texts say, and how it is judged."""
import ctypes
import os
import pathlib
import signal
import socket
import subprocess
import threading
import time

import accidents_net
import http_clients

ROOT = pathlib.Path(__file__).resolve().parent.parent
VSYNC = str(pathlib.Path(os.environ.get("VSYNC", ROOT / "vsync")).absolute())
# A round of a node, in seconds.
TICK = 0.02
# How often a test looks, in seconds.
LOOK = 0.02
# How long a node may take to end, in seconds.
ENDING = 15
DIE_WITH_PARENT = 1
LIBC = ctypes.CDLL(None)


class Late(Exception):
    """Something did not come in time."""


class Wrong(Exception):
    """Something is not as it should be."""


def die_with_parent():
    LIBC.prctl(DIE_WITH_PARENT, signal.SIGKILL)


class Node:
    """A node: its process, if one runs, and what the text of all its processes says."""

    def __init__(self, group, number):
        self.group, self.number = group, number
        self.text, self.errors, self.lines, self.status, self.incarnation = (
            group.folder / f"{number}.{what}" for what in ("text", "errors", "lines", "status", "incarnation"))
        for file in (self.text, self.errors, self.lines):
            file.touch()
        self.options = list(group.options)
        self.settings = group.settings
        # Where it answers HTTP, if it does. Then it is given no lines.
        self.http_port = accidents_net.free_port(group.net.host(number), socket.SOCK_STREAM) if group.http else None
        self.process = None
        self.is_stopped = False
        self.ended_with = None
        self.read, self.rest = 0, b""
        # What its present process is by its text.
        self.address = None
        self.view, self.members = None, ()
        self.runs = False
        # The chat that it has by its text: pairs of a sender and a payload. With locks, the commands that it was told.
        self.chat = []
        self.starts = self.installs = 0
        self.blocked_since, self.longest_block = None, 0.0
        # What its text says of stable messages: pairs of a view and how many.
        self.stable = []
        # The state's line with which its last process ended: that of a chat, or the fields of a table of locks.
        self.last_chat = None
        self.last_locks = None
        # What its last view handed back to it.
        self.back = ()

    # Its process.

    def start(self, *more):
        """Starts the node, always by the same command."""
        net = self.group.net
        words = [VSYNC, "member", self.settings, self.number, 1, 0, "--forever", "--incarnation-file", self.incarnation, "--status", self.status, "--bind", net.host(self.number)]
        words += ["--http", f"{net.host(self.number)}:{self.http_port}"] if self.http_port else ["--say", self.lines]
        for other in net.numbers:
            if other != self.number:
                words += ["--peer", f"{other}={net.peer(self.number, other)}"]
        with open(self.text, "ab") as text, open(self.errors, "ab") as errors:
            self.process = subprocess.Popen([str(word) for word in [*words, *self.options, *more]], stdin=subprocess.DEVNULL, stdout=text, stderr=errors, preexec_fn=die_with_parent)
        self.ended_with = None

    def stop(self):
        """It sleeps."""
        if self.is_running():
            self.process.send_signal(signal.SIGSTOP)
            self.is_stopped = True

    def go_on(self):
        """It wakes."""
        if self.is_stopped:
            self.process.send_signal(signal.SIGCONT)
            self.is_stopped = False

    def leave(self, within=5):
        """Ends its process by the line that does."""
        self.say("\x04")
        self.group.until(lambda: not self.is_running(), within, f"node {self.number} ends")

    def cut_off(self):
        """Kills its process; ends its text as a crash."""
        if self.is_running():
            self.process.kill()
        self.process.wait()
        self.is_stopped = False
        text = self.text.read_bytes()
        whole = text[:text.rfind(b"\n") + 1]
        if whole != text:
            self.text.write_bytes(whole)
        self.look()
        if self.runs:
            with open(self.text, "ab") as file:
                file.write(f"crashed {self.address}\n".encode())
        self.look()

    def is_running(self):
        if self.process is None:
            return False
        self.ended_with = self.process.poll()
        return self.ended_with is None

    def ask(self, method, path, body=None, timeout=10):
        """Asks it over HTTP. The network stands still meanwhile, unless another thread asks."""
        return http_clients.ask(self.group.net.host(self.number), self.http_port, method, path, body, timeout=timeout)

    def begin(self, method, path, body=b""):
        """Sends a request over HTTP, and returns its connection."""
        return http_clients.begin(self.group.net.host(self.number), self.http_port, method, path, body)

    def say(self, *lines):
        with open(self.lines, "ab") as file:
            file.write(b"".join(line.encode() + b"\n" for line in lines))

    # Its text.

    def look(self):
        """Reads what was added to its text."""
        with open(self.text, "rb") as file:
            file.seek(self.read)
            came = file.read()
        self.read += len(came)
        *lines, self.rest = (self.rest + came).split(b"\n")
        for line in lines:
            self.follow(line.decode())
        if self.blocked_since is not None:
            self.longest_block = max(self.longest_block, time.monotonic() - self.blocked_since)

    def follow(self, line):
        word, *fields = line.split(" ")
        if word == "started":
            self.address, self.view, self.members, self.chat, self.runs = fields[0], None, (), [], True
            self.starts += 1
        elif word == "installed":
            self.view, self.members = fields[2], tuple(fields[3].split(","))
            self.installs += 1
            self.back = () if fields[5] == "-" else tuple(payload_in(sent.partition(":")[2]) for sent in fields[5].split(","))
            if fields[6] != "-" and not {"--map", "--locks"} & set(self.options):
                self.chat = chat_in(bytes.fromhex(fields[6][1:]))
        elif word == "delivered":
            self.chat.append((fields[2], payload_in(fields[4])))
        elif word == "chat":
            self.last_chat = [] if fields[1] == "-" else [(sender, payload_in(text)) for sender, text in (entry.split(":") for entry in fields[1].split(","))]
        elif word == "locks":
            self.last_locks = fields[1:]
        elif word == "stable":
            self.stable.append((fields[1], int(fields[2])))
        elif word in ("left", "crashed", "#"):
            self.runs, self.view, self.members = False, None, ()
        elif word not in ("sent", "blocked", "map"):
            raise Wrong(f"node {self.number} prints: {line}")
        if word == "blocked":
            self.blocked_since = time.monotonic()
        elif word in ("installed", "started", "left", "crashed", "#"):
            self.blocked_since = None

    def has(self, line):
        """Whether its chat has a line."""
        return any(payload == line.encode() for _, payload in self.chat)

    def count(self, line):
        return sum(payload == line.encode() for _, payload in self.chat)

    def seen(self):
        """What its status says, by the first words of its lines; nothing if it has written none."""
        if not self.status.exists():
            return {}
        return {word: rest.strip() for word, _, rest in (line.partition(" ") for line in self.status.read_text().splitlines())}

    def where(self):
        state = "stopped" if self.is_stopped else "runs" if self.is_running() else f"ended with {self.ended_with}"
        return f"{self.number}: {state}, {self.address}, view {self.view} of {','.join(self.members)}{', blocked' if self.blocked_since else ''}"


def payload_in(text):
    return b"" if text == "-" else bytes.fromhex(text)


def chat_in(state):
    """The lines of a long chat's state (docs/RECEIVERS.md, "The chat's state")."""
    lines, at = [], 2
    for _ in range(int.from_bytes(state[:2], "big")):
        node, incarnation, length = (int.from_bytes(state[at + low:at + high], "big") for low, high in ((0, 2), (2, 6), (6, 8)))
        lines.append((f"{node}.{incarnation}", state[at + 8:at + 8 + length]))
        at += 8 + length
    return lines


class Group:
    """Some nodes, the network between them, and a limit of time."""

    def __init__(self, count, folder, limit, seed=0, silent=50, options=("--find", "--long"), http=False):
        self.folder = pathlib.Path(folder)
        self.options = options
        self.http = http
        self.silent = silent
        self.net = accidents_net.Network(range(1, count + 1), seed)
        self.settings = self.settings_of(self.net.numbers)
        self.nodes = {number: Node(self, number) for number in self.net.numbers}
        self.begun = time.monotonic()
        self.end = self.begun + limit
        # What a test says of itself: numbers that came of it.
        self.notes = []
        # The statuses with which nodes may end, where it is not 0.
        self.may_end_with = {}

    def settings_of(self, numbers):
        """The settings of a group of these nodes."""
        settings = self.folder / f"settings.{len(numbers)}"
        settings.write_text(f'group = "accidents"\nsilent = {self.silent}\n' + "".join(f"[[node]]\nnumber = {number}\nport = {self.net.ports[number]}\n" for number in numbers))
        return settings

    def __getitem__(self, number):
        return self.nodes[number]

    def all(self, numbers=()):
        return [self.nodes[number] for number in numbers or self.nodes]

    # What happens to it.

    def start(self, *numbers):
        for node in self.all(numbers):
            node.start()

    def come_together(self, *numbers, within=15):
        """Starts these nodes, one after the other, so that the view's order is theirs; all, if none are named."""
        numbers = numbers or tuple(self.nodes)
        for place, number in enumerate(numbers, 1):
            self[number].start()
            self.one_view(*numbers[:place], within=within)

    def come_by_contact(self, *numbers):
        """The same without --find: the first makes the group, and each other one asks it."""
        numbers = numbers or tuple(self.nodes)
        for place, number in enumerate(numbers, 1):
            self[number].start(*(["--contact", f"{numbers[0]}.1"] if place > 1 else []))
            self.one_view(*numbers[:place])

    def long_chat(self):
        """Starts the first node, which says 2,000 lines: its chat has a megabyte."""
        self[1].start()
        self.one_view(1)
        self[1].say(*(f"{place:04}" + "x" * 508 for place in range(2000)))
        self.until(lambda: len(self[1].chat) == 2000, 20, "2,000 lines")

    def kill(self, *nodes):
        """Kills the processes of these nodes at once by SIGKILL, in the midst of what they do. What they sent is in their texts: a node writes before it sends."""
        for node in nodes:
            node.cut_off()

    def kill_soon(self, node, seconds):
        """Kills the process of a node so many seconds later, while the network carries what it sends."""
        timer = threading.Timer(seconds, node.process.kill)
        timer.start()
        while timer.is_alive():
            self.wait(LOOK)
        node.cut_off()

    def look(self):
        for node in self.nodes.values():
            node.look()

    def wait(self, seconds):
        """Lets time pass."""
        end = time.monotonic() + seconds
        while time.monotonic() < end:
            if time.monotonic() > self.end:
                raise Late("it takes longer than its limit")
            self.net.play(min(LOOK, max(end - time.monotonic(), 0)))
            self.look()

    def until(self, does, within, what):
        """Waits until something is so; it answers after how many seconds."""
        begun = time.monotonic()
        while True:
            self.look()
            if does():
                return time.monotonic() - begun
            if time.monotonic() - begun > within or time.monotonic() > self.end:
                raise Late(f"not within {within} s: {what() if callable(what) else what}\n" + self.where())
            self.net.play(LOOK)

    # What is asked of it.

    def where(self):
        return "\n".join(node.where() for node in self.nodes.values())

    def is_one_view(self, *numbers):
        """Whether these nodes, all if none are named, are in one view of exactly them, and none is blocked."""
        nodes = self.all(numbers)
        first = nodes[0]
        return (first.view is not None and {node.address for node in nodes} == set(first.members)
                and all(node.view == first.view and node.blocked_since is None and node.is_running() and not node.is_stopped for node in nodes))

    def one_view(self, *numbers, within=15):
        return self.until(lambda: self.is_one_view(*numbers), within, f"one view of {', '.join(str(node.number) for node in self.all(numbers))}")

    def told(self, lines, *numbers, within=5):
        """Waits until all of these nodes were told these lines."""
        nodes = self.all(numbers)
        return self.until(lambda: all(node.has(line) for node in nodes for line in lines), within,
                          lambda: "; ".join(f"{node.number} was not told {', '.join(line[:30] for line in lines if not node.has(line))[:150]}" for node in nodes))

    def answers(self, *requests, within=10):
        """Sends requests over HTTP at once, each a node's number, a method, a path and perhaps a body; returns their answers in this order."""
        came = [None] * len(requests)
        clients = http_clients.Clients()

        def ask(place, number, *words):
            came[place] = self[number].ask(*words, timeout=within)

        for place, words in enumerate(requests):
            clients.start(ask, place, *words)
        self.until(lambda: not clients.running(), within + 5, "answers over HTTP")
        return came

    def talk(self, *numbers, word="still here", within=5):
        """Each of these nodes says a line, and all of them are told all."""
        lines = []
        for node in self.all(numbers):
            lines.append(f"{word}, {node.number} at {len(node.chat)}")
            node.say(lines[-1])
        return self.told(lines, *numbers, within=within)

    def expect(self, right, what):
        if not right:
            raise Wrong(f"{what}\n{self.where()}")

    def expect_in_time(self, right, what):
        """The same of what a machine that does not let processes run may spoil."""
        if not right:
            raise Late(f"{what}\n{self.where()}")

    def note(self, what, seconds):
        self.notes.append(f"{what} {seconds:.1f} s")

    # Its end.

    def finish(self):
        """Ends all that runs by the line that does, or by HTTP."""
        for node in self.nodes.values():
            if node.is_running():
                node.go_on()
                if self.http:
                    answer, = self.answers((node.number, "POST", "/leave"))
                    self.expect((answer.status, answer.body) == (200, b"leaving\n"), f"POST /leave at node {node.number} is answered {answer}")
                else:
                    node.say("\x04")
        end = time.monotonic() + ENDING
        while any(node.is_running() for node in self.nodes.values()):
            if time.monotonic() > end:
                raise Late("not all end by the line that ends a node\n" + self.where())
            self.net.play(LOOK)
        self.look()
        for node in self.nodes.values():
            if node.process is not None and node.ended_with != -signal.SIGKILL:
                wanted = self.may_end_with.get(node.number, 0)
                self.expect(node.ended_with == wanted, f"node {node.number} ends with {node.ended_with}, not with {wanted}")

    def abandon(self):
        """Kills all that runs; the texts end as those of crashes."""
        self.kill(*(node for node in self.nodes.values() if node.is_running()))

    def judge(self):
        """What the check says of all texts as one trace."""
        texts = [text for text in sorted(self.folder.glob("*.text")) if text.stat().st_size > 0]
        if not texts:
            raise Wrong("no node printed anything")
        kept = [option for option in self.options if option in ("--long", "--map", "--locks")]
        checked = subprocess.run([VSYNC, "check", *kept, "--processes", *map(str, texts)], stdin=subprocess.DEVNULL, capture_output=True, timeout=120)
        if checked.stdout != b"holds\n":
            raise Wrong("vsync check --processes: " + (checked.stdout + checked.stderr).decode(errors="replace"))
