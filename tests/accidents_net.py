"""A small network on this machine, for tests/accidents.

Each node has a loopback address of its own, and names each other node by an address that only it uses. Behind that address stands the network: what a node sends there
goes over a link to the other node, and comes from the address by which that one names the sender. So a node is heard from where its peers name it, and each
ordered pair of nodes has a link that can be cut, lose, repeat, delay, or drop what is longer than the network carries.

Nothing runs by itself: datagrams go while `play` is called."""
import errno
import heapq
import random
import select
import socket
import time

# The most bytes that UDP carries in an Ethernet frame of 1,500 bytes.
FRAME = 1472
# How many datagrams of one pair are taken in a row.
IN_A_ROW = 64
# Loopback addresses 127.FIRST.x.y to 127.LAST.x.y are taken, one block for each network.
FIRST, LAST = 16, 250
# The port that a network holds in its block, so that no other takes the block; nobody sends there.
HELD_PORT = 26999
TRIES = 50


class Link:
    """The way of datagrams from one node to another."""

    def __init__(self):
        self.heal()

    def heal(self):
        """Whole again: each datagram goes at once, and once."""
        self.is_cut = False
        self.loss = 0.0
        self.repeat = 0.0
        self.delay = (0.0, 0.0)
        self.longest = None

    def carries(self, datagram, chance):
        return not self.is_cut and (self.longest is None or len(datagram) <= self.longest) and (self.loss == 0 or chance.random() >= self.loss)


def free_block(chance):
    """A block of loopback addresses that no other network has, and the socket that holds it."""
    for _ in range(TRIES):
        block = chance.randint(FIRST, LAST)
        holder = socket.socket(socket.AF_INET, socket.SOCK_DGRAM)
        try:
            holder.bind((f"127.{block}.255.254", HELD_PORT))
            return block, holder
        except OSError as fault:
            holder.close()
            if fault.errno != errno.EADDRINUSE:
                raise
    raise OSError("no free block of loopback addresses")


def free_port(host, kind=socket.SOCK_DGRAM):
    with socket.socket(socket.AF_INET, kind) as probe:
        probe.bind((host, 0))
        return probe.getsockname()[1]


class Network:
    """The links of some nodes, and the addresses by which they name each other."""

    def __init__(self, numbers, seed):
        self.numbers = list(numbers)
        self.chance = random.Random(seed)
        self.block, self.holder = free_block(random.Random())
        self.ports = {number: free_port(self.host(number)) for number in self.numbers}
        self.links = {(one, other): Link() for one in self.numbers for other in self.numbers if one != other}
        self.queue, self.counter = [], 0
        # Nodes whose datagrams come from another address and port than their peers name, as if they were translated on the way.
        self.translated = set()
        self.elsewhere = socket.socket(socket.AF_INET, socket.SOCK_DGRAM)
        self.elsewhere.setblocking(False)
        self.elsewhere.bind((f"127.{self.block}.255.253", 0))
        # How much later than asked this process went on, at most: by that a test knows of a machine that did not let it run.
        self.late = 0.0
        self.epoll = select.epoll()
        self.sockets, self.pairs = {}, {}
        for one, other in self.links:
            self.open(one, other)

    def open(self, one, other):
        """The socket at the address by which one names the other."""
        way = socket.socket(socket.AF_INET, socket.SOCK_DGRAM)
        way.setblocking(False)
        way.bind((self.peer(one, other), self.ports[other]))
        self.sockets[one, other] = way
        self.pairs[way.fileno()] = (one, other)
        self.epoll.register(way.fileno(), select.EPOLLIN)

    def host(self, number):
        """The address at which a node is bound."""
        return f"127.{self.block}.0.{self.numbers.index(number) + 1}"

    def copy_host(self):
        """An address that is no node's."""
        return f"127.{self.block}.0.200"

    def peer(self, one, other):
        """The address by which one node names another."""
        return f"127.{self.block}.{self.numbers.index(one) + 1}.{self.numbers.index(other) + 1}"

    def close(self):
        for way in self.sockets.values():
            way.close()
        self.epoll.close()
        self.elsewhere.close()
        self.holder.close()

    # Faults of links.

    def each(self, ones=None, others=None):
        """The links from some nodes to others; from or to all, if none are named."""
        return [link for (one, other), link in self.links.items() if (ones is None or one in ones) and (others is None or other in others)]

    def cut(self, ones, others):
        """Nothing goes from some nodes to others; the other way is as before."""
        for link in self.each(ones, others):
            link.is_cut = True

    def part(self, *sides):
        """Nothing goes from one side to another; within a side all is as before."""
        for side in sides:
            for other in sides:
                if side is not other:
                    self.cut(side, other)

    def heal(self):
        """All links are whole."""
        for link in self.links.values():
            link.heal()

    # What goes.

    def play(self, seconds):
        """Carries datagrams for so long."""
        wake = time.monotonic()
        end = wake + seconds
        while True:
            self.send_due()
            now = time.monotonic()
            self.late = max(self.late, now - wake)
            if now >= end:
                return
            wake = min(end, self.queue[0][0]) if self.queue else end
            for descriptor, _ in self.epoll.poll(max(wake - now, 0)):
                self.take(*self.pairs[descriptor])

    def take(self, one, other):
        """Takes what one sent to the other."""
        for _ in range(IN_A_ROW):
            try:
                datagram, source = self.sockets[one, other].recvfrom(65536)
            except (BlockingIOError, ConnectionError):
                return
            if source == (self.host(one), self.ports[one]):
                self.carry(one, other, datagram)

    def carry(self, one, other, datagram):
        link = self.links[one, other]
        for _ in range(2 if link.repeat and self.chance.random() < link.repeat else 1):
            if not link.carries(datagram, self.chance):
                continue
            if link.delay[1] > 0:
                self.counter += 1
                heapq.heappush(self.queue, (time.monotonic() + self.chance.uniform(*link.delay), self.counter, one, other, datagram))
            else:
                self.hand_over(one, other, datagram)

    def send_due(self):
        while self.queue and self.queue[0][0] <= time.monotonic():
            _, _, one, other, datagram = heapq.heappop(self.queue)
            if not self.links[one, other].is_cut:
                self.hand_over(one, other, datagram)

    def hand_over(self, one, other, datagram):
        """Gives a datagram to the other node, from where that one names the first; also one that the first never sent."""
        try:
            way = self.elsewhere if one in self.translated else self.sockets[other, one]
            way.sendto(datagram, (self.host(other), self.ports[other]))
        except (BlockingIOError, ConnectionError):
            pass


# Packets that a test makes by itself (docs/WIRE.md).

JOIN, MERGE, STATE = 1, 13, 14


def number(value, count):
    return value.to_bytes(count, "big")


def address(text):
    node, incarnation = text.split(".")
    return number(int(node), 2) + number(int(incarnation), 4)


def packet(kind, group, source, destination, body=b""):
    return b"VS\x03" + number(kind, 1) + number(len(group), 1) + group + address(source) + address(destination) + body


def kind_of(datagram):
    """The kind of a packet; None if it is none."""
    return datagram[3] if datagram[:2] == b"VS" and len(datagram) > 3 else None


def view(counter, members):
    return number(counter, 8) + address(members[0]) + number(len(members), 1) + b"".join(address(member) for member in members)
