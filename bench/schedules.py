#!/usr/bin/env python3
"""Prints a script for `vsync world` or `vsync map`; a seed always gives the same one:

    schedules.py random SEED LINES NODES     the nodes 1 to NODES start, create, join, send, tick, suspect, leave, crash and start again, get hints of
                                             each other and merge; packets are delivered late, out of order, twice, or never
    schedules.py changes SEED LINES NODES    the same with few messages and many changes of views
    schedules.py maps SEED LINES NODES       the first kind for `vsync map`, whose sends are commands of the map; then all that is outstanding is delivered
    schedules.py puts LINES                  the last kind with puts over 1,000 keys for `vsync map`
    schedules.py steady LINES [MEMBERS]      five members in one view, or so many; one that is not the coordinator sends, and everything is delivered in order

A line `deliver K` names a packet by its number, so whoever writes a script must know which packets are put out. The classes below follow the rules of
docs/PROTOCOL.md as far as that asks for: who puts out a packet of which kind for whom. Payloads and states are left out. The program is
not asked. A `deliver K` of a packet that is not there does nothing, so a mistake here could make a script poor, and never a wrong one.
"""
import pathlib
import random
import re
import sys

LIMITS = (pathlib.Path(__file__).resolve().parent.parent / "crates/address/src/limits.rt").read_text()


def limit(name):
    """A limit of the channel, by its name in `address::limits`."""
    return int(re.search(rf"^pub const {name}: \w+ = ([\d_]+);", LIMITS, re.MULTILINE)[1])


MEMBERS = limit("MEMBERS")
OUTSTANDING = limit("OUTSTANDING")
WINDOW = limit("WINDOW")


class Packet:
    __slots__ = ("number", "kind", "source", "destination", "body")

    def __init__(self, kind, source, destination, body):
        self.number, self.kind, self.source, self.destination, self.body = 0, kind, source, destination, body


class Member:
    """A member, with no payloads. An address is (node, incarnation), a view id (counter, creator), a message (sender, n)."""

    def __init__(self, me):
        self.me = me
        self.out = []
        self.ended = False
        self.contact = None
        self.promised, self.promised_list, self.installed = None, (), False
        self.view, self.members = None, ()
        self.suspects, self.joiners, self.merging = set(), [], []
        self.heard = 0
        self.flush = None
        self.kept = {}
        self.empty()

    def empty(self):
        """The messages of a view that has just been installed."""
        self.delivered, self.stable, self.held = 0, 0, {}
        self.sent, self.own = 0, 0
        self.counts = dict.fromkeys(self.members, 0)
        self.ordered = dict.fromkeys(self.members, 0)
        self.waiting = {member: set() for member in self.members}

    def put(self, kind, destination, *body):
        self.out.append(Packet(kind, self.me, destination, body))

    def blocked(self):
        return self.view is not None and self.promised > self.view

    def is_first(self):
        return self.members[0] == self.me

    def leads(self):
        return self.first_unsuspected() == self.me

    def first_unsuspected(self):
        return next(member for member in self.members if member == self.me or member not in self.suspects)

    def others(self):
        return [member for member in self.members if member != self.me]

    # What the application and the failure detector ask for.

    def create(self):
        if self.view is None and self.contact is None:
            self.promised, self.promised_list = (1, self.me), (self.me,)
            self.install()

    def join(self, contact):
        if self.view is None:
            self.contact = contact
            self.put("JOIN", contact)

    def send(self):
        if self.view is None or self.blocked() or self.sent - self.own == OUTSTANDING:
            return
        self.sent += 1
        if self.is_first():
            self.waiting[self.me].add(self.sent)
            self.order()
        else:
            self.put("FORWARD", self.members[0], self.view, self.sent)

    def suspect(self, address):
        if self.view is None or address == self.me or not (address in self.members or address in self.promised_list):
            return
        self.suspects.add(address)
        self.joiners = [joiner for joiner in self.joiners if joiner != address]
        self.merging = [other for other in self.merging if other != address]
        self.regroup()

    def hint(self, address):
        if self.view is not None and self.leads() and not self.blocked() and address not in self.members:
            self.put("MERGE", address, self.view, self.members)

    def leave(self):
        for member in self.others():
            self.put("LEAVE", member)
        self.ended = True

    def tick(self):
        if self.view is None:
            if self.contact is not None:
                self.put("JOIN", self.contact)
                if self.promised is not None:
                    self.report()
        elif not self.blocked():
            if self.is_first():
                for member in self.others():
                    self.put("STATUS", member, self.view, self.delivered, self.stable)
            else:
                for n in range(self.own + 1, self.sent + 1):
                    self.put("FORWARD", self.members[0], self.view, n)
                self.put("ACK", self.members[0], self.view, self.delivered)
        elif self.flush is not None:
            for member in self.promised_list:
                if member not in self.flush:
                    self.put("FLUSH", member, self.promised, self.promised_list)
        else:
            self.report()

    # What a packet does.

    def datagram(self, packet):
        if packet.destination != self.me or packet.source == self.me or (self.view is None and self.contact is None):
            return
        if packet.kind in ("FORWARD", "ORDER", "NAK", "ACK", "STATUS"):
            if self.view is None or packet.body[0] != self.view or self.blocked() or packet.source not in self.members:
                return
            if packet.kind in ("ORDER", "STATUS"):
                if self.is_first() or packet.source != self.members[0]:
                    return
            elif not self.is_first():
                return
        getattr(self, "take_" + packet.kind.lower())(packet.source, *packet.body)

    def take_join(self, source):
        if self.view is None:
            return
        self.suspects.update(m for m in self.members if m[0] == source[0] and m[1] < source[1] and m != self.me)
        if not self.leads():
            self.put("REDIRECT", source, self.first_unsuspected())
            return
        known = [*self.members, *(self.promised_list if self.flush is not None else ()), *self.joiners, *self.merging]
        if not any(m[0] == source[0] and m[1] >= source[1] for m in known):
            if len(self.candidates(self.joiners + [source], self.merging)) <= MEMBERS:
                self.joiners.append(source)
        self.regroup()

    def take_redirect(self, source, coordinator):
        if coordinator == self.me:
            return
        if self.view is None:
            self.join(coordinator)
        else:
            self.hint(coordinator)

    def take_leave(self, source):
        self.suspect(source)

    def take_forward(self, source, view, n):
        if self.ordered[source] < n <= self.ordered[source] + OUTSTANDING:
            self.waiting[source].add(n)
        self.order()

    def take_order(self, source, view, g, message):
        if g > self.delivered + WINDOW:
            return
        self.collect(g - WINDOW)
        before, new = self.delivered, g > self.delivered and g not in self.held
        if new:
            self.held[g] = message
        while self.delivered + 1 in self.held:
            self.deliver(self.held[self.delivered + 1])
        if self.delivered > before:
            self.put("ACK", source, self.view, self.delivered)
        elif new:
            self.ask(g)

    def take_nak(self, source, view, first, last):
        for g in range(max(first, self.stable + 1), min(last, self.delivered) + 1):
            self.put("ORDER", source, self.view, g, self.held[g])

    def take_ack(self, source, view, count):
        if count <= self.delivered:
            self.acknowledge(source, count)
            self.order()

    def take_status(self, source, view, highest, stable):
        if stable <= self.delivered and highest <= self.delivered + WINDOW:
            self.collect(stable)
            self.ask(highest)

    def take_flush(self, source, proposal, members):
        if source != proposal[1] or self.me not in members:
            return
        if self.promised is not None and (proposal < self.promised or (proposal == self.promised and self.installed)):
            if proposal < self.promised:
                self.put("BEHIND", source, proposal, self.promised[0])
            return
        self.flush = None
        self.promised, self.promised_list, self.installed = proposal, members, False
        self.report()

    def take_behind(self, source, proposal, counter):
        if self.flush is not None and proposal == self.promised:
            self.heard = max(self.heard, counter)
            self.begin()

    def take_report(self, source, proposal, *report):
        if self.flush is not None and proposal == self.promised:
            if source in self.promised_list and source not in self.flush:
                self.flush[source] = report
                self.finish_if_complete()
        elif proposal == self.view and self.is_first() and source in self.kept:
            self.put("INSTALL", source, *self.kept[source])

    def take_install(self, source, proposal, members, base, entries, state):
        if source != proposal[1] or base > self.delivered or (self.view is None and (base or entries or not state)):
            return
        if proposal == self.promised and members == self.promised_list and not self.installed:
            self.joiners, self.merging = [], []
            self.install()

    def take_merge(self, source, view, members):
        if self.view is None or source in self.members:
            return
        if not self.leads():
            self.put("REDIRECT", source, self.first_unsuspected())
        elif source < self.me:
            if not self.blocked():
                self.put("MERGE", source, self.view, self.members)
        else:
            known = {*self.members, *self.joiners, *self.merging, *self.suspects}
            new = [member for member in members if member not in known]
            if new and len(self.candidates(self.joiners, self.merging + new)) <= MEMBERS:
                self.merging += new
                self.heard = max(self.heard, view[0])
            self.regroup()

    # Messages.

    def deliver(self, message):
        self.delivered += 1
        self.held[self.delivered] = message
        self.own += message[0] == self.me

    def order(self):
        while self.delivered - self.stable < WINDOW:
            sender = next((m for m in self.members if self.ordered[m] + 1 in self.waiting[m]), None)
            if sender is None:
                return
            self.ordered[sender] += 1
            n = self.ordered[sender]
            self.waiting[sender].remove(n)
            self.deliver((sender, n))
            for member in self.others():
                self.put("ORDER", member, self.view, self.delivered, (sender, n))
            self.acknowledge(self.me, self.delivered)

    def acknowledge(self, member, count):
        self.counts[member] = max(self.counts[member], count)
        self.collect(min(self.counts.values()))

    def collect(self, stable):
        while self.stable < stable:
            self.stable += 1
            self.held.pop(self.stable, None)

    def ask(self, highest):
        missing = [g for g in range(self.delivered + 1, highest + 1) if g not in self.held]
        if missing:
            self.put("NAK", self.members[0], self.view, missing[0], missing[-1])

    # Changes of the view.

    def candidates(self, joiners, merging):
        able = [m for m in dict.fromkeys([*self.members, *joiners, *merging]) if m == self.me or m not in self.suspects]
        return [m for m in able if m == self.me or not any(o[0] == m[0] and o[1] > m[1] for o in able)]

    def regroup(self):
        if not self.leads():
            return
        if not self.blocked():
            begins = tuple(self.candidates(self.joiners, self.merging)[:MEMBERS]) != self.members
        elif self.flush is not None:
            begins = not self.suspects.isdisjoint(self.promised_list)
        else:
            begins = self.promised[1] in self.suspects
        if begins:
            self.begin()

    def begin(self):
        members = self.candidates(self.joiners, self.merging)[:MEMBERS]
        self.promised = (1 + max(self.promised[0], self.heard), self.me)
        self.promised_list, self.installed = tuple(members), False
        self.flush = {self.me: self.own_report()}
        for member in members[1:]:
            self.put("FLUSH", member, self.promised, self.promised_list)
        self.finish_if_complete()

    def own_report(self):
        return self.view, self.stable, frozenset(self.held)

    def report(self):
        self.put("REPORT", self.promised[1], self.promised, *self.own_report())

    def finish_if_complete(self):
        if len(self.flush) < len(self.promised_list):
            return
        proposal, members, reports, mine = self.promised, self.promised_list, self.flush, self.view
        kept = {}
        for member in members[1:]:
            previous = reports[member][0]
            base, last = cut([report for report in reports.values() if report[0] == previous])
            kept[member] = proposal, members, base, last - base, previous != mine
        self.install()
        self.kept = kept
        for member in members[1:]:
            self.put("INSTALL", member, *kept[member])
        self.joiners = [joiner for joiner in self.joiners if joiner not in members]
        self.merging = [other for other in self.merging if other not in members]
        self.regroup()

    def install(self):
        self.view, self.members, self.installed = self.promised, self.promised_list, True
        self.flush, self.kept, self.suspects, self.heard = None, {}, set(), 0
        self.empty()


def cut(reports):
    """The cut of the view that these reports come from: the number that it begins after, and its last number."""
    base = last = max(stable for _, stable, _ in reports)
    while any(last + 1 in held for _, _, held in reports):
        last += 1
    return base, last


class World:
    """The nodes and what they put out. Packets that have not been delivered are in flight; of those that have, the last few are kept."""

    def __init__(self):
        self.lines = []
        self.running = {}
        self.incarnations = {}
        self.put_out = 0
        self.flight = []
        self.recent = []

    def runs(self, address):
        return address is not None and address[0] in self.running and self.running[address[0]].me == address

    def line(self, *words):
        self.lines.append(" ".join(map(spelled, words)))

    def say(self, event, node, *words):
        """An event at one node."""
        self.line(event, node, *words)
        if event == "start":
            if node not in self.running:
                self.incarnations[node] = self.incarnations.get(node, 0) + 1
                self.running[node] = Member((node, self.incarnations[node]))
        elif node in self.running:
            if event == "crash":
                del self.running[node]
            else:
                member = self.running[node]
                getattr(member, event)(*(words if event != "send" else ()))
                self.take_from(member)

    def deliver(self, packet):
        self.line("deliver", packet.number)
        member = self.running.get(packet.destination[0])
        if member is not None:
            member.datagram(packet)
            self.take_from(member)
        self.recent.append(packet)
        if len(self.recent) > 200:
            del self.recent[:100]

    def take_from(self, member):
        for packet in member.out:
            self.put_out += 1
            packet.number = self.put_out
        self.flight += member.out
        member.out = []
        if member.ended:
            del self.running[member.me[0]]


def spelled(word):
    return f"{word[0]}.{word[1]}" if isinstance(word, tuple) else str(word)


# How often, in 1,000 tries, each thing is tried; what is left over delivers a packet that is in flight.
RANDOM = {"send": 100, "tick": 40, "suspect": 5, "split": 1, "hint": 15, "leave": 1, "crash": 2, "again": 20, "refused": 6}
CHANGES = {"send": 30, "tick": 50, "suspect": 15, "split": 3, "hint": 40, "leave": 2, "crash": 4, "again": 20, "refused": 6}


def letters(chance):
    """What a member of a chat says."""
    return chance.choice("abcdefgh") * chance.randint(0, 5)


def command(chance):
    """What a member says that keeps a map: puts mostly, over a few keys, so that replacements and removals find some."""
    key, value = f"k{chance.randrange(40)}", chance.choice("abc") * chance.randrange(4)
    kind = chance.choices(["put", "remove", "replace", "clear"], [60, 15, 22, 3])[0]
    if kind == "put":
        return f"put {key} {value}"
    if kind == "remove":
        return f"remove {key}"
    if kind == "replace":
        return f"replace {key} {chance.choice(['-', 'a', 'b', 'cc', 'aaa', ''])} {value}"
    return "clear"


def schedule(seed, lines, nodes, often, says=letters):
    chance = random.Random(seed)
    world = World()
    world.says = says
    nodes = range(1, nodes + 1)
    tried, weights = [*often, "deliver"], [*often.values(), 1000 - sum(often.values())]
    while len(world.lines) < lines:
        down = [node for node in nodes if node not in world.running]
        if not world.running or (down and chance.random() < 0.05):
            world.say("start", chance.choice(down))
        else:
            try_one(world, chance, nodes, chance.choices(tried, weights)[0])
    return world


def settle(world):
    """Whoever has ended is suspected, time passes, and all that is in flight is delivered, in order: so often that what is outstanding is delivered and every flush ends."""
    for _ in range(40):
        for member in list(world.running.values()):
            for other in {**dict.fromkeys(member.members), **dict.fromkeys(member.promised_list)}:
                if not world.runs(other) and other not in member.suspects:
                    world.say("suspect", member.me[0], other)
            if world.runs(member.me):
                world.say("tick", member.me[0])
        flight, world.flight = world.flight, []
        while flight:
            for packet in flight:
                world.deliver(packet)
            flight, world.flight = world.flight, []


def try_one(world, chance, nodes, what):
    running = list(world.running.values())
    in_views = [member for member in running if member.view is not None]
    member = chance.choice(running)
    node = member.me[0]
    if member.view is None and chance.random() < 0.3 and not world.runs(member.contact):
        if in_views:
            world.say("join", node, chance.choice(in_views).me)
        else:
            world.say("create", node)
    elif what == "send":
        able = [member for member in in_views if not member.blocked()] if chance.random() < 0.9 else in_views
        world.say("send", chance.choice(able or running).me[0], world.says(chance))
    elif what == "suspect":
        world.say("suspect", node, suspected(world, chance, member))
    elif what == "split":
        split(world, chance, nodes)
    elif what == "hint":
        hint(world, chance, in_views or running)
    elif what == "again" and world.recent:
        world.deliver(chance.choice(world.recent))
    elif what == "refused":
        event = chance.choice(["start", "create", "send", "deliver"])
        if event == "deliver":
            world.line("deliver", world.put_out + 1000)
        else:
            nobody = "" if world.says is letters else "remove none"
            world.say(event, chance.choice(nodes), *[nobody] * (event == "send"))
    elif what in ("tick", "leave", "crash"):
        world.say(what, node)
    else:
        deliver_some(world, chance, member)


def suspected(world, chance, member):
    """A member of the view that has ended, where there is one and mostly; else any."""
    known = [address for address in {**dict.fromkeys(member.members), **dict.fromkeys(member.promised_list)} if address != member.me]
    ended = [address for address in known if not world.runs(address)]
    return chance.choice(ended if ended and chance.random() < 0.8 else known or [member.me])


def split(world, chance, nodes):
    """The nodes fall into two sides, and each member suspects those of its view that are on the other side."""
    side = {node for node in nodes if chance.random() < 0.5}
    for member in list(world.running.values()):
        for other in member.members:
            if (other[0] in side) != (member.me[0] in side) and world.runs(member.me):
                world.say("suspect", member.me[0], other)


def hint(world, chance, members):
    """A member is handed a suspect or a hint of another; one that leads its view of one outside, where there is such a pair."""
    pairs = [(m, o) for m in members if m.view is not None and m.leads() for o in members if o.me not in m.members]
    member, other = chance.choice(pairs) if pairs else (chance.choice(members), chance.choice(members))
    world.say("hint", member.me[0], other.me)


def deliver_some(world, chance, member):
    """One of the oldest packets in flight, mostly; now and then any, and now and then one is lost. Where none is in flight, time passes."""
    flight = world.flight
    while len(flight) > 300:
        flight.pop(chance.randrange(100))
    if not flight:
        world.say("tick", member.me[0])
        return
    packet = flight.pop(chance.randrange(min(len(flight), 4)) if chance.random() < 0.9 else chance.randrange(len(flight)))
    if chance.random() >= 0.02:
        world.deliver(packet)


def steady(lines, members=5, says=lambda k: f"message {k}"):
    world = World()

    def settle():
        while world.flight:
            world.deliver(world.flight.pop(0))

    for node in range(1, members + 1):
        world.say("start", node)
    world.say("create", 1)
    for node in range(2, members + 1):
        world.say("join", node, (1, 1))
        settle()
    while len(world.lines) < lines:
        world.say("send", 2, says(len(world.lines)))
        settle()
    return world.lines[:lines]


def main(words):
    if len(words) == 4 and words[0] in ("random", "changes"):
        seed, lines, nodes = map(int, words[1:])
        made = schedule(seed, lines, nodes, RANDOM if words[0] == "random" else CHANGES).lines[:lines]
    elif len(words) == 4 and words[0] == "maps":
        seed, lines, nodes = map(int, words[1:])
        world = schedule(seed, lines, nodes, RANDOM, command)
        settle(world)
        made = world.lines
    elif len(words) == 2 and words[0] == "puts":
        made = steady(int(words[1]), says=lambda k: f"put key{k % 1000:03} message {k}")
    elif len(words) in (2, 3) and words[0] == "steady":
        made = steady(*map(int, words[1:]))
    else:
        sys.exit(__doc__)
    sys.stdout.write("\n".join(made) + "\n")


if __name__ == "__main__":
    main(sys.argv[1:])
