"""Accidents of groups with a key, for tests/accidents: their datagrams are sealed frames (docs/WIRE.md, "Frames")."""
import os
import time

import accidents_net
from accidents_cases import accident, says_on

# The most bytes of a frame.
FRAME = 1400
# How many datagrams strangers send a second, and for how many seconds.
STRANGERS, FLOOD = 10_000, 10
LINES = 300


def give_key(group, name, *numbers):
    """From their next start on these nodes have the key of this name; all, if none are named."""
    key = group.folder / f"key.{name}"
    if not key.exists():
        key.write_bytes(os.urandom(32))
    for node in group.all(numbers):
        node.options = [*group.options, "--key-file", str(key)]


def strange(node):
    return int(node.seen().get("strange", "0"))


def keep(net, most):
    """The last datagrams that the network carries, from now on: from whom, to whom, and their bytes."""
    kept, carry = [], net.carry

    def carry_and_keep(one, other, datagram):
        kept.append((one, other, datagram))
        del kept[:-most]
        carry(one, other, datagram)

    net.carry = carry_and_keep
    return kept


@accident(4)
def group_with_a_key(group):
    """All have one key. The group parts and comes together, one of four is killed and started again; nothing is counted as strange."""
    give_key(group, "one")
    group.come_together()
    group.net.part((1, 2), (3, 4))
    group.one_view(1, 2)
    group.one_view(3, 4)
    group.net.heal()
    group.note("one view", group.one_view(within=15))
    group.kill(group[1])
    group.one_view(2, 3, 4)
    group[1].start()
    group.one_view(within=15)
    group.talk()
    group.wait(1.5)
    group.expect(all(strange(node) == 0 for node in group.all()), "something is counted as strange")


@accident(4)
def node_with_another_key(group):
    """Node 3 has another key, node 4 has none. Neither is heard; whoever has a key counts what it drops. Started again with the key of the others they are let in."""
    give_key(group, "one", 1, 2)
    give_key(group, "other", 3)
    group.start()
    group.one_view(1, 2)
    group.one_view(3)
    group.one_view(4)
    group.talk(1, 2)
    group.wait(1.5)
    group.expect(all(strange(node) > 0 for node in group.all([1, 2, 3])), "a node counts nothing as strange")
    group.kill(group[3], group[4])
    give_key(group, "one", 3, 4)
    group.start(3, 4)
    group.note("one view", group.one_view(within=15))
    group.talk()


def long_state(group, within):
    """Node 1 has a chat of a megabyte; node 2 is started, let in, and has it."""
    give_key(group, "one")
    group.long_chat()
    yield
    group[2].start()
    group.note("one view", group.one_view(within=within))
    group.expect(group[2].chat == group[1].chat, "node 2 has another chat")
    group.net.heal()
    group.talk()


@accident(2)
def long_state_in_short_frames(group):
    """The chat has a megabyte, and the network drops each datagram over 1,400 bytes. Node 2 is let in, and has all of it."""
    for _ in long_state(group, 15):
        for link in group.net.each():
            link.longest = FRAME


@accident(2, limit=90)
def long_state_in_frames_from_far(group):
    """The chat has a megabyte, each datagram takes 30 to 50 ms, so that pieces come out of order, and one in a hundred is lost. Node 2 is let in, and has all of it."""
    for _ in long_state(group, 45):
        for link in group.net.each():
            link.delay, link.loss = (0.03, 0.05), 0.01


@accident(2, limit=90)
def long_state_in_frames_of_which_a_tenth_is_lost(group):
    """The chat has a megabyte, and one frame in ten is lost, so that of a long packet some piece nearly always is. Node 2 is let in, and has all of it."""
    for _ in long_state(group, 45):
        for link in group.net.each():
            link.loss = 0.1


@accident(4)
def frames_lost_and_repeated(group):
    """For eight seconds a third of all frames is lost, a tenth comes twice, and each takes up to 30 ms. What is said is told to all; one view when it is over."""
    give_key(group, "one")
    group.come_together()
    for link in group.net.each():
        link.loss, link.repeat, link.delay = 0.33, 0.1, (0.0, 0.03)
    says_on(group, [1, 2, 3, 4], [], 8)
    group.net.heal()
    group.note("one view", group.one_view(within=10))
    group.talk()


def strange_datagrams(group, kept):
    """Datagrams of strangers, one after another, each with the node that it is for and the one whose address it is sent from: noise, packets without a key, frames of before, damaged ones."""
    joins = 0
    while True:
        one, other, frame = kept[joins % len(kept)]
        joins += 1
        yield one, other, frame
        yield one, other, bytes([frame[0], frame[1] ^ 1]) + frame[2:]
        yield one, other, os.urandom(1 + joins % FRAME)
        yield one, other, accidents_net.packet(accidents_net.JOIN, b"accidents", f"{one}.{4_000_000_000 + joins}", group[other].address)


@accident(3, limit=90)
def strangers_forge_addresses(group):
    """For ten seconds 10,000 datagrams a second come that others made, from the addresses of nodes. No view changes, and what is said is told in less than twice the time and a second."""
    give_key(group, "one")
    group.come_together()
    kept = keep(group.net, 500)
    group.talk()
    lines = [f"quiet {place}" for place in range(LINES)]
    group[2].say(*lines)
    quiet = group.told(lines, within=20)
    views = [node.installs for node in group.all()]
    forged = strange_datagrams(group, kept)
    lines = [f"loud {place}" for place in range(LINES)]
    group[2].say(*lines)
    begun, loud, sent = time.monotonic(), None, 0
    while time.monotonic() - begun < FLOOD:
        while sent < (time.monotonic() - begun) * STRANGERS:
            group.net.hand_over(*next(forged))
            sent += 1
        group.net.play(0.001)
        group.look()
        if loud is None and all(node.has(line) for node in group.all() for line in lines[-1:]):
            loud = time.monotonic() - begun
    group.notes.append(f"{sent} datagrams, {LINES} lines told within {quiet:.2f} s without them and {loud if loud is None else round(loud, 2)} s among them")
    group.expect_in_time(loud is not None and loud < 2 * quiet + 1, "what is said is told too late")
    group.told(lines, within=10)
    group.expect_in_time([node.installs for node in group.all()] == views, "a view changed")
    group.wait(1.5)
    group.expect(all(strange(node) > 0 for node in group.all()), "nothing is counted as strange")
    group.talk()
