"""Accidents of tests/accidents, those of everyday: each a function of a group, whose words say what happens and what must come of it. Others are in accidents_more.

A group has the settings' `silent` of 50 rounds of 20 ms: a second. In every accident all texts must hold as one trace in the end, all nodes must end with status 0 by the
line that ends them, and all of it must be over within the limit."""
import socket
import time

import accidents_net
from accidents_group import TICK

# In seconds: how long a flush may stop a group, beside what a busy machine adds.
SILENCE = 50 * TICK
BUSY = 0.6
CASES = {}


def accident(count, limit=60, **more):
    """Notes a function as an accident of so many nodes, with its limit in seconds."""
    def note(does):
        CASES[does.__name__] = (does, count, limit, more)
        return does
    return note


def says_on(group, speakers, hearers, seconds, within=3, word="on"):
    """Each of the speakers says a line each half second, for so long; the hearers must be told each within some seconds. It answers the lines, and the longest time that one took."""
    waiting, lines, longest = [], [], 0.0
    end = time.monotonic() + seconds
    due = 0.0
    while time.monotonic() < end or waiting:
        if time.monotonic() >= due and time.monotonic() < end:
            due = time.monotonic() + 0.5
            for number in speakers:
                line = f"{word} {number} {len(lines)}"
                lines.append(line)
                group[number].say(line)
                waiting.append((line, time.monotonic()))
        group.wait(0.02)
        left = []
        for line, said in waiting:
            if all(group[number].has(line) for number in hearers):
                longest = max(longest, time.monotonic() - said)
            else:
                group.expect_in_time(time.monotonic() - said < within, f"within {within} s not told to {hearers}: {line}")
                left.append((line, said))
        waiting = left
    return lines, longest


def never_stops(group, *numbers):
    """That a flush never stopped these nodes for longer than the silence."""
    longest = max(group[number].longest_block for number in numbers)
    group.note("blocked at most", longest)
    group.expect_in_time(longest <= SILENCE + BUSY, f"a node was blocked for {longest:.1f} s")


@accident(3)
def first_node_starts_again(group):
    """Node 1 made the group, is killed, and is started again by the same command at once. One view of all, with the chat that the others went on with."""
    group.come_together()
    group.talk()
    group.kill(group[1])
    group[2].say("meanwhile")
    group[1].start()
    group.note("one view", group.one_view(within=10))
    group.told(["meanwhile"])
    group.talk()


@accident(3)
def contact_of_yesterday(group):
    """Node 1 is a later incarnation by now; node 3 is started with the contact 1.1. It is let in."""
    group.come_together(1, 2)
    group.kill(group[1])
    group[1].start()
    group.one_view(1, 2, within=10)
    group[3].start("--contact", "1.1")
    group.note("one view", group.one_view(within=15))
    group.talk()


@accident(2)
def contact_not_there_yet(group):
    """Node 2 is started three seconds before node 1, each by the same command. One view of both."""
    group[2].start()
    group.wait(3)
    group[1].start()
    group.note("one view", group.one_view(within=10))
    group.talk()


@accident(2)
def two_make_a_group_at_once(group):
    """Two nodes are started at once, each by the command that makes a group if there is none. One group."""
    group.start()
    group.note("one view", group.one_view(within=10))
    group.talk()


def hears_nothing(group, number):
    group.net.cut([other for other in group.nodes if other != number], [number])


@accident(3)
def newcomer_that_cannot_be_reached(group):
    """Node 3 can be heard but not reached. The two others are told what they say, and no flush stops them for longer than the silence; once it can be reached it is let in."""
    group.come_together(1, 2)
    hears_nothing(group, 3)
    group[3].start()
    _, longest = says_on(group, [1, 2], [1, 2], 12)
    group.note("told within", longest)
    never_stops(group, 1, 2)
    group.net.heal()
    group.note("one view", group.one_view(within=15))
    group.talk()


@accident(3, limit=75, options=("--long",))
def newcomer_that_cannot_be_reached_by_contact(group):
    """The same without --find: node 3 asks the contact 1.1 again and again. It is let in within a pause of the net, once it can be reached."""
    unreachable_by_contact(group, [1, 2])


@accident(3, limit=75, options=("--long",))
def newcomer_that_a_lone_node_cannot_reach(group):
    """The same of a lone coordinator, without --find. It is told what it says, and node 3 is let in within a pause of the net, once it can be reached."""
    unreachable_by_contact(group, [1])


def unreachable_by_contact(group, there):
    group.come_by_contact(*there)
    hears_nothing(group, 3)
    group[3].start("--contact", "1.1")
    before = group[1].installs
    # What another says may be handed back in a change of views, and without --find nobody says it again.
    _, longest = says_on(group, [1], there, 12)
    group.note("told within", longest)
    never_stops(group, *there)
    group.notes.append(f"{group[1].installs - before} views in 12 s")
    group.net.heal()
    group.note("one view", group.one_view(*there, 3, within=20))
    group.talk(*there, 3)


@accident(3, limit=75)
def newcomer_behind_a_bad_link(group):
    """Nine of ten datagrams to node 3 are lost, and it is started. The others are told what they say, and no flush stops them for longer than the silence."""
    group.come_together(1, 2)
    for link in group.net.each(others=[3]):
        link.loss = 0.9
    group[3].start()
    before = group[1].installs
    _, longest = says_on(group, [1, 2], [1, 2], 15, within=6)
    group.note("told within", longest)
    never_stops(group, 1, 2)
    group.notes.append(f"{group[1].installs - before} views in 15 s")
    group.net.heal()
    group.note("one view", group.one_view(within=25))
    group.talk()


@accident(3)
def one_way_inside(group):
    """Nothing goes from node 1 to node 3, in the view of 1, 2 and 3. Two of them go on; once the network is whole all are one view."""
    group.come_together()
    group.net.cut([1], [3])
    pairs = ((1, 2), (2, 3))
    group.note("two go on after", group.until(lambda: any(is_pair(group, pair) for pair in pairs), 15, "a view of two that hear each other"))
    pair = next(pair for pair in pairs if is_pair(group, pair))
    _, longest = says_on(group, pair, pair, 8)
    group.note("told within", longest)
    group.net.heal()
    group.note("one view", group.one_view(within=15))
    group.talk()


def is_pair(group, pair):
    """Whether two nodes are in a view of both, whoever else is in it, and neither is blocked."""
    one, other = (group[number] for number in pair)
    return one.view is not None and one.view == other.view and len(one.members) == 2 and one.blocked_since is None and other.blocked_since is None


@accident(3)
def parted_and_the_first_gone(group):
    """Nodes 2 and 3 are parted, and their coordinator dies; the network is whole again. They are one view, and node 1 comes back into it."""
    group.come_together()
    group.net.part([2], [3])
    group.kill(group[1])
    group.wait(4)
    group.net.heal()
    group.note("one view of 2 and 3", group.one_view(2, 3, within=10))
    group.talk(2, 3)
    group[1].start()
    group.note("one view of all", group.one_view(within=10))


@accident(3, options=("--long",))
def parted_and_the_first_gone_without_words(group):
    """The same without --find, nodes 2 and 3 alone: they seek each other, since each was in the other's view."""
    group.come_by_contact()
    group.net.part([2], [3])
    group.kill(group[1])
    group.wait(4)
    group.net.heal()
    group.note("one view of 2 and 3", group.one_view(2, 3, within=10))
    group.talk(2, 3)


@accident(3, limit=90)
def no_long_datagrams(group):
    """The network drops datagrams over 1,472 bytes; the chat has 6 KB, and node 3 is started. It cannot be let in; but the others are told what they say in time."""
    for link in group.net.each():
        link.longest = accidents_net.FRAME
    group[1].start()
    group.one_view(1)
    group[2].start()
    group.one_view(1, 2)
    long = [f"{place} " + "x" * 400 for place in range(15)]
    for line in long:
        group[1].say(line)
    group.told(long, 1, 2)
    group[3].start()
    _, longest = says_on(group, [1, 2], [1, 2], 30, within=15)
    group.note("told within", longest)
    group.net.heal()
    group.note("one view", group.one_view(within=40))
    group.told(long)


@accident(3)
def sleeper_overwrites_nothing(group):
    """Node 1, the coordinator, sleeps four seconds while 2 and 3 go on. In the end all have what those said, once; so node 1 gave its place up."""
    group.come_together()
    group.talk()
    before, begun = group[1].starts, time.monotonic()
    group[1].stop()
    group.note("two go on after", group.one_view(2, 3, within=10))
    group[2].say("while it slept")
    group[3].say("this too")
    group.told(["while it slept", "this too"], 2, 3)
    group.wait(max(begun + 4 - time.monotonic(), 0))
    group[1].go_on()
    group.note("one view", group.one_view(within=10))
    group.told(["while it slept", "this too"])
    group.expect(all(node.count("this too") == 1 for node in group.all()), "a line is there twice")
    group.expect(group[1].starts == before + 1, f"node 1 began again {group[1].starts - before} times")
    group.talk()


@accident(3)
def stranger_sends_a_merge(group):
    """A MERGE with the counter 2^62 - 1 comes from elsewhere, and from the address of a listed node. Nobody is blocked, and no view changes."""
    group.come_together()
    absurd_merges(group)


@accident(3, options=("--long",))
def stranger_sends_a_merge_without_words(group):
    """The same without --find."""
    group.come_by_contact()
    absurd_merges(group)


def absurd_merges(group):
    views = [node.installs for node in group.all()]
    body = accidents_net.view(2**62 - 1, ["9.1"])
    listed = accidents_net.view(2**62 - 1, ["3.7"])
    with socket.socket(socket.AF_INET, socket.SOCK_DGRAM) as stranger:
        for node in group.all():
            for source, view in (("9.1", body), ("3.7", listed)):
                stranger.sendto(accidents_net.packet(accidents_net.MERGE, b"accidents", source, node.address, view), (group.net.host(node.number), group.net.ports[node.number]))
    for number in (1, 2):
        group.net.hand_over(3, number, accidents_net.packet(accidents_net.MERGE, b"accidents", "3.7", group[number].address, listed))
    _, longest = says_on(group, [1, 2, 3], [1, 2, 3], 4)
    group.note("told within", longest)
    group.expect_in_time([node.installs for node in group.all()] == views, "a view changed")
