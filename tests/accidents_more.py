"""More accidents of tests/accidents, as those of accidents_cases."""
import resource
import socket
import subprocess
import time

import accidents_net
from accidents_cases import accident, says_on
from accidents_group import VSYNC, die_with_parent


@accident(5)
def power_cut(group):
    """All five are killed at once, and started at once by the same commands. One view; what they had said is gone, as the documents say."""
    group.come_together()
    group.talk(word="before")
    group.kill(*group.all())
    group.start()
    group.note("one view", group.one_view(within=10))
    group.expect(all(node.chat == [] for node in group.all()), "a line of before is there")
    group.talk()


@accident(16, limit=45)
def sixteen_at_once(group):
    """Sixteen nodes are started at once. One view of all."""
    group.start()
    group.note("one view", group.one_view(within=20))
    group.talk()


@accident(4)
def machine_sleeps(group):
    """All nodes sleep four seconds, as on one machine that is suspended, and wake at once. One view, and nobody began again."""
    group.come_together()
    before = [node.starts for node in group.all()]
    for node in group.all():
        node.stop()
    group.wait(4)
    for node in group.all():
        node.go_on()
    group.wait(0.5)
    group.note("one view", group.one_view(within=5))
    group.talk()
    group.expect_in_time([node.starts for node in group.all()] == before, "a node began again")


@accident(2)
def second_of_two_sleeps(group):
    """Node 2 of two sleeps three seconds, and node 1 goes on alone. Both have what node 1 said meanwhile. (By its name alone: no rule says yet which of two wins.)"""
    one_of_two_sleeps(group, group[2], group[1])


@accident(2)
def first_of_two_sleeps(group):
    """The same, and node 1 sleeps."""
    one_of_two_sleeps(group, group[1], group[2])


def one_of_two_sleeps(group, sleeper, other):
    group.come_together()
    sleeper.stop()
    group.one_view(other.number, within=5)
    other.say("while it slept")
    group.wait(2)
    sleeper.go_on()
    group.note("one view", group.one_view(within=15))
    group.told(["while it slept"])


@accident(4)
def two_of_four_sleep(group):
    """Nodes 3 and 4 of four sleep three seconds, and the two others go on. All have what those said meanwhile."""
    group.come_together()
    for node in group.all((3, 4)):
        node.stop()
    group.one_view(1, 2, within=10)
    group.talk(1, 2, word="two of four")
    lines = [payload for _, payload in group[1].chat]
    group.wait(1.5)
    for node in group.all((3, 4)):
        node.go_on()
    group.note("one view", group.one_view(within=15))
    group.expect(all([payload for _, payload in node.chat][:len(lines)] == lines for node in group.all()), "what the two said is lost")


@accident(4)
def two_and_two(group):
    """Four are parted two and two for five seconds. One half gives its place up, once; what is said while the network is whole again is told to all."""
    group.come_together()
    before = {node.number: node.starts for node in group.all()}
    group.net.part([1, 2], [3, 4])
    group.one_view(1, 2, within=10)
    group.one_view(3, 4, within=10)
    group.wait(3)
    group.net.heal()
    group.note("one view", group.one_view(within=10))
    again = {number for number, starts in before.items() if group[number].starts > starts}
    group.expect(again in ({1, 2}, {3, 4}) and all(group[number].starts == before[number] + 1 for number in again), f"{sorted(again)} began again")
    group.talk()


@accident(3)
def star_around_the_first(group):
    """Nodes 2 and 3 never reach each other, and both reach node 1. The greatest view goes on, nobody is blocked for long, and views do not change without end."""
    group.net.part([2], [3])
    group.start()
    group.until(lambda: any(len(node.members) > 1 for node in group.all()), 10, "a view of two or more")
    group.wait(6)
    before = sum(node.installs + node.starts for node in group.all())
    first = group[1]
    group.until(lambda: first.view is not None and len(first.members) > 1 and first.blocked_since is None, 5, "node 1 in a view of two or more")
    pair = [number for number in group.nodes if group[number].address in first.members]
    says_on(group, pair, pair, 5)
    after = sum(node.installs + node.starts for node in group.all()) - before
    group.notes.append(f"{after} changes in 5 s")
    group.expect_in_time(after <= 8, f"{after} installs and starts in 5 s")
    group.net.heal()
    group.note("one view", group.one_view(within=15))
    group.talk()


@accident(3)
def star_around_another(group):
    """Nodes 1 and 2 never reach each other, and both reach node 3. As above."""
    group.net.part([1], [2])
    group.start()
    middle = group[3]
    group.until(lambda: middle.view is not None and len(middle.members) > 1 and middle.blocked_since is None, 15, "node 3 in a view of two or more")
    group.wait(6)
    before = sum(node.installs + node.starts for node in group.all())
    group.until(lambda: middle.view is not None and len(middle.members) > 1 and middle.blocked_since is None, 5, "node 3 in a view of two or more")
    pair = [number for number in group.nodes if group[number].address in middle.members]
    says_on(group, pair, pair, 5)
    after = sum(node.installs + node.starts for node in group.all()) - before
    group.notes.append(f"{after} changes in 5 s")
    group.expect_in_time(after <= 8, f"{after} installs and starts in 5 s")
    group.net.heal()
    group.note("one view", group.one_view(within=15))
    group.talk()


@accident(3, limit=90)
def coordinator_sleeps_again_and_again(group):
    """The coordinator of the view sleeps six times for one to three seconds. What the two others say is told to all, once; but one that parted from the other too, and gave way, began
    again, and what it said alone may be lost."""
    group.come_together()
    group.talk()
    said = []
    for turn in range(6):
        first = next(node for node in group.all() if node.address == group[1].members[0])
        others = [(node, node.address, f"turn {turn} of {node.number}") for node in group.all() if node is not first]
        first.stop()
        for node, _, line in others:
            node.say(line)
        group.wait(1 + turn % 3)
        first.go_on()
        group.one_view(within=15)
        said += [line for node, address, line in others if node.address == address]
        group.told(said, within=10)
    group.expect(all(node.count(line) == 1 for node in group.all() for line in said), "a line is there twice")
    group.talk()


@accident(3)
def lines_while_it_slept(group):
    """Forty lines are added to the file of a node that sleeps three seconds. They are told to all, once and in order."""
    group.come_together()
    group[2].stop()
    lines = [f"kept {place:02}" for place in range(40)]
    group[2].say(*lines)
    group.wait(3)
    group[2].go_on()
    group.note("told", group.told(lines, within=15))
    group.one_view(within=10)
    wanted = [line.encode() for line in lines]
    group.expect(all([payload for _, payload in node.chat if payload in wanted] == wanted for node in group.all()), "the lines are not there once and in order")


@accident(3, options=("--find", "--long", "--quorum", "2"))
def quorum_keeps_lines(group):
    """With `--quorum 2` a node that is parted from the two others is given lines. It says none to itself: all are told them, once, when the network is whole again."""
    group.come_together()
    group.net.part([1, 2], [3])
    group.one_view(1, 2, within=10)
    group.one_view(3, within=10)
    lines = [f"parted {place}" for place in range(12)]
    group[3].say(*lines)
    group.wait(3)
    group.expect(group[3].chat == [], "it says lines to itself")
    group.expect(group[3].errors.read_text().strip() != "", "it does not say that it cannot send")
    group.talk(1, 2)
    group.net.heal()
    group.note("one view", group.one_view(within=10))
    group.told(lines, within=10)
    group.expect(all(node.count(line) == 1 for node in group.all() for line in lines), "a line is there twice")


@accident(3)
def lines_that_came_back(group):
    """Twelve lines of a node go to a coordinator that is dead; eight of them come back with the next view. It says them again: all are told all, once and in order."""
    group.come_together()
    group.kill(group[1])
    lines = [f"to nobody {place:02}" for place in range(12)]
    group[2].say(*lines)
    group.note("told", group.told(lines, 2, 3, within=10))
    group[1].start()
    group.one_view(within=10)
    group.told(lines)
    wanted = [line.encode() for line in lines]
    group.expect(all([payload for _, payload in node.chat if payload in wanted] == wanted for node in group.all()), "the lines are not there once and in order")


ACQUIRE, RELEASE = 1, 2


def command(kind, view, name):
    """A command of the table of locks as a payload."""
    counter, _, creator = view.partition("@")
    return accidents_net.number(kind, 1) + accidents_net.number(int(counter), 8) + accidents_net.address(creator) + accidents_net.number(len(name), 1) + name.encode()


@accident(3, options=("--locks",))
def release_that_came_back(group):
    """Node 2 holds a lock for which node 3 waits, and its release goes to a coordinator that is dead; it comes back with the next view. Node 2 sends it again, in that view:
    node 3 holds the lock."""
    group.come_by_contact()
    holder, waiter = group[2], group[3]
    for node in (holder, waiter):
        asks = (node.address, command(ACQUIRE, node.view, "job"))
        node.say("acquire job")
        group.until(lambda: all(asks in other.chat for other in (holder, waiter)), 5, f"node {node.number} asks for the lock")
    old = command(RELEASE, holder.view, "job")
    group.kill(group[1])
    holder.say("release job")
    group.one_view(2, 3, within=10)
    view = holder.view
    group.expect(holder.back == (old,), "the release does not come back")
    again = (holder.address, command(RELEASE, view, "job"))
    group.note("sent again", group.until(lambda: again in holder.chat and again in waiter.chat, 5, "node 2 does not send its release again"))
    group.finish()
    granted = [f"{view}/1", f"6a6f62:{waiter.address}:{view}/1:"]
    group.expect(holder.last_locks == waiter.last_locks == granted, f"the locks are {holder.last_locks} and {waiter.last_locks}, not {granted}")


@accident(3)
def line_that_is_too_long(group):
    """A line of more than 512 bytes is added to a node's file, between two others. It is told on the standard error, the two others are said, and the node goes on."""
    group.come_together()
    group[2].say("before it", "x" * 513, "behind it")
    group.told(["before it", "behind it"])
    group.expect(group[2].errors.read_text().count("\n") > 1, "the standard error does not say so")
    group.talk()


@accident(3)
def incarnation_files_lost(group):
    """Nodes 1 and 2 are killed; the file of the one's incarnation is lost, that of the other is spoiled. Both come back, as later incarnations."""
    group.come_together()
    before = [group[number].address for number in (1, 2)]
    group.kill(group[1], group[2])
    group.wait(1.1)
    group[1].incarnation.unlink()
    group[2].incarnation.write_text("none\n")
    group.start(1, 2)
    group.note("one view", group.one_view(within=10))
    after = [group[number].address for number in (1, 2)]
    group.expect(all(int(new.split(".")[1]) > int(old.split(".")[1]) for old, new in zip(before, after)), f"{after} after {before}")
    group.talk()


@accident(3)
def strangers_ask_without_end(group):
    """Three thousand JOINs come from elsewhere, of nodes that are listed and that are not, and as many of an unlisted node from a listed one's address. Nothing changes."""
    group.come_together()
    views = [node.installs for node in group.all()]
    with socket.socket(socket.AF_INET, socket.SOCK_DGRAM) as stranger:
        for turn in range(60):
            for place in range(50):
                node = group[1 + place % 3]
                source = f"{(3, 9, 2)[place % 3]}.{4_000_000_000 + turn * 50 + place}"
                join = accidents_net.packet(accidents_net.JOIN, b"accidents", source, node.address)
                stranger.sendto(join, (group.net.host(node.number), group.net.ports[node.number]))
                group.net.hand_over(3 if node.number != 3 else 1, node.number, accidents_net.packet(accidents_net.JOIN, b"accidents", f"9.{turn * 50 + place + 1}", node.address))
            group.wait(0.05)
    group.talk()
    group.expect_in_time([node.installs for node in group.all()] == views, "a view changed")


@accident(3, limit=75)
def map_among_chats(group):
    """Node 3 keeps a map among chats: it can read no state that it is given. The others go on; it begins again with growing pauses, until it keeps a chat too."""
    group.come_together(1, 2)
    # A chat that no map can read.
    group[1].say("not a map's state")
    group.told(["not a map's state"], 1, 2)
    group[3].options = ["--find", "--map"]
    group[3].start()
    _, longest = says_on(group, [1, 2], [1, 2], 12)
    group.note("told within", longest)
    group.notes.append(f"{group[3].starts} starts")
    group.expect_in_time(2 <= group[3].starts <= 6, f"it began {group[3].starts} times in 12 s")
    group.kill(group[3])
    group[3].options = list(group.options)
    group[3].start()
    group.note("one view", group.one_view(within=15))
    group.talk()


@accident(2, options=("--long",))
def map_among_chats_without_words(group):
    """The same without --find: node 2 says why, and ends with status 5."""
    group[1].start()
    group.one_view(1)
    group[1].say("not a map's state")
    group.told(["not a map's state"], 1)
    group[2].options = ["--map"]
    group.may_end_with = {2: 5}
    group[2].start("--contact", "1.1")
    group.until(lambda: not group[2].is_running(), 10, "node 2 ends")
    group.expect(group[2].errors.read_text().strip() != "", "it does not say why")
    group.one_view(1, within=10)
    group.talk(1)


@accident(3)
def status_of_nodes(group):
    """What `--status` writes is what the texts say, within two seconds: the view, the coordinator, who is sought, and how many datagrams came from elsewhere."""
    group.come_together()
    group.talk()
    group.until(lambda: all(is_told(node, "", "3") for node in group.all()), 2, "a status of three")
    group.kill(group[3])
    group.one_view(1, 2, within=10)
    group.until(lambda: all(is_told(node, "3", "0") for node in group.all((1, 2))), 2, "a status of two")
    with socket.socket(socket.AF_INET, socket.SOCK_DGRAM) as stranger:
        for _ in range(7):
            stranger.sendto(accidents_net.packet(accidents_net.JOIN, b"accidents", "3.7", group[1].address), (group.net.host(1), group.net.ports[1]))
    group.until(lambda: int(group[1].seen()["strange"]) == 7, 3, "seven strangers")


def is_told(node, sought, stable):
    """Whether a node's status says what its text says, with these nodes sought and this many messages stable."""
    wanted = {"address": node.address, "view": node.view, "members": " ".join(node.members), "coordinator": node.members[0] if node.members else "", "blocked": "",
              "outstanding": "0", "stable": stable, "sought": sought, "strange": "0"}
    return node.seen() == wanted and time.time() - node.status.stat().st_mtime < 2


@accident(3, silent=150)
def status_of_a_blocked_node(group):
    """Nothing goes from node 2 to node 1, and node 3 is started, with three seconds of silence: node 2 is blocked, and its status says so. One view when all is whole."""
    group.come_together(1, 2)
    group.net.cut([2], [1])
    group[3].start()
    group.until(lambda: group[2].seen().get("blocked") in ("2", "3"), 12, "the status of node 2 says that it is blocked")
    group.net.heal()
    group.note("one view", group.one_view(within=20))
    group.talk()


@accident(3)
def flapping_network(group):
    """Node 3 is cut off for 0.7 s and heard for 0.5 s, in turn for twelve seconds. The others are told what they say; one view when it is over."""
    group.come_together()
    waiting = []
    for turn in range(10):
        group.net.part([1, 2], [3])
        for number in (1, 2):
            waiting.append(f"flap {turn} of {number}")
            group[number].say(waiting[-1])
        group.wait(0.7)
        group.net.heal()
        group.wait(0.5)
    group.note("told after it", group.told(waiting, 1, 2, within=10))
    group.note("one view", group.one_view(within=10))
    group.talk()


@accident(3)
def killed_and_started_again_and_again(group):
    """Node 2 is killed and started again six times, a second or less after each other. One view, and what the others said is there."""
    group.come_together()
    lines = []
    for turn in range(6):
        group.kill(group[2])
        group.wait(0.15 * turn)
        group[2].start()
        lines.append(f"start {turn}")
        group[1 if turn % 2 else 3].say(lines[-1])
        group.wait(0.4)
    group.note("one view", group.one_view(within=10))
    group.told(lines)


@accident(3)
def killed_as_it_speaks(group):
    """Node 2 is given a thousand lines and killed in the midst of them, six times. One view; and what another was told of them is in the text of node 2, as sent."""
    group.come_together()
    for turn in range(6):
        group[2].say(*(f"{turn} {place:04}" for place in range(1000)))
        group.until(lambda: group[1].has(f"{turn} 0050"), 10, "the lines of node 2 are told")
        group.kill_soon(group[2], 0.05 + 0.0037 * turn)
        group[2].start()
        group.one_view(within=15)
    group.talk()


@accident(3, options=("--find", "--long", "--stable"))
def stable_messages_are_told(group):
    """Each of three says a line. In the end the text of each tells that the three messages of the view are stable; of no view it tells of as few as before, or fewer."""
    group.come_together()
    group.talk()
    group.note("stable", group.until(lambda: all(node.stable[-1:] == [(node.view, 3)] for node in group.all()), 5, "three stable messages are told"))
    for node in group.all():
        group.expect(all(now > before for (one, before), (other, now) in zip(node.stable, node.stable[1:]) if one == other), f"node {node.number} tells of as few as before")


@accident(4)
def a_third_of_all_lost(group):
    """For eight seconds a third of all datagrams is lost and a tenth repeated. What is said is told to all; one view when it is over."""
    group.come_together()
    for link in group.net.each():
        link.loss, link.repeat = 0.33, 0.1
    lines, _ = says_on(group, [1, 2, 3, 4], [], 8)
    group.net.heal()
    group.note("one view", group.one_view(within=10))
    group.talk()


@accident(4)
def machines_that_stutter(group):
    """For twelve seconds one node after another is stopped for 0.4 s. What is said is told to all, and no view changes."""
    group.come_together()
    before = [node.installs + node.starts for node in group.all()]
    lines = []
    for turn in range(30):
        node = group[1 + turn % 4]
        node.stop()
        lines.append(f"stutter {turn}")
        group[1 + (turn + 1) % 4].say(lines[-1])
        group.wait(0.4)
        node.go_on()
    group.note("told after it", group.told(lines, within=5))
    group.expect_in_time([node.installs + node.starts for node in group.all()] == before, "a view changed")


@accident(4)
def flood_of_lines(group):
    """Two nodes are given three thousand lines each at once. All are told all of them, and no view changes meanwhile."""
    group.come_together()
    before = [node.installs + node.starts for node in group.all()]
    for number in (2, 3):
        group[number].say(*(f"{number} {place:04}" for place in range(3000)))
    group.note("told", group.until(lambda: all(len(node.chat) == 6000 for node in group.all()), 30, "six thousand lines told to all"))
    for number in (2, 3):
        wanted = [f"{number} {place:04}".encode() for place in range(3000)]
        group.expect(all([payload for _, payload in node.chat if payload[:1] == wanted[0][:1]] == wanted for node in group.all()), f"the lines of {number} are not in order")
    group.expect_in_time([node.installs + node.starts for node in group.all()] == before, "a view changed")


@accident(3)
def slow_network(group):
    """Each datagram takes 50 to 250 ms. One view of all, and what is said is told."""
    for link in group.net.each():
        link.delay = (0.05, 0.25)
    group.start()
    group.note("one view", group.one_view(within=20))
    _, longest = says_on(group, [1, 2, 3], [1, 2, 3], 5)
    group.note("told within", longest)


@accident(16, limit=60)
def sixteen_in_three_parts(group):
    """Sixteen nodes, as many as a view may have, are parted into six, five and five for some seconds. One view of all; and again after one was killed and started at once."""
    group.start()
    group.one_view(within=20)
    parts = [list(range(1, 7)), list(range(7, 12)), list(range(12, 17))]
    group.net.part(*parts)
    for part in parts:
        group.one_view(*part, within=15)
    group.net.heal()
    group.note("one view", group.one_view(within=15))
    group.kill(group[5])
    group[5].start()
    group.note("again", group.one_view(within=10))
    group.talk()


def chunks_carried(net):
    """The chunks of states that the network carries from now on: to whom, and how many bytes."""
    chunks, carry = [], net.carry

    def carry_and_count(one, other, datagram):
        if accidents_net.kind_of(datagram) == accidents_net.STATE:
            chunks.append((other, len(datagram)))
        carry(one, other, datagram)

    net.carry = carry_and_count
    return chunks


@accident(2)
def long_state_goes_once(group):
    """The chat has a megabyte, which are 32 chunks. Node 2 is let in by at most 40 of them."""
    group.long_chat()
    chunks = chunks_carried(group.net)
    group[2].start()
    group.note("one view", group.one_view(within=10))
    group.notes.append(f"{len(chunks)} chunks")
    group.expect(group[2].chat == group[1].chat, "node 2 has another chat")
    group.expect_in_time(len(chunks) <= 40, "chunks go again without need")


@accident(11, limit=60)
def ten_newcomers_with_a_long_state(group):
    """The chat has a megabyte, and ten nodes come at once. They are let in by at most 16 MiB of chunks."""
    group.long_chat()
    chunks = chunks_carried(group.net)
    group.start(*range(2, 12))
    group.note("one view", group.one_view(within=25))
    carried = sum(size for _, size in chunks)
    group.notes.append(f"{len(chunks)} chunks of {carried} bytes")
    group.expect(all(node.chat == group[1].chat for node in group.all()), "a node has another chat")
    group.expect_in_time(carried <= 16 * 1_048_576, "chunks go again without need")


@accident(2, limit=60)
def long_state_from_far(group):
    """The chat has a megabyte, each datagram takes 30 to 50 ms, and a tenth is lost. Node 2 is let in, and has all of it."""
    group.long_chat()
    for link in group.net.each():
        link.delay, link.loss = (0.03, 0.05), 0.1
    group[2].start()
    group.note("one view", group.one_view(within=25))
    group.expect(group[2].chat == group[1].chat, "node 2 has another chat")
    group.net.heal()
    group.talk()


@accident(4, options=("--find", "--long", "--leave"))
def settings_not_rolled_out_yet(group):
    """Node 4 is in its own settings alone. The others go on as if it was not there; then they get the new settings, leave and are started again in turn. Nothing is lost."""
    old = group.settings_of([1, 2, 3])
    for number in (1, 2, 3):
        group[number].settings = old
    group.come_together(1, 2, 3)
    group.talk(1, 2, 3)
    lines = group[1].chat[:]
    views = [group[number].installs for number in (1, 2, 3)]
    group[4].start()
    says_on(group, [1, 2, 3], [1, 2, 3], 4)
    group.expect_in_time([group[number].installs for number in (1, 2, 3)] == views, "a view changed")
    for number in (1, 2, 3):
        group[number].leave()
        group[number].settings = group.settings
        group[number].start()
        group.until(lambda: any(set(node.members) >= {group[other].address for other in (1, 2, 3)} for node in group.all((1, 2, 3))), 15, "a view of 1, 2 and 3")
    group.note("one view", group.one_view(within=10))
    group.expect(all(node.chat[:len(lines)] == lines for node in group.all()), "what was said is lost")
    group.talk()


@accident(4)
def first_starts_again_as_another_returns(group):
    """Node 4 was parted for some seconds. As it returns node 1, the others' coordinator, is killed and started at once. What the three had said meanwhile is not lost."""
    group.come_together()
    group.net.part([1, 2, 3], [4])
    group.one_view(1, 2, 3, within=10)
    group.one_view(4, within=10)
    group.talk(1, 2, 3, word="three of four")
    lines = [payload for _, payload in group[2].chat]
    group.kill(group[1])
    group.net.heal()
    group[1].start()
    group.note("one view", group.one_view(within=15))
    group.expect(all([payload for _, payload in node.chat][:len(lines)] == lines for node in group.all()), "what the three said is lost")


@accident(3)
def machine_that_was_copied(group):
    """Node 2 is started a second time, at another host, as if its machine had been copied. Its datagrams are dropped and counted, and the group does not change."""
    group.come_together()
    group.talk()
    views = [node.installs for node in group.all()]
    # In the second in which node 2 was started it would have the same address.
    group.wait(1.1)
    lines = group.folder / "copy.lines"
    lines.touch()
    words = [VSYNC, "member", group.settings, 2, 1, 0, "--forever", "--find", "--long", "--say", lines, "--bind", group.net.copy_host()]
    words += [word for other in (1, 3) for word in ("--peer", f"{other}={group.net.host(other)}")]
    with open(group.folder / "copy.text", "wb") as text, open(group.folder / "copy.errors", "wb") as errors:
        copy = subprocess.Popen([str(word) for word in words], stdin=subprocess.DEVNULL, stdout=text, stderr=errors, preexec_fn=die_with_parent)
    try:
        _, longest = says_on(group, [1, 2, 3], [1, 2, 3], 5)
        group.note("told within", longest)
        group.expect_in_time([node.installs for node in group.all()] == views, "a view changed")
        group.expect(all(int(group[number].seen()["strange"]) > 0 for number in (1, 3)), "nothing is counted as strange")
        lines.write_text("\x04\n")
        group.until(lambda: copy.poll() is not None, 5, "the copy ends")
    finally:
        copy.kill()
        copy.wait()


@accident(3)
def translated_addresses(group):
    """Node 2's datagrams come from another address than its peers name. It is left alone and counted as strange; started again with `--any-source` all are one view."""
    group.net.translated.add(2)
    group.start()
    group.one_view(1, 3, within=10)
    group.one_view(2, within=15)
    group.wait(1.5)
    group.expect(int(group[1].seen()["strange"]) > 0, "nothing is counted as strange")
    for node in group.all():
        node.options = [*group.options, "--any-source"]
    group.kill(*group.all())
    group.start()
    group.note("one view", group.one_view(within=10))
    group.talk()


@accident(3)
def memory_is_refused(group):
    """Node 2 is refused memory for some seconds, as on a machine that has none left. The others go on, and it begins again when there is some."""
    group.come_together()
    node = group[2]
    limit = resource.prlimit(node.process.pid, resource.RLIMIT_AS)
    resource.prlimit(node.process.pid, resource.RLIMIT_AS, (1 << 20, limit[1]))
    lines = [f"{place} " + "x" * 500 for place in range(200)]
    group[1].say(*lines)
    ended = group.until(lambda: node.address not in group[1].members or len(group[1].members) < 3, 20, "a view without node 2")
    group.note("ended after", ended)
    group.wait(2)
    resource.prlimit(node.process.pid, resource.RLIMIT_AS, limit)
    group.note("one view", group.one_view(within=20))
    group.expect("# memory" in node.text.read_text(), "node 2 was not out of memory")
    group.told(lines, within=15)
