"""Accidents of groups whose nodes answer HTTP, for tests/accidents: each answer that a client got must be true afterwards, at all nodes.

The nodes keep a map or locks with `--quorum 2`: a node that is alone sends no write."""
import random
import socket
import time

import http_clients
from accidents_cases import accident

MAP = ("--find", "--map", "--quorum", "2")
LOCKS = ("--find", "--locks", "--quorum", "2")
# Ticks of 5 ms, with the same silence of a second: views change as often as the silence allows, and many writes are on the way.
FAST = {"options": (*MAP, "--tick", "5"), "silent": 200}
FAST_LOCKS = {"options": (*LOCKS, "--tick", "5"), "silent": 200}
# For how many seconds node 3 is killed and started again and again, and how many clients each other node has meanwhile.
KILLING, WRITERS = 12, 20
# How long after the last kill all clients have their answers, in seconds.
ANSWERED = 12
UNKNOWN, NOT_DONE = {"error": "unknown"}, {"error": "not done"}


def kill_again_and_again(group, clients):
    """Kills node 3 and starts it again until the time is over; then tells the clients to end."""
    chance = random.Random(1)
    kills = 0
    end = time.monotonic() + KILLING
    while time.monotonic() < end:
        group.kill(group[3])
        group.one_view(1, 2, within=10)
        group[3].start()
        group.one_view(within=10)
        group.wait(chance.uniform(0.05, 0.3))
        kills += 1
    clients.over.set()
    group.notes.append(f"{kills} kills")


def expect_no_ticket_lost(group, clients, odd):
    """Expects that each request at nodes 1 and 2 gets its answer soon after the last kill, 200, and that no write waits any more."""
    end = time.monotonic() + ANSWERED
    while clients.running() and time.monotonic() < end:
        group.wait(0.1)
    left = clients.running()
    waiting = [answer.json()["waiting_writes"] for answer in group.answers((1, "GET", "/status"), (2, "GET", "/status"))]
    what = f"{left} clients wait for an answer {ANSWERED} s after the last kill; waiting_writes {waiting}; answers other than 200: {odd[:5]}"
    group.expect(not any(waiting), what)
    group.expect_in_time(not left and not odd, what)


@accident(3, limit=75, http=True, **FAST)
def no_write_is_lost_as_a_node_is_killed(group):
    """Node 3 is killed and started again and again while 20 clients each put at nodes 1 and 2. Each put is answered 200; then no write waits, and each client's last value is there."""
    group.come_together()
    clients, last, odd = http_clients.Clients(), {}, []

    def write(node, place):
        count = 0
        while not clients.over.is_set():
            count += 1
            answer = node.ask("PUT", f"/map/{node.number}.{place}", str(count), timeout=45)
            if answer.status == 200:
                last[f"{node.number}.{place}"] = str(count)
            else:
                odd.append(answer)
            time.sleep(0.002)

    for place in range(WRITERS):
        for node in group.all((1, 2)):
            clients.start(write, node, place)
    kill_again_and_again(group, clients)
    group.notes.append(f"{sum(int(count) for count in last.values())} writes")
    expect_no_ticket_lost(group, clients, odd)
    group.wait(0.5)
    for answer in group.answers((1, "GET", "/map"), (2, "GET", "/map"), (3, "GET", "/map")):
        group.expect(answer.json() == last, "a map lacks what a client put last")


@accident(3, limit=75, http=True, **FAST_LOCKS)
def no_lock_is_lost_as_a_node_is_killed(group):
    """The same of locks: each client takes a lock of its own and releases it. Each request is answered 200; then no request waits, and no lock is held."""
    group.come_together()
    clients, odd, taken = http_clients.Clients(), [], [0]

    def work(node, place):
        while not clients.over.is_set():
            for method in ("POST", "DELETE"):
                answer = node.ask(method, f"/locks/{node.number}.{place}", timeout=45)
                if answer.status != 200:
                    odd.append((method, answer))
            taken[0] += 1
            time.sleep(0.002)

    for place in range(WRITERS):
        for node in group.all((1, 2)):
            clients.start(work, node, place)
    kill_again_and_again(group, clients)
    group.notes.append(f"{taken[0]} locks taken")
    expect_no_ticket_lost(group, clients, odd)
    group.wait(0.5)
    for answer in group.answers((1, "GET", "/locks"), (2, "GET", "/locks"), (3, "GET", "/locks")):
        group.expect(answer.json() == {}, f"a lock is held: {answer}")


def come_to_rest(group):
    """Starts all nodes, and waits for a second in one view: a node that has just installed a view may hold writes back for some rounds."""
    group.come_together()
    group.wait(1)


def coordinator(group):
    return next(node for node in group.all() if node.address == group[1].members[0])


@accident(3, http=True, options=MAP)
def stable_writes_at_a_coordinator_that_is_cut_off(group):
    """The coordinator is cut off, and at once eight clients put with `?stable` there. Each put that is answered 200 is there when all are one view again; the others are unknown."""
    come_to_rest(group)
    first = coordinator(group)
    others = [node.number for node in group.all() if node is not first]
    group.net.part([first.number], others)
    answers = group.answers(*((first.number, "PUT", f"/map/key{place}?stable&timeout=8", "x") for place in range(8)), within=20)
    group.net.heal()
    group.one_view(within=20)
    group.wait(1)
    maps = [answer.json() for answer in group.answers(*((number, "GET", "/map") for number in group.nodes))]
    group.notes.append(f"answered {sorted({str(answer.status) for answer in answers})} within {max(answer.took for answer in answers):.1f} s")
    group.expect(all(entries == maps[0] for entries in maps), f"the maps differ: {maps}")
    gone = [place for place, answer in enumerate(answers) if answer.status == 200 and f"key{place}" not in maps[0]]
    group.expect(not gone, f"{len(gone)} of 8 are answered 200 and gone: {gone}")
    there = [place for place, answer in enumerate(answers) if answer.status == 504 and f"key{place}" in maps[0]]
    group.expect(not there, f"{len(there)} of 8 are answered that they are not done, and are there")
    for answer in answers:
        group.expect(answer.status == 200 or (answer.status, answer.json()) in ((503, UNKNOWN), (504, NOT_DONE)), f"an answer is {answer}")


def put_stable(clients, answers, nodes, each, timeout=5):
    """Starts so many clients at each of these nodes, which put with `?stable` and this `?timeout` without end, each time another key; notes their answers by key."""
    def write(node, place):
        count = 0
        while not clients.over.is_set():
            count += 1
            key = f"{node.number}.{place}.{count}"
            answers[key] = node.ask("PUT", f"/map/{key}?stable&timeout={timeout}", "x", timeout=40)
            time.sleep(0.01)

    for place in range(each):
        for node in nodes:
            clients.start(write, node, place)


def expect_answers_true(group, clients, answers):
    """Ends the clients, and expects of each node's map that it has all puts that were answered 200, and none that was answered as not done."""
    clients.over.set()
    group.until(lambda: not clients.running(), 15, "all answers")
    group.wait(1)
    statuses = [answer.status for answer in answers.values()]
    unlike = [answer for answer in answers.values() if answer.status != 200 and (answer.status, answer.json()) not in ((503, UNKNOWN), (504, NOT_DONE))]
    group.notes.append("answered " + ", ".join(f"{statuses.count(status)} times {status}" for status in sorted(set(statuses), key=str)))
    group.expect(statuses.count(200) > 0, "nothing is answered 200")
    for answer in group.answers(*((number, "GET", "/map") for number in group.nodes)):
        entries = answer.json()
        gone = [key for key, of in answers.items() if of.status == 200 and key not in entries]
        group.expect(not gone, f"{len(gone)} are answered 200 and gone: {gone[:8]}")
        there = [key for key, of in answers.items() if of.status == 504 and key in entries]
        group.expect(not there, f"{len(there)} are answered that they are not done, and are there: {there[:8]}")
    group.expect(not unlike, f"{len(unlike)} other answers: {unlike[:3]}")
    return statuses


@accident(3, limit=75, http=True, options=MAP)
def stable_writes_as_the_coordinator_is_cut_off(group):
    """Four clients each put with `?stable` at all nodes without end. The coordinator is cut off for three seconds, twice. Each put that is answered 200 is in all maps in the end."""
    come_to_rest(group)
    clients, answers = http_clients.Clients(), {}
    put_stable(clients, answers, group.all(), 4)
    for pause in (1.13, 1.5):
        group.wait(pause)
        first = coordinator(group)
        others = [node.number for node in group.all() if node is not first]
        group.net.part([first.number], others)
        group.one_view(*others, within=10)
        group.wait(2)
        group.net.heal()
        group.note("one view", group.one_view(within=15))
    expect_answers_true(group, clients, answers)


@accident(3, limit=75, http=True, options=MAP)
def stable_writes_at_a_coordinator_that_sleeps(group):
    """Eight clients put with `?stable` at the coordinator without end; it sleeps three seconds, and the others go on. Each put that is answered 200 is in all maps in the end."""
    come_to_rest(group)
    clients, answers = http_clients.Clients(), {}
    first = coordinator(group)
    put_stable(clients, answers, [first], 8)
    group.wait(1.13)
    first.stop()
    group.one_view(*(node.number for node in group.all() if node is not first), within=10)
    group.wait(1.5)
    first.go_on()
    group.note("one view", group.one_view(within=15))
    expect_answers_true(group, clients, answers)


def put_before(group):
    answer, = group.answers((1, "PUT", "/map/before?stable", "kept"))
    group.expect(answer.status == 200, f"the first put: {answer}")


def expect_before(group, what):
    answers = group.answers(*((number, "GET", "/map/before") for number in group.nodes))
    group.expect(all((answer.status, answer.body) == (200, b"kept") for answer in answers), f"{what}: the key of before is {[(answer.status, answer.body) for answer in answers]}")


def two_start_again(group, away, back, seconds):
    """Nodes 1 and 2 are killed and started again at once while node 3 is away for so long. The key that was put before is there at all nodes."""
    group.come_together()
    put_before(group)
    away()
    group.kill(group[1], group[2])
    group.start(1, 2)
    group.wait(seconds)
    back()
    group.note("one view", group.one_view(within=20))
    group.wait(0.5)
    expect_before(group, f"away for {seconds} s")


@accident(3, http=True, options=MAP)
def two_start_again_as_the_third_is_parted_briefly(group):
    """Nodes 1 and 2 are killed and started again while node 3 is parted from them for two seconds. The two have no history: the key that was put before is there at all nodes."""
    two_start_again(group, lambda: group.net.part([3], [1, 2]), group.net.heal, 2)


@accident(3, http=True, options=MAP)
def two_start_again_as_the_third_is_parted(group):
    """The same, for five seconds."""
    two_start_again(group, lambda: group.net.part([3], [1, 2]), group.net.heal, 5)


@accident(3, http=True, options=MAP)
def two_start_again_as_the_third_sleeps_briefly(group):
    """Nodes 1 and 2 are killed and started again while node 3 sleeps for two seconds. The two have no history: the key that was put before is there at all nodes."""
    two_start_again(group, group[3].stop, group[3].go_on, 2)


@accident(3, http=True, options=MAP)
def two_start_again_as_the_third_sleeps(group):
    """The same, for five seconds."""
    two_start_again(group, group[3].stop, group[3].go_on, 5)


def part_first(group):
    """Parts node 1 from the two others: it is alone, and sends no write."""
    group.net.part([1], [2, 3])
    group.one_view(1, within=10)
    group.one_view(2, 3, within=10)


def come_back(group):
    group.net.heal()
    group.note("one view", group.one_view(within=20))
    group.wait(1.5)


@accident(3, limit=75, http=True, options=MAP)
def old_writes_are_withdrawn(group):
    """Node 1 is parted and has no quorum. A put and a removal there are answered 504 after `?timeout`, a put without it after 30 s. Another client's newer values stay in the end."""
    group.come_together()
    for answer in group.answers(*((2, "PUT", f"/map/{key}", "first") for key in ("put", "removed", "late"))):
        group.expect(answer.status == 200, f"the first put: {answer}")
    part_first(group)
    late = group[1].begin("PUT", "/map/late", b"old")
    begun = time.monotonic()
    for answer in group.answers((1, "PUT", "/map/put?timeout=2", "old"), (1, "DELETE", "/map/removed?timeout=2"), within=8):
        group.expect((answer.status, answer.json()) == (504, NOT_DONE), f"what was never sent is answered {answer}")
        group.expect_in_time(1.5 <= answer.took < 4, f"the answer took {answer.took:.1f} s")
    for answer in group.answers(*((2, "PUT", f"/map/{key}", "newer") for key in ("put", "removed", "late"))):
        group.expect(answer.status == 200, f"the newer put: {answer}")
    clients, came = http_clients.Clients(), []
    late.settimeout(40)
    clients.start(lambda: came.append(http_clients.answer_on(late)))
    group.until(lambda: not clients.running(), 42, "an answer without a timeout")
    took = time.monotonic() - begun
    group.expect((came[0].status, came[0].json()) == (504, NOT_DONE), f"without a timeout it is answered {came[0]}")
    group.expect_in_time(28 <= took < 34, f"the answer without a timeout took {took:.1f} s")
    come_back(group)
    for answer in group.answers(*((number, "GET", "/map") for number in group.nodes)):
        group.expect(answer.json() == {"put": "newer", "removed": "newer", "late": "newer"}, f"an old write is carried out: {answer}")


@accident(3, http=True, options=MAP)
def writes_time_out_as_the_network_heals(group):
    """Node 1 is parted and has no quorum. Twelve clients put there with a limit of a second until all are one view again. No put that is answered 504 is in a map in the end."""
    group.come_together()
    part_first(group)
    clients, answers = http_clients.Clients(), {}
    put_stable(clients, answers, [group[1]], 12, timeout=1)
    group.wait(2)
    come_back(group)
    statuses = expect_answers_true(group, clients, answers)
    group.expect(504 in statuses, "nothing is answered 504")


@accident(3, http=True, options=LOCKS)
def old_lock_requests_are_withdrawn(group):
    """Node 1 holds a lock, is parted and has no quorum. Its release, and a request for another lock, are answered 504 after `?timeout`; a client that asks for a third goes away.
    Nobody holds the two others afterwards."""
    group.come_together()
    answer, = group.answers((1, "POST", "/locks/held"))
    group.expect(answer.status == 200, f"the lock: {answer}")
    part_first(group)
    gone = group[1].begin("POST", "/locks/third")
    group.wait(0.5)
    gone.close()
    for answer in group.answers((1, "DELETE", "/locks/held?timeout=2"), (1, "POST", "/locks/other?timeout=2"), within=8):
        group.expect((answer.status, answer.json()) == (504, NOT_DONE), f"what was never sent is answered {answer}")
    come_back(group)
    for answer in group.answers(*((number, "GET", f"/locks/{name}") for name in ("other", "third") for number in group.nodes)):
        group.expect(answer.status == 404, f"a lock that was not taken is held: {answer}")


@accident(3, http=True, options=MAP, silent=200)
def sent_write_is_not_told_not_done(group):
    """The coordinator sleeps, for less than the silence. A put at node 2 is sent, and not delivered within `?timeout`: it is answered 503, not 504. It is carried out later."""
    come_to_rest(group)
    first = coordinator(group)
    node = next(node for node in group.all() if node is not first)
    first.stop()
    answer, = group.answers((node.number, "PUT", "/map/sent?timeout=1", "x"), within=4)
    first.go_on()
    group.expect(answer.status == 503, f"a put that was sent is answered {answer}")
    group.expect_in_time(answer.took < 3, f"the answer took {answer.took:.1f} s")
    group.one_view(within=10)
    group.wait(1)
    for answer in group.answers(*((number, "GET", "/map/sent") for number in group.nodes)):
        group.expect((answer.status, answer.body) == (200, b"x"), f"the put that was sent is {answer}")


@accident(3, http=True, options=MAP)
def writes_of_clients_that_have_gone(group):
    """Node 1 is parted and has no quorum. Clients put there and go away before the writes are sent, some of them again and again. They keep no places, and none of their
    writes is carried out when all are one view: another client's newer value stays."""
    group.come_together()
    part_first(group)
    clients, most = http_clients.Clients(), 0

    def write(place):
        while not clients.over.is_set():
            group[1].ask("PUT", f"/map/gone{place % 2}", "again", timeout=0.5)

    for place in range(4):
        clients.start(write, place)
    end = time.monotonic() + 4
    while time.monotonic() < end:
        group.wait(0.2)
        answer, = group.answers((1, "GET", "/status"))
        most = max(most, answer.json()["connections"])
    clients.over.set()
    group.until(lambda: not clients.running(), 5, "the clients end")
    gone = [group[1].begin("PUT", f"/map/gone{place % 2}", f"old {place}".encode()) for place in range(8)]
    group.wait(0.5)
    for connection in gone:
        connection.close()
    end = time.monotonic() + 4
    left = None
    while left != (0, 1) and time.monotonic() < end:
        group.wait(0.1)
        answer, = group.answers((1, "GET", "/status"))
        left = tuple(answer.json()[field] for field in ("waiting_writes", "connections"))
    answer, = group.answers((2, "PUT", "/map/gone0", "newer"))
    group.expect(answer.status == 200, f"the newer put: {answer}")
    come_back(group)
    for answer in group.answers(*((number, "GET", "/map") for number in group.nodes)):
        group.expect(answer.json() == {"gone0": "newer"}, f"a write of a client that has gone is carried out: {answer}; waiting_writes and connections were {left}")
    group.expect_in_time(most <= 10, f"four clients had up to {most} connections")
    group.expect_in_time(left == (0, 1), f"four seconds after they went waiting_writes and connections were {left}")


@accident(3, http=True, options=MAP, silent=150)
def half_closed_write_is_answered(group):
    """A client puts at node 2, and closes its own half of the connection once the write is sent. The coordinator sleeps meanwhile, so the answer comes later; it is 200."""
    come_to_rest(group)
    first = coordinator(group)
    node = next(node for node in group.all() if node is not first)
    first.stop()
    connection = node.begin("PUT", "/map/half", b"closed")
    group.until(lambda: node.ask("GET", "/status").json()["outstanding_sends"] == 1, 5, "the write is sent")
    connection.shutdown(socket.SHUT_WR)
    group.wait(0.3)
    first.go_on()
    clients, came = http_clients.Clients(), []
    clients.start(lambda: came.append(http_clients.answer_on(connection)))
    group.until(lambda: not clients.running(), 12, "the answer to a half-closed connection")
    group.expect(came[0].status == 200, f"the half-closed connection is answered {came[0]}")
    group.one_view(within=10)
    answer, = group.answers((first.number, "GET", "/map/half"))
    group.expect((answer.status, answer.body) == (200, b"closed"), f"the write is {answer}")
