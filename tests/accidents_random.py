"""Random faults, for tests/accidents: what goes wrong, and when, is drawn from a seed before the run."""
import random

# How long faults go on, how long the group may take after the last one, and the limit of a whole run, in seconds.
FAULTS = 30
TOGETHER = 15
LIMIT = 90
FEWEST, MOST = 3, 7
KINDS = ("parts", "oneway", "stops", "kills", "mix")


def count_of(seed):
    """Of how many nodes the group is."""
    return FEWEST + seed // len(KINDS) % (MOST - FEWEST + 1)


def plan(kind, seed):
    """The faults of a run: a time each, what begins or ends then, and of what, by time."""
    chance = random.Random(f"{kind} {seed}")
    count = count_of(seed)
    numbers = list(range(1, count + 1))
    events = []
    now = chance.uniform(0.2, 1)
    while now < FAULTS - 1:
        what = chance.choice(("parts", "oneway", "loss", "stops", "kills")) if kind == "mix" else kind
        until = min(now + chance.uniform(0.3, 6), FAULTS)
        if what == "parts":
            mixed = chance.sample(numbers, count)
            at = chance.randint(1, count - 1)
            events.append((now, "part", (mixed[:at], mixed[at:])))
            events.append((until, "join", (mixed[:at], mixed[at:])))
        elif what == "oneway":
            pairs = [tuple(chance.sample(numbers, 2)) for _ in range(chance.randint(1, 3))]
            events.append((now, "cut", pairs))
            events.append((until, "mend", pairs))
        elif what == "loss":
            events.append((now, "blur", (chance.choice((0.05, 0.1, 0.1, 0.3)), chance.choice((0, 0.1)), chance.choice((0, 0.05, 0.3)))))
            events.append((until, "clear", None))
        elif what == "stops":
            chosen = chance.sample(numbers, chance.choice((1, 1, 1, 2)))
            events.append((now, "stop", chosen))
            events.append((until, "wake", chosen))
        else:
            chosen = chance.sample(numbers, chance.choice((1, 1, 2, count) if chance.random() < 0.3 else (1,)))
            events.append((now, "kill", chosen))
            events.append((min(now + chance.uniform(0.05, 3), FAULTS), "start", chosen))
        now += chance.uniform(0.3, 2.5) if kind == "mix" else chance.uniform(0.5, 4)
    return sorted(events, key=lambda event: event[0])


class Faults:
    """Carries out what a plan says. A link is cut as long as one of the faults that cut it goes on."""

    def __init__(self, group):
        self.group = group
        self.cuts = dict.fromkeys(group.net.links, 0)

    def change(self, pairs, by):
        for pair in pairs:
            self.cuts[pair] += by
            self.group.net.links[pair].is_cut = self.cuts[pair] > 0

    def between(self, sides):
        one, other = sides
        return [pair for pair in self.cuts if (pair[0] in one) != (pair[1] in one)]

    def carry_out(self, what, of):
        group = self.group
        if what in ("part", "join"):
            self.change(self.between(of), 1 if what == "part" else -1)
        elif what in ("cut", "mend"):
            self.change(of, 1 if what == "cut" else -1)
        elif what in ("blur", "clear"):
            loss, repeat, delay = of or (0, 0, 0)
            for link in group.net.each():
                link.loss, link.repeat, link.delay = loss, repeat, (0, delay)
        else:
            nodes = group.all(of)
            if what == "kill":
                group.kill(*(node for node in nodes if node.is_running()))
            for node in nodes:
                if what == "stop":
                    node.stop()
                elif what == "wake":
                    node.go_on()
                elif what == "start" and not node.is_running():
                    node.start()


def of_lines(chat):
    """How many lines there are; how many of them are there twice, as what others were delivered before its node gave way; how many come behind a later one of their node."""
    last, seen, twice, turned = {}, set(), 0, 0
    for sender, payload in chat:
        place, _, rest = payload.decode().partition(" ")
        if not rest.startswith("in between"):
            continue
        node = sender.split(".")[0]
        if place in seen:
            twice += 1
        elif int(place) < last.get(node, 0):
            turned += 1
        seen.add(place)
        last[node] = max(last.get(node, 0), int(place))
    return len(seen), twice, turned


def run(group, kind, seed):
    """Three to seven nodes, thirty seconds of faults; then all are one view within fifteen seconds of the last fault, and are told what each says."""
    group.start()
    group.one_view(within=15)
    faults = Faults(group)
    chance = random.Random(seed)
    begun = 0.0
    said = 0
    for at, what, of in [*plan(kind, seed), (FAULTS, "end", None)]:
        while begun < at:
            rest = min(0.5, at - begun)
            group.wait(rest)
            begun += rest
            said += 1
            group[said % len(group.nodes) + 1].say(f"{said} in between" + "x" * chance.choice((0, 0, 40, 400)))
        if what != "end":
            faults.carry_out(what, of)
    group.net.heal()
    for node in group.all():
        node.go_on()
        if not node.is_running():
            node.start()
    group.note("one view", group.one_view(within=TOGETHER))
    group.note("told", group.talk(word="afterwards"))
    seen, twice, turned = of_lines(group[1].chat)
    group.expect(turned == 0, f"{turned} lines come behind later ones of their node")
    group.notes.append(f"{seen} lines, {twice} twice")
    group.notes.append(f"{len(group.nodes)} nodes, {sum(node.starts for node in group.all())} starts, {sum(node.installs for node in group.all())} installs")
