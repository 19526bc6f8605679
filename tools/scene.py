"""What is to be seen of a run: its lanes, what stood in them from which step to which, and what went along which arrow.

A run is given as its steps, each with the state that it came to. Who takes a step is a tuple: the user's number, behind it that
of the process, and behind that the thread's. Nothing is drawn here.
"""

from collections import Counter, namedtuple

# A run: the names of users by their numbers, the words of managers by theirs, the number of workers, and the steps.
Run = namedtuple("Run", "names managers workers steps")

# A step: its line in a script, what came of it, by or for which user it was taken; the client that took it (none: None) and
# in whose lane it is drawn; the worker that took it and the manager of whose line that worker asked; the thread that is
# interrupted; and the state behind it.
Step = namedtuple("Step", "text outcome owner actor drawn worker asked interrupted state")

# The state of the machine: of each manager the items of its line, the first one first; what each worker holds; what each thread
# that is there does, `ready`, `queued` (its message stands in a line), `taken` (it was received), or `reply` or `error`, as it
# has such an answer; and the processes that have a pulse.
State = namedtuple("State", "lines hands threads pulses")

# What stands in a line or is held: `message`, `unblock` or `disconnect`, and whose it is; that with its priority in a line.
Item = namedtuple("Item", "kind who")
Standing = namedtuple("Standing", "item priority")

# A place: `client` or `worker` with the number of its lane, or `line` with its manager's number and the place in it, from 0.
Place = namedtuple("Place", "kind lane place", defaults=[0])

# What stood in a place, from which row to which. Of a client it is what its thread did; `answered` stands for both answers.
Bar = namedtuple("Bar", "place content first last")

# What went along an arrow: `sent`, `took`, `reply`, `error` or `pulse`. Arrows of one row that differ have tracks of their own.
Arrow = namedtuple("Arrow", "row track kind origin target user")


def client_lanes(steps):
    """A lane for each thread that took steps, and where of a process or a user none did, one for that, in order."""
    lanes = []
    for parts in (3, 2, 1):
        for step in steps:
            if step.drawn and len(step.drawn) == parts and lane_of(lanes, step.drawn) is None:
                lanes.append(step.drawn)
    return sorted(lanes)


def lane_of(lanes, who):
    """The number of the lane of a thread; of a process or a user that of the first that it has."""
    return next((number for number, lane in enumerate(lanes) if lane[: len(who)] == who), None)


def worker_lanes(run):
    """The workers of the run, and others that took a step."""
    return list(dict.fromkeys([*range(1, run.workers + 1), *(step.worker for step in run.steps if step.worker is not None)]))


def look_at(state, lane):
    """What the thread of a lane is doing; None where it is not there."""
    if len(lane) == 1:
        return "ready"
    if len(lane) == 2:
        return "ready" if any(thread[:2] == lane for thread in state.threads) else None
    doing = state.threads.get(lane)
    return "answered" if doing in ("reply", "error") else doing


def place_of(state, item):
    """Where an item stands in a line; None where it stands in none."""
    for manager, line in enumerate(state.lines):
        for place, standing in enumerate(line):
            if standing.item == item:
                return Place("line", manager, place)
    return None


def entered(before, after):
    """What a step put into lines, each with its place: it stands behind all that are like it."""
    for manager, lines in enumerate(zip(before.lines, after.lines)):
        old, new = ([standing.item for standing in line] for line in lines)
        for item in Counter(new) - Counter(old):
            yield item, Place("line", manager, max(place for place, other in enumerate(new) if other == item))


class Scene:
    """What is to be seen of a run whose steps stand at these rows; the row behind the last one is `end`."""

    def __init__(self, run, rows, end):
        self.clients, self.workers = client_lanes(run.steps), worker_lanes(run)
        self.firsts = {lane_of(self.clients, lane[:2]) for lane in self.clients if len(lane) > 1}
        self.bars, self.arrows = [], []
        self.open = {}
        nothing = State([[] for _ in run.managers], {}, {}, set())
        for before, step, row in zip([nothing, *(step.state for step in run.steps)], run.steps, rows):
            self.follow(before, step, row)
        for place in sorted(self.open, key=lambda place: (place.kind == "line", place)):
            self.change(place, None, end)

    def place_of_step(self, step):
        """In whose lane a step is drawn."""
        if step.drawn:
            return Place("client", lane_of(self.clients, step.drawn))
        return Place("worker", self.workers.index(step.worker))

    def follow(self, before, step, row):
        """Shows what a step changed."""
        place, after = self.place_of_step(step), step.state
        held = after.hands.get(step.worker) if step.worker is not None else None
        taken = held if step.asked is not None and held != before.hands.get(step.worker) else None
        for item, target in entered(before, after):
            self.draw(row, "sent" if item.kind == "message" else "pulse", place, target, item.who[0])
        if taken:
            self.draw(row, "took", Place("line", step.asked), place, taken.who[0])
        if step.worker is not None:
            self.change(place, held, row)
        origin = place if step.worker is not None else place_of(before, Item("message", step.interrupted))
        for number, lane in enumerate(self.clients):
            self.look(before, after, number, lane, origin, row)
        for manager, line in enumerate(after.lines):
            for number in range(max(len(line), len(before.lines[manager]))):
                self.change(Place("line", manager, number), line[number] if number < len(line) else None, row)

    def look(self, before, after, number, lane, origin, row):
        """Shows what a client does behind a step, with arrows to it if it was answered or got a pulse."""
        target, doing = Place("client", number), look_at(after, lane)
        if doing == "answered" and look_at(before, lane) != doing:
            self.draw(row, after.threads[lane], origin, target, lane[0])
        if number in self.firsts and lane[:2] in after.pulses - before.pulses:
            self.draw(row, "pulse", origin, target, lane[0])
        self.change(target, doing, row)

    def change(self, place, content, row):
        """From a row on a place has this content."""
        before, first = self.open.get(place, (None, row))
        if before != content:
            self.open[place] = (content, row)
            if before is not None:
                self.bars.append(Bar(place, before, first, row))

    def draw(self, row, kind, origin, target, user):
        """An arrow, where it is known from where it comes."""
        if origin is not None:
            self.arrows.append(Arrow(row, self.track(row, kind, target), kind, origin, target, user))

    def track(self, row, kind, target):
        """The track of a row on which such an arrow is drawn."""
        tracks = {}
        for arrow in reversed(self.arrows):
            if arrow.row != row:
                break
            tracks[arrow.kind, arrow.target.kind == "line"] = arrow.track
        return tracks.get((kind, target.kind == "line"), max(tracks.values(), default=-1) + 1)
