"""The picture of a run as SVG: where each lane stands, the shapes, and what the signs mean. All numbers are pixels."""

from collections import namedtuple

from scene import Place, Scene, lane_of

# A colour for each of the sixteen users that there may be. The first eight can be told apart by the colour-blind.
COLOURS = """
    #0072b2 #d55e00 #009e73 #a64d8c #7a5c00 #3d3d9e #2c8fb8 #8a2d3b
    #4d7d1f #6b5b95 #b8730a #00706b #9a4f24 #56657a #b0457b #3f6b3f
""".split()
REFUSED = "#b00020"
NOBODY = "#6e7781"

STYLE = (
    "text{font-family:ui-monospace,SFMono-Regular,Menlo,Consolas,DejaVu Sans Mono,monospace;font-size:11px;fill:#24292f}"
    ".small{font-size:10px}.faint{font-size:9px;fill:#6e7781}.name,.title{font-weight:bold}.title{font-size:12px}"
    ".number{fill:#6e7781;text-anchor:end}.same{text-anchor:middle;font-size:13px}"
    ".page{fill:#ffffff;stroke:#d0d7de}.own{fill:#eef4fb}.rail{fill:#f3f5f7}.tick{fill:currentColor}"
    ".bar{fill:currentColor;fill-opacity:.2;stroke:currentColor}.ready{stroke:currentColor;stroke-width:2}"
    ".queued{fill:#ffffff;stroke:currentColor;stroke-width:1.5}.taken{fill:currentColor;fill-opacity:.55;stroke:currentColor}"
    ".answered{fill:#ffffff;stroke:currentColor;stroke-dasharray:2 2}.arrow{stroke:currentColor;stroke-width:1.5}"
    ".back{stroke-dasharray:6 3}.dots{stroke-dasharray:2 3}.head{fill:currentColor;stroke:currentColor}"
    ".open{fill:#ffffff;stroke:currentColor;stroke-width:1.5}.mark{fill:currentColor;stroke:#ffffff}"
    ".tinted{fill:currentColor}.under{fill:#ffffff}.cross{stroke:currentColor;stroke-width:2}"
)

# The room of a character, in text of 11 pixels and in small text of 10; the most characters of a step's text and an outcome's.
WIDE, NARROW = 7, 6
STEP_TEXT, OUTCOME_TEXT = 48, 20

# Between a lane's left edge and the line of its thread, and between that and the words beside it.
INDENT, BESIDE = 8, 10

# Between two lanes, between two groups of them, between the steps' texts and the lanes, and between two runs.
LANE_GAP, GROUP_GAP, TEXT_GAP, BETWEEN = 6, 18, 8, 34

# The heights of the titles, of the names of lanes, of the numbers of places and of the first row, and that of a row.
TITLE, NAMES, NUMBERS, FIRST, ROW = 26, 50, 64, 84, 28

# How far lanes go below the line of the last row, how far one track of a row is above another, and half a band's height.
BELOW, TRACK, BAND = 24, 5, 14

# The edge of the picture, left and right, and the least right edge.
MARGIN, LEAST = 12, 560

# What an arrow's line and its head are, by what went along it.
SHAFTS = {"sent": "arrow", "took": "arrow", "reply": "arrow back", "error": "arrow back", "pulse": "arrow dots"}
HEADS = {"error": "open"}

# The signs, each with its room and what it means; the last stands in pictures of two runs alone.
SIGNS = [
    ("ready", 16, "ready"),
    ("queued", 16, "SEND-blocked: its message stands in a line"),
    ("taken", 16, "REPLY-blocked: its message was received"),
    ("answered", 16, "the answer waits to be taken"),
    ("sent", 36, "sent, took"),
    ("reply", 36, "reply"),
    ("error", 36, "error"),
    ("pulse", 36, "pulse"),
    ("cross", 16, "refused, nothing changed"),
    ("", 0, "in a line: whose message, its priority; place 1 is the first"),
    ("", 0, "=  the same outcome on both sides"),
]
SIGN_GAP, SIGN_LINE = 20, 18

# What stands from a left to a right edge.
Span = namedtuple("Span", "left right")
# The lane of a manager's line, of so many places, each with that room: the first one is the rightmost.
LineLane = namedtuple("LineLane", "name span count room")


def colour_of(user):
    return NOBODY if user is None else COLOURS[user - 1]


def height_of(row):
    """The height of a row's line."""
    return FIRST + row * ROW


# Texts


def shown(text):
    """A text as a reader sees it: a byte that is not printable ASCII is its two hexadecimal digits behind `\\x`."""
    return "".join(character if " " <= character <= "~" else f"\\x{ord(character):02x}" for character in text)


def width(text):
    return len(shown(text))


def shortened(text, most):
    """A text, cut where it shows more characters than `most`; `..` stands for the rest."""
    if width(text[: most + 1]) <= most:
        return text
    return text[: max(count for count in range(most) if width(text[:count]) <= most - 2)] + ".."


def step_label(step):
    return shortened(step.text, STEP_TEXT)


def outcome_label(step):
    """What came of a step. What a worker took or handled is not said, as its lane shows that."""
    word = step.outcome.split(" ")[0]
    return "" if word in ("took", "handled") else shortened(step.outcome, OUTCOME_TEXT)


def name_of(run, who):
    """A user, a process or a thread."""
    return ".".join([run.names[who[0]], *map(str, who[1:])])


def item_label(run, item):
    """Of a message its thread, of a pulse what it is too."""
    name = name_of(run, item.who)
    return name if item.kind == "message" else f"{item.kind} {name}"


def bar_label(run, bar):
    """What stands in a line, with its priority, or in a worker's hand."""
    if bar.place.kind == "line":
        return f"{item_label(run, bar.content.item)}, {bar.content.priority}"
    return item_label(run, bar.content)


# Elements and shapes


def escaped(text):
    """A text or an attribute's value, in which nothing is taken for markup."""
    for character, entity in [("&", "&amp;"), ("<", "&lt;"), (">", "&gt;"), ('"', "&quot;")]:
        text = text.replace(character, entity)
    return shown(text)


def tag(name, attributes):
    return "".join([f"<{name}", *(f' {key}="{escaped(str(value))}"' for key, value in attributes.items())])


def empty(name, **attributes):
    """An element without content; its class stands under `kind`."""
    return tag(name, {"class" if key == "kind" else key: value for key, value in attributes.items()}) + "/>\n"


def words(kind, x, y, text, **colour):
    """Words whose line of writing begins at a point."""
    return tag("text", {"x": x, "y": y, "class": kind, **colour}) + f">{escaped(text)}</text>\n"


def box(kind, colour, corner, opposite):
    (left, top), (right, bottom) = corner, opposite
    return empty("rect", x=left, y=top, width=right - left, height=bottom - top, kind=kind, color=colour)


def line(kind, colour, start, end):
    return empty("line", x1=start[0], y1=start[1], x2=end[0], y2=end[1], kind=kind, color=colour)


def arrow(kind, colour, y, start, end):
    """An arrow at a height, from one place to another."""
    back = end - 8 if start < end else end + 8
    points = f"{back},{y - 4} {end},{y} {back},{y + 4}"
    head = empty("polygon", points=points, kind=HEADS.get(kind, "head"), color=colour)
    return line(SHAFTS[kind], colour, (start, y), (back, y)) + head


def cross(x, y):
    """The mark of a step that was refused."""
    under = empty("circle", cx=x, cy=y, r=6, kind="under")
    falling = line("cross", REFUSED, (x - 4, y - 4), (x + 4, y + 4))
    return under + falling + line("cross", REFUSED, (x - 4, y + 4), (x + 4, y - 4))


def doing(kind, colour, span, top, bottom):
    """What a thread is doing, along its line."""
    if kind == "ready":
        return line(kind, colour, (span.left + 4, top), (span.left + 4, bottom))
    return box(kind, colour, (span.left, top), (span.right, bottom))


# Lanes


class Layout:
    """Where the lanes of a scene stand, from a left edge on."""

    def __init__(self, run, scene, left):
        self.right = left
        self.clients = [self.next(LANE_GAP, wide) for wide in client_widths(run, scene)]
        self.lines = {}
        for number in range(len(run.managers)):
            self.add_line(run, scene, number)
        self.workers = [self.next(GROUP_GAP, worker_width(run, scene, number)) for number in range(len(scene.workers))]

    def next(self, gap, wide):
        """A lane of a width, behind the last one."""
        left = self.right + gap
        self.right = left + wide
        return Span(left, self.right)

    def add_line(self, run, scene, number):
        """The lane of a manager's line, if there is anything to be seen of it."""
        bars = [bar for bar in scene.bars if bar.place.kind == "line" and bar.place.lane == number]
        asked = any(step.asked == number for step in run.steps)
        count = max([int(asked), *(bar.place.place + 1 for bar in bars)])
        if count:
            room = max((width(bar_label(run, bar)) for bar in bars), default=0) * NARROW + 12
            name = f"line of {run.managers[number]}"
            self.lines[number] = LineLane(name, self.next(GROUP_GAP, max(room * count, len(name) * WIDE)), count, room)

    def span(self, place):
        """What a place takes of a row; of a client the line of its thread."""
        if place.kind == "client":
            middle = self.clients[place.lane].left + INDENT
            return Span(middle - 4, middle + 4)
        if place.kind == "worker":
            return self.workers[place.lane]
        lane = self.lines[place.lane]
        right = lane.span.right - lane.room * place.place
        return Span(right - lane.room + 4, right)


def client_widths(run, scene):
    """The widths of the lanes of clients, by their names and what came of their steps."""
    widths = [len(name_of(run, lane)) * WIDE + LANE_GAP for lane in scene.clients]
    for step in run.steps:
        if step.drawn:
            lane = lane_of(scene.clients, step.drawn)
            widths[lane] = max(widths[lane], width(outcome_label(step)) * NARROW + INDENT + BESIDE)
    return widths


def worker_width(run, scene, number):
    """The width of a worker's lane, by what it held and what came of its steps."""
    held = [bar_label(run, bar) for bar in scene.bars if bar.place == Place("worker", number)]
    told = [outcome_label(step) for step in run.steps if step.worker == scene.workers[number]]
    return max(max(map(width, held + told), default=0) * NARROW + 14, WIDE * 8)


# A run


class Panel:
    """A run that is drawn from a left edge on, its steps in these rows; the row behind the last one is `end`."""

    def __init__(self, run, rows, end, left):
        self.run, self.rows, self.end = run, rows, end
        self.scene = Scene(run, rows, end)
        self.layout = Layout(run, self.scene, left)

    def elements(self):
        """All of it."""
        yield from self.lanes()
        yield from map(self.bar, self.scene.bars)
        yield from map(self.arrow, self.scene.arrows)
        for step, row in zip(self.run.steps, self.rows):
            yield from self.step(step, row)

    def lanes(self):
        """The names of lanes, and what stands behind their bars."""
        for lane, span in zip(self.scene.clients, self.layout.clients):
            yield words("name", span.left, NAMES, name_of(self.run, lane))
        for number, lane in self.layout.lines.items():
            yield words("name", lane.span.left, NAMES, lane.name)
            for place in range(lane.count):
                left = self.layout.span(Place("line", number, place)).left
                yield words("faint", left + 4, NUMBERS, str(place + 1))
            yield self.rail(Span(lane.span.right - lane.room * lane.count + 4, lane.span.right))
        for worker, span in zip(self.scene.workers, self.layout.workers):
            yield words("name", span.left, NAMES, f"worker {worker}")
            yield self.rail(span)

    def rail(self, span):
        return box("rail", NOBODY, (span.left, height_of(0) - ROW // 2), (span.right, self.bottom_of(self.end)))

    def bottom_of(self, last):
        """Where a bar ends."""
        return height_of(last) - 2 if last < self.end else height_of(self.end) - ROW + BELOW

    def bar(self, bar):
        """A bar, from the line of the row in which it began to that of the one in which it ended."""
        span, top, bottom = self.layout.span(bar.place), height_of(bar.first), self.bottom_of(bar.last)
        if bar.place.kind == "client":
            return doing(bar.content, colour_of(self.scene.clients[bar.place.lane][0]), span, top, bottom)
        item = bar.content.item if bar.place.kind == "line" else bar.content
        shape = box("bar", colour_of(item.who[0]), (span.left, top + 2), (span.right, bottom))
        return shape + words("small", span.left + 5, top + 17, bar_label(self.run, bar))

    def arrow(self, drawn):
        origin, target = self.layout.span(drawn.origin), self.layout.span(drawn.target)
        ends = (origin.right, target.left) if origin.left < target.left else (origin.left, target.right)
        return arrow(drawn.kind, colour_of(drawn.user), height_of(drawn.row) - drawn.track * TRACK, *ends)

    def step(self, step, row):
        """The mark of a step, and the words of what came of it."""
        place = self.scene.place_of_step(step)
        x, y = self.layout.span(place).left + (4 if place.kind == "client" else 0), height_of(row)
        colour, word = colour_of(step.drawn[0] if step.drawn else None), step.outcome.split(" ")[0]
        if word in ("refused", "wrongstate", "idle", "busy", "nothing"):
            colour = REFUSED
            yield cross(x, y)
        elif word != "took":
            yield empty("circle", cx=x, cy=y, r=4, kind="mark", color=colour)
        if label := outcome_label(step):
            yield words("small tinted", x + BESIDE, y + 15, label, color=colour)


# The page


def picture(run, user=None, own=None, rows=()):
    """The picture of a run. With a user there stands beside it the run of that user's own steps, in these rows of the whole."""
    end = len(run.steps)
    numbers = len(str(end)) * WIDE + MARGIN + 8
    left = numbers + TEXT_GAP
    texts = max((width(step_label(step)) for step in run.steps), default=0) * WIDE
    whole = Panel(run, range(end), end, left + texts + TEXT_GAP)
    beside = own and Panel(own, rows, end, whole.layout.right + BETWEEN)
    right = max((beside or whole).layout.right, LEAST)
    body = [box("own", NOBODY, (MARGIN - 8, height_of(row) - BAND), (right + 8, height_of(row) + BAND)) for row in rows]
    body += [words("title", MARGIN, TITLE, "the whole run"), *steps_of(run, numbers, left), *whole.elements()]
    if beside:
        body += own_steps(whole, beside, user)
    bottom = height_of(end) + 16
    for sign, x, y in placed_signs(right, bottom, SIGNS if beside else SIGNS[:-1]):
        body.append(drawn_sign(sign, x, y))
        bottom = y
    return page(right + MARGIN, bottom + SIGN_LINE, body)


def page(wide, high, body):
    """The start tag, the styles, the white ground, and what stands on it."""
    head = tag("svg", {"xmlns": "http://www.w3.org/2000/svg", "width": wide, "height": high})
    return "".join([f"{head}><style>{STYLE}</style>\n", box("page", NOBODY, (0, 0), (wide, high)), *body, "</svg>\n"])


def steps_of(run, numbers, left):
    """The number and the text of each step, with the colour of the user by or for whom it was taken."""
    for row, step in enumerate(run.steps):
        y = height_of(row)
        yield box("tick", colour_of(step.owner), (MARGIN, y - 7), (MARGIN + 4, y + 7))
        yield words("number", numbers, y + 4, str(row + 1))
        yield words("step", left, y + 4, step_label(step))


def own_steps(whole, beside, name):
    """A user's own run, and beside each of the user's steps whether it gave the same in both."""
    left = whole.layout.right
    yield words("title", left + BETWEEN + 8, TITLE, f"{name}'s steps alone")
    for step, row in zip(beside.run.steps, beside.rows):
        if step.actor:
            same = "=" if step.outcome == whole.run.steps[row].outcome else "!="
            yield words("same", left + BETWEEN // 2 + 4, height_of(row) + 4, same)
    yield from beside.elements()


def placed_signs(right, top, signs):
    """The signs in lines between the edges, each with its place."""
    x, y = MARGIN, top
    for sign in signs:
        wide = len(sign[2]) * NARROW + sign[1]
        if x > MARGIN and x + wide > right:
            x, y = MARGIN, y + SIGN_LINE
        yield sign, x, y
        x += wide + SIGN_GAP


def drawn_sign(sign, x, y):
    """A sign round a height, and what it means."""
    kind, room, meaning = sign
    shape = ""
    if kind == "cross":
        shape = cross(x + 4, y)
    elif kind in SHAFTS:
        shape = arrow(kind, NOBODY, y, x, x + 28)
    elif kind:
        shape = doing(kind, NOBODY, Span(x, x + 8), y - 7, y + 7)
    return shape + words("small", x + room, y + 4, meaning)
