"""A run as an SVG picture: a lane for each worker, a column for each record, rows of at most ten records."""
from html import escape

from . import clocks
from .explain import REFUSED, event_words, report_words, size_words, total_words
from .machine import IDENTITY, name_text
from .script import AFFINE, fold_words

LEFT, COLUMN, TOP = 100, 96, 66  # the first column's x, a column's width, the first lane's y
LINE, BAR, WAIT, GAP = 12, 26, 22, 22  # heights: a label's line, a bar, a waiting row, between lanes
PATH = 18  # the height of the critical path's line and its clock, under a bar
NUMBERS, BETWEEN = 30, 14  # heights: the records' numbers over a row, between two rows
MOST = 10  # the most records of a row
DIFFERS = "SPLITRUN DIFFERS FROM THIS, THE PLAIN MACHINE'S RUN"
LETTER = 6.7  # the width of a letter at 11 px
BLUE, GREEN, GREY, RED, BLACK, PURPLE, ORANGE = "#1f4e9c", "#1a7a3c", "#777", "#c00", "#222", "#7a2a8c", "#e8590c"
PALETTE = ("#9ecae9", "#ffd092", "#b5dfa8", "#f4b6c8", "#d3c3ea", "#e8dd8a", "#a5ded8", "#dcc0a6")


def at(column):
    """The x of a row's column; 0 is what was before its first record."""
    return LEFT + column * COLUMN


def fit(text, letters):
    """The text, its front cut off if it has more letters."""
    return text if len(text) <= letters else "…" + text[1 - letters :]


def text(x, y, words, extra=""):
    return f'<text x="{x:g}" y="{y:g}"{extra}>{escape(str(words))}</text>'


def rect(x, y, width, high, fill, extra=""):
    return f'<rect x="{x:g}" y="{y:g}" width="{width:g}" height="{high:g}" fill="{fill}"{extra}/>'


def titled(words, *parts):
    """Parts with the words shown when the pointer is on them."""
    return f"<g><title>{escape(words)}</title>{''.join(parts)}</g>"


def arrow(x, start, end, colour):
    """A vertical arrow."""
    tip = 7 if end < start else -7
    line = f'<path d="M{x:g} {start:g}V{end + tip:g}" stroke="{colour}" stroke-width="2" fill="none"/>'
    return line + f'<path d="M{x:g} {end:g}l-5 {tip}h10z" fill="{colour}"/>'


def dot(x, y, fill):
    return f'<circle cx="{x:g}" cy="{y:g}" r="5" fill="{fill}" stroke="#222" stroke-width="1.5"/>'


def diamond(x, y):
    return f'<path d="M{x:g} {y - 7:g}l7 7l-7 7l-7 -7z" fill="{PURPLE}"/>'


def cross(x, y):
    return f'<path d="M{x - 5:g} {y - 5:g}l10 10m0 -10l-10 10" stroke="{RED}" stroke-width="2.5"/>'


def wait_rect(x, y, width, high, colour, returning):
    """At a sync white and dashed, as returning grey and dotted."""
    fill, dash = ("#e6e6e6", "1.5 3") if returning else ("#fff", "5 3")
    return rect(x, y, width, high, fill, f' stroke="{colour}" stroke-width="2" stroke-dasharray="{dash}"')


def path_line(x, y, end, low, runs=True, wide=5):
    """A piece of the critical path, along a lane or from one to another; dotted where it is held up."""
    dash = "" if runs else ' stroke-dasharray="2 4"'
    return f'<path d="M{x:g} {y:g}L{end:g} {low:g}" stroke="{ORANGE}" stroke-width="{wide}"{dash} fill="none"/>'


def path_dot(x, y):
    """Where the critical path begins or ends."""
    return f'<circle cx="{x:g}" cy="{y:g}" r="6" fill="{ORANGE}"/>'


def stretches(states):
    """(first column, last column, state) for each run of equal states that are not None."""
    out, first = [], 0
    for column in range(1, len(states) + 1):
        if column == len(states) or states[column] != states[first]:
            if states[first] is not None:
                out.append((first, column, states[first]))
            first = column
    return out


class Wait:
    """A suspended frame: in which worker's lane, from which column to which, and whether as returning."""

    def __init__(self, event, first, last):
        self.frame, self.worker, self.first, self.last = event.frame, event.worker, first, last
        self.returning = event.kind == "return"


def waiting(events):
    """The waits, in the order in which they began."""
    out, open_waits = [], {}
    for column, event in enumerate(events, 1):
        if event.refusal or event.kind not in ("sync", "return"):
            continue
        if (event.kind, event.number) in (("sync", 1), ("return", 4)):
            out.append(Wait(event, column, len(events) + 1))
            open_waits[event.frame] = out[-1]
        over = event.ended[1:] + ((event.other,) if (event.kind, event.number) == ("return", 2) else ())
        for name in over:
            open_waits.pop(name).last = column
    return sorted(out, key=lambda wait: (wait.first, wait.last))


def rows_of(waits_of_lane):
    """A row for each wait so that none lie on one another."""
    ends, rows = [], []
    for wait in waits_of_lane:
        row = next((k for k, end in enumerate(ends) if end <= wait.first), len(ends))
        ends[row : row + 1] = [wait.last]
        rows.append(row)
    return rows


def rows_of_records(first, last):
    """The records first to last in rows (first, last) of about as many each, at most MOST."""
    count = last - first + 1
    rows = max(1, -(-count // MOST))
    ends = [first - 1 + count * k // rows for k in range(rows + 1)]
    return [(a + 1, b) for a, b in zip(ends, ends[1:])]


# Each sign with its key: (key, what it looks like in the legend, words).
LEGEND = (
    ("bar", lambda x, y: rect(x, y - 7, 26, 14, PALETTE[0], ' stroke="#555" rx="3"'), "the frame that a worker executes"),
    ("sync", lambda x, y: wait_rect(x, y - 7, 26, 14, PALETTE[0], False), "waits at a sync"),
    ("returning", lambda x, y: wait_rect(x, y - 7, 26, 14, PALETTE[0], True), "has returned, waits for its children"),
    ("steal", lambda x, y: arrow(x + 13, y - 9, y + 9, BLUE), "steal"),
    ("resumes", lambda x, y: arrow(x + 13, y + 9, y - 9, GREEN), "resumption"),
    ("ends", lambda x, y: arrow(x + 13, y - 9, y + 9, GREY), "ends with its last child"),
    ("read", lambda x, y: dot(x + 13, y, "#fff"), "read"),
    ("write", lambda x, y: dot(x + 13, y, BLACK), "write"),
    ("fold", lambda x, y: diamond(x + 13, y), "fold"),
    ("path", lambda x, y: path_line(x, y, x + 26, y), "critical path, with the clock after each step"),
    ("held up", lambda x, y: path_line(x, y, x + 26, y, False), "it is held up by a wait or by other steps"),
)


class Row:
    """Some records side by side: where its lanes lie, and the parts drawn so far."""

    def __init__(self, picture, first, last, top):
        self.picture, self.run, self.first, self.last = picture, picture.run, first, last
        self.events, self.parts = picture.run.events[first - 1 : last], []
        self.lanes, y = [], top + NUMBERS  # of each lane the y of its bar
        self.top, self.waits = top, {}
        strays = any(event.worker >= self.run.workers for event in self.events)
        for worker in range(self.run.workers + strays):
            y += LINE * self.label_lines(worker) + 10
            self.lanes.append(y)
            y += BAR + self.path_room(worker) + GAP + WAIT * self.place_waits(worker)
        self.right, self.bottom = self.x(last + 1), y - GAP + 6

    def x(self, record):
        """The x of a record; what was before the row begins at its left, what comes after ends at its right."""
        return at(min(max(record, self.first - 1), self.last + 1) - self.first + 1)

    def lane(self, worker):
        return min(worker, self.run.workers)

    def label_lines(self, worker):
        """The most lines of a label in the lane; 0 if no record is in it."""
        return max([0] + [len(label_words(event)[0]) for event in self.events if self.lane(event.worker) == worker])

    def path_room(self, worker):
        """The height under the lane's bar for the critical path, if it comes here."""
        return PATH if any(here.worker == worker for here in self.picture.track[self.first - 1 : self.last + 1]) else 0

    def place_waits(self, worker):
        """Keeps the lane's waits seen in this row, each with its place under the bar; how many places there are."""
        seen = [w for w in self.picture.waits if w.worker == worker and w.first <= self.last and w.last >= self.first]
        places = rows_of(seen)
        for wait, place in zip(seen, places):
            self.waits[wait] = self.lanes[worker] + BAR + self.path_room(worker) + 4 + place * WAIT
        return max(places) + 1 if places else 0

    def grid(self):
        """The lanes' names and the records' numbers."""
        y = self.top + NUMBERS
        self.parts.append(text(LEFT - 84, y - 12, "record", ' fill="#666"'))
        for record in range(self.first, self.last + 1):
            x = self.x(record)
            self.parts.append(f'<path d="M{x} {y - 6}V{self.bottom}" stroke="#e4e4e4"/>')
            self.parts.append(text(x - LETTER / 2 * len(str(record)), y - 12, record, ' fill="#666"'))
        for worker, y in enumerate(self.lanes):
            name = f"worker {worker}" if worker < self.run.workers else "no worker"
            self.parts.append(rect(LEFT, y + BAR / 2 - 1, self.right - LEFT, 2, "#d0d0d0"))
            self.parts.append(text(LEFT - 84, y + 17, name, ' font-weight="bold"'))

    def bars(self):
        """A bar for each stretch in which a frame is a worker's bottom."""
        for worker in range(self.run.workers):
            states = [bottoms[worker] for bottoms in self.picture.bottoms[self.first - 1 : self.last + 1]]
            for first, last, name in stretches(states):
                self.bar(at(first), at(last), self.lanes[worker], name)

    def bar(self, x, end, y, name):
        shape = rect(x, y, end - x, BAR, self.picture.colours[name], ' stroke="#555" rx="3"')
        label = text(x + 9, y + 17, fit(name_text(name), 11), ' font-weight="bold"')
        self.parts.append(titled(f"frame {name_text(name)} is executed", shape, label))
        self.picture.met.add("bar")

    def suspensions(self):
        for wait, y in self.waits.items():
            x, name = self.x(wait.first), name_text(wait.frame)
            word, how, key = ("returns", " as returning", "returning") if wait.returning else ("waits", "", "sync")
            shape = wait_rect(x, y, self.x(wait.last) - x, WAIT - 6, self.picture.colours[wait.frame], wait.returning)
            label = text(x + 9, y + 12, fit(f"{name} {word}", 12), ' fill="#555"')
            self.parts.append(titled(f"frame {name} is suspended{how}", shape, label))
            self.picture.met.add(key)

    def path(self):
        """The critical path under the bars, with the clock after each of its steps."""
        picture = self.picture
        for first, end, (worker, runs) in stretches([(here.worker, here.runs) for here in picture.track[self.first - 1 : self.last + 1]]):
            self.parts.append(path_line(at(first), self.under(worker), at(end), self.under(worker), runs))
            picture.met.add("path" if runs else "held up")
        for record in range(self.first, min(self.last, len(picture.track)) + 1):
            x, y, before = self.x(record), self.path_y(record), self.path_y(record - 1)
            if y != before:
                self.parts.append(path_line(x, min(y, before) - 2.5, x, max(y, before) + 2.5, wide=7))
            if record in picture.clock:
                self.parts.append(text(x + 7, y + 12, picture.clock[record], f' fill="{ORANGE}" font-weight="bold"'))
        self.path_ends()

    def under(self, worker):
        """The y of the critical path under a worker's bar."""
        return self.lanes[worker] + BAR + 5

    def path_y(self, record):
        """The y of the critical path after a record; after Main's return, of its end."""
        track = self.picture.track
        return self.under(track[min(record, len(track) - 1)].worker)

    def path_ends(self):
        """A dot where the critical path begins, and one at Main's return."""
        over = len(self.picture.track)
        ends = ([0] if over and self.first == 1 else []) + ([over] if self.first <= over <= self.last else [])
        self.parts += [path_dot(self.x(record), self.path_y(record)) for record in ends]

    def steal(self, x, event):
        victim, thief = self.lanes[event.low], self.lanes[event.worker]
        down = thief > victim
        return arrow(x, victim + (BAR if down else 0), thief + (0 if down else BAR), BLUE)

    def wait_over(self, record, event):
        """Green from the wait of a frame that resumes to the worker's bar; grey from the bar to the wait of each frame that ends."""
        bar, out = self.lanes[event.worker], ""
        for wait, y in self.waits.items():
            if wait.last != record:
                continue
            far = WAIT - 6 if y < bar or wait.worker == event.worker else 0
            near_bar = bar if y < bar else bar + BAR
            self.picture.met.add("ends" if wait.returning else "resumes")
            out += arrow(self.x(record) - 5, near_bar, y + far, GREY) if wait.returning else arrow(self.x(record), y + far, near_bar, GREEN)
        return out

    def label(self, x, event):
        """Lines over the bar, right of the record's line."""
        lines, colour = label_words(event)
        y = self.lanes[self.lane(event.worker)] - 6 - LINE * (len(lines) - 1)
        return "".join(text(x + 7, y + LINE * k, fit(line, 13), f' fill="{colour}"') for k, line in enumerate(lines))

    def sign(self, record, event):
        """A dot, a diamond, a cross or an arrow."""
        x, y = self.x(record), self.lanes[self.lane(event.worker)] + BAR / 2
        if event.refusal:
            return cross(x, y)
        if event.kind == "return":
            return self.wait_over(record, event)
        if event.kind not in ("read", "write", "steal", "fold"):
            return ""
        self.picture.met.add(event.kind)
        if event.kind == "fold":
            return diamond(x, y)
        return self.steal(x, event) if event.kind == "steal" else dot(x, y, "#fff" if event.kind == "read" else BLACK)

    def marks(self):
        """What each record did."""
        for record, event in enumerate(self.events, self.first):
            words = f"record {record}: {event_words(event)}"
            self.parts.append(titled(words, self.sign(record, event), self.label(self.x(record), event)))


class Drawing:
    """The parts of a picture, and how far they reach."""

    def __init__(self):
        self.parts, self.right, self.bottom = [], 0, 0

    def entry(self, x, sign, words, colour):
        """An entry of the legend."""
        self.parts.append(sign + text(x + 34, self.bottom + 4, words, f' fill="{colour}"'))
        self.right = max(self.right, x + 34 + LETTER * len(words))

    def signs(self, entries):
        """Signs with their words, side by side below all that was drawn."""
        x, wide, self.bottom = LEFT - 84, max(self.right, 700), self.bottom + 10
        for _, sign, words in entries:
            end = x + 34 + LETTER * len(words)
            if end > wide and x > LEFT - 84:
                x, end, self.bottom = LEFT - 84, LEFT - 50 + LETTER * len(words), self.bottom + 24
            self.entry(x, sign(x, self.bottom), words, "#444")
            x = end + 22
        self.bottom += 24


class Picture(Drawing):
    """The records first to last of a run, in rows, and what is shown in all of them."""

    def __init__(self, run, first, last, report=None):
        super().__init__()
        self.run, self.first, self.last, self.report, self.met = run, first, last, report, set()
        self.track, self.clock = ([], {}) if report is None else (clocks.track(run.events, report.path()), path_clock(report))
        names = [()] + [event.other for event in run.events if event.kind == "spawn" and not event.refusal]
        self.colours = {name: PALETTE[place % len(PALETTE)] for place, name in enumerate(names)}
        self.bottoms = [((),) + (None,) * (run.workers - 1)] + [event.bottoms for event in run.events]
        self.waits = [wait for wait in waiting(run.events) if wait.first <= last and wait.last >= first]
        self.right, self.bottom = 0, TOP - NUMBERS
        for a, b in rows_of_records(first, last):
            self.row(a, b)

    def row(self, first, last):
        row = Row(self, first, last, self.bottom)
        for drawn in (row.grid, row.bars, row.suspensions, row.path, row.marks):
            drawn()
        self.parts += row.parts
        self.right, self.bottom, self.last_row = max(self.right, row.right), row.bottom + BETWEEN, row

    def legend(self):
        """An entry for each sign and each refusal met, below the rows."""
        self.signs(entry for entry in LEGEND if entry[0] in self.met)
        if self.met & {"path", "held up"}:
            self.entry(LEFT - 84, path_line(LEFT - 84, self.bottom, LEFT - 58, self.bottom), report_words(self.report), ORANGE)
            self.bottom += 18
        self.totals()
        for number in sorted({event.refusal for event in self.run.events[self.first - 1 : self.last]} - {0}):
            self.entry(LEFT - 84, cross(LEFT - 71, self.bottom), f"refused {number}: {REFUSED[number]}", RED)
            self.bottom += 18

    def totals(self):
        """A line with the totals, if a run that folds is drawn to its end."""
        over = self.run.totals and self.last == len(self.run.events)
        if over and any(event.kind == "fold" and not event.refusal for event in self.run.events):
            self.entry(LEFT - 84, diamond(LEFT - 71, self.bottom), f"totals: {total_words(self.run.totals)}", PURPLE)
            self.bottom += 18

    def title(self):
        size = f"{size_words(self.run)}; {self.run.lines[len(self.run.events) + 1]} at the end"
        whole = (self.first, self.last) == (1, len(self.run.events))
        return size if whole else f"{size}; records {self.first} to {self.last} of {len(self.run.events)}"


def path_clock(report):
    """What is written at a record of the critical path: the clock after its step, and the span at Main's return."""
    path = report.path()
    return {**{step.record: step.clock for step in path if step.kind != "return"}, path[-1].record: f"span {report.span}"}


def raw_words(record):
    """A record that is no step, in two lines."""
    return [f"raw {record[:4].hex()}", record[4:].hex()]


def refused_words(event):
    """A refused record with its fields."""
    if event.refusal == 7:
        return raw_words(event.record)
    if event.kind == "write":
        return [f"write {event.low}", f":= {event.value}"]
    if event.kind == "fold":
        return fold_label(event)
    return [f"{event.kind} {event.low}" if event.kind in ("steal", "read") else event.kind]


def fold_label(event):
    """A fold in two lines: its reducer, and its value or its map."""
    reducer, *value = fold_words(event.low, event.value)
    return [f"fold {reducer}", "x{} +{}".format(*value) if event.low == AFFINE else str(*value)]


def joined_words(event):
    """Where the view of a frame that ends goes, if anything was folded."""
    return [f"view to {name_text(event.joined)}"] if event.joined is not None and event.view != IDENTITY else []


def label_words(event):
    """(lines, colour) of a record's label."""
    if event.refusal:
        return refused_words(event) + [f"refused {event.refusal}"], RED
    me = name_text(event.frame)
    if event.kind == "read":
        return [f"read {event.low}", f"= {event.number}"], BLACK
    if event.kind == "write":
        return [f"write {event.low}", f":= {event.value}"], BLACK
    if event.kind == "fold":
        return fold_label(event), PURPLE
    if event.kind == "spawn":
        return ["spawn", name_text(event.other)], BLACK
    if event.kind == "steal":
        return ["steal", me], BLUE
    if event.kind == "sync":
        return ["sync", "waits" if event.number else "passes"], BLACK
    ends = {0: "goes on", 1: "idle", 2: "resumes", 3: "run over", 4: "waits"}
    lines = [ended_words(len(event.ended)), ends[event.number]] + joined_words(event)
    return lines, GREEN if event.number == 2 else BLACK


def ended_words(count):
    """At most 13 letters: a label's width."""
    if count < 2:
        return "return"
    return f"return, {count} end" if count < 10 else f"return {count} end"


def page(drawing, title, warning=""):
    """The SVG text of a drawing with its legend, its title and a warning below that."""
    drawing.legend()
    parts = [text(LEFT - 84, 24, title, ' font-size="14"')]
    if warning:
        parts.append(text(LEFT - 84, 40, warning, f' fill="{RED}" font-weight="bold"'))
    wide, high = max(drawing.right + 10, 30 + 8.6 * len(title), 30 + 7 * len(warning)), drawing.bottom + 4
    size = f'width="{wide:g}" height="{high:g}" viewBox="0 0 {wide:g} {high:g}"'
    head = f'<svg xmlns="http://www.w3.org/2000/svg" {size} font-family="monospace" font-size="11">'
    return "\n".join([head, rect(0, 0, wide, high, "#fff"), *parts, *drawing.parts, "</svg>"]) + "\n"


def picture(run, alike=True, first=1, last=None):
    """The SVG text of the records first to last of a run whose records were run, with the critical path if Main has returned."""
    drawing = Picture(run, first, len(run.events) if last is None else last, clocks.report(run.events))
    return page(drawing, drawing.title(), "" if alike else DIFFERS)
