"""A run along its clocks as an SVG picture: a line for each frame, a cell for each step; below, the steps of each clock in a pile."""
from collections import Counter

from .draw import BLACK, DIFFERS, GREY, LEFT, LEGEND, LETTER, ORANGE, PURPLE
from .draw import Drawing, fit, page, path_dot, path_line, rect, text, titled, wait_rect
from .explain import count_words, event_words, mean_words, report_words
from .machine import in_order, name_text

TOP, LINE, CELL = 66, 18, 13  # the first frame's y, the height of a frame's line and of its cells
WIDE, WIDEST, NARROWEST = 1000, 18, 2  # the width of all clocks, as long as a cell is neither wider nor narrower
SIGNS = 9  # the least width of a cell with a sign in it
PILED = 6  # the height of a step in the piles
PALE, EDGE = "#cfdff0", "#8aa0b8"
KINDS = ("spawn", "sync", "read", "write", "fold")


def sign(kind, x, y, size):
    """A step's sign around a point."""
    if kind in ("read", "write"):
        return f'<circle cx="{x:g}" cy="{y:g}" r="{size:g}" fill="{"#fff" if kind == "read" else BLACK}" stroke="{BLACK}"/>'
    if kind == "fold":
        return f'<path d="M{x:g} {y - size:g}l{size:g} {size:g}l-{size:g} {size:g}l-{size:g} -{size:g}z" fill="{PURPLE}"/>'
    if kind == "spawn":
        return f'<path d="M{x:g} {y - size:g}l{size:g} {2 * size:g}h-{2 * size:g}z" fill="{BLACK}"/>'
    return f'<path d="M{x:g} {y - size - 1:g}v{2 * size + 2:g}" stroke="{BLACK}" stroke-width="2.5"/>'


def cell(x, y, wide, high, fill):
    return rect(x, y, wide, high, fill, f' stroke="{EDGE}" stroke-width="{0.7 if wide >= SIGNS else 0.2}"')


def kind_entry(kind):
    """A step's entry of the legend."""
    return kind, lambda x, y: cell(x + 4, y - 6, 18, CELL, PALE) + sign(kind, x + 13, y + 0.5, 4), kind


STEP = ("step", lambda x, y: cell(x + 4, y - 6, 18, CELL, PALE), "step")  # where cells are too narrow for signs


def mean_line(x, y, end):
    return f'<path d="M{x:g} {y:g}H{end:g}" stroke="{BLACK}" stroke-width="1.5" stroke-dasharray="6 3"/>'


class Chart(Drawing):
    """The frames of a run that has a report, in the order of document 02's R-5: siblings eldest first, each after all below it. So no line
    from a spawn, or to the sync or return that a frame held up, crosses a frame."""

    def __init__(self, run, report):
        super().__init__()
        self.run, self.report, self.path, self.met = run, report, set(report.path()), set()
        self.unit = min(WIDEST, max(NARROWEST, WIDE / report.span))
        self.steps = {}
        for step in report.steps:
            self.steps.setdefault(step.frame, []).append(step)
        names = sorted(self.steps, key=in_order)
        self.y = {name: TOP + LINE * place for place, name in enumerate(names)}
        self.right, self.bottom = self.x(report.span) + 20, TOP + LINE * len(names)
        self.grid()
        for drawn in (self.links, self.frame):
            for name in names:
                drawn(name)
        for clock in (0, report.span):
            self.parts.append(path_dot(self.x(clock), self.middle(())))
        self.piles()

    def x(self, clock):
        return LEFT + self.unit * clock

    def middle(self, name):
        return self.y[name] + CELL / 2

    def grid(self):
        """The clocks, every fifth or so."""
        apart = next(apart for apart in (5, 10, 50) if apart * self.unit >= 40)
        self.parts.append(text(LEFT - 84, TOP - 14, "clock", ' fill="#666"'))
        for clock in range(0, self.report.span + 1, apart):
            self.parts.append(f'<path d="M{self.x(clock):g} {TOP - 8}V{self.bottom:g}" stroke="#e4e4e4"/>')
            self.parts.append(text(self.x(clock) - LETTER / 2 * len(str(clock)), TOP - 14, clock, ' fill="#666"'))

    def links(self, name):
        """From the spawn that made a frame, and from each child whose clock it took."""
        for step in self.steps[name]:
            if step.before and step.before.frame != name:
                x, y, low = self.x(step.before.clock), self.middle(step.before.frame), self.middle(name)
                thin = f'<path d="M{x:g} {y:g}V{low:g}" stroke="{GREY}" fill="none"/>'
                self.parts.append(path_line(x, y, x, low, wide=4) if step in self.path else thin)

    def frame(self, name):
        """A frame's line: its name, its steps, and where it waits for its children."""
        first, y = self.steps[name][0], self.y[name]
        self.parts.append(text(LEFT - 84, y + 10, fit(name_text(name), 12), ' font-weight="bold"'))
        clock = first.before.clock if first.before else 0
        self.parts.append(rect(self.x(clock) - 1, y, 2, CELL, GREY))  # a frame may be without a step but its return
        for step in self.steps[name]:
            costs = step.kind != "return"
            if step.clock - costs > clock:
                self.met.add("sync" if costs else "returning")
                self.parts.append(wait_rect(self.x(clock), y + 1, self.unit * (step.clock - costs - clock), CELL - 2, EDGE, not costs))
            if costs:
                self.step(step, y)
            clock = step.clock

    def step(self, step, y):
        x = self.x(step.clock - 1)
        parts = [cell(x, y, self.unit, CELL, ORANGE if step in self.path else PALE)]
        if self.unit >= SIGNS:
            parts.append(sign(step.kind, x + self.unit / 2, y + CELL / 2, min(4, self.unit / 3)))
        words = f"clock {step.clock}, record {step.record}: {event_words(self.run.events[step.record - 1])}"
        self.parts.append(titled(words, *parts))

    def piles(self):
        """The steps of each clock in a pile, that of the critical path lowest: their area is the work, their width the span."""
        counts = Counter(step.clock for step in self.report.steps if step.kind != "return")
        highest = max(counts.values())
        self.bottom += 16 + PILED * highest
        for clock, count in sorted(counts.items()):
            for place in range(count):
                self.parts.append(cell(self.x(clock - 1), self.bottom - PILED * (place + 1), self.unit, PILED, PALE if place else ORANGE))
        for count in (0, highest) if highest > 1 else (0,):
            self.parts.append(text(LEFT - 6 - LETTER * len(str(count)), self.bottom - PILED * count + 4, count, ' fill="#666"'))
        self.parts.append(text(LEFT - 84, self.bottom + 4, "steps", ' fill="#666"'))
        self.parts.append(mean_line(LEFT, self.bottom - PILED * self.report.work / self.report.span, self.right - 20))
        self.bottom += 16

    def legend(self):
        """The signs met, the critical path and the mean of the piles."""
        kinds = {step.kind for step in self.report.steps}
        steps = [kind_entry(kind) for kind in KINDS if kind in kinds] if self.unit >= SIGNS else [STEP]
        self.signs(steps + [entry for entry in LEGEND if entry[0] in self.met])
        left, words = LEFT - 84, f"critical path: {self.report.span} of {count_words(self.report.work, 'step')}"
        self.entry(left, path_line(left, self.bottom, left + 26, self.bottom), words, ORANGE)
        self.bottom += 18
        self.entry(left, mean_line(left, self.bottom, left + 26), f"on average {mean_words(self.report)} steps at each clock: work / span", "#444")
        self.bottom += 18


def picture(run, report, alike=True):
    """The SVG text of a run that has a report, along its clocks."""
    frames = count_words(len({step.frame for step in report.steps}), "frame")
    return page(Chart(run, report), f"{frames} along the clock: {report_words(report)}", "" if alike else DIFFERS)
