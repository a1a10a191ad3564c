"""Work and span of a run (document 02, R-7): a clock for each frame, beside the plain machine; and the critical path.

Each accepted spawn, sync, read, write and fold costs 1, a return or a steal nothing. A sync is counted when it passes, a return when its
frame ends."""
from dataclasses import dataclass


@dataclass(eq=False)
class Step:
    """A frame's step: the record at which it is counted, the frame's clock after it, and the step that this clock was counted from: the
    frame's step before, the spawn that made the frame, or the return of a child; None where Main begins."""

    kind: str
    frame: tuple
    record: int
    clock: int
    before: "Step"


def clock_of(step):
    """The clock after a step, 0 where Main begins."""
    return step.clock if step else 0


class Clocks:
    """Of each live frame its last step, or the spawn that made it, and the return of that ended child whose clock is the latest."""

    def __init__(self):
        self.last, self.child, self.steps, self.work = {(): None}, {(): None}, [], 0

    def latest(self, name):
        """The later of the frame's own clock and its ended children's; its own where they are equal."""
        own, child = self.last[name], self.child[name]
        return child if clock_of(child) > clock_of(own) else own

    def count(self, kind, name, record, before, cost=1):
        self.last[name] = Step(kind, name, record, clock_of(before) + cost, before)
        self.steps.append(self.last[name])
        self.work += cost

    def end(self, name, record):
        """A return, at the frame's end: it waits for the children, and costs nothing."""
        self.count("return", name, record, self.latest(name), 0)
        over = self.last.pop(name)
        del self.child[name]
        if name and over.clock > clock_of(self.child[name[:-1]]):
            self.child[name[:-1]] = over

    def take(self, record, event):
        """What one record of the plain machine's run does to the clocks."""
        kind, name = event.kind, event.frame
        if event.refusal or kind == "steal":
            return
        for ended in event.ended:
            self.end(ended, record)
        if kind == "return" and event.number == 2:  # the sync of the frame that resumes passes
            self.count("sync", event.other, record, self.latest(event.other))
        elif kind == "sync" and event.number == 0:
            self.count(kind, name, record, self.latest(name))
        elif kind in ("spawn", "read", "write", "fold"):
            self.count(kind, name, record, self.last[name])
        if kind == "spawn":
            self.last[event.other], self.child[event.other] = self.last[name], None


@dataclass
class Report:
    """Work and span of a run whose Main has returned, and all steps in the order in which they are counted, Main's return the last."""

    work: int
    span: int
    steps: list

    def __post_init__(self):
        self.quotient, self.remainder = divmod(self.work, self.span)

    def path(self):
        """The critical path: the steps that give Main's clock at its return, in order; those that cost 1 are as many as the span."""
        steps = [self.steps[-1]]
        while steps[-1].before:
            steps.append(steps[-1].before)
        return steps[::-1]


def report(events):
    """The report of a run's events; None for 22, where Main has not returned or the span is 0."""
    clocks = Clocks()
    for record, event in enumerate(events, 1):
        clocks.take(record, event)
    if clocks.last or not clocks.steps[-1].clock:
        return None
    return Report(clocks.work, clocks.steps[-1].clock, clocks.steps)


@dataclass
class Whereabouts:
    """Where the critical path is after a record: in which frame, with which worker, and whether it runs there. It does not while the frame
    is not executed, nor while the frame has an ended child's clock still to take."""

    frame: tuple
    worker: int
    runs: bool


def track(events, path):
    """The path's whereabouts after each record, from 0, the start, to the last before Main's return. A frame is with the worker that has it
    in its deque, or had it last."""
    worker, bottoms, at, out = {(): 0}, ((),), 0, []
    for record in range(path[-1].record):
        if record:
            bottoms = events[record - 1].bottoms
            move(worker, events[record - 1])
        while path[at].record <= record:
            at += 1
        name, taken = path[at].frame, at == 0 or path[at - 1].kind != "return"
        out.append(Whereabouts(name, worker[name], taken and bottoms[worker[name]] == name))
    return out


def move(worker, event):
    """What a record does to the frames' workers."""
    if event.refusal:
        return
    if event.kind == "steal":
        worker[event.frame] = event.worker
    elif event.kind == "spawn" or (event.kind, event.number) == ("return", 2):
        worker[event.other] = event.worker
