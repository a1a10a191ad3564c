"""The plain machine of documents 01 and 02 (R-2, R-3, R-5, R-6), and the lines that splitrun must print.

With note_b=True the machine has the bug of integration note B: a frame that resumes after its last
child takes that child's values."""
import struct
from collections import Counter
from dataclasses import dataclass
from itertools import groupby

from .script import AFFINE, NAMES, REDUCERS, is_step, split_input, split_records

LENT_PLACES = 64  # of the frame table that splitrun lends, and host/c/replay.c
# Splitrun's limits (document 01): past one of them it prints `unfit`.
MOST_SPLITTERS, MOST_NODES, MOST_BYTES = 256, 1024, 16384
# A view, and the totals: the sum, the minimum, the multiplier and the addend.
IDENTITY = (0, 2**32 - 1, 1, 0)


def height(n):
    """The least H with 2^H at least n."""
    return (n - 1).bit_length()


def tree_nodes(n):
    """T(n): the nodes of all levels."""
    return sum((n + 2**level - 1) >> level for level in range(height(n) + 1))


def join(left, right):
    """The sum, the minimum, and the affine map with the earlier one applied first, modulo 4,294,967,296."""
    added, times = left[0] + right[0], left[2] * right[2]
    return added % 2**32, min(left[1], right[1]), times % 2**32, (right[2] * left[3] + right[3]) % 2**32


def folded(reducer, value):
    """The view of one value folded into a reducer."""
    if reducer == AFFINE:
        return (*IDENTITY[:2], *divmod(value, 65536))
    return IDENTITY[:reducer] + (value,) + IDENTITY[reducer + 1 :]


def in_order(name):
    """Sorts live frames as R-5 has it: siblings eldest first and each, after all below it, before its parent."""
    return (*name, float("inf"))


def name_text(name):
    """Main, or the chain of spawn ordinals: 1.2; from three equal ones on, 1.2^3 is 1.2.2.2"""
    parts = []
    for ordinal, group in groupby(name):
        count = len(list(group))
        parts += [f"{ordinal}^{count}"] if count > 2 else [str(ordinal)] * count
    return ".".join(parts) or "Main"


@dataclass
class Event:
    """What one record did. frame is the frame that acted (for a steal the stolen one), other the
    child made, or the frame above those that ended; refusal is 0 where the step was accepted. ended has the
    frames that a return ended, child first: its own, and those that waited as returning. new is the number of
    new nodes of a write, also of one refused by 16: the shared rest of its path. view is the frame's view after a
    fold, the one that a child inherits, or that of the frames that a return ends, which joins the view of the frame
    joined, or is the totals."""

    record: bytes
    worker: int
    kind: str
    low: int
    value: int
    refusal: int = 0
    number: int = 0
    frame: tuple = None
    other: tuple = None
    ended: tuple = ()
    new: int = 0
    view: tuple = IDENTITY
    joined: tuple = None
    free: int = 0
    bottoms: tuple = ()

    def answer(self):
        if self.refusal:
            return f"{self.refusal} 0"
        return f"{100 + self.record[0]} {self.number}"


class Frame:
    """A live frame: its values, and on each level the number of the last write to each group."""

    def __init__(self, name, values, levels):
        self.name, self.values, self.levels = name, list(values), [list(row) for row in levels]
        self.children, self.spawned, self.view = 0, 0, IDENTITY
        self.suspended = self.returning = False

    def path(self, splitter):
        """The triples of level, group and last write that have the splitter in their group."""
        return [(level, splitter >> level, row[splitter >> level]) for level, row in enumerate(self.levels)]

    def triples(self):
        return [(level, group, mark) for level, row in enumerate(self.levels) for group, mark in enumerate(row)]

    def mark(self, splitter, write):
        """A write of this number to the splitter: the last one in each of its groups."""
        for level, row in enumerate(self.levels):
            row[splitter >> level] = write


class Machine:
    """The plain machine after an accepted start with a frame table of so many places."""

    def __init__(self, workers, values, nodes, note_b=False, places=LENT_PLACES):
        self.n, self.nodes, self.note_b, self.places = len(values), nodes, note_b, places
        self.writes, self.totals = 0, None
        self.held = Counter()  # of each distinct triple, how many live frames have it
        main = Frame((), values, [[0] * ((self.n + 2**level - 1) >> level) for level in range(height(self.n) + 1)])
        self.frames = {(): main}
        self.deques = [[] for _ in range(workers)]
        self.deques[0].append(main)
        self.hold(main.triples())

    @property
    def free(self):
        """The pool's nodes less the distinct triples."""
        return self.nodes - len(self.held)

    def hold(self, triples):
        self.held.update(triples)

    def drop(self, triples):
        for triple in triples:
            self.held[triple] -= 1
            if not self.held[triple]:
                del self.held[triple]

    def new_nodes(self, frame, splitter):
        """How many distinct triples more there are after a write: its new ones, less those that only this frame had."""
        return sum(self.held[triple] > 1 for triple in frame.path(splitter))

    def bottoms(self):
        return tuple(deque[-1].name if deque else None for deque in self.deques)

    def refusal(self, event):
        """Document 01's list in its order, 7 to 16 without 14, with 20 in the place of 15; 0 where nothing refuses."""
        kind = event.kind
        if not is_step(event.record):
            return 7
        if event.worker >= len(self.deques):
            return 8
        if not self.frames:
            return 9
        deque = self.deques[event.worker]
        if kind != "steal" and not deque:
            return 10
        if kind == "steal":
            return self.steal_refusal(deque, event.low)
        if kind == "spawn" and len(self.frames) >= self.places:
            return 13
        if kind in ("read", "write") and event.low >= self.n:
            return 15
        if kind == "fold" and event.low >= len(REDUCERS):
            return 20
        if kind == "write":
            event.new = self.new_nodes(deque[-1], event.low)
        return 16 if event.new > self.free else 0

    def steal_refusal(self, deque, victim):
        if deque:
            return 11
        if victim >= len(self.deques) or len(self.deques[victim]) < 2:
            return 12
        return 0

    def look(self, record):
        """A record of 8 bytes, its frame and its refusal; nothing is done yet."""
        kind, worker, low, value = struct.unpack("<BBHI", record)
        event = Event(record, worker, NAMES.get(kind, "?"), low, value)
        if worker < len(self.deques) and self.deques[worker]:
            event.frame = self.deques[worker][-1].name
        event.refusal = self.refusal(event)
        return event

    def step(self, record):
        """Takes one record of 8 bytes; what it did."""
        event = self.look(record)
        if not event.refusal:
            getattr(self, "do_" + event.kind)(event, self.deques[event.worker])
        event.free, event.bottoms = self.free, self.bottoms()
        return event

    def do_spawn(self, event, deque):
        parent = deque[-1]
        parent.children += 1
        parent.spawned += 1
        child = Frame(parent.name + (parent.spawned,), parent.values, parent.levels)
        child.view, parent.view = parent.view, IDENTITY
        self.frames[child.name] = child
        self.hold(child.triples())
        deque.append(child)
        event.other, event.number, event.view = child.name, len(child.name), child.view

    def do_return(self, event, deque):
        frame = deque.pop()
        if frame.children:
            frame.suspended = frame.returning = True
            event.number = 4
            return
        self.end(event, deque, frame)

    def end(self, event, deque, frame):
        """The end of a frame, and of those above it that waited as returning for it alone: outcome 0 to 3."""
        del self.frames[frame.name]
        self.drop(frame.triples())
        event.ended += (frame.name,)
        self.join_next(event, frame)
        if frame.name == ():
            event.number = 3
            return
        parent = self.frames[frame.name[:-1]]
        parent.children -= 1
        if parent.returning and not parent.children:
            self.end(event, deque, parent)
        else:
            self.leave_parent(event, deque, frame, parent)

    def join_next(self, event, frame):
        """The view of a frame that ends joins on the left of the next one's in the order; Main's is the totals."""
        event.view = frame.view
        after = [name for name in self.frames if in_order(name) > in_order(frame.name)]
        if not after:
            event.joined, self.totals = None, frame.view
            return
        following = self.frames[min(after, key=in_order)]
        event.joined, following.view = following.name, join(frame.view, following.view)

    def leave_parent(self, event, deque, frame, parent):
        """What the parent of the last frame that ended does: outcome 0, 1 or 2."""
        event.other = parent.name
        if deque:
            event.number = 0
        elif parent.suspended and not parent.children:
            event.number, parent.suspended = 2, False
            deque.append(parent)
            if self.note_b:
                self.take_view(parent, frame)
        else:
            event.number = 1

    def take_view(self, parent, child):
        """Note B's bug."""
        self.drop(parent.triples())
        parent.values, parent.levels = child.values, child.levels
        self.hold(parent.triples())

    def do_steal(self, event, deque):
        frame = self.deques[event.low].pop(0)
        deque.append(frame)
        event.frame, event.number = frame.name, len(frame.name)

    def do_sync(self, event, deque):
        event.number = 1 if deque[-1].children else 0
        if event.number:
            deque.pop().suspended = True

    def do_read(self, event, deque):
        event.number = deque[-1].values[event.low]

    def do_fold(self, event, deque):
        frame = deque[-1]
        frame.view = event.view = join(frame.view, folded(event.low, event.value))

    def do_write(self, event, deque):
        frame = deque[-1]
        self.writes += 1
        self.drop(frame.path(event.low))
        frame.values[event.low] = event.value
        frame.mark(event.low, self.writes)
        self.hold(frame.path(event.low))
        event.number = self.free


@dataclass
class Run:
    """A whole input: splitrun's lines; the events, if the records were run; the totals, if Main has returned."""

    lines: list
    events: list = None
    refused: int = 0
    workers: int = 0
    values: tuple = ()
    nodes: int = 0
    totals: tuple = None


def whole_refusal(workers, values, nodes, tail):
    """Refusals 1 to 4; 21, 5 and 6 cannot come from an input of splitrun."""
    if not 1 <= len(values) <= 256:
        return 1
    if not 1 <= workers <= 8:
        return 2
    if not tree_nodes(len(values)) <= nodes <= 16384:
        return 3
    return 4 if len(tail) % 8 else 0


def cut_short(data):
    """What is missing in an input whose header or values are cut short."""
    if len(data) < 8:
        return f"the header is cut short: {len(data)} of 8 bytes"
    return f"the values are cut short: {(len(data) - 8) // 4} of {struct.unpack('<H', data[2:4])[0]}"


def unfit(data):
    """The limits of splitrun that an input breaks, each (the script's line of it: 0 start, 1 values, 2 the first record; words)."""
    parts = split_input(data)
    if parts is None:
        return [(0, cut_short(data))]
    _, nodes, values, tail = parts
    found = []
    if nodes > MOST_NODES:
        found.append((0, f"{nodes:,} nodes, and at most {MOST_NODES:,} fit"))
    if len(values) > MOST_SPLITTERS:
        found.append((1, f"{len(values):,} values, and at most {MOST_SPLITTERS} fit"))
    if len(tail) > MOST_BYTES:
        most = f"at most {MOST_BYTES:,} fit, that is {MOST_BYTES // 8:,} records"
        found.append((2 + MOST_BYTES // 8, f"{len(tail):,} bytes of records, and {most}"))
    return found


def run(data, note_b=False):
    """The plain machine on splitrun's input bytes."""
    if unfit(data):
        return Run(["unfit"])
    workers, nodes, values, tail = split_input(data)
    result = Run([f"{workers} {len(values)} {nodes}"], None, 0, workers, tuple(values), nodes)
    result.refused = whole_refusal(workers, values, nodes, tail)
    if result.refused:
        result.lines.append(f"refused {result.refused}")
        return result
    machine = Machine(workers, values, nodes, note_b)
    result.events = [machine.step(record) for record in split_records(tail)]
    result.lines += [event.answer() for event in result.events] + [f"free {machine.free}"]
    result.totals = machine.totals
    if result.totals:
        result.lines.append(" ".join(map(str, ("reduced", *result.totals))))
    return result
