"""A simulation of a firmware that logs its steps: it copies values instead of sharing a tree, and its search takes random steps.

With note B's rule a frame that resumes takes its last child's values; else it keeps its own. The steps of a search depend on
the seed alone, so both rules take the same ones. Written without the plain machine, so that an audit compares two programs.

It has no views: a branch keeps its folds and its children in the order of its steps, and the totals are computed at the end."""
import random
import struct

from .log import NONE, Log, entry
from .script import KINDS


class Branch:
    """A running branch with its own values."""

    def __init__(self, parent, values):
        self.parent, self.values = parent, list(values)
        self.depth = parent.depth + 1 if parent else 0
        self.children, self.waits = 0, False
        self.folds = []  # (reducer, value) of a fold, or a child

    def child_first(self):
        """Its folds in order, those of each child where it was spawned."""
        for item in self.folds:
            if isinstance(item, Branch):
                yield from item.child_first()
            else:
                yield item


class Firmware:
    """Workers with stacks of branches; each call does a step, logs it and gives the second answer word."""

    def __init__(self, workers, nodes, values, note_b):
        self.note_b, self.ended = note_b, False
        self.main = Branch(None, values)
        self.stacks = [[] for _ in range(workers)]
        self.stacks[0].append(self.main)
        self.log = Log(struct.pack(f"<HHI{len(values)}I", workers, len(values), nodes, *values), [])

    def put(self, kind, worker, number, field=0, value=0):
        record = struct.pack("<BBHI", KINDS[kind], worker, field, value)
        self.log.entries.append(entry(record, 100 + KINDS[kind], number))
        return number

    def refused(self, kind, worker, number):
        self.log.entries.append(entry(struct.pack("<BBHI", KINDS[kind], worker, 0, 0), number, 0))

    def spawn(self, worker):
        parent = self.stacks[worker][-1]
        parent.children += 1
        parent.folds.append(Branch(parent, parent.values))
        self.stacks[worker].append(parent.folds[-1])
        return self.put("spawn", worker, parent.depth + 1)

    def steal(self, worker, victim):
        branch = self.stacks[victim].pop(0)
        self.stacks[worker].append(branch)
        return self.put("steal", worker, branch.depth, victim)

    def sync(self, worker):
        waits = self.stacks[worker][-1].children > 0
        if waits:
            self.stacks[worker].pop().waits = True
        return self.put("sync", worker, int(waits))

    def read(self, worker, splitter):
        return self.put("read", worker, self.stacks[worker][-1].values[splitter], splitter)

    def write(self, worker, splitter, value):
        """A copy has no nodes: the free ones are not recorded."""
        self.stacks[worker][-1].values[splitter] = value
        return self.put("write", worker, NONE, splitter, value)

    def fold(self, worker, reducer, value):
        self.stacks[worker][-1].folds.append((reducer, value))
        return self.put("fold", worker, 0, reducer, value)

    def totals(self):
        """Sum, minimum, multiplier and addend of all folds, as one worker would have come to them."""
        folds = list(self.main.child_first())
        multiplier, addend = 1, 0
        for _, value in (fold for fold in folds if fold[0] == 2):
            multiplier, addend = multiplier * (value // 65536) % 2**32, (addend * (value // 65536) + value % 65536) % 2**32
        least = min([2**32 - 1, *(value for reducer, value in folds if reducer == 1)])
        return sum(value for reducer, value in folds if reducer == 0) % 2**32, least, multiplier, addend

    def give_back(self, worker):
        """A return. Here a branch syncs before it, so it has no child."""
        child = self.stacks[worker].pop()
        return self.put("return", worker, self.after_return(worker, child))

    def after_return(self, worker, child):
        parent = child.parent
        if parent is None:
            self.ended = True
            return 3
        parent.children -= 1
        if self.stacks[worker]:
            return 0
        if not parent.waits or parent.children:
            return 1
        parent.waits = False
        self.stacks[worker].append(parent)
        if self.note_b:
            parent.values = child.values
        return 2


class Search:
    """Random steps until so many are logged, then every branch syncs and returns. Folds are some of the steps if they are wanted."""

    def __init__(self, firmware, seed, steps, folds=False):
        self.firmware, self.chance, self.steps, self.folds = firmware, random.Random(seed), steps, folds

    def turn(self, worker):
        """What a worker does next."""
        stack = self.firmware.stacks[worker]
        if not stack:
            return self.look_for_work(worker)
        if len(self.firmware.log.entries) >= self.steps:
            return self.end(worker, stack[-1])
        return self.work(worker, stack[-1])

    def look_for_work(self, worker):
        """A steal where there is one; now and then an idle worker polls with a read and is refused by 10."""
        victims = [other for other, stack in enumerate(self.firmware.stacks) if len(stack) > 1]
        if victims:
            return self.firmware.steal(worker, self.chance.choice(victims))
        if self.chance.random() < 0.02:
            return self.firmware.refused("read", worker, 10)
        return None

    def work(self, worker, branch):
        if self.folds and self.chance.random() < 0.3:
            reducer, value = self.chance.randrange(3), self.chance.randrange(2**32)
            return self.firmware.fold(worker, reducer, value | 65536 if reducer == 2 else value)  # odd multipliers lose no earlier map
        n, draw = len(branch.values), self.chance.random()
        if draw < 0.14 and branch.depth < 5:
            return self.firmware.spawn(worker)
        if draw < 0.50:
            return self.firmware.read(worker, self.chance.randrange(n))
        if draw < 0.86:
            return self.firmware.write(worker, self.chance.randrange(n), self.chance.randrange(1000))
        if draw < 0.93 or branch.children or not branch.parent:
            return self.firmware.sync(worker)
        return self.firmware.give_back(worker)

    def end(self, worker, branch):
        return self.firmware.sync(worker) if branch.children else self.firmware.give_back(worker)

    def run(self):
        """The log of the whole search."""
        while not self.firmware.ended:
            self.turn(self.chance.randrange(len(self.firmware.stacks)))
        return self.firmware.log


def search(seed, steps, note_b, workers=3, splitters=8, nodes=500):
    """The log of a random search by a firmware with the right rule, or with note B's."""
    return Search(Firmware(workers, nodes, [0] * splitters, note_b), seed, steps).run()


def folding_search(seed, steps, note_b, workers=3, splitters=8, nodes=500):
    """The same with folds; (the log, the firmware's totals)."""
    firmware = Firmware(workers, nodes, [0] * splitters, note_b)
    return Search(firmware, seed, steps, folds=True).run(), firmware.totals()
