"""A short script for a read that is as note B: the log's frames and steps without which both rules still give their answers are left out."""
import copy
import struct
from dataclasses import dataclass

from . import machine
from .script import KINDS, record_line

LONGEST = 3000  # steps up to the read; more take too long
SPLITRUN_NODES = 1024  # the most that splitrun takes


@dataclass
class Act:
    """An accepted step of the log: its place, the frame that takes it (the stolen one), the child of a spawn."""

    at: int
    event: machine.Event

    def __post_init__(self):
        self.frame = self.event.frame
        self.child = self.event.other if self.event.kind == "spawn" else None

    def below(self, name):
        """Whether the step is of this frame or of one below it, or its spawn."""
        return name in (self.child, self.frame[: len(name)])


def worker_of(stepping, act, name):
    """(worker, victim) of the step now, the log's thief if it is idle; None where nobody can take it."""
    bottoms = stepping.bottoms()
    if act.event.kind != "steal":
        return (bottoms.index(name), act.event.low) if name in bottoms else None
    idle = [worker for worker, bottom in enumerate(bottoms) if bottom is None]
    victims = [worker for worker, deque in enumerate(stepping.deques) if len(deque) > 1 and deque[0].name == name]
    if not idle or not victims:
        return None
    return act.event.worker if act.event.worker in idle else idle[0], victims[0]


def rebuilt(acts, log):
    """(records, the last event) of these steps alone; None where one of them cannot be taken."""
    stepping, names, records, event = machine.Machine(log.workers, log.values, log.nodes), {(): ()}, [], None
    for act in acts:
        name = names.get(act.frame)
        if act.event.kind == "steal" and name in stepping.bottoms():
            continue  # its child is left out: it goes on where it is
        taken = None if name is None else worker_of(stepping, act, name)
        if taken is None:
            return None
        records.append((act.at, struct.pack("<BBHI", KINDS[act.event.kind], *taken, act.event.value)))
        event = stepping.step(records[-1][1])
        if event.refusal:
            return None
        names[act.child] = event.other
    return records, event


def still_shows(acts, log, right, wrong):
    """The records, if the last read is right by document 01's rule and wrong by note B's."""
    made = rebuilt(acts, log)
    if made is None or made[1].number != right:
        return None
    stepping = machine.Machine(log.workers, log.values, log.nodes, note_b=True)
    last = [stepping.step(record) for _, record in made[0]][-1]
    return made[0] if not last.refusal and last.number == wrong else None


def parts_of(acts):
    """What may be left out, the largest first: a frame with all below it, then single steps from the last on."""
    names = [act.child for act in acts if act.child]
    frames = [[act for act in acts if act.below(name)] for name in names]
    return sorted(frames, key=len, reverse=True) + [[act] for act in reversed(acts[:-1])]


def shortened(acts, log, right, wrong):
    """The steps left when no part of parts_of can be left out."""
    shorter = True
    while shorter:
        shorter = False
        for part in parts_of(acts):
            kept = [act for act in acts if act not in part]
            if acts[-1] in kept and len(kept) < len(acts) and still_shows(kept, log, right, wrong):
                acts, shorter = kept, True
    return acts


def with_nodes(log, nodes):
    """The log with another pool."""
    other = copy.copy(log)
    other.nodes = nodes
    return other


def short_records(log, events, at):
    """(nodes, (place in the log, record) for each step) of the short tape that ends with the read; None where the log is too long."""
    if at >= LONGEST:
        return None
    acts = [Act(place, event) for place, event in enumerate(events[: at + 1]) if not event.refusal]
    right, wrong = events[at].number, log.entries[at].second
    acts = shortened(acts, log, right, wrong)
    fit = with_nodes(log, min(log.nodes, SPLITRUN_NODES))
    records = still_shows(acts, fit, right, wrong)
    return (fit.nodes, records) if records else (log.nodes, still_shows(acts, log, right, wrong))


def script_of(name, log, nodes, records, right):
    """The script, with the log's record numbers as comments."""
    wrong = log.entries[records[-1][0]].second
    lines = [f"# From {name}: its record {records[-1][0] + 1} in {len(records)} steps."]
    lines += [f"# The read must give {right}; note B gives {wrong}, as the log has it."]
    lines += [f"start {log.workers} {nodes}", " ".join(["values", *map(str, log.values)])]
    steps = [record_line(record) for _, record in records]
    width = max(map(len, steps)) + 3
    lines += [f"{step:<{width}}# record {at + 1}" for step, (at, _) in zip(steps, records)]
    return "\n".join(lines) + "\n"
