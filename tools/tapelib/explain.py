"""Each answer of a run in words, and two machines side by side."""
from dataclasses import dataclass
from itertools import zip_longest

from .machine import IDENTITY, LENT_PLACES, name_text, tree_nodes
from .script import AFFINE, Expect, about, record_line, split_input, split_records

# Document 01's sentences, "Refused, in checking order"; 16 as document 02, R-2, has it; 14 is gone with R-3; 7 and 20 as R-5 has them,
# 13 and 6 as R-6 has them, 22 as R-7 has it.
REFUSED = {
    1: "At a start, there are 0 or more than 256 initial values.",
    2: "At a start, there are 0 or more than 8 workers.",
    3: "At a start, the pool has fewer than T(n) or more than 16,384 nodes.",
    4: "The tape is not a multiple of 8 bytes, or the answer slice has fewer than two words per record.",
    5: "The work slice has fewer words than the recorded node count.",
    6: "State, frame table and pool are not sound.",
    7: "The kind is not 1 to 7, or an unused field is not zero.",
    8: "The worker does not exist.",
    9: "Main has returned.",
    10: "The step is not a steal and the worker is idle.",
    11: "The step is a steal and the thief is not idle.",
    12: "The victim does not exist or has fewer than two frames.",
    13: f"The step is a spawn and as many frames live as the frame table has places; splitrun lends {LENT_PLACES}.",
    15: "The step is a read or a write and the splitter is not below n.",
    16: "The step is a write and fewer nodes are free than the shared rest of its path has.",
    20: "The step is a fold and names no reducer.",
    22: "Main has not returned or the span is 0.",
}
UNFIT = (
    "unfit: header or values cut short, n over 256, nodes over 1,024 or more than 16,384 bytes of records."
)


def who(name):
    """A frame at the head of a sentence or in it: Main, frame 1.2"""
    return f"frame {name_text(name)}" if name else "Main"


def waited_words(event):
    """The frames that had returned before and waited, and now end too."""
    names = [who(name) for name in event.ended[1:]]
    if len(names) > 4:
        return f", and with it {len(names)} frames from {names[0]} up to {names[-1]}, which waited"
    return f", and with it {', '.join(names)}, which waited" if names else ""


def map_words(multiplier, addend):
    """An affine map: x to 10 x + 3"""
    return f"x to {multiplier} x + {addend}"


def fold_words(event):
    """What was folded into which reducer, and what the frame's view of that reducer is now."""
    me = who(event.frame)
    if event.low == AFFINE:
        return f"{me} folds {map_words(*divmod(event.value, 65536))} into the affine map; its view: {map_words(*event.view[2:])}"
    return f"{me} folds {event.value} into the {('sum', 'minimum')[event.low]}; its view: {event.view[event.low]}"


def view_words(event):
    """Where a view goes that something was folded into: with the child of a spawn, or from the frames that end to the next in order."""
    if event.view == IDENTITY or event.kind not in ("spawn", "return"):
        return ""
    if event.kind == "spawn":
        return "; what was folded goes with it"
    return f". What was folded joins {who(event.joined)}'s view" if event.joined is not None else ""


def return_words(event):
    me, worker, waited = who(event.frame), event.worker, waited_words(event)
    above = who(event.other) if event.other is not None else ""
    last = waited or ", the last child"
    return {
        0: f"{me} ends; its parent {above} is the bottom of worker {worker} again",
        1: f"{me} ends{waited}; worker {worker} is idle",
        2: f"{me} ends{last}; {above} resumes on worker {worker}, past its sync",
        3: f"{me} ends{waited}; the run is over",
        4: f"{me} returns, has a live child and waits as returning; worker {worker} is idle",
    }[event.number]


def accepted_words(event):
    me, kind = who(event.frame), event.kind
    if kind == "spawn":
        return f"{me} spawns {who(event.other)}, depth {event.number}, a copy of {me}'s values{view_words(event)}"
    if kind == "return":
        return return_words(event) + view_words(event)
    if kind == "steal":
        return f"worker {event.worker} takes {me}, depth {event.number}, from worker {event.low}"
    if kind == "sync":
        waits = f"{me} has a live child and is suspended; worker {event.worker} is idle"
        return waits if event.number else f"{me} has no live child and passes"
    if kind == "read":
        return f"{me} reads splitter {event.low}: {event.number}"
    if kind == "fold":
        return fold_words(event)
    return f"{me} writes {event.value} to splitter {event.low}{new_words(event.new)}"


def count_words(count, what):
    """1 node, 2 nodes"""
    return f"{count} {what}" if count == 1 else f"{count} {what}s"


def new_words(new):
    """The nodes that a write took: the rest of its path, from the first node on that another frame has too."""
    return f", with {count_words(new, 'new node')}" if new else ", in place"


def short_words(event):
    """Why a write was refused by 16."""
    return f" The rest has {count_words(event.new, 'node')}, {event.free} {'is' if event.free == 1 else 'are'} free."


def event_words(event):
    """What the record did, and the free nodes after it."""
    if not event.refusal:
        return f"{accepted_words(event)}. Free nodes: {event.free}"
    short = short_words(event) if event.refusal == 16 else ""
    bottom = f" (bottom frame: {name_text(event.frame)})" if event.frame is not None else ""
    return f"refused {event.refusal}: {REFUSED[event.refusal]}{short}{bottom} Nothing changes. Free nodes: {event.free}"


def size_words(run):
    """2 workers, 5 splitters, 20 nodes"""
    counts = ((run.workers, "worker"), (len(run.values), "splitter"), (run.nodes, "node"))
    return ", ".join(count_words(count, what) for count, what in counts)


def start_words(run):
    """The first line, in words."""
    text = size_words(run)
    if run.events is None:
        return text
    tree = tree_nodes(len(run.values))
    return f"{text}: {tree} in Main's tree, {run.nodes - tree} free. Main is alone on worker 0"


def run_words(run):
    """Words for each line of run.lines."""
    if run.lines == ["unfit"]:
        return [UNFIT]
    words = [start_words(run)]
    if run.events is None:
        return words + [f"the call is refused whole, number {run.refused}: {REFUSED[run.refused]}"]
    over = "Main has returned" if run.totals else "Main has not returned"
    words += [event_words(event) for event in run.events] + [f"the free nodes at the end; {over}"]
    return words + ([f"the totals: {total_words(run.totals)}"] if run.totals else [])


def total_words(totals):
    """The totals in words."""
    return f"sum {totals[0]}, minimum {totals[1]}, affine map {map_words(*totals[2:])}"


def report_words(report):
    """Work, span and parallelism in a line."""
    return f"work {report.work}, span {report.span}, parallelism {report.quotient} remainder {report.remainder}"


def mean_words(report):
    """Work divided by span: 5, or 5 3/44"""
    return f"{report.quotient} {report.remainder}/{report.span}" if report.remainder else str(report.quotient)


def report_text(report):
    """The report, and how many cores that means: a schedule takes at least the span, and the work is the same in all."""
    busy = f"At most {count_words(report.quotient, 'core')} can be kept busy: on average no schedule has more than {mean_words(report)} at work."
    return f"work {report.work}\nspan {report.span}\nparallelism {report.quotient} remainder {report.remainder}\n{busy}\n"


def step_texts(data, run):
    """The script's lines for run.lines: none for those after the records'."""
    if run.events is None:
        return [""] * len(run.lines)
    steps = ["start"] + [record_line(r) for r in split_records(split_input(data)[3])]
    return steps + [""] * (len(run.lines) - len(steps))


def table(rows):
    """Rows of texts in columns, the last column free. The line `reduced` is long and widens no column."""
    widths = [max(len(row[at]) for row in rows if not row[at].startswith("reduced")) for at in range(len(rows[0]) - 1)]
    return ["  ".join([*(c.ljust(w) for c, w in zip(row, widths)), row[-1]]).rstrip() for row in rows]


@dataclass
class Missed:
    """An expected answer that did not come, and the line that splitrun printed in its place."""

    expect: Expect
    got: str

    def words(self):
        what = f"record {self.expect.record}" if self.expect.record else "at the end"
        return f"line {self.expect.line}: {what}: expected {self.expect.text}, splitrun says {self.got}"


def place_of(expect, printed):
    """The place of the line that an Expect is about; the last, where a line of that name did not come."""
    if expect.record:
        return expect.record
    named = [at for at, line in enumerate(printed) if line.split()[:1] == [about(expect)]]
    return (named or [len(printed) - 1])[-1]


def missed(expects, printed):
    """The expected answers that did not come."""
    out = []
    for expect in expects:
        at = place_of(expect, printed)
        got = printed[at] if 0 <= at < len(printed) else "(no line)"
        if got != expect.text:
            out.append(Missed(expect, got))
    return out


def explained(data, run, printed, misses=()):
    """(text, whether all answers are alike) for splitrun's lines next to the plain machine's."""
    rows, alike = [("record", "step", "answer", "in words")], printed == run.lines
    words, steps = run_words(run), step_texts(data, run)
    wrong = {place_of(miss.expect, printed): miss.expect for miss in misses}
    for at in range(max(len(printed), len(run.lines))):
        got = printed[at] if at < len(printed) else "(no line)"
        want = run.lines[at] if at < len(run.lines) else "(no line)"
        label = str(at) if run.events is not None and 1 <= at <= len(run.events) else ""
        step = steps[at] if at < len(steps) else ""
        text = words[at] if at < len(words) else ""
        if got != want:
            text = f"!!! DIFFERS: splitrun says '{got}', the plain machine '{want}' ({text})"
        if at in wrong:
            text = f"!!! EXPECTED {wrong[at].text} (line {wrong[at].line}). {text}"
        rows.append((label, step, got, text))
    return "\n".join(table(rows)) + "\n", alike


def side_by_side(data, own, other):
    """(text, number of reads that differ) for document 01's rule and note B's."""
    if own.events is None:
        return f"no record is run: {run_words(own)[-1]}\n", 0
    rows, reads = [("record", "step", "frame", "document 01", "note B", "")], []
    for at, (a, b) in enumerate(zip(own.events, other.events), 1):
        frame = name_text(a.frame) if a.frame is not None else "-"
        differs = a.answer() != b.answer()
        rows.append((str(at), record_line(a.record), frame, a.answer(), b.answer(), "<-- differs" if differs else ""))
        if differs and a.kind == "read":
            reads.append(f"record {at}: {who(a.frame)} reads splitter {a.low}: {a.number} by document 01, {b.number} under note B")
    after = len(own.events) + 1
    for a, b in zip_longest(own.lines[after:], other.lines[after:], fillvalue=""):
        rows.append(("", "end", "", a, b, "<-- differs" if a != b else ""))
    last = ["", f"reads that differ: {len(reads)}"] + ["  " + line for line in reads]
    return "\n".join(table(rows) + last) + "\n", len(reads)
