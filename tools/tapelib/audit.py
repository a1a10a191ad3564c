"""The command audit: a firmware's log is replayed; the first answer that differs, in words, with what note B's rule gives."""
import os
import re
import subprocess
import sys
from dataclasses import dataclass
from pathlib import Path

from . import log as logs
from . import machine, part, script, shorten
from .cli import DEFAULT, Trouble, put, say, shout, splitrun_lines
from .explain import REFUSED, event_words, total_words, who
from .explain import count_words as number_words

ROOT = Path(__file__).resolve().parents[2]
MOST_NODES, MOST_RECORDS = 1024, 2048  # splitrun's limits; what is longer goes through the library
WIDEST = 40  # records in a picture
WRITTEN, POOL_FULL = 106, 16


def read_log(path):
    """The log at path (- is standard input), with a start that is accepted."""
    try:
        data = sys.stdin.buffer.read() if path == "-" else Path(path).read_bytes()
        log = logs.read(data)
    except (logs.LogError, script.ScriptError) as error:
        raise Trouble(f"{path}: {error}") from None
    except OSError as error:
        raise Trouble(f"{path}: {error.strerror or error}") from None
    refused = machine.whole_refusal(log.workers, log.values, log.nodes, b"")
    if refused:
        start = f"{log.workers} workers, {len(log.values)} splitters, {log.nodes} nodes"
        raise Trouble(f"{path}: its start ({start}) is refused by {refused}: {REFUSED[refused]}")
    if not any(entry.recorded() for entry in log.entries):
        raise Trouble(f"{path}: no answer is recorded, so there is nothing to compare")
    return log


def leave_free_out(log):
    """Forgets the free nodes that the log has for writes."""
    for entry in log.entries:
        if entry.first == WRITTEN:
            entry.second = None


def built_replay():
    """host/c/replay.c, built with the library's archive where it is missing or older than these."""
    archive = Path(os.environ.get("SPLITTER_LIB_DIR", ROOT / "target/staticlib")) / "libsplitter.a"
    source, header, program = ROOT / "host/c/replay.c", ROOT / "host/include/splitter.h", ROOT / "target/audit/replay"
    if not archive.exists():
        raise Trouble(f"the library must replay this log (--library, or beyond splitrun's limits), and there is no {archive}: make lib first")
    if program.exists() and all(program.stat().st_mtime > needed.stat().st_mtime for needed in (archive, source, header)):
        return program
    try:
        program.parent.mkdir(parents=True, exist_ok=True)
        command = ["gcc", "-std=c99", "-O2", "-I", header.parent, "-o", program, source, archive]
        done = subprocess.run(command, capture_output=True, text=True, errors="replace")
    except OSError as error:
        raise Trouble(f"{source} cannot be built: {error}") from None
    if done.returncode:
        raise Trouble(f"{source} cannot be built: {done.stderr.strip()}")
    return program


def totals_of(line):
    """The totals in splitrun's line `reduced`; None for another line."""
    return tuple(map(int, line.split()[1:])) if re.fullmatch("reduced( [0-9]+){4}", line) else None


def replayed(log, arguments):
    """(who replayed the log, the two answer words of each step, the totals or None)."""
    small = log.nodes <= MOST_NODES and len(log.entries) <= MOST_RECORDS
    name, program = ("splitrun", arguments.splitrun) if small and not arguments.library else ("the library", built_replay())
    lines = splitrun_lines(program, log.start + log.records())
    totals = totals_of(lines[-1]) if lines else None
    answers = lines[1 : -2 if totals else -1]
    wrong = [line for line in answers if not re.fullmatch("[0-9]+ [0-9]+", line)]
    if wrong or len(answers) != len(log.entries):
        shown = (wrong or lines or ["none"])[-1]
        raise Trouble(f"{name} ({program}) gave {len(lines)} lines for {len(log.entries)} steps, such as '{shown[:60]}': not splitrun's")
    return name, [tuple(int(word) for word in line.split()) for line in answers], totals


def answer(event):
    """The two answer words of an event."""
    return (event.refusal, 0) if event.refusal else (100 + event.record[0], event.number)


def plain(log, note_b=False):
    """A plain machine at the log's start."""
    return machine.Machine(log.workers, log.values, log.nodes, note_b)


def events_of(log, note_b=False):
    stepping = plain(log, note_b)
    return [stepping.step(entry.record) for entry in log.entries]


def plain_totals(events):
    """Main's view at its end; None where Main has not ended."""
    return next((event.view for event in events if event.kind == "return" and not event.refusal and event.number == 3), None)


@dataclass
class Audit:
    """A log, who replayed it with which answers, the events by document 01's rule and by note B's, and the replay's totals."""

    log: logs.Log
    by: str
    answers: list
    own: list
    other: list
    totals: tuple = None

    def __post_init__(self):
        entries = self.log.entries
        self.differing = [at for at, entry in enumerate(entries) if not entry.agrees(*self.answers[at])]
        self.against_b = [at for at, entry in enumerate(entries) if not entry.agrees(*answer(self.other[at]))]

    def recorded(self):
        return sum(entry.recorded() for entry in self.log.entries)

    def as_note_b(self, at):
        return self.log.entries[at].agrees(*answer(self.other[at]))


def is_resumption(event, name=None):
    resumes = event.kind == "return" and not event.refusal and event.number == 2
    return resumes and name in (None, event.other)


def spawn_of(events, name):
    return next(at for at, event in enumerate(events) if event.kind == "spawn" and not event.refusal and event.other == name)


def resumptions(events, name, before):
    """Where this frame resumed before a step, or a frame above it before the spawn through which the values came."""
    found = []
    while True:
        found += [at for at in range(before) if is_resumption(events[at], name)]
        if not name:
            return sorted(found)
        before, name = spawn_of(events, name), name[:-1]


def changed_values(log, events, places, splitter):
    """The resumptions at which note B's rule gave the resumed frame another value of the splitter."""
    stepping, found = plain(log, note_b=True), []
    for at in range(max(places, default=-1) + 1):
        before = stepping.frames[events[at].other].values[splitter] if at in places else None
        stepping.step(log.entries[at].record)
        if at in places and stepping.frames[events[at].other].values[splitter] != before:
            found.append(at)
    return found


def cause(audit, at):
    """The resumption that matters to the step: for a read the last that changes the value by note B's rule; None without any."""
    event = audit.own[at]
    if event.kind == "write":  # free nodes are those of all frames
        found = [place for place in range(at) if is_resumption(audit.own[place])]
    elif event.frame is None or event.kind in ("steal", "?"):
        found = []
    else:
        found = resumptions(audit.own, event.frame, at)
    changed = changed_values(audit.log, audit.own, set(found), event.low) if event.kind == "read" and not event.refusal else []
    return (changed or found or [None])[-1]


def write_of(log, events, at, note_b):
    """Where the value of a read was written, by this rule; None for an initial value."""
    stepping = plain(log, note_b)
    for entry in log.entries[:at]:
        stepping.step(entry.record)
    mark = stepping.frames[events[at].frame].levels[0][events[at].low]
    writes = [place for place, event in enumerate(events[:at]) if event.kind == "write" and not event.refusal]
    return writes[mark - 1] if mark else None


class Finding:
    """The first answer that differs: its place, the resumption that matters, and where the value of a read was written."""

    def __init__(self, audit):
        self.at = audit.differing[0]
        self.event, self.other = audit.own[self.at], audit.other[self.at]
        self.resumption = cause(audit, self.at)
        self.is_value = self.event.kind == "read" and not self.event.refusal
        self.write = write_of(audit.log, audit.own, self.at, False) if self.is_value else None
        self.write_b = write_of(audit.log, audit.other, self.at, True) if self.is_value else None


def source_words(events, write):
    if write is None:
        return "is an initial value"
    return f"was written by {who(events[write].frame)} at record {write + 1}, on worker {events[write].worker}"


def value_words(audit, found):
    """Where the right value of a read comes from, and note B's if it is another one."""
    if not found.is_value:
        return []
    words = [f"The right {found.event.number} {source_words(audit.own, found.write)}."]
    if found.other.number != found.event.number:
        words.append(f"Note B's {found.other.number} {source_words(audit.other, found.write_b)}.")
    return words


def sync_before(events, name, before):
    return max(at for at in range(before) if events[at].kind == "sync" and events[at].frame == name and events[at].number == 1)


def resumed_words(audit, found):
    """Who resumed the frame, after which child."""
    if found.resumption is None:
        return []
    event, at = audit.own[found.resumption], found.resumption + 1
    resumed, frame = event.other, found.event.frame
    sync = sync_before(audit.own, resumed, found.resumption)
    inherits = [] if frame == resumed or found.event.kind == "write" else [f"{who(frame)} has its values from {who(resumed)}."]
    waited = f" with {who(event.ended[0])}" if len(event.ended) > 1 else ""
    waits = f"{who(resumed)} waited at its sync from record {sync + 1}, on worker {audit.own[sync].worker}"
    after = f"after its last child {who(event.ended[-1])} ended{waited}"
    return inherits + [f"{waits},", f"and was resumed by worker {event.worker} at record {at}, {after}."]


def verdict_words(audit, found):
    if audit.as_note_b(found.at):
        return ["as note B: a resumed frame took its last child's values."]
    words = ["not as note B."]
    if audit.log.entries[found.at].first == answer(found.event)[0] == WRITTEN:
        words.append("Only the free nodes differ; if the firmware has no such count, --no-free leaves it out.")
    if found.event.refusal == POOL_FULL:
        words.append(f"If the firmware has more memory than {audit.log.nodes} nodes, the log's start must say so.")
    return words


def count_words(audit):
    explained = sum(audit.as_note_b(at) for at in audit.differing)
    whole = "" if audit.against_b else "; note B's rule gives every answer of the log"
    return f"answers that differ: {len(audit.differing)} of {audit.recorded()}, {explained} of them as note B{whole}"


def difference_words(audit, found):
    """The first answer that differs."""
    at, entry = found.at, audit.log.entries[found.at]
    line = f" (line {entry.line})" if entry.line else ""
    given = " ".join(map(str, audit.answers[at]))
    rows = [("the log has", entry.text()), (f"{audit.by} gives", given), ("note B gives", found.other.answer())]
    lines = [f"record {at + 1}{line} differs: {script.record_line(entry.record)}", *(f"    {name:<18}{words}" for name, words in rows)]
    lines.append(f"On worker {found.event.worker}: {event_words(found.event)}")
    lines += value_words(audit, found) + resumed_words(audit, found) + verdict_words(audit, found)
    return lines + [count_words(audit)]


def totals_words(audit):
    """The totals of the replay, if the log has folds: a log has no place for the firmware's, which are to be compared by hand."""
    if audit.totals is None or not any(event.kind == "fold" and not event.refusal for event in audit.own):
        return []
    return [f"totals, as {audit.by} gives them: {total_words(audit.totals)}"]


def clean_words(audit):
    """All recorded answers are right: whether the log could have shown the bug of note B."""
    lines = [f"clean: every recorded answer is as {audit.by} gives it"]
    if not audit.against_b:
        return lines + ["note B's rule gives the same answers: this log cannot tell whether the firmware has that bug"]
    first, count = audit.against_b[0] + 1, len(audit.against_b)
    others = f"note B's rule gives other answers to {count} of these steps, the first at record {first}"
    return lines + [f"{others}: the firmware does not follow it"]


def head_words(name, audit):
    log = audit.log
    half = sum(entry.recorded() and entry.second is None for entry in log.entries)
    counts = f"{number_words(len(log.entries), 'step')}, {number_words(audit.recorded(), 'answer')}"
    counts += f", {half} without the second word" if half else ""
    return f"{name}: {log.workers} workers, {len(log.values)} splitters, {log.nodes} nodes; {counts}; replayed by {audit.by}"


def window(found):
    """The first and last record of the picture, from 1: the write and the resumption are in it, if they are near."""
    last = found.at + 1
    wanted = [last - 9] + [at for at in (found.resumption, found.write) if at is not None]
    return max(min(first for first in wanted if first > last - WIDEST), 1), last


def write_text(path, text):
    try:
        Path(path).write_text(text, encoding="utf-8")
    except OSError as error:
        raise Trouble(f"{path}: {error.strerror or error}") from None


def draw_difference(name, audit, found, path):
    first, last = window(found)
    run = machine.Run([], audit.own, 0, audit.log.workers, tuple(audit.log.values), audit.log.nodes)
    note = ", as note B" if audit.as_note_b(found.at) else ""
    title = f"{name}: records {first} to {last}, as {audit.by} replays them"
    svg = part.picture(run, first, last, title, f"record {last}: the log has {audit.log.entries[found.at].text()}{note}")
    write_text(path, svg)
    put(f"drawn: records {first} to {last}, in {path}\n")


def write_short(name, audit, found, path):
    """The difference as a short script."""
    if not found.is_value or not audit.as_note_b(found.at):
        return put("no short script: it is made for a read that is as note B\n")
    made = shorten.short_records(audit.log, audit.own, found.at)
    if made is None:
        return put(f"no short script: the difference comes after {shorten.LONGEST} steps\n")
    nodes, records = made
    write_text(path, shorten.script_of(name, audit.log, nodes, records, found.event.number))
    return put(f"short script: {len(records)} steps, in {path}\n")


def surprise(audit):
    """Whether the program that replayed the log and the plain machine differ; says where."""
    wrong = [at for at, event in enumerate(audit.own) if answer(event) != audit.answers[at]]
    if wrong:
        got, want = (" ".join(map(str, words)) for words in (audit.answers[wrong[0]], answer(audit.own[wrong[0]])))
        say(f"record {wrong[0] + 1}: {audit.by} says {got}, the plain machine {want}")
    totals = plain_totals(audit.own)
    if totals != audit.totals:
        say(f"totals: {audit.by} says {audit.totals}, the plain machine {totals}")
    return bool(wrong) or totals != audit.totals


def do_audit(arguments):
    log = read_log(arguments.log)
    if arguments.no_free:
        leave_free_out(log)
    by, answers, totals = replayed(log, arguments)
    audit = Audit(log, by, answers, events_of(log), events_of(log, note_b=True), totals)
    if surprise(audit):
        return shout(False)
    name = os.path.basename(arguments.log)
    found = Finding(audit) if audit.differing else None
    lines = difference_words(audit, found) if found else clean_words(audit)
    put("\n".join([head_words(name, audit), *lines, *totals_words(audit), ""]))
    if not found:
        return 0
    if arguments.draw:
        draw_difference(name, audit, found, arguments.draw)
    if arguments.short:
        write_short(name, audit, found, arguments.short)
    return 1


def add_command(commands):
    """The command audit and its options."""
    words = "replay a firmware's log and name the first answer that differs"
    command = commands.add_parser("audit", help=words, description=words)
    command.set_defaults(action=do_audit)
    command.add_argument("log", help="the log's file, binary or text, - for standard input")
    command.add_argument("--draw", metavar="FILE", help="draw the records around the difference, as SVG")
    command.add_argument("--short", metavar="FILE", help="write a short script with the difference, for tape.py run, draw and compare-note-b")
    command.add_argument("--no-free", action="store_true", help="do not compare the free nodes that a write answers")
    command.add_argument("--library", action="store_true", help="replay through the library also what splitrun could")
    command.add_argument("--splitrun", default=DEFAULT, help=f"the program (default {DEFAULT})")
