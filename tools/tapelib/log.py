"""A firmware's log: the start, and each step with the answer that the firmware saw. Binary or text; docs/TAPES.md has both forms."""
import struct
from dataclasses import dataclass

from . import script

ENTRY = 16  # bytes: the record, then its two answer words
NONE = 0xFFFFFFFF  # an answer word that was not recorded
READ = 105  # a read's second word may be any number


class LogError(Exception):
    """A log that cannot be read."""


@dataclass
class Entry:
    """A step and the two words that the firmware saw, None where not recorded; line is a text's line number."""

    record: bytes
    first: int = None
    second: int = None
    line: int = 0

    def recorded(self):
        return self.first is not None

    def agrees(self, first, second):
        """Whether what was recorded is this answer."""
        return not self.recorded() or (self.first == first and self.second in (None, second))

    def text(self):
        if not self.recorded():
            return "nothing"
        return f"{self.first} {'-' if self.second is None else self.second}"


@dataclass
class Log:
    """A whole log; start is splitrun's header with the initial values, as bytes."""

    start: bytes
    entries: list

    def __post_init__(self):
        self.workers, self.nodes, self.values, _ = script.split_input(self.start)

    def records(self):
        return b"".join(entry.record for entry in self.entries)


def entry(record, first, second, line=0):
    """An entry from two words; 4294967295 is not recorded, but as the value of a read."""
    if first == NONE:
        return Entry(record, None, None, line)
    return Entry(record, first, None if second == NONE and first != READ else second, line)


def answer_words(line, words):
    """The two words after an arrow."""
    if len(words) != 2:
        raise script.ScriptError(line, f"after -> come two answer words, and here are {len(words)}")
    first = script.number(line, words[0], "the first answer word", NONE)
    second = NONE if words[1] == "-" else script.number(line, words[1], "the second answer word", NONE)
    if words[1] == "-" and first == READ:
        raise script.ScriptError(line, "a read's value must be recorded, or no answer at all")
    return first, second


def text_entry(line, step, arrow, after):
    record = script.records_bytes([(line, step)])
    if len(record) != 8:
        raise script.ScriptError(line, f"a raw step has 8 bytes, not {len(record)}")
    return entry(record, *(answer_words(line, after.split()) if arrow else (NONE, NONE)), line)


def from_text(text):
    """A script in which a step may have `-> 105 0` after it."""
    lines = [(at, line.split("#")[0].partition("->")) for at, line in enumerate(text.split("\n"), 1)]
    lines = [(at, step.split(), arrow, after) for at, (step, arrow, after) in lines if step.strip() or arrow]
    if not lines:
        raise LogError("the log is empty")
    for at, step, arrow, _ in lines:
        if arrow and (not step or step[0] in ("start", "values")):
            raise script.ScriptError(at, "an answer without a step")
    heads = [(at, step) for at, step, _, _ in lines[:2]]
    start = script.header_bytes(heads[0], heads[1] if len(heads) > 1 else None)
    return Log(start, [text_entry(*line) for line in lines[2:]])


def from_bytes(data):
    """Splitrun's header and initial values, then the entries."""
    if len(data) < 8:
        raise LogError(f"the header is cut short: {len(data)} of 8 bytes")
    parts = script.split_input(data)
    if parts is None:
        workers, count = struct.unpack_from("<HH", data)
        said = f"the header says {workers} workers and {count} splitters, little-endian"
        raise LogError(f"{said}: {8 + 4 * count} bytes with the initial values, and there are {len(data)}")
    tail = parts[3]
    start = data[: len(data) - len(tail)]
    if len(tail) % ENTRY:
        whole = len(data) - len(tail) % ENTRY
        raise LogError(f"the last entry has {len(tail) % ENTRY} of {ENTRY} bytes; the whole ones end at byte {whole} (head -c {whole})")
    return Log(start, [entry(tail[at : at + 8], *struct.unpack_from("<II", tail, at + 8)) for at in range(0, len(tail), ENTRY)])


def read(data):
    """The log in these bytes. A text has no zero byte; a binary log has one in its first two, for workers are fewer than 256."""
    if not data:
        raise LogError("the log is empty")
    if 0 in data[:8]:
        return from_bytes(data)
    try:
        return from_text(data.decode("utf-8-sig"))
    except UnicodeDecodeError:
        raise LogError("neither a text nor a binary log, which begins with the workers and the splitters, 16 bits each") from None


def to_text(log):
    """The log as a text."""
    lines = script.decode(log.start).split("\n")[:2]
    for item in log.entries:
        lines.append(script.record_line(item.record) + (f" -> {item.text()}" if item.recorded() else ""))
    return "\n".join(lines) + "\n"


def to_bytes(log):
    """The log as binary entries."""
    words = [[NONE if word is None else word for word in (item.first, item.second)] for item in log.entries]
    return log.start + b"".join(item.record + struct.pack("<II", *pair) for item, pair in zip(log.entries, words))
