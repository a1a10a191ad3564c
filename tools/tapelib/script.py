"""The readable script and splitrun's input bytes, both ways."""
import codecs
import re
import struct
from dataclasses import dataclass

KINDS = {"spawn": 1, "return": 2, "steal": 3, "sync": 4, "read": 5, "write": 6, "fold": 7}
NAMES = {number: name for name, number in KINDS.items()}
# What each kind is followed by: (what it is called, the largest that fits).
SPLITTER, VICTIM, VALUE = ("splitter", 0xFFFF), ("victim", 0xFFFF), ("value", 0xFFFFFFFF)
REDUCER, MULTIPLIER, ADDEND = ("reducer", 0xFFFF), ("multiplier", 0xFFFF), ("addend", 0xFFFF)
FIELDS = {
    "spawn": (),
    "return": (),
    "sync": (),
    "steal": (VICTIM,),
    "read": (SPLITTER,),
    "write": (SPLITTER, VALUE),
    "fold": (REDUCER, VALUE),
}
# Document 02's R-5: the reducers by number. The affine map's value is its multiplier times 65,536 and its addend.
REDUCERS = ("sum", "min", "affine")
AFFINE = 2

# A byte-order mark, and the encoding that it says. UTF-32's begins with UTF-16's.
MARKS = (
    (codecs.BOM_UTF8, "utf-8"),
    (codecs.BOM_UTF32_LE, "utf-32-le"),
    (codecs.BOM_UTF32_BE, "utf-32-be"),
    (codecs.BOM_UTF16_LE, "utf-16-le"),
    (codecs.BOM_UTF16_BE, "utf-16-be"),
)
DECIMAL = re.compile(r"[0-9]{1,20}")
# Splitrun's lines after the records', with the numbers that each has.
LAST_LINES = {"free": 1, "refused": 1, "reduced": 4}


class ScriptError(Exception):
    """A script that cannot be read; the line number is in the text."""

    def __init__(self, line, text):
        super().__init__(f"line {line}: {text}")
        self.line = line


def shown(word):
    """A word of the script for a message: cut if it is long, with signs that are not seen written out."""
    return repr(word if len(word) <= 40 else word[:40] + "..")


def number(line, word, what, most):
    """A decimal number from 0 to most."""
    if not DECIMAL.fullmatch(word):
        raise ScriptError(line, f"{what} must be a decimal number, not {shown(word)}")
    if int(word) > most:
        raise ScriptError(line, f"{what} {word} is more than {most}")
    return int(word)


def raw_bytes(line, words):
    """The bytes of a raw line: at most 8, two hexadecimal digits each."""
    if len(words) > 8:
        raise ScriptError(line, f"raw takes at most 8 bytes, not {len(words)}")
    for word in words:
        if not re.fullmatch(r"[0-9a-fA-F]{2}", word):
            raise ScriptError(line, f"a raw byte is two hexadecimal digits, not {shown(word)}")
    return bytes(int(word, 16) for word in words)


def given_numbers(line, kind, words, fields):
    """The numbers after a kind, as many as it has fields."""
    if len(words) != len(fields):
        wanted = " ".join(what for what, _ in fields) or "nothing"
        raise ScriptError(line, f"{kind} takes {wanted} after it, and here are {len(words)} words")
    return [number(line, word, "the " + what, most) for word, (what, most) in zip(words, fields)]


def fold_numbers(line, words):
    """Reducer and value of a fold: `2 655363`, or by name, `sum 5`, `min 7`, `affine 10 3`."""
    name = words[0] if words else ""
    if name == REDUCERS[AFFINE]:
        multiplier, addend = given_numbers(line, "fold affine", words[1:], (MULTIPLIER, ADDEND))
        return [AFFINE, 65536 * multiplier + addend]
    if name in REDUCERS:
        return [REDUCERS.index(name), *given_numbers(line, f"fold {name}", words[1:], (VALUE,))]
    if name and not name.isdigit():
        raise ScriptError(line, f"{shown(name)} is no reducer; the reducers are {', '.join(REDUCERS)}, or a number")
    return given_numbers(line, "fold", words, FIELDS["fold"])


def step_bytes(line, words):
    """The record of a step line, such as `1 write 4 99`."""
    worker = number(line, words[0], "the worker", 0xFF)
    if len(words) < 2:
        raise ScriptError(line, "the step's kind is missing")
    kind, rest = words[1], words[2:]
    if kind not in KINDS:
        raise ScriptError(line, f"{shown(kind)} is no step; the steps are {', '.join(KINDS)}")
    given = fold_numbers(line, rest) if kind == "fold" else given_numbers(line, kind, rest, FIELDS[kind])
    low, value = (given + [0, 0])[:2]
    return struct.pack("<BBHI", KINDS[kind], worker, low, value)


def header_bytes(start, values):
    """Splitrun's header from the two first lines, each (line number, words)."""
    line, words = start
    if words[0] != "start" or len(words) != 3:
        raise ScriptError(line, "the first line must be: start WORKERS NODES")
    workers = number(line, words[1], "the number of workers", 0xFFFF)
    nodes = number(line, words[2], "the number of nodes", 0xFFFFFFFF)
    if values is None or values[1][0] != "values":
        raise ScriptError(values[0] if values else line, "after start comes: values V0 V1 ..")
    line, words = values
    listed = [number(line, word, "a value", 0xFFFFFFFF) for word in words[1:]]
    if len(listed) > 0xFFFF:
        raise ScriptError(line, "more than 65535 values")
    return struct.pack(f"<HHI{len(listed)}I", workers, len(listed), nodes, *listed)


def records_bytes(lines):
    """The records of the lines after the header."""
    out = bytearray()
    for place, (line, words) in enumerate(lines):
        record = raw_bytes(line, words[1:]) if words[0] == "raw" else step_bytes(line, words)
        if len(record) < 8 and place + 1 < len(lines):
            raise ScriptError(line, "only the last line may be raw with fewer than 8 bytes")
        out += record
    return bytes(out)


@dataclass
class Expect:
    """An answer that the script expects: its text, its line, and the record from 1 on; 0 is a line after the records'."""

    line: int
    record: int
    text: str


@dataclass
class Parsed:
    """A script: splitrun's input, the numbers of its lines (start, values, each record; none if all are raw), what it expects."""

    data: bytes
    lines: list
    expects: list


def text_of(data):
    """The text of a script's bytes: UTF-8, or as its byte-order mark says. Line ends are made alike."""
    mark, name = next((pair for pair in MARKS if data.startswith(pair[0])), (b"", "utf-8"))
    body = data[len(mark) :]
    try:
        text = body.decode(name)
    except UnicodeDecodeError as error:
        line = lines_before(body[: error.start].decode(name, "replace"))
        raise ScriptError(line, f"byte 0x{body[error.start]:02x} is not {name.upper()}; save the script as UTF-8") from None
    if "\0" in text:
        line = lines_before(text[: text.index("\0")])
        raise ScriptError(line, "a zero byte: no text, or UTF-16 without a byte-order mark; save the script as UTF-8")
    return one_line_end(text)


def one_line_end(text):
    return text.replace("\r\n", "\n").replace("\r", "\n")


def lines_before(text):
    """The number of the line in which the text ends."""
    return one_line_end(text).count("\n") + 1


def expected_text(line, words):
    """The answer after `expect`, as splitrun prints it."""
    name = words[0] if words and words[0] in LAST_LINES else ""
    if len(words) != (1 + LAST_LINES[name] if name else 2):
        last = "free N, refused N or reduced SUM MIN MULTIPLIER ADDEND"
        raise ScriptError(line, f"expect takes an answer's two words, such as 105 50, or {last}")
    numbers = [str(number(line, word, "an expected number", 0xFFFFFFFF)) for word in words[bool(name) :]]
    return " ".join([name, *numbers] if name else numbers)


def split_expects(lines):
    """(the lines without what is expected, each Expect): `expect` follows a step on its line or on one of its own."""
    steps, expects = [], []
    for line, words in lines:
        at = words.index("expect") if "expect" in words else len(words)
        if at and expects and not expects[-1].record:
            raise ScriptError(expects[-1].line, f"expect {expects[-1].text} is about splitrun's last lines; no step may come after it")
        if at:
            steps.append((line, words[:at]))
        if at < len(words):
            expects.append(expect_of(line, words[at + 1 :], len(steps) - 2))
            check_place(expects, len(steps))
    return steps, expects


def expect_of(line, words, record):
    text = expected_text(line, words)
    return Expect(line, 0 if words[0] in LAST_LINES else record, text)


def about(expect):
    """What an Expect is about: a record's number, or the name of a last line."""
    return expect.record or expect.text.split()[0]


def check_place(expects, steps):
    """The newest Expect has a step before it (or start and values, if it is about a last line), and that has no other."""
    new = expects[-1]
    if steps < (3 if new.text[0].isdigit() else 2):
        raise ScriptError(new.line, "expect stands after a step, and before the first step come start and values")
    same = [old for old in expects[-1 - len(LAST_LINES) : -1] if about(old) == about(new)]
    if same:
        raise ScriptError(new.line, f"this is expected in line {same[0].line} already")


def parse(text):
    """The script. One of raw lines alone is those bytes as they are."""
    lines = [(at, line.split("#")[0].split()) for at, line in enumerate(text.split("\n"), 1)]
    lines = [(at, words) for at, words in lines if words]
    if not lines:
        raise ScriptError(1, "the script is empty; the first line must be: start WORKERS NODES")
    steps, expects = split_expects(lines)
    if all(words[0] == "raw" for _, words in steps):
        if expects:
            raise ScriptError(expects[0].line, "a script of raw lines alone has no steps, so no answers to expect")
        return Parsed(records_bytes(steps), [], [])
    data = header_bytes(steps[0], steps[1] if len(steps) > 1 else None) + records_bytes(steps[2:])
    return Parsed(data, [line for line, _ in steps], expects)


def encode(text):
    """Splitrun's input of a script."""
    return parse(text).data


def is_step(record):
    """Whether 8 bytes have a kind and zero in the fields that it does not use."""
    kind, _, low, value = struct.unpack("<BBHI", record)
    if kind not in NAMES:
        return False
    used = len(FIELDS[NAMES[kind]])
    return (used >= 1 or low == 0) and (used == 2 or value == 0)


def raw_line(record):
    return " ".join(["raw"] + [f"{byte:02x}" for byte in record])


def record_line(record):
    """The script's line for a record, raw where it is no step."""
    if len(record) < 8 or not is_step(record):
        return raw_line(record)
    kind, worker, low, value = struct.unpack("<BBHI", record)
    name = NAMES[kind]
    fields = fold_words(low, value) if name == "fold" else (low, value)[: len(FIELDS[name])]
    return " ".join([str(worker), name] + [str(x) for x in fields])


def fold_words(reducer, value):
    """A fold's fields, its reducer by name."""
    if reducer >= len(REDUCERS):
        return reducer, value
    return (REDUCERS[reducer], *(divmod(value, 65536) if reducer == AFFINE else (value,)))


def split_records(data):
    """The records, the last one short if the bytes are ragged."""
    return [data[at : at + 8] for at in range(0, len(data), 8)]


def split_input(data):
    """(workers, nodes, values, records' bytes), or None where header or values are cut short."""
    if len(data) < 8:
        return None
    workers, count, nodes = struct.unpack("<HHI", data[:8])
    end = 8 + 4 * count
    if len(data) < end:
        return None
    return workers, nodes, list(struct.unpack(f"<{count}I", data[8:end])), data[end:]


def decode(data):
    """A script that encodes to these bytes."""
    parts = split_input(data)
    if parts is None:
        lines = ["# the header or the values are cut short: the bytes as they are"]
        return "\n".join(lines + [raw_line(r) for r in split_records(data) or [b""]]) + "\n"
    workers, nodes, values, tail = parts
    lines = [f"start {workers} {nodes}", " ".join(["values"] + [str(v) for v in values])]
    return "\n".join(lines + [record_line(r) for r in split_records(tail)]) + "\n"
