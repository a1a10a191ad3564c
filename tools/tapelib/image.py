"""A saved image (document 02, R-1, R-3, R-5, R-6 and R-8) in words: what it holds, which blocks are damaged, and why a reading would refuse it."""
import struct

from . import soundness
from .explain import total_words
from .machine import IDENTITY
from .soundness import FRAME_WORDS, MOST_PLACES, NODE_WORDS, NONE, PLACES, link, pool_at, right_length

BLOCK, DATA = 512, 508
NODES = 2  # the word of the recorded nodes
VERSION = 4  # the only one that is read; the first word is the workers and 256 times it
ENDED = ("R-3", "R-5", "R-6", "R-8")  # the request of document 02 that ended each version before
LARGEST = 1 << 24  # no file of more bytes is looked at
REFUSED = {
    17: "the image is not just as many whole blocks as its first block calls for, has no whole block or no readable form",
    18: "a check is wrong or the rest of the last block is not zero",
    6: "state, frame table and pool are not sound",
}


def check(data):
    """The sum of each data byte times 256 raised to its offset modulo 4."""
    return sum(byte * 256 ** (offset % 4) for offset, byte in enumerate(data)) % 2**32


def blocks(data):
    """(data, stored check) of each whole block."""
    ends = range(BLOCK, len(data) + 1, BLOCK)
    return [(data[at - BLOCK : at - BLOCK + DATA], struct.unpack_from("<I", data, at - 4)[0]) for at in ends]


def called_for(places, nodes):
    """The blocks of an image of so many frame places and nodes."""
    return -(-4 * (pool_at(places) + NODE_WORDS * nodes) // DATA)


class Image:
    """The bytes of a file, looked at as an image. The state is there if the form is readable, the table's recorded length right, and
    its words are all there."""

    def __init__(self, data):
        self.data, self.blocks = data, blocks(data)
        payload = b"".join(block for block, _ in self.blocks)
        self.words = list(struct.unpack(f"<{len(payload) // 4}I", payload))
        self.nodes, self.places = (self.words[NODES], self.words[PLACES]) if self.words else (None, None)
        self.version = self.words[0] // 256 if self.words else None
        self.readable = self.version == VERSION
        self.state = None
        if self.readable and right_length(self.places) and len(self.words) >= pool_at(self.places):
            self.state = soundness.State([self.words[0] % 256] + self.words[1:])

    def wrong_length(self):
        """Why it is refused by 17, or None."""
        if not self.blocks:
            return f"{len(self.data)} bytes are no whole block"
        if not self.readable:
            return f"the first word is {self.words[0]}, and only {256 * VERSION} to {256 * VERSION + 255} have a form that is read"
        called = called_for(self.places, self.nodes)
        if len(self.data) == called * BLOCK:
            return None
        return f"{self.places} places and {self.nodes} nodes call for {called} blocks, {called * BLOCK} bytes; the file has {len(self.data)}"

    def wrong_checks(self):
        """(block number, stored check, right check) of each damaged block."""
        summed = ((number, stored, check(data)) for number, (data, stored) in enumerate(self.blocks))
        return [(number, stored, right) for number, stored, right in summed if stored != right]

    def rest(self):
        """The places of words after the recorded nodes that are not zero."""
        last = pool_at(self.places) + NODE_WORDS * self.nodes
        return [at for at in range(last, len(self.words)) if self.words[at]]


def listed(numbers):
    """Numbers in their order, those that rise by one drawn together: 1, 3 to 63."""
    groups = []
    for number in numbers:
        if groups and number == groups[-1][1] + 1:
            groups[-1][1] = number
        else:
            groups.append([number, number])
    return ", ".join(str(a) if a == b else f"{a} to {b}" for a, b in groups) or "none"


def labelled(label, lines):
    """Lines under a label in a column of its own."""
    return [f"{label if at == 0 else '':<9}{line}".rstrip() for at, line in enumerate(lines)]


def form_lines(image):
    if image.version < VERSION:
        return [f"version {image.version}: from before {ENDED[image.version]}, no longer read"]
    if not image.readable:
        return [f"first word {image.words[0]}: of no form that is read"]
    return [f"version {image.version}: {FRAME_WORDS} words to a frame record, {NODE_WORDS} to a node"]


def number_lines(words):
    workers, n, nodes, free_node, free_place, *totals, places = words[: PLACES + 1]
    first = f"first free node {link(free_node)}, first free frame place {link(free_place)}"
    lines = [f"{workers % 256} workers, {n} splitters, {nodes} nodes, {places} frame places, {first}"]
    return lines + ([f"totals: {total_words(totals)}"] if any(totals) else [])


def deque_lines(state):
    lines = []
    for worker, deque in enumerate(state.deques):
        length = state.lengths[worker]
        if worker < state.workers or length:
            frames = ", ".join(link(place) for place in deque) or "idle"
            claim = "" if length == len(deque) else f" (recorded length {length})"
            lines.append(f"worker {worker}: {frames}{claim}")
    return lines or ["of no worker"]


def frame_line(state, place, frame):
    main = frame.depth == 0 and frame.parent == NONE
    who = "Main" if main else f"child of {link(frame.parent)}"
    where = [f"on worker {worker}" for worker, deque in enumerate(state.deques) if place in deque]
    where += ["suspended"] if frame.suspended else []
    where += ["returning" if frame.returning == 1 else f"returning {frame.returning}"] if frame.returning else []
    live = "" if frame.live == 1 else f", live {frame.live}"
    live += "" if frame.younger == NONE else f", next younger sibling {frame.younger}"
    live += "" if frame.view == IDENTITY else f"; folded: {total_words(frame.view)}"
    stands = ", ".join(where) or "in no deque"
    return f"place {place}: {who}, depth {frame.depth}, {frame.outstanding} outstanding, {stands}, root {link(frame.root)}{live}"


def frame_lines(state):
    places, fault = soundness.free_places(state)
    lines = [frame_line(state, place, frame) for place, frame in state.live.items()]
    return lines + [f"free: {listed(places)}" + (f"; the chain is broken: {fault}" if fault else "")]


def pool_lines(image):
    state = image.state
    if len(state.pool) < state.nodes:
        return [f"{len(state.pool)} of {state.nodes} nodes are in the file"]
    free, fault = soundness.free_nodes(state)
    if not state.has_trees():
        return [f"{len(free)} free; what is in use cannot be told: no tree has {state.n} splitters and {state.nodes} nodes"]
    lines = [f"{len(state.reached)} nodes in use, {len(free)} free" + (f"; the free chain is broken: {fault}" if fault else "")]
    lost = state.nodes - len(state.reached | set(free))
    return lines + ([f"{lost} neither in use nor on the free chain"] if lost else [])


def check_lines(image):
    lines = []
    for number, stored, right in image.wrong_checks():
        lines.append(f"block {number} (bytes {number * BLOCK} to {number * BLOCK + BLOCK - 1}) is damaged: stored {stored}, right {right}")
    if not image.wrong_length():
        rest = image.rest()
        lines += [f"the rest of the last block is not zero: word {rest[0]} of the data is {image.words[rest[0]]}"] if rest else []
    return lines or [f"all {len(image.blocks)} are right"]


def refusals(image):
    """(number, reason) in the order in which a reading checks; the reasons of 18 are the lines of the checks. What a reading lends is not
    known here: 5, and 6 for a table of another length and for a pool that is too short."""
    length = image.wrong_length()
    if length:
        return [(17, length)]
    found = [(18, "")] if image.wrong_checks() or image.rest() else []
    if not image.state:
        return found + [(6, f"not: The recorded length of the frame table is 1 to {MOST_PLACES}. (it is {image.places})")]
    return found + [(6, f"not: {sentence} ({fault})") for sentence, fault in soundness.broken(image.state)]


def verdict_lines(image, found):
    if not found:
        table = f"a frame table of just {image.places} place{'' if image.places == 1 else 's'}"
        return [f"a reading takes it, with {table}, and {image.nodes} nodes of pool and {image.nodes} words of work or more"]
    number = found[0][0]
    lines = [f"a reading refuses it by {number}: {REFUSED[number]}"]
    for other, reason in found:
        lines += [reason if other == number else f"with right checks {other}: {reason}"] if reason else []
    return lines


def described(name, data):
    """(the text, whether a reading would take it)."""
    image = Image(data)
    ragged = f" and {len(data) % BLOCK} bytes" if len(data) % BLOCK else ""
    lines = [f"{name}: {len(data)} bytes, {len(image.blocks)} blocks{ragged}"]
    if image.blocks:
        lines += labelled("form", form_lines(image))
    if image.readable:
        lines += labelled("numbers", number_lines(image.words))
    if image.state:
        lines += labelled("deques", deque_lines(image.state)) + labelled("frames", frame_lines(image.state))
        lines += labelled("pool", pool_lines(image))
    if image.blocks:
        lines += labelled("checks", check_lines(image))
    found = refusals(image)
    return "\n".join(lines + labelled("verdict", verdict_lines(image, found))) + "\n", not found
