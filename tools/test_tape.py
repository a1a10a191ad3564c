"""Quick tests of tape.py: python3 tools/test_tape.py

SPLITRUN=PATH names the program (default target/bin/splitrun), SPLITTER_LIB_DIR=FOLDER the library's archive (default target/staticlib); tests that
need them are skipped without them. IMAGES=N compares so many changed images with the library, and as many with a node on two levels."""
import os
import random
import re
import struct
import subprocess
import sys
import tempfile
import time
import unittest
import xml.dom.minidom
from itertools import permutations
from pathlib import Path

HERE = Path(__file__).resolve().parent
ROOT = HERE.parent
sys.path.insert(0, str(HERE))

from tapelib import cli, draw, explain, image, machine, script, soundness  # noqa: E402
from tapelib.soundness import pool_at, records_at  # noqa: E402

SPLITRUN = os.path.abspath(os.environ.get("SPLITRUN", ROOT / "target/bin/splitrun"))
STDIN = Path(os.environ.get("SPLITRUN_STDIN", ROOT / "crates/splitrun/stdin"))
EXAMPLES = sorted((HERE / "examples").glob("*.tape"))
NOTHING = "reduced 0 4294967295 1 0"  # the totals where nothing was folded
DOCUMENT01 = f"2 5 20|101 1|103 0|106 5|105 50|104 1|10 0|102 2|105 99|102 3|free 20|{NOTHING}".split("|")
ARCHIVE = Path(os.environ.get("SPLITTER_LIB_DIR", ROOT / "target/staticlib")) / "libsplitter.a"
IMAGES = int(os.environ.get("IMAGES", 1000))
needs_archive = unittest.skipUnless(ARCHIVE.exists(), f"no {ARCHIVE}")
needs_splitrun = unittest.skipUnless(os.path.exists(SPLITRUN), f"no splitrun at {SPLITRUN}")


def example(name):
    return script.encode((HERE / "examples" / f"{name}.tape").read_text())


def tape(*words, given=b""):
    return subprocess.run([sys.executable, HERE / "tape.py", *words], input=given, capture_output=True)


def random_line(chance, workers, n):
    """A step that is often accepted, or now and then a raw record."""
    who = chance.randrange(workers + (chance.random() < 0.05))
    kinds = ("spawn", "spawn", "return", "return", "steal", "steal", "sync", "read", "read", "write", "write", "fold", "fold", "raw")
    kind = chance.choice(kinds)
    if kind == "fold":  # a map with an odd multiplier loses no earlier one
        return f"{who} fold {chance.randrange(3 + (chance.random() < 0.05))} {chance.randrange(2**32) | 65536}"
    if kind == "raw":
        return "raw " + " ".join(f"{chance.choice((0, 0, 0, 1, 5, 255)):02x}" for _ in range(8))
    place = chance.randrange(n + (chance.random() < 0.05))
    extra = {"steal": [chance.randrange(workers)], "read": [place], "write": [place, chance.randrange(2**32)]}
    return " ".join(str(word) for word in [who, kind, *extra.get(kind, [])])


def wanted(chance, plain, line):
    """Mostly accepted steps, and seldom the end of Main."""
    event = plain.look(script.records_bytes([(1, line.split())]))
    if event.kind == "return" and event.frame == () and chance.random() < 0.9:
        return False
    return not event.refusal or chance.random() < 0.05


def random_script(seed):
    """A script of up to 150 records, chosen along a run of the plain machine."""
    chance = random.Random(seed)
    workers, n = chance.randint(1, 8), chance.choice((1, 2, 3, 5, 8, 13, 100))
    nodes = chance.randint(machine.tree_nodes(n), machine.tree_nodes(n) + 60)
    values = [chance.randrange(100) for _ in range(n)]
    lines = [f"start {workers} {nodes}", " ".join(["values", *map(str, values)])]
    plain = machine.Machine(workers, values, nodes)
    for _ in range(chance.randrange(150)):
        line = random_line(chance, workers, n)
        while not wanted(chance, plain, line):
            line = random_line(chance, workers, n)
        plain.step(script.records_bytes([(1, line.split())]))
        lines.append(line)
    return "\n".join(lines) + "\n"


class Bytes(unittest.TestCase):
    def test_round_trip_of_scripts(self):
        texts = [path.read_text() for path in EXAMPLES] + [random_script(seed) for seed in range(100)]
        for text in texts:
            data = script.encode(text)
            self.assertEqual(script.encode(script.decode(data)), data)

    def test_round_trip_of_any_bytes(self):
        chance, data = random.Random(1), example("document01")
        inputs = [data[:length] for length in range(len(data))]
        inputs += [bytes(chance.choice((0, 1, 2, 255)) for _ in range(length)) for length in range(60)]
        for given in inputs:
            self.assertEqual(script.encode(script.decode(given)), given)

    @unittest.skipUnless(STDIN.exists(), f"no {STDIN}")
    def test_document01_is_the_repository_s_input(self):
        self.assertEqual(example("document01"), STDIN.read_bytes())

    def test_document01_bytes(self):
        self.assertEqual(example("document01")[28:52].hex(), "0100000000000000" "0301000000000000" "0601040063000000")

    def test_raw_lines(self):
        text = script.decode(example("note_b") + b"\x08" + bytes(7) + b"\x01\x02")
        self.assertEqual(text.split("\n")[-3:-1], ["raw 08 00 00 00 00 00 00 00", "raw 01 02"])

    def test_folds_by_number_and_by_name(self):
        head = "start 1 9\nvalues 1\n"
        for line, record, shown in (
            ("0 fold 0 5", "0700000005000000", "0 fold sum 5"),
            ("0 fold sum 5", "0700000005000000", "0 fold sum 5"),
            ("3 fold min 4294967295", "07030100ffffffff", "3 fold min 4294967295"),
            ("0 fold 2 65537", "0700020001000100", "0 fold affine 1 1"),
            ("0 fold affine 1 1", "0700020001000100", "0 fold affine 1 1"),
            ("0 fold affine 65535 65534", "07000200feffffff", "0 fold affine 65535 65534"),
            ("0 fold 3 7", "0700030007000000", "0 fold 3 7"),
        ):
            data = script.encode(head + line + "\n")
            self.assertEqual((data[12:].hex(), script.decode(data).split("\n")[2]), (record, shown))


class Errors(unittest.TestCase):
    def wrong(self, text, line, words):
        with self.assertRaises(script.ScriptError) as caught:
            script.encode(text)
        self.assertEqual(caught.exception.line, line)
        self.assertIn(words, str(caught.exception))
        self.assertTrue(str(caught.exception).startswith(f"line {line}: "))

    def test_header(self):
        self.wrong("", 1, "empty")
        self.wrong("# nothing\n0 spawn\n", 2, "start WORKERS NODES")
        self.wrong("start 2\nvalues 1\n", 1, "start WORKERS NODES")
        self.wrong("start 2 20\n\n0 spawn\n", 3, "values V0 V1")
        self.wrong("start 2 20\n", 1, "values V0 V1")
        self.wrong("start 2 x\nvalues 1\n", 1, "decimal")
        self.wrong("start 70000 20\nvalues 1\n", 1, "more than 65535")
        self.wrong("start 2 20\nvalues 1 4294967296\n", 2, "more than 4294967295")

    def test_steps(self):
        head = "start 2 20\nvalues 1 2\n# a comment\n"
        for line, words in (
            ("0 jump", "no step"),
            ("zero spawn", "decimal"),
            ("-1 spawn", "decimal"),
            ("\u00b2 spawn", "decimal"),
            ("0", "kind is missing"),
            ("0 spawn 1", "takes nothing"),
            ("0 steal", "takes victim"),
            ("0 write 4", "takes splitter value"),
            ("256 spawn", "more than 255"),
            ("0 read 65536", "more than 65535"),
            ("0 fold", "fold takes reducer value"),
            ("0 fold sum", "fold sum takes value"),
            ("0 fold 2 1 1", "fold takes reducer value"),
            ("0 fold affine 1", "fold affine takes multiplier addend"),
            ("0 fold affine 65536 1", "the multiplier 65536 is more than 65535"),
            ("0 fold affine 1 65536", "the addend 65536 is more than 65535"),
            ("0 fold most 1", "'most' is no reducer; the reducers are sum, min, affine, or a number"),
            ("0 fold 65536 1", "the reducer 65536 is more than 65535"),
            ("0 fold sum 4294967296", "more than 4294967295"),
            ("raw 0g", "two hexadecimal"),
            ("raw 1 2", "two hexadecimal"),
            ("raw " + "00 " * 9, "at most 8"),
            ("raw 01\n0 spawn", "only the last line"),
        ):
            self.wrong(head + line + "\n", 4, words)

    def test_command_line(self):
        done = subprocess.run(
            [sys.executable, HERE / "tape.py", "encode", "-"], input=b"start 1 9\nvalues 1\n0 fly\n", capture_output=True
        )
        self.assertEqual((done.returncode, done.stdout), (2, b""))
        self.assertIn(b"line 3: 'fly' is no step", done.stderr)


class PlainMachine(unittest.TestCase):
    def lines(self, text):
        return machine.run(script.encode(text)).lines[1:]

    def test_document01(self):
        self.assertEqual(machine.run(example("document01")).lines, DOCUMENT01)

    def test_edges(self):
        write = "\n0 write 0 7\n"
        five = "\nvalues 1 2 3 4 5"
        self.assertEqual(self.lines("start 1 1\nvalues 5" + write), ["106 0", "free 0"])
        self.assertEqual(self.lines("start 1 2\nvalues 5" + write), ["106 1", "free 1"])
        self.assertEqual(self.lines("start 1 10" + five), ["refused 3"])
        self.assertEqual(self.lines("start 1 11" + five + write), ["106 0", "free 0"])
        self.assertEqual(self.lines("start 1 14" + five + write), ["106 3", "free 3"])
        self.assertEqual(self.lines("start 1 15" + five + write), ["106 4", "free 4"])
        self.assertEqual(self.lines("start 1 15\nvalues"), ["refused 1"])
        self.assertEqual(self.lines("start 9 15" + five), ["refused 2"])
        self.assertEqual(self.lines("start 1 15" + five + "\nraw 01"), ["refused 4"])
        self.assertEqual(machine.run(script.encode("start 1 1025" + five)).lines, ["unfit"])

    def test_nested_spawns(self):
        spawns = self.lines("start 1 1\nvalues 1\n" + "0 spawn\n" * 64 + "0 return\n0 spawn\n")
        self.assertEqual(spawns[62:], ["101 63", "13 0", "102 0", "101 63", "free 0"])
        # the limit is the table's length, whatever deques the frames are in
        for places in (1, 2, 3, 64, 65, 255, 256):
            plain = machine.Machine(2, [1], 1, places=places)
            steps = [("spawn", 0, 0)] * (places // 2) + [("steal", 1, 0)] + [("spawn", 1, 0)] * (places - 1 - places // 2)
            if places < 4:
                steps = [("spawn", 0, 0)] * (places - 1)
            for kind, worker, low in steps:
                self.assertEqual(plain.step(struct.pack("<BBHI", script.KINDS[kind], worker, low, 0)).refusal, 0)
            self.assertEqual(len(plain.frames), places)
            self.assertEqual([plain.step(struct.pack("<BBHI", *step)).answer().split()[0] for step in ((1, 0, 0, 0), (2, 0, 0, 0))], ["13", "102"])

    def test_note_b_differs_in_one_read(self):
        data = example("note_b")
        text, count = explain.side_by_side(data, machine.run(data), machine.run(data, note_b=True))
        self.assertEqual(count, 1)
        self.assertIn("record 7: Main reads splitter 2: 1 by document 01, 0 under note B", text)


# Document 02's R-2: what writes take, and splitrun's lines after the first. T(5) is 11, a path has 4 nodes.
FORKED = "\nvalues 1 2 3 4 5\n0 spawn\n1 steal 0\n"  # Main on worker 1, its child on worker 0: they share all nodes
WRITES = {
    "start 1 1\nvalues 5\n0 write 0 7\n0 write 0 8\n0 read 0\n": "106 0|106 0|105 8|free 0",
    "start 1 11\nvalues 1 2 3 4 5\n0 write 0 7\n0 write 4 8\n0 write 0 7\n": "106 0|106 0|106 0|free 0",
    # the first write after the spawn takes a path, the other frame's the rest of one that is still shared, a second of either none
    f"start 2 20{FORKED}1 write 0 7\n1 write 0 8\n0 write 4 7\n0 write 4 8\n": "101 1|103 0|106 5|106 5|106 2|106 2|free 2",
    # once one of them has written, the other's path to that splitter is its own
    f"start 2 15{FORKED}0 write 2 7\n1 write 2 8\n0 read 2\n1 read 2\n": "101 1|103 0|106 0|106 0|105 7|105 8|free 0",
    # a spawn shares again what was a frame's own
    "start 1 19\nvalues 1 2 3 4 5\n0 write 3 7\n0 spawn\n0 write 3 8\n0 spawn\n0 write 3 9\n0 write 3 9\n": "106 8|101 1|106 4|101 2|106 0|106 0|free 0",
    # a node too few: of a path from the root, of one from level 2, of a leaf; what is a frame's own can still be written
    f"start 2 14{FORKED}1 write 0 7\n0 write 0 7\n": "101 1|103 0|16 0|16 0|free 3",
    f"start 2 17{FORKED}1 write 4 7\n1 write 4 8\n0 write 0 7\n1 write 0 7\n0 write 4 9\n": "101 1|103 0|106 2|106 2|16 0|16 0|106 2|free 2",
    f"start 2 15{FORKED}1 write 0 7\n0 write 1 7\n0 write 0 8\n0 return\n1 write 1 7\n": "101 1|103 0|106 0|16 0|106 0|102 1|106 4|free 4",
    # the value that is there already, written again, takes a path as well
    f"start 2 15{FORKED}1 write 0 1\n0 write 4 5\n": "101 1|103 0|106 0|16 0|free 0",
}


# Document 02's R-3: returns that wait, and splitrun's lines after the first.
LONE = "start 8 600\nvalues 1\n"
CHAIN = "".join(f"0 write 0 {k}\n0 spawn\n{1 + k % 7} steal 0\n{1 + k % 7} return\n" for k in range(63))
RETURNS = {
    # the starred edge: Main returns while its child runs elsewhere; it has returned only when it has ended
    f"start 2 20{FORKED}1 return\n1 read 0\n0 read 0\n0 return\n0 spawn\n": "101 1|103 0|102 4|10 0|105 1|102 3|9 0|free 20",
    # 63 waiting frames end by one return; 64 live before it
    f"{LONE}{CHAIN}0 spawn\n0 return\n0 spawn\n": "|".join(
        [f"106 {599 - k}|101 {k + 1}|103 {k}|102 4" for k in range(63)] + ["13 0|102 3|9 0|free 600"]
    ),
    # a waiting frame cannot be stolen, and is not resumed; Main, in a deque, is where the ends stop: outcome 1
    f"start 3 20{FORKED}0 spawn\n2 steal 0\n2 return\n2 steal 0\n2 steal 1\n0 return\n0 sync\n1 sync\n1 return\n": (
        "101 1|103 0|101 2|103 1|102 4|12 0|12 0|102 1|10 0|104 0|102 3|free 20"
    ),
    # the parent reached has another live child: 1; that one's end goes on upward
    f"start 3 20{FORKED}1 spawn\n2 steal 1\n2 return\n0 return\n1 return\n": "101 1|103 0|101 1|103 0|102 4|102 1|102 3|free 20",
    # the parent reached waits at a sync: 2, with its own value
    f"start 3 20{FORKED}1 write 0 9\n1 sync\n0 spawn\n2 steal 0\n2 return\n0 return\n0 read 0\n0 return\n": (
        "101 1|103 0|106 5|104 1|101 2|103 1|102 4|102 2|105 9|102 3|free 20"
    ),
    # where the deque is not empty the outcome is 0 as before, also if the frame above that one waits
    f"start 2 20{FORKED}1 return\n0 spawn\n0 return\n0 return\n": "101 1|103 0|102 4|101 2|102 0|102 3|free 20",
    # a waiting frame holds its tree
    "start 3 5\nvalues 7\n0 spawn\n1 steal 0\n0 write 0 8\n0 spawn\n2 steal 0\n0 write 0 9\n2 return\n0 return\n1 return\n": (
        "101 1|103 0|106 3|101 2|103 1|106 2|102 4|102 1|102 3|free 5"
    ),
}


# Document 02's R-5: folds, and splitrun's lines after the first. The affine map of a digit appends it to the addend.
FIVE_WORKERS = "start 5 20\nvalues 1\n"
THREE = (  # Main folds 1, 3, 5 and 7 and waits; its three children, on workers 0, 1 and 2, will fold 2, 4 and 6
    "0 fold affine 10 1\n0 spawn\n1 steal 0\n1 fold affine 10 3\n1 spawn\n2 steal 1\n2 fold affine 10 5\n2 spawn\n3 steal 2\n"
    "3 fold affine 10 7\n3 return\n"
)
THREE_LINES = "107 0|101 1|103 0|107 0|101 1|103 0|107 0|101 1|103 0|107 0|102 4"
ENDS = {worker: f"{worker} fold affine 10 {digit}\n{worker} return\n" for worker, digit in ((0, 2), (1, 4), (2, 6))}
FOLDS = {
    # each reducer, modulo 2^32; nothing is printed while Main lives
    f"{LONE}0 fold sum 4294967295\n0 fold sum 3\n0 fold min 9\n0 fold min 8\n0 fold affine 3 1\n0 fold affine 65535 7\n0 return\n": (
        "107 0|107 0|107 0|107 0|107 0|107 0|102 3|free 600|reduced 2 8 196605 65542"
    ),
    f"{LONE}0 fold sum 5\n": "107 0|free 599",
    f"{LONE}0 fold affine 0 0\n0 fold sum 1\n0 fold min 0\n0 return\n": "107 0|107 0|107 0|102 3|free 600|reduced 1 0 0 0",
    # the order of the refusals: 7, 8, 9, 10, then 20 in the place of 15
    f"{LONE}0 fold 3 1\n8 fold 3 1\n1 fold 3 1\n1 fold sum 1\n0 fold 65535 0\nraw 08 00 00 00 00 00 00 00\n0 return\n0 fold 3 1\n": (
        f"20 0|8 0|10 0|10 0|20 0|7 0|102 3|9 0|free 600|{NOTHING}"
    ),
    # a child inherits, the continuation begins anew; one worker
    f"{LONE}0 fold affine 10 1\n0 spawn\n0 fold affine 10 2\n0 return\n0 fold affine 10 3\n0 return\n": (
        "107 0|101 1|107 0|102 0|107 0|102 3|free 600|reduced 0 4294967295 1000 123"
    ),
    # a view goes to the first in the order below the next younger sibling: 2.1, not 2
    f"{FIVE_WORKERS}0 spawn\n1 steal 0\n1 spawn\n2 steal 1\n1 spawn\n3 steal 1\n3 fold affine 10 3\n3 return\n0 fold affine 10 1\n0 return\n"
    "1 fold affine 10 2\n2 fold affine 10 4\n1 return\n2 return\n": (
        "101 1|103 0|101 1|103 0|101 2|103 1|107 0|102 4|107 0|102 1|107 0|107 0|102 1|102 3|free 20|reduced 0 4294967295 10000 1234"
    ),
}
# whoever of three siblings ends first
FOLDS.update({
    f"{FIVE_WORKERS}{THREE}{ENDS[a]}{ENDS[b]}{ENDS[c]}": f"{THREE_LINES}|107 0|102 1|107 0|102 1|107 0|102 3|free 20|reduced 0 4294967295 10000000 1234567"
    for a, b, c in permutations((0, 1, 2))
})


class Node:
    """A node of a split tree: its links, and how many links and frames hold it."""

    def __init__(self, kids=()):
        self.holders, self.kids = 1, list(kids)


class Trees:
    """The frames' trees with counts of holders, by documents 01 and 02; without nodes' numbers."""

    def __init__(self, n, nodes):
        self.height, self.free = machine.height(n), nodes - machine.tree_nodes(n)
        row = [Node() for _ in range(n)]
        while len(row) > 1:
            row = [Node(row[at : at + 2]) for at in range(0, len(row), 2)]
        self.roots = {(): row[0]}

    def spawn(self, parent, child):
        self.roots[child] = self.roots[parent]
        self.roots[child].holders += 1

    def release(self, node):
        node.holders -= 1
        if not node.holders:
            self.free += 1
            for kid in node.kids:
                self.release(kid)

    def path(self, frame, splitter):
        """The nodes from the root to the leaf, and the side taken at each but the leaf."""
        nodes, sides = [self.roots[frame]], [splitter >> level & 1 for level in reversed(range(self.height))]
        for side in sides:
            nodes.append(nodes[-1].kids[side])
        return nodes, sides

    def rest(self, frame, splitter):
        """The place on the path of the first node with more holders than one, and how many follow with it."""
        nodes, _ = self.path(frame, splitter)
        first = next((at for at, node in enumerate(nodes) if node.holders > 1), len(nodes))
        return first, len(nodes) - first

    def write(self, frame, splitter):
        """New nodes for the rest of the path, beside the old siblings."""
        (nodes, sides), (first, rest) = self.path(frame, splitter), self.rest(frame, splitter)
        if not rest:
            return
        new = Node()
        for node, side in reversed(list(zip(nodes, sides))[first:]):
            for at, kid in enumerate(node.kids):
                kid.holders += at != side
            new = Node(new if at == side else kid for at, kid in enumerate(node.kids))
        if first:
            nodes[first - 1].kids[sides[first - 1]] = new
        else:
            self.roots[frame] = new
        nodes[first].holders -= 1
        self.free -= rest


class Writes(unittest.TestCase):
    def test_what_writes_take(self):
        for text, lines in WRITES.items():
            self.assertEqual(machine.run(script.encode(text)).lines[1:], lines.split("|"), text)

    def test_the_count_is_that_of_the_trees(self):
        """Both ways in which R-2 says 16: the rest of the path, and the plain machine's count of triples."""
        new, refused = set(), 0
        for seed in range(60):
            run = machine.run(script.encode(random_script(seed)))
            trees = Trees(len(run.values), run.nodes)
            for event in run.events:
                if event.kind == "write" and event.refusal in (0, 16):
                    rest = trees.rest(event.frame, event.low)[1]
                    self.assertEqual((event.new, event.refusal), (rest, 16 if rest > trees.free else 0))
                    new.add(rest)
                    refused += event.refusal == 16
                if not event.refusal and event.kind == "write":
                    trees.write(event.frame, event.low)
                elif not event.refusal and event.kind == "spawn":
                    trees.spawn(event.frame, event.other)
                for name in event.ended:
                    trees.release(trees.roots.pop(name))
                self.assertEqual(event.free, trees.free)
        self.assertTrue(refused and new >= {0, 1, 2, 3, 4, 8})


class Returns(unittest.TestCase):
    def test_returns_that_wait(self):
        for text, lines in RETURNS.items():
            wanted = lines.split("|")
            self.assertEqual(machine.run(script.encode(text)).lines[1:], wanted + [NOTHING] * ("102 3" in wanted), text)

    def test_random_scripts_have_every_outcome(self):
        """And in each: who lives, who waits, and that a chain ends child first."""
        ends = set()
        for seed in range(60):
            lives, waits = {()}, set()
            for event in machine.run(script.encode(random_script(seed))).events:
                if event.refusal or event.kind not in ("spawn", "return"):
                    self.assertNotIn(event.frame if not event.refusal else None, waits)
                    continue
                if event.kind == "spawn":
                    lives.add(event.other)
                    continue
                below = [name for name in lives if name[:-1] == event.frame and name]
                self.assertEqual((event.number == 4, event.ended == ()), (bool(below), bool(below)))
                self.assertTrue(all(name in waits for name in event.ended[1:]))
                self.assertTrue(all(b == a[:-1] for a, b in zip(event.ended, event.ended[1:])))
                waits = waits | {event.frame} if below else waits - set(event.ended)
                lives -= set(event.ended)
                ends.add((event.number, len(event.ended) > 1))
        self.assertEqual(ends, {(0, False), (1, False), (1, True), (2, False), (2, True), (3, False), (3, True), (4, False)})


def child_first(events):
    """The folds of each frame in order, those of a child where it was spawned, without views: document 02's totals directly."""
    steps = {(): []}
    for event in events:
        if not event.refusal and event.kind == "spawn":
            steps[event.other] = []
            steps[event.frame].append(steps[event.other])
        elif not event.refusal and event.kind == "fold":
            steps[event.frame].append((event.low, event.value))
    return flat(steps[()])


def flat(steps):
    return [fold for step in steps for fold in (flat(step) if isinstance(step, list) else [step])]


def by_definition(folds):
    """The identity joined with the values folded into each reducer, in order."""
    x, multiplier = 0, 1
    for value in (value for reducer, value in folds if reducer == 2):
        x, multiplier = (x * (value >> 16) + (value & 0xFFFF)) % 2**32, multiplier * (value >> 16) % 2**32
    values = [[value for reducer, value in folds if reducer == which] for which in (0, 1)]
    return sum(values[0]) % 2**32, min([2**32 - 1, *values[1]]), multiplier, x


def most_siblings(events):
    """The most live children that a frame had at some time."""
    children, most = {(): 0}, 0
    for event in events:
        if not event.refusal and event.kind == "spawn":
            children[event.other] = 0
            children[event.frame] += 1
            most = max(most, children[event.frame])
        for name in event.ended:
            if name:
                children[name[:-1]] -= 1
    return most


def folding_line(chance, plain, worker):
    """A step of a busy worker, or a steal; maps with odd multipliers lose no earlier one."""
    if not plain.deques[worker]:
        return f"{worker} steal {chance.randrange(len(plain.deques))}"
    kind = chance.choice(("fold", "fold", "fold", "spawn", "spawn", "return", "sync"))
    return f"{worker} fold {chance.randrange(3)} {chance.randrange(2**32) | 65536}" if kind == "fold" else f"{worker} {kind}"


def folding_script(seed):
    """Many folds, steals and waiting returns; then every frame returns, in any order."""
    chance = random.Random(seed)
    workers = chance.randint(2, 8)
    plain, lines = machine.Machine(workers, [7], 600), [f"start {workers} 600", "values 7"]
    while plain.frames:
        busy = [worker for worker in range(workers) if plain.deques[worker]]
        line = folding_line(chance, plain, chance.randrange(workers)) if len(lines) < 90 else f"{chance.choice(busy)} return"
        record = script.records_bytes([(1, line.split())])
        ends = plain.look(record).frame == () and line.endswith("return") and len(lines) < 80
        if not ends and not plain.look(record).refusal:
            plain.step(record)
            lines.append(line)
    return "\n".join(lines) + "\n"


class Folds(unittest.TestCase):
    def test_folds(self):
        for text, lines in FOLDS.items():
            self.assertEqual(machine.run(script.encode(text)).lines[1:], lines.split("|"), text)

    def test_the_operations(self):
        """Each has its identity on either side, and grouping never matters."""
        chance = random.Random(5)
        for _ in range(300):
            a, b, c = ([chance.choice((0, 1, 2, 2**31, 2**32 - 1, chance.randrange(2**32))) for _ in range(4)] for _ in range(3))
            self.assertEqual(machine.join(machine.join(a, b), c), machine.join(a, machine.join(b, c)))
            self.assertEqual((machine.join(machine.IDENTITY, a), machine.join(a, machine.IDENTITY)), (tuple(a), tuple(a)))

    def test_totals_are_those_of_the_child_first_list(self):
        siblings, orders = 0, 0
        for seed in range(60):
            run = machine.run(script.encode(folding_script(seed)))
            folds = child_first(run.events)
            self.assertEqual(run.totals, by_definition(folds))
            in_time = [(event.low, event.value) for event in run.events if event.kind == "fold" and not event.refusal]
            orders += by_definition(in_time) != run.totals
            siblings += most_siblings(run.events) >= 3
        self.assertTrue(siblings >= 20 and orders >= 40, (siblings, orders))

    def test_the_score_under_three_schedules(self):
        """The same frames' steps by one, two and four workers."""
        lists = set()
        for name in ("score_one", "score_two", "score_four"):
            run = machine.run(example(name))
            self.assertEqual(run.lines[-1], "reduced 190 16 1410065408 2516364964")
            steps = {}
            for event in run.events:
                self.assertEqual(event.refusal, 0)
                if event.kind != "steal":
                    steps.setdefault(event.frame, []).append((event.kind, event.low, event.value))
            lists.add(str(sorted(steps.items())))
        self.assertEqual(len(lists), 1)


class Words(unittest.TestCase):
    def test_document01(self):
        words = explain.run_words(machine.run(example("document01")))
        for place, part in (
            (0, "11 in Main's tree, 9 free"),
            (1, "Main spawns frame 1, depth 1"),
            (2, "worker 1 takes Main, depth 0, from worker 0"),
            (3, "Main writes 99 to splitter 4, with 4 new nodes. Free nodes: 5"),
            (4, "frame 1 reads splitter 4: 50"),
            (5, "Main has a live child and is suspended"),
            (6, "refused 10: The step is not a steal and the worker is idle."),
            (7, "frame 1 ends, the last child; Main resumes on worker 0"),
            (8, "Main reads splitter 4: 99"),
            (9, "the run is over. Free nodes: 20"),
            (11, "the totals: sum 0, minimum 4294967295, affine map x to 1 x + 0"),
        ):
            self.assertIn(part, words[place])

    def test_folds(self):
        words = explain.run_words(machine.run(example("score_two")))
        for place, part in (
            (5, "frame 1 folds 25 into the sum; its view: 25. Free nodes: 30"),
            (6, "frame 1 folds 25 into the minimum; its view: 25. Free nodes: 30"),
            (7, "frame 1 folds x to 100 x + 25 into the affine map; its view: x to 100 x + 25. Free nodes: 30"),
            (8, "frame 1 ends; worker 0 is idle. What was folded joins frame 2's view. Free nodes: 33"),
            (10, "Main spawns frame 3, depth 1, a copy of Main's values. Free nodes: 33"),
            (16, "frame 2 spawns frame 2.1, depth 2, a copy of frame 2's values; what was folded goes with it. Free nodes: 27"),
            (17, "frame 3 ends; its parent Main is the bottom of worker 0 again. What was folded joins Main's view. Free nodes: 30"),
            (20, "Main folds x to 100 x + 64 into the affine map; its view: x to 10000 x + 4964. Free nodes: 30"),
            (30, "frame 2 ends, and with it Main, which waited; the run is over. Free nodes: 40"),
            (32, "the totals: sum 190, minimum 16, affine map x to 1410065408 x + 2516364964"),
        ):
            self.assertEqual(part, words[place])
        words = explain.run_words(machine.run(script.encode(f"{LONE}0 fold 3 1\n")))
        self.assertIn("refused 20: The step is a fold and names no reducer. (bottom frame: Main) Nothing changes.", words[1])

    def test_writes(self):
        words = explain.run_words(machine.run(example("shared")))
        sentence = "refused 16: The step is a write and fewer nodes are free than the shared rest of its path has."
        for place, part in (
            (1, "Main writes 51 to splitter 4, in place. Free nodes: 8"),
            (4, "Main writes 52 to splitter 4, with 4 new nodes. Free nodes: 4"),
            (5, "Main writes 53 to splitter 4, in place. Free nodes: 4"),
            (6, "frame 1 writes 54 to splitter 4, in place. Free nodes: 4"),
            (7, "frame 1 writes 11 to splitter 0, with 3 new nodes. Free nodes: 1"),
            (8, f"{sentence} The rest has 2 nodes, 1 is free. (bottom frame: Main) Nothing changes. Free nodes: 1"),
            (10, "Main writes 31 to splitter 2, in place. Free nodes: 8"),
        ):
            self.assertEqual(part, words[place])
        words = explain.run_words(machine.run(script.encode(f"start 2 15{FORKED}1 write 0 7\n0 write 1 7\n")))
        self.assertIn(f"{sentence} The rest has 1 node, 0 are free. (bottom frame: 1)", words[4])

    def test_returns(self):
        words = explain.run_words(machine.run(example("waits")))
        for place, part in (
            (9, "frame 1 returns, has a live child and waits as returning; worker 2 is idle. Free nodes: 5"),
            (11, "frame 1.1 ends; worker 0 is idle. Free nodes: 5"),
            (12, "frame 1.2 ends, and with it frame 1, which waited; Main resumes on worker 1, past its sync. Free nodes: 9"),
            (18, "Main returns, has a live child and waits as returning; worker 0 is idle. Free nodes: 9"),
            (20, "frame 2.1 ends, and with it frame 2, Main, which waited; the run is over. Free nodes: 20"),
            (21, "refused 9: Main has returned. Nothing changes. Free nodes: 20"),
            (22, "the free nodes at the end; Main has returned"),
        ):
            self.assertEqual(part, words[place])
        self.assertNotIn(14, explain.REFUSED)
        waiting = machine.run(script.encode(f"start 2 20{FORKED}1 return\n"))
        self.assertEqual(explain.run_words(waiting)[-1], "the free nodes at the end; Main has not returned")

    def test_a_difference_is_loud(self):
        data = example("document01")
        printed = [*DOCUMENT01[:8], "105 50", *DOCUMENT01[9:]]
        text, alike = explain.explained(data, machine.run(data), printed)
        self.assertFalse(alike)
        self.assertIn("!!! DIFFERS: splitrun says '105 50', the plain machine '105 99'", text)
        self.assertFalse(explain.explained(data, machine.run(data), DOCUMENT01[:-1])[1])

    def test_a_wrong_splitrun_ends_with_code_1(self):
        lines = machine.run(example("note_b"), note_b=True).lines
        with tempfile.TemporaryDirectory() as folder:
            wrong = Path(folder) / "splitrun"
            wrong.write_text(f"#!{sys.executable}\nprint({chr(10).join(lines)!r})\n")
            wrong.chmod(0o755)
            for command in ("run", "draw"):
                done = tape(command, HERE / "examples/note_b.tape", "--splitrun", wrong)
                self.assertEqual(done.returncode, 1)
                self.assertIn(b"SPLITRUN DIFFERS", done.stderr)
                self.assertIn(b"DIFFERS", done.stdout)

    def test_a_missing_splitrun_ends_with_code_2(self):
        done = tape("run", HERE / "examples/note_b.tape", "--splitrun", "/nowhere/splitrun")
        self.assertEqual(done.returncode, 2)
        self.assertIn(b"cannot be run: there is no /nowhere/splitrun; make run first", done.stderr)

    def test_deep_names_are_short(self):
        names = {(): "Main", (1,): "1", (1, 1): "1.1", (1, 1, 1): "1^3", (1,) * 63: "1^63", (2, 1, 1, 1, 1, 3, 3): "2.1^4.3.3", (12,) * 3: "12^3"}
        for name, short in names.items():
            self.assertEqual(machine.name_text(name), short)
        words = explain.run_words(machine.run(script.encode("start 1 1\nvalues 1\n" + "0 spawn\n" * 63)))
        self.assertEqual(words[63], "frame 1^62 spawns frame 1^63, depth 63, a copy of frame 1^62's values. Free nodes: 0")
        words = explain.run_words(machine.run(script.encode(f"{LONE}{CHAIN}0 return\n")))
        self.assertIn("frame 1^63 ends, and with it 63 frames from frame 1^62 up to Main, which waited; the run is over", words[-3])


STEP = "start 1 9\nvalues 5 6\n"


class Expects(unittest.TestCase):
    def misses(self, text, printed=None):
        parsed = script.parse(text)
        return [(m.expect.line, m.expect.text, m.got) for m in explain.missed(parsed.expects, printed or machine.run(parsed.data).lines)]

    def test_on_the_line_or_on_one_of_its_own(self):
        for text in ("0 read 1 expect 105 6\n", "0 read 1\nexpect 105 6\n", "0 read 1 # a comment\n\n   expect  105  006 # six\n"):
            parsed = script.parse(STEP + text)
            self.assertEqual([(e.record, e.text) for e in parsed.expects], [(1, "105 6")])
            self.assertEqual(parsed.data, script.encode(STEP + "0 read 1\n"))

    def test_what_comes_and_what_does_not(self):
        self.assertEqual(self.misses(STEP + "0 read 1 expect 105 6\n0 read 2 expect 15 0\nexpect free 6\n"), [])
        wrong = STEP + "0 read 1 expect 105 5\n0 read 0 expect 105 5\n0 return\nexpect 102 2\nexpect free 8\n"
        self.assertEqual(self.misses(wrong), [(3, "105 5", "105 6"), (6, "102 2", "102 3"), (7, "free 8", "free 9")])
        self.assertEqual(self.misses("start 9 9\nvalues 1\nexpect refused 2\n"), [])
        self.assertEqual(self.misses("start 9 9\nvalues 1\n0 read 0 expect 105 1\n"), [(3, "105 1", "refused 2")])
        self.assertEqual(self.misses(STEP + "0 spawn\n0 read 0 expect 105 5\n", ["1 2 9"]), [(4, "105 5", "(no line)")])

    def test_totals(self):
        ended, live = STEP + "0 fold sum 5 expect 107 0\n0 return\n", STEP + "0 fold sum 5\n"
        for last in ("expect free 9\nexpect reduced 5 4294967295 1 0\n", "expect reduced 5 4294967295 1 0\nexpect free 9\n"):
            self.assertEqual(self.misses(ended + last), [])
            self.assertEqual(len(script.parse(ended + last).expects), 3)
        wrong = [(6, "reduced 6 4294967295 1 0", "reduced 5 4294967295 1 0")]
        self.assertEqual(self.misses(ended + "expect free 9\nexpect reduced 6 4294967295 1 0\n"), wrong)
        self.assertEqual(self.misses(live + "expect reduced 5 4294967295 1 0\n"), [(4, "reduced 5 4294967295 1 0", "free 6")])
        parsed = script.parse(ended + "expect reduced 6 4294967295 1 0\n")
        run = machine.run(parsed.data)
        misses = explain.missed(parsed.expects, run.lines)
        text = explain.explained(parsed.data, run, run.lines, misses)[0]
        self.assertIn("reduced 5 4294967295 1 0  !!! EXPECTED reduced 6 4294967295 1 0 (line 5). the totals: sum 5", text)
        said = "line 5: at the end: expected reduced 6 4294967295 1 0, splitrun says reduced 5 4294967295 1 0"
        self.assertEqual(misses[0].words(), said)

    def test_raw_records(self):
        self.assertEqual(self.misses(STEP + "raw 08 00 00 00 00 00 00 00 expect 7 0\nraw 01\nexpect refused 4\n"), [(3, "7 0", "refused 4")])

    def test_errors(self):
        for text, line, words in (
            ("expect 105 5\n", 3, "before the first step"),
            ("0 read 1 expect\n", 3, "two words"),
            ("0 read 1 expect 105\n", 3, "two words"),
            ("0 read 1 expect 105 6 7\n", 3, "two words"),
            ("0 read 1 expect 105 x\n", 3, "decimal"),
            ("0 read 1 expect free x\n", 3, "decimal"),
            ("0 read 1 expect 105 4294967296\n", 3, "more than 4294967295"),
            ("0 read 1 expect 105 6\nexpect 105 6\n", 4, "expected in line 3 already"),
            ("0 read 1\nexpect free 9\n0 read 1\n", 4, "no step may come after it"),
            ("expect free 9\nexpect free 9\n", 4, "expected in line 3 already"),
            ("expect free 9\nexpect reduced 0 1 1 0\nexpect free 9\n", 5, "expected in line 3 already"),
            ("0 read 1 expect reduced 0 1 1\n", 3, "reduced SUM MIN MULTIPLIER ADDEND"),
            ("0 read 1 expect free\n", 3, "free N"),
        ):
            with self.assertRaises(script.ScriptError) as caught:
                script.parse(STEP + text)
            self.assertEqual(caught.exception.line, line, text)
            self.assertIn(words, str(caught.exception))
        for text, line in (("start 1 9 expect 1 1\nvalues 1\n", 1), ("start 1 9\nvalues 1 expect 1 1\n", 2), ("raw 00\n" * 3 + "expect 1 1", 4)):
            with self.assertRaises(script.ScriptError) as caught:
                script.parse(text)
            self.assertEqual(caught.exception.line, line)

    @needs_splitrun
    def test_exit_codes(self):
        for last, code in (("105 6", 0), ("105 7", 1)):
            for command in ("run", "draw"):
                done = tape(command, "-", "--splitrun", SPLITRUN, given=f"{STEP}0 read 1\nexpect {last}\n".encode())
                self.assertEqual(done.returncode, code)
                self.assertEqual(b"EXPECTED ANSWERS THAT DID NOT COME: 1\n!!! line 4: record 1: expected 105 7, splitrun says 105 6" in done.stderr, code == 1)
                if command == "run":
                    self.assertIn(f"expected answers that came: {1 - code} of 1\n".encode(), done.stdout)
                    self.assertEqual(b"!!! EXPECTED 105 7 (line 4). Main reads splitter 1: 6" in done.stdout, code == 1)


class Encodings(unittest.TestCase):
    TEXT = "start 1 9 # \u00e4\nvalues 5\n0 read 0\n"

    def test_byte_order_marks(self):
        want = script.encode("start 1 9\nvalues 5\n0 read 0\n")
        for name in ("utf-8", "utf-8-sig", "utf-16", "utf-32"):
            for end in ("\n", "\r\n", "\r"):
                self.assertEqual(script.encode(script.text_of(self.TEXT.replace("\n", end).encode(name))), want)
        for mark, name in script.MARKS:
            self.assertEqual(script.encode(script.text_of(mark + self.TEXT.encode(name))), want)

    def test_other_encodings_are_refused_with_a_line_number(self):
        for data, line, words in (
            ("start 1 9\n\nvalues 5 # \u00e4\n".encode("latin-1"), 3, "byte 0xe4 is not UTF-8; save the script as UTF-8"),
            ("start 1 9\r\rvalues 5 # \u00e4\r".encode("latin-1"), 3, "byte 0xe4"),
            (self.TEXT.encode("utf-16-le"), 1, "byte 0xe4"),
            ("start 1 9\nvalues 5\n".encode("utf-16-le"), 1, "UTF-16 without a byte-order mark"),
            (b"\xff\xfes\0t\0\n\0x", 2, "is not UTF-16-LE"),
            (b"start 1 9\nvalues 5\n0 read\0\n", 3, "a zero byte"),
        ):
            with self.assertRaises(script.ScriptError) as caught:
                script.text_of(data)
            self.assertEqual(caught.exception.line, line, data)
            self.assertIn(words, str(caught.exception))

    def test_what_is_not_seen_is_written_out(self):
        with self.assertRaises(script.ScriptError) as caught:
            script.encode("start 1 9\nvalues 5\n\ufeff0 read 0\n")
        self.assertIn("line 3: the worker must be a decimal number, not '\\ufeff0'", str(caught.exception))
        with self.assertRaises(script.ScriptError) as caught:
            script.encode("start 1 9\nvalues 5\n" + "x" * 5000)
        self.assertLess(len(str(caught.exception)), 120)


class Limits(unittest.TestCase):
    def test_the_limits_are_splitrun_s(self):
        five, read = "values 1 2 3 4 5\n", "0 read 0\n"
        for text, words in (
            (f"start 1 1024\n{five}" + read * 2048, ""),
            ("start 1 600\nvalues" + " 1" * 256, ""),
            (f"start 1 1025\n{five}", "line 1: 1,025 nodes, and at most 1,024 fit"),
            ("start 1 600\n\nvalues" + " 1" * 257, "line 3: 257 values, and at most 256 fit"),
            (f"start 1 20\n{five}\n" + read * 2049, "line 2052: 16,392 bytes of records, and at most 16,384 fit, that is 2,048 records"),
            (f"start 1 20\n{five}" + read * 2048 + "raw 01", "line 2051: 16,385 bytes of records"),
            ("start 1 2000\nvalues" + " 1" * 300, "line 1: 2,000 nodes, and at most 1,024 fit; line 2: 300 values"),
            ("raw 01 00", "the header is cut short: 2 of 8 bytes"),
            ("raw 01 00 05 00 14 00 00 00\nraw 01 00 00 00 01 00\n", "the values are cut short: 1 of 5"),
        ):
            parsed = script.parse(text)
            self.assertTrue(cli.unfit_words(parsed).startswith(words), cli.unfit_words(parsed))
            self.assertEqual(machine.run(parsed.data).lines == ["unfit"], bool(words))
            if os.path.exists(SPLITRUN):
                self.assertEqual(cli.splitrun_lines(SPLITRUN, parsed.data) == ["unfit"], bool(words))

    def test_refused_before_splitrun_is_run(self):
        for command in (["run", "-", "--splitrun", "/nowhere"], ["draw", "-", "--splitrun", "/nowhere"], ["compare-note-b", "-"]):
            done = tape(*command, given=b"start 1 1025\nvalues 1\n")
            self.assertEqual((done.returncode, done.stdout), (2, b""))
            self.assertEqual(done.stderr, b"tape.py: -: splitrun would print unfit: line 1: 1,025 nodes, and at most 1,024 fit\n")

    def test_encode_writes_it_with_a_note(self):
        done = tape("encode", "-", given=b"start 1 1025\nvalues 1\n")
        self.assertEqual((done.returncode, done.stdout), (0, script.encode("start 1 1025\nvalues 1\n")))
        self.assertIn(b"note: splitrun will print unfit: line 1: 1,025 nodes", done.stderr)

    def test_time_is_linear_in_the_script(self):
        """Ten times the lines take some ten times as long; a quadratic tool takes a hundred times."""
        times = []
        for count in (5000, 50000):
            text = STEP + "0 write 1 4294967295 expect 106 6\n" * count
            begin = time.process_time()
            script.parse(text)
            times.append(time.process_time() - begin)
        self.assertLess(times[1], 30 * times[0])


class Ends(unittest.TestCase):
    def shell(self, line):
        return subprocess.run(["bash", "-c", line, sys.executable, HERE / "tape.py", HERE / "examples/waits.tape"], capture_output=True)

    def test_a_closed_pipe_is_quiet_and_keeps_the_code(self):
        text = f"values {' '.join(['7'] * 60000)}"
        for command, given, code in (("encode -", f"start 1 9\n{text}\n", 0), ("decode", "x" * 200000, 0), ("--help", "", 0)):
            line = f'"$0" "$1" {command} 2>&3 | true; exit ${{PIPESTATUS[0]}}'
            done = subprocess.run(["bash", "-c", f"exec 3>&2; {line}", sys.executable, HERE / "tape.py"], input=given.encode(), capture_output=True)
            self.assertEqual(done.returncode, code)
            self.assertNotIn(b"Traceback", done.stderr)
            self.assertNotIn(b"Broken", done.stderr)

    @needs_splitrun
    def test_a_closed_pipe_does_not_hide_a_failure(self):
        for last, code in (("106 6", 0), ("106 5", 1)):
            given = STEP + "0 write 1 7\n" * 2000 + f"expect {last}\n"
            line = f'exec 3>&2; "$0" "$1" run - --splitrun "$2" 2>&3 | head -n 1; exit ${{PIPESTATUS[0]}}'
            done = subprocess.run(["bash", "-c", line, sys.executable, HERE / "tape.py", SPLITRUN], input=given.encode(), capture_output=True)
            self.assertEqual((done.returncode, done.stdout.count(b"\n")), (code, 1))
            self.assertNotIn(b"Traceback", done.stderr)

    def test_a_full_device_is_said(self):
        for command in ("encode", "compare-note-b"):
            done = self.shell(f'"$0" "$1" {command} "$2" > /dev/full')
            self.assertEqual((done.returncode, done.stderr), (2, b"tape.py: standard output: No space left on device\n"))

    def test_closed_outputs(self):
        self.assertEqual(self.shell('"$0" "$1" encode "$2" >&-').returncode, 2)
        self.assertEqual(self.shell('"$0" "$1" encode - <&-').stderr, b"tape.py: standard input is closed\n")

    def test_what_cannot_be_read(self):
        for words in (["encode", "/nowhere/x"], ["run", HERE], ["image", "/nowhere/x"]):
            done = tape(*words)
            self.assertEqual((done.returncode, done.stdout, done.stderr.count(b"\n")), (2, b"", 1))
        self.assertEqual(tape("fly").returncode, 2)

    def test_nothing_to_draw_or_compare(self):
        for command, where in (("draw", ["--splitrun", SPLITRUN]), ("compare-note-b", [])):
            if command == "draw" and not os.path.exists(SPLITRUN):
                continue
            done = tape(command, "-", *where, given=b"start 9 9\nvalues 1\n")
            self.assertEqual((done.returncode, done.stdout), (2, b""))
            self.assertIn(b"the call is refused whole, number 2: At a start, there are 0 or more than 8 workers.", done.stderr)

    @needs_splitrun
    def test_the_program_is_found_from_anywhere(self):
        if Path(SPLITRUN) != ROOT / "target/bin/splitrun":
            self.skipTest("SPLITRUN names another")
        done = subprocess.run([sys.executable, HERE / "tape.py", "run", HERE / "examples/waits.tape"], capture_output=True, cwd="/")
        self.assertEqual((done.returncode, done.stderr), (0, b""))


class Documents(unittest.TestCase):
    def on_the_page(self, *texts):
        page = (ROOT / "docs/TAPES.md").read_text()
        for line in "".join(texts).splitlines():
            self.assertIn(f"    {line}\n" if line else "\n", page)

    def test_the_worked_examples_are_what_the_tool_prints(self):
        for name in ("note_b", "shared", "waits"):
            data, text = example(name), (HERE / f"examples/{name}.tape").read_text()
            own = machine.run(data)
            self.on_the_page(text, explain.explained(data, own, own.lines)[0])
        self.on_the_page(*((HERE / f"examples/{name}.tape").read_text() for name in ("score_one", "score_four")))
        own = machine.run(example("score_two"))
        self.on_the_page(explain.explained(example("score_two"), own, own.lines)[0])

    def test_the_page_s_script_gives_what_it_expects(self):
        page = (ROOT / "docs/TAPES.md").read_text().split("## The script\n")[1].split("\nNumbers are decimal.")[0]
        parsed = script.parse(page)
        self.assertEqual(len(parsed.expects), 4)
        self.assertEqual(explain.missed(parsed.expects, machine.run(parsed.data).lines), [])

    def test_the_expected_answers_are_what_the_tool_prints(self):
        text = (HERE / "examples/document01.tape").read_text()
        self.on_the_page(text)
        wrong = script.parse(text.replace("expect 105 50", "expect 105 99"))
        misses = explain.missed(wrong.expects, DOCUMENT01)
        rows = explain.explained(wrong.data, machine.run(wrong.data), DOCUMENT01, misses)[0].splitlines()
        self.on_the_page(*[row + "\n" for row in rows if "EXPECTED" in row], f"!!! {misses[0].words()}\n")
        self.assertEqual((len(wrong.expects), len(misses)), (11, 1))

    def test_note_b_is_what_the_tool_prints(self):
        data = example("note_b")
        self.on_the_page(explain.side_by_side(data, machine.run(data), machine.run(data, note_b=True))[0])

    def test_the_pictures_are_what_the_tool_draws(self):
        for name, tape_name in (("note_b", "note_b"), ("waits", "waits"), ("score", "score_two")):
            picture = draw.picture(machine.run(example(tape_name)))
            self.assertEqual((ROOT / f"docs/{name}.svg").read_text(encoding="utf-8"), picture)


def text_boxes(svg):
    """(left, top, right, bottom, words) of each text, in the monospace font's measure."""
    for node in xml.dom.minidom.parseString(svg).getElementsByTagName("text"):
        x, y = float(node.getAttribute("x")), float(node.getAttribute("y"))
        size = float(node.getAttribute("font-size") or 11)
        words = node.firstChild.data
        yield x, y - 0.76 * size, x + 0.603 * size * len(words), y + 0.2 * size, words


class Pictures(unittest.TestCase):
    def test_no_text_lies_on_another(self):
        datas = [script.encode(path.read_text()) for path in EXAMPLES]
        datas += [script.encode(random_script(seed)) for seed in range(12)]
        for data in datas:
            svg = draw.picture(machine.run(data))
            wide, high = (float(n) for n in re.search(r'width="([\d.]+)" height="([\d.]+)"', svg).groups())
            boxes = list(text_boxes(svg))
            for at, a in enumerate(boxes):
                self.assertTrue(0 <= a[0] and a[2] <= wide and 0 <= a[1] and a[3] <= high, a)
                for b in boxes[at + 1 :]:
                    apart = a[2] <= b[0] or b[2] <= a[0] or a[3] <= b[1] or b[3] <= a[1]
                    self.assertTrue(apart, (a, b))

    def test_waits_are_told_apart(self):
        svg = draw.picture(machine.run(example("waits")))
        shapes = xml.dom.minidom.parseString(svg).getElementsByTagName("rect")
        dashes = [shape.getAttribute("stroke-dasharray") for shape in shapes]
        # Main's wait goes on in the second row; and an entry of the legend for each
        self.assertEqual((dashes.count("5 3"), dashes.count("1.5 3")), (1 + 1 + 1, 3 + 1))
        words = [box[4] for box in text_boxes(svg)]
        for part in ("Main waits", "1 returns", "Main returns", "2 returns", "return, 2 end", "return, 3 end"):
            self.assertIn(part, words)

    def test_the_largest_numbers_are_shown_whole(self):
        values = "values " + "7 " * 255 + "4294967295"
        svg = draw.picture(machine.run(script.encode(f"start 1 600\n{values}\n0 write 255 4294967294\n0 read 255\n")))
        words = [box[4] for box in text_boxes(svg)]
        for part in ("write 255", ":= 4294967294", "read 255", "= 4294967294"):
            self.assertIn(part, words)

    def test_folds(self):
        text = f"{LONE}0 fold sum 4294967295\n0 fold min 4294967294\n0 fold affine 65535 65535\n0 fold 9 7\n0 spawn\n1 steal 0\n0 return\n1 return\n"
        words = self.words(text)
        for part in ("fold sum", "4294967295", "fold min", "4294967294", "fold affine", "x65535 +65535", "fold 9", "refused 20", "view to Main"):
            self.assertIn(part, words)
        self.assertIn("totals: sum 4294967295, minimum 4294967294, affine map x to 65535 x + 65535", words)
        self.assertFalse([w for w in self.words(text, 1, 6) if w.startswith("totals")])
        self.assertFalse([w for w in self.words(f"{LONE}0 return\n") if w.startswith("totals")])

    def words(self, text, *window):
        return [box[4] for box in text_boxes(draw.picture(machine.run(script.encode(text)), True, *window))]

    def test_refused_records_have_their_fields(self):
        text = "start 2 9\nvalues 5 6\n0 read 9\n0 write 700 4294967294\n1 steal 44\n0 steal 3\n9 spawn\n1 sync\nraw 08 00 01 00 ff 00 00 00\n"
        words = self.words(text)
        for part in ("read 9", "write 700", ":= 4294967294", "steal 44", "steal 3", "spawn", "sync", "raw 08000100", "ff000000"):
            self.assertIn(part, words)
        for number in (15, 12, 11, 8, 10, 7):
            self.assertIn(f"refused {number}", words)
            self.assertIn(f"refused {number}: {explain.REFUSED[number]}", words)

    def test_rows(self):
        for count in range(45):
            rows = draw.rows_of_records(1, count)
            self.assertEqual([r for a, b in rows for r in range(a, b + 1)], list(range(1, count + 1)))
            self.assertTrue(all(b - a < draw.MOST for a, b in rows))
            self.assertEqual(len(rows), max(1, -(-count // draw.MOST)))

    def test_a_part_of_a_run(self):
        text = (HERE / "examples/waits.tape").read_text()
        words = self.words(text, 9, 12)
        self.assertIn("3 workers, 5 splitters, 20 nodes; free 20 at the end; records 9 to 12 of 21", words)
        self.assertEqual([w for w in words if w.isdigit() and int(w) > 2], ["9", "10", "11", "12", "4"])  # at last the critical path's clock
        for part in ("1.1", "1.2", "Main waits", "1 returns", "return, 2 end"):
            self.assertIn(part, words)
        self.assertNotIn("refused 9: Main has returned.", words)

    def test_the_legend_has_an_entry_for_each_sign_met(self):
        words = self.words("start 1 9\nvalues 5\n0 read 0\n")
        self.assertEqual([w for w in words if w in {entry[2] for entry in draw.LEGEND}], ["the frame that a worker executes", "read"])
        all_words = [entry[2] for entry in draw.LEGEND]
        words = self.words((HERE / "examples/waits.tape").read_text().replace("1 read 4", "1 fold sum 1\n1 read 4"))
        self.assertEqual([w for w in words if w in all_words][-len(all_words) :], all_words)

    def test_a_frame_has_one_colour_in_every_part(self):
        run = machine.run(example("waits"))
        for first in range(1, 22):
            whole, part = draw.Picture(run, 1, 21), draw.Picture(run, first, 21)
            self.assertEqual(whole.colours, part.colours)

    def test_many_frames_that_end_at_once(self):
        self.assertIn("return 64 end", self.words(f"{LONE}{CHAIN}0 return\n", 250, 253))

    def test_no_record_at_all(self):
        self.assertIn("Main", self.words("start 1 9\nvalues 5\n"))

    @needs_splitrun
    def test_windows(self):
        for words, code in (((), 0), (("--from", "21"), 0), (("--to", "1"), 0), (("--from", "4", "--to", "9"), 0), (("--from", "0"), 2),
                            (("--to", "22"), 2), (("--from", "9", "--to", "8"), 2), (("--from", "x"), 2), (("--to", "-1"), 2)):  # fmt: skip
            done = tape("draw", HERE / "examples/waits.tape", "--splitrun", SPLITRUN, *words)
            self.assertEqual((done.returncode, bool(done.stdout)), (code, code == 0), words)
            self.assertNotIn(b"Traceback", done.stderr)


NONE = 0xFFFFFFFF


def packed(left, right=0xFFFF):
    """An inner node's second word; without a right link, 65,535."""
    return left + 65536 * right


def start_words(workers, values, nodes, places=64):
    """Document 01's start, in the order of document 02's image, with R-8's nodes: for 5 splitters T(n) is 5 + 3 + 2 + 1."""
    widths = [len(values)]
    while widths[-1] > 1:
        widths.append((widths[-1] + 1) // 2)
    tree, below = [], 0
    for width, under in zip(widths[::-1], widths[-2::-1]):
        below += width
        tree += [(1, packed(below + 2 * g, below + 2 * g + 1 if 2 * g + 1 < under else 0xFFFF)) for g in range(width)]
    tree += [(1, value) for value in values]
    used = len(tree)
    tree += [(0, at + 1 if at + 1 < nodes else NONE) for at in range(used, nodes)]
    main, free = (1, NONE, 0, 0, 0, 0, 0, *machine.IDENTITY, NONE), (0,) * 10
    frames = [main] + [(0, at + 1 if at + 1 < places else NONE, *free) for at in range(1, places)]
    numbers = [workers + 1024, len(values), nodes, used if used < nodes else NONE, 1 if places > 1 else NONE, 0, 0, 0, 0, places]
    return numbers + [1] + [0] * (8 * (1 + places) - 1) + [word for record in frames + tree for word in record]


def image_bytes(words):
    """Blocks of 127 words and their sum: a byte's power of 256 is its place in its word."""
    words = words + [0] * (-len(words) % 127)
    blocks = [words[at : at + 127] for at in range(0, len(words), 127)]
    return b"".join(struct.pack("<128I", *block, sum(block) % 2**32) for block in blocks)


FIVE = start_words(2, [10, 20, 30, 40, 50], 20)
DEQUES, RECORDS, POOL = 10, 530, 1298  # the first words of the deques, the frame records, the pool, with 64 places


def changed(changes, words=FIVE):
    """The words with some of them changed, as {place: word}."""
    return [changes.get(at, word) for at, word in enumerate(words)]


def four_words(words):
    """The nodes of FIVE's tree, 0 to 5 inner ones, 6 to 10 leaves, as they were before R-8: holders, left, right, value."""
    unpacked = []
    for number in range(len(words) // 2):
        holders, word = words[2 * number : 2 * number + 2]
        left, right = (NONE if half == 0xFFFF else half for half in (word % 65536, word // 65536))
        unpacked += [holders, left, right, 0] if number < 6 else [holders, NONE, NONE, word] if number < 11 else [holders, word, 0, 0]
    return unpacked


def older(words, version):
    """The image of version 0 to 3: 256 times that added to the first word; five numbers, in version 2 nine, then ten; six, seven, twelve and
    twelve words to a record; four words to a node."""
    records = [word for at, word in enumerate(words[RECORDS:POOL]) if at % 12 < (6, 7, 12, 12)[version]]
    return [words[0] - 1024 + 256 * version] + words[1 : (5, 5, 9, 10)[version]] + words[DEQUES:RECORDS] + records + four_words(words[POOL:])


def stolen(returning=0):
    """Main, stolen by worker 1, waits in its sync or as returning; its child, in place 1, is on worker 0, and both hold the tree. The
    child has folded."""
    main, child = {3: 1, 4: 1, 6: returning}, {0: 1, 1: 0, 2: 1, 7: 30, 8: 5, 9: 100, 10: 12, 11: NONE}
    changes = {4: 2, DEQUES + 1: 1, POOL: 2}
    changes.update({RECORDS + at: word for at, word in main.items()})
    changes.update({RECORDS + 12 + at: word for at, word in child.items()})
    return changed(changes)


def siblings():
    """Main on worker 3, its children in places 1, 2 and 3 on workers 0 to 2, eldest first."""
    words = start_words(4, [10, 20, 30, 40, 50], 20)
    changes = {4: 4, RECORDS + 3: 3, POOL: 4, DEQUES + 3 * 65: 1, DEQUES + 3 * 65 + 1: 0}
    for worker in range(3):
        changes.update({DEQUES + 65 * worker: 1, DEQUES + 65 * worker + 1: worker + 1})
        record = (1, 0, 1, 0, 0, 0, 0, *machine.IDENTITY, worker + 2 if worker < 2 else NONE)
        changes.update({RECORDS + 12 * (worker + 1) + at: word for at, word in enumerate(record)})
    return changed(changes, words)


class Images(unittest.TestCase):
    def told(self, data, taken, *parts):
        """The verdict is right, and each part is in the text."""
        text, got = image.described("x", data)
        self.assertEqual(got, taken, text)
        for part in parts:
            self.assertIn(part, text)
        return text

    def test_checks(self):
        for offset in range(508):
            data = bytearray(508)
            data[offset] = 3
            self.assertEqual(image.check(data), 3 << 8 * (offset % 4))
        self.assertEqual(image.check(bytes([255]) * 508), 2**32 - 127)
        self.assertEqual([image.called_for(64, n) for n in (0, 49, 50, 113, 114, 16384)], [11, 11, 12, 12, 13, 269])
        self.assertEqual([image.called_for(k, 52) for k in (0, 1, 64, 256, 257, NONE)], [1, 2, 12, 42, 42, 676372804])
        self.assertEqual((image.called_for(1, 1), image.called_for(256, 16384) * 512), (1, 153088))

    def test_a_good_image(self):
        text = self.told(
            image_bytes(FIVE),
            True,
            "x: 5632 bytes, 11 blocks\n",
            "form     version 4: 12 words to a frame record, 2 to a node\n",
            "2 workers, 5 splitters, 20 nodes, 64 frame places, first free node 11, first free frame place 1\n",
            "worker 0: 0\n         worker 1: idle\n",
            "place 0: Main, depth 0, 0 outstanding, on worker 0, root 0\n",
            "free: 1 to 63\n",
            "11 nodes in use, 9 free\n",
            "all 11 are right\n",
            "a reading takes it, with a frame table of just 64 places, and 20 nodes of pool and 20 words of work or more\n",
        )
        self.assertNotIn("refuse", text)

    def test_good_images_of_other_sizes(self):
        for n in (*range(1, 40), 255, 256):
            nodes = machine.tree_nodes(n)
            for more in (0, 1, 100):
                words = start_words(8, list(range(n)), nodes + more)
                self.told(image_bytes(words), True, f"{nodes} nodes in use, {more} free\n")
        for places in (1, 2, 3, 63, 65, 128, 255, 256):
            free = {1: "none", 2: "1"}.get(places, f"1 to {places - 1}")
            words = start_words(8, [1], 7, places)
            self.told(image_bytes(words), True, f"{places} frame places, ", f"free: {free}\n", f"a frame table of just {places} place")
        # a table of 256 places with 256 live frames, each the child of the one before, on one deque
        words = start_words(1, [1], 1, 256)
        words[4], words[10:267], words[pool_at(256)] = NONE, [256, *range(256)], 256
        view = [0, 0, 0, *machine.IDENTITY, NONE]
        chain = [word for at in range(256) for word in [1, at - 1 if at else NONE, at, int(at < 255), *view]]
        words[records_at(256) : pool_at(256)] = chain
        self.told(image_bytes(words), True, "place 255: child of 254, depth 255, 0 outstanding, on worker 0, root 0\n", "free: none\n")

    def test_the_recorded_length(self):
        """17 takes it as it stands, with as many blocks as it calls for; 0 or more than 256 is then 6."""
        sentence = "not: The recorded length of the frame table is 1 to 256. (it is {})"
        for places in (0, 257, 300, 5000):
            words = start_words(2, [10, 20, 30, 40, 50], 20, max(places, 1))
            if not places:
                words = words[:18] + words[-40:]
                words[9] = 0
            text = self.told(image_bytes(words), False, f"{places} frame places, ", "by 6: state, frame table", sentence.format(places))
            self.assertNotIn("\ndeques", text)
            damaged = bytearray(image_bytes(words))
            damaged[60] ^= 1
            self.told(bytes(damaged), False, "by 18", "with right checks 6: " + sentence.format(places))
        for places in (0, 1, 60, 67, 256, 257, 2**30, NONE):
            self.told(image_bytes(changed({9: places})), False, f"{places} places and 20 nodes call for", "by 17")
        # as many blocks are called for: the words after the nodes are those of the true ones
        self.told(image_bytes(changed({9: 63})), False, "by 18", "with right checks 6: not: ")

    def test_forms(self):
        """Each first word from 1024 to 1279 has a form, and no other; images from before are refused by 17."""
        for workers in (*range(12), 127, 254, 255):
            self.told(image_bytes(changed({0: 1024 + workers})), 1 <= workers <= 8, f"{workers} workers, ", "version 4")
        for first in (0, 2, 255, 256, 258, 511, 512 + 2, 767, 768 + 2, 1023, 1280 + 2, 65536 + 1026, NONE):
            reason = f"the first word is {first}, and only 1024 to 1279 have a form that is read"
            text = self.told(image_bytes(changed({0: first})), False, "by 17", reason)
            self.assertNotIn("numbers", text)
        sizes = ("4096 bytes, 8 blocks", "4608 bytes, 9 blocks", "5632 bytes, 11 blocks", "5632 bytes, 11 blocks")
        for version, (size, request) in enumerate(zip(sizes, ("R-3", "R-5", "R-6", "R-8"))):
            for words in (FIVE, stolen()):
                before = f"form     version {version}: from before {request}, no longer read\n"
                self.told(image_bytes(older(words, version)), False, f"x: {size}", before, "by 17", f"the first word is {2 + 256 * version}, and")
        # a version 2 image taken for version 4: its tenth word is worker 0's deque length
        self.told(image_bytes(changed({0: 1026}, older(FIVE, 2))), False, "by 17", "1 places and 20 nodes call for 1 blocks, 512 bytes; the file has 5632")
        # a version 3 image taken for version 4: as many blocks, and the words of the second half of its nodes stand in the rest
        self.told(image_bytes(changed({0: 1026}, older(FIVE, 3))), False, "by 18", "with right checks 6: not: ")

    def test_folds_and_totals(self):
        self.told(image_bytes(stolen()), True, "root 0; folded: sum 30, minimum 5, affine map x to 100 x + 12\n")
        self.told(image_bytes(siblings()), True, "place 1: child of 0, depth 1, 0 outstanding, on worker 0, root 0, next younger sibling 2\n",
                  "place 3: child of 0, depth 1, 0 outstanding, on worker 2, root 0\n")  # fmt: skip
        for place in range(5, 9):
            self.told(image_bytes(changed({place: 1})), False, "by 6", "not: The totals are zero while Main lives.")

    def test_links_between_siblings(self):
        sentence = "not: Links to the next younger live sibling chain the live children of each frame, each once, Main's being none."
        links = {place: RECORDS + 12 * place + 11 for place in range(64)}
        wrong = [{links[1]: other} for other in (0, 1, 3, 4, 63, 64, NONE)] + [{links[2]: other} for other in (0, 1, 2, 4, NONE)]
        wrong += [{links[3]: other} for other in (0, 1, 2, 3, 4)] + [{links[0]: other} for other in (0, 1, 64)]
        wrong += [{links[1]: NONE, links[3]: 2}, {links[1]: 2, links[2]: 1}, {links[1]: 3, links[2]: 3}]
        for changes in wrong:
            self.told(image_bytes(changed(changes, siblings())), False, "by 6", sentence)
        for order in permutations((1, 2, 3)):
            chained = {links[a]: b for a, b in zip(order, (*order[1:], NONE))}
            self.told(image_bytes(changed(chained, siblings())), True)
        for word in range(7, 12):
            free = changed({RECORDS + 12 * 5 + word: 1}, siblings())
            self.told(image_bytes(free), False, "(free frame place 5 has a word that is not zero)")

    def test_a_frame_that_waits_as_returning(self):
        self.told(image_bytes(stolen(1)), True, "place 0: Main, depth 0, 1 outstanding, suspended, returning, root 0\n")
        sentence = "not: The seventh word of a record is 1 on a frame waiting as returning, which is suspended, else 0."
        self.told(image_bytes(stolen(2)), False, "suspended, returning 2, root 0\n", f"{sentence} (frame place 0: the seventh word is 2")
        running = changed({RECORDS + 18: 1}, stolen(1))
        self.told(image_bytes(running), False, "on worker 0, returning, root 0;", f"{sentence} (frame place 1: the seventh word is 1")
        free = changed({RECORDS + 30: 1}, stolen(1))
        self.told(image_bytes(free), False, sentence, "(free frame place 2 has a word that is not zero)")

    def test_a_run_under_way(self):
        words = stolen()
        self.told(image_bytes(words), True, "place 0: Main, depth 0, 1 outstanding, suspended, root 0\n",
                  "place 1: child of 0, depth 1, 0 outstanding, on worker 0, root 0; folded", "free: 2 to 63\n")  # fmt: skip
        over = changed({DEQUES: 0, 4: 0, 5: 190, 6: 16, 7: 3, 8: 2})
        over[RECORDS : RECORDS + 12] = [0, 1] + [0] * 10
        over[3], over[POOL:] = 0, [w for at in range(20) for w in (0, at + 1 if at < 19 else NONE)]
        self.told(image_bytes(over), True, "worker 0: idle\n", "free: 0 to 63\n", "0 nodes in use, 20 free\n",
                  "         totals: sum 190, minimum 16, affine map x to 3 x + 2\n")  # fmt: skip

    def test_a_damaged_block(self):
        data = bytearray(image_bytes(FIVE))
        right = struct.unpack_from("<I", data, 4 * 512 + 508)[0]
        data[4 * 512 + 100] ^= 8
        found = image.Image(bytes(data)).wrong_checks()
        self.assertEqual([(number, stored) for number, stored, _ in found], [(4, right)])
        words = f"block 4 (bytes 2048 to 2559) is damaged: stored {right}, right {found[0][2]}\n"
        self.told(bytes(data), False, words, "refuses it by 18: a check is wrong", "with right checks 6: not: Outstanding")
        data = bytearray(image_bytes(FIVE))
        data[511] ^= 255
        self.told(bytes(data), False, "block 0 (bytes 0 to 511) is damaged", "by 18")

    def test_a_rest_that_is_not_zero(self):
        words = FIVE + [0] * (1397 - len(FIVE))
        words[1390] = 5
        self.told(image_bytes(words), False, "word 1390 of the data is 5\n", "refuses it by 18")

    def test_cut_images(self):
        data = image_bytes(FIVE)
        for length in (1, 511):
            self.told(data[:length], False, "0 blocks", f"{length} bytes are no whole block", "by 17")
        for length in (512, 513, 5120, 5631, 5633, 6144):
            whole = (data + bytes(600))[:length]
            self.told(whole, False, "by 17", f"64 places and 20 nodes call for 11 blocks, 5632 bytes; the file has {length}\n")
        large = image_bytes(start_words(1, [1], 200))
        self.told(large[:-512], False, "176 of 200 nodes are in the file", "by 17")

    def test_a_node_count_that_is_not_true(self):
        for nodes in (50, 93, 16384, 2**31 + 20, NONE):
            self.told(image_bytes(changed({2: nodes})), False, f"64 places and {nodes} nodes call for", "by 17")
        for nodes in (0, 1, 10, 11, 12, 19):
            self.told(image_bytes(changed({2: nodes})), False, "by 18", "with right checks 6: not: ")
        others = "not: All other nodes are free and lie once on the free chain. (node 20 is not reached"
        self.told(image_bytes(changed({2: 21})), False, "by 6", others, "1 neither in use nor on the free chain")

    def test_each_sentence(self):
        node = lambda number, word: POOL + 2 * number + word  # noqa: E731
        one = {
            "Workers are 1 to 8.": {0: 1024 + 9},
            "n is 1 to 256.": {1: 257},
            "The recorded node count is T(n) to 16,384.": {1: 11},
            "Live and suspended are 0 or 1, and": {RECORDS: 2},
            "The seventh word of a record is 1 on a frame": {RECORDS + 6: 1},
            "For each of 8 workers there are as many places": {DEQUES: 65},
            "Either no frame lives and all deques": {RECORDS + 1: 5},
            "Every other live frame has a live parent one shallower.": {RECORDS + 2: 3},
            "Outstanding counts are right.": {RECORDS + 3: 1},
            "Each live frame is either in just one place": {RECORDS + 4: 1},
            "Deques hold live frames only.": {DEQUES + 65: 1, DEQUES + 66: 9},
            "A worker that does not exist has an empty": {DEQUES + 2 * 65: 1},
            "Deque places past a deque's frames are zero.": {DEQUES + 64: 1},
            "Each frame in a deque is a child of the one above it.": {DEQUES: 2},
            "Walking from each live frame gives a tree": {node(0, 1): packed(1, 20)},
            "No node is reached on two levels.": {node(0, 1): packed(1, 3)},
            "Nodes reached have right holders.": {node(6, 0): 2},
            "All other nodes are free and lie once": {node(19, 1): 11},
            "The totals are zero while Main lives.": {8: 1},
            "Links to the next younger live sibling chain": {RECORDS + 11: 1},
            "Free frame places lie once on their chain": {RECORDS + 14: 1},
        }
        for sentence, changes in one.items():
            self.told(image_bytes(changed(changes)), False, "refuses it by 6: state, frame table and pool are not sound\n", f"not: {sentence}")
        # Main, its child in place 1 and that one's in place 2 on one deque; place 3 is another child of 1, suspended
        chained = changed({DEQUES: 3, DEQUES + 2: 1, DEQUES + 3: 2, 4: 4, POOL: 4, RECORDS + 3: 1})
        last = [0, 0, 0, *machine.IDENTITY]
        chained[RECORDS + 12 : RECORDS + 48] = [1, 0, 1, 2, *last, NONE, 1, 1, 2, 0, *last, 3, 1, 1, 2, 0, *last, NONE]
        top = "not: A frame that is not a top has only the child below it, if any. (worker 0: frame place 1 is not a top and has the child 3)"
        self.told(image_bytes(chained), False, top)
        asked = {*one, "A frame that is not a top has only the child below it, if any."}
        self.assertEqual(len(asked), len(soundness.SENTENCES))

    def test_nodes(self):
        """Levels tell what a node's second word is."""
        node = lambda number, word: POOL + 2 * number + word  # noqa: E731
        shape = "not: Walking from each live frame gives a tree of the shape above, in which a node may stand in several places. (frame place 0: "
        self.told(image_bytes(changed({node(5, 1): packed(10, 6)})), False, f"{shape}node 5 has a right link, and nothing stands there)")
        self.told(image_bytes(changed({node(3, 1): packed(6)})), False, f"{shape}a link to none on level 0, where a node must stand)")
        self.told(image_bytes(changed({node(0, 1): packed(0xFFFF, 2)})), False, f"{shape}a link to none on level 2, where a node must stand)")
        self.told(image_bytes(changed({node(4, 1): packed(8, 0xFFFE)})), False, f"{shape}a link to 65534 on level 0, where a node must stand)")
        for word in (0, 20, 0xFFFF, packed(3, 4), packed(0xFFFF), NONE):  # a leaf's word is a value, whatever links it would be
            self.told(image_bytes(changed({node(8, 1): word})), True, "11 nodes in use, 9 free\n")
        # a node that stands in two places of its level: both splitters of node 3 in node 6; node 7 is free
        twice = changed({node(3, 1): packed(6, 6), node(6, 0): 2, node(7, 0): 0, node(7, 1): 11, 3: 7})
        self.told(image_bytes(twice), True, "10 nodes in use, 10 free\n")
        self.told(image_bytes(changed({node(12, 0): 1})), False, "not: All other nodes are free and lie once on the free chain. (free node 12 has holders: 1)")
        self.told(image_bytes(changed({node(19, 1): 0xFFFF})), False, "(the free chain: a link to 65535, which does not exist)")
        # three splitters, whose third stands on levels 1 and 0 in node 5: its value, as links, names itself. Nothing else is wrong
        words = start_words(1, [10, 20, packed(5)], 7)
        levels = changed({POOL + 1: packed(1, 5), POOL + 4: 0, POOL + 5: 6, 3: 2, POOL + 10: 2}, words)
        text = self.told(image_bytes(levels), False, "by 6", "not: No node is reached on two levels. (node 5 is reached on levels 0 and 1)\n")
        self.assertEqual(text.count("not: "), 1)

    def test_no_image_is_too_bad_to_be_told(self):
        chance = random.Random(7)
        for turn in range(300):
            words = list(chance.choice((FIVE, stolen(), stolen(1), siblings(), older(stolen(), 1), start_words(2, [5], 7, 256))))
            for _ in range(chance.choice((1, 2, 50, 2000))):
                words[chance.randrange(len(words))] = chance.choice((0, 1, 2, 5, 63, 64, 255, 256, NONE, chance.randrange(2**32)))
            data = bytearray(image_bytes(words))
            if turn % 2:
                data[chance.randrange(len(data))] ^= 1 << chance.randrange(8)
                data = data[: chance.choice((600, len(data)))]
            text, taken = image.described("x", bytes(data))
            self.assertEqual("takes it" in text, taken)

    def test_command_line(self):
        with tempfile.TemporaryDirectory() as folder:
            file = Path(folder) / "saved"
            for data, code in ((image_bytes(FIVE), 0), (image_bytes(FIVE)[:-1], 1)):
                file.write_bytes(data)
                done = tape("image", file)
                self.assertEqual((done.returncode, done.stderr), (code, b""))
            file.write_bytes(b"")
            for path, words in ((file, b"empty"), (Path(folder) / "none", b"No such file"), (folder, b"Is a directory")):
                done = tape("image", path)
                self.assertEqual((done.returncode, done.stdout), (2, b""))
                self.assertIn(words, done.stderr)
                self.assertTrue(done.stderr.startswith(b"tape.py: ") and done.stderr.count(b"\n") == 1)

    def test_the_page_shows_what_the_tool_prints(self):
        page = (ROOT / "docs/TAPES.md").read_text()
        data = bytearray(image_bytes(stolen(1)))
        texts = [image.described("evening.image", bytes(data))[0]]
        data[4 * 512 + 100] ^= 1
        texts.append(image.described("evening.image", bytes(data))[0])
        for line in "".join(texts).splitlines():
            self.assertIn(f"    {line}\n", page)


def asked(letter, data):
    return struct.pack("<I", 1 + len(data)) + letter + data


def words_in(data):
    """The words of an image, without its checks."""
    return [word for at in range(0, len(data), 512) for word in struct.unpack_from("<127I", data, at)]


def mutated(chance, words):
    """An image's words with some of its nodes' or its state's changed."""
    words, nodes, first = list(words), words[2], pool_at(words[9])
    node = lambda: chance.randrange(nodes)  # noqa: E731
    half = lambda: chance.choice((node(), node(), 0xFFFF, nodes, chance.randrange(65536)))  # noqa: E731
    for _ in range(chance.choice((1, 1, 1, 2, 5))):
        at = first + 2 * node()
        word = chance.randrange(8)
        if word < 2:
            words[at + 1] = words[at + 1] >> 16 << 16 | half() if word else words[at + 1] & 65535 | half() << 16
        elif word < 4:
            words[at + 1] = chance.choice((node(), NONE, packed(half(), half())))
        elif word < 5:
            words[at] = chance.choice((0, words[at] + 1, max(0, words[at] - 1), NONE))
        elif word < 6:
            words[3] = chance.choice((node(), NONE, nodes))
        elif word < 7:
            other = first + 2 * node()
            words[at : at + 2], words[other : other + 2] = words[other : other + 2], words[at : at + 2]
        else:
            words[chance.randrange(1, first)] = chance.choice((0, 1, 2, node(), 63, 64, NONE))
    return words


def put_right(words):
    """The words with the holders counted anew and all other nodes on the free chain, so that only the trees' shape may be wrong."""
    words, first = list(words), pool_at(words[9])
    state = soundness.State([words[0] % 256] + words[1:])
    held = {number: 0 for number in state.reached}
    for number in [frame.root for frame in state.live.values()] + [n for k in state.reached if any(state.levels[k]) for n in soundness.links(state.pool[k][1])]:
        held[number] = held.get(number, 0) + 1
    free = [number for number in range(words[2]) if number not in state.reached]
    words[3] = free[0] if free else NONE
    for number, after in zip(free, free[1:] + [NONE]):
        words[first + 2 * number : first + 2 * number + 2] = [0, after]
    for number in state.reached:
        words[first + 2 * number] = held[number]
    return words


@needs_archive
class WithTheLibrary(unittest.TestCase):
    @classmethod
    def setUpClass(cls):
        cls.scratch = tempfile.TemporaryDirectory()
        cls.program = Path(cls.scratch.name) / "load"
        flags = ["-std=c99", "-O2", f"-I{ROOT / 'host/include'}"]
        subprocess.run(["gcc", *flags, "-o", cls.program, ROOT / "tools/lib/load.c", ARCHIVE], check=True)

    @classmethod
    def tearDownClass(cls):
        cls.scratch.cleanup()

    def told(self, requests):
        return subprocess.run([self.program], input=b"".join(requests), capture_output=True, check=True).stdout

    def saved(self):
        """Images that the library saved in the middle of runs."""
        chance, inputs = random.Random(8), []
        for seed in range(150):
            data = script.encode(random_script(seed))
            workers, nodes, values, tail = script.split_input(data)
            if not machine.whole_refusal(workers, values, nodes, b""):
                inputs.append(data[: 8 + 4 * len(values)] + tail[: 8 * chance.randint(0, len(tail) // 8)])
        out, images = self.told(asked(b"s", data) for data in inputs), []
        while out:
            length = struct.unpack_from("<I", out)[0]
            images.append(out[4 : 4 + length])
            out = out[4 + length :]
        self.assertEqual(len(images), len(inputs))
        return images

    def test_the_verdict_is_the_library_s(self):
        chance, saved = random.Random(9), self.saved()
        given = saved + [image_bytes(words) for words in (FIVE, stolen(), stolen(1), siblings(), *(older(FIVE, version) for version in range(4)))]
        for turn in range(IMAGES):
            words = mutated(chance, words_in(chance.choice(saved)))
            given.append(image_bytes(put_right(words) if turn % 2 and soundness.State([words[0] % 256] + words[1:]).has_trees() else words))
        levels = 0
        # few nodes, and values that are links: a node may come to stand on two levels, and nothing else be wrong
        for _ in range(IMAGES):
            n = chance.choice((2, 3, 4, 5))
            nodes = machine.tree_nodes(n) + chance.randint(0, 2)
            words = start_words(1, [packed(chance.randrange(nodes), chance.choice((0xFFFF, chance.randrange(nodes)))) for _ in range(n)], nodes, 1)
            for _ in range(chance.choice((1, 1, 2))):
                at, link = pool_at(1) + 2 * chance.randrange(machine.tree_nodes(n)) + 1, chance.randrange(nodes)
                words[at] = chance.choice((packed(link, words[at] >> 16), packed(words[at] & 65535, link)))
            given.append(image_bytes(put_right(words)))
        results = self.told(asked(b"l", data) for data in given)
        verdicts = {0: 0, 6: 0, 17: 0, 18: 0}
        for at, data in enumerate(given):
            found = image.refusals(image.Image(data))
            number = found[0][0] if found else 0
            self.assertEqual(struct.unpack_from("<I", results, 4 * at)[0], number, image.described(str(at), data)[0])
            verdicts[number] += 1
            levels += [reason.startswith("not: No node is reached on two levels") for _, reason in found] == [True]
        self.assertTrue(min(verdicts[0], verdicts[6]) > IMAGES // 2 and levels > IMAGES // 10, (verdicts, levels))


@needs_splitrun
class WithSplitrun(unittest.TestCase):
    def test_examples_and_random_scripts_agree(self):
        texts = [path.read_text() for path in EXAMPLES] + [*WRITES, *RETURNS, *FOLDS] + [random_script(seed) for seed in range(40)]
        texts += [folding_script(seed) for seed in range(40)]
        for text in texts + ["start 1 10\nvalues 1 2 3 4 5\n", "raw 00\n", "start 1 9\nvalues 1\nraw 00\n"]:
            data = script.encode(text)
            self.assertEqual(cli.splitrun_lines(SPLITRUN, data), machine.run(data).lines)

    def test_run_and_draw(self):
        for command, part in (("run", b"agree on every line"), ("draw", b"</svg>")):
            done = tape(command, HERE / "examples/note_b.tape", "--splitrun", SPLITRUN)
            self.assertEqual(done.returncode, 0)
            self.assertIn(part, done.stdout)


if __name__ == "__main__":
    unittest.main()
