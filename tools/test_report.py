"""Quick tests of work, span and the critical path (document 02, R-7): python3 tools/test_report.py

SPLITRUN=PATH names the program (default target/bin/splitrun); tests that need it, or the library's archive, are skipped without it."""
import os
import random
import struct
import subprocess
import tempfile
import unittest
import xml.dom.minidom
from pathlib import Path

from test_tape import EXAMPLES, FORKED, HERE, LONE, ROOT, SPLITRUN, example, folding_script, needs_splitrun, random_script, tape, text_boxes
from tapelib import chart, clocks, draw, explain, machine, script

ARCHIVE = Path(os.environ.get("SPLITTER_LIB_DIR", ROOT / "target/staticlib")) / "libsplitter.a"
needs_archive = unittest.skipUnless(ARCHIVE.exists(), f"no {ARCHIVE}")


def report(text):
    return clocks.report(machine.run(script.encode(text)).events)


def pair(text):
    """Work and span; None for 22."""
    found = report(text)
    return found and (found.work, found.span)


def fan(children, reads, last):
    """One worker: Main spawns so many children that read so often each, then does what is last."""
    return "start 1 5\nvalues 1\n" + ("0 spawn\n" + "0 read 0\n" * reads + "0 return\n") * children + last


# A script, and its work and span; None is 22.
PAIRS = {
    # Main has not returned, or its span is 0
    LONE: None,
    f"{LONE}0 return\n": None,
    f"{LONE}0 read 0\n": None,
    f"{LONE}1 read 0\n0 read 9\n0 steal 0\n0 fold 3 1\nraw 08 00 00 00 00 00 00 00\n0 return\n": None,
    f"start 2 20{FORKED}1 return\n": None,
    f"start 2 20{FORKED}1 sync\n": None,
    # each step but the return costs 1; refused records nothing, nor what comes after the end
    f"{LONE}0 read 0\n0 return\n": (1, 1),
    f"{LONE}0 read 0\n0 write 0 7\n0 fold sum 1\n0 sync\n0 return\n": (4, 4),
    f"{LONE}1 read 0\n0 read 9\n0 read 0\n0 steal 0\n0 fold 3 1\n0 return\n0 read 0\n0 return\n": (1, 1),
    "start 1 1\nvalues 1\n0 spawn\n1 write 0 7\n0 return\n0 return\n": (1, 1),
    # a chain: nothing can be done beside
    LONE + "0 read 0\n" * 50 + "0 return\n": (50, 50),
    LONE + "0 spawn\n" * 63 + "0 spawn\n" + "0 return\n" * 64: (63, 63),
    LONE + "0 spawn\n0 read 0\n" * 20 + "0 return\n0 sync\n" * 20 + "0 return\n": (60, 60),
    # a fan: the spawns, then one child and the sync; without a sync the return waits
    fan(1, 0, "0 return\n"): (1, 1),
    fan(6, 4, "0 sync\n0 return\n"): (31, 11),
    fan(6, 4, "0 return\n"): (30, 10),
    fan(6, 4, "0 sync\n0 sync\n0 read 0\n0 return\n"): (33, 13),
    fan(6, 0, "0 sync\n0 return\n"): (7, 7),
    # Main's own steps are later than the children's, or as late
    fan(2, 3, "0 read 0\n" * 2 + "0 sync\n0 return\n"): (11, 6),
    fan(2, 3, "0 read 0\n" * 3 + "0 sync\n0 return\n"): (12, 6),
    fan(2, 3, "0 read 0\n" * 4 + "0 sync\n0 return\n"): (13, 7),
    fan(2, 3, "0 read 0\n" * 9 + "0 return\n"): (17, 11),
    # a child's clock begins at its parent's after the spawn
    f"{LONE}0 read 0\n0 read 0\n0 read 0\n0 spawn\n0 return\n0 sync\n0 return\n": (5, 5),
    # an ended child counts at the next sync, not before
    f"{LONE}0 spawn\n" + "0 read 0\n" * 5 + "0 return\n0 spawn\n0 read 0\n0 return\n0 read 0\n0 return\n": (9, 6),
    f"{LONE}0 spawn\n" + "0 read 0\n" * 5 + "0 return\n0 sync\n0 spawn\n0 read 0\n0 return\n0 read 0\n0 return\n": (10, 9),
    # a sync that suspends: the child has three steps, Main one beside
    f"start 2 20{FORKED}1 read 0\n1 sync\n0 read 0\n0 read 0\n0 read 0\n0 return\n0 read 0\n0 return\n": (7, 6),
    f"start 2 20{FORKED}1 read 0\n1 read 0\n1 read 0\n1 sync\n0 read 0\n0 return\n0 return\n": (6, 5),
    # a return that waits: the child goes on; Main's own steps count as well
    f"start 2 20{FORKED}1 return\n0 read 0\n0 read 0\n0 read 0\n0 return\n": (4, 4),
    f"start 2 20{FORKED}1 read 0\n1 read 0\n1 return\n0 read 0\n0 return\n": (4, 3),
    # two of them, up to Main's sync: 1 waits for 1.1, and takes its clock
    f"start 3 20{FORKED}1 sync\n0 spawn\n2 steal 0\n2 return\n0 read 0\n0 read 0\n0 return\n0 return\n": (5, 5),
    # the later of two children that ended, in either order
    f"start 3 20{FORKED}1 spawn\n2 steal 1\n2 sync\n0 read 0\n1 read 0\n1 read 0\n0 return\n1 return\n1 return\n": (6, 5),
    f"start 3 20{FORKED}1 spawn\n2 steal 1\n2 sync\n0 read 0\n1 read 0\n1 read 0\n1 return\n0 return\n0 return\n": (6, 5),
}
EXAMPLE_PAIRS = {"document01": (5, 4), "note_b": (5, 4), "shared": (7, 5), "waits": (8, 7), "search": (203, 40)}
EXAMPLE_PAIRS.update({f"score_{name}": (23, 8) for name in ("one", "two", "four")})


def frames_steps(events):
    """Of each frame its accepted steps, steals left out, in order."""
    steps = {}
    for event in events:
        if not event.refusal and event.kind != "steal":
            steps.setdefault(event.frame, []).append((event.kind, event.low, event.value))
    return steps


def end_clock(steps, name=(), clock=0):
    """A frame's clock at its end, by document 02 from the frames' steps alone: when a sync passes, all children before it have ended."""
    children = []
    for kind, _, _ in steps[name]:
        if kind in ("sync", "return"):
            clock = max([clock, *children])
        clock += kind != "return"
        if kind == "spawn":
            children.append(end_clock(steps, (*name, len(children) + 1), clock))
    return clock


def by_definition(steps):
    return sum(kind != "return" for listed in steps.values() for kind, _, _ in listed), end_clock(steps)


def random_steps(chance, most):
    """Steps of at most so many frames: with syncs or without, some of them empty but for the return."""
    steps, waiting = {}, [()]
    while waiting:
        name, listed, spawned = waiting.pop(chance.randrange(len(waiting))), [], 0
        for _ in range(chance.choice((0, 1, 2, 5, 9))):
            kind = chance.choice(("read", "write", "fold", "sync", "spawn", "spawn"))
            if kind == "spawn":
                if len(steps) + len(waiting) + 2 > most:
                    continue
                spawned += 1
                waiting.append((*name, spawned))
            listed.append((kind, 0, 7 if kind in ("write", "fold") else 0))
        steps[name] = [*listed, ("return", 0, 0)]
    return steps


def scheduled(steps, workers, chance, values=(1,), nodes=1000):
    """The events of a run in which these are the frames' steps, by workers that take turns at random."""
    plain, done, events = machine.Machine(workers, values, nodes), {}, []
    while plain.frames:
        worker = chance.randrange(workers)
        victims = [other for other in range(workers) if len(plain.deques[other]) > 1]
        if plain.deques[worker]:
            name = plain.deques[worker][-1].name
            done[name] = done.get(name, 0) + 1
            kind, low, value = steps[name][done[name] - 1]
        elif victims:
            kind, low, value = "steal", chance.choice(victims), 0
        else:
            continue
        events.append(plain.step(struct.pack("<BBHI", script.KINDS[kind], worker, low, value)))
    return events


def searches():
    """Events of runs that end: random steps, each by three schedules, random tapes and the examples."""
    for seed in range(60):
        chance = random.Random(seed)
        steps = random_steps(chance, chance.choice((2, 5, 20, 60)))
        for workers in (1, 3, 8):
            yield scheduled(steps, workers, chance)
    for text in [folding_script(seed) for seed in range(40)] + [path.read_text() for path in EXAMPLES]:
        yield machine.run(script.encode(text)).events


def with_reports():
    """(events, report) of the searches that have a report."""
    return [(events, found) for events in searches() if (found := clocks.report(events))]


class Pairs(unittest.TestCase):
    def test_pairs(self):
        for text, wanted in PAIRS.items():
            self.assertEqual(pair(text), wanted, text)

    def test_examples(self):
        self.assertEqual({path.stem: pair(path.read_text()) for path in EXAMPLES}, EXAMPLE_PAIRS)

    def test_the_document_s_rule_over_the_frames_steps(self):
        reports = 0
        for events in searches():
            found, wanted = clocks.report(events), by_definition(frames_steps(events))
            self.assertEqual((found.work, found.span) if found else (0, 0), wanted)
            reports += found is not None
        self.assertGreater(reports, 150)

    def test_random_tapes(self):
        """Tapes with refused records, of which some end."""
        ended = 0
        for seed in range(150):
            run = machine.run(script.encode(random_script(seed)))
            found = clocks.report(run.events)
            wanted = by_definition(frames_steps(run.events)) if run.totals else (0, 0)
            self.assertEqual((found.work, found.span) if found else (0, 0), wanted)
            ended += found is not None
        self.assertTrue(10 < ended < 140, ended)

    def test_schedules_give_the_same_pair(self):
        """One and more workers, steals or none; the search of 50 frames too."""
        for seed in range(40):
            chance = random.Random(seed)
            steps = random_steps(chance, 60)
            found = [clocks.report(scheduled(steps, workers, chance)) for workers in (1, 1, 2, 3, 5, 8, 8)]
            self.assertEqual(len({found and (found.work, found.span, found.quotient, found.remainder) for found in found}), 1)
        steps, values = frames_steps(machine.run(example("search")).events), (1, 1, 0, 0, 0, 0, 0, 0)
        for workers in range(1, 9):
            found = clocks.report(scheduled(steps, workers, random.Random(workers), values))
            self.assertEqual((found.work, found.span, found.quotient, found.remainder), (203, 40, 5, 3))

    def test_work_and_span(self):
        for _, found in with_reports():
            self.assertTrue(1 <= found.span <= found.work)
            self.assertEqual(found.work, found.quotient * found.span + found.remainder)
            self.assertTrue(found.quotient >= 1 and 0 <= found.remainder < found.span)

    def test_a_sync_counts_when_it_passes(self):
        run = machine.run(script.encode(f"start 2 20{FORKED}1 sync\n0 read 0\n0 return\n0 read 0\n0 return\n"))
        counting, work = clocks.Clocks(), []
        for record, event in enumerate(run.events, 1):
            counting.take(record, event)
            work.append(counting.work)
        self.assertEqual(work, [1, 1, 1, 2, 3, 4, 4])
        syncs = [(step.record, step.clock) for step in counting.steps if step.kind == "sync"]
        self.assertEqual(syncs, [(5, 3)])

    def test_a_return_counts_when_the_frame_ends(self):
        found = report(f"start 2 20{FORKED}1 return\n0 read 0\n0 return\n")
        self.assertEqual([(step.frame, step.record, step.clock) for step in found.steps if step.kind == "return"], [((1,), 5, 2), ((), 5, 2)])


def seeded_runs():
    """splitrun's inputs: random steps by random schedules, tapes with refused records, searches with folds, the examples and the edges."""
    for seed in range(1500):
        chance = random.Random(seed)
        steps = random_steps(chance, chance.choice((2, 5, 20, 60)))
        workers = chance.randint(1, 8)
        events = scheduled(steps, workers, chance)
        records = b"".join(event.record for event in events)
        if len(events) <= 2048:
            yield struct.pack("<HHII", workers, 1, 1000, 1) + records
    texts = [random_script(seed) for seed in range(1000)] + [folding_script(seed) for seed in range(500)]
    for text in texts + [path.read_text() for path in EXAMPLES] + list(PAIRS):
        yield script.encode(text)


class Library(unittest.TestCase):
    """The library's reports against this tool's clocks and machine, which were written from the documents without the proved definitions."""

    @needs_archive
    def test_reports_of_the_library(self):
        inputs = list(seeded_runs())
        with tempfile.TemporaryDirectory() as folder:
            program = Path(folder) / "report"
            flags = ["-std=c99", "-O1", "-Wall", "-Wextra", "-Werror", f"-I{ROOT / 'host/include'}"]
            subprocess.run(["gcc", *flags, "-o", program, ROOT / "tools/lib/report.c", ARCHIVE], check=True)
            packed = b"".join(struct.pack("<I", len(data)) + data for data in inputs)
            lines = subprocess.run([program], input=packed, capture_output=True, check=True).stdout.decode().splitlines()
        self.assertEqual(len(lines), len(inputs))
        met = {"report": 0, "withheld": 0, "waits": 0, "suspends": 0, "steal": 0, "refused": 0}
        for data, line in zip(inputs, lines):
            run = machine.run(data)
            found = clocks.report(run.events)
            wanted = (0, found.work, found.span, found.quotient, found.remainder) if found else (22, 0, 0, 0, 0)
            answers = [event.answer().replace(" ", ",") for event in run.events]
            self.assertEqual(line.split(), [*map(str, wanted), *answers])
            met["report" if found else "withheld"] += 1
            if found:
                met["waits"] += any(event.kind == "return" and not event.refusal and event.number == 4 for event in run.events)
                met["suspends"] += any(event.kind == "sync" and not event.refusal and event.number == 1 for event in run.events)
                met["steal"] += any(event.kind == "steal" and not event.refusal for event in run.events)
                met["refused"] += any(event.refusal for event in run.events)
        for what, times in met.items():
            self.assertGreater(times, 100, what)
        print(f"reports of the library against the tape tool: {len(lines)} runs, {met}")


class Paths(unittest.TestCase):
    def test_the_path_is_a_chain_as_long_as_the_span(self):
        kinds = set()
        for events, found in with_reports():
            path, place, steps = found.path(), {}, frames_steps(events)
            for step in found.steps:  # a frame's steps are counted in their order
                place.setdefault(step.frame, []).append(step)
            self.assertEqual({name: [step.kind for step in listed] for name, listed in place.items()}, {n: [k[0] for k in s] for n, s in steps.items()})
            self.assertEqual(sum(step.kind != "return" for step in path), found.span)
            self.assertEqual((path[0].frame, path[0] is place[()][0], path[-1] is place[()][-1]), ((), True, True))
            for one, other in zip(path, path[1:]):
                kinds.add(self.follows(one, other, place))
                self.assertEqual(other.clock, one.clock + (other.kind != "return"))
                self.assertLessEqual(one.record, other.record)
        self.assertEqual(kinds, {"next", "child", "parent"})

    def follows(self, one, other, place):
        """How a step of the path depends on the one before it."""
        at = place[other.frame].index(other)
        if one.frame == other.frame:
            self.assertIs(place[one.frame][at - 1], one)
            return "next"
        if other.frame[:-1] == one.frame and one.kind == "spawn":
            spawns = [step for step in place[one.frame] if step.kind == "spawn"]
            self.assertTrue(at == 0 and spawns[other.frame[-1] - 1] is one)
            return "child"
        self.assertEqual((one.kind, one.frame[:-1]), ("return", other.frame))
        self.assertIn(other.kind, ("sync", "return"))
        self.assertGreater(one.clock, place[other.frame][at - 1].clock)
        return "parent"

    def test_the_search(self):
        path = report((HERE / "examples/search.tape").read_text()).path()
        frames = [step.frame for step in path]
        turns = [frames[0]] + [b for a, b in zip(frames, frames[1:]) if a != b]
        names = [machine.name_text(name) for name in turns]
        self.assertEqual(names, ["Main", "2", "2.2", "2^3", "2.2", "2", "Main", "5", "5.2", "5.2.2", "5.2", "5", "Main"])

    def test_the_whereabouts_are_those_of_the_machine(self):
        for seed in range(30):
            chance = random.Random(seed)
            events = scheduled(random_steps(chance, 40), 5, chance)
            found = clocks.report(events)
            if not found:
                continue
            track, plain = clocks.track(events, found.path()), machine.Machine(5, [1], 1000)
            self.assertEqual(len(track), len(events))  # Main's return is the last record
            for record, here in enumerate(track):
                if record:
                    plain.step(events[record - 1].record)
                frame, deque = plain.frames[here.frame], plain.deques[here.worker]
                self.assertEqual(frame.suspended, frame not in deque)
                self.assertTrue(not here.runs or deque[-1] is frame)

    def test_a_clock_still_to_be_taken_does_not_run(self):
        """Frame 1 ends long before Main's sync, which takes its clock."""
        text = f"{LONE}0 spawn\n0 read 0\n0 read 0\n0 read 0\n0 return\n0 read 0\n0 sync\n0 return\n"
        run = machine.run(script.encode(text))
        track = clocks.track(run.events, clocks.report(run.events).path())
        self.assertEqual([(here.frame, here.runs) for here in track], [((), True), *[((1,), True)] * 4, *[((), False)] * 2, ((), True)])


def words_of(svg):
    return [box[4] for box in text_boxes(svg)]


def orange(svg, tag):
    """How many shapes of a kind are in the critical path's colour."""
    shapes = xml.dom.minidom.parseString(svg).getElementsByTagName(tag)
    return sum(draw.ORANGE in (shape.getAttribute("fill"), shape.getAttribute("stroke")) for shape in shapes)


class Pictures(unittest.TestCase):
    def test_the_path_is_marked_with_its_clocks(self):
        for path in EXAMPLES:
            run = machine.run(script.encode(path.read_text()))
            found, svg = clocks.report(run.events), draw.picture(run)
            marked = [node.firstChild.data for node in xml.dom.minidom.parseString(svg).getElementsByTagName("text")
                      if node.getAttribute("fill") == draw.ORANGE and node.getAttribute("font-weight")]  # fmt: skip
            self.assertEqual(marked, [*map(str, range(1, found.span + 1)), f"span {found.span}"])
            self.assertIn(explain.report_words(found), words_of(svg))
            self.assertEqual(orange(svg, "circle"), 2)

    def test_no_path_without_a_report(self):
        for text in (LONE, f"{LONE}0 return\n", f"{LONE}0 read 0\n", f"start 2 20{FORKED}1 read 0\n1 return\n", f"start 2 20{FORKED}1 sync\n"):
            svg = draw.picture(machine.run(script.encode(text)))
            self.assertNotIn(draw.ORANGE, svg)
            self.assertFalse([words for words in words_of(svg) if "path" in words or "span" in words])

    def test_a_part_has_its_part_of_the_path(self):
        run = machine.run(example("waits"))
        clock = lambda first, last: [n for n in words_of(draw.picture(run, True, first, last)) if n in ("4", "5", "6", "7", "span 7")]  # noqa: E731
        self.assertEqual(clock(12, 14), ["4", "5", "6"])
        self.assertEqual([n for n in clock(19, 20) if n != "4"], ["span 7"])
        self.assertNotIn(draw.ORANGE, draw.picture(run, True, 21, 21))
        for first in range(1, 22):
            for last in range(first, 22):
                svg = draw.picture(run, True, first, last)
                self.assertEqual(orange(svg, "circle"), (first == 1) + (first <= 20 <= last))

    def test_along_the_clock(self):
        for events, found in with_reports()[::3]:
            run = machine.Run([], events)
            svg = chart.picture(run, found)
            self.assertEqual(orange(svg, "rect"), 2 * found.span)  # in the frames' lines and in the piles
            cells = [shape for shape in xml.dom.minidom.parseString(svg).getElementsByTagName("rect") if shape.getAttribute("fill") == chart.PALE]
            in_legend = len({step.kind for step in found.steps} - {"return"}) if chart.WIDE / found.span >= chart.SIGNS else 1
            self.assertEqual(len(cells), 2 * (found.work - found.span) + in_legend)
            self.assertIn(f"critical path: {found.span} of {explain.count_words(found.work, 'step')}", words_of(svg))

    def test_no_line_crosses_a_frame(self):
        for events, found in with_reports():
            drawing = chart.Chart(machine.Run([], events), found)
            begin = {name: listed[0].before.clock if listed[0].before else 0 for name, listed in drawing.steps.items()}
            for step in (step for step in found.steps if step.before and step.before.frame != step.frame):
                ends = sorted((drawing.y[step.frame], drawing.y[step.before.frame]))
                for name, y in drawing.y.items():
                    if ends[0] < y < ends[1]:
                        self.assertFalse(begin[name] < step.before.clock < drawing.steps[name][-1].clock)

    def test_no_text_lies_on_another(self):
        for events, found in with_reports()[::5]:
            svg = chart.picture(machine.Run([], events), found)
            boxes = list(text_boxes(svg))
            for at, a in enumerate(boxes):
                for b in boxes[at + 1 :]:
                    self.assertTrue(a[2] <= b[0] or b[2] <= a[0] or a[3] <= b[1] or b[3] <= a[1], (a, b))

    def test_long_spans(self):
        for reads in (1, 60, 200, 2000):
            run = machine.run(script.encode(LONE + "0 read 0\n" * reads + "0 return\n"))
            svg = chart.picture(run, clocks.report(run.events))
            self.assertIn(f"work {reads}, span {reads}, parallelism 1 remainder 0", " ".join(words_of(svg)))


class Commands(unittest.TestCase):
    def test_the_report(self):
        done = tape("report", HERE / "examples/search.tape")
        busy = "At most 5 cores can be kept busy: on average no schedule has more than 5 3/40 at work."
        self.assertEqual((done.returncode, done.stderr), (0, b""))
        self.assertEqual(done.stdout.decode(), f"work 203\nspan 40\nparallelism 5 remainder 3\n{busy}\n")
        done = tape("report", "-", given=f"{LONE}0 read 0\n0 return\n".encode())
        self.assertTrue(done.stdout.endswith(b"At most 1 core can be kept busy: on average no schedule has more than 1 at work.\n"))

    def test_refused_by_22(self):
        for text, why in ((f"{LONE}0 return\n", "the span is 0"), (f"{LONE}0 read 0\n", "Main has not returned"), (f"start 2 20{FORKED}1 return\n", "Main has not returned")):
            done = tape("report", "-", given=text.encode())
            self.assertEqual((done.returncode, done.stdout), (1, b""))
            self.assertEqual(done.stderr.decode(), f"tape.py: -: no report, refused 22: Main has not returned or the span is 0. Here {why}.\n")

    def test_what_cannot_be_done(self):
        for text, words in (
            ("start 9 9\nvalues 1\n", "no report: the call is refused whole, number 2: At a start, there are 0 or more than 8 workers."),
            ("start 1 9\nvalues 1\nraw 01\n", "no report: the call is refused whole, number 4: "),
            ("start 1 1025\nvalues 1\n", "splitrun would print unfit: line 1: 1,025 nodes, and at most 1,024 fit"),
            ("start 1 9\nvalues 1\n0 fly\n", "line 3: 'fly' is no step"),
            ("", "line 1: the script is empty"),
        ):
            done = tape("report", "-", given=text.encode())
            self.assertEqual((done.returncode, done.stdout, done.stderr.count(b"\n")), (2, b"", 1))
            self.assertTrue(done.stderr.decode().startswith(f"tape.py: -: {words}"), done.stderr)
        self.assertEqual(tape("report", "/nowhere/x").returncode, 2)
        self.assertEqual(tape("report").returncode, 2)

    @needs_splitrun
    def test_drawn_along_the_clock(self):
        draws = ["draw", "-", "--clock", "--splitrun", SPLITRUN]
        done = tape(*draws, given=(HERE / "examples/waits.tape").read_bytes())
        self.assertEqual((done.returncode, done.stderr), (0, b""))
        self.assertIn(b"6 frames along the clock: work 8, span 7, parallelism 1 remainder 1", done.stdout)
        done = tape(*draws, given=f"{LONE}0 read 0\n".encode())
        self.assertEqual((done.returncode, done.stdout), (1, b""))
        self.assertIn(b"no report, refused 22: ", done.stderr)
        done = tape(*draws, "--to", "1", given=f"{LONE}0 read 0\n0 return\n".encode())
        self.assertEqual((done.returncode, done.stdout), (2, b""))
        self.assertIn(b"--from and --to cannot be with it", done.stderr)


class Documents(unittest.TestCase):
    def test_the_page_shows_what_the_tool_prints(self):
        page = (ROOT / "docs/TAPES.md").read_text()
        for name in ("search", "score_one"):
            text = explain.report_text(clocks.report(machine.run(example(name)).events))
            self.assertTrue("".join(f"    {line}\n" for line in text.splitlines()) in page, name)

    def test_the_pictures_are_what_the_tool_draws(self):
        run = machine.run(example("search"))
        for name, svg in (("search_clock", chart.picture(run, clocks.report(run.events))), ("search", draw.picture(run, True, *PART))):
            self.assertEqual((ROOT / f"docs/{name}.svg").read_text(encoding="utf-8"), svg)
        command = "draw tools/examples/search.tape --from {} --to {} > docs/search.svg".format(*PART)
        self.assertTrue(command in (ROOT / "docs/TAPES.md").read_text())


PART = (175, 194)  # the records of docs/search.svg

if __name__ == "__main__":
    unittest.main()
