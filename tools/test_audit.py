"""Quick tests of tape.py audit and make_log.py: python3 tools/test_audit.py

SPLITRUN=PATH names the program (default target/bin/splitrun); tests that need it, or the library's archive, are skipped without it."""
import os
import random
import re
import struct
import subprocess
import sys
import tempfile
import unittest
import xml.dom.minidom
from pathlib import Path

HERE = Path(__file__).resolve().parent
ROOT = HERE.parent
sys.path.insert(0, str(HERE))

from tapelib import audit, explain, firmware, log, machine, script, shorten  # noqa: E402

SPLITRUN = os.path.abspath(os.environ.get("SPLITRUN", ROOT / "target/bin/splitrun"))
ARCHIVE = Path(os.environ.get("SPLITTER_LIB_DIR", ROOT / "target/staticlib")) / "libsplitter.a"
PAGE = (ROOT / "docs/TAPES.md").read_text(encoding="utf-8")
HEAD = "start 2 20\nvalues 0 0 0 0\n"
NOTE_B = HEAD + (
    "0 spawn -> 101 1\n1 steal 0 -> 103 0\n1 write 2 1 -> 106 10\n0 read 2 -> 105 0\n1 sync -> 104 1\n"
    "1 read 2 -> 10 0\n0 return -> 102 2\n0 read 2 -> 105 0\n0 return -> 102 3\n"
)
needs_splitrun = unittest.skipUnless(os.path.exists(SPLITRUN), f"no splitrun at {SPLITRUN}")
needs_archive = unittest.skipUnless(ARCHIVE.exists(), f"no {ARCHIVE}")


def run(*words, given=None, **names):
    return subprocess.run([sys.executable, *map(str, words)], input=given, capture_output=True, cwd=ROOT, env={**os.environ, **names})


def audited(data, *options, **names):
    """(exit code, standard output, standard error) of an audit of these bytes or this text."""
    data = data.encode() if isinstance(data, str) else data
    done = run(HERE / "tape.py", "audit", "-", "--splitrun", SPLITRUN, *options, given=data, **names)
    return done.returncode, done.stdout.decode(), done.stderr.decode()


def by_machine(given, note_b=False):
    """The plain machine's audit of a log, without splitrun."""
    own = audit.events_of(given)
    return audit.Audit(given, "the machine", [audit.answer(event) for event in own], own, audit.events_of(given, note_b=True))


def full_log(text, note_b):
    """The log of a script, with every answer of the plain machine under a rule."""
    given = log.from_text(text)
    pairs = [(event.record, *audit.answer(event)) for event in audit.events_of(given, note_b)]
    return log.Log(given.start, [log.entry(*pair) for pair in pairs])


def plain_words(given):
    return [(item.record, item.first, item.second) for item in given.entries]


class Forms(unittest.TestCase):
    def test_text_and_bytes_are_the_same_log(self):
        folding = [firmware.folding_search(seed, 60, True)[0] for seed in range(10)]
        for given in [log.from_text(NOTE_B)] + [firmware.search(seed, 60, True) for seed in range(10)] + folding:
            for other in (log.read(log.to_bytes(given)), log.read(log.to_text(given).encode())):
                self.assertEqual((other.start, plain_words(other)), (given.start, plain_words(given)))

    def test_the_bytes(self):
        data = log.to_bytes(log.from_text(HEAD + "1 write 4 99 -> 106 -\n"))
        self.assertEqual(data[:8].hex(), "0200040014000000")
        self.assertEqual(data[24:].hex(), "06010400630000006a000000ffffffff")

    def test_not_recorded(self):
        text = HEAD + "0 write 0 1 -> 106 -\n0 spawn -> 101 4294967295\n0 read 0\n0 read 0 -> 105 4294967295\n0 sync -> 4294967295 7\n"
        items = log.from_text(text).entries
        self.assertEqual([(item.first, item.second) for item in items], [(106, None), (101, None), (None, None), (105, 0xFFFFFFFF), (None, None)])

    def test_any_bytes_are_read_or_refused(self):
        chance, data = random.Random(1), log.to_bytes(log.from_text(NOTE_B))
        inputs = [data[:length] for length in range(len(data))] + [NOTE_B.encode()[:length] for length in range(len(NOTE_B))]
        inputs += [bytes(chance.choice(b"\0\1\2\xff ->05\nrst") for _ in range(length)) for length in range(300)]
        for given in inputs:
            try:
                log.read(given)
            except (log.LogError, script.ScriptError) as error:
                self.assertTrue(str(error))

    def test_line_ends_comments_and_arrows_without_blanks(self):
        given = log.read(b"\xef\xbb\xbfstart 2 20\r\nvalues 1\r\n\r\n# nothing\r\n0 read 0->105 1 # here\r\nraw 07 00 00 00 00 00 00 00 -> 7 0\r\n")
        self.assertEqual([(item.first, item.second, item.line) for item in given.entries], [(105, 1, 5), (7, 0, 6)])


class Refused(unittest.TestCase):
    def refused(self, data, words, *options, **names):
        code, out, err = audited(data, *options, **names)
        self.assertEqual((code, out), (2, ""))
        self.assertIn(words, err)
        self.assertTrue(err.startswith("tape.py: ") and err.count("\n") == 1, err)

    def test_binary_logs(self):
        head = struct.pack("<HHII", 2, 1, 20, 7)
        self.refused(b"", "the log is empty")
        self.refused(b"\2\0", "the header is cut short: 2 of 8 bytes")
        self.refused(head[:-1], "2 workers and 1 splitters, little-endian: 12 bytes")
        self.refused(struct.pack(">HHII", 2, 1, 20, 7), "512 workers and 256 splitters, little-endian")
        self.refused(head + bytes(37), "the last entry has 5 of 16 bytes; the whole ones end at byte 44")
        self.refused(head, "no answer is recorded")
        self.refused(b"\xff" * 64, "neither a text nor a binary log")
        self.refused(struct.pack("<HHII", 9, 1, 20, 7) + bytes(16), "9 workers, 1 splitters, 20 nodes) is refused by 2")
        self.refused(struct.pack("<HHII", 2, 1, 16385, 7) + bytes(16), "is refused by 3")

    def test_texts(self):
        for line, words in (
            ("0 spawn -> 101", "line 3: after -> come two answer words, and here are 1"),
            ("0 spawn -> 101 1 1", "here are 3"),
            ("0 spawn -> x 1", "line 3: the first answer word must be a decimal number, not 'x'"),
            ("0 spawn -> 101 4294967296", "is more than 4294967295"),
            ("0 read 0 -> 105 -", "a read's value must be recorded"),
            ("-> 101 1", "line 3: an answer without a step"),
            ("0 jump -> 101 1", "'jump' is no step"),
            ("raw 01 00 -> 7 0", "a raw step has 8 bytes, not 2"),
            ("0 spawn", "no answer is recorded"),
        ):
            self.refused(HEAD + line + "\n", words)
        self.refused("start 2 20 -> 1 1\nvalues 0\n", "line 1: an answer without a step")
        self.refused("0 spawn -> 101 1\n", "line 1: the first line must be: start WORKERS NODES")

    def test_files_and_programs(self):
        for words, said in ((["/nowhere"], "No such file"), ([HERE], "Is a directory"), (["-", "--splitrun", "/nowhere"], "splitrun cannot be run")):
            done = run(HERE / "tape.py", "audit", *words, given=NOTE_B.encode())
            self.assertEqual(done.returncode, 2)
            self.assertIn(said, done.stderr.decode())
        self.refused(NOTE_B, "make lib first", "--library", SPLITTER_LIB_DIR="/nowhere")

    def test_make_log(self):
        done = run(HERE / "make_log.py", "right", "--seed", "3", "--folds")
        made, totals = firmware.folding_search(3, 300, False)
        self.assertEqual((done.returncode, done.stdout), (0, log.to_bytes(made)))
        self.assertEqual(done.stderr.decode(), f"make_log.py: the firmware's totals: {explain.total_words(totals)}\n")
        for words in (["wrong"], ["right", "--seed", "x"], ["right", "--steps", "0"], ["right", "--splitters", "257"], ["right", "--nodes", "14"]):
            done = run(HERE / "make_log.py", *words)
            self.assertEqual((done.returncode, done.stdout), (2, b""))
            self.assertIn(b"make_log.py: ", done.stderr)


class Searches(unittest.TestCase):
    """The simulated firmware, whose answers come from another program than the plain machine."""

    def test_the_right_rule_is_clean_and_note_b_is_found(self):
        shown = 0
        for seed in range(1, 31):
            right, wrong = firmware.search(seed, 300, False), firmware.search(seed, 300, True)
            self.assertEqual(right.records(), wrong.records())
            self.assertEqual(by_machine(right).differing, [])
            found = by_machine(wrong)
            other = [at for at, pair in enumerate(zip(right.entries, wrong.entries)) if pair[0] != pair[1]]
            self.assertEqual((found.differing, found.against_b), (other, []))
            self.assertEqual(by_machine(right).against_b, other)
            shown += bool(other)
        self.assertGreater(shown, 15)

    def test_folds(self):
        """The firmware has no views: its totals come from its folds in order. They do not depend on the rule; another order gives others."""
        orders = 0
        for seed in range(1, 31):
            (right, totals), (wrong, same) = (firmware.folding_search(seed, 300, note_b) for note_b in (False, True))
            self.assertEqual((right.records(), totals), (wrong.records(), same))
            self.assertEqual((by_machine(right).differing, by_machine(wrong).against_b), ([], []))
            self.assertEqual(audit.plain_totals(audit.events_of(right)), totals)
            in_time = [item.record for item in right.entries if item.record[0] == 7]
            view = machine.IDENTITY
            for _, _, reducer, value in (struct.unpack("<BBHI", record) for record in in_time):
                view = machine.join(view, machine.folded(reducer, value))
            self.assertEqual(view[:2], totals[:2])
            orders += view != totals
        self.assertGreater(orders, 20)

    def test_short_scripts_show_the_same_difference(self):
        for seed in range(1, 31):
            found = by_machine(firmware.search(seed, 300, True))
            if not found.differing:
                continue
            at = found.differing[0]
            nodes, records = shorten.short_records(found.log, found.own, at)
            text = shorten.script_of("x", found.log, nodes, records, found.own[at].number)
            own, other = machine.run(script.encode(text)), machine.run(script.encode(text), note_b=True)
            self.assertEqual((own.events[-1].number, other.events[-1].number), (found.own[at].number, found.log.entries[at].second))
            self.assertFalse(any(event.refusal for event in own.events))
            self.assertLess(len(records), 40)

    def test_a_large_pool_is_cut_to_splitrun_s(self):
        found = by_machine(firmware.search(2, 300, True, nodes=16384))
        self.assertEqual(shorten.short_records(found.log, found.own, found.differing[0])[0], 1024)


@needs_splitrun
class Reports(unittest.TestCase):
    def test_note_b(self):
        code, out, err = audited(NOTE_B)
        self.assertEqual((code, err), (1, ""))
        for words in (
            "-: 2 workers, 4 splitters, 20 nodes; 9 steps, 9 answers; replayed by splitrun\nrecord 8 (line 10) differs: 0 read 2\n",
            "the log has       105 0\n    splitrun gives    105 1\n    note B gives      105 0\n",
            "On worker 0: Main reads splitter 2: 1.",
            "The right 1 was written by Main at record 3, on worker 1.\nNote B's 0 is an initial value.\n",
            "Main waited at its sync from record 5, on worker 1,\nand was resumed by worker 0 at record 7, after its last child frame 1 ended.\n",
            "as note B: a resumed frame took its last child's values.\n",
            "answers that differ: 1 of 9, 1 of them as note B; note B's rule gives every answer of the log\n",
        ):
            self.assertIn(words, out)

    def test_binary_and_text_have_one_report(self):
        given = firmware.search(88, 300, True)
        text, binary = audited(log.to_text(given)), audited(log.to_bytes(given))
        self.assertEqual((text[0], re.sub(r" \(line \d+\)", "", text[1])), (binary[0], binary[1]))

    def test_clean(self):
        code, out, _ = audited(NOTE_B.replace("0 read 2 -> 105 0\n0 return -> 102 3", "0 read 2 -> 105 1\n0 return -> 102 3"))
        self.assertEqual(code, 0)
        self.assertIn("other answers to 1 of these steps, the first at record 8: the firmware does not follow it", out)
        code, out, _ = audited(HEAD + "0 spawn -> 101 1\n0 read 2 -> 105 0\n")
        self.assertEqual(code, 0)
        self.assertIn("cannot tell whether the firmware has that bug", out)

    def test_a_child_of_the_resumed_frame(self):
        steps = "0 spawn\n1 steal 0\n1 write 2 1\n1 sync\n0 return\n0 spawn\n0 read 2 -> 105 0\n"
        code, out, _ = audited(HEAD + steps)
        self.assertEqual(code, 1)
        self.assertIn("frame 2 has its values from Main.\nMain waited at its sync from record 4, on worker 1,\nand was resumed by worker 0", out)

    def test_the_resumption_that_lost_the_value(self):
        """Main resumes twice; its mark is lost at the first, its second child has the lost view."""
        lost = "0 spawn\n1 steal 0\n1 write 2 1\n1 sync\n0 return\n"
        again = "0 spawn\n1 steal 0\n1 sync\n0 return\n0 read 2 -> 105 0\n"
        self.assertIn("resumed by worker 0 at record 5, after its last child frame 1 ended", audited(HEAD + lost + again)[1])

    def test_a_waiting_child(self):
        steps = "0 spawn\n1 steal 0\n1 write 2 1\n1 sync\n0 spawn\n1 steal 0\n1 return -> 102 4\n0 return -> 102 2\n0 read 2 -> 105 0\n"
        code, out, _ = audited(HEAD + steps)
        self.assertEqual(code, 1)
        self.assertIn("at record 8, after its last child frame 1 ended with frame 1.1.\nas note B", out)

    def test_free_nodes(self):
        """A count of the firmware's own is left out by --no-free, or not recorded."""
        text = log.to_text(full_log(HEAD + "0 spawn\n0 write 3 1\n0 write 0 1\n", False))
        self.assertEqual(audited(text)[0], 0)
        wrong = re.sub(r"-> 106 \d+", "-> 106 999", text)
        code, out, _ = audited(wrong)
        self.assertEqual(code, 1)
        self.assertIn("not as note B.\nOnly the free nodes differ", out)
        self.assertEqual(audited(wrong, "--no-free")[0], 0)
        self.assertEqual(audited(re.sub(r"-> 106 \d+", "-> 106 -", text))[0], 0)

    def test_free_nodes_as_note_b(self):
        """Main shares less with frame 1 after note B's resumption, so a write of Main takes fewer nodes."""
        steps = "0 spawn\n1 steal 0\n0 spawn\n2 steal 0\n2 sync\n0 write 2 5\n0 return\n1 write 0 9\n"
        code, out, _ = audited(log.to_bytes(full_log(HEAD.replace("start 2", "start 3") + steps, True)))
        self.assertEqual(code, 1)
        self.assertIn("the log has       106 8\n    splitrun gives    106 10\n    note B gives      106 8\n", out)
        self.assertIn("resumed by worker 0 at record 7, after its last child frame 1.1 ended.\nas note B", out)

    def test_folds_and_totals(self):
        """The totals of the replay are told, to be compared with the firmware's, if the log has folds and Main has returned."""
        made, totals = firmware.folding_search(3, 300, False)
        words = f"totals, as splitrun gives them: sum {totals[0]}, minimum {totals[1]}, affine map x to {totals[2]} x + {totals[3]}\n"
        code, out, _ = audited(log.to_bytes(made))
        self.assertEqual((code, out.endswith(words)), (0, True), out)
        steps = "0 fold sum 5 -> 107 0\n0 fold 2 65537 -> 107 0\n0 fold 9 1 -> 20 0\n"
        self.assertNotIn("totals", audited(HEAD + steps)[1])
        self.assertIn("sum 5, minimum 4294967295, affine map x to 1 x + 1\n", audited(HEAD + steps + "0 return\n")[1])
        self.assertNotIn("totals", audited(HEAD + "0 return -> 102 3\n")[1])
        code, out, _ = audited(HEAD + "0 fold 9 1 -> 107 0\n")
        self.assertEqual(code, 1)
        self.assertIn("On worker 0: refused 20: The step is a fold and names no reducer.", out)

    def test_a_pool_too_small(self):
        code, out, _ = audited("start 2 3\nvalues 1 2\n0 spawn -> 101 1\n0 write 1 7 -> 106 -\n")
        self.assertEqual(code, 1)
        self.assertIn("If the firmware has more memory than 3 nodes, the log's start must say so.", out)

    def test_the_largest_value_is_compared(self):
        self.assertEqual(audited("start 1 20\nvalues 4294967295\n0 read 0 -> 105 4294967295\n")[0], 0)
        self.assertEqual(audited("start 1 20\nvalues 7\n0 read 0 -> 105 4294967295\n")[0], 1)

    def test_erased_flash_at_the_end(self):
        code, out, _ = audited(log.to_bytes(log.from_text(HEAD + "0 read 2 -> 105 0\n")) + b"\xff" * 64)
        self.assertEqual(code, 0)
        self.assertIn("5 steps, 1 answer; replayed", out)

    def test_steps_that_splitrun_refuses(self):
        text = "0 return -> 102 3\n0 read 0 -> 9 0\n9 sync -> 8 0\nraw 00 00 00 00 00 00 00 00 -> 7 0\n"
        self.assertEqual(audited(HEAD + text)[0], 0)
        code, out, _ = audited(HEAD + text.replace("8 0", "104 0"))
        self.assertEqual(code, 1)
        self.assertIn("On worker 9: refused 8", out)

    def test_pictures(self):
        with tempfile.TemporaryDirectory() as folder:
            for data in (NOTE_B, log.to_bytes(firmware.search(2, 300, True)), HEAD + "9 sync -> 104 0\n"):
                file = Path(folder) / "x.svg"
                self.assertEqual(audited(data, "--draw", file)[0], 1)
                xml.dom.minidom.parse(str(file))
            code, _, err = audited(NOTE_B, "--draw", Path(folder) / "none/x.svg")
            self.assertEqual(code, 2)
            self.assertIn("No such file", err)

    def test_every_picture_of_a_search(self):
        """Windows anywhere: waits that began before them, or end after them."""
        for seed in range(1, 13):
            found = by_machine(firmware.search(seed, 150, False))
            whole = machine.Run([], found.own, 0, found.log.workers, tuple(found.log.values), found.log.nodes)
            for last in range(1, len(found.own) + 1, 7):
                audit.part.picture(whole, max(1, last - 11), last, "x", "y")

    def test_no_short_script(self):
        with tempfile.TemporaryDirectory() as folder:
            code, out, _ = audited(HEAD + "0 spawn -> 101 2\n", "--short", Path(folder) / "x")
            self.assertEqual((code, os.listdir(folder)), (1, []))
        self.assertIn("no short script: it is made for a read that is as note B", out)

    def test_another_program_than_splitrun(self):
        """Not splitrun's lines; splitrun's lines with a wrong answer."""
        lines = "2 4 20\n101 1\n103 0\n106 10\n105 0\n104 1\n10 0\n102 2\n105 1\n102 3\nfree 20\nreduced 0 4294967295 1 0\n"
        for printed, code, words in ((lines.replace("105 1", "x"), 2, "'x': not splitrun's"), ("", 2, "0 lines"),
                                     (lines.replace("reduced 0", "reduced 1"), 1, "totals: splitrun says (1, 4294967295, 1, 0), the plain machine (0,"),
                                     (lines.replace("105 1", "105 7"), 1, "record 8: splitrun says 105 7, the plain machine 105 1")):
            with tempfile.TemporaryDirectory() as folder:
                program = Path(folder) / "other"
                program.write_text(f"#!/bin/sh\ncat >/dev/null\nprintf '{printed}'\n".replace("\n'", "\\n'"))
                program.chmod(0o755)
                got = audited(NOTE_B, "--splitrun", program)
            self.assertEqual(got[0], code, got)
            self.assertIn(words, got[2])


@needs_splitrun
@needs_archive
class Library(unittest.TestCase):
    def test_the_library_gives_splitrun_s_lines(self):
        program = audit.built_replay()
        inputs = [(ROOT / "crates/splitrun/stdin").read_bytes(), b"\2\0\0\0\x14\0\0\0", b"\2\0\1\0\0\0\0\0" + bytes(4)]
        for seed in range(10):
            for given in (firmware.search(seed, 200, False), firmware.folding_search(seed, 200, False)[0]):
                inputs.append(given.start + given.records())
        for data in inputs:
            self.assertEqual(audit.splitrun_lines(program, data), audit.splitrun_lines(SPLITRUN, data))

    def test_one_report(self):
        through = audited(NOTE_B, "--library")
        self.assertIn("replayed by the library", through[1])
        self.assertEqual((through[0], through[1].replace("the library gives ", "splitrun gives    ").replace("the library", "splitrun")), audited(NOTE_B)[:2])

    def test_long_logs_and_large_pools(self):
        for note_b, code, words in ((False, 0, "clean"), (True, 1, "as note B")):
            given = firmware.search(5, 3000, note_b, nodes=16384)
            got, out, _ = audited(log.to_bytes(given))
            self.assertEqual(got, code)
            self.assertIn("16384 nodes; 30", out)
            self.assertIn("replayed by the library", out)
            self.assertIn(words, out)

    def test_cut_short(self):
        for data in (b"", b"\2\0\1\0\x14\0\0\0", (ROOT / "crates/splitrun/stdin").read_bytes()[:-1]):
            done = subprocess.run([audit.built_replay()], input=data, capture_output=True)
            self.assertEqual(done.returncode, 2)
            self.assertIn(b"cut short", done.stderr)


@needs_splitrun
class Page(unittest.TestCase):
    """docs/TAPES.md shows what the tools print."""

    def shown(self, text):
        block = "".join(f"    {line}".rstrip() + "\n" for line in text.splitlines())
        self.assertIn(block, PAGE)

    def test_the_worked_example(self):
        with tempfile.TemporaryDirectory() as folder:
            names = {name: Path(folder) / name for name in ("note-b.log", "right.log", "audit.svg", "note-b.tape")}
            names["note-b.log"].write_bytes(run(HERE / "make_log.py", "note-b", "--seed", 88).stdout)
            names["right.log"].write_bytes(run(HERE / "make_log.py", "right", "--seed", 88).stdout)
            options = ["--splitrun", SPLITRUN, "--draw", names["audit.svg"], "--short", names["note-b.tape"]]
            done = run(HERE / "tape.py", "audit", names["note-b.log"], *options)
            self.assertEqual(done.returncode, 1)
            self.shown(done.stdout.decode().replace(f"{folder}/audit.svg", "docs/audit.svg").replace(f"{folder}/", ""))
            self.shown(names["note-b.tape"].read_text())
            self.assertEqual(names["audit.svg"].read_text(encoding="utf-8"), (ROOT / "docs/audit.svg").read_text(encoding="utf-8"))
            done = run(HERE / "tape.py", "audit", names["right.log"], "--splitrun", SPLITRUN)
            self.assertEqual(done.returncode, 0)
            self.shown(done.stdout.decode())
            drawn = run(HERE / "tape.py", "draw", names["note-b.tape"], "--splitrun", SPLITRUN).stdout
            self.assertEqual(drawn, (ROOT / "docs/audit_short.svg").read_bytes())

    def test_the_other_reports(self):
        self.shown("\n".join(audited(log.to_bytes(firmware.search(1, 300, False)))[1].splitlines()[1:]))
        done = run(HERE / "tape.py", "audit", HERE / "examples/sync.log", "--splitrun", SPLITRUN)
        self.assertEqual(done.returncode, 1)
        self.shown(done.stdout.decode())
        self.shown(audited(log.to_bytes(firmware.folding_search(3, 300, False)[0]))[1].splitlines()[-1])
        quiet = [seed for seed in range(1, 16) if not by_machine(firmware.search(seed, 300, True)).differing]
        self.assertEqual(len(quiet), 5)

    def test_the_lines_in_c(self):
        """The page's functions write a log of note B's example."""
        lines = "\n".join(line[4:] for line in PAGE.split("\n") if line.startswith("    ") or not line)
        functions = lines[lines.index("static uint8_t *put_word") : lines.index("to = log_start(log, 2")]
        calls = "".join(
            f"    to = log_step(to, {item.record[0]}, {item.record[1]}, {item.record[2]}, {item.record[4]}, {item.first}, {item.second});\n"
            for item in log.from_text(NOTE_B).entries
        )
        source = (
            '#include <stdio.h>\n#include "splitter.h"\n' + functions + "\nint main(void) {\n    static uint8_t log[1000];\n"
            "    const uint32_t values[4] = {0, 0, 0, 0};\n    uint8_t *to = log_start(log, 2, 20, values, 4);\n"
            + calls + "    return fwrite(log, 1, (size_t)(to - log), stdout) == (size_t)(to - log) ? 0 : 1;\n}\n"
        )
        with tempfile.TemporaryDirectory() as folder:
            (Path(folder) / "log.c").write_text(source)
            flags = ["-std=c99", "-Wall", "-Wextra", "-Wpedantic", "-Wconversion", "-Werror", "-I", ROOT / "host/include"]
            subprocess.run(["gcc", *flags, "-o", Path(folder) / "log", Path(folder) / "log.c"], check=True)
            data = subprocess.run([Path(folder) / "log"], capture_output=True, check=True).stdout
        self.assertEqual(data, log.to_bytes(log.from_text(NOTE_B)))


if __name__ == "__main__":
    unittest.main()
