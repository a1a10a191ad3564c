#!/usr/bin/env python3
"""Runs what docs/FORMATS.md shows: its tape writer, its image reader, its tables of lines, nodes, sizes and clocks.

Needs target/bin/splitrun (or SPLITRUN), target/staticlib/libsplitter.a (or that in SPLITTER_LIB_DIR) and gcc; without them the tests that need them are skipped."""
import os
import re
import shutil
import struct
import subprocess
import sys
import tempfile
import unittest
from pathlib import Path

ROOT = Path(__file__).resolve().parent.parent
SPLITRUN = Path(os.environ.get("SPLITRUN", ROOT / "target/bin/splitrun"))
ARCHIVE = Path(os.environ.get("SPLITTER_LIB_DIR", ROOT / "target/staticlib")) / "libsplitter.a"
TEXT = (ROOT / "docs/FORMATS.md").read_text()
WRITER, READER = re.findall(r"```python\n(.*?)```", TEXT, re.S)
WRITE_8 = struct.pack("<BBHI", 6, 0, 0, 8)
NODES, PLACES = [1, 10, 49, 50, 72, 1024, 2048, 16384], [1, 64, 256]

# The example's first five records with a table of 64 places, then a save into the file argv[1]. It prints the nodes after the start, answers, sizes.
PROGRAM = """
#include <stdio.h>
#include "splitter.h"
static struct splitter_state state;
static struct splitter_frame table[64];
static uint32_t pool[40], work[20];
static const uint32_t values[5] = {10, 20, 30, 40, 50}, nodes[] = {%s}, places[] = {%s};
static uint8_t image[SPLITTER_IMAGE_BYTES(64, 20)];
static const struct splitter_lent lent = {&state, table, 64, pool, 40, work, 20};
static void show(uint64_t answer) {
    printf("%%u %%u\\n", splitter_answer_kind(answer), splitter_answer_number(answer));
}
int main(int argc, char **argv) {
    FILE *file = argc == 2 ? fopen(argv[1], "wb") : NULL;
    if (file == NULL || splitter_lent_start(&lent, 2, values, 5) != 0) { return 1; }
    for (unsigned i = 0; i < 40; i += 2) { printf("%%u %%u\\n", pool[i], pool[i + 1]); }
    show(splitter_lent_step(&lent, 257, 0, 0, 0));
    show(splitter_lent_step(&lent, 1, 256, 0, 0));
    show(splitter_lent_step(&lent, 5, 0, 65536, 0));
    show(splitter_lent_step(&lent, 7, 0, 65536, 0));
    show(splitter_lent_step(&lent, 3, 1, 65536, 0));
    show(splitter_spawn(&lent, 0));
    show(splitter_steal(&lent, 1, 0));
    show(splitter_write(&lent, 1, 4, 99));
    show(splitter_read(&lent, 0, 4));
    show(splitter_sync(&lent, 1));
    for (unsigned k = 0; k < sizeof places / sizeof places[0]; k++) {
        for (unsigned i = 0; i < sizeof nodes / sizeof nodes[0]; i++) { printf("%%u\\n", (unsigned)splitter_image_bytes(places[k], nodes[i])); }
    }
    if (splitter_lent_save(&lent, image, sizeof image) != 0) { return 1; }
    return fwrite(image, 1, sizeof image, file) != sizeof image || fclose(file) != 0;
}
""" % (", ".join(map(str, NODES)), ", ".join(map(str, PLACES)))

# Reports of the example's first records, one more each time: the result, the words of a report, four words of clocks.
REPORTS = """
#include <stdio.h>
#include "splitter.h"
static struct splitter_state state;
static struct splitter_frame table[64];
static uint32_t pool[40], work[20], answers[18];
static uint64_t clocks[SPLITTER_CLOCKS_WORDS(64)];
static const uint32_t values[5] = {10, 20, 30, 40, 50};
static const struct splitter_lent lent = {&state, table, 64, pool, 40, work, 20};
int main(void) {
    uint8_t data[100];
    if (fread(data, 1, sizeof data, stdin) != sizeof data) { return 1; }
    for (unsigned records = 1; records <= 9; records++) {
        struct splitter_parallelism report = {0, 0, 0, 0};
        uint32_t result = splitter_lent_report(&lent, 2, values, 5, data + 28, 8 * records, answers, 18, clocks, SPLITTER_CLOCKS_WORDS(64), &report);
        uint64_t words[8] = {report.work, report.span, report.quotient, report.remainder, clocks[0], clocks[1], clocks[2], clocks[3]};
        printf("%u", result);
        for (unsigned i = 0; i < 8; i++) { printf(" %u", (unsigned)words[i]); }
        printf("\\n");
    }
    return 0;
}
"""


def table(before):
    """The rows, without the head, of the first table after these words."""
    rows = []
    for line in TEXT[TEXT.index(before) :].split("\n"):
        if line.startswith("|"):
            rows.append([cell.strip() for cell in line.strip("|").split("|")])
        elif rows:
            break
    return rows[2:]


def number(cell):
    return 0xFFFFFFFF if cell == "none" else int(cell.replace(",", ""))


def run_python(source, *words):
    return subprocess.run([sys.executable, "-c", source, *words], capture_output=True, check=False)


def splitrun(data):
    return subprocess.run([SPLITRUN], input=data, capture_output=True, check=True).stdout.decode()


def edge_records(cell):
    """The records of a row of the edges: none, w, or so many bytes."""
    if cell == "w":
        return WRITE_8
    return bytes(number(cell.split()[0])) if cell else b""


def edge_input(workers, n, nodes, records):
    return struct.pack(f"<HHI{n}I", workers, n, nodes, *range(n)) + records


def whole_nodes(rows):
    """The rows of the nodes, those of several nodes taken apart."""
    for row in rows:
        first, _, last = row[0].partition(" to ")
        for i in range(int(last or first) - int(first) + 1):
            spans = [cell.partition(" to ") for cell in row[1:3]]
            step = [(number(end) - number(start)) // max(1, int(last or first) - int(first)) if end else 0 for start, _, end in spans]
            yield [number(start) + by * i for (start, _, _), by in zip(spans, step)]


class Tapes(unittest.TestCase):
    def test_the_writer_writes_the_example(self):
        self.assertEqual(run_python(WRITER).stdout, (ROOT / "crates/splitrun/stdin").read_bytes())

    def test_the_example_in_bytes_is_the_example(self):
        rows = table("nodes, the values 10 20 30 40 50")
        data = b"".join(bytes.fromhex(row[0].split("`")[1]) for row in rows if row[0])
        whole = (ROOT / "crates/splitrun/stdin").read_bytes()
        self.assertEqual(data, whole[:8] + whole[28:])
        self.assertEqual("".join(row[2].strip("`") + "\n" for row in rows), (ROOT / "crates/splitrun/stdout").read_text())

    @unittest.skipUnless(SPLITRUN.exists(), "no splitrun")
    def test_edges(self):
        rows = table("Edges, each")
        self.assertEqual(len(rows), 10)
        for workers, n, nodes, records, lines in rows:
            wanted = "".join(line + "\n" for line in re.findall(r"`(.*?)`", lines))
            data = edge_input(number(workers), number(n), number(nodes), edge_records(records))
            self.assertEqual(splitrun(data), wanted, lines)


@unittest.skipUnless(ARCHIVE.exists() and shutil.which("gcc"), "no library or no gcc")
class Images(unittest.TestCase):
    @classmethod
    def setUpClass(cls):
        cls.scratch = tempfile.TemporaryDirectory()
        folder = Path(cls.scratch.name)
        (folder / "save.c").write_text(PROGRAM)
        command = ["gcc", "-std=c99", f"-I{ROOT / 'host/include'}", "-o", folder / "save", folder / "save.c", ARCHIVE]
        subprocess.run(command, check=True)
        cls.image = folder / "image"
        cls.said = subprocess.run([folder / "save", cls.image], capture_output=True, check=True).stdout.decode().split("\n")

    @classmethod
    def tearDownClass(cls):
        cls.scratch.cleanup()

    def read(self, data):
        path = Path(self.scratch.name) / "changed"
        path.write_bytes(data)
        return run_python(READER, str(path))

    def test_nodes_after_a_start(self):
        wanted = [" ".join(map(str, node)) for node in whole_nodes(table("After a start with 5 splitters"))]
        self.assertEqual(self.said[:20], wanted)

    def test_links_in_the_table(self):
        rows = [row for row in table("After a start with 5 splitters") if row[3]]
        self.assertEqual([number(row[2]) for row in rows], [number(row[3]) + 65536 * number(row[4]) for row in rows])
        self.assertEqual(len(rows), 6)

    def test_answers(self):
        self.assertEqual(self.said[20:30], ["7 0", "8 0", "15 0", "20 0", "12 0", "101 1", "103 0", "106 5", "105 50", "104 1"])

    def test_sizes(self):
        names = ["nodes"] + [f"bytes, {places} place{'s' if places > 1 else ''}" for places in PLACES]
        rows = [re.search(rf"^\| {name} \|([ 0-9,|]+)\|$", TEXT, re.M)[1].split("|") for name in names]
        nodes, *sizes = ([number(cell.strip()) for cell in row] for row in rows)
        self.assertEqual((nodes, [str(size) for row in sizes for size in row]), (NODES, self.said[30:54]))

    def test_the_reader_prints_what_is_shown(self):
        shown = TEXT[TEXT.index("saved after its fifth record") :].split("\n\n")[1]
        wanted = "".join(line[4:] + "\n" for line in shown.split("\n"))
        self.assertEqual(run_python(READER, str(self.image)).stdout.decode(), wanted)

    def test_the_first_bytes(self):
        begin, then = (bytes.fromhex(dump) for dump in re.search(r"that image begins `([0-9a-f ]+)`[^`]*`([0-9a-f ]+)`", TEXT).groups())
        shown = begin + bytes(4 * 4) + then
        self.assertEqual(self.image.read_bytes()[: len(shown)], shown)

    def test_the_words_of_records_and_folds(self):
        shown = re.search(r"into reducer 2: `([0-9a-f ]+)`", TEXT)[1]
        self.assertEqual(bytes.fromhex(shown), struct.pack("<BBHI", 7, 0, 2, 65536 * 10 + 3))

    def test_the_reader_refuses_other_forms(self):
        block = self.image.read_bytes()[:512]
        for first in (2, 256 + 2, 512 + 2, 768 + 2, 1280 + 2):
            words = [first, *struct.unpack("<126I", block[4:508])]
            said = self.read(struct.pack("<128I", *words, sum(words) % 2**32))
            self.assertEqual((said.returncode, said.stdout), (1, b""))
            self.assertIn("a version that is not read", said.stderr.decode())

    def test_the_reader_refuses_damage(self):
        data = self.image.read_bytes()
        changed = data[:700] + bytes([data[700] ^ 1]) + data[701:]
        for bad, why in [(changed, "block 1: its check"), (data[:-512], "not as many"), (data[:100], "no whole block"), (b"", "no whole block")]:
            said = self.read(bad)
            self.assertEqual((said.returncode, said.stdout), (1, b""))
            self.assertIn(why, said.stderr.decode())

    def test_the_check_by_bytes_is_the_check_by_words(self):
        data = self.image.read_bytes()
        for at in range(0, len(data), 512):
            by_bytes = sum(byte * 256 ** (offset % 4) for offset, byte in enumerate(data[at : at + 508])) % 2**32
            self.assertEqual(by_bytes, struct.unpack_from("<I", data, at + 508)[0])


@unittest.skipUnless(ARCHIVE.exists() and shutil.which("gcc"), "no library or no gcc")
class Reports(unittest.TestCase):
    def test_the_example(self):
        with tempfile.TemporaryDirectory() as folder:
            program = Path(folder) / "report"
            command = ["gcc", "-std=c99", f"-I{ROOT / 'host/include'}", "-o", program, "-x", "c", "-", "-x", "none", ARCHIVE]
            subprocess.run(command, input=REPORTS.encode(), check=True)
            said = subprocess.run([program], input=(ROOT / "crates/splitrun/stdin").read_bytes(), capture_output=True, check=True).stdout.decode()
        rows = [[int(word) for word in line.split()] for line in said.splitlines()]
        shown = table("with any number of workers and whatever was stolen")
        self.assertEqual([[row[5], row[7]] for row in rows], [[number(cell) for cell in row[2:]] for row in shown])
        self.assertEqual([row[0] for row in rows], [22] * 8 + [0])
        report, clocks = re.search(r"So its report is ([0-9 ]+)\.", TEXT)[1], re.search(r"After the example they are ([0-9 ]+),", TEXT)[1]
        self.assertEqual((rows[8][1:5], rows[8][5:]), ([int(word) for word in report.split()], [int(word) for word in clocks.split()]))
        self.assertEqual(number(shown[8][1]), rows[8][1])


if __name__ == "__main__":
    unittest.main()
