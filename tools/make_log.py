#!/usr/bin/env python3
"""Writes the log of a simulated firmware's random search, for tape.py audit. See docs/TAPES.md."""
import argparse
import sys

from tapelib import explain, firmware, log, machine


def bounded(least, most):
    """A whole number from least to most, or a refusal."""

    def read(word):
        if not word.isascii() or not word.isdigit() or not least <= int(word) <= most:
            raise argparse.ArgumentTypeError(f"'{word}' is not a whole number from {least} to {most}")
        return int(word)

    return read


def parser():
    top = argparse.ArgumentParser(prog="make_log.py", description="The log of a simulated firmware's random search; see docs/TAPES.md.")
    top.add_argument("rule", choices=("right", "note-b"), help="what a resumed frame has: its own values, or its last child's")
    top.add_argument("--seed", type=bounded(0, 2**32 - 1), default=1, help="chooses the search (default 1)")
    top.add_argument("--steps", type=bounded(1, 1000000), default=300, help="about as many steps (default 300)")
    top.add_argument("--workers", type=bounded(1, 8), default=3, help="default 3")
    top.add_argument("--splitters", type=bounded(1, 256), default=8, help="default 8")
    top.add_argument("--nodes", type=bounded(1, 16384), default=500, help="of the pool that the log asks for (default 500)")
    top.add_argument("--folds", action="store_true", help="fold into the reducers as well; the totals go to standard error")
    top.add_argument("--text", action="store_true", help="a text, not a binary log")
    return top


def main(words):
    given = parser().parse_args(words)
    least = machine.tree_nodes(given.splitters)
    if given.nodes < least:
        print(f"make_log.py: {given.splitters} splitters need {least} nodes at least, not {given.nodes}", file=sys.stderr)
        return 2
    sizes = (given.seed, given.steps, given.rule == "note-b", given.workers, given.splitters, given.nodes)
    if given.folds:
        made, totals = firmware.folding_search(*sizes)
        print(f"make_log.py: the firmware's totals: {explain.total_words(totals)}", file=sys.stderr)
    else:
        made = firmware.search(*sizes)
    sys.stdout.buffer.write(log.to_text(made).encode() if given.text else log.to_bytes(made))
    return 0


if __name__ == "__main__":
    sys.exit(main(sys.argv[1:]))
