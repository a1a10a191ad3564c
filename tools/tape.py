#!/usr/bin/env python3
"""Tapes for splitrun: encode, decode, run, draw, report, compare-note-b; saved images: image; logs: audit. See docs/TAPES.md."""
import sys

from tapelib.cli import main

if __name__ == "__main__":
    sys.exit(main(sys.argv[1:]))
