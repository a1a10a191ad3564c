"""The commands of tape.py. Exit codes: 0 well; 1 splitrun differs from the plain machine, an expected answer did not come, an
image would be refused, or there is no report; 2 cannot be done."""
import argparse
import os
import subprocess
import sys
from pathlib import Path

from . import chart, clocks, draw, explain, image, machine, script

DEFAULT = str(Path(__file__).resolve().parents[2] / "target/bin/splitrun")
LARGEST_SCRIPT = 64 * 1024 * 1024
MOST_SAID = 20  # expected answers in the message at the end; the table has all


class Trouble(Exception):
    """Something that the user must put right."""


def to_nothing():
    """What is still to be written to standard output goes nowhere."""
    os.dup2(os.open(os.devnull, os.O_WRONLY), sys.stdout.fileno())


def put(text):
    """Text or bytes on standard output. Where its reader has closed the pipe the rest is dropped, and the command goes on."""
    if sys.stdout is None:
        raise Trouble("standard output is closed")
    try:
        sys.stdout.buffer.write(text if isinstance(text, bytes) else text.encode("utf-8", "surrogateescape"))
        sys.stdout.flush()
    except BrokenPipeError:
        to_nothing()
    except OSError as error:
        to_nothing()
        raise Trouble(f"standard output: {error.strerror}") from None


def say(text):
    """A message on standard error, if that is still read."""
    try:
        print(text, file=sys.stderr, flush=True)
    except OSError:
        pass


def read_bytes(path, most):
    """At most this many bytes and one of the file at path (- is standard input)."""
    try:
        if path != "-":
            with open(path, "rb") as file:
                return file.read(most + 1)
        if sys.stdin is None:
            raise Trouble("standard input is closed")
        return sys.stdin.buffer.read(most + 1)
    except (OSError, ValueError) as error:
        raise Trouble(f"{path}: {getattr(error, 'strerror', None) or error}") from None


def parsed_script(path):
    """The script at path (- is standard input)."""
    data = read_bytes(path, LARGEST_SCRIPT)
    if len(data) > LARGEST_SCRIPT:
        raise Trouble(f"{path}: more than {LARGEST_SCRIPT:,} bytes, the most of a script")
    try:
        return script.parse(script.text_of(data))
    except script.ScriptError as error:
        raise Trouble(f"{path}: {error}") from None


def read_script(path):
    """Splitrun's input of the script at path (- is standard input)."""
    return parsed_script(path).data


def unfit_words(parsed):
    """The limits that make splitrun print `unfit`, with the script's lines; empty if it takes the script."""
    words = []
    for place, text in machine.unfit(parsed.data):
        line = f"line {parsed.lines[place]}: " if place < len(parsed.lines) else ""
        words.append(line + text)
    return "; ".join(words)


def fit_script(path):
    """The script at path, refused if splitrun would call its input unfit."""
    parsed = parsed_script(path)
    limits = unfit_words(parsed)
    if limits:
        raise Trouble(f"{path}: splitrun would print unfit: {limits}")
    return parsed


def splitrun_lines(path, data):
    """What splitrun prints, without the line ends; a missing last line end shows as a last line."""
    try:
        done = subprocess.run([path], input=data, capture_output=True, timeout=60)
    except FileNotFoundError:
        raise Trouble(f"splitrun cannot be run: there is no {path}; make run first, or name the program with --splitrun") from None
    except subprocess.TimeoutExpired:
        raise Trouble("splitrun cannot be run: it has not ended after 60 seconds") from None
    except (OSError, ValueError) as error:
        raise Trouble(f"splitrun cannot be run: {path}: {getattr(error, 'strerror', None) or error}") from None
    if done.returncode:
        raise Trouble(f"splitrun ended with code {done.returncode}")
    lines = done.stdout.decode("ascii", "replace").split("\n")
    return lines[:-1] if lines[-1] == "" else lines[:-1] + [lines[-1] + "(no line end)"]


def checked_run(arguments):
    """(the script, the plain machine's run, the explained text, whether splitrun agrees, the expected answers that did not come)."""
    parsed = fit_script(arguments.script)
    run = machine.run(parsed.data)
    printed = splitrun_lines(arguments.splitrun, parsed.data)
    misses = explain.missed(parsed.expects, printed)
    text, alike = explain.explained(parsed.data, run, printed, misses)
    return parsed, run, text, alike, misses


def shout(alike, misses=()):
    """Says loudly that splitrun and the plain machine differ, or that an expected answer did not come; the exit code."""
    bar = "!" * 78
    if not alike:
        say(f"{bar}\n!!! SPLITRUN DIFFERS FROM THE PLAIN MACHINE: one of the two has a bug\n{bar}")
    if misses:
        lines = "".join(f"!!! {miss.words()}\n" for miss in misses[:MOST_SAID])
        more = f"!!! and {len(misses) - MOST_SAID} more\n" if len(misses) > MOST_SAID else ""
        say(f"{bar}\n!!! EXPECTED ANSWERS THAT DID NOT COME: {len(misses)}\n{lines}{more}{bar}")
    return 0 if alike and not misses else 1


def do_encode(arguments):
    parsed = parsed_script(arguments.script)
    put(parsed.data)
    limits = unfit_words(parsed)
    if limits:
        say(f"tape.py: note: splitrun will print unfit: {limits}")
    return 0


def do_decode(_):
    data = read_bytes("-", LARGEST_SCRIPT)
    if len(data) > LARGEST_SCRIPT:
        raise Trouble(f"standard input: more than {LARGEST_SCRIPT:,} bytes")
    put(script.decode(data))
    return 0


def do_run(arguments):
    parsed, _, text, alike, misses = checked_run(arguments)
    if alike:
        text += "\nsplitrun and the plain machine agree on every line\n"
    if parsed.expects:
        text += f"expected answers that came: {len(parsed.expects) - len(misses)} of {len(parsed.expects)}\n"
    put(text)
    return shout(alike, misses)


def window(arguments, records):
    """The first and the last record to draw; a script without records is drawn whole."""
    first = 1 if arguments.first is None else arguments.first
    last = records if arguments.last is None else arguments.last
    if not 1 <= first <= last <= records and (first, last) != (1, records):
        raise Trouble(f"no records {first} to {last} to draw: the script has {explain.count_words(records, 'record')}")
    return first, last


def drawn(arguments, run, alike):
    """The picture of a run whose records were run; None where it would be along the clock and there is no report."""
    if not arguments.clock:
        return draw.picture(run, alike, *window(arguments, len(run.events)))
    report = report_of(arguments.script, run)
    return chart.picture(run, report, alike) if report else None


def do_draw(arguments):
    if arguments.clock and (arguments.first, arguments.last) != (None, None):
        raise Trouble("--clock draws a whole run, so --from and --to cannot be with it")
    _, run, text, alike, misses = checked_run(arguments)
    if run.events is None and alike and not misses:
        raise Trouble(f"nothing to draw: {explain.run_words(run)[-1]}")
    svg = drawn(arguments, run, alike) if run.events is not None else ""
    if svg:
        put(svg)
    if not alike or misses:
        say(text)
    return shout(alike, misses) or (1 if svg is None else 0)


def report_of(path, run):
    """The report of a run whose records were run; None for 22, which it says."""
    report = clocks.report(run.events)
    if report is None:
        why = "the span is 0" if run.totals else "Main has not returned"
        say(f"tape.py: {path}: no report, refused 22: {explain.REFUSED[22]} Here {why}.")
    return report


def do_report(arguments):
    run = machine.run(fit_script(arguments.script).data)
    if run.events is None:
        raise Trouble(f"{arguments.script}: no report: {explain.run_words(run)[-1]}")
    report = report_of(arguments.script, run)
    if report is None:
        return 1
    put(explain.report_text(report))
    return 0


def do_compare(arguments):
    data = fit_script(arguments.script).data
    run = machine.run(data)
    if run.events is None:
        raise Trouble(f"nothing to compare: {explain.run_words(run)[-1]}")
    put(explain.side_by_side(data, run, machine.run(data, note_b=True))[0])
    return 0


def read_image(path):
    """The bytes of the file at path (- is standard input)."""
    data = read_bytes(path, image.LARGEST)
    if not data:
        raise Trouble(f"{path}: empty; an image has at least a block of {image.BLOCK} bytes")
    if len(data) > image.LARGEST:
        largest = image.called_for(256, 16384) * image.BLOCK
        raise Trouble(f"{path}: more than {image.LARGEST} bytes; an image of 256 frame places and 16,384 nodes, the most, has {largest}")
    return data


def do_image(arguments):
    text, taken = image.described(arguments.image, read_image(arguments.image))
    put(text)
    return 0 if taken else 1


def parser():
    top = argparse.ArgumentParser(prog="tape.py", description="Tapes for splitrun; see docs/TAPES.md.")
    commands = top.add_subparsers(dest="command", required=True)
    for name, action, words in (
        ("encode", do_encode, "a script to splitrun's input, on standard output"),
        ("decode", do_decode, "splitrun's input, from standard input, to a script"),
        ("run", do_run, "run splitrun on a script and explain each answer"),
        ("draw", do_draw, "run splitrun on a script and draw the run as SVG, with its critical path"),
        ("report", do_report, "work, span and parallelism of a script's run: how many cores it can keep busy"),
        ("compare-note-b", do_compare, "a script by document 01's rule and by note B's"),
        ("image", do_image, "a saved image in words, and whether a reading would take it"),
    ):
        command = commands.add_parser(name, help=words, description=words)
        command.set_defaults(action=action)
        if name == "image":
            command.add_argument("image", help="the image's file, - for standard input")
        elif name != "decode":
            command.add_argument("script", help="the script's file, - for standard input")
        if name in ("run", "draw"):
            command.add_argument("--splitrun", default=DEFAULT, help="the program (default target/bin/splitrun of this repository)")
        if name == "draw":
            command.add_argument("--from", dest="first", type=int, metavar="RECORD", help="the first record to draw (default 1)")
            command.add_argument("--to", dest="last", type=int, metavar="RECORD", help="the last record to draw (default the last)")
            command.add_argument("--clock", action="store_true", help="draw the frames along their clocks, not the workers along the records")
    from . import audit  # here, for it imports this module

    audit.add_command(commands)
    return top


def parsed_words(words):
    try:
        return parser().parse_args(words)
    except SystemExit:
        put("")
        raise


def main(words):
    try:
        arguments = parsed_words(words)
        return arguments.action(arguments)
    except Trouble as error:
        say(f"tape.py: {error}")
        return 2
    except KeyboardInterrupt:
        say("tape.py: interrupted")
        return 2
