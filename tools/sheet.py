#!/usr/bin/env python3
"""Sheets for people: write one from a text, show one as text, its layers in quarter waves, one for programs of edition 1, the losses surface by surface, a whole band. See docs/SHEETS.md."""

import argparse
import re
import shlex
import struct
import subprocess
import sys
from pathlib import Path

ROOT = Path(__file__).resolve().parent.parent
sys.path.insert(0, str(ROOT / "python"))
try:
    from dihkelu import LibraryMissing, explain, files, reports, text
    from dihkelu.refusals import BY_NUMBER, Refused
    from dihkelu.words import Wrong, counted
except (ImportError, OSError) as error:
    sys.exit(f"sheet.py: the package dihkelu cannot be loaded: {error}")

VERSION = "1.6 (sheets of editions 1 and 2)"
STATE = re.compile(r"([0-9]+) ([TR]) ([0-9A-F]{16}) ([0-9A-F]{16})")


# ---- another program that gives the powers

def said_by(program, data):
    """The lines that a program prints for a sheet, without the last line's end; train in C has status 1 where it refuses."""
    name = " ".join(program)
    try:
        done = subprocess.run(program, input=data, capture_output=True, check=False)
    except (OSError, ValueError, IndexError) as error:
        raise Wrong(f"the program '{name}' cannot be run: {getattr(error, 'strerror', None) or error}") from None
    output = done.stdout.decode("ascii", "replace").split("\n")
    if done.returncode not in (0, 1) or done.returncode and not output[0].startswith("refused ") or len(output) < 2 or output[-1]:
        said = done.stderr.decode("utf-8", "replace").strip() or f"status {done.returncode}, {counted(len(done.stdout), 'byte')} printed"
        raise Wrong(f"{name} gave no answer: {said}")
    return output[:-1]


def powers_by(program, made):
    """s and p after each surface, by a program such as `train`."""
    data = made.sheet.to_bytes()
    output = said_by(program, data)
    refused = re.fullmatch(r"refused ([0-9]+) ([0-9]+)", output[0])
    if refused:
        number, place = int(refused[1]), int(refused[2])
        refusal = BY_NUMBER.get(number, Refused)(number, place)
        raise explain.Turned(refusal, explain.sentence(refusal, data, made))
    lines = [STATE.fullmatch(line) for line in output[:-1]]
    total = re.fullmatch(r"sum ([0-9A-F]{16})", output[-1])
    if not total or None in lines or len(lines) != len(made.sheet.surfaces):
        raise Wrong(f"{' '.join(program)} gave no answer: it printed something else than a train's lines")
    return [(bits(line[3]), bits(line[4])) for line in lines]


def bits(digits):
    return struct.unpack(">d", bytes.fromhex(digits))[0]


# ---- a band's picture, without matplotlib

def drawing(lines, each, mean):
    """An SVG: s and p of each line over its wavelength, the weights as bars, the band's means as dashed lines."""
    low, high = min(line[0] for line in lines), max(line[0] for line in lines)
    middle, span = (low + high) / 2, max(high - low, 1.0) * 1.1
    left, top, width, height = 60, 20, 640, 320

    def across(wavelength):
        return left + width * (0.5 + (wavelength - middle) / span)

    def up(power):
        return top + height * (1 - power)

    parts = [f'<svg xmlns="http://www.w3.org/2000/svg" width="{left + width + 90}" height="{top + height + 50}" font-family="sans-serif" font-size="12">',
             '<rect width="100%" height="100%" fill="white"/>']
    for tick in range(6):
        y = up(tick / 5)
        parts.append(f'<path d="M{left} {y:.1f}H{left + width}" stroke="#ddd"/><text x="{left - 8}" y="{y + 4:.1f}" text-anchor="end">{tick / 5:.1f}</text>')
    for tick in range(5):
        wavelength = middle + span * (tick / 4 - 0.5)
        parts.append(f'<text x="{across(wavelength):.1f}" y="{top + height + 18}" text-anchor="middle">{wavelength:.4g}</text>')
    parts.append(f'<text x="{left + width / 2}" y="{top + height + 38}" text-anchor="middle">wavelength, nm</text>')
    heaviest = max(weight for _, weight, _ in lines)
    for wavelength, weight, _ in lines:
        tall = height * 0.25 * weight / heaviest
        parts.append(f'<rect x="{across(wavelength) - 2:.1f}" y="{top + height - tall:.1f}" width="4" height="{tall:.1f}" fill="#ccc"/>')
    for power, (name, colour) in enumerate([("s", "#06c"), ("p", "#c30")]):
        points = sorted((wavelength, one[power]) for (wavelength, _, _), one in zip(lines, each))
        path = " ".join(f"{across(x):.1f},{up(y):.1f}" for x, y in points)
        parts.append(f'<polyline points="{path}" fill="none" stroke="{colour}"/>')
        parts.extend(f'<circle cx="{across(x):.1f}" cy="{up(y):.1f}" r="3" fill="{colour}"/>' for x, y in points)
        y = up(mean[power])
        parts.append(f'<path d="M{left} {y:.1f}H{left + width}" stroke="{colour}" stroke-dasharray="6 4"/>')
        parts.append(f'<text x="{left + width + 6}" y="{y + 4 + 14 * power:.1f}" fill="{colour}">{name} {mean[power]:.4f}</text>')
    return ("\n".join(parts) + "\n</svg>\n").encode()


# ---- the commands

def band(made, given):
    lines = text.read_band(files.load(given.lines))
    mean, each = reports.band_means(made, lines), reports.band_each(made, lines)
    if given.plot:
        files.save(given.plot, drawing(lines, each, mean))
    return reports.band_table(lines, each, mean).encode()


def execute(given):
    """What the command prints, and the sheet it is about."""
    command, data = given.command, files.load(given.file)
    as_text = command == "write" or command != "show" and text.is_text(data)
    made = text.read(data).make() if as_text else explain.read_sheet(data)
    if command == "write":
        return made.sheet.to_bytes(), made
    if command == "show":
        return text.write(made.sheet).encode(), made
    if command == "quarter-waves":
        return reports.quarters_table(reports.quarters(made), made.sheet.wavelength_nm).encode(), made
    if command == "band":
        return band(made, given), made
    if command == "edition1":
        return reports.for_edition_1(made), made
    after = powers_by(given.program, made) if given.program else None
    return reports.losses_table(reports.losses(made, after)).encode(), made


def words_of(text):
    try:
        words = shlex.split(text)
    except ValueError as error:
        raise argparse.ArgumentTypeError(f"{error}: {text}") from None
    if not words:
        raise argparse.ArgumentTypeError("no command stands there")
    return words


def arguments():
    parser = argparse.ArgumentParser(prog="sheet.py", description=__doc__)
    parser.add_argument("--version", action="version", version=f"%(prog)s {VERSION}")
    commands = parser.add_subparsers(dest="command", required=True, metavar="COMMAND")
    for command, about in [("write", "writes a text's sheet to standard output"), ("show", "prints a sheet as a text"), ("quarter-waves", "prints the layers of a sheet or text in quarter waves"), ("edition1", "writes the edition 1 sheet of a sheet or text to standard output"), ("losses", "prints what each surface of a sheet or text loses"), ("band", "prints the s and p of a sheet or text at each line of a band, and their weighed means")]:
        one = commands.add_parser(command, help=about, description=about)
        one.add_argument("file", metavar="FILE", help="a file, or - for standard input")
        if command == "losses":
            one.add_argument("--program", type=words_of, metavar="COMMAND", help="what gives the powers in the place of the library, such as 'tools/run train'")
        if command == "band":
            one.add_argument("lines", metavar="LINES", help=f"a file of lines, each {text.BAND_FORM}")
            one.add_argument("--plot", metavar="FILE.svg", help="draws the band there too")
    return parser


def main(words):
    given = arguments().parse_args(words)
    try:
        printed, made = execute(given)
        for kind, sentences in [("note", made.notes), ("hint", reports.hints(made))]:
            for sentence in sentences:
                print(f"{given.file}: {kind}: {sentence}", file=sys.stderr)
        files.emit(printed)
        return 0
    except (Wrong, LibraryMissing) as wrong:
        print(f"{given.file}: {wrong}", file=sys.stderr)
        return 1


if __name__ == "__main__":
    sys.exit(main(sys.argv[1:]))
