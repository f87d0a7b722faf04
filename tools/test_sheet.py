#!/usr/bin/env python3
"""Tests of tools/sheet.py: test_sheet.py [--program COMMAND] [unittest's own words].

The program that the library's powers are held to is tools/run train if crates/train/out/train is there, else the oracle's train. With the
oracle built, its random sheets are read and written too.
"""

import argparse
import io
import math
import shlex
import struct
import subprocess
import sys
import tempfile
import unittest
from pathlib import Path

ROOT = Path(__file__).resolve().parent.parent
TOOL = [sys.executable, str(ROOT / "tools" / "sheet.py")]
ORACLE = ROOT / "oracle" / "target" / "release" / "oracle"
EXAMPLES = ROOT / "examples"
people = None  # the tool, once it is known that there is a program
PROGRAM = None  # a command that gives the powers in the place of the library


def tool(*arguments, given=b""):
    """The tool in this process: status, standard output, standard error; a text is passed as UTF-8."""
    kept = sys.stdin, sys.stdout, sys.stderr
    given = given.encode() if isinstance(given, str) else given
    sys.stdin, sys.stdout, sys.stderr = (io.TextIOWrapper(io.BytesIO(x), "utf-8", write_through=True) for x in (given, b"", b""))
    try:
        try:
            status = people.main(list(arguments))
        except SystemExit as ended:
            status = ended.code
        return status, sys.stdout.buffer.getvalue(), sys.stderr.buffer.getvalue().decode()
    finally:
        sys.stdin, sys.stdout, sys.stderr = kept


def losses(given, program=None):
    return tool("losses", "-", "--program", program or PROGRAM, given=given)


def both_ways(path):
    """The losses by the library, which must be those by the program."""
    found = tool("losses", str(path))
    assert found == tool("losses", str(path), "--program", PROGRAM), path
    return found


def bits(x):
    return struct.pack(">d", x).hex().upper()


# 01's known answer
KNOWN_TEXT = b"beam 500 nm s 0.5 p 0.5\nsurface bare transmitted from 1 to 3 at 0 rad\n"
KNOWN_SHEET = bytes.fromhex(
    "10000001 20000000 407F4000 00000000 3FE00000 00000000 3FE00000 00000000"
    "30000000 3FF00000 00000000 40080000 00000000 00000000 00000000 50000001"
)

BEAM = "beam 500 nm s 0.5 p 0.5\n"
CUSTOM = "surface custom transmitted from 1 to 1.5 at 0 rad\n"
LAYER = "layer 1.38 thickness 99 nm\n"
GLASS = "glass A 1.5046 B 0.0042 C 0 thickness 80 nm\n"

# a text, and what is said of it
BAD_TEXTS = [
    ("", "line 1: the text ends without a beam: beam NUMBER nm|um s NUMBER p NUMBER"),
    ("# nothing\n", "line 2: the text ends without a beam: beam NUMBER nm|um s NUMBER p NUMBER"),
    (BEAM + "\nlens 3\n", "line 3: 'lens' begins no line; a line begins with edition, material, beam, retune, surface, window, front, back, both, layer, glass, stack or #"),
    ("beam 500 nm s half p 0.5\n", "line 1: 'half' is no number"),
    ("beam 500 s 0.5 p 0.5\n", "line 1: there is no unit 's'; there are nm, um"),
    ("beam 500 nm s 0.5\n", "line 1: the line ends where p should stand: beam NUMBER nm|um s NUMBER p NUMBER"),
    (BEAM + BEAM, "line 2: a second beam; the first is in line 1"),
    (CUSTOM, "line 1: a surface before the beam"),
    (BEAM + "surface gold transmitted from 1 to 2 at 0 rad\n", "line 2: there is no coating 'gold'; there are bare, ideal-ar, mgf2, broadband-ar, mirror, custom, ideal-beamsplitter, ideal-mirror"),
    (BEAM + "surface bare refracted from 1 to 2 at 0 rad\n", "line 2: there is no direction 'refracted'; there are transmitted, reflected"),
    (BEAM + "surface bare transmitted from 1 to 2 at 0\n", "line 2: the line ends where deg|rad should stand: surface COATING transmitted|reflected from INDEX to INDEX at NUMBER deg|rad"),
    (BEAM + "surface bare transmitted from 1 to 2 at 0 rad twice\n", "line 2: 'twice' is more than the line takes: surface COATING transmitted|reflected from INDEX to INDEX at NUMBER deg|rad"),
    (BEAM + LAYER, "line 2: a layer stands only under a surface whose coating is custom"),
    (BEAM + "surface mgf2 transmitted from 1 to 2 at 0 rad\n" + LAYER, "line 3: a layer stands only under a surface whose coating is custom"),
    (BEAM + CUSTOM + 17 * LAYER, "line 19: a surface has at most 16 layers; dihkelu evaluate takes 64, of a surface alone"),
    (BEAM + 65 * CUSTOM, "line 66: a sheet has at most 64 surfaces"),
    (BEAM + GLASS, "line 2: a layer stands only under a surface whose coating is custom"),
    (BEAM + CUSTOM + 8 * (LAYER + GLASS) + GLASS, "line 19: a surface has at most 16 layers; dihkelu evaluate takes 64, of a surface alone"),
    (BEAM + CUSTOM + "glass a 1.5 b 0 thickness 80 nm\n", "line 3: 'thickness' stands where 'c' should: glass a NUMBER b NUMBER c NUMBER thickness NUMBER nm|um"),
    ("retune to 1064 nm\n", "line 1: a retune before the beam"),
    (BEAM + "retune to 1064\n", "line 2: the line ends where nm|um should stand: retune to NUMBER nm|um"),
    (BEAM + "retune to 1064 nm\n", "line 3: a surface must follow the retune of line 2"),
    (BEAM + "retune to 1064 nm\nretune to 532 nm\n", "line 3: a surface must follow the retune of line 2"),
    (BEAM + CUSTOM + "retune to 1064 nm\n" + LAYER, "line 4: a surface must follow the retune of line 3"),
    ("edition 1\n" + BEAM + "retune to 1064 nm\n", "line 3: a retune stands only in a sheet of edition 2"),
    ("edition 3\n", "line 1: there is no edition '3'; there are 1, 2"),
    (BEAM + "edition 2\n", "line 2: an edition stands once, before the beam"),
    ("edition 2\nedition 2\n", "line 2: an edition stands once, before the beam"),
    ("edition 1\n" + BEAM + CUSTOM + GLASS, "line 4: a glass stands only in a sheet of edition 2"),
    (BEAM + CUSTOM + "layer 1.38 thickness 99 nm k\n", "line 3: the line ends where NUMBER should stand: layer INDEX thickness NUMBER nm|um [k NUMBER]"),
]

STACK = "stack (HL)^7 H with H 2.3 L 1.46 at 1064 nm\n"
STACK_FORM = "stack TEXT with H INDEX L INDEX [M INDEX] at NUMBER nm|um"

# a stack, and what is said of it
BAD_STACKS = [
    ("stack H^32H with H 2.3 L 1.46 at 550 nm", "refused 9 3: 'H^32H' is no stack: a power is from 1 to 31, and 32 is none, at its byte 3, counted from 0"),
    ("stack (HL with H 2.3 L 1.46 at 550 nm", "refused 9 3: '(HL' stops early"),
    ("stack " + 256 * "H" + " with H 2.3 L 1.46 at 550 nm", "refused 9 255: the stack has 256 bytes; a stack has 255 at most"),
    ("stack H\u00e9 with H 2.3 L 1.46 at 550 nm", "refused 9 1: 'H\u00e9' is no stack: '\u00e9' cannot stand at its byte 1, counted from 0; its letters are H, L and M"),
    ("stack (H^31)^3 with H 2.3 L 1.46 at 550 nm", "refused 10 0: '(H^31)^3' has more than 64 layers"),
    ("stack H with H 0 L 1.46 at 550 nm", "refused 1 0: an index or the design wavelength is not positive and finite"),
    ("stack HM with H 2.3 L 1.46 at 550 nm", f"M stands in 'HM' and has no index: {STACK_FORM}"),
    ("stack with H 2.3 L 1.46 at 550 nm", f"a stack has its text, the word with, and what the letters are: {STACK_FORM}"),
    ("stack H with H 2.3 at 550 nm", f"'at' stands where 'l' should: {STACK_FORM}"),
    ("stack (HL)^8 H with H 2.3 L 1.46 at 550 nm", "a surface has at most 16 layers; with this stack it has 17; dihkelu evaluate takes 64, of a surface alone"),
]

# a text that the gate refuses, and what is said of it
REFUSED = [
    ("beam 99 nm s 2 p 0\n", "refused 6 1: the beam (line 1) is outside the gate: the wavelength is 99, not from 100 to 10000; the s power is 2, not from 0 to 1"),
    (BEAM + "surface bare transmitted from 1 to 5 at 0 rad\n", "refused 6 8: surface 1 (line 2) is outside the gate: the second index is 5, not from 1 to 4"),
    (BEAM + "surface bare transmitted from 1 to 2 at 80 deg\n", "refused 6 8: surface 1 (line 2) is outside the gate: the angle's cosine is 0.17364817766693041, less than 0.25"),
    (BEAM + "surface mgf2 transmitted from 2 to 4 at 45 deg\n", "refused 6 8: surface 1 (line 2) is outside the gate: n_incident times sin is 1.414213562373095, more than 0.875 of the coating's index 1.38, 1.2075"),
    (BEAM + CUSTOM.replace("0 rad", "0.1 rad") + LAYER + "layer 1.38 thickness 99 nm k 0.1\n", "refused 6 22: layer 2 of surface 1 (line 4) is outside the gate: with n 1.38 and k 0.1 it is a metal film, and these are met at angle 0 only, not at 5.72958 deg"),
    (BEAM + CUSTOM + 4 * LAYER + "layer 1.38 thickness 99 nm k 0.1\n", "refused 6 43: layer 5 of surface 1 (line 7) is outside the gate: with n 1.38 and k 0.1 it is a metal film, and these stand on surfaces of at most 4 layers, not of 5"),
    (BEAM + CUSTOM + LAYER + "layer 0.05 thickness 99 nm\n", "refused 6 22: layer 2 of surface 1 (line 4) is outside the gate: with n 0.05 and k 0 it is a metal film, and n of layer 2 is 0.05, not from 0.0625 to 4"),
    (BEAM + CUSTOM + LAYER + "layer 0.5 thickness 500 nm k 4\n", "refused 6 22: layer 2 of surface 1 (line 4) is outside the gate: with n 0.5 and k 4 it is a metal film, and 2 pi thickness / wavelength times k adds up to 25.132741228718345, more than 16"),
    (BEAM + CUSTOM + GLASS + "glass a 1.5 b 1 c 0 thickness 80 nm\n", "refused 6 24: layer 2 of surface 1 (line 4) is outside the gate: its index at 500 nm is 5.5, not from 1 to 4"),
    (BEAM + CUSTOM + GLASS + "glass a 1.5 b 0x7FF0000000000000 c 0 thickness 80 nm\n", "refused 6 24: layer 2 of surface 1 (line 4) is outside the gate: B is not finite; its index at 500 nm is 0x7FF0000000000000, not from 1 to 4"),
]




class Stacks(unittest.TestCase):
    """Stacks in shorthand, read by the proved library."""

    def test_layers(self):
        h, l = f"layer 2.3 thickness {1064 / (4 * 2.3)!r} nm\n", f"layer 1.46 thickness {1064 / (4 * 1.46)!r} nm\n"
        typed = tool("write", "-", given=BEAM + CUSTOM + 7 * (h + l) + h)
        self.assertEqual(tool("write", "-", given=BEAM + CUSTOM + STACK), typed)

    def test_multiplier_power_and_m(self):
        one, two = (f"layer {n} thickness {m * (550 / (4 * n))!r} nm\n" for n, m in [(2.3, 2), (1.8, 1)])
        typed = tool("write", "-", given=BEAM + CUSTOM + 3 * one + two)
        self.assertEqual(tool("write", "-", given=BEAM + CUSTOM + "  Stack 2H^3 M with H 2.3 L 1.46 M 1.8 at 550 nm # a comment\n"), typed)

    def test_beside_layers(self):
        self.assertEqual(tool("write", "-", given=BEAM + CUSTOM + LAYER + STACK)[0], 0)
        self.assertEqual(tool("write", "-", given=BEAM + CUSTOM + 2 * LAYER + STACK)[2], "-: line 5: a surface has at most 16 layers; with this stack it has 17; dihkelu evaluate takes 64, of a surface alone\n")

    def test_bad_stacks(self):
        for line, said in BAD_STACKS:
            with self.subTest(line):
                self.assertEqual(tool("write", "-", given=BEAM + CUSTOM + line + "\n"), (1, b"", f"-: line 3: {said}\n"))

    def test_under_no_custom_surface(self):
        self.assertEqual(tool("write", "-", given=BEAM + STACK)[2], "-: line 2: a layer stands only under a surface whose coating is custom\n")

    def test_the_example(self):
        given = EXAMPLES / "fold_mirror.txt"
        self.assertEqual(both_ways(given), (0, (EXAMPLES / "fold_mirror.losses").read_bytes(), ""))


class Glasses(unittest.TestCase):
    """Glasses that change with colour: kind 6 in a sheet of edition 2."""

    def test_words(self):
        _, sheet, _ = tool("write", "-", given=BEAM + CUSTOM + GLASS + LAYER)
        words = [word for (word,) in struct.iter_unpack(">I", sheet)]
        self.assertEqual((words[0], words[15], words[24], words[31], len(words)), (0x10000002, 0x60000000, 0x40000000, 0x50000001, 32))
        self.assertEqual(struct.unpack(">4d", sheet[64:96]), (1.5046, 0.0042, 0.0, 80.0))

    def test_shown_and_written_again(self):
        for text in [BEAM + CUSTOM + GLASS + LAYER, "edition 2\n" + BEAM + CUSTOM + LAYER, "edition 1\n" + BEAM]:
            _, sheet, _ = tool("write", "-", given=text)
            status, shown, _ = tool("show", "-", given=sheet)
            self.assertEqual((status, b"edition 2" in shown), (0, sheet[3] == 2))
            self.assertEqual(tool("write", "-", given=shown), (0, sheet, ""))

    def test_index(self):
        """At 500 nm u2 is 0.25, so that the index is A + 4 B + 16 C: the losses are those of a LAYER with it."""
        glass = losses(BEAM + CUSTOM + "glass a 1.5 b 0.0625 c 0.015625 thickness 80 nm\n")
        self.assertEqual(glass, losses(BEAM + CUSTOM + "layer 2 thickness 80 nm\n"))
        self.assertEqual(glass[0], 0)
        _, sheet, _ = tool("write", "-", given=BEAM + CUSTOM + "glass a 1.5 b 0.0625 c 0.015625 thickness 80 nm\n")
        self.assertIn(b"  glass a 1.5 b 0.0625 c 0.015625 thickness 80 nm  # n 2\n", tool("show", "-", given=sheet)[1])

    def test_the_examples(self):
        for name in ("glasses", "doubled"):
            given = EXAMPLES / f"{name}.txt"
            self.assertEqual(both_ways(given), (0, (EXAMPLES / f"{name}.losses").read_bytes(), ""))


class Metals(unittest.TestCase):
    """Metal films."""

    def test_the_example(self):
        given = EXAMPLES / "metals.txt"
        self.assertEqual(both_ways(given), (0, (EXAMPLES / "metals.losses").read_bytes(), ""))

    def test_four_layers_at_either_zero(self):
        film = "layer 0.0625 thickness 10 nm k 8\n"
        for angle in ["0 rad", "-0 rad"]:
            status, printed, _ = losses(BEAM + CUSTOM.replace("0 rad", angle) + 4 * film)
            self.assertEqual(status, 0)
            self.assertIn(b"4 layers", printed)


class Band(unittest.TestCase):
    """A whole band, computed by the proved library."""

    def band(self, sheet, lines, *more):
        with tempfile.NamedTemporaryFile("w", suffix=".lines") as file:
            file.write(lines)
            file.flush()
            return tool("band", "-", file.name, *more, given=sheet)

    def test_the_example(self):
        table = (0, (EXAMPLES / "window.band").read_bytes(), "")
        for name in ["window.txt", "window.sheet"]:
            self.assertEqual(tool("band", str(EXAMPLES / name), str(EXAMPLES / "daylight.lines")), table)

    def test_the_known_answer(self):
        status, out, _ = self.band(KNOWN_TEXT, "500 nm weight 7 # one\n\n600 nm weight 1000\n")
        self.assertEqual((status, out.split(b"\n")[-2]), (0, b"band of 2 lines, weights 1007 in all: s 0.375, p 0.375, sum 0.75"))

    def test_plot(self):
        with tempfile.TemporaryDirectory() as directory:
            name = Path(directory) / "band.svg"
            self.assertEqual(self.band(KNOWN_TEXT, "500 nm weight 7\n", "--plot", str(name))[0], 0)
            self.assertTrue(name.read_text().startswith("<svg ") and name.read_text().endswith("</svg>\n"))
            status, _, said = self.band(KNOWN_TEXT, "500 nm weight 7\n", "--plot", str(Path(directory) / "none" / "x.svg"))
            self.assertEqual((status, said.endswith("cannot be written: No such file or directory\n")), (1, True))

    def test_refusals_in_words(self):
        glass = BEAM + CUSTOM + GLASS
        for sheet, lines, said in [
            (KNOWN_TEXT, "", "refused 15 64: the band has 0 lines; a band has 1 to 64"),
            (KNOWN_TEXT, 65 * "500 nm weight 1\n", "refused 15 64: the band has 65 lines; a band has 1 to 64"),
            (KNOWN_TEXT, "99 nm weight 1\n500 nm weight 0\n", "refused 15 1: the band's line 2: the weight is 0, not from 1 to 1000"),
            (KNOWN_TEXT, "500 nm weight 1\n99 nm weight 1\n", "refused 16 1: the band's line 2: the wavelength is 99 nm; not from 100 to 10000"),
            (glass.replace("0.0042", "0.2"), "500 nm weight 1\n\n100 nm weight 1\n", "refused 16 1: the band's line 3: the wavelength is 100 nm; a layer of the sheet is outside the gate there"),
            (BEAM + "retune to 600 nm\n" + CUSTOM, "500 nm weight 1\n", "refused 12 8: the sheet has a retune, at word 8; a band has its own wavelengths"),
            ("beam 99 nm s 1 p 1\n", "500 nm weight 1\n", "refused 6 1: the beam (line 1) is outside the gate: the wavelength is 99, not from 100 to 10000"),
            (KNOWN_TEXT, "500 nm\n", "the band's line 1: the line ends where weight should stand: NUMBER nm|um weight NUMBER"),
            (KNOWN_TEXT, "500 nm weight 1.5\n", "the band's line 1: 1.5 is no whole weight"),
        ]:
            self.assertEqual(self.band(sheet, lines), (1, b"", f"-: {said}\n"))


class QuarterWaves(unittest.TestCase):
    """Layers in quarter waves, counted by the proved library."""

    def test_the_example(self):
        table = (0, (EXAMPLES / "window.waves").read_bytes(), "")
        for name in ["window.txt", "window.sheet"]:
            self.assertEqual(tool("quarter-waves", str(EXAMPLES / name)), table)

    def test_just_below_a_whole_one(self):
        status, out, _ = tool("quarter-waves", "-", given="beam 486.1 nm s 1 p 1\n" + CUSTOM + "layer 2.307783427626831 thickness 30173.46609148967 nm\n")
        self.assertEqual((status, out.split()[-2:]), (0, [b"572", b"121.52499999999384"]))

    def test_minus_zero(self):
        status, out, _ = tool("quarter-waves", "-", given=BEAM + CUSTOM + "layer 1.38 thickness -0 nm\n")
        self.assertEqual((status, out.split()[-2:]), (0, [b"0", b"0"]))

    def test_outside_the_limits(self):
        said = "-: refused 14 0: layer 2 of surface 1 (line 4): n is 4.5, not from 1 to 4\n"
        self.assertEqual(tool("quarter-waves", "-", given=BEAM + CUSTOM + LAYER + "layer 4.5 thickness 99 nm\n"), (1, b"", said))

    def test_a_glass_by_its_index(self):
        glass = tool("quarter-waves", "-", given=BEAM + CUSTOM + "glass a 1.5 b 0.0625 c 0.015625 thickness 80 nm\n")
        self.assertEqual(glass, tool("quarter-waves", "-", given=BEAM + CUSTOM + "layer 2 thickness 80 nm\n"))

    def test_no_layers(self):
        self.assertEqual(tool("quarter-waves", "-", given=BEAM), (1, b"", "-: no surface has layers of its own\n"))


class Edition1(unittest.TestCase):
    """Sheets for programs that read edition 1, written by the proved library; train on both sheets."""

    def train(self, sheet):
        done = subprocess.run(shlex.split(PROGRAM), input=sheet, capture_output=True, check=False)
        self.assertIn(done.returncode, (0, 1))  # train in C has 1 where it refuses
        return done.stdout

    def test_a_glass(self):
        given = BEAM + CUSTOM + "glass a 1.5 b 0.0625 c 0.015625 thickness 80 nm\n"
        _, old, _ = tool("write", "-", given=BEAM + CUSTOM + "layer 2 thickness 80 nm\n")
        self.assertEqual(tool("edition1", "-", given=given), (0, old, ""))
        _, sheet, _ = tool("write", "-", given=given)
        self.assertEqual(tool("edition1", "-", given=sheet), (0, old, ""))
        self.assertEqual(len(sheet), len(old) + 8)

    def test_examples_of_edition_2(self):
        """Each is refused as train refuses it, refused with 12, or becomes a sheet of edition 1 that runs alike."""
        became = 0
        for path in sorted(EXAMPLES.glob("*.sheet")):
            if path.read_bytes()[:4] != bytes.fromhex("10000002"):
                continue
            printed = self.train(path.read_bytes())
            status, old, said = tool("edition1", str(path))
            if status:
                wanted = printed.decode().strip() if printed.startswith(b"refused") else "refused 12 "
                self.assertIn(f"{path}: {wanted}", said)
                continue
            self.assertEqual((old[:4], self.train(old)), (bytes.fromhex("10000001"), printed), path)
            became += 1
        self.assertGreater(became, 2)

    def test_edition_1_comes_out_as_itself(self):
        for name in ["example", "every_payload", "window"]:
            sheet = (EXAMPLES / f"{name}.sheet").read_bytes()
            self.assertEqual(tool("edition1", "-", given=sheet)[:2], (0, sheet))

    def test_random_sheets(self):
        if not ORACLE.exists():
            self.skipTest("the oracle is not built")
        with tempfile.TemporaryDirectory() as directory:
            subprocess.run([ORACLE, "sheets", directory, "--seed", "6", "--count", "30"], check=True)
            for path in sorted(Path(directory).glob("*.sheet")):
                status, old, _ = tool("edition1", str(path))
                if status == 0:
                    self.assertEqual(self.train(old), path.with_suffix(".out").read_bytes(), path)

    def test_a_retune(self):
        said = "-: refused 12 8: word 8 is a kind 7, a retune; edition 1 has none\n"
        self.assertEqual(tool("edition1", "-", given=BEAM + "retune to 600 nm\n" + CUSTOM + GLASS), (1, b"", said))

    def test_outside_the_gate(self):
        status, out, said = tool("edition1", "-", given="beam 99 nm s 1 p 1\n" + CUSTOM + GLASS)
        self.assertEqual((status, out), (1, b""))
        self.assertIn("refused 6 1: the beam (line 1) is outside the gate", said)


class Examples(unittest.TestCase):
    def test_example(self):
        text, sheet = EXAMPLES / "window.txt", EXAMPLES / "window.sheet"
        self.assertEqual(tool("write", str(text)), (0, sheet.read_bytes(), ""))
        shown = tool("show", str(sheet))
        self.assertEqual(shown, (0, (EXAMPLES / "window.shown").read_bytes(), ""))
        self.assertEqual(tool("write", "-", given=shown[1]), (0, sheet.read_bytes(), ""))
        table = (0, (EXAMPLES / "window.losses").read_bytes(), "")
        self.assertEqual(both_ways(text), table)
        self.assertEqual(both_ways(sheet), table)

    def test_known_answer(self):
        self.assertEqual(tool("write", "-", given=KNOWN_TEXT), (0, KNOWN_SHEET, ""))
        status, out, _ = losses(KNOWN_SHEET)
        last = "whole train: 25.0000 % lost, 75.0000 % left (s 0.375, p 0.375, sum 0.75)"
        self.assertEqual((status, out.decode().splitlines()[-1]), (0, last))

    def test_no_light_and_no_surface(self):
        for s in ["0", "-0"]:
            status, out, _ = losses(f"beam 500 nm s {s} p {s}\n")
            last = "whole train: - % lost, - % left (s 0, p 0, sum 0)"
            self.assertEqual((status, out.decode().splitlines()[-1]), (0, last))

    def test_random_sheets(self):
        """Of the oracle: what is out of grammar is refused at its place, all else is written back to the same bytes."""
        if not ORACLE.exists():
            self.skipTest("the oracle is not built")
        with tempfile.TemporaryDirectory() as folder:
            subprocess.run([str(ORACLE), "sheets", folder, "--seed", "1", "--count", "60"], check=True)
            for sheet in sorted(Path(folder).glob("*.sheet")):
                with self.subTest(sheet.name):
                    self.one_sheet(sheet, sheet.with_suffix(".out").read_text().strip())

    def one_sheet(self, sheet, out):
        status, shown, said = tool("show", str(sheet))
        if out.startswith(("refused 4", "refused 5")):
            self.assertEqual((status, said.startswith(f"{sheet}: {out}: ")), (1, True), said)
            return
        self.assertEqual(tool("write", "-", given=shown)[:2], (0, sheet.read_bytes()))
        status, _, said = both_ways(sheet)
        if out.startswith("refused"):
            self.assertEqual((status, said.startswith(f"{sheet}: {out}: ")), (1, True), said)
        else:
            self.assertEqual((status, "refused" in said), (0, False), said)


class Losses(unittest.TestCase):
    def test_nothing_lost_has_no_sign(self):
        """Powers whose sum rounds up after a surface that loses nothing, and any that a surface takes by less than is shown."""
        text = "beam 500 nm s 0.1 p 0.7\n" + 3 * "surface ideal-ar transmitted from 1 to 1 at 0 deg\n"
        status, out, _ = losses(text)
        self.assertEqual((status, b"-0.0000" in out, out.count(b"  0.0000")), (0, False, 12))
        # a program that gives back a little more, as no proved one does
        more = f"1 T {bits(math.nextafter(0.5, 1))} {bits(0.5)}"
        fake = shlex.join(["printf", f"{more}\\nsum {bits(1.0000000000000002)}\\n"])
        status, out, _ = losses(KNOWN_SHEET, fake)
        self.assertEqual((status, b"-0.0000" in out), (0, False), out)

    def test_stays_in_the_glass(self):
        """Of a coated surface the light that is neither reflected nor transmitted, as a part of what came to it; of a bare one nothing."""
        film = "surface custom {} from 1 to 1.5 at 0 rad\nlayer 0.26 thickness 10 nm k 6.97\n"
        shown = [losses(BEAM + film.format(way))[1].decode().splitlines()[1].split()[-2:] for way in ("transmitted", "reflected")]
        (stays, through), (again, back) = [[float(x) for x in pair] for pair in shown]
        self.assertEqual(stays, again)
        self.assertGreater(stays, 1)
        self.assertAlmostEqual(stays + through + back, 100, delta=0.0002)
        _, out, _ = losses(KNOWN_SHEET)
        self.assertEqual(out.decode().splitlines()[1].split()[-2:], ["-", "75.0000"])
        _, out, _ = losses(BEAM + "surface ideal-beamsplitter reflected from 1 to 2 at 0 rad\n")
        self.assertEqual(out.decode().splitlines()[1].split()[-2:], ["0.0000", "50.0000"])

    def test_one_layer_is_no_plural(self):
        _, out, _ = losses(BEAM + CUSTOM + LAYER)
        self.assertIn(b"deg, 1 layer ", out)
        _, out, _ = losses(BEAM + CUSTOM + 2 * LAYER)
        self.assertIn(b"deg, 2 layers ", out)

    def test_refusals_in_words(self):
        for text, said in REFUSED:
            with self.subTest(said):
                self.assertEqual(losses(text), (1, b"", f"-: {said}\n"))

    def test_figures_show_what_is_missed(self):
        angle = math.acos(0.25) + 1e-9
        _, _, said = losses(BEAM + f"surface bare transmitted from 1 to 4 at {angle!r} rad\n")
        self.assertIn("the angle's cosine is 0.2499999990", said)
        angle = math.asin(0.4375) + 1e-9
        _, _, said = losses(BEAM + f"surface bare transmitted from 2 to 1 at {angle!r} rad\n")
        self.assertIn("n_incident times sin is 0.875000", said)
        self.assertIn(", more than 0.875 of the second index 1, 0.875", said)

    def test_cut_sheets(self):
        short = "refused 4 0: a sheet has a multiple of 4 bytes, from 36 to 30500; this has 35"
        self.assertEqual(losses(KNOWN_SHEET[:35]), (1, b"", f"-: {short}\n"))
        self.assertEqual(tool("show", "-", given=KNOWN_SHEET[:35]), (1, b"", f"-: {short}\n"))
        status, _, said = losses(KNOWN_SHEET[:-4])
        self.assertEqual((status, said.startswith("-: refused 5 15: word 15 ")), (1, True), said)


class Programs(unittest.TestCase):
    """What is no program, or another one, gets a sentence and no traceback."""

    def test_not_to_be_run(self):
        for program, said in [
            ("/nowhere", "-: the program '/nowhere' cannot be run: No such file or directory\n"),
            ("/", "-: the program '/' cannot be run: Permission denied\n"),
            (str(EXAMPLES / "window.txt"), f"-: the program '{EXAMPLES / 'window.txt'}' cannot be run: Permission denied\n"),
            ("''", "-: the program '' cannot be run: "),
        ]:
            with self.subTest(program):
                status, out, found = losses(KNOWN_SHEET, program)
                self.assertEqual((status, out, found.startswith(said)), (1, b"", True), found)

    def test_no_words(self):
        for program in ['"', "a '", "", " "]:
            with self.subTest(program):
                status, out, said = tool("losses", "-", "--program", program, given=KNOWN_SHEET)
                self.assertEqual((status, out, "Traceback" in said), (2, b"", False), said)

    def test_other_programs(self):
        for program in ["echo hello", "true", "false", "printf x", "printf 'refused 6'", "printf '\\377\\n'", "cat /dev/null", "sh -c 'kill $$'", "echo 'sum 3FE0000000000000'"]:
            with self.subTest(program):
                status, out, said = losses(KNOWN_SHEET, program)
                self.assertEqual((status, out, "gave no answer" in said, "Traceback" in said), (1, b"", True, False), said)

    def test_nothing_built(self):
        """In a copy of the tools alone, what is missing is said."""
        with tempfile.TemporaryDirectory() as folder:
            copy = Path(folder) / "tools"
            copy.mkdir()
            for name in ["sheet.py", "test_sheet.py"]:
                (copy / name).write_bytes((ROOT / "tools" / name).read_bytes())
            for name, words, said in [("sheet.py", ["losses", "-"], b"the package dihkelu cannot be loaded"), ("test_sheet.py", [], b"not built yet; run: rt run, in crates/train")]:
                done = subprocess.run([sys.executable, "-S", str(copy / name), *words], input=KNOWN_SHEET, capture_output=True, check=False)
                self.assertEqual((done.returncode, said in done.stderr), (1, True), done.stderr)


class Files(unittest.TestCase):
    def test_full_disk(self):
        for command, file in [("write", "window.txt"), ("show", "window.sheet"), ("losses", "window.txt")]:
            with self.subTest(command), open("/dev/full", "wb") as full:
                done = subprocess.run([*TOOL, command, str(EXAMPLES / file)], stdout=full, stderr=subprocess.PIPE, check=False)
                said = f"{EXAMPLES / file}: the output cannot be written: No space left on device\n"
                self.assertEqual((done.returncode, done.stderr.decode()), (1, said))

    def test_closed_ends(self):
        words = shlex.join(TOOL)
        for command in [f"{words} write {shlex.quote(str(EXAMPLES / 'window.txt'))} >&-", f"{words} write - <&-"]:
            done = subprocess.run(["sh", "-c", command], capture_output=True, check=False)
            self.assertEqual((done.returncode, b"is closed" in done.stderr, b"Traceback" in done.stderr), (1, True, False), done.stderr)

    def test_what_is_no_file(self):
        for name, said in [("/nowhere", "No such file or directory"), ("/", "Is a directory"), ("/dev/zero", "it has more than")]:
            with self.subTest(name):
                status, out, found = tool("show", name)
                self.assertEqual((status, out, found.startswith(f"{name}: {said}")), (1, b"", True), found)


class Texts(unittest.TestCase):
    def wrong(self, text, said):
        """Both commands that read a text say the same."""
        with self.subTest(said):
            self.assertEqual(tool("write", "-", given=text), (1, b"", f"-: {said}\n"))
            self.assertEqual(losses(text), (1, b"", f"-: {said}\n"))

    def test_bad_texts(self):
        for text, said in BAD_TEXTS:
            self.wrong(text, said)

    def test_byte_order_mark(self):
        self.assertEqual(tool("write", "-", given=b"\xef\xbb\xbf" + KNOWN_TEXT), (0, KNOWN_SHEET, ""))
        self.assertEqual(losses(b"\xef\xbb\xbf" + KNOWN_TEXT), losses(KNOWN_TEXT))

    def test_utf_16(self):
        for encoding in ["utf-16", "utf-16-le", "utf-16-be"]:
            self.wrong(KNOWN_TEXT.decode().encode(encoding), "the text is in UTF-16; save it as UTF-8")

    def test_control_bytes(self):
        for byte in [0, 7, 11, 12, 27, 28, 127]:
            self.wrong(KNOWN_TEXT + b"# a comment " + bytes([byte]) + b"\n", f"line 3: the control byte 0x{byte:02X} stands in the text")

    def test_other_encodings(self):
        self.wrong(BEAM.encode() + "# Gl\u00e4ser\n".encode("latin-1"), "line 2: the byte 0xE4 is not UTF-8; save the text as UTF-8")

    def test_line_ends(self):
        for end in [b"\n", b"\r\n", b"\r"]:
            self.assertEqual(tool("write", "-", given=KNOWN_TEXT.replace(b"\n", end)), (0, KNOWN_SHEET, ""))
        for mark in ["\u2028", "\u2029", "\u0085"]:
            comment = f"# one{mark}surface bare transmitted from 1 to 2 at 0 rad\n"
            self.assertEqual(tool("write", "-", given=KNOWN_TEXT.decode() + comment), (0, KNOWN_SHEET, ""))

    def test_other_digits(self):
        for digits in ["\u0665\u0660\u0660", "\uff15\uff10\uff10", "5\u0660\u0660", "1_000", "nan", "inf", "0x1p3", "5,5,5", "5,5.5"]:
            self.wrong(f"beam {digits} nm s 0.5 p 0.5\n", f"line 1: '{digits}' is no number")


class Numbers(unittest.TestCase):
    def test_any_number_anywhere(self):
        """Written, shown and written again: the same bytes. The gate judges; nothing is a traceback."""
        usual = ["500", "0.5", "0.5", "1", "1.5", "0.3", "1.5", "1", "0.2", "1.38", "99", "0"]
        form = "beam {} nm s {} p {}\nsurface bare transmitted from {} to {} at {} rad\nsurface custom transmitted from {} to {} at {} rad\nlayer {} thickness {} nm k {}\n"
        special = ["-0", "1e999", "0xFFF4000000000001", "4.9e-324", "-1"]
        for place in range(len(usual)):
            for number in special:
                with self.subTest(place=place, number=number):
                    text = form.format(*(usual[:place] + [number] + usual[place + 1:]))
                    status, sheet, said = tool("write", "-", given=text)
                    self.assertEqual((status, len(sheet), "Traceback" in said), (0, 120, False), said)
        status, shown, said = tool("show", "-", given=sheet)
        self.assertEqual((status, tool("write", "-", given=shown)[1]), (0, sheet))
        text = form.format(*["0xFFF4000000000001"] * len(usual))
        sheet = tool("write", "-", given=text)[1]
        self.assertEqual(tool("write", "-", given=tool("show", "-", given=sheet)[1])[1], sheet)
        status, _, said = losses(text)
        self.assertEqual((status, said.startswith("-: refused 6 1: the beam (line 1)"), "Traceback" in said), (1, True, False), said)


class Notes(unittest.TestCase):
    def test_what_was_worked_out(self):
        """The angle inside a window and the index of a glass are said beside the sheet."""
        text = "beam 1064 nm s 0.5 p 0.5\nwindow fused-silica at 30 deg\n"
        said = "-: note: fused-silica has n 1.449631 at 1064 nm, by I. H. Malitson, J. Opt. Soc. Am. 55, 1205 (1965)\n-: note: line 2: inside the window the light is at 20.1766 deg, by Snell's law\n"
        self.assertEqual(tool("write", "-", given=text)[::2], (0, said))
        self.assertEqual(losses(text)[::2], (0, said))


class Hints(unittest.TestCase):
    PLATE = "surface bare transmitted from 1 to 1.5 at 30 deg\nsurface bare transmitted from {} to 1 at {} deg\n"

    def hints(self, text):
        status, _, said = losses(BEAM + text)
        written = tool("write", "-", given=BEAM + text)
        self.assertEqual((status, written[0], written[2]), (0, 0, said))
        return said

    def test_fitting_neighbours(self):
        for text in ["", self.PLATE.format("1.5", "19.47"), self.PLATE.format("1.5", "-19.1"), "surface bare reflected from 1 to 1.5 at 45 deg\nsurface bare transmitted from 1 to 2 at 0 deg\n"]:
            self.assertEqual(self.hints(text), "")

    def test_another_index(self):
        self.assertEqual(self.hints(self.PLATE.format("1.6", "10")), "-: hint: surface 2 (line 3) begins in index 1.6; the light comes in index 1.5\n")
        mirror = "surface bare reflected from 1 to 1.5 at 45 deg\nsurface bare transmitted from 1.5 to 1 at 0 deg\n"
        self.assertEqual(self.hints(mirror), "-: hint: surface 2 (line 3) begins in index 1.5; the light comes in index 1\n")

    def test_another_angle(self):
        self.assertEqual(self.hints(self.PLATE.format("1.5", "30")), "-: hint: surface 2 (line 3) is at 30.00 deg; in a plate with parallel faces it is at 19.47 deg\n")


class Documented(unittest.TestCase):
    """What docs/SHEETS.md says of designs and angles."""

    @staticmethod
    def lost(surface, wavelength):
        _, out, _ = losses(f"beam {wavelength} nm s 0.5 p 0.5\n{surface}\n")
        return out.decode().split(" % lost")[0].split("whole train: ")[1]

    def test_designs_are_for_550_nm(self):
        mirror = "surface mirror reflected from 1 to 1.52 at 45 deg"
        self.assertEqual([self.lost(mirror, wavelength) for wavelength in (550, 1064)], ["1.5420", "93.0329"])
        self.assertEqual(self.lost("surface broadband-ar transmitted from 1 to 1.52 at 0 deg", 1064), "16.4585")
        self.assertEqual(self.lost("surface bare transmitted from 1 to 1.52 at 0 deg", 1064), "4.2580")

    def test_a_window_in_air_ends_at_61_degrees(self):
        for outside, status in [(61, 0), (61.1, 1)]:
            inside = math.degrees(math.asin(math.sin(math.radians(outside)) / 1.52))
            faces = f"surface bare transmitted from 1 to 1.52 at {outside} deg\nsurface bare transmitted from 1.52 to 1 at {inside!r} deg\n"
            found, _, said = losses(BEAM + faces)
            self.assertEqual((found, "refused 6 15: surface 2" in said), (status, status == 1))
        self.assertEqual(losses(BEAM + "surface bare transmitted from 1 to 1.52 at 75 deg\n")[0], 0)

    def test_layers_from_the_lower_index(self):
        layers = ["layer 1.38 thickness 99 nm\n", "layer 2.3 thickness 60 nm\n"]
        into, out_of = "surface custom transmitted from 1 to 1.52 at 0 deg\n", "surface custom transmitted from 1.52 to 1 at 0 deg\n"
        both = [losses(BEAM + way + "".join(layers))[1].decode().splitlines()[-1] for way in (into, out_of)]
        self.assertEqual(both[0], both[1])
        self.assertNotEqual(both[0], losses(BEAM + into + "".join(reversed(layers)))[1].decode().splitlines()[-1])

    def test_the_most_layers_and_surfaces(self):
        self.assertEqual(losses(BEAM + 64 * (CUSTOM + 16 * LAYER))[0], 0)


class Commands(unittest.TestCase):
    def test_help_and_version(self):
        for words, start in [(["--help"], b"usage: "), (["-h"], b"usage: "), (["losses", "--help"], b"usage: "), (["--version"], b"sheet.py 1.")]:
            status, out, said = tool(*words)
            self.assertEqual((status, out.startswith(start), said), (0, True, ""))

    def test_no_command(self):
        for words in [[], ["read", "x"], ["write"], ["write", "a", "b"], ["show", "--program", "x", "y"]]:
            status, out, said = tool(*words)
            self.assertEqual((status, out, said.startswith("usage: ")), (2, b"", True))


def main():
    global PROGRAM, people
    parser = argparse.ArgumentParser(description=__doc__)
    parser.add_argument("--program", help="what gives the powers in the place of the library")
    given, rest = parser.parse_known_args()
    default = None
    if (ROOT / "crates" / "train" / "out" / "train").exists():
        default = [str(ROOT / "tools" / "run"), "train"]
    elif ORACLE.exists():
        default = [str(ORACLE), "train"]
    PROGRAM = given.program or (shlex.join(default) if default else None)
    if not PROGRAM:
        print("test_sheet.py: the program train is not built yet; run: rt run, in crates/train", file=sys.stderr)
        return 1
    # nothing stale: what has changed since it was built is proved and built
    if not given.program and default[-2:] == [str(ROOT / "tools" / "run"), "train"]:
        if subprocess.run(["bash", "-c", "set -euo pipefail; . tools/lib.sh; proved train", "tools/test_sheet.py"], cwd=ROOT, check=False).returncode:
            return 1
    import sheet as people
    print(f"program: {PROGRAM}")
    return 0 if unittest.main(argv=[sys.argv[0], *rest], exit=False).result.wasSuccessful() else 1


if __name__ == "__main__":
    sys.exit(main())
