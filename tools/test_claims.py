#!/usr/bin/env python3
"""Tests of tools/check_claims and tools/guess_table: a name, an edit, a count or a number that is spoiled is noticed."""

import os
import re
import shutil
import subprocess
import sys
import tempfile
import unittest
from pathlib import Path

ROOT = Path(__file__).resolve().parent.parent


class Copy(unittest.TestCase):
    """A folder of its own: documents and tools are copied, crates are links but for those that a test copies."""

    def setUp(self):
        self.folder = Path(tempfile.mkdtemp())
        self.addCleanup(shutil.rmtree, self.folder)
        for name in ["docs", "tools", "include"]:
            shutil.copytree(ROOT / name, self.folder / name, ignore=shutil.ignore_patterns("__pycache__"))
        for name in ["README.md", "CONTRIBUTING.md", "NOTICE", "LICENSE-MIT", "LICENSE-APACHE", "CHANGELOG.md", "crates.txt"]:
            shutil.copy(ROOT / name, self.folder / name)
        for name in ["oracle", "examples", ".ci"]:
            (self.folder / name).symlink_to(ROOT / name)
        (self.folder / "crates").mkdir()
        for crate in (ROOT / "crates").iterdir():
            (self.folder / "crates" / crate.name).symlink_to(crate)

    def copied(self, crate):
        (self.folder / "crates" / crate).unlink()
        shutil.copytree(ROOT / "crates" / crate, self.folder / "crates" / crate)
        return self.folder / "crates" / crate

    def run_tool(self, *words):
        done = subprocess.run([sys.executable, *words], cwd=self.folder, capture_output=True, text=True, check=False)
        return done.returncode, done.stdout.splitlines()

    def change(self, name, old, new):
        path = self.folder / name
        text = path.read_text()
        self.assertIn(old, text)
        path.write_text(text.replace(old, new, 1))


class Claims(Copy):
    def faults(self):
        """What is said beside the faults that stand in the repository itself."""
        return [line for line in self.run_tool("tools/check_claims")[1] if line not in self.before]

    def setUp(self):
        super().setUp()
        self.before = self.run_tool("tools/check_claims")[1]

    def test_names(self):
        for old, new, said in [
            ("`gate.specs.Claim` (`WithinLimits`", "`gate.specs.Claim` (`WithinLimit`", "`gate.specs.Claim` has no `WithinLimit`"),
            ("`sheet.specs.Sheet` (`WellFormed`", "`sheet.specs.Sheets` (`WellFormed`", "no file crates/sheet/specs/Sheets.antt"),
            ("`AdmittedSheet`'s `falls`", "`AdmittedSheet`'s `taken`", "`AdmittedSheet` has no `taken`"),
            ("`train_steps::step`", "`train_steps::stepp`", "`train_steps::stepp`: no stepp"),
            ("`thin_film::SurfaceCoating::evaluate`", "`thin_film::SurfaceCoat::evaluate`", "`thin_film::SurfaceCoat::evaluate`: no SurfaceCoat"),
            ("`tools/hostile`", "`tools/hostil`", "no file tools/hostil"),
            ("(DECISIONS.md)", "(DECISION.md)", "no file DECISION.md"),
        ]:
            text = (self.folder / "docs/CLAIMS.md").read_text()
            self.change("docs/CLAIMS.md", old, new)
            self.assertTrue(any(line.endswith(": " + said) for line in self.faults()), said)
            (self.folder / "docs/CLAIMS.md").write_text(text)

    def test_edits(self):
        path = self.folder / "docs/CLAIMS.md"
        text = path.read_text()
        path.write_text(text.replace("`sheet/low_byte_first`", "`sheet/low_bytes_first`"))
        said = self.faults()
        self.assertIn("docs/CLAIMS.md: no row has the edit sheet/low_byte_first", said)
        self.assertTrue(any(line.endswith(": no edit sheet/low_bytes_first") for line in said), said)

    def test_an_edit_that_does_not_apply(self):
        crate = self.copied("c_scalars")
        edit = crate / "must-fail" / "sin_for_cos.edit"
        edit.write_text(edit.read_text().replace("old: ", "old: and never ", 1))
        self.assertEqual(self.faults(), ["crates/c_scalars/must-fail/sin_for_cos.edit: what it replaces does not stand in lib.rt"])
        edit.write_text("")
        self.assertEqual(self.faults(), ["crates/c_scalars/must-fail/sin_for_cos.edit: it changes nothing"])

    def test_guards(self):
        crate = self.copied("train_steps")
        specs = crate / "specs" / "Train.antt"
        specs.write_text(specs.read_text() + "\n-- one more\nabbrev pub unguarded : Float\nunguarded = nan\n")
        self.assertIn("docs/CLAIMS.md: 'What guards it' lacks train_steps.specs.Train unguarded", self.faults())

    def test_counts(self):
        crate = self.copied("gate")
        specs = crate / "specs" / "Claim.antt"
        specs.write_text(specs.read_text() + "-- one line more\n")
        self.assertTrue([line for line in self.faults() if re.match(r"docs/READING.md:\d+: the counts are", line)])
        self.run_tool("tools/check_claims", "--renumber")
        self.assertEqual(self.faults(), [])

    def test_a_file_that_is_not_read(self):
        (self.copied("gate") / "specs" / "Other.antt").write_text("-- nothing\n")
        self.assertEqual(self.faults(), ["docs/READING.md: no row has crates/gate/specs/Other.antt"])

    def test_crates(self):
        self.change("docs/ARCHITECTURE.md", "| `gate` |", "| `sheet` |")
        self.assertEqual(self.faults(), ["docs/ARCHITECTURE.md: 'The crates' has gate 0 times", "docs/ARCHITECTURE.md: 'The crates' has sheet 2 times"])

    def test_readme(self):
        path = self.folder / "README.md"
        lines = len(path.read_text().splitlines())
        path.write_text(path.read_text() + "\n" * (130 - lines))
        self.assertEqual(self.faults(), [])
        path.write_text(path.read_text() + "x" * 201 + "\n")
        self.assertEqual(self.faults(), ["README.md: 131 lines, and 130 are the most", "README.md:131: 201 characters, and 200 are the most"])


class Guesses(Copy):
    def test_as_they_are(self):
        self.assertEqual(self.run_tool("tools/guess_table", "--check"), (0, ["sqrt: 64 pieces as in the code", "atan: 16 pieces as in the code"]))

    def test_a_digit(self):
        source = self.copied("math_atan") / "src" / "lib.rt"
        source.write_text(source.read_text().replace("0.82950473120", "0.82950473121", 1))
        self.assertEqual(self.run_tool("tools/guess_table", "--check"), (1, ["sqrt: 64 pieces as in the code"]))


if __name__ == "__main__":
    os.chdir(ROOT)
    unittest.main(argv=[sys.argv[0], *sys.argv[1:]])
