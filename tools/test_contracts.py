#!/usr/bin/env python3
"""Tests of tools/check_contracts: a contract of each kind that promises too little is noticed, in a copy of the crate that exports."""

import re
import shutil
import subprocess
import sys
import tempfile
import unittest
from pathlib import Path

ROOT = Path(__file__).resolve().parent.parent
TOOL = ROOT / "tools" / "check_contracts"
SOURCE = "crates/dihkelu/src/lib.rt"


class Contracts(unittest.TestCase):
    def setUp(self):
        self.folder = Path(tempfile.mkdtemp())
        self.addCleanup(shutil.rmtree, self.folder)
        (self.folder / "crates").mkdir()
        for crate in (ROOT / "crates").iterdir():
            (self.folder / "crates" / crate.name).symlink_to(crate)
        (self.folder / "crates/dihkelu").unlink()
        # what hands the changed calls on would say otherwise, too
        (self.folder / "crates/dihkelu_c").unlink(missing_ok=True)
        shutil.copytree(ROOT / "crates/dihkelu/src", self.folder / "crates/dihkelu/src")

    def said(self):
        done = subprocess.run([sys.executable, str(TOOL), str(self.folder)], capture_output=True, text=True, check=False)
        self.assertEqual(done.stderr, "")
        self.assertEqual(done.returncode, 1 if done.stdout else 0)
        return done.stdout.splitlines()

    def change(self, name, change, source=SOURCE):
        """The head of a call that is handed on to C, up to its body, changed."""
        path = self.folder / source
        text = path.read_text()
        head = re.search(rf'^pub (?:extern "C" )?fn {name}\(.*?^\{{$', text, re.M | re.S)
        self.assertIsNotNone(head, name)
        changed = change(head[0])
        self.assertNotEqual(changed, head[0])
        path.write_text(text[:head.start()] + changed + text[head.end():])

    def refused(self, name, change, words):
        self.change(name, change)
        said = self.said()
        self.assertEqual(len(said), 1, said)
        self.assertRegex(said[0], rf"^{SOURCE}:\d+: {name}: .*{words}")

    def test_as_it_is(self):
        self.assertEqual(self.said(), [])

    def test_no_ensures_and_arguments_exchanged(self):
        def change(head):
            without = re.sub(r"\n    ensures \{.*\}(?=\n\{$)", "", head)
            return without.replace("n1: f64,\n    n2: f64", "n2: f64,\n    n1: f64")

        self.refused("dihkelu_schlick_approx", change, "promises nothing")

    def test_a_requires(self):
        self.refused("dihkelu_run", lambda head: head.replace("\n    ensures", "\n    requires { 36 ≤ length sheet.now }\n    ensures"), "demands something")

    def test_no_equation(self):
        self.refused("dihkelu_run", lambda head: re.sub(r"ensures \{ (.*) ≡ .*? \}", r"ensures { Allowed (\1) }", head), "states no equation")

    def test_a_hypothesis(self):
        self.refused("dihkelu_run", lambda head: re.sub(r"ensures \{ (.*) \}", r"ensures { ((n : ℕ) → length sheet.now ≡ n → \1) }", head), "holds only where")

    def test_a_binder_is_no_hypothesis(self):
        self.change("dihkelu_run", lambda head: re.sub(r"ensures \{ (.*) \}", r"ensures { ((n : ℕ) (f : ℕ → ℕ) → \1) }", head))
        self.assertEqual(self.said(), [])

    def test_the_result_unsaid(self):
        self.refused("dihkelu_run", lambda head: head.replace("{ done result ", "{ done 0 "), "what is returned")

    def test_lent_memory_unsaid(self):
        self.refused("dihkelu_run", lambda head: head.replace("list.new", "list.old"), "lent memory")

    def test_a_method_and_a_bound(self):
        """What is lent as `&mut self`, or behind the brackets of a bound."""
        source = "crates/tally/src/lib.rt"
        path = self.folder / source
        path.parent.mkdir(parents=True)
        says = "    // A function.\n    pub fn {} {{\n    }}\n"
        for head, ensures, words in [("add(&mut self, n: u64)\n        ensures", "{ n ≡ n }", "lent memory"), ("add(&mut self, n: u64)\n        ensures", "{ self.new ≡ n }", None),
                                     ("each<F: Fn(&[u64]) -> u64>(f: F, list: &mut [u64])\n        ensures", "{ f ≡ f }", "lent memory"),
                                     ("each<F: Fn(&[u64]) -> u64>(f: F, list: &mut [u64])\n        ensures", "{ list.new ≡ list.old }", None)]:
            with self.subTest(head=head, ensures=ensures):
                path.write_text(says.format(f"{head} {ensures}\n   "))
                said = self.said()
                self.assertEqual(len(said), 0 if words is None else 1, said)
                if words is not None:
                    self.assertIn(words, said[0])

    def test_a_named_clause_and_a_starred_one(self):
        self.change("dihkelu_run", lambda head: head.replace("ensures {", "ensures written {"))
        self.assertEqual(self.said(), [])
        self.change("dihkelu_run", lambda head: head.replace("ensures written {", "requires* { sheet.now ≡ sheet.now }\n    ensures written {"))
        self.assertEqual([line.split(": ")[-2] for line in self.said()], ["it demands something of its caller"])

    def test_what_is_handed_on(self):
        """Every export of a crate for C says what the library's function says, and none is left out."""
        source = "crates/dihkelu_c/src/lib.rt"
        text = re.sub(r"^pub (?:extern \"C\" )?fn (dihkelu_\w+)", r'pub extern "C" fn \1', (self.folder / SOURCE).read_text(), flags=re.M)
        (self.folder / source).parent.mkdir(parents=True)
        (self.folder / source).write_text(text)
        self.assertEqual(self.said(), [])
        self.change("dihkelu_run", lambda head: head.replace("sheet.now list.old", "sheet.now list.new"), source)
        said = self.said()
        self.assertEqual(len(said), 1, said)
        self.assertRegex(said[0], rf"^{source}:\d+: dihkelu_run: it does not say what dihkelu::dihkelu_run says")
        (self.folder / source).write_text(text.replace("fn dihkelu_run(", "fn own_run("))
        self.assertTrue(any(re.search(r"dihkelu_run: dihkelu_c does not export it$", line) for line in self.said()))

    def test_no_exception_of_an_export(self):
        """A row of EXCEPTIONS with an exported call's name excuses nothing."""
        tool = self.folder / "check_contracts"
        tool.write_text(TOOL.read_text().replace("EXCEPTIONS = {\n", 'EXCEPTIONS = {\n    "dihkelu::dihkelu_run": ("memory", "none"),\n'))
        self.change("dihkelu_run", lambda head: head.replace("list.new", "list.old"))
        done = subprocess.run([sys.executable, str(tool), str(self.folder)], capture_output=True, text=True, check=False)
        self.assertEqual(done.returncode, 1)
        self.assertIn("dihkelu_run: its `ensures` does not say what is left in lent memory", done.stdout)

    def test_an_exception_that_is_not_needed(self):
        tool = self.folder / "check_contracts"
        tool.write_text(TOOL.read_text().replace("EXCEPTIONS = {\n", 'EXCEPTIONS = {\n    "gate::gate": ("memory", "none"),\n'))
        done = subprocess.run([sys.executable, str(tool), str(self.folder)], capture_output=True, text=True, check=False)
        self.assertEqual((done.returncode, done.stdout), (1, "tools/check_contracts: the row gate::gate of EXCEPTIONS has faults that it has not any more: take them out\n"))


if __name__ == "__main__":
    unittest.main()
