#!/usr/bin/env python3
"""Tests of the tools themselves: that they fail when they should, and say what to run. Needs what tools/test has built."""

import os
import re
import shutil
import subprocess
import sys
import tempfile
import unittest
from pathlib import Path

ROOT = Path(__file__).resolve().parent.parent
ORACLE = ROOT / "oracle" / "target" / "release" / "oracle"
EXAMPLE = ROOT / "examples" / "example.sheet"


def run(*words, given=None, cwd=ROOT, **environment):
    """Status, standard output, standard error."""
    done = subprocess.run([str(word) for word in words], stdin=given or subprocess.DEVNULL, capture_output=True, text=True, cwd=cwd, env={**os.environ, **environment}, check=False)
    return done.returncode, done.stdout, done.stderr


class Folder(unittest.TestCase):
    """A folder of its own, with a copy of the tools alone: as a new clone, before anything is built."""

    def setUp(self):
        self.folder = Path(tempfile.mkdtemp())
        self.addCleanup(shutil.rmtree, self.folder)
        shutil.copytree(ROOT / "tools", self.folder / "tools", ignore=shutil.ignore_patterns("__pycache__"))
        for name in ["train", "test_replay"]:
            (self.folder / "crates" / name / "src").mkdir(parents=True)
            (self.folder / "crates" / name / "src" / "main.rt").touch()

    def write(self, name, text):
        path = self.folder / name
        path.parent.mkdir(parents=True, exist_ok=True)
        path.write_text(text)
        path.chmod(0o755)
        return path


class WrongPrograms(Folder):
    """tools/wrong_programs with an rt that prints what it is asked for and which edits it would try."""

    def setUp(self):
        super().setUp()
        self.write("bin/rt", "#!/bin/sh\n[ $1 != version ] || exit 0\necho rt $*\nls crates/*/must-fail/*.edit\n[ ! -e crates/gate/out ] || echo what was kept\necho $SAID\n")
        self.write("crates.txt", "gate:\nsheet: gate\n")
        self.write("crates/gate/out/kept", "")
        for crate in ["gate", "sheet"]:
            self.write(f"crates/{crate}/must-fail/of_rt_ci.edit", "")
            for number in range(5):
                self.write(f"crates/{crate}/further/wrong_{number}.edit", "")

    def tried(self, *words):
        status, out, said = run(self.folder / "tools/wrong_programs", *words, PATH=f"{self.folder}/bin:{os.environ['PATH']}", SAID="")
        self.assertEqual((status, said), (0, ""))
        return [line.replace("/further/", "/must-fail/") for line in out.splitlines() if line]

    def test_all(self):
        asked, *edits = self.tried()
        self.assertEqual(asked, "rt must-fail")
        self.assertEqual(edits, [f"crates/{crate}/must-fail/wrong_{number}.edit" for crate in ["gate", "sheet"] for number in range(5)])

    def test_a_sample(self):
        first = self.tried("3", "2026-11-17")
        self.assertEqual(first[0], "tools/wrong_programs: drawn by the day 2026-11-17:")
        self.assertEqual(first[1:4], first[5:], "what is printed is what is tried")
        self.assertEqual(self.tried("3", "2026-11-17"), first)
        self.assertTrue(any(self.tried("3", f"2026-11-{day}")[1:4] != first[1:4] for day in range(10, 14)))

    def test_an_edit_that_is_none(self):
        """rt ci lets pass an edit that cannot be applied, or was not tried: here it fails."""
        for said in ["must-fail gate/wrong_1.edit: BAD EDIT: an 'old:' text is in src/lib.rt 0 times, and not once", "must-fail gate/wrong_1.edit: NOT TRIED: its check was killed"]:
            status, out, told = run(self.folder / "tools/wrong_programs", PATH=f"{self.folder}/bin:{os.environ['PATH']}", SAID=said)
            self.assertEqual((status, said in out, "could not be tried" in told), (1, True, True))

    def test_after_rt_ci(self):
        """Where rt ci has just proved all and no check has kept its work, what it proved is taken, as long as no file is another."""
        self.write("crates/gate/src/lib.rt", "")
        self.assertEqual(run(self.folder / "tools/stamps.py", "--ci-passed", cwd=self.folder, PATH=f"{self.folder}/bin:{os.environ['PATH']}")[0], 0)
        self.assertEqual(self.tried()[0], "rt ci")
        self.write("crates/gate/src/lib.rt", "// another\n")
        self.assertEqual(self.tried()[0], "rt must-fail")

    def test_a_wrong_word(self):
        for words in [("six",), ("0",), ("6", "today"), ("6", "2026-11-17", "x")]:
            status, out, said = run(self.folder / "tools/wrong_programs", *words, PATH=f"{self.folder}/bin:{os.environ['PATH']}")
            self.assertEqual((status, out), (1, ""))
            self.assertIn("usage: tools/wrong_programs [COUNT [DAY]]", said)


class Run(Folder):
    def test_nothing_built(self):
        self.assertEqual(run(self.folder / "tools/run", "train"), (1, "", "tools/run: train is not built yet; run: rt run, in crates/train\n"))
        self.assertEqual(run(self.folder / "tools/test_train"), (1, "", "tools/test_train: train is not built yet; run: rt run, in crates/train\n"))

    def test_no_toolchain(self):
        for tool, words in [("run", ["train"]), ("hostile", []), ("examples", []), ("compare", []), ("bench", []), ("library", []), ("test", []), ("test_library", []), ("test_header", []), ("test_release", [])]:
            # commands that the tool may look for before rt, but no rt
            for name in ["cc", "valgrind", "cargo", "rustc", "python3", "objcopy"]:
                self.write(f"bin/{name}", "#!/bin/sh\n")
            status, out, said = run("/bin/bash", self.folder / "tools" / tool, *words, PATH=f"{self.folder}/bin:/usr/bin:/bin")
            self.assertEqual((status, out + said), (1, f"tools/{tool}: the Rattle toolchain is needed: put its bin/, where rt is, on the PATH\n"))

    def test_no_such_program(self):
        self.assertEqual(run(self.folder / "tools/run", "tram"), (1, "", "tools/run: there is no program tram; there are test_replay train\n"))
        self.assertEqual(run(self.folder / "tools/run")[0], 2)

    def test_through_a_link(self):
        link = self.folder / "link"
        link.symlink_to(ROOT / "tools" / "run")
        with open(EXAMPLE, "rb") as sheet:
            status, out, said = run(link, "train", given=sheet, cwd=self.folder)
        self.assertEqual((status, out, said), (0, (ROOT / "examples" / "example.out").read_text(), ""))


class Compare(unittest.TestCase):
    """A record, or what is expected of a call, is spoiled: the comparison must fail."""

    def feed(self, program, groups, *more):
        return run(ORACLE, "feed", "--seed", "1", "--count", "300", "--only", groups, *more, "--", "tools/run", program)

    def test_records(self):
        for program, groups in [("test_replay", "elementary"), ("test_replay_films", "thin_film,names"), ("test_replay_shorthand", "shorthand"), ("test_replay_born_wolf", "born_wolf"), ("test_replay_train", "sheet,train")]:
            with self.subTest(program):
                self.assertEqual(self.feed(program, groups)[0], 0)
                for spoiled in ["0", "150", "299"]:
                    status, out, said = self.feed(program, groups, "--spoil", spoiled)
                    self.assertEqual((status, " differs\n" in out, " 1 of " in said), (1, True, True), said)

    def test_names(self):
        _, out, _ = self.feed("test_replay", "elementary")
        self.assertTrue(out.startswith("sin: "), out)
        self.assertNotIn("function", out)

    def test_a_program_of_other_functions(self):
        self.assertEqual(self.feed("test_replay", "thin_film")[0], 1)

    def test_no_records(self):
        status, _, said = run(ORACLE, "feed", "--count", "0", "--", "tools/run", "test_replay")
        self.assertEqual((status, "no record was sent" in said), (1, True))
        self.assertEqual(run(ORACLE, "check")[0], 1)

    def test_libraries(self):
        self.assertEqual(run(ORACLE, "compare", "--count", "100")[0], 0)
        self.assertEqual(run(ORACLE, "compare", "--count", "0")[0], 1)
        status, out, _ = run(ORACLE, "compare", "--count", "100", "--spoil", "5")
        # one answer of each function is spoiled, and of each of the two that take sheets
        self.assertEqual((status, set(re.findall(r"(\d+) of 100 agree", out)), out.count("9 of 10 sheets agree")), (1, {"99"}, 2), out)
        self.assertGreaterEqual(out.count("99 of 100 agree"), 34, out)

    def test_counts(self):
        for words in [["x"], ["1", "many"], ["1", "9"], ["1", "0"]]:
            self.assertEqual(run("tools/compare", *words)[0], 1)


class Spoiled(Folder):
    """A stored output or the header is another: the test that looks at it must fail. The rest is the repository's own."""

    def setUp(self):
        super().setUp()
        shutil.rmtree(self.folder / "crates")
        for name in ["crates", "crates.txt", "target"]:
            (self.folder / name).symlink_to(ROOT / name)
        for name in ["examples", "include", "tests"]:
            shutil.copytree(ROOT / name, self.folder / name)

    def spoil(self, name, old, new):
        text = (self.folder / name).read_text()
        self.assertIn(old, text)
        (self.folder / name).write_text(text.replace(old, new, 1))

    def fails(self, tool, said):
        status, out, error = run(self.folder / "tools" / tool, cwd=self.folder)
        self.assertEqual((status, said in out + error), (1, True), out + error)

    def test_sheets(self):
        self.spoil("examples/example.out", "3FE8", "3FE9")
        self.fails("test_train", "1 failed")

    def test_examples(self):
        for language in ["c", "rust"]:
            kept = (self.folder / "examples" / language / "example.out").read_text()
            self.spoil(f"examples/{language}/example.out", "sum 3FE8", "sum 3FE9")
            self.fails("examples", f"the example in {language} printed something else")
            (self.folder / "examples" / language / "example.out").write_text(kept)

    def test_hostile_input(self):
        self.spoil("include/dihkelu.h", "#define DIHKELU_BARE 53", "#define DIHKELU_BARE 54")
        self.fails("hostile", "a count that its first number denies")

    def test_header(self):
        kept = (self.folder / "include/dihkelu.h").read_text()
        for old, new, said in [
            ("__attribute__((warn_unused_result))", "", "no warning: a result that is thrown away"),
            ("0x3FF0000000000002u", "0x3FF0000000000001u", "tests/header.c fails"),
            ("0x0008000000000000u", "0x0000000000000000u", "tests/header.c fails"),
            ("(uint32_t)(returned >> 32)", "(uint32_t)returned", "tests/header.c fails"),
        ]:
            with self.subTest(old):
                self.spoil("include/dihkelu.h", old, new)
                self.fails("test_header", said)
                (self.folder / "include/dihkelu.h").write_text(kept)


class Stale(unittest.TestCase):
    def test_a_library_of_other_code(self):
        """A library whose stamp is another than its crate's is written anew, one that is as it should be is left alone."""
        library, stamp = ROOT / "target/staticlib/libc_scalars.a", ROOT / "target/staticlib/c_scalars.stamp"
        script = 'set -euo pipefail; . tools/lib.sh; libraries c_scalars'
        self.assertEqual(run("bash", "-c", script)[0], 0)
        kept = library.read_bytes()
        library.write_bytes(b"left as it is")
        self.assertEqual(run("bash", "-c", script)[0], 0)
        self.assertEqual(library.read_bytes(), b"left as it is")
        stamp.write_text("another\n")
        self.assertEqual(run("bash", "-c", script)[0], 0)
        self.assertEqual(library.read_bytes()[:8], kept[:8])
        library.unlink()
        self.assertEqual(run("bash", "-c", script)[0], 0)
        self.assertTrue(library.exists())


class Library(Folder):
    """tools/test_library over archives that a compiler wrote: it fails where a function is called that they do not have, or nothing is exported."""

    RT = """#!/bin/sh
case $1 in
lib) name=$(basename "$PWD"); mkdir -p out; cc -c -x c -o out/$name.o ../../code.c && ar rc out/lib$name.a out/$name.o ;;
esac
"""

    def setUp(self):
        super().setUp()
        self.write("crates.txt", "c_scalars_c staticlib:\ndihkelu_c staticlib:\n")
        for name in ["c_scalars_c", "dihkelu_c"]:
            self.write(f"crates/{name}/src/lib.rt", "")

    COPIES = """void *memcpy(void *, const void *, unsigned long);
void dihkelu_answers(void *to, const void *from, unsigned long n) { memcpy(to, from, n); }
void dihkelu_answers_at(void *to, const void *from, unsigned long n) { memcpy(to, from, n); }
"""

    def test_undefined(self):
        self.write("bin/rt", self.RT)
        for code, status, said in [
            ("double dihkelu_half(double x) { return x / 2; }", 1, "memcpy or memset is called in target/staticlib/libdihkelu.a from: none"),
            (self.COPIES, 1, "memcpy or memset is called in target/staticlib/libc_scalars.a from: dihkelu_answers dihkelu_answers_at"),
            ("double other(double); double dihkelu_half(double x) { return other(x); }", 1, "undefined in target/staticlib/libc_scalars.a: other"),
            ("double half(double x) { return x / 2; }", 1, "target/staticlib/libc_scalars.a exports nothing"),
        ]:
            with self.subTest(code):
                shutil.rmtree(self.folder / "target", ignore_errors=True)
                self.write("code.c", code)
                found, out, err = run(self.folder / "tools/test_library", PATH=f"{self.folder}/bin:{os.environ['PATH']}")
                self.assertEqual((found, said in out + err), (status, True), out + err)


class Everything(Folder):
    """tools/test with parts that are told what to do: its last line is that of `rt ci` only where all of it passed."""

    PARTS = ["check_claims", "check_layers", "guess_table", "test_claims.py", "check_contracts", "test_contracts.py", "wrong_programs", "test_train", "test_sheet.py", "test_python", "test_tools.py", "test_library", "test_header", "examples", "hostile", "compare", "test_printer.py", "test_release", "fuzz", "cargo"]
    RT = """#!/bin/sh
case $1 in
ci) [ "$#" = 1 ] || exit 1; ls crates/*/out/* 2> /dev/null; echo "some crate proved"; echo "rt: ok; handles allowed: none; must-fail edits: 9 refused$BAD; every proof and must-fail edit was done in this run"; echo "$LAST"; exit "$STATUS" ;;
lib) [ -z "$BROKEN" ] || exit 1; mkdir -p out; echo 1 > "out/lib$(basename "$PWD").a" ;;
doc) echo "$KIT/START-HERE.md" ;;
run) name=$(basename "$PWD"); mkdir -p out; echo 1 > out/$name; chmod +x out/$name; echo "rt: running out/$name; to give it other input, run that file yourself" >&2; exit 3 ;;
esac
"""

    def setUp(self):
        super().setUp()
        programs = ["train", "test_replay", "test_replay_films", "test_replay_shorthand", "test_replay_born_wolf", "test_replay_train"]
        for name in programs:
            self.write(f"crates/{name}/src/main.rt", "")
        for name in ["c_scalars_c", "dihkelu_c"]:
            self.write(f"crates/{name}/src/lib.rt", "")
        # what builds a static library over the libraries that rt ci has left
        self.write("kit/bin/rattle", '#!/bin/sh\n[ -z "$BROKEN" ] || exit 1\nfor word; do :; done\necho 1 > "$word"\n')
        self.write("crates.txt", "".join(f"{name}:\n" for name in programs) + "c_scalars_c staticlib:\ndihkelu_c staticlib:\n")

    def everything(self, *words, last="12 passed, 0 failed", status=0, failing=None, command=("tools/test",), bad=""):
        self.write("bin/rt", self.RT)
        for name in ["rustc", "cc", "valgrind"]:
            self.write(f"bin/{name}", "#!/bin/sh\n")
        # the oracle is built with cargo too: only its tests fail
        self.write("bin/cargo", f'#!/bin/sh\n[ "$1" = build ] || exit {int(failing == "cargo")}\n')
        for name in self.PARTS[:-1]:
            ended = int(name == failing)
            self.write(f"tools/{name}", f"import sys\nsys.exit({ended})\n" if name.endswith(".py") else f"#!/bin/sh\nexit {ended}\n")
        found, out, _ = run(*command, *words, cwd=self.folder, PATH=f"{self.folder}/bin:{os.environ['PATH']}", LAST=last, STATUS=str(status), BAD=bad, KIT=str(self.folder / "kit"), BROKEN="yes" if failing == "build" else "")
        return found, out.splitlines()[-1]

    def test_all_passed(self):
        self.assertEqual(self.everything(), (0, "12 passed, 0 failed"))

    def test_the_gate(self):
        shutil.copytree(ROOT / ".ci", self.folder / ".ci")
        gate = ("bash", ".ci/run")
        self.assertEqual(self.everything(command=gate), (0, "12 passed, 0 failed"))
        self.assertEqual(self.everything(command=gate, failing="hostile"), (1, "tools/test: FAILED: hostile input"))

    def test_ci_left_out(self):
        self.assertEqual(self.everything("--no-ci", status=1), (0, "tools/test: all parts passed; rt ci was left out"))

    def test_ci_failed(self):
        for last, status in [("11 passed, 1 failed", 1), ("12 passed, 0 failed", 1), ("11 passed, 1 failed", 0), ("0 passed, 0 failed", 0), ("rt: ok", 0)]:
            found, said = self.everything(last=last, status=status)
            self.assertEqual((found, said.startswith("tools/test: FAILED: rt ci")), (1, True), said)

    def test_a_bad_edit(self):
        found, said = self.everything(bad=", 1 bad")
        self.assertEqual((found, said.startswith("tools/test: FAILED: rt ci has bad must-fail edits")), (1, True), said)
        self.assertEqual(self.everything(bad=", 2 of them only by a limit"), (0, "12 passed, 0 failed"))

    def test_a_part_failed(self):
        for part in self.PARTS:
            found, last = self.everything(failing=part)
            self.assertEqual((found, last.startswith("tools/test: FAILED: ")), (1, True), part)

    def test_the_build_failed(self):
        found, said = self.everything(failing="build")
        self.assertEqual((found, said.startswith(f"tools/test: failed: {self.folder}/kit/bin/rattle build --crate-name c_scalars_c ")), (1, True), said)
        self.write("crates/dihkelu_c/src/lib.rt", "// another than rt ci proved\n")
        self.assertEqual(self.everything("--no-ci", failing="build"), (1, "tools/test: failed: rt lib"))

    def test_other_words(self):
        self.assertNotEqual(run(self.folder / "tools/test", "--no-cj")[0], 0)


if __name__ == "__main__":
    unittest.main(argv=[sys.argv[0], *sys.argv[1:]])
