"""Runs the commands of docs/GUIDE.md and the cells of examples/notebook.py: test_guide.py [--write], which writes what is printed into the guide."""
import math
import os
import pathlib
import re
import shlex
import shutil
import struct
import subprocess
import sys
import tempfile
import unittest

from common import PACKAGE, ROOT, build_train
from dihkelu import command, glasses, plots, text

GUIDE = ROOT / "docs" / "GUIDE.md"
BLOCK = re.compile(r"```console\n(.*?)```\n", re.S)


def folder(path):
    """What the commands stand in: the guide's files, the program train, and the command on the PATH."""
    shutil.copytree(ROOT / "docs" / "guide", path / "docs" / "guide")
    (path / "c").symlink_to(ROOT / "c")
    (path / "bin").mkdir()
    for name, words in [("dihkelu", "-m dihkelu "), ("python3", "")]:
        script = path / "bin" / name
        script.write_text(f'#!/bin/sh\nexec "{sys.executable}" {words}"$@"\n')
        script.chmod(0o755)
    return {**os.environ, "PYTHONPATH": str(PACKAGE), "PATH": f"{path / 'bin'}:{os.environ['PATH']}"}


def printed(command, path, environment):
    """Both outputs; without matplotlib, those of the command without its picture."""
    if not plots.available():
        command = re.sub(r" --(plot|title) (\"[^\"]*\"|\S+)", "", command)
    done = subprocess.run(["bash", "-c", command], cwd=path, env=environment, stdout=subprocess.PIPE, stderr=subprocess.STDOUT, text=True, check=False)
    return done.stdout


def commands(block):
    return [line[2:] for line in block.splitlines() if line.startswith("$ ")]


def run_guide(content, path):
    """The guide with what its commands print now."""
    environment = folder(path)

    def replaced(found):
        return "```console\n" + "".join(f"$ {command}\n{printed(command, path, environment)}" for command in commands(found[1])) + "```\n"

    return BLOCK.sub(replaced, content)


def same(wanted, found):
    """Equal but for the last digits of numbers with many: the sine of another C library may differ in its last bit."""
    long_number = re.compile(r"[0-9]+\.[0-9]{10,}|(?<=sum )[0-9A-F]{16}")
    numbers = [[float(x) if "." in x else struct.unpack(">d", bytes.fromhex(x))[0] for x in long_number.findall(one)] for one in (wanted, found)]
    close = len(numbers[0]) == len(numbers[1]) and all(math.isclose(x, y, rel_tol=1e-9) for x, y in zip(*numbers))
    return close and long_number.sub("N", wanted) == long_number.sub("N", found)


class Guide(unittest.TestCase):
    def test_commands(self):
        build_train()
        with tempfile.TemporaryDirectory() as name:
            path = pathlib.Path(name)
            content = GUIDE.read_text()
            found = run_guide(content, path)
            for wanted, now in zip(BLOCK.findall(content), BLOCK.findall(found)):
                self.assertTrue(same(wanted, now), f"the guide has:\n{wanted}\nnow printed is:\n{now}")
            self.assertGreater(len(re.findall(r"(?m)^\$ ", content)), 15)
            if plots.available():
                for picture in re.findall(r"\]\((guide/\S+\.png)\)", content):
                    self.assertGreater((path / "docs" / picture).stat().st_size, 10000)

    def test_pictures_are_there(self):
        for picture in re.findall(r"\]\((guide/\S+\.png)\)", GUIDE.read_text()):
            self.assertTrue((ROOT / "docs" / picture).read_bytes().startswith(b"\x89PNG"))


class Pages(unittest.TestCase):
    def test_commands_are_commands(self):
        """Each line of the other pages that begins with the command is one that it takes."""
        found = 0
        for page in ("README.md", "docs/SHEETS.md", "python/README.md"):
            for line in re.findall(r"(?m)^(?:python3 -m )?dihkelu (.*)$", (ROOT / page).read_text()):
                command.arguments().parse_args(shlex.split(line.split(" > ")[0]))
                found += 1
        self.assertGreater(found, 5)

    def test_readme(self):
        """The Python of README.md prints what the block after it has."""
        code, wanted = re.search(r"```python\n(.*?)```\n\n```\n(.*?)```\n", (ROOT / "README.md").read_text(), re.S).groups()
        done = subprocess.run([sys.executable, "-c", code], env={**os.environ, "PYTHONPATH": str(PACKAGE)}, capture_output=True, text=True, check=False)
        self.assertEqual((done.stdout, done.returncode), (wanted, 0), done.stderr)

    def test_forms_and_glasses(self):
        """docs/SHEETS.md has every form of a line, and every glass with its range and source."""
        page = (ROOT / "docs" / "SHEETS.md").read_text()
        for name, form in vars(text).items():
            if name.endswith("_FORM"):
                self.assertIn(form, page)
        for glass in glasses.TABLE.values():
            row = next(line for line in page.splitlines() if line.startswith(f"| `{glass.name}`"))
            if glass.coloured:
                self.assertIn(f"| {glass.from_nm:g} to {glass.to_nm:g} nm |", row)
                self.assertTrue(glass.source.split(",")[0] in row)
        for name in glasses.OTHER_NAMES:
            self.assertIn(f"`{name}`", page)


class Notebook(unittest.TestCase):
    def test_cells(self):
        """Cell after cell in one namespace, the last expression of each looked at, as notebooks do."""
        import ast

        cells = re.split(r"(?m)^# %%.*$", (ROOT / "examples" / "notebook.py").read_text())
        self.assertGreater(len(cells), 6)
        names, shown = {}, []
        for cell in cells:
            tree = ast.parse(cell)
            last = tree.body.pop() if tree.body and isinstance(tree.body[-1], ast.Expr) else None
            with tempfile.TemporaryFile("w+") as out:
                kept, sys.stdout = sys.stdout, out
                try:
                    exec(compile(tree, "cell", "exec"), names)
                    shown.append(eval(compile(ast.Expression(last.value), "cell", "eval"), names) if last else None)
                finally:
                    sys.stdout = kept
        self.assertEqual(names["made"].notes[1][:4], "mgf2")
        # a quarter wave head-on, in closed form
        n, glass = (glasses.glass(name).index(1064) for name in ("mgf2", "fused-silica"))
        reflected = ((glass - n * n) / (glass + n * n)) ** 2
        self.assertAlmostEqual(names["points"][0].lost_percent, 100 * (1 - (1 - reflected) ** 2), places=10)
        self.assertEqual(names["points"][30].lost_percent, names["found"].lost_percent)
        self.assertEqual(names["figure"] is not None, plots.available())


if __name__ == "__main__":
    if sys.argv[1:] == ["--write"]:
        build_train()
        with tempfile.TemporaryDirectory() as scratch:
            GUIDE.write_text(run_guide(GUIDE.read_text(), pathlib.Path(scratch)))
            if plots.available():
                for drawn in (pathlib.Path(scratch) / "docs" / "guide").glob("*.png"):
                    shutil.copy(drawn, ROOT / "docs" / "guide")
    else:
        unittest.main()
