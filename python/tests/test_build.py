"""Tests of the build: what a wheel and a source archive have in them, and what is said without a compiler."""
import base64
import csv
import hashlib
import io
import pathlib
import subprocess
import sys
import tarfile
import tempfile
import unittest
import zipfile
from unittest import mock

from common import ROOT

sys.path.insert(0, str(ROOT / "python" / "build_backend"))
import dihkelu_build


class Build(unittest.TestCase):
    def setUp(self):
        kept = tempfile.TemporaryDirectory()
        self.addCleanup(kept.cleanup)
        self.folder = pathlib.Path(kept.name)

    def wheel(self):
        """A wheel with some bytes for the library, which takes seconds to compile."""
        with mock.patch.object(dihkelu_build, "compiled", return_value=b"library"):
            return self.folder / dihkelu_build.build_wheel(str(self.folder))

    def test_wheel(self):
        """Every module and table is in it, and its list has every file with its hash."""
        path = self.wheel()
        with zipfile.ZipFile(path) as wheel:
            files = {name: wheel.read(name) for name in wheel.namelist()}
        tracked = [one for one in (ROOT / "python" / "dihkelu").iterdir() if one.suffix in (".py", ".json", ".typed")]
        for one in tracked:
            self.assertEqual(files[f"dihkelu/{one.name}"], one.read_bytes())
        self.assertEqual(files["dihkelu/_library.so"], b"library")
        (record,) = [name for name in files if name.endswith("/RECORD")]
        rows = list(csv.reader(io.StringIO(files[record].decode())))
        self.assertEqual({row[0] for row in rows}, set(files))
        for name, digest, size in rows:
            if name != record:
                self.assertEqual((digest, int(size)), ("sha256=" + base64.urlsafe_b64encode(hashlib.sha256(files[name]).digest()).rstrip(b"=").decode(), len(files[name])))
        self.assertTrue(any(name.endswith(".data/data/share/man/man1/dihkelu.1") for name in files))

    def test_same_bytes(self):
        first = self.wheel().read_bytes()
        self.assertEqual(self.wheel().read_bytes(), first)

    def test_source_archive(self):
        """It has what a wheel is built from, links as files."""
        path = self.folder / dihkelu_build.build_sdist(str(self.folder))
        with tarfile.open(path) as archive:
            names = {member.name.split("/", 1)[1]: member for member in archive}
        for name in ("pyproject.toml", "PKG-INFO", "source/dihkelu.c", "source/dihkelu.h", "build_backend/dihkelu_build.py", "dihkelu/command.py", "dihkelu/glasses.json", "man/dihkelu.1"):
            self.assertTrue(names[name].isfile() and names[name].size > 0, name)

    def test_without_a_compiler(self):
        """One sentence that says what to do."""
        words = f"import sys; sys.path.insert(0, {str(ROOT / 'python' / 'build_backend')!r}); import dihkelu_build; dihkelu_build.build_wheel({str(self.folder)!r})"
        done = subprocess.run([sys.executable, "-c", words], capture_output=True, text=True, env={"PATH": "/nowhere"}, check=False)
        self.assertEqual((done.returncode, done.stderr.count("\n")), (1, 1), done.stderr)
        self.assertTrue(done.stderr.startswith("dihkelu: there is no C compiler: install one"))


if __name__ == "__main__":
    unittest.main()
