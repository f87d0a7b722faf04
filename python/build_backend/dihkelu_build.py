"""Builds the package with the standard library and a C compiler alone, so that `pip install ./python` needs no network.

A backend after PEP 517 and PEP 660. The library is compiled into the wheel; a source archive carries its C. Nothing is left in the tree.
"""
from __future__ import annotations

import base64
import hashlib
import io
import os
import pathlib
import re
import shutil
import subprocess
import sysconfig
import tarfile
import tempfile
import zipfile

HERE = pathlib.Path(__file__).resolve().parent.parent
LIBRARY = "dihkelu/_library.so"
TIME = (2020, 1, 1, 0, 0, 0)  # of every file, so that the same source gives the same archive
FLAGS = ["-std=c11", "-O3", "-ffp-contract=off", "-fPIC", "-shared"]


# ---- what the package is


def project(key: str) -> str:
    """A text of pyproject.toml's table [project]."""
    found = re.search(rf'^{key} = "(.*)"$', (HERE / "pyproject.toml").read_text("utf-8"), re.M)
    assert found is not None, key
    return found[1]


def version() -> str:
    """Major, minor and patch, from the header."""
    found = re.search(r'^#define DIHKELU_VERSION_TEXT "(.*)"$', (HERE / "source" / "dihkelu.h").read_text("utf-8"), re.M)
    assert found is not None
    return found[1]


def tag() -> str:
    """Any Python 3 on this kind of machine: the library is loaded by ctypes."""
    return "py3-none-" + re.sub(r"[^A-Za-z0-9_]", "_", sysconfig.get_platform())


def metadata() -> str:
    lines = ["Metadata-Version: 2.1", f"Name: {project('name')}", f"Version: {version()}", f"Summary: {project('description')}"]
    lines += [f"License: {project('license')}", f"Requires-Python: {project('requires-python')}"]
    lines += ["Provides-Extra: arrays", 'Requires-Dist: numpy; extra == "arrays"']
    lines += ["Provides-Extra: pictures", 'Requires-Dist: matplotlib>=3.5; extra == "pictures"']
    return "\n".join([*lines, "Description-Content-Type: text/markdown", "", (HERE / "README.md").read_text("utf-8")])


def information() -> dict[str, bytes]:
    """The files of the folder .dist-info, but for the list of them all."""
    wheel = f"Wheel-Version: 1.0\nGenerator: dihkelu_build\nRoot-Is-Purelib: false\nTag: {tag()}\n"
    files = {"METADATA": metadata().encode(), "WHEEL": wheel.encode(), "entry_points.txt": b"[console_scripts]\ndihkelu = dihkelu.command:main\n"}
    return files | {name.name: name.read_bytes() for name in licences()}


def licences() -> list[pathlib.Path]:
    return sorted([*HERE.glob("LICENSE*"), *HERE.glob("NOTICE*")])


def modules() -> dict[str, bytes]:
    """The package's own files: code, data, and the mark that it has types."""
    taken = [path for path in sorted((HERE / "dihkelu").iterdir()) if path.suffix in (".py", ".json") or path.name == "py.typed"]
    return {f"dihkelu/{path.name}": path.read_bytes() for path in taken}


def pages() -> dict[str, bytes]:
    return {path.name: path.read_bytes() for path in sorted((HERE / "man").glob("*.1"))}


# ---- the library


def compiler() -> str:
    for name in [os.environ.get("CC", ""), "cc", "gcc", "clang"]:
        if name and shutil.which(name.split()[0]):
            return name
    raise SystemExit("dihkelu: there is no C compiler: install one (Debian: apt-get install gcc), or name it in the environment variable CC")


def compiled() -> bytes:
    """The library, built in a folder that is removed."""
    with tempfile.TemporaryDirectory() as folder:
        out = os.path.join(folder, "library")
        command = [*compiler().split(), *FLAGS, str(HERE / "source" / "dihkelu.c"), "-o", out, "-lm"]
        done = subprocess.run(command, capture_output=True, text=True)
        if done.returncode:
            raise SystemExit(f"dihkelu: the library is not compiled by {' '.join(command)}:\n{done.stderr.strip()}")
        return pathlib.Path(out).read_bytes()


# ---- wheels


def recorded(files: dict[str, bytes], record: str) -> bytes:
    """The list of a wheel's files with their hashes."""
    lines = []
    for name, data in files.items():
        digest = base64.urlsafe_b64encode(hashlib.sha256(data).digest()).rstrip(b"=").decode()
        lines.append(f"{name},sha256={digest},{len(data)}\n")
    return "".join([*lines, f"{record},,\n"]).encode()


def write_wheel(folder: str, files: dict[str, bytes]) -> str:
    stem = f"{project('name')}-{version()}"
    files = files | {f"{stem}.dist-info/{name}": data for name, data in information().items()}
    files[f"{stem}.dist-info/RECORD"] = recorded(files, f"{stem}.dist-info/RECORD")
    name = f"{stem}-{tag()}.whl"
    with zipfile.ZipFile(os.path.join(folder, name), "w", zipfile.ZIP_DEFLATED) as wheel:
        for path, data in files.items():
            one = zipfile.ZipInfo(path, TIME)
            one.compress_type, one.external_attr = zipfile.ZIP_DEFLATED, (0o755 if path == LIBRARY else 0o644) << 16
            wheel.writestr(one, data)
    return name


def build_wheel(wheel_directory, config_settings=None, metadata_directory=None) -> str:
    stem = f"{project('name')}-{version()}"
    manual = {f"{stem}.data/data/share/man/man1/{name}": data for name, data in pages().items()}
    return write_wheel(wheel_directory, modules() | {LIBRARY: compiled()} | manual)


def build_editable(wheel_directory, config_settings=None, metadata_directory=None) -> str:
    """The package stays where it is; the library is then built in c/build at its first use."""
    return write_wheel(wheel_directory, {"dihkelu.pth": f"{HERE}\n".encode()})


# ---- the source archive


def sources() -> dict[str, bytes]:
    """Everything that a wheel is built from, links as what they lead to."""
    taken = [HERE / "pyproject.toml", HERE / "README.md", *licences(), *sorted((HERE / "source").iterdir()), *sorted((HERE / "man").iterdir())]
    files = {path.relative_to(HERE).as_posix(): path.read_bytes() for path in [*taken, pathlib.Path(__file__).resolve()]}
    return modules() | files


def build_sdist(sdist_directory, config_settings=None) -> str:
    stem = f"{project('name')}-{version()}"
    with tarfile.open(os.path.join(sdist_directory, f"{stem}.tar.gz"), "w:gz", format=tarfile.PAX_FORMAT) as archive:
        for path, data in (sources() | {"PKG-INFO": metadata().encode()}).items():
            one = tarfile.TarInfo(f"{stem}/{path}")
            one.size, one.mtime = len(data), 1577836800
            archive.addfile(one, io.BytesIO(data))
    return f"{stem}.tar.gz"
