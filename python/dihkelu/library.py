"""The shared library: found, or built from its C source where there is a compiler.

In order: the file that the environment variable DIHKELU_LIBRARY names; the one built into the package when it was installed; in the
repository c/build/libdihkelu.so, which is built where it is missing or older than its source; the system's.
"""
from __future__ import annotations

import ctypes
import ctypes.util
import os
import pathlib
import shutil
import struct
import subprocess
import sys
from typing import Any

VERSION = 0x00000004  # of the header that these calls are of: major times 2^16 plus minor
HERE = pathlib.Path(__file__).resolve().parent

Bytes, Numbers = ctypes.c_char_p, ctypes.c_void_p  # doubles: an array of ctypes, or a place in one
U32, U64, Size, Double = ctypes.c_uint32, ctypes.c_uint64, ctypes.c_size_t, ctypes.c_double
Count = ctypes.POINTER(U32)
SHEET = [Bytes, Size]
LIST = [Numbers, Size]
CALLS = {
    "gate": SHEET,
    "start": SHEET + [Count, Numbers, Numbers, Numbers],
    "step": SHEET + [Count, Numbers, Numbers, Numbers],
    "retune": SHEET + [U32, Numbers, Double],
    "run": SHEET + LIST,
    "edition_1": SHEET + [ctypes.POINTER(ctypes.c_uint8), Size],
    "band": SHEET + LIST + [Count, Size] + LIST,
    "answers": SHEET + [U32] + LIST,
    "answers_at": SHEET + [U32, Double] + LIST,
    "evaluate": [U32] + [Double] * 5 + LIST + LIST,
    "evaluate_list": [U32] + [Double] * 3 + LIST * 4,
    "invalid_argument": [Double] * 4,
    "stack": SHEET + [Double] * 4 + LIST,
    "to_mueller": LIST + LIST,
    "mueller_born_wolf": LIST + LIST,
    "reflectance_range": [Double] * 4 + LIST,
    "quarter_waves": [Double] * 3 + [Numbers],
    "fresnel_dielectric": [Double] * 3 + LIST,
    "fresnel_unpolarized": [Double] * 3 + LIST,
    "schlick_approx": [Double] * 3 + LIST,
    "surface_fresnel_jones": [Double] * 3 + LIST,
    "quarter_wave_ar": [Double] * 3 + LIST,
    "bragg_mirror": [Double, Double, U32, Double] + LIST,
    "coating_from_name": SHEET,
    "coating_name": [U32, ctypes.POINTER(ctypes.c_uint8), Size],
    "trim": SHEET + [ctypes.POINTER(U64)] * 2,
    "to_stokes": LIST * 2,
    "jones_normalize": LIST * 2,
    "jones_intensity": LIST * 2,
    "stokes_figures": LIST * 2,
    "jones_apply": LIST * 3,
    "jones_mul": LIST * 3,
    "mueller_apply": LIST * 3,
    "diattenuator": LIST * 2,
    "linear_polarizer": [Double] + LIST,
    "retarder": [Double] * 2 + LIST,
    "quarter_wave_plate": [Double] + LIST,
    "half_wave_plate": [Double] + LIST,
}


class LibraryMissing(OSError):
    """There is no library that can be loaded, or it is of another version."""


class WrongEnvironment(RuntimeError):
    """Subnormal numbers are flushed to zero, or rounding is not to nearest: no answer would be right."""


def environment_ok() -> bool:
    """Whether this thread's floating-point environment is one that the answers are right in, as the header's own test finds out."""
    least, tie = sys.float_info.min, sys.float_info.epsilon / 2
    half = least * 0.5
    found = [half, half + half, 1.0 + tie, -1.0 - tie, 1.0 + 3.0 * tie]
    wanted = ["0008000000000000", "0010000000000000", "3ff0000000000000", "bff0000000000000", "3ff0000000000002"]
    return [struct.pack(">d", x).hex() for x in found] == wanted


def in_repository() -> pathlib.Path | None:
    """The library of the repository that this file stands in, built anew where its source is newer."""
    source = HERE.parent.parent / "c"
    if not (source / "Makefile").exists():
        return None
    library = source / "build" / "libdihkelu.so"
    newest = max((source / name).stat().st_mtime for name in ("dihkelu.c", "dihkelu.h"))
    if not library.exists() or library.stat().st_mtime < newest:
        build(source, library)
    return library


def build(source: pathlib.Path, library: pathlib.Path) -> None:
    """By make, with a word about it: it takes some seconds."""
    if sys.stderr is not None:
        print(f"dihkelu: building {library} from its C source; this is done once and takes some seconds", file=sys.stderr, flush=True)
    otherwise = "or build libdihkelu.so where you may write and name it in the environment variable DIHKELU_LIBRARY"
    if shutil.which("make") is None:
        raise LibraryMissing(f"the library cannot be built: there is no make; install make and a C compiler, {otherwise}")
    done = subprocess.run(["make", "-s", "-C", str(source), "build/libdihkelu.so"], capture_output=True, text=True)
    if done.returncode:
        said = [line for line in done.stderr.splitlines() if line.strip()]
        why = next((line for line in said if not line.startswith("make")), said[0] if said else f"make ended with {done.returncode}")
        raise LibraryMissing(f"the library cannot be built in {library.parent} ({why.strip()}): install a C compiler and make that folder writable, {otherwise}")


def found() -> str:
    if named := os.environ.get("DIHKELU_LIBRARY"):
        return named
    for path in sorted(HERE.glob("_library*")):
        return str(path)
    if built := in_repository():
        return str(built)
    if system := ctypes.util.find_library("dihkelu"):
        return system
    raise LibraryMissing("there is no libdihkelu: install it (python/README.md says how), or say where it is in the environment variable DIHKELU_LIBRARY")


def load() -> ctypes.CDLL:
    path = found()
    advice = "name another one in the environment variable DIHKELU_LIBRARY, or leave it out"
    try:
        library = ctypes.CDLL(path)
        library.dihkelu_version.restype = U32
        library.dihkelu_version.argtypes = []
    except (OSError, AttributeError) as e:
        raise LibraryMissing(f"{path} cannot be loaded as the library ({e}): {advice}") from e
    if library.dihkelu_version() != VERSION:
        raise LibraryMissing(f"{path} is of version {library.dihkelu_version():#010x}, these calls are of {VERSION:#010x}: {advice}")
    for name, arguments in CALLS.items():
        call = getattr(library, "dihkelu_" + name, None)
        if call is None:
            raise LibraryMissing(f"{path} has no dihkelu_{name}, so that it is older than these calls: {advice}")
        call.restype, call.argtypes = U64, arguments
    if not environment_ok():
        raise WrongEnvironment("subnormal numbers are flushed to zero or rounding is not to nearest: a library that was loaded has changed that")
    return library


class Library:
    """The library, which is loaded when its first call is asked for."""

    def __getattr__(self, name: str) -> Any:
        library = load()
        for one in ["version", *CALLS]:
            setattr(self, "dihkelu_" + one, getattr(library, "dihkelu_" + one))
        return self.__dict__[name]
