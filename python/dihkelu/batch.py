"""Many sheets at once, on all cores; one that is refused does not stop the rest."""
from __future__ import annotations

import concurrent.futures
import os
import struct
import sys
import time
from pathlib import Path
from typing import Callable, Iterable, Iterator, NamedTuple

from . import explain, text
from .calls import run as run_sheet
from .files import Failed, load
from .refusals import Refused
from .reports import percent_of, powers
from .words import Wrong

ALONE_S = 0.2  # so many seconds are worked without other processes
ENDINGS = (".txt", ".text", ".sheet")  # of the files that are taken from a folder, in letters of either size


class Result(NamedTuple):
    """A file's powers after its last surface, or why it has none. `status` is that of the command for this file alone."""

    file: str
    status: int
    surfaces: int | None = None
    s: float | None = None
    p: float | None = None
    sum: float | None = None
    lost_percent: float | None = None
    refused: str = ""
    hints: tuple[str, ...] = ()


def one(name: str) -> Result:
    """A file, text or sheet. A sheet's bytes go to the library as they are; what is wrong with one that is refused is then looked for."""
    try:
        data = load(name)
        if text.is_text(data):
            return _of_text(name, data)
        try:
            after = run_sheet(data)
        except Refused:
            after = powers(explain.read_sheet(data))
        return _result(name, _BEAM.unpack_from(data, 16), after, explain.sheet_hints(data, after))
    except Wrong as wrong:
        return Result(name, 2 if isinstance(wrong, Failed) else 1, refused=str(wrong))


def _of_text(name: str, data: bytes) -> Result:
    made = text.read(data).make()
    after = powers(made)
    return _result(name, (made.sheet.s, made.sheet.p), after, explain.hints(made, after))


def _result(name: str, beam: tuple[float, ...], after: list[tuple[float, float]], hints: list[str]) -> Result:
    start = sum(beam)
    s, p = after[-1] if after else beam
    return Result(name, 0, len(after), s, p, s + p, percent_of(start - (s + p), start), hints=tuple(hints))


_BEAM = struct.Struct(">2d")


def files(names: Iterable[str]) -> list[str]:
    """The files; of a folder and the folders in it the texts and sheets, by their endings."""
    found: list[str] = []
    for name in names:
        try:
            found += in_folder(name) if os.path.isdir(name) else [name]
        except OSError as error:
            raise Failed(f"{name} cannot be read: {error.strerror}") from None
    return found


def in_folder(name: str) -> list[str]:
    paths = sorted(path for path in Path(name).rglob("*") if path.is_file())
    taken = [str(path) for path in paths if path.suffix.lower() in ENDINGS]
    if not taken:
        raise Failed(f"{name} has no text and no sheet: no file in it ends with {', '.join(ENDINGS)}; name the files themselves")
    return taken


def left_out(names: Iterable[str]) -> list[str]:
    """What is said of a folder's other files."""
    said = []
    for name in names:
        others = sorted({path.suffix or path.name for path in Path(name).rglob("*") if path.is_file() and path.suffix.lower() not in ENDINGS}) if os.path.isdir(name) else []
        if others:
            said.append(f"{name}: files that end with none of {', '.join(ENDINGS)} are left out: {', '.join(others[:8])}{' ..' if len(others) > 8 else ''}")
    return said


def run(names: list[str], jobs: int | None = None, done: Callable[[int], None] = lambda count: None) -> list[Result]:
    """The results in the files' order; `done` is told how many there are."""
    jobs = jobs or os.cpu_count() or 1
    results = []
    for result in _results(names, jobs):
        results.append(result)
        done(len(results))
    return results


def _results(names: list[str], jobs: int) -> Iterator[Result]:
    """In this process for as long as others would take to start; what is left then, in all of them."""
    ends, count = time.perf_counter() + ALONE_S, 0
    for count, name in enumerate(names, 1):
        yield one(name)
        if jobs > 1 and time.perf_counter() > ends:
            break
    rest = names[count:]
    if rest:
        with concurrent.futures.ProcessPoolExecutor(jobs) as pool:
            yield from pool.map(one, rest, chunksize=max(1, min(1000, len(rest) // (4 * jobs))))


def bar(total: int) -> Callable[[int], None]:
    """A progress bar on standard error, where that is a terminal."""
    if sys.stderr is None or not sys.stderr.isatty():
        return lambda count: None
    every = max(1, total // 100)

    def show(count: int) -> None:
        if count % every == 0 or count == total:
            filled = 40 * count // max(total, 1)
            print(f"\r[{'#' * filled}{' ' * (40 - filled)}] {count} of {total}", end="\n" if count == total else "", file=sys.stderr, flush=True)

    return show
