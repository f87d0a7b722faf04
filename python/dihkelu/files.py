"""Reading and writing of files, with a sentence where it fails."""
from __future__ import annotations

import os
import sys
from pathlib import Path

from .words import Wrong

MOST_BYTES = 10_000_000  # of a file; a sheet has 39,460 at most


class Failed(Wrong):
    """Input that cannot be read, or output that cannot be written."""


def load(name: str) -> bytes:
    """A file's bytes; `-` is standard input."""
    try:
        if name == "-":
            if sys.stdin is None:
                raise Failed("standard input is closed")
            data = sys.stdin.buffer.read(MOST_BYTES + 1)
        else:
            data = whole(name)
    except (OSError, ValueError) as error:
        raise Failed(getattr(error, "strerror", None) or error) from None
    if len(data) > MOST_BYTES:
        raise Failed(f"it has more than {MOST_BYTES} bytes: no sheet, and no text of one")
    return data


def whole(name: str) -> bytes:
    """A file's bytes up to one more than are taken, past Python's own buffers: most are small and there may be many."""
    file = os.open(name, os.O_RDONLY | getattr(os, "O_BINARY", 0))
    try:
        parts, size = [], 0
        while size <= MOST_BYTES and (part := os.read(file, 65536)):
            parts.append(part)
            size += len(part)
        return b"".join(parts)
    finally:
        os.close(file)


def save(name: str, data: bytes) -> None:
    try:
        Path(name).write_bytes(data)
    except OSError as error:
        raise Failed(f"{name} cannot be written: {error.strerror}") from None


def emit(data: bytes) -> None:
    """To standard output, all of it; a full disk is no traceback."""
    if sys.stdout is None:
        raise Failed("standard output is closed")
    try:
        sys.stdout.buffer.write(data)
        sys.stdout.buffer.flush()
    except OSError as error:
        os.dup2(os.open(os.devnull, os.O_WRONLY), sys.stdout.fileno())  # what is left goes nowhere
        raise Failed(f"the output cannot be written: {error.strerror}") from None
