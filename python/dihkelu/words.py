"""Numbers and counts as people write and read them, and what is wrong in a sentence."""
from __future__ import annotations

import difflib
import math
import re
import struct
from typing import Iterable


class Wrong(Exception):
    """What is wrong, in words."""


DECIMAL = r"[+-]?(?:[0-9]+[.,]?[0-9]*|[.,][0-9]+)(?:[eE][+-]?[0-9]+)?"
UNITS = {"nm": 1.0, "um": 1000.0, "deg": math.pi / 180, "rad": 1.0}
OTHER_UNITS = {"\u00b5m": "um", "\u03bcm": "um", "\u00b0": "deg", "\u00ba": "deg", "degree": "deg", "degrees": "deg"}
_GLUED = re.compile(rf"({DECIMAL})({'|'.join([*UNITS, *OTHER_UNITS])})", re.IGNORECASE)
_THOUSANDS = re.compile(r"[+-]?[1-9][0-9]{0,2},[0-9]{3}")


def number(token: str) -> float:
    """A decimal number with a point or a comma, or the 16 hexadecimal digits of an f64's bits after 0x."""
    if re.fullmatch(r"0x[0-9A-Fa-f]{16}", token):
        return float(struct.unpack(">d", bytes.fromhex(token[2:]))[0])
    return float(decimal_text(token))


def decimal_text(token: str) -> str:
    """A decimal number as Python has it. A comma before three digits may be one of thousands, and is not guessed."""
    plain = token.replace("\u2212", "-")
    if not re.fullmatch(DECIMAL, plain):
        raise Wrong(f"{quoted(token)} is no number")
    if _THOUSANDS.fullmatch(plain):
        raise Wrong(f"{quoted(token)} may be {plain.replace(',', '.')} or {plain.replace(',', '')}: write one of these")
    return plain.replace(",", ".")


def apart(token: str) -> list[str]:
    """A number and the unit that stands right behind it; any other word as it is."""
    found = _GLUED.fullmatch(token.replace("\u2212", "-"))
    return [found[1], found[2]] if found else [token]


def unit(word: str) -> str:
    """A unit by the name that UNITS has it by."""
    return OTHER_UNITS.get(word.lower(), word.lower())


def quoted(token: str) -> str:
    """A word in a sentence: cut where it is long, and on one line."""
    text = token if len(token) <= MOST_SHOWN else token[: MOST_SHOWN - 2] + ".."
    return f"'{printable(text)}'"


MOST_SHOWN = 60  # characters of what was given


def printable(text: str) -> str:
    """In one line, whatever stands in it."""
    return "".join(c if c.isprintable() else c.encode("unicode_escape").decode() for c in text)


def suggested(word: str, names: Iterable[str]) -> str:
    """The names that a word may have been meant for, in brackets."""
    close = difflib.get_close_matches(word.lower(), list(names), 2)
    return f" (did you mean {' or '.join(close)}?)" if close else ""


def written(x: float) -> str:
    """The shortest number that reads back to the same bits."""
    if math.isnan(x) or math.isinf(x):
        return "0x" + struct.pack(">d", x).hex().upper()
    text = repr(x)
    return text[:-2] if text.endswith(".0") else text


def counted(count: int, what: str) -> str:
    return f"{count} {what}" + ("" if count == 1 else "s")


def where(line: int | None) -> str:
    """Before a sentence: the text's line."""
    return f"line {line}: " if line else ""


def in_line(line: int | None) -> str:
    """Within a sentence: the text's line."""
    return f" (line {line})" if line else ""
