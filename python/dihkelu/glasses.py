"""Glasses by name: the index at a wavelength by the published formula, within its range.

The table is glasses.json, which the page in web/ has too. Its coefficients are written from memory of the papers and of the maker's
data sheet; a test holds each glass to a well-known index.
Films of TiO2, Ta2O5 and other oxides are left out: their index depends on how the film was made, so that the coating maker's own
coefficients belong into a `material` line. Air is 1, as in the sheets.
"""
from __future__ import annotations

import json
import math
import re
from dataclasses import dataclass
from pathlib import Path
from typing import Any

from .words import quoted, suggested


class UnknownGlass(ValueError):
    """No glass of the table has this name."""


class OutOfRange(ValueError):
    """The formula is not known at this wavelength."""


@dataclass(frozen=True, eq=False)
class Glass:
    """n^2 = constant + the sum of b u^2 / (u^2 - c) over `terms`, (b, c) each, u being the wavelength in micrometres.

    A glass without a range has the same index at every wavelength."""

    name: str
    constant: float
    terms: tuple[tuple[float, float], ...] = ()
    from_nm: float = 0.0
    to_nm: float = math.inf
    source: str = ""
    remark: str = ""

    def index(self, wavelength_nm: float) -> float:
        """The index at a wavelength."""
        if not self.from_nm <= wavelength_nm <= self.to_nm:
            known = f"{self.name} is known from {self.from_nm:g} to {self.to_nm:g} nm ({self.source})"
            raise OutOfRange(f"{known}; the wavelength is {wavelength_nm!r} nm")
        u = wavelength_nm / 1000
        u2, total = u * u, 0.0
        for b, c in self.terms:  # one rounding after the other, as the page has it; some Pythons' sum has fewer
            total += b * u2 / (u2 - c)
        return math.sqrt(self.constant + total)

    @property
    def coloured(self) -> bool:
        """Whether its index changes with the wavelength."""
        return bool(self.terms)

    def formula(self) -> str:
        """The formula in words, for people."""
        terms = " + ".join(f"{b!r} u2/(u2 - {c!r})" for b, c in self.terms)
        return f"n = {math.sqrt(self.constant):g}" if not terms else f"n2 = {self.constant!r} + {terms}"


def _glass(given: dict[str, Any]) -> Glass:
    """A glass of the table's file."""
    given = dict(given)
    resonances = given.pop("resonances", [])
    terms = [(b, c) for b, c in given.pop("terms", [])] + [(b, r * r) for b, r in resonances]
    return Glass(terms=tuple(terms), **given)


_FILE = json.loads((Path(__file__).resolve().parent / "glasses.json").read_text("utf-8"))
TABLE = {one["name"]: _glass(one) for one in _FILE["glasses"]}
OTHER_NAMES: dict[str, str] = _FILE["other_names"]
LEFT_OUT: list[str] = _FILE["left_out"]


def key(name: str) -> str:
    """A name without what people write in different ways: small letters, no hyphens, spaces or points."""
    return re.sub(r"[-_. ]", "", name.lower())


_BY_KEY = {key(name): of for name, of in [*zip(TABLE, TABLE), *OTHER_NAMES.items()]}


def is_named(name: str) -> bool:
    """Whether a glass has this name."""
    return key(name) in _BY_KEY


def glass(name: str) -> Glass:
    """The glass of a name, in letters of either size, with hyphens or without."""
    if key(name) in LEFT_OUT:
        made = "a film's index depends on how it was made"
        raise UnknownGlass(f"{quoted(name)} has no index by its name: {made}; give the maker's coefficients, material {name} a .. b .. c .., or a number")
    if key(name) not in _BY_KEY:
        names = [*TABLE, *OTHER_NAMES]
        raise UnknownGlass(f"there is no glass {quoted(name)}{suggested(name, names)}; there are {', '.join(names)}")
    return TABLE[_BY_KEY[key(name)]]
