"""What a coating is worth that is made with its maker's tolerances: the spread of the losses, and which layers they come from.

In each draw every layer has another index and another thickness, evenly spread between the tolerance to either side, each on its own.
Every loss is that of a sheet which the proved library has run.
"""
from __future__ import annotations

import random
import struct
from dataclasses import dataclass
from typing import Iterator, Sequence, Union

from .calls import last_powers
from .plans import Made, index_at, met
from .refusals import Refused
from .reports import percent_of, powers
from .sheet import Glass, Layer
from .words import Wrong, counted

_LAYER, _GLASS = struct.Struct(">3d"), struct.Struct(">4d")


@dataclass(frozen=True)
class Allowed:
    """A tolerance to either side: a share of the number itself, or a length or an index."""

    amount: float
    relative: bool

    def moved(self, x: float, part: float) -> float:
        """A number that is moved by a part of the tolerance, from -1 to 1."""
        return x * (1 + part * self.amount) if self.relative else x + part * self.amount


ONE_PERCENT = Allowed(0.01, True)


@dataclass(frozen=True)
class Placed:
    """A layer, counted from 1 as its surface is, and where its numbers begin in the sheet's bytes."""

    surface: int
    number: int
    at: int
    layer: Union[Layer, Glass]

    def write(self, data: bytearray, index: Allowed, index_part: float, thickness: Allowed, thickness_part: float) -> None:
        """Its numbers moved by parts of two tolerances; a glass's index by way of its coefficients."""
        one, nm = self.layer, thickness.moved(self.layer.thickness_nm, thickness_part)
        if isinstance(one, Layer):
            _LAYER.pack_into(data, self.at, index.moved(one.n, index_part), one.k, nm)
        elif index.relative:
            _GLASS.pack_into(data, self.at, *(index.moved(x, index_part) for x in (one.a, one.b, one.c)), nm)
        else:
            _GLASS.pack_into(data, self.at, index.moved(one.a, index_part), one.b, one.c, nm)


@dataclass(frozen=True)
class Draw:
    """s and p after the last surface."""

    s: float
    p: float


@dataclass(frozen=True)
class Spread:
    """Losses in percent: as designed, and over all draws."""

    of: str
    designed: float
    mean: float
    deviation: float
    least: float
    low: float  # a twentieth of the draws lose less
    middle: float
    high: float  # a twentieth lose more
    most: float


@dataclass(frozen=True)
class Weight:
    """What the loss changes, in points of percent, for one per cent of a layer's index and of its thickness, more and less."""

    surface: int
    layer: int
    n: float
    thickness_nm: float
    index_more: float | None
    index_less: float | None
    thickness_more: float | None
    thickness_less: float | None


@dataclass(frozen=True)
class Tolerance:
    spreads: list[Spread]
    weights: list[Weight]
    draws: list[Draw]
    refused: int


def placed(made: Made) -> list[Placed]:
    """The layers of the custom surfaces."""
    found, at = [], 32
    for count, surface in enumerate(made.sheet.surfaces, 1):
        at += 28 if surface.retune_nm is None else 40
        for number, layer in enumerate(surface.layers, 1):
            found.append(Placed(count, number, at + 4, layer))
            at += 36 if isinstance(layer, Glass) else 28
    if not found:
        raise Wrong("no surface has layers of its own, whose index and thickness could be others")
    return found


def drawn(made: Made, layers: Sequence[Placed], index: Allowed, thickness: Allowed, count: int, seed: int) -> Iterator[Draw | None]:
    """So many sheets with other layers; None of one that is refused."""
    data, rng = bytearray(made.sheet.to_bytes()), random.Random(seed)
    for _ in range(count):
        for layer in layers:
            layer.write(data, index, 2 * rng.random() - 1, thickness, 2 * rng.random() - 1)
        yield ran(bytes(data))


def ran(data: bytes) -> Draw | None:
    try:
        return Draw(*last_powers(data))
    except Refused:
        return None


def tolerance(made: Made, index: Allowed, thickness: Allowed, count: int = 1000, seed: int = 1) -> Tolerance:
    """The losses of so many draws from a seed; the same seed gives the same draws."""
    layers, designed = placed(made), powers(made)[-1]
    found = list(drawn(made, layers, index, thickness, count, seed))
    draws = [one for one in found if one is not None]
    if not draws:
        raise Wrong(f"all {counted(count, 'draw')} were refused: the tolerances lead outside the gate; take smaller ones")
    s, p = made.sheet.s, made.sheet.p
    lost = {"s": ([one.s for one in draws], designed[0], s), "p": ([one.p for one in draws], designed[1], p)}
    lost["both"] = ([one.s + one.p for one in draws], sum(designed), s + p)
    spreads = [spread(of, left, as_designed, start) for of, (left, as_designed, start) in lost.items() if start > 0]
    return Tolerance(spreads, weights(made, layers, sum(designed)), draws, count - len(draws))


def spread(of: str, left: Sequence[float], designed: float, start: float) -> Spread:
    lost = sorted(100 * (start - x) / start for x in left)
    mean = sum(lost) / len(lost)
    deviation = (sum((x - mean) ** 2 for x in lost) / len(lost)) ** 0.5
    low, middle, high = (lost[round(share * (len(lost) - 1))] for share in (0.05, 0.5, 0.95))
    return Spread(of, 100 * (start - designed) / start, mean, deviation, lost[0], low, middle, high, lost[-1])


def weights(made: Made, layers: Sequence[Placed], designed: float) -> list[Weight]:
    """Layer by layer, all others as they are."""
    data, start = made.sheet.to_bytes(), made.sheet.s + made.sheet.p
    wavelengths = met(made.sheet)
    found = []
    for one in layers:
        changes = []
        for index_part, thickness_part in [(1, 0), (-1, 0), (0, 1), (0, -1)]:
            moved = bytearray(data)
            one.write(moved, ONE_PERCENT, index_part, ONE_PERCENT, thickness_part)
            after = ran(bytes(moved))
            changes.append(None if after is None else percent_of(designed - (after.s + after.p), start))
        found.append(Weight(one.surface, one.number, index_at(one.layer, wavelengths[one.surface - 1]), one.layer.thickness_nm, *changes))
    return found
