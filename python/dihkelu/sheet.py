"""A sheet as data: a beam, its surfaces and their layers, and the bytes that stand for them (document 01, section 1; 02, slips 3 and 5).

Numbers are Python's floats, which are the sheet's own: from bytes and back every bit stays, and so from JSON, where a number is its
hexadecimal text (float.hex) or, for a NaN, the 16 digits of its bits.
"""
from __future__ import annotations

import enum
import json
import math
import struct
from dataclasses import dataclass, field
from typing import Any, Union


class Coating(enum.IntEnum):
    """A surface's coating by its code."""

    BARE = 0
    IDEAL_AR = 1
    MGF2 = 2
    BROADBAND_AR = 3
    MIRROR = 4
    CUSTOM = 5
    IDEAL_BEAMSPLITTER = 6
    IDEAL_MIRROR = 7


class NotASheet(ValueError):
    """Bytes or JSON that stand for no sheet. `word` is where, in bytes."""

    def __init__(self, sentence: str, word: int = 0):
        super().__init__(sentence)
        self.word = word


@dataclass(frozen=True)
class Layer:
    """n, k and the thickness in nm."""

    n: float
    k: float
    thickness_nm: float


@dataclass(frozen=True)
class Glass:
    """A layer whose index is a + (b + c/u2)/u2, u being the wavelength in micrometres and u2 its square."""

    a: float
    b: float
    c: float
    thickness_nm: float


@dataclass(frozen=True)
class Surface:
    """A surface that the light meets, from one index to the other. `retune_nm` is another wavelength from here on."""

    coating: Coating
    n_incident: float
    n_substrate: float
    angle_rad: float
    reflected: bool = False
    layers: tuple[Union[Layer, Glass], ...] = ()
    retune_nm: float | None = None


@dataclass(frozen=True)
class Sheet:
    wavelength_nm: float
    s: float
    p: float
    surfaces: tuple[Surface, ...] = field(default=())
    edition: int | None = None  # where it is not said: 2 where a glass or a retune needs it, else 1

    def to_bytes(self) -> bytes:
        """The sheet's bytes. Any numbers are taken: the gate judges them."""
        needs = any(s.retune_nm is not None or any(isinstance(x, Glass) for x in s.layers) for s in self.surfaces)
        edition = (2 if needs else 1) if self.edition is None else self.edition
        out = [_block(1, edition), _block(2, 0, self.wavelength_nm, self.s, self.p)]
        for s in self.surfaces:
            if s.retune_nm is not None:
                out.append(_block(7, 0, s.retune_nm))
            out.append(_block(3, 2 * s.coating + s.reflected, s.n_incident, s.n_substrate, s.angle_rad))
            for x in s.layers:
                if isinstance(x, Glass):
                    out.append(_block(6, 0, x.a, x.b, x.c, x.thickness_nm))
                else:
                    out.append(_block(4, 0, x.n, x.k, x.thickness_nm))
        out.append(_block(5, len(self.surfaces)))
        return b"".join(out)

    @staticmethod
    def from_bytes(data: bytes) -> Sheet:
        """The sheet of bytes that are in grammar; NotASheet for others. The limits are not tested: `gate` does."""
        return _Reader(data).sheet()

    def to_json(self, indent: int | None = 2) -> str:
        """A text with every bit of every number."""
        surfaces = []
        for s in self.surfaces:
            one: dict[str, Any] = {"coating": s.coating.name.lower(), "reflected": s.reflected}
            one |= {name: _text(getattr(s, name)) for name in ("n_incident", "n_substrate", "angle_rad")}
            if s.retune_nm is not None:
                one["retune_nm"] = _text(s.retune_nm)
            if s.layers:
                one["layers"] = [{name: _text(value) for name, value in vars(x).items()} for x in s.layers]
            surfaces.append(one)
        whole: dict[str, Any] = {} if self.edition is None else {"edition": self.edition}
        whole |= {name: _text(getattr(self, name)) for name in ("wavelength_nm", "s", "p")}
        return json.dumps(whole | {"surfaces": surfaces}, indent=indent)

    @staticmethod
    def from_json(text: str) -> Sheet:
        """The sheet of such a text; plain decimal numbers are taken too."""
        try:
            data = json.loads(text)
            surfaces = []
            for one in data["surfaces"]:
                layers = tuple((Glass if "a" in x else Layer)(**{name: _number(v) for name, v in x.items()}) for x in one.get("layers", []))
                numbers = {name: _number(one[name]) for name in ("n_incident", "n_substrate", "angle_rad")}
                retune = _number(one["retune_nm"]) if "retune_nm" in one else None
                surfaces.append(Surface(Coating[one["coating"].upper()], **numbers, reflected=bool(one["reflected"]), layers=layers, retune_nm=retune))
            beam = {name: _number(data[name]) for name in ("wavelength_nm", "s", "p")}
            return Sheet(**beam, surfaces=tuple(surfaces), edition=data.get("edition"))
        except (KeyError, TypeError, ValueError, AttributeError) as e:
            raise NotASheet(f"the text stands for no sheet: {e}") from e


def _block(kind: int, payload: int, *floats: float) -> bytes:
    return struct.pack(f">I{len(floats)}d", kind << 28 | payload, *floats)


def _text(x: float) -> str:
    return struct.pack(">d", x).hex() if math.isnan(x) else float(x).hex()


def _number(x: Any) -> float:
    if not isinstance(x, str):
        return float(x)
    if len(x) == 16 and "." not in x and "x" not in x:
        return float(struct.unpack(">d", bytes.fromhex(x))[0])
    return float.fromhex(x)


class _Reader:
    """The words of a sheet, one block after the other."""

    FLOATS = {1: 0, 2: 3, 3: 3, 4: 3, 5: 0, 6: 4, 7: 1}

    def __init__(self, data: bytes):
        if len(data) % 4:
            raise NotASheet("the bytes are no multiple of 4")
        self.data, self.at = data, 0

    def peek(self) -> int:
        """The kind of the next block; 0 at the end."""
        return self.data[4 * self.at] >> 4 if 4 * self.at < len(self.data) else 0

    def block(self, *kinds: int) -> tuple[int, int, tuple[float, ...]]:
        kind = self.peek()
        if kind not in kinds:
            raise NotASheet(f"word {self.at} is out of grammar", self.at)
        payload = struct.unpack_from(">I", self.data, 4 * self.at)[0] & 0xFFFFFFF
        count = self.FLOATS[kind]
        if 4 * self.at + 4 + 8 * count > len(self.data):
            raise NotASheet(f"the block at word {self.at} is cut off", self.at)
        floats = struct.unpack_from(f">{count}d", self.data, 4 * self.at + 4)
        self.at += 1 + 2 * count
        return kind, payload, floats

    def sheet(self) -> Sheet:
        _, edition, _ = self.block(1)
        _, _, beam = self.block(2)
        surfaces = []
        while self.peek() != 5:
            begun = self.at
            kind, payload, floats = self.block(3, 7)
            retune = None
            if kind == 7:
                retune = floats[0]
                begun = self.at
                _, payload, floats = self.block(3)
            if payload > 15:
                raise NotASheet(f"word {begun} is out of grammar", begun)
            layers: list[Union[Layer, Glass]] = []
            while self.peek() in (4, 6):
                kind, _, numbers = self.block(4, 6)
                layers.append(Glass(*numbers) if kind == 6 else Layer(*numbers))
            n0, n1, angle = floats
            surfaces.append(Surface(Coating(payload // 2), n0, n1, angle, payload % 2 == 1, tuple(layers), retune))
        begun = self.at
        _, count, _ = self.block(5)
        if count != len(surfaces) or 4 * self.at != len(self.data):
            raise NotASheet(f"word {begun} is no end of {len(surfaces)} surfaces", begun)
        nm, s, p = beam
        return Sheet(nm, s, p, tuple(surfaces), edition)
