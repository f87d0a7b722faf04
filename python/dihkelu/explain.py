"""Refusals in words, with the text's line, the number found and the limit; and hints where a sheet is hardly what was meant.

That a sheet is refused, and where, is the proved library's answer. Which limit is missed is arithmetic of this file.
"""
from __future__ import annotations

import math
import re
import struct
from dataclasses import dataclass, replace
from typing import Iterator, NamedTuple, Sequence, Union

from .calls import gate, last_powers
from .plans import MOST_LAYERS, MOST_SURFACES, Made, cauchy, index_at, met, of_sheet
from .refusals import Refused
from .sheet import Coating, Glass, Layer, Sheet, Surface
from .text import without_mark
from .words import Wrong, counted, in_line, printable, written

PRESET_INDICES = {Coating.MGF2: [1.38], Coating.BROADBAND_AR: [1.46, 2.3], Coating.MIRROR: [2.3, 1.46]}  # which the gate tests too
PRESET_NM = 550.0
MOST_METAL = 4  # layers of a surface with metal films
FLOATS = {1: 0, 2: 3, 3: 3, 4: 3, 5: 0, 6: 4, 7: 1}  # after each kind word
KINDS = {1: "OPEN", 2: "BEAM", 3: "SURFACE", 4: "LAYER", 5: "END", 6: "a glass, kind 6", 7: "a retune, kind 7"}


class Turned(Wrong):
    """A refusal, in words."""

    def __init__(self, refused: Refused, sentence: str):
        self.number, self.place, self.sentence = refused.number, refused.place, sentence
        super().__init__(f"refused {refused.number} {refused.place}: {sentence}")


def read_sheet(data: bytes) -> Made:
    """The sheet of bytes that are in grammar, by the library's gate; its numbers may be any."""
    try:
        gate(data)
    except Refused as refused:
        if refused.number != 6:
            raise Turned(refused, sentence(refused, data)) from None
    return of_sheet(Sheet.from_bytes(data)).make()


# ---- a sheet's blocks


def blocks(made: Made) -> Iterator[tuple[int, str, int | None, str]]:
    """For each block the place of its kind word, its name, the text's line, and which limits it misses."""
    yield 1, "the beam", made.plan.beam_line, beam_missed(made.sheet)
    at = 8
    for count, (face, surface, wavelength) in enumerate(zip(made.plan.faces, made.sheet.surfaces, met(made.sheet)), 1):
        if surface.retune_nm is not None:
            yield at, f"the retune before surface {count}", face.retune_line, within("the wavelength", wavelength, 100, 10000)
            at += 3
        yield at, f"surface {count}", face.line, surface_missed(surface)
        at += 7
        for number, (film, layer) in enumerate(zip(face.films, surface.layers), 1):
            yield at, f"layer {number} of surface {count}", film.line, layer_missed(layer, surface, wavelength)
            at += 9 if isinstance(layer, Glass) else 7


def within(name: str, x: float, low: float, high: float) -> str:
    return "" if low <= x <= high else f"{name} is {written(x)}, not from {low} to {high}"


def joined(said: list[str]) -> str:
    return "; ".join(one for one in said if one)


def folded(angle: float) -> float:
    """An angle as the documents' sine and cosine take it: beyond 2^20 without whole turns of the f64 next to 2 pi."""
    return math.fmod(angle, 2 * math.pi) if abs(angle) > 2**20 else angle


def bends(surface: Surface, name: str, n: float) -> str:
    if not math.isfinite(surface.angle_rad):
        return ""
    bent, most = surface.n_incident * abs(math.sin(folded(surface.angle_rad))), 0.875 * n
    return "" if bent <= most else f"n_incident times sin is {written(bent)}, more than 0.875 of {name} {written(n)}, {written(most)}"


def beam_missed(sheet: Sheet) -> str:
    powers = [within("the s power", sheet.s, 0, 1), within("the p power", sheet.p, 0, 1)]
    return joined([within("the wavelength", sheet.wavelength_nm, 100, 10000), *powers])


def surface_missed(surface: Surface) -> str:
    said = [within("the first index", surface.n_incident, 1, 4), within("the second index", surface.n_substrate, 1, 4)]
    angle = surface.angle_rad
    if not math.isfinite(angle):
        said.append("the angle is not finite")
    elif math.cos(folded(angle)) < 0.25:
        said.append(f"the angle's cosine is {written(math.cos(folded(angle)))}, less than 0.25")
    said.append(bends(surface, "the second index", surface.n_substrate))
    said += [bends(surface, "the coating's index", n) for n in PRESET_INDICES.get(surface.coating, [])]
    return joined(said)


def layer_missed(layer: Union[Layer, Glass], surface: Surface, wavelength: float) -> str:
    n, k = index_at(layer, wavelength), 0.0 if isinstance(layer, Glass) else layer.k
    metal = metal_missed(surface, wavelength)
    if not metal:
        return ""
    if (n < 1 or k != 0) and not isinstance(layer, Glass):
        return f"with n {written(n)} and k {written(k)} it is a metal film, and {joined(metal)}"
    said = [f"{name} is not finite" for name, x in zip("ABC", (layer.a, layer.b, layer.c)) if not math.isfinite(x)] if isinstance(layer, Glass) else []
    said.append(within(f"its index at {written(wavelength)} nm" if isinstance(layer, Glass) else "n", n, 1, 4))
    return joined(said + [within("the thickness", layer.thickness_nm, 0, 100000), bends(surface, "n", n)])


def metal_missed(surface: Surface, wavelength: float) -> list[str]:
    """Which limits of metal films (document 02, slip 12) a surface with its layers misses, all of them."""
    said, total = [], 0.0
    if surface.angle_rad != 0:
        said.append(f"these are met at angle 0 only, not at {math.degrees(surface.angle_rad):.6g} deg")
    if len(surface.layers) > MOST_METAL:
        said.append(f"these stand on surfaces of at most {MOST_METAL} layers, not of {len(surface.layers)}")
    for number, layer in enumerate(surface.layers, 1):
        k = 0.0 if isinstance(layer, Glass) else layer.k
        of = f"of layer {number}"
        limits = [(f"n {of}", index_at(layer, wavelength), 0.0625, 4), (f"k {of}", k, 0, 8), (f"the thickness {of}", layer.thickness_nm, 0, 100000)]
        said += [one for one in (within(*limit) for limit in limits) if one]
        total += 2 * math.pi * layer.thickness_nm / wavelength * k if wavelength else math.nan
    if not total <= 16:
        said.append(f"2 pi thickness / wavelength times k adds up to {written(total)}, more than 16")
    return said


def no_sheet(made: Made, count: int, wavelength: float) -> str:
    """Why a sheet admits no such surface, counted from 0; empty where it does."""
    surface = replace(made.sheet.surfaces[count], retune_nm=None)
    if len(surface.layers) > MOST_LAYERS:
        return f"a surface of a sheet has at most {MOST_LAYERS} layers, and this has {len(surface.layers)}"
    plan = replace(made.plan, faces=[made.plan.faces[count]])
    one = Made(plan, replace(made.sheet, wavelength_nm=wavelength, surfaces=(surface,)))
    try:
        gate(one.sheet)
        return ""
    except Refused:
        missed = [(name, why) for _, name, _, why in blocks(one) if why]
    return joined([why if name == "surface 1" else f"{name.replace(' of surface 1', '')}: {why}" for name, why in missed])


# ---- sentences


def most_bytes(data: bytes) -> int:
    """Of a sheet that begins so."""
    return 39460 if data[:4] == bytes.fromhex("10000002") else 30500


@dataclass
class Walked:
    """What stands before a word of a sheet: the last kind, the count of surfaces, and of the last one's layers."""

    kind: int = 0
    surfaces: int = 0
    layers: int = 0
    custom: bool = False


def walked(words: Sequence[int], place: int) -> Walked:
    found, at = Walked(), 0
    while at < place:
        kind, payload = words[at] >> 28, words[at] & 0xFFFFFFF
        if kind == 3:
            found.surfaces, found.layers, found.custom = found.surfaces + 1, 0, payload // 2 == Coating.CUSTOM
        found.layers += kind in (4, 6)
        found.kind, at = kind, at + 1 + 2 * FLOATS.get(kind, 0)
    return found


def out_of_grammar(data: bytes, place: int) -> str:
    """What is wrong with the word of a refusal 5."""
    words = struct.unpack(f">{len(data) // 4}I", data[: len(data) // 4 * 4])
    if place >= len(words):
        return f"word {place} is missing: the sheet ends without END"
    kind, payload, before = words[place] >> 28, words[place] & 0xFFFFFFF, walked(words, place)
    name = f"word {place} is {words[place]:08X}, {KINDS.get(kind, 'no kind of block')}"
    reasons = [
        (place == 0, "where OPEN of edition 1 or 2 should stand"),
        (place == 1, "where BEAM should stand"),
        (before.kind == 5, "after END"),
        (before.kind == 7 and kind != 3, "where the SURFACE must stand that follows a retune"),
        (kind in (6, 7) and words[0] == 0x10000001, "which edition 1 has not"),
        (kind in (3, 7) and before.surfaces == MOST_SURFACES, f"after {MOST_SURFACES} surfaces, the most that a sheet has"),
        (kind in (4, 6) and not before.custom, "which stands only after a SURFACE of coating custom"),
        (kind in (4, 6) and before.layers == MOST_LAYERS, f"after {MOST_LAYERS} layers, the most that a surface has"),
        (kind == 5 and payload != before.surfaces, f"with the count {payload}; the sheet has {counted(before.surfaces, 'surface')}"),
        (kind == 3 and payload > 15, f"with the payload {payload}, over 15"),
        (kind in (4, 6, 7) and payload != 0, f"with the payload {payload}, not 0"),
        (kind in FLOATS and place + 2 * FLOATS[kind] >= len(words), "whose numbers go past the end"),
    ]
    return f"{name}, {next((why for holds, why in reasons if holds), 'which may not stand there')}"


def sentence(refused: Refused, data: bytes, made: Made | None = None) -> str:
    """Why a call refused a sheet's bytes."""
    number, place = refused.number, refused.place
    if number == 4:
        return f"a sheet has a multiple of 4 bytes, from 36 to {most_bytes(data)}; this has {len(data)}"
    if number == 5:
        return out_of_grammar(data, place)
    if number == 12:
        return f"word {place} is a kind 7, a retune; edition 1 has none"
    if number == 6 and made is not None:
        for at, name, line, missed in blocks(made):
            if at == place:
                return f"{name}{in_line(line)} is outside the gate: {missed or 'it is outside the limits by less than these figures show'}"
    return refused.sentence.format(place=place)


def band_sentence(refused: Refused, data: bytes, band: list[tuple[float, int, int]], made: Made) -> str:
    """Why a band was refused."""
    number, place = refused.number, refused.place
    if number == 12:
        return f"the sheet has a retune, at word {place}; a band has its own wavelengths"
    if number == 15 and place == 64:
        return f"the band has {counted(len(band), 'line')}; a band has 1 to 64"
    if number == 15:
        return f"the band's line {band[place][2]}: the weight is {band[place][1]}, not from 1 to 1000"
    if number == 16:
        wavelength = band[place][0]
        why = "a layer of the sheet is outside the gate there" if 100 <= wavelength <= 10000 else "not from 100 to 10000"
        return f"the band's line {band[place][2]}: the wavelength is {written(wavelength)} nm; {why}"
    return sentence(refused, data, made)


def film_missed(n: float, thickness_nm: float, wavelength_nm: float) -> str:
    """Which limits the numbers of refusal 14 miss."""
    limits = [("n", n, 1, 4), ("the thickness", thickness_nm, 0, 100000), ("the wavelength", wavelength_nm, 100, 10000)]
    return joined([within(*limit) for limit in limits])


def line_of(said: str) -> int | None:
    """The text's line that a sentence names."""
    found = re.search(r"^line ([0-9]+): |\(line ([0-9]+)\)", said)
    return int(found[1] or found[2]) if found else None


def content(data: bytes, line: int) -> str:
    """A line of a text, as far as it can be read."""
    lines = re.split(rb"\r\n|\n|\r", without_mark(data))
    found = lines[line - 1].decode("utf-8", "replace").strip() if line <= len(lines) else ""
    return printable(found if len(found) <= 140 else found[:138] + "..")


# ---- hints

STEEP = math.pi / 2
FAR = 2.0**20  # radians: beyond it the documents' sine and cosine fold with the f64 next to 2 pi
SEEN = 0.01  # of s or p: light to and fro in a plate is said from here on
HARDLY = SEEN / (1 + SEEN)  # the product of both reflectances there
NUDGE = 2.0**-40  # of the wavelength, for a stack's resonance
ROUNDED = 4 * 2.0**-53  # of a phase
FEW_FILMS = 3  # on a surface: fewer do not resonate
SHOWS = 1e-9  # of the beam: what rounding may change without a word
CANCEL = 1e6  # a glass's coefficients over its index

_BEAM, _SURFACE, _GLASS, _DOUBLE = struct.Struct(">3d"), struct.Struct(">I3d"), struct.Struct(">4x4d"), struct.Struct(">d")
_ZERO = bytes(8)


class Crossing(NamedTuple):
    """A surface as the hints look at it."""

    coating: int
    reflected: bool
    n0: float
    n1: float
    angle: float
    nm: float


@dataclass
class Walk:
    """What the hints look at in an admitted sheet's bytes; `wavelengths` has the places of the beam's and of each retune's."""

    s: float
    p: float
    crossings: list[Crossing]
    wavelengths: list[int]
    absorbing: set[int]  # the surfaces, from 0, with a film that has a k
    glasses: list[tuple[int, float, float]]  # of surfaces, from 0: the wavelength and the sum of the terms' sizes
    most_films: int = 0  # of a surface


def walk(data: bytes) -> Walk:
    nm, s, p = _BEAM.unpack_from(data, 8)
    crossings: list[Crossing] = []
    found = Walk(s, p, crossings, [8], set(), [])
    at, end, films, most = 32, len(data) - 4, 0, 0
    while at < end:
        kind = data[at] >> 4
        if kind == 3:
            word, n0, n1, angle = _SURFACE.unpack_from(data, at)
            crossings.append(Crossing((word & 15) >> 1, bool(word & 1), n0, n1, angle, nm))
            most, films, at = max(most, films), 0, at + 28
        elif kind == 4:
            if data[at + 12 : at + 20] != _ZERO:
                found.absorbing.add(len(crossings) - 1)
            films, at = films + 1, at + 28
        elif kind == 6:
            a, b, c, _ = _GLASS.unpack_from(data, at)
            found.glasses.append((len(crossings) - 1, nm, cauchy(abs(a), abs(b), abs(c), nm)))
            films, at = films + 1, at + 36
        else:
            (nm,) = _DOUBLE.unpack_from(data, at + 4)
            found.wavelengths.append(at + 4)
            at += 12
    found.most_films = max(most, films)
    return found


def hints(made: Made, after: Sequence[tuple[float, float]] | None = None) -> list[str]:
    """Where a sheet is hardly what was meant; the gate takes it all the same. `after` has s and p after each surface, where it runs."""
    lines = [face.line for face in made.plan.faces]
    return made.plan.hints + made.hints + metal_hints(made) + sheet_hints(made.sheet.to_bytes(), after, made.plan.beam_line, lines)


def sheet_hints(data: bytes, after: Sequence[tuple[float, float]] | None, beam: int | None = None, lines: Sequence[int | None] = ()) -> list[str]:
    """Those of a sheet's bytes that are in grammar."""
    walked = walk(data)
    said = beam_hints(walked, beam)
    one: Crossing | None = None
    for count, two in enumerate(walked.crossings):
        plate = one is not None and is_plate(one, two)
        for sentence in crossing_hints(one, two, plate):
            said.append(f"{named(count, lines)} {sentence}")
        if plate and after is not None and not two.reflected:
            for sentence in pass_hints(walked, count, after):
                said.append(f"{named(count, lines)} {sentence}")
        one = two
    said += [f"{named(count, lines)} {sentence}" for count, sentence in glass_hints(walked)]
    return said + (resonance_hints(data, walked, after) if after else [])


def named(count: int, lines: Sequence[int | None]) -> str:
    return f"surface {count + 1}{in_line(lines[count] if lines else None)}"


def beam_hints(walked: Walk, line: int | None) -> list[str]:
    """A beam of more than itself."""
    if not walked.s + walked.p > 1 + 1e-9:
        return []
    total = f"s {written(walked.s)} and p {written(walked.p)}, {written(walked.s + walked.p)} in all"
    return [f"the beam{in_line(line)} has {total}; they are shares of one beam, such as s 0.5 p 0.5"]


def crossing_hints(one: Crossing | None, two: Crossing, plate: bool) -> list[str]:
    """A surface that begins in another index than the light comes in or stands at a strange angle, and a preset away from its design."""
    said = []
    if plate and one is not None:
        said += angle_hints(one, two)
    elif one is not None and two.n0 != (comes := one.n0 if one.reflected else one.n1):
        said.append(f"begins in index {written(two.n0)}; the light comes in index {written(comes)}")
    if not -STEEP <= two.angle <= STEEP and math.isfinite(two.angle):
        said.append(turned_hint(two.angle))
    if two.coating in PRESET_INDICES and abs(two.nm - PRESET_NM) > PRESET_NM / 10:
        called = Coating(two.coating).name.lower().replace("_", "-")
        said.append(f"has the preset {called}, designed for {PRESET_NM:g} nm; the light has {written(two.nm)} nm")
    return said


def is_plate(one: Crossing, two: Crossing) -> bool:
    """Whether light goes into a denser medium by the one surface and out of it by the other."""
    return one.n1 > one.n0 > 0 and two.n0 == one.n1 > two.n1 and not one.reflected


def angle_hints(one: Crossing, two: Crossing) -> list[str]:
    """The second face of a plate at another angle than the first leads to."""
    if not math.isfinite(one.angle):
        return []
    expected, found = abs(math.degrees(math.asin(one.n0 * math.sin(one.angle) / one.n1))), math.degrees(two.angle)
    return [] if abs(expected - abs(found)) <= 0.5 else [f"is at {found:.2f} deg; in a plate with parallel faces it is at {expected:.2f} deg"]


def turned_hint(angle: float) -> str:
    if abs(angle) <= FAR:
        return f"is at {written(angle)} rad, {math.degrees(angle):.2f} deg, more than a right angle; where degrees are meant write deg"
    return f"is at {written(angle)} rad, beyond 2^20, where the library's sine and cosine drift away from the angle's; give it without whole turns"


def glass_hints(walked: Walk) -> list[tuple[int, str]]:
    """Coefficients that cancel each other: their sum keeps few of their digits."""
    why = "they cancel, so that rounding may show in the index; give it as a number"
    return [(count, f"has a glass whose coefficients add up from {size:.2g} at {written(nm)} nm: {why}") for count, nm, size in walked.glasses if size > CANCEL]


def pass_hints(walked: Walk, count: int, after: Sequence[tuple[float, float]]) -> list[str]:
    """Light to and fro between a plate's faces, which one pass leaves out: R1 R2 / (1 - R1 R2) of what passes, R being 1 - T."""
    (s0, p0), (s1, p1), (s2, p2) = after[count - 2] if count > 1 else (walked.s, walked.p), after[count - 1], after[count]
    few = (s0 - s1) * (s1 - s2) <= HARDLY * s0 * s1 and (p0 - p1) * (p1 - p2) <= HARDLY * p0 * p1
    if few or {count - 1, count} & walked.absorbing:
        return []
    s, p = passes(s0, s1, s2), passes(p0, p1, p2)
    why = "the light to and fro between it and the surface before, which one pass leaves out, would add"
    return [f"is the second face of a plate: {why} {100 * s:.2g} % to s and {100 * p:.2g} % to p, without interference"]


def passes(before: float, between: float, behind: float) -> float:
    """What all passes add to one, as a share, by the powers before a plate, in it and behind it."""
    if not (before > 0 and between > 0):
        return 0.0
    both = (1 - between / before) * (1 - behind / between)
    return both / (1 - both) if both < 1 else 0.0


def resonance_hints(data: bytes, walked: Walk, after: Sequence[tuple[float, float]]) -> list[str]:
    """How far the last powers move when all wavelengths do by a hair says what the rounding of a phase can do."""
    if walked.most_films < FEW_FILMS:
        return []
    moved = bytearray(data)
    for at in walked.wavelengths:
        (nm,) = _DOUBLE.unpack_from(data, at)
        _DOUBLE.pack_into(moved, at, nm * (1 - NUDGE if nm > 1000 else 1 + NUDGE))
    try:
        s, p = last_powers(bytes(moved))
    except Refused:
        return []
    change = max(abs(s - after[-1][0]), abs(p - after[-1][1])) / NUDGE
    if not change * ROUNDED > SHOWS:
        return []
    return [f"the films are so resonant that one part in 10^12 of the wavelength changes a power by {change * 1e-12:.2g}: rounding may show from {change * ROUNDED:.0e} on"]


def metal_hints(made: Made) -> list[str]:
    """A film's n and k in numbers are those at the wavelength of its text; the sheet was made for another."""
    given, found = made.plan.wavelength_nm, made.sheet.wavelength_nm
    said: list[str] = []
    for count, face in enumerate(made.plan.faces, 1):
        if face.retune_nm is not None or given == found:
            break
        for number, film in enumerate(face.films, 1):
            if isinstance(film.given, Layer) and film.given.k != 0:
                numbers = f"n {written(film.given.n)} and k {written(film.given.k)}"
                said.append(f"layer {number} of surface {count}{in_line(film.line)} keeps {numbers} of {written(given)} nm at {written(found)} nm; {METAL}")
    return said


METAL = "a metal's change with the wavelength: give them in lines material NAME at .. n .. k .."
