"""A plan: a sheet before its wavelength is settled, in which an index may be a glass's name and a window is its two faces.

A plan makes its sheet at the beam's wavelength or at another, with other angles if need be, and says what it has worked out itself.
"""
from __future__ import annotations

import math
from dataclasses import dataclass, field, replace
from typing import Union

from . import glasses
from .angles import arcsine, sine
from .sheet import Coating, Glass, Layer, Sheet, Surface
from .words import Wrong, counted, where, written

COATINGS = [coating.name.lower().replace("_", "-") for coating in Coating]
DIRECTIONS = ["transmitted", "reflected"]
MOST_SURFACES, MOST_LAYERS = 64, 16
MOST_ALONE = 64  # layers of a surface that is evaluated alone
STEEPEST = math.asin(0.875)  # of a window in its medium: the gate takes n_incident times sin up to 0.875 of the second index


def cauchy(a: float, b: float, c: float, wavelength_nm: float) -> float:
    """a + (b + c/u2)/u2, in the order of document 02's slip 3."""
    u2 = (wavelength_nm / 1000) * (wavelength_nm / 1000)
    return a + (b + c / u2) / u2 if u2 else math.nan


@dataclass(frozen=True)
class Material:
    """A glass of the text, by its maker's coefficients, with a k that is the same at every wavelength."""

    name: str
    a: float
    b: float
    c: float
    k: float = 0.0
    coloured = True
    source = "its coefficients in the text"

    def index(self, wavelength_nm: float) -> float:
        return cauchy(self.a, self.b, self.c, wavelength_nm)

    def k_at(self, wavelength_nm: float) -> float:
        return self.k


@dataclass(eq=False)
class Tabled:
    """A material of the text, by n and k at wavelengths in nm; between two of them both go in a straight line over the wavelength."""

    name: str
    points: list[tuple[float, float, float]] = field(default_factory=list)
    coloured = True
    source = "its lines in the text"

    def index(self, wavelength_nm: float) -> float:
        return self.between(wavelength_nm, 1)

    def k_at(self, wavelength_nm: float) -> float:
        return self.between(wavelength_nm, 2)

    def between(self, nm: float, column: int) -> float:
        """n or k at a wavelength."""
        points = sorted(self.points)
        for one, two in zip(points, points[1:] or points):
            if one[0] <= nm <= two[0]:
                if nm in (one[0], two[0]):
                    return (one if nm == one[0] else two)[column]
                share = (nm - one[0]) / (two[0] - one[0])
                return one[column] + share * (two[column] - one[column])
        known = f"at {written(points[0][0])} nm" if len(points) == 1 else f"from {written(points[0][0])} to {written(points[-1][0])} nm"
        raise glasses.OutOfRange(f"{self.name} is known {known} by its lines in the text; the wavelength is {written(nm)} nm: add a line for it")


Named = Union[glasses.Glass, Material, Tabled]
Known = dict[tuple[Named, float], float]  # indices that were worked out, by glass and wavelength


@dataclass(frozen=True)
class Index:
    """A number, or a glass or material by its name."""

    number: float = 0.0
    glass: Named | None = None

    def at(self, wavelength_nm: float, known: Known | None = None) -> float:
        """The index at a wavelength; that of a glass is put into `known`."""
        if self.glass is None:
            return self.number
        known = {} if known is None else known
        key = self.glass, wavelength_nm
        if key not in known:
            known[key] = self.glass.index(wavelength_nm)
        return known[key]

    def k_at(self, wavelength_nm: float) -> float:
        return 0.0 if self.glass is None or isinstance(self.glass, glasses.Glass) else self.glass.k_at(wavelength_nm)

    def clear_at(self, wavelength_nm: float, known: Known) -> float:
        """The index of what a surface lies between, which has no k."""
        n, k = self.at(wavelength_nm, known), self.k_at(wavelength_nm)
        if k != 0 and self.glass is not None:
            raise Wrong(f"{self.glass.name} has k {written(k)} at {written(wavelength_nm)} nm, and a surface lies between indices without k: make it a layer")
        return n


@dataclass(frozen=True)
class Film:
    """A layer as it was written: itself, or where its index is that of a glass, the rest of it. A k of None is the material's."""

    line: int | None
    index: Index = Index()
    k: float | None = None
    thickness_nm: float = 0.0
    given: Union[Layer, Glass, None] = None

    def at(self, wavelength_nm: float, known: Known | None = None) -> Union[Layer, Glass]:
        if self.given is not None:
            return self.given
        k = self.index.k_at(wavelength_nm) if self.k is None else self.k
        return Layer(self.index.at(wavelength_nm, known), k, self.thickness_nm)


def film(line: int | None, index: Index, k: float | None, thickness_nm: float) -> Film:
    """A layer; one of a material with coefficients and no k changes with colour in the sheet itself, as kind 6."""
    made: Union[Layer, Glass, None] = None
    if index.glass is None:
        made = Layer(index.number, 0.0 if k is None else k, thickness_nm)
    elif not isinstance(index.glass, glasses.Glass):
        if k is not None:
            raise Wrong(f"a layer of a material has the k of its material; this has {written(k)} too")
        if isinstance(index.glass, Material) and index.glass.k == 0:
            made = Glass(index.glass.a, index.glass.b, index.glass.c, thickness_nm)
    return Film(line, index, k, thickness_nm, made)


@dataclass
class Face:
    """A surface as it was written. `second` is that of a window: its angle follows from the face before it."""

    line: int | None
    coating: Coating
    before: Index
    after: Index
    angle_rad: float
    reflected: bool = False
    second: bool = False
    coated: bool = False  # whether a line has said so of a window's face
    films: list[Film] = field(default_factory=list)
    retune_nm: float | None = None
    retune_line: int | None = None


@dataclass
class Plan:
    """A sheet before its wavelength is settled."""

    edition: int | None = None
    wavelength_nm: float = math.nan
    s: float = math.nan
    p: float = math.nan
    beam_line: int | None = None
    faces: list[Face] = field(default_factory=list)
    hints: list[str] = field(default_factory=list)  # what is hardly meant in the text itself

    def make(self, wavelength_nm: float | None = None, angles: dict[int, float] | None = None) -> Made:
        """The sheet at a wavelength, the beam's own unless given, with other angles in radians by the faces' numbers from 0."""
        nm = self.wavelength_nm if wavelength_nm is None else wavelength_nm
        made = Made(self, Sheet(nm, self.s, self.p, edition=self.edition))
        surfaces: list[Surface] = []
        for count, face in enumerate(self.faces):
            nm = nm if face.retune_nm is None else face.retune_nm
            angle = (angles or {}).get(count, face.angle_rad)
            try:
                surfaces.append(_surface(face, nm, angle, surfaces, made))
            except (glasses.OutOfRange, Wrong) as wrong:
                raise Wrong(str(wrong) if str(wrong).startswith("line ") else f"{where(face.line)}{wrong}") from None
        made.sheet = replace(made.sheet, surfaces=tuple(surfaces))
        return made

    def names(self) -> list[str]:
        """Each face by its window or coating, short enough for a picture."""
        found: list[str] = []
        for face in self.faces:
            if face.second:
                found[-1] = "window, front"
            found.append("window, back" if face.second else f"{COATINGS[face.coating]}, {DIRECTIONS[face.reflected]}")
        return found

    def swept(self, numbers: list[int]) -> list[int]:
        """The faces from 0 whose angle is swept with these surfaces, counted from 1: of a window its first face."""
        for count in numbers:
            if not 1 <= count <= len(self.faces):
                raise Wrong(f"there is no surface {count}; the sheet has {counted(len(self.faces), 'surface')}")
        return [count - 2 if self.faces[count - 1].second else count - 1 for count in numbers]


@dataclass
class Made:
    """A plan's sheet, the indices of its glasses, and for each window its line, the angle outside and the angle inside."""

    plan: Plan
    sheet: Sheet
    known: Known = field(default_factory=dict)
    windows: list[tuple[int | None, float, float]] = field(default_factory=list)

    @property
    def coloured(self) -> Known:
        """The indices of glasses that change with the wavelength."""
        return {key: n for key, n in self.known.items() if key[0].coloured}

    @property
    def notes(self) -> list[str]:
        """What was worked out for the sheet."""
        indices = [f"{glass.name} has n {n:.7g}{_and_k(glass, nm)} at {written(nm)} nm, by {glass.source}" for (glass, nm), n in self.coloured.items()]
        angles = [f"{where(line)}inside the window the light is at {math.degrees(inner):.4f} deg, by Snell's law" for line, _, inner in self.windows]
        return indices + angles

    @property
    def hints(self) -> list[str]:
        """The windows that are too steep for the gate."""
        past = f"past {math.degrees(STEEPEST):.2f} deg its second face is outside the gate"
        steep = [(line, math.degrees(outer)) for line, outer, _ in self.windows if abs(outer) > STEEPEST]
        return [f"{where(line)}the window is at {outer:.2f} deg; {past}" for line, outer in steep]


def _and_k(glass: Named, nm: float) -> str:
    k = Index(glass=glass).k_at(nm)
    return f" and k {k:.7g}" if k else ""


def _surface(face: Face, nm: float, angle: float, before: list[Surface], made: Made) -> Surface:
    """A face at its wavelength; the second of a window at the angle that the first leads to."""
    n0, n1 = face.before.clear_at(nm, made.known), face.after.clear_at(nm, made.known)
    layers = tuple([film.at(nm, made.known) for film in face.films])
    if face.second:
        outer = before[-1].angle_rad
        angle = inside(outer, n1, n0, face.line)
        made.windows.append((face.line, outer, angle))
    return Surface(face.coating, n0, n1, angle, face.reflected, layers, face.retune_nm)


def inside(angle_rad: float, n0: float, n1: float, line: int | None = None) -> float:
    """The angle in index n1 of light that comes in index n0 at an angle, by Snell's law."""
    ratio = n0 * sine(angle_rad) / n1 if math.isfinite(angle_rad) and n1 else math.nan
    if not abs(ratio) <= 1:
        raise Wrong(f"{where(line)}no light at {math.degrees(angle_rad):.2f} deg in index {written(n0)} comes into index {written(n1)}")
    return arcsine(ratio)


def of_sheet(sheet: Sheet) -> Plan:
    """The plan that makes a sheet as it is."""
    plan = Plan(sheet.edition, sheet.wavelength_nm, sheet.s, sheet.p)
    for one in sheet.surfaces:
        films = [Film(None, given=x) for x in one.layers]
        ends = Index(one.n_incident), Index(one.n_substrate)
        plan.faces.append(Face(None, one.coating, *ends, one.angle_rad, one.reflected, films=films, retune_nm=one.retune_nm))
    return plan


def met(sheet: Sheet) -> list[float]:
    """The wavelength that each surface is met with: that of the last retune up to it, else the beam's."""
    wavelength, out = sheet.wavelength_nm, []
    for surface in sheet.surfaces:
        wavelength = wavelength if surface.retune_nm is None else surface.retune_nm
        out.append(wavelength)
    return out


def index_at(layer: Union[Layer, Glass], wavelength_nm: float) -> float:
    """The index of a layer at a wavelength."""
    return layer.n if isinstance(layer, Layer) else cauchy(layer.a, layer.b, layer.c, wavelength_nm)
