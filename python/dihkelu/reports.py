"""What the command prints, as data: losses surface by surface, sweeps, bands, quarter waves. Every power is a proved call's answer."""
from __future__ import annotations

import hashlib
import math
from dataclasses import dataclass
from typing import TYPE_CHECKING, Any, Iterable, Sequence

from . import explain
from .calls import LAYERS, answers, band, edition_1, evaluate, quarter_waves, run, version
from .plans import COATINGS, DIRECTIONS, Made, Plan, index_at, met
from .refusals import Refused
from .sheet import Coating, Glass, Layer, Sheet, Surface
from .text import edition
from .words import Wrong, counted, in_line, written

if TYPE_CHECKING:
    from .tolerance import Tolerance


def powers(made: Made) -> list[tuple[float, float]]:
    """s and p after each surface."""
    data = made.sheet.to_bytes()
    try:
        return run(data)
    except Refused as refused:
        raise explain.Turned(refused, explain.sentence(refused, data, made)) from None


def hints(made: Made) -> list[str]:
    """Where a sheet is hardly what was meant, with what its run says where it is admitted."""
    try:
        return explain.hints(made, powers(made))
    except explain.Turned:
        return explain.hints(made)


def percent_of(part: float, whole: float) -> float | None:
    """None of nothing."""
    return 100 * part / whole if whole else None


# ---- losses


@dataclass(frozen=True)
class Loss:
    """A surface, s and p after it, and in percent what of the light that came to it was lost; `left` is of the beam."""

    number: int
    surface: str
    coating: str
    follows: str
    line: int | None
    wavelength_nm: float
    n_incident: float
    n_substrate: float
    angle_rad: float
    s: float
    p: float
    s_lost_percent: float | None
    p_lost_percent: float | None
    lost_percent: float | None
    stays_in_the_glass_percent: float | None  # a bare surface has no response
    left_percent: float | None
    lost_of_the_beam_percent: float | None


@dataclass(frozen=True)
class Losses:
    surfaces: list[Loss]
    s: float
    p: float
    sum: float
    lost_percent: float | None
    left_percent: float | None
    scale_factor: float | None  # the beam over what is left; None of nothing, or where no float is so large


def called(surface: Surface) -> str:
    layers = f", {counted(len(surface.layers), 'layer')}" if surface.layers else ""
    ends = f"{surface.n_incident:g} to {surface.n_substrate:g}"
    return f"{COATINGS[surface.coating]} {ends} at {math.degrees(surface.angle_rad):.2f} deg{layers}"


def stays(data: bytes, count: int, surface: Surface, s: float, p: float) -> float | None:
    """What of the light that comes to a coated surface is neither reflected nor transmitted, in percent (document 02, slip 2)."""
    if surface.coating == Coating.BARE or not s + p:
        return None
    response = answers(data, count).response
    return None if response is None else percent_of(s * response.absorptance_s + p * response.absorptance_p, s + p)


def losses(made: Made, after: Sequence[tuple[float, float]] | None = None) -> Losses:
    """What each surface loses. `after` has s and p after each, where another program has worked them out."""
    sheet, data = made.sheet, made.sheet.to_bytes()
    after = powers(made) if after is None else after
    s, p = sheet.s, sheet.p
    start, found = s + p, []
    for count, (surface, wavelength, (new_s, new_p)) in enumerate(zip(sheet.surfaces, met(sheet), after)):
        lost = (s + p) - (new_s + new_p)
        found.append(
            Loss(
                count + 1, called(surface), COATINGS[surface.coating], DIRECTIONS[surface.reflected], made.plan.faces[count].line, wavelength,
                surface.n_incident, surface.n_substrate, surface.angle_rad, new_s, new_p, percent_of(s - new_s, s), percent_of(p - new_p, p),
                percent_of(lost, s + p), stays(data, count, surface, s, p), percent_of(new_s + new_p, start), percent_of(lost, start),
            )
        )
        s, p = new_s, new_p
    end = s + p
    scale = start / end if end else math.inf
    return Losses(found, s, p, end, percent_of(start - end, start), percent_of(end, start), scale if math.isfinite(scale) else None)


# ---- a surface alone


@dataclass(frozen=True)
class Alone:
    """What a surface alone reflects and transmits of s and of p and what stays in it, as shares; and why no sheet has it, where that is so."""

    number: int
    surface: str
    line: int | None
    wavelength_nm: float
    reflectance_s: float
    reflectance_p: float
    transmittance_s: float
    transmittance_p: float
    absorptance_s: float
    absorptance_p: float
    phase_rs_rad: float
    phase_rp_rad: float
    no_sheet: str

    def shares(self) -> list[float]:
        return [self.reflectance_s, self.reflectance_p, self.transmittance_s, self.transmittance_p, self.absorptance_s, self.absorptance_p]


def alone(made: Made) -> list[Alone]:
    """Each surface by the library's `evaluate`, at any angle and with up to 64 layers; a bare one as a coating of no layers."""
    found = []
    for count, (surface, nm) in enumerate(zip(made.sheet.surfaces, met(made.sheet))):
        layers = [Layer(index_at(x, nm), 0.0, x.thickness_nm) if isinstance(x, Glass) else x for x in surface.layers]
        code = LAYERS if surface.coating == Coating.BARE else int(surface.coating)
        line = made.plan.faces[count].line
        try:
            one = evaluate(code, surface.n_incident, surface.n_substrate, surface.angle_rad, nm, layers)
        except Refused as refused:
            raise explain.Turned(refused, f"surface {count + 1}{in_line(line)}: {refused.sentence}") from None
        shares = one.reflectance_s, one.reflectance_p, one.transmittance_s, one.transmittance_p, one.absorptance_s, one.absorptance_p
        found.append(Alone(count + 1, called(surface), line, nm, *shares, one.phase_rs_rad, one.phase_rp_rad, explain.no_sheet(made, count, nm)))
    return found


# ---- sweeps


@dataclass(frozen=True)
class Point:
    """One sheet of a sweep: s and p after each surface, or why it was refused. `at` is the angle in degrees or the wavelength in nm."""

    at: float
    after: list[tuple[float, float]]
    s: float | None
    p: float | None
    s_lost_percent: float | None
    p_lost_percent: float | None
    lost_percent: float | None
    refused: str = ""


def sweep_angle(plan: Plan, degrees: Iterable[float], surfaces: Sequence[int] = (1,), wavelength_nm: float | None = None) -> list[Point]:
    """The train at each angle of these surfaces, counted from 1; a window's second face follows. The beam's wavelength may be another."""
    faces = plan.swept(list(surfaces))
    return [_point(plan, at, wavelength_nm, {face: math.radians(at) for face in faces}) for at in degrees]


def sweep_wavelength(plan: Plan, nanometres: Iterable[float], surfaces: Sequence[int] = (1,), angle_deg: float | None = None) -> list[Point]:
    """The train at each wavelength of the beam; glasses by name have their index there. The angle of these surfaces may be another."""
    angles = {} if angle_deg is None else {face: math.radians(angle_deg) for face in plan.swept(list(surfaces))}
    return [_point(plan, at, at, angles) for at in nanometres]


def sweep_map(plan: Plan, degrees: Sequence[float], nanometres: Sequence[float], surfaces: Sequence[int] = (1,)) -> list[list[Point]]:
    """The train over both: for each angle the points over the wavelength."""
    return [sweep_wavelength(plan, nanometres, surfaces, angle) for angle in degrees]


def _point(plan: Plan, at: float, wavelength: float | None, angles: dict[int, float]) -> Point:
    try:
        made = plan.make(wavelength, angles)
        after = powers(made)
    except Wrong as wrong:
        return Point(at, [], None, None, None, None, None, str(wrong))
    s, p = after[-1] if after else (plan.s, plan.p)
    lost = percent_of((plan.s + plan.p) - (s + p), plan.s + plan.p)
    return Point(at, after, s, p, percent_of(plan.s - s, plan.s), percent_of(plan.p - p, plan.p), lost)


def lost_at_each(point: Point, start: float) -> list[float | None]:
    """What each surface loses at a point, in percent of the beam."""
    sums = [start] + [s + p for s, p in point.after]
    return [percent_of(one - two, start) for one, two in zip(sums, sums[1:])]


# ---- bands


def band_means(made: Made, lines: list[tuple[float, int, int]]) -> tuple[float, float]:
    """The weighed means of s and of p."""
    data = made.sheet.to_bytes()
    try:
        return band(data, [(wavelength, weight) for wavelength, weight, _ in lines])
    except Refused as refused:
        raise explain.Turned(refused, explain.band_sentence(refused, data, lines, made)) from None


def band_each(made: Made, lines: list[tuple[float, int, int]]) -> list[tuple[float, float]]:
    """s and p of each line alone."""
    return [band_means(made, [(wavelength, 1, line)]) for wavelength, _, line in lines]


# ---- quarter waves


@dataclass(frozen=True)
class Quarters:
    """A layer in whole quarter waves, and what is over."""

    surface: int
    layer: int
    n: float
    thickness_nm: float
    quarter_waves: int
    over_nm: float


def quarters(made: Made) -> list[Quarters]:
    """Each layer of the custom surfaces, at the beam's wavelength."""
    found, wavelength = [], made.sheet.wavelength_nm
    for count, (face, surface) in enumerate(zip(made.plan.faces, made.sheet.surfaces), 1):
        for number, (film, layer) in enumerate(zip(face.films, surface.layers), 1):
            n, thickness = index_at(layer, wavelength), layer.thickness_nm
            try:
                found.append(Quarters(count, number, n, thickness, *quarter_waves(n, thickness, wavelength)))
            except Refused as refused:
                name = f"layer {number} of surface {count}{in_line(film.line)}"
                raise explain.Turned(refused, f"{name}: {explain.film_missed(n, thickness, wavelength)}") from None
    if not found:
        raise Wrong("no surface has layers of its own")
    return found


# ---- sheets


def for_edition_1(made: Made) -> bytes:
    """The sheet for programs that read edition 1 only."""
    data = made.sheet.to_bytes()
    try:
        return edition_1(data)
    except Refused as refused:
        raise explain.Turned(refused, explain.sentence(refused, data, made)) from None


def identity(made: Made) -> dict[str, str]:
    """What an answer was made with: the library's version, and the hash of the sheet's bytes."""
    return {"version": "{}.{}".format(*version()), "sheet_sha256": hashlib.sha256(made.sheet.to_bytes()).hexdigest()}


def summary(sheet: Sheet) -> str:
    return f"{counted(len(sheet.surfaces), 'surface')}, edition {edition(sheet)}, {counted(len(sheet.to_bytes()), 'byte')}"


# ---- tables of the reports


def percent(x: float | None) -> str:
    """Four places; what rounds to zero has no sign."""
    return "-" if x is None else f"{x:.4f}".replace("-0.0000", "0.0000")


def aligned(rows: list[list[str]], left: Sequence[int] = ()) -> str:
    """Columns with two spaces between; those of `left` begin in one line."""
    widths = [max(len(row[i]) for row in rows) for i in range(len(rows[0]))]
    cells = ([cell.ljust(width) if i in left else cell.rjust(width) for i, (cell, width) in enumerate(zip(row, widths))] for row in rows)
    return "".join("  ".join(row).rstrip() + "\n" for row in cells)


def losses_rows(found: Losses) -> list[list[str]]:
    rows = [["", "surface", "nm", "follows", "s lost %", "p lost %", "lost %", "stays in the glass %", "left of the beam %"]]
    for one in found.surfaces:
        shares = [one.s_lost_percent, one.p_lost_percent, one.lost_percent, one.stays_in_the_glass_percent, one.left_percent]
        rows.append([str(one.number), one.surface, f"{one.wavelength_nm:g}", one.follows, *map(percent, shares)])
    return rows


def losses_table(found: Losses) -> str:
    ends = f"s {found.s + 0.0:.6g}, p {found.p + 0.0:.6g}, sum {found.sum + 0.0:.6g}"  # + 0.0 takes the sign from a zero
    return aligned(losses_rows(found), (1, 3)) + f"whole train: {percent(found.lost_percent)} % lost, {percent(found.left_percent)} % left ({ends})\n"


def alone_table(found: list[Alone]) -> str:
    rows = [["", "surface", "nm", "R s %", "R p %", "T s %", "T p %", "stays s %", "stays p %"]]
    for one in found:
        rows.append([str(one.number), one.surface, f"{one.wavelength_nm:g}", *(percent(100 * x) for x in one.shares())])
    refused = [f"surface {one.number}{in_line(one.line)} stands in no sheet: {one.no_sheet}\n" for one in found if one.no_sheet]
    return aligned(rows, (1,)) + "".join(refused)


def quarters_table(found: list[Quarters], wavelength: float) -> str:
    rows = [["surface", "layer", "n", "thickness nm", "quarter waves", "over nm"]]
    rows += [[str(x.surface), str(x.layer), written(x.n), written(x.thickness_nm), str(x.quarter_waves), written(x.over_nm)] for x in found]
    return f"a quarter wave of {written(wavelength)} nm is {written(wavelength / 4)} nm\n" + aligned(rows)


def band_table(lines: list[tuple[float, int, int]], each: list[tuple[float, float]], mean: tuple[float, float]) -> str:
    rows = [["line", "nm", "weight", "s", "p", "sum"]]
    for count, ((wavelength, weight, _), (s, p)) in enumerate(zip(lines, each)):
        rows.append([str(count), written(wavelength), str(weight), f"{s:.6f}", f"{p:.6f}", f"{s + p:.6f}"])
    total = sum(weight for _, weight, _ in lines)
    means = f"s {mean[0]:.6g}, p {mean[1]:.6g}, sum {mean[0] + mean[1]:.6g}"
    return aligned(rows) + f"band of {counted(len(lines), 'line')}, weights {total} in all: {means}\n"


def sweep_cells(points: list[Point], over: str, start: float, each: bool = False) -> list[list[str]]:
    """Powers and percentages; with `each`, what of the beam each surface loses."""
    most = max((len(one.after) for one in points), default=0) if each else 0
    rows = [[over, "s", "p", "sum", "s lost %", "p lost %", "lost %", *(f"lost at {count} %" for count in range(1, most + 1)), ""]]
    for one in points:
        if one.s is None or one.p is None:
            rows.append([written(one.at), *["-"] * (6 + most), one.refused])
        else:
            shares = [one.s_lost_percent, one.p_lost_percent, one.lost_percent, *(lost_at_each(one, start) if each else [])]
            rows.append([written(one.at), f"{one.s:.6f}", f"{one.p:.6f}", f"{one.s + one.p:.6f}", *map(percent, shares), ""])
    return rows


def sweep_table(points: list[Point], over: str, start: float, each: bool = False) -> str:
    rows = sweep_cells(points, over, start, each)
    return aligned(rows, (len(rows[0]) - 1,))


def spread_table(found: Tolerance, about: str, seed: int) -> str:
    """The spread of the losses, and what one per cent of each layer does."""
    rows = [["lost %", "designed", "mean", "deviation", "least", "5 %", "median", "95 %", "most"]]
    rows += [[one.of, *map(percent, (one.designed, one.mean, one.deviation, one.least, one.low, one.middle, one.high, one.most))] for one in found.spreads]
    layers = [["surface", "layer", "n", "thickness nm", "n + 1 %", "n - 1 %", "thickness + 1 %", "thickness - 1 %"]]
    for one in found.weights:
        changes = [one.index_more, one.index_less, one.thickness_more, one.thickness_less]
        layers.append([str(one.surface), str(one.layer), f"{one.n:.6g}", f"{one.thickness_nm:.6g}", *map(signed, changes)])
    return f"{about}, seed {seed}\n{aligned(rows, (0,))}what is lost changes, in points of per cent, with one per cent of a layer:\n{aligned(layers)}"


def signed(x: float | None) -> str:
    return "-" if x is None else f"{x:+.4f}"


def map_table(degrees: Sequence[float], nanometres: Sequence[float], points: list[list[Point]]) -> str:
    """What is lost in percent, a row for each angle and a column for each wavelength."""
    rows = [["lost %", *(f"{written(nm)} nm" for nm in nanometres)]]
    rows += [[f"{written(angle)} deg", *(percent(one.lost_percent) for one in row)] for angle, row in zip(degrees, points)]
    refused = sorted({one.refused for row in points for one in row if one.refused})
    return aligned(rows) + "".join(f"- {why}\n" for why in refused[:5])


def sweep_rows(points: list[Point], over: str, each: bool) -> list[dict[str, Any]]:
    """The rows of a sweep's CSV or JSON: exact powers, and the losses in percent."""
    most = max((len(one.after) for one in points), default=0)
    rows = []
    for one in points:
        total = None if one.s is None or one.p is None else one.s + one.p
        row: dict[str, Any] = {over: one.at, "s": one.s, "p": one.p, "sum": total, "lost_percent": one.lost_percent}
        row |= {"s_lost_percent": one.s_lost_percent, "p_lost_percent": one.p_lost_percent}
        for count in range(most if each else 0):
            s, p = one.after[count] if one.after else (None, None)
            row |= {f"s_{count + 1}": s, f"p_{count + 1}": p}
        rows.append(row | {"refused": one.refused})
    return rows
