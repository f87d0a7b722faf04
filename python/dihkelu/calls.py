"""The calls, each with Python's own values. What each gives and refuses stands in dihkelu.h."""
from __future__ import annotations

import array
import ctypes
import itertools
import math
import operator
from dataclasses import dataclass, fields
from typing import Any, Iterable, Iterator, Sequence, Union

from .library import Library
from .refusals import BY_NUMBER, InvalidParameter, Refused, answered
from .sheet import Coating, Layer, Sheet

_library = Library()

Matrix = tuple[tuple[complex, complex], tuple[complex, complex]]
Mueller = tuple[tuple[float, ...], ...]
SheetLike = Union[Sheet, bytes, bytearray, memoryview]
Buffer = Any  # doubles of ctypes

IDEAL_AR, MGF2, BROADBAND_AR, MIRROR, LAYERS, IDEAL_BEAMSPLITTER, IDEAL_MIRROR, CUSTOM_IDEAL_AR = range(1, 9)
"""The codes that `evaluate` takes; those up to 7 are also Coating's."""


def _bytes(sheet: SheetLike) -> bytes:
    return sheet.to_bytes() if isinstance(sheet, Sheet) else bytes(sheet)


def _numbers(values: Iterable[float] = (), count: int | None = None) -> ctypes.Array[ctypes.c_double]:
    values = [float(x) for x in values]
    return (ctypes.c_double * (len(values) if count is None else count))(*values)


def _pairs(x: Sequence[float]) -> list[complex]:
    return [complex(x[i], x[i + 1]) for i in range(0, len(x), 2)]


def _matrix(x: Sequence[float]) -> Matrix:
    a, b, c, d = _pairs(x)
    return (a, b), (c, d)


def _mueller(x: Sequence[float]) -> Mueller:
    return tuple(tuple(x[4 * i : 4 * i + 4]) for i in range(4))


def version() -> tuple[int, int]:
    """The library's version."""
    number = _library.dihkelu_version()
    return number >> 16, number & 0xFFFF


# ---- the train


def gate(sheet: SheetLike) -> int:
    """The count of surfaces of a sheet that is admitted."""
    data = _bytes(sheet)
    return answered(_library.dihkelu_gate(data, len(data)), "gate")


class Train:
    """A train: what is done of its sheet, s and p after it, and the wavelength held. A call that is refused leaves all as it was."""

    def __init__(self, sheet: SheetLike):
        self._sheet = _bytes(sheet)
        self._done, self._s, self._p, self._nm = ctypes.c_uint32(), ctypes.c_double(), ctypes.c_double(), ctypes.c_double()
        self.surfaces = answered(_library.dihkelu_start(self._sheet, len(self._sheet), *self._state()), "start")

    def _state(self) -> list[Any]:
        return [ctypes.byref(self._done), ctypes.byref(self._s), ctypes.byref(self._p), ctypes.byref(self._nm)]

    @property
    def surfaces_done(self) -> int:
        return self._done.value

    @property
    def s(self) -> float:
        return self._s.value

    @property
    def p(self) -> float:
        return self._p.value

    @property
    def wavelength_nm(self) -> float:
        return self._nm.value

    @property
    def sum(self) -> float:
        return self._s.value + self._p.value

    def step(self) -> int:
        """Takes the next surface; the surfaces done then."""
        return answered(_library.dihkelu_step(self._sheet, len(self._sheet), *self._state()), "step")

    def retune(self, wavelength_nm: float) -> int:
        """Another wavelength for the surfaces not yet done; the surfaces done."""
        returned = _library.dihkelu_retune(self._sheet, len(self._sheet), self._done, ctypes.byref(self._nm), wavelength_nm)
        return answered(returned, "retune")

    def __repr__(self) -> str:
        return f"Train(surfaces_done={self.surfaces_done}, s={self.s!r}, p={self.p!r}, wavelength_nm={self.wavelength_nm!r})"


def run(sheet: SheetLike) -> list[tuple[float, float]]:
    """s and p after each surface."""
    return _run(_bytes(sheet), _Powers())


def run_each(sheets: Iterable[SheetLike]) -> list[list[tuple[float, float]] | Refused]:
    """What `run` gives of each sheet; of one that is refused, its refusal."""
    out, found = _Powers(), list[Union[list[tuple[float, float]], Refused]]()
    for sheet in sheets:
        try:
            found.append(_run(_bytes(sheet), out))
        except Refused as refused:
            found.append(refused)
    return found


def last_powers(sheet: SheetLike) -> tuple[float, float]:
    """s and p after the last surface of a sheet that has one."""
    data, out = _bytes(sheet), _Powers()
    count = 2 * answered(_library.dihkelu_run(data, len(data), out, 128), "run")
    return out[count - 2], out[count - 1]


_Powers = ctypes.c_double * 128


def _run(data: bytes, out: Buffer) -> list[tuple[float, float]]:
    count = 2 * answered(_library.dihkelu_run(data, len(data), out, 128), "run")
    return list(zip(out[0:count:2], out[1:count:2]))


def edition_1(sheet: SheetLike) -> bytes:
    """The sheet for programs that read edition 1 only: each glass a layer with its index at the BEAM's wavelength."""
    data = _bytes(sheet)
    out = (ctypes.c_uint8 * 30500)()
    count = answered(_library.dihkelu_edition_1(data, len(data), out, len(out)), "edition_1")
    return bytes(out[:count])


def band(sheet: SheetLike, lines: Iterable[tuple[float, int]]) -> tuple[float, float]:
    """The means of s and of p over lines, each a wavelength in nm and a whole weight from 1 to 1,000."""
    data, lines = _bytes(sheet), list(lines)
    wavelengths = _numbers(w for w, _ in lines)
    weights = (ctypes.c_uint32 * len(lines))(*(_within(w, 0) for _, w in lines))
    out = _numbers(count=2)
    answered(_library.dihkelu_band(data, len(data), wavelengths, len(wavelengths), weights, len(weights), out, len(out)), "band")
    return out[0], out[1]


def _within(x: int, refused: int) -> int:
    """A whole number as the library has it; for one that it cannot hold, another that is refused alike."""
    return operator.index(x) if 0 <= x < 1 << 32 else refused


# ---- a surface


@dataclass(frozen=True)
class Response:
    """What a coated surface does: amplitudes, powers, phases, and what stays in the glass. Over arrays each is an array."""

    rs: Any
    rp: Any
    ts: Any
    tp: Any
    reflectance_s: Any
    reflectance_p: Any
    transmittance_s: Any
    transmittance_p: Any
    phase_rs_rad: Any
    phase_rp_rad: Any
    absorptance_s: Any
    absorptance_p: Any


def _response(x: Sequence[float]) -> Response:
    return Response(*_pairs(x[:8]), *x[8:16])


@dataclass(frozen=True)
class Answers:
    """A surface's powers, Jones and Mueller matrices; the response of a coated one."""

    coated: bool
    reflectance_s: float
    reflectance_p: float
    transmittance_s: float
    transmittance_p: float
    jones_reflected: Matrix
    jones_transmitted: Matrix
    mueller_reflected: Mueller
    mueller_transmitted: Mueller
    response: Response | None


def _answers(call: str, sheet: SheetLike, surface: int, *wavelength_nm: float) -> Answers:
    """A surface's answers by a call; no sheet has a surface 64."""
    data = _bytes(sheet)
    out = _numbers(count=69)
    count = answered(getattr(_library, "dihkelu_" + call)(data, len(data), _within(surface, 0xFFFFFFFF), *wavelength_nm, out, len(out)), call)
    x = out[:count]
    matrices = _matrix(x[5:13]), _matrix(x[13:21]), _mueller(x[21:37]), _mueller(x[37:53])
    return Answers(x[0] == 1.0, x[1], x[2], x[3], x[4], *matrices, _response(x[53:]) if count > 53 else None)


def answers(sheet: SheetLike, surface: int) -> Answers:
    """Of a sheet's surface, counted from 0, at the wavelength that steps alone meet it with."""
    return _answers("answers", sheet, surface)


def answers_at(sheet: SheetLike, surface: int, wavelength_nm: float) -> Answers:
    """The same where the train is retuned to a wavelength right before that surface is stepped."""
    return _answers("answers_at", sheet, surface, float(wavelength_nm))


def _layer(place: int, x: Any) -> tuple[float, float, float]:
    if isinstance(x, Layer):
        return x.n, x.k, x.thickness_nm
    try:
        n, k, thickness_nm = x
        return float(n), float(k), float(thickness_nm)
    except (TypeError, ValueError):
        raise ValueError(f"layers[{place}] is {_shown(x)}: a layer is a Layer, or three numbers: n, k and the thickness in nm") from None


def _shown(x: Any) -> str:
    """A value in a sentence, cut where it is long."""
    text = repr(x)
    return text if len(text) <= 60 else text[:57] + "..."


def _flat(layers: Any) -> Buffer:
    """The layers' numbers one after the other; an n × 3 array of doubles as it stands."""
    if _is_array(layers):
        if len(layers.shape) != 2 or layers.shape[1] != 3:
            raise ValueError(f"layers is an array of shape {layers.shape}: give n × 3, a row of n, k and thickness in nm for each layer")
        return _lent(layers.reshape(-1))
    return _lent(array.array("d", [x for place, one in enumerate(layers) for x in _layer(place, one)]))


def _lent(values: Any) -> Buffer:
    """Doubles for the library to read: the memory of an array that has them one after the other, else a copy."""
    try:
        view = memoryview(values)
    except TypeError:
        view = None
    if view is None or view.ndim != 1 or view.format != "d" or not view.contiguous:
        view = memoryview(array.array("d", values))
    elif view.readonly:
        view = memoryview(array.array("d", view.tobytes()))
    return (ctypes.c_double * len(view)).from_buffer(view)


def _is_array(x: Any) -> bool:
    """Whether it is an array of numpy's; no other module's is asked for a dtype."""
    return hasattr(x, "dtype")


def _is_many(x: Any) -> bool:
    """Whether an argument is a list or an array of numbers; an array of no dimensions is one number."""
    return not isinstance(x, (float, int)) and (x.shape != () if _is_array(x) else isinstance(x, Iterable))


def _broadcast(given: dict[str, Any]) -> tuple[dict[str, Any], tuple[int, ...] | None]:
    """The arguments that are many, all of one length and one dimension; and the shape of numpy's arrays, where there is one."""
    many = {name: x for name, x in given.items() if _is_many(x)}
    if any(_is_array(x) for x in many.values()):
        import numpy

        arrays = numpy.broadcast_arrays(*(numpy.asarray(x, dtype=float) for x in many.values()))
        return {name: numpy.ascontiguousarray(x).reshape(-1) for name, x in zip(many, arrays)}, arrays[0].shape
    many = {name: x if hasattr(x, "__len__") else list(x) for name, x in many.items()}
    if len({len(x) for x in many.values()}) > 1:
        raise ValueError("lists of unequal length: " + ", ".join(f"{len(x)} of {name}" for name, x in many.items()))
    return many, None


class _Columns(Response):
    """The responses of many cases, which stand in one buffer of 16 numbers a case. A field is made when it is asked for."""

    def __init__(self, numbers: Any, shape: tuple[int, ...] | None):
        object.__setattr__(self, "_kept", (numbers, shape))

    def __getattr__(self, name: str) -> Any:
        if name not in _FIELDS:
            raise AttributeError(name)
        (numbers, shape), at = self._kept, _FIELDS.index(name)
        if shape is not None:
            column = (numbers[:, at + 4] if at >= 4 else numbers.view(complex)[:, at]).reshape(shape)
        elif at >= 4:
            column = numbers[at + 4 :: 16].tolist()
        else:
            column = list(map(complex, numbers[2 * at :: 16], numbers[2 * at + 1 :: 16]))
        object.__setattr__(self, name, column)
        return column


_FIELDS = [field.name for field in fields(Response)]


def evaluate(
    code: int,
    n_incident: Any,
    n_substrate: Any,
    angle_rad: Any,
    wavelength_nm: Any,
    layers: Any = (),
    design_wavelength_nm: float = 550.0,
) -> Response:
    """One coated surface. The layers are Layer or (n, k, thickness in nm), or an n × 3 array, from the side of the lower index.

    Indices, angle and wavelength are numbers, or lists of one length; each field of the response is then a list. Where one is an
    array of numpy's they are broadcast, and each field is an array of their shape. An array of doubles that stand one after the other
    is read where it is. A refusal's place is the first case that is refused, counted from 0.
    """
    flat, code = _flat(layers), _within(code, 0xFFFFFFFF)
    given = {"n_incident": n_incident, "n_substrate": n_substrate, "angle_rad": angle_rad, "wavelength_nm": wavelength_nm}
    many, shape = _broadcast(given)
    if not many:
        out = (ctypes.c_double * 16)()
        case = [float(x) for x in given.values()]
        returned = _library.dihkelu_evaluate(code, design_wavelength_nm, *case, flat, len(flat), out, 16)
        if returned >> 32 == 1:
            raise InvalidParameter(1, 0, "evaluate", invalid_argument(*case) or "code")
        answered(returned, "evaluate")
        return _response(out[:])
    count = len(next(iter(many.values())))
    numbers: Any = None
    if shape is None:
        numbers = array.array("d", bytes(128 * count))
    else:
        import numpy

        numbers = numpy.empty((count, 16))
    columns = {name: _lent(many[name]) if name in many else float(x) for name, x in given.items()}
    _evaluate_cases(code, design_wavelength_nm, columns, flat, count, (ctypes.c_double * (16 * count)).from_buffer(numbers))
    return _Columns(numbers, shape)


def _evaluate_cases(code: int, design: float, columns: dict[str, Any], flat: Buffer, count: int, out: Buffer) -> None:
    """One call of the library for each run of cases with the same two indices."""
    n0, n1, angles, wavelengths = columns.values()
    angles, wavelengths = (x if isinstance(x, ctypes.Array) else _lent(array.array("d", [x]) * count) for x in (angles, wavelengths))
    angles_at, wavelengths_at, out_at = (ctypes.addressof(x) for x in (angles, wavelengths, out))
    call, films, numbers = _library.dihkelu_evaluate_list, ctypes.addressof(flat), len(flat)
    for begin, end, first, second in _runs(n0, n1, count):
        size, at = end - begin, 8 * begin
        returned = call(code, design, first, second, angles_at + at, size, wavelengths_at + at, size, films, numbers, out_at + 16 * at, 16 * size)
        if not returned >> 32:
            continue
        number, place = returned >> 32, begin + (returned & 0xFFFFFFFF)
        if number == 1:
            raise InvalidParameter(1, place, "evaluate", invalid_argument(first, second, angles[place], wavelengths[place]) or "code")
        raise BY_NUMBER[number](number, place, "evaluate")


CASES = 1 << 24  # of one call, below the library's own limit


def _runs(n0: Any, n1: Any, count: int) -> Iterator[tuple[int, int, float, float]]:
    """Where the pair of indices stays the same: begin, end and the two."""
    if not isinstance(n0, ctypes.Array) and not isinstance(n1, ctypes.Array):
        yield from ((begin, min(begin + CASES, count), n0, n1) for begin in range(0, count, CASES))
        return
    begin = 0
    for (first, second), run_ in itertools.groupby(zip(_each(n0, count), _each(n1, count))):
        end = begin + sum(1 for _ in run_)
        yield begin, end, first, second
        begin = end


def _each(x: Any, count: int) -> Iterable[float]:
    if isinstance(x, ctypes.Array):
        return x
    return itertools.repeat(float(x), count)


ARGUMENTS = (None, "n_incident", "n_substrate", "angle_rad", "wavelength_nm")


def invalid_argument(n_incident: float, n_substrate: float, angle_rad: float, wavelength_nm: float) -> str | None:
    """The argument that `evaluate` is refused with 1 for, the first of those that are not finite or not positive; None where there is none."""
    return ARGUMENTS[_library.dihkelu_invalid_argument(n_incident, n_substrate, angle_rad, wavelength_nm)]


# ---- the rest


def stack(text: str | bytes, n_h: float, n_l: float, n_m: float | None = None, design_wavelength_nm: float = 550.0) -> list[Layer]:
    """The layers of a text such as "(HL)^7 H". Where n_m is not given it is n_l: all three must be positive."""
    data = text.encode() if isinstance(text, str) else text
    out = _numbers(count=192)
    positive = {"n_h": n_h, "n_l": n_l, "n_m": n_l if n_m is None else n_m, "design_wavelength_nm": design_wavelength_nm}
    returned = _library.dihkelu_stack(data, len(data), *positive.values(), out, len(out))
    if returned >> 32 == 1:
        raise InvalidParameter(1, 0, "stack", next(name for name, x in positive.items() if not 0 < x < math.inf))
    count = answered(returned, "stack")
    return [Layer(*out[i : i + 3]) for i in range(0, count, 3)]


def to_mueller(jones: Sequence[Sequence[complex]]) -> Mueller:
    """The Mueller matrix of a Jones matrix, with the signs of the Rust's to_mueller."""
    return _mueller(_written("to_mueller", 16, jones=_entries(jones)))


def mueller_born_wolf(jones: Sequence[Sequence[complex]]) -> Mueller:
    """The same over Stokes vectors with S3 = 2 Im(Ex* Ey), as Born and Wolf have them."""
    return _mueller(_written("mueller_born_wolf", 16, jones=_entries(jones)))


def reflectance_range(n1: tuple[float, float], n2: tuple[float, float]) -> tuple[float, float]:
    """A low and a high reflectance of a bare surface met head-on, both indices known as ranges."""
    out = _numbers(count=2)
    answered(_library.dihkelu_reflectance_range(*n1, *n2, out, len(out)), "reflectance_range")
    return out[0], out[1]


def quarter_waves(n: float, thickness_nm: float, wavelength_nm: float) -> tuple[int, float]:
    """n times the thickness in quarters of the wavelength: how many, and the length that is over."""
    over = ctypes.c_double()
    count = answered(_library.dihkelu_quarter_waves(n, thickness_nm, wavelength_nm, ctypes.byref(over)), "quarter_waves")
    return count, over.value


# ---- single functions of the original

Vector = tuple[complex, complex]
Stokes = tuple[float, float, float, float]


def _written(name: str, count: int, *numbers: float, **lists: Any) -> list[float]:
    """The numbers that a call writes of the numbers and lists given."""
    out = _numbers(count=count)
    words: list[Any] = [*numbers, *(word for x in lists.values() for word in (x, len(x)))]
    returned = getattr(_library, "dihkelu_" + name)(*words, out, len(out))
    if returned >> 32 == 1 and lists:
        raise InvalidParameter(1, 0, name, next(key for key, x in lists.items() if len(x) != _COUNTS.get((name, key), _COUNTS.get(key))))
    return out[: answered(returned, name)]


_COUNTS: dict[Any, int] = {"field": 4, "beam": 4, "jones": 8, "matrix": 8, "left": 8, "right": 8, ("mueller_apply", "matrix"): 16}  # of doubles


def _parts(values: Iterable[complex]) -> ctypes.Array[ctypes.c_double]:
    return _numbers(x for z in values for x in (complex(z).real, complex(z).imag))


def _entries(jones: Sequence[Sequence[complex]]) -> ctypes.Array[ctypes.c_double]:
    return _parts(z for row in jones for z in row)


def fresnel_dielectric(cos_theta_i: float, n1: float, n2: float) -> tuple[float, float]:
    """Rs and Rp of a dielectric interface met at an angle of this cosine."""
    rs, rp = _written("fresnel_dielectric", 2, float(cos_theta_i), float(n1), float(n2))
    return rs, rp


def fresnel_unpolarized(cos_theta_i: float, n1: float, n2: float) -> tuple[float, float]:
    """R and T of unpolarized light."""
    r, t = _written("fresnel_unpolarized", 2, float(cos_theta_i), float(n1), float(n2))
    return r, t


def schlick_approx(cos_theta_i: float, n1: float, n2: float) -> float:
    """Schlick's approximation of the unpolarized reflectance."""
    return _written("schlick_approx", 1, float(cos_theta_i), float(n1), float(n2))[0]


def surface_fresnel_jones(n1: float, n2: float, angle_rad: float) -> tuple[Matrix, Matrix]:
    """The Jones matrices of a bare surface, of the reflected light and of the transmitted."""
    try:
        x = _written("surface_fresnel_jones", 16, float(n1), float(n2), float(angle_rad))
    except InvalidParameter:
        named = {"n_incident": "n1", "n_substrate": "n2"}
        culprit = invalid_argument(n1, n2, angle_rad, 1.0) or ""
        raise InvalidParameter(1, 0, "surface_fresnel_jones", named.get(culprit, culprit)) from None
    return _matrix(x[:8]), _matrix(x[8:])


def quarter_wave_ar(n_ambient: float, n_substrate: float, design_wavelength_nm: float) -> Layer:
    """A quarter wave of index sqrt(n_ambient n_substrate)."""
    return Layer(*_written("quarter_wave_ar", 3, float(n_ambient), float(n_substrate), float(design_wavelength_nm)))


def bragg_mirror(n_high: float, n_low: float, pairs: int, design_wavelength_nm: float) -> list[Layer]:
    """The layers of (H L)^pairs H, a quarter wave each."""
    x = _written("bragg_mirror", 189, float(n_high), float(n_low), _within(pairs, 32), float(design_wavelength_nm))
    return [Layer(*x[i : i + 3]) for i in range(0, len(x), 3)]


def coating_from_name(name: str | bytes) -> int:
    """The code that `evaluate` has the coating of a name by, MGF2 being at 550 nm; 0 for none."""
    data = name.encode() if isinstance(name, str) else name
    return answered(_library.dihkelu_coating_from_name(data, len(data)), "coating_from_name")


def coating_name(code: int) -> str:
    """The name of the coating that `evaluate` has by a code."""
    out = (ctypes.c_uint8 * 6)()
    count = answered(_library.dihkelu_coating_name(_within(code, 9), out, len(out)), "coating_name")
    return bytes(out[:count]).decode()


def trim(name: str | bytes) -> tuple[int, bytes]:
    """The trimmed part of a name, as `coating_from_name` reads it: its place among the name's bytes, and its bytes."""
    data = name.encode() if isinstance(name, str) else name
    place, length = ctypes.c_uint64(), ctypes.c_uint64()
    answered(_library.dihkelu_trim(data, len(data), place, length), "trim")
    return place.value, data[place.value : place.value + length.value]


def to_stokes(field: Sequence[complex]) -> Stokes:
    """The Stokes vector of a Jones vector, Ex and Ey."""
    s0, s1, s2, s3 = _written("to_stokes", 4, field=_parts(field))
    return s0, s1, s2, s3


def jones_normalize(field: Sequence[complex]) -> Vector:
    """A Jones vector at intensity 1."""
    ex, ey = _pairs(_written("jones_normalize", 4, field=_parts(field)))
    return ex, ey


def jones_intensity(field: Sequence[complex]) -> float:
    """A Jones vector's intensity."""
    return _written("jones_intensity", 1, field=_parts(field))[0]


@dataclass(frozen=True)
class StokesFigures:
    """What a Stokes vector says of its light; angles in radians."""

    degree_of_polarization: float
    degree_of_linear_polarization: float
    degree_of_circular_polarization: float
    orientation_angle_rad: float
    ellipticity_angle_rad: float


def stokes_figures(beam: Sequence[float]) -> StokesFigures:
    """Degrees of polarization, orientation and ellipticity of a Stokes vector."""
    return StokesFigures(*_written("stokes_figures", 5, beam=_numbers(beam)))


def jones_apply(matrix: Sequence[Sequence[complex]], field: Sequence[complex]) -> Vector:
    """A Jones matrix applied to a Jones vector."""
    ex, ey = _pairs(_written("jones_apply", 4, matrix=_entries(matrix), field=_parts(field)))
    return ex, ey


def jones_mul(left: Sequence[Sequence[complex]], right: Sequence[Sequence[complex]]) -> Matrix:
    """The product of two Jones matrices; light passes the right one first."""
    return _matrix(_written("jones_mul", 8, left=_entries(left), right=_entries(right)))


def mueller_apply(matrix: Sequence[Sequence[float]], beam: Sequence[float]) -> Stokes:
    """A Mueller matrix applied to a Stokes vector."""
    s0, s1, s2, s3 = _written("mueller_apply", 4, matrix=_numbers(x for row in matrix for x in row), beam=_numbers(beam))
    return s0, s1, s2, s3


def diattenuator(tx: complex, ty: complex) -> Matrix:
    """A diagonal Jones matrix of two amplitudes, such as a response's rs and rp, or ts and tp."""
    return _matrix(_written("diattenuator", 8, amplitudes=_parts([tx, ty])))


def linear_polarizer(angle_rad: float) -> Matrix:
    """The Jones matrix of a linear polarizer at an angle to the x-axis."""
    return _matrix(_written("linear_polarizer", 8, float(angle_rad)))


def retarder(retardance_rad: float, fast_axis_rad: float) -> Matrix:
    """The Jones matrix of a retarder, its fast axis at an angle."""
    return _matrix(_written("retarder", 8, float(retardance_rad), float(fast_axis_rad)))


def quarter_wave_plate(fast_axis_rad: float) -> Matrix:
    """The Jones matrix of a quarter-wave plate."""
    return _matrix(_written("quarter_wave_plate", 8, float(fast_axis_rad)))


def half_wave_plate(fast_axis_rad: float) -> Matrix:
    """The Jones matrix of a half-wave plate."""
    return _matrix(_written("half_wave_plate", 8, float(fast_axis_rad)))
