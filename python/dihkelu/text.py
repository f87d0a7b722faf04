"""The text of a sheet that people write and read: docs/SHEETS.md has its lines.

A text is read to a plan, which makes its sheet; a sheet is written as a text, every number with all its bits.
"""
from __future__ import annotations

import math
import re
from typing import Any, Iterator, Union

from . import glasses
from .calls import stack
from .plans import COATINGS, DIRECTIONS, MOST_ALONE, MOST_LAYERS, MOST_SURFACES, Face, Film, Index, Material, Plan, Tabled, film, index_at, met
from .refusals import NoStack, Refused, StackTooLong
from .sheet import Coating, Glass, Layer, Sheet
from .words import UNITS, Wrong, apart, number, quoted, suggested, unit, written

EDITION_FORM = "edition 1|2"
BEAM_FORM = "beam NUMBER nm|um s NUMBER p NUMBER"
SURFACE_FORM = "surface COATING transmitted|reflected from INDEX to INDEX at NUMBER deg|rad"
WINDOW_FORM = "window INDEX at NUMBER deg|rad [in INDEX]"
FACE_FORM = "front|back|both COATING"
LAYER_FORM = "layer INDEX thickness NUMBER nm|um [k NUMBER]"
QUARTER_FORM = "layer INDEX quarter-waves NUMBER at NUMBER nm|um"
MATERIAL_FORM = "material NAME a NUMBER b NUMBER c NUMBER [k NUMBER]"
POINT_FORM = "material NAME at NUMBER nm|um n NUMBER k NUMBER"
GLASS_FORM = "glass a NUMBER b NUMBER c NUMBER thickness NUMBER nm|um"
RETUNE_FORM = "retune to NUMBER nm|um"
STACK_FORM = "stack TEXT with H INDEX L INDEX [M INDEX] at NUMBER nm|um"
BAND_FORM = "NUMBER nm|um weight NUMBER"
HEADS = "edition, material, beam, retune, surface, window, front, back, both, layer, glass, stack"
WHAT = {"transmitted": "direction", "1": "edition", "front": "face"}  # what alternatives are; else units


# ---- words of a line

Materials = dict[str, Index]  # of the text, by their names


def choice(token: str, names: list[str], what: str) -> int:
    word = unit(token) if what == "unit" else token.lower()
    if word not in names:
        raise Wrong(f"there is no {what} {quoted(token)}{suggested(token, names) if what == 'coating' else ''}; there are {', '.join(names)}")
    return names.index(word)


def index(token: str, materials: Materials = {}) -> Index:
    """A number, the name of a material of the text, or that of a glass."""
    if re.match(r"[+\u2212-]?[.,]?[0-9]", token):
        return Index(number(token))
    if token.lower() in materials:
        return materials[token.lower()]
    try:
        return Index(glass=glasses.glass(token))
    except glasses.UnknownGlass as wrong:
        raise Wrong(f"{quoted(token)} is no number; {wrong}" if "there is no glass" in str(wrong) else str(wrong)) from None


def name(token: str) -> str:
    """A name for a material of the text, in small letters."""
    if not re.fullmatch(r"[A-Za-z][A-Za-z0-9_.-]*", token):
        raise Wrong(f"{quoted(token)} is no name: a name is a letter, then letters, digits, '-', '_' and '.'")
    if glasses.is_named(token):
        raise Wrong(f"{quoted(token)} is a glass that has its name already")
    return token.lower()


def match(tokens: list[str], form: str, materials: Materials = {}) -> list[Any]:
    """What stands at the places of NUMBER, INDEX, NAME, COATING and the alternatives of the form; its other words must stand there.

    A NUMBER before a unit, which may stand right behind it, is in nanometres or radians."""
    tokens = [word for token in tokens for word in apart(token)]
    optional = form.split(" [")
    wanted = optional[0].split()
    if len(optional) == 2 and len(tokens) > len(wanted):
        wanted += optional[1].rstrip("]").split()
    found: list[Any] = []
    for place, want in enumerate(wanted):
        if place == len(tokens):
            raise Wrong(f"the line ends where {want} should stand: {form}")
        token = tokens[place]
        if want == "NUMBER":
            found.append(number(token))
        elif want == "INDEX":
            found.append(index(token, materials))
        elif want == "NAME":
            found.append(name(token))
        elif want == "COATING":
            found.append(Coating(choice(token, COATINGS, "coating")))
        elif "|" in want:
            names = want.split("|")
            chosen = choice(token, names, WHAT.get(names[0], "unit"))
            if names[0] in WHAT:
                found.append(chosen)
            else:
                found[-1] = in_unit(found[-1], names[chosen])
        elif token.lower() != want:
            raise Wrong(f"{quoted(token)} stands where '{want}' should: {form}")
    if len(tokens) > len(wanted):
        raise Wrong(f"{quoted(tokens[len(wanted)])} is more than the line takes: {form}")
    return found


def in_unit(x: float, unit: str) -> float:
    """In nanometres or radians: multiplied once."""
    return x if UNITS[unit] == 1.0 else x * UNITS[unit]


# ---- stacks


SUPERSCRIPTS = "\u2070\u00b9\u00b2\u00b3\u2074\u2075\u2076\u2077\u2078\u2079"


def plain_stack(text: str) -> str:
    """A stack with powers that are written small and high as the library has them, behind ^."""
    return re.sub(f"[{SUPERSCRIPTS}]+", lambda found: "^" + "".join(str(SUPERSCRIPTS.index(c)) for c in found[0]), text)


def stack_hints(text: str) -> list[str]:
    """A power that may have lost its place: a number behind a bracket belongs to the letter after it."""
    found = re.search(r"(\([^()]*\))\s*([0-9]+)\s*([HLM])", text)
    if not found:
        return []
    return [f"in {quoted(text)} the {found[2]} makes the {found[3]} behind it {found[2]} quarter waves thick; to repeat the bracket write {found[1]}^{found[2]}"]


def stack_refused(text: str, refused: Refused) -> str:
    if isinstance(refused, StackTooLong):
        return f"{quoted(text)} has more than 64 layers"
    if not isinstance(refused, NoStack):
        return "an index or the design wavelength is not positive and finite"
    data = text.encode()
    if len(data) > 255:
        return f"the stack has {len(data)} bytes; a stack has 255 at most"
    if refused.place == len(data):
        return f"{quoted(text)} stops early"
    return f"{quoted(text)} is no stack: {stack_wrong(data, refused.place)}"


def stack_wrong(data: bytes, place: int) -> str:
    """What stands at a byte where no stack can have it."""
    digits = next((found for found in re.finditer(rb"[0-9]+", data) if found.start() <= place < found.end()), None)
    if digits:
        power = data[: digits.start()].rstrip().endswith(b"^")
        limit = "a power is from 1 to 31" if power else "a number before a letter is from 1 to 99"
        return f"{limit}, and {digits[0].decode()[:20]} is none, at its byte {place}, counted from 0"
    stands = data[place:].decode("utf-8", "replace")[0]
    before = data[:place]
    deep = "; brackets stand within brackets at most four deep" if stands == "(" and before.count(b"(") - before.count(b")") >= 4 else ""
    letters = "; its letters are H, L and M" if stands.isalpha() else ""
    return f"{quoted(stands)} cannot stand at its byte {place}, counted from 0{deep}{letters}"


def stack_films(text: str, letters: list[Index], design_nm: float, line: int | None) -> list[Film]:
    """The layers of a text in shorthand, the indices of H, L and M being those at the design wavelength."""
    try:
        high, low, middle = (letter.at(design_nm) for letter in letters)
        layers = stack(text, high, low, middle, design_nm)
        named = stack(text, 1.0, 2.0, 3.0, design_nm)  # the letter of each layer
    except Refused as refused:
        raise Wrong(f"refused {refused.number} {refused.place}: {stack_refused(text, refused)}") from None
    except glasses.OutOfRange as wrong:
        raise Wrong(str(wrong)) from None
    return [film(line, letters[int(name.n) - 1], None, layer.thickness_nm) for layer, name in zip(layers, named)]


def stack_line(content: str, line: int, materials: Materials) -> list[Film]:
    """The layers of a line `stack TEXT with ..`. A letter that is not given takes H's index, and must not occur."""
    parts = re.fullmatch(r"\s*stack\s+(.*\S)\s+with\s+(.*?)\s*", content, re.IGNORECASE)
    if not parts:
        raise Wrong(f"a stack has its text, the word with, and what the letters are: {STACK_FORM}")
    text, tokens = plain_stack(parts[1]), parts[2].split()
    with_m = len(tokens) > 4 and tokens[4].lower() == "m"
    if "M" in text and not with_m:
        raise Wrong(f"M stands in {quoted(text)} and has no index: {STACK_FORM}")
    form = "h INDEX l INDEX m INDEX at NUMBER nm|um" if with_m else "h INDEX l INDEX at NUMBER nm|um"
    try:
        given = match(tokens, form, materials)
    except Wrong as wrong:
        raise Wrong(str(wrong).replace(form, STACK_FORM)) from None
    return stack_films(text, [given[0], given[1], given[2] if with_m else given[0]], given[-1], line)


def layer_line(tokens: list[str], line: int, materials: Materials) -> Film:
    if len(tokens) > 2 and tokens[2].lower() == "quarter-waves":
        n, count, design = match(tokens, QUARTER_FORM, materials)
        (one,) = stack_films("H", [n, n, n], design, line)
        return film(line, n, None, count * one.thickness_nm)
    n, thickness, k = (match(tokens, LAYER_FORM, materials) + [None])[:3]
    return film(line, n, k, thickness)


# ---- text to plan


class Reader:
    """Takes one line after the other."""

    def __init__(self, most_layers: int = MOST_LAYERS) -> None:
        self.plan, self.most_layers = Plan(), most_layers
        self.materials: Materials = {}
        self.waiting: tuple[float, int] | None = None  # a retune's wavelength and line, until its surface comes
        self.under: list[Face] = []  # the faces that a layer belongs to

    def take(self, content: str, line: int) -> None:
        tokens = content.split()
        head = tokens[0].lower()
        if self.waiting and head not in ("surface", "window"):
            raise Wrong(f"a surface must follow the retune of line {self.waiting[1]}")
        if head in ("surface", "window", "retune") and self.plan.beam_line is None:
            raise Wrong(f"a {head} before the beam")
        if head not in HEADS.split(", "):
            raise Wrong(f"{quoted(tokens[0])}{suggested(head, HEADS.split(', '))} begins no line; a line begins with {HEADS} or #")
        if head == "stack":
            self.add_films(stack_line(content, line, self.materials))
            self.plan.hints += [f"line {line}: {hint}" for hint in stack_hints(re.sub(r"(?i)^\s*stack\s+|\s+with\s.*$", "", content))]
        elif head in ("front", "back", "both"):
            self.face(tokens)
        else:
            getattr(self, head)(tokens, line)

    def edition(self, tokens: list[str], line: int) -> None:
        if self.plan.beam_line is not None or self.plan.edition is not None:
            raise Wrong("an edition stands once, before the beam")
        self.plan.edition = 1 + match(tokens, EDITION_FORM)[0]

    def beam(self, tokens: list[str], line: int) -> None:
        if self.plan.beam_line is not None:
            raise Wrong(f"a second beam; the first is in line {self.plan.beam_line}")
        self.plan.wavelength_nm, self.plan.s, self.plan.p = match(tokens, BEAM_FORM)
        self.plan.beam_line = line

    def surface(self, tokens: list[str], line: int) -> None:
        coating, reflected, n0, n1, angle = match(tokens, SURFACE_FORM, self.materials)
        self.add_faces([Face(line, coating, n0, n1, angle, bool(reflected))])
        self.under = self.plan.faces[-1:]

    def window(self, tokens: list[str], line: int) -> None:
        """Two faces, bare until the next lines say otherwise."""
        n, angle, medium = (match(tokens, WINDOW_FORM, self.materials) + [Index(1.0)])[:3]
        front = Face(line, Coating.BARE, medium, n, angle)
        self.add_faces([front, Face(line, Coating.BARE, n, medium, angle, second=True)])
        self.under = []

    def face(self, tokens: list[str]) -> None:
        which, coating = match(tokens, FACE_FORM)
        pair = self.plan.faces[-2:]
        if len(pair) < 2 or not pair[1].second:
            raise Wrong(f"'{tokens[0]}' stands only under a window")
        self.under = [pair[0:1], pair[1:2], pair][which]
        for face in self.under:
            if face.coated:
                raise Wrong(f"the window's {('front', 'back')[face.second]} has its coating already")
            face.coating, face.coated = coating, True

    def retune(self, tokens: list[str], line: int) -> None:
        if self.plan.edition == 1:
            raise Wrong("a retune stands only in a sheet of edition 2")
        self.waiting = match(tokens, RETUNE_FORM)[0], line

    def layer(self, tokens: list[str], line: int) -> None:
        self.add_films([layer_line(tokens, line, self.materials)])

    def glass(self, tokens: list[str], line: int) -> None:
        a, b, c, thickness = match(tokens, GLASS_FORM)
        self.add_films([film(line, Index(glass=Material("", a, b, c)), None, thickness)])

    def material(self, tokens: list[str], line: int) -> None:
        if len(tokens) > 2 and tokens[2].lower() == "at":
            self.point(*match(tokens, POINT_FORM))
            return
        called, a, b, c, k = (match(tokens, MATERIAL_FORM) + [0.0])[:5]
        if called in self.materials:
            raise Wrong(f"there is a material '{called}' already")
        self.materials[called] = Index(glass=Material(called, a, b, c, k))

    def point(self, called: str, nm: float, n: float, k: float) -> None:
        """A line of a material's table."""
        table = self.materials.setdefault(called, Index(glass=Tabled(called))).glass
        if not isinstance(table, Tabled):
            raise Wrong(f"there is a material '{called}' with coefficients already")
        if not (math.isfinite(nm) and math.isfinite(n) and math.isfinite(k)) or nm in (point[0] for point in table.points):
            raise Wrong(f"the material '{called}' has a line for {written(nm)} nm already, or a number of this one is not finite")
        table.points.append((nm, n, k))

    def add_faces(self, faces: list[Face]) -> None:
        if len(self.plan.faces) + len(faces) > MOST_SURFACES:
            raise Wrong(f"a sheet has at most {MOST_SURFACES} surfaces")
        if self.waiting:
            faces[0].retune_nm, faces[0].retune_line = self.waiting
        self.waiting = None
        self.plan.faces.extend(faces)

    def add_films(self, films: list[Film]) -> None:
        if self.plan.edition == 1 and any(isinstance(one.given, Glass) for one in films):
            raise Wrong("a glass stands only in a sheet of edition 2")
        if not self.under or any(face.coating != Coating.CUSTOM for face in self.under):
            raise Wrong("a layer stands only under a surface whose coating is custom")
        for face in self.under:
            total = len(face.films) + len(films)
            if total > self.most_layers:
                raise Wrong(f"a surface has at most {self.most_layers} layers" + (f"; with this stack it has {total}" if len(films) > 1 else "") + self.alone())
            face.films.extend(films)

    def alone(self) -> str:
        return "" if self.most_layers > MOST_LAYERS else f"; dihkelu evaluate takes {MOST_ALONE}, of a surface alone"

    def end(self) -> Plan:
        if self.plan.beam_line is None:
            raise Wrong(f"the text ends without a beam: {BEAM_FORM}")
        if self.waiting:
            raise Wrong(f"a surface must follow the retune of line {self.waiting[1]}")
        return self.plan


UTF_16 = "the text is in UTF-16; save it as UTF-8"


def is_utf_16(data: bytes) -> bool:
    """By its mark, or by a text's first letters with a zero byte beside each."""
    return data[:2] in (b"\xff\xfe", b"\xfe\xff") or re.match(rb"(\0[ -~\t\r\n]){4}|([ -~\t\r\n]\0){4}", data) is not None


def without_mark(data: bytes) -> bytes:
    """What stands behind UTF-8's byte order mark."""
    return data[3:] if data[:3] == b"\xef\xbb\xbf" else data


def is_text(data: bytes) -> bool:
    """A text is UTF-8 with hardly a control byte; a sheet begins with OPEN's byte 0x10 and is full of them."""
    if data[:1] == b"\x10":
        return False
    if is_utf_16(data):
        return True
    controls = len(data) - len(data.translate(None, CONTROLS))
    try:
        without_mark(data).decode("utf-8")
    except UnicodeDecodeError:
        return not controls
    return 8 * controls <= len(data)


CONTROLS = bytes(byte for byte in range(32) if byte not in (9, 10, 13))


def lines_of(data: bytes) -> Iterator[tuple[int, str]]:
    """The lines of a text, ended by a line feed, a carriage return or both; nothing else ends one."""
    if is_utf_16(data):
        raise Wrong(UTF_16)
    for line, content in enumerate(re.split(rb"\r\n|\n|\r", without_mark(data)), 1):
        control = next((byte for byte in content if byte < 32 and byte != 9 or byte == 127), None)
        if control is not None:
            raise Wrong(f"line {line}: the control byte 0x{control:02X} stands in the text")
        try:
            yield line, content.decode("utf-8")
        except UnicodeDecodeError as error:
            raise Wrong(f"line {line}: the byte 0x{content[error.start]:02X} is not UTF-8; save the text as UTF-8") from None


def read(data: Union[str, bytes], most_layers: int = MOST_LAYERS) -> Plan:
    """The plan of a text; its surfaces have at most so many layers."""
    reader, line = Reader(most_layers), 0
    for line, content in lines_of(data.encode() if isinstance(data, str) else data):
        content = content.split("#")[0]
        try:
            if content.split():
                reader.take(content, line)
        except Wrong as wrong:
            raise Wrong(f"line {line}: {wrong}") from None
    try:
        return reader.end()
    except Wrong as wrong:
        raise Wrong(f"line {line}: {wrong}") from None


def read_band(data: Union[str, bytes]) -> list[tuple[float, int, int]]:
    """The lines of a band: a wavelength, a weight and the text's line of each."""
    found = []
    for line, content in lines_of(data.encode() if isinstance(data, str) else data):
        tokens = content.split("#")[0].split()
        if not tokens:
            continue
        try:
            wavelength, weight = match(tokens, BAND_FORM)
        except Wrong as wrong:
            raise Wrong(f"the band's line {line}: {wrong}") from None
        if not (0 <= weight < 2**32 and weight.is_integer()):
            raise Wrong(f"the band's line {line}: {written(weight)} is no whole weight")
        found.append((wavelength, int(weight), line))
    return found


# ---- sheet to text


def layer_text(layer: Union[Layer, Glass], wavelength_nm: float) -> str:
    """A layer's line."""
    thickness = written(layer.thickness_nm)
    if isinstance(layer, Glass):
        a, b, c = map(written, (layer.a, layer.b, layer.c))
        return f"glass a {a} b {b} c {c} thickness {thickness} nm  # n {index_at(layer, wavelength_nm):.6g}"
    lossless = layer.k == 0 and math.copysign(1, layer.k) > 0
    return f"layer {written(layer.n)} thickness {thickness} nm" + ("" if lossless else f" k {written(layer.k)}")


def edition(sheet: Sheet) -> int:
    """A sheet's edition: 2 where it says so, or where a glass or a retune needs it."""
    return sheet.to_bytes()[3]


def write(sheet: Sheet) -> str:
    """The text of a sheet, every number with all its bits."""
    lines = ["edition 2"] if edition(sheet) == 2 else []
    lines += [f"beam {written(sheet.wavelength_nm)} nm s {written(sheet.s)} p {written(sheet.p)}"]
    for place, (one, wavelength) in enumerate(zip(sheet.surfaces, met(sheet)), 1):
        if one.retune_nm is not None:
            lines.append(f"retune to {written(wavelength)} nm")
        n0, n1, angle = map(written, (one.n_incident, one.n_substrate, one.angle_rad))
        name, direction = COATINGS[one.coating], DIRECTIONS[one.reflected]
        lines.append(f"surface {name} {direction} from {n0} to {n1} at {angle} rad  # {place}: {math.degrees(one.angle_rad):.4f} deg")
        lines += ["  " + layer_text(layer, wavelength) for layer in one.layers]
    return "\n".join(lines) + "\n"
