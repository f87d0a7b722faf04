#!/usr/bin/env python3
"""Holds the sheet writers of C, Fortran and Rust to the Python package: tools/test_sheet_writers.py PROGRAM.. [--data PROGRAM..]

A program is tests/sheets.c or its like: it reads commands and prints each sheet. Sheets of the package's own bytes; blocks in any order,
refused with the number and place that the gate has for the same bytes; bytes that are too few; and the words of each refusal. A program after
--data makes a sheet of a whole, so that it is given no blocks out of order and lends no bytes.
"""
import pathlib
import random
import struct
import subprocess
import sys

ROOT = pathlib.Path(__file__).resolve().parent.parent
sys.path.insert(0, str(ROOT / "python"))
sys.dont_write_bytecode = True
import dihkelu  # noqa: E402
from dihkelu import refusals  # noqa: E402

ROOM = 39460
FLOATS = {2: 3, 3: 3, 4: 3, 6: 4, 7: 1}


def block(kind, payload, numbers=()):
    return struct.pack(f">I{len(numbers)}d", kind << 28 | payload, *numbers)


def blocks_of(sheet):
    """A sheet's blocks between OPEN and END."""
    found = [(2, 0, (sheet.wavelength_nm, sheet.s, sheet.p))]
    for s in sheet.surfaces:
        found += [(7, 0, (s.retune_nm,))] if s.retune_nm is not None else []
        found.append((3, 2 * s.coating + s.reflected, (s.n_incident, s.n_substrate, s.angle_rad)))
        found += [(6 if isinstance(x, dihkelu.Glass) else 4, 0, tuple(vars(x).values())) for x in s.layers]
    return found


def bytes_of(blocks):
    edition = 2 if any(kind in (6, 7) for kind, *_ in blocks) else 1
    surfaces = sum(kind == 3 for kind, *_ in blocks)
    return block(1, edition) + b"".join(block(*b) for b in blocks) + block(5, surfaces)


def commands(room, blocks):
    lines = []
    for kind, payload, numbers in [(1, room, ()), *blocks, (5, 0, ())]:
        bits = [struct.pack(">d", x).hex() for x in numbers] + ["0" * 16] * (4 - len(numbers))
        lines.append(" ".join([str(kind), str(payload), *bits]))
    return "\n".join(lines) + "\n"


def any_number(rng):
    return struct.unpack(">d", rng.randbytes(8))[0] if rng.random() < 0.2 else rng.choice([0.0, -0.0, 1.0, 1.5, 550.0, 1e-310, float("inf")])


def a_sheet(rng):
    """Any numbers, up to 64 surfaces and 16 layers."""
    surfaces = []
    for _ in range(rng.choice([0, 1, 2, 3, 64])):
        coating = rng.choice(list(dihkelu.Coating))
        layers = []
        for _ in range(rng.choice([0, 1, 16]) if coating == dihkelu.Coating.CUSTOM else 0):
            kind = rng.choice([dihkelu.Layer, dihkelu.Layer, dihkelu.Glass])
            layers.append(kind(*(any_number(rng) for _ in range(4 if kind is dihkelu.Glass else 3))))
        retune = any_number(rng) if rng.random() < 0.1 else None
        surfaces.append(dihkelu.Surface(coating, any_number(rng), any_number(rng), any_number(rng), rng.random() < 0.5, tuple(layers), retune))
    return dihkelu.Sheet(any_number(rng), any_number(rng), any_number(rng), tuple(surfaces))


def out_of_order(rng):
    """Blocks in any order, more than 64 surfaces or 16 layers, coatings that are none."""
    if rng.random() < 0.2:
        blocks = [(2, 0, (550.0, 0.5, 0.5))] + [(3, rng.choice([0, 10]), (1.0, 1.5, 0.0)) for _ in range(rng.choice([64, 65]))]
        return blocks + rng.choice([[], [(7, 0, (550.0,))], [(7, 0, (550.0,)), (3, 0, (1.0, 1.5, 0.0))]])
    if rng.random() < 0.2:
        return [(2, 0, (550.0, 0.5, 0.5)), (3, 10, (1.0, 1.5, 0.0))] + [(4, 0, (1.5, 0.0, 10.0)) for _ in range(rng.choice([15, 16, 17, 18]))]
    kinds = [2] + [rng.choice([2, 3, 3, 3, 4, 4, 6, 7]) for _ in range(rng.randrange(1, 12))]
    if rng.random() < 0.1:
        kinds = kinds[1:]
    payloads = {3: lambda: rng.choice([0, 1, 10, 10, 10, 11, 14, 15, 16, 40])}
    return [(kind, payloads.get(kind, int)(), tuple(rng.choice([1.0, 1.5, 550.0]) for _ in range(FLOATS[kind]))) for kind in kinds]


def refusal_of(sheet):
    """The gate's number and place."""
    try:
        dihkelu.gate(sheet)
    except dihkelu.Refused as e:
        return e.number, e.place
    return 0, 0


def expected(room, blocks):
    """What the end returns, and the bytes: 5 as the gate has it, then 8."""
    whole = bytes_of(blocks)
    number, place = refusal_of(whole)
    if number == 5:
        return 5 << 32 | place, b""
    return (8 << 32, b"") if room < len(whole) else (len(whole), whole)


def words_of(returned):
    """The refusal in words, as the package has it where it does not say more than a number and a place can."""
    number, place = returned >> 32, returned & 0xFFFFFFFF
    if number == 0:
        return f"answered {place}"
    if number == 1:
        return f"refused 1 {place}: an argument is none that the call takes: an index, a wavelength, a code, or a count of numbers"
    more = ", or there is no coating of this code" if number == 2 and place != 32 else ""
    return str(refusals.BY_NUMBER[number](number, place)) + more


def is_data(room, blocks):
    """Whether blocks are those of a beam and its surfaces, each with its layers, however many."""
    kinds = [kind for kind, *_ in blocks]
    retunes = all(after == 3 for kind, after in zip(kinds, kinds[1:] + [0]) if kind == 7)
    coatings = all(payload < 16 for _, payload, _ in blocks)
    return room == ROOM and kinds[0] == 2 and 2 not in kinds[1:] and kinds[1:2] not in ([4], [6]) and retunes and coatings


def all_cases(rng):
    """A room, the blocks, and what the end returns with the bytes."""
    sheets = [a_sheet(rng) for _ in range(300)]
    cases = [(ROOM, blocks_of(sheet), (len(sheet.to_bytes()), sheet.to_bytes())) for sheet in sheets]
    others = [(ROOM, out_of_order(rng)) for _ in range(2000)]
    others = [(room, blocks) for room, blocks in others if 36 <= len(bytes_of(blocks)) <= 30500]
    others += [(rng.randrange(size + 1), blocks) for _, blocks, (size, _) in cases]
    return cases + [(room, blocks, expected(room, blocks)) for room, blocks in others]


def held(program, cases, numbers):
    """The program's sheets, and what it says of the refusals with these numbers."""
    said = [(number, place) for number in numbers for place in (0, 8, 32, 64, 2**32 - 1)]
    wanted = [answer for *_, answer in cases] + [(number << 32 | place, b"") for number, place in said]
    text = "".join(commands(room, blocks) for room, blocks, _ in cases)
    text += "".join(f"8 {number} {place:016X} {0:016X} {0:016X} {0:016X}\n" for number, place in said)
    done = subprocess.run(program.split(), input=text, capture_output=True, text=True)
    lines = done.stdout.split("\n")[:-1]
    if done.returncode or len(lines) != len(wanted):
        sys.exit(f"tools/test_sheet_writers.py: {program} ended with {done.returncode} after {len(lines)} of {len(wanted)} sheets: {done.stderr[-500:]}")
    for i, (line, (returned, whole)) in enumerate(zip(lines, wanted)):
        right = f"{returned:016X} {words_of(returned)} {whole.hex().upper()}".rstrip()
        if line.rstrip() != right:
            sys.exit(f"tools/test_sheet_writers.py: {program}: sheet {i}: {line[:200]}\n  expected {right[:200]}")
    refused = sum(returned >> 32 != 0 for *_, (returned, _) in cases)
    print(f"{program}: {len(cases)} sheets, {refused} of them refused, and {len(said)} refusals in words, as the Python package and the gate have them")


def main():
    cases = all_cases(random.Random(1))
    assert {returned >> 32 for *_, (returned, _) in cases} == {0, 5, 8}
    words = sys.argv[1:]
    data = words.index("--data") if "--data" in words else len(words)
    for program in words[:data]:
        held(program, cases, range(17))
    for program in words[data + 1 :]:
        held(program, [c for c in cases if is_data(*c[:2])], range(1, 17))


if len(sys.argv) < 2:
    sys.exit("usage: tools/test_sheet_writers.py PROGRAM.. [--data PROGRAM..]")
main()
