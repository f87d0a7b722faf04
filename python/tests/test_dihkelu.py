"""Tests of the package: python3 -m unittest discover -s python/tests (from the repository)."""
import array
import cmath
import doctest
import math
import pathlib
import random
import struct
import sys
import unittest

ROOT = pathlib.Path(__file__).resolve().parent.parent.parent
try:
    import dihkelu
except ImportError:
    sys.path.insert(0, str(ROOT / "python"))
    import dihkelu
from dihkelu import Coating, Glass, Layer, Sheet, Surface

BARE = Sheet(500.0, 0.5, 0.5, (Surface(Coating.BARE, 1.0, 3.0, 0.0),))
RETUNED = Sheet(500.0, 0.5, 0.5, (Surface(Coating.BARE, 1.0, 3.0, 0.0, retune_nm=600.0),))


def bits(x):
    return struct.pack(">d", x).hex().upper()


def text_of(data):
    """What the program `train` prints of a sheet, from the package's calls."""
    try:
        after = dihkelu.run(data)
        start = dihkelu.Train(data)
        surfaces = Sheet.from_bytes(data).surfaces
    except dihkelu.Refused as e:
        return f"refused {e.number} {e.place}\n"
    lines = [f"{i} {'RT'[not s.reflected]} {bits(x)} {bits(y)}\n" for i, (s, (x, y)) in enumerate(zip(surfaces, after), 1)]
    s, p = after[-1] if after else (start.s, start.p)
    return "".join(lines) + f"sum {bits(s + p)}\n"


class Examples(unittest.TestCase):
    def test_every_sheet(self):
        outs = sorted((ROOT / "examples").glob("*.out"))
        self.assertGreater(len(outs), 50)
        for out in outs:
            with self.subTest(out.stem):
                self.assertEqual(text_of(out.with_suffix(".sheet").read_bytes()), out.read_text())

    def test_docstring(self):
        self.assertEqual(doctest.testmod(dihkelu).failed, 0)


class Sheets(unittest.TestCase):
    def test_every_example_stays_bit_for_bit(self):
        read = 0
        for path in sorted((ROOT / "examples").glob("*.sheet")):
            data = path.read_bytes()
            try:
                sheet = Sheet.from_bytes(data)
            except dihkelu.NotASheet:
                with self.assertRaises(dihkelu.Refused):
                    dihkelu.gate(data)
                continue
            read += 1
            self.assertEqual(sheet.to_bytes(), data)
            self.assertEqual(Sheet.from_json(sheet.to_json()).to_bytes(), data)
        self.assertGreater(read, 30)

    def test_any_numbers(self):
        rng = random.Random(1)

        def any_float():
            return struct.unpack(">d", rng.randbytes(8))[0]

        for _ in range(500):
            surfaces = []
            for _ in range(rng.randrange(4)):
                layers = [rng.choice([lambda: Layer(any_float(), any_float(), any_float()), lambda: Glass(*(any_float() for _ in range(4)))])() for _ in range(rng.randrange(4))]
                surfaces.append(Surface(Coating(rng.randrange(8)), any_float(), any_float(), any_float(), rng.random() < 0.5, tuple(layers), rng.choice([None, any_float()])))
            data = Sheet(any_float(), any_float(), any_float(), tuple(surfaces), rng.choice([None, 1, 2])).to_bytes()
            self.assertEqual(Sheet.from_bytes(data).to_bytes(), data)
            self.assertEqual(Sheet.from_json(Sheet.from_bytes(data).to_json()).to_bytes(), data)

    def test_bytes_that_are_none(self):
        data = BARE.to_bytes()
        for wrong in (b"", data[:-1], data[:-4], data + bytes(4), b"\0" * 36, data[:-1] + b"\7"):
            with self.assertRaises(dihkelu.NotASheet):
                Sheet.from_bytes(wrong)
        for wrong in ("", "[]", "{}", '{"surfaces": [{}]}'):
            with self.assertRaises(dihkelu.NotASheet):
                Sheet.from_json(wrong)

    def test_edition(self):
        self.assertEqual(BARE.to_bytes()[:4].hex(), "10000001")
        glass = Surface(Coating.CUSTOM, 1.0, 1.5, 0.0, layers=(Glass(1.5, 0.0, 0.0, 100.0),))
        self.assertEqual(Sheet(500.0, 1.0, 0.0, (glass,)).to_bytes()[:4].hex(), "10000002")


class Trains(unittest.TestCase):
    def test_steps_are_a_run(self):
        for out in sorted((ROOT / "examples").glob("*.out")):
            data = out.with_suffix(".sheet").read_bytes()
            try:
                after = dihkelu.run(data)
            except dihkelu.Refused:
                continue
            train = dihkelu.Train(data)
            self.assertEqual(train.surfaces, len(after))
            for i, powers in enumerate(after):
                self.assertEqual(train.step(), i + 1)
                self.assertEqual((train.s, train.p), powers)
            with self.assertRaises(dihkelu.NoSuchSurface):
                train.step()

    def test_run_each(self):
        """Many sheets are what each is alone, refusals among them."""
        sheets = [path.read_bytes() for path in sorted((ROOT / "examples").glob("*.sheet"))]
        for data, found in zip(sheets, dihkelu.run_each(sheets)):
            try:
                self.assertEqual(found, dihkelu.run(data))
            except dihkelu.Refused as refused:
                self.assertEqual((type(found), found.args), (type(refused), refused.args))
        self.assertEqual(dihkelu.run_each([BARE, BARE.to_bytes()]), [[(0.375, 0.375)]] * 2)

    def test_retune(self):
        train = dihkelu.Train(BARE)
        self.assertEqual(train.retune(632.8), 0)
        self.assertEqual(train.wavelength_nm, 632.8)
        with self.assertRaises(dihkelu.WavelengthRefused) as caught:
            train.retune(math.nan)
        self.assertEqual((caught.exception.number, caught.exception.place), (11, 0))
        self.assertEqual(train.wavelength_nm, 632.8)
        self.assertIn("wavelength_nm=632.8", repr(train))


class Wholes(unittest.TestCase):
    def test_edition_1(self):
        layers = (Glass(1.5, 0.004, 0.0, 100.0), Layer(1.38, 0.0, 99.6))
        sheet = Sheet(500.0, 0.5, 0.5, (Surface(Coating.CUSTOM, 1.0, 1.52, 0.25, layers=layers),))
        plain = Sheet.from_bytes(dihkelu.edition_1(sheet))
        self.assertEqual((plain.edition, plain.surfaces[0].layers[1]), (1, layers[1]))
        self.assertEqual(plain.surfaces[0].layers[0], Layer(1.5 + 0.004 / 0.25, 0.0, 100.0))
        self.assertEqual(dihkelu.run(plain), dihkelu.run(sheet))
        self.assertEqual(dihkelu.edition_1(BARE), BARE.to_bytes())

    def test_band(self):
        sheet = Sheet(500.0, 1.0, 0.5, (Surface(Coating.MGF2, 1.0, 1.52, 0.25),))
        self.assertEqual(dihkelu.band(sheet, [(500.0, 7)]), dihkelu.run(sheet)[-1])
        s, p = dihkelu.band(sheet, [(450.0, 1), (550.0, 2)])
        each = [dihkelu.run(Sheet(w, 1.0, 0.5, sheet.surfaces))[-1] for w in (450.0, 550.0)]
        self.assertEqual(s, (0.0 + each[0][0] + 2.0 * each[1][0]) / 3.0)
        self.assertEqual(p, (0.0 + each[0][1] + 2.0 * each[1][1]) / 3.0)


class Refusals(unittest.TestCase):
    def test_each(self):
        out_of_grammar = BARE.to_bytes()[:32] + b"\xff" + BARE.to_bytes()[33:]
        outside = Sheet(50.0, 0.5, 0.5)
        cases = [
            (dihkelu.InvalidParameter, 1, 0, lambda: dihkelu.evaluate(9, 1.0, 1.5, 0.0, 550.0)),
            (dihkelu.InvalidParameter, 1, 0, lambda: dihkelu.to_stokes([1.0])),
            (dihkelu.InvalidParameter, 1, 0, lambda: dihkelu.surface_fresnel_jones(0.0, 1.5, 0.0)),
            (dihkelu.NameRefused, 2, 1, lambda: dihkelu.coating_from_name("A\u00e9")),
            (dihkelu.NameRefused, 2, 32, lambda: dihkelu.coating_from_name("A" * 33)),
            (dihkelu.NameRefused, 2, 0, lambda: dihkelu.coating_name(0)),
            (dihkelu.NameRefused, 2, 0, lambda: dihkelu.coating_name(9)),
            (dihkelu.NameRefused, 2, 0, lambda: dihkelu.coating_name((1 << 32) + 1)),
            (dihkelu.TooManyLayers, 3, 0, lambda: dihkelu.bragg_mirror(2.3, 1.46, 32, 550.0)),
            (dihkelu.TooManyLayers, 3, 0, lambda: dihkelu.bragg_mirror(2.3, 1.46, -1, 550.0)),
            (dihkelu.TooManyLayers, 3, 0, lambda: dihkelu.evaluate(5, 1.0, 1.5, 0.0, 550.0, [(1.5, 0.0, 10.0)] * 65)),
            (dihkelu.SheetLength, 4, 0, lambda: dihkelu.gate(b"")),
            (dihkelu.OutOfGrammar, 5, 8, lambda: dihkelu.gate(out_of_grammar)),
            (dihkelu.OutsideLimits, 6, 1, lambda: dihkelu.run(outside)),
            (dihkelu.NoSuchSurface, 7, 0, lambda: dihkelu.answers(BARE, 1)),
            (dihkelu.NoSuchSurface, 7, 0, lambda: dihkelu.answers(BARE, 1 << 32)),
            (dihkelu.NoSuchSurface, 7, 0, lambda: dihkelu.answers_at(BARE, -1, 99.0)),
            (dihkelu.WavelengthRefused, 11, 0, lambda: dihkelu.answers_at(BARE, 0, 99.0)),
            (dihkelu.NoStack, 9, 3, lambda: dihkelu.stack("H^32H", 2.3, 1.46)),
            (dihkelu.StackTooLong, 10, 0, lambda: dihkelu.stack("(H^31)^31", 2.3, 1.46)),
            (dihkelu.Retuned, 12, 8, lambda: dihkelu.edition_1(RETUNED)),
            (dihkelu.Retuned, 12, 8, lambda: dihkelu.band(RETUNED, [(500.0, 1)])),
            (dihkelu.NoBand, 15, 64, lambda: dihkelu.band(BARE, [])),
            (dihkelu.NoBand, 15, 1, lambda: dihkelu.band(BARE, [(500.0, 1), (500.0, -1)])),
            (dihkelu.LineRefused, 16, 1, lambda: dihkelu.band(BARE, [(500.0, 1), (99.0, 1)])),
            (dihkelu.NoRange, 13, 0, lambda: dihkelu.reflectance_range((2.0, 1.0), (1.0, 1.0))),
            (dihkelu.NoFilm, 14, 0, lambda: dihkelu.quarter_waves(0.5, 1.0, 550.0)),
        ]
        for kind, number, place, call in cases:
            with self.subTest(kind.__name__), self.assertRaises(kind) as caught:
                call()
            self.assertEqual((caught.exception.number, caught.exception.place), (number, place))
            self.assertIsInstance(caught.exception, dihkelu.Refused)
            self.assertIn(f"refused {number} {place}: ", str(caught.exception))

    def test_one_for_each_number_of_the_header(self):
        header = (ROOT / "c" / "dihkelu.h").read_text()
        table = header[header.index(" A call returns one number") : header.index(" A call that refuses writes nothing")]
        numbers = {int(line[3:6]) for line in table.split("\n") if line[3:6].strip().isdigit()}
        self.assertEqual(set(dihkelu.refusals.BY_NUMBER), numbers)

    def test_each_call_of_the_header(self):
        header = (ROOT / "c" / "dihkelu.h").read_text()
        for name in dihkelu.library.CALLS:
            self.assertIn(f"uint64_t dihkelu_{name}(", header)
        self.assertEqual(header.count("DIHKELU_MUST_USE uint64_t dihkelu_"), len(dihkelu.library.CALLS))
        self.assertIn(f"DIHKELU_VERSION 0x{dihkelu.library.VERSION:08x}u", header)


def transfer_matrix(p, n0, n1, angle, nm, layers):
    """r and t of s or p light: 2 x 2 matrices of interfaces and layers, one after the other."""
    indices = [complex(n0), *(complex(n, k) for n, k, _ in layers), complex(n1)]
    cosines = [cmath.sqrt(1 - (n0 * math.sin(angle) / n) ** 2) for n in indices]
    whole = [[1, 0], [0, 1]]
    for i in range(len(indices) - 1):
        if i:
            phase = 2 * math.pi * indices[i] * cosines[i] * layers[i - 1][2] / nm
            whole = [[row[0] * cmath.exp(-1j * phase), row[1] * cmath.exp(1j * phase)] for row in whole]
        a, b = indices[i] * cosines[i], indices[i + 1] * cosines[i + 1]
        if p:
            a, b = indices[i + 1] * cosines[i], indices[i] * cosines[i + 1]
        r, t = (a - b) / (a + b), 2 * indices[i] * cosines[i] / (a + b)
        whole = [[(x + y * r) / t, (x * r + y) / t] for x, y in whole]
    return whole[1][0] / whole[0][0], 1 / whole[0][0]


class Surfaces(unittest.TestCase):
    def test_answers(self):
        a = dihkelu.answers(BARE, 0)
        self.assertFalse(a.coated)
        self.assertEqual((a.reflectance_s, a.transmittance_p, a.response), (0.25, 0.75, None))
        mirror = Sheet(550.0, 1.0, 0.0, (Surface(Coating.MIRROR, 1.0, 1.52, 0.3, True),))
        a = dihkelu.answers(mirror, 0)
        self.assertEqual(a.reflectance_s, a.response.reflectance_s)
        self.assertEqual(a.jones_reflected[0][0], a.response.rs)
        self.assertEqual(dihkelu.to_mueller(a.jones_reflected), a.mueller_reflected)

    def test_answers_after_a_retune(self):
        glass = (Glass(2.2, 0.03, 0.001, 60.0),)
        faces = [Surface(Coating.CUSTOM, 1.0, 1.5, 0.5, layers=glass), Surface(Coating.MGF2, 1.0, 1.52, 0.3, retune_nm=800.0)]
        sheet = Sheet(550.0, 1.0, 1.0, tuple(faces), edition=2)
        at = lambda nm: Sheet(nm, 1.0, 1.0, (faces[0],), edition=2)
        self.assertEqual(dihkelu.answers_at(sheet, 0, 632.8), dihkelu.answers(at(632.8), 0))
        self.assertNotEqual(dihkelu.answers_at(sheet, 0, 632.8), dihkelu.answers(sheet, 0))
        self.assertEqual(dihkelu.answers_at(sheet, 1, 632.8), dihkelu.answers(sheet, 1))

    def test_lists(self):
        angles = [0.0, 0.25, 0.5]
        whole = dihkelu.evaluate(dihkelu.MGF2, 1.0, 1.52, angles, 550.0)
        each = [dihkelu.evaluate(dihkelu.MGF2, 1.0, 1.52, a, 550.0) for a in angles]
        self.assertEqual(whole.rs, [r.rs for r in each])
        self.assertEqual(whole.absorptance_p, [r.absorptance_p for r in each])
        both = dihkelu.evaluate(dihkelu.MGF2, 1.0, 1.52, angles, [500.0, 550.0, 600.0])
        self.assertEqual(both.reflectance_s[1], whole.reflectance_s[1])
        with self.assertRaises(ValueError):
            dihkelu.evaluate(dihkelu.MGF2, 1.0, 1.52, angles, [500.0])
        with self.assertRaises(dihkelu.InvalidParameter) as caught:
            dihkelu.evaluate(dihkelu.MGF2, 1.0, 1.52, angles, [500.0, -1.0, 550.0])
        self.assertEqual((caught.exception.number, caught.exception.place), (1, 1))
        with self.assertRaises(dihkelu.InvalidParameter):
            dihkelu.evaluate(9, 1.0, 1.52, angles, 550.0)
        self.assertEqual(dihkelu.evaluate(9, 1.0, 1.52, [], 550.0).rs, [])

    def test_invalid_argument(self):
        good = [1.0, 1.5, 0.5, 550.0]
        self.assertIsNone(dihkelu.invalid_argument(*good))
        for i, name in enumerate(["n_incident", "n_substrate", "angle_rad", "wavelength_nm"]):
            self.assertEqual(dihkelu.invalid_argument(*good[:i], math.nan, *good[i + 1 :]), name)
        self.assertEqual(dihkelu.invalid_argument(1.0, 0.0, math.inf, -1.0), "n_substrate")

    def test_layers_that_are_none(self):
        """Pairs were flattened to other layers and answered."""
        pairs = [(2.3, 115.6), (1.46, 182.2), (2.3, 115.6)]
        for wrong, said in [
            (pairs, r"layers\[0\] is \(2.3, 115.6\): a layer is a Layer, or three numbers"),
            ([Layer(2.3, 0.0, 99.0), 1.5], r"layers\[1\] is 1.5: "),
            ([(1.5, 0.0, "x")], r"layers\[0\] is "),
            ([Glass(1.5, 0.0, 0.0, 99.0)], r"layers\[0\] is Glass"),
        ]:
            for at in (550.0, [550.0, 560.0]):
                with self.assertRaisesRegex(ValueError, said):
                    dihkelu.evaluate(dihkelu.LAYERS, 1.0, 1.52, 0.0, at, wrong)
        triples = [(2.3, 0.0, 115.6), [1.46, 0.0, 182.2], Layer(2.3, 0, 115.6)]
        self.assertEqual(dihkelu.evaluate(dihkelu.LAYERS, 1.0, 1.52, 0.0, 1064.0, triples), dihkelu.evaluate(dihkelu.LAYERS, 1.0, 1.52, 0.0, 1064.0, [Layer(2.3, 0.0, 115.6), Layer(1.46, 0.0, 182.2), Layer(2.3, 0.0, 115.6)]))

    def test_whole_numbers_that_do_not_fit(self):
        """2^32 + x was taken for x."""
        with self.assertRaises(dihkelu.InvalidParameter):
            dihkelu.evaluate((1 << 32) + 2, 1.0, 1.52, 0.0, 550.0)
        with self.assertRaises(dihkelu.NoSuchSurface):
            dihkelu.answers(BARE, 1 << 32)

    def test_the_argument_is_named(self):
        for call, name in [
            (lambda: dihkelu.evaluate(9, 1.0, 1.5, 0.0, 550.0), "code"),
            (lambda: dihkelu.evaluate(5, math.inf, 1.5, 0.0, 550.0), "n_incident"),
            (lambda: dihkelu.evaluate(5, 1.0, [1.5, 0.0], 0.0, 550.0), "n_substrate"),
            (lambda: dihkelu.evaluate(5, 1.0, 1.5, [0.0, math.nan], 550.0), "angle_rad"),
            (lambda: dihkelu.evaluate(5, 1.0, 1.5, 0.0, [550.0, -1.0]), "wavelength_nm"),
            (lambda: dihkelu.stack("H", 2.3, 1.46, -1.0), "n_m"),
            (lambda: dihkelu.stack("H", 2.3, 1.46, design_wavelength_nm=0.0), "design_wavelength_nm"),
            (lambda: dihkelu.surface_fresnel_jones(1.0, -1.5, 0.0), "n2"),
            (lambda: dihkelu.jones_apply(((1, 0), (0, 1)), (1.0, 0.0, 0.0)), "field"),
            (lambda: dihkelu.mueller_apply(((1, 0), (0, 1)), (1.0, 0.0, 0.0, 0.0)), "matrix"),
        ]:
            with self.subTest(name), self.assertRaises(dihkelu.InvalidParameter) as caught:
                call()
            self.assertEqual(caught.exception.argument, name)
            self.assertIn(": there is no coating of this code" if name == "code" else f": {name} ", str(caught.exception))

    def test_lists_of_indices(self):
        n0, n1, angles, nm = [1.0, 1.0, 1.33, 1.0], [1.5, 1.5, 1.5, 1.6], [0.0, 0.1, 0.2, 0.3], [500.0, 550.0, 600.0, 650.0]
        whole = dihkelu.evaluate(dihkelu.MGF2, n0, n1, angles, nm)
        each = [dihkelu.evaluate(dihkelu.MGF2, *case) for case in zip(n0, n1, angles, nm)]
        for name in vars(each[0]):
            self.assertEqual(getattr(whole, name), [getattr(one, name) for one in each])
        with self.assertRaisesRegex(ValueError, "unequal length: 4 of n_incident, 2 of wavelength_nm"):
            dihkelu.evaluate(dihkelu.MGF2, n0, 1.5, 0.0, [500.0, 600.0])
        with self.assertRaises(dihkelu.InvalidParameter) as caught:
            dihkelu.evaluate(dihkelu.MGF2, n0, n1, angles, [500.0, 550.0, -1.0, 650.0])
        self.assertEqual((caught.exception.place, caught.exception.argument), (2, "wavelength_nm"))

    def test_buffers(self):
        """Doubles of any holder: lent, copied from memory that is read only, or converted."""
        nm = [500.0, 550.0, 600.0]
        wanted = dihkelu.evaluate(dihkelu.MGF2, 1.0, 1.52, 0.1, nm)
        doubles = array.array("d", nm)
        strided = memoryview(array.array("d", [500.0, 1.0, 550.0, 1.0, 600.0]))[::2]
        for given in (doubles, memoryview(doubles), memoryview(doubles.tobytes()).cast("d"), strided, array.array("f", nm), iter(nm), range(500, 601, 50)):
            self.assertEqual(dihkelu.evaluate(dihkelu.MGF2, 1.0, 1.52, 0.1, given), wanted)
        lent = dihkelu.calls._lent(doubles)
        doubles[0] = 7.0
        self.assertEqual(lent[0], 7.0)

    def test_arrays(self):
        try:
            import numpy
        except ImportError:
            self.skipTest("numpy is not installed for this Python")
        angles, nm = numpy.array([0.0, 0.25, 0.5]), numpy.array([500.0, 600.0])
        found = dihkelu.evaluate(dihkelu.MGF2, 1.0, 1.52, angles, 550.0)
        lists = dihkelu.evaluate(dihkelu.MGF2, 1.0, 1.52, angles.tolist(), 550.0)
        for name in vars(dihkelu.evaluate(dihkelu.MGF2, 1.0, 1.52, 0.0, 550.0)):
            self.assertEqual(getattr(found, name).tolist(), getattr(lists, name))
        grid = dihkelu.evaluate(dihkelu.MGF2, 1.0, numpy.array([1.5, 1.6])[:, None, None], angles[:, None], nm)
        self.assertEqual((grid.ts.shape, grid.ts.dtype), ((2, 3, 2), complex))
        self.assertEqual(grid.phase_rp_rad[1, 2, 0], dihkelu.evaluate(dihkelu.MGF2, 1.0, 1.6, 0.5, 500.0).phase_rp_rad)
        frozen = angles.copy()
        frozen.flags.writeable = False
        for same in (angles.astype(">f8"), frozen, numpy.stack([angles, nm[[0, 0, 0]]], 1)[:, 0]):
            self.assertEqual(dihkelu.evaluate(dihkelu.MGF2, 1.0, 1.52, same, 550.0).rs.tolist(), lists.rs)
        rows = numpy.array([[2.3, 0.0, 115.6], [1.46, 0.0, 182.2]])
        for layers in (rows, numpy.asfortranarray(rows), rows.astype("f4").astype(float), rows[::-1][::-1]):
            one = dihkelu.evaluate(dihkelu.LAYERS, 1.0, 1.52, 0.0, numpy.float64(1064.0), layers)
            self.assertAlmostEqual(one.reflectance_s, dihkelu.evaluate(dihkelu.LAYERS, 1.0, 1.52, 0.0, 1064.0, rows.tolist()).reflectance_s, places=6)
        for wrong in (rows[:, :2], rows.ravel()):
            with self.assertRaisesRegex(ValueError, "layers is an array of shape"):
                dihkelu.evaluate(dihkelu.LAYERS, 1.0, 1.52, 0.0, 1064.0, wrong)

    def test_beside_tmm(self):
        """The README's table, against a transfer-matrix code with the conventions of the package tmm: n + ik, fields as e^(-iwt)."""
        rng = random.Random(3)
        for _ in range(50):
            n0, n1, angle, nm = rng.uniform(1, 1.4), rng.uniform(1.4, 2), rng.uniform(0, 1.2), rng.uniform(400, 1200)
            layers = [(rng.uniform(0.2, 3), rng.choice([0.0, rng.uniform(0, 4)]), rng.uniform(5, 200)) for _ in range(rng.randrange(1, 6))]
            found = dihkelu.evaluate(dihkelu.LAYERS, n0, n1, angle, nm, layers)
            cosines = cmath.sqrt(1 - (n0 * math.sin(angle) / n1) ** 2) / math.cos(angle)
            (rs, ts), (rp, tp) = (transfer_matrix(p, n0, n1, angle, nm, layers) for p in (False, True))
            for mine, theirs in [(found.rs, rs.conjugate()), (found.rp, -rp.conjugate()), (found.ts, ts.conjugate()), (found.tp, tp.conjugate() * cosines)]:
                self.assertAlmostEqual(mine, theirs, delta=1e-9)
            self.assertAlmostEqual(found.reflectance_p, abs(rp) ** 2, delta=1e-9)

    def test_fresnel(self):
        self.assertEqual(dihkelu.fresnel_dielectric(1.0, 1.0, 3.0), (0.25, 0.25))
        self.assertEqual(dihkelu.fresnel_unpolarized(1.0, 1.0, 3.0), (0.25, 0.75))
        self.assertEqual(dihkelu.schlick_approx(1.0, 1.0, 3.0), 0.25)
        reflected, transmitted = dihkelu.surface_fresnel_jones(1.0, 3.0, 0.0)
        self.assertEqual((reflected, transmitted), (((-0.5, 0), (0, 0.5)), ((0.5, 0), (0, 0.5))))
        self.assertEqual(dihkelu.answers(BARE, 0).jones_reflected, reflected)

    def test_layers_and_names(self):
        self.assertEqual(dihkelu.quarter_wave_ar(1.0, 2.25, 600.0), Layer(1.5, 0.0, 100.0))
        self.assertEqual(dihkelu.bragg_mirror(2.3, 1.46, 7, 1064.0), dihkelu.stack("(HL)^7 H", 2.3, 1.46, design_wavelength_nm=1064.0))
        names = {"": 0, "none": 0, "AR": dihkelu.IDEAL_AR, " MgF2 ": dihkelu.MGF2, "He-Ne": dihkelu.BROADBAND_AR, "HR": dihkelu.MIRROR, "what": dihkelu.IDEAL_AR}
        for name, code in names.items():
            self.assertEqual(dihkelu.coating_from_name(name), code)
        codes = {"AR": dihkelu.IDEAL_AR, "MGF2": dihkelu.MGF2, "BBAR": dihkelu.BROADBAND_AR, "MIRROR": dihkelu.MIRROR}
        for name, code in codes.items():
            self.assertEqual(dihkelu.coating_name(code), name)
            self.assertEqual(dihkelu.coating_from_name(name), code)
        self.assertEqual([dihkelu.coating_name(code) for code in range(5, 9)], ["CUSTOM"] * 4)
        for name in ("", " ", " \t\n\v\f\r MgF2 \r", "a b", "\x00 \x1f", "\xa0AR\x85", b"\xff \x80 "):
            data = name.encode() if isinstance(name, str) else name
            part = data.strip(b"\t\n\v\f\r ")
            self.assertEqual(dihkelu.trim(name), (data.index(part), part))

    def test_polarization(self):
        self.assertEqual(dihkelu.to_stokes((1.0, 1j)), (2.0, 0.0, 0.0, 2.0))
        self.assertEqual(dihkelu.jones_normalize((2.0, 0.0)), (1.0, 0.0))
        self.assertEqual(dihkelu.jones_intensity((3.0, 4j)), 25.0)
        figures = dihkelu.stokes_figures((2.0, 2.0, 0.0, 0.0))
        self.assertEqual((figures.degree_of_polarization, figures.degree_of_circular_polarization, figures.orientation_angle_rad), (1.0, 0.0, 0.0))
        plate = dihkelu.diattenuator(0.5, 2j)
        self.assertEqual(plate, ((0.5, 0), (0, 2j)))
        self.assertEqual(dihkelu.jones_apply(plate, (2.0, 1.0)), (1.0, 2j))
        self.assertEqual(dihkelu.jones_mul(plate, plate), ((0.25, 0), (0, -4)))
        self.assertEqual(dihkelu.mueller_apply([[1, 0, 0, 0], [0, 2, 0, 0], [0, 0, 3, 0], [0, 0, 0, 4]], (1.0, 1.0, 1.0, 1.0)), (1.0, 2.0, 3.0, 4.0))
        self.assertEqual(dihkelu.linear_polarizer(0.0), ((1.0, 0), (0, 0)))
        self.assertEqual(dihkelu.retarder(math.pi / 2, 0.25), dihkelu.quarter_wave_plate(0.25))
        self.assertEqual(dihkelu.retarder(math.pi, 0.25), dihkelu.half_wave_plate(0.25))

    def test_stack(self):
        layers = dihkelu.stack("(HL)^7 H", 2.3, 1.46, design_wavelength_nm=1064.0)
        self.assertEqual(len(layers), 15)
        self.assertEqual(layers[0], Layer(2.3, 0.0, 1064.0 / (4 * 2.3)))
        self.assertGreater(dihkelu.evaluate(dihkelu.LAYERS, 1.0, 1.52, 0.0, 1064.0, layers).reflectance_s, 0.99)

    def test_mueller(self):
        empty = ((1, 0), (0, 1))
        last = sys.float_info.epsilon  # the Rust's own rounding, which the answers have
        self.assertEqual([row[i] for i, row in enumerate(dihkelu.to_mueller(empty))], [1.0, 1.0, 1.0 + last, -1.0 - last])
        self.assertEqual([row[i] for i, row in enumerate(dihkelu.mueller_born_wolf(empty))], [1.0] * 4)

    def test_the_rest(self):
        low, high = dihkelu.reflectance_range((1.0, 1.0), (1.5, 1.5))
        self.assertTrue(low <= 0.04 <= high)
        self.assertEqual(dihkelu.quarter_waves(2.3, 250.0, 1064.0)[0], 2)
        self.assertTrue(dihkelu.environment_ok())
        self.assertEqual(dihkelu.version(), (dihkelu.library.VERSION >> 16, dihkelu.library.VERSION & 0xFFFF))


if __name__ == "__main__":
    unittest.main()
