"""Tests of the text of sheets: what it knows, what it refuses, and that what is made of it is what `train` runs."""
import math
import random
import struct
import unittest

from common import ROOT, build_train, train
from dihkelu import Coating, Glass, Layer, Sheet, Surface, angles, explain, glasses, plans, reports, run, stack, text

BEAM = "beam 1064 nm s 0.5 p 0.5\n"


def made(content, **more):
    return text.read(content).make(**more)


def bits(x):
    return struct.pack(">d", x).hex().upper()


class Glasses(unittest.TestCase):
    def test_well_known_indices(self):
        """Each glass at lines that tables have, to the digits that they have."""
        for name, nm, n, digits in [
            ("fused-silica", 587.6, 1.4585, 4), ("fused-silica", 1064, 1.4496, 4), ("fused-silica", 532, 1.4607, 4),
            ("n-bk7", 587.6, 1.5168, 4), ("n-bk7", 1064, 1.5066, 4), ("n-bk7", 532, 1.5195, 4), ("n-bk7", 486.1, 1.5224, 4), ("n-bk7", 656.3, 1.5143, 4),
            ("caf2", 587.6, 1.4338, 4), ("caf2", 1064, 1.4285, 4),
            ("sapphire", 589.3, 1.768, 3), ("sapphire", 1064, 1.7545, 3),
            ("mgf2", 589.3, 1.3777, 4),
            ("air", 3, 1.0, 15),
        ]:
            with self.subTest(f"{name} at {nm}"):
                self.assertAlmostEqual(glasses.glass(name).index(nm), n, delta=0.6 * 10.0**-digits)

    def test_index_falls_with_the_wavelength(self):
        for glass in glasses.TABLE.values():
            if glass.coloured:
                steps = [glass.from_nm + (glass.to_nm - glass.from_nm) * i / 200 for i in range(201)]
                found = [glass.index(nm) for nm in steps]
                self.assertEqual(found, sorted(found, reverse=True), glass.name)
                self.assertTrue(1 <= found[-1] and found[0] <= 4, glass.name)

    def test_range(self):
        for glass in glasses.TABLE.values():
            if glass.coloured:
                glass.index(glass.from_nm), glass.index(glass.to_nm)
                for nm in (math.nextafter(glass.from_nm, 0), math.nextafter(glass.to_nm, math.inf), math.nan, math.inf, -1.0):
                    with self.assertRaises(glasses.OutOfRange):
                        glass.index(nm)
                self.assertTrue(glass.source and "u2" in glass.formula())

    def test_names(self):
        self.assertIs(glasses.glass("BK7"), glasses.TABLE["n-bk7"])
        self.assertIs(glasses.glass("SiO2"), glasses.TABLE["fused-silica"])
        for name, said in [("gold", "there is no glass 'gold'; there are air,"), ("TiO2", "'TiO2' has no index by its name: a film's index depends")]:
            with self.assertRaisesRegex(glasses.UnknownGlass, said):
                glasses.glass(name)


class Angles(unittest.TestCase):
    def test_beside_the_system(self):
        """The library's sine and arcsine, which the angle inside a window is worked out with, beside the system's."""
        rng = random.Random(5)
        for x in [0.0, 1.0, -1.0, *(rng.uniform(-1.3, 1.3) for _ in range(1000))]:
            self.assertAlmostEqual(angles.sine(x), math.sin(x), delta=3e-16)
            self.assertAlmostEqual(angles.arcsine(0.75 * x), math.asin(0.75 * x), delta=2e-15)
        self.assertEqual(angles.sine(5e-324), 5e-324)
        self.assertTrue(math.isnan(angles.sine(1e308)))


class Windows(unittest.TestCase):
    def test_two_faces_by_hand(self):
        inner = math.asin(math.sin(math.radians(30)) / 1.5)
        hand = BEAM + f"surface bare transmitted from 1 to 1.5 at 30 deg\nsurface bare transmitted from 1.5 to 1 at {inner!r} rad\n"
        self.assertEqual(made(BEAM + "window 1.5 at 30 deg\n").sheet, made(hand).sheet)

    def test_coatings(self):
        layer = "layer 1.38 thickness 99 nm\n"
        both = made(BEAM + "window 1.5 at 10 deg\nboth custom\n" + layer).sheet
        each = made(BEAM + "window 1.5 at 10 deg\n" + "back custom\n" + layer + "front custom\n" + layer).sheet
        self.assertEqual(both, each)
        self.assertEqual([len(one.layers) for one in both.surfaces], [1, 1])
        one = made(BEAM + "window 1.5 at 10 deg\nFRONT mgf2\n").sheet
        self.assertEqual([one.coating for one in one.surfaces], [Coating.MGF2, Coating.BARE])

    def test_medium(self):
        found = made(BEAM + "window bk7 at 40 deg in 1.33\n").sheet.surfaces
        n = glasses.glass("bk7").index(1064)
        self.assertEqual([(one.n_incident, one.n_substrate) for one in found], [(1.33, n), (n, 1.33)])
        self.assertAlmostEqual(n * math.sin(found[1].angle_rad), 1.33 * math.sin(math.radians(40)), places=15)

    def test_at_another_wavelength_and_angle(self):
        plan = text.read(BEAM + "window fused-silica at 30 deg\nboth custom\nlayer sio2 quarter-waves 1 at 1064 nm\n")
        other = plan.make(532.0, {0: 0.25})
        n = glasses.glass("fused-silica").index(532)
        self.assertEqual(other.sheet.wavelength_nm, 532.0)
        self.assertEqual(other.sheet.surfaces[0].n_substrate, n)
        self.assertAlmostEqual(other.sheet.surfaces[1].angle_rad, math.asin(math.sin(0.25) / n), delta=1e-15)
        # the layer was made at 1064 nm: its thickness stays, its index follows
        thickness = 1064 / (4 * glasses.glass("fused-silica").index(1064))
        self.assertEqual(other.sheet.surfaces[0].layers, (Layer(n, 0.0, thickness),))

    def test_what_was_worked_out(self):
        found = made(BEAM + "window fused-silica at 30 deg\n")
        self.assertEqual(found.notes, [
            "fused-silica has n 1.449631 at 1064 nm, by I. H. Malitson, J. Opt. Soc. Am. 55, 1205 (1965)",
            "line 2: inside the window the light is at 20.1766 deg, by Snell's law",
        ])
        self.assertEqual(made(BEAM + "surface bare transmitted from 1 to 1.5 at 0 deg\n").notes, [])

    def test_as_people_write(self):
        """A comma, a unit without a space, signs for micrometres and degrees, names with hyphens and without."""
        plain = made("beam 1064 nm s 0.5 p 0.5\nwindow n-bk7 at 8.5 deg\nboth custom\nlayer n-bk7 thickness 100 nm\n").sheet
        for content in [
            "beam 1064nm s 0,5 p ,5\nwindow BK-7 at 8,5\u00b0\nboth custom\nlayer NBK7 thickness 0,1\u00b5m\n",
            "beam 1.064um s .5 p 5e-1\nwindow N-BK7 at 8.5deg\nboth custom\nlayer bk7 thickness 0.1 \u03bcm\n",
            "beam 1,064e3 nm s 0,5 p 0,5\nwindow N_BK7 at 8.5 degrees\nboth custom\nlayer bk7 thickness 100NM\n",
        ]:
            self.assertEqual(made(content).sheet, plain)
        self.assertEqual(made(BEAM + "surface bare transmitted from 1 to 1.5 at \u22128\u00b0\n").sheet.surfaces[0].angle_rad, -8 * (math.pi / 180))
        for content, said in [
            ("beam 1,064 nm s 1 p 0\n", "line 1: '1,064' may be 1.064 or 1064: write one of these"),
            (BEAM + "window fusedsilca at 0 deg\n", "line 2: 'fusedsilca' is no number; there is no glass 'fusedsilca' (did you mean fused-silica or silica?); there are"),
            (BEAM + "windw 1.5 at 0 deg\n", "line 2: 'windw' (did you mean window?) begins no line; "),
            (BEAM + "window 1.5 at 0 deg\nboth miror\n", "line 3: there is no coating 'miror' (did you mean mirror?); there are "),
            (BEAM + "x" * 5000 + "\n", "line 2: '" + "x" * 58 + "..' begins no line; "),
            (BEAM + "window " + "y" * 5000 + " at 0 deg\n", "line 2: '" + "y" * 58 + "..' is no number; there is no glass '" + "y" * 58 + "..'; "),
        ]:
            with self.subTest(said), self.assertRaises(text.Wrong) as caught:
                made(content)
            self.assertTrue(str(caught.exception).startswith(said), str(caught.exception))

    def test_hints_of_numbers(self):
        """A beam of more than itself, radians that are degrees, a power that has lost its place."""
        bare = "surface bare transmitted from 1 to 1.5 at {}\n"
        for content, said in [
            ("beam 1064 nm s 1 p 1\n", ["the beam (line 1) has s 1 and p 1, 2 in all; they are shares of one beam, such as s 0.5 p 0.5"]),
            ("beam 1064 nm s 0.1 p 0.9\n", []),
            (BEAM + bare.format("45 rad"), ["surface 1 (line 2) is at 45 rad, 2578.31 deg, more than a right angle; where degrees are meant write deg"]),
            (BEAM + bare.format("45 deg"), []),
            (BEAM + bare.format("1e9 rad"), ["surface 1 (line 2) is at 1000000000 rad, beyond 2^20, where the library's sine and cosine drift away from the angle's; give it without whole turns"]),
            (BEAM + "surface custom reflected from 1 to 1.5 at 0 deg\nstack (HL)7 H with H 2.3 L 1.46 at 1064 nm\n",
             ["line 3: in '(HL)7 H' the 7 makes the H behind it 7 quarter waves thick; to repeat the bracket write (HL)^7"]),
            (BEAM + "surface custom reflected from 1 to 1.5 at 0 deg\nstack (HL)^7 2H with H 2.3 L 1.46 at 1064 nm\n", []),
        ]:
            self.assertEqual(reports.hints(made(content)), said)

    def test_hint_of_passes(self):
        """Against the sum of all passes, term by term, of a bare plate by Fresnel's formula."""
        n, outer = 1.5, math.radians(60)
        inner = math.asin(math.sin(outer) / n)
        rs = ((math.cos(outer) - n * math.cos(inner)) / (math.cos(outer) + n * math.cos(inner))) ** 2
        rp = ((n * math.cos(outer) - math.cos(inner)) / (n * math.cos(outer) + math.cos(inner))) ** 2
        more = [sum(r ** (2 * k) for k in range(1, 60)) for r in (rs, rp)]
        (said,) = reports.hints(made(BEAM + "window 1.5 at 60 deg\n"))
        self.assertIn(f"would add {100 * more[0]:.2g} % to s and {100 * more[1]:.2g} % to p", said)
        self.assertEqual(reports.hints(made(BEAM + "window 1.5 at 30 deg\n")), [])
        film = "both custom\nlayer 0.26 thickness 2 nm k 6.97\n"
        self.assertEqual(reports.hints(made(BEAM + "window 3 at 0 deg\n" + film)), [])  # what is not transmitted may stay in the film

    def test_hint_of_resonance(self):
        """Two mirrors with a thick layer between: what the hint says one part in 10^12 does, it does."""
        mirrors = "surface custom transmitted from 1 to 1 at 0 deg\nstack (HL)^3 H with H 4 L 1 at 500 nm\nlayer 1 thickness 100 um\nstack H (LH)^3 with H 4 L 1 at 500 nm\n"
        nm = 500 * (1 + 1e-8)  # on the flank of a line at 500 nm
        (hint,) = reports.hints(made(f"beam {nm!r} nm s 1 p 0\n" + mirrors))
        said = float(hint.split("changes a power by ")[1].split(":")[0])
        moved = [run(made(f"beam {nm * (1 + h)!r} nm s 1 p 0\n" + mirrors).sheet)[0][0] for h in (-1e-12, 1e-12)]
        self.assertAlmostEqual(abs(moved[1] - moved[0]) / 2, said, delta=0.05 * said)
        self.assertEqual(reports.hints(made(BEAM + "surface custom reflected from 1 to 1.5 at 0 deg\nstack (HL)^7 H with H 2.3 L 1.46 at 1064 nm\n")), [])

    def test_hint_of_coefficients(self):
        big = "surface custom transmitted from 1 to 1.5 at 0 deg\nglass a {} b {} c 0 thickness 90 nm\n"
        (said,) = reports.hints(made("beam 1000 nm s 1 p 0\n" + big.format("-999999998.5", "1e9")))
        self.assertEqual(said, "surface 1 (line 2) has a glass whose coefficients add up from 2e+09 at 1000 nm: they cancel, so that rounding may show in the index; give it as a number")
        self.assertEqual(reports.hints(made("beam 1000 nm s 1 p 0\n" + big.format("1.5", "0.01"))), [])

    def test_hints(self):
        self.assertEqual(explain.hints(made(BEAM + "window 1.5 at 61 deg\nwindow 1.6 at 0 deg\n")), [])
        steep = explain.hints(made(BEAM + "window 1.5 at 61.1 deg\n"))
        self.assertEqual(steep, ["line 2: the window is at 61.10 deg; past 61.04 deg its second face is outside the gate"])
        preset = "surface mirror reflected from 1 to 1.5 at 0 deg\n"
        said = "surface 1 (line 2) has the preset mirror, designed for 550 nm; the light has 1064 nm"
        self.assertEqual(explain.hints(made(BEAM + preset)), [said])
        self.assertEqual(explain.hints(made(BEAM + "retune to 600 nm\n" + preset)), [])

    def test_wrong(self):
        for content, said in [
            ("window 1.5 at 30\n", "line 2: the line ends where deg|rad should stand: window INDEX at NUMBER deg|rad [in INDEX]"),
            ("window 1.5 at 30 deg by air\n", "line 2: 'by' stands where 'in' should: window INDEX at NUMBER deg|rad [in INDEX]"),
            ("window glas at 30 deg\n", "line 2: 'glas' is no number; there is no glass 'glas'; there are air, fused-silica, n-bk7, caf2, mgf2, sapphire, vacuum, silica, sio2, bk7"),
            ("front mgf2\n", "line 2: 'front' stands only under a window"),
            ("window 1.5 at 3 deg\nfront mgf2\nboth bare\n", "line 4: the window's front has its coating already"),
            ("window 1.5 at 3 deg\nlayer 1.38 thickness 9 nm\n", "line 3: a layer stands only under a surface whose coating is custom"),
            ("window 1.5 at 3 deg\nboth gold\n", "line 3: there is no coating 'gold'; there are bare, ideal-ar, mgf2, broadband-ar, mirror, custom, ideal-beamsplitter, ideal-mirror"),
            (32 * "window 1.5 at 3 deg\n" + "window 1.5 at 3 deg\n", "line 34: a sheet has at most 64 surfaces"),
            ("window 1 at 50 deg in 1.5\n", "line 2: no light at 50.00 deg in index 1.5 comes into index 1"),
            ("retune to 5 um\nwindow bk7 at 0 deg\n", "line 3: n-bk7 is known from 300 to 2500 nm (Schott, data sheet of N-BK7); the wavelength is 5000.0 nm"),
            ("surface custom transmitted from 1 to 1.5 at 0 deg\nlayer Ta2O5 thickness 9 nm\n", "line 3: 'Ta2O5' has no index by its name: a film's index depends on how it was made; give the maker's coefficients, material Ta2O5 a .. b .. c .., or a number"),
            ("surface custom transmitted from 1 to 1.5 at 0 deg\nlayer bk7 quarter-waves 1 at 99 nm\n", "line 3: n-bk7 is known from 300 to 2500 nm (Schott, data sheet of N-BK7); the wavelength is 99.0 nm"),
            ("surface custom transmitted from 1 to 1.5 at 0 deg\nlayer 1.5 quarter-waves 1\n", "line 3: the line ends where at should stand: layer INDEX quarter-waves NUMBER at NUMBER nm|um"),
            ("surface custom transmitted from 1 to 1.5 at 0 deg\nlayer 0 quarter-waves 1 at 550 nm\n", "line 3: refused 1 0: an index or the design wavelength is not positive and finite"),
        ]:
            with self.subTest(said), self.assertRaises(text.Wrong) as caught:
                made(BEAM + content)
            self.assertEqual(str(caught.exception), said)


class Layers(unittest.TestCase):
    CUSTOM = BEAM + "surface custom transmitted from 1 to 1.5 at 0 deg\n"

    def layers(self, line):
        return list(made(self.CUSTOM + line).sheet.surfaces[0].layers)

    def test_units(self):
        self.assertEqual(made("beam 1.064 um s 0.5 p 0.5\n").sheet, made(BEAM).sheet)
        self.assertEqual(self.layers("layer 1.5 thickness 0.1 um\n"), self.layers("layer 1.5 thickness 100 nm\n"))
        self.assertEqual(self.layers("glass a 1.5 b 0 c 0 thickness 0.1 um\n"), [Glass(1.5, 0.0, 0.0, 100.0)])
        degrees, radians = (made(BEAM + f"window 1.5 at {angle}\n").sheet for angle in ("30 deg", f"{math.radians(30)!r} rad"))
        self.assertEqual(degrees, radians)
        self.assertEqual(text.read_band("0.5 um weight 3\n"), [(500.0, 3, 1)])

    def test_quarter_waves(self):
        one = stack("H", 1.38, 1.38, design_wavelength_nm=550.0)
        self.assertEqual(self.layers("layer 1.38 quarter-waves 1 at 550 nm\n"), one)
        self.assertEqual(self.layers("layer 1.38 quarter-waves 3 at 0.55 um\n"), stack("3H", 1.38, 1.38, design_wavelength_nm=550.0))
        self.assertEqual(self.layers("layer 1.38 quarter-waves 0.5 at 550 nm\n"), [Layer(1.38, 0.0, 0.5 * one[0].thickness_nm)])

    def test_stack_of_glasses(self):
        n = glasses.glass("sio2").index(1064)
        self.assertEqual(self.layers("stack (HL)^2 2M with H 2.1 L sio2 M mgf2 at 1064 nm\n"), stack("(HL)^2 2M", 2.1, n, glasses.glass("mgf2").index(1064), 1064.0))
        # letters of one index stay letters: H is a number here and L a glass
        plan = text.read(self.CUSTOM + f"stack HL with H {n!r} L sio2 at 1064 nm\n")
        high, low = plan.make(532.0).sheet.surfaces[0].layers
        self.assertEqual((high.n, low.n), (n, glasses.glass("sio2").index(532)))

    def test_materials(self):
        """Layers of a material are kind 6, as a glass is; where a surface begins or ends its index is worked out."""
        tantala = "material Ta2O5 a 2.06 b 0.025 c 0\n"
        self.assertEqual(made(tantala + self.CUSTOM + "layer ta2o5 thickness 80 nm\n").sheet, made(self.CUSTOM + "glass a 2.06 b 0.025 c 0 thickness 80 nm\n").sheet)
        n = plans.cauchy(2.06, 0.025, 0.0, 1064.0)
        found = made(tantala + self.CUSTOM + "stack HL with H Ta2O5 L sio2 at 1064 nm\nlayer Ta2O5 quarter-waves 2 at 1064 nm\n").sheet.surfaces[0].layers
        self.assertEqual((found[0], type(found[1])), (Glass(2.06, 0.025, 0.0, 1064 / (4 * n)), Layer))
        self.assertEqual(found[2], Glass(2.06, 0.025, 0.0, 2 * (1064 / (4 * n))))
        window = made(tantala + BEAM + "window ta2o5 at 0 deg\n")
        self.assertEqual((window.sheet.surfaces[0].n_substrate, window.notes[0]), (n, "ta2o5 has n 2.082083 at 1064 nm, by its coefficients in the text"))
        for content, said in [
            (2 * tantala, "line 2: there is a material 'ta2o5' already"),
            ("material bk7 a 1 b 0 c 0\n", "line 1: 'bk7' is a glass that has its name already"),
            ("material 2x a 1 b 0 c 0\n", "line 1: '2x' is no name: a name is a letter, then letters, digits, '-', '_' and '.'"),
            (tantala + self.CUSTOM + "layer ta2o5 thickness 80 nm k 1\n", "line 4: a layer of a material has the k of its material; this has 1 too"),
            ("edition 1\n" + tantala + self.CUSTOM + "layer ta2o5 thickness 80 nm\n", "line 5: a glass stands only in a sheet of edition 2"),
        ]:
            with self.subTest(said), self.assertRaises(text.Wrong) as caught:
                made(content)
            self.assertEqual(str(caught.exception), said)

    def test_stacks_as_people_write(self):
        mirror = self.layers("stack (HL)^7 H with H 2.3 L 1.46 at 1064 nm\n")
        self.assertEqual(self.layers("stack (HL)\u2077 H with H 2,3 L 1,46 at 1.064um\n"), mirror)
        self.assertEqual(self.layers("stack H\u00b9\u2070 with H 2.3 L 1.46 at 1064 nm\n"), [mirror[0]] * 10)
        for content, said in [
            ("H^32", "refused 9 3: 'H^32' is no stack: a power is from 1 to 31, and 32 is none, at its byte 3, counted from 0"),
            ("100H", "refused 9 2: '100H' is no stack: a number before a letter is from 1 to 99, and 100 is none, at its byte 2, counted from 0"),
            ("(((((H)))))", "refused 9 4: '(((((H)))))' is no stack: '(' cannot stand at its byte 4, counted from 0; brackets stand within brackets at most four deep"),
            ("hl", "refused 9 0: 'hl' is no stack: 'h' cannot stand at its byte 0, counted from 0; its letters are H, L and M"),
        ]:
            with self.subTest(content), self.assertRaises(text.Wrong) as caught:
                self.layers(f"stack {content} with H 2.3 L 1.46 at 1064 nm\n")
            self.assertEqual(str(caught.exception), "line 3: " + said)

    def test_tables(self):
        """n and k over the wavelength, in a straight line between two lines, refused beyond them."""
        gold = "material gold at 1064 nm n 0.26 k 6.97\nmaterial gold at 0.532 um n 0.54 k 2.23\n"
        film = "surface custom reflected from 1 to 1.5 at 0 deg\nlayer gold thickness 80 nm\n"
        plan = text.read(gold + BEAM + film)
        self.assertEqual(plan.make().sheet.surfaces[0].layers, (Layer(0.26, 6.97, 80.0),))
        self.assertEqual(plan.make(532.0).sheet.surfaces[0].layers, (Layer(0.54, 2.23, 80.0),))
        (half,) = plan.make(798.0).sheet.surfaces[0].layers
        self.assertEqual((round(half.n, 12), round(half.k, 12)), (0.4, 4.6))
        self.assertEqual(plan.make().notes, ["gold has n 0.26 and k 6.97 at 1064 nm, by its lines in the text"])
        self.assertEqual(reports.hints(plan.make(532.0)), [])
        self.assertEqual(plan.make().sheet.to_bytes()[:4].hex(), "10000001")
        (one,) = made("material dye a 1.6 b 0.01 c 0 k 0.02\n" + BEAM + "surface custom transmitted from 1 to 1.5 at 0 deg\nlayer dye thickness 80 nm\n").sheet.surfaces[0].layers
        self.assertEqual(one, Layer(plans.cauchy(1.6, 0.01, 0.0, 1064.0), 0.02, 80.0))
        for content, nm, said in [
            (gold + BEAM + film, 1100.0, "line 4: gold is known from 532 to 1064 nm by its lines in the text; the wavelength is 1100 nm: add a line for it"),
            (gold[: gold.index("\n") + 1] + BEAM + film, 1063.0, "line 3: gold is known at 1064 nm by its lines in the text; the wavelength is 1063 nm: add a line for it"),
            (2 * gold + BEAM, None, "line 3: the material 'gold' has a line for 1064 nm already, or a number of this one is not finite"),
            ("material gold a 1 b 0 c 0\n" + gold + BEAM, None, "line 2: there is a material 'gold' with coefficients already"),
            (gold + BEAM + "surface bare reflected from 1 to gold at 0 deg\n", None, "line 4: gold has k 6.97 at 1064 nm, and a surface lies between indices without k: make it a layer"),
            (gold + BEAM + film.replace("nm", "nm k 1"), None, "line 5: a layer of a material has the k of its material; this has 1 too"),
        ]:
            with self.subTest(said), self.assertRaises(text.Wrong) as caught:
                text.read(content).make(nm)
            self.assertEqual(str(caught.exception), said)

    def test_metal_at_another_wavelength(self):
        """Gold of 1064 nm at 532: 97.9 % where gold reflects 70 %."""
        gold = text.read(BEAM + "surface custom reflected from air to bk7 at 0 deg\nlayer 0.26 thickness 80 nm k 6.97\nretune to 632.8 nm\nsurface custom reflected from air to bk7 at 0 deg\nlayer 1.37 thickness 80 nm k 7.62\n")
        self.assertEqual(reports.hints(gold.make()), [])
        (said,) = reports.hints(gold.make(532.0))
        self.assertTrue(said.startswith("layer 1 of surface 1 (line 3) keeps n 0.26 and k 6.97 of 1064 nm at 532 nm; a metal's change with the wavelength"), said)

    def test_metals_and_retunes(self):
        sheet = made(BEAM + "retune to 632.8 nm\nsurface custom reflected from air to bk7 at 0 deg\nlayer 1.37 thickness 80 nm k 7.62\n").sheet
        self.assertEqual(sheet.surfaces, (Surface(Coating.CUSTOM, 1.0, glasses.glass("bk7").index(632.8), 0.0, True, (Layer(1.37, 7.62, 80.0),), 632.8),))
        self.assertEqual(len(run(sheet)), 1)


class Random(unittest.TestCase):
    """Texts that are drawn at random."""

    @classmethod
    def setUpClass(cls):
        build_train()

    def layer(self, rng):
        thickness = rng.choice([f"thickness {rng.uniform(0, 900)!r} nm", f"thickness {rng.uniform(0, 2)!r} um", f"quarter-waves {rng.randrange(1, 5)} at 1064 nm"])
        n = rng.choice(["1.38", "2.1", "sio2", "mgf2", repr(rng.uniform(1, 4))])
        kinds = [f"layer {n} {thickness}", f"glass a {rng.uniform(1.3, 2.2)!r} b 0.004 c 0.0001 thickness {rng.uniform(0, 300)!r} nm", f"stack (HL)^{rng.randrange(1, 3)} with H {n} L 1.46 at 700 nm"]
        return rng.choice(kinds)

    def surface(self, rng):
        angle = f"{rng.uniform(0, 1)!r} rad" if rng.random() < 0.5 else f"{rng.uniform(-60, 60)!r} deg"
        lines = [f"retune to {rng.uniform(400, 1500)!r} nm"] if rng.random() < 0.2 else []
        if rng.random() < 0.5:
            lines.append(f"window {rng.choice(['bk7', 'fused-silica', 'sapphire', '1.6'])} at {angle}")
            lines += rng.choice([[], ["front mgf2"], ["both broadband-ar"], ["both custom", self.layer(rng)], ["front custom", self.layer(rng), "back custom", self.layer(rng)]])
        else:
            coating = rng.choice(text.COATINGS)
            lines.append(f"surface {coating} {rng.choice(text.DIRECTIONS)} from {rng.choice(['1', 'air', '1.33'])} to {rng.choice(['bk7', '1.6', 'caf2'])} at {angle}")
            lines += [self.layer(rng) for _ in range(rng.randrange(4))] if coating == "custom" else []
        return lines

    def text(self, rng):
        lines = [f"beam {rng.uniform(400, 1500)!r} nm s {rng.random()!r} p {rng.random()!r}"]
        for _ in range(rng.randrange(6)):
            lines += self.surface(rng)
        return "\n".join(lines) + "\n"

    def test_against_train(self):
        """What is made, shown and made again is one sheet; the library's powers or refusal are those that `train` prints."""
        rng, answered = random.Random(35), 0
        for _ in range(150):
            content = self.text(rng)
            one = made(content)
            data = one.sheet.to_bytes()
            self.assertEqual(made(text.write(one.sheet)).sheet.to_bytes(), data, content)
            printed = train(data)
            try:
                found = reports.losses(one)
            except explain.Turned as turned:
                self.assertEqual(printed, f"refused {turned.number} {turned.place}\n")
                self.assertNotIn("less than these figures", str(turned), content)
                continue
            answered += 1
            lines = [f"{x.number} {'TR'[x.follows == 'reflected']} {bits(x.s)} {bits(x.p)}\n" for x in found.surfaces]
            self.assertEqual(printed, "".join(lines) + f"sum {bits(found.sum)}\n")
        self.assertGreater(answered, 50)

    def test_spoiled_texts(self):
        """A text with a word changed is read or refused with its line, never a traceback."""
        rng = random.Random(34)
        words = ["", "0", "-1", "1e999", "nan", "surface", "window", "both", "custom", "x", "#", "0xFFF0000000000000", "deg", "um", "1", "stack", "((", "\u00e9", "glass"]
        for _ in range(1500):
            tokens = [line.split() for line in self.text(rng).splitlines()]
            line = rng.choice(tokens)
            line[rng.randrange(len(line))] = rng.choice(words)
            if rng.random() < 0.3:
                tokens.pop(rng.randrange(len(tokens)))
            content = "\n".join(" ".join(line) for line in tokens)
            try:
                one = made(content)
            except text.Wrong as wrong:
                self.assertRegex(str(wrong), r"^line [0-9]+: ")
                continue
            explain.hints(one)
            list(explain.blocks(one))
            try:
                reports.losses(one)
            except explain.Turned as turned:
                self.assertIn(turned.number, (4, 5, 6))

    def test_any_bytes(self):
        rng = random.Random(33)
        for _ in range(500):
            data = rng.randbytes(rng.randrange(200))
            for read in (text.read, explain.read_sheet, text.read_band):
                try:
                    read(data)
                except text.Wrong:
                    pass

    def test_spoiled_sheets(self):
        """A sheet with words changed or cut is taken or refused with the library's number and place, and a reason of its own."""
        rng, refused = random.Random(31), 0
        sheets = [path.read_bytes() for path in sorted((ROOT / "examples").glob("*.sheet")) if path.stat().st_size < 2000]
        for data in sheets * 6:
            words = [data[i : i + 4] for i in range(0, len(data), 4)]
            for _ in range(rng.randrange(1, 3) if words else 0):
                words[rng.randrange(len(words))] = struct.pack(">I", rng.choice([0, 1, 3, 4, 5, 6, 7, 15]) << 28 | rng.choice([0, 0, 0, 1, 2, 10, 16]))
            spoiled = b"".join(words[: rng.randrange(9, len(words) + 1) if len(words) > 9 and rng.random() < 0.2 else len(words)])
            try:
                reports.losses(explain.read_sheet(spoiled))
            except explain.Turned as turned:
                refused += turned.number == 5
                self.assertEqual(train(spoiled), f"refused {turned.number} {turned.place}\n")
                self.assertNotRegex(str(turned), "(SURFACE|LAYER|END|kind [67]), which may not stand there")
        self.assertGreater(refused, 100)

    def test_sheets_of_any_numbers(self):
        """Of numbers outside the gate the block at the refusal's place is named with what it misses."""
        rng = random.Random(32)
        special = [math.nan, math.inf, -math.inf, -1.0, 0.0, 5e-324, 1e308, 0.03, 4.5, 9e9]

        def pick(usual):
            return rng.choice(special) if rng.random() < 0.1 else usual

        for _ in range(400):
            layers = tuple(rng.choice([Layer(pick(1.5), pick(0.0), pick(99.0)), Glass(pick(1.5), pick(0.004), pick(0.0), pick(80.0))]) for _ in range(rng.randrange(3)))
            one = Surface(Coating.CUSTOM, pick(1.0), pick(1.5), pick(0.0), layers=layers, retune_nm=rng.choice([None, pick(700.0)]))
            found = explain.read_sheet(Sheet(pick(500.0), pick(0.5), pick(0.5), (one,)).to_bytes())
            missed = [place for place, _, _, why in explain.blocks(found) if why]
            try:
                reports.losses(found)
                self.assertEqual(missed, [])
            except explain.Turned as turned:
                self.assertEqual(turned.place, missed[0])


if __name__ == "__main__":
    unittest.main()
