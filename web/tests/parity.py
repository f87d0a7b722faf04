"""Texts with the sheets that the Python package makes of them, for the page's modules to be held to: parity.py make | node parity.mjs | parity.py hold

`make` prints a line of JSON for each text of examples/, of the guide and of random plans, up to COUNT that give a sheet. parity.mjs compares the page's sheets and answers
with these and prints the texts that the page writes itself; `hold` reads those with Python and compares again.
"""
import itertools
import json
import pathlib
import random
import sys

ROOT = pathlib.Path(__file__).resolve().parents[2]
sys.path.insert(0, str(ROOT / "python"))
sys.dont_write_bytecode = True
from dihkelu import glasses, reports, text  # noqa: E402
from dihkelu.words import Wrong  # noqa: E402

COUNT = 2000
GLASSES = [*glasses.TABLE, *glasses.OTHER_NAMES]
COATINGS = ["bare", "ideal-ar", "mgf2", "broadband-ar", "mirror", "ideal-beamsplitter", "ideal-mirror"]
STACKS = ["(HL)^4", "(HL)^7 H", "(HL)⁷ H", "H L 2H", "(H(LM)^2)²", "H", "(HL)^8", "(HL)^9", "2M 0.5H", "((H)", "H^32"]


class Writer:
    """A random text: mostly one that is admitted, sometimes one that is refused or no text of a sheet."""

    def __init__(self, seed):
        self.rng = random.Random(seed)
        self.lines = []
        self.materials = []

    def one(self, *choices):
        return self.rng.choice(choices)

    def number(self, low, high):
        """A number as people and programs write it."""
        x = self.rng.uniform(low, high)
        plain = self.one(f"{x:.1f}", f"{x:.4g}", repr(x), f"{x:.3e}", f"{round(x)}", f"0{abs(x):.2f}", f"{x:.17g}")
        return plain.replace(".", ",").replace("-", self.one("-", "\u2212")) if self.rng.random() < 0.1 and "e" not in plain else plain

    def length(self, low, high):
        if self.rng.random() < 0.15:
            return f"{self.number(low / 1000, high / 1000)}{self.one(' um', ' UM', 'um', ' µm', 'μm')}"
        return f"{self.number(low, high)}{self.one(' nm', ' nm', 'nm', ' NM')}"

    def angle(self, most=50):
        degrees = f"{self.number(0, most)}{self.one(' deg', 'deg', '°', ' °', ' degrees')}"
        return self.one(degrees, f"{self.number(-most / 60, most / 60)}{self.one(' rad', 'rad')}", "0 deg", "0 rad", "45 Deg")

    def index(self):
        if self.materials and self.rng.random() < 0.3:
            return self.one(*self.materials)
        if self.rng.random() < 0.5:
            name = self.one(*GLASSES)
            return self.one(name, name.upper(), name.replace("-", ""), name.replace("bk7", "BK-7"), name.replace("-", "_"))
        return self.number(1.3, 2.4)

    def layer(self):
        kind = self.rng.random()
        if kind < 0.2:
            return f"layer {self.index()} quarter-waves {self.one('1', '2', '0.5', self.number(0.1, 3))} at {self.length(400, 1100)}"
        if kind < 0.3:
            return f"glass a {self.number(1.3, 2.2)} b {self.number(0, 0.03)} c {self.number(0, 0.0001)} thickness {self.length(10, 300)}"
        if kind < 0.45:
            letters = f"H {self.index()} L {self.index()}" + self.one("", "", f" M {self.index()}")
            return f"stack {self.one(*STACKS)} with {letters} at {self.length(400, 1100)}"
        k = self.one("", "", "", "", " k 0", f" k {self.number(0, 0.1)}")
        return f"layer {self.index()} thickness {self.length(5, 400)}{k}"

    def coating(self):
        return self.one(*COATINGS) if self.rng.random() < 0.4 else "custom"

    def layers(self, coating):
        if coating == "custom":
            self.lines += ["  " + self.layer() for _ in range(self.rng.choice([0, 1, 1, 2, 3, 4]))]

    def row(self):
        if self.rng.random() < 0.1:
            self.lines.append(f"retune to {self.length(500, 1200)}")
        if self.rng.random() < 0.5:
            self.lines.append(f"window {self.index()} at {self.angle(60)}" + self.one("", "", f" in {self.one('1.33', 'air', '1')}"))
            for face in self.one([], ["both"], ["front"], ["back"], ["front", "back"], ["back", "front"]):
                coating = self.coating()
                self.lines.append(f"  {face} {coating}")
                self.layers(coating)
        else:
            coating = self.coating()
            ends = f"from {self.one('air', '1', self.index())} to {self.index()}"
            self.lines.append(f"surface {coating} {self.one('transmitted', 'reflected')} {ends} at {self.angle()}")
            self.layers(coating)

    def text(self):
        if self.rng.random() < 0.1:
            self.lines.append(f"edition {self.one(1, 2, 2)}")
        for count in range(self.rng.choice([0, 0, 1, 2])):
            self.materials.append(f"film-{count}")
            self.lines += self.material(f"film-{count}")
        self.lines.append(f"beam {self.length(450, 1200)} s {self.number(0, 1)} p {self.number(0, 1)}  # a comment")
        for _ in range(self.rng.choice([0, 1, 1, 2, 3, 4])):
            self.row()
        if self.rng.random() < 0.08:
            self.damage()
        return self.one("\n", "\n", "\r\n").join(self.lines) + "\n"

    def material(self, name):
        if self.rng.random() < 0.3:
            points = self.rng.sample([300, 400, 532, 632.8, 1064, 1200, 1500], self.rng.choice([1, 3, 5]))
            return [f"material {name} at {nm} nm n {self.number(1.3, 2.4)} k {self.one('0', '0', self.number(0, 0.01))}" for nm in points]
        k = self.one("", "", "", " k 0", f" k {self.number(0, 0.01)}")
        return [f"material {name} a {self.number(1.3, 2.2)} b {self.number(0, 0.03)} c {self.number(0, 0.0001)}{k}"]

    def damage(self):
        """A word is dropped, doubled or changed."""
        at = self.rng.randrange(len(self.lines))
        words = self.lines[at].split()
        place = self.rng.randrange(len(words))
        words[place : place + 1] = self.one([], [words[place]] * 2, ["gold"], ["1.2.3"], ["nan"], ["0x3FF8000000000000"])
        self.lines[at] = " ".join(words)


def sheet_of(content):
    """The sheet of a text in hexadecimal and s and p after each surface, None where either is refused."""
    try:
        made = text.read(content).make()
    except Wrong:
        return None, None
    try:
        return made.sheet.to_bytes().hex(), [[x.hex() for x in pair] for pair in reports.powers(made)]
    except Wrong:
        return made.sheet.to_bytes().hex(), None


def make():
    files = sorted([*ROOT.glob("examples/*.txt"), *ROOT.glob("docs/guide/*.txt")])
    texts = [(str(path.relative_to(ROOT)), path.read_text("utf-8")) for path in files]
    plans = ((f"plan {seed}", Writer(seed).text()) for seed in itertools.count())
    sheets = 0
    for name, content in itertools.chain(texts, plans):
        sheet, powers = sheet_of(content)
        print(json.dumps({"name": name, "text": content, "sheet": sheet, "powers": powers}))
        sheets += sheet is not None
        if sheets == len(texts) + COUNT:
            break
    back = text.read((ROOT / "docs/guide/back.txt").read_text())
    for over, points in [
        ("angle", reports.sweep_angle(back, [x / 2 for x in range(140)])),
        ("wavelength", reports.sweep_wavelength(back, [200.0 + 10 * x for x in range(380)])),
    ]:
        print(json.dumps({"name": f"sweep over the {over}", "sweep": over, "points": [[one.at, [x.hex() for pair in one.after for x in pair]] for one in points]}))
    lines = text.read_band((ROOT / "examples/daylight.lines").read_text())
    mean = reports.band_means(text.read((ROOT / "examples/window.txt").read_text()).make(), lines)
    print(json.dumps({"name": "band", "band": [x.hex() for x in mean]}))


def hold():
    count = 0
    for line in sys.stdin:
        given = json.loads(line)
        if sheet_of(given["text"])[0] != given["sheet"]:
            sys.exit(f"parity: Python makes another sheet of what the page writes for {given['name']}:\n{given['text']}")
        count += 1
    if not count:
        sys.exit("parity: the page has written no text")
    print(f"parity: {count} texts of the page give the same sheets in Python")


{"make": make, "hold": hold}[sys.argv[1]]()
