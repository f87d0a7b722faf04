"""The melt map's scale factors: one line for each angle of the exit window, one column for each laser line."""
import math
from pathlib import Path

from dihkelu import text
from dihkelu.plans import Plan
from dihkelu.reports import powers

HERE = Path(__file__).resolve().parent
OUT, BACK = (text.read((HERE / name).read_bytes()) for name in ("out.txt", "back.txt"))


def left(plan: Plan, window: int, wavelength: float, degrees: float) -> float:
    """What is left of the beam's power with the window, counted from 1, at an angle."""
    angles = {face: math.radians(degrees) for face in plan.swept([window])}
    s, p = powers(plan.make(wavelength, angles))[-1]
    return (s + p) / (plan.s + plan.p)


print("angle_deg,factor_1064,factor_532")
for degrees in range(0, 61, 10):
    # the exit window is surface 4 on the way out and surface 1 on the way back
    factors = [1 / (left(OUT, 4, nm, degrees) * left(BACK, 1, nm, degrees)) for nm in (1064.0, 532.0)]
    print(degrees, *(f"{factor:.6f}" for factor in factors), sep=",")
