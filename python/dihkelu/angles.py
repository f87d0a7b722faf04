"""Sine and arcsine by the proved library, in place of the system's, which differ from one to the next in the last bit.

So the angle inside a window is the same on every machine, and in the page of web/. Both stand inside calls for polarized light.
"""
from __future__ import annotations

from .calls import retarder, stokes_figures


def sine(angle_rad: float) -> float:
    """A retarder of twice the angle, its axis at 0, multiplies Ex by e^(i angle)."""
    return retarder(2 * angle_rad, 0.0)[0][0].imag


def arcsine(x: float) -> float:
    """Twice the ellipticity of light whose S3 is x, S0 being 1."""
    return 2 * stokes_figures((1.0, 0.0, 0.0, x)).ellipticity_angle_rad
