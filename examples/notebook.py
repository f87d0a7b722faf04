# %% [markdown]
# # A window, cell by cell
# A page for editors that run cells (`# %%`), and for Jupyter by way of jupytext. With the package installed, or `PYTHONPATH=python`.

# %%
from dihkelu import explain, plots, reports, text

plan = text.read("""
beam 1064 nm s 0.5 p 0.5
window fused-silica at 30 deg
  both custom
  layer mgf2 quarter-waves 1 at 1064 nm
""")
made = plan.make()
made.notes

# %% What each surface loses.
found = reports.losses(made)
print(reports.losses_table(found))

# %% Over the angle: the second face follows by Snell's law.
points = reports.sweep_angle(plan, range(0, 61))
[(point.at, point.lost_percent) for point in points[::15]]

# %% A picture, where matplotlib is installed.
figure = plots.sweep(points, (plan.s, plan.p), "angle, degrees", plan.names(), "A window") if plots.available() else None
figure

# %% Over the wavelength the glasses follow the colour, and the layers keep their thickness.
colours = reports.sweep_wavelength(plan, [532.0, 1064.0, 1550.0])
[(point.at, point.lost_percent) for point in colours]

# %% A refusal says why.
try:
    reports.powers(plan.make(angles={0: 1.2}))
except explain.Turned as turned:
    print(turned)

# %% The sheet's bytes for other programs, and one surface's matrices.
from dihkelu import answers

data = made.sheet.to_bytes()
answers(data, 0).mueller_transmitted
