"""Pictures of losses, sweeps and bands, by matplotlib where it is installed: PNG, SVG or PDF by the file's ending."""
from __future__ import annotations

import io
import itertools
import math
import sys
from pathlib import Path
from typing import TYPE_CHECKING, Any, Sequence

from .files import Failed
from .reports import Losses, Point, lost_at_each
from .tolerance import Tolerance

if TYPE_CHECKING:
    from matplotlib.figure import Figure

ENDINGS = (".png", ".svg", ".pdf")
S, P, BOTH = "#0066cc", "#cc3300", "#444444"
MOST_NAMES = 12  # of surfaces in a legend


def available() -> bool:
    """Whether matplotlib, 3.5 or later, is installed for this Python."""
    try:
        import matplotlib.figure
    except ImportError:
        return False
    return getattr(matplotlib, "__version_info__", (0,)) >= (3, 5)


def check(name: str) -> None:
    """That a picture of this name can be drawn; else a sentence."""
    if Path(name).suffix.lower() not in ENDINGS:
        raise Failed(f"{name} ends with none of {', '.join(ENDINGS)}")
    if not available():
        install = "install it (Debian: apt-get install python3-matplotlib) or leave --plot out"
        raise Failed(f"{name} cannot be drawn: matplotlib 3.5 or later is not installed for {sys.executable}; {install}")


def _figure(height: float) -> Figure:
    from matplotlib.figure import Figure

    return Figure(figsize=(7.0, height), layout="constrained")


def _dress(axes: Any, title: str, x: str, y: str) -> None:
    axes.set_title(title, fontsize=11)
    axes.set_xlabel(x)
    axes.set_ylabel(y)
    axes.grid(True, color="#dddddd", linewidth=0.6)
    axes.set_axisbelow(True)


def sweep(points: list[Point], start: tuple[float, float], over: str, names: list[str], title: str, about: str = "", log: bool = False) -> Figure:
    """Two panels over angle or wavelength: what is lost of s, of p and of both, and the part of each surface.

    The parts stand one upon the other; over a logarithmic axis they are lines. Where points were refused the picture is grey."""
    figure = _figure(6.4)
    above, below = figure.subplots(2, 1, sharex=True)
    x = [point.at for point in points]
    for label, colour, key in [("s", S, "s_lost_percent"), ("p", P, "p_lost_percent"), ("both", BOTH, "lost_percent")]:
        lost = [getattr(point, key) for point in points]
        if any(one is not None for one in lost):
            above.plot(x, [math.nan if one is None else one for one in lost], color=colour, label=label, linestyle="--" if label == "both" else "-")
    _dress(above, "\n".join(filter(None, [title, about])), "", "lost, % of each")
    labels = names if len(names) <= MOST_NAMES else []
    lost_at = surface_losses(points, start)
    if log:
        for row, name in itertools.zip_longest(lost_at, labels):
            below.plot(x, row, label=name)
    elif lost_at:
        below.stackplot(x, lost_at, labels=labels)
    _dress(below, "", over, "lost at each surface, % of the beam")
    for axes in (above, below):
        _refused(axes, points)
        if log:
            axes.set_yscale("log", nonpositive="mask")
            _plain(axes.yaxis)
        else:
            axes.set_ylim(bottom=0)
        axes.margins(x=0)
        handles, found = axes.get_legend_handles_labels()
        if found:  # those of areas in the order in which they stand, the last on top
            turned = -1 if axes is below and not log else 1
            _legend(axes, handles[::turned], found[::turned])
    return figure


def _plain(axis: Any) -> None:
    """Percentages on a logarithmic axis as they are, not as powers of ten."""
    from matplotlib.ticker import LogFormatter

    axis.set_major_formatter("{x:g}")
    axis.set_minor_formatter(LogFormatter(labelOnlyBase=False, minor_thresholds=(1, 0.5)))


def _refused(axes: Any, points: list[Point]) -> None:
    """Grey where points were refused, half way to the next ones that were not."""
    for count, (low, high) in enumerate(refused_spans(points)):
        axes.axvspan(low, high, facecolor="#e6e6e6", hatch="//", edgecolor="#bbbbbb", linewidth=0, label=None if count else "refused", zorder=0)


def refused_spans(points: list[Point]) -> list[tuple[float, float]]:
    x = [point.at for point in points]
    edges = [x[0], *((one + two) / 2 for one, two in zip(x, x[1:])), x[-1]]
    return [(edges[i], edges[i + 1]) for i, point in enumerate(points) if point.refused]


def sweep_map(degrees: Sequence[float], nanometres: Sequence[float], points: list[list[Point]], title: str, about: str = "", log: bool = False) -> Figure:
    """What is lost over the wavelength and the angle, as colours; grey where points were refused."""
    from matplotlib.colors import LogNorm

    figure = _figure(4.8)
    axes = figure.subplots()
    axes.set_facecolor("#d0d0d0")
    lost = [[math.nan if one.lost_percent is None else one.lost_percent for one in row] for row in points]
    good = [x for row in lost for x in row if x > 0]
    scale = {"norm": LogNorm(min(good), max(good))} if log and good else {}
    drawn = axes.pcolormesh(list(nanometres), list(degrees), lost, shading="nearest", cmap="viridis", **scale)
    figure.colorbar(drawn, ax=axes, label="lost, % of the beam")
    _dress(axes, "\n".join(filter(None, [title, about])), "wavelength, nm", "angle, degrees")
    axes.grid(False)
    if any(one.refused for row in points for one in row):
        from matplotlib.patches import Patch

        axes.legend(handles=[Patch(color="#d0d0d0", label="refused")], loc="upper right", fontsize=8)
    return figure


def _legend(axes: Any, handles: list[Any], labels: list[str]) -> None:
    """To the right of the picture, where it hides nothing."""
    axes.legend(handles, labels, loc="upper left", bbox_to_anchor=(1.01, 1.0), fontsize=8, borderaxespad=0.0)


def surface_losses(points: list[Point], start: tuple[float, float]) -> list[list[float]]:
    """For each surface what it loses at each point, in percent of the beam; NaN where a point was refused."""
    count = max((len(point.after) for point in points), default=0)
    columns = [lost_at_each(point, sum(start)) or [None] * count for point in points]
    return [[math.nan if x is None else x for x in row] for row in zip(*columns)]


def losses(found: Losses, title: str, about: str = "", log: bool = False) -> Figure:
    """For each surface, from the first on top, what it loses of s and of p."""
    figure = _figure(1.6 + 0.45 * max(len(found.surfaces), 2))
    axes = figure.subplots()
    places = range(len(found.surfaces))
    for shift, label, colour, key in [(-0.2, "s", S, "s_lost_percent"), (0.2, "p", P, "p_lost_percent")]:
        lost = [getattr(one, key) for one in found.surfaces]
        bars = axes.barh([place + shift for place in places], [x or 0.0 for x in lost], height=0.38, color=colour, label=label)
        axes.bar_label(bars, labels=[" -" if x is None else f" {x:.2g}" if log else f" {x:.2f}" for x in lost], fontsize=8)
    axes.set_yticks(list(places), [f"{one.number}: {one.surface}" for one in found.surfaces], fontsize=8)
    axes.invert_yaxis()
    _dress(axes, "\n".join(filter(None, [title, about])), "lost, % of what came to the surface", "")
    if log:
        axes.set_xscale("log", nonpositive="clip")
        _plain(axes.xaxis)
    axes.margins(x=0.12)
    _legend(axes, *axes.get_legend_handles_labels())
    return figure


def tolerance(found: Tolerance, start: tuple[float, float], title: str, about: str) -> Figure:
    """Above how often which loss is drawn, the design's own dashed; below what one per cent of each layer does to the loss."""
    figure = _figure(6.4)
    above, below = figure.subplots(2, 1)
    lefts = {"s": [one.s for one in found.draws], "p": [one.p for one in found.draws], "both": [one.s + one.p for one in found.draws]}
    wholes = {"s": start[0], "p": start[1], "both": sum(start)}
    for one in found.spreads:
        colour = {"s": S, "p": P, "both": BOTH}[one.of]
        above.hist([100 * (1 - left / wholes[one.of]) for left in lefts[one.of]], bins=40, histtype="step", color=colour, label=one.of)
        above.axvline(one.designed, color=colour, linestyle="--", linewidth=1)
    _dress(above, f"{title}\n{about}", "lost, % of each; dashed as designed", "draws")
    _legend(above, *above.get_legend_handles_labels())
    places = range(len(found.weights))
    for shift, label, colour, key in [(-0.2, "index", "#227755", "index_more"), (0.2, "thickness", "#aa7700", "thickness_more")]:
        below.bar([place + shift for place in places], [getattr(one, key) or 0.0 for one in found.weights], width=0.38, color=colour, label=f"{label} + 1 %")
    below.set_xticks(list(places), [f"{one.surface}.{one.layer}" for one in found.weights], rotation=90, fontsize=7)
    _dress(below, "", "surface and layer", "change of what is lost, %")
    _legend(below, *below.get_legend_handles_labels())
    return figure


def band(lines: list[tuple[float, int, int]], each: list[tuple[float, float]], mean: tuple[float, float], title: str) -> Figure:
    """s and p at each line of a band, the weights as bars, the weighed means dashed."""
    figure = _figure(4.2)
    axes = figure.subplots()
    order = sorted(range(len(lines)), key=lambda i: lines[i][0])
    x = [lines[i][0] for i in order]
    weights = axes.twinx()
    width = max((max(x) - min(x)) / 60, 0.5)
    weights.bar(x, [lines[i][1] for i in order], width=width, color="#cccccc")
    heaviest = max(weight for _, weight, _ in lines)
    weights.set_ylim(0, 4 * heaviest)
    weights.set_yticks([0, heaviest])
    weights.set_ylabel("weight", loc="bottom")
    axes.set_zorder(weights.get_zorder() + 1)
    axes.patch.set_visible(False)
    for k, (label, colour) in enumerate([("s", S), ("p", P)]):
        axes.plot(x, [each[i][k] for i in order], "o-", color=colour, label=label)
        axes.axhline(mean[k], color=colour, linestyle="--", label=f"{label}, mean {mean[k]:.4f}")
    _dress(axes, title, "wavelength, nm", "power")
    axes.set_ylim(bottom=0)
    axes.legend(loc="upper center", bbox_to_anchor=(0.5, -0.14), ncol=4, fontsize=8)
    return figure


def save(figure: Figure, name: str, dpi: int = 100) -> None:
    """Writes a picture; the same figure gives the same file."""
    try:
        Path(name).write_bytes(drawn(figure, Path(name).suffix.lower(), dpi))
    except OSError as error:
        raise Failed(f"{name} cannot be written: {error.strerror}") from None


def drawn(figure: Figure, ending: str, dpi: int = 100) -> bytes:
    """A picture's bytes, by the ending of its file."""
    import matplotlib

    undated: dict[str, Any] = {".svg": {"Date": None}, ".pdf": {"CreationDate": None}, ".png": {"Software": None}}[ending]
    out = io.BytesIO()
    with matplotlib.rc_context({"svg.hashsalt": "dihkelu"}):
        figure.savefig(out, format=ending[1:], dpi=dpi, metadata=undated)
    return out.getvalue()
