"""A report: one page of HTML with a text, what is lost, sweeps and pictures, and what it was made with. It needs nothing beside it."""
from __future__ import annotations

import base64
import html
from typing import Any, Sequence

from . import plots, reports
from .plans import Made, Plan
from .reports import Losses, Point
from .words import written

STYLE = """
body { font: 15px/1.45 sans-serif; max-width: 62em; margin: 2em auto; padding: 0 1em; color: #222 }
table { border-collapse: collapse; margin: 0.8em 0 } td, th { padding: 0.15em 0.7em; border-bottom: 1px solid #ddd; text-align: right }
td.text, th.text { text-align: left } pre { background: #f4f4f4; padding: 0.8em; overflow-x: auto; font-size: 13px }
img { max-width: 100% } code { word-break: break-all } summary { cursor: pointer } .hint { color: #a33 }
@media print { details > * { display: block } }
"""


def table(rows: Sequence[Sequence[str]], left: Sequence[int] = ()) -> str:
    """A table whose first row is its head; the columns of `left` begin in one line."""
    lines = []
    for count, row in enumerate(rows):
        cell = "th" if count == 0 else "td"
        lines.append("<tr>" + "".join(f'<{cell}{" class=text" if i in left else ""}>{html.escape(x)}</{cell}>' for i, x in enumerate(row)) + "</tr>")
    return "<table>\n" + "\n".join(lines) + "\n</table>\n"


def picture(make: Any, about: str) -> str:
    """A picture within the page; a sentence where matplotlib is not installed."""
    if not plots.available():
        return f"<p>{html.escape(about)} is not drawn: matplotlib is not installed.</p>\n"
    data = base64.b64encode(plots.drawn(make(), ".svg")).decode()
    return f'<img alt="{html.escape(about)}" src="data:image/svg+xml;base64,{data}">\n'


def losses_part(found: Losses, title: str) -> str:
    scale = "" if found.scale_factor is None else f" The scale factor, the beam over what is left, is {found.scale_factor:.6f}."
    ends = f"{reports.percent(found.lost_percent)} % is lost and {reports.percent(found.left_percent)} % left: s {found.s:.6g}, p {found.p:.6g}."
    return f"<h2>What is lost</h2>\n{table(reports.losses_rows(found), (1, 3))}<p>Of the whole train {ends}{scale}</p>\n" + picture(lambda: plots.losses(found, title), "What each surface loses")


def sweep_part(plan: Plan, points: list[Point], over: str, label: str, about: str) -> str:
    """A picture, and its numbers to be unfolded."""
    names = [f"{count}: {name}" for count, name in enumerate(plan.names(), 1)]
    drawn = picture(lambda: plots.sweep(points, (plan.s, plan.p), label, names, about), about)
    rows = reports.sweep_cells(points, over, plan.s + plan.p)
    return f"<h2>{html.escape(about)}</h2>\n{drawn}<details><summary>{len(points)} points</summary>\n{table(rows, (len(rows[0]) - 1,))}</details>\n"


def page(title: str, given: str, made: Made, found: Losses, sweeps: Sequence[tuple[list[Point], str, str, str]]) -> str:
    """The page of a text, or of a sheet as a text, with sweeps: points, the table's head, the axis and what is swept."""
    who = reports.identity(made)
    remarks = [f"<li>{html.escape(note)}</li>" for note in made.notes] + [f"<li class=hint>{html.escape(hint)}</li>" for hint in reports.hints(made)]
    parts = [
        f"<!doctype html>\n<html lang=en>\n<meta charset=utf-8>\n<title>{html.escape(title)}</title>\n<style>{STYLE}</style>\n<h1>{html.escape(title)}</h1>\n",
        f"<p>{html.escape(reports.summary(made.sheet))} at {written(made.sheet.wavelength_nm)} nm. dihkelu {who['version']}; SHA-256 of the sheet <code>{who['sheet_sha256']}</code></p>\n",
        losses_part(found, title),
        *(sweep_part(made.plan, *one) for one in sweeps),
        "<h2>What was worked out</h2>\n<ul>\n" + "\n".join(remarks) + "\n</ul>\n" if remarks else "",
        f"<h2>The input</h2>\n<pre>{html.escape(given)}</pre>\n",
        "<p>Every power is an answer of the proved library; the index of a glass by name and the angle inside a window were worked out for it.</p>\n</html>\n",
    ]
    return "".join(parts)
