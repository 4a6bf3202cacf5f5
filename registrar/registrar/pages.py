"""Pages to be printed: HTML with plots as SVG, each with its table. Nothing is loaded, and no script runs."""

from __future__ import annotations

import html
from typing import Optional, Sequence, Tuple

from registrar import plots

STYLE = (
    "body{font-family:sans-serif;color:#222;background:#fff;max-width:760px;margin:2em auto;padding:0 1em}"
    "body{line-height:1.4}"
    "table{border-collapse:collapse;margin:.5em 0 1.5em}caption{text-align:left;font-weight:bold;padding:.3em 0}"
    "td,th{border-bottom:1px solid #ccc;padding:.2em .8em;text-align:left;vertical-align:top}"
    "td.n,th.n{text-align:right}figure{margin:1.5em 0}svg{max-width:100%;height:auto}tr,svg{break-inside:avoid}"
    "thead{display:table-header-group}"
    "@media print{body{margin:0;max-width:none}@page{size:A4;margin:18mm}}"
)

# What marks a cell that stands to the right.
NUMBER = ' class="n"'


def page(title: str, parts: Sequence[str], style: str = "", language: str = "en") -> str:
    """A whole page, `style` being added to the style of all pages."""
    return (
        f'<!DOCTYPE html>\n<html lang="{language}"><head><meta charset="utf-8"><title>{html.escape(title)}</title>'
        f"<style>{STYLE}{style}</style></head>\n<body><h1>{html.escape(title)}</h1>\n"
        + "\n".join(parts) + "\n</body></html>\n"
    )


def paragraph(text: str) -> str:
    """A paragraph."""
    return f"<p>{html.escape(text)}</p>"


def heading(text: str) -> str:
    """A heading below the page's own."""
    return f"<h2>{html.escape(text)}</h2>"


def listed(lines: Sequence[str]) -> str:
    """A list."""
    return "<ul>" + "".join(f"<li>{html.escape(line)}</li>" for line in lines) + "</ul>"


def table(caption: str, header: Sequence[str], rows: Sequence[Sequence[object]]) -> str:
    """A table; columns of numbers stand to the right."""
    right = [bool(rows) and all(is_number(row[at]) for row in rows) for at in range(len(header))]
    head = "".join(f'<th scope="col"{NUMBER * right[at]}>{html.escape(name)}</th>' for at, name in enumerate(header))
    filled = ["".join(cell(row[at], at, right[at]) for at in range(len(header))) for row in rows]
    body = "".join(f"<tr>{cells}</tr>" for cells in filled)
    named = f"<caption>{html.escape(caption)}</caption>" if caption else ""
    return f"<table>{named}<thead><tr>{head}</tr></thead><tbody>{body}</tbody></table>"


def cell(value: object, at: int, right: bool) -> str:
    """A cell; the first of a row is its head."""
    text = html.escape(shown(value))
    if at == 0:
        return f'<th scope="row"{NUMBER * right}>{text}</th>'
    return f"<td{NUMBER * right}>{text}</td>"


def is_number(value: object) -> bool:
    """Whether a cell stands to the right: a number, a share, or nothing."""
    text = shown(value).rstrip(" %").replace(",", "")
    return not text or text in ("-", "none") or text.lstrip("-").replace(".", "", 1).isdigit()


def shown(value: object) -> str:
    """A value as a cell has it."""
    return f"{value:g}" if isinstance(value, float) else str(value)


def percent(share: Optional[float]) -> str:
    """A share in words, with one digit behind the point; `none` where there is none."""
    return "none" if share is None else f"{share:.1f} %"


def plot_with_table(axes: plots.Axes, items: Sequence[Tuple[str, float]], drawn: str = "") -> str:
    """A plot of bars, or the one that is given, with the table of its values below it."""
    picture = drawn or plots.bars(axes, items)
    return f"<figure>{picture}{table('', (axes.across, axes.up), items)}</figure>"
