"""Plots as SVG, without a library: bars, a histogram, a line. Light, printable, each with a title and a text alternative."""

from __future__ import annotations

import html
import math
from dataclasses import dataclass
from typing import List, Sequence, Tuple

WIDTH = 720
HEIGHT = 320
LEFT = 64
RIGHT = 16
TOP = 40
BOTTOM = 76

INK = "#222222"
FAINT = "#cccccc"
FILL = "#3b6ea5"
SECOND = "#c9762b"


@dataclass(frozen=True)
class Axes:
    """What is written on a plot: the title, the text alternative, and the names of both axes."""

    title: str
    text: str
    across: str
    up: str


def bars(axes: Axes, items: Sequence[Tuple[str, float]]) -> str:
    """A bar for each item, in this order. Where there are more bars than names find room, some names are left out."""
    most = max([value for _, value in items] + [1])
    step = (WIDTH - LEFT - RIGHT) / max(1, len(items))
    every = max(1, math.ceil(len(items) * 9 / (WIDTH - LEFT - RIGHT)))
    body: List[str] = []
    for place, (name, value) in enumerate(items):
        x = LEFT + place * step
        tall = (HEIGHT - TOP - BOTTOM) * value / most
        hint = f"<title>{html.escape(name)}: {value:g}</title>"
        body.append(rectangle(x + step * 0.1, HEIGHT - BOTTOM - tall, step * 0.8, tall, hint))
        if place % every == 0:
            body.append(name_below(x + step / 2, name, len(items) > 12))
    return frame(axes, body, most)


def spans(values: Sequence[float], bins: int = 20) -> List[Tuple[str, float]]:
    """How many of the values are in each of equal spans, by the least value of the span."""
    if not values:
        return []
    low, high = min(values), max(values)
    step = nice((high - low) / bins) if high > low else 1
    first = math.floor(low / step)
    counts = [0] * (math.floor(high / step) - first + 1)
    for value in values:
        counts[math.floor(value / step) - first] += 1
    return [(f"{(first + place) * step:g}", float(found)) for place, found in enumerate(counts)]


def histogram(axes: Axes, values: Sequence[float], bins: int = 20) -> str:
    """A bar for each of the spans of these values."""
    return bars(axes, spans(values, bins))


def line(axes: Axes, points: Sequence[Tuple[float, float]]) -> str:
    """A line through the points, which are in the order of their first number."""
    most = max([up for _, up in points] + [1])
    low, high = (points[0][0], points[-1][0]) if points else (0, 1)
    span = (high - low) or 1
    spots = [
        (LEFT + (WIDTH - LEFT - RIGHT) * (across - low) / span, HEIGHT - BOTTOM - (HEIGHT - TOP - BOTTOM) * up / most)
        for across, up in points
    ]
    path = " ".join(f"{x:.1f},{y:.1f}" for x, y in spots)
    body = [f'<polyline points="{path}" fill="none" stroke="{FILL}" stroke-width="2"/>']
    body += [f'<circle cx="{x:.1f}" cy="{y:.1f}" r="3" fill="{FILL}"/>' for x, y in spots[:60]]
    body += [name_below(spots[place][0], f"{points[place][0]:g}", False) for place in ticks_of(len(points))]
    return frame(axes, body, most)


def ticks_of(points: int) -> List[int]:
    """The places of some ten points, evenly apart."""
    return list(range(0, points, max(1, math.ceil(points / 10))))


def rectangle(x: float, y: float, wide: float, tall: float, inside: str) -> str:
    """A bar."""
    return f'<rect x="{x:.1f}" y="{y:.1f}" width="{wide:.1f}" height="{tall:.1f}" fill="{FILL}">{inside}</rect>'


def name_below(x: float, name: str, turned: bool) -> str:
    """A name below the axis, turned where there are many."""
    y = HEIGHT - BOTTOM + 12
    turn = f' transform="rotate(-60 {x:.1f} {y})"' if turned else ""
    anchor = "end" if turned else "middle"
    return f'<text x="{x:.1f}" y="{y}" font-size="9" text-anchor="{anchor}"{turn}>{html.escape(name)}</text>'


def nice(step: float) -> float:
    """The least of 1, 2, 5, 10, 20, .. (whole numbers) that is at least this."""
    size = 1.0
    while True:
        for factor in (1, 2, 5):
            if factor * size >= step:
                return factor * size
        size *= 10


def frame(axes: Axes, body: Sequence[str], most: float) -> str:
    """The whole plot: background, grid with numbers, title, names of the axes, and what stands in it."""
    step = nice(most / 5)
    lines: List[str] = []
    for number in range(int(most / step) + 1):
        y = HEIGHT - BOTTOM - (HEIGHT - TOP - BOTTOM) * number * step / most
        lines.append(f'<line x1="{LEFT}" x2="{WIDTH - RIGHT}" y1="{y:.1f}" y2="{y:.1f}" stroke="{FAINT}"/>')
        lines.append(f'<text x="{LEFT - 6}" y="{y + 3:.1f}" font-size="10" text-anchor="end">{number * step:g}</text>')
    title, text = html.escape(axes.title), html.escape(axes.text)
    middle = (HEIGHT - BOTTOM + TOP) / 2
    return "\n".join(
        [
            f'<svg xmlns="http://www.w3.org/2000/svg" viewBox="0 0 {WIDTH} {HEIGHT}" width="{WIDTH}" height="{HEIGHT}" '
            f'role="img" aria-label="{text}" font-family="sans-serif" fill="{INK}">',
            f"<title>{title}</title>",
            f"<desc>{text}</desc>",
            f'<rect width="{WIDTH}" height="{HEIGHT}" fill="#ffffff"/>',
            f'<text x="{LEFT}" y="22" font-size="14" font-weight="bold">{title}</text>',
            *lines,
            *body,
            f'<text x="{(WIDTH + LEFT) / 2:.0f}" y="{HEIGHT - 4}" font-size="11" text-anchor="middle">{html.escape(axes.across)}</text>',
            f'<text x="14" y="{middle:.0f}" font-size="11" text-anchor="middle" transform="rotate(-90 14 {middle:.0f})">'
            f"{html.escape(axes.up)}</text>",
            "</svg>",
        ]
    )
