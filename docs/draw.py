#!/usr/bin/env python3
"""Draws charts as pictures: `python3 docs/draw.py` reads each chart named in PICTURES and writes its SVG.

What a picture says is read from the chart; only where things stand is told here.
"""

from dataclasses import dataclass
from html import escape
from math import hypot
from pathlib import Path

ROOT = Path(__file__).resolve().parent.parent


@dataclass
class Picture:
    chart: str  # an input of walk
    svg: str
    size: tuple  # width, height
    places: dict  # location name: the middle of its box
    bends: dict  # edge number: how far the arrow bends to the left of its way (0 where not named)
    labels: dict  # edge number: the label's shift from the middle of the arrow


PICTURES = [
    Picture(
        chart="examples/nozzle.in",
        svg="docs/nozzle.svg",
        size=(780, 320),
        places={"changer": (160, 135), "feeder": (430, 135), "picked": (700, 135), "bare-head": (430, 270)},
        bends={4: -170, 5: 120},
        labels={1: (0, -19), 2: (-88, 0), 3: (0, -19), 5: (8, 20)},
    ),
]

BOX = (118, 46)
FONT = 15
CHAR = 0.6 * FONT  # the width of a character, all being of one width
BADGE = 10  # the radius of the disc with an edge's number
INK, GREY, BLUE, RED = "#1f2933", "#66727f", "#1d5fa8", "#b3261e"
WORDS = {
    "skip": "skip",
    "set": "{} := {}",
    "add": "{} := {} + {}",
    "sub": "{} := {} − {}",
    "in": "{} := {} to {}",
    "if": "if {} {} {}",
}
SIGNS = {"eq": "=", "ne": "≠", "lt": "<", "le": "≤", "gt": ">", "ge": "≥"}


def lines_of(text, kind):
    """The fields of the lines that begin with `kind`."""
    rows = [line.split("\t") for line in text.splitlines()]
    return [row[1:] for row in rows if row[0] == kind]


def label_of(operation, variables):
    """What an edge does, with the variables' names: `set $0 1` is `nozzle := 1`."""
    word, *fields = operation
    named = [variables[int(field[1:])] if field.startswith("$") else SIGNS.get(field, field) for field in fields]
    return WORDS[word].format(*named)


def border(middle, towards):
    """Where the way from the middle of a box towards a point leaves the box."""
    (x, y), (dx, dy) = middle, (towards[0] - middle[0], towards[1] - middle[1])
    reach = min((half / abs(d) for half, d in zip((BOX[0] / 2, BOX[1] / 2), (dx, dy)) if d), default=0)
    return x + reach * dx, y + reach * dy


def text(x, y, words, fill=INK, anchor="middle", size=FONT, weight="normal"):
    return (
        f'<text x="{x:.0f}" y="{y:.0f}" fill="{fill}" text-anchor="{anchor}" font-size="{size}"'
        f' font-weight="{weight}">{escape(words)}</text>'
    )


def arrow(start, control, end):
    points = " ".join(f"{x:.1f},{y:.1f}" for x, y in (control, end))
    return f'<path d="M{start[0]:.1f},{start[1]:.1f} Q{points}" fill="none" stroke="{INK}" stroke-width="1.6" marker-end="url(#head)"/>'


def draw_edge(number, source, target, label, bend, shift):
    if source == target:
        raise SystemExit(f"edge {number} leads back to its own location, which is not drawn yet")
    dx, dy = target[0] - source[0], target[1] - source[1]
    length = hypot(dx, dy)
    control = ((source[0] + target[0]) / 2 + bend * dy / length, (source[1] + target[1]) / 2 - bend * dx / length)
    start, end = border(source, control), border(target, control)
    x = start[0] / 4 + control[0] / 2 + end[0] / 4 + shift[0]
    y = start[1] / 4 + control[1] / 2 + end[1] / 4 + shift[1]
    wide = 2 * BADGE + 8 + CHAR * len(label)
    left = x - wide / 2
    return [
        arrow(start, control, end),
        f'<rect x="{left - 4:.1f}" y="{y - BADGE - 2:.1f}" width="{wide + 8:.1f}" height="{2 * BADGE + 4}" fill="white"/>',
        f'<circle cx="{left + BADGE:.1f}" cy="{y:.1f}" r="{BADGE}" fill="{BLUE}"/>',
        text(left + BADGE, y + 4.5, str(number), fill="white", size=13, weight="bold"),
        text(left + 2 * BADGE + 8, y + 5, label, anchor="start"),
    ]


def draw_location(number, name, middle, is_bad):
    (x, y), (wide, high) = middle, BOX
    stroke, fill = (RED, "#fbe4e2") if is_bad else (INK, "#eef3f8")
    shapes = [
        f'<rect x="{x - wide / 2}" y="{y - high / 2}" width="{wide}" height="{high}" rx="8" fill="{fill}" stroke="{stroke}" stroke-width="1.8"/>',
        text(x - wide / 2 + 8, y - high / 2 + 15, str(number), fill=GREY, size=12),
        text(x, y + 6, name, fill=RED if is_bad else INK, weight="bold"),
    ]
    if is_bad:
        shapes.append(text(x + wide / 2 + 10, y + 5, "bad", fill=RED, anchor="start"))
    if number == 0:
        left = x - wide / 2
        shapes += [
            f'<circle cx="{left - 52}" cy="{y}" r="5" fill="{INK}"/>',
            arrow((left - 52, y), (left - 26, y), (left, y)),
            text(left - 52, y - 14, "start"),
        ]
    return shapes


def draw(picture):
    chart = (ROOT / picture.chart).read_text(encoding="ascii")
    variables, locations, edges = (lines_of(chart, kind) for kind in "VLE")
    names = [name for name, *_ in variables]
    middles = [picture.places[name] for name, _ in locations]
    wide, high = picture.size
    shapes = []
    for number, (source, target, *operation) in enumerate(edges, 1):
        shapes += draw_edge(
            number,
            middles[int(source)],
            middles[int(target)],
            label_of(operation, names),
            picture.bends.get(number, 0),
            picture.labels.get(number, (0, 0)),
        )
    for number, (name, kind) in enumerate(locations):
        shapes += draw_location(number, name, middles[number], kind == "e")
    for row, (name, low, most, first) in enumerate(reversed(variables)):
        first = "any of these" if first == "*" else first
        shapes.append(text(20, high - 18 - 20 * row, f"{name}: {low} to {most}, at first {first}", fill=GREY, anchor="start", size=14))
    return "\n".join([
        f'<svg xmlns="http://www.w3.org/2000/svg" viewBox="0 0 {wide} {high}" width="{wide}" height="{high}"'
        ' font-family="ui-monospace, SFMono-Regular, Menlo, Consolas, \'DejaVu Sans Mono\', monospace">',
        f"<title>The chart of {picture.chart}</title>",
        f'<defs><marker id="head" viewBox="0 0 10 10" refX="9.5" refY="5" markerWidth="7" markerHeight="7" orient="auto"><path d="M0,0 L10,5 L0,10 z" fill="{INK}"/></marker></defs>',
        f'<rect width="{wide}" height="{high}" rx="10" fill="white"/>',
        *shapes,
        "</svg>\n",
    ])


if __name__ == "__main__":
    for picture in PICTURES:
        (ROOT / picture.svg).write_text(draw(picture), encoding="utf-8")
