#!/usr/bin/env python3
"""Draws docs/ratios.svg: how long the bridge took, as a multiple of the plain alternative beside it, in one run.

The ratios are read from the tables of docs/PERFORMANCE.md, from the column `Ratio` that stands first in each.

usage: docs/ratios.py
"""
import math
import os
import sys
from xml.sax.saxutils import escape

from drawings import write

DOCUMENT = os.path.join(os.path.dirname(os.path.abspath(__file__)), "PERFORMANCE.md")

# The sections with tables of ratios, how a row is called by its cells, and the goals of rows, `None` for all of them.
SECTIONS = [
    ("Cutting streams and reading requests", "{0}",
     {"frames in pieces of 65,536": 2, "packets in pieces of 65,536": 2}),
    ("Round trips", "{0}", {"bridge, after 20 ms": 3}),
    ("Many threads", "{0} threads", {"5,000 threads": 1.3}),
    ("Stops", "{0} hits, each held for {1}", {}),
    ("Reading a stop", "{0}", {"a stop, one by one": 1.2, "a stop, in one piece": 1}),
    ("Replaying", "a log of {0} entries", {None: 3}),
    ("Breakpoints over many classes", "{0} classes of {1} methods, {2} others, {3} files", {None: 3}),
]
TICKS = [0.125, 0.25, 0.5, 1, 2, 4, 8]
LEFT, RIGHT, TOP, STEP = 400, 880, 56, 22
DOT, GOAL, LINE, GRID = "#2b6cb0", "#c05621", "#445", "#d5d9e0"


def tables():
    """The tables of each section, by its heading; a table is a list of rows, and a row the list of its cells."""
    found, heading, is_within = {}, "", False
    with open(DOCUMENT, encoding="utf-8") as file:
        for line in file:
            if line.startswith("## "):
                heading = line[3:].strip()
                found[heading] = []
            elif line.startswith("|") and not line.startswith("|-"):
                found[heading] += [] if is_within else [[]]
                found[heading][-1].append([cell.strip() for cell in line.strip().strip("|").split("|")])
            is_within = line.startswith("|")
    return found


def ratios(table, form):
    """What each row is called, and its ratios as they are written; rows without one are left out."""
    head, *rest = table
    column = head.index("Ratio")
    return [(form.format(*cells), cells[column]) for cells in rest if cells[column]]


def across(ratio):
    """Where a ratio stands: twice as much is the same way further, wherever one begins."""
    return LEFT + (RIGHT - LEFT) * math.log(ratio / TICKS[0]) / math.log(TICKS[-1] / TICKS[0])


def text(x, y, words, anchor="middle", name="what"):
    return '<text x="%g" y="%g" class="%s" style="text-anchor: %s">%s</text>' % (x, y, name, anchor, escape(words))


def upright(x, top, bottom, colour, width=1):
    return '<line x1="%g" y1="%g" x2="%g" y2="%g" stroke="%s" stroke-width="%g"/>' % (x, top, x, bottom, colour, width)


def circle(x, y):
    return '<circle cx="%g" cy="%g" r="4" fill="%s" fill-opacity="0.7"/>' % (x, y, DOT)


def row(y, name, written, goal):
    drawn = [text(LEFT - 14, y + 4, name, "end")]
    if goal:
        drawn.append(upright(across(goal), y - 8, y + 8, GOAL, 3))
    drawn += [circle(across(float(ratio)), y) for ratio in written.split(",")]
    drawn.append(text(RIGHT + 14, y + 4, written, "start"))
    return drawn


def section(y, heading, rows, goals):
    """The rows of a section under its heading, and how far down they go."""
    drawn = [text(20, y + 4, heading, "start", "name")]
    for name, written in rows:
        y += STEP
        drawn += row(y, name, written, goals.get(name, goals.get(None)))
    return drawn, y + STEP + 10


def plot():
    found, drawn, y = tables(), [], TOP + 20
    for heading, form, goals in SECTIONS:
        rows = [row for table in found[heading] for row in ratios(table, form)]
        lines, y = section(y, heading, rows, goals)
        drawn += lines
    bottom = y - STEP
    grid = [upright(across(tick), TOP, bottom, LINE if tick == 1 else GRID) for tick in TICKS]
    grid += [text(across(tick), at, "%g" % tick) for tick in TICKS for at in (TOP - 8, bottom + 18)]
    legend = [circle(26, 18), text(38, 22, "a run: so many times what the plain alternative took", "start"),
              upright(460, 10, 26, GOAL, 3), text(470, 22, "a goal: at most so much", "start")]
    return grid + drawn + legend, bottom + 30


if __name__ == "__main__":
    lacking = [heading for heading, *_ in SECTIONS if not tables().get(heading)]
    if lacking:
        sys.exit("ratios.py: PERFORMANCE.md has no table under: %s" % ", ".join(lacking))
    write("ratios.svg", plot())
