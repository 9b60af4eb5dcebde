#!/usr/bin/env python3
"""Draws the figures of docs/BENCHMARKS.md, as SVG beside the data of tools/bench.py.

    tools/plots.py

It writes docs/figures/job.svg, beside.svg and changes.svg from the CSV files of these names, and prints which are new.
The same data give the same bytes. Colours are of middle lightness, to be read on light and on dark pages.
"""
import math
import sys
from collections import namedtuple

sys.dont_write_bytecode = True
import bench

WIDTH, HEIGHT = 720, 360
LEFT, RIGHT, TOP, BOTTOM = 76, 20, 44, 52  # the margins, in which the texts stand
TEXT, GRID = "#808080", "#80808040"
COLOURS = ("#2f81f7", "#e0700b", "#2da44e", "#a45df0")
MARKS = ("circle", "square", "triangle", "diamond")
SHORT = {1_000_000_000: "G", 1_000_000: "M", 1_000: "k"}

Line = namedtuple("Line", "name points")  # the points as (x, y)
Plot = namedtuple("Plot", "title across up lines is_log_x is_log_y")


# ---- from numbers to places

def label(value, is_log):
    """A number of an axis, as 2,000, or as 20k where they grow fast."""
    for scale, letter in SHORT.items():
        if is_log and value >= scale:
            return f"{value / scale:g}{letter}"
    return f"{value:,g}"


def ticks(low, high, is_log):
    """Round numbers from at most `low` to at least `high`."""
    if is_log:
        return [10 ** power for power in range(math.floor(math.log10(low)), math.ceil(math.log10(high)) + 1)]
    step = 10 ** math.floor(math.log10(high / 4))
    step *= next(factor for factor in (1, 2, 5, 10) if high / (step * factor) <= 5)
    return [step * number for number in range(math.ceil(high / step) + 1)]


def places(ticks_, start, end, is_log):
    """The place of a number between the first and the last tick."""
    scale = math.log10 if is_log else float
    first, last = scale(ticks_[0]), scale(ticks_[-1])
    return lambda value: start + (scale(value) - first) / (last - first) * (end - start)


# ---- what is drawn

def text(x, y, words, anchor="middle", more=""):
    return f'<text x="{x:.1f}" y="{y:.1f}" text-anchor="{anchor}"{more}>{words}</text>'


def mark(kind, x, y, colour):
    """The mark of a line at one of its points."""
    if kind == "circle":
        return f'<circle cx="{x:.1f}" cy="{y:.1f}" r="4" fill="{colour}"/>'
    corners = {"square": ((-4, -4), (4, -4), (4, 4), (-4, 4)), "triangle": ((0, -5), (5, 4), (-5, 4)),
               "diamond": ((0, -5), (5, 0), (0, 5), (-5, 0))}[kind]
    points = " ".join(f"{x + across:.1f},{y + down:.1f}" for across, down in corners)
    return f'<polygon points="{points}" fill="{colour}"/>'


def axes(plot, x_ticks, y_ticks, x_at, y_at):
    for value in y_ticks:
        yield f'<path d="M{LEFT} {y_at(value):.1f}H{WIDTH - RIGHT}" stroke="{GRID}"/>'
        yield text(LEFT - 8, y_at(value) + 4, label(value, plot.is_log_y), "end")
    for value in x_ticks:
        yield f'<path d="M{x_at(value):.1f} {HEIGHT - BOTTOM}v5" stroke="{TEXT}"/>'
        yield text(x_at(value), HEIGHT - BOTTOM + 19, label(value, plot.is_log_x))
    yield f'<path d="M{LEFT} {TOP}V{HEIGHT - BOTTOM}H{WIDTH - RIGHT}" fill="none" stroke="{TEXT}"/>'
    yield text((LEFT + WIDTH - RIGHT) / 2, HEIGHT - 12, plot.across)
    middle = (TOP + HEIGHT - BOTTOM) / 2
    yield text(18, middle, plot.up, more=f' transform="rotate(-90 18 {middle:.1f})"')


def legend(plot):
    """The names of the lines, one beside the other above the axes."""
    x = LEFT
    for line, colour, kind in zip(plot.lines, COLOURS, MARKS):
        yield mark(kind, x + 6, 26, colour)
        yield text(x + 16, 30, line.name, "start")
        x += 34 + 7 * len(line.name)


def drawn(plot):
    """The text of a figure."""
    xs = [x for line in plot.lines for x, _ in line.points]
    ys = [y for line in plot.lines for _, y in line.points]
    x_ticks = ticks(min(xs), max(xs), True) if plot.is_log_x else sorted(set(xs))
    y_ticks = ticks(min(ys), max(ys), plot.is_log_y)
    x_at = places(x_ticks, LEFT + 16, WIDTH - RIGHT - 16, plot.is_log_x)
    y_at = places(y_ticks, HEIGHT - BOTTOM, TOP, plot.is_log_y)
    parts = [*axes(plot, x_ticks, y_ticks, x_at, y_at), *legend(plot)]
    for line, colour, kind in zip(plot.lines, COLOURS, MARKS):
        points = [(x_at(x), y_at(y)) for x, y in line.points]
        path = " ".join(f"{x:.1f},{y:.1f}" for x, y in points)
        parts.append(f'<polyline points="{path}" fill="none" stroke="{colour}" stroke-width="2"/>')
        parts += [mark(kind, x, y, colour) for x, y in points]
    return (f'<svg xmlns="http://www.w3.org/2000/svg" viewBox="0 0 {WIDTH} {HEIGHT}" role="img" fill="{TEXT}" '
            f'font-family="sans-serif" font-size="13">\n<title>{plot.title}</title>\n' + "\n".join(parts) + "\n</svg>\n")


# ---- the figures

def line(name, rows, across, up, scale=1):
    return Line(name, [(float(row[across]), float(row[up]) / scale) for row in rows if row[up]])


def job():
    rows = bench.read("job")
    lines = [line("lpmtool lookup", rows, "routes", "instructions", 1_000_000),
             line("plain C, without a list of routes", rows, "routes", "plain instructions", 1_000_000)]
    return Plot("The whole job by the number of routes", "routes, and a million addresses",
                "million instructions", lines, True, False)


def beside():
    rows = bench.read("beside")
    names = {"no changes": "no writer", "short changes": "a writer, short routes",
             "long changes": "a writer, long routes", "changes apart": "a busy thread"}
    lines = [line(name, [row for row in rows if row["changes"] == changes], "passes", "lookups a second", 1_000_000)
             for changes, name in names.items()]
    lines = [it for it in lines if it.points]
    return Plot("Lookups a second by the number of readers", "readers, each a pass on a thread of its own",
                "million lookups a second", lines, False, False)


def changes():
    rows = bench.read("changes")
    lines = [line("addition", rows, "length", "addition"), line("deletion", rows, "length", "deletion"),
             line("addition by plain C", rows, "length", "plain addition")]
    return Plot("What a change takes by the length of its route", "length of the route, in bits",
                "instructions", lines, False, True)


FIGURES = {"job": job, "beside": beside, "changes": changes}


def main():
    for name, plot in FIGURES.items():
        path, new = bench.DATA / f"{name}.svg", drawn(plot())
        if not path.exists() or path.read_text() != new:
            path.write_text(new)
            print(path.relative_to(bench.TOP))


if __name__ == "__main__":
    main()
