#!/usr/bin/env python3
"""Draws what the gauge program prints as histograms: one HTML page that needs nothing else, each point one drawing in SVG.

    picture.py [FILE] [-o PAGE]      reads FILE or standard input, writes PAGE or standard output

Read are the gauge program's lines (`c`, `p`, `? N`) and those of replay's language beside them (docs/REPLAY.md: `q` of an explicit
point, `!`, `=`, `b`, `v`). What can't be read, or doesn't add up, is named on the page and on standard error, and the exit status is 1.

Why it is drawn so. The buckets of an exponential histogram are as wide as they are far from zero. Drawn equally wide, a bell around zero
would look like two hills with a valley at zero, and the engineer would fear for a saw that cuts well. So the axis is true to scale in
millimetres and the AREA of a bar is its number of boards; the number stands on the bar. Buckets near zero are thinner than a line:
neighbours are joined until a bar is wide enough for its number, which is exact, for counts add. A few far boards would
squeeze all others together: if the outermost hundredth lies far out, it is told in figures at the edge. Where a true scale would hide most
of the boards in one bar (values over many powers of ten) each bucket gets the same width instead, and the page says so. Zero has no
width, so the boards at zero are a pin. Every bucket with its bounds is in the table below its drawing.
"""
import argparse
import sys
from html import escape

from picture_drawing import common_reach, drawing
from picture_points import bound, power_of_two, read, shown, spaced


def scale_words(scale):
    if scale is None:
        return "buckets by fixed bounds"
    if scale < 0:
        return f"scale {scale}: a bucket ends at {power_of_two(1 << -scale)} times where it begins".replace("-", "−")
    many = "one bucket" if scale == 0 else f"{1 << scale} buckets"
    return f"scale {scale}: a bucket is {shown((bound(1, scale) - 1) * 100, 3)} % wide, {many} to each doubling"


def figures(point):
    """The figures beside a title; a point that was bound and never recorded has no extremes and no mean."""
    rows = [("board" if point.count == 1 else "boards", spaced(point.count))]
    if point.scale is not None:
        rows.append(("at zero" if not point.threshold else "in the zero band", spaced(point.zeros)))
    if point.count:
        held_ = [("least", point.least), ("mean", point.mean()), ("greatest", point.greatest)]
        rows += [(name, f"{shown(x)} mm") for name, x in held_ if x is not None]
    parts = "".join(f"<span>{name} <b>{value}</b></span> " for name, value in rows)
    return parts + f"<span class=scale>{scale_words(point.scale)}</span>"


def table(point):
    """Every bucket that is not empty, with its bounds."""
    bins = [b for b in point.bins() if b.count]
    if not bins:
        return ""
    side = "the one farther from zero" if point.scale is not None else "the upper one"
    rows = "".join(f"<tr><td>{shown(b.low, 6)}</td><td>{shown(b.high, 6)}</td><td>{spaced(b.count)}</td></tr>" for b in bins)
    head = "<tr><th>from, mm</th><th>to, mm</th><th>boards</th></tr>"
    empty = len(point.bins()) - len(bins)
    many = "one bucket" if len(bins) == 1 else f"{len(bins)} buckets"
    told = f"{many} with boards" + (f", {empty} empty between them" if empty else "") + f"; of its two bounds each has {side}"
    return f"<details><summary>{told}</summary><table>{head}{rows}</table></details>"


def undrawn(point):
    if not point.count:
        return "No boards yet."
    return "All boards are at zero." if point.count == point.zeros else "No bounds, so no buckets."


def article(point, far):
    body = drawing(point, far) or f"<p>{undrawn(point)}</p>"
    return f"<article><h3>{escape(point.title)}</h3><p class=figures>{figures(point)}</p>{body}{table(point)}</article>"


def section_of(section):
    heading = f"<h2>{escape(section.heading)}</h2>" if section.heading else ""
    far = common_reach(section.points)
    points = "".join(article(point, far) for point in section.points)
    refused = f"<p class=fault>{'Then r' if heading else 'R'}efused: {escape(', '.join(section.refused))}.</p>" if section.refused else ""
    faults = "".join(f"<p class=fault>{escape(fault)}</p>" for fault in section.faults)
    return heading + faults + points + refused


STYLE = """
body { font: 14px/1.4 system-ui, sans-serif; color: #222; max-width: 1000px; margin: 20px auto; padding: 0 10px; background: #fff }
h1 { font-size: 22px; margin: 0 } h2 { font-size: 17px; margin: 20px 0 0 } h3 { font-size: 17px; margin: 0 }
article { border-top: 1px solid #bbb; margin-top: 10px; padding-top: 8px } svg { display: block; max-width: 100%; height: auto }
.how { color: #555; margin: 4px 0 } .figures { margin: 2px 0 4px } .figures span { margin-right: 18px; white-space: nowrap }
.scale { color: #555 } .fault { color: #a00 } text { font: 11px system-ui, sans-serif; fill: #333 }
.caption, .small { fill: #666 } .small { font-size: 10px } .number { font-weight: 600; font-size: 10.5px }
.below { fill: #d9822b } .above { fill: #3a7ca5 } .across { fill: #7d8a99 }
.axis { stroke: #333 } .grid { stroke: #e4e4e4 } .zero { stroke: #999; stroke-dasharray: 3 3 } .pin { stroke: #222; stroke-width: 2 }
.beyond { fill: #f3f3f3; stroke: #bbb } .spread { stroke: #555; stroke-width: 1.5 } .mean { fill: #222 }
summary { color: #555; cursor: pointer } table { border-collapse: collapse }
td, th { text-align: right; padding: 1px 14px; font-variant-numeric: tabular-nums }
"""

HOW = (
    "Deviations in millimetres, orange below zero and blue above. The axis is true to scale and the area of a bar is its number of boards, "
    "which stands on it; buckets too narrow for a number share a bar with their neighbours, and the table has each by itself. Below the axis: "
    "from the least to the greatest, and the mean. A bar under the pointer tells its bounds."
)


def page(sections):
    body = "".join(map(section_of, sections)) or "<p>Nothing was collected.</p>"
    head = f'<meta charset="utf-8"><title>Board deviations</title><style>{STYLE}</style>'
    top = f"<h1>Board deviations</h1><p class=how>{HOW}</p>"
    return f'<!DOCTYPE html>\n<html lang="en"><head>{head}</head><body>{top}{body}</body></html>\n'


def main():
    parser = argparse.ArgumentParser(description="Draws the gauge program's output as histograms, one HTML page.")
    parser.add_argument("file", nargs="?", help="what the gauge program printed; standard input if absent")
    parser.add_argument("-o", metavar="PAGE", help="where the page is written; standard output if absent")
    given = parser.parse_args()
    data = open(given.file, "rb").read() if given.file else sys.stdin.buffer.read()
    sections = read(data.decode("latin-1"))
    made = page(sections).encode("utf-8")
    if given.o:
        with open(given.o, "wb") as out:
            out.write(made)
    else:
        sys.stdout.buffer.write(made)
    faults = [fault for section in sections for fault in section.faults]
    for fault in faults:
        print(f"picture: {fault}", file=sys.stderr)
    sys.exit(1 if faults else 0)


if __name__ == "__main__":
    main()
