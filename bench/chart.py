#!/usr/bin/env python3
"""Draws the ratios of bench's first table as a bar chart.

Use: chart.py TABLES.md CHART.svg. A bar is till's speed over a peer's, on a scale of powers of two; a ratio below its bound (`!`) is red. Python alone.
"""
import math
import re
import sys

PEERS = ("iconv", "ICU", "encoding_rs")
COLOURS = ("#4c78a8", "#72b7b2", "#b279a2")
LOW = "#d62728"
LEFT, TOP, UNIT, BAR, GAP = 190, 54, 92, 7, 8  # UNIT: the width of a factor of two
LEAST, MOST = 0.5, 64.0
ROW = re.compile(r"^\| (\w+) \| (decode|encode) \| (\d+) \| \d+ \|(.*)\|$")
RATIO = re.compile(r"\(([0-9.]+)( !)?\)")


def rows(lines):
    """Each row's name, and its ratios with whether they are below their bound."""
    for line in lines:
        row = ROW.match(line.strip())
        if row:
            ratios = [(float(r), low != "") for r, low in RATIO.findall(row.group(4))]
            if ratios:  # a peer that has not the page is the last
                yield "%s, %s, %s" % (row.group(1), row.group(2), format(int(row.group(3)), ",")), ratios


def place(ratio):
    """Where a ratio stands from the left."""
    return LEFT + UNIT * (math.log2(min(max(ratio, LEAST), MOST)) - math.log2(LEAST))


def text(x, y, words, anchor="start"):
    return '<text x="%.0f" y="%.0f" text-anchor="%s">%s</text>' % (x, y, anchor, words)


def bar(y, ratio, colour):
    return '<rect x="%d" y="%d" width="%.1f" height="%d" fill="%s"/>' % (LEFT, y, place(ratio) - LEFT, BAR, colour)


def chart(found):
    step = len(PEERS) * BAR + GAP
    bottom = TOP + step * len(found)
    out = ['<svg xmlns="http://www.w3.org/2000/svg" width="%d" height="%d" font-family="sans-serif" font-size="11">' % (place(MOST) + 60, bottom + 24),
           '<rect width="100%" height="100%" fill="white"/>', text(12, 18, "till's speed over a peer's, in one run: text, direction, bytes of a block")]
    for k, name in enumerate(PEERS + ("below its bound",)):
        out.append('<rect x="%d" y="28" width="10" height="10" fill="%s"/>' % (LEFT + 110 * k, (COLOURS + (LOW,))[k]))
        out.append(text(LEFT + 110 * k + 14, 37, name))
    ratio = LEAST
    while ratio <= MOST:
        out.append('<line x1="%.1f" y1="%d" x2="%.1f" y2="%d" stroke="%s"/>' % (place(ratio), TOP - 4, place(ratio), bottom, "black" if ratio == 1 else "#dddddd"))
        out.append(text(place(ratio), bottom + 14, "%g" % ratio, "middle"))
        ratio *= 2
    for i, (name, ratios) in enumerate(found):
        y = TOP + step * i
        out.append(text(LEFT - 8, y + 15, name, "end"))
        for k, (value, low) in enumerate(ratios):
            out.append(bar(y + BAR * k, value, LOW if low else COLOURS[k]))
            out.append('<text x="%.1f" y="%d" font-size="7">%.2f</text>' % (place(value) + 3, y + BAR * k + 6, value))
    return "\n".join(out + ["</svg>", ""])


def main():
    with open(sys.argv[1]) as f:
        found = list(rows(f))
    if not found:
        sys.exit("chart.py: no ratios")
    with open(sys.argv[2], "w") as f:
        f.write(chart(found))


main()
