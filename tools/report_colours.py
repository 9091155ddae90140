#!/usr/bin/env python3
"""Computes how far apart the colours of classes on a page of `vsi report` look, also to the colour-blind.

usage: tools/report_colours.py

It reads the colours of crates/vsi_report/src/page.rt, for light and for dark pages. Every two of the eight must be
at least 0.09 apart in OKLab, as everybody sees them and as people see them who lack one of the three kinds of cones
(the matrices of Machado, Oliveira and Fernandes, 2009, at full severity); each must have a contrast of at least 4.5 to
the panel of the source and to the red one of a refusal; and none may be red, orange or brown. It prints the least
distances, and ends with status 1 if one is too small.
"""

import itertools
import math
import os
import re
import sys

ROOT = os.path.dirname(os.path.dirname(os.path.abspath(__file__)))
LEAST = 0.09
CONTRAST = 4.5
# The hues, in degrees of OKLCH, at which a colour with this much chroma is red, orange or brown.
FORBIDDEN = (15, 95)
CHROMA = 0.05
SIGHTS = {
    "all cones": ((1, 0, 0), (0, 1, 0), (0, 0, 1)),
    "no red cones": ((0.152286, 1.052583, -0.204868), (0.114503, 0.786281, 0.099216), (-0.003882, -0.048116, 1.051998)),
    "no green cones": ((0.367322, 0.860646, -0.227968), (0.280085, 0.672501, 0.047413), (-0.011820, 0.042940, 0.968881)),
    "no blue cones": ((1.255528, -0.076749, -0.178779), (-0.078411, 0.930809, 0.147602), (0.004733, 0.691367, 0.303900)),
}


def linear(text):
    """The linear parts of a colour in the notation #rrggbb."""
    parts = [int(text[i:i + 2], 16) / 255 for i in (1, 3, 5)]
    return [p / 12.92 if p <= 0.04045 else ((p + 0.055) / 1.055) ** 2.4 for p in parts]


def seen(rgb, matrix):
    return [min(1, max(0, sum(m * c for m, c in zip(row, rgb)))) for row in matrix]


def oklab(rgb):
    r, g, b = rgb
    l = (0.4122214708 * r + 0.5363325363 * g + 0.0514459929 * b) ** (1 / 3)
    m = (0.2119034982 * r + 0.6806995451 * g + 0.1073969566 * b) ** (1 / 3)
    s = (0.0883024619 * r + 0.2817188376 * g + 0.6299787005 * b) ** (1 / 3)
    return (0.2104542553 * l + 0.7936177850 * m - 0.0040720468 * s,
            1.9779984951 * l - 2.4285922050 * m + 0.4505937099 * s,
            0.0259040371 * l + 0.7827717662 * m - 0.8086757660 * s)


def luminance(rgb):
    return 0.2126 * rgb[0] + 0.7152 * rgb[1] + 0.0722 * rgb[2]


def contrast(one, other):
    low, high = sorted((luminance(one), luminance(other)))
    return (high + 0.05) / (low + 0.05)


def is_forbidden(rgb):
    _, a, b = oklab(rgb)
    hue = math.degrees(math.atan2(b, a)) % 360
    return math.hypot(a, b) > CHROMA and FORBIDDEN[0] <= hue <= FORBIDDEN[1]


def distance(one, other, matrix):
    return math.dist(oklab(seen(one, matrix)), oklab(seen(other, matrix)))


def judge(name, colours, papers):
    """Prints the least distance for each sight, and answers whether the colours are good."""
    good = True
    for number, colour in enumerate(colours):
        if min(contrast(colour, paper) for paper in papers) < CONTRAST or is_forbidden(colour):
            print(f"{name}: colour {number} has too little contrast, or is red, orange or brown")
            good = False
    for sight, matrix in SIGHTS.items():
        least, pair = min((distance(a, b, matrix), (i, j)) for (i, a), (j, b)
                          in itertools.combinations(enumerate(colours), 2))
        print(f"{name}, {sight}: at least {least:.3f}, of {pair[0]} and {pair[1]}")
        good = good and least >= LEAST
    return good


def main():
    with open(os.path.join(ROOT, "crates/vsi_report/src/page.rt"), encoding="utf-8") as file:
        text = file.read().replace("\\\n", "")
    colours = [linear(c) for c in re.findall(r"--k\d:(#[0-9a-f]{6})", text)]
    papers = [linear(c) for c in re.findall(r"--(?:panel|badp):(#[0-9a-f]{6})", text)]
    good = len(colours) == 16 and len(papers) == 4
    good = judge("light", colours[:8], papers[:2]) and good
    good = judge("dark", colours[8:16], papers[2:]) and good
    sys.exit(0 if good else 1)


if __name__ == "__main__":
    main()
