#!/usr/bin/env python3
"""examples.py [ANSWERS]: document 01's examples, worked examples of CSS Color 3 and Filter Effects 1, and the inputs of docs/DIFFERENCES.md.

Without an argument it writes their cases, by the line protocol. With one it holds the answers in that file to what is written
here, by hand from the documents, and in differences.py, from document 01: exit status 1 where any differs. A channel of an hsl
colour is held to within a half of the exact value that the document's own algorithm gives (section 4.2.4)."""
import itertools
import sys
from fractions import Fraction

from differences import ROWS
from protocol import bits, case, color, last_item, last_value, length, no, no_item, no_value, refused, shadow, value


DOCUMENT_01 = [
    color("#1234", (17, 34, 51, 68)), no("color", "#12345", 5), no("color", "#1234567", 5), no("color", "#12", 5),
    color("rgb(20%,50,20%)", (51, 255, 51, 255)), no("color", "rgb(10,20%,30)", 9, 10), no("color", "rgba(0,0,0,50%)", 7, 14, 37, 41),
    color("rgb(1,2,3,)", (1, 2, 3, 255)), no("color", "rgb(1,,2,3)", 9, 7), color("rgba(0,0,0,0.5)", (0, 0, 0, 128)),
    color("hsl(120,100,50)", (255, 255, 255, 255)), color("hsl(359.99999,100%,50%)", (255, 0, 0, 255)),
    no("color", "", 4), no("color", "red)", 6, 4), no("paint", "url(#a) red)", 6, 4), no("paint", "red)", 5),
    no("length", "10px ", 6, 5), length("1em", 1.0, "em"), no("length", "1.", 10, 1),
    no_item(" ", 0, 9, 2), last_item("", 0),
    length("9007199254740991", 9007199254740991.0, "none"), no("length", "9007199254740992", 10, 1),
    length("1e22", 1e22, "none"), no("length", "1e23", 10, 1),
    no_value("blur(50%)", 11, 6), no_value("blur(-5%)", 12, 6), no_value("brightness(-0)", 12, 12), no_value("hue-rotate(1)", 13, 12), no_value("drop-shadow()", 14, 13),
    value("drop-shadow(1 2 -3)", 19, shadow(1.0, 2.0, "none")), no_value("drop-shadow(1 2 -3 currentColor)", 7, 20, 99, 41),
    value("blur()none", 6, f"blur {bits(0.0)} none"), last_value("blur()none", 6), no_value("noneblur()", 5, 0),
    last_value(" " * 4096, 0), ("filter", 0, " " * 4097, refused(1, 0, "refused 0")),
]

RED = (255, 0, 0, 255)
CSS_COLOR_3 = [
    color("#f00", RED), color("#ff0000", RED), color("rgb(255,0,0)", RED), color("rgb(100%, 0%, 0%)", RED), color("#fb0", (255, 187, 0, 255)),
    color("rgb(300,0,0)", RED), color("rgb(255,-10,0)", RED), color("rgb(110%, 0%, 0%)", RED),
    color("rgba(255,0,0,1)", RED), color("rgba(100%,0%,0%,1)", RED), color("rgba(0,0,255,0.5)", (0, 0, 255, 128)), color("rgba(100%, 50%, 0%, 0.1)", (255, 128, 0, 26)),
    color("hsl(0, 100%, 50%)", RED), color("hsl(120, 100%, 50%)", (0, 255, 0, 255)), color("hsl(120, 100%, 25%)", (0, 128, 0, 255)),
    color("hsl(120, 100%, 75%)", (128, 255, 128, 255)), color("hsl(120, 75%, 75%)", (143, 239, 143, 255)),
    color("hsla(120, 100%, 50%, 1)", (0, 255, 0, 255)), color("hsla(240, 100%, 50%, 0.5)", (0, 0, 255, 128)), color("hsla(30, 100%, 50%, 0.1)", (255, 128, 0, 26)),
    color("CornflowerBlue", (100, 149, 237, 255)), color("DarkSlateGrey", (47, 79, 79, 255)),
]

FILTER_EFFECTS_1 = [
    value("blur()", 6, f"blur {bits(0.0)} none"), value("blur(5px)", 9, f"blur {bits(5.0)} px"),
    *[value(f"{f}()", len(f) + 2, f"{f} {bits(1.0)}") for f in ["brightness", "contrast", "grayscale", "invert", "opacity", "saturate", "sepia"]],
    value("brightness(0.5)", 15, f"brightness {bits(0.5)}"), value("contrast(200%)", 14, f"contrast {bits(2.0)}"), value("sepia(100%)", 11, f"sepia {bits(1.0)}"),
    value("hue-rotate()", 12, f"hue-rotate {bits(0.0)} deg"), value("hue-rotate(90deg)", 17, f"hue-rotate {bits(90.0)} deg"), value("hue-rotate(0)", 13, f"hue-rotate {bits(0.0)} deg"),
    value("drop-shadow(16px 16px 20px black)", 33, shadow(16.0, 16.0, "px", "0,0,0,255", 20.0, "px")),
    value("drop-shadow(red 1px 2px)", 24, shadow(1.0, 2.0, "px", "255,0,0,255")),
    value("url(#filter)", 12, "url 5 6"), last_value("none", 0), value("grayscale() sepia(50%)", 22, f"sepia {bits(0.5)}", place=12),
]


def exact_hsl(h, s, l):
    """CSS Color 3, section 4.2.4, the algorithm, over fractions."""
    h, s, l = Fraction(h, 360), Fraction(s, 100), Fraction(l, 100)
    m2 = l * (s + 1) if l <= Fraction(1, 2) else l + s - l * s
    m1 = l * 2 - m2

    def hue(x):
        x = x % 1
        if x * 6 < 1:
            return m1 + (m2 - m1) * x * 6
        if x * 2 < 1:
            return m2
        if x * 3 < 2:
            return m1 + (m2 - m1) * (Fraction(2, 3) - x) * 6
        return m1

    return [255 * hue(h + Fraction(1, 3)), 255 * hue(h), 255 * hue(h - Fraction(1, 3))]


# section 4.2.4.1: a table for each hue, saturation across, lightness down
TABLES = [(h, s, l) for h in range(0, 360, 30) for l in [100, 88, 75, 63, 50, 38, 25, 13, 0] for s in [100, 75, 50, 25, 0]]


BY_HAND = DOCUMENT_01 + CSS_COLOR_3 + FILTER_EFFECTS_1
DIFFERENT = [answer for row in ROWS for answer in row.answers()]


def cases():
    table = [("color", None, f"hsl({h}, {s}%, {l}%)") for h, s, l in TABLES]
    return [case(*asked[:3]) for asked in BY_HAND + table + DIFFERENT]


def main(answers):
    if answers is None:
        print(*cases(), sep="\n")
        return 0
    with open(answers) as f:
        found = f.read().split("\n")[: len(cases())]
    end = len(BY_HAND) + len(TABLES)
    wrong = [(text, want, got) for (_, _, text, want), got in itertools.zip_longest(BY_HAND + DIFFERENT, found[: len(BY_HAND)] + found[end:]) if got != want]
    for (h, s, l), got in zip(TABLES, found[len(BY_HAND) : end]):
        channels = [int(c) for c in got.split(" ")[6:]]
        if channels[3:] != [255] or any(abs(c - x) > Fraction(1, 2) for c, x in zip(channels, exact_hsl(h, s, l))):
            wrong.append((f"hsl({h}, {s}%, {l}%)", [float(x) for x in exact_hsl(h, s, l)], got))
    for row in wrong[:20]:
        print(*row, sep="\n  ")
    print(f"{len(found)} examples, {len(wrong)} different")
    return 1 if wrong else 0


if __name__ == "__main__":
    sys.exit(main(sys.argv[1] if len(sys.argv) > 1 else None))
