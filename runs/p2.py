#!/usr/bin/env python3
"""The stretch of a refusal (document 02, P2), said once more and apart from the program.

p2.py cases MOST COUNT SEED     writes cases: the order's smallest inputs, then every sequence of up to MOST telling words in frames for each call,
                                texts about the limit, short lists from every place, then COUNT damaged copies of such texts
p2.py stretch CASES ORACLE      writes what `lines` is to answer: the oracle's answers, 9 and 10 split (p8.py), FROM and TO put in after PART
p2.py hand ANSWERS              holds the first answers to those written below by hand
p2.py sample CASES ANSWERS COUNT SEED CASES-OUT ANSWERS-OUT
                                picks COUNT cases: those by hand, the shortest of every kind of answer, then at random as many of each call and number

A stretch is worked out from the oracle's number and position where these say it. Where they do not (5, and what a paint swallows) the text is read
once more, by a small reader of colours and links; wherever the oracle tells a number or a position, that reader is held to it."""
import functools
import itertools
import random
import re

import statement
from p8 import BIG, WHITE, field, line, split

LIMIT = 4096
LAST = 2**64 - 1
NAMES = set("""aliceblue antiquewhite aqua aquamarine azure beige bisque black blanchedalmond blue blueviolet brown burlywood cadetblue chartreuse chocolate coral cornflowerblue cornsilk
    crimson cyan darkblue darkcyan darkgoldenrod darkgray darkgreen darkgrey darkkhaki darkmagenta darkolivegreen darkorange darkorchid darkred darksalmon darkseagreen darkslateblue
    darkslategray darkslategrey darkturquoise darkviolet deeppink deepskyblue dimgray dimgrey dodgerblue firebrick floralwhite forestgreen fuchsia gainsboro ghostwhite gold goldenrod gray
    green greenyellow grey honeydew hotpink indianred indigo ivory khaki lavender lavenderblush lawngreen lemonchiffon lightblue lightcoral lightcyan lightgoldenrodyellow lightgray lightgreen
    lightgrey lightpink lightsalmon lightseagreen lightskyblue lightslategray lightslategrey lightsteelblue lightyellow lime limegreen linen magenta maroon mediumaquamarine mediumblue
    mediumorchid mediumpurple mediumseagreen mediumslateblue mediumspringgreen mediumturquoise mediumvioletred midnightblue mintcream mistyrose moccasin navajowhite navy oldlace olive
    olivedrab orange orangered orchid palegoldenrod palegreen paleturquoise palevioletred papayawhip peachpuff peru pink plum powderblue purple red rosybrown royalblue saddlebrown salmon
    sandybrown seagreen seashell sienna silver skyblue slateblue slategray slategrey snow springgreen steelblue tan teal thistle tomato turquoise violet wheat white whitesmoke yellow
    yellowgreen transparent""".encode().split())

# The smallest inputs, with number, position and stretch by hand. `parent` is the inherit rule's second text, `both` are both.
HAND = [
    # 1 and 3: nought and nought. 3 stays so behind A (`blur()`), too.
    ("color", " " * 4097, 1, 0, 0, 0), ("length", "1" * 4097, 1, 0, 0, 0), ("lengths 4098", "1" * 4097, 1, 0, 0, 0), ("paint", "x" + " " * 4096, 1, 0, 0, 0), ("filter 0", b"\xff" * 4097, 1, 0, 0, 0),
    ("angle", "0" * 4097, 1, 0, 0, 0), ("iri", "#" * 4097, 1, 0, 0, 0), ("funciri", "é" * 2049, 1, 0, 0, 0), ("inherit", b"\xff" * 4097, 1, 0, 0, 0), ("parent", "#" * 4097, 1, 0, 0, 0), ("lengths 1", "", 3, 0, 0, 0),
    ("lengths 3", "1 ", 3, 0, 0, 0), (f"lengths {LAST}", "1", 3, 0, 0, 0), ("filter 1", "é", 3, 0, 0, 0), ("filter 7", "blur()é", 3, 0, 0, 0),
    ("filter 9", "blur()é", 3, 0, 0, 0), ("filter 6", "url(#é)", 3, 0, 0, 0), ("filter 1", "", 3, 0, 0, 0),
    # 2: empty at its place in the lent text, in a paint too.
    ("color", b"\xff", 2, 0, 0, 0), ("color", b"red\x80", 2, 0, 3, 3), ("length", b"\xc3\xa9\xed\xa0\x80", 2, 0, 2, 2), ("lengths 9", b"1 \xf0\x9f\x98", 2, 0, 2, 2), ("angle", b"1\xc3", 2, 0, 1, 1),
    ("iri", b"#\xc3a", 2, 0, 1, 1), ("funciri", b" url(#\xe2\x82)", 2, 0, 6, 6), ("paint", b"  \xc3", 2, 0, 2, 2), ("paint", b"\xc2\xa0url(#a) \x80", 2, 0, 10, 10), ("inherit", b"\t\xff", 2, 0, 1, 1),
    ("parent", b"\xc2\xa0x\xff", 2, 0, 3, 3), ("both", ("inherit", b" \xff"), 2, 0, 1, 1), ("both", (b" \xff", "red"), 2, 0, 1, 1), ("filter 99", b"blur()\xe2\x82", 2, 0, 6, 6),
    # 4: empty at the end.
    ("color", "", 4, 0, 0, 0), ("color", "  ", 4, 0, 2, 2), ("color", "rgb", 4, 0, 3, 3), ("color", "rgb(1,", 4, 0, 6, 6), ("color", "hsl(", 4, 0, 4, 4), ("color", "rgb(1,2,3", 4, 0, 9, 9),
    ("color", "rgb(1,2,3,4 ", 4, 0, 12, 12),
    ("iri", "", 4, 0, 0, 0), ("iri", " ", 4, 0, 1, 1), ("funciri", "", 4, 0, 0, 0), ("funciri", "\t ", 4, 0, 2, 2), ("funciri", "url(", 4, 0, 4, 4), ("funciri", "url('#a", 4, 0, 7, 7), ("funciri", "url(#é", 4, 0, 7, 7),
    ("paint", " url(#a) rgb(1,", 4, 0, 6, 6), ("paint", "url('#é')hsl(\u00a0", 4, 0, 4, 4), ("parent", "\u3000url(#a) rgb", 4, 0, 3, 3), ("filter 0", "blur", 4, 0, 4, 4), ("filter 0", "blur(1", 4, 0, 6, 6),
    ("filter 0", "url(", 4, 0, 4, 4),
    ("filter 0", "drop-shadow(1 2 ", 4, 0, 16, 16), ("filter 9", "url(#é) blur(2 ", 4, 0, 16, 16),
    # 5 of a colour: after the hex run or the word.
    ("color", "#12345", 5, 0, 6, 6), ("color", "foo)", 5, 0, 3, 3), ("color", ")", 5, 0, 0, 0), ("color", "#", 5, 0, 1, 1), ("color", " #12 ", 5, 0, 4, 4), ("color", "#gab", 5, 0, 1, 1), ("color", "#1234567é", 5, 0, 8, 8),
    ("color", " é", 5, 0, 1, 1), ("color", "foo bar", 5, 0, 3, 3), ("color", "currentColor", 5, 0, 12, 12), ("color", "url(#a)", 5, 0, 3, 3), ("color", "x" * 4096, 5, 0, 4096, 4096), ("color", "\u00a0red", 5, 0, 0, 0),
    # 5 of a link: after `#`, after the run up to the quote, after the whole link.
    ("iri", "#", 5, 0, 1, 1), ("iri", " # a", 5, 0, 2, 2), ("funciri", "url(#)", 5, 0, 5, 5), ("funciri", "url('#  ')", 5, 0, 8, 8), ("funciri", "url(#a'b)", 5, 0, 8, 8), ("funciri", "url('#')", 5, 0, 6, 6),
    ("funciri", "url('#\u00a0')", 5, 0, 8, 8), ("funciri", "url(\"#a'b\")", 5, 0, 9, 9), ("funciri", "url('#a\"  ')", 5, 0, 10, 10), ("funciri", "url('#a\" ", 5, 0, 9, 9), ("funciri", "url(#')", 5, 0, 6, 6),
    ("funciri", " url( # )", 5, 0, 7, 7),
    # 5 of a filter: after `none` and its spaces.
    ("filter 0", "none x", 5, 0, 5, 5), ("filter 0", "noneblur()", 5, 0, 4, 4), ("filter 0", " none\t \nnone", 5, 0, 8, 8), ("filter 6", "blur()none(", 5, 0, 10, 10), ("filter 9", "url(#é) none é", 5, 0, 14, 14),
    # 5 of a paint in the place of another refusal: where that reading stopped, in the trimmed text.
    ("paint", "x", 5, 0, 1, 1), ("paint", "red)", 5, 0, 3, 3), ("paint", "rgb( x", 5, 0, 5, 5), ("paint", "url(x)", 5, 0, 4, 4), ("paint", "", 5, 0, 0, 0), ("paint", " \u00a0", 5, 0, 0, 0), ("paint", " x ", 5, 0, 1, 1),
    ("paint", "red )", 5, 0, 4, 4), ("paint", "foo )", 5, 0, 3, 3), ("paint", "\u2003RED é", 5, 0, 4, 4), ("paint", "#12345", 5, 0, 6, 6), ("paint", "#fff x", 5, 0, 5, 5), ("paint", "rgb", 5, 0, 3, 3),
    ("paint", "rgb x", 5, 0, 3, 3),
    ("paint", "rgb(", 5, 0, 4, 4), ("paint", "\u3000rgb(1,", 5, 0, 6, 6), ("paint", "rgb(1, ", 5, 0, 6, 6), ("paint", "rgb(10,20%,30)", 5, 0, 9, 9), ("paint", "rgb(1,2,3 x", 5, 0, 10, 10),
    ("paint", "rgb(1,2,3,4 x", 5, 0, 12, 12),
    ("paint", "hsl(0,0%,0%) \t,", 5, 0, 14, 14), ("paint", "url(", 5, 0, 4, 4), ("paint", "url(#)", 5, 0, 5, 5), ("paint", "url('#  ')", 5, 0, 8, 8), ("paint", "url(#a'b)", 5, 0, 8, 8), ("paint", "url('#a)", 5, 0, 8, 8),
    ("paint", " url(#a", 5, 0, 6, 6), ("paint", "url(#a x)", 5, 0, 7, 7), ("paint", "url('#a' x)", 5, 0, 9, 9), ("paint", "url (#a)", 5, 0, 3, 3), ("paint", "none x", 5, 0, 4, 4), ("inherit", " x", 5, 0, 1, 1),
    ("parent", " red) ", 5, 0, 3, 3),
    ("both", ("x", b"\xff"), 5, 0, 1, 1), ("both", (" inherit\u00a0", "\tred)"), 5, 0, 3, 3),
    # 5 of a fallback: its own, counted from the fallback.
    ("paint", "url(#a) x", 5, 0, 1, 1), ("paint", " url(#é) foo)", 5, 0, 3, 3), ("paint", "url(#a))", 5, 0, 0, 0), ("paint", "url(#a) #12345", 5, 0, 6, 6), ("paint", "url(#a)\u00a0red", 5, 0, 0, 0),
    ("parent", "url(#a) none x", 5, 0, 4, 4),
    # 6: from its position to the end, unknown filter names too.
    ("color", "red)", 6, 4, 3, 4), ("color", "red é😀", 6, 5, 4, 10), ("length", "10px ", 6, 5, 4, 5), ("length", "1x", 6, 2, 1, 2), ("length", "1 " + "x" * 4094, 6, 2, 1, 4096), ("angle", "1degé", 6, 5, 4, 6),
    ("iri", "#é b ", 6, 4, 4, 6),
    ("funciri", " url(#é) x ", 6, 10, 10, 12), ("paint", "url(#a) red)", 6, 4, 3, 4), ("paint", "  url(#é) red x ", 6, 5, 4, 5), ("parent", " url(#é)red )", 6, 5, 4, 5), ("filter 0", "foo() blur()", 6, 1, 0, 12),
    ("filter 0", " (", 6, 2, 1, 2),
    ("filter 9", "url(#é) Blur()", 6, 9, 9, 15), ("filter 0", "None()é", 6, 1, 0, 8),
    # 7: the one byte, though it may begin a longer character.
    ("color", "rgbé", 7, 4, 3, 4), ("color", "rgb (1,2,3)", 7, 4, 3, 4), ("color", "rgba(0,0,0,50%)", 7, 14, 13, 14), ("iri", "a", 7, 1, 0, 1), ("iri", " 😀", 7, 2, 1, 2), ("funciri", "url(é)", 7, 5, 4, 5),
    ("funciri", "url('x')", 7, 6, 5, 6),
    ("funciri", "url(#a b)", 7, 8, 7, 8), ("funciri", "url('#é' x", 7, 10, 10, 11), ("paint", " url(#é) rgb 1", 7, 4, 3, 4), ("filter 0", "é", 7, 1, 0, 1), ("filter 0", "blur é", 7, 6, 5, 6),
    ("filter 5", "url(#é)", 7, 6, 5, 6),
    ("filter 0", "blur(1 é)", 7, 8, 7, 8), ("filter 0", "drop-shadow(1 2 -3 currentColor)", 7, 20, 19, 20), ("filter 0", "url(a)", 7, 5, 4, 5), ("filter 0", "hue-rotate(0 1)", 7, 14, 13, 14),
    # 8: the part, up to 4 characters.
    ("funciri", "x", 8, 1, 0, 1), ("funciri", " ur", 8, 2, 1, 3), ("funciri", "é", 8, 1, 0, 2), ("funciri", "é€😀xy", 8, 1, 0, 10), ("funciri", "😀😀😀😀😀", 8, 1, 0, 16), ("funciri", " \u00a0url(#a)", 8, 2, 1, 6),
    ("funciri", "URL(#a)", 8, 1, 0, 4),
    # 9 and 22: empty after the spaces.
    ("length", "x", 9, 1, 0, 0), ("length", "", 22, 1, 0, 0), ("length", "  ", 22, 3, 2, 2), ("length", " é", 9, 2, 1, 1), ("lengths 0", " ", 22, 2, 1, 1), ("lengths 2", "é x", 9, 3, 3, 3),
    ("lengths 1", "1 ", 22, 3, 2, 2), ("angle", "e5", 9, 1, 0, 0),
    ("color", "rgb(10,20%,30)", 9, 10, 9, 9), ("color", "rgb(1,,2,3)", 9, 7, 6, 6), ("color", "rgb( ", 22, 6, 5, 5), ("paint", "url(#a) rgb(", 22, 5, 4, 4), ("paint", " url(#é) rgb( x", 9, 6, 5, 5),
    ("parent", "url(#a) rgb(1,\t,", 9, 8, 7, 7),
    ("filter 0", "blur(é)", 9, 6, 5, 5), ("filter 9", "url(#é) sepia( ", 22, 16, 16, 16), ("filter 0", "drop-shadow(red)", 9, 16, 15, 15), ("filter 0", "drop-shadow(1 )", 9, 15, 14, 14),
    # 10: from the first byte to the end of the longest beginning of the form.
    ("length", "1.", 10, 1, 0, 2), ("length", "1e+m", 10, 1, 0, 3), ("length", "-x", 10, 1, 0, 1), ("length", " -", 10, 2, 1, 2), ("length", ".", 10, 1, 0, 1), ("length", "+.e5", 10, 1, 0, 2),
    ("length", "1eM", 10, 1, 0, 2), ("length", "1e", 10, 1, 0, 2),
    ("length", "1.em", 10, 1, 0, 2), ("length", "1..5", 10, 1, 0, 2), ("length", "1.5e-x", 10, 1, 0, 5), ("length", "12.5E é", 10, 1, 0, 5), ("length", "--1", 10, 1, 0, 1), ("length", BIG + ".", 10, 1, 0, 17),
    ("length", BIG + "e", 10, 1, 0, 17),
    ("lengths 2", "1 2. 3", 10, 3, 2, 4), ("lengths 2", "é1e-px", 10, 2, 2, 5), ("angle", "1.deg", 10, 1, 0, 2), ("angle", " 1edeg", 10, 2, 1, 3), ("color", "rgb(0,0,0,1.)", 10, 11, 10, 12),
    ("paint", " rgb(1.,0,0)", 10, 5, 4, 6),
    ("paint", "url(#é) rgb(-", 10, 5, 4, 5), ("inherit", "hsl(1,.%)", 10, 7, 6, 7), ("parent", "\u00a0rgb(1e+,", 10, 5, 4, 7), ("filter 0", "blur(.)", 10, 6, 5, 6), ("filter 0", "drop-shadow(1 2 1.)", 10, 17, 16, 18),
    ("filter 0", "drop-shadow(rgb(-x", 10, 17, 16, 17), ("filter 0", "drop-shadow(1 2 3 rgb(1e", 10, 23, 22, 24), ("filter 9", "url(#é) blur(1e)", 10, 14, 14, 16),
    # 23 and 24: the whole number.
    ("length", BIG, 23, 1, 0, 16), ("length", BIG + "em", 23, 1, 0, 16), ("length", BIG + "e23", 23, 1, 0, 19), ("length", "1e23px", 24, 1, 0, 4), ("length", "-1.5e+99 ", 24, 1, 0, 8),
    ("length", "0." + "0" * 23, 24, 1, 0, 25),
    ("length", "1e-23.5", 24, 1, 0, 5), ("lengths 3", f"é {BIG}ex", 23, 3, 3, 19), ("angle", "0e23deg", 24, 1, 0, 4), ("color", f"rgb(0,{BIG}.5%,0)", 23, 7, 6, 24), ("paint", " rgb(0e23%", 24, 5, 4, 8),
    ("paint", f"url(#a) rgb({BIG}x", 23, 5, 4, 20),
    ("parent", "url(#é)hsl(1E-23", 24, 5, 4, 9), ("filter 0", "drop-shadow(1 2 1e23)", 24, 17, 16, 20), ("filter 9", f"url(#é) sepia({BIG}%)", 23, 15, 15, 31),
    # 11 to 15: from the filter's name to the reader's place.
    ("filter 0", "blur(50%)", 11, 6, 0, 8), ("filter 0", " drop-shadow(1%", 11, 14, 1, 15), ("filter 0", "drop-shadow(1 2% 3)", 11, 15, 0, 16), ("filter 0", "drop-shadow(red 1% 2)", 11, 17, 0, 18),
    ("filter 9", "url(#é) blur( 5% )", 11, 15, 9, 17),
    ("filter 0", "blur(-5%)", 12, 6, 0, 8), ("filter 0", "blur(-1px)", 12, 6, 0, 9), ("filter 0", "blur(-1q", 12, 6, 0, 7), ("filter 0", "brightness(-0)", 12, 12, 0, 13), ("filter 0", "sepia(-1%)", 12, 7, 0, 9),
    ("filter 0", "sepia(-1px)", 12, 7, 0, 8),
    ("filter 0", " opacity ( -.5e1 %)", 12, 12, 1, 16), ("filter 6", "blur()blur(-1em)", 12, 12, 6, 15), ("filter 0", "hue-rotate(1)", 13, 12, 0, 12), ("filter 0", "hue-rotate( 1em", 13, 13, 0, 13),
    ("filter 0", "hue-rotate(-1.5e1DEG)", 13, 12, 0, 17),
    ("filter 9", "url(#é) hue-rotate(7 deg)", 13, 20, 9, 21), ("filter 0", "drop-shadow()", 14, 13, 0, 12), ("filter 0", " drop-shadow\t( )", 14, 16, 1, 15), ("filter 9", "url(#é) drop-shadow()", 14, 21, 9, 21),
    ("filter 0", "url(#)", 15, 1, 0, 5),
    ("filter 0", " url ( # )", 15, 2, 1, 8), ("filter 6", "blur()url(# x", 15, 7, 6, 11), ("filter 9", "url(#é) url(#)", 15, 9, 9, 14),
    # Accepted: nought and nought; what was swallowed leaves no trace.
    ("color", "red", 0, 0, 0, 0), ("length", " 1em", 0, 0, 0, 0), ("lengths 0", "", 0, 0, 0, 0), ("lengths 2", "1 ", 0, 0, 0, 0), ("lengths 2", "é1,2", 0, 0, 0, 0), ("angle", "1turn", 0, 0, 0, 0), ("iri", " #a ", 0, 0, 0, 0),
    ("funciri", "url('#a' )", 0, 0, 0, 0), ("paint", " url(#a) red ", 0, 0, 0, 0), ("inherit", "none", 0, 0, 0, 0), ("parent", "rgb(1,2,3,)", 0, 0, 0, 0), ("both", ("red", b"\xff"), 0, 0, 0, 0),
    ("filter 0", "blur( )", 0, 0, 0, 0),
    ("filter 6", "blur()", 0, 0, 0, 0), ("filter 0", "none ", 0, 0, 0, 0), ("filter 0", " " * 4096, 0, 0, 0, 0), ("filter 0", "drop-shadow(1 2 -3)", 0, 0, 0, 0), ("filter 0", "drop-shadow(1 2 3% red)", 0, 0, 0, 0),
]

# Telling words, and the frames in which they stand: call, what is before them, what is after them.
TEXTS = ["red", "foo", "rgb(", "hsl", "none", "url(", "#", "1", ".", "e", "-", "(", ")", "%", ",", "'", '"', " ", "\t", "\u00a0", "é", "😀", b"\xff"]
NUMBERS = ["1", "0", ".", "-", "e", "m", "px", "deg", "%", " ", ",", ")", "x", "é", BIG, "e23"]
LINKS = ["#", "'", '"', " ", "\t", "\u00a0", "a", "(", ")", "é", "😀", "x", b"\x80"]
COLOURS = ["red", "foo", "none", "currentColor", "rgb(", "1", ",", " ", "\u00a0", ")", "#", "#f00", "é", "%"]
FILTERS = ["blur", "drop-shadow", "hue-rotate", "sepia", "foo", "none", "url", "(", ")", " ", "\n", "1", "-", "%", "#", "é"]
SHADOWS = ["1", " ", "-2", "3%", "4px", "red", "foo", "currentColor", "rgb(", "1.", ")", ",", "#f00"]
CALLS = ["color", "length", "lengths 0", "angle", "iri", "funciri", "paint", "inherit", "parent", "filter 0"]
FRAMES = [(TEXTS, call, "", "") for call in CALLS] + [(NUMBERS, *frame) for frame in [
    ("length", "", ""), ("length", " -", "ex"), ("lengths 0", "", ""), ("lengths 2", "1 ", ""), ("lengths 3", "é ", ""), ("lengths 1", "1", ",2"), ("angle", "", ""), ("angle", " ", "deg"), ("color", "rgb(", ""),
    ("color", "rgb(", ",0,0)"),
    ("color", "rgb(0,", ""), ("color", "rgb(1%,", ",0)"), ("color", "rgb(0,0,0", ""), ("color", "hsl(", ""), ("color", "hsl(0,0,", ")"), ("paint", " rgb(", ""), ("paint", "rgb(0,", ",0)"), ("paint", "hsl(0,", ""),
    ("paint", "url(#a) rgb(", ""),
    ("paint", "\u00a0url('#é') rgb(0,", ""), ("inherit", " rgb(", ""), ("inherit", "url(#é) rgb(", ""), ("parent", "\u00a0hsl(0,", ""), ("parent", "url(#a)rgb(", ")"), ("filter 0", "blur(", ")"),
    ("filter 0", " sepia(", ""), ("filter 9", "url(#é) blur( ", ""), ("filter 0", "hue-rotate(", ")"),
    ("filter 9", "url(#é) hue-rotate(1", ""), ("filter 0", "drop-shadow(", " 1 2)"), ("filter 0", "drop-shadow(1 2 ", ")"), ("filter 0", "drop-shadow(rgb(", ",0,0) 1 2)"), ("filter 0", "drop-shadow(1 2 3 rgb(", ""),
    ("filter 0", "blur(-1", ")"), ("filter 9", "url(#é) blur ( -0", "%"), ("filter 0", " opacity(-1", ""), ("filter 9", "url(#é)\nsaturate( -.5", "%)"), ("filter 0", "drop-shadow(red 1", "% 2)"),
    ("filter 0", "drop-shadow(currentColor -1 2", ""),
]] + [(LINKS, *frame) for frame in [
    ("iri", "", ""), ("iri", " #", ""), ("funciri", "url(", ""), ("funciri", " url(#", ")"), ("funciri", "url('#", ""), ("funciri", 'url("#', '")'), ("paint", "url(", ""), ("paint", " url('#", "') red"),
    ("paint", "url(#", ")"), ("inherit", "url(#a", ""),
    ("parent", 'url("#', ""), ("filter 0", "url(", ""), ("filter 9", "url(#é) url(#", ""),
]] + [(COLOURS, *frame) for frame in [
    ("color", "", ""), ("paint", "", ""), ("paint", "\u00a0", "\u2003"), ("paint", "url(#a) ", ""), ("paint", " url('#é')", ""), ("inherit", "", ""), ("inherit", "url(#a) ", ""), ("inherit", "url(#a) rgb", ""),
    ("parent", "", ""), ("parent", "url(#a)", ""),
]] + [(FILTERS, *frame) for frame in [("filter 0", "", ""), ("filter 0", " ", "()"), ("filter 6", "blur()", ""), ("filter 9", "url(#é) ", "(1)")]] + [(SHADOWS, *frame) for frame in [
    ("filter 0", "drop-shadow(", ""), ("filter 0", "drop-shadow(1 2", ""), ("filter 9", "url(#é) drop-shadow(red ", ")"),
]]
LISTS = ["1", " ", "-", "x", "é", "😀", "blur(", "url(#", ")", "none", "foo", "%", b"\xc3"]
PUT = [b" ", b"\t", b"0", b"9", b"e", b".", b"-", b"+", b"(", b")", b",", b"%", b"#", b"'", b'"', b"x", b"red", b"none", b"\xc2\xa0", b"\xc3\xa9", b"\xf0\x9f\x98\x80"]
ILL = [b"\x80", b"\xff", b"\xc3", b"\xe2\x82", b"\xed\xa0\x80", b"\xf0\x9f\x98", b"\xc0\xaf", b"\xf4\x90\x80\x80"]


def raw(text):
    return text.encode() if isinstance(text, str) else text


def case_of(call, text):
    if call == "both":
        return f"inherit {field(raw(text[0]))} {field(raw(text[1]))}"
    return line(call, text)


def limits():
    for call in CALLS:
        for n in [LIMIT - 1, LIMIT, LIMIT + 1, LIMIT + 2]:
            for before, fill in [("", " "), ("", "x"), ("", "0"), ("#", "a"), ("red", " "), ("1 ", "x"), ("foo(", ")"), ("blur(", "é"), ("rgb(", "1"), ("url(#", "a"), ("url(#a) ", "("), ("-", "é")]:
                yield line(call, (before + fill * n).encode()[:n])


def damaged(r):
    words, call, before, after = r.choice(FRAMES)
    text = bytearray(raw(before) + b"".join(raw(r.choice(words)) for _ in range(r.randint(0, 5))) + raw(after))
    statement.damage(r, text, PUT, r.randint(0, 3), (0.4, 0.8, 0.9))
    if r.random() < 0.05:
        text[len(text) // 2:len(text) // 2] = r.choice(ILL)
    if call[-1].isdigit() and r.random() < 0.3:
        call = f"{call.split(' ')[0]} {r.choice([r.randint(0, len(text) + 1), r.randint(0, len(text)), len(text) + 1, LAST])}"
    if call == "parent" and r.random() < 0.3:
        return case_of("both", (r.choice([" inherit", "inherit\u00a0", "\tinherit\n"]), bytes(text)))
    return line(call, bytes(text))


def cases(most, count, seed):
    for call, text, *_ in HAND:
        yield case_of(call, text)
    for n in range(most + 1):
        for words, call, before, after in FRAMES:
            before, after = raw(before), raw(after)
            for seq in itertools.product([raw(w) for w in words], repeat=n):
                yield line(call, before + b"".join(seq) + after)
    for n in range(3):
        for seq in itertools.product(LISTS, repeat=n):
            text = b"".join(raw(w) for w in seq)
            for place in [*range(1, len(text) + 2), LAST]:
                yield line(f"lengths {place}", text)
                yield line(f"filter {place}", text)
    yield from limits()
    r = random.Random(seed)
    for _ in range(count):
        yield damaged(r)


SPACES = re.compile(rb"[ \t\n\r]*")
WORD = re.compile(rb"[A-Za-z0-9_-]*")
DIGITS = re.compile(rb"[0-9A-Fa-f]*")
NUMBER = re.compile(rb"[+-]?(?:[0-9]+(?:\.[0-9]+)?|\.[0-9]+)(?:[eE](?![mx])[+-]?[0-9]+)?")
BEGINNING = re.compile(rb"[+-]?(?:[0-9]*\.[0-9]+(?:[eE](?![mx])[+-]?[0-9]*)?|[0-9]*\.|[0-9]+(?:[eE](?![mx])[+-]?[0-9]*)?|)")
LENGTH = re.compile(NUMBER.pattern + rb"(?:%|em|ex|px|in|cm|mm|pt|pc)?")
PERCENT = re.compile(NUMBER.pattern + rb"%?")
EMPTY_URL = re.compile(rb"url[ \t\n\r]*\([ \t\n\r]*#")
NONE = re.compile(rb"[ \t\n\r]*none[ \t\n\r]*")


# The reader. Each call gives the number of the first refusal and the place where reading stopped, or 0 and the place after what was read.
# A number outside the domain is not looked for: the oracle tells it before all others.

def past(form, text, at):
    return form.match(text, at).end()


def wanted(text, at, byte):
    if at == len(text):
        return 4, at
    return (0, at + 1) if text[at:at + 1] == byte else (7, at)


def number(text, at, listed, percent):
    """A number of a colour with its spaces and comma; also whether a `%` was taken."""
    if listed and at == len(text):
        return 4, at, False
    at = past(SPACES, text, at)
    found = NUMBER.match(text, at)
    if not found:
        return 9, at, False
    at = found.end()
    mark = percent and text[at:at + 1] == b"%"
    at = past(SPACES, text, at + mark)
    return 0, at + (text[at:at + 1] == b","), mark


def brackets(text, at, hue):
    """What follows `rgb` or `hsl`."""
    refused, at = wanted(text, at, b"(")
    marked = False
    for i in range(3):
        if not refused:
            refused, at, mark = number(text, at, hue or i > 0, i > 0 if hue else marked or i == 0)
            marked = marked or mark
    if refused:
        return refused, at
    at = past(SPACES, text, at)
    if text[at:at + 1] != b")":
        refused, at, _ = number(text, at, True, False)
        if refused:
            return refused, at
    return wanted(text, past(SPACES, text, at), b")")


def colour(text):
    """A colour as a whole text."""
    at = past(SPACES, text, 0)
    if at == len(text):
        return 4, at
    if text[at:at + 1] == b"#":
        end = past(DIGITS, text, at + 1)
        refused = 0 if end - at - 1 in (3, 4, 6, 8) else 5
    else:
        end = past(WORD, text, at)
        word = text[at:end].lower()
        if word in (b"rgb", b"rgba", b"hsl", b"hsla"):
            refused, end = brackets(text, end, word.startswith(b"hsl"))
        else:
            refused = 0 if word in NAMES else 5
    if refused:
        return refused, end
    end = past(SPACES, text, end)
    return (0 if end == len(text) else 6), end


def link(text):
    """`url(#link)`, and nothing of what follows."""
    at = past(SPACES, text, 0)
    if not text.startswith(b"url(", at):
        return 4 if at == len(text) else 8, at
    at = past(SPACES, text, at + 4)
    quote = text[at:at + 1] if text[at:at + 1] in (b"'", b'"') else b""
    if quote:
        at = past(SPACES, text, at + 1)
    refused, at = wanted(text, at, b"#")
    if refused:
        return refused, at
    end = past(re.compile(b"[^" + (quote or b" )") + b"]*"), text, at)
    inside = text[at:end].decode()
    if quote:
        inside = inside.rstrip(WHITE)
    if not inside or "'" in inside or '"' in inside:
        return 5, end
    at = past(SPACES, text, end)
    if quote:
        refused, at = wanted(text, at, quote)
        if refused:
            return refused, at
    return wanted(text, past(SPACES, text, at), b")")


def iri(text):
    refused, at = wanted(text, past(SPACES, text, 0), b"#")
    if refused:
        return refused, at
    end = past(re.compile(b"[^ ]*"), text, at)
    if end == at:
        return 5, at
    end = past(SPACES, text, end)
    return (0 if end == len(text) else 6), end


def funciri(text):
    refused, at = link(text)
    if refused:
        return refused, at
    at = past(SPACES, text, at)
    return (0 if at == len(text) else 6), at


READERS = {"color": colour, "iri": iri, "funciri": funciri, "fallback": colour}


def judged(case, fields):
    """The call, the text at hand and the list place. A paint's text at hand is the trimmed one, or, as call `fallback`, what follows its link."""
    call, *rest = case.split(" ")
    text = bytes.fromhex(rest[1 if call in ("lengths", "filter") or "parent" in fields else 0].replace("-", ""))
    place = int(rest[0]) if call in ("lengths", "filter") else 0
    if call not in ("paint", "inherit") or fields[0] in ("1", "2"):
        return call, text, place
    text = text.decode().strip(WHITE).encode()
    if text.startswith(b"url("):
        refused, at = link(text)
        if not refused:
            return "fallback", text[past(SPACES, text, at):], 0
    return "paint", text, 0


def stopped(call, text, place):
    """Where a reading refused by 5 stopped."""
    if call == "filter":
        return past(NONE, text, place)
    if call == "paint":
        return (link if text.startswith(b"url(") else colour)(text)[1]
    return READERS[call](text)[1]


def ends(case, fields):
    """Where the refused piece starts and where it ends."""
    refused, position, place = map(int, fields[:3])
    if refused in (0, 1, 3):
        return 0, 0
    if refused == 2:
        return place, place
    call, text, place = judged(case, fields)
    at = len(text) if refused == 4 else stopped(call, text, place) if refused == 5 else len(text.decode()[:position - 1].encode())
    if call in READERS and refused not in (10, 23, 24) and READERS[call](text) != (9 if refused == 22 else refused, at):
        raise ValueError(f"{case}: read as {READERS[call](text)}, not {refused} at {at}")
    if call == "paint" and not (refused in (10, 23, 24) or refused == 5 and (link if text.startswith(b"url(") else colour)(text)[0]):
        raise ValueError(f"{case}: no refusal to swallow")
    if refused == 7 and text[at] != int(fields[3]) or refused == 8 and not text.startswith(bytes.fromhex(fields[5]), at):
        raise ValueError(f"{case}: not what was found at {at}")
    if refused in (9, 22) and re.compile(rb"[0-9+. \t\n\r-]").match(text, at):
        raise ValueError(f"{case}: spaces or a number at {at}")
    if refused in (4, 5, 9, 22):
        return at, at
    if refused == 6:
        return at, len(text)
    if refused == 7:
        return at, at + 1
    if refused == 8:
        return at, at + len(bytes.fromhex(fields[5]))
    if refused in (10, 23, 24):
        return at, past(BEGINNING, text, at)
    name = past(SPACES, text, place)
    plain = WORD.match(text, name).group() not in (b"blur", b"drop-shadow")
    if refused in (11, 12):
        return name, past(PERCENT if plain else LENGTH, text, at)
    if refused == 13:
        return name, past(NUMBER, text, at)
    if refused == 14:
        return name, at
    if refused == 15:
        return name, past(EMPTY_URL, text, name)
    raise ValueError(f"{case}: no such refusal: {refused}")


def stretch(case, answer):
    fields = split(case, answer).split(" ")
    if fields != ["?"]:
        fields[6:6] = map(str, ends(case, fields))
    return " ".join(fields)


def hand(path):
    wrong = 0
    with open(path) as f:
        for (call, text, *told), answer in zip(HAND, f):
            fields = answer.split(" ")
            if fields[:2] + fields[6:8] != [str(n) for n in told]:
                wrong += 1
                print(f"{call} {text!r}: {told} is right, not {answer.strip()}")
    print(f"{len(HAND)} by hand, {wrong} different")
    return 1 if wrong else 0


def byte_kind(text, at):
    c = text[at:at + 1] if at >= 0 else b""
    return "end" if not c else "a" if c.isalpha() else " " if c.isspace() else c if c in b"#'\".()" else "1" if c in b"0123456789+-" else "x"


def kinds(case, fields):
    """What tells answers apart: a group, none for a long text, and a kind, first coarsely (the call, the text at hand, whose it is, the number), then by bytes about the stretch and the filter's name."""
    call, text, place = judged(case, fields)
    refused, begin, end = int(fields[0]), int(fields[6]), int(fields[7])
    coarse = (case.split(" ")[0], call, refused, *(w for w in fields if w in ("own", "parent", "higher")))
    if len(text) > 200:
        return None, [("long", refused)]
    about = {5: [begin - 1, begin], 6: [begin], 7: [begin], 9: [begin], 10: [end - 1, end], 11: [end], 12: [end - 1, end], 13: [end]}.get(refused, [])
    name = WORD.match(text, past(SPACES, text, place)).group() if refused in (0, 10, 11, 12, 23, 24) and call == "filter" else b""
    return coarse, [(fields[4], *(byte_kind(text, at) for at in about), name, begin > 0)]


if __name__ == "__main__":
    statement.run(__doc__, {"cases": (3, statement.cases(cases)), "stretch": (2, functools.partial(statement.answers, stretch)), "hand": (1, hand), "sample": (6, functools.partial(statement.sample, len(HAND), kinds))})
