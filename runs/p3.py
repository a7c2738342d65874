#!/usr/bin/env python3
"""Whether a number was whole, and where it ended (document 02, P3), said once more and apart from the program.

p3.py cases MOST COUNT SEED     writes cases: the order's smallest inputs, then every sequence of up to MOST telling words in frames for lengths, lists
                                and angles, short lists from every place, numbers of every form with every unit, texts about the limit, then COUNT
                                damaged copies of such texts
p3.py written CASES ANSWERS     writes what `lines` is to answer: the answers of `p2.py stretch`, PLAIN and ENDED put at the end of those to
                                length, lengths and angle; all others stay
p3.py hand ANSWERS              holds the first answers to those written below by hand
p3.py sample CASES ANSWERS COUNT SEED CASES-OUT ANSWERS-OUT
                                picks COUNT cases: those by hand, the shortest of every kind of answer, then at random as many of each call and kind

PLAIN and ENDED are read off the text, by document 01's form of a number. The oracle tells which texts are accepted; its value, its unit and its list
place are held to the piece that was read off."""
import functools
import itertools
import random
import re
import struct

import statement
from p2 import ILL, LAST, LIMIT, raw
from p8 import BIG, line

# The smallest inputs, with the refusal's number, PLAIN and ENDED by hand.
HAND = [
    # The order's.
    ("length", "12", 0, 1, 2), ("length", "+12", 0, 1, 3), ("length", "-0", 0, 1, 2), ("length", "007", 0, 1, 3), ("length", "1em", 0, 1, 1), ("length", "12.0", 0, 0, 4), ("length", "1e0", 0, 0, 3),
    ("length", ".5", 0, 0, 2), ("length", "12px", 0, 1, 2), ("length", "12%", 0, 1, 2), ("length", "1e0px", 0, 0, 3),
    # An `e` or `E` before `m` or `x` is no exponent, any other is.
    ("length", "1ex", 0, 1, 1), ("length", "1E0", 0, 0, 3), ("length", "1e0em", 0, 0, 3), ("length", "1E0ex", 0, 0, 3), ("length", "1.5em", 0, 0, 3), ("length", "1e+0", 0, 0, 4), ("length", "1E-0mm", 0, 0, 4),
    ("length", "1e007", 0, 0, 5), ("length", "1e22", 0, 0, 4), ("length", "1e-22%", 0, 0, 5), ("length", "1Em", 6, 0, 0), ("length", "1Ex", 6, 0, 0), ("length", "1eM", 10, 0, 0), ("length", "1EX", 10, 0, 0),
    ("length", "1e", 10, 0, 0), ("length", "1e+m", 10, 0, 0), ("length", "1e0x", 6, 0, 0), ("length", "1e0e0", 6, 0, 0),
    # Dots, signs, units.
    ("length", "0", 0, 1, 1), ("length", "+0", 0, 1, 2), ("length", "0.0", 0, 0, 3), ("length", "-0.0", 0, 0, 4), ("length", "-.5", 0, 0, 3), ("length", "+.5e1", 0, 0, 5), ("length", "1.5e1", 0, 0, 5),
    ("length", ".5%", 0, 0, 2), ("length", "-12.50%", 0, 0, 6), ("length", "12.0px", 0, 0, 4), ("length", "-7in", 0, 1, 2), ("length", "+7cm", 0, 1, 2), ("length", "7mm", 0, 1, 1), ("length", "70pt", 0, 1, 2),
    ("length", "0pc", 0, 1, 1), ("length", "1.", 10, 0, 0), ("length", "1.px", 10, 0, 0), ("length", "12..", 10, 0, 0), ("length", ".", 10, 0, 0), ("length", "-", 10, 0, 0), ("length", "1.5.5", 6, 0, 0),
    # Spaces before the number count, none may follow.
    ("length", " 12", 0, 1, 3), ("length", "  12px", 0, 1, 4), ("length", "\t\n\r 12.0%", 0, 0, 8), ("length", " -0em", 0, 1, 3), ("length", "\r.5", 0, 0, 3), ("length", "12 ", 6, 0, 0), ("length", "12px ", 6, 0, 0),
    ("length", "12 px", 6, 0, 0), ("length", "12.0 ", 6, 0, 0), ("length", "1e0 ", 6, 0, 0),
    # Refused, by each number.
    ("length", "1" * 4097, 1, 0, 0), ("length", " " * 4096 + "1", 1, 0, 0), ("length", b"12\xff", 2, 0, 0), ("length", "12PX", 6, 0, 0), ("length", "12%%", 6, 0, 0), ("length", "12emm", 6, 0, 0),
    ("length", "12é", 6, 0, 0), ("length", "x", 9, 0, 0), ("length", "é12", 9, 0, 0), ("length", "\u00a012", 9, 0, 0), ("length", "", 22, 0, 0), ("length", " ", 22, 0, 0), ("length", BIG, 23, 0, 0),
    ("length", BIG + "px", 23, 0, 0), ("length", "1e23", 24, 0, 0), ("length", "0." + "0" * 23, 24, 0, 0),
    # The largest.
    ("length", "9007199254740991", 0, 1, 16), ("length", "9007199254740991px", 0, 1, 16), ("length", "90071992547409.91", 0, 0, 17), ("length", "0" * 4096, 0, 1, 4096), ("length", "0" * 4094 + "px", 0, 1, 4094),
    ("length", " " * 4095 + "1", 0, 1, 4096), ("length", "0" * 4094 + ".5", 0, 0, 4096), ("length", "0" * 4093 + "e0%", 0, 0, 4095), ("length", "1e" + "0" * 4094, 0, 0, 4096),
    # Angles.
    ("angle", "12", 0, 1, 2), ("angle", "+12", 0, 1, 3), ("angle", "-0", 0, 1, 2), ("angle", "007", 0, 1, 3), ("angle", "12deg", 0, 1, 2), ("angle", "+12grad", 0, 1, 3), ("angle", "007rad", 0, 1, 3),
    ("angle", "-0turn", 0, 1, 2), ("angle", "12.0", 0, 0, 4), ("angle", "1e0", 0, 0, 3), ("angle", ".5", 0, 0, 2), ("angle", "12.0deg", 0, 0, 4), ("angle", "-1.5grad", 0, 0, 4), ("angle", "1e0rad", 0, 0, 3),
    ("angle", "1E0turn", 0, 0, 3), ("angle", ".5turn", 0, 0, 2), ("angle", "1.5e-1deg", 0, 0, 6), ("angle", " 12deg", 0, 1, 3), ("angle", "\t.5grad", 0, 0, 3), ("angle", " \r\n\t1e0", 0, 0, 7),
    ("angle", "0" * 4093 + "deg", 0, 1, 4093), ("angle", "0" * 4096, 0, 1, 4096), ("angle", " " * 4091 + "1turn", 0, 1, 4092), ("angle", "0" * 4097, 1, 0, 0), ("angle", b"1deg\x80", 2, 0, 0), ("angle", "1em", 6, 0, 0),
    ("angle", "1ex", 6, 0, 0), ("angle", "12%", 6, 0, 0), ("angle", "12DEG", 6, 0, 0), ("angle", "12deg ", 6, 0, 0), ("angle", "1e0 deg", 6, 0, 0), ("angle", "deg", 9, 0, 0), ("angle", "1edeg", 10, 0, 0),
    ("angle", "1.deg", 10, 0, 0), ("angle", "", 22, 0, 0), ("angle", " ", 22, 0, 0), ("angle", BIG + "rad", 23, 0, 0), ("angle", "1e23deg", 24, 0, 0),
    # A list's first: what follows it is not looked at.
    ("lengths 0", "12", 0, 1, 2), ("lengths 0", "+12", 0, 1, 3), ("lengths 0", "-0", 0, 1, 2), ("lengths 0", "007", 0, 1, 3), ("lengths 0", "1em", 0, 1, 1), ("lengths 0", "12.0", 0, 0, 4), ("lengths 0", "1e0", 0, 0, 3),
    ("lengths 0", ".5", 0, 0, 2), ("lengths 0", "12px", 0, 1, 2), ("lengths 0", "12%", 0, 1, 2), ("lengths 0", "1e0px", 0, 0, 3), ("lengths 0", " 12% ,.5", 0, 1, 3), ("lengths 0", "12 .5", 0, 1, 2),
    ("lengths 0", "12.0 13", 0, 0, 4), ("lengths 0", "1em 2e0", 0, 1, 1), ("lengths 0", "12-.5", 0, 1, 2), ("lengths 0", "1.5.5", 0, 0, 3), ("lengths 0", "1e0e0", 0, 0, 3), ("lengths 0", "12 %", 0, 1, 2),
    ("lengths 0", "12 em", 0, 1, 2), ("lengths 0", "1Em", 0, 1, 1), ("lengths 0", "1Ex", 0, 1, 1), ("lengths 0", "12PX", 0, 1, 2), ("lengths 0", "12pxem", 0, 1, 2), ("lengths 0", "12 1e23", 0, 1, 2),
    ("lengths 0", "12é", 0, 1, 2), ("lengths 0", "1.5\u00a0", 0, 0, 3), ("lengths 0", "12,", 0, 1, 2), ("lengths 0", "12 , ", 0, 1, 2),
    # From a place: what lies before it is not looked at, ENDED counts from the text's first byte.
    ("lengths 3", "12 13", 0, 1, 5), ("lengths 2", "12 13", 0, 1, 5), ("lengths 1", "12 13", 0, 1, 2), ("lengths 5", "12px,13.0em", 0, 0, 9), ("lengths 5", "12.0 13", 0, 1, 7), ("lengths 4", "1e0 12%", 0, 1, 6),
    ("lengths 4", "1e0 1e0%", 0, 0, 7), ("lengths 1", "1.5", 0, 0, 3), ("lengths 2", "1.5", 0, 1, 3), ("lengths 2", "1e0", 0, 1, 3), ("lengths 1", "-.5", 0, 0, 3), ("lengths 1", "-12", 0, 1, 3), ("lengths 3", "1.5.5", 0, 0, 5),
    ("lengths 2", "12-.5", 0, 0, 5), ("lengths 2", "1,2", 0, 1, 3), ("lengths 2", "1,\t\n2em,3.5", 0, 1, 5), ("lengths 6", "1 2 3 4pt", 0, 1, 7), ("lengths 4095", " " * 4095 + "1", 0, 1, 4096),
    # Behind wide characters.
    ("lengths 2", "é12", 0, 1, 4), ("lengths 3", "é 12px", 0, 1, 5), ("lengths 2", "é 12.0%", 0, 0, 7), ("lengths 4", "😀1e0px", 0, 0, 7), ("lengths 4", "😀1em", 0, 1, 5), ("lengths 3", "€ .5 7", 0, 0, 6),
    ("lengths 7", "€😀 +7ex", 0, 1, 10), ("lengths 2", "\u00a0-0", 0, 1, 4), ("lengths 4", "1 é5é", 0, 1, 5),
    # Ended and refused lists.
    ("lengths 0", "", 0, 0, 0), ("lengths 2", "12", 0, 0, 0), ("lengths 5", "12 13", 0, 0, 0), ("lengths 2", "1 ", 0, 0, 0), ("lengths 3", "1.5", 0, 0, 0), ("lengths 2", "é", 0, 0, 0), ("lengths 4096", " " * 4096, 0, 0, 0),
    ("lengths 0", "1" * 4097, 1, 0, 0), ("lengths 0", b"12 \xff", 2, 0, 0), ("lengths 9", b"\xc3", 2, 0, 0), ("lengths 1", "", 3, 0, 0), ("lengths 6", "12 13", 3, 0, 0), (f"lengths {LAST}", "12", 3, 0, 0), ("lengths 1", "é12", 3, 0, 0),
    ("lengths 3", "😀12", 3, 0, 0), ("lengths 0", "é12", 9, 0, 0), ("lengths 1", "1,2", 9, 0, 0), ("lengths 1", "1e0", 9, 0, 0), ("lengths 3", "1e0e0", 9, 0, 0), ("lengths 2", "12px", 9, 0, 0), ("lengths 2", "12%", 9, 0, 0),
    ("lengths 0", "12e", 10, 0, 0), ("lengths 2", "1 1.", 10, 0, 0), ("lengths 2", "é1e-", 10, 0, 0), ("lengths 0", " ", 22, 0, 0), ("lengths 1", "1 ", 22, 0, 0), ("lengths 2", "é ", 22, 0, 0), ("lengths 0", BIG + " 1", 23, 0, 0),
    ("lengths 3", "é " + BIG + "ex", 23, 0, 0), ("lengths 3", "12 1e23", 24, 0, 0),
]

# Calls that stay as they were, with the whole answer by hand.
SAME = [
    ("color", "rgb(12,12.0,1e0)", "0 0 0 0 0 - 0 0 12 12 1 255"), ("color", "rgba(0%,100.0%,1,1)", "0 0 0 0 0 - 0 0 0 255 255 255"), ("color", "rgb(1.", "10 5 0 0 0 - 4 6 0 0 0 0"),
    ("paint", " rgb(1,2.0,3e0)", "0 0 0 0 0 - 0 0 color 0 0 - 1 2 3 255"), ("paint", "12.0", "5 0 0 0 0 - 2 2 - 0 0 - 0 0 0 0"), ("inherit", "red", "0 0 0 0 0 - 0 0 own 0 3 726564"),
    ("parent", " red", "0 0 0 0 0 - 0 0 parent 1 3 726564"), ("iri", "#12", "0 0 0 0 0 - 0 0 1 2 3132"), ("funciri", "url(#12.0)", "0 0 0 0 0 - 0 0 5 4 31322e30"),
    ("filter 0", "blur(12px)", "0 0 0 0 0 - 0 0 value 10 blur 4028000000000000 px"), ("filter 0", "blur(12.0)", "0 0 0 0 0 - 0 0 value 10 blur 4028000000000000 none"),
    ("filter 0", "hue-rotate(1e0deg)", "0 0 0 0 0 - 0 0 value 18 hue-rotate 3ff0000000000000 deg"), ("filter 0", "sepia(50%)", "0 0 0 0 0 - 0 0 value 10 sepia 3fe0000000000000"),
    ("filter 0", "drop-shadow(1 2.0em 3e0)", "0 0 0 0 0 - 0 0 value 24 drop-shadow 3ff0000000000000 none 4000000000000000 em 4008000000000000 none -"),
    ("filter 0", "blur(12.0%)", "11 6 0 0 0 - 0 10 refused 11"), ("filter 0", " ", "0 0 0 0 0 - 0 0 end 1"),
]

# Telling words, and the frames in which they stand: call, what is before them, what is after them.
NUMBERS = ["0", "12", ".", "-", "+", "e", "E", "m", "x", "px", "%", " "]
MEASURES = ["7", "1.5", "-.5", "2e0", "em", "ex", "px", "in", "cm", "mm", "pt", "pc", "%", " "]
TURNS = ["0", "12", ".", "-", "e", "E", "x", "deg", "grad", "rad", "turn", " "]
LISTS = ["1", "2.5", "3e0", ".", "-", "em", "%", " ", ",", "é", "😀", b"\xc3"]
OTHERS = ["0", "12", ".5", "1e0", "%", "px", "deg", " "]
FRAMES = [(NUMBERS, *frame) for frame in [
    ("length", "", ""), ("length", "\t", "em"), ("length", "1.5", ""), ("length", " -7e", ""), ("length", "", "e0pt"), ("lengths 0", "", ""), ("lengths 0", " ", ",1.5"), ("lengths 3", "12 ", " .5"),
    ("lengths 4", "1.5,", "em"), ("lengths 2", "é", ""), ("lengths 5", "😀 ", "%,2"), ("lengths 1", "1", "1 2"), ("lengths 2", "1e", ""),
]] + [(MEASURES, *frame) for frame in [("length", "", ""), ("lengths 0", "", ""), ("lengths 3", "€", " 1"), ("lengths 2", "5 ", "")]] + [(TURNS, *frame) for frame in [
    ("angle", "", ""), ("angle", " +", "deg"), ("angle", "1.5", ""), ("angle", "-7e", ""), ("angle", "\n\r", "rad"),
]] + [(OTHERS, *frame) for frame in [
    ("color", "rgb(", ",0,0)"), ("color", "hsl(0,", ",1)"), ("paint", "rgb(", ",0,0)"), ("paint", "url(#a) rgb(", ""), ("parent", "rgb(0,", ",0)"), ("filter 0", "blur(", ")"), ("filter 6", "blur()hue-rotate(", ")"),
    ("filter 0", "sepia(", ")"), ("filter 0", "drop-shadow(1 ", " 2)"), ("iri", "#", ""), ("funciri", "url(#", ")"),
]]
# The parts of which a number is made, what follows it, and the frames of such texts.
PARTS = [
    ["", " ", "\t\n", "\r  "], ["", "+", "-"], ["0", "12", "007", "9007199254740991", BIG, "12.0", "0.25", "00.5", "12.", ".5", ".000", "."],
    ["", "e0", "E0", "e+1", "E-2", "e007", "e22", "E23", "e", "E-"],
]
UNITS = ["", "%", "em", "ex", "px", "in", "cm", "mm", "pt", "pc", "Em", "x", " "]
ANGLES = ["", "deg", "grad", "rad", "turn", "DEG", "em", " "]
PLACES = [("length", "", ""), ("lengths 0", "", ""), ("lengths 2", "5,", "é"), ("lengths 3", ".5 ", ".5"), ("lengths 5", "1e0é", ",7em")]
PUT = [b" ", b"\t", b"\n", b"0", b"9", b"12", b"e", b"E", b"e0", b".", b".5", b"-", b"+", b"%", b",", b"m", b"x", b"em", b"px", b"deg", b"\xc2\xa0", b"\xc3\xa9", b"\xe2\x82\xac", b"\xf0\x9f\x98\x80"]


def forms():
    for parts in itertools.product(*PARTS):
        for unit, (call, before, after) in itertools.product(UNITS, PLACES):
            yield line(call, before + "".join(parts) + unit + after)
        for unit in ANGLES:
            yield line("angle", "".join(parts) + unit)


def limits():
    for call in ["length", "lengths 0", "lengths 9", f"lengths {LIMIT - 3}", f"lengths {LIMIT}", "angle"]:
        for n in [LIMIT - 1, LIMIT, LIMIT + 1]:
            for fill, after in itertools.product(" 0", ["1", ".5", "7em", "1.5%", "1e0px", "1deg", ".5turn", "1e0", "1em", "0 ", "1."]):
                yield line(call, fill * (n - len(after)) + after)


def made(r, units):
    mantissa = str(r.randint(0, 2 ** r.randint(1, 54))) if r.random() < 0.3 else r.choice(PARTS[2])
    return r.choice(PARTS[0]) + r.choice(PARTS[1]) + mantissa + r.choice(["", "", *PARTS[3]]) + r.choice(units)


def damaged(r):
    what = r.random()
    if what < 0.3:
        call, units = r.choice([("length", UNITS), ("angle", ANGLES)])
        text = made(r, units)
    elif what < 0.5:
        call, text = "lengths 0", r.choice(["", "", "é"]) + "".join(made(r, UNITS) + r.choice(["", " ", ",", " , ", "€"]) for _ in range(r.randint(1, 4)))
    elif what < 0.7:
        call, text = "lengths 0", b"".join(raw(r.choice(LISTS + MEASURES)) for _ in range(r.randint(1, 6)))
    else:
        words, call, before, after = r.choice(FRAMES)
        text = raw(before) + b"".join(raw(r.choice(words)) for _ in range(r.randint(1, 5))) + raw(after)
    text = bytearray(raw(text))
    statement.damage(r, text, PUT, r.choice([0, 0, 1, 1, 2, 3]), (0.3, 0.8, 0.9))
    if r.random() < 0.03:
        text[len(text) // 2:len(text) // 2] = r.choice(ILL)
    if call.startswith("lengths") and r.random() < 0.6:
        call = f"lengths {r.choice([r.randint(0, len(text)), r.randint(0, len(text)), r.randint(0, len(text)), len(text) + 1])}"
    return line(call, bytes(text))


def cases(most, count, seed):
    for call, text, *_ in HAND + SAME:
        yield line(call, text)
    for n in range(most + 1):
        for words, call, before, after in FRAMES:
            before, after = raw(before), raw(after)
            for seq in itertools.product([raw(w) for w in words], repeat=n):
                yield line(call, before + b"".join(seq) + after)
    for n in range(most):
        for seq in itertools.product([raw(w) for w in LISTS], repeat=n):
            text = b"".join(seq)
            for place in [*range(len(text) + 2), LAST]:
                yield line(f"lengths {place}", text)
    yield from forms()
    yield from limits()
    r = random.Random(seed)
    for _ in range(count):
        yield damaged(r)


SPACES = re.compile(rb"[ \t\n\r]*")
NUMBER = re.compile(rb"[+-]?(?:[0-9]+(\.[0-9]+)?|(\.[0-9]+))([eE](?![mx])[+-]?[0-9]+)?")
FIELDS = {"length": 10, "lengths": 12, "angle": 11}


def read(case):
    """The call, the text and the list place of a case that tells a number."""
    call, *place, text = case.split(" ")
    return call, bytes.fromhex(text.replace("-", "")), int(place[0]) if place else 0


def number(text, place):
    """The number that an accepted text has from a place on."""
    return NUMBER.match(text, SPACES.match(text, place).end())


def held(case, call, text, found, result):
    """Holds the oracle's result to the number that was read off."""
    if struct.pack(">d", float(found.group())).hex() != result[-3 if call == "angle" else -2]:
        raise ValueError(f"{case}: {found.group()} has another value")
    unit = result[-2 if call == "angle" else -1].replace("none", "").encode()
    end = found.end()
    if call != "angle" or unit != b"deg" or end < len(text):
        if not text.startswith(unit, end):
            raise ValueError(f"{case}: no unit {unit} at {end}")
        end += len(unit)
    if call == "lengths":
        end = SPACES.match(text, end).end()
        end += text[end:end + 1] == b","
    if end != (int(result[1]) if call == "lengths" else len(text)):
        raise ValueError(f"{case}: reading ends at {end}")


def written(case, answer):
    fields = answer.split(" ")
    if case.split(" ")[0] not in FIELDS or fields == ["?"]:
        return answer
    call, text, place = read(case)
    if len(fields) != FIELDS[call]:
        raise ValueError(f"{case}: not an answer of `p2.py stretch`: {answer}")
    if fields[0] != "0" or fields[8] == "end":
        return answer + " 0 0"
    found = number(text, place)
    held(case, call, text, found, fields[8:])
    return f"{answer} {0 if any(found.groups()) else 1} {found.end()}"


def hand(path):
    wrong, by_hand = 0, HAND + SAME
    with open(path) as f:
        for (call, text, *told), answer in zip(by_hand, itertools.islice(f, len(by_hand)), strict=True):
            fields = answer.strip().split(" ")
            if ([" ".join(fields)] if len(told) == 1 else fields[:1] + fields[FIELDS[call.split(" ")[0]]:]) != [str(t) for t in told]:
                wrong += 1
                print(f"{call} {text!r}: {told} is right, not {answer.strip()}")
    print(f"{len(by_hand)} by hand, {wrong} different")
    return 1 if wrong else 0


def kinds(case, fields):
    """What tells answers apart: coarsely (the call, the number, the list's state, the unit, PLAIN), then by the number's form and by what lies before it."""
    if case.split(" ")[0] not in FIELDS:
        return (case.split(" ")[0], fields[0]), []
    call, text, place = read(case)
    if len(text) > 200:
        return None, [(call, fields[0], fields[8] == "end", fields[-2])]
    before = (place > 0, not text[:place].isascii(), SPACES.match(text, place).end() > place) if place <= len(text) else ()
    if fields[0] != "0" or fields[8] == "end":
        return (call, fields[0], fields[8] == "end"), [before]
    found = number(text, place)
    unit = found.end() < len(text) and fields[9] if call == "angle" else fields[-3]
    dot, first, exponent = (g and g[:1] for g in found.groups())
    return (call, unit, fields[-2]), [(*before, dot, first, exponent), (found.group()[:1] in b"+-" and found.group()[:1],)]


if __name__ == "__main__":
    statement.run(__doc__, {"cases": (3, statement.cases(cases)), "written": (2, functools.partial(statement.answers, written)), "hand": (1, hand), "sample": (6, functools.partial(statement.sample, len(HAND + SAME), kinds))})
