#!/usr/bin/env python3
"""Which number trouble (document 02, P8), said once more and apart from the program.

p8.py cases MOST COUNT SEED     writes cases: the order's smallest inputs, then every sequence of up to MOST words in each place where
                                a number may stand, then COUNT damaged copies of such texts
p8.py split CASES ORACLE        writes what `lines` is to answer: the oracle's answers, 9 and 10 split by the text at their position
p8.py hand ANSWERS              holds the first answers to those written below by hand"""
import functools
import itertools
import random
import re

import statement

WHITE = "".join(chr(c) for c in [9, 10, 11, 12, 13, 0x20, 0x85, 0xA0, 0x1680, *range(0x2000, 0x200B), 0x2028, 0x2029, 0x202F, 0x205F, 0x3000])
BIG = "9007199254740992"

# The smallest inputs, with number and position by hand.
HAND = [
    ("length", "x", 9, 1), ("length", "", 22, 1), ("length", " ", 22, 2), ("length", " x", 9, 2), ("lengths 0", " ", 22, 2), ("lengths 0", "", 0, 0), ("lengths 2", "1 ", 0, 0),
    ("lengths 1", "1 ", 22, 3), ("lengths 0", ",", 9, 1), ("length", "-", 10, 1), ("length", "1e", 10, 1), ("length", "1.", 10, 1), ("length", ".", 10, 1), ("length", "1eM", 10, 1),
    ("length", BIG, 23, 1), ("length", "9007199254740991", 0, 0), ("length", "1e23", 24, 1), ("length", "1e22", 0, 0), ("length", "1e-23", 24, 1), ("length", "0e23", 24, 1),
    ("length", "0." + "0" * 23, 24, 1), ("length", BIG + ".", 10, 1), ("length", BIG + "e", 10, 1), ("length", BIG + "e23", 23, 1), ("length", BIG + "px", 23, 1), ("length", "1e23px", 24, 1),
    ("length", "00" + BIG, 23, 1), ("length", "0" * 20 + "1", 0, 0), ("length", "1e" + "9" * 30, 24, 1), ("angle", "", 22, 1), ("angle", "x", 9, 1), ("angle", BIG, 23, 1), ("angle", "1e23deg", 24, 1),
    ("angle", "1.deg", 10, 1), ("color", "rgb(", 22, 5), ("color", "rgb( ", 22, 6), ("color", "rgb(x", 9, 5), ("color", "rgb(1,", 4, 0), ("color", "rgb(1, ", 22, 8), ("color", "rgb(1,x", 9, 7), ("color", "hsl(", 4, 0),
    ("color", "hsl( ", 22, 6), ("color", "rgb(1,2,3,", 4, 0), ("color", "rgb(1,2,3, ", 4, 0), ("color", "rgb(1e23,0,0)", 24, 5), ("color", f"rgb({BIG},0,0)", 23, 5), ("color", "rgb(0,0,0,1.)", 10, 11),
    ("paint", "rgb(", 5, 0), ("paint", "rgb(x", 5, 0), ("paint", f"rgb({BIG},0,0)", 23, 5), ("paint", "rgb(1e23,0,0)", 24, 5), ("paint", "rgb(1.,0,0)", 10, 5), ("paint", "url(#a) rgb(", 22, 5),
    ("paint", "url(#a) rgb(x", 9, 5), ("paint", f"  url(#é) rgb({BIG}", 23, 5), ("paint", "url(#a) rgb(0e23", 24, 5), ("paint", " rgb(0e23", 24, 5),
    ("filter 0", "blur(", 22, 6), ("filter 0", "blur( ", 22, 7), ("filter 0", "blur(x", 9, 6), ("filter 0", "blur(1e23)", 24, 6), ("filter 0", f"blur({BIG})", 23, 6), ("filter 0", "sepia(", 22, 7),
    ("filter 0", "hue-rotate(", 22, 12), ("filter 0", "drop-shadow(1 2 1e23)", 24, 17), ("filter 0", f"drop-shadow(rgb({BIG},0,0) 1 2)", 23, 17), ("filter 0", "drop-shadow(1 2 ", 4, 0),
    ("filter 9", "url(#é) blur(0e23)", 24, 14),
]

WORDS = ["1", ".", "-", "e", "m", " ", "%", ",", "x", "e23", BIG]
FRAMES = [
    ("length", "", ""), ("lengths 0", "", ""), ("lengths 2", "1 ", ""), ("lengths 1", "1", ",2"), ("angle", "", ""), ("angle", " ", "deg"),
    ("color", "rgb(", ",0,0)"), ("color", "rgb(", ""), ("color", "rgb(0,", ",0)"), ("color", "rgb(0,", ""), ("color", "rgb(1%,", ",0)"), ("color", "rgb(0,0,0,", ")"),
    ("color", "hsl(", ",0,0)"), ("color", "hsl(0,", ""), ("color", "hsl(0,0,", ")"), ("paint", "rgb(", ",0,0)"), ("paint", " rgb(0,", ""), ("paint", "url(#a) rgb(", ""), ("paint", "url('#é') rgb(0,", ",0)"),
    ("filter 0", "blur(", ")"), ("filter 0", "sepia(", ""), ("filter 9", "url(#é) hue-rotate(", ")"), ("filter 0", "drop-shadow(", " 1 2)"), ("filter 0", "drop-shadow(1 2 ", ")"),
    ("filter 0", "drop-shadow(1 2 3 ", ""), ("filter 0", "drop-shadow(rgb(", ",0,0) 1 2)"), ("filter 0", "drop-shadow(1 2 3 rgb(", ")"), ("inherit", "rgb(", ""), ("inherit", "url(#a) rgb(", ")"),
    ("parent", "rgb(", ",0,0)"), ("parent", "url(#a) rgb(", ""),
]


def field(text):
    return text.hex() if text else "-"


def line(call, text):
    data = text.encode() if isinstance(text, str) else text
    if call == "inherit":
        return f"inherit {field(data)} {field(b'red')}"
    if call == "parent":
        return f"inherit {field(b'inherit')} {field(data)}"
    return f"{call} {field(data)}"


def damaged(r):
    call, before, after = r.choice(FRAMES)
    text = bytearray((before + "".join(r.choice(WORDS) for _ in range(r.randint(0, 5))) + after).encode())
    for _ in range(r.randint(0, 2)):
        i = r.randint(0, len(text))
        if r.random() < 0.5:
            text[i:i + 1] = r.choice([b"", b" ", b"0", b"9", b"e", b".", b"-", b"(", b")", b",", "é".encode()])
        else:
            text[i:i] = r.choice([b" ", b"1", b"e2", b"\t", b"%", b"+"])
    return line(call, bytes(text))


def cases(most, count, seed):
    for call, text, _, _ in HAND:
        yield line(call, text)
    for n in range(most + 1):
        for seq in itertools.product(WORDS, repeat=n):
            for call, before, after in FRAMES:
                yield line(call, before + "".join(seq) + after)
    r = random.Random(seed)
    for _ in range(count):
        yield damaged(r)


SPACES = "[ \t\n\r]*"
LINK = re.compile(f"url\\({SPACES}(?:'{SPACES}#[^']*'|\"{SPACES}#[^\"]*\"|#[^ )]*){SPACES}\\){SPACES}", re.S)


def at_hand(call, text):
    """The text in which a refusal's position counts: of a paint the trimmed one, or its fallback."""
    if call not in ("paint", "inherit"):
        return text
    text = text.strip(WHITE)
    link = LINK.match(text)
    return text[link.end():] if link else text


def trouble(text):
    """A number that starts and is outside the domain: wrong form before M before scale."""
    whole, dot, fraction = re.match(r"[+-]?([0-9]*)(\.?)([0-9]*)", text).groups()
    if not (fraction if dot else whole):
        return 10
    rest = text[re.match(r"[+-]?[0-9]*\.?[0-9]*", text).end():]
    exponent = 0
    if rest[:1] in ("e", "E") and rest[:2][1:] not in ("m", "x"):
        written = re.match(r"[+-]?[0-9]*", rest[1:]).group()
        if not written.lstrip("+-"):
            return 10
        exponent = int(written)
    if int(whole + fraction) >= 2 ** 53:
        return 23
    if not -22 <= exponent - len(fraction) <= 22:
        return 24
    raise ValueError(f"a number of the domain: {text}")


def split(case, answer):
    fields = answer.split(" ")
    if fields[0] not in ("9", "10"):
        return answer
    call, *texts = case.split(" ")
    text = texts[1 if "parent" in fields else 0] if call == "inherit" else texts[-1]
    text = at_hand(call, bytes.fromhex(text.replace("-", "")).decode())
    at = int(fields[1]) - 1
    if fields[0] == "9":
        fields[0] = "22" if at == len(text) else "9"
    else:
        fields[0] = str(trouble(text[at:]))
    return " ".join(fields)


def hand(path):
    wrong = 0
    with open(path) as f:
        for (call, text, number, position), answer in zip(HAND, f):
            if answer.split(" ")[:2] != [str(number), str(position)]:
                wrong += 1
                print(f"{call} {text!r}: {number} {position} is right, not {answer.strip()}")
    print(f"{len(HAND)} by hand, {wrong} different")
    return 1 if wrong else 0


if __name__ == "__main__":
    statement.run(__doc__, {"cases": (3, statement.cases(cases)), "split": (2, functools.partial(statement.answers, split)), "hand": (1, hand)})
