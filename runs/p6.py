#!/usr/bin/env python3
"""An empty fill is inherited (document 02, P6), said once more and apart from the program.

p6.py cases MOST COUNT SEED     writes cases of the inherit rule: the order's smallest inputs, then every sequence of up to MOST telling words as the one
                                text beside some others, every pair of shorter sequences, texts about the limit, then COUNT damaged pairs
p6.py paints CASES              writes what the oracle is asked, which has document 01's rule alone: in the place of each `inherit` case its two texts as
                                `paint` cases; all others stay
p6.py inherited CASES ANSWERS   writes what is to be answered to CASES: the answers to those paints, or what `p8.py split`, `p2.py stretch` and
                                `p3.py written` made of them, put together by the rule; all others stay
p6.py hand ANSWERS              holds the first answers to those written below by hand
p6.py sample CASES ANSWERS COUNT SEED CASES-OUT ANSWERS-OUT
                                picks COUNT cases: those by hand, the shortest of every kind of answer, then at random as many of each kind

Whether a text is a paint, and why not, is the oracle's; that it is too long, no UTF-8, empty or `inherit` is worked out here, and held to the oracle."""
import functools
import itertools
import random

import statement
from p2 import ILL, LIMIT, raw
from p8 import field

WHITE = "".join(map(chr, [
    0x09, 0x0A, 0x0B, 0x0C, 0x0D, 0x20, 0x85, 0xA0, 0x1680, 0x2000, 0x2001, 0x2002, 0x2003, 0x2004, 0x2005, 0x2006, 0x2007, 0x2008, 0x2009, 0x200A,
    0x2028, 0x2029, 0x202F, 0x205F, 0x3000,
]))
WHITE_BYTES = [len(c.encode()) for c in WHITE]
# Near them, and none of them.
OTHERS = "\x00\x08\x0e\x1c\x1f\x84\x86\u009f\u00a1\u180e\u1fff\u200b\u200d\u2027\u202a\u2060\u3001\ufeff"

# Texts of every kind, each with its refusal's number and place and its part's start and length, if it tells any.
TEXTS = [
    ("", None), (" ", None), ("\u00a0", None), ("inherit", None), (" inherit\u3000", None), ("red", (0, 0, 0, 3)), ("\u2003url(#a) none\t", (0, 0, 3, 12)), ("Inherit", (5, 0, 0, 0)), (" x", (5, 0, 0, 0)),
    (" " * (LIMIT + 1), (1, 0, 0, 0)), (b"\xc2\xa0\xff", (2, 2, 0, 0)),
]
# What each pair of them is, by hand: a row for each as the own text, a column for each as the parent's.
# o or p: the own text tells, or the parent's, by its part or by its refusal; h: ask higher up.
PAIRS = [
    "hhhhhpppppp",
    "hhhhhpppppp",
    "hhhhhpppppp",
    "hhhhhpppppp",
    "hhhhhpppppp",
    "ooooooooooo",
    "ooooooooooo",
    "ooooooooooo",
    "ooooooooooo",
    "ooooooooooo",
    "ooooooooooo",
]

# Others, with number, place, whose, start and length.
HAND = [
    # The limit is of the lent text. A text of white space alone is long, too.
    (" " * LIMIT, "red", 0, 0, "parent", 0, 3), ("red", " " * LIMIT, 0, 0, "own", 0, 3), ("", " " * LIMIT, 0, 0, "higher", 0, 0), ("\u3000" * 1365, "none", 0, 0, "parent", 0, 4),
    ("\u3000" * 1366, "none", 1, 0, "own", 0, 0), ("", "#" * (LIMIT + 1), 1, 0, "parent", 0, 0), ("inherit" + " " * (LIMIT - 7), "\tred", 0, 0, "parent", 1, 3), ("inherit" + " " * (LIMIT - 6), "red", 1, 0, "own", 0, 0),
    (b"\xff" * (LIMIT + 1), "red", 1, 0, "own", 0, 0), ("inherit", b"\xff" * (LIMIT + 1), 1, 0, "parent", 0, 0),
    # A text that is no UTF-8 is not empty, and its place counts from its first byte.
    (b"\xff", "red", 2, 0, "own", 0, 0), (b" \xff", "red", 2, 1, "own", 0, 0), ("", b" \t\xe2\x80", 2, 2, "parent", 0, 0), (b"\xc2", "", 2, 0, "own", 0, 0), (b"inherit\x80", "red", 2, 7, "own", 0, 0),
    ("", b"inherit\xa0", 2, 7, "parent", 0, 0), ("red", b"\xff", 0, 0, "own", 0, 3), ("x", b"\xff", 5, 0, "own", 0, 0), (b"\xff", b" \xff", 2, 0, "own", 0, 0), (b"\xe3\x80", "none", 2, 0, "own", 0, 0),
    # `inherit` is the whole text, in small letters.
    ("INHERIT", "red", 5, 0, "own", 0, 0), ("inheriT", "red", 5, 0, "own", 0, 0), ("", "Inherit", 5, 0, "parent", 0, 0), ("inherit inherit", "red", 5, 0, "own", 0, 0), ("inherit;", "red", 5, 0, "own", 0, 0),
    ("inherit\u200b", "red", 5, 0, "own", 0, 0), ("url(#a) inherit", "red", 5, 0, "own", 0, 0), ("", "in herit", 5, 0, "parent", 0, 0), ("inherit", "url(#a) inherit", 5, 0, "parent", 0, 0), ("initial", "red", 5, 0, "own", 0, 0),
    # Every other paint is chosen, without what is trimmed.
    ("none", "", 0, 0, "own", 0, 4), (" currentColor ", "inherit", 0, 0, "own", 1, 12), ("\u2028context-fill\u2029", "x", 0, 0, "own", 3, 12), ("", "context-stroke\u0085", 0, 0, "parent", 0, 14),
    ("\n", " #12f\u00a0", 0, 0, "parent", 1, 4), ("\u00a0", "\u00a0rgb(1, 2, 3)\u1680", 0, 0, "parent", 2, 12), ("inherit", " url('#é') none ", 0, 0, "parent", 1, 15), ("transparent", "red", 0, 0, "own", 0, 11),
    # Refusals keep their own numbers.
    ("url(#a) red)", "red", 6, 0, "own", 0, 0), ("", "url(#a) red)", 6, 0, "parent", 0, 0), (" ", "url(#a) rgb(1,", 4, 0, "parent", 0, 0), ("url(#a) rgb[", "", 7, 0, "own", 0, 0), ("rgb(1.,0,0)", "red", 10, 0, "own", 0, 0),
    ("inherit", "\u00a0rgb(0,1.", 10, 0, "parent", 0, 0), ("", "rgb(", 5, 0, "parent", 0, 0), ("#12345", "red", 5, 0, "own", 0, 0),
    # Each of the 25 characters, alone and about `inherit`; what stands near them is a text that is no paint.
    *((c, "red", 0, 0, "parent", 0, 3) for c in WHITE), *(("inherit", c + c, 0, 0, "higher", 0, 0) for c in WHITE), *((f"{c}inherit{c}", f"{c}none", 0, 0, "parent", n, 4) for c, n in zip(WHITE, WHITE_BYTES)),
    *((c, "red", 5, 0, "own", 0, 0) for c in OTHERS), *(("", c, 5, 0, "parent", 0, 0) for c in OTHERS), *((f"inherit{c}", "red", 5, 0, "own", 0, 0) for c in OTHERS),
]

WORDS = ["inherit", "Inherit", " ", "\t", "\u00a0", "\u3000", "\u200b", "red", "none", "url(#a)", "rgb(1.", "x", ")", "é", b"\xff", b"\xc2"]
LONGER = [" ", "inherit", "rgb(", "1,2,3)", "9007199254740992", "0e23", "url('#é')", " rgb(1"]
PARENTS = ["red", " none", "", "\u00a0", "inherit", "x", b"\xff"]
OWNS = ["", "\u00a0", "inherit", " inherit", "red"]
PUT = [*(c.encode() for c in WHITE + OTHERS), b"i", b"I", b"inherit", b"red", b"none", b"url(#a)", b"#f00", b"(", b")", b"1", b".", b"'", *ILL]


def line(own, parent):
    return f"inherit {field(raw(own))} {field(raw(parent))}"


def by_hand():
    return [*itertools.product([text for text, _ in TEXTS], repeat=2), *((own, parent) for own, parent, *_ in HAND)]


def sequences(most):
    for n in range(most + 1):
        for seq in itertools.product(WORDS, repeat=n):
            yield b"".join(map(raw, seq))


def limits():
    for n in [LIMIT - 1, LIMIT, LIMIT + 1, LIMIT + 2]:
        for before, fill in [("", " "), ("", "x"), ("", "\u3000"), ("inherit", " "), ("red", "\u00a0"), (" url(#", "a"), ("url(#a) ", "(")]:
            text = (before + fill * n).encode()[:n]
            yield line(text, "red")
            yield line("", text)
            yield line("none", text)
        yield line("\t" * (n - 7) + "inherit", "\n" * (n - 3) + "red")


def damaged(r):
    text = bytearray(b"".join(raw(r.choice(WORDS[:12] + LONGER)) for _ in range(r.randint(0, 3))))
    statement.damage(r, text, PUT, r.choice([0, 0, 1, 1, 2, 3]), (0.3, 0.8, 1))
    return bytes(text)


def cases(most, count, seed):
    for own, parent in by_hand():
        yield line(own, parent)
    for text in sequences(most):
        for parent in PARENTS:
            yield line(text, parent)
        for own in OWNS:
            yield line(own, text)
    for own, parent in itertools.product(list(sequences(most - 1)), repeat=2):
        yield line(own, parent)
    yield from limits()
    r = random.Random(seed)
    for _ in range(count):
        own = damaged(r)
        yield line(own if r.random() < 0.4 else r.choice(OWNS[:4]), damaged(r))


def texts_of(case):
    """The two texts of an `inherit` case, as the fields they stand in; None for another line."""
    call, *fields = case.split(" ")
    return fields if call == "inherit" and len(fields) == 2 else None


def paints(path):
    with open(path) as f:
        for case in f:
            case = case.rstrip("\n")
            for text in texts_of(case) or [None]:
                print(case if text is None else f"paint {text}")
    return 0


def place_of_ill(text):
    try:
        text.decode()
    except UnicodeDecodeError as e:
        return e.start
    return None


def says(text, answer):
    """What a text says for itself, by what it is as a paint: None to ask higher up, or the refusal's columns, the part's start and its bytes."""
    told, kind = answer[:-8], answer[-8]
    if len(text) > LIMIT or place_of_ill(text) is not None:
        number, place = ("1", "0") if len(text) > LIMIT else ("2", str(place_of_ill(text)))
        if [told[0], told[2]] != [number, place]:
            raise ValueError(f"{text}: {number} at place {place}, not {answer}")
        return told, 0, b""
    whole = text.decode()
    trimmed = whole.strip(WHITE)
    if told[0] in ("1", "2") or (trimmed == "inherit") != (kind == "inherit") or not trimmed and told[0] != "5":
        raise ValueError(f"{text}: not {answer}")
    if trimmed in ("", "inherit"):
        return None
    if told[0] != "0":
        return told, 0, b""
    return told, len(whole[:len(whole) - len(whole.lstrip(WHITE))].encode()), trimmed.encode()


def inherited(texts, answers):
    """The rule: the own text first, the parent's where that asks higher up; and higher than both where the parent's does, too."""
    for whose, text, answer in zip(("own", "parent"), texts, answers, strict=True):
        said = says(text, answer)
        if said:
            told, start, part = said
            return " ".join([*told, whose, str(start), str(len(part)), field(part)])
    return " ".join(["0"] * 5 + ["-"] + ["0"] * (len(answer) - 14) + ["higher", "0", "0", "-"])


def answers(cases_path, answers_path):
    with open(cases_path) as a, open(answers_path) as b:
        told = (line.rstrip("\n") for line in b)
        for case in a:
            fields = texts_of(case.rstrip("\n"))
            got = [next(told) for _ in fields or [case]]
            if fields and "?" not in got:
                print(inherited([bytes.fromhex(t.replace("-", "")) for t in fields], [answer.split(" ") for answer in got]))
            else:
                print("?" if "?" in got else got[0])
        if next(told, None) is not None:
            raise ValueError("more answers than cases")
    return 0


def right():
    """What is written above by hand: number, place, whose, start, length."""
    for (_, own), row in zip(TEXTS, PAIRS, strict=True):
        for (_, parent), letter in zip(TEXTS, row, strict=True):
            whose, told = {"o": ("own", own), "p": ("parent", parent), "h": ("higher", (0, 0, 0, 0))}[letter]
            number, place, *part = told
            yield number, place, whose, *part
    for _, _, *told in HAND:
        yield tuple(told)


def hand(path):
    wrong, count = 0, 0
    with open(path) as f:
        for (own, parent), told, answer in zip(by_hand(), right(), f):
            number, place, whose, start, length = told
            part = raw({"own": own, "parent": parent, "higher": ""}[whose])[start:start + length]
            fields = answer.rstrip("\n").split(" ")
            count += 1
            if [fields[0], fields[2], *fields[-4:]] != [str(number), str(place), whose, str(start), str(length), field(part)]:
                wrong += 1
                print(f"{own[:40]!r} {parent[:40]!r}: {told} is right, not {answer.strip()[:80]}")
    print(f"{count} by hand, {wrong} different")
    return 1 if wrong else 0


def manner(text):
    if len(text) > 200:
        return "long"
    if place_of_ill(text) is not None:
        return "ill"
    whole = text.decode()
    trimmed = whole.strip(WHITE)
    about = (trimmed != whole) + (whole.strip(" \t\n\r") != trimmed)
    return about, trimmed if trimmed in ("", "inherit") else "text"


def kinds(case, fields):
    """What tells answers apart: whose it is, by which number and what either text is like, and where its part stands."""
    texts = [bytes.fromhex(t.replace("-", "")) for t in texts_of(case)]
    manners = tuple(map(manner, texts))
    group = None if "long" in manners else (fields[0], fields[-4], *manners)
    return group, [("long" in manners, fields[0], fields[-4], fields[1] != "0", fields[-3] != "0", fields[-2] != "0")]


if __name__ == "__main__":
    statement.run(__doc__, {
        "cases": (3, statement.cases(cases)), "paints": (1, paints), "inherited": (2, answers), "hand": (1, hand), "sample": (6, functools.partial(statement.sample, len(by_hand()), kinds)),
    })
