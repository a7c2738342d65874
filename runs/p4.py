#!/usr/bin/env python3
"""House rules for new artwork (document 02, P4), said once more and apart from the program.

p4.py cases MOST COUNT SEED KEYWORDS    writes cases: the order's smallest inputs, then every sequence of up to MOST telling pieces, and of one fewer inside of
                                        functions, functions of every kind of value and separator, keywords, numbers and texts about their limits, then COUNT
                                        texts made by the grammar below, whole and damaged
p4.py house KEYWORDS CASES LOOSE        writes what `lines` is to answer; LOOSE are the oracle's answers to the same cases with `color` for `strict`
p4.py hand ANSWERS                      holds the first answers to those written below by hand
p4.py sample CASES ANSWERS COUNT SEED CASES-OUT ANSWERS-OUT
                                        picks COUNT cases: those by hand, the shortest of every kind of answer, then at random as many of each form and number
p4.py texts FILE                        writes a case for each line of a file
p4.py reasons CASES ANSWERS             counts why texts that the old reading accepts are not strict; stops where a text has a reason and is read, or has none and is not

What a strict text is, is a grammar, written below as document 02 says it. Its machine follows from it: what is left of a form after a byte is a form again
(Brzozowski's derivatives), and a beginning can be gone on with where some text of the form that is left is found, breadth first. What the old reading
refuses keeps its answer, with the number split (p8.py) and the stretch (p2.py)."""
import collections
import functools
import itertools
import random
import re

import statement
from p8 import line
from p2 import stretch

# Forms. Each is made once, so that what is worked out of it is kept with it.

MADE = {}


class Form:
    """Texts: one of some bytes, one form then another, either of several, both of two at once, or many of one."""

    def __init__(self, kind, parts):
        self.kind, self.parts, self.left, self.found = kind, parts, {}, None
        self.empty = {"byte": False, "many": True}.get(kind)
        if self.empty is None:
            self.empty = (any if kind == "either" else all)(p.empty for p in parts)


def form(kind, *parts):
    key = (kind, frozenset(parts) if kind == "either" else parts)
    if key not in MADE:
        MADE[key] = Form(kind, parts)
    return MADE[key]


NONE, EMPTY = form("either"), form("then")


def byte(text):
    return form("byte", frozenset(text.encode()))


def pair(a, b):
    if NONE in (a, b):
        return NONE
    if EMPTY in (a, b):
        return a if b is EMPTY else b
    return pair(a.parts[0], pair(a.parts[1], b)) if a.kind == "then" else form("then", a, b)


def then(*parts):
    return functools.reduce(lambda rest, p: pair(p, rest), reversed(parts), EMPTY)


def either(*parts):
    flat = dict.fromkeys(q for p in parts for q in (p.parts if p.kind == "either" else [p]))
    return next(iter(flat)) if len(flat) == 1 else form("either", *flat)


def both(a, b):
    return NONE if NONE in (a, b) else form("both", a, b)


def many(a):
    return form("many", a)


def maybe(a):
    return either(EMPTY, a)


def up_to(n, a):
    return maybe(then(a, up_to(n - 1, a))) if n else EMPTY


def left(f, b):
    """What is left of a form after a byte."""
    if b not in f.left:
        if f.kind == "byte":
            rest = EMPTY if b in f.parts[0] else NONE
        elif f is EMPTY:
            rest = NONE
        elif f.kind == "then":
            first, second = f.parts
            rest = pair(left(first, b), second)
            rest = either(rest, left(second, b)) if first.empty else rest
        elif f.kind == "either":
            rest = either(*(left(p, b) for p in f.parts))
        elif f.kind == "both":
            rest = both(*(left(p, b) for p in f.parts))
        else:
            rest = pair(left(f.parts[0], b), f)
        f.left[b] = rest
    return f.left[b]


def has_text(f):
    """Whether a form has a text at all; of two at once, which numbers alone are, it is looked for, breadth first."""
    if f.found is None:
        if f.kind == "byte":
            f.found = bool(f.parts[0])
        elif f.kind == "both":
            seen, edge = {f}, {f}
            while edge and not any(g.empty for g in edge):
                edge = {left(g, b) for g in edge for b in b"+-.0123456789"} - seen - {NONE}
                seen |= edge
            f.found = bool(edge)
        else:
            f.found = f.kind == "many" or (any if f.kind == "either" else all)(map(has_text, f.parts))
    return f.found


# The grammar of strict texts.

def word(text):
    """"Letter case ignored"."""
    return then(*(byte(c.lower() + c.upper()) for c in text))


def below(n):
    """Digits that make a number below n, signs and dots between them not counted."""
    def digit(some):
        return then(many(byte("+-.")), byte(some))
    most, any_digit = str(n), digit("0123456789")
    shorter = maybe(then(digit("123456789"), up_to(len(most) - 2, any_digit)))
    as_long = [then(*map(digit, most[:i]), digit("0123456789"[0 if i else 1:int(c)]), *[any_digit] * (len(most) - i - 1)) for i, c in enumerate(most)]
    return then(many(digit("0")), either(shorter, *as_long))


SPACES = many(byte(" \t\n\r"))
DIGIT, HEX, SIGN, DOT = byte("0123456789"), byte("0123456789abcdefABCDEF"), maybe(byte("+-")), byte(".")
DIGITS = then(DIGIT, many(DIGIT))
# "Within document 01's domain": all digits joined below 2^53, at most 22 after the dot. "Numbers without exponent".
DOMAIN = below(2 ** 53)
WHOLE = both(then(SIGN, DIGITS), DOMAIN)
NUMBER = both(then(SIGN, either(DIGITS, then(many(DIGIT), DOT, DIGIT, up_to(21, DIGIT)))), DOMAIN)
PERCENT = then(NUMBER, byte("%"))


def function(name, *values):
    """"Commas required, spaces optional around values"."""
    around = [then(SPACES, v, SPACES) for v in values]
    return then(word(name + "("), around[0], *(then(byte(","), v) for v in around[1:]), byte(")"))


FUNCTIONS = [
    function("rgb", WHOLE, WHOLE, WHOLE), function("rgb", PERCENT, PERCENT, PERCENT), function("rgba", WHOLE, WHOLE, WHOLE, NUMBER), function("rgba", PERCENT, PERCENT, PERCENT, NUMBER),
    function("hsl", NUMBER, PERCENT, PERCENT), function("hsla", NUMBER, PERCENT, PERCENT, NUMBER),
]


def names(keywords):
    with open(keywords) as f:
        return [row.split("\t")[0] for row in f if not row.startswith("#")] + ["transparent"]


def forms(keywords):
    return [then(byte("#"), *[HEX] * 3), then(byte("#"), *[HEX] * 6), *FUNCTIONS, *map(word, names(keywords))]


def strict_texts(keywords):
    return then(SPACES, either(*forms(keywords)), SPACES)


def reading(strict, text):
    """How many bytes long the longest beginning is that some strict text goes on from, and whether the text is strict."""
    for i, b in enumerate(text):
        rest = left(strict, b)
        if not has_text(rest):
            return i, False
        strict = rest
    return len(text), strict.empty


def house(strict, case, loose):
    """What `lines` is to answer: the old reading's refusals stay, and of what it accepts the strict texts do."""
    call, _, text = case.partition(" ")
    if loose == "?" or call not in ("color", "strict"):
        return loose
    answer = stretch(f"color {text}", loose)
    if call == "color" or not answer.startswith("0 "):
        return answer
    text = bytes.fromhex(text)
    at, is_strict = reading(strict, text)
    return answer if is_strict else f"18 {len(text[:at].decode()) + 1} 0 0 0 - {at} {at} 0 0 0 0"


# The smallest inputs by hand: number and position, channels where one is read.
LONG = "." + "0" * 22
HAND = [
    ("rgb(1.0,2,3)", 18, 8), ("rgb(1,2.0,3)", 18, 8), ("rgb(1.0 ,2,3)", 18, 8), ("#1234", 18, 6), ("#1234 ", 18, 6), ("#12345678", 18, 8), ("rgb(1,2,3,4)", 18, 10), ("rgb(1,2,3,)", 18, 10), ("rgba(1,2,3)", 18, 11),
    ("rgb(1e0,2,3)", 18, 6), ("rgb(1 2 3)", 18, 7), ("rgb(1-2-3)", 18, 6), ("hsl(120,100,50)", 18, 12), ("hsl(0,1%,1)", 18, 11), (f"hsl({LONG}0e1,0%,0%)", 18, 28), (" " * 4091 + "#1234", 18, 4097),
    # Of several forms the furthest counts.
    ("rgb(.5,0,0)", 18, 7), ("rgb(-.5\t,0,0)", 18, 8), ("rgb(1,2,3.0)", 18, 10), ("rgb(1%,2,3)", 18, 9), ("rgb(1%,2%,3)", 18, 12), ("rgb(1%,2.5,3%)", 18, 11), ("rgb(1%,2 ,3)", 18, 9), ("rgba(1,2,3,)", 18, 12),
    ("rgba(1%,2%,3%)", 18, 14), ("rgba(1.0,2,3,4)", 18, 9), ("rgba(1,2,3,4,)", 18, 13), ("hsl(0,0,0)", 18, 8), ("hsl(0,0 ,0)", 18, 8), ("hsl(0,0%,0%,1)", 18, 12), ("hsla(0,0%,0%)", 18, 13), ("hsla(0,0%,0%,1,)", 18, 15),
    # Commas, always.
    ("rgb(1%2%3%)", 18, 7), ("rgb(1% 2% 3%)", 18, 8), ("rgb(1,2 3)", 18, 9), ("rgb(1+2+3)", 18, 6), ("rgb(1.5.5.5)", 18, 8), ("rgba(1,2,3 4)", 18, 12), ("hsl(0 0% 0%)", 18, 7), ("hsl(0,0% 0%)", 18, 10), ("hsla(0,0%,0%.5)", 18, 13),
    # No exponent.
    ("rgb(1E+0,2,3)", 18, 6), ("rgb(1.5e0%,2%,3%)", 18, 8), ("rgba(1,2,3,5e-1)", 18, 13), ("hsl(1e1,0%,0%)", 18, 6), ("hsl(0,1e1%,0%)", 18, 8), ("hsla(0,0%,0%,1e0)", 18, 15),
    # Three or six digits.
    ("#abcd", 18, 6), ("#ABCDEFab", 18, 8), (" #1234", 18, 7), ("\t#12345678\n", 18, 9), ("#12345678 ", 18, 8),
    # The domain counts in "can go on", the limit does not.
    (f"hsl({LONG}e0,0%,0%)", 18, 28), (f"hsl(0{LONG}0e1,0%,0%)", 18, 29), (f"rgb(1%,{LONG}0e1%,0%)", 18, 31), ("rgb(9007199254740991e0,0,0)", 18, 21), ("rgb(9007199254740991 0 0)", 18, 22), ("hsl(900719925474099.1e0,0%,0%)", 18, 22),
    (" " * 4090 + "#1234 ", 18, 4096), (" " * 4084 + "rgb(1,2,3,)\n", 18, 4094), ("#1234" + " " * 4091, 18, 6), ("rgb(1" + "0" * 4083 + "e-22,0,", 23, 5), ("rgb(" + "0" * 4085 + " 0 0)", 18, 4091),
    # Strict texts.
    ("#123", 0, 0, 17, 34, 51, 255), (" #aBc\n", 0, 0, 170, 187, 204, 255), ("#12aBfF", 0, 0, 18, 171, 255, 255), ("red", 0, 0, 255, 0, 0, 255), ("\r\tReD ", 0, 0, 255, 0, 0, 255), ("lightgoldenrodyellow", 0, 0, 250, 250, 210, 255),
    ("transparent", 0, 0, 0, 0, 0, 0), ("TransParent ", 0, 0, 0, 0, 0, 0), ("rgb(1,2,3)", 0, 0, 1, 2, 3, 255), (" RgB( 1 ,\t2\n, 3\r) ", 0, 0, 1, 2, 3, 255), ("rgb(-1,300,+007)", 0, 0, 0, 255, 7, 255), ("rgb(-0,00,255)", 0, 0, 0, 0, 255, 255),
    ("rgb(20%,100.0%,.0%)", 0, 0, 51, 255, 0, 255), ("rgb(-20%,200%,+0%)", 0, 0, 0, 255, 0, 255), ("rgba(1,2,3,.5)", 0, 0, 1, 2, 3, 128), ("RGBA(20%,0%,0%,2)", 0, 0, 51, 0, 0, 255), ("rgba(1,2,3,-1)", 0, 0, 1, 2, 3, 0),
    ("hsl(120,100%,50%)", 0, 0, 0, 255, 0, 255), ("hsl(-240.0,100.0%,50.0%)", 0, 0, 0, 255, 0, 255), ("hsl(480,900%,50%)", 0, 0, 0, 255, 0, 255), ("HSLA( +120 , 100% , 50% , 0.5 )", 0, 0, 0, 255, 0, 128),
    ("rgb(9007199254740991,0,0)", 0, 0, 255, 0, 0, 255), ("hsl(900719925474099.1,0%,0%)", 0, 0, 0, 0, 0, 255), (f"hsl({LONG},0%,0%)", 0, 0, 0, 0, 0, 255), (f"hsl(-0{LONG},0%,0%)", 0, 0, 0, 0, 0, 255),
    (" " * 4092 + "#123", 0, 0, 17, 34, 51, 255), ("red" + " " * 4093, 0, 0, 255, 0, 0, 255), ("rgb(" + "0" * 4087 + ",0,0)", 0, 0, 0, 0, 0, 255),
    # What the old reading refuses keeps its number.
    (" " * 4092 + "#1234", 1, 0), ("#123" + " " * 4093, 1, 0), (b"#1234\xff", 2, 0), (b"rgb(1.0,2,3\xc3", 2, 0), ("", 4, 0), (" ", 4, 0), ("rgb(1,", 4, 0), ("rgb(1.0,", 4, 0), ("#12345", 5, 0), ("#", 5, 0), ("foo", 5, 0), ("currentColor", 5, 0),
    ("ButtonFace", 5, 0), ("none", 5, 0), ("rgbx(1,2,3)", 5, 0), ("\u00a0red", 5, 0), ("red)", 6, 4), ("#1234)", 6, 6), ("#1234\f", 6, 6), ("rgb(1.0,2,3))", 6, 13), ("red\u00a0", 6, 4), ("rgb (1,2,3)", 7, 4), ("rgb[1,2,3)", 7, 4),
    ("rgb(1,2,3,4,5)", 7, 13), ("rgba(0,0,0,50%)", 7, 14), ("rgb(1,2%,3)", 9, 8), ("rgb(1 %,2%,3%)", 9, 7), ("rgb(1,,2,3)", 9, 7), ("rgb(1/**/,2,3)", 9, 6), ("rgb(\f1,2,3)", 9, 5), ("hsl(0%,0%,0%)", 9, 6), ("rgb(5.,0,0)", 10, 5),
    ("rgb(1,- 2,3)", 10, 7), ("rgb(1.0,2,3e)", 10, 11), ("rgb(1.0, ", 22, 10), ("rgb(9007199254740992,0,0)", 23, 5), ("hsl(9007199254740991.0,0%,0%)", 23, 5), ("rgb(1e23,0,0)", 24, 5), (f"hsl({LONG}0,0%,0%)", 24, 5),
]
NO_CASES = ["strict", "strict ", "strict 7", "strict 7G", "strict FF", "strict - -", "strict 726564 ", "strict  726564", "Strict 726564", "strict 0 726564", "stric 726564"]

PIECES = ["rgb(", "RGBA(", "hsl(", "hsla(", "1", "-", ".", ".5", "1.0", "e0", "%", ",", " ", ")", "#", "12", "abc", "red", "transparent"]
VALUES = ["1", "-", "+", ".", ".5", "1.0", "e0", "%", ",", " ", ")", "E-1"]
FRAMES = [
    ("rgb(", ",2,3)"), ("rgb(1,", ",3)"), ("rgb(1,2,", ")"), ("rgb(1%,", ",3%)"), ("rgb(1%,2%,", ")"), ("rgb(1%,2,", ")"), ("rgb(1.0,", ",3)"), ("rgb(1,2,3", ")"), ("rgb(1%,2%,3%", ")"), ("rgb(1", "2 3)"), ("rgba(", ",2,3,.5)"),
    ("Rgba(1,2,", ",4)"), ("rgba(1,2,3", ")"), ("rgba(1,2,3,", ")"), ("rgba(1%,2%,3%,", ")"), ("rgba(1%,", ",3%,1)"), ("hsl(", ",0%,0%)"), ("hsl(0,", ",0%)"), ("HSL(0,0%,", ")"), ("hsl(0,0,", ")"), ("hsl(0,0%,0%", ")"), ("hsl(0", "0% 0%)"),
    ("hsla(0,0%,0%,", ")"), ("hsla(0,", ",0%,1)"), ("hsla(0,0%,0%", " )"),
]
SOME = ["1", "-300", "+.5", "2.0", "7e0", "1%", ".5%", "3e0%"]
SEPARATORS = [",", " ", " , ", "\t,\n"]
BOUNDS = ["9007199254740991", "09007199254740991", "9007199254740992", "900719925474099.1", "9007199254740991.0", "9.007199254740991", "9.007199254740992", ".9007199254740991", "999999999999999", "9999999999999999",
          LONG, LONG + "0", "0" + LONG, "0" + LONG + "0", LONG[:-1] + "1", "0." + "9" * 15, "0." + "9" * 16, "1" + LONG, "0" * 30 + "1", "00.5", "-0.0"]
PUT = [b" ", b"\t", b"0", b"9", b"12", b"e0", b"E", b".", b".5", b"-", b"+", b"(", b")", b",", b"%", b"#", b"a", b"x", b"/", b"\x0c", b"\xc2\xa0", b"\xc3\xa9", b"\xff"]


def functions():
    for name, apart, end in itertools.product(["rgb", "RGBA", "hsl", "Hsla"], SEPARATORS, ["", " ", ",", ",1", ", .5", " 1", ",5e-1", ",1,"]):
        for values in itertools.product(SOME, repeat=3):
            yield f"{name}({apart.join(values)}{end})"


def bounds():
    for number, scale, mark, (before, after) in itertools.product(BOUNDS, ["", "e0", "e1", "E-1", "e22", "e23", " ", "-1"], ["", "%"], FRAMES):
        yield before + number + scale + mark + after
    for n, text in itertools.product([4095, 4096, 4097], ["#123", "#1234", "#12345", "#12345678", "red", "redd", "transparent", "rgb(1,2,3)", "rgb(1.0,2,3)", "rgb(1,2,3,)", "rgba(1,2,3)", "hsl(0,0%,0%)", "hsl(0,0,0)", "rgb(1 2 3)"]):
        more = n - len(text)
        for fill in " \t\n\r":
            yield fill * more + text
            yield text + fill * more
        if "(" in text:
            at = text.index("(") + 1
            yield text[:at] + "0" * more + text[at:]
            yield text[:-1] + " " * more + text[-1:]


def made(r, f):
    """A text of a form, at random."""
    if f.kind == "byte":
        return bytes([r.choice(sorted(f.parts[0]))])
    if f.kind == "then":
        return b"".join(made(r, p) for p in f.parts)
    if f.kind == "either":
        return made(r, r.choice(f.parts))
    if f.kind == "many":
        return b"".join(made(r, f.parts[0]) for _ in range(r.choice([0, 0, 0, 0, 1, 1, 2, 5])))
    while True:
        text = made(r, f.parts[0])
        if reading(f, text)[1]:
            return text


def damaged(r, text):
    text = bytearray(text)
    statement.damage(r, text, PUT, r.choice([1, 1, 1, 2, 2, 3]), (0.3, 0.65, 0.95))
    return bytes(text)


def by_grammar(keywords, count, seed):
    every, r = forms(keywords), random.Random(seed)
    for _ in range(count):
        text = made(r, then(SPACES, r.choice(FUNCTIONS if r.random() < 0.8 else every), SPACES))
        yield text if r.random() < 0.2 else damaged(r, text)


def cases(most, count, seed, keywords):
    for text, *_ in HAND:
        yield line("strict", text)
    yield from NO_CASES
    for text, *_ in HAND:
        yield line("color", text)
    for n in range(most + 1):
        for seq in itertools.product(PIECES, repeat=n):
            yield line("strict", "".join(seq))
    for n in range(most):
        for seq in itertools.product(VALUES, repeat=n):
            for before, after in FRAMES:
                yield line("strict", before + "".join(seq) + after)
    named = (text for name in names(keywords) for text in (name, f" {name.title()}\t", name[:-1], name + "a"))
    for text in itertools.chain(named, functions(), bounds(), by_grammar(keywords, count, seed)):
        yield line("strict", text)


def hand(path):
    wrong = 0
    with open(path) as f:
        for (text, number, position, *channels), answer in zip(HAND, itertools.islice(f, len(HAND)), strict=True):
            fields = answer.strip().split(" ")
            told = [str(n) for n in (number, position, *(channels or [0] * 4))]
            empty = ["0", "0", "0", "-", str(position - 1), str(position - 1)]
            if fields[:2] + fields[8:] != told or number == 18 and fields[2:8] != empty:
                wrong += 1
                print(f"{text!r}: {told} is right, not {answer.strip()}")
    print(f"{len(HAND)} by hand, {wrong} different")
    return 1 if wrong else 0


WRITTEN = re.compile(r"[+-]?(?:[0-9]+(?:\.[0-9]+)?|\.[0-9]+)(?:e[+-]?[0-9]+)?%?")


def reasons(text):
    """What the house rules do not take in a text that the old reading does: all that there is."""
    text = text.strip(" \t\n\r").lower()
    if text.startswith("#"):
        return ["four hex digits"] * (len(text) == 5) + ["eight hex digits"] * (len(text) == 9)
    if "(" not in text:
        return []
    name, _, inside = text.partition("(")
    values = WRITTEN.findall(inside)
    marked = [v.endswith("%") for v in values[:3]]
    last = inside.rstrip(") \t\n\r").endswith(",")
    found = {
        "a number with an exponent": any("e" in v for v in values),
        "a comma is missing": inside.count(",") - last < len(values) - 1,
        "a comma after the last value": last,
        "alpha in `rgb()` or `hsl()`": len(name) == 3 and len(values) == 4,
        "no alpha in `rgba()` or `hsla()`": len(name) == 4 and len(values) == 3,
        "`hsl()` without `%`": name.startswith("hsl") and not all(marked[1:]),
        "`rgb()` with `%` and without": name.startswith("rgb") and any(marked) and not all(marked),
        "a number with a dot in `rgb()`": name.startswith("rgb") and not any(marked) and any("." in v for v in values[:3]),
    }
    return [reason for reason, holds in found.items() if holds]


def count_reasons(cases_path, answers_path):
    counts, first, numbers = collections.Counter(), {}, collections.Counter()
    with open(cases_path) as a, open(answers_path) as b:
        for case, answer in zip(a, b, strict=True):
            call, _, text = case.strip().partition(" ")
            number = answer.split(" ")[0].strip()
            if call != "strict" or number == "?":
                continue
            numbers[number] += 1
            if number not in ("0", "18"):
                continue
            text = bytes.fromhex(text).decode()
            why = reasons(text)
            if bool(why) != (number == "18"):
                raise ValueError(f"{text!r} is answered {answer.strip()}, with the reasons {why}")
            for reason in why:
                counts[reason] += 1
                first.setdefault(reason, text)
    print(f"{sum(numbers.values())} texts, {numbers['0'] + numbers['18']} read by the old reading, {numbers['18']} of these not strict")
    for reason, n in counts.most_common():
        print(f"| {reason} | {n} | `{first[reason]}` |")
    return 0


def texts(path):
    with open(path, "rb") as f:
        for text in f.read().split(b"\n")[:-1]:
            print(line("strict", text))
    return 0


def kinds(case, fields):
    """What tells answers apart: the form and the number, then the reasons, the bytes about the place where it stops, spaces and letter case."""
    call, _, text = case.partition(" ")
    if fields == ["?"] or call != "strict":
        return None, [(call, fields[0])]
    text = bytes.fromhex(text.replace("-", ""))
    begins = re.match(rb"[ \t\n\r]*(#|[a-z]*\(?)", text, re.I).group(1).lower()
    if begins not in (b"#", b"rgb(", b"rgba(", b"hsl(", b"hsla("):
        begins = b""
    if len(text) > 200:
        return None, [("long", begins, fields[0])]
    at = int(fields[6])
    about = (text[at - 1:at] if at else b"", text[at:at + 1]) if fields[0] == "18" else ()
    why = tuple(reasons(text.decode())) if fields[0] == "18" else ()
    return (begins, fields[0]), [why, ("about", *about), ("spaces", text != text.strip(), text != text.lower())]


def cases_mode(most, count, seed, keywords):
    return statement.cases(functools.partial(cases, keywords=keywords))(most, count, seed)


def house_mode(keywords, cases_path, loose_path):
    return statement.answers(functools.partial(house, strict_texts(keywords)), cases_path, loose_path)


if __name__ == "__main__":
    statement.run(__doc__, {
        "cases": (4, cases_mode), "house": (3, house_mode), "hand": (1, hand), "sample": (6, functools.partial(statement.sample, len(HAND) + len(NO_CASES), kinds)), "texts": (1, texts), "reasons": (2, count_reasons),
    })
