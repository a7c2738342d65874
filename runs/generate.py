#!/usr/bin/env python3
"""generate.py KIND COUNT SEED KEYWORDS: writes case lines of the line protocol (docs/RUNS.md) to standard output.

KIND is a family of cases below, or `all`. COUNT bounds the random families; the others are exhaustive. The same arguments
give the same lines. KEYWORDS is a table with a colour keyword first on each line."""
import itertools
import random
import sys

WHITE = [chr(c) for c in [9, 10, 11, 12, 13, 0x20, 0x85, 0xA0, 0x1680, *range(0x2000, 0x200B), 0x2028, 0x2029, 0x202F, 0x205F, 0x3000]]
ALIKE = [chr(c) for c in [0x00, 0x08, 0x0E, 0x1F, 0x200B, 0x200C, 0x180E, 0x2060, 0xFEFF, 0x2027, 0x202A, 0x2FFF, 0x3001, 0x84, 0x86, 0x9F, 0xA1]]
ILL = [b"\x80", b"\xbf", b"\xc0\x80", b"\xc1\xbf", b"\xc2", b"\xc2\x20", b"\xdf\xc0", b"\xe0\x9f\xbf", b"\xe0\x80\x80", b"\xe1\x80", b"\xe1", b"\xed\xa0\x80",
       b"\xed\xbf\xbf", b"\xef\xbf", b"\xf0\x8f\xbf\xbf", b"\xf0\x90\x80", b"\xf4\x90\x80\x80", b"\xf5\x80\x80\x80", b"\xf8\x88\x80\x80\x80", b"\xfe", b"\xff"]
UNITS = ["", "%", "em", "ex", "px", "in", "cm", "mm", "pt", "pc", "EM", "Px", "e", "m", "q", "rem", "e-", "exx", "p", "pcx"]
ANGLES = ["", "deg", "grad", "rad", "turn", "DEG", "de", "gra", "degrees", "turns", "r", "e"]
NUMBERS = ["0", "-0", "+0", "1", "12", "007", "1.5", "-1.5", ".5", "-.5", "+.25", "1.", "-", "+", ".", "-.", "1e0", "1e1", "1E+2", "1e-2", "1e", "1e+", "1eM", "1e+m", "1em", "1ex", "1.5.",
           "9007199254740991", "9007199254740992", "9007199254740993", "90071992547409910", "0.9007199254740991", "0.90071992547409920", "1e22", "1e23", "1e-22", "1e-23", "0e22", "0e23",
           "1.5e23", "1.5e24", "0.0000000000000000000001", "0.00000000000000000000001", "000000000000000000000001", "1e99999999999999999999", "1e-99999999999999999999",
           "123456789.987654321", "4503599627370496.5", "x", "", "e5", "%", "--1", "+-1", "1-", "1+2"]


def keywords(path):
    with open(path) as f:
        return [line.split("\t")[0] for line in f if not line.startswith("#")]


def field(text):
    return text.hex() if text else "-"


def line(call, text, place=None):
    data = text if isinstance(text, bytes) else text.encode()
    return f"{call} {field(data)}" if place is None else f"{call} {place} {field(data)}"


def tokens(call, words, most, r, count):
    """All sequences of up to `most` words, then random longer ones."""
    for n in range(most + 1):
        for seq in itertools.product(words, repeat=n):
            yield line(call, "".join(seq))
    for _ in range(count):
        yield line(call, "".join(r.choice(words) for _ in range(r.randint(most + 1, most + 7))))


def number(r):
    k = r.random()
    if k < 0.25:
        return r.choice(NUMBERS)
    if k < 0.5:
        return str(r.randint(-20, 400))
    sign = r.choice(["", "", "", "-", "+"])
    whole = "".join(r.choice("0123456789") for _ in range(r.choice([0, 1, 1, 2, 3, 3, 8, 16, 17])))
    frac = "." + "".join(r.choice("0123456789") for _ in range(r.choice([0, 1, 1, 2, 3, 6, 12, 18, 22]))) if r.random() < 0.6 else ""
    exp = r.choice("eE") + r.choice(["", "-", "+"]) + str(r.choice([0, 1, 2, 3, 5, 10, 20, 21, 22, 23, 40])) if r.random() < 0.2 else ""
    return sign + whole + frac + exp


def half(r):
    """A number near a boundary of a channel."""
    c = r.randint(0, 255)
    return r.choice([f"{c}.5", f"{c}.49999999999999", f"{c}.5000000001", f"{c}", f"{c}.4999", f"-{c}.5", f"{c + 200}", f"{c * 100 / 255:.12f}", f"{(c + 0.5) * 100 / 255:.13f}", f"{(c + 0.5) / 255:.15f}"])


def spaces(r):
    return r.choice(["", "", "", "", " ", " ", "  ", "\t", "\n", "\r", " \t "])


def comma(r):
    return r.choice([",", ",", ",", ", ", " ", " , ", "", ",,", "/", "\x0c"])


def component(r, mark):
    n = half(r) if r.random() < 0.4 else number(r)
    return n + (r.choice(["%", "%", "%", "", " %"]) if mark else r.choice(["", "", "", "", "%"]))


def case(r, word):
    return "".join(c.upper() if r.random() < 0.5 else c for c in word) if r.random() < 0.3 else word


def colour(r, names):
    k = r.random()
    if k < 0.15:
        return "#" + "".join(r.choice("0123456789abcdefABCDEFg") for _ in range(r.choice([3, 4, 6, 8, 3, 6, 0, 1, 2, 5, 7, 9, 12])))
    if k < 0.3:
        return case(r, r.choice(names))
    if k < 0.65:
        mark = r.random() < 0.5
        parts = [component(r, mark) for _ in range(3)]
        text = case(r, r.choice(["rgb", "rgba"])) + r.choice(["(", "(", "(", "( ", " ("]) + spaces(r) + parts[0]
        for p in parts[1:]:
            text += spaces(r) + comma(r) + spaces(r) + p
        if r.random() < 0.5:
            text += spaces(r) + comma(r) + spaces(r) + r.choice([number(r), f"{r.randint(0, 1000) / 1000}", f"{(r.randint(0, 254) + 0.5) / 255:.16f}"]) + r.choice(["", "", "", "%"])
        return text + spaces(r) + r.choice([")", ")", ")", ")", "", "))", ",)"])
    hue = r.choice([number(r), str(r.randint(-720, 1080)), f"{r.randint(0, 21600) / 60:.4f}", "359.99999", "359.999999999", "-0.0000001", "360", "-360", "1e22", "720.5"])
    sat = lambda: r.choice([f"{r.randint(-10, 120)}%", f"{r.randint(0, 1000) / 10}%", f"{r.randint(0, 100) / 100}", number(r)])
    text = case(r, r.choice(["hsl", "hsla"])) + "(" + spaces(r) + hue + spaces(r) + comma(r) + spaces(r) + sat() + spaces(r) + comma(r) + spaces(r) + sat()
    if r.random() < 0.4:
        text += comma(r) + spaces(r) + r.choice([number(r), f"{r.randint(0, 1000) / 1000}"])
    return text + spaces(r) + r.choice([")", ")", ")", ")", "", ",)"])


def link(r):
    q = r.choice(["", "", "", "'", '"'])
    inner = "".join(r.choice(["a", "b", "1", "-", "é", "€", ".", ":", " ", "'", '"', ")", "(", "#", "\u00a0", "\u2028", "\t"]) if r.random() < 0.35 else r.choice("abcxyz") for _ in range(r.randint(0, 6)))
    return r.choice(["url(", "url(", "url(", "url (", "URL(", "ur", "urlé"]) + spaces(r) + q + spaces(r) + r.choice(["#", "#", "#", "#", ""]) + inner + spaces(r) + r.choice([q, q, q, "", "'"]) + spaces(r) + r.choice([")", ")", ")", ""])


def paint(r, names):
    k = r.random()
    word = r.choice(["none", "inherit", "currentColor", "context-fill", "context-stroke", "None", "currentcolor", "context", "", "inherit "])
    if k < 0.25:
        text = word
    elif k < 0.6:
        text = link(r) + spaces(r) + r.choice(["", "none", "currentColor", colour(r, names), colour(r, names), word])
    else:
        text = colour(r, names)
    pad = lambda: "".join(r.choice(WHITE + ["", "", "", ALIKE[r.randint(0, len(ALIKE) - 1)]]) for _ in range(r.choice([0, 0, 0, 1, 2])))
    return pad() + text + pad()


def length(r):
    return spaces(r) + number(r) + r.choice(UNITS) + r.choice(["", "", "", " ", ")", "x"])


def lengths(r):
    return "".join(length(r) + r.choice([" ", ",", ", ", "", " ,"]) for _ in range(r.randint(0, 5)))


def angle(r):
    return spaces(r) + number(r) + r.choice(ANGLES) + r.choice(["", "", "", " ", "x"])


def damaged(r, data):
    data = bytearray(data)
    for _ in range(r.choice([1, 1, 1, 2, 3])):
        k = r.randint(0, len(data)) if data else 0
        what = r.random()
        if what < 0.3 and data:
            data[min(k, len(data) - 1)] = r.choice([r.randint(0, 255), *b" ,()#%.-+eE0159'\"", 0x80, 0xC3])
        elif what < 0.5 and data:
            del data[min(k, len(data) - 1)]
        elif what < 0.7:
            data[k:k] = r.choice([b" ", b",", b")", b"%", b"e", b".", b"-", b"\xc3\xa9", b"\xc2\xa0", b"\x00", b"\x0c", r.choice(ILL), bytes([r.randint(0, 255)])])
        elif what < 0.85:
            del data[k:]
        else:
            data += data[:k]
    return bytes(data)


PLAIN = ["brightness", "contrast", "grayscale", "invert", "opacity", "saturate", "sepia"]


def offset(r):
    return r.choice(["0", "1", "2.5", "-3", "4px", "-.5em", "0%", "5%", number(r) + r.choice(UNITS), number(r)])


def shadow(r, names):
    """Two or three lengths with a colour before, after, on both sides or nowhere, and their near misses."""
    tint = lambda: r.choice(["currentColor", "currentColor", "currentcolor", "red", "#f00", "#12345", "rgb(1,2,3)", "hsl(9,9%,9%)", "rgb(1.,2,3)", colour(r, names), colour(r, names)])
    gap = lambda: r.choice([" ", " ", " ", "", "  ", "\t", "\n", ","])
    parts = [offset(r) for _ in range(r.choice([0, 1, 2, 2, 2, 3, 3, 3, 3, 4]))]
    if r.random() < 0.35:
        parts.insert(0, tint())
    if r.random() < 0.45:
        parts.append(tint())
    return "".join(p + gap() for p in parts[:-1]) + "".join(parts[-1:])


def argument(r, name, names):
    k = r.random()
    if k < 0.15:
        return ""
    if name == "drop-shadow":
        return shadow(r, names)
    if name == "blur":
        return r.choice(["5", "-0", "5%", "-5%", "1px", "1e", number(r), number(r) + r.choice(UNITS)])
    if name == "hue-rotate":
        return r.choice(["0", "-0", "1", "90deg", "1turn", number(r), number(r) + r.choice(ANGLES)])
    if name == "url":
        return r.choice(["#a", "#é€b", "#", "a", "#a'b", "# a", "#a b", "#a\tb", "'#a'", "#a(b", "##"])
    return r.choice(["1", "0.5", "50%", "-0", "-1%", "1 %", number(r), number(r) + "%"])


def filter_value(r, names):
    name = r.choice(PLAIN + ["blur", "blur", "blur", "hue-rotate", "hue-rotate", "drop-shadow", "drop-shadow", "drop-shadow", "drop-shadow", "url", "url"])
    shown = name if r.random() < 0.97 else r.choice([name.upper(), name.capitalize(), name + "x", name[:-1], "none", "é", "-", "foo"])
    return shown + r.choice(["", "", "", "", " ", "\t"]) + r.choice(["(", "(", "(", "(", "(", "(", "(", "["]) + spaces(r) + argument(r, name, names) + spaces(r) + r.choice([")"] * 12 + ["", "))"])


def filters(r, names):
    text = spaces(r) + "".join(filter_value(r, names) + spaces(r) for _ in range(r.choice([0, 1, 1, 1, 2, 2, 3, 4, 6])))
    return text + r.choice([""] * 10 + ["none", "none ", "nonex", "é"])


def places(r, data):
    return r.choice([0] * 12 + [r.randint(0, len(data) + 1), len(data), len(data) + 1, 2**64 - 1])


def filter_lists(r, count, names, damage):
    for _ in range(count):
        data = filters(r, names).encode()
        if damage:
            data = damaged(r, data)
        yield line("filter", data, places(r, data))


def sequences(words, most, before=""):
    """Steps from place 0 of all sequences of up to `most` words."""
    for n in range(most + 1):
        for seq in itertools.product(words, repeat=n):
            yield line("filter", before + "".join(seq), 0)


def filter_short():
    yield from sequences(["blur(", "sepia(", "url(", ")", "(", " ", "1", "-", "%", "none", "#", "é"], 5)
    yield from sequences(["1", " ", "-2", "3%", "4px", "red", "currentColor", "rgb(1,2,3)", "1.", "#f00", ")"], 5, "drop-shadow(")
    yield from sequences(["1 2", " ", "-3", "3%", "-3%", "4", "red", "currentColor", "rgb(1.", ")"], 5, "drop-shadow(1 2")
    yield from sequences(["0", "1", "-", ".", "e", "deg", "grad", "rad", "turn", "d", " ", ")"], 4, "hue-rotate(")
    for name in PLAIN + ["blur", "url", "hue-rotate", "drop-shadow", "none", "foo", "Blur", "BLUR", ""]:
        for arg in ["", " ", "1", "-1", "-0", "0", "50%", "-5%", "1px", "1 2", "#a", "#", "red 1 2", "1 2 3 red", "1.", "x", "\u00e9"]:
            for shape in ["{}({})", "{} ({})", " {}({}) ", "{}({}", "{}{})", "{}( {} )", "blur() {}({})", "{}({})none", "{}({}) none", "{}({})\u00e9"]:
                yield line("filter", shape.format(name, arg), 0)
    for text in ["blur()sepia(\u00e9)", "\u00e9blur()", "url(#\u00e9) blur()", "  none  ", "none x", "blur( ) none", "url(#\u20ac\U0001f600)\tblur()", "drop-shadow(1 2 -3 red) sepia(", "\u3000"]:
        for place in [*range(len(text.encode()) + 2), 2**64 - 1]:
            yield line("filter", text, place)


def filter_numbers():
    for n in NUMBERS:
        for sign in ["", "-", "+", " ", "\t-"]:
            for unit in UNITS:
                for shape in ["blur({})", "drop-shadow({} 1)", "drop-shadow(1 {})", "drop-shadow(1 2 {})", "drop-shadow(1 2 {}red)", "drop-shadow(red 1 2 {})", "drop-shadow(1 2 {} currentColor)"]:
                    yield line("filter", shape.format(sign + n + unit), 0)
            for unit in ANGLES:
                yield line("filter", f"hue-rotate({sign + n + unit})", 0)
            for name in PLAIN:
                yield line("filter", f"{name}({sign + n})", 0)
                yield line("filter", f"{name}({sign + n}%)", 0)
            for shape in ["rgb({},2,3)", "rgb(1,{},3)", "hsl({},1,1)", "rgb(1,2,3,{})"]:
                yield line("filter", f"drop-shadow({shape.format(sign + n)} 1 2)", 0)
                yield line("filter", f"drop-shadow(1 2 {shape.format(sign + n)})", 0)


def filter_limits(r):
    for n in [4094, 4095, 4096, 4097]:
        for t in [b"", b"blur()", b"none", b"url(#a)", b"sepia(", b"foo()", b"blur(\xc3\xa9)"]:
            rest = n - len(t)
            for whole in [b" " * rest + t, t + b" " * rest, t * (n // max(1, len(t))), b"url(#" + b"\xc3\xa9" * ((n - 6) // 2) + b")", t + b"x" * rest, b"blur(" + b"0" * (n - 6) + b")"]:
                for place in [0, len(whole) // 2, max(0, len(whole) - 6), len(whole), len(whole) + 1]:
                    yield line("filter", whole, place)


CALLS = ["color", "length", "lengths", "angle", "iri", "funciri", "paint", "inherit"]


def text_of(r, call, names):
    if call == "color":
        return spaces(r) + colour(r, names) + r.choice(["", "", "", " ", ")", "é"])
    if call == "length":
        return length(r)
    if call == "lengths":
        return lengths(r)
    if call == "angle":
        return angle(r)
    if call == "iri":
        return spaces(r) + r.choice(["#", "#", ""]) + "".join(r.choice("ab#)é \u00a0'") for _ in range(r.randint(0, 6))) + spaces(r)
    if call == "funciri":
        return spaces(r) + link(r) + spaces(r) + r.choice(["", "", "", "x"])
    return paint(r, names)


def one(r, call, data, names):
    if call == "lengths":
        return line(call, data, r.choice([0, 0, r.randint(0, len(data) + 1), len(data), len(data) + 1, 2**64 - 1]))
    if call == "inherit":
        other = text_of(r, "paint", names).encode()
        if r.random() < 0.2:
            other = damaged(r, other)
        own = r.choice([b"inherit", b" inherit\t", data, data])
        return f"inherit {field(own)} {field(other)}"
    return line(call, data)


def grammar(r, count, names, damage):
    for _ in range(count):
        call = r.choice(CALLS)
        data = text_of(r, call, names).encode()
        yield one(r, call, damaged(r, data) if damage else data, names)


def short(r, count):
    yield from tokens("length", list("19.+-eEmpxicnt% "), 4, r, count)
    yield from tokens("angle", ["1", "0", ".", "-", "e", "deg", "grad", "rad", "turn", "d", "r", " ", "%"], 4, r, count)
    yield from tokens("iri", ["#", " ", "a", ")", "é", "\t", "\u00a0", "#b"], 5, r, count)
    yield from tokens("funciri", ["url(", " ", "'", '"', "#", "a", ")", "é", "\u00a0", "u"], 5, r, count)
    yield from tokens("color", ["#", "0", "a", "F", "g", " ", ")", "é"], 6, r, count)
    yield from tokens("color", ["rgb(", "hsla(", "rgb", "1", "50%", "-3", ",", " ", ")", ".5", "300", "é"], 5, r, count)
    yield from tokens("paint", ["none", "inherit", "currentColor", "url(#a)", "red", "rgb(1,2,3)", "rgb(1.", " ", "\u2003", "#12", ")", "1e23", "url("], 4, r, count)
    for n in range(4):
        for seq in itertools.product("1 ,.e-px%é", repeat=n):
            text = "".join(seq)
            for place in range(len(text.encode()) + 2):
                yield line("lengths", text, place)
    words = ["inherit", " inherit ", "Inherit", "none", "red", "x", "", "url(#a) inherit", "rgb(1.", "\u00a0inherit\u3000"]
    for own in words:
        for parent in words + [" url(#é) none", "\u2003red\u2003"]:
            yield f"inherit {field(own.encode())} {field(parent.encode())}"
            yield f"inherit {field(own.encode())} {field(parent.encode() + bytes([0xFF]))}"
            yield f"inherit {field(own.encode() + bytes([0xC0]))} {field(parent.encode())}"


def words(r, names):
    for name in names:
        for w in [name, name.upper(), name.capitalize(), name + "x", name[:-1], "x" + name, name + " ", " " + name, name + ")", name.replace("e", "E"), "-" + name]:
            yield line("color", w)
            yield line("paint", w)
    for call in ["color", "paint", "iri", "funciri", "length", "angle"]:
        for w in WHITE + ALIKE:
            for t in ["red", "none", "#a", "url(#a)", "url(#a) red", "url('#a')", "1px", "1deg", "rgb(1,2,3)"]:
                yield line(call, w + t)
                yield line(call, t + w)
                yield line(call, w + w + t + w)
                yield line(call, t[:2] + w + t[2:])
        for w in WHITE + ALIKE:
            yield line(call, f"url('#a{w}')")
            yield line(call, f"url('#{w}a{w}{w}' )")
    for call in CALLS:
        for bad in ILL:
            for t in [b"", b"red", b"#a", b"1px", b"\xc3\xa9", b"url(#a) red"]:
                for data in [bad + t, t + bad, t + bad + t]:
                    yield one(r, call, data, names)


def numbers(r):
    for n in NUMBERS:
        for sign in ["", "-", "+", " ", "\t-"]:
            for unit in UNITS:
                yield line("length", sign + n + unit)
                yield line("lengths", sign + n + unit, 0)
            for unit in ANGLES:
                yield line("angle", sign + n + unit)
            for shape in ["rgb({},2,3)", "rgb({}%,2,3)", "rgb(1,{},3)", "rgb(1%,{}%,3)", "rgb(1,2,{})", "rgb(1,2,3,{})", "hsl({},1,1)", "hsl(1,{}%,50%)", "hsl(1,50%,{})", "hsla(1,2%,3%,{})", "{}"]:
                yield line("color", shape.format(sign + n))
                yield line("paint", " " + shape.format(sign + n))
                yield line("paint", "url(#a) " + shape.format(sign + n))
    for c in range(256):
        for t in [f"{c}", f"{c}.5", f"{c}.49999999999999", f"-{c}", f"{c}.500000000000001"]:
            yield line("color", f"rgb({t},{t},{t})")
        for p in [f"{c * 100 / 255:.14f}", f"{(c + 0.5) * 100 / 255:.14f}", f"{c}"]:
            yield line("color", f"rgb({p}%,{p}%,{p})")
        for a in [f"{c / 255:.16f}", f"{(c + 0.5) / 255:.16f}", f"{c / 100}"]:
            yield line("color", f"rgba(0,0,0,{a})")
    for h in range(-720, 1081, 5):
        for s in ["100%,50%", "30%,70%", "1,0.5", "50%,25%", "33.3%,66.6%"]:
            yield line("color", f"hsl({h},{s})")
    for h in ["359.9", "359.99", "359.999", "359.9999", "359.99999", "359.999999", "359.9999999", "-0.00001", "-1e-22", "60.00001", "59.99999", "119.99999", "179.99999", "239.99999", "299.99999", "9007199254740991", "1e22"]:
        for s in ["100%,50%", "50%,50%", "100%,25%", "0%,50%", "100%,100%", "100%,0%"]:
            yield line("color", f"hsl({h},{s})")


def limits(r, names):
    for call in CALLS:
        for n in [4094, 4095, 4096, 4097]:
            for t in ["", "red", "1px", "1deg", "#a", "url(#a)", "rgb(1,2,3)", "none", "url(#a) none"]:
                data = t.encode()
                for whole in [b" " * (n - len(data)) + data, data + b" " * (n - len(data)), data + b"x" * (n - len(data)), b"\xc3\xa9" * (n // 2) + b"a" * (n % 2)]:
                    yield one(r, call, whole, names)
            yield one(r, call, b"0" * n, names)
            yield one(r, call, b"1." + b"0" * (n - 2), names)
            yield one(r, call, b"#" + b"a" * (n - 1), names)
            yield one(r, call, b" " * (n - 1) + b"\xff", names)
            yield one(r, call, b"url('#" + b"a" * (n - 8) + b"')", names)


def cases(kind, count, seed, names):
    r = random.Random(f"{kind} {seed}")
    families = {
        "short": lambda: short(r, count),
        "words": lambda: words(r, names),
        "numbers": lambda: numbers(r),
        "limits": lambda: limits(r, names),
        "grammar": lambda: grammar(r, count, names, False),
        "damaged": lambda: grammar(r, count, names, True),
        "filter-short": filter_short,
        "filter-numbers": filter_numbers,
        "filter-limits": lambda: filter_limits(r),
        "filters": lambda: filter_lists(r, count, names, False),
        "filters-damaged": lambda: filter_lists(r, count, names, True),
    }
    if kind == "all":
        return itertools.chain.from_iterable(cases(k, count, seed, names) for k in families)
    return families[kind]()


if __name__ == "__main__":
    if len(sys.argv) != 5:
        sys.exit("usage: generate.py KIND COUNT SEED KEYWORDS.tsv")
    table = keywords(sys.argv[4]) + ["transparent"]
    for text in cases(sys.argv[1], int(sys.argv[2]), int(sys.argv[3]), table):
        print(text)
