#!/usr/bin/env python3
"""p1.py cases COUNT SEED KEYWORDS: writes cases of the writers of colours, by the line protocol (docs/RUNS.md), to standard output.
p1.py answers KEYWORDS: answers such cases from standard input, by document 02's words (P1) alone.

The cases are the request's smallest inputs, lines that are none, every keyword in each size, every form, and then COUNT at random; the same
arguments give the same lines. KEYWORDS is a table with a name, its red, green and blue on each line."""
import random
import sys

MARK = 0xEE
LENT = 4096
SMALLEST = ["hex 1 24 17 34 51 128", "hex 1 24 17 34 51 68", "hex 1 24 17 34 51 255", "hex 0 4 17 34 51 255", "hex 1 4 17 34 51 255", "hex 1 3 17 34 51 255", "hex 0 7 255 0 171 255",
            "hex 0 6 255 0 171 255", "hex 0 9 255 0 171 254", "hex 0 8 255 0 171 254", "hex 1 5 17 34 51 68", "hex 1 4 17 34 51 68", "hex 0 0 0 0 0 0", "hex 1 0 0 0 0 0", "hex 1 5 0 0 0 0",
            "hex 0 4096 1 2 3 4", "hex 1 9 1 34 51 255", "hex 1 9 17 2 51 255", "hex 1 9 17 34 3 255", "hex 1 9 17 34 51 254",
            "keyword 24 0 0 0 0", "keyword 24 0 0 0 255", "keyword 5 0 0 0 255", "keyword 4 0 0 0 255", "keyword 0 1 2 3 255", "keyword 0 0 0 0 0", "keyword 0 255 0 0 255", "keyword 2 255 0 0 255",
            "keyword 3 255 0 0 255", "keyword 24 255 0 0 254", "keyword 24 0 255 255 255", "keyword 24 255 0 255 255", "keyword 4096 250 250 210 255", "keyword 20 250 250 210 255",
            "keyword 19 250 250 210 255"]
NO_CASES = ["hex", "keyword", "hex 2 9 0 0 0 0", "hex 0 4097 0 0 0 0", "hex 0 9 256 0 0 0", "hex 0 9 0 0 0", "hex 0 9 0 0 0 0 0", "hex 0 9 0 0 0 -1", "hex  0 9 0 0 0 0", "hex 0 9 0 0 0 0 ",
            "keyword 4097 0 0 0 0", "keyword 9 0 0 0 256", "keyword 9 0 0 0", "keyword 9 0 0 0 0 0", "keyword x 0 0 0 0", "Hex 0 9 0 0 0 0", "keyword -"]


def table(path):
    """Each keyword's channels, by its name."""
    with open(path) as f:
        rows = [line.split("\t") for line in f if not line.startswith("#")]
    return {name: (int(r), int(g), int(b)) for name, r, g, b, *_ in rows}


def hex_text(color, short):
    """"`#` and lower-case hex, six digits if alpha is 255, else eight; on request the three or four digit form where every
    channel is a doubled digit, otherwise the long one"."""
    digits = "".join(f"{n:02x}" for n in color)
    if short and digits[::2] == digits[1::2]:
        return "#" + (digits[::2][:3] if color[3] == 255 else digits[::2])
    return "#" + (digits[:6] if color[3] == 255 else digits)


def keyword_text(color, names):
    """"The first in alphabetical order with those channels, given only for alpha 255"; None for none."""
    same = [name for name, channels in names.items() if channels == tuple(color[:3])]
    return min(same) if same and color[3] == 255 else None


def set_back(text, size):
    """"Bytes after it stay"; "16 buffer too short, 17 no keyword; both write nothing"."""
    lent = bytearray([MARK] * size)
    code, length = (17, 0) if text is None else (16, 0) if size < len(text) else (0, len(text))
    if code == 0:
        lent[:length] = text.encode()
    return f"{code} {length} {lent.hex() or '-'}"


def numbers(fields, bounds):
    """The fields as decimal numbers within the bounds, None where they are not."""
    if len(fields) != len(bounds) or not all(f.isascii() and f.isdigit() for f in fields):
        return None
    values = [int(f) for f in fields]
    return values if all(v <= most for v, most in zip(values, bounds)) else None


def answer(line, names):
    call, *fields = line.split(" ")
    if call == "hex" and (v := numbers(fields, [1, LENT] + 4 * [255])):
        return set_back(hex_text(v[2:], v[0] == 1), v[1])
    if call == "keyword" and (v := numbers(fields, [LENT] + 4 * [255])):
        return set_back(keyword_text(v[1:], names), v[0])
    return "?"


def cases(count, seed, names):
    yield from SMALLEST
    yield from NO_CASES
    for name, (r, g, b) in names.items():
        for size in (0, len(name) - 1, len(name), len(name) + 1, 24):
            yield f"keyword {size} {r} {g} {b} 255"
        yield f"keyword 24 {r} {g} {b} 254"
        yield f"keyword 24 {r} {g} {b ^ 1} 255"
        yield f"hex 1 9 {r} {g} {b} 255"
    for size in range(11):
        for short in (0, 1):
            for color in ("18 52 86 120", "18 52 86 255", "17 34 51 68", "17 34 51 255"):
                yield f"hex {short} {size} {color}"
    for digit in range(16):
        for alpha in (0, 17, 238, 254, 255):
            yield f"hex 1 12 {digit * 17} {255 - digit * 17} {digit * 17} {alpha}"
            yield f"hex 0 12 {digit} {digit * 16} {255 - digit} {alpha}"
    r = random.Random(seed)
    channel = lambda: r.choice([r.randrange(256), r.randrange(16) * 17, 0, 255])
    alpha = lambda: r.choice([255, 255, channel()])
    for _ in range(count):
        size = r.choice([r.randrange(25), 24, r.randrange(64)])
        if r.random() < 0.6:
            yield f"hex {r.randrange(2)} {size} {channel()} {channel()} {channel()} {alpha()}"
        else:
            red, green, blue = r.choice([*names.values(), (channel(), channel(), channel())])
            yield f"keyword {size} {red} {green} {blue} {alpha()}"


def main(args):
    if len(args) == 4 and args[0] == "cases":
        for line in cases(int(args[1]), int(args[2]), table(args[3])):
            print(line)
    elif len(args) == 2 and args[0] == "answers":
        names = table(args[1])
        for line in sys.stdin:
            print(answer(line.rstrip("\n"), names))
    else:
        sys.exit("usage: p1.py cases COUNT SEED KEYWORDS | p1.py answers KEYWORDS")


if __name__ == "__main__":
    main(sys.argv[1:])
