#!/usr/bin/env python3
"""p12.py HOW CALL COUNT SEED KEYWORDS WILD COMMAND..: holds a program that speaks the line protocol to document 02, P12, "Capitals change nothing".

CALL is `color` or `strict`. The texts are the lines of WILD's color.txt and paint.txt, every sequence of up to 4 telling pieces, whole and in the brackets of rgb( and hsla(,
and COUNT made by generate.py's grammar, every second one damaged. Each is asked as it is and with 8 random changes of case: what is accepted must stay accepted with
the same four channels, what is refused must stay refused. HOW is `case`; `letter` puts another letter for each that it changes, and shows that the run can fail.
Exit status 1 where any change tells."""
import collections
import itertools
import pathlib
import random
import subprocess
import sys

from generate import damaged, keywords, line, text_of

CHANGES = 8
PIECES = ["rgb", "HsL", "(", ")", "#", "1", "e", "M", "x", "f", "-", ",", " ", "red", "\u00c9"]
FRAMES = ["{}", "rgb({}", "hsla(1{},2%,3%,4)"]


def texts(r, count, names, wild):
    for name in ("color.txt", "paint.txt"):
        yield from pathlib.Path(wild, name).read_bytes().split(b"\n")[:-1]
    for frame in FRAMES:
        for n in range(5 if frame == "{}" else 4):
            for pieces in itertools.product(PIECES, repeat=n):
                yield frame.format("".join(pieces)).encode()
    for i in range(count):
        text = text_of(r, "color", names).encode()
        yield damaged(r, text) if i % 2 else text


def changed(r, text, how):
    """The text with at least one of its letters changed, if it has any."""
    letters = [i for i, b in enumerate(text) if 65 <= b <= 90 or 97 <= b <= 122]
    other = (lambda b: b ^ 32) if how == "case" else (lambda b: b - 1 if b in b"Zz" else b + 1)
    found = bytearray(text)
    for i in r.sample(letters, r.randint(1, len(letters))) if letters else []:
        found[i] = other(found[i])
    return bytes(found)


def asked(command, call, data):
    """The refusal's number and the four channels that each text is answered."""
    lines = "".join(line(call, text) + "\n" for text in data)
    out = subprocess.run(command, input=lines, capture_output=True, text=True, check=True).stdout.split("\n")[:-1]
    words = [answer.split(" ") for answer in out]
    if len(words) != len(data) or not all(len(w) >= 10 for w in words):
        sys.exit(f"p12.py: {command} does not answer {call}")
    return [(int(w[0]), w[-4:]) for w in words]


def main(how, call, count, seed, table, wild, command):
    r = random.Random(f"capitals {seed}")
    data = list(texts(r, count, keywords(table) + ["transparent"], wild))
    rows = [[text] + [changed(r, text, how) for _ in range(CHANGES)] for text in data]
    answers = asked(command, call, [text for row in rows for text in row])
    told = collections.Counter()
    for i, row in enumerate(rows):
        (number, channels), *others = answers[i * len(row):(i + 1) * len(row)]
        told["refused" if number else "accepted"] += 1
        for text, (other, found) in zip(row[1:], others):
            told["unchanged"] += text == row[0]
            told["refused by another number"] += number != 0 != other != number
            if (other == 0) != (number == 0) or (number == 0 and found != channels):
                told["exceptions"] += 1
                if told["exceptions"] <= 5:
                    print(f"{row[0]!r} {number} {channels}\n{text!r} {other} {found}")
    print(f"{len(rows)} texts, {told['accepted']} accepted, {told['refused']} refused; {len(rows) * CHANGES} changes, {told['unchanged']} of them of texts with no letter, "
          f"{told['refused by another number']} refused by another number; {told['exceptions']} exceptions")
    return 1 if told["exceptions"] else 0


if __name__ == "__main__":
    if len(sys.argv) < 8 or sys.argv[1] not in ("case", "letter"):
        sys.exit("usage: p12.py case|letter color|strict COUNT SEED KEYWORDS.tsv WILD COMMAND..")
    sys.exit(main(sys.argv[1], sys.argv[2], int(sys.argv[3]), int(sys.argv[4]), sys.argv[5], sys.argv[6], sys.argv[7:]))
