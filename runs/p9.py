#!/usr/bin/env python3
"""Strict unless asked (document 02, P9), said once more and apart from the program.

p9.py cases MOST COUNT SEED KEYWORDS    writes inputs of swatch: the order's smallest, then every sequence of up to MOST telling pieces, lines about the limit, and
                                        p4.py's functions and COUNT texts by its grammar, some of them damaged, behind a first line that asks, nearly asks or is not there
p9.py texts CASES                       writes the text that each of them reads, as a case for the oracle
p9.py asked KEYWORDS CASES LOOSE        writes what `lines` is to answer; LOOSE are the oracle's answers to these texts
p9.py hand ANSWERS                      holds the first answers to those written below by hand
p9.py sample CASES ANSWERS COUNT SEED CASES-OUT ANSWERS-OUT
                                        picks COUNT cases: those by hand, the shortest of every kind of answer, then at random as many of each kind
p9.py program COMMAND CASES ANSWERS COUNT SEED
                                        gives COUNT of the inputs to the program itself, in pieces; where a line feed ends the text its input is not closed,
                                        and it has to answer and end all the same

Which line is the text and by which reading is said below; the loose answers are the oracle's, with the number split (p8.py), and what is strict is p4.py's to say."""
import functools
import itertools
import random
import subprocess

import p4
import statement
from p8 import line

READINGS = {b"read=loose": "color", b"read=strict": "strict"}


def chosen(given):
    """The call and the text: "a first line `read=loose` brings it back for the line after it, and `read=strict` may be said too"."""
    first, *others = given.split(b"\n")
    return (READINGS[first], (others or [b""])[0]) if first in READINGS else ("strict", first)


def given_of(case):
    """The input of a case, None where a line is no case."""
    call, _, text = case.partition(" ")
    digits = "" if text == "-" else text
    if call != "swatch" or not text or len(digits) % 2 or set(digits) - set("0123456789abcdef"):
        return None
    return bytes.fromhex(digits)


def asked(strict, case, loose):
    given = given_of(case)
    if given is None:
        return "?"
    number, position, place, *_, red, green, blue, alpha = p4.house(strict, line(*chosen(given)), loose).split(" ")
    return f"code={number}\nat={place if number == '2' else position}\nrgba={red},{green},{blue},{alpha}\n".encode().hex()


# The smallest inputs by hand: number and position, channels where one is read.
PARTS = "rgb(20%,50,20%)"
HAND = [
    (PARTS, 18, 11), (f"{PARTS}\n", 18, 11), (f"read=loose\n{PARTS}\n", 0, 0, 51, 255, 51, 255), (f"read=loose\n{PARTS}", 0, 0, 51, 255, 51, 255), (f"read=strict\n{PARTS}\n", 18, 11), ("read=strict\n#1234", 18, 6), ("read=loose\n#1234", 0, 0, 17, 34, 51, 68),
    ("red", 0, 0, 255, 0, 0, 255), ("red\n", 0, 0, 255, 0, 0, 255), ("red\nblue\n", 0, 0, 255, 0, 0, 255), ("red\r\n", 0, 0, 255, 0, 0, 255), ("", 4, 0), ("\n", 4, 0), ("\nred", 4, 0), ("\nread=loose\nred", 4, 0),
    # No line after it: the text is empty.
    ("read=loose", 4, 0), ("read=strict", 4, 0), ("read=loose\n", 4, 0), ("read=strict\n", 4, 0), ("read=loose\n\nred", 4, 0), ("read=strict\n\nred\n", 4, 0),
    # Another word.
    ("read=", 5, 0), ("read=\nred", 5, 0), ("read=Loose", 5, 0), ("read=Loose\nred", 5, 0), ("READ=loose\nred", 5, 0), ("read=loose \nred", 5, 0), (" read=loose\nred", 5, 0), ("read=loose\r\nred", 5, 0), ("read=strict\r\nred", 5, 0), ("read=loos\nred", 5, 0),
    ("read=loosee\nred", 5, 0), ("read=stric\nred", 5, 0), ("read= loose\nred", 5, 0), ("read=loose\tred", 5, 0), ("read=\u00e9\nred", 5, 0), ("read\nred", 5, 0), ("read:loose\nred", 5, 0), ("reads=loose\nred", 5, 0), ("read=loose;\nred", 5, 0), ("read=loose\0\nred", 5, 0),
    # 1 and 2 come before it.
    (b"read=\xff", 2, 5), (b"read=\xff\nred", 2, 5), (b"read=loose\xff\nred", 2, 10), (b"\xc3\xa9\xff\nred", 2, 2), (b"read=loose\nred\xff", 2, 3), (b"read=loose\nred\n\xff", 0, 0, 255, 0, 0, 255), (b"red\n\xff", 0, 0, 255, 0, 0, 255),
    ("read=" + "x" * 4091, 5, 0), ("read=" + "x" * 4092, 1, 0), ("read=" + "x" * 4092 + "\nred", 1, 0),
    # A second one is the text.
    ("read=loose\nread=strict\nred", 5, 0), ("read=strict\nread=loose\nred", 5, 0), ("read=loose\nread=loose", 5, 0),
    # Positions and the limit count in the text's own line.
    ("read=loose\nred)", 6, 4), ("read=strict\nred)", 6, 4), ("red)\n", 6, 4), ("read=loose\nrgba(0,0,0,50%)\n", 7, 14), ("read=loose\nrgb(10,20%,30)", 9, 10), ("rgb(\n", 22, 5), ("read=loose\nrgb(", 22, 5), ("read=loose\nrgb(1,\n2,3)", 4, 0),
    (" " * 4096, 4, 0), (" " * 4097, 1, 0), (" " * 4096 + "\n", 4, 0), (" " * 4097 + "\nred", 1, 0), ("read=loose\n" + " " * 4096, 4, 0), ("read=loose\n" + " " * 4097, 1, 0), ("read=strict\n" + " " * 4097 + "\nred", 1, 0),
    ("read=strict\n" + " " * 4091 + "#1234", 18, 4097), ("read=loose\n" + " " * 4093 + "red\n" + "x" * 5000, 0, 0, 255, 0, 0, 255),
]
FAR = [b" " * 200000 + b"\nred", b"read=strict\n" + b" " * 200000 + b"\nred", b"red\n" + b"x" * 70000, b"read=loose\nred\n" + b"x" * 70000, b" " * 70000]
NO_CASES = ["swatch", "swatch ", "swatch 7", "swatch FF", "swatch - -", "Swatch 726564"]

PIECES = [b"read=", b"loose", b"strict", b"\n", b"\r", b" ", b"red", b"#1234", b"#123", b"x", b"=", b"READ", b"\xff"]
HEADS = [b"", b"read=loose\n", b"read=strict\n"]
NEAR = [b"read=loose", b"read=strict", b"read=Loose\n", b"READ=STRICT\n", b"read=loose\r\n", b" read=loose\n", b"read=\n", b"\n", b"read=loose \n", b"read=strict\nread=loose\n", b"read=\xff\n"]


def limits():
    for head, n, fill, text, end in itertools.product(HEADS + NEAR, [4084, 4085, 4086, 4095, 4096, 4097, 4098, 4108, 4109, 8192], [b" ", b"x"], [b"", b"red", b"#1234", b"\xff"], [b"", b"\n", b"\nred"]):
        yield head + fill * (n - len(text)) + text + end
        yield head + text + fill * (n - len(text)) + end


def cases(most, count, seed, keywords):
    for given, *_ in HAND:
        yield line("swatch", given)
    yield from NO_CASES
    pieces = (b"".join(seq) for n in range(most + 1) for seq in itertools.product(PIECES, repeat=n))
    for given in itertools.chain(FAR, pieces, limits()):
        yield line("swatch", given)
    r = random.Random(seed)
    functions = (text.encode() for text in p4.functions())
    for text in itertools.chain(functions, p4.by_grammar(keywords, count, seed)):
        given = r.choice(HEADS if r.random() < 0.8 else NEAR) + text + r.choice([b"", b"\n", b"\nred\n", b"\r\n"])
        yield line("swatch", p4.damaged(r, given) if r.random() < 0.3 else given)


def texts(path):
    with open(path) as f:
        for case in f:
            given = given_of(case.rstrip("\n"))
            print("?" if given is None else line("color", chosen(given)[1]))
    return 0


def hand(path):
    wrong = 0
    with open(path) as f:
        for (given, number, at, *channels), answer in zip(HAND, itertools.islice(f, len(HAND)), strict=True):
            right = f"code={number}\nat={at}\nrgba={','.join(map(str, channels or [0] * 4))}\n"
            if bytes.fromhex(answer).decode() != right:
                wrong += 1
                print(f"{given[:40]!r}: {right!r} is right, not {answer.strip()}")
    print(f"{len(HAND)} by hand, {wrong} different")
    return 1 if wrong else 0


def kinds(case, fields):
    """What tells answers apart: what asks, the number, and how the text ends."""
    given = given_of(case)
    if given is None:
        return None, [(case.partition(" ")[0], "?")]
    call, text = chosen(given)
    number = bytes.fromhex(fields[0]).split(b"\n")[0]
    said = given.split(b"\n")[0] in READINGS
    if len(given) > 200:
        return None, [("long", said, call, number)]
    return (said, call, number), [("lines", given.count(b"\n")), ("ends", text[-1:] == b"\r", given[-1:] == b"\n")]


def runs(command, given, r):
    """What the program prints for an input that comes in pieces, and is left open where a line feed has ended the text."""
    ended = given.count(b"\n") > (given.split(b"\n")[0] in READINGS)
    with subprocess.Popen([*command.split(" ")], stdin=subprocess.PIPE, stdout=subprocess.PIPE, bufsize=0) as p:
        try:
            while given:
                n = r.choice([1, 2, 3, 11, 12, 4096, 70000])
                p.stdin.write(given[:n])
                given = given[n:]
        except BrokenPipeError:
            pass
        if not ended:
            p.stdin.close()
        p.wait(timeout=10)
        return p.stdout.read()


def program(command, cases_path, answers_path, count, seed):
    r, wrong = random.Random(int(seed)), 0
    with open(cases_path) as a, open(answers_path) as b:
        pairs = [(given_of(case.rstrip("\n")), answer.strip()) for case, answer in zip(a, b, strict=True)]
    pairs = [pair for pair in pairs if pair[0] is not None]
    first = len(HAND) + len(FAR)
    tried = pairs[:first] + r.sample(pairs[first:], int(count) - first)
    for given, answer in tried:
        got = runs(command, given, r)
        if got.hex() != answer:
            wrong += 1
            print(f"{given[:80]!r}: {bytes.fromhex(answer)!r} is right, not {got!r}")
    print(f"{len(tried)} runs, {wrong} different")
    return 1 if wrong else 0


def cases_mode(most, count, seed, keywords):
    return statement.cases(functools.partial(cases, keywords=keywords))(most, count, seed)


def asked_mode(keywords, cases_path, loose_path):
    return statement.answers(functools.partial(asked, p4.strict_texts(keywords)), cases_path, loose_path)


if __name__ == "__main__":
    statement.run(__doc__, {
        "cases": (4, cases_mode), "texts": (1, texts), "asked": (3, asked_mode), "hand": (1, hand), "sample": (6, functools.partial(statement.sample, len(HAND) + len(NO_CASES), kinds)), "program": (5, program),
    })
