#!/usr/bin/env python3
"""joins.py PAIRS SEED KEYWORDS COMMAND..: holds a program that speaks the line protocol to demand 3, on pairs of filter lists.

A, B and A followed by B are each walked from list place to list place, all pairs at once, a round for each step. Where A ends
without a refusal and not by `none`, the walk of both must be A's values, a list place at A's end moved past the spaces that
B begins with, and then B's answers moved: list places, links and (where the program tells them) stretches by A's bytes, listed
positions by A's characters. Every list must hand out at most a sixth as many values as it has bytes, and end after a refusal.
Exit status 1 where any pair fails."""
import random
import subprocess
import sys

from generate import ANGLES, PLAIN, UNITS, field, filters, keywords, spaces

SPACES = b" \t\n\r"
LIMIT = 4096


def good_value(r, names):
    """A value that is read."""
    size = lambda: r.choice(["0", "1", "2.5", "10", ".5", "1e2", "007"]) + r.choice(UNITS[:1] + UNITS[2:10])
    tint = lambda: r.choice(["red", "#f00", "#12345678", "currentColor", "rgb(1, 2%,3)", "hsl(9,9%,9%)", "rgba(1,2,3,.5)", "transparent", r.choice(names)])
    name = r.choice(PLAIN + ["blur", "blur", "hue-rotate", "hue-rotate", "drop-shadow", "drop-shadow", "drop-shadow", "url", "url"])
    if name == "blur":
        inner = r.choice(["", size()])
    elif name == "hue-rotate":
        inner = r.choice(["", "0", "-0", "-5" + r.choice(ANGLES[1:5]), "1.5" + r.choice(ANGLES[1:5])])
    elif name == "drop-shadow":
        sizes = [size(), "-" + size()] + r.choice([[], [size()], ["-3"], ["5%"], ["-5%"]])
        first = [tint()] if r.random() < 0.3 else []
        last = [r.choice(["red", "rgb(1,2,3)"])] if not first and r.random() < 0.4 else []
        inner = r.choice([" ", "  ", "\t"]).join(first + sizes + last)
    elif name == "url":
        inner = "#" + r.choice(["a", "é€b", "a(b", "#", "none", "x\ty", "😀"])
    else:
        inner = r.choice(["", "1", "0.5", "50%", "0", "1e-2"])
    return name + r.choice(["", "", " "]) + "(" + spaces(r) + inner + spaces(r) + ")"


def pair(r, names):
    a = spaces(r) + "".join(good_value(r, names) + spaces(r) for _ in range(r.choice([0, 1, 1, 1, 2, 2, 3, 5])))
    k = r.random()
    if k < 0.08:
        a += r.choice(["none", "none ", "foo()", "blur(", "é"])
    elif k < 0.1:
        a += " " * (LIMIT - len(a.encode()) - r.randint(0, 40))
    k = r.random()
    if k < 0.15:
        b = r.choice(["none", " none\t", "none x", "nonex", "  none  "])
    elif k < 0.3:
        b = spaces(r) + good_value(r, names) + spaces(r) + r.choice(["none", "é", "sepia(é", "foo(é)", "url(#é", "blur(-1é)", "drop-shadow(1", ")"])
    elif k < 0.35:
        b = r.choice(["", " ", "\t\n", ")", "(", "é", "%"])
    else:
        b = r.choice(["", "", " ", "\n "]) + (filters(r, names) if k < 0.75 else "".join(good_value(r, names) + spaces(r) for _ in range(r.randint(1, 4))))
    return a.encode(), b.encode()


def split(answer):
    """An answer's words, its stretch taken to the end; the base's protocol tells none."""
    words = answer.split(" ")
    if words[6] in ("value", "end", "refused"):
        return words
    return words[:6] + words[8:] + words[6:8]


def walks(command, texts):
    """The answers of each text from place 0 to its end or its refusal, and one step more."""
    found, open_at = [[] for _ in texts], [(i, 0, False) for i in range(len(texts))]
    while open_at:
        lines = "".join(f"filter {place} {field(texts[i])}\n" for i, place, _ in open_at)
        out = subprocess.run(command, input=lines, capture_output=True, text=True, check=True).stdout.split("\n")
        after = []
        for (i, place, last), answer in zip(open_at, out, strict=False):
            words = split(answer)
            found[i].append(words)
            if not last:
                after.append((i, int(words[7]), words[6] != "value"))
        open_at = after
    return found


def moved(words, bytes_before, characters_before):
    words = list(words)
    if int(words[0]) > 5:
        words[1] = str(int(words[1]) + characters_before)
    if words[6] == "refused" and len(words) == 10:
        words[8:] = [str(int(w) + bytes_before) for w in words[8:]]
    words[7] = str(int(words[7]) + bytes_before)
    if words[8:9] == ["url"]:
        words[9] = str(int(words[9]) + bytes_before)
    return words


def passing(words, end, lead):
    words = list(words)
    if int(words[7]) == end:
        words[7] = str(end + lead)
    return words


def sound(text, walk):
    """The bound, and that the step after the last answer is the end."""
    values = sum(w[6] == "value" for w in walk)
    return 6 * values <= len(text) and walk[-1][:6] == ["0", "0", "0", "0", "0", "-"] and walk[-1][6:8] == ["end", str(len(text))] and set(walk[-1][8:]) <= {"0"}


def main(pairs, seed, table, command):
    r = random.Random(f"joins {seed}")
    names = keywords(table)
    texts = [(a, b) for a, b in (pair(r, names) for _ in range(pairs * 2)) if len(a + b) <= LIMIT][:pairs]
    first, second, both = (walks(command, part) for part in ([a for a, _ in texts], [b for _, b in texts], [a + b for a, b in texts]))
    held = exceptions = values = steps = 0
    for (a, b), x, y, z in zip(texts, first, second, both):
        steps += len(x) + len(y) + len(z)
        values += sum(w[6] == "value" for w in z)
        fine = sound(a, x) and sound(b, y) and sound(a + b, z)
        place = int(x[-3][7]) if len(x) > 2 else 0
        if x[-2][6] == "end" and not a[place:].strip(SPACES):
            held += 1
            lead = len(b) - len(b.lstrip(SPACES))
            want = [passing(w, len(a), lead) for w in x[:-2]] + [moved(w, len(a), len(a.decode())) for w in y]
            fine = fine and z == want
        if not fine:
            exceptions += 1
            if exceptions <= 5:
                print(f"A {a!r}\nB {b!r}\n  A   {x}\n  B   {y}\n  A B {z}")
    print(f"{len(texts)} pairs, {held} of them with A read to its end, {steps} steps, {values} values of A B, {exceptions} exceptions")
    return 1 if exceptions else 0


if __name__ == "__main__":
    if len(sys.argv) < 5:
        sys.exit("usage: joins.py PAIRS SEED KEYWORDS.tsv COMMAND..")
    sys.exit(main(int(sys.argv[1]), int(sys.argv[2]), sys.argv[3], sys.argv[4:]))
