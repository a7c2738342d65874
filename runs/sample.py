#!/usr/bin/env python3
"""sample.py ORACLE EXAMPLES KEYWORDS STDIN STDOUT: makes replay's committed sample, the cases and the oracle's answers.

First the cases of examples.py, then at least 12,000 of every call but filter and, behind the oracle's own examples of filter lists,
8,000 steps of them. EXAMPLES are the oracle's own cases, KEYWORDS as for generate.py. The same arguments give the same lines.

What is picked: one case of every kind of answer (call, code, unit, kind, state) comes first, up to FEW of each, and every colour
keyword; the rest is drawn at random. Lines over LONG bytes are taken only as one of a kind."""
import itertools
import random
import subprocess
import sys

import examples
from generate import cases, keywords

FEW, LONG, LARGE = 40, 400, 2
TOLD = set("none em ex px in cm mm pt pc % deg grad rad turn value end refused inherit currentColor context-fill context-stroke color url own parent higher"
           " blur drop-shadow brightness contrast grayscale hue-rotate invert opacity sepia saturate".split())


def attempts(case, words):
    """What a shadow's text tells of attempts that were given up: a colour's, a sign's, a percentage's."""
    place, text = case.split(" ")[1:3]
    shadow = bytes.fromhex(text.replace("-", ""))[int(place) : int(words[7])] if words[8:9] == ["drop-shadow"] else b""
    return tuple(w in shadow for w in [b"currentColor", b"rgb", b"-", b"%"]) + (words[-1] == "-",)


def kind(case, answer):
    words = answer.split()
    call = case.split(" ")[0]
    return (call, words[0], " ".join(w for w in words[6:] if w in TOLD), attempts(case, words) if call == "filter" else ())


def pick(pairs, count, seed):
    r = random.Random(seed)
    order = list(range(len(pairs)))
    r.shuffle(order)
    seen, names, taken = {}, set(), set()
    for i in order:
        case, answer = pairs[i]
        k, most = kind(case, answer), FEW if len(case) <= LONG else LARGE
        key = (k, len(case) <= LONG)
        if seen.get(key, 0) < most:
            seen[key] = seen.get(key, 0) + 1
            taken.add(i)
        call, text = case.split(" ")[:2]
        if call == "color" and answer.startswith("0 ") and not text.startswith("23") and "28" not in text and text not in names:
            names.add(text)
            taken.add(i)
    for i in order:
        if len(taken) >= count:
            break
        if len(pairs[i][0]) <= LONG:
            taken.add(i)
    return [pairs[i] for i in sorted(taken)]


def answered(oracle, lines):
    out = subprocess.run([oracle], input="".join(line + "\n" for line in lines), capture_output=True, text=True, check=True).stdout
    return list(zip(lines, out.split("\n")[:-1], strict=True))


def made(kinds, seed, most, names):
    """Cases of these kinds, of each at most so many."""
    return itertools.chain.from_iterable(itertools.islice(cases(kind, most or 20000, seed, names), most) for kind in kinds)


def main(oracle, own, table, stdin, stdout):
    names = keywords(table) + ["transparent"]
    with open(own) as f:
        lines = f.read().split("\n")[:-1]
    steps = [line for line in lines if line.startswith("filter ")]
    texts = [line for line in lines if not line.startswith("filter ")]
    texts += itertools.chain(made(["short", "words", "numbers", "limits"], 1, None, names), made(["grammar"], 2, 200000, names), made(["damaged"], 2, 100000, names))
    lists = steps + list(itertools.chain(made(["filter-short", "filter-numbers", "filter-limits"], 1, None, names), made(["filters"], 2, 200000, names), made(["filters-damaged"], 2, 100000, names)))
    sample = answered(oracle, examples.cases()) + pick(answered(oracle, texts), 12000, 1) + answered(oracle, steps) + pick(answered(oracle, lists), 8000, 1)
    with open(stdin, "w") as a, open(stdout, "w") as b:
        for case, answer in sample:
            a.write(case + "\n")
            b.write(answer + "\n")


if __name__ == "__main__":
    if len(sys.argv) != 6:
        sys.exit("usage: sample.py ORACLE EXAMPLES KEYWORDS STDIN STDOUT")
    main(*sys.argv[1:])
