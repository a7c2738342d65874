#!/usr/bin/env python3
"""compare.py CASES ORACLE REPLAY: holds the replayed answers to the oracle's, line by line.

Equal to the letter, but that where both refuse by 9 a position may differ: those are counted apart. Prints the first
differences and a count of the oracle's codes; exit status 1 where any line differs."""
import collections
import itertools
import sys


def main(cases, oracle, replay):
    codes, total, nines, different = collections.Counter(), 0, 0, 0
    with open(cases) as a, open(oracle) as b, open(replay) as c:
        for case, want, got in itertools.zip_longest(a, b, c):
            total += 1
            if want is not None:
                codes[want.split(" ")[0].strip()] += 1
            if want == got:
                continue
            w, g = (want or "").split(), (got or "").split()
            if w[:1] == ["9"] == g[:1] and w[:1] + w[2:] == g[:1] + g[2:]:
                nines += 1
                if nines <= 3:
                    print(f"9 at another position: {case.strip()}\n  oracle {want.strip()}\n  replay {got.strip()}")
                continue
            different += 1
            if different <= 10:
                print(f"case   {(case or '').strip()[:400]}\noracle {(want or '').strip()[:400]}\nreplay {(got or '').strip()[:400]}")
    print(f"{total} cases, {different} different, {nines} refused by 9 at another position")
    print("codes: " + ", ".join(f"{k}: {codes[k]}" for k in sorted(codes, key=lambda k: (len(k), k))))
    return 1 if different else 0


if __name__ == "__main__":
    if len(sys.argv) != 4:
        sys.exit("usage: compare.py CASES ORACLE REPLAY")
    sys.exit(main(*sys.argv[1:]))
