"""What the statements apart from the program (p2.py, p3.py, p4.py, p6.py, p8.py) have in common: their modes, how a sample is chosen, and how a text is damaged."""
import collections
import itertools
import random
import sys


def answers(told, cases_path, answers_path):
    with open(cases_path) as a, open(answers_path) as b:
        for case, answer in zip(a, b, strict=True):
            print(told(case.rstrip("\n"), answer.rstrip("\n")))
    return 0


def sample(by_hand, kinds, cases_path, answers_path, count, seed, cases_out, answers_out):
    """The first cases, which are by hand, the shortest of every kind, then in turn one of each group; kinds gives a case's group, or None, and its kinds in it."""
    with open(cases_path) as a, open(answers_path) as b:
        pairs = list(zip(a.read().split("\n")[:-1], b.read().split("\n")[:-1], strict=True))
    order = list(range(by_hand, len(pairs)))
    random.Random(int(seed)).shuffle(order)
    groups, shortest = collections.defaultdict(list), {}
    for i in order:
        group, keys = kinds(pairs[i][0], pairs[i][1].split(" "))
        if group:
            groups[group].append(i)
        for k in keys:
            shortest[group, k] = min(i, shortest.get((group, k), i), key=lambda i: (len(pairs[i][0]), i))
    taken = {*range(by_hand), *shortest.values()}
    for i in itertools.chain.from_iterable(itertools.zip_longest(*groups.values())):
        if len(taken) < int(count) and i is not None:
            taken.add(i)
    with open(cases_out, "w") as a, open(answers_out, "w") as b:
        for i in sorted(taken):
            a.write(pairs[i][0] + "\n")
            b.write(pairs[i][1] + "\n")
    return 0


def damage(r, text, put, times, shares):
    """text, a bytearray, damaged so many times: by shares of 1 a byte is replaced by one of put, one is put in, one is cut, or all behind one is."""
    for _ in range(times):
        i, what = r.randint(0, len(text)), r.random()
        if what < shares[0]:
            text[i:i + 1] = r.choice(put)
        elif what < shares[1]:
            text[i:i] = r.choice(put)
        elif what < shares[2]:
            del text[i:i + 1]
        else:
            del text[i:]


def run(doc, modes):
    """Runs the mode that the first argument names, by how many arguments each takes and what it does with them; any other call shows the doc."""
    name, *args = sys.argv[1:] or [""]
    count, does = modes.get(name, (None, None))
    if count != len(args):
        sys.exit(doc)
    sys.exit(does(*args))


def cases(made):
    """The mode that writes cases: MOST, COUNT and SEED are numbers."""
    def write(*args):
        for case in made(*map(int, args)):
            print(case)
        return 0
    return write
