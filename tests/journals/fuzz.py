#!/usr/bin/env python3
"""Random journals on a binary of closing and on the model: both must write the same and end alike.

    fuzz.py CLOSING_BINARY [COUNT [SEED]]
"""
import io
import os
import random
import subprocess
import sys
import tempfile

import model

ODD_NUMBERS = ["0", "007", "4294967295", "4294967296", "-1", "+1", "1x", "600", "601", "70000", "99999999999999999999"]
ODD_FIGURES = ["-0", "-2147483648", "-2147483649", "2147483647", "2147483648", "0", "--1", "-", "+3"]
ODD_LINES = ["", "   \t", "# note", "page#", "PAGE", "page page", "days", "days blank x", "quote", "source", "source gap", "source yesterday", "source reserve frob", "source reserve today today", "source gap reserve yesterday", "source gap gap today", "frob", "pa\u00f1o"]


def days(rng):
    if rng.random() < 0.3:
        return "days blank"
    d1 = rng.randint(1, 5)
    d2 = d1 + rng.randint(1, 4)
    swaps = sorted(rng.sample(range(d2 + 1, 601), 5))
    top = swaps[-1]
    points = sorted(rng.sample(range(d2 + 1, max(top, d2 + 9) + 1), 8))
    uf = sorted(rng.sample(range(1, max(top, 14) + 1), 12))
    table = [d2, d1, d2, *swaps, *points, 0, *uf]
    if rng.random() < 0.4:
        table[rng.randrange(29)] = rng.randint(0, 650)
    return "days " + " ".join(map(str, table))


def board(rng, name):
    shares = [rng.choice([0, 0, 1, 3, 7, 1000, 2500, 10000]) for _ in range(8)]
    day = rng.randint(0, 100000)
    if rng.random() < 0.1:
        shares[rng.randrange(8)] = rng.choice([10001, 4000000000])
    if rng.random() < 0.1:
        day = rng.choice([100000, 100001, 4294967295])
    return "%s %d %s" % (name, day, " ".join(map(str, shares)))


def call(rng):
    name = rng.choice(["today", "today", "yesterday"])
    provider, line = str(rng.randint(0, 7)), rng.randint(0, 28)
    low, high = model.RANGES[line]
    value = rng.choice([low, high, rng.randint(low, high), rng.randint(low, high), low - 1, high + 1])
    figure = str(value)
    chance = rng.random()
    if chance < 0.02:
        provider = rng.choice(["8", "9", "4294967295"])
    elif chance < 0.04:
        line = rng.choice([29, 30, 4294967295])
    elif chance < 0.05:
        figure = rng.choice(ODD_FIGURES)
    elif chance < 0.06:
        provider = rng.choice(ODD_NUMBERS)
    if rng.random() < 0.15:
        return "unquote %s %s %s" % (name, provider, line)
    return "quote %s %s %s %s" % (name, provider, line, figure)


def line(rng):
    chance = rng.random()
    if chance < 0.005:
        return rng.choice(ODD_LINES)
    if chance < 0.02:
        return days(rng)
    if chance < 0.04:
        return board(rng, rng.choice(["today", "yesterday"]))
    if chance < 0.08:
        return "source " + rng.choice([b.decode() for b in model.PILES])
    if chance < 0.14:
        return "page"
    return call(rng)


def journal(rng):
    lines = [days(rng)] if rng.random() < 0.5 else []
    lines += [board(rng, "yesterday"), board(rng, "today"), "source gap reserve today yesterday"]
    lines += [line(rng) for _ in range(rng.randint(1, 250))]
    glue = rng.choice(["\n", "\n", "\r\n", " # x\n", "\t\n"])
    return (glue.join(lines) + rng.choice(["", "\n"])).encode("latin-1")


def failures(binary, count, seed):
    """The random journals on which program and model part, each told in a line or two."""
    wrong = []
    with tempfile.TemporaryDirectory() as folder:
        for turn in range(count):
            rng = random.Random(seed * 1000003 + turn)
            names = []
            for k in range(rng.choice([1, 1, 1, 2])):
                names.append(os.path.join(folder, "j%d" % k))
                with open(names[-1], "wb") as file:
                    file.write(journal(rng))
            difference = compare(binary, names)
            if difference:
                wrong.append("turn %d of seed %d: %s" % (turn, seed, difference))
    return wrong


def compare(binary, names):
    """How program and model part on these files; nothing where they are alike."""
    out, err = io.StringIO(), io.StringIO()
    status = model.run(names, out, err)
    ran = subprocess.run([binary, *names], capture_output=True)
    wanted = out.getvalue().encode().split(b"\n")
    given = ran.stdout.split(b"\n")
    for k, (x, y) in enumerate(zip(wanted, given)):
        if x != y:
            return "line %d of the output: model %r, program %r" % (k + 1, x, y)
    if (len(wanted), err.getvalue().encode(), status) != (len(given), ran.stderr, ran.returncode):
        return "model %r, program %r" % ((err.getvalue(), status), (ran.stderr, ran.returncode))
    return None


def main():
    binary = os.path.abspath(sys.argv[1])
    count = int(sys.argv[2]) if len(sys.argv) > 2 else 200
    seed = int(sys.argv[3]) if len(sys.argv) > 3 else 1
    wrong = failures(binary, count, seed)
    print("\n".join(wrong + ["%d journals, %d differ" % (count, len(wrong))]))
    sys.exit(1 if wrong else 0)


if __name__ == "__main__":
    main()
