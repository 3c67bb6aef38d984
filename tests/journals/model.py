#!/usr/bin/env python3
"""The journal language of `closing`, written from its rules alone.

    model.py FILE...      prints on standard output and standard error what `closing FILE...` should;
                          ends with the same status
"""
import os
import sys

LINES = 29
BLANK = [2, 1, 2, 92, 183, 275, 367, 550, 9, 32, 62, 92, 183, 275, 367, 550] + list(range(0, 361, 30))
RANGES = [(4_000_000, 20_000_000)] + [(0, 500_000)] * 7 + [(-2_000_000, 2_000_000)] * 8 + [(200_000_000, 800_000_000)] * 13
POINTS = range(8, 16)
UF = range(16, 29)


class Bad(Exception):
    """The line is no command."""


class Refused(Exception):
    def __init__(self, number, place):
        self.number, self.place = number, place


def words_of(line):
    """Line: bytes, with or without its newline."""
    said = line.split(b"\n")[0].split(b"#")[0]
    words, word = [], b""
    for i in range(len(said)):
        byte = said[i:i + 1]
        if byte in (b" ", b"\t", b"\r"):
            if word:
                words.append(word)
            word = b""
        else:
            word += byte
    return words + ([word] if word else [])


def digits(word):
    return len(word) > 0 and all(48 <= b <= 57 for b in word)


def number(words, k):
    if k >= len(words):
        raise Bad("word %d is missing" % (k + 1))
    if not digits(words[k]) or int(words[k]) >= 2**32:
        raise Bad("word %d is no number from 0 to 4294967295" % (k + 1))
    return int(words[k])


def figure(words, k):
    if k >= len(words):
        raise Bad("word %d is missing" % (k + 1))
    word = words[k]
    minus = word[:1] == b"-"
    size = word[1:] if minus else word
    value = int(size) * (-1 if minus else 1) if digits(size) else None
    if value is None or not -2**31 <= value < 2**31:
        raise Bad("word %d is no number from -2147483648 to 2147483647" % (k + 1))
    return value


def which(words, k):
    if k >= len(words):
        raise Bad("word %d is missing" % (k + 1))
    if words[k] not in (b"today", b"yesterday"):
        raise Bad("word %d is neither today nor yesterday" % (k + 1))
    return words[k].decode()


def no_more(words, count):
    if len(words) > count:
        raise Bad("word %d is one too many" % (count + 1))


def lawful(days):
    """The lowest line in breach, or None."""
    for line, day in enumerate(days):
        ok = day <= 600
        if line == 0:
            ok = ok and day == days[2]
        elif line in (1, 17):
            ok = ok and day >= 1
        elif line in (3, 8):
            ok = ok and day > days[2]
        elif line == 16:
            ok = ok and day == 0
        else:
            ok = ok and day > days[line - 1]
        if line in POINTS or line >= 17:
            ok = ok and day <= days[7]
        if not ok:
            return line
    return None


class Board:
    def __init__(self, valuation, days, shares):
        if valuation > 100_000:
            raise Refused(25, 0)
        for provider, share in enumerate(shares):
            if share > 10_000:
                raise Refused(24, provider)
        self.valuation, self.days, self.shares, self.calls = valuation, days, shares, {}

    def at(self, provider, line):
        if provider > 7:
            raise Refused(21, provider)
        if line > 28:
            raise Refused(22, line)

    def quote(self, provider, line, value):
        self.at(provider, line)
        low, high = RANGES[line]
        if not low <= value <= high:
            raise Refused(23, line)
        self.calls[provider, line] = value

    def unquote(self, provider, line):
        self.at(provider, line)
        self.calls.pop((provider, line), None)

    def figures(self):
        out = []
        for line in range(LINES):
            heard = [(self.shares[p], self.calls[p, line]) for p in range(8) if self.shares[p] > 0 and (p, line) in self.calls]
            weight = sum(share for share, _ in heard)
            out.append(sum(share * value for share, value in heard) // weight if weight else None)
        return out


class Reserve:
    def __init__(self, first, second):
        self.first, self.second = first, second
        self.valuation, self.days = first.valuation, first.days

    def figures(self):
        ours, theirs = self.first.figures(), self.second.figures()
        absent = "".join("x" if ours[line] is None else "." for line in POINTS)
        out = list(ours)
        if "xxx" in absent:
            for line in POINTS:
                out[line] = theirs[line]
        if out[0] is None:
            out[0] = theirs[0]
        return out


class Gap:
    def __init__(self, below):
        self.below, self.valuation, self.days = below, below.valuation, below.days

    def figures(self):
        shown = self.below.figures()
        out = list(shown)
        for group in (POINTS, UF):
            for line in group:
                lower = [k for k in group if k < line and shown[k] is not None]
                upper = [k for k in group if k > line and shown[k] is not None]
                if shown[line] is None and lower and upper:
                    a, b = lower[-1], upper[0]
                    x, s, x2 = self.days[a], self.days[line], self.days[b]
                    out[line] = (shown[a] * (x2 - s) + shown[b] * (s - x)) // (x2 - x)
        return out


PILES = {
    b"today": ("today",),
    b"gap today": ("today",),
    b"reserve today yesterday": ("today", "yesterday"),
    b"gap reserve today yesterday": ("today", "yesterday"),
}


def pile_of(words):
    """The pile after `source`, or what is wrong with it."""
    name = b" ".join(words[1:])
    if name in PILES:
        return name
    rest = words[1:]
    k = 1 if rest[:1] == [b"gap"] else 0
    if len(rest) <= k:
        raise Bad("word %d is missing" % (k + 2))
    if rest[k] == b"today":
        no_more(words, k + 2)
    if rest[k] != b"reserve":
        raise Bad("word %d is out of place in a source" % (k + 2))
    for at, wanted in ((k + 2, b"today"), (k + 3, b"yesterday")):
        if at >= len(words):
            raise Bad("word %d is missing" % (at + 1))
        if words[at] != wanted:
            raise Bad("word %d is out of place in a source" % (at + 1))
    no_more(words, k + 4)
    raise AssertionError(words)


class Journal:
    def __init__(self):
        self.days, self.boards, self.pile = BLANK, {}, None

    def board(self, name):
        if name not in self.boards:
            raise Bad("no board for %s yet" % name)
        return self.boards[name]

    def carry_out(self, words):
        """The answer: the result after `ok`, and the detail lines."""
        call = words[0]
        if call == b"days":
            if words[1:2] == [b"blank"]:
                no_more(words, 2)
                self.days = BLANK
                return "", []
            days = [number(words, 1 + k) for k in range(LINES)]
            no_more(words, 1 + LINES)
            breach = lawful(days)
            if breach is not None:
                raise Refused(15, breach)
            self.days = days
        elif call in (b"today", b"yesterday"):
            day, *shares = [number(words, 1 + k) for k in range(9)]
            no_more(words, 10)
            self.boards[call.decode()] = Board(day, self.days, shares)
        elif call == b"quote":
            name, provider, line, value = which(words, 1), number(words, 2), number(words, 3), figure(words, 4)
            no_more(words, 5)
            self.board(name).quote(provider, line, value)
        elif call == b"unquote":
            name, provider, line = which(words, 1), number(words, 2), number(words, 3)
            no_more(words, 4)
            self.board(name).unquote(provider, line)
        elif call == b"source":
            pile = pile_of(words)
            for name in PILES[pile]:
                self.board(name)
            self.pile = pile
        elif call == b"page":
            no_more(words, 1)
            if self.pile is None:
                raise Bad("no source chosen yet")
            return self.page()
        else:
            raise Bad("unknown command")
        return "", []

    def page(self):
        source = self.boards["today"]
        if b"reserve" in self.pile:
            source = Reserve(source, self.boards["yesterday"])
        if self.pile.startswith(b"gap"):
            source = Gap(source)
        rows = [
            "  line %d day %d %s" % (line, source.days[line], "absent" if value is None else "figure %d" % value)
            for line, value in enumerate(source.figures())
        ]
        return " day %d" % source.valuation, rows


def run(files, out, err):
    journal, number = Journal(), 0
    for name in files:
        try:
            with open(name, "rb") as file:
                text = file.read()
        except OSError as why:
            err.write("error: %s: %s (os error %d)\n" % (name, os.strerror(why.errno), why.errno))
            return 1
        lines = text.split(b"\n")
        if lines[-1] == b"":
            lines.pop()
        for line in lines:
            number += 1
            words = words_of(line)
            if not words:
                continue
            try:
                result, rows = journal.carry_out(words)
                out.write("%d: ok%s\n" % (number, result))
                for row in rows:
                    out.write(row + "\n")
            except Refused as refused:
                out.write("%d: refused %d source %d\n" % (number, refused.number, refused.place))
            except Bad as bad:
                err.write("error: line %d: %s\n" % (number, bad))
                return 1
    out.write("end: 0 accounts, received sum 0\n")
    return 0


if __name__ == "__main__":
    status = run(sys.argv[1:] or ["/dev/stdin"], sys.stdout, sys.stderr)
    sys.stdout.flush()
    sys.exit(status)
