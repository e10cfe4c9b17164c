#!/usr/bin/env python3
"""The report of a workshop's list, by the rules alone: plain, slow, and independent of the program.

    tools/expected.py < examples/joints.in

The reports in crates/cases/data and crates/joints/stdout that no other implementation gave were made
with it. S, L, D and V have their lengths, and no stage takes them.
"""
import sys

WIDTH = 6
MOST_BYTES = 65536
FIELDS = {b'A': 3, b'P': 3, b'B': 11, b'W': 5, b'X': 1,
          b'S': 0, b'L': 5, b'D': 1, b'V': 0}
BEFORE, DRAFTING = 'before', 'drafting'
TAKEN = {BEFORE: {b'A'}, DRAFTING: {b'P', b'B', b'W', b'X'}}

ANNEXES = (1, 2)
GRADES = (235, 275, 355)
SIZES = (16, 20, 24, 27, 30)
CLASSES = (46, 56, 68, 88, 109)
PLATES, BOLT_GROUPS, WELDS = 50, 50, 50


class Refused(Exception):
    def __init__(self, number, *details):
        self.number = number
        self.details = details


def number(field):
    """The value of six bytes, or None when they are no well-formed number."""
    digits = field.lstrip(b' ')
    negative = digits[:1] == b'-'
    if negative:
        digits = digits[1:]
    if not digits or any(c not in b'0123456789' for c in digits):
        return None
    if digits[:1] == b'0' and (len(digits) > 1 or negative):
        return None
    value = 0
    for c in digits:
        value = 10 * value + c - ord('0')
    return -value if negative else value


def between(low, high):
    return lambda v: low <= v <= high


def among(values):
    return lambda v: v in values


mark = between(1, 9999)


def limits(letter, f):
    """One test per field, in order; f[0] is field 1."""
    if letter == b'A':
        return [among(ANNEXES), between(100, 200), between(100, 200)]
    if letter == b'P':
        return [mark, between(4, 40), among(GRADES)]
    if letter == b'X':
        return [mark]

    def other_plate(v):
        return mark(v) and v != f[1]
    if letter == b'W':
        return [mark, mark, other_plate, between(1, 400), between(1, 1000)]
    if letter == b'B':
        e = between(1, 400)

        def pitch(count):
            return (lambda v: v == 0) if count == 1 else e
        return [mark, mark, other_plate, among(SIZES), among(CLASSES),
                between(1, 10), between(1, 4),
                e, pitch(f[5]), e, pitch(f[6])]
    raise AssertionError(letter)


class Book:
    def __init__(self):
        self.stage = BEFORE
        self.annex = None
        self.plates = []        # marks, in order of entry
        self.bolt_groups = []
        self.welds = []

    def line(self, text):
        """Do one line (without its line feed) or raise Refused."""
        letter, rest = text[:1], text[1:]
        if letter not in FIELDS:                      # the empty line too
            raise Refused(11)
        if len(rest) != WIDTH * FIELDS[letter]:
            raise Refused(12)
        if letter not in TAKEN[self.stage]:
            raise Refused(13)
        f = [number(rest[i:i + WIDTH]) for i in range(0, len(rest), WIDTH)]
        for i, v in enumerate(f):
            if v is None:
                raise Refused(14, i + 1)
        for i, (v, inside) in enumerate(zip(f, limits(letter, f))):
            if not inside(v):
                raise Refused(21, i + 1)
        if letter == b'A':
            self.annex = f
            self.stage = DRAFTING
        elif letter == b'P':
            if f[0] in self.plates:
                raise Refused(22, 1)
            if len(self.plates) >= PLATES:
                raise Refused(25)
            self.plates.append(f[0])
        elif letter in (b'B', b'W'):
            if f[0] in self.bolt_groups or f[0] in self.welds:
                raise Refused(22, 1)
            for i in (1, 2):
                if f[i] not in self.plates:
                    raise Refused(23, i + 1)
            kind, places = ((self.bolt_groups, BOLT_GROUPS) if letter == b'B'
                            else (self.welds, WELDS))
            if len(kind) >= places:
                raise Refused(25)
            kind.append(f[0])
        elif letter == b'X':
            for kind in (self.bolt_groups, self.welds):
                if f[0] in kind:
                    kind.remove(f[0])
                    break
            else:
                raise Refused(23, 1)


def row(line, answer, *details):
    cells = [line, answer, *details]
    cells += [0] * (6 - len(cells))
    out = ''.join('%6d' % c for c in cells)
    assert len(out) == 36
    return out.encode() + b'\n'


def report(data):
    if len(data) > MOST_BYTES:
        return row(0, 15)
    if not data or data[-1:] != b'\n':
        return row(0, 16)
    book, out = Book(), []
    for n, text in enumerate(data[:-1].split(b'\n'), 1):
        try:
            book.line(text)
            out.append(row(n, 0))
        except Refused as r:
            out.append(row(n, r.number, *r.details))
    return b''.join(out)


if __name__ == '__main__':
    sys.stdout.buffer.write(report(sys.stdin.buffer.read()))
