#!/usr/bin/env python3
"""Questions to an annex with their answers, in exact fractions and in the usual form of each clause:
plain, slow, and independent of the program.

    tools/questions.py layout      the layout clauses, each at both sides of its edge
    tools/questions.py strength    the strength clauses, each at the last size that meets it and at the next
    tools/questions.py check FILE  compares the answers of a table with its own

A row: make γM0 γM2 | B d class rows columns e1 p1 e2 p2 tA gradeA tB gradeB (or W a L tA gradeA tB gradeB) |
clause | s1 s2 s3 | 1 met, 0 not. The tables layout.txt and strength.txt in crates/questions/data were made with it.
"""
import random
import sys
from fractions import Fraction as F
from math import ceil

EN, SEA = 1, 2
HOLE = {16: 18, 20: 22, 24: 26, 27: 30, 30: 33}
AREA = {16: 157, 20: 245, 24: 353, 27: 459, 30: 561}
FUB = {46: 400, 56: 500, 68: 600, 88: 800, 109: 1000}
FU = {EN: {235: 360, 275: 430, 355: 490}, SEA: {235: 360, 275: 410, 355: 470}}
BETA = {235: F(80, 100), 275: F(85, 100), 355: F(90, 100)}
GREATEST_SIZE = 20000


def alpha_v(make, cls):
    return F(6, 10) if make == EN and cls in (46, 56, 88) else F(5, 10)


def fy(make, t, grade):
    return grade - 10 if make == SEA and t > 16 else grade


class Bolts:
    def __init__(self, d, cls, rows, columns, e1, p1, e2, p2, ta, ga, tb, gb):
        self.d, self.cls, self.rows, self.columns = d, cls, rows, columns
        self.e1, self.p1, self.e2, self.p2 = e1, p1, e2, p2
        self.plates = ((ta, ga), (tb, gb))

    def text(self):
        (ta, ga), (tb, gb) = self.plates
        numbers = (self.d, self.cls, self.rows, self.columns, self.e1, self.p1, self.e2, self.p2, ta, ga, tb, gb)
        return 'B ' + ' '.join(map(str, numbers))

    def layout(self, make, clause):
        d0, t = HOLE[self.d], min(p[0] for p in self.plates)
        least = {11: (self.e1, F(12, 10)), 12: (self.e2, F(12 if make == EN else 15, 10))}
        apart = {13: (self.rows, self.p1, F(22, 10)), 14: (self.columns, self.p2, F(24 if make == EN else 30, 10))}
        if clause in least:
            e, times = least[clause]
            return e >= times * d0
        if clause in apart:
            lines, p, times = apart[clause]
            return lines < 2 or p >= times * d0
        if clause in (15, 16):
            return (self.e1 if clause == 15 else self.e2) <= 4 * t + 40
        if clause in (17, 18):
            lines, p = (self.rows, self.p1) if clause == 17 else (self.columns, self.p2)
            return lines < 2 or p <= min(14 * t, 200)
        return True

    def bearing(self, make, gamma2, plate, force, along):
        t, grade = plate
        d0, fu = HOLE[self.d], FU[make][grade]
        here, there = (self.rows, self.e1, self.p1), (self.columns, self.e2, self.p2)
        (lines, e, p), (lines2, e2, p2) = (here, there) if along else (there, here)
        alpha = [F(e, 3 * d0), F(FUB[self.cls], fu), F(1)]
        if lines > 1:
            alpha.append(F(p, 3 * d0) - F(1, 4))
        k = [F(25, 10)]
        if make == EN:
            k.append(F(28, 10) * e2 / d0 - F(17, 10))
            if lines2 > 1:
                k.append(F(14, 10) * p2 / d0 - F(17, 10))
        return force <= self.rows * self.columns * min(alpha) * min(k) * fu * self.d * t / gamma2

    def strength(self, make, gamma0, gamma2, clause, sizes):
        if not 31 <= clause <= 41:
            return True
        if max(sizes) > GREATEST_SIZE:
            return False
        f1, f2, f3 = (100 * s for s in sizes)  # N
        n, fub, area = self.rows * self.columns, FUB[self.cls], AREA[self.d]
        shear = n * alpha_v(make, self.cls) * fub * area / gamma2
        tension = n * F(9, 10) * fub * area / gamma2
        if clause == 31:
            return f1 * f1 + f2 * f2 <= shear * shear
        if clause == 32:
            return f3 <= tension
        if clause == 33:
            rest = 1 - f3 / (F(14, 10) * tension)
            return rest >= 0 and f1 * f1 + f2 * f2 <= (rest * shear) ** 2
        plate = self.plates[clause % 2]  # even clauses are of plate A
        if clause in (34, 35, 36, 37):
            return self.bearing(make, gamma2, plate, f1 if clause < 36 else f2, clause < 36)
        t, grade = plate
        width = 2 * self.e2 + (self.columns - 1) * self.p2
        if clause in (38, 39):
            return f1 <= width * t * fy(make, t, grade) / gamma0
        net = width - self.columns * HOLE[self.d]
        return f1 <= F(9, 10) * net * t * FU[make][grade] / gamma2


class Weld:
    def __init__(self, a, length, ta, ga, tb, gb):
        self.a, self.length, self.plates = a, length, ((ta, ga), (tb, gb))

    def text(self):
        (ta, ga), (tb, gb) = self.plates
        return f'W {self.a} {self.length} {ta} {ga} {tb} {gb}'

    def layout(self, make, clause):
        a, length, t = F(self.a, 10), self.length, min(p[0] for p in self.plates)
        tests = {21: a >= 3, 22: a <= F(7, 10) * t, 23: length >= (30 if make == EN else 40),
                 24: length >= 6 * a, 25: length <= 150 * a}
        return tests.get(clause, True)

    def strength(self, make, gamma0, gamma2, clause, sizes):
        if clause != 51 and (clause != 52 or make != EN):
            return True
        if max(sizes) > GREATEST_SIZE:
            return False
        f1, f2, f3 = (100 * s for s in sizes)
        fu, grade = min((FU[make][g], g) for _, g in self.plates)
        area = 2 * F(self.a, 10) * self.length  # of both beads
        for normal, across in ((f1 + f2, f1 - f2), (f1 - f2, f1 + f2)):  # in the one bead, in the other
            sigma2, tau2, along = F(normal ** 2, 2) / area ** 2, F(across ** 2, 2) / area ** 2, f3 / area
            if clause == 51 and sigma2 + 3 * (tau2 + along ** 2) > (fu / (BETA[grade] * gamma2)) ** 2:
                return False
            if clause == 52 and sigma2 > (F(9, 10) * fu / gamma2) ** 2:
                return False
        return True


def met(make, g0, g2, component, clause, sizes):
    if clause < 30:
        return component.layout(make, clause)
    return component.strength(make, F(g0, 100), F(g2, 100), clause, sizes)


def row(make, g0, g2, component, clause, sizes):
    answer = int(met(make, g0, g2, component, clause, sizes))
    print(f'{make} {g0} {g2} | {component.text()} | {clause} | {" ".join(map(str, sizes))} | {answer}')


NONE = (0, 0, 0)


def layout():
    for make in (EN, SEA):
        for d, d0 in HOLE.items():
            for ta, tb in ((10, 12), (17, 8), (20, 40)):
                t = min(ta, tb)
                for rows, columns in ((1, 1), (1, 3), (4, 1), (3, 2)):
                    def bolts(e1, p1, e2, p2):
                        return Bolts(d, 88, rows, columns, e1, p1 if rows > 1 else 0, e2, p2 if columns > 1 else 0, ta, 275, tb, 355)
                    fair = [2 * d0, 3 * d0, 2 * d0, 3 * d0]
                    k2 = (12, 24) if make == EN else (15, 30)
                    edges = {11: (0, F(12, 10) * d0), 12: (2, F(k2[0], 10) * d0), 13: (1, F(22, 10) * d0), 14: (3, F(k2[1], 10) * d0),
                             15: (0, 4 * t + 41), 16: (2, 4 * t + 41), 17: (1, min(14 * t, 200) + 1), 18: (3, min(14 * t, 200) + 1)}
                    for clause, (place, edge) in edges.items():
                        for value in (ceil(edge) - 1, ceil(edge)):
                            row(make, 100, 125, bolts(*[value if i == place else v for i, v in enumerate(fair)]), clause, NONE)
        for ta, tb in ((10, 12), (17, 8), (40, 40)):
            t = min(ta, tb)
            for a, length in ((29, 100), (30, 100), (7 * t, 250), (7 * t + 1, 250), (40, 29), (40, 30), (40, 39), (40, 40),
                              (100, 59), (100, 60), (101, 60), (101, 61), (30, 450), (30, 451), (31, 465), (31, 466)):
                for clause in range(21, 26):
                    row(make, 100, 125, Weld(a, length, ta, 235, tb, 355), clause, NONE)
        bolts, weld = Bolts(20, 88, 2, 2, 1, 1, 1, 1, 10, 275, 10, 275), Weld(1, 1, 10, 275, 10, 275)
        for clause in (0, 1, 10, 19, 20, 21, 25, 26, 29):
            row(make, 100, 125, bolts, clause, NONE)
        for clause in (0, 1, 10, 11, 18, 19, 20, 26, 29):
            row(make, 100, 125, weld, clause, NONE)


def last_met(make, g0, g2, component, clause, parts):
    """The greatest n of up to 20,000 at which the sizes n times the parts meet the clause, or none."""
    def ok(n):
        return met(make, g0, g2, component, clause, tuple(n * p for p in parts))
    if not ok(0):
        return None
    low, high = 0, GREATEST_SIZE + 1
    while high - low > 1:
        mid = (low + high) // 2
        low, high = (mid, high) if ok(mid) else (low, mid)
    return low


def strength():
    rng = random.Random(20)
    parts = ((1, 0, 0), (0, 1, 0), (0, 0, 1), (1, 1, 0), (2, 1, 1), (1, 3, 2))
    bolts = []
    for rows, columns in ((1, 1), (1, 4), (10, 1), (2, 2), (3, 2), (10, 4)):
        for fair in (True, True, True, False, False):
            d = rng.choice(list(HOLE))
            low, high = (2 * HOLE[d], 3 * HOLE[d]) if fair else (1, HOLE[d])
            e1, p1, e2, p2 = (rng.randint(low, high) + (HOLE[d] if fair and i % 2 else 0) for i in range(4))
            bolts.append(Bolts(d, rng.choice(list(FUB)), rows, columns, e1, p1 if rows > 1 else 0, e2, p2 if columns > 1 else 0,
                               rng.choice((4, 8, 16, 17, 40)), rng.choice((235, 275, 355)), rng.choice((4, 16, 17, 30)), rng.choice((235, 275, 355))))
    # all pitches far too small: both of the least values of bearing are negative
    bolts.append(Bolts(30, 88, 3, 2, 40, 1, 1, 1, 10, 275, 20, 355))
    bolts.append(Bolts(27, 109, 2, 3, 1, 1, 50, 2, 16, 235, 17, 275))
    welds = [Weld(rng.randint(10, 400), rng.randint(5, 1000), rng.choice((4, 16, 17)), ga, rng.choice((4, 16, 17)), gb)
             for ga in (235, 275, 355) for gb in (235, 275, 355)]
    for component, clauses in [(b, range(31, 42)) for b in bolts] + [(w, (51, 52)) for w in welds]:
        for make in (EN, SEA):
            g0, g2 = rng.choice(((100, 125), (105, 125), (100, 100), (200, 200), (137, 163)))
            for clause in clauses:
                part = rng.choice(parts)
                n = last_met(make, g0, g2, component, clause, part)
                for m in (0,) if n is None else (n, n + 1):
                    row(make, g0, g2, component, clause, tuple(m * p for p in part))
    # a clause that is lacking is met, whatever the sizes; one that is not asks for sizes in range
    for sizes in ((20001, 0, 0), (0, 20001, 0), (0, 0, 20001), (4294967295, 4294967295, 4294967295)):
        for make in (EN, SEA):
            for clause in (30, 31, 32, 34, 37, 38, 41, 42, 50, 51, 52, 53, 69, 70, 255):
                row(make, 100, 125, bolts[-1], clause, sizes)
                row(make, 100, 125, welds[-1], clause, sizes)


def check(path):
    rows = wrong = 0
    for line in open(path, encoding='utf-8'):
        if line.startswith('#') or not line.strip():
            continue
        head, component, clause, sizes, answer = (part.split() for part in line.split('|'))
        make, g0, g2 = map(int, head)
        kind = Bolts if component[0] == 'B' else Weld
        rows += 1
        if int(met(make, g0, g2, kind(*map(int, component[1:])), int(clause[0]), tuple(map(int, sizes)))) != int(answer[0]):
            wrong += 1
            print('differs:', line.strip())
    print(f'{rows - wrong} of {rows} rows agree')


if __name__ == '__main__':
    if sys.argv[1] == 'check':
        check(sys.argv[2])
    else:
        {'layout': layout, 'strength': strength}[sys.argv[1]]()
