#!/usr/bin/env python3
"""Computes what the tests of programs, replies, derived rows and nodes expect, from the definitions alone and in Python's
fractions: useful paths by trying all walks, programs row by row by their names, the run of the simplex entry by entry, and each
operation of a width by its own rule. Nothing of the proved program is used. It prints a line for each case. With the word `cube` it
prints a relaxation whose run takes too many pivots, and with `tolls` such an inverse program; with
`accepted` what nodes of certificates have."""
import sys
from fractions import Fraction as F
from itertools import product
from math import gcd

# ---- numbers of a width


class Overflow(Exception):
    def __init__(self, op, left, right):
        self.op, self.left, self.right = op, left, right


class Width:
    """Operations of fractions whose numerators and denominators stay below 2^(bits - 1)."""

    def __init__(self, bits):
        self.limit = 2 ** (bits - 1)

    def fits(self, *numbers):
        return all(abs(n) < self.limit for n in numbers)

    def add(self, a, b, op="Add"):
        g = gcd(a.denominator, b.denominator)
        x, y = a.numerator * (b.denominator // g), b.numerator * (a.denominator // g)
        total = x + y if op == "Add" else x - y
        if not self.fits(x, y, total, a.denominator // g * b.denominator):
            raise Overflow(op, a, b)
        return a + b if op == "Add" else a - b

    def sub(self, a, b):
        return self.add(a, b, "Sub")

    def mul(self, a, b, op="Mul", shown=None):
        g, h = gcd(a.numerator, b.denominator), gcd(b.numerator, a.denominator)
        if not self.fits(a.numerator // g * (b.numerator // h), b.denominator // g * (a.denominator // h)):
            raise Overflow(op, a, b if shown is None else shown)
        return a * b

    def div(self, a, b):
        return self.mul(a, 1 / b, "Div", b)


# ---- instances


class Instance:
    """The instance of a text with its useful paths and its caps."""

    def __init__(self, text):
        self.arcs, self.pairs = [], []
        for words in (line.split() for line in text.splitlines()):
            if words[0] in ("free", "toll"):
                ceiling = int(words[4]) if words[0] == "toll" and len(words) > 4 and words[4] != "-" else None
                self.arcs.append((words[1], words[2], int(words[3]), words[0] == "toll", ceiling))
            elif words[0] == "pair":
                self.pairs.append((words[1], words[2], int(words[3])))
        self.tolls = [i for i, arc in enumerate(self.arcs) if arc[3]]
        self.demands = [demand for _, _, demand in self.pairs]
        self.paths = [self.useful(origin, destination) for origin, destination, _ in self.pairs]
        self.free = [paths[-1][1] for paths in self.paths]
        self.caps = [self.cap(a) for a in range(len(self.tolls))]

    def useful(self, origin, destination):
        """The sets and costs of the walks that no other has within, and the toll-free walk last."""
        found = []

        def go(node, seen, tolls, cost):
            if node == destination:
                found.append((tolls, cost))
                return
            for i, (tail, head, more, toll, _) in enumerate(self.arcs):
                if tail == node and head not in seen:
                    go(head, seen | {head}, tolls | ({self.tolls.index(i)} if toll else set()), cost + more)

        go(origin, {origin}, frozenset(), 0)
        free = min(cost for tolls, cost in found if not tolls)
        cheaper = {(frozenset(tolls), cost) for tolls, cost in found if cost < free}
        least = [p for p in cheaper if not any(q != p and q[0] <= p[0] and q[1] <= p[1] for q in cheaper)]
        number = lambda tolls: sum(2**a for a in tolls)
        return sorted(least, key=lambda p: (p[1], len(p[0]), number(p[0]))) + [(frozenset(), free)]

    def cap(self, a):
        gaps = [free - cost for paths, free in zip(self.paths, self.free) for tolls, cost in paths if a in tolls]
        ceiling = self.arcs[self.tolls[a]][4]
        gap = max(gaps, default=0)
        return gap if ceiling is None else min(gap, ceiling)

    def all_paths(self):
        return [list(range(len(paths))) for paths in self.paths]


# ---- programs


class Program:
    """Rows and columns by their names; a row is a map from columns to coefficients with a right side."""

    def __init__(self, columns, goal):
        self.columns, self.goal, self.names, self.rows, self.right = columns, goal, [], [], []

    def row(self, name, terms, right):
        entries = {}
        for column, value in terms:
            if column in self.place():
                entries[column] = entries.get(column, 0) + F(value)
        self.names.append(name)
        self.rows.append({c: v for c, v in entries.items() if v != 0})
        self.right.append(F(right))

    def place(self):
        return {column: j for j, column in enumerate(self.columns)}

    def text(self):
        place = self.place()
        lines = []
        for row, right in zip(self.rows, self.right):
            entries = sorted((place[c], v) for c, v in row.items())
            lines.append(" ".join([f"{j}:{v}" for j, v in entries] + ["<=", str(right)]))
        return "\n".join(lines + ["goal " + " ".join(str(self.goal.get(c, 0)) for c in self.columns)])


def relaxation(net, parts, cuts):
    commodities = range(len(net.pairs))
    on = [[a for a in range(len(net.tolls)) if any(a in net.paths[k][p][0] for p in parts[k])] for k in commodities]
    columns = [("T", a) for a in range(len(net.tolls))] + [("x", k, p) for k in commodities for p in parts[k]]
    columns += [("t", a, k) for k in commodities for a in on[k]]
    program = Program(columns, {("t", a, k): net.demands[k] for k in commodities for a in on[k]})
    shares = lambda k, a, value: [(("x", k, p), value(p)) for p in parts[k] if a in net.paths[k][p][0]]
    for a, cap in enumerate(net.caps):
        program.row(("cap", a), [(("T", a), 1)], cap)
    for k in commodities:
        for q, (tolls, cost) in enumerate(net.paths[k]):
            paid = [(("t", a, k), 1) for a in on[k]] + [(("x", k, p), net.paths[k][p][1]) for p in parts[k]]
            program.row(("follow", k, q), paid + [(("T", a), -1) for a in tolls], cost)
    pairs = [(a, k) for k in commodities for a in on[k]]
    for a, k in pairs:
        program.row(("below", a, k), [(("t", a, k), 1), (("T", a), -1)], 0)
    for a, k in pairs:
        program.row(("use", a, k), [(("t", a, k), 1)] + shares(k, a, lambda p: net.paths[k][p][1] - net.free[k]), 0)
    for a, k in pairs:
        link = [(("T", a), 1), (("t", a, k), -1)] + shares(k, a, lambda p: net.caps[a])
        program.row(("link", a, k), link, net.caps[a])
    for k in commodities:
        program.row(("one", k), [(("x", k, p), 1) for p in parts[k]], 1)
    for k in commodities:
        program.row(("onelow", k), [(("x", k, p), -1) for p in parts[k]], -1)
    for i, (terms, right) in enumerate(cuts):
        program.row(("cut", i), [(("x", k, p), value) for k, p, value in terms], right)
    return program


def inverse(net, choice):
    """The program of the tolls of a choice; of a conflict, where it names a path of two commodities alone."""
    tolls = range(len(net.tolls))
    pays = lambda a: sum(net.demands[k] for k, p in choice.items() if a in net.paths[k][p][0])
    goal = {("T", a): pays(a) for a in tolls} if len(choice) == len(net.pairs) else {}
    program = Program([("T", a) for a in tolls], goal)
    for a, cap in enumerate(net.caps):
        program.row(("cap", a), [(("T", a), 1)], cap)
    for k, p in sorted(choice.items()):
        for q, (others, cost) in enumerate(net.paths[k]):
            own, least = net.paths[k][p]
            program.row(("follow", k, q), [(("T", a), 1) for a in own] + [(("T", a), -1) for a in others], cost - least)
    return program


# ---- the run of the simplex


class Place(Exception):
    def __init__(self, pivot, step, row, column):
        self.text = f"Overflow {{ pivot: {pivot}, step: {step}, row: {row}, column: {column} }}"


class Run:
    """The lexicographic run of a program at a width."""

    def __init__(self, program, width):
        self.width, self.pivots = width, 0
        place = program.place()
        m, n = len(program.rows), len(program.columns)
        self.m, self.n = m, n
        self.one = any(right < 0 for right in program.right)
        extra = [F(-1)] if self.one else []
        self.rows = []
        for i, row in enumerate(program.rows):
            cells = [F(0)] * (n + m)
            for column, value in row.items():
                cells[place[column]] = value
            cells[n + i] = F(1)
            self.rows.append(cells + extra + [program.right[i]])
        last = [F(program.goal.get(c, 0)) for c in program.columns] + [F(0)] * (m + len(extra) + 1)
        self.goals = ([[F(0)] * (n + m) + [F(-1), F(0)]] if self.one else []) + [last]
        self.basis = list(range(n, n + m))

    def go(self):
        """How it ends, with the multipliers and, at an optimum, the point."""
        if self.one:
            keys = lambda i: [self.rows[i][-1]] + self.rows[i][self.n : self.n + self.m]
            self.pivot(min(range(self.m), key=keys), self.n + self.m, 1)
            while self.n + self.m in self.basis:
                column = self.entering()
                if column is None:
                    return "infeasible", self.multipliers(), None
                self.step(column)
            for cells in self.rows + self.goals:
                del cells[self.n + self.m]
            del self.goals[0]
            self.one = False
        while (column := self.entering()) is not None:
            self.step(column)
        point = [F(0)] * (self.n + self.m)
        for i, column in enumerate(self.basis):
            point[column] = self.rows[i][-1]
        return "optimal", self.multipliers(), point[: self.n]

    def multipliers(self):
        return [-v for v in self.goals[0][self.n : self.n + self.m]]

    def entering(self):
        return next((j for j in range(self.n + self.m) if self.goals[0][j] > 0), None)

    def step(self, column):
        left = [i for i in range(self.m) if self.rows[i][column] > 0]
        width = len(self.rows[0])
        for key in [width - 1] + list(range(self.n, self.n + self.m)):
            if len(left) == 1:
                break
            ratios = []
            for i in left:
                try:
                    ratios.append(self.width.div(self.rows[i][key], self.rows[i][column]))
                except Overflow:
                    raise Place(self.pivots + 1, "Ratio", i, self.column(key))
            left = [i for i, ratio in zip(left, ratios) if ratio == min(ratios)]
        self.pivot(left[0], column, self.pivots + 1)

    def column(self, j):
        """The number of a column: the right side stands behind the extra column, which phase two has not."""
        return self.n + self.m + 1 if j == len(self.rows[0]) - 1 else j

    def pivot(self, r, c, number):
        divisor = self.rows[r][c]
        for j, z in enumerate(self.rows[r]):
            try:
                self.rows[r][j] = self.width.div(z, divisor)
            except Overflow:
                raise Place(number, "Pivot", r, self.column(j))
        numbered = list(enumerate(self.rows)) + [(self.m + 2 - len(self.goals) + i, g) for i, g in enumerate(self.goals)]
        for i, cells in numbered:
            if cells is self.rows[r]:
                continue
            factor = cells[c]
            for j, x in enumerate(cells):
                try:
                    cells[j] = self.width.sub(x, self.width.mul(factor, self.rows[r][j]))
                except Overflow:
                    raise Place(number, "Pivot", i, self.column(j))
        self.basis[r] = c
        self.pivots = number


def sums(program, multipliers, width):
    """The column sums and that of the right sides, row after row; an operation that does not fit stands in its place."""
    def checked(terms):
        total = F(0)
        try:
            for value, multiplier in terms:
                total = width.add(total, width.mul(value, multiplier))
        except Overflow as overflow:
            return overflow
        return total

    columns = [checked([(row.get(c, F(0)), y) for row, y in zip(program.rows, multipliers)]) for c in program.columns]
    return columns, checked(list(zip(program.right, multipliers)))


def work(program, width):
    """The exact work on a program: how it ends, or its mark."""
    run = Run(program, width)
    try:
        end, multipliers, point = run.go()
    except Place as place:
        return place.text, None, None
    columns, right = sums(program, multipliers, width)
    if any(isinstance(s, Overflow) for s in columns + [right]):
        return "Sum", None, None
    return end, multipliers, point


def value(program, point):
    return sum(F(program.goal.get(c, 0)) * v for c, v in zip(program.columns, point))


def response(net, tolls, width):
    """The reply to tolls: paths, what is paid, and the revenue; or the commodity of which a sum does not fit."""
    paths, paid, revenue = [], [], F(0)
    for k, useful in enumerate(net.paths):
        try:
            offers = []
            for q, (used, cost) in enumerate(useful):
                total = F(0)
                for a in sorted(used):
                    total = width.add(total, tolls[a])
                offers.append((width.add(F(cost), total), -total, q))
            price, toll, path = min(offers)
            paths.append(path)
            paid.append(-toll)
            revenue = width.add(revenue, width.mul(F(net.demands[k]), -toll))
        except Overflow:
            return f"overflow {k}", None
    spaced = lambda numbers: "".join(f" {v}" for v in numbers)
    return f"revenue {revenue} paid{spaced(paid)} paths {paths}", revenue


def best(net, choice, bits):
    program = inverse(net, dict(enumerate(choice)))
    end, multipliers, point = work(program, Width(bits))
    if end == "infeasible":
        return "no tolls"
    if end != "optimal":
        return end
    text, revenue = response(net, point, Width(bits))
    if revenue is None:
        return "Sum"
    return f"value {value(program, point)} tolls" + "".join(f" {v}" for v in point) + " " + text


def evidence(net, parts, cuts, bits):
    """What is found at a node: the evidence, its value, and the point or what the reply earns."""
    if all(len(part) == 1 for part in parts):
        choice = [part[0] for part in parts]
        text = best(net, choice, bits)
        if text == "no tolls":
            return "none empty"
        if not text.startswith("value"):
            return text
        words = text.split()
        return f"inverse {words[1]} earns {words[words.index('revenue') + 1]}"
    program = relaxation(net, parts, cuts)
    if len(program.rows) * len(program.columns) > 1000000:
        return "Large"
    end, multipliers, point = work(program, Width(bits))
    if end == "infeasible":
        return "farkas empty"
    if end != "optimal":
        return end
    numbers = dict(zip(program.columns, point))
    tolls = "".join(f" {numbers[('T', a)]}" for a in range(len(net.tolls)))
    shares = "".join(" |" + "".join(f" {numbers[('x', k, p)]}" for p in part) for k, part in enumerate(parts))
    return f"dual {value(program, point)} at{tolls}{shares}"


# ---- derived rows


ORDER = ["cap", "follow", "below", "use", "link", "one", "onelow", "cut"]


def row_key(name):
    kind, *numbers = name
    if kind in ("below", "use", "link"):
        numbers = [numbers[1], numbers[0]]
    return [ORDER.index(kind)] + numbers


def multipliers_fault(program, y):
    if any(name not in program.names for name, _ in y):
        return "BadName"
    if any(row_key(s) >= row_key(t) for (s, _), (t, _) in zip(y, y[1:])):
        return "BadOrder"
    if any(v <= 0 for _, v in y):
        return "NotPositive"
    return None


def overflow_text(o):
    return f"{o.left} {dict(Add='+', Mul='*')[o.op]} {o.right} does not fit"


def cut_text(cut):
    terms, right = cut
    return "".join(f"{v} x({k},{p}) " for k, p, v in terms) + f"<= {right}"


def derive(net, earlier, derivation, bits):
    """The row of a derivation, or its first fault."""
    width = Width(bits)
    kind, *rest = derivation
    is_path = lambda k, p: k < len(net.paths) and p < len(net.paths[k])
    if kind == "conflict":
        k, p, l, q, y = rest
        if not (k < l and is_path(k, p) and is_path(l, q)):
            return "BadName"
        program = inverse(net, {k: p, l: q})
        program.goal = {}
        fault = multipliers_fault(program, y)
        if fault:
            return fault
        columns, right = sums(program, [dict(y).get(name, F(0)) for name in program.names], width)
        for s in columns:
            if isinstance(s, Overflow):
                return overflow_text(s)
            if s < 0:
                return "Column"
        if isinstance(right, Overflow):
            return overflow_text(right)
        return "NotBelowZero" if right >= 0 else ([(k, p, F(1)), (l, q, F(1))], F(1))
    if kind == "pair":
        k, p, l, cuts = rest
        if not (is_path(k, p) and l < len(net.paths) and k != l and all(i < len(earlier) for i in cuts)):
            return "BadName"
        if len(cuts) < 2 or any(i >= j for i, j in zip(cuts, cuts[1:])):
            return "BadOrder"
        row = lambda q: (sorted([(k, p, F(1)), (l, q, F(1))]), F(1))
        choices = []
        for i in cuts:
            q = next((q for q in range(len(net.paths[l])) if earlier[i] == row(q)), None)
            if q is None:
                return f"NotAConflict {i}"
            choices.append(q)
        return sorted([(k, p, F(1))] + [(l, q, F(1)) for q in set(choices)]), F(1)
    (y,) = rest
    program = relaxation(net, net.all_paths(), earlier)
    fault = multipliers_fault(program, y)
    if fault:
        return fault
    columns, right = sums(program, [dict(y).get(name, F(0)) for name in program.names], width)
    for column, s in zip(program.columns, columns):
        if column[0] != "x":
            if isinstance(s, Overflow):
                return overflow_text(s)
            if s != 0:
                return "TollColumn"
    for column, s in zip(program.columns, columns):
        if column[0] == "x" and isinstance(s, Overflow):
            return overflow_text(s)
    if isinstance(right, Overflow):
        return overflow_text(right)
    terms = [(c[1], c[2], F(s // 1)) for c, s in zip(program.columns, columns) if c[0] == "x" and s // 1 != 0]
    return terms, F(right // 1)


# ---- the cases of the tests

NETWORKS = {
    "three pairs": "toll a b 2\nfree p a 0\nfree p b 10\nfree q a 0\nfree q b 8\nfree r a 0\nfree r b 5\npair p b 1\npair q b 1\npair r b 3",
    "parallel": "free a b 10\ntoll a b 2\ntoll a b 4\npair a b 1",
    "twins": "free a b 10\ntoll a b 2\ntoll a b 2\npair a b 1",
    "triangle": "toll x y 0\ntoll y z 0\ntoll z x 0\nfree x z 1\nfree y x 1\nfree z y 1\npair x z 1\npair y x 1\npair z y 1",
    "cycle": "free a b 10\ntoll a b 2\nfree a c 0\ntoll c a 0\npair a b 5",
    **{f"ceiling {c}": f"free a b 10\ntoll a b 2 {c}\npair a b 5" for c in ("-", "20", "3", "0")},
    "farther": "toll a b 2\nfree a b 10\nfree q a 1\npair a b 1\npair q b 1",
    "many": "free a b 1000000\ntoll a b 0\npair a b 1000000",
    "many at one price": "free a b 3000\ntoll a b 0\npair a b 1000000",
    "fewer": "free a b 3000\ntoll a b 0\npair a b 1000",
    "two roads": "toll a b 0\nfree a b 1000000\nfree p q 1000000\ntoll p q 0\npair a b 1600\npair p q 1600",
}
NETS = {name: Instance(text) for name, text in NETWORKS.items()}


def cut_of(*terms, right):
    return [(k, p, F(v)) for k, p, v in terms], F(right)


def print_programs():
    three = NETS["three pairs"]
    print(relaxation(three, three.all_paths(), []).text())
    part = cut_of((0, 1, 2), (1, 1, 1), (2, 1, F(-1, 2)), right=F(3, 2))
    print(relaxation(three, [[0, 1], [0], [1]], [part]).text())
    for first in (0, 1):
        print(inverse(three, {0: first, 1: 0, 2: 0}).text())


def print_replies():
    for name, *tolls in [
        ("parallel", 8, 5), ("parallel", 8, 6), ("parallel", 9, 7), ("parallel", 9, 6), ("twins", 8, 8), ("cycle", 8, 0),
        ("three pairs", 6), ("many", 2148), ("farther", 2**127 - 3), ("farther", 2**127 - 1),
    ]:
        bits = 128 if name == "farther" else 32
        print(f"reply at {bits} bits, {name}, tolls {tolls}: {response(NETS[name], [F(t) for t in tolls], Width(bits))[0]}")
    for name, choice in [
        ("three pairs", [0, 0, 0]), ("three pairs", [1, 0, 0]), ("parallel", [0]), ("triangle", [0, 0, 0]), ("cycle", [0]),
        *[(f"ceiling {c}", [path]) for c in ("-", "20", "3", "0") for path in (0, 1)], ("many", [0]), ("many at one price", [1]),
    ]:
        for bits in (32, 64, 128):
            print(f"best tolls at {bits} bits, {name}, choice {choice}: {best(NETS[name], choice, bits)}")


def print_nodes():
    whole = [[0, 1]] * 3
    never = cut_of(right=-1)
    large = 2**30 - 1
    cases = [("three pairs", parts, []) for parts in (
        whole, [[0, 1], [0, 1], [0]], [[0, 1], [1], [1]], [[0], [1], [0, 1]], [[0]] * 3, [[1], [0], [0]])]
    cases += [("three pairs", whole, [c]) for c in (
        never, cut_of(right=1), cut_of((2, 0, 1), right=0), cut_of((0, 0, 1), right=F(1, 2)),
        cut_of((0, 0, 1), (0, 1, 1), right=0), cut_of((0, 0, F(1, 40000)), right=60000))]
    cases += [("three pairs", [[0]] * 3, [never]), ("three pairs", [[1], [0], [0]], [never])]
    cases += [("many", [[0]], []), ("many at one price", [[1]], []), ("two roads", [[0, 1]] * 2, [])]
    cases += [("fewer", [[0, 1]], [cut_of((0, 0, 2), right=-40000), cut_of((0, 0, -large), right=-40000)])]
    for name, parts, cuts in cases:
        shown = "; ".join(cut_text(c) for c in cuts) or "none"
        for bits in (32, 64, 128):
            print(f"node at {bits} bits, {name}, parts {parts}, cuts {shown}: {evidence(NETS[name], parts, cuts, bits)}")
    print(f"node at 32 bits of the cube: {evidence(*cube(), 32)}")
    for bits in (32, 64, 128):
        most = 2 ** (bits - 1) - 1
        print(f"node at {bits} bits with the greatest number: {evidence(NETS['three pairs'], whole, [cut_of((0, 0, most), right=most)], bits)}")


def cube():
    """The relaxation over the first 18 paths of three layers of toll arcs and the toll-free one, with cuts by which each share is at least
    the one before, and both together at most a bound that rises; the last share counts 32 times less."""
    tolls = "\ntoll s p 0" * 2 + "\ntoll p q 0" * 2 + "\ntoll q t 0" * 5
    net = Instance(f"free s t 1{tolls}\npair s t 1")
    cuts = [cut_of((0, 0, 1), right=F(1, 2**23))]
    for i in range(1, 18):
        times = 32 if i == 17 else 1
        cuts.append(cut_of((0, i - 1, times), (0, i, -1), right=0))
        cuts.append(cut_of((0, i - 1, times), (0, i, 1), right=F(times * (2 ** (i + 1) - 1), 2**23)))
    return net, [[*range(18), 20]], cuts


def bent_cube():
    """A network of 24 toll arcs; in the inverse program of the first paths each toll is at least the one before, and both are bounded."""
    lines = [f"toll s{i} e{i} 0" for i in range(24)] + [f"free e{i - 1} s{i} 0" for i in range(1, 24)]
    lines += [f"free q{i - 1} q{i} 1000000" for i in range(1, 18)]
    for i in range(1, 24):
        lines += [f"free a{i} s{j} 0\nfree e{j} b{i} 0" for j in (i - 1, i)] + [f"free a{i} q0 0", f"free q17 b{i} 0"]
    for i in range(24):
        far, rest = divmod(2 ** (i + 1) - 1, 10**6)
        lines += [f"free c{i} s{max(i, 1) - 1} 0", f"free e{i} d{i} 0", f"free c{i} q{17 - far} {rest}", f"free q17 d{i} 0"]
    lines += ["free t s23 0", "free e23 u 0", "free t q0 0", "free q17 u 0"]
    pairs = [f"a{i} b{i} 1" for i in range(1, 24)] + [f"c{i} d{i} 1" for i in range(24)] + ["t u 75"]
    return Instance("\n".join(lines + [f"pair {pair}" for pair in pairs]))


def print_program(program):
    place = program.place()
    print(f"columns {len(program.columns)}")
    print("goal" + "".join(f" {j}:{program.goal.get(c, 0)}" for j, c in enumerate(program.columns)))
    for row, right in zip(program.rows, program.right):
        print("row" + "".join(f" {j}:{v}" for j, v in sorted((place[c], v) for c, v in row.items())) + f" <= {right}")


def print_accepted():
    """The values of the nodes of the certificates that tests hand to the checker."""
    three = NETS["three pairs"]
    whole = [0, 1]
    conflict = cut_of((0, 1, 1), (2, 0, 1), right=1)
    large = cut_of((0, 0, 2**31 - 1), (0, 1, 2**31 - 1), right=2**31 - 1)
    for parts, cuts in [
        ([whole, whole, whole], []), ([whole, whole, [0]], []), ([whole, whole, [1]], []), ([[0], whole, [0]], []),
        ([[1], whole, [0]], []), ([[0], [0], [0]], []), ([[0], [1], [0]], []), ([whole, whole, whole], [conflict]),
        ([[0], whole, whole], [conflict]), ([[1], whole, whole], [conflict]), ([[1], whole, [0]], [conflict]),
        ([[1], whole, [1]], [conflict]), ([whole, whole, whole], [large]),
    ]:
        shown = "; ".join(cut_text(c) for c in cuts) or "none"
        basic = sum(n * (f - min(paths[p][1] for p in part)) for n, f, paths, part in zip(three.demands, three.free, three.paths, parts))
        for bits in (32, 64, 128):
            print(f"node at {bits} bits, parts {parts}, cuts {shown}: basic {basic}, {evidence(three, parts, cuts, bits)}")


def print_derivations():
    net = NETS["three pairs"]
    one = lambda k, p, l, q: cut_of((k, p, 1), (l, q, 1), right=1)
    first, third, cap = ("follow", 0, 0), ("follow", 2, 1), ("cap", 0)
    big = 2**31 - 1
    ring = [one(0, 0, 1, 0), one(0, 0, 2, 0), one(1, 0, 2, 0)]
    conflict = lambda *y, paths=(0, 1, 2, 0): ("conflict", *paths, [(row, F(v)) for row, v in y])
    rounding = lambda *y: ("round", [(row, F(v)) for row, v in y])
    proof = [(first, 1), (third, 1)]
    cases = [
        ([], conflict(*proof)),
        ([], conflict((first, F(1, 3)), (third, F(1, 2)))),
        ([], conflict(*proof, paths=(2, 0, 0, 1))),
        ([], conflict(*proof, paths=(0, 2, 2, 0))),
        ([], conflict(*proof, paths=(0, 1, 3, 0))),
        ([], conflict((("follow", 1, 0), 1), (third, 0))),
        ([one(0, 0, 1, 0)], conflict((third, 1), (("cut", 0), 1))),
        ([], conflict((third, 1), (first, -1))),
        ([], conflict((first, 1), (first, 1))),
        ([], conflict((first, 1), (third, 0))),
        ([], conflict((first, -1), (third, 1))),
        ([], conflict((first, 2), (third, 1))),
        ([], conflict((first, 1), (third, 3))),
        ([], conflict((cap, 1), (first, 1))),
        ([], conflict((first, big), (third, big))),
        ([], conflict((cap, big), (first, 1), (third, 1))),
        ([one(0, 1, 1, 0), one(0, 1, 1, 1)], ("pair", 0, 1, 1, [0, 1])),
        ([one(0, 1, 1, 0), one(0, 1, 1, 0)], ("pair", 0, 1, 1, [0, 1])),
        ([one(0, 1, 1, 1), one(0, 1, 1, 0)], ("pair", 0, 1, 1, [0, 1])),
        ([one(0, 0, 1, 1), one(0, 1, 1, 1)], ("pair", 1, 1, 0, [0, 1])),
        ([one(0, 1, 1, 0), one(0, 1, 1, 1)], ("pair", 0, 1, 0, [0, 1])),
        ([one(0, 1, 1, 0), one(0, 1, 1, 1)], ("pair", 0, 2, 1, [0, 1])),
        ([one(0, 1, 1, 0), one(0, 1, 1, 1)], ("pair", 0, 1, 3, [0, 1])),
        ([one(0, 1, 1, 0), one(0, 1, 1, 1)], ("pair", 0, 1, 1, [0, 2])),
        ([one(0, 1, 1, 0), one(0, 1, 1, 1)], ("pair", 0, 1, 1, [1, 0])),
        ([one(0, 1, 1, 0), one(0, 1, 1, 1)], ("pair", 0, 1, 1, [0])),
        ([one(0, 1, 1, 0), one(0, 1, 2, 0)], ("pair", 0, 1, 1, [0, 1])),
        ([one(0, 0, 1, 0), one(0, 1, 2, 0)], ("pair", 0, 1, 1, [0, 1])),
        ([one(0, 1, 1, 0), cut_of((0, 1, 1), (1, 1, 2), right=1)], ("pair", 0, 1, 1, [0, 1])),
        ([one(0, 1, 1, 0), cut_of((0, 1, 1), (1, 1, 1), right=2)], ("pair", 0, 1, 1, [0, 1])),
        ([one(0, 1, 1, 0), cut_of((0, 1, 1), (1, 0, 1), (1, 1, 1), right=1)], ("pair", 0, 1, 1, [0, 1])),
        ([], rounding()),
        ([], rounding((("one", 0), F(1, 2)))),
        ([], rounding((("onelow", 0), F(1, 2)))),
        (ring, rounding(*[(("cut", i), F(1, 2)) for i in range(3)])),
        (ring, rounding((("one", 0), F(2, 3)), (("cut", 1), F(2, 3)))),
        ([], rounding((cap, 1))),
        ([], rounding((("below", 0, 0), 1))),
        ([], rounding((("use", 0, 0), 1), (("one", 0), big))),
        ([], rounding((cap, 1), (("cut", 0), -1))),
        ([], rounding((("below", 0, 3), 1))),
        ([], rounding((("onelow", 0), 1), (("one", 0), 0))),
        ([], rounding((("one", 0), 0))),
        ([cut_of((0, 0, big), right=1)], rounding((("one", 0), 1), (("cut", 0), 1))),
        ([cut_of((0, 0, 1), right=big)], rounding((("one", 0), 1), (("cut", 0), 1))),
    ]
    for earlier, derivation in cases:
        shown = "; ".join(cut_text(c) for c in earlier) or "nothing"
        for bits in (32, 128):
            end = derive(net, earlier, derivation, bits)
            print(f"at {bits} bits, after {shown}: {derivation}: {end if isinstance(end, str) else cut_text(end)}")


if __name__ == "__main__":
    if sys.argv[1:]:
        match sys.argv[1]:
            case "cube":
                print_program(relaxation(*cube()))
            case "tolls":
                print_program(inverse(bent_cube(), dict.fromkeys(range(48), 0)))
            case "accepted":
                print_accepted()
        sys.exit()
    print_programs()
    print_replies()
    print_nodes()
    print_derivations()
