#!/usr/bin/env python3
"""Judges a certificate by the rules of docs/FORMATS.md alone, in Python's fractions and with useful paths read off its own covers.
Nothing of the proved program is used. It tries no sum for size, counts no useful paths, and judges the text of a line by its fields alone.
    tests/certificates.py INSTANCE CERTIFICATE
prints `accepted LOWER UPPER`, or the first broken line and its rule, as the tests of certificates name them. Without words it judges
the cases of `npp_certificate_tests` that are tried at each width, and shows those that expect another answer."""
import re
import sys
from fractions import Fraction as F
from pathlib import Path

from values import Instance, Width, derive, inverse, multipliers_fault, relaxation, sums

WIDE = Width(10**6)


class Broken(Exception):
    pass


class Lines:
    def __init__(self, text):
        self.rows, self.number = [line.split() for line in text.splitlines()], 0

    def next(self, *words):
        """The fields of the next line, which begins with one of the words."""
        self.number += 1
        if self.number > len(self.rows) or self.rows[self.number - 1][0] not in words:
            self.broken("Order")
        return self.rows[self.number - 1]

    def broken(self, rule):
        raise Broken(f"{self.number} {rule}")

    def need(self, rule, holds):
        if not holds:
            self.broken(rule)


def numbers(fields):
    return [int(field) for field in fields]


class Network(Instance):
    """An instance with least costs, whose useful paths are those of given covers."""

    def __init__(self, text):
        super().__init__("\n".join(line for line in text.splitlines() if line.split()[0] in ("free", "toll", "pair")))
        self.nodes = sum(line.split()[0] == "node" for line in text.splitlines())
        self.number = {arc: a for a, arc in enumerate(self.tolls)}

    def least(self, to, tolls):
        """The least cost from each node to one, with the toll arcs or without them."""
        cost, moved = {to: 0}, True
        while moved:
            moved = False
            for tail, head, more, toll, _ in self.arcs:
                if head in cost and (tolls or not toll) and cost[head] + more < cost.get(tail, 10**18):
                    cost[tail], moved = cost[head] + more, True
        return cost

    def take(self, paths):
        self.paths = paths
        self.free = [some[-1][1] for some in paths]
        self.caps = [self.cap(a) for a in range(len(self.tolls))]


def walk(net, start, arcs):
    """Where the arcs lead from a node, and their cost; nowhere if they are no walk."""
    cost = 0
    for a in arcs:
        if a >= len(net.arcs) or net.arcs[a][0] != start:
            return None, cost
        start, cost = net.arcs[a][1], cost + net.arcs[a][2]
    return start, cost


def head(lines, net):
    form = lines.next("npp-certificate")[1]
    lines.need("Instance", form == "2" or len(net.tolls) <= 64)
    status = lines.next("status")[1]
    lines.next("width")
    lower, upper = F(lines.next("lower")[1]), F(lines.next("upper")[1])
    opened = int(lines.next("opened")[1])
    if form == "2":
        sizes = numbers(lines.next("instance")[1:])
        lines.need("Instance", sizes == [net.nodes, len(net.arcs), len(net.tolls), len(net.pairs)])
        for a, arc in enumerate(net.tolls):
            _, toll, ceiling = lines.next("limit")
            lines.need("Order", int(toll) == a)
            lines.need("Instance", ceiling == ("-" if net.arcs[arc][4] is None else str(net.arcs[arc][4])))
    tolls = []
    for a, arc in enumerate(net.tolls):
        _, toll, value = lines.next("toll")
        lines.need("Order", int(toll) == a)
        lines.need("Tolls", F(value) >= 0 and (net.arcs[arc][4] is None or F(value) <= net.arcs[arc][4]))
        tolls.append(F(value))
    walks = []
    for k, (origin, destination, _) in enumerate(net.pairs):
        _, commodity, cost, paid, *arcs = lines.next("path")
        lines.need("Order", int(commodity) == k)
        arcs = numbers(arcs)
        lines.need("Path", walk(net, origin, arcs) == (destination, int(cost)))
        lines.need("Path", F(paid) == sum(tolls[net.number[a]] for a in arcs if a in net.number))
        walks.append((int(cost), F(paid)))
    return status, lower, upper, opened, tolls, walks


def cover(lines, net, k):
    """The paths of the cover of a commodity."""
    _, commodity, count = lines.next("cover")
    lines.need("Order", int(commodity) == k)
    lines.need("Cover(TooManyLabels)", int(count) <= 65536)
    origin, destination, _ = net.pairs[k]
    onward, without = net.least(destination, True), net.least(destination, False)
    free = without[origin]
    wins = lambda node, cost: node in onward and cost + onward[node] < free
    labels = []
    for i in range(int(count)):
        fields = lines.next("step" if i else "start")
        if i == 0:
            lines.need("Cover(Useless(0))", wins(origin, 0))
            labels.append((origin, frozenset(), 0))
            continue
        parent, arc = numbers(fields[1:])
        lines.need(f"Cover(NotAStep({i}))", parent < i and arc < len(net.arcs) and net.arcs[arc][0] == labels[parent][0])
        _, tolls, cost = labels[parent]
        own = {net.number[arc]} if arc in net.number else set()
        lines.need(f"Cover(RepeatedToll({i}))", not own & tolls)
        labels.append((net.arcs[arc][1], tolls | own, cost + net.arcs[arc][2]))
        lines.need(f"Cover(Useless({i}))", wins(labels[-1][0], labels[-1][2]))
    arcs = numbers(lines.next("free")[1:])
    lines.need("Cover(BadFree)", not any(a in net.number for a in arcs) and walk(net, origin, arcs) == (destination, free))
    lines.need("Cover(MissingOrigin)", labels or onward[origin] == free)
    for i, (node, tolls, cost) in enumerate(labels):
        for a, (tail, to, more, _, _) in enumerate(net.arcs):
            wide = tolls | ({net.number[a]} if a in net.number else set())
            closed = any(n == to and s <= wide and c <= cost + more for n, s, c in labels)
            lines.need(f"Cover(NotClosed({i}, ArcId({a})))", tail != node or not wins(to, cost + more) or closed)
    ends = [(c, len(s), sum(2**a for a in s), i, s) for i, (n, s, c) in enumerate(labels) if n == destination]
    return [(s, c) for c, _, _, _, s in sorted(ends, key=lambda e: e[:4])] + [(frozenset(), free)]


def row_name(fields):
    return (fields[0], *numbers(fields[1:]))


def cut(lines, net, above):
    word, *rest = lines.next("conflict", "pair", "round")
    rest = numbers(rest)
    y = [(row_name(f[1:-1]), F(f[-1])) for f in (lines.next("y") for _ in range({"pair": 0}.get(word, rest[-1])))]
    given = {"conflict": ("conflict", *rest[:-1], y), "pair": ("pair", *rest[:3], rest[3:]), "round": ("round", y)}[word]
    row = derive(net, above, given, 10**6)
    lines.need("Cut", not isinstance(row, str))
    return row


def evidence(lines, program, word, count):
    """The value of the multipliers as a dual answer, or None where they show that there is no point."""
    y = []
    for _ in range(count):
        fields = lines.next("y")
        y.append((row_name(fields[1:-1]), F(fields[-1])))
        lines.need("Evidence", multipliers_fault(program, y) is None)
    columns, right = sums(program, [dict(y).get(name, F(0)) for name in program.names], WIDE)
    if word in ("farkas", "none"):
        lines.need("Evidence", min(columns) >= 0 and right < 0)
        return None
    lines.need("Evidence", all(s >= program.goal.get(c, 0) for c, s in zip(program.columns, columns)))
    return right


def node(lines, net, cuts, parts, parent):
    """How many nodes are opened from here on down, and the bounds of the leaves that have one."""
    basic = sum(n * (f - min(some[p][1] for p in part)) for n, f, some, part in zip(net.demands, net.free, net.paths, parts))
    bound = None if parent is None else min(parent, basic)
    word, *rest = lines.next("open", "basic", "dual", "farkas", "inverse", "none")
    if word == "open":
        return 0, [bound] if bound is not None else []
    if word != "basic":
        full = all(len(part) == 1 for part in parts)
        lines.need("Evidence", full == (word in ("inverse", "none")))
        program = inverse(net, {k: part[0] for k, part in enumerate(parts)}) if full else relaxation(net, parts, cuts)
        value = evidence(lines, program, word, int(rest[0]))
        bound = None if value is None or bound is None else min(bound, value)
    word, *rest = lines.next("leaf", "split")
    if word == "leaf":
        return 1, [bound] if bound is not None else []
    k, *first = numbers(rest)
    rises = all(p < q for p, q in zip(first, first[1:]))
    lines.need("Split", k < len(parts) and rises and 0 < len(first) < len(parts[k]) and set(first) <= set(parts[k]))
    second = [p for p in parts[k] if p not in first]
    opened, bounds = 1, []
    for part in (first, second):
        more, below = node(lines, net, cuts, parts[:k] + [part] + parts[k + 1 :], bound)
        opened, bounds = opened + more, bounds + below
    return opened, bounds


def judged(instance, certificate):
    lines, net = Lines(certificate), Network(instance)
    try:
        status, lower, upper, opened, tolls, walks = head(lines, net)
        net.take([cover(lines, net, k) for k in range(len(net.pairs))])
        count = int(lines.next("cuts")[1])
        for (cost, paid), paths in zip(walks, net.paths):
            lines.need("Path", all(cost + paid <= c + sum(tolls[a] for a in s) for s, c in paths))
        lines.need("Lower", sum(n * paid for n, (_, paid) in zip(net.demands, walks)) == lower)
        lines.need("Cut", count <= 1000)
        cuts = []
        for _ in range(count):
            cuts.append(cut(lines, net, cuts))
        lines.next("tree")
        whole = net.all_paths()
        basic = sum(n * (f - min(c for _, c in some)) for n, f, some in zip(net.demands, net.free, net.paths))
        found, bounds = node(lines, net, cuts, whole, F(basic))
        lines.next("end")
        lines.need("Opened", found == opened)
        lines.need("Upper", bounds and max(bounds) == upper)
        lines.need("Status", (status == "optimal") == (lower == upper))
        if lines.number < len(lines.rows):
            lines.number += 1
            lines.broken("Order")
        return f"accepted {lower} {upper}"
    except Broken as broken:
        return str(broken)


# ---- the cases of the tests


FOLDER = Path(__file__).resolve().parent.parent / "crates"
TEXT = r'"((?:[^"\\]|\\.)*)"'


def strings(source, known):
    """The texts of constants."""
    found = {name: text.replace("\\n", "\n") for name, text in re.findall(rf"const (\w+): &str =\s*{TEXT}", source)}
    return {**known, **found}


def certificates(source, texts):
    """The constants that are certificates: the instance, and the text with its changes made."""
    found = {}
    pattern = r"const (\w+): Certificate = Certificate \{\s*network: (\w+),\s*text: (.*?),\s*changes: &\[(.*?)\],\s*\};"
    for name, network, text, changes in re.findall(pattern, source, re.S):
        base = text.strip('"') if text.startswith('"') else texts[text]
        for change in rows(changes, texts, rf"\(\s*(\d+),\s*(\d+),\s*({TEXT}),?\s*\)"):
            base = with_lines(base, *change)
        found[name] = texts[network], base
    return found


def rows(source, texts, pattern):
    """The first and the last line, the lines in their place, and what else stands in each row."""
    for first, last, lines, _, *more in re.findall(pattern, source):
        yield int(first), int(last), lines[1:-1].replace("\\n", "\n") if lines[0] == '"' else texts[lines], *more


def with_lines(text, first, last, stead):
    lines = text.splitlines()
    return text if first == 0 else "\n".join(lines[: first - 1] + stead.splitlines() + lines[last:]) + "\n"


def judge_tests():
    """Judges each case of the tests at all widths, and shows the cases that expect another answer."""
    known, count = strings((FOLDER / "npp_fixtures/src/certificates.rt").read_text(), {}), 0
    for file in sorted((FOLDER / "npp_certificate_tests/src").rglob("*.rt")):
        source = file.read_text()
        texts = strings(source, known)
        given = certificates(source, texts)
        for name, cases in re.findall(r"expect_answers\(&rt, rt.alloc\(\), (\w+), &(\w+)\)", source):
            body = re.search(rf"const {cases}: \[Case; \d+\] = \[(.*?)\n\];", source, re.S).group(1)
            for *change, wanted in rows(body, texts, rf'\(\s*(\d+),\s*(\d+),\s*({TEXT}|[A-Z_]+),\s*"([^"]*)",?\s*\)'):
                network, text = given[name]
                answer, count = judged(network, with_lines(text, *change)), count + 1
                if answer != wanted:
                    print(f"{file.name} {name} {change}: {answer}, and not {wanted}")
    print(f"{count} cases were judged")


if __name__ == "__main__":
    if sys.argv[1:]:
        print(judged(*(open(name).read() for name in sys.argv[1:])))
    else:
        judge_tests()
