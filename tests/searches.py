#!/usr/bin/env python3
"""Computes what the tests of branch and bound expect, from the definitions alone. The optimum of a small network is found by trying
all tolls over a common denominator, with every walk that comes to no node twice; a search is made node by node, over the programs,
the runs and the replies of `values.py`. Nothing of the proved program is used. It prints a line for each case.

Why the tolls that are tried are enough: which walks are cheapest changes only where the prices of two walks of a commodity are equal,
or a toll is 0. Between these places the revenue is linear in the tolls, so it is greatest where as many of them meet as there are
tolls. There the tolls have a common denominator that is the determinant of a matrix of 0, 1 and -1: 1 with one toll, at most 2 with
two, at most 4 with three."""
import random
from fractions import Fraction as F
from itertools import product

from values import Instance, Overflow, Width, inverse, relaxation, value, work

COMMON = {0: 1, 1: 1, 2: 2, 3: 12}

# ---- all tolls over a common denominator


def walks(net, origin, destination):
    """The tolls and the cost of each walk that comes to no node twice."""
    found = []

    def go(node, seen, tolls, cost):
        if node == destination:
            found.append((tuple(sorted(tolls)), cost))
            return
        for i, (tail, head, more, toll, _) in enumerate(net.arcs):
            if tail == node and head not in seen:
                go(head, seen | {head}, tolls + ([net.tolls.index(i)] if toll else []), cost + more)

    go(origin, {origin}, [], 0)
    return found


def optimum(net):
    """The most that any tolls earn."""
    common = COMMON[len(net.tolls)]
    lists = [walks(net, origin, destination) for origin, destination, _ in net.pairs]
    free = [min(cost for tolls, cost in found if not tolls) for found in lists]
    most = []
    for a, arc in enumerate(net.tolls):
        ceiling = net.arcs[arc][4]
        most.append(max(free) if ceiling is None else min(ceiling, max(free)))
    best = 0
    for tolls in product(*(range(top * common + 1) for top in most)):
        earned = 0
        for found, demand in zip(lists, net.demands):
            _, paid = min((cost * common + sum(tolls[a] for a in used), -sum(tolls[a] for a in used)) for used, cost in found)
            earned -= demand * paid
        best = max(best, earned)
    return F(best, common)


# ---- a search node by node


def reply(net, tolls, width):
    """The paths of the reply to tolls, what they pay, and the revenue; None where a sum does not fit."""
    paths, paid, revenue = [], [], F(0)
    try:
        for k, useful in enumerate(net.paths):
            offers = []
            for q, (used, cost) in enumerate(useful):
                total = F(0)
                for a in sorted(used):
                    total = width.add(total, tolls[a])
                offers.append((width.add(F(cost), total), -total, q))
            price, toll, path = min(offers)
            paths.append(path)
            paid.append(-toll)
            revenue = width.add(revenue, width.mul(F(net.demands[k]), -toll))
    except Overflow:
        return None
    return revenue, paths, paid


def basic(net, parts):
    return sum(n * (free - min(paths[p][1] for p in part)) for n, free, paths, part in zip(net.demands, net.free, net.paths, parts))


class Node:
    def __init__(self, number, depth, parts, bound):
        self.number, self.depth, self.parts, self.bound = number, depth, parts, bound
        self.opened, self.evidence, self.split, self.children = False, "open", None, []


class Search:
    """A search over all useful paths, or from a node that allows some of them."""

    def __init__(self, net, bits, budget, picker, start=None):
        self.net, self.width, self.budget, self.picker = net, Width(bits), budget, picker
        if start is None:
            self.begin()
            parts, bound = net.all_paths(), F(basic(net, net.all_paths()))
        else:
            parts, bound, self.lower = start
            self.best, bound = None, min(bound, F(basic(net, parts)))
        self.made, self.opened, self.order = 1, 0, []
        self.root = Node(0, 0, parts, bound)
        self.live = [self.root]
        self.go()

    def begin(self):
        """The tolls of the zero choice, or no tolls."""
        program = inverse(self.net, {k: 0 for k in range(len(self.net.pairs))})
        end, _, point = work(program, self.width)
        found = reply(self.net, point, self.width) if end == "optimal" else None
        self.best = (point, found) if found else ([F(0)] * len(self.net.tolls), None)
        self.lower = found[0] if found else F(0)
        if not found:
            self.best = (self.best[0], reply(self.net, self.best[0], self.width))

    def go(self):
        while True:
            self.live = [node for node in self.live if node.bound is not None and node.bound > self.lower]
            if not self.live or self.opened == self.budget:
                return
            node = min(self.live, key=KEYS[self.picker])
            self.live.remove(node)
            self.order.append((node.number, node.depth))
            self.open(node)

    def offer(self, tolls):
        found = reply(self.net, tolls, self.width)
        if found and found[0] > self.lower:
            self.lower, self.best = found[0], (tolls, found)

    def open(self, node):
        net, parts = self.net, node.parts
        self.opened += 1
        node.opened = True
        full = all(len(part) == 1 for part in parts)
        program = inverse(net, {k: part[0] for k, part in enumerate(parts)}) if full else relaxation(net, parts, [])
        large = not full and len(program.rows) * len(program.columns) > 1000000
        end, _, point = ("Large", None, None) if large else work(program, self.width)
        shares = None
        if end == "optimal":
            numbers = dict(zip(program.columns, point))
            tolls = [numbers[("T", a)] for a in range(len(net.tolls))]
            if full and reply(net, tolls, self.width) is None:
                end = "Sum"
            else:
                self.offer(tolls)
                node.evidence, node.bound = "inverse" if full else "dual", min(node.bound, value(program, point))
                shares = None if full else [[numbers[("x", k, p)] for p in part] for k, part in enumerate(parts)]
        if end == "infeasible":
            node.evidence, node.bound = "none" if full else "farkas", None
        elif end != "optimal":
            node.evidence = f"basic {end}"
        if node.bound is not None and node.bound > self.lower and not full:
            self.branch(node, shares)

    def branch(self, node, shares):
        several = [k for k, part in enumerate(node.parts) if len(part) > 1]
        if shares:
            k = min(several, key=lambda k: (max(shares[k]), k))
            path = node.parts[k][shares[k].index(max(shares[k]))]
        else:
            k = min(several, key=lambda k: (-len(node.parts[k]), k))
            path = node.parts[k][0]
        node.split = (k, path)
        for part in ([path], [p for p in node.parts[k] if p != path]):
            parts = node.parts[:k] + [part] + node.parts[k + 1 :]
            child = Node(self.made, node.depth + 1, parts, min(node.bound, F(basic(self.net, parts))))
            self.made += 1
            node.children.append(child)
            self.live.append(child)

    def leaves(self, node):
        return [leaf for child in node.children for leaf in self.leaves(child)] if node.children else [node]

    def summary(self):
        upper = max(leaf.bound for leaf in self.leaves(self.root) if leaf.bound is not None)
        status = "optimal" if self.lower == upper else "budget" if self.live else "overflow"
        return f"{status} {self.lower} {upper} {self.opened}"

    def tolls(self):
        return "".join(f" {toll}" for toll in self.best[0]) if self.best else ""

    def lines(self, node=None):
        node = node or self.root
        bound = "empty" if node.bound is None else str(node.bound)
        here = f"{node.evidence} {bound}" + (f" split {node.split[0]} {node.split[1]}" if node.split else "")
        return [here] + [line for child in node.children for line in self.lines(child)]


KEYS = {
    "best": lambda node: (-node.bound, node.number),
    "depth": lambda node: (-node.depth, -node.bound, node.number),
    "oldest": lambda node: node.number,
}

# ---- small networks


def chain(seed):
    """Toll arcs one behind another, some beside toll-free ones; each commodity has a node of its own from which it goes to one node of
    the chain, or free of toll to a later one, where it wants to be."""
    dice = random.Random(seed)
    tolls, commodities = dice.randint(1, 3), dice.randint(2, 3)
    nodes, origins = "abcd"[: tolls + 1], "pqr"[:commodities]
    lines = ["npp 1"] + [f"node {node}" for node in nodes + origins]
    for i in range(tolls):
        lines.append(f"toll {nodes[i]} {nodes[i + 1]} {dice.randint(0, 2)}")
        if tolls > 1 and dice.random() < 0.7:
            lines.append(f"free {nodes[i]} {nodes[i + 1]} {dice.randint(2, 5)}")
    pairs = []
    for origin in origins:
        i = dice.randint(0, tolls - 1)
        j = dice.randint(i + 1, tolls)
        lines.append(f"free {origin} {nodes[i]} {dice.randint(0, 1)}")
        lines.append(f"free {origin} {nodes[j]} {dice.randint(3, 9)}")
        pairs.append(f"pair {origin} {nodes[j]} {dice.randint(1, 5)}")
    return "\n".join(lines + pairs) + "\n"


def ring(costs, demands, more=()):
    """Three toll arcs round a ring, with a toll-free way back over each two of them, and some more lines."""
    lines = ["npp 1", "node x", "node y", "node z"] + [f"toll {a} {b} 0" for a, b in ("xy", "yz", "zx")]
    lines += [f"free {a} {b} {cost}" for (a, b), cost in zip(("xz", "yx", "zy"), costs)]
    lines += [f"pair {a} {b} {demand}" for (a, b), demand in zip(("xz", "yx", "zy"), demands)]
    return "\n".join(lines + list(more)) + "\n"


SMALL = [chain(seed) for seed in (0, 8, 12, 13, 16, 31, 41, 47, 54, 132)]
SMALL += [chain(seed) for seed in (5, 24, 29, 81)]
SMALL += [ring((1, 1, 1), (1, 1, 1)), ring((1, 2, 2), (1, 1, 1)), ring((1, 1, 3), (1, 1, 1)), ring((1, 3, 5), (4, 1, 1))]
SMALL += [ring((1, 1, 1), (10, 10, 10), ("free x y 1", "pair x y 1"))]


def budget(net):
    """Twice the number of choices, less one."""
    count = 1
    for paths in net.paths:
        count *= len(paths)
    return 2 * count - 1


def small():
    for text in SMALL:
        net = Instance(text)
        quoted = text.replace("\n", "\\n")
        print(f'("{quoted}", {budget(net)}, "{optimum(net)}"),', flush=True)


# ---- what the tests name

THREE_PAIRS = "npp 1\nnode a\nnode b\nnode p\nnode q\nnode r\ntoll a b 2\nfree p a 0\nfree p b 10\nfree q a 0\nfree q b 8\nfree r a 0\nfree r b 5\npair p b 1\npair q b 1\npair r b 3\n"
ONE_TOLL = "npp 1\nnode a\nnode b\nnode o\nnode d\nnode p\nnode q\ntoll a b 0\nfree o a 0\nfree o d 1000000\nfree d b 500000\nfree p a 0\nfree p b 1\nfree q a 0\nfree q b 2\npair p b 1000000\npair q b 900000\npair o b 1\n"
MANY = "npp 1\nnode a\nnode b\nfree a b 1000000\ntoll a b 0\npair a b 1000000\n"


def show(name, search):
    print(f"{name}: {search.summary()} at{search.tolls()}, taken {search.order}")
    for line in search.lines():
        print(f"    {line}")


def named():
    for bits, most, picker in ((64, 0, "best"), (64, 1, "best"), (32, 1, "depth"), (64, 15, "best"), (64, 15, "depth"), (64, 15, "oldest")):
        show(f"three pairs, {bits} bits, budget {most}, {picker}", Search(Instance(THREE_PAIRS), bits, most, picker))
    for bits, picker in product((32, 64), KEYS):
        show(f"one toll, {bits} bits, {picker}", Search(Instance(ONE_TOLL), bits, 1000, picker))
    for bits in (32, 64, 128):
        show(f"many, {bits} bits", Search(Instance(MANY), bits, 1000, "best"))


def from_nodes():
    everything = [[0, 1], [0, 1], [0, 1]]
    rows = [([[0, 1], [0, 1], [0]], F(78, 5), 15, 7), (everything, F(100), 0, 0), (everything, F(100), 0, 1), (everything, F(100), 0, 7)]
    rows += [(everything, F(14), 14, 7), (everything, F(14), 13, 7), ([[1], [0], [0]], F(100), 0, 7)]
    rows += [([[0], [0], [0]], F(100), lower, 7) for lower in (0, 15, 16)] + [([[1], [1], [0, 1]], F(100), 0, 7)]
    for parts, bound, lower, most in rows:
        search = Search(Instance(THREE_PAIRS), 64, most, "best", (parts, bound, F(lower)))
        print(f"from {parts}, bound {bound}, lower {lower}, budget {most}: {search.opened} {search.lower} at{search.tolls()} {search.lines()}")


if __name__ == "__main__":
    named()
    from_nodes()
    small()
