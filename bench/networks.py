#!/usr/bin/env python3
"""Prints the text of a network of a family, by whole numbers: what `bench/solve.sh` times.

star N TOLLS MOST      N commodities, each with a toll-free arc of its own beside a way over one of some parallel toll arcs
chain N LINKS MOST     N commodities along toll arcs one behind another, each with a toll-free arc from end to end of its part
grid SIDE TOLLS N      a grid of streets both ways, of which so many arcs have a toll, with N commodities across it
random NODES ARCS TOLLS N   arcs between any two nodes over a toll-free ring
"""
import sys


class Dice:
    """A fixed row of numbers."""

    def __init__(self):
        self.state = 1

    def below(self, most):
        self.state = (self.state * 6364136223846793005 + 1442695040888963407) % 2**64
        return (self.state >> 33) % most

    def between(self, least, most):
        return least + self.below(most - least + 1)


def text(nodes, arcs, pairs):
    lines = ["npp 1"] + [f"node {node}" for node in nodes]
    lines += [f"{'toll' if toll else 'free'} {tail} {head} {cost}" for tail, head, cost, toll in arcs]
    lines += [f"pair {origin} {destination} {demand}" for origin, destination, demand in pairs]
    return "\n".join(lines) + "\n"


def star(count, tolls, most):
    dice = Dice()
    nodes, arcs, pairs = ["a", "b"], [("a", "b", toll, True) for toll in range(tolls)], []
    for k in range(count):
        nodes.append(f"p{k}")
        arcs += [(f"p{k}", "a", 0, False), (f"p{k}", "b", dice.between(tolls + 1, most), False)]
        pairs.append((f"p{k}", "b", dice.between(1, most)))
    return text(nodes, arcs, pairs)


def chain(count, links, most):
    dice = Dice()
    nodes = [f"m{i}" for i in range(links + 1)]
    arcs, pairs = [(f"m{i}", f"m{i + 1}", dice.below(3), True) for i in range(links)], []
    for k in range(count):
        i = dice.below(links)
        j = dice.between(i + 1, links)
        nodes.append(f"p{k}")
        arcs += [(f"p{k}", f"m{i}", 0, False), (f"p{k}", f"m{j}", dice.between(3, most) * (j - i), False)]
        pairs.append((f"p{k}", f"m{j}", dice.between(1, most)))
    return text(nodes, arcs, pairs)


def grid(side, tolls, count):
    dice = Dice()
    at = lambda x, y: f"g{x}-{y}"
    nodes = [at(x, y) for x in range(side) for y in range(side)]
    ways = [(x, y, x + 1, y) for x in range(side - 1) for y in range(side)]
    ways += [(x, y, x, y + 1) for x in range(side) for y in range(side - 1)]
    arcs = []
    for x, y, u, v in ways:
        arcs += [(at(x, y), at(u, v), dice.between(5, 15), False), (at(u, v), at(x, y), dice.between(5, 15), False)]
    for _ in range(tolls):
        x, y, u, v = ways[dice.below(len(ways))]
        arcs.append((at(x, y), at(u, v), dice.between(0, 4), True))
    pairs = [(at(0, dice.below(side)), at(side - 1, dice.below(side)), dice.between(1, 50)) for _ in range(count)]
    return text(nodes, arcs, pairs)


def scattered(count, arc_count, tolls, pair_count):
    dice = Dice()
    nodes = [f"v{i}" for i in range(count)]
    arcs = [(f"v{i}", f"v{(i + 1) % count}", dice.between(10, 30), False) for i in range(count)]
    while len(arcs) < arc_count:
        tail, head = dice.below(count), dice.below(count)
        if tail != head:
            arcs.append((f"v{tail}", f"v{head}", dice.between(5, 60), False))
    for _ in range(tolls):
        tail, head = dice.below(count), dice.below(count)
        arcs.append((f"v{tail}", f"v{head}", dice.between(0, 10), True))
    pairs = []
    while len(pairs) < pair_count:
        tail, head = dice.below(count), dice.below(count)
        if tail != head:
            pairs.append((f"v{tail}", f"v{head}", dice.between(1, 100)))
    return text(nodes, arcs, pairs)


FAMILIES = {"star": star, "chain": chain, "grid": grid, "random": scattered}

if __name__ == "__main__":
    family, *numbers = sys.argv[1:]
    sys.stdout.write(FAMILIES[family](*(int(number) for number in numbers)))
