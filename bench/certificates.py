#!/usr/bin/env python3
"""Writes an instance and a certificate that is accepted for it, of so many megabytes: what `bench/certificates.sh` times.

certificates.py FAMILY MEGABYTES INSTANCE CERTIFICATE

marks     nodes with a mark in place of an answer, each in two short lines
lists     the same nodes, but each split lists 60 paths
duals     nodes with a dual answer of up to 550 multipliers

The commodities share some toll roads, each beside a toll-free road of its own, as in `npp_bench_check`. The tree goes down
commodity by commodity, the first child with the toll roads and the second with the toll-free road, until the megabytes are
written; each node that is still to come then goes on no further.
"""
import sys

# How many commodities and toll roads a family has, and whether each node has a dual answer.
FAMILIES = {"marks": (30, 1, False), "lists": (30, 60, False), "duals": (50, 10, True)}


class Roads:
    """Commodity k starts at node 2 + k, the toll roads lead from node 0 to node 1, and all commodities end there."""

    def __init__(self, commodities, tolls):
        self.commodities, self.tolls = commodities, tolls

    def demand(self, k):
        return k % 7 + 1

    def free_cost(self, k):
        return max(20, self.tolls + 10) + k

    def worth(self, k):
        return self.demand(k) * (self.free_cost(k) - 2)

    def approach(self, k):
        return self.tolls + 2 * k

    def instance(self):
        yield "npp 1"
        for node in range(2 + self.commodities):
            yield f"node n{node}"
        for toll in range(self.tolls):
            yield f"toll n0 n1 {2 + toll}"
        for k in range(self.commodities):
            yield f"free n{2 + k} n0 0"
            yield f"free n{2 + k} n1 {self.free_cost(k)}"
        for k in range(self.commodities):
            yield f"pair n{2 + k} n1 {self.demand(k)}"

    def head(self, opened):
        upper = sum(self.worth(k) for k in range(self.commodities))
        yield from ("npp-certificate 1", "status budget", "width 64", "lower 0", f"upper {upper}", f"opened {opened}")
        for toll in range(self.tolls):
            yield f"toll {toll} 0"
        for k in range(self.commodities):
            yield f"path {k} 2 0 {self.approach(k)} 0"
        for k in range(self.commodities):
            yield f"cover {k} {self.tolls + 2}"
            yield "start"
            yield f"step 0 {self.approach(k)}"
            for toll in range(self.tolls):
                yield f"step 1 {toll}"
            yield f"free {self.approach(k) + 1}"
        yield from ("cuts 0", "tree")

    def answer(self, free):
        """A dual answer where these commodities have their toll-free road alone."""
        others = [k for k in range(self.commodities) if k not in free]
        yield f"dual {len(others) * (self.tolls + 1)}"
        for k in others:
            for toll in range(self.tolls):
                yield f"y use {toll} {k} {self.demand(k)}"
        for k in others:
            yield f"y one {k} {self.worth(k)}"


def tree(roads, is_dual, most):
    """The texts of the nodes in preorder, until they are longer than so many bytes together."""
    part = " ".join(str(path) for path in range(roads.tolls))
    taken, waiting = 0, [(0, frozenset())]
    while waiting:
        depth, free = waiting.pop()
        lines = list(roads.answer(free)) if is_dual else ["basic large"]
        if depth < roads.commodities and taken < most:
            lines.append(f"split {depth} {part}")
            waiting += [(depth + 1, free | {depth} if is_dual else free), (depth + 1, free)]
        else:
            lines.append("leaf")
        text = "\n".join(lines) + "\n"
        taken += len(text)
        yield text


def main():
    family, megabytes, instance, certificate = sys.argv[1:]
    commodities, tolls, is_dual = FAMILIES[family]
    roads = Roads(commodities, tolls)
    nodes = list(tree(roads, is_dual, int(megabytes) * 10**6))
    with open(instance, "w") as file:
        file.writelines(line + "\n" for line in roads.instance())
    with open(certificate, "w") as file:
        file.writelines(line + "\n" for line in roads.head(len(nodes)))
        file.writelines(nodes)
        file.write("end\n")


main()
