#!/usr/bin/env python3
"""Makes certificates for timed automata and writes them as record files (docs/FORMAT.md).

A model is a network of components, flattened to one automaton. Its zone graph is
searched forward, over difference-bound matrices or boxes, with extrapolation by
the largest constants. What was found becomes the nodes of the certificate. Before a
file is written, its bytes are judged by tools/reference.py, which shares no code
with the search.
"""
import argparse
import itertools
import math
import os
import struct
import sys
from collections import deque

sys.dont_write_bytecode = True
from models import MODELS, flatten
from reference import judge

ROOT = os.path.dirname(os.path.dirname(os.path.abspath(__file__)))
PLACES = 64
SEARCH_LIMIT = 5000  # nodes of a search, before any are dropped


class NotGranted(Exception):
    """The search gives no certificate."""


# --- Zones --------------------------------------------------------------------
#
# A bound is (constant, 1) for ≤ and (constant, 0) for <, so that tuples compare
# as bounds do. None is the empty zone.

FREE = (math.inf, 0)
ZERO = (0, 1)


def add(a, b):
    return (a[0] + b[0], min(a[1], b[1]))


def constraints(atom):
    """The bounds (i, j, bound) on x_i − x_j that an atom sets."""
    clock, relation, constant = atom
    upper = (clock, 0, (constant, int(relation != 0)))
    lower = (0, clock, (-constant, int(relation != 4)))
    return [[upper], [upper], [upper, lower], [lower], [lower]][relation]


class Differences:
    """Closed difference-bound matrices: entry [i][j] bounds x_i − x_j."""

    number = 0

    @staticmethod
    def closed(entries):
        m = [list(row) for row in entries]
        every = range(len(m))
        for k, i, j in itertools.product(every, every, every):
            m[i][j] = min(m[i][j], add(m[i][k], m[k][j]))
        return None if any(m[i][i] < ZERO for i in every) else tuple(map(tuple, m))

    @staticmethod
    def whole(n):
        return tuple(tuple(ZERO if i in (0, j) else FREE for j in range(n + 1)) for i in range(n + 1))

    @classmethod
    def constrain(cls, zone, i, j, bound):
        m = [list(row) for row in zone]
        m[i][j] = min(m[i][j], bound)
        return cls.closed(m)

    @staticmethod
    def elapse(zone):
        return (zone[0],) + tuple((FREE,) + row[1:] for row in zone[1:])

    @staticmethod
    def reset(zone, x):
        source = [0 if i == x else i for i in range(len(zone))]
        return tuple(tuple(zone[i][j] for j in source) for i in source)

    @staticmethod
    def within(zone, other):
        return all(a <= b for row, others in zip(zone, other) for a, b in zip(row, others))

    @classmethod
    def widen(cls, zone, top):
        """Extrapolated: beyond the largest constant of a clock its values are alike."""
        m = [list(row) for row in zone]
        for i, j in itertools.permutations(range(len(m)), 2):
            if m[i][j][0] > top[i]:
                m[i][j] = FREE
            elif m[i][j][0] < -top[j]:
                m[i][j] = (-top[j], 0)
        m[0] = [min(bound, ZERO) for bound in m[0]]
        return cls.closed(m)

    @classmethod
    def bounds(cls, zone):
        """Bounds that give the zone when closed, none of them implied by the others."""
        n = len(zone) - 1
        pairs = list(itertools.permutations(range(n + 1), 2))
        kept = [list(row) for row in zone]
        for i, j in sorted(pairs, key=lambda pair: 0 in pair):
            kept[i][j] = cls.whole(n)[i][j]
            if cls.closed(kept) != zone:
                kept[i][j] = zone[i][j]
        return [(i, j, kept[i][j]) for i, j in pairs if kept[i][j] != cls.whole(n)[i][j]]


class Boxes:
    """A range for each clock x: the bounds of 0 − x and of x − 0. Place 0 is not used."""

    number = 1

    @staticmethod
    def whole(n):
        return ((ZERO, FREE),) * (n + 1)

    @staticmethod
    def constrain(zone, i, j, bound):
        clock = max(i, j)
        lower, upper = zone[clock]
        pair = (min(lower, bound), upper) if i == 0 else (lower, min(upper, bound))
        return None if add(*pair) < ZERO else zone[:clock] + (pair,) + zone[clock + 1 :]

    @staticmethod
    def elapse(zone):
        return tuple((lower, FREE) for lower, _ in zone)

    @staticmethod
    def reset(zone, x):
        return zone[:x] + ((ZERO, ZERO),) + zone[x + 1 :]

    @staticmethod
    def within(zone, other):
        return all(a <= c and b <= d for (a, b), (c, d) in zip(zone, other))

    @staticmethod
    def widen(zone, top):
        """Extrapolated, clock by clock."""
        ranges = []
        for (lower, upper), most in zip(zone, top):
            if lower[0] < -most:
                lower = min((-most, 0), ZERO)
            ranges.append((lower, FREE if upper[0] > most else upper))
        return tuple(ranges)

    @staticmethod
    def bounds(zone):
        both = [b for x, (lower, upper) in enumerate(zone) for b in ((0, x, lower), (x, 0, upper))]
        return [(i, j, bound) for i, j, bound in both[2:] if bound != FREE and (i, bound) != (0, ZERO)]


KINDS = {"difference": Differences, "box": Boxes}
QUESTIONS = ["unreachability", "emptiness"]


def follow(kind, sheet, edge, zone):
    """What an edge leads to from a zone, or None: a wait, limit, guard, zeros, limit."""
    before = sheet.limits[edge.source] + edge.guard
    zone = constrain_all(kind, kind.elapse(zone), before)
    for x in edge.zeros:
        zone = zone and kind.reset(zone, x)
    return constrain_all(kind, zone, sheet.limits[edge.target])


def constrain_all(kind, zone, some):
    """The zone under these atoms."""
    for atom in some:
        for i, j, bound in constraints(atom):
            zone = zone and kind.constrain(zone, i, j, bound)
    return zone


def all_zero(kind, n):
    """The zone of n clocks at 0."""
    zone = kind.whole(n)
    for x in range(1, n + 1):
        zone = kind.reset(zone, x)
    return zone


def largest_constants(sheet):
    """For each location and clock, the largest constant that the clock may yet meet before it is set to zero."""
    top = [[0] + [-math.inf] * sheet.clocks for _ in sheet.names]

    def raise_to(location, clock, constant):
        higher = constant > top[location][clock]
        if higher:
            top[location][clock] = constant
        return higher

    for location, limit in enumerate(sheet.limits):
        for clock, _, constant in limit:
            raise_to(location, clock, constant)
    changed = True
    while changed:
        changed = False
        for edge in sheet.edges:
            after = [(x, 0, c) for x, c in enumerate(top[edge.target]) if x and x not in edge.zeros]
            for clock, _, constant in edge.guard + after:
                changed |= raise_to(edge.source, clock, constant)
    return top


# --- Search -------------------------------------------------------------------


class Node:
    """A location and a zone; how it was first met, its number, and the nodes that its edges lead to."""

    def __init__(self, location, zone, parent):
        self.location, self.zone, self.parent = location, zone, parent
        self.number = 0
        self.next = []


def search(kind, sheet, question):
    """The nodes found from the start.

    For unreachability a node that lies in another at its location is dropped. For
    emptiness nodes are told apart unless equal, since the numbers come from the graph.
    """
    top = largest_constants(sheet)
    drop = question == "unreachability"
    nodes = [Node(0, kind.widen(all_zero(kind, sheet.clocks), top[0]), None)]
    queue = deque(nodes)
    while queue:
        node = queue.popleft()
        if node not in nodes:
            continue
        if drop and sheet.accepting[node.location]:
            raise NotGranted(f"an accepting location is reached over {kind.__name__.lower()}: {path(sheet, node)}")
        for edge in sheet.edges:
            result = follow(kind, sheet, edge, node.zone) if edge.source == node.location else None
            if result is None:
                continue
            new = Node(edge.target, kind.widen(result, top[edge.target]), (node, edge))
            same = [n for n in nodes if n.location == new.location]
            known = [n for n in same if n.zone == new.zone or drop and kind.within(new.zone, n.zone)]
            if not known:
                if drop:
                    nodes = [n for n in nodes if n not in same or not kind.within(n.zone, new.zone)]
                nodes.append(new)
                queue.append(new)
            node.next.append(known[0] if known else new)
            if len(nodes) > SEARCH_LIMIT:
                raise NotGranted(f"the search passed {SEARCH_LIMIT} nodes")
    return nodes


def path(sheet, node):
    """The labels and locations from the start to a node."""
    words = []
    while node.parent:
        words.append(f"{node.parent[1].label} -> ({sheet.names[node.location]})")
        node = node.parent[0]
    return "; ".join(reversed(words))


def count_visits(sheet, nodes):
    """Gives each node the most visits of accepting locations from it on."""
    accepting = sum(sheet.accepting[node.location] for node in nodes)
    changed = True
    while changed:
        changed = False
        for node in nodes:
            most = max((n.number for n in node.next), default=0) + sheet.accepting[node.location]
            if most > accepting:
                raise NotGranted(f"an accepting location lies on a cycle: ({sheet.names[node.location]})")
            changed |= most != node.number
            node.number = most


def cover(kind, sheet, nodes, node, edge):
    """The first of the nodes that covers what an edge leads to, or None where it leads nowhere."""
    result = follow(kind, sheet, edge, node.zone)
    if result is None:
        return None
    most = node.number - sheet.accepting[node.location]
    there = [n for n in nodes if n.location == edge.target and n.number <= most]
    return next(n for n in there if kind.within(result, n.zone))


def needed(kind, sheet, nodes):
    """The nodes without those that another stands for, in the order in which they are met from the start."""

    def stands_for(a, b):
        return a is not b and a.location == b.location and a.number <= b.number and kind.within(b.zone, a.zone)

    kept = [node for node in nodes if not any(stands_for(other, node) for other in nodes)]
    start = Node(0, all_zero(kind, sheet.clocks), None)
    start.number = math.inf
    met = [min((node for node in kept if stands_for(node, start)), key=lambda node: node.number)]
    for node in met:
        for edge in sheet.edges:
            found = cover(kind, sheet, kept, node, edge) if edge.source == node.location else None
            if found and found not in met:
                met.append(found)
    return met


def certify(sheet, zones, question):
    """The nodes of a certificate, in the order of their places."""
    kind = KINDS[zones]
    nodes = search(kind, sheet, question)
    if question == "emptiness":
        count_visits(sheet, nodes)
    nodes = needed(kind, sheet, nodes)
    if len(nodes) > PLACES:
        raise NotGranted(f"{len(nodes)} nodes, of which a file holds {PLACES}")
    return nodes


# --- Files --------------------------------------------------------------------


def file_bytes(sheet, zones, question, nodes, left_out=None):
    """The record file of a sheet and a certificate, without the node at the place `left_out`."""
    out = struct.pack("<4B", 0x01, sheet.clocks, len(sheet.names), 0)
    for location, is_accepting in enumerate(sheet.accepting):
        if is_accepting:
            out += struct.pack("<2B", 0x02, location)
    for location, limit in enumerate(sheet.limits):
        for clock, relation, constant in limit:
            out += struct.pack("<4BH", 0x03, location, clock, relation, constant)
    for edge in sheet.edges:
        out += struct.pack("<4B", 0x04, edge.source, edge.target, sum(1 << x - 1 for x in edge.zeros))
        for clock, relation, constant in edge.guard:
            out += struct.pack("<3BH", 0x05, clock, relation, constant)
    out += struct.pack("<B3B", 0x06, 0x10, KINDS[zones].number, QUESTIONS.index(question))
    for place, node in enumerate(nodes):
        if place != left_out:
            out += struct.pack("<3BH", 0x11, place, node.location, node.number)
            for i, j, (constant, weak) in KINDS[zones].bounds(node.zone):
                out += struct.pack("<4Bh", 0x12, i, j, 1 - weak, constant)
    return out + b"\x1f"


# The files of examples/: name, model, zones, question, place of a node left out, line.
FILES = [
    ("survey-recorder-lost-shot", "lost-shot", "difference", "unreachability", None, "STANDS 0"),
    ("survey-recorder-lost-shot-box", "lost-shot", "box", "unreachability", None, "STANDS 0"),
    ("survey-recorder-retries", "retries", "difference", "emptiness", None, "STANDS 3"),
    ("survey-recorder-counted", "counted", "difference", "emptiness", None, "STANDS 3"),
    ("survey-recorder-counted-box", "counted", "box", "emptiness", None, "STANDS 4"),
    ("survey-recorder-node-missing", "lost-shot", "box", "unreachability", 6, "REFUSED 13 B 231 3 7"),
    ("fischer-two", "fischer-two", "difference", "unreachability", None, "STANDS 0"),
    ("train-gate", "train-gate", "difference", "unreachability", None, "STANDS 0"),
]


def make(out, name, zones, question, left_out=None, line=None):
    """Makes one certificate, checks it from its bytes, writes it to `out` if given, and prints its line."""
    sheet = flatten(MODELS[name])
    nodes = certify(sheet, zones, question)
    if left_out is not None and left_out not in range(len(nodes)):
        raise SystemExit(f"{name}: the certificate has {len(nodes)} nodes")
    data = file_bytes(sheet, zones, question, nodes, left_out)
    given = judge(data)
    if left_out is None and given != f"STANDS {nodes[0].number}" or line not in (None, given):
        raise SystemExit(f"{name}: the check gives {given}")
    if out:
        with open(out, "wb") as target:
            target.write(data)
    print(f"{out or name}: {len(data)} bytes, {len(nodes) - (left_out is not None)} nodes, {given}")


def show(sheet):
    """Prints the flattened automaton."""
    signs = ["<", "≤", "=", "≥", ">"]

    def text(some):
        return ", ".join(f"x{x} {signs[relation]} {constant}" for x, relation, constant in some)

    for location, name in enumerate(sheet.names):
        mark = " accepting" if sheet.accepting[location] else ""
        print(f"location {location} ({name}){mark} {text(sheet.limits[location])}".rstrip())
    for number, edge in enumerate(sheet.edges):
        zeros = " ".join(f"x{x}:=0" for x in edge.zeros)
        print(f"edge {number} {edge.source} -> {edge.target} [{edge.label}] {text(edge.guard)} {zeros}".rstrip())


def main():
    parser = argparse.ArgumentParser(description=__doc__, formatter_class=argparse.RawDescriptionHelpFormatter)
    parser.add_argument("model", nargs="?", choices=MODELS, metavar="MODEL", help=", ".join(MODELS))
    parser.add_argument("--zones", choices=KINDS, default="difference")
    parser.add_argument("--question", choices=QUESTIONS, default="unreachability")
    parser.add_argument("--out", metavar="FILE", help="the file to write; without it nothing is written")
    parser.add_argument("--leave-out", type=int, metavar="PLACE", help="leave out one node, for a refusal")
    parser.add_argument("--show", action="store_true", help="print the model's locations and edges, numbered")
    parser.add_argument("--all", action="store_true", help="write the files of examples/")
    args = parser.parse_args()
    if args.all == bool(args.model) or args.all and args.show:
        parser.error("either a model or --all")
    if args.show:
        return show(flatten(MODELS[args.model]))
    try:
        if not args.all:
            return make(args.out, args.model, args.zones, args.question, args.leave_out)
        for name, *rest in FILES:
            make(os.path.relpath(os.path.join(ROOT, "examples", name + ".book")), *rest)
    except NotGranted as reason:
        return f"not granted: {reason}"


if __name__ == "__main__":
    sys.exit(main())
