#!/usr/bin/env python3
"""Judges a record file by the rules of docs/, apart from the checker: reads standard input, prints the line.

tools/reference.py < FILE
"""
import operator
import sys

# The length of a record by its kind, and the kinds that must and must not have come before it.
RECORDS = {
    0x01: (4, None, 0x01),
    0x02: (2, 0x01, 0x06),
    0x03: (6, 0x01, 0x06),
    0x04: (4, 0x01, 0x06),
    0x05: (5, 0x04, 0x06),
    0x06: (1, 0x01, 0x06),
    0x10: (3, 0x06, 0x10),
    0x11: (5, 0x10, 0x1F),
    0x12: (6, 0x11, 0x1F),
    0x1F: (1, 0x10, 0x1F),
}
# How many records of a kind there may be.
MOST = {0x03: 64, 0x04: 128, 0x05: 256}
RELATIONS = [operator.lt, operator.le, operator.eq, operator.ge, operator.gt]
INFINITY = float("inf")


class Refused(Exception):
    """Ground, layer, offset, node and edge."""


class TooWide(Exception):
    """A constant of a zone would go beyond 1,000,000."""


# A bound is its constant and 0 for <, 1 for <=: of two bounds the smaller is the tighter.
ZERO = (0, 1)
FREE = (INFINITY, 1)


def add(a, b):
    constant = a[0] + b[0]
    return FREE if constant == INFINITY else (constant, min(a[1], b[1]))


# A zone is a list of lists of bounds, or None where it is empty.


class Difference:
    """Row i, column j has the bound of x_i - x_j."""

    def whole(n):
        return [[ZERO if i in (0, j) else FREE for j in range(n + 1)] for i in range(n + 1)]

    def constrain(zone, i, j, bound):
        if bound >= zone[i][j]:
            return zone
        zone = [row[:] for row in zone]
        zone[i][j] = bound
        clocks = range(len(zone))
        for k in clocks:
            for p in clocks:
                for q in clocks:
                    zone[p][q] = min(zone[p][q], add(zone[p][k], zone[k][q]))
        if any(zone[p][p] < ZERO for p in clocks):
            return None
        if any(1_000_000 < abs(c) < INFINITY for row in zone for c, _ in row):
            raise TooWide
        return zone

    def elapse(zone):
        return zone[:1] + [[FREE] + row[1:] for row in zone[1:]]

    def reset(zone, x):
        zone = [(zone[0] if i == x else row)[:] for i, row in enumerate(zone)]
        for row in zone:
            row[x] = row[0]
        return zone


class Box:
    """Row x - 1 has the bounds of 0 - x and of x - 0."""

    def whole(n):
        return [[ZERO, FREE]] * n

    def constrain(zone, i, j, bound):
        x = i + j - 1
        lower, upper = zone[x]
        lower, upper = (lower, min(upper, bound)) if i else (min(lower, bound), upper)
        return None if add(lower, upper) < ZERO else zone[:x] + [[lower, upper]] + zone[x + 1 :]

    def elapse(zone):
        return [[lower, FREE] for lower, _ in zone]

    def reset(zone, x):
        return zone[: x - 1] + [[ZERO, ZERO]] + zone[x:]


def is_within(zone, other):
    return all(a <= b for row, others in zip(zone, other) for a, b in zip(row, others))


def holds_zero(zone):
    return all(bound >= ZERO for row in zone for bound in row)


def constraints(x, relation, constant):
    """An atom as constraints of a zone: = is <= and then >=."""
    upper = [(x, 0, (constant, int(relation > 0)))] if relation <= 2 else []
    lower = [(0, x, (-constant, int(relation < 4)))] if relation >= 2 else []
    return upper + lower


def follow(kind, limits, zone, source, target, zeros, guard):
    """What an edge leads to from a zone."""

    def constrained(zone, atoms):
        for atom in atoms:
            for i, j, bound in constraints(*atom):
                zone = zone and kind.constrain(zone, i, j, bound)
        return zone

    zone = constrained(kind.elapse(zone), limits[source] + guard)
    for x in range(1, 7):
        if zone and zeros >> (x - 1) & 1:
            zone = kind.reset(zone, x)
    return constrained(zone, limits[target])


def verdict(data):
    """The number of visits that the file stands for."""
    if len(data) > 65535:
        raise Refused(5, "F", 0)
    at, seen = 0, set()
    accepting, edges, counts = set(), [], dict.fromkeys(MOST, 0)
    nodes, place, location, number, begun, zone = {}, None, None, None, None, None

    def demand(held, layer="S"):
        if not held:
            raise Refused(4, layer, at)

    def put():
        if place is not None:
            if place in nodes:
                raise Refused(7, "B", begun, place)
            if zone is None:
                raise Refused(11, "B", begun, place)
            nodes[place] = (begun, location, number, zone)

    while 0x1F not in seen:
        if at == len(data):
            raise Refused(2, "F", at)
        if data[at] not in RECORDS:
            raise Refused(1, "F", at)
        record = data[at]
        length, needed, barred = RECORDS[record]
        if at + length > len(data):
            raise Refused(2, "F", at)
        if needed and needed not in seen or barred in seen:
            raise Refused(3, "F", at)
        seen.add(record)
        body = data[at + 1 : at + length]
        if record == 0x01:
            n, m, start = body
            demand(1 <= n <= 6 and 1 <= m <= 32 and start < m)
            limits = [[] for _ in range(m)]
        elif record == 0x02:
            demand(body[0] < m)
            accepting.add(body[0])
        elif record == 0x04:
            demand(body[0] < m and body[1] < m and body[2] < 1 << n)
            edges.append((*body, []))
        elif record in (0x03, 0x05):
            *of, clock, relation, low, high = body
            constant = low + 256 * high
            demand(all(l < m for l in of) and 1 <= clock <= n and relation <= 4 and constant <= 10000)
            (limits[of[0]] if of else edges[-1][3]).append((clock, relation, constant))
        elif record == 0x06:
            if not all(RELATIONS[relation](0, constant) for _, relation, constant in limits[start]):
                raise Refused(6, "S", at)
        elif record == 0x10:
            demand(body[0] <= 1 and body[1] <= 1, "B")
            kind, emptiness = [Difference, Box][body[0]], body[1]
        elif record == 0x11:
            demand(body[0] <= 63 and body[1] < m, "B")
            put()
            place, location, number, begun, zone = body[0], body[1], body[2] + 256 * body[3], at, kind.whole(n)
        elif record == 0x12:
            i, j, strict = body[:3]
            constant = int.from_bytes(body[3:], "little", signed=True)
            demand(i != j and i <= n and j <= n and strict <= 1 and abs(constant) <= 10000, "Z")
            if kind is Box and i and j:
                raise Refused(9, "Z", at, place)
            try:
                zone = zone and kind.constrain(zone, i, j, (constant, 1 - strict))
            except TooWide:
                raise Refused(10, "Z", at, place)
        if record in counts:
            counts[record] += 1
            if counts[record] > MOST[record]:
                raise Refused(5, "S", at)
        at += length
    if at < len(data):
        raise Refused(3, "F", at)
    put()

    for place, (begun, location, number, zone) in sorted(nodes.items()):
        visit = location in accepting
        if visit and (not emptiness or number == 0):
            raise Refused(12, "B", begun, place)
        for edge, (source, target, zeros, guard) in enumerate(edges):
            if source != location:
                continue
            try:
                led = follow(kind, limits, zone, source, target, zeros, guard)
            except TooWide:
                raise Refused(10, "Z", begun, place, edge)
            if led and not any(
                at_target == target and is_within(led, other) and (not emptiness or number >= next_number + visit)
                for _, at_target, next_number, other in nodes.values()
            ):
                raise Refused(13, "B", begun, place, edge)

    at_start = [number for _, location, number, zone in nodes.values() if location == start and holds_zero(zone)]
    if not at_start:
        raise Refused(15, "B", at - 1)
    return min(at_start) if emptiness else 0


def judge(data):
    """The line for a file, without its end of line."""
    try:
        return f"STANDS {verdict(data)}"
    except Refused as refused:
        fields = refused.args + ("-",) * (5 - len(refused.args))
        return "REFUSED " + " ".join(map(str, fields))


if __name__ == "__main__":
    print(judge(sys.stdin.buffer.read(65536)))
