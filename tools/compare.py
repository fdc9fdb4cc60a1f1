#!/usr/bin/env python3
"""Compares a checker with tools/reference.py on random files.

tools/compare.py BINARY [--count N] [--seed S]

BINARY reads a file from standard input and prints the line, as crates/bookcheck/out/bookcheck does. The files are certificates of
random automata, made whole and then edited: most are refused, on all grounds that a file can meet.
"""
import argparse
import collections
import random
import subprocess
import sys

sys.dont_write_bytecode = True
from records import *
from reference import Box, Difference, FREE, follow, is_within, judge

CONSTANTS = (0, 1, 2, 3, 5, 10, 9999, 10000)


def automaton(rng):
    """Clocks, locations, accepting locations, limits by location and edges."""
    n, m = rng.choice((1, 2, 2, 3, 3, 6)), rng.choice((1, 2, 3, 4, 5, 32))
    accepting_at = [l for l in range(m) if rng.random() < 0.2]
    constants = rng.choice((CONSTANTS[:4], CONSTANTS[:6], CONSTANTS))

    def atom():
        return (rng.randint(1, n), rng.randint(0, 4), rng.choice(constants))

    limits = [[] for _ in range(m)]
    for l in range(m):
        for _ in range(rng.choice((0, 0, 1, 2))):
            limits[l].append((rng.randint(1, n), rng.choice((LT, LE)), max(1, rng.choice(constants))))
    edges = []
    for _ in range(rng.randint(0, 4 * min(m, 5))):
        source, target = rng.randrange(min(m, 5)), rng.randrange(min(m, 5))
        if rng.random() < 0.5:
            source, target = min(source, target), max(source, target)
        edges.append((source, target, rng.randrange(1 << n), [atom() for _ in range(rng.choice((0, 1, 1, 2)))]))
    return n, m, accepting_at, limits, edges


def explored(rng, kind, n, limits, edges, start):
    """Zones that a search from the start finds, at most 24, as (location, zone)."""
    zone = kind.whole(n)
    if rng.random() < 0.8:
        for x in range(1, n + 1):
            zone = kind.reset(zone, x)
    found = [(start, zone)]
    for location, zone in found:
        for source, target, zeros, guard_atoms in edges:
            if source != location or len(found) >= 24:
                continue
            led = follow(kind, limits, zone, source, target, zeros, guard_atoms)
            if led and not any(l == target and is_within(led, z) for l, z in found):
                found.append((target, kind.whole(n) if rng.random() < 0.2 else led))
    return found


def zone_records(kind, zone):
    """The bounds of a zone that a record can hold."""
    if kind is Box:
        pairs = [(0, x, row[0]) for x, row in enumerate(zone, 1)] + [(x, 0, row[1]) for x, row in enumerate(zone, 1)]
    else:
        pairs = [(i, j, b) for i, row in enumerate(zone) for j, b in enumerate(row) if i != j]
    return [bound(i, j, 1 - b[1], b[0]) for i, j, b in pairs if b != FREE and abs(b[0]) <= 10000]


def numbers(found, kind, limits, edges, accepting_at):
    """For each node a number that its edges pass, where one below 40 does."""
    steps = []
    for at, (location, zone) in enumerate(found):
        for source, target, zeros, guard_atoms in edges:
            led = source == location and follow(kind, limits, zone, source, target, zeros, guard_atoms)
            covers = [k for k, (l, z) in enumerate(found) if led and l == target and is_within(led, z)]
            if covers:
                steps.append((at, covers, int(location in accepting_at)))
    number = [int(l in accepting_at) for l, _ in found]
    for _ in range(40):
        for at, covers, visit in steps:
            number[at] = max(number[at], min(number[k] for k in covers) + visit)
    return number


def certificate(rng):
    """The records of a random automaton with a certificate."""
    n, m, accepting_at, limits, edges = automaton(rng)
    start = rng.choice((0, 0, rng.randrange(min(m, 5))))
    kind_byte, question = rng.randrange(2), rng.randrange(2)
    kind = (Difference, Box)[kind_byte]
    if question == UNREACHABILITY and rng.random() < 0.7:
        accepting_at = [l for l in accepting_at if l != start and l not in {e[1] for e in edges}]
    body = []
    for source, target, zeros, guard_atoms in edges:
        body += [edge(source, target, zeros)] + [guard(*atom) for atom in guard_atoms]
    for record in [accepting(l) for l in accepting_at] + [limit(l, *atom) for l in range(m) for atom in limits[l]]:
        body.insert(rng.randint(0, len(body)), record)
    records = [head(n, m, start)] + body + [SHEET_END, book(kind_byte, question)]
    found = explored(rng, kind, n, limits, edges, start)
    found_numbers = numbers(found, kind, limits, edges, accepting_at) if question else [0] * len(found)
    places = rng.sample(range(64), len(found)) if rng.random() < 0.5 else range(len(found))
    for place, (location, zone), number in zip(places, found, found_numbers):
        bounds = zone_records(kind, zone)
        rng.shuffle(bounds)
        records += [node(place, location, number)] + bounds
    return records + [FILE_END]


def random_record(rng):
    """Some record with small fields."""
    small = lambda: rng.choice((0, 0, 1, 1, 2, 3, 6, 7, 31, 32, 63, 64, 255))
    constant = rng.choice(CONSTANTS + (10001, 65535))
    return rng.choice((
        head(small(), small(), small()), accepting(small()), limit(small(), small(), small(), constant),
        edge(small(), small(), small()), guard(small(), small(), constant), SHEET_END, book(small(), small()),
        node(small(), small(), constant), bound(small(), small(), rng.choice((0, 0, 1, 2)), rng.randint(-10002, 10002)),
        FILE_END,
    ))


# Edits of a list of records, in place.


def drop_record(rng, records):
    del records[rng.randrange(len(records))]


def repeat_record(rng, records):
    records.insert(rng.randrange(len(records)), rng.choice(records))


def swap_records(rng, records):
    a, b = rng.randrange(len(records)), rng.randrange(len(records))
    records[a], records[b] = records[b], records[a]


def add_record(rng, records):
    records.insert(rng.randrange(len(records) + 1), random_record(rng))


def cut_record(rng, records):
    at = rng.randrange(len(records))
    records[at] = records[at][: rng.randint(0, len(records[at]))]


def cut_file(rng, records):
    del records[rng.randrange(len(records)) :]


def add_byte(rng, records):
    records.append(bytes([rng.choice((0x00, 0x07, 0x11, 0x1F))]))


def change_byte(rng, records):
    at = rng.randrange(len(records))
    record = bytearray(records[at] or b"\x00")
    byte = rng.randrange(len(record))
    record[byte] = rng.choice((record[byte] ^ 1 << rng.randrange(8), (record[byte] + 1) % 256, rng.randrange(256)))
    records[at] = bytes(record)


def positions(records, kind, length):
    """Where whole records of a kind stand."""
    return [at for at, record in enumerate(records) if record[:1] == bytes([kind]) and len(record) == length]


def change_number(rng, records):
    nodes = positions(records, 0x11, 5)
    if nodes:
        at = rng.choice(nodes)
        record = bytearray(records[at])
        record[3] = (record[3] + rng.choice((-1, 1))) % 256
        records[at] = bytes(record)


def change_place(rng, records):
    nodes = positions(records, 0x11, 5)
    if nodes:
        at, other = rng.choice(nodes), rng.choice(nodes)
        records[at] = records[at][:1] + records[other][1:2] + records[at][2:]


def change_bound(rng, records):
    bounds = positions(records, 0x12, 6)
    if bounds:
        at = rng.choice(bounds)
        _, i, j, strict, *_ = records[at]
        constant = int.from_bytes(records[at][4:], "little", signed=True)
        records[at] = bound(i, j, strict ^ rng.randrange(2), max(-32768, constant + rng.choice((-1, 0, 1, 1))))


def drop_bound(rng, records):
    bounds = positions(records, 0x12, 6)
    if bounds:
        del records[rng.choice(bounds)]


def drop_node(rng, records):
    nodes = positions(records, 0x11, 5)
    if nodes:
        at = rng.choice(nodes)
        del records[at]
        while at < len(records) and records[at][:1] == b"\x12":
            del records[at]


def add_difference(rng, records):
    nodes = positions(records, 0x11, 5)
    if nodes:
        records.insert(rng.choice(nodes) + 1, bound(rng.randint(1, 2), rng.randint(1, 2), 0, rng.randint(-2, 5)))


def add_limit(rng, records):
    records.insert(1, limit(rng.randrange(3), 1, rng.randrange(5), rng.randrange(3)))


EDITS = [
    drop_record, repeat_record, swap_records, add_record, cut_record, cut_file, add_byte, change_byte, change_byte,
    change_number, change_number, change_place, change_bound, change_bound, change_bound, drop_bound, drop_bound,
    drop_node, drop_node, add_difference, add_limit,
]


def made(rng):
    """A random file."""
    records = certificate(rng)
    for _ in range(rng.choice((0, 1, 1, 1, 2, 3))):
        if records:
            rng.choice(EDITS)(rng, records)
    rare = rng.random()
    if rare < 0.02:
        records[1:1] = [rng.choice((edge(0, 0), limit(0, 1, LE, 9)))] * rng.choice((64, 65, 128, 129))
    elif rare < 0.03:
        records[1:1] = [edge(0, 0)] + [guard(1, LE, 9)] * rng.choice((256, 257))
    elif rare < 0.033:
        records[1:1] = [accepting(0)] * 32768
    elif rare < 0.05:
        records = [random_record(rng) for _ in range(rng.randint(0, 6))]
    return b"".join(records)


def answer(binary, data):
    run = subprocess.run([binary], input=data, stdout=subprocess.PIPE, stderr=subprocess.STDOUT, timeout=60)
    text = run.stdout.decode("ascii", "replace")
    return text[:-1] if run.returncode == 0 and text.endswith("\n") else f"status {run.returncode}: {text!r}"


def main():
    parser = argparse.ArgumentParser(description="Compares a checker with the reference on random files.")
    parser.add_argument("binary")
    parser.add_argument("--count", type=int, default=2000)
    parser.add_argument("--seed", type=int, default=1)
    options = parser.parse_args()
    rng = random.Random(options.seed)
    seen, differences = collections.Counter(), 0
    for _ in range(options.count):
        data = made(rng)
        expected, said = judge(data), answer(options.binary, data)
        words = expected.split()
        seen["STANDS" if words[0] == "STANDS" else f"ground {words[1]:>2} {words[2]}"] += 1
        if said != expected:
            differences += 1
            print(f"expected {expected}\nfound    {said}\nfile     {data.hex()}\n")
    for line, times in sorted(seen.items()):
        print(f"{line:12} {times:6}")
    print(f"{options.count} files with seed {options.seed}, {differences} differences")
    return differences == 0


if __name__ == "__main__":
    sys.exit(0 if main() else 1)
