#!/usr/bin/env python3
"""Writes the table of files and the lines that they get: crates/checktable/stdin and stdout.

tools/table.py            writes the table
tools/table.py --check    only compares with what is there

A case has a name, the line that is expected of it, and the file, record by record. In a line @ stands for the offset
at which the file has MARK. Each line is compared with what tools/reference.py says of the file.
"""
import pathlib
import re
import sys

sys.dont_write_bytecode = True
from records import *
from reference import judge

MARK = "@"
RELATIONS = {LT: "less", LE: "at-most", EQ: "equal", GE: "at-least", GT: "more"}
KINDS = {DIFFERENCE: "difference", BOX: "box"}
UNKNOWN = b"\x07"


def times(count, record):
    return [record] * count


def flat(pieces):
    for piece in pieces:
        if isinstance(piece, list):
            yield from flat(piece)
        else:
            yield piece


cases = {}


def case(name, line, *pieces):
    """A case: its name, its line, and its file in pieces."""
    records, marked = [], None
    for piece in flat(pieces):
        if piece == MARK:
            assert marked is None, f"{name}: two marks"
            marked = sum(map(len, records))
        else:
            records.append(piece)
    assert re.fullmatch(r"[a-z0-9]+(-[a-z0-9]+)*", name), name
    assert name not in cases, f"{name}: twice"
    assert (MARK in line) == (marked is not None), f"{name}: mark"
    line = line.replace(MARK, str(marked))
    said = judge(b"".join(records))
    assert said == line, f"{name}: expected {line}, the reference says {said}"
    cases[name] = (records, line)


def tokens(records):
    """The records as text, a run of equal ones as one token."""
    texts, at = [], 0
    while at < len(records):
        end = at
        while end < len(records) and records[end] == records[at]:
            end += 1
        texts.append(records[at].hex() + (f"*{end - at}" if end - at > 1 else ""))
        at = end
    return "".join(" " + text for text in texts)


# ---------------------------------------------------------------------------------------------------------------------
# The worked example and edits of it.

WORKED_SHEET = [head(1, 2), accepting(1), limit(0, 1, LE, 5), edge(0, 1, 1), guard(1, GE, 2), SHEET_END]
WORKED_NODE = [node(0, 0, 1), at_most(1, 0)]


def worked(kind=DIFFERENCE, question=EMPTINESS, number=1):
    return [WORKED_SHEET, book(kind, question), WORKED_NODE, node(1, 1, number), at_most(1, 0), FILE_END]


case("worked", "STANDS 1", worked())
case("worked-as-box", "STANDS 1", worked(kind=BOX))
case("worked-second-number-zero", "REFUSED 12 B 36 1 -", worked(number=0))
case("worked-as-unreachability", "REFUSED 12 B 36 1 -", worked(question=UNREACHABILITY))
case("worked-as-unreachability-of-boxes", "REFUSED 12 B 36 1 -", worked(BOX, UNREACHABILITY))
case("worked-without-second-node", "REFUSED 13 B 25 0 0", WORKED_SHEET, book(), WORKED_NODE, FILE_END)
case("worked-second-number-two", "REFUSED 13 B 25 0 0", worked(number=2))
case("worked-without-file-end", "REFUSED 2 F 47 - -", worked()[:-1])
case("worked-twice", "REFUSED 3 F 48 - -", worked(), worked())
case("empty-file", "REFUSED 2 F 0 - -")

# ---------------------------------------------------------------------------------------------------------------------
# Fields: the lowest and highest value of each, and the first beyond.

OK, BAD_SHEET, BAD_BOOK, BAD_BOUND = "STANDS 1", "REFUSED 4 S @ - -", "REFUSED 4 B @ - -", "REFUSED 4 Z @ - -"


def field(name, bad, before, record, after):
    """A record whose field is in range where bad is None, and is else refused with that line."""
    case(name, bad or OK, before, [MARK] if bad else [], record, after)


def field_head(name, bad, clocks, locations, start):
    field(f"head-{name}", bad, [], head(clocks, locations, start), [SHEET_END, book(), node(0, start, 1), FILE_END])


for clocks in (1, 6):
    field_head(f"clocks-{clocks}", None, clocks, 1, 0)
for clocks in (0, 7, 255):
    field_head(f"clocks-{clocks}", BAD_SHEET, clocks, 1, 0)
for locations in (1, 32):
    field_head(f"locations-{locations}", None, 1, locations, 0)
for locations in (0, 33, 255):
    field_head(f"locations-{locations}", BAD_SHEET, 1, locations, 0)
field_head("start-1-of-2", None, 1, 2, 1)
field_head("start-31-of-32", None, 1, 32, 31)
field_head("start-1-of-1", BAD_SHEET, 1, 1, 1)
field_head("start-32-of-32", BAD_SHEET, 1, 32, 32)
field_head("all-fields-bad", BAD_SHEET, 255, 255, 255)

TAIL = [SHEET_END, book(), node(0, 0, 1), FILE_END]
for name, bad, locations, location in (
    ("0-of-1", None, 1, 0),
    ("31-of-32", None, 32, 31),
    ("1-of-1", BAD_SHEET, 1, 1),
    ("32-of-32", BAD_SHEET, 32, 32),
):
    field(f"accepting-{name}", bad, head(1, locations), accepting(location), TAIL)
    field(f"limit-location-{name}", bad, head(1, locations), limit(location, 1, LE, 1), TAIL)

# The atoms of a limit at a location without a node, and of a guard of an edge from there.
ATOMS = (
    ("limit", lambda clocks: head(clocks, 2), lambda *atom: limit(1, *atom)),
    ("guard", lambda clocks: [head(clocks, 2), edge(1, 1)], guard),
)
for what, before, atom in ATOMS:
    for name, bad, clocks, clock in (
        ("1-of-1", None, 1, 1),
        ("6-of-6", None, 6, 6),
        ("0-of-1", BAD_SHEET, 1, 0),
        ("2-of-1", BAD_SHEET, 1, 2),
        ("0-of-6", BAD_SHEET, 6, 0),
        ("7-of-6", BAD_SHEET, 6, 7),
        ("255-of-6", BAD_SHEET, 6, 255),
    ):
        field(f"{what}-clock-{name}", bad, before(clocks), atom(clock, LE, 1), TAIL)
    field(f"{what}-relation-4", None, before(1), atom(1, 4, 1), TAIL)
    for relation in (5, 255):
        field(f"{what}-relation-{relation}", BAD_SHEET, before(1), atom(1, relation, 1), TAIL)
    for constant in (0, 10000):
        field(f"{what}-constant-{constant}", None, before(1), atom(1, LE, constant), TAIL)
    for constant in (10001, 32768, 65535):
        field(f"{what}-constant-{constant}", BAD_SHEET, before(1), atom(1, LE, constant), TAIL)
    # 11 27 is 10,001, 27 11 is 4,391.
    field(f"{what}-constant-low-byte-first", None, before(1), atom(1, LE, 0x1127), TAIL)

for name, bad, locations, source, target in (
    ("from-0-to-0-of-1", None, 1, 0, 0),
    ("source-31-of-32", None, 32, 31, 1),
    ("target-31-of-32", None, 32, 1, 31),
    ("source-1-of-1", BAD_SHEET, 1, 1, 0),
    ("target-1-of-1", BAD_SHEET, 1, 0, 1),
    ("source-32-of-32", BAD_SHEET, 32, 32, 0),
    ("target-32-of-32", BAD_SHEET, 32, 0, 32),
):
    field(f"edge-{name}", bad, head(1, locations), edge(source, target), TAIL)
for clocks in range(1, 7):
    field(f"edge-zeros-all-of-{clocks}", None, head(clocks), edge(0, 0, 2**clocks - 1), TAIL)
    field(f"edge-zeros-next-bit-of-{clocks}", BAD_SHEET, head(clocks), edge(0, 0, 2**clocks), TAIL)
for zeros in (0x80, 0xFF):
    field(f"edge-zeros-{zeros:02x}-of-6", BAD_SHEET, head(6), edge(0, 0, zeros), TAIL)
field("edge-zeros-80-of-1", BAD_SHEET, head(1), edge(0, 0, 0x80), TAIL)

for kind, question, bad in ((0, 1, None), (1, 1, None), (2, 1, BAD_BOOK), (255, 1, BAD_BOOK), (0, 2, BAD_BOOK)):
    field(f"book-{kind}-{question}", bad, [head(), SHEET_END], book(kind, question), [node(0, 0, 1), FILE_END])
for kind in (0, 1):
    case(f"book-{kind}-0", "STANDS 0", head(), SHEET_END, book(kind, 0), node(0, 0, 1), FILE_END)
field("book-1-255", BAD_BOOK, [head(), SHEET_END], book(1, 255), FILE_END)
field("book-2-2", BAD_BOOK, [head(), SHEET_END], book(2, 2), FILE_END)

for place in (0, 63):
    field(f"node-place-{place}", None, [head(), SHEET_END, book()], node(place, 0, 1), FILE_END)
for place in (64, 255):
    field(f"node-place-{place}", BAD_BOOK, [head(), SHEET_END, book()], node(place, 0, 1), FILE_END)
for location, bad in ((31, None), (32, BAD_BOOK), (255, BAD_BOOK)):
    field(f"node-location-{location}-of-32", bad, [head(1, 32, 31), SHEET_END, book()], node(0, location, 1), FILE_END)
field("node-location-1-of-1", BAD_BOOK, [head(), SHEET_END, book()], node(0, 1, 1), FILE_END)
field("node-place-and-location-bad", BAD_BOOK, [head(), SHEET_END, book()], node(64, 1, 1), FILE_END)
field("second-node-place-64", BAD_BOOK, [head(), SHEET_END, book(), node(0, 0, 1)], node(64, 0, 1), FILE_END)
for number in (0, 1, 255, 256, 32768, 65535):
    case(f"node-number-{number}", f"STANDS {number}", head(), SHEET_END, book(), node(0, 0, number), FILE_END)

# Bounds. Some make the zone empty, or leave 0 out.
EMPTY, NO_START, NO_DIFFERENCE = "REFUSED 11 B @ 0 -", "REFUSED 15 B @ - -", "REFUSED 9 Z @ 0 -"
BOUNDS_OF_BOTH = (
    ("0-6-of-6", None, 6, bound(0, 6, 0, 5)),
    ("6-6-of-6", BAD_BOUND, 6, bound(6, 6, 0, 5)),
    ("1-2-of-1", BAD_BOUND, 1, bound(1, 2, 0, 5)),
    ("1-7-of-6", BAD_BOUND, 6, bound(1, 7, 0, 5)),
    ("constant-10000", None, 1, bound(1, 0, 0, 10000)),
    ("constant-10001", BAD_BOUND, 1, bound(1, 0, 0, 10001)),
    ("constant-minus-10001", BAD_BOUND, 1, bound(0, 1, 0, -10001)),
    ("difference-and-strict-2", BAD_BOUND, 6, bound(1, 2, 2, 5)),
    ("difference-and-constant-10001", BAD_BOUND, 6, bound(1, 2, 0, 10001)),
    ("difference-and-constant-minus-10001", BAD_BOUND, 6, bound(1, 2, 0, -10001)),
)
BOUNDS_OF_DIFFERENCES = (
    ("1-0-of-1", None, 1, bound(1, 0, 0, 5)),
    ("0-1-of-1", None, 1, bound(0, 1, 0, 5)),
    ("6-0-of-6", None, 6, bound(6, 0, 0, 5)),
    ("0-0-of-1", BAD_BOUND, 1, bound(0, 0, 0, 5)),
    ("1-1-of-1", BAD_BOUND, 1, bound(1, 1, 0, 5)),
    ("2-0-of-1", BAD_BOUND, 1, bound(2, 0, 0, 5)),
    ("0-2-of-1", BAD_BOUND, 1, bound(0, 2, 0, 5)),
    ("7-0-of-6", BAD_BOUND, 6, bound(7, 0, 0, 5)),
    ("0-7-of-6", BAD_BOUND, 6, bound(0, 7, 0, 5)),
    ("255-0-of-6", BAD_BOUND, 6, bound(255, 0, 0, 5)),
    ("255-255-of-6", BAD_BOUND, 6, bound(255, 255, 0, 5)),
    ("strict-1", None, 1, bound(1, 0, 1, 5)),
    ("strict-2", BAD_BOUND, 1, bound(1, 0, 2, 5)),
    ("strict-255", BAD_BOUND, 1, bound(1, 0, 255, 5)),
    ("constant-32767", BAD_BOUND, 1, bound(1, 0, 0, 32767)),
    ("constant-minus-32768", BAD_BOUND, 1, bound(0, 1, 0, -32768)),
    ("constant-low-byte-first", None, 1, bound(1, 0, 0, 0x1127)),
)
for kind, bounds in ((DIFFERENCE, BOUNDS_OF_BOTH + BOUNDS_OF_DIFFERENCES), (BOX, BOUNDS_OF_BOTH)):
    before = {n: [head(n), SHEET_END, book(kind), node(0, 0, 1)] for n in (1, 6)}
    for name, bad, n, record in bounds:
        field(f"bound-{name}-{KINDS[kind]}", bad, before[n], record, FILE_END)
    for name, first in (("second-bound", at_most(1, 5)), ("bound-of-an-empty-zone", below(1, 0))):
        field(f"{name}-strict-2-{KINDS[kind]}", BAD_BOUND, [before[1], first], bound(1, 0, 2, 5), FILE_END)
    one = [head(), SHEET_END, book(kind)]
    case(f"bound-constant-minus-10000-{KINDS[kind]}", NO_START, one, node(0), at_least(1, 10000), MARK, FILE_END)
    case(f"bound-negative-upper-{KINDS[kind]}", EMPTY, one, MARK, node(0), at_most(1, -1), FILE_END)
    case(f"bound-lowest-upper-{KINDS[kind]}", EMPTY, one, MARK, node(0), at_most(1, -10000), FILE_END)

# ---------------------------------------------------------------------------------------------------------------------
# Counts, and the length of the file.

MANY = "REFUSED 5 S @ - -"
case("edges-128", OK, head(), times(128, edge(0, 0)), TAIL)
case("edges-129", MANY, head(), times(128, edge(0, 0)), MARK, edge(0, 0), TAIL)
case("edges-129-from-two-locations", MANY,
     head(1, 2), times(64, edge(0, 0)), times(64, edge(1, 1)), MARK, edge(1, 0), TAIL)
case("limits-64", OK, head(), times(64, limit(0, 1, LE, 1)), TAIL)
case("limits-64-equal", OK, head(), times(64, limit(0, 1, EQ, 0)), TAIL)
case("limits-65", MANY, head(), times(64, limit(0, 1, LE, 1)), MARK, limit(0, 1, LE, 1), TAIL)
case("limits-65-at-three-locations", MANY,
     head(1, 3), times(32, limit(0, 1, LE, 1)), times(32, limit(1, 1, LE, 1)), MARK, limit(2, 1, LE, 1), TAIL)
case("limits-65-the-last-out-of-range", BAD_SHEET,
     head(), times(64, limit(0, 1, LE, 1)), MARK, limit(0, 2, LE, 1), TAIL)
case("limits-65-the-last-cut", "REFUSED 2 F @ - -", head(), times(64, limit(0, 1, LE, 1)), MARK, limit(0, 1, LE, 1)[:5])
case("guards-256", OK, head(), edge(0, 0), times(256, guard(1, LE, 1)), TAIL)
case("guards-256-equal", OK, head(), edge(0, 0), times(256, guard(1, EQ, 1)), TAIL)
case("guards-257", MANY, head(), edge(0, 0), times(256, guard(1, LE, 1)), MARK, guard(1, LE, 1), TAIL)
case("guards-257-of-two-edges", MANY,
     head(), edge(0, 0), times(128, guard(1, LE, 1)), edge(0, 0), times(128, guard(1, GE, 1)), MARK, guard(1, LE, 1),
     TAIL)
case("guards-257-the-last-out-of-range", BAD_SHEET,
     head(), edge(0, 0), times(256, guard(1, LE, 1)), MARK, guard(1, 5, 1), TAIL)
case("guards-257-the-last-cut", "REFUSED 2 F @ - -",
     head(), edge(0, 0), times(256, guard(1, LE, 1)), MARK, guard(1, LE, 1)[:4])
case("all-counts-at-their-limit", OK,
     head(), times(128, edge(0, 0)), times(256, guard(1, LE, 1)), times(64, limit(0, 1, LE, 1)), TAIL)
case("accepting-repeated-1000-times", OK, head(1, 2), times(1000, accepting(1)), TAIL)
case("bounds-repeated-1000-times", OK, head(), TAIL[:-1], times(1000, at_most(1, 0)), FILE_END)
case("nodes-in-all-64-places", "STANDS 9", head(), SHEET_END, book(), [node(p, 0, 9) for p in range(64)], FILE_END)

# A head, a sheet end, a book record, two nodes and a file end are 19 bytes, and an accepting record is two.
PADDED = [head(1, 2), times(32758, accepting(1)), SHEET_END, book(), node(0, 0, 3), node(1, 0, 2)]
case("file-of-65535-bytes", "STANDS 2", PADDED, FILE_END)
case("file-of-65534-bytes-without-file-end", "REFUSED 2 F 65534 - -", PADDED)
case("file-of-65535-bytes-of-sheet", "REFUSED 2 F 65535 - -", head(1, 2), times(32765, accepting(1)), SHEET_END)
case("file-of-65535-bytes-ends-in-unknown", "REFUSED 1 F 65534 - -", PADDED, UNKNOWN)
case("file-of-65535-bytes-ends-in-cut-node", "REFUSED 2 F 65534 - -", PADDED, node(2)[:1])
case("file-of-65536-bytes", "REFUSED 5 F 0 - -", PADDED, FILE_END, FILE_END)
case("file-of-65536-unknown-bytes", "REFUSED 5 F 0 - -", times(65536, b"\x00"))
case("file-of-65535-unknown-bytes", "REFUSED 1 F 0 - -", times(65535, b"\x00"))

# ---------------------------------------------------------------------------------------------------------------------
# The start location's limit with all clocks 0.

for relation, constant, holds in (
    (LT, 0, False), (LT, 1, True), (LE, 0, True), (EQ, 0, True), (EQ, 1, False),
    (GE, 0, True), (GE, 1, False), (GT, 0, False), (GT, 1, False), (GE, 10000, False),
):
    case(f"start-limit-{RELATIONS[relation]}-{constant}", OK if holds else "REFUSED 6 S @ - -",
         head(), limit(0, 1, relation, constant), [] if holds else MARK, TAIL)
case("start-limit-second-atom", "REFUSED 6 S @ - -", head(), limit(0, 1, LE, 5), limit(0, 1, GE, 1), MARK, TAIL)
case("start-limit-last-of-six-clocks", "REFUSED 6 S @ - -", head(6), limit(0, 6, GT, 0), MARK, TAIL)
case("start-limit-of-another-location", OK, head(1, 2), limit(1, 1, GE, 1), TAIL)
case("start-limit-at-a-later-start", "REFUSED 6 S @ - -", head(1, 2, 1), limit(1, 1, GE, 1), MARK, TAIL)
case("start-limit-after-an-edge", "REFUSED 6 S @ - -",
     head(), edge(0, 0), limit(0, 1, GE, 1), guard(1, LE, 1), MARK, TAIL)

# ---------------------------------------------------------------------------------------------------------------------
# Order: each kind at each stage, and a file that ends there.

RECORDS = {
    "head": head(), "accepting": accepting(0), "limit": limit(0, 1, LE, 1), "edge": edge(0, 0),
    "guard": guard(1, LT, 0), "sheet-end": SHEET_END, "book": book(), "node": node(1, 0, 2), "bound": at_most(1, 0),
    "file-end": FILE_END,
}
# What has come, which kinds may come next, and how the file would end.
STAGES = {
    "at-the-start": ([], {"head"}, [head(), TAIL]),
    "after-head": ([head()], {"accepting", "limit", "edge", "sheet-end"}, TAIL),
    "after-edge": ([head(), edge(0, 0)], {"accepting", "limit", "edge", "guard", "sheet-end"}, TAIL),
    "after-sheet-end": ([head(), SHEET_END], {"book"}, TAIL[1:]),
    "after-book": ([head(), SHEET_END, book()], {"node", "file-end"}, TAIL[2:]),
    "after-node": ([head(), SHEET_END, book(), node(0, 0, 1)], {"node", "bound", "file-end"}, [FILE_END]),
    "after-file-end": ([head(), TAIL], set(), []),
}
for stage, (before, allowed, tail) in STAGES.items():
    for kind in [kind for kind in RECORDS if kind not in allowed]:
        case(f"{kind}-{stage}", "REFUSED 3 F @ - -", before, MARK, RECORDS[kind], tail)
    if stage != "after-file-end":
        case(f"unknown-{stage}", "REFUSED 1 F @ - -", before, MARK, UNKNOWN, tail)
        case(f"ends-{stage}", "REFUSED 2 F @ - -", before, MARK)
case("guard-after-an-accepting-record-and-no-edge", "REFUSED 3 F @ - -",
     head(), accepting(0), MARK, guard(1, LE, 1), TAIL)
case("second-sheet-after-the-first", "REFUSED 3 F @ - -", head(), SHEET_END, MARK, head(), TAIL)
case("second-book-after-a-node", "REFUSED 3 F @ - -", head(), TAIL[:3], MARK, book(), FILE_END)
case("edge-after-a-bound", "REFUSED 3 F @ - -", head(), TAIL[:3], at_most(1, 0), MARK, edge(0, 0), FILE_END)
for byte in (0x00, 0x0F, 0x13, 0x1E, 0x20, 0x81, 0xFF):
    case(f"unknown-kind-{byte:02x}", "REFUSED 1 F 4 - -", head(), bytes([byte]), TAIL)

# What follows the file end is refused whatever it is.
for name, extra in (
    ("unknown-byte", UNKNOWN), ("zero-byte", b"\x00"), ("line-end", b"\n"), ("cut-node", node(1)[:3]),
    ("out-of-range-node", node(64)), ("taken-node", node(0)), ("1000-bytes", times(1000, b"\xff")),
):
    case(f"{name}-follows-the-file-end", "REFUSED 3 F @ - -", head(), TAIL, MARK, extra)

# ---------------------------------------------------------------------------------------------------------------------
# Cut records: each kind at each length, where it may come and where it may not.

PLACES = {
    "head": "at-the-start", "accepting": "after-head", "limit": "after-head", "edge": "after-head",
    "guard": "after-edge", "book": "after-sheet-end", "node": "after-book", "bound": "after-node",
}
for kind, stage in PLACES.items():
    for length in range(1, len(RECORDS[kind])):
        case(f"{kind}-cut-to-{length}", "REFUSED 2 F @ - -", STAGES[stage][0], MARK, RECORDS[kind][:length])
    away = "after-head" if stage == "at-the-start" else "at-the-start"
    case(f"{kind}-cut-and-out-of-place", "REFUSED 2 F @ - -", STAGES[away][0], MARK, RECORDS[kind][:-1])
case("book-cut-in-the-sheet", "REFUSED 2 F @ - -", head(), MARK, book()[:2])
case("edge-cut-among-the-nodes", "REFUSED 2 F @ - -", head(), TAIL[:3], MARK, edge(0, 0)[:3])

# ---------------------------------------------------------------------------------------------------------------------
# Putting: places that are taken, empty zones, bounds on differences.

BARE = {(n, kind): [head(n, 2), SHEET_END, book(kind)] for n in range(1, 7) for kind in KINDS}
one = BARE[1, DIFFERENCE]
case("taken-by-the-node-before", "REFUSED 7 B @ 0 -", one, node(0), MARK, node(0), FILE_END)
case("taken-and-a-node-after", "REFUSED 7 B @ 0 -", one, node(0), MARK, node(0), node(1), FILE_END)
case("taken-by-the-first-of-three", "REFUSED 7 B @ 0 -", one, node(0), node(1), MARK, node(0), FILE_END)
case("taken-at-another-location", "REFUSED 7 B @ 5 -", one, node(5), MARK, node(5, 1), FILE_END)
case("taken-place-63", "REFUSED 7 B @ 63 -", one, node(63), MARK, node(63), FILE_END)
case("taken-in-boxes", "REFUSED 7 B @ 0 -", BARE[1, BOX], node(0), MARK, node(0), FILE_END)
case("taken-twice-names-the-first", "REFUSED 7 B @ 1 -", one, node(0), node(1), MARK, node(1), node(0), FILE_END)
case("taken-by-the-65th-node", "REFUSED 7 B @ 63 -", one, [node(p) for p in range(64)], MARK, node(63), FILE_END)
case("empty-node-takes-no-place", "REFUSED 11 B @ 0 -", one, MARK, node(0), below(1, 0), node(0), FILE_END)

EMPTY_ZONES = {
    "below-0": [below(1, 0)],
    "at-most-2-and-at-least-3": [at_most(1, 2), at_least(1, 3)],
    "at-most-2-and-above-2": [at_most(1, 2), above(1, 2)],
    "below-2-and-at-least-2": [below(1, 2), at_least(1, 2)],
    "above-2-and-below-2": [above(1, 2), below(1, 2)],
    "at-most-0-and-above-0": [at_most(1, 0), above(1, 0)],
    "and-a-bound-that-says-nothing": [below(1, 0), at_most(1, 10000)],
}
for kind in KINDS:
    for name, zone in EMPTY_ZONES.items():
        case(f"empty-{name}-{KINDS[kind]}", EMPTY, BARE[1, kind], MARK, node(0), zone, FILE_END)
    case(f"empty-in-the-second-of-two-clocks-{KINDS[kind]}", "REFUSED 11 B @ 1 -",
         BARE[2, kind], node(0), MARK, node(1), below(2, 0), FILE_END)
    case(f"empty-names-the-first-in-the-file-{KINDS[kind]}", "REFUSED 11 B @ 9 -",
         BARE[1, kind], MARK, node(9), below(1, 0), node(2), below(1, 0), FILE_END)
    for name, zone in (
        ("at-least-2-and-at-most-2", [at_least(1, 2), at_most(1, 2)]),
        ("between-3-and-4", [above(1, 3), below(1, 4)]),
    ):
        case(f"not-empty-{name}-{KINDS[kind]}", OK, BARE[1, kind], node(0, 0, 1), node(1, 1), zone, FILE_END)
    for name, zone in (
        ("at-most-0", [at_most(1, 0)]),
        ("at-least-minus-5", [at_least(1, -5)]),
        ("above-minus-1", [above(1, -1)]),
        ("at-least-0-below-1", [at_least(1, 0), below(1, 1)]),
    ):
        case(f"holds-0-{name}-{KINDS[kind]}", OK, BARE[1, kind], node(0, 0, 1), zone, FILE_END)
    for name, zone in (("above-0", above(1, 0)), ("at-least-1", at_least(1, 1))):
        case(f"lacks-0-{name}-{KINDS[kind]}", NO_START, BARE[1, kind], node(0, 0, 1), zone, MARK, FILE_END)
for name, zone in (
    ("cycle-of-two", [bound(1, 2, 0, -1), bound(2, 1, 0, 0)]),
    ("strict-cycle-of-two", [bound(1, 2, 1, 0), bound(2, 1, 0, 0)]),
    ("strict-second-of-a-cycle", [bound(1, 2, 0, 3), bound(2, 1, 1, -3)]),
    ("cycle-of-three", [bound(1, 2, 0, 5), bound(2, 3, 0, 5), bound(3, 1, 0, -11)]),
    ("cycle-through-0", [at_most(1, 0), bound(2, 1, 0, -1)]),
    ("cycle-of-seven", [at_most(1, 0), [bound(i + 1, i, 0, 0) for i in range(1, 6)], above(6, 0)]),
):
    case(f"empty-{name}", EMPTY, BARE[6, DIFFERENCE], MARK, node(0), zone, FILE_END)
for name, zone in (
    ("cycle-of-two", [bound(1, 2, 0, -3), bound(2, 1, 0, 3)]),
    ("cycle-of-three", [bound(1, 2, 0, 5), bound(2, 3, 0, 5), bound(3, 1, 0, -10)]),
    ("strict-cycle-above-0", [bound(1, 2, 1, 1), bound(2, 1, 1, 0)]),
):
    case(f"not-empty-{name}", OK, BARE[6, DIFFERENCE], node(0, 0, 1), node(1, 1), zone, FILE_END)
case("lacks-0-by-a-difference", NO_START, BARE[2, DIFFERENCE], node(0), bound(1, 2, 1, 0), MARK, FILE_END)
case("lacks-0-by-a-difference-of-minus-1", NO_START, BARE[2, DIFFERENCE], node(0), bound(2, 1, 0, -1), MARK, FILE_END)
case("holds-0-with-equal-clocks", OK,
     BARE[2, DIFFERENCE], node(0, 0, 1), bound(1, 2, 0, 0), bound(2, 1, 0, 0), FILE_END)

for n, i, j in ((2, 1, 2), (2, 2, 1), (6, 5, 6), (6, 6, 1)):
    case(f"difference-{i}-{j}-of-{n}-in-boxes", NO_DIFFERENCE, BARE[n, BOX], node(0), MARK, bound(i, j, 0, 0), FILE_END)
    case(f"difference-{i}-{j}-of-{n}-in-differences", OK,
         BARE[n, DIFFERENCE], node(0, 0, 1), bound(i, j, 0, 0), FILE_END)
two = BARE[2, BOX]
case("difference-after-a-bound-on-one-clock", NO_DIFFERENCE,
     two, node(0), at_most(1, 5), MARK, bound(1, 2, 0, 0), FILE_END)
case("difference-in-the-second-node", "REFUSED 9 Z @ 7 -", two, node(0), node(7, 1), MARK, bound(1, 2, 1, 5), FILE_END)
case("difference-and-strict-in-boxes", NO_DIFFERENCE, two, node(0), MARK, bound(2, 1, 1, -10000), FILE_END)

# ---------------------------------------------------------------------------------------------------------------------
# Admitting, and the order in which nodes are examined.

NOT_ADMITTED = "REFUSED 12 B @ 0 -"
for kind in KINDS:
    sheet = [head(1, 2), accepting(0), SHEET_END]
    case(f"unreachability-of-an-accepting-start-{KINDS[kind]}", NOT_ADMITTED,
         sheet, book(kind, UNREACHABILITY), MARK, node(0, 0, 5), FILE_END)
    case(f"emptiness-at-an-accepting-start-with-0-{KINDS[kind]}", NOT_ADMITTED,
         sheet, book(kind), MARK, node(0), FILE_END)
    case(f"emptiness-at-an-accepting-start-with-1-{KINDS[kind]}", OK, sheet, book(kind), node(0, 0, 1), FILE_END)
sheet = [head(1, 3), accepting(1), accepting(2), SHEET_END]
case("not-admitted-names-the-lowest-place", "REFUSED 12 B @ 4 -",
     sheet, book(), node(9, 1), MARK, node(4, 2), node(0), node(63, 1), FILE_END)
case("not-admitted-where-nothing-leads", "REFUSED 12 B @ 1 -", sheet, book(), node(0), MARK, node(1, 1), FILE_END)
case("not-admitted-with-a-zone-of-its-own", "REFUSED 12 B @ 1 -",
     sheet, book(question=UNREACHABILITY), node(0), MARK, node(1, 2, 65535), at_least(1, 7), FILE_END)
case("accepting-location-without-a-node", "STANDS 0", sheet, book(question=UNREACHABILITY), node(0, 0, 65535), FILE_END)
case("accepting-location-without-a-node-emptiness", "STANDS 3", sheet, book(), node(0, 0, 3), FILE_END)
case("accepting-twice-is-accepting-once", "STANDS 1",
     head(1, 2), accepting(0), accepting(0), edge(0, 1), SHEET_END, book(), node(0, 0, 1), node(1, 1), FILE_END)
case("accepting-after-the-edges", "REFUSED 13 B @ 0 0",
     head(1, 2), edge(0, 1), accepting(0), SHEET_END, book(), MARK, node(0, 0, 1), node(1, 1, 1), FILE_END)
case("impossible-edge-to-an-accepting-location", "STANDS 0",
     head(1, 2), accepting(1), limit(0, 1, LE, 5), edge(0, 1), guard(1, GT, 5), SHEET_END,
     book(question=UNREACHABILITY), node(0), FILE_END)
case("possible-edge-to-an-accepting-location", "REFUSED 13 B @ 0 0",
     head(1, 2), accepting(1), limit(0, 1, LE, 5), edge(0, 1), guard(1, GE, 5), SHEET_END,
     book(question=UNREACHABILITY), MARK, node(0), FILE_END)

# Numbers: what may follow what.
for at_accepting, number, following, passes in (
    (False, 0, 0, True), (False, 0, 1, False), (False, 5, 3, True), (False, 255, 256, False), (False, 256, 255, True),
    (False, 65535, 65535, True), (True, 1, 0, True), (True, 1, 1, False), (True, 65535, 65534, True),
    (True, 65535, 65535, False), (True, 1, 65535, False),
):
    name = f"number-{number}-then-{following}" + ("-from-accepting" if at_accepting else "")
    sheet = [head(1, 2), accepting(0) if at_accepting else [], edge(0, 1), SHEET_END]
    if passes:
        case(name, f"STANDS {number}", sheet, book(), node(0, 0, number), node(1, 1, following), FILE_END)
    else:
        case(name, "REFUSED 13 B @ 0 0", sheet, book(), MARK, node(0, 0, number), node(1, 1, following), FILE_END)
sheet = [head(1, 2), edge(0, 1), SHEET_END]
case("unreachability-asks-no-number", "STANDS 0",
     sheet, book(question=UNREACHABILITY), node(0), node(1, 1, 65535), FILE_END)
case("lower-number-in-a-higher-place", "STANDS 1", sheet, book(), node(0, 0, 1), node(1, 1, 2), node(2, 1, 1), FILE_END)
case("wide-zone-with-high-number-and-low-number-with-narrow-zone", "REFUSED 13 B @ 0 0",
     sheet, book(), MARK, node(0, 0, 1), node(1, 1, 2), node(2, 1, 1), at_most(1, 5), FILE_END)

# ---------------------------------------------------------------------------------------------------------------------
# Following an edge. Location 0 is the start and has no edges; edge 0 leads from location 1 to location 2.

STANDS, UNCOVERED = "STANDS 0", "REFUSED 13 B @ 1 0"


def step(name, line, zone, cover, limits=(), guards=(), zeros=0, n=1, kinds=(DIFFERENCE,)):
    """A node of this zone at location 1, and one of the zone cover at location 2, or none where cover is None."""
    for kind in kinds:
        case(f"{name}-{KINDS[kind]}" if len(kinds) > 1 else name, line,
             head(n, 3), edge(1, 2, zeros), list(guards), list(limits), SHEET_END, book(kind), node(0),
             [] if line == STANDS else MARK, node(1, 1), zone,
             [] if cover is None else [node(2, 2), cover], FILE_END)


BOTH_KINDS, BOXES = tuple(KINDS), (BOX,)
AT_0 = [at_most(1, 0)]
step("wait-is-unbounded", UNCOVERED, AT_0, at_most(1, 10000), kinds=BOTH_KINDS)
step("wait-keeps-the-lower-bound", STANDS, at_least(1, 3), at_least(1, 3), kinds=BOTH_KINDS)
step("wait-keeps-a-strict-lower-bound", STANDS, above(1, 3), above(1, 3), kinds=BOXES)
step("wait-adds-no-lower-bound", UNCOVERED, at_least(1, 3), above(1, 3))
step("wait-comes-before-the-guard", UNCOVERED, AT_0, None, guards=[guard(1, GE, 3)], kinds=BOTH_KINDS)
step("no-wait-after-the-edge", STANDS, AT_0, at_most(1, 0), zeros=1, kinds=BOTH_KINDS)

# What each relation with 3 leaves of a wait from 0, as a guard, as the source's and as the target's limit.
for relation, fits, misses in (
    (LT, below(1, 3), at_most(1, 2)),
    (LE, at_most(1, 3), below(1, 3)),
    (EQ, equal(1, 3), [at_most(1, 3), above(1, 2), below(1, 3)]),
    (GE, at_least(1, 3), above(1, 3)),
    (GT, above(1, 3), at_least(1, 4)),
):
    for what, kinds, atoms in (
        ("guard", BOTH_KINDS, {"guards": [guard(1, relation, 3)]}),
        ("source-limit", BOXES, {"limits": [limit(1, 1, relation, 3)]}),
        ("target-limit", (DIFFERENCE,), {"limits": [limit(2, 1, relation, 3)]}),
    ):
        step(f"{what}-{RELATIONS[relation]}-fits", STANDS, AT_0, fits, kinds=kinds, **atoms)
        step(f"{what}-{RELATIONS[relation]}-misses", UNCOVERED, AT_0, misses, kinds=kinds, **atoms)
step("guard-equal-has-its-lower-part", UNCOVERED, AT_0, below(1, 3), guards=[guard(1, EQ, 3)], kinds=BOXES)
step("guard-equal-has-its-upper-part", UNCOVERED, AT_0, above(1, 3), guards=[guard(1, EQ, 3)])
step("guard-of-two-atoms", STANDS, AT_0, [above(1, 3), below(1, 4)], guards=[guard(1, GT, 3), guard(1, LT, 4)])
step("guard-10000", STANDS, AT_0, at_least(1, 10000), guards=[guard(1, GE, 10000)])
step("guard-above-10000", UNCOVERED, AT_0, None, guards=[guard(1, GT, 10000)], kinds=BOXES)

# An empty result asks for no cover.
step("guard-against-the-zone", STANDS, at_least(1, 5), None, guards=[guard(1, LT, 5)], kinds=BOTH_KINDS)
step("guard-at-the-edge-of-the-zone", UNCOVERED, at_least(1, 5), None, guards=[guard(1, LE, 5)], kinds=BOTH_KINDS)
step("guard-against-itself", STANDS, AT_0, None, guards=[guard(1, GE, 3), guard(1, LT, 3)])
step("guard-against-itself-and-reset", STANDS, AT_0, None, [], [guard(1, GE, 3), guard(1, LT, 3)], 1, kinds=BOTH_KINDS)
step("guard-against-the-source-limit", STANDS, AT_0, None, [limit(1, 1, LE, 4)], [guard(1, GE, 5)])
step("guard-against-the-target-limit", STANDS, AT_0, None, [limit(2, 1, LE, 4)], [guard(1, GE, 5)], kinds=BOXES)
step("guard-at-the-target-limit", UNCOVERED, AT_0, None, [limit(2, 1, LE, 5)], [guard(1, GE, 5)], kinds=BOXES)

# The order: source's limit and guard, then resets, then the target's limit.
step("reset-covers", STANDS, AT_0, at_most(1, 0), guards=[guard(1, GE, 3)], zeros=1)
step("no-reset", UNCOVERED, AT_0, at_most(1, 0), guards=[guard(1, GE, 3)])
step("reset-is-0", UNCOVERED, AT_0, above(1, 0), zeros=1, kinds=BOTH_KINDS)
step("source-limit-not-after-the-reset", UNCOVERED, AT_0, None, [limit(1, 1, GE, 3)], zeros=1, kinds=BOTH_KINDS)
step("guard-not-after-the-reset", UNCOVERED, AT_0, None, guards=[guard(1, GE, 3)], zeros=1)
step("target-limit-not-before-the-reset", UNCOVERED, AT_0, None, [limit(2, 1, LE, 2)], [guard(1, GE, 3)], zeros=1)
step("target-limit-after-the-reset", STANDS, AT_0, None, [limit(2, 1, GE, 1)], zeros=1, kinds=BOTH_KINDS)
step("limit-of-neither", UNCOVERED, AT_0, at_most(1, 3), [limit(0, 1, LE, 3)])

# Each clock on its own: all clocks are at least 1 when the edge is taken.
ALL_0 = [at_most(x, 0) for x in range(1, 7)]
ALL_1 = [guard(x, GE, 1) for x in range(1, 7)]
for clock in range(1, 7):
    cover = [at_most(x, 0) if x == clock else at_least(x, 1) for x in range(1, 7)]
    kinds = (clock % 2,)
    step(f"reset-of-clock-{clock}", STANDS, ALL_0, cover, guards=ALL_1, zeros=1 << (clock - 1), n=6, kinds=kinds)
step("reset-of-all-clocks-but-4", UNCOVERED, ALL_0, at_most(4, 0), guards=ALL_1, zeros=63 - 8, n=6)
step("reset-of-all-clocks", STANDS, ALL_0, ALL_0, guards=ALL_1, zeros=63, n=6, kinds=BOTH_KINDS)

# How clocks hang together: matrices keep it, boxes do not.
TWO_0, BOTH = [at_most(1, 0), at_most(2, 0)], [bound(1, 2, 0, 0), bound(2, 1, 0, 0)]
APART = [guard(1, GE, 2), guard(2, LE, 1)]
step("clocks-apart-in-matrices", STANDS, TWO_0, None, guards=APART, n=2)
step("clocks-apart-in-boxes", UNCOVERED, TWO_0, None, guards=APART, n=2, kinds=BOXES)
step("other-clock-bounded-in-matrices", STANDS, TWO_0, at_most(2, 1), guards=[guard(1, EQ, 1)], n=2)
step("other-clock-bounded-in-boxes", UNCOVERED, TWO_0, at_most(2, 1), guards=[guard(1, EQ, 1)], n=2, kinds=BOXES)
step("wait-keeps-differences", STANDS, TWO_0, BOTH, n=2)
step("wait-keeps-a-difference-of-3", STANDS, bound(1, 2, 0, 3), bound(1, 2, 0, 3), n=2)
step("difference-cover-too-narrow", UNCOVERED, bound(1, 2, 0, 3), bound(1, 2, 0, 2), n=2)
step("difference-cover-too-strict", UNCOVERED, bound(1, 2, 0, 3), bound(1, 2, 1, 3), n=2)
step("difference-cover-the-other-way", UNCOVERED, bound(1, 2, 0, 3), bound(2, 1, 0, 3), n=2)
step("reset-parts-clocks", UNCOVERED, TWO_0, BOTH, zeros=1, n=2)
step("reset-orders-clocks", STANDS, TWO_0, bound(1, 2, 0, 0), zeros=1, n=2)
step("reset-of-both-joins-clocks", STANDS, [], BOTH, zeros=3, n=2)
for name, line, cover in (("fits", STANDS, at_most(2, 7)), ("misses", UNCOVERED, below(2, 7))):
    step(f"upper-sum-{name}", line, bound(2, 1, 0, 3), cover, guards=[guard(1, LE, 4)], n=2)
step("upper-sum-strict-by-the-guard", STANDS, bound(2, 1, 0, 3), below(2, 7), guards=[guard(1, LT, 4)], n=2)
step("upper-sum-strict-by-the-zone", STANDS, bound(2, 1, 1, 3), below(2, 7), guards=[guard(1, LE, 4)], n=2)
for name, line, cover in (("fits", STANDS, at_least(2, 3)), ("misses", UNCOVERED, above(2, 3))):
    step(f"lower-sum-{name}", line, bound(1, 2, 0, 1), cover, guards=[guard(1, GE, 4)], n=2)
step("cover-of-three-bounds", STANDS, [], [at_most(1, 4), bound(2, 1, 0, 3), at_most(2, 7)],
     [limit(1, 1, LE, 4), limit(1, 2, LE, 3)], n=2)

# Constants as wide as sums of bounds make them: still far from 1,000,000.
CHAIN = [bound(x + 1, x, 0, 10000) for x in range(1, 6)]
CHAIN_BACK = [bound(x, x + 1, 0, -10000) for x in range(1, 6)]
step("sum-of-60000", STANDS, CHAIN, [at_most(1, 10000), CHAIN], guards=[guard(1, LE, 10000)], n=6)
step("sum-of-60000-misses", UNCOVERED, CHAIN, [below(1, 10000), CHAIN], guards=[guard(1, LE, 10000)], n=6)
step("sum-of-minus-60000", STANDS, CHAIN_BACK, [at_least(1, 10000), CHAIN_BACK], guards=[guard(1, GE, 10000)], n=6)
step("sums-both-ways", STANDS, [CHAIN, CHAIN_BACK], [equal(1, 10000), CHAIN, CHAIN_BACK],
     [limit(1, 1, EQ, 10000), limit(2, 1, EQ, 10000)], [guard(1, EQ, 10000)], n=6)
step("sums-against-the-target-limit", STANDS, CHAIN_BACK, None, [limit(2, 6, LE, 10000)], zeros=1, n=6)

# Covers: one node at the target has to hold the whole result.
LOOP = [head(1, 3), edge(1, 2), SHEET_END, book(), node(0)]
for name, line, nodes in (
    ("halves", UNCOVERED, [node(2, 2), at_most(1, 5), node(3, 2), at_least(1, 5)]),
    ("overlapping-halves", UNCOVERED, [node(2, 2), at_most(1, 7), node(3, 2), at_least(1, 3)]),
    ("second-place-covers", STANDS, [node(2, 2), at_most(1, 5), node(3, 2)]),
    ("lower-place-covers", STANDS, [node(63, 2), at_most(1, 5), node(2, 2)]),
    ("node-at-another-location", UNCOVERED, [node(2, 0)]),
):
    case(f"cover-{name}", line, LOOP, [] if line == STANDS else MARK, node(1, 1), nodes, FILE_END)
case("cover-in-a-lower-place", STANDS, LOOP[:-1], node(5), node(9, 1), node(1, 2), FILE_END)

# Loops.
case("loop-stands", "STANDS 2", head(), edge(0, 0), SHEET_END, book(), node(0, 0, 2), FILE_END)
case("loop-leaves-its-zone", "REFUSED 13 B @ 0 0",
     head(), edge(0, 0), SHEET_END, book(), MARK, node(0), at_most(1, 0), FILE_END)
case("loop-with-a-reset", "STANDS 0", head(), edge(0, 0, 1), SHEET_END, book(), node(0), at_most(1, 0), FILE_END)
case("loop-at-an-accepting-location", "REFUSED 13 B @ 0 0",
     head(), accepting(0), edge(0, 0), SHEET_END, book(), MARK, node(0, 0, 65535), FILE_END)
case("impossible-loop-at-an-accepting-location", "STANDS 1",
     head(), accepting(0), limit(0, 1, LE, 1), edge(0, 0), guard(1, GT, 1), SHEET_END, book(), node(0, 0, 1), FILE_END)
case("loop-through-the-limit-twice", "STANDS 0",
     head(), limit(0, 1, LE, 3), edge(0, 0), SHEET_END, book(), node(0), at_most(1, 3), FILE_END)
case("loop-unrolled", "STANDS 3",
     head(1, 2), accepting(0), edge(0, 1), edge(1, 0), guard(1, LT, 0), SHEET_END, book(), node(0, 0, 3), node(1, 1, 2),
     FILE_END)
case("two-locations-in-a-ring", "STANDS 0",
     head(1, 2), edge(0, 1), edge(1, 0), SHEET_END, book(BOX), node(0), node(1, 1), FILE_END)
case("two-locations-in-a-ring-with-a-visit", "REFUSED 13 B @ 1 1",
     head(1, 2), accepting(1), edge(0, 1), edge(1, 0), SHEET_END, book(), node(0, 0, 4), MARK, node(1, 1, 4), FILE_END)

# Which edge and which node are named.
FAN = [head(1, 4), edge(2, 2), edge(0, 1), edge(2, 3), edge(0, 2), guard(1, LE, 1), edge(0, 3), SHEET_END, book()]
case("edge-numbers-count-all-edges", "REFUSED 13 B @ 0 3", FAN, MARK, node(0), node(1, 1), node(3, 3), FILE_END)
case("first-of-two-edges", "REFUSED 13 B @ 0 1", FAN, MARK, node(0), node(2, 2), FILE_END)
case("last-edge", "REFUSED 13 B @ 0 4", FAN, MARK, node(0), node(1, 1), node(2, 2), FILE_END)
case("edges-without-a-node-at-their-source", "STANDS 0",
     head(1, 4), FAN[1], FAN[3], SHEET_END, book(), node(0), FILE_END)
case("lowest-place-first", "REFUSED 13 B @ 3 0", FAN, node(8), MARK, node(3, 2), at_most(1, 1), node(5), FILE_END)
case("edge-127", "REFUSED 13 B @ 0 127",
     head(1, 2), times(127, edge(0, 0)), edge(0, 1), SHEET_END, book(), MARK, node(0), FILE_END)
case("repeated-edges-are-edges", "REFUSED 13 B @ 0 2",
     head(1, 2), times(2, edge(0, 0)), times(2, edge(0, 1)), SHEET_END, book(), MARK, node(0), FILE_END)

# What belongs to what.
case("guard-belongs-to-the-latest-edge", "REFUSED 13 B @ 0 0",
     head(1, 2), edge(0, 1), edge(0, 1), guard(1, LT, 0), SHEET_END, book(), MARK, node(0), FILE_END)
case("guards-of-two-edges", "STANDS 0",
     head(1, 2), edge(0, 1), guard(1, LT, 0), edge(0, 1), guard(1, LT, 0), SHEET_END, book(), node(0), FILE_END)
case("accepting-and-limit-before-a-guard", "STANDS 0",
     head(1, 2), edge(0, 1), accepting(1), limit(1, 1, LE, 5), guard(1, LT, 0), SHEET_END, book(), node(0), FILE_END)
case("guards-around-a-limit", "STANDS 0",
     head(1, 2), edge(0, 1), guard(1, LE, 5), limit(1, 1, LE, 9), guard(1, GE, 5), SHEET_END,
     book(), node(0), node(1, 1), equal(1, 5), FILE_END)
case("limit-after-the-edges", "STANDS 0",
     head(1, 2), edge(0, 1), limit(0, 1, LE, 5), SHEET_END, book(), node(0), node(1, 1), at_most(1, 5), FILE_END)
case("repeated-limits", "STANDS 0",
     head(1, 2), times(3, limit(0, 1, LE, 5)), edge(0, 1), times(3, guard(1, GE, 5)), SHEET_END,
     book(), node(0), node(1, 1), equal(1, 5), FILE_END)
case("bound-belongs-to-the-latest-node", "STANDS 4",
     head(), SHEET_END, book(), node(0, 0, 5), above(1, 0), node(1, 0, 4), FILE_END)

# ---------------------------------------------------------------------------------------------------------------------
# Concluding.

one = BARE[1, DIFFERENCE]
case("no-nodes", NO_START, one, MARK, FILE_END)
case("no-nodes-unreachability", NO_START, head(), SHEET_END, book(BOX, UNREACHABILITY), MARK, FILE_END)
case("no-node-at-the-start", NO_START, one, node(0, 1), MARK, FILE_END)
case("least-of-two-numbers", "STANDS 3", one, node(0, 0, 5), node(1, 0, 3), FILE_END)
case("least-number-first", "STANDS 3", one, node(0, 0, 3), node(1, 0, 5), FILE_END)
case("least-number-lacks-0", "STANDS 5", one, node(0, 0, 3), at_least(1, 1), node(1, 0, 5), FILE_END)
case("least-number-elsewhere", "STANDS 5", one, node(0, 1, 3), node(1, 0, 5), FILE_END)
case("least-number-of-boxes", "STANDS 3", BARE[2, BOX], node(7, 0, 5), node(9, 0, 3), at_most(2, 0), FILE_END)
case("start-in-place-63", "STANDS 6", head(1, 2, 1), SHEET_END, book(), node(0), node(63, 1, 6), FILE_END)
case("second-clock-not-0-at-the-start", NO_START, BARE[2, BOX], node(0), above(2, 0), MARK, FILE_END)

# ---------------------------------------------------------------------------------------------------------------------
# Two faults in one file: which is named. FAULTS is what a file can be refused for; 10 is not among them, since the sums
# that a file can make stay within 300,000 (see docs/ZONES.md for the bound of 1,000,000):
# - a node's bounds are within 10,000, so its zone's are within 60,000, the sum along at most six of them;
# - limit and guard compare a clock with 0, so a sum has at most two of their constants and two of the zone's bounds;
# - after the resets, which add nothing, the target's limit does the same once more: 2 * (2 * 60,000 + 20,000) + 20,000.

FAULTS = (1, 2, 3, 4, 5, 6, 7, 9, 11, 12, 13, 15)
pairs = set()


def pair(named, other, line, *pieces):
    """A file with two faults, of which the first is named."""
    assert line.startswith(f"REFUSED {named} ")
    pairs.add((named, other))
    case(f"ground-{named}-before-{other}", line, *pieces)


# Location 1 is accepting, edge 0 leads from location 0 to location 2, zones are boxes.
PLAIN = [head(2, 3), accepting(1)]
NEVER = limit(0, 1, GE, 1)
OPEN = [PLAIN, SHEET_END, book(BOX)]
EDGED = [PLAIN, edge(0, 2), SHEET_END, book(BOX)]
CUT = edge(0, 0)[:2]
APART_BOUND, EMPTY_BOUND, BAD_STRICT = bound(1, 2, 0, 0), below(1, 0), bound(1, 0, 2, 0)
EDGES = times(128, edge(2, 2))
# What follows a sheet's records and holds one fault, with its sheet end.
LATER = {
    7: [SHEET_END, book(BOX), node(0), node(0), FILE_END],
    9: [SHEET_END, book(BOX), node(0), APART_BOUND, FILE_END],
    11: [SHEET_END, book(BOX), node(0), EMPTY_BOUND, FILE_END],
    12: [SHEET_END, book(BOX), node(0), node(5, 1), FILE_END],
    13: [SHEET_END, book(BOX), node(0, 2), at_most(1, 0), FILE_END],
    15: [SHEET_END, book(BOX), FILE_END],
}

line = "REFUSED 1 F @ - -"
pair(1, 2, line, PLAIN, MARK, UNKNOWN, CUT)
pair(1, 3, line, PLAIN, MARK, UNKNOWN, book())
pair(1, 4, line, PLAIN, MARK, UNKNOWN, accepting(3))
pair(1, 5, line, PLAIN, MARK, UNKNOWN, EDGES, edge(2, 2))
pair(1, 6, line, PLAIN, NEVER, MARK, UNKNOWN, SHEET_END)
pair(1, 7, line, OPEN, node(0), node(0), MARK, UNKNOWN, FILE_END)
pair(1, 9, line, OPEN, node(0), MARK, UNKNOWN, APART_BOUND, FILE_END)
pair(1, 11, line, OPEN, node(0), EMPTY_BOUND, MARK, UNKNOWN, FILE_END)
pair(1, 12, line, OPEN, node(0), node(5, 1), MARK, UNKNOWN, FILE_END)
pair(1, 13, line, EDGED, node(0), MARK, UNKNOWN, FILE_END)
pair(1, 15, line, OPEN, node(1, 2), MARK, UNKNOWN, FILE_END)

line = "REFUSED 2 F @ - -"
pair(2, 3, line, PLAIN, MARK, book()[:2])
pair(2, 4, line, PLAIN, MARK, limit(3, 1, LE, 1)[:5])
pair(2, 5, line, PLAIN, EDGES, MARK, edge(2, 2)[:3])
pair(2, 6, line, PLAIN, NEVER, MARK)
pair(2, 7, line, OPEN, node(0), node(0), MARK)
pair(2, 9, line, OPEN, node(0), MARK, APART_BOUND[:5])
pair(2, 11, line, OPEN, node(0), EMPTY_BOUND, MARK)
pair(2, 12, line, OPEN, node(0), node(5, 1), MARK)
pair(2, 13, line, EDGED, node(0), MARK)
pair(2, 15, line, OPEN, MARK)

line = "REFUSED 3 F @ - -"
pair(3, 1, line, PLAIN, MARK, book(), UNKNOWN)
pair(3, 2, line, PLAIN, MARK, book(), CUT)
pair(3, 4, line, PLAIN, MARK, book(2, 2))
pair(3, 5, line, PLAIN, EDGES, SHEET_END, MARK, edge(2, 2))
pair(3, 6, line, PLAIN, NEVER, MARK, book())
pair(3, 7, line, OPEN, node(0), node(0), MARK, SHEET_END, FILE_END)
pair(3, 9, line, OPEN, MARK, APART_BOUND, FILE_END)
pair(3, 11, line, OPEN, node(0), EMPTY_BOUND, FILE_END, MARK, FILE_END)
pair(3, 12, line, OPEN, node(0), node(5, 1), FILE_END, MARK, UNKNOWN)
pair(3, 13, line, EDGED, node(0), FILE_END, MARK, UNKNOWN)
pair(3, 15, line, OPEN, FILE_END, MARK, UNKNOWN)

line = "REFUSED 4 S @ - -"
pair(4, 1, line, PLAIN, MARK, accepting(3), UNKNOWN)
pair(4, 2, line, PLAIN, MARK, accepting(3), CUT)
pair(4, 3, line, PLAIN, MARK, accepting(3), book())
pair(4, 5, line, PLAIN, EDGES, MARK, edge(3, 0))
pair(4, 6, line, PLAIN, NEVER, MARK, accepting(3), SHEET_END)
pair(4, 7, "REFUSED 4 B @ - -", OPEN, node(0), node(0), MARK, node(64), FILE_END)
pair(4, 9, "REFUSED 4 Z @ - -", OPEN, node(0), MARK, bound(1, 2, 2, 0), FILE_END)
pair(4, 11, "REFUSED 4 B @ - -", OPEN, node(0), EMPTY_BOUND, MARK, node(64), FILE_END)
pair(4, 12, "REFUSED 4 Z @ - -", OPEN, node(0), node(5, 1), MARK, BAD_STRICT, FILE_END)
pair(4, 13, "REFUSED 4 Z @ - -", EDGED, node(0), MARK, BAD_STRICT, FILE_END)
pair(4, 15, "REFUSED 4 B @ - -", OPEN, node(1, 2), MARK, node(0, 3), FILE_END)

line = "REFUSED 5 S @ - -"
pair(5, 1, line, PLAIN, EDGES, MARK, edge(2, 2), UNKNOWN)
pair(5, 2, line, PLAIN, EDGES, MARK, edge(2, 2), CUT)
pair(5, 3, line, PLAIN, EDGES, MARK, edge(2, 2), book())
pair(5, 4, line, PLAIN, EDGES, MARK, edge(2, 2), accepting(3))
pair(5, 6, line, PLAIN, NEVER, EDGES, MARK, edge(2, 2), SHEET_END)
for other, later in LATER.items():
    pair(5, other, line, PLAIN, EDGES, MARK, edge(2, 2), later)

line = "REFUSED 6 S @ - -"
pair(6, 1, line, PLAIN, NEVER, MARK, SHEET_END, UNKNOWN)
pair(6, 2, line, PLAIN, NEVER, MARK, SHEET_END)
pair(6, 3, line, PLAIN, NEVER, MARK, SHEET_END, node(0))
pair(6, 4, line, PLAIN, NEVER, MARK, SHEET_END, book(2, 2))
for other, later in LATER.items():
    pair(6, other, line, PLAIN, edge(2, 2), NEVER, MARK, later)

line = "REFUSED 7 B @ 0 -"
pair(7, 1, line, OPEN, node(0), MARK, node(0), node(1, 2), UNKNOWN)
pair(7, 2, line, OPEN, node(0), MARK, node(0), node(1, 2))
pair(7, 3, line, OPEN, node(0), MARK, node(0), node(1, 2), SHEET_END)
pair(7, 4, line, OPEN, node(0), MARK, node(0), node(1, 2), BAD_STRICT)
pair(7, 9, line, OPEN, node(0), MARK, node(0), node(1, 2), APART_BOUND)
pair(7, 11, line, OPEN, node(0), MARK, node(0), EMPTY_BOUND, FILE_END)
pair(7, 12, line, OPEN, node(0), MARK, node(0), node(5, 1), FILE_END)
pair(7, 13, line, EDGED, node(0), MARK, node(0), FILE_END)
pair(7, 15, line, OPEN, node(0, 2), MARK, node(0, 2), FILE_END)

line = "REFUSED 9 Z @ 0 -"
pair(9, 1, line, OPEN, node(0), MARK, APART_BOUND, UNKNOWN)
pair(9, 2, line, OPEN, node(0), MARK, APART_BOUND)
pair(9, 3, line, OPEN, node(0), MARK, APART_BOUND, SHEET_END)
pair(9, 4, line, OPEN, node(0), MARK, APART_BOUND, node(64))
pair(9, 7, line, OPEN, node(0), node(0), MARK, APART_BOUND, FILE_END)
pair(9, 11, line, OPEN, node(0), EMPTY_BOUND, MARK, APART_BOUND, FILE_END)
pair(9, 12, line, OPEN, node(5, 1), node(0), MARK, APART_BOUND, FILE_END)
pair(9, 13, line, EDGED, node(0), MARK, APART_BOUND, FILE_END)
pair(9, 15, line, OPEN, node(0, 2), MARK, APART_BOUND, FILE_END)

line = "REFUSED 11 B @ 0 -"
pair(11, 1, line, OPEN, MARK, node(0), EMPTY_BOUND, node(1, 2), UNKNOWN)
pair(11, 2, line, OPEN, MARK, node(0), EMPTY_BOUND, node(1, 2))
pair(11, 3, line, OPEN, MARK, node(0), EMPTY_BOUND, node(1, 2), SHEET_END)
pair(11, 4, line, OPEN, MARK, node(0), EMPTY_BOUND, node(1, 2), BAD_STRICT)
pair(11, 7, line, OPEN, MARK, node(0), EMPTY_BOUND, node(1, 2), node(1, 2), FILE_END)
pair(11, 9, line, OPEN, MARK, node(0), EMPTY_BOUND, node(1, 2), APART_BOUND)
pair(11, 12, line, OPEN, node(5, 1), MARK, node(0), EMPTY_BOUND, FILE_END)
pair(11, 13, line, EDGED, node(1), MARK, node(0, 2), EMPTY_BOUND, FILE_END)
pair(11, 15, line, OPEN, MARK, node(0), EMPTY_BOUND, FILE_END)

pair(12, 13, "REFUSED 12 B @ 0 -", EDGED, MARK, node(0, 1), node(1), FILE_END)
pair(12, 15, "REFUSED 12 B @ 0 -", OPEN, MARK, node(0, 1), FILE_END)
pair(13, 12, "REFUSED 13 B @ 0 0", EDGED, node(5, 1), MARK, node(0), FILE_END)
pair(13, 15, "REFUSED 13 B @ 0 0", PLAIN, edge(2, 2), SHEET_END, book(BOX), MARK, node(0, 2), at_most(1, 0), FILE_END)
case("ground-12-before-13-in-one-node", NOT_ADMITTED,
     head(1, 2), accepting(0), edge(0, 1), SHEET_END, book(), MARK, node(0), FILE_END)

# The other pairs cannot be: nothing follows a cut record; the sheet is judged before the nodes, and all nodes are put
# before one is examined; the start is looked for last.
never = {(2, 1), (6, 5)}
never |= {(named, other) for named in (7, 9, 11) for other in (5, 6)}
never |= {(named, other) for named in (12, 13) for other in FAULTS if other not in (12, 13, 15)}
never |= {(15, other) for other in FAULTS}
assert not pairs & never and pairs | never >= {(a, b) for a in FAULTS for b in FAULTS if a != b}

# The length of the file is judged before all else.
LONG = times(32767, accepting(1))
case("too-long-before-all-ends", "REFUSED 5 F 0 - -", head(1, 2), LONG)
case("too-long-before-cut", "REFUSED 5 F 0 - -", head(1, 2), LONG[:-1], edge(0, 0)[:2])
case("too-long-before-range", "REFUSED 5 F 0 - -", head(9, 9, 9), LONG)

# Lines that are no cases.
MALFORMED = {
    "malformed-one-digit": " 010102001",
    "malformed-capital-digit": " 1F",
    "malformed-letter": " 0g",
    "malformed-count-0": " 00*0",
    "malformed-count-65537": " 00*65537",
    "malformed-no-count": " 00*",
    "malformed-no-digits": " *3",
    "malformed-two-spaces": " 01010200  06",
    "malformed-no-space": "01010200",
}


def main():
    here = pathlib.Path(__file__).resolve().parent.parent / "crates" / "checktable"
    texts = {name: tokens(records) for name, (records, _) in cases.items()} | MALFORMED
    lines = {name: line for name, (_, line) in cases.items()} | dict.fromkeys(MALFORMED, "MALFORMED")
    files = {
        "stdin": "".join(f"{name}:{text}\n" for name, text in texts.items()),
        "stdout": "".join(f"{name}: {line}\n" for name, line in lines.items()),
    }
    if sys.argv[1:] == ["--check"]:
        return all((here / name).read_text() == text for name, text in files.items())
    for name, text in files.items():
        (here / name).write_text(text)
    print(f"{len(lines)} cases, {len(files['stdin'])} bytes")
    return True


if __name__ == "__main__":
    sys.exit(0 if main() else 1)
