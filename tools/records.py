"""Records of the file format (docs/FORMAT.md), and their bytes."""

LT, LE, EQ, GE, GT = range(5)
DIFFERENCE, BOX = 0, 1
UNREACHABILITY, EMPTINESS = 0, 1

SHEET_END = b"\x06"
FILE_END = b"\x1f"


def head(clocks=1, locations=1, start=0):
    return bytes([0x01, clocks, locations, start])


def accepting(location):
    return bytes([0x02, location])


def limit(location, clock, relation, constant):
    return bytes([0x03, location, clock, relation]) + constant.to_bytes(2, "little")


def edge(source, target, zeros=0):
    return bytes([0x04, source, target, zeros])


def guard(clock, relation, constant):
    return bytes([0x05, clock, relation]) + constant.to_bytes(2, "little")


def book(kind=DIFFERENCE, question=EMPTINESS):
    return bytes([0x10, kind, question])


def node(place, location=0, number=0):
    return bytes([0x11, place, location]) + number.to_bytes(2, "little")


def bound(i, j, strict, constant):
    return bytes([0x12, i, j, strict]) + constant.to_bytes(2, "little", signed=True)


def at_most(clock, constant):
    return bound(clock, 0, 0, constant)


def below(clock, constant):
    return bound(clock, 0, 1, constant)


def at_least(clock, constant):
    return bound(0, clock, 0, -constant)


def above(clock, constant):
    return bound(0, clock, 1, -constant)


def equal(clock, constant):
    return [at_most(clock, constant), at_least(clock, constant)]
