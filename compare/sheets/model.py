"""01's sheet in Python, written from document 01 and not from our code: reading, loading's refusals, the text of a map.

A sheet is read to its edges or refused; between reading and printing stand the stages, which somebody else runs."""
import re
import struct

OPERATIONS = (b"intersection", b"difference", b"union", b"xor")
MAX_EDGES = 256
POOL = 1024
# The program reads no more of its input (docs/DECISIONS.md, 51).
PROGRAM_READS = 65536
LARGEST = 2.0**100

DECIMAL = rb"(0|[1-9][0-9]*)"
BITS = rb"([0-9a-f]{16})"
OPERATION_LINE = re.compile(rb"operation (" + b"|".join(OPERATIONS) + rb")")
COUNT_LINE = {layer: re.compile(layer + b" " + DECIMAL) for layer in (b"subject", b"clip")}
EDGE_LINE = re.compile(DECIMAL + (b" " + BITS) * 4)


class Refused(Exception):
    """A number of 01's table and a place."""

    def __init__(self, number, place):
        super().__init__(number, place)
        self.number, self.place = number, place

    def text(self):
        return b"refused %d at %d\n" % (self.number, self.place)


class Sheet:
    def __init__(self, operation, edges):
        # An edge: x y x y, ring, 1 for the subject.
        self.operation, self.edges = operation, edges


class Lines:
    """The lines of a sheet in turn; what does not match, or is not there, is refused by 10 at its own number."""

    def __init__(self, data):
        # After the last line feed comes a line that nothing ends, or nothing.
        *self.lines, self.rest = data.split(b"\n")
        self.number = 0

    def take(self, pattern):
        self.number += 1
        there = self.number <= len(self.lines)
        match = pattern.fullmatch(self.lines[self.number - 1]) if there else None
        if not match:
            raise Refused(10, self.number)
        return match.groups()

    def cut(self, pattern):
        """The next line, if it matches as far as it goes and the bytes end in it."""
        return pattern.fullmatch(self.rest) if self.number == len(self.lines) else None

    def end(self):
        if self.number < len(self.lines) or self.rest:
            raise Refused(10, self.number + 1)


def is_above(digits, limit):
    """Of a decimal without leading zeros, however long."""
    return len(digits) > len(str(limit)) or int(digits) > limit


def number(bits):
    return struct.unpack(">d", bytes.fromhex(bits.decode("ascii")))[0]


def read_count(lines, layer, already):
    # Bytes may end in a count's digits: one above the limit stays so, however it would go on (docs/DECISIONS.md, 51).
    cut = lines.cut(COUNT_LINE[layer])
    if cut and is_above(cut[1], MAX_EDGES - already):
        raise Refused(1, lines.number + 1)
    (digits,) = lines.take(COUNT_LINE[layer])
    if is_above(digits, MAX_EDGES - already):
        raise Refused(1, lines.number)
    return int(digits)


def read_edge(lines, subject):
    ring, *ends = lines.take(EDGE_LINE)
    if is_above(ring, 2**32 - 1):
        raise Refused(10, lines.number)
    return (*map(number, ends), int(ring), subject)


def read(data):
    lines = Lines(data)
    (word,) = lines.take(OPERATION_LINE)
    edges = []
    for layer in (b"subject", b"clip"):
        count = read_count(lines, layer, len(edges))
        edges += [read_edge(lines, int(layer == b"subject")) for _ in range(count)]
    lines.end()
    return Sheet(OPERATIONS.index(word), edges)


def check_loading(edges):
    """Refusals 2 and 3, of each edge in turn; the pool has two places for each."""
    for i, (ax, ay, bx, by, _, _) in enumerate(edges):
        # Of a not-a-number every comparison is false.
        if not all(abs(x) <= LARGEST for x in (ax, ay, bx, by)):
            raise Refused(2, i)
        if (ax, ay) == (bx, by):
            raise Refused(3, i)


def contour_lines(contour, points, holes):
    first, end, parent, depth, first_hole, hole_count = contour
    yield b"parent %s depth %d" % (b"%d" % (parent - 1) if parent else b"-", depth)
    yield b"holes %d" % hole_count
    yield from (b"%d" % hole for hole in holes[first_hole : first_hole + hole_count])
    yield b"points %d" % (end - first)
    yield from (b" ".join(struct.pack(">d", x).hex().encode() for x in point) for point in points[first:end])


def map_text(contours, points, holes):
    """The output that 01 shows; a contour: its points from and to, its parent + 1 or 0, its depth, its holes from and how many."""
    lines = [b"contours %d" % len(contours)]
    for contour in contours:
        lines += contour_lines(contour, points, holes)
    return b"".join(line + b"\n" for line in lines)


def answer(data, stages):
    """The map's text, or a refusal. `stages` takes a sheet through the sweep and connection."""
    sheet = read(data)
    check_loading(sheet.edges)
    return map_text(*stages(sheet))


def with_room(text, room):
    """What the C entry makes of it: refusal 5 last of all, the place the bytes wanted."""
    if len(text) > room:
        raise Refused(5, len(text))
    return text
