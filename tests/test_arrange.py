"""The program `arrange`: sheets and what it prints. Expected sheets are written by hand or are the model's below, which is written from the rules and not
from our code; refusals are those that `tests/test_overlay.py` holds."""
import random
import struct
import subprocess
import sys
import unittest

sys.dont_write_bytecode = True
from test_overlay import contour, number, overlay, printed

ARRANGE = ["target/bin/arrange"]
OPERATIONS = ("intersection", "difference", "union", "xor")
MINUS_ZERO = 1 << 63
# Every kind of number in IEEE 754's totalOrder, one sign of zero left out.
NUMBERS = [
    0xFFFFFFFFFFFFFFFF, 0xFFF8000000000001, 0xFFF8000000000000, 0xFFF7FFFFFFFFFFFF, 0xFFF0000000000001, 0xFFF0000000000000,
    0xFFEFFFFFFFFFFFFF, 0xC630000000000000, 0xC000000000000000, 0xBFF0000000000000, 0x8000000000000002, 0x8000000000000001,
    0,
    0x0000000000000001, 0x0000000000000002, 0x3FF0000000000000, 0x4000000000000000, 0x4630000000000000, 0x7FEFFFFFFFFFFFFF,
    0x7FF0000000000000, 0x7FF0000000000001, 0x7FF7FFFFFFFFFFFF, 0x7FF8000000000000, 0x7FF8000000000001, 0x7FFFFFFFFFFFFFFF,
]
RINGS = [0, 1, 2, 9, 10, 11, 99, 4294967294, 4294967295]


# ---- the model: an edge is its ring and the bits of its four numbers


def rank(word):
    """As whole numbers: those without the sign bit are themselves, those with it go down from minus one."""
    return word if word < MINUS_ZERO else MINUS_ZERO - 1 - word


def plain_edge(edge):
    ring, *words = edge
    ax, ay, bx, by = (0 if word == MINUS_ZERO else word for word in words)
    first, second = sorted([(ax, ay), (bx, by)], key=lambda corner: [rank(word) for word in corner])
    return (ring, *first, *second)


def key(edge):
    ring, *words = edge
    return [*map(rank, words), ring]


def model(operation, subject, clip):
    layers = [sorted(map(plain_edge, layer), key=key) for layer in (subject, clip)]
    if operation != "difference":
        layers.sort(key=lambda layer: [key(edge) for edge in layer])
    return operation, *layers


# ---- sheets


def bits(x):
    return struct.unpack(">Q", struct.pack(">d", x))[0]


def walls(ring, corners):
    return [(ring, *map(bits, (*p, *q))) for p, q in zip(corners, corners[1:] + corners[:1])]


def box(ring, x, y, w, h):
    return walls(ring, [(x, y), (x + w, y), (x + w, y + h), (x, y + h)])


def sheet(operation, subject, clip):
    lines = [f"operation {operation}"]
    for name, layer in (("subject", subject), ("clip", clip)):
        lines += [f"{name} {len(layer)}", *(f"{ring} " + " ".join(f"{word:016x}" for word in words) for ring, *words in layer)]
    return "".join(line + "\n" for line in lines)


def arrange(text):
    data = text if isinstance(text, bytes) else text.encode("latin-1")
    run = subprocess.run(ARRANGE, input=data, capture_output=True, timeout=60)
    assert run.stderr == b"", run.stderr
    return run.stdout.decode("latin-1")


def another_edge(edge, rng):
    ring, ax, ay, bx, by = edge
    words = (bx, by, ax, ay) if rng.random() < 0.5 else (ax, ay, bx, by)
    return (ring, *(rng.choice((0, MINUS_ZERO)) if word in (0, MINUS_ZERO) else word for word in words))


def another_layer(layer, rng):
    return [another_edge(edge, rng) for edge in rng.sample(layer, len(layer))]


def another_way(operation, subject, clip, rng):
    """The same drawing, saved in another way."""
    layers = [another_layer(layer, rng) for layer in (subject, clip)]
    if operation != "difference" and rng.random() < 0.5:
        layers.reverse()
    return operation, *layers


def random_sheet(rng):
    """Of few numbers and rings, so that much is equal; now and then a layer twice, in another way."""
    numbers = rng.sample(NUMBERS + [MINUS_ZERO], rng.choice((2, 3, 26)))
    rings = rng.sample(RINGS, rng.choice((1, 2, 9)))
    layer = lambda: [(rng.choice(rings), *rng.choices(numbers, k=4)) for _ in range(rng.choice((0, 1, 2, 3, 6, 12)))]
    subject = layer()
    clip = another_layer(subject, rng) + rng.choice(([], layer())) if rng.random() < 0.3 else layer()
    return rng.choice(OPERATIONS), subject, clip


class Arranged(unittest.TestCase):
    def becomes(self, given, wanted):
        """And as that it stays."""
        self.assertEqual(arrange(sheet(*given)), sheet(*wanted))
        self.assertEqual(arrange(sheet(*wanted)), sheet(*wanted))

    def test_a_room(self):
        """01's first square, by hand: both walls from (0,0), the upright one first, then from (0,2), then from (2,0)."""
        lines = [
            "7 0000000000000000 0000000000000000 0000000000000000 4000000000000000",
            "7 0000000000000000 0000000000000000 4000000000000000 0000000000000000",
            "7 0000000000000000 4000000000000000 4000000000000000 4000000000000000",
            "7 4000000000000000 0000000000000000 4000000000000000 4000000000000000",
        ]
        for operation in OPERATIONS:
            head = f"operation {operation}\n"
            wanted = ["subject 4", *lines, "clip 0"] if operation == "difference" else ["subject 0", "clip 4", *lines]
            given = sheet(operation, box(7, 0, 0, 2, 2), [])
            self.assertEqual(arrange(given), head + "".join(line + "\n" for line in wanted))

    def test_numbers_by_their_bits(self):
        """Not-a-numbers by sign and payload, infinities, and what is finite, at each place of an edge that is told by it alone."""
        shuffled = random.Random(1).sample(NUMBERS, len(NUMBERS))
        for operation in OPERATIONS:
            for name, at in {
                "first x": lambda w: (0, w, 0, NUMBERS[-1], NUMBERS[-1]),
                "first y": lambda w: (0, 0, w, NUMBERS[-1], NUMBERS[-1]),
                "second x": lambda w: (0, NUMBERS[0], NUMBERS[0], w, 0),
                "second y": lambda w: (0, NUMBERS[0], NUMBERS[0], 0, w),
            }.items():
                with self.subTest(place=name):
                    self.becomes((operation, [], list(map(at, shuffled))), (operation, [], list(map(at, NUMBERS))))

    def test_each_edge_from_its_earlier_end(self):
        """By x, whatever y is, and then by y."""
        one, two = bits(1.0), bits(2.0)
        pairs = list(zip(NUMBERS, NUMBERS[1:]))
        for edges in ([(0, early, two, late, one) for early, late in pairs], [(0, one, early, one, late) for early, late in pairs]):
            turned = [(ring, bx, by, ax, ay) for ring, ax, ay, bx, by in edges]
            for operation in OPERATIONS:
                self.becomes((operation, [], turned), (operation, [], edges))

    def test_minus_zeros(self):
        """Turned before anything is compared."""
        one = bits(1.0)
        for places in range(16):
            words = [MINUS_ZERO if places >> k & 1 else 0 for k in range(4)]
            self.becomes(("xor", [], [(3, *words)]), ("xor", [], [(3, 0, 0, 0, 0)]))
        self.becomes(("xor", [], [(0, 0, one, MINUS_ZERO, 0)]), ("xor", [], [(0, 0, 0, 0, one)]))
        # By the bits as they stand the first would come last.
        self.becomes(
            ("xor", [], [(2, 0, 0, one, one), (1, MINUS_ZERO, 0, one, one), (3, 0, MINUS_ZERO, one, one)]),
            ("xor", [], [(1, 0, 0, one, one), (2, 0, 0, one, one), (3, 0, 0, one, one)]),
        )
        # The least number below zero is none.
        self.becomes(("xor", [], [(0, 0, 0, MINUS_ZERO + 1, 0)]), ("xor", [], [(0, MINUS_ZERO + 1, 0, 0, 0)]))

    def test_rings_alone(self):
        """As numbers, not as words."""
        wall = box(0, 0, 0, 1, 1)[0][1:]
        shuffled = random.Random(2).sample(RINGS, len(RINGS))
        for operation in OPERATIONS:
            self.becomes((operation, [], [(r, *wall) for r in shuffled]), (operation, [], [(r, *wall) for r in RINGS]))
        self.becomes(("union", [(10, *wall)], [(9, *wall)]), ("union", [(9, *wall)], [(10, *wall)]))
        self.becomes(("difference", [(10, *wall)], [(9, *wall)]), ("difference", [(10, *wall)], [(9, *wall)]))

    def test_ends_before_rings(self):
        low, high = (9, 0, 0, 0, bits(1.0)), (1, 0, 0, 0, bits(2.0))
        self.becomes(("xor", [], [high, low]), ("xor", [], [low, high]))

    def test_equal_edges_stay(self):
        room = box(4, 0, 0, 1, 1)
        turned = [(ring, bx, by, ax, ay) for ring, ax, ay, bx, by in room]
        wanted = sorted(map(plain_edge, room), key=key)
        thrice = [edge for edge in wanted for _ in range(3)]
        for operation in OPERATIONS:
            self.becomes((operation, [], room + turned + room), (operation, [], thrice))

    def test_empty_layers(self):
        wall = [(1, *map(bits, (0.0, 0.0, 1.0, 0.0)))]
        for operation in OPERATIONS:
            self.becomes((operation, [], []), (operation, [], []))
            self.becomes((operation, [], wall), (operation, [], wall))
            self.becomes((operation, wall, []), (operation, wall, []) if operation == "difference" else (operation, [], wall))

    def test_layers(self):
        """Equal ones stay; else the first edge tells in which they differ; one that ends first is the lesser. A difference keeps them."""
        wall = lambda y: (0, *map(bits, (0.0, 0.0, 1.0, y)))
        for lesser, greater in (
            ([wall(1), wall(2)], [wall(1), wall(2)]),
            ([wall(1), wall(2)], [wall(1), wall(3)]),
            ([wall(1), wall(9)], [wall(2), wall(3)]),
            ([wall(1)], [wall(1), wall(1)]),
            ([wall(1), wall(1)], [wall(2)]),
            ([wall(-2)], [wall(-1), wall(5)]),
        ):
            for operation in OPERATIONS:
                self.becomes((operation, lesser, greater), (operation, lesser, greater))
                first, second = (greater, lesser) if operation == "difference" else (lesser, greater)
                self.becomes((operation, greater, lesser), (operation, first, second))

    def test_as_many_as_a_sheet_holds(self):
        rng = random.Random(3)
        edges = [(rng.choice(RINGS), *(rng.getrandbits(64) for _ in range(4))) for _ in range(256)]
        longest = [(4294967295, *edge[1:]) for edge in edges]
        for operation in OPERATIONS:
            for given in ((edges, []), ([], longest), (longest, []), (edges[:128], edges[128:]), (edges[:255], edges[255:])):
                self.becomes((operation, *given), model(operation, *given))

    def test_random_sheets(self):
        """Beside the model: every way of saving one drawing gives the same bytes."""
        rng = random.Random(4)
        seen = set()
        for _ in range(80):
            given = random_sheet(rng)
            wanted = model(*given)
            seen.add((given[0], wanted[1:] == tuple(sorted(map(plain_edge, layer), key=key) for layer in given[1:])))
            self.becomes(given, wanted)
            self.assertEqual(arrange(sheet(*another_way(*given, rng))), sheet(*wanted))
        # Layers that stay and layers that change places, but for a difference.
        self.assertEqual(len(seen), 7)


class Drawings(unittest.TestCase):
    def one_map(self, ways, plain):
        """Saved in these ways a drawing gives these maps, arranged it gives one."""
        self.assertEqual([overlay(sheet(*way)) for way in ways], plain)
        texts = {arrange(sheet(*way)) for way in ways}
        self.assertEqual(len(texts), 1)
        return overlay(texts.pop())

    def test_rooms_that_share_a_wall(self):
        """Two rooms of one layer, listed one after the other or the other first."""
        first, second, strip = box(0, 0, 0, 2, 1), box(1, 2, 0, 2, 1), box(2, 0, 0, 2, 2)
        closed = printed(contour("-", 0, [], [(0, 0), (2, 0), (2, 1), (0, 1), (0, 0)]))
        open_ended = printed(contour("-", 0, [], [(0, 0), (2, 0)]), contour("-", 0, [], [(0, 0), (0, 1), (2, 1)]))
        ways = [("intersection", first + second, strip), ("intersection", second + first, strip)]
        self.assertEqual(self.one_map(ways, [closed, open_ended]), closed)

    def test_layers_that_change_places(self):
        third, more, above = map(number, (0x3FE5555555555555, 0x3FE5555555555556, 0x3FF5555555555555))
        triangle, ring = walls(0, [(0, 2), (1, 2), (1, 1)]), walls(1, [(1, 2), (0, 0), (1, 1), (0, 2)])
        upper = contour("-", 0, [], [(0, 2), (more, above), (1, 2), (0, 2)])
        lower = contour("-", 0, [], [(third, above), (1, 1), (more, above), (third, above)])
        ways = [("intersection", triangle, ring), ("intersection", ring, triangle)]
        self.assertEqual(self.one_map(ways, [printed(upper, lower), printed(upper)]), printed(upper))

    def test_refused_edges_stand_where_they_are_arranged(self):
        """A place is an edge's, so it too depends on how a drawing is saved, and no more when it is arranged."""
        room, point = box(0, 0, 0, 1, 1), (0, *map(bits, (9.0, 9.0, 9.0, 9.0)))
        ways = [("difference", [point, *room], []), ("difference", [*room, point], [])]
        self.assertEqual(self.one_map(ways, ["refused 3 at 0\n", "refused 3 at 4\n"]), "refused 3 at 4\n")
        nan = (0, 0x7FF8000000000000, 0, 0, 0)
        self.assertEqual(overlay(arrange(sheet("difference", [point, *room, nan], []))), "refused 2 at 2\n")

    def test_the_floor(self):
        with open("examples/floor/floor.sheet") as given, open("examples/floor/floor.map") as wanted:
            self.assertEqual(overlay(arrange(given.read())), wanted.read())


class Refused(unittest.TestCase):
    def told(self, text, number, line):
        wanted = f"refused {number} at {line}\n"
        self.assertEqual(arrange(text), wanted, text if len(text) < 400 else text[:400])
        self.assertEqual(overlay(text), wanted)

    def test_too_many_edges(self):
        wall = box(0, 0, 0, 1, 1)[0]
        self.told("operation xor\nsubject 257\n", 1, 2)
        self.told("operation xor\nsubject 257", 1, 2)
        self.told("operation xor\nsubject 18446744073709551616\n", 1, 2)
        self.told("operation xor\nsubject " + "9" * 65520, 1, 2)
        self.told("operation xor\nsubject " + "9" * 100000 + "\n", 1, 2)
        self.told("operation xor\nsubject 0\nclip 257\n", 1, 3)
        self.told(sheet("xor", [wall] * 200, []).replace("clip 0", "clip 57"), 1, 203)

    def test_malformed(self):
        squares = sheet("intersection", box(0, 0, 0, 2, 2), box(1, 1, 1, 2, 2))
        lines = squares.splitlines(keepends=True)
        for line, wrong in (
            (1, "operation all\n"),
            (1, "operation xor\r\n"),
            (2, "subject 04\n"),
            (2, "clip 4\n"),
            (3, lines[2].replace("0 ", "00 ", 1)),
            (3, lines[2].replace("0 ", "4294967296 ", 1)),
            (4, lines[3].replace("4", "A", 1)),
            (5, lines[4][:-1] + " \n"),
            (6, lines[5][:-2] + "\n"),
            (7, "clip\n"),
            (8, "\n"),
            (11, lines[10][:-1]),
        ):
            self.told("".join(lines[: line - 1] + [wrong] + lines[line:]), 10, line)
        self.told("", 10, 1)
        self.told("\0" * 100, 10, 1)
        self.told("\n" * 1000000, 10, 1)
        self.told("operation xor\nsubject 256", 10, 2)
        self.told("operation xor\nsubject 257x\n", 10, 2)
        self.told(squares.replace("subject 4", "subject 3"), 10, 6)
        self.told(squares.replace("subject 4", "subject 5"), 10, 7)
        self.told(squares + "\n", 10, 12)
        self.told(squares + "x" * 100000, 10, 12)
        self.told("refused 10 at 3\n", 10, 1)

    def test_what_only_the_map_is_refused_for(self):
        """Edges that do not load (2, 3) and runs that stop (6 to 9) are arranged like others."""
        both = lambda ring, a, b: walls(ring, [a, b])
        edge = lambda *ends: (0, *map(bits, ends))
        for refusal, given in (
            (2, ("xor", [edge(float("inf"), 0.0, 1.0, 1.0)], [])),
            (3, ("xor", [edge(5.0, 5.0, 5.0, 5.0)], [])),
            (6, ("xor", both(0, (3, 1), (2, 3)), both(1, (3, 2), (1, 3)))),
            (7, ("difference", [edge(2, 2, 2, 0), edge(3, 1, 2, 3), edge(3, 2, 1, 3), edge(3, 3, 0, 0)], [])),
            (8, ("intersection", both(0, (0, 1), (3, 4)), both(1, (1, 3), (2, 2)))),
            (9, ("xor", both(0, (0, 5), (4, 2)), both(1, (1, 2), (2, 4)))),
        ):
            self.assertIn(f"refused {refusal} at ", overlay(sheet(*given)))
            self.assertEqual(arrange(sheet(*given)), sheet(*model(*given)))


if __name__ == "__main__":
    unittest.main()
