"""The program `overlay`: sheets and what it prints. Expected answers are document 01's, or written by hand from it; the maps of the floor, of layers
that change places and of a room told as a hole, and refusals 6 to 9 with their places, are the wrapped Rust's, worked by
`runs map ordered` (`compare/README.md`)."""
import os
import struct
import subprocess
import unittest

OVERLAY = ["target/bin/overlay"]


def bits(x):
    return struct.pack(">d", x).hex()


def number(pattern):
    return struct.unpack(">d", pattern.to_bytes(8, "big"))[0]


def edge(ring, *numbers):
    return f"{ring} " + " ".join(map(bits, numbers))


def box(ring, x, y, w, h):
    corners = [(x, y), (x + w, y), (x + w, y + h), (x, y + h)]
    return [edge(ring, *corners[i], *corners[(i + 1) % 4]) for i in range(4)]


def sheet(operation, subject, clip):
    lines = [f"operation {operation}", f"subject {len(subject)}", *subject, f"clip {len(clip)}", *clip]
    return "".join(line + "\n" for line in lines)


def overlay(text):
    data = text if isinstance(text, bytes) else text.encode("latin-1")
    run = subprocess.run(OVERLAY, input=data, capture_output=True, timeout=60)
    assert run.stderr == b"", run.stderr
    return run.stdout.decode("latin-1")


def contour(parent, depth, holes, points):
    return [f"parent {parent} depth {depth}", f"holes {len(holes)}", *map(str, holes), f"points {len(points)}"] + [
        f"{bits(x)} {bits(y)}" for x, y in points
    ]


def printed(*contours):
    return "".join(line + "\n" for line in [f"contours {len(contours)}", *sum(contours, [])])


SQUARES = sheet("intersection", box(0, 0, 0, 2, 2), box(1, 1, 1, 2, 2))


class Maps(unittest.TestCase):
    def test_the_squares_of_01(self):
        self.assertEqual(overlay(SQUARES), printed(contour("-", 0, [], [(1, 1), (2, 1), (2, 2), (1, 2), (1, 1)])))

    def test_touching_squares(self):
        first = [(0, 0), (1, 0), (1, 1), (0, 1), (0, 0)]
        second = [(1, 1), (2, 1), (2, 2), (1, 2), (1, 1)]
        text = sheet("union", box(0, 0, 0, 1, 1), box(1, 1, 1, 1, 1))
        self.assertEqual(overlay(text), printed(contour("-", 0, [], first), contour("-", 0, [], second)))

    def test_a_hole(self):
        outer = [(0, 0), (9, 0), (9, 9), (0, 9), (0, 0)]
        text = sheet("difference", box(0, 0, 0, 9, 9), box(1, 3, 3, 3, 3))
        lines = overlay(text).splitlines()
        self.assertEqual(lines[:5], ["contours 2", "parent - depth 0", "holes 1", "1", "points 5"])
        self.assertEqual(lines[5:10], [f"{bits(x)} {bits(y)}" for x, y in outer])
        self.assertEqual(lines[10:13], ["parent 0 depth 1", "holes 0", "points 5"])

    def test_strips_across_strips(self):
        """n by n strips have 8n edges and 8n^2 divisions: 3 by 3 fit a pool of 256 places, 5 by 5 one of 1,024, 8 by 8 none."""
        for n in (2, 3, 5, 8):
            upright = sum((box(i, 4 * i, 0, 2, 4 * n) for i in range(n)), [])
            level = sum((box(i, -1, 4 * i + 1, 4 * n, 2) for i in range(n)), [])
            tiles = [(4 * i, 4 * j + 1) for i in range(n) for j in range(n)]
            wanted = [contour("-", 0, [], [(x, y), (x + 2, y), (x + 2, y + 2), (x, y + 2), (x, y)]) for x, y in tiles]
            text = overlay(sheet("intersection", upright, level))
            if n == 8:
                # By 01's rules over the wrapped Rust's leaves.
                self.assertEqual(text, "refused 6 at 63\n")
            else:
                self.assertEqual(text, printed(*wanted), n)

    def test_few_edges_with_many_divisions(self):
        """24 edges that fill the small pool give what they give beside a room far away, where they are not tried in it."""
        teeth = [(0, -10)] + [(2 * i, 100 * (i % 2)) for i in range(1, 11)] + [(22, -10)]
        subject = [edge(0, *a, *b) for a, b in zip(teeth, teeth[1:] + teeth[:1])]
        clip = [edge(0, a[1] - 40, a[0] + 40, b[1] - 40, b[0] + 40) for a, b in zip(teeth, teeth[1:] + teeth[:1])]
        far = contour("-", 0, [], [(900, 0), (901, 0), (901, 1), (900, 1), (900, 0)])
        for operation in ("intersection", "union", "difference", "xor"):
            alone = overlay(sheet(operation, subject, clip)).splitlines()
            self.assertGreater(len(alone), 100)
            beside = overlay(sheet(operation, subject + box(1, 900, 0, 1, 1), clip)).splitlines()
            more = [] if operation == "intersection" else far
            count = int(alone[0].split()[1]) + (1 if more else 0)
            self.assertEqual(beside, [f"contours {count}"] + alone[1:] + more)

    def test_a_map_may_change_where_layers_change_places(self):
        """Crossings keep their bits then, and whole maps need not: edges of both layers lie on one line (docs/PROMISES.md)."""
        third, more, above = 0x3FE5555555555555, 0x3FE5555555555556, 0x3FF5555555555555
        at = lambda x, y: (number(x), number(y))
        triangle, ring = [(0, 2), (1, 2), (1, 1)], [(1, 2), (0, 0), (1, 1), (0, 2)]
        walls = lambda name, corners: [edge(name, *a, *b) for a, b in zip(corners, corners[1:] + corners[:1])]
        upper = contour("-", 0, [], [(0, 2), at(more, above), (1, 2), (0, 2)])
        lower = contour("-", 0, [], [at(third, above), (1, 1), at(more, above), at(third, above)])
        self.assertEqual(overlay(sheet("intersection", walls(0, triangle), walls(1, ring))), printed(upper, lower))
        self.assertEqual(overlay(sheet("intersection", walls(0, ring), walls(1, triangle))), printed(upper))

    def test_a_room_told_as_a_hole(self):
        """A fault of the source, the same here: where both layers share a wall, a room may be told as a hole of another
        (docs/DIFFERENCES.md). The map is the wrapped Rust's."""
        first = [(0, 0), (1, 0), (4, 0), (4, 3), (1, 3), (0, 3), (0, 0)]
        second = [(0, 4), (4, 4), (4, 7), (0, 7), (0, 4)]
        text = sheet("union", box(0, 0, 0, 4, 3) + box(1, 0, 4, 4, 3), box(2, 0, 0, 1, 3))
        self.assertEqual(overlay(text), printed(contour("-", 0, [1], first), contour(0, 1, [], second)))

    def test_nothing(self):
        self.assertEqual(overlay("operation xor\nsubject 0\nclip 0\n"), "contours 0\n")

    def test_the_floor(self):
        folder = "examples/floor"
        for name in sorted(file[:-6] for file in os.listdir(folder) if file.endswith(".sheet")):
            with open(f"{folder}/{name}.sheet") as given, open(f"{folder}/{name}.map") as wanted:
                self.assertEqual(overlay(given.read()), wanted.read())


class Refused(unittest.TestCase):
    def told(self, text, number, place):
        self.assertEqual(overlay(text), f"refused {number} at {place}\n", text if len(text) < 400 else text[:400])

    def test_counts_that_pass_the_limit(self):
        wall = edge(0, 0, 0, 1, 1)
        self.told("operation xor\nsubject 257\n", 1, 2)
        self.told("operation xor\nsubject 99999999999999999999999999999999\n", 1, 2)
        self.told(sheet("xor", [wall] * 200, []).replace("clip 0", "clip 57"), 1, 203)
        self.assertNotIn("refused 1 ", overlay(sheet("xor", [wall] * 256, [])))

    def test_bytes_that_end_in_a_count(self):
        """A count that has passed the limit is 1 where no byte follows its digits; the program reads 65,536 bytes."""
        wall = edge(0, 0, 0, 1, 1)
        clip = sheet("xor", [wall] * 200, [])[: -len("0\n")]
        for digits in ("257", "300", "4294967296", "18446744073709551616", "9" * 65520):
            self.told("operation xor\nsubject " + digits, 1, 2)
            self.told(clip + digits, 1, 203)
            for more in ("x", " ", "\r\n", "\0"):
                self.told("operation xor\nsubject " + digits[:1000] + more, 10, 2)
            self.told("operation xor\nsubject 0" + digits, 10, 2)
        for more in ("\n", "\nclip 0\n", "9" * 100000 + "\n", "x"):
            self.told("operation xor\nsubject " + "9" * 65520 + more, 1, 2)
        self.told(clip + "57", 1, 203)
        for digits in ("", "0", "25", "256"):
            self.told("operation xor\nsubject " + digits, 10, 2)
        self.told(clip + "56", 10, 203)

    def test_edges(self):
        good = box(0, 0, 0, 1, 1)
        for number in ("7ff8000000000000", "7ff0000000000000", "fff0000000000000", "4630000000000001", "c630000000000001"):
            bad = f"0 {number} {bits(0)} {bits(1)} {bits(1)}"
            self.told(sheet("xor", good + [bad], []), 2, 4)
            self.told(sheet("xor", good, [bad]), 2, 4)
        self.told(sheet("xor", good, [edge(1, 5, 5, 5, 5)]), 3, 4)
        self.told(sheet("xor", good, [f"1 {bits(0.0)} {bits(5)} {bits(-0.0)} {bits(5)}"]), 3, 4)

    def test_runs(self):
        """Numbers and places by 01's rules over the wrapped Rust's leaves: 6 and 7 the record to be divided, 8 the lowest listed
        record whose partner is missing, 9 the one at the contour's start, where `connect_edges` panics."""
        both = lambda ring, a, b, c, d: [edge(ring, a, b, c, d), edge(ring, c, d, a, b)]
        self.told(sheet("xor", both(0, 3, 1, 2, 3), both(1, 3, 2, 1, 3)), 6, 1021)
        walls = [edge(0, 2, 2, 2, 0), edge(0, 3, 1, 2, 3), edge(0, 3, 2, 1, 3), edge(0, 3, 3, 0, 0)]
        self.told(sheet("difference", walls, []), 7, 17)
        self.told(sheet("intersection", both(0, 0, 1, 3, 4), both(1, 1, 3, 2, 2)), 8, 9)
        self.told(sheet("xor", both(0, 0, 5, 4, 2), both(1, 1, 2, 2, 4)), 9, 3)

    def test_malformed(self):
        lines = SQUARES.splitlines(keepends=True)

        def changed(line, new):
            return "".join(lines[: line - 1] + [new] + lines[line:])

        wrong = {
            1: ["", "\n", "operation all\n", "operation  xor\n", "Operation xor\n", "operation xor \n", " operation xor\n", "operation xor\r\n", "operation\txor\n"],
            2: ["subject\n", "subject 04\n", "subject +4\n", "subject 4 \n", "subject four\n", "clip 4\n", "subject 4\0\n", "subject -1\n"],
            3: [lines[2].replace("0 ", "00 ", 1), lines[2].replace("0 ", "4294967296 ", 1), lines[2].replace(" ", "  ", 1), lines[2][:-2] + "\n", lines[2][:-1] + "0\n", lines[2][:-1] + " \n", lines[3].replace("4", "A", 1), lines[2][:-1] + "\r\n", "\n"],
            7: ["clip 3\n"[:4] + "\n", "subject 4\n", "clip 4 4\n"],
        }
        for line, texts in wrong.items():
            for text in texts:
                self.told(changed(line, text), 10, line)
        self.told(changed(2, "subject 3\n"), 10, 6)
        self.told(changed(2, "subject 5\n"), 10, 7)
        self.told(changed(7, "clip 3\n"), 10, 11)
        self.told(changed(7, "clip 5\n"), 10, 12)
        self.told(SQUARES + "\n", 10, 12)
        self.told(SQUARES + "x", 10, 12)
        self.told(SQUARES[:-1], 10, 11)
        self.told("", 10, 1)
        self.told("\0" * 100, 10, 1)
        for byte in (b"\n", b"0", b"\xff"):
            self.told(byte * 1000000, 10, 1)


if __name__ == "__main__":
    unittest.main()
