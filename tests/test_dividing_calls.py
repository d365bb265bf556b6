"""The program `calls` on what divides: refusals and malformed lines, which the fixed list has not; every division and nextUp among special numbers by 01's rules."""
import itertools
import math
import struct
import subprocess
import unittest

CALLS = ["target/bin/calls"]
LIMIT = 2.0**100
NAN, INFINITY, MINUS_INFINITY, ABOVE = "7ff8000000000000", "7ff0000000000000", "fff0000000000000", "4630000000000001"


def bits(x):
    return struct.pack(">d", x).hex()


def answers(lines):
    run = subprocess.run(CALLS, input="\n".join(lines + [""]).encode(), capture_output=True, timeout=60)
    return run.stdout.decode("ascii").split("\n")[:-1]


def divide(words):
    return " ".join(["divide", *words, "1", "7"])


def neigh(words):
    return " ".join(["neigh", *words[:4], "1", "0", "0", *words[4:], "0", "4294967295", "1"])


# A segment and a cut; two segments that cross at (2,0).
CUT = [bits(float(n)) for n in (0, 0, 4, 0, 2, 0)]
CROSSING = [bits(float(n)) for n in (0, 0, 4, 0, 0, -1, 4, 1)]


class Refused(unittest.TestCase):
    def test_a_coordinate_is_told_with_its_record_and_that_of_a_cut_is_7(self):
        lines, wanted = [], []
        for word in (NAN, INFINITY, MINUS_INFINITY, ABOVE):
            for call, good in ((divide, CUT), (neigh, CROSSING)):
                for at in range(len(good)):
                    lines.append(call(good[:at] + [word] + good[at + 1:]))
                    wanted.append("refused 7 at 0" if call is divide and at > 3 else f"refused 2 at {at // 2}")
        self.assertEqual(answers(lines), wanted)

    def test_a_left_end_not_before_its_partner(self):
        back, point = CUT[2:4] + CUT[:2], CUT[:2] + CUT[:2]
        lines = [divide(ends + CUT[4:]) for ends in (back, point)]
        lines += [neigh(ends + CROSSING[4:]) for ends in (back, point)] + [neigh(CROSSING[:4] + ends) for ends in (back, point)]
        self.assertEqual(answers(lines), ["refused 4 at 0"] * 4 + ["refused 4 at 2"] * 2)


class Malformed(unittest.TestCase):
    def test_each_line_that_is_no_call_and_the_next_is_read(self):
        next_up = f"nextup {bits(1.0)}"
        good = [divide(CUT), neigh(CROSSING), next_up]
        bad = [line + end for line in good for end in (" ", " 0", "a")]
        bad += [line.replace(" ", "  ", 1) for line in good] + [" ".join(line.split()[:-1]) for line in good]
        bad += [line.replace(bits(0.0), "0" * 15, 1) for line in good[:2]] + ["nextup", "nextup " + "3FF0000000000000"]
        bad += [divide(CUT).replace(" 1 7", flags) for flags in (" 2 7", " 1 07", " 1 4294967296", " 1 -")]
        bad += [neigh(CROSSING)[:-1] + flag for flag in "2-"]
        lines, wanted = [], []
        for line in bad:
            lines += [line, next_up]
            wanted += ["malformed", "3ff0000000000001"]
        self.assertEqual(answers(lines), wanted)


def divided(left, right, cut):
    """01's rules for one segment, all coordinates being numbers."""
    x, y = cut
    if x == left[0] and y < left[1]:
        x = math.nextafter(x, math.inf)
    if (x, y) in (left, right) or not left[0] <= x <= right[0] or max(abs(x), abs(y)) > LIMIT:
        return "refused 7 at 0"
    at, swapped = f"{bits(x)} {bits(y)}", (x, y) > right
    return f"r {at} 0 l {at} {not swapped:d} old {swapped:d}"


class Divided(unittest.TestCase):
    def test_the_cases_named(self):
        cases = [
            ((0, 1, 4, 0, 0, 0.5), "r 0000000000000001 3fe0000000000000 0 l 0000000000000001 3fe0000000000000 1 old 0"),
            ((0, 0, 2, 1, 2, 1.5), "r 4000000000000000 3ff8000000000000 0 l 4000000000000000 3ff8000000000000 0 old 1"),
        ]
        for numbers, wanted in cases:
            self.assertEqual(answers([divide([bits(float(n)) for n in numbers])]), [wanted])

    def test_every_segment_and_cut_among_special_numbers(self):
        least = 2.0**-1074
        numbers = [-LIMIT, -1.0, -least, 0.0, least, math.nextafter(1.0, 2.0), LIMIT]
        points = list(itertools.product(numbers, numbers))
        lines, wanted = [], []
        for left, right in itertools.combinations(points, 2):
            for cut in points:
                lines.append(divide([bits(n) for n in (*left, *right, *cut)]))
                wanted.append(divided(left, right, cut))
        self.assertEqual(len(lines), 57624)
        self.assertEqual(answers(lines), wanted)


class Neighbours(unittest.TestCase):
    def test_a_crossing(self):
        first = "{0} {0} 1 {2} {0} 0 {2} {0} 1 {4} {0} 0"
        second = "{0} {m} 1 {2} {0} 0 {2} {0} 1 {4} {1} 0"
        wanted = f"code 1 normal normal new 4 chain {first} chain {second}".format(*[bits(float(n)) for n in range(5)], m=bits(-1.0))
        self.assertEqual(answers([neigh(CROSSING)]), [wanted])


class NextUp(unittest.TestCase):
    def test_the_next_number_of_special_ones(self):
        numbers = [0.0, 2.0**-1074, 2.0**-1022, 1.0, LIMIT, 1.7976931348623157e308, math.inf]
        numbers += [-x for x in numbers] + [math.nextafter(2.0**-1022, 0.0), -math.nextafter(2.0**-1022, 0.0)]
        lines = [f"nextup {bits(x)}" for x in numbers]
        self.assertEqual(answers(lines), [bits(math.nextafter(x, math.inf)) for x in numbers])
        self.assertEqual(answers([f"nextup {NAN}"]), [NAN])


if __name__ == "__main__":
    unittest.main()
