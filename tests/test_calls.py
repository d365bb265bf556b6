"""The program `calls` on lines that the fixed list of the Rust's answers has not: refusals, malformed lines, signs against whole numbers."""
import random
import struct
import subprocess
import unittest
from fractions import Fraction

CALLS = ["target/bin/calls"]


def bits(x):
    return struct.pack(">d", x).hex()


def answers(lines, end="\n"):
    given = "\n".join(lines) + end
    run = subprocess.run(CALLS, input=given.encode("latin-1"), capture_output=True, timeout=60)
    return run.stdout.decode("ascii").split("\n")


def number(text):
    return Fraction(struct.unpack(">d", bytes.fromhex(text))[0])


class Refused(unittest.TestCase):
    def test_a_number_that_is_not_finite_is_told_with_the_lowest_place(self):
        bad = ["7ff8000000000000", "fff8000000000000", "7ff0000000000001", "ffffffffffffffff", "7ff0000000000000", "fff0000000000000"]
        lines, wanted = [], []
        for word, count in (("orient", 6), ("cross", 8), ("ordered-cross", 8)):
            for b in bad:
                for at in range(count):
                    for rest in (bits(1.0), b):
                        lines.append(" ".join([word] + [bits(float(i)) for i in range(at)] + [b] + [rest] * (count - at - 1)))
                        wanted.append(f"refused 2 at {at}")
        self.assertEqual(answers(lines), wanted + [""])


class Malformed(unittest.TestCase):
    def test_each_line_that_is_no_call_and_the_next_is_read(self):
        one = bits(1.0)
        good = "orient " + " ".join([one] * 6)
        bad = [
            "",
            " ",
            "orient",
            "orient ",
            "cross " + " ".join([one] * 7),
            "cross " + " ".join([one] * 9),
            "ordered " + " ".join([one] * 8),
            "ordered-orient " + " ".join([one] * 6),
            "ordered-cross " + " ".join([one] * 7),
            good + " ",
            " " + good,
            good.replace(" ", "  ", 1),
            good.replace(" ", "\t", 1),
            good + "\r",
            good.upper(),
            good.replace("orient", "Orient"),
            good.replace("orient", "orien"),
            good.replace("orient", "oriented"),
            good.replace(one, "3FF0000000000000", 1),
            good.replace(one, one[:-1], 1),
            good.replace(one, one + "0", 1),
            good.replace(one, "3ff000000000000g", 1),
            good.replace(one, "0x3ff00000000000", 1),
            good[:-1] + "\0",
            "\0" * 10,
            "\xff" * 3,
            "a" * 511,
            "a" * 512,
            "a" * 513,
            "a" * 100000,
            good + " " * 600,
        ]
        lines, wanted = [], []
        for line in bad:
            lines += [line, good]
            wanted += ["malformed", "0"]
        self.assertEqual(answers(lines), wanted + [""])

    def test_the_last_line_needs_no_line_feed(self):
        good = "orient " + " ".join([bits(1.0)] * 6)
        self.assertEqual(answers([good, good], end=""), ["0", "0", ""])
        self.assertEqual(answers([good, "x"], end=""), ["0", "malformed", ""])
        self.assertEqual(answers([], end=""), [""])

    def test_any_bytes_are_answered_line_by_line(self):
        rng = random.Random(1)
        given = bytes(rng.choice(b"\n\n 01af\xff\0crossorient") for _ in range(300000))
        run = subprocess.run(CALLS, input=given, capture_output=True, timeout=60)
        lines = given.count(b"\n") + (not given.endswith(b"\n"))
        self.assertEqual(run.stdout, b"malformed\n" * lines)


class Modes(unittest.TestCase):
    def test_p4_is_p5_in_the_ordered_mode(self):
        """Document 01's P4 and P5; ordered, the segments of P4 change places (02, #102)."""
        point, line = [bits(1.0)] * 4, [bits(0.0)] * 2 + [bits(2.0)] * 2
        lines = [" ".join([word, *first, *second]) for word in ("cross", "ordered-cross") for first, second in ((point, line), (line, point))]
        overlap = " ".join(["overlap", *point])
        self.assertEqual(answers(lines), ["none", overlap, overlap, overlap, ""])


class Signs(unittest.TestCase):
    def test_orientation_is_the_sign_over_whole_numbers(self):
        rng = random.Random(2)
        special = ["0000000000000000", "8000000000000000", "0000000000000001", "8000000000000001", "7fefffffffffffff", "ffefffffffffffff",
                   "0010000000000000", "000fffffffffffff", bits(1.0), bits(-1.0), "3ff0000000000001", bits(2.0 ** 53), bits(2.0 ** 100), bits(2.0 ** -300)]
        lines, wanted = [], []
        for _ in range(3000):
            ax, ay, bx, by, cx, cy = words = [rng.choice(special) for _ in range(6)]
            a, b, c, d, e, f = map(number, words)
            area = (a - e) * (d - f) - (b - f) * (c - e)
            lines.append("orient " + " ".join(words))
            wanted.append(str((area > 0) - (area < 0)))
        self.assertEqual(answers(lines), wanted + [""])


if __name__ == "__main__":
    unittest.main()
