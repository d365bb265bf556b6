"""The program `calls` on records: refusals and malformed lines, which the fixed list has not, and every call of `class` by 01's rules."""
import itertools
import struct
import subprocess
import unittest

CALLS = ["target/bin/calls"]


def bits(x):
    return struct.pack(">d", x).hex()


def answers(lines):
    run = subprocess.run(CALLS, input="\n".join(lines + [""]).encode(), capture_output=True, timeout=60)
    return run.stdout.decode("ascii").split("\n")[:-1]


# Two edges: x y x y of each, the left end first.
GOOD = [bits(float(n)) for n in (0, 0, 4, 0, 0, 1, 4, 1)]


def before(words, left=("1", "1")):
    return " ".join(["before", *words[:4], left[0], "1", *words[4:], left[1], "0"])


def segcmp(words):
    return " ".join(["segcmp", *words[:4], "1", "0", *words[4:], "0", "4294967295"])


class Refused(unittest.TestCase):
    def test_a_coordinate_is_told_with_its_record_the_first_in_the_order_named(self):
        bad = ["7ff8000000000000", "7ff0000000000000", "fff0000000000000", "4630000000000001", "c630000000000001"]
        lines, wanted = [], []
        for word, call in itertools.product(bad, (before, segcmp)):
            for at in range(8):
                for later in range(at, 8):
                    words = GOOD.copy()
                    words[at] = words[later] = word
                    lines.append(call(words))
                    wanted.append(f"refused 2 at {at // 2}")
        self.assertEqual(answers(lines), wanted)

    def test_a_left_end_not_before_its_partner_is_told_after_every_coordinate(self):
        zero, minus_zero, one, five, nan = bits(0.0), bits(-0.0), bits(1.0), bits(5.0), "7ff8000000000000"
        cases = [
            ({0: five}, "4 at 0"),
            ({2: zero}, "4 at 0"),
            ({2: minus_zero}, "4 at 0"),
            ({2: zero, 3: bits(-1.0)}, "4 at 0"),
            ({4: five}, "4 at 2"),
            ({6: zero}, "4 at 2"),
            ({0: five, 4: five}, "4 at 0"),
            ({0: five, 7: nan}, "2 at 3"),
            ({2: zero, 3: one}, None),
        ]
        for call, accepted in ((before, "1 0"), (segcmp, "less")):
            for changes, refusal in cases:
                words = [changes.get(i, word) for i, word in enumerate(GOOD)]
                self.assertEqual(answers([call(words)]), [f"refused {refusal}" if refusal else accepted], (call, changes))

    def test_an_event_is_left_exactly_if_it_is_the_earlier_end(self):
        swapped = GOOD[2:4] + GOOD[:2] + GOOD[4:]
        lines = [before(words, (first, second)) for words in (GOOD, swapped) for first in "01" for second in "01"]
        wanted = ["refused 4 at 0", "refused 4 at 0", "refused 4 at 2", "1 0", "refused 4 at 2", "0 1", "refused 4 at 0", "refused 4 at 0"]
        self.assertEqual(answers(lines), wanted)


class Malformed(unittest.TestCase):
    def test_each_line_that_is_no_call_and_the_next_is_read(self):
        compare, same = segcmp(GOOD), " ".join(["segcmp", *GOOD[:4], "1", "0", "same"])
        classify, above = "class xor 1 normal -", "class xor 1 normal 0 0 0 0 none 0"
        good = [before(GOOD), compare, same, classify, above]
        bad = [line + end for line in good for end in (" ", " 0", " -", "0")]
        bad += [line.replace(" ", "  ", 1) for line in good] + [" ".join(line.split()[:-1]) for line in good]
        bad += [before(GOOD, ("2", "1")), before(GOOD, ("01", "1")), before(GOOD, ("-", "1"))]
        for ring in ("00", "01", "4294967296", "42949672950", "18446744073709551616", "9" * 40, "-1", "+1", "a", "1.", "1a", ""):
            bad += [compare.replace("4294967295", ring), same.replace(" 0 same", f" {ring} same")]
        bad += [classify.replace("xor", "Xor"), classify.replace("xor", "nor"), classify.replace("normal", "non-"), classify.replace("-", "--")]
        bad += [above.replace("none", "in"), above.replace("none", "outinn"), above.replace(" 0 0 0 0", " 0 0 0")]
        lines, wanted = [], []
        for line in bad:
            lines += [line, classify]
            wanted += ["malformed", "0 1 outin -"]
        self.assertEqual(answers(lines), wanted)

    def test_rings_of_32_bits(self):
        for ring in ("0", "1", "10", "4294967294", "4294967295"):
            self.assertEqual(answers([" ".join(["segcmp", *GOOD[:4], "1", ring, "same"])]), ["equal"])


def in_result(operation, subject, edge_type, other_in_out):
    if edge_type == "normal":
        if operation == "difference":
            return other_in_out == subject
        return {"intersection": not other_in_out, "union": other_in_out, "xor": True}[operation]
    return operation in {"same": ("intersection", "union"), "different": ("difference",), "non": ()}[edge_type]


def holds(operation, subject, clip):
    return {"intersection": subject and clip, "union": subject or clip, "difference": subject and not clip, "xor": subject != clip}[operation]


def classified(operation, subject, edge_type, lower):
    in_out, other_in_out, below = False, True, "-"
    if lower:
        its_subject, vertical, its_in_out, its_other, transition, linked = lower
        if subject == its_subject:
            in_out, other_in_out = not its_in_out, its_other
        else:
            in_out, other_in_out = not its_other, its_in_out != vertical
        below = "prev" if transition != "none" and not vertical else "prevprev" if linked else "-"
    own, other = not in_out, not other_in_out
    layers = (own, other) if subject else (other, own)
    way = "outin" if holds(operation, *layers) else "inout"
    told = way if in_result(operation, subject, edge_type, other_in_out) else "none"
    return f"{in_out:d} {other_in_out:d} {told} {below}"


class Classified(unittest.TestCase):
    def test_every_call_of_class(self):
        flag = (False, True)
        lowers = [None] + list(itertools.product(flag, flag, flag, flag, ("none", "inout", "outin"), flag))
        lines, wanted = [], []
        for call in itertools.product(("intersection", "union", "difference", "xor"), flag, ("normal", "non", "same", "different"), lowers):
            operation, subject, edge_type, lower = call
            words = ["-"] if lower is None else [w if isinstance(w, str) else f"{w:d}" for w in lower]
            lines.append(" ".join(["class", operation, f"{subject:d}", edge_type, *words]))
            wanted.append(classified(*call))
        self.assertEqual(len(lines), 3104)
        self.assertEqual(answers(lines), wanted)


if __name__ == "__main__":
    unittest.main()
