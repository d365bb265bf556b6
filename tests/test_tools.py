"""The scripts for people: a plan to a sheet and back, mistakes told with their line, and the drawing."""
import os
import subprocess
import sys
import unittest
import xml.etree.ElementTree as tree

sys.dont_write_bytecode = True
ROOT = os.path.join(os.path.dirname(os.path.abspath(__file__)), "..")
SHEET, DRAW = (os.path.join(ROOT, "tools", name) for name in ("sheet", "draw"))

# 01's two squares
PLAN = """operation intersection
subject
0  0 0  2 0
0  2 0  2 2
0  2 2  0 2
0  0 2  0 0
clip
1  1 1  3 1
1  3 1  3 3
1  3 3  1 3
1  1 3  1 1
"""
SQUARES = """operation intersection
subject 4
0 0000000000000000 0000000000000000 4000000000000000 0000000000000000
0 4000000000000000 0000000000000000 4000000000000000 4000000000000000
0 4000000000000000 4000000000000000 0000000000000000 4000000000000000
0 0000000000000000 4000000000000000 0000000000000000 0000000000000000
clip 4
1 3ff0000000000000 3ff0000000000000 4008000000000000 3ff0000000000000
1 4008000000000000 3ff0000000000000 4008000000000000 4008000000000000
1 4008000000000000 4008000000000000 3ff0000000000000 4008000000000000
1 3ff0000000000000 4008000000000000 3ff0000000000000 3ff0000000000000
"""
MAP = """contours 1
parent - depth 0
holes 0
points 5
3ff0000000000000 3ff0000000000000
4000000000000000 3ff0000000000000
4000000000000000 4000000000000000
3ff0000000000000 4000000000000000
3ff0000000000000 3ff0000000000000
"""


def run(words, text):
    return subprocess.run(words, input=text, capture_output=True, text=True)


class Sheets(unittest.TestCase):
    def test_the_squares_of_01(self):
        self.assertEqual(run([SHEET, "write"], PLAN).stdout, SQUARES)

    def test_there_and_back(self):
        for number in ("0.1", "-1e-300", "5e-324", "123456789.125", "-0.0", "1.2676506002282294e+30"):
            plan = f"operation xor\nsubject\n4294967295  {number} 0  1 {number}\nclip\n"
            sheet = run([SHEET, "write"], plan).stdout
            back = run([SHEET, "read"], sheet).stdout
            self.assertEqual(run([SHEET, "write"], back).stdout, sheet)
            self.assertIn(repr(float(number)), back)

    def test_remarks_and_blank_lines(self):
        plan = "\n# a floor\noperation union # both\n\nsubject\nclip\n"
        self.assertEqual(run([SHEET, "write"], plan).stdout, "operation union\nsubject 0\nclip 0\n")

    def test_mistakes_tell_their_line(self):
        for plan, told in (
            ("operation all\n", "line 1"),
            ("operation xor\nclip\n", "line 2"),
            ("operation xor\nsubject\n0 1 2 3\n", "line 3"),
            ("operation xor\nsubject\n0 1 2 3 x\nclip\n", "line 3: no number: x"),
            ("operation xor\nsubject\n-1 1 2 3 4\nclip\n", "line 3"),
            ("operation xor\nsubject\n", "ends before clip"),
            ("", "ends before its operation"),
        ):
            done = run([SHEET, "write"], plan)
            self.assertNotEqual(done.returncode, 0)
            self.assertEqual(done.stdout, "")
            self.assertIn(told, done.stderr)


class Drawings(unittest.TestCase):
    def drawn(self, map_text):
        folder = os.path.join(ROOT, "target", "tests")
        os.makedirs(folder, exist_ok=True)
        paths = [os.path.join(folder, name) for name in ("squares.sheet", "squares.map")]
        for path, text in zip(paths, (SQUARES, map_text)):
            with open(path, "w") as file:
                file.write(text)
        return subprocess.run([DRAW, *paths], capture_output=True, text=True)

    def test_the_squares_of_01(self):
        root = tree.fromstring(self.drawn(MAP).stdout)
        classes = [path.get("class") for path in root.iter("{http://www.w3.org/2000/svg}path")]
        self.assertEqual(classes, ["room", "zone", "strip"])
        circles = list(root.iter("{http://www.w3.org/2000/svg}circle"))
        self.assertEqual(len(circles), 4)
        # the page is 820 wide for three units, y downwards: (1,1) and (2,2)
        self.assertEqual((circles[0].get("cx"), circles[0].get("cy")), ("313.33", "586.67"))
        self.assertEqual((circles[2].get("cx"), circles[2].get("cy")), ("586.67", "313.33"))

    def test_a_refusal_is_not_drawn(self):
        done = self.drawn("refused 3 at 7\n")
        self.assertNotEqual(done.returncode, 0)
        self.assertIn("refused 3 at 7", done.stderr)


if __name__ == "__main__":
    unittest.main()
