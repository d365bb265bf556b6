"""That 01's format in Python says what 01 says, and that the comparison with it can fail."""
import contextlib
import io
import os
import re
import sys

sys.dont_write_bytecode = True
sys.path.insert(0, os.path.join(os.path.dirname(__file__), "sheets"))
import check
import inputs
import model

HEAD = b"operation xor\nsubject 1\n"
EDGE = b"7 0000000000000000 3ff0000000000000 4000000000000000 c000000000000000\n"
SHEET = HEAD + EDGE + b"clip 0\n"

# Sheets that are none, and the refusal; the lines by hand.
REFUSED = [
    (b"", 10, 1),
    (b"\0", 10, 1),
    (b"operation xor", 10, 1),
    (b"operation all\n", 10, 1),
    (b"operation  xor\n", 10, 1),
    (b"operation xor\r\n", 10, 1),
    (b"operation xor\n", 10, 2),
    (b"operation xor\nsubject 01\n", 10, 2),
    (b"operation xor\nsubject \n", 10, 2),
    (b"operation xor\nsubject 257\n", 1, 2),
    (b"operation xor\nsubject 257x\n", 10, 2),
    (b"operation xor\nsubject 257", 1, 2),
    (b"operation xor\nsubject 0257", 10, 2),
    (b"operation xor\nsubject 256", 10, 2),
    (b"operation xor\nsubject " + b"9" * 5000, 1, 2),
    (b"operation xor\nsubject " + b"9" * 5000 + b"\n", 1, 2),
    (b"operation xor\nclip 0\n", 10, 2),
    (HEAD + b"clip 0\n", 10, 3),
    (HEAD + EDGE.replace(b"7 ", b"4294967296 "), 10, 3),
    (HEAD + EDGE.replace(b"7 ", b"07 "), 10, 3),
    (HEAD + EDGE.replace(b"3ff", b"3Ff"), 10, 3),
    (HEAD + EDGE.replace(b"3ff", b"3f"), 10, 3),
    (HEAD + EDGE.replace(b"3ff", b"3fff"), 10, 3),
    (HEAD + EDGE.replace(b"\n", b" \n"), 10, 3),
    (HEAD + EDGE + EDGE + b"clip 0\n", 10, 4),
    (HEAD + EDGE + b"clip 255", 10, 4),
    (HEAD + EDGE + b"clip 256", 1, 4),
    (HEAD + EDGE + b"clip 256\n", 1, 4),
    (HEAD + EDGE + b"clip 255\n", 10, 5),
    (SHEET + b"\n", 10, 5),
    (SHEET + b"x", 10, 5),
    (SHEET[:-1], 10, 4),
    (SHEET.replace(b"3ff0", b"7ff0"), 2, 0),
    (SHEET.replace(b"3ff0000000000000", b"4630000000000001"), 2, 0),
    (HEAD + EDGE + b"clip 1\n" + b"0 0000000000000000 3ff0000000000000 8000000000000000 3ff0000000000000\n", 3, 1),
]

# A map with a hole, as 01 shows its lines.
TRIANGLES = [(0, 3, 0, 0, 0, 1), (3, 6, 1, 1, 1, 0)], [(0.0, 1.0), (2.0, -0.0), (0.0, 0.5)] * 2, [1]
CORNERS = b"0000000000000000 3ff0000000000000\n4000000000000000 8000000000000000\n0000000000000000 3fe0000000000000\n"
MAP = b"contours 2\nparent - depth 0\nholes 1\n1\npoints 3\n" + CORNERS + b"parent 0 depth 1\nholes 0\npoints 3\n" + CORNERS


def stages(sheet):
    """Stands for the archive: every tenth sheet is refused."""
    if len(sheet.edges) % 10 == 9:
        raise model.Refused(7, 2)
    return TRIANGLES


def entry(data, room):
    return model.with_room(model.answer(data, stages), room)


def program(data):
    return check.told(model.answer, data[:65536], stages)


def with_refusal(change):
    """An entry that tells other refusals."""

    def wrong(data, room):
        try:
            return entry(data, room)
        except model.Refused as refused:
            return change(refused)

    return wrong


# What both read wrong, or tell wrong.
READ = {
    "spaces at the end of a line": lambda data: data.replace(b" \n", b"\n"),
    "carriage returns": lambda data: data.replace(b"\r\n", b"\n"),
    "upper-case digits": lambda data: data.lower(),
    "a last line without its line feed": lambda data: data if data.endswith(b"\n") else data + b"\n",
    "the first bytes alone": lambda data: data[:1000],
}
TOLD = {
    "another depth": lambda text: text.replace(b"depth 1", b"depth 0"),
    "no last line feed": lambda text: text[:-1],
    "nothing": lambda text: b"",
    "refused by 99 at 12345": lambda text: b"refused 99 at 12345\n" if text.startswith(b"refused") else text,
    "the line before": lambda text: re.sub(rb"(?<= at )\d+", lambda line: b"%d" % (int(line[0]) - 1), text),
}
WRONG = {
    "too many is malformed": with_refusal(lambda refused: b"refused 10 at %d\n" % refused.place if refused.number == 1 else refused.text()),
    "a map without room": with_refusal(lambda refused: MAP if refused.number == 5 else refused.text()),
    **{name: lambda data, room, read=read: entry(read(data), room) for name, read in READ.items()},
    **{name: lambda data, room, tell=tell: tell(check.told(entry, data, room)) for name, tell in TOLD.items()},
}
WRONG_PROGRAM = {
    **{name: lambda data, read=read: program(read(data)) for name, read in READ.items()},
    **{name: lambda data, tell=tell: tell(program(data)) for name, tell in TOLD.items()},
}


def is_good(row):
    with contextlib.redirect_stdout(io.StringIO()):
        return row().is_good()


for data, number, place in REFUSED:
    assert check.told(model.answer, data, stages) == b"refused %d at %d\n" % (number, place), data[:200]
sheet = model.read(SHEET)
assert (sheet.operation, sheet.edges) == (3, [(0.0, 1.0, 2.0, -2.0, 7, 1)])
assert model.map_text(*TRIANGLES) == MAP == model.answer(SHEET, stages)
assert check.told(entry, SHEET, len(MAP) - 1) == b"refused 5 at %d\n" % len(MAP) and entry(SHEET, len(MAP)) == MAP
assert len(set(kind for number in range(2000) for kind in inputs.sheet(number, 1)[0])) > 30

numbers = range(600)
assert is_good(lambda: check.compare_entry(numbers, 1, stages, entry))
assert is_good(lambda: check.compare_program(numbers, 1, stages, program))
assert not is_good(lambda: check.compare_entry(range(0), 1, stages, entry))
for name, wrong in WRONG.items():
    assert not is_good(lambda: check.compare_entry(numbers, 1, stages, wrong)), f"not found: an entry that has {name}"
for name, wrong in WRONG_PROGRAM.items():
    assert not is_good(lambda: check.compare_program(numbers, 1, stages, wrong)), f"not found: a program that has {name}"
print(f"sheets: {len(REFUSED)} refused as 01 says, {len(WRONG)} wrong entries and {len(WRONG_PROGRAM)} wrong programs found")
