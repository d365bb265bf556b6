"""Random and damaged sheets through the C entry and the program, beside 01's format in Python: check.py COUNT SEED.

The model reads the sheet, the stages of the archive sweep and connect its edges, the model writes the map; then bytes are
compared. To each row lies are told in the place of right answers. Run from the repository, after compare/build. Exit status
1 if any differ, nothing was compared, or a lie is not found."""
import re
import subprocess
import sys
from collections import Counter

sys.dont_write_bytecode = True
import inputs
import model
from bridge import Bridge

BRIDGE = ["target/compare/bridge"]
PROGRAM = ["target/bin/overlay"]
SHOWN = 5
# Lies are told on so many sheets.
LIED = 4000
# The model has the sweep and connection from the archive's stages, which are held to the wrapped Rust in other rows.
RESTS = "the stages, and with them stand-in robust, float_next_after"


def told(call, *words):
    """What a call answers: bytes, or the line that its refusal is."""
    try:
        return call(*words)
    except model.Refused as refused:
        return refused.text()


def rooms(wanted, number):
    """Bytes lent for the text, in turn: just enough, one short, more, none."""
    return (len(wanted), max(len(wanted) - 1, 0), len(wanted) + number % 99, 0)[number // 4 % 4]


def kind(answer):
    return answer.split(b" at ")[0].decode() if answer.startswith(b"refused") else "maps"


def changed(pattern, new):
    """A lie: the first match becomes another text; None where nothing matches."""
    return lambda answer: re.sub(pattern, new, answer, count=1) if re.search(pattern, answer) else None


LIES = {
    "refused by 99 at 12345": changed(rb"^refused .*", b"refused 99 at 12345"),
    "another place": changed(rb"^refused (\d+) at ", rb"refused \1 at 1"),
    "malformed for too many": changed(rb"^refused 1 ", b"refused 10 "),
    "too many for malformed": changed(rb"^refused 10 ", b"refused 1 "),
    "a map where it is refused": changed(rb"^refused (.|\n)*", b"contours 0\n"),
    "refused where it is a map": changed(rb"^contours (.|\n)*", b"refused 8 at 0\n"),
    "another depth": changed(rb"depth 0", b"depth 1"),
    "a hole without a parent": changed(rb"parent 0", b"parent -"),
    "another hole": changed(rb"holes 1\n\d+", b"holes 1\n0"),
    "a last digit": changed(rb"0\n$", b"1\n"),
    "a line more": changed(rb"$", b"\n"),
    "no last line feed": changed(rb"\n$", b""),
}


class Row:
    def __init__(self):
        self.compared = self.differing = 0
        self.answers = Counter()
        self.told, self.found = Counter(), Counter()

    def add(self, number, kinds, wanted, given):
        self.compared += 1
        self.answers[kind(wanted)] += 1
        if wanted != given:
            self.differing += 1
            if self.differing <= SHOWN:
                print(f"differs: sheet {number} ({', '.join(kinds) or 'whole'}): model {wanted[:99]}, ours {given[:99]}")

        elif self.compared <= LIED:
            for name, tell in LIES.items():
                wrong = tell(given)
                self.told[name] += wrong is not None
                self.found[name] += wrong not in (None, wanted)

    def missed(self):
        """Every lie is told, and found each time; these are not."""
        return [name for name in LIES if not 0 < self.told[name] == self.found[name]]

    def text(self, name):
        counts = ", ".join(f"{answer}: {n}" for answer, n in sorted(self.answers.items()))
        lies = ", ".join(f"{lie}: {self.found[lie]} of {n}" for lie, n in self.told.items())
        return f"| {name} | {self.compared} | {self.differing} | {counts} | {RESTS} | {lies} |"

    def is_good(self):
        return self.compared > 0 and self.differing == 0


def compare_entry(numbers, seed, stages, entry):
    """Beside the C entry, with room that is now and then too short."""
    row = Row()
    for number in numbers:
        kinds, data = inputs.sheet(number, seed)
        wanted = told(model.answer, data, stages)
        room = rooms(wanted, number)
        if kind(wanted) == "maps":
            wanted = told(model.with_room, wanted, room)
        row.add(number, kinds, wanted, told(entry, data, room))
    return row


def compare_program(numbers, seed, stages, program):
    """Beside the program, which reads only so many bytes."""
    row = Row()
    for number in numbers:
        kinds, data = inputs.sheet(number, seed)
        wanted = told(model.answer, data[: model.PROGRAM_READS], stages)
        row.add(number, kinds, wanted, program(data))
    return row


def run_program(data):
    run = subprocess.run(PROGRAM, input=data, capture_output=True, timeout=60)
    return run.stdout if run.returncode == 0 and not run.stderr else b"stopped: " + run.stderr


def main(count, seed):
    with Bridge(BRIDGE) as bridge:
        entry = compare_entry(range(count), seed, bridge.stages, bridge.overlay)
        program = compare_program(range(count), seed, bridge.stages, run_program)
    print("| sheets, 01's format in Python | compared | differing | of these | rests on | lies found |")
    print("|---|---|---|---|---|---|")
    rows = {"bezorika_overlay": entry, "the program overlay": program}
    for name, row in rows.items():
        print(row.text(name))
    for name, row in rows.items():
        for lie in row.missed():
            print(f"{name}: a lie is not found, '{lie}'")
    return 0 if all(row.is_good() and not row.missed() for row in rows.values()) else 1


if __name__ == "__main__":
    sys.exit(main(*map(int, sys.argv[1:])))
