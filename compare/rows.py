"""The rows of the comparison: rows.py FOLDER NAME..., over FOLDER/NAME.calls, .rust and .ours.

One row a function. To each, lies are told in the place of right answers. Exit status 1 if a line differs or is missing,
nothing was compared, or a lie is not found."""
import itertools
import math
import struct
import sys
from collections import Counter, defaultdict

# What of these calls goes through a crate that was not to be had.
STAND_IN = {
    "orient": "robust",
    "before": "robust",
    "segcmp": "robust",
    "divide": "float_next_after",
    "neigh": "float_next_after",
    "nextup": "float_next_after",
}
ORDERED = "ordered-"
SHOWN = 5
LIMIT = 2.0**100
# Of each function lies are told on so many calls, and on as many that are refused.
LIED = 2000


def plain_twin(function):
    """The function whose words and kinds of answer these are."""
    return function.removeprefix(ORDERED)


def number(word):
    return struct.unpack(">d", bytes.fromhex(word))[0]


def zeros_alike(answer):
    return answer.replace("8000000000000000", "0000000000000000")


def chains(answer):
    """The chains of a `neigh` answer, each a list of (x, y, left)."""
    for text in answer.split(" chain ")[1:]:
        words = text.split()
        yield [(number(x), number(y), left == "1") for x, y, left in zip(words[::3], words[1::3], words[2::3])]


def is_refused(left, right, cut):
    """Refusal 7 of one division, the cut as it is after the move; what is divided must be a left end."""
    x, y = cut[:2]
    at_end = cut[:2] in (left[:2], right[:2])
    return not left[2] or at_end or not left[0] <= x <= right[0] or not (abs(x) <= LIMIT and abs(y) <= LIMIT)


def refusal(function, call, rust):
    """What 01 says to a call that the Rust answers and 01 refuses; the records are numbered as `calls` does."""
    function = plain_twin(function)
    if function == "divide":
        lx, ly, rx, ry = map(number, call.split()[1:5])
        _, x, y = rust.split()[:3]
        return "refused 7 at 0" if is_refused((lx, ly, True), (rx, ry), (number(x), number(y))) else None
    if function == "neigh":
        # Lost is told at the first of the pair.
        return "refused 7 at 0" if rust == "lost" else refused_meeting(rust)
    return None


def refused_meeting(rust):
    """The first division that is refused, at the record to be divided."""
    first, second = (divisions(chain, record) for chain, record in zip(chains(rust), (0, 2)))
    starts = [chain[0][:2] for chain in chains(rust)]
    # Of two that overlap the one that starts first is cut first.
    is_second_first = rust.startswith("code 3") and starts[1] < starts[0]
    for record, left, cut, right in second + first if is_second_first else first + second:
        if is_refused(left, right, cut):
            return f"refused 7 at {record}"
    return None


def divisions(chain, record):
    """The divisions of a segment that is told by its events: each cuts what goes from a left end to the old right end."""
    # Where a segment is cut twice, the new left end of the first cut is record 5, after the four of the call.
    records = (record, 5)
    return [(records[i], chain[2 * i], chain[2 * i + 1], chain[-1]) for i in range(len(chain) // 2 - 1)]


def is_moved(left, cut):
    """Where a move puts the first cut: one step right of the left end and below it."""
    return cut[0] == math.nextafter(left[0], math.inf) and cut[1] < left[1]


def kind(function, call, answer):
    """What sort of answer this is, for the counts."""
    words = answer.split()
    function = plain_twin(function)
    if function in ("cross", "orient", "segcmp"):
        return words[0]
    if function == "class":
        return " ".join(words[2:])
    if function == "divide":
        moved = zeros_alike(words[1]) != zeros_alike(call.split()[5])
        return ("moved" if moved else "plain") + (" swapped" if words[-1] == "1" else "")
    if function == "neigh":
        return neigh_kind(words, list(chains(answer)))
    if function == "nextup":
        return "zero" if number(words[0]) == 0 else "negative" if number(words[0]) < 0 else "positive"
    return answer


def neigh_kind(words, both):
    """The code, the edge types that it sets, and how many pieces each segment is in."""
    types = f" {words[2]} {words[3]}" if words[1] == "2" else ""
    pieces = "+".join(str(len(chain) // 2) for chain in both)
    divided = [chain for chain in both if len(chain) > 2]
    moved = " moved" if any(is_moved(c[0], c[1]) for c in divided) else ""
    swapped = " swapped" if any(c[-1][2] for c in divided) else ""
    return f"code {words[1]}{types} {pieces}{moved}{swapped}"


def wanted(function, call, rust):
    """What ours must answer, and whether that is a refusal."""
    refused = None if rust in (None, "malformed") or call is None else refusal(function, call, rust)
    return refused or rust, refused is not None


def is_alike(wanted, ours):
    return None not in (wanted, ours) and "malformed" not in (wanted, ours) and zeros_alike(wanted) == zeros_alike(ours)


def changed_end(answer):
    return answer[:-1] + ("1" if answer[-1] != "1" else "0")


# Wrong answers by their names, each from a right one and the last right one that differs from it; None where it is none.
LIES = {
    "another call's answer": lambda answer, other: other,
    "a last digit": lambda answer, other: changed_end(answer),
    "no answer": lambda answer, other: "",
    "refused by 99 at 12345": lambda answer, other: "refused 99 at 12345",
    "another place": lambda answer, other: changed_end(answer) if answer.startswith("refused") else None,
    "answered": lambda answer, other: answer.replace("refused", "point") if answer.startswith("refused") else None,
}


class Row:
    def __init__(self):
        self.compared = self.differing = 0
        self.refused, self.skipped, self.kinds = Counter(), Counter(), Counter()
        self.told, self.found = Counter(), Counter()
        self.right = []
        self.shown = []

    def add(self, function, call, rust, ours):
        if rust == "panicked":
            self.skipped["the Rust panicked"] += 1
            return
        self.compared += 1
        answer, is_refused = wanted(function, call, rust)
        if not is_alike(answer, ours):
            self.differ(call, answer, ours)
            return
        if is_refused:
            self.refused[answer.split()[1]] += 1
        else:
            self.kinds[kind(function, call, rust)] += 1
        if self.compared <= LIED or is_refused and sum(self.refused.values()) <= LIED:
            self.lie(function, call, rust, ours)

    def lie(self, function, call, rust, ours):
        # Two right answers that are not alike: one of them is another one than this.
        if len(self.right) < 2 and not any(is_alike(ours, answer) for answer in self.right):
            self.right.append(ours)
        other = next((answer for answer in self.right if not is_alike(ours, answer)), None)
        for name, tell in LIES.items():
            wrong = tell(ours, other)
            if wrong is not None:
                self.told[name] += 1
                self.found[name] += not is_alike(wanted(function, call, rust)[0], wrong)

    def differ(self, call, rust, ours):
        self.differing += 1
        if len(self.shown) < SHOWN:
            self.shown.append(f"differs: {call}\n   Rust: {rust}\n   ours: {ours}")

    def missed(self):
        """The lies that were not found; none told is one as well."""
        return [name for name in self.told if self.found[name] < self.told[name]] or ([] if self.told else ["none was told"])

    def is_good(self):
        return self.compared > 0 and self.differing == 0 and not self.missed()

    def text(self, function):
        counts = lambda counter: ", ".join(f"{name}: {n}" for name, n in sorted(counter.items())) or "-"
        twin = plain_twin(function)
        rests = ["the wrapped Rust"] if twin != function else []
        if twin in STAND_IN:
            rests.append(f"stand-in {STAND_IN[twin]}")
        lies = ", ".join(f"{name}: {self.found[name]} of {n}" for name, n in self.told.items())
        cells = [function, self.compared, self.differing, counts(self.refused), counts(self.skipped), counts(self.kinds)]
        cells += [", ".join(rests) or "-", lies]
        return "| " + " | ".join(map(str, cells)) + " |"


def read(path):
    with open(path) as lines:
        for line in lines:
            yield line.rstrip("\n")


def main(folder, *names):
    rows = defaultdict(Row)
    for name in names:
        files = [read(f"{folder}/{name}.{end}") for end in ("calls", "rust", "ours")]
        for call, rust, ours in itertools.zip_longest(*files):
            function = (call or "no call").split(" ", 1)[0]
            rows[function].add(function, call, rust, ours)
    print("| function | compared | differing | refused | skipped | answers | rests on | lies found |")
    print("|---|---|---|---|---|---|---|---|")
    for function, row in rows.items():
        print(row.text(function))
    for function, row in rows.items():
        for lines in row.shown:
            print(lines)
        for name in row.missed():
            print(f"{function}: a lie is not found, '{name}'")
    return 0 if rows and all(row.is_good() for row in rows.values()) else 1


if __name__ == "__main__":
    sys.exit(main(*sys.argv[1:]))
