"""That rows.py can fail: it is fed right answers, and then each kind of wrong one."""
import contextlib
import io
import os
import sys
import tempfile

sys.dont_write_bytecode = True
import rows

ONE, TWO, HALF, ZERO, MINUS_ZERO = "3ff0000000000000", "4000000000000000", "3fe0000000000000", "0" * 16, "8" + "0" * 15
ORIENT = f"orient {ZERO} {ZERO} {ONE} {ZERO} {ONE} {ONE}"
CROSS = f"cross {ZERO} {ZERO} {TWO} {TWO} {ZERO} {TWO} {TWO} {ZERO}"
DIVIDE = f"divide {ZERO} {ZERO} {TWO} {ONE}"
CUT = f"r {ONE} {HALF} 0 l {ONE} {HALF} 1 old 0"
AT_END = f"r {TWO} {ONE} 0 l {TWO} {ONE} 0 old 1"
# Two that overlap and share the right end: the first is cut at the second's left end.
OVERLAP = f"code 3 normal normal new 2 chain {ZERO} {ZERO} 1 {ONE} {ZERO} 0 {ONE} {ZERO} 1 {TWO} {ZERO} 0 chain {ONE} {ZERO} 1 {TWO} {ZERO} 0"
# What the Rust goes on to do where 01 refuses: the second is cut at its own right end; both are, and the second starts
# first; the first is cut twice, the second time at the old right end.
WHOLE = f"chain {ONE} {ZERO} 1 {TWO} {ZERO} 0"
AT_SECOND = f"code 1 normal normal new 2 {WHOLE} chain {ZERO} {ONE} 1 {TWO} {ONE} 0 {TWO} {ONE} 1 {TWO} {ONE} 0"
CUT_AT_END = f"{TWO} {ZERO} 0 {TWO} {ZERO} 1 {TWO} {ZERO} 0"
AT_BOTH = f"code 3 normal normal new 4 chain {ONE} {ZERO} 1 {CUT_AT_END} chain {ZERO} {ZERO} 1 {CUT_AT_END}"
AT_NEW = f"code 3 normal normal new 4 chain {ZERO} {ZERO} 1 {ONE} {ZERO} 0 {ONE} {ZERO} 1 {CUT_AT_END} {WHOLE}"

# Calls, the Rust's answers, ours, and whether that is equal.
CASES = [
    ([ORIENT], ["1"], ["1"], True),
    ([ORIENT], ["1"], ["0"], False),
    ([ORIENT, ORIENT], ["1", "1"], ["1"], False),
    ([ORIENT], ["1"], ["1", "1"], False),
    ([ORIENT], ["1"], ["refused 2 at 0"], False),
    ([ORIENT], ["1"], ["malformed"], False),
    ([ORIENT], ["malformed"], ["malformed"], False),
    ([ORIENT], ["panicked"], ["1"], False),
    ([CROSS], [f"point {ONE} {ONE}"], [f"point {ONE} {ONE}"], True),
    ([CROSS], [f"point {ONE} {ONE}"], [f"point {ONE} {ONE[:-1]}1"], False),
    ([CROSS], [f"point {ZERO} {ONE}"], [f"point {MINUS_ZERO} {ONE}"], True),
    ([CROSS], ["lost"], ["none"], False),
    ([f"{DIVIDE} {ONE} {HALF} 1 0"], [CUT], [CUT], True),
    ([f"{DIVIDE} {ONE} {HALF} 1 0"], [CUT], ["refused 7 at 0"], False),
    ([f"{DIVIDE} {ONE} {HALF} 1 0", f"{DIVIDE} {TWO} {ONE} 1 0"], [CUT, AT_END], [CUT, "refused 7 at 0"], True),
    ([f"{DIVIDE} {TWO} {ONE} 1 0"], [AT_END], [AT_END], False),
    ([f"{DIVIDE} {TWO} {ONE} 1 0"], [AT_END], ["refused 7 at 0"], True),
    ([f"{DIVIDE} {TWO} {ONE} 1 0"], [AT_END], ["refused 7 at 1"], False),
    ([f"{DIVIDE} {TWO} {ONE} 1 0"], [AT_END], ["refused 6 at 0"], False),
    (["neigh"], [AT_SECOND], ["refused 7 at 2"], True),
    (["neigh"], [AT_SECOND], ["refused 7 at 0"], False),
    (["neigh"], [AT_BOTH], ["refused 7 at 2"], True),
    (["neigh"], [AT_BOTH], ["refused 7 at 0"], False),
    (["neigh"], [AT_BOTH.replace("code 3", "code 1")], ["refused 7 at 0"], True),
    (["neigh"], [AT_NEW], ["refused 7 at 5"], True),
    (["neigh"], [AT_NEW], ["refused 7 at 0"], False),
    (["neigh"], ["lost"], ["refused 7 at 0"], True),
    (["neigh"], ["lost"], ["refused 7 at 2"], False),
    (["neigh"], [OVERLAP], [OVERLAP], True),
    (["neigh"], [OVERLAP], ["refused 7 at 0"], False),
    ([f"ordered-{CROSS}"], [f"point {ONE} {ONE}"], [f"point {ONE} {ONE}"], True),
    ([f"ordered-{CROSS}"], [f"point {ONE} {ONE}"], [f"point {ONE} {ONE[:-1]}1"], False),
    ([f"ordered-{CROSS}"], ["lost"], ["refused 7 at 0"], False),
    (["ordered-neigh", "ordered-neigh"], [OVERLAP, "lost"], [OVERLAP, "refused 7 at 0"], True),
    (["ordered-neigh"], ["lost"], ["lost"], False),
    ([], [], [], False),
]


def status(*files):
    with tempfile.TemporaryDirectory() as folder:
        for end, lines in zip(("calls", "rust", "ours"), files):
            with open(os.path.join(folder, f"case.{end}"), "w") as file:
                file.writelines(line + "\n" for line in lines)
        with contextlib.redirect_stdout(io.StringIO()):
            return rows.main(folder, "case")


for *files, equal in CASES:
    assert status(*files) == (0 if equal else 1), files
print(f"rows.py: {len(CASES)} cases as they should be")
