"""Asks the proved program `calls` in plain numbers, and shows what it answers, to the last bit."""
import struct
import subprocess

ASKED = [
    ("two diagonals of a room", "cross", (0, 0, 2, 2, 0, 2, 2, 0)),
    ("a strip along a wall", "cross", (0, 0, 2, 0, 1, 0, 3, 0)),
    ("a crossing whose last digit counts", "cross", (2, 0, 0, 1, 1, 0, 2, 1)),
    ("the same, with the layers in the other order", "cross", (1, 0, 2, 1, 2, 0, 0, 1)),
    ("in the ordered mode, as overlay asks", "ordered-cross", (2, 0, 0, 1, 1, 0, 2, 1)),
    ("and with the layers in the other order: the same bits", "ordered-cross", (1, 0, 2, 1, 2, 0, 0, 1)),
    ("walls that run side by side", "cross", (0, 0, 2, 2, 0, 1, 2, 3)),
    ("walls too long for their crossing", "cross", (-2.0**1023, 0, 2.0**1023, 0, 0, -1, 0, 1)),
    ("a point 2^-60 off the line; plain floats say 0", "orient", (1, 1, 2, 2, 2.0**-60, 0)),
    ("a wall without an end", "cross", (0, 0, float("inf"), 0, 1, 0, 3, 0)),
]


def bits(x):
    return struct.pack(">d", x).hex()


def shown(answer):
    words = answer.split(" ")
    if words[0] not in ("point", "overlap"):
        return answer
    return " ".join([words[0]] + [f"{struct.unpack('>d', bytes.fromhex(w))[0]!r} [{w}]" for w in words[1:]])


lines = [" ".join([call] + [bits(float(x)) for x in given]) for _, call, given in ASKED]
run = subprocess.run(["target/bin/calls"], input="\n".join(lines) + "\n", capture_output=True, text=True, check=True)
for (what, call, given), answer in zip(ASKED, run.stdout.splitlines(), strict=True):
    print(f"{what}\n    {call} {' '.join(f'{x:g}' for x in given)}\n    -> {shown(answer)}")
