"""Random sheets: whole ones, and copies with each kind of damage. A number and a seed give the same sheet in every run."""
import math
import random
import struct
import sys

sys.dont_write_bytecode = True
from damage import damaged

OPERATIONS = ("intersection", "union", "difference", "xor")
# Numbers at the limits, and beyond them.
SPECIAL = [0.0, -0.0, 5e-324, -5e-324, 1.0, math.nextafter(1.0, 2.0), 2.0**53, 2.0**100, -(2.0**100)]
REFUSED = [math.nextafter(2.0**100, math.inf), -1.7976931348623157e308, math.inf, -math.inf, math.nan]
RINGS = [0, 1, 9, 10, 4294967295, 4294967294, 1000000000]


def bits(x):
    return struct.pack(">d", x).hex()


def ring_edges(corners, number, rng):
    turned = corners[::-1] if rng.random() < 0.5 else corners
    return [(number, *p, *q) for p, q in zip(turned, turned[1:] + turned[:1])]


def room(rng):
    scale = rng.choice([1.0, 0.1, 1 / 3])
    x, y, w, h = (scale * rng.randrange(n, 7) for n in (0, 0, 1, 1))
    return [(x, y), (x + w, y), (x + w, y + h), (x, y + h)]


def star(rng, n):
    centre = rng.random(), rng.random()
    angles = [(i + 0.8 * rng.random()) / n * math.tau for i in range(n)]
    sizes = [0.4 + 1.6 * rng.random() for _ in angles]
    return [(centre[0] + s * math.cos(a), centre[1] + s * math.sin(a)) for a, s in zip(angles, sizes)]


def rooms(rng):
    return [edge for k in range(rng.randrange(4)) for edge in ring_edges(room(rng), k, rng)]


def stars(rng):
    return ring_edges(star(rng, rng.randrange(3, 10)), rng.choice(RINGS), rng)


def many(rng):
    """Up to the limit of both layers together, and now and then past it."""
    return ring_edges(star(rng, rng.choice([32, 64, 127, 128, 128, 128, 129])), 0, rng)


def soup(rng):
    return [(rng.choice(RINGS), *(rng.randrange(-4, 5) for _ in range(4))) for _ in range(rng.randrange(8))]


def special(rng):
    return [(rng.choice(RINGS), *(rng.choice(SPECIAL) for _ in range(4))) for _ in range(rng.randrange(5))]


def unloadable(rng):
    """Refused by 2 or 3, mostly, after it is read."""
    edges = rooms(rng) + special(rng)
    if edges:
        i, k = rng.randrange(len(edges)), rng.randrange(1, 5)
        edge = list(edges[i])
        edge[k] = rng.choice(REFUSED)
        edges[i] = tuple(edge) if rng.random() < 0.5 else (*edge[:1], *edge[3:], *edge[3:])
    return edges


FAMILIES = [rooms, rooms, stars, stars, soup, special, unloadable]


def layers(rng):
    """Now and then many edges, since a run of them is long."""
    if rng.random() < 0.003:
        return many(rng), many(rng)
    family = rng.choice(FAMILIES)
    return family(rng), rng.choice([family, rooms])(rng)


def sheet_text(operation, subject, clip):
    lines = [f"operation {operation}"]
    for word, edges in (("subject", subject), ("clip", clip)):
        lines.append(f"{word} {len(edges)}")
        lines += [f"{ring} " + " ".join(map(bits, map(float, ends))) for ring, *ends in edges]
    return "".join(line + "\n" for line in lines).encode()


def sheet(number, seed):
    """One in four whole, two with one damage, one with several; and what sort of damage was done."""
    rng = random.Random(f"{seed}:{number}")
    data = sheet_text(rng.choice(OPERATIONS), *layers(rng))
    kinds = []
    for _ in range((0, 1, 1, rng.randrange(2, 5))[number % 4]):
        kind, data = damaged(data, rng)
        kinds.append(kind)
    return kinds, data


if __name__ == "__main__":
    # inputs.py COUNT SEED: the sheets, each after its length.
    count, seed = map(int, sys.argv[1:])
    for _, data in (sheet(number, seed) for number in range(count)):
        sys.stdout.buffer.write(struct.pack("<I", len(data)) + data)
