"""One thing wrong with a sheet. Some leave it a sheet: another digit is another number."""
import re

WORDS = b"operation subject clip intersection union difference xor Subject CLIP parent edges 4 -".split()
NUMBERS = b"0 1 3 5 255 256 257 300 4294967295 4294967296 18446744073709551616 18446744073709551618".split()
BYTES = b"\n\r\t \0\x0b\x0c09afAFgxG+-_.\x7f\x80\xa0\xff"
# Digits to a program that asks the wrong question.
FOREIGN = ["\u0663".encode(), "\uff11".encode(), b"1_0", b"0x1", b"1e1", b"+1", b"-1", b"1.0", b" 1"]


def pick(rng, pattern, data):
    """A match of the pattern, one of all; none where there is none."""
    found = list(re.finditer(pattern, data))
    return rng.choice(found) if found else None


def put(data, start, end, new):
    return data[:start] + new + data[end:]


def changed(pattern, new):
    """A damage: a match of the pattern becomes what `new` makes of it."""

    def damage(data, rng):
        match = pick(rng, pattern, data)
        return put(data, *match.span(), new(match.group(), rng)) if match else data + new(b"", rng)

    return damage


def on_lines(change):
    """A damage on the list of lines, with their ends."""

    def damage(data, rng):
        lines = data.splitlines(keepends=True) or [b"\n"]
        change(lines, rng)
        return b"".join(lines)

    return damage


def swap_lines(lines, rng):
    i, k = rng.randrange(len(lines)), rng.randrange(len(lines))
    lines[i], lines[k] = lines[k], lines[i]


def drop_digit(word, rng):
    i = rng.randrange(len(word)) if word else 0
    return word[:i] + word[i + 1 :]


def some_bytes(rng, most):
    return bytes(rng.choice(BYTES) if rng.random() < 0.7 else rng.randrange(256) for _ in range(rng.randrange(1, most)))


def at_random(removed, new):
    """A damage at any place: so many bytes go and some come."""

    def damage(data, rng):
        i = rng.randrange(len(data) + 1)
        return put(data, i, i + removed(rng), new(rng))

    return damage


def longer(data, rng):
    """Longer than any sheet, now and then a megabyte; or a sheet and what a program does not read to the end."""
    length = rng.choice([65536, 65537, 70000, 200000] * 5 + [1 << 20])
    if rng.random() < 0.5:
        return data + rng.choice([b"\n", b"0", b"x"]) * (length - len(data))
    return rng.choice([b"\n", b"0", b"9", b"\xff", b"\0", data or b"\n"]) * (length // (len(data) or 1) + 1)


def long_count(data, rng):
    return changed(rb"(?<=[a-z] )\d+", lambda word, rng: b"9" * rng.choice([10, 20, 40, 1000, 65530, 70000]))(data, rng)


def cut_count(data, rng):
    """The bytes end in a count's digits, or a byte after them."""
    match = pick(rng, rb"(?<=[a-z] )\d+", data)
    if not match:
        return data
    digits = rng.choice([match.group(), b"0300", b"9" * 20, b"1" + b"0" * 19, *NUMBERS])
    return data[: match.start()] + digits + rng.choice([b"", b"", b"", b"x", b" ", b"\r"])


KINDS = {
    "wrong word": changed(rb"[a-z]{3,}", lambda word, rng: rng.choice(WORDS)),
    "word of other case": changed(rb"[a-z]{3,}", lambda word, rng: rng.choice([word.upper(), word.title(), word[:-1]])),
    "missing line": on_lines(lambda lines, rng: lines.pop(rng.randrange(len(lines)))),
    "extra line": on_lines(lambda lines, rng: lines.insert(rng.randrange(len(lines) + 1), rng.choice(lines + [b"\n"]))),
    "lines swapped": on_lines(swap_lines),
    "trailing space": changed(rb"\n", lambda _, rng: b" \n"),
    "leading space": changed(rb"\n", lambda _, rng: b"\n "),
    "two spaces": changed(rb" ", lambda _, rng: b"  "),
    "no space": changed(rb" ", lambda _, rng: b""),
    "tab": changed(rb" ", lambda _, rng: b"\t"),
    "carriage return": changed(rb"\n", lambda _, rng: rng.choice([b"\r\n", b"\r", b"\n\r"])),
    "all carriage returns": lambda data, rng: data.replace(b"\n", b"\r\n"),
    "upper-case hex": changed(rb"[0-9a-f]{0,15}[a-f][0-9a-f]{0,15}(?=[ \n])", lambda word, rng: word.upper()),
    "short hex": changed(rb"[0-9a-f]{16}", drop_digit),
    "long hex": changed(rb"[0-9a-f]{16}", lambda word, rng: rng.choice([b"0" + word, word + b"0"])),
    "no hex digit": changed(rb"(?<=[0-9a-f])[0-9a-f](?=[0-9a-f])", lambda _, rng: rng.choice([b"g", b"G", b"`", b"/", b":", b"@"])),
    "other hex": changed(rb"[0-9a-f]{16}", lambda _, rng: b"%016x" % rng.getrandbits(64)),
    "leading zeros": changed(rb"\b\d{1,10}\b", lambda word, rng: b"0" * rng.randrange(1, 4) + word),
    "another number": changed(rb"\b\d{1,10}\b", lambda _, rng: rng.choice(NUMBERS)),
    "foreign digits": changed(rb"\b\d{1,10}\b", lambda _, rng: rng.choice(FOREIGN)),
    "another count": changed(rb"(?<=[a-z] )\d+", lambda word, rng: b"%d" % abs(int(word[:9] or b"0") + rng.choice([-2, -1, 1, 2, 250, 256]))),
    "count too large": changed(rb"(?<=[a-z] )\d+", lambda _, rng: b"%d" % rng.choice([257, 258, 999, 2**32, 2**32 + 1, 2**64, 2**64 + 1])),
    "long count": long_count,
    "cut in a count": cut_count,
    "another ring": changed(rb"(?<=\n)\d+(?= )", lambda _, rng: rng.choice(NUMBERS)),
    "no last line feed": lambda data, rng: data[:-1],
    "bytes after the end": lambda data, rng: data + some_bytes(rng, 6),
    "cut off": lambda data, rng: data[: rng.randrange(len(data) + 1)],
    "head cut off": lambda data, rng: data[rng.randrange(len(data) + 1) :],
    "empty": lambda data, rng: b"",
    "NUL bytes": at_random(lambda rng: rng.randrange(3), lambda rng: b"\0" * rng.randrange(1, 9)),
    "a byte changed": at_random(lambda rng: 1, lambda rng: some_bytes(rng, 2)),
    "a bit changed": changed(rb"(?s).", lambda byte, rng: bytes([(byte or b"0")[0] ^ 1 << rng.randrange(8)])),
    "bytes inserted": at_random(lambda rng: 0, lambda rng: some_bytes(rng, 4)),
    "bytes deleted": at_random(lambda rng: rng.randrange(1, 4), lambda rng: b""),
    "random bytes": lambda data, rng: some_bytes(rng, 200),
}
NAMES = list(KINDS)


def damaged(data, rng):
    # Long input is rare, since it takes long.
    name = rng.choice(NAMES) if rng.random() > 0.002 else "long input"
    return name, longer(data, rng) if name == "long input" else KINDS[name](data, rng)
