"""Holds the stand-in for `robust` to whole numbers: check_standin.py CALLS ANSWERS, of `orient` calls. Each right answer is
also told wrong, which must be found."""
import sys


def whole(word):
    """The number with these bits, in units of 2^-1074."""
    bits = int(word, 16)
    field = bits >> 52 & 0x7FF
    mantissa = bits & (1 << 52) - 1
    size = mantissa if field == 0 else (mantissa | 1 << 52) << field - 1
    return -size if bits >> 63 else size


def sign(words):
    ax, ay, bx, by, cx, cy = map(whole, words)
    area = (ax - cx) * (by - cy) - (ay - cy) * (bx - cx)
    return (area > 0) - (area < 0)


def is_sign(answer, words):
    return answer == str(sign(words))


def main(calls, answers):
    checked = wrong = lies = found = 0
    with open(calls) as call_lines, open(answers) as answer_lines:
        for call, answer in zip(call_lines, answer_lines, strict=True):
            checked += 1
            answer, words = answer.strip(), call.split()[1:]
            if not is_sign(answer, words):
                wrong += 1
                print(f"stand-in: {call.strip()} gives {answer}")
                continue
            lies += 1
            found += not is_sign({"-1": "0", "0": "1", "1": "-1"}[answer], words)
    print(f"stand-in robust against whole numbers: {checked} checked, {wrong} differing; lies found {found} of {lies}")
    return 0 if checked and not wrong and found == lies else 1


if __name__ == "__main__":
    sys.exit(main(*sys.argv[1:]))
