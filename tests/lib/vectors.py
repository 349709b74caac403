"""The values of vectors.txt by their names, which are names of this module too, and functions that make values."""

import base64
import pathlib

TEXT = (pathlib.Path(__file__).parents[1] / "vectors.txt").read_text()
VALUES = dict(
    line.split(" ", 1) for line in TEXT.splitlines() if line and line[0] != "#"
)
globals().update(VALUES)
VECTOR_LINES = "".join(
    f"{source} {number} ok\n"
    for source, numbers in [
        ("rfc3394", "4.1 4.2 4.3 4.4 4.5 4.6"),
        ("rfc5649", "20 7"),
        ("fips197", "1 2 3 4"),
    ]
    for number in numbers.split()
)
raw = bytes.fromhex


def zeros(count):
    """This many bytes 00, in hex."""
    return "00" * count


def in_base64(digits):
    return base64.b64encode(raw(digits)).decode()


def in_url(digits):
    """The bytes of hex digits in base64url, without padding."""
    return base64.urlsafe_b64encode(raw(digits)).decode().rstrip("=")


def drilled_zeros(words):
    """The wrapping of `words` words of zeros over the drill block, E(A | R) = R | A.

    The word at t is the xor of t, t - (n + 1), t - 2(n + 1) and so on, and of the initial value if n + 1 divides t. The
    first word of the answer is A at 6n, and the others are A at 5n to 6n - 1."""
    answer = ""
    for t in [6 * words, *range(5 * words, 6 * words)]:
        a = 0 if t % (words + 1) else 0xA6A6A6A6A6A6A6A6
        for s in range(t, 0, -(words + 1)):
            a ^= s
        answer += f"{a:016x}"
    return answer
