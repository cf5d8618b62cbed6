"""The nearest value of a code, worked out from document 01 and document 02's CR 4 and CR 5 alone.

The rules are written here as literally as possible, by whole numbers and by
trying every step that a code has, so that they share nothing with the code they
test. tools/vectors/records.py runs the checks.
"""

import math
import struct
import sys
from collections import Counter
from fractions import Fraction
from functools import lru_cache
from pathlib import Path

sys.path.insert(0, str(Path(__file__).resolve().parent))
sys.dont_write_bytecode = True

from samples import CODES, EDGES_WRITE, IEEE_ROWS, SCALE, pair_of_v, v_of_pair, v_of_word, word_of_v  # noqa: E402

# ---------------------------------------------------------------- the rules


def about(v, step, least, most, first=0):
    """Of the values first + n * step, n from least to most, those next to V on either side, or the end."""
    below = (v - first) // step
    for n in (below, below + 1):
        yield first + min(max(n, least), most) * step


def values_about(code, v):
    """The values of the code next to V, at each step that the code has words at."""
    if code == 1:
        for c in range(128):
            yield from about(v, 16 ** c, -(2 ** 24 - 1), 2 ** 24 - 1)
    if code == 2:
        yield from about(v, SCALE, -(2 ** 31), 2 ** 31 - 1)
    if code == 3:
        yield from about(v, SCALE, -(2 ** 15), 2 ** 15 - 1)
    if code == 4:
        for g in range(256):
            yield from about(v, 2 ** (280 - g), -(2 ** 15), 2 ** 15 - 1)
    if code == 5:
        for first, step in IEEE_ROWS:  # of the words above zero, and by the negative of V of those below
            yield from about(v, step, 0, 2 ** 23 - 1, first)
            yield from (-w for w in about(-v, step, 0, 2 ** 23 - 1, first))
    if code == 8:
        yield from about(v, SCALE, -(2 ** 7), 2 ** 7 - 1)


@lru_cache(maxsize=1 << 16)
def nearest_v(code, v):
    """V of the nearest value of the code. Of two equally near it is that of the one nearer zero."""
    return min(values_about(code, v), key=lambda w: (abs(w - v), abs(w)))


def nearest_word(code, v):
    """The word that exact writing gives for the nearest value."""
    word = word_of_v(code, nearest_v(code, v))
    assert word is not None, (code, v)
    return word


# ------------------------------------------------------- examples by hand

# By code: e, m and the word that it becomes. Under codes 1 and 5 the negative of each becomes the word with
# the sign bit, or 00000000 again.
SIGNED = {
    1: [
        # in steps of 16^-70, of which C 1 has every sixteenth: 2^24 and 1, 7, 8, 9, 15 and 24 more
        (-280, 16777217, "01100000"), (-280, 16777223, "01100000"), (-277, 2097153, "01100000"),
        (-280, 16777225, "01100001"), (-280, 16777231, "01100001"), (-277, 2097155, "01100001"),
        # 2^28 less 8, 4 and 1: a half of the step goes down, more carries into C
        (-277, 33554431, "01FFFFFF"), (-278, 67108863, "02100000"), (-280, 268435455, "02100000"),
        # about 2^24: less 3/2, 3/4, 1/2 and 1/4, more by 1, 8, 9 and 24
        (-1, 33554429, "46FFFFFE"), (-2, 67108861, "46FFFFFF"), (-1, 33554431, "46FFFFFF"),
        (-2, 67108863, "47100000"), (0, 16777217, "47100000"), (3, 2097153, "47100000"),
        (0, 16777225, "47100001"), (3, 2097155, "47100001"),
        # 33,554,424, 33,554,425 and 33,554,430, whose m has 24 bits; 2^28 less 8, 4 and 1; 2^31 - 1
        (3, 4194303, "471FFFFF"), (0, 33554425, "47200000"), (1, 16777215, "47200000"),
        (3, 33554431, "47FFFFFF"), (2, 67108863, "48100000"), (0, 268435455, "48100000"), (0, 2 ** 31 - 1, "48800000"),
        # about 1: the step is 2^-24 below and 2^-20 above
        (-25, 33554431, "40FFFFFF"), (-26, 67108863, "41100000"), (-21, 2097153, "41100000"),
        (-22, 4194307, "41100001"), (-21, 2097155, "41100001"),
        # up to the end, and beyond it
        (227, 33554427, "7FFFFFFD"), (227, 33554429, "7FFFFFFE"), (226, 67108859, "7FFFFFFF"),
        (227, 33554431, "7FFFFFFF"), (226, 67108863, "7FFFFFFF"), (228, 16777217, "7FFFFFFF"), (251, 3, "7FFFFFFF"),
        (251, 2 ** 31 - 1, "7FFFFFFF"),
    ],
    5: [
        # in steps of 2^-149: 1/2, a little more and less, 1/4, 3/4, 3/2, 5/2, 7/2, and next to nothing
        (-150, 1, "00000000"), (-180, 2 ** 30 + 1, "00000001"), (-180, 2 ** 30 - 1, "00000000"),
        (-151, 1, "00000000"), (-151, 3, "00000001"), (-150, 3, "00000001"), (-150, 5, "00000002"),
        (-150, 7, "00000003"), (-280, 1, "00000000"), (-280, 2 ** 31 - 1, "00000000"),
        # so about the least normal number, 2^23 of them: less 1/2 and 1/4, more by 1/2 and 3/4
        (-150, 16777215, "007FFFFF"), (-151, 33554431, "00800000"), (-150, 16777217, "00800000"),
        (-151, 33554435, "00800001"),
        # about 2^24 of them, above which the step is 2: less 1/2 and 1/4, more by 1, 3/2 and 3
        (-150, 33554431, "00FFFFFF"), (-151, 67108863, "01000000"), (-149, 16777217, "01000000"),
        (-150, 33554435, "01000001"), (-149, 16777219, "01000001"),
        # 2^24 + 1, 2^24 + 3, 2^25 - 1, 2^26 - 1, 2^31 - 1
        (0, 16777217, "4B800000"), (0, 16777219, "4B800001"), (0, 33554431, "4BFFFFFF"), (0, 67108863, "4C800000"),
        (0, 2 ** 31 - 1, "4F000000"),
        # up to the largest finite number, and beyond it
        (103, 33554427, "7F7FFFFD"), (103, 33554429, "7F7FFFFE"), (102, 67108859, "7F7FFFFF"),
        (103, 33554431, "7F7FFFFF"), (102, 67108863, "7F7FFFFF"), (104, 16777217, "7F7FFFFF"), (127, 3, "7F7FFFFF"),
        (128, 1, "7F7FFFFF"), (200, 1, "7F7FFFFF"), (251, 2 ** 31 - 1, "7F7FFFFF"),
    ],
}

# By code: e, m, the word that it becomes, and the word that its negative becomes. None where that is no example.
OTHERS = {
    4: [
        # 32,766.5, 32,767.25, 32,767.5, 32,767.75 and more: the ends are 32,767 and -32,768
        (-1, 65533, "00007FFE", "00008002"), (-2, 131069, "00007FFF", "00008001"),
        (-1, 65535, "00007FFF", "00008001"), (-2, 131071, "00007FFF", "00008000"),
        (15, 1, "00007FFF", None), (-1, 65537, "00007FFF", "00008000"), (0, 32769, "00007FFF", "00008000"),
        (16, 1, "00007FFF", "00008000"), (5, 3125, "00007FFF", "00008000"), (251, 2 ** 31 - 1, "00007FFF", "00008000"),
        # 16,384.5; 16,383.75 and 16,383.875, between 32,767 halves and 16,384
        (-1, 32769, "00004000", "0000C000"), (-2, 65535, "00017FFF", "00018001"), (-3, 131071, "00004000", "0000C000"),
        # 1 + 2^-15, 1 + 3/4 of 2^-14, 1 + 3/2 of 2^-14, 1 - 2^-16, 1 - 2^-17
        (-15, 32769, "00000001", "0000FFFF"), (-16, 65539, "000E4001", "000EBFFF"),
        (-15, 32771, "000E4001", "000EBFFF"), (-16, 65535, "000F7FFF", "000F8001"),
        (-17, 131071, "00000001", "0000FFFF"),
        # in steps of 2^-255: 1/2, a little less and more, 3/4, 3/2, 5/2, 7/2, 32,767.5, 32,767.75, and next to nothing
        (-256, 1, "00000000", "00000000"), (-280, 2 ** 24 - 1, "00000000", "00000000"),
        (-280, 2 ** 24 + 1, "00FF0001", "00FFFFFF"), (-257, 3, "00FF0001", "00FFFFFF"),
        (-256, 3, "00FF0001", "00FFFFFF"), (-256, 5, "00FE0001", "00FEFFFF"), (-256, 7, "00FF0003", "00FFFFFD"),
        (-256, 65535, "00FF7FFF", "00FF8001"), (-257, 131071, "00F00001", "00F0FFFF"),
        (-280, 1, "00000000", "00000000"),
    ],
    2: [
        (31, 1, "7FFFFFFF", None), (1, 2 ** 30 + 1, "7FFFFFFF", "80000000"), (32, 1, "7FFFFFFF", "80000000"),
        (33, 3, "7FFFFFFF", "80000000"), (251, 2 ** 31 - 1, "7FFFFFFF", "80000000"),
        (-1, 2 ** 31 - 1, "3FFFFFFF", "C0000001"), (-2, 2 ** 31 - 1, "20000000", "E0000000"),
    ],
    3: [
        # 32,766.5, 32,767.25, 32,767.5, 32,767.75, 32,768, 32,768.25, 32,768.5, 32,769
        (-1, 65533, "7FFE", "8002"), (-2, 131069, "7FFF", "8001"), (-1, 65535, "7FFF", "8001"),
        (-2, 131071, "7FFF", "8000"), (15, 1, "7FFF", None), (-2, 131073, "7FFF", "8000"),
        (-1, 65537, "7FFF", "8000"), (0, 32769, "7FFF", "8000"), (16, 1, "7FFF", "8000"),
        (0, 2 ** 31 - 1, "7FFF", "8000"), (251, 1, "7FFF", "8000"),
    ],
    8: [
        # 126.5, 127.25, 127.5, 127.75, 127.99999994, 128, 128.25, 128.5, 129
        (-1, 253, "7E", "82"), (-2, 509, "7F", "81"), (-1, 255, "7F", "81"), (-2, 511, "7F", "80"),
        (-24, 2 ** 31 - 1, "7F", "80"), (7, 1, "7F", None), (-2, 513, "7F", "80"), (-1, 257, "7F", "80"),
        (0, 129, "7F", "80"), (8, 1, "7F", "80"), (0, 2 ** 31 - 1, "7F", "80"), (251, 1, "7F", "80"),
    ],
}

# e, m and the whole number that it becomes under codes 2, 3 and 8; its negative becomes that number's negative.
HALVES = [
    (-1, 1, 0), (-1, 3, 1), (-1, 5, 2), (-1, 7, 3), (-1, 201, 100), (-2, 1, 0), (-2, 3, 1), (-2, 5, 1), (-2, 7, 2),
    (-31, 2 ** 30 + 1, 1), (-31, 2 ** 30 - 1, 0), (-29, 3 * 2 ** 28 + 1, 2), (-29, 3 * 2 ** 28 - 1, 1),
    (-31, 2 ** 31 - 1, 1), (-32, 2 ** 31 - 1, 0), (-280, 1, 0), (-280, 2 ** 31 - 1, 0), (-24, 2 ** 30 - 1, 64),
]


def examples(code):
    """The examples of a code: e, m and the bytes that stand on the reel. Every one changes."""
    made = []
    for e, m, word in SIGNED.get(code, ()):
        word = bytes.fromhex(word)
        made.append((e, m, word))
        made.append((e, -m, bytes([word[0] + 128]) + word[1:] if any(word) else word))
    for e, m, word, negative in OTHERS.get(code, ()):
        made.append((e, m, bytes.fromhex(word)))
        if negative is not None:
            made.append((e, -m, bytes.fromhex(negative)))
    if code in (2, 3, 8):
        for e, m, n in HALVES:
            size = {2: 4, 3: 2, 8: 1}[code]
            made.append((e, m, n.to_bytes(size, "big", signed=True)))
            made.append((e, -m, (-n).to_bytes(size, "big", signed=True)))
    return made


# ------------------------------------------------------------- self-check


def check_examples():
    """The examples change and don't fit; what fits stays."""
    for code in CODES:
        some = examples(code)
        assert len(some) > 40 and len({(e, m) for e, m, _ in some}) == len(some)
        for e, m, word in some:
            v = v_of_pair(e, m)
            got = nearest_word(code, v)
            assert got == word + bytes(4 - len(word)), (code, e, m, got.hex())
            assert nearest_v(code, v) != v and word_of_v(code, v) is None, (code, e, m)
    for code, e, m, number, word in EDGES_WRITE:
        if number == 0:
            v = v_of_pair(e, m)
            assert nearest_v(code, v) == v and nearest_word(code, v) == bytes.fromhex(word)
    for code in CODES:
        assert nearest_v(code, 0) == 0 and nearest_word(code, 0) == bytes(4)


def some_v(rnd, low=-280, high=251):
    """V of a random canonical pair with an exponent between those."""
    e = low + rnd.getrandbits(32) % (high - low + 1)
    m = rnd.getrandbits(31) >> rnd.getrandbits(5) % 31 | 1
    return v_of_pair(e, m * (1 - 2 * rnd.getrandbits(1)))


def check_every_word(rnd):
    """No word of codes 3 and 8 is nearer, and none as near is nearer zero."""
    for code, size, count in ((3, 2, 80), (8, 1, 4000)):
        kinds = Counter()
        words = [v_of_word(code, n.to_bytes(size, "big") + bytes(2)) for n in range(256 ** size)]
        ends = min(words), max(words)
        for turn in range(count):
            v = some_v(rnd) if turn % 4 == 0 else some_v(rnd, -20, 0)
            got = nearest_v(code, v)
            assert (abs(got - v), abs(got)) == min((abs(w - v), abs(w)) for w in words)
            assert got in words
            kinds[0 if got == 0 else "end" if got in ends else "between"] += 1
        assert len(kinds) == 3 and min(kinds.values()) >= count // 20, kinds


def check_between(rnd):
    """Between neighbouring values a half goes toward zero. V may be any whole number here, not a pair's alone."""
    def numbers(least, most):
        return [least, least + 1, most - 1, most, *(least + rnd.getrandbits(32) % (most - least + 1) for _ in range(3))]

    # n * step and (n + 1) * step are neighbours
    steps = {
        1: [(16 ** c, n) for c in range(1, 127, 2) for n in numbers(2 ** 20, 2 ** 24 - 1)]
        + [(16 ** 127, n) for n in numbers(2 ** 20, 2 ** 24 - 2)],
        2: [(SCALE, n) for n in numbers(0, 2 ** 31 - 2) * 3],
        3: [(SCALE, n) for n in numbers(0, 2 ** 15 - 2) * 3],
        4: [(SCALE, n) for n in numbers(2 ** 14, 2 ** 15 - 2)]
        + [(2 ** (280 - g), n) for g in range(1, 255, 4) for n in numbers(2 ** 14, 2 ** 15 - 1)]
        + [(2 ** 25, n) for n in numbers(0, 2 ** 15 - 1)],
        5: [(2 ** 131, n) for n in numbers(0, 2 ** 24 - 1)]
        + [(2 ** (280 + p), n) for p in range(-148, 104, 6) for n in numbers(2 ** 23, 2 ** 24 - 1)]
        + [(2 ** 384, n) for n in numbers(2 ** 23, 2 ** 24 - 2)],
        8: [(SCALE, n) for n in numbers(0, 126) * 3],
    }
    for code in CODES:
        for turn, (step, n) in enumerate(steps[code]):
            half = step // 2
            for part in ((half, half + 1), (1, half), (half - 1, step - 1))[turn % 3]:
                near = n * step if 2 * part <= step else (n + 1) * step
                assert nearest_v(code, n * step + part) == near, (code, step, n, part)
                assert nearest_v(code, -n * step - part) == -near, (code, step, n, part)


def check_ends(rnd):
    """Inside the range a value moves by half a step at most; outside it becomes the end on its side."""
    ends = {
        1: (v_of_word(1, b"\xFF\xFF\xFF\xFF"), v_of_word(1, b"\x7F\xFF\xFF\xFF")),
        2: (-(2 ** 31) * SCALE, (2 ** 31 - 1) * SCALE), 3: (-(2 ** 15) * SCALE, (2 ** 15 - 1) * SCALE),
        4: (-(2 ** 15) * SCALE, (2 ** 15 - 1) * SCALE),
        5: (v_of_word(5, b"\xFF\x7F\xFF\xFF"), v_of_word(5, b"\x7F\x7F\xFF\xFF")),
        8: (-128 * SCALE, 127 * SCALE),
    }
    for code in CODES:
        least, most = ends[code]
        for v in (most, most + 1, 2 * most - 1, 2 * most + 1, 16 * most, 2 ** 562):
            assert nearest_v(code, v) == most, code
        for v in (least, least - 1, 2 * least + 1, 16 * least, -(2 ** 562)):
            assert nearest_v(code, v) == least, code
        before = None
        for _ in range(40):
            v = some_v(rnd, -30, 40)
            w = nearest_v(code, v)
            if code == 1 and least <= v <= most:
                c = word_of_v(1, w)[0] % 128
                assert 2 * abs(w - v) <= 16 ** c
            if code in (2, 3, 8):
                assert not least <= v <= most or 2 * abs(w - v) <= SCALE
                # two values come out no farther apart than they were, plus 1
                if before is not None:
                    assert abs(w - before[1]) <= abs(v - before[0]) + SCALE
                before = v, w


def check_host(rnd):
    """Code 5 against Python's own floats: the 32-bit one, or the next toward zero if it is as near."""
    changed = Counter()
    for turn in range(400):
        v = some_v(rnd, *((-280, 251), (-182, -120), (70, 130), (-30, 30))[turn % 4])
        e, m = pair_of_v(v)
        size = math.ldexp(abs(m), e)  # a 64-bit float has it exactly
        try:
            bits = int.from_bytes(struct.pack(">f", size), "big")
        except OverflowError:
            bits = 0x7F7FFFFF
        near = Fraction(struct.unpack(">f", bits.to_bytes(4, "big"))[0])
        if near > size:
            below = Fraction(struct.unpack(">f", (bits - 1).to_bytes(4, "big"))[0])
            if Fraction(size) - below <= near - Fraction(size):
                bits -= 1
        if v < 0 and bits != 0:
            bits += 2 ** 31
        assert nearest_word(5, v) == bits.to_bytes(4, "big"), (e, m)
        changed[nearest_v(5, v) != v] += 1
    assert min(changed.values()) > 50, changed


def check(rnd):
    """All checks of this file."""
    check_examples()
    check_every_word(rnd)
    check_between(rnd)
    check_ends(rnd)
    check_host(rnd)
