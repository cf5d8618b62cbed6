"""Test vectors for single samples, worked out from document 01 and document 02's CR 3 and CR 4 alone.

Run from the root of the repository:  python3 tools/vectors/samples.py [--check]
It rewrites crates/sample_vectors/stdin and crates/sample_vectors/stdout; with
--check it compares them with what it would write, and writes nothing.

The rules are written here as literally as possible, by whole numbers and by
trying every case, so that they share nothing with the code they test. Words of
code 5 are compared with Python's own floats as well.

A line of stdin is 24 bytes, a line of stdout 36, line feed included:
    r CODE(8 hex) WORD(8 hex)----        read a word
    w CODE(8 hex) PAIR(12 hex)           write a pair
    NUMBER(3 decimal) PLACE(16 hex) PAIR(12 hex) 1, or 0      a word that was read; 1 if it is not normal
    NUMBER(3 decimal) PLACE(16 hex) WORD(8 hex)---- -         a pair that was written
"""

import math
import struct
import sys
from collections import Counter
from fractions import Fraction
from pathlib import Path

FOLDER = Path(__file__).resolve().parents[2] / "crates" / "sample_vectors"

# ---------------------------------------------------------------- the rules

SCALE = 16 ** 70  # the value of a sample is V / SCALE
CODES = (1, 2, 3, 4, 5, 8)


def signed(some_bytes):
    return int.from_bytes(some_bytes, "big", signed=True)


def ieee_parts(word):
    """Sign, exponent and fraction of an IEEE single, each as a whole number."""
    bits = int.from_bytes(word, "big")
    return bits // 2 ** 31, bits // 2 ** 23 % 256, bits % 2 ** 23


def is_finite(word):
    """Whether an IEEE single has a value: with the exponent 255 it is an infinity or a not-a-number."""
    _, exponent, _ = ieee_parts(word)
    return exponent != 255


def v_of_word(code, word):
    """V of a word of one of the codes. A gain word begins with 00, and an IEEE single has a value."""
    if code == 1:
        bits = int.from_bytes(word, "big")
        s = bits // 2 ** 31
        c = bits // 2 ** 24 % 128
        f = bits % 2 ** 24
        v = f * 16 ** c
        return -v if s == 1 else v
    if code == 2:
        return signed(word) * SCALE
    if code == 3:
        return signed(word[0:2]) * SCALE
    if code == 4:
        g = word[1]
        d = signed(word[2:4])
        return d * 2 ** (280 - g)
    if code == 5:
        s, exponent, f = ieee_parts(word)
        if exponent == 0:  # 0.f times 2^-126
            v = f * 2 ** (280 - 126 - 23)
        else:  # 1.f times 2^(exponent - 127)
            v = (2 ** 23 + f) * 2 ** (280 + exponent - 127 - 23)
        return -v if s == 1 else v
    if code == 8:
        return signed(word[0:1]) * SCALE


# For each exponent from 0 to 254 of an IEEE single: V at the fraction 0, and what each 1 in the fraction adds.
IEEE_ROWS = [
    (v_of_word(5, bits.to_bytes(4, "big")), v_of_word(5, (bits + 1).to_bytes(4, "big")) - v_of_word(5, bits.to_bytes(4, "big")))
    for bits in range(0, 255 * 2 ** 23, 2 ** 23)
]


def is_canonical(e, m):
    if m == 0:
        return e == 0
    return m % 2 == 1 and -280 <= e <= 251 and abs(m) <= 2 ** 31 - 1


def pair_of_v(v):
    """The canonical pair of V, found by trying every exponent."""
    if v == 0:
        return 0, 0
    found = []
    for e in range(-280, 252):
        # m * 2^e = V / 2^280
        m, rest = divmod(v, 2 ** (e + 280))
        if rest == 0 and is_canonical(e, m):
            found.append((e, m))
    assert len(found) == 1, "a word's value has one canonical pair"
    return found[0]


def v_of_pair(e, m):
    return m * 2 ** (e + 280)


def word_of_v(code, v):
    """The word for V under one of the codes, or None if V doesn't fit."""
    if code == 1:
        if v == 0:
            return bytes(4)
        any_at_all = False
        normal = []
        for c in range(128):
            f, rest = divmod(abs(v), 16 ** c)
            if rest == 0 and f < 2 ** 24:
                any_at_all = True
                first_digit = f // 16 ** 5
                if first_digit != 0 or c == 0:
                    normal.append((c, f))
        assert len(normal) == (1 if any_at_all else 0)
        if not normal:
            return None
        c, f = normal[0]
        s = 1 if v < 0 else 0
        return (s * 2 ** 31 + c * 2 ** 24 + f).to_bytes(4, "big")
    if code == 2:
        n, rest = divmod(v, SCALE)
        if rest != 0 or not -(2 ** 31) <= n <= 2 ** 31 - 1:
            return None
        return n.to_bytes(4, "big", signed=True)
    if code == 3:
        n, rest = divmod(v, SCALE)
        if rest != 0 or not -(2 ** 15) <= n <= 2 ** 15 - 1:
            return None
        return n.to_bytes(2, "big", signed=True) + bytes(2)
    if code == 4:
        for g in range(256):
            d, rest = divmod(v, 2 ** (280 - g))
            if rest == 0 and -(2 ** 15) <= d <= 2 ** 15 - 1:
                return bytes([0, g]) + d.to_bytes(2, "big", signed=True)
        return None
    if code == 5:
        if v == 0:
            return bytes(4)
        s = 1 if v < 0 else 0
        found = []
        for exponent, (first, step) in enumerate(IEEE_ROWS):
            f, rest = divmod(abs(v) - first, step)
            if rest == 0 and 0 <= f < 2 ** 23:
                found.append((s * 2 ** 31 + exponent * 2 ** 23 + f).to_bytes(4, "big"))
        assert len(found) <= 1
        return found[0] if found else None
    if code == 8:
        n, rest = divmod(v, SCALE)
        if rest != 0 or not -(2 ** 7) <= n <= 2 ** 7 - 1:
            return None
        return n.to_bytes(1, "big", signed=True) + bytes(3)


def not_normal(code, word):
    """1 for an IBM word other than the normal word of its value, else 0."""
    return 1 if code == 1 and word != word_of_v(1, v_of_word(1, word)) else 0


def pair_bytes(e, m):
    return e.to_bytes(2, "big", signed=True) + m.to_bytes(4, "big", signed=True)


def read(code, word):
    """Number, six bytes, and 1 or 0 for a single word."""
    if code not in CODES:
        return 2, bytes(6), 0
    if code == 4 and word[0] != 0:
        return 9, bytes(6), 0
    if code == 5 and not is_finite(word):
        return 19, bytes(6), 0
    return 0, pair_bytes(*pair_of_v(v_of_word(code, word))), not_normal(code, word)


def write(code, pair):
    """Number and four bytes for a single pair."""
    if code not in CODES:
        return 11, bytes(4)
    e, m = signed(pair[0:2]), signed(pair[2:6])
    if not is_canonical(e, m):
        return 13, bytes(4)
    word = word_of_v(code, v_of_pair(e, m))
    if word is None:
        return 14, bytes(4)
    return 0, word


# ------------------------------------------------- the papers' own examples

# (code, word, e, m, 1 if the word is not normal)
EDGES_READ = [
    (1, "41100000", 0, 1, 0),
    (1, "42010000", 0, 1, 1),
    (1, "C276A000", -3, -949, 0),
    (1, "80000000", 0, 0, 1),
    (1, "7F000000", 0, 0, 1),
    (1, "00000001", -280, 1, 0),
    (1, "7F800000", 251, 1, 0),
    (1, "7FFFFFFF", 228, 16777215, 0),
    (2, "80000000", 31, -1, 0),
    (4, "00010002", 0, 1, 0),
    (5, "00000000", 0, 0, 0),
    (5, "80000000", 0, 0, 0),
    (5, "00000001", -149, 1, 0),
    (5, "807FFFFF", -149, -8388607, 0),
    (5, "00400000", -127, 1, 0),
    (5, "00800000", -126, 1, 0),
    (5, "00800001", -149, 8388609, 0),
    (5, "3F800000", 0, 1, 0),
    (5, "C2ED4000", -3, -949, 0),
    (5, "4B7FFFFF", 0, 16777215, 0),
    (5, "7F000000", 127, 1, 0),
    (5, "7F7FFFFF", 104, 16777215, 0),
    (8, "FF000000", 0, -1, 0),
    (8, "80000000", 7, -1, 0),
    (8, "7F000000", 0, 127, 0),
    (8, "01FFFFFF", 0, 1, 0),
]

# (code, e, m, number, word), the value in the remark
EDGES_WRITE = [
    (4, 0, 1, 0, "00000001"),
    (1, 0, 16777215, 0, "46FFFFFF"),
    (1, 0, 16777217, 14, "00000000"),
    (1, 4, 2097151, 0, "471FFFFF"),  # 33,554,416
    (1, 1, 16777215, 14, "00000000"),  # 33,554,430
    (4, 15, -1, 0, "00008000"),  # -32,768
    (4, 15, 1, 14, "00000000"),  # 32,768
    (4, -255, 1, 0, "00FF0001"),
    (4, -256, 1, 14, "00000000"),
    (5, 0, 0, 0, "00000000"),
    (5, -149, 1, 0, "00000001"),
    (5, -150, 1, 14, "00000000"),
    (5, -149, -8388607, 0, "807FFFFF"),
    (5, -126, 1, 0, "00800000"),
    (5, -127, 1, 0, "00400000"),
    (5, 104, -16777215, 0, "FF7FFFFF"),
    (5, 104, 16777217, 14, "00000000"),
    (5, 105, 16777215, 14, "00000000"),
    (5, 127, -1, 0, "FF000000"),
    (5, 128, 1, 14, "00000000"),
    (5, 0, 16777217, 14, "00000000"),
    (8, 7, -1, 0, "80000000"),  # -128
    (8, 7, 1, 14, "00000000"),  # 128
    (8, 0, -127, 0, "81000000"),
    (8, 0, -129, 14, "00000000"),
    (8, -1, 1, 14, "00000000"),
]

# Words of code 5 without a value: infinities, and not-a-numbers, quiet and signalling.
NO_VALUES = [bytes.fromhex(word) for word in (
    "7F800000", "FF800000", "7F800001", "FF800001", "7FBFFFFF", "FFBFFFFF", "7FC00000", "FFC00000", "7FC00001",
    "7FA5A5A5", "7FFFFFFF", "FFFFFFFF",
)]


def check_edges():
    for code, word, e, m, counted in EDGES_READ:
        assert read(code, bytes.fromhex(word)) == (0, pair_bytes(e, m), counted), word
    for code, e, m, number, word in EDGES_WRITE:
        got = write(code, pair_bytes(e, m))
        assert got == (number, bytes.fromhex(word)), (code, e, m)
    for word in NO_VALUES:
        assert read(5, word) == (19, bytes(6), 0), word.hex()
    for byte in range(256):
        n = byte if byte < 128 else byte - 256
        for rest in (bytes(3), b"\xFF" * 3, bytes([0, 0, byte])):
            assert v_of_word(8, bytes([byte]) + rest) == n * SCALE
        assert word_of_v(8, n * SCALE) == bytes([byte, 0, 0, 0])
    assert pair_bytes(-3, -949) == bytes.fromhex("FFFDFFFFFC4B")
    assert v_of_pair(4, 2097151) == 33554416 * SCALE
    assert v_of_pair(1, 16777215) == 33554430 * SCALE
    assert v_of_pair(15, -1) == -32768 * SCALE


# Words that are not normal, of every kind: zeros other than 00000000, then C above 0 and a first digit 0.
NOT_NORMAL = [bytes.fromhex(word) for word in (
    "80000000", "01000000", "81000000", "40000000", "41000000", "C1000000", "7F000000", "FF000000",
    "01000001", "81000001", "010FFFFF", "02000001", "05000001", "06000001", "40000001", "C00FFFFF",
    "C000FFFF", "40000FFF", "400000FF", "4000000F", "42010000", "C2010000", "46000001", "7F000001",
    "FF000001", "7F0FFFFF", "FF080000",
)]

# Normal words: 00000000, C 0 with any other F, and a first digit that isn't 0.
NORMAL = [bytes.fromhex(word) for word in (
    "00000000", "00000001", "80000001", "0000000F", "00000010", "8000FFFF", "800FFFFF", "00100000",
    "80FFFFFF", "01100000", "81100000", "41100000", "C1100000", "411FFFFF", "41800000", "C276A000",
    "46FFFFFF", "471FFFFF", "7F100000", "7FFFFFFF", "FFFFFFFF",
)]


def check_normal():
    """The words by hand; and document 01's sentence against the search for the normal word of a value."""
    for words, counted in ((NOT_NORMAL, 1), (NORMAL, 0)):
        for word in words:
            assert read(1, word)[2] == counted, word.hex()
            assert [read(code, word)[2] for code in (0, 2, 3, 4, 5, 6, 8)] == [0] * 7
    fractions = {0}
    for digits in range(1, 7):  # so many after the leading zeros
        low, high = 16 ** (digits - 1), 16 ** digits - 1
        fractions.update((low, low + 1, 0xA5A5A5 % (high + 1) | 8 * low, high - 1, high))
    for first in range(256):
        for f in fractions:
            word = (first * 2 ** 24 + f).to_bytes(4, "big")
            c, first_digit = first % 128, f // 16 ** 5
            normal = word == bytes(4) if f == 0 else first_digit != 0 or c == 0
            assert not_normal(1, word) == (0 if normal else 1), word.hex()


def check_ieee():
    """Words and pairs of code 5 against Python's own floats: a 32-bit one is unpacked and packed as it is."""
    rnd = Numbers(1985)

    def check_word(word):
        host = struct.unpack(">f", word)[0]
        assert is_finite(word) == math.isfinite(host), word.hex()
        if is_finite(word):
            assert Fraction(v_of_word(5, word), SCALE) == Fraction(host), word.hex()
            assert word_of_v(5, v_of_word(5, word)) == struct.pack(">f", host if host else 0.0), word.hex()

    def check_pair(e, m):
        exact = math.ldexp(m, e)  # a 64-bit float has every such value
        assert Fraction(exact) == Fraction(v_of_pair(e, m), SCALE)
        try:
            word = struct.pack(">f", exact)
        except OverflowError:
            word = None
        if word is not None and struct.unpack(">f", word)[0] != exact:
            word = None
        assert word_of_v(5, v_of_pair(e, m)) == word, (e, m)
        return word is not None

    for first in range(512):
        for f in (0, 1, 2, 2 ** 22 - 1, 2 ** 22, 2 ** 22 + 1, 2 ** 23 - 2, 2 ** 23 - 1, rnd.bits(23)):
            check_word((first * 2 ** 23 + f).to_bytes(4, "big"))
    for word in NO_VALUES:
        check_word(word)
    for _ in range(2000):
        check_word(rnd.bits(32).to_bytes(4, "big"))
        check_word((rnd.bits(1) * 2 ** 31 + rnd.bits(rnd.between(1, 23))).to_bytes(4, "big"))
    fit = Counter()
    for e in (*range(-280, -160, 20), *range(-160, -120), *range(-120, 100, 20), *range(100, 130), *range(130, 252, 30)):
        for bits in (1, 2, 22, 23, 24, 25, 31):
            for m in (2 ** bits - 1, 2 ** (bits - 1) | 1, rnd.bits(bits) | 1):
                fit[check_pair(e, m)] += 1
                fit[check_pair(e, -m)] += 1
    for _ in range(2000):
        fit[check_pair(rnd.between(-160, 130), (rnd.bits(rnd.between(1, 25)) | 1) * (1 - 2 * rnd.bits(1)))] += 1
    assert min(fit.values()) > 1000, fit


# -------------------------------------------------------------- the vectors


class Numbers:
    """The same row of numbers under every Python."""

    def __init__(self, seed):
        self.state = seed

    def bits(self, count):
        value = 0
        for _ in range(count):
            self.state = (self.state * 6364136223846793005 + 1442695040888963407) % 2 ** 64
            value = value * 2 + self.state // 2 ** 63
        return value

    def between(self, low, high):
        return low + self.bits(64) % (high - low + 1)


BAD_CODES = [0, 6, 7, 9, 255, 256, 257, 65537, 0x80000000, 0xFFFFFFFF]

# a good code in some of the bytes, or in another order
MORE_BAD_CODES = [
    258, 259, 260, 65540, 0x00040000, 0x01000000, 0x02000000, 0x03000000,
    0x04000000, 0x01000001, 0x7FFFFFFF, 0x80000001, 0x80000004, 0xFFFFFFFC,
    261, 264, 65541, 0x00080000, 0x05000000, 0x08000000, 0x80000005, 0x80000008, 10, 12, 13, 16,
]


class Vectors:
    def __init__(self):
        self.lines = {}  # line in, line out; each once, in order
        self.kinds = Counter()
        self.taken = 0

    def put(self, line, answer, kind):
        if line not in self.lines:
            self.lines[line] = answer
            self.kinds[kind] += 1

    def w(self, code, pair):
        number, word = write(code, pair)
        self.put(
            f"w {code:08x} {pair.hex()}",
            f"{number:03d} {0:016x} {word.hex()}---- -",
            f"write, {'taken' if number == 0 else 'number %d' % number}"
            + (f", code {code}" if code in CODES else ""),
        )

    def w_all(self, pair):
        for code in CODES:
            self.w(code, pair)

    def pair(self, code, e, m):
        self.w(code, pair_bytes(e, m))

    def pair_all(self, e, m):
        self.w_all(pair_bytes(e, m))

    def r(self, code, word):
        """A word read; if taken its pair is written back, now and then by all codes."""
        number, pair, counted = read(code, word)
        self.put(
            f"r {code:08x} {word.hex()}----",
            f"{number:03d} {0:016x} {pair.hex()} {counted}",
            f"read, {'taken' if number == 0 else 'number %d' % number}"
            + (f", code {code}" if code in CODES else "")
            + (", not normal" if counted else ""),
        )
        if number == 0:
            self.w(code, pair)
            self.taken += 1
            if self.taken % 24 == 0:
                self.w_all(pair)

    def ibm(self, s, c, f):
        self.r(1, (s * 2 ** 31 + c * 2 ** 24 + f).to_bytes(4, "big"))

    def whole32(self, n):
        self.r(2, n.to_bytes(4, "big", signed=True))

    def whole16(self, n, tail):
        self.r(3, n.to_bytes(2, "big", signed=True) + tail.to_bytes(2, "big"))

    def gain(self, g, d, first=0):
        self.r(4, bytes([first, g]) + d.to_bytes(2, "big", signed=True))

    def ieee(self, s, exponent, f):
        self.r(5, (s * 2 ** 31 + exponent * 2 ** 23 + f).to_bytes(4, "big"))

    def whole8(self, n, tail):
        self.r(8, n.to_bytes(1, "big", signed=True) + tail.to_bytes(3, "big"))


def near_powers(bits):
    """0, every power of two of a two's complement number and its neighbours."""
    numbers = []
    for k in range(bits):
        for sign in (1, -1):
            for step in (-1, 0, 1):
                n = sign * (2 ** k + step)
                if -(2 ** (bits - 1)) <= n <= 2 ** (bits - 1) - 1:
                    numbers.append(n)
    return sorted(set(numbers))


def edges(x, rnd):
    for code, word, e, m, _ in EDGES_READ:
        x.r(code, bytes.fromhex(word))
        x.pair_all(e, m)
        x.pair_all(e, -m)
    for code, e, m, _, _ in EDGES_WRITE:
        x.pair(code, e, m)
        x.pair_all(e, m)
        x.pair_all(e, -m)
    for word in ("46ffffff", "471fffff", "c6ffffff", "c71fffff"):
        x.r(1, bytes.fromhex(word))
    for word in ("00000001", "00008000", "00ff0001", "00010002"):
        x.r(4, bytes.fromhex(word))


def ibm_words(x, rnd):
    # every characteristic: zero, smallest, smallest normal and largest fraction
    for c in range(128):
        for s in (0, 1):
            for f in (0x000000, 0x000001, 0x100000, 0xFFFFFF):
                x.ibm(s, c, f)
    # 1 to 5 leading zero digits; C about as large as their count, and far from it
    for zeros in range(1, 6):
        low, high = 16 ** (5 - zeros), 16 ** (6 - zeros) - 1
        for c in (0, 1, 2, 3, 4, 5, 6, 64, 70, 126, 127):
            for f in (low, high, rnd.between(low, high)):
                x.ibm(rnd.bits(1), c, f)
    # every single bit of the fraction
    for k in range(24):
        for c in (0, 5, 70, 127):
            x.ibm(rnd.bits(1), c, 2 ** k)
    # every first digit
    for digit in range(16):
        for c in (0, 1, 70, 127):
            x.ibm(rnd.bits(1), c, digit * 16 ** 5 + rnd.bits(20))
    # any normal words, any words, and words of few set bits
    for _ in range(120):
        x.ibm(rnd.bits(1), rnd.bits(7), rnd.between(0x100000, 0xFFFFFF))
    for _ in range(60):
        x.ibm(rnd.bits(1), rnd.bits(7), rnd.bits(24) // 2 ** rnd.between(1, 23))
    for _ in range(60):
        x.ibm(rnd.bits(1), rnd.bits(7), rnd.bits(24) // 2 ** 12 * 2 ** rnd.between(0, 12))


def whole_words(x, rnd):
    for n in near_powers(32):
        x.whole32(n)
    for _ in range(80):
        x.whole32(rnd.bits(32) - 2 ** 31)
    for _ in range(60):
        k = rnd.between(0, 31)
        x.whole32((rnd.bits(32) - 2 ** 31) // 2 ** k * 2 ** rnd.between(0, k))
    # the last two bytes of a code 3 word are ignored
    for n in near_powers(16):
        x.whole16(n, 0x0000)
        x.whole16(n, rnd.between(1, 0xFFFF))
    for n in (0, 1, -1, 2, 256, -256, 32767, -32768):
        for tail in (0x0001, 0x0080, 0x0100, 0x7FFF, 0x8000, 0xFFFF):
            x.whole16(n, tail)
    for _ in range(80):
        x.whole16(rnd.bits(16) - 2 ** 15, rnd.bits(16))


def gain_words(x, rnd):
    for g in range(256):
        x.gain(g, (rnd.bits(15) - 2 ** 14) * 2)
        x.gain(g, (rnd.bits(15) - 2 ** 14) * 2 + 1)
    for g in (0, 1, 2, 14, 15, 16, 128, 254, 255):
        for d in (0, 1, -1, 2, -2, 16384, -16384, 32766, 32767, -32767, -32768):
            x.gain(g, d)
    # a first byte that isn't 00, whatever follows
    for first in (0x01, 0x02, 0x04, 0x08, 0x10, 0x20, 0x40, 0x80, 0x7F, 0xFE, 0xFF):
        for g, d in ((0, 0), (0, 1), (1, 2), (255, -32768), (rnd.bits(8), rnd.bits(15))):
            x.gain(g, d, first)


def bad_codes(x, rnd):
    words = ["00000000", "41100000", "00010002", "01000001", "80ff8000", "ffffffff"]
    pairs = [
        (0, 0), (0, 1), (-3, -949),  # canonical
        (0, 2), (1, 0), (0, -(2 ** 31)), (252, 1), (-281, 1),  # not canonical
        (251, 2 ** 31 - 1), (-280, -(2 ** 31 - 1)),  # fit nothing
        (32767, 2), (-32768, -(2 ** 31)),  # wrong twice over
    ]
    for code in BAD_CODES:
        for word in words:
            x.r(code, bytes.fromhex(word))
        for e, m in pairs:
            x.pair(code, e, m)
    for code in MORE_BAD_CODES:
        x.r(code, bytes.fromhex("00000001"))
        x.r(code, bytes.fromhex("01000001"))
        x.pair(code, 0, 1)
        x.pair(code, 1, 0)
    for _ in range(40):
        code = rnd.bits(32)
        if code not in CODES:
            x.r(code, rnd.bits(32).to_bytes(4, "big"))
            x.w(code, rnd.bits(48).to_bytes(6, "big"))


def not_canonical(x, rnd):
    def any_code():
        return CODES[rnd.between(0, len(CODES) - 1)]

    some_e = (-280, -4, -1, 0, 1, 31, 251)
    beyond = (-32768, -32767, -536, -512, -282, -281, 252, 253, 256, 512, 32766, 32767)
    # m even
    for e in some_e:
        for m in (2, -(2 ** 31)):
            x.pair_all(e, m)
        for m in (-2, 6, 2 ** 16, 2 ** 30, -(2 ** 31) + 2, 2 ** 31 - 2):
            x.pair(any_code(), e, m)
    # m 0 and e not 0
    for e in some_e + beyond:
        x.pair_all(e, 0)
    # e out of range, m odd or even
    for e in beyond:
        x.pair_all(e, 1)
        for m in (-1, 2, 2 ** 31 - 1, -(2 ** 31)):
            x.pair(any_code(), e, m)
    for _ in range(40):
        x.pair(any_code(), rnd.between(-280, 251), (rnd.bits(31) - 2 ** 30) * 2)
        x.pair(any_code(), rnd.between(252, 32767), rnd.bits(31))
        x.pair(any_code(), rnd.between(-32768, -281), -rnd.bits(31))
        x.w(any_code(), rnd.bits(48).to_bytes(6, "big"))


def canonical(x, rnd):
    def both(code, e, m):
        x.pair(code, e, m)
        x.pair(code, e, -m)

    def odd(bits):
        """An odd number of just so many bits."""
        return (2 ** (bits - 1) + rnd.bits(bits - 1)) | 1 if bits > 1 else 1

    # code 1: mantissas of every length at each of the four alignments
    for bits in range(1, 32):
        for e in (-2, -1, 0, 1):
            x.pair(1, e, 2 ** bits - 1)
            x.pair(1, e, -(2 ** (bits - 1) | 1))
    # the low end: C is 0, or just above; 20 to 26 bits
    for e in range(-280, -250):
        for m in (1, 2 ** 20 - 1, 2 ** 23 + 1, 2 ** 24 - 1, 2 ** 24 + 1):
            x.pair(1, e, m if e % 2 == 0 else -m)
        for bits in (-256 - e, -255 - e):  # F takes 24 bits or 25 with C = 0
            if 1 <= bits <= 31:
                both(1, e, odd(bits))
    # the high end: C is 127 and F takes 24 bits or 25
    for e in range(220, 252):
        for bits in (252 - e, 253 - e):
            if 1 <= bits <= 31:
                x.pair(1, e, 2 ** bits - 1)
                x.pair(1, e, -odd(bits))
        x.pair(1, e, 1)
        x.pair(1, e, 2 ** 24 - 1)
    for e in (-280, 251):
        for m in (1, 3, 15, 17, 2 ** 24 - 1, 2 ** 24 + 1, 2 ** 31 - 1):
            x.pair_all(e, m)
            both(1, e, m)
    # whole numbers at the edge of 16 and 32 bits
    for e in range(0, 34):
        for edge, codes in ((15, (3, 4)), (31, (2,))):
            for code in codes:
                for bits in (edge - e, edge + 1 - e):  # just fits, just doesn't
                    if 1 <= bits <= 31:
                        both(code, e, 2 ** bits - 1)
                        x.pair(code, e, 2 ** (bits - 1) | 1)
        for code in (2, 3, 4):
            both(code, e, 1)
    for m in (32767, 32769, 65535, 65537, 2 ** 24 + 1, 2 ** 31 - 1):
        for e in (0, 1, -1):
            x.pair_all(e, m)
            x.pair_all(e, -m)
    # not whole, or far too large
    for e in (-1, -2, -4, -32, -280, 16, 32, 64, 128, 251):
        for code in (2, 3, 4):
            both(code, e, 1)
            x.pair(code, e, odd(rnd.between(2, 31)))
    # code 4: the smallest and largest gain, and one beyond
    for e in (1, 0, -1, -2, -14, -15, -16, -128, -254, -255, -256, -257, -279, -280):
        for m in (1, 3, 16383, 32765, 32767, 32769):
            both(4, e, m)
    # any
    for _ in range(50):
        x.pair_all(rnd.between(-280, 251), odd(rnd.between(1, 31)) * (1 - 2 * rnd.bits(1)))
    for _ in range(40):
        x.pair_all(rnd.between(-16, 32), odd(rnd.between(1, 31)) * (1 - 2 * rnd.bits(1)))
    for _ in range(60):
        x.pair(4, rnd.between(-258, 2), odd(rnd.between(12, 16)) * (1 - 2 * rnd.bits(1)))


def words_of_segyio(x, rnd):
    """The IBM words whose reading by segyio is stored, so that the proved code reads them too."""
    for line in Path(__file__).with_name("segyio_words.txt").read_text().splitlines():
        if not line.startswith("#"):
            x.r(1, bytes.fromhex(line[:8]))


def same_bytes(x, rnd):
    """Words that aren't normal under code 1, those that have no value under code 5, and the same bytes under others."""
    for word in NOT_NORMAL:
        for code in (*CODES, 0, 6):
            x.r(code, word)
    for word in NO_VALUES:
        for code in (5, 2, 3, 4, 8, 0, 6):
            x.r(code, word)


def ieee_words(x, rnd):
    # every exponent: the smallest and the largest fraction, those beside them, and any
    for exponent in range(256):
        for f in (0, 1, 2 ** 23 - 1):
            x.ieee(rnd.bits(1), exponent, f)
        x.ieee(0, exponent, rnd.bits(23))
        x.ieee(1, exponent, rnd.bits(23))
    # every single bit of the fraction, and all from it down
    for k in range(23):
        for exponent in (0, 1, 127, 150, 254, 255):
            x.ieee(rnd.bits(1), exponent, 2 ** k)
            x.ieee(rnd.bits(1), exponent, 2 ** (k + 1) - 1)
    # subnormal numbers of every length, and whole numbers
    for bits in range(1, 24):
        for _ in range(4):
            x.ieee(rnd.bits(1), 0, 2 ** (bits - 1) + rnd.bits(bits - 1))
        x.r(5, struct.pack(">f", 2 ** bits - 1))
        x.r(5, struct.pack(">f", -(2 ** bits)))
    for _ in range(150):
        x.ieee(rnd.bits(1), rnd.bits(8), rnd.bits(23) // 2 ** 12 * 2 ** rnd.between(0, 12))


def ieee_pairs(x, rnd):
    def both(e, m):
        x.pair(5, e, m)
        x.pair(5, e, -m)

    # the low end: the last bit is 2^-149, at most 23 bits below 2^-126
    for e in range(-153, -122):
        for m in (1, 3, 2 ** 22 + 1, 2 ** 23 - 1, 2 ** 23 + 1, 2 ** 24 - 1, 2 ** 24 + 1):
            both(e, m)
        for bits in (-127 - e, -126 - e):  # the largest subnormal number, the smallest normal one's power
            if 1 <= bits <= 31:
                both(e, 2 ** bits - 1)
                both(e, 2 ** (bits - 1) | 1)
    # the high end: the first bit is 2^127
    for e in range(97, 130):
        for bits in (128 - e, 129 - e):  # just fits, just doesn't
            if 1 <= bits <= 31:
                both(e, 2 ** bits - 1)
                both(e, 2 ** (bits - 1) | 1)
        both(e, 2 ** 24 - 1)
    # mantissas of every length
    for bits in range(1, 32):
        for e in (-100, -1, 0, 7, 90):
            x.pair(5, e, 2 ** bits - 1)
            x.pair(5, e, -(2 ** (bits - 1) | 1))
    for e in (-280, -200, -151, 128, 129, 200, 251):
        both(e, 1)
        both(e, 2 ** 24 - 1)


def one_byte_words(x, rnd):
    # every byte; the last three are ignored
    for n in range(-128, 128):
        x.whole8(n, 0)
        x.whole8(n, rnd.between(1, 2 ** 24 - 1))
    for n in (0, 1, -1, 127, -128):
        for tail in (0x000001, 0x000080, 0x008000, 0x800000, 0x7FFFFF, 0xFFFFFF, 0x010101):
            x.whole8(n, tail)
    # whole numbers about the ends of a byte, and such as aren't whole
    for e in range(-3, 12):
        for m in (1, 3, 31, 63, 65, 127, 129, 255, 257, 2 ** 31 - 1):
            x.pair(8, e, m)
            x.pair(8, e, -m)
    for e in (-280, -150, -8, 31, 32, 64, 251):
        x.pair(8, e, 1)
        x.pair(8, e, -1)


def main():
    check_edges()
    check_normal()
    check_ieee()
    x = Vectors()
    for seed, part in enumerate(
        (edges, ibm_words, whole_words, gain_words, bad_codes, not_canonical, canonical, words_of_segyio,
         same_bytes, ieee_words, ieee_pairs, one_byte_words)
    ):
        part(x, Numbers(1975 + seed))
    assert all(len(line) == 23 for line in x.lines)
    assert all(len(line) == 35 for line in x.lines.values())
    text_in = "".join(line + "\n" for line in x.lines)
    text_out = "".join(line + "\n" for line in x.lines.values())
    files = {"stdin": text_in.encode("ascii"), "stdout": text_out.encode("ascii")}
    if sys.argv[1:] == ["--check"]:
        for name, content in files.items():
            if (FOLDER / name).read_bytes() != content:
                sys.exit(f"samples.py: {FOLDER.name}/{name} isn't what the rules give")
        print(f"samples.py: {len(x.lines)} vectors are what the rules give")
        return
    for name, content in files.items():
        (FOLDER / name).write_bytes(content)
    for kind in sorted(x.kinds):
        print(f"{x.kinds[kind]:5d}  {kind}")
    print(f"{len(x.lines):5d}  lines")


if __name__ == "__main__":
    main()
