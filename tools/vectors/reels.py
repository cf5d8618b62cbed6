"""Reading of whole reels, worked out from document 01 and document 02's CR 2, CR 3, CR 4 and CR 8 alone.

    python3 tools/vectors/reels.py            checks this file on the paper's statements
    python3 tools/vectors/reels.py --line     answers as the program does: a reel in, its line out

The rules are written here as literally as possible, so that they share
nothing with the code they test. What is said of a reel is a tuple:
    ("taken", T, N, length, count)     by reading; the count is that of the words that are not normal
    ("found", number)                  by look-up
    ("refused", number, beside)        by either; beside is the place or length of the table, or the
                                       place of numbers 18 and 19
"""

import random
import sys
from fractions import Fraction
from functools import lru_cache
from pathlib import Path

sys.path.insert(0, str(Path(__file__).resolve().parent))
sys.dont_write_bytecode = True

from samples import (  # noqa: E402
    CODES, NO_VALUES, NORMAL, NOT_NORMAL, is_finite, not_normal, pair_bytes, pair_of_v, signed, v_of_word,
)

# ------------------------------------------------------------- the layout

CARDS = 3200
HEADERS = 3600  # cards and binary header
TRACE_HEADER = 240
MOST_N = 32767
MOST_IN_FIELD = 6000  # samples in a field of a record
MOST_T = 100000
MOST_INTERVAL = 32767

# Byte number of each assigned field, counted from 1: its width in bytes.
BINARY_FIELDS = {3201: 4, 3205: 4, 3209: 4}
BINARY_FIELDS.update({b: 2 for b in range(3213, 3260, 2)})

TRACE_FIELDS = {b: 4 for b in range(1, 26, 4)}
TRACE_FIELDS.update({b: 2 for b in (29, 31, 33, 35)})
TRACE_FIELDS.update({b: 4 for b in range(37, 66, 4)})
TRACE_FIELDS.update({b: 2 for b in (69, 71)})
TRACE_FIELDS.update({b: 4 for b in (73, 77, 81, 85)})
TRACE_FIELDS.update({b: 2 for b in range(89, 180, 2)})

INTERVAL, COUNT, CODE = 3217, 3221, 3225
TRACE_COUNT, TRACE_INTERVAL = 115, 117

# Each scalar's field, and the fields of elevations or coordinates that it acts on.
GROUPS = {69: tuple(range(41, 66, 4)), 71: tuple(range(73, 86, 4))}
SCALARS = (0, 1, -1, 10, -10, 100, -100, 1000, -1000, 10000, -10000)
POWERS = range(-4, 5)


def sample_size(code):
    return {1: 4, 2: 4, 3: 2, 4: 4, 5: 4, 8: 1}[code]


def trace_size(code, n):
    return TRACE_HEADER + n * sample_size(code)


def count_of_fields(n):
    """How many fields the samples of a trace stand in: N / 6,000 rounded up."""
    return n // MOST_IN_FIELD + (n % MOST_IN_FIELD != 0)


def record_length(t, n):
    return 3273 + t * (183 + 3 * count_of_fields(n) + 6 * n)


def binary_number(reel, byte_number):
    """The number in a binary header field; its byte number counts from the start of the reel."""
    place = byte_number - 1
    return signed(reel[place : place + BINARY_FIELDS[byte_number]])


def trace_number(reel, start, byte_number):
    """The number in a field of the trace header that starts at that place."""
    place = start + byte_number - 1
    return signed(reel[place : place + TRACE_FIELDS[byte_number]])


def trace_starts(reel):
    """The place of each whole trace. The code and N are within their limits."""
    size = trace_size(binary_number(reel, CODE), binary_number(reel, COUNT))
    t = (len(reel) - HEADERS) // size
    return [HEADERS + i * size for i in range(t)]


def words(reel, start):
    """The places of a trace's samples."""
    size = sample_size(binary_number(reel, CODE))
    first = start + TRACE_HEADER
    return [first + i * size for i in range(binary_number(reel, COUNT))]


# --------------------------------------------- causes 1 to 9, 18 and 19


def first_cause(reel):
    """The refusal by the first of causes 1 to 9, 18 and 19 that the reel has, or None."""
    if len(reel) < HEADERS:
        return "refused", 1, len(reel)
    code = binary_number(reel, CODE)
    n = binary_number(reel, COUNT)
    interval = binary_number(reel, INTERVAL)
    if code not in CODES:
        return "refused", 2, 3224
    if not 1 <= n <= MOST_N:
        return "refused", 3, 3220
    if not 1 <= interval <= MOST_INTERVAL:
        return "refused", 4, 3216
    starts = trace_starts(reel)
    size = trace_size(code, n)
    after = HEADERS + len(starts) * size
    if after != len(reel):
        return "refused", 5, after
    if len(starts) > MOST_T:
        return "refused", 6, starts[MOST_T]
    for start in starts:
        if trace_number(reel, start, TRACE_COUNT) not in (0, n):
            return "refused", 7, start + TRACE_COUNT - 1
        if trace_number(reel, start, TRACE_INTERVAL) not in (0, interval):
            return "refused", 8, start + TRACE_INTERVAL - 1
        for scalar in GROUPS:
            if trace_number(reel, start, scalar) not in SCALARS:
                return "refused", 18, start + scalar - 1
        if code == 4:
            for place in words(reel, start):
                if reel[place] != 0x00:
                    return "refused", 9, place
        if code == 5:
            for place in words(reel, start):
                if not is_finite(reel[place : place + 4]):
                    return "refused", 19, place
    return None


# --------------------------------------------- elevations and coordinates


def scaled(number, scalar):
    """The exact value of a number under a scalar: above 0 it multiplies, below it divides, 0 is 1."""
    if scalar == 0:
        return Fraction(number)
    return Fraction(number) * scalar if scalar > 0 else Fraction(number) / -scalar


def scalar_of(power):
    """The scalar that stands for a power of ten."""
    return 10 ** power if power >= 0 else -(10 ** -power)


def at_power(values, power):
    """The values divided by a power of ten, or None unless all are whole and fit 32 signed bits."""
    numbers = [value / Fraction(10) ** power for value in values]
    if all(number.denominator == 1 and -(2 ** 31) <= number < 2 ** 31 for number in numbers):
        return [int(number) for number in numbers]
    return None


@lru_cache(maxsize=1 << 16)
def smallest(scalar, numbers):
    """The scalar and the numbers at the smallest power, for those of a group under an allowed scalar."""
    values = [scaled(number, scalar) for number in numbers]
    power = min(power for power in POWERS if at_power(values, power) is not None)
    return scalar_of(power), tuple(at_power(values, power))


# ------------------------------------------------------------- the record


def card_text(reel):
    return reel[:CARDS].replace(b"\x00", b"\x40")


def filled(reel, start, byte_number):
    """The number in a trace field, with the reel's N and interval for a 0 in 115 and 117."""
    number = trace_number(reel, start, byte_number)
    if number == 0 and byte_number == TRACE_COUNT:
        return binary_number(reel, COUNT)
    if number == 0 and byte_number == TRACE_INTERVAL:
        return binary_number(reel, INTERVAL)
    return number


@lru_cache(maxsize=1 << 16)
def pair_of_word(code, word):
    """The six bytes of a sample: the power of two is counted out of V."""
    v = v_of_word(code, word)
    if v == 0:
        return pair_bytes(0, 0)
    twos = (v & -v).bit_length() - 1
    return pair_bytes(twos - 280, v >> twos)


def is_normal(word):
    """Whether an IBM word is normal: for zero 00000000, else the first digit of F isn't 0, unless C is 0."""
    c, f = word[0] % 128, int.from_bytes(word[1:4], "big")
    if f == 0:
        return word == bytes(4)
    return f // 16 ** 5 != 0 or c == 0


def count_not_normal(reel, starts):
    """How many words of the traces that start at these places are not normal; 0 for other codes than 1."""
    if binary_number(reel, CODE) != 1:
        return 0
    places = (place for start in starts for place in words(reel, start))
    return sum(1 for place in places if not is_normal(reel[place : place + 4]))


def tagged(tag, content):
    return bytes([tag]) + len(content).to_bytes(2, "big") + content


def number_bytes(number, width):
    return number.to_bytes(width, "big", signed=True)


def trace_numbers(reel, start):
    """The numbers of a trace header as the record holds them, by byte number."""
    held = {b: filled(reel, start, b) for b in TRACE_FIELDS}
    for field, group in GROUPS.items():
        held[field], numbers = smallest(held[field], tuple(held[b] for b in group))
        held.update(zip(group, numbers))
    return held


def record_of(reel):
    """The record of a reel without a cause of 1 to 9, 18 or 19."""
    return record_with(reel, card_text(reel), trace_starts(reel))


def record_with(reel, cards, starts):
    """The record of a reel with this card text and with traces that start at these places."""
    code = binary_number(reel, CODE)
    size = sample_size(code)
    fields = [tagged(0x01, cards)]
    fields.append(tagged(0x02, b"".join(
        number_bytes(0 if b == CODE else binary_number(reel, b), width)
        for b, width in BINARY_FIELDS.items()
    )))
    for start in starts:
        held = trace_numbers(reel, start)
        fields.append(tagged(0x03, b"".join(
            number_bytes(held[b], width) for b, width in TRACE_FIELDS.items()
        )))
        places = words(reel, start)
        while places:  # 6,000 samples a field, the last with what remains
            places, some = places[MOST_IN_FIELD:], places[:MOST_IN_FIELD]
            fields.append(tagged(0x04, b"".join(
                pair_of_word(code, reel[place : place + size]) for place in some
            )))
    fields.append(tagged(0x05, len(starts).to_bytes(4, "big")))
    return b"".join(fields)


# -------------------------------------------------------------- the calls


def read_reel(reel, room):
    """What is said of the reel when the output has that much room; its record, or None."""
    cause = first_cause(reel)
    if cause:
        return cause, None
    return read_with(reel, room, card_text(reel), trace_starts(reel))


def read_with(reel, room, cards, starts):
    """The same of a reel without a cause before 10, with this card text and traces from these places on."""
    t, n = len(starts), binary_number(reel, COUNT)
    length = record_length(t, n)
    if room < length:
        return ("refused", 10, length), None
    record = record_with(reel, cards, starts)
    assert len(record) == length
    return ("taken", t, n, length, count_not_normal(reel, starts)), record


def read_into(reel, output, read=read_reel):
    """What is said of the reel, and the output's bytes after the call."""
    said, record = read(reel, len(output))
    if record is None:
        return said, output
    return said, record + output[len(record) :]


def look_up(reel, trace, byte_number):
    """Trace 0 is the binary header, 1 the first trace."""
    cause = first_cause(reel)
    if cause:
        return cause
    starts = trace_starts(reel)
    if trace > len(starts):
        return "refused", 15, 0
    if byte_number not in (BINARY_FIELDS if trace == 0 else TRACE_FIELDS):
        return "refused", 16, 0
    if trace == 0:
        return "found", binary_number(reel, byte_number)
    return "found", filled(reel, starts[trace - 1], byte_number)


# ------------------------------------------------------------ the program

MOST_INPUT = 65536
BUFFER = 65536


def program_line(data):
    """The line that the program prints for its standard input."""
    if len(data) > MOST_INPUT:
        return b"too long\n"
    said, _ = read_reel(data, BUFFER)
    return " ".join(str(item) for item in said).encode("ascii") + b"\n"


# ------------------------------------------------------- what a reel means

# The trace fields whose bare numbers count: not the scalars, nor what they act on.
UNSCALED = [b for b in TRACE_FIELDS if b not in GROUPS and not any(b in group for group in GROUPS.values())]


def meaning(reel):
    """Card text, header numbers, T and sample values of a reel without a cause of 1 to 9, 18 or 19."""
    return meaning_with(reel, card_text(reel), trace_starts(reel))


def meaning_with(reel, cards, starts):
    """The same of a reel with this card text and with traces that start at these places."""
    code = binary_number(reel, CODE)
    size = sample_size(code)
    return (
        cards,
        [binary_number(reel, b) for b in BINARY_FIELDS if b != CODE],
        [[filled(reel, start, b) for b in UNSCALED] for start in starts],
        [[scaled(trace_number(reel, start, b), trace_number(reel, start, field))
          for field, group in GROUPS.items() for b in group] for start in starts],
        len(starts),
        [[v_of_word(code, reel[p : p + size]) for p in words(reel, start)] for start in starts],
    )


# ---------------------------------------------------------- making reels


def put(header, place, width, number):
    """Puts a number, signed or not, into a header that is a bytearray."""
    header[place : place + width] = (number % 256 ** width).to_bytes(width, "big")


def binary_header(fields, rest=None):
    """400 bytes: numbers by byte number; other bytes from rest, or 00."""
    header = bytearray(rest or bytes(400))
    for byte_number, number in fields.items():
        put(header, byte_number - 3201, BINARY_FIELDS[byte_number], number)
    return bytes(header)


def trace_header(fields, rest=None):
    """240 bytes: numbers by byte number; other bytes from rest, or 00."""
    header = bytearray(rest or bytes(TRACE_HEADER))
    for byte_number, number in fields.items():
        put(header, byte_number - 1, TRACE_FIELDS[byte_number], number)
    return bytes(header)


def make_trace(samples, fields=None, rest=None):
    """A trace of samples that are already bytes."""
    return trace_header(fields or {}, rest) + b"".join(samples)


def make_reel(interval, n, code, traces=(), cards=b"\x40" * CARDS, fields=None, rest=None):
    """A reel of traces that are already bytes; further binary fields by byte number."""
    assert len(cards) == CARDS
    numbers = {**(fields or {}), INTERVAL: interval, COUNT: n, CODE: code}
    return cards + binary_header(numbers, rest) + b"".join(traces)


def ibm(s, c, f):
    return (s * 2 ** 31 + c * 2 ** 24 + f).to_bytes(4, "big")


def whole32(number):
    return number.to_bytes(4, "big", signed=True)


def whole16(number):
    return number.to_bytes(2, "big", signed=True)


def gain(g, d, first=0x00):
    return bytes([first, g]) + d.to_bytes(2, "big", signed=True)


def ieee(s, exponent, f):
    return (s * 2 ** 31 + exponent * 2 ** 23 + f).to_bytes(4, "big")


def whole8(number):
    return number.to_bytes(1, "big", signed=True)


def some_bytes(rnd, count):
    """Random bytes, the same under every Python."""
    return rnd.getrandbits(8 * count).to_bytes(count, "big") if count else b""


def some_sample(rnd, code):
    """A random sample that its code takes."""
    if code == 4:
        return b"\x00" + some_bytes(rnd, 3)
    if code == 5:  # now and then a subnormal number
        exponent = rnd.getrandbits(16) % 255 if rnd.getrandbits(3) else 0
        return ieee(rnd.getrandbits(1), exponent, rnd.getrandbits(23))
    return some_bytes(rnd, sample_size(code))


def some_number(rnd):
    """A random number of 32 bits: of any size, or at the edge of what takes some zeros."""
    if rnd.getrandbits(2) == 0:
        size = (2 ** 31 - 1) // 10 ** (rnd.getrandbits(16) % 10) + rnd.getrandbits(1)
    else:
        size = rnd.getrandbits(31) >> rnd.getrandbits(5)
    return -size if rnd.getrandbits(1) else min(size, 2 ** 31 - 1)


def some_groups(rnd):
    """Elevations and coordinates of a reel by byte number, with their scalars."""
    made = {}
    for field, group in GROUPS.items():
        made[field] = SCALARS[rnd.getrandbits(16) % len(SCALARS)]
        shift = rnd.getrandbits(5)
        for b in group:
            made[b] = some_number(rnd) if shift < 16 else rnd.getrandbits(31) >> shift
    return made


def example():
    """Document 01's own reel."""
    return make_reel(2000, 2, 1, [make_trace([bytes.fromhex("41100000"), bytes.fromhex("C276A000")])])


# ------------------------------------------------------------- self-check

# N, the fields of a trace, and the length of a record of one trace.
LONG_LENGTHS = (
    (1, 1, 3465), (5999, 1, 39453), (6000, 1, 39459), (6001, 2, 39468), (8000, 2, 51462), (8001, 2, 51468),
    (12000, 2, 75462), (12001, 3, 75471), (18000, 3, 111465), (18001, 4, 111474), (24000, 4, 147468),
    (24001, 5, 147477), (30000, 5, 183471), (30001, 6, 183480), (32767, 6, 200076),
)

# N, and the tags and lengths of a trace's samples, each by its distance from the trace's tag 03. 8CA0 is 36,000.
LONG_FIELDS = {
    5999: {183: "048C9A"},
    6000: {183: "048CA0"},
    6001: {183: "048CA0", 36186: "040006"},
    8000: {183: "048CA0", 36186: "042EE0"},
    8001: {183: "048CA0", 36186: "042EE6"},
    12000: {183: "048CA0", 36186: "048CA0"},
    12001: {183: "048CA0", 36186: "048CA0", 72189: "040006"},
    32767: {183: "048CA0", 36186: "048CA0", 72189: "048CA0", 108192: "048CA0", 144195: "048CA0", 180198: "0440DA"},
}


def random_reel(rnd, code, n, t, interval=2000):
    """A good reel with all other bytes random, unassigned ones too; 115 and 117 now 0, now not.

    Elevations and coordinates are of any size, their scalars any that are allowed.
    """
    traces = [
        make_trace(
            [some_sample(rnd, code) for _ in range(n)],
            {**some_groups(rnd),
             TRACE_COUNT: n * rnd.getrandbits(1), TRACE_INTERVAL: interval * rnd.getrandbits(1)},
            some_bytes(rnd, TRACE_HEADER),
        )
        for _ in range(t)
    ]
    return make_reel(interval, n, code, traces, some_bytes(rnd, CARDS), rest=some_bytes(rnd, 400))


def check_layout():
    assert len(BINARY_FIELDS) == 27 and sum(BINARY_FIELDS.values()) == 60
    assert len(TRACE_FIELDS) == 71 and sum(TRACE_FIELDS.values()) == 180
    # the assigned fields stand side by side, from 3201 to 3260 and from 1 to 180
    for fields, byte_number in ((BINARY_FIELDS, 3201), (TRACE_FIELDS, 1)):
        for b, width in fields.items():
            assert b == byte_number
            byte_number += width
    for n, fields, length in LONG_LENGTHS:
        assert count_of_fields(n) == fields and record_length(1, n) == length
        assert record_length(0, n) == 3273 and record_length(3, n) == 3 * length - 6546
    assert record_length(100000, 32767) == 19680303273


def check_example():
    reel = example()
    assert len(reel) == 3848
    assert program_line(reel) == b"taken 1 2 3471 0\n"
    # the record by hand: 0C80 = 3200, 3C = 60, B4 = 180, 0C = 12, 07D0 = 2000
    record = (
        bytes.fromhex("010C80") + b"\x40" * 3200
        + bytes.fromhex("02003C") + bytes(16)
        + bytes.fromhex("07D0 0000 0002 0000 0000") + bytes(34)  # 3217 to 3226; the code is 0
        + bytes.fromhex("0300B4") + bytes(68)
        + bytes.fromhex("D8F0 D8F0") + bytes(42)  # 69 and 71 are -10000, the smallest power's
        + bytes.fromhex("0002 07D0") + bytes(62)  # 115 and 117 filled in
        + bytes.fromhex("04000C 0000 00000001 FFFD FFFFFC4B")
        + bytes.fromhex("050004 00000001")
    )
    assert len(record) == 3471
    assert read_reel(reel, 3471) == (("taken", 1, 2, 3471, 0), record)
    assert read_reel(reel, 70000) == (("taken", 1, 2, 3471, 0), record)
    assert read_reel(reel, 3470) == (("refused", 10, 3471), None)
    assert read_reel(reel, 0) == (("refused", 10, 3471), None)
    assert read_into(reel, b"\xA5" * 3480) == (("taken", 1, 2, 3471, 0), record + b"\xA5" * 9)
    assert read_into(reel, b"\xA5" * 3470) == (("refused", 10, 3471), b"\xA5" * 3470)


def check_records(rnd):
    for code in CODES:
        for t in (0, 1, 2, 5):
            for n in (1, 2, 7, 100):
                reel = random_reel(rnd, code, n, t)
                said, record = read_reel(reel, 1 << 20)
                places = [place for start in trace_starts(reel) for place in words(reel, start)]
                count = sum(not_normal(code, reel[place : place + 4]) for place in places)
                assert said == ("taken", t, n, 3273 + t * (186 + 6 * n), count)
                assert record[:3203] == b"\x01\x0C\x80" + bytes(b or 0x40 for b in reel[:3200])
                assert record[3206 + 24 : 3206 + 26] == b"\x00\x00"
                assert record[-4:] == t.to_bytes(4, "big")
                for i in range(t):  # filled in for every trace; all else but 41 to 88 as on the reel
                    on_reel = HEADERS + i * trace_size(code, n)
                    at = 3266 + i * (186 + 6 * n) + 3
                    assert record[at - 3 : at] == bytes.fromhex("0300B4")
                    assert record[at + 114 : at + 118] == number_bytes(n, 2) + b"\x07\xD0"
                    assert record[at : at + 40] == reel[on_reel : on_reel + 40]
                    assert record[at + 88 : at + 114] == reel[on_reel + 88 : on_reel + 114]
                    assert record[at + 118 : at + 180] == reel[on_reel + 118 : on_reel + 180]
                    assert record[at + 180] == 4 and signed(record[at + 181 : at + 183]) == 6 * n


def check_pairs(rnd):
    """The pair by counting against the pair by trying every exponent."""
    def check(code, word):
        assert pair_of_word(code, word) == pair_bytes(*pair_of_v(v_of_word(code, word)))

    for code in CODES:
        for _ in range(300):
            check(code, some_sample(rnd, code))
    for word in ("00000000", "80000000", "00000001", "807FFFFF", "00800000", "3F800000", "7F7FFFFF"):
        check(5, bytes.fromhex(word))
    for number in range(-128, 128):
        check(8, whole8(number))
    for word in ("80000000", "7F000000", "00000001", "7F800000", "7FFFFFFF", "42010000"):
        check(1, bytes.fromhex(word))
    for number in (0, 1, -1, 2, -2, 2 ** 31 - 1, -(2 ** 31)):
        check(2, whole32(number))
    for number in (0, 1, -1, 2, -2, 2 ** 15 - 1, -(2 ** 15)):
        check(3, whole16(number))
        for g in (0, 1, 15, 16, 255):
            check(4, gain(g, number))


def check_not_normal(rnd):
    """CR 3's statements: which words are not normal, and their count."""
    assert not any(map(is_normal, NOT_NORMAL)) and all(map(is_normal, NORMAL))
    for _ in range(3000):  # against the search for the normal word of the value
        word = ibm(rnd.getrandbits(1), rnd.getrandbits(7), rnd.getrandbits(24) >> rnd.getrandbits(16) % 25)
        assert is_normal(word) == (not_normal(1, word) == 0), word.hex()

    def reel(code, *traces):
        """The same bytes of samples under any code."""
        return make_reel(2000, len(traces[0]) // sample_size(code), code, [make_trace([trace]) for trace in traces])

    # in the first trace, in the last, in all; at the first sample, at the last, at all
    a, b = bytes.fromhex("42010000"), bytes.fromhex("41100000")
    for traces, count in (
        ((b + b + b, b + b + b, b + b + b), 0), ((a + b + b, b + b + b, b + b + b), 1),
        ((b + b + a, b + b + b, b + b + b), 1), ((b + b + b, b + a + b, b + b + b), 1),
        ((b + b + b, b + b + b, a + b + b), 1), ((b + b + b, b + b + b, b + b + a), 1),
        ((b + a + b, b + b + b, a + b + a), 3), ((a + b + a, a + b + a, a + b + a), 6),
        ((a + a + a, b + b + b, b + b + b), 3), ((a + a + a, a + a + a, a + a + a), 9),
    ):
        assert read_reel(reel(1, *traces), BUFFER)[0] == ("taken", 3, 3, 3885, count)
        assert read_reel(reel(2, *traces), BUFFER)[0] == ("taken", 3, 3, 3885, 0)
        assert read_reel(reel(3, *traces), BUFFER)[0] == ("taken", 3, 6, 3939, 0)
        assert read_reel(reel(4, *traces), BUFFER)[0] == ("refused", 9, 3840)
        assert read_reel(reel(5, *traces), BUFFER)[0] == ("taken", 3, 3, 3885, 0)
        assert read_reel(reel(8, *traces), BUFFER)[0] == ("taken", 3, 12, 4047, 0)
        assert read_reel(reel(1, *traces), 3884)[0] == ("refused", 10, 3885)
        assert read_reel(reel(1, *traces) + b"\x00", BUFFER)[0] == ("refused", 5, 3600 + 3 * 252)
    # every kind of word
    assert read_reel(reel(1, b"".join(NOT_NORMAL), b"".join(NOT_NORMAL)), BUFFER)[0] == ("taken", 2, 27, 3969, 54)
    assert read_reel(reel(1, b"".join(NORMAL)), BUFFER)[0] == ("taken", 1, 21, 3585, 0)
    assert program_line(reel(1, *NOT_NORMAL, *NORMAL)) == b"taken 48 1 12489 27\n"


def check_meaning(rnd):
    """Equal records are those of reels that mean the same, and no others."""
    def same(a, b):
        equal = read_reel(a, 1 << 20)[1] == read_reel(b, 1 << 20)[1]
        assert equal == (meaning(a) == meaning(b))
        return equal

    # 1 and -3 under every code, with other unassigned bytes and other card blanks
    by_code = {
        1: [ibm(0, 65, 0x100000), ibm(1, 65, 0x300000)],
        2: [whole32(1), whole32(-3)],
        3: [whole16(1), whole16(-3)],
        4: [gain(1, 2), gain(0, -3)],
        5: [ieee(0, 127, 0), ieee(1, 128, 0x400000)],
        8: [whole8(1), whole8(-3)],
    }
    reels = [
        make_reel(2000, 2, code, [make_trace(samples, rest=bytes(180) + some_bytes(rnd, 60))] * 2,
                  cards=(b"\x00" if code % 2 else b"\x40") * CARDS)
        for code, samples in by_code.items()
    ]
    assert all(same(a, b) for a in reels for b in reels)
    # zeros of either sign
    zeros = [make_reel(2000, 1, 5, [make_trace([ieee(s, 0, 0)])]) for s in (0, 1)]
    assert same(*zeros) and same(zeros[1], make_reel(2000, 1, 8, [make_trace([whole8(0)])]))
    # one byte changed, wherever it stands
    for _ in range(400):
        before = reels[rnd.getrandbits(16) % len(reels)]
        after = bytearray(before)
        place = rnd.getrandbits(32) % len(after) if rnd.getrandbits(1) else (
            HEADERS - 400 + rnd.getrandbits(32) % (len(after) - HEADERS + 400))
        after[place] ^= 1 << rnd.getrandbits(3)
        if first_cause(bytes(after)) is None:
            same(before, bytes(after))


def check_scalars(rnd):
    """CR 2's statements: the scalar and the number of the record, by hand."""
    most, least = 2 ** 31 - 1, -(2 ** 31)

    def held(scalar, *numbers):
        return smallest(scalar, numbers)

    for scalar, number in (
        (-10000, 1000000), (-1000, 100000), (-100, 10000), (-10, 1000), (0, 100), (1, 100), (-1, 100),
        (10, 10), (100, 1),
    ):
        assert held(scalar, number, 0) == (-10000, (1000000, 0))
    for scalar in SCALARS:
        own = 1 if scalar in (0, -1) else scalar
        assert held(scalar, 0, 0, 0) == (-10000, (0, 0, 0))
        for number in (most, least, 214748365, -214748365):
            assert held(scalar, 0, number) == (own, (0, number))
    for sign in (1, -1):
        for scalar, number, held_scalar, held_number in (
            (1, 214748364, -10, 2147483640), (1, 21474836, -100, 2147483600), (1, 21474837, -10, 214748370),
            (1, 214748, -10000, 2147480000), (1, 214749, -1000, 214749000),
            (-1000, 214748364, -10000, 2147483640), (-10000, 214748364, -10000, 214748364),
            (10000, 21, -10000, 2100000000), (10000, 22, -1000, 220000000),
            (10000, 214748, 1, 2147480000), (10000, 214749, 10, 214749000),
        ):
            assert held(scalar, sign * number) == (held_scalar, (sign * held_number,))
    assert held(1, 1, -1, 214748364, 20) == (-10, (10, -10, 2147483640, 200))
    assert held(100, 100, 2000000, -2147483, 7) == (-10, (100000, 2000000000, -2147483000, 7000))

    # in a reel: each field of a group is scaled, none beside them, and each trace by itself
    def reel(*headers):
        return make_reel(2000, 1, 3, [make_trace([whole16(5)], header) for header in headers])

    every = {b: 3 for b in TRACE_FIELDS if b not in (69, 71, 115, 117)}
    record = record_of(reel({**every, 69: 10, 71: -100}, {41: most, 85: least, 69: 100, 71: -1}))
    numbers = {b: signed(record[3268 + b : 3268 + b + width]) for b, width in TRACE_FIELDS.items()}
    for b in TRACE_FIELDS:
        expected = {69: -10000, 71: -10000, 115: 1, 117: 2000}.get(
            b, 300000 if b in GROUPS[69] else 300 if b in GROUPS[71] else 3)
        assert numbers[b] == expected, b
    second = 3268 + 192
    assert signed(record[second + 69 : second + 71]) == 100 and signed(record[second + 41 : second + 45]) == most
    assert signed(record[second + 71 : second + 73]) == 1 and signed(record[second + 85 : second + 89]) == least

    # number 18: the place, after 8 and before 9, 69 first; look-up too, and it gives bare numbers
    def said(reel):
        return read_reel(reel, BUFFER)[0]

    for scalar in (2, 7, 9, 11, -2, -9, 99, 1001, 9999, -9999, 32767, -32768, 10001, 4135):
        assert said(reel({}, {69: scalar})) == ("refused", 18, 3600 + 242 + 68)
        assert said(reel({71: scalar})) == ("refused", 18, 3600 + 70) == look_up(reel({71: scalar}), 9, 2)
    made = bytearray(reel({}))
    for field in GROUPS:
        taken = []
        for scalar in range(-32768, 32768):
            put(made, 3600 + field - 1, 2, scalar)
            if first_cause(made) is None:
                taken.append(scalar)
        assert taken == sorted(SCALARS)
        put(made, 3600 + field - 1, 2, 0)
    assert said(reel({69: 7, 71: 7, 117: 1})) == ("refused", 8, 3600 + 116)
    assert said(reel({69: 7, 71: 7})) == ("refused", 18, 3600 + 68)
    bad = make_reel(2000, 1, 4, [make_trace([gain(0, 1, 0x01)], {71: 7})])
    assert said(bad) == ("refused", 18, 3600 + 70)
    bad = make_reel(2000, 1, 5, [make_trace([NO_VALUES[0]], {71: 7})])
    assert said(bad) == ("refused", 18, 3600 + 70)
    for scalar in SCALARS:
        made = reel({41: -5, 69: scalar, 71: scalar, 85: 6})
        assert look_up(made, 1, 41) == ("found", -5) and look_up(made, 1, 85) == ("found", 6)
        assert look_up(made, 1, 69) == look_up(made, 1, 71) == ("found", scalar)

    # the same values spelled otherwise: equal meanings and equal records; another value: neither
    several = 0
    for _ in range(400):
        header = some_groups(rnd)
        records = set()
        for power in POWERS:
            other = dict(header)
            for field, group in GROUPS.items():
                numbers = at_power([scaled(header[b], header[field]) for b in group], power)
                if numbers is not None:
                    other.update(zip(group, numbers))
                    other[field] = scalar_of(power)
            several += other != header
            assert meaning(reel(other)) == meaning(reel(header))
            records.add(record_of(reel(other)))
        assert len(records) == 1
        b = 41 + 4 * (rnd.getrandbits(16) % 7)
        other = {**header, b: header[b] ^ 1 << rnd.getrandbits(4)}
        assert meaning(reel(other)) != meaning(reel(header)) and record_of(reel(other)) not in records
    assert several > 1000


def check_long(rnd):
    """Traces of several fields: where these stand, and the pairs in them; two traces, each with its own samples."""
    for n, tags in LONG_FIELDS.items():
        traces = [[whole8(rnd.getrandbits(8) - 128) for _ in range(n)] for _ in range(2)]
        reel = make_reel(2000, n, 8, [make_trace(trace) for trace in traces])
        length = record_length(2, n)
        assert read_reel(reel, length - 1) == (("refused", 10, length), None)
        said, record = read_reel(reel, length)
        assert said == ("taken", 2, n, length, 0) and record[-7:] == bytes.fromhex("050004 00000002")
        for i, trace in enumerate(traces):
            start = 3266 + i * (length - 3273) // 2
            assert record[start : start + 3] == bytes.fromhex("0300B4")
            ends = [*list(tags)[1:], (length - 3273) // 2]
            held = b""
            for (at, tag), end in zip(tags.items(), ends):
                assert record[start + at : start + at + 3] == bytes.fromhex(tag) and int(tag[2:], 16) == end - at - 3
                held += record[start + at + 3 : start + end]
            assert held == b"".join(pair_of_word(8, sample) for sample in trace)
        # the same samples under other codes, and one of another value in each field
        others = {2: whole32, 3: whole16}
        for code, put_whole in others.items():
            other = make_reel(2000, n, code, [make_trace(put_whole(signed(s)) for s in trace) for trace in traces])
            assert read_reel(other, length)[1] == record
        for k in {0, min(n, 6000) - 1, min(n - 1, 6000), n - 1}:
            other = bytearray(reel)
            other[3600 + 240 + n + 240 + k] ^= 1
            again = read_reel(bytes(other), length)[1]
            place = 3266 + (length - 3273) // 2 + 183 + 3 * (k // 6000 + 1) + 6 * k
            assert again != record and again[:place] == record[:place] and again[place + 6 :] == record[place + 6 :]
    # words that aren't normal, and words without a value, in every field
    places = (0, 5999, 6000, 11999, 12000, 17999, 18000, 23999, 24000, 29999, 30000, 32766)
    some = [NORMAL[5]] * 32767
    for turn, k in enumerate(places, 1):
        some[k] = NOT_NORMAL[turn]
        assert read_reel(make_reel(1, 32767, 1, [make_trace(some)]), 200076)[0] == ("taken", 1, 32767, 200076, turn)
    one = ieee(0, 127, 0)
    for k in places:
        for code, word, number in ((4, gain(0, 1, 0x01), 9), (5, NO_VALUES[0], 19)):
            good = gain(0, 1) if code == 4 else one
            reel = make_reel(1, 32767, code, [make_trace([good] * k + [word] * (32767 - k))])
            assert read_reel(reel, 0)[0] == ("refused", number, 3840 + 4 * k)


def check_causes():
    def said(reel):
        return read_reel(reel, BUFFER)[0]

    good = example()
    assert said(b"") == ("refused", 1, 0)
    assert said(good[:3599]) == ("refused", 1, 3599)
    assert said(bytes(3600)) == ("refused", 2, 3224)
    for code in range(0, 65536):
        if code not in CODES:
            assert said(bytes(3224) + code.to_bytes(2, "big") + bytes(374)) == ("refused", 2, 3224)
    assert said(make_reel(0, 0, 1)) == ("refused", 3, 3220)
    assert said(make_reel(0, 1, 1)) == ("refused", 4, 3216)
    assert said(make_reel(1, 1, 1)) == ("taken", 0, 1, 3273, 0)
    for n in (8000, 8001, 32766, 32767):
        assert said(make_reel(32767, n, 4)) == ("taken", 0, n, 3273, 0)
        assert said(make_reel(32768, n, 1)) == ("refused", 4, 3216)
    for n in range(32768, 65536):
        assert first_cause(make_reel(0, n, 1)) == ("refused", 3, 3220)
    assert said(good + b"\x00") == ("refused", 5, 3848)
    assert said(good[:-1]) == ("refused", 5, 3600)

    def trace(fields, *samples):
        return make_trace(samples, fields)

    fine = trace({}, gain(0, 1), gain(1, 2))
    assert said(make_reel(2000, 2, 4, [fine, trace({115: 3}, gain(0, 1), gain(1, 2))])) == (
        "refused", 7, 3600 + 248 + 114)
    assert said(make_reel(2000, 2, 4, [fine, trace({117: -1}, gain(0, 1), gain(1, 2))])) == (
        "refused", 8, 3600 + 248 + 116)
    assert said(make_reel(2000, 2, 4, [fine, trace({}, gain(0, 1), gain(1, 2, 0x80))])) == (
        "refused", 9, 3600 + 248 + 244)
    # a word without a value: its own place, after 7, 8 and 18, before 10; the first counts, and look-up refuses it too
    one = ieee(0, 127, 0)
    for word in NO_VALUES:
        for i in (1, 2):
            for k in (1, 2):
                made = [[one, one], [one, one]]
                made[i - 1][k - 1] = word
                for last in (one, word):
                    made[1][1] = last if (i, k) != (2, 2) else word
                    reel = make_reel(2000, 2, 5, [trace({}, *samples) for samples in made])
                    cause = "refused", 19, 3600 + (i - 1) * 248 + 240 + (k - 1) * 4
                    assert said(reel) == cause == read_reel(reel, 0)[0] == look_up(reel, 0, 3217) == look_up(reel, 9, 2)
        for fields, cause in (({115: 3}, ("refused", 7, 3714)), ({117: 1}, ("refused", 8, 3716)),
                              ({69: 7}, ("refused", 18, 3668)), ({71: 7}, ("refused", 18, 3670))):
            assert said(make_reel(2000, 2, 5, [trace(fields, word, one)])) == cause
        assert said(make_reel(2000, 2, 5, [trace({}, word, one)]) + b"\x00") == ("refused", 5, 3848)
        assert said(make_reel(2000, 2, 5, [trace({}, one, word), trace({115: 3}, one, one)])) == ("refused", 19, 3844)
        assert said(make_reel(2000, 2, 5, [trace({115: 3}, one, one), trace({}, one, word)])) == ("refused", 7, 3714)
        assert said(make_reel(2000, 4, 8, [trace({}, word)])) == ("taken", 1, 4, 3483, 0)
    # a trace of N one-byte samples has 240 + N bytes
    bytes_of = [trace({}, whole8(1), whole8(-128), whole8(127))] * 2
    reel = make_reel(2000, 3, 8, bytes_of)
    assert len(reel) == 3600 + 2 * 243 and said(reel) == ("taken", 2, 3, 3681, 0)
    assert said(reel[:-1]) == ("refused", 5, 3843) and said(reel + b"\x00") == ("refused", 5, 4086)
    pairs = pair_bytes(0, 1) + pair_bytes(7, -1) + pair_bytes(0, 127)
    assert record_of(reel)[-7 - 18 : -7] == pairs
    # trace by trace
    assert said(make_reel(2000, 2, 4, [
        trace({}, gain(0, 1), gain(0, 1, 0x01)), trace({115: 3}, gain(0, 1), gain(0, 1))])) == (
        "refused", 9, 3600 + 244)
    # traces beyond 100,000, and the length of a record that nobody has room for
    many = make_reel(1, 1, 3, [make_trace([whole16(0)]) * 100000])
    assert said(many) == ("refused", 10, 3273 + 100000 * 192)
    assert said(many + bytes(242)) == ("refused", 6, 3600 + 100000 * 242)
    assert said(many + bytes(243)) == ("refused", 5, 3600 + 100001 * 242)


def check_look_up():
    reel = make_reel(
        2000, 2, 3,
        [make_trace([whole16(1), whole16(2)], {1: -5, 115: 2, 117: 0, 179: -32768, 85: 2 ** 31 - 1}),
         make_trace([whole16(1), whole16(2)], {25: 7, 115: 0, 117: 2000})],
        fields={3201: -1, 3259: 65535, 3213: 12},
    )
    for trace, byte_number, number in (
        (0, 3201, -1), (0, 3213, 12), (0, 3217, 2000), (0, 3221, 2), (0, 3225, 3), (0, 3259, -1),
        (1, 1, -5), (1, 85, 2 ** 31 - 1), (1, 115, 2), (1, 117, 2000), (1, 179, -32768),
        (2, 1, 0), (2, 25, 7), (2, 115, 2), (2, 117, 2000),
    ):
        assert look_up(reel, trace, byte_number) == ("found", number), (trace, byte_number)
    assert look_up(reel, 3, 1) == ("refused", 15, 0)
    assert look_up(reel, 3, 0) == ("refused", 15, 0)
    for trace, byte_number in ((0, 1), (0, 3200), (0, 3202), (0, 3261), (1, 0), (1, 2), (1, 116),
                               (1, 181), (1, 3201), (2, 3225)):
        assert look_up(reel, trace, byte_number) == ("refused", 16, 0)
    assert look_up(reel[:-1], 9, 0) == ("refused", 5, 3844)
    assert look_up(b"", 0, 3201) == ("refused", 1, 0)
    assert look_up(make_reel(1, 1, 1), 1, 1) == ("refused", 15, 0)
    # a record of any length: look-up has no output
    many = make_reel(1, 8000, 3, [make_trace([bytes(16000)])] * 3)
    assert read_reel(many, BUFFER)[0] == ("refused", 10, 147840)
    assert look_up(many, 3, 115) == ("found", 8000)
    many = make_reel(1, 32767, 8, [make_trace([bytes(32767)], {117: 1})] * 2)
    assert read_reel(many, BUFFER)[0] == ("refused", 10, 396879)
    assert look_up(many, 0, 3221) == look_up(many, 2, 115) == ("found", 32767)
    assert look_up(many, 3, 1) == ("refused", 15, 0)


def check_program_line():
    assert program_line(b"") == b"refused 1 0\n"
    assert program_line(make_reel(2000, 2, 1)) == b"taken 0 2 3273 0\n"
    assert program_line(bytes(65536)) == b"refused 2 3224\n"
    assert program_line(bytes(65537)) == b"too long\n"
    assert program_line(example() + bytes(65536)) == b"too long\n"
    assert program_line(make_reel(1, 3428, 3, [bytes(240 + 6856)] * 3)) == b"taken 3 3428 65535 0\n"
    assert program_line(make_reel(1, 5158, 3, [bytes(240 + 10316)] * 2)) == b"refused 10 65541\n"
    # long traces: the longest record of one trace that goes in, the next, and the longest trace
    assert program_line(make_reel(1, 10345, 8, [bytes(10585)])) == b"taken 1 10345 65532 0\n"
    assert program_line(make_reel(1, 10346, 8, [bytes(10586)])) == b"refused 10 65538\n"
    assert program_line(make_reel(1, 32767, 8, [bytes(33007)])) == b"refused 10 200076\n"
    assert program_line(make_reel(1, 32768, 8, [bytes(33008)])) == b"refused 3 3220\n"


def main():
    if sys.argv[1:] == ["--line"]:
        sys.stdout.buffer.write(program_line(sys.stdin.buffer.read()))
        return
    check_layout()
    check_example()
    check_records(random.Random(1975))
    check_pairs(random.Random(1976))
    check_meaning(random.Random(1977))
    check_scalars(random.Random(1978))
    check_not_normal(random.Random(1979))
    check_long(random.Random(1980))
    check_causes()
    check_look_up()
    check_program_line()
    print("reels.py: the paper's statements hold")


if __name__ == "__main__":
    main()
