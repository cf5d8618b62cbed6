"""The order of records, worked out from document 02's CR 9 and CR 8 alone.

    python3 tools/vectors/order.py            checks this file on the paper's statements

The rules are written here as literally as possible, so that they share
nothing with the code they test. What is said of two records is a tuple:
    ("lesser",)                              the first is the lesser of the two
    ("equal",)                               they count as equal
    ("greater",)                             the second is the lesser
    ("refused", which, number, place)        which is 1 or 2, and the place is in that record
Records are judged by the rules of tools/vectors/records.py.
"""

import random
import sys
from collections import Counter
from fractions import Fraction
from pathlib import Path

sys.path.insert(0, str(Path(__file__).resolve().parent))
sys.dont_write_bytecode = True

from records import (  # noqa: E402
    RECORD_SCALARS, TAG, first_cause, in_new_form, make_record, place_of_binary, place_of_end, place_of_field, place_of_pair,
    place_of_trace, some_fields, some_long, some_traces, traces_of, with_bytes, write_reel,
)
from reels import (  # noqa: E402
    BINARY_FIELDS, CARDS, GROUPS, TRACE_FIELDS, meaning, number_bytes, some_bytes,
)
from samples import CODES, NORMAL, is_canonical, pair_bytes, pair_of_v, signed, v_of_pair, v_of_word, word_of_v  # noqa: E402

LESSER, EQUAL, GREATER = ("lesser",), ("equal",), ("greater",)

# --------------------------------------------------------------- the order


def cards_of(record):
    """The card bytes, as numbers from 0 to 255."""
    return list(record[TAG : TAG + CARDS])


def binary_numbers(record):
    """The 27 numbers of tag 02, signed, in the record's order."""
    places = {b: place_of_binary(b) for b in BINARY_FIELDS}
    return [signed(record[places[b] : places[b] + width]) for b, width in BINARY_FIELDS.items()]


def trace_numbers(header):
    """The 71 numbers of a tag 03, signed and bare, 69 and 71 too, in the record's order."""
    return [signed(header[b - 1 : b - 1 + width]) for b, width in TRACE_FIELDS.items()]


def v_of(pair):
    """V of a sample, a whole number: its exact value is V / 16^70."""
    return v_of_pair(signed(pair[0:2]), signed(pair[2:6]))


def first_difference(some, others):
    """What is said by the first items that differ, of as many as both have, or None."""
    for a, b in zip(some, others):
        if a != b:
            return LESSER if a < b else GREATER
    return None


def order(first, second):
    """What is said of two valid records: cards, binary header, then trace by trace its header and its samples."""
    said = first_difference(cards_of(first), cards_of(second)) or first_difference(
        binary_numbers(first), binary_numbers(second))
    if said:
        return said
    some, others = list(traces_of(first)), list(traces_of(second))
    for (header, places), (other_header, other_places) in zip(some, others):
        said = first_difference(trace_numbers(header), trace_numbers(other_header)) or first_difference(
            (v_of(first[p : p + 6]) for p in places), (v_of(second[p : p + 6]) for p in other_places))
        if said:
            return said
    if len(some) != len(others):
        return LESSER if len(some) < len(others) else GREATER
    return EQUAL


def compare(first, second):
    """What is said of any bytes: the first record's 12 and 13, then the second's, then their order."""
    for which, record in ((1, first), (2, second)):
        cause = first_cause(record)
        if cause:
            _, number, place = cause
            return "refused", which, number, place
    return order(first, second)


def turned(said):
    """What is said of the two the other way round, where both are valid."""
    return {LESSER: GREATER, EQUAL: EQUAL, GREATER: LESSER}[said]


# ------------------------------------------------------------- self-check


def meaning_of(record):
    """The parts of a meaning, as nested lists: Python's own order of lists is the paper's."""
    return [
        list(record[3:3203]), binary_numbers(record),
        [[trace_numbers(header), [v_of(record[p : p + 6]) for p in places]] for header, places in traces_of(record)],
    ]


def agrees(first, second):
    """What is said of two valid records; both ways round, and by Python's order of lists."""
    said = compare(first, second)
    a, b = meaning_of(first), meaning_of(second)
    assert said == (LESSER if a < b else GREATER if a > b else EQUAL)
    assert compare(second, first) == turned(said)
    return said


ONE, LOW = pair_bytes(0, 1), pair_bytes(-3, -949)


def check_layout():
    """27 and 71 numbers, side by side in the record's order."""
    record = make_record(2000, 2, [[ONE, LOW]])
    assert len(binary_numbers(record)) == 27 and len(trace_numbers(bytes(180))) == 71
    header = next(traces_of(record))[0]
    assert trace_numbers(header)[19:21] == [-10000, -10000] and binary_numbers(record)[5] == 2000
    assert list(TRACE_FIELDS) == sorted(TRACE_FIELDS) and list(BINARY_FIELDS) == sorted(BINARY_FIELDS)
    assert sum(TRACE_FIELDS.values()) == 180 and sum(BINARY_FIELDS.values()) == 60


def check_items():
    """Each kind of item by itself, and each before all later ones."""
    base = make_record(2000, 2, [[ONE, LOW], [ONE, LOW]])
    # a place, what is more there, what is less there
    items = [
        (3, b"\xFF", b"\x3F"), (3202, b"\x80", b"\x01"),
        (place_of_binary(3201), number_bytes(1, 4), number_bytes(-1, 4)),
        (place_of_binary(3259), number_bytes(1, 2), number_bytes(-1, 2)),
        (place_of_field(1, 2, 1), number_bytes(2 ** 31 - 1, 4), number_bytes(-(2 ** 31), 4)),
        (place_of_field(1, 2, 41), number_bytes(1, 4), number_bytes(-1, 4)),
        (place_of_field(1, 2, 179), number_bytes(32767, 2), number_bytes(-32768, 2)),
        (place_of_pair(1, 2, 1), pair_bytes(-1, 3), pair_bytes(-1, 1)),
        (place_of_pair(1, 2, 2), pair_bytes(0, 0), pair_bytes(-3, -951)),
        (place_of_field(2, 2, 5), number_bytes(1, 4), number_bytes(-1, 4)),
        (place_of_pair(2, 2, 1), pair_bytes(251, 1), pair_bytes(-280, 1)),
        (place_of_pair(2, 2, 2), pair_bytes(-280, -1), pair_bytes(251, -1)),
    ]
    for k, (place, more, less) in enumerate(items):
        above, below = with_bytes(base, place, more), with_bytes(base, place, less)
        assert agrees(base, above) == agrees(below, base) == agrees(below, above) == LESSER
        for later, more_there, less_there in items[k + 1 :]:
            above, below = with_bytes(above, later, less_there), with_bytes(below, later, more_there)
            assert agrees(base, above) == agrees(below, base) == agrees(below, above) == LESSER


def check_traces():
    """The record whose traces end first is the lesser, where they agree."""
    records = [make_record(2000, 2, [[ONE, LOW]] * t) for t in (0, 1, 2, 3)]
    for i, first in enumerate(records):
        for j, second in enumerate(records):
            assert agrees(first, second) == (LESSER if i < j else GREATER if i > j else EQUAL)
    less = with_bytes(records[2], place_of_pair(1, 2, 2), pair_bytes(-3, -951))
    assert agrees(less, records[1]) == LESSER
    more = with_bytes(records[1], place_of_field(1, 2, 29), b"\x00\x01")
    assert agrees(records[3], more) == LESSER
    # N is a header number, whatever the traces are
    assert agrees(make_record(2000, 1, [[ONE]] * 3), records[0]) == LESSER


def check_scalars():
    """69 and 71 are numbers like others; elevations and coordinates count bare."""
    def record(field, scalar, number):
        return make_record(9, 1, [[ONE]], trace_fields={1: {field: scalar, GROUPS[field][-1]: number}})

    for field in GROUPS:
        for a in RECORD_SCALARS:
            for b in RECORD_SCALARS:
                said = agrees(record(field, a, 2 ** 31 - 1), record(field, b, 2 ** 31 - 1))
                assert said == (LESSER if a < b else GREATER if a > b else EQUAL)
    assert agrees(record(69, 10000, 214748365), record(69, -10000, 214748366)) == LESSER
    assert agrees(record(71, -10000, 214748366), record(71, 10000, 214748365)) == LESSER


def check_values(rnd):
    """m × 2^e as fractions, and normal words read as sign and magnitude where both fit code 1: one order."""
    pairs = [(0, 0)]
    for e in (-280, -279, -3, -1, 0, 1, 31, 250, 251):
        pairs += [(e, s * m) for m in (1, 3, 5, 949, 2 ** 24 - 1, 2 ** 24 + 1, 2 ** 31 - 1) for s in (1, -1)]
    pairs += [pair_of_v(v_of_word(1, word)) for word in NORMAL]
    pairs += [(rnd.getrandbits(9) - 261, rnd.getrandbits(31) - 2 ** 30 | 1) for _ in range(25)]
    assert all(is_canonical(e, m) for e, m in pairs)
    base = make_record(9, 1, [[ONE]])
    records = [with_bytes(base, place_of_pair(1, 1, 1), pair_bytes(e, m)) for e, m in pairs]
    values = [Fraction(m) * Fraction(2) ** e for e, m in pairs]
    words = [word_of_v(1, v_of_pair(e, m)) for e, m in pairs]
    fit = 0
    for i, first in enumerate(records):
        for j in range(i % 4, len(records), 4):
            said = order(first, records[j])
            a, b = values[i], values[j]
            assert said == (LESSER if a < b else GREATER if a > b else EQUAL)
            if None not in (words[i], words[j]):
                a, b = sign_and_magnitude(words[i]), sign_and_magnitude(words[j])
                assert said == (LESSER if a < b else GREATER if a > b else EQUAL)
                fit += 1
    assert fit > 1000, fit


def sign_and_magnitude(word):
    bits = int.from_bytes(word, "big")
    return (-1 if bits >> 31 else 1) * (bits % 2 ** 31)


def near(rnd, record, t, n):
    """A record with some bytes changed, or with fewer traces, or the same."""
    for _ in range(rnd.getrandbits(2)):
        kind = rnd.getrandbits(2)
        if kind == 0:
            record = with_bytes(record, 3 + rnd.getrandbits(16) % 3200, bytes([1 + rnd.getrandbits(7)]))
        elif kind == 1:
            record = with_bytes(record, 3206 + rnd.getrandbits(3), some_bytes(rnd, 1))
        elif t > 0 and kind == 2:
            b = (1, 5, 29, 89, 113, 119, 179)[rnd.getrandbits(8) % 7]
            record = with_bytes(record, place_of_field(1 + rnd.getrandbits(8) % t, n, b), some_bytes(rnd, 1))
        elif t > 0:
            place = place_of_pair(1 + rnd.getrandbits(8) % t, n, 1 + rnd.getrandbits(8) % n)
            record = with_bytes(record, place, pair_bytes(rnd.getrandbits(2), rnd.getrandbits(4) - 8 | 1))
    if rnd.getrandbits(2) == 0 and t > 0:
        t = rnd.getrandbits(8) % t
        record = record[: place_of_end(t, n)] + record[-7:-4] + t.to_bytes(4, "big")
    return record


def check_total(rnd):
    """One order of many records: any two compare, both ways round alike, and of three no two against the third.

    Equal are those whose reels mean the same, by scaled values.
    """
    kinds = Counter()
    for code in CODES:
        t, n = 2, 3
        base = b"".join(some_fields(rnd, some_long(rnd, n, t)))
        records = [base] + [near(rnd, base, t, n) for _ in range(12)]
        means = [meaning(write_reel(record, 1, 1 << 20)[4]) for record in records]
        said = [[agrees(first, second) for second in records] for first in records]
        for i in range(13):
            for j in range(13):
                assert (said[i][j] == EQUAL) == (means[i] == means[j])
                kinds[said[i][j]] += 1
                for k in range(13):
                    if GREATER not in (said[i][j], said[j][k]):
                        assert said[i][k] == (LESSER if LESSER in (said[i][j], said[j][k]) else EQUAL)
    assert min(kinds.values()) > 80, kinds


def check_forms():
    """A trace of the earlier form and one of the new form are equal, and every sample of either counts."""
    n, pairs = 6002, [pair_bytes(0, 1 + 2 * (k % 5)) for k in range(6002)]
    forms = [make_record(9, n, [pairs, pairs], earlier=earlier) for earlier in ((), (1,), (2,), (1, 2))]
    assert [len(form) for form in forms] == [75675, 75672, 75672, 75669]
    for first in forms:
        assert in_new_form(first) == forms[0]
        for second in forms:
            assert compare(first, second) == EQUAL
    for i, k in ((1, 6000), (1, 6001), (2, 6002)):
        for form, earlier in ((forms[0], ()), (forms[3], (1, 2))):
            more = with_bytes(form, place_of_pair(i, n, k, earlier), pair_bytes(4, 1))
            for other in forms[1:3]:
                assert compare(more, other) == GREATER and compare(other, more) == LESSER


def check_causes(rnd):
    """12 and 13 of either record, and of both: then the first's."""
    good = b"".join(some_fields(rnd, some_traces(rnd, 1, 2, 2)))
    length = len(good)
    bad = [
        (b"", 12, 0), (with_bytes(good, 1, b"\x0D"), 12, 0), (with_bytes(good, 1000, b"\x00"), 13, 1000),
        (good[:3203], 12, 3203), (with_bytes(good, 3222, bytes(2)), 13, 3222), (with_bytes(good, 3226, b"\xFF"), 13, 3226),
        (with_bytes(good, 3231, b"\x05"), 13, 3230),
        (with_bytes(good, place_of_field(2, 2, 69), bytes(2)), 13, place_of_field(2, 2, 69)),
        (with_bytes(good, place_of_field(1, 2, 117), bytes(2)), 13, place_of_field(1, 2, 117)),
        (with_bytes(good, place_of_pair(2, 2, 2), pair_bytes(1, 2)), 13, place_of_pair(2, 2, 2)),
        (with_bytes(good, place_of_trace(2, 2), b"\x04"), 12, place_of_trace(2, 2)),
        (with_bytes(good, length - 1, b"\x01"), 12, length - 7), (good + b"\x05", 12, length),
    ]
    for first, number, place in bad:
        for other in (good, make_record()):
            assert compare(first, other) == ("refused", 1, number, place)
            assert compare(other, first) == ("refused", 2, number, place)
        for second, _, _ in bad:
            assert compare(first, second) == ("refused", 1, number, place)


def main():
    check_layout()
    check_items()
    check_traces()
    check_scalars()
    check_values(random.Random(1975))
    check_total(random.Random(1976))
    check_forms()
    check_causes(random.Random(1977))
    print("order.py: the paper's statements hold")


if __name__ == "__main__":
    main()
