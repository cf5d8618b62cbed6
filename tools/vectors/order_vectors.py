"""Test vectors for the order of records, from document 02's CR 9 and CR 8 alone.

Run from the root of the repository:  python3 tools/vectors/order_vectors.py [--check | --list]
It rewrites crates/order_vectors/stdin and crates/order_vectors/stdout; with
--check it compares them with what it would write, and with --list it prints
what each case is about beside its line, and neither writes anything.

The rules are those of tools/vectors/order.py. Beside them nearly every case
has its answer worked out by hand, and both must agree. Each two records are
compared the other way round as well, and the answer must be the opposite.

stdin is a row of cases without anything between them, at most 1,500,000 bytes:
    4 bytes    length of the first record, big-endian, at most 100,000
    4 bytes    length of the second record, big-endian, at most 100,000
    the first record
    the second record

stdout has a line for each case:
    lesser                         the first record is the lesser
    equal                          the two count as equal
    greater                        the second is the lesser
    refused WHICH NUMBER PLACE     WHICH is 1 or 2, the record that is refused
All numbers are decimal.

Trace 100,001 can't be reached here: 100,000 traces take 19 million bytes.
"""

import random
import sys
from collections import Counter
from pathlib import Path

sys.path.insert(0, str(Path(__file__).resolve().parent))
sys.dont_write_bytecode = True

from order import EQUAL, GREATER, LESSER, compare, near, turned  # noqa: E402
from records import (  # noqa: E402
    make_record, place_of_binary, place_of_card, place_of_end, place_of_field, place_of_pair, place_of_samples,
    place_of_trace, some_fields, some_long, some_traces, with_bytes,
)
from reels import example, number_bytes, read_reel, some_bytes  # noqa: E402
from samples import pair_bytes, word_of_v, v_of_pair  # noqa: E402

FOLDER = Path(__file__).resolve().parents[2] / "crates" / "order_vectors"

MOST = 100000  # of a record
MOST_STDIN = 1500000


class Cases:
    def __init__(self):
        self.all = []  # what it is in words, the bytes of the case, its line
        self.seen = set()
        self.kinds = Counter()

    def put(self, what, first, second, by_hand=None):
        """A case, and what is said of it where it was worked out by hand."""
        first, second = bytes(first), bytes(second)
        assert len(first) <= MOST and len(second) <= MOST
        said = compare(first, second)
        assert by_hand in (None, said), (what, by_hand, said)
        back = compare(second, first)
        if said[0] == "refused":
            assert back[0] == "refused" and (said[1] == 1 or back == ("refused", 1, *said[2:]))
            self.kinds[f"refused {said[1]} {said[2]}"] += 1
        else:
            assert back == turned(said)
            self.kinds[said[0]] += 1
        case = len(first).to_bytes(4, "big") + len(second).to_bytes(4, "big") + first + second
        assert case not in self.seen, what
        self.seen.add(case)
        self.all.append((what, case, " ".join(str(item) for item in said)))

    def lesser(self, what, first, second):
        """The first is the lesser. Of two such cases one stands the other way round."""
        if len(self.all) % 2:
            self.put(what + ", the other way round", second, first, GREATER)
        else:
            self.put(what, first, second, LESSER)

    def equal(self, what, first, second):
        self.put(what, first, second, EQUAL)

    def refused(self, what, first, second, which, number, place):
        self.put(what, first, second, ("refused", which, number, place))


ONE, LOW = pair_bytes(0, 1), pair_bytes(-3, -949)


def one_sample(pair):
    return make_record(2000, 1, [[pair]])


def two_traces(*changes):
    """Two traces of the example's two samples, with other bytes at some places."""
    record = make_record(2000, 2, [[ONE, LOW]] * 2)
    for place, other in changes:
        record = with_bytes(record, place, other)
    return record


# ---------------------------------------------------------------- equality


def equals(x, rnd):
    record = read_reel(example(), 3471)[1]
    x.equal("the example and itself", record, record)
    x.equal("no traces", make_record(2000, 2), make_record(2000, 2))
    record = b"".join(some_fields(rnd, some_traces(rnd, 1, 7, 3)))
    x.equal("any record and itself", record, record)
    fields = some_fields(rnd, some_traces(rnd, 4, 40, 1))
    x.equal("any record of 40 samples and itself", b"".join(fields), b"".join(fields))


# ------------------------------------------------------------------- cards


def cards(x, rnd):
    """Bytes have no sign, the first that differs decides, before all else."""
    empty = make_record(2000, 2)

    def put(what, card, a, b, rest=()):
        first, second = (with_bytes(empty, place_of_card(card), bytes([byte])) for byte in (a, b))
        for place, of_first, of_second in rest:
            first, second = with_bytes(first, place, of_first), with_bytes(second, place, of_second)
        x.lesser(what, first, second)

    put("card byte 0, 40 and FF", 0, 0x40, 0xFF)
    put("card byte 0, 7F and 80", 0, 0x7F, 0x80)
    put("card byte 3199, 01 and FF", 3199, 0x01, 0xFF)
    put("card byte 80, 40 and C1", 80, 0x40, 0xC1)
    put("card byte 8, FE and FF", 8, 0xFE, 0xFF)
    put("card byte 100 before 101", 100, 0x40, 0x41, [(place_of_card(101), b"\xFF", b"\x01")])
    put("card byte 0 before 3199", 0, 0x3F, 0xC1, [(place_of_card(3199), b"\xFF", b"\x01")])
    put("card byte 3192 before 3199", 3192, 0x3F, 0x40, [(place_of_card(3199), b"\x41", b"\x40")])
    put("card byte 3199 before field 3201", 3199, 0x40, 0xF0, [(place_of_binary(3201), number_bytes(9, 4), number_bytes(-9, 4))])
    put("card byte 3199 before N", 3199, 0x40, 0xF0, [(place_of_binary(3221), b"\x7F\xFF", b"\x00\x01")])
    x.lesser("card byte 1599 before T and samples", make_record(2000, 2, [[ONE, ONE]]),
             make_record(2000, 2, (), b"\x40" * 1599 + b"\x41" + b"\x40" * 1600))


# ----------------------------------------------------------- header numbers


def binary_header(x, rnd):
    """Signed, in the record's order, before all traces."""
    def put(what, fields, others):
        x.lesser(what, make_record(fields=fields), make_record(fields=others))

    for b, a, c in (
        (3201, -1, 1), (3201, -(2 ** 31), 2 ** 31 - 1), (3209, -65536, -1), (3213, -32768, 32767),
        (3215, 255, 256), (3223, -1, 1), (3227, 0, 1), (3259, -2, -1),
    ):
        put(f"field {b}, {a} and {c}", {b: a}, {b: c})
    put("field 3201 before 3205", {3201: 1, 3205: 5}, {3201: 2, 3205: -5})
    put("field 3209 before 3213", {3209: -3, 3213: 32767}, {3209: -2, 3213: -32768})
    put("field 3215 before the interval", {3215: 0, 3217: 32767}, {3215: 1, 3217: 1})
    put("field 3257 before 3259", {3257: 0, 3259: 1}, {3257: 1, 3259: 0})
    x.lesser("interval 255 and 256", make_record(255, 2), make_record(256, 2))
    x.lesser("N 255 and 256", make_record(9, 255), make_record(9, 256))
    x.lesser("N 8000 and 32767", make_record(9, 8000), make_record(9, 32767))
    x.lesser("the interval before N", make_record(9, 3), make_record(10, 2))
    x.lesser("N before T", make_record(9, 1, [[ONE]] * 2), make_record(9, 2))
    x.lesser("N before the traces", make_record(9, 1, [[pair_bytes(251, 1)]], trace_fields={1: {1: 9}}), make_record(9, 2, [[LOW, LOW]]))
    x.lesser("field 3259 before the traces", make_record(9, 1, [[ONE]], trace_fields={1: {1: 9}}, fields={3259: -1}),
             make_record(9, 1, [[LOW]], trace_fields={1: {1: -9}}))


def trace_header(x, rnd):
    """All 71 but the two that are N and the interval, signed, in the record's order."""
    def put(what, fields, others, i=1):
        x.lesser(what, make_record(9, 1, [[ONE]] * i, trace_fields={i: fields}),
                 make_record(9, 1, [[ONE]] * i, trace_fields={i: others}))

    for b, a, c in (
        (1, -1, 1), (1, -(2 ** 31), 2 ** 31 - 1), (5, 0, 1), (25, -65536, 65535), (29, -32768, 32767), (35, -1, 1), (37, -1, 0),
        (41, -1, 1), (65, 255, 256), (73, -1, 1), (85, -(2 ** 31), 2 ** 31 - 1), (89, -1, 0), (113, 127, 128), (119, -1, 1), (179, -1, 1),
    ):
        put(f"field {b}, {a} and {c}", {b: a}, {b: c}, 2 if b in (37, 179) else 1)
    put("field 1 before 5", {1: 1, 5: 9}, {1: 2, 5: -9})
    put("field 35 before 37", {35: -1, 37: 9}, {35: 1, 37: -9})
    put("field 113 before 119", {113: -1, 119: 9}, {113: 1, 119: -9})
    put("field 177 before 179", {177: -1, 179: 9}, {177: 1, 179: -9})


def scalars(x, rnd):
    """69 and 71 are numbers too, where they stand; elevations and coordinates count bare."""
    top = 2 ** 31 - 1

    def put(what, fields, others):
        x.lesser(what, make_record(9, 1, [[ONE]], trace_fields={1: fields}), make_record(9, 1, [[ONE]], trace_fields={1: others}))

    for field, b in ((69, 41), (71, 85)):
        for a, c in ((-10000, -1000), (-10, 1), (1000, 10000)):
            put(f"field {field}, {a} and {c}", {b: top, field: a}, {b: top, field: c})
    put("field 69 before 71", {65: top, 85: top, 69: -10, 71: 100}, {65: top, 85: top, 69: 10, 71: -100})
    put("field 65 before 69", {41: top, 65: -1, 69: 10000}, {41: top, 65: 1, 69: -10000})
    put("field 71 before 73", {73: 5, 85: top, 71: -10}, {73: -5, 85: top, 71: 10})
    put("field 69 before 73", {41: top, 73: 5, 69: 1}, {41: top, 73: -5, 69: 10})
    put("bare: 214748365 times 10000 and 214748366 by 10000", {53: 214748365, 69: 10000}, {53: 214748366, 69: -10000})
    put("bare: -1 by 10000 and 0", {77: -1}, {77: 0})
    put("bare: -214748366 by 10000 and -214748365 times 1000", {61: -214748366, 69: -10000}, {61: -214748365, 69: 1000})
    put("field 71 before 89", {85: top, 71: -100, 89: 7}, {85: top, 71: -10, 89: -7})


# ----------------------------------------------------------------- samples


# From the least to the greatest: each is compared with the next, and some with others.
RISING = [
    (251, -(2 ** 31 - 1)), (251, -3), (228, -(2 ** 24 + 1)), (228, -(2 ** 24 - 1)), (250, -3), (251, -1), (31, -1), (0, -(2 ** 31 - 1)),
    (-3, -949), (0, -3), (1, -1), (-1, -3), (-30, -(2 ** 30 + 1)), (0, -1), (-31, -(2 ** 31 - 1)), (-280, -3), (-279, -1),
    (-280, -1), (0, 0), (-280, 1), (-279, 1), (-280, 3), (-280, 2 ** 31 - 1), (-249, 1), (-31, 2 ** 31 - 1), (0, 1), (-30, 2 ** 30 + 1),
    (-1, 3), (1, 1), (0, 3), (0, 2 ** 31 - 1), (31, 1), (251, 1), (228, 2 ** 24 - 1), (251, 3), (251, 2 ** 31 - 1),
]


def samples(x, rnd):
    """By exact value, whatever exponent and mantissa are by themselves."""
    def put(i, j):
        (e, m), (f, k) = RISING[i], RISING[j]
        x.lesser(f"{m} x 2^{e} and {k} x 2^{f}", one_sample(pair_bytes(e, m)), one_sample(pair_bytes(f, k)))

    for i in range(len(RISING) - 1):
        put(i, i + 1)
    zero = RISING.index((0, 0))
    for i, j in ((0, len(RISING) - 1), (5, zero), (zero, zero + 14)):
        put(i, j)


def normal_words(x, rnd):
    """Two words of code 1, read as sign and magnitude."""
    words = sorted((rnd.getrandbits(1), 1 + rnd.getrandbits(31) % 2 ** 31) for _ in range(8))
    for first, second in zip(words[::2], words[1::2]):
        pairs = []
        for sign, bits in (first, second):
            v = (bits % 2 ** 24 | 2 ** 23) * 16 ** (bits >> 24)
            e = 0
            while v % 2 ** (e + 1) == 0:
                e += 1
            pairs.append((e - 280, (-1 if sign else 1) * (v >> e)))
        written = [int.from_bytes(word_of_v(1, v_of_pair(e, m)), "big") for e, m in pairs]
        a, b = ((-1 if bits >> 31 else 1) * (bits % 2 ** 31) for bits in written)
        said = LESSER if a < b else GREATER if a > b else EQUAL
        x.put(f"words {written[0]:08X} and {written[1]:08X}", one_sample(pair_bytes(*pairs[0])), one_sample(pair_bytes(*pairs[1])), said)


# -------------------------------------------------- what comes before what


def places(x, rnd):
    """Header of trace 1, its samples, header of trace 2, its samples: each before all that follow."""
    steps = [
        ("field 1 of trace 1", place_of_field(1, 2, 1), number_bytes(-1, 4), number_bytes(1, 4)),
        ("field 179 of trace 1", place_of_field(1, 2, 179), number_bytes(-1, 2), number_bytes(1, 2)),
        ("sample 1 of trace 1", place_of_pair(1, 2, 1), pair_bytes(0, -1), pair_bytes(0, 3)),
        ("sample 2 of trace 1", place_of_pair(1, 2, 2), pair_bytes(0, -999), pair_bytes(-280, -1)),
        ("field 1 of trace 2", place_of_field(2, 2, 1), number_bytes(-1, 4), number_bytes(1, 4)),
        ("field 179 of trace 2", place_of_field(2, 2, 179), number_bytes(-1, 2), number_bytes(1, 2)),
        ("sample 1 of trace 2", place_of_pair(2, 2, 1), pair_bytes(-280, 1), pair_bytes(251, 1)),
        ("sample 2 of trace 2", place_of_pair(2, 2, 2), pair_bytes(251, -1), pair_bytes(0, 0)),
    ]
    for k, (what, place, less, more) in enumerate(steps):
        behind = steps[k + 1 :]
        x.lesser(f"{what} alone", two_traces((place, less)), two_traces((place, more)))
        if behind:
            x.lesser(f"{what} before all that follows",
                     two_traces((place, less), *((p, above) for _, p, _, above in behind)),
                     two_traces((place, more), *((p, below) for _, p, below, _ in behind)))
    x.lesser("field 3259 before the traces",
             two_traces((place_of_binary(3259), number_bytes(-1, 2)), *((p, more) for _, p, _, more in steps)),
             two_traces(*((p, less) for _, p, less, _ in steps)))


def counts(x, rnd):
    """A record whose traces end first is the lesser, where all common traces agree."""
    def record(t, *changes):
        made = make_record(2000, 2, [[ONE, LOW]] * t)
        for place, other in changes:
            made = with_bytes(made, place, other)
        return made

    for few, many in ((0, 1), (1, 2), (2, 5)):
        x.lesser(f"T {few} and {many}", record(few), record(many))
    x.lesser("T 1 and 2, the second trace low", record(1), record(2, (place_of_field(2, 2, 1), number_bytes(-9, 4))))
    x.lesser("T 2 and 1, a sample of trace 1 less", record(2, (place_of_pair(1, 2, 2), pair_bytes(-3, -951))), record(1))
    x.lesser("T 2 and 1, field 179 of trace 1 less", record(2, (place_of_field(1, 2, 179), b"\xFF\xFF")), record(1))
    x.lesser("T 3 and 2, sample 2 of trace 2 less", record(3, (place_of_pair(2, 2, 2), pair_bytes(-3, -951))), record(2))
    x.lesser("T 1 and 2, sample 1 of trace 1 less", record(1, (place_of_pair(1, 2, 1), pair_bytes(-1, 1))), record(2))


# --------------------------------------------------------- both forms


def forms(x, rnd):
    """Traces of 6,001 samples in the earlier form and in the new one."""
    n = 6001
    some = some_long(rnd, n, 1)
    new, earlier = make_record(9, n, some), make_record(9, n, some, earlier=(1,))
    assert len(new) == 39468 and len(earlier) == 39465
    x.equal("the earlier form and the new one", earlier, new)
    x.lesser("sample 6001, the earlier form and the new one",
             with_bytes(earlier, place_of_pair(1, n, n, (1,)), pair_bytes(7, -1)),
             with_bytes(new, place_of_pair(1, n, n), pair_bytes(0, 127)))
    x.lesser("sample 6000, the new form and the earlier one",
             with_bytes(new, place_of_pair(1, n, 6000), pair_bytes(-1, -1)),
             with_bytes(earlier, place_of_pair(1, n, 6000, (1,)), pair_bytes(-280, 1)))
    x.refused("the second in neither form", make_record(), with_bytes(new, place_of_samples(1, n, f=2), b"\x03"),
              2, 12, place_of_samples(1, n, f=2))


# ----------------------------------------------------------------- refused


def refusals(x, rnd):
    """12 and 13 of either record, at the place in that record; with both bad the first's."""
    good = two_traces()
    other = make_record(2000, 2, (), b"\x3F" * 3200)
    end = place_of_end(2, 2)
    bad = {
        "nothing": (b"", 12, 0),
        "a tag alone": (b"\x01", 12, 0),
        "another first tag": (with_bytes(good, 0, b"\x02"), 12, 0),
        "another first length": (with_bytes(good, 2, b"\x81"), 12, 0),
        "card byte 0 is 00": (with_bytes(good, 3, b"\x00"), 13, 3),
        "card byte 3199 is 00": (with_bytes(good, 3202, b"\x00"), 13, 3202),
        "cards alone": (good[:3203], 12, 3203),
        "interval 0": (with_bytes(good, 3222, bytes(2)), 13, 3222),
        "N 0": (with_bytes(good, 3226, bytes(2)), 13, 3226),
        "code 1": (with_bytes(good, 3231, b"\x01"), 13, 3230),
        "no tag 05": (good[:3266], 12, 3266),
        "field 69 of trace 1 is 1": (with_bytes(good, place_of_field(1, 2, 69), b"\x00\x01"), 13, place_of_field(1, 2, 69)),
        "field 71 of trace 2 is 0": (with_bytes(good, place_of_field(2, 2, 71), bytes(2)), 13, place_of_field(2, 2, 71)),
        "field 115 of trace 2 is 3": (with_bytes(good, place_of_field(2, 2, 115), b"\x00\x03"), 13, place_of_field(2, 2, 115)),
        "field 117 of trace 1 is 0": (with_bytes(good, place_of_field(1, 2, 117), bytes(2)), 13, place_of_field(1, 2, 117)),
        "another tag 04": (with_bytes(good, place_of_samples(1, 2), b"\x05"), 12, place_of_samples(1, 2)),
        "another tag of trace 2": (with_bytes(good, place_of_trace(2, 2), b"\x04"), 12, place_of_trace(2, 2)),
        "sample 1 of trace 1 even": (with_bytes(good, place_of_pair(1, 2, 1), pair_bytes(0, 2)), 13, place_of_pair(1, 2, 1)),
        "sample 2 of trace 2 with e 252": (with_bytes(good, place_of_pair(2, 2, 2), pair_bytes(252, 1)), 13, place_of_pair(2, 2, 2)),
        "a count of 3": (with_bytes(good, end + 6, b"\x03"), 12, end),
        "a byte short": (good[:-1], 12, end),
        "a byte more": (good + b"\x00", 12, len(good)),
    }
    for turn, (what, (record, number, place)) in enumerate(bad.items()):
        if turn % 2:
            x.refused(f"first: {what}", record, other, 1, number, place)
        else:
            x.refused(f"second: {what}", other, record, 2, number, place)
    for what in ("card byte 3199 is 00", "sample 2 of trace 2 with e 252", "a byte more"):
        record, number, place = bad[what]
        x.refused(f"first: {what}; second good and equal up to there", record, good, 1, number, place)
        x.refused(f"second: {what}; first good and equal up to there", good, record, 2, number, place)
    for first, second in (
        ("a byte more", "nothing"), ("nothing", "a byte more"), ("a count of 3", "card byte 0 is 00"), ("card byte 0 is 00", "nothing"),
        ("sample 2 of trace 2 with e 252", "another first tag"), ("interval 0", "N 0"), ("N 0", "interval 0"), ("N 0", "N 0"),
    ):
        record, number, place = bad[first]
        x.refused(f"first: {first}; second: {second}", record, bad[second][0], 1, number, place)
    # a sample that fits no code is no cause
    x.lesser("samples that fit no code", one_sample(pair_bytes(251, 2 ** 31 - 3)), one_sample(pair_bytes(251, 2 ** 31 - 1)))
    some = some_bytes(rnd, 300)
    x.refused("any 300 bytes", some, good, 1, 12, 0)


# -------------------------------------------------------------- any records


def near_records(x, rnd):
    """Nearly equal records, by the rules alone."""
    for turn in range(5):
        base = b"".join(some_fields(rnd, some_long(rnd, 2, 2)))
        x.put(f"nearly equal records, {turn}", near(rnd, base, 2, 2), near(rnd, base, 2, 2))


PARTS = (
    equals, cards, binary_header, trace_header, scalars, samples, normal_words, places, counts, forms, refusals, near_records,
)


def all_cases():
    x = Cases()
    for seed, part in enumerate(PARTS):
        part(x, random.Random(1975 + seed))
    return x


def main():
    x = all_cases()
    text_out = "".join(line + "\n" for _, _, line in x.all)
    files = {"stdin": b"".join(case for _, case, _ in x.all), "stdout": text_out.encode("ascii")}
    assert len(files["stdin"]) < MOST_STDIN, len(files["stdin"])
    if sys.argv[1:] == ["--check"]:
        for name, content in files.items():
            if (FOLDER / name).read_bytes() != content:
                sys.exit(f"order_vectors.py: {FOLDER.name}/{name} isn't what the rules give")
        print(f"order_vectors.py: {len(x.all)} vectors are what the rules give")
        return
    if sys.argv[1:] == ["--list"]:
        for turn, (what, _, line) in enumerate(x.all, 1):
            print(f"{turn:5d}  {line}  ({what})")
        return
    for name, content in files.items():
        (FOLDER / name).write_bytes(content)
    for kind in sorted(x.kinds):
        print(f"{x.kinds[kind]:5d}  {kind}")
    print(f"{len(x.all):5d}  cases, {len(files['stdin'])} bytes")


if __name__ == "__main__":
    main()
