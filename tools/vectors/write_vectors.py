"""Test vectors for writing reels, worked out from document 01 and document 02's CR 2, CR 4, CR 5 and CR 8 alone.

Run from the root of the repository:  python3 tools/vectors/write_vectors.py [--check | --list]
It rewrites crates/write_vectors/stdin and crates/write_vectors/stdout; with
--check it compares them with what it would write, and with --list it prints
what each case is about beside its line, and neither writes anything.

The rules are those of tools/vectors/records.py. Beside them nearly every case
has its answer worked out by hand, and both must agree. Each written reel is
read by the rules of tools/vectors/reels.py, and its record must come back in
the new form, by nearest writing with the values that its samples became.

stdin is a row of cases without anything between them, at most 2,350,000 bytes:
    1 byte     0 for exact writing, 1 for nearest writing
    1 byte     target code
    4 bytes    room, the length of the output, big-endian, at most 210,000
    4 bytes    length of the record, big-endian, at most 210,000
    the record

The output holds bytes A5 before each call. stdout has a line for each case:
    taken T N LENGTH DIGEST AGAIN COUNT              by exact writing
    taken T N LENGTH CHANGED DIGEST AGAIN COUNT      by nearest writing
    refused NUMBER BESIDE DIGEST                     by either
CHANGED is how many samples have another value on the reel. DIGEST is that of
the whole output after the call, all its room. AGAIN is the digest of the record
that reading the written reel gives, and COUNT is how many of the reel's words
are not normal: none. A digest is 0 at first, and each byte b makes
(digest * 31 + b) mod 2^32 of it. All numbers are decimal.

Trace 100,001 can't be reached here: 100,000 traces take more than 19 million
bytes. records.py checks the rules there.
"""

import random
import sys
from collections import Counter
from pathlib import Path

sys.path.insert(0, str(Path(__file__).resolve().parent))
sys.dont_write_bytecode = True

from nearest import examples  # noqa: E402
from reels import (  # noqa: E402
    BINARY_FIELDS, GROUPS, TRACE_FIELDS, example, pair_of_word, read_reel, record_length, sample_size,
    some_bytes, trace_size, whole16,
)
from records import (  # noqa: E402
    RECORD_SCALARS, in_new_form, make_fields, make_record, nearest_record, place_of_card, place_of_end, place_of_field,
    place_of_pair, place_of_samples, place_of_trace, reel_length, refilled, relengthed, retagged, some_fields,
    some_long, some_traces, with_bytes, write_into, write_nearest, write_reel,
)
from samples import CODES, pair_bytes  # noqa: E402

FOLDER = Path(__file__).resolve().parents[2] / "crates" / "write_vectors"

MOST = 210000  # of room and of a record
MOST_STDIN = 2350000
FILLING = b"\xA5"


def digest(some):
    d = 0
    for b in some:
        d = (d * 31 + b) % 2 ** 32
    return d


def check_written(record, said):
    """The written reel gives the record again, its words are normal, and it carries nothing else but its code."""
    _, t, n, length, *_, reel = said
    code = reel[3225]
    assert length == len(reel) == 3600 + t * (240 + n * sample_size(code))
    record = in_new_form(record)
    assert read_reel(reel, len(record)) == (("taken", t, n, len(record), 0), record)
    assert not any(reel[3260:3600])
    for start in range(3600, length, trace_size(code, n)):
        assert not any(reel[start + 180 : start + 240])


class Cases:
    def __init__(self):
        self.all = []  # what it is in words, the bytes of the case, its line
        self.seen = set()
        self.kinds = Counter()

    def put(self, what, record, code, room, by_hand=None, write=write_reel):
        """A case of either writing; the line's beginning where it was worked out by hand."""
        assert code <= 255 and room <= MOST and len(record) <= MOST
        nearest = write is write_nearest
        said, output = write_into(record, code, FILLING * room, write)
        line = " ".join(str(item) for item in said if not isinstance(item, bytes))
        assert by_hand in (None, line), (what, by_hand, line)
        line += f" {digest(output)}"
        kind = "nearest, " if nearest else ""
        if said[0] == "taken":
            check_written(nearest_record(record, code)[0] if nearest else record, said)
            (*_, count), again = read_reel(said[-1], MOST)
            line += f" {digest(again)} {count}"
            self.kinds[f"{kind}taken, code {code}"] += 1
        else:
            assert output == FILLING * room
            self.kinds[f"{kind}refused by {said[1]}"] += 1
        case = bytes([nearest, code]) + room.to_bytes(4, "big") + len(record).to_bytes(4, "big") + record
        assert case not in self.seen, what
        self.seen.add(case)
        self.all.append((what, case, line))

    def taken(self, what, record, code, t, n, more=0):
        """A record that is taken; the room is what the reel needs, and so much more."""
        length = 3600 + t * (240 + n * sample_size(code))
        self.put(what, record, code, length + more, f"taken {t} {n} {length}")

    def nearest(self, what, record, code, t, n, changed, more=0):
        """The same by nearest writing, with the count of samples whose value changes."""
        length = 3600 + t * (240 + n * sample_size(code))
        self.put(what, record, code, length + more, f"taken {t} {n} {length} {changed}", write_nearest)

    def refused(self, what, record, number, beside, code=None, room=None, write=write_reel):
        """A record that is refused, by any code and with any room if none is named."""
        turn = len(self.all)
        if code is None:
            code = CODES[turn % 6]
        if room is None:
            room = (4600, 0, 5000, 3600, 4096)[turn % 5]
        self.put(what, record, code, room, f"refused {number} {beside}", write)


def pairs(some):
    return [pair_bytes(e, m) for e, m in some]


def whole(*numbers):
    """The pairs of whole numbers of 16 bits, which fit every code but 8; of 8 bits they fit that too."""
    return [pair_of_word(3, whole16(number)) for number in numbers]


def joined(fields):
    return b"".join(fields)


# ------------------------------------------------------------------- taken


def good_records(x, rnd):
    record = read_reel(example(), 3471)[1]
    x.taken("the paper's example, exact room", record, 1, 1, 2)
    x.refused("the paper's example, one byte short", record, 10, 3848, 1, 3847)
    x.taken("the paper's example, code 4", record, 4, 1, 2, 152)
    x.taken("the paper's example, code 5", record, 5, 1, 2, 1)
    x.refused("the paper's example, code 3, no room", record, 14, 3458, 3, 0)
    # random headers and samples, of each code in two of the shapes
    shapes = ((1, 40, 1), (2, 17, 0), (4, 6, 300))
    for turn, code in enumerate(CODES):
        for t, n, more in (shapes[turn % 3], shapes[(turn + 1) % 3]):
            record = joined(some_fields(rnd, some_traces(rnd, code, n, t), 1 + rnd.getrandbits(14)))
            x.taken(f"any record of {t} traces of {n} samples, code {code}", record, code, t, n, more)
    # whole numbers of 16 bits under every code that has them, and of 8 bits
    numbers = (0, 1, -1, 2, 127, 128, 255, 256, -256, 32767, -32767, 16384, -16384, -32768)
    record = joined(some_fields(rnd, [whole(*numbers), whole(*numbers[::-1])], 32767))
    for code in (1, 2, 3, 4, 5):
        x.taken(f"whole numbers of 16 bits, code {code}", record, code, 2, len(numbers))
    x.refused("whole numbers of 16 bits, code 8", record, 14, place_of_pair(1, len(numbers), 6), 8)
    numbers = (0, 1, -1, 2, 64, -64, 127, -127, -128)
    record = joined(some_fields(rnd, [whole(*numbers), whole(*numbers[::-1])], 32767))
    for code in (5, 8):
        x.taken(f"whole numbers of 8 bits, code {code}", record, code, 2, len(numbers))
    # all FF, then all 00, in every field that is free, with N and interval 1
    record = make_record(1, 1, [whole(-1), whole(0)], b"\xFF" * 3200, rest=b"\xFF" * 60,
                         trace_rest=[b"\xFF" * 180, bytes(180)])
    x.taken("fields all FF, then all 00", record, 2, 2, 1)
    # every field has a number of its own
    binary = {b: b for b in BINARY_FIELDS if b not in (3217, 3221, 3225)}
    header = {b: 256 * i - b for i, b in enumerate(TRACE_FIELDS) if b not in (69, 71, 115, 117)}
    record = make_record(500, 3, [whole(1, 2, 3), whole(4, 5, 6)], fields=binary, trace_fields={1: header})
    x.taken("every field of its own", record, 1, 2, 3)


def no_traces(x, rnd):
    every = bytes(1 + i % 255 for i in range(3200))  # every card byte but 00
    for code, interval, n, more in (
        (1, 1, 1, 0), (2, 32767, 32767, 1), (3, 256, 255, 400), (5, 2, 7, 3), (8, 4096, 4095, 5), (4, 255, 256, 0),
    ):
        record = make_record(interval, n, [], every[code:] + every[:code], rest=some_bytes(rnd, 60))
        x.taken(f"no traces, code {code}", record, code, 0, n, more)
    x.refused("no traces, one byte short", record, 10, 3600, 4, 3599)
    record = make_record()
    x.refused("no traces, no room", record, 10, 3600, 1, 0)
    x.taken("no traces, the longest room", record, 2, 0, 2, MOST - 3600)


def long_records(x, rnd):
    # two fields; 36,000, the first one's length, needs all 16 bits
    record = joined(some_fields(rnd, some_traces(rnd, 3, 8000, 1)))
    x.taken("8,000 samples", record, 3, 1, 8000)
    # the count of traces takes two bytes
    record = make_record(9, 1, [whole(i - 128) for i in range(257)])
    x.refused("257 traces", record, 10, 3600 + 257 * 244, 1, 60000)


# Pairs (e, m) that fit a code, and such as don't, at the edges of what it holds.
FITS = {
    1: [
        (0, 0), (0, 1), (0, -1), (-3, -949),
        (-280, 1), (-280, -1), (-280, 15), (-280, 0xFFFFF), (-280, 0x100001), (-280, 0xFFFFFF),
        (-279, 1), (-279, 0x7FFFFF), (-278, -0x3FFFFF), (-277, 0x1FFFFF), (-276, 0xFFFFF), (-276, 0xFFFFFF),
        (-276, 1), (-261, 1), (-260, 1), (-257, -1), (-256, 1), (-256, 0xFFFFF), (-255, 1),
        (251, 1), (251, -1), (250, 3), (249, 7), (248, 15), (247, 31), (232, 0xFFFFF), (231, 0x1FFFFF),
        (228, 0xFFFFFF), (228, -0xFFFFFF), (228, 1), (229, 0x7FFFFF), (230, -0x3FFFFF),
        (0, 0xFFFFFF), (0, -0xFFFFFF), (4, 2097151), (4, -2097151), (1, 0x7FFFFF), (2, 0x3FFFFF),
        (3, 0x1FFFFF), (-1, 0x1FFFFF), (-2, 0x3FFFFF), (-3, 0x7FFFFF), (-4, 0xFFFFFF), (31, -1),
    ],
    2: [
        (0, 0), (0, 1), (0, -1), (0, 2 ** 31 - 1), (0, -(2 ** 31 - 1)), (31, -1), (30, 1), (30, -1),
        (1, 2 ** 30 - 1), (1, -(2 ** 30 - 1)), (29, 3), (29, -3), (16, 32767), (16, -32767),
        (0, 16777217), (15, 1), (15, -1), (1, 1),
    ],
    3: [
        (0, 0), (0, 1), (0, -1), (0, 32767), (0, -32767), (15, -1), (14, 1), (14, -1),
        (1, 16383), (1, -16383), (13, 3), (13, -3), (8, 127), (8, -127), (7, 255), (1, 1),
    ],
    4: [
        (0, 0), (0, 1), (0, -1), (0, 32767), (0, -32767), (15, -1), (14, 1), (14, -1),
        (1, 16383), (1, -16383), (13, 3), (-1, 1), (-1, -32767), (-1, 32767), (-3, -949), (-15, -1),
        (-16, 1), (-240, -1), (-254, 32767), (-255, 1), (-255, -1), (-255, 32767), (-255, -32767),
    ],
    5: [
        (0, 0), (0, 1), (0, -1), (-3, -949),
        (-149, 1), (-149, -1), (-149, 3), (-149, 8388607), (-149, -8388607), (-149, 8388609), (-149, 16777215),
        (-148, 1), (-148, 4194303), (-148, -8388607), (-127, 1), (-127, -3), (-126, 1), (-126, -1), (-125, 16777215),
        (104, 16777215), (104, -16777215), (104, 1), (105, 8388607), (127, 1), (127, -1), (126, 3), (125, -7),
        (0, 16777215), (0, -16777215), (24, 1), (1, 8388609), (7, -1), (31, -1), (-24, 16777215),
    ],
    8: [
        (0, 0), (0, 1), (0, -1), (0, 127), (0, -127), (7, -1), (6, 1), (6, -1), (1, 63), (1, -63), (5, 3), (5, -3),
        (0, 3), (3, 15), (4, -7), (1, 1),
    ],
}
DOESNT_FIT = {
    1: [
        (0, 16777217), (1, 16777215), (2, -0x7FFFFF), (-279, 0xFFFFFF), (-280, 16777217), (251, 3),
    ],
    2: [(31, 1), (32, -1), (-1, -1), (1, 2 ** 30 + 1)],
    3: [(15, 1), (16, -1), (0, -32769), (-1, 1)],
    4: [(15, 1), (0, 32769), (-256, 1), (-255, -32769), (-280, -1)],
    5: [(0, 16777217), (-150, 1), (-150, -16777215), (128, 1), (105, -16777215), (127, 3), (-149, 16777217)],
    8: [(7, 1), (8, -1), (0, 129), (0, -129), (-1, 1)],
}


def edges(x, rnd):
    for code in CODES:
        fit = pairs(FITS[code])
        half = len(fit) // 2
        n = len(fit) - half
        traces = [fit[:n], fit[half:]]
        x.taken(f"pairs at the edges, code {code}", joined(some_fields(rnd, traces)), code, 2, n)
        # one that doesn't fit among others that do, now here, now there; room for the reel or none
        for turn, bad in enumerate(DOESNT_FIT[code]):
            t, n, i, k = (
                (1, 1, 1, 1), (2, 3, 1, 3), (2, 3, 2, 1), (3, 2, 3, 2), (2, 5, 2, 3), (1, 9, 1, 9),
            )[(turn + code) % 6]
            traces = [[fit[rnd.getrandbits(16) % len(fit)] for _ in range(n)] for _ in range(t)]
            traces[i - 1][k - 1] = pair_bytes(*bad)
            x.refused(f"e {bad[0]}, m {bad[1]} doesn't fit code {code}", joined(some_fields(rnd, traces)),
                      14, place_of_pair(i, n, k), code, reel_length(t, n, code) * (turn % 3 != 0))
    # the same record fits one code and not another
    traces = [whole(1, 2), pairs([(0, 5), (0, 32769)]), pairs([(-1, 1), (0, 3)])]
    record = joined(some_fields(rnd, traces))
    x.taken("fits codes 1 and 5, code 1", record, 1, 3, 2, 7)
    x.taken("fits codes 1 and 5, code 5", record, 5, 3, 2, 7)
    x.refused("fits code 1 and not 2", record, 14, place_of_pair(3, 2, 1), 2)
    x.refused("fits code 1 and not 4", record, 14, place_of_pair(2, 2, 2), 4)
    record = joined(some_fields(rnd, [whole(1, -2), pairs([(-127, 1), (-150, 1)])]))
    x.taken("fits code 1 and not 5, code 1", record, 1, 2, 2)
    x.refused("fits code 1 and not 5, code 5", record, 14, place_of_pair(2, 2, 2), 5)


def room(x, rnd):
    for code, t, n in ((2, 1, 3), (3, 3, 4), (4, 2, 2), (5, 1, 5), (8, 2, 9)):
        record = joined(some_fields(rnd, some_traces(rnd, code, n, t)))
        length = reel_length(t, n, code)
        x.refused(f"code {code}, one byte short", record, 10, length, code, length - 1)
    record = joined(some_fields(rnd, [whole(*range(30)), whole(*range(-30, 0))]))
    x.refused("room for code 3, but code 2", record, 10, 4320, 2, 4200)
    x.taken("room for code 3", record, 3, 2, 30, 120)
    x.refused("room for code 8, but code 3", record, 10, 4200, 3, 4140)
    record = joined(some_fields(rnd, some_traces(rnd, 1, 4, 1)))
    x.refused("room for the record, but not for the reel", record, 10, 3856, 1, record_length(1, 4))


# ------------------------------------------------------------ target codes


def bad_codes(x, rnd):
    for code in (0, 6, 7, 9, 10, 13, 16, 64, 127, 128, 129, 132, 133, 136, 254, 255):
        x.refused(f"code {code}, an empty record", b"", 11, 0, code, code)
    x.refused("code 6, a good record", make_record(traces=[whole(1, 2)]), 11, 0, 6, 4000)


# ---------------------------------------------------------- the form: 12


def wrong_tags(x, rnd):
    # fields 0 and 1, then two for each trace, then the last
    for traces, k, tags in (
        (0, 0, (0x02,)), (0, 1, (0x05,)), (0, 2, (0x06,)), (1, 2, (0x04,)), (2, 4, (0x13,)), (1, 3, (0x05,)),
        (2, 5, (0x44,)), (1, 4, (0x03, 0x85)),
    ):
        for tag in tags:
            fields = some_fields(rnd, some_traces(rnd, 3, 1, traces), n=1)
            was, place = fields[k][0], len(joined(fields[:k]))
            fields[k] = retagged(fields[k], tag)
            x.refused(f"tag {tag:02X} for {was:02X}, {traces} traces", joined(fields), 12, place)


def wrong_lengths(x, rnd):
    for traces, k, lengths in (
        (0, 0, (0x8C80,)), (0, 1, (0x003B,)), (1, 2, (0x01B4,)), (1, 3, (0x010C, 0x0006)), (2, 5, (0x0012,)),
        (0, 2, (0x0005,)), (1, 4, (0x0104,)),
    ):
        for length in lengths:
            fields = some_fields(rnd, some_traces(rnd, 3, 2, traces), n=2)
            place = len(joined(fields[:k]))
            tag = fields[k][0]
            fields[k] = relengthed(fields[k], length)
            x.refused(f"length {length:04X} in tag {tag:02X}", joined(fields), 12, place)
    # the content follows the length
    for traces, k, lengths in (
        (0, 0, (0,)), (0, 1, (62,)), (1, 2, (240,)), (1, 3, (6, 18)), (2, 5, (0,)), (0, 2, (2,)), (1, 4, (8,)),
    ):
        for length in lengths:
            fields = some_fields(rnd, some_traces(rnd, 3, 2, traces), n=2)
            place = len(joined(fields[:k]))
            filling = (fields[k][3:] + fields[k][-6:] * 40)[:length]
            tag = fields[k][0]
            fields[k] = refilled(fields[k], filling)
            assert len(fields[k]) == 3 + length
            x.refused(f"length and content {length} in tag {tag:02X}", joined(fields), 12, place)


def cut_short(x, rnd):
    for traces, k, kept in (
        (0, 0, (0, 1, 2, 3, 4, 100, 3202)), (0, 1, (0, 3, 62)), (1, 2, (1, 182)), (2, 4, (2,)),
        (1, 3, (0, 2, 14)), (2, 5, (9,)), (0, 2, (0, 6)), (2, 6, (2,)),
    ):
        for some in kept:
            fields = some_fields(rnd, some_traces(rnd, 3, 2, traces), n=2)
            front, field = joined(fields[:k]), fields[k]
            assert some < len(field)
            what = f"cut after {some} bytes of tag {field[0]:02X}" if some else f"no tag {field[0]:02X}"
            x.refused(f"{what}, {traces} traces", front + field[:some], 12, len(front))


def missing_and_twice(x, rnd):
    def fields(t):
        return some_fields(rnd, some_traces(rnd, 3, 1, t), n=1)

    a = fields(0)
    x.refused("no tag 01, the rest follows", joined(a[1:]), 12, 0)
    x.refused("no tag 02, the rest follows", a[0] + a[2], 12, 3203)
    x.refused("tag 01 twice", a[0] + joined(a), 12, 3203)
    x.refused("tag 02 twice", joined(a[:2]) + joined(a[1:]), 12, 3266)
    a = fields(1)
    x.refused("no tag 03, its samples follow", joined(a[:2] + a[3:]), 12, 3266)
    x.refused("tag 03 twice", joined(a[:3] + a[2:]), 12, place_of_samples(1, 1))
    x.refused("no tag 04, tag 05 follows", joined(a[:3] + a[4:]), 12, place_of_samples(1, 1))
    x.refused("tag 04 twice", joined(a[:4] + a[3:]), 12, place_of_trace(2, 1))
    x.refused("tag 05 before the trace", joined(a[:2] + a[4:] + a[2:4]), 12, 3266)
    a = fields(2)
    x.refused("no tag 04 in trace 1, trace 2 follows", joined(a[:3] + a[4:]), 12, place_of_samples(1, 1))


def counts_and_more(x, rnd):
    for t, count in ((0, 1), (1, 0), (2, 0x102), (1, 0x01010001), (1, 0x80000001)):
        fields = some_fields(rnd, some_traces(rnd, 3, 1, t), n=1)
        fields[-1] = refilled(fields[-1], count.to_bytes(4, "big"))
        x.refused(f"count {count} with {t} traces", joined(fields), 12, place_of_end(t, 1))
    for t, more in ((0, b"\x00"), (2, b"\x05")):
        record = joined(some_fields(rnd, some_traces(rnd, 3, 1, t), n=1))
        x.refused(f"one byte {more.hex()} after {t} traces", record + more, 12, len(record))
    fields = some_fields(rnd, some_traces(rnd, 3, 1, 1))
    record = joined(fields)
    x.refused("tag 05 twice", record + fields[-1], 12, len(record))
    x.refused("a trace after tag 05", record + joined(fields[2:4]), 12, len(record))
    x.refused("a whole record, then a trace and its count",
              joined(fields[:2]) + make_fields()[-1] + joined(fields[2:]), 12, 3273)


# ------------------------------------------------------ the numbers: 13


def wrong_numbers(x, rnd):
    good = make_record()
    for places in ((0,), (3199,), (79, 80, 1000)):
        record = good
        for i in places:
            record = with_bytes(record, place_of_card(i), b"\x00")
        x.refused(f"00 at card bytes {places}", record, 13, place_of_card(places[0]))
    # tag 02: interval at 3222, N at 3226, code at 3230; without traces and with one laid out for N 2
    for number, t in ((0, 0), (32768, 1)):
        x.refused(f"interval {number}", joined(some_fields(
            rnd, [whole(1, 2)] * t, n=2, fields={3217: number}, trace_fields={1: {117: number}})), 13, 3222)
    for number, t in ((65535, 0), (32768, 1)):
        x.refused(f"N {number}", joined(some_fields(
            rnd, [whole(1, 2)] * t, n=2, fields={3221: number}, trace_fields={1: {115: number}})), 13, 3226)
    x.refused("N 0, and traces without samples", joined(some_fields(rnd, [[]], n=0)), 13, 3226)
    for number, t in ((3, 1), (256, 0)):
        x.refused(f"code {number} in the record", joined(some_fields(
            rnd, [whole(1, 2)] * t, n=2, fields={3225: number})), 13, 3230, code=3)
    for what, place in (
        ({3217: 40000, 3225: 1}, 3222), ({3221: 40000, 3225: 2}, 3226), ({3217: 0, 3221: 0, 3225: 4}, 3222),
    ):
        x.refused(f"binary fields {what}", joined(some_fields(rnd, [], n=2, fields=what)), 13, place)
    # fields beside them may be anything
    fields = {3213: 0, 3215: 0, 3219: -1, 3223: 0, 3227: 3, 3229: -1}
    x.taken(f"binary fields {fields}", joined(some_fields(rnd, [], n=2, fields=fields)), 3, 0, 2)


def wrong_trace_numbers(x, rnd):
    # N is 3, the interval 770 = 0302
    def record(t, faults):
        return joined(some_fields(rnd, [whole(i, 2, 3) for i in range(t)], 770, trace_fields=faults))

    for t, i, number in ((1, 1, 0), (1, 1, 259), (3, 3, 4)):
        x.refused(f"field 115 {number} in trace {i} of {t}, N 3", record(t, {i: {115: number}}),
                  13, place_of_field(i, 3, 115))
    for t, i, number in ((1, 1, 0), (2, 2, 771), (1, 1, 2)):
        x.refused(f"field 117 {number} in trace {i} of {t}, interval 770", record(t, {i: {117: number}}),
                  13, place_of_field(i, 3, 117))
    for faults, i, b in (
        ({1: {115: 0, 117: 0}}, 1, 115), ({2: {115: 770, 117: 3}}, 2, 115),
        ({2: {117: 0}, 3: {115: 0}}, 2, 117),
    ):
        x.refused(f"trace fields {faults}", record(3, faults), 13, place_of_field(i, 3, b))
    faults = {1: {113: 0, 119: 0}, 2: {111: 3, 113: 770, 119: 3, 121: 770}}
    x.taken(f"trace fields {faults}", record(2, faults), 2, 2, 3)


def wrong_pairs(x, rnd):
    places = ((1, 1, 1, 1), (1, 4, 1, 4), (2, 3, 2, 2), (2, 3, 1, 3), (3, 2, 3, 2), (2, 4, 2, 1))
    for turn, (e, m) in enumerate((
        (0, 2), (-280, 2 ** 30), (0, -(2 ** 31)),  # m even
        (-281, 1), (252, -1), (-32768, 1), (32767, 1),  # e out of range
        (1, 0), (256, 0),  # m 0 and e not 0
    )):
        t, n, i, k = places[turn % len(places)]
        traces = some_traces(rnd, 1, n, t)
        traces[i - 1][k - 1] = pair_bytes(e, m)
        x.refused(f"e {e}, m {m} isn't canonical", joined(some_fields(rnd, traces)), 13,
                  place_of_pair(i, n, k), code=1)
    traces = some_traces(rnd, 2, 3, 2)
    traces[0][2] = traces[1][0] = pair_bytes(0, 4)
    x.refused("two pairs that aren't canonical", joined(some_fields(rnd, traces)), 13, place_of_pair(1, 3, 3))


# ---------------------------------------------------------- the scalars

MOST_NUMBER, LEAST_NUMBER = 2 ** 31 - 1, -(2 ** 31)
LONG = 214748365  # the least number that takes no further zero, above zero and below


def scalars(x, rnd):
    """Elevations and coordinates: N is 1."""
    def record(*headers, **named):
        return joined(fields(*headers, **named))

    def fields(*headers, traces=None):
        return some_fields(rnd, traces or [whole(i) for i in range(len(headers))],
                           trace_fields=dict(enumerate(headers, 1)))

    def group(field, scalar, *numbers):
        """Numbers from a group's first field on; zeros are behind them, and in the other group."""
        zeros = {b: 0 for some in GROUPS.values() for b in some}
        return {**zeros, 69: -10000, 71: -10000, field: scalar, **dict(zip(GROUPS[field], numbers))}

    def both(first, elevations, second, coordinates):
        return {**group(69, first, *elevations), 71: second, **dict(zip(GROUPS[71], coordinates))}

    # taken: every scalar with numbers at the edges, the one that takes no zero now first, now last
    headers = [both(-10000, [], -10000, [])]
    for first, second in zip(RECORD_SCALARS, RECORD_SCALARS[::-1]):
        for turn, number in enumerate((LONG, -LONG, MOST_NUMBER, LEAST_NUMBER)):
            step = (1, -1)[turn % 2]
            headers.append(both(first, [1, -1, 0, 7, 20, 300, number][::step], second, [number, 5, 0, -4000][::step]))
    for number in (1, -1, 21474836, LONG - 1, 1 - LONG):
        headers.append(both(-10000, [number] * 7, -10000, [number] * 4))
    x.taken("every scalar, numbers at the edges", record(*headers), 3, len(headers), 1)
    x.taken("every field long, each group at another power", record(
        {**{b: LONG + b for b in GROUPS[69]}, **{b: -LONG - b for b in GROUPS[71]}, 69: 1000, 71: -100}), 1, 1, 1)

    # 13: another scalar than the smallest power's
    for field, scalar, numbers in (
        (69, 0, [0]), (71, 0, [LONG]), (69, -1, [LEAST_NUMBER]), (69, 7, [MOST_NUMBER]),
        (69, 1, [LONG - 1] * 7), (71, 1, [1 - LONG] * 4), (69, 10000, [21]), (71, 0x1027, [LONG]),  # 10000 is 2710
    ):
        x.refused(f"field {field} is {scalar}, numbers {numbers}", record(group(field, scalar, *numbers)),
                  13, place_of_field(1, 1, field))
    # the long number stands in the other group, in a field beside, or in another trace
    x.refused("field 69 1, only coordinates are long", record({**group(71, 1, LONG), 69: 1}),
              13, place_of_field(1, 1, 69))
    x.refused("field 69 1, only field 37 is long", record({**group(69, 1), 37: MOST_NUMBER}),
              13, place_of_field(1, 1, 69))
    x.refused("field 71 1, only field 89 isn't 0", record({**group(71, 1), 89: -1}), 13, place_of_field(1, 1, 71))
    x.refused("field 71 10 in trace 2, long in trace 1", record(group(71, 10, LONG), group(71, 10, 1)),
              13, place_of_field(2, 1, 71))
    # the order in tag 03: 69, 71, 115, 117; before it 12, after it tag 04
    wrong = {**group(69, 0), 71: 0, 115: 0, 117: 0}
    a = fields(wrong)
    x.refused("fields 69, 71, 115 and 117, and tag 04", joined(a[:3] + [retagged(a[3], 5)] + a[4:]),
              13, place_of_field(1, 1, 69))
    x.refused("tag 03 cut short, its scalars wrong", joined(a[:3])[:-1], 12, 3266)
    x.refused("fields 71, 115 and 117", record({**wrong, 69: -10000}), 13, place_of_field(1, 1, 71))
    # across traces: a pair of trace 1 first, and 13 before 14
    x.refused("a pair of trace 1, field 69 of trace 2", record(
        group(69, -10000), group(69, 0), traces=[[pair_bytes(0, 2)], whole(1)]), 13, place_of_pair(1, 1, 1))
    x.refused("14 in trace 1, field 71 of trace 2", record(
        group(69, -10000), group(71, -1), traces=[[pair_bytes(251, 3)], whole(1)]), 13, place_of_field(2, 1, 71))


# -------------------------------------------------------------- the order


def order(x, rnd):
    """Several causes at once. N is 2 and the interval 2000 where nothing else is said."""
    even, unfit = pair_bytes(0, 2), pair_bytes(251, 3)

    def fields(*traces, **named):
        return some_fields(rnd, [list(trace) for trace in traces], n=2, **named)

    one = whole(1, -2)
    # 12 before 13 within a field
    a = fields()
    x.refused("tag 01 wrong, its first card byte 00",
              joined([retagged(with_bytes(a[0], 3, b"\x00"), 9)] + a[1:]), 12, 0)
    x.refused("tag 01 cut short, its first card byte 00", b"\x01\x0C\x80\x00", 12, 0)
    a = fields(fields={3217: 0})
    x.refused("tag 02 of wrong length, its interval 0", joined([a[0], relengthed(a[1], 61), a[2]]), 12, 3203)
    a = fields(one, trace_fields={1: {115: 3}})
    x.refused("tag 03 of wrong length, its field 115 wrong", joined(a[:2] + [relengthed(a[2], 181)] + a[3:]),
              12, 3266)
    a = fields([even, one[0]])
    x.refused("tag 04 cut short, its first pair even", joined(a[:4])[:-1], 12, place_of_samples(1, 2))
    # 13 in an earlier field before 12 in a later one
    a = fields(one)
    bad = with_bytes(a[0], 3202, b"\x00")
    x.refused("last card byte 00, tag 02 wrong", joined([bad, retagged(a[1], 3)] + a[2:]), 13, 3202)
    a = fields(one, fields={3225: 1})
    x.refused("code 1 in tag 02, tag 03 wrong", joined(a[:2] + [retagged(a[2], 4)] + a[3:]), 13, 3230)
    a = fields(one, trace_fields={1: {117: 0}})
    x.refused("field 117 wrong, nothing follows", joined(a[:3]), 13, place_of_field(1, 2, 117))
    a = fields([one[0]], trace_fields={1: {115: 1}})
    x.refused("field 115 and the samples of 1, N 2", joined(a), 13, place_of_field(1, 2, 115))
    a = fields([one[0], even], one)
    x.refused("the last pair of trace 1 even, tag 03 of trace 2 wrong",
              joined(a[:4] + [retagged(a[4], 6)] + a[5:]), 13, place_of_pair(1, 2, 2))
    x.refused("the last pair even, no tag 05", joined(a[:4]), 13, place_of_pair(1, 2, 2))
    x.refused("the last pair even, bytes after the record",
              joined(fields(one, [one[0], even])) + b"\x00", 13, place_of_pair(2, 2, 2))
    # 12 in an earlier field before 13 in a later one
    a = fields([even, even], fields={3217: 0}, trace_fields={1: {115: 0}})
    x.refused("tag 02 wrong, all else too", joined([a[0], retagged(a[1], 1)] + a[2:]), 12, 3203)
    a = fields(one, [even, even], trace_fields={2: {115: 0}})
    x.refused("tag 04 wrong in trace 1, all wrong in trace 2", joined(a[:3] + [retagged(a[3], 5)] + a[4:]),
              12, place_of_samples(1, 2))
    # 13 before 13, front to back
    a = fields([even, even], fields={3217: 0, 3221: 0}, trace_fields={1: {115: 0, 117: 0}})
    x.refused("a card byte 00, all numbers wrong", joined([with_bytes(a[0], 2000, b"\x00")] + a[1:]), 13, 2000)
    a = fields([even, even], fields={3221: 32768}, trace_fields={1: {115: 0, 117: 0}})
    x.refused("N wrong, and all numbers of trace 1", joined(a), 13, 3226)
    a = fields([even, even], one, trace_fields={1: {117: 1999}, 2: {115: 3}})
    x.refused("field 117 and the pairs of trace 1, field 115 of trace 2", joined(a),
              13, place_of_field(1, 2, 117))
    a = fields([one[0], even], one, trace_fields={2: {115: 3}})
    x.refused("a pair of trace 1, field 115 of trace 2", joined(a), 13, place_of_pair(1, 2, 2))
    # the count before what stands after it
    a = fields(one)
    x.refused("a wrong count and bytes after it", joined(a[:-1]) + bytes.fromhex("050004 00000002 00"),
              12, place_of_end(1, 2))
    # 12 and 13 before 14
    a = fields([unfit, one[0]], one)
    x.refused("14 in trace 1, bytes after the record", joined(a) + b"\x05", 12, place_of_end(2, 2) + 7)
    x.refused("14 in trace 1, a wrong count", joined(a[:-1]) + bytes.fromhex("050004 00000001"),
              12, place_of_end(2, 2))
    x.refused("14 in trace 1, trace 2 cut short", joined(a[:6])[:-1], 12, place_of_samples(2, 2))
    a = fields([unfit, one[0]], [one[0], even])
    x.refused("14 in trace 1, 13 in the last pair of trace 2", joined(a), 13, place_of_pair(2, 2, 2))
    a = fields([unfit, one[0]], one, trace_fields={2: {117: 0}})
    x.refused("14 in trace 1, 13 in field 117 of trace 2", joined(a), 13, place_of_field(2, 2, 117))
    a = fields([unfit, even])
    x.refused("14, then 13 in the next pair", joined(a), 13, place_of_pair(1, 2, 2))
    # 14, first sample first, before 10
    record = joined(fields([one[0], unfit], [unfit, one[0]]))
    for code, some in ((1, 4096), (2, 0), (3, 4087), (4, 4095), (5, 4096), (8, 4083)):
        x.refused(f"14 in traces 1 and 2, room {some}", record, 14, place_of_pair(1, 2, 2), code, some)
    # 12 and 13 before 10
    a = fields(one)
    x.refused("no room, bytes after the record", joined(a) + b"\x00", 12, len(joined(a)), 2, 0)
    x.refused("one byte short, an even pair", joined(fields([one[0], even])),
              13, place_of_pair(1, 2, 2), 3, 3843)
    # 11 before all
    a = fields([unfit, even], fields={3217: 0})
    x.refused("11, 12, 13, 14 and 10", joined([retagged(a[0], 0)] + a[1:]), 11, 0, 0, 0)
    x.refused("11, 14 and 10", joined(fields([unfit, unfit])), 11, 0, 6, 3600)
    x.refused("11 and 10", joined(fields(one)), 11, 0, 9, 3847)


# ----------------------------------------------------------- small changes


def small_changes(x, rnd):
    """Good records with a byte changed where it counts, or cut, or with bytes added."""
    for turn in range(8):
        code, n, t = CODES[rnd.getrandbits(16) % 6], 1 + rnd.getrandbits(2), 1 + rnd.getrandbits(1)
        record = bytearray(joined(some_fields(rnd, some_traces(rnd, code, n, t))))
        i, k = 1 + rnd.getrandbits(16) % t, 1 + rnd.getrandbits(16) % n
        first, span = (
            (0, len(record)), (3203, 3), (3222, 10), (place_of_trace(i, n), 3),
            (place_of_field(i, n, 113), 8), (place_of_samples(i, n), 3), (place_of_pair(i, n, k), 6),
            (place_of_end(t, n), 7),
        )[turn]
        place = first + rnd.getrandbits(16) % span
        record[place] ^= 1 << rnd.getrandbits(3)
        x.put(f"code {code}, N {n}, T {t}, the byte at place {place} changed to {record[place]:02X}",
              bytes(record), code, reel_length(t, n, code))


def any_bytes(x, rnd):
    """Short input of any bytes, and short input that begins well."""
    for code in CODES:
        for front in ("00", "01", "0500040000 0000", "010C8040404040"):
            record = bytes.fromhex(front) + some_bytes(rnd, rnd.getrandbits(5))
            x.refused(f"some {len(record)} bytes, code {code}", record, 12, 0, code, 1 + rnd.getrandbits(9))
    for _ in range(8):
        record, code = some_bytes(rnd, rnd.getrandbits(6)), rnd.getrandbits(8) | 16
        x.refused(f"any {len(record)} bytes, code {code}", record, 11, 0, code, rnd.getrandbits(9))


# --------------------------------------------------------- nearest writing

# Pairs (e, m) of all sizes, and the codes that they don't fit.
ANY_SIZE = [
    (0, 0, ()), (0, 1, ()), (-1, -1, (2, 3, 8)), (-1, 3, (2, 3, 8)), (2, 25, ()), (7, -1, ()), (7, 1, (8,)),
    (15, -1, (8,)), (15, 1, (3, 4, 8)), (31, -1, (3, 4, 8)), (31, 1, (2, 3, 4, 8)),
    (0, 16777217, (1, 3, 4, 5, 8)), (1, 16777215, (1, 3, 4, 8)), (-2, 67108863, CODES),
    (-149, 1, (2, 3, 8)), (-150, -3, (2, 3, 5, 8)), (-256, 3, (2, 3, 4, 5, 8)), (-280, 1, (2, 3, 4, 5, 8)),
    (104, -16777215, (2, 3, 4, 8)), (128, 1, (2, 3, 4, 5, 8)), (228, 16777215, (2, 3, 4, 5, 8)), (251, -3, CODES),
    (-16, 65535, (2, 3, 4, 8)), (-1, -65537, (2, 3, 4, 8)),
]

# The exponents at which m of 31 bits is within the range of a code, and fits it nowhere.
LONG_MANTISSAS = {1: (-276, 220), 2: (-31, -1), 3: (-31, -17), 4: (-280, -17), 5: (-179, 96), 8: (-31, -25)}


def long_mantissa(rnd, code):
    """A random pair with 31 bits in m that the code rounds."""
    least, most = LONG_MANTISSAS[code]
    m = 2 ** 30 + rnd.getrandbits(30) | 1
    return pair_bytes(least + rnd.getrandbits(16) % (most - least + 1), (1 - 2 * rnd.getrandbits(1)) * m)


def nearest_writing(x, rnd):
    """Samples at halves and ends, of all sizes, and the causes in their order."""
    record = read_reel(example(), 3471)[1]
    x.nearest("the paper's example, -949/8 becomes -119", record, 3, 1, 2, 1, 3)
    x.nearest("the paper's example, which fits", record, 1, 1, 2, 0)
    x.refused("the paper's example, one byte short", record, 10, 3842, 8, 3841, write_nearest)
    x.nearest("no traces", make_record(9, 7), 5, 0, 7, 0, 1)
    # the examples worked out by hand, every one of which changes
    for code in CODES:
        some = examples(code)
        n = (len(some) + 1) // 2
        traces = [some[:n], some[-n:]]
        record = joined(some_fields(rnd, [pairs((e, m) for e, m, _ in trace) for trace in traces]))
        x.nearest(f"halves and ends, code {code}", record, code, 2, n, 2 * n)
        reel = write_nearest(record, code, MOST)[-1]
        for i, trace in enumerate(traces, 1):
            end = reel_length(i, n, code)
            assert reel[end - n * sample_size(code) : end] == b"".join(word for _, _, word in trace)
    # the same two traces under every code, and one of mantissas that fit nowhere
    traces = [pairs((e, m) for e, m, _ in ANY_SIZE[:12]), pairs((e, m) for e, m, _ in ANY_SIZE[12:])]
    for code in CODES:
        record = joined(some_fields(rnd, [*traces, [long_mantissa(rnd, code) for _ in range(12)]]))
        changed = 12 + sum(code in codes for _, _, codes in ANY_SIZE)
        x.nearest(f"samples of any size, code {code}", record, code, 3, 12, changed, code % 3)

    # 11, then 12 and 13 front to back, then 10; what doesn't fit is no cause
    def refused(*case):
        x.refused(*case, write_nearest)

    for code in (0, 6, 7, 9, 128, 255):
        refused(f"code {code}, an empty record", b"", 11, 0, code, 7)
    for code, front in zip(CODES, ("", "01", "02003C", "010C80", "010C8000", "050004 00000000")):
        front = bytes.fromhex(front)
        refused(f"{len(front)} bytes, code {code}", front, 12, 0, code, 4 * code)
    unfit, even, one = pair_bytes(251, 3), pair_bytes(0, 2), pair_bytes(0, 1)
    a = some_fields(rnd, [[unfit, unfit], [unfit, one]])
    refused("code 10, a good record", joined(a), 11, 0, 10, 4200)
    refused("the last card byte 00, nothing follows", with_bytes(a[0], 3202, b"\x00"), 13, 3202, 4, 3603)
    refused("samples don't fit, a wrong count", joined(a[:-1]) + bytes.fromhex("050004 00000001"),
            12, place_of_end(2, 2), 2, reel_length(2, 2, 2))
    refused("samples don't fit, one byte short", joined(a), 10, reel_length(2, 2, 8), 8, reel_length(2, 2, 8) - 1)
    refused("samples don't fit, no room", joined(a), 10, reel_length(2, 2, 5), 5, 0)
    a = some_fields(rnd, [[unfit, unfit], [unfit, even]])
    refused("samples don't fit, the last pair even", joined(a), 13, place_of_pair(2, 2, 2), 3, 4500)


# ------------------------------------------------------------ long traces


def long_traces(x, rnd):
    """Traces of several fields and of the earlier form. The places are by hand.

    Trace 1 begins at place 3266 and its first field of samples at 3449; a second one begins at 39452, a third at 75455.
    """
    def fields(n, traces, earlier=(), some=rnd):
        return some_fields(some, traces, n=n, earlier=earlier)

    # whole fields, and one sample less
    for n, code in ((5999, 8), (6000, 2)):
        x.taken(f"{n} samples", joined(fields(n, some_long(rnd, n, 1))), code, 1, n)
    # the same trace in both forms, all else the same too: one reel, and it comes back in the new form
    traces, lines = some_long(rnd, 6001, 1), set()
    for earlier, length in (((), 39468), ((1,), 39465)):
        record = joined(fields(6001, traces, earlier, random.Random(6001)))
        assert len(record) == length
        x.taken(f"6,001 samples, of the {'earlier' if earlier else 'new'} form", record, 8, 1, 6001)
        lines.add(x.all[-1][2])
    assert len(lines) == 1
    x.taken("8,000 samples, of the earlier form", joined(fields(8000, some_long(rnd, 8000, 1), (1,))), 3, 1, 8000)
    x.taken("8,001 samples", joined(fields(8001, some_traces(rnd, 1, 8001, 1))), 1, 1, 8001, 7)
    x.taken("32,767 samples", joined(fields(32767, some_long(rnd, 32767, 1))), 3, 1, 32767)
    # each trace by itself
    traces = some_long(rnd, 6001, 2)
    x.taken("6,001 samples, trace 1 of the earlier form", joined(fields(6001, traces, (1,))), 1, 2, 6001)
    traces[0][6000], traces[1][5999], traces[1][6000] = pair_bytes(7, 1), pair_bytes(-1, 3), pair_bytes(251, -3)
    x.nearest("6,001 samples, trace 2 of the earlier form", joined(fields(6001, traces, (2,))), 8, 2, 6001, 3)

    # 12: what is neither form
    one = pair_bytes(0, 1)
    a = fields(8001, [[one] * 8001], (1,))
    x.refused("a single field of 8,001", joined(a), 12, 3449)
    a = fields(6001, some_long(rnd, 6001, 1))
    x.refused("6,001 samples, no second field", joined(a[:4] + a[5:]), 12, 39452)
    x.refused("6,001 samples, the second field cut short", joined(a[:5])[:-1], 12, 39452)
    x.refused("6,000 samples, a second field", joined(fields(6000, [[one] * 6000])[:4] + a[4:]), 12, 39452)
    a = fields(6001, some_long(rnd, 6001, 1), (1,))
    x.refused("6,001 samples, of the earlier form, then a second field", joined(a[:4] + [refilled(a[3], one)] + a[4:]),
              12, 39458)
    x.refused("6,001 samples, of the earlier form, cut short", joined(a[:4])[:-1], 12, 3449)
    # 13, field by field: a pair of the first before the second's form, and that before its pairs
    even = pair_bytes(0, 2)
    trace = some_long(rnd, 6001, 1)[0]
    a = fields(6001, [trace[:5999] + [even, even]])
    x.refused("the last pair of field 1 even, field 2 of wrong length", joined(a[:4] + [relengthed(a[4], 12)] + a[5:]),
              13, 39446)
    a = fields(6001, [trace[:6000] + [even]])
    x.refused("tag 05 for field 2, its pair even", joined(a[:4] + [retagged(a[4], 5)] + a[5:]), 12, 39452)
    x.refused("the pair of field 2 even", joined(a), 13, 39455)
    trace = some_long(rnd, 12001, 1)[0]
    x.refused("the pair of field 3 even", joined(fields(12001, [trace[:12000] + [even]])), 13, 75458)
    # in trace 2, behind a trace of the earlier form: it begins at 39458, its samples at 39641 and 75644
    traces = some_long(rnd, 6001, 2)
    traces[1][5999], traces[1][6000] = pair_bytes(-1, 1), even
    x.refused("trace 1 of the earlier form, the last pair of trace 2 even", joined(fields(6001, traces, (1,))), 13, 75647)
    traces[1][6000] = one
    x.refused("trace 1 of the earlier form, 14 in trace 2", joined(fields(6001, traces, (1,))), 14, 75638, 2)
    # 10: the reel's length, whatever the form
    x.refused("6,001 samples, of the earlier form, one byte short", joined(fields(6001, [trace[:6001]], (1,))),
              10, 9841, 8, 9840)


PARTS = (
    good_records, no_traces, long_records, edges, room, bad_codes, wrong_tags, wrong_lengths, cut_short,
    missing_and_twice, counts_and_more, wrong_numbers, wrong_trace_numbers, wrong_pairs, order,
    small_changes, any_bytes, scalars, nearest_writing, long_traces,
)


def all_cases():
    x = Cases()
    for seed, part in enumerate(PARTS):
        part(x, random.Random(1975 + seed))
    return x


def main():
    x = all_cases()
    text_out = "".join(line + "\n" for _, _, line in x.all)
    files = {"stdin": b"".join(case for _, case, _ in x.all), "stdout": text_out.encode("ascii")}
    assert len(files["stdin"]) < MOST_STDIN
    if sys.argv[1:] == ["--check"]:
        for name, content in files.items():
            if (FOLDER / name).read_bytes() != content:
                sys.exit(f"write_vectors.py: {FOLDER.name}/{name} isn't what the rules give")
        print(f"write_vectors.py: {len(x.all)} vectors are what the rules give")
        return
    if sys.argv[1:] == ["--list"]:
        for turn, (what, _, line) in enumerate(x.all, 1):
            print(f"{turn:5d}  {line}  ({what})")
        return
    for name, content in files.items():
        (FOLDER / name).write_bytes(content)
    for kind in sorted(x.kinds):
        print(f"{x.kinds[kind]:5d}  {kind}")
    print(f"{len(x.all):5d}  cases, {len(files['stdin'])} bytes")


if __name__ == "__main__":
    main()
