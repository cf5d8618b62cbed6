"""Test vectors for reading Eagle reels, and plain reels beside them, from document 02's CR 7 and CR 8 alone.

Run from the root of the repository:  python3 tools/vectors/eagle_vectors.py [--check | --list]
It rewrites crates/eagle_vectors/stdin and crates/eagle_vectors/stdout; with
--check it compares them with what it would write, and with --list it prints
what each case is about beside its line, and neither writes anything.

The rules are those of tools/vectors/eagle.py, and for plain reels those of
tools/vectors/reels.py. Beside them nearly every case has its answer worked out
by hand, and both must agree. The record of each Eagle reel is that of the plain
reel without its trailers and its check.

stdin is a row of cases without anything between them, at most 1,400,000 bytes:
    1 byte     call: 1 reads a plain reel, 2 an Eagle reel
    4 bytes    room, the length of the output, big-endian, at most 210,000
    4 bytes    length of the reel, big-endian, at most 210,000
    the reel

The output holds bytes A5 before each call. stdout has a line for each case:
    taken T N LENGTH COUNT DIGEST
    refused NUMBER BESIDE DIGEST
COUNT is how many words of the reel are not normal. DIGEST is that of the whole
output after the call, all its room. A digest is 0 at first, and each byte b
makes (digest * 31 + b) mod 2^32 of it. All numbers are decimal.

Trace 100,001 can't be reached here: 100,000 traces take 120 million bytes.
eagle.py checks the rules there.
"""

import random
import sys
from collections import Counter
from pathlib import Path

sys.path.insert(0, str(Path(__file__).resolve().parent))
sys.dont_write_bytecode = True

from eagle import (  # noqa: E402
    both_layouts, example_eagle, one_trace_or_four, random_eagle, read_eagle, some_trailer, trace_size, trailer,
    with_trailers, without_trailers,
)
from records import make_record, some_long, with_bytes, word_of_pair  # noqa: E402
from reels import (  # noqa: E402
    BINARY_FIELDS, SCALARS, TRACE_FIELDS, example, gain, ieee, make_reel, make_trace, random_reel, read_into, read_reel,
    record_length, some_bytes, some_sample,
)
from samples import CODES, NO_VALUES, NORMAL, NOT_NORMAL, pair_bytes  # noqa: E402
from write_vectors import digest  # noqa: E402

FOLDER = Path(__file__).resolve().parents[2] / "crates" / "eagle_vectors"

PLAIN, EAGLE = 1, 2
MOST = 210000  # of room and of a reel
MOST_STDIN = 1400000
FILLING = b"\xA5"


class Cases:
    def __init__(self):
        self.all = []  # what it is in words, the bytes of the case, its line
        self.seen = set()
        self.kinds = Counter()

    def put(self, what, call, reel, room, by_hand=None, record_by_hand=None):
        """A case; the line's beginning and the record where they were worked out by hand."""
        reel = bytes(reel)
        assert room <= MOST and len(reel) <= MOST
        read, name = {PLAIN: (read_reel, "plain"), EAGLE: (read_eagle, "Eagle")}[call]
        said, output = read_into(reel, FILLING * room, read)
        if said[0] == "taken":
            record = output[: said[3]]
            assert record_by_hand in (None, record), what
            assert output[said[3] :] == FILLING * (room - said[3])
            if call == EAGLE:
                assert read_reel(without_trailers(reel), said[3]) == (said, record)
            self.kinds[f"{name}, taken"] += 1
        else:
            assert output == FILLING * room and record_by_hand is None
            self.kinds[f"{name}, refused by {said[1]}"] += 1
        line = " ".join(str(item) for item in said)
        assert by_hand in (None, line), (what, by_hand, line)
        case = bytes([call]) + room.to_bytes(4, "big") + len(reel).to_bytes(4, "big") + reel
        assert case not in self.seen, what
        self.seen.add(case)
        self.all.append((f"{name}: {what}", case, f"{line} {digest(output)}"))

    def taken(self, what, reel, t, n, count, more=0, call=EAGLE, record=None):
        """A reel that is taken; the room is what the record needs, and so much more."""
        length = 3273 + t * (183 + 3 * -(-n // 6000) + 6 * n)
        self.put(what, call, reel, length + more, f"taken {t} {n} {length} {count}", record)

    def refused(self, what, reel, number, beside, room=None, call=EAGLE):
        """A reel that is refused, with any room if none is named."""
        if room is None:
            room = (4600, 0, 3273, 5000, 3471)[len(self.all) % 5]
        self.put(what, call, reel, room, f"refused {number} {beside}")


ONE, NEGATIVE = bytes.fromhex("41100000"), bytes.fromhex("C276A000")


def count_in(reel, n):
    """How many samples of an Eagle reel are words that are not normal, one by one."""
    places = (start + 240 + 4 * k for start in range(3600, len(reel), 1200 + 4 * n) for k in range(n))
    words = (reel[place : place + 4] for place in places)
    return sum(word != bytes(4) and (word[1:] == bytes(3) or word[0] % 128 > 0 and word[1] < 16) for word in words)


def reel_of(rnd, t, fields=None, ends=None, rest=None):
    """Traces of two words, the example's; trace fields and ends of trailers by the number of the trace.

    A trace has 248 bytes and its trailer 960: they begin at places 3600, 4808
    and 6016, and the trailers end at 4808, 6016 and 7224.
    """
    return make_reel(2000, 2, 1, [
        make_trace([ONE, NEGATIVE], (fields or {}).get(i))
        + trailer(rest or some_bytes(rnd, 958), (ends or {}).get(i, b"\xFF\xFF"))
        for i in range(1, t + 1)])


# ------------------------------------------------------------------- taken


def good_reels(x, rnd):
    record = read_reel(example(), 3471)[1]
    reel = example_eagle()
    x.taken("the example with a trailer, exact room", reel, 1, 2, 0, record=record)
    x.refused("the example with a trailer, one byte short", reel, 10, 3471, 3470)
    x.refused("the example with a trailer, no room", reel, 10, 3471, 0)
    x.taken("the example with any trailer", example_eagle(some_bytes(rnd, 958)), 1, 2, 0, 29, record=record)
    pairs = [pair_bytes(0, 1), pair_bytes(-3, -949)]
    x.taken("three traces", reel_of(rnd, 3), 3, 2, 0, record=make_record(2000, 2, [pairs] * 3))
    x.refused("three traces, room for two", reel_of(rnd, 3), 10, 3867, 3669)
    # all other bytes random, unassigned ones, trailers and check too
    for t, n, more in ((1, 40, 1), (2, 17, 0), (4, 6, 300), (3, 1, 5)):
        reel = random_eagle(rnd, n, t, 1 + rnd.getrandbits(14))
        x.taken(f"any reel of {t} traces of {n} samples", reel, t, n, count_in(reel, n), more)
    # every field has a number of its own, all FF, all 00
    binary = {b: b for b in BINARY_FIELDS if b not in (3217, 3221, 3225)}
    header = {b: 256 * i - b for i, b in enumerate(TRACE_FIELDS) if b not in (69, 71, 115, 117)}
    held = {b: 10000 * number if 41 <= b <= 65 or 73 <= b <= 85 else number for b, number in header.items()}
    reel = make_reel(500, 1, 1, [make_trace([ONE], header) + trailer()] * 2, fields=binary)
    x.taken("every field of its own", reel, 2, 1, 0,
            record=make_record(500, 1, [pairs[:1]] * 2, fields=binary, trace_fields={1: held, 2: held}))
    traces = [make_trace([b"\xFF" * 4], {115: 1, 117: 32767, 69: -1, 71: -1}, b"\xFF" * 240) + trailer(b"\xFF" * 958),
              make_trace([bytes(4)]) + trailer()]
    x.taken("all FF, then all 00", make_reel(32767, 1, 1, traces, b"\xFF" * 3200, rest=b"\xFF" * 400), 2, 1, 0)
    # field 169 is a bare number, a dead trace has its samples, and the headers' last two bytes are no fields
    fields = {29: 2, 169: 3}
    trace = make_trace([NEGATIVE], fields, bytes(238) + b"\x12\x34") + trailer()
    x.taken("field 29 is 2 and 169 is 3, checks behind the headers",
            make_reel(2000, 1, 1, [trace], rest=bytes(398) + b"\x56\x78"), 1, 1, 0,
            record=make_record(2000, 1, [pairs[1:]], trace_fields={1: fields}))


def long_reels(x, rnd):
    words = [NOT_NORMAL[k % len(NOT_NORMAL)] if k % 100 == 7 else some_sample(rnd, 1) for k in range(8000)]
    reel = with_trailers(make_reel(1, 8000, 1, [make_trace(words)]), [some_trailer(rnd)])
    x.taken("8,000 samples", reel, 1, 8000, count_in(reel, 8000))
    reel = random_eagle(rnd, 1, 12)
    x.taken("12 traces of one sample", reel, 12, 1, count_in(reel, 1))
    x.refused("12 traces, the last trailer", with_bytes(reel, len(reel) - 2, b"\xFF\xF7"), 20, 3600 + 12 * 1204 - 2)


def words(x, rnd):
    """Words that are not normal count where they are samples, and not in a trailer."""
    rest = (b"".join(NOT_NORMAL) * 9)[:958]
    for some, count in ((NOT_NORMAL, 27), (NORMAL, 0)):
        traces = [make_trace(some) + trailer(rest), make_trace(some[::-1]) + trailer(rest)]
        x.taken(f"two traces of {len(some)} words, {count} not normal", make_reel(9, len(some), 1, traces),
                2, len(some), 2 * count)
    reel = with_bytes(reel_of(rnd, 2, rest=rest), 4808 + 244, NOT_NORMAL[5])
    x.taken("the last sample not normal, and all words of the trailers", reel, 2, 2, 1)
    # words that codes 4 and 5 refuse
    some = [bytes.fromhex(word) for word in ("FFFFFFFF", "7F800000", "01000000", "0000FFFF")]
    x.taken("words of any first byte", make_reel(9, 4, 1, [make_trace(some) + trailer()]), 1, 4, 1)


def cards(x, rnd):
    """Columns 79 and 80 of card 40 are blanks, whatever they hold; reels without traces."""
    headers = make_reel(2000, 2, 1)

    def put(what, reel, cards):
        x.taken(what, reel, 0, 2, 0, record=make_record(2000, 2, (), cards))

    blanks = b"\x40" * 3200
    put("no traces, cards of blanks", headers, blanks)
    for check in ("0000", "C1C2", "FFFF", "40C3", "C340", "0001"):
        put(f"card 40 ends in {check}", with_bytes(headers, 3198, bytes.fromhex(check)), blanks)
    put("card 39 ends in C1C2", with_bytes(headers, 3118, b"\xC1\xC2"), blanks[:3118] + b"\xC1\xC2" + blanks[3120:])
    put("card 40 is all F7", with_bytes(headers, 3120, b"\xF7" * 80), blanks[:3120] + b"\xF7" * 78 + b"\x40\x40")
    put("columns 77 and 78 of card 40 are 00F8", with_bytes(headers, 3196, b"\x00\xF8\xF9\xF9"),
        blanks[:3197] + b"\xF8\x40\x40")
    put("all card bytes 00", bytes(3200) + headers[3200:], blanks)
    put("all card bytes FF", b"\xFF" * 3200 + headers[3200:], b"\xFF" * 3198 + b"\x40\x40")
    every = bytes(i % 256 for i in range(7, 3207))
    put("every card byte", every + headers[3200:], bytes(b or 0x40 for b in every[:3198]) + b"\x40\x40")
    x.refused("no traces, one byte short", with_bytes(headers, 3199, b"\x01"), 10, 3273, 3272)
    x.taken("no traces, the longest room", make_reel(1, 32767, 1, cards=every), 0, 32767, 0, MOST - 3273)


# ----------------------------------------------------------------- refused


def headers(x, rnd):
    """Numbers 1 to 4."""
    good = example_eagle()
    for length in (0, 1, 3199, 3200, 3599):
        x.refused(f"{length} bytes", good[:length], 1, length)
    for code in (*CODES[1:], 0, 6, 256, 257):
        x.refused(f"code {code}, no traces", make_reel(2000, 2, code), 2, 3224)
    x.refused("code 2", with_bytes(good, 3225, b"\x02"), 2, 3224)
    x.refused("code 5", with_bytes(good, 3225, b"\x05"), 2, 3224)
    plain = random_reel(rnd, 3, 2, 1)
    x.refused("code 3, a trailer behind its short samples", plain + trailer(), 2, 3224)
    for n in (0, 32768, 40768, 65535):
        x.refused(f"N {n}", make_reel(2000, n, 1), 3, 3220)
    for interval in (0, 32768, 65535):
        x.refused(f"interval {interval}", make_reel(interval, 2, 1), 4, 3216)


def lengths(x, rnd):
    """Number 5: reels that end elsewhere than behind a trailer."""
    reel = reel_of(rnd, 3)
    for length, behind, what in (
        (3601, 3600, "one byte behind the headers"), (3848, 3600, "behind trace 1's samples"),
        (4807, 3600, "before the last byte of trailer 1"), (4809, 4808, "one byte behind trailer 1"),
        (5056, 4808, "behind trace 2's samples"), (6014, 4808, "before the last two bytes of trailer 2"),
        (7223, 6016, "before the last byte of trailer 3"),
    ):
        x.refused(f"a reel that ends {what}", reel[:length], 5, behind)
    for length, t in ((4808, 1), (6016, 2)):
        x.taken(f"a reel that ends behind trailer {t}", reel[:length], t, 2, 0)
    x.refused("two bytes FF behind trailer 3", reel + b"\xFF\xFF", 5, 7224)
    x.refused("a trailer more", reel + trailer(), 5, 7224)
    x.refused("N one less", with_bytes(reel, 3221, b"\x01"), 5, 7212)
    x.refused("N one more", with_bytes(reel, 3221, b"\x03"), 5, 6024)
    x.refused("trailer 2 left out but for its end", reel[: 4808 + 248] + b"\xFF\xFF", 5, 4808)
    # a dead station's trace without its samples isn't known as such
    dead = make_trace([], {29: 2}) + trailer()
    x.refused("samples omitted", reel[:4808] + dead, 5, 4808)
    x.refused("the front of a trace of 8,000 samples", make_reel(1, 8000, 1, [bytes(3000)]), 5, 3600)


def trailers(x, rnd):
    """Number 20, at the first of the two bytes whichever differs; what stands before them is nothing."""
    for end in ("0000", "FF00", "00FF", "FEFF", "FFFE", "7FFF", "FF7F", "EFFF", "FFF0"):
        reel = with_bytes(example_eagle(some_bytes(rnd, 958)), 4806, bytes.fromhex(end))
        x.refused(f"a trailer ends in {end}", reel, 20, 4806)
    x.refused("FFFF a byte early", with_bytes(example_eagle(), 4805, b"\xFF\xFF\x00"), 20, 4806)
    x.refused("FF all over but at the end", with_bytes(example_eagle(b"\xFF" * 958), 4806, b"\xFE\xFE"), 20, 4806)
    for i, place, end in ((1, 4806, b"\xFF\x01"), (2, 6014, b"\x80\xFF"), (3, 7222, b"\xFF\xDF"), (3, 7222, b"\xFD\xFF")):
        x.refused(f"trailer {i} of three ends in {end.hex()}", reel_of(rnd, 3, ends={i: end}), 20, place)
    x.refused("trailers 2 and 3", reel_of(rnd, 3, ends={2: b"\xFF\x00", 3: b"\x00\x00"}), 20, 6014)


def traces(x, rnd):
    """Numbers 7, 8 and 18, in each trace; and what fields 115 and 117 may be."""
    x.taken("fields 115 and 117 now 0, now not", reel_of(rnd, 3, {1: {115: 2}, 2: {117: 2000}, 3: {115: 2, 117: 2000}}),
            3, 2, 0, record=make_record(2000, 2, [[pair_bytes(0, 1), pair_bytes(-3, -949)]] * 3))
    for i, start in ((1, 3600), (2, 4808)):
        for field, number, wrong in ((115, 7, 3), (117, 8, 1999), (69, 18, 7), (71, 18, -9999)):
            x.refused(f"field {field} of trace {i} is {wrong}", reel_of(rnd, 2, {i: {field: wrong}}),
                      number, start + field - 1)
    # every scalar that is allowed, in one trace each
    fields = [{41: 3, 69: scalar, 71: -scalar, 85: 700} for scalar in SCALARS]
    x.taken("every scalar", make_reel(2000, 1, 1, [make_trace([ONE], some) + trailer() for some in fields]),
            len(SCALARS), 1, 0)


def order(x, rnd):
    """Several causes at once, in two traces."""
    bad = (b"\xFF\x00", b"\x00\xFF", b"\x00\x00")
    wrong = {115: 3, 117: 3, 69: 7, 71: 7}
    reel = reel_of(rnd, 2, {1: wrong, 2: wrong}, {1: bad[0], 2: bad[1]}) + b"\x00"
    reel = with_bytes(with_bytes(with_bytes(reel, 3224, b"\x00\x02"), 3220, b"\x00\x00"), 3216, b"\x00\x00")
    x.refused("code, N, interval, length and traces", reel, 2, 3224)
    reel = with_bytes(reel, 3224, b"\x00\x01")
    x.refused("N, interval, length and traces", reel, 3, 3220)
    reel = with_bytes(reel, 3220, b"\x00\x02")
    x.refused("interval, length and traces", reel, 4, 3216)
    reel = with_bytes(reel, 3216, b"\x07\xD0")
    x.refused("length and traces", reel, 5, 6016)
    reel = reel[:-1]
    for field, number in ((115, 7), (117, 8), (69, 18), (71, 18)):
        x.refused(f"trace 1 from field {field} on, and trace 2", reel, number, 3600 + field - 1)
        reel = with_bytes(reel, 3600 + field - 1, b"\x00\x00")
    x.refused("trailer 1, and trace 2", reel, 20, 4806)
    x.refused("trace 2", with_bytes(reel, 4806, b"\xFF\xFF"), 7, 4808 + 114)
    for field, number in ((115, 7), (117, 8), (69, 18), (71, 18)):
        fields = {2: {field: wrong[field]}}
        x.refused(f"trailer 1, field {field} of trace 2", reel_of(rnd, 2, fields, {1: bad[0]}), 20, 4806)
        x.refused(f"field {field} of trace 2, trailer 2", reel_of(rnd, 2, fields, {2: bad[1]}), number, 4808 + field - 1)
    x.refused("trailer 2, field 115 of trace 3", reel_of(rnd, 3, {3: {115: 1}}, {2: bad[2]}), 20, 6014)
    x.refused("trailer 2, no room", reel_of(rnd, 2, ends={2: bad[1]}), 20, 6014, 0)
    x.refused("trailer 2, one byte short", reel_of(rnd, 2, ends={2: bad[0]}), 20, 6014, 3668)
    x.refused("trailer 1, enough room", reel_of(rnd, 2, ends={1: bad[0]}), 20, 4806, 3669)


# -------------------------------------------------------- either layout


def either(x, rnd):
    """Bytes that both calls take, each with its own T; and bytes that one takes and the other refuses."""
    def both(what, reel, n, t, plain_t, counts, records=(None, None)):
        x.taken(what, reel, t, n, counts[0], record=records[0])
        x.taken(what, reel, plain_t, n, counts[1], call=PLAIN, record=records[1])
        assert read_eagle(reel, MOST)[1] != read_reel(reel, MOST)[1]

    # one Eagle trace of 20 samples or four plain ones, by hand
    reel = one_trace_or_four()
    zero, first = [pair_bytes(0, 0)] * 20, [pair_bytes(0, 1)] + [pair_bytes(0, 0)] * 19
    last = [pair_bytes(0, 0)] * 19 + [pair_bytes(-16, 65535)]
    both("one Eagle trace of 20 samples or four plain ones", reel, 20, 1, 4, (0, 1), (
        make_record(2000, 20, [first], trace_fields={1: {1: 1}}),
        make_record(2000, 20, [first, zero, zero, last], b"\x40" * 3198 + b"\xC1\xC2",
                    trace_fields={i: {1: i} for i in (1, 2, 3, 4)})))
    x.refused("the same, one byte short", reel, 10, 3579, 3578)
    x.refused("the same, one byte short", reel, 10, 4497, 4496, PLAIN)
    # a trailer may hold what a plain header may not, and a word may end in what a trailer may not
    for field, number, wrong in ((115, 7, 19), (117, 8, 1), (69, 18, 2)):
        some = with_bytes(reel, 3920 + field - 1, wrong.to_bytes(2, "big"))
        x.taken(f"the same, {wrong} where plain trace 2 has field {field}", some, 1, 20, 0)
        x.refused(f"the same, field {field} of trace 2 is {wrong}", some, number, 3920 + field - 1, call=PLAIN)
    some = with_bytes(reel, 4879, b"\xFE")
    x.refused("the same, its end FFFE", some, 20, 4878)
    x.taken("the same, its last word 4200FFFE", some, 4, 20, 1, call=PLAIN)
    # other N
    words = {1200: ONE, 1436: b"\x41\x1F"}
    both("one Eagle trace of 60 samples or three plain ones", both_layouts(60, 1, words), 60, 1, 3, (0, 0))
    words = {240: NEGATIVE, 956: NOT_NORMAL[3], 1200: NOT_NORMAL[9], 1916: b"\x42\x00"}
    both("one Eagle trace of 180 samples or two plain ones", both_layouts(180, 1, words), 180, 1, 2, (1, 3))
    both("five Eagle traces of 240 samples or nine plain ones", both_layouts(240, 5, {240: ONE, 10796: b"\xC2\x00"}),
         240, 5, 9, (0, 1))
    both("two Eagle traces of 20 samples or eight plain ones", both_layouts(20, 2, {1280 + 244: NEGATIVE}),
         20, 2, 8, (0, 0))
    # headers alone
    reel = with_bytes(make_reel(2000, 2, 1), 3198, b"\xC4\x00")
    both("no traces, card 40 ends in C400", reel, 2, 0, 0, (0, 0), (
        make_record(), make_record(2000, 2, (), b"\x40" * 3198 + b"\xC4\x40")))
    # an Eagle reel is seldom a plain one, and the other way
    x.refused("the example with a trailer", example_eagle(), 5, 4592, call=PLAIN)
    x.refused("the example", example(), 5, 3600, 4000)
    reel = random_eagle(rnd, 5, 2)
    plain = without_trailers(reel)
    x.taken("any reel of 2 traces of 5 samples", reel, 2, 5, count_in(reel, 5))
    x.taken("the same without trailers and check", plain, 2, 5, count_in(reel, 5), call=PLAIN)
    x.refused("the same without trailers and check", plain, 5, 3600)
    assert read_eagle(reel, MOST) == read_reel(plain, MOST)


# ----------------------------------------------------------- small changes


def small_changes(x, rnd):
    """Good reels with a byte changed where it counts, or anywhere."""
    for turn in range(8):
        n, t = 1 + rnd.getrandbits(2), 1 + rnd.getrandbits(1)
        reel = bytearray(random_eagle(rnd, n, t))
        start = 3600 + trace_size(n) * (rnd.getrandbits(16) % t)
        first, span = (
            (0, len(reel)), (3216, 10), (start + 114, 4), (start + 68, 4), (start, 240), (start + 240, 4 * n),
            (start + 240 + 4 * n, 960), (start + 1198 + 4 * n, 2),
        )[turn]
        place = first + rnd.getrandbits(16) % span
        reel[place] ^= 1 << rnd.getrandbits(3)
        x.put(f"N {n}, T {t}, the byte at place {place} changed to {reel[place]:02X}", EAGLE, reel, record_length(t, n))


def any_bytes(x, rnd):
    for _ in range(6):
        reel = some_bytes(rnd, rnd.getrandbits(8))
        x.refused(f"any {len(reel)} bytes", reel, 1, len(reel), rnd.getrandbits(9), EAGLE)


# ------------------------------------------------------------ long traces


def long_traces(x, rnd):
    """Traces whose samples stand in several fields of the record, whichever the layout and the code."""
    def put(what, n, t, code, call=PLAIN, more=0):
        """Whole numbers of 8 bits, and the record of them."""
        traces = some_long(rnd, n, t)
        reel = make_reel(9, n, code, [make_trace(word_of_pair(code, pair) for pair in trace) for trace in traces])
        if call == EAGLE:
            reel = with_trailers(reel, [some_trailer(rnd) for _ in traces])
        x.taken(what, reel, t, n, 0, more, call, make_record(9, n, traces))
        return reel

    # plain reels: whole fields, and one sample more or less
    for n in (5999, 6000, 6001, 8000, 8001, 12000, 12001):
        put(f"{n} samples of one byte", n, 1, 8)
    reel = put("two traces of 6001 samples of one byte", 6001, 2, 8)
    x.refused("the same, room for two single fields", reel, 10, 75663, 75657, PLAIN)
    reel = put("32767 samples of one byte", 32767, 1, 8, more=3)
    x.refused("the same, one byte short", reel, 10, 200076, 200075, PLAIN)
    # 9 and 19 in the second field
    for code, good, bad, number in ((4, gain(3, 5), gain(3, 5, 0x10), 9), (5, ieee(0, 99, 7), NO_VALUES[2], 19)):
        reel = make_reel(9, 6002, code, [make_trace([good] * 6001 + [bad])])
        x.refused(f"sample 6002 of code {code}", reel, number, 3840 + 4 * 6001, call=PLAIN)
    # Eagle reels
    put("two traces of 6001 samples", 6001, 2, 1, EAGLE)
    words = [NOT_NORMAL[k % 27] if k in (0, 5999, 6000, 11999, 12000) else some_sample(rnd, 1) for k in range(12001)]
    reel = with_trailers(make_reel(9, 12001, 1, [make_trace(words)]), [some_trailer(rnd)])
    x.taken("12001 samples", reel, 1, 12001, count_in(reel, 12001))
    reel = put("32767 samples", 32767, 1, 1, EAGLE)
    assert len(reel) == 135868


PARTS = (
    good_reels, long_reels, words, cards, headers, lengths, trailers, traces, order, either, small_changes, any_bytes,
    long_traces,
)


def all_cases():
    x = Cases()
    for seed, part in enumerate(PARTS):
        part(x, random.Random(2275 + seed))
    return x


def main():
    x = all_cases()
    text_out = "".join(line + "\n" for _, _, line in x.all)
    files = {"stdin": b"".join(case for _, case, _ in x.all), "stdout": text_out.encode("ascii")}
    assert len(files["stdin"]) < MOST_STDIN
    if sys.argv[1:] == ["--check"]:
        for name, content in files.items():
            if (FOLDER / name).read_bytes() != content:
                sys.exit(f"eagle_vectors.py: {FOLDER.name}/{name} isn't what the rules give")
        print(f"eagle_vectors.py: {len(x.all)} vectors are what the rules give")
        return
    if sys.argv[1:] == ["--list"]:
        for turn, (what, _, line) in enumerate(x.all, 1):
            print(f"{turn:5d}  {line}  ({what})")
        return
    for name, content in files.items():
        (FOLDER / name).write_bytes(content)
    for kind in sorted(x.kinds):
        print(f"{x.kinds[kind]:5d}  {kind}")
    print(f"{len(x.all):5d}  cases, {len(files['stdin'])} bytes")


if __name__ == "__main__":
    main()
