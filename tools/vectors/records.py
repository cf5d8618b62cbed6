"""Writing of reels from records, worked out from document 01 and document 02's CR 2, CR 4, CR 5 and CR 8 alone.

    python3 tools/vectors/records.py          checks this file on the paper's statements

The rules are written here as literally as possible, so that they share
nothing with the code they test. What is said of a record is a tuple:
    ("taken", T, N, length, reel)             by exact writing; the reel is bytes
    ("taken", T, N, length, changed, reel)    by nearest writing, with the count of samples whose value changed
    ("refused", number, beside)               beside is the place or length of the table
The nearest values are those of tools/vectors/nearest.py. A trace of the earlier
form has its samples in a single field, and `earlier` names such traces by their
numbers, from 1; all others are of the new form.
"""

import random
import sys
from collections import Counter
from functools import lru_cache
from pathlib import Path

sys.path.insert(0, str(Path(__file__).resolve().parent))
sys.dont_write_bytecode = True

import nearest  # noqa: E402
from reels import (  # noqa: E402
    BINARY_FIELDS, CARDS, CODE, COUNT, GROUPS, HEADERS, INTERVAL, LONG_FIELDS, MOST_IN_FIELD, MOST_INTERVAL, MOST_N, MOST_T,
    POWERS, TRACE_COUNT, TRACE_FIELDS, TRACE_HEADER, TRACE_INTERVAL, count_of_fields, example, make_reel, make_trace,
    meaning, number_bytes, pair_of_word, random_reel, read_reel, record_length, sample_size, scalar_of, smallest,
    some_bytes, some_groups, some_sample, tagged, trace_size, trace_starts, words,
)
from samples import (  # noqa: E402
    CODES, NORMAL, NOT_NORMAL, is_canonical, pair_bytes, pair_of_v, signed, v_of_pair, word_of_v,
)

# ----------------------------------------------------- where things stand

TAG = 3  # one byte of tag and two of length stand before the content
FIRST_TRACE = TAG + CARDS + TAG + 60


def place_of_card(i):
    """The card byte i, from 0."""
    return TAG + i


def place_of_binary(byte_number):
    """A binary header field. The fields stand side by side, from 3201 on."""
    return TAG + CARDS + TAG + byte_number - 3201


def place_of_trace(i, n, earlier=()):
    """Tag 03 of trace i, from 1. A trace of the earlier form has one tag for its samples, where the new form has two."""
    place = FIRST_TRACE + (i - 1) * (TAG + 180 + TAG * count_of_fields(n) + 6 * n)
    return place - TAG * sum(1 for j in earlier if j < i)


def place_of_field(i, n, byte_number, earlier=()):
    """A header field of trace i. The fields stand side by side, from 1 on."""
    return place_of_trace(i, n, earlier) + TAG + byte_number - 1


def place_of_samples(i, n, earlier=(), f=1):
    """The tag 04 of trace i with its samples from 6,000 * (f - 1) on; the first, if none is named."""
    return place_of_trace(i, n, earlier) + TAG + 180 + (f - 1) * (TAG + 36000)


def place_of_pair(i, n, k, earlier=()):
    """The pair of sample k, from 1, of trace i."""
    tags = 1 if i in earlier else 1 + (k - 1) // MOST_IN_FIELD
    return place_of_samples(i, n, earlier) + TAG * tags + 6 * (k - 1)


def place_of_end(t, n, earlier=()):
    """Tag 05 behind t traces."""
    return place_of_trace(t + 1, n, earlier)


def reel_length(t, n, code):
    return HEADERS + t * trace_size(code, n)


# ------------------------------------------------------- causes 12 and 13

RECORD_SCALARS = [scalar_of(power) for power in POWERS]


@lru_cache(maxsize=1 << 10)
def wrong_scalar(header):
    """The field, 69 or 71, whose scalar isn't that of its group's smallest power, 69 first, or None."""
    for field, group in GROUPS.items():
        scalar = signed(header[field - 1 : field + 1])
        numbers = tuple(signed(header[b - 1 : b + 3]) for b in group)
        if scalar not in RECORD_SCALARS or smallest(scalar, numbers) != (scalar, numbers):
            return field
    return None


@lru_cache(maxsize=1 << 16)
def is_canonical_pair(pair):
    return is_canonical(signed(pair[:2]), signed(pair[2:]))


def content(record, place, tag, length):
    """The content of the field with that tag and length at that place, or None if none is there."""
    if record[place : place + 1] != bytes([tag]):
        return None
    if record[place + 1 : place + TAG] != length.to_bytes(2, "big"):
        return None
    if len(record) < place + TAG + length:
        return None
    return record[place + TAG : place + TAG + length]


def form_of_samples(record, place, n):
    """How many samples each tag 04 field of a trace has to have, the first of which stands at that place.

    The first field's length, 36,000 or 6N, tells the form.
    """
    if 6001 <= n <= 8000 and record[place + 1 : place + TAG] == (6 * n).to_bytes(2, "big"):
        return [n]
    last = n
    fields = []
    while last > MOST_IN_FIELD:
        fields.append(MOST_IN_FIELD)
        last -= MOST_IN_FIELD
    return [*fields, last]


def first_cause(record):
    """The refusal by 12 or 13, front to back, or None for a valid record."""
    place = 0
    cards = content(record, place, 0x01, CARDS)
    if cards is None:
        return "refused", 12, place
    if 0x00 in cards:
        return "refused", 13, place + TAG + cards.index(0x00)

    place += TAG + CARDS
    header = content(record, place, 0x02, 60)
    if header is None:
        return "refused", 12, place

    def in_header(byte_number):
        at = byte_number - 3201
        return at, signed(header[at : at + BINARY_FIELDS[byte_number]])

    at, interval = in_header(INTERVAL)
    if not 1 <= interval <= MOST_INTERVAL:
        return "refused", 13, place + TAG + at
    at, n = in_header(COUNT)
    if not 1 <= n <= MOST_N:
        return "refused", 13, place + TAG + at
    at, code = in_header(CODE)
    if code != 0:
        return "refused", 13, place + TAG + at

    place += TAG + 60
    t = 0
    while record[place : place + 1] == b"\x03":
        if t == MOST_T:
            return "refused", 12, place
        header = content(record, place, 0x03, 180)
        if header is None:
            return "refused", 12, place
        field = wrong_scalar(header)
        if field is not None:
            return "refused", 13, place + TAG + field - 1
        for byte_number, wanted in ((TRACE_COUNT, n), (TRACE_INTERVAL, interval)):
            at = byte_number - 1
            if signed(header[at : at + 2]) != wanted:
                return "refused", 13, place + TAG + at
        place += TAG + 180
        for samples in form_of_samples(record, place, n):
            pairs = content(record, place, 0x04, 6 * samples)
            if pairs is None:
                return "refused", 12, place
            for at in range(0, 6 * samples, 6):
                if not is_canonical_pair(pairs[at : at + 6]):
                    return "refused", 13, place + TAG + at
            place += TAG + 6 * samples
        t += 1

    count = content(record, place, 0x05, 4)
    if count is None or int.from_bytes(count, "big") != t:
        return "refused", 12, place
    place += TAG + 4
    if len(record) != place:
        return "refused", 12, place
    return None


# --------------------------------------------------------------- the reel


def counts(record):
    """T and N of a valid record."""
    at = place_of_binary(COUNT)
    return int.from_bytes(record[-4:], "big"), signed(record[at : at + 2])


def traces_of(record):
    """For each trace of a valid record the content of its tag 03, and the places of its pairs."""
    t, n = counts(record)
    place = FIRST_TRACE
    for _ in range(t):
        header = record[place + TAG : place + TAG + 180]
        place += TAG + 180
        pairs = []
        for samples in form_of_samples(record, place, n):
            pairs += range(place + TAG, place + TAG + 6 * samples, 6)
            place += TAG + 6 * samples
        yield header, pairs


def in_new_form(record):
    """A valid record with the samples of every trace in fields of 6,000."""
    fields = [record[:FIRST_TRACE]]
    for header, places in traces_of(record):
        fields.append(tagged(0x03, header))
        fields += sample_fields([record[place : place + 6] for place in places])
    return b"".join(fields) + record[-7:]


def sample_fields(pairs):
    """The tag 04 fields of a trace's pairs: 6,000 in each, and in the last what remains."""
    return [tagged(0x04, b"".join(pairs[k : k + MOST_IN_FIELD])) for k in range(0, len(pairs), MOST_IN_FIELD)]


@lru_cache(maxsize=1 << 16)
def word_of_pair(code, pair):
    """The bytes of a sample on the reel, or None if it doesn't fit the code."""
    word = word_of_v(code, v_of_pair(signed(pair[0:2]), signed(pair[2:6])))
    return None if word is None else word[: sample_size(code)]


def reel_of(record, code):
    """The reel of a valid record whose samples all fit the code."""
    t, n = counts(record)
    reel = bytearray(reel_length(t, n, code))  # unassigned bytes stay 00
    reel[0:CARDS] = record[TAG : TAG + CARDS]
    for b, width in BINARY_FIELDS.items():
        place = place_of_binary(b)
        number = record[place : place + width]
        reel[b - 1 : b - 1 + width] = number_bytes(code, width) if b == CODE else number
    for i, (header, places) in enumerate(traces_of(record)):
        start = HEADERS + i * trace_size(code, n)
        for b, width in TRACE_FIELDS.items():
            reel[start + b - 1 : start + b - 1 + width] = header[b - 1 : b - 1 + width]
        for k, place in enumerate(places):
            at = start + TRACE_HEADER + k * sample_size(code)
            reel[at : at + sample_size(code)] = word_of_pair(code, record[place : place + 6])
    return bytes(reel)


def write_reel(record, code, room):
    """What is said of any bytes and any code when the output has that much room."""
    if code not in CODES:
        return "refused", 11, 0
    cause = first_cause(record)
    if cause:
        return cause
    for _, places in traces_of(record):
        for place in places:
            if word_of_pair(code, record[place : place + 6]) is None:
                return "refused", 14, place
    t, n = counts(record)
    length = reel_length(t, n, code)
    if room < length:
        return "refused", 10, length
    reel = reel_of(record, code)
    assert len(reel) == length
    return "taken", t, n, length, reel


@lru_cache(maxsize=1 << 16)
def nearest_pair(code, pair):
    """The pair of the code's value nearest to a pair's."""
    return pair_bytes(*pair_of_v(nearest.nearest_v(code, v_of_pair(signed(pair[0:2]), signed(pair[2:6])))))


def nearest_record(record, code):
    """A valid record with the nearest value of the code for each sample, and how many are other values."""
    rounded = bytearray(record)
    changed = 0
    for _, places in traces_of(record):
        for place in places:
            pair = record[place : place + 6]
            rounded[place : place + 6] = nearest_pair(code, pair)
            changed += rounded[place : place + 6] != pair
    return bytes(rounded), changed


def write_nearest(record, code, room):
    """The same by nearest writing: what doesn't fit is no cause."""
    if code not in CODES:
        return "refused", 11, 0
    cause = first_cause(record)
    if cause:
        return cause
    t, n = counts(record)
    length = reel_length(t, n, code)
    if room < length:
        return "refused", 10, length
    rounded, changed = nearest_record(record, code)
    reel = reel_of(rounded, code)
    assert len(reel) == length
    return "taken", t, n, length, changed, reel


def write_into(record, code, output, write=write_reel):
    """What is said of the record by either writing, and the output's bytes after the call."""
    said = write(record, code, len(output))
    if said[0] == "refused":
        return said, output
    return said, said[-1] + output[said[3] :]


# --------------------------------------------------------- making records


def header_content(fields, first, widths, rest=None):
    """Numbers by byte number, the first field's first; other bytes from rest, or 00."""
    made = bytearray(rest or bytes(sum(widths.values())))
    for b, number in fields.items():
        made[b - first : b - first + widths[b]] = (number % 256 ** widths[b]).to_bytes(widths[b], "big")
    return bytes(made)


def make_fields(interval=2000, n=2, traces=(), cards=b"\x40" * CARDS, fields=None, rest=None,
                trace_fields=None, trace_rest=None, earlier=()):
    """The fields of a record, each with its tag and length; joined they are the record.

    A trace is the list of its pairs, and these are bytes. Numbers by byte
    number replace the right ones: in the binary header by `fields`, in trace i,
    from 1, by `trace_fields[i]`. Other bytes of the headers come from `rest` and
    from `trace_rest`, one for each trace. The scalars are those of power -4,
    below which there is none, so that they are right for any numbers.
    """
    made = [tagged(0x01, cards)]
    numbers = {INTERVAL: interval, COUNT: n, CODE: 0, **(fields or {})}
    made.append(tagged(0x02, header_content(numbers, 3201, BINARY_FIELDS, rest)))
    for i, pairs in enumerate(traces, 1):
        numbers = {69: -10000, 71: -10000, TRACE_COUNT: n, TRACE_INTERVAL: interval,
                   **(trace_fields or {}).get(i, {})}
        made.append(tagged(0x03, header_content(
            numbers, 1, TRACE_FIELDS, trace_rest[i - 1] if trace_rest else None)))
        if i in earlier or not pairs:
            made.append(tagged(0x04, b"".join(pairs)))
        else:
            made += sample_fields(pairs)
    made.append(tagged(0x05, len(traces).to_bytes(4, "big")))
    return made


def make_record(*args, **named):
    return b"".join(make_fields(*args, **named))


def some_cards(rnd):
    """Random card bytes of a record: any but 00."""
    return some_bytes(rnd, CARDS).replace(b"\x00", b"\x40")


def held_groups(rnd):
    """Elevations and coordinates of a record by byte number, with their scalars: those of a reel."""
    made = some_groups(rnd)
    for field, group in GROUPS.items():
        made[field], numbers = smallest(made[field], tuple(made[b] for b in group))
        made.update(zip(group, numbers))
    return made


def some_fields(rnd, traces, interval=2000, n=None, trace_fields=None, **named):
    """The fields of a record with those traces and all other bytes random."""
    groups = {i: {**held_groups(rnd), **(trace_fields or {}).get(i, {})} for i in range(1, len(traces) + 1)}
    return make_fields(
        interval, len(traces[0]) if n is None else n, traces, some_cards(rnd), rest=some_bytes(rnd, 60),
        trace_rest=[some_bytes(rnd, 180) for _ in traces], trace_fields=groups, **named)


def some_pair(rnd, code):
    """A random pair that fits the code: that of a random word."""
    return pair_of_word(code, some_sample(rnd, code))


def some_traces(rnd, code, n, t):
    return [[some_pair(rnd, code) for _ in range(n)] for _ in range(t)]


def some_long(rnd, n, t):
    """The pairs of t traces of N samples, whole numbers of 8 bits, which fit every code."""
    return [[pair_of_word(8, bytes([byte])) for byte in some_bytes(rnd, n)] for _ in range(t)]


# -------------------------------------------------------- damaging records


def retagged(field, tag):
    return bytes([tag]) + field[1:]


def relengthed(field, length):
    """Another length; the content stays."""
    return field[:1] + length.to_bytes(2, "big") + field[TAG:]


def refilled(field, filling):
    """Another content; the length follows it."""
    return tagged(field[0], filling)


def with_bytes(data, place, other):
    assert place + len(other) <= len(data)
    return data[:place] + other + data[place + len(other) :]


# ------------------------------------------------------------- self-check


def takes_a_zero(number):
    return -(2 ** 31) <= 10 * number < 2 ** 31


def is_valid(record):
    """Whether the record is one that document 01's section lays out, said of the whole at once.

    A group stands at its smallest power where that is -4, or where some number takes no further zero.
    """
    if len(record) < 3273:
        return False
    at = place_of_binary(COUNT)
    n = int.from_bytes(record[at : at + 2], "big")
    at = place_of_binary(INTERVAL)
    interval = int.from_bytes(record[at : at + 2], "big")
    if not (1 <= n <= 32767 and 1 <= interval <= 32767):
        return False
    t, earlier = int.from_bytes(record[-4:], "big"), set()
    if t > 100000:
        return False
    for i in range(1, t + 1):
        at = place_of_samples(i, n, earlier)
        if n in range(6001, 8001) and record[at : at + 3] == bytes.fromhex(f"04{6 * n:04X}"):
            earlier.add(i)
    if len(record) != 3273 + t * (183 + 3 * -(-n // 6000) + 6 * n) - 3 * len(earlier):
        return False
    fixed = {0: "010C80", 3203: "02003C", place_of_binary(CODE): "0000"}
    for i in range(1, t + 1):
        fixed[place_of_trace(i, n, earlier)] = "0300B4"
        fixed[place_of_field(i, n, 115, earlier)] = f"{n:04X}{interval:04X}"
        for k in range(0, n, n if i in earlier else 6000):
            content_length = 6 * (n - k) if i in earlier else min(36000, 6 * (n - k))
            fixed[place_of_pair(i, n, k + 1, earlier) - 3] = f"04{content_length:04X}"
    fixed[place_of_end(t, n, earlier)] = f"050004{t:08X}"
    if any(record[p : p + len(x) // 2] != bytes.fromhex(x) for p, x in fixed.items()):
        return False
    for i in range(1, t + 1):
        for field, group in GROUPS.items():
            at = place_of_field(i, n, field, earlier)
            scalar = record[at : at + 2].hex().upper()
            places = [place_of_field(i, n, b, earlier) for b in group]
            if scalar not in ("D8F0", "FC18", "FF9C", "FFF6", "0001", "000A", "0064", "03E8", "2710"):
                return False
            if scalar != "D8F0" and all(takes_a_zero(signed(record[p : p + 4])) for p in places):
                return False
    pairs = (record[p : p + 6] for i in range(1, t + 1) for p in
             (place_of_pair(i, n, k, earlier) for k in range(1, n + 1)))
    return 0x00 not in record[3:3203] and all(
        is_canonical(signed(pair[:2]), signed(pair[2:])) for pair in pairs)


def check_example():
    reel = example()
    record = read_reel(reel, 3471)[1]
    # the words are normal, so the reel is the same but for fields 115 and 117, which are filled in, and
    # for the scalars, which are the record's
    written = with_bytes(reel, 3600 + 114, bytes.fromhex("0002 07D0"))
    written = with_bytes(written, 3600 + 68, bytes.fromhex("D8F0 D8F0"))
    assert write_reel(record, 1, 3848) == ("taken", 1, 2, 3848, written)
    assert write_reel(record, 1, 3847) == ("refused", 10, 3848)
    assert write_reel(record, 1, 0) == ("refused", 10, 3848)
    assert write_into(record, 1, b"\xA5" * 3850) == (
        ("taken", 1, 2, 3848, written), written + b"\xA5\xA5")
    assert write_into(record, 1, b"\xA5" * 3847) == (("refused", 10, 3848), b"\xA5" * 3847)
    for code in (2, 3, 8):  # -949/8 isn't whole
        assert write_reel(record, code, 0) == ("refused", 14, 3266 + 183 + 3 + 6)
    said = write_reel(record, 4, 3848)
    assert said[:4] == ("taken", 1, 2, 3848)
    assert said[4][3224:3226] == b"\x00\x04" and said[4][-8:] == bytes.fromhex("00000001 0003FC4B")
    said = write_reel(record, 5, 3848)
    assert said[:4] == ("taken", 1, 2, 3848)
    assert said[4][3224:3226] == b"\x00\x05" and said[4][-8:] == bytes.fromhex("3F800000 C2ED4000")
    small = make_record(2000, 2, [[pair_bytes(7, -1), pair_bytes(0, 127)]])
    said = write_reel(small, 8, 3842)
    assert said[:4] == ("taken", 1, 2, 3842)
    assert said[4][3224:3226] == b"\x00\x08" and said[4][-2:] == bytes.fromhex("807F")
    assert write_reel(small, 8, 3841) == ("refused", 10, 3842)
    for code in (0, 6, 7, 9, 256, 257, 261, 264, 65537, 2 ** 32 - 1):
        assert write_reel(record, code, 3848) == ("refused", 11, 0)
        assert write_reel(b"", code, 0) == ("refused", 11, 0)
    assert record == make_record(2000, 2, [[pair_bytes(0, 1), pair_bytes(-3, -949)]])
    assert len(make_record(2000, 2)) == 3273 == record_length(0, 2)


def check_nearest_example():
    """The example's samples, 1 and -949/8: whole numbers take 1 and -119, the other codes have both."""
    reel = example()
    record = read_reel(reel, 3471)[1]
    for code, samples in ((2, "00000001 FFFFFF89"), (3, "0001 FF89"), (8, "01 89")):
        samples = bytes.fromhex(samples)
        length = 3840 + len(samples)
        said = write_nearest(record, code, length)
        assert said[:5] == ("taken", 1, 2, length, 1)
        # the headers are those of exact writing, but for the code
        headers = with_bytes(write_reel(record, 1, 3848)[4][:3840], 3224, bytes([0, code]))
        assert said[5] == headers + samples
        assert read_reel(said[5], 3471)[1] == make_record(2000, 2, [[pair_bytes(0, 1), pair_bytes(0, -119)]])
        assert write_nearest(record, code, length - 1) == ("refused", 10, length)
        assert write_into(record, code, b"\xA5" * (length + 2), write_nearest) == (said, said[5] + b"\xA5\xA5")
        assert write_into(record, code, b"\xA5" * 9, write_nearest) == (("refused", 10, length), b"\xA5" * 9)
    for code in (1, 4, 5):
        exact = write_reel(record, code, 3848)
        assert write_nearest(record, code, 3848) == (*exact[:4], 0, exact[4])


def check_nearest_causes():
    """11, then 12 and 13 front to back, then 10; a sample that fits no code is no cause."""
    wide, even = pair_bytes(251, 3), pair_bytes(0, 2)
    good = make_record(2000, 2, [[wide, wide], [wide, pair_bytes(0, 1)]])
    bad = make_record(2000, 2, [[wide, wide], [wide, even]])
    for code in (0, 6, 7, 9, 256, 257, 264, 2 ** 32 - 1):
        assert write_nearest(b"", code, 0) == write_nearest(bad, code, 0) == ("refused", 11, 0)
    for code in CODES:
        length = reel_length(2, 2, code)
        for room in (0, length - 1, length):
            assert write_nearest(b"", code, room) == ("refused", 12, 0)
            assert write_nearest(with_bytes(bad, 3, b"\x00"), code, room) == ("refused", 13, 3)
            assert write_nearest(bad, code, room) == ("refused", 13, place_of_pair(2, 2, 2))
            assert write_nearest(good + b"\x00", code, room) == ("refused", 12, len(good))
            assert write_reel(good, code, room) == ("refused", 14, place_of_pair(1, 2, 1))
        assert write_nearest(good, code, length - 1) == write_nearest(good, code, 0) == ("refused", 10, length)
        assert write_nearest(good, code, length)[:5] == ("taken", 2, 2, length, 3)


def check_nearest_round_trip(rnd):
    """The count is that of the samples that exact writing doesn't take; the rounded record comes back as it is."""
    kinds = Counter()
    for turn in range(120):
        code, t, n = CODES[turn % 6], rnd.getrandbits(2), 1 + rnd.getrandbits(2)
        of = code if turn // 6 % 2 == 0 else 1
        record = b"".join(some_fields(rnd, some_traces(rnd, of, n, t), n=n))
        said = write_nearest(record, code, 1 << 20)
        assert said[:4] == ("taken", t, n, reel_length(t, n, code))
        exact = write_reel(record, code, 1 << 20)
        places = [place_of_pair(i, n, k) for i in range(1, t + 1) for k in range(1, n + 1)]
        unfit = [p for p in places if word_of_pair(code, record[p : p + 6]) is None]
        assert said[4] == len(unfit)
        if unfit:
            assert exact == ("refused", 14, unfit[0])
        else:
            assert exact == (*said[:4], said[5])
        again = read_reel(said[5], len(record))
        assert again[0] == ("taken", t, n, len(record), 0)
        changed = [p for p in places if again[1][p : p + 6] != record[p : p + 6]]
        assert changed == unfit and len(again[1]) == len(record)
        for p in changed:
            record = with_bytes(record, p, again[1][p : p + 6])
        assert record == again[1]
        assert write_nearest(record, code, said[3]) == (*said[:4], 0, said[5])
        kinds[len(unfit) > 0] += 1
    assert min(kinds.values()) > 30, kinds


def check_places():
    fields = make_fields(1, 5, [[bytes(6)] * 5] * 3)
    places = [sum(len(field) for field in fields[:k]) for k in range(len(fields))]
    assert places[:2] == [0, 3203] and places[-1] == place_of_end(3, 5)
    for i in (1, 2, 3):
        assert places[2 * i : 2 * i + 2] == [place_of_trace(i, 5), place_of_samples(i, 5)]
    assert place_of_binary(INTERVAL) == 3222 and place_of_binary(COUNT) == 3226
    assert place_of_binary(CODE) == 3230
    assert place_of_field(1, 5, 115) == 3266 + 3 + 114 and place_of_pair(2, 5, 1) == 3266 + 216 + 186
    # long traces, all in the new form; then trace 2 of four in the earlier one
    for n, tags in LONG_FIELDS.items():
        assert [place_of_samples(1, n, f=f) for f in range(1, 1 + len(tags))] == [3266 + at for at in tags]
    for places, by_hand in (
        ([place_of_pair(1, 32767, k) for k in (1, 6000, 6001, 12000, 12001, 30001, 32767)],
         [3452, 39446, 39455, 75449, 75458, 183467, 200063]),
        ([place_of_end(1, n) for n in (5999, 6000, 6001, 8000, 8001, 12000, 12001, 32767)],
         [39446, 39452, 39461, 51455, 51461, 75455, 75464, 200069]),
        ([place_of_trace(i, 7000, (2,)) for i in (1, 2, 3, 4, 5)], [3266, 45455, 87641, 129830, 172019]),
        ([place_of_field(i, 7000, 115, (2,)) for i in (2, 3)], [45455 + 117, 87641 + 117]),
        ([place_of_pair(2, 7000, k, (2,)) for k in (1, 6000, 6001, 7000)], [45641, 81635, 81641, 87635]),
        ([place_of_pair(3, 7000, k, (2,)) for k in (1, 6000, 6001, 7000)], [87827, 123821, 123830, 129824]),
        ([place_of_samples(3, 7000, (2,)), place_of_samples(3, 7000, (2,), 2)], [87824, 123827]),
    ):
        assert places == by_hand
    record = make_record(9, 7000, [[pair_bytes(0, 1)] * 7000] * 4, earlier=(2,))
    assert len(record) == 172019 + 7 == record_length(4, 7000) - 3
    for place, tag in (
        (3266, "0300B4"), (3449, "048CA0"), (39452, "041770"), (45455, "0300B4"), (45638, "04A410"), (87641, "0300B4"),
        (87824, "048CA0"), (123827, "041770"), (129830, "0300B4"), (172019, "050004 00000004"),
    ):
        tag = bytes.fromhex(tag)
        assert record[place : place + len(tag)] == tag
    assert in_new_form(record) == make_record(9, 7000, [[pair_bytes(0, 1)] * 7000] * 4)


def check_round_trip(rnd):
    """The written reel means what the reel meant that the record was read from; its words are normal."""
    for code in CODES:
        for t, n in ((0, 3), (1, 1), (2, 7), (3, 40)):
            reel = random_reel(rnd, code, n, t)
            record = read_reel(reel, 1 << 20)[1]
            for target in CODES:
                said = write_reel(record, target, 1 << 20)
                if target == code or t == 0:
                    assert said[0] == "taken"
                if said[0] == "taken":
                    assert said[1:4] == (t, n, reel_length(t, n, target))
                    assert meaning(said[4]) == meaning(reel)
                    assert read_reel(said[4], len(record)) == (("taken", t, n, len(record), 0), record)
                    assert write_reel(record, target, said[3]) == said
                    assert write_reel(record, target, said[3] - 1) == ("refused", 10, said[3])


def check_words_come_back(rnd):
    """A reel of code 1 has as many words that aren't normal as come back otherwise under code 1."""
    none = 0
    for _ in range(300):
        t, n = rnd.getrandbits(2), 1 + rnd.getrandbits(3)
        some = NORMAL if rnd.getrandbits(1) else NORMAL * 3 + NOT_NORMAL
        reel = make_reel(2000, n, 1, [
            make_trace(some[rnd.getrandbits(16) % len(some)] for _ in range(n)) for _ in range(t)])
        said, record = read_reel(reel, 1 << 20)
        written = write_reel(record, 1, len(reel))[4]
        places = [place for start in trace_starts(reel) for place in words(reel, start)]
        assert said[4] == sum(reel[p : p + 4] != written[p : p + 4] for p in places)
        none += said[4] == 0
    assert 100 < none < 250, none


def check_valid(rnd):
    """Front to back, or the whole at once: the same records are valid."""
    valid = 0
    for _ in range(1500):
        n, t = 1 + rnd.getrandbits(2), rnd.getrandbits(2)
        record = bytearray(b"".join(some_fields(rnd, some_traces(rnd, 1, n, t), n=n)))
        for _ in range(rnd.getrandbits(1) + 1):
            kind = rnd.getrandbits(3)
            place = rnd.getrandbits(32) % (len(record) - 3200) + 3200
            if kind == 0:
                del record[place:]
                break
            if kind == 1:
                record += some_bytes(rnd, 1 + rnd.getrandbits(8))
            elif kind == 2:
                record[rnd.getrandbits(32) % 3203] = rnd.getrandbits(1) * rnd.getrandbits(8)
            else:
                record[place] ^= 1 << rnd.getrandbits(3)
        record = bytes(record)
        assert (first_cause(record) is None) == is_valid(record)
        valid += is_valid(record)
    assert 200 < valid < 1300, valid


def check_scalars():
    """Every scalar in either field of a record, and the order in tag 03."""
    def said(header):
        return write_reel(make_record(9, 1, [[pair_bytes(0, 1)]], trace_fields={1: header}), 3, 0)

    taken = "refused", 10, 3842
    for field, group in GROUPS.items():
        refused = "refused", 13, 3269 + field - 1
        for number, scalars in (
            (0, [-10000]), (1, [-10000]), (214748364, [-10000]), (-214748364, [-10000]),
            (214748365, RECORD_SCALARS), (-214748365, RECORD_SCALARS), (-(2 ** 31), RECORD_SCALARS),
        ):
            for b in group:
                for scalar in (*RECORD_SCALARS, 0, -1, 7, 2, -9999, 32767, -32768):
                    assert said({b: number, field: scalar}) == (taken if scalar in scalars else refused)
        for number, scalars in ((2 ** 31 - 1, RECORD_SCALARS), (21, [-10000])):
            header = header_content({69: -10000, 71: -10000, group[-1]: number}, 1, TRACE_FIELDS)
            for scalar in range(-32768, 32768):
                wrong = wrong_scalar(with_bytes(header, field - 1, number_bytes(scalar, 2)))
                assert wrong == (None if scalar in scalars else field)
    wrong = {69: 0, 71: 0, 115: 0, 117: 0}
    for field in (69, 71, 115, 117):
        assert said(wrong) == ("refused", 13, 3269 + field - 1)
        del wrong[field]
    assert said(wrong) == taken


def check_long():
    """Traces of several fields and of the earlier form: what a record has at these places, by hand."""
    def said(fields):
        return write_reel(b"".join(fields), 3, 0)

    def record(n, t=1, earlier=(), bad_at=(), bad=pair_bytes(0, 2)):
        """The fields of a record whose pairs are 1, but for those of trace i and sample k that are named."""
        return make_fields(9, n, [[bad if (i, k) in bad_at else pair_bytes(0, 1) for k in range(1, n + 1)]
                                  for i in range(1, t + 1)], earlier=earlier)

    def split(n, *samples):
        """The fields of a record of one trace whose tag 04 fields have so many samples."""
        made = make_fields(9, n, [[pair_bytes(0, 1)]])
        return made[:3] + [tagged(0x04, pair_bytes(0, 1) * some) for some in samples] + made[4:]

    def taken(t, n):
        return "refused", 10, 3600 + t * (240 + 2 * n)

    # lengths of the fields: each form, and what is neither
    for n, samples, place in (
        (5999, (5999,), None), (5999, (6000,), 3449), (5999, (3000, 2999), 3449),
        (6000, (6000,), None), (6000, (5999, 1), 3449), (6000, (3000, 3000), 3449), (6000, (6000, 0), 39452),
        (6000, (6000, 1), 39452), (6000, (6000, 6000), 39452), (6000, (6001,), 3449),
        (6001, (6000, 1), None), (6001, (6001,), None), (6001, (6000,), 39452), (6001, (6000, 2), 39452),
        (6001, (6000, 0), 39452), (6001, (6000, 6000), 39452), (6001, (6000, 6001), 39452), (6001, (6000, 1, 1), 39461),
        (6001, (6001, 1), 39458), (6001, (6001, 6001), 39458), (6001, (1, 6000), 3449), (6001, (5999, 2), 3449),
        (6001, (6002,), 3449), (6001, (8000,), 3449), (6001, (1,), 3449), (6001, (), 3449), (6001, (0, 6001), 3449),
        (7000, (7000,), None), (7000, (6000, 1000), None), (7000, (7000, 6000, 1000), 45452),
        (7000, (6000, 7000), 39452), (7000, (6000, 1000, 7000), 45455), (7000, (3500, 3500), 3449),
        (7999, (7999,), None), (8000, (8000,), None), (8000, (6000, 2000), None), (8000, (4000, 4000), 3449),
        (8000, (7999,), 3449), (8000, (8001,), 3449), (8000, (6000, 2001), 39452), (8000, (6000, 1999), 39452),
        (8001, (6000, 2001), None), (8001, (8001,), 3449), (8001, (8000, 1), 3449), (8001, (8000,), 3449),
        (8001, (6000, 2000, 1), 39452), (8001, (6000, 2000), 39452), (10922, (10922,), 3449),
        (10922, (6000, 4922), None), (12000, (6000, 6000), None), (12000, (6000, 6000, 0), 75455),
        (12000, (8000, 4000), 3449), (12000, (6000,), 39452), (12001, (6000, 6000, 1), None),
        (12001, (6000, 6001), 39452), (12001, (6000, 6000), 75455), (12001, (6000, 6000, 2), 75455),
        (12001, (8000, 4001), 3449), (32767, (6000,) * 5 + (2767,), None), (32767, (6000,) * 5 + (2768,), 183464),
        (32767, (6000,) * 5, 183464), (32767, (6000,) * 4 + (2767,), 147461), (32767, (6000,) * 6, 183464),
        (32767, (2767,) + (6000,) * 5, 3449),
    ):
        assert said(split(n, *samples)) == (taken(1, n) if place is None else ("refused", 12, place)), (n, samples)
    # each tag and length of six fields; cut before each, inside it and before its last byte
    fields = record(32767)
    assert len(fields) == 10
    for k, place in enumerate((3449, 39452, 75455, 111458, 147461, 183464), 3):
        for tag in (0x03, 0x05, 0x14):
            assert said(fields[:k] + [retagged(fields[k], tag)] + fields[k + 1 :]) == ("refused", 12, place)
        assert said(fields[:k] + [relengthed(fields[k], 36001)] + fields[k + 1 :]) == ("refused", 12, place)
        assert said(fields[:k] + fields[k + 1 :]) == ("refused", 12, 147461 if k < 8 else 183464)
        for kept in (0, 1, 2, 3, len(fields[k]) - 1):
            assert said(fields[:k] + [fields[k][:kept]]) == ("refused", 12, place)
    assert said(fields[:9]) == ("refused", 12, 200069) and said(fields + [b"\x04"]) == ("refused", 12, 200076)
    assert said(fields[:8] + fields[7:]) == ("refused", 12, 183464)
    # 13 at the first and last pair of each field
    for k, place in (
        (1, 3452), (6000, 39446), (6001, 39455), (12000, 75449), (12001, 75458), (18000, 111452), (18001, 111461),
        (24000, 147455), (24001, 147464), (30000, 183458), (30001, 183467), (32767, 200063),
    ):
        assert said(record(32767, bad_at={(1, k)})) == ("refused", 13, place)
    # field by field: 12, then 13, then the next field
    fields = record(12001, bad_at={(1, 6000), (1, 6001), (1, 12001)})
    wrong = [relengthed(field, 36006) for field in fields]
    assert said(fields[:3] + [wrong[3]] + fields[4:]) == ("refused", 12, 3449)
    assert said(fields[:4] + [wrong[4]] + fields[5:]) == said(fields[:4]) == ("refused", 13, 39446)
    fields[3] = record(12001)[3]
    assert said(fields[:4] + [wrong[4]] + fields[5:]) == said(fields[:4]) == ("refused", 12, 39452)
    assert said(fields[:5] + [wrong[5]] + fields[6:]) == said(fields[:5]) == ("refused", 13, 39455)
    fields[4] = record(12001)[4]
    assert said(fields[:5] + [wrong[5]] + fields[6:]) == said(fields[:5]) == ("refused", 12, 75455)
    assert said(fields) == said(fields[:6]) == ("refused", 13, 75458)
    fields = record(7000, bad_at={(1, 6000)})
    assert said(fields[:4] + [fields[4][:-1]]) == ("refused", 13, 39446)
    fields = record(7000, earlier=(1,), bad_at={(1, 7000)})
    assert said(fields[:4]) == ("refused", 13, 3452 + 6 * 6999)
    assert said([*fields[:3], fields[3][:-1]]) == ("refused", 12, 3449)
    # mixed traces, each judged by itself; 7000 samples: 42,189 bytes or 42,186
    for earlier in ((), (1,), (2,), (3,), (1, 2), (1, 3), (2, 3), (1, 2, 3)):
        fields = record(7000, 3, earlier)
        assert said(fields) == taken(3, 7000) and len(b"".join(fields)) == 129840 - 3 * len(earlier)
        for i in (1, 2, 3):
            start = 3266 + (i - 1) * 42189 - 3 * sum(j < i for j in earlier)
            tag = 0 if i in earlier else 3  # of the second field
            for k, place in ((6000, 36180), (6001, 36186 + tag), (7000, 42180 + tag)):
                number, bad = (14, pair_bytes(-1, 1)) if k == 7000 else (13, pair_bytes(0, 2))
                assert said(record(7000, 3, earlier, {(i, k)}, bad)) == ("refused", number, start + place)
        whole = b"".join(fields)
        assert said([whole, b"\x05"]) == ("refused", 12, len(whole))
        assert said([whole[:-1]]) == ("refused", 12, len(whole) - 7)
    # N in tag 02
    for n in (8001, 32767):
        assert said([make_record(9, n)]) == taken(0, n)
    for n in (0, 32768, 65535):
        assert said([make_record(9, n)]) == ("refused", 13, 3226)


def check_long_round_trip(rnd):
    """Both forms give the same reel, and reading that gives the new form, for which there has to be room."""
    for n, t, codes, forms in (
        (5999, 2, (3, 8), [()]), (6000, 2, (3, 8), [()]), (6001, 3, CODES, [(), (2,), (1, 3), (1, 2, 3)]),
        (8000, 2, (1, 8), [(), (1,), (2,), (1, 2)]), (8001, 2, (2, 8), [()]), (12000, 2, (4, 8), [()]),
        (12001, 2, (5, 8), [()]), (32767, 1, (3, 8), [()]),
    ):
        traces = some_long(rnd, n, t)
        traces[0][-1], traces[-1][0] = pair_bytes(7, 1), pair_bytes(0, 129)  # above code 8's end
        for code in codes:
            reels = set()
            for earlier in forms:
                record = b"".join(make_fields(9, n, traces, earlier=earlier))
                new = make_record(9, n, traces)
                assert len(record) == record_length(t, n) - 3 * len(earlier) and in_new_form(record) == new
                length = reel_length(t, n, code)
                if code == 8:
                    assert write_reel(record, code, length) == (
                        "refused", 14, place_of_pair(1, n, 1 if t == 1 else n, earlier))
                    said = write_nearest(record, code, length)
                    assert said[:5] == ("taken", t, n, length, 2)
                    rounded = [list(trace) for trace in traces]
                    rounded[0][-1] = rounded[-1][0] = pair_bytes(0, 127)
                    new = make_record(9, n, rounded)
                    assert nearest_record(record, code)[0] == make_record(9, n, rounded, earlier=earlier)
                else:
                    said = write_reel(record, code, length)
                    assert said[:4] == ("taken", t, n, length)
                    assert write_nearest(record, code, length) == (*said[:4], 0, said[4])
                reels.add(said[-1])
                assert write_nearest(record, code, length - 1) == ("refused", 10, length)
                assert read_reel(said[-1], len(new)) == (("taken", t, n, len(new), 0), new)
                assert read_reel(said[-1], len(new) - 1) == (("refused", 10, len(new)), None)
                assert said[-1][-n * sample_size(code) :] == b"".join(
                    word_of_pair(code, pair) for pair in (rounded if code == 8 else traces)[-1])
            assert len(reels) == 1


def check_long_valid(rnd):
    """Front to back, or the whole at once: the same records of long traces are valid."""
    counts_of = Counter()
    for turn in range(160):
        n = (5999, 6000, 6001, 7000, 8000, 8001, 10000, 12001)[turn % 8]
        t = 1 + rnd.getrandbits(1)
        earlier = [i for i in range(1, t + 1) if rnd.getrandbits(1) and 6000 < n <= 10922]  # all that two bytes can tell
        fields = make_fields(9, n, some_long(rnd, n, t), earlier=earlier)
        kind, k = rnd.getrandbits(3), 2 + rnd.getrandbits(16) % (len(fields) - 2)
        if kind == 0:
            fields[k] = with_bytes(fields[k], rnd.getrandbits(16) % 3, bytes([rnd.getrandbits(8)]))
        elif kind == 1:
            fields[k] = fields[k][: rnd.getrandbits(16) % len(fields[k])]
        elif kind == 2:
            at = TAG + rnd.getrandbits(16) % (len(fields[k]) - TAG)
            fields[k] = with_bytes(fields[k], at, bytes([fields[k][at] ^ 1 << rnd.getrandbits(3)]))
        elif kind == 3:
            fields[k - 1 : k + 1] = fields[k : k - 2 : -1]
        elif kind == 4:
            fields[k:k] = [fields[k]]
        record = b"".join(fields)
        valid = first_cause(record) is None
        assert valid == is_valid(record)
        counts_of[valid, bool(earlier)] += 1
    assert len(counts_of) == 4 and min(counts_of.values()) > 12, counts_of


def check_many_traces():
    trace = b"".join(make_fields(7, 1, [[pair_bytes(0, 1)]])[2:4])
    assert len(trace) == 192
    head = make_record(7, 1)[:3266]
    full = head + trace * 100000
    end = 3266 + 192 * 100000
    good = full + bytes.fromhex("050004 000186A0")
    assert write_reel(good, 3, 0) == ("refused", 10, 3600 + 242 * 100000)
    for more in (trace + bytes.fromhex("050004 000186A1"), trace, b"\x03"):
        assert write_reel(full + more, 3, 0) == ("refused", 12, end)
    assert write_reel(full, 3, 0) == ("refused", 12, end)
    assert write_reel(full + bytes.fromhex("050004 000186A1"), 3, 0) == ("refused", 12, end)
    assert write_reel(good + b"\x03", 3, 0) == ("refused", 12, end + 7)


def main():
    check_places()
    check_example()
    check_round_trip(random.Random(1975))
    check_words_come_back(random.Random(1977))
    check_valid(random.Random(1976))
    check_scalars()
    check_long()
    check_long_round_trip(random.Random(1980))
    check_long_valid(random.Random(1981))
    check_many_traces()
    nearest.check(random.Random(1978))
    check_nearest_example()
    check_nearest_causes()
    check_nearest_round_trip(random.Random(1979))
    print("records.py: the paper's statements hold")


if __name__ == "__main__":
    main()
