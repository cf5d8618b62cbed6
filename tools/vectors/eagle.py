"""Reading of Eagle reels, worked out from document 02's CR 7 and CR 8 alone, over the rules of tools/vectors/reels.py.

    python3 tools/vectors/eagle.py            checks this file on the paper's statements

The rules are written here as literally as possible, so that they share
nothing with the code they test. What is said of a reel is a tuple:
    ("taken", T, N, length, count)     the count is that of the words that are not normal
    ("refused", number, beside)        beside is the place or length of the table, or the place of
                                       numbers 18 and 20
"""

import random
import sys
from collections import Counter
from pathlib import Path

sys.path.insert(0, str(Path(__file__).resolve().parent))
sys.dont_write_bytecode = True

import reels  # noqa: E402
from records import make_record, with_bytes, write_reel  # noqa: E402
from reels import (  # noqa: E402
    BINARY_FIELDS, BUFFER, CARDS, CODE, COUNT, GROUPS, HEADERS, INTERVAL, MOST_INTERVAL, MOST_N, MOST_T, SCALARS,
    TRACE_COUNT, TRACE_FIELDS, TRACE_HEADER, TRACE_INTERVAL, binary_number, example, ibm, make_reel, make_trace,
    meaning_with, put, random_reel, read_reel, read_with, record_with, some_bytes, trace_number,
)
from samples import NORMAL, NOT_NORMAL, pair_bytes  # noqa: E402

# ------------------------------------------------------------- the layout

TRAILER = 960
TRAILER_END = b"\xFF\xFF"
CHECK = (3199, 3200)  # the card bytes, counted from 1, of columns 79 and 80 of card 40


def trace_size(n):
    """Header, samples of code 1, and trailer."""
    return TRACE_HEADER + 4 * n + TRAILER


def trace_starts(reel):
    """The place of each whole trace. N is within its limits."""
    size = trace_size(binary_number(reel, COUNT))
    t = (len(reel) - HEADERS) // size
    return [HEADERS + i * size for i in range(t)]


def place_of_end(start, n):
    """The last two bytes of the trailer of the trace that starts at that place."""
    return start + trace_size(n) - 2


# ------------------------------------------------ causes 1 to 8, 18 and 20


def first_cause(reel):
    """The refusal by the first of causes 1 to 8, 18 and 20 that the reel has, or None."""
    if len(reel) < HEADERS:
        return "refused", 1, len(reel)
    n = binary_number(reel, COUNT)
    interval = binary_number(reel, INTERVAL)
    if binary_number(reel, CODE) != 1:
        return "refused", 2, 3224
    if not 1 <= n <= MOST_N:
        return "refused", 3, 3220
    if not 1 <= interval <= MOST_INTERVAL:
        return "refused", 4, 3216
    starts = trace_starts(reel)
    after = HEADERS + len(starts) * trace_size(n)
    if after != len(reel):
        return "refused", 5, after
    if len(starts) > MOST_T:
        return "refused", 6, starts[MOST_T]
    for start in starts:
        if trace_number(reel, start, TRACE_COUNT) not in (0, n):
            return "refused", 7, start + TRACE_COUNT - 1
        if trace_number(reel, start, TRACE_INTERVAL) not in (0, interval):
            return "refused", 8, start + TRACE_INTERVAL - 1
        for scalar in GROUPS:
            if trace_number(reel, start, scalar) not in SCALARS:
                return "refused", 18, start + scalar - 1
        end = place_of_end(start, n)
        if reel[end : end + 2] != TRAILER_END:
            return "refused", 20, end
    return None


# --------------------------------------------- the record and the meaning


def card_text(reel):
    """The card bytes with 40 in place of 00 and of the check."""
    text = bytearray(reels.card_text(reel))
    for byte_number in CHECK:
        text[byte_number - 1] = 0x40
    return bytes(text)


def record_of(reel):
    """The record of an Eagle reel without a cause of 1 to 8, 18 or 20."""
    return record_with(reel, card_text(reel), trace_starts(reel))


def meaning(reel):
    """Card text, header numbers, T and sample values of an Eagle reel without a cause of 1 to 8, 18 or 20."""
    return meaning_with(reel, card_text(reel), trace_starts(reel))


# --------------------------------------------------------------- the call


def read_eagle(reel, room):
    """What is said of the reel when the output has that much room; its record, or None."""
    cause = first_cause(reel)
    if cause:
        return cause, None
    return read_with(reel, room, card_text(reel), trace_starts(reel))


# ---------------------------------------------------------- making reels


def trailer(rest=bytes(958), end=TRAILER_END):
    """960 bytes."""
    assert len(rest) == 958 and len(end) == 2
    return rest + end


def with_trailers(plain, trailers):
    """The Eagle reel of a plain one of code 1, with these trailers, one for each trace."""
    starts = reels.trace_starts(plain)
    size = reels.trace_size(1, binary_number(plain, COUNT))
    assert binary_number(plain, CODE) == 1 and len(trailers) == len(starts)
    return plain[:HEADERS] + b"".join(plain[start : start + size] + rest for start, rest in zip(starts, trailers))


def without_trailers(reel):
    """The plain reel of an Eagle one: without its trailers, and with blanks in the place of the check."""
    plain = bytearray(reel[:HEADERS])
    for byte_number in CHECK:
        plain[byte_number - 1] = 0x40
    n = binary_number(reel, COUNT)
    return bytes(plain) + b"".join(reel[start : start + TRACE_HEADER + 4 * n] for start in trace_starts(reel))


def some_trailer(rnd):
    return trailer(some_bytes(rnd, 958))


def random_eagle(rnd, n, t, interval=2000):
    """A good Eagle reel with all other bytes random, trailers, check and unassigned ones too."""
    return with_trailers(random_reel(rnd, 1, n, t, interval), [some_trailer(rnd) for _ in range(t)])


def example_eagle(rest=bytes(958)):
    """Document 01's own reel with a trailer: its trace ends at place 3848, the trailer at 4808."""
    return with_trailers(example(), [trailer(rest)])


def both_layouts(n, t, words=None):
    """Headers and bytes that are as many as t Eagle traces of N samples have, and a whole number of plain ones.

    All are 00 but for the FFFF of each trailer, and for the words, by place counted from 3600.
    """
    assert t * trace_size(n) % (TRACE_HEADER + 4 * n) == 0
    body = bytearray(with_trailers(make_reel(2000, n, 1, [make_trace([bytes(4 * n)])] * t), [trailer()] * t)[HEADERS:])
    for place, word in (words or {}).items():
        body[place : place + len(word)] = word
    return make_reel(2000, n, 1, [bytes(body)])


def one_trace_or_four():
    """One Eagle trace of 20 samples, or four plain ones: 240 + 80 + 960 bytes are 4 times 320.

    Columns 79 and 80 of card 40 are C1 C2, the traces are numbered, the first
    word is 41100000, and the last, the end of the trailer, 4200FFFF.
    """
    reel = both_layouts(20, 1, {
        3: b"\x01", 240: bytes.fromhex("41100000"), 320 + 3: b"\x02", 640 + 3: b"\x03", 960 + 3: b"\x04",
        1276: bytes.fromhex("4200")})
    return with_bytes(reel, 3198, b"\xC1\xC2")


# ------------------------------------------------------------- self-check


def said(reel, room=BUFFER):
    return read_eagle(reel, room)[0]


def check_example():
    record = read_reel(example(), 3471)[1]
    for rest in (bytes(958), b"\xFF" * 958, NOT_NORMAL[0] * 239 + b"\x00\x00"):
        reel = example_eagle(rest)
        assert len(reel) == 4808
        assert read_eagle(reel, 3471) == (("taken", 1, 2, 3471, 0), record)
        assert read_eagle(reel, 3470) == read_eagle(reel, 0) == (("refused", 10, 3471), None)
        for end in (b"\xFF\xFE", b"\xFE\xFF", b"\x00\xFF", b"\xFF\x00", b"\x7F\xFF", b"\xFF\x7F", b"\x00\x00"):
            assert said(with_bytes(reel, 4806, end), 0) == ("refused", 20, 4806)
        # FFFF one byte before its place
        assert said(with_bytes(reel, 4805, b"\xFF\xFF\x00")) == ("refused", 20, 4806)
    assert reels.read_into(example_eagle(), b"\xA5" * 3480, read_eagle) == (
        ("taken", 1, 2, 3471, 0), record + b"\xA5" * 9)
    assert reels.read_into(with_bytes(example_eagle(), 4807, b"\x00"), b"\xA5" * 3480, read_eagle) == (
        ("refused", 20, 4806), b"\xA5" * 3480)


def check_causes():
    """Each cause at its place, and their order: the reel has every one but 1 and 6 at first."""
    assert said(b"") == ("refused", 1, 0) and said(example_eagle()[:3599]) == ("refused", 1, 3599)
    good = bytearray(example_eagle())
    for code in range(65536):
        put(good, 3224, 2, code)
        assert (first_cause(good) is None) if code == 1 else first_cause(good) == ("refused", 2, 3224)
    wrong = {115: 3, 117: 3, 69: 7, 71: 2}
    ends = (b"\xFF\x00", b"\x00\xFF", b"\x12\x34")
    traces = [make_trace([ibm(0, 65, 0x100000)] * 2, wrong) + trailer(end=end) for end in ends]
    reel = bytearray(make_reel(0, 0, 3, traces) + b"\x00")
    for number, place, right in ((2, 3224, 1), (3, 3220, 2), (4, 3216, 2000)):
        assert first_cause(reel) == ("refused", number, place)
        put(reel, place, 2, right)
    assert first_cause(reel) == ("refused", 5, 7224)
    del reel[-1]
    for start in (3600, 4808, 6016):
        for number, offset, right in ((7, 114, 0), (8, 116, 2000), (18, 68, 0), (18, 70, -1), (20, 1206, 0xFFFF)):
            assert first_cause(reel) == ("refused", number, start + offset)
            put(reel, start + offset, 2, right)
    assert said(bytes(reel), 3866) == ("refused", 10, 3867) and said(bytes(reel)) == ("taken", 3, 2, 3867, 0)


def check_lengths(rnd):
    """5 where a reel ends elsewhere than behind a trailer; 6 for trace 100,001."""
    for n in (1, 2, 20):
        reel = random_eagle(rnd, n, 3)
        size = 1200 + 4 * n
        for length in range(HEADERS, len(reel) + 1):
            t, rest = divmod(length - HEADERS, size)
            wanted = ("refused", 5, HEADERS + t * size) if rest else None
            assert first_cause(reel[:length]) == wanted
    assert said(make_reel(1, 8000, 1, [bytes(33198) + TRAILER_END])) == ("taken", 1, 8000, 51462, 0)
    assert said(make_reel(1, 8000, 1, [bytes(33199)])) == ("refused", 5, 3600)
    assert said(make_reel(1, 32767, 1, [bytes(132266) + TRAILER_END])) == ("refused", 10, 200076)
    assert said(make_reel(1, 32767, 1, [bytes(132266) + b"\xFF\xFE"])) == ("refused", 20, 135866)
    assert said(make_reel(1, 32767, 1, [bytes(132267)])) == ("refused", 5, 3600)
    for n in (0, 32768, 65535):
        assert said(make_reel(0, n, 1)) == ("refused", 3, 3220)
    many = make_reel(1, 1, 1, [(bytes(1202) + TRAILER_END) * 100000])
    assert len(many) == 120403600
    assert said(many) == ("refused", 10, 3273 + 100000 * 192)
    assert said(many + bytes(1204)) == ("refused", 6, 120403600)
    assert said(many + bytes(1205)) == ("refused", 5, 120404804)
    assert said(many[:-1]) == ("refused", 5, 120402396)
    assert said(many[:-2] + b"\xFF\xFE") == ("refused", 20, 120403598)


def check_cards():
    """The check is blank whatever it holds; every other card byte is what it is on a plain reel."""
    headers = make_reel(2000, 2, 1)
    for byte in range(256):
        cards = bytes([byte]) * CARDS
        reel = cards + headers[CARDS:]
        assert card_text(reel) == bytes([byte or 0x40]) * 3198 + b"\x40\x40"
        for place in (3198, 3199):
            assert read_eagle(with_bytes(headers, place, bytes([byte])), 3273)[1] == make_record()
        for place in (0, 78, 79, 3118, 3119, 3197):
            one = with_bytes(headers, place, bytes([byte]))
            assert read_eagle(one, 3273)[1] == with_bytes(make_record(), 3 + place, bytes([byte or 0x40]))


def check_plain(rnd):
    """The record is that of the plain reel without trailers and check, which carry no meaning; it is written back."""
    counts = Counter()
    for turn in range(120):
        n, t = (1, 2, 3, 7, 20, 60)[turn % 6], turn % 5
        reel = random_eagle(rnd, n, t, 1 + rnd.getrandbits(32) % 32767)
        plain = without_trailers(reel)
        assert len(plain) == len(reel) - 960 * t
        (*front, count), record = read_eagle(reel, 1 << 20)
        assert front == ["taken", t, n, 3273 + t * (186 + 6 * n)]
        assert read_reel(plain, 1 << 20) == ((*front, count), record)
        assert meaning(reel) == reels.meaning(plain) and record == record_of(reel)
        # the words, one by one
        words = [reel[3600 + i * (1200 + 4 * n) + 240 + 4 * k :][:4] for i in range(t) for k in range(n)]
        assert count == sum(not reels.is_normal(word) for word in words)
        # other trailers and another check
        other = bytearray(reel)
        other[3198:3200] = some_bytes(rnd, 2)
        for start in trace_starts(reel):
            other[start + 240 + 4 * n : start + 1198 + 4 * n] = some_bytes(rnd, 958)
        assert read_eagle(bytes(other), 1 << 20) == read_eagle(reel, 1 << 20)
        # another bit anywhere: equal records where the meaning is the same
        other = bytearray(reel)
        place = rnd.getrandbits(32) % (len(other) if turn % 2 else 3600)
        other[place] ^= 1 << rnd.getrandbits(3)
        other = bytes(other)
        if first_cause(other) is None:
            same = record_of(other) == record
            assert same == (meaning(other) == meaning(reel))
            counts[same] += 1
        # a plain reel of the same meaning
        written = write_reel(record, 1, 1 << 20)[-1]
        assert reels.meaning(written) == meaning(reel)
    assert min(counts.values()) > 10, counts


def check_long(rnd):
    """Long traces: the record is that of the plain reel, in fields of 6,000 samples; the trailers end where they do."""
    for n, t, size, length in (
        (5999, 2, 25196, 75633), (6000, 2, 25200, 75645), (6001, 2, 25204, 75663), (8001, 1, 33204, 51468),
        (12001, 1, 49204, 75471), (32767, 1, 132268, 200076),
    ):
        reel = random_eagle(rnd, n, t)
        assert len(reel) == 3600 + t * size
        front, record = read_eagle(reel, length)
        assert front[:4] == ("taken", t, n, length) and read_reel(without_trailers(reel), length) == (front, record)
        assert front[4] > n // 32  # the first digit of a random fraction is 0 in one word of 16
        assert read_eagle(reel, length - 1) == (("refused", 10, length), None)
        again = with_trailers(write_reel(record, 1, 1 << 20)[-1], [trailer()] * t)
        assert len(again) == len(reel) and read_eagle(again, length) == ((*front[:4], 0), record)
        for i in range(1, t + 1):
            end = 3600 + i * size - 2
            assert said(with_bytes(reel, end, b"\xFF\x7F"), 0) == ("refused", 20, end)


def check_both():
    """Bytes that are a reel under either layout, each with its own T, count and record."""
    reel = one_trace_or_four()
    zero, first = pair_bytes(0, 0), {1: {1: 1}}
    eagle = make_record(2000, 20, [[pair_bytes(0, 1)] + [zero] * 19], trace_fields=first)
    assert len(eagle) == 3579 and read_eagle(reel, 3579) == (("taken", 1, 20, 3579, 0), eagle)
    plain = make_record(
        2000, 20, [[pair_bytes(0, 1)] + [zero] * 19, [zero] * 20, [zero] * 20, [zero] * 19 + [pair_bytes(-16, 65535)]],
        b"\x40" * 3198 + b"\xC1\xC2", trace_fields={i: {1: i} for i in (1, 2, 3, 4)})
    assert len(plain) == 4497 and read_reel(reel, 4497) == (("taken", 4, 20, 4497, 1), plain)
    for n, t, plain_t in ((20, 1, 4), (60, 1, 3), (180, 1, 2), (240, 5, 9), (80, 7, 19)):
        reel = both_layouts(n, t)
        assert len(reel) == 3600 + plain_t * (240 + 4 * n)
        assert said(reel) == ("taken", t, n, 3273 + t * (186 + 6 * n), 0)
        assert read_reel(reel, BUFFER)[0] == ("taken", plain_t, n, 3273 + plain_t * (186 + 6 * n), 0)
        assert meaning(reel)[4] == t and reels.meaning(reel)[4] == plain_t
    # headers alone
    reel = make_reel(2000, 2, 1)
    assert read_eagle(reel, 3273) == read_reel(reel, 3273)
    reel = with_bytes(reel, 3199, b"\xF7")
    assert read_eagle(reel, 3273)[1] == make_record() != read_reel(reel, 3273)[1]
    # seldom otherwise: 1208 bytes are four traces of 248 and 216 more
    assert read_reel(example_eagle(), BUFFER)[0] == ("refused", 5, 4592)
    assert said(example()) == ("refused", 5, 3600)


def check_words():
    """Words that are not normal count where they are samples."""
    for words, count in ((NOT_NORMAL, 27), (NORMAL, 0)):
        plain = make_reel(2000, len(words), 1, [make_trace(words)] * 2)
        rest = (b"".join(NOT_NORMAL) * 9)[:958]
        reel = with_trailers(plain, [trailer(rest)] * 2)
        assert said(reel) == ("taken", 2, len(words), 3273 + 2 * (186 + 6 * len(words)), 2 * count)


def check_fields():
    """Every field of each trace stands where the plain layout has it; field 169 is a bare number."""
    header = {b: 0x40000000 + b if width == 4 else b for b, width in TRACE_FIELDS.items()}
    header.update({69: 10, 71: -10, 115: 0, 117: 0, 169: -32768})
    binary = {b: -b for b in BINARY_FIELDS if b not in (3217, 3221, 3225)}
    rest = b"\x99" * 240
    traces = [make_trace([ibm(0, 65, 0x100000)], header, rest) + trailer(b"\x77" * 958)] * 3
    reel = make_reel(9, 1, 1, traces, fields=binary, rest=b"\x99" * 400)
    held = {**header, 115: 1, 117: 9}
    wanted = make_record(9, 1, [[pair_bytes(0, 1)]] * 3, fields=binary, trace_fields={i: held for i in (1, 2, 3)})
    assert read_eagle(reel, 1 << 20) == (("taken", 3, 1, 3273 + 3 * 192, 0), wanted)


def main():
    check_example()
    check_causes()
    check_lengths(random.Random(1992))
    check_cards()
    check_plain(random.Random(1993))
    check_long(random.Random(1994))
    check_both()
    check_words()
    check_fields()
    print("eagle.py: the paper's statements hold")


if __name__ == "__main__":
    main()
