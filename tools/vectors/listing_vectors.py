"""Test vectors for the card listing, its way back and eight card bytes blanked, from document 02's CR 1, CR 6 and CR 8 alone.

Run from the root of the repository:  python3 tools/vectors/listing_vectors.py [--check | --list]
It rewrites crates/listing_vectors/stdin and crates/listing_vectors/stdout; with
--check it compares them with what it would write, and with --list it prints
what each case is about beside its line, and neither writes anything.

The rules are those of tools/vectors/cards.py. Beside them nearly every case
has its answer worked out by hand, and both must agree. Each listing is taken
back, and its record must come out; each record that came of a listing is
listed, and that listing must come out. What was blanked is blanked again, and
must stay.

stdin is a row of cases without anything between them, at most 1,350,000 bytes:
    1 byte     call: 1 lists, 2 takes back, 3 blanks eight card bytes
    4 bytes    room, the length of the output, big-endian, at most 210,000; 0 for call 3
    4 bytes    length of the record, big-endian, at most 210,000; 8 for call 3
    4 bytes    length of the listing, big-endian, at most 210,000; 0 for calls 1 and 3
    the record; for call 3 the eight card bytes
    the listing

The output holds bytes A5 before each call. stdout has a line for each case:
    taken LENGTH DIGEST              call 1
    taken T N LENGTH DIGEST          call 2
    refused NUMBER BESIDE DIGEST     either of these
    blanked NUMBER                   call 3; the eight bytes that they become as one number, the first highest
DIGEST is that of the whole output after the call, all its room. A digest is 0
at first, and each byte b makes (digest * 31 + b) mod 2^32 of it. All numbers
are decimal.
"""

import random
import sys
from collections import Counter
from pathlib import Path

sys.path.insert(0, str(Path(__file__).resolve().parent))
sys.dont_write_bytecode = True

from cards import LISTING, after, blank_eight, list_cards, listing_of, place_of_line_end, take_cards  # noqa: E402
from records import (  # noqa: E402
    make_record, place_of_card, place_of_field, place_of_pair, place_of_samples, refilled, relengthed,
    retagged, some_cards, some_fields, some_long, some_traces, with_bytes,
)
from reels import example, read_reel, some_bytes  # noqa: E402
from samples import pair_bytes  # noqa: E402
from write_vectors import digest, joined, whole  # noqa: E402

FOLDER = Path(__file__).resolve().parents[2] / "crates" / "listing_vectors"

LIST, TAKE, BLANK = 1, 2, 3
MOST = 210000  # of room, of a record and of a listing
MOST_STDIN = 1350000
FILLING = b"\xA5"
NO_LISTING = b""


def check_listed(record, listing):
    """The listing has 40 line ends, no other text than the record's, and gives the record again."""
    assert len(listing) == 3240 and listing[80::81] == b"\x0A" * 40
    text = b"".join(listing[i : i + 80] for i in range(0, 3240, 81))
    assert text.decode("latin-1").encode("cp037") == record[3:3203]
    assert take_cards(record, listing, len(record))[-1] == record


def check_taken(record, listing, taken):
    """Nothing but the cards is new, and they give the listing again, 20 in place of 00."""
    assert taken[:3] == record[:3] and taken[3203:] == record[3203:]
    assert list_cards(taken, LISTING)[-1] == listing.replace(b"\x00", b"\x20")


class Cases:
    def __init__(self):
        self.all = []  # what it is in words, the bytes of the case, its line
        self.seen = set()
        self.kinds = Counter()

    def put(self, what, call, record, listing, room, by_hand=None, output_by_hand=None):
        """A case; the line's beginning and the output where they were worked out by hand."""
        assert room <= MOST and len(record) <= MOST and len(listing) <= MOST
        said = list_cards(record, room) if call == LIST else take_cards(record, listing, room)
        output = after(said, FILLING * room)
        name = {LIST: "listing", TAKE: "taking back"}[call]
        if said[0] == "taken":
            said, made = said[:-1], said[-1]
            if call == LIST:
                check_listed(record, made)
            else:
                check_taken(record, listing, made)
            assert output == made + FILLING * (room - len(made))
            self.kinds[f"{name}, taken"] += 1
        else:
            assert output == FILLING * room
            self.kinds[f"{name}, refused by {said[1]}"] += 1
        line = " ".join(str(item) for item in said)
        assert by_hand in (None, line), (what, by_hand, line)
        assert output_by_hand in (None, output), what
        self.add(f"{name}: {what}", call, record, listing, room, f"{line} {digest(output)}")

    def add(self, what, call, record, listing, room, line):
        lengths = (room, len(record), len(listing))
        case = bytes([call]) + b"".join(length.to_bytes(4, "big") for length in lengths) + record + listing
        assert case not in self.seen, what
        self.seen.add(case)
        self.all.append((what, case, line))

    def listed(self, what, record, more=0, by_hand=None):
        """A record that is listed; the room is what the listing needs, and so much more."""
        output = None if by_hand is None else by_hand + FILLING * more
        self.put(what, LIST, record, NO_LISTING, 3240 + more, "taken 3240", output)

    def taken(self, what, record, listing, t, n, more=0, by_hand=None, earlier=0):
        """A listing that is taken back; the room is what the record needs, and so much more. So many traces are of the earlier form."""
        length = 3273 + t * (183 + 3 * -(-n // 6000) + 6 * n) - 3 * earlier
        output = None if by_hand is None else by_hand + FILLING * more
        self.put(what, TAKE, record, listing, length + more, f"taken {t} {n} {length}", output)

    def not_listed(self, what, record, number, beside, room=None):
        """A record that isn't listed, with any room if none is named."""
        self.put(what, LIST, record, NO_LISTING, self.any_room(room), f"refused {number} {beside}")

    def not_taken(self, what, record, listing, number, beside, room=None):
        """A listing or a record that isn't taken, with any room if none is named."""
        self.put(what, TAKE, record, listing, self.any_room(room), f"refused {number} {beside}")

    def blanked(self, what, cards, by_hand=None):
        """Eight card bytes, and what they become where it was worked out by hand; bytes, or hexadecimal digits."""
        cards, by_hand = (bytes.fromhex(some) if isinstance(some, str) else some for some in (cards, by_hand))
        assert len(cards) == 8
        number = blank_eight(int.from_bytes(cards, "big"))
        assert by_hand is None or number == int.from_bytes(by_hand, "big"), what
        assert blank_eight(number) == number and 0x00 not in number.to_bytes(8, "big"), what
        self.kinds["blanking"] += 1
        self.add(f"blanking: {what}", BLANK, cards, NO_LISTING, 0, f"blanked {number}")

    def any_room(self, room):
        return (4600, 0, 3239, 3240, 5000)[len(self.all) % 5] if room is None else room


# ------------------------------------------------------- texts by hand


# Codes of page 037.
CODES = {
    " ": 0x40, ".": 0x4B, "(": 0x4D, "+": 0x4E, "*": 0x5C, ")": 0x5D, "-": 0x60, "/": 0x61, ",": 0x6B, ":": 0x7A, "=": 0x7E,
}
for first, row in (
    (0xC1, "ABCDEFGHI"), (0xD1, "JKLMNOPQR"), (0xE2, "STUVWXYZ"), (0x81, "abcdefghi"), (0x91, "jklmnopqr"),
    (0xA2, "stuvwxyz"), (0xF0, "0123456789"),
):
    CODES.update({letter: first + i for i, letter in enumerate(row)})


class Text:
    """The same text as a listing and as cards: lines by number, from 1; the others have their number alone."""

    def __init__(self, named):
        lines = [f"C{i:2d} {named.get(i, '')}".ljust(80) for i in range(1, 41)]
        self.listing = "".join(line + "\n" for line in lines).encode("ascii")
        self.cards = bytes(CODES[letter] for line in lines for letter in line)
        assert len(self.listing) == 3240 and len(self.cards) == 3200


FIRST = Text({
    1: "CLIENT Skerry Bank Survey     COMPANY J. Quill, Vex and Zum     CREW NO 07",
    2: "LINE 12-B  AREA (north)  MAP ID 3/4  x = 1,250  y = +9,860  *checked*",
    8: "SAMPLE CODE: FLOATING PT",
    40: "END EBCDIC",
})
CORRECTED = Text({
    1: "CLIENT Skerry Bank Survey     COMPANY J. Quill, Vex and Zum     CREW NO 08",
    2: "LINE 12-C  AREA (south)  MAP ID 3/4  x = 1,250  y = +9,860",
    3: "REEL NO 1",
    8: "SAMPLE CODE: FLOATING PT",
    40: "END EBCDIC",
})


def lines_of(character):
    """The listing of one character throughout."""
    return (bytes([character]) * 80 + b"\x0A") * 40


BLANKS = lines_of(0x20)


def with_cards(record, cards):
    return with_bytes(record, 3, cards)


def some_listing(rnd):
    """Random characters, 00 and 0A among them."""
    return listing_of(some_bytes(rnd, 3200))


# ------------------------------------------------------------------- taken


def good_records(x, rnd):
    record = read_reel(example(), 3471)[1]
    x.listed("document 01's example", record, by_hand=BLANKS)
    x.listed("document 01's example, more room", record, 60, BLANKS)
    x.not_listed("document 01's example, one byte short", record, 10, 3240, 3239)
    for t, n, more in ((0, 32767, 0), (1, 9, 1), (3, 4, 300)):
        record = with_cards(joined(some_fields(rnd, some_traces(rnd, 1, n, t), n=n)), FIRST.cards)
        x.listed(f"a text, {t} traces", record, more, FIRST.listing)
    # every code but 00, at two places of a card
    every = bytes(1 + i % 255 for i in range(3200))
    for start in (0, 130):
        x.listed(f"codes from {1 + start} on", make_record(cards=every[start:] + every[:start]))
    for code, character in ((0x25, 0x0A), (0x0D, 0x0D), (0x15, 0x85), (0x01, 0x01), (0xFF, 0x9F)):
        x.listed(f"nothing but {code:02X}", make_record(cards=bytes([code]) * 3200), by_hand=lines_of(character))
    x.listed("a sample that fits no code", make_record(traces=[[pair_bytes(251, 3), pair_bytes(0, 0)]]), by_hand=BLANKS)
    x.listed("8,000 samples", joined(some_fields(rnd, some_traces(rnd, 3, 8000, 1))))


def good_listings(x, rnd):
    record = read_reel(example(), 3471)[1]
    x.taken("document 01's example, its own listing", record, BLANKS, 1, 2, by_hand=record)
    x.taken("document 01's example, a text", record, FIRST.listing, 1, 2, by_hand=with_cards(record, FIRST.cards))
    for t, n, more in ((0, 32767, 1), (2, 5, 0)):
        record = with_cards(joined(some_fields(rnd, some_traces(rnd, 4, n, t), n=n)), FIRST.cards)
        x.taken(f"a text corrected, {t} traces", record, CORRECTED.listing, t, n, more,
                with_cards(record, CORRECTED.cards))
    record = joined(some_fields(rnd, some_traces(rnd, 2, 3, 1)))
    x.taken("any record and any listing", record, some_listing(rnd), 1, 3, 100)
    x.taken("blanks for any text", record, BLANKS, 1, 3, by_hand=with_cards(record, b"\x40" * 3200))
    # every character, at two places of a line
    every = bytes(i % 256 for i in range(3200))
    for start in (0, 120):
        text = every[start:] + every[:start]
        x.taken(f"characters from {start} on", record, b"".join(text[i : i + 80] + b"\n" for i in range(0, 3200, 80)), 1, 3)
    for character, code in ((0x00, 0x40), (0x0A, 0x25), (0x0D, 0x0D), (0x85, 0x15), (0x9F, 0xFF)):
        record = make_record(7, 1, cards=some_cards(rnd))
        x.taken(f"nothing but {character:02X}", record, lines_of(character), 0, 1,
                by_hand=with_cards(record, bytes([code]) * 3200))
    # 00 at the first and at the last character; the other fields keep their 00 and their FF
    record = make_record(1, 1, [whole(-1), whole(0)], rest=b"\xFF" * 60, trace_rest=[b"\xFF" * 180, bytes(180)])
    listing = with_bytes(with_bytes(lines_of(0x41), 0, b"\x00"), 3238, b"\x00")
    x.taken("00 first and last", record, listing, 2, 1, by_hand=with_cards(record, b"\x40" + b"\xC1" * 3198 + b"\x40"))
    record = make_record(traces=[[pair_bytes(251, 3), pair_bytes(0, 0)]])
    x.taken("a sample that fits no code", record, FIRST.listing, 1, 2, by_hand=with_cards(record, FIRST.cards))
    # the count of traces takes two bytes
    record = make_record(9, 1, [whole(i - 128) for i in range(257)])
    x.taken("257 traces", record, CORRECTED.listing, 257, 1, by_hand=with_cards(record, CORRECTED.cards))


def room(x, rnd):
    record = joined(some_fields(rnd, some_traces(rnd, 3, 2, 1)))
    listing = some_listing(rnd)
    for some in (0, 1, 3239):
        x.not_listed(f"room {some}", record, 10, 3240, some)
    x.listed("one byte more", record, 1)
    x.listed("the longest room", record, MOST - 3240)
    for some in (0, 3240, 3470):
        x.not_taken(f"room {some}", record, listing, 10, 3471, some)
    x.taken("one byte more", record, listing, 1, 2, 1)
    x.taken("the longest room", record, listing, 1, 2, MOST - 3471)
    x.not_taken("no traces, one byte short", make_record(), listing, 10, 3273, 3272)


# -------------------------------------------------------- causes 12 and 13


def bad_records(rnd):
    """Records with a cause: what it is, the record, number and place. N is 2, the interval 2000."""
    def fields(t=0, **named):
        return some_fields(rnd, some_traces(rnd, 3, 2, t), n=2, **named)

    yield "an empty record", b"", 12, 0
    yield "a tag alone", b"\x01", 12, 0
    a = fields()
    yield "tag 01 wrong", joined([retagged(a[0], 0x02)] + a[1:]), 12, 0
    yield "tag 01 of wrong length", joined([relengthed(a[0], 3201)] + a[1:]), 12, 0
    yield "cards of 3,240", joined([refilled(a[0], BLANKS)] + a[1:]), 12, 0
    yield "tag 01 cut short", a[0][:-1], 12, 0
    yield "cards alone", a[0], 12, 3203
    yield "no tag 02", a[0] + a[2], 12, 3203
    yield "tag 02 of wrong length", joined([a[0], relengthed(a[1], 61), a[2]]), 12, 3203
    yield "no tag 05", joined(a[:2]), 12, 3266
    yield "tag 05 wrong", joined(a[:2] + [retagged(a[2], 0x06)]), 12, 3266
    yield "count 1 without traces", joined(a[:2]) + bytes.fromhex("050004 00000001"), 12, 3266
    yield "one byte too many", joined(a) + b"\x00", 12, 3273
    a = fields(2)
    yield "tag 04 wrong in trace 1", joined(a[:3] + [retagged(a[3], 0x03)] + a[4:]), 12, place_of_samples(1, 2)
    yield "trace 2 cut short", joined(a[:6])[:-1], 12, place_of_samples(2, 2)
    yield "a listing after the record", joined(a) + BLANKS, 12, len(joined(a))
    for card in (0, 80, 3199):
        yield f"card byte {card} is 00", with_bytes(joined(fields()), place_of_card(card), b"\x00"), 13, 3 + card
    yield "interval 0", joined(fields(1, fields={3217: 0})), 13, 3222
    yield "N 32,768", joined(fields(1, fields={3221: 32768})), 13, 3226
    yield "a format code", joined(fields(fields={3225: 1})), 13, 3230
    yield "field 69 is 0 in trace 1", joined(fields(2, trace_fields={1: {69: 0}})), 13, place_of_field(1, 2, 69)
    yield "field 71 is 1 in trace 2, its numbers 0", joined(fields(
        2, trace_fields={2: {71: 1, 73: 0, 77: 0, 81: 0, 85: 0}})), 13, place_of_field(2, 2, 71)
    yield "field 115 is 0 in trace 2", joined(fields(2, trace_fields={2: {115: 0}})), 13, place_of_field(2, 2, 115)
    yield "field 117 is 0 in trace 1", joined(fields(1, trace_fields={1: {117: 0}})), 13, place_of_field(1, 2, 117)
    traces = some_traces(rnd, 3, 2, 2)
    traces[1][1] = pair_bytes(0, 2)
    yield "the last pair even", joined(some_fields(rnd, traces)), 13, place_of_pair(2, 2, 2)


def records_with_a_cause(x, rnd):
    listings = (("a good listing", FIRST.listing), ("no listing", b""), ("a line end wrong", with_bytes(BLANKS, 80, b" ")),
                ("a short listing", BLANKS[:81]))
    for turn, (what, record, number, place) in enumerate(bad_records(rnd)):
        x.not_listed(what, record, number, place)
        beside, listing = listings[turn % len(listings)]
        x.not_taken(f"{what}, {beside}", record, listing, number, place)


# -------------------------------------------------------------- number 17


def listings_of_another_length(x, rnd):
    record = make_record()
    long = some_listing(rnd) * 2
    for length in (0, 1, 80, 81, 82, 3159, 3200, 3239, 3241, 3280, 3321, 6480):
        x.not_taken(f"a listing of {length} bytes", record, long[:length], 17, length)
    x.not_taken("a listing without line feeds", record, b"\x20" * 3200, 17, 3200, 3273)
    x.not_taken("line ends 0D 0A", record, (b" " * 80 + b"\r\n") * 40, 17, 3280, 3273)
    x.not_taken("lines of 79 characters", record, (b" " * 79 + b"\n") * 40, 17, 3200, 3273)
    x.not_taken("the record for a listing", record, record, 17, 3273, 3273)


def line_ends(x, rnd):
    record = make_record()
    for line, other in (
        (1, 0x0D), (2, 0x25), (3, 0x20), (9, 0x85), (20, 0x00), (21, 0x15), (38, 0x8A), (39, 0x0B), (40, 0x1A),
    ):
        listing = with_bytes(some_listing(rnd), place_of_line_end(line), bytes([other]))
        x.not_taken(f"line {line} ends in {other:02X}", record, listing, 17, 81 * line - 1)
    for lines in ((40, 1), (17, 18), (39, 5, 30)):
        listing = some_listing(rnd)
        for line in lines:
            listing = with_bytes(listing, place_of_line_end(line), b"\x20")
        x.not_taken(f"lines {lines} end in 20", record, listing, 17, 81 * min(lines) - 1)
    # the right length, and a line of another one
    listing = (b" " * 79 + b"\n") + (b" " * 81 + b"\n") + (b" " * 80 + b"\n") * 38
    x.not_taken("line 1 has 79 characters, line 2 has 81", record, listing, 17, 80)
    x.not_taken("a line feed before each line", record, (b"\n" + b" " * 80) * 40, 17, 80)
    x.not_taken("all bytes 20", record, b" " * 3240, 17, 80)
    x.taken("all bytes 0A", record, b"\n" * 3240, 0, 2, by_hand=with_cards(record, b"\x25" * 3200))


# -------------------------------------------------------------- the order


def order(x, rnd):
    """Several causes at once."""
    a = some_fields(rnd, [whole(1, -2)], n=2)
    good, listing = joined(a), some_listing(rnd)
    form, number = good + b"\x00", with_bytes(good, 1000, b"\x00")
    wrong_end = with_bytes(listing, 161, b"\x20")
    # 12 within a field before 13, 13 in an earlier field before 12 in a later one
    x.not_listed("12 before 13", joined([retagged(with_bytes(a[0], 3, b"\x00"), 9)] + a[1:]), 12, 0, 0)
    x.not_listed("13 before 12", with_bytes(form, 3202, b"\x00"), 13, 3202, 0)
    x.not_listed("12 before 10", form, 12, 3471, 3239)
    x.not_listed("13 before 10", number, 13, 1000, 0)
    x.not_taken("12 before 17 by length and 10", form, wrong_end[:-1], 12, 3471, 0)
    x.not_taken("13 before 17 by length and 10", number, listing + b"\n", 13, 1000, 3470)
    x.not_taken("12 before 17 by place", form, wrong_end, 12, 3471, 3472)
    x.not_taken("13 before 17 by place", number, wrong_end, 13, 1000, 3471)
    x.not_taken("12 before 10", form, listing, 12, 3471, 100)
    x.not_taken("13 before 10", number, listing, 13, 1000, 100)
    x.not_taken("17 by length before 17 by place and 10", good, wrong_end[:-1], 17, 3239, 0)
    x.not_taken("17 by length before 17 by place", good, wrong_end[:200], 17, 200, 3471)
    x.not_taken("17 by length before 10", good, b"", 17, 0, 0)
    x.not_taken("17 by place before 10", good, wrong_end, 17, 161, 3470)
    x.not_taken("10 last", good, listing, 10, 3471, 3470)


# ----------------------------------------------------------- small changes


def small_changes(x, rnd):
    """Good records and listings with some bits changed, or cut."""
    for _ in range(6):
        n, t = 1 + rnd.getrandbits(2), rnd.getrandbits(2)
        record = joined(some_fields(rnd, some_traces(rnd, 1, n, t), n=n))
        listing = bytearray(some_listing(rnd))
        for _ in range(1 + rnd.getrandbits(2)):
            listing[rnd.getrandbits(32) % 3240] ^= 1 << rnd.getrandbits(3)
        x.put(f"a listing with some bits changed, {t} traces", TAKE, record, bytes(listing), len(record) + rnd.getrandbits(2))
        place = rnd.getrandbits(32) % len(record)
        record = with_bytes(record, place, bytes([record[place] ^ 1 << rnd.getrandbits(3)]))
        x.put(f"a record with the byte at place {place} changed", LIST, record, NO_LISTING, 3240 + rnd.getrandbits(4))


def any_bytes(x, rnd):
    """Short input of any bytes, and short input that begins well."""
    for front in ("", "00", "01", "010C80", "010C8040404040", "0500040000 0000"):
        record, listing = bytes.fromhex(front) + some_bytes(rnd, rnd.getrandbits(5)), some_bytes(rnd, rnd.getrandbits(7))
        x.not_listed(f"some {len(record)} bytes", record, 12, 0, rnd.getrandbits(9))
        x.not_taken(f"some {len(record)} bytes and {len(listing)}", record, listing, 12, 0, rnd.getrandbits(9))


# -------------------------------------------------------------- the blanks


def eights(x, rnd):
    """Eight card bytes: the bytes 00 alone, beside others, all, none, and any."""
    text = bytes.fromhex("C3F140D3C9D5C57A")
    x.blanked("a text", text, text)
    for i in range(8):
        x.blanked(f"a text, 00 at {i}", with_bytes(text, i, b"\x00"), with_bytes(text, i, b"\x40"))
    x.blanked("all 00", "0000000000000000", "4040404040404040")
    for byte in (0x01, 0x40, 0x7F, 0x80, 0xFF):
        others = bytes([byte])
        x.blanked(f"all {byte:02X}", others * 8, others * 8)
        for i in range(8):
            rest = others * (7 - i)
            x.blanked(f"00 at {i}, the others {byte:02X}", others * i + b"\x00" + rest, others * i + b"\x40" + rest)
            x.blanked(f"{byte:02X} at {i}, the others 00", bytes(i) + others + bytes(7 - i),
                      b"\x40" * i + others + b"\x40" * (7 - i))
    # within a text, in either order
    for byte in (0x01, 0x80, 0xFF):
        for i in range(7):
            x.blanked(f"{byte:02X} 00 at {i}", with_bytes(text, i, bytes([byte, 0x00])), with_bytes(text, i, bytes([byte, 0x40])))
            x.blanked(f"00 {byte:02X} at {i}", with_bytes(text, i, bytes([0x00, byte])), with_bytes(text, i, bytes([0x40, byte])))
    x.blanked("no 00, every digit", "0123456789ABCDEF", "0123456789ABCDEF")
    x.blanked("no 00, each bit once", "0102040810204080", "0102040810204080")
    x.blanked("00 and each bit", "0001008000400002", "4001408040404002")
    x.blanked("the first four 00", "00000000FFFFFFFF", "40404040FFFFFFFF")
    x.blanked("the last four 00", "0101010100000000", "0101010140404040")
    x.blanked("the middle four 00", "8080000000008080", "8080404040408080")
    x.blanked("all but the middle four 00", "0000FF01FF010000", "4040FF01FF014040")
    x.blanked("each other 00 before 01", "0001000100010001", "4001400140014001")
    x.blanked("each other 00 after 01", "0100010001000100", "0140014001400140")
    x.blanked("each other 00 before 80", "0080008000800080", "4080408040804080")
    x.blanked("each other 00 after 80", "8000800080008000", "8040804080408040")
    x.blanked("each other 00 before FF", "00FF00FF00FF00FF", "40FF40FF40FF40FF")
    x.blanked("each other 00 after FF", "FF00FF00FF00FF00", "FF40FF40FF40FF40")
    x.blanked("two and two 00", "0101000001010000", "0101404001014040")
    # any choice of bytes 00 with any others, then any bytes
    for _ in range(48):
        others = bytes(1 + rnd.getrandbits(32) % 255 for _ in range(8))
        zeros = [rnd.getrandbits(1) for _ in range(8)]
        x.blanked(f"00 at {[i for i in range(8) if zeros[i]]}", bytes(0x00 if zeros[i] else others[i] for i in range(8)),
                  bytes(0x40 if zeros[i] else others[i] for i in range(8)))
    for _ in range(16):
        x.blanked("any bytes", some_bytes(rnd, 8))


# ------------------------------------------------------------ long traces


def long_traces(x, rnd):
    """Traces of several fields and of the earlier form, which a record keeps; its bytes behind the cards are the same."""
    def record(n, traces, earlier=()):
        return with_cards(joined(some_fields(rnd, traces, n=n, earlier=earlier)), FIRST.cards)

    early = record(6001, some_long(rnd, 6001, 1), (1,))
    x.listed("6,001 samples, of the earlier form", early, by_hand=FIRST.listing)
    x.not_taken("6,001 samples, of the earlier form, one byte short", early, CORRECTED.listing, 10, 39465, 39464)
    mixed = record(6001, some_long(rnd, 6001, 2), (1,))
    x.taken("6,001 samples, trace 1 of the earlier form", mixed, CORRECTED.listing, 2, 6001, 4,
            with_cards(mixed, CORRECTED.cards), 1)
    long = record(32767, some_long(rnd, 32767, 1))
    x.taken("32,767 samples", long, CORRECTED.listing, 1, 32767, 0, with_cards(long, CORRECTED.cards))
    x.not_listed("a single field of 8,001", record(8001, some_long(rnd, 8001, 1), (1,)), 12, 3449)


PARTS = (
    good_records, good_listings, room, records_with_a_cause, listings_of_another_length, line_ends, order, small_changes,
    any_bytes, eights, long_traces,
)


def all_cases():
    x = Cases()
    for seed, part in enumerate(PARTS):
        part(x, random.Random(2075 + seed))
    return x


def main():
    x = all_cases()
    text_out = "".join(line + "\n" for _, _, line in x.all)
    files = {"stdin": b"".join(case for _, case, _ in x.all), "stdout": text_out.encode("ascii")}
    assert len(files["stdin"]) < MOST_STDIN
    if sys.argv[1:] == ["--check"]:
        for name, content in files.items():
            if (FOLDER / name).read_bytes() != content:
                sys.exit(f"listing_vectors.py: {FOLDER.name}/{name} isn't what the rules give")
        print(f"listing_vectors.py: {len(x.all)} vectors are what the rules give")
        return
    if sys.argv[1:] == ["--list"]:
        for turn, (what, _, line) in enumerate(x.all, 1):
            print(f"{turn:5d}  {line}  ({what})")
        return
    for name, content in files.items():
        (FOLDER / name).write_bytes(content)
    for kind in sorted(x.kinds):
        print(f"{x.kinds[kind]:5d}  {kind}")
    print(f"{len(x.all):5d}  cases, {len(files['stdin'])} bytes")


if __name__ == "__main__":
    main()
