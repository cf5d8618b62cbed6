"""The card listing, its way back and eight card bytes blanked, worked out from document 02's CR 1, CR 6 and CR 8 alone.

    python3 tools/vectors/cards.py            checks this file on the paper's statements

The rules are written here as literally as possible, so that they share
nothing with the code they test. Code page 037 is Python's codec cp037, which
follows Unicode's CP037.TXT. What is said of a record, and of a listing with
it, is a tuple:
    ("taken", length, listing)         by listing; the listing is bytes
    ("taken", T, N, length, record)    by taking back; the record is bytes
    ("refused", number, beside)        by either; beside is a place or a length
Blanking takes a number and gives a number.
"""

import random
import sys
from pathlib import Path

sys.path.insert(0, str(Path(__file__).resolve().parent))
sys.dont_write_bytecode = True

from records import (  # noqa: E402
    TAG, counts, first_cause, in_new_form, make_record, some_cards, some_fields, some_long, some_traces, with_bytes,
)
from reels import CARDS, card_text, make_reel, some_bytes  # noqa: E402
from samples import pair_bytes  # noqa: E402

LINES, COLUMNS = 40, 80
LISTING = LINES * (COLUMNS + 1)
LINE_FEED = 0x0A


# --------------------------------------------------------------- the page


def character_of(code):
    """The ISO 8859-1 character of an EBCDIC code."""
    return ord(bytes([code]).decode("cp037"))


def code_of(character):
    """The EBCDIC code of an ISO 8859-1 character."""
    return chr(character).encode("cp037")[0]


# ------------------------------------------------------------- the blanks


def blanked(cards):
    """Card bytes with 40 for each 00 and every other byte as it was."""
    return cards.replace(b"\x00", b"\x40")


def blank_eight(number):
    """What eight card bytes become, as one number, the first byte highest."""
    return int.from_bytes(blanked(number.to_bytes(8, "big")), "big")


# ------------------------------------------------------------ the listing


def place_of_line_end(line):
    """The 81st byte of a line, from 1."""
    return line * (COLUMNS + 1) - 1


def listing_of(cards):
    """The listing of 3,200 card bytes."""
    lines = (cards[i : i + COLUMNS] for i in range(0, CARDS, COLUMNS))
    return b"".join(bytes(map(character_of, line)) + bytes([LINE_FEED]) for line in lines)


def cards_of(listing):
    """The card bytes of a listing of the right form, 40 in place of 00."""
    characters = (character for i, character in enumerate(listing) if i % (COLUMNS + 1) != COLUMNS)
    return blanked(bytes(map(code_of, characters)))


def listing_cause(listing):
    """The refusal by 17, or None for a listing of the right form."""
    if len(listing) != LISTING:
        return "refused", 17, len(listing)
    for line in range(1, LINES + 1):
        if listing[place_of_line_end(line)] != LINE_FEED:
            return "refused", 17, place_of_line_end(line)
    return None


def list_cards(record, room):
    """What listing says of any bytes when the output has that much room."""
    cause = first_cause(record)
    if cause:
        return cause
    if room < LISTING:
        return "refused", 10, LISTING
    return "taken", LISTING, listing_of(record[TAG : TAG + CARDS])


def take_cards(record, listing, room):
    """What taking back says of any bytes, and any listing, when the output has that much room."""
    cause = first_cause(record) or listing_cause(listing)
    if cause:
        return cause
    if room < len(record):
        return "refused", 10, len(record)
    return "taken", *counts(record), len(record), with_bytes(record, TAG, cards_of(listing))


def after(said, output):
    """The output's bytes after a call of which that is said."""
    if said[0] == "refused":
        return output
    return said[-1] + output[len(said[-1]) :]


# ------------------------------------------------------------- self-check


def check_page():
    assert sorted(map(character_of, range(256))) == list(range(256))
    assert all(code_of(character_of(code)) == code for code in range(256))
    for code, character in (
        (0x00, 0x00), (0x0D, 0x0D), (0x15, 0x85), (0x25, 0x0A), (0x40, 0x20), (0xC1, 0x41), (0xF0, 0x30), (0xFF, 0x9F),
    ):
        assert character_of(code) == character


def check_blanks():
    """Each byte 00 alone, beside 01, 80 and FF, all and none; then the cards of reels, eight by eight."""
    for number, blanks in (
        (0xC3F140D3C9D5C57A, 0xC3F140D3C9D5C57A), (0x00F140D3C9D5C57A, 0x40F140D3C9D5C57A),
        (0xC30040D3C9D5C57A, 0xC34040D3C9D5C57A), (0xC3F100D3C9D5C57A, 0xC3F140D3C9D5C57A),
        (0xC3F14000C9D5C57A, 0xC3F14040C9D5C57A), (0xC3F140D300D5C57A, 0xC3F140D340D5C57A),
        (0xC3F140D3C900C57A, 0xC3F140D3C940C57A), (0xC3F140D3C9D5007A, 0xC3F140D3C9D5407A),
        (0xC3F140D3C9D5C500, 0xC3F140D3C9D5C540), (0x0000000000000000, 0x4040404040404040),
        (0x0101010101010101, 0x0101010101010101), (0x8080808080808080, 0x8080808080808080),
        (0xFFFFFFFFFFFFFFFF, 0xFFFFFFFFFFFFFFFF), (0x0000000000000001, 0x4040404040404001),
        (0x0100000000000000, 0x0140404040404040), (0x0001000100010001, 0x4001400140014001),
        (0x0100010001000100, 0x0140014001400140), (0x0080008000800080, 0x4080408040804080),
        (0x8000800080008000, 0x8040804080408040), (0x00FF00FF00FF00FF, 0x40FF40FF40FF40FF),
        (0xFF00FF00FF00FF00, 0xFF40FF40FF40FF40),
    ):
        assert blank_eight(number) == blanks == blank_eight(blanks), f"{number:016X}"
    rnd = random.Random(1975)
    for choices in (b"\x00", b"\x00\x01\x40\x80\xFF", bytes(range(256))):
        cards = bytes(choices[rnd.getrandbits(32) % len(choices)] for _ in range(CARDS))
        text = card_text(make_reel(2000, 2, 1, cards=cards))
        for i in range(0, CARDS, 8):
            assert int.from_bytes(text[i : i + 8], "big") == blank_eight(int.from_bytes(cards[i : i + 8], "big"))


def check_example():
    record = make_record(2000, 2, [[pair_bytes(0, 1), pair_bytes(-3, -949)]])
    blanks = (b" " * 80 + b"\n") * 40
    assert len(blanks) == 3240
    assert list_cards(record, 3240) == ("taken", 3240, blanks)
    for room in (0, 3239):
        assert list_cards(record, room) == ("refused", 10, 3240)
    assert take_cards(record, blanks, 3471) == ("taken", 1, 2, 3471, record)
    assert take_cards(record, blanks, 3470) == ("refused", 10, 3471)
    text = with_bytes(blanks, 81, b"C 2 LINE\x0012")
    corrected = with_bytes(record, 3 + 80, bytes.fromhex("C3 40 F2 40 D3 C9 D5 C5 40 F1 F2"))
    assert take_cards(record, text, 3471) == ("taken", 1, 2, 3471, corrected)
    assert after(take_cards(record, text, 3473), b"\xA5" * 3473) == corrected + b"\xA5\xA5"
    assert after(take_cards(record, text, 3470), b"\xA5" * 3470) == b"\xA5" * 3470
    assert [place_of_line_end(line) for line in (1, 2, 40)] == [80, 161, 3239]
    for line in range(1, 41):
        assert take_cards(record, with_bytes(text, place_of_line_end(line), b"\r"), 0) == ("refused", 17, 81 * line - 1)
    for length in (0, 3239, 3241):
        assert take_cards(record, (text + text)[:length], 0) == ("refused", 17, length)


def check_there_and_back(rnd):
    """A text that is listed and taken back gives itself, whichever valid record is lent."""
    for t, n in ((0, 3), (1, 1), (2, 7)):
        record, other = (b"".join(some_fields(rnd, some_traces(rnd, 1, n, t), n=n)) for _ in range(2))
        _, length, listing = list_cards(record, LISTING)
        assert length == len(listing) == LISTING and listing[COLUMNS :: COLUMNS + 1] == b"\n" * LINES
        assert take_cards(record, listing, len(record)) == ("taken", t, n, len(record), record)
        mixed = other[:3] + record[3:3203] + other[3203:]
        assert take_cards(other, listing, len(other)) == ("taken", t, n, len(other), mixed)
        any_text = listing_of(some_bytes(rnd, CARDS))
        taken = take_cards(record, any_text, len(record))[-1]
        assert list_cards(taken, LISTING)[-1] == any_text.replace(b"\x00", b" ")


def check_long(rnd):
    """Long traces, of either form: the record that comes of a listing keeps each trace's, and so its length."""
    for n, t, earlier, length in (
        (6000, 1, (), 39459), (6001, 2, (), 75663), (6001, 2, (1,), 75660), (8000, 2, (2,), 99648), (8000, 2, (1, 2), 99645),
        (8001, 1, (), 51468), (32767, 1, (), 200076),
    ):
        record = b"".join(some_fields(rnd, some_long(rnd, n, t), earlier=earlier))
        assert len(record) == length and (record == in_new_form(record)) == (not earlier)
        listing = listing_of(some_bytes(rnd, CARDS))
        assert list_cards(record, 3240) == ("taken", 3240, listing_of(record[3:3203]))
        said = take_cards(record, listing, length)
        assert said == ("taken", t, n, length, record[:3] + cards_of(listing) + record[3203:])
        assert first_cause(said[-1]) is None
        assert take_cards(record, listing, length - 1) == ("refused", 10, length)
        for call in (list_cards, lambda record, room: take_cards(record, b"", room)):
            assert call(record + b"\x00", 0) == ("refused", 12, length)
            assert call(with_bytes(record, length - 13, bytes.fromhex("0000 00000002")), 0) == ("refused", 13, length - 13)
    for n in (8001, 10922):
        single = make_record(9, n, some_long(rnd, n, 1), earlier=(1,))
        assert list_cards(single, 0) == take_cards(single, b"", 0) == ("refused", 12, 3449)


def check_order():
    """12 and 13, then 17 by length, then by place, then 10."""
    record, listing = make_record(), listing_of(some_cards(random.Random(1)))
    wrong_end = with_bytes(listing, 161, b" ")
    both = wrong_end[:-1]
    assert take_cards(record[:-1], both, 0) == ("refused", 12, 3266)
    assert take_cards(with_bytes(record, 100, b"\x00"), both, 0) == ("refused", 13, 100)
    assert take_cards(record, both, 0) == ("refused", 17, 3239)
    assert take_cards(record, wrong_end, 0) == ("refused", 17, 161)
    assert take_cards(record, listing, 0) == ("refused", 10, 3273)
    assert list_cards(record[:-1], 0) == ("refused", 12, 3266)
    assert list_cards(with_bytes(record, 100, b"\x00"), 0) == ("refused", 13, 100)
    assert list_cards(record, 0) == ("refused", 10, 3240)


def main():
    check_page()
    check_blanks()
    check_example()
    check_there_and_back(random.Random(1975))
    check_long(random.Random(1976))
    check_order()
    print("cards.py: the paper's statements hold")


if __name__ == "__main__":
    main()
