"""A reader of records and reels, written from docs/FORMAT.md alone: it uses nothing else of the repository.

    python3 tests/format_reader.py record FILE
    python3 tests/format_reader.py reel FILE
    python3 tests/format_reader.py eagle FILE

prints what the file means.
"""

import sys
from fractions import Fraction

WIDTHS = {
    "binary": {**dict.fromkeys((3201, 3205, 3209), 4), **dict.fromkeys(range(3213, 3260, 2), 2)},
    "trace": {
        **dict.fromkeys((*range(1, 26, 4), *range(37, 66, 4), *range(73, 86, 4)), 4),
        **dict.fromkeys((29, 31, 33, 35, 69, 71, *range(89, 180, 2)), 2),
    },
}
INTERVAL, COUNT, CODE, TRACE_COUNT, TRACE_INTERVAL = 3217, 3221, 3225, 115, 117
TRAILER = 960  # of an Eagle reel's trace
IN_FIELD = 6000  # samples in a field of a record; the last of a trace has what remains

# Elevations and depths, and coordinates, by the number that is their scalar; the power of ten that a scalar stands for.
GROUPS = {69: (41, 45, 49, 53, 57, 61, 65), 71: (73, 77, 81, 85)}
POWERS = {-10000: -4, -1000: -3, -100: -2, -10: -1, 1: 0, 10: 1, 100: 2, 1000: 3, 10000: 4}


def check(fact, what):
    if not fact:
        raise ValueError(what)


def signed(content):
    return int.from_bytes(content, "big", signed=True)


def numbers(header, content):
    """The numbers of a header by byte number, side by side."""
    first, widths = min(WIDTHS[header]), WIDTHS[header]
    return {b: signed(content[b - first : b - first + widths[b]]) for b in sorted(widths)}


def scaled(header, powers):
    """The numbers of a trace header with the values of its elevations and coordinates in place of their numbers and scalars."""
    values = dict(header)
    for scalar, group in GROUPS.items():
        check(values[scalar] in powers, "a scalar")
        power = powers[values.pop(scalar)]
        values.update({b: header[b] * Fraction(10) ** power for b in group})
    return values


def card_text(content):
    return [content[i : i + 80].decode("cp037") for i in range(0, 3200, 80)]


def listing(cards):
    """The listing of a card text."""
    return b"".join(card.encode("latin-1") + b"\n" for card in cards)


def read_record(data):
    """What a record holds: its cards, binary header numbers without the format code, and traces of header numbers and sample values.
    Elevations and coordinates are values, and their scalars are left out."""
    place = 0

    def field(tag, length):
        nonlocal place
        head, content = data[place : place + 3], data[place + 3 : place + 3 + length]
        check(head == bytes([tag]) + length.to_bytes(2, "big") and len(content) == length, f"no field {tag} at place {place}")
        place += 3 + length
        return content

    cards = field(1, 3200)
    check(0 not in cards, "a card byte 00")
    binary = numbers("binary", field(2, 60))
    n, t, earlier = binary[COUNT], int.from_bytes(data[-4:], "big"), 0
    check(n >= 1 and binary[INTERVAL] >= 1 and binary.pop(CODE) == 0, "the binary header")
    traces = []
    for _ in range(t):
        header = numbers("trace", field(3, 180))
        check((header[TRACE_COUNT], header[TRACE_INTERVAL]) == (n, binary[INTERVAL]), "a trace header")
        for scalar, group in GROUPS.items():
            check(header[scalar] == -10000 or any(abs(header[b]) > 214_748_364 for b in group), "a power that isn't the smallest")
        if is_single(n, data[place + 1 : place + 3]):
            earlier, pairs = earlier + 1, field(4, 6 * n)
        else:
            pairs = b"".join([field(4, 6 * min(IN_FIELD, n - k)) for k in range(0, n, IN_FIELD)])
        traces.append((scaled(header, POWERS), [pair_value(pairs[i : i + 6]) for i in range(0, 6 * n, 6)]))
    field(5, 4)
    fields = (n + IN_FIELD - 1) // IN_FIELD
    check(place == len(data) == 3273 + t * (183 + 3 * fields + 6 * n) - 3 * earlier, "bytes after the record")
    return card_text(cards), binary, traces


def is_single(n, length):
    """Does the length of a trace's first field of samples tell the earlier form, in which it is the only one?"""
    return 6001 <= n <= 8000 and int.from_bytes(length, "big") == 6 * n


def pair_value(pair):
    e, m = signed(pair[:2]), signed(pair[2:])
    check(e == m == 0 or m % 2 == 1 and -280 <= e <= 251 and m > -(2**31), "a pair")
    value = m * Fraction(2) ** e
    check(Fraction(float(value)) == value, "a 64-bit number doesn't hold it")
    return value


def read_reel(data, trailer=0):
    """What a reel whose traces have trailers of that length means, in the same form."""
    binary = numbers("binary", data[3200:3260])
    interval, n, code = binary[INTERVAL], binary[COUNT], binary.pop(CODE)
    check(len(data) >= 3600 and code in ((1,) if trailer else (1, 2, 3, 4, 5, 8)) and n >= 1 and interval >= 1, "the headers")
    width = {8: 1, 3: 2}.get(code, 4)
    end = 240 + n * width
    check((len(data) - 3600) % (end + trailer) == 0, "bytes after the last trace")
    traces = []
    for start in range(3600, len(data), end + trailer):
        header = numbers("trace", data[start : start + 180])
        check(header[TRACE_COUNT] in (0, n) and header[TRACE_INTERVAL] in (0, interval), "a trace header")
        header.update({TRACE_COUNT: n, TRACE_INTERVAL: interval})
        words = data[start + 240 : start + end]
        values = [word_value(code, words[i : i + width]) for i in range(0, len(words), width)]
        traces.append((scaled(header, {**POWERS, 0: 0, -1: 0}), values))
        check(not trailer or data[start + end + 958 : start + end + trailer] == b"\xff\xff", "the end of a trailer")
    cards = data[:3198] + b"\x40\x40" if trailer else data[:3200]
    return card_text(cards.replace(b"\x00", b"\x40")), binary, traces


def read_eagle(data):
    """What an Eagle reel means, in the same form."""
    return read_reel(data, TRAILER)


def word_value(code, word):
    if code == 1:
        fraction = int.from_bytes(word[1:], "big") * Fraction(16) ** (word[0] % 128 - 70)
        return -fraction if word[0] >= 128 else fraction
    if code == 4:
        check(word[0] == 0, "a gain word")
        return Fraction(signed(word[2:]), 2 ** word[1])
    if code == 5:
        bits = int.from_bytes(word, "big")
        exponent, fraction = bits // 2**23 % 256, bits % 2**23
        check(exponent != 255, "an infinity or a not-a-number")
        value = (2**23 + fraction) * Fraction(2) ** (exponent - 150) if exponent else fraction * Fraction(2) ** -149
        return -value if bits >= 2**31 else value
    return Fraction(signed(word))


def is_normal(word):
    """Is it the normal word, under code 1, of its value?"""
    characteristic, fraction = word[0] % 128, int.from_bytes(word[1:], "big")
    return word == bytes(4) if fraction == 0 else fraction >= 16**5 or characteristic == 0


def not_normal(data, trailer=0):
    """How many words of a reel aren't normal, which are counted under code 1 alone."""
    _, binary, traces = read_reel(data, trailer)
    if signed(data[CODE - 1 : CODE + 1]) != 1:
        return 0
    end = 240 + 4 * binary[COUNT]
    words = (data[place : place + 4] for start in range(3600, 3600 + len(traces) * (end + trailer), end + trailer)
             for place in range(start + 240, start + end, 4))
    return sum(not is_normal(word) for word in words)


def main():
    readers = {"record": read_record, "reel": read_reel, "eagle": read_eagle}
    if len(sys.argv) != 3 or sys.argv[1] not in readers:
        sys.exit("usage: format_reader.py record|reel|eagle FILE")
    with open(sys.argv[2], "rb") as file:
        cards, binary, traces = readers[sys.argv[1]](file.read())
    print(*cards, sep="\n")
    print("binary header", binary)
    for i, (header, values) in enumerate(traces, 1):
        print(f"trace {i}", {b: str(number) for b, number in header.items()}, *map(str, values))


if __name__ == "__main__":
    main()
