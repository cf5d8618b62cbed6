"""Makes the sample reel examples/sample.sgy.

    python3 tests/make_sample_reel.py             writes it
    python3 tests/make_sample_reel.py --check     exits 1 unless the file is what would be written

Six traces of 240 samples at 2 milliseconds, code 1. Every sample is a multiple of 1/8 and under 4,096, so that codes 1 and 4 hold the
reel and codes 2 and 3 don't. Trace 2 leaves its sample count and interval 0, which are the reel's then. The first two words of trace
6 are a minus zero and a 1 that isn't normal: the record has the values 0 and 1, and a reel written from it has the normal words.
"""

import sys
from pathlib import Path

SAMPLE = Path(__file__).resolve().parents[1] / "examples" / "sample.sgy"

INTERVAL, N, T, CODE = 2000, 240, 6, 1

CARDS = {
    1: "CLIENT  AUKPOCKET SAMPLE SURVEY",
    2: "LINE 12     AREA  SKERRY BANK     MAP ID  NONE",
    3: "REEL NO 1   DAY-START OF REEL 201 YEAR 1975",
    4: "INSTRUMENT: MADE BY A SCRIPT, NOT RECORDED",
    5: "DATA TRACES/RECORD 6    AUXILIARY TRACES/RECORD 0",
    6: "SAMPLE INTERVAL 2000 US   SAMPLES/TRACE 240   BITS/IN 1600   BYTES/SAMPLE 4",
    7: "RECORDING FORMAT SEG-Y    MEASUREMENT SYSTEM METRES",
    8: "SAMPLE CODE: FLOATING PT",
    40: "END EBCDIC",
}

# A wavelet, and the reflections of each trace: first sample, delay from trace to trace, size in eighths.
WAVELET = (1, 2, 2, -1, -6, -11, -9, 3, 19, 28, 19, 3, -9, -11, -6, -1, 2, 2, 1)
REFLECTIONS = ((24, 3, 1000), (88, 2, -431), (151, 1, 187), (204, 1, -43))


def cards():
    lines = ("C%2d %s" % (i, CARDS.get(i, "")) for i in range(1, 41))
    return "".join(line.ljust(80) for line in lines).encode("cp037")


def ibm_word(eighths):
    """The normal IBM word of a number of eighths: F times 16 to the power C - 70, C being 69 for a fraction of twice as many."""
    if eighths == 0:
        return bytes(4)
    fraction, characteristic = 2 * abs(eighths), 69
    while fraction < 0x100000:
        fraction, characteristic = 16 * fraction, characteristic - 1
    assert fraction < 0x1000000
    sign = 0x80 if eighths < 0 else 0x00
    return bytes([sign + characteristic]) + fraction.to_bytes(3, "big")


def header(length, first, fields):
    """A header with these fields: byte number, width and number."""
    content = bytearray(length)
    for byte_number, width, number in fields:
        place = byte_number - first
        content[place : place + width] = number.to_bytes(width, "big", signed=True)
    return bytes(content)


BINARY_FIELDS = (
    (3201, 4, 1975), (3205, 4, 12), (3209, 4, 1),
    (3213, 2, T), (3217, 2, INTERVAL), (3219, 2, INTERVAL), (3221, 2, N), (3223, 2, N), (3225, 2, CODE),
    (3227, 2, 1), (3229, 2, 1), (3231, 2, 1), (3255, 2, 1), (3257, 2, 1),
)


def trace_fields(i):
    filled = i != 2
    return (
        (1, 4, 100 + i), (5, 4, i), (9, 4, 7), (13, 4, i), (17, 4, 31),
        (29, 2, 1), (31, 2, 1), (33, 2, 1), (35, 2, 1),
        (37, 4, 25 * i - 75), (41, 4, 1250 - 4 * i), (45, 4, 1242), (49, 4, 60), (69, 2, -10), (71, 2, 1),
        (73, 4, 441200), (77, 4, -612300), (81, 4, 441200 + 25 * i), (85, 4, -612300 - 5 * i), (89, 2, 1),
        (115, 2, N if filled else 0), (117, 2, INTERVAL if filled else 0),
        (157, 2, 1975), (159, 2, 201), (161, 2, 14), (163, 2, 3), (165, 2, 20 + i), (167, 2, 2),
    )


def eighths(i):
    """The values of a trace, in eighths."""
    values = [0] * N
    for first, delay, size in REFLECTIONS:
        for k, height in enumerate(WAVELET):
            values[first + delay * i + k - 1] += height * size
    if i == T:
        values[0:2] = 0, 8
    assert all(abs(x) < 8 * 4096 for x in values)
    return values


def samples(i):
    words = [ibm_word(x) for x in eighths(i)]
    if i == T:
        words[0:2] = bytes.fromhex("80000000"), bytes.fromhex("42010000")
    return b"".join(words)


def sample_reel():
    traces = b"".join(header(240, 1, trace_fields(i)) + samples(i) for i in range(1, T + 1))
    return cards() + header(400, 3201, BINARY_FIELDS) + traces


def main():
    reel = sample_reel()
    if sys.argv[1:] == ["--check"]:
        if not SAMPLE.is_file() or SAMPLE.read_bytes() != reel:
            sys.exit("examples/sample.sgy isn't what tests/make_sample_reel.py makes")
    elif sys.argv[1:]:
        sys.exit("usage: make_sample_reel.py [--check]")
    else:
        SAMPLE.write_bytes(reel)


if __name__ == "__main__":
    main()
