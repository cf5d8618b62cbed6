"""Words read by segyio, another reader, against the exact values of documents 01 and 02.

Run from the root of the repository:  python3 tools/vectors/against_segyio.py [--store]

What segyio makes of some thousand IBM words is stored in segyio_words.txt beside
this file, so that the comparison runs where segyio can't be installed. A run
compares the stored floats with the values that document 01's rules give
(samples.py), and with the pairs of the stored vectors, on which the proved
code is run. Where segyio is installed, the stored floats must be what it gives
now, and further words are compared. --store asks segyio and writes the file.

Must agree: the normal words whose value is a 32-bit float exactly, either 0 or
of the float's normal range.
Two kinds of words segyio 1.8.3 reads in its own way: words that aren't normal,
and words whose value only a subnormal float would hold. Where it gives another
value than the word's the line says `misread`; `no float` is said of a word
whose value no 32-bit float has. Each such name is worked out anew.

Of codes 5 and 8 nothing is stored: where segyio is installed, it is asked for
the words of code 5 in the stored vectors, for further ones and for every sample
of code 8. All must agree, and the words that aren't finite numbers by segyio
must be those that number 19 refuses.
"""

import importlib.util
import math
import os
import re
import struct
import sys
import tempfile
from collections import Counter
from fractions import Fraction
from pathlib import Path

sys.dont_write_bytecode = True
import samples

FILE = Path(__file__).resolve().with_name("segyio_words.txt")
SAMPLES_A_TRACE = 1000
SMALLEST_NORMAL_FLOAT = Fraction(1, 2 ** 126)
SHOWN = [
    "41100000", "C276A000", "42010000", "C2010000", "420FFFFF", "46000001",
    "00000000", "80000000", "41000000", "7F000000", "FF000000",
    "00000001", "21300000", "21400000", "60FFFFFF", "61100000", "7F800000", "7FFFFFFF",
]
STORED_FURTHER = 2000  # of the further words

# Fewer than these would be no comparison.
LEAST = {"must agree": 2000, "misread": 400, "no float": 300, "of the vectors": 2000}

HEAD = """\
# What segyio {version} makes of IBM words (format code 1).
# Made by tools/vectors/against_segyio.py --store; that script says what is compared.
# A line is the word and the bits of the 32-bit float that segyio gives, in hexadecimal.
# `misread`: a 32-bit float has the word's value, and segyio gives another. `no float`: no 32-bit float has it.
# {lines} words, {misread} misread, {no_float} no float
"""
HEAD_WORDS = re.compile(HEAD.replace("(", r"\(").replace(")", r"\)").format(
    version=r"(?P<version>[0-9.]+)", lines="(?P<lines>[0-9]+)", misread="(?P<misread>[0-9]+)",
    no_float="(?P<no_float>[0-9]+)"))
LINE = re.compile("([0-9A-F]{8}) ([0-9A-F]{8})( misread| no float)?")


# ---------------------------------------------------------------- the rules


def value_of_pair(pair):
    e, m = samples.signed(pair[0:2]), samples.signed(pair[2:6])
    return Fraction(m) * Fraction(2) ** e


def value_of(word):
    return Fraction(samples.v_of_word(1, word), samples.SCALE)


def value_of_float(bits):
    """The value of a 32-bit float, or None for an infinity or a not-a-number."""
    sign, exponent, fraction = bits // 2 ** 31, bits // 2 ** 23 % 256, bits % 2 ** 23
    if exponent == 255:
        return None
    whole = fraction if exponent == 0 else 2 ** 23 + fraction
    return (1 - 2 * sign) * Fraction(whole) * Fraction(2) ** (max(exponent, 1) - 150)


def is_float(value):
    """Does a 32-bit float have the value exactly?"""
    try:
        rounded = struct.unpack(">f", struct.pack(">f", float(value)))[0]
    except OverflowError:
        return False
    return Fraction(rounded) == value


def must_agree(word):
    value = value_of(word)
    normal = samples.not_normal(1, word) == 0
    return normal and is_float(value) and (value == 0 or abs(value) >= SMALLEST_NORMAL_FLOAT)


def name_of(word, bits):
    value = value_of(word)
    if not is_float(value):
        return "no float"
    return "" if value_of_float(bits) == value else "misread"


# ---------------------------------------------------------------- the words


def vectors(code):
    """Words, numbers and pairs of the stored vectors of a code, on which the proved code is run."""
    with open(samples.FOLDER / "stdin") as lines_in, open(samples.FOLDER / "stdout") as lines_out:
        for line, answer in zip(lines_in, lines_out, strict=True):
            if line.startswith(f"r {code:08x} "):
                yield bytes.fromhex(line[11:19]), int(answer[:3]), bytes.fromhex(answer[21:33])


def further():
    """Any normal words, most of them in a float's range."""
    rnd = samples.Numbers(1983)
    for _ in range(8000):
        word = rnd.between(32, 97) * 2 ** 24 + rnd.between(0x100000, 0xFFFFFF)
        yield (word + rnd.bits(1) * 2 ** 31).to_bytes(4, "big")


def aligned():
    """In each characteristic of a float's range, fractions of 21 to 24 bits at their ends."""
    for c in range(32, 98):
        for k in range(20, 24):
            for f in (2 ** k, 2 ** (k + 1) - 1):
                s = (c + k + f) % 2
                yield (s * 2 ** 31 + c * 2 ** 24 + f).to_bytes(4, "big")


def words_to_store():
    words = [bytes.fromhex(word) for word in SHOWN]
    words += [word for word, _, _ in vectors(1)]
    words += aligned()
    words += list(further())[:STORED_FURTHER]
    return list(dict.fromkeys(words))


def by_segyio(code, words):
    """What segyio makes of samples of a code, from a reel laid out byte by byte: an array."""
    import segyio

    traces = -(-len(words) // SAMPLES_A_TRACE)
    padded = words + [bytes(len(words[0]))] * (traces * SAMPLES_A_TRACE - len(words))
    header = bytearray(400)
    header[16:18] = (2000).to_bytes(2, "big")  # byte 3217, the sample interval
    header[20:22] = SAMPLES_A_TRACE.to_bytes(2, "big")  # byte 3221, samples a trace
    header[24:26] = code.to_bytes(2, "big")  # byte 3225, the format code
    reel = b"\x40" * 3200 + bytes(header)
    for first in range(0, len(padded), SAMPLES_A_TRACE):
        reel += bytes(240) + b"".join(padded[first:first + SAMPLES_A_TRACE])

    with tempfile.TemporaryDirectory() as folder:
        path = os.path.join(folder, "reel.sgy")
        with open(path, "wb") as file:
            file.write(reel)
        with segyio.open(path, "r", ignore_geometry=True) as reel_read:
            if int(reel_read.format) != code or reel_read.tracecount != traces:
                sys.exit("against_segyio.py: segyio opens another reel than was written")
            return reel_read.trace.raw[:].reshape(-1)[:len(words)]


def floats_by_segyio(words):
    """The bits of the floats segyio makes of IBM words."""
    return by_segyio(1, words).view("uint32").tolist()


def further_ieee():
    """Any words of code 5, and subnormal ones."""
    rnd = samples.Numbers(1985)
    for _ in range(6000):
        yield rnd.bits(32).to_bytes(4, "big")
        yield (rnd.bits(1) * 2 ** 31 + rnd.bits(rnd.between(1, 23))).to_bytes(4, "big")


def new_codes(wrong):
    """Words of code 5 and all samples of code 8, by segyio. Gives the counts of words of code 5, and of those without a value."""
    held = {}
    for word, number, pair in vectors(5):
        held[word] = None if number == 19 else value_of_pair(pair)
    for word in further_ieee():
        held[word] = Fraction(samples.v_of_word(5, word), samples.SCALE) if samples.is_finite(word) else None
    words = list(held)
    for word, given in zip(words, by_segyio(5, words).tolist(), strict=True):
        if (Fraction(given) if math.isfinite(given) else None) != held[word]:
            wrong.append(f"{word.hex().upper()} of code 5 is {held[word]}, segyio gives {given}")
    every = [bytes([byte]) for byte in range(256)]
    for byte, given in zip(every, by_segyio(8, every).tolist(), strict=True):
        if given * samples.SCALE != samples.v_of_word(8, byte + bytes(3)):
            wrong.append(f"{byte.hex().upper()} of code 8: segyio gives {given}")
    return len(words), sum(value is None for value in held.values())


# ----------------------------------------------------------------- the file


def store():
    import segyio

    words = words_to_store()
    counts, lines = Counter(), []
    for word, bits in zip(words, floats_by_segyio(words), strict=True):
        name = name_of(word, bits)
        counts[name] += 1
        lines.append(f"{word.hex().upper()} {bits:08X} {name}".rstrip() + "\n")
    head = HEAD.format(version=segyio.__version__, lines=len(lines), misread=counts["misread"],
                       no_float=counts["no float"])
    FILE.write_text(head + "".join(lines), encoding="ascii")
    print(f"against_segyio.py: {len(lines)} words of segyio {segyio.__version__} are stored")


def load():
    """The version of segyio, and the stored words with bits and names. The file must be whole."""
    try:
        text = FILE.read_text(encoding="ascii")
    except OSError as error:
        sys.exit(f"against_segyio.py: no stored words: {error}")
    head = HEAD_WORDS.match(text)
    if head is None:
        sys.exit(f"against_segyio.py: {FILE.name} has another head than --store writes")
    stored = {}
    for line in text[head.end():].splitlines():
        parts = LINE.fullmatch(line)
        if parts is None:
            sys.exit(f"against_segyio.py: {FILE.name} has a line of another form: {line!r}")
        stored[bytes.fromhex(parts[1])] = int(parts[2], 16), (parts[3] or "").strip()
    names = Counter(name for _, name in stored.values())
    held = {"lines": len(stored), "misread": names["misread"], "no_float": names["no float"]}
    for what, count in held.items():
        if count != int(head[what]):
            sys.exit(f"against_segyio.py: {FILE.name} holds {count} {what}, its head says {head[what]}")
    return head["version"], stored


# ----------------------------------------------------------- the comparison


def main():
    installed = importlib.util.find_spec("segyio") is not None
    if sys.argv[1:] == ["--store"]:
        if not installed:
            sys.exit("against_segyio.py: segyio is not installed, so nothing is stored")
        return store()
    if sys.argv[1:]:
        sys.exit(__doc__)

    version, stored = load()
    wrong = []
    counts = Counter()
    for word, (bits, name) in stored.items():
        told = f"{word.hex().upper()} is {value_of(word)}, segyio {version} gave the float {bits:08X}"
        if must_agree(word):
            counts["must agree"] += 1
            if value_of_float(bits) != value_of(word):
                wrong.append(told)
        if name != name_of(word, bits):
            wrong.append(f"{told}: named {name!r}")
        counts[name] += 1
    not_stored = []
    for word, _, pair in vectors(1):
        if word not in stored:
            not_stored.append(word)
        elif must_agree(word):
            counts["of the vectors"] += 1
            if value_of_float(stored[word][0]) != value_of_pair(pair):
                wrong.append(f"vector {word.hex().upper()} has the pair {pair.hex().upper()}: another value than the float")
    for what, least in LEAST.items():
        if counts[what] < least:
            wrong.append(f"only {counts[what]} words: {what}")
    for word in SHOWN:
        if bytes.fromhex(word) not in stored:
            wrong.append(f"{word} is not stored")
    print(
        f"against_segyio.py: {len(stored)} stored words of segyio {version}: {counts['must agree']} compared with "
        f"document 01's values, {counts['of the vectors']} of them also with the vectors' pairs; "
        f"named, not compared: {counts['misread']} misread, {counts['no float']} no float"
    )
    if not_stored:
        print(f"against_segyio.py: {len(not_stored)} words of the vectors are not stored (--store adds them)")

    if installed and not wrong:
        import segyio

        now = segyio.__version__
        other = 0
        for (word, (bits, _)), given in zip(stored.items(), floats_by_segyio(list(stored)), strict=True):
            if given == bits:
                continue
            if must_agree(word) or now == version:
                wrong.append(f"{word.hex().upper()} is stored as {bits:08X}, segyio {now} gives {given:08X}")
            other += 1
        more = [word for word in [*further(), *not_stored] if word not in stored and must_agree(word)]
        for word, given in zip(more, floats_by_segyio(more), strict=True):
            if value_of_float(given) != value_of(word):
                wrong.append(f"{word.hex().upper()} is {value_of(word)}, segyio {now} gives the float {given:08X}")
        print(
            f"against_segyio.py: segyio {now} now gives the stored floats but for {other}; "
            f"{len(more)} further words compared"
        )
        ieee, without = new_codes(wrong)
        if without < 30 or ieee - without < 10000:
            wrong.append(f"only {ieee} words of code 5, {without} of them without a value")
        print(f"against_segyio.py: {ieee} words of code 5, {without} of them without a value, and every sample of code 8 compared")
    elif not installed:
        print("against_segyio.py: segyio is not installed, so the stored floats were not asked for anew")

    for line in wrong:
        print(f"differs: {line}")
    return 1 if wrong else 0


if __name__ == "__main__":
    sys.exit(main())
