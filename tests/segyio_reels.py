"""Reels that the command writes, opened by another reader, segyio; and reels that segyio writes, read by the command.

    python3 tests/segyio_reels.py PATH_OF_COMMAND

The reels that the command is given are made here, but for examples/sample.sgy, and are the same at every run. The command reads each
into a record and writes that as a reel again, in each of the codes 1, 2, 3, 5 and 8 that holds its samples; segyio doesn't know code 4.
What segyio finds in the written reel, cards, header fields and samples, is compared with the bytes of the reel that the command was
given, by the rules of documents 01 and 02. A written reel has the record's scalars, so elevations and coordinates are compared by their
scaled values, as document 02's CR 2 says. So that no comparison is idle, copies of written reels with one bit changed must be found to
differ.

A sample of code 1 is compared where a 32-bit float, which segyio makes of it, holds its value; the others are counted. Those of code 5
are compared all, the subnormal ones too.

The other way, segyio writes reels of codes 5 and 8 from samples and header fields that are made here. The command reads them, and what
stands in their records is compared with what segyio was given. A reel with an infinity or a not-a-number is refused by 19.

Prints a line for each way and exits 0 if all agree; else prints the differences and exits 1. Without segyio it says so and exits 0.
"""

import importlib.util
import math
import random
import struct
import subprocess
import sys
import tempfile
import warnings
from fractions import Fraction
from pathlib import Path

SAMPLE = Path(__file__).resolve().parents[1] / "examples" / "sample.sgy"

# The width of each assigned field, by its byte number.
BINARY_FIELDS = {**dict.fromkeys((3201, 3205, 3209), 4), **dict.fromkeys(range(3213, 3261, 2), 2)}
TRACE_FIELDS = {
    **dict.fromkeys((*range(1, 26, 4), *range(37, 66, 4), *range(73, 86, 4)), 4),
    **dict.fromkeys((29, 31, 33, 35, 69, 71, *range(89, 180, 2)), 2),
}
assert (len(BINARY_FIELDS), len(TRACE_FIELDS)) == (27, 71)
INTERVAL, COUNT, CODE = 3217, 3221, 3225
TRACE_COUNT, TRACE_INTERVAL = 115, 117

# Each scalar's field, and the fields of elevations or coordinates that it acts on; the scalars of a reel, and those of a record.
GROUPS = {69: range(41, 66, 4), 71: range(73, 86, 4)}
SCALARS = (0, 1, -1, 10, -10, 100, -100, 1000, -1000, 10000, -10000)
RECORD_SCALARS = SCALARS[1:2] + SCALARS[3:]
TARGETS = (1, 2, 3, 5, 8)
ENOUGH = 10_000  # samples to be compared under each of them
SPELLED = 100  # groups of elevations or coordinates that have another scalar when they are written
SMALLEST_NORMAL_FLOAT = Fraction(1, 2 ** 126)


def number(data, place, width):
    return int.from_bytes(data[place : place + width], "big", signed=True)


def put(header, field, what):
    """A number in two bytes, by the byte number where they begin in the header."""
    header[field - 1 : field + 1] = what.to_bytes(2, "big")


def width_of(code):
    return {3: 2, 8: 1}.get(code, 4)


class Reel:
    """A reel's bytes, taken apart."""

    def __init__(self, data):
        self.data = data
        self.code, self.n, self.interval = (number(data, field - 1, 2) for field in (CODE, COUNT, INTERVAL))
        size = 240 + self.n * width_of(self.code)
        assert (len(data) - 3600) % size == 0
        self.traces = [data[place : place + size] for place in range(3600, len(data), size)]

    def cards(self):
        return bytes(byte or 0x40 for byte in self.data[:3200])

    def binary_header(self, target):
        """As it is written in a target code: unassigned bytes are 00."""
        header = bytearray(self.data[3200:3260] + bytes(340))
        put(header, CODE - 3200, target)
        return bytes(header)

    def trace_header(self, trace, written):
        """As it is written: the reel's own numbers for 0, and unassigned bytes are 00. Elevations, coordinates and their scalars are
        taken from what was written."""
        header = bytearray(trace[:40] + bytes(written[40:88]) + trace[88:180] + bytes(60))
        for field, own in ((TRACE_COUNT, self.n), (TRACE_INTERVAL, self.interval)):
            if number(header, field - 1, 2) == 0:
                put(header, field, own)
        return bytes(header)

    def values(self, trace):
        width = width_of(self.code)
        return [value(self.code, trace[place : place + width]) for place in range(240, len(trace), width)]


def scaled(header, field, scalar):
    """The exact value of an elevation or a coordinate: a scalar above 0 multiplies, one below divides, and 0 is taken as 1."""
    bare, by = Fraction(number(header, field - 1, 4)), number(header, scalar - 1, 2) or 1
    return bare * by if by > 0 else bare / -by


def value(code, word):
    """The exact value of a word."""
    if code == 1:
        magnitude = int.from_bytes(word[1:], "big") * Fraction(16) ** (word[0] % 128 - 70)
        return -magnitude if word[0] >= 128 else magnitude
    if code == 4:
        assert word[0] == 0
        return Fraction(number(word, 2, 2), 2 ** word[1])
    if code == 5:
        return Fraction(struct.unpack(">f", word)[0])
    return Fraction(number(word, 0, len(word)))


# The reels that the command is given.


def some_ibm(rnd):
    return rnd.randbytes(4)


def float_ibm(rnd):
    """A normal word whose value is in a float's normal range."""
    return bytes([rnd.choice((0, 128)) + rnd.randrange(34, 97), rnd.randrange(16, 256)]) + rnd.randbytes(2)


def whole_ibm(rnd):
    """A 16-bit number, its fraction as it is or moved up by some digits."""
    n = rnd.randrange(-(2 ** 15), 2 ** 15) >> rnd.randrange(16)
    fraction, characteristic = abs(n), 70
    while fraction < 2 ** 20 and rnd.randrange(4):
        fraction, characteristic = 16 * fraction, characteristic - 1
    sign = 128 if n < 0 or n == 0 and rnd.randrange(2) else 0
    return bytes([sign + characteristic]) + fraction.to_bytes(3, "big")


def some_32(rnd):
    return rnd.randbytes(4)


def short_32(rnd):
    """A 24-bit number times a power of 16, which an IBM word has too."""
    return (rnd.randrange(-(2 ** 23), 2 ** 23) * 16 ** rnd.randrange(3)).to_bytes(4, "big", signed=True)


def some_16(rnd):
    return rnd.randbytes(2)


def some_gain(rnd):
    return bytes([0, rnd.randrange(100)]) + rnd.randbytes(2)


def whole_gain(rnd):
    gain = rnd.randrange(12)
    whole = rnd.randrange(-(2 ** 15), 2 ** 15) >> gain
    return bytes([0, gain]) + (whole << gain).to_bytes(2, "big", signed=True)


def some_ieee(rnd):
    """Any word that has a value, many of them subnormal."""
    exponent = rnd.choice((0, rnd.randrange(255)))
    return (rnd.randrange(2) << 31 | exponent << 23 | rnd.randrange(2 ** 23)).to_bytes(4, "big")


def short_ieee(rnd):
    """The same with 20 bits of its fraction, so that an IBM word has the value too."""
    return (int.from_bytes(some_ieee(rnd), "big") & 0xFFFFFFF8).to_bytes(4, "big")


def small_ieee(rnd):
    return struct.pack(">f", rnd.randrange(-128, 128))


def some_8(rnd):
    return rnd.randbytes(1)


def small_gain(rnd):
    """An 8-bit number other than 0."""
    return bytes(2) + rnd.choice((*range(-128, 0), *range(1, 128))).to_bytes(2, "big", signed=True)


# What the samples are, code, N, T, and the codes but 4 that hold them.
MADE = (
    (some_ibm, 1, 201, 11, (1,)),
    (float_ibm, 1, 1333, 9, (1, 5)),
    (whole_ibm, 1, 475, 13, (1, 2, 3, 5)),
    (some_32, 2, 2501, 3, (2,)),
    (short_32, 2, 999, 5, (1, 2, 5)),
    (some_16, 3, 1, 37, (1, 2, 3, 5)),
    (some_16, 3, 32767, 1, (1, 2, 3, 5)),
    (some_gain, 4, 777, 7, (1, 5)),
    (whole_gain, 4, 333, 6, (1, 2, 3, 5)),
    (some_ieee, 5, 1501, 7, (5,)),
    (short_ieee, 5, 702, 5, (1, 5)),
    (small_ieee, 5, 383, 8, (1, 2, 3, 5, 8)),
    (some_8, 8, 1, 35, (1, 2, 3, 5, 8)),
    (some_8, 8, 1003, 3, (1, 2, 3, 5, 8)),
    (some_8, 8, 6001, 2, (1, 2, 3, 5, 8)),
)
SMALL = (small_gain, 4, 5, 2, (1, 2, 3, 5, 8))


def make_reel(rnd, word, code, n, t, _):
    """A reel of which every byte is random but those that have to say what it is, and the scalars; elevations and coordinates are
    of any size."""
    interval = rnd.randrange(1, 32768)
    header = bytearray(rnd.randbytes(400))
    for field, what in ((INTERVAL, interval), (COUNT, n), (CODE, code)):
        put(header, field - 3200, what)
    reel = rnd.randbytes(3200) + header
    for _ in range(t):
        header = bytearray(rnd.randbytes(240))
        for field, what in ((TRACE_COUNT, n), (TRACE_INTERVAL, interval)):
            put(header, field, rnd.choice((0, what)))
        for scalar, group in GROUPS.items():
            put(header, scalar, rnd.choice(SCALARS) % 2 ** 16)
            size = rnd.randrange(32)
            for field in group:
                header[field - 1 : field + 3] = (number(header, field - 1, 4) >> size).to_bytes(4, "big", signed=True)
        reel += header + b"".join(word(rnd) for _ in range(n))
    return reel


# What segyio finds.


class Ways:
    """Segyio's own ways, found by a reel that is laid out here: what it makes of card bytes, and how many bytes it takes for a field."""

    def __init__(self, folder):
        header = bytearray(b"\x01" * 60 + bytes(340))
        put(header, COUNT - 3200, 1)
        put(header, CODE - 3200, 1)
        path = folder / "ways.sgy"
        # A card byte 00, which no written reel has, would end the text.
        path.write_bytes(bytes(range(1, 256)) + b"\x40" * 2945 + header + b"\x01" * 240 + bytes(4))
        with opened(path) as found:
            self.cards = bytes(1) + bytes(found.text[0])[:255]
            self.trace_widths = {int(field): 4 if found.header[0][field] > 0x0101 else 2 for field in found.header[0].keys()}
            self.binary_widths = {int(field): 4 if found.bin[field] > 0x0101 else 2 for field in found.bin.keys()}
        assert len(set(self.cards)) == 256
        plain = "ABCDEFGHIJKLMNOPQRSTUVWXYZ 0123456789.,:/()-"
        assert plain.encode("cp037").translate(self.cards) == plain.encode("ascii")
        # Segyio 1.8.3 takes two of the four bytes of field 61.
        assert {field for field, width in BINARY_FIELDS.items() if self.binary_widths.get(field) != width} == set()
        assert {field for field, width in TRACE_FIELDS.items() if self.trace_widths.get(field) != width} <= {61}


def opened(path):
    return segyio.open(path, "r", strict=False, ignore_geometry=True)


def is_float(exact):
    """Does a 32-bit float have the value, be it 0 or in the normal range?"""
    if exact == 0:
        return True
    try:
        rounded = struct.unpack(">f", struct.pack(">f", float(exact)))[0]
    except OverflowError:
        return False
    return abs(exact) >= SMALLEST_NORMAL_FLOAT and Fraction(rounded) == exact


class Comparison:
    """A written reel against the one that it came from."""

    def __init__(self, reel, target, path, ways):
        self.differences = []
        self.fields = self.samples = self.beyond = self.spelled = 0
        try:
            with opened(path) as found:
                self.compare(reel, target, found, ways)
        except (OSError, RuntimeError, ValueError) as trouble:
            self.differences.append(f"segyio can't open it: {trouble}")

    def same(self, what, expected, got):
        if got != expected:
            self.differences.append(f"{what}: expected {expected}, segyio gives {got}")

    def same_bytes(self, what, expected, got):
        self.same(f"{what}, length", len(expected), len(got))
        pairs = enumerate(zip(expected, got), 1)
        self.differences += [f"{what}, byte {i}: expected {a:02X}, segyio gives {b:02X}" for i, (a, b) in pairs if a != b]

    def compare(self, reel, target, found, ways):
        shape = (found.tracecount, len(found.samples), int(found.format))
        self.same("traces, samples and code", (len(reel.traces), reel.n, target), shape)
        if self.differences:
            return
        self.same_bytes("cards", reel.cards().translate(ways.cards), found.text[0])
        self.header("binary header", 3200, reel.binary_header(target), found.bin, ways.binary_widths)
        samples = found.trace.raw[:].tolist()
        for i, trace in enumerate(reel.traces):
            written = found.header[i].buf
            self.groups(f"trace {i + 1}", trace, written)
            self.header(f"trace {i + 1}", 0, reel.trace_header(trace, written), found.header[i], ways.trace_widths)
            for k, (exact, got) in enumerate(zip(reel.values(trace), samples[i], strict=True), 1):
                if target == 1 and not is_float(exact):
                    self.beyond += 1
                    continue
                self.samples += 1
                if not math.isfinite(got) or Fraction(got) != exact or got == 0 and math.copysign(1, got) < 0:
                    self.differences.append(f"trace {i + 1}, sample {k}: expected {exact}, segyio gives {got}")

    def groups(self, what, trace, written):
        """The scaled elevations and coordinates, and that the scalars are such as records have."""
        for scalar, group in GROUPS.items():
            by = number(written, scalar - 1, 2)
            self.spelled += by != number(trace, scalar - 1, 2)
            if by not in RECORD_SCALARS:
                self.differences.append(f"{what}, field {scalar}: {by}, which no record has")
            for field in group:
                self.same(f"{what}, field {field} scaled", scaled(trace, field, scalar), scaled(written, field, scalar))

    def header(self, what, before, expected, found, widths):
        """Every byte, and every field that segyio knows by its number."""
        self.same_bytes(what, expected, found.buf)
        for field, width in widths.items():
            self.same(f"{what}, field {field}", number(expected, field - before - 1, width), found[field])
            self.fields += field in BINARY_FIELDS or field in TRACE_FIELDS


def run(command, *words):
    done = subprocess.run([command, *map(str, words)], stdout=subprocess.PIPE, stderr=subprocess.STDOUT, timeout=600)
    if done.returncode != 0:
        sys.exit(f"segyio_reels: {' '.join(map(str, words))}: {done.stdout.decode('utf-8', 'replace')}")


def written(command, folder, name, data, targets):
    """What the command makes of a reel under each target."""
    given, record = folder / f"{name}.sgy", folder / f"{name}.record"
    given.write_bytes(data)
    run(command, "read", given, record)
    for target in targets:
        path = folder / f"{name}.{target}.sgy"
        run(command, "write", record, target, path)
        yield target, path


# Reels that segyio writes.

INTERVAL_BY_SEGYIO = 2000
# What the samples are, code, N and T. Of a trace whose samples don't fill words of four bytes segyio 1.8.3 leaves out the last bytes, and
# of field 61 it writes two.
BY_SEGYIO = ((some_ieee, 5, 1201, 5), (small_ieee, 5, 1, 33), (some_ieee, 5, 12001, 2), (some_8, 8, 1200, 4), (some_8, 8, 32764, 1))
NO_VALUES = tuple(bytes.fromhex(word) for word in ("7F800000", "FF800000", "7FC00000", "7F800001", "FFFFFFFF"))


def written_by_segyio(rnd, path, word, code, n, t):
    """Lets segyio write a reel, and gives the words and the fields of each trace as it was given them."""
    spec = segyio.spec()
    spec.format, spec.tracecount, spec.sorting = code, t, None
    spec.samples = list(range(n))
    traces = []
    with segyio.create(path, spec) as reel:
        reel.bin[INTERVAL] = INTERVAL_BY_SEGYIO
        for i in range(t):
            words = [word(rnd) for _ in range(n)]
            fields = {field: rnd.randrange(-(2 ** (8 * width - 1)), 2 ** (8 * width - 1)) for field, width in TRACE_FIELDS.items()}
            fields.update({field: rnd.choice(SCALARS) for field in GROUPS})
            fields.update({61: 0, TRACE_COUNT: rnd.choice((0, n)), TRACE_INTERVAL: rnd.choice((0, INTERVAL_BY_SEGYIO))})
            row = numpy.frombuffer(b"".join(words), f">{'f4' if code == 5 else 'i1'}")
            reel.trace[i] = row.astype(reel.dtype)
            reel.header[i] = fields
            traces.append((words, fields))
    return traces


FIELD_SAMPLES = 6000


def trace_length(n):
    """The bytes of a trace of n samples in a record: its header, and its samples in fields of 6,000."""
    return 183 + 3 * -(-n // FIELD_SAMPLES) + 6 * n


def held(record, n, i):
    """The header and the exact sample values of trace i, from 0, in a record."""
    start = 3266 + i * trace_length(n)
    places = [start + 186 + 6 * k + 3 * (k // FIELD_SAMPLES) for k in range(n)]
    values = [number(record, place + 2, 4) * Fraction(2) ** number(record, place, 2) for place in places]
    return record[start + 3 : start + 183], values


def differences_by_segyio(record, code, n, traces):
    """How a record differs from what segyio was given."""
    t = len(traces)
    if len(record) != 3273 + t * trace_length(n):
        return [f"its record has {len(record)} bytes"]
    found = []
    for i, (words, fields) in enumerate(traces):
        header, values = held(record, n, i)
        for k, (word, got) in enumerate(zip(words, values, strict=True), 1):
            if got != value(code, word):
                found.append(f"trace {i + 1}, sample {k}: segyio was given {word.hex()}, the record has {got}")
        given = bytearray(180)
        for field, width in TRACE_FIELDS.items():
            given[field - 1 : field - 1 + width] = fields[field].to_bytes(width, "big", signed=True)
        for scalar, group in GROUPS.items():
            for field in group:
                if scaled(header, field, scalar) != scaled(given, field, scalar):
                    found.append(f"trace {i + 1}, field {field} scaled")
        expected = {field: fields[field] for field in TRACE_FIELDS if not 40 < field < 89}
        expected.update({TRACE_COUNT: n, TRACE_INTERVAL: INTERVAL_BY_SEGYIO})
        for field, what in expected.items():
            if number(header, field - 1, TRACE_FIELDS[field]) != what:
                found.append(f"trace {i + 1}, field {field}: segyio was given {what}")
    return found


def refused_by_19(command, path, place):
    """Whether reading is refused by 19 with this place, and makes no record."""
    record = path.with_suffix(".none")
    done = subprocess.run([command, "read", path, record], stdout=subprocess.PIPE, stderr=subprocess.STDOUT, timeout=600)
    said = done.stdout.decode("utf-8", "replace")
    return done.returncode == 2 and "refused by 19:" in said and f"(place {place}:" in said and not record.exists()


def other_way(command, folder):
    """Reels that segyio writes, read by the command: the differences, and what was compared in words."""
    differences, samples, refused, changed = [], dict.fromkeys((5, 8), 0), 0, 0
    for turn, (word, code, n, t) in enumerate(BY_SEGYIO):
        path, record = folder / f"by_segyio_{turn}.sgy", folder / f"by_segyio_{turn}.record"
        traces = written_by_segyio(random.Random(2001 + turn), path, word, code, n, t)
        run(command, "read", path, record)
        found = differences_by_segyio(record.read_bytes(), code, n, traces)
        differences += [f"{word.__name__}, {t} traces of {n} samples by segyio: {said}" for said in found]
        samples[code] += n * t

    # one bit changed in any byte of a sample: another value, or none; and words without a value
    path, record = folder / "small_by_segyio.sgy", folder / "small_by_segyio.record"
    traces = written_by_segyio(random.Random(2100), path, lambda rnd: struct.pack(">f", rnd.uniform(1, 2)), 5, 3, 2)
    data = path.read_bytes()
    places = [3600 + i * 252 + 240 + byte for i in range(2) for byte in range(12)]
    for place in places:
        path.write_bytes(data[:place] + bytes([data[place] ^ 1 << place % 7]) + data[place + 1 :])
        run(command, "read", "--force", path, record)
        changed += 1
        if not differences_by_segyio(record.read_bytes(), 5, 3, traces):
            differences.append(f"a reel by segyio with the byte at place {place} changed isn't found to differ")
    for word in NO_VALUES:
        for place in places[::4]:
            path.write_bytes(data[:place] + word + data[place + 4 :])
            refused += 1
            if not refused_by_19(command, path, place):
                differences.append(f"{word.hex()} at place {place} of a reel by segyio isn't refused by 19")
    compared = " and ".join(f"{count} in code {code}" for code, count in samples.items())
    return differences, (
        f"{len(BY_SEGYIO)} reels that segyio {segyio.__version__} wrote are read as it was given them, samples {compared}; "
        f"{changed} changed copies differ, {refused} with a word without a value are refused"
    )


def damaged(data):
    """Copies with one bit changed: of some card bytes, of every byte of the binary header's fields, and of every byte behind."""
    for place in (*range(0, 3200, 50), *range(3200, 3260), *range(3600, len(data))):
        yield place, data[:place] + bytes([data[place] ^ 1 << place % 8]) + data[place + 1 :]


def main():
    if len(sys.argv) != 2:
        sys.exit("usage: python3 tests/segyio_reels.py PATH_OF_COMMAND")
    if importlib.util.find_spec("segyio") is None:
        print("segyio_reels: skipped: segyio is not installed")
        return
    global numpy, segyio
    import numpy
    import segyio

    warnings.simplefilter("ignore")  # of a damaged format code
    command = Path(sys.argv[1]).resolve()
    reels = [("sample", SAMPLE.read_bytes(), (1, 5))]
    reels += [(f"{made[0].__name__}_{made[2]}", make_reel(random.Random(1975 + i), *made), made[4]) for i, made in enumerate(MADE)]
    differences, samples, opened_reels, fields, beyond, spelled, changed = [], dict.fromkeys(TARGETS, 0), 0, 0, 0, 0, 0
    with tempfile.TemporaryDirectory() as room:
        folder = Path(room)
        ways = Ways(folder)
        for name, data, targets in reels:
            for target, path in written(command, folder, name, data, targets):
                found = Comparison(Reel(data), target, path, ways)
                differences += [f"{name}, written in code {target}: {said}" for said in found.differences]
                opened_reels += 1
                samples[target] += found.samples
                fields += found.fields
                beyond += found.beyond
                spelled += found.spelled

        data, copy = make_reel(random.Random(1983), *SMALL), folder / "copy.sgy"
        for target, path in written(command, folder, "small", data, SMALL[4]):
            for place, wrong in damaged(path.read_bytes()):
                copy.write_bytes(wrong)
                changed += 1
                if not Comparison(Reel(data), target, copy, ways).differences:
                    differences.append(f"a reel in code {target} with the byte at place {place} changed isn't found to differ")
        found, other = other_way(command, folder)
        differences += found

    differences += [f"only {samples[target]} samples compared in code {target}" for target in TARGETS if samples[target] < ENOUGH]
    if spelled < SPELLED:
        differences.append(f"only {spelled} groups of elevations or coordinates have another scalar when they are written")
    for said in differences[:20]:
        print(f"segyio_reels: {said}")
    if differences:
        sys.exit(f"segyio_reels: {len(differences)} differences")
    compared = ", ".join(f"{samples[target]} in code {target}" for target in TARGETS)
    print(
        f"segyio_reels: {opened_reels} written reels agree with segyio {segyio.__version__}: {fields} header fields, {spelled} groups "
        f"of them under another scalar, samples {compared}; {beyond} not compared, no float holds them; {changed} changed copies differ"
    )
    print(f"segyio_reels: {other}")


if __name__ == "__main__":
    main()
