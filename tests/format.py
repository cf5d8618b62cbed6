"""Holds docs/FORMAT.md to what the command does.

    python3 tests/format.py PATH_OF_COMMAND

The record that the command makes of the sample reel, and the reel itself, are decoded by tests/format_reader.py, which was written from
the page alone, and compared with the numbers and values that tests/make_sample_reel.py made the reel of. So are records and reels in
every code, Eagle reels, long traces and records of the earlier form, and so are listings and the count of words that aren't normal. The
page's examples are held to the command's bytes, its way to find the power of a group to its rule, and its tables to the layout and to
code page 037.
"""

import random
import re
import subprocess
import sys
import tempfile
import time
from fractions import Fraction
from pathlib import Path

sys.dont_write_bytecode = True
TOP = Path(__file__).resolve().parents[1]
sys.path[:0] = [str(TOP / "tools" / "vectors"), str(TOP / "tests")]

import eagle  # noqa: E402
import make_sample_reel as sample  # noqa: E402
import records  # noqa: E402
import reels  # noqa: E402
from format_reader import (  # noqa: E402
    GROUPS, POWERS, TRAILER, WIDTHS, is_normal, listing, not_normal, read_eagle, read_record, read_reel, word_value,
)

PAGE = (TOP / "docs" / "FORMAT.md").read_text(encoding="utf-8")


def run(command, *words):
    # A warning of bytes that are left out is none of this test's business.
    subprocess.run([command, *map(str, words)], check=True, stdout=subprocess.DEVNULL, stderr=subprocess.DEVNULL, timeout=600)


def record_of(command, folder, reel, *options):
    (folder / "reel").write_bytes(reel)
    run(command, "read", *options, "--force", folder / "reel", folder / "record")
    return (folder / "record").read_bytes()


def check_listing(command, folder, record):
    """The listing that the command prints of a record is the reader's."""
    (folder / "record").write_bytes(record)
    printed = subprocess.run([command, "cards", "--latin1", str(folder / "record")], check=True, stdout=subprocess.PIPE, timeout=600).stdout
    assert printed == listing(read_record(record)[0])


def check_count(command, reel, *options):
    """The count of words that aren't normal, the last item of the line that the command prints, is the reader's."""
    line = subprocess.run([command, "check", *options], check=True, input=reel, stdout=subprocess.PIPE, timeout=600).stdout
    assert line.split()[4:] == [b"%d" % not_normal(reel, TRAILER if options else 0)], line


def sample_meaning():
    """What the sample reel was made of."""
    cards = [("C%2d %s" % (i, sample.CARDS.get(i, ""))).ljust(80) for i in range(1, 41)]
    binary = {**dict.fromkeys(WIDTHS["binary"], 0), **{b: number for b, _, number in sample.BINARY_FIELDS}}
    del binary[3225]
    traces = []
    for i in range(1, sample.T + 1):
        header = {**dict.fromkeys(WIDTHS["trace"], 0), **{b: number for b, _, number in sample.trace_fields(i)}}
        header.update({115: sample.N, 117: sample.INTERVAL})
        # Elevations in tenths, coordinates as they stand: the sample's scalars are -10 and 1.
        assert (header.pop(69), header.pop(71)) == (-10, 1)
        header.update({b: Fraction(header[b], 10) for b in GROUPS[69]})
        traces.append((header, [Fraction(eighths, 8) for eighths in sample.eighths(i)]))
    return cards, binary, traces


def example_bytes(text):
    """The bytes of an example on the page, each line of which has its place, its bytes and a remark."""
    content = b""
    for place, shown in re.findall(r"^    (\d+) +((?:[0-9A-F]{2})+(?: (?:[0-9A-F]{2})+)*(?: x \d+)?) +\S", text, re.M):
        assert int(place) == len(content), place
        byte, _, times = shown.partition(" x ")
        content += bytes.fromhex(byte) * int(times or 1)
    return content


def smallest(values):
    """The page's rule: the smallest power from -4 to 4 at which all numbers are whole and fit 32 signed bits; and these numbers."""
    for power in range(-4, 5):
        numbers = [value / Fraction(10) ** power for value in values]
        if all(number.denominator == 1 and -(2**31) <= number < 2**31 for number in numbers):
            return power, list(map(int, numbers))


def multiplied(power, numbers):
    """The page's way to find it."""
    while power > -4 and all(-214_748_364 <= number <= 214_748_364 for number in numbers):
        power, numbers = power - 1, [10 * number for number in numbers]
    return power, numbers


def group_numbers(record, scalar):
    """The scalar and the numbers of a group in the first trace of a record."""
    header = record[3269:3449]
    return [int.from_bytes(header[b - 1 : b - 1 + WIDTHS["trace"][b]], "big", signed=True) for b in (scalar, *GROUPS[scalar])]


def check_scalars(command, folder, rnd):
    """The page's example of coordinates, its table of scalars, and its way against its rule and against the command."""
    part = PAGE.split("**Elevations and coordinates.**")[1].split("**A sample**")[0]
    rows = (re.search(rf"^\| {name} \|(.*)$", part, re.M)[1] for name in ("scalar", "power"))
    scalars, powers = (list(map(int, re.findall(r"-?\d+", row))) for row in rows)
    assert dict(zip(scalars, powers)) == POWERS
    reels_of = re.findall(r"(?:coordinates|reel with) (-?\d+), (-?\d+), (-?\d+) and (-?\d+) under (?:the scalar )?(-?\d+)", part)
    held = re.search(r"the record has (-?\d+), (-?\d+), (-?\d+) and (-?\d+) under the scalar (-?\d+)", part).groups()
    assert len(reels_of) == 2
    for *numbers, scalar in reels_of:
        fields = {71: int(scalar), **dict(zip(GROUPS[71], map(int, numbers)))}
        record = record_of(command, folder, reels.make_reel(2000, 2, 1, [reels.make_trace([bytes(4)] * 2, fields)]))
        assert group_numbers(record, 71) == [int(held[4]), *map(int, held[:4])]
    edges = (0, 1, -1, 21_474, 214_748, 214_749, 214_748_364, 214_748_365, 2**31 - 1, -(2**31))
    for i in range(400):
        scalar = rnd.choice(list(POWERS))
        numbers = [rnd.choice((0, 0, rnd.choice(edges), -rnd.choice(edges[:-1]), rnd.randrange(-(10 ** (i % 9)), 10 ** (i % 9) + 1)))
                   for _ in GROUPS[69]]
        found = smallest([number * Fraction(10) ** POWERS[scalar] for number in numbers])
        assert found == multiplied(POWERS[scalar], numbers), (scalar, numbers)
        if i % 10 == 0:
            reel = reels.make_reel(2000, 2, 1, [reels.make_trace([bytes(4)] * 2, {69: scalar, **dict(zip(GROUPS[69], numbers))})])
            record = record_of(command, folder, reel)
            held = group_numbers(record, 69)
            assert (POWERS[held[0]], held[1:]) == found, (scalar, numbers)
            assert read_record(record) == read_reel(reel)


def check_eagle(command, folder, rnd):
    """Eagle reels, and the plain ones that have their records; and the page's example of bytes that are a reel in either layout."""
    for n, t in ((1, 0), (1, 1), (2, 3), (500, 4)):
        reel = eagle.random_eagle(rnd, n, t)
        record = record_of(command, folder, reel, "--eagle")
        assert read_record(record) == read_eagle(reel)
        assert record == record_of(command, folder, eagle.without_trailers(reel))
        check_count(command, reel, "--eagle")
    part = PAGE.split("## The Eagle reel")[1].split("\n## ")[0]
    both = example_bytes(part)
    said = re.search(r"As a plain reel it has (\d) .*, is (\d+) × 16\^-70: its record has ([\d,]+) bytes. As an Eagle reel it has (\d) .* record has "
                     r"([\d,]+) bytes", part)
    plain_traces, last, plain_length, eagle_traces, eagle_length = (int(text.replace(",", "")) for text in said.groups())
    assert len(both) == 4880
    for read, options, traces, length, value in (
        (read_reel, (), plain_traces, plain_length, Fraction(last, 16**70)), (read_eagle, ("--eagle",), eagle_traces, eagle_length, 0),
    ):
        record = record_of(command, folder, both, *options)
        assert read_record(record) == read(both)
        assert (len(read(both)[2]), len(record), read(both)[2][-1][1][-1]) == (traces, length, value)


def shown_trace(text, record):
    """Holds an example to a record, line by line: in the first column the place, in the second its bytes, or none; and gives the places."""
    places = []
    for place, shown in re.findall(r"^    (\d[\d ]{5})(.{14})", text, re.M):
        byte, _, times = shown.strip().partition(" x ")
        content = bytes.fromhex(byte) * int(times or 1)
        assert record[int(place) :].startswith(content), place
        places.append(int(place))
    return places


def check_forms(command, folder):
    """The page's example of a trace of 6,001 samples in both forms: the record that the command makes, and the one that it takes too."""
    part = PAGE.split("For example, the first trace of a record of 6,001 samples a trace")[1].split("\n## ")[0]
    new, earlier = part.split("And the same trace in the earlier form:")
    words = [bytes(4)] * 6000 + [(1).to_bytes(4, "big")]
    reel = reels.make_reel(2000, 6001, 2, [reels.make_trace(words)])
    record = record_of(command, folder, reel)
    single = record[:3450] + (6 * 6001).to_bytes(2, "big") + record[3452:39452] + record[39455:]
    assert shown_trace(new, record) == [3266, 3269, 3449, 3452, 39452, 39455, 39461]
    assert shown_trace(earlier, single) == [3266, 3269, 3449, 3452, 39452, 39458]
    assert (record[39461], single[39458]) == (5, 5)
    assert read_record(single) == read_record(record) == read_reel(reel)
    (folder / "held").write_bytes(single)
    run(command, "write", "--force", folder / "held", 2, folder / "again")
    assert read_reel((folder / "again").read_bytes()) == read_reel(reel)


def check_long(command, folder, rnd):
    """Long traces: the command's record of a reel; and the same record with some traces of the earlier form, written, read and listed."""
    for code, n, t in ((8, 5999, 1), (3, 6000, 2), (2, 6001, 2), (4, 8001, 1), (5, 12001, 1), (8, 32767, 1)):
        reel = reels.random_reel(rnd, code, n, t)
        assert read_record(record_of(command, folder, reel)) == read_reel(reel), (code, n, t)
        check_count(command, reel)
    reel = eagle.random_eagle(rnd, 12001, 1)
    assert read_record(record_of(command, folder, reel, "--eagle")) == read_eagle(reel)
    for n, t, earlier in ((6001, 2, (1,)), (6001, 2, (2,)), (8000, 1, (1,)), (7000, 3, (1, 2, 3))):
        traces = records.some_long(rnd, n, t)
        new, held = (records.make_record(2000, n, traces, earlier=some) for some in ((), earlier))
        assert len(held) == len(new) - 3 * len(earlier) and read_record(held) == read_record(new)
        (folder / "held").write_bytes(held)
        run(command, "write", "--force", folder / "held", 8, folder / "reel")
        reel = (folder / "reel").read_bytes()
        assert read_reel(reel) == read_record(held)
        assert record_of(command, folder, reel) == new
        check_listing(command, folder, held)
    # What is neither form is no record, for the reader and for the command.
    for n, samples, good in (
        (6001, (6001,), True), (6001, (6000, 1), True), (6001, (6000,), False), (6001, (1, 6000), False), (6001, (6001, 1), False),
        (6000, (3000, 3000), False), (8001, (6000, 2001), True), (8001, (8001,), False),
    ):
        fields = records.make_fields(2000, n, [[bytes(6)]])
        fields[3:4] = [records.tagged(4, bytes(6 * some)) for some in samples]
        (folder / "held").write_bytes(b"".join(fields))
        done = subprocess.run([command, "cards", str(folder / "held")], stdout=subprocess.DEVNULL, stderr=subprocess.DEVNULL, timeout=600)
        try:
            read_record(b"".join(fields))
        except ValueError:
            assert not good and done.returncode != 0, (n, samples)
        else:
            assert good and done.returncode == 0, (n, samples)


def check_page(command, folder):
    reel, record = map(example_bytes, PAGE.split("## An example")[1].split("Its record, of"))
    assert len(reel) == 3848 and reel == reels.example()
    assert len(record) == 3471 and record == record_of(command, folder, reel)
    # What the remarks say of the two samples.
    assert [value for _, values in read_record(record)[2] for value in values] == [1, Fraction("-118.625")]
    rows = [tuple(map(int, row)) for row in re.findall(r"^\| (\d+) \| (\d) \| (\d+) \| \w", PAGE, re.M)]
    assert rows == [(b, width, 3206 + b - 3201) for b, width in reels.BINARY_FIELDS.items()]
    rows = [tuple(map(int, row)) for row in re.findall(r"^\| (\d+) \| (\d) \| [A-Za-z]", PAGE, re.M)]
    assert rows == list(reels.TRACE_FIELDS.items())
    signs = {}
    for row, cells in re.findall(r"^    ([4-F])-   (.*)$", PAGE, re.M):
        for column in range(16):
            signs[int(row, 16) * 16 + column] = cells[3 * column : 3 * column + 2].rstrip()
    assert set(signs) == set(range(0x40, 0x100))
    for byte, sign in signs.items():
        character = bytes([byte]).decode("cp037")
        assert sign == {" ": "SP", "\xa0": "NB", "\xad": "SH", "\x9f": ".."}.get(character, character), hex(byte)
    rows = re.findall(r"^    ([0-3])-   (.*)$", PAGE, re.M)
    assert [row for row, _ in rows] == list("0123")
    numbers = bytes.fromhex("".join(cells for _, cells in rows))
    assert numbers == bytes(range(0x40)).decode("cp037").encode("latin-1")
    # What the page says of some words.
    shown, one = re.search(r"words aren't normal\. Of (.*) there are three: ([0-9A-F]{8}), .*, and the last two, ", PAGE).groups()
    words = [bytes.fromhex(word) for word in re.findall(r"[0-9A-F]{8}", shown)]
    assert [word for word in words if not is_normal(word)] == [bytes.fromhex(one), *words[-2:]]
    check_count(command, reels.make_reel(2000, len(words), 1, [reels.make_trace(words)]))
    # What it says of words of code 5: a number, or a number times a power of two.
    line = re.search(r"^Under code 5, (.*)\.$", PAGE, re.M)[1]
    shown = re.findall(r"([0-9A-F]{8}) is (-?[0-9.]+)(?:\^(-?\d+))?(?: × 2\^(-?\d+))?(?:, | and |$)", line)
    assert len(shown) == line.count(" is ") == 5
    words = [bytes.fromhex(word) for word, *_ in shown]
    values = [Fraction(number) ** int(power or 1) * Fraction(2) ** int(twos or 0) for _, number, power, twos in shown]
    assert [word_value(5, word) for word in words] == values
    reel = reels.make_reel(2000, len(words), 5, [reels.make_trace(words)])
    assert read_record(record_of(command, folder, reel))[2][0][1] == values
    # Every card byte but 00, in some card.
    cards = bytes(place % 255 + 1 for place in range(3200))
    check_listing(command, folder, record[:3] + cards + record[3203:])


def main():
    if len(sys.argv) != 2:
        sys.exit("usage: format.py PATH_OF_COMMAND")
    command, begun = str(Path(sys.argv[1]).absolute()), time.monotonic()
    with tempfile.TemporaryDirectory() as folder:
        folder = Path(folder)
        check_page(command, folder)
        check_scalars(command, folder, random.Random(69))
        check_eagle(command, folder, random.Random(960))
        check_forms(command, folder)
        check_long(command, folder, random.Random(6000))
        reel = sample.SAMPLE.read_bytes()
        meant = sample_meaning()
        assert read_record(record_of(command, folder, reel)) == meant
        check_listing(command, folder, (folder / "record").read_bytes())
        assert read_reel(reel) == meant
        assert not_normal(reel) == 2
        check_count(command, reel)
        for code in (1, 4, 5):
            run(command, "write", folder / "record", code, folder / f"{code}.sgy")
            assert read_reel((folder / f"{code}.sgy").read_bytes()) == meant
            assert not_normal((folder / f"{code}.sgy").read_bytes()) == 0
        rnd, count, others = random.Random(181), 0, 0
        for code in (1, 2, 3, 4, 5, 8):
            for n, t in ((1, 0), (1, 1), (2, 3), (500, 4)):
                reel = reels.random_reel(rnd, code, n, t)
                assert read_record(record_of(command, folder, reel)) == read_reel(reel), (code, n, t)
                check_count(command, reel)
                others += not_normal(reel)
                count += n * t
    assert others > 50
    said = (f"the page's examples and tables, its way to find a power, the sample's record, Eagle reels, long traces, listings and {count} "
            f"further samples, {others} of them in words that aren't normal, agree")
    print(f"format: {said}, {time.monotonic() - begun:.0f} s")


if __name__ == "__main__":
    main()
