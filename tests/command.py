"""Tries the command `aukpocket` as a user would.

    python3 tests/command.py PATH_OF_COMMAND

What it writes and answers is compared with tools/vectors, which was written from documents 01 and 02 alone. The inputs are the same at
every run. What the examples need is built in a temporary folder, over build/libaukpocket.a.
"""

import hashlib
import os
import pty
import random
import re
import resource
import shutil
import signal
import stat
import struct
import subprocess
import sys
import tempfile
import threading
import time
import unittest
from fractions import Fraction
from functools import lru_cache
from pathlib import Path

sys.dont_write_bytecode = True
TOP = Path(__file__).resolve().parents[1]
sys.path[:0] = [str(TOP / "tools" / "vectors"), str(TOP / "tests")]

import eagle  # noqa: E402
import make_sample_reel  # noqa: E402
import records  # noqa: E402
import reels  # noqa: E402
from records import (  # noqa: E402
    make_record, place_of_binary, place_of_card, place_of_end, place_of_field, place_of_pair, place_of_samples, place_of_trace,
)
from reels import example, gain, make_reel, make_trace, random_reel, sample_size, trace_size, whole16, whole32  # noqa: E402
from samples import pair_bytes, v_of_word, word_of_v  # noqa: E402

SAMPLE = TOP / "examples" / "sample.sgy"
ARCHIVE = TOP / "build" / "libaukpocket.a"
COMMAND = None  # a copy of the command, which other users may run too
ROOM = None  # the folder of the whole test
SECONDS = 600  # a run that takes as long hangs
MEGABYTE = 1_000_000

# The format codes, and some that there aren't.
CODES = (1, 2, 3, 4, 5, 8)
NO_CODES = (0, 6, 7, 9, 10, 13, 255, 257, 261, 264)

# Words of code 5 that have no value.
INFINITY = bytes.fromhex("7F800000")
INFINITIES = [INFINITY, bytes.fromhex("FF800000")]
NO_NUMBERS = [bytes.fromhex(word) for word in ("7FC00000", "FFC00000", "7F800001", "FF800001", "7FFFFFFF", "FFFFFFFF", "7FBFFFFF")]

# Elevations and depths, and coordinates, by the byte number of their scalar; the scalars that a reel may have.
GROUPS = {69: (41, 45, 49, 53, 57, 61, 65), 71: (73, 77, 81, 85)}
ALLOWED = (0, 1, -1, 10, 100, 1000, 10_000, -10, -100, -1000, -10_000)

# Where a user with an earlier record reads on.
EARLIER = ("a damaged record is refused so, and one made before the rule of the smallest power: compare its SHA-256 with the one that was "
           "kept, then see EARLIER RECORDS in aukpocket(1), or README.md")


def with_bytes(data, place, other):
    return data[:place] + other + data[place + len(other) :]


def is_normal(word):
    """Is an IBM word the normal word of its value, by document 01's rules?"""
    return word == word_of_v(1, v_of_word(1, word))


def count_of(reel):
    """How many words of a reel that is taken aren't normal: 0 in every code but 1."""
    n, code = (int.from_bytes(reel[place : place + 2], "big") for place in (3220, 3224))
    starts = range(3600, len(reel), trace_size(code, n)) if code == 1 else ()
    return sum(not is_normal(reel[place : place + 4]) for start in starts for place in range(start + 240, start + 240 + 4 * n, 4))


def warning(path, reel, trailer=0):
    """What `read`, `info` and `verify` warn of: the bytes that the record leaves out and that aren't 0; of an Eagle reel, whose traces have
    trailers, those of trailers and the check too."""
    n, code = (int.from_bytes(reel[place : place + 2], "big") for place in (3220, 3224))
    size = trace_size(code, n)

    def in_traces(first, end, what):
        counts = [sum(map(bool, reel[place + first : place + end])) for place in range(3600, len(reel), size + trailer)]
        some = [i for i, count in enumerate(counts, 1) if count]
        return sum(counts), [f"{sum(counts)} of {what[0]} in {len(some)} of the {what[1]}, first in trace {some[0]}"] if some else []

    def sentence(count, parts, one, more):
        what = f"{one} that isn't 0" if count == 1 else f"{count} {more} that aren't 0"
        return f"aukpocket: warning: {path}: the record leaves out {what}: {', and '.join(parts)}\n" if count else ""

    binary = sum(map(bool, reel[3260:3600]))
    count, parts = in_traces(180, 240, ("bytes 181 to 240", "trace headers"))
    parts = ([f"{binary} of bytes 3261 to 3600"] if binary else []) + parts
    said = sentence(binary + count, parts, "an unassigned byte", "unassigned bytes")
    if trailer:
        said += sentence(*in_traces(size, size + 958, ("bytes 1 to 958", "trailers")), "a trailer byte", "trailer bytes")
        check = reel[3198:3200]
        if check.replace(b"\0", b"\x40") != b"\x40\x40":
            said += f"aukpocket: warning: {path}: the record leaves out the check in columns 79 and 80 of card 40, {check.hex().upper()}\n"
    return said


def with_signals(*ignored):
    """What a child does first: ignores these signals and no other that tells it to end, however this test was started. Under nohup, and
    in the background of a shell, children inherit ignored signals."""

    def first():
        signal.pthread_sigmask(signal.SIG_SETMASK, ())
        for number in (signal.SIGHUP, signal.SIGINT, signal.SIGQUIT, signal.SIGTERM):
            signal.signal(number, signal.SIG_IGN if number in ignored else signal.SIG_DFL)

    return first


def limited(kind, most):
    """What a child does first: takes a limit on its file sizes or memory. The signal that goes with it is as a shell leaves it."""

    def first():
        signal.signal(signal.SIGXFSZ, signal.SIG_DFL)
        resource.setrlimit(kind, (most, most))

    return first


class Case(unittest.TestCase):
    """Each test has a folder of its own."""

    def setUp(self):
        self.folder = Path(tempfile.mkdtemp(dir=ROOM))
        self.folder.chmod(0o777)

    def tearDown(self):
        shutil.rmtree(self.folder)

    def file(self, name, content):
        path = self.folder / name
        path.write_bytes(content)
        return path

    def run_command(self, *words, stdin=b"", **named):
        if not hasattr(stdin, "fileno"):
            named["input"] = stdin
        else:
            named["stdin"] = stdin
        named.setdefault("stdout", subprocess.PIPE)
        named.setdefault("stderr", subprocess.PIPE)
        return subprocess.run([str(COMMAND), *map(str, words)], timeout=SECONDS, **named)

    def fine(self, *words, warned="", **named):
        """Runs it; it must end well and say nothing on standard error but this warning. What it prints."""
        run = self.run_command(*words, **named)
        self.assertEqual((run.returncode, run.stderr.decode("utf-8")), (0, warned), words)
        return run.stdout.decode("utf-8")

    def trouble(self, status, *words, stdout="", **named):
        """Runs it; it must end with that status and one sentence on standard error, which is returned."""
        run = self.run_command(*words, **named)
        said = run.stderr.decode("utf-8")
        self.assertEqual(run.returncode, status, (words, said))
        self.assertEqual(said.count("\n"), 1, (words, said))
        self.assertTrue(said.startswith("aukpocket: ") and said.endswith("\n"), said)
        if stdout is not None:
            self.assertEqual(run.stdout.decode("utf-8"), stdout, words)
        return said[len("aukpocket: ") : -1]

    def names(self):
        return sorted(path.name for path in self.folder.iterdir())


class Sample(Case):
    """Each command on the sample reel."""

    def setUp(self):
        super().setUp()
        self.reel = SAMPLE.read_bytes()
        self.record = reels.record_of(self.reel)

    def test_the_sample_is_what_its_script_makes(self):
        self.assertEqual(self.reel, make_sample_reel.sample_reel())
        self.assertLess(len(self.reel), 20_000)

    def test_read_and_write(self):
        record = self.folder / "a.record"
        said = self.fine("read", SAMPLE, record)
        self.assertEqual(said, (
            f"{SAMPLE}: 6 traces of 240 samples, 2 of 1440 words not normal (0.14 %); {record}: its record, 13029 bytes\n"))
        self.assertEqual(record.read_bytes(), self.record)
        for code in (1, 4, 5):
            reel, again = self.folder / f"{code}.sgy", self.folder / f"{code}.record"
            said = self.fine("write", record, code, reel)
            self.assertEqual(said, f"{record}: 6 traces of 240 samples; {reel}: its reel in code {code}, 10800 bytes\n")
            self.assertEqual(reel.read_bytes(), records.reel_of(self.record, code))
            self.fine("read", reel, again)
            self.assertEqual(again.read_bytes(), self.record)
        # The sample has words that aren't normal, so its own bytes don't come back; what they mean does.
        self.assertNotEqual((self.folder / "1.sgy").read_bytes(), self.reel)
        before = self.names()
        for code, value, sample in ((2, "-431 * 2^-3", 90), (3, "-431 * 2^-3", 90), (8, "125 * 2^1", 28)):
            said = self.trouble(2, "write", record, code, self.folder / "none")
            place = records.write_reel(self.record, code, 0)[2]
            self.assertIn(f"refused by 14: a sample, {value}, doesn't fit code {code} (place {place}: trace 1, sample {sample})", said)
        self.assertEqual(self.names(), before)

    def test_names_in_the_folder_where_it_is_run(self):
        shutil.copy(SAMPLE, self.folder)
        self.fine("read", "sample.sgy", "b.record", cwd=self.folder)
        self.fine("read", "--", "sample.sgy", "--force", cwd=self.folder)
        self.assertEqual(self.names(), ["--force", "b.record", "sample.sgy"])
        self.assertEqual((self.folder / "--force").read_bytes(), self.record)

    def test_every_field_by_number_and_name(self):
        lines = re.findall(r"^ +(\d+)  (\S+)", self.fine("look", "--help"), re.M)
        listed = {int(byte_number): name for byte_number, name in lines if int(byte_number) > 0}
        self.assertEqual(set(listed), set(reels.BINARY_FIELDS) | set(reels.TRACE_FIELDS))
        self.assertEqual(len(lines), 27 + 71)
        for byte_number, name in listed.items():
            trace = 0 if byte_number > 3200 else 3
            value = f"{reels.look_up(self.reel, trace, byte_number)[1]}\n"
            self.assertEqual(self.fine("look", SAMPLE, trace, byte_number), value)
            self.assertEqual(self.fine("look", SAMPLE, trace, name), value, name)

    def test_some_fields(self):
        for trace, field, value in (
            (0, "samples", 240), (0, "count", 240), (0, "interval", 2000), (0, "code", 1), (0, "job", 1975), (0, 3213, 6),
            (2, "samples", 240), (2, "count", 240), (2, 115, 240), (2, "interval", 2000), (2, 117, 2000),  # both are 0 on the reel
            (1, "offset", -50), (6, "source-y", -612300), (6, "elevation-scalar", -10), (5, 165, 25),
        ):
            self.assertEqual(self.fine("look", SAMPLE, trace, field), f"{value}\n", (trace, field))

    def test_info(self):
        cards = "".join(f"  {line}\n" for line in (
            "C 1 CLIENT  AUKPOCKET SAMPLE SURVEY",
            "C 2 LINE 12     AREA  SKERRY BANK     MAP ID  NONE",
        ))
        counts = "traces    6\nsamples   240 a trace\ninterval  2000 microseconds\n"
        self.assertEqual(
            self.fine("info", SAMPLE, "--cards", 2),
            f"file      {SAMPLE}, 10800 bytes\nkind      reel\n{counts}code      1, IBM floating point\n"
            f"words     2 of 1440 not normal (0.14 %)\nrecord    13029 bytes\ncards     2 of 40\n{cards}")
        record = self.file("a.record", self.record)
        self.assertEqual(
            self.fine("info", "--cards", 2, record),
            f"file      {record}, 13029 bytes\nkind      record\n{counts}code      none: a record has exact values\n"
            "code 1    holds it, as a reel of 10800 bytes\ncode 2    doesn't hold it\ncode 3    doesn't hold it\n"
            "code 4    holds it, as a reel of 10800 bytes\ncode 5    holds it, as a reel of 10800 bytes\ncode 8    doesn't hold it\n"
            f"cards     2 of 40\n{cards}")
        self.assertIn("  C40 END EBCDIC\n", self.fine("info", SAMPLE, "--cards", 40))
        self.assertEqual(self.fine("info", SAMPLE).count("\n  C "), 5)
        self.assertNotIn("cards", self.fine("info", SAMPLE, "--cards", 0))

    def test_verify(self):
        said = self.fine("verify", SAMPLE)
        self.assertTrue(said.startswith(
            f"{SAMPLE}: 6 traces of 240 samples in code 1, 10800 bytes, 2 of 1440 words not normal (0.14 %); its record, 13029 bytes\n"
            "code 1: holds it; written (10800 bytes) and read again, the record is the same, and all words are normal\n"), said)
        self.assertEqual(said.count("the record is the same"), 3)
        self.assertIn("code 5: holds it; written (10800 bytes) and read again, the record is the same\ncode 8: doesn't hold it; ", said)
        self.assertTrue(said.endswith("\ncodes that hold it: 1 4 5\n"), said)

    def test_check(self):
        self.assertEqual(self.fine("check", stdin=self.reel), "taken 6 240 13029 2\n")
        self.assertEqual(self.fine("check", stdin=example()), "taken 1 2 3471 0\n")


class Readme(Case):
    """The session that the README shows: what is typed there says what it shows there."""

    def test_the_session(self):
        shutil.copytree(TOP / "examples", self.folder / "examples")
        part = (TOP / "README.md").read_text(encoding="utf-8").split("\n## The command\n")[1].split("\n## ")[0]
        session = "\n".join(line[4:] for line in part.splitlines() if line.startswith("    "))
        typed = re.findall(r"^\$ (.*)\n((?:(?!\$ ).*\n?)*)", session + "\n", re.M)
        self.assertGreater(len(typed), 15)
        path = {**os.environ, "PATH": f"{COMMAND.parent}:{os.environ['PATH']}"}
        for line, shown in typed:
            run = subprocess.run(line, shell=True, cwd=self.folder, env=path, stdout=subprocess.PIPE, stderr=subprocess.STDOUT, text=True)
            self.assertEqual(run.stdout, shown, line)


class Help(Case):
    def test_help(self):
        whole = self.fine("--help")
        self.assertEqual(whole, self.fine("-h"))
        self.assertRegex(self.fine("--version"), r"^aukpocket \d+\.\d+\.\d+\n$")
        for status in ("0  fine", "1  wrong words", "2  refused", "3  verify found", "4  compare: the first", "5  compare: the first"):
            self.assertIn(status, whole)
        for command in ("read", "write", "look", "info", "cards", "verify", "compare", "sort", "check"):
            self.assertIn(f"  aukpocket {command}", whole)
            said = self.fine(command, "--help")
            self.assertTrue(said.startswith(f"aukpocket {command}"), said)
            self.assertIn("Exit status", said)
            self.assertEqual(said, self.fine(command, "some", "words", "-h"))
            self.assertEqual(said, self.fine("help", command))
        self.assertEqual(whole, self.fine("help"))
        self.assertEqual(whole, self.fine("help", "fetch"))

    def test_the_man_page(self):
        """It has every command, option and exit status."""
        page = (TOP / "docs" / "aukpocket.1").read_text(encoding="utf-8").replace("\\-", "-")
        for command in ("read", "write", "look", "info", "cards", "verify", "compare", "sort", "check"):
            self.assertIn(f"\n.B aukpocket {command}\n", page)
            self.assertIn(f"\n.TP\n.B {command}\n", page)
        for option in re.findall(r"--[a-z]+", self.fine("--help")):
            self.assertIn(option, page)
        self.assertIn(f'"{self.fine("--version").strip()}"\n', page)
        for status, meaning in re.findall(r"^  ([0-9])  (.*)$", self.fine("--help"), re.M):
            self.assertIn(f"\n.B {status}\n{meaning}\n", page.replace("\n.B verify\nfound", "\nverify found"))

    def test_wrong_words(self):
        for words in (
            (), ("fetch",), ("",), ("READ", SAMPLE, "x"), ("--force",), ("read",), ("read", SAMPLE), ("read", SAMPLE, "x", "y"),
            ("read", SAMPLE, "x", "--fast"), ("look", SAMPLE, 1, "samples", "--force"), ("write", SAMPLE, "x"),
            ("write", SAMPLE, "ibm", "x"), ("write", SAMPLE, "-1", "x"), ("write", SAMPLE, "+1", "x"), ("write", SAMPLE, "", "x"),
            ("write", SAMPLE, "4294967297", "x"), ("look", SAMPLE, "first", 1), ("look", SAMPLE, 1), ("look", SAMPLE, 1, "colour"),
            ("look", SAMPLE, 1, "code"), ("look", SAMPLE, 0, "offset"), ("look", SAMPLE, 1, "-1"), ("look", SAMPLE, "-1", 1),
            ("info",), ("info", SAMPLE, "--cards"), ("info", SAMPLE, "--cards", "41"), ("info", SAMPLE, "--cards", "all"),
            ("verify",), ("verify", SAMPLE, SAMPLE, SAMPLE), ("check", SAMPLE), ("cards",), ("cards", SAMPLE, "x"),
            ("cards", SAMPLE, SAMPLE, "x", "y"), ("cards", SAMPLE, "--cards", 5), ("cards", SAMPLE, "--utf8", "--latin1"),
            ("cards", SAMPLE, "--force"), ("cards", SAMPLE, SAMPLE, "x"), ("cards", SAMPLE, SAMPLE, "x", "--utf-8"),
            ("info", SAMPLE, "--utf8"), ("read", SAMPLE, "x", "--latin1"), ("read", "--eagle", SAMPLE), ("verify", "--eagle"),
            ("check", "--eagle", SAMPLE), ("info", SAMPLE, "--eagle"), ("look", SAMPLE, 1, 115, "--eagle"), ("--eagle",),
            ("compare",), ("compare", SAMPLE), ("compare", SAMPLE, SAMPLE, SAMPLE), ("compare", SAMPLE, SAMPLE, "--force"), ("sort",), ("sort", "--"),
            ("sort", SAMPLE, "--eagle"), ("sort", "--reverse", SAMPLE),
        ):
            self.trouble(1, *words, cwd=self.folder)
        self.assertEqual(self.names(), [])


class Refusals(Case):
    """Every number, with its place and the trace and field that it falls in."""

    def reel_refused(self, reel, number, beside, *parts):
        self.assertEqual(reels.read_reel(reel, 0)[0], ("refused", number, beside))
        path = self.file("bad.sgy", reel)
        output = self.folder / "none"
        said = [
            self.trouble(2, "read", path, output),
            self.trouble(2, "verify", path),
            self.trouble(2, "look", path, 0, 3225),
            self.trouble(2, "info", path, stdout=None),
            self.trouble(2, "check", stdin=reel, stdout=f"refused {number} {beside}\n"),
        ]
        self.assertEqual(self.names(), ["bad.sgy"])
        for sentence in said:
            self.assertEqual(sentence.split(": ", 1)[1], said[0].split(": ", 1)[1])
            self.assertIn(f": refused by {number}: ", sentence)
            for part in parts:
                self.assertIn(part, sentence)

    def record_refused(self, record, code, number, beside, *parts):
        self.assertEqual(records.write_reel(record, code, 0)[:3], ("refused", number, beside))
        path = self.file("bad.record", record)
        said = self.trouble(2, "write", path, code, self.folder / "none")
        self.assertEqual(self.names(), ["bad.record"])
        self.assertIn(f": refused by {number}: ", said)
        for part in parts:
            self.assertIn(part, said)
        if number in (12, 13) and record[:3] == b"\x01\x0c\x80":
            self.assertEqual(self.trouble(2, "info", path, stdout=None), said)

    def test_1_to_5(self):
        rnd = random.Random(1)
        good = random_reel(rnd, 1, 3, 2)
        self.reel_refused(b"", 1, 0, "it has 0 bytes")
        self.reel_refused(good[:3599], 1, 3599, "it has 3599 bytes")
        for code in (*NO_CODES, -5, -8):
            self.reel_refused(with_bytes(good, 3224, (code % 65536).to_bytes(2, "big")), 2, 3224,
                              f"the format code is {code}, not 1, 2, 3, 4, 5 or 8", "place 3224: binary header, field 3225, code")
        self.reel_refused(with_bytes(good, 3220, b"\x80\x00"), 3, 3220,
                          "are -32768, not 1 to 32767", "place 3220: binary header, field 3221, samples")
        self.reel_refused(with_bytes(good, 3216, b"\x80\x00"), 4, 3216, "is -32768, not", "place 3216: binary header, field 3217, interval")
        self.reel_refused(good + b"\0" * 7, 5, len(good), "7 bytes follow", f"place {len(good)}: trace 3 would take 252 bytes")
        self.reel_refused(good[:-1], 5, 3852, "251 bytes follow", "place 3852: trace 2 would")
        self.reel_refused(good[:3700], 5, 3600, "100 bytes follow", "place 3600: trace 1 would")
        # Where a sample has one byte, a trace is as much shorter.
        good = random_reel(rnd, 8, 3, 2)
        self.assertEqual(len(good), 3600 + 2 * 243)
        self.reel_refused(good + b"\0" * 242, 5, len(good), "242 bytes follow", f"place {len(good)}: trace 3 would take 243 bytes")
        self.reel_refused(good[:-1], 5, 3843, "242 bytes follow", "place 3843: trace 2 would take 243 bytes")

    def test_6(self):
        reel = make_reel(2000, 1, 3) + bytes(trace_size(3, 1)) * 100_001
        place = 3600 + 100_000 * 242
        path = self.file("many.sgy", reel)
        parts = "refused by 6: it has 100001 traces", f"place {place}: trace 100001"
        said = self.trouble(2, "read", path, self.folder / "none")
        self.assertEqual(said, self.trouble(2, "look", path, 1, 1))
        for part in parts:
            self.assertIn(part, said)
        self.trouble(2, "check", stdin=reel, stdout=f"refused 6 {place}\n")
        self.assertEqual(self.fine("check", stdin=reel[:-242]), f"taken 100000 1 {3273 + 100_000 * 192} 0\n")
        # And a record of as many traces, whose last is one too many.
        record = self.folder / "most.record"
        path.write_bytes(reel[:-242])
        self.fine("read", path, record)
        most = record.read_bytes()
        one_more = most[:-7] + most[-7 - 192 : -7] + bytes.fromhex("050004000186a1")
        place = len(most) - 7
        said = self.trouble(2, "write", self.file("more.record", one_more), 1, self.folder / "none")
        self.assertIn(f"refused by 12: trace 100001 begins, and a record has at most 100000 (place {place})", said)

    def test_7_to_9(self):
        traces = [make_trace([whole32(9)] * 3) for _ in range(5)]
        faults = list(traces)
        faults[3] = make_trace([whole32(9)] * 3, {115: 4})
        self.reel_refused(
            make_reel(500, 3, 2, faults), 7, 3600 + 3 * 252 + 114, "is 4, neither 0 nor the reel's 3",
            f"place {3600 + 3 * 252 + 114}: trace 4, field 115, samples")
        faults[1] = make_trace([whole32(9)] * 3, {117: -500})
        self.reel_refused(
            make_reel(500, 3, 2, faults), 8, 3600 + 252 + 116, "is -500, neither 0 nor the reel's 500",
            "trace 2, field 117, interval")
        gains = [make_trace([gain(3, 7)] * 2), make_trace([gain(3, 7), gain(3, 7, first=0xA1)])]
        place = 3600 + 248 + 240 + 4
        self.reel_refused(make_reel(500, 2, 4, gains), 9, place, "begins with A1, not 00", f"place {place}: trace 2, sample 2")

    def test_18(self):
        """Another scalar on a reel, in each group; in a trace after 8 and before 9, field 69 first."""
        def refused(number, trace, byte_number, *parts, code=4, **headers):
            traces = [make_trace([gain(3, 7, first=headers.get(f"first{i}", 0))] * 2, headers.get(f"trace{i}")) for i in (1, 2, 3)]
            place = 3600 + (trace - 1) * 248 + byte_number - 1
            self.reel_refused(make_reel(500, 2, code, traces), number, place, f"place {place}: trace {trace}, ", *parts)

        allowed = "not 0, 1, -1, or plus or minus 10, 100, 1000 or 10000 (place "
        of_elevations, of_coordinates = "the scalar of elevations and depths is ", "the scalar of coordinates is "
        refused(18, 2, 69, f"{of_elevations}7, {allowed}", "trace 2, field 69, elevation-scalar)", trace2={69: 7})
        refused(18, 3, 71, f"{of_coordinates}-10001, {allowed}", "trace 3, field 71, coordinate-scalar)", trace3={71: -10_001})
        refused(18, 1, 69, f"{of_elevations}2, ", trace1={69: 2, 71: 3}, trace2={115: 9})
        refused(18, 1, 71, f"{of_coordinates}3, ", code=1, trace1={71: 3}, trace2={69: 3})
        refused(7, 1, 115, trace1={115: 9, 117: 9, 69: 2})
        refused(8, 1, 117, trace1={117: 9, 69: 2, 71: 2})
        refused(18, 1, 71, trace1={71: 2}, first1=1)
        refused(9, 1, 241, trace2={69: 2}, first1=1)
        for scalar in (2, -2, 9, 11, 99, 101, 999, 1001, 9999, 10_001, 32767, -9, -11, -101, -1001, -9999, -32768, 256, 2560):
            for byte_number in GROUPS:
                trace = make_trace([bytes(4)], {byte_number: scalar, 140 - byte_number: 1})
                self.trouble(2, "check", stdin=make_reel(500, 1, 1, [trace]), stdout=f"refused 18 {3600 + byte_number - 1}\n")
        for scalar in ALLOWED:
            for byte_number in GROUPS:
                trace = make_trace([bytes(4)], {byte_number: scalar, 140 - byte_number: 1})
                self.assertEqual(self.fine("check", stdin=make_reel(500, 1, 1, [trace])), "taken 1 1 3465 0\n")

    def test_19(self):
        """An infinity or a not-a-number, the first such word of a trace; in a trace after 8 and 18."""
        one = bytes.fromhex("3F800000")

        def refused(number, trace, byte_number, *parts, **faults):
            """Of three traces of four samples: trace2 is a header, word23 the third word of trace 2."""
            traces = [make_trace([faults.get(f"word{i}{k}", one) for k in (1, 2, 3, 4)], faults.get(f"trace{i}")) for i in (1, 2, 3)]
            place = 3600 + (trace - 1) * 256 + byte_number - 1
            self.reel_refused(make_reel(500, 4, 5, traces), number, place, f"(place {place}: trace {trace}, ", *parts)

        for kind, words in (("an infinity", INFINITIES), ("a not-a-number", NO_NUMBERS)):
            for word in words:
                refused(19, 2, 249, f"an IEEE word is {word.hex().upper()}, {kind} (place ", "trace 2, sample 3)", word23=word)
        for trace in (1, 2, 3):
            for k in (1, 2, 3, 4):
                refused(19, trace, 241 + 4 * (k - 1), f"trace {trace}, sample {k})", **{f"word{trace}{k}": NO_NUMBERS[k]})
        refused(19, 1, 245, "FF800000", word12=INFINITIES[1], word13=INFINITY, word21=NO_NUMBERS[0])
        refused(19, 1, 253, word14=INFINITY, trace2={115: 9, 117: 9, 69: 2, 71: 2})
        for byte_number, number in ((71, 18), (69, 18), (117, 8), (115, 7)):
            refused(number, 2, byte_number, word21=INFINITY, word31=INFINITY, trace2={byte_number: 9})
        # Bytes after the last trace come first; and in the other codes these words are words as any.
        traces = [make_trace([INFINITY, NO_NUMBERS[0]])]
        self.reel_refused(make_reel(500, 2, 5, traces) + b"\0", 5, 3848)
        self.reel_refused(make_reel(500, 2, 4, traces), 9, 3840)
        for code in (1, 2, 3, 8):
            n = 8 // sample_size(code)
            self.assertEqual(self.fine("check", stdin=make_reel(500, n, code, traces)), f"taken 1 {n} {3459 + 6 * n} 0\n")

    def test_11_to_14(self):
        one = pair_bytes(0, 1)
        zeros = {69: -10_000, 71: -10_000}
        good = make_record(n=2, traces=[[one, one]] * 3, trace_fields={1: zeros, 2: zeros, 3: zeros})
        self.assertEqual(records.write_reel(good, 3, 10**6)[0], "taken")
        for code in NO_CODES:
            self.record_refused(good, code, 11, 0, f"the target code is {code}, not 1, 2, 3, 4, 5 or 8")
        header, samples, end = place_of_trace(2, 2), place_of_samples(2, 2), place_of_end(3, 2)
        for record, place, *parts in (
            (b"", 0, "the record ends where a field should begin", "tag 01, the cards"),
            (SAMPLE.read_bytes(), 0, "tag C3 stands", "tag 01, the cards"),
            (good[:2], 0, "ends within a field", "tag 01, the cards"),
            (good[:3000], 0, "ends within a field", "tag 01, the cards"),
            (with_bytes(good, 1, b"\x0c\x81"), 0, "length is 3201, not 3200", "tag 01, the cards"),
            (with_bytes(good, 3203, b"\x07"), 3203, "tag 07 stands", "place 3203: tag 02, the binary header"),
            (good[:3203], 3203, "the record ends where", "place 3203: tag 02"),
            (with_bytes(good, header, b"\x04"), header, "tag 04 stands where tag 03 of trace 2 or tag 05 should"),
            (good[:header], header, "the record ends where tag 03 of trace 2 or tag 05"),
            (with_bytes(good, header + 1, b"\0\x01"), header, "length is 1, not 180", "tag 03, the header of trace 2"),
            (with_bytes(good, samples, b"\x03"), samples, "tag 03 stands", "tag 04, the samples of trace 2"),
            (with_bytes(good, samples + 2, b"\x0b"), samples, "length is 11, not 12", "tag 04, the samples of trace 2"),
            (good[: samples + 9], samples, "ends within a field", "tag 04, the samples of trace 2"),
            (with_bytes(good, end + 6, b"\x09"), end, "the count of traces is 9, and 3 stand before it", "tag 05"),
            (good[:-1], end, "ends within a field", "tag 05, the count of traces"),
            (with_bytes(good, end + 2, b"\x05"), end, "length is 5, not 4", "tag 05, the count of traces"),
            (good + b"xyz", end + 7, "3 bytes follow the record's end", f"place {end + 7}"),
        ):
            self.record_refused(record, 1, 12, place, f"place {place}", *parts)
        smallest = "where a record has these values under -10000"
        for place, other, *parts in (
            (place_of_card(0), b"\0", "a card byte is 00", "card 1, column 1"),
            (place_of_card(3199), b"\0", "a card byte is 00", "card 40, column 80"),
            (place_of_binary(3217), b"\0\0", "interval is 0, not 1 to 32767", "field 3217, interval"),
            (place_of_binary(3221), b"\xff\xff", "are -1, not 1 to 32767", "field 3221, samples"),
            (place_of_binary(3225), b"\0\x01", "code is 1, where a record has 0", "field 3225, code"),
            (place_of_field(3, 2, 69), b"\0\x01", f"the scalar of elevations and depths is 1, {smallest}",
             "trace 3, field 69, elevation-scalar", EARLIER),
            (place_of_field(1, 2, 71), b"\0\0", f"the scalar of coordinates is 0, {smallest}",
             "trace 1, field 71, coordinate-scalar", EARLIER),
            (place_of_field(2, 2, 71), b"\x80\0", "the scalar of coordinates is -32768, which isn't allowed",
             "trace 2, field 71, coordinate-scalar", EARLIER),
            (place_of_field(3, 2, 115), b"\0\x03", "is 3, not the reel's 2", "trace 3, field 115, samples"),
            (place_of_field(3, 2, 117), b"\0\x03", "is 3, not the reel's 2000", "trace 3, field 117, interval"),
            (place_of_pair(2, 2, 2), pair_bytes(1, 6), "6 * 2^1, isn't canonical", "trace 2, sample 2"),
        ):
            self.record_refused(with_bytes(good, place, other), 1, 13, place, f"place {place}: ", *parts)
        # In a trace's header 69, 71, 115, 117; then its samples; then the next trace.
        wrong = b"\0\x07"
        damaged = with_bytes(with_bytes(good, place_of_field(3, 2, 69), wrong), place_of_samples(2, 2), wrong)
        for byte_number in (117, 115, 71, 69):
            place = place_of_field(2, 2, byte_number)
            damaged = with_bytes(damaged, place, wrong)
            self.record_refused(damaged, 1, 13, place, f"place {place}: trace 2, field {byte_number}")
        unfit = with_bytes(good, place_of_pair(3, 2, 2), pair_bytes(-280, -3))
        for code in (2, 3, 4, 5, 8):
            self.record_refused(unfit, code, 14, place_of_pair(3, 2, 2), f"-3 * 2^-280, doesn't fit code {code}", "trace 3, sample 2")

    def test_15_and_16(self):
        for trace, byte_number, number, part in (
            (7, 1, 15, "there is no trace 7: the reel has 6 traces"),
            (2**64 - 1, 9999, 15, "there is no trace 18446744073709551615: the reel has 6 traces"),
            (0, 3202, 16, "no assigned field of the binary header begins at byte number 3202"), (0, 1, 16, "byte number 1"),
            (6, 3201, 16, "no assigned field of a trace header begins at byte number 3201"), (1, 116, 16, "byte number 116"),
            (1, 0, 16, "byte number 0"), (1, 181, 16, "byte number 181"),
        ):
            self.assertEqual(reels.look_up(SAMPLE.read_bytes(), trace, byte_number)[:2], ("refused", number))
            said = self.trouble(2, "look", SAMPLE, trace, byte_number)
            self.assertIn(f": refused by {number}: ", said)
            self.assertTrue(said.endswith(part), said)

    def test_damaged_reels_and_records(self):
        """Whatever was done to a file, the number and place are the rules', and the command ends with a sentence."""
        rnd = random.Random(2024)
        for i in range(150):
            code, n, t = rnd.choice(CODES), rnd.randint(1, 4), rnd.randint(0, 3)
            reel = bytearray(random_reel(rnd, code, n, t))
            for _ in range(rnd.randint(0, 2)):
                place = rnd.choice((rnd.randrange(len(reel)), rnd.randrange(3200, len(reel)), rnd.randrange(3216, 3226)))
                reel[place] = rnd.randrange(256)
            reel = bytes(reel)[: len(reel) - rnd.choice((0, 0, 0, 1, trace_size(code, n)))] + bytes(rnd.choice((0, 0, 0, 5)))
            said, path = reels.read_reel(reel, 10**9)[0], self.file("reel", reel)
            if said[0] == "taken":
                self.assertEqual(self.fine("check", stdin=reel), "taken %d %d %d %d\n" % (*said[1:4], count_of(reel)))
                self.fine("verify", path, warned=warning(path, reel))
                self.fine("info", path, warned=warning(path, reel))
                record = reels.record_of(reel)
            else:
                self.trouble(2, "check", stdin=reel, stdout="refused %d %d\n" % said[1:])
                self.trouble(2, "info", path, stdout=None)
                record = reels.record_of(random_reel(rnd, code, n, t))
            damaged = bytearray(record)
            for _ in range(rnd.randint(1, 2)):
                place = rnd.choice((rnd.randrange(len(record)), rnd.randrange(3200, len(record)), rnd.randrange(min(len(record), 3300))))
                damaged[place] = rnd.choice((0, 3, 4, 5, rnd.randrange(256)))
            damaged = bytes(damaged)[: rnd.choice((len(record), len(record), rnd.randrange(len(record))))]
            path, output, target = self.file("record", damaged), self.folder / "output", rnd.choice(CODES)
            said = records.write_reel(damaged, target, 10**9)
            if said[0] == "taken":
                self.fine("write", path, target, output, "--force")
                self.assertEqual(output.read_bytes(), records.reel_of(damaged, target))
                self.fine("info", path)
            else:
                sentence = self.trouble(2, "write", path, target, output, "--force")
                self.assertIn(f": refused by {said[1]}: ", sentence)
                self.assertIn(f"place {said[2]}", sentence)
                self.assertEqual(self.run_command("info", path).returncode, 0 if said[1] == 14 else 2)
            # Nearest writing refuses what exact writing refuses, but for 14, and writes the same where that is taken.
            if said[:2] == ("refused", 14):
                self.assertEqual(self.run_command("write", path, target, output, "--nearest", "--force").returncode, 0)
            elif said[0] == "refused":
                self.assertEqual(self.trouble(2, "write", path, target, output, "--nearest", "--force"), sentence)
            else:
                self.fine("write", path, target, output, "--nearest", "--force")
                self.assertEqual(output.read_bytes(), said[-1])


def signed(data, place, width):
    return int.from_bytes(data[place : place + width], "big", signed=True)


def one_trace(fields):
    """A reel of one trace of two samples with these header numbers."""
    return make_reel(2000, 2, 1, [make_trace([bytes.fromhex("41100000"), bytes.fromhex("C276A000")], fields)])


def earlier_record(reel, record):
    """The record of a reel as it was made before CR 2: its scalars, elevations and coordinates are those of the reel, bare."""
    n, code = signed(reel, 3220, 2), signed(reel, 3224, 2)
    for i in range(1, (len(reel) - 3600) // trace_size(code, n) + 1):
        start = 3600 + (i - 1) * trace_size(code, n)
        record = with_bytes(record, place_of_field(i, n, 41), reel[start + 40 : start + 88])
    return record


class Scalars(Case):
    """Elevations and coordinates under their scalars. The numbers are worked out by hand."""

    def record_of(self, reel, name="a"):
        path = self.file(f"{name}.sgy", reel)
        record = self.folder / f"{name}.record"
        self.fine("read", path, record, "--force")
        return record.read_bytes()

    def groups(self, record, n=2, trace=1):
        """The scalar and the numbers of each group."""
        return [(signed(record, place_of_field(trace, n, scalar), 2), *(signed(record, place_of_field(trace, n, b), 4) for b in group))
                for scalar, group in GROUPS.items()]

    def test_the_same_survey_with_different_scalars(self):
        """1,000 under -10 and 10,000 under -100 are both 100."""
        one = one_trace({41: 1000, 65: -25, 69: -10, 73: 5000, 85: 1, 71: 1})
        other = one_trace({41: 10_000, 65: -250, 69: -100, 73: 500_000, 85: 100, 71: -100})
        record = self.record_of(one, "one")
        self.assertEqual(self.record_of(other, "other"), record)
        self.assertEqual(hashlib.sha256(self.record_of(other)).hexdigest(), hashlib.sha256(record).hexdigest())
        self.assertEqual(self.groups(record), [
            (-10_000, 1_000_000, 0, 0, 0, 0, 0, -25_000), (-10_000, 50_000_000, 0, 0, 10_000)])
        for reel in ("one", "other"):
            for kept in ("one", "other"):
                said = self.fine("verify", self.folder / f"{reel}.sgy", self.folder / f"{kept}.record")
                self.assertIn("is the record, byte for byte, of", said)
        # Another value, and another group's scalar.
        for fields in ({41: 10_001, 65: -250, 69: -100, 73: 5000, 85: 1}, {41: 1000, 65: -25, 69: 1, 73: 5000, 85: 1, 71: -10}):
            self.assertNotEqual(self.record_of(one_trace(fields)), record)

    def test_the_smallest_power(self):
        none = (-10_000, 0, 0, 0, 0)
        for scalar in ALLOWED:  # zeros
            record = self.record_of(one_trace({69: scalar, 71: scalar}))
            self.assertEqual(self.groups(record), [(-10_000, 0, 0, 0, 0, 0, 0, 0), none])
        most, least = 2**31 - 1, -(2**31)
        for scalar, numbers, held in (
            (0, (1, 0, 0, -1), (-10_000, 10_000, 0, 0, -10_000)),
            (-1, (441_200, -612_300, 441_225, -612_305), (-1000, 441_200_000, -612_300_000, 441_225_000, -612_305_000)),
            (1, (214_748, 0, 0, 0), (-10_000, 2_147_480_000, 0, 0, 0)), (1, (214_749, 0, 0, 0), (-1000, 214_749_000, 0, 0, 0)),
            (1, (0, 214_748_364, 0, 0), (-10, 0, 2_147_483_640, 0, 0)), (1, (0, 214_748_365, 5, 0), (1, 0, 214_748_365, 5, 0)),
            (0, (0, -214_748_364, 0, 0), (-10, 0, -2_147_483_640, 0, 0)), (-1, (0, 0, 0, -214_748_365), (1, 0, 0, 0, -214_748_365)),
            (10_000, (most, 1, 0, 0), (10_000, most, 1, 0, 0)), (10_000, (0, 0, 0, least), (10_000, 0, 0, 0, least)),
            (10_000, (0, 0, 0, 1), (-10_000, 0, 0, 0, 100_000_000)), (10_000, (0, 0, 0, 21), (-10_000, 0, 0, 0, 2_100_000_000)),
            (10_000, (0, 0, 0, 22), (-1000, 0, 0, 0, 220_000_000)), (100, (0, 0, -3_000_000, 0), (1, 0, 0, -300_000_000, 0)),
            (100, (0, 0, 214_748_365, 0), (100, 0, 0, 214_748_365, 0)), (1000, (7, 0, 214_748_364, 0), (100, 70, 0, 2_147_483_640, 0)),
            (10_000, (0, 0, -214_748_364, 0), (1000, 0, 0, -2_147_483_640, 0)),
            (-10_000, (most, least, 10, 0), (-10_000, most, least, 10, 0)), (-100, (7, 0, 0, 0), (-10_000, 700, 0, 0, 0)),
        ):
            record = self.record_of(one_trace({71: scalar, **dict(zip(GROUPS[71], numbers))}))
            self.assertEqual(self.groups(record)[1], held, (scalar, numbers))
            record = self.record_of(one_trace({69: scalar, **dict(zip(GROUPS[69][3:], numbers))}))
            self.assertEqual(self.groups(record), [(held[0], 0, 0, 0, *held[1:]), none], (scalar, numbers))

    def test_each_trace_by_itself(self):
        large, small = {41: 2**31 - 1, 69: 10}, {41: 2**31 - 1, 69: -10_000}
        reel = make_reel(2000, 2, 2, [make_trace([whole32(1)] * 2, fields) for fields in (large, small, {}, large)])
        record = self.record_of(reel)
        self.assertEqual([self.groups(record, trace=i)[0][:2] for i in (1, 2, 3, 4)],
                         [(10, 2**31 - 1), (-10_000, 2**31 - 1), (-10_000, 0), (10, 2**31 - 1)])

    def test_bare_on_the_reel(self):
        """`look` gives the numbers of the reel, by number and by name; `info` is as it was."""
        for scalars in ((-10, 1), (0, -1), (10_000, -10_000)):
            reel = self.file("a.sgy", one_trace({41: 1000, 69: scalars[0], 71: scalars[1], 85: -3}))
            for field, name, value in ((41, "group-elevation", 1000), (69, "elevation-scalar", scalars[0]),
                                       (71, "coordinate-scalar", scalars[1]), (85, "group-y", -3), (73, "source-x", 0)):
                self.assertEqual(self.fine("look", reel, 1, field), f"{value}\n")
                self.assertEqual(self.fine("look", reel, 1, name), f"{value}\n")
            self.assertEqual(self.fine("info", reel, "--cards", 0), (
                f"file      {reel}, 3848 bytes\nkind      reel\ntraces    1\nsamples   2 a trace\ninterval  2000 microseconds\n"
                "code      1, IBM floating point\nwords     none of 2 not normal\nrecord    3471 bytes\n"))

    def test_written_as_in_the_record(self):
        """A written reel has the record's numbers and scalars; read again it gives the record."""
        record = self.record_of(one_trace({41: 1246, 69: -10, 73: 441_200, 71: 1}))
        reel = self.folder / "b.sgy"
        for code in (1, 4, 5):
            self.fine("write", self.folder / "a.record", code, reel, "--force")
            self.assertEqual(reel.read_bytes()[3640:3688], record[place_of_field(1, 2, 41) : place_of_field(1, 2, 89)])
            for field, value in ((41, 1_246_000), (69, -10_000), (71, -1000), (73, 441_200_000)):
                self.assertEqual(self.fine("look", reel, 1, field), f"{value}\n")
            self.fine("verify", reel, self.folder / "a.record")
        said = self.fine("verify", self.folder / "a.sgy")
        self.assertEqual(said.count("the record is the same"), 3)
        self.assertTrue(said.endswith("codes that hold it: 1 4 5\n"), said)

    def test_earlier_records(self):
        """A record from before the rule is refused by every command that takes one, which says what was found and where to read on."""
        listing, new = self.file("a.txt", b"\n" * 40), self.folder / "none"
        for reel, scalar, right, what, field, byte_number in (
            (one_trace({69: 1, 71: 1}), 1, -10_000, "elevations and depths", "elevation-scalar", 69),  # zeros
            (example(), 0, -10_000, "elevations and depths", "elevation-scalar", 69),
            (one_trace({41: 214_748_365, 69: -1, 71: -1}), -1, 1, "elevations and depths", "elevation-scalar", 69),
            (one_trace({69: -10_000, 71: 1, 81: 441_200}), 1, -1000, "coordinates", "coordinate-scalar", 71),
            (one_trace({69: -10_000, 71: 10}), 10, -10_000, "coordinates", "coordinate-scalar", 71),
        ):
            record = self.record_of(reel)
            earlier = self.file("earlier.record", earlier_record(reel, record))
            place = place_of_field(1, 2, byte_number)
            said = (f"refused by 13: the scalar of {what} is {scalar}, where a record has these values under {right} "
                    f"(place {place}: trace 1, field {byte_number}, {field}); {EARLIER}")
            for words in (("write", earlier, 1, new), ("cards", earlier), ("cards", earlier, listing, new, "--utf8")):
                self.assertEqual(self.trouble(2, *words), f"{earlier}: {said}")
            run = self.run_command("info", earlier)
            self.assertEqual((run.returncode, run.stderr.decode()), (2, f"aukpocket: {earlier}: {said}\n"))
            self.assertIn(b"kind      record, refused; its headers as they stand:\ntraces    1\n", run.stdout)
            reel_path = self.folder / "a.sgy"
            difference = self.trouble(3, "verify", reel_path, earlier, stdout=None)
            self.assertTrue(difference.endswith(f" bytes differ); it is {said}; keep the tape"), difference)
        # The number and the scalar on both sides, though the scalar stands behind the number.
        reel = SAMPLE.read_bytes()
        earlier = self.file("earlier.record", earlier_record(reel, self.record_of(reel)))
        said = self.trouble(3, "verify", SAMPLE, earlier, stdout=None)
        self.assertTrue(said.startswith(
            f"{earlier}: isn't the record of {SAMPLE}: trace 1, field 41, group-elevation is 1246000 under scalar -10000 by the reel's "
            "record and 1246 under scalar -10 in the file, the same value (place 3310; "), said)
        # The value that differs is named, not the first byte: 41 is 100 in both, and 45 isn't.
        path = self.file("b.record", self.record_of(one_trace({41: 10_000, 45: 1, 69: -100})))
        reel_path = self.file("b.sgy", one_trace({41: 1000, 45: 214_748_365, 69: -10}))
        self.assertIn(
            "trace 1, field 45, source-elevation is 214748365 under scalar -10 by the reel's record and 100 under scalar -10000 in the file (place "
            f"{place_of_field(1, 2, 45)}; ", self.trouble(3, "verify", reel_path, path, stdout=None))
        # A scalar that is allowed on no reel, which an earlier version took; and a record without traces, which stays valid.
        odd = self.file("odd.record", with_bytes(earlier.read_bytes(), place_of_field(1, 240, 69), b"\0\x07"))
        self.assertEqual(self.trouble(2, "cards", odd), (
            f"{odd}: refused by 13: the scalar of elevations and depths is 7, which isn't allowed (place 3337: trace 1, field 69, "
            f"elevation-scalar); {EARLIER}"))
        self.fine("write", self.file("empty.record", make_record(2000, 2)), 1, self.folder / "empty.sgy")

    def test_where_to_read_on(self):
        page = (TOP / "docs" / "aukpocket.1").read_text(encoding="utf-8")
        readme = (TOP / "README.md").read_text(encoding="utf-8")
        self.assertIn("\n.SH EARLIER RECORDS\n", page)
        self.assertIn("\n## Earlier records\n", readme)
        for text in (page.replace("\\-", "-"), readme):
            self.assertIn("the version before CR 2", text)
            self.assertIn("commit fd3b38c", text)


class Codes(Case):
    def test_verify_says_which_codes_hold_it(self):
        rnd = random.Random(7)
        small = make_reel(1000, 2, 1, [make_trace([bytes.fromhex("41100000"), bytes.fromhex("C2FF0000")])])
        wide = make_reel(1000, 1, 2, [make_trace([whole32(40_000)])])
        edge = make_reel(1000, 1, 2, [make_trace([whole32(-(2**31))])])
        odd = make_reel(1000, 1, 2, [make_trace([whole32(2**31 - 1)])])
        tiny = make_reel(1000, 1, 1, [make_trace([bytes.fromhex("00000001")])])
        short = make_reel(1000, 2, 3, [make_trace([whole16(-32768), whole16(32767)])])
        empty = make_reel(1000, 32767, 4)

        def of_whole(number):
            return make_reel(1000, 1, 2, [make_trace([whole32(number)])])

        def of_ieee(word):
            return make_reel(1000, 1, 5, [make_trace([bytes.fromhex(word)])])

        for reel, codes in (
            (small, "1 2 3 4 5"), (wide, "1 2 5"), (edge, "1 2 5"), (odd, "2"), (tiny, "1"), (short, "1 2 3 4 5"), (empty, "1 2 3 4 5 8"),
            (of_whole(127), "1 2 3 4 5 8"), (of_whole(128), "1 2 3 4 5"), (of_whole(-128), "1 2 3 4 5 8"), (of_whole(-129), "1 2 3 4 5"),
            (of_whole(2**24 - 1), "1 2 5"), (of_whole(2**24 + 1), "2"), (of_whole(2**25 - 2), "2 5"),
            (of_ieee("3F000000"), "1 4 5"), (of_ieee("00000001"), "1 4 5"), (of_ieee("807FFFFF"), "5"), (of_ieee("007FFFFE"), "1 5"),
            (of_ieee("7F7FFFFF"), "1 5"), (of_ieee("FF000000"), "1 5"), (of_ieee("80000000"), "1 2 3 4 5 8"),
            (make_reel(1000, 3, 8, [make_trace([b"\x80\x7f\0"])]), "1 2 3 4 5 8"),
        ):
            said = self.fine("verify", self.file("reel", reel))
            self.assertTrue(said.endswith(f"codes that hold it: {codes}\n"), (said, codes))
            record = reels.record_of(reel)
            self.assertEqual([code for code in CODES if records.write_reel(record, code, 10**9)[0] == "taken"], list(map(int, codes.split())))
        for code in CODES:
            reel = random_reel(rnd, code, 5, 4)
            record = reels.record_of(reel)
            holding = [c for c in CODES if records.write_reel(record, c, 10**9)[0] == "taken"]
            self.assertIn(code, holding)
            path = self.file("reel", reel)
            said = self.fine("verify", path, warned=warning(path, reel))
            self.assertTrue(said.endswith("codes that hold it: " + " ".join(map(str, holding)) + "\n"), (said, holding))

    def test_where_they_are_listed(self):
        """The help of `write`, the README and the man page have the same codes, names and bytes; `info` says the names too."""
        listed = re.findall(r"^  (\d+)  (\S.*\S)  +(\d) bytes? a sample$", self.fine("write", "--help"), re.M)
        self.assertEqual([(int(code), int(size)) for code, _, size in listed], [(code, sample_size(code)) for code in CODES])
        page = (TOP / "README.md").read_text(encoding="utf-8").split("\n## Format codes\n")[1].split("\n## ")[0]
        self.assertEqual(re.findall(r"^\| (\d+) \| ([^|]+) \| (\d) \| [^|]+ \|$", page, re.M), listed)
        page = (TOP / "docs" / "aukpocket.1").read_text(encoding="utf-8").split("\n.SH FORMAT CODES\n")[1].split("\n.SH ")[0]
        self.assertEqual(re.findall(r"^\.B (\d+)\n(.*), (\d) bytes? a sample$", page, re.M), listed)
        for code, name, _ in listed:
            said = self.fine("info", self.file("reel", make_reel(1000, 2, int(code))))
            self.assertIn(f"\ncode      {code}, {name}\n", said)
        run = self.run_command("info", self.file("reel", make_reel(1000, 2, 6)))
        self.assertIn(b"\ncode      6\n", run.stdout)


def pair_of(value):
    """The canonical pair of an exact value."""
    if value == 0:
        return bytes(6)
    e, m = 1 - value.denominator.bit_length(), value.numerator
    while m % 2 == 0:
        e, m = e + 1, m // 2
    return pair_bytes(e, m)


def ieee_value(word):
    """The exact value of a word of code 5 by this machine's own floating-point numbers."""
    return Fraction(struct.unpack(">f", word)[0])


# Words of code 5: both zeros, subnormal numbers, the least of the others, whole numbers, and the largest.
IEEE = [bytes.fromhex(word) for word in (
    "00000000", "80000000", "00000001", "80000001", "00000003", "00400000", "007FFFFF", "807FFFFF", "00800000", "80800000", "00800001",
    "00FFFFFF", "01000000", "3F800000", "BF800000", "3F7FFFFF", "3F800001", "C2ED4000", "4B7FFFFF", "4B800000", "4B800001", "CB7FFFFF",
    "7F000000", "7F7FFFFF", "FF7FFFFF", "FF7FFFFE", "3DCCCCCD", "40490FDB")]


class NewerCodes(Case):
    """Codes 5 and 8, whose values are worked out here by Python's own numbers."""

    def there_and_back(self, code, traces, values):
        """A reel of these samples has these values in its record, and is written from it as it was, but for minus zeros."""
        t, n, size = len(traces), len(traces[0]), trace_size(code, len(traces[0]))
        path = self.file("a.sgy", make_reel(2000, n, code, [make_trace(samples) for samples in traces]))
        record, again = self.folder / "a.record", self.folder / "b.sgy"
        self.assertEqual(path.stat().st_size, 3600 + t * size)
        length = 3273 + t * (186 + 6 * n)
        self.assertEqual(self.fine("read", path, record, "--force"), (
            f"{path}: {t} trace{'s' * (t > 1)} of {n} sample{'s' * (n > 1)}; {record}: its record, {length} bytes\n"))
        held = record.read_bytes()
        for i, expected in enumerate(values, 1):
            first = place_of_pair(i, n, 1)
            self.assertEqual(held[first : first + 6 * n], b"".join(map(pair_of, expected)))
        self.fine("verify", path, record)
        self.assertEqual(self.fine("write", record, code, again, "--force"), (
            f"{record}: {t} trace{'s' * (t > 1)} of {n} sample{'s' * (n > 1)}; {again}: its reel in code {code}, {3600 + t * size} bytes\n"))
        written = again.read_bytes()
        for i, samples in enumerate(traces):
            zeros = [bytes(4) if code == 5 and sample == b"\x80\0\0\0" else sample for sample in samples]
            self.assertEqual(written[3600 + i * size + 240 : 3600 + (i + 1) * size], b"".join(zeros))
        self.assertEqual(self.fine("look", again, 0, "code"), f"{code}\n")
        self.assertEqual(self.fine("look", again, t, 115), f"{n}\n")
        self.fine("verify", again, record)

    def test_ieee(self):
        rnd = random.Random(754)
        self.there_and_back(5, [[word] for word in IEEE], [[ieee_value(word)] for word in IEEE])
        words = [rnd.getrandbits(32).to_bytes(4, "big") for _ in range(1200)]
        words = [word for word in words if word[0] % 128 < 127 or word[1] < 128]
        words += [bytes([first]) + rnd.getrandbits(24).to_bytes(3, "big") for first in (0x00, 0x80) * 100]  # half of them subnormal
        words = IEEE + words[: len(words) - (len(IEEE) + len(words)) % 4]
        traces = [words[i : i + len(words) // 4] for i in range(0, len(words), len(words) // 4)]
        self.there_and_back(5, traces, [list(map(ieee_value, trace)) for trace in traces])

    def test_both_zeros_are_one(self):
        path, other = (self.file(name, make_reel(2000, 1, 5, [make_trace([word])])) for name, word in (
            ("a.sgy", bytes(4)), ("b.sgy", b"\x80\0\0\0")))
        record = self.folder / "a.record"
        self.fine("read", path, record)
        self.assertIn("is the record, byte for byte, of", self.fine("verify", other, record))

    def test_one_byte(self):
        samples = [bytes([byte]) for byte in range(256)]
        values = [Fraction(byte - 256 if byte > 127 else byte) for byte in range(256)]
        self.there_and_back(8, [samples], [values])
        self.there_and_back(8, [[sample] for sample in samples[120:136]], [[value] for value in values[120:136]])
        self.there_and_back(8, [samples[i : i + 85] for i in (0, 85, 171)], [values[i : i + 85] for i in (0, 85, 171)])

    def test_one_meaning_in_every_code(self):
        """Reels of one meaning have one record, whatever their codes; each word is written here by hand."""
        values = {
            0: ("00000000", "00000000", "0000", "00000000", "00000000", "00"), 1: ("41100000", "00000001", "0001", "00000001", "3F800000", "01"),
            -1: ("C1100000", "FFFFFFFF", "FFFF", "0000FFFF", "BF800000", "FF"), 127: ("427F0000", "0000007F", "007F", "0000007F", "42FE0000", "7F"),
            -128: ("C2800000", "FFFFFF80", "FF80", "0000FF80", "C3000000", "80"), 100: ("42640000", "00000064", "0064", "00000064", "42C80000", "64"),
        }
        fields = {69: -10_000, 71: -10_000, 115: len(values), 117: 2000}
        made = [make_reel(2000, len(values), code, [make_trace([bytes.fromhex(words[i]) for words in values.values()], fields)] * 2)
                for i, code in enumerate(CODES)]
        record = self.folder / "a.record"
        self.fine("read", self.file("1.sgy", made[0]), record)
        for code, reel in zip(CODES, made):
            path, again = self.file(f"{code}.sgy", reel), self.folder / "again.sgy"
            self.assertIn("is the record, byte for byte, of", self.fine("verify", path, record))
            self.fine("write", record, code, again, "--force")
            self.assertEqual(again.read_bytes(), reel, code)
        self.assertIn("code 8    holds it, as a reel of 4092 bytes\n", self.fine("info", record))


# The values of each code: whole numbers from the least to the most, times each of these steps.
VALUES = {
    1: (1 - 2**24, 2**24 - 1, [Fraction(16) ** k for k in range(-70, 58)]), 2: (-(2**31), 2**31 - 1, [Fraction(1)]),
    3: (-(2**15), 2**15 - 1, [Fraction(1)]), 4: (-(2**15), 2**15 - 1, [Fraction(1, 2**g) for g in range(256)]),
    5: (1 - 2**24, 2**24 - 1, [Fraction(2) ** k for k in range(-149, 105)]), 8: (-(2**7), 2**7 - 1, [Fraction(1)]),
}


def range_of(code):
    """The least and the greatest value of a code."""
    least, most, steps = VALUES[code]
    return least * max(steps), most * max(steps)


def nearest(code, value):
    """The nearest value of a code, of two equally near the one nearer zero: each step is tried, with the whole numbers about the value."""
    least, most, steps = VALUES[code]
    found = (min(max(number, least), most) * step for step in steps for number in (value // step, value // step + 1))
    return min(found, key=lambda other: (abs(other - value), abs(other)))


def power_of_ten(value, digits=10):
    """That of the first digit of a value that is rounded to as many digits; 0 for zero."""
    if value == 0:
        return 0
    size = abs(value)
    power = len(str(size.numerator)) - len(str(size.denominator))
    while 10**power > size if power >= 0 else 1 > size * 10**-power:
        power -= 1
    while size >= Fraction(10) ** (power + 1):
        power += 1
    return power + (round(size, digits - 1 - power) >= Fraction(10) ** (power + 1))


def decimal(value, places):
    """An exact decimal of as many places, at most, without zeros at their end."""
    number = round(value * 10**places)
    text = str(abs(number)).rjust(places + 1, "0")
    text = (text[: len(text) - places] + "." + text[len(text) - places :]).rstrip("0").rstrip(".") if places else text
    return "-" * (number < 0) + text


def in_decimals(value, digits=6):
    """A value as the command shows it, worked out exactly; half of the last place goes to the even digit."""
    first = power_of_ten(value, max(digits, 10))
    if -4 <= first < 10:
        return decimal(value, max(digits - 1 - first, 0))
    power = power_of_ten(value, digits)
    return f"{decimal(value / Fraction(10) ** power, digits - 1)}e{power:+03}"


def became(before, after):
    """A value that became another, each with the digits that show it."""
    digits = [min(max(power_of_ten(value) - power_of_ten(before - after) + 6, 6), 11) for value in (before, after)]
    return f"{in_decimals(before, digits[0])} became {in_decimals(after, digits[1])}"


def share(some, all_of_them):
    """A share in hundredths of a percent, where it rounds neither to none nor to all."""
    hundredths = int(Fraction(10_000 * some, all_of_them) + Fraction(1, 2))
    return "100 %" if some == all_of_them else f"{hundredths // 100}.{hundredths % 100:02} %"


class Nearest(Case):
    """`write --nearest`. What a sample becomes, how far it moves, and what is said of it are worked out here by fractions."""

    # Halves, exact ones, and some about and beyond the ends of every code, tiny and huge ones.
    SOME = [Fraction(text) for text in (
        "0", "1/2", "-1/2", "3/2", "-3/2", "5/2", "1", "-1", "7/4", "-9/4", "3/65536", "-1/8192", "100", "-118.625", "0.09375", "-5461/16384",
        "126.5", "127", "127.5", "128", "-127.75", "-128", "-128.5", "-129", "255.75", "32766.5", "32766.75", "32767", "32767.25", "32768",
        "-32767.75", "-32768", "-32768.25", "-32769", "65535.5", "16777215", "16777217", "-16777217", "33554431", "2147483647", "2147483648",
        "-2147483647", "-2147483648", "-2147483650", "1073741823.5", "8388607.5", "-8388608.5", "4294967296",
    )] + [number * Fraction(2) ** power for number, power in (
        (1, -280), (-1, -280), (3, -280), (2**31 - 1, -280), (1, -255), (-3, -257), (1, -149), (1, -150), (-1, -150), (3, -151), (3, -150),
        (2**24 - 1, -149), (2**25 - 1, -150), (2**24 - 1, 104), (2**25 - 1, 103), (1, 128), (-1, 128), (2**24 - 1, 228), (2**25 - 1, 227),
        (1, 251), (3, 251), (-3, 251), (2**31 - 1, 251), (1 - 2**31, 251), (2**31 - 1, -20), (-1234567891, -12), (987654321, -40),
        (2**31 - 1, 70),
    )]

    def record_of(self, traces):
        """A record file of these values, and its bytes."""
        record = make_record(n=len(traces[0]), traces=[list(map(pair_of, trace)) for trace in traces])
        return self.file("a.record", record), record

    def texts(self, path, traces, reel, after, code):
        """What is said of a record of these values that became others, and the warning."""
        t, n = len(traces), len(traces[0])
        s = "s" * (t * n > 1)
        changes = [(i, k, value, other) for i, (trace, others) in enumerate(zip(traces, after), 1)
                   for k, (value, other) in enumerate(zip(trace, others), 1) if value != other]
        said = (f"{path}: {t} trace{'s' * (t > 1)} of {n} sample{'s' * (n > 1)}; {reel}: its reel in code {code} by nearest values, "
                f"{3600 + t * trace_size(code, n)} bytes; ")
        if not changes:
            return f"{said}none of {t * n} sample{s} changed: the reel is exact, nothing was rounded\n", ""
        i, k, value, other = max(changes, key=lambda change: abs(change[2] - change[3]))  # the first of equal ones
        largest = max((value for trace in traces for value in trace), key=abs)
        said += (f"{len(changes)} of {t * n} sample{s} changed ({share(len(changes), t * n)})\nthe largest change is "
                 f"{in_decimals(abs(value - other))} (trace {i}, sample {k}: {became(value, other)}), beside a largest sample of "
                 f"{in_decimals(largest)}; keep {path}, which {reel} doesn't give back\n")
        least, most = range_of(code)
        beyond = [change for change in changes if not least <= change[2] <= most]
        if not beyond:
            return said, ""
        i, k, value, other = beyond[0]
        what, it = (f"{len(beyond)} samples lie", "the first") if len(beyond) > 1 else ("1 sample lies", "it")
        return said, (f"aukpocket: warning: {reel}: {what} beyond the range of code {code} ({in_decimals(least)} to {in_decimals(most)}) and "
                      f"became its end; {it} is trace {i}, sample {k}: {became(value, other)}\n")

    def near(self, traces, code):
        """Writes a record of these values, and holds all that is said and written to what they become."""
        path, record = self.record_of(traces)
        reel, again, second = (self.folder / name for name in ("a.sgy", "again", "second"))
        after = [[nearest(code, value) for value in trace] for trace in traces]
        said, warned = self.texts(path, traces, reel, after, code)
        self.assertEqual(self.fine("write", path, code, reel, "--nearest", "--force", warned=warned), said)
        # The reel is that of exact writing, of a record with the new values; it gives that record back, and nothing changes any more.
        rounded = make_record(n=len(after[0]), traces=[list(map(pair_of, trace)) for trace in after])
        written = reel.read_bytes()
        self.assertEqual(written, records.reel_of(rounded, code))
        self.fine("read", reel, again, "--force")
        self.assertEqual(again.read_bytes(), rounded)
        self.assertEqual(self.fine("write", again, code, second, "--nearest", "--force"), self.texts(again, after, second, after, code)[0])
        self.assertEqual(second.read_bytes(), written)
        self.fine("write", again, code, second, "--force")
        self.assertEqual(second.read_bytes(), written)
        self.assertEqual(path.read_bytes(), record)

    def test_the_fractions_of_this_test(self):
        """What nearest values and shown numbers are, by hand."""
        for code, value, other in (
            (2, "5/2", "2"), (2, "-5/2", "-2"), (2, "7/4", "2"), (8, "127.25", "127"), (8, "-1000", "-128"), (3, "32766.75", "32767"),
            (4, "1.00001", "1"), (4, "16383.75", "16383.5"), (4, "16383.875", "16384"), (1, "16777217", "16777216"), (1, "8388607.5", "8388607"),
            (1, "0.1", "1677722/16777216"), (1, "-1048575.96875", "-1048575.9375"), (5, "16777217", "16777216"), (5, "16777219", "16777218"),
            (5, "-16777219", "-16777218"),
        ):
            self.assertEqual(nearest(code, Fraction(value)), Fraction(other), (code, value))
        self.assertEqual([nearest(5, number * Fraction(2) ** power) for number, power in ((1, 128), (-1, 200), (1, -150), (3, -150))],
                         [*range_of(5)[::-1], 0, Fraction(2) ** -149])
        self.assertEqual(range_of(5)[1], Fraction(struct.unpack(">f", bytes.fromhex("7F7FFFFF"))[0]))
        self.assertEqual([range_of(code) for code in (2, 3, 4, 8)], [(-(2**31), 2**31 - 1), (-32768, 32767), (-32768, 32767), (-128, 127)])
        self.assertEqual(range_of(1)[0], Fraction(v_of_word(1, b"\xff\xff\xff\xff"), 16**70))
        for value, text in (
            ("0", "0"), ("-0.5", "-0.5"), ("32811.5", "32811.5"), ("1234.4999", "1234.5"), ("123456.5", "123456"), ("123457.5", "123458"),
            ("-8388607.5", "-8388608"), ("9999999999", "9999999999"), ("9999999999.75", "1e+10"), ("12345650000", "1.23456e+10"),
            ("12345750000", "1.23458e+10"), ("0.0001", "0.0001"), ("0.0001234567", "0.000123457"), ("0.00009999994", "9.99999e-05"),
            ("-0.00009999996", "-1e-04"),
        ):
            self.assertEqual(in_decimals(Fraction(value)), text)
        self.assertEqual(became(Fraction("2147483648"), Fraction("2147483647")), "2147483648 became 2147483647")
        self.assertEqual(became(Fraction("1234.4999084"), Fraction(1234)), "1234.499908 became 1234")

    def test_each_code(self):
        """Halves, exact values, those beyond either end, tiny and huge ones, in every code."""
        rnd = random.Random(5)
        third = len(self.SOME) // 3
        for code in CODES:
            self.near([self.SOME[i * third : (i + 1) * third] for i in range(3)], code)
            for t, n in ((1, 2), (2, 5), (4, 7)):
                values = [rnd.getrandbits(31) * rnd.choice((1, -1)) * Fraction(2) ** -rnd.randint(0, 40) for _ in range(t * n - 2)]
                values += range_of(code)
                self.near([values[i * n : (i + 1) * n] for i in range(t)], code)

    def test_each_value_alone(self):
        for value in self.SOME:
            for code in CODES:
                self.near([[value]], code)

    def test_what_it_says(self):
        """Whole texts, by hand."""
        def said(code, *traces, warned=""):
            path, _ = self.record_of([list(map(Fraction, trace)) for trace in traces])
            reel = self.folder / "a.sgy"
            text = self.fine("write", path, code, reel, "--nearest", "--force", warned=warned and f"aukpocket: warning: {reel}: {warned}\n")
            return text.replace(str(path), "RECORD").replace(str(reel), "REEL")

        self.assertEqual(said(3, ("1/2", "7", "-9/4"), ("1234.4375", "-2.5", "0")), (
            "RECORD: 2 traces of 3 samples; REEL: its reel in code 3 by nearest values, 4092 bytes; 4 of 6 samples changed (66.67 %)\n"
            "the largest change is 0.5 (trace 1, sample 1: 0.5 became 0), beside a largest sample of 1234.44; keep RECORD, which REEL "
            "doesn't give back\n"))
        self.assertEqual(said(3, ("1234.4375",)), (
            "RECORD: 1 trace of 1 sample; REEL: its reel in code 3 by nearest values, 3842 bytes; 1 of 1 sample changed (100 %)\n"
            "the largest change is 0.4375 (trace 1, sample 1: 1234.4375 became 1234), beside a largest sample of 1234.44; keep RECORD, which "
            "REEL doesn't give back\n"))
        self.assertEqual(said(8, ("3", "-4"), ("5", "6")), (
            "RECORD: 2 traces of 2 samples; REEL: its reel in code 8 by nearest values, 4084 bytes; none of 4 samples changed: the reel is "
            "exact, nothing was rounded\n"))
        beyond = "lie beyond the range of code 3 (-32768 to 32767) and became its end; the first is trace 1, sample 2: 32767.5 became 32767"
        self.assertEqual(said(3, ("1", "32767.5", "32766.5"), ("-40000", "100000", "-32768"), warned=f"3 samples {beyond}"), (
            "RECORD: 2 traces of 3 samples; REEL: its reel in code 3 by nearest values, 4092 bytes; 4 of 6 samples changed (66.67 %)\n"
            "the largest change is 67233 (trace 2, sample 2: 100000 became 32767), beside a largest sample of 100000; keep RECORD, which "
            "REEL doesn't give back\n"))
        one = "1 sample lies beyond the range of code 2 (-2147483648 to 2147483647) and became its end; it is trace 1, sample 1: "
        self.assertIn("the largest change is 1 (trace 1, sample 1: 2147483648 became 2147483647), beside a largest sample of 2147483648;", said(
            2, ("2147483648", "1"), warned=f"{one}2147483648 became 2147483647"))
        ieee = "1 sample lies beyond the range of code 5 (-3.40282e+38 to 3.40282e+38) and became its end; it is trace 1, sample 1: "
        self.assertIn("the largest change is 2.02824e+31 (trace 1, sample 1: -3.4028236692e+38 became -3.4028234664e+38), beside a largest", said(
            5, (-(2**128),), warned=f"{ieee}-3.4028236692e+38 became -3.4028234664e+38"))
        path = self.file("empty.record", make_record(2000, 7))
        self.assertTrue(self.fine("write", path, 3, self.folder / "empty.sgy", "--nearest").endswith(
            "3600 bytes; none of 0 samples changed: the reel is exact, nothing was rounded\n"))

    def test_the_largest_change(self):
        """Wherever it is; of equal ones the first; of those that a floating-point number doesn't tell apart the larger."""
        for i in range(3):
            for k in range(4):
                traces = [[Fraction(1, 4)] * 4 for _ in range(3)]
                traces[i][k] = Fraction(-3, 8)
                self.near(traces, 2)
        self.near([[Fraction(1, 4), Fraction(-1, 2)], [Fraction(3, 2), Fraction(-5, 2)]], 3)
        huge = Fraction(2) ** 100
        for traces in ([[-huge, huge, huge]], [[huge, -huge, huge]], [[Fraction(1, 2), huge, huge * 2]]):
            self.near(traces, 8)

    def test_exact(self):
        """What a code holds is written as ever, and the reel is said to be exact."""
        rnd = random.Random(55)
        for code in CODES:
            reel = random_reel(rnd, code, 6, 4)
            path, record = self.file("a.record", reels.record_of(reel)), self.folder / "b.record"
            ours, theirs = self.folder / "exact.sgy", self.folder / "nearest.sgy"
            self.fine("write", path, code, ours, "--force")
            said = self.fine("write", path, code, theirs, "--nearest", "--force")
            self.assertEqual(said, (
                f"{path}: 4 traces of 6 samples; {theirs}: its reel in code {code} by nearest values, {ours.stat().st_size} bytes; none of 24 "
                "samples changed: the reel is exact, nothing was rounded\n"))
            self.assertEqual(theirs.read_bytes(), ours.read_bytes())
            self.fine("read", theirs, record, "--force")
            self.assertEqual(record.read_bytes(), path.read_bytes())

    def test_the_rest_of_the_record(self):
        """Cards, header numbers and scalars are those of exact writing, whatever becomes of the samples."""
        record = reels.record_of(SAMPLE.read_bytes())
        path, reel, again = self.file("a.record", record), self.folder / "a.sgy", self.folder / "b.record"
        for code in (2, 3, 8):
            self.run_command("write", path, code, reel, "--nearest", "--force")
            self.fine("read", reel, again, "--force")
            back = again.read_bytes()
            self.assertEqual(len(back), len(record))
            self.assertEqual(back[: place_of_trace(1, 240)], record[: place_of_trace(1, 240)])
            for i in range(1, 7):
                self.assertEqual(back[place_of_trace(i, 240) : place_of_pair(i, 240, 1)], record[place_of_trace(i, 240) : place_of_pair(i, 240, 1)])
            self.assertNotEqual(back, record)
            self.assertEqual(self.fine("look", reel, 0, "code"), f"{code}\n")
            # `verify` says of such a reel that the record isn't its own.
            self.assertIn("isn't the record of", self.trouble(3, "verify", reel, path, stdout=None))

    def test_refused(self):
        """The causes of writing but for 14, in the same words; no file is made."""
        half = pair_of(Fraction(1, 2))
        good = make_record(n=2, traces=[[half, half]] * 2)
        faults = [(with_bytes(good, place_of_card(7), b"\0"), 3, 13), (good[:-1], 3, 12), (good + b"x", 8, 12), (b"", 2, 12),
                  (with_bytes(good, place_of_pair(2, 2, 2), pair_bytes(1, 6)), 3, 13), (SAMPLE.read_bytes(), 5, 12)]
        faults += [(good, code, 11) for code in NO_CODES] + [(good[:-1], 6, 11)]
        for record, code, number in faults:
            path = self.file("bad.record", record)
            said = self.trouble(2, "write", path, code, self.folder / "none", "--nearest")
            self.assertIn(f"refused by {number}: ", said)
            self.assertEqual(said, self.trouble(2, "write", path, code, self.folder / "none"))
            self.assertNotIn("--nearest", said)
            self.assertEqual(self.names(), ["bad.record"])

    def test_nothing_is_rounded_unasked(self):
        """Without the option what doesn't fit is refused by 14, and what there is is said; elsewhere it isn't."""
        path, record = self.record_of([[Fraction(1), Fraction(1, 2)]])
        hint = "; --nearest rounds such samples to the nearest value of the code"
        for code in (2, 3, 8):
            for force in ((), ("--force",)):
                said = self.trouble(2, "write", path, code, self.folder / "none", *force)
                self.assertEqual(said, (
                    f"{path}: refused by 14: a sample, 1 * 2^-1, doesn't fit code {code} (place {place_of_pair(1, 2, 2)}: trace 1, sample 2){hint}"))
            self.assertEqual(self.names(), ["a.record"])
        reel = self.file("a.sgy", records.reel_of(record, 1))
        said = self.fine("verify", reel)
        self.assertIn("refused by 14: ", said)
        self.assertNotIn("--nearest", said + self.fine("info", path))

    def test_the_option(self):
        """It stands anywhere behind the command's name, beside --force, and for `write` alone."""
        path, _ = self.record_of([[Fraction(3, 2)]])
        reel = self.folder / "a.sgy"
        self.assertIn("there is no option `--near`", self.trouble(1, "write", path, 3, reel, "--near"))
        for words in (
            ("--nearest", path, 3, reel), (path, "--nearest", 3, reel, "--force"), ("--force", path, 3, "--nearest", reel),
            (path, 3, reel, "--nearest", "--force", "--nearest"), ("--nearest", "--force", "--", path, 3, reel),
        ):
            self.assertIn("1 of 1 sample changed (100 %)\n", self.fine("write", *words))
        self.trouble(2, "write", path, 3, self.folder / "none")
        for words in (("read", reel, "x"), ("verify", reel), ("info", reel), ("look", reel, 0, "code"), ("cards", path), ("check",)):
            self.assertIn("there is no option `--nearest`", self.trouble(1, *words, "--nearest", cwd=self.folder))
        # Behind `--` it is a name.
        self.fine("write", "--nearest", "--", path.name, 3, "--nearest", cwd=self.folder)
        self.assertEqual(self.names(), ["--nearest", "a.record", "a.sgy"])

    def test_an_existing_file_is_kept(self):
        path, record = self.record_of([[Fraction(3, 2)]])
        old = self.file("old", b"old")
        self.assertIn("is there already and is kept; --force", self.trouble(1, "write", path, 3, old, "--nearest"))
        self.assertEqual(old.read_bytes(), b"old")
        self.assertIn("is an input, which is never replaced", self.trouble(1, "write", path, 3, path, "--nearest", "--force"))
        self.assertEqual(path.read_bytes(), record)
        said = self.trouble(1, "write", path, 3, self.folder / "new", "--nearest", preexec_fn=limited(resource.RLIMIT_FSIZE, 3841))
        self.assertIn("new: can't be written: File too large", said)
        self.assertEqual(self.names(), ["a.record", "old"])
        self.fine("write", path, 3, old, "--nearest", "--force")
        self.assertEqual(old.read_bytes(), records.reel_of(make_record(n=1, traces=[[pair_of(Fraction(1))]]), 3))

    def test_where_it_is_explained(self):
        said = self.fine("write", "--help")
        for part in ("  --nearest   write each sample as the nearest value of the code", "keep the\nrecord, which alone is exact"):
            self.assertIn(part, said)
        for path, heading in (("docs/aukpocket.1", "\n.SH NEAREST WRITING\n"), ("README.md", "\n## Nearest writing\n")):
            self.assertIn(heading, (TOP / path).read_text(encoding="utf-8"), path)
        page = (TOP / "README.md").read_text(encoding="utf-8").split("\n## Nearest writing\n")[1].split("\n## ")[0]
        rows = dict(re.findall(r"^\| (\d) \| [^|]+ \| ([^|]+) \|$", page, re.M))
        self.assertEqual(set(rows), set(map(str, CODES)))
        for code in (2, 3, 4, 8):
            self.assertEqual(rows[str(code)], "{:,} or {:,}".format(*map(int, range_of(code))))
        for code, base, power in ((1, 16, 57), (5, 2, 104)):
            self.assertTrue(rows[str(code)].endswith(f"(2^24 - 1) × {base}^{power} in size"), rows[str(code)])
            self.assertEqual(range_of(code), ((1 - 2**24) * base**power, (2**24 - 1) * base**power))


class Verify(Case):
    """A record on disk against its reel."""

    def setUp(self):
        super().setUp()
        self.record = reels.record_of(SAMPLE.read_bytes())

    def sums(self, *paths):
        return "".join(f"{hashlib.sha256(path.read_bytes()).hexdigest()}  {path}\n" for path in paths)

    def different(self, record, *parts):
        path = self.file("a.record", record)
        said = self.trouble(3, "verify", SAMPLE, path, stdout=(
            f"# {path} is NOT the record of {SAMPLE}: 6 traces of 240 samples, 13029 bytes; on the reel 2 of 1440 words not normal "
            f"(0.14 %)\n{self.sums(SAMPLE, path)}"))
        self.assertTrue(said.startswith(f"{path}: isn't the record of {SAMPLE}: ") and said.endswith("; keep the tape"), said)
        for part in parts:
            self.assertIn(part, said)

    def test_the_same(self):
        path = self.file("a.record", self.record)
        said = self.fine("verify", SAMPLE, path)
        self.assertEqual(said, (
            f"# {path} is the record, byte for byte, of {SAMPLE}: 6 traces of 240 samples, 13029 bytes; on the reel 2 of 1440 words not "
            f"normal (0.14 %)\n{self.sums(SAMPLE, path)}"))
        # What it prints is what sha256sum takes.
        for strict in (("--strict",), ()):
            run = subprocess.run(["sha256sum", "-c", *strict], input=said.encode(), capture_output=True, timeout=SECONDS)
            self.assertEqual((run.returncode, run.stderr), (0, b""))
            self.assertEqual(run.stdout.decode(), f"{SAMPLE}: OK\n{path}: OK\n")

    def test_strange_names(self):
        for name in (b"-", b"a b", b"# c", b"\\", b"x\ny\\n", b"\xff\xfe"):
            with open(os.fsencode(self.folder) + b"/" + name, "wb") as file:
                file.write(self.record)
            run = self.run_command("verify", SAMPLE, os.fsdecode(name), cwd=self.folder)
            self.assertEqual((run.returncode, run.stderr), (0, b""), name)
            check = subprocess.run(["sha256sum", "-c", "--strict"], input=run.stdout, capture_output=True, cwd=self.folder, timeout=SECONDS)
            self.assertEqual((check.returncode, check.stderr, check.stdout.count(b": OK\n")), (0, b"", 2), name)

    def test_one_bit_anywhere(self):
        """Each bit of some bytes of each part, and what the sentence says of it."""
        n, before = 240, self.record
        header, pair, end = place_of_trace(3, n), place_of_pair(3, n, 7), place_of_end(6, n)
        for place, name in (
            (0, "the tag and length of the cards is tag 01, length 3200 by"), (2, "the tag and length of the cards"),
            (3, "card 1, column 1 is C3, `C`, by"), (3202, "card 40, column 80 is 40 by"),
            (3204, "the tag and length of the binary header"),
            (place_of_binary(3205) + 3, "binary header, field 3205, line is 12 by"), (place_of_binary(3221), "field 3221, samples is 240 by"),
            (place_of_binary(3225), "binary header, field 3225, code is 0 by"), (place_of_binary(3259) + 1, "field 3259, vibrator is 0 by"),
            (header, "the tag and length of trace 3's header is tag 03, length 180 by"),
            (place_of_field(3, n, 37) + 1, "trace 3, field 37, offset is 0 by"), (place_of_field(3, n, 179), "trace 3, field 179, overtravel"),
            (place_of_field(3, n, 41) + 3, "trace 3, field 41, group-elevation is 1238000 under scalar -10000 by"),
            (place_of_field(3, n, 65), "trace 3, field 65, group-water is 0 under scalar -10000 by"),
            (place_of_field(3, n, 69) + 1, "trace 3, field 69, elevation-scalar is -10000 by"),
            (place_of_field(3, n, 71), "trace 3, field 71, coordinate-scalar is -1000 by"),
            (place_of_field(3, n, 73) + 2, "trace 3, field 73, source-x is 441200000 under scalar -1000 by"),
            (place_of_field(3, n, 85) + 1, "trace 3, field 85, group-y is -612315000 under scalar -1000 by"),
            (place_of_field(3, n, 89), "trace 3, field 89, units is 1 by"),
            (place_of_samples(3, n) + 1, "the tag and length of trace 3's samples is tag 04, length 1440 by"),
            (pair, "trace 3, sample 7 is 0 * 2^0 by"), (place_of_pair(6, n, 240) + 5, "trace 6, sample 240 is 0 * 2^0 by"),
            (place_of_pair(1, n, 90) + 5, "trace 1, sample 90 is -431 * 2^-3 by"),
            (end + 1, "the tag and length of the count of traces is tag 05, length 4 by"), (end + 6, "the count of traces is 6 by"),
        ):
            for bit in range(8):
                self.different(with_bytes(before, place, bytes([before[place] ^ 1 << bit])), name, f"(place {place}; 1 of 13029 bytes differ)")
        flipped = with_bytes(before, place_of_pair(1, n, 90) + 5, bytes([before[place_of_pair(1, n, 90) + 5] ^ 2]))
        self.different(flipped, (
            "trace 1, sample 90 is -431 * 2^-3 by the reel's record and -429 * 2^-3 in the file (place 3991; 1 of 13029 bytes differ); keep"))
        place = place_of_field(3, n, 41) + 3
        self.different(with_bytes(before, place, bytes([before[place] ^ 2])), (
            "trace 3, field 41, group-elevation is 1238000 under scalar -10000 by the reel's record and 1238002 under scalar -10000 in the "
            f"file (place {place}; 1 of 13029 bytes differ); keep the tape"))

    def test_other_files(self):
        n = 240
        self.different(self.record[:-1], "it has 13028 bytes of 13029, and the count of traces is missing or cut short (place 13028)")
        self.different(self.record[: place_of_pair(2, n, 5)], "and trace 2, sample 5 is missing or cut short")
        self.different(b"", "it has 0 bytes of 13029, and the tag and length of the cards is missing or cut short (place 0)")
        self.different(self.record + b"xy", "2 bytes follow the record's end (place 13029)")
        self.different(SAMPLE.read_bytes(), "it is a reel, not a record")
        self.different(SAMPLE.read_bytes()[:-7], "it is a reel, not a record")
        cut = with_bytes(self.record, place_of_pair(2, n, 5), b"\x01")[: place_of_pair(2, n, 5) + 3]
        self.different(cut, "trace 2, sample 5 is 0 * 2^0 by the reel's record and cut short in the file")
        cut = with_bytes(self.record, place_of_field(2, n, 41), b"\x01")[: place_of_field(2, n, 69) + 1]
        self.different(cut, (
            "trace 2, field 41, group-elevation is 1242000 under scalar -10000 by the reel's record and 18019216, its scalar cut short, in "
            "the file (place "), f"the file has {len(cut)} bytes)")
        other = reels.record_of(make_reel(2000, 240, 1, [make_trace([bytes(4)] * 240)]))
        self.different(other, "card 1, column 1 is C3, `C`, by the reel's record and 40 in the file")
        # The reel is judged first, and a record in its stead is told.
        path = self.file("a.record", self.record)
        self.assertIn("is a record, not a reel: refused by 2", self.trouble(2, "verify", path, path))
        self.assertIn("can't be opened", self.trouble(1, "verify", SAMPLE, self.folder / "none"))
        self.assertIn("is a folder", self.trouble(1, "verify", SAMPLE, self.folder))

    def test_sums_of_any_length(self):
        """Lengths about the ends of a block, against Python's own."""
        for length in (*range(0, 130), 1_048_575, 1_048_576, 1_048_577):
            path = self.file("a.record", bytes(i % 251 for i in range(length)))
            said = self.run_command("verify", SAMPLE, path).stdout.decode()
            self.assertTrue(said.endswith(self.sums(path)), length)


# IBM words, each of which has another sign, characteristic or count of zeros at the front of its fraction.
ZEROS = ["80000000", "01000000", "81000000", "41000000", "C1000000", "7F000000", "FF000000"]
LEADING = [f"{first}{digits:06X}" for first in ("01", "40", "C2", "7F", "81", "FF") for k in range(1, 6)
           for digits in (16 ** (5 - k), 16 ** (6 - k) - 1)]
NOT_NORMAL = [bytes.fromhex(word) for word in ZEROS + LEADING]
NORMAL = [bytes.fromhex(word) for word in (
    "00000000", "00000001", "80000001", "0000000F", "000FFFFF", "800FFFFF", "00100000", "80FFFFFF", "01100000", "81100000", "41100000",
    "C276A000", "42FFFFFF", "7F100000", "7FFFFFFF", "FFFFFFFF")]


class NotNormal(Case):
    """How many words of a reel aren't normal, told by each command that reads one."""

    def reel(self, *traces, code=1):
        """A reel of traces of words, all of one length."""
        return make_reel(2000, len(traces[0]) * 4 // sample_size(code), code, [make_trace(words) for words in traces])

    def told(self, reel, count, text):
        """What each command says of a reel: how many, of how many and the share, or nothing."""
        path, record = self.file("a.sgy", reel), self.folder / "a.record"
        t, n, length = reels.read_reel(reel, 10**9)[0][1:4]
        extent = f"{t} trace{'s' * (t != 1)} of {n} sample{'s' * (n != 1)}"
        code = int.from_bytes(reel[3224:3226], "big")
        self.assertEqual(self.fine("check", stdin=reel), f"taken {t} {n} {length} {count}\n")
        self.assertEqual(self.fine("read", path, record, "--force"), (
            f"{path}: {extent}{text and ', ' + text}; {record}: its record, {length} bytes\n"))
        self.assertEqual(record.read_bytes(), reels.record_of(reel))
        words = [line for line in self.fine("info", path, "--cards", 0).splitlines() if line.startswith("words")]
        self.assertEqual(words, ["words     " + re.sub(" words?", "", text)] if text else [])
        said = self.fine("verify", path)
        self.assertTrue(said.startswith(
            f"{path}: {extent} in code {code}, {len(reel)} bytes{text and ', ' + text}; its record, {length} bytes\n"), said)
        self.assertEqual("the record is the same, and all words are normal\n" in said, count > 0)
        said = self.fine("verify", path, record).splitlines()[0]
        self.assertEqual(said, (
            f"# {record} is the record, byte for byte, of {path}: {extent}, {length} bytes{text and '; on the reel ' + text}"))
        self.assertNotIn("words", self.fine("info", record, "--cards", 0))

    def test_the_words_are_what_they_are_called(self):
        """By document 01's rules, and so that every kind is among them."""
        self.assertEqual([word.hex() for word in NOT_NORMAL if is_normal(word)], [])
        self.assertEqual([word.hex() for word in NORMAL if not is_normal(word)], [])
        numbers = [int.from_bytes(word, "big") for word in NOT_NORMAL]
        kinds = {(number >> 31, 6 - len(f"{number % 2 ** 24:X}") if number % 2 ** 24 else 6) for number in numbers}
        self.assertEqual(kinds, {(sign, zeros) for sign in (0, 1) for zeros in range(1, 7)})

    def test_each_word_alone(self):
        """Each among normal words; each of these alone, on a reel of nothing else."""
        one = NORMAL[10]
        for i, word in enumerate(NOT_NORMAL):
            words = [one] * 6
            words[i % 6] = word
            self.assertEqual(self.fine("check", stdin=self.reel(words[:3], words[3:])), "taken 2 3 3681 1\n", word.hex())
        for word in NORMAL:
            self.assertEqual(self.fine("check", stdin=self.reel([word])), "taken 1 1 3465 0\n", word.hex())

    def test_every_place(self):
        """The first and the last sample of the first trace, of one between and of the last."""
        one, odd = NORMAL[10], NOT_NORMAL[-1]
        for trace in (0, 1, 3):
            for sample in (0, 2, 4):
                traces = [[one] * 5 for _ in range(4)]
                traces[trace][sample] = odd
                self.assertEqual(self.fine("check", stdin=self.reel(*traces)), f"taken 4 5 {3273 + 4 * 216} 1\n", (trace, sample))
        self.told(self.reel([one] * 5, [one] * 5, [one] * 4 + [odd]), 1, "1 of 15 words not normal (6.67 %)")

    def test_traces(self):
        """All kinds in the first trace, in the last, in all; none; and on a reel without words."""
        count = len(NOT_NORMAL)
        good = (NORMAL * count)[:count]
        for traces, text in (
            ([NOT_NORMAL, good, good], f"{count} of {3 * count} words not normal (33.33 %)"),
            ([good, good, NOT_NORMAL], f"{count} of {3 * count} words not normal (33.33 %)"),
            ([NOT_NORMAL, good, NOT_NORMAL], f"{2 * count} of {3 * count} words not normal (66.67 %)"),
            ([NOT_NORMAL] * 3, f"{3 * count} of {3 * count} words not normal (100 %)"),
            ([good] * 3, f"none of {3 * count} words not normal"),
        ):
            self.told(self.reel(*traces), count * traces.count(NOT_NORMAL), text)
        self.told(make_reel(2000, 5, 1), 0, "")
        self.told(self.reel([NORMAL[0]]), 0, "none of 1 word not normal")
        self.told(self.reel([NOT_NORMAL[0]]), 1, "1 of 1 word not normal (100 %)")

    def test_shares(self):
        """Some are never 0 %, and 100 % are all."""
        one, odd = NORMAL[10], NOT_NORMAL[3]
        for n, t, count, share in (
            (5000, 4, 1, "0.01 %"), (6667, 3, 1, "under 0.01 %"), (8000, 4, 1, "under 0.01 %"), (5000, 4, 2, "0.01 %"),
            (5000, 4, 3, "0.02 %"), (8, 1, 1, "12.50 %"), (5000, 4, 10_000, "50.00 %"), (5000, 4, 19_998, "99.99 %"),
            (5000, 4, 19_999, "over 99.99 %"), (6667, 3, 20_000, "over 99.99 %"), (5000, 4, 20_000, "100 %"),
        ):
            words = [odd] * count + [one] * (n * t - count)
            reel = self.reel(*(words[i : i + n] for i in range(0, n * t, n)))
            self.told(reel, count, f"{count} of {n * t} words not normal ({share})")

    def test_other_codes(self):
        """The same bytes are numbers there, and nothing is said of them. Nor is it of gain words, of which a value has several."""
        for code in (2, 3, 5, 8):
            self.told(self.reel(NOT_NORMAL, code=code), 0, "")
        gains = [gain(g, 2**g) for g in range(1, 15)]
        self.assertEqual({word_of_v(4, v_of_word(4, word)) for word in gains}, {gain(0, 1)})
        self.told(self.reel(gains, code=4), 0, "")
        self.told(self.reel(gains), 0, "none of 14 words not normal")

    def test_refused_reels(self):
        """Nothing is counted beside a refusal, wherever the cause stands."""
        good = self.reel(NOT_NORMAL, NOT_NORMAL)
        size = (len(good) - 3600) // 2
        for reel, number, beside in (
            (good[:-1], 5, 3600 + size), (with_bytes(good, 3224, b"\0\6"), 2, 3224), (with_bytes(good, 3224, b"\0\4"), 9, 3840),
            (with_bytes(with_bytes(good, 3224, b"\0\5"), 3844, b"\x7f\x80"), 19, 3844),
            (with_bytes(good, 3600 + size + 114, b"\0\1"), 7, 3600 + size + 114),
            (with_bytes(good, 3600 + size + 68, b"\0\7"), 18, 3600 + size + 68),
        ):
            path = self.file("a.sgy", reel)
            self.trouble(2, "check", stdin=reel, stdout=f"refused {number} {beside}\n")
            for words in (("read", path, self.folder / "none"), ("verify", path), ("verify", path, SAMPLE)):
                self.assertIn(f"refused by {number}: ", self.trouble(2, *words))
            run = self.run_command("info", path)
            self.assertEqual((run.returncode, b"words" in run.stdout), (2, False))

    def test_values_and_the_written_reel(self):
        """The record is that of the normal words, and so is a reel that is written from it, which counts none."""
        normal = [word_of_v(1, v_of_word(1, word)) for word in NOT_NORMAL]
        path, twin = self.file("a.sgy", self.reel(NOT_NORMAL)), self.file("b.sgy", self.reel(normal))
        record, written = self.folder / "a.record", self.folder / "c.sgy"
        self.fine("read", path, record)
        said = self.fine("verify", twin, record)
        self.assertIn(f"on the reel none of {len(normal)} words not normal\n", said)
        self.fine("write", record, 1, written)
        self.assertNotEqual(written.read_bytes(), path.read_bytes())
        self.assertEqual(written.read_bytes()[3840:], twin.read_bytes()[3840:])
        self.assertTrue(self.fine("check", stdin=written.read_bytes()).endswith(" 0\n"))

    def test_where_it_is_explained(self):
        for command in ("read", "info", "verify"):
            self.assertIn("how many words aren't normal, of how many, and the share. An IBM word is normal", self.fine(command, "--help"))
        for path, heading in (("docs/aukpocket.1", "\n.SH WORDS THAT ARE NOT NORMAL\n"), ("README.md", "\n## Words that aren't normal\n")):
            self.assertTrue(heading in (TOP / path).read_text(encoding="utf-8"), path)

    def test_the_tables_of_the_readme(self):
        page = (TOP / "README.md").read_text(encoding="utf-8")
        rows = re.findall(r"^\| ([0-9A-F]{8}) \| [^|]+ \| ([0-9A-F]{8}) \|", page, re.M)
        self.assertEqual(len(rows), 5)
        for word, normal in rows:
            self.assertEqual(word_of_v(1, v_of_word(1, bytes.fromhex(word))).hex().upper(), normal)
        rows = re.findall(r"^\| ([0-9A-F]{8}) \| (\d+) \| ([0-9A-F]{4}) ([0-9A-F]{8}) \| ([01]) \| (.*) \|$", page, re.M)
        self.assertEqual([code for _, code, *_ in rows], ["1"] * 4 + ["2", "4"] + ["5"] * 4 + ["8"])
        for word, code, e, m, not_normal, remark in rows:
            word, code = bytes.fromhex(word), int(code)
            self.assertEqual(reels.pair_of_word(code, word).hex().upper(), e + m)
            self.assertEqual(code == 1 and not is_normal(word), not_normal == "1")
            again = re.search(r"written again it is ([0-9A-F]{8})$", remark)
            self.assertEqual(word_of_v(code, v_of_word(code, word)), bytes.fromhex(again[1]) if again else word)


class LeftOut(Case):
    def test_warnings(self):
        """Bytes 3261 to 3600 and 181 to 240 that aren't 0 are counted, and nothing else is."""
        plain = SAMPLE.read_bytes()
        for places in (
            (), (3260,), (3599,), (3260, 3300, 3599), (3600 + 180,), (3600 + 239, 3600 + 1200 + 180), (3500, 3600 + 5 * 1200 + 200),
            (3255, 3600 + 179, 3600 + 1200 + 239), (3600 + 240, 3600 + 1200 + 241),
        ):
            reel = plain
            for place in places:
                reel = with_bytes(reel, place, bytes([1 + place % 255]))
            path, record = self.file("a.sgy", reel), self.folder / "a.record"
            warned = warning(path, reel)
            self.assertEqual(bool(warned), any(3260 <= p < 3600 or p >= 3600 and (p - 3600) % 1200 in range(180, 240) for p in places))
            self.fine("read", path, record, "--force", warned=warned)
            self.fine("info", path, warned=warned)
            self.fine("verify", path, warned=warned)
            self.fine("verify", path, record, warned=warned)
            self.fine("info", record)
            self.fine("look", path, 0, 3225)
        path = self.file("a.sgy", with_bytes(with_bytes(plain, 3500, b"\x01"), 3600 + 1200 + 180, b"\x07\x07"))
        self.assertEqual(warning(path, path.read_bytes()), (
            f"aukpocket: warning: {path}: the record leaves out 3 unassigned bytes that aren't 0: 1 of bytes 3261 to 3600, "
            "and 2 of bytes 181 to 240 in 1 of the trace headers, first in trace 2\n"))
        # A refused reel has no record.
        self.trouble(2, "info", self.file("a.sgy", path.read_bytes()[:-1]), stdout=None)


class Kinds(Case):
    """A reel is not a record: that is said before the number and place."""

    def test_a_record_for_a_reel(self):
        for record in (reels.record_of(SAMPLE.read_bytes()), reels.record_of(example()), reels.record_of(make_reel(1, 1, 1))):
            path = self.file("a.record", record)
            for words in (("read", path, self.folder / "none"), ("look", path, 0, 3225), ("verify", path), ("verify", path, path)):
                self.assertRegex(self.trouble(2, *words), f"^{path}: is a record, not a reel: refused by [12]: ")
            self.assertRegex(self.trouble(2, "check", stdin=record, stdout=None), "^standard input: is a record, not a reel: refused by ")
        self.assertEqual(self.names(), ["a.record"])

    def test_a_reel_for_a_record(self):
        """Whole, or with something wrong in its traces."""
        for reel in (SAMPLE.read_bytes(), SAMPLE.read_bytes()[:-1], with_bytes(SAMPLE.read_bytes(), 3668, b"\0\x07"), example(),
                     make_reel(1, 1, 3), make_reel(1, 1, 8), make_reel(1, 1, 5, [make_trace([INFINITY])])):
            path = self.file("a.sgy", reel)
            said = self.trouble(2, "write", path, 1, self.folder / "none")
            self.assertRegex(said, f"^{path}: is a reel, not a record: refused by 12: tag .. stands where a field should begin ")
        for other in (b"text\n" * 2000, b"", with_bytes(SAMPLE.read_bytes(), 3224, b"\0\x09")):
            said = self.trouble(2, "write", self.file("other", other), 1, self.folder / "none")
            self.assertIn("other: refused by 12: ", said)


class Info(Case):
    def test_every_card_byte(self):
        """The cards as Python's table of code page 037 has them, a dot for a control character, a blank for 00."""
        rows = [bytes(range(i, i + 80)) for i in (0, 80, 160)] + [bytes(range(176, 256))]
        cards = b"".join(rows) + b"\x40" * (3200 - 320)
        lines = self.fine("info", self.file("reel", make_reel(1, 1, 1, cards=cards)), "--cards", 4).split("\n")[-5:-1]
        for row, line in zip(rows, lines):
            text = "".join("." if ord(c) < 0x20 or 0x7F <= ord(c) < 0xA0 else c for c in row.replace(b"\0", b"\x40").decode("cp037"))
            self.assertEqual(line, "  " + text.rstrip(" "))

    def test_which_kind(self):
        """Tag 01 makes a record, unless it is refused as one and taken as a reel."""
        first = bytes.fromhex("010c80")
        reel = make_reel(1, 1, 1, cards=first + b"\x40" * 3197)
        self.assertIn("kind      reel\n", self.fine("info", self.file("reel", reel)))
        run = self.run_command("info", self.file("reel", reel + b"x"))
        self.assertIn(b"kind      record, refused", run.stdout)
        self.assertIn(b"refused by 13: a card byte is 00", run.stderr)
        run = self.run_command("info", self.file("reel", first))
        self.assertEqual(run.returncode, 2)
        self.assertIn(b"refused by 12: the record ends within a field (place 0: tag 01, the cards)", run.stderr)

    def test_what_is_no_reel(self):
        text = self.file("text", b"These are no seismic data.\n")
        run = self.run_command("info", text)
        self.assertEqual(run.returncode, 2)
        self.assertEqual(run.stdout.decode(), f"file      {text}, 27 bytes\nkind      neither a record nor as long as a reel\n")
        self.assertIn(b"refused by 1: it has 27 bytes", run.stderr)
        cut = self.file("cut", SAMPLE.read_bytes()[:9000])
        run = self.run_command("info", cut)
        self.assertEqual(run.returncode, 2)
        self.assertIn(b"traces    4\nsamples   240 a trace\ninterval  2000 microseconds\ncode      1, IBM", run.stdout)
        self.assertIn(b"  C 1 CLIENT", run.stdout)
        self.assertIn(b"refused by 5: 600 bytes follow", run.stderr)


TAKES_EAGLE = "; it is an Eagle reel, which `read --eagle` takes"
TAKES_PLAIN = "; it is a plain reel, which `read` without --eagle takes"


class Eagle(Case):
    """Eagle reels: `read`, `verify` and `check` with --eagle, and what is said of them without it."""

    def setUp(self):
        super().setUp()
        self.plain = SAMPLE.read_bytes()
        self.sample = eagle.with_trailers(self.plain, [eagle.trailer()] * 6)
        self.record = reels.record_of(self.plain)

    def taken(self, reel):
        """What each command says of an Eagle reel, and the record that it makes; which is the rules'. The reel is no plain one."""
        (_, t, n, length, count), record = eagle.read_eagle(reel, 10**9)
        path, output = self.file("a.sgy", reel), self.folder / "a.record"
        warned = warning(path, reel, eagle.TRAILER)
        extent = f"an Eagle reel, {t} trace{'s' * (t != 1)} of {n} sample{'s' * (n != 1)}"
        words = f"none of {t * n} word{'s' * (t * n != 1)} not normal" if not count else (
            f"{count} of {t * n} word{'s' * (t * n != 1)} not normal ({share(count, t * n)})")
        self.assertEqual(self.fine("check", "--eagle", stdin=reel), f"taken {t} {n} {length} {count}\n")
        self.assertEqual(self.fine("read", "--eagle", "--force", path, output, warned=warned), (
            f"{path}: {extent}, {words}; {output}: its record, {length} bytes\n"))
        self.assertEqual(output.read_bytes(), record)
        self.assertEqual(self.fine("info", path, "--cards", 0, warned=warned), (
            f"file      {path}, {len(reel)} bytes\nkind      Eagle reel, which `read --eagle` takes\ntraces    {t}\nsamples   {n} a trace\n"
            f"interval  {int.from_bytes(reel[3216:3218], 'big')} microseconds\ncode      1, IBM floating point\n"
            f"words     {re.sub(' words?', '', words)}\nrecord    {length} bytes\n"))
        said = self.fine("verify", "--eagle", path, output, warned=warned)
        self.assertEqual(said, (
            f"# {output} is the record, byte for byte, of {path}: {extent}, {length} bytes; on the reel {words}\n"
            f"{hashlib.sha256(reel).hexdigest()}  {path}\n{hashlib.sha256(record).hexdigest()}  {output}\n"))
        said = self.fine("verify", "--eagle", path, warned=warned).splitlines()
        self.assertEqual(said[0], f"{path}: {extent} in code 1, {len(reel)} bytes, {words}; its record, {length} bytes")
        holding = [code for code in CODES if records.write_reel(record, code, 10**9)[0] == "taken"]
        self.assertEqual(said[-1], "codes that hold it: " + " ".join(map(str, holding)))
        for code, line in zip(CODES, said[1:-1]):
            normal = ", and all words are normal" if code == 1 and count else ""
            held = (f"code {code}: holds it; written as a plain reel ({3600 + t * trace_size(code, n)} bytes) and read again, "
                    f"the record is the same{normal}")
            self.assertTrue(line == held if code in holding else line.startswith(f"code {code}: doesn't hold it; refused by 14: "), line)
        return record

    def refused(self, reel, number, beside, *parts, hint=""):
        """What is refused with --eagle, in one sentence, and with every output as it was. Behind it the sentence may have a hint."""
        self.assertEqual(eagle.read_eagle(reel, 0)[0], ("refused", number, beside))
        path, kept = self.file("bad.sgy", reel), self.file("kept", b"kept")
        before = self.names()
        said = [
            self.trouble(2, "read", "--eagle", path, self.folder / "none"), self.trouble(2, "read", path, kept, "--force", "--eagle"),
            self.trouble(2, "verify", path, "--eagle"), self.trouble(2, "verify", "--eagle", path, kept),
            self.trouble(2, "check", "--eagle", stdin=reel, stdout=f"refused {number} {beside}\n"),
        ]
        self.assertEqual((self.names(), kept.read_bytes()), (before, b"kept"))
        for sentence in said:
            name, what = sentence.split(": ", 1)
            self.assertIn(name, (str(path), "standard input"))
            self.assertEqual(what, said[0].split(": ", 1)[1])
            self.assertTrue(what.startswith(f"refused by {number}: "), what)
            self.assertTrue(what.endswith(f"){hint}" if number > 1 else hint), what)
            for part in parts:
                self.assertIn(part, what)

    def test_the_sample(self):
        """With trailers it has the record that it has without, and so has a plain reel that is written from it."""
        self.assertEqual(self.taken(self.sample), self.record)
        path, kept = self.file("b.sgy", self.sample), self.file("b.record", self.record)
        self.assertIn(f"is the record, byte for byte, of {path}: an Eagle reel, ", self.fine("verify", "--eagle", path, kept))
        self.assertIn("is the record, byte for byte, of", self.fine("verify", SAMPLE, self.folder / "a.record"))
        for code in (1, 4, 5):
            written = self.folder / "c.sgy"
            self.fine("write", self.folder / "a.record", code, written, "--force")
            self.assertEqual(written.read_bytes(), records.reel_of(self.record, code))
            self.assertIn("is the record, byte for byte, of", self.fine("verify", written, kept))
        run = subprocess.run(["sha256sum", "-c", "--strict"], input=self.fine("verify", "--eagle", path, kept).encode(), capture_output=True)
        self.assertEqual((run.returncode, run.stdout.decode()), (0, f"{path}: OK\n{kept}: OK\n"))

    def test_any_bytes(self):
        """Trailers, checks, headers, unassigned bytes and words of any content."""
        rnd = random.Random(1992)
        for n, t in ((1, 1), (1, 5), (2, 3), (3, 2), (7, 1), (100, 4), (239, 2), (8000, 2), (8001, 1), (32_767, 1)):
            reel = eagle.random_eagle(rnd, n, t, rnd.randint(1, 32767))
            self.assertEqual(self.taken(reel), reels.record_of(eagle.without_trailers(reel)))
        for rest in (bytes(958), b"\xff" * 958, b"\xff\xff" + bytes(956), self.plain[3600:4558]):
            self.taken(eagle.example_eagle(rest))

    def test_1_to_5(self):
        rnd = random.Random(20)
        good = eagle.random_eagle(rnd, 3, 2)  # traces of 1,212 bytes
        self.refused(b"", 1, 0, "it has 0 bytes, and the cards and binary header of a reel alone have 3600")
        self.refused(good[:3599], 1, 3599, "it has 3599 bytes")
        for code in (2, 3, 4, 5, 8, *NO_CODES, -1):
            self.refused(with_bytes(good, 3224, (code % 65536).to_bytes(2, "big")), 2, 3224, (
                f"the format code is {code}, not 1, which every Eagle reel has (place 3224: binary header, field 3225, code)"))
        for n in (0, -32768, -1):
            self.refused(with_bytes(good, 3220, (n % 65536).to_bytes(2, "big")), 3, 3220, f"are {n}, not 1 to 32767 (place 3220: ")
        for interval in (0, -1, -32768):
            self.refused(with_bytes(good, 3216, (interval % 65536).to_bytes(2, "big")), 4, 3216, f"is {interval}, not 1 to 32767 (place 3216: ")
        # Cut in a trailer, at its start and before its end, in the samples, in a header; and bytes behind the last trailer.
        for length, count in (
            (6024, 0), (6023, 1211), (6022, 1210), (5065, 253), (5064, 252), (5063, 251), (4813, 1), (4812, 0), (4811, 1211), (3853, 253),
            (3851, 251), (3601, 1),
        ):
            if count == 0:
                self.fine("check", "--eagle", stdin=good[:length])
                continue
            place = length - count
            trace = (place - 3600) // 1212 + 1
            self.refused(good[:length], 5, place, (
                f"{count} bytes follow the last whole trace (place {place}: trace {trace} would take 1212 bytes with its trailer)"))
        self.refused(good + b"\0", 5, 6024, "1 bytes follow", "trace 3 would take 1212 bytes with its trailer")
        self.refused(good + good[3600:4811], 5, 6024, "1211 bytes follow")

    def test_6(self):
        """The trailer counts where the traces are too many."""
        trace = bytes(1202) + b"\xff\xff"
        path = self.file("many.sgy", make_reel(2000, 1, 1) + trace * 100_001)
        place = 3600 + 100_000 * 1204
        with open(path, "rb") as file:
            said = self.trouble(2, "check", "--eagle", stdin=file, stdout=f"refused 6 {place}\n")
        self.assertIn(f"refused by 6: it has 100001 traces, more than 100000 (place {place}: trace 100001)", said)
        os.truncate(path, place)
        with open(path, "rb") as file:
            self.assertEqual(self.fine("check", "--eagle", stdin=file), f"taken 100000 1 {3273 + 100_000 * 192} 0\n")

    def of_traces(self, *faults):
        """An Eagle reel of three traces of two samples, 1,208 bytes each, with these header numbers or ends of trailers by trace, from 1."""
        traces = [make_trace([bytes.fromhex("41100000")] * 2) for _ in range(3)]
        ends = [b"\xff\xff"] * 3
        for trace, fault in faults:
            if isinstance(fault, dict):
                traces[trace - 1] = make_trace([bytes.fromhex("41100000")] * 2, fault)
            else:
                ends[trace - 1] = fault
        return eagle.with_trailers(make_reel(500, 2, 1, traces), [eagle.trailer(end=end) for end in ends])

    def test_7_8_and_18(self):
        """At their places among traces with trailers."""
        for trace in (1, 2, 3):
            for fault, number, part in (
                ({115: 3}, 7, "the sample count of a trace is 3, neither 0 nor the reel's 2"),
                ({117: -500}, 8, "the sample interval of a trace is -500, neither 0 nor the reel's 500"),
                ({69: 7}, 18, "the scalar of elevations and depths is 7, not 0, 1, -1, or"),
                ({71: -10_001}, 18, "the scalar of coordinates is -10001, not 0, 1, -1, or"),
            ):
                byte_number, = fault
                place = 3600 + (trace - 1) * 1208 + byte_number - 1
                self.refused(self.of_traces((trace, fault)), number, place, part, f"(place {place}: trace {trace}, field {byte_number}, ")

    def test_20(self):
        """One of the two bytes, or both; the place of the first; in each trace after the others, and before the next trace."""
        for trace in (1, 2, 3):
            place = 3600 + trace * 1208 - 2
            for end in (b"\xff\xfe", b"\xfe\xff", b"\x7f\xff", b"\xff\0", b"\0\xff", b"\0\0", b"\x40\x40", b"\xfe\xfe"):
                self.refused(self.of_traces((trace, end)), 20, place, (
                    f"refused by 20: the last two bytes of a trailer are {end.hex().upper()}, not FFFF "
                    f"(place {place}: trace {trace}, byte 959 of its trailer)"))
        wrong = b"\xff\0"
        all_wrong = {115: 9, 117: 9, 69: 9, 71: 9}
        self.refused(self.of_traces((1, wrong), (2, all_wrong), (2, wrong)), 20, 4806)
        self.refused(self.of_traces((2, wrong), (3, all_wrong), (3, b"\0\xff")), 20, 6014)
        for left, number, byte_number in (
            ((115, 117, 69, 71), 7, 115), ((117, 69, 71), 8, 117), ((69, 71), 18, 69), ((71,), 18, 71),
        ):
            fault = {b: 9 for b in left}
            self.refused(self.of_traces((1, fault), (1, wrong), (2, all_wrong)), number, 3600 + byte_number - 1)
            self.refused(self.of_traces((2, fault), (2, wrong), (3, wrong)), number, 4808 + byte_number - 1)
        # FFFF elsewhere is no end.
        early = with_bytes(self.of_traces(), 4805, b"\xff\xff\0")
        self.refused(early, 20, 4806, "are FF00, not FFFF")
        self.refused(with_bytes(self.of_traces(), 4806, b"\0\0\xff\xff"), 20, 4806, "are 0000, not FFFF")
        # Bytes after the last whole trace come first.
        self.refused(self.of_traces((1, wrong)) + b"\0", 5, 7224)

    def test_dead_stations(self):
        """A dead trace (2 in field 29) with its samples is a trace as any; without them the reel has the cause that its bytes lead to."""
        for trace in (1, 2, 3):
            reel = self.of_traces((trace, {29: 2}))
            self.assertEqual(signed(self.taken(reel), place_of_field(trace, 2, 29), 2), 2)
            samples = 3600 + (trace - 1) * 1208 + 240
            self.refused(reel[:samples] + reel[samples + 8 :], 5, 6016, "1200 bytes follow the last whole trace")

    def test_columns_79_and_80(self):
        """Of card 40 alone, and whatever they hold: blanks in the record, on a written reel and in what is shown."""
        cards = self.sample[:3198]
        for check in (b"\0\0", b"\x40\x40", b"\0\x40", b"\xe7\xf3", b"\x40\xc1", b"\xc1\0", b"\xff\xff", b"\x25\x0d", b"\x01\x0c"):
            reel = cards + check + self.sample[3200:]
            self.assertEqual(self.taken(reel), self.record)
            path = self.folder / "a.sgy"
            shown = self.fine("info", path, "--cards", 40, warned=warning(path, reel, eagle.TRAILER))
            self.assertTrue(shown.endswith("  C40 END EBCDIC\n"), shown)
        # Every other column is text, and as a plain reel these two are as well.
        for place in (0, 78, 79, 3118, 3119, 3196, 3197):
            for byte, held in ((b"\xc1", b"\xc1"), (b"\0", b"\x40"), (b"\xff", b"\xff")):
                record = self.taken(with_bytes(self.sample, place, byte))
                self.assertEqual(record, with_bytes(self.record, place_of_card(place), held))
        path, output = self.file("plain.sgy", with_bytes(self.plain, 3198, b"\xc1\xc2")), self.folder / "plain.record"
        self.fine("read", path, output)
        self.assertEqual(output.read_bytes(), with_bytes(self.record, place_of_card(3198), b"\xc1\xc2"))
        self.assertTrue(self.fine("info", path, "--cards", 40).endswith("AB\n"))

    def test_what_carries_no_meaning(self):
        """Reels that differ in trailers and checks alone have one record; what else differs is in it, field 169 as a bare number."""
        rnd = random.Random(169)
        plain, other = random_reel(rnd, 1, 4, 3), self.folder / "other.sgy"
        self.taken(eagle.with_trailers(plain, [eagle.some_trailer(rnd) for _ in range(3)]))
        for _ in range(5):
            check = reels.some_bytes(rnd, 2)
            reel = eagle.with_trailers(with_bytes(plain, 3198, check), [eagle.some_trailer(rnd) for _ in range(3)])
            other.write_bytes(reel)
            said = self.fine("verify", "--eagle", other, self.folder / "a.record", warned=warning(other, reel, eagle.TRAILER))
            self.assertIn("is the record, byte for byte, of", said)
        for factor in (0, 1, 2, 500, -1, -32768, 32767):
            made = [make_trace([bytes.fromhex("41100000")], {169: factor * (i == 2)}) for i in (1, 2, 3)]
            record = self.taken(eagle.with_trailers(make_reel(2000, 1, 1, made), [eagle.trailer()] * 3))
            self.assertEqual([signed(record, place_of_field(i, 1, 169), 2) for i in (1, 2, 3)], [0, factor, 0])
            self.assertEqual([record[place_of_pair(i, 1, 1) :][:6] for i in (1, 2, 3)], [pair_bytes(0, 1)] * 3)

    def test_words_that_are_not_normal(self):
        """Those of trailers aren't counted."""
        odd = b"".join(NOT_NORMAL)
        for traces, count in (([NORMAL, NORMAL], 0), ([NOT_NORMAL[:16], NORMAL], 16), ([NORMAL, NOT_NORMAL[:16]], 16)):
            plain = make_reel(2000, 16, 1, [make_trace(words) for words in traces])
            reel = eagle.with_trailers(plain, [eagle.trailer((odd * 9)[:958])] * 2)
            self.taken(reel)
            self.assertEqual(self.fine("check", "--eagle", stdin=reel), f"taken 2 16 3837 {count}\n")

    def test_left_out(self):
        """Unassigned bytes, trailer bytes before FFFF and a check are told, and nothing else is."""
        size = 2160
        for places in (
            (), (3260, 3599), (3600 + 180,), (3600 + size + 239,), (3600 + 1200,), (3600 + 1200 + 957,), (3600 + 5 * size + 1200 + 500,), (3198,),
            (3199,), (3300, 3600 + size + 200, 3600 + size + 1200, 3600 + 2 * size + 1201, 3198, 3199), (3197, 3600 + 241, 3600 + 1199),
        ):
            reel = self.sample
            for place in places:
                reel = with_bytes(reel, place, bytes([1 + place % 255]))
            self.taken(reel)
        path = self.file("a.sgy", with_bytes(with_bytes(self.sample, 3500, b"\x01"), 3600 + size + 1200, b"\x07\x07\x07"))
        path.write_bytes(with_bytes(path.read_bytes(), 3198, b"\x12\xab"))
        self.fine("info", path, warned="".join(f"aukpocket: warning: {path}: the record leaves out {what}\n" for what in (
            "an unassigned byte that isn't 0: 1 of bytes 3261 to 3600",
            "3 trailer bytes that aren't 0: 3 of bytes 1 to 958 in 1 of the trailers, first in trace 2",
            "the check in columns 79 and 80 of card 40, 12AB")))

    def both(self, reel):
        """Bytes that both layouts take: each gives them its own meaning, T included, and each command says that there is another. T of each."""
        path, output, wrong = self.file("both.sgy", reel), self.folder / "both.record", self.folder / "wrong.record"
        plain, other = reels.read_reel(reel, 10**9), eagle.read_eagle(reel, 10**9)

        def extent(t, n):
            return f"{t} trace{'s' * (t != 1)} of {n} samples"

        for option, mine, theirs, kind, trailer in (
            ((), plain, other, "an Eagle reel, {}, which `read --eagle` takes", 0),
            (("--eagle",), other, plain, "a plain reel, {}, which `read` without --eagle takes", eagle.TRAILER),
        ):
            (_, t, n, length, count), record = mine
            wrong.write_bytes(theirs[1])
            also = kind.format(extent(theirs[0][1], n)) + ": each layout gives the bytes its own meaning"
            left_out = warning(path, reel, trailer)
            warned = f"{left_out}aukpocket: warning: {path}: it is also {also}\n"
            said = self.fine("read", path, output, "--force", *option, warned=warned)
            self.assertTrue(said.startswith(f"{path}: {'an Eagle reel, ' if option else ''}{extent(t, n)}, "), said)
            self.assertEqual(output.read_bytes(), record)
            self.assertEqual(self.fine("check", *option, stdin=reel), f"taken {t} {n} {length} {count}\n")
            self.fine("verify", path, *option, warned=warned)
            self.assertIn("is the record, byte for byte, of", self.fine("verify", path, output, *option, warned=warned))
            run = self.run_command("verify", path, wrong, *option)
            said = run.stderr.decode()
            self.assertEqual((run.returncode, said.count("\n")), (3, warned.count("\n") + 1))
            self.assertTrue(said.startswith(f"{warned}aukpocket: {wrong}: isn't the record of {path}: "), said)
            if not option:  # `info` and `look` go by the plain layout
                said = self.fine("info", path, "--cards", 0, warned=left_out)
                self.assertIn(f"\nkind      reel\ntraces    {t}\nsamples   {n} a trace\n", said)
                self.assertTrue(said.endswith(f"\nrecord    {length} bytes\nalso      {also}\n"), said)
                self.assertEqual(self.fine("look", path, t, 115), f"{n}\n")
                self.assertIn(f"the reel has {t} traces", self.trouble(2, "look", path, t + 1, 115))
        return plain[0][1], other[0][1]

    def test_bytes_that_both_take(self):
        zeros = make_reel(2000, 20, 1) + bytes(1278) + b"\xff\xff"
        self.assertEqual(self.both(zeros), (4, 1))
        self.assertEqual(self.both(with_bytes(zeros, 3198, b"\xc1\xc2")), (4, 1))
        self.assertEqual(self.both(eagle.one_trace_or_four()), (4, 1))
        for n, t, plain_t in ((60, 1, 3), (180, 1, 2), (240, 5, 9)):
            self.assertEqual(self.both(eagle.both_layouts(n, t)), (plain_t, t))
        # Without traces there is no more to say of them than of a plain reel.
        for check in (b"\x40\x40", b"\xc1\xc2"):
            path, record = self.file("none.sgy", with_bytes(make_reel(2000, 20, 1), 3198, check)), self.folder / "none.record"
            self.assertIn("kind      reel\n", self.fine("info", path))
            self.assertNotIn("also", self.fine("info", path))
            self.fine("read", path, record, "--force")
            self.assertEqual(record.read_bytes()[3201:3203], check)
            warned = warning(path, path.read_bytes(), eagle.TRAILER)
            said = self.fine("read", "--eagle", path, record, "--force", warned=warned)
            self.assertEqual(said, f"{path}: an Eagle reel, 0 traces of 20 samples; {record}: its record, 3273 bytes\n")
            self.assertEqual(record.read_bytes()[3201:3203], b"\x40\x40")

    def test_the_other_layout(self):
        """A reel that is refused in one layout and taken in the other: each command says so behind the refusal."""
        path, record = self.file("a.sgy", self.sample), self.file("a.record", self.record)
        what = f"refused by 5: 960 bytes follow the last whole trace (place 15600: trace 11 would take 1200 bytes){TAKES_EAGLE}"
        for words in (("read", path, self.folder / "none"), ("verify", path), ("verify", path, record), ("look", path, 1, 115)):
            self.assertEqual(self.trouble(2, *words), f"{path}: {what}")
        self.assertEqual(self.trouble(2, "check", stdin=self.sample, stdout="refused 5 15600\n"), f"standard input: {what}")
        self.refused(self.plain, 5, 10_080, "trace 4 would take 2160 bytes with its trailer", hint=TAKES_PLAIN)
        for code in (2, 3, 4, 5, 8):
            self.refused(make_reel(2000, 2, code), 2, 3224, f"is {code}, not 1, which every Eagle reel has", hint=TAKES_PLAIN)
        # By another cause than 5: the second plain trace would have a wrong count in the first trailer.
        reel = with_bytes(make_reel(2000, 20, 1) + bytes(1278) + b"\xff\xff", 3920 + 114, b"\0\x07")
        self.assertEqual(reels.read_reel(reel, 0)[0], ("refused", 7, 4034))
        said = self.trouble(2, "read", self.file("b.sgy", reel), self.folder / "none")
        self.assertTrue(said.endswith(f"(place 4034: trace 2, field 115, samples){TAKES_EAGLE}"), said)
        self.taken(reel)
        # And the other way: the last two bytes of four plain traces aren't FFFF.
        self.refused(make_reel(2000, 20, 1) + bytes(1280), 20, 4878, "are 0000, not FFFF", hint=TAKES_PLAIN)

    def test_damaged_in_either_layout(self):
        """Where it has whole traces in the other layout alone, what that one refuses is said too; a record is called a record."""
        damaged = with_bytes(self.sample, 3600 + 2 * 2160 - 1, b"\xfe")
        path = self.file("a.sgy", damaged)
        fault = "refused by 20: the last two bytes of a trailer are FFFE, not FFFF (place 7918: trace 2, byte 959 of its trailer)"
        for words in (("read", path, self.folder / "none"), ("verify", path), ("info", path)):
            said = self.trouble(2, *words, stdout=None)
            self.assertTrue(said.startswith(f"{path}: refused by 5: ") and said.endswith(f"; as an Eagle reel it is {fault}"), said)
        self.assertEqual(self.trouble(2, "read", "--eagle", path, self.folder / "none"), f"{path}: {fault}")
        damaged = with_bytes(self.plain, 3714, b"\0\x07")
        self.refused(damaged, 5, 10_080, hint=(
            "; as a plain reel it is refused by 7: the sample count of a trace is 7, neither 0 nor the reel's 240 "
            "(place 3714: trace 1, field 115, samples)"))
        # Cut, it is none in either; nor is text.
        self.refused(self.sample[:-1], 5, 14_400, "trace 6 would take 2160 bytes with its trailer")
        self.assertNotIn("Eagle", self.trouble(2, "read", self.file("a.sgy", self.sample[:-1]), self.folder / "none"))
        self.refused(b"text\n" * 2000, 2, 3224)
        said = self.trouble(2, "read", "--eagle", self.file("a.record", self.record), self.folder / "none")
        self.assertTrue(said.startswith(f"{self.folder}/a.record: is a record, not a reel: refused by 2: "), said)
        self.assertTrue(said.endswith("(place 3224: binary header, field 3225, code)"), said)
        # In the stead of a record an Eagle reel is called a reel, whole or damaged.
        for reel in (self.sample, damaged, self.sample[:-1]):
            said = self.trouble(2, "write", self.file("a.sgy", reel), 1, self.folder / "none")
            self.assertIn("is a reel, not a record: refused by 12: ", said)
        said = self.trouble(3, "verify", "--eagle", self.file("a.sgy", self.sample), self.folder / "a.sgy", stdout=None)
        self.assertIn("it is a reel, not a record; keep the tape", said)

    def test_which_kind(self):
        """A file that begins as a record, is refused as one and taken as an Eagle reel alone is shown as that."""
        reel = with_bytes(self.sample, 0, bytes.fromhex("010c80"))
        self.assertIn("\nkind      Eagle reel, which `read --eagle` takes\n", self.fine("info", self.file("a.sgy", reel)))
        self.assertTrue(self.trouble(2, "check", stdin=reel, stdout=None).endswith(TAKES_EAGLE))
        run = self.run_command("info", self.file("a.sgy", reel[:-1]))
        self.assertIn(b"kind      record, refused", run.stdout)

    def test_damaged_reels(self):
        """Whatever was done to a file, number and place are the rules' in either layout, and `info` goes by whichever takes it."""
        rnd, seen = random.Random(2025), set()
        for _ in range(120):
            n, t = rnd.choice((1, 2, 20, 60)), rnd.randint(0, 3)
            eagles = [eagle.random_eagle(rnd, n, t), eagle.random_eagle(rnd, n, t + 1)]
            reel = bytearray(rnd.choice((*eagles, random_reel(rnd, 1, n, t), eagle.both_layouts(20, t + 1))))
            ends = [eagle.place_of_end(start, signed(reel, 3220, 2)) + i for start in eagle.trace_starts(reel) for i in (0, 1)]
            for _ in range(rnd.randint(0, 2)):
                place = rnd.choice((rnd.randrange(len(reel)), rnd.randrange(3200, len(reel)), rnd.randrange(3216, 3226), *ends))
                reel[place] = rnd.choice((0, 255, rnd.randrange(256)))
            reel = bytes(reel)[: len(reel) - rnd.choice((0, 0, 0, 0, 1, 960))] + bytes(rnd.choice((0, 0, 0, 0, 5)))
            path, said = self.file("reel", reel), {}
            for options, rules in (((), reels.read_reel), (("--eagle",), eagle.read_eagle)):
                said[options] = rules(reel, 10**9)[0]
                line = " ".join(map(str, said[options])) + "\n"
                if said[options][0] == "taken":
                    self.assertEqual(self.fine("check", *options, stdin=reel), line)
                    self.assertEqual(self.run_command("verify", path, *options).returncode, 0)
                else:
                    sentence = self.trouble(2, "check", *options, stdin=reel, stdout=line)
                    self.assertIn(f": refused by {said[options][1]}: ", sentence)
            (plain, number, *_), (other, other_number, *_) = said.values()
            seen.add((plain, other))
            run = self.run_command("info", path)
            self.assertEqual(run.returncode, 0 if "taken" in (plain, other) else 2)
            self.assertEqual(b"\nkind      Eagle reel, " in run.stdout, (plain, other) == ("refused", "taken"))
            self.assertEqual(b"\nalso      an Eagle reel, " in run.stdout, (plain, other) == ("taken", "taken") and len(reel) > 3600)
            faults = (plain, other) == ("refused", "refused") and number == 5 and other_number in (7, 8, 18, 20)
            self.assertEqual(b"; as an Eagle reel it is refused by" in run.stderr, faults)
            seen.add(faults)
        self.assertEqual(len(seen), 4 + 2)

    def test_the_option(self):
        """It stands anywhere behind the command's name, and for three commands; behind `--` it is a name."""
        path, record = self.file("a.sgy", self.sample), self.folder / "a.record"
        for words in (
            ("--eagle", path, record), (path, "--eagle", record, "--force"), (path, record, "--force", "--eagle"),
            ("--eagle", "--eagle", "--force", "--", path, record),
        ):
            self.assertIn(": an Eagle reel, 6 traces", self.fine("read", *words))
        for words in (("--eagle", path, record), (path, "--eagle", record), (path, record, "--eagle"), ("--eagle", "--", path, record)):
            self.assertIn(": an Eagle reel, 6 traces", self.fine("verify", *words))
        for words in (
            ("write", record, 1, "x"), ("look", path, 0, "code"), ("info", path), ("cards", record), ("cards", record, path, "x", "--utf8"),
        ):
            name = words[0]
            said = self.trouble(1, *words, "--eagle", cwd=self.folder)
            self.assertEqual(said, f"{name}: there is no option `--eagle`; see `aukpocket {name} --help`")
        for name in ("read", "verify", "check"):
            self.assertIn("there is no option `--eagles`", self.trouble(1, name, "--eagles", cwd=self.folder))
            self.assertIn("there is no option `--Eagle`", self.trouble(1, name, "--Eagle", cwd=self.folder))
        self.assertEqual(self.names(), ["a.record", "a.sgy"])
        self.fine("read", "--eagle", "--", "a.sgy", "--eagle", cwd=self.folder)
        self.assertEqual((self.folder / "--eagle").read_bytes(), self.record)
        self.trouble(1, "read", "a.sgy", "--", "--eagle", cwd=self.folder)  # it is there already

    def test_an_existing_file_is_kept(self):
        path, old = self.file("a.sgy", self.sample), self.file("old", b"old")
        self.assertIn("is there already and is kept; --force replaces it", self.trouble(1, "read", "--eagle", path, old))
        self.assertIn("is an input, which is never replaced", self.trouble(1, "read", "--eagle", "--force", path, path))
        self.assertIn("File too large", self.trouble(
            1, "read", "--eagle", "--force", path, old, preexec_fn=limited(resource.RLIMIT_FSIZE, 13028)))
        self.assertEqual((old.read_bytes(), path.read_bytes(), self.names()), (b"old", self.sample, ["a.sgy", "old"]))
        self.fine("read", "--eagle", "--force", path, old)
        self.assertEqual(old.read_bytes(), self.record)

    def test_where_it_is_explained(self):
        for command in ("read", "verify", "check"):
            said = self.fine(command, "--help")
            self.assertIn(" [--eagle]", said.splitlines()[0])
            self.assertIn("\n  --eagle   the reel is one of the Eagle recorder: each trace is followed by a trailer of 960 bytes", said)
        self.assertIn("a line that begins with `also`", self.fine("info", "--help"))
        for path, heading in (
            ("docs/aukpocket.1", "\n.SH EAGLE REELS\n"), ("README.md", "\n## Eagle reels\n"), ("docs/FORMAT.md", "\n## The Eagle reel\n"),
        ):
            self.assertIn(heading, (TOP / path).read_text(encoding="utf-8"), path)
        readme, header = ((TOP / path).read_text(encoding="utf-8") for path in ("README.md", "include/aukpocket.h"))
        causes = [list(map(int, re.findall(pattern, text, re.M))) for pattern, text in (
            (r"^\| (\d+) \| [^|]+ \| [^|]+ \|$", readme.split("| number | cause | beside it |")[1].split("\n\n")[0]),
            (r"^ \* {3,4}(\d+) {6}\S", header.split("number  cause")[1].split("For a single word")[0]))]
        self.assertEqual(causes, [list(range(1, 21))] * 2)


def long_reel(code, n, t):
    """A reel of traces whose neighbouring samples differ, and are others in each trace."""
    words = {
        1: lambda k: (NORMAL + NOT_NORMAL)[k % (len(NORMAL) + len(NOT_NORMAL))], 2: lambda k: whole32(k * 40_503 % 2**32 - 2**31),
        3: lambda k: whole16(k * 7919 % 2**16 - 2**15), 4: lambda k: gain(k % 16, k * 7919 % 2**16 - 2**15),
        5: lambda k: IEEE[k % len(IEEE)], 8: lambda k: bytes([k % 251]),
    }[code]
    return make_reel(2000, n, code, [make_trace([words(11 * i + k) for k in range(n)], {1: i, 41: 10 * i}) for i in range(1, t + 1)])


class Held:
    """The record of a reel: its bytes, put together here, and where the parts of each trace stand in it, by the trace's number from 1: its
    header, the tags of its samples' fields, and its pairs. These of the traces have the earlier form, a single field of samples."""

    def __init__(self, reel, earlier=()):
        n, code = signed(reel, 3220, 2), signed(reel, 3224, 2)
        size, parts, place = sample_size(code), [reels.record_of(reel[:3600])[:3266]], 3266
        self.n, self.header, self.tags, self.pairs = n, {}, {}, {}

        def put(tag, content):
            nonlocal place
            parts.append(reels.tagged(tag, content))
            place += len(parts[-1])
            return place - len(parts[-1])

        for i, start in enumerate(range(3600, len(reel), trace_size(code, n)), 1):
            numbers = reels.trace_numbers(reel, start)
            self.header[i] = put(0x03, b"".join(numbers[b].to_bytes(width, "big", signed=True) for b, width in reels.TRACE_FIELDS.items()))
            places = range(start + 240, start + 240 + n * size, size)
            pairs = [reels.pair_of_word(code, reel[at : at + size]) for at in places]
            share = n if i in earlier else 6000
            self.tags[i] = [put(0x04, b"".join(pairs[k : k + share])) for k in range(0, n, share)]
            self.pairs[i] = [tag + 3 + 6 * k for tag, first in zip(self.tags[i], range(0, n, share)) for k in range(min(share, n - first))]
        self.end = put(0x05, len(self.header).to_bytes(4, "big"))
        self.bytes = b"".join(parts)


# Every mixture of forms that three traces may have, by the traces with the earlier one.
MIXTURES = [tuple(i for i in (1, 2, 3) if bits >> i & 1) for bits in range(0, 16, 2)]


class LongTraces(Case):
    """Up to 32,767 samples a trace, in fields of 6,000; and records that have 6,001 to 8,000 in a single field, the earlier form."""

    def form(self, n, earlier, t):
        """The line of `info` that says how the samples of a record's traces stand."""
        if n <= 6000 or t == 0:
            return ""
        fields = f"{-(-n // 6000)} fields of samples a trace"
        if n > 8000:
            return f"form      {fields}\n"
        if len(earlier) in (0, t):
            return f"form      new: {fields}\n" if not earlier else "form      earlier: a single field of samples a trace\n"
        return f"form      mixed: {t - len(earlier)} of {t} traces new, {len(earlier)} earlier\n"

    def same(self, reel, record, n, t, words, earlier=(), *option):
        """`verify` says that a record is that of its reel, and in which form; what it prints is what sha256sum takes."""
        form, warned, length = "byte for byte", "", record.stat().st_size
        if earlier:
            form = "in the earlier form" if len(earlier) == t else f"{len(earlier)} of {t} traces in the earlier form"
            warned = (f"aukpocket: warning: {record}: it holds what the reel's record holds, {form}; `read` gives the new form, "
                      f"{length + 3 * len(earlier)} bytes\n")
        said = self.fine("verify", reel, record, *option, warned=warned)
        extent = f"{'an Eagle reel, ' if option else ''}{t} trace{'s' * (t != 1)} of {n} samples"
        self.assertEqual(said.splitlines()[0], (
            f"# {record} is the record, {form}, of {reel}: {extent}, {length} bytes{words and '; on the reel ' + words}"))
        run = subprocess.run(["sha256sum", "-c", "--strict"], input=said.encode(), capture_output=True, timeout=SECONDS)
        self.assertEqual((run.returncode, run.stdout.decode()), (0, f"{reel}: OK\n{record}: OK\n"))

    def test_there_and_back(self):
        """At and beside each count of fields, in every code: all that is said, and each byte of the record and of a written reel."""
        for code, n, t, fields in (
            (3, 5999, 1, 1), (8, 6000, 3, 1), (3, 6001, 3, 2), (1, 7000, 2, 2), (2, 8000, 1, 2), (4, 8001, 2, 2), (5, 12_000, 1, 2),
            (3, 12_001, 2, 3), (8, 30_000, 1, 5), (8, 30_001, 1, 6), (1, 32_767, 2, 6), (3, 32_767, 1, 6),
        ):
            reel = long_reel(code, n, t)
            held = Held(reel)
            length, s, count = 3273 + t * (183 + 3 * fields + 6 * n), "s" * (t != 1), count_of(reel)
            self.assertEqual((len(held.bytes), [len(tags) for tags in held.tags.values()]), (length, [fields] * t))
            self.assertEqual(held.bytes, reels.record_of(reel))
            path, record, again = self.file("a.sgy", reel), self.folder / "a.record", self.folder / "b.sgy"
            words = f"{count} of {t * n} words not normal ({share(count, t * n)})" if code == 1 else ""
            self.assertEqual(self.fine("read", path, record, "--force"), (
                f"{path}: {t} trace{s} of {n} samples{words and ', ' + words}; {record}: its record, {length} bytes\n"))
            self.assertEqual(record.read_bytes(), held.bytes)
            self.assertEqual(self.fine("check", stdin=reel), f"taken {t} {n} {length} {count}\n")
            self.assertIn(f"\nrecord    {length} bytes\n", self.fine("info", path))
            said = self.fine("info", record, "--cards", 0)
            self.assertTrue(said.startswith(
                f"file      {record}, {length} bytes\nkind      record\ntraces    {t}\nsamples   {n} a trace\n{self.form(n, (), t)}interval  2000 "
                "microseconds\ncode      none: "), said)
            self.assertIn(f"\ncode {code}    holds it, as a reel of {len(reel)} bytes\n", said)
            self.same(path, record, n, t, words)
            said = self.fine("verify", path)
            self.assertIn(f"; its record, {length} bytes\n", said)
            self.assertIn(f"\ncode {code}: holds it; written ({len(reel)} bytes) and read again, the record is the same", said)
            self.assertEqual(self.fine("look", path, t, 115), f"{n}\n")
            for nearest in ((), ("--nearest",)):
                said = self.fine("write", record, code, again, "--force", *nearest)
                self.assertTrue(said.startswith(f"{record}: {t} trace{s} of {n} samples; {again}: its reel in code {code}"), said)
                self.assertEqual(again.read_bytes(), records.reel_of(held.bytes, code))
            self.fine("verify", again, record)
            if code == 1:
                trailers = self.file("e.sgy", eagle.with_trailers(reel, [eagle.trailer()] * t))
                self.fine("read", "--eagle", trailers, record, "--force")
                self.assertEqual(record.read_bytes(), held.bytes)
                self.same(trailers, record, n, t, words, (), "--eagle")
                self.assertEqual(self.fine("check", "--eagle", stdin=trailers.read_bytes()), f"taken {t} {n} {length} {count}\n")

    def test_the_limit(self):
        """N from 1 to 32,767, on a reel of either layout and in a record; without traces there are no fields and no form."""
        for n in (1, 6000, 6001, 8000, 8001, 32_767):
            reel = make_reel(2000, n, 1)
            self.assertEqual(self.fine("check", stdin=reel), f"taken 0 {n} 3273 0\n")
            self.assertEqual(self.fine("check", "--eagle", stdin=reel), f"taken 0 {n} 3273 0\n")
            record = self.file("a.record", reels.record_of(reel))
            self.assertNotIn("form", self.fine("info", record))
            self.fine("write", record, 1, self.folder / "b.sgy", "--force")
        for n in (0, -1, -32_768, -32_767):
            other = (n % 65_536).to_bytes(2, "big")
            for option in ((), ("--eagle",)):
                said = self.trouble(2, "check", *option, stdin=with_bytes(reel, 3220, other), stdout="refused 3 3220\n")
                self.assertIn(f"refused by 3: the samples a trace are {n}, not 1 to 32767 (place 3220: binary header, field 3221, samples)", said)
            bad = self.file("bad.record", with_bytes(record.read_bytes(), place_of_binary(3221), other))
            self.assertEqual(self.trouble(2, "cards", bad), (
                f"{bad}: refused by 13: the samples a trace are {n}, not 1 to 32767 (place 3226: binary header, field 3221, samples)"))

    def test_earlier_records(self):
        """In every mixture of forms: the same reel, exactly and by nearest values, the same cards, and a corrected record of the same form."""
        for n, mixtures in ((6001, MIXTURES), (7000, [(1, 2, 3), (2,)]), (8000, [(1, 2, 3), (1,), (3,), (1, 3)])):
            reel = long_reel(4, n, 3)
            new = Held(reel)
            path, kept = self.file("a.sgy", reel), self.file("new.record", new.bytes)
            written, other, again = (self.folder / name for name in ("b.sgy", "c.sgy", "again.record"))
            reels_of_new = {}
            for code, nearest in ((1, ()), (4, ()), (3, ("--nearest",)), (8, ("--nearest",))):
                run = self.run_command("write", kept, code, written, "--force", *nearest)
                self.assertEqual(run.returncode, 0)
                reels_of_new[code, nearest] = written.read_bytes(), run.stdout.decode(), run.stderr.decode()
            self.assertEqual(reels_of_new[4, ()][0], records.reel_of(new.bytes, 4))
            listing = self.fine("cards", kept, "--utf8")
            for earlier in mixtures:
                held = Held(reel, earlier)
                self.assertEqual(len(held.bytes), len(new.bytes) - 3 * len(earlier))
                record = self.file("a.record", held.bytes)
                said = self.fine("info", record, "--cards", 0)
                self.assertTrue(said.startswith(
                    f"file      {record}, {len(held.bytes)} bytes\nkind      record\ntraces    3\nsamples   {n} a trace\n{self.form(n, earlier, 3)}"
                    "interval  2000 microseconds\ncode      none: "), said)
                self.assertIn(f"\ncode 4    holds it, as a reel of {len(reel)} bytes\n", said)
                for (code, nearest), (content, text, warned) in reels_of_new.items():
                    text, warned = (part.replace(str(kept), str(record)).replace(str(written), str(other)) for part in (text, warned))
                    self.assertEqual(self.fine("write", record, code, other, "--force", *nearest, warned=warned), text)
                    self.assertEqual(other.read_bytes(), content)
                other.write_bytes(reels_of_new[4, ()][0])
                self.assertEqual(self.fine("read", other, again, "--force"), (
                    f"{other}: 3 traces of {n} samples; {again}: its record, {len(new.bytes)} bytes\n"))
                self.assertEqual(again.read_bytes(), new.bytes)
                self.assertEqual(self.fine("cards", record, "--utf8"), listing)
                corrected = self.file("a.txt", listing.replace(" " * 80, "C 1 CORRECTED".ljust(80), 1).encode())
                said = self.fine("cards", record, corrected, again, "--utf8", "--force")
                self.assertEqual(said, (
                    f"{record}: 3 traces of {n} samples; {again}: the record with the cards of {corrected}, {len(held.bytes)} bytes; "
                    "card 1 differs\n"))
                self.assertEqual(again.read_bytes(), with_lines(held.bytes, ["C 1 CORRECTED", *[""] * 39]))
                self.same(path, record, n, 3, "", earlier)

    def test_verify_reads_it_once(self):
        """The form is told as the file is read, from a pipe too."""
        reel = long_reel(3, 6001, 2)
        path = self.file("a.sgy", reel)
        for earlier, form in (((), "byte for byte"), ((1, 2), "in the earlier form"), ((2,), "1 of 2 traces in the earlier form")):
            run = self.run_command("verify", path, "/dev/stdin", stdin=Held(reel, earlier).bytes)
            self.assertEqual(run.returncode, 0)
            self.assertTrue(run.stdout.decode().startswith(f"# /dev/stdin is the record, {form}, of {path}: "), run.stdout)
        run = self.run_command("verify", path, "/dev/stdin", stdin=Held(reel, (1, 2)).bytes[:-1])
        self.assertEqual(run.returncode, 3)

    def different(self, path, new, record, *parts):
        """`verify` finds a difference and names it."""
        t, kept = len(new.header), self.file("a.record", record)
        s = "s" * (t != 1)
        said = self.trouble(3, "verify", path, kept, stdout=(
            f"# {kept} is NOT the record of {path}: {t} trace{s} of {new.n} samples, {len(new.bytes)} bytes\n"
            + "".join(f"{hashlib.sha256(file.read_bytes()).hexdigest()}  {file}\n" for file in (path, kept))))
        self.assertTrue(said.startswith(f"{kept}: isn't the record of {path}: ") and said.endswith("; keep the tape"), said)
        for part in parts:
            self.assertIn(part, said)

    def test_differences(self):
        """A flipped bit in a record of any mixture of forms is named by its trace and sample, at its place in the file."""
        n = 6100
        reel = long_reel(3, n, 3)
        path, new = self.file("a.sgy", reel), Held(reel)
        for earlier in ((), (1,), (2, 3), (1, 2, 3)):
            held = Held(reel, earlier)
            form = {0: "", 3: ", in the earlier form"}.get(len(earlier), f", {len(earlier)} of 3 traces in the earlier form")
            differ = f"; 1 of {len(held.bytes)} bytes differ{form}); keep"

            def flipped(place, name, bit=0x10):
                self.different(path, new, with_bytes(held.bytes, place, bytes([held.bytes[place] ^ bit])), f"record of {path}: {name}", (
                    f"(place {place}{differ}"))

            flipped(3 + 81, "card 2, column 2 is 40 by")
            flipped(place_of_binary(3221), f"binary header, field 3221, samples is {n} by")
            for i in (1, 2, 3):
                flipped(held.header[i], f"the tag and length of trace {i}'s header is tag 03, length 180 by")
                flipped(held.header[i] + 3 + 3, f"trace {i}, field 1, line-trace is {i} by")
                flipped(held.header[i] + 3 + 43, f"trace {i}, field 41, group-elevation is {100_000 * i} under scalar -10000 by")
                flipped(held.header[i] + 3 + 180 - 1, f"trace {i}, field 179, overtravel is 0 by")
                for k in (1, 2, 5999, 6000, 6001, 6002, n):
                    for byte in (0, 5):
                        flipped(held.pairs[i][k - 1] + byte, f"trace {i}, sample {k} is ", 0x01)
                names = [("samples", 6 * n)] if i in earlier else [("samples 1 to 6000", 36_000), (f"samples 6001 to {n}", 6 * n - 36_000)]
                for tag, (name, length) in zip(held.tags[i], names):
                    flipped(tag, f"the tag and length of trace {i}'s {name} is tag 04, length {length} by")
                # A bit of a length: the first field then has neither form's, and is taken to be one of the new form.
                if i not in earlier:
                    flipped(held.tags[i][0] + 1, f"the tag and length of trace {i}'s samples 1 to 6000 is tag 04, length 36000 by")
                    flipped(held.tags[i][1] + 2, f"the tag and length of trace {i}'s samples 6001 to {n} is tag 04, length {6 * n - 36_000} by")
            flipped(held.end, "the tag and length of the count of traces is tag 05, length 4 by")
            flipped(held.end + 6, "the count of traces is 3 by")
            self.different(path, new, held.bytes + b"xy", f"2 bytes follow the record's end (place {len(held.bytes)}{form}); keep")
            end = len(held.bytes) - 1
            self.different(path, new, held.bytes[:-1], (
                f"it has {end} bytes of {end + 1}, and the count of traces is missing or cut short (place {end}{form})"))
            for i, k in ((3, 6000), (3, 6001), (3, n)):
                place = held.pairs[i][k - 1] + 2
                self.different(path, new, held.bytes[:place], (
                    f"it has {place} bytes of {len(held.bytes)}, and trace {i}, sample {k} is missing or cut short (place {place}{form})"))
        # A trace without its last field, and one field twice.
        first, second = new.tags[2]
        by_the_reel = f"the tag and length of trace 2's samples 6001 to {n} is tag 04, length 600 by the reel's record and"
        self.different(path, new, new.bytes[:second] + new.bytes[new.header[3] :], f"{by_the_reel} tag 03, length 180 in the file (place {second}; ")
        self.different(path, new, new.bytes[:second] + new.bytes[first:], f"{by_the_reel} tag 04, length 36000 in the file (place {second + 1}; ")

    def refused(self, record, number, place, *parts, code=1):
        """A record that every command refuses, in one sentence; and the rules of tools/vectors too."""
        path, listing, none = self.file("bad.record", record), self.file("a.txt", b"\n" * 40), self.folder / "none"
        names = self.names()
        said = self.trouble(2, "write", path, code, none)
        if number in (12, 13):
            self.assertEqual(records.write_reel(record, code, 0), ("refused", number, place))
            for words in (("write", path, 3, none, "--nearest"), ("cards", path), ("cards", path, listing, none, "--utf8"), ("info", path)):
                self.assertEqual(self.trouble(2, *words, stdout=None), said)
            run = self.run_command("info", path)
            self.assertIn(b"\nkind      record, refused; its headers as they stand:\n", run.stdout)
            self.assertNotIn(b"\nform ", run.stdout)
        self.assertEqual(self.names(), names)
        self.assertTrue(said.startswith(f"{path}: refused by {number}: "), said)
        self.assertIn(f"(place {place}", said)
        for part in parts:
            self.assertIn(part, said)

    def test_12(self):
        """Tags and lengths of fields in each form, behind traces of either; what is missing, cut short or too much."""
        n = 6100
        reel = long_reel(3, n, 3)
        for earlier in ((), (1,), (2,), (1, 2, 3)):
            held = Held(reel, earlier)
            good, none = held.bytes, "tag 00 stands where a field should begin"
            for i in (1, 2, 3):
                first, *rest = held.tags[i]
                name = f"the samples of trace {i}" if i in earlier else f"samples 1 to 6000 of trace {i}"
                self.refused(with_bytes(good, first, b"\0"), 12, first, f"{none} (place {first}: tag 04, {name})")
                self.refused(good[: first + 2], 12, first, f"the record ends within a field (place {first}: tag 04, samples 1 to 6000 of trace {i})")
                self.refused(good[: first + 40], 12, first, f"the record ends within a field (place {first}: tag 04, {name})")
                for length in (0, 6, 600, 35_994, 36_006, 36_594, 36_606, 48_000, 65_535):
                    self.refused(with_bytes(good, first + 1, length.to_bytes(2, "big")), 12, first, (
                        f"a field's length is {length}, not 36000, nor 36600 as in the earlier form (place {first}: tag 04, samples 1 to 6000 of "
                        f"trace {i})"))
                for second in rest:
                    name = f"samples 6001 to {n} of trace {i}"
                    self.refused(with_bytes(good, second, b"\0"), 12, second, f"{none} (place {second}: tag 04, {name})")
                    for length in (0, 594, 606, 36_000, 36_600):
                        self.refused(with_bytes(good, second + 1, length.to_bytes(2, "big")), 12, second, (
                            f"a field's length is {length}, not 600 (place {second}: tag 04, {name})"))
                    self.refused(good[:second], 12, second, f"the record ends where a field should begin (place {second}: tag 04, {name})")
                    for cut in (second + 1, second + 3, second + 602):
                        self.refused(good[:cut], 12, second, f"the record ends within a field (place {second}: tag 04, {name})")
                    self.refused(good[:second] + good[second + 603 :], 12, second, (
                        f"tag 0{5 if i == 3 else 3} stands where a field should begin (place {second}: tag 04, {name})"))
                # The other form's length alone: a second field is missing then, or its tag and length are taken for a pair.
                behind = first + 36_003
                if i in earlier:
                    self.refused(with_bytes(good, first + 1, b"\x8c\xa0"), 12, behind, (
                        f" stands where a field should begin (place {behind}: tag 04, samples 6001 to {n} of trace {i})"))
                else:
                    self.refused(with_bytes(good, first + 1, b"\x8e\xf8"), 13, behind, f"isn't canonical (place {behind}: trace {i}, sample 6001)")
                header = held.header[i]
                wanted = f"where tag 03 of trace {i} or tag 05 should stand (place {header})"
                self.refused(with_bytes(good, header, b"\x06"), 12, header, f"tag 06 stands {wanted}")
                self.refused(good[:header], 12, header, f"the record ends {wanted}")
                self.refused(with_bytes(good, header + 2, b"\xb3"), 12, header, (
                    f"a field's length is 179, not 180 (place {header}: tag 03, the header of trace {i})"))
            # What is left of a record that was cut has as many traces as are whole.
            for place, t in ((len(good) - 1, 3), (held.end, 3), (held.end - 1, 2), (held.header[3], 2), (held.header[2] - 1, 0)):
                run = self.run_command("info", self.file("cut.record", good[:place]))
                self.assertIn(f"\ntraces    {t}\nsamples   {n} a trace\ninterval ", run.stdout.decode())
            end = held.end
            self.refused(with_bytes(good, end + 6, b"\2"), 12, end, f"the count of traces is 2, and 3 stand before it (place {end}: tag 05)")
            self.refused(good + b"xyz", 12, end + 7, f"3 bytes follow the record's end (place {end + 7})")
            self.refused(good[:-1], 12, end, f"the record ends within a field (place {end}: tag 05, the count of traces)")

    def test_no_other_form(self):
        """A single field has 6,001 to 8,000 samples, each field of the new form but the last 6,000, and none is empty."""
        def of(n, *counts):
            """A record of one trace of so many samples in fields of these counts."""
            one = make_record(2000, n)
            header = make_record(2000, n, [[]])[3266:3449]
            fields = b"".join(reels.tagged(0x04, pair_bytes(0, 1) * count) for count in counts)
            return one[:3266] + header + fields + bytes.fromhex("050004 00000001")

        for n, *counts in ((6000, 6000), (6001, 6000, 1), (6001, 6001), (8000, 6000, 2000), (8000, 8000), (8001, 6000, 2001), (10_922, 6000, 4922),
                           (12_000, 6000, 6000), (18_001, 6000, 6000, 6000, 1)):
            self.fine("cards", self.file("a.record", of(n, *counts)), "--utf8")
        for n, wrong, length, *counts in (
            (8001, 1, 36_000, 8001), (8200, 1, 36_000, 8200), (10_922, 1, 36_000, 10_922), (6000, 1, 36_000, 5999, 1), (6000, 1, 36_000, 3000, 3000),
            (12_000, 1, 36_000, 8000, 4000), (12_000, 1, 36_000, 10_922, 1078), (12_001, 2, 36_000, 6000, 6001), (12_001, 3, 6, 6000, 6000),
            (12_001, 2, 36_000, 6000, 1, 6000), (18_000, 3, 36_000, 6000, 6000, 5999, 1), (8001, 2, 12_006, 6000, 2000, 1),
            (32_767, 6, 16_602, 6000, 6000, 6000, 6000, 6000, 2766, 1), (32_767, 6, 16_602, 6000, 6000, 6000, 6000, 6000),
        ):
            place = 3449 + sum(3 + 6 * count for count in counts[: wrong - 1])
            record = of(n, *counts)
            found = int.from_bytes(record[place + 1 : place + 3], "big")
            # What should be the last field of samples and isn't there is tag 05.
            part = f"a field's length is {found}, not {length} (place " if record[place] == 4 else "tag 05 stands where a field should begin (place "
            self.refused(record, 12, place, part)
        for n, *counts in ((6001, 1, 6000), (7000, 3500, 3500), (8000, 2000, 6000)):
            self.refused(of(n, *counts), 12, 3449, f"a field's length is {6 * counts[0]}, not 36000, nor {6 * n} as in the earlier form")
        # Behind the last field there is no more of the trace.
        for n, *counts in ((6000, 6000, 1), (6001, 6000, 1, 1), (7000, 7000, 1000), (12_000, 6000, 6000, 6000)):
            place = 3449 + sum(3 + 6 * count for count in counts[:-1])
            self.refused(of(n, *counts), 12, place, f"tag 04 stands where tag 03 of trace 2 or tag 05 should stand (place {place})")

    def test_13_and_14(self):
        """A number that no record has, and a sample that doesn't fit, in any field of either form; 13 in one before 12 in the next."""
        n, bad, half = 6100, pair_bytes(1, 6), pair_bytes(-1, 1)
        reel = long_reel(3, n, 3)
        for earlier in ((), (1,), (2, 3), (1, 2, 3)):
            held = Held(reel, earlier)
            good = held.bytes
            for i in (1, 2, 3):
                for k in (1, 5999, 6000, 6001, 6002, n):
                    place = held.pairs[i][k - 1]
                    damaged = with_bytes(good, place, bad)
                    at = f"(place {place}: trace {i}, sample {k})"
                    self.refused(damaged, 13, place, f"a pair, 6 * 2^1, isn't canonical {at}")
                    self.refused(with_bytes(good, place, half), 14, place, f"a sample, 1 * 2^-1, doesn't fit code 3 {at}; --nearest", code=3)
                for byte_number, other, part in (
                    (69, b"\0\1", "the scalar of elevations and depths is 1, where a record has these values under -10"),
                    (71, b"\0\7", "the scalar of coordinates is 7, which isn't allowed"), (115, b"\0\7", f"is 7, not the reel's {n}"),
                    (117, b"\0\7", "is 7, not the reel's 2000"),
                ):
                    place = held.header[i] + 3 + byte_number - 1
                    self.refused(with_bytes(good, place, other), 13, place, part, f"(place {place}: trace {i}, field {byte_number}, ")
            # In one field 12 comes first; a field before it comes before both.
            for i in (1, 2, 3):
                first, *rest = held.tags[i]
                damaged = with_bytes(with_bytes(good, held.pairs[i][5999], bad), held.pairs[i][6000], bad)
                for second in rest:
                    self.refused(with_bytes(damaged, second, b"\0"), 13, held.pairs[i][5999], f"trace {i}, sample 6000)")
                    self.refused(with_bytes(with_bytes(good, held.pairs[i][6000], bad), second, b"\0"), 12, second)
                self.refused(with_bytes(damaged, first, b"\0"), 12, first)
                self.refused(with_bytes(with_bytes(damaged, held.end + 6, b"\0"), held.pairs[i][0], half), 13, held.pairs[i][5999], code=3)
            # 14 comes behind all of these.
            unfit = with_bytes(good, held.pairs[1][0], half)
            self.refused(with_bytes(unfit, held.tags[3][-1], b"\0"), 12, held.tags[3][-1], code=3)
            self.refused(with_bytes(unfit, held.pairs[3][n - 1], bad), 13, held.pairs[3][n - 1], f"trace 3, sample {n})", code=3)
            self.refused(good + b"x", 12, len(good), code=3)

    def test_many_fields(self):
        """Of six fields a trace, each has its place."""
        n, bad = 32_767, pair_bytes(1, 6)
        reel = long_reel(8, n, 2)
        path, held = self.file("a.sgy", reel), Held(reel)
        for i in (1, 2):
            for j, tag in enumerate(held.tags[i]):
                name, length = f"samples {6000 * j + 1} to {min(6000 * j + 6000, n)}", 36_000 if j < 5 else 16_602
                at = f"(place {tag}: tag 04, {name} of trace {i})"
                self.refused(with_bytes(held.bytes, tag, b"\5"), 12, tag, f"tag 05 stands where a field should begin {at}")
                self.refused(with_bytes(held.bytes, tag + 1, b"\0\6"), 12, tag, f"a field's length is 6, not {length} {at}")
                self.different(path, held, with_bytes(held.bytes, tag + 2, b"\1"), (
                    f"the tag and length of trace {i}'s {name} is tag 04, length {length} by"))
                for k in (6000 * j + 1, min(6000 * j + 6000, n)):
                    place = held.pairs[i][k - 1]
                    self.refused(with_bytes(held.bytes, place, bad), 13, place, f"(place {place}: trace {i}, sample {k})")
                    flipped = with_bytes(held.bytes, place + 5, bytes([held.bytes[place + 5] ^ 2]))
                    self.different(path, held, flipped, f"trace {i}, sample {k} is ", f"(place {place + 5}; 1 of {len(held.bytes)} bytes differ); ")

    def test_damaged(self):
        """Whatever was done to a record of any forms, number and place are the rules', and so are the trace and the sample that are named."""
        rnd, seen = random.Random(8000), set()
        for _ in range(60):
            n, t = rnd.choice((6001, 6002, 6500, 8000, 8001, 12_001)), rnd.randint(1, 3)
            earlier = [i for i in range(1, t + 1) if n <= 8000 and rnd.random() < 0.5]
            held = Held(long_reel(8, n, t), earlier)
            damaged = held.bytes
            places = [*held.header.values(), held.end, *(tag + rnd.randrange(3) for tags in held.tags.values() for tag in tags),
                      *(pairs[k] + rnd.randrange(6) for pairs in held.pairs.values() for k in (0, 5999, 6000, n - 1, rnd.randrange(n)))]
            for _ in range(rnd.randint(1, 2)):
                place = rnd.choice(places)
                damaged = with_bytes(damaged, place, bytes([rnd.choice((0, 3, 4, 5, damaged[place] ^ 1, rnd.randrange(256)))]))
            damaged = damaged[: rnd.choice((len(damaged), len(damaged), rnd.randrange(3266, len(damaged))))]
            path, cause = self.file("a.record", damaged), records.first_cause(damaged)
            seen.add(cause and cause[1])
            if cause is None:
                self.fine("cards", path, "--utf8")
                continue
            said = self.trouble(2, "cards", path)
            self.assertIn(f": refused by {cause[1]}: ", said)
            self.assertIn(f"place {cause[2]}", said)
            named = re.search(r"trace (\d+), sample (\d+)\)$", said)
            self.assertEqual(named is not None, any(cause[2] in pairs for pairs in held.pairs.values()) and cause[1] == 13, said)
            if named:
                i, k = map(int, named.groups())
                self.assertEqual(held.pairs[i][k - 1], cause[2])
        self.assertEqual(seen, {None, 12, 13})

    def test_where_it_is_explained(self):
        for command in ("write", "info", "verify"):
            self.assertIn("In a record the samples of a trace stand in fields of 6000", self.fine(command, "--help"))
        texts = {path: (TOP / path).read_text(encoding="utf-8") for path in (
            "README.md", "docs/aukpocket.1", "docs/FORMAT.md", "include/aukpocket.h", "examples/README.md")}
        for path, part in (
            ("README.md", "\n## Long traces\n"), ("docs/aukpocket.1", "\n.SH LONG TRACES\n"), ("docs/FORMAT.md", "*The earlier form*"),
            ("README.md", "| 3 | the count of samples N is not 1 to 32,767 |"), ("include/aukpocket.h", "the count of samples N is not 1 to 32,767 "),
            ("docs/FORMAT.md", "an N other than 1 to 32,767 "), ("docs/aukpocket.1", "A reel has 1 to 32,767 samples a trace."),
            ("README.md", "in code 1: 1 to 32,767 samples a trace, at most 100,000 traces."),
        ):
            self.assertIn(part, texts[path], path)
        for path in ("docs/FORMAT.md", "examples/README.md"):
            self.assertIn("3273 + T × (183 + 3F + 6N)", texts[path], path)
        self.assertIn("3273 + T * (183 + 3 * F + 6 * N)", texts["include/aukpocket.h"])
        for path, text in texts.items():
            self.assertNotIn("T × (186", text, path)
        most = "{:,}".format(3273 + 100_000 * (183 + 3 * 6 + 6 * 32_767))
        self.assertIn(f"up to {most} bytes in all", texts["README.md"])
        self.assertIn(f"The longest has {most} bytes", texts["docs/FORMAT.md"])
        plain, other = (3600 + 100_000 * (header + 4 * 32_767) for header in (240, 1200))
        self.assertIn(f"a plain reel has up to {plain:,}, an Eagle reel {other - plain:,} more", texts["README.md"])


# The fields of both headers, by their byte numbers: the names that `look --help` gives them.
FIELD_NAMES = {}


CARD_NAMES = [f"card {i // 80 + 1}, column {i % 80 + 1}" for i in range(3200)]


@lru_cache
def card_shown(byte):
    character = bytes([byte]).decode("cp037")
    character = "." if is_control(ord(character)) else character.strip()
    return f"{byte:02X}" + (f", `{character}`," if character else "")


@lru_cache(maxsize=1 << 16)
def value_of(pair):
    """The exact value of a pair, and its exponent and mantissa."""
    e, m = signed(pair, 0, 2), signed(pair, 2, 4)
    return m * Fraction(2) ** e, (e, m)


def parts_of(record):
    """What a valid record holds, in the order in which records are compared: of each part its name, its place, what it counts as, and how it
    is shown; of a sample its exponent and mantissa."""
    for i, byte in enumerate(record[3:3203]):
        yield CARD_NAMES[i], 3 + i, byte, card_shown(byte)

    def numbers(fields, first, place, of):
        for byte_number, width in fields.items():
            value, at = signed(record, place + byte_number - first, width), place + byte_number - first
            scalar = next((field for field, group in GROUPS.items() if byte_number in group), None)
            under = f" under scalar {signed(record, place + scalar - first, 2)}" if scalar else ""
            yield f"{of}, field {byte_number}, {FIELD_NAMES[byte_number]}", at, value, f"{value}{under}"

    yield from numbers(reels.BINARY_FIELDS, 3201, 3206, "binary header")
    n, place, trace = signed(record, 3226, 2), 3266, 0
    while record[place] == 0x03:
        trace += 1
        yield from numbers(reels.TRACE_FIELDS, 1, place + 3, f"trace {trace}")
        place, sample = place + 183, 0
        while sample < n:
            end = place + 3 + int.from_bytes(record[place + 1 : place + 3], "big")
            for place in range(place + 3, end, 6):
                sample += 1
                yield f"trace {trace}, sample {sample}", place, *value_of(record[place : place + 6])
            place = end


def traces_of(record):
    """How many traces a valid record has, by its last field."""
    return int.from_bytes(record[-4:], "big")


def order_of(one, other):
    """How a record stands to another, -1, 0 or 1, and why, as the command says it."""
    for a, b in zip(parts_of(one), parts_of(other)):
        if a[2] == b[2]:
            continue
        (name, place, value, shown), (_, other_place, other_value, other_shown) = a, b
        if "sample" in name and isinstance(shown, tuple):
            decimals = became(value, other_value).split(" became ")
            shown, other_shown = (f"{m} * 2^{e} ({decimal})" for (e, m), decimal in zip((shown, other_shown), decimals))
        places = f"place {place}" if place == other_place else f"places {place} and {other_place}"
        return (-1 if value < other_value else 1), f"{name} is {shown} in the first record and {other_shown} in the second ({places})"
    less, more = sorted((traces_of(one), traces_of(other)))
    if less < more:
        which, rest, order = ("first", "second", -1) if traces_of(one) == less else ("second", "first", 1)
        return order, (f"the traces of the {which} record end first: it has {less} trace{'s' * (less != 1)} and the {rest} has {more}, and all "
                       "before agrees")
    n = signed(one, 3226, 2)
    held = f"they hold the same, {less} trace{'s' * (less != 1)} of {n} sample{'s' * (n != 1)}"
    if one == other:
        return 0, f"{held}, byte for byte"
    # What differs first is the length of a trace's first field of samples, which tells its form.
    at = next(i for i, (a, b) in enumerate(zip(one, other)) if a != b)
    forms = {(6 * n).to_bytes(2, "big"): "the earlier", b"\x8c\xa0": "the new"}
    place = next(place for place in (at, at - 1) if one[place - 1] == 4 and {one[place : place + 2], other[place : place + 2]} == set(forms))
    form, other_form = (forms[record[place : place + 2]] for record in (one, other))
    trace = next(i for i in range(1, less + 1) if abs(place - 1 - place_of_samples(i, n)) <= 3 * i)
    return 0, (f"{held}, in different forms: trace {trace} is in {form} form in the first record and in {other_form} in the second ({len(one)} "
               f"and {len(other)} bytes)")


def holding(n, traces, **named):
    """A record of traces, each its pairs and numbers of its header by their byte numbers."""
    return make_record(2000, n, [pairs for pairs, _ in traces], trace_fields={i: fields for i, (_, fields) in enumerate(traces, 1)}, **named)


STANDS = {-1: "lesser than", 0: "equal to", 1: "greater than"}
STATUS = {-1: 4, 0: 0, 1: 5}


class Ordered(Case):
    """What comparing two records says, by document 02's words, worked out above."""

    def setUp(self):
        super().setUp()
        if not FIELD_NAMES:
            FIELD_NAMES.update((int(number), name) for number, name in re.findall(r"^ +(\d+)  (\S+)", self.fine("look", "--help"), re.M))
        self.record = reels.record_of(SAMPLE.read_bytes())

    def compared(self, one, other, order=None):
        """Compares two records, either first, and holds each word and the exit status to the rules. The order that is expected, where it is
        given, is theirs too."""
        self.assertEqual((records.first_cause(one), records.first_cause(other)), (None, None))
        paths = self.file("one", one), self.file("other", other)
        for first, second in (paths, paths[::-1]):
            stands, why = order_of(first.read_bytes(), second.read_bytes())
            run = self.run_command("compare", first, second)
            self.assertEqual((run.returncode, run.stderr, run.stdout.decode()), (
                STATUS[stands], b"", f"{first} is {STANDS[stands]} {second}: {why}\n"))
            if order is not None:
                self.assertEqual(stands, order)
                order = -order
        return order_of(one, other)


class Compare(Ordered):
    """Two records beside each other."""

    def test_the_sample(self):
        """In words that were written by hand."""
        n = 240
        path = self.file("a.record", self.record)
        self.assertEqual(self.fine("compare", path, path), (
            f"{path} is equal to {path}: they hold the same, 6 traces of 240 samples, byte for byte\n"))
        for place, content, status, stands, why in (
            (place_of_card(85), b"\x41", 5, "greater", "card 2, column 6 is C9, `I`, in the first record and 41 in the second (place 88)"),
            (place_of_card(3199), b"\xff", 4, "lesser", "card 40, column 80 is 40 in the first record and FF, `.`, in the second (place 3202)"),
            (place_of_binary(3205), b"\xff\xff\xff\xf4", 5, "greater",
             "binary header, field 3205, line is 12 in the first record and -12 in the second (place 3210)"),
            (place_of_binary(3259), b"\x80\x00", 5, "greater",
             "binary header, field 3259, vibrator is 0 in the first record and -32768 in the second (place 3264)"),
            (place_of_field(1, n, 37), b"\xff\xff\xff\xcd", 5, "greater",
             "trace 1, field 37, offset is -50 in the first record and -51 in the second (place 3305)"),
            (place_of_field(6, n, 103), b"\x00\x07", 4, "lesser",
             f"trace 6, field 103, static is 0 in the first record and 7 in the second (place {place_of_field(6, n, 103)})"),
            (place_of_field(3, n, 41), (1_238_001).to_bytes(4, "big"), 4, "lesser",
             "trace 3, field 41, group-elevation is 1238000 under scalar -10000 in the first record and 1238001 under scalar -10000 in the "
             f"second (place {place_of_field(3, n, 41)})"),
            (place_of_pair(1, n, 90), b"\xff\xfc", 4, "lesser",
             "trace 1, sample 90 is -431 * 2^-3 (-53.875) in the first record and -431 * 2^-4 (-26.9375) in the second (place 3986)"),
            (place_of_pair(6, n, 240), b"\x00\x00\xff\xff\xff\xff", 5, "greater",
             f"trace 6, sample 240 is 0 * 2^0 (0) in the first record and -1 * 2^0 (-1) in the second (place {place_of_pair(6, n, 240)})"),
        ):
            other = self.file("b.record", with_bytes(self.record, place, content))
            run = self.run_command("compare", path, other)
            self.assertEqual((run.returncode, run.stderr, run.stdout.decode()), (status, b"", f"{path} is {stands} than {other}: {why}\n"))
            run = self.run_command("compare", other, path)
            self.assertEqual((run.returncode, run.stderr), (9 - status, b""))
            self.assertTrue(run.stdout.decode().startswith(f"{other} is {'lesser' if status == 5 else 'greater'} than {path}: "), run.stdout)
        fewer = self.file("b.record", self.record[: place_of_trace(6, n)] + b"\x05\x00\x04\x00\x00\x00\x05")
        end = "end first: it has 5 traces and the {} has 6, and all before agrees\n"
        run = self.run_command("compare", fewer, path)
        self.assertEqual((run.returncode, run.stdout.decode()), (
            4, f"{fewer} is lesser than {path}: the traces of the first record {end.format('second')}"))
        run = self.run_command("compare", path, fewer)
        self.assertEqual((run.returncode, run.stdout.decode()), (
            5, f"{path} is greater than {fewer}: the traces of the second record {end.format('first')}"))

    def test_every_part(self):
        """A byte of each card and of each header number, and some of the samples: each is found, and told by its own kind of number."""
        rnd = random.Random(9)
        n, groups = 240, {number for group in GROUPS.values() for number in group}
        places = [(place_of_card(80 * card + rnd.randrange(80)), 0x80) for card in range(40)]
        for number, width in reels.BINARY_FIELDS.items():
            if number not in (3217, 3221, 3225):
                places.append((place_of_binary(number) + rnd.choice((0, width - 1)), 0x80))
        for number, width in reels.TRACE_FIELDS.items():
            place = place_of_field(rnd.randint(1, 6), n, number)
            # Elevations and coordinates change by little, so that their scalars stay right; the scalars have a test of their own.
            if number in groups:
                places.append((place + 3, 0x02))
            elif number not in (69, 71, 115, 117):
                places.append((place + rnd.choice((0, width - 1)), 0x80))
        for _ in range(20):
            place = place_of_pair(rnd.randint(1, 6), n, rnd.randint(1, n))
            if self.record[place : place + 6] != bytes(6):
                places.append((place + 5, 0x02))
        for place, bits in places:
            other = with_bytes(self.record, place, bytes([self.record[place] ^ bits]))
            self.assertNotEqual(self.compared(self.record, other)[0], 0)

    def test_cards_have_no_sign(self):
        rising = [0x01, 0x3F, 0x40, 0x7F, 0x80, 0xC1, 0xFF]
        for column in (0, 79, 80, 3199):
            held = [with_bytes(self.record, place_of_card(column), bytes([byte])) for byte in rising]
            for one, other in zip(held, held[1:]):
                self.compared(one, other, -1)

    def test_numbers_have_a_sign(self):
        n = 240
        for place, width in (
            (place_of_binary(3201), 4), (place_of_binary(3213), 2), (place_of_binary(3219), 2), (place_of_field(1, n, 1), 4),
            (place_of_field(2, n, 29), 2), (place_of_field(6, n, 179), 2),
        ):
            most = 1 << 8 * width - 1
            held = [with_bytes(self.record, place, (number % (2 * most)).to_bytes(width, "big"))
                    for number in (-most, 1 - most, -256, -255, -2, -1, 0, 1, 255, 256, most - 1)]
            for one, other in zip(held, held[1:]):
                self.compared(one, other, -1)
            self.compared(held[0], held[-1], -1)

    def test_numbers_without_their_scalars(self):
        """Elevations and coordinates count as they stand, before their scalar where they come before it, and behind it where they do."""
        def held(elevation, scalar, x, x_scalar):
            fields = {41: elevation, 69: scalar, 73: x, 71: x_scalar}
            return holding(1, [([pair_bytes(0, 1)], fields)])

        plain = held(0, -10_000, 0, -10_000)
        # 300,000,000 under 1 is more than 400,000,000 under -10, and less as a number.
        self.compared(held(300_000_000, 1, 0, -10_000), held(400_000_000, -10, 0, -10_000), -1)
        self.compared(held(300_000_000, -10, 0, -10_000), held(300_000_000, 1, 0, -10_000), -1)
        # The scalar of coordinates stands before them.
        self.compared(held(0, -10_000, 400_000_000, -10), held(0, -10_000, 300_000_000, 1), -1)
        self.compared(plain, held(0, -10_000, -300_000_000, -1000), -1)
        self.compared(held(0, -10_000, -300_000_000, 10), held(0, -10_000, 300_000_000, 10), -1)

    def test_samples(self):
        """Values of all sizes and signs, in rising order; each beside the next, and each beside each other for a part of them."""
        rising = sorted({
            m * Fraction(2) ** e
            for e in (-280, -279, -150, -31, -30, -3, -1, 0, 1, 3, 30, 31, 220, 251) for m in (1, 3, 949, 2**24 - 1, 2**30 + 1, 2**31 - 1)
        } | {Fraction(2**31 - 3), Fraction(2**30 - 1)})
        rising = [value for value in (*(-value for value in reversed(rising)), Fraction(0), *rising)]
        held = [holding(1, [([pair_of(value)], {})]) for value in rising]
        for one, other in zip(held, held[1:]):
            self.compared(one, other, -1)
        rnd = random.Random(90)
        for _ in range(150):
            i, k = sorted(rnd.sample(range(len(held)), 2))
            self.compared(held[i], held[k], -1)

    def test_which_decides(self):
        """Each part decides before all that stand behind it, whatever they are."""
        n, record = 2, holding(2, [([pair_bytes(0, 1), pair_bytes(0, 5)], {1: 1}), ([pair_bytes(0, 7)] * 2, {1: 2})])
        changes = [  # each a place, and a lesser and a greater content
            (place_of_card(0), b"\x01", b"\xff"), (place_of_card(3199), b"\x01", b"\xff"), (place_of_binary(3201), b"\xff", b"\x01"),
            (place_of_binary(3259), b"\xff", b"\x01"), (place_of_field(1, n, 1), b"\xff", b"\x01"),
            (place_of_field(1, n, 179), b"\xff", b"\x01"), (place_of_pair(1, n, 1), pair_bytes(9, -1), pair_bytes(9, 1)),
            (place_of_pair(1, n, 2), pair_bytes(9, -1), pair_bytes(9, 1)), (place_of_field(2, n, 1), b"\xff", b"\x01"),
            (place_of_field(2, n, 179), b"\xff", b"\x01"), (place_of_pair(2, n, 1), pair_bytes(9, -1), pair_bytes(9, 1)),
            (place_of_pair(2, n, 2), pair_bytes(9, -1), pair_bytes(9, 1)),
        ]
        for i, (place, lesser, greater) in enumerate(changes):
            one, other = with_bytes(record, place, lesser), with_bytes(record, place, greater)
            for place, less, more in changes[i + 1 :]:
                one, other = with_bytes(one, place, more), with_bytes(other, place, less)
            self.compared(one, other, -1)
            # Nor does the count of traces play a part before.
            if place_of_trace(2, n) > changes[i][0]:
                fewer = other[: place_of_trace(2, n)] + b"\x05\x00\x04\x00\x00\x00\x01"
                self.compared(one, fewer, -1)

    def test_traces_that_end_first(self):
        traces = [([pair_bytes(0, -1)], {1: i}) for i in range(4)]
        held = [holding(1, traces[:t]) for t in range(5)]
        for i, one in enumerate(held):
            for k, other in enumerate(held):
                self.compared(one, other, (i > k) - (i < k))

    def test_random(self):
        """Records that share much of what they hold, each beside each other."""
        rnd = random.Random(99)
        for n, t in ((1, 0), (1, 2), (2, 3), (5, 2)):
            held = []
            for _ in range(5):
                traces = [([rnd.choice((pair_bytes(0, 0), pair_bytes(0, 1), pair_bytes(-1, -1), pair_bytes(2, 3))) for _ in range(n)],
                           {1: rnd.choice((0, 0, 1, -1))}) for _ in range(rnd.randint(0, t))]
                cards = bytes(rnd.choices((0x40, 0xC1), (0.999, 0.001), k=3200))
                held.append(holding(n, traces, cards=cards))
            for one in held:
                for other in held:
                    self.compared(one, other)

    def test_forms(self):
        """Records in every mixture of forms hold the same; what differs has its place in either."""
        n = 6100
        reel = long_reel(3, n, 2)
        held = {earlier: Held(reel, earlier) for earlier in ((), (1,), (2,), (1, 2))}
        for one in held.values():
            for other in held.values():
                self.compared(one.bytes, other.bytes, 0)
        for earlier, others in (((), (1, 2)), ((1,), (2,)), ((2,), (1, 2))):
            one, other = held[earlier], held[others]
            for i, k in ((1, 6000), (1, 6001), (2, 1), (2, 6000), (2, 6001), (2, n)):
                changed = with_bytes(one.bytes, one.pairs[i][k - 1], pair_bytes(17, -1))
                why = self.compared(changed, other.bytes, -1)[1]
                self.assertTrue(why.startswith(f"trace {i}, sample {k} is -1 * 2^17 (-131072) in the first record and "), why)
                places = [one.pairs[i][k - 1], other.pairs[i][k - 1]]
                where = f"place {places[0]}" if places[0] == places[1] else f"places {places[0]} and {places[1]}"
                self.assertTrue(why.endswith(f" in the second ({where})"), why)
            changed = with_bytes(one.bytes, one.header[2] + 3, b"\xff")
            self.assertIn("trace 2, field 1, line-trace is ", self.compared(changed, other.bytes, -1)[1])

    def test_long_traces(self):
        for n, code in ((12_001, 3), (32_767, 8)):
            held = Held(long_reel(code, n, 1))
            for k in (6000, 6001, 12_000, 12_001, n):
                place = held.pairs[1][k - 1]
                why = self.compared(held.bytes, with_bytes(held.bytes, place, pair_bytes(20, 1)), -1)[1]
                self.assertTrue(why.startswith(f"trace 1, sample {k} is ") and why.endswith(f"(place {place})"), why)

    def refused(self, one, other, which, number, place):
        """Both orders in which two files may be named; the sentence is that of `cards`, which refuses a record too."""
        paths = self.file("one", one), self.file("other", other)
        said = self.trouble(2, "compare", *paths)
        self.assertTrue(said.startswith(f"{paths[which]}: "), said)
        self.assertIn(f"refused by {number}: ", said)
        self.assertIn(f"(place {place}", said)
        self.assertEqual(self.trouble(2, "cards", paths[which]), said)
        self.assertEqual(records.first_cause((one, other)[which]), ("refused", number, place))

    def test_refused(self):
        n, record = 240, self.record
        bad = {
            (13, 3): with_bytes(record, 3, b"\0"), (13, 3222): with_bytes(record, place_of_binary(3217), b"\0\0"), (12, 0): b"",
            (12, 3203): record[:3203], (12, place_of_end(6, n)): record[:-1], (12, 13029): record + b"\0",
            (13, place_of_pair(6, n, 240)): with_bytes(record, place_of_pair(6, n, 240), b"\0\0\0\0\0\2"),
            (12, place_of_samples(2, n)): with_bytes(record, place_of_samples(2, n), b"\5"),
            (13, place_of_field(4, n, 115)): with_bytes(record, place_of_field(4, n, 115), b"\0\0"),
        }
        for (number, place), content in bad.items():
            self.refused(content, record, 0, number, place)
            self.refused(record, content, 1, number, place)
            self.refused(content, bad[13, 3], 0, number, place)
            self.refused(content, b"", 0, number, place)
        # What is no record at all is said to be that.
        path = self.file("a.record", record)
        for content, kind in ((SAMPLE.read_bytes(), "is a reel, not a record: "), (listing_of(record), "is a listing, not a record: ")):
            other = self.file("b", content)
            for words in ((path, other), (other, path)):
                self.assertIn(f"{other}: {kind}refused by 12: ", self.trouble(2, "compare", *words))
        empty = self.file("b", b"")
        self.assertEqual(self.trouble(2, "compare", empty, path), (
            f"{empty}: refused by 12: the record ends where a field should begin (place 0: tag 01, the cards)"))

    def test_damaged(self):
        """Any bytes: it answers as the rules say, or refuses as `cards` does."""
        rnd = random.Random(13)
        path = self.file("one", self.record)
        for _ in range(120):
            other = bytearray(self.record)
            for _ in range(rnd.choice((1, 1, 2, 5))):
                other[rnd.randrange(len(other))] ^= 1 << rnd.randrange(8)
            other = bytes(other[: rnd.choice((len(other), len(other), rnd.randrange(len(other) + 1)))])
            cause = records.first_cause(other)
            if cause is None:
                self.compared(self.record, other)
                continue
            second = self.file("other", other)
            said = self.trouble(2, "compare", path, second)
            self.assertEqual(said, self.trouble(2, "compare", second, path))
            self.assertIn(f"refused by {cause[1]}: ", said)
            self.assertEqual(said, self.trouble(2, "cards", second))

    def test_files(self):
        path, missing = self.file("a.record", self.record), self.folder / "missing"
        for bad, part in ((missing, "missing: can't be opened: No such file"), (self.folder, f"{self.folder}: is a folder, not a file")):
            for words in ((path, bad), (bad, path), (bad, bad)):
                self.assertIn(part, self.trouble(1, "compare", *words))
        # A file that can't be read comes before what another is refused by.
        self.assertIn("can't be opened", self.trouble(1, "compare", self.file("empty", b""), missing))
        other = {"user": 65534, "group": 65534, "extra_groups": []} if os.getuid() == 0 else {}
        path.chmod(0o000)
        self.assertIn("a.record: can't be opened: Permission denied", self.trouble(1, "compare", path, path, **other))
        path.chmod(0o444)
        self.folder.chmod(0o555)
        self.fine("compare", path, path, **other)
        self.folder.chmod(0o777)
        self.assertEqual(self.names(), ["a.record", "empty"])

    def test_pipes(self):
        """What can't be mapped is loaded."""
        path = self.file("a.record", self.record)
        self.assertIn("/dev/stdin is equal to ", self.fine("compare", "/dev/stdin", path, stdin=self.record))
        run = self.run_command("compare", path, "/dev/stdin", stdin=with_bytes(self.record, 3, b"\xff"))
        self.assertEqual((run.returncode, run.stderr), (4, b""))
        self.assertIn("refused by 12: ", self.trouble(2, "compare", path, "/dev/null"))

    def test_names(self):
        for name, shown in ((b"a b", b"a b"), (b"-", b"-"), (b"x\ny", b"x\\ny"), (b"\\", b"\\\\"), (b"c\rd", b"c\\rd"), (b"\xff", b"\xff")):
            with open(os.fsencode(self.folder) + b"/" + name, "wb") as file:
                file.write(self.record)
            run = self.run_command("compare", os.fsdecode(name), os.fsdecode(name), cwd=self.folder)
            self.assertEqual((run.returncode, run.stderr), (0, b""))
            self.assertEqual(run.stdout, shown + b" is equal to " + shown + b": they hold the same, 6 traces of 240 samples, byte for byte\n")
        self.file("--force", self.record)
        self.fine("compare", "--", "--force", "--force", cwd=self.folder)

    def test_output_that_nobody_reads(self):
        """The exit status is the answer, so that nobody reads the sentence is no trouble; one that can't be written is."""
        path, other = self.file("a", self.record), self.file("b", with_bytes(self.record, 3, b"\xff"))
        ours, theirs = os.pipe()
        os.close(ours)
        for words, status in (((path, other), 4), ((other, path), 5), ((path, path), 0)):
            run = self.run_command("compare", *words, stdout=theirs)
            self.assertEqual((run.returncode, run.stderr), (status, b""))
        run = self.run_command("sort", path, other, stdout=theirs)
        os.close(theirs)
        self.assertEqual((run.returncode, run.stderr), (1, b""))
        with open("/dev/full", "wb") as full:
            for words in (("compare", path, other), ("compare", path, path), ("sort", path, other)):
                run = self.run_command(*words, stdout=full)
                self.assertEqual(run.returncode, 1)
                self.assertIn(b"standard output: can't be written", run.stderr)

    def test_where_it_is_explained(self):
        texts = {path: (TOP / path).read_text(encoding="utf-8") for path in ("README.md", "docs/aukpocket.1", "docs/FORMAT.md", "include/aukpocket.h")}
        for path, part in (
            ("README.md", "\n## The order of records\n"), ("docs/aukpocket.1", "\n.SH THE ORDER OF RECORDS\n"), ("docs/FORMAT.md", "Records have an order: "),
            ("include/aukpocket.h", "Valid records have an order, "), ("README.md", "`compare` has 4 for a first record that is the lesser, and 5 "),
        ):
            self.assertIn(part, texts[path], path)
        for command in ("compare", "sort"):
            self.assertIn("The order is that of the card bytes, as numbers without a sign; ", self.fine(command, "--help"))
        self.assertIn("4 the first record is the lesser, 5 the first record is the greater.\n", self.fine("compare", "--help"))


class Sort(Ordered):
    """Many records in their order."""

    def expected(self, held):
        """The list of records, by their names: those that hold the same behind the first of them."""
        by_parts = {}
        for name in sorted(held):
            by_parts.setdefault(tuple(part[2] for part in parts_of(held[name])), []).append(name)
        return b"".join(b"= " * (i > 0) + name + b"\n" for key in sorted(by_parts) for i, name in enumerate(by_parts[key]))

    def sorted(self, held, shuffles=3, **named):
        """Sorts records by their names in their folder, named in several orders. The list is the same, and that of the rules."""
        rnd = random.Random(len(held))
        for name, content in held.items():
            (self.folder / os.fsdecode(name)).write_bytes(content)
        expected, names = self.expected(held), list(held)
        for _ in range(shuffles):
            rnd.shuffle(names)
            run = self.run_command("sort", *map(os.fsdecode, names), cwd=self.folder, **named)
            self.assertEqual((run.returncode, run.stderr, run.stdout), (0, b"", expected))
        return expected

    def some(self, count, fronts):
        """Records of so many fronts, some of them equal."""
        rnd = random.Random(count)
        headers = [(with_bytes(b"\x40" * 3200, rnd.randrange(3200), bytes([rnd.randrange(1, 256)])), {3205: rnd.randint(-3, 3), 3259: rnd.choice((-1, 0, 1))})
                   for _ in range(fronts)]
        held = {}
        for i in range(count):
            cards, fields = rnd.choice(headers)
            traces = [([pair_bytes(*rnd.choice(((0, 0), (0, 1), (-1, -1), (31, -1)))) for _ in range(2)], {1: rnd.choice((0, 1, -1))})
                      for _ in range(rnd.randint(0, 2))]
            held[b"%03d.record" % rnd.randrange(1000)] = holding(2, traces, cards=cards, fields=fields)
        return held

    def test_the_sample(self):
        """In a list that was written by hand."""
        n, record = 240, self.record
        for name, content in (
            ("a", with_bytes(record, place_of_pair(6, n, 240), pair_bytes(0, 1))), ("b", record), ("c", record),
            ("d", record[: place_of_trace(6, n)] + b"\x05\x00\x04\x00\x00\x00\x05"), ("e", with_bytes(record, 3, b"\x01")),
            ("f", with_bytes(record, place_of_binary(3205), b"\xff")), ("g", with_bytes(record, place_of_pair(6, n, 240), pair_bytes(-1, -1))),
        ):
            self.file(name, content)
        for names in ("abcdefg", "gfedcba", "cafebdg"):
            self.assertEqual(self.fine("sort", *names, cwd=self.folder), "e\nf\nd\ng\nb\n= c\na\n")
        self.assertEqual(self.fine("sort", "c", cwd=self.folder), "c\n")
        self.assertEqual(self.fine("sort", "c", "b", "c", "./b", cwd=self.folder), "./b\n= b\n= c\n= c\n")
        self.assertEqual(self.names(), list("abcdefg"))

    def test_many(self):
        for count, fronts in ((2, 1), (3, 3), (40, 1), (60, 12), (90, 90)):
            self.sorted(self.some(count, fronts))
            for path in self.folder.iterdir():
                path.unlink()
        self.assertIn(b"\n= ", self.sorted(self.some(60, 2), 8))

    def test_many_files(self):
        """No more than a few files are open at a time."""
        held = self.some(700, 300)
        self.assertGreater(len(held), 450)
        self.sorted(held, 2, preexec_fn=limited(resource.RLIMIT_NOFILE, 8))

    def test_forms(self):
        n = 6001
        reel = long_reel(8, n, 2)
        held = {b"%d" % i: Held(reel, earlier).bytes for i, earlier in enumerate(((), (1,), (2,), (1, 2)))}
        held[b"last"] = with_bytes(held[b"3"], place_of_pair(2, n, n, (1, 2)), pair_bytes(9, 1))
        held[b"less"] = with_bytes(held[b"0"], place_of_pair(2, n, n), pair_bytes(9, -1))
        self.assertEqual(self.sorted(held, 2), b"less\n0\n= 1\n= 2\n= 3\nlast\n")

    def test_pipes(self):
        """What can't be mapped is loaded, and compared like the others."""
        less, more = (with_bytes(self.record, place_of_pair(6, 240, 240), pair_bytes(0, m)) for m in (-1, 1))
        self.file("a", self.record), self.file("b", less), self.file("c", more)
        for content, expected in ((self.record, "b\n/dev/stdin\n= a\nc\n"), (less, "/dev/stdin\n= b\na\nc\n"), (more, "b\na\n/dev/stdin\n= c\n")):
            self.assertEqual(self.fine("sort", "a", "b", "/dev/stdin", "c", cwd=self.folder, stdin=content), expected)

    def test_names(self):
        """Names of any bytes, a line each; and the way back that the help tells."""
        names = [b"a b", b"x\ny", b"\\", b"\\n", b"c\rd", b"= e", b"=f", b"=", b"= ", b"\\= g", b" h", b"-", b"\xff\xfe", b"i\n= j"]
        for i, name in enumerate(names):
            with open(os.fsencode(self.folder) + b"/" + name, "wb") as file:
                file.write(with_bytes(self.record, 3, bytes([1 + i // 2])))
        run = self.run_command("sort", *map(os.fsdecode, names), cwd=self.folder)
        self.assertEqual((run.returncode, run.stderr), (0, b""))
        lines = run.stdout.split(b"\n")
        self.assertEqual((len(lines), lines[-1]), (len(names) + 1, b""))
        found = []
        for line in lines[:-1]:
            equal = line.startswith(b"= ")
            name = line[2:] if equal else line
            if name.startswith(b"\\"):
                name = re.sub(rb"\\(.)", lambda m: {b"n": b"\n", b"r": b"\r"}.get(m[1], m[1]), name[1:])
            found.append((equal, name))
        expected = [(k > 0, name) for i in range(0, len(names), 2) for k, name in enumerate(sorted(names[i : i + 2]))]
        self.assertEqual(found, expected)
        self.assertIn(b"x\\ny\n", run.stdout)
        self.assertIn(b"\n\\\\= e\n", run.stdout)
        self.assertIn(b"\n= =f\n", run.stdout)

    def test_refused(self):
        """All that aren't taken are named, in the order of their names, and there is no list."""
        self.file("a", self.record), self.file("b", self.record[:-1]), self.file("c", b""), self.file("d", with_bytes(self.record, 3, b"\0"))
        cut = "b: refused by 12: the record ends within a field (place 13022: tag 05, the count of traces)"
        empty = "c: refused by 12: the record ends where a field should begin (place 0: tag 01, the cards)"
        zero = "d: refused by 13: a card byte is 00 (place 3: card 1, column 1)"
        missing = "no: can't be opened: No such file or directory (os error 2)"
        folder = ".: is a folder, not a file"
        for names, status, said in (
            ("ab", 2, [cut]), ("ba", 2, [cut]), ("b", 2, [cut]), ("dcba", 2, [cut, empty, zero]), ("acbd", 2, [cut, empty, zero]), ("cc", 2, [empty] * 2),
            (["a", "no"], 1, [missing]), (["d", "no", "c"], 1, [empty, zero, missing]), (["no", "a", "."], 1, [folder, missing]),
        ):
            run = self.run_command("sort", *names, cwd=self.folder)
            were = "wasn't" if len(said) == 1 else "weren't"
            self.assertEqual((run.returncode, run.stdout, run.stderr.decode().splitlines()), (status, b"", [
                *(f"aukpocket: {line}" for line in said), f"aukpocket: sort: {len(said)} of {len(names)} {were} taken, so there is no list"]))
        self.file("e", SAMPLE.read_bytes())
        run = self.run_command("sort", "a", "e", cwd=self.folder)
        self.assertEqual(run.returncode, 2)
        self.assertIn(b"e: is a reel, not a record: refused by 12: ", run.stderr)
        self.assertEqual(self.names(), list("abcde"))


# Locales of both kinds, by the variable that names them last.
UTF8 = {"LC_ALL": "C.UTF-8"}
ASCII = {"LC_ALL": "C"}

# Every card byte but 00, which no record has, from another one on in each card.
ALL_CODES = b"".join(bytes((7 * card + column) % 255 + 1 for column in range(80)) for card in range(40))


def is_control(number):
    return number < 0x20 or 0x7F <= number < 0xA0


def listing_of(record):
    """The listing by Python's table of code page 037, as ISO 8859-1."""
    return b"".join(record[place : place + 80].decode("cp037").encode("latin-1") + b"\n" for place in range(3, 3203, 80))


def shown(listing):
    """The listing's lines in text, with U+2400 plus the number for a control character."""
    lines = (listing[place : place + 80] for place in range(0, 3240, 81))
    return ["".join(chr(0x2400 + number if is_control(number) else number) for number in line) for line in lines]


def with_lines(record, lines):
    """The record with these lines of text on its cards."""
    cards = b"".join(line.ljust(80).encode("cp037") for line in lines)
    assert len(cards) == 3200
    return record[:3] + cards.replace(b"\0", b"\x40") + record[3203:]


# The listing of those.
ALL_LISTING = listing_of(bytes(3) + ALL_CODES)


class Blanks(Case):
    """A card byte 00 is a blank: in the record, on a reel written from it, and in what is shown. Every other byte is as it was."""

    def blanked(self, cards):
        blanks = cards.replace(b"\0", b"\x40")
        reel, other = (make_reel(2000, 2, 3, [make_trace([whole16(1), whole16(-2)])], cards=text) for text in (cards, blanks))
        record, written = self.folder / "record", self.folder / "written"
        said = []
        for content in (reel, other):
            path = self.file("reel", content)
            self.fine("read", path, record, "--force")
            self.assertEqual(record.read_bytes()[3:3203], blanks)
            self.assertEqual(record.read_bytes(), reels.record_of(reel))
            said.append((self.fine("info", path, "--cards", 40), self.fine("check", stdin=content)))
        self.assertEqual(*said)
        self.fine("write", record, 3, written, "--force")
        self.assertEqual(written.read_bytes()[:3200], blanks)

    def test_every_set_of_places(self):
        """Zeros in every set of places among eight, beside bytes near 00, 40, 80, C0 and FF."""
        for other in (0x01, 0x40, 0x41, 0x7F, 0x80, 0x81, 0xC0, 0xC1, 0xFE, 0xFF):
            sets = (bytes(0 if places >> bit & 1 else other for bit in range(8)) for places in (*range(256), *range(144)))
            self.blanked(b"".join(sets))

    def test_all_and_none_and_some(self):
        rnd = random.Random(6)
        self.blanked(bytes(3200))
        self.blanked(ALL_CODES)
        for place in (0, 1, 7, 8, 1599, 1600, 3191, 3192, 3198, 3199):
            self.blanked(with_bytes(ALL_CODES, place, b"\0"))
        for _ in range(10):
            self.blanked(bytes(rnd.choice((0x00, 0x00, 0x01, 0x40, 0x7F, 0x80, 0xFF, rnd.randrange(256))) for _ in range(3200)))


class Cards(Case):
    """The cards printed, edited, and put in a new record."""

    def setUp(self):
        super().setUp()
        self.record = reels.record_of(SAMPLE.read_bytes())
        self.all_codes = with_bytes(self.record, 3, ALL_CODES)
        self.path = self.file("a.record", self.record)
        self.all_path = self.file("all.record", self.all_codes)
        self.lines = shown(listing_of(self.record))
        self.new = self.folder / "new.record"
        self.before = self.names()

    def put(self, content, encoding, lines, differing, mended="", path=None, env=UTF8):
        """Puts a listing's cards in a new record; it must have these lines, say which cards differ, and what was mended."""
        path, listing = path or self.path, self.file("a.txt", content)
        said = self.fine("cards", path, listing, self.new, encoding, warned=mended and f"aukpocket: {listing}: {mended}\n", env=env)
        self.assertEqual(said, (f"{path}: 6 traces of 240 samples; {self.new}: the record with the cards of {listing}, 13029 bytes; "
                                f"{differing}\n"))
        self.assertEqual(self.new.read_bytes(), with_lines(path.read_bytes(), lines))
        self.new.unlink()
        listing.unlink()

    def refused(self, status, content, encoding, sentence, env=UTF8):
        """A listing whose cards can't be put in a new record, and the sentence that says so."""
        listing = self.file("a.txt", content)
        self.assertEqual(self.trouble(status, "cards", self.path, listing, self.new, encoding, env=env), f"{listing}: {sentence}")
        listing.unlink()
        self.assertEqual(self.names(), self.before)

    def edited(self, *changes):
        """The sample's lines with some of them changed."""
        lines = list(self.lines)
        for number, line in changes:
            lines[number - 1] = line
        return lines

    def test_every_code_is_there(self):
        self.assertEqual(set(ALL_CODES), set(range(1, 256)))
        self.assertTrue(records.is_valid(self.all_codes))
        self.assertEqual(set(listing_of(self.all_codes)), set(range(1, 256)))

    def test_print(self):
        """UTF-8 where the locale says so, or where it is asked for; the first variable that is set and not empty names the locale."""
        for path, record in ((self.path, self.record), (self.all_path, self.all_codes)):
            text = "\n".join(shown(listing_of(record))) + "\n"
            others = sum(not c.isascii() for c in text)
            ascii_text = "".join(c if c.isascii() else "?" for c in text)
            warned = (f"aukpocket: warning: {path}: {others} characters that aren't printable ASCII are shown as `?`, since the locale "
                      "isn't UTF-8; --utf8 prints them\n") if others else ""
            for env in (
                {"LC_ALL": "C.UTF-8"}, {"LC_CTYPE": "de_DE.utf8"}, {"LANG": "sv_SE.UTF-8@euro"}, {"LANG": "en_US.utf-8"},
                {"LC_CTYPE": "UTF-8"}, {"LC_ALL": "", "LC_CTYPE": "", "LANG": "C.UTF-8"},
                {"LC_ALL": "C.UTF-8", "LC_CTYPE": "C", "LANG": "C"}, {"LC_CTYPE": "C.UTF-8", "LANG": "C"},
            ):
                self.assertEqual(self.fine("cards", path, env=env), text, env)
            for env in (
                {}, {"LC_ALL": "C"}, {"LANG": "POSIX"}, {"LANG": "de_DE.ISO-8859-1"}, {"LANG": "de_DE"}, {"LANG": "utf8.C"},
                {"LC_ALL": "C", "LC_CTYPE": "C.UTF-8", "LANG": "C.UTF-8"}, {"LC_CTYPE": "C", "LANG": "C.UTF-8"},
                {"LC_MESSAGES": "C.UTF-8"},
            ):
                self.assertEqual(self.fine("cards", path, warned=warned, env=env), ascii_text, env)
                self.assertEqual(self.fine("cards", "--utf8", path, env=env), text, env)
            for env in (UTF8, ASCII):
                run = self.run_command("cards", path, "--latin1", env=env)
                self.assertEqual((run.returncode, run.stdout, run.stderr), (0, listing_of(record), b""))
        self.assertGreater(others, 500)
        one = self.file("one.record", with_bytes(self.record, 3, "é".encode("cp037")))
        warned = (f"aukpocket: warning: {one}: a character that isn't printable ASCII is shown as `?`, since the locale isn't UTF-8; "
                  "--utf8 prints it\n")
        self.assertTrue(self.fine("cards", one, warned=warned, env=ASCII).startswith("? 1 CLIENT"))

    def test_there_and_back(self):
        """What is printed gives the record again, byte for byte, in either encoding."""
        rnd = random.Random(11)
        for i in range(12):
            cards = [ALL_CODES, self.record[3:3203], b"\x25" * 3200, b"\x0d" * 3200][i] if i < 4 else records.some_cards(rnd)
            path = self.file("b.record", with_bytes(self.record, 3, cards))
            for encoding in ("--utf8", "--latin1"):
                listing = self.file("b.txt", self.run_command("cards", encoding, path).stdout)
                said = self.fine("cards", encoding, path, listing, self.new)
                self.assertTrue(said.endswith("13029 bytes; no card differs\n"), said)
                self.assertEqual(self.new.read_bytes(), path.read_bytes())
                self.new.unlink()

    def test_another_record(self):
        """Any listing goes with any record: all but the cards is that record's."""
        rnd = random.Random(12)
        other = self.file("other.record", reels.record_of(random_reel(rnd, 4, 3, 2)))
        listing = self.file("a.txt", listing_of(self.all_codes))
        own = listing_of(other.read_bytes())
        new = [i for i in range(3240) if i % 81 < 80 and ALL_LISTING[i] != own[i] and is_control(ALL_LISTING[i])]
        at = f"line {new[0] // 81 + 1}, column {new[0] % 81 + 1} is the control character U+{ALL_LISTING[new[0]]:04X}"
        self.assertGreater(len(new), 500)
        warned = f"aukpocket: warning: {listing}: {len(new)} control characters came onto the cards: {at}, and so on\n"
        said = self.fine("cards", other, listing, self.new, "--latin1", warned=warned)
        self.assertTrue(said.endswith("cards 1 to 40 differ\n"), said)
        self.assertEqual(self.new.read_bytes(), with_bytes(other.read_bytes(), 3, ALL_CODES))

    def test_edits(self):
        """What a user changes, and what an editor does beside it. A control character that comes in by ISO 8859-1 is told."""
        for line, at in ((f"C 4\t{self.lines[3][4:]}", "column 4 is a tab (U+0009)"), (f"{self.lines[3][:79]}\r", "column 80 is a carriage return (U+000D)")):
            lines = self.edited((4, line))
            listing = self.file("a.txt", "".join(f"{line}\n" for line in lines).encode())
            self.fine("cards", self.path, listing, self.new, "--latin1", warned=(
                f"aukpocket: warning: {listing}: a control character came onto a card: line 4, {at}\n"))
            self.assertEqual(self.new.read_bytes(), with_lines(self.record, lines))
            self.new.unlink()
            listing.unlink()
        changed = self.edited((2, "C 2 LINE 12     ÅREA  SKERRY BANK, NØRTH¢"), (5, ""), (39, "é" * 80))
        full = [line.ljust(80) for line in changed]
        short = [line.rstrip(" ") for line in changed]
        wide = [line + "   " * (i % 2) for i, line in enumerate(full, 1)]
        filled = [i for i, line in enumerate(short, 1) if len(line) < 80]
        self.assertEqual(filled, [*range(1, 39), 40])
        fill, cut = "lines 1 to 38, 40 were filled with blanks to column 80", ", ".join(map(str, range(1, 40, 2)))
        fine = "cards 2, 5, 39 differ"
        returns, feed = "CR LF was taken as the end of each line", "a line feed was put at the end"
        for encoding, python, mark in (("--utf8", "utf-8", b"\xef\xbb\xbf"), ("--latin1", "latin-1", None)):
            for text, mended in (
                ("\n".join(full) + "\n", ""), ("\n".join(full), feed), ("\r\n".join(full) + "\r\n", returns),
                ("\r\n".join(full), f"{returns}; {feed}"), ("\n".join(short) + "\n", fill),
                ("\r\n".join(short) + "\r\n", f"{returns}; {fill}"), ("\r\n".join(short), f"{returns}; {feed}; {fill}"),
                ("\n".join(wide) + "\n", f"lines {cut} were cut after column 80, where blanks stood"),
                ("\n".join(full[:6] + [full[6] + " "] + full[7:]) + "\n", "line 7 was cut after column 80, where blanks stood"),
                ("\n".join(full[:6] + [full[6][:79]] + full[7:]) + "\n", "line 7 was filled with blanks to column 80"),
            ):
                for env in (UTF8, ASCII):
                    self.put(text.encode(python), encoding, changed, fine, mended, env=env)
                if mark is not None:
                    both = "the byte order mark was dropped" + ("; " if mended else "") + mended
                    self.put(mark + text.encode(python), encoding, changed, fine, both)
        # As many bytes as a listing has, and not the characters; and in ISO 8859-1, with the lines of another length.
        accent = self.edited((2, "é".ljust(79)))
        content = "".join(f"{line}\n" for line in accent).encode()
        self.assertEqual((len(content), set(content[80::81])), (3240, {0x0A}))
        self.put(content, "--utf8", accent, "card 2 differs", "line 2 was filled with blanks to column 80")
        content = "".join(f"{line[: 78 + 2 * (i % 2)]}\r\n" for i, line in enumerate(self.lines)).encode()
        self.assertEqual(len(content), 3240)
        odd = ", ".join(map(str, range(1, 40, 2)))
        self.put(content, "--latin1", self.lines, "no card differs", f"{returns}; lines {odd} were filled with blanks to column 80")
        content = "".join(f"{line[:79]}\r\n" for line in self.lines).encode()
        self.assertEqual((len(content), set(content[80::81])), (3240, {0x0A}))
        for encoding in ("--utf8", "--latin1"):
            self.put(content, encoding, self.lines, "no card differs", f"{returns}; lines 1 to 40 were filled with blanks to column 80")
        for blank, dropped in ((["", "  "], "2 blank lines at the end were dropped"), ([""], "a blank line at the end was dropped")):
            for encoding in ("--utf8", "--latin1"):
                text = "\n".join(full + blank) + "\n"
                self.put(text.encode("utf-8" if encoding == "--utf8" else "latin-1"), encoding, changed, fine, dropped)
        only = self.edited((40, "C40 END"))
        self.put("".join(f"{line.ljust(80)}\n" for line in only).encode(), "--utf8", only, "card 40 differs")

    def test_control_characters(self):
        """Those of the card come back from UTF-8 as they are shown there, and from ISO 8859-1 as they are where nothing is mended."""
        lines = shown(listing_of(self.all_codes))
        controls = {0x2400 + number for number in range(1, 256) if is_control(number)}
        self.assertEqual(set(map(ord, "".join(lines))) & set(range(0x2400, 0x2500)), controls)
        raw = ["".join(chr(ord(c) - 0x2400) if ord(c) > 0xFF else c for c in line) for line in lines]
        lines[3], raw[3] = "CHANGED".ljust(80), "CHANGED".ljust(80)
        short = [line.rstrip(" ") for line in lines]
        shortened = [i for i, line in enumerate(short, 1) if len(line) < 80]
        self.assertGreaterEqual(len(shortened), 1)
        listing = "".join(f"{line}\n" for line in short).encode()
        self.assertNotIn(b"\t", listing)
        run = self.run_command("cards", self.all_path, self.file("a.txt", listing), self.new, "--utf8")
        self.assertEqual(run.returncode, 0, run.stderr)
        self.assertEqual(self.new.read_bytes(), with_lines(self.all_codes, raw))
        self.new.unlink()
        self.put("".join(f"{line}\n" for line in raw).encode("latin-1"), "--latin1", raw, "card 4 differs", path=self.all_path)
        # A character 00 is a blank on the card, and that is said.
        for content, encoding in (("\u2400", "--utf8"), ("\0", "--latin1")):
            for count, mended in ((1, "a character 00 became a blank"), (3, "3 characters 00 became blanks")):
                lines = self.edited((2, content * count + self.lines[1][count:]))
                text = "".join(f"{line}\n" for line in lines)
                blank = self.edited((2, " " * count + self.lines[1][count:]))
                self.put(text.encode("utf-8" if encoding == "--utf8" else "latin-1"), encoding, blank, "card 2 differs", mended)

    def test_17(self):
        """Lines beyond column 80, and too few or too many of them."""
        first = self.lines[0]
        for lines, sentence in (
            (self.edited((4, self.lines[3] + "X")), "a line has 81 columns, not 80 (3241 characters, not 3240: line 4, column 81, `X`)"),
            (self.edited((4, self.lines[3] + " KM  "), (9, "")),
             "a line has 85 columns, not 80 (3245 characters once its lines are filled, not 3240: line 4, column 81, ` KM  `)"),
            (self.edited((40, "é" * 200)),
             "a line has 200 columns, not 80 (3360 characters, not 3240: line 40, column 81, `éééééééééééééééééééé`...)"),
            (self.edited((1, first + "\u2409\u249f")),
             "a line has 82 columns, not 80 (3242 characters, not 3240: line 1, column 81, `\u2409\u249f`)"),
            # Two lines joined and one that is missing: as many characters as a listing has.
            (self.edited((7, self.lines[6] + "+" + self.lines[7]))[:39],
             "a line has 161 columns, not 80 (place 566: line 7, column 81, `+C 8"),
            (self.lines[:39], "it has 39 lines, not 40 (3159 characters, not 3240)"),
            # A card's own 0A ends no line.
            (self.edited((2, "\u240a" * 80), (4, self.lines[3] + "X")),
             "a line has 81 columns, not 80 (3241 characters, not 3240: line 4, column 81, `X`)"),
            (self.edited((2, "\u240a" * 80))[:39], "it has 39 lines, not 40 (3159 characters, not 3240)"),
            (self.lines + ["x"], "it has 41 lines, not 40 (3321 characters once its lines are filled, not 3240)"),
            (self.lines + ["", "x"], "it has 42 lines, not 40 (3402 characters once its lines are filled, not 3240)"),
            ([""] + self.lines, "it has 41 lines, not 40 (3321 characters once its lines are filled, not 3240)"),
            (self.lines * 2, "it has 80 lines, not 40 (6480 characters, not 3240)"),
            ([], "it has 0 lines, not 40 (0 characters, not 3240)"), (self.lines[:1], "it has 1 line, not 40 (81 characters, not 3240)"),
        ):
            text = "".join(f"{line}\n" for line in lines)
            for ends in ("\n", "\r\n"):
                for encoding in ("--utf8", "--latin1"):
                    if encoding == "--latin1" and not set(text).isdisjoint("\u2409\u240a"):
                        continue
                    content = text.replace("\n", ends).encode("utf-8" if encoding == "--utf8" else "latin-1")
                    listing = self.file("a.txt", content)
                    said = self.trouble(2, "cards", self.path, listing, self.new, encoding, env=UTF8)
                    self.assertTrue(said.startswith(f"{listing}: refused by 17: {sentence}"), said)
                    said = self.trouble(2, "cards", self.path, listing, self.new, encoding, env=ASCII)
                    self.assertTrue(said.isascii())
                    listing.unlink()
        self.assertEqual(self.names(), self.before)

    def test_characters_that_cant_be_taken(self):
        def text(number, line, end="\n"):
            return "".join(f"{line}{end}" for line in self.edited((number, line)))

        for character, said, said_in_ascii in (
            ("€", "`€` (U+20AC)", "U+20AC"), ("Ā", "`Ā` (U+0100)", "U+0100"), ("😀", "`😀` (U+1F600)", "U+1F600"),
            ("\u0301", "U+0301", "U+0301"), ("\u202e", "U+202E", "U+202E"), ("\ufeff", "U+FEFF", "U+FEFF"), ("\u2028", "U+2028", "U+2028"),
            # Beside those that stand for control characters.
            *((chr(number), f"`{chr(number)}` (U+{number:04X})", f"U+{number:04X}") for number in (0x23FF, 0x2420, 0x2421, 0x247E, 0x24A0)),
        ):
            content = text(3, f"É 3 {character}").encode()
            self.refused(1, content, "--utf8", f"line 3, column 5 is {said}, which code page 037 doesn't have")
            self.refused(1, content, "--utf8", f"line 3, column 5 is {said_in_ascii}, which code page 037 doesn't have", env=ASCII)
        for character, said in (
            ("\t", "a tab (U+0009)"), ("\0", "the control character U+0000"), ("\x1b", "the control character U+001B"),
            ("\x7f", "the control character U+007F"), ("\x85", "the control character U+0085"), ("\x0c", "the control character U+000C"),
        ):
            content = text(40, f"ÉC40{character}END")
            blanks = "put blanks there; " if character == "\t" else ""
            wide = "; UTF-16, which has it, is to be saved as UTF-8" if character == "\0" else ""
            self.refused(1, content.encode(), "--utf8", (
                f"line 40, column 5 is {said}, which isn't taken: {blanks}in UTF-8 a card's own control characters are written as the "
                f"character U+2400 plus number, this one as U+{0x2400 + ord(character):04X}{wide}"))
            self.refused(1, content.encode("latin-1"), "--latin1", (
                f"line 40, column 5 is {said}, which isn't taken: {blanks}--latin1 takes control characters from exactly 40 lines of 80 "
                f"characters alone, and --utf8 has a way to write them{wide}"))
        for name in ("utf-16-le", "utf-16-be"):
            content = f"\ufeff{text(1, 'x')}".encode(name)
            for encoding in ("--utf8", "--latin1"):
                self.refused(1, content, encoding, "the file is UTF-16, which isn't taken: save it as UTF-8")
        content = text(7, self.lines[6][:79] + "\t").encode()
        self.assertEqual(len(content), 3240)
        self.refused(1, content, "--utf8", (
            "line 7, column 80 is a tab (U+0009), which isn't taken: put blanks there; in UTF-8 a card's own control characters are written as the character "
            "U+2400 plus number, this one as U+2409"))
        # Two lines joined by a character that the library would take for the end of the first.
        joined = self.edited((7, f"{self.lines[6]}\u240a{self.lines[7]}"))
        content = "".join(f"{line}\n" for line in joined[:7] + joined[8:]).encode()
        self.refused(1, content, "--utf8", "line 7, column 81 is `\u240a` (U+240A), beyond column 80")
        # CR LF at some lines, and CR alone.
        for content, at in ((text(3, self.lines[2] + "\r"), "line 3, column 81"), (text(3, "C 3", "\r"), "line 1, column 81")):
            said = self.trouble(1, "cards", self.path, self.file("a.txt", content.encode()), self.new, "--utf8")
            self.assertIn(f": {at} is a carriage return (U+000D), which isn't taken: ", said)
            self.assertTrue(said.endswith("this one as U+240D; CR LF is taken as the end of a line where every line has it"), said)
            (self.folder / "a.txt").unlink()
        mark = b"\xef\xbb\xbf"
        for content, at, byte in (
            (text(3, "C 3 É").encode("latin-1"), "line 3, column 5", "C9"), (mark + b"\xff", "line 1, column 1", "FF"),
            (text(1, "ÉÉ").encode()[:3], "line 1, column 2", "C3"),
            (text(2, "ab").encode() + b"\xc0\x80", "line 41, column 1", "C0"),
            (text(2, "é\ud800").encode("utf-8", "surrogatepass"), "line 2, column 2", "ED"),
        ):
            self.refused(1, content, "--utf8", f"{at} is the byte {byte}, which isn't UTF-8; --latin1 takes a listing in ISO 8859-1")

    def test_the_encoding_is_never_guessed(self):
        listing = self.file("a.txt", listing_of(self.record))
        said = self.trouble(1, "cards", self.path, listing, self.new)
        self.assertEqual(said, "cards: how LISTING is encoded is never guessed: give --utf8 for UTF-8, or --latin1 for ISO 8859-1")
        listing.unlink()
        # UTF-8 that is given for ISO 8859-1 is taken as told, and the sentence names the mistake.
        for line, status, sentence in (
            ("C 2 Ø", 1, "line 2, column 6 is the control character U+0098, which isn't taken: --latin1 takes control characters from "
                         "exactly 40 lines of 80 characters alone, and --utf8 has a way to write them"),
        ):
            content = "".join(f"{line}\n" for line in self.edited((2, line))).encode()
            self.refused(status, content, "--latin1", f"{sentence}; the file is UTF-8, which --utf8 takes")
        for line in ("é" * 80, "C 2 é".ljust(80), "C 2 é".ljust(79)):
            content = "".join(f"{line}\n" for line in self.edited((2, line))).encode()
            self.refused(1, content, "--latin1", "the file is UTF-8, which --utf8 takes; as ISO 8859-1 it would have other characters")
        # Bytes that are UTF-8 too, where the card has them already: they are the card's own, and another line is edited.
        own = with_lines(self.record, self.edited((2, "C 2 Ã©")))
        path = self.file("own.record", own)
        lines = self.edited((2, "C 2 Ã©".ljust(80)), (5, "C 5 X".ljust(80)))
        self.put("".join(f"{line}\n" for line in lines).encode("latin-1"), "--latin1", lines, "card 5 differs", path=path)

    def test_records_that_are_refused(self):
        """The causes of the record come before 17, and a reel is told."""
        listing = self.file("a.txt", b"no listing")
        names = self.names()
        bad = self.folder / "bad.record"
        for record, sentence in (
            (SAMPLE.read_bytes(),
             "is a reel, not a record: refused by 12: tag C3 stands where a field should begin (place 0: tag 01, the cards)"),
            (listing_of(self.record),
             "is a listing, not a record: refused by 12: tag 43 stands where a field should begin (place 0: tag 01, the cards)"),
            (b"", "refused by 12: the record ends where a field should begin (place 0: tag 01, the cards)"),
            (with_bytes(self.record, 83, b"\0"), "refused by 13: a card byte is 00 (place 83: card 2, column 1)"),
            (self.record + b"x", "refused by 12: 1 bytes follow the record's end (place 13029)"),
            (with_bytes(self.record, 13021, b"\x02"), "refused by 13: a pair, 2 * 2^0, isn't canonical (place 13016: trace 6, sample 240)"),
        ):
            bad.write_bytes(record)
            for words in (("cards", bad), ("cards", bad, "--latin1"), ("cards", bad, listing, self.new, "--utf8")):
                self.assertEqual(self.trouble(2, *words), f"{bad}: {sentence}")
            bad.unlink()
        self.assertEqual(self.names(), names)
        for encoding, at in (
            ("--utf8", "line 1, column 3 is the byte 80, "), ("--latin1", "line 1, column 1 is the control character U+0001, "),
        ):
            said = self.trouble(1, "cards", listing, self.path, self.new, encoding)
            self.assertTrue(said.startswith(f"{self.path}: is a record, not a listing: {at}"), said)
            self.assertIn(f"{SAMPLE}: is a reel, not a listing: line 1, ", self.trouble(1, "cards", self.path, SAMPLE, self.new, encoding))

    def test_the_new_record_as_a_file(self):
        """It appears whole under its name, replaces nothing unless told, and never an input."""
        changed = with_lines(self.record, self.edited((2, "C 2 CHANGED")))
        listing = self.file("a.txt", listing_of(changed))
        old = self.file("old", b"old")
        self.assertIn("is there already and is kept; --force", self.trouble(1, "cards", self.path, listing, old, "--latin1"))
        self.assertEqual(old.read_bytes(), b"old")
        self.fine("cards", self.path, listing, old, "--latin1", "--force")
        self.assertEqual(old.read_bytes(), changed)
        os.link(listing, self.folder / "second")
        for name in (self.path, listing, self.folder / "second"):
            for force in ((), ("--force",)):
                self.assertIn("is an input, which is never replaced", self.trouble(1, "cards", self.path, listing, name, "--latin1", *force))
        self.assertEqual((self.path.read_bytes(), listing.read_bytes()), (self.record, listing_of(changed)))
        for words, part in (
            ((self.folder / "none", listing, self.new), "none: can't be opened"),
            ((self.path, self.folder / "none", self.new), "none: can't be opened"),
            ((self.path, self.folder, self.new), "is a folder, not a file"), ((self.path, listing, self.folder), "is a folder"),
            ((self.path, listing, self.folder / "no" / "record"), "its folder isn't there"),
        ):
            self.assertIn(part, self.trouble(1, "cards", *words, "--latin1"))
        said = self.trouble(1, "cards", self.path, listing, self.new, "--latin1", preexec_fn=limited(resource.RLIMIT_FSIZE, 13028))
        self.assertIn("new.record: can't be written: File too large", said)
        self.assertEqual(self.names(), sorted([*self.before, "a.txt", "old", "second"]))

    def on_terminal(self, *words, env):
        """The status, and all that the command says on a terminal that is its standard output and standard error."""
        ours, theirs = pty.openpty()
        run = subprocess.Popen([str(COMMAND), *map(str, words)], stdin=subprocess.DEVNULL, stdout=theirs, stderr=theirs, env=env)
        os.close(theirs)
        said = b""
        try:
            while piece := os.read(ours, 65536):
                said += piece
        except OSError:  # the end, as a terminal tells it
            pass
        os.close(ours)
        return run.wait(SECONDS), said.replace(b"\r\n", b"\n")

    def test_no_control_character_goes_to_a_terminal(self):
        listing = self.file("a.txt", listing_of(self.all_codes) + b"\x1b[31m")
        long = self.file("b.txt", "".join(f"{line}\u2407\u241b\u249b\n" for line in self.lines).encode())
        odd = self.file("c.txt", "".join(f"{line}\n" for line in self.edited((1, "\x9b31m"))).encode())
        text = "\n".join(shown(listing_of(self.all_codes))) + "\n"
        for env in (UTF8, ASCII):
            for status, *words in (
                (0, "cards", self.all_path), (0, "cards", self.all_path, "--utf8"), (1, "cards", self.all_path, "--latin1"),
                (0, "info", self.all_path, "--cards", 40), (1, "cards", self.path, listing, self.new, "--latin1"),
                (1, "cards", self.path, listing, self.new, "--utf8"), (2, "cards", self.path, long, self.new, "--utf8"),
                (1, "cards", self.path, odd, self.new, "--utf8"), (1, "cards", self.path, odd, self.new, "--latin1"),
            ):
                ended, said = self.on_terminal(*words, env=env)
                self.assertEqual(ended, status, (words, said))
                self.assertEqual([c for c in said.decode() if is_control(ord(c)) and c != "\n"], [], words)
                # Without UTF-8 a terminal may take the bytes 80 to 9F as control characters.
                if env == ASCII and words[-1] != "--utf8" and words[0] != "info":
                    self.assertTrue(said.isascii(), said)
        self.assertEqual(self.on_terminal("cards", self.all_path, env=UTF8), (0, text.encode()))
        self.assertEqual(self.on_terminal("cards", self.path, "--latin1", env=UTF8), (1, (
            b"aukpocket: cards: --latin1 gives control characters as they are, which a terminal would obey; send it to a file, or give "
            b"--utf8\n")))


class Files(Case):
    def test_missing_and_folder(self):
        missing, output = self.folder / "missing.sgy", self.folder / "output"
        for name, part in ((missing, "missing.sgy: can't be opened: No such file"), (ROOM, f"{ROOM}: is a folder, not a file")):
            for words in (("read", name, output), ("write", name, 1, output), ("look", name, 0, 3225), ("info", name), ("verify", name)):
                self.assertIn(part, self.trouble(1, *words))
        self.assertIn("is a folder", self.trouble(1, "read", SAMPLE, self.folder))
        self.assertIn("is a folder", self.trouble(1, "read", SAMPLE, self.folder, "--force"))
        self.assertIn("its folder isn't there", self.trouble(1, "read", SAMPLE, self.folder / "no" / "record"))
        self.assertIn("names no file", self.trouble(1, "read", SAMPLE, self.folder / ".." / ".."))
        self.trouble(1, "read", SAMPLE, "")
        self.trouble(1, "read", "", output)
        self.trouble(1, "read", SAMPLE, str(output) + "/")
        folder = os.open(self.folder, os.O_RDONLY)
        run = subprocess.run([str(COMMAND), "check"], stdin=folder, capture_output=True, timeout=SECONDS)
        os.close(folder)
        self.assertEqual((run.returncode, run.stdout), (1, b""))
        self.assertIn(b"standard input: can't be read: Is a directory", run.stderr)
        self.assertEqual(self.names(), [])

    def test_unreadable_and_unwritable(self):
        reel = self.file("sample.sgy", SAMPLE.read_bytes())
        other = {"user": 65534, "group": 65534, "extra_groups": []} if os.getuid() == 0 else {}
        reel.chmod(0o000)
        self.assertIn("can't be opened: Permission denied", self.trouble(1, "read", reel, self.folder / "output", **other))
        reel.chmod(0o644)
        self.folder.chmod(0o555)
        said = self.trouble(1, "read", reel, self.folder / "output", **other)
        self.assertIn("output: can't be written: Permission denied", said)
        # It is said before the work: nobody feeds this pipe, so the command would wait for ever.
        pipe = Path(ROOM) / "pipe"
        os.mkfifo(pipe)
        pipe.chmod(0o644)
        self.assertEqual(self.trouble(1, "read", pipe, self.folder / "output", **other), said)
        pipe.unlink()
        self.folder.chmod(0o777)
        self.assertEqual(self.names(), ["sample.sgy"])
        self.fine("read", reel, self.folder / "output", **other)

    def test_an_existing_file_is_kept(self):
        record = reels.record_of(SAMPLE.read_bytes())
        output = self.file("output", b"old")
        self.assertIn("is there already and is kept; --force replaces it", self.trouble(1, "read", SAMPLE, output))
        self.assertEqual(output.read_bytes(), b"old")
        output.chmod(0o640)
        self.fine("read", SAMPLE, output, "--force")
        self.assertEqual(output.read_bytes(), record)
        self.assertEqual(stat.S_IMODE(output.stat().st_mode), 0o640)
        self.assertIn("is there already", self.trouble(1, "write", output, 1, self.file("reel", b"old")))
        self.fine("write", "--force", output, 1, self.folder / "reel")
        self.assertEqual((self.folder / "reel").read_bytes(), records.reel_of(record, 1))
        # A refusal and a failure keep it too, and --force makes a file that isn't there.
        bad = self.file("bad.sgy", SAMPLE.read_bytes()[:-1])
        self.trouble(2, "read", bad, output, "--force")
        self.assertEqual(output.read_bytes(), record)
        self.fine("read", SAMPLE, self.folder / "new", "--force")
        self.assertEqual(self.names(), ["bad.sgy", "new", "output", "reel"])

    def test_the_input_is_never_replaced(self):
        reel = self.file("sample.sgy", SAMPLE.read_bytes())
        os.link(reel, self.folder / "second")
        (self.folder / "link").symlink_to(reel)
        for name in ("sample.sgy", "second", "link"):
            for force in ((), ("--force",)):
                self.assertIn("is an input, which is never replaced", self.trouble(1, "read", reel, self.folder / name, *force))
        self.assertEqual(reel.read_bytes(), SAMPLE.read_bytes())

    def test_links_and_special_files(self):
        target = self.file("target", b"old")
        (self.folder / "link").symlink_to("target")
        (self.folder / "nowhere").symlink_to("missing")
        os.mkfifo(self.folder / "pipe")
        for force in ((), ("--force",)):
            self.assertIn("is a link that leads nowhere", self.trouble(1, "read", SAMPLE, self.folder / "nowhere", *force))
            self.assertIn("is no regular file", self.trouble(1, "read", SAMPLE, self.folder / "pipe", *force))
            self.assertIn("is no regular file", self.trouble(1, "read", SAMPLE, "/dev/null", *force))
        self.fine("read", SAMPLE, self.folder / "link", "--force")
        self.assertTrue((self.folder / "link").is_symlink())
        self.assertEqual(target.read_bytes(), reels.record_of(SAMPLE.read_bytes()))
        self.assertEqual(self.names(), ["link", "nowhere", "pipe", "target"])

    def test_a_file_that_another_makes_meanwhile(self):
        """The command looks at the output, waits for a reel from a pipe, and then finds the name taken."""
        os.mkfifo(self.folder / "pipe")
        output = self.folder / "output"
        feeder = threading.Thread(target=lambda: (
            (file := open(self.folder / "pipe", "wb")), output.write_bytes(b"another's"), file.write(SAMPLE.read_bytes()), file.close()))
        feeder.start()
        said = self.trouble(1, "read", self.folder / "pipe", output)
        feeder.join()
        self.assertIn("was made by another meanwhile, and is kept", said)
        self.assertEqual(output.read_bytes(), b"another's")
        self.assertEqual(self.names(), ["output", "pipe"])

    def test_a_full_disk(self):
        for most in (0, 1, 13028):
            said = self.trouble(1, "read", SAMPLE, self.folder / "output", preexec_fn=limited(resource.RLIMIT_FSIZE, most))
            self.assertIn("output: can't be written: File too large", said)
            self.assertEqual(self.names(), [])
        output = self.file("output", b"old")
        self.trouble(1, "read", SAMPLE, output, "--force", preexec_fn=limited(resource.RLIMIT_FSIZE, 4000))
        self.assertEqual((self.names(), output.read_bytes()), (["output"], b"old"))
        self.fine("read", SAMPLE, output, "--force", preexec_fn=limited(resource.RLIMIT_FSIZE, 13029))
        self.assertEqual(self.names(), ["output"])

    def test_standard_output_that_fails(self):
        with open("/dev/full", "wb") as full:
            run = self.run_command("check", stdin=example(), stdout=full)
        self.assertEqual(run.returncode, 1)
        self.assertIn(b"standard output: can't be written", run.stderr)
        ours, theirs = os.pipe()
        os.close(ours)
        run = self.run_command("look", "--help", stdout=theirs)
        self.assertEqual((run.returncode, run.stderr), (1, b""))
        # The work is done by then, so that nobody reads of it is no trouble.
        output = self.folder / "output"
        run = self.run_command("read", SAMPLE, output, stdout=theirs)
        os.close(theirs)
        self.assertEqual((run.returncode, run.stderr), (0, b""))
        self.assertEqual(output.read_bytes(), reels.record_of(SAMPLE.read_bytes()))

    def test_names_that_are_no_text(self):
        strange = os.fsencode(self.folder) + b"/\xff\xfe.sgy"
        shutil.copy(SAMPLE, strange)
        run = subprocess.run([str(COMMAND).encode(), b"read", strange, strange + b".record"], capture_output=True, timeout=SECONDS)
        self.assertEqual((run.returncode, run.stderr), (0, b""))
        with open(strange + b".record", "rb") as file:
            self.assertEqual(file.read(), reels.record_of(SAMPLE.read_bytes()))


class Large(Case):
    """A reel of 32 MB, whose work is long enough to be shown, killed and refused for want of memory."""

    N, T = 8000, 1000

    @classmethod
    def setUpClass(cls):
        cls.reel = Path(ROOM) / "large.sgy"
        trace = make_trace([bytes.fromhex("41100000")] * cls.N)
        cls.reel.write_bytes(make_reel(2000, cls.N, 1) + trace * cls.T)
        cls.length = reels.record_length(cls.T, cls.N)

    @classmethod
    def tearDownClass(cls):
        cls.reel.unlink()

    def terminal(self, *words, **named):
        """What the command says on a terminal that is its standard error."""
        ours, theirs = pty.openpty()
        run = self.run_command(*words, stderr=theirs, **named)
        os.close(theirs)
        said = b""
        try:
            while piece := os.read(ours, 65536):
                said += piece
        except OSError:  # the end, as a terminal tells it
            pass
        os.close(ours)
        self.assertEqual(run.returncode, 0, said)
        return said.decode().replace("\r\n", "\n")

    def test_steps_on_a_terminal(self):
        output = self.folder / "output"
        said = self.terminal("read", self.reel, output)
        self.assertEqual(said, "".join(f"aukpocket: {what}\n" for what in (
            f"loading {self.reel}, 32 MB", f"making the record of {self.reel}, 48 MB", f"writing {output}, 48 MB")))
        self.assertEqual(output.stat().st_size, self.length)
        self.assertEqual(self.terminal("info", self.reel), "".join(f"aukpocket: {what}\n" for what in (
            f"loading {self.reel}, 32 MB", f"making the record of {self.reel}, 48 MB")))
        self.assertIn("aukpocket: reading the reel in code 3 again, 16 MB\n", self.terminal("verify", self.reel))
        # Where a sample has one byte, the record is six times as long as the reel, and its length is known before.
        small, new = self.folder / "small.sgy", self.folder / "new"
        self.assertEqual(self.terminal("write", output, 8, small), f"aukpocket: loading {output}, 48 MB\n")
        self.assertEqual(small.stat().st_size, 3600 + self.T * (240 + self.N))
        self.assertEqual(self.terminal("read", small, new), "".join(f"aukpocket: {what}\n" for what in (
            f"making the record of {small}, 48 MB", f"writing {new}, 48 MB")))
        self.assertEqual(new.read_bytes(), output.read_bytes())
        new.unlink()
        # So it is where each trace has a trailer.
        longer = self.file("eagle.sgy", eagle.with_trailers(self.reel.read_bytes(), [eagle.trailer()] * self.T))
        self.assertEqual(self.terminal("read", "--eagle", longer, new), "".join(f"aukpocket: {what}\n" for what in (
            f"loading {longer}, 33 MB", f"making the record of {longer}, 48 MB", f"writing {new}, 48 MB")))
        self.assertEqual(new.read_bytes(), output.read_bytes())
        self.assertTrue(self.terminal("verify", "--eagle", longer, new).endswith(f"aukpocket: comparing {new}, 48 MB\n"))
        longer.unlink()
        new.unlink()
        # And where some traces of the record, or all, have the earlier form. What is read again has the new one.
        bytes_of_new, stride = output.read_bytes(), 189 + 6 * self.N
        traces = [bytes_of_new[place : place + stride] for place in range(3266, self.length - 7, stride)]
        joined = [trace[:184] + (6 * self.N).to_bytes(2, "big") + trace[186:36_186] + trace[36_189:] for trace in traces]
        for kept in (traces, joined, joined[:400] + traces[400:]):
            path = self.file("kept", bytes_of_new[:3266] + b"".join(kept) + bytes_of_new[-7:])
            self.assertEqual(self.terminal("write", path, 3, new, "--nearest"), "".join(f"aukpocket: {what}\n" for what in (
                f"loading {path}, 48 MB", f"making the reel of {path} in code 3, 16 MB", "reading the reel in code 3 again, 16 MB",
                f"writing {new}, 16 MB")))
            new.unlink()
        path.unlink()
        said = self.terminal("verify", self.reel, output)
        self.assertTrue(said.endswith(f"aukpocket: summing {self.reel}, 32 MB\naukpocket: comparing {output}, 48 MB\n"), said)
        listing, new = self.file("listing", b"\n" * 40), self.folder / "new"
        said = self.terminal("cards", output, listing, new, "--utf8")
        self.assertEqual(said, "".join(f"aukpocket: {what}\n" for what in (
            f"loading {output}, 48 MB", f"giving {output} the cards of {listing}, 48 MB", f"writing {new}, 48 MB",
        )) + f"aukpocket: {listing}: lines 1 to 40 were filled with blanks to column 80\n")
        self.assertEqual(new.read_bytes(), output.read_bytes())
        new.unlink()
        self.assertEqual(self.terminal("compare", output, output), f"aukpocket: comparing {output} with {output}, 96 MB\n")
        self.assertEqual(self.terminal("sort", output, output), (
            f"aukpocket: judging {output}, 48 MB\n" * 2 + f"aukpocket: comparing {output} with {output}, 96 MB\n"))
        self.assertEqual(self.terminal("read", SAMPLE, self.folder / "small"), "")
        self.fine("read", self.reel, output, "--force")
        with open(self.reel, "rb") as file:
            self.assertEqual(self.fine("check", stdin=file), f"taken {self.T} {self.N} {self.length} 0\n")

    def test_killed_at_any_time(self):
        output = self.folder / "output"
        for i in range(12):
            run = subprocess.Popen([str(COMMAND), "read", str(self.reel), str(output)], stdout=subprocess.DEVNULL)
            time.sleep(0.01 * i)
            run.kill()
            run.wait()
            if output.exists():
                self.assertEqual(output.stat().st_size, self.length)
                output.unlink()

    def test_too_large_for_memory(self):
        limit = limited(resource.RLIMIT_AS, 60 * MEGABYTE)
        output = self.folder / "output"
        said = self.trouble(1, "read", self.reel, output, preexec_fn=limit)
        self.assertIn("its record: too large for the memory that this run may have: 48 MB are needed", said)
        # There is room for the reel: `info` shows all but the count. `check` has no line without one.
        self.assertEqual(self.fine("info", self.reel, "--cards", 0, preexec_fn=limit, warned=(
            f"aukpocket: warning: {said}: its words that aren't normal weren't counted\n")), (
            f"file      {self.reel}, {self.reel.stat().st_size} bytes\nkind      reel\ntraces    {self.T}\nsamples   {self.N} a trace\n"
            f"interval  2000 microseconds\ncode      1, IBM floating point\nrecord    {self.length} bytes\n"))
        with open(self.reel, "rb") as file:
            self.assertEqual(self.trouble(1, "check", stdin=file, preexec_fn=limit), said.replace(str(self.reel), "standard input"))
        # A refused reel has no record, and is refused as ever.
        cut = self.file("cut.sgy", self.reel.read_bytes()[:-1])
        self.assertIn("refused by 5: ", self.trouble(2, "info", cut, preexec_fn=limit, stdout=None))
        with open(cut, "rb") as file:
            self.trouble(2, "check", stdin=file, preexec_fn=limit, stdout=f"refused 5 {3600 + (self.T - 1) * (240 + 4 * self.N)}\n")
        cut.unlink()
        limit = limited(resource.RLIMIT_AS, 20 * MEGABYTE)
        said = self.trouble(1, "info", self.reel, preexec_fn=limit)
        self.assertIn("large.sgy: too large for the memory that this run may have: 32 MB are needed", said)
        with open(self.reel, "rb") as file:
            said = self.trouble(1, "check", stdin=file, preexec_fn=limit)
        self.assertIn("standard input: too large for the memory", said)
        # Nearest writing has a second record in memory too, and without it nothing is written.
        record = self.folder / "record"
        self.fine("read", self.reel, record)
        limit = limited(resource.RLIMIT_AS, 80 * MEGABYTE)
        said = self.trouble(1, "write", record, 8, output, "--nearest", preexec_fn=limit)
        self.assertEqual(said, f"{record}: a second record: too large for the memory that this run may have: 48 MB are needed")
        self.assertFalse(output.exists())
        self.fine("write", record, 8, output, preexec_fn=limit)
        output.unlink()
        # Two records are mapped at a time, however many there are; where even they have no room, it is said.
        last = self.length - 7 - 6
        os.link(record, self.folder / "same")
        with open(record, "rb") as file:
            whole = file.read()
        for name, m in (("less", -1), ("more", 3)):
            self.file(name, with_bytes(whole, last, pair_bytes(0, m)))
        names = ("more", "record", "less", "same", "record", "same")
        self.assertEqual(self.fine("sort", *names, cwd=self.folder, preexec_fn=limited(resource.RLIMIT_AS, 110 * MEGABYTE)), (
            "less\nrecord\n= record\n= same\n= same\nmore\n"))
        self.assertIn(" is equal to ", self.fine("compare", record, self.folder / "same", preexec_fn=limited(resource.RLIMIT_AS, 110 * MEGABYTE)))
        self.assertIn("record: too large for the memory that this run may have: 48 MB are needed", self.trouble(1, "compare", record, record, preexec_fn=limit))
        for name in ("record", "same", "less", "more"):
            (self.folder / name).unlink()
        huge = self.file("huge.sgy", SAMPLE.read_bytes())
        try:
            os.truncate(huge, 10**12)
        except OSError:
            return  # the file system has no files of that size
        for words in (("read", huge, output), ("info", huge), ("verify", huge)):
            said = self.trouble(1, *words)
            self.assertIn("huge.sgy: too large for this machine's memory: 1000 GB are needed, and ", said)
        self.assertEqual(self.names(), ["huge.sgy"])


class Built(Case):
    def built(self, *words, **named):
        run = subprocess.run(list(map(str, words)), capture_output=True, text=True, timeout=SECONDS, **named)
        self.assertEqual((run.returncode, run.stdout + run.stderr), (0, ""), words)


# A library that calls the proved one and is wrong in one way.
WRONG_LIBRARY = r"""
#include "aukpocket.h"
#include <stdio.h>
#include <stdlib.h>
#include <string.h>
struct aukpocket_reel_answer proved_read_reel(const uint8_t *, size_t, uint8_t *, size_t);
struct aukpocket_reel_answer proved_read_eagle(const uint8_t *, size_t, uint8_t *, size_t);
struct aukpocket_reel_answer proved_write_reel(const uint8_t *, size_t, uint32_t, uint8_t *, size_t);
struct aukpocket_reel_answer proved_write_nearest(const uint8_t *, size_t, uint32_t, uint8_t *, size_t);
struct aukpocket_reel_answer proved_list_cards(const uint8_t *, size_t, uint8_t *, size_t);
struct aukpocket_order_answer proved_compare(const uint8_t *, size_t, const uint8_t *, size_t);
uint64_t proved_blank_eight(uint64_t);
static int wrong(const char *way) { return getenv("WRONG") != NULL && strcmp(getenv("WRONG"), way) == 0; }
static int reads;
struct aukpocket_reel_answer aukpocket_read_reel(const uint8_t *reel, size_t reel_length, uint8_t *record, size_t record_length)
{
    struct aukpocket_reel_answer trailer = {20, 0, 0, 0, 3846, 0, 0}, answer = proved_read_reel(reel, reel_length, record, record_length);
    if (wrong("plain trailer"))
        return trailer;
    reads += 1;
    if (wrong("byte") && reads == 2)
        record[answer.length - 8] ^= 0x02;
    if (wrong("count") && reads == 3)
        answer.traces += 1;
    if (wrong("length"))
        answer.length += 1;
    if (wrong("place"))
        answer.beside = 1;
    if (wrong("refusal"))
        answer.number = 5;
    if (wrong("normal") && reads == 2)
        answer.not_normal = 3;
    if (wrong("many"))
        answer.not_normal = answer.traces * answer.samples + 1;
    if (wrong("counted") && answer.number != 0)
        answer.not_normal = 1;
    if (wrong("normal again") && reads == 1)
        answer.not_normal = 3;
    if (wrong("read changed"))
        answer.changed = 1;
    return answer;
}
struct aukpocket_reel_answer aukpocket_read_eagle(const uint8_t *reel, size_t reel_length, uint8_t *record, size_t record_length)
{
    struct aukpocket_reel_answer refused = {0, 0, 0, 0, 3840, 0, 0}, answer = proved_read_eagle(reel, reel_length, record, record_length);
    refused.number = wrong("eagle gain") ? 9 : wrong("eagle infinity") ? 19 : wrong("eagle number") ? 21 : 0;
    if (refused.number != 0)
        return refused;
    if (wrong("eagle length"))
        answer.length += 1;
    if (wrong("eagle place"))
        answer.beside = 1;
    if (wrong("eagle many"))
        answer.not_normal = answer.traces * answer.samples + 1;
    if (wrong("eagle counted") && answer.number != 0)
        answer.not_normal = 1;
    if (wrong("eagle changed"))
        answer.changed = 1;
    return answer;
}
struct aukpocket_reel_answer aukpocket_list_cards(const uint8_t *record, size_t record_length, uint8_t *listing, size_t length)
{
    struct aukpocket_reel_answer answer = proved_list_cards(record, record_length, listing, length);
    if (wrong("traces"))
        answer.traces += 1;
    if (wrong("listed"))
        answer.not_normal = 1;
    if (wrong("listed changed"))
        answer.changed = 1;
    return answer;
}
struct aukpocket_order_answer aukpocket_compare(const uint8_t *first, size_t first_length, const uint8_t *second, size_t second_length)
{
    struct aukpocket_order_answer answer = proved_compare(first, first_length, second, second_length);
    int fronts = first_length == 3273 && second_length == 3273;
    if (wrong("order noted"))
        fputc(fronts ? 'f' : second_length == 3273 ? 'j' : 'w', stderr);
    if (wrong("order lesser"))
        answer.order = -1;
    if (wrong("order equal"))
        answer.order = 0;
    if (wrong("order turned"))
        answer.order = -answer.order;
    if (wrong("order two"))
        answer.order = 2;
    if (wrong("order place"))
        answer.beside = 1;
    if (wrong("order which"))
        answer.which = 2;
    if (wrong("order refused") && answer.number != 0)
        answer.order = 1;
    if (wrong("order cause") && answer.number != 0)
        answer.number = 10;
    if (wrong("order third") && answer.number != 0)
        answer.which = 3;
    if (wrong("order far") && answer.number != 0)
        answer.beside = first_length + second_length + 1;
    if ((wrong("order of fronts") && fronts) || (wrong("order of records") && first_length == second_length && !fronts))
        answer.number = 12, answer.order = 0, answer.which = 1, answer.beside = 0;
    return answer;
}
uint64_t aukpocket_blank_eight(uint64_t cards)
{
    return wrong("zeros") ? cards : proved_blank_eight(cards);
}
struct aukpocket_reel_answer aukpocket_write_reel(const uint8_t *record, size_t record_length, uint32_t code, uint8_t *reel, size_t length)
{
    struct aukpocket_reel_answer unfit = {14, 0, 0, 0, 3452, 0, 0}, invalid = {13, 0, 0, 0, 3, 0, 0}, answer;
    if (wrong("own") && code == 1)
        return unfit;
    if (wrong("valid") && code == 4)
        return invalid;
    answer = proved_write_reel(record, record_length, code, reel, length);
    if (wrong("written"))
        answer.not_normal = 1;
    if (wrong("written changed"))
        answer.changed = 1;
    return answer;
}
struct aukpocket_reel_answer aukpocket_write_nearest(const uint8_t *record, size_t record_length, uint32_t code, uint8_t *reel, size_t length)
{
    struct aukpocket_reel_answer unfit = {14, 0, 0, 0, 3452, 0, 0}, answer;
    if (wrong("nearest unfit"))
        return unfit;
    answer = proved_write_nearest(record, record_length, code, reel, length);
    if (wrong("nearest refused") && answer.number != 0)
        answer.changed = 1;
    if (answer.number != 0)
        return answer;
    if (wrong("nearest fewer"))
        answer.changed -= 1;
    if (wrong("nearest many"))
        answer.changed = answer.traces * answer.samples + 1;
    if (wrong("nearest normal"))
        answer.not_normal = 1;
    if (wrong("nearest sample"))
        reel[answer.length - 1] ^= 0x01;
    if (wrong("nearest header"))
        reel[3603] ^= 0x01;
    if (wrong("nearest card"))
        reel[0] ^= 0x01;
    if (wrong("nearest code"))
        reel[3225] = 9;
    return answer;
}
"""


class Wrong(Built):
    """The command over a library that is wrong, or missing."""

    def test_verify_finds_a_difference(self):
        library, command = self.folder / "libaukpocket.a", self.folder / "command"
        calls = ("read_reel", "read_eagle", "write_reel", "write_nearest", "list_cards", "compare", "blank_eight")
        self.built("objcopy", *(f"--redefine-sym=aukpocket_{call}=proved_{call}" for call in calls), ARCHIVE, library)
        wrong = self.file("wrong.c", WRONG_LIBRARY.encode())
        self.built("cc", "-I", TOP / "include", "-c", wrong, "-o", self.folder / "wrong.o")
        self.built("ar", "r", library, self.folder / "wrong.o")
        rustc = ["rustc", "--edition", "2021", "--out-dir", self.folder]
        self.built(*rustc, "--crate-type", "rlib", "--crate-name", "aukpocket", TOP / "cli/src/library.rs",
                   "-L", f"native={self.folder}", "-l", "static=aukpocket")
        self.built(*rustc, "--crate-name", "command", TOP / "cli/src/main.rs", "--extern", f"aukpocket={self.folder}/libaukpocket.rlib",
                   env={**os.environ, "CARGO_PKG_VERSION": "0.0.0"})
        trailers = self.file("eagle.sgy", eagle.with_trailers(SAMPLE.read_bytes(), [eagle.trailer()] * 6))
        for way, code, part in (
            ("none", None, ""), ("byte", 1, "the records differ from place 13021 on"), ("count", 4, "the counts of the record differ"),
            ("own", 1, "refused by 14: "), ("valid", 4, "refused by 13: a card byte is 00"),
            ("normal", 1, "3 words of the written reel aren't normal"),
        ):
            for path, *option in ((SAMPLE,), (trailers, "--eagle")):
                run = subprocess.run([command, "verify", path, *option], capture_output=True, text=True, env={"WRONG": way}, timeout=SECONDS)
                if code is None:
                    self.assertEqual((run.returncode, run.stderr), (0, ""))
                    continue
                self.assertEqual(run.returncode, 3, run)
                self.assertIn(f"code {code}: DIFFERENT; {part}", run.stdout)
                self.assertEqual(run.stderr, f"aukpocket: {path}: came back otherwise in code {code}; keep the tape, and report this\n")
        # A length beyond the output is never believed, and no number of an answer is dropped.
        record = self.file("record", reels.record_of(SAMPLE.read_bytes()))
        cut, none = self.file("cut.sgy", SAMPLE.read_bytes()[:-1]), self.folder / "none"
        zero = self.file("zero.sgy", with_bytes(SAMPLE.read_bytes(), 80, b"\0"))
        for way, words, said in (
            ("length", ("read", SAMPLE, none), "the library tells of 13030 bytes in an output of 13029"),
            ("place", ("read", SAMPLE, none), "the library tells of a place without a cause"),
            ("refusal", ("read", SAMPLE, none), "the library tells of counts beside a refusal"),
            ("traces", ("cards", record), "the library tells of other counts than a listing has"),
            ("zeros", ("info", zero), "a record without traces is valid: Refusal { number: 13, beside: 83 }"),
            ("many", ("read", SAMPLE, none), "the library tells of 1441 words that aren't normal where 1440 were read"),
            ("counted", ("read", cut, none), "the library tells of counts beside a refusal"),
            ("listed", ("cards", record), "the library tells of 1 words that aren't normal where 0 were read"),
            ("written", ("write", record, "1", none), "the library tells of 1 words that aren't normal where 0 were read"),
            ("read changed", ("read", SAMPLE, none), "the library tells of 1 samples that changed where 0 were written by nearest values"),
            ("listed changed", ("cards", record), "the library tells of 1 samples that changed where 0 were written by nearest values"),
            ("written changed", ("write", record, "1", none), "the library tells of 1 samples that changed where 0 were written by nearest values"),
            ("plain trailer", ("read", SAMPLE, none), "the library refuses a reel by 20, which is no cause in its layout"),
            ("eagle gain", ("read", "--eagle", trailers, none), "the library refuses a reel by 9, which is no cause in its layout"),
            ("eagle infinity", ("read", "--eagle", trailers, none), "the library refuses a reel by 19, which is no cause in its layout"),
            ("eagle number", ("read", "--eagle", trailers, none), "the library refuses by 21, which is no cause"),
            ("eagle length", ("read", "--eagle", trailers, none), "the library tells of 13030 bytes in an output of 13029"),
            ("eagle place", ("read", "--eagle", trailers, none), "the library tells of a place without a cause"),
            ("eagle many", ("read", "--eagle", trailers, none), "the library tells of 1441 words that aren't normal where 1440 were read"),
            ("eagle counted", ("read", "--eagle", cut, none), "the library tells of counts beside a refusal"),
            ("eagle changed", ("read", "--eagle", trailers, none),
             "the library tells of 1 samples that changed where 0 were written by nearest values"),
            ("nearest unfit", ("write", record, "3", none, "--nearest"), "the library refuses nearest writing by 14"),
            ("nearest refused", ("write", record, "6", none, "--nearest"), "the library tells of counts beside a refusal"),
            ("nearest many", ("write", record, "3", none, "--nearest"),
             "the library tells of 1441 samples that changed where 1440 were written by nearest values"),
            ("nearest normal", ("write", record, "3", none, "--nearest"), "the library tells of 1 words that aren't normal where 0 were read"),
            ("order two", ("compare", record, record), "the library tells of the order 2, which is none"),
            ("order place", ("compare", record, record), "the library tells of a place without a cause"),
            ("order which", ("sort", record, record), "the library tells of a record without a cause"),
            ("order refused", ("compare", record, cut), "the library tells of an order beside a refusal"),
            ("order cause", ("sort", cut), "the library refuses a record by 10, which is no cause where two are compared"),
            ("order third", ("compare", cut, record), "the library refuses record 3 of two"),
            ("order far", ("compare", record, cut), "the library tells of place 23829 in a record of 10799 bytes"),
        ):
            run = subprocess.run([command, *words], capture_output=True, text=True, env={"WRONG": way}, timeout=SECONDS)
            self.assertNotIn(run.returncode, (0, 2))
            self.assertIn(said, run.stderr)
            self.assertFalse(none.exists())
        # An order that the bytes don't bear out is never told, and no list is made of what contradicts itself.
        less = self.file("less", with_bytes(record.read_bytes(), place_of_pair(6, 240, 240), pair_bytes(0, -1)))
        sample = f"trace 6, sample 240 is {{}} in the first record and {{}} in the second (place {place_of_pair(6, 240, 240)})"
        lesser, greater = sample.format("-1 * 2^0 (-1)", "0 * 2^0 (0)"), sample.format("0 * 2^0 (0)", "-1 * 2^0 (-1)")
        same = "they hold the same, 6 traces of 240 samples, byte for byte"
        says = "the library says that the first record is {} the second, and by their bytes it is {} it: {}"
        front = "the library doesn't say that it is greater than the same record without traces"
        for way, words, said in (
            ("order turned", ("compare", less, record), f"{less}, {record}: {says.format('greater than', 'lesser than', lesser)}"),
            ("order turned", ("compare", record, less), f"{record}, {less}: {says.format('lesser than', 'greater than', greater)}"),
            ("order equal", ("compare", less, record), f"{less}, {record}: {says.format('equal to', 'lesser than', lesser)}"),
            ("order lesser", ("compare", record, less), f"{record}, {less}: {says.format('lesser than', 'greater than', greater)}"),
            ("order lesser", ("compare", record, record), f"{record}, {record}: {says.format('lesser than', 'equal to', same)}"),
            ("order turned", ("sort", less, record), f"{less}: {front}"), ("order equal", ("sort", record), f"{record}: {front}"),
        ):
            run = subprocess.run([command, *words], capture_output=True, text=True, env={"WRONG": way}, timeout=SECONDS)
            self.assertEqual((run.returncode, run.stdout, run.stderr), (3, "", f"aukpocket: {said}; report this\n"))
        for way in ("order of fronts", "order of records"):
            run = subprocess.run([command, "sort", record, less], capture_output=True, text=True, env={"WRONG": way}, timeout=SECONDS)
            self.assertEqual((run.returncode, run.stdout), (3, ""))
            self.assertRegex(run.stderr, r"^aukpocket: .*: refused by 12: .*; it was taken before; report this\n$")
        # Each record is judged once; most are then told apart by their fronts, and whole only where these are the same.
        numbered = [self.file(f"{i:02}", with_bytes(record.read_bytes(), 3, bytes([1 + 37 * i % 64]))) for i in range(64)]
        for paths, fronts, whole in ((numbered, range(63, 64 * 6), (0,)), ([record, less], (1,), (1,)), ([record] * 32, (31,), (31,))):
            run = subprocess.run([command, "sort", *paths], capture_output=True, text=True, env={"WRONG": "order noted"}, timeout=SECONDS)
            self.assertEqual((run.returncode, run.stderr.count("j"), len(run.stdout.splitlines())), (0, len(paths), len(paths)))
            self.assertIn(run.stderr.count("f"), fronts)
            self.assertIn(run.stderr.count("w"), whole)
        # A reel by nearest values that isn't what was counted never gets its name.
        for way, code, said in (
            ("nearest fewer", 3, "342 samples changed, and 341 were counted"), ("nearest sample", 3, "343 samples changed, and 342 were counted"),
            ("nearest header", 5, "the records differ in more than samples"), ("nearest card", 3, "the records differ in more than samples"),
            ("nearest code", 8, "refused by 2: the format code is 9, not 1, 2, 3, 4, 5 or 8 (place 3224: binary header, field 3225, code)"),
            ("normal again", 1, "3 of its words aren't normal"), ("none", 3, None),
        ):
            run = subprocess.run([command, "write", record, str(code), none, "--nearest"], capture_output=True, text=True, env={"WRONG": way},
                                 timeout=SECONDS)
            if said is None:
                self.assertEqual((run.returncode, run.stderr, none.exists()), (0, "", True))
                continue
            self.assertEqual((run.returncode, run.stdout, run.stderr), (3, "", (
                f"aukpocket: {record}: came back otherwise in code {code}: {said}; nothing was written; report this\n")))
            self.assertFalse(none.exists())

    def test_a_missing_library(self):
        shutil.copytree(TOP / "cli", self.folder / "cli", ignore=shutil.ignore_patterns("target"))
        run = subprocess.run(
            ["cargo", "build", "--offline"], cwd=self.folder / "cli", capture_output=True, text=True, timeout=SECONDS,
            env={**os.environ, "CARGO_TARGET_DIR": str(self.folder / "built")})
        self.assertNotEqual(run.returncode, 0)
        self.assertIn("is missing: run `make` in the repository's root, which makes it.", run.stderr)


# Stops a run when half of the sample's record is written, until it is told to go on.
HALFWAY = r"""
#define _GNU_SOURCE
#include <dlfcn.h>
#include <signal.h>
#include <unistd.h>
ssize_t write(int fd, const void *bytes, size_t count)
{
    ssize_t (*next)(int, const void *, size_t) = (ssize_t (*)(int, const void *, size_t))dlsym(RTLD_NEXT, "write");
    ssize_t half;
    if (count != 13029)
        return next(fd, bytes, count);
    half = next(fd, bytes, 6514);
    raise(SIGSTOP);
    return half;
}
"""


class Halfway(Built):
    """A run that is ended while it writes. It stops by itself there, so that no clock plays a part."""

    def setUp(self):
        super().setUp()
        library = Path(ROOM) / "halfway.so"
        if not library.exists():
            self.built("cc", "-shared", "-fPIC", "-o", library, self.file("halfway.c", HALFWAY.encode()), "-ldl")
            (self.folder / "halfway.c").unlink()
        self.preload = {"LD_PRELOAD": str(library)}
        self.output = self.folder / "output"
        self.record = reels.record_of(SAMPLE.read_bytes())

    def halfway(self, *words, ignored=()):
        """A run that has written half its output, and the temporary file that it has written it to."""
        run = subprocess.Popen([str(COMMAND), "read", str(SAMPLE), str(self.output), *words], stdout=subprocess.DEVNULL,
                               env={**os.environ, **self.preload}, preexec_fn=with_signals(*ignored))
        self.addCleanup(lambda: (run.kill(), run.wait(SECONDS)))  # a test that fails leaves it stopped
        self.assertTrue(os.WIFSTOPPED(os.waitpid(run.pid, os.WUNTRACED)[1]))
        temporary, = self.folder.glob("*.partial")
        self.assertEqual(temporary.read_bytes(), self.record[:6514])
        return run, temporary

    def ended(self, run, number):
        run.send_signal(number)
        run.send_signal(signal.SIGCONT)
        return run.wait(SECONDS)

    def test_killed(self):
        for before, words in ((None, ()), (b"old", ("--force",))):
            if before is not None:
                self.output.write_bytes(before)
            run, temporary = self.halfway(*words)
            self.assertEqual(self.ended(run, signal.SIGKILL), -signal.SIGKILL)
            self.assertEqual(self.output.read_bytes() if self.output.exists() else None, before)
            temporary.unlink()

    def test_told_to_end(self):
        """Unlike a kill, a signal that asks for the end leaves no temporary file either."""
        for number in (signal.SIGINT, signal.SIGTERM, signal.SIGHUP):
            run, _ = self.halfway()
            self.assertEqual(self.ended(run, number), -number)
            self.assertEqual(self.names(), [])

    def test_told_to_end_where_that_is_ignored(self):
        for number in (signal.SIGINT, signal.SIGTERM, signal.SIGHUP):
            run, _ = self.halfway(ignored=(number,))
            self.assertEqual(self.ended(run, number), 0)
            self.assertEqual((self.names(), self.output.read_bytes()), (["output"], self.record))
            self.output.unlink()


# Stops a run where it has mapped a file as long as the sample's record, until it is told to go on.
MAPPED = r"""
#define _GNU_SOURCE
#include <dlfcn.h>
#include <signal.h>
#include <sys/mman.h>
void *mmap(void *at, size_t length, int access, int kind, int file, off_t place)
{
    void *(*next)(void *, size_t, int, int, int, off_t) = (void *(*)(void *, size_t, int, int, int, off_t))dlsym(RTLD_NEXT, "mmap");
    void *mapped = next(at, length, access, kind, file, place);
    if (length == 13029)
        raise(SIGSTOP);
    return mapped;
}
"""


class Mapped(Built):
    """Records that are changed or cut while they are compared. The run stops by itself where each is mapped, so that no clock plays a part."""

    def setUp(self):
        super().setUp()
        library = Path(ROOM) / "mapped.so"
        if not library.exists():
            self.built("cc", "-shared", "-fPIC", "-o", library, self.file("mapped.c", MAPPED.encode()), "-ldl")
            (self.folder / "mapped.c").unlink()
        self.preload = {"LD_PRELOAD": str(library)}
        self.record = reels.record_of(SAMPLE.read_bytes())
        self.last = place_of_pair(6, 240, 240)

    def stopped(self, *words, stops, then):
        """Does something at one of the places where a run stops; what the run then says, and its status."""
        for name, m in (("one", 1), ("other", 3)):
            (self.folder / name).unlink(missing_ok=True)
            self.file(name, with_bytes(self.record, self.last, pair_bytes(0, m)))
        run = subprocess.Popen([str(COMMAND), *words], stdout=subprocess.PIPE, stderr=subprocess.PIPE, cwd=self.folder,
                               env={**os.environ, **self.preload}, preexec_fn=with_signals())
        self.addCleanup(lambda: (run.kill(), run.wait(SECONDS), run.stdout.close(), run.stderr.close()))
        for stop in range(1, stops + 1):
            self.assertTrue(os.WIFSTOPPED(os.waitpid(run.pid, os.WUNTRACED)[1]))
            if stop == stops:
                then()
            run.send_signal(signal.SIGCONT)
        while os.WIFSTOPPED(status := os.waitpid(run.pid, os.WUNTRACED)[1]):
            run.send_signal(signal.SIGCONT)
        run.returncode = os.waitstatus_to_exitcode(status)
        return run.returncode, run.stdout.read().decode(), run.stderr.read().decode()

    def change(self, name):
        """Another state of a file, which has the same bytes."""
        def then():
            path = self.folder / name
            path.write_bytes(path.read_bytes())
            os.utime(path, ns=(0, 0))
        return then

    def cut(self, name):
        return lambda: os.truncate(self.folder / name, 0)

    def test_compare(self):
        self.assertEqual(self.stopped("compare", "one", "other", stops=2, then=lambda: None)[0::2], (4, ""))
        for name in ("one", "other"):
            self.assertEqual(self.stopped("compare", "one", "other", stops=2, then=self.change(name)), (
                1, "", f"aukpocket: {name}: was changed while it was read\n"))
            self.assertEqual(self.stopped("compare", "one", "other", stops=2, then=self.cut(name)), (
                1, "", "aukpocket: one or other: was cut while it was read, or can't be read from its disk\n"))
        # One that is cut before the second is mapped.
        self.assertEqual(self.stopped("compare", "one", "other", stops=1, then=self.cut("one"))[:2], (1, ""))

    def test_sort(self):
        """Each is mapped to be judged, and both once more, since their fronts are the same."""
        self.assertEqual(self.stopped("sort", "one", "other", stops=4, then=lambda: None), (0, "one\nother\n", ""))
        changed = "aukpocket: {}: was changed while it was read\n"
        no_list = "aukpocket: sort: 1 of 2 wasn't taken, so there is no list\n"
        lost = "aukpocket: {}: was cut while it was read, or can't be read from its disk\n"
        for stops, then, said in (
            (1, self.change("one"), changed.format("one") + no_list), (2, self.change("other"), changed.format("other") + no_list),
            (2, self.change("one"), changed.format("one")), (3, self.change("one"), changed.format("one")),
            (3, self.change("other"), changed.format("other")), (4, self.change("one"), changed.format("one")),
            (4, self.change("other"), changed.format("other")), (1, self.cut("one"), lost.format("one")),
            (2, self.cut("other"), lost.format("other")), (2, self.cut("one"), changed.format("one")),
            (4, self.cut("one"), lost.format("one or other")), (4, self.cut("other"), lost.format("one or other")),
        ):
            self.assertEqual(self.stopped("sort", "other", "one", stops=stops, then=then), (1, "", said), (stops, said))


# Notes each sync, link and rename of a run.
NOTES = r"""
#define _GNU_SOURCE
#include <dlfcn.h>
#include <stdio.h>
#include <stdlib.h>
#include <sys/stat.h>
#include <unistd.h>
static void note(const char *what)
{
    FILE *file = fopen(getenv("NOTES"), "a");
    fprintf(file, "%s\n", what);
    fclose(file);
}
int fsync(int fd)
{
    struct stat about;
    fstat(fd, &about);
    note(S_ISDIR(about.st_mode) ? "sync folder" : about.st_size == 13029 ? "sync file" : "sync part");
    return ((int (*)(int))dlsym(RTLD_NEXT, "fsync"))(fd);
}
int linkat(int a, const char *from, int b, const char *to, int flags)
{
    note("link");
    if (getenv("NO_LINKS") != NULL)
        return ((int (*)(int, const char *, int, const char *, int))dlsym(RTLD_NEXT, "linkat"))(-1, "", -1, "", -1);
    return ((int (*)(int, const char *, int, const char *, int))dlsym(RTLD_NEXT, "linkat"))(a, from, b, to, flags);
}
int rename(const char *from, const char *to)
{
    note("rename");
    return ((int (*)(const char *, const char *))dlsym(RTLD_NEXT, "rename"))(from, to);
}
"""


class Synced(Built):
    def test_order(self):
        """The whole file is synced before it has its name, and the folder after; where there are no links it is renamed."""
        library, notes, output = self.folder / "notes.so", self.folder / "notes", self.folder / "output"
        self.built("cc", "-shared", "-fPIC", "-o", library, self.file("notes.c", NOTES.encode()), "-ldl")
        for more, force, steps in (
            ({}, (), ["sync file", "link", "sync folder"]), ({}, ("--force",), ["sync file", "rename", "sync folder"]),
            ({"NO_LINKS": "1"}, (), ["sync file", "link", "rename", "sync folder"]),
        ):
            if not force:
                output.unlink(missing_ok=True)
            self.fine("read", SAMPLE, output, *force, env={"LD_PRELOAD": str(library), "NOTES": str(notes), **more})
            self.assertEqual(notes.read_text().splitlines(), steps)
            self.assertEqual(output.read_bytes(), reels.record_of(SAMPLE.read_bytes()))
            notes.unlink()


# Every call by its declaration in the header.
EVERY_CALL = r"""
#include <string.h>
static unsigned char reel[3848], eagle[4808], record[3471], again[3848], listing[3241], out[3472];
static unsigned char long_reel[9841], long_record[39469], earlier[39465], long_again[9841], taken_back[39466];
/* One trace of 6,001 samples of a byte each: two fields in the record, or the earlier single one, which gives the same reel. */
static int long_trace(void)
{
    struct aukpocket_reel_answer answer;
    struct aukpocket_order_answer order;
    size_t k;
    memset(long_reel, 0x40, 3200);
    long_reel[3217] = 1, long_reel[3220] = 0x17, long_reel[3221] = 0x71, long_reel[3225] = 8;
    for (k = 0; k < 6001; k++)
        long_reel[3840 + k] = (unsigned char)(k % 251);
    answer = aukpocket_read_reel(long_reel, 9841, long_record, 39467);
    if (answer.number != 10 || answer.beside != 39468)
        return 49;
    long_record[39468] = 0xEE;
    answer = aukpocket_read_reel(long_reel, 9841, long_record, 39469);
    if (answer.number != 0 || answer.traces != 1 || answer.samples != 6001 || answer.length != 39468 || long_record[39468] != 0xEE)
        return 50;
    if (memcmp("\4\214\240", long_record + 3449, 3) != 0 || memcmp("\4\0\6", long_record + 39452, 3) != 0)
        return 51;
    memcpy(earlier, long_record, 39452);
    memcpy(earlier + 39452, long_record + 39455, 13);
    earlier[3451] = 0xA6;
    answer = aukpocket_write_reel(earlier, 39465, 8, long_again, 9841);
    if (answer.number != 0 || answer.samples != 6001 || answer.length != 9841 || memcmp(long_reel + 3840, long_again + 3840, 6001) != 0)
        return 52;
    answer = aukpocket_write_nearest(earlier, 39465, 3, long_again, 0);
    if (answer.number != 10 || answer.beside != 15842)
        return 53;
    memset(taken_back, 0xEE, 39466);
    answer = aukpocket_read_reel(long_again, 9841, long_record, 39468);
    if (answer.number != 0 || answer.length != 39468 || long_record[39452] != 4 || long_record[39460] != 0xE3)
        return 54; /* the last sample, E3, is -29 */
    answer = aukpocket_list_cards(earlier, 39465, listing, 3240);
    if (answer.number != 0)
        return 55;
    answer = aukpocket_take_cards(earlier, 39465, listing, 3240, taken_back, 39466);
    if (answer.number != 0 || answer.length != 39465 || memcmp(earlier, taken_back, 39465) != 0 || taken_back[39465] != 0xEE)
        return 56;
    earlier[3451] = 0xA7;
    answer = aukpocket_write_reel(earlier, 39465, 8, long_again, 9841);
    if (answer.number != 12 || answer.beside != 3449)
        return 57;
    earlier[3451] = 0xA6; /* the same record in either form, and one with a lesser sample */
    order = aukpocket_compare(earlier, 39465, long_record, 39468);
    if (order.number != 0 || order.order != 0 || order.which != 0 || order.beside != 0)
        return 59;
    earlier[39457] = 0xE1;
    order = aukpocket_compare(earlier, 39465, long_record, 39468);
    if (order.number != 0 || order.order != -1)
        return 60;
    long_reel[3220] = 0x80;
    answer = aukpocket_read_reel(long_reel, 9841, long_record, 39469);
    return answer.number == 3 && answer.beside == 3220 ? 0 : 58;
}
/* The reel twice, as a line on two reels of a trace each. */
static int a_box(void)
{
    static unsigned char reels[7696];
    uint64_t lengths[2] = {3848, 3848};
    struct aukpocket_box_answer answer;
    memcpy(reels, reel, 3848);
    reels[3603] = 9, reels[3607] = 1; /* trace 9 of the line, the first of its reel */
    memcpy(reels + 3848, reels, 3848);
    reels[3848 + 3211] = 1, reels[3848 + 3603] = 10; /* the reels are 0 and 1 */
    answer = aukpocket_check_box(reels, 7696, lengths, 2);
    if (answer.number != 0 || answer.reels != 2 || answer.traces != 2 || answer.beside != 0)
        return 66;
    reels[3848 + 3603] = 11;
    answer = aukpocket_check_box(reels, 7696, lengths, 2);
    if (answer.number != 22 || answer.reels != 0 || answer.traces != 0 || answer.beside != 7448)
        return 67;
    answer = aukpocket_check_box(reels, 7695, lengths, 2);
    if (answer.number != 21 || answer.reels != 0 || answer.traces != 0 || answer.beside != 0)
        return 68;
    answer = aukpocket_check_box(reels, 0, lengths, 0);
    if (answer.number != 0 || answer.reels != 0 || answer.traces != 0 || answer.beside != 0)
        return 69;
    lengths[1] = 3599;
    answer = aukpocket_check_box(reels, 7447, lengths, 2);
    return answer.number == 1 && answer.reels == 0 && answer.traces == 0 && answer.beside == 3599 ? 0 : 70;
}
int main(void)
{
    const unsigned char word[4] = {0xC2, 0x76, 0xA0, 0x00}, pair[6] = {0xFF, 0xFD, 0xFF, 0xFF, 0xFC, 0x4B};
    const unsigned char words[8] = {0x42, 0x01, 0, 0, 0x80, 0, 0, 0}; /* 1 and 0, neither by its normal word */
    const unsigned char ieee[8] = {0x80, 0, 0, 0, 0xC2, 0xED, 0x40, 0}; /* a minus zero and -949 * 2^-3 */
    unsigned char word_out[4], pair_out[6];
    struct aukpocket_reel_answer read, written, listed, taken;
    struct aukpocket_field_answer field, none;
    struct aukpocket_sample_answer sample;
    struct aukpocket_order_answer order;

    memset(reel, 0x40, 3200);
    reel[3216] = 0x07, reel[3217] = 0xD0, reel[3221] = 2, reel[3225] = 1;
    reel[3668] = reel[3670] = 0xD8, reel[3669] = reel[3671] = 0xF0;
    reel[3714] = 0, reel[3715] = 2, reel[3716] = 0x07, reel[3717] = 0xD0;
    reel[3840] = 0x41, reel[3841] = 0x10;
    memcpy(reel + 3844, word, 4);
    read = aukpocket_read_reel(reel, 3848, record, 3471);
    if (read.number != 0 || read.traces != 1 || read.samples != 2 || read.length != 3471 || read.beside != 0 || read.not_normal != 0)
        return 1;
    written = aukpocket_write_reel(record, 3471, 1, again, 3848);
    if (written.number != 0 || written.length != 3848 || written.not_normal != 0 || memcmp(reel, again, 3848) != 0)
        return 2;
    if (read.changed != 0 || written.changed != 0)
        return 34;
    if (a_box() != 0)
        return a_box();
    order = aukpocket_compare(record, 3471, record, 3471);
    if (order.number != 0 || order.order != 0 || order.which != 0 || order.beside != 0)
        return 61;
    memcpy(out, record, 3471);
    out[3463] = 0x4D; /* -947 * 2^-3 in place of -949 * 2^-3 */
    order = aukpocket_compare(record, 3471, out, 3471);
    if (order.number != 0 || order.order != -1 || order.which != 0 || order.beside != 0)
        return 62;
    out[3268 + 1] = 0xFF; /* the trace's number in the line is negative */
    order = aukpocket_compare(record, 3471, out, 3471);
    if (order.number != 0 || order.order != 1 || order.which != 0 || order.beside != 0)
        return 63;
    order = aukpocket_compare(record, 3471, out, 3470);
    if (order.number != 12 || order.order != 0 || order.which != 2 || order.beside != 3464)
        return 64;
    out[3] = 0;
    order = aukpocket_compare(out, 3471, record, 0);
    if (order.number != 13 || order.order != 0 || order.which != 1 || order.beside != 3)
        return 65;
    memcpy(eagle, reel, 3848); /* the same with a trailer and a check */
    memset(eagle + 3848, 0x5A, 958);
    eagle[3198] = 0xE7, eagle[3199] = 0xF3, eagle[4806] = eagle[4807] = 0xFF, out[3471] = 0xEE;
    read = aukpocket_read_eagle(eagle, 4808, out, 3472);
    if (read.number != 0 || read.traces != 1 || read.samples != 2 || read.length != 3471 || read.beside != 0 || read.not_normal != 0)
        return 43;
    if (read.changed != 0 || memcmp(record, out, 3471) != 0 || out[3471] != 0xEE)
        return 44;
    read = aukpocket_read_eagle(eagle, 4808, out, 3470);
    if (read.number != 10 || read.traces != 0 || read.length != 0 || read.beside != 3471 || read.not_normal != 0)
        return 45;
    memcpy(eagle + 3840, words, 8);
    read = aukpocket_read_eagle(eagle, 4808, out, 3472);
    if (read.number != 0 || read.length != 3471 || read.not_normal != 2 || memcmp("\0\0\0\0\0\1", out + 3452, 6) != 0)
        return 46;
    memset(out, 0xEE, 3472);
    eagle[4807] = 0xFE;
    read = aukpocket_read_eagle(eagle, 4808, out, 3472);
    if (read.number != 20 || read.traces != 0 || read.length != 0 || read.beside != 4806 || read.not_normal != 0)
        return 47;
    eagle[3225] = 2;
    read = aukpocket_read_eagle(eagle, 4808, out, 3472);
    if (read.number != 2 || read.beside != 3224 || out[0] != 0xEE || memcmp(out, out + 1, 3471) != 0)
        return 48;
    written = aukpocket_write_reel(record, 3471, 2, again, 3848);
    if (written.number != 14 || written.traces != 0 || written.beside != 3458 || written.not_normal != 0 || written.changed != 0)
        return 3;
    written = aukpocket_write_nearest(record, 3471, 1, again, 3848);
    if (written.number != 0 || written.length != 3848 || written.changed != 0 || memcmp(reel, again, 3848) != 0)
        return 35;
    again[3844] = 0xEE;
    written = aukpocket_write_nearest(record, 3471, 3, again, 3848);
    if (written.number != 0 || written.traces != 1 || written.samples != 2 || written.length != 3844 || written.beside != 0)
        return 36;
    if (written.not_normal != 0 || written.changed != 1 || again[3225] != 3 || memcmp("\0\1\377\211\356", again + 3840, 5) != 0)
        return 37; /* 1, and -949 * 2^-3 became -119 */
    written = aukpocket_write_nearest(record, 3471, 3, again, 3843);
    if (written.number != 10 || written.traces != 0 || written.length != 0 || written.beside != 3844 || written.changed != 0)
        return 38;
    written = aukpocket_write_nearest(record, 3470, 6, again, 0);
    if (written.number != 11 || written.beside != 0 || written.changed != 0)
        return 39;
    written = aukpocket_write_nearest(record, 3470, 8, again, 0);
    if (written.number != 12 || written.beside != 3464 || written.changed != 0)
        return 40;
    field = aukpocket_look_up(reel, 3848, 1, 117);
    none = aukpocket_look_up(reel, 3848, ((size_t)1 << 32) + 1, 117);
    if (field.number != 0 || field.value != 2000 || none.number != 15 || none.value != 0)
        return 4;
    sample = aukpocket_read_word(1, word, pair_out);
    if (sample.number != 0 || sample.not_normal != 0 || memcmp(pair, pair_out, 6) != 0)
        return 5;
    sample = aukpocket_write_pair(1, pair, word_out);
    if (sample.number != 0 || sample.not_normal != 0 || memcmp(word, word_out, 4) != 0)
        return 6;
    sample = aukpocket_write_pair(3, pair, word_out);
    if (sample.number != 14 || sample.not_normal != 0 || memcmp("\0\0\0", word_out, 4) != 0)
        return 7;
    listing[3240] = out[3471] = 0xEE;
    listed = aukpocket_list_cards(record, 3471, listing, 3241);
    if (listed.number != 0 || listed.traces != 0 || listed.samples != 0 || listed.length != 3240 || listed.beside != 0)
        return 8;
    if (listed.not_normal != 0 || listed.changed != 0)
        return 23;
    if (listing[3238] != 0x20 || listing[3239] != 0x0A || listing[3240] != 0xEE)
        return 9;
    listing[81] = 'A';
    taken = aukpocket_take_cards(record, 3471, (const unsigned char *)listing, 3240, out, 3472);
    if (taken.number != 0 || taken.traces != 1 || taken.samples != 2 || taken.length != 3471 || taken.beside != 0 || taken.not_normal != 0)
        return 10;
    if (taken.changed != 0)
        return 41;
    record[83] = 0xC1;
    if (memcmp(record, out, 3471) != 0 || out[3471] != 0xEE)
        return 11;
    listing[161] = 'A';
    taken = aukpocket_take_cards(record, 3471, listing, 3240, out, 3472);
    if (taken.number != 17 || taken.length != 0 || taken.beside != 161)
        return 12;
    field = aukpocket_look_up(reel, 3848, 1, 71);
    if (field.number != 0 || field.value != -10000)
        return 13;
    reel[3670] = 0, reel[3671] = 7;
    read = aukpocket_read_reel(reel, 3848, record, 3471);
    none = aukpocket_look_up(reel, 3848, 1, 41);
    if (read.number != 18 || read.length != 0 || read.beside != 3670 || none.number != 18 || none.value != 0 || none.beside != 3670)
        return 14;
    record[3340] = 0x01;
    written = aukpocket_write_reel(record, 3471, 1, again, 3848);
    if (written.number != 13 || written.beside != 3339)
        return 15;
    memcpy(reel + 3840, words, 8);
    read = aukpocket_read_reel(reel, 3848, record, 3471);
    if (read.number != 18 || read.not_normal != 0)
        return 16;
    reel[3670] = 0xD8, reel[3671] = 0xF0;
    read = aukpocket_read_reel(reel, 3848, record, 3470);
    if (read.number != 10 || read.beside != 3471 || read.not_normal != 0)
        return 17;
    read = aukpocket_read_reel(reel, 3848, record, 3471);
    if (read.number != 0 || read.traces != 1 || read.samples != 2 || read.length != 3471 || read.beside != 0 || read.not_normal != 2)
        return 18;
    reel[3225] = 2;
    read = aukpocket_read_reel(reel, 3848, record, 3471);
    if (read.number != 0 || read.length != 3471 || read.not_normal != 0)
        return 19;
    sample = aukpocket_read_word(1, words, pair_out);
    if (sample.number != 0 || sample.beside != 0 || sample.not_normal != 1 || memcmp("\0\0\0\0\0\1", pair_out, 6) != 0)
        return 20;
    sample = aukpocket_read_word(2, words, pair_out);
    if (sample.number != 0 || sample.not_normal != 0)
        return 21;
    sample = aukpocket_read_word(4, words, pair_out);
    if (sample.number != 9 || sample.not_normal != 0)
        return 22;
    reel[3225] = 5;
    memcpy(reel + 3840, ieee, 8);
    read = aukpocket_read_reel(reel, 3848, record, 3471);
    if (read.number != 0 || read.length != 3471 || read.not_normal != 0 || memcmp(pair, record + 3458, 6) != 0)
        return 24;
    written = aukpocket_write_reel(record, 3471, 5, again, 3848);
    if (written.number != 0 || written.length != 3848 || memcmp(reel + 3844, again + 3844, 4) != 0)
        return 25;
    if (memcmp("\0\0\0", again + 3840, 4) != 0) /* of the two zeros */
        return 26;
    written = aukpocket_write_reel(record, 3471, 8, again, 3848);
    if (written.number != 14 || written.beside != 3458)
        return 27;
    reel[3844] = 0xFF, reel[3845] = 0x80;
    read = aukpocket_read_reel(reel, 3848, record, 3471);
    none = aukpocket_look_up(reel, 3848, 1, 117);
    if (read.number != 19 || read.length != 0 || read.beside != 3844 || none.number != 19 || none.value != 0 || none.beside != 3844)
        return 28;
    sample = aukpocket_read_word(5, reel + 3844, pair_out);
    if (sample.number != 19 || sample.beside != 0 || memcmp("\0\0\0\0\0", pair_out, 6) != 0)
        return 29;
    reel[3225] = 8;
    read = aukpocket_read_reel(reel, 3842, record, 3471);
    if (read.number != 0 || read.traces != 1 || read.samples != 2 || read.length != 3471)
        return 30;
    written = aukpocket_write_reel(record, 3471, 8, again, 3842);
    if (written.number != 0 || written.length != 3842 || memcmp(reel + 3840, again + 3840, 2) != 0)
        return 31;
    sample = aukpocket_write_pair(8, record + 3452, word_out);
    if (sample.number != 0 || memcmp("\x80\0\0", word_out, 4) != 0)
        return 32;
    sample = aukpocket_read_word(6, words, pair_out);
    if (sample.number != 2)
        return 33;
    if (aukpocket_blank_eight(0x00C1C2000040FF00) != 0x40C1C2404040FF40)
        return 42;
    return long_trace();
}
"""

# Eight card bytes as a number: worked examples, and zeros in every set of places beside every other byte.
EIGHT_CARDS = r"""
#include "aukpocket.h"
#include <string.h>
static const uint64_t worked[][2] = {
    {0x0000000000000000, 0x4040404040404040}, {0xC1C2C3C4C5C6C7C8, 0xC1C2C3C4C5C6C7C8}, {0x4040404040404040, 0x4040404040404040},
    {0x00C1C2C3C4C5C6C7, 0x40C1C2C3C4C5C6C7}, {0xC100C2C3C4C5C6C7, 0xC140C2C3C4C5C6C7}, {0xC1C200C3C4C5C6C7, 0xC1C240C3C4C5C6C7},
    {0xC1C2C300C4C5C6C7, 0xC1C2C340C4C5C6C7}, {0xC1C2C3C400C5C6C7, 0xC1C2C3C440C5C6C7}, {0xC1C2C3C4C500C6C7, 0xC1C2C3C4C540C6C7},
    {0xC1C2C3C4C5C600C7, 0xC1C2C3C4C5C640C7}, {0xC1C2C3C4C5C6C700, 0xC1C2C3C4C5C6C740}, {0x0001000101000100, 0x4001400101400140},
    {0x0080008080008000, 0x4080408080408040}, {0x00FF00FFFF00FF00, 0x40FF40FFFF40FF40}, {0x0101010101010101, 0x0101010101010101},
    {0x8080808080808080, 0x8080808080808080}, {0xFFFFFFFFFFFFFFFF, 0xFFFFFFFFFFFFFFFF}, {0x0000000000000001, 0x4040404040404001},
    {0x8000000000000000, 0x8040404040404040}, {0x00000000FFFFFFFF, 0x40404040FFFFFFFF}, {0x017F80FE00FF8101, 0x017F80FE40FF8101},
};
static uint64_t big_endian(const unsigned char bytes[8])
{
    uint64_t number = 0;
    int i;
    for (i = 0; i < 8; i++)
        number = number << 8 | bytes[i];
    return number;
}
int main(void)
{
    uint64_t (*blank)(uint64_t) = aukpocket_blank_eight;
    unsigned char cards[8], blanked[8];
    uint64_t loaded;
    size_t example;
    int other, zeros, i;

    for (example = 0; example < sizeof worked / sizeof worked[0]; example++)
        if (blank(worked[example][0]) != worked[example][1])
            return 1 + (int)example;
    for (other = 1; other < 256; other++)
        for (zeros = 0; zeros < 256; zeros++) {
            for (i = 0; i < 8; i++) {
                cards[i] = (unsigned char)(zeros >> i & 1 ? 0x00 : other);
                blanked[i] = (unsigned char)(zeros >> i & 1 ? 0x40 : other);
            }
            if (blank(big_endian(cards)) != big_endian(blanked))
                return 101;
            memcpy(&loaded, cards, 8); /* in the machine's own order */
            loaded = blank(loaded);
            if (memcmp(&loaded, blanked, 8) != 0)
                return 102;
        }
    return 0;
}
"""


class Examples(Built):
    """The examples as their own comments say to build and run them."""

    def example(self, *words):
        run = subprocess.run(list(map(str, words)), capture_output=True, text=True, timeout=SECONDS)
        return run.returncode, run.stdout

    def both(self, *program):
        record = self.folder / "record"
        self.assertEqual(self.example(*program, SAMPLE, record), (0, "taken 6 240 13029 2\n"))
        self.assertEqual(record.read_bytes(), reels.record_of(SAMPLE.read_bytes()))
        self.assertEqual(self.example(*program, SAMPLE, record), (1, ""))  # it is there already
        one_byte = self.file("one-byte", make_reel(2000, 3, 8, [make_trace([b"\x7f\x80\xff"])]))
        record.unlink()
        self.assertEqual(self.example(*program, one_byte, record), (0, "taken 1 3 3477 0\n"))
        record.unlink()
        long = self.file("long", long_reel(8, 32_767, 1))
        self.assertEqual(self.example(*program, long, record), (0, "taken 1 32767 200076 0\n"))
        self.assertEqual(record.read_bytes(), Held(long.read_bytes()).bytes)
        infinite = make_reel(2000, 1, 5, [make_trace([INFINITY])])
        for reel, said in ((b"", "refused 1 0\n"), (example()[:-1], "refused 5 3600\n"), (infinite, "refused 19 3840\n")):
            self.assertEqual(self.example(*program, self.file("bad", reel), self.folder / "none"), (2, said))
        self.assertFalse((self.folder / "none").exists())
        self.assertEqual(self.example(*program, self.folder / "missing", self.folder / "none")[0], 1)
        self.assertEqual(self.example(*program)[0], 1)

    def in_c_and_cpp(self, source):
        """Compiled as either, a program over the header ends well."""
        for compiler, name in (("cc", "program.c"), ("c++", "program.cpp")):
            if compiler == "c++" and shutil.which(compiler) is None:
                continue
            program = self.folder / "program"
            self.built(compiler, "-I", TOP / "include", self.file(name, source.encode()), ARCHIVE, "-o", program)
            self.assertEqual(self.example(program), (0, ""))

    def test_c(self):
        program = self.folder / "read_reel"
        self.built("cc", "-Wall", "-Wextra", "-Werror", "-I", TOP / "include", TOP / "examples/c/read_reel.c", ARCHIVE, "-o", program)
        self.both(program)

    def test_python(self):
        library = self.folder / "libaukpocket.so"
        self.built("cc", "-shared", "-o", library, "-Wl,--whole-archive", ARCHIVE, "-Wl,--no-whole-archive")
        self.both(sys.executable, TOP / "examples/python/read_reel.py", library)

    def test_the_header(self):
        """The sizes that cli/src/library.rs and the examples count on, in C and in C++. With other sizes the version is another."""
        sizes = (("reel", 56, {"length": 24, "not_normal": 40, "changed": 48}), ("field", 16, {"value": 4}),
                 ("order", 24, {"order": 4, "which": 8, "beside": 16}), ("box", 32, {"reels": 8, "traces": 16, "beside": 24}),
                 ("sample", 24, {"not_normal": 16}))
        source = '#include "aukpocket.h"\n#if AUKPOCKET_VERSION != 4\n#error another version\n#endif\n'
        for kind, size, places in sizes:
            answer = f"struct aukpocket_{kind}_answer"
            source += f"typedef char {kind}_size[sizeof({answer}) == {size} ? 1 : -1];\n"
            source += "".join(f"typedef char {kind}_{member}[offsetof({answer}, {member}) == {place} ? 1 : -1];\n"
                              for member, place in places.items())
        self.in_c_and_cpp(source + EVERY_CALL)

    def test_eight_cards(self):
        self.in_c_and_cpp(EIGHT_CARDS)

    def test_every_function(self):
        """What the header declares is called above, stands in the README and is there for Rust, and nothing else."""
        header, readme, rust = ((TOP / path).read_text(encoding="utf-8") for path in ("include/aukpocket.h", "README.md", "cli/src/library.rs"))
        declared = sorted(re.findall(r"^\S.* (aukpocket_\w+)\(", header, re.M))
        self.assertIn("aukpocket_read_reel", declared)
        self.assertEqual(declared, sorted(set(re.findall(r"aukpocket_\w+(?=\()", EVERY_CALL))))
        listed = readme.split("\n## The C library\n\n")[1].split("\n")[0]
        self.assertEqual(declared, sorted(re.findall(r"`(aukpocket_\w+)`", listed)))
        self.assertEqual(declared, sorted(re.findall(r"pub fn (aukpocket_\w+)\(", rust)))


def main():
    global COMMAND, ROOM
    if len(sys.argv) != 2 or not Path(sys.argv[1]).is_file():
        sys.exit("usage: command.py PATH_OF_COMMAND")
    begun = time.monotonic()
    with tempfile.TemporaryDirectory() as room:
        ROOM = room
        os.chmod(room, 0o755)
        COMMAND = Path(room) / "aukpocket"
        shutil.copy(sys.argv[1], COMMAND)
        COMMAND.chmod(0o755)
        suite = unittest.defaultTestLoader.loadTestsFromModule(sys.modules[__name__])
        with open(os.devnull, "w") as nowhere:
            result = unittest.TextTestRunner(stream=nowhere).run(suite)
    for test, report in result.failures + result.errors:
        print(f"command: {test.id()}\n{report}")
    failed = len(result.failures) + len(result.errors)
    print(f"command: {result.testsRun - failed} tests passed, {failed} failed, {time.monotonic() - begun:.0f} s")
    sys.exit(1 if failed else 0)


if __name__ == "__main__":
    main()
