"""Runs the program on many reels and compares its line with document 01's rules and document 02's CR 2 to 4 and 8.

    python3 tests/check_reel.py PATH_OF_PROGRAM [ITS ARGUMENTS]

The rules are those of tools/vectors/reels.py, which were written from the
papers alone. The inputs are the same at every run. Prints one line and exits
0 if all agree; else prints each difference and exits 1.

Number 6 can't be reached here: 100,001 traces take more than 24 million
bytes, and the program takes 65,536. Numbers 11 to 17 belong to other calls.
"""

import random
import shutil
import subprocess
import sys
import threading
import time
from concurrent.futures import ThreadPoolExecutor
from pathlib import Path

sys.dont_write_bytecode = True
sys.path.insert(0, str(Path(__file__).resolve().parents[1] / "tools" / "vectors"))

from reels import (  # noqa: E402
    GROUPS, SCALARS, example, gain, ieee, make_reel, make_trace, program_line, random_reel, sample_size, some_bytes,
    some_groups, some_sample, trace_size, whole8,
)
from samples import CODES, NO_VALUES, NORMAL, NOT_NORMAL  # noqa: E402

SECONDS = 600  # a run that takes as long hangs


class Inputs:
    def __init__(self):
        self.all = []  # what it is in words, the bytes, the line, the pause between pieces or None
        self.seen = set()

    def put(self, what, data, line=None, count=None, pause=None):
        """An input; its line where it was worked out by hand, without the count of words that aren't normal.

        That count stands beside it where it is known as well: under other codes than 1, and without traces, it is 0.
        """
        data = bytes(data)
        by_rules = program_line(data)
        if line is not None:
            if line.startswith("taken"):
                if data[3225] != 1 or line.startswith("taken 0 "):
                    count = 0
                line += f" {by_rules.split()[-1].decode('ascii') if count is None else count}"
            assert by_rules == line.encode("ascii") + b"\n", (what, line, by_rules)
        if (data, pause) not in self.seen:
            self.seen.add((data, pause))
            self.all.append((what, data, by_rules, pause))


def trace(rnd, code, n, fields=None):
    """A trace with valid random samples; fields not named are 0."""
    return make_trace([some_sample(rnd, code) for _ in range(n)], fields)


def traces(rnd, code, n, t, faults=None):
    """t traces, with the fields that faults names for some of them (counted from 1)."""
    return [trace(rnd, code, n, (faults or {}).get(i)) for i in range(1, t + 1)]


def length_of(t, n):
    """The record's length: a trace has 183 bytes of header, three before each field of samples, and six a sample."""
    return 3273 + t * (183 + 3 * len(range(0, n, 6000)) + 6 * n)


def lengths(x, rnd):
    x.put("the paper's example", example(), "taken 1 2 3471", 0)
    x.put("empty input", b"", "refused 1 0")
    x.put("1 byte", b"\x40", "refused 1 1")
    for count in (1, 2, 9, 10, 255, 256, 1000, 3199, 3200, 3201, 3224, 3226, 3598, 3599):
        x.put(f"the example's first {count} bytes", example()[:count], f"refused 1 {count}")
        x.put(f"{count} bytes 00", bytes(count), f"refused 1 {count}")
    for count in (3600, 3601, 3839, 3840, 3844, 3847):
        line = "taken 0 2 3273" if count == 3600 else "refused 5 3600"
        x.put(f"the example's first {count} bytes", example()[:count], line)
    for count in (3600, 3601, 65535, 65536):
        x.put(f"{count} bytes 00", bytes(count), "refused 2 3224")
        x.put(f"{count} bytes FF", b"\xFF" * count, "refused 2 3224")
    for count in (65537, 65538, 69136, 131072, 131073, 200000, 1000000):
        x.put(f"{count} bytes 00", bytes(count), "too long")
        x.put(f"the example, then 00 up to {count} bytes", example() + bytes(count - 3848), "too long")
    # 65,536 bytes that are whole reels: 196 traces of 316 bytes, 49 of 1,264, 4 of 15,484
    for code in (1, 2, 4, 5):
        reel = random_reel(rnd, code, 19, 196)
        assert len(reel) == 65536
        x.put(f"a reel of just 65536 bytes, code {code}", reel, "taken 196 19 62073")
        x.put(f"that reel without its last byte, code {code}", reel[:-1], "refused 5 65220")
        x.put(f"that reel and one byte, code {code}", reel + b"\x00", "too long")
        x.put(f"that reel and one more trace, code {code}", reel + reel[-316:], "too long")
        x.put(f"that reel three times, code {code}", reel * 3, "too long")
    for code, n, t, needed in (
        (1, 256, 49, 87651), (2, 3811, 4, 95481), (3, 7622, 4, 186957), (5, 256, 49, 87651), (8, 76, 196, 129105),
        (1, 15424, 1, 96009), (3, 30848, 1, 188562), (8, 15244, 4, 369897), (8, 30728, 2, 372411),
    ):
        reel = random_reel(rnd, code, n, t)
        assert len(reel) == 65536
        x.put(f"a reel of just 65536 bytes, code {code}, record too long", reel, f"refused 10 {needed}")
    # as many traces as go in
    x.put("256 traces of one 8-bit sample", random_reel(rnd, 8, 1, 256), "taken 256 1 52425")
    x.put("255 traces of one 16-bit sample", random_reel(rnd, 3, 1, 255), "taken 255 1 52233")
    x.put("253 traces of one 32-bit sample", random_reel(rnd, 2, 1, 253), "taken 253 1 51849")
    x.put("255 traces and 226 bytes", random_reel(rnd, 3, 1, 255) + bytes(226), "refused 5 65310")
    x.put("255 traces and 227 bytes", random_reel(rnd, 3, 1, 255) + bytes(227), "too long")


def good_reels(x, rnd):
    for code in CODES:
        for n in (1, 2, 127, 256, 1000):
            for t in (0, 1, 2, 10):
                x.put(f"any good reel, code {code}, N {n}, T {t}", random_reel(rnd, code, n, t))
        for interval in (1, 255, 256, 4000, 32767):
            x.put(f"any good reel, code {code}, interval {interval}",
                  random_reel(rnd, code, 5, 4, interval))
        x.put(f"one trace of 8000 samples, code {code}", random_reel(rnd, code, 8000, 1),
              "taken 1 8000 51462")
        x.put(f"no trace, N 8000, code {code}", make_reel(1, 8000, code), "taken 0 8000 3273")
        for cards, what in ((bytes(3200), "all card bytes 00"), (b"\xFF" * 3200, "all card bytes FF"),
                            (b"\x00\x40" * 1600, "every other card byte 00"),
                            (b"\x40" * 3199 + b"\x00", "the last card byte 00")):
            reel = make_reel(2000, 2, code, traces(rnd, code, 2, 2), cards)
            x.put(f"{what}, code {code}", reel, "taken 2 2 3669")
        # unassigned bytes carry no meaning
        rest = bytes(60) + b"\xFF" * 340
        reel = make_reel(2000, 2, code, [
            make_trace([some_sample(rnd, code), some_sample(rnd, code)], {}, bytes(180) + b"\xFF" * 60)
        ], rest=rest)
        x.put(f"unassigned bytes FF, code {code}", reel, "taken 1 2 3471")
        # samples at the ends of what a code has
        for byte in (0x00, 0x7F, 0x80, 0xFF):
            word = (b"\x00" if code == 4 else b"") + bytes([byte]) * 3 + b"\x01"
            word = word[: sample_size(code)]
            reel = make_reel(2000, 3, code, [make_trace([word] * 3)])
            line = "refused 19 3840" if (code, byte) == (5, 0xFF) else "taken 1 3 3477"
            x.put(f"samples {word.hex()}, code {code}", reel, line)


def codes(x, rnd):
    bad = (0, 6, 7, 9, 10, 12, 13, 127, 128, 255, 256, 257, 258, 259, 260, 261, 264, 512, 768, 1024, 1025, 1028,
           1280, 2048, 32767, 32768, 32769, 32772, 32773, 32776, 65281, 65284, 65285, 65528, 65532, 65535)
    for code in bad:
        x.put(f"code {code}, no trace", make_reel(2000, 2, code), "refused 2 3224")
        x.put(f"code {code}, one trace", make_reel(2000, 2, code, traces(rnd, 1, 2, 1)), "refused 2 3224")
    for code in CODES:
        x.put(f"code {code}, no trace", make_reel(2000, 2, code), "taken 0 2 3273")


def counts(x, rnd):
    for n in (0, 32768, 32769, 33000, 38768, 40768, 65534, 65535):
        for code in CODES:
            x.put(f"N {n}, code {code}, no trace", make_reel(2000, n, code), "refused 3 3220")
        x.put(f"N {n}, 240 bytes after the headers", make_reel(2000, n, 1, [bytes(240)]), "refused 3 3220")
        x.put(f"N {n}, 248 bytes after the headers", make_reel(2000, n, 3, [bytes(248)]), "refused 3 3220")
    for n in (32768, 40000):
        reel = make_reel(2000, n, 8, [bytes(240 + n)])
        x.put(f"N {n} and a whole trace of it, code 8", reel, "refused 3 3220")
    for code in CODES:
        for n in (1, 255, 256, 5999, 6000):
            x.put(f"N {n}, code {code}, no trace", make_reel(2000, n, code), f"taken 0 {n} 3273")
            x.put(f"N {n}, code {code}, one trace", make_reel(2000, n, code, traces(rnd, code, n, 1)),
                  f"taken 1 {n} {3459 + 6 * n}")
        for n in (8001, 8192, 12000, 12001, 16384, 32766, 32767):
            x.put(f"N {n}, code {code}, no trace", make_reel(2000, n, code), f"taken 0 {n} 3273")
            x.put(f"N {n}, code {code}, 240 bytes after the headers", make_reel(2000, n, code, [bytes(240)]), "refused 5 3600")


def intervals(x, rnd):
    for interval in (0, 32768, 32769, 34768, 65280, 65534, 65535):
        for code in CODES:
            x.put(f"interval {interval}, code {code}, no trace", make_reel(interval, 2, code),
                  "refused 4 3216")
        for field in (0, interval, 2000):
            reel = make_reel(interval, 2, 1, [trace(rnd, 1, 2, {117: field})])
            x.put(f"interval {interval}, field 117 {field}", reel, "refused 4 3216")
    for interval in (1, 2, 255, 256, 32766, 32767):
        x.put(f"interval {interval}, no trace", make_reel(interval, 2, 1), "taken 0 2 3273")
        for field in (0, interval):
            reel = make_reel(interval, 2, 1, [trace(rnd, 1, 2, {117: field})])
            x.put(f"interval {interval}, field 117 {field}", reel, "taken 1 2 3471")


def leftovers(x, rnd):
    for code in CODES:
        for n in (1, 100):
            size = trace_size(code, n)
            for t in (0, 3):
                reel = make_reel(2000, n, code, traces(rnd, code, n, t))
                for more in (1, 2, 239, 240, size - 1):
                    if 0 < more < size:
                        x.put(f"{more} bytes after {t} traces of {size}", reel + some_bytes(rnd, more),
                              f"refused 5 {3600 + t * size}")
        # a reel laid out for another width of samples
        for other in CODES:
            if sample_size(other) != sample_size(code):
                for n, t in ((2, 1), (120, 2), (1, 121)):
                    reel = make_reel(2000, n, code, traces(rnd, other, n, t))
                    x.put(f"code {code}, traces laid out for code {other}, N {n}, T {t}", reel)


def trace_counts(x, rnd):
    for code in CODES:
        for n in (2, 258):
            size = trace_size(code, n)
            for t, which in ((1, (1,)), (3, (1, 2, 3))):
                for i in which:
                    for field in (0, n):
                        reel = make_reel(2000, n, code, traces(rnd, code, n, t, {i: {115: field}}))
                        x.put(f"field 115 {field} in trace {i} of {t}, N {n}, code {code}", reel,
                              f"taken {t} {n} {3273 + t * (186 + 6 * n)}")
                    for field in (n + 1, 65535):
                        reel = make_reel(2000, n, code, traces(rnd, code, n, t, {i: {115: field}}))
                        x.put(f"field 115 {field} in trace {i} of {t}, N {n}, code {code}", reel,
                              f"refused 7 {3600 + (i - 1) * size + 114}")
    # one byte of N right, N in another order, N with a sign, and the like; 258 is 0102
    for field in (1, 2, 256, 257, 259, 513, 770, 516, 129, 32768 + 258, 65536 - 258, 32768, 8000, 8001, 2000):
        for i in (1, 2, 3):
            reel = make_reel(2000, 258, 3, traces(rnd, 3, 258, 3, {i: {115: field, 117: 2000}}))
            x.put(f"field 115 {field} in trace {i} of 3, N 258", reel,
                  f"refused 7 {3600 + (i - 1) * 756 + 114}")
    # right in one trace, wrong in another; wrong twice
    for faults, i in (({1: {115: 2}, 2: {115: 3}}, 2), ({1: {115: 3}, 2: {115: 2}}, 1),
                      ({2: {115: 3}, 3: {115: 1}}, 2), ({1: {115: 2}, 2: {115: 2}, 3: {115: 1}}, 3)):
        reel = make_reel(2000, 2, 1, traces(rnd, 1, 2, 3, faults))
        x.put(f"fields {faults}, N 2", reel, f"refused 7 {3600 + (i - 1) * 248 + 114}")


def trace_intervals(x, rnd):
    for code in CODES:
        size = trace_size(code, 2)
        for t, which in ((1, (1,)), (3, (1, 2, 3))):
            for i in which:
                for field in (0, 2000):
                    reel = make_reel(2000, 2, code, traces(rnd, code, 2, t, {i: {117: field}}))
                    x.put(f"field 117 {field} in trace {i} of {t}, interval 2000, code {code}", reel,
                          f"taken {t} 2 {3273 + t * 198}")
                for field in (2001, 65535):
                    reel = make_reel(2000, 2, code, traces(rnd, code, 2, t, {i: {117: field}}))
                    x.put(f"field 117 {field} in trace {i} of {t}, interval 2000, code {code}", reel,
                          f"refused 8 {3600 + (i - 1) * size + 116}")
    # 2000 is 07D0
    for field in (1, 1999, 208, 1792, 53255, 34768, 63536, 32768, 32767, 4000):
        for i in (1, 2, 3):
            reel = make_reel(2000, 2, 3, traces(rnd, 3, 2, 3, {i: {115: 2, 117: field}}))
            x.put(f"field 117 {field} in trace {i} of 3, interval 2000", reel,
                  f"refused 8 {3600 + (i - 1) * 244 + 116}")
    # where N and the interval are one number, and where each stands in the other's field
    x.put("N, interval, 115 and 117 all 7", make_reel(7, 7, 1, traces(rnd, 1, 7, 1, {1: {115: 7, 117: 7}})),
          "taken 1 7 3501")
    x.put("115 and 117 exchanged", make_reel(9, 7, 1, traces(rnd, 1, 7, 1, {1: {115: 9, 117: 7}})),
          "refused 7 3714")
    x.put("117 is N", make_reel(9, 7, 1, traces(rnd, 1, 7, 1, {1: {117: 7}})), "refused 8 3716")
    # no other field has a say
    for b in (111, 113, 119, 121):
        x.put(f"field {b} is -1", make_reel(9, 7, 1, traces(rnd, 1, 7, 1, {1: {b: -1}})), "taken 1 7 3501")
    for b in (3213, 3215, 3219, 3223, 3227, 3229):
        x.put(f"field {b} is -1", make_reel(9, 7, 1, traces(rnd, 1, 7, 1), fields={b: -1}), "taken 1 7 3501")


def scalars(x, rnd):
    # every allowed scalar, with numbers of any size; the record's length is the same
    for first in SCALARS:
        for second in SCALARS:
            reel = make_reel(2000, 1, 3, traces(rnd, 3, 1, 2, {
                1: {**some_groups(rnd), 69: first, 71: second}, 2: {**some_groups(rnd), 69: second, 71: first}}))
            x.put(f"scalars {first} and {second}", reel, "taken 2 1 3657")
    for number in (0, 1, -1, 214748364, 214748365, -214748364, -214748365, 2 ** 31 - 1, -(2 ** 31)):
        for scalar in SCALARS:
            header = {b: number for group in GROUPS.values() for b in group}
            reel = make_reel(2000, 1, 3, [trace(rnd, 3, 1, {**header, 69: scalar, 71: scalar})])
            x.put(f"numbers {number}, scalars {scalar}", reel, "taken 1 1 3465")
    # others: out by one, in another order of bytes, at the ends; 10000 is 2710, 100000 in 16 bits -31072
    bad = [scalar + step for scalar in SCALARS for step in (-1, 1)]
    bad += [3, 4, 5, 7, 8, 16, 50, 256, 512, 2000, 5000, 0x1027, 0x0A00, 0x6400, 0x2711, 0x2700, 0x0010]
    bad += [10000 + 256, -10000 - 256, 20000, 32767, -32768, -32767, -31072]
    for scalar in sorted(set(bad) - set(SCALARS)):
        for field in (69, 71):
            for code, t, i in ((1, 1, 1), (3, 3, 2)):
                reel = make_reel(2000, 2, code, traces(rnd, code, 2, t, {i: {field: scalar}}))
                x.put(f"field {field} {scalar} in trace {i} of {t}, code {code}", reel,
                      f"refused 18 {3600 + (i - 1) * trace_size(code, 2) + field - 1}")
    # no field beside them has a say
    for b in (37, 41, 65, 73, 85, 89):
        x.put(f"field {b} is 7", make_reel(9, 7, 1, traces(rnd, 1, 7, 1, {1: {b: 7}})), "taken 1 7 3501")
    # every set of a trace's causes: 7, 8, 18 for field 69, 18 for field 71, then 9 under code 4, 19 under code 5
    for code, last, wrong in ((4, 9, b"\x01"), (5, 19, b"\xFF\x80")):
        for number in range(1, 32):
            for i in (1, 2):
                faults = {b: 7 for bit, b in enumerate((115, 117, 69, 71)) if number >> bit & 1}
                reel = bytearray(make_reel(2000, 2, code, traces(rnd, code, 2, 2, {i: faults, 2: faults})))
                start = 3600 + (i - 1) * 248
                if number & 16:
                    reel[start + 244 : start + 244 + len(wrong)] = wrong
                said = next(f"{cause} {start + b - 1}" for cause, b in (
                    (7, 115), (8, 117), (18, 69), (18, 71), (last, 245)) if b in faults or b == 245)
                x.put(f"fields {sorted(faults)}, {last} {number >> 4}, in trace {i} of 2", reel, f"refused {said}")
    # trace by trace, after 5, and before 10
    x.put("18 in trace 2, 9 in trace 1", bytearray(make_reel(2000, 2, 4, [
        make_trace([gain(0, 1), gain(0, 1, 0x80)]), make_trace([gain(0, 1)] * 2, {69: 7})])), "refused 9 3844")
    x.put("18 in trace 1, 7 in trace 2", make_reel(2000, 2, 4, traces(rnd, 4, 2, 2, {1: {71: 7}, 2: {115: 7}})),
          "refused 18 3670")
    x.put("5 and 18", make_reel(2000, 2, 4, traces(rnd, 4, 2, 1, {1: {71: 7}})) + b"\x00", "refused 5 3848")
    x.put("18 and 10", make_reel(2000, 5158, 3, traces(rnd, 3, 5158, 2, {2: {69: 7}})),
          f"refused 18 {3600 + 10556 + 68}")


def gain_bytes(x, rnd):
    def reel_with(code, t, n, bad):
        """Byte `first` at the start of sample k of trace i, for each of bad (both from 1)."""
        reel = bytearray(make_reel(2000, n, code, traces(rnd, code, n, t)))
        places = []
        for i, k, first in bad:
            place = 3600 + (i - 1) * trace_size(code, n) + 240 + (k - 1) * sample_size(code)
            reel[place] = first
            places.append(place)
        return reel, min(places)

    for t, n in ((1, 1), (1, 5), (3, 5)):
        for i in range(1, t + 1):
            for k in sorted({1, (n + 1) // 2, n}):
                for first in (0x01, 0x80, 0xFF):
                    reel, place = reel_with(4, t, n, [(i, k, first)])
                    x.put(f"first byte {first:02X} in gain word {k} of {n}, trace {i} of {t}", reel,
                          f"refused 9 {place}")
    for first in (0x02, 0x04, 0x08, 0x10, 0x20, 0x40, 0x7F, 0xFE):
        reel, place = reel_with(4, 2, 3, [(2, 3, first)])
        x.put(f"first byte {first:02X} in the last gain word", reel, f"refused 9 {place}")
    # fine under the other codes
    for code in (1, 2, 3, 8):
        for first in (0x01, 0x80, 0xFF):
            for i, k in ((1, 1), (2, 3), (3, 5)):
                reel, _ = reel_with(code, 3, 5, [(i, k, first)])
                x.put(f"first byte {first:02X} in sample {k}, trace {i}, code {code}", reel,
                      "taken 3 5 3921")
    # two bad words: the first counts
    for bad in ([(1, 2, 1), (1, 4, 1)], [(1, 5, 1), (2, 1, 1)], [(2, 5, 1), (3, 1, 255)],
                [(1, 1, 255), (3, 5, 1)], [(2, 1, 1), (2, 2, 1)]):
        reel, place = reel_with(4, 3, 5, bad)
        x.put(f"bad gain words {bad}", reel, f"refused 9 {place}")
    # the other bytes of a gain word may be anything
    for g in (0, 1, 15, 16, 127, 128, 255):
        for d in (0, 1, -1, 32767, -32768):
            reel = make_reel(2000, 1, 4, [make_trace([gain(g, d)])])
            x.put(f"gain {g}, d {d}", reel, "taken 1 1 3465")
    reel, place = reel_with(4, 1, 8000, [(1, 8000, 1)])
    x.put("bad gain word 8000 of 8000", reel, f"refused 9 {place}")
    reel, place = reel_with(4, 196, 19, [(196, 19, 1)])
    assert place == 65532
    x.put("bad gain word at the end of 65536 bytes", reel, "refused 9 65532")


def no_values(x, rnd):
    """Infinities and not-a-numbers, which code 5 refuses, at some samples of some traces."""
    def reel_with(t, n, bad, faults=None):
        """A word at sample k of trace i, for each of bad (both from 1), and the least of their places."""
        reel = bytearray(make_reel(2000, n, 5, traces(rnd, 5, n, t, faults)))
        places = []
        for i, k, word in bad:
            place = 3600 + (i - 1) * trace_size(5, n) + 240 + 4 * (k - 1)
            reel[place : place + 4] = word
            places.append(place)
        return reel, min(places)

    infinity, nan = NO_VALUES[0], NO_VALUES[6]
    for word in NO_VALUES:
        for t, n, i, k in ((1, 1, 1, 1), (2, 3, 1, 3), (2, 3, 2, 1), (3, 5, 3, 5), (3, 5, 2, 3)):
            reel, place = reel_with(t, n, [(i, k, word)])
            x.put(f"{word.hex()} at sample {k} of {n}, trace {i} of {t}", reel, f"refused 19 {place}")
    for t, n in ((1, 7), (3, 4)):
        for i in range(1, t + 1):
            for k in range(1, n + 1):
                for word in (infinity, nan):
                    reel, place = reel_with(t, n, [(i, k, word)])
                    x.put(f"{word.hex()} at sample {k} of {n}, trace {i} of {t}", reel, f"refused 19 {place}")
    # two such words: the first counts
    for bad in ([(1, 2), (1, 4)], [(1, 5), (2, 1)], [(2, 5), (3, 1)], [(1, 1), (3, 5)], [(2, 1), (2, 2)]):
        for first, second in ((infinity, nan), (nan, infinity)):
            reel, place = reel_with(3, 5, [(*bad[0], first), (*bad[1], second)])
            x.put(f"{first.hex()} and {second.hex()} at {bad}", reel, f"refused 19 {place}")
    # the same bytes are fine under other codes; under code 4 the first byte of the first word isn't 00
    for word in NO_VALUES:
        made = [make_trace([ieee(0, 127, 0), word, word])] * 2
        for code, n, line in ((1, 3, "taken 2 3 3681"), (2, 3, "taken 2 3 3681"), (3, 6, "taken 2 6 3717"),
                              (4, 3, "refused 9 3840"), (5, 3, "refused 19 3844"), (8, 12, "taken 2 12 3789")):
            x.put(f"{word.hex()} twice, code {code}", make_reel(2000, n, code, made), line)
    # the words beside them have values: the largest, the zeros, the subnormal ones
    for word in ("7F7FFFFF", "FF7FFFFF", "00000000", "80000000", "00000001", "80000001", "007FFFFF", "807FFFFF",
                 "00800000", "00FFFFFF", "7F000000", "3F800000"):
        reel = make_reel(2000, 2, 5, [make_trace([bytes.fromhex(word)] * 2)] * 2)
        x.put(f"{word} under code 5", reel, "taken 2 2 3669")
    for exponent in range(256):
        reel = make_reel(2000, 2, 5, [make_trace([ieee(1, exponent, 0), ieee(0, exponent, 2 ** 23 - 1)])])
        x.put(f"exponent {exponent}", reel, "refused 19 3840" if exponent == 255 else "taken 1 2 3471")
    # among other causes: trace by trace, after 5 and before 10
    reel, _ = reel_with(2, 2, [(1, 2, nan)], {2: {115: 3}})
    x.put("19 in trace 1, 7 in trace 2", reel, "refused 19 3844")
    reel, _ = reel_with(2, 2, [(2, 2, nan)], {1: {117: 3}})
    x.put("19 in trace 2, 8 in trace 1", reel, "refused 8 3716")
    reel, _ = reel_with(2, 2, [(2, 1, infinity)], {2: {71: 3}})
    x.put("19 and 18 in trace 2", reel, "refused 18 3918")
    reel, _ = reel_with(2, 2, [(1, 1, infinity)])
    x.put("5 and 19", reel + b"\x00", "refused 5 4096")
    reel, place = reel_with(1, 8000, [(1, 8000, nan)])
    x.put("sample 8000 of 8000 is a not-a-number", reel, f"refused 19 {place}")
    reel, place = reel_with(196, 19, [(196, 19, infinity)])
    assert place == 65532
    x.put("an infinity at the end of 65536 bytes", reel, "refused 19 65532")
    reel, place = reel_with(4, 3811, [(4, 3811, infinity)])
    x.put("19 in the last word, and 10", reel, "refused 19 65532")


def one_byte_samples(x, rnd):
    """Every byte is a sample of code 8, and a trace of N of them has 240 + N bytes."""
    every = [whole8(n) for n in range(-128, 128)]
    x.put("every byte", make_reel(2000, 256, 8, [make_trace(every)] * 2), "taken 2 256 6717")
    for n in (1, 2, 3, 4, 5, 239, 240, 241, 255, 257):
        for t in (1, 3):
            reel = make_reel(2000, n, 8, traces(rnd, 8, n, t))
            assert len(reel) == 3600 + t * (240 + n)
            x.put(f"T {t}, N {n}, code 8", reel, f"taken {t} {n} {3273 + t * (186 + 6 * n)}")
            x.put(f"T {t}, N {n}, code 8, a byte short", reel[:-1], f"refused 5 {3600 + (t - 1) * (240 + n)}")
            x.put(f"T {t}, N {n}, code 8, a byte more", reel + b"\x00", f"refused 5 {3600 + t * (240 + n)}")


def output_too_short(x, rnd):
    # A record of one field a trace is 3273 + 6k bytes: 65,535 is the longest that fits and 65,541 the next.
    for code in CODES:
        for t, n, line in (
            (3, 3428, "taken 3 3428 65535"), (9, 1122, "taken 9 1122 65535"),
            (2, 5157, "taken 2 5157 65529"), (2, 5158, "refused 10 65541"),
            (3, 3429, "refused 10 65553"), (9, 1123, "refused 10 65589"),
        ):
            x.put(f"T {t}, N {n}, code {code}", random_reel(rnd, code, n, t), line)
    for t, n, line in (
        (158, 34, "taken 158 34 64893"), (158, 35, "refused 10 65841"), (1, 8000, "taken 1 8000 51462"),
        (2, 8000, "refused 10 99651"), (3, 8000, "refused 10 147840"), (4, 7000, "refused 10 172029"),
    ):
        x.put(f"T {t}, N {n}, code 3", random_reel(rnd, 3, n, t), line)


def several_causes(x, rnd):
    # every set of causes on one reel, and those from 5 on where the record is too long as well
    for t, n in ((3, 4), (3, 3429)):
        for number in range(128 if n == 4 else 16):
            causes = {c for bit, c in enumerate((5, 7, 8, 9, 2, 3, 4)) if number >> bit & 1}
            fields = {i: {} for i in range(1, t + 1)}
            hit = {c: 1 + rnd.getrandbits(16) % t for c in (7, 8, 9)}
            if 7 in causes:
                fields[hit[7]][115] = n + 1
            if 8 in causes:
                fields[hit[8]][117] = 1999
            reel = bytearray(make_reel(
                65535 if 4 in causes else 2000, 32768 if 3 in causes else n, 6 if 2 in causes else 4,
                traces(rnd, 4, n, t, fields)))
            if 9 in causes:
                word = 1 + rnd.getrandbits(16) % n
                reel[3600 + (hit[9] - 1) * trace_size(4, n) + 240 + 4 * (word - 1)] = 1
            if 5 in causes:
                reel += b"\x00"
            x.put(f"T {t}, N {n}, causes {sorted(causes)}, those of traces in {hit}", reel)

    def reel_with(t, faults, bad=(), code=4, **header):
        numbers = {"interval": 2000, "n": 2, "code": code, **header}
        reel = bytearray(make_reel(numbers["interval"], numbers["n"], numbers["code"],
                                   traces(rnd, 4, 2, t, faults)))
        for i, k in bad:
            reel[3600 + (i - 1) * 248 + 240 + 4 * (k - 1)] = 0x80
        return reel

    x.put("2, 3 and 4", reel_with(1, {}, code=0, n=0, interval=0), "refused 2 3224")
    x.put("2 and 4", reel_with(1, {}, code=0, interval=0), "refused 2 3224")
    x.put("3 and 4", reel_with(1, {}, n=0, interval=0), "refused 3 3220")
    x.put("4 and 5", reel_with(1, {}, interval=0) + b"\x00", "refused 4 3216")
    x.put("5 and 7", reel_with(1, {1: {115: 3}}) + b"\x00", "refused 5 3848")
    x.put("5 and 8", reel_with(2, {1: {117: 3}}) + b"\x00", "refused 5 4096")
    x.put("5 and 9", reel_with(2, {}, [(1, 1)]) + b"\x00", "refused 5 4096")
    x.put("7 in trace 2, 9 in trace 1", reel_with(2, {2: {115: 3}}, [(1, 2)]), "refused 9 3844")
    x.put("7 in trace 2, 8 in trace 1", reel_with(2, {1: {117: 1}, 2: {115: 3}}), "refused 8 3716")
    x.put("8 in trace 2, 9 in trace 1", reel_with(2, {2: {117: 1}}, [(1, 1)]), "refused 9 3840")
    x.put("8 in trace 2, 7 in trace 1", reel_with(2, {1: {115: 3}, 2: {117: 1}}), "refused 7 3714")
    x.put("9 in trace 2, 7 in trace 1", reel_with(2, {1: {115: 3}}, [(2, 1)]), "refused 7 3714")
    x.put("9 in trace 2, 8 in trace 1", reel_with(2, {1: {117: 3}}, [(2, 1)]), "refused 8 3716")
    x.put("7 and 8 in one trace", reel_with(2, {2: {115: 3, 117: 1}}), "refused 7 3962")
    x.put("7 and 9 in one trace", reel_with(2, {2: {115: 3}}, [(2, 1)]), "refused 7 3962")
    x.put("8 and 9 in one trace", reel_with(2, {2: {117: 1}}, [(2, 1)]), "refused 8 3964")
    x.put("7, 8 and 9 in one trace", reel_with(2, {2: {115: 3, 117: 1}}, [(2, 1)]), "refused 7 3962")
    x.put("1, with a bad code", reel_with(0, {}, code=0)[:3599], "refused 1 3599")
    # the cause stands at the very end of a reel whose record is too long
    reel = bytearray(random_reel(rnd, 4, 3811, 4))
    reel[65532] = 1
    x.put("9 in the last word, and 10", reel, "refused 9 65532")


def small_changes(x, rnd):
    """Good reels with a byte changed where it counts, or cut, or with bytes added."""
    for _ in range(220):
        code, n, t = CODES[rnd.getrandbits(16) % 6], 1 + rnd.getrandbits(3), 1 + rnd.getrandbits(2)
        size = trace_size(code, n)
        reel = bytearray(random_reel(rnd, code, n, t))
        start = 3600 + rnd.getrandbits(16) % t * size
        kind = rnd.getrandbits(16) % 5
        if kind == 0:
            place = (3216, 3217, 3220, 3221, 3224, 3225)[rnd.getrandbits(16) % 6]
        elif kind == 1:
            place = start + (68, 68, 112, 116)[rnd.getrandbits(2)] + rnd.getrandbits(2)
        elif kind == 2:
            place = start + 240 + rnd.getrandbits(16) % (size - 240)
        elif kind == 3:
            place = rnd.getrandbits(16) % len(reel)
        else:
            place = None
        what = f"code {code}, N {n}, T {t}"
        if place is not None:
            reel[place] ^= 1 << rnd.getrandbits(3)
            x.put(f"{what}, the byte at place {place} changed to {reel[place]:02X}", reel)
        elif rnd.getrandbits(1):
            cut = 1 + rnd.getrandbits(16) % (2 * size)
            x.put(f"{what}, {cut} bytes cut off", reel[:-cut])
        else:
            more = 1 + rnd.getrandbits(16) % (2 * size)
            x.put(f"{what}, {more} bytes added", reel + some_bytes(rnd, more))


def not_normal(x, rnd):
    """Words that aren't normal: of every kind, in some traces, under every code, and beside refusals."""
    def any_of(some):
        return some[rnd.getrandbits(16) % len(some)]

    def put(what, t, n, chosen, by_hand=None):
        """A reel of code 1 whose sample k of trace i, both from 1, isn't normal where it is chosen."""
        picked = [[bool(chosen(i, k)) for k in range(1, n + 1)] for i in range(1, t + 1)]
        count = sum(map(sum, picked))
        assert by_hand in (None, count), what
        reel = make_reel(2000, n, 1, [
            make_trace(any_of(NOT_NORMAL if one else NORMAL) for one in trace) for trace in picked])
        x.put(f"not normal: {what}, T {t}, N {n}", reel, f"taken {t} {n} {length_of(t, n)}", count)

    # every kind: alone, behind a zero, all in one trace, each in its own
    for words, count in ((NOT_NORMAL, 1), (NORMAL, 0)):
        for word in words:
            x.put(f"the word {word.hex()}", make_reel(2000, 1, 1, [make_trace([word])]), "taken 1 1 3465", count)
            x.put(f"the word {word.hex()} in two traces", make_reel(2000, 2, 1, [make_trace([bytes(4), word])] * 2),
                  "taken 2 2 3669", 2 * count)
    x.put("words that aren't normal, in one trace", make_reel(2000, 27, 1, [make_trace(NOT_NORMAL)]), "taken 1 27 3621", 27)
    x.put("normal words, in one trace", make_reel(2000, 21, 1, [make_trace(NORMAL)]), "taken 1 21 3585", 0)
    x.put("words of both kinds, each in its trace",
          make_reel(2000, 1, 1, [make_trace([word]) for word in NOT_NORMAL + NORMAL]), "taken 48 1 12489", 27)
    # at one sample, at the first or last of each trace, in the first or last trace
    for i in (1, 2, 3):
        for k in (1, 2, 3, 4):
            put(f"sample {k} of trace {i}", 3, 4, lambda a, b: (a, b) == (i, k), 1)
    for t, n in ((1, 1), (3, 1), (1, 7), (4, 2), (2, 300)):
        put("none", t, n, lambda i, k: False, 0)
        put("all", t, n, lambda i, k: True, t * n)
        put("the first of each trace", t, n, lambda i, k: k == 1, t)
        put("the last of each trace", t, n, lambda i, k: k == n, t)
        put("all but the last of each trace", t, n, lambda i, k: k < n, t * (n - 1))
        put("the first trace", t, n, lambda i, k: i == 1, n)
        put("the last trace", t, n, lambda i, k: i == t, n)
        put("all but the first trace", t, n, lambda i, k: i > 1, (t - 1) * n)
    for _ in range(40):
        put("any", 1 + rnd.getrandbits(2), 1 + rnd.getrandbits(5), lambda i, k: rnd.getrandbits(1))
    # counts of one to five digits
    for count in (9, 10, 11, 99, 100, 101, 255, 256, 999, 1000, 1001):
        put(f"{count} words", 2, 501, lambda i, k: 501 * (i - 1) + k <= count, count)
    put("all", 1, 8000, lambda i, k: True, 8000)
    put("all", 196, 19, lambda i, k: True, 3724)
    put("all", 9, 1122, lambda i, k: True, 10098)
    put("10000 words", 3, 3428, lambda i, k: 3428 * (i - 1) + k <= 10000, 10000)
    put("all but one", 3, 3428, lambda i, k: (i, k) != (2, 1000), 10283)

    # the same bytes under the other codes, a sample of code 3 being half a word and one of code 8 a quarter; a gain word begins with 00
    for t, n in ((1, 1), (2, 3), (3, 40)):
        words = [[any_of(NOT_NORMAL) for _ in range(n)] for _ in range(t)]
        made = [make_trace(some) for some in words]
        length = 3273 + t * (186 + 6 * n)
        x.put(f"not normal, code 1, T {t}, N {n}", make_reel(2000, n, 1, made), f"taken {t} {n} {length}", t * n)
        x.put(f"those bytes, code 2, T {t}, N {n}", make_reel(2000, n, 2, made), f"taken {t} {n} {length}")
        x.put(f"those bytes, code 3, T {t}, N {2 * n}", make_reel(2000, 2 * n, 3, made),
              f"taken {t} {2 * n} {length + 6 * n * t}")
        x.put(f"those bytes, code 4, T {t}, N {n}", make_reel(2000, n, 4, made), "refused 9 3840")
        x.put(f"those bytes, code 5, T {t}, N {n}", make_reel(2000, n, 5, made), f"taken {t} {n} {length}")
        x.put(f"those bytes, code 8, T {t}, N {4 * n}", make_reel(2000, 4 * n, 8, made),
              f"taken {t} {4 * n} {length + 18 * n * t}")
        gains = [make_trace(b"\x00" + word[1:] for word in some) for some in words]
        x.put(f"those bytes after 00, code 4, T {t}, N {n}", make_reel(2000, n, 4, gains), f"taken {t} {n} {length}")

    # beside a refusal there is no count
    def refused(what, line, fields=None, t=3, n=2, interval=2000, code=1, more=b"", samples=None):
        made = [make_trace([any_of(NOT_NORMAL)] * (samples or n), (fields or {}).get(i)) for i in range(1, t + 1)]
        x.put(f"not normal, and {what}", make_reel(interval, n, code, made) + more, line)

    refused("code 0", "refused 2 3224", code=0)
    refused("code 6", "refused 2 3224", code=6)
    refused("N 32768", "refused 3 3220", n=32768, samples=2)
    refused("interval 0", "refused 4 3216", interval=0)
    refused("a byte too many", "refused 5 4344", more=b"\x00")
    refused("a word too many", "refused 5 4344", more=NOT_NORMAL[0])
    refused("code 4", "refused 9 3840", code=4)
    for i in (1, 2, 3):
        for field, number in ((115, 7), (117, 8), (69, 18), (71, 18)):
            refused(f"field {field} is 7 in trace {i}", f"refused {number} {3600 + (i - 1) * 248 + field - 1}", {i: {field: 7}})
    for t, n, needed in ((2, 5158, 65541), (3, 3429, 65553), (9, 1123, 65589)):
        refused(f"a record of {needed} bytes", f"refused 10 {needed}", t=t, n=n)
    refused("one trace more than goes in", "too long", t=197, n=19)
    x.put("no trace left of words that aren't normal", make_reel(2000, 2, 1, [make_trace(NOT_NORMAL[:2])])[:-1], "refused 5 3600")


def long_traces(x, rnd):
    """Traces of several fields, under every code that has them in 65,536 bytes."""
    # of one trace the longest record that fits has 65,532 bytes, the next 65,538
    for code in CODES:
        for n, line in (
            (6001, "taken 1 6001 39468"), (7999, "taken 1 7999 51456"), (8001, "taken 1 8001 51468"),
            (10000, "taken 1 10000 63462"), (10345, "taken 1 10345 65532"), (10346, "refused 10 65538"),
            (12000, "refused 10 75462"), (12001, "refused 10 75471"), (15424, "refused 10 96009"),
        ):
            x.put(f"one trace of {n} samples, code {code}", random_reel(rnd, code, n, 1), line)
    for code, t, n, line in (
        (8, 1, 18000, "refused 10 111465"), (8, 1, 18001, "refused 10 111474"), (8, 1, 24001, "refused 10 147477"),
        (8, 1, 30000, "refused 10 183471"), (8, 1, 30001, "refused 10 183480"), (8, 1, 32767, "refused 10 200076"),
        (3, 1, 18001, "refused 10 111474"), (3, 1, 30848, "refused 10 188562"), (8, 2, 6000, "refused 10 75645"),
        (8, 2, 6001, "refused 10 75663"), (8, 5, 12001, "refused 10 364263"), (3, 2, 15304, "refused 10 187305"),
        (3, 1, 32767, "too long"), (1, 1, 15425, "too long"),
    ):
        x.put(f"T {t}, N {n}, code {code}", random_reel(rnd, code, n, t), line)
    # number 5: a trace that is cut short, or with bytes behind it
    for code in CODES:
        reel = random_reel(rnd, code, 10000, 1)
        x.put(f"10000 samples of code {code}, a byte short", reel[:-1], "refused 5 3600")
        x.put(f"10000 samples of code {code}, a byte more", reel + b"\x00", f"refused 5 {len(reel)}")
        # fields 115 and 117; 10000 is 2710, 8000 was the most once
        for field in (0, 10000, 8000, 9999, 0x1027, -10000):
            reel = make_reel(2000, 10000, code, traces(rnd, code, 10000, 1, {1: {115: field}}))
            x.put(f"field 115 {field}, N 10000, code {code}", reel,
                  "taken 1 10000 63462" if field in (0, 10000) else "refused 7 3714")
        reel = make_reel(2000, 10000, code, traces(rnd, code, 10000, 1, {1: {115: 10000, 117: 10000}}))
        x.put(f"field 117 is N, N 10000, code {code}", reel, "refused 8 3716")
    # 9 and 19 at samples on either side of 6,000 and 12,000, before 10
    for code, word, number in ((4, gain(1, 2, 0x01), 9), (5, NO_VALUES[1], 19)):
        for n in (6001, 10000, 12001, 15424):
            for k in sorted({1, 5999, 6000, 6001, 8000, 8001, 12000, 12001, n}):
                if k <= n:
                    reel = bytearray(make_reel(2000, n, code, traces(rnd, code, n, 1)))
                    reel[3836 + 4 * k : 3840 + 4 * k] = word
                    x.put(f"sample {k} of {n}, code {code}", reel, f"refused {number} {3836 + 4 * k}")
    # the count, where the words that aren't normal stand in either field
    for some in ((1,), (6000,), (6001,), (10000,), (5999, 6000, 6001, 6002), range(5000, 7001), range(1, 10001)):
        words = [NORMAL[k % 21] for k in range(1, 10001)]
        for k in some:
            words[k - 1] = NOT_NORMAL[k % 27]
        x.put(f"10000 words, {len(some)} not normal from {some[0]} on", make_reel(2000, 10000, 1, [make_trace(words)]),
              "taken 1 10000 63462", len(some))


def pieces(x, rnd):
    """Input that arrives bit by bit is the same input."""
    for what, data in (
        ("empty input", b""), ("the example", example()), ("the example and a byte", example() + b"\x00"),
        ("65536 bytes, taken", random_reel(rnd, 1, 19, 196)),
        ("65537 bytes", random_reel(rnd, 1, 19, 196) + b"\x00"), ("200000 bytes", bytes(200000)),
        ("10000 samples, taken", random_reel(rnd, 1, 10000, 1)),
    ):
        x.put(f"{what}, in pieces", data, pause=0.02)


def all_inputs():
    x = Inputs()
    for seed, part in enumerate((
        lengths, good_reels, codes, counts, intervals, leftovers, trace_counts, trace_intervals,
        gain_bytes, output_too_short, several_causes, small_changes, pieces, scalars, not_normal, no_values,
        one_byte_samples, long_traces,
    )):
        part(x, random.Random(1975 + seed))
    return x.all


def run(command, data, pause):
    """What the program printed, and its exit status."""
    if pause is None:
        done = subprocess.run(command, input=data, stdout=subprocess.PIPE, timeout=SECONDS)
        return done.stdout, done.returncode
    with subprocess.Popen(command, stdin=subprocess.PIPE, stdout=subprocess.PIPE) as program:

        def feed():
            size = len(data) // 7 + 1
            try:
                with program.stdin:
                    for i in range(0, len(data), size):
                        time.sleep(pause)
                        program.stdin.write(data[i : i + size])
                        program.stdin.flush()
                    time.sleep(pause)
            except BrokenPipeError:
                pass  # it needn't read what is too long to the end

        feeder = threading.Thread(target=feed)
        clock = threading.Timer(SECONDS, program.kill)
        feeder.start()
        clock.start()
        out = program.stdout.read()
        status = program.wait()
        clock.cancel()
        feeder.join()
    return out, status


def main():
    if len(sys.argv) < 2:
        sys.exit("usage: python3 tests/check_reel.py PATH_OF_PROGRAM [ITS ARGUMENTS]")
    path = Path(sys.argv[1])
    command = [str(path.absolute()) if path.is_file() else sys.argv[1]] + sys.argv[2:]
    if shutil.which(command[0]) is None:
        sys.exit(f"check_reel: no program {sys.argv[1]}")

    def difference(one):
        what, data, line, pause = one
        try:
            got, status = run(command, data, pause)
        except subprocess.TimeoutExpired:
            return f"check_reel: {what} ({len(data)} bytes): no answer in {SECONDS} seconds"
        if got == line and status == 0:
            return None
        said = f"expected {line!r}, got {got[:80]!r}" + (f", exit status {status}" if status else "")
        return f"check_reel: {what} ({len(data)} bytes): {said}"

    inputs = all_inputs()
    with ThreadPoolExecutor(4) as pool:
        differences = [said for said in pool.map(difference, inputs) if said]
    for said in differences:
        print(said)
    if differences:
        print(f"check_reel: {len(differences)} of {len(inputs)} inputs differ")
        sys.exit(1)
    print(f"check_reel: {len(inputs)} inputs agree")


if __name__ == "__main__":
    main()
