"""segyio's side of the benchmark. The program bench starts it and asks by lines on standard input; the answer to each is a line.

    open CODE PATH    takes the reel there for what follows; answers its number of samples
    read              seconds to open the reel, read and convert all its samples into an array that segyio allocates, and close it
    convert           seconds to convert the same samples in memory, in place
    write             seconds to open the reel, convert and write all its samples over those that are there, and close it
    convert back      seconds to convert the same samples in memory, in place, to the reel's words
    version           segyio's version

The files stand in the page cache. The two conversions are calls of segyio's C functions.
"""

import ctypes
import sys
import time

import numpy
import segyio
from segyio import _segyio

DTYPES = {1: numpy.float32, 2: numpy.int32, 3: numpy.int16, 5: numpy.float32, 8: numpy.int8}


class Reel:
    def __init__(self, code, path):
        self.code, self.path = code, path
        self.functions = ctypes.CDLL(_segyio.__file__)
        with self.opened("r") as reel:
            assert int(reel.format) == code
            self.samples = reel.trace.raw[:]
        assert self.samples.dtype == DTYPES[code]
        traces = numpy.memmap(path, dtype=numpy.uint8, mode="r", offset=3600).reshape(len(self.samples), -1)
        self.words = numpy.ascontiguousarray(traces[:, 240:])
        self.room = numpy.empty_like(self.samples)

    def opened(self, mode):
        return segyio.open(self.path, mode, strict=False, ignore_geometry=True)

    def read(self):
        start = time.perf_counter()
        with self.opened("r") as reel:
            samples = reel.trace.raw[:]
        seconds = time.perf_counter() - start
        assert samples[-1, -1] == self.samples[-1, -1]
        return seconds

    def write(self):
        start = time.perf_counter()
        with self.opened("r+") as reel:
            reel.trace[:] = self.samples
        return time.perf_counter() - start

    def converted(self, function, given, expected):
        """The seconds of one call, which has to give what the file has."""
        given, expected, room = (array.view(numpy.uint8).reshape(-1) for array in (given, expected, self.room))
        numpy.copyto(room, given)
        size, place = ctypes.c_longlong(self.room.size), ctypes.c_void_p(self.room.ctypes.data)
        start = time.perf_counter()
        error = function(self.code, size, place)
        seconds = time.perf_counter() - start
        assert error == 0 and numpy.array_equal(room, expected)
        return seconds

    def convert(self):
        return self.converted(self.functions.segy_to_native, self.words, self.samples)

    def convert_back(self):
        return self.converted(self.functions.segy_from_native, self.samples, self.words)


def main():
    reel = None
    for line in sys.stdin:
        asked = line.rstrip("\n")
        if asked.startswith("open "):
            _, code, path = asked.split(" ", 2)
            reel = Reel(int(code), path)
            answer = reel.samples.size
        elif asked == "version":
            answer = segyio.__version__
        else:
            answer = {"read": reel.read, "convert": reel.convert, "write": reel.write, "convert back": reel.convert_back}[asked]()
        print(answer, flush=True)


if __name__ == "__main__":
    main()
