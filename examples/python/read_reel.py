"""Reads a reel file into a record file through the C interface, and prints what reading answers:

    taken T N LENGTH COUNT  T traces of N samples, the length of the record, and how many words aren't normal
    refused NUMBER BESIDE   the number of the cause, and what stands beside it (see include/aukpocket.h)

ctypes wants a shared object, which the C compiler makes of the static library:

    cc -shared -o libaukpocket.so -Wl,--whole-archive build/libaukpocket.a -Wl,--no-whole-archive
    python3 examples/python/read_reel.py ./libaukpocket.so examples/sample.sgy python.record
"""

import ctypes
import sys


class ReelAnswer(ctypes.Structure):
    """As the header has it since AUKPOCKET_VERSION 4. A call writes all seven members: with fewer here it would write beyond them."""

    _fields_ = [(name, ctypes.c_uint64) for name in ("number", "traces", "samples", "length", "beside", "not_normal", "changed")]


def load_library(path):
    library = ctypes.CDLL(path)
    library.aukpocket_read_reel.argtypes = [ctypes.c_char_p, ctypes.c_size_t, ctypes.c_char_p, ctypes.c_size_t]
    library.aukpocket_read_reel.restype = ReelAnswer
    return library


def read_reel(library, reel):
    """The answer and, where the reel is taken, its record."""
    # With no room for the record, a reel that would be taken is refused by 10, with the length needed. No words are counted then.
    none = ctypes.create_string_buffer(1)
    answer = library.aukpocket_read_reel(reel, len(reel), none, 0)
    if answer.number != 10:
        return answer, None
    record = ctypes.create_string_buffer(answer.beside)
    answer = library.aukpocket_read_reel(reel, len(reel), record, len(record))
    return answer, record.raw[: answer.length]


def main():
    if len(sys.argv) != 4:
        print("usage: read_reel.py LIBRARY REEL RECORD", file=sys.stderr)
        return 1
    library = load_library(sys.argv[1])
    with open(sys.argv[2], "rb") as file:
        reel = file.read()
    answer, record = read_reel(library, reel)
    if record is None:
        print("refused", answer.number, answer.beside)
        return 2
    with open(sys.argv[3], "xb") as file:  # a file that is there already is kept
        file.write(record)
    print("taken", answer.traces, answer.samples, answer.length, answer.not_normal)
    return 0


if __name__ == "__main__":
    sys.exit(main())
