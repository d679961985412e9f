#!/usr/bin/env python3
"""day.py STORE SCRIPT: runs a script on the store of a file, over the shared library, prints the answers and saves the store.

The library is target/library/libmritvelja.so, or the one that MRITVELJA_LIBRARY names."""
import ctypes
import os
import struct
import sys

HEADER = b"MRITVEL\x02" + struct.pack("<I", 128)
# The tables in the order of the file and of the functions: the type of an element, and how many there are.
TABLES = [(ctypes.c_uint32, 128 * 8), (ctypes.c_uint8, 128 * 512), (ctypes.c_uint32, 32 * 4), (ctypes.c_uint32, 8 * 12), (ctypes.c_uint8, 512)]
# A slice of no bytes still has a pointer.
NOTHING = ctypes.c_uint8()
REPLAY_ALLOWANCE, REPLAY_ROOM = 2, 4


class Replayed(ctypes.Structure):
    """As mritvelja_replayed in mritvelja.h."""
    _fields_ = [("next", ctypes.c_size_t), ("written", ctypes.c_size_t), ("calls", ctypes.c_uint32), ("reason", ctypes.c_uint32)]


def load_library():
    beside = os.path.join(os.path.dirname(os.path.realpath(__file__)), "..", "target", "library", "libmritvelja.so")
    library = ctypes.CDLL(os.environ.get("MRITVELJA_LIBRARY", beside))
    slice_of = [ctypes.c_void_p, ctypes.c_size_t]
    library.mritvelja_sound.argtypes = slice_of * 6
    library.mritvelja_sound.restype = ctypes.c_uint32
    library.mritvelja_replay.argtypes = slice_of * 7 + [ctypes.c_uint32] + slice_of
    library.mritvelja_replay.restype = Replayed
    return library


def decode(data):
    """The tables of a store file. Words of the file are little end first, as this processor has them."""
    sizes = [ctypes.sizeof(kind) * count for kind, count in TABLES]
    if not data.startswith(HEADER) or len(data) != len(HEADER) + sum(sizes):
        raise ValueError("not a store file of this version")
    tables, at = [], len(HEADER)
    for (kind, count), size in zip(TABLES, sizes):
        tables.append((kind * count).from_buffer_copy(data, at))
        at += size
    return tables


def lend(arrays):
    """Each array as a pointer and a number of elements."""
    return [part for array in arrays for part in (ctypes.addressof(array), len(array))]


def lend_bytes(data):
    """Bytes as a pointer and a number. The bytes are only read, and must outlive the call."""
    return [ctypes.cast(ctypes.c_char_p(data), ctypes.c_void_p) if data else ctypes.addressof(NOTHING), len(data)]


def replay(library, tables, script, rom=b""):
    """Runs a whole script on the tables beside a factory part, and gives its answers."""
    output, answers, at = (ctypes.c_uint8 * 65536)(), b"", 0
    while True:
        rest = script[at:]
        part = library.mritvelja_replay(*lend(tables), *lend_bytes(rom), *lend_bytes(rest), 1000, *lend([output]))
        answers += bytes(output[:part.written])
        at += part.next
        if part.reason not in (REPLAY_ALLOWANCE, REPLAY_ROOM):
            return answers, at


def save(name, tables):
    """Writes the store beside its file, which it then replaces: a crash leaves the old store or the new one."""
    with open(name + ".new", "wb") as file:
        file.write(HEADER + b"".join(bytes(table) for table in tables))
        file.flush()
        os.fsync(file.fileno())
    os.replace(name + ".new", name)


def main():
    if len(sys.argv) != 3:
        sys.exit("usage: day.py STORE SCRIPT")
    library = load_library()
    with open(sys.argv[1], "rb") as file:
        tables = decode(file.read())
    with open(sys.argv[2], "rb") as file:
        script = file.read()
    if not library.mritvelja_sound(*lend(tables), *lend_bytes(b"")):
        sys.exit("the store is not sound")
    answers, at = replay(library, tables, script)
    if at != len(script):
        sys.exit(f"the block at byte {at} is broken; nothing was changed")
    save(sys.argv[1], tables)
    sys.stdout.buffer.write(answers)


if __name__ == "__main__":
    main()
