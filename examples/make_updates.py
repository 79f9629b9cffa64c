#!/usr/bin/env python3
"""Writes the update files of the examples, here and in worked/. README.md says what each is."""
import os
import struct

FOLDER = os.path.dirname(os.path.abspath(__file__))
DATE, SIGNATURE, FLAGS = 0x07112023, 0x000906EA, 0x2
AMD_MAGIC, AMD_ID = 0x00414D44, 0xA210


def update(revision, data=16, sizes=True, minimum=0):
    """An Intel update: a header of twelve words and so many zero bytes of data. The checksum makes all words sum to 0. A
    header without sizes stands for 2,000 bytes of data."""
    words = [1, revision, DATE, SIGNATURE, 0, 1, FLAGS, *((data, data + 48) if sizes else (0, 0)), 0, minimum, 0]
    words[4] = -sum(words) % 2**32
    return struct.pack("<12I", *words) + bytes(data)


def container(signature, revision):
    """An AMD container: a table of one row and a row of zeros, and a patch of 64 bytes."""
    table = struct.pack("<4I16x", signature, 0, 0, AMD_ID)
    patch = struct.pack("<6IH38x", 0, revision, 0, 0, 0, 0, AMD_ID)
    return struct.pack("<3I", AMD_MAGIC, 0, len(table)) + table + struct.pack("<2I", 1, len(patch)) + patch


FILES = {
    "a.bin": update(0xF0),
    "b.bin": update(0xF4),
    "worked/a.bin": update(0xF0),
    "worked/d0.bin": update(0xF0, 2000, sizes=False),
    "worked/d1.bin": update(0xF4, 2000, sizes=False),
    "worked/e.bin": b"",
    "worked/m.bin": update(0xF0, minimum=0xB4),
    "worked/n.bin": update(0xF0, minimum=0xB5),
    "worked/r.bin": update(0xF0, 102352),
    "worked/two.bin": update(0xF4) + update(0xF0, minimum=0xB4),
    "worked/z.bin": container(0x00A20F10, 0x0A20102B) + container(0x00A20F12, 0x0A201210),
}

for name, data in FILES.items():
    with open(os.path.join(FOLDER, name), "wb") as file:
        file.write(data)
