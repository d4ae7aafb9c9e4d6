"""Compares what tt_strike tells with the tables hhea and post: strikes.py LIBRARY FONT... Prints what differs.

Underlines by an independent rule: the place and the thickness are rounded to the nearest row, a half up, and a
thickness is at least a row; without the table, or with a thickness of at most 0, the font tells none."""
import ctypes
import struct
import sys
from ctypes import c_int64 as i64, c_uint32 as u32, c_uint64 as u64

LIBRARY, *FONTS = sys.argv[1:]
SIZES, ROUNDED = (1, 9, 16, 24, 57, 300), (0, 1)


class Job(ctypes.Structure):
    _fields_ = [(it, u32) for it in "size margin fit grow face kern rounded blank instance axes".split()]
    _fields_ += [("axis", u32 * 32)]


class Answer(ctypes.Structure):
    _fields_ = [("status", u32), ("number", u32), ("table", u32), ("offset", u32), ("bytes", u64), ("count", u64)]


class Strike(ctypes.Structure):
    _fields_ = [("rise", i64), ("depth", i64), ("gap", u64), ("step", u64), ("exists", u64), ("top", i64),
                ("thickness", u64)]


def nearest(units, size, em):
    return (2 * units * size + em) // (2 * em)


def tables_of(data):
    """Returns the tables of a font by their tags."""
    count = struct.unpack_from(">H", data, 4)[0]
    found = [struct.unpack_from(">4s4xII", data, 12 + 16 * i) for i in range(count)]
    return {tag: data[at : at + length] for tag, at, length in found}


def wanted(tables, size, rounded):
    """Returns the numbers of a strike, in the order of the struct."""
    em = struct.unpack_from(">H", tables[b"head"], 18)[0]
    ascent, descent, gap = struct.unpack_from(">3h", tables[b"hhea"], 4)
    rise, depth = -(-ascent * size // em), -(descent * size // em)
    if rounded:
        rise, depth = nearest(ascent, size, em), nearest(-descent, size, em)
    gap = max(0, nearest(gap, size, em))
    top, thickness = struct.unpack_from(">2h", tables.get(b"post", bytes(32)), 8)
    line = (1, nearest(top, size, em), max(1, nearest(thickness, size, em))) if thickness > 0 else (0, 0, 0)
    return rise, depth, gap, max(1, rise + depth + gap), *line


def main():
    library = ctypes.CDLL(LIBRARY)
    for path in FONTS:
        with open(path, "rb") as file:
            data = file.read()
        for size in SIZES:
            for rounded in ROUNDED:
                job, told, answer = Job(size, 0, 3, 0, 1, 0, rounded, 0), Strike(), Answer()
                library.tt_strike(data, ctypes.c_size_t(len(data)), ctypes.byref(job), ctypes.byref(told),
                                  ctypes.byref(answer))
                got = tuple(getattr(told, name) for name, _ in Strike._fields_)
                want = wanted(tables_of(data), size, rounded)
                if answer.status or got != want:
                    return f"{path} at {size}, rounded {rounded}: status {answer.status}, {got}, and not {want}"
    return ""


print(main(), end="")
