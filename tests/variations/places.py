"""Variable fonts of Debian, the places at which their instances are tried, and sums of outlines and pictures; for
installed.py and make_expected.py."""
import random
import re
import zlib
from pathlib import Path

import axes
from axes import Fvar, text_of
from face import Tables

FOLDER = Path("/usr/share/fonts")
# The packages of Debian 12 that have variable TrueType fonts.
PACKAGES = "fonts-inter-variable", "fonts-karla"
PLACES = 24
# Sizes go round with the places.
SIZES = range(9, 17)
MARGIN = 12
CHARACTERS = "".join(map(chr, [*range(0x20, 0x7F), *range(0xC0, 0xD0), *range(0xE4, 0xEC)]))


def is_variable(path):
    """Tells whether a file is a TrueType font with the tables fvar, gvar and glyf."""
    data = path.read_bytes()
    if data[:4] not in (b"\0\1\0\0", b"true"):
        return False
    tags = {data[at : at + 4] for at in range(12, 12 + 16 * int.from_bytes(data[4:6], "big"), 16)}
    return {b"fvar", b"gvar", b"glyf"} <= tags


def fonts():
    """Returns the paths of the variable TrueType fonts that are installed."""
    return sorted(it for it in FOLDER.rglob("*.ttf") if is_variable(it))


def ends_and_halves(axis):
    """Yields the ends of an axis, and the places half way to them, but the default."""
    for end in (axis.least, axis.greatest):
        yield from (it for it in (end, (end + axis.default) // 2) if it != axis.default)


def places_of(path):
    """Returns the places on the axes of a font: ends and halves of each axis, those of up to six named instances, all
    ends, and others by chance."""
    fvar, chance = Fvar(Tables(path.read_bytes(), 0)), random.Random(path.name)
    defaults = tuple(it.default for it in fvar.axes)
    found = []
    for at, axis in enumerate(fvar.axes):
        found += [defaults[:at] + (it,) + defaults[at + 1 :] for it in ends_and_halves(axis)]
    named = list(dict.fromkeys(tuple(it.places) for it in fvar.instances))
    found += chance.sample(named, min(6, len(named)))
    found += [tuple(it.greatest for it in fvar.axes), tuple(it.least for it in fvar.axes)]
    found = [it for it in dict.fromkeys(found) if it != defaults][: PLACES - 4]
    while len(found) < PLACES:
        found.append(tuple(chance.randint(it.least, it.greatest) for it in fvar.axes))
    # A place is one that a decimal of five digits says.
    return fvar, [[axes.values_in(f"a={text_of(it)}")[0][1] for it in places] for places in found]


def option_of(fvar, places):
    return ",".join(f"{axis.tag.rstrip()}={text_of(it)}" for axis, it in zip(fvar.axes, places))


def short_sum(text):
    """Returns a sum of four hexadecimal digits."""
    return f"{zlib.crc32(text.encode()) & 0xFFFF:04x}"


def sum_of_outline(ends, points):
    """Returns a sum of an outline: ends of contours, and points from the left phantom point."""
    return short_sum(f"{ends} {' '.join(f'{x},{y},{on}' for x, y, on in points)}")


def sum_of_ink(rows, left, top):
    """Returns a sum of a bitmap: rows of bits as texts of 0 and 1, the first one's place above the base line, and the
    place of the first bit from the pen."""
    inked = [at for at, row in enumerate(rows) if "1" in row]
    if not inked:
        return short_sum("no ink")
    rows, top = rows[inked[0] : inked[-1] + 1], top - inked[0]
    first = min(row.index("1") for row in rows if "1" in row)
    return short_sum(f"{left + first} {top} {'/'.join(row[first:].rstrip('0') for row in rows)}")


def bits_of(data, width):
    """Returns the rows of bytes as texts of 0 and 1."""
    size = (width + 7) // 8
    rows = (data[at : at + size] for at in range(0, len(data), size))
    return ["".join(f"{it:08b}" for it in row)[:width] for row in rows]


def pictures(data):
    """Yields width, height and rows of the P4 files that follow each other in some bytes."""
    while data:
        head = re.match(rb"P4\n(\d+) (\d+)\n", data)
        width, height = int(head[1]), int(head[2])
        end = head.end() + (width + 7) // 8 * height
        yield width, height, bits_of(data[head.end() : end], width)
        data = data[end:]
