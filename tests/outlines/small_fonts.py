"""Builds small fonts, of some hundred bytes, for what real fonts lack."""
import struct
from itertools import accumulate

# One record (3,1), a subtable of format 4: A and B are the glyphs 1 and 2.
CMAP = bytes.fromhex(
    "0000000100030001 0000000C 00040020 0000 0004 0004 0001 0000 0042 FFFF 0000 0041 FFFF FFC0 0001 0000 0000"
)

# The flags of a component by the standard's names.
WORDS, OFFSETS, ROUND, SCALE, MORE, TWO_SCALES, TWO_BY_TWO, METRICS = 0x1, 0x2, 0x4, 0x8, 0x20, 0x40, 0x80, 0x200


def words(*values):
    return b"".join((value & 0xFFFF).to_bytes(2, "big") for value in values)


def padded(data, size):
    return data + bytes(-len(data) % size)


def along(values, short, same):
    """Returns the flags and the bytes of coordinates along an axis: each is the way from the one before it."""
    flags, data, last = [], b"", 0
    for value in values:
        way, last = value - last, value
        if way == 0:
            flags.append(same)
        elif abs(way) < 256:
            flags.append(short | (same if way > 0 else 0))
            data += bytes([abs(way)])
        else:
            flags.append(0)
            data += words(way)
    return flags, data


def simple(*contours, x_min=None, ends=None):
    """A glyph of contours; a point is (x, y), or (x, y, 0) off the curve."""
    points = [point for contour in contours for point in contour]
    xs, ys = [point[0] for point in points], [point[1] for point in points]
    if ends is None:
        ends = [it - 1 for it in accumulate(map(len, contours))]
    x_flags, x_data = along(xs, 0x2, 0x10)
    y_flags, y_data = along(ys, 0x4, 0x20)
    on = [0 if len(point) == 3 and not point[2] else 1 for point in points]
    head = words(len(ends), min(xs) if x_min is None else x_min, min(ys), max(xs), max(ys), *ends, 0)
    return head + bytes(map(sum, zip(x_flags, y_flags, on))) + x_data + y_data


def square(low_x, low_y, high_x, high_y):
    """The points of a square, clockwise."""
    return [(low_x, low_y), (low_x, high_y), (high_x, high_y), (high_x, low_y)]


def dots(count):
    """A glyph of so many points at 0, in one contour."""
    flags = b"\x39\xff" * (count // 256) + (bytes([0x39, count % 256 - 1]) if count % 256 else b"")
    return words(1, 0, 0, 0, 0, count - 1, 0) + flags


def record(flags, glyph, arg1, arg2, *transform):
    """A component record, without its flag for more; the arguments are words where the flags say so."""
    args = words(arg1, arg2) if flags & WORDS else bytes([arg1 & 0xFF, arg2 & 0xFF])
    return words(flags, glyph) + args + words(*transform)


def composite(*records, x_min=0):
    """A composite glyph of records, which get their flags for more here."""
    more = [struct.pack(">H", int.from_bytes(it[:2], "big") | MORE) + it[2:] for it in records[:-1]]
    return words(-1, x_min, 0, 0, 0) + b"".join(more) + records[-1]


# The first of the characters that line_cmap maps.
FIRST = 0x4E00


def line_text(count):
    """The first characters that line_cmap maps."""
    return "".join(map(chr, range(FIRST, FIRST + count)))


def line_cmap(count):
    """A cmap by which the characters from FIRST on are the glyphs from 1 on."""
    last, delta = FIRST + count - 1, 1 - FIRST
    segments = words(4, 32, 0, 4, 4, 1, 0, last, 0xFFFF, 0, FIRST, 0xFFFF, delta, 1, 0, 0)
    return words(0, 1, 3, 1, 0, 12) + segments


def with_program(glyph, code):
    """A simple glyph that has no program, with this one."""
    at = 10 + 2 * int.from_bytes(glyph[:2], "big")
    return glyph[:at] + words(len(code)) + code + glyph[at + 2 :]


def maxp(glyphs, twilight=4, storage=4):
    """The table maxp, with so many twilight points and storage places."""
    return words(1, 0, glyphs, 0, 0, 0, 0, 0, twilight, storage, 0, 0, 64, 0, 0, 0)


def font(glyphs, metrics, em=1024, ascent=256, descent=0, long_metrics=None, others=(), long_loca=False):
    """A font of glyphs, from glyph 0 on, and their advances and left side bearings; others are tables by their tags."""
    long_metrics = len(metrics) if long_metrics is None else long_metrics
    places, glyf = [0], bytearray()
    for glyph in glyphs:
        glyf += padded(glyph, 2)
        places.append(len(glyf))
    hmtx = b"".join(words(*pair) if it < long_metrics else words(pair[1]) for it, pair in enumerate(metrics))
    loca = struct.pack(f">{len(places)}I", *places) if long_loca else words(*[it // 2 for it in places])
    tables = {
        "cmap": CMAP,
        "glyf": bytes(glyf),
        "head": words(1, 0, 1, 0, 0, 0, 0x5F0F, 0x3CF5, 0, em, *[0] * 8, 0, 0, 256, 256, 0, 8, 2, int(long_loca), 0),
        "hhea": words(1, 0, ascent, descent, 0, 256, 0, 0, 256, 1, *[0] * 7, long_metrics),
        "hmtx": hmtx,
        "loca": loca,
        "maxp": maxp(len(glyphs)),
    }
    tables.update(others)
    directory = words(1, 0, len(tables), 64, 2, 48)
    data, start = bytearray(), 12 + 16 * len(tables)
    for tag, table in sorted(tables.items()):
        directory += tag.encode() + struct.pack(">III", 0, start + len(data), len(table))
        data += padded(table, 4)
    return directory + bytes(data)


def line_font(glyphs, advance=64, bearing=0, others=(), hidden=(), **sizes):
    """A font in which the characters from FIRST on are these glyphs, in one place: the first alone has an advance.
    Hidden glyphs follow, which no character is.
    """
    metrics = [(0, 0), (advance, bearing)] + [(0, bearing)] * (len(glyphs) + len(hidden) - 1)
    tables = {"cmap": line_cmap(len(glyphs)), **dict(others)}
    return font([b"", *glyphs, *hidden], metrics, others=tables, long_loca=True, **sizes)
