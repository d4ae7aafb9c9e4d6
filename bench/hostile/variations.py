"""Fonts whose variations take as long as they can: tuples, points between named ones, stores with many regions, lists
of coordinates, named instances. All are drawn at an instance."""
import struct
from itertools import accumulate

import small_fonts as small
from hostile.parts import PLAIN, POINTS, RECORDS, SLANTED, TEXT, Hostile, calls, composite_of, function, slanted, tree

# The greatest counts: deltas of a line, tuples of a glyph, axes, numbers of a row, lookups, and what 16 bits tell.
DELTAS, TUPLES, AXES, NUMBERS, LOOKUPS, COUNT = 8_000_000, 4095, 64, 512, 32, 65535
# Peaks are near to the half of an axis, so that no axis leaves nothing of a tuple or a region.
ONE, NEAR = 0x4000, 0x2001
# Bits of a tuple: a peak, a region and point numbers of its own.
PEAK, REGION, NUMBERED = 0x8000, 0x4000, 0x2000
# Halves of all axes, at which no peak is.
HALF = ",".join(f"a{it:03}=0.5" for it in range(AXES))


def longs(*values):
    return struct.pack(f">{len(values)}I", *values)


def fvar(axes=1, instances=0):
    """A table of so many axes from -1 over 0 to 1, and of named instances at 0."""
    found = small.words(1, 0, 16, 2, axes, 20, instances, 4 + 4 * axes)
    for it in range(axes):
        found += f"a{it:03}".encode() + longs(-65536 & 0xFFFFFFFF, 0, 65536) + small.words(0, 256 + it)
    return found + (small.words(256, 0) + bytes(4 * axes)) * instances


def gvar(glyphs, axes=1, shared=()):
    """A table of the bytes of each glyph, and of shared tuples."""
    tuples, places = b"".join(small.words(*it) for it in shared), [0, *accumulate(map(len, glyphs))]
    first = 20 + 4 * len(places)
    head = small.words(1, 0, axes, len(shared)) + longs(first)
    head += small.words(len(glyphs), 1) + longs(first + len(tuples))
    return head + longs(*places) + tuples + b"".join(glyphs)


def tuples_of(count, data, bits=0, more=b""):
    """A glyph's bytes: so many tuples, all of which have the same data, since each has a size of 0. The peak is the
    first shared one, or stands in the bytes behind the index."""
    heads = (small.words(0, bits) + more) * count
    return small.words(count, 4 + len(heads)) + heads + data


def runs(values, size=64):
    """Deltas of a byte, in runs."""
    parts = (values[it : it + size] for it in range(0, len(values), size))
    return b"".join(bytes([len(it) - 1]) + it for it in parts)


def numbers(points, step):
    """Point numbers: each so many of some points."""
    count, found = -(-points // step), b""
    ways = bytes([0]) + bytes([step]) * (count - 1)
    for it in range(0, count, 128):
        found += bytes([len(ways[it : it + 128]) - 1]) + ways[it : it + 128]
    return small.words(0x8000 | count) + found


def named(points, step):
    """Data of a tuple that names each so many points, or all: numbers, and a delta of each along both axes."""
    if step == 1:
        return b"\0" + runs(bytes([7]) * (points + 4)) * 2
    count = -(-points // step)
    ways = runs(bytes(it % 2 for it in range(count)))
    return numbers(points, step) + ways * 2


def scattered(points):
    """A contour whose points lie in disorder."""
    return small.simple([((it * 7919) % 1000, (it * 104729) % 1000) for it in range(points)])


def in_threes(points):
    """Contours of three points."""
    starts = (3 * it % 900 for it in range(points // 3))
    return small.simple(*[[(it, 5), (it + 90, 700), (it + 30, 300)] for it in starts])


def font_of(glyphs, data, axis="a000=0.5", axes=1, hidden=0, others=(), shared=((ONE,),), **sizes):
    """A font whose glyphs from 1 on have these bytes in gvar, the last of them no character, and its line at an
    instance."""
    shown = glyphs[: len(glyphs) - hidden]
    tables = {"fvar": fvar(axes), "gvar": gvar([b"", *data], axes, shared), **PLAIN, **dict(others)}
    made = small.line_font(shown, hidden=glyphs[len(shown) :], others=tables, **sizes)
    return Hostile(made, small.line_text(len(shown)), axis=axis)


def deltas(step, glyph=scattered, contours=1, points=POINTS):
    """One glyph of as many points as a glyph has, and as many tuples as may be."""
    count = DELTAS // (4 + 1 + points + contours)
    return font_of([glyph(points)], [tuples_of(count, named(points, step), NUMBERED)])


def small_glyphs(step):
    """As many glyphs as a line has, each of 100 points."""
    count = DELTAS // (4 + 1 + 100 + 1) // TEXT
    return font_of([scattered(100)] * TEXT, [tuples_of(count, named(100, step), NUMBERED)] * TEXT)


def empty_tuples():
    """Tuples without a point, of glyphs without one."""
    count = DELTAS // (5 * TUPLES)
    return font_of([b""] * count, [tuples_of(TUPLES, b"")] * count)


def wide_tuples():
    """Tuples of 64 axes, each with a region of its own, of glyphs without a point."""
    count = DELTAS // ((4 + AXES) * TUPLES)
    ends = small.words(*[NEAR] * AXES, *[1] * AXES, *[ONE] * AXES)
    data = [tuples_of(TUPLES, b"", PEAK | REGION, ends)] * count
    return font_of([b""] * count, data, HALF, AXES, shared=())


def parts(depths=2):
    """A glyph of 1,024 components, each with tuples."""
    leaf = tuples_of(DELTAS // RECORDS**depths // (4 + 1 + 5) - 1, named(4, 2), NUMBERED)
    glyphs = [composite_of([depth + 2] * RECORDS) for depth in range(depths)]
    made = [*glyphs, small.simple(small.square(0, 0, 256, 256))]
    return font_of(made, [b""] * depths + [leaf], hidden=depths)


def eight_deep():
    """A composite of two composites, eight levels deep, each with tuples."""
    count = DELTAS // (255 * (4 + 1 + 2) + 256 * (4 + 1 + 5))
    composite = tuples_of(count, named(2, 2), NUMBERED)
    leaf = tuples_of(count, named(4, 2), NUMBERED)
    glyphs = [composite_of([it + 2] * 2) for it in range(8)]
    return font_of([*glyphs, small.simple(small.square(0, 0, 256, 256))], [composite] * 8 + [leaf], hidden=8)


def control_values():
    """As many control values as a table tells, and as many tuples."""
    values = 32767
    count = DELTAS // (values + 1)
    data = b"\0" + runs(bytes([3]) * values)
    cvar = small.words(1, 0, count, 8 + 4 * count) + small.words(0, 0) * count + data
    return font_of([scattered(3)], [b""], others={"cvar": cvar, "cvt ": bytes(2 * values)})


def regions(count, axes):
    """A list of regions that all hold in part at the half of each axis."""
    return small.words(axes, count) + small.words(1, NEAR, ONE) * (axes * count)


def store(rows, count=NUMBERS, axes=AXES):
    """A store of so many rows of numbers of regions."""
    some = min(count, 4096 // axes)
    listed = regions(some, axes)
    at = 12 + len(listed)
    data = small.words(rows, 0, count, *(it % some for it in range(count))) + bytes([3]) * (rows * count)
    return small.words(1) + longs(12) + small.words(1) + longs(at) + listed + data


def hvar(rows=1):
    """A table whose rows all are the first, since its map has one entry."""
    entry = small.words(0, 1) + b"\0"
    return small.words(1, 0) + longs(20 + len(entry), 20, 0, 0) + entry + store(rows)


def advances():
    """As many glyphs as a line has, each with an advance by a row of 512 regions of 64 axes."""
    return font_of([b""] * TEXT, [b""] * TEXT, HALF, AXES, others={"HVAR": hvar()}, shared=())


def moved_pairs():
    """A pair subtable by classes that applies to all glyphs, with a value of 0 that the first row of a store moves. Its
    coverage, its classes and its device are behind the record of values."""
    head = small.words(2, 20, 0x44, 0, 30, 30, 1, 1, 0, 34)
    return head + small.words(2, 1, 0, COUNT, 0) + small.words(2, 0) + small.words(0, 0, 0x8000)


def pairs():
    """As many glyphs as a line has, and for each pair as many lookups as are taken, each with a value that is moved."""
    lookup = small.words(2, 0, 1, 8) + moved_pairs()
    first = 2 + 2 * LOOKUPS
    lookups = small.words(LOOKUPS, *(first + len(lookup) * it for it in range(LOOKUPS))) + lookup * LOOKUPS
    feature = small.words(1) + b"kern" + small.words(8, 0, LOOKUPS, *range(LOOKUPS))
    script = small.words(1) + b"DFLT" + small.words(8, 4, 0, 0, 0xFFFF, 1, 0)
    at = 10 + len(script)
    gpos = small.words(1, 0, 10, at, at + len(feature)) + script + feature + lookups
    gdef = small.words(1, 3, 0, 0, 0, 0, 0) + longs(18) + store(1)
    tables = {"GPOS": gpos, "GDEF": gdef}
    return font_of([b""] * TEXT, [b""] * TEXT, HALF, AXES, others=tables, shared=())


def long_lists():
    """A table avar of as many pairs as counts tell, for 40 axes, all below each coordinate but the last."""
    axes = 40
    pairs = small.words(-ONE, -ONE) * (COUNT - 1) + small.words(ONE, ONE)
    avar = small.words(1, 0, 0, axes) + (small.words(COUNT) + pairs) * axes
    halves = ",".join(HALF.split(",")[:axes])
    return font_of([b""], [b""], halves, axes, others={"avar": avar}, shared=())


def named_instances():
    """As many named instances and names as counts tell."""
    record = small.words(3, 1, 0x409, 0, 2, 0)
    name = small.words(0, COUNT, 0) + record * COUNT
    tables = {"fvar": fvar(1, COUNT), "name": name}
    return font_of([scattered(3)], [b""], others=tables)


def asking():
    """A glyph whose program asks for 64 coordinates again and again."""
    leaf = slanted(SLANTED + calls(970_000 // 4))
    others = {"fpgm": function(b"\x91\x22")}
    return font_of([*tree(2, leaf)], [b""] * 3, HALF, AXES, hidden=2, others=others, shared=())


FONTS = {
    "deltas_all": lambda: deltas(1),
    "deltas_half": lambda: deltas(2),
    "deltas_few": lambda: deltas(100),
    "deltas_threes": lambda: deltas(3, in_threes, POINTS // 3, POINTS - 1),
    "deltas_small": lambda: small_glyphs(2),
    "tuples_empty": empty_tuples,
    "tuples_wide": wide_tuples,
    "tuples_parts": parts,
    "tuples_deep": eight_deep,
    "cvar": control_values,
    "hvar": advances,
    "gdef": pairs,
    "avar": long_lists,
    "instances": named_instances,
    "coordinates_asked": asking,
}
