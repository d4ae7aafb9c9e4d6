"""Fonts with large character maps, collections with many faces, and tables that overlap."""
import array
import struct

import small_fonts as small
from hostile.parts import TEXT, Hostile

# As many encoding records, or records of name, as a table has.
RECORDS = 65535
# The groups, selectors and glyph numbers that a font of 64 MiB has room for.
GROUPS, SELECTORS, CODES = 5_590_000, 6_000_000, 33_000_000
# How many glyphs the fonts have, and the first of the text's characters.
GLYPHS, FIRST = 3, small.FIRST
SELECTOR = 0xFE00


def font_of(cmap, text, others=()):
    """A font of a square and this cmap."""
    glyph = small.simple(small.square(0, 0, 100, 100))
    tables = {"cmap": cmap, **dict(others)}
    return Hostile(small.font([b"", glyph, glyph], [(64, 0)] * GLYPHS, others=tables), text)


def longs(*values):
    return struct.pack(f">{len(values)}I", *values)


def cmap_of(*parts):
    """A cmap of records: platform, encoding and subtable."""
    records, body, start = b"", b"", 4 + 8 * len(parts)
    for platform, encoding, subtable in parts:
        records += small.words(platform, encoding) + longs(start + len(body))
        body += subtable
    return small.words(0, len(parts)) + records + body


def groups(number, count=GROUPS, step=1):
    """A subtable of groups of a character each, the last ones alike."""
    table = array.array("I")
    for it in range(count):
        code = 0x20 + min(step * it, 0x10FF00)
        table.extend((code, code, 1))
    table.byteswap()
    data = table.tobytes()
    return small.words(number, 0) + longs(16 + len(data), 0, count) + data


def many_records(chosen, kind=(1, 1)):
    """A cmap of as many records as there may be, all of them of one subtable, and the last one chosen or none."""
    start = 4 + 8 * RECORDS
    record = small.words(*kind) + longs(start)
    last = small.words(*chosen) + longs(start) if chosen else record
    return small.words(0, RECORDS) + record * (RECORDS - 1) + last + small.words(6, 14, 0, FIRST, 2, 1, 2)


def records_past_the_end():
    """A cmap of as many records, each of which is passed over for want of room, but for the last."""
    start = 4 + 8 * RECORDS
    record = small.words(3, 10) + longs(0xFFFFFFFF)
    last = small.words(1, 0) + longs(start)
    return small.words(0, RECORDS) + record * (RECORDS - 1) + last + small.words(0, 262, 0) + b"\1" * 256


def trimmed():
    """A cmap of an array of glyphs that fills the font."""
    return cmap_of((3, 10, small.words(10, 0) + longs(20 + 2 * CODES, 0, 0x20, CODES) + b"\0\1" * CODES))


def paired(count=TEXT // 2):
    """Characters, each with a selector."""
    return "".join(it + chr(SELECTOR) for it in small.line_text(count))


def selectors():
    """A cmap of millions of selectors, whose lists of millions of entries are the records themselves."""
    at, count = 10, SELECTORS - 10
    table = bytearray(small.words(14) + longs(10 + 11 * SELECTORS, count))
    table += (SELECTOR.to_bytes(3, "big") + longs(at + 7, at + 3)) * SELECTORS
    return cmap_of((0, 5, bytes(table)), (3, 1, small.line_cmap(2)[12:]))


def lists(at, entry, count):
    """A cmap of one selector, with a list of as many entries, which is the default list or the other one."""
    offsets = (21, 0) if at == 3 else (0, 21)
    table = small.words(14) + longs(21 + 4 + len(entry) * count, 1) + SELECTOR.to_bytes(3, "big") + longs(*offsets)
    return cmap_of((0, 5, table + longs(count) + entry * count), (3, 1, small.line_cmap(2)[12:]))


def names():
    """A table of as many names as there may be, which all are one text of 65,534 bytes."""
    record = struct.pack(">6H", 3, 1, 0x407, 4, 65534, 0)
    return small.words(0, RECORDS, 6 + 12 * RECORDS & 0xFFFF) + record * RECORDS + b"\0A" * 32767


def collection(count, others=()):
    """A collection of as many faces, which have one directory."""
    made = font_of(small.CMAP, "A", others)
    start = 12 + 4 * count
    records = bytearray(made.font[: 12 + 16 * struct.unpack_from(">H", made.font, 4)[0]])
    for at in range(12, len(records), 16):
        struct.pack_into(">I", records, at + 8, struct.unpack_from(">I", records, at + 8)[0] + start)
    head = b"ttcf" + small.words(1, 0) + longs(count) + longs(start) * count
    return Hostile(head + bytes(records) + made.font[len(records) :], "A")


def overlapping():
    """A collection whose faces lie 4 bytes apart, in their own offsets: no version, but for the last one's."""
    made = collection(1)
    count = 1_000_000
    start = 12 + 4 * count
    records = bytearray(made.font[16 : 16 + 12 + 16 * 7])
    for at in range(12, len(records), 16):
        struct.pack_into(">I", records, at + 8, struct.unpack_from(">I", records, at + 8)[0] + start - 16)
    offsets = longs(*range(12, 12 + 4 * (count - 1), 4), start)
    head = b"ttcf" + small.words(1, 0) + longs(count) + offsets
    return Hostile(head + bytes(records) + made.font[16 + len(records) :], "A")


def shared_tables():
    """A font whose glyf and loca are one: both begin in head, and reach to the end."""
    made = bytearray(font_of(small.CMAP, "A").font)
    places = {}
    for at in range(12, 12 + 16 * struct.unpack_from(">H", made, 4)[0], 16):
        places[bytes(made[at : at + 4])] = at
    start = struct.unpack_from(">I", made, places[b"head"] + 8)[0]
    made += bytes(60_000_000)
    for tag in (b"glyf", b"loca"):
        struct.pack_into(">II", made, places[tag] + 8, start, len(made) - start)
    return Hostile(bytes(made), "AB" * (TEXT // 2))


FONTS = {
    "records_none": lambda: font_of(many_records(None), small.line_text(TEXT)),
    "records_last": lambda: font_of(many_records((1, 0)), small.line_text(TEXT)),
    "records_symbol": lambda: font_of(many_records((3, 0), (3, 9)), small.line_text(TEXT)),
    "records_past_the_end": lambda: font_of(records_past_the_end(), "A" * TEXT),
    "groups_13": lambda: font_of(cmap_of((3, 10, groups(13))), small.line_text(TEXT)),
    "groups_12_basic": lambda: font_of(cmap_of((3, 1, groups(12))), small.line_text(TEXT)),
    "groups_symbol": lambda: font_of(cmap_of((3, 0, groups(12, step=0x100))), "\u00e9" * TEXT),
    "trimmed": lambda: font_of(trimmed(), small.line_text(TEXT)),
    "selectors": lambda: font_of(selectors(), paired()),
    "default_list": lambda: font_of(lists(3, FIRST.to_bytes(3, "big") + b"\xFF", 16_000_000), paired()),
    "other_list": lambda: font_of(lists(7, FIRST.to_bytes(3, "big") + b"\0\1", 13_000_000), paired()),
    "names": lambda: font_of(small.CMAP, "A", {"name": names()}),
    "faces": lambda: collection(16_000_000),
    "faces_of_names": lambda: collection(256, {"name": names()}),
    "faces_in_their_offsets": overlapping,
    "shared_tables": shared_tables,
}
