"""The glyphs of characters by a plain search of a font's cmap, which looks at the segments of format 4 or at the groups
of format 12 one after the other. It shares no code with tt_render, and was written from OpenType's chapter cmap.

Chosen is the first record of platform 3 and encoding 10 with a subtable of format 12, else the first of platform 0 with
one, else the first of platform 3 and encoding 1 with one of format 4, else the first of platform 0 with one. A record
whose subtable has no room for its format is passed over. A character's glyph comes of the first segment or group whose
end is not before the character. It is 0 where there is none, where that one starts behind the character, and where the
number is not below maxp's number of glyphs. A subtable's own length is not looked at: the end of cmap is the bound.

Refused are, in this order: a header or records that do not fit, at the end of cmap; that none is chosen, at 0; of a
subtable of format 4 its first 14 bytes that do not fit, at its beginning, half a segment, at its count, and lists that
do not fit, at its beginning; of format 12 its 16 bytes or groups that do not fit, at its beginning; and of either the
first end below the one before, there.
"""

class Refused(Exception):
    """What is refused, as `map` says it."""


CHOICE = (3, 10, 12), (0, None, 12), (3, 1, 4), (0, None, 4)


def number(data, at, size):
    """Returns the number at a place, None past the end."""
    return int.from_bytes(data[at : at + size], "big") if at + size <= len(data) else None


def table(font, tag):
    """Returns the table that the first record with the tag names."""
    for at in range(12, 12 + 16 * number(font, 4, 2), 16):
        if font[at : at + 4] == tag:
            offset = number(font, at + 8, 4)
            return font[offset : offset + number(font, at + 12, 4)]
    raise ValueError(f"the font has no table {tag}")


def fits(cmap, size, at):
    if len(cmap) < size:
        raise Refused(f"cmap+{at}: 11 CmapShape")


def chosen(cmap):
    """Returns the format and the place of the subtable that serves."""
    fits(cmap, 4, len(cmap))
    fits(cmap, 4 + 8 * number(cmap, 2, 2), len(cmap))
    records = [cmap[at : at + 8] for at in range(4, 4 + 8 * number(cmap, 2, 2), 8)]
    for platform, encoding, wanted in CHOICE:
        for record in records:
            at = number(record, 4, 4)
            is_for = number(record, 0, 2) == platform and encoding in (None, number(record, 2, 2))
            if is_for and number(cmap, at, 2) == wanted:
                return wanted, at
    raise Refused("cmap+0: 10 NoCmap")


class Characters:
    """A font's glyphs and advances of characters. `ranges` are the segments or groups, each its first character, its
    last one and what leads to the glyph; `ends` are their ends."""

    def __init__(self, font):
        self.cmap, self.hmtx = table(font, b"cmap"), table(font, b"hmtx")
        self.glyphs = number(table(font, b"maxp"), 4, 2)
        self.metrics = number(table(font, b"hhea"), 34, 2)
        self.format, at = chosen(self.cmap)
        places = list(self.groups(at) if self.format == 12 else self.segments(at))
        size = 4 if self.format == 12 else 2
        self.ends = [number(self.cmap, end, size) for _, end, _ in places]
        for (_, end, _), before, here in zip(places[1:], self.ends, self.ends[1:]):
            if here < before:
                raise Refused(f"cmap+{end}: 11 CmapShape")
        self.ranges = [(number(self.cmap, start, size), end, more) for (start, _, more), end in zip(places, self.ends)]

    def groups(self, at):
        """Yields where a group's start and end stand, and its first glyph."""
        fits(self.cmap, at + 16, at)
        count = number(self.cmap, at + 12, 4)
        fits(self.cmap, at + 16 + 12 * count, at)
        for group in range(at + 16, at + 16 + 12 * count, 12):
            yield group, group + 4, number(self.cmap, group + 8, 4)

    def segments(self, at):
        """Yields where a segment's start and end stand, and its delta, its range offset and the place of that."""
        fits(self.cmap, at + 14, at)
        lists = number(self.cmap, at + 6, 2)
        if lists % 2:
            raise Refused(f"cmap+{at + 6}: 11 CmapShape")
        fits(self.cmap, at + 16 + 4 * lists, at)
        for end in range(at + 14, at + 14 + lists, 2):
            start, delta, offset = (end + 2 + k * lists for k in (1, 2, 3))
            yield start, end, (number(self.cmap, delta, 2), number(self.cmap, offset, 2), offset)

    def by_segment(self, character, start, delta, offset, place):
        if offset == 0:
            return (character + delta) % 65536
        found = number(self.cmap, place + offset + 2 * (character - start), 2)
        return (found + delta) % 65536 if found else 0

    def glyph(self, character):
        for at, end in enumerate(self.ends):
            if end >= character:
                break
        else:
            return 0
        start, _, more = self.ranges[at]
        if start > character:
            return 0
        found = more + character - start if self.format == 12 else self.by_segment(character, start, *more)
        return found if found < self.glyphs else 0

    def line(self, character):
        """Returns the line that `map` prints."""
        glyph = self.glyph(character)
        return f"U+{character:04X} {glyph} {number(self.hmtx, 4 * min(glyph, self.metrics - 1), 2)}"
