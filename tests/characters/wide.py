"""The glyphs of characters with the wide reading of a font's cmap. It shares no code with tt_render, and was written
from OpenType's chapter cmap and these rules (profile).

Chosen is the first record of the first line of CHOICE that has one. A record whose subtable has no room for its format
is passed over. A subtable that does not fit in cmap is refused at its place, and no other is tried. Ends are not
tested: a search by halves finds the segment, group or entry, whatever their order is.

By a symbol map a character below 256 that has no glyph is looked up at U+F000 and more. By a map of Macintosh Roman a
character is looked up by its byte, and has no glyph without one.

A selector belongs to the character directly before it; each other selector is passed over. The first record of platform
0 and encoding 5 with a subtable of format 14 is asked for the two. What of it does not fit in cmap is not there.
"""
from plain import Refused, fits, number

READABLE = 0, 4, 6, 10, 12, 13
CHOICE = (
    (3, 10, (12,), "plain"),
    (0, None, (12,), "plain"),
    (3, 1, (4,), "plain"),
    (0, None, (4,), "plain"),
    (3, 10, READABLE, "plain"),
    (0, None, READABLE, "plain"),
    (3, 1, READABLE, "plain"),
    (3, 0, READABLE, "symbol"),
    (1, 0, READABLE, "roman"),
)


def is_selector(character):
    return 0xFE00 <= character <= 0xFE0F or 0xE0100 <= character <= 0xE01EF


def units(characters):
    """Returns each character that is no selector, with the selector directly after it, or 0."""
    pairs = zip(characters, [*characters[1:], 0])
    return [(it, after if is_selector(after) else 0) for it, after in pairs if not is_selector(it)]


def reached(count, holds):
    """Returns where a search by halves ends."""
    low, high = 0, count
    while low < high:
        middle = (low + high) // 2
        if holds(middle):
            high = middle
        else:
            low = middle + 1
    return low


def roman_byte(character):
    """Returns the byte that Macintosh Roman has for a character, or None."""
    try:
        return chr(character).encode("mac_roman")[0]
    except UnicodeEncodeError:
        return None


class Map:
    """A font's cmap. `kind` says how its characters are looked up in the subtable of a format at a place."""

    def __init__(self, cmap, glyphs):
        self.cmap, self.glyphs = cmap, glyphs
        fits(cmap, 4, len(cmap))
        fits(cmap, 4 + 8 * number(cmap, 2, 2), len(cmap))
        places = range(4, 4 + 8 * number(cmap, 2, 2), 8)
        self.records = [(number(cmap, it, 2), number(cmap, it + 2, 2), number(cmap, it + 4, 4)) for it in places]
        self.format, self.at, self.kind = self.chosen()
        self.test()
        variations = self.first(0, 5, (14,))
        self.variations = variations[1] if variations else None

    def first(self, platform, encoding, formats):
        """Returns the format and the place of the first record of a kind, or None."""
        for one, other, at in self.records:
            if one == platform and encoding in (None, other) and number(self.cmap, at, 2) in formats:
                return number(self.cmap, at, 2), at
        return None

    def chosen(self):
        for platform, encoding, formats, kind in CHOICE:
            found = self.first(platform, encoding, formats)
            if found:
                return *found, kind
        raise Refused("cmap+0: 10 NoCmap")

    def number(self, at, size=2):
        """Returns a number of the subtable, None past the end."""
        return number(self.cmap, self.at + at, size)

    def test(self):
        """Tests the subtable's shape."""
        heads = {0: 262, 4: 14, 6: 10, 10: 20, 12: 16, 13: 16}
        fits(self.cmap, self.at + heads[self.format], self.at)
        if self.format == 4 and self.number(6) % 2:
            raise Refused(f"cmap+{self.at + 6}: 11 CmapShape")
        self.first_code, self.count = {
            0: lambda: (0, 256),
            4: lambda: (0, self.number(6) // 2),
            6: lambda: (self.number(6), self.number(8)),
            10: lambda: (self.number(12, 4), self.number(16, 4)),
            12: lambda: (0, self.number(12, 4)),
            13: lambda: (0, self.number(12, 4)),
        }[self.format]()
        whole = {0: 262, 4: 16 + 8 * self.count, 6: 10 + 2 * self.count, 10: 20 + 2 * self.count}
        fits(self.cmap, self.at + whole.get(self.format, 16 + 12 * self.count), self.at)

    def by_segment(self, code):
        lists = 2 * self.count
        segment = reached(self.count, lambda it: self.number(14 + 2 * it) >= code)
        if segment == self.count:
            return 0
        start, delta, offset = (16 + 2 * segment + it * lists for it in (1, 2, 3))
        if self.number(start) > code:
            return 0
        if self.number(offset) == 0:
            return (code + self.number(delta)) % 65536
        found = self.number(offset + self.number(offset) + 2 * (code - self.number(start)))
        return (found + self.number(delta)) % 65536 if found else 0

    def by_group(self, code):
        group = reached(self.count, lambda it: self.number(20 + 12 * it, 4) >= code)
        if group == self.count or self.number(16 + 12 * group, 4) > code:
            return 0
        after = code - self.number(16 + 12 * group, 4) if self.format == 12 else 0
        return self.number(24 + 12 * group, 4) + after

    def of_code(self, code):
        """Returns the glyph of a code, by the subtable alone."""
        if self.format == 4:
            found = self.by_segment(code)
        elif self.format in (12, 13):
            found = self.by_group(code)
        elif not 0 <= code - self.first_code < self.count:
            found = 0
        elif self.format == 0:
            found = self.number(6 + code, 1)
        else:
            found = self.number((10 if self.format == 6 else 20) + 2 * (code - self.first_code))
        return found if found < self.glyphs else 0

    def glyph(self, character):
        """Returns the glyph of a character."""
        if self.kind == "roman":
            code = roman_byte(character)
            return 0 if code is None else self.of_code(code)
        found = self.of_code(character)
        if found == 0 and self.kind == "symbol" and character < 256:
            found = self.of_code(0xF000 + character)
        return found

    def there(self, at, size, offset):
        """Returns where the entries of a list begin, and how many there are: as many as fit."""
        count = number(self.cmap, at, 4)
        if count is None:
            return at, 0
        return at + offset, min(count, (len(self.cmap) - at - offset) // size)

    def varied(self, character, selector):
        """Returns the glyph that a selector gives to a character, None where the character's own serves."""
        records, count = self.there(self.variations + 6, 11, 4)
        found = reached(count, lambda it: number(self.cmap, records + 11 * it, 3) >= selector)
        record = records + 11 * found
        if found == count or number(self.cmap, record, 3) != selector:
            return None
        default, other = (number(self.cmap, record + it, 4) for it in (3, 7))
        if default and self.is_default(self.variations + default, character):
            return None
        entries, count = self.there(self.variations + other, 5, 4) if other else (0, 0)
        found = reached(count, lambda it: number(self.cmap, entries + 5 * it, 3) >= character)
        if found == count or number(self.cmap, entries + 5 * found, 3) != character:
            return None
        glyph = number(self.cmap, entries + 5 * found + 3, 2)
        return glyph if 0 < glyph < self.glyphs else None

    def is_default(self, at, character):
        """Tells whether a list of ranges at a place has a character."""
        ranges, count = self.there(at, 4, 4)
        last = lambda it: number(self.cmap, ranges + 4 * it, 3) + number(self.cmap, ranges + 4 * it + 3, 1)
        found = reached(count, lambda it: last(it) >= character)
        return found < count and number(self.cmap, ranges + 4 * found, 3) <= character

    def pairs(self):
        """Yields each character with a selector that format 14 has, ordered by the selectors."""
        records, count = self.there(self.variations + 6, 11, 4)
        for record in range(records, records + 11 * count, 11):
            selector, default, other = (number(self.cmap, record + at, size) for at, size in ((0, 3), (3, 4), (7, 4)))
            found = []
            if default:
                at, ranges = self.there(self.variations + default, 4, 4)
                for it in range(at, at + 4 * ranges, 4):
                    start = number(self.cmap, it, 3)
                    found += range(start, start + number(self.cmap, it + 3, 1) + 1)
            if other:
                at, entries = self.there(self.variations + other, 5, 4)
                found += [number(self.cmap, it, 3) for it in range(at, at + 5 * entries, 5)]
            yield from ((it, selector) for it in sorted(found))

    def of_unit(self, character, selector):
        """Returns the glyph of a character with a selector, or without one where that is 0."""
        if selector and self.variations is not None:
            glyph = self.varied(character, selector)
            if glyph is not None:
                return glyph
        return self.glyph(character)
