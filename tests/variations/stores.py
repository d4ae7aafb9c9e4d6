"""Variation stores, and the tables HVAR, MVAR and GDEF that have one: a plain reader, written from their chapters and
this project's rules alone. Nothing of these tables is refused: what is not there is 0."""
from axes import ONE, optional, share_of, signed
from face import unsigned

# A row has so many numbers at the most, and a store so many regions, with so many axes together.
MOST_NUMBERS = MOST_REGIONS = 512
MOST_SIDES = 4096


def whole(delta):
    """Returns a delta of 1/65536 in font units, a half upwards."""
    return (delta + 32768) // 65536


def here(data, at, size):
    """Returns the number in bytes at a place, 0 where they are not all there."""
    return unsigned(data, at, size) if at + size <= len(data) else 0


def kept(value, least, greatest):
    return max(least, min(greatest, value))


def on_region(coordinates, axes):
    """Returns how much of a region of a store holds, from 0 to 65536; axes have start, peak and end."""
    share = ONE
    for at, (start, peak, end) in zip(coordinates, axes):
        if start > peak or peak > end or (start < 0 < end and peak) or peak == 0 or at == peak:
            continue
        if at <= start or at >= end:
            return 0
        share = share_of(share, at - start, peak - start) if at < peak else share_of(share, end - at, end - peak)
        if share == 0:
            return 0
    return share


class Store:
    """A variation store at a place of a table, for an instance."""

    def __init__(self, data, at, coordinates):
        self.data, self.at, self.axes = data, at, len(coordinates)
        self.is_there = self.has_blocks() and self.has_regions()
        self.shares = [on_region(coordinates, self.region(it)) for it in range(self.regions)] if self.is_there else []

    def word(self, at):
        return unsigned(self.data, at)

    def has_blocks(self):
        """Tells whether header and offsets of blocks are there."""
        if self.at + 8 > len(self.data) or self.word(self.at) != 1:
            return False
        self.blocks = self.word(self.at + 6)
        return self.blocks > 0 and self.at + 8 + 4 * self.blocks <= len(self.data)

    def has_regions(self):
        """Tells whether the regions are there. Too many are not."""
        self.list = self.at + unsigned(self.data, self.at + 2, 4)
        if self.list + 4 > len(self.data) or self.word(self.list) != self.axes:
            return False
        self.regions = self.word(self.list + 2)
        if self.regions > MOST_REGIONS or self.axes * self.regions > MOST_SIDES:
            return False
        return self.list + 4 + 6 * self.axes * self.regions <= len(self.data)

    def region(self, number):
        first = self.list + 4 + 6 * self.axes * number
        places = range(first, first + 6 * self.axes, 6)
        return [[4 * signed(self.data, at + it) for it in (0, 2, 4)] for at in places]

    def numbers(self, outer, inner):
        """Returns the numbers of a row with the numbers of their regions, none where the row is not there."""
        if outer >= self.blocks:
            return []
        at = self.at + unsigned(self.data, self.at + 8 + 4 * outer, 4)
        if at + 6 > len(self.data):
            return []
        items, words, count = (self.word(at + it) for it in (0, 2, 4))
        is_long, words = words >> 15, words & 0x7FFF
        sizes = [(2 if it < words else 1) << is_long for it in range(count)]
        row = at + 6 + 2 * count + inner * sum(sizes)
        if inner >= items or words > count or count > MOST_NUMBERS or row + sum(sizes) > len(self.data):
            return []
        found = []
        for number, size in enumerate(sizes):
            found.append((self.word(at + 6 + 2 * number), signed(self.data, row, size)))
            row += size
        return found

    def delta(self, outer, inner):
        """Returns the delta of a row in font units."""
        there = [(region, number) for region, number in self.numbers(outer, inner) if region < len(self.shares)]
        return whole(sum(number * self.shares[region] for region, number in there))


class Hvar:
    """The table HVAR, for an instance."""

    def __init__(self, tables, coordinates):
        self.data = optional(tables, "HVAR", 20)
        self.is_there = self.data is not None and unsigned(self.data, 0) == 1
        if self.is_there:
            self.store = Store(self.data, unsigned(self.data, 4, 4), coordinates)
            self.is_there = self.store.is_there

    def entry(self, glyph):
        """Returns the block and the item of a glyph. A map of another format has no entries, and an entry that is not
        there is 0."""
        at = unsigned(self.data, 8, 4)
        form, entry = here(self.data, at, 1), here(self.data, at + 1, 1)
        size = 4 if form else 2
        count = here(self.data, at + 2, size) if at and form < 2 else 0
        if count == 0:
            return 0, glyph
        width, bits = (entry // 16 & 3) + 1, (entry & 15) + 1
        number = here(self.data, at + 2 + size + width * min(glyph, count - 1), width)
        return number >> bits, number & (1 << bits) - 1

    def advance(self, glyph, advance):
        """Returns the advance of a glyph that hmtx gives one."""
        return kept(advance + self.store.delta(*self.entry(glyph)), 0, 65535)


def heights_of(tables, coordinates, heights):
    """Returns ascent, descent and line gap, moved by the table MVAR."""
    data = optional(tables, "MVAR", 12)
    if data is None or unsigned(data, 0) != 1 or unsigned(data, 6) < 8:
        return heights
    store = Store(data, unsigned(data, 10), coordinates)
    if not store.is_there:
        return heights
    size, count, moved = unsigned(data, 6), unsigned(data, 8), []
    for tag, height in zip((b"hasc", b"hdsc", b"hlgp"), heights):
        at = next((at for at in range(12, 12 + size * count, size) if data[at : at + 4] == tag), None)
        delta = store.delta(here(data, at + 4, 2), here(data, at + 6, 2)) if at else 0
        moved.append(kept(height + delta, -32768, 32767))
    return moved


def pairs_store(tables, coordinates):
    """Returns the store of the table GDEF, or nothing."""
    data = optional(tables, "GDEF", 18)
    if data is None or unsigned(data, 0) != 1 or unsigned(data, 2) < 3 or unsigned(data, 14, 4) == 0:
        return None
    store = Store(data, unsigned(data, 14, 4), coordinates)
    return store if store.is_there else None
