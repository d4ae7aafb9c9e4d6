"""Fonts whose tables of kerning take as long as they can: as many subtables as are taken, each searched to its end."""
import array
import random
import struct

import small_fonts as small
from hostile.parts import TEXT, Hostile

# As many glyphs as a font has, and so many lookups, subtables of GPOS, subtables of kern and records as are taken.
GLYPHS, LOOKUPS, SUBTABLES, OF_KERN, RECORDS = 65535, 32, 64, 32, 256
# As many entries as a count tells, and the bytes of one in coverages, classes, pairs of both tables.
COUNT, ENTRY = 65535, 6
# Each so many glyphs is one of the text: these have odd numbers.
STEP = 16
# Value records of as many bytes as they may have, and of two words.
LARGE, SMALL = (0xFF, 0xFF), (4, 4)


def spread_text():
    """As many characters as a text has, in disorder, so that neighbours are far from each other in each list."""
    characters = list(small.line_text(TEXT))
    random.Random(61).shuffle(characters)
    return "".join(characters)


def spread_cmap():
    """A cmap by which these characters are glyphs that are spread over all glyphs."""
    numbers = small.words(*(STEP * it - 3 for it in range(1, TEXT + 1)))
    last = small.FIRST + TEXT - 1
    segments = small.words(4, 32 + len(numbers), 0, 4, 4, 1, 0, last, 0xFFFF, 0, small.FIRST, 0xFFFF, 0, 1, 4, 0)
    return small.words(0, 1, 3, 1, 0, 12) + segments + numbers


def font_of(tag, table):
    """A font of as many empty glyphs as there may be, each a pixel wide at 16, with a table."""
    others = {"cmap": spread_cmap(), tag: table}
    made = small.font([b""] * GLYPHS, [(64, 0)] * GLYPHS, long_metrics=1, others=others, long_loca=True)
    return Hostile(made, spread_text())


def words_of(numbers):
    """The bytes of many words."""
    table = array.array("H", numbers)
    table.byteswap()
    return table.tobytes()


def ranges():
    """A coverage and, an entry and two entries on, two lists of classes, all of ranges: each glyph has one of its own,
    with the class 1. The heads of the classes are in the first entries of the list before them."""
    numbers = [2, COUNT, 0, 2, COUNT, 2, 2, COUNT]
    for entry in range(2, COUNT + 2):
        glyph = min(entry + 1, 0xFFFF)
        numbers += [glyph, glyph, 1]
    return words_of(numbers)


def of_odd():
    """A coverage and, eight bytes on, a set of pairs, each of as many entries as may be: each odd glyph has the index 0,
    and second glyphs are even. The set's count is in the coverage's first entry."""
    numbers = [2, COUNT, 0, 2, COUNT]
    for entry in range(1, COUNT + 1):
        even = min(2 * entry, 0xFFFE)
        numbers += [even, even + 1, 0]
    return words_of(numbers)


def by_classes(away, classes=1):
    """A pair subtable by classes, whose coverage is so far away, and records of 0. The class of a second glyph is past
    the number of classes, so that the next subtable is asked; or it is not, and the subtable applies."""
    return small.words(2, away, *LARGE, away + ENTRY, away + 2 * ENTRY, 0xFFFF, classes) + bytes(128)


def by_turns(away):
    """The same, the second one applies: it is the last of its lookup."""
    size = len(by_classes(0))
    return by_classes(away, 1 + away // size % 2)


def by_pairs(away):
    """A pair subtable of pairs, whose coverage is so far away."""
    return small.words(1, away, *SMALL, 0xFFFF, away + 8)


def gpos(places, lookups=LOOKUPS, kind=2):
    """The head of a table whose lookups have extensions of subtables, at these places behind the head."""
    each = len(places) // lookups
    head = small.words(1, 0, 10, 30, 42 + 2 * lookups, 1) + b"DFLT" + small.words(8, 4, 0, 0, 0xFFFF, 1, 0)
    head += small.words(1) + b"kern" + small.words(8, 0, lookups, *range(lookups))
    # A lookup with its offsets and its extensions, of eight bytes each.
    size, first = 6 + 10 * each, 2 + 2 * lookups
    end = first + size * lookups
    head += small.words(lookups, *(first + size * it for it in range(lookups)))
    for number in range(lookups):
        head += small.words(9, 0, each, *(6 + 2 * each + 8 * it for it in range(each)))
        for it in range(each):
            here = first + size * number + 6 + 2 * each + 8 * it
            head += small.words(1, kind) + struct.pack(">I", end - here + places[number * each + it])
    return head


def together(make, lists):
    """A table of subtables one behind the other, which share their lists."""
    size = len(make(0))
    places = [size * it for it in range(SUBTABLES)]
    return gpos(places) + b"".join(make(size * SUBTABLES - it) for it in places) + lists


def apart():
    """A table of subtables that have their lists for themselves: 25 MB."""
    each = by_classes(len(by_classes(0))) + ranges()
    return gpos([len(each) * it for it in range(SUBTABLES)]) + each * SUBTABLES


def others():
    """A table of as many lookups as are taken, of as many extensions as are looked at, none of them of pairs."""
    return gpos([0] * LOOKUPS * SUBTABLES, kind=1) + bytes(8)


def kern():
    """A table kern of as many subtables as are taken. Each has as many pairs as may be, and the next ones are in them."""
    # The pairs of each begin 14 bytes on, and so in the middle of a word's way to the next.
    heads = small.words(0, 18, 1, COUNT, 0, 0, 0, 0, 0) * OF_KERN
    pairs = (number for entry in range(COUNT) for number in (entry + 1, 0x8000, 1))
    return small.words(0, OF_KERN) + heads + small.words(0) + words_of(pairs)


FONTS = {
    "kern_classes": lambda: font_of("GPOS", together(by_classes, ranges())),
    "kern_applying": lambda: font_of("GPOS", together(by_turns, ranges())),
    "kern_pairs": lambda: font_of("GPOS", together(by_pairs, of_odd())),
    "kern_apart": lambda: font_of("GPOS", apart()),
    "kern_others": lambda: font_of("GPOS", others()),
    "kern_table": lambda: font_of("kern", kern()),
}
