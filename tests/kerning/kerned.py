"""A plain reader of the tables GPOS and kern, written from their rules alone: the kerning of two glyphs in font units.

A word past a table's end is 0, and nothing is refused. Lists are searched by halves, in order or not."""
import struct

from fonts import tables_of

# So many records of scripts and features are looked at, numbers of features and of lookups, lookups, and subtables.
MOST_RECORDS, MOST_LOOKUPS, MOST_SUBTABLES, MOST_OF_KERN = 256, 32, 64, 32
X_ADVANCE, X_ADVANCE_DEVICE, VARIATION_INDEX = 4, 0x40, 0x8000


class Table:
    """The bytes of a table, empty where the font has none."""

    def __init__(self, data):
        self.data = data

    def number(self, at, size):
        part = self.data[at : at + size]
        return int.from_bytes(part, "big") if len(part) == size else 0

    def word(self, at):
        return self.number(at, 2)

    def signed(self, at):
        return (self.word(at) + 0x8000) % 0x10000 - 0x8000

    def long(self, at):
        return self.number(at, 4)


def reached(count, key, wanted):
    """Returns the place among so many that halving comes to: the first whose key is not below the wanted one, where the
    keys rise."""
    low, high = 0, count
    while low < high:
        middle = (low + high) // 2
        if key(middle) >= wanted:
            high = middle
        else:
            low = middle + 1
    return low


def found(count, key, wanted):
    """Returns the place of a key, or None."""
    at = reached(count, key, wanted)
    return at if at < count and key(at) == wanted else None


def by_kern(table, left, right):
    """Returns the kerning by the table kern."""
    if table.word(0) == 0:
        at, count, head, is_apple = 4, table.word(2), 6, False
    elif table.long(0) == 0x10000:
        at, count, head, is_apple = 8, table.long(4), 8, True
    else:
        return 0
    total = 0
    for _ in range(min(count, MOST_OF_KERN)):
        if len(table.data) < at + 8:
            break
        length = table.long(at) if is_apple else table.word(at + 2)
        coverage = table.word(at + 4)
        if coverage & 0xE0FF == 0 if is_apple else coverage & 0xFF07 == 1:
            first = at + head + 8
            pairs = min(table.word(at + head), max(0, len(table.data) - first) // 6)
            place = found(pairs, lambda it: table.long(first + 6 * it), left << 16 | right)
            if place is not None:
                overrides = coverage & 8 and not is_apple
                total = (0 if overrides else total) + table.signed(first + 6 * place + 4)
        if length < head:
            break
        at += length
    return total


def offset_of(table, tags, tag):
    """Returns the offset that the first record of a tag has in a list, or 0."""
    records = range(tags + 2, tags + 2 + 6 * min(table.word(tags), MOST_RECORDS), 6)
    return next((table.word(it + 4) for it in records if table.data[it : it + 4] == tag), 0)


def feature_of(table):
    """Returns where the feature kern is, or None."""
    scripts, features, lookups = (table.word(it) for it in (4, 6, 8))
    if table.word(0) != 1 or 0 in (scripts, features, lookups):
        return None
    script = offset_of(table, scripts, b"latn") or offset_of(table, scripts, b"DFLT")
    language = script and table.word(scripts + script)
    if not language:
        return None
    at = scripts + script + language
    for number in range(min(table.word(at + 4), MOST_RECORDS)):
        feature = table.word(at + 6 + 2 * number)
        record = features + 2 + 6 * feature
        if feature < min(table.word(features), MOST_RECORDS) and table.data[record : record + 4] == b"kern":
            return features + table.word(record + 4)
    return None


def pair_subtables(table, feature):
    """Returns the places of the pair subtables of a feature, those of each lookup in a list."""
    lookups, lists, rest = table.word(8), [], MOST_SUBTABLES
    numbers = {table.word(feature + 4 + 2 * it) for it in range(min(table.word(feature + 2), MOST_RECORDS))}
    for number in sorted(it for it in numbers if it < table.word(lookups))[:MOST_LOOKUPS]:
        at = lookups + table.word(lookups + 2 + 2 * number)
        places = [at + table.word(at + 6 + 2 * it) for it in range(min(table.word(at + 4), MOST_SUBTABLES))]
        if table.word(at) == 9:
            places = [it + table.long(it + 4) for it in places if (table.word(it), table.word(it + 2)) == (1, 2)]
        elif table.word(at) != 2:
            places = []
        lists.append(places[:rest])
        rest -= len(lists[-1])
    return lists


def range_of(table, at, glyph):
    """Returns the place of a glyph's range in a list of ranges, or None."""
    first = lambda it: at + 4 + 6 * it
    count = table.word(at + 2)
    place = reached(count, lambda it: table.word(first(it) + 2), glyph)
    return first(place) if place < count and table.word(first(place)) <= glyph else None


def index_of(table, at, glyph):
    """Returns a glyph's index in a coverage, or None."""
    if table.word(at) == 1:
        return found(table.word(at + 2), lambda it: table.word(at + 4 + 2 * it), glyph)
    place = range_of(table, at, glyph) if table.word(at) == 2 else None
    return None if place is None else table.word(place + 4) + glyph - table.word(place)


def class_of(table, at, glyph):
    """Returns a glyph's class, 0 where it has none."""
    if table.word(at) == 1:
        number = glyph - table.word(at + 2)
        return table.word(at + 6 + 2 * number) if 0 <= number < table.word(at + 4) else 0
    place = range_of(table, at, glyph) if table.word(at) == 2 else None
    return 0 if place is None else table.word(place + 4)


def value_at(table, at, parent, forms, store):
    """Returns the advance of the first of two values, moved by a store of an instance where there is one. Offsets to
    devices are counted from the parent."""
    value = table.signed(at + 2 * bin(forms[0] & 3).count("1")) if forms[0] & X_ADVANCE else 0
    offset = table.word(at + 2 * bin(forms[0] & 0x3F).count("1")) if forms[0] & X_ADVANCE_DEVICE else 0
    device = parent + offset
    if store is None or offset == 0 or table.word(device + 4) != VARIATION_INDEX:
        return value
    return max(-32768, min(32767, value + store.delta(table.word(device), table.word(device + 2))))


def by_subtable(table, at, left, right, store):
    """Returns what a pair subtable gives, or None where it does not apply."""
    index = index_of(table, at + table.word(at + 2), left)
    if index is None:
        return None
    forms = table.word(at + 4), table.word(at + 6)
    size = 2 * sum(bin(it & 0xFF).count("1") for it in forms)
    if table.word(at) == 1 and index < table.word(at + 8):
        pairs = at + table.word(at + 10 + 2 * index)
        place = lambda it: pairs + 2 + (2 + size) * it
        number = found(table.word(pairs), lambda it: table.word(place(it)), right)
        return None if number is None else value_at(table, place(number) + 2, pairs, forms, store)
    if table.word(at) == 2:
        first, second = (class_of(table, at + table.word(at + it), glyph) for it, glyph in ((8, left), (10, right)))
        if first < table.word(at + 12) and second < table.word(at + 14):
            return value_at(table, at + 16 + size * (first * table.word(at + 14) + second), at, forms, store)
    return None


class Kerning:
    """The kerning of a font, at an instance where a store is given."""

    def __init__(self, font, directory=0, store=None):
        self.store = store
        places = tables_of(font, directory)
        at, size = places.get(b"GPOS", (0, 0))
        self.gpos = Table(font[at : at + size] if at + size <= len(font) else b"")
        at, size = places.get(b"kern", (0, 0))
        self.kern = Table(font[at : at + size] if at + size <= len(font) else b"")
        feature = feature_of(self.gpos)
        self.lookups = None if feature is None else pair_subtables(self.gpos, feature)

    def of(self, left, right):
        """Returns the kerning of two glyphs in font units."""
        if self.lookups is None:
            return by_kern(self.kern, left, right)
        total = 0
        for places in self.lookups:
            values = (by_subtable(self.gpos, it, left, right, self.store) for it in places)
            total += next((it for it in values if it is not None), 0)
        return total


def word_in(font, tag, at):
    """Returns a word of a table."""
    return struct.unpack_from(">H", font, tables_of(font)[tag][0] + at)[0]


def advance_of(font, glyph):
    """Returns the advance of a glyph in font units."""
    return word_in(font, b"hmtx", 4 * min(glyph, word_in(font, b"hhea", 34) - 1))


def units_of(font):
    """Returns the units per em of a font."""
    return word_in(font, b"head", 18)


def steps_of(font, glyphs, size):
    """Returns the steps of a line of glyphs: advance and kerning rounded once, a half upwards, and none below 0."""
    kerning, em, steps = Kerning(font), units_of(font), []
    for at, glyph in enumerate(glyphs):
        units = advance_of(font, glyph) + (kerning.of(glyph, glyphs[at + 1]) if at + 1 < len(glyphs) else 0)
        steps.append(max(0, (2 * units * size + em) // (2 * em)))
    return steps
