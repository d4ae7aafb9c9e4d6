"""Axes and named instances of a variable font, and the coordinates of an instance: a plain reader of the tables fvar
and avar, written from OpenType's chapters and this project's rules alone. It shares no code with tt_render.

Places on an axis are in 1/65536 of the axis' unit, coordinates in 1/65536 from -1 to 1."""
import re
from typing import NamedTuple

from face import Refused, need, unsigned

ONE = 65536
# So many axes at most, and so many named instances whose names are told.
MOST_AXES, MOST_TOLD = 64, 256
VALUE = re.compile(r"(-?)([0-9]{1,5})(?:\.([0-9]{1,5}))?")


def signed(data, at, size=2):
    return int.from_bytes(data[at : at + size], "big", signed=True)


def away(number, divisor):
    """Returns a quotient rounded to the nearest whole number, halves away from zero; the divisor is above 0."""
    size = (2 * abs(number) + divisor) // (2 * divisor)
    return size if number >= 0 else -size


def share_of(number, part, whole):
    """Returns number times part over whole, rounded as `away` rounds."""
    return away(number * part, whole) if whole > 0 else away(-number * part, -whole)


class Axis(NamedTuple):
    """An axis: its tag, the ends and the default of its places, and the number of its name."""

    tag: str
    least: int
    default: int
    greatest: int
    name: int

    def coordinate(self, place):
        """Returns the coordinate of a place before avar; a place past an end is the end's."""
        if place > self.default:
            return ONE if place >= self.greatest else away(ONE * (place - self.default), self.greatest - self.default)
        if place < self.default:
            return -ONE if place <= self.least else away(ONE * (place - self.default), self.default - self.least)
        return 0


class Instance(NamedTuple):
    """A named instance: the number of its name, and its places."""

    name: int
    places: list


class Fvar:
    """The table fvar of a face, or its first defect."""

    def __init__(self, tables):
        self.tables, data = tables, tables.table("fvar")
        shape = lambda holds, at: need(holds, "fvar", at, 26, "VariationShape")
        shape(len(data) >= 16, len(data))
        shape(unsigned(data, 0, 4) == 0x00010000, 0)
        start, count, instances, size = (unsigned(data, it) for it in (4, 8, 12, 14))
        shape(1 <= count <= MOST_AXES, 8)
        shape(unsigned(data, 10) == 20, 10)
        shape(size in (4 + 4 * count, 6 + 4 * count), 14)
        first = start + 20 * count
        shape(first + size * instances <= len(data), 4)
        self.axes = [self.axis(data, start + 20 * it) for it in range(count)]
        self.instances = [self.instance(data, first + size * it) for it in range(instances)]

    @staticmethod
    def axis(data, at):
        least, default, greatest = (signed(data, at + it, 4) for it in (4, 8, 12))
        if not least <= default <= greatest:
            least = greatest = default
        return Axis(data[at : at + 4].decode("latin-1"), least, default, greatest, unsigned(data, at + 18))

    def instance(self, data, at):
        return Instance(unsigned(data, at), [signed(data, at + 4 + 4 * it, 4) for it in range(len(self.axes))])

    def number_of(self, named):
        """Returns the number of the named instance that a word asks for, or refuses the word."""
        if re.fullmatch("[0-9]+", named):
            number = int(named)
        else:
            told = [name_of(self.tables, it.name) for it in self.instances[:MOST_TOLD]]
            number = told.index(named) if named and named in told else len(self.instances)
        need(number < len(self.instances), "fvar", 12, 28, "NoInstance")
        return number

    def places(self, named, values):
        """Returns the place on each axis: of the named instance, or the defaults, then as the values say."""
        places = [it.default for it in self.axes]
        if named is not None:
            places = list(self.instances[self.number_of(named)].places)
        for tag, value in values:
            here = [at for at, axis in enumerate(self.axes) if axis.tag == tag]
            need(here, "fvar", 8, 27, "NoAxis")
            for at in here:
                places[at] = value
        return places


def name_of(tables, number):
    """Returns a name as it is told, or nothing where the font has none."""
    try:
        table = tables.table("name")
    except Refused:
        return ""
    count, storage = unsigned(table, 2), unsigned(table, 4)
    if len(table) < 6 + 12 * count:
        return ""
    records = [[unsigned(table, 6 + 12 * it + 2 * field) for field in range(6)] for it in range(count)]
    here = [it for it in records if it[0] == 3 and it[3] == number]
    chosen = [it for it in here if it[2] == 0x409][:1] or here[:1]
    if not chosen or len(table) < storage + chosen[0][5] + chosen[0][4]:
        return ""
    length, at = chosen[0][4], storage + chosen[0][5]
    words = [unsigned(table, at + 2 * it) for it in range(length // 2)][:64]
    return "".join(chr(it) if 0x20 <= it <= 0x7E else "?" for it in words)


def optional(tables, tag, least):
    """Returns a table that may be missing, or nothing where it is not there or shorter than its header."""
    try:
        data = tables.table(tag)
    except Refused:
        return None
    return data if len(data) >= least else None


def avar(tables, count):
    """Returns the lists of the table avar, a list of pairs for each axis, or nothing where it is not there."""
    data = optional(tables, "avar", 8)
    if data is None or unsigned(data, 0, 4) != 0x00010000 or unsigned(data, 6) != count:
        return None
    at, lists = 8, []
    for _ in range(count):
        if at + 2 > len(data):
            return None
        pairs, at = unsigned(data, at), at + 2
        if at + 4 * pairs > len(data):
            return None
        lists.append([(4 * signed(data, at + 4 * it), 4 * signed(data, at + 4 * it + 2)) for it in range(pairs)])
        at += 4 * pairs
    return lists


def mapped(pairs, coordinate):
    """Returns what a list of avar makes of a coordinate."""
    for (before, to_before), (here, to_here) in zip(pairs, pairs[1:]):
        if coordinate < here:
            way = here - before
            moved = share_of(coordinate - before, to_here - to_before, way) if way else 0
            return max(-ONE, min(ONE, to_before + moved))
    return coordinate


def coordinates_of(tables, named, values):
    """Returns the coordinates of an instance, all 0 where it is the default."""
    fvar = Fvar(tables)
    places = fvar.places(named, values)
    plain = [axis.coordinate(place) for axis, place in zip(fvar.axes, places)]
    lists = avar(tables, len(fvar.axes))
    return [mapped(*it) for it in zip(lists, plain)] if lists else plain


def values_in(text):
    """Returns the tags and places that a text of --axis gives, or nothing where the text is none."""
    values = []
    for part in text.split(","):
        tag, _, number = part.partition("=")
        found = VALUE.fullmatch(number)
        if not 1 <= len(tag) <= 4 or not all(" " <= it <= "~" for it in tag) or not found:
            return None
        sign, whole, digits = found.groups()
        hundred_thousandths = int(whole + (digits or "").ljust(5, "0")) * (-1 if sign else 1)
        place = (2 * ONE * hundred_thousandths + 10**5) // (2 * 10**5)
        if int(whole) >= 32768 or not -(2**31) <= place < 2**31:
            return None
        values.append((tag.ljust(4), place))
    return values


def text_of(place):
    """Returns a place as a decimal: nearest, at most five digits behind the point, no zeros at the end."""
    tenths = away(abs(place) * 10**5, ONE)
    whole, rest = divmod(tenths, 10**5)
    digits = f"{rest:05}".rstrip("0")
    return ("-" if place < 0 else "") + str(whole) + (f".{digits}" if digits else "")
