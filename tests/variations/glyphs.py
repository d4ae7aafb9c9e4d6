"""Outlines of glyphs at an instance, before any program is run: a plain reader of glyf, loca and gvar, written from
their chapters and this project's rules alone."""
import struct
from typing import NamedTuple

from axes import away, optional, signed
from face import Refused, need, unsigned
from stores import kept, whole
from tuples import Broken, Bytes, tuples

FAR = 2097151


def part(delta):
    """Returns a delta of 1/65536 in 1/64 font unit, a half upwards."""
    return (delta + 512) // 1024


class Gvar:
    """The table gvar, or the first defect of its header."""

    def __init__(self, tables, coordinates):
        self.coordinates, axes = coordinates, len(coordinates)
        self.data = data = tables.table("gvar")
        shape = lambda holds, at: need(holds, "gvar", at, 26, "VariationShape")
        shape(len(data) >= 20, len(data))
        shape(unsigned(data, 0, 4) == 0x00010000, 0)
        shape(unsigned(data, 4) == axes, 4)
        self.glyphs, self.size = unsigned(data, 12), 4 if unsigned(data, 14) & 1 else 2
        shape(20 + self.size * (self.glyphs + 1) <= len(data), 12)
        count, at = unsigned(data, 6), unsigned(data, 8, 4)
        shape(at + 2 * axes * count <= len(data), 8)
        rows = range(at, at + 2 * axes * count, 2 * axes)
        self.shared = [[4 * signed(data, it + 2 * axis) for axis in range(axes)] for it in rows]

    def offset(self, glyph):
        return unsigned(self.data, 20 + self.size * glyph, self.size) * (1 if self.size == 4 else 2)

    def bytes_of(self, glyph):
        """Returns where a glyph's bytes begin and end, or nothing where it has none."""
        if glyph >= self.glyphs or self.offset(glyph) == self.offset(glyph + 1):
            return None
        first = unsigned(self.data, 16, 4)
        start, end = first + self.offset(glyph), first + self.offset(glyph + 1)
        need(start <= end and start <= len(self.data), "gvar", 20 + self.size * glyph, 29, "GlyphVariation")
        return start, min(end, len(self.data))

    def count_of(self, glyph):
        """Returns how many tuples a glyph's bytes tell, 0 where its entry is wrong or has no count."""
        try:
            place = self.bytes_of(glyph)
        except Refused:
            return 0
        return unsigned(self.data, place[0]) & 0xFFF if place and place[0] + 2 <= place[1] else 0

    def deltas(self, glyph, points, contours):
        """Returns the deltas of points, x and y in 1/65536 font unit; a simple glyph has contours."""
        moved, place = [[0, 0] for _ in points], self.bytes_of(glyph)
        if not place:
            return moved
        start, end = place
        try:
            found = tuples(Bytes(self.data, end), start, start, len(points), 2, self.coordinates, self.shared)
            for share, numbers, lists in found:
                for axis, one in enumerate(lists):
                    add(moved, axis, share, numbers, one, points, contours)
        except Broken as broken:
            raise Refused("gvar", broken.args[0], 29, "GlyphVariation") from None
        return moved


def add(moved, axis, share, numbers, deltas, points, contours):
    """Adds the deltas of one tuple along an axis."""
    if numbers is None:
        for here, delta in zip(moved, deltas):
            here[axis] += delta * share
        return
    named = {number: delta * share for number, delta in zip(numbers, deltas) if number < len(points)}
    for number, delta in named.items():
        moved[number][axis] += delta
    for contour in contours:
        here = [it for it in contour if it in named]
        for point in contour:
            if here and point not in named:
                before = max((it for it in here if it < point), default=here[-1])
                after = min((it for it in here if it > point), default=here[0])
                at = lambda it: 65536 * points[it][axis]
                moved[point][axis] += inferred(at(point), at(before), at(after), named[before], named[after])


def inferred(org, one, other, by_one, by_other):
    """Returns how far a point goes between two named neighbours."""
    if (one, by_one) == (other, by_other):
        return by_one
    low, high = ((one, by_one), (other, by_other)) if one <= other else ((other, by_other), (one, by_one))
    if low[0] == high[0]:
        return 0 if low[1] != high[1] else low[1]
    if org <= low[0]:
        return low[1]
    if org >= high[0]:
        return high[1]
    to_low, to_high = low[0] + low[1], high[0] + high[1]
    factor = away((to_high - to_low) * 65536, high[0] - low[0])
    return to_low + away((org - low[0]) * factor, 65536) - org


class Record(NamedTuple):
    """A record of a composite: its place from the glyph's first byte, flags, glyph, arguments, transform."""

    at: int
    flags: int
    glyph: int
    arguments: tuple
    transform: tuple


class Glyph(NamedTuple):
    """A glyph as it is stored: the place of its first byte in glyf, points with whether each is on the curve, last
    points, records of components, and the length of its program."""

    at: int
    left: int
    points: list
    ends: list
    records: list
    program: int


class Glyf:
    """The tables loca and glyf. Defects are those of glyphs that end early, all that this reader looks for."""

    def __init__(self, tables):
        self.loca, self.data, self.tables = tables.table("loca"), tables.table("glyf"), tables
        self.size = 4 if unsigned(tables.table("head"), 50) else 2

    def offset(self, glyph):
        return unsigned(self.loca, self.size * glyph, self.size) * (1 if self.size == 4 else 2)

    def glyph(self, number):
        start, end = self.offset(number), min(self.offset(number + 1), len(self.data))
        if self.offset(number) == self.offset(number + 1):
            return Glyph(start, 0, [], [], [], 0)
        reader = Stored(self.data, start, end)
        contours, left = reader.take("h"), reader.take("h")
        for _ in range(3):
            reader.take("h")
        if contours == 0:
            return Glyph(start, 0, [], [], [], 0)
        if contours < 0:
            return Glyph(start, left, [], [], *reader.records())
        ends = [reader.take("H") for _ in range(contours)]
        program = reader.take("H")
        reader.at += program
        return Glyph(start, left, reader.points(ends[-1] + 1), ends, [], program)

    def told(self, number):
        """Returns how many points and contours, or components, a glyph's header tells, and its components' numbers."""
        start, end = self.offset(number), min(self.offset(number + 1), len(self.data))
        if start + 10 > end or self.offset(number) == self.offset(number + 1):
            return 0, []
        contours = signed(self.data, start)
        if contours < 0:
            found = self.glyph(number).records
            return len(found), [it.glyph for it in found]
        last = start + 10 + 2 * contours - 2
        return (contours + unsigned(self.data, last) + 1 if contours and last + 2 <= end else 0), []

    def bearing(self, number):
        """Returns a glyph's left side bearing, 0 where it is not there."""
        at = 4 * number if number < self.tables.pairs else 4 * self.tables.pairs + 2 * (number - self.tables.pairs) - 2
        return signed(self.tables.hmtx, at + 2) if at + 4 <= len(self.tables.hmtx) else 0


class Stored:
    """Numbers of a glyph, one after the other."""

    def __init__(self, data, at, end):
        self.data, self.first, self.at, self.end = data, at, at, end

    def take(self, form):
        size = struct.calcsize(">" + form)
        need(self.at + size <= self.end, "glyf", self.end, 14, "GlyphShort")
        self.at += size
        return struct.unpack_from(">" + form, self.data, self.at - size)[0]

    def points(self, count):
        flags = []
        while len(flags) < count:
            flag = self.take("B")
            flags += [flag] * (1 + (self.take("B") if flag & 8 else 0))
        flags, axes = flags[:count], []
        for short, same in ((2, 16), (4, 32)):
            at, found = 0, []
            for flag in flags:
                if flag & short:
                    at += self.take("B") * (1 if flag & same else -1)
                elif not flag & same:
                    at += self.take("h")
                found.append(at)
            axes.append(found)
        return [(x, y, flag & 1) for x, y, flag in zip(*axes, flags)]

    def records(self):
        """Returns the records of components, and the length of the program behind them."""
        found, flags, has_program = [], 0x20, 0
        while flags & 0x20:
            at = self.at
            flags, glyph = self.take("H"), self.take("H")
            form = {0: "B", 1: "H", 2: "b", 3: "h"}[flags & 3]
            arguments = self.take(form), self.take(form)
            count = 1 if flags & 8 else 2 if flags & 0x40 else 4 if flags & 0x80 else 0
            parts = [self.take("h") for _ in range(count)]
            one = parts[0] if parts else 16384
            transform = tuple(parts) if count == 4 else (one, 0, 0, parts[1] if count == 2 else one)
            found.append(Record(at, flags, glyph, arguments, transform))
            has_program |= flags & 0x100
        return found, self.take("H") if has_program else 0


class Outline(NamedTuple):
    """An outline in 1/64 pixel: points with whether each is on the curve, last points, four phantom points."""

    points: list
    ends: list
    phantom: list


class Outlines:
    """The outlines of a face at an instance, without programs, at a size; best has roundings of its own. Without an
    instance `gvar` is None, and the heights and advances are those of the font."""

    def __init__(self, tables, gvar, heights, advance, is_by_hvar, size, is_best):
        self.glyf, self.gvar, self.is_by_hvar = Glyf(tables), gvar, is_by_hvar
        self.heights, self.advance, self.em = heights, advance, tables.em
        self.is_rounded = not is_best or any(optional(tables, tag, 1) for tag in ("fpgm", "prep"))
        self.size, self.is_best = size, is_best
        self.factor = (2 * (size << 22) + self.em) // (2 * self.em)

    def fine(self, sixty_fourths):
        """Returns a place of 1/64 font unit in 1/64 pixel."""
        if self.is_best:
            return (away(sixty_fourths * self.factor, 65536) + 32) // 64
        return (2 * sixty_fourths * self.size + self.em) // (2 * self.em)

    def scaled(self, units):
        return away(units * self.factor, 65536) if self.is_best else self.fine(64 * units)

    def near(self, point, at):
        """Returns a point, which must be within the limit of coordinates."""
        need(all(abs(it) <= FAR for it in point[:2]), "glyf", at, 23, "CoordRange")
        return point

    def varied(self, number, glyph):
        """Returns the glyph's points, its phantom points, and the deltas of both, phantom ones as far as they count."""
        ends = (glyph.left - self.glyf.bearing(number), self.advance(number), *self.heights)
        phantom = [(ends[0], 0), (ends[0] + ends[1], 0), (0, ends[2]), (0, ends[3])]
        points = [it[:2] for it in glyph.points] or [it.arguments for it in glyph.records]
        if self.gvar is None:
            return points, phantom, [[0, 0] for _ in points + phantom]
        starts = [0, *(it + 1 for it in glyph.ends)]
        contours = [range(*it) for it in zip(starts, starts[1:])]
        moved = self.gvar.deltas(number, points + phantom, contours)
        left, right, rise, depth = moved[len(points) :]
        moved[len(points) :] = [left[0], 0], [0 if self.is_by_hvar else right[0], 0], [0, rise[1]], [0, depth[1]]
        return points, phantom, moved

    def units(self, points, moved, most, at):
        """Returns points moved by whole font units, which must be within a limit."""
        found = [tuple(it + whole(by) for it, by in zip(*both)) for both in zip(points, moved)]
        for point in found:
            need(all(-most[0] <= it <= most[1] for it in point), "glyf", at, 23, "CoordRange")
        return found

    def of(self, number):
        glyph = self.glyf.glyph(number)
        points, phantom, moved = self.varied(number, glyph)
        at, by_ends = glyph.at, moved[len(points) :]
        ends = self.units(phantom, by_ends, (131071, 131071), at)
        if glyph.points:
            self.units(points, moved, (32768, 32767), at)
            return self.simple(glyph, points + phantom, moved)
        scaled = [self.near(tuple(map(self.scaled, it)), at) for it in ends]
        records = [self.moved_record(*it) for it in zip(glyph.records, moved)]
        return self.composite(records, scaled)

    def simple(self, glyph, points, moved):
        fine = lambda it, by: self.fine(64 * it + part(by))
        found = [self.near(tuple(map(fine, *it)), glyph.at) for it in zip(points, moved)]
        on = [it[2] for it in glyph.points]
        return Outline([(*it, is_on) for it, is_on in zip(found, on)], glyph.ends, found[len(on) :])

    @staticmethod
    def moved_record(record, moved):
        if not record.flags & 2:
            return record
        arguments = tuple(it + whole(by) for it, by in zip(record.arguments, moved))
        need(all(-32768 <= it <= 32767 for it in arguments), "glyf", record.at, 23, "CoordRange")
        return record._replace(arguments=arguments)

    def composite(self, records, phantom):
        points, ends = [], []
        for record in records:
            inner = self.of(record.glyph)
            xx, yx, xy, yy = record.transform
            turned = [(share(xx * x + xy * y), share(yx * x + yy * y), on) for x, y, on in inner.points]
            if record.flags & 2:
                offset = [self.scaled(it) for it in record.arguments]
                offset = [(it + 32) // 64 * 64 for it in offset] if record.flags & 4 and self.is_rounded else offset
            else:
                to, of = points[record.arguments[0]], turned[record.arguments[1]]
                offset = [to[0] - of[0], to[1] - of[1]]
            ends += [len(points) + it for it in inner.ends]
            points += [(x + offset[0], y + offset[1], on) for x, y, on in turned]
            phantom = inner.phantom if record.flags & 0x200 else phantom
        return Outline([self.near(it, 0) for it in points], ends, phantom)

    def advance_by_deltas(self, number):
        """Returns the advance in font units where the face has no HVAR."""
        _, _, moved = self.varied(number, self.glyf.glyph(number))
        left, right = moved[-4][0], moved[-3][0]
        return kept((64 * self.advance(number) + part(right) - part(left) + 32) // 64, 0, 65535)


def share(number):
    """Returns a number of 1/16384 rounded, a half upwards."""
    return (2 * number + 16384) // 32768
