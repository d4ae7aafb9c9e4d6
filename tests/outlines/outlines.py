"""The outline of a glyph at a size, from what fontTools reads, and the pixels of it. Whole numbers only.

The rules. A length of v font units is v times the pixels per em, times 64, over the units per em, in 1/64 pixel: the
nearest whole number, and from halves the upper. The points of a simple glyph are scaled, each coordinate by itself.
Then there are four phantom points: (xMin - lsb, 0), (xMin - lsb + advance, 0), (0, ascent), (0, descent), each sum
scaled as one; xMin is 0 for an empty glyph.

A composite is assembled record by record. A component is made first, as if it were asked for alone. Its points are
transformed by the record's numbers of 2.14, each coordinate rounded as above. Then they are moved by the two arguments,
scaled, and with the flag for it each rounded to a multiple of 64, halves away from 0; or, where the arguments are point
numbers, by what takes the component's point of the second onto the point of the first, among those assembled so far.
With the flag for it the composite has the component's phantom points; the last such record counts.

`best`, in a font without programs: 64 pixels per em over units per em is rounded to 1/65536, from halves up, before a
length is multiplied by it. Lengths go from halves away from 0, and so does each product of a transform, before two of
them are added. No offset is rounded to a multiple of 64.

Refused is: a 33rd record, where it stands; a coordinate above 2,097,151 in magnitude, at the glyph's first byte where
it comes from scaling and at the record where it comes from placing; and at the record a component that lies five deep, a
point number without a point, and more than 16,384 points. A glyph's own data is looked at first, then its scaled
coordinates, then the records in turn: the depth, what the component is refused for, the point numbers, the placed
coordinates, the count.
"""

LIMIT = 2097151
LEVELS = 4
METRICS, ROUND = 0x200, 0x4


class Refused(Exception):
    """A glyph is refused: at this offset in glyf, by the number and name of a fault."""

    def __init__(self, at, why):
        super().__init__(f"glyf+{at}: {why}")


def nearest(n, d):
    return (2 * n + d) // (2 * d)


def away(n, d):
    return nearest(abs(n), d) * (1 if n >= 0 else -1)


def to_grid(v):
    return (abs(v) + 32) // 64 * 64 * (1 if v >= 0 else -1)


def record_places(data, start):
    """Returns where the component records of a glyph's bytes stand, for which fontTools has no word."""
    places, at = [], 10
    while True:
        flags = int.from_bytes(data[at : at + 2], "big")
        places.append(start + at)
        at += 4 + (4 if flags & 1 else 2) + (2 if flags & 0x8 else 4 if flags & 0x40 else 8 if flags & 0x80 else 0)
        if not flags & 0x20:
            return places


class Outlines:
    """The outlines of a font that fontTools has opened, at a size in pixels per em."""

    def __init__(self, font, size, best=False):
        self.font, self.size, self.best = font, size, best
        self.glyf, self.bytes, self.names = font["glyf"], font.reader["glyf"], font.getGlyphOrder()
        self.em = font["head"].unitsPerEm

    def scale(self, v):
        if self.best:
            return away(v * nearest(self.size * 64 * 65536, self.em), 65536)
        return nearest(v * self.size * 64, self.em)

    def outline(self, number, levels=LEVELS):
        """Returns the points (x, y, on), the ends and the phantom points of a glyph."""
        name, (start, end) = self.names[number], self.font["loca"].locations[number : number + 2]
        glyph = self.glyf.glyphs[name]
        glyph.expand(self.glyf)
        if glyph.numberOfContours < 0:
            places = record_places(self.bytes[start:end], start)
            if len(places) > 32:
                raise Refused(places[32], "18 ComponentCount")
        phantom = self.phantom(name, glyph.xMin if glyph.numberOfContours else 0)
        scaled, ends = [], []
        if glyph.numberOfContours > 0:
            scaled = [(self.scale(x), self.scale(y), on & 1) for (x, y), on in zip(glyph.coordinates, glyph.flags)]
            ends = [end + 1 for end in glyph.endPtsOfContours]
        if any(abs(v) > LIMIT for point in phantom for v in point) or not within(scaled):
            raise Refused(start, "23 CoordRange")
        if glyph.numberOfContours >= 0:
            return scaled, ends, phantom
        return self.assembled(zip(places, glyph.components), phantom, levels)

    def phantom(self, name, x_min):
        advance, lsb = self.font["hmtx"][name]
        ascent, descent = self.font["hhea"].ascent, self.font["hhea"].descent
        return [
            (self.scale(x_min - lsb), 0),
            (self.scale(x_min - lsb + advance), 0),
            (0, self.scale(ascent)),
            (0, self.scale(descent)),
        ]

    def assembled(self, records, phantom, levels):
        points, ends = [], []
        for at, record in records:
            if levels == 0:
                raise Refused(at, "17 ComponentDepth")
            own, own_ends, own_phantom = self.outline(self.font.getGlyphID(record.glyphName), levels - 1)
            turned = transformed(record, own, self.best)
            dx, dy = self.way(at, record, turned, points)
            placed = [(x + dx, y + dy, on) for x, y, on in turned]
            if not within(placed):
                raise Refused(at, "23 CoordRange")
            if len(points) + len(placed) > 16384:
                raise Refused(at, "22 PointLimit")
            ends += [len(points) + end for end in own_ends]
            points += placed
            if record.flags & METRICS:
                phantom = own_phantom
        return points, ends, phantom

    def way(self, at, record, turned, points):
        """Returns how far a component is moved."""
        if hasattr(record, "x"):
            way = self.scale(record.x), self.scale(record.y)
            return tuple(map(to_grid, way)) if record.flags & ROUND and not self.best else way
        if record.firstPt >= len(points) or record.secondPt >= len(turned):
            raise Refused(at, "20 MatchPoint")
        to, of = points[record.firstPt], turned[record.secondPt]
        return to[0] - of[0], to[1] - of[1]


def within(points):
    return all(abs(x) <= LIMIT and abs(y) <= LIMIT for x, y, _ in points)


def transformed(record, points, best):
    """Returns points under a record's transform, which fontTools has as [[xx, yx], [xy, yy]]."""
    if not hasattr(record, "transform"):
        return points
    (xx, yx), (xy, yy) = [[whole(v) for v in row] for row in record.transform]
    if best:
        return [(part(xx, x) + part(xy, y), part(yx, x) + part(yy, y), on) for x, y, on in points]
    return [(nearest(xx * x + xy * y, 16384), nearest(yx * x + yy * y, 16384), on) for x, y, on in points]


def part(factor, v):
    return away(factor * v, 16384)


def whole(v):
    """A number of 2.14, of which one is 16384; fontTools has it as a float, without loss."""
    assert v * 16384 == int(v * 16384)
    return int(v * 16384)


def chord_count(ends, control):
    """Returns the fewest chords of 1, 2, 4, 8 and 16 that leave a curve by 1/1024 pixel at most, or else 32."""
    bend = max(abs(q - 4 * c + r) for q, c, r in zip(ends[0], control, ends[1]))
    return next((n for n in (1, 2, 4, 8, 16) if 2 * bend <= n * n), 32)


def chords(points, dx, by_bend=False):
    """Returns the edges of a contour moved by dx, in 1/8192 pixel. A straight line is one; a curve is eight chords, or
    as many as it bends, with ends at the nearest place, and from halves at the upper."""
    points = [(x + dx, y, on) for x, y, on in points]
    edges = []
    for it, (x, y, on) in enumerate(points if len(points) > 1 else []):
        before, after = points[it - 1], points[(it + 1) % len(points)]
        if on and after[2]:
            edges.append(((128 * x, 128 * y), (128 * after[0], 128 * after[1])))
        if on:
            continue
        # Twice where the curve begins and ends: a neighbour on the curve, or midway to one off it.
        between = [(2 * p[0], 2 * p[1]) if p[2] else (p[0] + x, p[1] + y) for p in (before, after)]
        n = chord_count(between, (x, y)) if by_bend else 8
        ends = [
            tuple(
                nearest(64 * ((n - k) ** 2 * q + 4 * k * (n - k) * c + k * k * r), n * n)
                for q, c, r in zip(between[0], (x, y), between[1])
            )
            for k in range(n + 1)
        ]
        edges += zip(ends, ends[1:])
    return edges


def is_black(edges, x, y):
    """Whether a centre lies on an edge, or the edges wind round it."""
    winding = 0
    for (ax, ay), (bx, by) in edges:
        side = (bx - ax) * (y - ay) - (by - ay) * (x - ax)
        if side == 0 and min(ax, bx) <= x <= max(ax, bx) and min(ay, by) <= y <= max(ay, by):
            return True
        winding += (ay <= y < by and side < 0) - (by <= y < ay and side > 0)
    return winding != 0


def picture(outline, width, height, margin, rise):
    """Returns the rows of an outline's picture from the top, whose left phantom point stands at 0."""
    points, ends, phantom = outline
    edges = []
    for start, end in zip([0, *ends], ends):
        edges += chords(points[start:end], -phantom[0][0])
    rows = []
    for r in range(height):
        y = 8192 * (rise + margin - r) - 4096
        rows.append("".join(".#"[is_black(edges, 8192 * (c - margin) + 4096, y)] for c in range(width)))
    return rows
