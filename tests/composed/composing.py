"""Pictures that are put together: a pixel is black where a bitmap is black at one of its places."""
from typing import NamedTuple


class Bitmap(NamedTuple):
    """The black pixels of a glyph: their least box, from the pen and the base line, and its rows. A row is a number
    whose lowest bit is the last column."""

    left: int
    top: int
    width: int
    rows: list


class Place(NamedTuple):
    """A bitmap in a picture: the column of its pen, and the row below its base line."""

    bitmap: Bitmap
    pen: int
    base: int

    def box(self):
        """Returns the sides of its ink: left, top, right and bottom; None where nothing is black."""
        left, top = self.pen + self.bitmap.left, self.base - self.bitmap.top
        return (left, top, left + self.bitmap.width - 1, top + len(self.bitmap.rows) - 1) if self.bitmap.rows else None


class Picture(NamedTuple):
    """A picture, and the box of all its ink, also of what is cut."""

    width: int
    height: int
    baseline: int
    ink: object
    rows: bytes

    def file(self):
        return f"P4\n{self.width} {self.height}\n".encode() + self.rows


def ink_of(places):
    """Returns the least box that holds the ink at some places, or None."""
    boxes = [it for it in map(Place.box, places) if it]
    return boxes and tuple(least(sides) for least, sides in zip((min, min, max, max), zip(*boxes))) or None


def painted(width, height, baseline, places):
    """Returns the picture of a size with bitmaps at their places. Ink outside of the picture is cut."""
    rows, columns = [0] * height, (1 << width) - 1
    for bitmap, pen, base in places:
        shift = width - pen - bitmap.left - bitmap.width
        for at, row in enumerate(bitmap.rows, base - bitmap.top):
            if 0 <= at < height:
                rows[at] |= (row << shift if shift >= 0 else row >> -shift) & columns
    size = (width + 7) // 8
    data = b"".join((it << 8 * size - width).to_bytes(size, "big") for it in rows)
    return Picture(width, height, baseline, ink_of(places), data)


def grown(width, height, baseline, places):
    """Returns the least picture round one of a size that holds all ink."""
    left, top, right, bottom = ink_of(places) or (0, 0, 0, 0)
    more, above = max(0, -left), max(0, -top)
    size = max(width, right + 1) + more, max(height, bottom + 1) + above
    return painted(*size, baseline + above, [Place(it.bitmap, it.pen + more, it.base + above) for it in places])


class Line(NamedTuple):
    """A line of a label: its width, and its bitmaps with their pens from its left end."""

    width: int
    glyphs: list


def label(lines, margin, align, rise, depth, step):
    """Returns the picture of lines one below the other: each base line is a step below the one before it, and each line
    stands in the width of the widest one."""
    inner = max(it.width for it in lines)
    width, height = max(1, inner + 2 * margin), max(1, (len(lines) - 1) * step + rise + depth + 2 * margin)
    places = []
    for at, line in enumerate(lines):
        rest = inner - line.width
        start = margin + {"left": 0, "centre": rest // 2, "right": rest}[align]
        places += [Place(bitmap, start + pen, margin + rise + at * step) for bitmap, pen in line.glyphs]
    return grown(width, height, margin + rise, places)
