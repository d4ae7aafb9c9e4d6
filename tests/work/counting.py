"""What the edges of a glyph count among the crossings of a line, from the definitions alone: by the rows of the glyph
and those that they cross, each edge with a least; where dropouts are filled, also by the columns that they cross, and
the glyph's box as a bitmap. No picture is known.

Points are (x, y, on) in 26.6 pixels; edges are pairs of ends in 1/8192 pixel.
"""
PIXEL, HALF = 8192, 4096
# Rows are worked in bands of this many.
BAND_ROWS = 2048
# What an edge counts for each row that it crosses, and at least.
ROW, LEAST = 5, 7


def nearest(number, divisor):
    """The quotient, rounded to the nearest whole number, and halves up."""
    return (2 * number + divisor) // (2 * divisor)


def chords(before, point, after):
    """The chords of a point off the curve, by how far its curve bends. An end is a neighbour on the curve, or midway to
    one that is off, in 1/128 pixel.
    """
    ends = [
        [2 * it[axis] if it[2] else it[axis] + point[axis] for axis in (0, 1)]
        for it in (before, after)
    ]
    bend = max(abs(ends[0][axis] - 4 * point[axis] + ends[1][axis]) for axis in (0, 1))
    n = next((it for it in (1, 2, 4, 8, 16) if 2 * bend <= it * it), 32)
    marks = [
        tuple(
            nearest(
                64 * ((n - k) ** 2 * ends[0][axis] + 4 * k * (n - k) * point[axis] + k * k * ends[1][axis]), n * n
            )
            for axis in (0, 1)
        )
        for k in range(n + 1)
    ]
    return list(zip(marks, marks[1:]))


def line_from(height):
    """The first row or column whose centre line is not below a height."""
    return (height + HALF - 1) // PIXEL


def is_clear(start, end):
    """Whether an edge meets no centre line of rows or columns."""
    return all(PIXEL * line_from(min(it)) + HALF > max(it) for it in zip(start, end))


def is_between(start, middle, end):
    """Whether a place lies between two others along both axes."""
    return all(min(a, c) <= b <= max(a, c) for a, b, c in zip(start, middle, end))


def joined(edges):
    """The edges of a contour, with neighbours joined that meet no line, if their common end lies between the others."""
    left = []
    for start, end in edges:
        if left and left[-1][1] == start and is_clear(left[-1][0], end) and is_between(left[-1][0], start, end):
            left[-1] = (left[-1][0], end)
        else:
            left.append((start, end))
    return left


def edges_of(contour):
    """The edges of a closed contour."""
    edges = []
    if len(contour) < 2:
        return edges
    for before, point, after in zip(contour[-1:] + contour[:-1], contour, contour[1:] + contour[:1]):
        if not point[2]:
            edges += chords(before, point, after)
        elif after[2]:
            edges.append(((128 * point[0], 128 * point[1]), (128 * after[0], 128 * after[1])))
    return joined(edges)


def crossed(edge, axis):
    """How many rows (axis 1) or columns (axis 0) an edge crosses."""
    start, end = edge
    return abs(line_from(end[axis]) - line_from(start[axis]))


def extent(places):
    """How many rows or columns the box of some places along an axis has; at least one."""
    if not places:
        return 1
    first, last = line_from(min(places)), (max(places) - HALF) // PIXEL
    return max(last - first, 0) + 1


def bands(rows):
    """How many bands some rows are."""
    return (rows + BAND_ROWS - 1) // BAND_ROWS


def bitmap_bytes(columns, rows):
    """The bytes of a box as a bitmap, five pixels more on each side, band by band."""
    return (columns + 10 + 7) // 8 * (rows + 10 * bands(rows))


def counted(contours, filled):
    """What a glyph counts: each edge one for each band, and five for each row that it crosses, but at least seven; each
    row of the edges' box one. Where dropouts are filled, each edge three more for each row or column that it crosses, and
    one for each band; and 64 bytes of the bitmap of the points' box one. A dot may lie a pixel outside of that box.
    """
    edges = [it for contour in contours for it in edges_of(contour)]
    rows = extent([end[1] for edge in edges for end in edge])
    count = bands(rows) * len(edges) + sum(max(LEAST, ROW * crossed(it, 1)) for it in edges) + rows
    if filled:
        columns, rows = (extent([128 * point[axis] for it in contours for point in it]) + 2 for axis in (0, 1))
        met = sum(crossed(it, axis) for it in edges for axis in (0, 1))
        count += (bands(rows) + 3) * met + bitmap_bytes(columns, rows) // 64
    return count
