"""The pixels that dropout control adds to a glyph, plainly, for try_rows.py. It shares no code with tt_render.

The rules. All is said of rows; for columns it is said of the outline with x and y exchanged. Lengths are in 1/8192
pixel. A line goes through the centres of each row, and a gap is what lies between two neighbouring centres of a line,
without them; it is free where both pixels are white.

An edge crosses a line from its lower end up to its upper, of which the latter is left out. The place of a crossing is
its distance from the centre on its left, cut to a whole number. Two crossings that follow each other along a contour,
in one gap and of opposite directions, are a tip. It is a stub where the contour goes less than half a pixel away from
the line between them, or less than a whole one where the places are less than half a pixel apart.

A free gap asks for a pixel where a crossing in it belongs to no stub; by types 0 and 4, which fill stubs, where there
is a crossing, or where an edge that is not level ends on the line in the gap, which counts as a crossing there. By
types 0 and 1 it is the left pixel, by 4 and 5 the right one where the least place of a crossing upward and the least of
one downward are 8320 or more together. A pixel outside the columns of the glyph's box is not taken, but the other one:
these are the columns with centres in it, or where there is none, the one nearer to its middle, and of two the right
one. The box is that of all points, those off the curve too. A gap adds its pixel unless the gap on its left takes the
pixel in common: unless, of the gaps side by side up to that one that each ask for their right pixel, counted to four,
there is an odd number.

First all rows are filled, then all columns, for which what the rows added is black.

A dot is a contour no crossing of which asks, by rows or by columns, free or not, whose box has at most two columns and
two rows, and is at least 3/8 pixel long one way and 1/8 pixel the other. Where no program was run for a glyph, the pixel
that holds the middle of each dot's box is black; a middle on a border goes right and up.
"""
from itertools import accumulate

from make_expected import TTFont, Outlines, extent, glyphs_of, nearest
from outlines import chords, is_black

PIXEL, HALF = 8192, 4096


def crossings(edges):
    """Yields the crossings of a contour in its order: edge, line, gap, place, and whether it goes up."""
    for number, ((ax, ay), (bx, by)) in enumerate(edges):
        first, past = (-((HALF - min(ay, by)) // PIXEL), -((HALF - max(ay, by)) // PIXEL))
        for line in range(first, past) if ay < by else reversed(range(first, past)):
            x = ax + (PIXEL * line + HALF - ay) * (bx - ax) // (by - ay)
            yield number, line, (x - HALF) // PIXEL, (x - HALF) % PIXEL, ay < by


def is_stub(edges, one, other):
    """Tells whether two crossings that follow each other are a tip, and a stub."""
    (start, line, gap, place, up), (end, *where, other_place, other_up) = one, other
    if where != [line, gap] or up == other_up:
        return False
    between = range(start, end if start < end else end + len(edges))
    far = max(abs(edges[it % len(edges)][1][1] - PIXEL * line - HALF) for it in between)
    return far < HALF or far < PIXEL and abs(place - other_place) < HALF


def marks(contours, stubs):
    """Returns of each gap with crossings whether they ask, and the places of those up and of those down."""
    found = {}
    for edges in contours:
        ring = list(crossings(edges))
        in_stub = [is_stub(edges, one, other) for one, other in zip(ring, ring[1:] + ring[:1])]
        for at, (_, line, gap, place, up) in enumerate(ring):
            mark = found.setdefault((line, gap), [False, [], []])
            mark[0] |= stubs or not (in_stub[at - 1] or in_stub[at])
            mark[1 if up else 2].append(place)
        for a, b in edges if stubs else []:
            for x, y in (a, b) if a[1] != b[1] else ():
                if y % PIXEL == HALF:
                    mark = found.setdefault((y // PIXEL, (x - HALF) // PIXEL), [False, [], []])
                    mark[0] = True
                    mark[1 if a[1] < b[1] else 2].append((x - HALF) % PIXEL)
    return found


def columns_of(places):
    xs = [x for x, _ in places]
    first, last = -((HALF - min(xs)) // PIXEL), (max(xs) - HALF) // PIXEL
    if first > last:
        first = last = first if 2 * PIXEL * first <= min(xs) + max(xs) else last
    return first, last


def added(contours, columns, black, stubs, smart):
    """Returns the pixels, as (column, row), that the gaps of all rows add."""
    (first, last), asks = columns, {}
    for (line, gap), (is_asked, up, down) in marks(contours, stubs).items():
        if is_asked and (gap, line) not in black and (gap + 1, line) not in black:
            column = gap + 1 if smart and min(up) + min(down) >= 8320 else gap
            asks[line, gap] = gap + 1 if column < first else gap if column > last else column

    def before(line, gap, most):
        return 1 + before(line, gap - 1, most - 1) if most and asks.get((line, gap - 1)) == gap else 0

    return {(column, line) for (line, gap), column in asks.items() if not before(line, gap, 4) % 2}


def dot(edges, stubs):
    """Returns the pixel, as (column, row), of a contour that is a dot, or None."""
    places = [end for edge in edges for end in edge]
    sides, pixel = [], []
    for seen in places, [it[::-1] for it in places]:
        first, last = columns_of(seen)
        low, high = min(it[0] for it in seen), max(it[0] for it in seen)
        if last - first > 1:
            return None
        sides.append(high - low)
        pixel.append((low + high) // (2 * PIXEL))
    if max(sides) < 3 * PIXEL // 8 or min(sides) < PIXEL // 8:
        return None
    if any(mark[0] for seen in ([edges], exchanged([edges])) for mark in marks(seen, stubs).values()):
        return None
    return tuple(pixel)


def exchanged(contours):
    return [[tuple((y, x) for x, y in edge) for edge in edges] for edges in contours]


def filled(contours, points, scan_type, dots):
    """Returns what is black of a glyph, by its pixels: `#` without dropouts, `r` by rows, `c` by columns and `d` for dots,
    if they are drawn."""
    edges = [edge for each in contours for edge in each]
    if not edges:
        return {}
    (left, right), (low, high) = columns_of(points), columns_of([it[::-1] for it in points])
    spots = [(column, row) for column in range(left - 1, right + 2) for row in range(low - 1, high + 2)]
    black = {spot for spot in spots if is_black(edges, *(PIXEL * it + HALF for it in spot))}
    rows, columns, alone = set(), set(), set()
    if scan_type in "0145":
        rules = scan_type in "04", scan_type in "45"
        rows = added(contours, (left, right), black, *rules)
        columns = added(exchanged(contours), (low, high), {spot[::-1] for spot in black | rows}, *rules)
        alone = {dot(edges, rules[0]) for edges in contours if dots} - {None}
    return {**dict.fromkeys(alone, "d"), **{spot[::-1]: "c" for spot in columns}, **dict.fromkeys(rows, "r"), **dict.fromkeys(black, "#")}


def has_program(font, name):
    """Tells whether a glyph or one of its components has a program, in a font that runs the programs of glyphs."""
    glyph = font["glyf"][name]
    if not {"fpgm", "prep"} & {*font.keys()} or not glyph.numberOfContours:
        return False
    if getattr(glyph, "program", None) and glyph.program.getBytecode():
        return True
    return glyph.isComposite() and any(has_program(font, it.glyphName) for it in glyph.components)


def drawn_by_types(file, text, size, margin, types, outline=None):
    """Returns the rows of a line's picture, by the scan type of each character's glyph: another than 0, 1, 4 and 5 for
    none. The outlines are scaled only; or all of them are the one that is given."""
    font = TTFont(file)
    outlines, glyphs = Outlines(font, size), glyphs_of(font, text)
    widths = [nearest(font["hmtx"][font.getGlyphName(it)][0] * size, font["head"].unitsPerEm) for it in glyphs]
    if not outline:
        # What lies between the first two phantom points, to the nearest pixel, and from halves the upper.
        phantoms = [outlines.outline(it)[2] for it in glyphs]
        widths = [max(0, (right[0] - left[0] + 32) // 64) for left, right, *_ in phantoms]
    pens, (rise, depth) = accumulate(widths, initial=margin), extent(font, size)
    rows = [["."] * (sum(widths) + 2 * margin) for _ in range(rise + depth + 2 * margin)]
    for pen, glyph, scan_type in zip(pens, glyphs, types, strict=False):
        points, ends, phantom = outline or outlines.outline(glyph)
        contours = [chords(points[start:end], -phantom[0][0], True) for start, end in zip([0, *ends], ends)]
        places = [(128 * (x - phantom[0][0]), 128 * y) for x, y, _ in points]
        dots = not has_program(font, font.getGlyphName(glyph))
        for (column, row), sign in filled([it for it in contours if it], places, scan_type, dots).items():
            r, c = rise + margin - 1 - row, pen + column
            if 0 <= r < len(rows) and 0 <= c < len(rows[0]):
                rows[r][c] = min(rows[r][c], sign, key="#rcd.".index)
    return ["".join(it) for it in rows]
