"""Fonts whose outlines have many points, cross many rows, or lie far apart."""
import random

import small_fonts as small
from hostile.parts import PLAIN, POINTS, PROGRAM, Hostile, again, composite_of, dotted, line_of, one_of
from hostile.sizes import WORK, largest, most_glyphs

# At 300 pixels per em and 64 units: nearly the largest picture, 16,383 columns and 4,092 rows; nearly as far as a
# coordinate goes, 32,765 pixels; and a line of such glyphs.
EM, WIDTH, HEIGHT, FAR = 64, 3495, 873, 6990
LARGE = {"size": 300, "em": EM, "ascent": HEIGHT, "advance": WIDTH}
DISTANT = {"size": 300, "em": EM, "ascent": 16}


def up_and_down(points, on, high=HEIGHT, low=0):
    """Points by turns at the lowest and at the highest row, from left to right."""
    return small.simple([(it * WIDTH // points, high if it % 2 else low, on) for it in range(points)])


def as_many_of(contours, **sizes):
    """Glyphs of these contours, as many as a line may have."""
    return line_of([small.simple(*contours)] * most_glyphs(contours, **sizes), **sizes)


def as_many(on):
    """The points of `up_and_down`, all of which each row crosses, in a picture that is as large as it may be."""
    return line_of([up_and_down(POINTS, on)], **LARGE)


def many_large(count, size=300):
    """So many glyphs of 131,072 edges, or 524,288 with best; each row crosses 16,384 of them."""
    return line_of([up_and_down(POINTS, 0), *again(count - 1)], **{**LARGE, "size": size})


def tall(count=243, others=PLAIN):
    """The same, as many as the points allow: they all are made before their crossings are counted."""
    return line_of([up_and_down(POINTS, 0), *again(count - 1)], others=others, **LARGE)


def there_and_back(count, apart, low, high, upright):
    """So many strokes of no width, each drawn there and back."""
    turns = [(it * apart, along) for it in range(count) for along in (low, high, low)]
    return [[(x, y) if upright else (y, x) for x, y in turns]]


def strokes(upright):
    """As many strokes of no width as may be: dropouts in all rows, or in all columns."""
    far = 27900
    sizes = {"size": 300, "em": 2048, "ascent": far, "advance": far}
    contours = largest(lambda it: there_and_back(it, far // it, 0, far, upright), 1000, **sizes)
    return line_of([small.simple(*contours)], **sizes)


def far_strokes(upright):
    """The same over 65,530 rows or columns, nearly all of them outside of the picture."""
    contours = largest(lambda it: there_and_back(it, 40, -FAR, FAR, upright), 100, **DISTANT)
    return line_of([small.simple(*contours)], bearing=0 if upright else -FAR, **DISTANT)


def speck(x, y, way=1):
    """A stroke of no width, one unit long and level: it crosses no row."""
    return [(x, y), (x + way, y), (x, y)]


def specks(count, low, high, bearing=0, **sizes):
    """So many glyphs of two specks at opposite corners of a box; without a count as many as may be."""
    contours = speck(*low), speck(*high, -1)
    count = count or most_glyphs(contours, **sizes)
    return line_of([small.simple(*contours)] * count, bearing=bearing, **sizes)


def corners(count=4096):
    """A bitmap as large as the picture for each glyph."""
    return specks(count, (0, 0), (3494, 872), **LARGE)


def corners_wide(count=4096):
    """A bitmap twice as wide, as wide as that in which dropouts are looked for."""
    return specks(count, (-3494, 0), (3494, 872), -3494, **LARGE)


def far(count=64):
    """A bitmap of 65,530 columns and rows for each glyph, nearly all of it outside of the picture."""
    return specks(count, (-FAR, -FAR), (FAR, FAR), -FAR, **DISTANT)


def beyond(count=1, on=1, points=POINTS):
    """Edges that all cross 65,530 rows, of which the picture has 75."""
    glyph = small.simple([(it * WIDTH // points, FAR if it % 2 else -FAR, on) for it in range(points)])
    return line_of([glyph, *again(count - 1)], others=PLAIN, **DISTANT)


def scattered(points, low, high, left, right, seed):
    """A contour with points at random columns, by turns low and high, so that the edges cross each other."""
    random_x = random.Random(seed)
    return [(random_x.randrange(left, right), high if it % 2 else low) for it in range(points)]


def beyond_scattered():
    """Edges that cross 65,530 rows, and each other."""
    return line_of([small.simple(scattered(POINTS, -FAR, FAR, -3000, 3000, 3))], others=PLAIN, **DISTANT)


def crossing_rows(others=PLAIN, work=WORK):
    """A glyph of edges that cross each other all the time, in all rows of the picture: as many as may be."""
    contours_of = lambda points: [scattered(points, 0, HEIGHT, 0, WIDTH, 5)]
    return small.simple(*largest(contours_of, POINTS, work, others=others, **LARGE))


def random_rows(others=PLAIN):
    """A line of this glyph."""
    return line_of([crossing_rows(others)], others=others, **LARGE)


# A pixel for each unit, at 300 pixels per em.
UNITS = {"size": 300, "em": 300, "advance": 16380}


def shuffled(rows, on=1, points=POINTS):
    """Glyphs whose edges have another order in each row, so that each row is sorted anew: as many as may be. One glyph
    has fewer points where it alone would be refused.
    """
    choose, sizes = random.Random(rows), {**UNITS, "others": PLAIN, "ascent": rows}
    contour = [(choose.randrange(16380), rows if it % 2 else 0, on) for it in range(points)]
    return as_many_of(largest(lambda it: [contour[:it]], points, **sizes), **sizes)


def all_edges(rows, others=PLAIN):
    """As many glyphs of 131,040 edges as may be; the points allow 61."""
    contour = [(it, rows if it % 2 else 0, 0) for it in range(POINTS - 4)]
    sizes = {**UNITS, "others": others, "ascent": max(rows, 1)}
    return line_of([small.simple(contour), *again(most_glyphs([contour], **sizes) - 1)], **sizes)


def level_edges(pens=970):
    """16,384 level edges along the centre line of a row, at so many places: each is a span of its own."""
    glyph = small.simple([(32760 * (it % 2), 1) for it in range(POINTS)])
    tables = {**PLAIN, "cmap": small.line_cmap(2)}
    font = small.font([b"", glyph, glyph], [(0, 0), (32760, 0), (0, 0)], em=600, ascent=2, others=tables)
    first, second = small.line_text(2)
    return Hostile(font, first + second * pens, 300)


def deep_beside(count=55, code=None):
    """16,000 points carried up eight levels, and beside them 31 empty components on each level."""
    inner = [composite_of([count + it + 2, *[count + 8] * 31], code) for it in range(6)]
    hidden = [*inner, small.dots(16000), b""]
    shown = [composite_of([count + 1, *[count + 8] * 31], code)] * count
    font = small.line_font(shown, hidden=hidden)
    return Hostile(font, small.line_text(count))


def missing(count=4095):
    """A square, and characters that the font lacks."""
    font = small.line_font([small.simple(small.square(0, 0, 64, 64))])
    return Hostile(font, small.line_text(1) + "".join(map(chr, range(0x6000, 0x6000 + count))))


# A rectangle as large as the picture.
RECTANGLE = small.square(-WIDTH, 0, 0, HEIGHT)


def pens():
    """Such a rectangle at as many places as may be: nearly 1.8 million spans of 16,383 pixels."""
    glyphs = [b"", b"", small.simple(RECTANGLE)]
    others = {**PLAIN, "cmap": small.line_cmap(2)}
    font = small.font(glyphs, [(0, 0), (WIDTH, 0), (0, -WIDTH)], em=EM, ascent=HEIGHT, others=others)
    first, second = small.line_text(2)
    return Hostile(font, first + second * most_glyphs([RECTANGLE], others=others, **LARGE), 300)


def rectangles():
    """The same by glyphs that are not the same."""
    return as_many_of([RECTANGLE], bearing=-WIDTH, others=PLAIN, **LARGE)


# At 16 pixels and 16,384 units per em the points of these are 1/1,024 pixel apart.
FINE = {"em": 16384, "ascent": 16384, "advance": 16384}
COARSE = {"em": 1024, "ascent": 1024, "advance": 1024}


def flat(count=243, others=()):
    """131,072 edges for each glyph that meet no row; best joins them to 129."""
    glyph = small.simple([(it % 256, it % 2, 0) for it in range(POINTS)])
    return line_of([glyph, *again(count - 1)], others=others, **FINE)


def with_looks(count=240, size=16, **sizes):
    """Curves that meet no row, and 20 gaps within black that are crossed both ways: each is a look at all edges."""
    zigzag = [(100 + it // 2 * 40 + it % 2 * 4, 900 if it % 2 else 100) for it in range(80)]
    square = small.square(0, 0, 1024, 1024)
    points = POINTS - len(square) - len(zigzag)
    glyph = small.simple(square, [(400 + it % 32, 400 + it % 2, 0) for it in range(points)], zigzag)
    return line_of([glyph, *again(count - 1)], size, **{**COARSE, **sizes})


def looks_afar():
    """The same, as many as may be, and in each a stroke of 32,000 rows, nearly all of them outside of the picture."""
    zigzag = [(100 + it // 2 * 40 + it % 2 * 4, 900 if it % 2 else 100) for it in range(80)]
    square = small.square(0, 0, 1024, 1024)
    stroke = [(0, -16000), (40, 16000)]
    points = POINTS - len(square) - len(zigzag) - len(stroke)
    contours = square, [(400 + it % 32, 400 + it % 2, 0) for it in range(points)], zigzag, stroke
    sizes = {"size": 300, "em": 300, "ascent": 1024, "advance": 1024}
    return line_of([small.simple(*contours), *again(most_glyphs(contours, **sizes) - 1)], **sizes)


def deep_points(count=220):
    """16,384 points, carried up eight levels by transforms, with a program on each."""
    turned = small.record(small.OFFSETS | small.TWO_BY_TWO | PROGRAM, 0, 0, 0, 0x4000, 0x1000, 0xF000, 0x4000)
    level = lambda glyph: small.composite(turned[:2] + small.words(glyph) + turned[4:]) + small.words(1) + b"\x01"
    hidden = [*[level(count + 2 + it) for it in range(6)], dotted(b"\x01", POINTS)]
    font = small.line_font([level(count + 1)] * count, hidden=hidden)
    return Hostile(font, small.line_text(count))


def distinct_points(count=4096):
    """960 points a glyph, half of them off the curve."""
    return line_of([small.simple([((it * 37) % 900, (it * 61) % 900, it % 2) for it in range(960)])] * count, **COARSE)


def dots_apart(count=120):
    """16,384 contours of one point each: no edge."""
    glyph = small.simple(*[[((it * 37) % 900, (it * 61) % 900)] for it in range(POINTS)])
    return line_of([glyph, *again(count - 1)], **COARSE)


def slivers(count=180, **sizes):
    """5,461 contours of three points each, with dropouts."""
    corners_of = [((it * 37) % 900, (it * 61) % 900) for it in range(POINTS // 3)]
    glyph = small.simple(*[[(x, y), (x + 70, y + 3), (x + 1, y + 1)] for x, y in corners_of])
    return line_of([glyph, *again(count - 1)], **{**COARSE, **sizes})


def far_short():
    """114,653 edges within three rows, and specks 65,530 rows apart: many bands, and in each all edges."""
    short = [(it % 2, it % 2, 0) for it in range(POINTS - 6)]
    glyph = small.simple(speck(-FAR, -FAR), short, speck(FAR, FAR, -1))
    return line_of([glyph], bearing=-FAR, **DISTANT)


def over_a_border():
    """Zigzags of few rows on both sides of the border of two bands of 2,048 rows, as many as may be."""
    middle = 2048 * EM // 300
    contour = [(it % 4000, middle + (it % 2) * 2 - 1) for it in range(POINTS)]
    return line_of([small.simple(contour), *again(most_glyphs([contour], **LARGE) - 1)], **LARGE)


def upright_and_level(count):
    """So many upright strokes of no width, and a quarter as many level ones."""
    upright = [(it * WIDTH // count, along) for it in range(count) for along in (0, HEIGHT, 0)]
    level = [(along, it * HEIGHT // count) for it in range(count // 4) for along in (0, WIDTH, 0)]
    return upright, level


def free_gaps():
    """As many of these in one glyph as may be: free gaps in all rows and all columns."""
    return line_of([small.simple(*largest(upright_and_level, 400, **LARGE))], **LARGE)


def combining():
    """A mark without advance, as often as may be, each a glyph of its own, at 300 pixels per em."""
    ring = [(0, 0, 1), (0, 400, 0), (400, 400, 0), (400, 0, 0)]
    hole = [(100, 100, 1), (300, 100, 0), (300, 300, 0), (100, 300, 0)]
    return as_many_of([ring, hole], size=300, em=1024, ascent=1024, advance=64)


def left_ink():
    """Ink 16,000 columns left of the picture, which grows by these: as many glyphs as may be."""
    squares = small.square(-3413, 0, -3400, HEIGHT), small.square(0, 0, 20, HEIGHT)
    return as_many_of(squares, bearing=-3413, size=300, em=EM, ascent=HEIGHT, advance=60)


def thin_steps():
    """Strokes of no width from corner to corner, whose pixels each are a dropout in a row and in a column."""
    turns = [(it * WIDTH // 100, it * HEIGHT // 100) for it in range(101)]
    return as_many_of([turns + turns[-2:0:-1]], **LARGE)


def comb(count=5, teeth=8000):
    """Teeth thinner than a pixel along the base line: each row has as many gaps as the glyph has teeth."""
    contour = [(it * WIDTH // (2 * teeth), 8 if it % 4 in (1, 2) else 0) for it in range(2 * teeth)]
    return line_of([small.simple(contour)] * count, **LARGE)


FONTS = {
    "on": lambda: as_many(1),
    "off": lambda: as_many(0),
    "glyphs_64": lambda: many_large(64, 20),
    "glyphs_64_large": lambda: many_large(64),
    "glyphs_4096": lambda: many_large(4096),
    "tall": tall,
    "tall_filled": lambda: tall(others={}),
    "stems": lambda: strokes(True),
    "bars": lambda: strokes(False),
    "far_stems": lambda: far_strokes(True),
    "far_bars": lambda: far_strokes(False),
    "corners": corners,
    "corners_wide": corners_wide,
    "corners_wide_512": lambda: corners_wide(512),
    "specks_wide": lambda: specks(None, (-FAR, 0), (FAR, 4), -FAR, **DISTANT),
    "specks_high": lambda: specks(None, (0, -FAR), (4, FAR), **DISTANT),
    "specks_plain": lambda: specks(None, (0, -FAR), (4, FAR), others=PLAIN, **DISTANT),
    "far": far,
    "far_16": lambda: far(16),
    "far_256": lambda: far(256),
    "far_4096": lambda: far(4096),
    "far_short": far_short,
    "beyond": beyond,
    "beyond_off": lambda: beyond(on=0),
    "beyond_8": lambda: beyond(8),
    "beyond_30": lambda: beyond(30),
    "beyond_scattered": beyond_scattered,
    "random_rows": random_rows,
    "shuffled_4": lambda: shuffled(4),
    "shuffled_16": lambda: shuffled(16),
    "shuffled_60": lambda: shuffled(60),
    "shuffled_250": lambda: shuffled(250),
    "shuffled_970": lambda: shuffled(970),
    "shuffled_256": lambda: shuffled(16, points=256),
    "shuffled_1024": lambda: shuffled(16, points=1024),
    "shuffled_4096": lambda: shuffled(60, points=4096),
    "shuffled_curves": lambda: shuffled(16, 0),
    "edges_none_in_a_row": lambda: all_edges(0),
    "edges_none_filled": lambda: all_edges(0, {}),
    "edges_each_in_a_row": lambda: all_edges(15),
    "edges_each_filled": lambda: all_edges(15, {}),
    "level_edges": level_edges,
    "deep_beside": deep_beside,
    # ENDF, which is refused: each glyph is made anew without its programs
    "deep_refused": lambda: deep_beside(code=b"\x2d"),
    "missing": missing,
    "random_filled": lambda: random_rows({}),
    "pens": pens,
    "rectangles": rectangles,
    "flat": flat,
    "flat_plain": lambda: flat(others=PLAIN),
    "looks": with_looks,
    "looks_afar": looks_afar,
    "deep": lambda: one_of([*[composite_of([it + 2] * 32) for it in range(8)], b""]),
    "deep_points": deep_points,
    "points_960": distinct_points,
    "dots_apart": dots_apart,
    "slivers": slivers,
    "slivers_large": lambda: slivers(15, size=300),
    "border": over_a_border,
    "free_gaps": free_gaps,
    "combining": combining,
    "left_ink": left_ink,
    "thin_steps": thin_steps,
    "comb": comb,
}
