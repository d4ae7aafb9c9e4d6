"""Fonts of level edges, which cross columns alone, and of edges that cross no line: each takes memory and no row."""
import random

import small_fonts as small
from hostile import disorder, programs
from hostile.parts import PLAIN, Hostile, again, calls, composite_of, dotted, function
from hostile.sizes import CROSSING, POINT, WORK, counts, each_before, is_allowed, most, most_glyphs

# At 300 pixels per em a unit is half a pixel, so that the height 1 is the centre line of a row; and 16,380 columns.
SIZES = {"size": 300, "em": 600, "others": PLAIN}
WIDE = 32760
# The points of a glyph; each is 32 edges.
MANY = 16380


def turning(points=MANY, high=0):
    """Points off the curve by turns at the left and at the right, in one row, or by turns so many half pixels higher."""
    return [(WIDE * (it % 2), 1 + high * (it // 2 % 2), 0) for it in range(points)]


def scattered(points=MANY):
    """The same, each anywhere in an eighth of the width."""
    choose = random.Random(1)
    return [(choose.randrange(WIDE // 8) + (WIDE - WIDE // 8) * (it % 2), 1, 0) for it in range(points)]


def each_at_its_end(glyphs, each=None, hidden=(), fpgm=b""):
    """Texts of so many glyphs in one place, the last of which alone has an advance; lines where there are more."""
    each = each or len(glyphs)
    widths = [(WIDE if it % each == each - 1 else 0, 0) for it in range(len(glyphs))]
    tables = {**PLAIN, "cmap": small.line_cmap(len(glyphs)), **({"fpgm": fpgm} if fpgm else {})}
    metrics = [(0, 0), *widths, *[(0, 0)] * len(hidden)]
    font = small.font([b"", *glyphs, *hidden], metrics, em=600, ascent=16, others=tables, long_loca=True)
    text = small.line_text(len(glyphs))
    lines = tuple(text[it : it + each] for it in range(0, len(text), each))
    return Hostile(font, lines[0], 300, lines if len(lines) > 1 else ())


def level(contour, count=None):
    """So many glyphs of a contour; without a count as many as may be."""
    return each_at_its_end([small.simple(contour), *again((count or most_glyphs([contour], **SIZES)) - 1)])


def beside(contour, count, leaves, code=programs.LONG, fpgm=b""):
    """So many glyphs of a contour, and one of so many components, which run a program each."""
    inner = composite_of([count + 2] * leaves)
    return each_at_its_end([small.simple(contour), *again(count - 1), inner], hidden=[dotted(code)], fpgm=fpgm)


def with_programs(leaves):
    """As many glyphs as may be where so many programs of 1,000,000 steps each leave less work."""
    contour = turning(1000)
    count = most_glyphs([contour], WORK - 1_010_000 * leaves, **SIZES)
    return beside(contour, count, leaves)


def with_disorder(count, leaves):
    """So many glyphs, and so many programs of quick instructions in disorder."""
    body, times = disorder.shuffled(disorder.QUICK)
    return beside(turning(), count, leaves, calls(times), function(body))


def in_lines(count, each=1, points=None):
    """Lines of glyphs of their own, so many each. Without points each takes nearly as much as a call allows."""
    if points is None:
        # 32 edges of a point count eight each.
        points = each_before(count) * 99 // 100 // (CROSSING * 32 * 8 + POINT) // 2 * 2
    return each_at_its_end([small.simple(turning(points)), *again(count * each - 1)], each)


def listed(count, corners):
    """So many glyphs, and so many with a speck in each of two corners, whose bitmaps are large in a list of glyphs."""
    specks = small.simple([(0, 1), (2, 1)], [(WIDE - 2, 63), (WIDE, 63)])
    return each_at_its_end([small.simple(turning()), *again(count - 1), *[specks] * corners])


def inner(points, pens=None, gaps=20):
    """A square with gaps in it that are crossed both ways, each a look at all edges; and so many points on the curve
    that meet no line and are not joined. The text is this glyph at so many pens, or at as many as may be.
    """
    zigzag = [(100 + it // 2 * 40 + it % 2 * 4, 900 if it % 2 else 100) for it in range(4 * gaps)]
    square = small.square(0, 0, 1024, 1024)
    short = [(400 + it % 32, 400 + it % 2) for it in range(points - len(square) - len(zigzag))]
    contours = square, short, zigzag
    if pens is None:
        count, crossings = counts(contours)
        pens = most(lambda it: is_allowed(count, it * crossings, WORK), 2047)
    font = small.font([b"", small.simple(*contours)], [(64, 0)] * 2, ascent=1024,
                      others={"cmap": small.line_cmap(1)}, long_loca=True)
    return Hostile(font, small.line_text(1) * pens)


FONTS = {
    "level_most": lambda: level(turning(1000)),
    "level_10": lambda: level(turning(), 10),
    "level_20": lambda: level(turning(), 20),
    "level_30": lambda: level(turning(), 30),
    "level_61": lambda: level(turning(), 61),
    "level_scattered": lambda: level(scattered(1000)),
    "level_scattered_30": lambda: level(scattered(), 30),
    "level_of_two_rows": lambda: level(turning(1000, 2)),
    "level_of_rows": lambda: level(turning(1000, 20)),
    "level_of_rows_27": lambda: level(turning(MANY, 2), 27),
    "level_programs_12": lambda: with_programs(12),
    "level_programs_24": lambda: with_programs(24),
    "level_programs_32": lambda: with_programs(32),
    "level_disorder": lambda: with_disorder(2, 20),
    "level_disorder_30": lambda: with_disorder(30, 15),
    "level_lines": lambda: in_lines(40),
    "level_lines_20": lambda: in_lines(20, 3, 15800),
    "level_lines_40": lambda: in_lines(40, 3, 15800),
    "level_list": lambda: listed(2, 1010),
    "level_list_30": lambda: listed(30, 1010),
    "inner_16000": lambda: inner(16000),
    "inner_8000": lambda: inner(8000),
    "inner_2000": lambda: inner(2000),
    "inner_200": lambda: inner(200),
    "inner_900_pens": lambda: inner(16000, 900),
    "inner_1700_pens": lambda: inner(8000, 1700),
    "inner_few_gaps": lambda: inner(16000, gaps=8),
}
