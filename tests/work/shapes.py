"""Lines whose outlines have as many points or crossings as a line may have, or more."""
import small_fonts as small
from asking import DRAWN, REFUSED, told
from counting import counted

POINTS, CROSSINGS = 1_000_000, 10_000_000
# A glyph that makes up the rest of the crossings has as many points, or fewer.
MOST_POINTS = 16_000


def composite_of(*glyphs):
    """A composite of these glyphs."""
    return small.composite(*[small.record(small.OFFSETS, glyph, 0, 0) for glyph in glyphs])


def points(asked):
    """Composites of empty glyphs, each of which has four phantom points, as each composite has."""
    # Glyphs by four points each: 32 empty ones and their composite, 32 such, and 32 such.
    small_one, middle, large = 33, 1057, 33_825
    larges, rest = divmod(POINTS // 4, large)
    middles, rest = divmod(rest - 1, middle)
    # Behind these come a composite of small ones, a small one, and one of the rest.
    smalls, rest = divmod(rest - 1 - small_one - 1, small_one)
    assert larges * large + 1 + middles * middle + 1 + smalls * small_one + small_one + 1 + rest == POINTS // 4
    shown = larges + 5
    of_smalls, of_empty, empty, one, two = range(shown + 1, shown + 6)
    glyphs = [
        *[composite_of(*[of_smalls] * 32)] * larges,
        composite_of(*[of_smalls] * middles),
        composite_of(*[of_empty] * smalls),
        composite_of(*[empty] * 32),
        composite_of(*[empty] * rest),
        # One more: 6 and 7 in place of three times 4.
        composite_of(*[empty] * (rest - 3), one, two),
    ]
    hidden = [composite_of(*[of_empty] * 32), composite_of(*[empty] * 32), b"", small.dots(1), small.dots(2)]
    asked.font.write_bytes(small.line_font(glyphs, hidden=hidden))
    text = small.line_text(shown)
    most, more = text[:-1], text[:-2] + text[-1]
    name = f"points: {POINTS:,}"
    told(name, asked.draw("best", 16, most), asked.draw("none", 16, most))
    told(f"{name}, each glyph twice", asked.draw("best", 16, most + most), asked.draw("none", 16, most + most))
    told(f"{name}, measured", asked.measure("best", 16, most), DRAWN)
    told(f"{name}, and 1", asked.draw("best", 16, more), REFUSED)
    told(f"{name}, and 1, measured", asked.measure("best", 16, more), REFUSED)
    told(f"{name}, and 1, without a bound", asked.draw("fallback", 16, more), DRAWN)


def flickering(points):
    """A contour of this many edges, an even number: by turns a unit to the right and back."""
    return [(it % 2, 0) for it in range(points)]


def made_up(count, counts):
    """What counts this much together: how many glyphs of MOST_POINTS flickering edges, the edges of one more such glyph,
    if there is one, and how many glyphs of a point, each of which counts one. `counts` tells what such edges count.
    """
    rests, left = divmod(count, counts(MOST_POINTS))
    each = (counts(4) - counts(2)) // 2
    points = max(2 + (left - counts(2)) // each // 2 * 2, 0) if left >= counts(2) else 0
    return rests, points, left - (counts(points) if points else 0)


class Crossing:
    """A font whose glyph crosses rows often. Three other glyphs make up the rest of the crossings. A prep that sets
    vectors alone asks for no dropouts; without one they are filled.
    """

    def __init__(self, contours, size, em, advance, ascent, filled=False):
        scale = size * 64 // em
        assert scale * em == size * 64

        def counts(contours):
            return counted([[(x * scale, y * scale, on) for x, y, on in it] for it in map(with_flags, contours)], filled)

        self.size, self.count = size, counts(contours)
        self.most = (CROSSINGS - 100) // self.count
        rest = CROSSINGS - self.most * self.count
        self.rests, points, self.dots = made_up(rest, lambda points: counts([flickering(points)]))
        self.last = points > 0
        left = min(x for contour in contours for x, *_ in contour)
        glyph = small.simple(*contours)
        others = [small.simple(flickering(it)) for it in (MOST_POINTS, points or 2)]
        glyphs = [b"", glyph, glyph, *others, small.dots(1)]
        metrics = [(0, 0), (advance, left), (0, left), (0, 0), (0, 0), (0, 0)]
        tables = {"cmap": small.line_cmap(5)} if filled else {"cmap": small.line_cmap(5), "prep": b"\x00"}
        self.data = small.font(glyphs, metrics, em=em, ascent=ascent, others=tables, long_loca=True)

    def lines(self, one_place=True):
        """A line with all the crossings that are allowed, one more, and a place of the glyph more."""
        wide, narrow, rest, last, dot = small.line_text(5)
        places = (narrow if one_place else wide) * (self.most - 1) + rest * self.rests + last * self.last + dot * self.dots
        return places + wide, places + dot + wide, places + narrow + wide


def with_flags(contour):
    """Points as (x, y, on)."""
    return [point if len(point) == 3 else (*point, 1) for point in contour]


def at_the_limit(asked, name, font, same=False, one_place=True):
    """Cases of as many crossings as are allowed, and of more: drawn, measured and grown."""
    asked.font.write_bytes(font.data)
    most, one_more, place_more = font.lines(one_place)
    name = f"crossings: {name}, {font.most} times"
    picture = asked.draw("none", font.size, most) if same else DRAWN
    told(f"{name}: drawn", asked.draw("best", font.size, most), picture)
    told(f"{name}: measured", asked.measure("best", font.size, most), DRAWN)
    told(f"{name}: grown", asked.draw("best", font.size, most, "--grow"), DRAWN)
    told(f"{name}, and 1: drawn", asked.draw("best", font.size, one_more), REFUSED)
    told(f"{name}, and 1: measured", asked.measure("best", font.size, one_more), REFUSED)
    told(f"{name}, and 1: grown", asked.draw("best", font.size, one_more, "--grow"), REFUSED)
    told(f"{name}, and once: drawn", asked.draw("best", font.size, place_more), REFUSED)
    told(f"{name}, and once: without a bound", asked.draw("none", font.size, place_more), DRAWN)


def zigzag(low, high, points=160):
    """A contour of points by turns at a low and a high row, a unit apart."""
    return [(it, high if it % 2 else low) for it in range(points)]


def flat(rows, points=16384):
    """Curves that meet no row, and two sides that are so many rows high, at a pixel for each unit."""
    return [(0, 0), (0, rows)] + [(it % 2, 0, 0) for it in range(points - 2)]


def crossings(asked):
    """Rows inside of the picture and outside, edges that meet none, bands of 2,048 rows, dropouts and bitmaps."""
    # 16 units of 26.6 for each of the font's: 999 rows.
    inside = Crossing([zigzag(0, 3996)], 250, 1000, 4, 3996)
    assert inside.count == 160 + 5 * 159_840 + 999 == 800_359
    at_the_limit(asked, "160 edges over 999 rows", inside, same=True, one_place=False)
    below = Crossing([zigzag(-4996, -1000)], 250, 1000, 4, 3996)
    assert below.count == inside.count
    at_the_limit(asked, "below the picture", below, same=True)
    filled = Crossing([zigzag(0, 3996)], 250, 1000, 4, 3996, filled=True)
    assert filled.count == 800_359 + 4 * (159_840 + 80) + 110 == 1_440_149
    at_the_limit(asked, "with dropouts", filled)
    # At 32 units of 26.6: edges along the centre line of a row, which each count one for the band, and the least of 7.
    level = Crossing([[(200 * (it % 2), 1) for it in range(MOST_POINTS)]], 300, 600, 4, 16)
    assert level.count == 8 * MOST_POINTS + 1 == 128_001
    at_the_limit(asked, "16,000 level edges", level, same=True)
    # One row takes less than that least, two take ten.
    for rows, count in (1, 8 * MOST_POINTS + 1), (2, 11 * MOST_POINTS + 2):
        edges = Crossing([zigzag(0, rows, MOST_POINTS)], 16, 16, 4, 16)
        assert edges.count == count
        at_the_limit(asked, f"16,000 edges over rows: {rows}", edges, same=True)
    for rows in 0, 2048, 2049:
        at_the_limit(asked, f"16,382 curves, {rows:,} rows", Crossing([flat(rows)], 16, 16, 4, 2050), same=True)
    banded = Crossing([flat(2049)], 16, 16, 4, 2050, filled=True)
    at_the_limit(asked, "16,382 curves, 2,049 rows, with dropouts", banded)
    # Two specks at the corners of a box: 300 units of 26.6 for each of the font's.
    specks = [(0, 0), (1, 0), (0, 0)], [(1746, 872), (1747, 872), (1746, 872)]
    at_the_limit(asked, "a bitmap of 8,189 pixels by 4,088", Crossing(specks, 300, 64, 1750, 873, filled=True))
    plain = Crossing(specks, 300, 64, 1750, 873)
    assert plain.count < 4200
    at_the_limit(asked, "4,088 rows, and no bitmap without dropouts", plain, same=True)
