"""Lines that may have fewer crossings than 10,000,000, since points and programs leave too little work for them."""
import small_fonts as small
from asking import REFUSED, told
from charging import WORK, Machine, code_of, work_of
from counting import counted
from programs import POINTS, PREP, filler, pointed
from shapes import CROSSINGS, MOST_POINTS, flickering, made_up

# A crossing takes 4 of what remains, and so many need none.
CROSSING, FREE = 4, 500_000
MACHINE = Machine()
SPENDER, MANY, LAST, DOT = small.line_text(4)


def counts(points):
    """What so many flickering edges count, at 16 units of the font for each quarter of a pixel."""
    return counted([[(x, y, 1) for x, y in flickering(points)]], False)


def font_and_lines(left, allowed):
    """A font and its lines of as many crossings as are allowed, and of one more. The programs of each leave this work."""
    rest = allowed - counted([[(0, 0, 1)] * POINTS], False)
    times, points, dots = made_up(rest, counts)
    used = pointed(POINTS, MOST_POINTS, points, 1) + 2 * MACHINE.begun() + MACHINE.copied() + work_of(PREP)
    shapes = [small.simple(flickering(it)) for it in (MOST_POINTS, points)] + [small.dots(1)]
    data = small.line_font([filler(WORK - used - left), *shapes], others={"prep": code_of(PREP)})
    # A glyph of a point counts one; it stands in both lines, for its points.
    return data, SPENDER + MANY * times + LAST + DOT * dots, SPENDER + MANY * times + LAST + DOT * (dots + 1)


def remaining(asked):
    """Work that is just enough for all crossings, 1 less, nothing, and just enough for one that is not free."""
    for left, allowed in (
        (38_000_000, CROSSINGS),
        (37_999_999, CROSSINGS - 1),
        (20_000_003, 5_000_000 + FREE),
        (4, FREE + 1),
        (3, FREE),
        (0, FREE),
    ):
        assert allowed == min(CROSSINGS, left // CROSSING + FREE)
        data, most, more = font_and_lines(left, allowed)
        asked.font.write_bytes(data)
        name = f"remaining: {left:,} for {allowed:,} crossings"
        told(name, asked.draw("best", 16, most), asked.draw("none", 16, most))
        told(f"{name}, and 1", asked.draw("best", 16, more), REFUSED)
