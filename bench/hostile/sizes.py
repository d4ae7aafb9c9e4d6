"""How large a font may be before it is refused: what its glyphs count, by the definitions that tests/work has."""
from bisect import bisect_left

from counting import counted
from hostile.parts import TEXT

# What a line may have: the points of its glyphs, each once, and their crossings at all places.
MOST_POINTS, MOST_CROSSINGS = 1_000_000, 10_000_000
# The work of a line, what a point takes of it, what a crossing takes, and the crossings that need none.
WORK, POINT, CROSSING, FREE = 50_000_000, 40, 4, 500_000
# What the lines of a call may take before one more is drawn, and what each of them adds.
FIRST_LINE, EACH_LINE = 10_000_000, 4_000_000
# The points that each glyph and each component adds.
PHANTOMS = 4


def in_pixels(contour, size, em):
    """A contour's points in 26.6 pixels, as (x, y, on)."""
    scaled = lambda value: (2 * value * 64 * size + em) // (2 * em)
    return [(scaled(x), scaled(y), on[0] if on else 1) for x, y, *on in contour]


def counts(contours, size=16, em=1024, others=(), **_):
    """The points of a composite of one glyph of these contours, and its crossings at one place. Dropouts are filled in
    a font without a prep.
    """
    points = sum(map(len, contours)) + len(contours) + 2 * PHANTOMS
    placed = [in_pixels(contour, size, em) for contour in contours]
    return points, counted(placed, "prep" not in dict(others))


def is_allowed(points, crossings, work):
    """Whether a line may have so many points and crossings, where its programs leave this work to both."""
    left = FREE + max(0, work - POINT * points) // CROSSING
    return points <= MOST_POINTS and crossings <= min(MOST_CROSSINGS, left)


def most(fits, high):
    """The largest number up to a high one that fits, where each smaller number fits too."""
    return high if fits(high) else bisect_left(range(1, high), True, key=lambda it: not fits(it))


def most_glyphs(contours, work=WORK, **sizes):
    """How many glyphs of these contours a line may have."""
    points, crossings = counts(contours, **sizes)
    return most(lambda it: is_allowed(it * points, it * crossings, work), TEXT)


def largest(contours_of, high, work=WORK, **sizes):
    """The contours that are made of the largest number, up to a high one, by which a line may have them once."""
    return contours_of(most(lambda it: is_allowed(*counts(contours_of(it), **sizes), work), high))


def each_before(lines):
    """What each line before the last of so many may take."""
    return FIRST_LINE // (lines - 1) + EACH_LINE
