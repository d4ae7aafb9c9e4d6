"""Pictures that were worked out by hand, of small fonts."""
from small_fonts import METRICS, OFFSETS, ROUND, SCALE, TWO_BY_TWO, composite, font, record, simple, square
from worked import A_SQUARE, of

LOW_SQUARE = simple(square(32, 32, 160, 160))
IN_FOUR = (4, 4, 0, 4)
WHITE = "...."


def round_points(low, high):
    return [(low, low, 0), (high, low, 0), (high, high, 0), (low, high, 0)]


def moved(flags):
    """A composite of the square (32,32)-(160,160), moved by 33 units."""
    part = record(flags, 1, 33, 0)
    return font([b"", LOW_SQUARE, composite(part, x_min=65)], [(256, 0), (256, 32), (256, 65)])


def one_part(flags, x_min, *rest):
    return font([b"", A_SQUARE, composite(record(flags, 1, *rest), x_min=x_min)], [(256, 0), (256, 64), (256, x_min)])


def lent_metrics(flags):
    """A composite with a bearing of 64, of a square with none, whose left phantom point is (64, 0)."""
    return font([b"", A_SQUARE, composite(record(flags, 1, 0, 0), x_min=64)], [(256, 0), (256, 0), (256, 64)])


def alone(glyph, bearing):
    return font([b"", glyph], [(256, 0), (256, bearing)])


# A name, the size, the glyph, the frame's width, height, margin and rise, the font, and the rows. At 16 pixels a unit is
# 1/64 pixel.
PICTURES = [
    ("a_curve_of_four_points", 16, 1, IN_FOUR, alone(simple(round_points(0, 256)), 0), ["####"] * 4),
    ("a_smaller_curve", 16, 1, IN_FOUR, alone(simple(round_points(2, 254)), 2), [".##.", "####", "####", ".##."]),
    ("a_square", 16, 1, IN_FOUR, alone(A_SQUARE, 64), [WHITE, WHITE, ".##.", ".##."]),
    ("sides_through_centres", 16, 1, IN_FOUR, alone(LOW_SQUARE, 32), [WHITE, "###.", "###.", "###."]),
    (
        "a_square_with_a_hole",
        16,
        1,
        IN_FOUR,
        alone(simple(square(0, 0, 256, 256), square(70, 70, 186, 186)[::-1]), 0),
        ["####", "#..#", "#..#", "####"],
    ),
    (
        "a_square_in_a_square",
        16,
        1,
        IN_FOUR,
        alone(simple(square(0, 0, 256, 256), square(70, 70, 186, 186)), 0),
        ["####"] * 4,
    ),
    ("a_component_is_moved", 16, 2, IN_FOUR, moved(OFFSETS), [WHITE, ".##.", ".##.", ".##."]),
    ("a_component_is_moved_by_whole_pixels", 16, 2, IN_FOUR, moved(OFFSETS | ROUND), [WHITE, ".###", ".###", ".###"]),
    (
        "a_component_is_scaled",
        16,
        2,
        IN_FOUR,
        one_part(OFFSETS | SCALE, 32, 0, 0, 0x2000),
        [WHITE, WHITE, WHITE, "##.."],
    ),
    (
        "a_component_is_turned",
        16,
        2,
        IN_FOUR,
        one_part(OFFSETS | TWO_BY_TWO, 0, 127, 0, 0, 0x4000, -0x4000, 0),
        [WHITE, "##..", "##..", WHITE],
    ),
    (
        "a_component_by_matched_points",
        16,
        2,
        IN_FOUR,
        font(
            [b"", A_SQUARE, composite(record(OFFSETS, 1, 0, 0), record(0, 1, 3, 0), x_min=64)],
            [(256, 0), (256, 64), (256, 64)],
        ),
        [WHITE, WHITE, ".###", ".###"],
    ),
    ("the_metrics_of_a_component", 16, 2, IN_FOUR, lent_metrics(OFFSETS | METRICS), [WHITE, WHITE, "##..", "##.."]),
    ("the_metrics_of_the_composite", 16, 2, IN_FOUR, lent_metrics(OFFSETS), [WHITE, WHITE, ".##.", ".##."]),
    (
        "a_component_of_itself",
        16,
        2,
        IN_FOUR,
        of(A_SQUARE, composite(record(OFFSETS, 2, 0, 0))),
        ["2 glyf+32: 17 ComponentDepth"],
    ),
]
