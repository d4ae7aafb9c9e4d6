"""The small fonts whose outlines make_expected.py asks for."""
from small_fonts import (
    METRICS, OFFSETS, ROUND, SCALE, TWO_BY_TWO, TWO_SCALES, WORDS, composite, dots, font, record, simple, square, words,
)

A_SQUARE = simple(square(64, 0, 192, 128))
LOW_SQUARE = simple(square(32, 32, 160, 160))
ODD = simple([(-3, -1), (1, 5), (7, -9), (-11, -13)], [(255, -256, 0), (1001, 77), (-999, 333, 0), (0, 1, 0)])
# Advances and left side bearings.
PAIRS = [(256, 0), (256, 64), (256, 0), (256, 0), (256, 0)]


def of(*glyphs, pairs=PAIRS, **more):
    """A font with an empty glyph 0, and these glyphs behind it."""
    return font([b"", *glyphs], pairs[: len(glyphs) + 1], **more)


def deep(levels):
    """A square as glyph 1, and each glyph behind it a composite of the one before it."""
    glyphs = [composite(record(OFFSETS, it + 1, 3 * it, -1)) for it in range(levels)]
    return font([b"", A_SQUARE, *glyphs], [(256, 0)] * (levels + 2))


def parts(*records, part=A_SQUARE, x_min=0, **more):
    """A composite as glyph 2, of a glyph 1."""
    return of(part, composite(*records, x_min=x_min), **more)


def many(count):
    """A glyph of so many points."""
    return simple([(it * 7 % 100, it * 3 % 50) for it in range(count)])


def on_square(flags, *args):
    return record(flags, 1, *args)


# With an em of 16 units at 300 pixels: a unit is 1200, so 1747 units are 2,096,400, and 1748 are past the limit.
HUGE = {"em": 16, "ascent": 16, "pairs": [(0, 0)] * 5}
HIGH = {"em": 16, "ascent": 16}
FAR = simple([(1747, -1747), (0, 0), (3, 1747)])

# A name, the size, the glyphs that are asked for, and the font.
WORKED = [
    ("the_test_font", 16, [0, 1, 2], font([b"", A_SQUARE, b""], [(256, 0), (256, 64), (256, 0)])),
    ("the_test_font_at_9", 9, [0, 1, 2], font([b"", A_SQUARE, b""], [(256, 0), (256, 64), (256, 0)])),
    ("halves_go_up", 2, [0, 1], of(ODD, em=256, ascent=255, descent=-3)),
    ("halves_of_an_odd_em", 7, [0, 1], of(ODD, em=1001, ascent=999, descent=-501)),
    ("an_advance_and_a_bearing_are_scaled_as_one", 1, [1], font([b"", ODD], [(0, 0), (3, -8)], em=128)),
    (
        "bearings_past_the_last_advance",
        13,
        [0, 1, 2],
        font([b"", ODD, A_SQUARE], [(300, 5), (0, -7), (0, 9)], long_metrics=1),
    ),
    ("no_contour_has_no_x_min", 13, [1], of(words(0, 77, 0, 0, 0, 0))),
    ("a_contour_without_points", 16, [1], of(simple(square(0, 0, 9, 9), [(5, 5)], ends=[3, 3, 4]))),
    ("an_offset", 13, [2], parts(on_square(OFFSETS, 33, -33))),
    ("an_offset_of_words", 13, [2], parts(on_square(OFFSETS | WORDS, 300, -300))),
    ("an_offset_of_bytes_is_signed", 13, [2], parts(on_square(OFFSETS, 0x80, 0xFF))),
    (
        "rounded_offsets", 16, [2],
        parts(*(on_square(OFFSETS | ROUND | WORDS, it, -it) for it in (0, 31, 32, 33, 95, 96, 97))),
    ),
    (
        "an_offset_is_scaled_and_then_rounded",
        13,
        [2],
        parts(on_square(OFFSETS | ROUND, 39, -40), on_square(OFFSETS | ROUND, -39, 40)),
    ),
    (
        "a_scale",
        13,
        [2],
        parts(on_square(OFFSETS | SCALE, 5, 7, 0x2000), on_square(OFFSETS | SCALE, 0, 0, 0x7FFF), part=ODD),
    ),
    (
        "a_scale_below_0",
        13,
        [2],
        parts(on_square(OFFSETS | SCALE, 0, 0, -0x8000), on_square(OFFSETS | SCALE, 0, 0, -0x2000), part=ODD),
    ),
    (
        "halves_of_a_scale_go_up",
        16,
        [2],
        parts(on_square(OFFSETS | SCALE, 0, 0, 0x2000), on_square(OFFSETS | SCALE, 0, 0, -0x2000), part=ODD),
    ),
    ("two_scales", 16, [2], parts(on_square(OFFSETS | TWO_SCALES, 1, 2, 0x3000, -0x5000), part=ODD)),
    ("a_quarter_turn", 16, [2], parts(on_square(OFFSETS | TWO_BY_TWO, 1, 2, 0, 0x4000, -0x4000, 0), part=ODD)),
    ("a_slant", 17, [2], parts(on_square(OFFSETS | TWO_BY_TWO, 1, 2, 0x4000, 0x0123, 0x1357, 0x3999), part=ODD)),
    (
        "halves_of_products",
        16,
        [2],
        parts(
            on_square(OFFSETS | TWO_BY_TWO, 1, 2, 0x6000, -0x2000, -0x1000, 0x5000),
            on_square(OFFSETS | TWO_BY_TWO, 0, 0, 0x2000, 0x2000, -0x2000, 0x2000),
            on_square(TWO_BY_TWO, 1, 2, -0x2000, 0x2000, 0x2000, -0x6000),
            part=ODD,
        ),
    ),
    ("offsets_are_not_transformed", 16, [2], parts(on_square(OFFSETS | SCALE | WORDS, 500, -500, 0x2000))),
    (
        "components_are_transformed_from_the_inside",
        16,
        [3],
        of(
            ODD,
            composite(record(OFFSETS | TWO_SCALES, 1, 9, 8, 0x2001, 0x1fff)),
            composite(record(OFFSETS | SCALE, 2, 7, 6, 0x6001)),
        ),
    ),
    ("two_components", 13, [2], parts(on_square(OFFSETS, 0, 0), on_square(OFFSETS, 100, 50), part=ODD)),
    ("matched_points", 13, [2], parts(on_square(OFFSETS, 3, 3), on_square(0, 3, 1))),
    ("matched_points_are_not_rounded", 13, [2], parts(on_square(OFFSETS, 3, 3), on_square(ROUND, 3, 1))),
    (
        "a_matched_point_is_transformed_first",
        13,
        [2],
        parts(on_square(OFFSETS, 3, 3), on_square(SCALE, 3, 1, 0x2345), part=ODD),
    ),
    (
        "a_matched_point_of_a_composite",
        13,
        [3],
        of(
            A_SQUARE,
            composite(record(OFFSETS, 1, 0, 0), record(OFFSETS, 1, 90, 9)),
            composite(record(OFFSETS, 2, 5, 5), record(0, 2, 7, 6)),
        ),
    ),
    ("matched_points_of_words", 13, [2], parts(on_square(OFFSETS, 0, 0), record(WORDS, 1, 299, 298), part=many(300))),
    ("a_matched_point_above_127", 13, [2], parts(on_square(OFFSETS, 0, 0), on_square(0, 200, 255), part=many(256))),
    ("no_point_is_assembled_yet", 13, [2], parts(on_square(0, 0, 0))),
    ("no_such_point_is_assembled", 13, [2], parts(on_square(OFFSETS, 0, 0), on_square(0, 4, 0))),
    ("no_such_point_in_the_component", 13, [2], parts(on_square(OFFSETS, 0, 0), on_square(0, 3, 4))),
    ("an_empty_component_has_no_point", 13, [2], of(A_SQUARE, composite(record(OFFSETS, 1, 0, 0), record(0, 0, 0, 0)))),
    ("an_empty_component", 13, [2], of(A_SQUARE, composite(record(OFFSETS, 0, 5, 5), record(OFFSETS, 1, 7, 7)))),
    ("own_metrics", 16, [2], parts(on_square(OFFSETS, 0, 0), x_min=11)),
    ("a_components_metrics", 16, [2], parts(on_square(OFFSETS | METRICS, 50, 60), x_min=11)),
    (
        "a_components_metrics_before_its_transform",
        16,
        [2],
        parts(on_square(OFFSETS | METRICS | SCALE, 50, 60, 0x2000), x_min=11),
    ),
    (
        "the_last_components_metrics",
        16,
        [3],
        font(
            [
                b"",
                A_SQUARE,
                LOW_SQUARE,
                composite(
                    record(OFFSETS | METRICS, 1, 0, 0), record(OFFSETS | METRICS, 2, 0, 0), record(OFFSETS, 1, 9, 9)
                ),
            ],
            [(9, 1), (500, 2), (600, 3), (700, 4)],
        ),
    ),
    (
        "the_metrics_of_a_components_component",
        16,
        [3],
        font(
            [
                b"",
                A_SQUARE,
                composite(record(OFFSETS | METRICS, 1, 5, 5)),
                composite(record(OFFSETS | METRICS, 2, 6, 6)),
            ],
            [(9, 1), (500, 2), (600, 3), (700, 4)],
        ),
    ),
    ("four_deep", 13, [2, 3, 4, 5], deep(4)),
    ("five_deep", 13, [6], deep(5)),
    ("a_component_is_the_glyph_itself", 16, [2], of(A_SQUARE, composite(record(OFFSETS, 2, 0, 0)))),
    (
        "two_glyphs_with_one_another_as_components",
        16,
        [2, 3],
        of(
            A_SQUARE, composite(record(OFFSETS, 1, 0, 0), record(OFFSETS, 3, 0, 0)), composite(record(OFFSETS, 2, 0, 0))
        ),
    ),
    ("32_records", 16, [2], parts(*(on_square(OFFSETS, it, -it) for it in range(32)), part=simple([(1, 2)]))),
    ("33_records", 16, [2], parts(*(on_square(OFFSETS, it, -it) for it in range(33)), part=simple([(1, 2)]))),
    (
        "a_component_of_33_records",
        16,
        [3],
        of(
            A_SQUARE,
            composite(*[on_square(OFFSETS, 0, 0)] * 33),
            composite(record(OFFSETS, 1, 0, 0), record(OFFSETS, 2, 0, 0)),
        ),
    ),
    (
        "one_point_too_many",
        16,
        [4],
        of(
            dots(8192),
            dots(8192),
            simple([(1, 1)]),
            composite(record(OFFSETS, 1, 0, 0), record(OFFSETS, 2, 0, 0), record(OFFSETS, 3, 0, 0)),
        ),
    ),
    # The third record is refused for its offset, so the first two were not.
    (
        "as_many_points_as_are_allowed",
        300,
        [4],
        of(
            dots(8192),
            dots(8192),
            simple([(1, 1)]),
            composite(record(OFFSETS, 1, 0, 0), record(OFFSETS, 2, 0, 0), record(OFFSETS | WORDS, 3, 0, 1748)),
            **HUGE,
        ),
    ),
    ("points_at_the_limit", 300, [1], of(FAR, em=16, ascent=1747, descent=-1747)),
    ("a_point_past_the_limit", 300, [2], of(A_SQUARE, simple([(0, 0), (0, 1748)]), **HUGE)),
    ("a_point_past_the_limit_below", 300, [2], of(A_SQUARE, simple([(-1748, 0), (0, 0)]), **HUGE)),
    ("a_bearing_past_the_limit", 300, [1], font([b"", FAR], [(0, 0), (0, -1748)], **HIGH)),
    ("an_advance_past_the_limit", 300, [1], font([b"", FAR], [(0, 0), (1748, 0)], **HIGH)),
    (
        "an_advance_past_the_limit_of_an_empty_glyph",
        300,
        [2],
        font([b"", FAR, b""], [(0, 0), (0, 0), (1748, 0)], **HIGH),
    ),
    ("an_ascent_past_the_limit", 300, [1], of(FAR, em=16, ascent=1748)),
    ("a_descent_past_the_limit", 300, [1], of(FAR, em=16, descent=-1748)),
    (
        "placed_past_the_limit",
        300,
        [2],
        parts(on_square(OFFSETS, 0, 0), on_square(OFFSETS, 1, 0), part=simple([(1747, 0)]), **HUGE),
    ),
    ("placed_past_the_limit_below", 300, [2], parts(on_square(OFFSETS, 0, -1), part=simple([(0, -1747)]), **HUGE)),
    (
        "transformed_past_the_limit_and_moved_back",
        300,
        [2],
        parts(on_square(OFFSETS | SCALE | WORDS, -1747, 1747, 0x7FFF), part=simple([(1747, -1747)]), **HUGE),
    ),
    (
        "transformed_past_the_limit",
        300,
        [2],
        parts(on_square(OFFSETS | SCALE, 0, 0, 0x7FFF), part=simple([(1747, 0)]), **HUGE),
    ),
    (
        "matched_past_the_limit",
        300,
        [3],
        of(
            simple([(1747, 0)]),
            simple([(0, 0), (1, 0)]),
            composite(record(OFFSETS, 1, 0, 0), record(0, 2, 0, 0)),
            **HUGE,
        ),
    ),
    (
        "own_metrics_past_the_limit_before_a_components",
        300,
        [2],
        font(
            [b"", simple([(0, 0)]), composite(record(OFFSETS | METRICS, 1, 0, 0))], [(0, 0), (0, 0), (1748, 0)], **HIGH
        ),
    ),
    (
        "own_metrics_past_the_limit_before_the_depth",
        300,
        [2],
        font([b"", FAR, composite(record(OFFSETS, 2, 0, 0))], [(0, 0), (0, 0), (1748, 0)], **HIGH),
    ),
    (
        "33_records_before_metrics_past_the_limit",
        300,
        [2],
        font([b"", FAR, composite(*[on_square(OFFSETS, 0, 0)] * 33)], [(0, 0), (0, 0), (1748, 0)], **HIGH),
    ),
    (
        "a_components_point_past_the_limit",
        300,
        [3],
        of(FAR, simple([(1748, 0)]), composite(record(OFFSETS, 1, 0, 0), record(OFFSETS, 2, 0, 0)), **HUGE),
    ),
    (
        "the_first_record_comes_first",
        300,
        [3],
        of(FAR, simple([(1748, 0)]), composite(record(OFFSETS, 1, 1, 0), record(OFFSETS, 2, 0, 0)), **HUGE),
    ),
    (
        "a_component_before_its_matched_point",
        300,
        [3],
        of(FAR, simple([(1748, 0)]), composite(record(0, 2, 0, 0)), **HUGE),
    ),
    (
        "a_matched_point_before_a_place",
        300,
        [2],
        parts(on_square(OFFSETS, 0, 0), on_square(SCALE, 3, 0, 0x7FFF), part=FAR, **HUGE),
    ),
    (
        "a_place_before_the_count",
        300,
        [3],
        of(dots(16384), simple([(1747, 0)]), composite(record(OFFSETS, 1, 0, 0), record(OFFSETS, 2, 1, 0)), **HUGE),
    ),
]

# The cases of transforms, which are asked for with best too.
BEST = [
    "a_scale",
    "a_scale_below_0",
    "halves_of_a_scale_go_up",
    "two_scales",
    "a_quarter_turn",
    "a_slant",
    "halves_of_products",
    "components_are_transformed_from_the_inside",
    "a_matched_point_is_transformed_first",
]
