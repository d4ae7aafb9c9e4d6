"""Fonts that spend two budgets at once, and copies of the worst with some bytes changed."""
import random
import struct
from functools import partial

import small_fonts as small
from hostile import copies, outlines, programs
from hostile.parts import PLAIN, POINTS, RECORDS, Hostile, again, calls, composite_of, dotted, line_of, one_of, pushes
from hostile.sizes import most_glyphs

LONG = programs.LONG


def beside(glyphs, size, bearing=0, **sizes):
    """These glyphs, and `two` after them in the line."""
    count = len(glyphs) + 1
    first, second = [composite_of([count + it] * RECORDS, LONG) for it in (1, 2)]
    font = small.line_font([*glyphs, first], hidden=[second, dotted(LONG)], bearing=bearing, **sizes)
    return Hostile(font, small.line_text(count), size)


LARGE = {**outlines.LARGE, "others": PLAIN}


def two_and_rectangles():
    """Rectangles as large as the picture, as many as may be where the programs leave no work."""
    count = most_glyphs([outlines.RECTANGLE], 0, **LARGE)
    return beside([small.simple(outlines.RECTANGLE)] * count, bearing=-outlines.WIDTH, **LARGE)


def two_and_tall():
    """60 glyphs of 16,384 points, all off the curve: nearly 1,000,000 points."""
    return beside([outlines.up_and_down(POINTS, 0), *again(59)], **LARGE)


def two_and_rows():
    """Edges that cross each other in all rows, as many as may be where the programs leave no work."""
    return beside([outlines.crossing_rows(work=0)], **LARGE)


def two_and_far():
    """64 bitmaps of 65,530 columns and rows, nearly all of it outside of the picture."""
    far = outlines.FAR
    glyph = small.simple(outlines.speck(-far, -far), outlines.speck(far, far, -1))
    return beside([glyph] * 64, bearing=-far, **outlines.DISTANT)


def two_by_ten():
    """Ten glyphs that each are `two`, one a line: no line comes again."""
    inner = [composite_of([12] * RECORDS, LONG), dotted(LONG)]
    font = small.line_font([composite_of([11] * RECORDS, LONG)] * 10, hidden=inner, others=PLAIN)
    text = small.line_text(10)
    return Hostile(font, text[0], lines=tuple(text))


def quarters():
    """Ten glyphs that each spend some 28 % of the work, one a line."""
    inner = [composite_of([12] * 12, LONG), dotted(LONG)]
    font = small.line_font([composite_of([11], LONG)] * 10, hidden=inner, others=PLAIN)
    text = small.line_text(10)
    return Hostile(font, text[0], lines=tuple(text))


def both():
    """33 million control values and 32 million edges."""
    glyph = small.with_program(outlines.up_and_down(POINTS, 0), b"\x01")
    others = {**copies.values(33_000_000), "maxp": small.maxp(244, 65535, 65535)}
    return line_of([glyph, *again(242)], others=others, **outlines.LARGE)


def copies_and_corners(count=4096):
    """As many copies, and a bitmap for each glyph."""
    glyph = small.simple(outlines.speck(-3494, 0), outlines.speck(3494, 872, -1))
    glyph = small.with_program(glyph, b"\x01")
    return copies.copied(count, 32_900_000, 65535, 65535, glyph, bearing=-3494, **outlines.LARGE)


def eight_levels():
    """A composite of two composites, eight levels deep, each with a long program."""
    glyphs = [composite_of([it + 2] * 2, LONG) for it in range(8)]
    return one_of([*glyphs, dotted(LONG)], others=PLAIN)


# Pushes 255 bytes and clears the stack; and calls of this function 0.
PUSHES, CALLS = programs.function(pushes(255) + b"\x22"), calls(32767)


def pushes_and_copies():
    """Copies for each run, and programs that each spend 17 % of the work in pushes."""
    return copies.copied(4096, 65535, glyph=dotted(CALLS), storage=65535, others={"fpgm": PUSHES})


def prep_alone():
    """Most of the work is spent by prep, the rest by copies for the first glyphs."""
    others = {"fpgm": PUSHES, "prep": CALLS * 5}
    return copies.copied(4096, 65535, 65535, 65535, others=others)


def mutant(make, seed, changes=2):
    """A copy of a font in which some bytes of its glyphs or programs are other ones."""
    made, choose = make(), random.Random(seed)
    data = bytearray(made.font)
    entries = [struct.unpack_from(">4sIII", data, 12 + 16 * it) for it in range(int.from_bytes(data[4:6], "big"))]
    parts = [(start, length) for tag, _, start, length in entries if tag in CHANGED and length]
    for _ in range(changes):
        start, length = choose.choice(parts)
        data[start + choose.randrange(length)] = choose.choice((0, 1, 0x7F, 0x80, 0xFF, choose.randrange(256)))
    return Hostile(bytes(data), made.text, made.size, made.lines)


FONTS = {
    "two_and_rectangles": two_and_rectangles,
    "two_and_tall": two_and_tall,
    "two_and_rows": two_and_rows,
    "two_and_far": two_and_far,
    "two_by_ten": two_by_ten,
    "quarters": quarters,
    "both": both,
    "copies_and_corners": copies_and_corners,
    "eight_levels": eight_levels,
    "pushes_and_copies": pushes_and_copies,
    "prep_alone": prep_alone,
}
MUTATED = {
    "two": programs.FONTS["two"],
    "shc": programs.FONTS["shc"],
    "shz": programs.FONTS["shz_twilight"],
    "md": programs.FONTS["md"],
    "rounds": programs.FONTS["rounds"],
    "iup": programs.FONTS["iup_threes"],
    "far": outlines.FONTS["far_16"],
    "beyond": outlines.FONTS["beyond"],
    "corners": outlines.FONTS["corners_wide_512"],
    "stems": outlines.FONTS["stems"],
    "looks": outlines.FONTS["looks"],
    "levels": FONTS["eight_levels"],
}
CHANGED = b"glyf", b"fpgm", b"prep"
MUTANTS = {f"{name}_{seed}": partial(mutant, make, seed) for name, make in MUTATED.items() for seed in range(1, 7)}
