"""Lines whose work ends at their third glyph. A glyph that is cached pays for its program in each line again."""
from itertools import permutations

import small_fonts as small
from asking import places_of, told, unfitted
from charging import PHANTOMS, WORK, Machine, code_of, refused_at, step, work_of
from programs import CODE, POINTS, PREP, SQUARE, SQUARE_POINTS, filling, pointed

# Any two of the first three programs have enough work in one line, and the third has too little.
PROGRAMS = [*map(filling, (25_000_000, 15_000_000, 20_000_000)), [step(0x00)]]
COUNTS = POINTS, POINTS, POINTS, SQUARE_POINTS - PHANTOMS
MACHINE = Machine()
# So many cheap lines give a call enough work for a dear one.
CHEAP = 12


def font_of():
    """The glyphs with these programs, one with ink among them and a cheap one behind them; and where the programs stand."""
    shapes = [small.dots(POINTS)] * 3 + [SQUARE, small.dots(1)]
    glyphs = [small.with_program(it, code_of(code)) for it, code in zip(shapes, [*PROGRAMS, [step(0x00)]])]
    return small.line_font(glyphs, others={"prep": code_of(PREP)}), [it + CODE for it in places_of(glyphs)]


def faults(order, places):
    """The reports of a line of these glyphs: each glyph takes its work from what those before it left."""
    left = WORK - pointed(*(COUNTS[it] for it in order)) - 2 * MACHINE.begun() - work_of(PREP)
    for it in order:
        room = left - MACHINE.copied()
        if room >= work_of(PROGRAMS[it]):
            left = room - work_of(PROGRAMS[it])
        else:
            yield unfitted(it + 1, places[it] + refused_at(PROGRAMS[it], max(room, 0)))
            left = 0


def kept(asked):
    """Each order of the glyphs: as the first line, as a line after each of its glyphs was cached, and alone."""
    data, places = font_of()
    asked.font.write_bytes(data)
    letters = small.line_text(len(PROGRAMS) + 1)
    for order in permutations(range(len(PROGRAMS))):
        name = "".join(letters[it] for it in order)
        orders = [order, *((it,) for it in order), order[::-1], order]
        lines, wanted = [], []
        for it in orders:
            lines += [letters[-1]] * CHEAP + ["".join(letters[glyph] for glyph in it)]
            at = f"tt_render: line {len(lines)}: "
            wanted += [told_line.replace("tt_render: ", at) for told_line in faults(it, places)]
        text = "".join(f"{it}\n" for it in lines).encode()
        _, pictures, _ = asked.lines("none", 16, text)
        told(f"kept: {name} in lines", asked.lines("best", 16, text), (0, pictures, wanted))
        alone = asked.draw("none", 16, name, "--margin", 1)
        told(f"kept: {name} alone", asked.draw("best", 16, name, "--margin", 1), (*alone[:2], [*faults(order, places)]))
