"""The part of heights/run about bars and blocks whose pictures are set one below the other."""
import itertools
from pathlib import Path

import common
import model

FOLDER = Path("/usr/share/fonts/truetype")
SIZES = range(9, 25)
# Monospaced fonts, and at how many of these sizes with best a bar fills every row of its picture, and a block: with
# rounded heights, and with exact ones. An independent model counted them.
FONTS = {
    "dejavu/DejaVuSansMono.ttf": ((16, 16), (10, 10)),
    "dejavu/DejaVuSansMono-Bold.ttf": ((16, 16), (10, 10)),
    "liberation2/LiberationMono-Regular.ttf": ((16, 16), (4, 4)),
    "hack/Hack-Regular.ttf": ((16, 16), (6, 5)),
    "jetbrains-mono/JetBrainsMono-Regular.ttf": ((16, 15), (16, 2)),
    "firacode/FiraCode-Regular.ttf": ((16, 15), (16, 4)),
    "croscore/Cousine-Regular.ttf": ((15, 15), (3, 3)),
    "freefont/FreeMono.ttf": ((11, 16), (2, 3)),
}
# The bar, and blocks that are as high as each other: the whole one, the left half and the right half.
BAR, BLOCKS = "\u2502", "\u2588\u258c\u2590"
HEIGHTS = "rounded", "exact"
# So many pictures are set one below the other.
STACK = 3


def rows_below(asked, path, size, height, character):
    """Returns the rows of pictures of a character one below the other, and those of a label of so many lines."""
    words = ["--size", str(size), "--fit", "best", "--face", "0", "--height", height, "--", str(path)]
    status, picture, _ = asked.run(["draw", *words, character])
    drawn = model.rows_of(picture)[1] if status == 0 else [0]
    status, picture, _ = asked.run(["label", *words, "\n".join(character * STACK)])
    return drawn * STACK, model.rows_of(picture)[1] if status == 0 else [0]


def has_bar(rows):
    """Says whether some column is black in every row."""
    for row in rows[1:]:
        rows[0] &= row
    return rows[0] != 0


def joined(asked, path, height, character):
    """Returns at how many sizes the pictures join, and the sizes at which lines of a label join elsewhere."""
    found = [[has_bar(it) for it in rows_below(asked, path, size, height, character)] for size in SIZES]
    return sum(it[0] for it in found), [size for size, it in zip(SIZES, found) if it[0] != it[1]]


def joins(asked):
    """Bars and blocks in monospaced fonts at 9 to 24: at how many sizes no row between pictures is white, and that the
    lines of a label join at the same, for no font of these has a gap between lines."""
    here = [it for it in FONTS if (FOLDER / it).exists()]
    if len(here) < len(FONTS):
        common.skip("joins", f"{len(FONTS) - len(here)} of {len(FONTS)} fonts are not installed")
    cases = list(itertools.product(here, range(len(HEIGHTS)), BAR + BLOCKS))
    run = lambda it: joined(asked, FOLDER / it[0], HEIGHTS[it[1]], it[2])
    for (font, at, character), (count, apart) in zip(cases, asked.each(run, cases)):
        wanted = FONTS[font][at][character != BAR]
        why = [f"they join at {count} sizes, and not {wanted}"] * (count != wanted)
        why += [f"lines of a label join elsewhere at {apart}"] * bool(apart)
        common.verdict(f"U+{ord(character):04X} in {font}, {HEIGHTS[at]}", why)
