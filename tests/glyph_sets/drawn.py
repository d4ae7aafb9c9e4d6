"""Glyphs as `draw` and `measure` show them: the expected bitmaps of calls and files."""
import re
from typing import NamedTuple

import model

# The margin in which all ink of these lines lies.
MARGIN = 64
# So many blanks stand behind each character, that no ink overlaps.
BLANKS = 3


class Glyph(NamedTuple):
    """A glyph at a size: its box from pen and base line, and its rows, numbers whose lowest bit is the last column."""

    number: int
    advance: int
    left: int
    top: int
    width: int
    height: int
    rows: tuple

    def bytes(self):
        """Returns the rows as the library writes them."""
        size = (self.width + 7) // 8
        return b"".join((it << 8 * size - self.width).to_bytes(size, "big") for it in self.rows)


class Fault(NamedTuple):
    """Why a line is refused, or a glyph is not fitted."""

    number: int
    table: str
    offset: int


class Drawn(NamedTuple):
    """What is drawn of a text: the glyphs of its characters, in order, and the rows of a line above and below its base
    line; or why it is refused. Of each glyph that is not fitted there is a fault. Then what standard error has."""

    glyphs: list
    rise: int
    depth: int
    unfitted: dict
    fault: object
    said: bytes


def fault_in(line):
    """Returns the fault that a line of standard error names, or None."""
    found = re.search(r"([^ ]{4})\+(\d+): (\d+) \w+$", line)
    return found and Fault(int(found[3]), found[1], int(found[2]))


def unfitted_in(said):
    """Returns the faults of the glyphs that are not fitted, by their numbers."""
    found = map(re.compile(r"tt_render: glyph (\d+) .*").match, said.decode().splitlines())
    return {int(it[1]): fault_in(it[0]) for it in found if it}


def cut(width, rows, box):
    """Returns the pixels within a box of a picture."""
    left, top, right, bottom = box
    mask = (1 << right - left + 1) - 1
    return tuple(row >> width - 1 - right & mask for row in rows[top : bottom + 1])


def glyph_in(line, width, rows, baseline):
    """Returns the glyph that a line of `measure` is about, and its box in the picture."""
    _, number, pen, advance, *box = line.split()
    if box == ["none"]:
        return Glyph(int(number), int(advance), 0, 0, 0, 0, ()), None
    box = left, top, right, bottom = tuple(map(int, box))
    size = right - left + 1, bottom - top + 1
    return Glyph(int(number), int(advance), left - int(pen), baseline - top, *size, cut(width, rows, box)), box


def trimmed(glyph):
    """Returns a glyph whose box holds its ink alone."""
    inked = [at for at, row in enumerate(glyph.rows) if row]
    if not inked:
        return Glyph(glyph.number, glyph.advance, 0, 0, 0, 0, ())
    rows, both = glyph.rows[inked[0] : inked[-1] + 1], 0
    for row in rows:
        both |= row
    right = (both & -both).bit_length() - 1
    left, width = glyph.left + glyph.width - both.bit_length(), both.bit_length() - right
    box = left, glyph.top - inked[0], width, len(rows)
    return Glyph(glyph.number, glyph.advance, *box, tuple(it >> right for it in rows))


def has_overlap(boxes):
    """Says whether two boxes share a column."""
    sides = sorted((it[0], it[2]) for it in boxes if it)
    return any(one[1] >= other[0] for one, other in zip(sides, sides[1:]))


def drawn(run, font, job, text):
    """Returns what is drawn of the characters of a text, with blanks between them: by a function that runs the program,
    for a file of a font, and size, fit and face."""
    size, fit, face = job
    line = "".join(it + " " * BLANKS for it in text)
    words = ["--size", str(size), "--fit", fit, "--face", str(face), "--margin", str(MARGIN), "--", font, line]
    status, picture, said = run(["draw", *words])
    if status:
        return Drawn([], 0, 0, {}, fault_in(said.decode().splitlines()[0]), said)
    measured = run(["measure", *words])[1].decode().splitlines()
    found = next(it for it in map(re.compile(r"picture (\d+) (\d+) baseline (-?\d+) ").match, measured) if it)
    height, baseline = int(found[2]), int(found[3])
    width, rows = model.rows_of(picture)
    characters = [it for it in measured if it.startswith("U+")][:: 1 + BLANKS]
    glyphs, boxes = zip(*(glyph_in(it, width, rows, baseline) for it in characters))
    if has_overlap(boxes):
        raise SystemExit(f"tests: ink of {font} overlaps at {size}")
    return Drawn(list(glyphs), baseline - MARGIN, height - baseline - MARGIN, unfitted_in(said), None, said)


def one_by_one(run, font, job, text):
    """Returns for each character of a text its glyph, or the fault for which it is refused."""
    each = [drawn(run, font, job, it) for it in text]
    return [it.fault or it.glyphs[0] for it in each]


def picture_of(glyphs, rise, depth, margin):
    """Returns the picture of a line of glyphs, whose ink lies in it."""
    width, height = sum(it.advance for it in glyphs) + 2 * margin, rise + depth + 2 * margin
    rows, pen = [0] * height, margin
    for it in glyphs:
        shift = width - pen - it.left - it.width
        for at, row in enumerate(it.rows, rise + margin - it.top):
            rows[at] |= row << shift
        pen += it.advance
    return model.picture_of(width, rows)
