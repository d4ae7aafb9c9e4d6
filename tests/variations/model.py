"""What the program answers of a face at an instance, by the plain readers of this folder: lines of `map` and `faces`,
heights, and outlines before programs run."""
import plain
import wide
from axes import MOST_TOLD, Fvar, coordinates_of, name_of, optional, text_of
from face import Refused, Tables, fault_of, unsigned
from glyphs import Glyf, Gvar, Outlines
from stores import Hvar, heights_of, pairs_store

# Components are counted to so many levels, and best takes so many deltas at the most.
DEEPEST, MOST_WORK = 8, 8_000_000
# What the readers refuse a font by.
FAULTS = Refused, plain.Refused
MOST_COLUMNS, MOST_ROWS = 16384, 4096


class Face:
    """A face at an instance: None where none is asked for, else the word for a named instance or None, and the tags and
    places of axes. A face is read by its number, or strictly by None."""

    def __init__(self, file, asked, face=None):
        self.tables = tables = Tables(file, face)
        self.map = plain.Characters(file) if face is None else wide.Map(tables.cmap, tables.glyphs)
        self.coordinates = coordinates_of(tables, *asked) if asked else []
        self.is_varied = any(self.coordinates)
        _, *heights, _, gap = tables.figures()
        self.heights, self.hvar, self.gvar, self.pairs = [*heights, gap], None, None, None
        if self.is_varied:
            self.gvar = Gvar(tables, self.coordinates)
            self.hvar = Hvar(tables, self.coordinates)
            self.heights = heights_of(tables, self.coordinates, self.heights)
            self.pairs = pairs_store(tables, self.coordinates)

    @property
    def has_advances(self):
        """Tells whether HVAR gives the advances."""
        return self.is_varied and self.hvar.is_there

    def table_advance(self, glyph):
        """Returns the advance of hmtx, moved where HVAR is there."""
        advance = self.tables.advance(glyph)
        return self.hvar.advance(glyph, advance) if self.has_advances else advance

    def outlines(self, size=16, is_best=True):
        return Outlines(self.tables, self.gvar, self.heights[:2], self.table_advance, self.has_advances, size, is_best)

    def advance(self, glyph):
        """Returns the advance in font units, by the phantom points where the instance has no HVAR."""
        if self.is_varied and not self.has_advances:
            return self.outlines().advance_by_deltas(glyph)
        return self.table_advance(glyph)

    def work(self, glyphs):
        """Returns how many deltas best may go over for some glyphs and the control values, by their headers."""
        if not self.is_varied:
            return 0
        axes, cvar = len(self.coordinates), optional(self.tables, "cvar", 8)
        values = len(optional(self.tables, "cvt ", 1) or b"") // 2
        is_cvar = cvar and unsigned(cvar, 0, 4) == 0x00010000
        of_values = (unsigned(cvar, 4) & 0xFFF) * (values + axes) if is_cvar else 0
        return of_values + sum(self.work_of(it, 0) for it in set(glyphs))

    def work_of(self, glyph, depth):
        """Returns how many deltas a glyph may go over, with those of its components."""
        size, components = Glyf(self.tables).told(glyph)
        here = self.gvar.count_of(glyph) * (4 + len(self.coordinates) + size)
        return here + (sum(self.work_of(it, depth + 1) for it in components) if depth < DEEPEST else 0)

    def glyph(self, character):
        """Returns the glyph of a character that is no selector."""
        return self.map.glyph(character) if hasattr(self.map, "glyph") else self.map.of_unit(character, None)


def mapped(file, text, asked):
    """Returns the lines of `map`, or the refusal."""
    try:
        face = Face(file, asked)
        glyphs = [(it, face.map.glyph(ord(it))) for it in text]
        return "".join(f"U+{ord(it):04X} {glyph} {face.advance(glyph)}\n" for it, glyph in glyphs)
    except FAULTS as refused:
        return fault_of(refused)


def size_of(face, steps, size):
    """Returns the refusal of the size of a line's picture, or its width and height."""
    em, (ascent, descent, _) = face.tables.em, face.heights
    width, height = sum(steps), -(-ascent * size // em) - descent * size // em
    if width < 1 or height < 1:
        return "62 EmptyPicture"
    return "63 PictureLarge" if width > MOST_COLUMNS or height > MOST_ROWS else (width, height)


def drawn_by_best(face, glyphs, size):
    """Returns the refusal of a line that best draws, or width and height."""
    if face.work(glyphs) > MOST_WORK:
        return "65 WorkLarge"
    made, steps = face.outlines(size), {}
    for glyph in dict.fromkeys(glyphs):
        left, right, *_ = made.of(glyph).phantom
        steps[glyph] = max(0, (right[0] - left[0] + 32) // 64)
    return size_of(face, [steps[it] for it in glyphs], size)


def drawn(file, text, size, fit, asked):
    """Returns the refusal of a line in a font without programs, or width and height of its picture."""
    try:
        face = Face(file, asked, 0 if fit == "best" else None)
        glyphs = [face.glyph(ord(it)) for it in text]
        if fit == "best":
            return drawn_by_best(face, glyphs, size)
        em = face.tables.em
        steps = [(2 * face.advance(it) * size + em) // (2 * em) for it in glyphs]
        told, made = size_of(face, steps, size), face.outlines(size, False)
        if not isinstance(told, str):
            for glyph in dict.fromkeys(glyphs):
                made.of(glyph)
        return told
    except FAULTS as refused:
        return fault_of(refused)


def told(tables):
    """Returns the lines of `faces` about axes and named instances, none where fvar has a defect."""
    try:
        fvar = Fvar(tables)
    except Refused:
        return []
    lines = []
    for axis in fvar.axes:
        places = " ".join(text_of(it) for it in (axis.least, axis.default, axis.greatest))
        lines.append(with_name(f"axis {tag_of(axis)} {places}", name_of(tables, axis.name)))
    for number, instance in enumerate(fvar.instances[:MOST_TOLD]):
        places = ",".join(f"{tag_of(axis)}={text_of(it)}" for axis, it in zip(fvar.axes, instance.places))
        lines.append(with_name(f"instance {number} {places}", name_of(tables, instance.name)))
    return lines


def tag_of(axis):
    """Returns the tag of an axis as it is told."""
    return "".join(it if " " <= it <= "~" else "?" for it in axis.tag)


def with_name(line, name):
    return f"{line} {name}" if name else line
