"""Text from TrueType fonts as black and white pictures, by the C library tt_render.

    font = tt_render.Font.open("DejaVuSans.ttf")
    label = font.label("Shelf 12\nleft", 16, align=tt_render.Align.CENTRE)
    pathlib.Path("label.pbm").write_bytes(label.pbm())

What is refused raises Error. Several threads may call at once. tt_render.h describes each call. Where `supported()` is
False the processor is too old, and any other call may end the process.

A variable font is drawn at its default, or at an instance: `Font.open("Inter.ttf", axes={"wght": 700})`, or
`instance="Bold"`. `axes_of` and `instances_of` list what a font has.

With `kern` pairs of characters such as AV are moved nearer, by the font's tables; it pays from size 16 on. With
`rounded` ascent and descent are each rounded to the nearest row, and not up. Then box drawing characters join, of
pictures that are set one below the other.
"""
from __future__ import annotations

import ctypes
import enum
import itertools
import os
import pathlib
from typing import Any, Iterable, Iterator, Mapping, NamedTuple, Optional

from . import _library as c
from ._library import Box, Error, supported


class Fit(enum.IntEnum):
    """The ways to fit outlines to the pixels."""

    FULL, NONE, FALLBACK, BEST = range(4)


class Align(enum.IntEnum):
    """Where the shorter lines of a label stand."""

    LEFT, CENTRE, RIGHT = range(3)


class Picture(NamedTuple):
    """Rows of pixels, the highest first. The leftmost pixel is the highest bit of a row's first byte; 1 is black."""

    width: int
    height: int
    baseline: int
    unfitted: int
    rows: bytes

    def pbm(self) -> bytes:
        """Returns the picture as a file in the format PBM (P4)."""
        return b"P4\n%d %d\n%s" % (self.width, self.height, self.rows)


class Label(NamedTuple):
    """A label: its picture, with the base line of the first row, and how it was drawn.

    `size` is the size that was drawn, in pixels per em. `cut_left` and `cut_right` are columns of ink that were cut, and
    `missing` counts the distinct characters without a glyph.
    """

    picture: Picture
    size: int
    cut_left: int
    cut_right: int
    missing: int

    def pbm(self) -> bytes:
        """Returns the picture as a file in the format PBM (P4)."""
        return self.picture.pbm()


# The size of a text's picture, and the box of all ink.
Measure = NamedTuple("Measure", [("width", int), ("height", int), ("baseline", int), ("unfitted", int),
                                 ("ink", Optional[Box])])
# A character in its picture's columns and rows. The glyph is 0 where the font has none. The offset is where the
# character begins in the text as UTF-8, in bytes.
Character = NamedTuple("Character", [("glyph", int), ("advance", int), ("pen", int), ("ink", Optional[Box]),
                                     ("offset", int)])
# A character in the font; the advance in font units, the variation selector or 0.
Glyph = NamedTuple("Glyph", [("code_point", int), ("glyph", int), ("advance", int), ("selector", int)])
# The picture of a text that does not grow, without its ink, and the rows to a next line.
Layout = NamedTuple("Layout", [(it, int) for it, _ in c.tt_layout._fields_])
# The pen of a character, as a column of the picture, and the offset as a Character has it.
Pen = NamedTuple("Pen", [(it, int) for it, _ in c.tt_pen._fields_])
# The underline of a font at a size: rows from the base line up to its upper edge, and its rows.
Underline = NamedTuple("Underline", [("top", int), ("thickness", int)])
# A font at a size: the rows of its lines, and its underline where the font tells one.
Strike = NamedTuple("Strike", [("rise", int), ("depth", int), ("gap", int), ("step", int),
                               ("underline", Optional[Underline])])


class Bitmap(NamedTuple):
    """The ink of a glyph, from its pen and the base line. With status 0 a number says why the glyph is unfitted.

    `advance_64ths` is the advance as the font's programs leave it, in 64ths of a pixel.
    """

    glyph: int
    status: int
    number: int
    table: str
    offset: int
    advance: int
    left: int
    top: int
    width: int
    height: int
    advance_64ths: int
    rows: bytes


def faces(data: bytes) -> int:
    """Counts the faces of a font file."""
    return c.ask("tt_faces", bytes(data)).count


class Axis(NamedTuple):
    """An axis of a variable font: its tag, its values and its name."""

    tag: str
    least: float
    default: float
    greatest: float
    name: str


class Instance(NamedTuple):
    """A named instance of a variable font: its number, its value on each axis, and its name."""

    number: int
    places: tuple[float, ...]
    name: str


def _face_asked(face: Optional[int]) -> Any:
    """Returns the number by which the library reads a face, or with None strictly."""
    return c.number(0 if face is None else face + 1 if face >= 0 else face)


def axes_of(data: bytes, face: Optional[int] = 0) -> list[Axis]:
    """Lists the axes of a variable font; none of any other font."""
    told = c.entries(c.tt_axis_range, 64, "tt_axes", bytes(data), _face_asked(face))
    return [
        Axis(it.tag.to_bytes(4, "big").decode("latin-1"), it.least / 65536, it.default_value / 65536,
             it.greatest / 65536, it.name.decode("latin-1"))
        for it in told
    ]


def instances_of(data: bytes, face: Optional[int] = 0) -> list[Instance]:
    """Lists the first 256 named instances of a variable font; none of any other font."""
    count = len(axes_of(data, face))
    told = c.entries(c.tt_instance, 256, "tt_instances", bytes(data), _face_asked(face))
    return [
        Instance(it.instance - 1, tuple(place / 65536 for place in it.place[:count]), it.name.decode("latin-1"))
        for it in told
    ]


def _instance_asked(data: bytes, face: Optional[int], instance: int | str | None) -> Any:
    """Returns the number by which a job asks for a named instance: 0 for None, and for a name that the font lacks one
    that no font has."""
    if isinstance(instance, str):
        found = [it.number for it in instances_of(data, face) if it.name == instance != ""]
        instance = found[0] if found else -1
    return c.number(0 if instance is None else instance + 1 if instance >= 0 else instance)


def _tag_asked(tag: str) -> int:
    """Returns the number of an axis' tag, which blanks fill up to four characters."""
    if not 1 <= len(tag) <= 4 or not tag.isascii():
        raise ValueError(f"{tag!r} is no tag of an axis")
    return int.from_bytes(tag.ljust(4).encode(), "big")


class Font:
    """A face of a font file, at an instance if one is asked for. With the face None the file is no collection, and is
    read strictly.

    `instance` is the number of a named instance, from 0 on, or its name. `axes` has values of axes by their tags, which
    come after those of the named instance. The figures of the font are those of its default.
    """

    def __init__(self, data: bytes, face: Optional[int] = 0, *, instance: int | str | None = None,
                 axes: Optional[Mapping[str, float]] = None) -> None:
        self._data, self._face, told = bytes(data), _face_asked(face), c.tt_font()
        c.ask("tt_open_face", self._data, self._face, told)
        values = [c.tt_axis(_tag_asked(tag), c.fixed(value)) for tag, value in (axes or {}).items()]
        number = _instance_asked(self._data, face, instance)
        self._instance = number, c.number(len(values)), (c.tt_axis * 16)(*values[:16])
        if values or instance is not None:
            # A call with no text tells whether the font has the instance.
            c.entries(c.tt_glyph, 0, "tt_map_job", self._data, b"", self._job(1, 0, Fit.FULL))
        self.units_per_em: int = told.units_per_em
        self.ascent: int = told.ascent
        self.descent: int = told.descent
        self.line_gap: int = told.line_gap
        self.glyph_count: int = told.glyphs

    @classmethod
    def open(cls, path: str | os.PathLike[str], face: Optional[int] = 0, *, instance: int | str | None = None,
             axes: Optional[Mapping[str, float]] = None) -> Font:
        """Reads a font file."""
        return cls(pathlib.Path(path).read_bytes(), face, instance=instance, axes=axes)

    def _job(self, size: int, margin: int, fit: int, grow: bool = False, kern: bool = False,
             rounded: bool = False, blank: bool = False) -> Any:
        numbers = map(c.number, (size, margin, fit))
        return c.tt_job(*numbers, bool(grow), self._face, bool(kern), bool(rounded), bool(blank), *self._instance)

    def label(self, text: str, size: int, *, margin: int = 0, fit: int = Fit.BEST, align: int = Align.LEFT,
              width: int = 0, box: Optional[tuple[int, int]] = None, kern: bool = False, rounded: bool = False) -> Label:
        """Draws a text of several lines in one picture. The font is read widely.

        No ink is cut, and an empty text is a picture too. Letters and accents are composed where the font can. With a
        `width` the picture has so many columns: lines are broken into rows, and ink past the sides is cut. With a `box`,
        its columns and rows, the picture has this size, and the text the greatest size of at most `size` at which it
        fits: no word is broken then, and no ink is cut.
        """
        numbers = [c.number(it) for it in (size, margin, fit)]
        # A side of 0 is refused, and in C no box.
        sides = [c.number(it or -1) for it in box] if box else [c.number(0)] * 2
        job = c.tt_label_job(*numbers, self._face, bool(kern), bool(rounded), c.number(align), c.number(width), *sides,
                             *self._instance)
        told = c.tt_label()
        answer, rows = c.with_rows("tt_label", self._data, c.utf8_of(text), job, told)
        return c.tuple_of(Label, told, picture=c.tuple_of(Picture, told.picture, rows=rows[: answer.bytes]))

    def draw(self, text: str, size: int, *, margin: int = 0, fit: int = Fit.BEST, grow: bool = True,
             kern: bool = False, rounded: bool = False) -> Picture:
        """Draws a line of text. With `grow` the picture is enlarged where it would cut ink."""
        told, job = c.tt_picture(), self._job(size, margin, fit, grow, kern, rounded)
        answer, rows = c.with_rows("tt_draw", self._data, c.utf8_of(text), job, told)
        return c.tuple_of(Picture, told, rows=rows[: answer.bytes])

    def labels(self, texts: Iterable[str], size: int, *, margin: int = 0, fit: int = Fit.BEST, grow: bool = True,
               kern: bool = False, rounded: bool = False, blank: bool = False, keep: int = 1 << 20) -> Iterator[Picture]:
        """Draws lines, for each what `draw` draws, but with the font's programs run once for many of them.

        At most `keep` bytes of glyphs are cached between lines, which then are up to twenty times as fast. A line that
        is refused ends the drawing. With `blank` an empty text is a picture without a pixel.
        """
        job, room, done = self._job(size, margin, fit, grow, kern, rounded, blank), 1 << 20, 0
        rest = [c.utf8_of(it) for it in texts][::-1]
        while rest:
            some = rest[: -4097 : -1]
            ends = (c.u64 * len(some))(*itertools.accumulate(map(len, some)))
            rows, lines = ctypes.create_string_buffer(room), (c.tt_line * len(some))()
            answer = c.ask("tt_draw_lines", self._data, b"".join(some), ends, job, ctypes.c_size_t(keep), rows, lines,
                           allowed=range(8))
            for line in lines[: answer.count]:
                end = line.at + line.picture.row_bytes * line.picture.height
                yield c.tuple_of(Picture, line.picture, rows=rows[line.at : end])
            if answer.status not in (c.DONE, c.ROOM):
                error = Error(answer)
                error.line = done + answer.count
                raise error
            room, done = max(room, answer.bytes), done + answer.count
            del rest[len(rest) - answer.count :]

    def labels_room(self, texts: Iterable[str], size: int, *, margin: int = 0, fit: int = Fit.BEST, grow: bool = True,
                    kern: bool = False, rounded: bool = False, blank: bool = False, keep: int = 1 << 20) -> int:
        """Counts the bytes of the rows of all pictures of `labels`, for texts that fit one call, without their rows."""
        lines, job = [c.utf8_of(it) for it in texts], self._job(size, margin, fit, grow, kern, rounded, blank)
        ends = (c.u64 * len(lines))(*itertools.accumulate(map(len, lines)))
        answer = c.ask("tt_lines_room", self._data, b"".join(lines), ends, job, ctypes.c_size_t(keep), allowed=range(8))
        if answer.status == c.DONE:
            return answer.bytes
        error = Error(answer)
        error.line = answer.count
        raise error

    def measure(self, text: str, size: int, *, margin: int = 0, fit: int = Fit.BEST, grow: bool = True,
                kern: bool = False, rounded: bool = False) -> Measure:
        """Measures a line of text."""
        told, job = c.tt_measure(), self._job(size, margin, fit, grow, kern, rounded)
        c.ask("tt_measure", self._data, c.utf8_of(text), job, told)
        return c.tuple_of(Measure, told)

    def characters(self, text: str, size: int, *, margin: int = 0, fit: int = Fit.BEST, grow: bool = True,
                   kern: bool = False, rounded: bool = False) -> list[Character]:
        """Returns the place of each character of a text in its picture."""
        job, utf8 = self._job(size, margin, fit, grow, kern, rounded), c.utf8_of(text)
        return c.listed(Character, c.tt_character, len(utf8), "tt_characters", self._data, utf8, job)

    def map(self, text: str) -> list[Glyph]:
        """Returns the glyph and the advance of each character of a text."""
        utf8, job = c.utf8_of(text), self._job(1, 0, Fit.FULL)
        return c.listed(Glyph, c.tt_glyph, len(utf8), "tt_map_job", self._data, utf8, job)

    def strike(self, size: int, *, fit: int = Fit.BEST, rounded: bool = False) -> Strike:
        """Tells the rows of the font's lines at a size, and its underline."""
        told, job = c.tt_strike(), self._job(size, 0, fit, rounded=rounded)
        c.ask("tt_strike", self._data, job, told)
        line = told.underline
        return c.tuple_of(Strike, told, underline=c.tuple_of(Underline, line) if line.exists else None)

    def layout(self, text: str, size: int, *, margin: int = 0, fit: int = Fit.BEST, kern: bool = False,
               rounded: bool = False) -> Layout:
        """Lays out a line of text without its ink."""
        told, job = c.tt_layout(), self._job(size, margin, fit, kern=kern, rounded=rounded)
        c.ask("tt_layout", self._data, c.utf8_of(text), job, told)
        return c.tuple_of(Layout, told)

    def pens(self, text: str, size: int, *, margin: int = 0, fit: int = Fit.BEST, kern: bool = False,
             rounded: bool = False) -> list[Pen]:
        """Returns the pen of each character of a text, as `layout` lays the text out."""
        job, utf8 = self._job(size, margin, fit, kern=kern, rounded=rounded), c.utf8_of(text)
        return c.listed(Pen, c.tt_pen, len(utf8), "tt_pens", self._data, utf8, job)

    def glyphs(self, numbers: Iterable[int], size: int, *, fit: int = Fit.BEST) -> list[Bitmap]:
        """Makes the bitmaps of at most 4,096 glyphs by their numbers. A refused one has its refusal in its entry."""
        asked, job = [c.number(it) for it in numbers], self._job(size, 0, fit)
        told = (c.tt_bitmap * len(asked))()
        _, rows = c.with_rows("tt_glyphs", self._data, (c.u32 * len(asked))(*asked), job, told)
        ends = [it.at + (it.width + 7) // 8 * it.height for it in told]
        return [
            c.tuple_of(Bitmap, it, table=it.table.decode("latin-1"), rows=rows[it.at : end])
            for it, end in zip(told, ends)
        ]
