#!/usr/bin/env python3
"""Makes the tables of this folder, from the glyphs as fontTools reads them and the rules that outlines.py states.

  apt-get install fonts-dejavu-core fonts-liberation python3-fonttools
  /usr/bin/python3 tests/outlines/make_expected.py

The tables in the repository were made with fontTools 4.38.0 (Debian's python3-fonttools 4.38.0-1+deb12u1) from
fonts-dejavu-core 2.37-6 and fonts-liberation 1:1.07.4-11, the versions of Debian 12. What a line holds stands at the
head of each table.
"""
import hashlib
import io
import logging
import pathlib

from fontTools.ttLib import TTFont

from outlines import Outlines, Refused, picture
from pictures import PICTURES
from worked import BEST, WORKED

HERE = pathlib.Path(__file__).parent
FONTS = {
    "dejavu_sans.txt": "/usr/share/fonts/truetype/dejavu/DejaVuSans.ttf",
    "liberation_sans.txt": "/usr/share/fonts/truetype/liberation/LiberationSans-Regular.ttf",
}
SIZES = 9, 16, 48
TEXT = (
    "AQWgjs&@%80:;?- ÀÁÂÃÄÅÇÈÉÊËÌÍÑÒÓÔÕÖØÙÚÛÜÝàáâãäåçèéêëìíñòóôõöøùúûüýÿ"
    "ŁłĳŘřőůžšąęįœÆæßǽǿΆΐΰЁЙй½¼ﬁﬂ…"
)
# What a composite of a real font may have that is rare; the first glyphs with each are taken too.
RARE = {
    "a transform": lambda record: hasattr(record, "transform"),
    "an offset that is rounded": lambda record: record.flags & 0x4,
    "the metrics of a component": lambda record: record.flags & 0x200,
    "matched points": lambda record: hasattr(record, "firstPt"),
}
logging.disable(logging.WARNING)


def line(outlines, glyph):
    """Returns what tt_test_answers prints of a glyph, behind its number."""
    try:
        points, ends, phantom = outlines.outline(glyph)
    except Refused as why:
        return f"{glyph} {why}"
    fields = [glyph, "phantom", *(v for point in phantom for v in point), "ends", *ends, "points"]
    return " ".join(map(str, fields + [v for point in points for v in point]))


def chosen(font):
    """Returns the glyphs of the text that the font has, and the first composites that are rare in a way or deep."""
    cmap, glyf, order = font.getBestCmap(), font["glyf"], font.getGlyphOrder()
    glyphs = {font.getGlyphID(cmap[ord(it)]) for it in TEXT if ord(it) in cmap} | {0}
    records = {it: glyf[name].components for it, name in enumerate(order) if glyf[name].isComposite()}
    rare = {**RARE, "a composite as a component": lambda record: glyf[record.glyphName].isComposite()}
    for is_rare in rare.values():
        glyphs |= set([it for it in records if any(map(is_rare, records[it]))][:5])
    return sorted(glyphs)


def write_font(name, path):
    with open(path, "rb") as it:
        sum = hashlib.md5(it.read()).hexdigest()
    with open(HERE / name, "w", encoding="ascii") as out:
        print(f"# Written by make_expected.py from {path}, MD5 {sum}. A line is", file=out)
        print("#   SIZE GLYPH phantom X Y X Y X Y X Y ends END .. points X Y ON ..", file=out)
        print("# in 1/64 pixel, where SIZE is in pixels per em, and ON is 1 for a point on the curve and else 0.", file=out)
        glyphs = chosen(TTFont(path))
        for size in SIZES:
            # Afresh, since a glyph that was read has lost its bytes.
            outlines = Outlines(TTFont(path), size)
            for glyph in glyphs:
                print(size, line(outlines, glyph), file=out)


def opened(data):
    font = TTFont(io.BytesIO(data))
    # The worked fonts have no names for their glyphs.
    font.setGlyphOrder([f"glyph{it}" for it in range(font["maxp"].numGlyphs)])
    return font


WORKED_HEAD = """\
# Small fonts, made by make_expected.py: a case a line,
#   NAME SIZE GLYPHS FONT LINES
# GLYPHS are the numbers of those that are asked for, with commas between them, FONT is the file in hexadecimal, and
# LINES are what is printed, with commas for blanks and semicolons for line feeds."""

BEST_HEAD = """\
# Small fonts of worked.txt and their outlines with best, made by make_expected.py likewise. FreeType 2.12.1 makes the
# same outlines."""

PICTURES_HEAD = """\
# Pictures of small fonts and of fonts of Debian, made by make_expected.py: a case a line,
#   NAME SIZE GLYPH WIDTH HEIGHT MARGIN RISE FONT ROWS
# FONT is a path, or the file in hexadecimal. ROWS are the picture from the top, '#' for a black pixel, or the line of a
# refusal, with commas for blanks and semicolons for line feeds."""


def write_worked(table, head, best, cases):
    with open(HERE / table, "w", encoding="ascii") as out:
        print(head, file=out)
        for name, size, glyphs, data in cases:
            lines = [line(Outlines(opened(data), size, best), glyph).replace(" ", ",") for glyph in glyphs]
            print(name, size, ",".join(map(str, glyphs)), data.hex(), ";".join(lines), file=out)


def rows_of(outlines, glyph, frame):
    try:
        return picture(outlines.outline(glyph), *frame)
    except Refused as why:
        return [f"{glyph} {why}"]


def write_pictures():
    with open(HERE / "pictures.txt", "w", encoding="ascii") as out:
        print(PICTURES_HEAD, file=out)
        for name, size, glyph, frame, data, wanted in PICTURES:
            rows = rows_of(Outlines(opened(data), size), glyph, frame)
            # These were worked out by hand: what the rules say has to be the same.
            assert rows == wanted, (name, rows, wanted)
            print(name, size, glyph, *frame, data.hex(), ";".join(rows).replace(" ", ","), file=out)
        for path in FONTS.values():
            font = TTFont(path)
            for letter in "Ag@é&ö":
                glyph = font.getGlyphID(font.getBestCmap()[ord(letter)])
                for size, frame in (16, (20, 24, 2, 16)), (48, (60, 62, 1, 46)):
                    rows = rows_of(Outlines(TTFont(path), size), glyph, frame)
                    print(f"U+{ord(letter):04X}", size, glyph, *frame, path, ";".join(rows), file=out)


def main():
    for name, path in FONTS.items():
        write_font(name, path)
    write_worked("worked.txt", WORKED_HEAD, False, WORKED)
    write_worked("best.txt", BEST_HEAD, True, [it for it in WORKED if it[0] in BEST])
    write_pictures()


main()
