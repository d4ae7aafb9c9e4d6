#!/usr/bin/env python3
"""Makes dejavu_sans.txt, a line for each glyph of DejaVu Sans as fontTools reads it.

  apt-get install fonts-dejavu-core python3-fonttools
  /usr/bin/python3 tests/glyphs/make_expected.py > tests/glyphs/dejavu_sans.txt

The table in the repository was made with fontTools 4.38.0 (Debian's python3-fonttools 4.38.0-1+deb12u1) from
fonts-dejavu-core 2.37-6, the versions of Debian 12. What a line holds stands at the head of what this prints.
"""
import hashlib

from fontTools.ttLib import TTFont

PATH = "/usr/share/fonts/truetype/dejavu/DejaVuSans.ttf"


def sums(rows):
    """Returns three sums of the numbers of some rows, each number times the place of its row, from 1 on."""
    return [sum(place * row[it] for place, row in enumerate(rows, 1)) for it in range(3)]


def fields(font, glyph):
    """Returns kind, points or records, contours, the bytes of the program and the sums, of a glyph that has been read."""
    count = glyph.numberOfContours
    if count == 0:
        return "empty", 0, 0, 0, 0, 0, 0
    code = len(glyph.program.getBytecode()) if hasattr(glyph, "program") else 0
    if glyph.isComposite():
        rows = [
            (font.getGlyphID(c.glyphName), *((c.x, c.y) if hasattr(c, "x") else (c.firstPt, c.secondPt)))
            for c in glyph.components
        ]
        return "composite", len(rows), count, code, *sums(rows)
    rows = [(x, y, flag & 1) for (x, y), flag in zip(glyph.coordinates, glyph.flags)]
    return "simple", len(rows), count, code, *sums(rows)


def main():
    with open(PATH, "rb") as it:
        sum = hashlib.md5(it.read()).hexdigest()
    font = TTFont(PATH)
    glyf = font["glyf"]
    print(f"# Written by make_expected.py from {PATH}, MD5 {sum}. A line is")
    print("#   GLYPH KIND COUNT CONTOURS PROGRAM SUM SUM SUM")
    print("# COUNT is the points of a simple glyph, without the phantom points, and the component records of a composite one.")
    print("# CONTOURS is the first word of the glyph's bytes, -1 for a composite, and PROGRAM the length of its instructions.")
    print("# The sums are of x, y and 1 for an on-curve point, or of the component and its two arguments, each times the place of")
    print("# the point or record, from 1 on.")
    for number, name in enumerate(font.getGlyphOrder()):
        glyph = glyf.glyphs[name]
        glyph.expand(glyf)
        print(number, *fields(font, glyph))


if __name__ == "__main__":
    main()
