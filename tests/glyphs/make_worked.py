#!/usr/bin/env python3
"""Makes worked.txt: the small fonts of ../rows/draw.txt, each with its glyphs as fontTools reads them.

  apt-get install python3-fonttools
  /usr/bin/python3 tests/glyphs/make_worked.py

Made with fontTools 4.38.0 (Debian's python3-fonttools 4.38.0-1+deb12u1). Taken is each font that some case draws and that
none is refused a glyph of, under the name of the first.
"""
import io
import logging
import pathlib

from fontTools.ttLib import TTFont

from make_expected import fields

logging.disable(logging.WARNING)
HERE = pathlib.Path(__file__).parent
HEAD = """\
# Small fonts, made by make_worked.py: a font a line,
#   NAME FONT GLYPHS
# FONT is the file in hexadecimal, and GLYPHS its lines as in dejavu_sans.txt, with commas for blanks and semicolons for
# line feeds.
"""


def fonts():
    """Returns the name of each font, by its bytes."""
    found, refused = {}, set()
    for line in (HERE.parent / "rows/draw.txt").read_text(encoding="utf-8").split("\n"):
        words = line.split()
        if line.startswith("font "):
            whole = bytes.fromhex(words[1])
        elif len(words) > 6 and words[0] != "#" and not words[1].startswith("cut:"):
            font = whole if words[1] == "whole" else bytes.fromhex(words[1])
            if words[5] == "0":
                found.setdefault(font, words[0])
            elif " glyf+" in line:
                refused.add(font)
    return {font: name for font, name in found.items() if font not in refused}


def main():
    with open(HERE / "worked.txt", "w", encoding="utf-8") as out:
        print(HEAD, end="", file=out)
        for data, name in fonts().items():
            font = TTFont(io.BytesIO(data))
            glyf = font["glyf"]
            lines = []
            for number, it in enumerate(font.getGlyphOrder()):
                glyph = glyf.glyphs[it]
                glyph.expand(glyf)
                lines.append(",".join(map(str, (number, *fields(font, glyph)))))
            print(name, data.hex(), ";".join(lines), file=out)


main()
