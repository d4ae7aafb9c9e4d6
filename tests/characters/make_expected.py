#!/usr/bin/env python3
"""Makes fonttools.txt, the glyphs of all characters of the first two planes, by fontTools, which shares no code with
tt_render.

  apt-get install fonts-dejavu-core fonts-liberation python3-fonttools
  /usr/bin/python3 tests/characters/make_expected.py

The file in the repository was made with fontTools 4.38.0 (Debian's python3-fonttools 4.38.0-1+deb12u1) from the fonts
of ../real_fonts/fonts.txt.
"""
import pathlib
import sys

from fontTools.ttLib import TTFont

HERE = pathlib.Path(__file__).parent
sys.path.insert(0, str(HERE.parent / "real_fonts"))
from make_expected import chosen

HEAD = """\
# Written by make_expected.py: a font's MD5 sum, the font, and the format of the subtable that serves;
# then from which character to which one the glyphs rise by one, and the first of these glyphs."""


def runs(glyphs):
    """Yields the first and the last character and the first glyph of each run in which both rise by one."""
    run = None
    for code in sorted(glyphs):
        if run and (code, glyphs[code]) == (run[1] + 1, run[2] + code - run[0]):
            run[1] = code
            continue
        if run:
            yield run
        run = [code, code, glyphs[code]]
    if run:
        yield run


def main():
    fonts = (HERE.parent / "real_fonts/fonts.txt").read_text(encoding="utf-8").splitlines()
    with open(HERE / "fonttools.txt", "w", encoding="utf-8") as out:
        print(HEAD, file=out)
        for line in fonts:
            if line.startswith("#"):
                continue
            sum, _, path = line.split()
            font = TTFont(path)
            subtable = chosen(font["cmap"].tables)
            print("font", sum, path, subtable.format, file=out)
            glyphs = {code: font.getGlyphID(name) for code, name in subtable.cmap.items()}
            for first, last, glyph in runs({code: it for code, it in glyphs.items() if it and code < 0x20000}):
                print(f"{first:04X} {last:04X} {glyph}", file=out)


if __name__ == "__main__":
    main()
