#!/usr/bin/env python3
"""Makes the tables of expected lines, by fontTools, which shares no code with tt_render.

  apt-get install fonts-dejavu-core fonts-liberation python3-fonttools
  /usr/bin/python3 tests/real_fonts/make_expected.py

It reads texts.txt and writes fonts.txt and expected/*.txt beside it. The tables in the repository were made with
fontTools 4.38.0 (Debian's python3-fonttools 4.38.0-1+deb12u1) from fonts-dejavu-core 2.37-6 and fonts-liberation
1:1.07.4-11, the versions of Debian 12.
"""
import hashlib
import os

from fontTools.ttLib import TTFont

HERE = os.path.dirname(os.path.abspath(__file__))
FOLDER = "/usr/share/fonts/truetype"
FONTS = [
    "dejavu/DejaVuSans.ttf",
    "dejavu/DejaVuSans-Bold.ttf",
    "dejavu/DejaVuSansMono.ttf",
    "dejavu/DejaVuSerif.ttf",
    "liberation/LiberationMono-Regular.ttf",
    "liberation/LiberationSans-Regular.ttf",
    "liberation/LiberationSerif-Regular.ttf",
]


def chosen(tables):
    """Returns the subtable that tt_render reads: format 12 before 4, and of either first Windows', then Unicode's."""
    for format, encoding in ((12, 10), (4, 1)):
        served = [it for it in tables if it.format == format]
        windows = [it for it in served if (it.platformID, it.platEncID) == (3, encoding)]
        unicode = [it for it in served if it.platformID == 0]
        if windows or unicode:
            return (windows + unicode)[0]
    raise ValueError("no subtable serves")


def lines(font, text):
    """Yields the lines that `map` prints of a text. A character that the subtable lacks has glyph 0."""
    names = chosen(font["cmap"].tables).cmap
    for character in text:
        glyph = font.getGlyphID(names[ord(character)]) if ord(character) in names else 0
        advance = font["hmtx"].metrics[font.getGlyphName(glyph)][0]
        yield f"U+{ord(character):04X} {glyph} {advance}"


def main():
    with open(f"{HERE}/texts.txt", encoding="utf-8") as it:
        texts = it.read().removesuffix("\n").split("\n")
    with open(f"{HERE}/fonts.txt", "w", encoding="utf-8") as fonts:
        print("# Written by make_expected.py: the MD5 sum of each font that a table was made from, its version, and the font.", file=fonts)
        for path in FONTS:
            with open(f"{FOLDER}/{path}", "rb") as it:
                sum = hashlib.md5(it.read()).hexdigest()
            font = TTFont(f"{FOLDER}/{path}")
            version = font["name"].getDebugName(5).removeprefix("Version ")
            print(sum, version, f"{FOLDER}/{path}", file=fonts)
            name = os.path.basename(path).removesuffix(".ttf")
            with open(f"{HERE}/expected/{name}.txt", "w", encoding="utf-8") as it:
                for number, text in enumerate(texts, 1):
                    print(f"text {number}", *lines(font, text), sep="\n", file=it)


if __name__ == "__main__":
    main()
