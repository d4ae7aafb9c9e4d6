#!/usr/bin/env python3
"""Makes collections.txt, what `faces` says of each collection, by fontTools, which shares no code with tt_render.

  apt-get install fonts-wqy-microhei fonts-wqy-zenhei fonts-arphic-uming fonts-arphic-ukai python3-fonttools
  /usr/bin/python3 tests/faces/make_expected.py > tests/faces/collections.txt

The file in the repository was made with fontTools 4.38.0 (Debian's python3-fonttools 4.38.0-1+deb12u1).
"""
import hashlib
from pathlib import Path

from fontTools.ttLib import TTCollection

FONTS = Path("/usr/share/fonts/truetype")
COLLECTIONS = "wqy/wqy-microhei.ttc", "wqy/wqy-zenhei.ttc", "arphic/uming.ttc", "arphic/ukai.ttc"
HEAD = """\
# Written by make_expected.py: of each collection its MD5 sum and its path, then a line for each face, as `faces` prints
# it: number, glyphs, units per em, full name."""


def name_of(font):
    """Returns a font's full name, that in English first, as `faces` prints it."""
    full = [it for it in font["name"].names if it.nameID == 4 and it.platformID == 3]
    chosen = ([it for it in full if it.langID == 0x409] or full)[0]
    return "".join(it if " " <= it <= "~" else "?" for it in chosen.toUnicode())[:64]


def main():
    print(HEAD)
    for path in (FONTS / it for it in COLLECTIONS):
        print("collection", hashlib.md5(path.read_bytes()).hexdigest(), path)
        for number, font in enumerate(TTCollection(path, lazy=True).fonts):
            print(number, font["maxp"].numGlyphs, font["head"].unitsPerEm, name_of(font))


main()
