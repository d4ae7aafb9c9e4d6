#!/usr/bin/env python3
"""Makes rows.txt: small fonts, and lines of text that are laid out with kerning.

  python3 tests/kerning/make_rows.py ROWS.json > tests/kerning/rows.txt

ROWS.json is not kept here: another program made it, an independent model that was written from the rules alone. Each of
its rows has a font, a text, a size, and the glyphs, the pens and the width. This script only writes the same values as
lines. The head of rows.txt says what a line holds.
"""
import json
import sys
from pathlib import Path

sys.dont_write_bytecode = True
sys.path.insert(0, str(Path(__file__).resolve().parents[1] / "faces"))
from written import font_lines, fonts_of

HEAD = """\
# Lines of text laid out with kerning, values by another program, an independent model that was written from the rules
# alone. Made by make_rows.py. The first lines name fonts:
#   font NAME|BYTES
# BYTES are hexadecimal: X*N is N times X, and pieces are joined by `+`. Or they are an earlier font's name, and then
# AT=BYTES for other bytes at a place. Then one row a line, where pens count columns from the first glyph's:
#   FONT|TEXT|SIZE|WIDTH|GLYPH:PEN ..
"""


def row_line(row, names):
    """Returns the line of a row."""
    answer = row["answer"]
    glyphs = " ".join(f"{glyph}:{pen}" for glyph, pen in zip(answer["glyphs"], answer["pens"], strict=True))
    name = names[bytes.fromhex(row["font"])]
    return "|".join([name, row["text"], str(row["size"]), str(answer["width"]), glyphs])


def main():
    rows = json.loads(Path(sys.argv[1]).read_text())
    assert all(row["call"] == "lay" and row["kern"] and row["face"] == 0 for row in rows)
    fonts = fonts_of((row["name"], bytes.fromhex(row["font"])) for row in rows)
    print(HEAD, end="")
    print(*font_lines(fonts), sep="\n")
    names = {data: name for name, data in fonts.items()}
    for row in rows:
        print(row_line(row, names))


main()
