#!/usr/bin/env python3
"""Makes the tables of this folder: small fonts, calls of `label` as printers need them, and files in PNG.

  python3 tests/printers/make_cases.py ROWS.json

ROWS.json is not kept here: another program made it, an independent model that was written from the rules alone. It
names fonts, has rows as that of ../label, and pictures in P4 beside their files in PNG. This script only writes the
same values as lines. The heads of the tables say what a line holds.
"""
import hashlib
import json
import sys
from pathlib import Path

sys.dont_write_bytecode = True
HERE = Path(__file__).resolve().parent
sys.path[:0] = [str(HERE.parent / it) for it in (".", "label", "faces", "printers")]
import cases
import make_rows

VALUES = "# Made by make_cases.py, of values by an independent model that was written from the rules alone."
FONTS = f"# The fonts of the tables here.\n{VALUES}\n# ../label/rows.txt says what a line holds.\n"
ROWS = f"# Answers of `label` {{}}.\n{VALUES}\n# ../label/rows.txt says what a line holds.\n"
FILES = f"""\
# Pictures beside their files in PNG.
{VALUES}
# Lines:
#   WIDTHxHEIGHT:ROWS|FILE
# Both are hexadecimal, as in ../label/rows.txt. ROWS are `pattern` where byte I is 37 I + I / 7, and FILE is a sum
# where it is long.
"""
# The tables of rows, and what is in them.
TABLES = {"composed": "for letters and marks beside each other", "width": "with --width", "box": "with --box"}
# The longest file that is written whole.
LONGEST = 1000


def table_of(row):
    """Returns the table to which a row belongs."""
    return "composed" if row["title"].startswith("composed") else "box" if "--box" in row["argv"] else "width"


def file_line(made):
    """Returns the line of a picture and its file."""
    picture, file = bytes.fromhex(made["p4"]), bytes.fromhex(made["png"])
    words = make_rows.pictures_of(picture) if len(file) <= LONGEST else "pattern"
    if words == "pattern":
        shape = picture.split(b"\n")[1].decode().replace(" ", "x")
        words = f"{shape}:pattern"
        assert cases.picture_in(words) == picture
        return f"{words}|sha256 {hashlib.sha256(file).hexdigest()}"
    return f"{words}|{make_rows.pieces(file, bytes.hex)}"


def main():
    made = json.loads(Path(sys.argv[1]).read_text(encoding="utf-8"))
    fonts, texts = {}, {"fonts": FONTS, "png": FILES, **{name: ROWS.format(words) for name, words in TABLES.items()}}
    for name, data in made["fonts"].items():
        texts["fonts"] += f"font {name}|{make_rows.font_words(bytes.fromhex(data), fonts)}\n"
        fonts[name] = bytes.fromhex(data)
    for row in made["rows"]:
        texts[table_of(row)] += make_rows.line_of(row) + "\n"
    texts["png"] += "".join(file_line(it) + "\n" for it in made["pngs"])
    for name, text in texts.items():
        (HERE / f"{name}.txt").write_text(text, encoding="utf-8")


if __name__ == "__main__":
    main()
