#!/usr/bin/env python3
"""Makes rows.txt: small fonts and collections, each with a call and what it answers.

  python3 tests/faces/make_rows.py ROWS.json > tests/faces/rows.txt

ROWS.json is not kept here: another program made it, an independent model that was written from the rules alone. A row
has a name, a font, a call, for `map` a face and a text, and the answer. This script only writes the same values as
lines. What a line holds stands at the head of rows.txt. Fonts are written as what they change of the first two.
"""
import json
import re
import sys

from fonts import changed, tables_of, with_cmap

HEAD = """\
# Answers of `map`, `map --face` and `faces` for small fonts, values by another program, an independent model that was
# written from the rules alone. Made by make_rows.py, and run by the script beside it. Two lines name the test font and
# a collection of two faces, in words as below. Then one row a line:
#   NAME|FONT|CALL|FACE|TEXT|ANSWER
# FONT is `font`, `font` and a cmap that it has in place of its own, or `collection`. After `collection` come `cut:N`
# for its first N bytes, and AT=BYTES for other bytes at a place. A cmap is bytes in hexadecimal words, where XX*N
# stands for N times the byte XX. FACE is `strict` without --face. TEXT has code points. ANSWER is the lines of standard
# output, with `/` behind each, or after `refused` the line on standard error.
"""


def words_of(data):
    """Returns bytes in hexadecimal words, long runs of one byte by their number."""
    words = ""
    for run in re.finditer(rb"(.)\1*", data, re.S):
        one, times = run[1].hex(), len(run[0])
        words += f" {one}*{times} " if times > 7 else one * times
    return " ".join(words.split())


def written(data, font, collection):
    """Returns the words by which a font is written."""
    if data[:4] == b"\0\1\0\0" and len(data) > 28:
        start, length = tables_of(data)[b"cmap"]
        cmap = data[start : start + length]
        if data in (font, with_cmap(font, cmap)):
            return "font" if data == font else f"font {words_of(cmap)}"
    words = ["collection"] + [f"cut:{len(data)}"] * (len(data) < len(collection))
    others = [at for at, byte in enumerate(data) if byte != collection[at]]
    words += [f"{at}={data[at]:02x}" for at in others]
    if changed(collection, words[1:]) != data:
        raise SystemExit("a font that is made neither of the font nor of the collection")
    return " ".join(words)


def main():
    rows = json.load(open(sys.argv[1], encoding="utf-8"))
    font, collection = (bytes.fromhex(rows[at]["font"]) for at in (4, 0))
    print(HEAD + f"font {words_of(font)}\ncollection {words_of(collection)}")
    for row in rows:
        answer, face = row["answer"], row.get("face")
        is_told = not answer or answer.endswith("\n")
        text = " ".join(f"{ord(it):04X}" for it in row.get("text", ""))
        fields = [row["name"], written(bytes.fromhex(row["font"]), font, collection), row["call"]]
        fields += ["" if row["call"] == "faces" else "strict" if face is None else str(face), text]
        print("|".join([*fields, answer.replace("\n", "/") if is_told else f"refused {answer}"]))


main()
