#!/usr/bin/env python3
"""Makes rows.txt: small fonts, and calls of `label` with what they answer.

  python3 tests/label/make_rows.py ROWS.json > tests/label/rows.txt

ROWS.json is not kept here: another program made it, an independent model that was written from the rules alone. It
names fonts, and has rows: the words of a command, a font, standard input, and what is answered. This script only writes
the same values as lines, those of `label` alone. The head of rows.txt says what a line holds.

Fonts whose glyphs divide by 0 get a control value program of one instruction here. Without a program for all glyphs,
`--fit best` runs none of a glyph.
"""
import json
import re
import sys
from pathlib import Path
from urllib.parse import quote_from_bytes

sys.dont_write_bytecode = True
sys.path[:0] = [str(Path(__file__).resolve().parents[1] / it) for it in ("label", "faces")]
from fonts import changed, font_of, tables_in
from labels import bytes_in, pictures_in, words_in

HEAD = """\
# Answers of `label` for small fonts, values by another program, an independent model that was written from the rules
# alone. Made by make_rows.py, and run by the script beside it. The first lines name fonts:
#   font NAME|BYTES
# BYTES are hexadecimal, or an earlier font's name, then `cut:N` for its first N bytes, and AT=BYTES for other bytes at
# a place. Then one row a line:
#   NAME|FILE|WORDS|INPUT|STATUS|OUTPUT|LINE..
# FILE is what the folder has: `none`, `folder`, or a font in the file F.ttf, or in another that is named behind `as`.
# WORDS are those of the command behind `label`. A byte of these, of names and of INPUT may be %XX, and '' is an empty
# word. OUTPUT has pictures, WIDTHxHEIGHT:BYTES. X*N is N times X; pieces are joined by `+`. The LINEs are those of
# standard error behind `tt_render: `; `complains` is any line of the command line's parser.
"""


def pieces(data, form):
    """Returns the pieces by which bytes are written, those that repeat by their number."""
    found, start = [], 0
    for run in re.finditer(rb"(.{1,4}?)\1{7,}", data, re.S):
        found += [form(data[start : run.start()]), f"{form(run[1])}*{len(run[0]) // len(run[1])}"]
        start = run.end()
    return "+".join(it for it in [*found, form(data[start:])] if it)


def word_of(data):
    return pieces(data, lambda it: quote_from_bytes(it, safe="/")) or "''"


def pictures_of(data):
    """Returns the words of the pictures that were written."""
    words = []
    while data:
        width, height = re.match(rb"P4\n(\d+) (\d+)\n", data).groups()
        start = 5 + len(width) + len(height)
        end = start + (int(width) + 7) // 8 * int(height)
        words.append(f"{int(width)}x{int(height)}:{pieces(data[start:end], bytes.hex)}")
        data = data[end:]
    return " ".join(words)


# What is said of a variable font has more words than when the rows were made.
NOTE = "its default instance is drawn"
NOTE_NOW = f"{NOTE} (--instance, --axis; faces lists them)"


def font_words(data, others):
    """Returns the words by which a font is written: by an earlier one's, where few bytes are changed."""
    for name, other in others.items():
        if not other or len(data) > len(other):
            continue
        places = [at for at, byte in enumerate(data) if byte != other[at]]
        if len(places) <= 12:
            words = [f"cut:{len(data)}"] * (len(data) < len(other)) + [f"{at}={data[at]:02x}" for at in places]
            assert changed(other, words) == data
            return " ".join([quote_from_bytes(name.encode()), *words])
    return pieces(data, bytes.hex)


def font_in(name, data):
    """Returns the font of a name, with a program for all glyphs where its glyphs are to be refused."""
    return font_of({**tables_in(data), b"prep": b"\0"}) if name.startswith("divides") else data


def line_of(row):
    """Returns the line of a row."""
    file = row["special"] or row["font"] or "none"
    if file == "esc":
        file = f"{row['font']} as {word_of(row['argv'][-2].encode())}"
    words = " ".join(word_of(it.encode()) for it in row["argv"][1:])
    stdin, stdout = bytes.fromhex(row["stdin"]), bytes.fromhex(row["stdout"])
    errors = ["complains"]
    if row["stderr"] is not None:
        errors = [it.removeprefix("tt_render: ").replace(NOTE, NOTE_NOW) for it in row["stderr"].splitlines()]
    assert words_in(words) == [it.encode() for it in row["argv"][1:]]
    assert pictures_in(pictures_of(stdout)) == stdout and not stdin or bytes_in(word_of(stdin)) == stdin
    fields = [row["title"], file, words, word_of(stdin) if stdin else "", str(row["status"]), pictures_of(stdout)]
    return "|".join([*fields, *errors])


def main():
    made = json.load(open(sys.argv[1], encoding="utf-8"))
    rows = [it for it in made["rows"] if it["argv"][0] == "label"]
    fonts, used = {}, {it["font"] for it in rows} - {None}
    print(HEAD, end="")
    for name, data in made["fonts"].items():
        if name in used:
            data = font_in(name, bytes.fromhex(data))
            print(f"font {name}|{font_words(data, fonts)}")
            fonts[name] = data
    for row in rows:
        print(line_of(row))


if __name__ == "__main__":
    main()
