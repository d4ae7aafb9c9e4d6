#!/usr/bin/env python3
"""Makes cases.txt: small fonts, runs of `bdf`, and calls of tt_glyphs, tt_layout and tt_pens, with what is answered.

  python3 tests/glyph_sets/make_cases.py ROWS.json > tests/glyph_sets/cases.txt

ROWS.json is that of ../label/make_rows.py, which is not kept here either: an independent model made it, which was
written from the rules alone. This script only writes the same values as lines. The head of cases.txt says what a line
holds.
"""
import itertools
import json
import re
import sys
from pathlib import Path
from urllib.parse import quote_from_bytes

sys.dont_write_bytecode = True
sys.path[:0] = [str(Path(__file__).resolve().parents[1] / it) for it in ("glyph_sets", "label", "faces")]
import cases
import labels
from make_rows import font_in, font_words, pieces, word_of

HEAD = """\
# Runs of `bdf`, and calls of tt_glyphs, tt_layout and tt_pens, for small fonts: values by another program, an
# independent model that was written from the rules alone. Made by make_cases.py, and run by the script beside it. The
# first lines name fonts beside those of ../label/rows.txt, whose head says how; of words, too. Then one case a line:
#   bdf NAME|FONT|WORDS|STATUS|FILE|LINE..
#   glyphs NAME|FONT|NUMBERS|JOB|ROOM TOLD_ROOM|ANSWER|ENTRIES|ROWS
#   layout NAME|FONT|TEXT|JOB|ANSWER|LAYOUT|PENS
# WORDS are those behind `bdf`; FONT is in F.ttf, or `none`. A `/` in FILE ends a line; {FIRST-LAST:LINES} are the lines
# of many characters, %X and %d their numbers. The LINEs are those of standard error behind `tt_render: `.
# Lists have commas, and X*N is N times X; where X is a pen it moves on by its advance. TEXT and ROWS are hexadecimal.
# JOB is size, margin, fit and face, ANSWER status, number, table+offset, bytes and count, LAYOUT width, height,
# baseline, rise, depth, gap, step and characters. Without ANSWER's status 0 the rest is empty.
"""


def listed(words):
    """Returns a field of words, those that repeat by their number."""
    runs = ((word, len(list(it))) for word, it in itertools.groupby(words))
    return ",".join(f"{word}*{count}" if count > 1 else word for word, count in runs)


def place_of(made):
    return f"{made['table']}+{made['offset']}" if made["table"] else "-"


def answer_of(made):
    return f"{made['status']} {made['number']} {place_of(made)} {made['bytes']} {made['count']}"


def entry_of(made):
    numbers = " ".join(str(made[it]) for it in ("advance", "left", "top", "width", "height", "at"))
    return f"{made['glyph']} {made['status']} {made['number']} {place_of(made)} {numbers}"


def pens_of(made):
    """Returns the field of pens."""
    words, column = [], {}
    for pen in made or []:
        word = f"{pen['code_point']} {pen['selector']} {pen['glyph']} {pen['advance']}"
        if words and words[-1][0] == word and pen["pen"] == column:
            words[-1][2] += 1
        else:
            words.append([word, pen["pen"], 1])
        column = pen["pen"] + pen["advance"]
    return ",".join(f"{word} {first}" + f"*{count}" * (count > 1) for word, first, count in words)


def file_of(data):
    """Returns the field of a file of bitmaps."""
    text = data.decode().replace("\n", "/")
    assert not set("|{}") & set(text) and text.count("/") == data.count(b"\n")
    head, *characters = re.split(r"(?=STARTCHAR)", text)
    characters, end = [it.removesuffix("ENDFONT/") for it in characters], "ENDFONT/" * bool(characters)
    forms = []
    for it in characters:
        code = int(re.match(r"STARTCHAR U\+(\w+)/", it)[1], 16)
        form = it.replace(f"U+{code:04X}", "U+%X", 1).replace(f"ENCODING {code}/", "ENCODING %d/", 1)
        if len(forms) and forms[-1][2] == form and forms[-1][1] == code - 1:
            forms[-1][1] = code
        else:
            forms.append([code, code, form, it])
    words = [it if last == first else f"{{{first:04X}-{last:04X}:{form}}}" for first, last, form, it in forms]
    assert cases.file_in(head + "".join(words) + end) == data
    return head + "".join(words) + end


def run_of(row):
    """Returns the line of a run."""
    words = " ".join(word_of(it.encode()) for it in row["argv"][1:])
    assert labels.words_in(words) == [it.encode() for it in row["argv"][1:]] and not row["stdin"] and not row["special"]
    errors = ["complains"]
    if row["stderr"] is not None:
        errors = [it.removeprefix("tt_render: ") for it in row["stderr"].splitlines()]
    return [row["title"].removeprefix("bdf: "), row["font"] or "none", words, row["status"],
            file_of(bytes.fromhex(row["stdout"])), *errors]


def call_of(row):
    """Returns the line of a call."""
    job, answer = f"{row['size']} {row.get('margin', 0)} {row['fit']} {row['face']}", answer_of(row["answer"])
    if row["call"] == "tt_glyphs":
        entries, rows = listed(map(entry_of, row["entries"] or [])), pieces(bytes.fromhex(row["rows"] or ""), bytes.hex)
        numbers, rooms = listed(map(str, row["glyphs"])), f"{row['room']} {row['told_room']}"
        return [row["title"], row["font"], numbers, job, rooms, answer, entries, rows]
    layout = " ".join(map(str, (row["layout"] or {}).values()))
    text = pieces(bytes.fromhex(row["text"]), bytes.hex)
    return [row["title"], row["font"], text, job, answer, layout, pens_of(row["pens"])]


def main():
    made = json.load(open(sys.argv[1], encoding="utf-8"))
    runs = [("bdf", it) for it in made["rows"] if it["argv"][0] == "bdf"]
    calls = [("glyphs" if it["call"] == "tt_glyphs" else "layout", it) for it in made["calls"]]
    print(HEAD, end="")
    fonts = labels.fonts()
    for name, data in made["fonts"].items():
        data = font_in(name, bytes.fromhex(data))
        if name in fonts:
            assert fonts[name] == data
        elif name in {it["font"] for _, it in runs + calls}:
            print(f"font {name}|{font_words(data, fonts)}")
            fonts[name] = data
    for kind, row in runs + calls:
        fields = run_of(row) if kind == "bdf" else call_of(row)
        assert "|" not in "".join(map(str, fields))
        print(f"{kind} " + "|".join(map(str, fields)))


main()
