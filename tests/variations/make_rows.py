#!/usr/bin/env python3
"""Makes rows.txt: small variable fonts, and what is answered of them at instances.

  python3 tests/variations/make_rows.py ROWS.json > tests/variations/rows.txt

ROWS.json is not kept here: another program made it, an independent model that was written from the rules alone. A row
has a font, what is asked for, the answer, and for what is drawn the coordinates, heights and outlines behind it. This
script only writes the same values as lines. The head of rows.txt says what a line holds.
"""
import json
import re
import sys
from pathlib import Path
from urllib.parse import quote

sys.dont_write_bytecode = True
TESTS = Path(__file__).resolve().parents[1]
sys.path[:0] = [str(TESTS / it) for it in ("faces", "kerning")]
from written import font_lines, fonts_of

HEAD = """\
# Answers about small variable fonts at instances, values by another program, an independent model that was written from
# the rules alone. Made by make_rows.py. The first lines name fonts:
#   font NAME|BYTES
# BYTES are hexadecimal: X*N is N times X, and pieces are joined by `+`. Or they are an earlier font's name, and then
# AT=BYTES for other bytes at a place. Then one row a line:
#   NAME|FONT|WORDS|TEXT|STATUS|ANSWER|ERRORS|COORDINATES|HEIGHTS|OUTLINES
# WORDS are a command and its options; %XX is a byte, and '' no byte. ANSWER is a picture, WIDTHxHEIGHT:ROWS in
# hexadecimal; or the lines of standard output, with `/` behind each; or of kerning the second pen and the units of the
# pair; or of a text of --axis alone, without a font, the tags and places in 1/65536. ERRORS are lines of standard error
# after `tt_render: `, with `/` between them. COORDINATES are in 1/65536, HEIGHTS are ascent and descent, OUTLINES lines
# as tt_test_answers prints them, with `;` between them.
"""
STATUSES = {range(1, 60): 1, range(60, 69): 2}


def status_of(refusal):
    """Returns the exit status of a refusal, by its number."""
    found = re.match(r"(?:.{4}\+\d+: )?(\d+) ", refusal)
    return next(status for numbers, status in STATUSES.items() if int(found[1]) in numbers) if found else 2


def words_of(row):
    """Returns the words that ask for a row's answer."""
    words = ["draw"] if row["call"] == "words" else [row["call"]]
    if row["call"] == "kerning":
        words = ["measure", "--no-ink", "--kern"]
    words += [f"--{it}={row[it]}" for it in ("size", "fit") if it in row]
    words += [f"--{it}={row[it]}" for it in ("instance", "axis") if it in row]
    return " ".join(quote(it, safe="=,&/-") for it in words)


def picture(digits):
    """Returns the words of a file of one picture."""
    kind, size, rows = bytes.fromhex(digits).split(b"\n", 2)
    assert kind == b"P4"
    return size.decode().replace(" ", "x") + ":" + re.sub(r"((..)\2{7,})", shorter, rows.hex())


def shorter(found):
    """Returns a byte that is repeated, as a piece."""
    return f"+{found[2]}*{len(found[1]) // 2}+"


def answer_of(row):
    """Returns status, answer and errors of a row."""
    answer = row["answer"]
    if row["call"] == "kerning":
        return "0", f"{answer['second_pen']} {answer['units']}", ""
    if isinstance(answer, list):
        return "0", " ".join(f"{quote(tag)}={place}" for tag, place in answer), ""
    if isinstance(answer, dict):
        errors = [it.removeprefix("tt_render: ") for it in answer["stderr"]]
        return "0", re.sub(r"\+$|(?<=:)\+|(?<=\+)\+", "", picture(answer["stdout_hex"])), "/".join(errors)
    if answer.endswith("\n"):
        # The line gap of these fonts, 0, is told now too.
        told = re.sub(r"^(font \d+ -?\d+ -?\d+ \d+)$", r"\1 0", answer, flags=re.M)
        return "0", told.replace("\n", "/"), ""
    return str(status_of(answer)), "", answer.removeprefix("tt_render: ")


def outline_of(glyph, points, ends, phantom):
    """Returns the line of an outline."""
    words = [glyph, "phantom", *sum(phantom, []), "ends", *ends, "points", *sum(points, [])]
    return " ".join(map(str, words))


def inside_of(row):
    """Returns coordinates, heights and outlines of a row, where it has them."""
    inside = row.get("inside")
    if not inside:
        return "", "", ""
    coordinates = ",".join(map(str, inside["coordinates"])) if inside["coordinates"] is not None else "none"
    heights = f"{inside['ascent']} {inside['descent']}"
    return coordinates, heights, ";".join(outline_of(*it) for it in inside["outlines"])


def name_of(row):
    """Returns a row's name without the letter of its group."""
    return re.sub("^[A-Z] ", "", row["name"])


def main():
    rows = json.loads(Path(sys.argv[1]).read_text())
    fonts = fonts_of((name_of(row), bytes.fromhex(row["font"])) for row in rows if "font" in row)
    print(HEAD, end="")
    print(*font_lines(fonts), sep="\n")
    names = {data: name for name, data in fonts.items()}
    for row in rows:
        font = names[bytes.fromhex(row["font"])] if "font" in row else "none"
        fields = [name_of(row), font, words_of(row), row.get("text", ""), *answer_of(row), *inside_of(row)]
        assert not any("|" in it for it in fields)
        print("|".join(fields))


main()
