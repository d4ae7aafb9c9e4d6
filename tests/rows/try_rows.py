#!/usr/bin/env python3
"""Draws each picture of draw.txt again, by fontTools and the rules that ../outlines/outlines.py states, and looks up
each answer of map.txt and each refusal of its cmap again, by the plain search of ../characters/plain.py. Neither shares
code with tt_render. The pictures of fallback.txt with lines beside them are put together: of a glyph that is told by
fontTools, and of another one from the picture in fitted.txt. Where cases.txt says by which scan types a picture of best
is drawn, it is drawn again by fontTools and the rules of dropouts.py, and each pixel has to be added by rows or by
columns as is said there; and so it is where ../hinted/originals.txt says what its outline is. So are the pictures of
picture.txt whose fonts have no programs and no composites. Says where an answer is another.

  apt-get install python3-fonttools
  /usr/bin/python3 tests/rows/try_rows.py

It was last run with fontTools 4.38.0 (Debian's python3-fonttools 4.38.0-1+deb12u1).
"""
import io
import logging
import pathlib
import sys
from itertools import takewhile

HERE = pathlib.Path(__file__).parent
sys.path.insert(0, str(HERE.parent / "real_lines"))
sys.path.insert(1, str(HERE.parent / "characters"))
from dropouts import TTFont, drawn_by_types
from make_expected import drawn
from make_rows import FILES, font_of, text_of
from make_rows import cases as worked_cases
from plain import Characters, Refused

logging.disable(logging.WARNING)


def cases(table):
    """Yields the words of each case of a file whose font is written out or whole, its font and its text."""
    whole = b""
    for line in (HERE / table).read_text(encoding="utf-8").split("\n"):
        words = line.split()
        if line.startswith("font "):
            whole = bytes.fromhex(words[1])
        elif words and words[0] != "#" and (words[1] == "whole" or words[1].isalnum()) and "*" not in words[2]:
            font = whole if words[1] == "whole" else bytes.fromhex(words[1])
            yield words, font, "" if words[2] == "-" else bytes.fromhex(words[2]).decode()


def looked_up(font, text):
    """Returns the standard output of `map`, in hexadecimal, and the line on standard error."""
    try:
        known = Characters(font)
    except Refused as it:
        return ["-", "tt_render:", *str(it).split()]
    return ["".join(f"{known.line(ord(it))}\n" for it in text).encode().hex(), "-"]


def rows_of(picture):
    """Returns the rows of a P4 file, as strings of 0 and 1."""
    _, size, body = picture.split(b"\n", 2)
    width, height = map(int, size.split())
    stride = (width + 7) // 8
    return ["".join(f"{it:08b}" for it in body[r * stride : (r + 1) * stride])[:width] for r in range(height)]


def put_together(words, font, text, fitted):
    """Returns the rows of a text, none of whose glyphs has ink outside its own columns."""
    told = {int(it.split()[2]) for it in " ".join(words[7:]).split(" | ")}
    known, size = Characters(font), words[3]
    pictures = []
    for it in text:
        if int(known.line(ord(it)).split()[1]) in told:
            pictures.append(drawn(int(size), 0, io.BytesIO(font), it))
        else:
            pictures.append(fitted[font, it, size])
    return ["".join(parts) for parts in zip(*map(rows_of, pictures))]


def other_fallen_back():
    """Returns how many pictures of fallback.txt were put together, and the names of those that are others."""
    fitted = {(font, text, it[3]): bytes.fromhex(it[6]) for it, font, text in cases("fitted.txt") if it[5] == "0"}
    # fontTools does not open a font whose glyf ends within a glyph.
    pictures = [it for it in cases("fallback.txt") if it[0][5] == "0" and it[0][7] != "-" and "short" not in it[0][0]]
    return len(pictures), [
        words[0]
        for words, font, text in pictures
        if put_together(words, font, text, fitted) != rows_of(bytes.fromhex(words[6]))
    ]


def other_dropouts():
    """Returns how many pictures of best were drawn again by scan types, and the names of those that are others."""
    count, others = 0, []
    for lines, base in worked_cases():
        for at, words in enumerate(lines):
            if words[0] != "best" or "by" not in words:
                continue
            text, (size, margin, _, *types) = text_of(words[1]).decode(), words[2:]
            rows = drawn_by_types(io.BytesIO(font_of(lines, base)[0]), text, int(size), int(margin), types)
            count += 1
            wanted = takewhile(lambda it: it[0] != "told" and it[0] not in FILES, lines[at + 1 :])
            if [[it] for it in rows] != list(wanted) or len(types) != len(text):
                others.append(lines[0][1])
    return count, others


def other_originals():
    """Returns how many pictures of best were drawn of the places of originals.txt, and the names of those that are
    others."""
    cases_of = {lines[0][1]: (lines, base) for lines, base in worked_cases()}
    count, others = 0, []
    for line in (HERE.parent / "hinted/originals.txt").read_text(encoding="utf-8").splitlines():
        if line.startswith("#"):
            continue
        name, size, *places = line.split()
        lines, base = cases_of[name]
        at = next(it for it, words in enumerate(lines) if words[0] == "best")
        points = [(*map(int, it.split(",")), 1) for it in places]
        shape = "A", int(size), int(lines[at][3]), "0", (points, [len(points)], [(0, 0)])
        rows = drawn_by_types(io.BytesIO(font_of(lines, base)[0]), *shape)
        count += 1
        if lines[at] != ["best", '"A"', size, "1"] or [[it] for it in rows] != lines[at + 1 :]:
            others.append(name)
    return count, others


def other_picture():
    """Returns how many pictures of picture.txt were drawn again, of those whose fonts have no programs and no composites,
    and the names of those that are others."""
    count, others = 0, []
    lines = (HERE / "picture.txt").read_text(encoding="utf-8").splitlines()
    for line in (it for it in lines if not it.startswith("#")):
        name, words, font, text, size, margin, status, stdout, *_ = line.split(" ")
        if words != "draw,--fit,best" or status != "0" or "*" in font + text + stdout:
            continue
        file, text = io.BytesIO(bytes.fromhex(font)), "" if text == "-" else bytes.fromhex(text).decode()
        opened = TTFont(file)
        if {"fpgm", "prep"} & {*opened.keys()} or any(it.isComposite() for it in opened["glyf"].glyphs.values()):
            continue
        rows = drawn_by_types(file, text, int(size), int(margin), "1" * len(text))
        count += 1
        if ["".join("01"[it in "#rcd"] for it in row) for row in rows] != rows_of(bytes.fromhex(stdout)):
            others.append(name)
    return count, others


def told(count, what, others):
    print(f"{count} {what}; other ones: {' '.join(others) or 'none'}")
    return bool(others)


def main():
    pictures = [it for it in cases("draw.txt") if it[0][5] == "0"]
    others = [
        words[0]
        for words, font, text in pictures
        if drawn(int(words[3]), int(words[4]), io.BytesIO(font), text) != bytes.fromhex(words[6])
    ]
    failed = told(len(pictures), "pictures drawn again", others)
    count, others = other_fallen_back()
    failed |= told(count, "pictures with glyphs drawn without programs put together", others)
    count, others = other_dropouts()
    failed |= told(count, "pictures drawn again by scan types", others)
    count, others = other_originals()
    failed |= told(count, "pictures drawn of originals.txt", others)
    count, others = other_picture()
    failed |= told(count, "pictures of picture.txt drawn again", others)
    answers = [it for it in cases("map.txt") if it[0][3] == "0" or it[0][6].startswith("cmap+")]
    others = [words[0] for words, font, text in answers if looked_up(font, text) != words[4:]]
    sys.exit(told(len(answers), "answers and refusals of cmap looked up again", others) | failed)


main()
