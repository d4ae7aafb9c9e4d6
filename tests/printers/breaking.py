"""A plain model of `label` with --width and --box, written from the rules: where a line is broken, and where rows are.

How wide characters are is what `measure` prints; the picture of a row is what `draw --grow` draws of its text alone.
"""
import re
from typing import NamedTuple

import model
from model import HEIGHT_LIMIT, WIDTH_LIMIT, ranges

IDEOGRAPHS = ranges("""2E80-2FFF 3001-30FF 31A0-4DBF 4E00-9FFF A000-A4CF F900-FAFF FE30-FE4F FF01-FF60 FFE0-FFE6
  20000-3FFFF""")
# What begins no row, and what ends none.
CLOSING = set("!),.:;?]}%\u2019\u201d\u2026") | {chr(int(it, 16)) for it in """3001 3002 3005 3009 300B 300D 300F 3011
  3015 3017 3019 301F 303B 3041 3043 3045 3047 3049 3063 3083 3085 3087 308E 3095 3096 3099 309A 309D 309E 30A1 30A3
  30A5 30A7 30A9 30C3 30E3 30E5 30E7 30EE 30F5 30F6 30FB 30FC 30FD 30FE FF01 FF05 FF09 FF0C FF0E FF1A FF1B FF1F FF3D
  FF5D FF60""".split()}
OPENING = set("([{\u2018\u201c") | {chr(int(it, 16)) for it in """3008 300A 300C 300E 3010 3014 3016 3018 301D FF08 FF3B
  FF5B FF5F""".split()}
# The sizes that a box tries.
GREATEST, LEAST = 300, 5


class Unit(NamedTuple):
    """A character of a line, the way to the next line's end or character, and the same with their kerning."""

    character: str
    step: int
    kerned: int


class Row(NamedTuple):
    """The text of a row without the blanks at its end, and whether the row ends within a word."""

    text: str
    broken: bool


def is_ideograph(character):
    return any(first <= ord(character) <= last for first, last in IDEOGRAPHS)


def may_break(text, at):
    """Says whether a row may end before a character of a line."""
    one, other = text[at - 1], text[at]
    if one == " ":
        return other != " "
    if other == " ":
        return False
    if one == "\u200b":
        return True
    if one in "-\u2010":
        return at >= 2 and text[at - 2] != " " and not "0" <= other <= "9"
    return (is_ideograph(one) or is_ideograph(other)) and other not in CLOSING and one not in OPENING


def width_of(units):
    """Returns the width of a row, without the blanks at its end."""
    while units and units[-1].character == " ":
        units = units[:-1]
    return sum(it.kerned for it in units[:-1]) + units[-1].step if units else 0


def rows_of(units, room):
    """Returns the rows of a line. A unit fits where the row up to it is no wider than the room."""
    text, rows, start = "".join(it.character for it in units), [], 0
    while start < len(units) or not rows:
        end, broken = start, False
        while end < len(units) and width_of(units[start : end + 1]) <= room:
            end += 1
        if end < len(units):
            places = [it for it in range(start + 1, end + 1) if may_break(text, it)]
            end, broken = (places[-1], False) if places else (max(end, start + 1), True)
        rows.append(Row(text[start:end].rstrip(" "), broken))
        start = end
    return rows


def units_of(plain, kerned):
    """Returns the units of a line, by what `measure` prints of the line without kerning and with it."""
    steps = [re.findall(rb"^U\+([0-9A-F]+)(?: U\+[0-9A-F]+)? \d+ -?\d+ (\d+)", it, re.M) for it in (plain, kerned)]
    return [Unit(chr(int(one, 16)), int(step), int(other)) for (one, step), (_, other) in zip(*steps, strict=True)]


def boxes_of(lines, origins):
    """Returns the boxes of the ink of rows whose origins are at places of a picture."""
    pairs = [(it.box, origin) for it, origin in zip(lines, origins) if it.box]
    return [(box[0] + x, box[1] + y, box[2] + x, box[3] + y) for box, (x, y) in pairs]


def drawn(lines, origins, width, height):
    """Returns the picture of rows that were drawn alone. What lies beside it is cut."""
    rows = [0] * height
    for line, (x, y) in zip(lines, origins):
        shift = width - (x + line.left) - line.columns
        for at, row in enumerate(line.rows, y + line.top):
            if row:
                rows[at] |= (row << shift if shift >= 0 else row >> -shift) & ((1 << width) - 1)
    return model.picture_of(width, rows)


def places(lines, margin, align, width, above):
    """Returns where the rows begin in a picture of a width: at which column, and on which base line."""
    step = max(1, lines[0].rise + lines[0].depth + lines[0].gap)
    room = width - 2 * margin
    first = above + lines[0].rise
    return [(margin + model.beside(align, room - it.width), first + at * step) for at, it in enumerate(lines)]


def height_of(lines):
    """Returns how high rows are in all."""
    high = lines[0].rise + lines[0].depth
    return (len(lines) - 1) * max(1, high + lines[0].gap) + high


def in_width(lines, margin, align, width):
    """Returns the picture of rows with --width and what is told of cut ink; None where the picture is too large."""
    height = max(1, height_of(lines) + 2 * margin)
    origins = places(lines, margin, align, width, margin)
    left, top, right, bottom = model.sides_of(width, height, boxes_of(lines, origins))
    if max(height, height + top + bottom) > HEIGHT_LIMIT or width > WIDTH_LIMIT:
        return None
    pairs = (left, "left"), (right, "right")
    sides = [f"{count} column{'s' * (count > 1)} at the {side}" for count, side in pairs if count]
    told = [f"ink is cut: {' and '.join(sides)}; --margin or a greater --width shows it"] if sides else []
    return drawn(lines, [(x, y + top) for x, y in origins], width, height + top + bottom), told


def in_box(rows_at, line_at, margin, align, width, height, greatest=GREATEST, least=LEAST):
    """Returns the picture with --box and its size, or None where the text fits at no size. `rows_at` gives the rows of
    a size in a room, none where one line is too high; `line_at` gives a row drawn alone at a size."""
    room, free = width - 2 * margin, height - 2 * margin
    for size in range(greatest, min(least, greatest) - 1, -1):
        rows = rows_at(size, room, free)
        if not rows or any(it.broken for it in rows):
            continue
        lines = [line_at(size, it.text) for it in rows]
        if height_of(lines) > free or any(it.width > room for it in lines):
            continue
        origins = places(lines, margin, align, width, margin + (free - height_of(lines)) // 2)
        if not any(model.sides_of(width, height, boxes_of(lines, origins))):
            return drawn(lines, origins, width, height), size
    return None
