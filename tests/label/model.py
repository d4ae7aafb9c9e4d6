"""A plain model of `label`, written from its rules: the lines of a text and their picture, and what is said of it.

The picture is made of others: each line drawn alone by `draw --grow`, and where `measure` says that its origin is.
"""
import re
import struct
from typing import NamedTuple

WIDTH_LIMIT, HEIGHT_LIMIT = 16384, 4096
ALIGNS = "left", "centre", "right"


def label_lines(text):
    """Returns the lines of a text: at least one."""
    *ended, rest = text.removeprefix("\ufeff").split("\n")
    lines = [it.removesuffix("\r") for it in ended] + [rest] * (rest != "")
    return lines or [""]


class Line(NamedTuple):
    """A line drawn alone. The box of its ink is None without ink, else left, top, right and bottom from its origin on.
    The rows of its picture are numbers, whose highest bit is the first pixel; left and top are where that is."""

    width: int
    rise: int
    depth: int
    gap: int
    box: object
    left: int
    top: int
    columns: int
    rows: list


def nearest(number, divisor):
    """Returns the nearest whole number of a quotient, where a half goes up."""
    return (2 * number + divisor) // (2 * divisor)


def rows_of(picture):
    """Returns width and rows of a picture in P4."""
    width, height = map(int, re.match(rb"P4\n(\d+) (\d+)\n", picture).groups())
    size = (width + 7) // 8
    data = picture[len(picture) - size * height :]
    rows = [int.from_bytes(data[it : it + size], "big") for it in range(0, len(data), size)]
    return width, [it >> (8 * size - width) for it in rows]


def picture_of(width, rows):
    """Returns the picture in P4 of rows."""
    size = (width + 7) // 8
    body = b"".join((it << (8 * size - width)).to_bytes(size, "big") for it in rows)
    return f"P4\n{width} {len(rows)}\n".encode() + body


def line_of(measured, drawn, size):
    """Returns the line whose measure and grown picture are given, both with a margin of 1."""
    em, gap = map(int, re.search(rb"^font (\d+) -?\d+ -?\d+ \d+ (-?\d+)$", measured, re.M).groups())
    found = re.search(rb"^picture (\d+) (\d+) baseline (-?\d+) ink (none|.*)$", measured, re.M)
    width, height, base = map(int, found.groups()[:3])
    box = None if found[4] == b"none" else tuple(map(int, found[4].split()))
    left, top = max(0, -box[0]) if box else 0, max(0, -box[1]) if box else 0
    columns, rows = rows_of(drawn)
    inner = box and (box[0] - 1, box[1] - base, box[2] - 1, box[3] - base)
    gap = max(0, nearest(gap * size, em))
    return Line(width - 2, base - 1, height - 1 - base, gap, inner, -1 - left, -base - top, columns, rows)


def beside(align, rest):
    """Returns where a line begins that leaves a rest of the width."""
    return {"left": 0, "centre": rest // 2, "right": rest}[align]


def sides_of(width, height, boxes):
    """Returns how many columns and rows boxes of ink pass a frame, on the left, above, on the right and below."""
    left = max([0, *(-it[0] for it in boxes)])
    top = max([0, *(-it[1] for it in boxes)])
    right = max([0, *(it[2] - width + 1 for it in boxes)])
    bottom = max([0, *(it[3] - height + 1 for it in boxes)])
    return left, top, right, bottom


def laid(lines, margin, align):
    """Returns the picture of lines that were drawn alone, or None where it is too large."""
    rise, depth = lines[0].rise, lines[0].depth
    step = max(1, rise + depth + lines[0].gap)
    inner = max(it.width for it in lines)
    width = max(1, inner + 2 * margin)
    height = max(1, (len(lines) - 1) * step + rise + depth + 2 * margin)
    if width > WIDTH_LIMIT or height > HEIGHT_LIMIT:
        return None
    origins = [(margin + beside(align, inner - it.width), margin + rise + at * step) for at, it in enumerate(lines)]
    boxes = [
        (line.box[0] + x, line.box[1] + y, line.box[2] + x, line.box[3] + y)
        for line, (x, y) in zip(lines, origins)
        if line.box
    ]
    left, top, right, bottom = sides_of(width, height, boxes)
    width, height = width + left + right, height + top + bottom
    if width > WIDTH_LIMIT or height > HEIGHT_LIMIT:
        return None
    rows = [0] * height
    for line, (x, y) in zip(lines, origins):
        shift = width - (left + x + line.left) - line.columns
        for at, row in enumerate(line.rows, top + y + line.top):
            if row:
                rows[at] |= row << shift if shift >= 0 else row >> -shift
    return picture_of(width, rows)


# What is told of a text's characters, each with the ranges that it is told of.
RIGHT_TO_LEFT = """0590-08FF FB1D-FDCF FDF0-FDFF FE70-FEFE 10800-10FFF 1E800-1EFFF"""
SHAPED = """0900-109F 1100-11FF 1700-18AF 1900-1AAF 1B00-1C4F 1CD0-1CFF A800-A82F A840-A8FF A930-AAFF ABC0-ABFF
  D7B0-D7FF 11000-11FFF"""
JOINING = """0300-036F 0483-0489 1AB0-1AFF 1DC0-1DFF 200C-200D 20D0-20FF 2DE0-2DFF 302A-302F 3099-309A FE20-FE2F
  1F1E6-1F1FF 1F3FB-1F3FF E0020-E007F"""
CONTROLS = "0000-001F 007F-009F"
# What moves the cursor of a terminal, or turns or ends a line there.
STEERING = CONTROLS + " 061C-061C 200E-200F 2028-202E 2066-2069"


def ranges(words):
    """Returns the pairs of first and last code points that a text has."""
    return [tuple(int(it, 16) for it in word.split("-")) for word in words.split()]


TOLD = (
    (ranges(CONTROLS), "is a control character, and drawn as the font has it"),
    (ranges(RIGHT_TO_LEFT), "is written from right to left, but drawn from left to right"),
    (ranges(SHAPED), "is of a script whose letters take other forms beside each other; they are drawn one by one"),
    (ranges(JOINING), "joins the character beside it, but is drawn by itself"),
)
TAB = "U+0009 is a tab, and drawn as the font has it; expand(1) makes blanks of tabs"


def code(character):
    return f"U+{ord(character):04X}"


def told_of_text(text):
    """Returns what is told of the characters of a text, whatever its font."""
    characters = "".join(label_lines(text))
    told = []
    for pairs, words in TOLD:
        for it in characters:
            if any(first <= ord(it) <= last for first, last in pairs):
                told.append(TAB if it == "\t" else f"{code(it)} {words}")
                break
    return told


def told_of_glyphs(errors, fit):
    """Returns what `label` tells of the lines that `draw` told of glyphs and characters, line by line of a text."""
    lines = [it.removeprefix("tt_render: ") for it in errors.decode().splitlines()]
    unfitted = {it[1] for it in map(re.compile(r"glyph (\d+) unfitted: ").match, lines) if it}
    missing = list(dict.fromkeys(it for it in lines if it.endswith(" has no glyph")))
    told = []
    if unfitted:
        count, verb, them = len(unfitted), "glyphs are", "them"
        if count == 1:
            verb, them = "glyph is", "it"
        told = [f"{count} {verb} not fitted; draw --fit {fit} names {them}"]
    return told + missing


def word_at(font, at):
    return struct.unpack_from(">I", font, at)[0]


def place_of(font, face):
    """Returns where the directory of a face is, or None where it is not there."""
    if font[:4] != b"ttcf":
        return 0 if face == 0 else None
    return word_at(font, 12 + 4 * face) if len(font) >= 16 + 4 * face else None


def tags_of(font, face):
    """Returns the tags of a face's directory."""
    at = place_of(font, face)
    if at is None or at + 6 > len(font):
        return set()
    return {font[it : it + 4] for it in range(at + 12, at + 12 + 16 * struct.unpack_from(">H", font, at + 4)[0], 16)}


def table_of(font, face, tag):
    """Returns where the record of a face's table is, and the table."""
    at = place_of(font, face)
    records = range(at + 12, at + 12 + 16 * struct.unpack_from(">H", font, at + 4)[0], 16)
    record = next(it for it in records if font[it : it + 4] == tag)
    begin, size = struct.unpack_from(">II", font, record + 8)
    return record, font[begin : begin + size]


def with_height(font, face, size):
    """Returns a font whose face has lines an em high, by a table at its end; and the rise and the depth, in pixels, that
    the lines had."""
    em = struct.unpack_from(">H", table_of(font, face, b"head")[1], 18)[0]
    record, table = table_of(font, face, b"hhea")
    ascent, descent = struct.unpack_from(">hh", table, 4)
    high = table[:4] + struct.pack(">hh", min(em, 32767), 0) + table[8:]
    moved = font[: record + 8] + struct.pack(">I", len(font)) + font[record + 12 :] + high
    return moved, -(-ascent * size // em), -(descent * size // em)


def shown(word):
    """Returns a word of the command line, as a path, as it is shown."""
    return "".join("?" if any(one <= ord(it) <= last for one, last in ranges(STEERING)) else it for it in word)


VARIABLE = "is a variable font; its default instance is drawn (--instance, --axis; faces lists them)"


def told_of_font(font, face, path):
    """Returns what is told of a font after the first picture; the face is None where none was given."""
    told = []
    if b"fvar" in tags_of(font, face or 0):
        told.append(f"{shown(path)}: {VARIABLE}")
    if font[:4] == b"ttcf" and word_at(font, 8) > 1 and face is None:
        told.append(f"{shown(path)}: is a collection of {word_at(font, 8)} faces; face 0 is drawn (--face N)")
    return told


CFF = "has CFF outlines; TrueType outlines alone are drawn: take the .ttf of the family, or convert it (fontforge)"
BITMAPS = "has bitmaps or colour pictures, but no TrueType outlines"
TYPE1 = "is a Type 1 font; TrueType outlines alone are drawn: convert it (fontforge)"
# How a file begins whose version is none, and what is said of the file.
KINDS = (
    (b"OTTO", CFF),
    (b"wOFF", "is a packed font (WOFF); unpack it first: woff2sfnt"),
    (b"wOF2", "is a packed font (WOFF2); unpack it first: woff2_decompress"),
    (b"typ1", TYPE1),
    (b"%!PS", TYPE1),
    (b"\x80\x01", TYPE1),
    (b"STAR", BITMAPS),
    (b"\x01fcp", BITMAPS),
    (b"\x1f\x8b", "is packed (gzip); unpack it first: gunzip"),
    (b"<", "is no font, but begins like a page of the web"),
    (b"", "is no TrueType font"),
)
PICTURES = b"CBDT", b"sbix", b"EBDT", b"bdat", b"SVG "


def of_no_face(font):
    """Returns what is said of a file that has no face of a number."""
    if font[:4] != b"ttcf":
        return "is no collection: its one face is --face 0"
    faces = word_at(font, 8)
    if not faces:
        return "is a collection without a face"
    return f"is a collection of {faces} faces: --face is 0 to {faces - 1}"


def advice(number, table, font, face):
    """Returns what is said of a font beside a refusal of it."""
    if not font and table == "file":
        return "is empty"
    if number == 1:
        at = place_of(font, face)
        return next(words for start, words in KINDS if font[at : at + 4].startswith(start))
    if number == 24:
        return "is a collection of a version that is not read"
    if number == 25:
        return of_no_face(font)
    if number in (3, 8):
        tags = tags_of(font, face)
        if tags & {b"CFF ", b"CFF2"}:
            return CFF
        if number == 3:
            return BITMAPS if tags & set(PICTURES) else f"lacks the table '{table}'"
    if number == 10:
        return "has no character map that is read"
    if number in (2, 4):
        return "is cut off or damaged"
    if number in (17, 18, 21, 22, 23):
        return "has a glyph beyond what is drawn"
    if 30 <= number <= 50:
        return "has a program for fitting that is refused; --fit best draws it"
    return f"is damaged in its table '{table}'"


# What is said beside a refusal of a job or a text, by its number.
OF_JOB = {
    60: "--size is 1 to 300 pixels per em, not {size}",
    61: "a text has at most 4096 characters",
    63: "a picture has at most 16384 columns and 4096 rows",
    64: "--margin is 0 to 64 pixels, not {margin}",
    65: "the glyphs of this text are too much work at once",
}


def second_line(first, font, face, path, size, margin):
    """Returns the line behind `tt_render: ` that follows a refusal's first line, or None."""
    head, line = re.fullmatch(r"(line \d+: )?(.*)", first).groups()
    found = re.fullmatch(r"(.{4})\+\d+: (\d+) \w+", line)
    if found:
        return f"{shown(path)}: {advice(int(found[2]), found[1], font, face)}"
    found = re.fullmatch(r"(\d+) \w+", line)
    if found:
        return (head or "") + OF_JOB[int(found[1])].format(size=size, margin=margin)
    if line == "not UTF-8":
        return f"{head}the lines have to be UTF-8; iconv(1) changes other encodings"
    return None
