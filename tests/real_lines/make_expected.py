#!/usr/bin/env python3
"""Makes expected.txt, the checksums of pictures of lines of text, by fontTools and the rules that
../outlines/outlines.py states. It shares no code with tt_render.

  apt-get install fonts-dejavu-core fonts-liberation python3-fonttools
  /usr/bin/python3 tests/real_lines/make_expected.py

The file in the repository was made with fontTools 4.38.0 (Debian's python3-fonttools 4.38.0-1+deb12u1) from the fonts
of ../real_fonts/fonts.txt, which takes a minute and a half. To see one picture,

  /usr/bin/python3 tests/real_lines/make_expected.py SIZE MARGIN FONT TEXT >picture.pbm

The rules of a line. The pen of a character is the sum of the advances before it, each scaled and rounded to the nearest
pixel, from halves to the upper. A glyph's left phantom point stands at its pen. The width is the sum of all advances
and two margins; the height is the ascent, the descent, each rounded up to a pixel, and two margins. A pixel is black
where some glyph, by itself, blackens its centre; what lies outside is cut off.
"""
import hashlib
import io
import math
import pathlib
import sys
import unicodedata
from fractions import Fraction
from typing import NamedTuple

from fontTools.ttLib import TTFont

HERE = pathlib.Path(__file__).parent
sys.path.insert(0, str(HERE.parent / "outlines"))
from outlines import Outlines, chords, nearest, picture

FOLDER = "/usr/share/fonts/truetype"
SANS = f"{FOLDER}/dejavu/DejaVuSans.ttf"
SERIF = f"{FOLDER}/dejavu/DejaVuSerif.ttf"
LIBERATION = f"{FOLDER}/liberation/LiberationSans-Regular.ttf"
SIZES = 9, 12, 16, 24, 48
ENGLISH = "The quick brown fox jumps over the lazy dog"
OTHERS = (
    "Ξεσκεπάζω την ψυχοφθόρα βδελυγμία",
    "Съешь же ещё этих мягких французских булок, да выпей чаю",
    "Příliš žluťoučký kůň úpěl ďábelské ódy",
)
OWN = "-"
MOST = 4096


class Case(NamedTuple):
    """A line; the text is repeated, with a blank between, to so many characters, and the font's unitsPerEm replaced."""

    size: int
    margin: int
    font: str
    text: str
    units: int | str = OWN
    characters: int | str = OWN

    def whole_text(self):
        return self.text if self.characters == OWN else (f"{self.text} " * self.characters)[: self.characters]

    def opened(self):
        """Returns the font's path, or a file of it with the other unitsPerEm, which stands at 18 in head."""
        if self.units == OWN:
            return self.font
        data = bytearray(pathlib.Path(self.font).read_bytes())
        at = TTFont(self.font).reader.tables["head"].offset + 18
        data[at : at + 2] = self.units.to_bytes(2, "big")
        return io.BytesIO(data)


def distinct(path):
    """Returns the first 4,096 characters up to U+FFFF, but no controls and blanks, that have glyphs of their own."""
    font, seen = TTFont(path), {}
    for code, name in sorted(font.getBestCmap().items()):
        if code <= 0xFFFF and unicodedata.category(chr(code)) not in ("Cc", "Zs", "Zl", "Zp"):
            seen.setdefault(name, chr(code))
    return "".join(list(seen.values())[:MOST])


def cases():
    """Yields lines to be read, and then large ones."""
    for font in SANS, SERIF, LIBERATION:
        for size in SIZES:
            yield Case(size, 0, font, ENGLISH)
    for text in OTHERS:
        yield Case(16, 2, SANS, text)
    # At the largest size. The last has accented letters, which are composites.
    for font in SANS, SERIF, LIBERATION:
        yield Case(300, 0, font, ENGLISH)
    yield Case(300, 64, SANS, OTHERS[2])
    # The longest text: at the least size, at others that keep the picture within 16,384 columns, of one glyph alone,
    # and without a glyph that stands twice.
    yield Case(1, 0, SANS, ENGLISH, characters=MOST)
    yield Case(4, 0, SERIF, ENGLISH, characters=MOST)
    yield Case(8, 5, LIBERATION, ENGLISH, characters=MOST)
    yield Case(6, 0, SANS, "g" * MOST)
    yield Case(3, 1, SANS, distinct(SANS))
    # 16,384 columns; 4,096 rows; and both, in letters of 2,200 rows and more.
    yield Case(300, 54, LIBERATION, ENGLISH, characters=118)
    yield Case(300, 61, SANS, "g", units=180)
    yield Case(300, 27, SANS, "ǼQRawŵ", units=177)


HEAD = """\
# Written by make_expected.py: the SHA-256 of the P4 file of a line, the size and the margin in pixels, unitsPerEm and
# how many characters the text is repeated to (- where the font and the text are as they stand), the font, the text."""


def edges_of(outlines, glyph, pen):
    """Returns a glyph's edges in 1/8192 pixel, with its left phantom point at a pen in pixels."""
    points, ends, phantom = outlines.outline(glyph)
    dx = 64 * pen - phantom[0][0]
    return [edge for start, end in zip([0, *ends], ends) for edge in chords(points[start:end], dx)]


def stretches(edges, y):
    """Yields what is black at a height: from where to where, both included, in 1/8192 pixel.

    A place on an edge is black. Between two neighbouring crossings the winding number is the sum of the turns to the
    left; an edge counts from its lower end to its upper, of which the latter is left out.
    """
    turns = []
    for (ax, ay), (bx, by) in edges:
        if ay == by == y:
            yield min(ax, bx), max(ax, bx)
        if ay == by or not min(ay, by) <= y <= max(ay, by):
            continue
        x = ax + Fraction((y - ay) * (bx - ax), by - ay)
        yield x, x
        if y < max(ay, by):
            turns.append((x, 1 if ay < by else -1))
    turns.sort()
    winding = 0
    for (x, turn), (next_x, _) in zip(turns, turns[1:]):
        winding += turn
        if winding != 0:
            yield x, next_x


def blacken(rows, width, margin, rise, edges):
    """Blackens what the edges of one glyph cover. A row is a number whose lowest bit is column 0."""
    for r in range(len(rows)):
        for low, high in stretches(edges, 8192 * (rise + margin - r) - 4096):
            first = max(0, margin + math.ceil(Fraction(low - 4096, 8192)))
            past = min(width, margin + math.floor(Fraction(high - 4096, 8192)) + 1)
            if first < past:
                rows[r] |= (1 << past) - (1 << first)


def glyphs_of(font, text):
    names = font.getBestCmap()
    return [font.getGlyphID(names[ord(it)]) if ord(it) in names else 0 for it in text]


def p4(rows, width):
    stride = (width + 7) // 8
    bits = (f"{row:0{width}b}"[::-1].ljust(8 * stride, "0") for row in rows)
    return f"P4\n{width} {len(rows)}\n".encode() + b"".join(int(it, 2).to_bytes(stride, "big") for it in bits)


def extent(font, size):
    """Returns how many rows there are above the base line, and below it."""
    em, hhea = font["head"].unitsPerEm, font["hhea"]
    return -(-hhea.ascent * size // em), -(hhea.descent * size // em)


def drawn(size, margin, file, text):
    """Returns the P4 file of a line; the font is a path, or a file that is open."""
    font = TTFont(file)
    outlines, glyphs = Outlines(font, size), glyphs_of(font, text)
    widths = [nearest(font["hmtx"][font.getGlyphName(it)][0] * size, font["head"].unitsPerEm) for it in glyphs]
    width = sum(widths) + 2 * margin
    rise, depth = extent(font, size)
    rows = [0] * (rise + depth + 2 * margin)
    for it, glyph in enumerate(glyphs):
        blacken(rows, width, margin, rise, edges_of(outlines, glyph, sum(widths[:it])))
    return p4(rows, width)


def try_stretches(size, path, text):
    """Compares the stretches with the definition, which is asked of each centre, for each glyph of a text."""
    font = TTFont(path)
    outlines, (rise, depth) = Outlines(font, size), extent(font, size)
    width = 2 * size
    for glyph in set(glyphs_of(font, text)):
        rows = [0] * (rise + depth + 2)
        blacken(rows, width, 1, rise, edges_of(outlines, glyph, 0))
        asked = picture(outlines.outline(glyph), width, len(rows), 1, rise)
        assert [f"{row:0{width}b}"[::-1].replace("0", ".").replace("1", "#") for row in rows] == asked, (path, glyph)


def main():
    if len(sys.argv) > 1:
        size, margin, path, text = sys.argv[1:]
        sys.stdout.buffer.write(drawn(int(size), int(margin), path, text))
        return
    known = (HERE.parent / "real_fonts/fonts.txt").read_text(encoding="utf-8")
    with open(HERE / "expected.txt", "w", encoding="utf-8") as out:
        print(HEAD, file=out)
        for case in cases():
            assert hashlib.md5(pathlib.Path(case.font).read_bytes()).hexdigest() in known, f"another {case.font}"
            if case.size <= 16:
                try_stretches(case.size, case.font, case.text)
            picture = drawn(case.size, case.margin, case.opened(), case.whole_text())
            size, margin, font, text, units, characters = case
            print(hashlib.sha256(picture).hexdigest(), size, margin, units, characters, font, text, file=out)


if __name__ == "__main__":
    main()
