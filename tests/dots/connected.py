"""The connected parts of pictures of characters. Pixels that touch by a side or a corner are of one part. A picture is a
set of places (column, row), counted from the origin to the right and up."""
import subprocess

TEXT = "ij!?:;%éñüçå"
SIZES = 8, 9, 10, 11, 12
# Here no part is lost, and no two parts touch.
LARGE = 120


def parts(picture):
    """Counts the parts of a picture."""
    left, count = set(picture), 0
    while left:
        count += 1
        front = [left.pop()]
        while front:
            column, row = front.pop()
            around = {(c, r) for c in range(column - 1, column + 2) for r in range(row - 1, row + 2)} & left
            left -= around
            front += around
    return count


def picture(rows, column, top):
    """The picture of rows of hexadecimal digits, which begins at a column and ends below a row."""
    bits = [(int(it, 16), 4 * len(it)) for it in rows if it]
    return {(column + x, top - 1 - y) for y, (row, wide) in enumerate(bits) for x in range(wide) if row >> (wide - 1 - x) & 1}


def drawn(program, font, size, text=TEXT, fit="best"):
    """The picture of each character of a text as `bdf` draws it; None where the font lacks the character."""
    words = [program, "bdf", "--size", str(size), "--fit", fit, "--", font, text]
    lines = subprocess.run(words, capture_output=True).stdout.decode("latin-1").splitlines()
    found, at = {}, 0
    for at, line in enumerate(lines):
        if line.startswith("ENCODING "):
            code = int(line[9:])
            wide, high, left, low = map(int, lines[at + 3].split()[1:])
            found[code] = picture(lines[at + 5 : at + 5 + high], left, low + high)
    return [found.get(ord(it)) for it in text]


def drawn_by_freetype(program, font, sizes, text=TEXT):
    """The glyph and the picture of each character at each size by pictures_by_freetype.c, or None."""
    words = [program, font, *(f"{ord(it):x}" for it in text)]
    said = subprocess.run(words, input=" ".join(map(str, sizes)), capture_output=True, text=True, check=True).stdout

    def read(line):
        if line == "-":
            return None
        glyph, left, top, rows = line.split(" ")
        return int(glyph), picture(rows.split(","), int(left), int(top))

    pictures = [read(it) for it in said.splitlines()]
    return [pictures[at : at + len(text)] for at in range(0, len(pictures), len(text))]


class Programs:
    """Which glyphs of a font have programs."""

    def __init__(self, data):
        count = int.from_bytes(data[4:6], "big")
        entries = [data[12 + 16 * it : 28 + 16 * it] for it in range(count)]
        places = {it[:4]: (int.from_bytes(it[8:12], "big"), int.from_bytes(it[12:], "big")) for it in entries}
        self.tables = {tag: data[start : start + length] for tag, (start, length) in places.items()}
        self.of_font = bool({b"prep", b"fpgm"} & {*self.tables})

    def glyph(self, glyph):
        """The bytes of a glyph."""
        size, factor = (4, 1) if self.tables[b"head"][51] else (2, 2)
        loca = self.tables[b"loca"]
        start, end = (int.from_bytes(loca[size * it : size * it + size], "big") * factor for it in (glyph, glyph + 1))
        return self.tables[b"glyf"][start:end]

    def has(self, glyph, depth=0):
        """Whether a glyph or one of its components has a program, and the font one of the first two."""
        data = self.glyph(glyph) if self.of_font and depth < 8 else b""
        if len(data) < 10:
            return False
        word = lambda at: int.from_bytes(data[at : at + 2], "big")
        if not word(0) & 0x8000:
            return word(10 + 2 * word(0)) > 0
        at = 10
        while True:
            flags = word(at)
            if flags & 0x100 or self.has(word(at + 2), depth + 1):
                return True
            at += 4 + (4 if flags & 1 else 2) + (2 if flags & 0x8 else 4 if flags & 0x40 else 8 if flags & 0x80 else 0)
            if not flags & 0x20:
                return False
