"""The parts of printers/run with the fonts of Debian that are installed, beside the model of breaking.py."""
import re
import shutil
import subprocess

import breaking
import cases
import common
import model
import small
from breaking import in_box, in_width
from installed import FRONT, fonts
from labels import lines_of

WIDTH, HEIGHT = 384, 120
SENTENCE = "Fragile: handle with care, this side up! Shelf 12-b, box 3 (of 7): 1,234 + 56.789 = 3/4"
LETTERS = "Ame\u0301lie nai\u0308ve A\u030angstro\u0308m Vie\u0323\u0302t \u1112\u1161\u11ab s\u030c\u0301"
MARGINS = 0, 3, 16
# Of how many fonts one has a box beside the model, which asks for many sizes.
BOXES = 16
# The box of files in PNG.
LOW = "384x80"


class Face:
    """A face of an installed font: its lines, measured and drawn alone, each once."""

    def __init__(self, asked, path, kern=False):
        self.asked, self.path, self.kern, self.known = asked, path, ["--kern"] * kern, {}
        with open(path, "rb") as opened:
            self.front = opened.read(FRONT)

    def said(self, command, size, text, *options):
        """Returns what a command answers of a line, as `label` takes the line."""
        key = command, size, text, options
        if key not in self.known:
            words = [command, "--size", str(size), "--margin", "1", "--fit", "best", "--face", "0", *options]
            self.known[key] = self.asked.run([*words, "--", self.path, text])
        return self.known[key]

    def drawn(self, size, text):
        """Returns what `draw` answers of a row alone."""
        return self.said("draw", size, text, "--grow", "--missing", "tell", *self.kern)

    def line(self, size, text):
        """Returns a row drawn alone."""
        measured = self.said("measure", size, text, *self.kern)
        return model.line_of(measured[1], self.drawn(size, text)[1], size)

    def units(self, size, text):
        """Returns the units of a line."""
        plain, kerned = (self.said("measure", size, text, "--no-ink", *it)[1] for it in ([], self.kern))
        return breaking.units_of(plain, kerned)

    def rows(self, size, text, room):
        """Returns the rows of a text."""
        return [it for line in model.label_lines(text) for it in breaking.rows_of(self.units(size, line), room)]

    def high(self, size):
        """Returns how many rows of pixels a row of text has."""
        font = re.search(rb"^font (\d+) (-?\d+) (-?\d+) ", self.said("measure", 16, "A", "--no-ink")[1], re.M)
        em, ascent, descent = map(int, font.groups())
        return -(-ascent * size // em) + -(descent * size // em)

    def greatest(self, free):
        """Returns the greatest size that a box tries at which a row is low enough, at least the least one."""
        low = (it for it in range(breaking.GREATEST, breaking.LEAST, -1) if self.high(it) <= free)
        return next(low, breaking.LEAST)

    def rows_in_box(self, size, text, room, free):
        """Returns the rows of a text, and none where they are higher than the box."""
        found = self.rows(size, text, room) if self.high(size) <= free else []
        return found if len(found) * self.high(size) <= free else []

    def told(self, size, rows, text, cut=()):
        """Returns what `label` tells of a text."""
        errors = b"".join(self.drawn(size, it.text)[2] for it in rows)
        told = [*model.told_of_glyphs(errors, "best"), *cut, *model.told_of_text(text)]
        return lines_of(told + model.told_of_font(self.front, None, self.path))


def in_each(asked, name, answered, step=1):
    """Compares two answers for each installed font, or one of some: a function's of a font and its number."""
    found = fonts()[::step]
    for path, (got, wanted) in zip(found, asked.each(answered, found, range(len(found)))):
        common.tried(f"{name} {path}", got, wanted)
    if not found:
        common.skip(name, "no TrueType font is installed")


def width(asked):
    """A sentence with --width in each font: the rows of the model, drawn alone."""

    def answered(path, at):
        face, size, margin = Face(asked, path, at % 4 == 3), 16 + at % 9, MARGINS[at % 3]
        align, text = model.ALIGNS[at // 3 % 3], SENTENCE if at % 5 else SENTENCE.replace(", ", "\n")
        words = ["label", "--size", str(size), "--width", str(WIDTH), "--margin", str(margin), "--align", align]
        rows = face.rows(size, text, WIDTH - 2 * margin)
        picture, cut = in_width([face.line(size, it.text) for it in rows], margin, align, WIDTH)
        return asked.run([*words, *face.kern, "--", path, text]), (0, picture, face.told(size, rows, text, cut))

    in_each(asked, "width", answered)


def box(asked):
    """A sentence with --box in some fonts: the picture of the model, and what is told at its size."""

    def answered(path, at):
        align, margin = model.ALIGNS[at % 3], MARGINS[at // 3 % 3]
        words = ["label", "--box", f"{WIDTH}x{HEIGHT}", "--align", align, "--margin", str(margin)]
        face = Face(asked, path)
        rows_at = lambda size, room, free: face.rows_in_box(size, SENTENCE, room, free)
        picture, size = in_box(rows_at, face.line, margin, align, WIDTH, HEIGHT, face.greatest(HEIGHT - 2 * margin))
        rows = face.rows(size, SENTENCE, WIDTH - 2 * margin)
        return asked.run([*words, "--", path, SENTENCE]), (0, picture, face.told(size, rows, SENTENCE))

    in_each(asked, "box", answered, BOXES)


def composed(asked):
    """Letters with marks, beside the text in which the font's composed characters are written."""

    def answered(path, _):
        text = small.composed(LETTERS, small.has_glyph(asked, [path]))
        return tuple(asked.run(["label", "--size", "16", "--", path, it]) for it in (LETTERS, text))

    in_each(asked, "composed", answered)


def pixels(data):
    """Returns the picture in P4 of a picture in P4 or P5."""
    if data.startswith(b"P4"):
        return data
    _, shape, most, body = data.split(b"\n", 3)
    width, height = map(int, shape.split())
    bits = [[2 * it < int(most) for it in body[at * width : (at + 1) * width]] for at in range(height)]
    return model.picture_of(width, [int("".join("01"[it] for it in row), 2) for row in bits])


def png(asked):
    """Files in PNG in each font, of a size or in a box, beside P4: the file of cases.py, and what pngtopnm makes of the
    file."""
    reads = shutil.which("pngtopnm")

    def answered(path, at):
        space = ["--box", LOW] if at % 2 else ["--size", "16"]
        words, name = ["label", *space, "--margin", "1"], asked.room / f"{at}.png"
        status, picture, told = asked.run([*words, "--", path, SENTENCE])
        got = asked.run([*words, "-o", name, "--", path, SENTENCE])
        if told.startswith(b"tt_render: 71 BoxSmall\n"):
            return (got, b"", b""), ((status, b"", told), b"", b"")
        file = name.read_bytes()
        name.unlink()
        again = subprocess.run([reads], input=file, capture_output=True).stdout if reads else b""
        return (got, file, pixels(again) if reads else picture), ((status, b"", told), cases.png_of(picture), picture)

    found = fonts()
    for path, (got, wanted) in zip(found, asked.each(answered, found, range(len(found)))):
        common.tried(f"png {path}", got[0], wanted[0])
        same = got[1:] == wanted[1:]
        common.verdict(f"file of {path}", [] if same else ["another file, or pngtopnm finds other pixels"])
    if not reads:
        common.skip("png by pngtopnm", "pngtopnm is not here")
