"""Files of bitmaps as other programs read them: FreeType, bdftopcf, bdf2psf."""
import shutil
import struct
import subprocess
from pathlib import Path

import common
from drawn import Glyph

HERE = Path(__file__).resolve().parent
# The sets of characters and of alike ones that bdf2psf brings with it.
SETS = Path("/usr/share/bdf2psf")


class FreeType:
    """The program by_freetype.c, or why there is none."""

    def __init__(self, room):
        self.path, self.why = room / "by_freetype", ""
        for it in ("cc", "pkg-config"):
            if not shutil.which(it):
                self.why = f"{it} is not here"
                return
        found = subprocess.run(["pkg-config", "--cflags", "--libs", "freetype2"], capture_output=True, text=True)
        words = ["cc", "-O1", "-Wall", "-Wextra", "-Werror", "-o", self.path, HERE / "by_freetype.c"]
        if found.returncode:
            self.why = "libfreetype-dev is not here"
        else:
            status, _, said = common.run([*words, *found.stdout.split()])
            common.verdict("by_freetype.c", [said.decode()[:800]] * (status != 0))
            self.why = "by_freetype.c is not compiled" * (status != 0)

    def characters(self, file):
        """Returns the glyphs of a file by their code points, or what is wrong."""
        status, said, errors = common.run([self.path, file])
        if status:
            return f"status {status}: {errors.decode()}"
        return {int(it.split()[0]): glyph_of(*it.split()[1:]) for it in said.decode().splitlines()}


def glyph_of(*words):
    """Returns a glyph that FreeType printed."""
    advance, left, top, width, height = map(int, words[:5])
    if words[5] == "-":
        return Glyph(0, advance, 0, 0, 0, 0, ())
    size = 2 * ((width + 7) // 8)
    rows = [int(words[5][it : it + size], 16) >> 4 * size - width for it in range(0, len(words[5]), size)]
    return Glyph(0, advance, left, top, width, height, tuple(rows))


def lacks_psf():
    """Returns why no console font can be made here, or nothing."""
    if not shutil.which("bdf2psf"):
        return "bdf2psf is not here"
    return "" if SETS.is_dir() else f"{SETS} is not here"


def made_by(words):
    """Returns what is wrong with a run of a program that makes a file."""
    status, _, errors = common.run(words)
    return [f"{words[0]}: status {status}: {errors.decode()[:400]}"] if status else []


def psf(file, made):
    """Makes a console font of a file, and returns what is wrong."""
    sets = SETS / "standard.equivalents", SETS / "ascii.set", "256", made
    return made_by(["bdf2psf", "--fb", file, *sets])


def console_characters(data):
    """Returns width and height of the cells of a console font, and rows by characters."""
    if data[:2] == b"\x36\x04":
        head, count, size, height, width = 4, 512 if data[2] & 1 else 256, data[3], data[3], 8
        split, ends = lambda it: it.decode("utf-16-le"), (b"\xff\xff", b"\xfe\xff")
    else:
        _, _, head, _, count, size, height, width = struct.unpack_from("<8I", data)
        split, ends = bytes.decode, (b"\xff", b"\xfe")
    names, found = data[head + count * size :], {}
    step = (width + 7) // 8
    for at in range(count):
        cell = data[head + at * size :][:size]
        rows = [int.from_bytes(cell[it : it + step], "big") >> 8 * step - width for it in range(0, size, step)]
        own, names = ended(names, *ends)
        found.update((it, tuple(rows)) for it in split(own))
    return width, height, found


def ended(names, end, sequence):
    """Returns the characters of the first glyph of a table, without those of sequences, and the rest of the table."""
    at = next(it for it in range(0, len(names), len(end)) if names[it : it + len(end)] == end)
    own = names[:at]
    cuts = [it for it in range(0, at, len(end)) if own[it : it + len(end)] == sequence]
    return own[: cuts[0]] if cuts else own, names[at + len(end) :]


def cell_of(glyph, width, rise, depth):
    """Returns the rows of a cell with a glyph, cut at its sides."""
    rows = [0] * (rise + depth)
    for at, row in enumerate(glyph.rows, rise - glyph.top):
        shift = width - glyph.left - glyph.width
        if 0 <= at < len(rows):
            rows[at] = (row << shift if shift >= 0 else row >> -shift) & (1 << width) - 1
    return tuple(rows)
