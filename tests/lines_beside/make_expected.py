#!/usr/bin/env python3
"""Makes expected.txt: what FreeType draws of each line of lines.txt by each font of fonts.txt at 9 to 16 pixels per em,
with steps of its own.

  apt-get install fonts-dejavu-core fonts-liberation fonts-noto-core fonts-lato fonts-open-sans libfreetype-dev \\
    pkg-config
  /usr/bin/python3 tests/lines_beside/make_expected.py

The table in the repository was made with FreeType 2.12.1 (Debian's libfreetype-dev 2.12.1+dfsg-5+deb12u4) from
fonts-dejavu-core 2.37-6, fonts-liberation 1:1.07.4-11, fonts-noto-core 20201225-1, fonts-lato 2.0-2.1 and
fonts-open-sans 1.11-2. by_freetype.c draws, also by our rules; so the table does not depend on tt_render.
"""
import hashlib
import pathlib
import subprocess
import sys
import tempfile

sys.dont_write_bytecode = True
from pictures import CHARACTERS, FONTS, HERE, LINES, MARGIN, SIZES, pictures, sum_of, sum_of_ink, text_of

HEAD = """\
# Made by make_expected.py. A line `font MD5 PATH` stands before those of a font, and then one for each size:
#   SIZE STEPS SUM .. KIND:CHARACTER:SUM ..
# STEPS are FreeType's advances in pixels, a digit to base 36 for each character of lines.txt, in the order of their
# first places. A SUM is of FreeType's picture of a line, in the order of lines.txt, by CRC-32. Then come the
# characters, in hexadecimal, of which our rules make another picture of the same outline; KIND is `chords` where the
# two differ without dropouts too, else `dropouts`, and SUM is that of ours without white columns on the right. Where
# KIND is `hdmx`, FreeType has an advance from the table hdmx, and SUM is the programs', in pixels."""
DIGITS = "0123456789abcdefghijklmnopqrstuvwxyz"


def compiled(program):
    words = ["pkg-config", "--cflags", "--libs", "freetype2"]
    flags = subprocess.run(words, stdout=subprocess.PIPE, text=True, check=True).stdout.split()
    subprocess.run(["cc", "-O2", "-o", program, HERE / "by_freetype.c", *flags], check=True)
    return program


def asked(program, font, size, way, lines):
    words = [program, font, str(size), str(MARGIN), way]
    return subprocess.run(words, input=text_of(lines), stdout=subprocess.PIPE, check=True).stdout


def differences(program, font, size):
    """Yields the characters of which our rules make another picture of FreeType's outline, and how they differ."""
    ways = "freetype", "rules", "plain", "rules_plain"
    drawn = [map(sum_of_ink, pictures(asked(program, font, size, way, CHARACTERS))) for way in ways]
    for character, theirs, ours, plain, ours_plain in zip(CHARACTERS, *drawn):
        if theirs != ours:
            yield f"{'dropouts' if plain == ours_plain else 'chords'}:{ord(character):x}:{ours}"


def line_of(program, font, size):
    steps = asked(program, font, size, "steps", [CHARACTERS]).decode().split()
    digits = "".join(DIGITS[int(it.split("/")[0])] for it in steps)
    sums = [sum_of(it) for it in pictures(asked(program, font, size, "freetype", LINES))]
    of_tables = [f"hdmx:{ord(c):x}:{it.split('/')[1]}" for c, it in zip(CHARACTERS, steps) if "/" in it]
    return " ".join([str(size), digits, *sums, *of_tables, *differences(program, font, size)])


def main():
    with tempfile.TemporaryDirectory() as room, open(HERE / "expected.txt", "w", encoding="utf-8") as out:
        program = compiled(pathlib.Path(room) / "by_freetype")
        print(HEAD, file=out)
        for font in FONTS:
            print(f"font {hashlib.md5(pathlib.Path(font).read_bytes()).hexdigest()} {font}", file=out)
            for size in SIZES:
                print(line_of(program, font, size), file=out)


main()
