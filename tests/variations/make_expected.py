#!/usr/bin/env python3
"""Makes by_freetype.txt: variable fonts at instances, as FreeType has them.

  tests/real_fonts/install
  apt-get install libfreetype-dev gcc pkg-config
  python3 tests/variations/make_expected.py > tests/variations/by_freetype.txt

The file in the repository was made with FreeType 2.12.1 (Debian's libfreetype6 2.12.1+dfsg-5+deb12u4).
"""
import hashlib
import subprocess
import sys
import tempfile
from concurrent.futures import ThreadPoolExecutor
from pathlib import Path

sys.dont_write_bytecode = True
TESTS = Path(__file__).resolve().parents[1]
sys.path[:0] = [str(TESTS / it) for it in ("damaged", "characters")]
from places import CHARACTERS, SIZES, fonts, option_of, places_of, sum_of_ink, sum_of_outline

HEAD = """\
# Written by make_expected.py: what FreeType 2.12.1 makes of variable fonts at instances, by its interpreter 35. A line
# `font MD5 PATH`, then a line for each instance:
#   SIZE AXES COORDINATES ASCENT,DESCENT STEPS SUMS
# AXES is a text of --axis. COORDINATES are in 1/65536. STEPS has a digit of base 36 for each character, its advance in
# pixels, and SUMS eight hexadecimal digits: a sum of its outline, and one of its picture, as places.py makes them."""
DIGITS = "0123456789abcdefghijklmnopqrstuvwxyz"


def compiled(room):
    path, source = Path(room, "by_freetype"), Path(__file__).with_name("by_freetype.c")
    words = ["pkg-config", "--cflags", "--libs", "freetype2"]
    flags = subprocess.run(words, capture_output=True, text=True, check=True).stdout.split()
    subprocess.run(["cc", "-O2", "-Wall", "-o", path, source, *flags], check=True)
    return path


def sums_of(line):
    """Returns the step of a glyph and the sums of its outline and of its picture."""
    _, step, ends, points, left, top, rows = line.split()
    found = [tuple(map(int, it.split(","))) for it in points.split(";") if it not in ("", "-")]
    bits = ["".join(f"{int(it, 16):04b}" for it in row) for row in rows.split(",") if row not in ("", "-")]
    return DIGITS[int(step)], sum_of_outline(ends, found) + sum_of_ink(bits, int(left), int(top))


def line_of(program, path, fvar, size, places):
    """Returns the line of an instance."""
    words = [program, path, str(size), ",".join(map(str, places)), *(f"{ord(it):x}" for it in CHARACTERS)]
    said = subprocess.run(words, capture_output=True, text=True, check=True).stdout.splitlines()
    coordinates, ascent, descent, _ = said[0].split()
    steps, sums = zip(*map(sums_of, said[1:]))
    return f"{size} {option_of(fvar, places)} {coordinates} {ascent},{descent} {''.join(steps)} {''.join(sums)}"


def main():
    print(HEAD)
    with tempfile.TemporaryDirectory() as room, ThreadPoolExecutor() as pool:
        program = compiled(room)
        for path in fonts():
            fvar, places = places_of(path)
            print("font", hashlib.md5(path.read_bytes()).hexdigest(), path)
            sizes = [SIZES[at % len(SIZES)] for at in range(len(places))]
            print(*pool.map(lambda it: line_of(program, path, fvar, *it), zip(sizes, places)), sep="\n")


main()
