"""Makes by_freetype.txt: the parts of the pictures that FreeType makes of some characters, for each TrueType font below
/usr/share/fonts that is of one of the packages of ../real_fonts/install.

    apt-get install libfreetype-dev pkg-config
    tests/real_fonts/install
    python3 tests/dots/make_expected.py >tests/dots/by_freetype.txt

A line is

    FONT MD5 KINDS PARTS ..

KINDS has a letter for each character of connected.py: f where a program fits the glyph, u where none does but the font
has programs, n where it has none, and - where the font lacks the character. Then there is for each size a word with a
digit for each character: the parts of the picture, 9 at most.

The table in the repository was made with FreeType 2.12.1 (Debian's libfreetype-dev 2.12.1+dfsg-5+deb12u4).
"""
import hashlib
import pathlib
import subprocess
import tempfile

import connected

HERE = pathlib.Path(__file__).resolve().parent


def kind_of(programs, drawn):
    if drawn is None:
        return "-"
    return ("f" if programs.has(drawn[0]) else "u") if programs.of_font else "n"


def main():
    with tempfile.TemporaryDirectory() as room:
        flags = subprocess.run(["pkg-config", "--cflags", "--libs", "freetype2"], capture_output=True, text=True, check=True)
        peer = f"{room}/freetype"
        subprocess.run(["cc", "-O1", "-o", peer, HERE / "pictures_by_freetype.c", *flags.stdout.split()], check=True)
        print("# Made by make_expected.py, whose head says what a line holds.")
        for font in sorted(map(str, pathlib.Path("/usr/share/fonts/truetype").rglob("*.ttf"))):
            data = pathlib.Path(font).read_bytes()
            drawn = connected.drawn_by_freetype(peer, font, connected.SIZES)
            programs = connected.Programs(data)
            kinds = "".join(kind_of(programs, it) for it in drawn[0])
            if not kinds.strip("-"):
                continue
            counts = ["".join(str(min(9, connected.parts(it[1]))) if it else "-" for it in row) for row in drawn]
            print(font, hashlib.md5(data).hexdigest(), kinds, *counts)


main()
