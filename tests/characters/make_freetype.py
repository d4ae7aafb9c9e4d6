#!/usr/bin/env python3
"""Makes freetype.txt: the glyphs of all characters of 60 fonts, of four of Wine, of one with selectors of variations, and
of each face of collections, by FreeType, which shares no code with tt_render. Of Wine three have symbol maps alone.

  apt-get install fonts-dejavu-core fonts-liberation fonts-liberation2 fonts-freefont-ttf fonts-lato fonts-noto-core \\
    fonts-open-sans fonts-croscore fonts-wine fonts-ipamj-mincho fonts-wqy-microhei fonts-wqy-zenhei fonts-arphic-uming \\
    fonts-arphic-ukai libfreetype-dev pkg-config
  /usr/bin/python3 tests/characters/make_freetype.py > tests/characters/freetype.txt

The file in the repository was made with FreeType 2.12.1 (Debian's libfreetype-dev 2.12.1+dfsg-5+deb12u4).
"""
import hashlib
import itertools
import pathlib
import subprocess
import tempfile
import zlib

HERE = pathlib.Path(__file__).parent
FONTS = pathlib.Path("/usr/share/fonts/truetype")
HEAD = """\
# Written by make_freetype.py: a line `font MD5 FACE KIND PATH`, where FACE is a number, or `-` of a font alone; KIND is
# `symbol` where FreeType chose no map itself. Then one line for each 4,096 characters that have glyphs: the first of
# the characters, how many of them have a glyph, and the CRC-32 of their lines, those of `map` without advances. A line
# `pairs` has the same of characters with a selector, ordered by the selectors."""
# Of Noto each so many fonts in their order.
OF_NOTO = 6
CHOSEN = """dejavu/DejaVuSans dejavu/DejaVuSans-Bold dejavu/DejaVuSansMono dejavu/DejaVuSansMono-Bold dejavu/DejaVuSerif
  dejavu/DejaVuSerif-Bold liberation/LiberationMono-Regular liberation/LiberationSans-Regular
  liberation/LiberationSans-Italic liberation/LiberationSansNarrow-Regular liberation/LiberationSerif-Regular
  liberation2/LiberationMono-Bold liberation2/LiberationSans-Regular liberation2/LiberationSerif-BoldItalic
  freefont/FreeMono freefont/FreeMonoBold freefont/FreeSans freefont/FreeSansOblique freefont/FreeSerif
  freefont/FreeSerifBold lato/Lato-Regular lato/Lato-Black open-sans/OpenSans-Regular open-sans/OpenSans-CondBold
  croscore/Arimo-Regular croscore/Cousine-Bold croscore/Tinos-Italic noto/NotoSansMath-Regular""".split()
COUNT = 60
WINE = "marlett", "webdings", "wingding", "symbol"
COLLECTIONS = ("wqy/wqy-microhei.ttc", 2), ("wqy/wqy-zenhei.ttc", 3), ("arphic/uming.ttc", 4), ("arphic/ukai.ttc", 4)


def fonts():
    """Yields the path of each font or collection, and how many faces it has, or None."""
    chosen = [FONTS / f"{it}.ttf" for it in CHOSEN]
    noto = [it for it in sorted((FONTS / "noto").glob("*-Regular.ttf")) if it not in chosen]
    chosen += noto[::OF_NOTO][: COUNT - len(chosen)]
    yield from ((it, None) for it in chosen)
    yield from ((pathlib.Path(f"/usr/share/wine/fonts/{it}.ttf"), None) for it in WINE)
    yield FONTS / "ipamj/ipamjm.ttf", None
    yield from ((FONTS / path, count) for path, count in COLLECTIONS)


def block_of(line):
    """Returns the first of the 4,096 characters that a line's is one of, or `pairs`."""
    character, *others = line.split()
    return "pairs" if len(others) > 1 else f"{int(character[2:], 16) & ~0xFFF:04X}"


def compiled(program):
    words = ["pkg-config", "--cflags", "--libs", "freetype2"]
    flags = subprocess.run(words, stdout=subprocess.PIPE, text=True, check=True).stdout.split()
    subprocess.run(["cc", "-O2", "-o", program, HERE / "by_freetype.c", *flags], check=True)
    return program


def main():
    print(HEAD)
    with tempfile.TemporaryDirectory() as room:
        program = compiled(pathlib.Path(room) / "by_freetype")
        for path, count in fonts():
            sum = hashlib.md5(path.read_bytes()).hexdigest()
            for face in range(count or 1):
                said = subprocess.run([program, path, str(face)], stdout=subprocess.PIPE, text=True, check=True).stdout
                kind, *lines = said.splitlines()
                print("font", sum, "-" if count is None else face, kind, path)
                for block, part in itertools.groupby(lines, block_of):
                    part = list(part)
                    text = "".join(f"{it}\n" for it in part)
                    print(f"{block} {len(part)} {zlib.crc32(text.encode()):08x}")


main()
