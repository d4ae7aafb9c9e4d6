"""Asks the program for the glyphs of characters, and compares its lines with those of plain.py, and those of the real
fonts with what fontTools and FreeType read, too. `run` calls it with the path of the program and the part that is
asked, and says at its head what the parts are.

Prints a line for each font, `PASSED FAILED NAME`, with numbers of characters, and behind it lines that begin with two
blanks, which say what was other.
"""
import hashlib
import itertools
import pathlib
import re
import subprocess
import sys
import zlib

import generated
import wide
from plain import Characters, Refused

HERE = pathlib.Path(__file__).parent
sys.path.append(str(HERE.parent / "damaged"))
from face import Tables

SURROGATES = range(0xD800, 0xE000)
# No word of a command line holds U+0000.
PLANE_0 = [it for it in range(1, 0x10000) if it not in SURROGATES]
PLANE_1 = list(range(0x10000, 0x20000))
MOST = 4096
# Cases of ../rows whose cmaps are damaged.
DAMAGED = (
    "test_font",
    "a_0_in_the_glyph_array_stays_0",
    "three_segments_with_one_end_code",
    "groups_before_segments",
    "five_groups_with_gaps",
    "groups_for_unicode_first_of_both",
    "records_of_groups_out_of_the_table",
)


def answers(program, font, characters):
    """Returns the lines of `map`; where it refused, what it said in the place of each."""
    text = "".join(map(chr, characters)).encode()
    ran = subprocess.run([program, "map", "--", font, text], stdin=subprocess.DEVNULL, capture_output=True)
    if ran.returncode or ran.stderr:
        return [f"status {ran.returncode}: {ran.stderr.decode(errors='replace').strip()}"] * len(characters)
    return ran.stdout.decode(errors="replace").splitlines()


def compare(name, font, characters, answered, line):
    """Prints for how many characters the program's line is that of `line`, and at most six others."""
    pairs = itertools.zip_longest(map(line, characters), answered)
    others = [f"  wanted {wanted}, got {got}" for wanted, got in pairs if wanted != got]
    print(len(characters) - len(others), len(others), name, font)
    print(*others[:6], sep="\n", end="\n" * bool(others))


def whole(program, font, characters):
    """Returns the lines of all the characters, at most 4,096 a call."""
    parts = (characters[at : at + MOST] for at in range(0, len(characters), MOST))
    return [line for part in parts for line in answers(program, font, part)]


def all_planes(known):
    return PLANE_0 + PLANE_1 if known.format == 12 else PLANE_0


def edges(ranges):
    """Returns the first and the last character of each range, one before and one behind, and some that lie apart."""
    found = {it for start, end, *_ in ranges for it in (start - 1, start, end, end + 1)}
    found |= {1, 0x41, 0xFFFE, 0xFFFF, 0x10000, 0x10041, 0x10FFFF}
    return sorted(it for it in found if 0 < it < 0x110000 and it not in SURROGATES)


def rows():
    """Yields the name and the font of each case of ../rows that `map` answers, a cmap once."""
    seen, test_font = set(), None
    for line in (HERE.parent / "rows/map.txt").read_text(encoding="utf-8").splitlines():
        words = line.split()
        if words[0] == "font":
            test_font = bytes.fromhex(words[1])
            yield "test_font", test_font
        elif words[0] != "#" and words[3] == "0" and words[1] != "whole":
            font = bytes.fromhex(words[1])
            cmap = Characters(font).cmap
            if cmap not in seen:
                yield words[0], font
            seen.add(cmap)


def ask_worked(program, room):
    for name, font in rows():
        known = Characters(font)
        if known.format == 12 or len(known.ranges) > 1:
            room.write_bytes(font)
            characters = PLANE_0 + [it for it in edges(known.ranges) if it > 0xFFFF]
            compare(name, room, characters, whole(program, room, characters), known.line)


def ask_generated(program, room):
    for name, font in generated.fonts(dict(rows())["test_font"]):
        known = Characters(font)
        room.write_bytes(font)
        characters = edges(known.ranges)
        compare(name, room, characters, whole(program, room, characters), known.line)


def damaged(cmap):
    """Yields the cmap cut at every length, and with each byte in turn 00, FF, and its lowest bit turned."""
    for at, byte in enumerate(cmap):
        yield f"cut to {at} bytes", cmap[:at]
        for other in sorted({0, 0xFF, byte ^ 1} - {byte}):
            yield f"with {other:02X} at {at}", cmap[:at] + bytes([other]) + cmap[at + 1 :]


def ask_damaged(program, room):
    fonts = dict(rows())
    for name in DAMAGED:
        for damage, cmap in damaged(Characters(fonts[name]).cmap):
            room.write_bytes(generated.with_cmap(fonts[name], cmap))
            try:
                line = Characters(room.read_bytes()).line
            except Refused as it:
                refused = f"status 1: tt_render: {it}"
                line = lambda _: refused
            characters = list(map(ord, "@ABCDKM\u0141\uFFFF😀😁"))
            compare(f"{name} {damage}", room, characters, whole(program, room, characters), line)


def fonttools():
    """Yields each font of fonttools.txt with its sum and the glyphs that fontTools read."""
    path, sum, glyphs = None, None, {}
    for line in [*(HERE / "fonttools.txt").read_text(encoding="utf-8").splitlines(), "font - -"]:
        words = line.split()
        if words[0] == "font":
            if path:
                yield path, sum, glyphs
            sum, path, glyphs = *words[1:3], {}
        elif words[0] != "#":
            first, last, glyph = int(words[0], 16), int(words[1], 16), int(words[2])
            glyphs.update((it, glyph + it - first) for it in range(first, last + 1))


def ask_real(program, room):
    for path, sum, glyphs in fonttools():
        font = pathlib.Path(path)
        if not font.exists():
            print(f"skipped real: {path} is not here; tests/real_fonts/install installs it")
            continue
        if hashlib.md5(font.read_bytes()).hexdigest() != sum:
            print(0, 1, f"{path} is not the version of fonttools.txt")
            continue
        known = Characters(font.read_bytes())
        characters = all_planes(known)
        answered = whole(program, path, characters)
        compare("by the plain search", path, characters, answered, known.line)
        read = [" ".join(it.split()[:2]) for it in answered]
        compare("by fontTools", path, characters, read, lambda it: f"U+{it:04X} {glyphs.get(it, 0)}")


def freetype():
    """Yields each font of freetype.txt: its sum, its face or None, the kind of its map, its path, and for the first of
    4,096 characters, or for `pairs`, how many have a glyph, and the sum of their lines."""
    for part in (HERE / "freetype.txt").read_text(encoding="utf-8").split("\nfont ")[1:]:
        first, *blocks = part.splitlines()
        md5, face, kind, path = first.split()
        words = (it.split() for it in blocks)
        yield md5, None if face == "-" else face, kind, path, {at: (int(n), crc) for at, n, crc in words}


def compare_block(name, program, words, path, block, wanted):
    """Compares the lines of characters that have glyphs, all 4,096 by their sum, and where that is another names some
    others by wide.py."""
    first = int(block, 16)
    characters = [it for it in range(max(first, 1), first + 4096) if it not in SURROGATES and not wide.is_selector(it)]
    text = "".join(map(chr, characters)).encode()
    ran = subprocess.run([program, "map", *words, "--", path, text], stdin=subprocess.DEVNULL, capture_output=True)
    lines = re.findall(rb"^(U\+\w+ [1-9]\d*) \d+\n", ran.stdout, re.M)
    count = ran.stdout.count(b"\n")
    got = len(lines), f"{zlib.crc32(b''.join(it + bytes([10]) for it in lines)):08x}"
    if count == len(characters) and not ran.stderr and not ran.returncode and got == wanted:
        return len(characters)
    print(0, len(characters), name, path)
    print(f"  U+{block} and more: wanted {wanted}, got {got}, {ran.stderr[:200]!r}")
    known = wide.Map(table_of(path, words), 0x10000)
    others = [it for it in lines if int(it.split()[1]) != known.glyph(int(it.split()[0][2:], 16))]
    print(*[f"  other than by the plain search: {it.decode()}" for it in others[:3]], sep="\n", end="\n" * bool(others))
    return 0


def compare_pairs(name, program, words, path, wanted):
    """Compares the lines of characters with a selector, all of a font by their sum."""
    pairs, lines = list(wide.Map(table_of(path, words), 0x10000).pairs()), []
    for at in range(0, len(pairs), MOST // 2):
        text = "".join(chr(it) for pair in pairs[at : at + MOST // 2] for it in pair).encode()
        ran = subprocess.run([program, "map", *words, "--", path, text], stdin=subprocess.DEVNULL, capture_output=True)
        lines += re.findall(rb"^(U\+\w+ U\+\w+ [1-9]\d*) \d+\n", ran.stdout, re.M)
    got = len(lines), f"{zlib.crc32(b''.join(it + bytes([10]) for it in lines)):08x}"
    if got == wanted:
        return len(pairs)
    print(0, len(pairs), name, path)
    print(f"  characters with selectors: wanted {wanted}, got {got}")
    return 0


def table_of(path, words):
    """Returns the cmap of a font, or of a face of it."""
    return Tables(pathlib.Path(path).read_bytes(), int(words[1]) if words else None).cmap


def ask_wide(program, _):
    for md5, face, kind, path, blocks in freetype():
        font = pathlib.Path(path)
        readings = [["--face", face or "0"]] + [[]] * (face is None and kind == "unicode")
        name = f"by FreeType, face {face or 'of a font alone'}"
        if not font.exists():
            print(f"skipped {name}: {path} is not installed")
        elif hashlib.md5(font.read_bytes()).hexdigest() != md5:
            print(0, 1, f"{path} is not the version of freetype.txt")
        else:
            for words in readings:
                told = f"{name}, {' '.join(words) or 'strict'}"
                pairs = [it for block, it in blocks.items() if block == "pairs" and words]
                good = [compare_pairs(told, program, words, path, it) for it in pairs]
                of_characters = [it for it in blocks.items() if it[0] != "pairs"]
                good += [compare_block(told, program, words, path, *it) for it in of_characters]
                print(sum(good), 0, told, path)


def main():
    program, part, room = sys.argv[1:]
    ask = {"worked": ask_worked, "damaged": ask_damaged, "generated": ask_generated, "real": ask_real}
    ask["wide"] = ask_wide
    ask[part](program, pathlib.Path(room))


if __name__ == "__main__":
    main()
