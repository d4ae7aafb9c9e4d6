"""Boxes that `measure` tells beside those of pictures, and grown pictures; see the script `run` beside this file, which
starts it."""
import os
import subprocess
import sys
from pathlib import Path

sys.path.append(str(Path(__file__).resolve().parent.parent / "damaged"))
from face import Tables

PROGRAM = os.environ["TT_RENDER"]
FONTS = Path("/usr/share/fonts/truetype")
# The greatest margin, in which all ink of these lines lies.
WIDE = 64
# A font, and for each way to fit the sizes at which it is measured.
NEAR = ("dejavu/DejaVuSans.ttf", "liberation/LiberationSans-Italic.ttf", "noto/NotoSerif-Italic.ttf", "lato/Lato-Regular.ttf")
TEXTS = ("jolly staff", "Ǻjf gÇ|_", "WAX »q«", " . ", "f")
passed = 0
failed = 0


def verdict(name, why):
    """Counts a case, which failed if `why` says something."""
    global passed, failed
    if why:
        failed += 1
        if failed <= 20:
            print(f"FAILED {name}\n  {why}")
    else:
        passed += 1


def run(*words, stdin=b""):
    """Returns status, standard output and standard error."""
    ran = subprocess.run([PROGRAM, *map(str, words)], input=stdin, capture_output=True, timeout=60)
    return ran.returncode, ran.stdout, ran.stderr


def picture_of(data):
    """Returns width, height and rows of a picture, each row a number whose highest bit is the leftmost pixel."""
    _, shape, bits = data.split(b"\n", 2)
    width, height = map(int, shape.split())
    stride = (width + 7) // 8
    rows = [int.from_bytes(bits[r * stride : (r + 1) * stride], "big") >> (8 * stride - width) for r in range(height)]
    return width, height, rows


def box_of(picture):
    """Returns the least box of the black pixels, left, top, right and bottom, all included; None where none is black."""
    width, _, rows = picture
    inked = [r for r, row in enumerate(rows) if row]
    if not inked:
        return None
    both = 0
    for row in rows:
        both |= row
    left = width - both.bit_length()
    right = width - 1 - ((both & -both).bit_length() - 1)
    return left, inked[0], right, inked[-1]


def moved(box, columns, rows):
    return None if box is None else (box[0] + columns, box[1] + rows, box[2] + columns, box[3] + rows)


def words_of(box):
    return "none" if box is None else " ".join(map(str, box))


def wide(font, size, fit, text):
    """Returns the picture of a text in the greatest margin."""
    status, stdout, stderr = run("draw", "--size", size, "--fit", fit, "--margin", WIDE, font, text)
    return picture_of(stdout) if status == 0 else None


def touches_edge(picture):
    """Tells whether ink may be cut in the greatest margin."""
    box = box_of(picture)
    return box and (box[0] == 0 or box[1] == 0 or box[2] == picture[0] - 1 or box[3] == picture[1] - 1)


def advances_of(font, size, fit, text):
    """Returns glyph and advance in pixels of each character: by `map` and the font's units, or with best by the width
    of its picture, since there the advance is what the glyph's program makes of it."""
    _, stdout, _ = run("map", font, text)
    _, measured, _ = run("measure", "--size", size, "--fit", "none", font, text)
    em = int(measured.split()[1])
    pairs = [tuple(map(int, line.split()[1:])) for line in stdout.decode().splitlines()]
    if fit == "best":
        return [(glyph, wide(font, size, fit, it)[0] - 2 * WIDE) for it, (glyph, _) in zip(text, pairs)]
    return [(glyph, (2 * advance * size + em) // (2 * em)) for glyph, advance in pairs]


def try_measure(font, size, fit, text, margin):
    """A line's measure, by pictures of the line and of each of its characters in the greatest margin."""
    name = f"{font.name} {size} {fit} {text!r} margin {margin}"
    whole = wide(font, size, fit, text)
    status, stdout, stderr = run("measure", "--size", size, "--fit", fit, "--margin", margin, font, text)
    if whole is None or touches_edge(whole):
        return
    glyphs = advances_of(font, size, fit, text)
    lines = stdout.decode().splitlines()
    wanted = []
    width, height = whole[0] - 2 * WIDE + 2 * margin, whole[1] - 2 * WIDE + 2 * margin
    shift = margin - WIDE
    baseline = lines[1].split()[4] if len(lines) > 1 else "?"
    wanted.append(f"picture {width} {height} baseline {baseline} ink {words_of(moved(box_of(whole), shift, shift))}")
    pen = margin
    for character, (glyph, advance) in zip(text, glyphs):
        alone = wide(font, size, fit, character)
        box = moved(box_of(alone), pen - WIDE, shift)
        wanted.append(f"U+{ord(character):04X} {glyph} {pen} {advance} {words_of(box)}")
        pen += advance
    why = None
    if status != 0 or lines[1:] != wanted:
        differ = [(a, b) for a, b in zip(lines[1:], wanted) if a != b]
        why = f"status {status}, {stderr[:200]!r}, {differ[:2] or (len(lines), len(wanted) + 1)}"
    verdict(name, why)


def try_grown(font, size, fit, text, margin):
    """A grown picture is the one in the greatest margin, cut to the plain one's size or to where ink lies past it."""
    name = f"grown: {font.name} {size} {fit} {text!r} margin {margin}"
    whole = wide(font, size, fit, text)
    if whole is None or touches_edge(whole):
        return None
    box = box_of(whole)
    around = WIDE - margin
    left = top = around
    right, bottom = whole[0] - 1 - around, whole[1] - 1 - around
    if box:
        left, top, right, bottom = min(left, box[0]), min(top, box[1]), max(right, box[2]), max(bottom, box[3])
    width, height = right - left + 1, bottom - top + 1
    rows = [(row >> (whole[0] - 1 - right)) & ((1 << width) - 1) for row in whole[2][top : bottom + 1]]
    status, stdout, stderr = run("draw", "--size", size, "--fit", fit, "--margin", margin, "--grow", font, text)
    why = None
    if status != 0:
        why = f"status {status}, {stderr[:200]!r}"
    elif picture_of(stdout) != (width, height, rows):
        why = f"{picture_of(stdout)[:2]}, and not {width} {height}, or other pixels"
    else:
        # The base line moves by the rows above, and the measure of the grown line is that of the plain one moved.
        plain = run("measure", "--size", size, "--fit", fit, "--margin", margin, font, text)[1].split()
        grown = run("measure", "--size", size, "--fit", fit, "--margin", margin, "--grow", font, text)[1].split()
        if int(grown[grown.index(b"baseline") + 1]) - int(plain[plain.index(b"baseline") + 1]) != around - top:
            why = "the base line is not moved by the rows above"
        elif grown[grown.index(b"picture") + 1 :][:2] != [str(width).encode(), str(height).encode()]:
            why = "the measure has another size"
    verdict(name, why)
    return (left, top, right, bottom) != (around, around, whole[0] - 1 - around, whole[1] - 1 - around)


def try_lines(font):
    """Lines measured together, each as alone; and grown ones."""
    texts = [it for it in TEXTS if it.strip()]
    for words in (("measure",), ("measure", "--grow"), ("draw", "--grow")):
        words = [*words, "--size", 20, "--margin", 1, "--fit", "best"]
        together = run(*words, "--lines", font, stdin="".join(f"{it}\n" for it in texts).encode())
        alone = b"".join(run(*words, font, it)[1] for it in texts)
        verdict(f"lines: {font.name} {words}", None if together == (0, alone, b"") else f"{together[0]} {together[2][:200]!r}")


def try_figures(font):
    """The first line: the font's own figures, its line gap last."""
    wanted = f"font {' '.join(map(str, Tables(font.read_bytes(), None).figures()))}"
    got = run("measure", "--size", 16, "--fit", "none", font, "A")[1].decode().split("\n")[0]
    verdict(f"figures: {font.name}", None if got == wanted else f"{got}, and not {wanted}")


def main():
    for name in NEAR:
        font = FONTS / name
        try_figures(font)
        for fit, sizes in (("none", (9, 24, 61)), ("full", (12,)), ("fallback", (16,)), ("best", (9, 24))):
            for size in sizes:
                for text in TEXTS:
                    for margin in (0, 3):
                        try_measure(font, size, fit, text, margin)
                        try_grown(font, size, fit, text, margin)
        try_lines(font)
    fonts, cut = sorted(FONTS.glob("*/*.ttf")), 0
    for font in fonts:
        cut += bool(try_grown(font, 24, "none", "jolly staff", 0))
    verdict("fonts", None if len(fonts) >= 100 and cut >= 50 else f"{len(fonts)} fonts, ink cut in {cut}")
    print(f"measure: {passed} passed, {failed} failed")
    return failed != 0


sys.exit(main())
