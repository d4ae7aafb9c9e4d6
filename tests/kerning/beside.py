"""The parts of kerning/run about steps by fitted glyphs, and beside HarfBuzz, which kerns lines of installed fonts."""
import itertools
import random
import re
import shutil
import subprocess
from pathlib import Path
from typing import NamedTuple

import common
import kerned
import layouts

FOLDER = Path("/usr/share/fonts/truetype")
# Fonts of Debian with kerning, by GPOS, by the table kern, and by GPOS beside kern.
FONTS = [FOLDER / family / f"{name}.ttf" for family, names in {
    "croscore": "Arimo-Regular Arimo-BoldItalic Tinos-Regular Tinos-Italic",
    "dejavu": "DejaVuSans DejaVuSans-Bold DejaVuSans-ExtraLight DejaVuSansCondensed DejaVuSerif DejaVuSerif-Italic",
    "freefont": "FreeSansOblique FreeSerif FreeSerifBold FreeSerifItalic FreeSerifBoldItalic",
    "lato": "Lato-Regular Lato-Black Lato-BlackItalic Lato-Hairline Lato-Italic",
    "liberation": "LiberationSans-Regular LiberationSansNarrow-Regular LiberationSerif-Bold",
    "liberation2": "LiberationSans-Italic LiberationSerif-Regular",
    "noto": """NotoSans-Regular NotoSans-BoldItalic NotoSansDisplay-Bold NotoSansDisplay-Italic NotoSerif-Regular
      NotoSerif-Bold NotoSerifDisplay-Regular NotoSerifDisplay-BoldItalic""",
    "open-sans": """OpenSans-Regular OpenSans-BoldItalic OpenSans-CondBold OpenSans-CondLightItalic OpenSans-ExtraBold
      OpenSans-Light OpenSans-SemiboldItalic""",
}.items() for name in names.split()]
# Every so many of these fonts are tried with best.
STEP = 5
ENGLISH = (
    "AVATAR To. Ty We, P.T. Fjord LT 11.7 w.y (Yo-Yo)",
    "The quick brown fox jumps over the lazy dog. Why? Watts!",
    "Kitchen 2, Shelf 14: 'Tea', \"Wool\", LATVIA, rye & rice",
)
# Random lines, and the characters of each: half of them are often kerned.
LINES, LENGTH = 5, 41
LETTERS, OFTEN = "".join(map(chr, range(0x20, 0x7F))), "AVTWYPLFKaeorvwy.,-'\"17"
SIZES = 16, 300
# What else HarfBuzz does for Latin letters, which is turned off.
OTHERS = "ccmp locl rlig rclt calt clig liga mark mkmk curs dist abvm blwm rvrn".split()


class Shaped(NamedTuple):
    """A line as HarfBuzz has it: its glyphs, how far each next one stands, in font units, and the kerning in that."""

    glyphs: list
    units: list
    kerning: list


def texts():
    """Returns the lines that are tried in each font: English, and pairs by chance."""
    chance = random.Random(61)
    each = lambda: "".join(chance.choice(chance.choice((LETTERS, OFTEN))) for _ in range(LENGTH))
    return [*ENGLISH, *(each() for _ in range(LINES))]


def answered(path, lines, kern):
    """Returns the glyphs of lines and how far from each the next stands, as hb-shape has them, kerned or not. By
    the table kern that program adds half of a value to each of both advances, and moves the second glyph by its half."""
    words = ["hb-shape", "--no-clusters", "--no-glyph-names", "--font-size=upem", "--direction=ltr", "--script=latn",
             "--language=und", f"--features={','.join('-' + it for it in OTHERS)},{kern}kern", str(path)]
    said = subprocess.run(words, input="\n".join(lines) + "\n", capture_output=True, text=True, check=True).stdout
    found = []
    for line in said.splitlines():
        units = [[int(it or 0) for it in unit] for unit in re.findall(r"(\d+)(?:@(-?\d+),-?\d+)?\+(-?\d+)", line)]
        ends = [0, *itertools.accumulate(it[2] for it in units)]
        places = [end + it[1] for end, it in zip(ends, units)] + [ends[-1]]
        found.append(([it[0] for it in units], [after - place for place, after in zip(places, places[1:])]))
    return found


def shaped(path, lines):
    """Returns lines as HarfBuzz has them."""
    both = zip(answered(path, lines, "+"), answered(path, lines, "-"), strict=True)
    return [Shaped(one[0], one[1], [it - other for it, other in zip(one[1], two[1])]) for one, two in both]


def installed(name, fonts):
    """Returns those of some fonts that are installed, none without hb-shape, and says what a part lacks."""
    found = [it for it in fonts if it.exists()]
    if not shutil.which("hb-shape"):
        common.skip(name, "hb-shape is not installed")
        return []
    if len(found) < len(fonts):
        common.skip(name, f"{len(fonts) - len(found)} of {len(fonts)} fonts are not installed")
    return found


def scaled(units, size, em):
    """Returns units as `best` scales them, in 64ths of a pixel: by a factor in 65,536ths, with halves away from 0."""
    factor = (2 * 64 * 65536 * size + em) // (2 * em)
    pixels = (2 * abs(units) * factor + 65536) // (2 * 65536)
    return pixels if units >= 0 else -pixels


def best_of_rows():
    """Yields a row's name, its question and its layout by best: no program moves a point in these fonts, so an advance
    is scaled; with the scaled kerning it is rounded once."""
    for row in layouts.rows():
        kerning, em, glyphs = kerned.Kerning(row.font), kerned.units_of(row.font), row.layout.glyphs
        steps = []
        for glyph, after in itertools.zip_longest(glyphs, glyphs[1:]):
            moved = scaled(kerning.of(glyph, after), row.size, em) if after is not None else 0
            steps.append(max(0, (scaled(kerned.advance_of(row.font, glyph), row.size, em) + moved + 32) // 64))
        yield row, layouts.layout_of(steps, glyphs)


def moved_steps(asked, path, size):
    """Returns what is wrong with the steps of English lines with best. A step without kerning is that of an advance
    within half a pixel; the step with kerning is that of this advance and the scaled kerning, rounded once."""
    em, why, is_moved = kerned.units_of(path.read_bytes()), [], False
    for text, line in zip(ENGLISH, shaped(path, ENGLISH)):
        words = ["--no-ink", "--fit", "best", "--size", str(size)]
        before, after = (layouts.measured(asked, [*words, *it], path, text) for it in ([], ["--kern"]))
        if isinstance(before, str) or isinstance(after, str) or before.glyphs != line.glyphs:
            return [f"{text}: {before} and {after}, glyphs {line.glyphs}"]
        is_moved |= before != after
        for at, (old, new, units) in enumerate(zip(*map(layouts.steps_in, (before, after)), line.kerning)):
            by = scaled(units, size, em)
            low, high = max(0, old + by // 64), max(0, old + (by + 63) // 64)
            if not low <= new <= high or abs(new - old) > -(-abs(units) * size // em):
                why.append(f"{text}, step {at}: {new}, and {old} without the kerning {units}")
    return why[:3] + ["no step is moved"] * (size >= 16 and not is_moved)


def best(asked):
    """Lines with best: the rows of rows.txt, and English in installed fonts with programs and without."""
    cases = list(best_of_rows())
    ask = lambda row: layouts.measured(asked, ["--no-ink", "--fit", "best", "--kern", "--size", str(row.size)],
                                       asked.folder(row.font) / "F.ttf", row.text)
    for (row, want), got in zip(cases, asked.each(ask, [it for it, _ in cases])):
        common.verdict(f"{row.name}, best", [f"{got}, and not {want}"] * (got != want))
    cases = list(itertools.product(installed("best in installed fonts", FONTS[::STEP]), (9, 12, 16, 24, 48, 300)))
    for (path, size), why in zip(cases, asked.each(lambda it: moved_steps(asked, *it), cases)):
        common.verdict(f"steps by best in {path.name} at {size}", why)


class Told(NamedTuple):
    """What a font came to: its pairs, those that HarfBuzz kerns, those of equal kerning, and what is wrong."""

    name: str
    pairs: int
    moved: int
    equal: int
    why: list


def laid_out(asked, path, text, line, em):
    """Yields what is wrong with the layouts of a line: each step is as far as HarfBuzz has it, rounded."""
    for size in SIZES:
        steps = [max(0, (2 * it * size + em) // (2 * em)) for it in line.units]
        got = layouts.measured(asked, ["--no-ink", "--fit", "none", "--kern", "--size", str(size)], path, text)
        want = layouts.layout_of(steps, line.glyphs)
        if got != want:
            yield f"{text} at {size}: {got}, and not {want}"


def font_beside(asked, path):
    """Returns what a font came to."""
    font, lines = path.read_bytes(), texts()
    kerning, em = kerned.Kerning(font), kerned.units_of(font)
    pairs, moved, equal, why = 0, 0, 0, []
    for text, line in zip(lines, shaped(path, lines), strict=True):
        why += laid_out(asked, path, text, line, em)
        for left, right, units in zip(line.glyphs, line.glyphs[1:], line.kerning):
            pairs, moved, equal = pairs + 1, moved + (units != 0), equal + (kerning.of(left, right) == units)
    return Told(path.name, pairs, moved, equal, why)


def harfbuzz(asked):
    """English lines and pairs in installed fonts, beside HarfBuzz: pens by its advances and kerning in font units; and
    the plain reader by its kerning."""
    found = list(asked.each(lambda it: font_beside(asked, it), installed("harfbuzz", FONTS)))
    for it in found:
        common.verdict(f"lines in {it.name}", it.why[:3])
        why = [f"the plain reader has the kerning of {it.equal} of {it.pairs} pairs"] * (it.equal != it.pairs)
        common.verdict(f"pairs in {it.name}", why + ["no pair is kerned"] * (not it.moved))
        if asked.told:
            same = len(texts()) * len(SIZES) - len(it.why)
            print(f"{it.name}: {it.pairs} pairs, {it.moved} kerned, {it.equal} equal; {same} lines equal")
