"""The parts of variations/run about variable fonts of Debian: beside FreeType, by by_freetype.txt, and HarfBuzz."""
import hashlib
import re
import shutil
import subprocess
from collections import Counter
from pathlib import Path
from typing import NamedTuple

import axes
import common
import kerned
import layouts
import model
from places import CHARACTERS, MARGIN, pictures, sum_of_ink, sum_of_outline

FILE = Path(__file__).resolve().parent / "by_freetype.txt"
SHAPE = "--fit", "best", "--margin", str(MARGIN)
# Of a thousand at least so many are to be FreeType's. Pictures differ where FreeType fills no dropouts: in fonts
# without programs, above all of the least weights at the least sizes.
LEAST = {"coordinates": 1000, "heights": 1000, "outlines": 1000, "steps": 1000, "pictures": 955}
# Of a thousand advances and pairs at least so many are to be HarfBuzz's, whose coordinates are rounded to 2.14.
LEAST_OF_HARFBUZZ = {"advances": 998, "pairs": 997}
TEXTS = ("AVATAR To. Ty We, P.T. Fjord LT 11.7 w.y (Yo-Yo)", "Kitchen 2, Shelf 14: 'Tea', \"Wool\", LATVIA, rye & rice")


class Beside(NamedTuple):
    """What FreeType makes of a font at an instance."""

    size: int
    option: str
    coordinates: list
    heights: list
    steps: str
    sums: list


def tables():
    """Returns the instances of each font of by_freetype.txt, by sum and path."""
    found = {}
    for line in FILE.read_text(encoding="utf-8").splitlines():
        words = line.split(" ")
        if words[0] == "font":
            found[words[1], Path(words[2])] = here = []
        elif words[0] != "#":
            size, option, coordinates, heights, steps, sums = words
            lists = [[int(it) for it in word.split(",")] for word in (coordinates, heights)]
            here.append(Beside(int(size), option, *lists, steps, re.findall("........", sums)))
    return found


def here(name):
    """Yields the fonts that are installed, with their instances; says which are not."""
    for (md5, path), instances in tables().items():
        if not path.exists():
            common.skip(f"{name} of {path.name}", f"{path} is not installed")
        elif hashlib.md5(path.read_bytes()).hexdigest() != md5:
            common.verdict(str(path), ["it is another version than that of by_freetype.txt"])
        else:
            yield path, instances


def outline_sums(answers, path, beside, glyphs):
    """Returns the sums of the outlines, by the program for tests."""
    words = [answers, "outlines", path, str(beside.size), "best", "at", beside.option, *map(str, glyphs)]
    sums = []
    for line in common.run(words)[1].decode().splitlines():
        words = line.split()
        at, behind = words.index("ends"), words.index("points")
        left, ends = int(words[words.index("phantom") + 1]), words[at + 1 : behind]
        numbers = map(int, words[behind + 1 :])
        points = [(x - left, y, on) for x, y, on in zip(numbers, numbers, numbers)]
        sums.append(sum_of_outline(",".join(ends) or "-", points))
    return sums


def measured(asked, path, beside):
    """Returns what `measure` tells of the characters: heights, the row of the base line, glyphs and steps."""
    words = ["measure", "--no-ink", *SHAPE, "--size", str(beside.size), "--axis", beside.option]
    said = asked.run([*words, "--", path, CHARACTERS])[1].decode()
    figures = re.search(r"^font \d+ (-?\d+) (-?\d+) ", said, re.M)
    line = re.search(r"^picture \d+ \d+ baseline (-?\d+)", said, re.M)
    units = re.findall(r"^U\+[0-9A-F]+ (\d+) -?\d+ (\d+)", said, re.M)
    if not figures or not line:
        return None
    glyphs, steps = ([int(it[at]) for it in units] for at in (0, 1))
    return [int(it) for it in figures.groups()], int(line[1]), glyphs, steps


def picture_sums(asked, path, beside, baseline):
    """Returns the sums of the pictures of the characters, each in a line of its own."""
    words = ["draw", *SHAPE, "--size", str(beside.size), "--axis", beside.option, "--lines"]
    lines = "".join(f"{it}\n" for it in CHARACTERS).encode()
    drawn = pictures(asked.run([*words, path], stdin=lines)[1])
    return [sum_of_ink(rows, -MARGIN, baseline) for _, _, rows in drawn]


def counted(asked, answers, path, beside):
    """Returns how much of an instance is FreeType's, by what is compared, and how much there is."""
    same, all_, count = Counter(), Counter(), len(CHARACTERS)
    face = model.Face(path.read_bytes(), (None, axes.values_in(beside.option)), 0)
    got = measured(asked, path, beside)
    if got is None:
        return same, Counter({it: 1 for it in LEAST})
    heights, baseline, glyphs, steps = got
    all_ += {"coordinates": 1, "heights": 1, "steps": count, "pictures": count}
    same += {"coordinates": face.coordinates == beside.coordinates, "heights": heights == beside.heights}
    same += {"steps": sum(it == int(digit, 36) for it, digit in zip(steps, beside.steps))}
    drawn = picture_sums(asked, path, beside, baseline)
    same += {"pictures": sum(it == wanted[4:] for it, wanted in zip(drawn, beside.sums))}
    if answers:
        all_ += {"outlines": count}
        sums = outline_sums(answers, path, beside, glyphs)
        same += {"outlines": sum(it == wanted[:4] for it, wanted in zip(sums, beside.sums))}
    return same, all_


def takes_axes(answers, path, beside):
    """Tells whether the program for tests takes axes."""
    return answers and common.run([answers, "outlines", path, "16", "none", "at", beside.option, "0"])[0] == 0


def freetype(asked):
    """Instances of installed fonts beside FreeType: coordinates, heights, outlines, steps and pictures with best."""
    answers, all_same, all_count = common.answers_program(), Counter(), Counter()
    for path, instances in here("instances beside FreeType"):
        if not takes_axes(answers, path, instances[0]):
            common.skip("outlines beside FreeType", "tt_test_answers is not here, or takes no axes")
            answers = None
        for same, count in asked.each(lambda it: counted(asked, answers, path, it), instances):
            all_same, all_count = all_same + same, all_count + count
    told(all_same, all_count, LEAST, "FreeType's")


def told(same, count, least, whose):
    """Prints how much is another program's, and judges it."""
    for name, wanted in least.items():
        if count[name]:
            print(f"  of {count[name]} {name} at instances {same[name]} are {whose}")
            why = f"{same[name]} of {count[name]} are {whose}, and not {wanted} in a thousand"
            common.verdict(f"{name} beside {whose}", [why] * (1000 * same[name] < wanted * count[name]))


def shaped(path, option, text, features):
    """Returns the glyphs and the advances of a text by hb-shape, in font units."""
    words = ["hb-shape", "--no-clusters", "--no-glyph-names", "--font-size=upem", "--direction=ltr", "--script=latn",
             "--language=und", f"--features={features}", f"--variations={option}", str(path)]
    said = subprocess.run(words, input=f"{text}\n", capture_output=True, text=True, check=True).stdout
    units = re.findall(r"(\d+)(?:@-?\d+,-?\d+)?\+(-?\d+)", said)
    return [int(it[0]) for it in units], [int(it[1]) for it in units]


OTHERS = ",".join(f"-{it}" for it in "ccmp locl rlig rclt calt clig liga mark mkmk curs dist abvm blwm rvrn".split())


def beside_harfbuzz(asked, path, beside):
    """Returns how many advances of the characters, and kerned pairs of two texts, are HarfBuzz's, and how many there
    are."""
    same, all_ = Counter(), Counter()
    lines = asked.run(["map", "--axis", beside.option, "--", path, CHARACTERS])[1].decode().splitlines()
    advances = {int(it.split()[-2]): int(it.split()[-1]) for it in lines}
    for text in (CHARACTERS, *TEXTS):
        glyphs, plain = shaped(path, beside.option, text, f"{OTHERS},-kern")
        _, moved = shaped(path, beside.option, text, f"{OTHERS},kern")
        all_["advances"] += len(glyphs)
        same["advances"] += sum(advances.get(glyph) == it for glyph, it in zip(glyphs, plain))
        if text != CHARACTERS:
            face = model.Face(path.read_bytes(), (None, axes.values_in(beside.option)), 0)
            kerning = kerned.Kerning(path.read_bytes(), 0, face.pairs)
            pairs = [kerning.of(*it) for it in zip(glyphs, glyphs[1:])]
            all_["pairs"] += len(pairs)
            same["pairs"] += sum(it == new - old for it, new, old in zip(pairs, moved, plain))
            all_["kerned lines"] += 1
            same["kerned lines"] += is_laid_out(asked, path, beside, text, glyphs, advances, pairs)
    return same, all_


def is_laid_out(asked, path, beside, text, glyphs, advances, pairs):
    """Tells whether a kerned line has the steps of these advances and pairs."""
    em, steps = kerned.units_of(path.read_bytes()), []
    for glyph, pair in zip(glyphs, [*pairs, 0]):
        steps.append(max(0, (2 * (advances.get(glyph, 0) + pair) * 300 + em) // (2 * em)))
    words = ["--no-ink", "--kern", "--fit", "none", "--size", "300", "--axis", beside.option]
    return layouts.measured(asked, words, path, text) == layouts.layout_of(steps, glyphs)


def harfbuzz(asked):
    """Advances and kerned pairs at instances of installed fonts beside hb-shape."""
    if not shutil.which("hb-shape"):
        common.skip("instances beside HarfBuzz", "hb-shape is not installed")
        return
    all_same, all_count = Counter(), Counter()
    for path, instances in here("instances beside HarfBuzz"):
        for same, count in asked.each(lambda it: beside_harfbuzz(asked, path, it), instances):
            all_same, all_count = all_same + same, all_count + count
    told(all_same, all_count, {**LEAST_OF_HARFBUZZ, "kerned lines": 1000}, "HarfBuzz's")
