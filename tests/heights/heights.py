"""The parts of heights/run about rows above and below the base line: ascent and descent, read from the font here."""
import itertools
import re
import struct
from pathlib import Path

import asking
import common
import labels
import model
from fonts import font_of, tables_in
from parts import Question, compare, complains

FITS = "best", "none", "fallback", "full"
FOLDER = Path("/usr/share/fonts/truetype")
# Each so many installed fonts are asked, each at some of the sizes.
STEP = 8
SIZES = 2, 7, 9, 10, 11, 12, 13, 14, 15, 16, 17, 20, 23, 24, 48, 299, 300
# Ascents and descents in an em of 1,024 units, of which 32 are half a row at 16: below, at and above halves.
UNITS = (256, 0), (224, -31), (225, -32), (31, -33), (32, 32), (33, 31), (-32, -32), (-33, -256), (-96, -300), (1, -1)
UNITS += (32767, -32768), (-32768, 32767), (0, 0), (1023, -1024), (95, -97), (300, 33)
# Rows above and below the base line by hand, at 16: halves are rounded upwards.
BY_HAND = {
    (256, 0): (4, 0), (224, -31): (4, 0), (225, -32): (4, 1), (31, -33): (0, 1), (32, 32): (1, 0), (1, -1): (0, 0),
    (33, 31): (1, 0), (-32, -32): (0, 1), (-33, -256): (-1, 4), (-96, -300): (-1, 5), (95, -97): (1, 2),
}
BOX = "\u250c\u2500\u2510\n\u2502A\u2502\n\u2514\u2500\u2518"
# Command lines that are none; the font is the last word.
WRONG = """\
draw --height --size 16
draw --height ceil --size 16
draw --height Rounded --size 16
draw --height= --size 16
draw --height exact --height exact --size 16
measure --height 16 --size 16
label --height rounded,exact --size 16
bdf --height half --size 16
map --height exact
faces --height exact"""


class Rounded(Question):
    """A question whose heights are rounded."""

    def words(self):
        command, *words = super().words()
        return [command, "--height", "rounded", *words]

    def draws(self, command, margin, text):
        command, *words = super().draws(command, margin, text)
        return [command, "--height", "rounded", *words]


def with_units(font, ascent, descent, gap=0):
    """Returns a font with another ascent, descent and gap."""
    tables = tables_in(font)
    hhea = tables[b"hhea"]
    return font_of({**tables, b"hhea": hhea[:4] + struct.pack(">3h", ascent, descent, gap) + hhea[10:]})


def line_of(font, size, is_rounded):
    """Returns the rows of a line above and below the base line, and those between lines, by the rules: ascent and
    descent are each rounded to the nearest row, or up."""
    em = struct.unpack_from(">H", model.table_of(font, 0, b"head")[1], 18)[0]
    ascent, descent, gap = struct.unpack_from(">3h", model.table_of(font, 0, b"hhea")[1], 4)
    rise, depth = model.nearest(ascent * size, em), model.nearest(-descent * size, em)
    if not is_rounded:
        rise, depth = -(-ascent * size // em), -(descent * size // em)
    return rise, depth, max(0, model.nearest(gap * size, em))


def told(got):
    """Returns rise, depth, gap and distance of lines that `measure --no-ink` tells, and the height; or the refusal."""
    if got[0]:
        return got[2]
    height = int(re.search(rb"^picture \d+ (\d+) ", got[1], re.M)[1])
    return *map(int, re.search(rb"^line (\S+) (\S+) (\S+) (\S+)$", got[1], re.M).groups()), height


def why_not_line(asked, path, job):
    """Returns what is wrong with the heights that are told: rounded, exact, and without the option, which is exact.
    Some installed fonts are refused before their heights are looked at."""
    font, (size, fit, margin), why, answers = path.read_bytes(), job, [], []
    for words in (["--height", "rounded"], ["--height=exact"], []):
        given = ["--no-ink", "--size", str(size), "--fit", fit, "--margin", str(margin), *words]
        answers.append(asked.run(["measure", *given, "--", path, "A"]))
        rise, depth, gap = line_of(font, size, "rounded" in words)
        want, got = (rise, depth, gap, max(1, rise + depth + gap), rise + depth + 2 * margin), told(answers[-1])
        if want[-1] < 1 or want[-1] > model.HEIGHT_LIMIT:
            want = f"tt_render: {'62 EmptyPicture' if want[-1] < 1 else '63 PictureLarge'}\n".encode()
        why += [f"{words}: {got}, and not {want}"] * (got != want)
    if answers[0][0] == 1 and answers == answers[:1] * 3:
        return []
    return why + ["exact is not the default"] * (answers[1] != answers[2])


def measured(asked):
    """What `measure --no-ink` tells of the heights of small fonts and of installed ones."""
    cases, base = [], asking.test_font()
    for units, size, fit in itertools.product(UNITS, SIZES, FITS):
        path = asked.folder(with_units(base, *units, 100)) / "F.ttf"
        cases.append((f"units {units}", path, (size, fit, (0, 1, 64)[len(cases) % 3])))
    for at, path in enumerate(sorted({it.resolve() for it in FOLDER.glob("*/*.ttf")})[::STEP]):
        cases += [(path.name, path, (size, ("best", "none")[at % 2], at % 3)) for size in SIZES[at % 2 :: 2]]
    for case, why in zip(cases, asked.each(lambda it: why_not_line(asked, *it[1:]), cases)):
        common.verdict(f"{case[0]} at {case[2]}", why)
    for units, want in BY_HAND.items():
        got = line_of(with_units(base, *units), 16, True)[:2]
        common.verdict(f"units {units} by hand", [f"{got}, and not {want}"] * (got != want))


def cut(rows, top, count):
    """Returns so many rows of a picture from one on, white where the picture has none."""
    return [rows[it] if 0 <= it < len(rows) else 0 for it in range(top, top + count)]


def drawn(asked):
    """Pictures with rounded heights: the rows of a picture with a margin of 64 that belong to the line; `exact` draws
    as without the option."""
    path = FOLDER / "dejavu/DejaVuSansMono.ttf"
    fonts = [asked.folder(with_units(asking.test_font(), *it)) / "F.ttf" for it in UNITS] + [path] * path.exists()
    cases = list(itertools.product(fonts, (9, 10, 16, 23), FITS))
    for (path, size, fit), why in zip(cases, asked.each(lambda it: why_not_drawn(asked, *it), cases)):
        common.verdict(f"picture by {path} at {size}, {fit}", why)


def why_not_drawn(asked, path, size, fit):
    """Returns what is wrong with pictures of a font."""
    words = ["--size", str(size), "--fit", fit, "--", path, "AB"]
    font, why = path.read_bytes(), []
    (rise, depth, _), (up, down, _) = (line_of(font, size, it) for it in (True, False))
    exact, default = (asked.run(["draw", *it, *words]) for it in (["--height", "exact"], []))
    why += ["exact is not the default"] * (exact != default)
    status, picture, said = asked.run(["draw", "--height", "rounded", *words])
    if rise + depth < 1 or rise + depth > model.HEIGHT_LIMIT:
        return why + [f"{said} for {rise + depth} rows"] * (status != 2)
    wide = asked.run(["draw", "--margin", "64", *words])
    if wide[0] == 1 or status == 1:
        return why + [f"{said}, and with a margin {wide[2]}"] * (said != wide[2])
    if not 0 < up + down + 128 <= model.HEIGHT_LIMIT:
        return why
    width, rows = model.rows_of(wide[1])
    inner = [it >> 64 & (1 << width - 128) - 1 for it in rows]
    want = model.picture_of(width - 128, cut(inner, 64 + up - rise, rise + depth))
    return why + [f"{picture}, and not {want}"] * (picture != want)


def label(asked):
    """Labels with rounded heights: each line, drawn alone, laid over the others; and a label of one line as drawn."""
    cases = []
    for units, text in itertools.product(UNITS[:3] + UNITS[13:], ("A", "AB\nA\n\nB")):
        for size, gap in ((9, 0), (16, 33), (16, -100), (23, 96)):
            font = with_units(asking.test_font(), *units, gap)
            question = Rounded(font, text, size, len(cases) % 3, fit=FITS[len(cases) % 4])
            cases.append((f"label {units}, gap {gap}, {text!r} at {size}", question))
    path = FOLDER / "dejavu/DejaVuSansMono.ttf"
    for size in range(9, 25) if path.exists() else ():
        cases.append((f"box at {size}", Rounded(path.read_bytes(), BOX, size, file=str(path))))
    compare(asked, cases, "answer")
    compare(asked, [(f"{name}, as drawn", it) for name, it in cases if "\n" not in it.text], "one_line")
    for name, it in cases:
        # No ink of these passes the lines: their height is that of the lines.
        if name.startswith("box"):
            rise, depth, gap = line_of(it.font, it.size, True)
            height = model.rows_of(asked.run(it.words())[1])[1]
            want = 2 * max(1, rise + depth + gap) + rise + depth
            common.verdict(f"height of the {name}", [f"{len(height)}, and not {want}"] * (len(height) != want))


def bdf(asked):
    """Files of bitmaps: with rounded heights the ascent and the descent are these, and no other byte differs."""
    names = "dejavu/DejaVuSansMono.ttf", "liberation2/LiberationMono-Regular.ttf", "hack/Hack-Regular.ttf"
    paths = [FOLDER / it for it in names if (FOLDER / it).exists()]
    fonts = [asked.folder(with_units(asking.test_font(), *it)) / "F.ttf" for it in UNITS[:3] + UNITS[13:]] + paths
    if len(paths) < len(names):
        common.skip("bdf", f"{len(names) - len(paths)} of {len(names)} fonts are not installed")
    for path, size in itertools.product(fonts, (9, 11, 16, 24)):
        words = ["--size", str(size), "--", path, "AB"]
        each = ["--height=exact"], [], ["--height", "rounded"]
        exact, default, rounded = (asked.run(["bdf", *it, *words]) for it in each)
        rise, depth, _ = line_of(path.read_bytes(), size, True)
        want = re.sub(rb"\nFONT_ASCENT .*\nFONT_DESCENT .*\n",
                      f"\nFONT_ASCENT {rise}\nFONT_DESCENT {depth}\n".encode(), default[1])
        common.tried(f"bdf of {path} at {size}", rounded, (0, want, default[2]))
        common.tried(f"bdf of {path} at {size}, exact", exact, default)


def command_line(asked):
    """Command lines that are refused, and the help."""
    folder = asked.folder(labels.fonts()["T"])
    for words in WRONG.splitlines():
        got = asked.run([*words.split(), "F.ttf", *["AA"] * (not words.startswith("faces"))], folder)
        common.verdict(words, complains(got))
    for command in ("draw", "measure", "label", "bdf"):
        status, said, _ = asked.run([command, "--help"])
        common.verdict(f"{command} --help", ["it lacks --height"] * (status != 0 or b" --height <HOW> " not in said))
