"""The part of glyph_sets/run about measures without ink: tt_layout, tt_pens, `measure --no-ink`, beside `measure`."""
import itertools
import re

import asking
import calls
import common
import labels
import model
import parts
from installed import FITS, FOLDER

# Each so many rows of ../rows are measured.
STEP = 5
TEXTS = (
    *("jolly staff", "AVATAR To.", "\u01fajf g\u00c7|_", " . "),
    *("A\ufe0fB\ufe0e\ufe0e", "\ufe0fx", "\u65e5\U0001f600", "x" * 300),
)
# Whether pairs are kerned, and whether heights are rounded.
RULES = (0, 0), (1, 0), (1, 1)
# Where a defect has no part in a measure without ink, unless programs decide the advances.
OF_GLYPHS = re.compile(rb"tt_render: (loca|glyf|fpgm|prep|cvt )\+")


def without_ink(measured, margin, size):
    """Returns what `measure --no-ink` is to print, by what `measure` prints."""
    lines = measured.decode().splitlines()
    em, gap = next((int(it.split()[1]), int(it.split()[5])) for it in lines if it.startswith("font "))
    found = []
    for line in lines:
        if line.startswith("picture "):
            _, width, height, _, baseline, *_ = line.split()
            rise, depth = int(baseline) - margin, int(height) - int(baseline) - margin
            gap = max(0, model.nearest(gap * size, em))
            found.append(f"picture {width} {height} baseline {baseline}")
            found.append(f"line {rise} {depth} {gap} {max(1, rise + depth + gap)}")
        else:
            found.append(" ".join(line.split()[:4]) if line.startswith("U+") else line)
    return "".join(f"{it}\n" for it in found).encode()


def printed(asked, words, size, margin, fit):
    """Returns what `measure --no-ink` prints, and what is wrong with that, by what `measure` prints."""
    with_ink, got = asked.run(["measure", *words]), asked.run(["measure", "--no-ink", *words])
    if not with_ink[0]:
        wanted = without_ink(with_ink[1], margin, size)
        return got, parts.differing(measure=((0, wanted), got[:2]))
    by_glyphs = OF_GLYPHS.match(with_ink[2]) or fit == "best" and b" 65 " in with_ink[2]
    if fit == "best" and (got == with_ink or by_glyphs and got[0] == 0):
        return got, []
    if not by_glyphs:
        return got, parts.differing(refusal=(with_ink, got))
    # Without programs the advances are the same.
    at = words.index("--fit") + 1
    unfitted = asked.run(["measure", *words[:at], "none", *words[at + 1 :]])
    if unfitted[0] and not OF_GLYPHS.match(unfitted[2]):
        return got, parts.differing(refusal=(unfitted, got))
    wanted = got[1] if unfitted[0] else without_ink(unfitted[1], margin, size)
    return got, parts.differing(measure=((0, wanted), got[:2]))


def called(asked, font, text, job, got):
    """Returns what is wrong with the calls, by what the program prints."""
    answer, layout = asked.library.layout(font, text, job)
    other, pens = asked.library.pens(font, text, job)
    if got[0]:
        why = parts.differing(calls=(calls.values_of(answer), calls.values_of(other)))
        return why or ["the calls are done"] * (not answer.status)
    lines = got[1].decode().splitlines()
    size = next(it.split() for it in lines if it.startswith("picture "))
    line = next(it.split() for it in lines if it.startswith("line "))
    units = [it.split() for it in lines if it.startswith("U+")]
    wanted = *(int(it) for it in (size[1], size[2], size[4], *line[1:])), len(units)
    wants = [(int(it[0][2:], 16), int(it[1]), int(it[3]), int(it[2])) for it in units]
    pens = pens and [(it[0], *it[2:]) for it in pens]
    return parts.differing(layout=(wanted, layout), pens=(wants, pens), count=(len(wants), other.count))


def measured(asked, font, place, text, job):
    """Returns what is wrong with the measures of a text."""
    size, margin, fit, face, kern, rounded = job
    words = ["--size", str(size), "--margin", str(margin), "--fit", fit]
    words += [] if face is None else ["--face", str(face)]
    words += ["--kern"] * kern + ["--height", "rounded"] * rounded
    got, why = printed(asked, [*words, "--", place, text], size, margin, fit)
    if asked.library and not why:
        why = called(asked, font, text.encode(), calls.job_of(size, margin, fit, face, 0, kern, rounded), got)
    return why


def of_rows(asked):
    """Yields questions of rows of ../rows."""
    for row in list(asking.rows_of_tables())[::STEP]:
        if row.kind != "map" and b"\0" not in row.text:
            place = asked.folder(row.font) / "F.ttf"
            yield f"{row.kind} {row.name}", row.font, place, row.text.decode(), (*row.shape, row.kind, None, 0, 0)


def of_fonts(asked):
    """Yields questions of installed fonts, and of a small collection."""
    for at, path in enumerate(sorted(it.resolve() for it in FOLDER.glob("*/*.ttf"))[::12]):
        for turn, text in enumerate(TEXTS):
            job = 7 + (at + 3 * turn) % 40, (0, 3, 64)[turn % 3], FITS[(at + turn) % 4], (None, 0)[at % 2]
            job += RULES[at % 3]
            yield path.name, path.read_bytes(), path, text, job
    for name in "collection", "gap", "negative gap", "flat":
        font = labels.fonts()[name]
        for text, size, fit in itertools.product(("AB", "", "A\ufe0f"), (1, 16, 300), FITS):
            yield name, font, asked.folder(font) / "F.ttf", text, (size, 2, fit, int(name == "collection"), 0, 0)


def measures(asked):
    """Texts of ../rows and of installed fonts: what `measure --no-ink` prints, and both calls, beside what `measure`
    prints; with the ways to fit that make no glyph, also where a glyph is damaged."""
    found = [*of_rows(asked), *of_fonts(asked)]
    for case, why in zip(found, asked.each(lambda it: measured(asked, *it[1:]), found)):
        common.verdict(f"measure of {case[0]}, {case[3][:20]!a}, {case[4]}", why)
