"""The parts of kerning/run about labels and prefixes, which are beside other lines of the program."""
import itertools
from pathlib import Path

import common
import kerned
import layouts
import model
import worked
from parts import Question, compare

FOLDER = Path("/usr/share/fonts/truetype")
# Fonts of Debian with kerning by GPOS or by the table kern.
FONTS = (
    "dejavu/DejaVuSans.ttf", "liberation2/LiberationSerif-Regular.ttf", "lato/Lato-Regular.ttf",
    "freefont/FreeSerif.ttf", "open-sans/OpenSans-Regular.ttf",
)
# The ways to fit by which these fonts draw every letter.
WHOLE = "none", "fallback", "best"
LINE = "AVATAR To. Ty We, \u201cYou\u201d P.T. Fjord LT 11.7 w.y"
TEXTS = LINE, "AV\nTo. Ty", "Ty\n\nAVATAR, We.\nP."


class Kerned(Question):
    """A question whose lines are kerned."""

    def words(self):
        command, *words = super().words()
        return [command, "--kern", *words]

    def draws(self, command, margin, text):
        command, *words = super().draws(command, margin, text)
        return [command, "--kern", *words]


def installed(name, fonts):
    """Returns the paths of those fonts that are installed, and says which of a part are not."""
    found = [FOLDER / it for it in fonts if (FOLDER / it).exists()]
    if len(found) < len(fonts):
        common.skip(name, f"{len(fonts) - len(found)} of {len(fonts)} fonts are not installed")
    return found


def label(asked):
    """Labels of the fonts of `worked` and of installed ones: each line, drawn alone with kerning, laid over the others;
    and a label of one line as `draw --grow`."""
    cases, ones = [], []
    for pair, text in itertools.product(worked.WORKED, ("AA", "AA\nAAA\nA")):
        fit, align = worked.FITS[len(cases) % 4], model.ALIGNS[len(cases) % 3]
        question = Kerned(worked.font(pair), text, 16, len(cases) % 3, align, fit)
        cases.append((f"label {pair.name}, {text!r}, {fit}, {align}", question))
    ones += [(name, it) for name, it in cases if "\n" not in it.text]
    for path, text, fit in itertools.product(installed("label", FONTS), TEXTS, WHOLE):
        size, align = (9, 12, 16, 24, 48)[len(cases) % 5], model.ALIGNS[len(cases) % 3]
        question = Kerned(path.read_bytes(), text, size, 2, align, fit, file=str(path))
        cases.append((f"label {path.name}, {text!a}, {fit}, {align}, size {size}", question))
    ones += [(name, it) for name, it in cases if it.text == LINE]
    compare(asked, cases, "answer")
    compare(asked, [(f"{name}, as drawn", it) for name, it in ones], "one_line")


def prefixes_of(asked, path, size, fit):
    """Returns what is wrong with the layouts of the prefixes of a line: their pens are those of the line, and the last
    step is that of the character alone."""
    words, why = ["--no-ink", "--size", str(size), "--fit", fit], []
    whole = layouts.measured(asked, [*words, "--kern"], path, LINE)
    alone = layouts.measured(asked, words, path, LINE)
    steps = layouts.steps_in(alone)
    for count in range(len(LINE) + 1):
        got = layouts.measured(asked, [*words, "--kern"], path, LINE[:count])
        width = whole.pens[count - 1] + steps[count - 1] if count else 0
        want = layouts.Layout(width, whole.glyphs[:count], whole.pens[:count])
        # A line without a column is refused.
        if got != want and count:
            why.append(f"{count} characters: {got}, and not {want}")
    return why + ["no step is kerned"] * (whole.pens == alone.pens)


def prefix(asked):
    """Each prefix of a line in installed fonts, at four sizes, by each way to fit."""
    # One of three cases, so that each font has each size and each way to fit.
    cases = list(itertools.product(installed("prefix", FONTS), (9, 16, 24, 300), worked.FITS))[::3]
    for (path, size, fit), why in zip(cases, asked.each(lambda it: prefixes_of(asked, *it), cases)):
        common.verdict(f"prefixes in {path.name} at {size}, {fit}", why[:3])
