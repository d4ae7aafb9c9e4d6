"""The fonts and rows of rows.txt, and what `measure` prints of a line's layout."""
import re
from pathlib import Path
from typing import NamedTuple

import labels
from fonts import changed

ROWS = Path(__file__).resolve().parent / "rows.txt"


class Layout(NamedTuple):
    """A line as it is laid out: the picture's width, and the glyphs and pens of its characters."""

    width: int
    glyphs: list
    pens: list


class Row(NamedTuple):
    """A row of rows.txt."""

    name: str
    font: bytes
    text: str
    size: int
    layout: Layout


def fonts(file=ROWS):
    """Returns the fonts of rows.txt, or of another file, by their names."""
    made = {}
    for line in labels.lines(file):
        if line.startswith("font "):
            name, words = line.removeprefix("font ").split("|")
            base, *others = words.split(" ")
            made[name] = changed(made[base], others) if base in made else labels.joined(words, bytes.fromhex)
    return made


def rows():
    """Returns the rows of rows.txt."""
    known, found = fonts(), []
    for line in labels.lines(ROWS):
        if not line.startswith("font "):
            name, text, size, width, units = line.split("|")
            glyphs, pens = zip(*(map(int, it.split(":")) for it in units.split()))
            layout = Layout(int(width), list(glyphs), list(pens))
            found.append(Row(f"{name}, {text} at {size}", known[name], text, int(size), layout))
    return found


def steps_in(layout):
    """Returns the steps of a layout without a margin."""
    return [after - pen for pen, after in zip(layout.pens, [*layout.pens[1:], layout.width])]


def layout_of(steps, glyphs):
    """Returns the layout of glyphs that have these steps."""
    pens = [sum(steps[:it]) for it in range(len(steps))]
    return Layout(sum(steps), list(glyphs), pens)


def layout_in(got):
    """Returns the layout in an answer of `measure` without a margin, or else what is wrong with the answer: pens are
    the sums of the steps before them, and the width is the sum of all."""
    status, said, errors = got
    if status:
        return f"status {status} {errors.decode()}"
    width = int(re.search(rb"^picture (\d+) ", said, re.M)[1])
    units = [tuple(map(int, it)) for it in re.findall(rb"^U\+[0-9A-F]+ (\d+) (-?\d+) (\d+)", said, re.M)]
    layout = Layout(width, [it[0] for it in units], [it[1] for it in units])
    told = [it[2] for it in units]
    return layout if told == steps_in(layout) else f"the steps {told}, and {layout}"


def measured(asked, words, path, text):
    """Returns the layout that `measure` tells of a line."""
    return layout_in(asked.run(["measure", *words, "--", path, text]))
