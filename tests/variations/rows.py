"""The fonts and rows of rows.txt."""
from pathlib import Path
from typing import NamedTuple

import labels
import layouts

FILE = Path(__file__).resolve().parent / "rows.txt"


class Row(NamedTuple):
    """A row of rows.txt. Without a font its answer is what a text of --axis gives. Coordinates, heights and outlines
    are None where it has none."""

    name: str
    font: bytes
    words: list
    text: str
    status: int
    answer: str
    errors: bytes
    coordinates: list
    heights: list
    outlines: list

    @property
    def call(self):
        return self.words[0]

    @property
    def is_kerned(self):
        return "--kern" in self.words

    def option(self, name, without=None):
        """Returns the value of an option of a row, or what it is without."""
        start = f"--{name}="
        return next((it.removeprefix(start) for it in self.words if it.startswith(start)), without)

    @property
    def fit(self):
        return self.option("fit", "best")

    @property
    def size(self):
        return int(self.option("size", "16"))

    @property
    def stdout(self):
        """What the program writes on standard output, but of kerning."""
        if not self.answer:
            return b""
        return labels.pictures_in(self.answer) if self.call == "draw" else self.answer.replace("/", "\n").encode()


def row_of(fields, fonts):
    name, font, words, text, status, answer, errors, coordinates, heights, outlines = fields
    if font != "none" and font not in fonts:
        raise SystemExit(f"rows.txt names no font {font}")
    return Row(
        name,
        fonts.get(font),
        [it.decode() for it in labels.words_in(words)],
        text,
        int(status),
        answer,
        labels.lines_of(it for it in errors.split("/") if it),
        [int(it) for it in coordinates.split(",")] if coordinates not in ("", "none") else None,
        [int(it) for it in heights.split()] or None,
        [it.strip() for it in outlines.split(";")] if outlines else None,
    )


def rows():
    """Returns the rows of rows.txt."""
    fonts = layouts.fonts(FILE)
    lines = (it for it in labels.lines(FILE) if not it.startswith("font "))
    return [row_of(line.split("|"), fonts) for line in lines]
