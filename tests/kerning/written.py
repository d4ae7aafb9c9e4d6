"""How fonts are written in tables of rows: in hexadecimal, or by what they change of an earlier font."""
import re
from urllib.parse import quote

from fonts import changed

# a font is written by an earlier one where at most so many bytes differ
MOST_CHANGES = 12


def pieces(data):
    """Returns the pieces by which bytes are written, those that repeat by their number."""
    found, start = [], 0
    for run in re.finditer(rb"(.{1,4}?)\1{7,}", data, re.S):
        found += [data[start : run.start()].hex(), f"{run[1].hex()}*{len(run[0]) // len(run[1])}"]
        start = run.end()
    return "+".join(it for it in [*found, data[start:].hex()] if it)


def font_words(data, others):
    """Returns the words by which a font is written: by an earlier one's, where few bytes are changed."""
    for name, other in others.items():
        if len(data) != len(other):
            continue
        places = [at for at, byte in enumerate(data) if byte != other[at]]
        if len(places) <= MOST_CHANGES:
            words = [f"{at}={data[at]:02x}" for at in places]
            assert changed(other, words) == data
            return " ".join([name, *words])
    return pieces(data)


def fonts_of(named):
    """Returns the fonts by name, of pairs of a row's name and its font: that of the first row with the font, and a
    number where the name is taken."""
    fonts = {}
    for row, data in named:
        if data in fonts.values():
            continue
        name, number = quote(row.replace(" ", "_"), safe="/,:()"), 1
        while (name if number == 1 else f"{name}/{number}") in fonts:
            number += 1
        fonts[name if number == 1 else f"{name}/{number}"] = data
    return fonts


def font_lines(fonts):
    """Yields the lines of fonts."""
    written = {}
    for name, data in fonts.items():
        yield f"font {name}|{font_words(data, written)}"
        written[name] = data
