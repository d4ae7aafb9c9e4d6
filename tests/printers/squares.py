"""The model of breaking.py beside the rows of width.txt: those at 16 pixels of two fonts in which each letter is a
square of two pixels. So the model needs no program here."""
import cases
import common
import labels
import model
from breaking import Unit, in_width, rows_of

# The columns of a letter and of other characters, and what has no ink.
LETTER, OTHERS, BLANK = 4, {" ": 2, "\u200b": 0}, " \u200bYZ"
# How many rows are tried.
ROWS = 28


def columns(character):
    return OTHERS.get(character, LETTER)


def line_of(text):
    """Returns a row as it would be drawn alone: four rows of pixels, of which the last two have the squares."""
    width, pen, row = sum(map(columns, text)), 0, 0
    for it in text:
        row |= 0 if it in BLANK else 3 << (width - pen - 3)
        pen += columns(it)
    inked = row.bit_length(), (row & -row).bit_length()
    box = (width - inked[0], -2, width - inked[1], -1) if row else None
    return model.Line(width, 4, 0, 0, box, 0, -4, width, [0, 0, row, row])


def squares():
    """Tries the model by each row that is drawn."""
    fonts, count = labels.fonts(cases.HERE / "fonts.txt"), 0
    for row in cases.rows("width"):
        *words, _, text = (it.decode() for it in row.words)
        given = dict(zip(words[::2], words[1::2]))
        if row.font not in (fonts["words"], fonts["T"]) or row.wanted[0] or row.stdin or given["--size"] != "16":
            continue
        width, margin = int(given["--width"]), int(given.get("--margin", 0))
        lines = [[Unit(it, columns(it), columns(it)) for it in line] for line in model.label_lines(text)]
        found = [line_of(it.text) for line in lines for it in rows_of(line, width - 2 * margin)]
        made = in_width(found, margin, given.get("--align", "left"), width)
        common.verdict(f"model of {row.name}", [] if made and made[0] == row.wanted[1] else ["the model draws another"])
        count += 1
    common.verdict("models of rows", [] if count == ROWS else [f"{count} rows, and not {ROWS}"])
