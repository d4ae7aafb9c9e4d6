"""The cases of cases.txt: runs of `bdf`, and calls of tt_glyphs, tt_layout and tt_pens."""
import re
from pathlib import Path
from typing import NamedTuple

import labels

FILE = Path(__file__).resolve().parent / "cases.txt"


class Run(NamedTuple):
    """A run of `bdf`. What the parser of the command line says is not fixed: then errors is None."""

    name: str
    font: bytes
    words: list
    status: int
    stdout: bytes
    errors: object


class GlyphsCall(NamedTuple):
    """A call of tt_glyphs: its answer, and with status 0 its entries and rows."""

    name: str
    font: bytes
    numbers: list
    job: tuple
    room: int
    told_room: int
    answer: tuple
    entries: list
    rows: bytes


class LayoutCall(NamedTuple):
    """A call of tt_layout, and one of tt_pens: their answer, and with status 0 what is told."""

    name: str
    font: bytes
    text: bytes
    job: tuple
    answer: tuple
    layout: tuple
    pens: list


def repeated(field, form):
    """Returns what a form makes of the words of a field, each of which may be repeated by *N."""
    parts = (word.partition("*") for word in field.split(","))
    return [it for word, _, times in parts if word for it in [form(word)] * int(times or 1)]


def many_characters(found):
    """Returns the lines of characters in a row that differ by their numbers alone."""
    first, last = (int(it, 16) for it in found.groups()[:2])
    return "".join(found[3].replace("%X", f"{it:04X}").replace("%d", str(it)) for it in range(first, last + 1))


def file_in(field):
    """Returns the file of bitmaps that a field names."""
    return re.sub(r"\{(\w+)-(\w+):(.*?)\}", many_characters, field).replace("/", "\n").encode()


def place_in(word):
    """Returns table and offset."""
    table, _, offset = word.partition("+")
    return table, int(offset or 0)


def answer_in(field):
    """Returns status, number, table, offset, bytes and count of an answer."""
    status, number, place, size, count = field.split()
    return int(status), int(number), *place_in(place.removeprefix("-")), int(size), int(count)


def entry_in(word):
    """Returns an entry: glyph, status, number, table, offset, advance, left, top, width, height, the rows' place."""
    glyph, status, number, place, *others = word.split()
    return int(glyph), int(status), int(number), *place_in(place.removeprefix("-")), *map(int, others)


def pens_in(field):
    """Returns pens: code point, selector, glyph, advance and pen. A pen that is repeated moves on by its advance."""
    found = []
    for word in filter(None, field.split(",")):
        pen, _, times = word.partition("*")
        *pen, column = map(int, pen.split())
        found += [(*pen, column + at * pen[3]) for at in range(int(times or 1))]
    return found


def run_of(font, name, words, status, stdout, *errors):
    """Returns the run of a line."""
    told = None if errors == ("complains",) else labels.lines_of(it for it in errors if it)
    return Run(name, font, labels.words_in(words), int(status), file_in(stdout), told)


def glyphs_of(font, name, numbers, job, rooms, answer, entries, rows):
    """Returns the call of tt_glyphs of a line."""
    room, told_room = map(int, rooms.split())
    asked = repeated(numbers, int), tuple(job.split()), room, told_room
    told = answer_in(answer), repeated(entries, entry_in), labels.joined(rows, bytes.fromhex)
    return GlyphsCall(name, font, *asked, *told)


def layout_of(font, name, text, job, answer, layout, pens):
    """Returns the calls of tt_layout and tt_pens of a line."""
    text, layout = labels.joined(text, bytes.fromhex), tuple(map(int, layout.split()))
    return LayoutCall(name, font, text, tuple(job.split()), answer_in(answer), layout, pens_in(pens))


def all_of(kind):
    """Yields the cases of a kind: `bdf`, `glyphs` or `layout`."""
    fonts = {**labels.fonts(FILE), "none": None}
    for line in labels.lines(FILE):
        if line.startswith(f"{kind} "):
            name, font, *fields = line.removeprefix(f"{kind} ").split("|")
            yield {"bdf": run_of, "glyphs": glyphs_of, "layout": layout_of}[kind](fonts[font], name, *fields)
