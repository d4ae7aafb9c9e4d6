"""The parts of variations/run about the rows of rows.txt: by the plain readers, by the program, and by the program for
tests."""
import re
import shlex

import axes
import common
import kerned
import labels
import layouts
import model
import plain
from axes import optional
from face import Refused, Tables, fault_of, line_of_face
from rows import rows as all_rows

ROWS = 495
TOO_MUCH = b"tt_render: 65 WorkLarge\n"


def asked_by(row):
    """Returns the instance that a row asks for, None for none."""
    named, values = row.option("instance"), row.option("axis")
    if named is None and values is None:
        return None
    return named, axes.values_in(values) if values else []


def has_programs(face, glyphs):
    """Tells whether a face or some of its glyphs have programs, which the plain readers do not run."""
    glyf = face.outlines().glyf
    return any(optional(face.tables, it, 1) for it in ("fpgm", "prep")) or any(glyf.glyph(it).program for it in glyphs)


def outline_line(glyph, outline):
    """Returns the line of an outline as the program for tests prints it."""
    flat = lambda points: [it for point in points for it in point]
    ends = [it + 1 for it in outline.ends]
    words = [glyph, "phantom", *flat(outline.phantom), "ends", *ends, "points", *flat(outline.points)]
    return " ".join(map(str, words))


def plain_answer(row):
    """Returns the answer of a row that is neither drawn nor measured, by the plain readers."""
    if row.call == "map":
        return model.mapped(row.font, row.text, asked_by(row))
    tables = Tables(row.font, 0)
    lines = [line_of_face(row.font, 0), *model.told(tables)]
    return "faces 1\n0 " + "".join(f"{it}\n" for it in lines)


def why_not_plain(row):
    """Returns what is wrong with the plain readers, by a row."""
    if row.font is None:
        return values_wrong(axes.values_in(row.option("axis")), row)
    if row.call in ("map", "faces"):
        got, want = plain_answer(row), row.stdout.decode() or row.errors.decode().strip().removeprefix("tt_render: ")
        return [f"{got!r}, and not {want!r}"] * (got != want)
    try:
        return why_not_drawn(row)
    except (Refused, plain.Refused) as refused:
        got = f"tt_render: {fault_of(refused)}\n".encode()
        return [f"{got}, and not {row.errors}"] * (got != row.errors)


def values_wrong(got, row):
    """Returns what is wrong with the values that a text of --axis gives."""
    want = None
    if row.status == 0:
        words = [it.rpartition("=") for it in row.answer.split(" ")]
        want = [(labels.bytes_in(tag).decode(), int(place)) for tag, _, place in words]
    return [f"{got}, and not {want}"] * (got != want)


def why_not_drawn(row):
    """Returns what is wrong with coordinates, heights, outlines and pairs of the plain readers."""
    face = model.Face(row.font, asked_by(row), 0 if row.fit == "best" else None)
    glyphs = [face.glyph(ord(it)) for it in row.text]
    if row.is_kerned:
        got = kerned.Kerning(row.font, 0, face.pairs).of(*glyphs)
        return [f"the pair {got}"] * (got != int(row.answer.split()[1]))
    why = [] if row.coordinates is None or face.coordinates == row.coordinates else [f"coordinates {face.coordinates}"]
    if row.heights and face.heights[:2] != row.heights:
        why.append(f"heights {face.heights}")
    if row.fit == "best" and face.work(glyphs) > model.MOST_WORK:
        return [f"it is counted, and not {row.errors}"] * (row.errors != TOO_MUCH)
    if has_programs(face, glyphs):
        return why
    made = face.outlines(row.size, row.fit == "best")
    got = [outline_line(it, made.of(it)).rstrip() for it in dict.fromkeys(glyphs)]
    if row.status:
        return [*why, "it is not refused"]
    return why + [f"outlines {got}, and not {row.outlines}"] * (row.outlines is not None and got != row.outlines)


def plainly(asked):
    """The rows by the plain readers of this folder, which other parts ask."""
    found = all_rows()
    for number, row in enumerate(found, 1):
        common.verdict(f"row {number}, {row.name}, plainly", why_not_plain(row))
    if len(found) != ROWS:
        common.verdict("rows", [f"rows.txt has {len(found)} rows, and not {ROWS}"])


def why_not_answered(asked, row):
    """Returns what is wrong with the program's answer to a row."""
    if row.font is None:
        status, stdout, stderr = asked.run([*row.words, "--size", "16", "/nowhere/font", "A"])
        # A text that gives values lets the program come to the font, which is not there.
        want = (3, b"") if row.status == 0 else (2, b"")
        told = stderr == row.errors if row.status else b"--axis" not in stderr
        return [f"status {status}, {stdout!r} {stderr!r}"] * ((status, stdout) != want or not told)
    folder = asked.folder(row.font)
    got = asked.run([*row.words, "F.ttf", *(["--", row.text] if row.call != "faces" else [])], folder)
    if row.is_kerned:
        layout = layouts.layout_in(got)
        pen = None if isinstance(layout, str) else layout.pens[1]
        return [f"{layout}, and not {row.answer}"] * (pen != int(row.answer.split()[0]))
    want = row.status, row.stdout, row.errors
    return [f"{' '.join(map(shlex.quote, row.words))}: {got}, and not {want}"] * (got != want)


def measured_heights(asked, row):
    """Returns what is wrong with the heights that `measure` tells of a row that is drawn."""
    words = [it for it in row.words[1:] if not it.startswith("--fit")]
    got = asked.run(["measure", "--no-ink", *words, "--fit", row.fit, "F.ttf", "--", row.text], asked.folder(row.font))
    found = re.match(rb"font \d+ (-?\d+) (-?\d+) ", got[1])
    heights = [int(it) for it in found.groups()] if found else None
    return [f"heights {heights}, and not {row.heights}: {got}"] * (heights != row.heights)


def rows(asked):
    """The rows by the program: answers, and of what is drawn the heights."""
    found = all_rows()
    for number, (row, why) in enumerate(zip(found, asked.each(lambda it: why_not_answered(asked, it), found)), 1):
        common.verdict(f"row {number}, {row.name}", why)
    drawn = [it for it in found if it.heights]
    for row, why in zip(drawn, asked.each(lambda it: measured_heights(asked, it), drawn)):
        common.verdict(f"heights of {row.name}", why)


def outlines_of(answers, folder, row):
    """Returns status and lines of a row's outlines by the program for tests."""
    at = ["at", row.option("axis")] if row.option("axis") else []
    glyphs = [it.split()[0] for it in row.outlines]
    status, said, errors = common.run([answers, "outlines", folder / "F.ttf", str(row.size), row.fit, *at, *glyphs])
    return status, [it.strip() for it in said.decode().splitlines()], errors.decode()


def without_report(line):
    """Returns the line of an outline without what is said of its program."""
    return re.sub(r" unfitted \S+ \d+ \w+", "", line)


def outlines(asked):
    """The outlines of the rows by the program for tests; of rows with a named instance there are none."""
    answers = common.answers_program()
    found = [it for it in all_rows() if it.outlines and it.option("instance") is None]
    if answers is None or not takes_axes(answers, asked, found[0]):
        common.skip("outlines of rows", "tt_test_answers is not here, or takes no axes")
        return
    for row, got in zip(found, asked.each(lambda it: outlines_of(answers, asked.folder(it.font), it), found)):
        lines = [without_report(it) for it in got[1]]
        common.verdict(f"outlines of {row.name}", [f"{got}, and not {row.outlines}"] * (lines != row.outlines))


def takes_axes(answers, asked, row):
    """Tells whether the program for tests takes axes."""
    words = [answers, "outlines", asked.folder(row.font) / "F.ttf", "16", "none", "at", "wght=400", "0"]
    return common.run(words)[0] == 0
