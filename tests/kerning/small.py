"""The parts of kerning/run that need no font of Debian: the rows of rows.txt, whose values are those of an independent
model, fonts without kerning, and command lines."""
import itertools

import asking
import common
import kerned
import layouts
from parts import complains

# With these ways to fit steps are those of the rows, by the advances that the font tells.
LINEAR = "none", "full", "fallback"
ROWS = 338
# Each so many texts of ../rows are drawn.
STEP = 4
# Command lines that are none; the font is the last word.
WRONG = """\
draw --kern --kern --size 16
draw --kern=1 --size 16
draw --kern= --size 16
draw --kerning --size 16
measure --kern --kern --size 16
label --kern=yes --size 16
bdf --kern --size 16
map --kern
faces --kern"""


def laid_out(asked, row, words):
    """Returns what is wrong with the layout of a row, told without ink, with ink, and of a line of standard input."""
    path, given = asked.folder(row.font) / "F.ttf", ["measure", "--size", str(row.size), "--kern", *words]
    answers = {it: asked.run([*given, *it.split(), "--", path, row.text]) for it in ("--no-ink", "")}
    answers["--lines"] = asked.run([*given, "--lines", "--", path], stdin=row.text.encode() + b"\n")
    told = {name: layouts.layout_in(it) for name, it in answers.items()}
    return [f"{name}: {it}, and not {row.layout}" for name, it in told.items() if it != row.layout]


def by_steps(row):
    """Returns what is wrong with the plain reader, by a row."""
    steps = kerned.steps_of(row.font, row.layout.glyphs, row.size)
    wanted = layouts.steps_in(row.layout)
    return [f"the plain reader has the steps {steps}, and not {wanted}"] * (steps != wanted)


def rows(asked):
    """The rows of rows.txt by each way to fit with linear steps; and by the plain reader of this folder, which other
    parts and folders ask."""
    found = layouts.rows()
    cases = list(itertools.product(found, LINEAR))
    run = lambda it: laid_out(asked, it[0], ["--fit", it[1]])
    for (row, fit), why in zip(cases, asked.each(run, cases)):
        common.verdict(f"{row.name}, {fit}", why)
    for row in found:
        common.verdict(f"{row.name}, plainly", by_steps(row))
    if len(found) != ROWS:
        common.verdict("rows", [f"rows.txt has {len(found)} rows, and not {ROWS}"])


def neither(asked):
    """Texts of ../rows in fonts without both tables: `draw --kern` answers as the row without kerning."""
    found = [it for it in asking.rows_of_tables() if it.kind != "map" and b"\0" not in it.text][::STEP]
    words = lambda row: ["--size", str(row.shape[0]), "--margin", str(row.shape[1]), "--fit", row.kind]
    ask = lambda row: asked.run(["draw", "--kern", *words(row), "F.ttf", "--", row.text], asked.folder(row.font))
    for row, got in zip(found, asked.each(ask, found)):
        common.tried(f"{row.kind} {row.name}, kerned", got, (row.status, row.stdout, row.stderr))


def command_line(asked):
    """Command lines that are refused; the option behind the font, and beside the others; the help."""
    folder = asked.folder(layouts.fonts()["kern,_-64"])
    for words in WRONG.splitlines():
        got = asked.run([*words.split(), "F.ttf", *["AA"] * (not words.startswith("faces"))], folder)
        common.verdict(words, complains(got))
    wanted = 0, b"P4\n7 4\n" + bytes.fromhex("00 00 6C 6C"), b""
    for words in ("draw F.ttf AA --size 16 --kern", "draw --kern --grow --size=16 --height exact F.ttf AA",
                  "draw --missing tell --size 16 --face 0 F.ttf --kern AA", "label --kern --size 16 F.ttf -- AA",
                  "draw --kern --size 16 --lines F.ttf", "label --lines --kern --size 16 F.ttf"):
        common.tried(words, asked.run(words.split(), folder, b"AA"), wanted)
    for command in ("draw", "measure", "label"):
        status, said, _ = asked.run([command, "--help"])
        common.verdict(f"{command} --help", ["it lacks --kern"] * (status != 0 or b" --kern " not in said))
