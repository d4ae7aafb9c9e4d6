"""The parts of variations/run about laws: the default instance is the font without one, broken optional tables are as
missing ones, an axis ends at its ends, and a named instance is its places."""
import itertools

import axes
import common
import labels
import model
from axes import Fvar, name_of, text_of
from face import Refused, Tables
from fonts import font_of, tables_in
from rows import rows

FITS = "full", "none", "fallback", "best"
TEXT = "AB"
# Each command with the words behind it, and where the text goes: a text, standard input, or nowhere.
COMMANDS = (
    ("draw", ["--size=16"], "text"),
    ("draw", ["--size=33", "--margin=2", "--grow", "--kern", "--height=exact"], "text"),
    ("draw", ["--size=16", "--lines"], "lines"),
    ("draw", ["--size=16", "--missing=refuse"], "text"),
    ("measure", ["--size=16"], "text"),
    ("measure", ["--size=300", "--no-ink", "--kern"], "text"),
    ("measure", ["--size=24", "--lines"], "lines"),
    ("label", ["--size=16"], "text"),
    ("label", ["--size=20", "--kern", "--lines"], "lines"),
    ("bdf", ["--size=16"], "text"),
)
# Some of them, with ways to fit, for what is tried of many fonts.
SHORT = [(*COMMANDS[0], it) for it in FITS] + [(*COMMANDS[5], "best")]
EACH = [(*it, fit) for it, fit in itertools.product(COMMANDS, FITS)]
# Each so many fonts are tried by each command.
STEP = 16
NOTE = b"is a variable font; "


def sound_fonts():
    """Returns the fonts of rows.txt whose fvar is whole, by their names."""
    found = {}
    for row in rows():
        if row.font is not None and row.font not in found.values():
            try:
                Fvar(Tables(row.font, 0))
            except Refused:
                continue
            found[row.name] = row.font
    return found


def words_of(places, fvar):
    """Returns the option that asks for a place on each axis."""
    return "--axis=" + ",".join(f"{axis.tag.rstrip() or ' '}={text_of(it)}" for axis, it in zip(fvar.axes, places))


def may_be_asked(fvar):
    """Tells whether options can ask for a place on each axis: tags differ, and have printed characters."""
    tags = [it.tag for it in fvar.axes]
    is_printed = lambda tag: all(" " <= it <= "~" and it not in ",=" for it in tag)
    return len(set(tags)) == len(tags) and all(map(is_printed, tags))


def answers(asked, folder, instance, commands):
    """Yields the answers of commands, each with a way to fit, and of `map`; of standard error without the note on a
    variable font."""
    for command, words, place, fit in commands:
        stdin = f"{TEXT}\nB\n\n".encode() if place == "lines" else b""
        behind = ["--", TEXT] if place == "text" else []
        got = asked.run([command, *words, f"--fit={fit}", *instance, "F.ttf", *behind], folder, stdin)
        yield f"{command} {' '.join(words)} {fit}", without_note(got)
    yield "map", asked.run(["map", *instance, "F.ttf", "--", TEXT], folder)


def without_note(got):
    lines = [it for it in got[2].splitlines(keepends=True) if NOTE not in it]
    return got[0], got[1], b"".join(lines)


def why_unlike(asked, one, other, commands=SHORT):
    """Returns the first commands of two folders and instances that answer otherwise."""
    both = zip(answers(asked, *one, commands), answers(asked, *other, commands))
    return [f"{name}: {got}, and {want}" for (name, got), (_, want) in both if got != want][:3]


def is_default(font, instance):
    """Tells whether an instance is the font's default."""
    return not any(axes.coordinates_of(Tables(font, 0), *instance))


def default_cases():
    """Yields the fonts whose default can be asked for, with the option that does so."""
    for name, font in sound_fonts().items():
        fvar = Fvar(Tables(font, 0))
        values = [(it.tag, it.default) for it in fvar.axes]
        if may_be_asked(fvar) and is_default(font, (None, values)):
            yield name, font, words_of([it.default for it in fvar.axes], fvar)


def defaults(asked):
    """The default that is asked for is the font without an instance, byte for byte: by each command and way to fit of
    some fonts, by some commands of the others."""
    cases = [(*it, SHORT if at % STEP else EACH) for at, it in enumerate(default_cases())]
    ask = lambda it: why_unlike(asked, (asked.folder(it[1]), [it[2]]), (asked.folder(it[1]), []), it[3])
    for (name, _, option, _), why in zip(cases, asked.each(ask, cases)):
        common.verdict(f"{option} of {name}", why)
    if len(cases) < 60:
        common.verdict("defaults", [f"there are only {len(cases)} fonts"])


def broken(tag, table):
    """Yields tables that are as a missing one, with a word about each."""
    if tag == b"avar":
        yield "version 2", b"\0\2" + table[2:]
        yield "another number of axes", table[:6] + b"\0\7" + table[8:]
        yield "a byte less", table[:-1]
    if tag in (b"HVAR", b"MVAR", b"GDEF"):
        yield "major version 2", b"\0\2" + table[2:]
        yield "11 bytes", table[:11]
    if tag == b"HVAR":
        at = int.from_bytes(table[4:8], "big")
        yield "a store of format 2", table[:at] + b"\0\2" + table[at + 2 :]
        yield "a store past the end", table[:4] + b"\0\1\0\0" + table[8:]
    if tag == b"MVAR":
        yield "records of 7 bytes", table[:6] + b"\0\7" + table[8:]
    if tag == b"cvar":
        yield "version 2", b"\0\2" + table[2:]
        yield "an offset past the end", table[:6] + b"\xff\xff" + table[8:]
        yield "7 bytes", table[:7]
    yield "no byte", b""
    yield "past the file's end", None


def with_table(tables, tag, table):
    """Returns the font with another table; without one its record passes the file's end."""
    if table is not None:
        return font_of({**tables, tag: table})
    made = bytearray(font_of(tables))
    record = made.index(tag, 12)
    made[record + 8 : record + 12] = len(made).to_bytes(4, "big")
    return bytes(made)


OPTIONAL = b"avar", b"HVAR", b"MVAR", b"GDEF", b"cvar"
# Rows whose tables are no whole ones, or are counted whether they are there or not.
APART = "past the end", "too many"


def optional_cases():
    """Yields a name, a font with a broken table, the font without the table, and the option of an instance."""
    for name, font in sound_fonts().items():
        tables, fvar = tables_in(font), Fvar(Tables(font, 0))
        if not may_be_asked(fvar) or any(it in name for it in APART):
            continue
        option = words_of([(it.default + it.greatest) // 2 + 1 for it in fvar.axes], fvar)
        for tag in (it for it in OPTIONAL if it in tables):
            without = font_of({it: tables[it] for it in tables if it != tag})
            for what, table in broken(tag, tables[tag]):
                yield f"{name}: {tag.decode()} of {what}", with_table(tables, tag, table), without, option


def optional_tables(asked):
    """A font whose optional tables are broken draws as if they were not there."""
    cases = list(optional_cases())
    ask = lambda it: why_unlike(asked, (asked.folder(it[1]), [it[3]]), (asked.folder(it[2]), [it[3]]))
    for (name, *_), why in zip(cases, asked.each(ask, cases)):
        common.verdict(name, why)
    if len(cases) < 150:
        common.verdict("optional tables", [f"there are only {len(cases)} cases"])


def ends(asked):
    """A place past an end of an axis is the end's."""
    cases = []
    for name, font in sound_fonts().items():
        fvar = Fvar(Tables(font, 0))
        if may_be_asked(fvar) and len(fvar.axes) <= 2 and all(it.least < it.default < it.greatest for it in fvar.axes):
            greatest, least = ([getattr(it, end) for it in fvar.axes] for end in ("greatest", "least"))
            cases.append((name, font, words_of(greatest, fvar), words_of([2**31 - 1] * len(fvar.axes), fvar)))
            cases.append((name, font, words_of(least, fvar), words_of([1 - 2**31] * len(fvar.axes), fvar)))
    ask = lambda it: why_unlike(asked, (asked.folder(it[1]), [it[2]]), (asked.folder(it[1]), [it[3]]))
    for (name, _, one, other), why in zip(cases, asked.each(ask, cases)):
        common.verdict(f"{one} and {other} of {name}", why)
    if len(cases) < 60:
        common.verdict("ends", [f"there are only {len(cases)} cases"])


def named_cases(font):
    """Yields pairs of words that ask for the same instance: by its number, by its name, by its places."""
    tables = Tables(font, 0)
    fvar, told = Fvar(tables), {}
    for number, instance in enumerate(fvar.instances):
        if may_be_asked(fvar) and all(it > -(2**31) for it in instance.places):
            yield [f"--instance={number}"], [words_of(instance.places, fvar)]
            yield [f"--instance={number}", words_of(instance.places, fvar)], [f"--instance=00{number}"]
        name = name_of(tables, instance.name)
        if name and not name.isdigit() and name not in told:
            told[name] = number
            yield [f"--instance={name}"], [f"--instance={number}"]


def instances(asked):
    """A named instance by its number, by its name and by its places, in fonts that have some."""
    fonts = {name: it for name, it in sound_fonts().items() if Fvar(Tables(it, 0)).instances}
    cases = [(name, font, *both) for name, font in fonts.items() for both in named_cases(font)]
    ask = lambda it: why_unlike(asked, (asked.folder(it[1]), it[2]), (asked.folder(it[1]), it[3]))
    for (name, _, one, other), why in zip(cases, asked.each(ask, cases)):
        common.verdict(f"{one} and {other} of {name}", why)
    if len(cases) < 20:
        common.verdict("named instances", [f"there are only {len(cases)} cases"])


def command_line(asked):
    """Command lines that are refused, what is said of them, and the help."""
    folder = asked.folder(next(it.font for it in rows() if it.name.startswith("instance 'Medium'")))
    complaint = b"tt_render: --axis is TAG=VALUE, as wght=700,wdth=87.5\n"
    for command in ("draw --size=16", "measure --size=16", "map", "label --size=16", "bdf --size=16"):
        got = asked.run([*command.split(), "--axis", "wght", "/nowhere/font", "A"], folder)
        common.tried(f"{command} --axis wght", got, (2, b"", complaint))
        status, said, _ = asked.run([command.split()[0], "--help"])
        lacks = [it for it in (b"--axis", b"--instance") if it not in said]
        common.verdict(f"{command} --help", [f"it lacks {lacks}"] * bool(status or lacks))
    for words in ("faces --axis=wght=700 F.ttf", "faces --instance=0 F.ttf", "map --axis=wght=1 --axis=wght=2 F.ttf A",
                  "map --instance=0 --instance=1 F.ttf A"):
        status, said, errors = asked.run(words.split(), folder)
        good = status == 2 and not said and errors.startswith(b"error: ")
        common.verdict(words, [f"{status} {said} {errors}"] * (not good))
    for options, why in (("--axis=wdth=1", "fvar+8: 27 NoAxis"), ("--instance=4", "fvar+12: 28 NoInstance"),
                         ("--instance=4294967296", "fvar+12: 28 NoInstance"),
                         ("--instance=99999999999999999999999", "fvar+12: 28 NoInstance")):
        for command in ("draw --size=16", "measure --size=16", "map", "bdf --size=16"):
            got = asked.run([*command.split(), options, "F.ttf", "A"], folder)
            good = got[0] == 1 and got[2].startswith(f"tt_render: {why}\n".encode())
            common.verdict(f"{command} {options}", [str(got)] * (not good))


def advice(asked):
    """What `label` says of fonts without the instance that is asked for."""
    medium = next(it.font for it in rows() if it.name.startswith("instance 'Medium'"))
    static = next(it.font for it in rows() if it.name == "no fvar")
    for font, words, first, second in (
        (static, "--axis=wght=700", "fvar+0: 3 NoTable", "is no variable font"),
        (static, "--instance=Bold", "fvar+0: 3 NoTable", "is no variable font"),
        (medium, "--axis=wght=1,wdth=100", "fvar+8: 27 NoAxis", "has no axis wdth; tt_render faces lists its axes"),
        (medium, "--axis=a=1", "fvar+8: 27 NoAxis", "has no axis a   ; tt_render faces lists its axes"),
        (medium, "--instance=Bold", "fvar+12: 28 NoInstance", "has no such instance; tt_render faces lists them"),
        (medium, "--instance=4", "fvar+12: 28 NoInstance", "has no such instance; tt_render faces lists them"),
    ):
        for command in ("label", "bdf"):
            got = asked.run([command, "--size=16", words, "F.ttf", "A"], asked.folder(font))
            common.tried(f"{command} {words}", got, (1, b"", labels.lines_of([first, f"F.ttf: {second}"])))
    note = "F.ttf: is a variable font; its default instance is drawn (--instance, --axis; faces lists them)"
    for words, told in (([], [note]), (["--axis=wght=400"], []), (["--instance=1"], [])):
        status, _, errors = asked.run(["label", "--size=16", *words, "F.ttf", "A"], asked.folder(medium))
        good = (status, errors) == (0, labels.lines_of(told))
        common.verdict(f"the note of {words}", [f"{status} {errors}"] * (not good))
