"""The parts of faces/run that need no font of Debian."""
import re
import struct
from pathlib import Path

import common
import wide
from asking import FITS
from asking import rows as other_rows
from choices import choices
from face import Refused, directory, mapped
from fonts import alone, bases, collection_of, font_of, tables_in, with_cmap
from fonts import rows as rows_of_faces

# Rows of rows.txt, and rows of ../rows that stand in a collection.
ROWS, COLLECTED = 702, 2248


class Asked:
    """The program, and a folder for fonts. Questions of a part are asked side by side."""

    def __init__(self, program, room, pool):
        self.program, self.room, self.pool = program, room, pool
        self.files = {}

    def file(self, font):
        """Returns the path of a file of these bytes, or the path that is given."""
        if isinstance(font, (str, Path)):
            return str(font)
        if font not in self.files:
            self.files[font] = str(self.room / f"{len(self.files)}.font")
            Path(self.files[font]).write_bytes(font)
        return self.files[font]

    def run(self, words, font, *text, stdin=b""):
        """Returns status, standard output and standard error."""
        return common.run([self.program, *words, "--", font, *text], stdin)

    def ask(self, cases):
        """Asks questions and compares each answer: name, words, font, texts, and what is wanted; a function judges what
        is no list of status, standard output and standard error."""
        cases = [(name, words, self.file(font), texts, wanted) for name, words, font, texts, wanted in cases]
        for case, got in zip(cases, self.pool.map(lambda it: self.run(it[1], it[2], *it[3]), cases)):
            if callable(case[4]):
                common.verdict(case[0], case[4](got))
            else:
                common.tried(case[0], got, case[4])


def words_of(reading):
    """Returns the words that ask for a face, or none for None."""
    return [] if reading is None else ["--face", str(reading)]


def refused(line, status=1):
    return status, b"", f"tt_render: {line}\n".encode()


def rows(asked):
    """The rows of rows.txt."""
    cases = []
    for number, row in enumerate(rows_of_faces(), 1):
        words, texts = [row.call, *words_of(row.face)], [row.text.encode()] if row.call == "map" else []
        cases.append((f"row {number}, {row.name}", words, row.font, texts, row[5:]))
    asked.ask(cases)
    if len(cases) != ROWS:
        common.verdict("rows", [f"rows.txt has {len(cases)} rows, and not {ROWS}"])


# What the letter A is in the two faces of the collection, at 16 pixels per em.
PICTURES = b"P4\n4 4\n\0\0\x60\x60", b"P4\n8 4\n\0\0\x60\x60"
DRAW = ["draw", "--size", "16"]
NO_VERSION = refused("file+0: 1 BadVersion")


def named(*records, storage=None, extra=b""):
    """Returns a name table of records: platform, language, number and the words of a name."""
    table, names = b"", b""
    for platform, language, number, words in records:
        data = struct.pack(f">{len(words)}H", *words)
        table += struct.pack(">6H", platform, 1, language, number, len(data), len(names))
        names += data
    return struct.pack(">3H", 0, len(records), storage or 6 + len(table)) + table + names + extra


def letters(text):
    return [ord(it) for it in text]


ENGLISH, GERMAN = (3, 0x409, 4, letters("Small One")), (3, 0x407, 4, letters("Klein"))
MACINTOSH, FAMILY = (1, 0, 4, letters("Mac")), (3, 0x409, 1, letters("Family"))
# Each name table with what it is about, and the name.
NAMES = (
    ("a full name", named(FAMILY, ENGLISH), "Small One"),
    ("a full name in English behind another", named(GERMAN, ENGLISH), "Small One"),
    ("no full name in English", named(FAMILY, MACINTOSH, GERMAN), "Klein"),
    ("the first of two full names", named(GERMAN, (3, 0x40C, 4, letters("Petit"))), "Klein"),
    ("a full name of another platform", named(MACINTOSH), ""),
    ("a family alone", named(FAMILY), ""),
    ("a name beyond ASCII", named((3, 0x409, 4, [0x41, 0x6587, 0x7E, 0x7F, 0x1F, 0x20, 0x42])), "A?~?? B"),
    ("a name that ends with a blank", named((3, 0x409, 4, letters("Small "))), "Small "),
    ("64 words", named((3, 0x409, 4, [0x61] * 64)), "a" * 64),
    ("65 words", named((3, 0x409, 4, [0x61] * 65)), "a" * 64),
    ("a name of no words", named((3, 0x409, 4, [])), ""),
    ("a name past the table", named(ENGLISH)[:-1], ""),
    ("a storage past the table", named(ENGLISH, storage=0xFFFF), ""),
    ("records past the table", struct.pack(">3H", 0, 2, 30) + named(ENGLISH)[6:], ""),
    ("a table of 5 bytes", named(ENGLISH)[:5], ""),
    ("a table of 0 bytes", b"", ""),
)


def names(font):
    """Yields the cases of the names of faces."""
    for what, table, name in NAMES:
        one = font_of({**tables_in(font), b"name": table})
        line = f"3 1024 {name}" if name else "3 1024"
        yield what, ["faces"], one, [], (0, f"faces 1\n0 {line}\n".encode(), b"")
        two, _ = collection_of([font, one], 2)
        yield f"{what}, in face 1", ["faces"], two, [], (0, f"faces 2\n0 3 1024\n1 {line}\n".encode(), b"")


def drawn(font, collection):
    """Yields the cases of pictures of the collection."""
    for fit in FITS:
        words = [*DRAW, "--fit", fit]
        for number, picture in enumerate(PICTURES):
            yield f"face {number} with {fit}", [*words, "--face", str(number)], collection, ["A"], (0, picture, b"")
        yield f"face 2 with {fit}", [*words, "--face", "2"], collection, ["A"], refused("file+8: 25 NoFace")
        yield f"a font's face with {fit}", [*words, "--face", "0"], font, ["A"], (0, PICTURES[0], b"")
        yield f"a font's face 1 with {fit}", [*words, "--face", "1"], font, ["A"], refused("file+0: 25 NoFace")
        of_none = (0, PICTURES[0], b"") if fit == "best" else NO_VERSION
        yield f"no face with {fit}", words, collection, ["A"], of_none
    yield "no face, and no way to fit", DRAW, collection, ["A"], NO_VERSION
    yield "`map` and no face", ["map"], collection, ["A"], NO_VERSION
    yield "`map` of a font and no face", ["map"], font, ["A"], (0, b"U+0041 1 256\n", b"")
    for number in (2, 3, 2**31, 2**32 - 1):
        yield f"face {number}", ["map", *words_of(number)], collection, ["A"], refused("file+8: 25 NoFace")
        yield f"a font's face {number}", ["map", *words_of(number)], font, ["A"], refused("file+0: 25 NoFace")


def complains(got):
    """Judges the answer to a command line that is none."""
    good = got[0] == 2 and not got[1] and got[2].startswith(b"error: ")
    return [] if good else [f"status {got[0]}, and standard error {got[2][:200]!r}"]


def command_lines(collection):
    """Yields the cases of command lines that are refused."""
    for word in ("-1", "4294967296", "one", "", "1.5"):
        for words in ([*DRAW, "--face"], ["map", "--face"], ["measure", "--size", "16", "--face"]):
            yield f"{words[0]} and face {word!r}", [*words, word], collection, ["A"], complains
    yield "two faces", ["map", "--face", "0", "--face", "1"], collection, ["A"], complains
    yield "`faces` and a face", ["faces", "--face", "0"], collection, [], complains
    yield "`faces` and a text", ["faces"], collection, ["A"], complains
    yield "`faces` of no file", ["faces"], "/nowhere/font", [], lambda got: [] if got[0] == 3 else [f"status {got[0]}"]
    yield "`faces` of no byte", ["faces"], b"", [], refused("file+0: 2 DirShort")


# The cmap with selectors: two records of format 14, default and other lists, and the letters A and B.
SELECTORS = bytes.fromhex(
    "0000 0002 0000 0005 00000014 0003 0001 0000004B"
    "000E 00000037 00000002 00FE00 00000020 00000000 00FE01 00000028 0000002E"
    "00000001 000041 01 00000000 0000 00000001 000042 0001"
    "0004 0020 0000 0004 0004 0001 0000 0042 FFFF 0000 0041 FFFF FFC0 0001 0000 0000"
)


def as_text(one, other):
    """Returns a judge: the picture of a text with selectors is that of a text without them, which is drawn."""
    why = lambda got: f"{one} has {got[1][:80]!r} {got[2]!r}, and not {other[1][:80]!r} {other[2]!r}"
    return lambda got: [] if got == other and got[0] == 0 else [why(got)]


def units(asked, font):
    """Yields the cases of texts with selectors."""
    font = asked.file(with_cmap(font, SELECTORS))
    texts = {
        "A\uFE00": "A",
        "B\uFE00": "B",
        "B\uFE01": "A",
        "A\uFE05B": "AB",
        "\uFE00A\uFE01\uFE01B": "AB",
        "B\uFE01B\uFE00B": "ABB",
        "A\U000E0100B\U000E01EF": "AB",
        "\uFE0FB\uFE01\U000E01EF": "A",
    }
    for fit in FITS:
        for text, other in texts.items():
            words, told = [*DRAW, "--margin", "1", "--fit", fit], ascii(text)
            without = asked.run([*words, "--face", "0"], font, other)
            yield f"{told} with {fit}", [*words, "--face", "0"], font, [text], as_text(told, without)
            if fit == "best":
                yield f"{told} with {fit}, no face", words, font, [text], as_text(told, without)
    empty = refused("62 EmptyPicture", 2)
    yield "a selector alone", [*DRAW, "--face", "0"], font, ["\uFE00"], empty
    yield "4,096 selectors", [*DRAW, "--face", "0"], font, ["\uFE00" * 4096], empty
    long = refused("61 TextLong", 2)
    yield "a selector after 4,096 characters", ["map", "--face", "0"], font, ["A" * 4096 + "\uFE00"], long
    for word, status in (("tell", 0), ("refuse", 2)):
        wanted = b"tt_render: U+0043 has no glyph\n"
        judge = lambda got, status=status: [] if got[0] == status and got[2] == wanted else [f"{got[0]} {got[2]!r}"]
        words = [*DRAW, "--face", "0", "--missing", word]
        yield f"a missing unit, {word}", words, font, ["AC\uFE00\uFE01C\uFE05"], judge
        present = asked.run([*DRAW, "--face", "0"], font, "A")
        yield f"a selector isn't missing, {word}", words, font, ["\uFE0FA\uFE05\uFE0F"], as_text("it", present)


def lines(asked, collection):
    """Tries lines of each face, and of the first by default."""
    for fit in FITS:
        words = [*DRAW, "--fit", fit, "--lines"]
        for number, picture in enumerate(PICTURES):
            got = asked.run([*words, "--face", str(number)], collection, stdin=b"A\nA\nA\n")
            common.tried(f"lines of face {number} with {fit}", got, (0, picture * 3, b""))
        got = asked.run(words, collection, stdin=b"A\nA\n")
        common.tried(f"lines of no face with {fit}", got, (0, PICTURES[0] * 2, b"") if fit == "best" else NO_VERSION)
        got = asked.run([*words, "--face", "2"], collection, stdin=b"A\nA\n")
        common.tried(f"lines of face 2 with {fit}", got, refused("file+8: 25 NoFace"))


def measures(asked, font, collection):
    """Tries measures: the line of the face, then what is measured of the face in a file of its own."""
    file = asked.file(collection)
    for fit in FITS:
        words = ["measure", "--size", "16", "--fit", fit]
        for number, width in enumerate((b"4", b"8")):
            own = asked.run(words, asked.file(alone(collection, number)), "AB")
            letter = [it.split()[:4] for it in own[1].splitlines() if it.startswith(b"U+0041 ")]
            good = letter == [[b"U+0041", b"1", b"0", width]]
            common.verdict(f"width of face {number} with {fit}", [] if good else [str(own)])
            same = asked.run([*words, "--face", "0"], asked.file(alone(collection, number)), "AB")
            common.tried(f"measure of a font's face with {fit}", same, own)
            got = asked.run([*words, "--face", str(number)], file, "AB")
            common.tried(f"measure of face {number} with {fit}", got, (0, b"face %d 2\n" % number + own[1], b""))
        own = asked.run(words, asked.file(font), "AB")
        wanted = (0, b"face 0 2\n" + own[1], b"") if fit == "best" else NO_VERSION
        common.tried(f"measure of no face with {fit}", asked.run(words, file, "AB"), wanted)


def chosen(asked):
    """Which record of cmap is chosen, and how symbols are looked up."""
    asked.ask(list(choices(bases()[0])))


def worked(asked):
    """The collection drawn and measured, names, selectors and command lines."""
    font, collection = bases()
    asked.ask([*drawn(font, collection), *names(font), *command_lines(collection), *units(asked, font)])
    lines(asked, asked.file(collection))
    measures(asked, font, collection)


def cut_answer(number, size):
    """Returns what is said of a face of the collection cut to a size: until its directory is there, then of the first
    table that is not, in the order in which the tables are read."""
    ends = (144, 2, size), (390, 4, 64), (480, 4, 128)
    if number == 1:
        ends = (268, 2, size), (390, 4, 188), (480, 4, 252), (492, 4, 220)
    for end, why, place in ends:
        if size < end:
            return refused(f"file+{place}: {why} {'DirShort' if why == 2 else 'TableRange'}")
    return 0, PICTURES[number], b""


def cuts(asked):
    """The collection cut to each length."""
    _, collection = bases()
    cases = []
    for size in range(len(collection) + 1):
        for number in (0, 1):
            fit = FITS[(size + number) % len(FITS)]
            words = [*DRAW, "--fit", fit, "--face", str(number)]
            cases.append((f"face {number}, cut to {size}", words, collection[:size], ["A"], cut_answer(number, size)))
    asked.ask(cases)


def is_whole(font):
    """Tells whether a font has a directory, and tables behind it that may lie farther from the file's start."""
    try:
        records = directory(font, None)
    except Refused:
        return False
    starts = [struct.unpack_from(">I", font, it + 8)[0] for it in records]
    return all(records.stop <= it < 2**32 - 4096 for it in starts)


def is_wide(row):
    """Tells whether the wide reading may answer otherwise than the row does."""
    if any(wide.is_selector(ord(it)) for it in row.text.decode()):
        return True
    return re.match(rb"tt_render: cmap\+", row.stderr) is not None


def farther(stderr, place):
    """Returns lines of standard error where places in the file are farther from its start."""
    moved = lambda found: b"file+%d:" % (int(found[1]) + place)
    return re.sub(rb"file\+(\d+):", moved, stderr)


def collected(asked):
    """Each font of ../rows as the second face of a collection."""
    test_font, _ = bases()
    cases, made = [], {}
    for row in filter(lambda it: is_whole(it.font), other_rows()):
        if row.font not in made:
            made[row.font] = collection_of([test_font, row.font], 1 + len(made) % 2)
        file, places = made[row.font]
        wanted = row.status, row.stdout, farther(row.stderr, places[1])
        if is_wide(row):
            if row.kind != "map":
                continue
            wanted = mapped(file, row.text, 1)
        words = ["map"]
        if row.kind != "map":
            words = ["draw", "--size", str(row.shape[0]), "--margin", str(row.shape[1]), "--fit", row.kind]
        cases.append((f"{row.kind} {row.name}", [*words, "--face", "1"], file, [row.text], wanted))
    asked.ask(cases)
    if len(cases) < COLLECTED:
        common.verdict("collected", [f"only {len(cases)} rows stand in a collection, fewer than {COLLECTED}"])
