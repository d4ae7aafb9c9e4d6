"""The parts of label/run that need no font of Debian."""
import itertools
import struct
from typing import NamedTuple

import asking
import common
import labels
import model
from labels import lines_of

# Rows of rows.txt, and texts of ../rows that are drawn as one line.
ROWS, ONE_LINE = 103, 2400
# What `draw` says of a line without a column or without a row.
EMPTY = b"tt_render: 62 EmptyPicture\n"


class Question(NamedTuple):
    """A text to draw with a font of bytes, in a file of a folder."""

    font: bytes
    text: str
    size: int = 16
    margin: int = 0
    align: str = None
    fit: str = None
    face: int = None
    file: str = "F.ttf"

    def words(self):
        """Returns the words of `label`."""
        given = [("--margin", self.margin), ("--align", self.align), ("--fit", self.fit), ("--face", self.face)]
        words = ["label", "--size", str(self.size)]
        return words + [str(it) for pair in given if pair[1] is not None for it in pair] + ["--", self.file, self.text]

    def draws(self, command, margin, text):
        """Returns the words by which another command takes a line of the text as `label` does."""
        words = [command, "--size", str(self.size), "--margin", str(margin), "--face", str(self.face or 0)]
        more = ["--grow", "--missing", "tell"] if command == "draw" else []
        return [*words, "--fit", self.fit or "best", *more, "--", self.file, text]


class Models:
    """Answers of the model; what `draw` and `measure` say of a line is asked once."""

    def __init__(self, asked):
        self.asked = asked
        self.known = {}

    def folder(self, question):
        """Returns where a question is asked; a font with a path of its own is anywhere."""
        return None if question.file.startswith("/") else self.asked.folder(question.font, question.file.encode())

    def line(self, question, text):
        """Returns a line drawn alone, and what `draw` told of it."""
        key = (question.font, question.file, question.size, question.fit, question.face, text)
        if key not in self.known:
            folder = self.folder(question)
            measured, drawn = (self.asked.run(question.draws(it, 1, text), folder) for it in ("measure", "draw"))
            if drawn[2] == EMPTY:
                self.known[key] = self.flat_line(question, text)
                return self.known[key]
            if measured[0] or drawn[0]:
                raise SystemExit(f"tests: `draw` refuses {text!r}: {drawn[2]!r} {measured[2]!r}")
            self.known[key] = model.line_of(measured[1], drawn[1], question.size), drawn[2]
        return self.known[key]

    def flat_line(self, question, text):
        """Returns the same, where the lines of the font have no height: `draw` draws higher ones."""
        font, rise, depth = model.with_height(question.font, question.face or 0, question.size)
        line, told = self.line(question._replace(font=font), text)
        return line._replace(rise=rise, depth=depth), told

    def told(self, question, errors):
        """Returns what is told of a picture that was written, without what is told of the font."""
        glyphs = model.told_of_glyphs(errors, question.fit or "best")
        return glyphs + model.told_of_text(question.text)

    def answer(self, question):
        """Returns what `label` answers for a font that draws: status, standard output and standard error."""
        drawn = [self.line(question, it) for it in model.label_lines(question.text)]
        picture = model.laid([it for it, _ in drawn], question.margin, question.align or "left")
        if picture is None:
            first = "63 PictureLarge"
            return 2, b"", lines_of([first, self.second(question, first)])
        told = self.told(question, b"".join(it for _, it in drawn))
        return 0, picture, lines_of(told + model.told_of_font(question.font, question.face, question.file))

    def second(self, question, first):
        """Returns the second line of a refusal."""
        face, margin = question.face or 0, question.margin
        return model.second_line(first, question.font, face, question.file, question.size, margin)

    def one_line(self, question):
        """Returns what `label` answers for a text of one line, from what `draw` answers for the text."""
        status, picture, errors = self.asked.run(
            question.draws("draw", question.margin, question.text), self.folder(question)
        )
        if errors == EMPTY:
            # `label` draws a column and a row at least: it draws where the line draws with a margin, or is higher.
            wide = self.asked.run(question.draws("draw", 1, question.text), self.folder(question))
            if wide[2] == EMPTY:
                high = question._replace(font=model.with_height(question.font, question.face or 0, question.size)[0])
                wide = self.asked.run(high.draws("draw", 1, question.text), self.folder(high))
            if not wide[0]:
                return self.answer(question)
            status, picture, errors = wide
        if status:
            first = errors.decode().removeprefix("tt_render: ").removesuffix("\n")
            return status, picture, lines_of(it for it in (first, self.second(question, first)) if it)
        told = self.told(question, errors)
        return 0, picture, lines_of(told + model.told_of_font(question.font, question.face, question.file))


def compare(asked, cases, wanted):
    """Asks questions, which have names, and compares each answer with that of a function of the models."""
    models = Models(asked)
    run = lambda it: (asked.run(it.words(), models.folder(it)), getattr(models, wanted)(it))
    for (name, _), (got, right) in zip(cases, asked.each(run, [it for _, it in cases])):
        common.tried(name, got, right)


def complains(got):
    """Judges the answer to a command line that is none."""
    good = got[0] == 2 and not got[1] and got[2].startswith(b"error: ")
    return [] if good else [f"status {got[0]}, and standard error {got[2][:200]!r}"]


def rows(asked):
    """The rows of rows.txt."""
    cases = list(labels.rows())
    run = lambda it: asked.run([b"label", *it.words], asked.folder(it.font, it.file), it.stdin)
    for row, got in zip(cases, asked.each(run, cases)):
        if row.errors is None:
            common.verdict(f"row {row.name}", complains(got))
        else:
            common.tried(f"row {row.name}", got, (row.status, row.stdout, row.errors))
    if len(cases) != ROWS:
        common.verdict("rows", [f"rows.txt has {len(cases)} rows, and not {ROWS}"])


def drawn_as_rows():
    """Yields a question for each text of ../rows that is one line."""
    for row in asking.rows_of_tables():
        text = row.text.decode()
        if row.kind == "map" or "\n" in text or text.startswith("\ufeff") or "\0" in text:
            continue
        size, margin = row.shape
        yield f"{row.kind} {row.name}", Question(row.font, text, size, margin, None, row.kind)


def one_line(asked):
    """Each text of ../rows with its way to fit: what `draw --grow` answers, and what is said beside it."""
    cases = list(drawn_as_rows())
    compare(asked, cases, "one_line")
    if len(cases) < ONE_LINE:
        common.verdict("one_line", [f"only {len(cases)} texts, fewer than {ONE_LINE}"])


def damaged(font, end):
    """Yields damaged fonts: cut to each length, and with each of the first bytes changed."""
    for size in range(len(font)):
        yield f"cut to {size}", font[:size]
    for at, other in itertools.product(range(min(end, len(font))), (0x01, 0x80, 0xFF)):
        yield f"with byte {at} changed by {other}", font[:at] + bytes([font[at] ^ other]) + font[at + 1 :]


def damage(asked):
    """Damaged fonts: the first line is that of `draw`, and the second one says what the file is."""
    fonts = labels.fonts()
    bases = [("T", None, 330), ("variable", 0, 140), ("collection", 0, 144), ("collection", 1, 270)]
    bases += [("cff inside", None, 124), ("colour", None, 108), ("no glyf", None, 108), ("off profile", 0, 124)]
    cases = []
    for name, face, end in bases:
        for what, font in damaged(fonts[name], end):
            fit = asking.FITS[len(cases) % len(asking.FITS)]
            cases.append((f"{name}, face {face}, {what}, {fit}", Question(font, "AB", face=face, fit=fit)))
    compare(asked, cases, "one_line")


def kinds(asked):
    """Each kind of file by its first bytes, at a file's start and at a face's directory, and bytes like them."""
    fonts = labels.fonts()
    starts = [it for it, _ in model.KINDS]
    starts += [it[:-1] + bytes([it[-1] ^ 1]) for it in starts if it]
    starts += [b"ttcf", b"OTTO"[::-1], b"true", b"\0\2\0\0", b" <!D"]
    cases = []
    for start in starts:
        font = start + fonts["T"][len(start) :]
        cases.append((f"a file that begins {start!r}", Question(font, "A")))
        for face, at in ((0, 20), (1, 144)):
            font = fonts["collection"][:at] + start + fonts["collection"][at + len(start) :]
            cases.append((f"face {face} that begins {start!r}", Question(font, "A", face=face)))
        for size in range(len(start) + 1):
            cases.append((f"a file of {start[:size]!r} alone", Question(start[:size], "A")))
    for faces in (0, 1, 2, 3, 255, 65535, 2**32 - 1):
        font = fonts["collection"][:8] + struct.pack(">I", faces) + fonts["collection"][12:]
        for face in (None, 0, 1, 2, 3, 2**32 - 1):
            cases.append((f"face {face} of {faces}", Question(font, "A", face=face)))
    for face in (1, 2, 2**32 - 1):
        cases.append((f"face {face} of a font", Question(fonts["T"], "A", face=face)))
    compare(asked, cases, "one_line")


def characters(asked):
    """The characters at the ends of each range that something is told of, and beside it, each control character, and
    texts that have several."""
    font = labels.fonts()["many"]
    found = {0x200E, 0x200F, 0xFE00, 0xFEFF, 0x9F, 0xA0}
    for pairs, _ in model.TOLD:
        for first, last in pairs:
            found.update((first - 1, first, last, last + 1))
    texts = [chr(it) for it in sorted(found | set(range(1, 0x20))) if it > 0 and not 0xD800 <= it < 0xE000]
    texts += ["A" + it for it in texts if it not in "\n\ufeff"]
    texts += ["\u05d0\t\u0627\x07", "\u0915\u05d0\u0e01\u0301\u0300\t\n\r", "\x7f\n\u202e\u0301"]
    texts += ["A\r\r\nB", "\r", "\r\r\n"]
    texts += ["\ufe0f\u05d0\ufe0e", "\u0301\n\u05d0\n\u0e01\n\t", "\ufeff\ufeff\t", "\U0001f3fb\U0001f1e6\U000e0020"]
    compare(asked, [(ascii(it), Question(font, it)) for it in texts], "answer")
    words = ["label", "--size", "16", "--missing", "draw", "--lines", "F.ttf"]
    told = "line 2: U+0000 is a control character, and drawn as the font has it"
    status, _, errors = asked.run(words, asked.folder(font), b"A\n\0\n")
    common.tried("U+0000", (status, b"", errors), (0, b"", lines_of([told])))


TEXTS = (
    "", "\n", "\n\n", "A", "A\nB", "AB\nA\nAAAA", "A\n\n\nA\n", "AAAA\r\nA\rB\n", "B\nA\n", "\nA",
    "Z\nAZ\nZZ", "\ufeffA\nAA", "A\ufe0f\nB",
)


def layouts(asked):
    """Texts of several lines in small fonts, with each place, margins and sizes."""
    fonts = labels.fonts()
    names = "T", "gap", "negative gap", "flat", "wide ink", "narrow B", "divides", "divides twice", "variable", "many"
    cases = []
    for name, text, align in itertools.product(names, TEXTS, model.ALIGNS):
        turn = len(cases)
        size, margin = (16, 9, 20, 33, 300, 7)[turn % 6], (0, 1, 5, 0, 64)[turn % 5]
        fit = asking.FITS[turn % 4] if name not in ("divides", "divides twice") else "best"
        case = f"{name}, {text!r}, {align}, size {size}, margin {margin}, {fit}"
        cases.append((case, Question(fonts[name], text, size, margin, align, fit)))
    for text, align, face in itertools.product(TEXTS, model.ALIGNS, (None, 0, 1)):
        name = f"face {face}, {text!r}, {align}"
        cases.append((name, Question(fonts["collection"], text, align=align, face=face)))
    of_mono = "Hgj\n$1,\n\u00e9 1\n", "1\n\n,g$H1", "j1\n"
    for text, align, size in itertools.product(of_mono, model.ALIGNS, (9, 12, 16)):
        name = f"mono, {text!r}, {align}, size {size}"
        cases.append((name, Question(fonts["mono"], text, size, 1, align)))
    compare(asked, cases, "answer")


def heights(asked):
    """Texts whose picture has as many rows or columns as it may have, or one more."""
    font, flat, wide = (labels.fonts()[it] for it in ("T", "flat", "wide glyph"))
    cases = [(f"{count} lines", Question(font, "A\n" * count)) for count in (1023, 1024, 1025)]
    cases += [(f"{count} lines, margin 2", Question(font, "A\n" * count, margin=2)) for count in (1023, 1024)]
    cases += [(f"{count} lines of no height", Question(flat, "\n" * count)) for count in (1, 2, 4095, 4096)]
    for count in (4093, 4094):
        cases.append((f"{count} lines of no height and a letter", Question(flat, "\n" * (count - 1) + "A")))
    cases += [("a wide glyph", Question(wide, "A\nB")), ("4,096 characters", Question(font, "AA\n" * 1365 + "A", 8))]
    cases += [("4,096 characters with a feed", Question(font, "A" * 4095 + "\n", 8))]
    compare(asked, cases, "answer")
    compare(asked, [("a wide glyph, grown", Question(wide, "A", 300))], "one_line")
    long = 2, b"", lines_of(["61 TextLong", model.OF_JOB[61]])
    for text in ("A" * 4096 + "\n", "\n" * 4097, "\ufeff" + "A" * 4096, "A\r\n" * 1366):
        got = asked.run(Question(font, text, 8).words(), asked.folder(font))
        common.tried(f"a text of {len(text)} characters: {text[:3]!a}", got, long)


def many_lines(asked):
    """`--lines`: the pictures of its lines one after the other, and what is told of each, up to the first refusal."""
    fonts = labels.fonts()
    good = [b"A", b"", b"AB\r", b"\tZ", "\u05d0Z\u0301".encode(), b"B", "\ufeffA".encode(), b"Z" * 3]
    bad = [b"\xff", b"A\xc3", b"\xed\xa0\x80", b"\xff" * 16384, b"\xff" * 16385]
    bad += [b"A" * it for it in (4096, 4097, 16384, 16385)]
    cases = []
    for name, face in (("T", None), ("variable", None), ("collection", None), ("collection", 1), ("divides", None)):
        cases += [(name, face, good), (name, face, good[::-1]), (name, face, [])]
        cases += [(name, face, [good[at % 8], good[at % 5], it, b"A"]) for at, it in enumerate(bad)]
        cases += [(name, face, [it]) for it in bad]
    run = lambda it: (lines_answer(asked, fonts[it[0]], it[1], it[2]), lines_wanted(asked, fonts[it[0]], it[1], it[2]))
    for case, (got, wanted) in zip(cases, asked.each(run, cases)):
        common.tried(f"lines {case[0]}, face {case[1]}: {[it[:9] for it in case[2]]}", got, wanted)


def lines_answer(asked, font, face, texts):
    words = ["label", "--size", "16", "--lines", *(["--face", str(face)] if face is not None else []), "F.ttf"]
    return asked.run(words, asked.folder(font), b"".join(it + b"\n" for it in texts))


def text_in(data):
    """Returns the text of a line of standard input, or None, and why there is none."""
    if len(data) > 16384:
        return None, "61 TextLong"
    try:
        return data.decode(), ""
    except UnicodeDecodeError:
        return None, "not UTF-8"


def lines_wanted(asked, font, face, texts):
    """Returns what `label --lines` answers, from what `label` answers for each text."""
    pictures, errors = b"", []
    for number, data in enumerate(texts, 1):
        text, why = text_in(data.removesuffix(b"\r"))
        head = f"line {number}: "
        if why:
            second = model.second_line(head + why, font, face or 0, "F.ttf", 16, 0)
            return 2, pictures, lines_of([*errors, head + why, second])
        status, picture, told = asked.run(Question(font, text, face=face).words(), asked.folder(font))
        lines = [it.removeprefix("tt_render: ") for it in told.decode().splitlines()]
        # What is told of the font has no number, and is told once.
        errors += [head + it if not it.startswith("F.ttf: ") else it for it in lines
                   if number == 1 or status or not it.startswith("F.ttf: ")]
        if status:
            return status, pictures, lines_of(errors)
        pictures += picture
    return 0, pictures, lines_of(errors)
