"""Questions to `tt_test_answers fonts`, and the judge of its answers, for the scripts of damaged/, devices/ and fuzz/."""
import os
import re
import struct
import subprocess
import sys
import tempfile
from contextlib import contextmanager
from pathlib import Path
from typing import NamedTuple

ROOT = Path(__file__).resolve().parent.parent.parent
ROWS = ROOT / "tests" / "rows"
HEADER = ROOT / "include" / "tt_render.h"

# Each way to fit, as ../common.sh names them; `draw` is asked with all of them.
FITS = os.environ["TT_FITS"].split()

FACE = ("head", "maxp", "hhea", "hmtx", "cmap")
GLYPHS = ("loca", "glyf")
PROGRAMS = ("fpgm", "prep", "glyf")
# The tables at which the refusals of a face may stand, by number. Those of glyphs stand at glyf.
PLACES_OF_FACE = {
    **dict.fromkeys((1, 2, 4, 24, 25), ("file",)),
    3: (*FACE, *GLYPHS),
    **dict.fromkeys((5, 6, 7), ("head",)),
    8: ("maxp",),
    9: ("head", "maxp", "hhea", "hmtx"),
    **dict.fromkeys((10, 11), ("cmap",)),
    **dict.fromkeys((12, 13), ("loca",)),
    26: ("fvar", "gvar"),
    **dict.fromkeys((27, 28), ("fvar",)),
    29: ("gvar",),
}
# The first number of the refusals of programs, and that of the refusals of requests.
FIRST_OF_PROGRAMS, FIRST_OF_REQUESTS = 30, 60


def read_refusals():
    """Returns each number of a font's refusals: its name in the header's table, and the tables at which it may stand."""
    found = {}
    for number, name in re.findall(r"^ +X\((\d+), (\w+)\)", HEADER.read_text(encoding="utf-8"), re.M):
        places = PROGRAMS if int(number) >= FIRST_OF_PROGRAMS else PLACES_OF_FACE.get(int(number), ("glyf",))
        if int(number) < FIRST_OF_REQUESTS:
            found[int(number)] = name, places
    return found


REFUSALS = read_refusals()
# The numbers whose place is one alone, whatever the font; the place of a directory is that of a font alone.
PLACES = {1: 0, 3: 0, 5: 12, 6: 18, 7: 50, 8: 0, 10: 0, 24: 4, 27: 8, 28: 12}

ANSWER = re.compile(r"([0-9]) ([0-9]+) ([0-9]+)\|(.*)")
FAULT = r"([ -~]{4})\+(0|[1-9][0-9]*): ([1-9][0-9]*) ([A-Za-z]+)\|"
FONT_LINE = re.compile("tt_render: " + FAULT)
UNFITTED_LINE = re.compile("tt_render: glyph (?:0|[1-9][0-9]*) unfitted: " + FAULT)
JOB_LINE = re.compile(r"tt_render: ([1-9][0-9]*) ([A-Za-z]+)\|")


def sum_of(data):
    """Returns the sum by FNV-1a of 64 bits, as `tt_test_answers fonts` does."""
    total = 0xCBF29CE484222325
    for byte in data:
        total = (total ^ byte) * 0x100000001B3 % 2**64
    return total


NOTHING = f"0 {sum_of(b'')}"


def answer_of(status, stdout, stderr):
    """Returns the answer that tells of these bytes."""
    return f"{status} {len(stdout)} {sum_of(stdout)}|{stderr.decode().replace(chr(10), '|')}"


def words_of(data):
    return data.hex() or "-"


def tables_of(font):
    """Returns place and length of each table, by the first record of its tag, as far as the directory goes."""
    tables = {}
    if len(font) >= 6:
        for at in range(12, min(12 + 16 * int.from_bytes(font[4:6], "big"), len(font) - 15), 16):
            tag, _, place, length = struct.unpack_from(">4s3I", font, at)
            tables.setdefault(tag.decode("latin-1"), (place, length))
    return tables


def entries_of_loca(font, tables):
    """Returns the offsets that loca has."""
    head, loca = tables["head"][0], tables["loca"]
    data = font[loca[0] : loca[0] + loca[1]]
    if font[head + 51] == 0:
        return {2 * it[0] for it in struct.iter_unpack(">H", data[: len(data) // 2 * 2])}
    return {it[0] for it in struct.iter_unpack(">I", data[: len(data) // 4 * 4])}


def is_place(font, table, offset, number, tables=None):
    """Tells whether such a refusal may stand at such a place of the font."""
    if number in PLACES:
        return offset == PLACES[number]
    if number == 25:
        return offset == (8 if font[:4] == b"ttcf" else 0)
    if number == 2:
        return offset == len(font)
    if number == 4:
        return offset >= 12 and (offset - 12) % 16 == 0 and offset + 16 <= len(font)
    tables = tables or tables_of(font)
    length = tables.get(table, (0, 0))[1]
    if number == 9:
        return offset == length or (table, offset) in (("hhea", 34), ("maxp", 4))
    if number == 12:
        return offset == length
    if number == 23 and offset > length:
        # A glyph without an outline begins where its entry says, and that may be anywhere.
        return offset in entries_of_loca(font, tables)
    return offset <= length


# The numbers of a program's refusals.
OF_PROGRAMS = [it for it in REFUSALS if it >= FIRST_OF_PROGRAMS]
# Those with which best refuses no program: what is beyond the profile, and what is not there.
NOT_OF_BEST = 32, 35, 42, 43, 44, 45, 46, 49
# The numbers that may be told of a glyph that is drawn without programs, by the way to fit.
TOLD = {"fallback": OF_PROGRAMS, "best": [it for it in OF_PROGRAMS if it not in NOT_OF_BEST]}
# The numbers of refusals that may come, by the word of the question, which is `map` or a way to fit.
NUMBERS = {
    "map": [number for number, (_, tables) in REFUSALS.items() if {"file", *FACE}.intersection(tables)],
    **{fit: [it for it in REFUSALS if it < FIRST_OF_PROGRAMS] for fit in FITS},
}
NUMBERS["full"] += OF_PROGRAMS


def why_no_fault(font, found, numbers, tables):
    """Says what is wrong with a fault that was found in a line, or returns None."""
    if not found:
        return "has a line of another form"
    table, offset, number, name = found[1], int(found[2]), int(found[3]), found[4]
    if number not in numbers:
        return "has a number that cannot come here"
    if REFUSALS[number][0] != name:
        return f"has a number whose name is {REFUSALS[number][0]}"
    if table not in REFUSALS[number][1]:
        return "names a table that has no such refusal"
    if not is_place(font, table, offset, number, tables):
        return "has an offset that cannot be"
    return None


def why_no_picture(font, kind, count, lines, tables):
    """Says what is wrong with an answer of status 0, or returns None."""
    if kind != "map" and count == 0:
        return "is a picture without a byte"
    if kind in TOLD:
        for line in lines.split("|")[:-1]:
            why = why_no_fault(font, UNFITTED_LINE.fullmatch(line + "|"), TOLD[kind], tables)
            if why:
                return why
        return None
    return "has a line" if lines else None


def why_wrong(font, kind, answer, tables=None):
    """Says what is wrong with an answer, or returns None. Kind is `map` or the way to fit. The font's bytes are those
    that were read, and its tables may be given where they are known. The devices do not fail, and memory is there."""
    found = ANSWER.fullmatch(answer)
    if not found:
        return "is no answer"
    status, count, lines = int(found[1]), int(found[2]), found[4]
    if status == 0:
        return why_no_picture(font, kind, count, lines, tables)
    if not answer.startswith(f"{status} {NOTHING}|"):
        return "is a refusal, and bytes were written"
    if status == 1:
        return why_no_fault(font, FONT_LINE.fullmatch(lines), NUMBERS[kind], tables)
    if status == 2 and kind != "map":
        found = JOB_LINE.fullmatch(lines)
        told = found and (int(found[1]), found[2])
        if told in ((62, "EmptyPicture"), (63, "PictureLarge")) or (kind == "best" and told == (65, "WorkLarge")):
            return None
    return "has a status or a line that cannot come here"


# A refusal of a character map by its kind or shape. With best others are chosen, and ends are not tested.
OF_MAPS = re.compile(r"tt_render: cmap\+[0-9]+: 1[01] ")
# What an answer says of a coordinate past the limit.
FAR = ": 23 CoordRange"


def is_size(answer):
    """Tells whether an answer is the refusal of a picture's size."""
    return bool(re.search(r"tt_render: 6[23] ", answer))


def may_differ(best, full, without):
    """Tells whether best may answer so beside full, and beside the answer without programs, where no program is refused.
    Its picture may be as wide as the programs say, and so empty or too large, and phantom points are rounded to the
    grid, and may so pass the limit; and what full refuses for the size comes behind what is refused of glyphs. In a font
    with neither fpgm nor prep best runs no glyph's program, so none moves a point past the limit."""
    if is_size(full):
        return True
    drawn = re.fullmatch(r"0 [0-9]+ [0-9]+\|", best) or is_size(best)
    if FAR in full:
        return bool(drawn and FAR not in without)
    return bool(full.startswith("0 ") and (drawn or FAR in best))


def why_not_alike(answers):
    """Says what is wrong with the answers to a font and a text, by their kinds, or returns None. What `map` refuses is
    refused alike by all, but that best may take another character map; and a picture's size by all but best, whose
    lines have a width of their own; and what is refused without programs is refused with them, but for coordinates,
    which programs may bring back, and the depth of components, of which best allows more. The ways to fit that fall
    back do so where a program is refused. Where none is, fallback answers as full does, and best as may_differ says."""
    for kind, other in (("fallback", r": (3[0-9]|4[0-9]|50) "), ("best", r": (17|3[0-9]|4[0-9]|50) ")):
        if kind not in answers:
            continue
        full, falling = answers["full"], answers[kind]
        if kind == "best" and OF_MAPS.search(full):
            continue
        # What a program does is not refused: a glyph is drawn without it, or refused for another reason.
        if not re.search(other, full):
            wrong = falling != full and not (kind == "best" and may_differ(falling, full, answers["none"]))
        else:
            wrong = not falling.startswith("0 ") and not re.search(r": [12]?[0-9] ", falling)
            wrong = wrong and not (kind == "best" and is_size(falling))
        if wrong:
            return f"has '{falling}' as {kind}, and '{full}'"
    without = answers["none"]
    alike = without.startswith("2 ")
    if "map" in answers and answers["map"].startswith("1 "):
        without, alike = answers["map"], True
    if not without.startswith("0 ") and FAR not in without:
        by_others = "17 ComponentDepth" in without or is_size(without) or OF_MAPS.search(without)
        apart = ("map", "best") if by_others else ("map",)
        for kind, answer in answers.items():
            if kind not in apart and (answer != without if alike else not answer.startswith("1 ")):
                return f"has '{answer}' as {kind}, and '{without}'"
    return None


class Row(NamedTuple):
    """A row of tests/rows. Its kind is `map` or the way to fit, its shape the size and the margin."""

    name: str
    kind: str
    font: bytes
    text: bytes
    shape: tuple
    status: int
    stdout: bytes
    stderr: bytes

    def answer(self):
        return answer_of(self.status, self.stdout, self.stderr)

    def question(self):
        return question(self.kind, self.text, self.shape, len(self.font))


# The kind of the rows of each file.
KINDS = {"map": "map", "draw": "none", "fitted": "full", "fallback": "fallback", "best": "best"}


def field(word):
    """Returns the bytes of a field of a row."""
    digits, _, times = word.partition("*")
    return b"" if word == "-" else bytes.fromhex(digits) * int(times or 1)


def test_font():
    """Returns the test font, which map.txt names."""
    lines = (ROWS / "map.txt").read_text(encoding="utf-8").split("\n")
    return bytes.fromhex(next(it for it in lines if it.startswith("font ")).split(" ")[1])


class Asked(NamedTuple):
    """A row of picture.txt: the words before the font, those behind it, standard input, and what is answered."""

    name: str
    words: list
    font: bytes
    behind: list
    stdin: bytes
    status: int
    stdout: bytes
    stderr: bytes


def lines_of(words):
    """Returns what the last field of a row names on standard error."""
    line = " ".join(words)
    return b"" if line == "-" else line.replace(" | ", "\n").encode() + b"\n"


def rows_of_picture():
    """Yields the rows of picture.txt."""
    lines = (ROWS / "picture.txt").read_text(encoding="utf-8").splitlines()
    for words in (it.split(" ") for it in lines if not it.startswith("#")):
        name, command, font, text, size, margin, status, stdout, *stderr = words
        shape = [] if size == "-" else ["--size", size, "--margin", margin]
        alone = "--lines" not in command
        behind, stdin = (["--", field(text)], b"") if alone else ([], field(text))
        answer = int(status), field(stdout), lines_of(stderr)
        yield Asked(name, [*command.split(","), *shape], field(font), behind, stdin, *answer)


def rows():
    """Yields the rows of tests/rows, of those in picture.txt the ones of `map` and of pictures without another option,
    by small fonts."""
    yield from rows_of_tables()
    for it in rows_of_picture():
        kind = it.words[0] if it.words[0] == "map" else it.words[2]
        shape = (16, 0) if kind == "map" else (int(it.words[-3]), int(it.words[-1]))
        if it.words[0] in ("map", "draw") and len(it.words) in (1, 7) and len(it.font) < 2000:
            yield Row(it.name, kind, it.font, it.behind[1], shape, *it[5:])


def rows_of_tables():
    """Yields the rows of the five tables of tests/rows."""
    for table, kind in KINDS.items():
        whole = b""
        for line in (ROWS / f"{table}.txt").read_text(encoding="utf-8").split("\n"):
            words = line.split(" ")
            if words[0] == "font":
                whole = bytes.fromhex(words[1])
            elif line and words[0] != "#":
                name, font, text, *rest = words
                if font.startswith("cut:"):
                    font = whole[: int(font[4:])]
                else:
                    font = whole if font == "whole" else field(font)
                # Of `map` neither is asked, and these are for other questions.
                shape = (16, 0) if kind == "map" else (int(rest.pop(0)), int(rest.pop(0)))
                answer = int(rest[0]), field(rest[1]), lines_of(rest[2:])
                yield Row(name, kind, font, field(text), shape, *answer)


def question(kind, text, shape, size, changes=()):
    """Returns the question of a text; kind is `map` or the way to fit."""
    words = ["map", words_of(text)] if kind == "map" else ["draw", words_of(text), *map(str, shape), kind]
    return " ".join([*words, str(size), *(f"{at} {byte}" for at, byte in changes)])


def asked(lines, seconds=900):
    """Asks `tt_test_answers fonts` these lines; returns its answers, and what went wrong, or None."""
    with tempfile.TemporaryFile() as questions:
        questions.write("\n".join(lines).encode() + b"\n")
        questions.seek(0)
        try:
            ended = subprocess.run(
                [os.environ["TT_ANSWERS"], "fonts"],
                stdin=questions,
                stdout=subprocess.PIPE,
                stderr=subprocess.PIPE,
                timeout=seconds,
            )
        except subprocess.TimeoutExpired as late:
            return (late.stdout or b"").decode().split("\n")[:-1], f"no end after {seconds} seconds"
    wrong = None if ended.returncode == 0 else f"status {ended.returncode}: {ended.stderr.decode()}"
    return ended.stdout.decode().split("\n")[:-1], wrong


@contextmanager
def font_in_file(font):
    """Yields a file that holds the font's bytes."""
    with tempfile.NamedTemporaryFile() as file:
        file.write(font)
        file.flush()
        yield file


def words_of_program(kind, font, text, shape):
    """Returns the words that start tt_render; font is a file's name."""
    words = ["map"]
    if kind != "map":
        words = ["draw", "--size", str(shape[0]), "--margin", str(shape[1]), "--fit", kind]
    return [os.environ["TT_RENDER"], *words, font, "--", text.decode()]


def answer_of_program(kind, font, text, shape):
    """Returns what tt_render itself answers."""
    with font_in_file(font) as file:
        ended = subprocess.run(
            words_of_program(kind, file.name, text, shape),
            stdin=subprocess.DEVNULL,
            stdout=subprocess.PIPE,
            stderr=subprocess.PIPE,
            timeout=60,
        )
    return answer_of(ended.returncode, ended.stdout, ended.stderr)


def report(name, passed, failures):
    """Prints the failures and the script's last line, and ends with its status."""
    for line in failures[:50]:
        print(f"FAILED {line}")
    if len(failures) > 50:
        print(f"and {len(failures) - 50} more")
    print(f"{name}: {passed} passed, {len(failures)} failed")
    sys.exit(bool(failures))
