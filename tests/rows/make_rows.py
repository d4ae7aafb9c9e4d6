#!/usr/bin/env python3
"""Makes map.txt, draw.txt, fitted.txt, fallback.txt and best.txt of cases.txt, which stands beside this file and says
at its head what a case is.

  python3 tests/rows/make_rows.py

A font is put together from the test font's tables and what a case changes of them. The tables stand in the order of
their tags, each at a multiple of four bytes. A glyph of an odd number of bytes gets a zero, loca follows, and a left
side bearing is the xMin of its glyph where none is named. A glyph that is told by its points has a byte of flags for
each, and two bytes for each coordinate.

With fallback a glyph whose program is refused, and no other, is drawn without programs and told, by a line for each
distinct glyph. So the answer to `fallback` follows from those to `fitted` and `unfitted` where the text is one
character repeated, and a case need not say it; of another text it must.

With best it is the answer to `fallback`, unless a program is refused that the whole instruction set may run, or where
something is not there, or components are nested too deep for the others, or where dropouts are filled: such a case says
what it is. Best runs no glyph's program in a font that has neither a font program nor a control value program: so for
best such a font gets a control value program, where a glyph has a program and the case has no line `alone`. It asks for
the scan type that glyphs have where no program is run.
"""
import ast
import pathlib
from itertools import accumulate

HERE = pathlib.Path(__file__).parent
HEAD = """\
# Cases of `{}`, made by make_rows.py of cases.txt and run by the script beside it. A first line
# names the test font, in hexadecimal. Then one case a line:
#   NAME FONT TEXT {}STATUS STDOUT STDERR
# FONT is `whole` for the test font, `cut:N` for its first N bytes, or else hexadecimal. TEXT and STDOUT are bytes in
# hexadecimal, where XX*N stands for N times the byte XX. STDERR is the rest of
# the line, {} on standard error. A field that is `-` is empty.{}
"""

# Of each file the command of its cases, what they have between text and status, and what its head says of it.
A_LINE, LINES = "a line", "lines, ` | ` between them,"
HEADS = {
    "map": ("map", "", A_LINE, ""),
    "draw": ("draw --fit none", "SIZE MARGIN ", A_LINE, " SIZE and MARGIN are in pixels."),
    "fitted": ("draw", "SIZE MARGIN ", A_LINE, " SIZE and MARGIN are in pixels."),
    "fallback": ("draw --fit fallback", "SIZE MARGIN ", LINES, " SIZE and MARGIN are in pixels."),
    "best": ("draw --fit best", "SIZE MARGIN ", LINES, " SIZE and MARGIN are in pixels."),
}
# The files in which each question stands.
FILES = {
    "map": ["map"],
    "draw": ["draw", "fitted", "fallback", "best"],
    "unfitted": ["draw"],
    "fitted": ["fitted"],
    "fallback": ["fallback"],
    "best": ["best"],
}
# The refusals of a program that best need not share: what is beyond the profile, and what is not there.
OF_FULL = (
    "32 StackShort",
    "35 OffProfile",
    "42 PointRange",
    "43 ContourRange",
    "44 ZoneRange",
    "45 CvtRange",
    "46 StorageRange",
    "49 Perpendicular",
)
# Of the letters of a test font whose cmap is its own.
GLYPHS = {'"A"': 1, '"B"': 2, '"AA"': 1}
# A control value program that asks for scan type 1.
TYPE_1 = bytes.fromhex("B801FF85B0018D")
# By these scan types dropouts are filled.
SCAN_TYPES = ["0", "1", "4", "5"]


def two(number):
    return (number % 65536).to_bytes(2, "big")


def bytes_of(words):
    """Returns the bytes of hexadecimal words, of which each may be repeated by *N."""
    parts = (word.partition("*") for word in words)
    return b"".join(bytes.fromhex(digits) * int(times or 1) for digits, _, times in parts)


def contours_of(words):
    """Returns the contours of points as cases.txt has them: x, y and whether the point is on the curve."""
    contours = " ".join(words).split("/")
    return [[(*map(int, it.rstrip("~").split(",")), it[-1] != "~") for it in each.split()] for each in contours]


def simple_glyph(contours, code):
    points = [it for contour in contours for it in contour]
    xs, ys, flags = zip(*points)
    ends = [count - 1 for count in accumulate(map(len, contours))]
    head = [len(contours), min(xs), min(ys), max(xs), max(ys), *ends, len(code)]
    steps = [after - before for each in (xs, ys) for before, after in zip((0, *each), each)]
    return b"".join(map(two, head)) + code + bytes(flags) + b"".join(map(two, steps))


def has_code(glyph):
    """Tells whether the bytes of a glyph have a program."""
    contours = int.from_bytes(glyph[:2], "big")
    if contours < 0x8000:
        return any(glyph[10 + 2 * contours : 12 + 2 * contours]) and contours > 0
    at, flags = 10, 0x20
    while flags & 0x20 and at < len(glyph):
        flags = int.from_bytes(glyph[at : at + 2], "big")
        at += 4 + (4 if flags & 1 else 2) + (2 if flags & 0x8 else 4 if flags & 0x40 else 8 if flags & 0x80 else 0)
    return bool(flags & 0x100)


class Font:
    """A font's glyphs and tables, and what is done to its bytes last."""

    def __init__(self, like=None):
        self.tables = dict(like.tables) if like else {}
        self.glyphs = dict(like.glyphs) if like else {}
        self.outlines = dict(like.outlines) if like else {}
        self.codes = dict(like.codes) if like else {}
        self.advances = dict(like.advances) if like else {}
        self.bearings = dict(like.bearings) if like else {}
        self.patches = list(like.patches) if like else []

    def change(self, word, of):
        if word == "glyph":
            self.glyphs[int(of[0])] = bytes_of(of[1:])
            self.outlines.pop(int(of[0]), None)
        elif word == "outline":
            self.outlines[int(of[0])] = contours_of(of[1:])
        elif word == "code":
            self.codes[int(of[0])] = bytes_of(of[1:])
        elif word == "advance":
            self.advances[int(of[0])] = int(of[1])
        elif word == "bearing":
            self.bearings[int(of[0])] = int(of[1])
        elif word == "table":
            self.tables[of[0].ljust(4)] = bytes_of(of[1:])
        elif word == "bytes":
            tag, at = of[0].split("+")
            self.patches.append((tag, int(at), bytes_of(of[1:])))
        else:
            raise SystemExit(f"a line of cases.txt begins with {word}")

    def made_of_glyphs(self):
        """Returns glyf, loca and hmtx."""
        glyf, loca, hmtx = b"", two(0), b""
        told = {number: simple_glyph(it, self.codes.get(number, b"")) for number, it in self.outlines.items()}
        for number, glyph in sorted({**self.glyphs, **told}.items()):
            bearing = self.bearings.get(number, int.from_bytes(glyph[2:4], "big"))
            glyf += glyph + bytes(len(glyph) % 2)
            loca += two(len(glyf) // 2)
            hmtx += two(self.advances[number]) + two(bearing)
        return {"glyf": glyf, "loca": loca, "hmtx": hmtx}

    def with_programs_run(self):
        """Returns the font, or where no glyph's program would be run the one with a control value program."""
        codes = [has_code(it) for it in self.glyphs.values()] + [bool(self.codes.get(it)) for it in self.outlines]
        if self.tables.get("fpgm") or self.tables.get("prep") or not any(codes):
            return self
        other = Font(self)
        other.tables["prep"] = TYPE_1
        return other

    def file(self):
        tables = {**self.made_of_glyphs(), **self.tables}
        places, body = {"file": 0}, b""
        count, power = len(tables), len(tables).bit_length() - 1
        file = bytes.fromhex("00010000") + b"".join(map(two, (count, 16 << power, power, 16 * count - (16 << power))))
        for tag, table in sorted(tables.items()):
            body += bytes(-len(body) % 4)
            places[tag] = 12 + 16 * len(tables) + len(body)
            body += table
            file += tag.encode() + bytes(4) + places[tag].to_bytes(4, "big") + len(table).to_bytes(4, "big")
        file = bytearray(file + body)
        for tag, at, to in self.patches:
            file[places[tag] + at : places[tag] + at + len(to)] = to
        return bytes(file)


def hexadecimal(data):
    if len(data) > 16 and len({*data}) == 1:
        return f"{data[:1].hex()}*{len(data)}"
    return data.hex() or "-"


def text_of(word):
    """Returns the text that a field of cases.txt names: a Python string, which may be repeated by *N."""
    text, _, times = word.partition("*") if word.endswith(tuple("0123456789")) else (word, "", "")
    return (ast.literal_eval(text) * int(times or 1)).encode()


def picture(rows):
    """Returns the P4 file of rows of '#', 'r', 'c' and '.'."""
    file = f"P4\n{len(rows[0])} {len(rows)}\n".encode()
    for row in rows:
        bits = row.translate(str.maketrans("#rcd.", "11110"))
        bits += "0" * (-len(bits) % 8)
        file += int(bits, 2).to_bytes(len(bits) // 8, "big")
    return file


def paragraphs():
    """Yields the lines of each paragraph of cases.txt, as words, without its comments."""
    found = []
    for line in [*(HERE / "cases.txt").read_text(encoding="utf-8").split("\n"), ""]:
        if line.startswith("more "):
            found[-1] += line.split()[1:]
        elif line.strip() and not line.startswith("#"):
            found.append(line.split())
        elif not line.strip() and found:
            yield found
            found = []


def by_each_type(lines):
    """Yields the lines of each case that a paragraph `dropouts` stands for."""
    name, at = lines[0][1], lines.index(["types", "none", *SCAN_TYPES])
    none, *filled = ([[row] for row in column] for column in zip(*lines[at + 1 :]))
    shape = ['"A"', "16", "0"]
    for scan_type, rows in zip(SCAN_TYPES, filled):
        prep = ["table", "prep", *f"B8 01FF 85 B0 0{scan_type} 8D".split()]
        questions = [["best", *shape, "by", scan_type], *rows]
        if scan_type == "0":
            questions = [["unfitted", *shape], *none, ["fitted", *shape], *none, *questions]
        yield [["case", f"dropouts_{name}_by_type_{scan_type}"], *lines[1:at], prep, *questions]


def cases():
    """Yields the lines of each case, and of each paragraph `cuts`, with the font that they change."""
    base = Font()
    for lines in paragraphs():
        if lines[0][0] == "font":
            base = Font(base)
            for words in lines[1:]:
                base.change(words[0], words[1:])
        elif lines[0][0] == "dropouts":
            for each in by_each_type(lines):
                yield each, base
        else:
            yield lines, base


def font_of(lines, base, table="best"):
    """Returns the file that a case has in a table, and how many of its bytes are there, or None."""
    font, cut, is_alone = Font(base), None, False
    for words in lines[1:]:
        if words[0] in FILES:
            break
        if words[0] == "cut":
            cut = int(words[1])
        elif words[0] == "alone":
            is_alone = True
        else:
            font.change(words[0], words[1:])
    return (font.with_programs_run() if table == "best" and cut is None and not is_alone else font).file(), cut


def asked(lines):
    """Yields each question of a case: the command, its text and shape, the lines of its answer."""
    for at, words in enumerate(lines):
        if words[0] in FILES:
            end = next((k for k in range(at + 1, len(lines)) if lines[k][0] in FILES), len(lines))
            yield words[0], words[1:4], lines[at + 1 : end]


def answer(command, lines):
    """Returns the status, standard output and the lines on standard error."""
    if lines and lines[0][0] == "refused":
        return lines[0][1], b"", " ".join(lines[0][2:])
    if command == "map":
        return "0", "".join(" ".join(words[1:]) + "\n" for words in lines).encode(), "-"
    told = " | ".join(" ".join(words[1:]) for words in lines if words[0] == "told")
    return "0", picture([words[0] for words in lines if words[0] != "told"]), told or "-"


def fallen_back(questions):
    """Yields the questions of `fallback` that a case leaves out, with the answers that follow from its others."""
    known = {(command, *words): lines for command, words, lines in questions}
    for command, words, lines in questions:
        if command != "fitted" or ("fallback", *words) in known:
            continue
        if lines[0][0] == "refused" and 30 <= int(lines[0][4]) <= 50:
            fault = " ".join(lines[0][3:])
            told = f"told tt_render: glyph {GLYPHS[words[0]]} unfitted: {fault}"
            lines = [*known["unfitted", *words], told.split()]
        yield "fallback", words, lines


def told_by(lines):
    """Tells whether an answer names a refusal that best need not share."""
    return any(" ".join(words).endswith(OF_FULL) for words in lines)


def by_best(name, questions):
    """Yields the questions of `best`, the answers that a case leaves out too."""
    known = {(command, *words): lines for command, words, lines in questions}
    for (command, *words), lines in known.items():
        if command == "best":
            if lines[0][0] == "told":
                lines = [*known["unfitted", *words], *lines]
            yield "best", words, lines
        elif command == "fallback" and ("best", *words) not in known:
            if told_by(lines) or told_by(known.get(("fitted", *words), [])):
                raise SystemExit(f"{name} does not say what best answers to {words}")
            yield "best", words, lines


def rows_of_cuts(lines):
    """Yields the rows of a paragraph `cuts`, with the file that each stands in."""
    for size in range(int(lines[0][1]), int(lines[0][3]) + 1):
        line = " ".join(lines[1][2:]).replace("SIZE", str(size))
        yield "map", f"cut_to_{size}_bytes cut:{size} 41 {lines[1][1]} - {line}"
        for table in FILES["draw"]:
            yield table, f"cut_to_{size}_bytes cut:{size} 41 16 0 {lines[1][1]} - {line}"


def rows_of_case(lines, base, whole):
    """Yields the rows of a case, with the file that each stands in."""
    name, questions = lines[0][1], list(asked(lines))
    questions += fallen_back(questions)
    others = [it for it in questions if it[0] != "best"]
    for command, words, answered in [*others, *by_best(name, questions)]:
        status, stdout, line = answer(command, answered)
        fields = [hexadecimal(text_of(words[0])), *words[1:], status, hexadecimal(stdout), line]
        for table in FILES[command]:
            file, cut = font_of(lines, base, table)
            place = f"cut:{cut}" if cut is not None else "whole" if file == whole else file.hex()
            yield table, " ".join([name, place, *fields])


def main():
    whole, made = b"", {table: [] for table in HEADS}
    for lines, base in cases():
        whole = whole or base.file()
        rows = rows_of_cuts(lines) if lines[0][0] == "cuts" else rows_of_case(lines, base, whole)
        for table, row in rows:
            made[table].append(row)
    for table, lines in made.items():
        text = HEAD.format(*HEADS[table]) + f"font {whole.hex()}\n" + "\n".join(lines) + "\n"
        (HERE / f"{table}.txt").write_text(text, encoding="utf-8")


if __name__ == "__main__":
    main()
