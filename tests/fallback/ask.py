"""Asks the program for pictures with `--fit fallback`, and compares them with those of single characters. `run` calls
it with the path of the program and the part that is asked, and says at its head what the parts are.

Prints a line for each font and size, `PASSED FAILED NAME`, with numbers of cases, and behind it lines that begin with
two blanks, which say what was other; and a table, whose lines begin with `|`.
"""
import os
import subprocess
import sys
import zlib
from concurrent.futures import ThreadPoolExecutor
from typing import NamedTuple

FOLDER = "/usr/share/fonts/truetype"
FONTS = {
    "DejaVu Sans": f"{FOLDER}/dejavu/DejaVuSans.ttf",
    "DejaVu Serif": f"{FOLDER}/dejavu/DejaVuSerif.ttf",
    "Liberation Sans": f"{FOLDER}/liberation/LiberationSans-Regular.ttf",
    "FreeSans": f"{FOLDER}/freefont/FreeSans.ttf",
}
SIZES = 9, 12, 16, 24, 48
LINES = {
    "English": "The quick brown fox jumps over the lazy dog",
    "Greek": "Ξεσκεπάζω την ψυχοφθόρα βδελυγμία",
    "Russian": "Съешь же ещё этих мягких французских булок, да выпей чаю",
    "Czech": "Příliš žluťoučký kůň úpěl ďábelské ódy",
}
MOST = 4096
# Ink is seen so far out of a character's own columns and rows, and in a line's margin.
AROUND, MARGIN = 64, 8


class Answer(NamedTuple):
    status: int
    stdout: bytes
    stderr: list


class Piece(NamedTuple):
    """What a character, or a piece of a text, gives: its advance, its rows with the margin, and what is told of it."""

    advance: int
    rows: list
    told: list


class Asked:
    """The program, over a font and at a size. A row is a number whose lowest bit is column 0."""

    def __init__(self, program, font, size):
        self.program, self.font, self.size = program, font, size

    def run(self, *words):
        ran = subprocess.run([self.program, *words], stdin=subprocess.DEVNULL, capture_output=True)
        return Answer(ran.returncode, ran.stdout, ran.stderr.decode(errors="replace").splitlines())

    def draw(self, fit, text, margin=AROUND):
        words = "--size", str(self.size), "--margin", str(margin), "--fit", fit
        return self.run("draw", *words, "--", self.font, text)

    def glyphs(self, text):
        """Returns the glyph of each character."""
        parts = (text[at : at + MOST] for at in range(0, len(text), MOST))
        lines = [line for part in parts for line in self.run("map", "--", self.font, part).stdout.decode().splitlines()]
        return dict(zip(text, (int(line.split()[1]) for line in lines)))

    def wanted_alone(self, it, glyph):
        """Returns what is to be answered of a character, by the other two ways to fit."""
        full = self.draw("full", it)
        fault = full.stderr[0].removeprefix("tt_render: ") if full.stderr else ""
        if full.status != 1 or not 30 <= int(fault.split()[1]) <= 50:
            return full
        none = self.draw("none", it)
        return none if none.status else none._replace(stderr=[f"tt_render: glyph {glyph} unfitted: {fault}"])

    def alone(self, it, glyph):
        """Returns a character's piece, and what is other about its answer."""
        wanted, got = self.wanted_alone(it, glyph), self.draw("fallback", it)
        other = [] if got == wanted else [f"  {it!r}: wanted {short(wanted)}, got {short(got)}"]
        return piece(wanted, AROUND), other

    def line_other(self, text, pieces):
        """Returns what is other about a line than its pieces say."""
        got, wanted = self.draw("fallback", text, MARGIN), joined(pieces)
        return [] if got == wanted else [f"  {text[:60]!r}: wanted {short(wanted)}, got {short(got)}"]


def short(answer):
    picture = f"{len(answer.stdout)} bytes of the sum {zlib.crc32(answer.stdout):08X}"
    return f"status {answer.status}, {picture} and {answer.stderr[:3]} of {len(answer.stderr)} lines"


def piece(answer, margin):
    """Returns the piece that an answer is of."""
    assert answer.status == 0, answer
    _, size, body = answer.stdout.split(b"\n", 2)
    width, height = map(int, size.split())
    stride = (width + 7) // 8
    rows = (body[r * stride : (r + 1) * stride] for r in range(height))
    rows = [int("".join(f"{it:08b}" for it in row)[:width][::-1], 2) for row in rows]
    return Piece(width - 2 * margin, rows, answer.stderr)


def joined(pieces):
    """Returns the answer of a line of pieces, of which each is at the pen that the advances before it make."""
    width = sum(it.advance for it in pieces) + 2 * MARGIN
    rows = [0] * (len(pieces[0].rows) - 2 * AROUND + 2 * MARGIN)
    pen, told = MARGIN - AROUND, {}
    for it in pieces:
        told.update(dict.fromkeys(it.told))
        for r, row in enumerate(it.rows[AROUND - MARGIN : len(it.rows) - AROUND + MARGIN]):
            rows[r] |= row << pen if pen >= 0 else row >> -pen
        pen += it.advance
    stride = (width + 7) // 8
    cut = (1 << width) - 1
    bits = (f"{row & cut:0{width}b}"[::-1].ljust(8 * stride, "0") for row in rows)
    body = b"".join(int(row, 2).to_bytes(stride, "big") for row in bits)
    return Answer(0, f"P4\n{width} {len(rows)}\n".encode() + body, list(told))


def ask_lines(program, pool):
    table = {name: [] for name in LINES}
    for font, path in FONTS.items():
        for size in SIZES:
            asked = Asked(program, path, size)
            characters = sorted({it for text in LINES.values() for it in text})
            glyphs = asked.glyphs("".join(characters))
            pieces, others = zip(*pool.map(asked.alone, characters, (glyphs[it] for it in characters)))
            pieces = dict(zip(characters, pieces))
            others = [*others, *(asked.line_other(text, [pieces[it] for it in text]) for text in LINES.values())]
            bad = [it[0] for it in others if it]
            print(len(others) - len(bad), len(bad), f"{font} at {size} pixels per em")
            print(*bad[:6], sep="\n", end="\n" * bool(bad))
            for name, text in LINES.items():
                of_all = {glyphs[it]: pieces[it].told for it in text}
                table[name].append((sum(map(bool, of_all.values())), len(of_all)))
    tell(table)


def tell(table):
    """Prints how many glyphs of each line are not fitted, of how many."""
    print("| glyphs not fitted |", " | ".join(f"{font} at {', '.join(map(str, SIZES))}" for font in FONTS), "|")
    print("|---" * (1 + len(FONTS)) + "|")
    for name, counts in table.items():
        cells = [counts[at : at + len(SIZES)] for at in range(0, len(counts), len(SIZES))]
        told = (f"{', '.join(str(few) for few, _ in cell)} of {cell[0][1]}" for cell in cells)
        print(f"| {name} |", " | ".join(told), "|")


def distinct(asked):
    """Returns the first 4,096 characters, but no controls, that have glyphs of their own."""
    seen = {}
    for it, glyph in asked.glyphs("".join(map(chr, [*range(0x20, 0x7F), *range(0xA0, 0xD800)]))).items():
        seen.setdefault(glyph, it)
    return "".join([it for glyph, it in seen.items() if glyph][:MOST])


def ask_many(program, pool):
    asked = Asked(program, FONTS["DejaVu Sans"], 3)
    text = distinct(asked)
    for name, line in ("forwards", text), ("backwards", text[::-1]):
        parts = [line[at : at + 64] for at in range(0, MOST, 64)]
        pieces = pool.map(lambda it: piece(asked.draw("fallback", it), AROUND), parts)
        other = asked.line_other(line, list(pieces))
        print(1 - len(other), len(other), f"{len(line)} glyphs {name}")
        print(*other, sep="\n", end="\n" * bool(other))


def main():
    program, part = sys.argv[1:]
    with ThreadPoolExecutor(os.cpu_count()) as pool:
        {"lines": ask_lines, "many": ask_many}[part](program, pool)


if __name__ == "__main__":
    main()
