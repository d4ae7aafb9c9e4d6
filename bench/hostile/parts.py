"""What the hostile fonts have in common: glyphs with programs, trees of components, texts."""
from dataclasses import dataclass

import small_fonts as small

# A component whose glyph is followed by a program.
PROGRAM = 0x100
# The most records of a glyph, and the most points.
RECORDS, POINTS = 32, 16384
# As many characters as a text has.
TEXT = 4096
# As many bytes as the program of a glyph may have.
CODE = 65535

# A prep that sets vectors alone: the font has programs, so those of its glyphs are run, and asks for no dropouts.
PLAIN = {"prep": b"\x01"}

# SPVTL and SFVTL of the points 0 and 1, which lie at a slant; reference points 1 and 2 are 0 and 2.
SLANTED = bytes.fromhex("B10001 06 B10001 08 B000 11 B002 12")


@dataclass(frozen=True)
class Hostile:
    """A font, a text, and the pixels per em. The lines are those of a job of many; else they all are the text. A
    variable font is drawn at an instance, a text of --axis."""

    font: bytes
    text: str
    size: int = 16
    lines: tuple = ()
    axis: str = ""


def line_of(glyphs, size=16, **sizes):
    """All characters of the text in one place, each a glyph of its own."""
    return Hostile(small.line_font(glyphs, **sizes), small.line_text(len(glyphs)), size)


def one_of(glyphs, size=16, **sizes):
    """A text of the first glyph; the others are its components."""
    return Hostile(small.line_font(glyphs[:1], hidden=glyphs[1:], **sizes), small.line_text(1), size)


def again(count, glyph=1):
    """So many composites of a glyph."""
    return [small.composite(small.record(small.OFFSETS, glyph, 0, 0))] * count


def composite_of(glyphs, code=None):
    """A composite of these glyphs, with a program or without."""
    flags = small.OFFSETS if code is None else small.OFFSETS | PROGRAM
    data = small.composite(*[small.record(flags, glyph, 0, 0) for glyph in glyphs])
    return data if code is None else data + small.words(len(code)) + code


def tree(depths, leaf, code=None):
    """Glyphs from 1 on: at each depth a composite of 32 times the next, and the leaf."""
    return [*[composite_of([depth + 2] * RECORDS, code) for depth in range(depths)], leaf]


def dotted(code, points=1):
    """A glyph of so many points in one place, with a program."""
    return small.with_program(small.dots(points), code)


def slanted(code):
    """A glyph of four points at a slant, with a program."""
    return small.with_program(small.simple([(0, 0), (150, 220), (256, 40), (70, 10)]), code)


def spread(points):
    """Makes a glyph of so many points, spread so that IUP interpolates them, with a program."""
    contour = [((it * 7919) % 1000, (it * 104729) % 1000) for it in range(points)]
    return lambda code: small.with_program(small.simple(contour), code)


def spread_contours(points, each):
    """The same in contours of a few points each."""
    contours = [
        [((it * 7919 + k * 31) % 1000, (it * 104729 + k * 17) % 1000) for k in range(each)]
        for it in range(points // each)
    ]
    return lambda code: small.with_program(small.simple(*contours), code)


def pushes(count, value=0):
    """So many entries of a value, by NPUSHB."""
    whole, rest = divmod(count, 255)
    return (b"\x40\xff" + bytes([value]) * 255) * whole + (bytes([0x40, rest]) + bytes([value]) * rest if rest else b"")


def touch(points, every):
    """MDAP of every so many of some points, along both axes."""
    numbers = list(range(0, points, every))
    code = b""
    for at in range(0, len(numbers), 250):
        part = numbers[at : at + 250]
        code += bytes([0x41, len(part)]) + small.words(*part) + b"\x2f" * len(part)
    return b"\x01" + code + b"\x00" + code


def steps_of(body):
    """How many instructions a piece of code has."""
    count = at = 0
    while at < len(body):
        op = body[at]
        if op == 0x40:
            at += 1 + body[at + 1]
        elif op == 0x41:
            at += 1 + 2 * body[at + 1]
        elif 0xB0 <= op <= 0xB7:
            at += op - 0xAF
        elif 0xB8 <= op <= 0xBF:
            at += 2 * (op - 0xB7)
        at, count = at + 1, count + 1
    return count


def function(body, number=0):
    """A font program that defines a function."""
    return bytes([0xB0, number, 0x2C]) + body + b"\x2d"


def calls(times):
    """So many calls of function 0."""
    code = b""
    while times > 0:
        part = min(times, 32767)
        code += b"\xb8" + small.words(part) + bytes.fromhex("B000 2A")
        times -= part
    return code


def looping(body, before=SLANTED, leaf=slanted, deep=True, times=None, **others):
    """A glyph that runs a body nearly 1,000,000 steps long; deep, it stands 1,024 times in the text's glyph."""
    times = times or 970_000 // (steps_of(body) + 2)
    tables = {"fpgm": function(body), **others}
    glyph = leaf(before + calls(times))
    return one_of(tree(2, glyph) if deep else [glyph], others=tables)
