"""Programs of quick instructions in disorder, so that a processor foresees no way of the interpreter; and instructions
whose points or values lie far apart in memory.
"""
import random

import small_fonts as small
from hostile.parts import PLAIN, RECORDS, SLANTED, Hostile, calls, composite_of, function, looping, slanted, steps_of
from hostile.sizes import each_before

# A program runs so many steps, and some bytes of instructions in disorder are the function that it calls.
STEPS, BYTES = 960_000, 30_000
# SVTCA to SFVTCA, SFVTPV, RTG, RTHG, DUP, POP, SWAP, SUB, EIF: each counts one step. DUP and PUSHB fill the stack.
QUICK = [bytes([op]) for op in (*range(6), 0x0E, 0x18, 0x19, 0x20, 0x20, 0x21, 0x23, 0x61, 0x59)] + [b"\xb0\x07"] * 3
# JROT and JROF over the next instruction, one that jumps, one that does not.
JUMPS = [bytes.fromhex(it) for it in ("B1 02 01 78 20", "B1 02 00 79 21", "B1 03 00 78 23")]
# Instructions of arithmetic, of the graphics state, of rounding.
CHEAP = [
    bytes([op])
    for op in (
        *(0x8A, 0x68, 0x69, 0x6A, 0x60, *range(0x64, 0x68), 0x3D, 0x7A, 0x7C, 0x7D, *range(0x10, 0x16), 0x4B),
        *(*range(0x50, 0x54), 0x5A, 0x5B, 0x5C, 0x8B, 0x8C, 0x1D, 0x1A, 0x5E, 0x4D, 0x4E, 0x85),
    )
]
STACK = [b"\x20", b"\x21", b"\x23", b"\x61", b"\xb0\x07"]
# IF that is taken, that is not, and with ELSE.
BRANCHES = [bytes.fromhex(it) for it in ("B0 01 58 20 59", "B0 00 58 20 59", "B0 00 58 20 1B 21 59")]
ROUNDS = [bytes.fromhex(it) for it in "68 69 6A 18 19 3D 7A 7C 7D B04B76 B02177 B007 20".split()]
# GC, MD, MDAP, SCFS, MSIRP, MDRP, MIAP, MIRP, IP, SHP, ALIGNRP of the points of a glyph at a slant, and CLEAR.
MOVES = """B00346 B1010249 B0032F B1032048 B103203A B003CF B003DF B103003E B10300FF B00339 B00332 B0033C 22 0D 0C"""
MOVES = [bytes.fromhex(it) for it in MOVES.split()]
VECTORS = [bytes([op]) for op in (*range(6), 0x0E)]
SPREAD = [bytes([op]) for op in (*range(6), 0x0E, 0x18, 0x19, 0x59, 0x20, 0x21, 0x23, 0x61)]
FEW = STACK + [bytes([op]) for op in (0x00, 0x01, 0x18, 0x19, 0x59, 0x0E, 0x04, 0x02)]


def shuffled(kinds, size=BYTES):
    """Instructions of these kinds in disorder, CLEAR behind them, and how often a program may call them."""
    choose, body = random.Random(1), b""
    while len(body) < size:
        body += choose.choice(kinds)
    body += b"\x22"
    return body, max(1, STEPS // (steps_of(body) + 3))


def disordered(kinds, size=BYTES, before=b""):
    """A tree of glyphs whose programs call these instructions."""
    body, times = shuffled(kinds, size)
    return looping(body, before, times=times)


def ordered():
    """The quick instructions in order: as many of each kind, all of a kind after each other."""
    body, times = shuffled(QUICK)
    kinds, at = [], 0
    while at < len(body) - 1:
        length = 2 if body[at] == 0xB0 else 1
        kinds.append(body[at : at + length])
        at += length
    return looping(b"".join(sorted(kinds)) + b"\x22", b"", times=times)


def in_lines(count):
    """Lines of a glyph each: all but the last share what a call may take before it, and the last takes all the work."""
    body, times = shuffled(QUICK)
    shown = count - 1
    mid, long, short = (count + it for it in (1, 2, 3))
    # Five programs a line; the points and the copies take less than a hundredth.
    calls_each = each_before(count) * 99 // 100 // 5 // (steps_of(body) + 2)
    glyphs = [*[composite_of([short] * 5)] * shown, composite_of([mid] * RECORDS)]
    hidden = [composite_of([long] * RECORDS), slanted(calls(times)), slanted(calls(calls_each))]
    font = small.line_font(glyphs, hidden=hidden, others={**PLAIN, "fpgm": function(body)})
    text = small.line_text(count)
    return Hostile(font, text[0], lines=tuple(text))


def apart(code, operands=1, before=b"", **others):
    """An instruction with operands anywhere among 65,535 twilight points, or control values, at a slant or along an axis:
    each is far from the one before it.
    """
    choose, body = random.Random(5), b""
    count = 252 // operands * operands
    for _ in range(12):
        numbers = [choose.randrange(65535) for _ in range(count)]
        body += bytes([0x41, count]) + small.words(*numbers) + code * (count // operands) + b"\x22"
    return looping(body, before + b"\xb0\x00\x16", maxp=small.maxp(4, 65535, 65535), **others)


VALUES = {"cvt ": bytes([0, 64]) * 65535}
FONTS = {
    "quick": lambda: disordered(QUICK),
    "quick_ordered": ordered,
    "quick_jumps": lambda: disordered(QUICK + JUMPS * 3),
    "quick_lines": lambda: in_lines(40),
    "cheap": lambda: disordered(QUICK + CHEAP),
    "stack": lambda: disordered(STACK),
    "branches": lambda: disordered(BRANCHES + [b"\x20", b"\x61", b"\x23"]),
    "roundings": lambda: disordered(ROUNDS),
    "moves_apart": lambda: disordered(MOVES, before=SLANTED),
    "few": lambda: disordered(FEW, 60_000),
    "spread": lambda: disordered(SPREAD, 60_000),
    "vectors": lambda: disordered(VECTORS, 60_000),
    "apart_gc": lambda: apart(b"\x46\x21", before=SLANTED),
    "apart_gc_axis": lambda: apart(b"\x46\x21"),
    "apart_md": lambda: apart(b"\x49\x21", 2, SLANTED),
    "apart_mdap": lambda: apart(b"\x2f", 1, SLANTED),
    "apart_miap": lambda: apart(b"\x3f", 2, SLANTED, **VALUES),
    "apart_mdrp": lambda: apart(b"\xdf", 1, SLANTED),
    "apart_mirp": lambda: apart(b"\xff", 2, SLANTED, **VALUES),
    "apart_rcvt": lambda: apart(b"\x45\x21", **VALUES),
    "apart_rs": lambda: apart(b"\x43\x21"),
    "apart_sdpvtl": lambda: apart(b"\x86", 2, SLANTED),
    "apart_isect": lambda: apart(b"\x0f", 5, SLANTED),
}
