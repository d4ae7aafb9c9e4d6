"""Each instruction in a loop: eight small numbers are pushed, the instruction runs four times, the stack is cleared."""
from functools import partial

from hostile.parts import POINTS, SLANTED, calls, function, line_of, looping, spread, steps_of
from hostile.programs import UNNAMED

# Instructions that jump, or that bytes follow: ELSE, JMPR, LOOPCALL, CALL, FDEF, ENDF, IF, JROT, JROF, IDEF, pushes.
JUMPS = {0x1B, 0x1C, 0x2A, 0x2B, 0x2C, 0x2D, 0x40, 0x41, 0x58, 0x78, 0x79, 0x89, *range(0xB0, 0xC0)}
LEFT_OUT = {*JUMPS, *UNNAMED}
# PUSHB of eight numbers: points of the glyph, all of them in the stack.
OPERANDS = bytes.fromhex("B7 03 01 02 00 03 02 00 01")
CLEAR = b"\x22"


def rounds_of(op):
    """Four rounds of an instruction. Where it takes more than there is, it goes on with less."""
    return (OPERANDS + bytes([op]) * 4 + CLEAR) * 4


def alone(op):
    """The instruction by vectors at a slant, in a glyph of four points."""
    return looping(rounds_of(op))


def beside_points(op):
    """The instruction in 60 glyphs of 16,384 points."""
    body = rounds_of(op)
    glyph = spread(POINTS)(SLANTED + calls(970_000 // (steps_of(body) + 2)))
    return line_of([glyph] * 60, others={"fpgm": function(body)})


FONTS = {f"op_{op:02X}": partial(alone, op) for op in range(0x100) if op not in LEFT_OUT}
# Instructions that weigh more than their step, or go over points.
BESIDE = {"iup": 0x30, "sdpvtl": 0x86, "md": 0x49, "md_original": 0x4A, "gc": 0x46, "roll": 0x8A, "round": 0x68}
BESIDE |= {"sround": 0x76, "shp": 0x32, "shc": 0x34, "shz": 0x36, "ip": 0x39, "isect": 0x0F, "utp": 0x29}
BESIDE_FONTS = {f"{name}_beside_points": partial(beside_points, op) for name, op in BESIDE.items()}
