"""What `--fit best` charges for the programs of a line, reckoned from the definitions alone."""
from itertools import accumulate

import small_fonts as small

# The work of a line, and the steps of one run.
WORK, STEPS = 50_000_000, 1_000_000
# The control values of a font, and the phantom points of a glyph.
VALUES, PHANTOMS = 65_535, 4
# The work that each point of a line's glyphs takes before the first glyph is made; contours and phantom points count.
POINT_WORK = 40

# Instructions of which each point named on the stack weighs 4; the loop variable is their count.
LOOPED = {0x32, 0x33, 0x38, 0x39, 0x3C, 0x80}
# Instructions of which each pair or entry weighs 2; the top of the stack is their count.
COUNTED = {0x5D, 0x71, 0x72, 0x73, 0x74, 0x75, 0x26}
# What a point of the glyph weighs: IUP, FLIPRGON and FLIPRGOFF.
OF_GLYPH = {0x30: 2, 0x31: 2, 0x81: 1, 0x82: 1}
# SHC and SHZ: each point of both zones weighs 4.
OF_ZONES = {0x34, 0x35, 0x36, 0x37}
# What instructions weigh beside their step, besides those of the sets above.
WEIGHTS = {
    **dict.fromkeys([0x2E, 0x2F, 0x3A, 0x3B, 0x3E, 0x3F, 0x48, *range(0xE0, 0x100)], 4),
    **dict.fromkeys(range(0xC0, 0xE0), 7),
    0x27: 8,
    **dict.fromkeys([0x06, 0x07, 0x08, 0x09, 0x0A, 0x0B, 0x0F], 32),
    **dict.fromkeys([0x86, 0x87], 48),
    **dict.fromkeys([0x49, 0x4A], 3),
    **dict.fromkeys([0x46, 0x47, 0x62], 2),
    # PUSHB and PUSHW: each value after the first.
    **{op: op % 8 for op in range(0xB0, 0xC0)},
    # The quick ones: SVTCA to SFVTCA, SFVTPV, RTG, RTHG, DUP to SWAP, EIF, SUB, JROT.
    **dict.fromkeys([*range(0x06), 0x0E, 0x18, 0x19, *range(0x20, 0x24), 0x59, 0x61, 0x78], 0),
}
# What each other instruction weighs beside its step.
OTHERS = 1
IP = 0x39


class Machine:
    """What a run is begun with: so many control values, storage places and twilight points, and the numbers of the
    functions and instructions that are defined.
    """

    def __init__(self, values=0, storage=4, twilight=4, functions=(), instructions=()):
        self.values, self.storage, self.twilight = values, storage, twilight
        self.functions, self.instructions = set(functions), set(instructions)

    def begun(self):
        """What the copies for the font program weigh: nothing is defined yet."""
        return min(self.values, VALUES) + self.storage + self.twilight

    def copied(self):
        """What the copies for each later run weigh: also the bodies, and a place for each number up to the greatest."""
        return self.begun() + sum(len(it) + max(it, default=-1) + 1 for it in (self.functions, self.instructions))


def step(op, data=b"", *, stack=0, top=0, loops=1, points=0, twilight=0, skipped=0):
    """An instruction with the bytes behind its opcode, and the work of its step: by the entries of the stack before it
    and the top one, the loop variable, the glyph's points with its phantom points, the twilight points, and the bytes
    that it skips.
    """
    if op in LOOPED:
        over = 4 * min(loops, stack) + (4 if op == IP else 0)
    elif op in COUNTED:
        over = 2 * min(abs(top), stack)
    elif op in OF_GLYPH:
        over = OF_GLYPH[op] * points
    elif op in OF_ZONES:
        over = 4 * (points + twilight)
    elif op in (0x40, 0x41):
        over = data[0]
    else:
        over = WEIGHTS.get(op, OTHERS)
    return bytes([op]) + data, 1 + over + skipped


def push(*values):
    """PUSHB or PUSHW of at most eight values."""
    if all(0 <= it < 256 for it in values):
        return step(0xAF + len(values), bytes(values))
    return step(0xB7 + len(values), small.words(*values))


def number(value):
    """Leaves a number of at most 65,535 on the stack: PUSHW, and above 32,767 two times ADD."""
    return [push(value)] if value < 32768 else [push(32767, 32767), step(0x60), push(value - 65534), step(0x60)]


def definition(op, value, body=()):
    """FDEF or IDEF of a number, whose body is skipped, and ENDF."""
    inner = code_of(body) + b"\x2d"
    code, work = step(op, skipped=len(inner))
    return [*number(value), (code + inner, work)]


def code_of(steps):
    """The code of these steps."""
    return b"".join(code for code, _ in steps)


def work_of(steps):
    """The work of these steps, each once."""
    return sum(work for _, work in steps)


def refused_at(steps, work):
    """The place of the first step for which too little of the work is left."""
    places = [0, *accumulate(len(code) for code, _ in steps)]
    for place, used in zip(places, accumulate(work for _, work in steps)):
        if used > work:
            return place
    raise ValueError("there is work enough")
