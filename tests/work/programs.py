"""Lines whose programs need as much work as there is, or more."""
import small_fonts as small
from asking import told, unfitted, places_of
from charging import PHANTOMS, POINT_WORK, STEPS, VALUES, WORK
from charging import Machine, code_of, definition, number, push, refused_at, step, work_of

# Three steps a round, which stand at 0, 3 and 4: PUSHW -4, DUP, JROT.
ROUND, PLACES = bytes.fromhex("B8FFFC 20 78"), (0, 3, 4)
FDEF, IDEF = 0x2C, 0x89
# A control value program of one step: with neither this one nor a font program, no glyph's program would be run.
PREP = [step(0x00)]
# Where the program of a simple glyph of one contour begins.
CODE = 14


def pointed(*points):
    """The work that glyphs of one contour and of these points take before the first of them is made."""
    return POINT_WORK * sum(it + 1 + PHANTOMS for it in points)


def endless_font(count):
    """So many glyphs of a point, each with a program without end; and where each program stands in glyf."""
    glyphs = [small.with_program(small.dots(1), ROUND)] * count
    return small.line_font(glyphs, others={"prep": code_of(PREP)}), [it + CODE for it in places_of(glyphs)]


def stopped_at(count):
    """The step at which each of so many programs without end is refused."""
    copied = Machine().copied()
    left = WORK - pointed(*[1] * count) - 2 * copied - work_of(PREP)
    for _ in range(count):
        steps = min(STEPS, left - copied) if left >= copied else 0
        left = left - copied - STEPS if left - copied >= STEPS else 0
        yield steps


def programs(asked):
    """101 glyphs whose programs have no end, in one line: which of them is refused where."""
    count = 101
    data, places = endless_font(count)
    asked.font.write_bytes(data)
    text = small.line_text(count)
    status, picture, _ = asked.draw("none", 16, text)
    steps = list(stopped_at(count))
    lines = [unfitted(it + 1, places[it] + PLACES[steps[it] % 3]) for it in range(count)]
    told("programs: 101 glyphs", asked.draw("best", 16, text), (status, picture, lines))
    told("programs: forwards and backwards", asked.draw("best", 16, text + text[::-1]), (status, None, lines))
    again = [unfitted(count - it, places[count - 1 - it] + PLACES[steps[it] % 3]) for it in range(count)]
    told("programs: backwards", asked.draw("best", 16, text[::-1]), (status, None, again))
    first = f"tt_render: glyf+{places[0] + PLACES[STEPS % 3]}: 30 StepLimit"
    told("programs: full", asked.draw("full", 16, text), (1, b"", [first]))
    unbounded = [unfitted(it + 1, place + PLACES[STEPS % 3]) for it, place in enumerate(places)]
    told("programs: fallback", asked.draw("fallback", 16, text), (status, None, unbounded))


# As many points as a glyph may have.
POINTS = 16384


def filling(work):
    """A program for a glyph of so many points that needs this much work: FLIPRGON over all of them, time after time, and
    steps of 1.
    """
    flip = [push(0, 0), step(0x81, points=POINTS + PHANTOMS)]
    rounds, rest = divmod(work, work_of(flip))
    return flip * rounds + [step(0x00)] * rest


def filler(work):
    """A glyph whose program needs this much work."""
    return small.with_program(small.dots(POINTS), code_of(filling(work)))


# A rectangle of one pixel by two at 16 pixels per em; no step of these parts moves its points.
SQUARE = small.simple(small.square(0, 0, 64, 128))
SQUARE_POINTS = 4 + PHANTOMS


def tables_of(machine, glyphs, fpgm):
    """The tables that a run of such a machine is begun with."""
    tables = {"cvt ": bytes(2 * machine.values), "fpgm": code_of(fpgm), "prep": code_of(PREP)}
    return {"maxp": small.maxp(glyphs + 1, machine.twilight, machine.storage)} | {k: v for k, v in tables.items() if v}


def exactly(asked, name, machine, steps, fpgm=()):
    """Two cases of one glyph: what is left of the work is just enough for it, or 1 too little. Before it in the line
    comes a glyph that leaves this much.
    """
    asked_for = pointed(POINTS, 4) + machine.begun() + work_of([*fpgm, *PREP]) + 3 * machine.copied() + work_of(steps)
    for short, kind in enumerate(("enough", "1 too little")):
        glyphs = [filler(WORK - asked_for + short), small.with_program(SQUARE, code_of(steps))]
        asked.font.write_bytes(small.line_font(glyphs, others=tables_of(machine, 2, fpgm)))
        status, picture, _ = asked.draw("none", 16, small.line_text(2))
        place = list(places_of(glyphs))[1] + CODE + refused_at(steps, work_of(steps) - 1)
        lines = [unfitted(2, place)] if short else []
        told(f"{name}: {kind}", asked.draw("best", 16, small.line_text(2)), (status, picture, lines))


def fitted_until(asked, name, machine, fpgm=(), count=4095):
    """A case of many glyphs with a program of one step: the first of them are fitted, as many as the work allows."""
    glyphs = [small.with_program(small.dots(1), b"\x00")] * count
    asked.font.write_bytes(small.line_font(glyphs, others=tables_of(machine, count, fpgm)))
    text = small.line_text(count)
    status, picture, _ = asked.draw("none", 16, text)
    left = WORK - pointed(*[1] * count) - machine.begun() - work_of([*fpgm, *PREP]) - machine.copied()
    fitted = left // (machine.copied() + 1)
    lines = [unfitted(it + 1, place + CODE) for it, place in enumerate(places_of(glyphs)) if it >= fitted]
    told(f"{name}: {min(fitted, count)} of {count} glyphs", asked.draw("best", 16, text), (status, picture, lines))


def functions(asked):
    """Functions and instructions with small and great numbers: each run copies their bodies and their places."""
    for numbers in [65_535], [0]:
        fpgm = definition(FDEF, numbers[0])
        fitted_until(asked, f"functions: {numbers[0]} alone", Machine(functions=numbers), fpgm)
    for name, numbers in {
        "65,535 alone": [65_535],
        "0 and 65,535": [0, 65_535],
        "0 to 999": range(1000),
        "999 to 0": range(999, -1, -1),
        "7 twice": [7, 7],
    }.items():
        fpgm = [it for n in numbers for it in definition(FDEF, n)]
        exactly(asked, f"functions: {name}", Machine(functions=numbers), [step(0x00)], fpgm)
    for name, numbers in {"instruction 0xAF alone": [0xAF], "instructions 0x8F to 0xAF": range(0x8F, 0xB0)}.items():
        fpgm = [it for n in numbers for it in definition(IDEF, n)]
        exactly(asked, f"functions: {name}", Machine(instructions=numbers), [step(0x00)], fpgm)
    fpgm = [*definition(FDEF, 300), *definition(IDEF, 0xA0)]
    exactly(asked, "functions: 300, and instruction 0xA0", Machine(functions=[300], instructions=[0xA0]), [step(0x00)],
            fpgm)


TWILIGHT = 50
POP, CLEAR, SLOOP = step(0x21), step(0x22), step(0x17)


def on_points(op, *pushed, **state):
    """A round of an instruction that leaves nothing on the stack."""
    return [push(*pushed), step(op, stack=len(pushed), top=pushed[-1], **state)]


def five_of(op):
    """A round of an instruction that goes over five points."""
    return [push(0, 0, 0, 0, 0), push(5), SLOOP, step(op, stack=5, loops=5)]


def answering(op, *pushed):
    """A round of an instruction that leaves an answer; the last step of all is the instruction itself."""
    return [CLEAR, push(*pushed), step(op, stack=len(pushed))]


def skipping(count):
    """IF of 0, a part of so many bytes that is skipped, and EIF."""
    code, work = step(0x58, skipped=count + 1)
    return [push(0), (code + b"\x4f" * count + b"\x59", work)]


def rounds_of_weights():
    """The steps of a round of each kind of instruction, by its name."""
    zones = dict(points=SQUARE_POINTS, twilight=TWILIGHT)
    flip = lambda op: on_points(op, 0, 0, points=SQUARE_POINTS)
    return {
        "SHP": on_points(0x32, 0),
        "SHP of five": five_of(0x33),
        "SHPIX": on_points(0x38, 0, 0),
        "IP": on_points(0x39, 0),
        "IP of five": five_of(0x39),
        "ALIGNRP": on_points(0x3C, 0),
        "ALIGNRP of five": five_of(0x3C),
        "FLIPPT": on_points(0x80, 0) * 2,
        "DELTAP1": on_points(0x5D, 0, 0, 0, 0, 2),
        "DELTAC3": on_points(0x75, 0, 0, 0, 0, 2),
        "MINDEX": [CLEAR, *on_points(0x26, 0, 0, 0, 3)],
        "IUP[y]": [step(0x30, points=SQUARE_POINTS)],
        "IUP[x]": [step(0x31, points=SQUARE_POINTS)],
        "FLIPRGON": flip(0x81),
        "FLIPRGOFF": [*flip(0x82), *flip(0x81)],
        "SHC[rp2]": on_points(0x34, 0, **zones),
        "SHC[rp1]": on_points(0x35, 0, **zones),
        "SHZ[rp2]": on_points(0x36, 1, **zones),
        "SHZ[rp1]": on_points(0x37, 1, **zones),
        "MDAP": on_points(0x2E, 0),
        "MSIRP": on_points(0x3A, 0, 0),
        "MIAP": on_points(0x3E, 0, 0),
        "SCFS": on_points(0x48, 0, 0),
        "MDRP": on_points(0xC0, 0),
        "MIRP": on_points(0xE0, 0, 0),
        "ALIGNPTS": on_points(0x27, 0, 0),
        "SPVTL": on_points(0x06, 0, 1),
        "SFVTL": on_points(0x09, 0, 1),
        "SPVFS": on_points(0x0A, 0, 0x4000),
        "SFVFS": on_points(0x0B, 0, 0x4000),
        "ISECT": on_points(0x0F, 0, 0, 1, 0, 3),
        "SDPVTL[0]": on_points(0x86, 0, 1),
        "SDPVTL[1]": on_points(0x87, 0, 1),
        "MD[0]": answering(0x49, 0, 1),
        "MD[1]": answering(0x4A, 0, 1),
        "GC[0]": answering(0x46, 0),
        "GC[1]": answering(0x47, 0),
        "ROLL": answering(0x8A, 0, 0, 0),
        "DIV": answering(0x62, 64, 64),
        "MUL": answering(0x63, 64, 64),
        "JMPR": on_points(0x1C, 1),
        "ROUND": [it for op in range(0x68, 0x6C) for it in answering(op, 0)],
        "NROUND": [it for op in range(0x6C, 0x70) for it in answering(op, 0)],
        "SROUND": on_points(0x76, 0x48),
        "S45ROUND": on_points(0x77, 0x48),
        "JROT": on_points(0x78, 1, 0),
        "JROF": on_points(0x79, 1, 1),
        "SSW": on_points(0x1F, 0),
        "DEBUG": on_points(0x4F, 0),
        "PUSHB of four": [CLEAR, push(0, 0, 0, 0)],
        "PUSHB of five": [CLEAR, push(0, 0, 0, 0, 0)],
        "PUSHB of eight": [CLEAR, push(*[0] * 8)],
        "PUSHW of four": [CLEAR, push(-1, 0, 0, 0)],
        "PUSHW of five": [CLEAR, push(-1, 0, 0, 0, 0)],
        "PUSHW of eight": [CLEAR, push(-1, *[0] * 7)],
        "NPUSHB": [CLEAR, step(0x40, bytes([3, 0, 0, 0]))],
        "NPUSHW": [CLEAR, step(0x41, bytes([2, 0, 0, 0, 0]))],
        "IF": skipping(200),
        # SVTCA, MPPEM, MPS, ADD, DUP, SUB, POP, SRP0
        "others": [step(0x00), step(0x4B), step(0x4C), step(0x60), step(0x20), step(0x61), POP, push(0), step(0x10)],
    }


def weights(asked):
    """A hundred rounds of each kind of instruction, with just enough work for them, and with 1 too little."""
    machine = Machine(values=1, twilight=TWILIGHT)
    for name, steps in rounds_of_weights().items():
        exactly(asked, f"weights: {name}", machine, steps * 100)


RCVT, RS, WS, ADD, SCFS = step(0x45), step(0x43), step(0x42), step(0x60), step(0x48)


def tall_font(height, code=b"", **tables):
    """A rectangle of 2 pixels by so many, at 16 pixels per em, in a picture of 16 rows."""
    glyph = small.with_program(small.simple(small.square(0, 0, 128, 64 * height)), code)
    return small.line_font([glyph], advance=128, ascent=1024, others=tables)


def raised(*value):
    """Sets the upper points of the rectangle to the height of these steps' value and 4 pixels."""
    return code_of([step(0x00)] + [it for point in (1, 2) for it in (push(point), *value, push(256), ADD, SCFS)])


def values(asked):
    """Control values up to the last one that `best` reads, and past it. Each of the last is 8 pixels."""
    text, pictures = small.line_text(1), {}
    for height in 4, 12:
        asked.font.write_bytes(tall_font(height))
        pictures[height] = asked.draw("none", 16, text)
    for count in VALUES, VALUES + 1, VALUES + 2:
        table = bytes(2 * VALUES - 2) + small.words(512) * (count - VALUES + 1)
        for index in VALUES - 1, VALUES:
            value = [*number(index), RCVT]
            stored = code_of([push(0), *value, WS])
            for kind, tables, code in (
                ("by a glyph", {"prep": code_of(PREP)}, raised(*value)),
                ("by prep", {"prep": stored}, raised(push(0), RS)),
            ):
                asked.font.write_bytes(tall_font(4, code, **{"cvt ": table, **tables}))
                name = f"values: {index:,} of {count:,}, read {kind}"
                read = 12 if index < VALUES else 4
                told(f"{name}: best", asked.draw("best", 16, text), pictures[read])
                if index < count:
                    told(f"{name}: full", asked.draw("full", 16, text), pictures[12])
                    told(f"{name}: fallback", asked.draw("fallback", 16, text), pictures[12])
    for count in VALUES - 1, VALUES, VALUES + 1:
        exactly(asked, f"values: {count:,} copied", Machine(values=count), [step(0x00)])
    many = Machine(values=2_500_000, storage=65_535, twilight=65_535)
    fitted_until(asked, "values: 2,500,000 copied", many)
