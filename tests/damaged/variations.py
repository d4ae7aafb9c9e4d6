"""Damaged tables of variable fonts: fvar, avar, gvar, HVAR, MVAR, cvar and GDEF of small fonts are cut to each length,
with each byte 00, FF and itself with the lowest bit turned, with each word in turn another one, and with several bytes
of each at random. What `map` answers at an instance, and how a line is refused or how large its picture is, is what the
plain readers of ../variations say; of fonts with programs a line has a picture, or one of the refusals that may come.

`tt_test_answers fonts` is asked where it takes axes, and tt_render about some of the fonts."""
import itertools
import os
import random
import re
import sys
from concurrent.futures import ProcessPoolExecutor
from pathlib import Path

TESTS = Path(__file__).resolve().parent.parent
sys.path[:0] = [str(TESTS / it) for it in (".", "variations", "kerning", "label", "damaged", "characters", "faces")]
import axes
import model
from asking import NOTHING, answer_of, asked, question, words_of
from faces import run
from fonts import font_of, tables_in
from rows import rows

# The rows of ../variations whose fonts are damaged, with an instance of each.
BASES = (
    ("axis 400", "wght=650"),
    ("avar 525", "wght=525"),
    ("two axes wght=900", "wght=650,wdth=125"),
    ("region of its own 400", "wght=575"),
    ("shared peak and a region", "wght=775"),
    ("points 2 and 3", "wght=700"),
    ("shared points", "wght=900"),
    ("two contours, each by itself", "wght=900"),
    ("second component alone", "wght=900"),
    ("HVAR", "wght=900"),
    ("map of words", "wght=650"),
    ("rise and depth", "wght=650"),
    ("two tuples", "wght=900"),
    ("instance 0", "wght=100"),
    ("offsets of four bytes", "wght=900"),
)
TAGS = b"fvar", b"avar", b"gvar", b"HVAR", b"MVAR", b"cvar", b"GDEF"
# Words that take the place of each word in turn, and bytes that take that of some at random.
WORDS = 0xFFFF, 0x8000, 0x4000, 0x2000, 0x0100, 0x0002, 0x0001, 0x0000
BYTES = 0, 1, 2, 3, 4, 0x20, 0x40, 0x7F, 0x80, 0xA0, 0xC0, 0xFF
# So many damaged fonts at the least, and so many at random.
LEAST, RANDOM = 20_000, 9_000
KINDS = "map", "none", "best"
TEXT, SIZE = "AB", 16
# The refusals of a line in a font with programs.
OF_TABLES = r"[fg]var\+\d+: \d+ \w+|glyf\+\d+: 23 CoordRange|file\+\d+: 4 TableRange"
MAY_COME = re.compile(rf"tt_render: (?:{OF_TABLES}|6[235] \w+)\|")
# tt_render is asked about one in so many.
EACH = 97


def bases():
    """Returns the fonts that are damaged, with their instances: each row's name, its font and a text of --axis."""
    found = {row.name: row.font for row in rows() if row.font is not None}
    return [(name, found[name], option) for name, option in BASES if name in found]


def in_turn(table):
    """Yields a table cut to each length, with each byte and with each word in turn another one."""
    for at, byte in enumerate(table):
        yield table[:at]
        for other in sorted({0x00, 0xFF, byte ^ 1} - {byte}):
            yield table[:at] + bytes([other]) + table[at + 1 :]
    for at in range(0, len(table) - 1, 2):
        for word in WORDS:
            yield table[:at] + word.to_bytes(2, "big") + table[at + 2 :]


def at_random(tables, count, seed):
    """Yields fonts with several bytes of their tables changed, or a table cut or longer."""
    chance = random.Random(seed)
    tags = [it for it in TAGS if it in tables]
    for _ in range(count):
        made = dict(tables)
        for _ in range(chance.choice([1, 2, 2, 3, 5, 9])):
            tag = chance.choice(tags)
            table = bytearray(made[tag])
            if table and chance.random() < 0.9:
                table[chance.randrange(len(table))] = chance.choice([*BYTES, chance.randrange(256)])
            else:
                table = table[: chance.randrange(len(table) + 1)] + bytes(chance.choices(BYTES, k=chance.randint(0, 9)))
            made[tag] = bytes(table)
        yield font_of(made)


def fonts_of(base, count):
    """Yields the damaged fonts of a font."""
    tables = tables_in(base)
    for tag in (it for it in TAGS if it in tables):
        for table in in_turn(tables[tag]):
            yield font_of({**tables, tag: table})
    yield from at_random(tables, count, 84)


def wanted(font, kind, option):
    """Returns the answer of the plain readers, or of a picture the number of its bytes alone."""
    instance = None, axes.values_in(option)
    got = model.mapped(font, TEXT, instance) if kind == "map" else model.drawn(font, TEXT, SIZE, kind, instance)
    if isinstance(got, tuple):
        width, height = got
        return f"0 {len(f'P4 {width} {height} ') + (width + 7) // 8 * height} "
    if got.endswith("\n"):
        return answer_of(0, got.encode(), b"")
    return f"{2 if got[0] == '6' else 1} {NOTHING}|tt_render: {got}|"


def why_wrong(font, kind, option, answer, has_programs):
    """Returns what is wrong with an answer, or None."""
    if has_programs and kind != "map":
        status, rest = answer.split("|", 1)[0].split(" ")[0], answer.partition("|")[2]
        good = status == "0" or bool(MAY_COME.fullmatch(rest))
        return None if good else f"'{answer}' may not come"
    want = wanted(font, kind, option)
    is_drawn = want.startswith("0 ") and kind != "map"
    good = answer.startswith(want) and answer.endswith("|") if is_drawn else answer == want
    return None if good else f"'{answer}', and not '{want}'"


def takes_axes():
    """Tells whether `tt_test_answers fonts` takes axes."""
    if os.environ["TT_ANSWERS"] == "none":
        return False
    return asked(["axes -"])[1] is None


def answered(cases, option):
    """Returns the answers of `tt_test_answers fonts` to fonts and kinds, and what went wrong, or None."""
    lines = [f"axes {option}"]
    for font, group in itertools.groupby(cases, lambda it: it[0]):
        lines.append(f"font {words_of(font)}")
        lines += [question(kind, TEXT.encode(), (SIZE, 0), len(font)) for _, kind in group]
    return asked(lines)


def by_program(font, kind, option):
    """Returns the answer of tt_render."""
    words = ["map"] if kind == "map" else ["draw", "--size", str(SIZE), "--fit", kind]
    return answer_of(*run(([*words, "--axis", option], [TEXT]), font))


def tried(piece):
    """Tries some damaged fonts of one; returns how many answers pass, and the failures."""
    name, option, is_over_memory, has_programs, fonts = piece
    cases = [(font, kind) for _, font in fonts for kind in KINDS]
    if not is_over_memory:
        # tt_render takes its time to begin.
        cases = cases[:: len(KINDS) + 1]
    answers, wrong = answered(cases, option) if is_over_memory else ([by_program(*it, option) for it in cases], None)
    failures = [f"{name}: {wrong}"] if wrong or len(answers) != len(cases) else []
    for at, ((font, kind), answer) in enumerate(zip(cases, answers)):
        why = why_wrong(font, kind, option, answer, has_programs)
        if not why and is_over_memory and at % EACH == 0 and by_program(font, kind, option) != answer:
            why = f"tt_render has another answer than '{answer}'"
        if why:
            failures.append(f"{name} at {option}, {kind}: {why}: {font.hex()}")
    return len(cases) - len(failures), failures


def damaged_variations(count=RANDOM):
    """Tries all; returns how many pass, and the failures."""
    is_over_memory, pieces, total = takes_axes(), [], 0
    found = bases()
    for name, font, option in found:
        has_programs = bool({b"prep", b"fpgm"} & set(tables_in(font)))
        damaged = list(enumerate(fonts_of(font, -(-count // len(found)))))
        total += len(damaged)
        parts = (damaged[at : at + 250] for at in range(0, len(damaged), 250))
        pieces += [(name, option, is_over_memory, has_programs, it) for it in parts]
    with ProcessPoolExecutor(os.cpu_count()) as pool:
        ended = list(pool.map(tried, pieces))
    failures = [it for _, why in ended for it in why]
    if total < LEAST:
        failures.append(f"only {total} damaged variable fonts")
    passed = sum(it for it, _ in ended)
    print(f"damaged variable fonts: {total}, {passed + len(failures)} answers")
    return passed, failures


if __name__ == "__main__":
    passed, failures = damaged_variations(int(sys.argv[1]))
    print(*failures[:50], sep="\n")
    print(f"damaged variable fonts: {passed} passed, {len(failures)} failed")
    sys.exit(bool(failures))
