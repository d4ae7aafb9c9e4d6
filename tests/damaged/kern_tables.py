"""Damaged tables GPOS and kern: cut to each length, with each byte 00, FF and itself with the lowest bit turned, with
counts of 65,535, with offsets past their ends, with extensions of themselves, and of random words. Nothing of them is
refused. tt_render is asked for the pens of a line, which are those of the plain reader of ../kerning. One in some is
drawn too, with the status and the report of the same line without kerning. These are also compared for a font that is
cut, and whose directory is changed."""
import itertools
import os
import random
import re
import sys
from concurrent.futures import ProcessPoolExecutor
from pathlib import Path

TESTS = Path(__file__).resolve().parent.parent
sys.path += [str(TESTS / it) for it in (".", "faces", "kerning", "label")]
import kerned
import worked
from asking import FITS, test_font
from faces import damages, run
from fonts import font_of, tables_in
from layouts import layout_in, layout_of

# The pairs of ../kerning whose tables are damaged.
NAMES = (
    "a pixel nearer", "Apple's version", "the second overrides", "two pairs told, one there", "GPOS by pairs",
    "GPOS by classes", "an extension of pairs", "GPOS before kern", "the first that applies",
)
# So many cases at the least.
LEAST = 5000
# Tables of random words, some of them behind a sound head of GPOS.
RANDOM = 400
# The name of a case whose font is damaged elsewhere, too.
FILE = "file"
# One in so many is drawn too.
DRAWN = 5
TEXT, GLYPHS, SIZE = "AABBA", (1, 1, 2, 2, 1), 16
HEAD_OF_GPOS = bytes.fromhex(worked.lookups(""))
# The largest word, offsets that meet other parts of a table, and extensions whose tables are themselves.
WORDS = 0xFFFF, 0x8000, 0x0100, 0x0010, 0x0009, 0x0002, 0x0000
EXTENSIONS = "0009 0000 0001 {} 0001 {} {}"


def words_in_turn(table):
    """Yields a table with each of its words in turn another one."""
    for at in range(0, len(table) - 1, 2):
        for word in WORDS:
            yield table[:at] + word.to_bytes(2, "big") + table[at + 2 :]


def at_random():
    """Yields tables of random words, which mostly are small, as offsets and counts are."""
    chance = random.Random(61)
    for number in range(RANDOM):
        any_word = chance.randrange(65536)
        words = chance.choices((0, 1, 2, 4, 9, 0xFFFF, any_word, *range(6, 40, 2)), k=chance.randint(0, 60))
        table = b"".join(it.to_bytes(2, "big") for it in words)
        if number % 4 == 3:
            yield b"kern", b"\0\0" + table
        else:
            yield b"GPOS", (HEAD_OF_GPOS if number % 4 else b"\0\1\0\0") + table


def extended():
    """Yields lookups of extensions: of an extension, of themselves, before themselves, and past the end."""
    offsets = "0000 0000", "0000 0008", "FFFF FFF8", "7FFF FFFF", "FFFF FFFF"
    for first, kind, offset in itertools.product(("0008", "0000", "FFFF"), ("0002", "0009", "FFFF"), offsets):
        yield bytes.fromhex(worked.lookups(EXTENSIONS.format(first, kind, offset) + worked.pairs()))


def files():
    """Yields a font with both tables cut to each length, and with each byte of its directory in turn another one."""
    font = worked.font(next(it for it in worked.WORKED if it.name == "GPOS before kern"))
    size = 12 + 16 * len(tables_in(font))
    yield from (font[:it] for it in range(len(font)))
    yield from (it + font[size:] for it in damages(font[:size]) if len(it) == size)


def cases():
    """Yields the name of each case, and its font."""
    base = tables_in(test_font())
    for pair in worked.WORKED:
        if pair.name not in NAMES:
            continue
        whole = base | {tag: bytes.fromhex(it) for tag, it in ((b"kern", pair.kern), (b"GPOS", pair.gpos)) if it}
        for tag in whole.keys() - base.keys():
            for number, table in enumerate([*damages(whole[tag]), *words_in_turn(whole[tag])]):
                yield f"damage {number} of {tag.decode()}, {pair.name}", font_of({**whole, tag: table})
    both = base | {b"kern": bytes.fromhex(worked.KERN)}
    for number, (tag, table) in enumerate(at_random()):
        yield f"random {tag.decode()} {number}", font_of({**both, tag: table})
    for number, table in enumerate(extended()):
        yield f"extension {number}", font_of({**both, b"GPOS": table})
    for number, font in enumerate(files()):
        yield f"{FILE} {number}", font


def why_not_drawn(font, fit, wanted):
    """Says what is wrong with the picture of a kerned line, beside that without kerning, or returns None."""
    words = ["--size", str(SIZE), "--fit", fit]
    got, other = (run((["draw", *it, *words], [TEXT]), font) for it in (["--kern"], []))
    size = re.match(rb"P4\n(\d+) 4\n", got[1])
    if (got[0], got[2]) != (other[0], other[2]) or not size or fit != "best" and int(size[1]) != wanted.width:
        return f"drawn with {fit}: {got}, and {other} without kerning"
    return None


def tried(case):
    """Returns what is wrong with a case, or None; the number of a case says whether and how it is drawn."""
    number, (name, font) = case
    if name.startswith(FILE):
        words = ["measure", "--no-ink", "--fit", "best", "--size", str(SIZE)]
        got, other = (run(([*words, *it], [TEXT]), font) for it in (["--kern"], []))
        return None if (got[0], got[2]) == (other[0], other[2]) else f"{name}: {got}, and {other} without kerning"
    wanted = layout_of(kerned.steps_of(font, GLYPHS, SIZE), GLYPHS)
    got = layout_in(run((["measure", "--no-ink", "--kern", "--size", str(SIZE)], [TEXT]), font))
    if got != wanted:
        return f"{name}: {got}, and not {wanted}: {font.hex()}"
    why = why_not_drawn(font, FITS[number // DRAWN % len(FITS)], wanted) if number % DRAWN == 0 else None
    return f"{name}: {why}: {font.hex()}" if why else None


def damaged_kerning():
    """Tries all cases; returns how many pass, and the failures."""
    every = list(enumerate(cases()))
    with ProcessPoolExecutor(os.cpu_count()) as pool:
        failures = [it for it in pool.map(tried, every, chunksize=64) if it]
    if len(every) < LEAST:
        failures.append(f"only {len(every)} damaged tables of kerning")
    return len(every) - len(failures), failures
