"""The part of kerning/run about pairs that were worked out by hand, from the rules: two squares of 256 units beside
each other, at 16 pixels in an em of 1,024 units. Tables are written as their words, in hexadecimal."""
import struct
from typing import NamedTuple

import asking
import common
import layouts
from fonts import font_of, tables_in

FITS = "none", "full", "fallback", "best"
# The pictures of two squares, by the pen of the second.
PICTURES = {
    0: b"P4\n4 4\n" + bytes.fromhex("00 00 60 60"),
    2: b"P4\n6 4\n" + bytes.fromhex("00 00 78 78"),
    3: b"P4\n7 4\n" + bytes.fromhex("00 00 6C 6C"),
    4: b"P4\n8 4\n" + bytes.fromhex("00 00 66 66"),
    5: b"P4\n9 4\n" + bytes.fromhex("0000 0000 6300 6300"),
}


class Pair(NamedTuple):
    """A pair of two squares in a font with these tables: the pen of the second square. A table may pass the file's
    end."""

    name: str
    pen: int
    kern: str = ""
    gpos: str = ""
    is_past_end: bool = False


def one_pair(coverage, value):
    """Returns a table kern of one subtable, whose one pair is that of the squares."""
    return f"0000 0001 0000 0014 {coverage} 0001 0006 0000 0000 0001 0001 {value}"


def lookups(words, script="44464C54", feature="6B65726E", numbers="0001 0000"):
    """Returns a table GPOS of a script, a feature, and a list of lookups, which begins behind their number."""
    lists = f"0001 {script} 0008 0004 0000 0000 FFFF 0001 0000 0001 {feature} 0008 0000 {numbers}"
    return f"0001 0000 000A 001E {'002C' if numbers != '0000' else '002A'} {lists} 0001 0004 {words}"


ONE = "0002 0000 0001 0008"
CLASSES = "0002 0018 0004 0000 001E 001E 0002 0002 0000 0000 0000 FFC0 0001 0001 0001 0002 0001 0001 0001 0001"
EXTENDED = "0009 0000 0001 0008 0001 {} 0000 0008"


def pairs(value="FFC0", coverage="000C", form="0004"):
    """Returns a pair subtable of format 1."""
    return f"0001 0012 {form} 0000 0001 {coverage} 0001 0001 {value} 0001 0001 0001"


KERN = one_pair("0001", "FFC0")
WORKED = (
    Pair("neither table", 4),
    Pair("a pixel nearer", 3, KERN),
    Pair("half a pixel, which goes up", 4, one_pair("0001", "FFE0")),
    Pair("more than half a pixel", 3, one_pair("0001", "FFDF")),
    Pair("Apple's version", 3, "0001 0000 0000 0001 0000 0016 0000 0000 0001 0006 0000 0000 0001 0001 FFC0"),
    Pair("minimum values", 4, one_pair("0003", "FFC0")),
    Pair("across the line", 4, one_pair("0005", "FFC0")),
    Pair("vertical", 4, one_pair("0000", "FFC0")),
    Pair("format 2 of kern", 4, one_pair("0201", "FFC0")),
    Pair("two subtables are added", 4, KERN.replace("0000 0001", "0000 0002", 1) + one_pair("0001", "0020")[9:]),
    Pair("the second overrides", 5, KERN.replace("0000 0001", "0000 0002", 1) + one_pair("0009", "0020")[9:]),
    Pair("two pairs told, one there", 3, "0000 0001 0000 001A 0001 0002 000C 0001 0000 0001 0001 FFC0"),
    Pair("more than the advance", 0, one_pair("0001", "FED4")),
    Pair("kern of three bytes", 4, "0000 00"),
    Pair("kern past the file's end", 4, KERN, is_past_end=True),
    Pair("GPOS by pairs", 3, "", lookups(f"{ONE} {pairs()}")),
    Pair("GPOS by classes", 3, "", lookups(f"{ONE} {CLASSES}")),
    Pair("an extension of pairs", 3, "", lookups(f"{EXTENDED.format('0002')} {pairs()}")),
    Pair("an extension of another type", 4, "", lookups(f"{EXTENDED.format('0001')} {pairs()}")),
    Pair("another script", 3, KERN, lookups(f"{ONE} {pairs('FF80')}", script="6379726C")),
    Pair("another feature", 3, KERN, lookups(f"{ONE} {pairs('FF80')}", feature="6D61726B")),
    Pair("the feature without lookups", 4, KERN, lookups(f"{ONE} {pairs('FF80')}", numbers="0000")),
    Pair("GPOS before kern", 2, KERN, lookups(f"{ONE} {pairs('FF80')}")),
    Pair("a coverage past the end", 4, "", lookups(f"{ONE} {pairs(coverage='FFFF')}")),
    Pair("a placement before the advance", 3, "",
         lookups(f"{ONE} 0001 0014 0005 0000 0001 000C 0001 0001 FF00 FFC0 0001 0001 0001")),
    Pair("no advance", 4, "", lookups(f"{ONE} {pairs(form='0001')}")),
    Pair("the first that applies", 3, "", lookups(f"0002 0000 0002 000A 0022 {pairs()} {pairs('FF80')}")),
)


def font(pair):
    """Returns the font of a pair."""
    tables = tables_in(asking.test_font())
    tables |= {tag: bytes.fromhex(it) for tag, it in ((b"kern", pair.kern), (b"GPOS", pair.gpos)) if it}
    made = bytearray(font_of(tables))
    if pair.is_past_end:
        record = made.index(b"kern")
        struct.pack_into(">I", made, record + 12, len(made))
    return bytes(made)


def try_pairs(asked, pairs):
    """Two squares by each way to fit: the pen of the second by `measure`, and the picture; and the same without
    kerning, where the second stands 4 pixels further."""
    cases = [(pair, fit, kern) for pair in pairs for fit in FITS for kern in ([], ["--kern"])]
    run = lambda it: got(asked, *it)
    for (pair, fit, kern), why in zip(cases, asked.each(run, cases)):
        common.verdict(f"{pair.name}, {fit} {''.join(kern)}", why)


def worked(asked):
    """The pairs that were worked out by hand."""
    try_pairs(asked, WORKED)


def got(asked, pair, fit, kern):
    """Returns what is wrong with the answers to a pair."""
    path, pen = asked.folder(font(pair)) / "F.ttf", pair.pen if kern else 4
    words = ["--size", "16", "--fit", fit, *kern]
    want, why = layouts.Layout(pen + 4, [1, 1], [0, pen]), []
    for more in ([], ["--no-ink"]):
        layout = layouts.measured(asked, [*words, *more], path, "AA")
        why += [f"{layout}, and not {want}"] * (layout != want)
    drawn = asked.run(["draw", *words, path, "AA"])
    return why + [f"drawn {drawn}, and not {PICTURES[pen]}"] * (drawn != (0, PICTURES[pen], b""))
