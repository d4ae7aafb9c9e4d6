"""The part of kerning/run about the limits of the tables: on one side of each the pair of two squares is found, and on
the other it is not. Worked by hand, as the pairs of worked.py."""
import struct

import worked

NEARER, APART = 3, 4
DEFAULT, LATER, KERN, MARK = b"DFLT", b"zyyy", b"kern", b"mark"
# A lookup without subtables, and the subtables of a pair: of the squares, of other glyphs, and of no type of pairs.
EMPTY = struct.pack(">3H", 1, 0, 0)
FOUND = bytes.fromhex(worked.pairs())
OTHERS = FOUND[:-2] + struct.pack(">H", 9)
NO_PAIRS = struct.pack(">HHI", 1, 1, 8)


def words(*numbers):
    """Returns numbers as words of a table."""
    return struct.pack(f">{len(numbers)}H", *numbers)


def behind(head, parts):
    """Returns the offsets of parts behind a head of so many bytes."""
    return [head + sum(map(len, parts[:i])) for i in range(len(parts))]


def lookup(kind, subtables):
    """Returns a lookup of this type."""
    return words(kind, 0, len(subtables), *behind(6 + 2 * len(subtables), subtables)) + b"".join(subtables)


def records(tags, at):
    """Returns a list of records, all with the part that begins at a place behind the list."""
    return words(len(tags)) + b"".join(it + words(2 + 6 * len(tags) + at) for it in tags)


def gpos(lookups, numbers=None, scripts=(DEFAULT,), features=(KERN,), asked=(0,)):
    """Returns a table GPOS. A feature kern has these numbers of lookups, any other feature none; `asked` are the numbers
    of the language's features."""
    numbers = range(len(lookups)) if numbers is None else numbers
    language = words(4, 0) + words(0, 0xFFFF, len(asked), *asked)
    script_list = records(scripts, 0) + language
    one, none = words(0, len(numbers), *numbers), words(0, 0)
    head = 2 + 6 * len(features)
    feature_list = words(len(features)) + b"".join(
        it + words(head if it == KERN else head + len(one)) for it in features) + one + none
    lookup_list = words(len(lookups), *behind(2 + 2 * len(lookups), lookups)) + b"".join(lookups)
    at = behind(10, [script_list, feature_list, lookup_list])
    return (words(1, 0, *at) + script_list + feature_list + lookup_list).hex()


def kern(passed_over):
    """Returns a table kern whose last subtable has the pair, behind so many vertical ones."""
    subtables = [worked.one_pair("0000", "FFC0")[9:]] * passed_over + [worked.one_pair("0001", "FFC0")[9:]]
    return f"0000 {len(subtables):04X}" + "".join(subtables)


def at(place):
    """Returns tables whose pair stands at a place of each list, counted from 1, by what is counted."""
    before = place - 1
    pair = lookup(2, [FOUND])
    return {
        "subtables of kern": ("", kern(before)),
        "lookups": (gpos([EMPTY] * before + [pair]), ""),
        "subtables of pairs": (gpos([lookup(2, [OTHERS] * before), pair]), ""),
        "subtables of a lookup": (gpos([lookup(9, [NO_PAIRS] * before + [words(1, 2, 0, 8) + FOUND])]), ""),
        "scripts": (gpos([pair], scripts=[LATER] * before + [DEFAULT]), ""),
        "features": (gpos([pair], features=[MARK] * before + [KERN], asked=[before]), ""),
        "features of a language": (gpos([pair], features=[MARK, KERN], asked=[0] * before + [1]), ""),
        "lookups of a feature": (gpos([EMPTY, pair], numbers=[0] * before + [1]), ""),
    }


MOST = {
    "subtables of kern": 32, "lookups": 32, "subtables of pairs": 64, "subtables of a lookup": 64, "scripts": 256,
    "features": 256, "features of a language": 256, "lookups of a feature": 256,
}


def limits(asked):
    """The last place within each limit, and the first past it."""
    pairs = []
    for name, most in MOST.items():
        for place, pen in ((most, NEARER), (most + 1, APART)):
            gpos_words, kern_words = at(place)[name]
            pairs.append(worked.Pair(f"{name}: {place}", pen, kern_words, gpos_words))
    worked.try_pairs(asked, pairs)
