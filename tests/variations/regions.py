"""The part of variations/run about the regions of a variation store: a table HVAR of as many regions as are taken moves
advances, and one of a region more is as a missing one."""
import struct

import common
import laws
from axes import Fvar
from face import Tables
from fonts import font_of, tables_in
from rows import rows

# The fonts by the names of their rows, each with its number of axes and the regions that are taken: 512 at most, and
# with 4,096 axes together at most.
TAKEN = (("without HVAR: map", 1, 512), ("two axes wght=900", 2, 512), ("64 axes", 64, 64))


def hvar(axes, count):
    """Returns a table that makes each advance 32 units wider, by the last of its regions: this one holds wholly at the
    end of the first axis. The others hold everywhere and move nothing."""
    still = struct.pack(">3h", 0, 0, 0)
    last = struct.pack(">3h", 0, 0x4000, 0x4000) + still * (axes - 1)
    listed = struct.pack(">2H", axes, count) + still * (axes * (count - 1)) + last
    block = struct.pack(">4Hb", 1, 0, 1, count - 1, 32)
    store = struct.pack(">HIHI", 1, 12, 1, 12 + len(listed)) + listed + block
    entry = struct.pack(">2BHB", 0, 0, 1, 0)
    return struct.pack(">2H4I", 1, 0, 20 + len(entry), 20, 0, 0) + entry + store


def case_of(name, axes, most):
    """Returns a folder's bytes without the table, with one region, with as many as are taken, with one more; and the
    option of the end of the first axis."""
    font = next(it.font for it in rows() if it.name == name)
    fvar, tables = Fvar(Tables(font, 0)), tables_in(font)
    if len(fvar.axes) != axes:
        raise SystemExit(f"{name} has {len(fvar.axes)} axes")
    tables.pop(b"HVAR", None)
    fonts = [font_of({**tables, b"HVAR": hvar(axes, it)}) for it in (1, most, most + 1)]
    first, *others = fvar.axes
    return [font_of(tables), *fonts], laws.words_of([first.greatest, *(it.default for it in others)], fvar)


def regions(asked):
    """As many regions as are taken answer as one does, and one more as no table does."""
    for name, axes, most in TAKEN:
        fonts, option = case_of(name, axes, most)
        without, one, taken, more = ((asked.folder(it), [option]) for it in fonts)
        moves = laws.why_unlike(asked, one, without)
        common.verdict(f"{axes} axes, 1 region", [] if moves else ["the table moves nothing"])
        common.verdict(f"{axes} axes, {most} regions", laws.why_unlike(asked, taken, one))
        common.verdict(f"{axes} axes, {most + 1} regions", laws.why_unlike(asked, more, without))
