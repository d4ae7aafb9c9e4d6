"""What `map` and `faces` answer, by the rules alone: collections, the directory, head, maxp, hhea, hmtx and name of
OpenType, with the refusals in the order in which the bytes are read, and after them cmap by ../characters/plain.py, or
for a face by ../characters/wide.py. A face is None with the strict reading. It shares no code with tt_render."""
import struct
import sys
from pathlib import Path

sys.path.insert(0, str(Path(__file__).resolve().parent.parent / "characters"))
import plain
import wide


class Refused(Exception):
    """A font's refusal: its table, offset, number and name."""


def unsigned(data, at, size=2):
    return int.from_bytes(data[at : at + size], "big")


def need(holds, *refusal):
    if not holds:
        raise Refused(*refusal)


def place(file, face):
    """Returns where the directory of a face is."""
    need(len(file) >= 12, "file", len(file), 2, "DirShort")
    if face is None:
        return 0
    if file[:4] != b"ttcf":
        need(face == 0, "file", 0, 25, "NoFace")
        return 0
    need(unsigned(file, 4) in (1, 2), "file", 4, 24, "CollectionVersion")
    need(face < unsigned(file, 8, 4), "file", 8, 25, "NoFace")
    need(16 + 4 * face <= len(file), "file", len(file), 2, "DirShort")
    return unsigned(file, 12 + 4 * face, 4)


def directory(file, face):
    """Returns where the records of a face's tables are."""
    at = place(file, face)
    need(at + 12 <= len(file), "file", len(file), 2, "DirShort")
    need(unsigned(file, at, 4) in (0x00010000, 0x74727565), "file", at, 1, "BadVersion")
    records = range(at + 12, at + 12 + 16 * unsigned(file, at + 4), 16)
    need(records.stop <= len(file), "file", len(file), 2, "DirShort")
    return records


class Tables:
    """The tables of a face, each tested before the next one is looked for."""

    def __init__(self, file, face):
        self.file, self.records = file, directory(file, face)
        head = self.table("head", 54)
        need(unsigned(head, 12, 4) == 0x5F0F3CF5, "head", 12, 5, "HeadMagic")
        self.em = unsigned(head, 18)
        need(16 <= self.em <= 16384, "head", 18, 6, "EmRange")
        need(unsigned(head, 50) <= 1, "head", 50, 7, "LocaFormat")
        maxp = self.table("maxp", 4)
        need(unsigned(maxp, 0, 4) == 0x00010000, "maxp", 0, 8, "MaxpVersion")
        need(len(maxp) >= 32, "maxp", len(maxp), 9, "MetricsShort")
        self.glyphs = unsigned(maxp, 4)
        need(self.glyphs > 0, "maxp", 4, 9, "MetricsShort")
        self.hhea = self.table("hhea", 36)
        self.pairs = unsigned(self.hhea, 34)
        need(self.pairs > 0, "hhea", 34, 9, "MetricsShort")
        self.hmtx = self.table("hmtx", 4 * self.pairs)
        self.cmap = self.table("cmap")

    def table(self, tag, least=0):
        """Returns the table of the first record of a tag, which must have so many bytes."""
        for at in self.records:
            if self.file[at : at + 4] == tag.encode():
                start, length = unsigned(self.file, at + 8, 4), unsigned(self.file, at + 12, 4)
                need(start + length <= len(self.file), "file", at, 4, "TableRange")
                need(length >= least, tag, length, 9, "MetricsShort")
                return self.file[start : start + length]
        raise Refused(tag, 0, 3, "NoTable")

    def advance(self, glyph):
        return unsigned(self.hmtx, 4 * min(glyph, self.pairs - 1))

    def figures(self):
        """Returns units per em, ascent, descent, the number of glyphs, and the line gap."""
        ascent, descent, gap = struct.unpack_from(">3h", self.hhea, 4)
        return self.em, ascent, descent, self.glyphs, gap

    def name(self):
        """Returns the full name: that of platform 3 and language 0409, else the first of platform 3."""
        try:
            table = self.table("name")
        except Refused:
            return ""
        count, storage = unsigned(table, 2), unsigned(table, 4)
        if len(table) < 6 + 12 * count:
            return ""
        records = [struct.unpack_from(">6H", table, 6 + 12 * it) for it in range(count)]
        full = [it for it in records if it[0] == 3 and it[3] == 4]
        chosen = [it for it in full if it[2] == 0x409][:1] or full[:1]
        if not chosen or len(table) < storage + chosen[0][5] + chosen[0][4]:
            return ""
        *_, length, offset = chosen[0]
        words = [unsigned(table, storage + offset + 2 * it) for it in range(length // 2)][:64]
        return "".join(chr(it) if 0x20 <= it <= 0x7E else "?" for it in words)


def mapped(file, text, face=None):
    """Returns the status, standard output and standard error of `map`."""
    try:
        lines = lines_of_text(file, text, face)
    except (Refused, plain.Refused) as refused:
        return 1, b"", f"tt_render: {fault_of(refused)}\n".encode()
    return 0, "".join(line + "\n" for line in lines).encode(), b""


def fault_of(refused):
    """Returns what is said of a refusal, after the name of the program."""
    if isinstance(refused, plain.Refused):
        return str(refused)
    table, offset, number, name = refused.args
    return f"{table}+{offset}: {number} {name}"


def lines_of_text(file, text, face):
    """Returns the lines of `map`."""
    tables, characters = Tables(file, face), [ord(it) for it in text.decode()]
    if face is None:
        known = plain.Characters(file)
        return [known.line(it) for it in characters]
    known, lines = wide.Map(tables.cmap, tables.glyphs), []
    for unit in wide.units(characters):
        glyph = known.of_unit(*unit)
        named = " ".join(f"U+{it:04X}" for it in unit if it)
        lines.append(f"{named} {glyph} {tables.advance(glyph)}")
    return lines


def line_of_face(file, face):
    """Returns what `faces` says of a face after its number."""
    try:
        tables = Tables(file, face)
        wide.Map(tables.cmap, tables.glyphs)
    except (Refused, plain.Refused) as refused:
        return fault_of(refused)
    return " ".join([str(tables.glyphs), str(tables.em), *filter(None, [tables.name()])])


def told(file):
    """Returns the status, standard output and standard error of `faces`."""
    try:
        place(file, 0)
    except Refused as refused:
        return 1, b"", f"tt_render: {fault_of(refused)}\n".encode()
    count = unsigned(file, 8, 4) if file[:4] == b"ttcf" else 1
    lines = [f"{it} {line_of_face(file, it)}" for it in range(min(count, 256))]
    return 0, "".join(it + "\n" for it in (f"faces {count}", *lines)).encode(), b""
