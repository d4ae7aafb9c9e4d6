"""Collections of real fonts with a character map for the wide reading, and changed bytes in header, directory and map.
tt_render is asked: `map` and `faces` answer by the rules of ../damaged/face.py, `draw` by a picture or a refusal that
may stand there."""
import random
import struct
import sys
from pathlib import Path

sys.path.append(str(Path(__file__).resolve().parent.parent / "faces"))
from asking import FITS
from face import mapped, told
from faces import run, why_not_drawn
from fonts import collection_of, tables_of, with_cmap
from wide import roman_byte

SELECTORS = "\uFE00\uFE0F\U000E0100\U000E01EF"


def words(*numbers):
    return struct.pack(f">{len(numbers)}H", *numbers)


def longs(*numbers):
    return struct.pack(f">{len(numbers)}I", *numbers)


def trimmed(glyphs, head):
    """Returns what begins with the first code and the number of codes, by `head`, and the glyphs of these codes."""
    first, last = min(glyphs), max(glyphs)
    return head(first, last + 1 - first) + words(*(glyphs.get(it, 0) for it in range(first, last + 1)))


def groups(number, glyphs):
    """Returns a subtable of a group for each code."""
    return words(number, 0) + longs(16 + 12 * len(glyphs), 0, len(glyphs)) + b"".join(
        longs(code, code, glyph) for code, glyph in sorted(glyphs.items())
    )


def segments(glyphs):
    """Returns a subtable of a segment for each code, and the last one."""
    codes = [*sorted(it for it in glyphs if it < 0xFFFF), 0xFFFF]
    deltas = [(glyphs.get(it, 0) - it) % 65536 for it in codes]
    lists = words(*codes, 0, *codes, *deltas, *[0] * len(codes))
    return words(4, 14 + len(lists), 0, 2 * len(codes), 0, 0, 0) + lists


def bytes_of(glyphs):
    """Returns a subtable of format 0."""
    return words(0, 262, 0) + bytes(min(glyphs.get(it, 0), 255) for it in range(256))


def variations(glyphs, dice):
    """Returns a subtable of format 14, of two selectors with a default list and another one."""
    codes = sorted(glyphs)
    default = longs(len(codes)) + b"".join(it.to_bytes(3, "big") + b"\0" for it in codes)
    other = longs(len(codes)) + b"".join(it.to_bytes(3, "big") + words(dice.choice([*glyphs.values()])) for it in codes)
    records = b"\0\xFE\0" + longs(32, 32 + len(default)) + b"\x0E\x01\0" + longs(0, 32 + len(default))
    return words(14) + longs(32 + len(default) + len(other), 2) + records + default + other


def subtables(glyphs, dice):
    """Yields the records of a map of some kind: platform, encoding and subtable."""
    roman = {code: glyph for it, glyph in glyphs.items() if (code := roman_byte(it)) is not None}
    moved = {it + 0xF000 if it < 256 else it: glyph for it, glyph in glyphs.items()}
    six = lambda *sizes: words(6, 0, 0, *sizes)
    ten = lambda *sizes: words(10, 0) + longs(0, 0, *sizes)
    kinds = [
        lambda: (3, 1, trimmed(glyphs, six)),
        lambda: (3, 10, trimmed(glyphs, ten)),
        lambda: (3, 10, groups(13, glyphs)),
        lambda: (0, 3, groups(13, glyphs)),
        lambda: (3, 1, groups(12, glyphs)),
        lambda: (3, 0, segments(moved)),
        lambda: (3, 0, trimmed(moved, six)),
        lambda: (0, 1, bytes_of(glyphs)),
        lambda: (1, 0, bytes_of(roman)),
        lambda: (1, 0, trimmed(roman or {65: 1}, six)),
    ]
    if dice.random() < 0.5:
        yield 0, 5, variations(glyphs, dice)
    for _ in range(dice.choice([1, 1, 1, 2])):
        yield dice.choice(kinds)()


def cmap_of(glyphs, dice):
    """Returns a cmap in which characters have these glyphs by one kind of map, or by two."""
    parts = list(subtables(glyphs, dice))
    records, body = b"", b""
    for platform, encoding, subtable in parts:
        records += words(platform, encoding) + longs(4 + 8 * len(parts) + len(body))
        body += subtable
    return words(0, len(parts)) + records + body


class Collected:
    """A case by its seed and number: a collection, a face, a text, and the changes."""

    def __init__(self, fonts, seed, number):
        dice = random.Random(f"{seed} {number}")
        self.seed, self.number = seed, number
        font, other = dice.choice(fonts), dice.choice(fonts)
        letters = [it for it in font.glyphs if font.glyphs[it] and ord(it) >= 0x20]
        chosen = dice.choices(letters, k=dice.randint(2, 30))
        glyphs = {ord(it): font.glyphs[it] for it in chosen}
        parts = [it + dice.choice(["", "", dice.choice(SELECTORS)]) for it in chosen[:6]]
        self.text = "".join(parts)
        self.face = dice.choice([0, 0, 1, 1, 1, 2])
        both = with_cmap(font.data, cmap_of(glyphs, dice)), other.data
        self.file, places = collection_of(both if self.face == 0 else both[::-1], dice.choice([1, 2]))
        self.fit = dice.choice(FITS)
        self.change(places[min(self.face, 1)], dice)

    @staticmethod
    def is_one(seed, number):
        """Tells whether a number is that of such a case."""
        return random.Random(f"{seed} {number} collected").random() < 0.1

    def change(self, directory, dice):
        """Changes some bytes of the header, of the face's directory and of its cmap, which has most changes."""
        data = bytearray(self.file)
        start, length = tables_of(self.file, directory)[b"cmap"]
        for _ in range(dice.choice([0, 1, 1, 2, 3, 9])):
            parts = [(start, length), (start, min(60, length))] * 4
            first, size = dice.choice([(0, 20), (directory, 12 + 16 * 10), *parts])
            at = first + dice.randrange(size)
            data[at] = dice.choice([0, 0xFF, 1, 0x7F, 0x80, data[at] ^ 1 << dice.randrange(8), dice.randrange(256)])
        self.file = bytes(data)

    def answers(self):
        """Yields the kind of each question, the answer in a word or two, and what is wrong with it, or None."""
        wanted = mapped(self.file, self.text.encode(), self.face)
        got = run((["map", "--face", str(self.face)], [self.text]), self.file)
        yield "map of a face", kind_of(got), None if got == wanted else f"{got}, and not {wanted}"
        of_file = run((["faces"], []), self.file)
        yield "faces", kind_of(of_file), None if of_file == told(self.file) else f"{of_file}, and not {told(self.file)}"
        why = why_not_drawn(self.file, self.face, self.fit, wanted, self.text)
        yield "draw of a face", f"as {kind_of(wanted)}", why

    def told(self, path):
        return f"tt_render map --face {self.face} {path} -- {self.text!a}"


def kind_of(got):
    """Returns an answer's kind in a word or two."""
    return " ".join(got[2].decode().split()[-2:]) if got[0] else "drawn"
