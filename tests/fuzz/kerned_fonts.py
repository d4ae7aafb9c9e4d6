"""Real fonts with changed bytes in their tables of kerning, and in the records of these. Nothing of them is refused:
tt_render, which is asked, lays out a line by the pens of the plain reader of ../kerning."""
import random
import struct
import sys
from pathlib import Path

TESTS = Path(__file__).resolve().parent.parent
sys.path += [str(TESTS / it) for it in (".", "faces", "kerning", "label")]
import kerned
from faces import run
from layouts import layout_in, layout_of

TAGS = "GPOS", "kern"
WIDTH_LIMIT = 16384
# So many bytes at a table's start hold versions, lists and the first subtables.
HEADS = 8, 60, 400, 4000
# A table is also cut, or its record passes the file's end.
LENGTHS = 0, 3, 7, 9, 11, 40, 0x7FFFFFFF, 0xFFFFFFFF
OFTEN = "AVTWYPLFKaeorvwy.,-'\"17"


class Kerned:
    """A case by its seed and number: a font, a line, a size, and the changes."""

    def __init__(self, fonts, seed, number):
        dice = random.Random(f"{seed} {number}")
        self.seed, self.number = seed, number
        font = dice.choice([it for it in fonts if set(TAGS) & set(it.tables)])
        letters = [it for it in font.glyphs if font.glyphs[it] and ord(it) >= 0x20]
        often = [it for it in OFTEN if font.glyphs.get(it)]
        self.text = "".join(dice.choice(dice.choice((letters, often))) for _ in range(dice.randint(2, 24)))
        self.glyphs = [font.glyphs[it] for it in self.text]
        self.size = dice.choice([16, 24, 300, dice.randint(1, 300)])
        self.fit = dice.choice(["none", "full", "fallback"])
        self.file = self.changed(font, dice)

    @staticmethod
    def is_one(seed, number):
        """Tells whether a number is that of such a case."""
        return random.Random(f"{seed} {number} kerned").random() < 0.1

    def changed(self, font, dice):
        """Returns the font's bytes with some of one table's, or its record, changed."""
        data, tag = bytearray(font.data), dice.choice([it for it in TAGS if it in font.tables])
        start, length = font.tables[tag]
        record = data.index(tag.encode(), 12)
        if dice.random() < 0.1:
            struct.pack_into(">I", data, record + 12, dice.choice([*LENGTHS, dice.randrange(length)]))
        if dice.random() < 0.05:
            struct.pack_into(">I", data, record + 8, dice.choice([0, 0xFFFFFFFF, dice.randrange(len(data))]))
        for _ in range(dice.choice([1, 1, 2, 3, 9, 40])):
            at = start + dice.randrange(min(length, dice.choice([*HEADS, length])))
            by_value = [0, 0xFF, 1, 2, 9, 0x7F, 0x80, data[at] ^ 1 << dice.randrange(8), dice.randrange(256)]
            data[at] = dice.choice(by_value)
        return bytes(data)

    def wanted(self):
        """Returns the layout of the line, or the line of a width that no picture has."""
        layout = layout_of(kerned.steps_of(self.file, self.glyphs, self.size), self.glyphs)
        number = "62 EmptyPicture" if layout.width < 1 else "63 PictureLarge"
        return layout if 0 < layout.width <= WIDTH_LIMIT else f"status 2 tt_render: {number}\n"

    def answers(self):
        """Yields the kind of the question, the answer in a word or two, and what is wrong with it, or None."""
        words = ["measure", "--no-ink", "--kern", "--size", str(self.size), "--fit", self.fit]
        got, wanted = layout_in(run((words, [self.text]), self.file)), self.wanted()
        kind = " ".join(wanted.split()[-2:]) if isinstance(wanted, str) else "drawn"
        yield "kerned", kind, None if got == wanted else f"{got}, and not {wanted}"

    def told(self, path):
        words = f"--no-ink --kern --size {self.size} --fit {self.fit}"
        return f"tt_render measure {words} {path} -- {self.text!a}"
