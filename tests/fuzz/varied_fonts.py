"""Real variable fonts with changed bytes in the tables of their variations, and in the records of these. tt_render,
which is asked, has the answers of the plain readers of ../variations: the glyphs and advances of a text at an instance,
or the refusal of its outlines."""
import random
import struct
import sys
from pathlib import Path

TESTS = Path(__file__).resolve().parent.parent
sys.path[:0] = [str(TESTS / it) for it in ("variations", "faces", "characters", "label")]
import axes
import model
import places
from asking import tables_of
from faces import run

TAGS = "fvar", "avar", "gvar", "HVAR", "MVAR", "cvar", "GDEF"
# So many bytes at a table's start hold headers, axes, regions and offsets.
HEADS = 20, 60, 300, 4000
# A table is also cut, or its record passes the file's end.
LENGTHS = 0, 7, 19, 20, 60, 0x7FFFFFFF, 0xFFFFFFFF
LETTERS = "ABCEHOaegiosty.,-'&@"


class Varied:
    """A case by its seed and number: a font, a text, an instance, and the changes. It needs installed fonts."""

    fonts = None

    def __init__(self, _, seed, number):
        dice = random.Random(f"{seed} {number}")
        self.seed, self.number = seed, number
        path = dice.choice(self.paths())
        data = path.read_bytes()
        tables = {it: at for it, at in tables_of(data).items() if it in TAGS}
        fvar, instances = places.places_of(path)
        self.option = places.option_of(fvar, dice.choice(instances))
        self.text = "".join(dice.choices(LETTERS, k=dice.randint(1, 5)))
        self.size, self.kind = dice.choice([9, 16, 40, dice.randint(1, 300)]), dice.choice(["map", "none", "none"])
        self.file = self.changed(bytearray(data), tables, dice)

    @classmethod
    def paths(cls):
        """Returns the variable fonts that are installed, which are looked for once."""
        if cls.fonts is None:
            cls.fonts = places.fonts()
        return cls.fonts

    @classmethod
    def is_one(cls, seed, number):
        """Tells whether a number is that of such a case."""
        return random.Random(f"{seed} {number} varied").random() < 0.1 and bool(cls.paths())

    def changed(self, data, tables, dice):
        """Returns the font's bytes with some of its tables' changed, mostly where the text's glyphs are."""
        tag = dice.choices([*tables], [{"gvar": 6, "HVAR": 3}.get(it, 1) for it in tables])[0]
        start, length = tables[tag]
        record = data.index(tag.encode(), 12)
        if dice.random() < 0.1:
            struct.pack_into(">I", data, record + 12, dice.choice([*LENGTHS, dice.randrange(length)]))
        for _ in range(dice.choice([1, 1, 2, 3, 9, 40])):
            at = start + dice.randrange(min(length, dice.choice([*HEADS, length])))
            if tag == "gvar" and dice.random() < 0.7:
                at = start + self.in_a_glyph(bytes(data), length, dice)
            data[at] = dice.choice([0, 0xFF, 1, 2, 0x7F, 0x80, data[at] ^ 1 << dice.randrange(8), dice.randrange(256)])
        return bytes(data)

    def in_a_glyph(self, data, length, dice):
        """Returns a place of gvar in the bytes of a glyph of the text, or anywhere where these are damaged."""
        try:
            face = model.Face(data, (None, axes.values_in(self.option)), 0)
            place = face.gvar.bytes_of(face.glyph(ord(dice.choice(self.text)))) if face.gvar else None
        except model.FAULTS:
            place = None
        if not place or place[0] >= place[1]:
            return dice.randrange(length)
        return place[0] + dice.randrange(min(place[1] - place[0], dice.choice([12, 60, place[1] - place[0]])))

    def wanted(self):
        """Returns the answer of the plain readers: the lines of `map`, a refusal, or the size of a picture."""
        instance = None, axes.values_in(self.option)
        if self.kind == "map":
            return model.mapped(self.file, self.text, instance)
        return model.drawn(self.file, self.text, self.size, "none", instance)

    def answers(self):
        """Yields the kind of the question, the answer in a word or two, and what is wrong with it, or None."""
        words = ["map"] if self.kind == "map" else ["draw", "--size", str(self.size), "--fit", "none"]
        status, said, errors = run(([*words, "--axis", self.option], [self.text]), self.file)
        wanted = self.wanted()
        got = errors.decode().removeprefix("tt_render: ").strip()
        got = said.decode() if self.kind == "map" and status == 0 else got
        if isinstance(wanted, tuple):
            got = tuple(int(it) for it in said.split(b"\n", 2)[1].split()) if status == 0 else got
        is_drawn = isinstance(wanted, tuple) or wanted.endswith("\n")
        kind = "drawn" if is_drawn else " ".join(wanted.split()[-2:])
        yield "varied", kind, None if got == wanted else f"{got}, and not {wanted}"

    def told(self, path):
        words = "map" if self.kind == "map" else f"draw --size {self.size} --fit none"
        return f"tt_render {words} --axis {self.option} {path} -- {self.text!a}"
