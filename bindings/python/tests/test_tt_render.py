"""Tries the module tt_render beside the program tt_render, which TT_RENDER names. TT_FONT names the font,
DejaVu Sans."""
import os
import pathlib
import re
import struct
import subprocess
import unittest

import tt_render

PROGRAM, FONT = os.environ.get("TT_RENDER", "tt_render"), os.environ["TT_FONT"]


def printed(command, *words, stdin=""):
    """Returns what the program prints."""
    return subprocess.run([PROGRAM, command, *words], input=stdin.encode(), stdout=subprocess.PIPE, check=True).stdout


def collection(font):
    """Returns a collection of two faces, which both are the font."""
    head, shifted = struct.pack(">4sIIII", b"ttcf", 0x10000, 2, 20, 20), bytearray(font)
    for table in range(struct.unpack_from(">H", font, 4)[0]):
        at = 12 + 16 * table + 8
        struct.pack_into(">I", shifted, at, struct.unpack_from(">I", font, at)[0] + len(head))
    return head + bytes(shifted)


def ink(picture):
    """Returns the box of the black pixels."""
    row_bytes = (picture.width + 7) // 8
    black = [
        (column, row)
        for row in range(picture.height)
        for column in range(picture.width)
        if picture.rows[row * row_bytes + column // 8] >> (7 - column % 8) & 1
    ]
    columns, rows = zip(*black)
    return tt_render.Box(min(columns), min(rows), max(columns), max(rows))


def pixels(picture):
    """Returns the rows of a picture, each with a letter 0 or 1 for a pixel."""
    row_bytes = (picture.width + 7) // 8
    rows = [picture.rows[at : at + row_bytes] for at in range(0, len(picture.rows), row_bytes)]
    return ["".join(f"{it:08b}" for it in row)[: picture.width] for row in rows]


def drawn(bitmaps, picture):
    """Returns the rows of a picture that has these bitmaps one after the other, and no margin but the one of its ink."""
    row_bytes, black, pen = (picture.width + 7) // 8, set(), 0
    for it in bitmaps:
        for at in range(it.width * it.height):
            row, column = divmod(at, it.width)
            if it.rows[row * ((it.width + 7) // 8) + column // 8] >> (7 - column % 8) & 1:
                black.add((pen + it.left + column, picture.baseline - it.top + row))
        pen += it.advance
    # The picture is enlarged on the left where ink lies before its first pen.
    moved, rows = -min(0, min(column for column, _ in black)), bytearray(row_bytes * picture.height)
    for column, row in black:
        rows[row * row_bytes + (column + moved) // 8] |= 128 >> (column + moved) % 8
    return bytes(rows)


def variable():
    """Returns a font with weights from 100 to 900 and four named instances: that of tests/c/variable.txt."""
    text = pathlib.Path(__file__).parents[3].joinpath("tests/c/variable.txt").read_text()
    return bytes.fromhex(re.search("^font (.*)", text, re.M)[1])


class Instances(unittest.TestCase):
    def setUp(self):
        self.data = variable()

    def drawn(self, *words, **asked):
        return [tt_render.Font(self.data, *words, **asked).draw("AB", 48, fit=fit) for fit in tt_render.Fit]

    def refused(self, **asked):
        with self.assertRaises(tt_render.Error) as raised:
            tt_render.Font(self.data, **asked)
        return raised.exception.number

    def test_lists(self):
        self.assertEqual([it[:4] for it in tt_render.axes_of(self.data)], [("wght", 100, 400, 900)])
        names = [(0, (100,), "Thin"), (1, (650,), "Medium"), (2, (900,), "Black & wide"), (3, (900,), "Medium")]
        self.assertEqual(tt_render.instances_of(self.data), [tt_render.Instance(*it) for it in names])

    def test_places(self):
        medium = self.drawn(instance=1)
        self.assertEqual(self.drawn(instance="Medium"), medium)
        self.assertEqual(self.drawn(axes={"wght": 650}), medium)
        self.assertEqual(self.drawn(None, axes={"wght": 650})[0], medium[0])
        self.assertEqual(self.drawn(instance=0, axes={"wght": 650}), medium)
        self.assertEqual(self.drawn(axes={"wght": 1e9}), self.drawn(instance=2))
        self.assertEqual(self.drawn(axes={"wght": 400}), self.drawn())
        self.assertNotEqual(medium, self.drawn())

    def test_calls(self):
        plain, black = tt_render.Font(self.data), tt_render.Font(self.data, instance=2)
        self.assertEqual([it.advance for it in black.map("AB")], [it.advance for it in plain.map("AB")])
        self.assertEqual(black.label("A", 48).picture, black.draw("A", 48))
        self.assertEqual(list(black.labels(["A"], 48)), [black.draw("A", 48)])
        self.assertEqual(black.measure("A", 48).ink.right, plain.measure("A", 48).ink.right + 3)
        self.assertEqual(black.glyphs([1], 48)[0].width, plain.glyphs([1], 48)[0].width + 3)

    def test_refused(self):
        self.assertEqual([self.refused(instance=it) for it in (4, -1, 2**40, "Bold", "")], [28] * 5)
        self.assertEqual(self.refused(axes={"wdth": 100}), 27)
        self.assertEqual(self.refused(axes={"wght": 700, "w": 0}), 27)
        self.assertEqual(self.refused(axes={f"a{it:03}": 0 for it in range(17)}), 73)
        for tag in ("", "weight", "wgh\xe9"):
            self.assertRaises(ValueError, tt_render.Font, self.data, axes={tag: 0})


class Calls(unittest.TestCase):
    def setUp(self):
        self.font = tt_render.Font.open(FONT)

    def refused(self, call, *words, **options):
        with self.assertRaises(tt_render.Error) as raised:
            call(*words, **options)
        return raised.exception

    def test_font(self):
        self.assertEqual((self.font.units_per_em, self.font.ascent, self.font.descent), (2048, 1901, -483))

    def test_draw(self):
        for text in ("Shelf 12", "Ǻjf", "j"):
            for size in (9, 16, 300):
                wanted = printed("draw", "--size", str(size), "--fit", "best", "--grow", FONT, text)
                self.assertEqual(self.font.draw(text, size).pbm(), wanted)

    def test_label(self):
        for text in ("Shelf 12", "Ǻjf\nj", "", "\n", "A\r\n\nWide\n", "\ufeffA", "e\u0301 A\u030a", "A\ufe0f", "\U0010ffff"):
            for size in (9, 16, 300):
                got = self.font.label(text, size)
                self.assertEqual(got.pbm(), printed("label", "--size", str(size), FONT, text))
                self.assertEqual(got[1:4], (size, 0, 0))
        composed = self.font.label("\xe9\n\xe5", 16)
        self.assertEqual(self.font.label("e\u0301\na\u030a", 16), composed)

    def test_label_options(self):
        for fit in list(tt_render.Fit)[1:]:
            for align, name in zip(tt_render.Align, ("left", "centre", "right")):
                for kern in (False, True):
                    for rounded in (False, True):
                        words = ["--size", "20", "--margin", "3", "--fit", fit.name.lower(), "--align", name]
                        words += ["--kern"] * kern + ["--height", "rounded" if rounded else "exact"]
                        got = self.font.label("AV\nTo Wax", 20, margin=3, fit=fit, align=align, kern=kern, rounded=rounded)
                        self.assertEqual(got.pbm(), printed("label", *words, FONT, "AV\nTo Wax"))

    def test_label_in_width(self):
        room = self.font.layout("one two", 16).width
        lines = pixels(self.font.label("one two\nthree", 16).picture)
        got = self.font.label("one two three", 16, width=room)
        self.assertEqual((got.picture.width, got.cut_left, got.cut_right), (room, 0, 0))
        self.assertEqual(pixels(got.picture), [it[:room].ljust(room, "0") for it in lines])
        wide = self.font.label("one two\nthree", 16, width=4 * room, margin=2)
        self.assertEqual(pixels(wide.picture)[2:-2], [("00" + it).ljust(4 * room, "0") for it in lines])
        whole = pixels(self.font.draw("W", 16))
        for align, cut in ((tt_render.Align.LEFT, (0, 1)), (tt_render.Align.RIGHT, (1, 0))):
            got = self.font.label("W", 16, width=5, align=align)
            self.assertEqual((got.cut_left > 0, got.cut_right > 0), tuple(map(bool, cut)))
            self.assertEqual(pixels(got.picture), [it[:5] if cut[1] else it[-5:] for it in whole])
        for width in (9, 40, 384):
            for text in ("one two-three", "Ǻjf\njolly good", ""):
                words = ["--size", "16", "--margin", "2", "--width", str(width), "--align", "centre"]
                got = self.font.label(text, 16, margin=2, width=width, align=tt_render.Align.CENTRE)
                self.assertEqual(got.pbm(), printed("label", *words, FONT, text))

    def test_label_in_box(self):
        for text in ("Shelf 12", "quick-brown fox, Ǻjf", "a\nb", "", "e\u0301"):
            for fit in list(tt_render.Fit)[1:]:
                for align, name in zip(tt_render.Align, ("left", "centre", "right")):
                    words = ["--size", "60", "--margin", "2", "--fit", fit.name.lower(), "--align", name, "--box", "120x45"]
                    got = self.font.label(text, 60, margin=2, fit=fit, align=align, box=(120, 45))
                    self.assertEqual(got.pbm(), printed("label", *words, FONT, text))
                    self.assertEqual(got[2:4], (0, 0))
        for most in (300, 20):
            # A word is one row, at the greatest size at which that row fits.
            got = self.font.label("Shelf", most, box=(100, 60))
            self.assertLessEqual(got.size, most)
            own, other = ink(got.picture), ink(self.font.draw("Shelf", got.size))
            self.assertEqual((own.right - own.left, own.bottom - own.top), (other.right - other.left, other.bottom - other.top))
            self.assertEqual(self.font.label("Shelf", got.size, box=(100, 60)), got)
            if got.size < most:
                self.assertGreater(self.font.draw("Shelf", got.size + 1).width, 100)

    def test_label_misses(self):
        self.assertEqual(self.font.label("A\U0010ffff\U0010ffff\n\U0010ffff\U0010fffe", 16).missing, 2)
        self.assertEqual(self.font.label("A\n\n", 16).missing, 0)

    def test_refused_label(self):
        for options, number in (({"width": 16385}, 69), ({"width": -1}, 69), ({"width": 6, "margin": 3}, 69),
                                ({"align": 3}, 72), ({"align": -1, "fit": 4}, 66), ({"margin": 65, "width": 16385}, 64),
                                ({"box": (0, 0)}, 70), ({"box": (50, 0)}, 70), ({"box": (16385, 50)}, 70),
                                ({"box": (50, 4097)}, 70), ({"box": (6, 50), "margin": 3}, 70), ({"box": (-1, 9)}, 70),
                                ({"box": (50, 50), "width": 50}, 70), ({"box": (1, 1)}, 71)):
            self.assertEqual(self.refused(self.font.label, "A", 16, **options).number, number)
        self.assertEqual(self.refused(self.font.label, "A" * 4097, 16, width=3).number, 61)
        self.assertEqual(str(self.refused(self.font.label, "A", 16, width=16385)), "69 WidthRange")
        self.assertEqual(str(self.refused(self.font.label, "A", 16, align=9)), "72 UnknownAlign")
        self.assertEqual(str(self.refused(self.font.label, "A", 16, box=(9, 0))), "70 BoxRange")
        self.assertEqual(str(self.refused(self.font.label, "A" * 99, 16, box=(9, 9))), "71 BoxSmall")

    def test_no_axes(self):
        data = pathlib.Path(FONT).read_bytes()
        self.assertEqual((tt_render.axes_of(data), tt_render.instances_of(data)), ([], []))
        self.assertEqual(self.refused(tt_render.Font, data, axes={"wght": 700}).table, "fvar")
        self.assertEqual(self.refused(tt_render.Font, data, instance=0).number, 3)
        self.assertEqual(tt_render.Font(data, axes={}).draw("A", 16), self.font.draw("A", 16))

    def test_options(self):
        for fit in tt_render.Fit:
            words = ["--size", "20", "--margin", "3", "--fit", fit.name.lower(), FONT, "Hello"]
            got = self.font.draw("Hello", 20, margin=3, fit=fit, grow=False)
            self.assertEqual(got.pbm(), printed("draw", *words))

    def test_kerning_and_heights(self):
        for fit in (tt_render.Fit.NONE, tt_render.Fit.BEST):
            for kern in (False, True):
                for rounded in (False, True):
                    options = {"margin": 1, "fit": fit, "kern": kern, "rounded": rounded}
                    words = ["--size", "24", "--margin", "1", "--fit", fit.name.lower(), *["--kern"] * kern]
                    words += ["--height", "rounded" if rounded else "exact"]
                    got = self.font.draw("AVA To", 24, grow=False, **options)
                    self.assertEqual(got.pbm(), printed("draw", *words, FONT, "AVA To"))
                    self.assertEqual(list(self.font.labels(["AVA To"], 24, grow=False, **options)), [got])
                    self.assertEqual(self.font.measure("AVA To", 24, grow=False, **options)[:4], got[:4])
                    self.assertEqual(self.font.layout("AVA To", 24, **options)[:3], got[:3])
                    pens = self.font.pens("AVA To", 24, **options)
                    self.assertEqual(pens[-1].pen + pens[-1].advance + 1, got.width)
                    places = self.font.characters("AVA To", 24, grow=False, **options)
                    self.assertEqual([it[1:3] for it in places], [it[3:5] for it in pens])
        plain, kerned = self.font.draw("AVA To", 24), self.font.draw("AVA To", 24, kern=True)
        self.assertLess(kerned.width, plain.width)
        self.assertLessEqual(self.font.draw("AVA To", 24, rounded=True).height, plain.height)

    def test_labels(self):
        for size, count in ((16, 4100), (300, 20)):
            texts = [f"Shelf {it}" for it in range(count)]
            got = b"".join(it.pbm() for it in self.font.labels(texts, size))
            stdin = "".join(f"{it}\n" for it in texts)
            words = ["--size", str(size), "--fit", "best", "--grow", "--lines", FONT]
            self.assertEqual(got, printed("draw", *words, stdin=stdin))
        self.assertEqual(list(self.font.labels([], 16)), [])

    def test_refused_line(self):
        got = self.font.labels(["A", "B", "", "C"], 16)
        self.assertEqual([next(got), next(got)], [self.font.draw("A", 16), self.font.draw("B", 16)])
        error = self.refused(next, got)
        self.assertEqual((error.line, error.number), (2, 62))

    def test_blank_line(self):
        got = list(self.font.labels(["A", "", "", "B"], 16, blank=True))
        self.assertEqual([got[0], got[3]], [self.font.draw("A", 16), self.font.draw("B", 16)])
        self.assertEqual(got[1:3], 2 * [tt_render.Picture(0, 0, 0, 0, b"")])

    def test_labels_room(self):
        texts = ["Shelf 12", "jolly", "A"]
        for size, margin in ((9, 0), (24, 2), (100, 0)):
            wanted = sum(len(it.rows) for it in self.font.labels(texts, size, margin=margin))
            self.assertEqual(self.font.labels_room(texts, size, margin=margin), wanted)
        self.assertEqual(self.font.labels_room([], 16), 0)
        self.assertEqual(self.font.labels_room(["", "A", ""], 16, blank=True), len(self.font.draw("A", 16).rows))
        error = self.refused(self.font.labels_room, ["A", "", "B"], 16)
        self.assertEqual((error.number, error.line), (62, 1))

    def test_measure(self):
        got, picture = self.font.measure("jolly", 24), self.font.draw("jolly", 24)
        self.assertEqual(got[:4], picture[:4])
        self.assertEqual(got.ink, ink(picture))
        self.assertIsNone(self.font.measure(" ", 24).ink)

    def test_characters(self):
        got, width = self.font.characters("Hi j", 24, grow=False), self.font.draw("Hi j", 24, grow=False).width
        self.assertEqual(len(got), 4)
        pens = [sum(it.advance for it in got[:at]) for at in range(5)]
        self.assertEqual([it.pen for it in got] + [width], pens)
        self.assertIsNone(got[2].ink)

    def test_offsets(self):
        for text, wanted in (("Aé€\U0001d11eB", [0, 1, 3, 6, 10]), ("\ufe0fA\ufe0f\ufe0f\U000e0100B", [3, 14]),
                             ("\ufe0fa\ufe0f\ufe0f", [3]), ("", [])):
            pens, places = self.font.pens(text, 16, margin=1), self.font.characters(text, 16, margin=1)
            self.assertEqual([it.offset for it in pens], wanted)
            self.assertEqual([it.offset for it in places], wanted)
        strict = tt_render.Font.open(FONT, None)
        pens = strict.pens("\ufe0fA\ufe0f", 16, fit=tt_render.Fit.NONE)
        self.assertEqual([it.offset for it in pens], [0, 3, 4])

    def test_advances(self):
        # The advances of FreeType 2, whose interpreter of version 35 runs the font's programs.
        for size, wanted in ((9, [448, 192, 192, 192]), (16, [768, 192, 192, 320]), (24, [1152, 448, 448, 512])):
            got = self.font.glyphs([it.glyph for it in self.font.map("Hij,")], size)
            self.assertEqual([it.advance_64ths for it in got], wanted)
            self.assertEqual([it.advance for it in got], [(it + 32) // 64 for it in wanted])
        # 1,540 of 2,048 units at 16, and no program.
        got = self.font.glyphs([self.font.map("H")[0].glyph], 16, fit=tt_render.Fit.NONE)
        self.assertEqual((got[0].advance_64ths, got[0].advance), (770, 12))

    def test_strike(self):
        for size in (9, 24, 300):
            for rounded in (False, True):
                got, line = self.font.strike(size, rounded=rounded), self.font.layout("A", size, rounded=rounded)
                self.assertEqual(got[:4], line[3:7])
        # The table post has -40 and 90, of 2,048 units in an em.
        self.assertEqual(self.font.strike(24).underline, tt_render.Underline(0, 1))
        self.assertEqual(self.font.strike(300).underline, tt_render.Underline(-6, 13))
        self.assertEqual(self.refused(self.font.strike, 301).number, 60)

    def test_map(self):
        said = printed("map", FONT, "Aé\U0010ffff").decode().split("\n")[:-1]
        got = [f"U+{it.code_point:04X} {it.glyph} {it.advance}" for it in self.font.map("Aé\U0010ffff")]
        self.assertEqual(got, said)

    def test_faces(self):
        data = collection(self.font._data)
        self.assertEqual((tt_render.faces(self.font._data), tt_render.faces(data)), (1, 2))
        self.assertEqual(tt_render.Font(data, 1).label("Hi", 16), self.font.label("Hi", 16))
        for face in (2, 2**32 - 1, 2**32, -1, -2):
            self.assertEqual(self.refused(tt_render.Font, data, face).number, 25)
        self.assertEqual(self.refused(tt_render.Font, data, None).number, 1)

    def test_glyphs(self):
        for fit in tt_render.Fit:
            for size in (9, 16, 300):
                numbers = [it.glyph for it in self.font.map("Hij, j")]
                got = self.font.glyphs(numbers, size, fit=fit)
                self.assertEqual([it.glyph for it in got], numbers)
                self.assertEqual(got[2], got[5])
                picture = self.font.draw("Hij, j", size, fit=fit)
                self.assertEqual(drawn(got, picture), picture.rows)

    def test_refused_glyphs(self):
        two = self.font.map("2")[0].glyph
        got = self.font.glyphs([2**32 - 1, two], 16, fit=tt_render.Fit.FULL)
        self.assertEqual([(it.status, it.number, it.table, it.rows) for it in got],
                         [(2, 68, "", b""), (1, 35, "glyf", b"")])
        self.assertEqual(self.font.glyphs([], 16), [])
        self.assertEqual(self.refused(self.font.glyphs, [two] * 4097, 16).number, 61)

    def test_layout(self):
        for fit in tt_render.Fit:
            got, wanted = self.font.layout("Hi j", 24, margin=2, fit=fit), self.font.measure(
                "Hi j", 24, margin=2, fit=fit, grow=False)
            self.assertEqual(got[:3], wanted[:3])
            self.assertEqual((got.rise + got.depth + 4, got.characters), (got.height, 4))
            pens = self.font.pens("Hi j", 24, margin=2, fit=fit)
            places = self.font.characters("Hi j", 24, margin=2, fit=fit, grow=False)
            self.assertEqual([(it.glyph, it.advance, it.pen) for it in pens],
                             [(it.glyph, it.advance, it.pen) for it in places])

    def test_defect(self):
        error = self.refused(self.font.draw, "2", 16, fit=tt_render.Fit.FULL)
        self.assertEqual((error.status, error.number, error.table), (1, 35, "glyf"))
        self.assertEqual(str(error), f"glyf+{error.offset}: 35 OffProfile")
        error = self.refused(tt_render.Font, b"OTTO")
        self.assertEqual((error.status, error.table), (1, "file"))

    def test_request(self):
        for size in (0, 301, -1, 2**32 + 16):
            error = self.refused(self.font.draw, "A", size)
            self.assertEqual((error.status, error.number, error.table, error.line), (2, 60, "", None))
        self.assertEqual(self.refused(self.font.draw, "\ud800", 16).status, 6)

    def test_processor(self):
        self.assertIs(tt_render.supported(), True)


if __name__ == "__main__":
    unittest.main()
