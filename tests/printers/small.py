"""The parts of printers/run with small fonts: letters that are composed, lines that fit a width, boxes, files in PNG,
files that -o names, lines of which one is refused."""
import re
import unicodedata

import cases
import common
import labels
import model
import parts
import places
from labels import lines_of

SIZE = "--size", "16"
# Where tables name a pair of characters of a composed one.
LAST = 0x30000
HANGUL = "\u1100\u1161\u11a8\uac00\u11a9\ub098\u11a7"


def pairs():
    """Returns the composed characters by their pairs: primary composites, but Hangul."""
    found = {}
    for it in map(chr, range(LAST)):
        words = unicodedata.decomposition(it).split()
        if len(words) == 2 and not words[0].startswith("<") and unicodedata.normalize("NFC", it) == it:
            found["".join(chr(int(word, 16)) for word in words)] = it
    return found


PAIRS = pairs()


def composite(pair):
    """Returns the character that is the canonical composition of two, or None."""
    if all("\u1100" <= it <= "\u11ff" or "\uac00" <= it <= "\ud7a3" for it in pair):
        made = unicodedata.normalize("NFC", pair)
        return made if len(made) == 1 else None
    return PAIRS.get(pair)


def composed(text, has):
    """Returns a text in which composed characters that a font has take the place of their pairs."""
    made = ""
    for it in text:
        one = composite(made[-1] + it) if made else None
        made = made[:-1] + one if one and has(one) else made + it
    return made


def has_glyph(asked, words, folder=None):
    """Returns what says whether a font has a glyph of a character."""
    known = {}

    def has(character):
        if character not in known:
            status, out, _ = asked.run(["map", "--face", "0", "--", *words, character], folder)
            known[character] = status == 0 and out.split()[1:2] != [b"0"]
        return known[character]

    return has


def try_composed(asked):
    """Letters and marks beside each other, beside the text in which the font's composed characters are written."""
    fonts = labels.fonts(cases.HERE / "fonts.txt")
    texts = ["A\u0308A", "A\u0301\u0308", "\u00c4\u0301", "\u0308A", "A\n\u0308", "E\u0301", HANGUL]
    texts.append("A" * 4095 + "\u0308")
    for name in "words", "marks", "T":
        folder = asked.folder(fonts[name])
        has = has_glyph(asked, ["F.ttf"], folder)
        for text in texts:
            wanted = asked.run(["label", "--size", "3", "--", "F.ttf", composed(text, has)], folder)
            got = asked.run(["label", "--size", "3", "--", "F.ttf", text], folder)
            common.tried(f"composed {name} {text[:9]!a}", got, wanted)
        got = asked.run(["label", *SIZE, "--", "F.ttf", "A" * 4096 + "\u0308"], folder)
        wanted = 2, b"", lines_of(["61 TextLong", "a text has at most 4096 characters"])
        common.tried(f"composed {name}, too long before", got, wanted)


def is_fault(got):
    """Judges the answer to a command line that is none."""
    return [] if got[0] == 2 and not got[1] and got[2] else [f"status {got[0]}, and standard error {got[2][:200]!r}"]


def drawn_rows():
    """Yields the rows of ../label whose picture is alone."""
    for row in labels.rows():
        if row.status == 0 and row.stdout.count(b"P4\n") == 1 and b"--lines" not in row.words and row.font is not None:
            yield row


def try_padded(asked):
    """--width of each such row whose lines begin at the left, where all lines fit: the picture of the row, with other
    columns at its sides."""
    more = 7
    found = [it for it in drawn_rows() if b"--align" not in it.words]
    found = [it for it in found if model.rows_of(it.stdout)[0] + more <= model.WIDTH_LIMIT]

    def answered(row):
        columns, rows = model.rows_of(row.stdout)
        width = columns + more
        words = [b"label", b"--width", b"%d" % width, *row.words]
        status, picture, errors = asked.run(words, asked.folder(row.font, row.file), row.stdin)
        cut = re.search(rb"tt_render: ink is cut: (?:(\d+) columns? at the left)?.*\n", errors)
        left = int(cut[1] or 0) if cut else 0
        wanted = model.picture_of(width, [(it << more + left) & ((1 << width) - 1) for it in rows])
        return (status, picture, errors.replace(cut[0], b"") if cut else errors), (0, wanted, row.errors)

    for row, (got, wanted) in zip(found, asked.each(answered, found)):
        common.tried(f"padded {row.name}", got, wanted)


def try_png(asked):
    """--png of each row of ../label that has one picture."""
    found = list(drawn_rows())
    run = lambda it: asked.run([b"label", b"--png", *it.words], asked.folder(it.font, it.file), it.stdin)
    for row, got in zip(found, asked.each(run, found)):
        common.tried(f"png {row.name}", got, (0, cases.png_of(row.stdout), row.errors))
    folder = asked.folder(labels.fonts()["T"])
    for words in (["--png", "--lines", "F.ttf"], ["--png", "--png", "F.ttf", "A"], ["--png=1", "F.ttf", "A"]):
        common.verdict(f"png {words}", is_fault(asked.run(["label", *SIZE, *words], folder)))
    got = asked.run(["label", *SIZE, "--png", "--missing", "refuse", "F.ttf", "Z"], folder)
    common.tried("png of a refused text", got, (2, b"", lines_of(["U+005A has no glyph"])))


# Words of --box that are not two numbers below 2^32 with an x between them.
NO_BOXES = "", "x", "40", "40x", "x40", "40X40", "40x40x40", "+4x4", "4x-4", "4 x4", "4x4 ", "4.0x4", "4294967296x1"


def try_boxes(asked):
    """Command lines with --box, its files, and least sizes below 5."""
    folder = asked.folder(labels.fonts(cases.HERE / "fonts.txt")["T"])
    for word in NO_BOXES:
        common.verdict(f"box {word!r}", is_fault(asked.run(["label", "--box", word, "F.ttf", "A"], folder)))
    box = ["--box", "40x30"]
    for words in (["label", *box, *box], ["label", *box, "--width", "40"], ["label", "--width", "40"],
                  *([it, *SIZE, *box] for it in ("draw", "measure", "bdf"))):
        common.verdict(" ".join(words), is_fault(asked.run([*words, "F.ttf", "A"], folder)))
    drawn = asked.run(["label", *box, "F.ttf", "A"], folder)
    for words in (["--box=40x30"], ["--box", "040x0030"], [*box, "--size", "300"], [*box, "--align", "left"]):
        common.tried(" ".join(words), asked.run(["label", *words, "F.ttf", "A"], folder), drawn)
    got = asked.run(["label", *box, "--png", "F.ttf", "A"], folder)
    common.tried("box in PNG", got, (0, cases.png_of(drawn[1]), b""))
    for name, form in ("x.png", cases.png_of), ("x.pbm", bytes):
        got = asked.run(["label", *box, "-o", name, "F.ttf", "A"], folder)
        written(f"box in {name}", folder, got, (0, b"", b""), {name: form(drawn[1])})
    got = asked.run(["label", "--box", "1x1", "-o", "x.png", "F.ttf", "A"], folder)
    told = ["71 BoxSmall", "the text fits into this box at no size"]
    written("no file of a text that fits at no size", folder, got, (2, b"", lines_of(told)), {})
    for size in "1", "4", "5":
        inks = [ink_of(asked.run(["label", "--size", size, *it, "F.ttf", "A"], folder)) for it in ([], box)]
        common.verdict(f"box at most {size}", [] if inks[0] == inks[1] else [f"another ink: {inks}"])
    words = ["label", *box, "--lines", "--keep-going", "-o", "%d.pbm", "F.ttf"]
    got = asked.run(words, folder, b"A" * 99 + b"\nA\n")
    written("box of lines", folder, got, (2, b"", lines_of(f"line 1: {it}" for it in told)), {"2.pbm": drawn[1]})


def ink_of(got):
    """Returns the black pixels of an answer by their places from the first one."""
    status, picture, errors = got
    if status:
        return status, errors
    width, rows = model.rows_of(picture)
    places_ = [(x, y) for y, row in enumerate(rows) for x in range(width) if row >> (width - 1 - x) & 1]
    first = [min(it) for it in zip(*places_)]
    return [(x - first[0], y - first[1]) for x, y in places_]


def left_in(folder):
    """Returns the files of a folder by their names, without the font, and takes them away."""
    found = {it.name: it.read_bytes() for it in sorted(folder.iterdir()) if it.is_file() and it.name != "F.ttf"}
    for name in found:
        (folder / name).unlink()
    return found


def written(name, folder, got, wanted, files):
    """Compares an answer, and the files that it left."""
    common.tried(name, got, wanted)
    found = left_in(folder)
    common.verdict(f"files of {name}", [] if found == files else [f"{found}"[:300]])


def try_output(asked):
    """Files that -o names: which form they have, and that a refused text changes none."""
    folder = asked.folder(labels.fonts()["T"], b"F.ttf")
    picture = asked.run(["label", *SIZE, "F.ttf", "A"], folder)[1]
    file = cases.png_of(picture)
    forms = {"x.png": file, "X.PNG": file, ".pNg": file, "x.pbm": picture, "png": picture, "x.png.pbm": picture,
             "x%d.png": file, "x png": picture, "%.png": file}
    for name, wanted in forms.items():
        (folder / name).write_bytes(b"longer than a picture" * 50)
        for option in (["-o", name], [f"--output={name}"]):
            got = asked.run(["label", *SIZE, *option, "F.ttf", "A"], folder)
            common.tried(f"output {option}", got, (0, b"", b""))
        found = left_in(folder)
        common.verdict(f"output in {name}", [] if found == {name: wanted} else [f"{found}"[:300]])
    for words in (["--png", "-o", "x.pbm"], ["-o", "x.pbm", "--png"]):
        got = asked.run(["label", *SIZE, *words, "F.ttf", "A"], folder)
        written(f"output {words}", folder, got, (0, b"", b""), {"x.pbm": file})
    (folder / "x.png").write_bytes(b"as before")
    for size, *words in (["16", "--missing", "refuse", "F.ttf", "Z"], ["0", "F.ttf", "A"], ["9", "F.ttf", "A" * 4097],
                         ["16", "none.ttf", "A"]):
        wanted, got = (asked.run(["label", "--size", size, *it, *words], folder) for it in ([], ["-o", "x.png"]))
        common.tried(f"output, refused {words[0]}", got, wanted)
    found = left_in(folder)
    common.verdict("output of refused texts", [] if found == {"x.png": b"as before"} else [f"{found}"[:300]])
    uncreated(asked, folder)
    got = asked.run(["label", *SIZE, "-o", "/dev/full", "F.ttf", "A"], folder)
    common.tried("output on a full device", got, (4, b"", lines_of(["cannot write after 0 bytes"])))
    beside_streams(asked, folder, picture)
    numbered(asked, folder, picture)
    going_on(asked, folder, picture)


def uncreated(asked, folder):
    """Tries files that cannot be created, and what is told of each."""
    (folder / "under").mkdir(exist_ok=True)
    (folder / "loop").symlink_to("loop")
    cases_ = {"nowhere/x.png": "no such file", "F.ttf/x.png": "a folder of this path is a file", "under": "is a folder",
              "x" * 300 + ".png": "the name is too long", "": "no such file", "loop": "too many symbolic links",
              "no\x1bwhere/x": "no such file"}
    for name, why in cases_.items():
        got = asked.run(["label", *SIZE, "-o", name, "F.ttf", "A"], folder)
        wanted = 4, b"", lines_of(["cannot create the picture", f"{model.shown(name)}: {why}"])
        common.tried(f"output in {name[:30]!r}", got, wanted)
    (folder / "loop").unlink()


def beside_streams(asked, folder, picture):
    """Tries a file where streams are closed, over the font itself, and through a link. No report is in the file."""
    for how in "", ">&-", "<&-", ">&- 2>&-", "<&- 2>&-", "<&- >&- 2>&-", ">/dev/full":
        status, out, _ = places.redirected(asked, ["label", *SIZE, "-o", "x.pbm", "F.ttf", "AZ"], how, folder)
        alone = asked.run(["label", *SIZE, "F.ttf", "AZ"], folder)[1]
        common.verdict(f"output and streams {how!r}", [] if (status, out, left_in(folder)) == (0, b"", {"x.pbm": alone})
                       else [f"status {status}, or another file"])
    (folder / "G.ttf").write_bytes((folder / "F.ttf").read_bytes())
    got = asked.run(["label", *SIZE, "-o", "G.ttf", "G.ttf", "A"], folder)
    written("output over its font", folder, got, (0, b"", b""), {"G.ttf": picture})
    (folder / "link").symlink_to("behind")
    got = asked.run(["label", *SIZE, "-o", "link", "F.ttf", "A"], folder)
    (folder / "link").unlink()
    written("output through a link", folder, got, (0, b"", b""), {"behind": picture})


def numbered(asked, folder, picture):
    """Tries -o with --lines: a file for each line."""
    words = ["label", *SIZE, "--lines", "--missing", "refuse"]
    for name in "x.png", "%d%d.png", "%d-%d", "%":
        got = asked.run([*words, "-o", name, "F.ttf"], folder, b"A\n")
        common.verdict(f"output of lines in {name}", is_fault(got) + [str(it) for it in left_in(folder)])
    for name, form in ("5%-%d.png", cases.png_of), ("%d", bytes):
        got = asked.run([*words, "-o", name, "F.ttf"], folder, b"A\n\nA\nZ\nA\n")
        common.tried(f"output of lines in {name}", got, (2, b"", lines_of(["line 4: U+005A has no glyph"])))
        empty = asked.run(["label", *SIZE, "F.ttf", ""], folder)[1]
        wanted = {name.replace("%d", str(at)): form(it) for at, it in enumerate((picture, empty, picture), 1)}
        found = left_in(folder)
        common.verdict(f"files of lines in {name}", [] if found == wanted else [f"{found}"[:300]])
    got = asked.run([*words, "-o", "nowhere/%d", "F.ttf"], folder, b"A\nA\n")
    told = ["line 1: cannot create the picture", "nowhere/1: no such file"]
    common.tried("output of lines nowhere", got, (4, b"", lines_of(told)))
    got = asked.run([*words, "--png", "-o", "%d.pbm", "F.ttf"], folder, b"A\n")
    written("png of lines", folder, got, (0, b"", b""), {"1.pbm": cases.png_of(picture)})


def going_on(asked, folder, picture):
    """Tries -o with --keep-going: the file of a refused line is not there, and one that cannot be created stops all."""
    words = ["label", *SIZE, "--lines", "--keep-going", "--missing", "refuse", "-o", "%d.pbm", "F.ttf"]
    got = asked.run(words, folder, b"Z\nA\nZ\nA\n")
    wanted = 2, b"", lines_of(["line 1: U+005A has no glyph", "line 3: U+005A has no glyph"])
    written("output past refused lines", folder, got, wanted, {"2.pbm": picture, "4.pbm": picture})
    (folder / "3.pbm").mkdir()
    got = asked.run(words, folder, b"Z\nA\nA\nA\n")
    told = ["line 1: U+005A has no glyph", "line 3: cannot create the picture", "3.pbm: is a folder"]
    written("output up to a folder", folder, got, (4, b"", lines_of(told)), {"2.pbm": picture})
    (folder / "3.pbm").rmdir()


def alone(asked, words, folder, number, data):
    """Returns what a line answers by itself: status, standard output, lines of standard error."""
    text, why = parts.text_in(data)
    if not why:
        status, out, errors = asked.run([*words, "--", "F.ttf", text], folder)
        return status, out, [f"line {number}: {it.removeprefix('tt_render: ')}" for it in errors.decode().splitlines()]
    second = {"61 TextLong": "a text has at most 4096 characters",
              "not UTF-8": "the lines have to be UTF-8; iconv(1) changes other encodings"}[why]
    told = [why, second] if words[0] == "label" else [why]
    return 2, b"", [f"line {number}: {it}" for it in told]


def try_keep_going(asked):
    """Lines of which some are refused: the others are drawn, and the first refused one decides the status."""
    fonts = labels.fonts(cases.HERE / "fonts.txt")
    good, bad = [b"A", b"AA", b"B"], [b"Z", b"\xff", b"A" * 4097, b"A" * 16385, b"A" * 1000, b""]
    inputs = [good, bad, [*good, *bad, *good], [*bad[::-1], *good], *([it, b"A"] for it in bad), [b"A", b"Z"], []]
    for command in "label", "draw", "measure":
        words = [command, "--size", "300", "--missing", "refuse"]
        folder = asked.folder(fonts["T"])
        for texts in inputs:
            answers = [alone(asked, words, folder, at, it) for at, it in enumerate(texts, 1)]
            told = [it for _, _, errors in answers for it in errors]
            status = next((it for it, _, _ in answers if it), 0)
            got = asked.run([*words, "--lines", "--keep-going", "F.ttf"], folder, b"".join(it + b"\n" for it in texts))
            wanted = status, b"".join(it for _, it, _ in answers), lines_of(told)
            common.tried(f"{command} --keep-going {[it[:5] for it in texts]}", got, wanted)
        folder = asked.folder(fonts["deep"])
        wanted, got = (asked.run([command, *SIZE, "--lines", *it, "F.ttf"], folder, b"B\nA\nB\n") for it in
                       ([], ["--keep-going"]))
        common.tried(f"{command} --keep-going and a defect", got, wanted)
        got = asked.run([command, *SIZE, "--keep-going", "F.ttf", "A"], folder)
        common.verdict(f"{command} --keep-going without --lines", is_fault(got))
