"""Laws of labels with a width or in a box, for random texts and for a sentence in each installed font.

What is drawn with --width or --box is compared with what `label` draws of the same rows without them. Where rows end is
what breaking.py finds by the steps that `measure` prints, and is itself held against the laws of rows.
"""
import random
import re

import breaking
import cases
import common
import labels
import model
import on_fonts
import small

# The fonts of fonts.txt that have these characters, and what random texts are made of.
FONTS = "words", "T", "over"
ALPHABET = "AAAAAABBB    --\u2010\u200b12.(\u4e00\u3042\u3001\u300c\n"
MARKED = "Ae\u0301\u0308\u0323\u030a\u1112\u1161\u11ab n\u0303"
TEXTS = 120
SEED = 84
# The longest texts that may cost the most.
LONG = {"blanks": " " * 4096, "marks": "A" + "\u0308" * 4095, "ideographs": "\u4e00" * 4096, "hyphens": "A-" * 2048}


def rows_as_lines(rows):
    """Returns the text whose lines are these rows."""
    texts = [it.text for it in rows]
    return "\n".join(texts) + "\n" * (texts[-1] == "")


def laws_of_rows(units, rows, room):
    """Judges the rows of a line: each unit but dropped blanks is in one, in order; none of whole words is wider than
    the room; none could have been longer."""
    line, faults, at = "".join(it.character for it in units), [], 0
    for number, row in enumerate(rows):
        last, end = number == len(rows) - 1, at + len(row.text)
        if line[at:end] != row.text:
            faults.append(f"row {number} is not the line's next part")
        width = breaking.width_of(units[at:end])
        if width > room and not row.broken:
            faults.append(f"row {number} of whole words is {width} wide")
        after = end if row.broken else end + len(line[end:]) - len(line[end:].lstrip(" "))
        if last != (after == len(line)):
            faults.append(f"row {number} is the last one, or is not")
        places = [it for it in range(after + 1, len(line)) if breaking.may_break(line, it)] + [len(line)]
        if not last and breaking.width_of(units[at : places[0]]) <= room:
            faults.append(f"row {number} could end later")
        at = after
    return faults


def columns_cut(errors):
    """Returns how many columns of ink a report says are cut at the left and at the right, and the report's rest."""
    found = re.search(rb"tt_render: ink is cut: (.*); --margin or a greater --width shows it\n", errors)
    sides = found[1].decode() if found else ""
    counts = [int((re.search(rf"(\d+) columns? at the {it}", sides) or [0, 0])[1]) for it in ("left", "right")]
    return counts, errors.replace(found[0], b"") if found else errors


def ink_of(rows):
    """Returns the first and the last bit of ink in rows, or None."""
    every = 0
    for it in rows:
        every |= it
    return ((every & -every).bit_length() - 1, every.bit_length() - 1) if every else None


def cropped(picture):
    """Returns the ink of a picture, without white borders."""
    _, rows = model.rows_of(picture)
    ink = ink_of(rows)
    rows = [it >> ink[0] for it in rows] if ink else []
    while rows and not rows[0]:
        rows.pop(0)
    while rows and not rows[-1]:
        rows.pop()
    return rows


def width_faults(asked, face, size, text, width, margin):
    """Judges a text with a width at the left: the picture is that of its rows as lines, padded or cut, and what is cut
    is reported."""
    room, faults, rows = width - 2 * margin, [], []
    for line in model.label_lines(text):
        units = face.units(size, line)
        found = breaking.rows_of(units, room)
        faults += laws_of_rows(units, found, room)
        rows += found
    words = ["label", "--size", str(size), "--margin", str(margin), *face.kern]
    status, picture, errors = asked.run([*words, "--width", str(width), "--", face.path, text])
    other, alone = (asked.run([*words, "--", face.path, it]) for it in (rows_as_lines(rows), text))
    if (status, other[0]) != (0, 0):
        return faults + [f"statuses {status} and {other[0]}: {errors[:200]!r}"]
    (left, right), errors = columns_cut(errors)
    columns, lines = model.rows_of(other[1])
    more = width + left - columns
    moved = [it << more if more >= 0 else it >> -more for it in lines]
    if picture != model.picture_of(width, [it & ((1 << width) - 1) for it in moved]):
        faults.append(f"another picture than that of its {len(rows)} rows")
    ink = ink_of(lines)
    beyond = max(0, columns - ink[0] - left - width) if ink else 0
    before = max(0, ink[1] + 1 + left - columns) if ink else 0
    if (left, right) != (before if left else 0, beyond) or left and before != left:
        faults.append(f"{left} and {right} columns are said to be cut, and {before} and {beyond} are")
    if errors != alone[2]:
        faults.append(f"it reports {errors[:200]!r}, and without a width {alone[2][:200]!r}")
    return faults


def box_faults(asked, face, text, width, height, margin, align):
    """Judges a text in a box. Its size is the least --size that draws the same. The picture is the model's at this
    size; at greater ones the text does not fit, or is drawn alike; the ink is that of its rows as lines, whole."""
    words = ["label", "--box", f"{width}x{height}", "--margin", str(margin), "--align", align, *face.kern]
    at = lambda size: asked.run([*words, "--size", str(size), "--", face.path, text])
    rows_at = lambda size, room, free: face.rows_in_box(size, text, room, free)
    fits = lambda size: breaking.in_box(rows_at, face.line, margin, align, width, height, size, size)
    status, picture, errors = asked.run([*words, "--", face.path, text])
    if status == 2 and errors.startswith(b"tt_render: 71 BoxSmall\n"):
        sizes = *range(breaking.LEAST, breaking.LEAST + 4), 24
        return [f"refused, and fits at {it}" for it in sizes if fits(it)]
    if status or model.rows_of(picture)[0] != width or len(model.rows_of(picture)[1]) != height:
        return [f"status {status}, and another size: {errors[:200]!r}"]
    low, size = breaking.LEAST - 1, face.greatest(height - 2 * margin)
    while size - low > 1:
        middle = (low + size) // 2
        low, size = (low, middle) if at(middle)[1] == picture else (middle, size)
    faults = [] if fits(size) == (picture, size) else [f"another picture than the model's at {size}"]
    greater = {it for it in (size + 1, size + 2, size + 3, 2 * size, breaking.GREATEST) if it <= breaking.GREATEST}
    others = [it for it in sorted(greater - {size}) if (fits(it) or (picture,))[0] != picture]
    faults += [f"it fits at {it}, and is drawn at {size}" for it in others]
    lines, room = model.label_lines(text), width - 2 * margin
    rows = [it for line in lines for it in breaking.rows_of(face.units(size, line), room)]
    faults += [f"{it.text!r} is broken within a word at {size}" for it in rows if it.broken]
    options = ["--size", str(size), "--align", align, *face.kern]
    plain = asked.run(["label", *options, "--", face.path, rows_as_lines(rows)])
    if align != "centre" and cropped(plain[1]) != cropped(picture):
        faults.append(f"other ink than that of its {len(rows)} rows at {size}")
    black = [sum(it.bit_count() for it in model.rows_of(one)[1]) for one in (plain[1], picture)]
    return faults + ([] if black[0] == black[1] else [f"{black[1]} pixels are black, and not {black[0]}, at {size}"])


def random_texts(alphabet, count):
    """Yields random texts, each with the source of other random numbers."""
    source = random.Random(SEED)
    for _ in range(count):
        yield source, "".join(source.choice(alphabet) for _ in range(source.randint(0, 24)))


def small_faces(asked):
    """Returns the small fonts as faces."""
    fonts = labels.fonts(cases.HERE / "fonts.txt")
    return {it: on_fonts.Face(asked, str(asked.folder(fonts[it]) / "F.ttf")) for it in FONTS}


def widths(asked):
    """The laws of --width for random texts in small fonts."""
    for name, face in small_faces(asked).items():
        for source, text in random_texts(ALPHABET, TEXTS):
            size, margin = source.choice((8, 16, 31)), source.choice((0, 0, 1, 5))
            width = 2 * margin + source.randint(1, 90)
            faults = width_faults(asked, face, size, text, width, margin)
            common.verdict(f"laws of width: {name} {size} {width} {margin} {text!a}", faults)


def boxes(asked):
    """The laws of --box for random texts in small fonts."""
    for name, face in small_faces(asked).items():
        for source, text in random_texts(ALPHABET, TEXTS // 6):
            margin, align = source.choice((0, 0, 1, 5)), source.choice(model.ALIGNS)
            width, height = (2 * margin + source.randint(1, 120) for _ in range(2))
            faults = box_faults(asked, face, text, width, height, margin, align)
            common.verdict(f"laws of box: {name} {width}x{height} {margin} {align} {text!a}", faults)


def compositions(asked):
    """Random letters and marks: the composed text is drawn alike, and composing again changes nothing."""
    fonts = labels.fonts(cases.HERE / "fonts.txt")
    for name in "words", "marks":
        folder = asked.folder(fonts[name])
        has = small.has_glyph(asked, ["F.ttf"], folder)
        for _, text in random_texts(MARKED, TEXTS // 3):
            once = small.composed(text, has)
            got, wanted = (asked.run(["label", "--size", "16", "--", "F.ttf", it], folder) for it in (text, once))
            common.tried(f"laws of composition: {name} {text!a}", got, wanted)
            again = small.composed(once, has)
            common.verdict(f"composed once: {name} {text!a}", [] if again == once else [f"{again!a}"])


def long_texts(asked):
    """The longest texts with a width: the picture has the width, or is too high. Blanks are one row without ink."""
    folder = asked.folder(labels.fonts(cases.HERE / "fonts.txt")["words"])
    words = ["label", "--size", "4", "--width", "64", "F.ttf"]
    for name, text in LONG.items():
        status, picture, errors = asked.run([*words, text], folder)
        if status == 2:
            faults = [] if errors.startswith(b"tt_render: 63 PictureLarge\n") else [f"{errors[:200]!r}"]
        else:
            faults = [] if picture.startswith(b"P4\n64 ") else [f"status {status}, and {picture[:20]!r}"]
        common.verdict(f"long text: {name}", faults)
        if name == "blanks":
            wanted = *asked.run([*words, ""], folder)[:2], b""
            common.tried("long text as an empty one", (status, picture, b""), wanted)


def long_boxes(asked):
    """The longest texts in a box: at the size that is drawn the rows are whole, or no size fits."""
    folder = asked.folder(labels.fonts(cases.HERE / "fonts.txt")["words"])
    for name, text in LONG.items():
        for box in "384x120", "16384x4096":
            status, picture, errors = asked.run(["label", "--box", box, "F.ttf", text], folder)
            if status == 2:
                faults = [] if errors.startswith(b"tt_render: 71 BoxSmall\n") else [f"{errors[:200]!r}"]
            else:
                head = f"P4\n{box.replace('x', ' ')}\n".encode()
                faults = [] if status == 0 and picture.startswith(head) else [f"status {status}, and {picture[:20]!r}"]
            common.verdict(f"long text in {box}: {name}", faults)


def in_each_font(asked, name, judged):
    """Judges each installed font by a function of a font and its number."""
    found = on_fonts.fonts()
    for path, faults in zip(found, asked.each(judged, found, range(len(found)))):
        common.verdict(f"{name} {path}", faults)
    if not found:
        common.skip(name, "no TrueType font is installed")


def installed_widths(asked):
    """The laws of --width for a sentence in each installed font."""

    def judged(path, at):
        margin = on_fonts.MARGINS[at % 3]
        face, width = on_fonts.Face(asked, path, at % 4 == 1), 2 * margin + 40 + 37 * at % 300
        return width_faults(asked, face, 12 + at % 13, on_fonts.SENTENCE, width, margin)

    in_each_font(asked, "laws of width", judged)


def installed_boxes(asked):
    """The laws of --box for a sentence in each installed font. Low boxes ask for few sizes."""

    def judged(path, at):
        face, align = on_fonts.Face(asked, path, at % 4 == 1), model.ALIGNS[at % 3]
        return box_faults(asked, face, on_fonts.SENTENCE, 384, 24 + at % 57, at % 4, align)

    in_each_font(asked, "laws of box", judged)
