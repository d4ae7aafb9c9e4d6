"""The part of glyph_sets/run that composes the texts of ../rows of the entries of their glyphs."""
import asking
import calls
import common
import drawn
import model
import parts

# Each so many texts are composed.
STEP = 3
# Status and number of a glyph whose ink is too wide or too high.
LARGE = 2, 63


def placed(units, entries, rows, shape):
    """Returns the rows of a picture of entries at the pens of units, whose ink outside of the picture is cut."""
    width, height, baseline = shape
    picture, known = [0] * height, {it[0]: it for it in entries}
    for number, pen in units:
        _, _, _, _, _, _, left, top, columns, lines, at = known[number]
        size, shift = (columns + 7) // 8, width - pen - left - columns
        for line in range(max(0, top - baseline), min(lines, height - baseline + top)):
            row = int.from_bytes(rows[at + line * size :][:size], "big") >> 8 * size - columns
            picture[baseline - top + line] |= (row << shift if shift >= 0 else row >> -shift) & (1 << width) - 1
    return model.picture_of(width, picture)


def refusal_of(answer, entries):
    """Returns the first fault that a call answers, in its answer or an entry, or None."""
    if answer.status == calls.FONT:
        return drawn.Fault(*calls.values_of(answer)[1:4])
    return next((drawn.Fault(*it[2:5]) for it in entries or [] if it[1] == calls.FONT), None)


def composed(asked, row):
    """Returns what is wrong with the entries of a text's glyphs, by the row's picture and report, or by its refusal."""
    size, margin = row.shape
    words = ["--size", str(size), "--margin", str(margin), "--fit", row.kind, "F.ttf", row.text.decode()]
    face = ["--face", "0"] if row.kind == "best" else []
    lines = asked.run(["map", *face, "F.ttf", row.text.decode()], asked.folder(row.font))[1].decode().splitlines()
    numbers = list(dict.fromkeys(int(it.split()[-2]) for it in lines)) or [0]
    job = calls.job_of(size, margin, row.kind, None)
    answer, entries, rows = asked.library.glyphs(row.font, numbers, job)
    if row.status:
        fault = drawn.fault_in(row.stderr.decode().splitlines()[0])
        return parts.differing(refusal=(fault, refusal_of(answer, entries)))
    if not answer.status and any(it[1:3] == LARGE for it in entries):
        # The picture cuts such ink. One that is to hold all ink is refused.
        said = asked.run(["draw", "--grow", *words], asked.folder(row.font))[2]
        return parts.differing(grown=(b"tt_render: 63 PictureLarge\n", said))
    if answer.status or any(it[1] for it in entries):
        return [f"it is refused: {refusal_of(answer, entries)}"]
    measured = asked.run(["measure", *words], asked.folder(row.font))[1].decode().splitlines()
    width, height, _, baseline = next(it.split()[1:5] for it in measured if it.startswith("picture "))
    units = [tuple(map(int, it.split()[1:3])) for it in measured if it.startswith("U+")]
    picture = placed(units, entries, rows, (int(width), int(height), int(baseline)))
    unfitted = {it[0]: drawn.Fault(*it[2:5]) for it in entries if it[2]}
    return parts.differing(picture=(row.stdout, picture), unfitted=(drawn.unfitted_in(row.stderr), unfitted))


def texts(asked):
    """Texts of ../rows: the pictures, reports and refusals there, by the entries of their glyphs."""
    rows = [it for it in asking.rows_of_tables() if it.kind != "map" and b"\0" not in it.text and it.status < 2]
    found = rows[::STEP]
    for row, why in zip(found, asked.each(lambda it: composed(asked, it), found)):
        common.verdict(f"text of {row.kind} {row.name}", why)
