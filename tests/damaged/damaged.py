"""Fonts that are cut or changed; see the script `run` beside this file, which starts it."""
import os
from concurrent.futures import ProcessPoolExecutor
from itertools import chain

from asking import (
    FITS,
    NOTHING,
    OF_MAPS,
    answer_of,
    answer_of_program,
    asked,
    question,
    report,
    rows,
    rows_of_tables,
    why_not_alike,
    why_wrong,
    words_of,
)
from face import mapped
from faces import damaged_faces
from kern_tables import damaged_kerning
from variations import damaged_variations

# So many answers of damaged fonts at the least; fewer would be a script that asks too little.
LEAST = 300_000
# One in so many answers is compared with that of tt_render itself; the number has no factor in common with the number
# of questions to a font.
EACH = 2503

# Of the many fonts of dropouts only these. The others differ by an outline or by a few bytes of a program, and would
# take as long as all fonts without dropouts.
OF_DROPOUTS = {
    "dropouts_a_thin_corner_by_type_4",
    "dropouts_at_each_pen",
    "dropouts_left_of_the_picture",
    "dropouts_by_the_type_that_one_glyph_sets",
    "dropouts_of_a_glyph_that_is_refused",
    "dropouts_of_a_composite_by_its_own_program",
}


def is_asked(row):
    """Tells whether the font of a row is damaged: one that is not cut, with a short text at a size."""
    if row.name.startswith("cut_to_") or row.name.startswith("dropouts_") and row.name not in OF_DROPOUTS:
        return False
    return len(row.text) <= 16 and 0 < row.shape[0] <= 300 and len(row.font) > 0


def fonts():
    """Returns a row of each font that is damaged, the test font first; where there is one, a row with a picture. A case
    whose font is another one for best has this one."""
    found = {}
    of_best = {row.name: row.font for row in rows_of_tables() if row.kind == "best"}
    for row in filter(is_asked, rows_of_tables()):
        if of_best.get(row.name, row.font) != row.font:
            continue
        if row.font not in found or row.kind != "map" and found[row.font].kind == "map":
            found[row.font] = row
    return list(found.values())


def damages(font):
    """Yields each damage: the length that is left, and the changes."""
    for size in range(len(font)):
        yield size, ()
    for at, byte in enumerate(font):
        for other in sorted({0x00, 0xFF, byte ^ 1} - {byte}):
            yield len(font), ((at, other),)


def damaged(font, size, changes):
    data = bytearray(font[:size])
    for at, byte in changes:
        data[at] = byte
    return bytes(data)


def wrong_cut(size, answer):
    """Says whether an answer to the test font cut to a size is another than the directory's refusal."""
    place = f"file+{size}: 2 DirShort" if size < 124 else f"file+{44 if size < 246 else 108}: 4 TableRange"
    return answer != f"1 {NOTHING}|tt_render: {place}|"


def why_not_wide(data, text, answers):
    """Says what is wrong with best where the other ways to fit refuse the character map: what it refuses itself."""
    if not OF_MAPS.search(answers["map"]):
        return None
    wanted = answer_of(*mapped(data, text, 0))
    if wanted.startswith("1 ") and answers["best"] != wanted:
        return f"has '{answers['best']}' as best, and not '{wanted}'"
    return None


def one_font(number, row):
    """Asks about the damages of a row's font; returns how many answers pass, the failures, and what tt_render is to be
    asked too."""
    kinds = ("map", *FITS)
    cases = [(size, changes, kind) for size, changes in damages(row.font) for kind in kinds]
    lines = [f"font {words_of(row.font)}"]
    lines += [question(kind, row.text, row.shape, size, changes) for size, changes, kind in cases]
    answers, wrong = asked(lines)
    passed, failures, again = 0, [], []
    for at, ((size, changes, kind), answer) in enumerate(zip(cases, answers)):
        data = damaged(row.font, size, changes)
        why = why_wrong(data, kind, answer)
        if not why and number == 0 and not changes and wrong_cut(size, answer):
            why = "is not the refusal of the directory"
        if not why and kind == "map":
            want = answer_of(*mapped(data, row.text))
            why = f"is not '{want}'" if answer != want else None
        if why:
            failures.append(f"{row.name}, {kind} of {size} bytes with {changes or 'no change'}: '{answer}' {why}")
        else:
            passed += 1
        if (at + 101 * number) % EACH == 0:
            again.append((kind, data, row.text, row.shape, answer))
    for at in range(0, len(answers) - len(kinds) + 1, len(kinds)):
        of_kind = dict(zip(kinds, answers[at:]))
        size, changes, _ = cases[at]
        why = why_not_alike(of_kind) or why_not_wide(damaged(row.font, size, changes), row.text, of_kind)
        if why:
            failures.append(f"{row.name}, {size} bytes with {changes or 'no change'}, {why}")
    if wrong or len(answers) != len(cases):
        at = min(len(answers), len(cases) - 1)
        failures.append(f"{row.name}: {wrong or 'too few or too many answers'}, at '{lines[at + 1]}'")
    return passed, failures, again


def whole_rows():
    """Asks each row over memory; returns how many answers are the row's, and the failures."""
    wanted = list(rows())
    answers, wrong = asked([line for row in wanted for line in (f"font {words_of(row.font)}", row.question())])
    failures = [f"rows: {wrong}"] if wrong else []
    for row, answer in zip(wanted, answers + [""] * len(wanted)):
        if answer != row.answer():
            failures.append(f"{row.name}, {row.kind}: '{answer}' over memory, and not '{row.answer()}'")
    return len(wanted) - len(failures), failures


# Answers to the test font, and others that are not to pass.
GOOD = [
    ("map", "0 13 1|"),
    ("none", "0 11 1|"),
    ("full", f"1 {NOTHING}|tt_render: glyf+14: 35 OffProfile|"),
    ("none", f"1 {NOTHING}|tt_render: glyf+22: 14 GlyphShort|"),
    ("map", f"1 {NOTHING}|tt_render: file+44: 4 TableRange|"),
    ("full", f"2 {NOTHING}|tt_render: 63 PictureLarge|"),
    ("fallback", "0 11 1|tt_render: glyph 1 unfitted: glyf+14: 32 StackShort|"),
    ("best", "0 11 1|tt_render: glyph 1 unfitted: glyf+14: 47 DivZero|"),
    ("map", f"1 {NOTHING}|tt_render: file+0: 25 NoFace|"),
]
BAD = [
    ("none", "0 0 1|"),
    ("full", "0 11 1|tt_render: glyf+14: 35 OffProfile|"),
    ("full", "1 11 1|tt_render: glyf+14: 35 OffProfile|"),
    ("none", f"1 {NOTHING}|tt_render: glyf+14: 35 OffProfile|"),
    ("map", f"1 {NOTHING}|tt_render: glyf+22: 14 GlyphShort|"),
    ("full", f"1 {NOTHING}|tt_render: glyf+23: 14 GlyphShort|"),
    ("full", f"1 {NOTHING}|tt_render: glyf+14: 34 OffProfile|"),
    ("full", f"1 {NOTHING}|tt_render: loca+2: 35 OffProfile|"),
    ("full", f"1 {NOTHING}|tt_render: gly\x01+14: 35 OffProfile|"),
    ("full", f"1 {NOTHING}|tt_render: glyf+014: 35 OffProfile|"),
    ("full", f"1 {NOTHING}|tt_render: glyf+14: 35 OffProfile|tt_render: glyf+14: 35 OffProfile|"),
    ("full", f"1 {NOTHING}|"),
    ("full", f"1 {NOTHING}|tt_render: file+45: 4 TableRange|"),
    ("full", f"1 {NOTHING}|tt_render: glyf+14: 24 NotYet|"),
    ("map", f"2 {NOTHING}|tt_render: 63 PictureLarge|"),
    ("full", f"2 {NOTHING}|tt_render: 60 SizeRange|"),
    ("full", f"3 {NOTHING}|tt_render: cannot read the font|"),
    ("full", f"4 {NOTHING}|tt_render: cannot write after 0 bytes|"),
    ("full", f"5 {NOTHING}|tt_render: out of memory|"),
    ("best", "0 11 1|tt_render: glyph 1 unfitted: glyf+14: 32 StackShort|"),
    ("best", "0 11 1|tt_render: glyph 1 unfitted: glyf+14: 35 OffProfile|"),
    ("best", "0 11 1|tt_render: glyph 1 unfitted: glyf+14: 46 StorageRange|"),
    ("full", ""),
    ("map", f"1 {NOTHING}|tt_render: file+8: 25 NoFace|"),
    ("map", f"1 {NOTHING}|tt_render: file+5: 24 CollectionVersion|"),
]


# Answers to one font beside each other, and whether they pass.
REFUSED = f"1 {NOTHING}|tt_render: glyf+22: 14 GlyphShort|"
OFF_PROFILE = f"1 {NOTHING}|tt_render: glyf+14: 35 OffProfile|"
TOO_DEEP = f"1 {NOTHING}|tt_render: glyf+32: 17 ComponentDepth|"
TOO_LARGE = f"2 {NOTHING}|tt_render: 63 PictureLarge|"
OF_MAP = f"1 {NOTHING}|tt_render: cmap+28: 11 CmapShape|"
NO_MAP = f"1 {NOTHING}|tt_render: cmap+0: 3 NoTable|"
TOO_FAR = f"1 {NOTHING}|tt_render: glyf+22: 23 CoordRange|"
UNFITTED = "tt_render: glyph 1 unfitted: glyf+14: 35 OffProfile|"
UNFITTED_BY_BEST = "tt_render: glyph 1 unfitted: glyf+15: 47 DivZero|"
ALIKE = [
    ({"map": "0 13 1|", "none": "0 11 1|", "full": REFUSED}, True),
    ({"map": "0 13 1|", "none": REFUSED, "full": OFF_PROFILE}, True),
    ({"none": TOO_FAR, "full": "0 11 1|"}, True),
    ({"map": "0 13 1|", "none": REFUSED, "full": "0 11 1|"}, False),
    ({"map": REFUSED, "none": REFUSED, "full": "0 11 1|"}, False),
    ({"map": REFUSED, "none": "0 11 1|", "full": REFUSED}, False),
    ({"none": f"2 {NOTHING}|tt_render: 63 PictureLarge|", "full": REFUSED}, False),
    ({"none": "0 11 1|", "full": "0 11 2|", "fallback": "0 11 2|"}, True),
    ({"none": "0 11 1|", "full": "0 11 2|", "fallback": "0 11 1|"}, False),
    ({"none": "0 11 1|", "full": OFF_PROFILE, "fallback": f"0 11 1|{UNFITTED}"}, True),
    ({"none": "0 11 1|", "full": OFF_PROFILE, "fallback": OFF_PROFILE}, False),
    ({"none": REFUSED, "full": OFF_PROFILE, "fallback": REFUSED}, True),
    ({"none": REFUSED, "full": REFUSED, "fallback": "0 11 1|"}, False),
    ({"none": "0 11 1|", "full": OFF_PROFILE, "best": "0 11 2|"}, True),
    ({"none": "0 11 1|", "full": OFF_PROFILE, "best": f"0 11 1|{UNFITTED_BY_BEST}"}, True),
    ({"none": "0 11 1|", "full": OFF_PROFILE, "best": OFF_PROFILE}, False),
    ({"none": "0 11 1|", "full": "0 11 2|", "best": "0 11 1|"}, True),
    ({"none": "0 11 1|", "full": "0 11 2|", "best": "0 12 1|"}, True),
    ({"none": "0 11 1|", "full": "0 11 2|", "best": f"2 {NOTHING}|tt_render: 63 PictureLarge|"}, True),
    ({"none": TOO_LARGE, "full": TOO_LARGE, "best": "0 12 1|"}, True),
    ({"none": TOO_LARGE, "full": TOO_LARGE, "best": REFUSED}, True),
    ({"none": TOO_LARGE, "full": TOO_LARGE, "fallback": REFUSED}, False),
    ({"none": "0 11 1|", "full": "0 11 2|", "best": REFUSED}, False),
    ({"none": "0 11 1|", "full": "0 11 2|", "best": TOO_FAR}, True),
    ({"none": "0 11 1|", "full": TOO_FAR, "best": "0 11 1|"}, True),
    ({"none": "0 11 1|", "full": TOO_FAR, "fallback": "0 11 1|"}, False),
    ({"none": "0 11 1|", "full": TOO_FAR, "best": REFUSED}, False),
    ({"none": TOO_FAR, "full": TOO_FAR, "best": "0 11 1|"}, False),
    ({"none": "0 11 1|", "full": "0 11 2|", "best": f"0 11 1|{UNFITTED_BY_BEST}"}, False),
    ({"none": TOO_DEEP, "full": TOO_DEEP, "best": "0 11 1|"}, True),
    ({"none": REFUSED, "full": REFUSED, "best": "0 11 1|"}, False),
    ({"map": OF_MAP, "none": OF_MAP, "full": OF_MAP, "best": "0 11 1|"}, True),
    ({"map": OF_MAP, "none": OF_MAP, "full": OF_MAP, "fallback": "0 11 1|"}, False),
    ({"map": NO_MAP, "none": NO_MAP, "full": NO_MAP, "best": "0 11 1|"}, False),
]


def judged(font):
    """Tries the judge itself; returns how many answers it judged well, and the failures."""
    wrong = [f"the judge refuses '{answer}'" for kind, answer in GOOD if why_wrong(font, kind, answer)]
    wrong += [f"the judge passes '{answer}'" for kind, answer in BAD if not why_wrong(font, kind, answer)]
    wrong += [f"the judge of {answers}" for answers, good in ALIKE if bool(why_not_alike(answers)) == good]
    return len(GOOD) + len(BAD) + len(ALIKE) - len(wrong), wrong


def same_as_program(cases):
    """Compares some answers with those of tt_render itself."""
    failures = []
    for kind, data, text, shape, answer in cases:
        other = answer_of_program(kind, data, text, shape)
        if other != answer:
            failures.append(f"tt_render, {kind} of {data.hex()}: '{other}', and over memory '{answer}'")
    return len(cases) - len(failures), failures


def pieces(cases):
    """Returns the cases in as many parts as there are processors."""
    return [cases[at :: os.cpu_count()] for at in range(os.cpu_count())]


def main():
    passed, failures = whole_rows()
    cases = fonts()
    ended = [judged(cases[0].font)]
    with ProcessPoolExecutor(max_workers=os.cpu_count()) as pool:
        by_font = list(pool.map(one_font, range(len(cases)), cases))
        answers = sum(it[0] + len(it[1]) for it in by_font)
        again = list(chain.from_iterable(it[2] for it in by_font))
        ended += [*by_font, *pool.map(same_as_program, pieces(again))]
    ended += [damaged_faces(), damaged_kerning(), damaged_variations()]
    for it in ended:
        passed += it[0]
        failures += it[1]
    print(f"damaged fonts: {len(cases)} fonts, {answers} answers, {len(again)} of them asked of tt_render too")
    if answers < LEAST or len(again) < LEAST // EACH:
        failures.append(f"only {answers} answers, and {len(again)} of tt_render")
    report("damaged fonts", passed, failures)


if __name__ == "__main__":
    main()
