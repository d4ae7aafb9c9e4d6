"""The rows of rows.txt by the C library, which variations.c asks; and the number of axes of a job."""
import os
import re
import subprocess
from pathlib import Path

import common
import model
from axes import MOST_TOLD, Fvar, name_of
from face import Refused, Tables, fault_of
from parts import asked_by
from rows import rows as all_rows

HERE = Path(__file__).resolve().parent
# The number by which a job asks for each way to fit.
FITS = {"full": 0, "none": 1, "fallback": 2, "best": 3}
# A job has so many axes at the most.
MOST_AXES = 16


def lacking(library):
    """Returns why the library cannot be asked, or nothing."""
    if not re.search(r"\btt_map_job\(", (common.ROOT / "include/tt_render.h").read_text(encoding="utf-8")):
        return "the header has no call tt_map_job"
    return "" if library.exists() else f"there is no library {library}; dist/library {library} makes it"


def compiled(asked, library):
    """Returns the path of variations.c, compiled, or None."""
    path = asked.room / "variations"
    checked = "-std=c11 -O1 -g -Wall -Wextra -Werror -fsanitize=address,undefined -fno-sanitize-recover=all".split()
    sources = [HERE / "variations.c", common.ROOT / "c/heap.c", library]
    status, _, said = common.run(["cc", *checked, "-I", common.ROOT / "include", "-o", path, *sources])
    common.verdict("variations.c", [said.decode(errors="replace")[:800]] * (status != 0))
    return path if status == 0 else None


def number_of(row, named):
    """Returns the number of a job for the named instance of a row: 0 without one, one that no font has for a name that
    none has."""
    if named is None:
        return 0
    try:
        return Fvar(Tables(row.font, 0)).number_of(named) + 1
    except Refused:
        return int(named) + 1 if named.isdigit() else 2**32 - 1


def words_of(call, path, row, values, instance):
    """Returns the words of a question."""
    pairs = [f"{tag.encode('latin-1').hex()}={place}" for tag, place in values]
    text = row.text.encode().hex() or "-"
    fit = "full" if call == "map" else row.fit
    return [call, str(path), str(FITS[fit]), str(row.size), str(instance), text, *pairs]


def answer_of(row):
    """Returns what variations.c answers to a row."""
    if row.status:
        return "refused " + row.errors.decode().strip()
    if row.is_kerned:
        return row.answer.split()[0]
    if row.call == "map":
        return row.answer
    _, size, bitmap = row.stdout.split(b"\n", 2)
    return f"{size.decode()} {bitmap.hex()}"


def questions(asked):
    """Yields each question with its name and the answer."""
    for number, row in enumerate(all_rows(), 1):
        if row.font is None or row.call in ("faces", "measure") and not row.is_kerned:
            continue
        named, values = asked_by(row) or (None, [])
        call = "pens" if row.is_kerned else row.call
        path = asked.folder(row.font) / "F.ttf"
        words = words_of(call, path, row, values, number_of(row, named))
        yield f"row {number}, {row.name}, by C", words, answer_of(row)
    medium = next(it for it in all_rows() if it.name.startswith("instance 'Medium'"))
    path = asked.folder(medium.font) / "F.ttf"
    for count, answer in ((MOST_AXES, answer_of(medium)), (MOST_AXES + 1, "refused tt_render: 73 AxesMany")):
        yield f"{count} axes, by C", words_of("draw", path, medium, [("wght", 42598400)] * count, 1), answer


def told(font):
    """Returns what variations.c answers of a font's axes and named instances, none where fvar is not whole."""
    tables = model.Face(font, None, 0).tables
    try:
        fvar, lines = Fvar(tables), []
    except Refused:
        return ""
    for axis in fvar.axes:
        tag = axis.tag.encode("latin-1").hex().upper()
        lines.append(f"axis {tag} {axis.least} {axis.default} {axis.greatest} {name_of(tables, axis.name)}/")
    for number, instance in enumerate(fvar.instances[:MOST_TOLD], 1):
        lines.append(f"instance {number} {' '.join(map(str, instance.places))} {name_of(tables, instance.name)}/")
    return "".join(lines)


def lists(asked):
    """Yields the questions about axes and named instances, of each font of rows.txt."""
    for font in {it.font: it for it in all_rows() if it.font is not None}:
        try:
            answer = told(font)
        except model.FAULTS as refused:
            answer = f"refused tt_render: {fault_of(refused)}"
        yield "axes and instances, by C", ["axes", str(asked.folder(font) / "F.ttf"), "3", "16", "0", "-"], answer


def library(asked):
    """Asks all questions at once."""
    path = Path(os.environ.get("TT_LIBRARY") or common.ROOT / "out/c/libtt_render.a")
    why = lacking(path)
    if why:
        common.skip("rows of variations by C", why)
        return
    program, cases = compiled(asked, path.resolve()), [*questions(asked), *lists(asked)]
    if not program:
        return
    lines = "".join(" ".join(words) + "\n" for _, words, _ in cases)
    ran = subprocess.run([program], input=lines, capture_output=True, text=True)
    common.verdict("variations.c: its end", [f"status {ran.returncode}: {ran.stderr[:400]}"] * (ran.returncode != 0))
    for (name, _, wanted), got in zip(cases, ran.stdout.splitlines() + [""] * len(cases)):
        common.verdict(name, [f"wanted {wanted[:160]}, got {got[:160]}"] * (got != wanted))
