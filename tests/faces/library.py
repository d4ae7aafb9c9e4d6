"""The rows of rows.txt by the C library, which faces.c asks, and the pictures of the collection."""
import os
import re
import subprocess
from pathlib import Path

import common
from fonts import bases
from fonts import rows as rows_of_faces

HERE = Path(__file__).resolve().parent
# The number by which a job asks for each way to fit.
FITS = {"full": 0, "none": 1, "fallback": 2, "best": 3}


def lacking(library):
    """Returns why the library cannot be asked, or nothing."""
    if not re.search(r"\btt_faces\(", (common.ROOT / "include/tt_render.h").read_text(encoding="utf-8")):
        return "the header has no call tt_faces"
    return "" if library.exists() else f"there is no library {library}; dist/library {library} makes it"


def compiled(asked, library):
    """Returns the path of faces.c, compiled, or None."""
    path = asked.room / "faces"
    checked = "-std=c11 -O1 -g -Wall -Wextra -Werror -fsanitize=address,undefined -fno-sanitize-recover=all".split()
    sources = [HERE / "faces.c", common.ROOT / "c/heap.c", library]
    status, _, said = common.run(["cc", *checked, "-I", common.ROOT / "include", "-o", path, *sources])
    common.verdict("faces.c", [said.decode(errors="replace")[:800]] * (status != 0))
    return path if status == 0 else None


def questions(asked):
    """Yields each question with its name and the answer."""
    for number, row in enumerate(rows_of_faces(), 1):
        face = "strict" if row.face is None else str(row.face)
        words = [row.call, asked.file(row.font)]
        answer = row.stdout.decode().replace("\n", "/") if row.status == 0 else "refused " + row.stderr.decode().strip()
        words += [face, row.text.encode().hex() or "-"] if row.call == "map" else []
        yield f"row {number}, {row.name}, by C", words, answer
    _, collection = bases()
    for name, fit in FITS.items():
        of_none = "4 4 00006060" if name == "best" else "refused tt_render: file+0: 1 BadVersion"
        past = "refused tt_render: file+8: 25 NoFace"
        for face, answer in (("strict", of_none), ("0", "4 4 00006060"), ("1", "8 4 00006060"), ("2", past)):
            yield f"face {face} with {name}, by C", ["draw", asked.file(collection), face, "41", str(fit)], answer


def rows(asked):
    """Asks all questions at once."""
    library = Path(os.environ.get("TT_LIBRARY") or common.ROOT / "out/c/libtt_render.a")
    why = lacking(library)
    if why:
        common.skip("rows by C", why)
        return
    program, cases = compiled(asked, library.resolve()), list(questions(asked))
    if not program:
        return
    lines = "".join(" ".join(words) + "\n" for _, words, _ in cases)
    ran = subprocess.run([program], input=lines, capture_output=True, text=True)
    common.verdict("faces.c: its end", [f"status {ran.returncode}: {ran.stderr[:400]}"] * (ran.returncode != 0))
    answers = ran.stdout.splitlines() + [""] * len(cases)
    for (name, _, wanted), got in zip(cases, answers):
        common.verdict(name, [f"wanted {wanted[:160]}, got {got[:160]}"] * (got != wanted))
