"""Damaged collections, and cmaps that the wide reading alone looks at: formats 0, 6, 10, 13 and 14, symbols, Macintosh
Roman. They are cut to each length, and each byte becomes 00, FF and itself with the lowest bit turned. tt_render is
asked. What `map` and `faces` answer is what the rules of face.py say. One in some is drawn too: by a picture, or by the
refusal of `map`, or by one that may stand there."""
import os
import subprocess
import sys
import tempfile
from concurrent.futures import ProcessPoolExecutor
from pathlib import Path

sys.path.append(str(Path(__file__).resolve().parent.parent / "faces"))
import fonts
from asking import FITS, answer_of, why_wrong
from face import directory, mapped, told

# The rows of ../faces whose cmaps are damaged.
NAMES = (
    "format 6, (3,1)",
    "format 0, (0,3)",
    "format 10, (3,10)",
    "format 13, (3,10)",
    "format 12, (3,1)",
    "symbol, format 4, (3,0)",
    "Roman, format 6, (1,0)",
    "(3,0) before (1,0)",
    "selectors",
)
# So many cases at the least.
LEAST = 6900
# One in so many is drawn too.
DRAWN = 7
TEXT = "AB@Z[\x80Ä\uFE00Å\uF041A\uFE00B\uFE01B\uFE00A\uFE05\uFE01\U0001F600\U0001F601Ł"


def damages(data):
    """Yields the data cut at each length, and with each byte in turn another one."""
    for at, byte in enumerate(data):
        yield data[:at]
        for other in sorted({0x00, 0xFF, byte ^ 1} - {byte}):
            yield data[:at] + bytes([other]) + data[at + 1 :]


def cases():
    """Yields the name of each case, its font and its face; a face of None is for `faces`."""
    font, collection = fonts.bases()
    for number, data in enumerate(damages(collection)):
        for face in (0, 1, None):
            yield f"damage {number} of the collection, face {face}", data, face
    rows = {row.name: row.font for row in fonts.rows() if row.name in NAMES}
    for name in NAMES:
        start, length = fonts.tables_of(rows[name])[b"cmap"]
        for number, cmap in enumerate(damages(rows[name][start : start + length])):
            yield f"damage {number} of the cmap {name}", fonts.with_cmap(font, cmap), 0


def run(words, font):
    """Returns status, standard output and standard error of tt_render."""
    with tempfile.NamedTemporaryFile() as file:
        file.write(font)
        file.flush()
        words = [os.environ["TT_RENDER"], *words[0], "--", file.name, *words[1]]
        ran = subprocess.run(words, stdin=subprocess.DEVNULL, capture_output=True, timeout=60)
    return ran.returncode, ran.stdout, ran.stderr


def why_not_drawn(font, face, fit, refused, text=TEXT):
    """Says what is wrong with a picture of a font, or with the refusal of it, or returns None."""
    words = ["draw", "--size", "16", "--fit", fit, "--face", str(face)]
    got = run((words, [text]), font)
    if refused[0]:
        return None if got == refused else f"{fit} has {got[0]} {got[2]!r}, and not {refused[2]!r}"
    if got[0] and b": 4 TableRange" in got[2]:
        return None
    tables = fonts.tables_of(font, directory(font, face).start - 12)
    why = why_wrong(font, fit, answer_of(*got), {tag.decode("latin-1"): it for tag, it in tables.items()})
    return f"{fit} {why}: {got[0]} {got[2]!r}" if why else None


def tried(case):
    """Returns what is wrong with a case, or None; the number of a case says whether and how it is drawn."""
    number, (name, font, face) = case
    wanted = told(font) if face is None else mapped(font, TEXT.encode(), face)
    words = (["faces"], []) if face is None else (["map", "--face", str(face)], [TEXT])
    got = run(words, font)
    if got != wanted:
        return f"{name}: {got}, and not {wanted}"
    if face is not None and number % DRAWN == 0:
        why = why_not_drawn(font, face, FITS[number // DRAWN % len(FITS)], wanted)
        return f"{name}: {why}" if why else None
    return None


def damaged_faces():
    """Tries all cases; returns how many pass, and the failures."""
    every = list(enumerate(cases()))
    with ProcessPoolExecutor(os.cpu_count()) as pool:
        failures = [it for it in pool.map(tried, every, chunksize=64) if it]
    if len(every) < LEAST:
        failures.append(f"only {len(every)} damaged collections and cmaps")
    return len(every) - len(failures), failures
