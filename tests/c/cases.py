"""Writes questions to the library, as answers.c reads them, and the answers: those of the rows of tests/rows where a
question is one, else the program's; see the script `run` beside this file, which starts it: cases.py ROOM FONT... The
questions stand in ROOM/cases, the answers in ROOM/wanted, a line each, and the fonts of both in ROOM/fonts."""
import os
import re
import subprocess
import sys
from concurrent.futures import ThreadPoolExecutor
from pathlib import Path

TESTS = Path(__file__).resolve().parent.parent
sys.path[:0] = [str(TESTS / it) for it in ("damaged", "label", "printers", "faces", ".")]
import cases as printers
import labels
from asking import rows

PROGRAM = os.environ["TT_RENDER"]
ROOM = Path(sys.argv[1])
REAL = [Path(it) for it in sys.argv[2:]]
# The number by which a job asks for each way to fit.
FITS = {"full": 0, "none": 1, "fallback": 2, "best": 3}
TEXTS = ("jolly staff", "Ǻjf gÇ|_ »q«", "Ωμέγα Жук ẞ\U0001f600", " . ", "")
WORDS = "jolly staff Wax Öl naïve §4 {x|y} 3/4 Σ=12 ÅNGSTRÖM fjord No7 quick, brown; (über) «ñ» Жук λόγος ẞ".split()
# Texts of labels: several lines, none, marks beside letters, and characters that the fonts lack.
LABELS = ("jolly\nstaff Wax", "", "\n", "one\r\n\ntwo three\n", "\ufeffÖl A\u030a e\u0301 x\u0301\nV\ufe0fA",
          "A\U0010ffff\n\U0010ffff\U0010fffe\t", "quick-brown fox, jumps over (the) lazy dogs")
ALIGNS = "left", "centre", "right"
# Some pairs of these are kerned in the real fonts.
KERNED = b"AVATAR To. Wax"
fonts = {}


def file_of(font):
    """Returns the file that holds a font's bytes."""
    if font not in fonts:
        fonts[font] = ROOM / "fonts" / f"{len(fonts)}.ttf"
        fonts[font].write_bytes(font)
    return fonts[font]


def run(words, stdin=b""):
    """Returns status, standard output and standard error, of which the numbers of lines are taken out."""
    ended = subprocess.run([PROGRAM, *words], input=stdin, capture_output=True, timeout=120)
    return ended.returncode, ended.stdout, re.sub(r"(?m)^tt_render: line \d+: ", "tt_render: ", ended.stderr.decode())


# Alignments, widths and boxes of labels, where the program draws these.
HELP = run(["label", "--help"])[1]
WIDTHS = ((0, 60), (1, 33), (2, 100), (2, 7)) if b"--width" in HELP else ()
BOXES = ((0, 0, 60, 30), (1, 0, 200, 41), (2, 0, 90, 90), (0, 0, 9, 5)) if b"--box" in HELP else ()


def words_of(job):
    size, margin, fit, grow, *rules = job
    words = ["--size", str(size), "--margin", str(margin), "--fit", fit, *(["--grow"] if grow else [])]
    kern, rounded = rules or (False, False)
    return [*words, *(["--kern"] if kern else []), *(["--height", "rounded"] if rounded else [])]


def unfitted(stderr):
    return stderr.count(" unfitted: ")


def label_words(job):
    """Returns the words of a label's job: size, margin, fit, align, kern, rounded, width, and perhaps a box."""
    size, margin, fit, align, kern, rounded, width, *box = job
    words = [*words_of((size, margin, fit, False, kern, rounded)), "--align", ALIGNS[align]]
    words += ["--width", str(width)] if width else []
    return [*words, "--box", "x".join(map(str, box))] if box else words


def label_job(words):
    """Returns the text and the job of the words behind `label`, or None where they are not those of one job."""
    given = {"--size": "", "--margin": "0", "--fit": "best", "--align": "left", "--width": "", "--box": ""}
    while len(words) > 2 and words[0].decode() in given:
        option, value, *words = words
        given[option.decode()] = value.decode()
    size, margin, fit, align, width, box = given.values()
    size, box = size or ("300" if box else ""), [int(it) for it in box.split("x") if it]
    if len(words) != 2 or not (size.isdigit() and margin.isdigit()) or width == "0" or words[0].startswith(b"-"):
        return None
    return words[1], (int(size), int(margin), fit, ALIGNS.index(align), 0, 0, int(width or 0), *box)


def label_answer(font, text, job):
    """Returns what the program answers to a label, by its reports."""
    return label_told(*run(["label", *label_words(job), font, "--", text.decode()]))


def label_told(status, stdout, stderr):
    """Returns what the program answers, by a status, a picture and reports."""
    if status != 0:
        return f"{status} " + stderr.split("\n")[0]
    cut = r"ink is cut: .*?(\d+) columns? at the "
    told = [re.search(it, stderr) for it in (r"(\d+) glyphs? (?:is|are) not fitted", cut + "left", cut + "right")]
    unfitted, left, right = [int(it[1]) if it else 0 for it in told]
    return f"0 {unfitted} {stderr.count(' has no glyph')} {left} {right} {stdout.hex()}"


def pictures(data):
    """Returns how many pictures stand one after the other in these bytes."""
    count = 0
    while data:
        head = re.match(rb"P4\n(\d+) (\d+)\n", data)
        data = data[head.end() + (int(head[1]) + 7) // 8 * int(head[2]) :]
        count += 1
    return count


def answer(case, row):
    """Returns what a row says that the program answers to a question, or with no row what it answers. The rows of labels
    are such answers."""
    call, font, text, job = case
    font = str(file_of(font))
    if call == "label":
        return row or label_answer(font, text, job)
    if call == "lines":
        status, stdout, stderr = run(["draw", *words_of(job), "--lines", font], b"\n".join(text) + b"\n")
        refusal = "" if status == 0 else " " + stderr.rstrip("\n").split("\n")[-1]
        return f"{status} {pictures(stdout)} {unfitted(stderr)} {stdout.hex()}{refusal}"
    if row:
        status, stdout, stderr = row.status, row.stdout, row.stderr.decode()
    else:
        words = ["map"] if call == "map" else [call, *words_of(job)]
        status, stdout, stderr = run([*words, font, "--", text.decode()])
    if status != 0:
        return f"{status} " + stderr.rstrip("\n")
    if call == "draw":
        return f"0 {unfitted(stderr)} {stdout.hex()}"
    return "0 " + stdout.decode().replace("\n", "/")


def question(case):
    """Returns the line that asks the library."""
    call, font, text, job = case
    texts = ",".join(it.hex() or "-" for it in (text if call == "lines" else [text]))
    size, margin, fit, *flags = job
    return f"{call} {file_of(font)} {texts} {size} {margin} {FITS[fit]} {' '.join(str(int(it)) for it in flags)}"


def of_rows():
    """Yields a question for each row of tests/rows, with the row, and for some of them more, with none."""
    seen = set()
    for count, row in enumerate(rows()):
        if b"\n" in row.text or b"\r" in row.text or (row.font, row.text, row.kind, row.shape) in seen:
            continue
        seen.add((row.font, row.text, row.kind, row.shape))
        if row.kind == "map":
            yield ("map", row.font, row.text, (16, 0, "full", False)), row
            continue
        job = *row.shape, row.kind
        yield ("draw", row.font, row.text, (*job, False)), row
        if count % 4 == 0:
            yield ("measure", row.font, row.text, (*job, False)), None
        if count % 4 == 1:
            yield ("measure", row.font, row.text, (*job, True)), None
        if count % 4 == 2:
            yield ("draw", row.font, row.text, (*job, True)), None
        if count % 4 == 3:
            yield ("lines", row.font, [row.text, row.text], (*job, count % 8 == 3)), None


def of_labels():
    """Yields a question for each row of tests/label and tests/printers that is one label, with the row's answer."""
    found = [(it.font, it.words, (it.status, it.stdout, it.errors)) for it in labels.rows() if it.errors is not None]
    for table in ("composed", "width", "box"):
        found += [(it.font, it.words, it.wanted) for it in printers.rows(table)]
    for font, words, (status, stdout, errors) in found:
        case = label_job(words)
        if case and isinstance(font, bytes) and status != 3:
            yield ("label", font, *case), label_told(status, stdout, errors.decode())


def of_real_font(font):
    """Yields questions about a font at several sizes, and about the same font cut short."""
    texts = [it.encode() for it in TEXTS]
    for text in texts:
        yield "map", font, text, (16, 0, "full", False)
        for count, (fit, size) in enumerate((fit, size) for fit in FITS for size in (1, 9, 16, 47, 300)):
            job = size, (0, 3, 64)[count % 3], fit, count % 2 == 1
            yield "draw", font, text, job
            yield "measure", font, text, job
    for count, text in enumerate(LABELS):
        for fit in FITS:
            for align, *space in ((0, 0), (1, 0), (2, 0), *WIDTHS, *BOXES):
                size = (9, 16, 47)[(count + align) % 3]
                yield "label", font, text.encode(), (size, 2 * (count % 2), fit, align, count % 2, align == 1, *space)
        yield "label", font, text.encode(), (300, 0, "best", 0, 0, 0, 0)
    for job in ((0, 65, "best", 0, 0, 0, 0), (300, 65, "none", 2, 0, 0, 0)):
        yield "label", font, b"A", job
    yield "label", font, b"A\n" * 2049, (16, 0, "none", 0, 0, 0, 0)
    yield "label", font, b"A\n" * 300, (16, 0, "none", 0, 0, 0, 0)
    lines = [" ".join(WORDS[i % len(WORDS)] for i in range(3 * at, 3 * at + 3)).encode() for at in range(12)]
    for fit in FITS:
        yield "lines", font, lines, (12, 1, fit, False)
        # The line without a character is refused, and stops the others.
        yield "lines", font, [*lines[:3], b"", *lines[3:]], (20, 0, fit, True)
        for grow, kern, rounded in ((0, 1, 0), (0, 0, 1), (1, 1, 1)):
            for size in (16, 47):
                yield "draw", font, KERNED, (size, 1, fit, grow, kern, rounded)
                yield "measure", font, KERNED, (size, 1, fit, grow, kern, rounded)
            yield "lines", font, [KERNED, lines[0]], (24, 0, fit, grow, kern, rounded)
    for length in (0, 1, 11, 12, 100, 1000, 20000, len(font) // 2, len(font) * 9 // 10, len(font) - 1):
        job = 16, 0, "full", False
        yield "map", font[:length], texts[0], job
        yield "draw", font[:length], texts[0], job
        yield "label", font[:length], texts[0], (16, 0, "full", 0, 0, 0, 0)
        yield "measure", font[:length], texts[0], job
        yield "lines", font[:length], [texts[0]], job


def main():
    (ROOM / "fonts").mkdir()
    cases = [*of_rows(), *of_labels()]
    for real in REAL:
        cases += [(it, None) for it in of_real_font(real.read_bytes())]
    with (ROOM / "cases").open("w") as file:
        file.writelines(question(it) + "\n" for it, _ in cases)
    with ThreadPoolExecutor(os.cpu_count()) as threads, (ROOM / "wanted").open("w") as file:
        file.writelines(it + "\n" for it in threads.map(answer, *zip(*cases)))


main()
