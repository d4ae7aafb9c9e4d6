"""Pictures of lines, each beside that of its text alone; see the script `run` beside this file, which starts it."""
import os
import re
import subprocess
import sys
import tempfile
from concurrent.futures import ProcessPoolExecutor
from functools import partial
from pathlib import Path

sys.path.insert(0, str(Path(__file__).resolve().parent.parent / "damaged"))
from asking import rows

PROGRAM = os.environ["TT_RENDER"]
FONTS = "/usr/share/fonts/truetype"
# Fonts, each with a size and a margin. Lato has no glyph that fallback fits, and no line that full draws.
JOBS = (
    ("dejavu/DejaVuSans.ttf", 16, 0),
    ("liberation/LiberationSans-Regular.ttf", 12, 2),
    ("lato/Lato-Regular.ttf", 9, 0),
    ("noto/NotoSerif-Italic.ttf", 20, 1),
    ("freefont/FreeSans.ttf", 14, 0),
    ("open-sans/OpenSans-Regular.ttf", 11, 3),
)
# The font of which many lines are drawn for their memory.
OF_MEMORY = "liberation/LiberationSans-Regular.ttf"
FITS = "none", "full", "fallback", "best"
LINES = 2000
WORDS = "jolly staff Wax Öl naïve §4 {x|y} 3/4 Σ=12 ÅNGSTRÖM fjord No7 quick, brown; fox! (über) «ñ» Жук λόγος ẞ".split()
# A line with a carriage return before its end is left to the cases below.
LONGEST = 16384
passed = 0
failed = 0


def verdict(name, why):
    """Counts a case, which failed if `why` says something."""
    global passed, failed
    if why:
        failed += 1
        if failed <= 20:
            print(f"FAILED {name}\n  {why}")
    else:
        passed += 1


def run(words, stdin=b""):
    """Returns status, standard output and standard error."""
    ran = subprocess.run([PROGRAM, "draw", *words], input=stdin, capture_output=True, timeout=120)
    return ran.returncode, ran.stdout, ran.stderr


def words_of(fit, size, margin):
    return ["--fit", fit, "--size", str(size), "--margin", str(margin)]


def told_of(number, stderr):
    """Returns what is told of a text alone as it is told of the line of a number."""
    return stderr.replace(b"tt_render: ", f"tt_render: line {number}: ".encode())


def differs(got, wanted):
    """Says in which of status, standard output and standard error an answer is not the wanted one."""
    for name, one, other in zip(("status", "standard output", "standard error"), got, wanted):
        if one != other:
            return f"{name} is {one[:200]!r}, and not {other[:200]!r}" if name != "status" else f"{name} is {one}, and not {other}"
    return None


def try_row(row, font):
    """A row's text twice: two pictures, or the row's refusal, which has the line's number where the tables are not to
    blame that every text is looked up in, nor the size nor the margin."""
    font.write_bytes(row.font)
    got = run([*words_of(row.kind, *row.shape), "--lines", str(font)], row.text + b"\n" + row.text)
    if row.status == 0:
        wanted = 0, row.stdout * 2, told_of(1, row.stderr) + told_of(2, row.stderr)
    else:
        wanted = row.status, b"", row.stderr
        if re.search(rb": 6[1235] |(loca|glyf|fpgm|prep)\+", row.stderr):
            wanted = row.status, b"", told_of(1, row.stderr)
        elif b": 4 TableRange" in row.stderr and got[2] == told_of(1, row.stderr):
            wanted = row.status, b"", got[2]
    verdict(f"{row.kind} {row.name}", differs(got, wanted))


def try_rows(room):
    count = 0
    for row in rows():
        if row.kind == "map" or b"\n" in row.text or row.text.endswith(b"\r") or len(row.text) > LONGEST:
            continue
        if not row.text:
            continue
        try_row(row, room / "font")
        count += 1
    verdict("all rows", None if count >= 2300 else f"only {count} rows were tried")


def texts(seed):
    """Returns so many lines, by a plain generator of numbers."""
    state, lines = seed, []
    for number in range(LINES):
        words = []
        for _ in range(1 + number % 5):
            state = (state * 1103515245 + 12345) % 2**31
            words.append(WORDS[state // 65536 % len(WORDS)])
        lines.append(f"{number} {' '.join(words)}")
    return lines


def text_of(lines):
    return "".join(f"{it}\n" for it in lines).encode()


def alone(words, font, text):
    """What is answered for a text alone."""
    return run([*words, font, text])


def try_drawn(name, words, font, lines, every):
    """Lines that are drawn alone, all at once: each has the picture and the reports of its text alone."""
    status, stdout, stderr = run([*words, "--lines", font], text_of(lines))
    verdict(f"{name}: status", None if status == 0 else f"status {status}: {stderr[:300]!r}")
    at, told = 0, b""
    for number, (line, one) in enumerate(zip(lines, every), 1):
        told += told_of(number, one[2])
        same = stdout.startswith(one[1], at)
        verdict(f"{name}, line {number}: {line}", None if same else "is not the picture of its text alone")
        at += len(one[1])
    verdict(f"{name}: bytes", None if at == len(stdout) else f"{len(stdout)} bytes, and not {at}")
    verdict(f"{name}: told", None if told == stderr else f"standard error has {stderr[:200]!r}, and not {told[:200]!r}")


def try_refused(name, words, font, lines, every):
    """Lines of which one is refused alone: that line ends the call, with the refusal of its text alone."""
    first = next(number for number, one in enumerate(every) if one[0] != 0)
    before = every[:first]
    told = b"".join(told_of(number, one[2]) for number, one in enumerate(before, 1))
    _, stdout, stderr = got = run([*words, "--lines", font], text_of(lines))
    refusals = [told + every[first][2], told + told_of(first + 1, every[first][2])]
    wanted = every[first][0], b"".join(one[1] for one in before), stderr if stderr in refusals else refusals[1]
    verdict(f"{name}: line {first + 1} is refused", differs(got, wanted))


def try_font(pool, name, fit, size, margin, seed):
    """2,000 lines one by one, and at once."""
    font = f"{FONTS}/{name}"
    words = words_of(fit, size, margin)
    lines = texts(seed)
    every = [*pool.map(partial(alone, words, font), lines, chunksize=50)]
    if any(one[0] != 0 for one in every):
        try_refused(f"{name} {fit}", words, font, lines, every)
    drawn = [it for it in zip(lines, every) if it[1][0] == 0]
    try_drawn(f"{name} {fit}", words, font, [line for line, _ in drawn], [one for _, one in drawn])


def held(words, stdin):
    """Returns the most memory that a run held, in KiB."""
    with tempfile.TemporaryFile() as source:
        source.write(stdin)
        source.seek(0)
        started = subprocess.Popen([PROGRAM, "draw", *words], stdin=source, stdout=subprocess.DEVNULL)
        _, status, usage = os.wait4(started.pid, 0)
        started.returncode = os.waitstatus_to_exitcode(status)
        return started.returncode, usage.ru_maxrss


def try_memory(fit):
    """Many lines hold no more memory than some."""
    words = [*words_of(fit, 16, 0), "--lines", f"{FONTS}/{OF_MEMORY}"]
    lines = text_of(texts(7))
    some, many = held(words, lines), held(words, lines * 20)
    why = None
    if some[0] or many[0] or many[1] > some[1] + 256:
        why = f"2,000 lines end with {some[0]} and hold {some[1]} KiB, 40,000 with {many[0]} and {many[1]} KiB"
    verdict(f"{fit}: memory does not grow with the lines", why)


def is_here(name):
    """Returns whether a font is here, and says that its lines are not tried where it is not."""
    found = Path(FONTS, name).is_file()
    if not found:
        print(f"skipped {name}: it is not here; tests/real_fonts/install installs it")
    return found


def main():
    with tempfile.TemporaryDirectory() as room:
        try_rows(Path(room))
    with ProcessPoolExecutor(len(os.sched_getaffinity(0))) as pool:
        for seed, (name, size, margin) in enumerate(JOBS):
            for fit in FITS if is_here(name) else ():
                try_font(pool, name, fit, size, margin, seed)
    for fit in ("full", "best") if is_here(OF_MEMORY) else ():
        try_memory(fit)
    print(f"lines: {passed} passed, {failed} failed")
    return failed != 0


sys.exit(main())
