"""The part of glyph_sets/run that is about the command lines of `bdf` and `measure --no-ink`."""
import subprocess

import common
import labels
from labels import lines_of

RANGE = ["--range is hexadecimal, as 20-7E,A0-FF"]
# Command lines that are none.
WRONG = """

F.ttf
--size 16
--size 16 F.ttf A B
--size x F.ttf
--size 16 --size 16 F.ttf
--size 16 --fit strict F.ttf
--size 16 --face -1 F.ttf
--size 16 --margin 0 F.ttf
--size 16 --grow F.ttf
--size 16 --kern F.ttf
--size 16 --height F.ttf
--size 16 --height round F.ttf
--size 16 --height exact --height exact F.ttf
--size 16 --lines F.ttf
--size 16 --missing draw F.ttf
--size 16 --range 41 --range 42 F.ttf
--size 16 --range"""
# Words that are no range, and ranges of A and B alone.
NO_RANGES = "-41 41-42, ,41 U+ u+41 U+-42 U41 41-U 41,-42 G 110000-110001 41-110000 0000041 1-0 *".split()
NO_RANGES += ["\u0661", "41\u201342"]
RANGES = "000041-000042 41,42 42-42,0-41 0-10FFFF U+41,42 U+000041-42 42,41,42".split()


def complains(got):
    """Judges the answer to a command line that is none."""
    good = got[0] == 2 and not got[1] and got[2].startswith(b"error: ")
    return [] if good else [f"status {got[0]}, and standard error {got[2][:200]!r}"]


def order(asked, folder):
    """Tries which refusal is told where there are several: ranges, the font's file, the size, TEXT, the font."""
    long, no_size = "A" * 4097, ["60 SizeRange", "--size is 1 to 300 pixels per em, not 0"]
    lost = ["cannot read the font", "none.ttf: no such file"]
    for words, status, lines in (
        (["--size", "0", "--range", "x", "none.ttf", long], 2, RANGE),
        (["--size", "0", "none.ttf", long], 3, lost),
        (["--size", "0", "F.ttf", long], 2, no_size),
        (["--size", "16", "empty", long], 2, ["61 TextLong", "a text has at most 4096 characters"]),
        (["--size", "16", "--range", "10FFFF", "empty"], 1, ["file+0: 2 DirShort", "empty: is empty"]),
    ):
        name = f"bdf {' '.join(words)}".replace(long, "A*4097")
        common.tried(name, asked.run(["bdf", *words], folder), (status, b"", lines_of(lines)))


def help_of(asked, command, parts):
    """Tries a help: its status, its parts, and lines of at most 80 columns."""
    status, said, errors = asked.run([command, "--help"])
    why = [] if (status, errors) == (0, b"") else [f"status {status}, standard error {errors!r}"]
    why += [f"it lacks {it!r}" for it in parts if it not in said.decode()]
    why += [f"a line of {len(it)} columns: {it}" for it in said.decode().splitlines() if len(it) > 80]
    common.verdict(f"{command} --help", why)


def command_line(asked):
    """Command lines that are refused, and in which order; words in other forms; the help; a write that fails."""
    folder = asked.folder(labels.fonts()["T"])
    (folder / "empty").write_bytes(b"")
    for words in WRONG.split("\n")[1:]:
        common.verdict(f"bdf {words}", complains(asked.run(["bdf", *words.split()], folder)))
    for words in ("--no-ink --grow", "--no-ink --lines", "--no-ink --no-ink", "--no-ink=1"):
        got = asked.run(["measure", "--size", "16", *words.split(), "F.ttf", *["A"] * ("lines" not in words)], folder)
        common.verdict(f"measure {words}", complains(got))
    for word in NO_RANGES:
        got = asked.run(["bdf", "--size", "0", f"--range={word}", "none.ttf"], folder)
        common.tried(f"bdf --range={word!a}", got, (2, b"", lines_of(RANGE)))
    both = asked.run(["bdf", "--size", "16", "F.ttf", "AB"], folder)
    common.verdict("two characters", [] if both[1].count(b"STARTCHAR") == 2 else [f"{both}"])
    for words in ([f"--range={it}", "F.ttf"] for it in RANGES):
        common.tried(f"bdf {words[0]}", asked.run(["bdf", "--size", "16", *words], folder), both)
    forms = ["F.ttf"], ["--", "F.ttf", "BA"], ["F.ttf", "--fit", "best", "--face=0"], ["F.ttf", "A\ufe0fB\ufe0e"]
    for words in forms:
        common.tried(f"bdf {ascii(words)}", asked.run(["bdf", "--size", "16", *words], folder), both)
    order(asked, folder)
    help_of(asked, "bdf", ("--size <N>", "--range", "--face", "[default: best]", " -- "))
    help_of(asked, "measure", ("--no-ink",))
    with open("/dev/full", "wb") as full:
        words = [asked.program, "bdf", "--size", "16", "F.ttf"]
        ran = subprocess.run(words, stdout=full, stderr=subprocess.PIPE, cwd=folder)
    wanted = 4, b"", lines_of(["cannot write after 0 bytes"])
    common.tried("bdf to a full device", (ran.returncode, b"", ran.stderr), wanted)
