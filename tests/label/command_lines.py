"""The part of label/run that is about the command line."""
import common
import labels
import model
from parts import complains

# Words of command lines that their parser refuses and repeats. A character takes the place of each %.
REPEATED = (
    "label --size 16 F.ttf A c%[2J%tt_render:", "label --size 1%6 F.ttf A", "label --size 16 --% F.ttf A",
    "label -% F.ttf A", "label --si%ze 16 F.ttf A", "draw --size=16 --fit=be%st F.ttf A",
    "measure --size 16 --missing % F.ttf A", "map --face=% F.ttf A", "map F.ttf A %",
    "bdf --size 16 --height exact% F.ttf", "faces F.ttf % --help%", "%", "dr%aw", "--%", "-%", "help dr%aw",
)


def repeated(asked):
    """Words with characters that steer a terminal, in place of which question marks are said. All else that is said is
    plain text: the program's own."""
    steering = [chr(it) for one, last in model.ranges(model.STEERING) for it in range(max(one, 1), last + 1)]
    for line in REPEATED:
        status, out, errors = wanted = asked.run(line.replace("%", "?").split())
        plain = status == 2 and not out and all(it == 10 or 32 <= it < 127 for it in errors)
        common.verdict(f"repeated {line}", [] if plain and b"?" in errors else [f"{status} {out} {errors}"])
        run = lambda it: asked.run(line.replace("%", it).split(" "))
        for character, got in zip(steering, asked.each(run, steering)):
            common.tried(f"repeated {line} with {character!a}", got, wanted)


def command_line(asked):
    """Command lines that are refused by their parser, and the help."""
    folder = asked.folder(labels.fonts()["T"])
    size = ["--size", "16"]
    wrong = [
        [], ["F.ttf", "A"], [*size], [*size, "F.ttf"], [*size, "F.ttf", "A", "B"], [*size, *size, "F.ttf", "A"],
        ["--size", "1x", "F.ttf", "A"], ["--size", "-1", "F.ttf", "A"], ["--size", "4294967296", "F.ttf", "A"],
        ["--size", "", "F.ttf", "A"], ["--size"], [*size, "--margin", "x", "F.ttf", "A"],
        [*size, "--margin", "1", "--margin", "1", "F.ttf", "A"], [*size, "--align", "middle", "F.ttf", "A"],
        [*size, "--align", "center", "F.ttf", "A"], [*size, "--align", "LEFT", "F.ttf", "A"],
        [*size, "--align", "left", "--align", "left", "F.ttf", "A"], [*size, "--fit", "strict", "F.ttf", "A"],
        [*size, "--face", "-1", "F.ttf", "A"], [*size, "--face", "0", "--face", "0", "F.ttf", "A"],
        [*size, "--missing", "skip", "F.ttf", "A"], [*size, "--lines", "F.ttf", "A"], [*size, "--lines"],
        [*size, "--lines", "--lines", "F.ttf"], [*size, "--grow", "F.ttf", "A"], [*size, "F.ttf", "-A"],
        [*size, "F.ttf", "A", "-o"], [*size, "-o", "x", "--output", "y", "F.ttf", "A"],
        [*size, "--png=x", "F.ttf", "A"], [*size, "--keep-going", "F.ttf", "A"],
        [*size, "--lines", "--keep-going", "--keep-going", "F.ttf"],
    ]
    for words in wrong:
        common.verdict(f"label {' '.join(words)}", complains(asked.run(["label", *words], folder)))
    drawn = 0, b"P4\n4 4\n\0\0\x60\x60", b""
    right = [
        [*size, "--", "F.ttf", "A"],
        ["F.ttf", "A", *size],
        ["F.ttf", *size, "A"],
        [*size, "--align", "right", "F.ttf", "--", "A"],
        "--size=16 --margin=0 --fit=best --face=0 --missing=tell --align=centre F.ttf A".split(),
    ]
    for words in right:
        common.tried(f"label {' '.join(words)}", asked.run(["label", *words], folder), drawn)
    got = asked.run([b"label", b"--size", b"16", b"F.ttf", b"\xff"], folder)
    common.tried("a text that is not UTF-8", got, (2, b"", b"tt_render: the command line is not UTF-8\n"))
    for size, margin, second in (
        ("0", "0", "--size is 1 to 300 pixels per em, not 0"),
        ("4294967295", "65", "--size is 1 to 300 pixels per em, not 4294967295"),
        ("300", "4294967295", "--margin is 0 to 64 pixels, not 4294967295"),
    ):
        first = "60 SizeRange" if "--size" in second else "64 MarginRange"
        got = asked.run(["label", "--size", size, "--margin", margin, "F.ttf", "A"], folder)
        common.tried(f"size {size}, margin {margin}", got, (2, b"", labels.lines_of([first, second])))
    parts = "--size <N>", "--align", "centre", "[default: best]", "[default: tell]", " -- ", "-o, --output <FILE>"
    parts += "--png", "--keep-going"
    repeated(asked)
    helped(asked, ["label", "--help"], parts)
    helped(asked, ["--help"], ("label",))


def helped(asked, words, parts):
    """Tries a help: its status, its parts, and lines of at most 80 columns."""
    status, said, errors = asked.run(words)
    lines = said.decode().splitlines()
    why = [] if (status, errors) == (0, b"") else [f"status {status}, standard error {errors!r}"]
    why += [f"it lacks {it!r}" for it in parts if it not in said.decode()]
    why += [f"a line of {len(it)} columns: {it}" for it in lines if len(it) > 80]
    common.verdict(" ".join(words), why)
