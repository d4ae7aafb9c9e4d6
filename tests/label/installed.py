"""The parts of label/run that use the fonts of Debian that are installed."""
import pathlib

import common
import model
from labels import lines_of
from parts import Models, Question

FOLDERS = "/usr/share/fonts", "/usr/share/wine/fonts"
ENGLISH = "The quick brown fox jumps over the lazy dog: 1,234 + 56.789 = 3/4 (or 80 %)?"
LINES = "Shelf 12, box 3\nfragile!\n\nThis side up", "Jj\nQuay 4: \u00c5gj\n", "\n(f) AV To, ffi\n'Yes'"
SIZES = 9, 16, 23
# As many bytes of a font as its directory may need.
FRONT = 1 << 16


# What files of other kinds are called, by their endings. An .otf file may have TrueType outlines.
OTHERS = {
    "*.otf": model.CFF,
    "*.t1": model.TYPE1,
    "*.pf[ab]": model.TYPE1,
    "*.woff": "is a packed font (WOFF); unpack it first: woff2sfnt",
    "*.woff2": "is a packed font (WOFF2); unpack it first: woff2_decompress",
    "*.pcf.gz": "is packed (gzip); unpack it first: gunzip",
}


def files(pattern):
    """Returns the installed files whose names fit a pattern, each once."""
    found = (it for folder in FOLDERS for it in pathlib.Path(folder).glob(f"**/{pattern}"))
    return sorted({str(it.resolve()) for it in found if it.is_file()})


def fonts():
    """Returns the installed fonts and collections."""
    return files("*.tt[fc]")


def cases():
    """Yields for each font a line of English, and a text of several lines."""
    for at, path in enumerate(fonts()):
        with open(path, "rb") as opened:
            font = opened.read(FRONT)
        yield path, "one_line", Question(font, ENGLISH, file=path)
        align, text, size = model.ALIGNS[at % 3], LINES[at // 3 % 3], SIZES[at // 9 % 3]
        yield path, "answer", Question(font, text, size, at % 4, align, file=path)


def installed(asked):
    """A line of English in each font that is installed: status 0, and nothing is told but of its glyphs and its file.
    Then several lines: those lines, drawn alone, laid over each other."""
    models = Models(asked)

    def answered(case):
        """Asks one, and returns what it answers, and what is wanted."""
        path, wanted, question = case
        return f"{wanted} {path}", asked.run(question.words()), getattr(models, wanted)(question)

    count = 0
    for count, (name, got, wanted) in enumerate(asked.each(answered, cases()), 1):
        common.tried(name, got, wanted)
        is_drawn = got[0] == 0 and got[1].startswith(b"P4\n")
        common.verdict(f"{name} is drawn", [] if is_drawn else [f"{got[0]} {got[2]!r}"])
    if not count:
        common.skip("installed", "no TrueType font is installed")


def front(path):
    with open(path, "rb") as opened:
        return opened.read(4)


def others(asked):
    """Each installed font of another kind: what it is called."""
    cases = [(path, words) for pattern, words in OTHERS.items() for path in files(pattern)]
    cases = [it for it in cases if not it[0].endswith(".otf") or front(it[0]) == b"OTTO"]
    run = lambda it: asked.run(["label", "--size", "16", "--", it[0], ENGLISH])
    for (path, words), got in zip(cases, asked.each(run, cases)):
        common.tried(path, got, (1, b"", lines_of(["file+0: 1 BadVersion", f"{path}: {words}"])))
    if not cases:
        common.skip("others", "no font of another kind is installed")
