"""The parts of faces/run that need collections of Debian."""
import hashlib
import re
from pathlib import Path

import common
from asking import FITS
from fonts import alone

HERE = Path(__file__).resolve().parent
LINES = """永和九年，歲在癸丑，暮春之初
會於會稽山陰之蘭亭，修禊事也。
群賢畢至，少長咸集。此地有崇山峻領
茂林修竹；又有清流激湍，映帶左右
天地玄黄，宇宙洪荒。日月盈昃，辰宿列张
你好，世界！Hello, world 0123456789
日本語：いろはにほへと チリヌルヲ
「漢字」《书名》——……·
骨直角次化 门户 与写 令冷
Aa Bb Cc jolly staff Wax fjord
Öl naïve über «ñ» Çé ß ÅNGSTRÖM
a龍b龜c鑿d籲e
Σ=12 Ωμέγα Жук 3/4 §4 {x|y} ~ #
､｡｢｣ ｶﾞ ￥ ① ㈱ ㎏ ℃ № ℡
\u3000全角ＡＢＣ１２３""".splitlines()
SIZES = 11, 16, 27, 40


def collections():
    """Yields each collection of collections.txt: its sum, its path and the lines of its faces."""
    text = (HERE / "collections.txt").read_text(encoding="utf-8")
    for part in text.split("\ncollection ")[1:]:
        first, *faces = part.splitlines()
        yield *first.split(), faces


def pictures(data):
    """Returns the pictures that stand one after the other."""
    found, at = [], 0
    while head := re.compile(rb"P4\n(\d+) (\d+)\n").match(data, at):
        end = head.end() + (int(head[1]) + 7) // 8 * int(head[2])
        found.append(data[at:end])
        at = end
    return found


def try_lines(name, own, others):
    """Compares the lines of a face with those of its own file, each line a case."""
    wanted = pictures(own[1])
    common.verdict(f"{name}: its own file", [f"{own[0]} {own[2]!r}"] * (own[0] != 0 or len(wanted) != len(LINES)))
    for how, got in others:
        common.verdict(f"{name}, {how}", [f"{got[0]} {got[2][:200]!r}"] * ((got[0], got[2]) != (own[0], own[2])))
        there = pictures(got[1]) + [b""] * len(LINES)
        for line, one, other in zip(LINES, wanted, there):
            common.verdict(f"{name}, {how}: {line}", ["is not the picture of its own file"] * (one != other))


def try_face(asked, path, number, count):
    """Tries a face beside its own file, which is read by its face 0, and strictly."""
    own = asked.room / "own"
    own.write_bytes(alone(path.read_bytes(), number))
    face, lines, text = ["--face", str(number)], "\n".join(LINES).encode(), LINES[number]
    for at, fit in enumerate(FITS):
        name = f"{path.name}, face {number} with {fit}"
        shape = ["--fit", fit, "--size", str(SIZES[(at + number) % len(SIZES)]), "--margin", str(number)]
        ways = [([*face], path), (["--face", "0"], own)]
        if fit == "best" and number == 0:
            ways.append(([], path))
        drawn = lambda way: asked.run(["draw", *shape, *way[0], "--lines"], way[1], stdin=lines)
        strict, *others = asked.pool.map(drawn, [([], own), *ways])
        try_lines(name, strict, zip(("in the collection", "as face 0", "without a face"), others))
        measured = lambda way: asked.run(["measure", *shape, *way[0]], way[1], text)
        strict, *others = asked.pool.map(measured, [([], own), *ways])
        first = b"face %d %d\n" % (number, count)
        for (_, file), got in zip(ways, others):
            common.tried(f"{name}, measured in {file.name}", got, (0, first * (file == path) + strict[1], strict[2]))
    strict = asked.run(["map"], own, "".join(LINES))
    common.tried(f"{path.name}, glyphs of face {number}", asked.run(["map", *face], path, "".join(LINES)), strict)
    own.unlink()


def try_collection(asked, path, faces):
    """Tries all faces of a collection, and what is said of others."""
    for number in range(len(faces)):
        try_face(asked, path, number, len(faces))
    told = "".join(f"{it}\n" for it in (f"faces {len(faces)}", *faces)).encode()
    common.tried(f"faces of {path.name}", asked.run(["faces"], path), (0, told, b""))
    past = 1, b"", b"tt_render: file+8: 25 NoFace\n"
    common.tried(f"{path.name}, a face too many", asked.run(["map", "--face", str(len(faces))], path, "A"), past)
    strict = 1, b"", b"tt_render: file+0: 1 BadVersion\n"
    common.tried(f"{path.name}, strict", asked.run(["map"], path, "A"), strict)


def installed(asked):
    """Each face of the collections of Debian."""
    for sum_, path, faces in collections():
        path = Path(path)
        if not path.exists():
            common.skip(f"faces of {path.name}", f"{path} is not installed")
        elif hashlib.md5(path.read_bytes()).hexdigest() != sum_:
            common.verdict(path.name, [f"{path} is not the version of collections.txt"])
        else:
            try_collection(asked, path, faces)
