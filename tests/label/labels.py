"""The fonts and rows of rows.txt, and a place where `label` is asked."""
import itertools
import os
import re
import subprocess
import threading
from pathlib import Path
from typing import NamedTuple
from urllib.parse import unquote_to_bytes

from fonts import changed

HERE = Path(__file__).resolve().parent


def joined(words, form):
    """Returns the bytes of pieces that are joined by `+`, each of which may be repeated by *N."""
    parts = (piece.partition("*") for piece in words.split("+"))
    return b"".join(form(piece) * int(times or 1) for piece, _, times in parts)


def bytes_in(word):
    """Returns the bytes of a word, in which %XX is a byte."""
    return b"" if word == "''" else joined(word, unquote_to_bytes)


def words_in(field):
    return [bytes_in(it) for it in field.split()]


def pictures_in(field):
    """Returns the file of the pictures that a field of rows.txt names."""
    data = b""
    for word in field.split():
        width, height, rows = re.fullmatch(r"(\d+)x(\d+):(.*)", word).groups()
        data += f"P4\n{width} {height}\n".encode() + joined(rows, bytes.fromhex)
    return data


class Row(NamedTuple):
    """A row of rows.txt. Its font is None where the folder has none, and `folder` where it is one. What the parser of
    the command line says is not fixed: then errors is None."""

    name: str
    file: bytes
    font: object
    words: list
    stdin: bytes
    status: int
    stdout: bytes
    errors: object


def lines(file=HERE / "rows.txt"):
    """Yields the lines of rows.txt, or of another file, without its comment."""
    for line in file.read_text(encoding="utf-8").splitlines():
        if not line.startswith("#"):
            yield line


def fonts(*files):
    """Returns the fonts of rows.txt, and of other files, by their names."""
    made = {}
    for line in itertools.chain(lines(), *map(lines, files)):
        if line.startswith("font "):
            name, words = line[5:].split("|")
            base, *others = words.split(" ")
            base = unquote_to_bytes(base).decode()
            made[name] = changed(made[base], others) if base in made else joined(words, bytes.fromhex)
    return made


def lines_of(errors):
    """Returns what standard error has of lines."""
    return "".join(f"tt_render: {it}\n" for it in errors).encode()


def rows():
    """Yields the rows of rows.txt."""
    made = fonts()
    for line in lines():
        if line.startswith("font "):
            continue
        name, file, words, stdin, status, stdout, *errors = line.split("|")
        file, _, place = file.partition(" as ")
        font = {"none": None, "folder": "folder"}.get(file) or made.get(file)
        if file not in ("none", "folder") and file not in made:
            raise SystemExit(f"rows.txt names no font {file}")
        told = None if errors == ["complains"] else lines_of(it for it in errors if it)
        place = bytes_in(place or "F.ttf")
        yield Row(name, place, font, words_in(words), bytes_in(stdin), int(status), pictures_in(stdout), told)


class Asked:
    """The program, and folders for fonts. Questions of a part are asked side by side."""

    def __init__(self, program, room, pool):
        self.program, self.room, self.pool = program, room, pool
        self.folders, self.lock = {}, threading.Lock()

    def folder(self, font, file=b"F.ttf"):
        """Returns a folder with a font of these bytes in a file. Without bytes it is empty, or has a folder."""
        with self.lock:
            if (font, file) not in self.folders:
                self.folders[font, file] = self.made(font, file)
            return self.folders[font, file]

    def made(self, font, file):
        """Makes the next folder."""
        folder = self.room / str(len(self.folders))
        folder.mkdir()
        path = os.path.join(os.fsencode(folder), file)
        if font == "folder":
            os.mkdir(path)
        elif font is not None:
            with open(path, "wb") as opened:
                opened.write(font)
        return folder

    def run(self, words, folder=None, stdin=b""):
        """Returns status, standard output and standard error of the program, run in a folder."""
        ran = subprocess.run([self.program, *words], input=stdin, capture_output=True, cwd=folder or self.room)
        return ran.returncode, ran.stdout, ran.stderr

    def each(self, function, *many):
        """Calls a function for each of many, side by side, and yields what it returns in their order."""
        return self.pool.map(function, *many)
