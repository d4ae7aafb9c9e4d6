"""The tables of this folder, and files in PNG as RFC 2083 and RFC 1950 describe them."""
import hashlib
import re
import struct
import zlib
from pathlib import Path
from typing import NamedTuple

import common
import labels
import model

HERE = Path(__file__).resolve().parent
# How many rows each table has.
COUNTS = {"composed": 4, "width": 45, "box": 28}
FILES = 16


class Row(NamedTuple):
    """A row of a table: the words behind `label`, and what is answered."""

    name: str
    font: bytes
    words: list
    stdin: bytes
    wanted: tuple


def rows(table):
    """Returns the rows of a table."""
    fonts, found = labels.fonts(HERE / "fonts.txt"), []
    for line in labels.lines(HERE / f"{table}.txt"):
        name, font, words, stdin, status, stdout, *errors = line.split("|")
        wanted = int(status), labels.pictures_in(stdout), labels.lines_of(it for it in errors if it)
        found.append(Row(name, fonts[font], labels.words_in(words), labels.bytes_in(stdin), wanted))
    return found


def picture_in(words):
    """Returns the picture that words of png.txt name."""
    found = re.fullmatch(r"(\d+)x(\d+):pattern", words)
    if not found:
        return labels.pictures_in(words)
    width, height = map(int, found.groups())
    size = (width + 7) // 8 * height
    return f"P4\n{width} {height}\n".encode() + bytes((37 * it + it // 7) & 255 for it in range(size))


def chunk(kind, data):
    return struct.pack(">I", len(data)) + kind + data + struct.pack(">I", zlib.crc32(kind + data))


def png_of(picture):
    """Returns the file in PNG of a picture in P4: two colours, no filter, stored blocks, each in a chunk of its own."""
    width, rows_ = model.rows_of(picture)
    size = (width + 7) // 8
    data = b"".join(b"\0" + (it << (8 * size - width)).to_bytes(size, "big") for it in rows_)
    blocks = [data[at : at + 65535] for at in range(0, len(data), 65535)]
    parts = [struct.pack("<BHH", at == len(blocks) - 1, len(it), len(it) ^ 65535) + it for at, it in enumerate(blocks)]
    parts[0] = b"\x78\x01" + parts[0]
    parts[-1] += struct.pack(">I", zlib.adler32(data))
    head = struct.pack(">II5B", width, len(rows_), 1, 3, 0, 0, 0)
    chunks = [(b"IHDR", head), (b"PLTE", bytes([255] * 3 + [0] * 3)), *((b"IDAT", it) for it in parts), (b"IEND", b"")]
    return b"\x89PNG\r\n\x1a\n" + b"".join(chunk(*it) for it in chunks)


def tables():
    """Tries the tables: each is whole, and the files are those that this module makes."""
    for table, count in COUNTS.items():
        found = len(rows(table))
        common.verdict(f"rows of {table}", [] if found == count else [f"{found} rows, and not {count}"])
    files = [it.split("|") for it in labels.lines(HERE / "png.txt")]
    for words, file in files:
        made = png_of(picture_in(words))
        same = made == labels.joined(file, bytes.fromhex) if not file.startswith("sha256 ") else (
            hashlib.sha256(made).hexdigest() == file.split()[1])
        common.verdict(f"file of {words[:30]}", [] if same else ["png_of makes another file"])
    common.verdict("files of png", [] if len(files) == FILES else [f"{len(files)} files, and not {FILES}"])


def try_rows(asked, table):
    """Tries the rows of a table."""
    found = rows(table)
    run = lambda it: asked.run([b"label", *it.words], asked.folder(it.font), it.stdin)
    for row, got in zip(found, asked.each(run, found)):
        common.tried(f"{table} {row.name}", got, row.wanted)
