"""Fonts and collections that are put together byte by byte, and the rows of rows.txt."""
import struct
from pathlib import Path
from typing import NamedTuple

HERE = Path(__file__).resolve().parent


def tables_of(file, at=0):
    """Returns place and length of each table of the directory at a place, by the first record of its tag."""
    tables = {}
    for record in range(struct.unpack_from(">H", file, at + 4)[0]):
        tag, _, start, length = struct.unpack_from(">4s3I", file, at + 12 + 16 * record)
        tables.setdefault(tag, (start, length))
    return tables


def tables_in(file, at=0):
    """Returns the tables of the directory at a place."""
    return {tag: file[start : start + length] for tag, (start, length) in tables_of(file, at).items()}


def font_of(tables, version=b"\0\1\0\0"):
    """Returns a file of these tables, in the order of their tags, each at a multiple of four bytes."""
    count, power = len(tables), len(tables).bit_length() - 1
    head = version + struct.pack(">4H", count, 16 << power, power, 16 * count - (16 << power))
    body = b""
    for tag, table in sorted(tables.items()):
        body += bytes(-len(body) % 4)
        head += tag + struct.pack(">3I", 0, 12 + 16 * count + len(body), len(table))
        body += table
    return head + body + bytes(-len(body) % 4)


def with_cmap(font, cmap):
    """Returns the font with another cmap."""
    return font_of({**tables_in(font), b"cmap": cmap})


def alone(file, face):
    """Returns the tables of a face of a collection in a file of its own."""
    at = struct.unpack_from(">I", file, 12 + 4 * face)[0]
    return font_of(tables_in(file, at), file[at : at + 4])


def directory_of(font, farther):
    """Returns the font's directory, where its tables lie farther from the file's start."""
    size = 12 + 16 * struct.unpack_from(">H", font, 4)[0]
    records = bytearray(font[:size])
    for at in range(12, size, 16):
        struct.pack_into(">I", records, at + 8, struct.unpack_from(">I", font, at + 8)[0] + farther)
    return bytes(records)


def collection_of(fonts, version=1):
    """Returns a collection of fonts, and where their directories are: a header, which has three words more in version
    2, all directories, then all bytes behind the directories."""
    sizes = [12 + 16 * struct.unpack_from(">H", it, 4)[0] for it in fonts]
    first = 12 + 4 * len(fonts) + 12 * (version == 2)
    places = [first + sum(sizes[:it]) for it in range(len(fonts))]
    file = b"ttcf" + struct.pack(f">HHI{len(fonts)}I", version, 0, len(fonts), *places) + bytes(12 * (version == 2))
    start, bodies = first + sum(sizes), b""
    for font, size in zip(fonts, sizes):
        file += directory_of(font, start + len(bodies) - size)
        bodies += font[size:]
    return file + bodies, places


def bytes_of(words):
    """Returns the bytes of hexadecimal words, of which each may be repeated by *N."""
    parts = (word.partition("*") for word in words)
    return b"".join(bytes.fromhex(digits) * int(times or 1) for digits, _, times in parts)


def changed(file, words):
    """Returns a file cut and changed as words of rows.txt say."""
    data = bytearray(file)
    for word in words:
        if word.startswith("cut:"):
            del data[int(word[4:]) :]
        else:
            at, _, to = word.partition("=")
            data[int(at) : int(at) + len(to) // 2] = bytes.fromhex(to)
    return bytes(data)


class Row(NamedTuple):
    """A row of rows.txt. Its face is None for the strict reading, and for `faces`; status, output and errors are what
    the program answers."""

    name: str
    font: bytes
    call: str
    face: int
    text: str
    status: int
    stdout: bytes
    stderr: bytes


def lines():
    """Yields the lines of rows.txt without its comment."""
    for line in (HERE / "rows.txt").read_text(encoding="utf-8").splitlines():
        if not line.startswith("#"):
            yield line


def bases():
    """Returns the test font and the collection."""
    found = [line.split()[1:] for line, _ in zip(lines(), range(2))]
    return bytes_of(found[0]), bytes_of(found[1])


def made(word, font, collection):
    """Returns the font that a field of rows.txt names."""
    base, *words = word.split()
    if base == "collection":
        return changed(collection, words)
    return with_cmap(font, bytes_of(words)) if words else font


def rows():
    """Yields the rows of rows.txt."""
    font, collection = bases()
    for line in list(lines())[2:]:
        name, word, call, face, text, answer = line.split("|")
        refused = answer.startswith("refused ")
        errors = f"tt_render: {answer[8:]}\n" if refused else ""
        yield Row(
            name,
            made(word, font, collection),
            call,
            None if face in ("", "strict") else int(face),
            "".join(chr(int(it, 16)) for it in text.split()),
            int(refused),
            b"" if refused else answer.replace("/", "\n").encode(),
            errors.encode(),
        )
