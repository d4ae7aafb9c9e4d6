#!/usr/bin/env python3
"""Prints a line of text as # and ., a character for each pixel: draw.py LIBRARY FONT SIZE TEXT. LIBRARY is the path of
libtt_render.so, with a slash in it. If the text is refused, the library's message goes to standard error, and its
status is the exit status."""
import ctypes
import sys


class Axis(ctypes.Structure):
    _fields_ = [("tag", ctypes.c_uint32), ("value", ctypes.c_int32)]


class Job(ctypes.Structure):
    _fields_ = [
        (name, ctypes.c_uint32) for name in ("size", "margin", "fit", "grow", "face", "kern", "rounded", "blank")
    ]
    _fields_ += [("instance", ctypes.c_uint32), ("axes", ctypes.c_uint32), ("axis", Axis * 16)]


class Picture(ctypes.Structure):
    _fields_ = [("width", ctypes.c_uint32), ("height", ctypes.c_uint32), ("row_bytes", ctypes.c_uint64)]
    _fields_ += [("baseline", ctypes.c_int64), ("unfitted", ctypes.c_uint64)]


class Answer(ctypes.Structure):
    _fields_ = [("status", ctypes.c_uint32), ("number", ctypes.c_uint32), ("table", ctypes.c_uint8 * 4)]
    _fields_ += [("offset", ctypes.c_uint32), ("bytes", ctypes.c_uint64), ("count", ctypes.c_uint64)]


DONE, BEST, ROOM = 0, 3, 7


def counted(data):
    """Bytes as two arguments for C: a pointer and a length."""
    return ctypes.c_char_p(data), ctypes.c_size_t(len(data))


def draw(library, font, text, job):
    """The rows of a text's picture, in a room of the size that the first answer gives; the picture; the answer."""
    rows, picture, answer = (ctypes.c_uint8 * 0)(), Picture(), Answer()
    for _ in range(2):
        room = rows, ctypes.c_size_t(len(rows)), ctypes.byref(picture), ctypes.byref(answer)
        if library.tt_draw(*counted(font), *counted(text), ctypes.byref(job), *room) != ROOM:
            break
        rows = (ctypes.c_uint8 * answer.bytes)()
    return bytes(rows), picture, answer


def main(path, font, size, text):
    library = ctypes.CDLL(path)
    with open(font, "rb") as file:
        rows, picture, answer = draw(library, file.read(), text.encode(), Job(int(size), 0, BEST, 1))
    if answer.status != DONE:
        line = ctypes.create_string_buffer(256)
        library.tt_message(ctypes.byref(answer), line, ctypes.c_size_t(len(line)), ctypes.byref(Answer()))
        sys.stderr.write(line.value.decode() + "\n")
    for at in range(0, len(rows), picture.row_bytes or 1):
        bits = "".join(f"{byte:08b}" for byte in rows[at : at + picture.row_bytes])
        print(bits[: picture.width].replace("1", "#").replace("0", "."))
    return answer.status


if __name__ == "__main__":
    sys.exit(main(*sys.argv[1:]))
