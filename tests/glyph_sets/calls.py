"""The calls of the C library, by ctypes."""
import ctypes
import os
import subprocess
from ctypes import c_char, c_int32, c_int64, c_size_t, c_uint32, c_uint64
from pathlib import Path

import common

FITS = {"full": 0, "none": 1, "fallback": 2, "best": 3, "other": 4}
DONE, FONT, ROOM = 0, 1, 7
# Memory of the caller's begins with this byte, where the library is to leave it as it is.
FILLED = 0xA5


def struct_of(**fields):
    return type("Struct", (ctypes.Structure,), {"_fields_": list(fields.items())})


Answer = struct_of(status=c_uint32, number=c_uint32, table=c_char * 4, offset=c_uint32, bytes=c_uint64, count=c_uint64)
Job = struct_of(
    size=c_uint32, margin=c_uint32, fit=c_uint32, grow=c_uint32, face=c_uint32, kern=c_uint32, rounded=c_uint32,
    blank=c_uint32, instance=c_uint32, axes=c_uint32, axis=c_uint32 * 32,
)
Bitmap = struct_of(
    glyph=c_uint32, status=c_uint32, number=c_uint32, table=c_char * 4, offset=c_uint32, advance=c_uint32,
    left=c_int32, top=c_int32, width=c_uint32, height=c_uint32, advance_64ths=c_int64, at=c_uint64,
)
Layout = struct_of(
    width=c_uint32, height=c_uint32, baseline=c_int64, rise=c_int64, depth=c_int64, gap=c_uint64, step=c_uint64,
    characters=c_uint64,
)
Pen = struct_of(
    code_point=c_uint32, selector=c_uint32, glyph=c_uint32, advance=c_uint32, pen=c_int64, offset=c_uint64,
)


def job_of(size, margin, fit, face, grow=0, kern=0, rounded=0):
    """Returns a job. A face is read widely, None strictly."""
    return Job(int(size), int(margin), FITS[fit], grow, 0 if face is None else int(face) + 1, kern, rounded)


def values_of(made, but=None):
    """Returns the values of a struct but one, a tag as text."""
    found = (getattr(made, name) for name, _ in made._fields_ if name != but)
    return tuple(it.decode() if isinstance(it, bytes) else it for it in found)


def filled(made):
    """Returns a struct or an array all of whose bytes are FILLED."""
    ctypes.memset(ctypes.byref(made), FILLED, ctypes.sizeof(made))
    return made


def is_filled(made, start=0):
    """Says whether all bytes from a place on are FILLED."""
    return not bytes(memoryview(made).cast("B")[start:]).strip(bytes([FILLED]))


class Library:
    """The shared library, and what is asked of it. A text is bytes; what a call tells is None unless it is done."""

    def __init__(self, path):
        self.dll = ctypes.CDLL(str(path))

    def call(self, name, *words):
        """Calls by name, and returns the answer. Bytes are given with their length; an array, too."""
        given = []
        for it in words:
            if isinstance(it, (bytes, ctypes.Array)):
                given += [it, c_size_t(len(it))]
            else:
                given.append(ctypes.byref(it) if isinstance(it, ctypes.Structure) else it)
        answer = filled(Answer())
        status = getattr(self.dll, name)(*given, ctypes.byref(answer))
        if status != answer.status:
            raise SystemExit(f"tests: {name} returns {status}, and answers {answer.status}")
        return answer

    def glyphs(self, font, numbers, job, room=1 << 20, told_room=None):
        """Returns the answer of tt_glyphs, the entries, and the rows. What a refused call writes ends the test."""
        numbers = (c_uint32 * len(numbers))(*numbers)
        rows = filled((ctypes.c_uint8 * room)())
        told = filled((Bitmap * (len(numbers) if told_room is None else told_room))())
        answer = self.call("tt_glyphs", font, numbers, job, rows, told)
        if answer.status:
            if not (is_filled(rows) and is_filled(told)):
                raise SystemExit("tests: tt_glyphs is refused, and has written")
            return answer, None, None
        if not is_filled(rows, answer.bytes):
            raise SystemExit("tests: tt_glyphs has written behind the rows")
        return answer, [values_of(it, "advance_64ths") for it in told[: answer.count]], bytes(rows[: answer.bytes])

    def layout(self, font, text, job):
        """Returns the answer of tt_layout, and what it tells."""
        told = filled(Layout())
        answer = self.call("tt_layout", font, text, job, told)
        if answer.status and not is_filled(told):
            raise SystemExit("tests: tt_layout is refused, and has written")
        return answer, None if answer.status else values_of(told)

    def pens(self, font, text, job):
        """Returns the answer of tt_pens, and the pens. A room with a pen less is tried, too."""
        told = filled((Pen * (len(text) + 1))())
        answer = self.call("tt_pens", font, text, job, told)
        if answer.status:
            return answer, None
        if answer.count:
            small = filled((Pen * (answer.count - 1))())
            less = self.call("tt_pens", font, text, job, small)
            if (less.status, less.count) != (ROOM, answer.count) or not is_filled(small):
                raise SystemExit(f"tests: tt_pens with a pen less answers {values_of(less)}")
        return answer, [values_of(it, "offset") for it in told[: answer.count]]


def opened(room):
    """Returns the C library, made in a folder as a shared one, or why there is none."""
    archive = Path(os.environ.get("TT_LIBRARY") or common.ROOT / "out/c/libtt_render.a")
    if not archive.exists():
        return None, f"there is no library {archive}; dist/library {archive} makes it"
    made = room / "libtt_render.so"
    words = ["cc", "-shared", "-fPIC", "-I", common.ROOT / "include", "-o", made, common.ROOT / "c/heap.c"]
    words += ["-Wl,--whole-archive", archive.resolve(), "-Wl,--no-whole-archive", "-Wl,--allow-multiple-definition"]
    status, _, said = common.run(words)
    if status:
        raise SystemExit(f"tests: the shared library is not made: {said.decode()[:800]}")
    return Library(made), ""
