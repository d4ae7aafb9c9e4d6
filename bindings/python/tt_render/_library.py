"""The calls of the C library, with the structs of tt_render.h."""
from __future__ import annotations

import ctypes
import math
import pathlib
from ctypes import c_char, c_size_t
from ctypes import c_int32 as i32, c_int64 as i64, c_uint32 as u32, c_uint64 as u64
from typing import Any, Container, NamedTuple, Optional

# A package of a distribution has the library apart: then the system finds it.
_BESIDE = pathlib.Path(__file__).with_name("libtt_render.so.2")
_LIBRARY = ctypes.CDLL(str(_BESIDE) if _BESIDE.exists() else _BESIDE.name)
DONE, ROOM, _MESSAGE_BYTES = 0, 7, 90
# A box of pixels; all four sides are included.
Box = NamedTuple("Box", [("left", int), ("top", int), ("right", int), ("bottom", int)])


def _struct(name: str, /, **fields: Any) -> Any:
    return type(name, (ctypes.Structure,), {"_fields_": list(fields.items())})


# The structs of tt_render.h, in its order.
tt_answer = _struct("tt_answer", status=u32, number=u32, table=c_char * 4, offset=u32, bytes=u64, count=u64)
tt_font = _struct("tt_font", units_per_em=u32, ascent=i32, descent=i32, glyphs=u32, line_gap=i32)
tt_axis = _struct("tt_axis", tag=u32, value=i32)
tt_job = _struct("tt_job", size=u32, margin=u32, fit=u32, grow=u32, face=u32, kern=u32, rounded=u32, blank=u32,
                 instance=u32, axes=u32, axis=tt_axis * 16)
tt_label_job = _struct("tt_label_job", size=u32, margin=u32, fit=u32, face=u32, kern=u32, rounded=u32, align=u32,
                     width=u32, box_width=u32, box_height=u32, instance=u32, axes=u32, axis=tt_axis * 16)
tt_axis_range = _struct("tt_axis_range", tag=u32, least=i32, default_value=i32, greatest=i32, name=c_char * 68)
tt_instance = _struct("tt_instance", instance=u32, place=i32 * 64, name=c_char * 68)
tt_picture = _struct("tt_picture", width=u32, height=u32, row_bytes=u64, baseline=i64, unfitted=u64)
tt_label = _struct("tt_label", picture=tt_picture, size=u64, cut_left=u64, cut_right=u64, missing=u64)
tt_box = _struct("tt_box", left=i64, top=i64, right=i64, bottom=i64)
tt_measure = _struct("tt_measure", width=u32, height=u32, baseline=i64, unfitted=u64, has_ink=u64, ink=tt_box)
tt_character = _struct("tt_character", glyph=u32, advance=u32, pen=i64, has_ink=u64, ink=tt_box, offset=u64)
tt_glyph = _struct("tt_glyph", code_point=u32, glyph=u32, advance=u32, selector=u32)
tt_line = _struct("tt_line", picture=tt_picture, at=u64)
tt_bitmap = _struct("tt_bitmap", glyph=u32, status=u32, number=u32, table=c_char * 4, offset=u32, advance=u32, left=i32,
                  top=i32, width=u32, height=u32, advance_64ths=i64, at=u64)
tt_layout = _struct("tt_layout", width=u32, height=u32, baseline=i64, rise=i64, depth=i64, gap=u64, step=u64,
                  characters=u64)
tt_pen = _struct("tt_pen", code_point=u32, selector=u32, glyph=u32, advance=u32, pen=i64, offset=u64)
tt_underline = _struct("tt_underline", exists=u64, top=i64, thickness=u64)
tt_strike = _struct("tt_strike", rise=i64, depth=i64, gap=u64, step=u64, underline=tt_underline)


def supported() -> bool:
    """Says whether this processor has what the library needs, as all of x86-64-v2."""
    return bool(_LIBRARY.tt_supported())


def ask(call: str, *words: Any, allowed: Container[int] = (DONE,)) -> Any:
    """Calls the library. Bytes and arrays go as a pointer and a length, a struct as its pointer."""
    answer, given = tt_answer(), []
    for word in words:
        if isinstance(word, (bytes, ctypes.Array)):
            given += [ctypes.c_char_p(word) if isinstance(word, bytes) else word, c_size_t(len(word))]
        else:
            given.append(ctypes.byref(word) if isinstance(word, ctypes.Structure) else word)
    getattr(_LIBRARY, call)(*given, ctypes.byref(answer))
    if answer.status not in allowed:
        raise Error(answer)
    return answer


def with_rows(call: str, *words: Any) -> tuple[Any, Any]:
    """Calls with a room for rows before the last word. Returns the answer and the room, which is large enough."""
    room = 1 << 16
    while True:
        rows = ctypes.create_string_buffer(room)
        answer = ask(call, *words[:-1], rows, words[-1], allowed=(DONE, ROOM))
        if answer.status == DONE:
            return answer, rows
        room = answer.bytes


def listed(kind: Any, struct: Any, count: int, call: str, *words: Any) -> list[Any]:
    """Calls with a room for entries as the last word, and returns these as tuples of that kind."""
    return [tuple_of(kind, it) for it in entries(struct, count, call, *words)]


def entries(struct: Any, count: int, call: str, *words: Any) -> list[Any]:
    """Calls with a room for so many entries as the last word, and returns those that were told."""
    told = (struct * count)()
    return told[: ask(call, *words, told).count]


def tuple_of(kind: Any, struct: Any, **more: Any) -> Any:
    """Returns fields of a struct as a tuple of that kind. A box of ink is None where there is no ink."""
    if hasattr(struct, "has_ink"):
        more["ink"] = tuple_of(Box, struct.ink) if struct.has_ink else None
    return kind(*(more[it] if it in more else getattr(struct, it) for it in kind._fields))


def number(value: int) -> u32:
    """A number for C. One that C cannot hold becomes the largest, which the library refuses."""
    return u32(value if 0 <= value < 1 << 32 else (1 << 32) - 1)


def fixed(value: float) -> int:
    """A number for C in 16.16, to the nearest, a half away from 0. What C cannot hold becomes the nearest it can."""
    scaled = math.floor(min(abs(value), 1 << 15) * 65536 + 0.5)
    return max(-(1 << 31), -scaled) if value < 0 else min((1 << 31) - 1, scaled)


def utf8_of(text: str) -> bytes:
    return text.encode("utf-8", "surrogatepass")


class Error(Exception):
    """A refusal: its status and number, as tt_render.h lists them, and the table and offset of a font's defect.

    `line` is the index of the text that `labels` or `labels_room` refused, else None.
    """

    def __init__(self, answer: Any) -> None:
        # Where there is no memory for the message, the text remains.
        text = ctypes.create_string_buffer(b"tt_render: out of memory", _MESSAGE_BYTES)
        ask("tt_message", answer, text, allowed=range(8))
        super().__init__(text.value.decode("latin-1").replace("tt_render: ", "", 1))
        self.status: int = answer.status
        self.number: int = answer.number
        self.table: str = answer.table.decode("latin-1")
        self.offset: int = answer.offset
        self.line: Optional[int] = None
