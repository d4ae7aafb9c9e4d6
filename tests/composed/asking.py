"""What the library and the program answer for the texts of a case."""
import ctypes
import itertools
import re
from ctypes import c_int64, c_size_t, c_uint8, c_uint32, c_uint64

import calls
import common
from composing import Bitmap, Picture

# So many bytes more than a call needs are its room.
MORE = 64
Box = calls.struct_of(left=c_int64, top=c_int64, right=c_int64, bottom=c_int64)
Told = calls.struct_of(width=c_uint32, height=c_uint32, row_bytes=c_uint64, baseline=c_int64, unfitted=c_uint64)
Measure = calls.struct_of(
    width=c_uint32, height=c_uint32, baseline=c_int64, unfitted=c_uint64, has_ink=c_uint64, ink=Box,
)
Line = calls.struct_of(picture=Told, at=c_uint64)


class Shown(Exception):
    """A call that was to be done answers otherwise."""


def done(answer, what):
    """Raises what a call answers, unless it is done."""
    if answer.status:
        raise Shown(f"{what} answers {calls.values_of(answer)}")


def bitmaps(library, font, numbers, job):
    """Returns the bitmaps of glyphs by their numbers, and the numbers of those that are not fitted. A refused glyph has
    no bitmap."""
    answer, entries, data = library.glyphs(font, numbers, job)
    done(answer, "tt_glyphs")
    found, unfitted = {}, set()
    for number, status, refusal, _, _, _, left, top, width, height, at in entries:
        if status:
            continue
        size = (width + 7) // 8
        rows = [int.from_bytes(data[at + it * size :][:size], "big") >> 8 * size - width for it in range(height)]
        found[number] = Bitmap(left, top, width, rows)
        if refusal:
            unfitted.add(number)
    return found, unfitted


def picture(library, font, text, job, room):
    """Returns the picture of tt_draw, without its ink, and the number of its unfitted glyphs."""
    rows, told = calls.filled((c_uint8 * (room + MORE))()), calls.filled(Told())
    answer = library.call("tt_draw", font, text, job, rows, told)
    done(answer, "tt_draw")
    if not calls.is_filled(rows, answer.bytes) or told.row_bytes != (told.width + 7) // 8:
        raise Shown("tt_draw has written behind the rows, or has another row_bytes")
    return Picture(told.width, told.height, told.baseline, None, bytes(rows[: answer.bytes])), told.unfitted


def measure(library, font, text, job):
    """Returns what tt_measure answers, as a picture without its rows, and the number of unfitted glyphs."""
    told = calls.filled(Measure())
    done(library.call("tt_measure", font, text, job, told), "tt_measure")
    ink = calls.values_of(told.ink) if told.has_ink else None
    return Picture(told.width, told.height, told.baseline, ink, None), told.unfitted


def lines(library, font, texts, job, keep, room):
    """Returns the pictures of tt_draw_lines, without their ink, and the numbers of their unfitted glyphs."""
    ends = (c_uint64 * len(texts))(*itertools.accumulate(map(len, texts)))
    rows, told = calls.filled((c_uint8 * (room + MORE))()), calls.filled((Line * len(texts))())
    answer = library.call("tt_draw_lines", font, b"".join(texts), ends, job, c_size_t(keep), rows, told)
    done(answer, "tt_draw_lines")
    found, data = [], bytes(rows)
    for it in told:
        shape = it.picture
        own = data[it.at : it.at + shape.row_bytes * shape.height]
        found.append((Picture(shape.width, shape.height, shape.baseline, None, own), shape.unfitted))
    return found


def files(data):
    """Returns the files in P4 that follow one another."""
    found = []
    while data:
        head = re.match(rb"P4\n(\d+) (\d+)\n", data)
        if not head:
            raise Shown(f"no picture begins with {data[:40]!r}")
        end = head.end() + (int(head[1]) + 7) // 8 * int(head[2])
        found.append(data[:end])
        data = data[end:]
    return found


def ran(program, words, stdin=b""):
    """Returns what the program writes to standard output."""
    status, out, errors = common.run([program, *words], stdin)
    if status:
        raise Shown(f"status {status}: {errors[:200]!r}")
    return out


def measured(out):
    """Returns of each text what `measure` prints: size, base line and ink of the picture, and its units with their
    glyphs, pens, advances and boxes."""
    found = []
    for line in out.decode().splitlines():
        head = re.fullmatch(r"picture (\d+) (\d+) baseline (-?\d+) ink (none|.*)", line)
        if head:
            ink = None if head[4] == "none" else tuple(map(int, head[4].split()))
            found.append((tuple(map(int, head.groups()[:3])), ink, []))
        elif line.startswith("U+"):
            _, glyph, pen, advance, *box = line.split()
            box = None if box == ["none"] else tuple(map(int, box))
            found[-1][2].append((int(glyph), int(pen), int(advance), box))
    return found
