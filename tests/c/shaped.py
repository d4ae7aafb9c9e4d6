"""Compares a line of the example shape with hb-view's picture: shaped.py SHAPE FONT SIZE TEXT [DIRECTION]. Both have
unfitted glyphs; hb-view has grey ones at exact places. Prints what differs: where one of them has ink, the other has
some in that pixel or beside it."""
import re
import struct
import subprocess
import sys
import zlib

SHAPE, FONT, SIZE, TEXT, *DIRECTION = sys.argv[1:]
# What counts as grey and as black, of 255; and how far the pictures are moved to find how they lie over each other.
GREY, BLACK, MOST_MOVED = 20, 235, 3


def output_of(*words):
    return subprocess.run(words, capture_output=True, check=True).stdout


def by_shape():
    """Returns the black pixels of the example's picture."""
    data = output_of(SHAPE, FONT, SIZE, TEXT, "none", *DIRECTION)
    width, height = map(int, re.match(rb"P4\n(\d+) (\d+)\n", data).groups())
    bits, row_bytes = data.split(b"\n", 2)[2], (width + 7) // 8
    places = ((x, y) for y in range(height) for x in range(width))
    return {(x, y) for x, y in places if bits[y * row_bytes + x // 8] >> (7 - x % 8) & 1}


def unfiltered(kind, row, above):
    """Returns the bytes of a row of a PNG with one byte a pixel."""
    found = bytearray()
    for at, byte in enumerate(row):
        left, up, corner = (found[at - 1], above[at], above[at - 1]) if at else (0, above[at], 0)
        near = min((left, up, corner), key=lambda it: abs(left + up - corner - it))
        found.append(byte + (0, left, up, (left + up) // 2, near)[kind] & 255)
    return bytes(found)


def by_view():
    """Returns the ink of each pixel of hb-view's picture that has some."""
    words = [f"--font-size={SIZE}", "--margin=48", "--output-format=png", *(f"--direction={it}" for it in DIRECTION)]
    data = output_of("hb-view", *words, FONT, TEXT)
    width, height, depth, colour = struct.unpack(">IIBB", data[16:26])
    assert (depth, colour) == (8, 0), "hb-view writes a picture that is not grey"
    parts, at = b"", 8
    while at < len(data):
        length, name = struct.unpack(">I4s", data[at : at + 8])
        parts += data[at + 8 : at + 8 + length] if name == b"IDAT" else b""
        at += length + 12
    rows, above, found = zlib.decompress(parts), bytes(width), {}
    for y in range(height):
        row = rows[y * (width + 1) : (y + 1) * (width + 1)]
        above = unfiltered(row[0], row[1:], above)
        found.update({(x, y): 255 - it for x, it in enumerate(above) if it < 255})
    return found


def corner(pixels):
    return min(x for x, _ in pixels), min(y for _, y in pixels)


def near(pixels):
    """Returns the pixels, and those beside them."""
    return {(x + i, y + j) for x, y in pixels for i in (-1, 0, 1) for j in (-1, 0, 1)}


def main():
    ours, view = by_shape(), by_view()
    if not ours or not view:
        return "a picture has no ink"
    grey, black = {it for it, ink in view.items() if ink >= GREY}, {it for it, ink in view.items() if ink >= BLACK}
    (x, y), (left, top), about, best = corner(ours), corner(grey), near(grey), None
    for i in range(-MOST_MOVED, MOST_MOVED + 1):
        for j in range(-MOST_MOVED, MOST_MOVED + 1):
            moved = {(a + left - x + i, b + top - y + j) for a, b in ours}
            apart = len(moved - about) + len(black - near(moved))
            best = apart if best is None else min(best, apart)
    return f"{best} pixels of {len(ours)} have no ink beside them in the other picture" if best else ""


print(main(), end="")
