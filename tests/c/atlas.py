"""Compares an atlas with pictures of the program: atlas.py PROGRAM FONT SIZE ATLAS STATUS. Prints what differs."""
import re
import subprocess
import sys
from pathlib import Path

PROGRAM, FONT, SIZE, ATLAS, STATUS = sys.argv[1:]


def black_in(data):
    """Returns the size of a picture and its black pixels."""
    width, height = map(int, re.match(rb"P4\n(\d+) (\d+)\n", data).groups())
    bits = data.split(b"\n", 2)[2]
    row_bytes = (width + 7) // 8
    places = ((x, y) for y in range(height) for x in range(width))
    return width, height, {it for it in places if bits[it[1] * row_bytes + it[0] // 8] >> (7 - it[0] % 8) & 1}


def moved(pixels):
    """Returns pixels from the first column and row of all."""
    left, top = min((x for x, _ in pixels), default=0), min((y for _, y in pixels), default=0)
    return {(x - left, y - top) for x, y in pixels}


def main():
    if STATUS != "0":
        return f"status {STATUS}"
    words = ["draw", "--size", SIZE, "--fit", "best", "--grow", FONT, "--"]
    wanted = []
    for code in range(32, 127):
        drawn = subprocess.run([PROGRAM, *words, chr(code)], capture_output=True).stdout
        wanted.append(moved(black_in(drawn)[2]) if drawn else set())
    width, height, black = black_in(Path(ATLAS).read_bytes())
    wide = max(x for pixels in wanted for x, _ in pixels) + 1
    high = max(y for pixels in wanted for _, y in pixels) + 1
    if (width, height) != (16 * wide, 6 * high):
        return f"{width} by {height} pixels, and not {16 * wide} by {6 * high}"
    placed = {(x + i % 16 * wide, y + i // 16 * high) for i, pixels in enumerate(wanted) for x, y in pixels}
    return "" if placed == black else f"{len(placed ^ black)} pixels differ"


print(main(), end="")
