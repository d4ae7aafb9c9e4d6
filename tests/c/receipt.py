"""Compares the label of the example escpos with pictures of the program: receipt.py PROGRAM FONT SIZE TEXT LABEL. Each
row has as many words as fit 384 dots, of a longer word as many letters. Prints what differs."""
import subprocess
import sys
from pathlib import Path

PROGRAM, FONT, SIZE, TEXT, LABEL = sys.argv[1:]
DOTS, ROW_BYTES = 384, 48


def drawn(text):
    """Returns the rows of the picture of a text, each as long as the printer's."""
    words = [PROGRAM, "draw", "--size", SIZE, "--fit", "best", "--face", "0", FONT, "--", text]
    _, shape, bits = subprocess.run(words, capture_output=True, check=True).stdout.split(b"\n", 2)
    width, height = map(int, shape.split())
    row_bytes = (width + 7) // 8
    rows = [bits[y * row_bytes : (y + 1) * row_bytes] for y in range(height)]
    return width, [it[:ROW_BYTES].ljust(ROW_BYTES, b"\0") for it in rows]


def label_height(text):
    """Returns the height of a picture of some lines."""
    words = [PROGRAM, "label", "--size", SIZE, "--face", "0", FONT, text]
    return int(subprocess.run(words, capture_output=True, check=True).stdout.split(b"\n", 2)[1].split()[1])


def fits(text):
    return drawn(text)[0] <= DOTS


def first_row(words):
    """Returns the first row of some words, and the words that are left."""
    count = 1
    while count < len(words) and fits(" ".join(words[: count + 1])):
        count += 1
    if count > 1 or fits(words[0]):
        return " ".join(words[:count]), words[count:]
    length = next(it for it in range(len(words[0]), 0, -1) if it == 1 or fits(words[0][:it]))
    return words[0][:length], [words[0][length:], *words[1:]]


def rows_of(text):
    """Returns the rows of a text."""
    found = []
    for paragraph in text.split("\n"):
        words = paragraph.split(" ") if paragraph else []
        if not words:
            found.append("")
        while words:
            row, words = first_row(words)
            found.append(row)
    return found


def printed(data):
    """Returns the dot lines that a printer gets."""
    assert data[:2] == b"\x1b@" and data[-3:] == b"\x1bd\x03", "the label does not begin or end as it should"
    data, found = data[2:-3], []
    while data:
        count = data[6] + 256 * data[7]
        assert data[:6] == b"\x1dv0\0\x30\0" and 0 < count < 256, f"no raster image begins with {data[:8].hex()}"
        found += [data[8 + y * ROW_BYTES : 8 + (y + 1) * ROW_BYTES] for y in range(count)]
        data = data[8 + count * ROW_BYTES :]
    return found


def main():
    rows, got = rows_of(TEXT), printed(Path(LABEL).read_bytes())
    step, height = label_height("A\nA") - label_height("A"), len(drawn("A")[1])
    wanted = [bytearray(ROW_BYTES) for _ in range((len(rows) - 1) * step + height)]
    for i, row in enumerate(rows):
        for y, line in enumerate(drawn(row)[1] if row else []):
            wanted[i * step + y] = bytearray(a | b for a, b in zip(wanted[i * step + y], line))
    if len(got) != len(wanted):
        return f"{len(got)} dot lines, and not {len(wanted)}, for {rows}"
    apart = [y for y, (a, b) in enumerate(zip(got, wanted)) if a != bytes(b)]
    return f"{len(apart)} dot lines differ, the first is {apart[0]}" if apart else ""


print(main(), end="")
