"""The lines that are drawn, and sums of pictures, for `run` and make_expected.py."""
import pathlib
import re
import zlib

HERE = pathlib.Path(__file__).resolve().parent
SIZES = range(9, 17)
# In this margin no ink of these lines is cut.
MARGIN = 12
LINES = (HERE / "lines.txt").read_text(encoding="utf-8").splitlines()
FONTS = [it for it in (HERE / "fonts.txt").read_text(encoding="utf-8").splitlines() if not it.startswith("#")]
# Each character of the lines, in the order of their first places.
CHARACTERS = "".join(dict.fromkeys("".join(LINES)))


def pictures(data):
    """Yields the P4 files that follow each other in some bytes."""
    while data:
        head = re.match(rb"P4\n(\d+) (\d+)\n", data)
        end = head.end() + (int(head[1]) + 7) // 8 * int(head[2])
        yield data[:end]
        data = data[end:]


def sum_of(picture):
    """Returns a sum of a picture of a line, in hexadecimal."""
    return f"{zlib.crc32(picture):08x}"


def sum_of_ink(picture):
    """Returns a sum of the picture of a character, whatever its advance is."""
    _, size, body = picture.split(b"\n", 2)
    stride = (int(size.split()[0]) + 7) // 8
    rows = [body[at : at + stride].rstrip(b"\0") for at in range(0, len(body), stride)]
    return sum_of(b"/".join(rows))


def text_of(lines):
    """Returns lines as standard input has them."""
    return "".join(f"{it}\n" for it in lines).encode()
