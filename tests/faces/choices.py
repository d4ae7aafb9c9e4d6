"""Which record of cmap is chosen, and how symbols are looked up: fonts with two maps that give A different glyphs."""
import struct

from fonts import with_cmap


def words(*numbers):
    return struct.pack(f">{len(numbers)}H", *numbers)


def longs(*numbers):
    return struct.pack(f">{len(numbers)}I", *numbers)


def groups(number, glyph):
    return words(number, 0) + longs(28, 0, 1, 0x41, 0x41, glyph)


def segment(glyph):
    return words(4, 32, 0, 4, 4, 1, 0, 0x41, 0xFFFF, 0, 0x41, 0xFFFF, (glyph - 0x41) % 65536, 1, 0, 0)


def list_of(first, *glyphs):
    return words(6, 10 + 2 * len(glyphs), 0, first, len(glyphs), *glyphs)


def long_list(glyph):
    return words(10, 0) + longs(22, 0, 0x41, 1) + words(glyph)


def bytes_of(glyph):
    return words(0, 262, 0) + bytes(0x41) + bytes([glyph]) + bytes(256 - 0x42)


# A record of each line, the line that is looked for first at first: platform, encoding and what makes A a glyph. The
# strict reading has the first four.
LINES = (
    (3, 10, lambda glyph: groups(12, glyph)),
    (0, 4, lambda glyph: groups(12, glyph)),
    (3, 1, segment),
    (0, 3, segment),
    (3, 10, lambda glyph: groups(13, glyph)),
    (0, 1, lambda glyph: list_of(0x41, glyph)),
    (3, 1, long_list),
    (3, 0, lambda glyph: list_of(0x41, glyph)),
    (1, 0, bytes_of),
)
STRICT = 4
# Records that no reading takes.
OTHERS = (1, 1), (2, 1), (3, 2), (3, 3), (3, 9), (4, 0)


def cmap_of(*parts):
    """Returns a cmap of records: platform, encoding and subtable."""
    records, body = b"", b""
    for platform, encoding, subtable in parts:
        records += words(platform, encoding) + longs(4 + 8 * len(parts) + len(body))
        body += subtable
    return words(0, len(parts)) + records + body


def answer(*pairs):
    """Returns the answer of `map` for characters and glyphs, which all are 256 wide."""
    return 0, "".join(f"U+{it:04X} {glyph} 256\n" for it, glyph in pairs).encode(), b""


def pairs_of_lines(font):
    """Yields the cases of each pair of lines, in either order of the records, and of each line twice."""
    for first in range(len(LINES)):
        for other in range(first, len(LINES)):
            one, two = ((*LINES[it][:2], LINES[it][2](glyph)) for it, glyph in ((first, 1), (other, 2)))
            for order in [(one, two)] + [(two, one)] * (first != other):
                file = with_cmap(font, cmap_of(*order))
                name = f"line {first + 1} and {other + 1}, {'the first' if order[0] is one else 'the other'} before"
                yield name, ["map", "--face", "0"], file, ["A"], answer((0x41, 1))
                if first < STRICT:
                    yield f"{name}, strict", ["map"], file, ["A"], answer((0x41, 1))


def other_records(font):
    """Yields the cases of records that are passed over: alone, and before one of the last line."""
    none = 1, b"", b"tt_render: cmap+0: 10 NoCmap\n"
    for platform, encoding in OTHERS:
        for subtable, kind in ((segment(2), 4), (groups(12, 2), 12), (bytes_of(2), 0)):
            name = f"record ({platform}, {encoding}) of format {kind}"
            record = platform, encoding, subtable
            yield name, ["map", "--face", "0"], with_cmap(font, cmap_of(record)), ["A"], none
            both = with_cmap(font, cmap_of(record, (1, 0, bytes_of(1))))
            yield f"{name} before Roman", ["map", "--face", "0"], both, ["A"], answer((0x41, 1))
    for number in (2, 8):
        file = with_cmap(font, cmap_of((3, 10, words(number) + bytes(600)), (3, 1, long_list(1))))
        yield f"format {number} is passed over", ["map", "--face", "0"], file, ["A"], answer((0x41, 1))


def symbols(font):
    """Yields the cases of symbol maps."""
    wide = ["map", "--face", "0"]
    file = with_cmap(font, cmap_of((3, 0, list_of(0xF0FF, 1, 2, 1))))
    wanted = answer((0xFF, 1), (0x100, 0), (0x101, 0), (0xF0FF, 1), (0xF100, 2), (0xF101, 1))
    yield "symbols about U+F100", wide, file, ["\u00FF\u0100\u0101\uF0FF\uF100\uF101"], wanted
    both = words(4, 40, 0, 6, 4, 1, 2, 0x41, 0xF042, 0xFFFF, 0, 0x41, 0xF041, 0xFFFF)
    both += words((1 - 0x41) % 65536, (1 - 0xF041) % 65536, 1, 0, 0, 0)
    file = with_cmap(font, cmap_of((3, 0, both)))
    wanted = answer((0x41, 1), (0x42, 2), (0xF041, 1), (0xF042, 2))
    yield "a symbol's own glyph first", wide, file, ["AB\uF041\uF042"], wanted
    file = with_cmap(font, cmap_of((3, 0, list_of(0xF041, 0, 2))))
    yield "a symbol of glyph 0", wide, file, ["AB"], answer((0x41, 0), (0x42, 2))


def roman(font):
    """Yields the cases of Macintosh Roman: a character without a byte has glyph 0, whatever byte 0 has."""
    all_of = words(0, 262, 0) + bytes([2] + [1] * 255)
    file = with_cmap(font, cmap_of((1, 0, all_of)))
    with_byte = 0x41, 0xC4, 0xA0, 0x20AC, 0x2C7, 0x3A9, 0xF8FF
    without = 0x80, 0x9F, 0xA4, 0x152 + 0x1000, 0x2126, 0x4E00, 0x1F600
    text = "".join(map(chr, (*with_byte, *without)))
    wanted = answer(*((it, 1) for it in with_byte), *((it, 0) for it in without))
    yield "characters with and without a byte", ["map", "--face", "0"], file, [text], wanted


def choices(font):
    """Yields all cases."""
    yield from pairs_of_lines(font)
    yield from other_records(font)
    yield from symbols(font)
    yield from roman(font)
