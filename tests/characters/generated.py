"""Fonts with many segments or groups, made of the test font of ../rows: cmap and the number of glyphs are others."""
import random

from plain import number

GLYPHS = 2000


def two(*numbers):
    return b"".join(it.to_bytes(2, "big") for it in numbers)


def four(*numbers):
    return b"".join(it.to_bytes(4, "big") for it in numbers)


def with_cmap(font, cmap):
    """Returns the font with that cmap, put behind all else, and with GLYPHS glyphs, of which three have metrics of
    their own."""
    font = bytearray(font)
    for at in range(12, 12 + 16 * number(font, 4, 2), 16):
        if font[at : at + 4] == b"cmap":
            font[at + 8 : at + 16] = four(len(font), len(cmap))
        if font[at : at + 4] == b"maxp":
            place = number(font, at + 8, 4) + 4
            font[place : place + 2] = two(GLYPHS)
    return bytes(font) + cmap


def groups(ranges, dice):
    """Returns a cmap whose groups are the ranges. Some numbers are not below GLYPHS."""
    table = b"".join(four(start, end, dice.randrange(GLYPHS + 50)) for start, end in ranges)
    return two(0, 1, 3, 10) + four(12) + two(12, 0) + four(16 + len(table), 0, len(ranges)) + table


def segments(ranges, dice):
    """Returns a cmap whose segments are the ranges, every third one with an array of glyph numbers, while there is room
    for what leads there. The length word may be too small; it is not used."""
    count, deltas, offsets, array = len(ranges), [], [], []
    for at, (start, end) in enumerate(ranges):
        delta, offset = (dice.randrange(GLYPHS + 50) - start) % 65536, 0
        if at % 3 == 1 and start <= end and end - start + len(array) < 20000:
            delta, offset = dice.randrange(9), 2 * (count - at + len(array))
            array += [dice.choice([0, dice.randrange(GLYPHS + 50)]) for _ in range(start, end + 1)]
        deltas.append(delta)
        offsets.append(offset)
    power = max(count.bit_length() - 1, 0)
    searched = 2 << power if count else 0
    table = two(*[end for _, end in ranges], 0, *[start for start, _ in ranges], *deltas, *offsets, *array)
    header = two(4, min(14 + len(table), 65535), 0, 2 * count, searched, power, 2 * count - searched)
    return two(0, 1, 3, 1) + four(12) + header + table


def gaps(count, last, dice):
    """Returns ranges with gaps before, between and behind them, the last one of a character alone."""
    step = (last - 0x20) // (count + 1)
    found = []
    for at in range(count):
        start = 0x20 + at * step + dice.randrange(1, step // 3)
        found.append((start, start + dice.randrange(step // 3)))
    return found[:-1] + [(last, last)] if count else found


def touching(count, last, dice):
    """Returns ranges of which each begins behind the end of the one before."""
    step = (last - 0x20) // (count + 1)
    ends = [0x20 + at * step + dice.randrange(step) for at in range(count + 1)]
    return [(before + 1, end) for before, end in zip(ends, ends[1:])]


def rough(count, last, dice):
    """Returns ranges of which some end with the next one, start behind their end, or start before the end of the one
    before."""
    found = gaps(count, last, dice)
    for at in range(count - 2, -1, -1):
        start, end = found[at]
        kind = dice.randrange(5)
        if kind == 0:
            end = found[at + 1][1]
        elif kind == 1:
            start = end + dice.randrange(1, 4)
        elif kind == 2:
            start = max(start - (last >> 9), 1)
        found[at] = start, end
    return found


def fonts(font):
    """Yields the name of each font, and the font."""
    dice = random.Random(12)
    sizes = [*range(34), 63, 64, 65, 127, 128, 129, 255, 256, 257, 511, 512, 513, 1000, 1023, 1024, 1025]
    for count in sizes:
        for form in (gaps, touching, rough):
            yield f"{count} segments, {form.__name__}", with_cmap(font, segments(form(count, 0xFFFF, dice), dice))
            yield f"{count} groups, {form.__name__}", with_cmap(font, groups(form(count, 0x10FFFF, dice), dice))
