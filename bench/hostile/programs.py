"""Fonts whose programs run as long as they may: 1,000,000 steps each, in up to 32 components at each of some depths."""
import small_fonts as small
from hostile.parts import PLAIN, POINTS, SLANTED
from hostile.parts import composite_of, dotted, function, looping, one_of, pushes, spread, spread_contours, touch, tree

# PUSHW -3, JMPR
ENDLESS = bytes.fromhex("B8FFFD 1C")


def rounds(count):
    """Six steps a round, and two more: PUSHW count; then PUSHB 1, SUB, DUP, PUSHW -8, SWAP, JROT; and POP."""
    return b"\xb8" + small.words(count) + bytes.fromhex("B001 61 20 B8FFF8 23 78 21")


# 999,978 steps: five times 32,767 rounds, and 2,826.
LONG = rounds(32767) * 5 + rounds(2826)


def of_trees(depths, code):
    """Composites with a program, so many deep, and a point with the same program."""
    return one_of(tree(depths, dotted(code), code), others=PLAIN)


def four():
    """33,825 composites with a program, four deep, and 16,384 glyphs of a point in them; the others are empty."""
    # The glyphs 2, 3 and 4 are empty at one, two and three depths; so are 6, 7 and 8, of which half has the point, 5.
    parts = [composite_of([it] * 32, LONG) for it in (0, 2, 3)]
    dots = [dotted(LONG), composite_of([5] * 32, LONG), composite_of([6] * 32, LONG)]
    glyphs = [composite_of([4] * 31 + [8], LONG), *parts, *dots, composite_of([3] * 16 + [7] * 16, LONG)]
    return one_of(glyphs, others=PLAIN)


def points():
    """SVTCA x, MDAP 0, then IUP x 65,000 times and back by a jump, 15 times round: 975,000 steps of IUP."""
    turn = b"\x31" * 65000
    # The way back is -65,000, for which a word is too short: -32,500 and -32,507, and an ADD.
    back = bytes.fromhex("B001 61 20") + b"\xb9" + small.words(-32500, -32511) + bytes.fromhex("60 23 78")
    return one_of([dotted(bytes.fromhex("01 B00F B000 2E") + turn + back + b"\x21", POINTS)], others=PLAIN)


def skips():
    """PUSHB 0, IF, 65,000 bytes that are skipped, EIF, and back, without end."""
    back = b"\xb9" + small.words(-32500, -32510) + bytes.fromhex("60 1C")
    return one_of([dotted(bytes.fromhex("B000 58") + b"\x4f" * 65000 + b"\x59" + back)], others=PLAIN)


def of_code(text, rounds=1, tail="22", **more):
    """A body of hexadecimal digits, so many times, and CLEAR; at a slant."""
    return looping(bytes.fromhex(text) * rounds + bytes.fromhex(tail), **more)


def over_points(code, before, glyph):
    """A body in a glyph of many points, which is no component."""
    return looping(bytes.fromhex(code), before=before, leaf=glyph, deep=False)


# The unnamed opcodes that IDEF may define.
UNNAMED = [*range(0x8F, 0xB0), 0x28, 0x7B, 0x83, 0x84, 0x91, 0x92]
IDEFS = b"".join(bytes([0xB0, op, 0x89, 0x2D]) for op in UNNAMED)
CVT = {"cvt ": bytes(64)}


def nested_calls():
    """A function that calls an empty one 16 times."""
    body = bytes.fromhex("B0 01 2B") * 16
    return looping(b"", b"", times=18000, fpgm=function(b"", 1) + function(body))


def deep_calls():
    """A function that calls a function, and so on, 62 deep."""
    chain = b"".join(function(bytes([0xB0, it + 1, 0x2B]), it) for it in range(61))
    return looping(b"", b"", times=4900, fpgm=function(b"", 63) + chain + function(b"", 61))


FONTS = {
    "endless": lambda: of_trees(4, ENDLESS),
    "one": lambda: of_trees(1, LONG),
    "two": lambda: of_trees(2, LONG),
    "four": four,
    "points": points,
    "skips": skips,
    # MINDEX of 7,900 entries
    "entries": lambda: looping(b"\xb8" + small.words(7900) + b"\x26", pushes(7905)),
    "meeting": lambda: of_code("B4 03 00 01 02 03 0F", tail="", before=b""),
    "lines": lambda: of_code("B1 00 01 86", tail="", before=b""),
    "moves": lambda: of_code("B1 03 00 FF", tail=""),
    "pushes": lambda: looping(pushes(255) + b"\x22", b""),
    "pushes_of_eight": lambda: of_code("B7 0001020304050607", 8, "22"),
    "words_of_eight": lambda: of_code("BF 00000001000200030004000500060007", 8, "22"),
    "jumps": lambda: of_code("B0 01 1C", 8, ""),
    "jumps_if": lambda: of_code("B1 01 01 78 B1 01 00 79", 4, ""),
    # IP of 7,900 points
    "leaning": lambda: looping(pushes(7905) + b"\xb8" + small.words(7900) + bytes.fromhex("17 39 22")),
    # 126 pairs of point 3, all at 16 pixels per em
    "deltap": lambda: looping(b"\x40\xfd" + b"\x7f\x03\x70\x03" * 63 + b"\x7e\x5d\x22"),
    "deltac": lambda: looping(b"\x40\xfd" + b"\x7f\x03\x70\x03" * 63 + b"\x7e\x73\x22", **CVT),
    "md": lambda: of_code("B1 01 02 49 B1 03 00 4A", 16),
    "gc": lambda: of_code("B0 01 46 B0 02 47", 16),
    "div": lambda: of_code("B87FFF B80003 62 B87FFF 63", 8),
    "rounds": lambda: of_code("B0 4B 77 B0 21 68 69 6A 6B 6C 6D", 4),
    "wcvtf": lambda: of_code("B1 01 63 70 B1 01 21 44 B0 01 45", 4, **CVT),
    "spvfs": lambda: of_code("B9 1234 2345 0A", 4),
    "getinfo": lambda: of_code("B0 FF 88 4B 4C 0C 0D", 4),
    "mdrp": lambda: of_code("B0 03 CF", 8, ""),
    "mirp": lambda: of_code("B1 03 00 FF", 8, ""),
    "miap": lambda: of_code("B1 03 00 3E", 8, "", **CVT),
    "miap_rounded": lambda: of_code("B1 03 00 3F", 8, "", **CVT),
    "msirp": lambda: of_code("B1 03 20 3A", 8, ""),
    "scfs": lambda: of_code("B1 03 20 48", 8, ""),
    "sdpvtl": lambda: of_code("B1 00 01 87", 8, "", before=b""),
    "isect": lambda: of_code("B4 03 00 01 02 03 0F", 8, "", before=b""),
    "alignpts": lambda: of_code("B1 03 01 27", 8, ""),
    "ip": lambda: of_code("B0 03 39", 8, ""),
    "ip_many": lambda: looping(pushes(250, 3) + bytes.fromhex("B0FA 17 39")),
    "shp_many": lambda: looping(pushes(250, 3) + bytes.fromhex("B0FA 17 33")),
    "alignrp_many": lambda: looping(pushes(250, 3) + bytes.fromhex("B0FA 17 3C")),
    "flippt_many": lambda: looping(pushes(250, 3) + bytes.fromhex("B0FA 17 80"), b""),
    # SLOOP comes before the distance, which SHPIX takes first
    "shpix_many": lambda: looping(b"".join(
        pushes(250, 3) + bytes.fromhex("B0FA 17") + way + b"\x38" for way in (b"\xb0\x40", b"\xb8\xff\xc0")
    )),
    "roll": lambda: looping(b"\x8a" * 64, pushes(8)),
    "storage": lambda: of_code("B1 01 02 42 B0 01 43 21", 8, "", before=b""),
    "ppem": lambda: of_code("4B 4B 50 21", 16, "", before=b""),
    "instctrl": lambda: of_code("B1 00 00 8E B0 00 85 B0 00 8D", 8, "", before=b""),
    "calls": lambda: looping(b"", b""),
    "calls_nested": nested_calls,
    "calls_deep": deep_calls,
    "idef": lambda: looping(b"", b"", times=7000, fpgm=IDEFS + function(b"\x8f" * 64)),
    "ifs": lambda: looping(bytes.fromhex("B000 58") + b"\xb0\x00" * 100 + b"\x59", b""),
    "ifs_short": lambda: looping(bytes.fromhex("B000 58 59") * 8, b""),
    "ifs_nested": lambda: looping(bytes.fromhex("B000 58") + b"\x58" * 100 + b"\x59" * 101, b""),
    # SHZ of the twilight zone
    "shz_twilight": lambda: looping(bytes.fromhex("B000 36"), SLANTED + bytes.fromhex("B000 15"),
                                    maxp=small.maxp(4, 65535)),
    "shc": lambda: over_points("B000 34" * 8, SLANTED, spread(7000)),
    "iup": lambda: over_points("30 31", b"", spread(POINTS)),
    "iup_half": lambda: over_points("30 31", touch(4000, 2), spread(4000)),
    "iup_quarter": lambda: over_points("30 31", touch(4000, 4), spread(4000)),
    "iup_some": lambda: over_points("30 31", touch(4000, 64), spread(4000)),
    "iup_threes": lambda: over_points("30 31", touch(3000, 3), spread_contours(3000, 3)),
    "fliprg": lambda: over_points("B80000 B83FFF 81 B80000 B83FFF 82", b"", lambda code: dotted(code, POINTS)),
    "fliprg_none": lambda: over_points("B80000 B83FFF 81", b"", lambda code: dotted(code, POINTS)),
}
