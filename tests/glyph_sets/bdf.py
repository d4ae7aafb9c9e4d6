"""Files of bitmaps: what `bdf` is to write of drawn glyphs, and what a file has."""
import re
import struct

import model
from drawn import Glyph


def text_of(words):
    """Returns the ASCII characters of a name, and a blank for each other word and for those that a file cannot have."""
    return "".join(chr(it) if 0x20 <= it < 0x7F and chr(it) not in '-*?,"' else " " for it in words)


def family_of(font, face):
    """Returns the family's name: of Windows in American English, else the first of Windows."""
    if b"name" not in model.tags_of(font, face):
        return "unknown"
    table = model.table_of(font, face, b"name")[1]
    count, storage = struct.unpack_from(">HH", table, 2)
    records = [struct.unpack_from(">6H", table, it) for it in range(6, 6 + 12 * count, 12)]
    records = [it for it in records if it[0] == 3 and it[3] == 1]
    chosen = next((it for it in records if it[2] == 0x409), records[0] if records else None)
    if not chosen:
        return "unknown"
    data = table[storage + chosen[5] :][: chosen[4]]
    words = struct.unpack(f">{len(data) // 2}H", data[: len(data) & ~1])[:64]
    return text_of(words).strip(" ") or "unknown"


def box_of(glyphs):
    """Returns width, height, left and lower side of the least box that holds the ink of all."""
    inked = [it for it in glyphs if it.width]
    if not inked:
        return 0, 0, 0, 0
    left, bottom = min(it.left for it in inked), min(it.top - it.height for it in inked)
    return max(it.left + it.width for it in inked) - left, max(it.top for it in inked) - bottom, left, bottom


def character_lines(code, glyph, advance, em):
    """Returns the lines of a character, whose advance in font units is given."""
    size = (glyph.width + 7) // 8
    rows = [f"{it << 8 * size - glyph.width:0{2 * size}X}" for it in glyph.rows]
    box = f"{glyph.width} {glyph.height} {glyph.left} {glyph.top - glyph.height}"
    return [
        f"STARTCHAR U+{code:04X}",
        f"ENCODING {code}",
        f"SWIDTH {model.nearest(1000 * advance, em)} 0",
        f"DWIDTH {glyph.advance} 0",
        f"BBX {box}",
        "BITMAP",
        *rows,
        "ENDCHAR",
    ]


def properties(font, face, size, glyphs, codes, rise, depth):
    """Returns the lines of the properties, and the parts of the font's name that follow from the glyphs."""
    advances = [it.advance for it in glyphs]
    spacing = "M" if len(set(advances)) == 1 else "P"
    average = model.nearest(10 * sum(advances), len(advances))
    style = struct.unpack_from(">H", model.table_of(font, face, b"head")[1], 44)[0]
    family, weight, slant = family_of(font, face), "Bold" if style & 1 else "Medium", "I" if style & 2 else "R"
    default = next((it for it in (0xFFFD, 0x3F) if it in codes), None)
    lines = [
        'FOUNDRY "misc"', f'FAMILY_NAME "{family}"', f'WEIGHT_NAME "{weight}"', f'SLANT "{slant}"',
        'SETWIDTH_NAME "Normal"', 'ADD_STYLE_NAME ""', f"PIXEL_SIZE {size}", f"POINT_SIZE {10 * size}",
        "RESOLUTION_X 72", "RESOLUTION_Y 72", f'SPACING "{spacing}"', f"AVERAGE_WIDTH {average}",
        'CHARSET_REGISTRY "ISO10646"', 'CHARSET_ENCODING "1"', f"FONT_ASCENT {rise}", f"FONT_DESCENT {depth}",
    ]
    lines += [f"DEFAULT_CHAR {default}"] if default else []
    name = f"-misc-{family}-{weight}-{slant}-Normal--{size}-{10 * size}-72-72-{spacing}-{average}-ISO10646-1"
    return name, lines


def written(font, face, size, characters, rise, depth):
    """Returns the file of characters in order, of each the code point, the glyph and the advance in font units."""
    codes, glyphs, _ = zip(*characters)
    name, lines = properties(font, face, size, glyphs, codes, rise, depth)
    em = struct.unpack_from(">H", model.table_of(font, face, b"head")[1], 18)[0]
    head = ["STARTFONT 2.1", f"FONT {name}", f"SIZE {size} 72 72"]
    head += [f"FONTBOUNDINGBOX {' '.join(map(str, box_of(glyphs)))}", f"STARTPROPERTIES {len(lines)}", *lines]
    head += ["ENDPROPERTIES", f"CHARS {len(codes)}"]
    body = [line for it in characters for line in character_lines(*it, em)]
    return "".join(f"{it}\n" for it in [*head, *body, "ENDFONT"]).encode()


def characters_in(data):
    """Returns the glyphs of a file by their code points, and its lines' rows above and below the base line."""
    text, found = data.decode(), {}
    head = r"ENCODING (\d+)\nSWIDTH -?\d+ 0\nDWIDTH (\d+) 0\nBBX (\d+) (\d+) (-?\d+) (-?\d+)\n"
    for words in re.findall(head + r"BITMAP\n((?:[0-9A-F]+\n)*)ENDCHAR", text):
        code, advance, width, height, left, bottom = map(int, words[:6])
        rows = tuple(int(it, 16) >> 4 * len(it) - width for it in words[6].split())
        found[code] = Glyph(0, advance, left, bottom + height, width, height, rows)
    rise, depth = (int(re.search(rf"^{it} (-?\d+)$", text, re.M)[1]) for it in ("FONT_ASCENT", "FONT_DESCENT"))
    return found, rise, depth
