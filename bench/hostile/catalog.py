"""All hostile fonts by their families and names."""
from hostile import copies, disorder, kerning, level, maps, mixed, opcodes, outlines, programs, variations

# The font whose seconds are the measure of all.
STANDARD = "two"
FAMILIES = {
    "programs": programs.FONTS,
    "disorder": disorder.FONTS,
    "copies": copies.FONTS,
    "maps": maps.FONTS,
    "kerning": kerning.FONTS,
    "variations": variations.FONTS,
    "outlines": outlines.FONTS,
    "level": level.FONTS,
    "mixed": mixed.FONTS,
    "beside": opcodes.BESIDE_FONTS,
    "opcodes": opcodes.FONTS,
    "mutants": mixed.MUTANTS,
}
# Families of which each font is only drawn: there are many of them.
DRAWN_ONLY = {"opcodes", "mutants"}
# Fonts that are drawn with --kern too.
KERNED = {*kerning.FONTS, "gdef"}
FONTS = {name: make for fonts in FAMILIES.values() for name, make in fonts.items()}


def chosen(words):
    """The names of the fonts that words name, each a family or a font; without words those of all families."""
    names = []
    for word in words or FAMILIES:
        if word not in FAMILIES and word not in FONTS:
            raise SystemExit(f"there is no font and no family {word}; families are {', '.join(FAMILIES)}")
        names += FAMILIES.get(word, [word])
    return list(dict.fromkeys(names))


def is_left_out(name, job, first):
    """Whether a job is not run with a font: it is of a family whose fonts are only drawn, by the first job; or the job is
    for the fonts of kerning alone.
    """
    drawn_only = any(name in FAMILIES[it] for it in DRAWN_ONLY)
    return drawn_only and job != first or job == "kerned" and name not in KERNED
