"""Lines of one call: the lines before a line may take no more than the budget of the call."""
import small_fonts as small
from asking import told
from charging import Machine, code_of, work_of
from counting import counted
from programs import POINTS, PREP, filler, pointed

# What the lines before a line may take, by how many they are.
FIRST, EACH = 10_000_000, 4_000_000
# A crossing takes this much.
CROSSING = 4
MACHINE = Machine()


def budget(before):
    """What so many lines may take before one more is drawn."""
    return FIRST + EACH * before


def costing(cost):
    """A glyph such that a line of it alone takes this much: its points, the copies for both programs of the font and
    for its own, the steps of prep and of its own, and its crossings.
    """
    crossings = counted([[(0, 0, 1)] * POINTS], True)
    copies = 2 * MACHINE.begun() + MACHINE.copied()
    return filler(cost - pointed(POINTS) - copies - work_of(PREP) - CROSSING * crossings)


def refused(asked, name, text, number, size=16, options=(), why="65 WorkLarge", status=2):
    """A case of a text whose line with this number is refused: the lines before it are drawn."""
    before = b"".join(text.splitlines(keepends=True)[: number - 1])
    _, pictures, _ = asked.lines("none", size, before, *options)
    told(f"lines: {name}", asked.lines("best", size, text, *options),
         (status, pictures, [f"tt_render: line {number}: {why}"]))


def drawn(asked, name, text, size=16, options=()):
    """A case of a text whose lines are all drawn, as without a budget."""
    told(f"lines: {name}", asked.lines("best", size, text, *options), asked.lines("none", size, text, *options))


def lines(asked):
    """Fonts whose lines take what the budget allows, and 1 more: at the second line and at the fifth."""
    second, fifth, each = budget(1), budget(4) // 4, EACH
    costs = [second, second + 1, fifth, fifth + 1, each, each + FIRST // 20]
    glyphs = [*map(costing, costs), small.with_program(small.dots(1), b"\x00")]
    asked.font.write_bytes(small.line_font(glyphs, others={"prep": code_of(PREP)}))
    at_two, past_two, at_five, past_five, even, dear, cheap = (
        f"{it}\n".encode() for it in small.line_text(len(glyphs))
    )
    for name, options in (("drawn", ()), ("grown", ("--grow",))):
        drawn(asked, f"the second line, {name}", at_two + cheap, options=options)
        refused(asked, f"the second line, 1 too little, {name}", past_two + cheap, 2, options=options)
        drawn(asked, f"the fifth line, {name}", at_five * 4 + cheap, options=options)
        refused(asked, f"the fifth line, 1 too little, {name}", at_five * 3 + past_five + cheap, 5, options=options)
    told("lines: the second line, measured", asked.measured("best", 16, at_two + cheap),
         asked.measured("none", 16, at_two + cheap))
    told("lines: the second line, 1 too little, measured", asked.measured("best", 16, past_two + cheap),
         (2, asked.measured("none", 16, past_two)[1], ["tt_render: line 2: 65 WorkLarge"]))
    told("lines: the second line, labels", asked.labels("best", 16, at_two + cheap), asked.labels("none", 16, at_two + cheap))
    told("lines: the second line, 1 too little, labels", asked.labels("best", 16, past_two + cheap),
         (2, asked.labels("none", 16, past_two)[1], ["tt_render: line 2: 65 WorkLarge"]))
    told("lines: past a spent budget", asked.lines("best", 16, past_two + cheap * 3, "--keep-going"),
         (2, asked.lines("none", 16, past_two + cheap * 2)[1], ["tt_render: line 2: 65 WorkLarge"]))
    drawn(asked, "nothing behind a spent budget", past_two)
    refused(asked, "a long line behind a spent budget", past_two + b"A" * 16385 + b"\n", 2, why="61 TextLong")
    refused(asked, "no UTF-8 behind a spent budget", past_two + b"\xff\n", 2)
    refused(asked, "an empty line behind a spent budget", past_two + b"\n", 2)
    drawn(asked, f"30 lines of {EACH:,}", even * 30)
    refused(asked, f"lines of {costs[-1]:,}: the 22nd", dear * 30, 22)
    drawn(asked, "2,000 cheap lines", cheap * 2000)
    drawn(asked, "2,000 cheap lines behind a dear one", at_two + cheap * 2000)
    told("lines: without a budget", asked.lines("fallback", 16, past_two * 2), asked.lines("none", 16, past_two * 2))
