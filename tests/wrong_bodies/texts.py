"""Texts of Rattle without their comments, and functions in such texts.

A comment changes no proof. The sums of sums.py are taken over texts without comments, so a reworded comment makes no
verdict stale. The layout is that of `rt fmt`, which the gate demands.
"""
import re

# In a .rt file: a comment, a string, a character or a lifetime. All other text is passed over.
RT_WORD = re.compile(
    r"""(?P<comment>//[^\n]*)
      | (?P<block>/\*)
      | (?P<kept>\b[bc]?r(?P<marks>\#*)".*?"(?P=marks)
          | "(?:[^"\\]|\\.)*"
          | '(?:\\[^\n][^'\n]*|[^'\\\n])'
          | '\w+)""",
    re.S | re.X,
)

# In an .antt file: a comment or a string. Two dashes behind another sign are part of an operator.
ANTT_WORD = re.compile(
    r"""(?P<comment>(?<![^ \n(){}.;,@"»])--[^\n]*)
      | (?P<block>{-)
      | (?P<kept>"(?:[^"\\\n]|\\[^\n])*")""",
    re.X,
)

ENDS = {"/*": re.compile(r"/\*|\*/"), "{-": re.compile(r"{-|-}")}

FUNCTION = re.compile(r'(\s*)(?:pub(?:\([a-z]+\))? )?(?:const )?(?:unsafe )?(?:extern "C" )?fn (\w+)')


def block_end(text, at, opens):
    """Returns where the block comment that opens at a place ends. Block comments nest."""
    depth = 0
    for found in ENDS[opens].finditer(text, at):
        depth += 1 if found[0] == opens else -1
        if not depth:
            return found.end()
    return len(text)


def bare_text(text, word):
    """Returns a text without comments. A string stays on one line, so that no line of it looks like code."""
    parts, at = [], 0
    while found := word.search(text, at):
        parts.append(text[at : found.start()])
        at = found.end()
        if found["kept"]:
            parts.append(repr(found[0]) if "\n" in found[0] else found[0])
        elif found["block"]:
            at = block_end(text, found.start(), found[0])
    return "".join([*parts, text[at:]])


def bare_lines(path):
    """Returns the lines of a .rt or .antt file that hold more than a comment, without comments."""
    text = path.read_text(encoding="utf-8")
    word = RT_WORD if path.suffix == ".rt" else ANTT_WORD
    return [line.rstrip() for line in bare_text(text, word).split("\n") if line.strip()]


def body_of(lines, at, indent):
    """Returns the first line of a function's body and the line that closes it, by the line of its header.

    A body closes by a brace as far in as the header. It opens by such a brace where there is a contract, and else at
    the end of a line of the header. Returns None where the header's own line closes it, or no line does.
    """
    last = next((n for n in range(at, len(lines)) if lines[n] in (indent + "}", indent + "{}")), None)
    if lines[at].endswith("}") or last is None:
        return None
    if lines[last].endswith("{}"):
        return last, last
    own = range(at, last + 1)
    opens = [n for n in own if lines[n] == indent + "{"] or [n for n in own if lines[n].endswith("{")] or [last - 1]
    return opens[0] + 1, last


def function_headers(lines):
    """Yields of each function with a body the line of its header, its indent and its name."""
    for at, line in enumerate(lines):
        head = FUNCTION.match(line)
        if head and not line.endswith(";"):
            yield at, head[1], head[2]


def in_trait_or_macro(lines):
    """Returns the numbers of the lines that stand in a trait or in a macro of the top level."""
    found, inside = set(), False
    for at, line in enumerate(lines):
        inside = inside or bool(re.match(r"(pub(\([a-z]+\))? )?trait |macro_rules!", line))
        if inside:
            found.add(at)
        inside = inside and not line.startswith("}")
    return found


def without_bodies(lines):
    """Returns the lines of a .rt file without the bodies of its functions.

    The default of a trait and a macro stay whole: other crates may be made of them.
    """
    dropped, kept = set(), in_trait_or_macro(lines)
    for at, indent, _ in function_headers(lines):
        body = None if at in kept else body_of(lines, at, indent)
        if body:
            dropped.update(range(*body))
    return [line for at, line in enumerate(lines) if at not in dropped]
