"""The page of the manual: the messages of the program, each of which it has, and an example for each option."""
import re

import markdown

# The crates whose texts are messages, and their files of other texts: answers, tags of tables, words for callers.
CRATES = """tt_advice tt_bitmap_font tt_program_decisions tt_program_faces tt_render tt_render_lines tt_render_run
tt_render_settings tt_render_streams tt_render_texts""".split()
OTHERS = "advising faces fault layout_texts measure_text refusal space_fault".split()
# What a line of roff begins with, for a text in one font, and in two fonts by turns.
ONE, TWO = (".B", ".I"), (".BI", ".BR", ".IB", ".IR", ".RB", ".RI")
# The options that need no example.
PLAIN = "-h", "-V"


def plain(line):
    """Returns the words of a line of the page."""
    name, _, rest = line.partition(" ")
    words = [one or other for one, other in re.findall(r'"([^"]*)"|(\S+)', rest)]
    if name in ONE + TWO:
        line = ("" if name in TWO else " ").join(words)
    elif line.startswith("."):
        return ""
    for escape, said in ((r"\\f.", ""), (r"\\c$", ""), (r"\\-", "-"), (r"\\\((?:aq|oq|cq)", "'"), (r"\\ ", " ")):
        line = re.sub(escape, said, line)
    return line


def page():
    """Returns the words of the page of the manual, on one line."""
    return " ".join(" ".join(map(plain, markdown.read("tt_render.1").splitlines())).split())


def messages(files):
    """Yields the texts of the sources that are messages, without the places of numbers and names in front."""
    for file in files:
        crate, name = file.split("/")[1], file.split("/")[-1].removesuffix(".rt")
        if crate not in CRATES or name in OTHERS:
            continue
        code = [it for it in markdown.read(file).splitlines() if not re.match(r" *(//|ghost |ensures |requires )", it)]
        for text in re.findall(r'"((?:[^"\\]|\\.)*)"', "\n".join(code), re.S):
            text = re.sub(r"\\n$", "", re.sub(r"\\\n *", "", text))
            yield file, re.sub(r"^(\{head\}|tt_render: )(line \{number\}: )?", "", text)


def lacking(files):
    """Returns the messages whose words, up to the help behind a semicolon, a colon or a bracket, the page lacks."""
    words, faults = page(), []
    for file, text in messages(files):
        front = re.split(r"; |: | \(", text)[0].strip()
        pattern = r"\S+".join(re.escape(it) for it in re.split(r"\{[^}]*\}", front))
        if " " in front and not re.search(rf"(?<!\w){pattern}(?!\w)", words):
            faults.append(f"tt_render.1 lacks {front!r} of {file}")
    return faults


def without_example():
    """Returns the options of the page that no example there has."""
    text = re.sub(r"\\f.", "", markdown.read("tt_render.1").replace("\\-", "-"))
    parts = dict(re.findall(r"^\.SH ([^\n]*)\n(.*?)(?=^\.SH |\Z)", text, re.S | re.M))
    heads = re.findall(r"^\.TP\n(.*)$", parts["OPTIONS"], re.M)
    options = [it[0] for it in (re.search(r"(?<!\w)--?[a-z][\w-]*|-V", head) for head in heads) if it]
    shown = " ".join(re.findall(r"^\.EX\n(.*?)^\.EE$", parts["PIPES"] + parts["EXAMPLES"], re.S | re.M))
    lost = [it for it in options if it not in PLAIN and not re.search(rf"(?<![\w-]){it}(?![\w-])", shown)]
    return [f"tt_render.1 has no example with {it}" for it in lost] + ([] if options else ["it has no options"])
