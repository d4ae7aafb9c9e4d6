"""Reads the Markdown of this repository: headings, prose, items of lists, rows of tables, code."""
import re
import shutil
import subprocess
from dataclasses import dataclass

from common import ROOT

SPAN = re.compile(r"(`+)(.+?)\1", re.S)
LINK = re.compile(r"!?\[([^\]]*)\]\(([^)\s]*)\)")


@dataclass
class Block:
    """A piece of a document, with the number of its first line."""

    kind: str  # heading, prose, item, row or code
    line: int
    text: str


def lacks_clone():
    """Returns why git cannot list the files here, or nothing."""
    if not shutil.which("git"):
        return "git is not here"
    listed = subprocess.run(["git", "ls-files", "README.md"], cwd=ROOT, capture_output=True, text=True)
    return "" if listed.stdout else (listed.stderr.strip() or "this folder is no clone").splitlines()[0]


def tracked(*patterns):
    """Returns the files that git tracks and that exist, as paths below the root."""
    listed = subprocess.run(["git", "ls-files", "-z", *patterns], cwd=ROOT, capture_output=True, text=True, check=True)
    return sorted(it for it in listed.stdout.split("\0") if it and (ROOT / it).is_file())


def read(path):
    """Returns the text of a file of the repository."""
    return (ROOT / path).read_text(encoding="utf-8")


def kind_of(line, before, in_list):
    """Returns which kind of block a line outside of fences begins or continues, after a line of the kind `before`."""
    depth = len(line) - len(line.lstrip(" "))
    if not line.strip():
        return "blank"
    if depth >= (6 if in_list else 4) and before in ("blank", "code", "heading"):
        return "code"
    if re.match(r"#{1,6} ", line):
        return "heading"
    if line.lstrip().startswith("|"):
        return "row"
    if re.match(r" *([-*+]|\d+\.) ", line):
        return "item"
    return "prose"


def blocks(text):
    """Returns the blocks of a document, in order. A row of dashes below a table's head is left out."""
    found, before, fenced, in_list = [], "blank", False, False
    for number, line in enumerate(text.split("\n"), 1):
        if line.lstrip().startswith("```"):
            fenced, before = not fenced, "code" if not fenced else "blank"
            if fenced:
                found.append(Block("code", number + 1, ""))
            continue
        kind = "code" if fenced else kind_of(line, before, in_list)
        if kind == "blank" and before == "code" and found:
            found[-1].text += "\n"
            continue
        in_list = kind == "item" or in_list and (kind == "blank" or line.startswith("  "))
        joins = kind == before == "code" or kind == "prose" and before in ("prose", "item")
        if kind == "row" and re.fullmatch(r"[|\s:-]+", line):
            pass
        elif joins:
            found[-1].text += "\n" + line
        elif kind != "blank":
            found.append(Block(kind, number, line))
        before = "item" if kind == "prose" and before == "item" else kind
    return found


def cells(row):
    """Returns the cells of a row of a table. A bar in code, or behind a backslash, ends no cell."""
    hidden = SPAN.sub(lambda it: it.group(0).replace("|", "\0"), row.strip().replace("\\|", "\0"))
    return [it.strip().replace("\0", "|") for it in hidden.strip("|").split("|")]


def spans(text):
    """Returns what stands in backticks."""
    return [" ".join(it.group(2).split()) for it in SPAN.finditer(text)]


def code_of(text):
    """Returns the blocks of code of a document, each without its indentation."""
    found = []
    for block in blocks(text):
        if block.kind == "code":
            lines = block.text.strip("\n").split("\n")
            depth = min((len(it) - len(it.lstrip(" ")) for it in lines if it.strip()), default=0)
            found.append("\n".join(it[depth:] for it in lines))
    return found


def readable(text):
    """Returns the words that a reader sees of a link or an emphasis."""
    return LINK.sub(r"\1", text).replace("**", "")


def anchors(text):
    """Returns the anchor of each heading, as GitHub and GitLab form it."""
    found = []
    for block in blocks(text):
        if block.kind == "heading":
            title = readable(block.text.lstrip("#").strip()).replace("`", "").lower()
            anchor = re.sub(r"[^\w\- ]", "", title).replace(" ", "-")
            again = found.count(anchor)
            found.append(f"{anchor}-{again}" if again else anchor)
    return found
