"""Habits of words that make a sentence hard to read, counted in the documents and in the comments of the code."""
import re

import markdown
import prose

# A habit, its pattern, how often the documents and how often the comments of src/ and specs/ may have it.
HABITS = (
    ("stand", r"\bst(?:and|ands|ood|anding)\b", 3, 120),
    ("told", r"\b(?:told|tells?|telling)\b", 5, 43),
    ("asked", r"\b(?:asked|asks?|asking)\b", 5, 55),
    (
        "left for remaining",
        # (not the side)
        r"(?<!the )(?<!its )(?<!to-)\bleft\b"
        r"(?!(?:-| )(?:most|side|of|bearing|edge|neighbour|phantom|pixel|end|one|to right))",
        4,
        43,
    ),
    ("so many", r"\bso (?:many|much)\b", 0, 59),
    ("of which", r"\b(?:of|by|for|in|from|to|with|on|at) which\b", 8, 51),
)
# How a comment may begin as rarely as this.
OPENINGS = (
    ("opens with The same or And", r"(?:The same|And |and )", 26),
    ("opens with What or That", r"(?:What |That )", 55),
)


def comments(text):
    """Returns the comments of a file of code or definitions; lines that follow each other are one."""
    found, block = [], []
    for line in text.split("\n"):
        alone = re.match(r"\s*(?:///?|//!|--+\|?)\s?(.*)$", line)
        if alone:
            block.append(alone[1].strip())
            continue
        if block:
            found.append(" ".join(block))
            block = []
        behind = re.search(r"\s(?://|--)\s(.*)$", line)
        if behind:
            found.append(behind[1])
    return [*found, " ".join(block)] if block else found


def in_documents(documents):
    """Returns, for each habit that the documents have too often, its count and its places. Code is no prose."""
    found = []
    for name, pattern, most, _ in HABITS:
        places = [
            f"{document}:{line}: {it}"
            for document in documents
            for line, it in pieces(document)
            for _ in re.findall(pattern, it, re.I)
        ]
        if len(places) > most:
            found += [f"{name}: {len(places)} in all documents, and {most} are allowed", *(f"  {it}" for it in places)]
    return found


def pieces(document):
    """Returns the sentences and cells of a document without the words in backticks, each with a line."""
    for block in markdown.blocks(markdown.read(document)):
        if block.kind == "code":
            continue
        text = markdown.SPAN.sub("_", block.text)
        for it in markdown.cells(text) if block.kind == "row" else prose.sentences(text):
            yield block.line, it


def in_comments(files):
    """Returns, for each habit that the comments have too often, its count."""
    all_of = [it for file in files for it in comments(markdown.read(file))]
    found = []
    for name, pattern, _, most in HABITS:
        count = sum(len(re.findall(pattern, it)) for it in all_of)
        if count > most:
            found.append(f"{name}: {count} in the comments of src/ and specs/, and {most} are allowed")
    for name, pattern, most in OPENINGS:
        count = sum(bool(re.match(pattern, it)) for it in all_of)
        if count > most:
            found.append(f"{name}: {count} comments of src/ and specs/, and {most} are allowed")
    return found


def laws_without_a_head(files):
    """Returns the laws, functions that take and give nothing, whose comment does not begin with "Lemma:"."""
    law = re.compile(r"((?:^[ \t]*(?:///|#\[).*\n)*)^[ \t]*(?:pub(?:\(\w+\))? )?fn (\w+)\(\)(?! *->)", re.M)
    return [
        f"{file}: {name}"
        for file in files
        if file.endswith("laws.rt")
        for comment, name in law.findall(markdown.read(file))
        if not comment.lstrip().startswith("/// Lemma:")
    ]
