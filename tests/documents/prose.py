"""Sentences, lengths and repeated runs of words of the documents."""
import itertools
import re
import statistics

import markdown

README_WORDS = 900
DOCUMENT_WORDS = 3_000
ALL_WORDS = 20_000
SENTENCE_WORDS = 40
MEDIAN_WORDS = 17
CELL_WORDS = 40
RUN = 8
RUNS = 8

# A shorter piece between two full stops is a label, which would only make the median smaller.
LEAST_WORDS = 4

ABBREVIATION = re.compile(r"(?:^|[\s(])(?:e\.g|i\.e|cf|vs|etc|ca|approx|resp|no|vol|ch|sec|fig|pp?|[A-Z])\.$", re.I)
END = re.compile(r"[.!?]+[)\"'”’*_]*(?=\s|$)")


# These stand for the stops of code while prose is split, since they end no sentence.
HIDDEN = str.maketrans(".!?", "\ue000\ue001\ue002")
SHOWN = str.maketrans("\ue000\ue001\ue002", ".!?")


def hidden(text):
    """Returns prose as a reader sees it, in which the stops of code are hidden."""
    return markdown.SPAN.sub(lambda it: it.group(2).translate(HIDDEN), markdown.readable(text))


def ends_here(before, after):
    """Says whether a sentence ends between two pieces of text, the former of which ends with a stop."""
    if ABBREVIATION.search(before):
        return False
    # ".." is "and so on", as in "cvt, fpgm, ..", unless a sentence begins behind it.
    return not (re.search(r"\.\.[)\"'*]*$", before) and re.match(r"\s*[a-z(]", after))


def sentences(text):
    """Returns the sentences of a paragraph or an item."""
    text = re.sub(r"^\s*(?:[-*+]|\d+\.)\s+", "", text)
    text = " ".join(hidden(text).split())
    found, start = [], 0
    for stop in END.finditer(text):
        if ends_here(text[start:stop.end()], text[stop.end():]):
            found.append(text[start:stop.end()].strip())
            start = stop.end()
    return [it.translate(SHOWN) for it in [*found, text[start:].strip()] if it]


def sentences_of(document):
    """Returns the sentences of a document's prose and items, each with the line that its paragraph begins at."""
    return [
        (block.line, it)
        for block in markdown.blocks(markdown.read(document))
        if block.kind in ("prose", "item")
        for it in sentences(block.text)
    ]


def length(text):
    """Counts words. A dash or a bar alone is none."""
    return sum(bool(re.search(r"\w", it)) for it in text.split())


def long_cells(document):
    """Returns what is wrong with the cells of a document's tables."""
    return [
        f"{document}:{block.line}: a cell of {length(cell)} words: {cell[:100]}"
        for block in markdown.blocks(markdown.read(document))
        if block.kind == "row"
        for cell in markdown.cells(block.text)
        if length(cell) > CELL_WORDS
    ]


def long_sentences(document):
    """Returns the sentences of a document that are too long."""
    return [
        f"{document}:{line}: a sentence of {length(it)} words: {it}"
        for line, it in sentences_of(document)
        if length(it) > SENTENCE_WORDS
    ]


def high_median(document):
    """Returns what is wrong with the median of a document's sentences."""
    lengths = [length(it) for _, it in sentences_of(document) if length(it) >= LEAST_WORDS]
    if lengths and statistics.median(lengths) > MEDIAN_WORDS:
        return [f"{document}: the median of its {len(lengths)} sentences is {statistics.median(lengths):g} words"]
    return []


def runs(document):
    """Returns the runs of eight words of a document's prose, items and cells; no run goes over the end of one.

    Code is left out, and so are paths, names in backticks and numbers: a list of them in two tables is no repetition.
    """
    found = set()
    for block in markdown.blocks(markdown.read(document)):
        if block.kind == "code":
            continue
        for piece in markdown.cells(block.text) if block.kind == "row" else [block.text]:
            text = markdown.SPAN.sub(" ", markdown.readable(piece)).lower()
            words = re.findall(r"[^\W\d_]+(?:['’-][^\W\d_]+)*", text)
            found.update(tuple(words[at:at + RUN]) for at in range(len(words) - RUN + 1))
    return found


def repeated(documents):
    """Returns, for each two documents that share too many runs, how many and some of them."""
    of_each = {it: runs(it) for it in documents}
    found = []
    for one, other in itertools.combinations(documents, 2):
        shared = sorted(of_each[one] & of_each[other])
        if len(shared) > RUNS:
            some = "; ".join(" ".join(it) for it in shared[:3])
            found.append(f"{one} and {other} share {len(shared)} runs of {RUN} words: {some}")
    return found


def too_many_words(documents):
    """Returns what is wrong with the number of words, counted as `wc -w` does."""
    counts = {it: len(markdown.read(it).split()) for it in documents}
    found = []
    for document, count in counts.items():
        most = README_WORDS if document == "README.md" else DOCUMENT_WORDS
        if count > most:
            found.append(f"{document} has {count} words, and {most} are allowed")
    if sum(counts.values()) > ALL_WORDS:
        most = ", ".join(f"{it} {count}" for it, count in sorted(counts.items(), key=lambda it: -it[1])[:8])
        found.append(f"all documents have {sum(counts.values())} words, and {ALL_WORDS} are allowed: {most}, ..")
    return found
