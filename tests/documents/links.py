"""Links, anchors and paths of the documents."""
import fnmatch
import os.path
import re

import markdown

# A path in backticks has one of these endings, or begins with a folder or a crate of the repository.
ENDINGS = (".md", ".rt", ".antt", ".py", ".txt", ".c", ".h", ".sh", ".awk", ".png", ".edit", ".1")
# Folders that have files inside of a crate or of tests/.
INNER = ("src", "specs", "proofs", "must-fail", "pictures", "rows", "machine", "hinted", "dropouts", "c")
# Files of the toolchain and of a reader's own, which the repository does not have.
OTHERS = ("START-HERE.md", "./libtt_render.so", "libtt_render.so.1", "libtt_render.so.2")
# Folders that a build or a test makes, here or in a crate.
MADE = re.compile(r"(^|/)out(/|$)")


def links(document):
    """Returns the relative links of a document, each with the line of its block."""
    found = []
    for block in markdown.blocks(markdown.read(document)):
        if block.kind != "code":
            text = markdown.SPAN.sub(lambda it: "" if "](" in it.group(0) else it.group(0), block.text)
            targets = (it.group(2) for it in markdown.LINK.finditer(text))
            found += [(block.line, it) for it in targets if not re.match(r"[a-z]+:", it)]
    return found


def target_of(document, link):
    """Returns the path that a link leads to, below the root, and its anchor."""
    path, _, anchor = link.partition("#")
    folder = os.path.dirname(document)
    return os.path.normpath(os.path.join(folder, path)) if path else document, anchor


def broken(document, files):
    """Returns the links of a document that lead nowhere."""
    found = []
    for line, link in links(document):
        path, anchor = target_of(document, link)
        if path not in files and not any(it.startswith(path + "/") for it in files):
            found.append(f"{document}:{line}: the link {link} leads to no tracked file")
        elif anchor and anchor not in markdown.anchors(markdown.read(path)):
            found.append(f"{document}:{line}: the link {link} leads to no heading")
    return found


def unreached(documents):
    """Returns the documents that no chain of links from README.md reaches. A link to a folder reaches its README."""
    reached, waiting = set(), ["README.md"]
    while waiting:
        document = waiting.pop()
        if document in reached or document not in documents:
            continue
        reached.add(document)
        for _, link in links(document):
            path, _ = target_of(document, link)
            waiting += [path, f"{path}/README.md"]
    return [f"{it}: no chain of links from README.md leads to it" for it in documents if it not in reached]


def looks_like_path(word, heads):
    """Says whether a word in backticks names a file or folder of the repository."""
    if not re.fullmatch(r"(\./)?[\w.*{}<>,-]+(/[\w.*{}<>,-]+)*/?", word) or MADE.search(word) or word in OTHERS:
        return False
    head, slash, _ = word.removeprefix("./").partition("/")
    return word.endswith(ENDINGS) or bool(slash) and (head in heads or head in INNER) or word.startswith("./")


def pattern_of(word):
    """Returns the pattern of a path, in which CRATE, NAME and {a,b} match any name."""
    return re.sub(r"\b(?:CRATE|NAME)\b|<\w+>|\{[^}]*\}", "*", word.removeprefix("./"))


def places(files):
    """Returns every path by which a document may name a file or folder: each end of it that begins at a folder."""
    found = set()
    for file in files:
        parts = file.split("/")
        for end in range(1, len(parts) + 1):
            found.update("/".join(parts[start:end]) for start in range(end))
    return found


def lost_paths(document, named, heads):
    """Returns the paths in backticks of a document that name nothing."""
    found = []
    for block in markdown.blocks(markdown.read(document)):
        if block.kind == "code":
            continue
        for word in " ".join(markdown.spans(block.text)).split():
            word = word.rstrip(",;:")
            if looks_like_path(word, heads) and not is_there(word, named):
                found.append(f"{document}:{block.line}: there is no {word}")
    return found


def is_there(word, named):
    """Says whether a path names a file or folder."""
    pattern = pattern_of(word).rstrip("/")
    return pattern in named or "*" in pattern and bool(fnmatch.filter(named, pattern))


def heads_of(files):
    """Returns the names at the top of the repository and the names of crates, with which a path may begin."""
    tops = {it.split("/")[0] for it in files if "/" in it}
    return tops | {it.split("/")[1] for it in files if it.startswith("crates/")}
