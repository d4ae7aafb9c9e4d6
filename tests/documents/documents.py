"""The cases of the documents; see the script `run` beside this file, which starts it."""
import os
import re
import shutil
import subprocess
import sys
from pathlib import Path

sys.path.insert(0, str(Path(__file__).resolve().parent.parent))
import common
import facts
import habits
import links
import manual
import markdown
import promises
import prose


def lengths(documents):
    """Tries words, sentences, cells and what two documents share."""
    common.verdict("words", prose.too_many_words(documents))
    for document in documents:
        common.verdict(f"median {document}", prose.high_median(document))
        common.verdict(f"long sentences {document}", prose.long_sentences(document))
        common.verdict(f"long cells {document}", prose.long_cells(document))
    common.verdict("repeated runs", prose.repeated(documents))


def paths(documents):
    """Tries links, anchors and paths in backticks."""
    files = markdown.tracked()
    named, heads = links.places(files), links.heads_of(files)
    for document in documents:
        common.verdict(f"links {document}", links.broken(document, set(files)))
        common.verdict(f"paths {document}", links.lost_paths(document, named, heads))
    common.verdict("reached from README.md", links.unreached(documents))


def reports(documents):
    """Tries names, counts and limits that documents report."""
    files = markdown.tracked()
    sources = [it for it in files if re.fullmatch(r"crates/(?!tt_test_)\w+/src/.*\.rt", it)]
    common.verdict("words for numbers", facts.numbers())
    common.verdict("types in the glossary", facts.unexplained(sources))
    common.verdict("crates", facts.map_of_crates(files))
    common.verdict("calls of the header", facts.calls_of_header())
    common.verdict("lines of C", facts.lines_of_c(files, documents))
    common.verdict("rows of scripts", facts.rows_of_scripts(files))
    common.verdict("limits", facts.limits())
    common.verdict("version", facts.version())
    common.verdict("toolchain", facts.toolchain())
    common.verdict("minutes", facts.minutes(documents))
    common.verdict("messages in the manual", manual.lacking(sources))
    common.verdict("options with an example", manual.without_example())


def citations():
    """Tries what promises cite, and that they name every law."""
    lost, unnamed = promises.compared(markdown.tracked("crates/*/src/*.rt", "crates/*/specs/*.antt"))
    common.verdict("wrong and right citations", promises.overlooked())
    common.verdict("citations of promises", lost)
    common.verdict("laws in promises", unnamed)


def words(documents):
    """Tries the habits of words."""
    code = [it for it in markdown.tracked("crates") if re.fullmatch(r"crates/\w+/(src|specs)/.*\.(rt|antt)", it)]
    common.verdict("habits in documents", habits.in_documents(documents))
    common.verdict("habits in comments", habits.in_comments(code))
    common.verdict("laws", habits.laws_without_a_head(code))


def page():
    """Tries the page of the manual by the programs that read it."""
    for name, command in (("mandoc", ["mandoc", "-T", "lint"]), ("man", ["man", "--warnings", "-l"])):
        if not shutil.which(command[0]):
            common.skip(f"page by {name}", f"{name} is not here")
            continue
        ran = subprocess.run(
            [*command, "tt_render.1"],
            cwd=markdown.ROOT,
            stdin=subprocess.DEVNULL,
            capture_output=True,
            text=True,
            env={**os.environ, "MANPAGER": "cat", "MANWIDTH": "80"},
        )
        said = (ran.stderr + (ran.stdout if name == "mandoc" else "")).strip().splitlines()
        common.verdict(f"page by {name}", said or ([f"status {ran.returncode}"] if ran.returncode else []))


def main():
    why = markdown.lacks_clone()
    if why:
        common.skip("all", why)
        return common.report("documents")
    documents = markdown.tracked("*.md")
    lengths(documents)
    paths(documents)
    reports(documents)
    citations()
    words(documents)
    page()
    return common.report("documents")


if __name__ == "__main__":
    sys.exit(main())
