"""The cases of the recipes; see the script `run` beside this file, which starts it."""
import re
import subprocess
import sys
from pathlib import Path

sys.path.insert(0, str(Path(__file__).resolve().parent.parent))
import common
import markdown

# The example of each recipe: how the heading begins, an extended regular expression of grep that finds the files, and
# files that have it for another reason.
EXAMPLES = {
    "An opcode on the stack": (r"\b(ROLL|Roll|roll)\b",),
    "A refusal of a font": (r"ScaledOffset|scaled_offset|\bis_limit\b|\bPLACES_OF_FACE\b",),
    "An option of the command": (r'--missing|"missing"|MISSING_WORDS|Missing::|enum Missing|\\-missing',),
    "A call of the C library": (r"tt_characters|CCharacter",),
}

# What is named before the recipes, for all of them: each change may break a promise, and is noticed.
OF_EACH = "wrong_bodies/", "CHANGELOG.md"

# Where nobody writes by hand, where documents are, and the scripts that try the documents.
APART = (
    *("docs", "*.md", "dist", "drafts", "wrong_bodies", "crates/*/must-fail/*"),
    *("tests/*.txt", "tests/documents", "tests/readme", "tests/recipes"),
)
# Of the tables of tests, those that are written by hand.
BY_HAND = (
    *("tests/rows/cases.txt", "tests/machine/worked*.txt", "tests/real_fonts/texts.txt", "tests/*/fonts.txt"),
    *("tests/hinted/originals.txt", "tests/hinted/pictures.txt"),
)


def grep(pattern, *where):
    """Returns the tracked files in which a pattern is found."""
    words = ["git", "grep", "-lE", "-e", pattern, "--", *where]
    found = subprocess.run(words, cwd=markdown.ROOT, capture_output=True, text=True)
    if found.returncode > 1:
        raise RuntimeError(found.stderr)
    return set(found.stdout.splitlines())


def having(pattern, *others):
    """Returns the files that have an example: code, definitions, proofs, scripts, and tables by hand."""
    return sorted(grep(pattern, ".", *(f":!{it}" for it in (*APART, *others))) | grep(pattern, *BY_HAND))


def paths_of(word):
    """Returns the paths that a word of a recipe is, below the root; {a,b} is each of these names."""
    names = re.search(r"\{([^{}]*)\}", word)
    if names:
        return [path for it in names[1].split(",") for path in paths_of(word[: names.start()] + it + word[names.end() :])]
    return [f"crates/{word}" if word.startswith("tt_") and "/" in word else word]


def recipes():
    """Returns the paths that are named before the recipes, and for each heading of a recipe those that its list names:
    those before a colon."""
    first, found, heading = [], {}, ""
    for block in markdown.blocks(markdown.read("docs/RECIPES.md")):
        if block.kind == "heading" and block.text.startswith("## "):
            heading = block.text[3:]
            found[heading] = []
        elif not heading:
            first += markdown.spans(block.text)
        elif block.kind == "item":
            found[heading] += [path for it in markdown.spans(re.split(r":\s", block.text)[0]) for path in paths_of(it)]
    return first, found


def missing(paths):
    """Returns what is wrong with the paths of a recipe."""
    faults = []
    for path in paths:
        there = (markdown.ROOT / path).is_dir() if path.endswith("/") else (markdown.ROOT / path).is_file()
        if not there:
            faults.append(f"there is no {path}" + (", which ends like a folder" if path.endswith("/") else ""))
    return faults


def unnamed(paths, example):
    """Returns the files that have the example and that a recipe neither names nor has the folder of."""
    files, folders = set(paths), tuple(it for it in paths if it.endswith("/"))
    found = having(*example)
    if not found:
        return [f"no file has {example[0]!r}"]
    return [f"it lacks {it}" for it in found if it not in files and not it.startswith(folders)]


def main():
    why = markdown.lacks_clone()
    if why:
        common.skip("all", why)
        return common.report("recipes")
    first, of_heading = recipes()
    common.verdict("of each recipe", [f"the first lines lack {it}" for it in OF_EACH if it not in first])
    for heading, paths in of_heading.items():
        common.verdict(f"paths of: {heading}", missing(paths))
        example = next((EXAMPLES[it] for it in EXAMPLES if heading.startswith(it)), None)
        faults = unnamed(paths, example) if example else ["no example is in this script"]
        common.verdict(f"files of: {heading}", faults)
    forgotten = [it for it in EXAMPLES if not any(heading.startswith(it) for heading in of_heading)]
    common.verdict("examples", [f"no recipe begins with {it!r}" for it in forgotten])
    return common.report("recipes")


if __name__ == "__main__":
    sys.exit(main())
