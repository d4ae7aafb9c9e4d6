"""Counts, names and limits that the documents report, compared with the repository."""
import re

import markdown

BELOW_TWENTY = """zero one two three four five six seven eight nine ten eleven twelve thirteen fourteen fifteen sixteen
  seventeen eighteen nineteen""".split()
TENS = "twenty thirty forty fifty sixty seventy eighty ninety".split()
# The words for the numbers below a hundred, in order.
NUMBERS = BELOW_TWENTY + [f"{ten}-{it}" if it != "zero" else ten for ten in TENS for it in BELOW_TWENTY[:10]]

# A document, a pattern of what it says with the number in parentheses, and the limit of tt_core that the number is.
LIMITS = (
    ("README.md", r"\b1 to ([\d,]+)(?: pixels per em)?, ", "SIZE_LIMIT"),
    ("README.md", r"([\d,]+) characters", "TEXT_LIMIT"),
    ("README.md", r"([\d,]+) × [\d,]+ pixels", "WIDTH_LIMIT"),
    ("README.md", r"[\d,]+ × ([\d,]+) pixels", "HEIGHT_LIMIT"),
    ("README.md", r"larger than (\d+ MiB)", "FONT_LIMIT"),
    ("SECURITY.md", r"([\d,]+) units of work", "WORK_LIMIT"),
    ("SECURITY.md", r"([\d,]+) points", "POINT_WORK_LIMIT"),
    ("SECURITY.md", r"([\d,]+) crossings", "CROSSING_LIMIT"),
    ("SECURITY.md", r"([\d,]+) steps", "STEP_LIMIT"),
)


def number(text):
    """Returns the number that digits with commas, a number of MiB or an English word says, or None."""
    text = text.strip().lower()
    if re.fullmatch(r"\d+ mib", text):
        return int(text.split()[0]) << 20
    if re.fullmatch(r"[\d,]*\d", text):
        return int(text.replace(",", ""))
    return NUMBERS.index(text) if text in NUMBERS else None


def numbers():
    """Returns the texts that are read as another number than the one that they say."""
    told = {
        "zero": 0, "Fifteen": 15, "sixteen": 16, "nineteen": 19, "twenty": 20, "twenty-one": 21, "forty-six": 46,
        "ninety": 90, "ninety-nine": 99, "100": 100, "16,384": 16_384, "64 MiB": 67_108_864, "many": None, ",": None,
        "hundred": None, "twenty-zero": None, "": None,
    }
    return [f"{it!r} is read as {number(it)}, and not {wanted}" for it, wanted in told.items() if number(it) != wanted]


def flat(path):
    """Returns the words of a document on one line."""
    return " ".join(markdown.read(path).split())


def says(document, pattern, wanted):
    """Compares each number that a pattern finds in a document with the wanted one. It has to find one at least."""
    found = re.findall(pattern, flat(document))
    if not found:
        return [f"{document} says nothing like {pattern!r}, so nobody can compare it"]
    return [f"{document} says {it!r} by {pattern!r}, and not {wanted}" for it in found if number(it) != wanted]


def types(files):
    """Returns the types of each crate of the product: those to be explained, and the associated ones, which may be."""
    wanted, inner = {}, {}
    for file in files:
        crate, text = file.split("/")[1], markdown.read(file)
        names = re.findall(r"^\s*(?:pub(?:\(\w+\))?\s+)?(?:struct|enum|trait)\s+(\w+)", text, re.M)
        names += re.findall(r"^(?:pub(?:\(\w+\))?\s+)?type\s+(\w+)", text, re.M)
        wanted.setdefault(crate, set()).update(names)
        inner.setdefault(crate, set()).update(re.findall(r"^\s+type\s+(\w+)", text, re.M))
    return wanted, inner


def glossary():
    """Returns the types that the glossary explains, each time with their crates, which a paragraph begins with."""
    return [
        (heads.split(", "), {it for it in markdown.spans(text) if re.match(r"[A-Z]", it)})
        for block in markdown.blocks(markdown.read("docs/GLOSSARY.md"))
        if block.kind == "prose"
        for heads, text in re.findall(r"\*\*(tt_[\w, ]+)\.\*\*(.*?)(?=\*\*tt_|\Z)", block.text, re.S)
    ]


def unexplained(files):
    """Returns the types that the glossary lacks in their crate's paragraph, and its names that are no type there."""
    (wanted, inner), faults = types(files), []
    explained = {}
    for crates, names in glossary():
        known = set().union(*(wanted.get(it, set()) | inner.get(it, set()) for it in crates))
        home = ", ".join(crates)
        faults += [f"docs/GLOSSARY.md explains {it} in {home}: no such type" for it in sorted(names - known)]
        for crate in crates:
            explained.setdefault(crate, set()).update(names)
    for crate, names in sorted(wanted.items()):
        faults += [f"docs/GLOSSARY.md lacks {it} of {crate}" for it in sorted(names - explained.get(crate, set()))]
    return faults


def crates_of(files):
    """Returns the crates of the product, and compares crates.txt with the folders."""
    folders = {it.split("/")[1] for it in files if it.startswith("crates/")}
    listed = set(re.findall(r"^(\w+)(?: [^:]*)?:", markdown.read("crates.txt"), re.M))
    faults = [f"crates.txt or crates/ lacks {it}" for it in sorted(folders ^ listed)]
    return {it for it in folders if not it.startswith("tt_test_")}, faults


def map_of_crates(files):
    """Returns what is wrong with the crates that ARCHITECTURE counts and names."""
    crates, faults = crates_of(files)
    named = set(markdown.spans(markdown.read("docs/ARCHITECTURE.md")))
    faults += says("docs/ARCHITECTURE.md", r"product is ([\w-]+) crates", len(crates))
    return faults + [f"docs/ARCHITECTURE.md does not name {it}" for it in sorted(crates - named)]


def calls_of_header():
    """Returns what is wrong with the calls of the header that documents count and name."""
    calls = set(re.findall(r"^\w[\w ]*[ *](tt_\w+)\(", markdown.read("include/tt_render.h"), re.M))
    named = set(markdown.spans(markdown.read("docs/C_LIBRARY.md")))
    faults = says("docs/C_LIBRARY.md", r"([\w-]+) calls and says", len(calls))
    faults += says("CHANGELOG.md", r"in C ([\w-]+) calls", len(calls))
    return faults + [f"docs/C_LIBRARY.md does not name {it}" for it in sorted(calls - named)]


def lines_of_c(files, documents):
    """Returns what is wrong with the lines of C that documents report."""
    lines = sum(markdown.read(it).count("\n") for it in files if re.fullmatch(r"c/\w+\.[ch]", it))
    faults = says("README.md", r"(\d+) lines of C\b", lines)
    faults += says("README.md", r"(\d+) more, `dist/start\.c`", markdown.read("dist/start.c").count("\n"))
    for document in documents:
        if document != "README.md" and re.search(r"\d+ lines(?: of C\b|\))", flat(document)):
            faults += says(document, r"(\d+) lines(?: of C\b|\))", lines)
    return faults


def rows_of_scripts(files):
    """Returns the scripts that tests/README.md does not name, and its lines without a script."""
    scripts = {it.split("/")[1] for it in files if re.fullmatch(r"tests/\w+/run", it)}
    rows, named = set(), set()
    for block in markdown.blocks(markdown.read("tests/README.md")):
        row = re.match(r"- `([a-z]\w*)`: ", block.text)
        if row:
            rows.add(row[1])
        named.update(it.split("/")[1] for it in markdown.spans(block.text) if it.startswith("tests/"))
    faults = [f"tests/README.md has no line for tests/{it}/run" for it in sorted(scripts - rows - named)]
    return faults + [f"tests/README.md has a line for {it}: no tests/{it}/run" for it in sorted(rows - scripts)]


def limits():
    """Returns the limits that documents name with another number than tt_core's."""
    source = markdown.read("crates/tt_core/src/limits.rt")
    known = {name: int(value) for name, value in re.findall(r"const (\w+): \w+ = ([\d_]+);", source)}
    return [fault for document, pattern, name in LIMITS for fault in says(document, pattern, known[name])]


def version():
    """Returns what is wrong with the version in the documents and the page of the manual."""
    wanted = re.search(r'\.version\("([\d.]+)"\)', markdown.read("crates/tt_program_commands/src/lib.rt"))[1]
    places = (
        ("CHANGELOG.md", r"(?m)^## \[?([\d.]+)"),
        ("SECURITY.md", r"Version ([\d.]+\d)"),
        ("tt_render.1", r'^\.TH .* "tt_render ([\d.]+)"'),
    )
    faults = []
    for path, pattern in places:
        found = re.search(pattern, markdown.read(path), re.M)
        if not found or found[1] != wanted:
            faults.append(f"{path} has the version {found and found[1]}, and not {wanted}")
    return faults


def toolchain():
    """Returns what is wrong with the toolchain that README.md names."""
    wanted = re.search(r"^toolchain (.*)$", markdown.read("dist/PROVED"), re.M)[1]
    return [] if wanted in markdown.spans(flat("README.md")) else [f"README.md does not name the toolchain {wanted}"]


def minutes(documents):
    """Returns the minutes of README.md and CONTRIBUTING.md that docs/CI.md does not report, and each TODO."""
    pattern = r"(\d+)(?: to (\d+))? minutes"
    rows = [it.text for it in markdown.blocks(markdown.read("docs/CI.md")) if it.kind == "row"]
    known = set(re.findall(r"\d+", " ".join(rows))) | numbers_of(pattern, "docs/CI.md")
    faults = []
    for document in ("README.md", "CONTRIBUTING.md"):
        lost = sorted(numbers_of(pattern, document) - known)
        faults += [f"{document} says {it} minutes, and docs/CI.md does not" for it in lost]
    return faults + [f"{it} has a TODO" for it in documents if "TODO" in markdown.read(it)]


def numbers_of(pattern, document):
    """Returns what the groups of a pattern find in a document."""
    return {it for pair in re.findall(pattern, flat(document)) for it in pair if it}
