"""The sources of the crates, as the counts need them: functions, types and imports, read from the text alone.

The layout is that of `rt fmt`, which the gate demands. Comments and strings are blanked first, so that nothing in them
looks like code, and each line keeps its number.
"""
import re
from dataclasses import dataclass, field
from pathlib import Path

# A comment, a string, a character, or a lifetime, which begins like a character.
WORD = re.compile(r'//[^\n]*|/\*.*?\*/|\bb?r(#*)".*?"\1|"(?:[^"\\]|\\.)*"|\'(?:\\[^\n][^\'\n]*|[^\'\\\n])\'', re.S)
# The name of a calling convention is a string, so it is blanked.
HEAD = re.compile(r'^[ \t]*(?:pub(?:\(\w+\))? )?(?:const )?(?:unsafe )?(?:extern "\.*" )?fn (\w+)', re.M)
# A type of its own, or at the top level another name of one.
TYPE = re.compile(r"^(?:[ \t]*(pub(?:\(\w+\))? )?(?:struct|enum|union|trait)|(pub(?:\(\w+\))? )?type) (\w+)", re.M)
RESULT = re.compile(r"\s*(?:->)?([^{;]*?)(?=\s(?:requires|ensures|ghost|where)\b|[{;])")
CLAUSE = re.compile(r"\s*(requires|ensures|decreases|ghost)\b[^{;]*")
IMPL = re.compile(r"^[ \t]*(?:impl\b|(?:pub(?:\(\w+\))? )?trait\b)", re.M)
PAIRS = {"(": ")", "[": "]", "{": "}"}


@dataclass
class Function:
    """A function with a body. Lines are counted from 1; `head` is how many lines its signature and clauses have."""

    crate: str
    file: str
    line: int
    name: str
    owner: str
    trait: str
    is_public: bool
    is_export: bool
    comment: str
    parameters: list
    gives: str
    clauses: int
    head: int
    lines: int
    body: str

    def __str__(self):
        return f"{self.file}:{self.line} {self.name}"


@dataclass
class Type:
    """A struct, enum or trait: its place, whether other crates may name it, and the types of its fields by name."""

    crate: str
    file: str
    line: int
    name: str
    visible: str
    fields: dict

    def __str__(self):
        return f"{self.file}:{self.line}"


@dataclass
class File:
    """A file: its functions, its types, and the paths that it imports, by the name that each gets."""

    crate: str
    path: str
    lines: int
    functions: list = field(default_factory=list)
    types: list = field(default_factory=list)
    imports: dict = field(default_factory=dict)
    # What other crates may import of it: names of lib.rt's `pub use`, and modules of its `pub mod`.
    gives: set = field(default_factory=set)
    conversions: list = field(default_factory=list)


def blanked(text):
    """Returns a text of the same lines and columns in which comments and strings are dots."""

    def blank(found):
        word = found[0]
        quote = word[0] if word[0] in "\"'" else ""
        inner = re.sub(r"[^\n]", " " if word.startswith("/") else ".", word)
        return quote + inner[1:-1] + quote if quote else inner

    return WORD.sub(blank, text)


def close_of(text, at):
    """Returns the place of the bracket that closes the one at a place. Angles do not count."""
    depth = 0
    for place in range(at, len(text)):
        if text[place] in PAIRS:
            depth += 1
        elif text[place] in PAIRS.values():
            depth -= 1
            if not depth:
                return place
    return len(text)


def parts_of(text):
    """Returns the parts of a text between commas that are in no bracket."""
    parts, depth, begun = [], 0, 0
    for place, sign in enumerate(text):
        if sign in "([{<":
            depth += 1
        elif sign in ")]}" or (sign == ">" and text[place - 1] != "-"):
            depth -= 1
        elif sign == "," and not depth:
            parts.append(text[begun:place])
            begun = place + 1
    return [" ".join(it.split()) for it in [*parts, text[begun:]] if it.strip()]


def named(text):
    """Returns name and type of a parameter or a field."""
    name, _, kind = text.partition(":")
    if not kind:
        return "self", "Self"
    return re.sub(r"^(?:pub(?:\(\w+\))?|mut)\s+", "", name.strip()), kind.strip()


def after_head(text, at):
    """Returns, from behind a function's parameters, how many clauses follow, and where the body opens or None."""
    clauses = 0
    while at < len(text):
        clause = CLAUSE.match(text, at)
        if clause:
            clauses += clause[1] in ("requires", "ensures")
            at = close_of(text, clause.end()) + 1
        elif text[at] == "{":
            return clauses, at
        elif text[at] == ";":
            return clauses, None
        else:
            at = close_of(text, at) + 1 if text[at] in "([" else at + 1
    return clauses, None


def without_angles(text):
    """Returns a text without the angles that it begins with."""
    depth = 0
    for place, sign in enumerate(text):
        depth += (sign == "<") - (sign == ">" and text[place - 1] != "-")
        if not depth:
            return text[place + (sign == ">") :].strip()
    return ""


def impls_of(text):
    """Yields of each impl and trait where it begins and ends, its type's name, and its trait's name or nothing."""
    for found in IMPL.finditer(text):
        opens = text.index("{", found.end())
        words = " ".join(text[found.start() : opens].split())
        if not words.startswith("impl"):
            owner, trait = words.partition("trait ")[2], ""
        else:
            words = without_angles(words.removeprefix("impl").strip())
            trait, _, owner = (words if " for " in words else f" for {words}").partition(" for ")
        name = re.match(r"(?:&(?:'\w+ )?(?:mut )?)?(?:\w+::)*(\w+)", owner)
        yield found.start(), close_of(text, opens), name[1] if name else "", trait


def comment_above(lines, at):
    """Returns the docstring above a line, which is counted from 0, with attributes passed over."""
    found = []
    while at and re.match(r"\s*(?:///|#\[|\]|\))", lines[at - 1]):
        at -= 1
        if lines[at].lstrip().startswith("///"):
            found.insert(0, lines[at].strip()[3:].strip())
    return " ".join(found)


def functions_of(crate, path, source, text):
    """Yields the functions with a body of a file, from its text and the same text blanked."""
    impls, lines = list(impls_of(text)), source.split("\n")
    for found in HEAD.finditer(text):
        opens = text.index("(", found.end())
        closes = close_of(text, opens)
        clauses, body = after_head(text, closes + 1)
        if body is None:
            continue
        end = close_of(text, body)
        begun = found.start() + len(found[0]) - len(found[0].lstrip())
        first, brace = text.count("\n", 0, begun), text.count("\n", 0, body)
        _, _, owner, trait = max((it for it in impls if it[0] < begun < it[1]), default=(0, 0, "", ""))
        yield Function(
            crate,
            path,
            first + 1,
            found[1],
            owner,
            trait,
            "pub " in found[0],
            'extern "' in found[0],
            comment_above(lines, first),
            [named(it) for it in parts_of(text[opens + 1 : closes])],
            RESULT.match(text, closes + 1)[1].strip(),
            clauses,
            brace - first,
            max(text.count("\n", body, end) - 1, 0),
            text[body + 1 : end],
        )


def types_of(crate, path, text):
    """Yields the types of a file."""
    for found in TYPE.finditer(text):
        rest = re.compile(r"(?:<[^{(;]*>)?[^{(;]*([{(;])").match(text, found.end())
        fields = {}
        if rest and rest[1] in "{(":
            inner = text[rest.end() : close_of(text, rest.end() - 1)]
            for number, it in enumerate(parts_of(re.sub(r"#\[[^\]]*\]", "", inner))):
                name, kind = named(it) if ":" in it and rest[1] == "{" else (str(number), it)
                fields[name] = kind
        line = text.count("\n", 0, found.start(3)) + 1
        yield Type(crate, path, line, found[3], (found[1] or found[2] or "").strip(), fields)


def leaves(text, before=()):
    """Yields of an import's tree the path of each name, as a tuple, and the name that it gets."""
    for part in parts_of(text):
        head, brace, rest = part.partition("{")
        path = (*before, *(it for it in head.strip().split("::") if it))
        if brace:
            yield from leaves(rest[: rest.rindex("}")], path)
            continue
        words = path[-1].split(" as ")
        path = (*path[:-1], words[0].strip())
        if path[-1] == "self":
            path = path[:-1]
        yield path, words[-1].strip() if words[-1].strip() != "self" else path[-1]


def read_file(crate, name, source):
    """Reads a file of code."""
    text = blanked(source)
    found = File(crate, name, source.count("\n"))
    found.functions = list(functions_of(crate, name, source, text))
    found.types = list(types_of(crate, name, text))
    for public, tree in re.findall(r"^(pub(?:\(\w+\))? )?use ([^;]*);", text, re.M):
        for place, alias in leaves(tree):
            found.imports[alias] = place
            if public == "pub ":
                found.gives.add(alias)
    found.gives.update(re.findall(r"^pub mod (\w+)", text, re.M))
    found.conversions = [f"{it[3]} for {it[2]}" for it in impls_of(text) if it[3].startswith("From<")]
    return found


def read_all(root):
    """Reads the code of all crates. Returns the files, and the crates that each crate uses."""
    root, uses, files = Path(root), {}, []
    for line in (root / "crates.txt").read_text(encoding="utf-8").split("\n"):
        found = re.match(r"(\w+)(?: [^:]*)?:(.*)", line)
        if found:
            uses[found[1]] = [it for it in found[2].split() if it.startswith("tt_")]
    for path in sorted(root.glob("crates/*/src/**/*.rt")):
        name = path.relative_to(root)
        files.append(read_file(name.parts[1], str(name), path.read_text(encoding="utf-8")))
    return files, uses
