"""What promises cite, compared with contracts, definitions, laws and wrong bodies.

A section whose heading names crates has promises. Each ends with citations in parentheses, between semicolons. A
citation names calls in backticks, and behind a space their clauses: `run`, `map` `outcome`. It may name laws so, the
first with `laws::`, or types and their methods. With "each call's" all names are clauses, and with "definition" all are
definitions. All are in the crates of the heading, or in those that the citation names. A name in italics is a wrong
body.
"""
import fnmatch
import re
from dataclasses import dataclass, field

import markdown

PAGES = "docs/PROMISES.md", "docs/C_LIBRARY.md", "docs/INSTRUCTIONS.md", "docs/VARIATIONS.md"
# What a citation names: in backticks, in italics as a wrong body, or as the plain name of a crate.
NAME = re.compile(r"`([^`]+)`|\*(\w+)\*|\b(tt_\w+)")
# Where the functions of a type begin, once angle brackets are left out, and where they end.
HOME = re.compile(r"(?:pub )?(?:impl (?:\w+ for )?|trait |struct (?=.*\{))(\w+)|\}")
# A function with its contract, which ends before its body or with its declaration.
CALL = re.compile(r"^ *(pub )?(?:extern \"C\" )?fn (\w+).*?(?=^ *\{|\{\}?$|;$)", re.S | re.M)
# A clause: its name, which may be missing, and the first word of its statement.
CLAUSE = re.compile(r"\bensures (?:(\w+) )?\{ (\w*)")
INVARIANT = re.compile(r"^ *pub ghost (\w+):", re.M)
TYPE = re.compile(r"^ *pub (?:struct|enum|trait) (\w+)", re.M)
DEFINITION = re.compile(r"^(?:unfoldable |abbrev )?(?:pub )?(?:record |data )?(\w+)(?= [:(])", re.M)
RECORD = re.compile(r"^(?:pub )?record (\w+)(.*?)(?=^\S|\Z)", re.S | re.M)


@dataclass
class Crate:
    """What a crate has that promises may cite."""

    types: set = field(default_factory=set)
    # The clauses of each public call, by its name alone and by its type and its name.
    calls: dict = field(default_factory=dict)
    laws: set = field(default_factory=set)
    definitions: set = field(default_factory=set)


def records_of(files):
    """Returns the names of the fields of each record of the definitions."""
    return {
        name: set(re.findall(r"^ +(?:pub )?(\w+) :", body, re.M))
        for file in files
        if file.endswith(".antt")
        for name, body in RECORD.findall(markdown.read(file))
    }


def homes_of(text):
    """Returns where the functions of a type begin in a source, with the type, and where they end, with None."""
    found, at = [], 0
    for line in text.split("\n"):
        bare, before = line, ""
        while bare != before:
            bare, before = re.sub(r"<[^<>]*>", "", bare), bare
        head = HOME.match(bare)
        if head:
            found.append((at, head[1]))
        at += len(line) + 1
    return found


def calls_of(text, records):
    """Yields each public call of a source: its type or None, its name and the names of its clauses.

    A clause that states a record is many: the record's fields. The invariants of a type count as calls of the type.
    """
    homes = homes_of(text)
    for it in [*CALL.finditer(text), *INVARIANT.finditer(text)]:
        home = next((name for at, name in reversed(homes) if at < it.start()), None)
        if it.re is INVARIANT:
            yield home, it[1], set()
        elif it[1] or re.search(rf"\btrait {home}\b", text):
            clauses = CLAUSE.findall(it[0])
            fields = (records.get(first, ()) for _, first in clauses)
            yield home, it[2], {name for name, _ in clauses if name}.union(*fields)


def offers(files):
    """Returns what each crate has, by its name."""
    found, records = {}, records_of(files)
    for file in files:
        crate, text = found.setdefault(file.split("/")[1], Crate()), markdown.read(file)
        if file.endswith(".antt"):
            crate.definitions.update(DEFINITION.findall(text))
            continue
        crate.types.update(TYPE.findall(text))
        for home, name, clauses in calls_of(text, records):
            if file.endswith("/src/laws.rt"):
                crate.laws.add(name)
            for known in (name, f"{home}::{name}"):
                crate.calls.setdefault(known, set()).update(clauses)
    return found


def wrong_bodies():
    """Returns the names of all wrong bodies."""
    files = markdown.tracked("wrong_bodies/*/*.edit", "crates/*/must-fail/*.edit")
    return {it.split("/")[-1].removesuffix(".edit") for it in files}


def promises_of(page, text, crates):
    """Yields the promises of a page: the place, the text on one line, and the names of the crates of its section."""
    section = []
    for block in markdown.blocks(text):
        if block.kind == "heading":
            named = re.findall(r"\btt_\w+\*?", block.text)
            section = [it for name in named for it in fnmatch.filter(crates, name) or [name]]
        elif block.kind == "item" and section:
            yield f"{page}:{block.line}", " ".join(block.text.split()), section


class Citations:
    """Compares citations with what crates have, and keeps the laws that they name."""

    def __init__(self, crates, bodies):
        self.crates, self.bodies, self.laws = crates, bodies, set()

    def lost(self, promise, section):
        """Returns what a promise cites that does not exist, or that it cites nothing."""
        ending = re.search(r"\(([^()]*)\)$", promise)
        if not ending or not NAME.search(ending[1]):
            return [f"cites nothing: {promise[:60]}.."]
        return [f"cites {it}" for one in ending[1].split(";") for it in self.lost_names(one, section)]

    def lost_names(self, citation, section):
        """Returns the names of a citation that do not exist."""
        found = list(NAME.finditer(citation))
        named = [it[3] for it in found if it[3]]
        lost = [f"{it}: no such crate" for it in named or section if it not in self.crates]
        lost += [f"*{it[2]}*: no such wrong body" for it in found if it[2] and it[2] not in self.bodies]
        homes = [it for it in named or section if it in self.crates]
        crates = [self.crates[it] for it in homes]
        names = [it[1] for it in found if it[1]]
        if "definition" in citation:
            known = set().union(*(it.definitions for it in crates))
            return lost + [f"`{it}`: no such definition" for it in names if it not in known]
        if "each call's" in citation:
            known = set().union(*(clauses for it in crates for clauses in it.calls.values()))
            return lost + [f"`{it}`: no such clause" for it in names if it not in known]
        behind = [citation[:it.start()].endswith("` ") for it in found if it[1]]
        first = behind.index(True) if True in behind else len(names)
        calls, clauses = names[:first], names[first:]
        if calls and calls[0].startswith("laws::"):
            laws = [it.removeprefix("laws::") for it in calls]
            calls = [it for it in laws if self.has_law(it, homes, bool(named))]
            lost += [f"`laws::{it}`: no such law" for it in laws if it not in calls]
        return lost + [fault for it in calls for fault in lost_clauses(it, clauses, crates)]

    def has_law(self, law, homes, each):
        """Says whether one of some crates has a law, or each. The law then counts as named in all that have it."""
        having = {(it, law) for it in homes if law in self.crates[it].laws}
        self.laws |= having
        return len(having) == len(homes) if each else bool(having)


def lost_clauses(call, clauses, crates):
    """Returns a call or type that no crate has, or which of its clauses or methods no crate has."""
    if any(call in it.calls for it in crates):
        known = set().union(*(it.calls.get(call, ()) for it in crates))
        return [f"`{it}` of `{call}`: no such clause" for it in clauses if it not in known]
    if any(call in it.types for it in crates):
        known = set().union(*(it.calls for it in crates))
        return [f"`{it}` of `{call}`: no such method" for it in clauses if f"{call}::{it}" not in known]
    return [f"`{call}`: no such call or type"]


def compared(files):
    """Returns what the promises cite that does not exist, and the laws that no promise names."""
    crates = offers(files)
    citations, lost = Citations(crates, wrong_bodies()), []
    for page in PAGES:
        for place, promise, section in promises_of(page, markdown.read(page), crates):
            lost += [f"{place} {it}" for it in citations.lost(promise, section)]
    laws = {(name, law) for name, crate in crates.items() for law in crate.laws}
    return lost, [f"no promise names `laws::{law}` of {name}" for name, law in sorted(laws - citations.laws)]


def overlooked():
    """Returns the wrong citations that pass, and the right ones that do not, by a crate with one of each kind."""
    calls = {"run": {"outcome"}, "new": {"exact"}, "Kept::new": {"exact"}, "stay": {"whole"}}
    citations = Citations({"tt_one": Crate({"Kept"}, calls, {"stay"}, {"shown"})}, {"always_white"})
    right = (
        *("`run`", "`run` `outcome`", "`run`, `run` `outcome`", "`Kept`", "`Kept` `new`", "`Kept::new` `exact`"),
        *("each call's `outcome`, `exact`", "`laws::stay`", "tt_one `laws::stay`", "definition `shown`"),
        *("`laws::stay` `whole`", "*always_white*", "`run` `outcome`; `laws::stay`, `stay`; *always_white*"),
    )
    wrong = (
        *("", "as there", "`runs`", "`run` `exact`", "`runs`, `run` `outcome`", "`run`, `outcome`", "`Kept` `outcome`"),
        *("`Kept::old`", "each call's `run`", "`laws::run`", "`laws::stay`, `run`", "definition `run`", "*outcome*"),
        *("`laws::stay` `outcome`", "tt_two `run`", "tt_one, tt_two `laws::stay`", "`run` `outcome`; `runs`"),
        "`run`) and (then",
    )
    lost = {it: citations.lost(f"Text. ({it})", ["tt_one"]) for it in right + wrong}
    passing = [f"({it}) passes" for it in wrong if not lost[it]]
    return passing + [f"({it}) {'; '.join(lost[it])}" for it in right if lost[it]]
