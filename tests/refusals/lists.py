"""The lists of refusals, each read from its file, and compared with the enums of tt_core.

Each function here returns what is wrong, as lines. `known` is the table of all refusals; `read` gives a file's text.
"""
import re
from dataclasses import dataclass, field

ENUMS = "crates/tt_core/src/fault.rt"
DEFINED = "crates/tt_core/specs/Faults.antt"
OF_CALLS, OF_CALLS_DEFINED = "crates/tt_c_calls/src/answer.rt", "crates/tt_c_calls/specs/Answers.antt"
MESSAGES, MESSAGES_DEFINED = "crates/tt_c_calls/src/messages.rt", "crates/tt_c_calls/specs/Messages.antt"
OF_ENTRIES, OF_ENTRIES_DEFINED = "crates/tt_c_calls/src/glyph_bitmaps.rt", "crates/tt_c_calls/specs/Bitmaps.antt"
BOUNDS, BOUNDS_DEFINED = "crates/tt_fit/src/fallback.rt", "crates/tt_fit/specs/Fallback.antt"
SPACES, SPACES_DEFINED = "crates/tt_render_texts/src/space_fault.rt", "crates/tt_render_texts/specs/TextsMessages.antt"
HEADER, PAGE = "include/tt_render.h", "tt_render.1"
CASES = "tests/rows/cases.txt"

# The files that a list is in. Where one moves, its name here moves with it.
FILES = (
    *(ENUMS, DEFINED, OF_CALLS, OF_CALLS_DEFINED, MESSAGES, MESSAGES_DEFINED, BOUNDS, BOUNDS_DEFINED),
    *(OF_ENTRIES, OF_ENTRIES_DEFINED, SPACES, SPACES_DEFINED, HEADER, PAGE, CASES, "README.md"),
)
# This refusal names the table that is not there.
OF_ANY_TABLE = "NoTable"
# The refusals that only a call of C gives, wherever they have their numbers.
OF_C_ALONE = ("UnknownFit", "LineEnds", "UnknownAlign", "AxesMany")
# The refusals of fonts whose instances no command draws yet, so that no case can meet them.
OF_NO_COMMAND = ("VariationShape", "NoAxis", "NoInstance", "GlyphVariation")
# The refusals that have no case in tests/rows, and where their cases are.
ELSEWHERE = {
    "WorkLarge": "tests/work/hostile_fonts.py",
    **dict.fromkeys(OF_C_ALONE, "tests/c/edges.c"),
    "GlyphNumber": "tests/glyph_sets/cases.txt",
    "WidthRange": "tests/printers/width.txt",
    **dict.fromkeys(("BoxRange", "BoxSmall"), "tests/printers/box.txt"),
    **dict.fromkeys(("CollectionVersion", "NoFace"), "tests/faces/rows.txt"),
}


@dataclass
class Known:
    """The refusals by name: of the font's tables, of its programs, of a request, of the space of a label, of calls of C
    alone, and of entries of lists of glyphs."""

    font: dict = field(default_factory=dict)
    programs: dict = field(default_factory=dict)
    request: dict = field(default_factory=dict)
    spaces: dict = field(default_factory=dict)
    calls: dict = field(default_factory=dict)
    entries: dict = field(default_factory=dict)
    enums: dict = field(default_factory=dict)

    def all(self):
        """Returns the numbers of all of them."""
        return {**self.font, **self.programs, **self.request, **self.spaces, **self.calls, **self.entries}

    def of_header(self):
        """Returns the numbers of those that a call of C gives."""
        return {it: number for it, number in self.all().items() if it not in self.spaces or it in self.calls}

    def of_files(self):
        """Returns the numbers of those of a font."""
        return {**self.font, **self.programs}


def bounds(read):
    """Returns the first and the last number of a program's refusal."""
    body = re.search(r"fn is_program_fault.*?\n}", read(BOUNDS), re.S)[0]
    numbers = sorted(int(it) for it in re.findall(r"\b\d+\b", body))
    return numbers[0], numbers[-1]


def table(read):
    """Reads the table of all refusals: the lists of tt_core, and the numbers that answers of C have besides."""
    known, (low, high) = Known(), bounds(read)
    for name, text in re.findall(r"^ +\$of, (\w+),\n((?: +\d+ \w+,\n)+)", read(ENUMS), re.M):
        known.enums[name] = {it: int(number) for number, it in re.findall(r"(\d+) (\w+),", text)}
    for it, number in known.enums["Why"].items():
        (known.programs if low <= number <= high else known.font)[it] = number
    for name, numbers in known.enums.items():
        if name != "Why":
            known.request.update(numbers)
    known.spaces = {it: int(number) for it, number in re.findall(r"SpaceFault::(\w+) => (\d+),", read(SPACES))}
    for it, number in re.findall(r"CallFault::(\w+) => plain\(\d, (\d+)\)", read(OF_CALLS)):
        if int(number) and it not in known.request:
            known.calls[it] = int(number)
    for it, number in re.findall(r"^const (\w+): u32 = (\d+);$", read(OF_ENTRIES), re.M):
        known.entries[titled(it)] = int(number)
    return known


def titled(name):
    """Returns the name of a refusal by one whose words have lines between them."""
    return "".join(it.title() for it in name.split("_"))


def compared(found, wanted, order=False):
    """Compares the numbers of a list, as pairs of a number and a name, with the wanted ones."""
    names, faults = dict(map(reversed, found)), []
    faults += [f"it lacks {number} {name}" for name, number in wanted.items() if name not in names]
    for number, name in found:
        if wanted.get(name) != number:
            faults.append(f"it has {number} {name}, and the number in the table is {wanted.get(name)}")
    if len(found) != len(names):
        faults.append("it has a name twice")
    if order and [it for it, _ in found] != sorted(it for it, _ in found):
        faults.append("its numbers do not rise")
    return faults


def pairs(pattern, text):
    """Returns the numbers and names that a pattern with the groups `n` and `name` finds."""
    return [(int(it["n"]), it["name"]) for it in re.finditer(pattern, text, re.M)]


def numbers_of_enums(known):
    """No number and no name may stand twice, in whichever enum."""
    seen, faults = {}, []
    every = [*known.enums.values(), known.spaces, known.calls, known.entries]
    for name, number in [it for numbers in every for it in numbers.items()]:
        if seen.get(number, name) != name or number in seen and name not in known.spaces:
            faults.append(f"{number} is {seen[number]} and {name}")
        seen[number] = name
    if len(set(seen.values())) != len(seen):
        faults.append("a name has two numbers")
    return faults


def variants_of_enums(known, read):
    """Each enum has exactly the variants of its list, in the same order."""
    faults = []
    for kind, numbers in known.enums.items():
        text = re.search(rf"^pub enum {kind} \{{(.*?)\n\}}", read(ENUMS), re.S | re.M)[1]
        variants = re.findall(r"^ +(\w+),$", text, re.M)
        faults += [f"{kind} lacks the variant {it}" for it in numbers if it not in variants]
        faults += [f"the list of {kind} lacks {it}" for it in variants if it not in numbers]
        if not faults and variants != list(numbers):
            faults.append(f"{kind} and its list are in different orders")
    return faults


def definitions(known, read):
    """Numbers and names of Faults.antt, and the refusals by their numbers there."""
    text, wanted = read(DEFINED), {it: number for of in known.enums.values() for it, number in of.items()}
    rows = re.findall(r"^\w+_in_messages \w+\.(\w+) = numbered (\d+) \(codes \"(\w+)\"\)$", text, re.M)
    faults = compared([(int(number), it) for it, number, _ in rows], wanted)
    faults += [f"{it} has the name {other}" for it, _, other in rows if it != other]
    by_number = pairs(r"\bif n == (?P<n>\d+) then Some \w+\.(?P<name>\w+)$", text)
    return faults + [f"by number: {it}" for it in compared(by_number, wanted)]


def header(known, read):
    """The table of the header."""
    text = read(HEADER)
    found = pairs(r"^ +X\((?P<n>\d+), (?P<name>\w+)\)", text[text.index("#define TT_REFUSALS") :])
    return compared(found, known.of_header(), order=True)


def spaces_defined(known, read):
    """The numbers and names of the refusals of a label's space in the definition."""
    text = read(SPACES_DEFINED)
    names = re.findall(r"^space_name space\.(\w+) = codes \"(\w+)\"$", text, re.M)
    faults = [f"{it} has the name {other}" for it, other in names if it != other]
    return faults + compared(pairs(r"^space_number space\.(?P<name>\w+) = (?P<n>\d+)$", text), known.spaces)


def page(known, read):
    """The three lists of the page of the manual."""
    text, faults = read(PAGE), []
    text = text[text.index("\n.SH REFUSALS") :]
    text = text[: text.index("\n.SH ", 1)]
    parts = dict(re.findall(r"^\.SS ([^\n]*)\n(.*?)(?=^\.SS|\Z)", text, re.S | re.M))
    wanted = {
        "Of a font": known.font,
        "Of a request": {
            it: number
            for it, number in {**known.request, **known.spaces}.items()
            if it not in (*OF_C_ALONE, *OF_NO_COMMAND)
        },
        "Of the font's programs": known.programs,
    }
    if parts.keys() != wanted.keys():
        faults.append(f"its lists are {', '.join(parts)}")
    for name in wanted.keys() & parts.keys():
        found = pairs(r"^\.B \"?(?:\\ )?(?P<n>\d+) (?P<name>\w+)\"?$", parts[name])
        faults += [f"{name}: {it}" for it in compared(found, wanted[name], order=True)]
    return faults


def messages_of_calls(known, read, code):
    """The messages of what the calls and entries alone refuse, in code or in the definition."""
    case = r"^ +(\d+) => String\S+\(alloc, " if code else r"if a\.number == (\d+) then codes "
    own = re.findall(case + r"\"tt_render: (\d+) (\w+)\"", read(MESSAGES if code else MESSAGES_DEFINED), re.M)
    faults = [f"at {at} it has the text {number} {name}" for at, number, name in own if at != number]
    return faults + compared([(int(number), name) for _, number, name in own], {**known.calls, **known.entries})


def answers_defined(known, read):
    """The numbers that answers of calls, and entries, have in the definition."""
    found = pairs(r"^call_answer call\.(?P<name>\w+) = plain_answer 2 (?P<n>\d+)$", read(OF_CALLS_DEFINED))
    refusals = re.findall(r"^refusal_answer (\w+) = plain_answer 2 (\d+)$", read(OF_CALLS_DEFINED), re.M)
    other = [(int(number), titled(name)) for name, number in refusals]
    unknown = found_in({"": read(OF_ENTRIES_DEFINED)}, r"^bitmap_by e told\.Unknown = empty_bitmap e 2 (\d+)$")
    faults = [] if unknown == {str(it) for it in known.entries.values()} else [f"an entry has {unknown}"]
    return faults + compared(found, known.calls) + compared(other, known.calls)


def bounds_defined(read):
    """The bounds of a program's refusals in the definition."""
    line = re.search(r"^is_program_fault fault = (.*)$", read(BOUNDS_DEFINED), re.M)[1]
    found = sorted(int(it) for it in re.findall(r"\b\d+\b", line))
    return [] if (found[0], found[-1]) == bounds(read) else [f"it has {found}, and {BOUNDS} {bounds(read)}"]


def asked(known, asking):
    """The lists of the judge of answers: numbers, names, and which may come for which question."""
    found = [(number, name) for number, (name, _) in asking.REFUSALS.items()]
    faults = compared(found, known.of_files())
    for name, got, wanted in (
        ("OF_PROGRAMS", asking.OF_PROGRAMS, known.programs),
        ("NUMBERS of none", asking.NUMBERS["none"], known.font),
        ("NUMBERS of full", asking.NUMBERS["full"], known.of_files()),
    ):
        if sorted(got) != sorted(wanted.values()):
            faults.append(f"{name} are {sorted(got)}, and not {sorted(wanted.values())}")
    return faults


def tables_by_name(sources):
    """Returns for each name the places that refuse with it, with the tables whose tags the place's file names.

    Where it names none, the tags are those of its crate and of this crate's inner ones. The lists of names are no such
    place.
    """
    tags, of_crates, found = {}, {}, {}
    for path, text in sources.items():
        tags[path] = set(re.findall(r"\bconst \w+: \[u8; 4\] = \*b\"(.{4})\"", text))
        # A fault by another crate's function for the table.
        tags[path] |= {"glyf"} if "glyf_fault(" in text else set()
        of_crates.setdefault(path.split("/")[1], set()).update(tags[path])
    for path, text in sources.items():
        crate = path.split("/")[1]
        around = set().union(*(of_crates[it] for it in of_crates if it == crate or it.startswith(f"{crate}_")))
        for name in re.findall(r"\bWhy::(\w+)", text) if path != ENUMS else ():
            found.setdefault(name, {})[path] = tags[path] or around
    return found


def tables(known, asking, sources):
    """The tables at which the judge lets a refusal stand are those of the code that refuses so."""
    by_name, faults = tables_by_name(sources), []
    for number, (name, places) in asking.REFUSALS.items():
        its, places = by_name.get(name, {}), set(places)
        if not its:
            faults.append(f"no code refuses with {number} {name}")
        if name in known.programs and places != set(asking.PROGRAMS):
            faults.append(f"{number} {name} may stand at {', '.join(sorted(places))}, and not at all programs")
        if name not in known.font or name == OF_ANY_TABLE:
            continue
        here = [path for path, tags in its.items() if not tags & places]
        faults += [f"{it} refuses with {number} {name}, and at none of {', '.join(sorted(places))}" for it in here]
        others = sorted(places - set().union(*its.values()))
        faults += [f"{number} {name} may stand at {', '.join(others)}, and no code refuses so there"] if others else []
    return faults


def not_of_best(known, asking, make_rows, read):
    """Three lists of the programs' refusals that do not occur with best: two of tests, and the page's."""
    names = {number: name for name, number in known.programs.items()}
    wanted = [f"{number} {names.get(number)}" for number in asking.NOT_OF_BEST]
    faults = [] if list(make_rows) == wanted else [f"tests/rows/make_rows.py has {list(make_rows)}, and not {wanted}"]
    line = re.search(r"^(\d[\d, a-z]*) do not occur with$", read(PAGE), re.M)
    told = []
    for first, last in re.findall(r"(\d+)(?: to (\d+))?", line[1] if line else ""):
        told += range(int(first), int(last or first) + 1)
    return faults + ([] if told == list(asking.NOT_OF_BEST) else [f"{PAGE} has {told}, and not {asking.NOT_OF_BEST}"])


def cases(known, read, machine):
    """Each refusal has a case: of a font and a request in the rows, of a program in the machine's too."""
    rows, faults = read(CASES), []
    for name, number in known.all().items():
        if name in OF_NO_COMMAND:
            continue
        where = ELSEWHERE.get(name, CASES)
        pattern = rf"\b{number}\b" if where.endswith((".c", "glyph_sets/cases.txt")) else rf"\b{number} {name}\b"
        if not re.search(pattern, rows if where == CASES else read(where)):
            faults.append(f"{where} has no case of {number} {name}")
    for name, number in known.programs.items():
        if not re.search(rf"\+\d+: {number} {name}$", machine, re.M):
            faults.append(f"the tables of tests/machine have no run with {number} {name}")
    return faults


def statuses(read, code, defined):
    """The statuses of a refused font and of a refused request, in all code, in all definitions, and in their lists."""
    places = (
        (OF_CALLS, r"plain\((\d), u32::from\(fault\.why", r"plain\((\d), (?:u32::from\(fault\.number|[1-9])"),
        (OF_CALLS_DEFINED, r"plain_answer (\d) \(why_number", r"plain_answer (\d) (?:\(job_number|[1-9])"),
        (HEADER, r"TT_FONT = (\d)", r"TT_JOB = (\d)"),
        (PAGE, r"\.B (\d)\nThe font is refused:", r"\.B (\d)\n(?:(?!\.TP).*\n)*Or the request is refused:"),
        ("README.md", r"\| (\d) \| the font is", r"\| (\d) \| wrong command line or request"),
        (CASES, r"^refused (\d) tt_render: \w+\+", r"^refused (\d) tt_render: \d"),
    )
    found = {
        "code": [found_in(code, r"::Font\(_\) => (\d)\b"), found_in(code, r"::Job\(_\)[^=\n]* => (\d)\b")],
        "definitions": [found_in(defined, rf"^\w*status_of \(\w+\.{it} \w+\) = (\d)$") for it in ("Font", "Job")],
    }
    for path, *patterns in places:
        found[path] = [found_in({path: read(path)}, it) for it in patterns]
    wanted = found["code"]
    faults = [] if [len(it) for it in wanted] == [1, 1] else [f"the code has the statuses {wanted}"]
    for path, statuses_here in found.items():
        if statuses_here != wanted:
            faults.append(f"{path}: the statuses are {statuses_here} for a font and a request, and not {wanted}")
    return faults


def found_in(texts, pattern):
    """Returns what a pattern finds in some texts."""
    return {it for text in texts.values() for it in re.findall(pattern, text, re.M)}


def mentions(known, texts):
    """A number and a name behind it go together, wherever they are written."""
    numbers, faults = known.all(), []
    line = re.compile(r"tt_render: (?:line \d+: |glyph \d+ unfitted: )*(?:[a-z]{4}\+\d+: )?(\d+) ([A-Z]\w+)")
    for path, text in texts.items():
        for number, name in re.findall(r"(?<![\w.,+*])(\d{1,2}) ([A-Z][A-Za-z]+)\b", text):
            if name in numbers and numbers[name] != int(number):
                faults.append(f"{path} has {number} {name}")
        for number, name in set(line.findall(text)):
            if name not in numbers:
                faults.append(f"{path} has {number} {name}, which is no refusal")
    return faults
