"""What the verdicts on a crate's wrong bodies rest on, as a sum, and the file VERDICTS, which keeps the sums.

Nothing here needs the toolchain.
"""
import contextlib
import fcntl
import functools
import hashlib
import os
import re
import shutil
import subprocess

from texts import RT_WORD, bare_lines, bare_text, without_bodies

HEAD = """\
# The verdicts of tests/wrong_bodies/run: of each crate a sum of what they rest on, how many edits are refused, and how
# many of these by names only. `tests/wrong_bodies/run --stale` names the crates whose sum is another now.
"""


def crates_of(root):
    """Returns by the name of each crate its line of crates.txt, and the crates of the repository that it uses."""
    lines = [line.partition("#")[0].split() for line in (root / "crates.txt").read_text().splitlines()]
    words = {line[0].rstrip(":"): " ".join(line) for line in lines if line}
    return {name: (line, [it for it in line.partition(":")[2].split() if it in words]) for name, line in words.items()}


def below(crates, name):
    """Returns the names of all crates that a crate stands on, in order of their names."""
    found, waiting = set(), [*crates[name][1]]
    while waiting:
        one = waiting.pop()
        if one not in found:
            found.add(one)
            waiting += crates[one][1]
    return sorted(found)


def edits_of(root, name):
    """Returns the paths of a crate's wrong bodies, in both folders."""
    folders = [root / "crates" / name / "must-fail", root / "wrong_bodies" / name]
    return [path for folder in folders for path in sorted(folder.glob("*.edit"))]


def crates_with_edits(root):
    """Returns the names of the crates that have wrong bodies, as crates.txt orders them."""
    return [name for name in crates_of(root) if edits_of(root, name)]


@functools.lru_cache(maxsize=None)
def texts_of(folder, part):
    """Returns the .rt and .antt files of a part of a crate: the path of each and its lines without comments."""
    paths = sorted(path for path in (folder / part).rglob("*") if path.suffix in (".rt", ".antt"))
    return [(str(path.relative_to(folder)), bare_lines(path)) for path in paths]


# The files in which tt_core defines the limits of the project, and the names that a line there defines.
LIMITS = ("src/limits.rt", "specs/Limits.antt")
LIMIT = re.compile(r"(?:pub const (\w+): |abbrev pub (\w+) : |(\w+) = \d)")


def words_in(lines):
    """Returns the words of some lines, but not of a `pub use limits::` and its names: that hands a name on, and no more."""
    words, is_handing = set(), False
    for line in lines:
        is_handing = is_handing or line.startswith("pub use limits::")
        if not is_handing:
            words.update(re.findall(r"\w+", line))
        is_handing = is_handing and not line.endswith(";")
    return words


@functools.lru_cache(maxsize=None)
def public_parts(folder):
    """Returns what a check of another crate reads of a crate: a sum of its contracts, types and definitions, their words,
    and the limits, which are apart: by the name of each its lines.

    A check reads no body of a function below and no proof, so neither is taken. A changed body below makes no verdict
    stale: the contract is what the crates above were judged by.
    """
    texts = [(path, without_bodies(lines)) for path, lines in texts_of(folder, "src")] + texts_of(folder, "specs")
    limits, rest, words = {}, [], set()
    for path, lines in texts:
        names = [LIMIT.match(line) if path in LIMITS else None for line in lines]
        for line, name in zip(lines, names):
            if name:
                limits.setdefault(name[1] or name[2] or name[3], []).append(line)
        others = [line for line, name in zip(lines, names) if not name]
        rest.append((path, others))
        words |= words_in(others)
    return hashlib.sha256(repr(rest).encode()).hexdigest(), words, limits


def forget():
    """Forgets the texts that were read, so that a later sum is of what is there then."""
    texts_of.cache_clear()
    public_parts.cache_clear()


def edit_lines(path):
    """Returns the lines of an edit that are read, without comments: an edit may put code where a comment is."""
    lines = path.read_text(encoding="utf-8").split("\n")
    return [bare_text(line, RT_WORD).rstrip() for line in lines if line.startswith(("file: ", "old: ", "new:"))]


def sum_of(root, name, toolchain):
    """Returns the sum of what the verdicts on a crate rest on.

    It is taken over the toolchain, the crate's line of crates.txt, its texts, its edits by their names in whichever
    folder they are, and of each crate below its line and what public_parts takes. A limit counts where the crate or one
    below names it: no check of another crate can depend on its value.
    """
    crates = crates_of(root)
    own = [texts_of(root / "crates" / name, part) for part in ("src", "specs", "proofs")]
    edits = sorted((path.name, edit_lines(path)) for path in edits_of(root, name))
    parts = [(crates[it][0], *public_parts(root / "crates" / it)) for it in below(crates, name)]
    named = words_in([line for part in own for _, lines in part for line in lines])
    named |= words_in([line for _, lines in edits for line in lines])
    named = named.union(*(words for _, _, words, _ in parts))
    under = [(line, rest, sorted(it for it in limits.items() if it[0] in named)) for line, rest, _, limits in parts]
    return hashlib.sha256(repr([toolchain, crates[name][0], own, edits, under]).encode()).hexdigest()


def toolchain_of(root):
    """Returns the name of the toolchain here, or where there is none, of the one that the verdicts were made with."""
    if shutil.which("rt"):
        return subprocess.run(["rt", "version"], capture_output=True, text=True, check=True).stdout.strip()
    return read_verdicts(root)[0]


def read_verdicts(root):
    """Returns what VERDICTS says: the toolchain, and the rest of each crate's line by the crate's name."""
    path = root / "wrong_bodies" / "VERDICTS"
    lines = path.read_text().splitlines() if path.is_file() else []
    said = dict(line.split(" ", 1) for line in lines if line and not line.startswith("#"))
    return said.pop("toolchain", ""), said


def judged_elsewhere(root):
    """Returns the toolchain that the verdicts were made with, where the one here is another; else None."""
    was = read_verdicts(root)[0]
    return was if was and was != toolchain_of(root) else None


def stale_crates(root):
    """Returns the crates whose recorded sum is not that of what is here, and recorded ones that have no edits now.

    A verdict stays that of its toolchain, so another toolchain makes none stale.
    """
    toolchain, said = read_verdicts(root)
    names = crates_with_edits(root)
    changed = [it for it in names if said.get(it, "").split(" ")[0] != sum_of(root, it, toolchain)]
    return [*changed, *sorted(set(said) - set(names))]


@contextlib.contextmanager
def alone(folder):
    """Holds the folder's lock, so that processes side by side write one after the other."""
    held = os.open(folder, os.O_RDONLY)
    try:
        fcntl.flock(held, fcntl.LOCK_EX)
        yield
    finally:
        os.close(held)


def record(root, name, toolchain, line):
    """Puts a crate's line into VERDICTS. Lines of another toolchain, or of crates without edits, are removed."""
    folder = root / "wrong_bodies"
    with alone(folder):
        was, said = read_verdicts(root)
        said = {it: rest for it, rest in said.items() if was == toolchain and edits_of(root, it)}
        said[name] = line
        lines = [f"toolchain {toolchain}", *(f"{it} {said[it]}" for it in sorted(said))]
        new = folder / "VERDICTS.new"
        new.write_text(HEAD + "\n".join(lines) + "\n")
        new.replace(folder / "VERDICTS")
