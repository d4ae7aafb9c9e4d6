"""Judges the wrong bodies of a crate: the prover must refuse each.

An edit that changes lines in the bodies of functions alone goes into a batch with edits of other functions, which one
check judges. No such edit changes a contract, so whether a function meets its own contract does not depend on the other
edits. What a batch leaves open is tried alone, by the functions of `rt must-fail`: an edit outside of bodies, one whose
function is proved, one that does not compile. A function that only calls another one that is not proved goes into a
later batch.

Each check begins with what a check of the crate as it is has proved, the seed. `rt` is loaded as a module, so each word
of a check is the gate's.
"""
import importlib.machinery
import importlib.util
import os
import re
import shutil
import sys
import tempfile
import time
from concurrent.futures import ThreadPoolExecutor

from functions import functions_of
from sums import edits_of

REFUSED, NAMES, LIMIT = "refused", "refused by names only", "refused by a limit"
PROVED, LOST, BAD, UNTRIED = "PROVED", "does not apply", "bad edit", "not tried"

# A line of the prover about a place.
PLACE = re.compile(r"(?:note: )?(?:\./)?((?:src|specs|proofs)/\S+?):(\d+):\d+:")

# Such a line that is only about a name that the edit took away.
NAMES_ONLY = re.compile(r"(note: )?(\./)?proofs/.*(has no field|is not in scope|has no `|was not admitted)")


def load_rt():
    """Loads the script `rt` of the PATH as a module, which shares kept work with other checkouts as `rt` does."""
    path = os.path.realpath(shutil.which("rt") or sys.exit("wrong_bodies: there is no rt on the PATH"))
    loader = importlib.machinery.SourceFileLoader("rt", path)
    made = importlib.util.module_from_spec(importlib.util.spec_from_loader("rt", loader))
    loader.exec_module(made)
    os.environ.pop(made.rtlib.ALLOW_C, None)
    if not all(hasattr(made, it) for it in ("share_work", "seeded", "Kept")):
        sys.exit("wrong_bodies: this toolchain keeps no proof to begin from, so nothing is judged")
    made.rtlib.guarded()
    made.share_work(False)
    return made


def take_kept(rt, crates):
    """Gives some crates, each after those that it uses, the libraries that `rt ci` has kept on this machine.

    An entry is named by a sum of the toolchain, of a crate's text and of the libraries below as they are here, and its
    files are compared with sums of their own: so it is the library that a proof of this text made. From the first crate
    on that has no entry, all are proved here.
    """
    kept = rt.Kept(crates)
    for it in crates:
        if not it.is_built():
            shutil.rmtree(f"{it.folder}/out/rlib", ignore_errors=True)
            if not kept.give(it, False, kept.key(it)):
                return
            with open(f"{it.folder}/out/rlib/stamp", "w", encoding="utf-8") as stamp:
                stamp.write(it.stamp())
        kept.is_built(it)


class Edit:
    """An edit: the lines that it changes, and the functions whose bodies they are in. It is alone if one is in none."""

    def __init__(self, rt, path, folder, files, functions):
        self.path, self.name = str(path), path.name
        self.verdict, self.why, self.seconds = "", "", 0.0
        self.lines, self.functions, self.is_alone = {}, set(), False
        texts, why = rt.read_edit(self.path, folder)
        if why:
            self.settle(UNTRIED if why.startswith(rt.UNREAD) else LOST, why)
            return
        for file, text in texts.items():
            self.add(file, files.get(file), text.split("\n"), functions)

    def add(self, file, was, now, functions):
        """Adds the lines of a file that the edit changes."""
        self.is_alone |= was is None or len(was) != len(now)
        for at in (n for n, (one, other) in enumerate(zip(was or now, now)) if one != other):
            inside = [it for it in functions if it.has_in_body(file, at)]
            self.lines[file, at] = now[at]
            self.is_alone |= not inside
            self.functions.update(inside)

    def settle(self, verdict, why):
        """Gives the edit its verdict, and says so."""
        self.verdict, self.why = verdict, why


def packed(edits, least):
    """Packs edits into batches, at least so many where there are enough edits: no batch has two of one function.

    The function with the most edits says how many batches there have to be. Each edit goes where the fewest are.
    """
    batches = [[] for _ in range(min(least, len(edits)))]
    number = {}
    for function in (it for edit in edits for it in edit.functions):
        number[function] = number.get(function, 0) + 1
    for edit in sorted(edits, key=lambda it: -max(number[function] for function in it.functions)):
        free = [batch for batch in batches if not any(edit.functions & other.functions for other in batch)]
        if not free:
            free = [[]]
            batches += free
        min(free, key=len).append(edit)
    return batches


def lines_about(rt, function, said):
    """Returns the errors and notes about a function and its proof, or None where a text could not be read."""
    found = []
    for line in said:
        place = PLACE.match(line)
        if not place or not (": error" in line or line.startswith("note: ")):
            continue
        file, at = place[1], int(place[2]) - 1
        if function.has(file, at) and rt.unread(line, [function.file]):
            return None
        if function.has(file, at) or file.startswith(function.proofs):
            found.append(line)
    return found


def verdict_of(rt, edit, said, outcomes):
    """Returns the verdict on an edit of a batch and the prover's words, or nothing where that is open.

    `said` are the prover's lines, and `outcomes` what it says of each function in its line `fn PATH: ..`.
    """
    about, words = [], ""
    for function in edit.functions:
        outcome = outcomes.get(function.path, "could not tell")
        lines = lines_about(rt, function, said)
        if lines is None or outcome.startswith("could not tell"):
            return "", ""
        about += lines
        words = words or (outcome if "did not prove" in outcome else "")
    if all(outcomes[it.path].startswith("proved") for it in edit.functions):
        return "", ""
    real = next((it for it in about if not NAMES_ONLY.match(it)), words)
    return (REFUSED, real) if real else (NAMES, about[0]) if about else ("", "")


class Judge:
    """The trial of one crate's edits, over what its own proof left."""

    def __init__(self, rt, root, crate, jobs, logs=None):
        self.rt, self.crate, self.jobs, self.logs = rt, crate, jobs, logs
        paths = sorted((root / "crates" / crate.name / "src").rglob("*.rt"))
        self.files = {str(it.relative_to(crate.folder)): it.read_text(encoding="utf-8").split("\n") for it in paths}
        functions = functions_of(crate.name, self.files)
        self.edits = [Edit(rt, it, crate.folder, self.files, functions) for it in edits_of(root, crate.name)]
        self.checks, self.seed = 0, None

    def over_seed(self, call):
        """Calls with a copy of the seed, by links. What the call leaves in the copy is removed."""
        over = tempfile.mkdtemp(dir=self.seed)
        try:
            self.rt.linked(f"{self.seed}/seed", f"{over}/kept")
            self.checks += 1
            return call(f"{over}/kept")
        finally:
            shutil.rmtree(over, ignore_errors=True)

    def try_alone(self, edit):
        """Tries one edit as `rt must-fail` does: over the seed, and from nothing where it is still proved there."""
        rt, began = self.rt, time.monotonic()
        kind, said = self.over_seed(lambda kept: rt.must_fail(self.crate, edit.path, ["--jobs", "1"], kept))
        if kind not in rt.SETTLED:
            self.checks += 1
            whole = rt.must_fail(self.crate, edit.path, ["--jobs", "1"])
            kind, said = (kind, said) if whole[0] == rt.UNSURE and kind == rt.MISSED else whole
        names = {rt.REFUSED: REFUSED, rt.AT_LIMIT: LIMIT, rt.BAD: BAD, rt.MISSED: PROVED}
        verdict = NAMES if "only because a proof file names" in said else names.get(kind, UNTRIED)
        edit.settle(verdict, " ".join(said.partition(": ")[2].split("\n")[:2]))
        edit.seconds += time.monotonic() - began

    def edited_texts(self, edits):
        """Returns the texts of the files that the edits change, with all of their lines."""
        texts = {}
        for (file, at), line in ((key, line) for it in edits for key, line in it.lines.items()):
            texts.setdefault(file, [*self.files[file]])[at] = line
        return {file: "\n".join(lines) for file, lines in texts.items()}

    def log(self, edits, said):
        """Writes what the prover said of a batch, where a folder for that is named."""
        if self.logs:
            where = {"dir": self.logs, "prefix": f"{self.crate.name}-", "suffix": ".log", "delete": False}
            with tempfile.NamedTemporaryFile("w", **where) as it:
                it.write("\n".join([*("edit: " + one.name for one in edits), said]))

    def parts_of(self, edits, said):
        """Returns the batches to check in place of one that did not reach the prover.

        That is the batch without the edits in whose functions an error is, or else its halves.
        """
        places = [(it[1], int(it[2]) - 1) for it in map(PLACE.match, (it for it in said if ": error" in it)) if it]
        rest = [it for it in edits if not any(one.has(*place) for one in it.functions for place in places)]
        if len(rest) < len(edits):
            return [rest] if rest else []
        return [edits[::2], edits[1::2]] if len(edits) > 1 else []

    def try_batch(self, edits, jobs):
        """Tries edits of different functions by one check, and settles those that it decides.

        Returns those that only wait for a function that they call. The others that are open have to be tried alone.
        """
        rt, began, texts = self.rt, time.monotonic(), self.edited_texts(edits)
        ran = self.over_seed(lambda kept: rt.checked(self.crate, texts, ["--jobs", str(jobs)], kept))
        said = ran.stdout.split("\n")
        self.log(edits, ran.stdout)
        outcomes = dict(re.findall(r"^fn (\S+?): (.*)$", ran.stdout, re.M))
        if rt.rtlib.STALE.search(ran.stdout) or ran.returncode not in (0, 1, 3) or not outcomes:
            parts = self.parts_of(edits, said)
            return [one for part in parts for one in self.try_batch(part, jobs)]
        waiting = []
        for it in edits:
            it.settle(*verdict_of(rt, it, said, outcomes))
            it.seconds += (time.monotonic() - began) / len(edits)
            calls = any("it calls" in outcomes.get(function.path, "") for function in it.functions)
            if not it.verdict and len(edits) > 1 and calls:
                waiting.append(it)
        return waiting

    def prove(self):
        """Proves the crates below, or takes them where `rt ci` has proved them, and the crate itself, and keeps the seed.

        Returns whether all are proved.
        """
        flags = ["--jobs", str(self.jobs)]
        take_kept(self.rt, self.crate.below())
        if any(it.build_rlib(flags, anew=False) for it in self.crate.below()):
            return False
        self.seed = self.rt.seeded(self.crate, flags, self.rt.work_for(self.crate))
        return self.seed is not None

    def try_all(self, one_by_one):
        """Gives each edit its verdict: first by batches, until no check decides more, and then alone."""
        # (the first calls go one after the other: rt asks some things once, and remembers them)
        with ThreadPoolExecutor(self.jobs) as pool:
            waiting = [] if one_by_one else [it for it in self.edits if not it.verdict and not it.is_alone]
            while waiting:
                batches = packed(waiting, self.jobs)
                each = max(1, self.jobs // len(batches))
                after = [it for one in pool.map(lambda it: self.try_batch(it, each), batches) for it in one]
                waiting = after if len(after) < len(waiting) else []
            list(pool.map(self.try_alone, [it for it in self.edits if not it.verdict]))

    def run(self, one_by_one):
        """Judges all edits, and returns the seconds of the crate's own proof, or None where that fails."""
        began = time.monotonic()
        if not self.prove():
            return None
        proof, before = time.monotonic() - began, self.rt.listing(f"{self.seed}/seed")
        self.try_all(one_by_one)
        if self.rt.listing(f"{self.seed}/seed") != before:
            sys.exit(f"wrong_bodies: {self.crate.name}: a check changed the seed, so its verdicts say nothing")
        shutil.rmtree(self.seed, ignore_errors=True)
        return proof
