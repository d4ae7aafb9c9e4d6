"""The scripts of this folder: which there are, what each needs, and how several run side by side."""
import os
import pathlib
import re
import shutil
import subprocess
import time
from concurrent.futures import ThreadPoolExecutor, as_completed

TESTS = pathlib.Path(__file__).resolve().parent
ROOT = TESTS.parent

# Scripts by their seconds on a quiet core: the longest begins first, so that none is left over at the end. A script
# that is not in the list comes behind these.
LONGEST_FIRST = """fuzz debian characters lines c composed work launcher package damaged faces glyph_sets label
  printers variations measure dist memory devices dropouts kerning lines_beside rows heights fallback hinted readme
  prove pixels command_line machine outlines glyphs real_lines best wrong_bodies""".split()

# Scripts that draw fonts of Debian throughout: each is skipped where one of those that FONTS names is not here.
OF_FONTS = "best c composed dropouts fallback fuzz glyphs hinted lines_beside measure outlines".split()
FONTS = TESTS / "real_fonts/install"

# The program for tests: the variable that names another, and its crate.
VARIABLE, CRATE = "TT_ANSWERS", "tt_test_answers"


class Result:
    """What a script came to: its seconds, its cases, the cases it skipped with their reasons, and all that it said."""

    def __init__(self, name, seconds, status, said):
        self.name, self.seconds, self.said = name, seconds, said
        self.skipped = re.findall(r"^skipped (.*)$", said, re.M)
        found = re.search(r": (\d+) passed, (\d+) failed$", said.rstrip())
        self.passed, self.failed = (int(it) for it in found.groups()) if found else (0, 1)
        if status and not self.failed:
            self.failed = 1

    def __str__(self):
        return f"{self.name}: {self.passed} passed, {self.failed} failed, {self.seconds:.1f} s"


def path_of(name):
    """Returns the file that tries what a folder of this one is about. Of wrong_bodies this is its self-test."""
    inner = TESTS / name / "selftest"
    return inner if inner.is_file() else TESTS / name / "run"


def all_names():
    """Returns the names of all scripts, the longest first."""
    there = {it.parent.name for it in TESTS.glob("*/run")}
    listed = [it for it in LONGEST_FIRST if it in there]
    return [*listed, *sorted(there - set(listed))]


def newest_source():
    """Returns the date of the newest file that a proof reads."""
    files = [it for part in ("src", "specs", "proofs") for it in ROOT.glob(f"crates/*/{part}/**/*")]
    return max(it.stat().st_mtime for it in [ROOT / "crates.txt", *files])


def program_for_tests():
    """Returns the path of the program for tests, or why there is none.

    It is that of the program's variable, or else the one that the gate left, where no source is newer.
    """
    named, built = os.environ.get(VARIABLE), ROOT / "crates" / CRATE / "out" / CRATE
    if named and os.access(named, os.X_OK):
        return named, ""
    if named:
        return "", f"there is no program {named}, which {VARIABLE} names"
    if not os.access(built, os.X_OK):
        return "", f"there is no program {CRATE}, which the gate makes"
    if built.stat().st_mtime < newest_source():
        return "", f"a source is newer than the program {CRATE}, which the gate makes"
    return str(built), ""


def missing_fonts():
    """Returns that fonts are not here that the scripts OF_FONTS draw, or nothing."""
    listed = subprocess.run([FONTS, "--lacking"], stdin=subprocess.DEVNULL, stdout=subprocess.PIPE, text=True)
    fonts = listed.stdout.split()
    if listed.returncode or not fonts:
        return "" if not listed.returncode else f"{FONTS} failed"
    more = f" and {len(fonts) - 1} more" if len(fonts) > 1 else ""
    return f"{fonts[0]}{more} not here; {FONTS.relative_to(ROOT)} installs fonts"


def lacks(name, why, fonts):
    """Returns why a script cannot run here, or nothing. One with a line `asks=answers` needs the program for tests,
    which is not here for the reason `why`, unless that is empty; one that draws fonts lacks those of `fonts`."""
    if why and re.search(r"^asks=answers$", path_of(name).read_text(encoding="utf-8"), re.M):
        return why
    if fonts and name in OF_FONTS:
        return fonts
    if name == "dist" and not (shutil.which("git") and (ROOT / ".git").exists()):
        return "git is not on the PATH, or this is no clone"
    return ""


def name_program():
    """Sets the variable of the program for tests, so that no script looks whether to make the program anew.

    Where the program is not here, the variable gets a name without a file: a script then passes over what needs the
    program. Returns why it is not here, or nothing.
    """
    path, why = program_for_tests()
    os.environ[VARIABLE] = path or "none"
    return why


def run_one(name):
    """Runs a script. What it prints need not be UTF-8, as it shows fonts and pictures."""
    began = time.monotonic()
    how = {"cwd": ROOT, "stdin": subprocess.DEVNULL, "stdout": subprocess.PIPE, "stderr": subprocess.STDOUT}
    ran = subprocess.run([path_of(name)], text=True, errors="replace", **how)
    return Result(name, time.monotonic() - began, ran.returncode, ran.stdout)


def run_all(names, jobs):
    """Runs scripts, as many side by side as there are jobs, and yields the result of each as it ends."""
    with ThreadPoolExecutor(max(jobs, 1)) as pool:
        for ended in as_completed([pool.submit(run_one, it) for it in names]):
            yield ended.result()
