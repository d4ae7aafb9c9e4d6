"""What the runners in Python share, as common.sh is for those in bash: the program, and the count of cases."""
import os
import pathlib
import subprocess
import sys
import tempfile

ROOT = pathlib.Path(__file__).resolve().parents[1]

# Each way to fit, as common.sh has them, for the modules that ask for each.
os.environ.setdefault("TT_FITS", "full none fallback best")

passed = failed = 0


def render_program():
    """Returns the path of our program, or of TT_RENDER's. One start here keeps the time of making it off the cases."""
    path = os.path.realpath(os.environ.get("TT_RENDER") or ROOT / "tt_render")
    try:
        starts = not subprocess.run([path, "--help"], stdout=subprocess.DEVNULL, stdin=subprocess.DEVNULL).returncode
    except OSError:
        starts = False
    if not starts:
        sys.exit(f"tests: {path} does not start")
    return path


def answers_program():
    """Returns the path of tt_test_answers, which common.sh finds or makes, or None where TT_ANSWERS is `none`."""
    if os.environ.get("TT_ANSWERS") == "none":
        return None
    said = subprocess.run(["bash", "-c", 'asks=answers; . tests/common.sh; echo "$program"'], cwd=ROOT, text=True,
                          stdin=subprocess.DEVNULL, stdout=subprocess.PIPE, check=True).stdout
    return said.strip()


def skip(name, why):
    """Says that a part was not tried, and why. tests/run prints such lines again at its end."""
    print(f"skipped {name}: {why}")


def run(words, stdin=b""):
    """Runs a command, without input where none is given, and returns its status, standard output and standard error."""
    ran = subprocess.run(words, input=stdin, capture_output=True)
    return ran.returncode, ran.stdout, ran.stderr


def verdict(name, why):
    """Counts a case, which failed if there are lines that say why, and prints those."""
    global passed, failed
    if not why:
        passed += 1
        return
    failed += 1
    print(f"FAILED {name}")
    for line in why:
        print(f"  {line}")


def difference(wanted, got):
    """Returns the first lines of `diff` between two texts, as one text."""
    with tempfile.TemporaryDirectory() as room:
        for name, data in (("wanted", wanted), ("got", got)):
            pathlib.Path(room, name).write_bytes(data)
        said = subprocess.run(["diff", "-a", "wanted", "got"], cwd=room, capture_output=True).stdout
    return "\n".join(line[:160].decode(errors="replace") for line in said.splitlines()[:6])


def tried(name, got, wanted):
    """Compares status, standard output and standard error of a run with the wanted ones, to the byte."""
    why = [] if got[0] == wanted[0] else [f"status {got[0]}, and not {wanted[0]}"]
    for part, one, other in zip(("stdout", "stderr"), got[1:], wanted[1:]):
        if one != other:
            why.append(f"{part} has {len(one)} bytes, and not the {len(other)} that are wanted:")
            why.append(difference(other, one))
    verdict(name, why)


def report(name):
    """Prints the last line of a script, and returns its status."""
    print(f"{name}: {passed} passed, {failed} failed")
    return 1 if failed else 0
