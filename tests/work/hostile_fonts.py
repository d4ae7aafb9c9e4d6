"""The hostile fonts of bench/hostile, each drawn or measured once, some by a line: an answer, and which."""
import resource
import subprocess
import sys
from pathlib import Path

from asking import told

BENCH = Path(__file__).resolve().parents[2] / "bench"
LARGE = 2, 1, "65 WorkLarge"
STOPPED = 0, 1, "30 StepLimit"
# What each font answers when it is drawn: its status, the number of lines, and how the first one ends.
DRAWN = {
    "endless": LARGE,
    "one": (0, 0, ""),
    "two": STOPPED,
    "points": STOPPED,
    "skips": STOPPED,
    "four": LARGE,
    "deep": LARGE,
    "entries": STOPPED,
    "meeting": STOPPED,
    "leaning": STOPPED,
    "lines": STOPPED,
    "moves": STOPPED,
    "pushes": STOPPED,
    "shc": STOPPED,
    "shz_twilight": STOPPED,
    "on": LARGE,
    "runs_bare": LARGE,
    "tall": LARGE,
    "glyphs_4096": LARGE,
    "corners_wide": LARGE,
    "records_none": (1, 1, "10 NoCmap"),
    "records_last": (0, 0, ""),
    "selectors": (0, 0, ""),
    "deltas_half": (0, 0, ""),
    "deltas_small": LARGE,
    "tuples_wide": (0, 0, ""),
    "tuples_deep": (0, 0, ""),
    "cvar": (0, 0, ""),
    "avar": (0, 0, ""),
    "coordinates_asked": STOPPED,
}
# The same when it is measured, and when its picture is to grow.
MEASURED = {
    "two": STOPPED,
    "far_16": LARGE,
    "beyond": LARGE,
    "beyond_off": LARGE,
    "beyond_scattered": LARGE,
}
# Fonts whose line is refused for its crossings, drawn by lines with this much memory. A line cuts no more crossings into
# pixels than a picture may have: these glyphs would take 1 GiB.
LINED = ("on", "off", "corners", "corners_wide", "tall", "runs_bare", "glyphs_4096")
REFUSED_LINE = 2, 1, "65 WorkLarge"
LINE_BYTES = 128 << 20


def by_lines(asked, name):
    """Draws a font's first line, with little memory."""
    made = subprocess.run([sys.executable, "-B", BENCH / "hostile_font", name, asked.font.parent], check=True,
                          capture_output=True, text=True)
    line = asked.font.with_name("lines").read_bytes().split(b"\n")[0]
    status, _, lines = asked.run("draw", "--lines", "--fit", "best", "--size", int(made.stdout), lines=line,
                                 most_bytes=LINE_BYTES)
    end = lines[0][-len(REFUSED_LINE[2]) :] if lines else ""
    told(f"hostile: a line of {name}", (status, len(lines), end), REFUSED_LINE, ("status", "lines", "line"))


def hostile(asked):
    """Draws and measures each font, and prints the slowest."""
    slowest = 0.0, ""
    jobs = [("draw", name, end) for name, end in DRAWN.items()]
    jobs += [(job, name, end) for name, end in MEASURED.items() for job in ("measure", "draw --grow")]
    for job, name, wanted in jobs:
        made = subprocess.run([sys.executable, "-B", BENCH / "hostile_font", name, asked.font.parent], check=True,
                              capture_output=True, text=True)
        text = asked.font.with_name("text").read_text(encoding="utf-8")
        size, *axis = made.stdout.split()
        job_words = [*job.split(), "--fit", "best", "--size", size, *(f"--axis={it}" for it in axis)]
        before = resource.getrusage(resource.RUSAGE_CHILDREN)
        status, _, lines = asked.run(*job_words, text=text)
        after = resource.getrusage(resource.RUSAGE_CHILDREN)
        seconds = after.ru_utime + after.ru_stime - before.ru_utime - before.ru_stime
        slowest = max(slowest, (seconds, f"{job} {name}"))
        end = lines[0][-len(wanted[2]) :] if lines and wanted[2] else ""
        told(f"hostile: {job} {name}", (status, len(lines), end), wanted, ("status", "lines", "line"))
    for name in LINED:
        by_lines(asked, name)
    print("slowest of the hostile fonts: %s, %.2f s of processor time" % slowest[::-1])
