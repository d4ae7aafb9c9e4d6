"""Lines of very many edges, drawn or refused: the memory that the program holds besides the font."""
import os
import subprocess
import sys
from pathlib import Path

from asking import told

BENCH = Path(__file__).resolve().parents[2] / "bench"
# What the program may hold besides the bytes of the font.
MOST_MIB = 96
# As many level edges as a line may have; 15,700,000 of them, and as many as its points allow; and upright ones.
FONTS = "level_most", "level_30", "level_61", "tall"
JOBS = (
    ("drawn", ("draw",)),
    ("measured", ("measure",)),
    ("grown", ("draw", "--grow")),
    ("as a label", ("label",)),
    ("as a list", ("bdf",)),
)


def held_by(asked, words, size, text):
    """Returns the MiB that a run held at most, besides the font."""
    command = [asked.program, *words, "--fit", "best", "--size", size, "--", str(asked.font), text]
    null = subprocess.DEVNULL
    with subprocess.Popen(command, stdin=null, stdout=null, stderr=null) as ran:
        _, status, used = os.wait4(ran.pid, 0)
        ran.returncode = os.waitstatus_to_exitcode(status)
    return used.ru_maxrss / 1024 - asked.font.stat().st_size / (1 << 20)


def held(asked):
    """Each font by each job."""
    for name in FONTS:
        made = subprocess.run([sys.executable, "-B", BENCH / "hostile_font", name, asked.font.parent], check=True,
                              capture_output=True, text=True)
        text = asked.font.with_name("text").read_text(encoding="utf-8")
        for job, words in JOBS:
            mib = held_by(asked, words, made.stdout.strip(), text)
            told(f"held: {name} {job}", (f"{mib:.0f} MiB" if mib > MOST_MIB else "few",), ("few",), ("memory",))
