"""Runs of the program with a hostile font: processor time, memory, and what it answered."""
import math
import os
import resource
import struct
import subprocess
import sys
from dataclasses import dataclass
from pathlib import Path

from hostile import ROOT

# What a run may hold: most machines do not have more.
MOST_BYTES = 4 << 30
# The work of a job, by its name: the command, whether it reads lines, and how many.
JOBS = {
    "draw": (("draw",), 0),
    "measure": (("measure",), 0),
    "grow": (("draw", "--grow"), 0),
    "1 line": (("draw", "--lines"), 1),
    "10 lines": (("draw", "--lines"), 10),
    "40 lines grown": (("draw", "--grow", "--lines"), 40),
    "label": (("label",), 0),
    "label of lines": (("label", "--align", "right"), 0),
    "10 labels": (("label", "--lines"), 10),
    "bdf": (("bdf",), 0),
    "kerned": (("draw", "--kern"), 0),
}
# Pairs of options, in place of these.
PAIRS = {
    "margin": (("draw", "--margin", "64"), 0),
    "grow, margin": (("draw", "--grow", "--margin", "64"), 0),
    "measure, grow": (("measure", "--grow"), 0),
    "grow, 10 lines": (("draw", "--grow", "--lines"), 10),
    "measure, 10 lines": (("measure", "--lines"), 10),
    "missing, measure": (("measure", "--missing", "tell", "--margin", "64"), 0),
    "label": JOBS["label"],
    "label of lines": JOBS["label of lines"],
    "no ink": (("measure", "--no-ink"), 0),
    "bdf": JOBS["bdf"],
}
# Kerned lines, in place of these.
KERNED = {
    "draw": (("draw", "--kern"), 0),
    "measure": (("measure", "--kern"), 0),
    "grow": (("draw", "--grow", "--kern"), 0),
    "no ink": (("measure", "--no-ink", "--kern"), 0),
    "label": (("label", "--kern"), 0),
    "10 lines": (("draw", "--lines", "--kern"), 10),
}
# Jobs with a face, in place of these. Only the first two are given a way to fit.
FACES = {
    "face": (("draw", "--face", "0"), 0),
    "10 lines": (("draw", "--face", "0", "--lines"), 10),
    "map": (("map", "--face", "0"), 0),
    "faces": (("faces",), 0),
}


@dataclass
class Run:
    """Seconds of processor time, MiB resident at most, and how the run ended: its status, and its first message."""

    seconds: float
    mib: float
    end: str


class Bench:
    """A program, the way to fit, and a folder with a font, its text and its lines."""

    def __init__(self, program, fit, room):
        self.program, self.fit = program, fit
        self.font, self.text, self.lines = (Path(room) / it for it in ("font", "text", "lines"))
        self.size, self.instance = 16, []

    def write(self, name):
        """Makes a font. Another process does it, so that its memory is not counted as the program's."""
        made = subprocess.run([sys.executable, "-B", str(ROOT / "bench" / "hostile_font"), name, str(self.font.parent)],
                              check=True, capture_output=True, text=True)
        size, *axis = made.stdout.split()
        self.size, self.instance = int(size), [f"--axis={it}" for it in axis]

    def font_mib(self):
        """The MiB of the font."""
        return self.font.stat().st_size / (1 << 20)

    def without_height(self):
        """Writes the font once more, with lines of no height, and returns its path."""
        font, flat = bytearray(self.font.read_bytes()), self.font.with_name("flat")
        for record in range(12, 12 + 16 * struct.unpack_from(">H", font, 4)[0], 16):
            if font[record : record + 4] == b"hhea":
                at = struct.unpack_from(">I", font, record + 8)[0] + 4
                font[at : at + 6] = bytes(6)
        flat.write_bytes(font)
        return flat

    def run(self, command, lines, most_seconds=600):
        """Runs a job with the font; a job that needs more processor time is ended."""
        shape = [] if command[0] in ("map", "faces") else ["--fit", self.fit, "--size", str(self.size)]
        shape += self.instance if command[0] != "faces" else []
        # Lines of one character, which are aligned: as many as a text may have, a row apart.
        one_each = "--align" in command
        words = [self.program, *command, *shape, "--", str(self.without_height() if one_each else self.font)]
        source = os.devnull
        if command[0] == "faces":
            pass
        elif lines:
            given = self.lines.read_text(encoding="utf-8").split("\n")[:lines]
            source = self.lines.with_name("given")
            source.write_text("\n".join(given), encoding="utf-8")
        else:
            text = self.text.read_text(encoding="utf-8")
            words.append("\n".join(text)[:4096] if one_each else text)

        def limit():
            resource.setrlimit(resource.RLIMIT_CPU, (math.ceil(most_seconds), math.ceil(most_seconds) + 1))
            resource.setrlimit(resource.RLIMIT_AS, (MOST_BYTES, MOST_BYTES))

        with open(source, "rb") as given, open(self.font.with_name("errors"), "w+b") as errors:
            ran = subprocess.Popen(words, stdin=given, stdout=subprocess.DEVNULL, stderr=errors, preexec_fn=limit)
            _, status, used = os.wait4(ran.pid, 0)
            ran.returncode = os.waitstatus_to_exitcode(status)
            errors.seek(0)
            first = errors.readline().decode(errors="replace").strip()
            first = first.removeprefix("tt_render: ").removeprefix("line 1: ")
        end = "stopped" if ran.returncode < 0 else str(ran.returncode)
        return Run(used.ru_utime + used.ru_stime, used.ru_maxrss / 1024, f"{end} {first}".strip())
