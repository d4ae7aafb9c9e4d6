"""The parts of label/run that run the commands which the page of the manual has, for pipes and as examples."""
import os
import re
import shutil
import subprocess

import common

FONT = "/usr/share/fonts/truetype/dejavu/DejaVuSans.ttf"
NOTES = "a\tline with a tab, which is longer than thirty characters are\n\nthe last one\n"
ADDRESS = "Mr A. Nobody\n12 Quay Street\n\nNowhere\n"
# How files of these endings begin.
STARTS = {"pbm": (b"P4", b"P1"), "pnm": (b"P4", b"P5"), "xbm": (b"#define ",), "png": (b"\x89PNG",)}
STARTS["bdf"] = (b"STARTFONT 2.1\n",)


def commands(section):
    """Returns the examples of a section of the page, each as the shell reads it."""
    page = (common.ROOT / "tt_render.1").read_text(encoding="utf-8")
    text = page.split(f"\n.SH {section}\n", 1)[1].split("\n.SH ", 1)[0]
    for words, plain in ((r"\-", "-"), (r"\(aq", "'"), (r"\e", "\\")):
        text = text.replace(words, plain)
    text = re.sub(r"\\\[u([0-9A-F]+)\]", lambda it: chr(int(it[1], 16)), text)
    return re.findall(r"^\.EX\n(.*?)^\.EE$", text, re.M | re.S)


def faults_of(folder, command):
    """Returns what is wrong with the files that a command wrote."""
    found = []
    for name in re.findall(r"(?:> |-o )([\w.%-]+)", command):
        path = folder / name.replace("%d", "1")
        data = path.read_bytes() if path.exists() else b""
        if not data.startswith(STARTS[name.rsplit(".", 1)[1]]):
            found.append(f"{name} begins {data[:20]!r}")
    return found


def place(asked, name):
    """Makes a folder in which the page's words name the program and files of texts."""
    folder = asked.room / name
    (folder / "bin").mkdir(parents=True)
    (folder / "bin/tt_render").symlink_to(asked.program)
    (folder / "notes").write_text(NOTES)
    (folder / "address").write_text(ADDRESS)
    return folder


def try_example(folder, example, before=""):
    """Tries an example where its programs and fonts are here: it succeeds without a report, and leaves its files."""
    name = f"example {example.strip()}"
    lost = [it for it in re.findall(r"\| (\w+)", example) if it != "tt_render" and not shutil.which(it)]
    lost += [it for it in re.findall(r"/usr/share/fonts/\S+", before + example) if not os.path.exists(it)]
    if lost:
        common.skip(name, f"{lost[0]} is not here")
        return
    script = f"set -euo pipefail\nPATH=$PWD/bin:$PATH\n{before}{example}"
    ran = subprocess.run(["bash", "-c", script], cwd=folder, capture_output=True, stdin=subprocess.DEVNULL)
    why = [] if not ran.returncode else [f"status {ran.returncode}: {ran.stderr[:300]!r}"]
    why += [] if b"tt_render:" not in ran.stderr else [f"standard error has {ran.stderr[:300]!r}"]
    common.verdict(name, why or faults_of(folder, example))


def pipes(asked):
    """The commands of the page of the manual that hand a picture on, as they are there."""
    first, *found = commands("PIPES")
    folder = place(asked, "pipes")
    if not os.path.exists(FONT):
        common.skip("pipes", f"{FONT} is not here")
        return
    for example in found:
        try_example(folder, example, first)
    if len(found) < 9:
        common.verdict("pipes", [f"the page of the manual has only {len(found)} pipes"])


def examples(asked):
    """The commands of the page's examples, as they are there. What bdf2psf makes of a file is tried by ../glyph_sets."""
    found = [it.split("\nbdf2psf ")[0] for it in commands("EXAMPLES") if it.startswith(("tt_render ", "printf "))]
    folder = place(asked, "examples")
    for example in found:
        try_example(folder, example)
    if len(found) < 13:
        common.verdict("examples", [f"the page of the manual has only {len(found)} examples"])
