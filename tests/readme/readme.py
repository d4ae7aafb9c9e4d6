"""The cases of the commands; see the script `run` beside this file, which starts it."""
import os
import platform
import re
import shlex
import shutil
import struct
import subprocess
import sys
from pathlib import Path

sys.path.insert(0, str(Path(__file__).resolve().parent.parent))
import common
import markdown
from room import Room, pictures

FONTS = "/usr/share/fonts/truetype"
FONT = f"{FONTS}/dejavu/DejaVuSans.ttf"
README = markdown.read("README.md")

# What a document writes for a reader's own words.
OWN = {"FONT": FONT, "TEXT": "Hello", "N": "16", "PREFIX": "~/.local"}

# What the C snippet of README.md needs around it: a font, a text, rows and `show`.
BEFORE_MAIN = r"""
#include <stdio.h>
static uint8_t font[1 << 24], rows[1 << 20];
static void show(const uint8_t *it, uint32_t width, uint32_t height) {
    printf("P4\n%u %u\n", (unsigned)width, (unsigned)height);
    fwrite(it, (width + 7) / 8, height, stdout);
}
int main(int words, char **word) {
    FILE *file = words == 3 ? fopen(word[1], "rb") : NULL;
    if (!file) return 1;
    size_t font_bytes = fread(font, 1, sizeof font, file);
    const uint8_t *text = (const uint8_t *)word[2];
    size_t text_bytes = 0;
    while (word[2][text_bytes]) text_bytes++;
"""


def commands(text):
    """Returns the commands of a document: the lines of its code that begin one, and its spans that do."""
    begins = r"\(?(?:\./|\.\./|apt-get |printf |ulimit |man |python3 |cc |pictures/|bdf2psf |setfont )"
    lines = [line for code in markdown.code_of(text) for line in code.replace("\\\n", " ").split("\n")]
    spans = [it for block in markdown.blocks(text) if block.kind != "code" for it in markdown.spans(block.text)]
    return [it for it in lines + spans if re.match(begins, it) and " " in it]


def shown(pattern):
    """Returns the block of code of README.md that matches a pattern whole."""
    return next((it.strip("\n") for it in markdown.code_of(README) if re.fullmatch(pattern, it.strip("\n"))), "")


def drawn(room, command):
    """Returns the pictures that a command wrote to the file behind its last '>', or to those that -o names, and what is
    wrong with the command."""
    ran = room.run(command)
    name = re.search(r">\s*([\w.]+)\)?$|-o ([\w.%]+)", command)
    word = name[1] or name[2] if name else ""
    names = [word.replace("%d", str(it)) for it in (1, 2)] if "%d" in word else [word]
    found = [picture for it in names for picture in pictures(room.read(it))]
    return found, ran.faults() or ([] if found else [f"{command}: no picture in {word}"])


def of_text(room, command, text):
    """Returns the picture that `draw` writes of a line alone, by the options of a command for `label`."""
    options = re.search(r"label (.*?)(?:--lines |--align \w+ )?(?:-o \S+ )?/", command)[1]
    return pictures(room.run(f"./tt_render draw --fit best --grow {options} {FONT} {shlex.quote(text)}").stdout)


def missing_packages(command):
    """Returns the packages that a command would install."""
    packages = [it for it in command.split()[2:] if not it.startswith("-")]
    asked = ["dpkg-query", "-W", "-f", "${Package} ${Status}\n", "--", *packages]
    listed = subprocess.run(asked, stdin=subprocess.DEVNULL, capture_output=True, text=True).stdout
    return [it for it in packages if f"{it} install ok installed\n" not in listed]


def has_packages(_, command):
    """Nothing is installed here: a command whose packages are all here counts as run."""
    return [] if re.fullmatch(r"apt-get install -y(?: [a-z\d.+-]+)+", command) else ["it is no installation"]


def first_picture(room, command):
    """The first picture is the one that README.md shows, blank rows left out."""
    found, faults = drawn(room, command)
    if faults or [it for it in found[0] if "#" in it] == shown(r"[.#\n]+").split("\n"):
        return faults
    return ["README.md shows another picture than this one:", *found[0]]


def box_picture(room, command):
    """A label in a box is the picture that README.md shows."""
    found, faults = drawn(room, command)
    path = re.search(r"\]\((docs/pictures/[\w.]+)\)", README)[1]
    return faults or ([] if found == pictures(room.read(path)) else [f"{path} is another picture than this one"])


def two_lines(room, command):
    """Each line has the picture of its text alone."""
    found, faults = drawn(room, command)
    texts = shlex.split(command.split("|")[0])[2:]
    wanted = [it for text in texts for it in of_text(room, command, text)]
    right = found == wanted and len(found) == len(texts) == 2
    return faults or ([] if right else [f"{len(found)} pictures, or not those of {texts}"])


def within_limits(room, command):
    """The limits of the shell change nothing in the picture."""
    found, faults = drawn(room, command)
    return faults or ([] if found == of_text(room, command, "Hello") else ["another picture than without limits"])


def installs(room, command):
    """The program is installed, and is of the version that the changelog has."""
    ran = room.run(command)
    version = re.search(r"^## ([\d.]+)", markdown.read("CHANGELOG.md"), re.M)[1]
    said = room.run("~/.local/bin/tt_render --version").stdout.decode().strip()
    return ran.faults() or ([] if said == f"tt_render {version}" else [f"the installed program says {said!r}"])


def page(room, command):
    """The page of the manual is printed."""
    ran = room.run(command)
    return [] if not ran.status and b"TT_RENDER(1)" in ran.stdout else [f"status {ran.status}", *ran.said]


def bitmap_font(room, command):
    """The file of bitmaps has as many characters as the file says, and all are equally wide."""
    ran, name = room.run(command), re.search(r">\s*([\w.]+)$", command)[1]
    text = room.read(name).decode()
    count = re.search(r"^CHARS (\d+)$", text, re.M)
    right = count and int(count[1]) == text.count("\nSTARTCHAR ") > 300 and '\nSPACING "M"\n' in text
    return ran.faults() or ([] if right else [f"{name} is no font of equally wide characters"])


def console_font(room, command):
    """The console font has the cells of the file of bitmaps. Perl says of ink above the cell that it is cut."""
    ran = room.run(command)
    ran.said = [it for it in ran.said if not it.startswith("Negative repeat count does nothing")]
    source, made = re.search(r"--fb (\S+)", command)[1], command.split()[-1]
    bdf = room.read(source).decode()
    names = "FONT_ASCENT", "FONT_DESCENT", "AVERAGE_WIDTH"
    ascent, descent, width = (int(re.search(rf"^{it} (\d+)$", bdf, re.M)[1]) for it in names)
    wanted, got = (ascent + descent, width // 10), struct.unpack_from("<8I", room.read(made))[6:]
    return ran.faults() or ([] if got == wanted else [f"{made} has cells of {got}, and not {wanted}"])


def succeeds(room, command):
    """Any other command has to succeed."""
    return room.run(command).faults()


# The commands of README.md by a pattern, each with the function that tries it and the program that it needs.
KINDS = (
    (r"apt-get install", has_packages, "dpkg-query"),
    (r"\./tt_render label --box", box_picture, "cc"),
    (r"\./tt_render label .*>", first_picture, "cc"),
    (r"printf .*--lines", two_lines, "cc"),
    (r"\./tt_render bdf ", bitmap_font, "cc"),
    (r"bdf2psf ", console_font, "bdf2psf"),
    (r"setfont ", succeeds, "setfont"),
    (r"\(ulimit", within_limits, "cc"),
    (r"\./install ", installs, "cc"),
    (r"man -l", page, "man"),
    (r"", succeeds, "cc"),
)


def lacks(command, program):
    """Returns why a command cannot be tried here, or nothing."""
    if not shutil.which(program):
        return f"{program} is not here"
    if program == "dpkg-query" and (packages := missing_packages(command)):
        return f"{' '.join(packages)} is not installed"
    if program == "setfont":
        return "it needs a console"
    if FONTS in command and not os.path.exists(FONT):
        return f"{FONT} is not here"
    return ""


def try_command(room, command, kinds=KINDS):
    """Tries a command by the function of its kind."""
    _, function, program = next(it for it in kinds if re.match(it[0], command))
    why = lacks(command, program)
    if why:
        common.skip(command, why)
    else:
        common.verdict(command, function(room, command))


def refusals(room):
    """Tries the refusal that README.md shows, and how many characters of ASCII the manual says are refused so."""
    if not os.path.exists(FONT):
        common.skip("the refusal", f"{FONT} is not here")
        return
    texts = [shlex.quote(chr(it)) for it in range(32, 127)]
    ran = [(it, room.run(f"./tt_render draw --size 16 {FONT} -- {it}")) for it in texts]
    refused = [(it, one.said) for it, one in ran if one.status == 1 and "tt_render: glyf+" in "".join(one.said)]
    lines = shown(r"tt_render: .*\ntt_render: .*").split("\n")
    text = next((it for it, said in refused if said == lines[:1]), "''")
    font = Path(FONT)
    said = room.run(f"ln -sf {font} . && ./tt_render label --fit full --size 16 {font.name} -- {text}").said
    common.verdict("the refusal", [] if said == lines else [f"README.md has {lines}, and `label` says {said}"])
    page = " ".join(markdown.read("tt_render.1").split())
    count = re.search(r"(\d+) of the 95 printable ASCII", page)
    faults = [] if count and int(count[1]) == len(refused) else [f"{len(refused)} of 95 characters are refused"]
    common.verdict("the count of refused characters", faults)


def snippet(room):
    """The C of README.md, compiled with what was installed, draws what the program draws."""
    code = next((it for it in markdown.code_of(README) if it.startswith("#include <tt_render.h>\n")), "")
    if not code:
        return ["README.md has no code that begins with #include <tt_render.h>"]
    include, body = code.split("\n", 1)
    (room.path / "snippet.c").write_text(f"{include}\n{BEFORE_MAIN}{body}\nreturn 0;\n}}\n")
    ran = room.run(
        "cc -Wall -Wno-misleading-indentation -Werror -I ~/.local/include"
        " snippet.c ~/.local/lib/libtt_render.a -o snippet"
        f" && ./snippet {FONT} Hello && ./tt_render draw --size 16 --fit best {FONT} Hello >wanted.pbm"
    )
    same = ran.stdout and ran.stdout == room.read("wanted.pbm")
    return ran.faults() or ([] if same else ["it draws another picture"])


def own(command):
    """Returns a command with a font, a text and a size in place of a reader's own."""
    return re.sub(r"\b(?:FONT|TEXT|N|PREFIX)\b", lambda it: OWN[it.group(0)], command)


def other_documents(room):
    """Tries the commands of two more documents that run the program or install it; each has to succeed."""
    kinds = ((r"man -l", page, "man"), (r"", succeeds, "cc"))
    for document in ("SECURITY.md", "CONTRIBUTING.md"):
        for command in commands(markdown.read(document)):
            if re.match(r"\./tt_render (?!--prove)|\./install|\(ulimit|man ", command) and ".." not in command:
                try_command(room, own(command), kinds)


def usage(room):
    """Tries the commands in the tables of README.md. Standard input is empty."""
    for block in markdown.blocks(README):
        for command in markdown.spans(markdown.cells(block.text)[0])[:1] if block.kind == "row" else []:
            if re.match(r"(label|draw|measure|map|faces|bdf) ", command):
                fit = " --fit best" if re.match(r"draw|measure", command) else ""
                try_command(room, f"./tt_render {own(command)}{fit}", ((r"", succeeds, "cc"),))


def examples(room):
    """Tries the commands of the examples in their folder. They write to a folder of /tmp, which is here in the room."""
    why = "" if platform.machine() == "x86_64" else "boot.c is for x86-64"
    why = why or next((f"{it} is not here" for it in ("cc", "python3", "gzip") if not shutil.which(it)), "")
    if why or not os.path.exists(FONT):
        common.skip("examples/README.md", why or f"{FONT} is not here")
        return
    blocks = markdown.code_of(markdown.read("examples/README.md"))
    if not shutil.which("pkg-config") or subprocess.run(["pkg-config", "--exists", "harfbuzz"]).returncode:
        common.skip("shape.c of examples/README.md", "libharfbuzz-dev or pkg-config is not here")
        blocks = [it for it in blocks if "harfbuzz" not in it]
    code = "\n".join(blocks)
    folder = re.search(r"/tmp/[\w./]*?(?=[/\s])", code)[0]
    ran = room.run(code.replace(folder, str(room.path / "made")), "examples")
    names = re.findall(re.escape(folder) + r"/([\w%]+\.(?:pbm|png))", code)
    names = [it.replace("%d", number) for it in names for number in ("12" if "%d" in it else "1")]
    faults = ran.faults() + [f"no picture in {it}" for it in names if not pictures(room.read(f"made/{it}"))]
    common.verdict("examples/README.md", faults or ([] if b"#" in ran.stdout else ["draw.py prints no picture"]))


def made_pictures(room):
    """Tries docs/pictures/make: each picture is the one that git tracks."""
    make = room.path / "docs/pictures/make"
    fonts = re.findall(r"=([\w/-]+\.ttf)$", make.read_text(), re.M) if make.exists() else []
    missing = [it for it in ("pnmcat", "pnmenlarge", "pnmtopng", "pngtopnm") if not shutil.which(it)]
    missing += [it for it in fonts if not os.path.exists(f"{FONTS}/{it}")]
    if missing:
        common.skip("docs/pictures/make", f"{missing[0]} is not here")
        return
    room.run("mkdir tracked && cp docs/pictures/*.png tracked && rm docs/pictures/*.png")
    ran = room.run("docs/pictures/make")
    compare = "for it in tracked/*; do cmp <(pngtopnm $it) <(pngtopnm docs/pictures/${it##*/}); done"
    common.verdict("docs/pictures/make", ran.faults() or room.run(compare).faults())


def main():
    room = Room()
    for command in commands(README):
        try_command(room, command)
    forgotten = [kind for kind, _, _ in KINDS if not any(re.match(kind, it) for it in commands(README))]
    common.verdict("kinds of commands", [f"README.md has no command like {it}" for it in forgotten])
    refusals(room)
    why = lacks(FONT, "cc")
    if why:
        common.skip("the C snippet", why)
    else:
        common.verdict("the C snippet", snippet(room))
    usage(room)
    for name in ("run", "gate"):
        path = markdown.ROOT / "tests" / name
        common.verdict(f"tests/{name}", [] if os.access(path, os.X_OK) else [f"{path} cannot be executed"])
    other_documents(room)
    examples(room)
    made_pictures(room)
    common.verdict("nothing is installed", room.installed())
    return common.report("readme")


if __name__ == "__main__":
    sys.exit(main())
