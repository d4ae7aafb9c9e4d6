"""The parts of label/run that are about files and streams: fonts that cannot be read, and what is written when."""
import os
import socket
import subprocess
import threading

import common
import labels
import model
from labels import lines_of

# The user `nobody`, who may read less than root.
NOBODY = 65534
LIMIT = 67108864
# The names of font files end like this.
ENDINGS = (".ttf", ".ttc", ".otf", ".otc")


def unreadable(font, why):
    """Returns the answer where a font cannot be read: why is empty where nothing is said of it."""
    second = [f"{model.shown(font)}: {why}"] if why else []
    return 3, b"", lines_of(["cannot read the font", *second])


def family(path):
    """Returns what is said of a path where no file is, which may be the name of a family."""
    if path == "-":
        return "a font is read from a file: /dev/stdin"
    if not path or path[0] == "-" or "/" in path or path[-4:].lower() in ENDINGS:
        return "no such file"
    quoted = model.shown(path).replace("'", "'\\''")
    return f"no such file; fc-match -f '%{{file}}' '{quoted}' finds a family's file"


def missing(asked):
    """Tries fonts that are not there, and a FONT behind TEXT."""
    folder = asked.folder(labels.fonts()["T"])
    texts = "A", "F.ttf", "F.TTC", ".otf", "x.oTf", "F.otC", "F.ttf ", "ttf", "F.ttx", "a/b.TtF", "\u00e9.ttf", "\u00e9ttf"
    for text in texts:
        turned = text[-4:].lower() in ENDINGS
        why = "no such file; FONT stands before TEXT" if turned else family("Hello")
        got = asked.run(["label", "--size", "16", "--", "Hello", text], folder)
        common.tried(f"no such file, and the text {text!r}", got, unreadable("Hello", why))
    got = asked.run(["label", "--size", "16", "--lines", "Hello.ttf"], folder, b"F.ttf\n")
    common.tried("no such file, and lines", got, unreadable("Hello.ttf", "no such file"))
    ends = {it for one, last in model.ranges(model.STEERING) for it in (one - 1, one, last, last + 1) if it > 0}
    names = "-", "--", "-a", "O'Neil", "''", "a'\n'", "Noto Sans", "Dr. No", ".ttf", "a.OTC", "a.ttf ", "\u00e9.tt\u0192"
    for path in (*names, "a\nb", "\x1b[2J\x7f", "\u0085\u009b1A\u00a0", "\t.ttf", *map(chr, sorted(ends))):
        got = asked.run(["label", "--size", "16", "--", path, "A"], folder)
        common.tried(f"no such file {path!r}", got, unreadable(path, family(path)))


def paths(asked):
    """Tries paths that lead to no font file."""
    folder = asked.room / "places"
    folder.mkdir()
    (folder / "font").write_bytes(labels.fonts()["T"])
    (folder / "folder").mkdir()
    (folder / "loop").symlink_to("loop")
    (folder / "nowhere").symlink_to("nothing")
    with open(folder / "large", "wb") as opened:
        opened.truncate(LIMIT + 1)
    made = socket.socket(socket.AF_UNIX)
    made.bind(str(folder / "socket"))
    cases = [
        ("folder", "is a folder"),
        (".", "is a folder"),
        ("font/x", "a folder of this path is a file"),
        ("loop", "too many symbolic links"),
        ("nowhere", family("nowhere")),
        ("x" * 300, "the name is too long"),
        ("", "no such file"),
        ("socket", ""),
        ("/proc/self/mem", ""),
    ]
    for path, why in cases:
        got = asked.run(["label", "--size", "16", "--", path, "A"], folder)
        common.tried(f"font {path[:30]!r}", got, unreadable(path, why))
        if not why.startswith("no such file"):
            got = asked.run(["label", "--size", "16", "--", path, "A.ttf"], folder)
            common.tried(f"font {path[:30]!r}, and a text like a font", got, unreadable(path, why))
    got = asked.run(["label", "--size", "0", "--", "folder", "A"], folder)
    first = ["60 SizeRange", "--size is 1 to 300 pixels per em, not 0"]
    common.tried("a folder opens, and then the size is wrong", got, (2, b"", lines_of(first)))
    got = asked.run(["label", "--size", "16", "--", "large", "A"], folder)
    common.tried("a file that is too large", got, (3, b"", lines_of([f"font larger than {LIMIT} bytes"])))
    got = asked.run(["label", "--size", "16", "--lines", "font"], folder, stdin=b"")
    common.tried("no lines", got, (0, b"", b""))
    made.close()


def forbidden(asked):
    """Tries a font that may not be read. Root may read all, so this is tried as another user."""
    folder = asked.room / "forbidden"
    folder.mkdir(mode=0o755)
    (folder / "font").write_bytes(labels.fonts()["T"])
    (folder / "font").chmod(0)
    os.chmod(asked.room, 0o755)
    user = {"user": NOBODY, "group": NOBODY, "extra_groups": []} if os.geteuid() == 0 else {}
    words = [asked.program, "label", "--size", "16", "font", "A.ttf"]
    try:
        ran = subprocess.run(words, capture_output=True, cwd=folder, stdin=subprocess.DEVNULL, **user)
    except PermissionError:
        common.skip("a font that may not be read", "another user may not start the program")
        return
    got = ran.returncode, ran.stdout, ran.stderr
    common.tried("a font that may not be read", got, unreadable("font", "permission denied"))


def redirected(asked, words, how, folder):
    """Returns what the program answers where the shell redirects a stream."""
    script = f'exec "$0" "$@" {how}'
    ran = subprocess.run(["bash", "-c", script, asked.program, *words], capture_output=True, cwd=folder)
    return ran.returncode, ran.stdout, ran.stderr


def closed(asked):
    """Tries standard input that is closed, or cannot be read. The font must not be read as the lines."""
    folder = asked.folder(labels.fonts()["T"])
    wanted = 3, b"", lines_of(["cannot read the lines"])
    for command in ("label", "draw", "draw --fit best", "measure"):
        words = [*command.split(), "--size", "16", "--lines", "F.ttf"]
        for name, how in (("closed", "<&-"), ("a folder", "<."), ("for writing alone", "0>/dev/null")):
            common.tried(f"{command}, standard input {name}", redirected(asked, words, how, folder), wanted)
    got = redirected(asked, ["label", "--size", "16", "F.ttf", "A"], "<&-", folder)
    common.tried("a text, and standard input closed", got, (0, b"P4\n4 4\n\0\0\x60\x60", b""))


def writes(asked, words, folder, stdin=b""):
    """Returns what a run wrote: a stream's number and bytes for each write. Both streams are one socket, in which each
    write is a packet of its own."""
    ours, theirs = socket.socketpair(socket.AF_UNIX, socket.SOCK_SEQPACKET)
    packets = []

    def take():
        while packet := ours.recv(1 << 20):
            packets.append(packet)

    taker = threading.Thread(target=take)
    taker.start()
    ran = subprocess.run([asked.program, *words], input=stdin, stdout=theirs, stderr=theirs, cwd=folder)
    theirs.close()
    taker.join()
    ours.close()
    return ran.returncode, packets


def order(asked):
    """Tries when lines are written: both lines of a refusal at once, and what is told of a picture at once after it."""
    fonts = labels.fonts()
    words = ["label", "--size", "16"]
    status, packets = writes(asked, [*words, "F.ttf", "A"], asked.folder(fonts["otto"]))
    wanted = [lines_of(["file+0: 1 BadVersion", f"F.ttf: {model.CFF}"])]
    common.verdict("a refusal is one write", [] if (status, packets) == (1, wanted) else [f"{status} {packets}"])
    status, packets = writes(asked, [*words, "F.ttf", "A"], asked.folder(None))
    wanted = [lines_of(["cannot read the font", "F.ttf: no such file"])]
    common.verdict("no font is one write", [] if (status, packets) == (3, wanted) else [f"{status} {packets}"])
    status, packets = writes(asked, [*words, "F.ttf", "\tZ"], asked.folder(fonts["variable"]))
    told = ["U+0009 has no glyph", "U+005A has no glyph", model.TAB]
    told.append(f"F.ttf: {model.VARIABLE}")
    good = status == 0 and packets[-1:] == [lines_of(told)] and not any(b"tt_render" in it for it in packets[:-1])
    common.verdict("what is told is one write behind the picture", [] if good else [f"{status} {packets}"])
    status, packets = writes(asked, [*words, "--lines", "F.ttf"], asked.folder(fonts["T"]), b"A\nZ\nB\n\xff\nA\n")
    bytes_of = b"".join(packets)
    four = b"P4\n4 4\n"
    second = "the lines have to be UTF-8; iconv(1) changes other encodings"
    wanted = four + b"\0\0\x60\x60" + four + bytes(4) + lines_of(["line 2: U+005A has no glyph"]) + four + bytes(4)
    wanted += lines_of(["line 4: not UTF-8", f"line 4: {second}"])
    good = status == 2 and bytes_of == wanted and packets[-1].count(b"\n") == 2
    common.verdict("lines, and what is told of each", [] if good else [f"{status} {packets}"])


def failing(asked):
    """Tries writes that fail: no second line, and where standard error fails, the status of the picture."""
    folder = asked.folder(labels.fonts()["variable"])
    words = [asked.program, "label", "--size", "16", "F.ttf", "A"]
    with open("/dev/full", "wb") as full:
        ran = subprocess.run(words, stdout=full, stderr=subprocess.PIPE, cwd=folder)
        wanted = lines_of(["cannot write after 0 bytes"])
        common.tried("a full device", (ran.returncode, b"", ran.stderr), (4, b"", wanted))
        ran = subprocess.run(words, stdout=subprocess.PIPE, stderr=full, cwd=folder)
        common.tried("nothing can be told", (ran.returncode, ran.stdout, b""), (0, b"P4\n4 4\n\0\0\x60\x60", b""))
        ran = subprocess.run([*words[:-2], "nowhere", "A"], stdout=subprocess.PIPE, stderr=full, cwd=folder)
        common.tried("no refusal can be told", (ran.returncode, ran.stdout, b""), (3, b"", b""))


def unblocked(asked):
    """Tries pipes that are set not to block: one that a picture fills, and one without the rest of a line."""
    folder = asked.folder(labels.fonts()["T"])
    words = [asked.program, "label", "--size", "300", "F.ttf"]
    out, into = os.pipe()
    os.set_blocking(into, False)
    ran = subprocess.run([*words, "A" * 200], stdin=subprocess.DEVNULL, stdout=into, stderr=subprocess.PIPE, cwd=folder)
    os.close(into)
    sent = 0
    while some := os.read(out, 1 << 16):
        sent += len(some)
    os.close(out)
    wanted = 4, b"", lines_of([f"cannot write after {sent} bytes"])
    common.tried("a full pipe that does not block", (ran.returncode, b"", ran.stderr), wanted)
    out, into = os.pipe()
    os.set_blocking(out, False)
    os.write(into, b"A\nB")
    ran = subprocess.run([*words, "--lines"], stdin=out, capture_output=True, cwd=folder)
    os.close(into)
    os.close(out)
    got = ran.returncode, ran.stdout[:9], ran.stderr
    common.tried("an empty pipe that does not block", got, (3, b"P4\n75 75\n", lines_of(["cannot read the lines"])))


def files(asked):
    """Fonts and lines that cannot be read."""
    for part in missing, paths, forbidden, closed:
        part(asked)


def streams(asked):
    """What is written when, and writes that fail."""
    order(asked)
    failing(asked)
    unblocked(asked)
