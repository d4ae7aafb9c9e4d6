"""Devices that move little, or fail; see the script `run` beside this file, which starts it."""
import socket
import subprocess
import sys
from pathlib import Path

sys.path.insert(0, str(Path(__file__).resolve().parent.parent / "damaged"))
from asking import NOTHING, answer_of, asked, font_in_file, report, rows, sum_of, words_of, words_of_program

# More than any reader or writer moves here.
ALL = 1 << 40
# What is refused before the font is read.
BEFORE_READING = (b"tt_render: 60 SizeRange\n", b"tt_render: 61 TextLong\n", b"tt_render: 64 MarginRange\n")
# A row whose answer is longer is left to the other scripts.
LONGEST = 1000
# The most bytes of a band of rows.
BAND = 65536
# So many cases at the least; fewer would be a script that asks too little.
LEAST = 80_000
READ = f"3 {NOTHING}|tt_render: cannot read the font|"


def cut_answer(stdout, room, end):
    """Returns the answer of a writer that took so many bytes. Where its reader is gone, nothing is told of that."""
    line = "" if end == "closed" else f"tt_render: cannot write after {room} bytes|"
    return f"4 {room} {sum_of(stdout[:room])}|{line}"


def writers(stdout, answer):
    """Yields each writer, and the answer that it is to get."""
    for step in (1, 3):
        yield f"{ALL} 0 {step} {ALL} fails", answer
    for room in range(len(stdout)):
        for step in (1, ALL):
            for end in ("fails", "nothing", "closed"):
                yield f"{ALL} 0 {step} {room} {end}", cut_answer(stdout, room, end)
    yield f"{ALL} 0 {ALL} {len(stdout)} fails", answer


def readers(font, answer):
    """Yields each reader, and the answer that it is to get. The last read finds the end."""
    for step in (1, 100):
        reads = -(-len(font) // step) + 1
        for number in range(1, reads + 1):
            yield f"{step} {number} {ALL} {ALL} fails", READ
        yield f"{step} {reads + 1} 1 {ALL} fails", answer


def whole_rows():
    """Yields the rows whose font is not cut: one that is says no more here than a whole one."""
    return (row for row in rows() if not row.name.startswith("cut_to_"))


def cases():
    """Yields each case: its name, the lines that are asked, and the answer."""
    for row in whole_rows():
        if row.stderr in BEFORE_READING:
            pairs = [(f"1 1 {ALL} {ALL} fails", row.answer())]
        else:
            pairs = [*readers(row.font, row.answer())]
        if row.status == 0 and len(row.stdout) <= LONGEST:
            pairs += writers(row.stdout, row.answer())
        for number, (devices, want) in enumerate(pairs):
            lines = [] if number else [f"font {words_of(row.font)}"]
            yield f"{row.name}, {row.kind}, devices {devices}", [*lines, f"devices {devices}", row.question()], want


def told(row, count):
    """Returns what is told of a row's text, drawn as so many lines."""
    return b"".join(row.stderr.replace(b"tt_render: ", b"tt_render: line %d: " % (n + 1)) for n in range(count))


def lines_question(row, fails_at, lines):
    """Returns the question of some lines, of whose reads one fails."""
    size, margin = row.shape
    return f"lines {words_of(lines)} {fails_at} draw {size} {margin} {row.kind} {len(row.font)}"


def line_cases():
    """Yields cases of two lines, each a row's text: each read of them fails in turn, and a writer takes each number of
    bytes below the answer's."""
    drawn = [row for row in whole_rows() if row.kind != "map" and row.status == 0 and row.text and len(row.stdout) < 100]
    for row in (row for row in drawn[::7] if b"\n" not in row.text and not row.text.endswith(b"\r")):
        line, both = row.text + b"\n", 2 * row.stdout
        font = [f"font {words_of(row.font)}"]
        for number in range(1, 2 * len(line) + 2):
            count = (number - 1) // len(line)
            want = answer_of(3, count * row.stdout, told(row, count) + b"tt_render: cannot read the lines\n")
            asks = [*font, f"devices 1 0 {ALL} {ALL} fails", lines_question(row, number, 2 * line)]
            yield f"{row.name}, {row.kind}, read {number} of the lines fails", asks, want
        for room in range(len(both)):
            count, sent = divmod(room, len(row.stdout))
            last = b"tt_render: line %d: cannot write after %d bytes\n" % (count + 1, sent)
            for end, why in (("fails", last), ("closed", b"")):
                asks = [*font, f"devices {ALL} 0 1 {room} {end}", lines_question(row, 0, 2 * line)]
                want = answer_of(4, both[:room], told(row, count) + why)
                yield f"{row.name}, {row.kind}, lines in room for {room}, {end}", asks, want
        asks = [*font, f"devices 1 0 1 {len(both)} fails", lines_question(row, 0, 2 * line)]
        yield f"{row.name}, {row.kind}, two lines", asks, answer_of(0, both, told(row, 2))


def writes_of(row):
    """Returns what tt_render hands over in each of its writes, by a socket that keeps them apart."""
    ours, theirs = socket.socketpair(socket.AF_UNIX, socket.SOCK_SEQPACKET)
    ours.settimeout(60)
    with ours, theirs, font_in_file(row.font) as file:
        words = words_of_program(row.kind, file.name, row.text, row.shape)
        with subprocess.Popen(words, stdin=subprocess.DEVNULL, stdout=theirs, stderr=subprocess.DEVNULL):
            theirs.close()
            return [*iter(lambda: ours.recv(2 * LONGEST), b"")]


def wanted_writes(stdout):
    """Returns the header of a picture with the first band of its rows, and each further band."""
    magic, size, pixels = stdout.split(b"\n", 2)
    width, height = map(int, size.split())
    each = (width + 7) // 8
    band = each * min(height, BAND // each)
    header = b"%s\n%s\n" % (magic, size)
    return [header + pixels[:band], *(pixels[at : at + band] for at in range(band, len(pixels), band))]


def try_writes():
    """Tries that the header and each band are one write; returns how many pictures are so written, and the failures."""
    drawn = [row for row in whole_rows() if row.kind != "map" and row.status == 0 and len(row.stdout) <= LONGEST]
    wrong = [f"{row.name}: not one write for the header and a band" for row in drawn if not is_by_bands(row)]
    return len(drawn) - len(wrong), wrong


def is_by_bands(row):
    return writes_of(row) == wanted_writes(row.stdout)


def main():
    names, lines, wanted = [], [], []
    for name, ask, want in (*cases(), *line_cases()):
        names.append(name)
        lines += ask
        wanted.append(want)
    answers, wrong = asked(lines)
    failures = [f"devices: {wrong}"] if wrong else []
    for name, want, answer in zip(names, wanted, answers + [""] * len(wanted)):
        if answer != want:
            failures.append(f"{name}: '{answer}', and not '{want}'")
    if len(wanted) < LEAST:
        failures.append(f"only {len(wanted)} cases")
    passed, unlike = try_writes()
    report("devices", len(wanted) - len(failures) + passed, failures + unlike)


if __name__ == "__main__":
    main()
