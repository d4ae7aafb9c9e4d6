"""Real fonts with changed bytes; see the script `run` beside this file, which starts it."""
import collections
import os
import random
import select
import subprocess
import sys
import time
from concurrent.futures import ProcessPoolExecutor
from pathlib import Path

sys.path.insert(0, str(Path(__file__).resolve().parent.parent / "damaged"))
from asking import FITS, ROOT, question, report, tables_of, why_not_alike, why_wrong
from collections_of_fonts import Collected
from kerned_fonts import Kerned
from varied_fonts import Varied

FONTS = [
    line.split()[-1]
    for line in (ROOT / "tests" / "real_fonts" / "fonts.txt").read_text(encoding="utf-8").split("\n")
    if line and not line.startswith("#")
]
# Directory, lengths and the other tables stay whole.
CHANGED = {"glyf": 45, "fpgm": 15, "prep": 15, "cvt ": 8, "loca": 7, "maxp": 10}
# Instructions that lead somewhere else, or are worth more where a wrong number meets them.
OPCODES = bytes.fromhex("1C78792A2B2C2D17581B59 202122232526 4041B0B8B9 42434445 60616263 8E5D73")
# Pieces of programs.
PIECES = [
    bytes.fromhex(piece)
    for piece in (
        # endless, until the stack is full, until a product is too great, and interpolation without end
        *("B8FFFD1C", "20B8FFFC1C", "B87FFF206320B8FFFA1C", "3031B8FFFB1C"),
        # 32,767 points, as many calls, and a function within itself
        *("B87FFF17", "B97FFF00002A", "B0002CB0002B2D"),
        # a control value and storage, exceptions, twilight points
        *("B1007F44", "B1007F42", "B27F7F015D", "B27F7F0173", "B00016B100003F", "B0041304B00010"),
    )
]
LETTERS = [*map(chr, range(33, 127)), *map(chr, range(0xC0, 0x180)), *map(chr, range(0x391, 0x3CA))]
# The longest that an answer may take, in seconds.
PATIENCE = 60
# Files of the cases that failed.
KEPT = ROOT / "out" / "fuzz"


class Font:
    """A font file, and where its tables and glyphs are."""

    def __init__(self, path):
        self.path = path
        self.data = Path(path).read_bytes()
        self.tables = tables_of(self.data)
        self.glyf = self.tables["glyf"][0]
        head, loca = self.tables["head"][0], self.tables["loca"][0]
        self.wide = 4 if self.data[head + 51] else 2
        self.count = self.number(self.tables["maxp"][0] + 4, 2)
        unit = 1 if self.wide == 4 else 2
        self.loca = [unit * self.number(loca + self.wide * at, self.wide) for at in range(self.count + 1)]
        self.glyphs = self.characters()

    def number(self, at, size):
        return int.from_bytes(self.data[at : at + size], "big")

    def characters(self):
        """Returns the glyphs of characters, by the first subtable of format 4 that has no array of glyphs in use."""
        cmap = self.tables["cmap"][0]
        glyphs = {}
        for record in range(self.number(cmap + 2, 2)):
            at = cmap + self.number(cmap + 8 + 8 * record, 4)
            if self.number(at, 2) != 4:
                continue
            double = self.number(at + 6, 2)
            for segment in range(at + 14, at + 14 + double, 2):
                last, first = self.number(segment, 2), self.number(segment + 2 + double, 2)
                delta, far = self.number(segment + 2 + 2 * double, 2), segment + 2 + 3 * double
                for code in range(first, min(last, 0x3CA) + 1):
                    place = far + self.number(far, 2) + 2 * (code - first)
                    glyph = self.number(place, 2) if self.number(far, 2) else code
                    glyphs[chr(code)] = (glyph + delta) % 65536
            break
        return glyphs

    def code(self, start):
        """Returns the place and the length of a simple glyph's program, or None."""
        contours = self.number(self.glyf + start, 2)
        if not 0 < contours < 0x8000:
            return None
        at = self.glyf + start + 10 + 2 * contours
        return at + 2, self.number(at, 2)

    def parts(self, glyph, depth=0):
        """Yields a glyph and its components: where each begins in glyf, and ends."""
        start, end = self.loca[glyph], self.loca[glyph + 1]
        yield start, end
        at = self.glyf + start
        if start == end or self.data[at] < 0x80 or depth > 4:
            return
        flags, at = 0x20, at + 10
        while flags & 0x20:
            flags = self.number(at, 2)
            yield from self.parts(self.number(at + 2, 2), depth + 1)
            at += 4 + (4 if flags & 1 else 2) + (2 if flags & 8 else 4 if flags & 0x40 else 8 if flags & 0x80 else 0)


class Case:
    """A case by its seed and number: a font, a text, how it is drawn, and the changes."""

    def __init__(self, fonts, seed, number):
        dice = random.Random(f"{seed} {number}")
        self.number = number
        self.font = dice.choice(fonts)
        letters = [it for it in LETTERS if self.font.glyphs.get(it)]
        self.text = "".join(dice.choices(letters, k=dice.randint(1, 6))).encode()
        self.shape = (dice.choice([dice.randint(6, 40), dice.randint(1, 300)]), dice.choice([0, 0, 0, 1, 64]))
        self.kinds = [*FITS, *(["map"] if dice.random() < 0.1 else [])]
        changes = {}
        for _ in range(dice.choice([1, 1, 1, 2, 3, 5, 9, 20])):
            at, end = self.place(dice)
            piece = dice.choice(PIECES) if dice.random() < 0.2 else bytes([self.byte(dice, self.font.data[at])])
            changes.update(zip(range(at, end), piece))
        self.changes = sorted(changes.items())

    def place(self, dice):
        """Returns a place of the file that may change, mostly one that the text meets, and where its table ends."""
        font = self.font
        tables = [it for it in CHANGED if font.tables.get(it, (0, 0))[1]]
        table = dice.choices(tables, [CHANGED[it] for it in tables])[0]
        start, length = font.tables[table]
        glyph = font.glyphs[dice.choice(self.text.decode())]
        at = dice.randrange(length)
        if table == "glyf" and dice.random() < 0.95:
            first, end = dice.choice([*font.parts(glyph)])
            code = font.code(first) if first < end else None
            if code and code[1] and dice.random() < 0.6:
                return code[0] + dice.randrange(code[1]), sum(code)
            if first < end:
                # Half of them among the first bytes, where the header and the records are.
                at = first + dice.randrange(min(end - first, dice.choice([40, end - first])))
        elif table == "loca" and dice.random() < 0.9:
            at = font.wide * glyph + dice.randrange(2 * font.wide)
        elif table == "maxp":
            # Its version is left.
            at = dice.randrange(4, min(length, 32))
        return start + at, start + length

    @staticmethod
    def byte(dice, old):
        """Returns what a byte becomes."""
        by_value = [0, 0xFF, 0x7F, 0x80, (old + 1) % 256, (old - 1) % 256, old ^ (1 << dice.randrange(8))]
        return dice.choice([*by_value, dice.randrange(256), dice.choice(OPCODES), dice.choice(OPCODES)])

    def changed(self):
        data = bytearray(self.font.data)
        for at, byte in self.changes:
            data[at] = byte
        return bytes(data)

    def question(self, kind):
        return question(kind, self.text, self.shape, len(self.font.data), self.changes)

    def told(self, kind):
        """Says what was asked, and keeps the font as a file."""
        KEPT.mkdir(parents=True, exist_ok=True)
        path = KEPT / f"case-{self.number}.ttf"
        path.write_bytes(self.changed())
        words = f"--size {self.shape[0]} --margin {self.shape[1]} --fit {kind}"
        command = "map" if kind == "map" else f"draw {words}"
        return f"tt_render {command} {path.relative_to(ROOT)} -- '{self.text.decode()}'"


class Program:
    """`tt_test_answers fonts`, asked one question at a time, and started anew where it ended."""

    def __init__(self):
        self.process, self.font, self.rest = None, None, b""

    def ask(self, font, line):
        """Returns the answer, or None where the program ended or took too long, and why."""
        if self.process is None:
            self.process = subprocess.Popen(
                [os.environ["TT_ANSWERS"], "fonts"],
                stdin=subprocess.PIPE,
                stdout=subprocess.PIPE,
                stderr=subprocess.PIPE,
            )
            self.font, self.rest = None, b""
        if self.font != font.path:
            self.font = font.path
            line = f"file {font.path}\n{line}"
        try:
            self.process.stdin.write(line.encode() + b"\n")
            self.process.stdin.flush()
        except BrokenPipeError:
            return None, self.end()
        late = time.monotonic() + PATIENCE
        while b"\n" not in self.rest:
            if not select.select([self.process.stdout], [], [], max(0, late - time.monotonic()))[0]:
                self.end()
                return None, f"no answer within {PATIENCE} seconds"
            piece = os.read(self.process.stdout.fileno(), 65536)
            if not piece:
                return None, self.end()
            self.rest += piece
        answer, _, self.rest = self.rest.partition(b"\n")
        return answer.decode(), None

    def end(self):
        """Ends the program; returns its status and what it said."""
        self.process.kill()
        _, errors = self.process.communicate()
        status, self.process = self.process.returncode, None
        return f"the program ended with status {status} {errors.decode()}"

    def memory(self):
        """Returns the most memory that it held, in KiB."""
        with open(f"/proc/{self.process.pid}/status", encoding="utf-8") as lines:
            return next((int(line.split()[1]) for line in lines if line.startswith("VmHWM")), 0)


def try_other(case, counts, failures):
    """Tries a case of a collection, of kerning or of a variable font, and keeps its file where one of its answers is wrong."""
    for kind, answer, why in case.answers():
        counts["wrong" if why else (kind, answer)] += 1
        if why:
            KEPT.mkdir(parents=True, exist_ok=True)
            path = KEPT / f"case-{case.number}.{'ttc' if case.file[:4] == b'ttcf' else 'ttf'}"
            path.write_bytes(case.file)
            failures.append(f"case {case.number} of seed {case.seed}: {why}: {case.told(path.relative_to(ROOT))}")


def work(seed, first, step, seconds, only):
    """Tries every so many cases for some seconds, or one alone. Returns the counts of answers, the failures, the
    slowest, and the one that the most memory was held in."""
    fonts, program = [Font(it) for it in FONTS], Program()
    counts, failures = collections.Counter(), []
    slowest, most = (0, ""), (0, "")
    end, number = time.monotonic() + seconds, first
    while time.monotonic() < end and len(failures) < 20:
        other = next((it for it in (Collected, Kerned, Varied) if it.is_one(seed, number)), None)
        if other:
            try_other(other(fonts, seed, number), counts, failures)
            if only:
                break
            number += step
            continue
        case = Case(fonts, seed, number)
        data = case.changed()
        answers = {}
        for kind in case.kinds:
            began = time.monotonic()
            answer, why = program.ask(case.font, case.question(kind))
            took = time.monotonic() - began
            why = why or why_wrong(data, kind, answer, case.font.tables)
            told = f"case {number}, {kind}"
            if why:
                failures.append(f"{told} of seed {seed}: '{answer}' {why}: {case.told(kind)}")
                counts["wrong"] += 1
                continue
            answers[kind] = answer
            counts[kind, " ".join(answer.split("|")[1].split()[-2:]) if answer[0] != "0" else "drawn"] += 1
            slowest = max(slowest, (took, told))
            held = program.memory()
            if held > most[0]:
                most = (held, told)
        why = len(answers) == len(case.kinds) and why_not_alike(answers)
        if why:
            failures.append(f"case {number} of seed {seed} {why}: {case.told('full')}")
        if only:
            break
        number += step
    if program.process:
        program.end()
    return counts, failures, slowest, most


def main():
    seconds = float(sys.argv[1])
    seed = int(sys.argv[2]) if len(sys.argv) > 2 else random.SystemRandom().randrange(10**9)
    print(f"fuzz: seed {seed}", flush=True)
    if len(sys.argv) > 3:
        ended = [work(seed, int(sys.argv[3]), 1, PATIENCE, True)]
    else:
        workers = os.cpu_count()
        with ProcessPoolExecutor(max_workers=workers) as pool:
            ended = list(pool.map(work, *zip(*((seed, it, workers, seconds, False) for it in range(workers)))))
    counts = sum((it[0] for it in ended), collections.Counter())
    failures = [line for it in ended for line in it[1]]
    for kind in ("map", *FITS, "map of a face", "faces", "draw of a face", "kerned", "varied"):
        of_kind = [(count, key[1]) for key, count in counts.items() if key[0] == kind]
        print(f"{kind}: " + ", ".join(f"{name} {count}" for count, name in sorted(of_kind, reverse=True)))
    took, told = max(it[2] for it in ended)
    print(f"the slowest: {took:.2f} s, {told}")
    held, told = max(it[3] for it in ended)
    print(f"the most memory: {held / 1024:.0f} MiB, {told}")
    passed = sum(counts.values()) - counts["wrong"]
    if not passed:
        failures.append("no case was tried")
    report("fuzz", passed, failures)


if __name__ == "__main__":
    main()
