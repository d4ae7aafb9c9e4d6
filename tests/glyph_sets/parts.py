"""The parts of glyph_sets/run that need no installed font: the cases of cases.txt, and calls of tt_glyphs."""
import itertools
import random
import subprocess
import sys

import calls
import cases
import command_lines
import common
import drawn
import labels

# Fonts of bench/hostile of which `best` draws a line, and leaves a glyph unfitted.
STOPPED = "two", "skips", "entries", "moves", "pushes"
# Cases of cases.txt, by their kinds.
COUNTS = {"bdf": 50, "glyphs": 22, "layout": 13}


def all_cases(kind):
    """Returns the cases of a kind, and counts a case that failed where one is lacking."""
    found = list(cases.all_of(kind))
    if len(found) != COUNTS[kind]:
        common.verdict(f"cases of {kind}", [f"cases.txt has {len(found)}, and not {COUNTS[kind]}"])
    return found


def differing(**pairs):
    """Returns a line for each pair of values that differ: what is wanted, and what is there."""
    differ = {name: pair for name, pair in pairs.items() if pair[0] != pair[1]}
    return [f"{name}: wanted {str(one)[:200]}, got {str(other)[:200]}" for name, (one, other) in differ.items()]


def runs(asked):
    """The runs of `bdf`."""
    found = all_cases("bdf")
    run = lambda it: asked.run([b"bdf", *it.words], asked.folder(it.font))
    for case, got in zip(found, asked.each(run, found)):
        if case.errors is None:
            common.verdict(f"bdf {case.name}", command_lines.complains(got))
        else:
            common.tried(f"bdf {case.name}", got, (case.status, case.stdout, case.errors))


def glyphs(asked):
    """The calls of tt_glyphs."""
    for case in all_cases("glyphs"):
        size, margin, fit, face = case.job
        job = calls.job_of(size, margin, fit, face)
        answer, entries, rows = asked.library.glyphs(case.font, case.numbers, job, case.room, case.told_room)
        done = case.answer[0] == calls.DONE
        why = differing(
            answer=(case.answer, calls.values_of(answer)),
            entries=(case.entries if done else None, entries),
            rows=(case.rows if done else None, rows),
        )
        common.verdict(f"tt_glyphs {case.name}", why)


def layouts(asked):
    """The calls of tt_layout and tt_pens."""
    for case in all_cases("layout"):
        size, margin, fit, face = case.job
        job = calls.job_of(size, margin, fit, face)
        answer, layout = asked.library.layout(case.font, case.text, job)
        done = case.answer[0] == calls.DONE
        why = differing(answer=(case.answer, calls.values_of(answer)), layout=(case.layout if done else None, layout))
        common.verdict(f"tt_layout {case.name}", why)
        answer, pens = asked.library.pens(case.font, case.text, job)
        wanted = *case.answer[:5], len(case.pens)
        why = differing(answer=(wanted, calls.values_of(answer)), pens=(case.pens if done else None, pens))
        common.verdict(f"tt_pens {case.name}", why)


def firsts(entries):
    """Returns the entries of distinct numbers, in order."""
    return list({it[0]: it for it in entries}.values())


def faults_of(numbers, entries, alone):
    """Returns what is wrong with the entries of a list, of whose numbers the entries alone are known."""
    why, at = [], 0
    if [it[0] for it in entries] != numbers:
        why.append("other numbers than those of the list")
    for it in firsts(entries):
        if it[:-1] != alone[it[0]][:-1]:
            why.append(f"glyph {it[0]}: {it}, and alone {alone[it[0]]}")
        if it[-1] != at:
            why.append(f"glyph {it[0]}: its rows begin at {it[-1]}, and not at {at}")
        at += (it[8] + 7) // 8 * it[9]
    first = {it[0]: it for it in reversed(entries)}
    return why + [f"glyph {it[0]}: {it}, and first {first[it[0]]}" for it in entries if it != first[it[0]]]


def lists(asked):
    """Lists of any numbers, with repeats: each entry is the one of its number alone, but for where its rows begin."""
    fonts, chance = labels.fonts(cases.FILE), random.Random(60)
    for name, last in (("T", 2), ("mono", 12), ("deep", 2), ("divides", 2), ("wide ink", 2), ("off profile", 2)):
        numbers = [*range(last + 1), last + 1, 65535, 65536, 2**32 - 1]
        for fit, size in itertools.product(("full", "none", "fallback", "best"), (9, 16, 300)):
            job = calls.job_of(size, 0, fit, 0)
            alone = {it: asked.library.glyphs(fonts[name], [it], job)[1:] for it in numbers}
            for count in (1, 2, 30):
                these = [chance.choice(numbers) for _ in range(count)]
                answer, entries, rows = asked.library.glyphs(fonts[name], these, job)
                why = differing(status=(calls.DONE, answer.status))
                if not why:
                    wanted = b"".join(alone[it][1] for it in dict.fromkeys(these))
                    why = differing(rows=(wanted, rows), count=(count, answer.count), bytes=(len(wanted), answer.bytes))
                    why += faults_of(these, entries, {it: one[0] for it, (one, _) in alone.items()})
                common.verdict(f"list of {count}, {name} at {size}, {fit}", why)


def asked_with(asked, *words, room, told_room):
    return calls.values_of(asked.library.glyphs(*words, room, told_room)[0])


def small_rooms(asked, name, font, numbers):
    """Rooms of each size about that of the rows, and for each number of entries up to those of a list."""
    job, count = calls.job_of(16, 0, "best", 0), len(numbers)
    answer, entries, rows = asked.library.glyphs(font, numbers, job)
    done, wanted = calls.values_of(answer), len(rows)
    for room in sorted({0, 1, max(wanted, 1) - 1, wanted, wanted + 1}):
        want = done if room >= wanted else (calls.ROOM, 0, "", 0, wanted, count)
        got = asked_with(asked, font, numbers, job, room=room, told_room=count)
        common.verdict(f"room {room} of {wanted}, {name} {numbers}", differing(answer=(want, got)))
    for told_room in range(count + 2):
        want = done if told_room >= count else (calls.ROOM, 0, "", 0, 0, count)
        got = asked_with(asked, font, numbers, job, room=wanted, told_room=told_room)
        common.verdict(f"entries {told_room} of {count}, {name}", differing(answer=(want, got)))
    # A job's margin, grow, kern and rounded are not looked at.
    for margin, grow, *rules in ((64, 0, 0, 1), (65, 1, 1, 0), (2**32 - 1, 2**32 - 1, 1, 1)):
        other = asked.library.glyphs(font, numbers, calls.job_of(16, margin, "best", 0, grow, *rules))
        pair = (done, entries, rows), (calls.values_of(other[0]), *other[1:])
        common.verdict(f"margin {margin}, grow {grow}, rules {rules}, {name}", differing(call=pair))


def rooms(asked):
    """Rooms that are too small by a byte, by an entry, or empty."""
    fonts = labels.fonts(cases.FILE)
    for name, numbers in (("T", [1, 2, 1]), ("mono", [5, 3, 5, 8]), ("T", [2, 99]), ("T", [])):
        small_rooms(asked, name, fonts[name], numbers)
    # The entries are counted before all else, also before a job that is wrong.
    want = calls.ROOM, 0, "", 0, 0, 2
    for font, job in ((b"", (16, 0, "best", 0)), (fonts["T"], (0, 65, "other", 9))):
        got = asked_with(asked, font, [1, 2], calls.job_of(*job), room=0, told_room=1)
        common.verdict("entries before all", differing(answer=(want, got)))


def work(asked):
    """Fonts one of whose glyphs is left without work: with best the entries name that glyph as `draw` does."""
    for name in STOPPED:
        folder = asked.room / name
        folder.mkdir()
        words = [sys.executable, "-B", common.ROOT / "bench/hostile_font", name, folder]
        size = subprocess.run(words, check=True, capture_output=True, text=True).stdout.strip()
        path, text = folder / "font", (folder / "text").read_text(encoding="utf-8")
        status, _, said = asked.run(["draw", "--fit", "best", "--size", size, path, text])
        lines = asked.run(["map", "--face", "0", path, text])[1].decode().splitlines()
        numbers = list(dict.fromkeys(int(it.split()[1]) for it in lines))
        answer, entries, _ = asked.library.glyphs(path.read_bytes(), numbers, calls.job_of(size, 0, "best", 0))
        why = differing(status=(status, answer.status))
        got = {it[0]: drawn.Fault(*it[2:5]) for it in entries or [] if it[2]}
        common.verdict(f"work of {name}", why or differing(unfitted=(drawn.unfitted_in(said), got)))
