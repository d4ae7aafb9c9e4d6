#!/usr/bin/env python3
"""Makes cases.txt, whole.txt and tolerant.txt: runs of the bytecode machine, with what each leaves or why it stops.

  python3 tests/machine/make_cases.py RUNS.json > tests/machine/cases.txt
  python3 tests/machine/make_cases.py RUNS.json whole > tests/machine/whole.txt
  python3 tests/machine/make_cases.py RUNS.json tolerant > tests/machine/tolerant.txt

The files RUNS.json, one for the machine without the whole instruction set, one for that with it, and one for the
tolerant machine, are not kept here: another program made them, an independent model of the three that was written from
the rules alone. For each run they have the parts of the machine, the program, and the parts after it or the fault; the
third also has the fault of a machine that isn't tolerant. This script only writes the same values as lines. What a line
holds stands at the head of each file. Left out and told are runs that begin with a point past the limit of coordinates,
which no machine has: none of the first file, 8 of the second, and none of the third.
"""
import json
import re
import sys

HEAD = """\
# Runs of the bytecode machine; the answers are values by another program, an independent model of the instruction set
# that was written from the rules alone. Made by make_cases.py. A run is a line NAME|QUESTION|ANSWER, where NAME has
# the opcode under test. The words of question and answer stand at the head of crates/tt_test_machine/src/machine.rt. A
# line `font BASE CODE` is the font program whose functions the runs after it have.
"""
HEAD_OF_WHOLE = """\
# Runs of the bytecode machine with the whole instruction set; the answers are values by another program, an independent
# model of it that was written from the rules alone. Made by make_cases.py. A run is a line NAME|QUESTION|ANSWER, where
# NAME has the opcode under test, or says what reaches a limit. The words of question and answer stand at the head of
# crates/tt_test_machine/src/machine.rt. A line `font BASE CODE` is the font program whose functions and instructions
# the runs after it have.
"""
HEAD_OF_TOLERANT = """\
# Runs of the bytecode machine that a tolerant one goes on with; the answers are values by another program, an
# independent model of it that was written from the rules alone. Made by make_cases.py. A run is a line
# NAME|QUESTION|ANSWER|REFUSAL, where NAME has the opcode under test, and REFUSAL is the answer to the same question
# with `whole` in the place of `tolerant`. The words of question and answer stand at the head of
# crates/tt_test_machine/src/machine.rt. A line `font BASE CODE` is the font program whose functions and instructions
# the runs after it have.
"""

# What stands at the head of the file, by the word with which its questions begin.
HEADS = {"": HEAD, "whole": HEAD_OF_WHOLE, "tolerant": HEAD_OF_TOLERANT}

# The greatest magnitude of a coordinate, in 26.6 pixels.
LIMIT = 2097151


def flags(point):
    return point[4] + 2 * point[5] + 4 * point[6]


def words_of(point):
    return f"{point[0]} {point[1]} {point[2]} {point[3]} {flags(point)}"


def counted(values, write=str):
    return " ".join([str(len(values)), *map(write, values)])


def question(case):
    return " ".join([
        case["table"], str(case["base"]), case["code"] or "-", str(case["em"]), str(case["ppem"]),
        counted(case["cvt"]), counted(case["storage"]),
        counted(case["twilight"], words_of), counted(case["glyph"], words_of),
        counted(ends(case["contours"])),
    ])


def ends(contours):
    """The ends of contours that begin each where the one before it ends."""
    start = 0
    for first, end in contours:
        assert first == start <= end
        start = end
    return [end for _, end in contours]


def is_possible(case):
    """Returns whether all points with which a run begins are within the limit."""
    return all(abs(v) <= LIMIT for point in case["twilight"] + case["glyph"] for v in point[:4])


def round_state(value):
    if isinstance(value, str):
        return value
    state = value["Super"]
    return f"Super({state['period']},{state['phase']},{state['threshold']})"


def vector(value):
    """Returns an axis as it is, or a pair of parts."""
    return value if isinstance(value, str) else ",".join(map(str, value))


def settings(state, vectors):
    names = ["rp0", "rp1", "rp2", "zp0", "zp1", "zp2", "loops", "round", "min_distance", "cut_in", "single_width",
             "single_cut_in", "auto_flip", "delta_base", "delta_shift"]
    assert sorted(vectors + names) == sorted(state)
    written = {**state, "round": round_state(state["round"]), "auto_flip": str(state["auto_flip"]).lower()}
    return " ".join([*(vector(state[name]) for name in vectors), *(str(written[name]) for name in names)])


def changed(before, after, write=str):
    assert len(before) == len(after)
    return "".join(f" {i} {write(new)}" for i, (old, new) in enumerate(zip(before, after)) if old != new)


def bodies(name, defined):
    return name + "".join(f" {number} {table} {start}" for number, table, start in defined)


def refusal(fault):
    table, offset, number, name = fault
    return f"{table}+{offset}: {number} {name}"


def answer(case, whole):
    want = case["want"]
    if "fault" in want:
        return refusal(want["fault"])
    parts = [
        f"{want['steps']} steps",
        "stack" + "".join(f" {v}" for v in want["stack"]),
        settings(want["state"], ["proj", "dual", "free"] if whole else ["proj", "free"]),
        "cvt" + changed(case["cvt"], want["cvt"]),
        "storage" + changed(case["storage"], want["storage"]),
        "twilight" + changed(case["twilight"], want["twilight"], words_of),
        "glyph" + changed(case["glyph"], want["glyph"], words_of),
        bodies("functions", want["functions"]),
        *([bodies("instructions", want["instructions"])] if whole else []),
        f"flags {want['skip_glyphs']} {want['default_state']}".lower(),
    ]
    return "; ".join(parts)


def line(name, case, rules):
    """Returns the line of a run by these rules, which are the first word of its question if they have a name."""
    columns = [name, f"{rules} {question(case)}".lstrip(), answer(case, whole=rules != "")]
    if rules == "tolerant":
        columns.append(refusal(case["strict"]))
    return "|".join(columns)


def main():
    runs = json.load(open(sys.argv[1]))
    rules = sys.argv[2] if len(sys.argv) > 2 else ""
    print(HEADS[rules], end="")
    print(f"font {runs['fpgm_base']} {runs['fpgm']}")
    for case in runs["cases"]:
        name = re.sub(r"\W+", "_", case["name"])
        if not is_possible(case):
            print(f"{name} is left out: it begins with a point past the limit", file=sys.stderr)
            continue
        print(line(name, case, rules))


main()
