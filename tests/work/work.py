"""Tries lines whose work `--fit best` bounds. `run` calls this script with the path of the program and a folder for
fonts. Parts named after these are tried alone. Prints a line for each case, `ok NAME`, or `NAME -- ` and the
difference; and the slowest of the hostile fonts.
"""
import sys
from pathlib import Path

sys.path.insert(0, str(Path(__file__).resolve().parent.parent / "outlines"))

from asking import Asked
from held import held
from hostile_fonts import hostile
from kept_glyphs import kept
from many_lines import lines
from programs import functions, programs, values, weights
from remaining import remaining
from shapes import crossings, points

PARTS = programs, functions, weights, values, points, crossings, remaining, lines, kept, held, hostile


def main():
    """Tries the parts, or those that the command line names."""
    asked = Asked(sys.argv[1], Path(sys.argv[2]))
    for part in PARTS:
        if part.__name__ in sys.argv[3:] or not sys.argv[3:]:
            part(asked)


main()
