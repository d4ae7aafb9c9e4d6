"""Compares the pictures of printable ASCII, as `bdf` draws them with best, with those that FreeType makes itself on this
machine, and prints how many are the same: of glyphs that a program fits, of the other glyphs in fonts with programs, and
of those in fonts without. No test runs it.

    apt-get install libfreetype-dev pkg-config
    tests/dots/try_all.py [--sizes 9,10,..] [FONT ..]

Without fonts it takes all below /usr/share/fonts. TT_RENDER=PATH asks another program.
"""
import argparse
import collections
import os
import pathlib
import subprocess
import sys
import tempfile

import connected

HERE = pathlib.Path(__file__).resolve().parent
ASCII = "".join(map(chr, range(33, 127)))


def main():
    asked = argparse.ArgumentParser()
    asked.add_argument("--sizes", default="9,10,11,12,13,14,15,16")
    asked.add_argument("fonts", nargs="*")
    asked = asked.parse_args()
    sizes = [int(it) for it in asked.sizes.split(",")]
    program = os.environ.get("TT_RENDER") or str(HERE.parents[1] / "tt_render")
    same, all_of = collections.Counter(), collections.Counter()
    with tempfile.TemporaryDirectory() as room:
        flags = subprocess.run(["pkg-config", "--cflags", "--libs", "freetype2"], capture_output=True, text=True, check=True)
        peer = f"{room}/freetype"
        subprocess.run(["cc", "-O1", "-o", peer, HERE / "pictures_by_freetype.c", *flags.stdout.split()], check=True)
        for font in asked.fonts or sorted(map(str, pathlib.Path("/usr/share/fonts").rglob("*.ttf"))):
            programs = connected.Programs(pathlib.Path(font).read_bytes())
            for size, theirs in zip(sizes, connected.drawn_by_freetype(peer, font, sizes, ASCII)):
                for ours, it in zip(connected.drawn(program, font, size, ASCII), theirs):
                    if ours is None or it is None:
                        continue
                    kind = ("fitted" if programs.has(it[0]) else "unfitted") if programs.of_font else "no programs"
                    all_of[kind] += 1
                    same[kind] += ours == it[1]
    for kind, count in sorted(all_of.items()):
        print(f"{kind}: {same[kind]} of {count} pictures are FreeType's, {100 * same[kind] / count:.3f} %")


if __name__ == "__main__":
    sys.exit(main())
