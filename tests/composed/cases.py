"""The fonts, the jobs and the texts of composed/run."""
import random
from pathlib import Path
from typing import NamedTuple

import common

LIST = common.ROOT / "tests/real_fonts/fonts.txt"
FITS = "none", "full", "fallback", "best"
SIZES = 9, 12, 16, 23, 31, 48, 7, 96
MARGINS = 0, 2, 0, 5
ALIGNS = "left", "centre", "right"
# So many sizes are tried of each font, and so many texts of each case.
SIZES_OF_A_FONT = 3
TEXTS = 20
# Characters of the texts: pairs that are kerned, ink that leaves its line, and some that a font may lack.
CHARACTERS = "".join(map(chr, (*range(0x20, 0x7F), *range(0xA1, 0x100))))
CHARACTERS += "AVTWYLPafjgyToveAVATAR\u0150\u01e6\u03a3\u0436\u1e9e\u20ac\u2026"


class Case(NamedTuple):
    """A font at a size, and how texts are drawn by it. The seed chooses the texts."""

    font: Path
    size: int
    fit: str
    margin: int
    kern: bool
    rounded: bool
    seed: int

    def __str__(self):
        ways = [self.fit] + ["kerned"] * self.kern + ["rounded"] * self.rounded
        return f"{self.font.stem} at {self.size}, margin {self.margin}, {' '.join(ways)}"

    def texts(self):
        """Returns the texts: each draws something, and no line feed is in them."""
        chosen = random.Random(self.seed)
        return ["".join(chosen.choices(CHARACTERS, k=chosen.randint(1, 20))) for _ in range(TEXTS)]

    def labels(self, texts):
        """Yields the lines of labels: one to five, and some with empty lines among them; and the place of the lines."""
        for count in range(1, 6):
            yield texts[count : 2 * count], ALIGNS[(self.seed + count) % 3]
        yield [texts[0], "", texts[1]], ALIGNS[self.seed % 3]

    def words(self):
        """Returns the words of a command line that say how texts are drawn."""
        words = ["--size", str(self.size), "--margin", str(self.margin), "--fit", self.fit, "--face", "0"]
        return words + ["--kern"] * self.kern + ["--height", "rounded"] * self.rounded


def fonts():
    """Returns the paths of the fonts of ../real_fonts that are here, and of those that are not."""
    lines = LIST.read_text(encoding="utf-8").splitlines()
    paths = [Path(it.split()[-1]) for it in lines if not it.startswith("#")]
    return [it for it in paths if it.is_file()], [it for it in paths if not it.is_file()]


def cases(paths):
    """Yields the cases of these fonts: each way to fit, kerned and not, at some of the sizes."""
    turn = 0
    for font in paths:
        for at in range(SIZES_OF_A_FONT):
            for fit in FITS:
                for kern in (False, True):
                    size, margin = SIZES[(turn // 8) % len(SIZES)], MARGINS[turn % len(MARGINS)]
                    yield Case(font, size, fit, margin, kern, turn % 5 == 4, turn)
                    turn += 1
