"""The program under test: what it is asked, and how its answers are compared."""
import resource
import subprocess

WORK_LARGE = ["tt_render: 65 WorkLarge"]
# Status, standard output and lines of a line with too much work.
REFUSED = 2, b"", WORK_LARGE


class Asked:
    """The program, and the font that it is asked about."""

    def __init__(self, program, room):
        self.program, self.font = program, room / "font"

    def run(self, *words, text=None, lines=b"", most_bytes=None):
        """Returns the status, standard output and the lines of standard error. Lines stand on standard input. The
        program has at most so many bytes of memory.
        """

        def limit():
            if most_bytes is not None:
                resource.setrlimit(resource.RLIMIT_AS, (most_bytes, most_bytes))

        command = [self.program, *map(str, words), "--", str(self.font), *([] if text is None else [text])]
        ran = subprocess.run(command, input=lines, capture_output=True, preexec_fn=limit)
        return ran.returncode, ran.stdout, ran.stderr.decode(errors="replace").splitlines()

    def draw(self, fit, size, text, *options):
        """Draws a text."""
        return self.run("draw", "--fit", fit, "--size", size, *options, text=text)

    def lines(self, fit, size, lines, *options):
        """Draws the lines of some bytes, with a margin: a glyph without an advance has a picture too."""
        return self.run("draw", "--fit", fit, "--size", size, "--margin", 1, "--lines", *options, lines=lines)

    def labels(self, fit, size, lines):
        """Draws the lines of some bytes as labels. Of what is reported only the refusal of a line is returned."""
        status, pictures, told = self.run("label", "--fit", fit, "--size", size, "--lines", lines=lines)
        return status, pictures, [it for it in told if it.startswith("tt_render: line ") and "WorkLarge" in it]

    def measured(self, fit, size, lines):
        """Measures the lines of some bytes."""
        return self.run("measure", "--fit", fit, "--size", size, "--margin", 1, "--lines", lines=lines)

    def measure(self, fit, size, text):
        """Measures a text."""
        return self.run("measure", "--fit", fit, "--size", size, text=text)


def told(name, got, wanted, parts=("status", "picture", "lines")):
    """Prints whether a case holds. Where what is wanted is None, any part will do."""
    for part, one, other in zip(parts, got, wanted):
        if other is not None and one != other:
            print(f"{name} -- {part} {one!r:.200}, and not {other!r:.200}".replace("\n", " "))
            return
    print("ok", name)


DRAWN = 0, None, []


def unfitted(glyph, place):
    """The report of a glyph whose program is refused for its work, at a place in glyf."""
    return f"tt_render: glyph {glyph} unfitted: glyf+{place}: 30 StepLimit"


def places_of(glyphs):
    """Where each of some glyphs begins in glyf, behind an empty one."""
    at = 0
    for glyph in glyphs:
        yield at
        at += len(glyph) + len(glyph) % 2
