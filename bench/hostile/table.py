"""The table of SECURITY.md: for each of its rows the worst that was measured, beside the font `two`."""
from dataclasses import dataclass

# Each row and the jobs of which it tells the worst; `bdf` stands for a list of tt_glyphs, which makes the same glyphs.
ROWS = (
    ("`best`, one line drawn, measured or grown", ("draw", "measure", "grow", "1 line")),
    ("`best`, `--lines`", ("10 lines", "40 lines grown")),
    ("`label`, one text", ("label", "label of lines")),
    ("`bdf`, one list of `tt_glyphs`", ("bdf",)),
    ("`label --lines`", ("10 labels",)),
    ("kerning, with `--kern`", ("kerned",)),
)
MEMORY_ROWS = (
    ("`best`, memory", tuple(job for row, jobs in ROWS for job in jobs if job != "bdf")),
    ("`bdf`, memory", ("bdf",)),
)


@dataclass
class Measure:
    """A job's font and name, its seconds over those of `two`, its seconds, the MiB resident at most and those of the
    font, how many lines the job reads, and how it ended.
    """

    font: str
    job: str
    ratio: float
    seconds: float
    resident: float
    font_mib: float
    lines: int
    end: str

    @property
    def mib(self):
        """The MiB besides the font."""
        return max(self.resident - self.font_mib, 0)


def worst(measures, jobs, value):
    """Returns the greatest of the measures of these jobs by a value, or None where there is none."""
    return max((it for it in measures if it.job in jobs), key=value, default=None)


def row(words, it):
    """Returns a row of the table."""
    by_line = f", {it.ratio / it.lines:.2f} a line" if it.lines else ""
    return f"| {words} | {it.ratio:.2f}{by_line} | {it.seconds:.2f} | {it.mib:.0f} | {it.font}, {it.job} |"


def table(measures):
    """Returns the lines of the table, without the rows of which no job was run."""
    found = [(words, worst(measures, jobs, lambda it: it.ratio)) for words, jobs in ROWS]
    found += [(words, worst(measures, jobs, lambda it: it.mib)) for words, jobs in MEMORY_ROWS]
    heads = ["| the worst of | times `two` | s | MiB besides the font | font, job |", "|---" * 5 + "|"]
    return heads + [row(words, it) for words, it in found if it]
