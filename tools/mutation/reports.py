"""The lines of a run, the report that it leaves, and its table.

A report has a line for each mutant: its verdict, the seconds (of a run over several, its share), the crate that decided, the key, the message, and
the sum of the crate's own files, with tabs between.
"""

from typing import NamedTuple

from mutation.mutants import CODE, DEFINITIONS, EDITS, KINDS
from mutation.verdicts import FALSE, MISFIT, NONE, SURVIVED, UNKNOWN, Verdict

EQUIVALENT = "equivalent"
COLUMNS = (FALSE, MISFIT, NONE, EQUIVALENT, SURVIVED, UNKNOWN)

WORDS = 160
CELLS = 6


class Row(NamedTuple):
    """A line of a report: the verdict and the crate that gave it, the mutant's key, and the sum of its crate."""

    verdict: Verdict
    crate: str
    key: str
    sum: str

    @property
    def kind(self):
        """What the mutant is of."""
        file = self.key.split()[1]
        return EDITS if file == "edit" else CODE if file.startswith("src/") else DEFINITIONS


class Found(NamedTuple):
    """A mutant in the table: its crate, what it is of, and its column."""

    crate: str
    kind: str
    column: str


def column(key, kind, equivalents):
    """The column of a mutant by its verdict: a survivor that is named is equivalent."""
    if kind in (SURVIVED, EQUIVALENT):
        return EQUIVALENT if key in equivalents else SURVIVED
    return kind


def line(mutant, verdict, crate, under):
    """The lines of a mutant: its column, the crate where it is another one that decided, its key, and the message."""
    place = "" if crate == mutant.crate else f" [in {crate}]"
    words = verdict.words[:WORDS]
    return f"{under}{place}: {mutant.key}" + (f"\n    {words}" if words else "")


def row(mutant, outcome, total):
    """The line of a mutant in a report; total is the sum of its crate."""
    words = outcome.verdict.words.replace("\t", " ")
    return "\t".join((outcome.verdict.kind, f"{outcome.seconds:.1f}", outcome.crate, mutant.key, words, total))


def rows(text):
    """The whole lines of a report."""
    whole = (line.split("\t") for line in text.split("\n")[:-1])
    return [Row(Verdict(cells[0], cells[4]), cells[2], cells[3], cells[5]) for cells in whole if len(cells) == CELLS]


def summed(text, equivalents):
    """The mutants of a report in the table, each by its last line."""
    last = {row.key: row for row in rows(text)}
    return [Found(key.split()[0], row.kind, column(key, row.verdict.kind, equivalents)) for key, row in last.items()]


def table(found):
    """The lines of the table: of each kind of mutants by crate, and of all."""
    for kind in KINDS:
        own = [one for one in found if one.kind == kind]
        if own:
            yield f"{kind:<16}{'mutants':>9}" + "".join(f"{name:>21}" for name in COLUMNS)
            named = [(name, [one for one in own if one.crate == name]) for name in dict.fromkeys(one.crate for one in own)]
            for name, some in [*named, ("all", own)]:
                columns = [one.column for one in some]
                yield f"{name:<16}{len(columns):>9}" + "".join(f"{columns.count(under):>21}" for under in COLUMNS)
