"""The files of definitions that a public contract or a claim cites: the table of docs/TRUST.md under "What a reader must believe"."""

import re

from command import Failure, read

HEADING = "## What a reader must believe"
ROW = re.compile(r"\| (?P<crate>\w+) \| (?P<files>\w+ \d+(?:, \w+ \d+)*) \|")


def files(text):
    """The files that the page has in its table, each as CRATE/FILE."""
    section = text.partition(f"{HEADING}\n")[2].partition("\n## ")[0]
    rows = (match for match in map(ROW.match, section.splitlines()) if match)
    return {f"{row['crate']}/{cell.split()[0]}" for row in rows for cell in row["files"].split(", ")}


def of_repository(root):
    """The files that a repository's page has; it has some."""
    found = files(read(root / "docs" / "TRUST.md").decode())
    if not found:
        raise Failure("docs/TRUST.md: no table of files of definitions")
    return found
