"""What crates cost to prove, as checks/costs has it. checks/cost writes such a file; checks/gate and checks/build read
it.

Lines that start with '#' are its head: of which run and machine it is, and its unit. A line of names follows, and a
line each crate, with tabs between: crate, library, tests and edits in processor seconds, and their sum in the unit,
which is nova_word's library of the same run ('-' where that was not proved in it). The last line has the sums.
"""

import os

FILE = os.path.join(os.path.dirname(os.path.realpath(__file__)), "costs")
KINDS = ("library", "tests", "edits")
UNIT = "nova_word"


def read(path=FILE):
    """Returns the processor seconds of library, tests and edits by crate."""
    rows = {}
    with open(path, encoding="utf-8") as file:
        for line in file:
            words = line.split()
            if not line.startswith("#") and len(words) >= 4 and words[1].isdigit() and words[0] != "all":
                rows[words[0]] = [int(it) for it in words[1:4]]
    return rows


def unit(rows):
    """Returns the seconds of the unit in these rows, or those of a usual machine where it is not there."""
    return rows.get(UNIT, [0])[0] or 30


def text(rows, about):
    """Returns the text of a file of costs, the dearest crate first, under a head that says what it is about."""
    one = round(rows.get(UNIT, [0])[0])
    head = ["# What proofs cost, in processor seconds. " + about]
    if one:
        head.append(f"# The unit of the last column is {UNIT}'s library of this run: {one} processor seconds.")
    else:
        head.append(f"# There is no unit for the last column: {UNIT}'s library was not proved in this run.")

    def line(name, row):
        return "\t".join([name, *(f"{it:.0f}" for it in row), f"{sum(row) / one:.1f}" if one else "-"])

    lines = [line(name, row) for name, row in sorted(rows.items(), key=lambda it: -sum(it[1]))]
    sums = [sum(row[kind] for row in rows.values()) for kind in range(len(KINDS))]
    return "\n".join([*head, "\t".join(["crate", *KINDS, "units"]), *lines, line("all", sums)]) + "\n"
