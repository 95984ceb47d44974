"""The inputs and runs of tests/python/rows. What each has to write was worked out by hand."""

from rows.table import MODULES, rows_of


def of_rows(name):
    """The runs of a file of rows."""
    for row in rows_of(name):
        yield row.content, [(row.tool, row.options)]


def groups():
    """The groups of this file."""
    for name in MODULES:
        if rows_of(name):
            yield f"rows: {name}", lambda name=name: of_rows(name)
