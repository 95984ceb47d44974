"""The files of rows and laws by their names. The scripts that try them go by this table."""

from . import binding, bundles, corpus, edges, faults, laws, lines, messages, rfc9173, runs, security, words

MODULES = {
    "lines": lines, "words": words, "messages": messages, "bundles": bundles, "security": security, "corpus": corpus,
    "faults": faults, "runs": runs, "binding": binding, "rfc9173": rfc9173, "edges": edges, "laws": laws,
}


def rows_of(name):
    """The rows of a file. A file of laws has none."""
    return list(getattr(MODULES[name], "rows", list)())
