"""Contracts: the `ensures` clauses of functions, and the definitions that they name."""

import glob
import os
import re

from . import source
from .edit import read

WORD = re.compile(r"[\w-]+")
COMMENT = re.compile(r"--.*")
DECLARATION = re.compile(
    r"^ *(?:(?:abbrev |unfoldable )?pub (?!use |mod )(?:record |data )?"
    r"|(?:record|data|abbrev|unfoldable) )([\w-]+)", re.MULTILINE
)
KEYWORD = re.compile(r"\s*(?:abbrev|unfoldable|pub record|pub data|record|data)\b")


def files_in(folder, suffix):
    """Returns the paths of the files in a folder and those below, in a fixed order."""
    return sorted(glob.glob(f"{folder}/**/*{suffix}", recursive=True))


def definitions_in(text):
    """Returns the texts of the definitions of a file by their names, without comments.

    A field of a record is part of its record.
    """
    text, found, last = COMMENT.sub("", text), {}, None
    starts = [it for it in DECLARATION.finditer(text) if KEYWORD.match(it[0]) or it[0][0] != " "]
    for it, end in zip(starts, [*[it.start() for it in starts[1:]], len(text)]):
        found[it[1]] = found.get(it[1], "") + text[it.start():end]
    return found


class Contracts:
    """The clauses and definitions of crates. Each file is read when it is first asked for."""

    def __init__(self, crates):
        self.crates, self.clauses, self.defined, self.seen = crates, {}, {}, {}

    def _clauses_in(self, name):
        """Returns the clauses of a crate's functions, by owner and name of the function."""
        if name not in self.clauses:
            folder, found = self.crates[name].folder, {}
            for path in files_in(f"{folder}/src", ".rt"):
                text, module = read(path), source.module_of(os.path.relpath(path, folder))
                for it in source.functions_in(text):
                    key = tuple([name, *module, *it.name.split("::")][-2:])
                    found.setdefault(key, []).extend(source.ensures_of(text, it))
            self.clauses[name] = found
        return self.clauses[name]

    def clauses_of(self, function):
        """Returns the `ensures` clauses of a function: pairs of a name and a text.

        A function without clauses of its own has those of its trait's method, whose name ends the
        name of its owner. Functions whose names do not tell them apart share their clauses.
        """
        crate = function.split("::")[0]
        owner, method = function.split("::")[-2:]
        owner = re.sub(r"\+.*?(?=[A-Z]\w*$|$)", "", owner)
        own = self._clauses_in(crate).get((owner, method))
        if own or not owner[:1].isupper():
            return own or []
        for name in [crate, *reversed(self.crates[crate].own_below)]:
            for (trait, called), clauses in self._clauses_in(name).items():
                if called == method and clauses and trait[:1].isupper() and owner.endswith(trait):
                    return clauses
        return []

    def _definitions_in(self, name):
        """Returns the texts of the definitions in the specs of a crate, by their names."""
        if name not in self.defined:
            found = {}
            for path in files_in(f"{self.crates[name].folder}/specs", ".antt"):
                for word, text in definitions_in(read(path)).items():
                    found[word] = found.get(word, "") + text
            self.defined[name] = found
        return self.defined[name]

    def definitions(self, crate):
        """Returns the texts of the definitions of a crate and of those below, by their names."""
        if crate not in self.seen:
            found = self.seen[crate] = {}
            for name in [*self.crates[crate].own_below, crate]:
                for word, text in self._definitions_in(name).items():
                    found[word] = found.get(word, "") + text
        return self.seen[crate]
