"""Promises: the stanzas of docs/promises/CRATE.txt, and what each cites of a contract."""

import os
import re
from typing import NamedTuple

FOLDER = "docs/promises"
KEYS = ["promise", "text", "contract", "definition", "no wrong body"]
NEEDED = {"promise", "text", "contract"}
# What a promise has as its contract or definition if it is that of the promise before
SAME = "the same"
QUOTED = re.compile(r"`([^`]*)`")
IN_PARENTHESES = re.compile(r"\(([^)]*)\)")
AS_TRAIT = re.compile(r"` as `")


class Promise(NamedTuple):
    """A promise of a crate, as its stanza has it."""
    name: str
    text: str
    contract: str
    definition: str
    no_body: str

    def clauses(self):
        """Returns the names of the clauses that the contract cites in parentheses."""
        return set(QUOTED.findall(" ".join(IN_PARENTHESES.findall(self.contract))))

    def definitions(self):
        """Returns the names of the definitions that the promise cites."""
        return set(QUOTED.findall(self.definition))

    def has_function(self, function):
        """Returns whether the contract cites a function, or its whole type or trait.

        A part of the contract up to `;` cites functions of types (`f` of `T`, or `T::f`), or
        functions and types alone.
        """
        owner, method = function.split("::")[-2:]
        calls = IN_PARENTHESES.sub("", AS_TRAIT.sub("", self.contract))
        for part in calls.split(";"):
            names = [name for quoted in QUOTED.findall(part) for name in quoted.split("::")]
            is_owned = any(name[:1].isupper() and is_of(owner, name) for name in names)
            is_named, is_by_type = method in names, " of " in part or "::" in part
            if is_owned and is_named or not is_by_type and (is_owned or is_named):
                return True
        return False


def is_of(owner, name):
    """Returns whether a function's owner, a type with its trait's name after it, is of a name."""
    return owner.endswith(name) or re.match(re.escape(name) + "(?![a-z])", owner)


def stanzas_of(path):
    """Returns the stanzas of a file, each with its lines by their keys."""
    with open(path, encoding="utf-8") as file:
        blocks = file.read().strip().split("\n\n")
    return [dict(line.split(": ", 1) for line in block.split("\n")) for block in blocks]


def promises_of(path):
    """Returns the note of a file, if it has one, and its promises. Raises ValueError."""
    note, found = "", []
    for stanza in stanzas_of(path):
        if set(stanza) == {"note"}:
            note = stanza["note"]
        elif NEEDED <= set(stanza) <= set(KEYS):
            found.append(Promise(*[stanza.get(key, "") for key in KEYS]))
        else:
            raise ValueError(f"{path}: a stanza has the keys {', '.join(stanza)}")
    names = [promise.name for promise in found]
    if len(set(names)) < len(names):
        raise ValueError(f"{path}: two promises have the same name")
    return note, found


def cited_by(top, crate):
    """Returns the promises of a crate by their names, with what `the same` stands for."""
    path, found, last = f"{top}/{FOLDER}/{crate}.txt", {}, None
    for it in promises_of(path)[1] if os.path.exists(path) else []:
        last = it._replace(
            contract=last.contract if it.contract == SAME else it.contract,
            definition=last.definition if it.definition == SAME else it.definition)
        found[it.name] = last
    return found
