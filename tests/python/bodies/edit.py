"""Edits: files that replace texts of a crate, so that a function has a wrong body.

An edit has a line `file: PATH` and then pairs of lines, `old: TEXT` and `new: TEXT`. Each old text
has to occur exactly once in the file. A line `after: TEXT` before a pair lifts that: TEXT has to
occur exactly once, and the first old text after it is replaced. A pair is applied to what the pairs
before it made. Lines `# promise: NAME` name the promises that the wrong body breaks.
"""

import os
import re

from sums import PARTS

from . import source

NAME = re.compile(r"\w[\w.-]*\.edit", re.ASCII)
LINE = re.compile(r"(file|after|old|new|# promise):(?: (.*))?")


class Unfit(Exception):
    """An edit that cannot be applied, with the reason."""


def split_after(part, text, file, first=False):
    """Splits a text after this part, which it has once, or after the first one."""
    count = text.count(part)
    if count == 0 or (count > 1 and not first):
        raise Unfit(f"{file} has this text {count} times: {part}")
    end = text.index(part) + len(part)
    return text[:end], text[end:]


def read(path):
    """Returns the text of a file, whatever ends its lines."""
    with open(path, encoding="utf-8", newline="") as file:
        return file.read()


class Edit:
    """An edit of a crate: its pairs of texts, and the names of its promises."""

    def __init__(self, crate, path):
        self.crate, self.path = crate, path
        self.name = re.sub(r"\.edit$", "", os.path.basename(path))
        self.pairs, self.promises, self.problem = [], [], None
        # What `place` finds: the files that it changes, and the function and its body if it
        # changes only one
        self.texts, self.function, self.body = {}, None, None
        try:
            if not NAME.fullmatch(os.path.basename(path)):
                raise Unfit("its name does not end in .edit")
            self._take(read(path))
        except (OSError, ValueError, Unfit) as error:
            self.problem = str(error)

    def __repr__(self):
        return f"{self.crate}/{self.name}"

    def _take(self, text):
        """Takes the lines of the edit."""
        file, after, old = None, "", None
        for line in filter(None, text.split("\n")):
            found = LINE.fullmatch(line)
            if not found:
                raise Unfit(f"a line begins with none of file:, after:, old:, new:, # promise:: {line}")
            word, rest = found[1], found[2] or ""
            if word == "file":
                file = rest
            elif word == "after":
                after = rest
            elif word == "old":
                old = rest
            elif word != "new":
                self.promises.append(rest)
            elif file and old:
                self.pairs.append((file, after, old, rest))
                after, old = "", None
            else:
                raise Unfit("a line new: has no line file: or old: before it")
        if old or not self.pairs:
            raise Unfit("it has no pair of old: and new:, or half a pair at its end")

    def apply(self, read_file):
        """Returns the texts of the files that the edit changes, by their paths in the crate."""
        texts = {}
        for file, after, old, new in self.pairs:
            if os.path.normpath(file) != file or file.partition("/")[0] not in PARTS:
                raise Unfit(f"{file} is no file of src, specs or proofs")
            text = texts[file] if file in texts else read_file(file)
            if old == new:
                raise Unfit(f"it does not change {file}")
            before, rest = split_after(after, text, file) if after else ("", text)
            head, tail = split_after(old, rest, file, first=after)
            texts[file] = before + head[:-len(old)] + new + tail
        return texts

    def place(self, folder):
        """Applies the edit to the files of a crate, and finds the function whose body it changes.

        `function` stays None if the edit changes more than the body of one function.
        """
        try:
            if not self.problem:
                self.texts = self.apply(lambda file: read(f"{folder}/{file}"))
                self._find_change(folder)
                self._find_function(folder)
        except (OSError, ValueError, Unfit) as error:
            self.problem = str(error)
        except source.Broken:
            # The edit leaves a bracket open. It is tried alone.
            pass

    def _find_change(self, folder):
        """Refuses an edit that leaves a file as it is: one pair may turn back another."""
        for file, text in self.texts.items():
            if text == read(f"{folder}/{file}"):
                raise Unfit(f"it does not change {file}")

    def _find_function(self, folder):
        """Finds the function that the edit changes, if it changes nothing else."""
        (file, text), *more = self.texts.items()
        if more or not file.startswith("src/"):
            return
        old, old_rest = source.bodies_of(self.crate, file, read(f"{folder}/{file}"))
        new, new_rest = source.bodies_of(self.crate, file, text)
        names = [name for name in old if old[name] != new.get(name)]
        if old_rest == new_rest and len(names) == 1:
            self.function, self.body = names[0], new[names[0]]


def merged(edits, folder):
    """Returns the texts of a crate's files with the bodies of these edits, one for a function."""
    texts = {}
    for file in {file for edit in edits for file in edit.texts}:
        bodies = {edit.function: edit.body for edit in edits if file in edit.texts}
        texts[file] = source.with_bodies(edits[0].crate, file, read(f"{folder}/{file}"), bodies)
    return texts


def edits_in(crate, folder):
    """Returns the edits in a folder, which need not be there."""
    names = sorted(os.listdir(folder)) if os.path.isdir(folder) else []
    return [Edit(crate, f"{folder}/{name}") for name in names]


def edits_of(crate, top):
    """Returns all edits of a crate: those that `rt ci` tries too, and the others."""
    folders = [f"{top}/crates/{crate}/must-fail", f"{top}/tests/data/wrong-bodies/{crate}"]
    return [edit for folder in folders for edit in edits_in(crate, folder)]
