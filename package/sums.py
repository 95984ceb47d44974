#!/usr/bin/env python3
"""Checksums of sources. They show whether something was built of the sources that are here now.

    package/sums.py due KIT CRATE..      prints those of the crates that have to be built
    package/sums.py of KIT CRATE         prints the checksum of a crate's sources
    package/sums.py built KIT CRATE SUM  notes that a crate is built of sources with this checksum
    package/sums.py files FILE..         prints the checksum of some files

KIT is the line of `rt version`. The sources of a crate are all that its proof reads: its row of
crates.txt, its src, specs and proofs, and the sources of the crates below it.

The note on a crate is crates/CRATE/out/build.done. It has the line of the kit, the checksum of the
sources, and the checksum of what was built. A crate has to be built if another note would be
written now. Dates do not count: a file that is put in the place of a source can be older than it.
"""

import hashlib
import os
import sys

TOP = os.path.dirname(os.path.dirname(os.path.realpath(__file__)))
PARTS = ("src", "specs", "proofs")
# The static library of crates.txt that ./build makes a module for browsers of
MODULE = "tcpclkit_page"


class Crate:
    """A crate of crates.txt: its folder, its row, and the crates that it uses."""

    def __init__(self, top, line):
        head, _, uses = line.partition(":")
        self.line, self.name = line, head.split()[0]
        self.is_static, self.uses = "staticlib" in head.split(), uses.split()
        self.folder = f"{top}/crates/{self.name}"
        self.is_program = os.path.isfile(f"{self.folder}/src/main.rt")
        # The crates of this repository that it uses, and those with the crates below them
        self.own_uses, self.own_below = [], []


def crates_of(top):
    """Returns the crates of crates.txt by their names, lower ones first."""
    with open(f"{top}/crates.txt", encoding="utf-8") as file:
        lines = [line.partition("#")[0].strip() for line in file]
    crates = {crate.name: crate for crate in (Crate(top, line) for line in lines if line)}
    for crate in crates.values():
        crate.own_uses = [name for name in crate.uses if name in crates]
    ordered = {}

    def add(name):
        for used in crates[name].own_uses:
            add(used)
        below = [it for used in crates[name].own_uses for it in [*ordered[used].own_below, used]]
        crates[name].own_below = list(dict.fromkeys(below))
        ordered.setdefault(name, crates[name])

    for name in crates:
        add(name)
    return ordered


def content(path):
    """Returns the bytes of a file."""
    with open(path, "rb") as file:
        return file.read()


def file_sum(path):
    """Returns the checksum of a file."""
    return hashlib.sha256(content(path)).hexdigest()


def sum_of(*parts):
    """Returns a checksum of these values."""
    return hashlib.sha256(repr(parts).encode()).hexdigest()


def sources_in(folder):
    """Returns the paths and contents of what a proof of a crate reads, in a fixed order."""
    found = []
    for part in PARTS:
        for at, folders, names in os.walk(f"{folder}/{part}"):
            folders.sort()
            paths = [f"{at}/{name}" for name in sorted(names)]
            found += [(os.path.relpath(path, folder), content(path)) for path in paths]
    return found


class Sums:
    """The checksums of the sources of crates. All depend on `base`, such as the line of the kit."""

    def __init__(self, crates, base):
        self.crates, self.base, self.known = crates, base, {}

    def of(self, name):
        """Returns the checksum of the sources of a crate."""
        if name not in self.known:
            crate = self.crates[name]
            below = [self.of(it) for it in crate.own_below]
            self.known[name] = sum_of(self.base, crate.line, sources_in(crate.folder), below)
        return self.known[name]


# ---- notes


def note_path(crate):
    """Returns the path of the note on a crate."""
    return f"{crate.folder}/out/build.done"


def product_of(crate):
    """Returns what was built of a crate. Of a library, it is the file by which `rt` knows it."""
    made = "rlib/stamp"
    if crate.name == MODULE:
        made = f"{crate.name}.wasm"
    elif crate.is_program:
        made = crate.name
    elif crate.is_static:
        made = f"lib{crate.name}.a"
    return f"{crate.folder}/out/{made}"


def note_of(kit, sources, crate):
    """Returns the note on a crate that is built of sources with this checksum. Raises OSError."""
    return f"{kit}\nsources {sources}\nbuilt {file_sum(product_of(crate))}\n".encode()


def noted_kit(crate):
    """Returns the line of the kit in the note on a crate, or None."""
    try:
        return content(note_path(crate)).decode().partition("\n")[0]
    except (OSError, ValueError):
        return None


def is_built(sums, name):
    """Returns whether ./build built a crate of what is here, by the kit that is `sums.base`."""
    crate = sums.crates[name]
    try:
        return content(note_path(crate)) == note_of(sums.base, sums.of(name), crate)
    except OSError:
        return False


def write_note(kit, crate, sources):
    """Notes that a crate is built of sources with this checksum."""
    text, path = note_of(kit, sources, crate), note_path(crate)
    with open(f"{path}.new", "wb") as file:
        file.write(text)
    os.replace(f"{path}.new", path)


def main(words):
    """Does what the words ask for. Returns the exit status, or a text on what is wrong."""
    what, given = (words[0], words[1:]) if words else ("", [])
    if what == "files" and given:
        try:
            print(sum_of(*map(file_sum, given)))
        except OSError as error:
            return f"package/sums.py: {error}"
    elif what == "due" and given:
        sums = Sums(crates_of(TOP), given[0])
        print("\n".join(name for name in given[1:] if not is_built(sums, name)))
    elif what == "of" and len(given) == 2:
        print(Sums(crates_of(TOP), given[0]).of(given[1]))
    elif what == "built" and len(given) == 3:
        write_note(given[0], crates_of(TOP)[given[1]], given[2])
    else:
        return __doc__
    return 0


if __name__ == "__main__":
    sys.exit(main(sys.argv[1:]))
