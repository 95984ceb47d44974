"""Tests of scripts/faults. tests/gate/faulty-examples has those of the files that it writes."""

import os
import shutil

from .common import TOP, empty_room, install, read, run, write

FAULTS = f"{TOP}/examples/faults"


def contents_of(folder):
    """Returns the files below a folder, by their paths."""
    paths = [f"{at}/{name}" for at, _, names in os.walk(folder) for name in names]
    return {os.path.relpath(path, folder): read(path) for path in paths}


def writes_all_files():
    """A new folder or an empty one gets all files."""
    with empty_room() as at:
        os.mkdir(f"{at}/empty")
        for words in [["made"], ["empty"], ["--", "-made"]]:
            yield f"faults {words}", (0, "", ""), run(at, "faults", *words)
            same = contents_of(f"{at}/{words[-1]}") == contents_of(FAULTS)
            yield f"faults {words}: the files", True, same


def refused_folders():
    """A folder with a file, a file, and a folder below none stay as they are."""
    with empty_room() as at:
        os.mkdir(f"{at}/full")
        write(f"{at}/full/other", b"other")
        write(f"{at}/file", b"file")
        for folder, why in [
            ("full", "full: the folder is not empty"),
            ("file", "file: File exists"),
            ("none/made", "none/made: No such file or directory"),
        ]:
            wanted = (4, "", f"tcpclkit-faults: {why}\n")
            yield f"faults {folder}", wanted, run(at, "faults", folder)
        yield "faults: the folder is as it was", {"other": b"other"}, contents_of(f"{at}/full")
        yield "faults: the file is as it was", b"file", read(f"{at}/file")


def installed():
    """The installed script finds its files, through a link too. Without them it writes nothing."""
    with empty_room() as at:
        install(f"{at}/prefix", "faults")
        os.mkdir(f"{at}/prefix/links")
        script = f"{at}/prefix/bin/tcpclkit-faults"
        link = f"{at}/prefix/links/tcpclkit-faults"
        os.symlink("../bin/tcpclkit-faults", link)
        text = "the files are not found; ./install puts them into PREFIX/share/tcpclkit/faults"
        yield "faults: no files", (4, "", f"tcpclkit-faults: {text}\n"), run(at, script, "made")
        yield "faults: nothing is written", ["prefix"], os.listdir(at)
        shutil.copytree(FAULTS, f"{at}/prefix/share/tcpclkit/faults")
        for name, path in [("made", script), ("of-link", link)]:
            yield f"faults {name}: installed", (0, "", ""), run(at, path, name)
            same = contents_of(f"{at}/{name}") == contents_of(FAULTS)
            yield f"faults {name}: the files", True, same


PARTS = [writes_all_files, refused_folders, installed]
