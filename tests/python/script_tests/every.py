"""Tests that each script passes: its help text, its python, and how it finds the program."""

import ast
import glob
import os
import shutil
import sys

from .common import HEAD, PROGRAM, TOP, empty_room, install, read, run, write

SCRIPTS = ["split", "pair", "resync", "capture", "json", "faults", "check-session", "page", "probe"]


def help_texts():
    """Each script has a help text of at most 80 columns, and takes no wrong words."""
    for name in SCRIPTS:
        usage = f"usage: tcpclkit-{name} "
        status, shown, errors = run(TOP, name, "--help")
        yield f"{name} --help", (0, usage, ""), (status, shown[: len(usage)], errors)
        yield f"{name} -h", (status, shown, errors), run(TOP, name, "-h")
        parts = ["\noptions:\n", "\nexit status:", "\nexamples:\n"]
        yield f"{name} --help: parts", [], [part for part in parts if part not in shown]
        long = [line for line in shown.splitlines() if len(line) > 80]
        yield f"{name} --help: lines of more than 80 columns", [], long
        for words in [["--wrong"], ["a", "b", "c"]]:
            status, shown, errors = run(TOP, name, *words)
            yield f"{name} {words}", (2, "", usage), (status, shown, errors[: len(usage)])


def older_python():
    """The scripts are written in python 3.8."""
    modules = [os.path.relpath(it, f"{TOP}/scripts") for it in glob.glob(f"{TOP}/scripts/*/*.py")]
    for name in SCRIPTS + modules:
        tree = ast.parse(read(f"{TOP}/scripts/{name}"), feature_version=(3, 8))
        yield f"{name}: python 3.8", ast.Module, type(tree)


def found_programs():
    """The program is the one that is named, or is in the folder of the script, or on the PATH."""
    with empty_room() as at:
        install(at, "split", "pair")
        os.mkdir(f"{at}/path")
        write(f"{at}/path/tcpclkit", b"#!/bin/sh\nexit 9\n", 0o755)
        write(f"{at}/A", HEAD)
        paths = f"{at}/path:{os.environ['PATH']}"
        for name, words, failed in [("split", ["A", "made"], 9), ("pair", ["A", "A"], 4)]:
            script = f"{at}/bin/tcpclkit-{name}"
            beside = f"{at}/bin/tcpclkit"
            for place, status, options in [
                ("on the PATH", failed, []),
                ("that is named", 0, ["--tcpclkit", PROGRAM]),
                ("in the folder of the script", 0, []),
            ]:
                if place == "in the folder of the script":
                    shutil.copy(PROGRAM, beside)
                got = run(at, script, *options, *words, path=paths)[0]
                yield f"{name}: the program {place}", status, got
                shutil.rmtree(f"{at}/made", ignore_errors=True)
            os.unlink(beside)


def missing_programs():
    """Without the program, nothing is written."""
    with empty_room() as at:
        os.symlink(sys.executable, f"{at}/python3")
        cases = [("split", ["A", "made"]), ("pair", ["A", "A"]), ("capture", ["made", "A"])]
        cases.append(("check-session", ["A", "A"]))
        for name, words in cases:
            text = f"tcpclkit-{name}: tcpclkit is not found; --tcpclkit PATH says where it is\n"
            yield f"{name}: no program", (4, "", text), run(at, name, *words, path=at)
            got = run(at, name, "--tcpclkit", "nothing", *words)
            yield f"{name}: a program that is not there", (4, "", text), got
            yield f"{name}: nothing is written", ["python3"], os.listdir(at)


PARTS = [help_texts, older_python, found_programs, missing_programs]
