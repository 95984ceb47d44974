"""The arguments of a script, what it reports, and where tcpclkit is."""

import argparse
import os
import shutil
import signal
import sys

# Exit statuses that the scripts share
LOST, WORDS, FAULT, DEVICES = 1, 2, 3, 4


class Failure(Exception):
    """A script cannot go on: something could not be read or written, or was not found."""


class Notes:
    """What is reported on standard error, each text once, and the exit status so far."""

    def __init__(self, name):
        self.name, self.status, self.texts = name, 0, set()

    def report(self, text, status=0):
        """Reports something for which the exit status is at least this one."""
        sys.stdout.flush()
        if str(text) not in self.texts:
            print(f"{self.name}: {text}", file=sys.stderr, flush=True)
        self.texts.add(str(text))
        self.raise_status(status)

    def raise_status(self, status):
        """Makes the exit status at least this one."""
        self.status = max(self.status, status)


def parser_of(name, text):
    """Returns the parser of the arguments of a script, which has this help text."""
    usage = text.partition("\n\n")[0].replace("usage: ", "")
    parser = argparse.ArgumentParser(prog=name, usage=usage, allow_abbrev=False)
    parser.format_help = lambda: text
    return parser


def program(given):
    """Returns the path of tcpclkit, which the option `--tcpclkit` may name.

    Otherwise it is the one in the folder of the script, or on the PATH.
    """
    folder = os.path.dirname(os.path.realpath(sys.argv[0]))
    if given is not None:
        found = shutil.which(os.path.abspath(given))
    else:
        found = shutil.which(os.path.join(folder, "tcpclkit")) or shutil.which("tcpclkit")
    if found is None:
        raise Failure("tcpclkit is not found; --tcpclkit PATH says where it is")
    return found


def faults(here):
    """Returns the folder of the streams of tcpclkit-faults, from the folder of a script, or None. It is
    where they are installed, or in the repository."""
    places = (os.path.join(here, it) for it in ("../share/tcpclkit/faults", "../examples/faults"))
    return next(filter(os.path.isdir, places), None)


def make_folder(folder):
    """Makes a folder, unless it is there and is empty."""
    if not os.path.isdir(folder):
        os.mkdir(folder)
    elif os.listdir(folder):
        raise Failure(f"{folder}: the folder is not empty")


def text_of(error):
    """Returns what an OSError says."""
    return ": ".join(filter(None, [error.filename, error.strerror]))


def forget_output():
    """Lets what is still buffered for standard output go nowhere: the device takes no more."""
    os.dup2(os.open(os.devnull, os.O_WRONLY), 1)


def run(notes, work, *arguments):
    """Does the work of a script, and reports why it could not. Returns the exit status."""
    signal.signal(signal.SIGINT, signal.SIG_DFL)
    try:
        try:
            work(*arguments)
        except Failure as failure:
            notes.report(failure, DEVICES)
        sys.stdout.flush()
    except OSError as error:
        forget_output()
        notes.report(text_of(error), DEVICES)
    return notes.status
