"""What the probe writes: a line for each case, the counts, progress, and a file of JUnit."""

import sys
import xml.etree.ElementTree as ElementTree
from typing import NamedTuple

# What a case comes to, in the order of the counts
OK, MUST, SHOULD, LOST, SKIPPED = WORDS = "ok", "must", "should", "lost", "skipped"

# How much of a line of progress is cleared
WIDTH = 79


class Result(NamedTuple):
    """What a case comes to: a word, and the words after the name."""

    word: str
    text: str = ""


class Report:
    """The results so far."""

    def __init__(self, total):
        self.total, self.results, self.is_shown = total, [], sys.stderr.isatty()

    def add(self, name, of, seconds, results):
        """Takes the results of a case of a class, and writes their lines."""
        self.clear()
        for it in results:
            self.results.append((name, of, seconds, it))
            separator = ":" if it.word == SKIPPED else ""
            print(f"{it.word} {name}{separator} {it.text}".rstrip(), flush=True)
        self.progress()

    def progress(self, text=""):
        """Shows on a terminal how far the run is."""
        if self.is_shown:
            done = len({name for name, _, _, _ in self.results})
            sys.stderr.write(f"\r{done}/{self.total} {text}".ljust(WIDTH))
            sys.stderr.flush()

    def clear(self):
        """Clears the line of progress."""
        if self.is_shown:
            sys.stderr.write("\r" + " " * WIDTH + "\r")
            sys.stderr.flush()

    def counts(self):
        """Returns how often each word was written."""
        words = [it.word for _, _, _, it in self.results]
        return {word: words.count(word) for word in WORDS}

    def end(self):
        """Writes the counts. Returns whether the node broke or lost anything."""
        self.clear()
        found = self.counts()
        print(", ".join(f"{count} {word}" for word, count in found.items()), flush=True)
        return found[MUST] + found[SHOULD] + found[LOST] > 0

    def junit(self, path):
        """Writes a file of JUnit: a testcase for each case."""
        found = self.counts()
        names = {name for name, _, _, _ in self.results}
        suite = ElementTree.Element(
            "testsuite", name="tcpclkit-probe", tests=str(len(names)), skipped=str(found[SKIPPED]),
            failures=str(found[MUST] + found[SHOULD] + found[LOST]), errors="0",
        )
        tests = {}
        for name, of, seconds, it in self.results:
            if name not in tests:
                named = {"classname": of, "name": name, "time": f"{seconds:.3f}"}
                tests[name] = ElementTree.SubElement(suite, "testcase", named)
            if it.word == SKIPPED:
                ElementTree.SubElement(tests[name], "skipped", message=it.text)
            elif it.word != OK:
                ElementTree.SubElement(tests[name], "failure", type=it.word, message=it.text)
        ElementTree.ElementTree(suite).write(path, encoding="utf-8", xml_declaration=True)
