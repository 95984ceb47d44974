"""What the prover's output says of the edits that were applied.

`of_function` judges an edit among others, by the lines on its own function. `of_whole` judges an
edit that was applied alone: then everything that is refused is refused because of it.
"""

import re
from typing import NamedTuple

# The prover refuses the wrong body.
REFUSED = "refused"
# These fail. An edit that is unjudged among others is tried alone.
ACCEPTED, UNREADABLE, AT_LIMIT = "let through", "not compiled", "at a limit"
UNJUDGED, UNFIT = "not judged", "cannot be applied"

FUNCTION = re.compile(r"fn (\S+): (proved|not proved|no proof|could not tell)\b(.*)")
OTHER = re.compile(r"(?:struct|enum|union|impl|trait|law|const|static|type) \S+: ")
PLACED = re.compile(r"(note: )?(?:\./)?(\S+?):(\d+):\d+: (.*)", re.DOTALL)
ERROR = re.compile(r"error(\[[\w-]+\])?: (.*)", re.DOTALL)
# Words of antt where a text cannot be read, and where a proof cites what is not there.
NOT_READ = re.compile(
    r"is not in scope|has no field|is no name|operand is missing|expected the end|cannot continue"
)
# Words of a note that refuses a function; other notes are advice.
NOT_PROVED = re.compile(r"it is not proved that|found no proof")
# A line that only repeats another refusal adds nothing to it.
NAMES_ONLY = re.compile(
    r"has no field|is not in scope|has no `|was not admitted|depends? on `[^`]*`, which was rejected"
)
LIMIT = re.compile(
    r"antt ran out of (?:stack|the (?:steps|memory) that the check of one declaration may)"
    r"|(?:outgrew the memory limit|stopped at the step limit) \(|rattle: no verdict"
)
# The goal that a line names: of a note, of an error in a proof, and of what an error leaves out
NOTED = re.compile(r"(?:it is not proved that .*?|found no proof )\(`([^`\s]+)`\)", re.DOTALL)
ANSWERED = re.compile(r"error: `([\w.-]+)`:")
LEFT_OUT = re.compile(r"which was (?:rejected|not admitted), (?:was|were) not checked: ([\w., -]+)")
# Why a goal is refused: the prover found values at which it is false, or it found no proof, or the
# answer by hand is refused, or that answer names what is not there.
FALSE, OPEN = "false at values that were found", "not proved"
ANSWER, NAMES = "its answer by hand is refused", "its answer by hand names what is gone"
AT_VALUES = "allow values at which this goal is false"
STALE = re.compile(r"module .Rattle-\w+-.*Run the lower steps again")
SHOWN = 160


class Goal(NamedTuple):
    """A goal that was refused: its function and its name, which may both be empty, and why."""
    function: str
    name: str
    why: str


class Verdict(NamedTuple):
    """What came of an edit, the line that shows it, and the goals of a refusal."""
    kind: str
    text: str
    goals: tuple

    def is_refusal(self):
        """Returns whether the edit was refused, as it must be."""
        return self.kind == REFUSED


class Line(NamedTuple):
    """A line of the output that has a place, with the indented lines after it."""
    file: str
    number: int
    text: str
    whole: str

    def is_compiler_error(self):
        """Returns whether the front end refuses the text."""
        found = ERROR.match(self.text)
        return bool(found and found[1])

    def is_unread(self):
        """Returns whether antt cannot read the text there, in a clause or a definition."""
        found = ERROR.match(self.text)
        if not found or found[1] or not self.file.startswith(("src/", "specs/")):
            return False
        is_of_a_goal = found[2].startswith("`")
        return not is_of_a_goal or bool(NOT_READ.search(re.sub(r"`[^`]*`", "", found[2])))

    def is_refusal(self):
        """Returns whether it says that something is not proved, or that a proof is wrong."""
        return bool(ERROR.match(self.text) or NOT_PROVED.search(self.text))

    def goals(self, function):
        """Returns the goals of a function that the line refuses. One may have no name."""
        if ERROR.match(self.text):
            why = NAMES if NAMES_ONLY.search(self.text) else ANSWER
            left_out = LEFT_OUT.search(self.text)
            names = re.split(", ", left_out[1]) if left_out else ANSWERED.findall(self.text)[:1]
        else:
            why = FALSE if AT_VALUES in self.text else OPEN
            names = NOTED.findall(self.text)
        return [Goal(function, name, why) for name in names or [""]]


class Said(NamedTuple):
    """The line of a function: its state, the rest of the line, and the notes before it."""
    state: str
    rest: str
    notes: list


class Output:
    """The output of a check, by its lines."""

    def __init__(self, status, text):
        self.status, self.lines = status, re.split(r"\n(?!  )", text.rstrip("\n"))
        self.functions, self.placed = {}, []
        self.is_stale = bool(STALE.search(text))
        notes = []
        for line in self.lines:
            function = FUNCTION.match(line)
            placed = PLACED.match(line)
            if function:
                self.functions[function[1]] = Said(function[2], function[3], notes)
            if placed:
                self.placed.append(Line(placed[2], int(placed[3]), placed[4], line))
                notes = [*notes, self.placed[-1]] if placed[1] else notes
            elif function or OTHER.match(line):
                notes = []

    def ended(self):
        """Returns whether the prover came to its functions."""
        return bool(self.functions)

    def named(self, function):
        """Returns the name under which a function is printed, if it is.

        A method has its type's module, also if it is written in another one. If a type has several
        `impl` blocks or implements a trait for several types, its word goes on with these types.
        """
        crate, *rest = function.split("::")
        if function in self.functions or len(rest) < 2:
            return function if function in self.functions else None
        *module, owner, method = rest
        names = [name.split("::") for name in self.functions]
        found = [it for it in names if it[0] == crate and it[-2:] == [owner, method]]
        if not found and owner[0].isupper():
            longer = re.compile(owner + "[A-Z+]")
            here = [it for it in names if it[:-2] == [crate, *module] and it[-1] == method]
            found = [it for it in here if longer.match(it[-2])]
        return "::".join(found[0]) if len(found) == 1 else None

    def own_lines(self, name):
        """Returns the lines that refuse a function: the notes before its line, and its proofs'."""
        folder = "proofs/" + "/".join(name.split("::")[1:]) + "/"
        proofs = [line for line in self.placed if line.file.startswith(folder)]
        return [line for line in self.functions[name].notes + proofs if line.is_refusal()]

    def goals_of(self, names):
        """Returns the goals of these functions that were refused."""
        found = [goal for name in names for it in self.own_lines(name) for goal in it.goals(name)]
        return tuple(dict.fromkeys(found))

    def compiler_errors(self):
        """Returns the errors of the front end that have a place."""
        return [line for line in self.placed if line.is_compiler_error()]


def first(lines):
    """Returns the beginning of the first of these lines."""
    return lines[0].whole.split("\n")[0][:SHOWN] if lines else ""


def by_lines(lines, goals):
    """Returns the verdict that these refusals of goals come to, or None if there are none."""
    limits = [line for line in lines if LIMIT.search(line.text)]
    names = [line for line in lines if NAMES_ONLY.search(line.text)]
    strong = [line for line in lines if line not in limits and line not in names]
    for kind, found in [(REFUSED, strong), (AT_LIMIT, limits), (REFUSED, names)]:
        if found:
            return Verdict(kind, first(found), goals)
    return None


def failed(kind, line):
    """Returns a verdict that is no refusal, with the beginning of the line that shows it."""
    return Verdict(kind, line[:SHOWN], ())


def of_function(output, function):
    """Judges an edit of one function, by what is said of that function."""
    name = output.named(function)
    if not name:
        return failed(UNJUDGED, f"no line of the output is on {function}")
    state, rest, _ = output.functions[name]
    line = f"fn {name}: {state}{rest}"
    lines = output.own_lines(name)
    unread = [it for it in lines if it.is_unread()]
    if unread:
        return failed(UNREADABLE, first(unread))
    if state == "proved":
        return failed(ACCEPTED, line)
    if state == "could not tell":
        return failed(AT_LIMIT, line)
    if state == "no proof" and "expected answers" not in rest and not lines:
        return failed(UNJUDGED, line)
    return by_lines(lines, output.goals_of([name])) or failed(UNJUDGED, line)


def of_whole(output):
    """Judges an edit that was applied alone, by all that the output says."""
    last = output.lines[-1]
    errors = output.compiler_errors()
    unread = [line for line in output.placed if line.is_unread()]
    if output.status == 0:
        return failed(ACCEPTED, last)
    if errors or unread and output.status == 1:
        return failed(UNREADABLE, first(errors or unread))
    if output.status == 1 and last.startswith("logic=not-proved"):
        refusals = [line for line in output.placed if line.is_refusal()]
        # Such as those of a lemma, which are of no function
        others = tuple(goal for line in refusals for goal in line.goals(""))
        goals = output.goals_of(output.functions) or others
        return by_lines(refusals, goals) or failed(UNJUDGED, last)
    limit = next((line for line in output.lines if LIMIT.search(line)), "")
    if limit:
        return failed(AT_LIMIT, limit)
    return failed(UNJUDGED, f"the check ended with status {output.status}: {last}")
