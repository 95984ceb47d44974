"""What the refusal of a wrong body says of the promises that it breaks.

The promise's row cites functions, clauses in parentheses, and definitions. Of a function that it
cites, its clauses are those of a name in parentheses. If it has no names, they are those whose text
names a definition of the row, or all if none does. Of other functions, they are those whose text
names such a definition. A relation that a clause names is read too: its text counts like the
clause's own, and its fields like names of clauses.

A goal rests on a proof by hand if the prover refuses a text in that proof, if the proof has an
invariant of a loop, or if the proof answers a goal of the same clause. Such a refusal may only say
that the proof fits the old body.
"""

import os
import re
from typing import NamedTuple

from . import judge
from .contract import WORD, Contracts
from .edit import read
from .promise import cited_by

KINDS = BY_CLAUSE, ELSEWHERE, WEAK = "clause", "elsewhere", "weak"
RETURNS = re.compile(r"returns\b")
ANSWERED = re.compile(r"\bgoal\.(?:at\.)?([\w-]+)")
FIELD = re.compile(r"^\s+pub ([\w-]+) :", re.MULTILINE)
SHOWN = 4


class Standing(NamedTuple):
    """What a refusal is, the goals that show it, and the promises without such a goal."""
    kind: str
    goals: list
    others: list

    def is_false(self):
        """Returns whether the prover found values at which one of the goals is false."""
        return any(goal.why == judge.FALSE for goal in self.goals)

    def is_by_names(self):
        """Returns whether each goal is refused only since a proof names what is gone."""
        return all(goal.why == judge.NAMES for goal in self.goals)

    def is_near(self):
        """Returns whether a weak refusal is of each promise's clause, and not by names alone."""
        return self.kind == WEAK and not self.others and not self.is_by_names()


def subject(goal):
    """Returns what a goal is about, whatever its branch: a function's contract or a call, and a
    clause, which may be empty."""
    whole, _, clause = goal.partition("-clause-")
    head = "returns" if RETURNS.match(whole) else re.split("-requires|-in_|-then-|-else-", whole)[0]
    return head, clause


class Standings:
    """Says of refusals what they show."""

    def __init__(self, top, crates):
        self.top, self.contracts, self.promises = top, Contracts(crates), {}

    def _promise(self, crate, name):
        """Returns a promise of a crate, or None."""
        if crate not in self.promises:
            self.promises[crate] = cited_by(self.top, crate)
        return self.promises[crate].get(name)

    def of(self, edit, verdict):
        """Returns what the refusal of an edit says of its promises."""
        own = [goal for goal in verdict.goals if not self._rests_on_hand(goal)]
        goals = own or list(verdict.goals)
        cited = {
            name: [goal for goal in goals if self._is_of(goal, self._promise(edit.crate, name))]
            for name in edit.promises
        }
        others = [name for name, its in cited.items() if not its]
        if own and not others:
            return Standing(BY_CLAUSE, list(dict.fromkeys(sum(cited.values(), []))), [])
        return Standing(ELSEWHERE if own else WEAK, goals, others)

    def _rests_on_hand(self, goal):
        """Returns whether a goal's refusal may only say that a proof by hand fits another body."""
        if goal.why in (judge.ANSWER, judge.NAMES) or not goal.function:
            return goal.why in (judge.ANSWER, judge.NAMES)
        crate, *path = goal.function.split("::")
        folder = f"{self.contracts.crates[crate].folder}/proofs/{'/'.join(path)}"
        if os.path.exists(f"{folder}/Invariants.antt") or os.path.exists(f"{folder}/Proof.antt"):
            return True
        answers = f"{folder}/Answers.antt"
        text = read(answers) if os.path.exists(answers) else ""
        head, clause = subject(goal.name)
        answered = map(subject, ANSWERED.findall(text))
        return goal.why != judge.FALSE and any(
            of == head and (not clause or it in ("", clause)) for of, it in answered)

    def _is_of(self, goal, promise):
        """Returns whether a refused goal is of the clause that a promise cites.

        A goal without the name of a clause is of all clauses of its function.
        """
        head, name = subject(goal.name)
        if head != "returns" or not goal.function or not promise:
            return False
        clauses = self.contracts.clauses_of(goal.function)
        its = [clause for clause in clauses if name in ("", clause[0])]
        cited = self.cited(clauses, goal.function, promise)
        return bool(its) and all(it in cited for it in its)

    def cited(self, clauses, function, promise):
        """Returns those of a function's clauses that a promise cites."""
        crate, names = function.split("::")[0], promise.clauses()
        is_cited = promise.has_function(function)
        if is_cited and names:
            return [it for it in clauses if it[0] in names or self._fields(crate, it[1]) & names]
        by_words = [it for it in clauses if self._names(crate, it[1], promise)]
        return by_words or (clauses if is_cited else [])

    def _named(self, crate, text):
        """Returns the texts of the definitions that a clause names."""
        defined = self.contracts.definitions(crate)
        return {word: defined[word] for word in WORD.findall(text) if word in defined}

    def _fields(self, crate, text):
        """Returns the fields of the relations that a clause names."""
        return {field for it in self._named(crate, text).values() for field in FIELD.findall(it)}

    def _names(self, crate, text, promise):
        """Returns whether a clause names a definition of a promise, or a relation that does.

        It may also be a relation with a field of the name of a clause that the promise cites.
        """
        named = self._named(crate, text)
        words = {word for it in named.values() for word in WORD.findall(it)}
        wanted = promise.definitions() & self.contracts.definitions(crate).keys()
        fields = promise.clauses() & self._fields(crate, text)
        return bool(wanted & (named.keys() | words) or fields)


def is_under(floor, passed, tried):
    """Returns whether fewer of those tried passed than a floor asks: so many of so many."""
    least, of = floor
    return passed * of < least * tried


def told(edit, standing):
    """Returns the line on a refused edit: its kind, its goals, and what they are compared with."""
    shown = [
        f"{it.function or 'no function'} {it.name or 'no goal'}, {it.why}" for it in standing.goals]
    shown = list(dict.fromkeys(shown))
    more = f"; and {len(shown) - SHOWN} more" if len(shown) > SHOWN else ""
    others = f" (not the clause of {', '.join(standing.others)})" if standing.others else ""
    return f"{standing.kind} {edit}: {'; '.join(shown[:SHOWN])}{more}{others}"
