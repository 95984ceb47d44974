"""What the rules of `check` share: a rule, its level, and the lines of those that are broken."""

from typing import Callable, NamedTuple

MUST, SHOULD = "must", "should"


class Rule(NamedTuple):
    """A rule: its name, its level, and what returns the words of its line where it is broken.

    The level is a word, or what returns whether this case is a must.
    """
    name: str
    level: object
    broken: Callable


class Rules(list):
    """Rules in the order of their lines. Each is a function below `@RULES.rule(LEVEL)`."""

    def rule(self, level, name=None):
        """Adds a function as a rule. Its name is that of the function, with hyphens, or `name`."""
        def added(function):
            self.append(Rule(name or function.__name__.replace("_", "-"), level, function))
            return function
        return added


def level_of(rule, it):
    """The level of a rule where it is broken."""
    if isinstance(rule.level, str):
        return rule.level
    return MUST if rule.level(it) else SHOULD


def broken(rules, it, at, of="", may_be_must=True):
    """Yields the level and the line of each broken rule. `of` is the word after its name."""
    for rule in rules:
        words = rule.broken(it)
        if words is not None:
            level = level_of(rule, it) if may_be_must else SHOULD
            yield level, " ".join(word for word in (f"{at} {level} {rule.name}", of, words) if word)
