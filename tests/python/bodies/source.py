"""The functions of a source file: their names as the prover prints them, clauses and bodies."""

import re
from typing import NamedTuple

# What is no code: comments, strings and characters. A prime in a clause is no quote.
NO_CODE = re.compile(
    r"""//[^\n]*|/\*.*?\*/|r(#*)".*?"\1|b?"(?:\\.|[^"\\])*"|b?'(?:\\[^'\n]+|[^\\'\n])'""", re.DOTALL
)
ITEM = re.compile(r"[{}]|\bfn\s+(\w+)|\b(impl)\b|\b(trait|mod)\s+(\w+)\s*(?=[^\s;])")
CLAUSE = re.compile(r"\b(?:requires|ensures|ghost|decreases)\b")
ENSURES = re.compile(r"\bensures\b\*?\s*(\w*)\s*(?=\{)")
OPEN, CLOSE = "([{", ")]}"
# What stands for a body in the text of a file without its bodies
GAP = "{..}"


class Function(NamedTuple):
    """A function: its path in its module, and where its head begins and its body lies."""
    name: str
    head: int
    body: int
    end: int


class Broken(Exception):
    """A text whose brackets do not match."""


def blanked(text):
    """Returns the text with spaces in place of comments, strings and characters."""
    return NO_CODE.sub(lambda found: re.sub(r"[^\n]", " ", found[0]), text)


def after_group(code, at):
    """Returns where the group ends that opens at an offset."""
    depth = 0
    for found in re.compile(r"[(\[{}\])]").finditer(code, at):
        depth += 1 if found[0] in OPEN else -1
        if depth == 0:
            return found.end()
    raise Broken("a bracket is never closed")


def next_brace(code, at):
    """Returns the offset of the next `{`, `}` or `;` that is in no parentheses or brackets."""
    pattern = re.compile(r"[(\[{};]")
    while True:
        found = pattern.search(code, at)
        if not found:
            raise Broken("a function has no end")
        if found[0] not in "([":
            return found.start()
        at = after_group(code, found.start())


def body_of(code, at):
    """Returns where the body of a function begins and ends whose name ends at an offset.

    Both are the end of a function without a body. The groups of its clauses come before the body.
    """
    while True:
        brace = next_brace(code, at)
        if code[brace] != "{":
            return brace, brace
        end = after_group(code, brace)
        if not CLAUSE.search(code, at, brace):
            return brace, end
        at = end


def last_word(path):
    """Returns the last name of a type's path, without its parameters."""
    plain = re.sub(r"<.*", "", path.strip().lstrip("&"), flags=re.DOTALL)
    return plain.split("::")[-1].strip()


def without_parameters(head):
    """Returns the head of an `impl` without the list of its parameters."""
    head = head.strip()
    depth = 0
    for at, sign in enumerate(head):
        depth += (sign == "<") - (sign == ">" and head[at - 1] != "-")
        if depth == 0:
            return head[at + 1:] if head[0] == "<" else head
    return head


def impl_name(head):
    """Returns the name of an `impl` block in the names of its functions: type, then trait."""
    trait, is_trait, of = without_parameters(head).partition(" for ")
    return last_word(of) + last_word(trait) if is_trait else last_word(trait)


def functions_in(text):
    """Returns the functions of a file, in their order. The body of one without a body is empty."""
    code, found, scopes, at = blanked(text), [], [], 0
    while True:
        item = ITEM.search(code, at)
        if not item:
            return found
        at = item.end()
        if item[1]:
            body, at = body_of(code, at)
            found.append(Function("::".join([*scopes, item[1]]), item.start(), body, at))
        elif item[2] or item[3]:
            brace = next_brace(code, at)
            if code[brace] == "{":
                scopes.append(item[4] or impl_name(code[at:brace]))
            at = brace + 1
        elif item[0] == "{":
            at = after_group(code, item.start())
        elif scopes:
            scopes.pop()


def ensures_of(text, function):
    """Returns the `ensures` clauses of a function: pairs of a name, or none, and a text."""
    code, found, at = blanked(text), [], function.head
    while True:
        clause = ENSURES.search(code, at, function.body)
        if not clause:
            return found
        at = after_group(code, clause.end())
        found.append((clause[1], text[clause.end():at]))


def module_of(path):
    """Returns the names of the module that a file of a crate is."""
    names = re.sub(r"\.rt$", "", path).split("/")[1:]
    return [] if names in (["lib"], ["main"]) else names


def named_functions(crate, path, text):
    """Returns the functions of a file with their whole names, but for a name that two have."""
    functions = [function for function in functions_in(text) if function.body < function.end]
    names = [function.name for function in functions]
    return [
        function._replace(name="::".join([crate, *module_of(path), function.name]))
        for function in functions if names.count(function.name) == 1
    ]


def bodies_of(crate, path, text):
    """Returns the body of each function of a file by the function's name, and the rest of the text.

    The bodies of functions that share a name are left in the rest.
    """
    bodies, rest, at = {}, [], 0
    for function in named_functions(crate, path, text):
        bodies[function.name] = text[function.body:function.end]
        rest += [text[at:function.body], GAP]
        at = function.end
    return bodies, "".join([*rest, text[at:]])


def with_bodies(crate, path, text, bodies):
    """Returns the text of a file with these bodies in place of its own."""
    parts, at = [], 0
    for function in named_functions(crate, path, text):
        if function.name in bodies:
            parts += [text[at:function.body], bodies[function.name]]
            at = function.end
    return "".join([*parts, text[at:]])


def function_at(crate, path, text, line):
    """Returns the name of the function whose head or body has a line, or None."""
    for function in named_functions(crate, path, text):
        first, last = (text.count("\n", 0, at) + 1 for at in (function.head, function.end))
        if first <= line <= last:
            return function.name
    return None
