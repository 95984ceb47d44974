"""The node of tests/python/rfc_node with a wrong switch gets the line of the case that the switch is for."""

from concurrent.futures import ThreadPoolExecutor

from probing import table
from rfc_node.cases import CASES, CONNECTING, options_of

from .nodes import NODE, PROGRAMS, connecting, free_port, needs, node, probe, room

QUICK = ["--timeout", "1", "--patience", "3", "--wait", "15"]
# In a run of the whole table, the node has more to do at the same time.
WHOLE = ["--timeout", "5", "--patience", "10", "--jobs", "4"]
# How many runs go on at the same time, and how often one is tried whose switch needs bytes to come apart:
# the system may hand several of them to the node at once
JOBS, TRIES = 4, 3
IN_BYTES = {"contact-bytes", "init-bytes", "segment-bytes", "term-bytes"}
# The cases of which the whole table is run too: no other case may have a line
ALONE = [
    "can-tls", "node-empty", "item-critical", "second-init", "segment-flags", "empty-middle", "id-max",
    "length-small", "refused-goes-on", "type-08",
]


def accusing():
    """Returns the cases that have a wrong switch, except the slow ones."""
    return [case.name for case in table.CASES if case.name in CASES and case.group != "slow"]


def accused(case, *options):
    """Returns the names of the cases that accuse the node with the wrong switch of a case."""
    with room() as at:
        if case in CONNECTING:
            address = f"127.0.0.1:{free_port()}"
            with connecting(address, *options_of(case)):
                ran = probe(*QUICK, "--listen", address, *options, f"{at}/tried")
        else:
            with node(*options_of(case)) as address:
                ran = probe(*QUICK, *options, f"{at}/tried", address)
    return ran.names("must") | ran.names("should") | ran.names("lost")


def alone(case):
    """Returns the cases that accuse the node in a run of one case. A run without any is made again if the
    switch needs bytes to come apart."""
    for _ in range(TRIES if case in IN_BYTES else 1):
        found = accused(case, "--only", case)
        if found:
            break
    return found


def of_table(case):
    """Returns the cases that accuse the node in a run of the whole table."""
    return accused(case, *WHOLE)


@needs(PROGRAMS, NODE)
def due_lines():
    """The case of each wrong switch accuses the node, and `good` does not."""
    with ThreadPoolExecutor(JOBS) as pool:
        for case, found in zip(accusing(), pool.map(alone, accusing())):
            yield f"{CASES[case]}: {case}", {case}, found


@needs(PROGRAMS, NODE)
def no_other_line():
    """In a run of the whole table, no other case accuses a node with one of some wrong switches."""
    with ThreadPoolExecutor(JOBS) as pool:
        for case, found in zip(ALONE, pool.map(of_table, ALONE)):
            yield f"{CASES[case]}: no case but {case}", {case}, found


PARTS = [due_lines, no_other_line]
