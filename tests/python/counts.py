"""The last line of a step of the gate, and the least number of checks that a step has to make.

Each step states this number, some 5 in 100 below the checks that it makes, so that a part which is
left out by mistake is noticed. If some parts need tools, they have a number of their own.
"""

import shutil


def least_of(floors):
    """Returns the least number of checks on this machine.

    `floors` has a number for the parts that need some tools, by the names of these. The parts that
    need none are under the empty text.
    """
    return sum(least for tools, least in floors.items() if all(map(shutil.which, tools.split())))


def end(passed, failed, least=1):
    """Prints the last line of a step. Returns its exit status.

    Fewer checks than the least number are one more failure.
    """
    if passed + failed < least:
        print(f"FAILED: only {passed + failed} checks were made, and the step has to make {least}")
        failed += 1
    print(f"{passed} passed, {failed} failed")
    return int(failed > 0)
