"""Runs of the tools with what each has to write, for tests/gate/model-rows.

What is to be written was worked out by hand from the formats and the RFCs, and not taken from the
model or from the program. Streams are made by the encoders of examples/make.py, and bundles are
spelled out in hexadecimal or made by those of tests/python/inputs.

    lines   `blocks`: the lines, where they end, and the options
    words   `blocks`: the words of a type, and each offset of data that is malformed
    messages, bundles, security
            `check`: for each rule, what breaks it alone and what just keeps it; `broken` has what
            the three share
    corpus  `check`: for each rule, a stream that breaks it alone and one that keeps all else too
    faults  `check`: each fault, in a stream that has no other
    runs    `check`: several rules at once, the options, and the status
    binding `check`: whom a line accuses, with `--own` and without, and unknown parts
    rfc9173 both: the bundles of RFC 9173 appendix A
    edges   `unpack` and `pack`: numbers at their bounds
    laws    what holds of `blocks` and `check` for any input
    table   these files by their names
"""

import os
import sys
from typing import NamedTuple, Union

TOP = os.path.dirname(os.path.dirname(os.path.dirname(os.path.dirname(os.path.realpath(__file__)))))

sys.path.insert(0, f"{TOP}/examples")


class Row(NamedTuple):
    """A run of a tool, and what it has to write: lines of output and of report, and the status.

    An output that has no lines is given as bytes.
    """

    name: str
    tool: str
    options: dict
    content: bytes
    output: Union[list, bytes]
    report: list
    status: int
