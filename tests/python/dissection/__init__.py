"""What tests/gate/tshark compares: the lines of `tcpclkit blocks` and the trees of tshark.

    bundles       the recordings, and a capture of them
    lines         the blocks that a line of the program says
    trees         the blocks that a tree of tshark shows, in the words of those lines
    differences   the differences that are known, each with its reason
"""

import os
import sys

TOP = os.path.dirname(os.path.dirname(os.path.dirname(os.path.dirname(os.path.realpath(__file__)))))

sys.path.insert(0, f"{TOP}/examples")
