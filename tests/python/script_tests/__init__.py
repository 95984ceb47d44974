"""The tests of scripts/, a file for each script. tests/gate/user-scripts runs them."""

import os
import sys

TOP = os.path.dirname(os.path.dirname(os.path.dirname(os.path.dirname(os.path.realpath(__file__)))))

sys.path.insert(0, f"{TOP}/examples")
