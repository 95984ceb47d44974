"""Wrong bodies of functions, which the prover has to refuse, and the promises that they break.

    source    the functions of a source file
    edit      edits: what makes a wrong body
    prover    runs of the prover
    judge     what its output says of each edit
    kept      verdicts of earlier runs
    trying    which edits are tried together, and which alone
    contract  the clauses of functions, and the definitions that they name
    promise   promises, and the clauses that they cite
    standing  what a refusal says of the promises of an edit
"""

import os
import sys

# package/sums.py has the crates and their checksums.
sys.path.insert(0, f"{os.path.dirname(os.path.realpath(__file__))}/../../../package")
