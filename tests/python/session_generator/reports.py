"""How tests/gate/random-sessions and random-captures report, and the lines that they let pass."""

# The seed of a run that is given none, and how many failures of a kind are shown
SEED, SHOWN = "2026", 5

# Rules of level should that a node of a conforming session may break, each with its reason (RFC 9174)
CHOICES = {
    "transfer-id-order": "it has another way to make IDs (section 7.13)",
    "keepalive-interval": "the network is its own (section 5.1.1)",
    "ack-missing": "it has to close the connection at once (section 6.1)",
    "ending": "its own SESS_TERM, which begins its Ending state, is not sent yet (sections 3.3 and 6.1)",
    "answer-order": "it processes segments in another order than they came (section 5.2.3)",
    "ack-length": "the same (section 5.2.3)",
    "refused-acknowledged": "the segment had come before the transfer was refused (section 5.2.4)",
    "unanswered-at-close": "it has to close the connection at once (section 6.1)",
    "term-unanswered": "the other side closed the connection before that (section 6.1)",
    "critical-ignored": "it acknowledges the SESS_TERM of the other side, which came with the item (section 6.1)",
    "after-bad-contact": "a recording may begin late, and then it does not show the contact header",
}

# Those of captures, where what TCP does to a node shows too
IN_CAPTURES = {
    **CHOICES,
    "keepalive-late": "its TCP could not send, since a window was closed or packets were lost (section 5.1.1)",
    "idle": "the time is implementation-defined (section 5.1.1)",
    "refused-continued": "it had not read the refusal yet (section 5.2.4)",
}


def is_wrong(level, rule, choices):
    """Whether a line accuses a node that keeps RFC 9174."""
    return level == "must" or rule not in choices


def report(name, is_good, notes=()):
    """Prints how a check went, with a few notes. Returns whether it passed."""
    print(f"{'ok' if is_good else 'FAILED'} {name}", flush=True)
    for note in notes[:SHOWN]:
        print(f"  {note}", flush=True)
    return is_good


def counted(counts, floors, total, of):
    """Compares how many of `total` sessions have each feature with its floor, which is for `of` of them."""
    checks = []
    for name, floor in floors.items():
        wanted = floor * total // of
        checks.append(report(f"{name}: {counts[name]} of {total}, at least {wanted}", counts[name] >= wanted))
    return checks
