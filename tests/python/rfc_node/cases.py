"""Which wrong switch each case of the probe accuses, and how the node is run for it.

`CASES` maps the name of a case to a switch. `RULES` does so for rules about what a node sends by itself: a
session that is good otherwise shows them. `LOST` has the cases after which the node serves nobody.
"""

CASES = {
    "good": "no-ack-at-all",
    # contact
    "contact-wait": "speaks-first",
    "contact-bytes": "needs-whole-header",
    "contact-flags": "heeds-contact-flags",
    "can-tls": "takes-can-tls-for-tls",
    "one-write": "loses-what-follows-header",
    "magic": "keeps-connection-with-other-magic",
    "magic-text": "keeps-connection-with-text",
    "version-5": "version-5-contact-failure",
    "version-255": "version-255-closed-without-term",
    "reply-version-0": "goes-on-after-version-0",
    "reply-version-3": "goes-on-after-version-3",
    "contact-cut": "keeps-connection-with-cut-header",
    # session
    "keepalive-0": "busy-at-keepalive-0",
    "keepalive-1": "busy-at-keepalive-1",
    "keepalive-65535": "busy-at-keepalive-65535",
    "segment-mru-0": "busy-at-segment-mru-0",
    "segment-mru-1": "busy-at-segment-mru-1",
    "segment-mru-max": "busy-at-segment-mru-max",
    "transfer-mru-0": "busy-at-transfer-mru-0",
    "transfer-mru-1": "busy-at-transfer-mru-1",
    "transfer-mru-max": "busy-at-transfer-mru-max",
    "node-empty": "closes-without-node-id",
    "item-unknown": "terminates-for-unknown-item",
    "item-flags": "terminates-for-item-flags",
    "item-critical": "ignores-critical-item",
    "item-overrun": "takes-overrun-list",
    "item-underrun": "takes-underrun-list",
    "init-bytes": "needs-whole-init",
    "second-init": "second-init-unsupported",
    "early-segment": "takes-early-segment",
    "early-ack": "ignores-early-ack",
    "early-refuse": "ignores-early-refusal",
    "early-term": "closes-on-early-term",
    # to
    "segments": "no-ack-after-start",
    "segments-of-1": "no-ack-of-one-byte",
    "segment-bytes": "no-ack-of-segment-in-bits",
    "segment-flags": "rejects-segment-flags",
    "pipelined": "one-ack-for-several",
    "empty-first": "no-ack-of-empty-start",
    "empty-middle": "no-ack-of-empty-segment",
    "empty-last": "no-ack-of-empty-end",
    "id-max": "no-ack-of-large-id",
    "length-right": "no-ack-of-announced-end",
    "length-small": "takes-more-than-announced",
    "length-large": "takes-less-than-announced",
    "length-max": "takes-announcement-of-2-64",
    "length-of-one": "no-ack-of-announced-whole",
    "length-of-one-wrong": "takes-other-length-of-one",
    "xfer-item-unknown": "does-not-skip-transfer-item",
    "xfer-item-flags": "closes-for-transfer-item-flags",
    "xfer-item-critical": "takes-critical-transfer-item",
    "xfer-item-overrun": "takes-overrun-transfer-list",
    "refused-goes-on": "ignores-segments-after-refusal",
    "refuse-order": "forgets-ack-before-refusal",
    "stray-segment": "ignores-stray-segment",
    "start-twice": "takes-start-again",
    # from
    "sent-good": "never-ends-transfer",
    "sent-segment-1": "segments-above-mru-1",
    "sent-segment-100": "segments-above-mru-100",
    "sent-transfer-1": "transfers-above-mru-1",
    "sent-transfer-100": "transfers-above-mru-100",
    "refuse-first-00": "goes-on-after-refusal-00",
    "refuse-first-01": "goes-on-after-refusal-01",
    "refuse-first-02": "goes-on-after-refusal-02",
    "refuse-first-03": "goes-on-after-refusal-03",
    "refuse-first-04": "goes-on-after-refusal-04",
    "refuse-first-05": "goes-on-after-refusal-05",
    "refuse-first-06": "goes-on-after-refusal-06",
    "refuse-first-07": "goes-on-after-refusal-07",
    "refuse-first-ff": "goes-on-after-refusal-ff",
    "refuse-middle": "goes-on-after-refusal-in-the-middle",
    "ack-reserved-flags": "closes-for-ack-flags",
    "ack-other-id": "unknown-ack-unsupported",
    "sent-term": "closes-on-term-while-sending",
    # answers
    "ack-nothing": "ack-of-nothing-unsupported",
    "refuse-nothing": "refusal-of-nothing-unsupported",
    "type-08": "type-08-unexpected",
    "type-09": "type-09-open",
    "type-0a": "type-0a-closed",
    "type-0b": "type-0b-ignored",
    "type-0c": "type-0c-unexpected",
    "type-0d": "type-0d-open",
    "type-0e": "type-0e-closed",
    "type-0f": "type-0f-ignored",
    # end
    "term-00": "no-reply-to-reason-00",
    "term-01": "no-reply-to-reason-01",
    "term-02": "no-reply-to-reason-02",
    "term-03": "no-reply-to-reason-03",
    "term-04": "no-reply-to-reason-04",
    "term-05": "no-reply-to-reason-05",
    "term-06": "no-reply-to-reason-06",
    "term-ff": "no-reply-to-reason-ff",
    "term-flags": "no-reply-to-term-flags",
    "term-bytes": "no-reply-to-term-in-bits",
    "term-inside": "no-reply-inside-transfer",
    "term-twice": "no-reply-to-two-terms",
    "transfer-after-term": "takes-transfer-after-term",
    "sends-after-term": "begins-after-term",
    "keepalive-after-term": "no-reply-before-keepalive",
    "init-after-term": "ignores-init-after-term",
    # slow and crowd
    "keepalive-due": "sends-no-keepalive",
    "keepalive-none": "keepalive-though-disabled",
    "silence-session": "idle-without-reason",
    "silence-connected": "waits-for-header",
    "silence-header": "waits-for-rest-of-header",
    "crowd": "one-session-at-a-time",
}

# The cases for which the node opens the connection, and those for which it sends a bundle by itself
CONNECTING = {"reply-version-0", "reply-version-3"}
SENDING = {case for case in CASES if case.startswith(("sent-", "refuse-first-", "refuse-middle"))}
SENDING |= {"ack-reserved-flags", "ack-other-id", "sends-after-term"}
# The probe has to wait for longer than this interval
INTERVALS = {"keepalive-none": 30}


def options_of(case):
    """Returns the options of the node for a case, except for --listen or --connect."""
    interval = ["--keepalive", str(INTERVALS[case])] if case in INTERVALS else []
    return ["--wrong", CASES[case], "--send", "1" if case in SENDING else "0", *interval]


RULES = {
    "after-bad-contact": "term-after-other-magic",
    "ack-flags": "acks-without-flags",
    "ack-sum": "acks-length-of-segment",
    "refuse-unknown": "refuses-other-id",
    "contact-flags": "sets-contact-flags",
    "reset": "resets",
    "reply-differs": "reply-with-other-reason",
    "reply-alone": "initial-term-with-reply",
    "term-unanswered": "reply-without-flag",
    "term-flags": "sets-term-flags",
    "unfinished": "never-ends-transfer",
    "order": "starts-every-segment",
    "segment-flags": "sets-segment-flags",
    "transfer-id": "repeats-transfer-id",
    "transfer-id-order": "begins-with-id-1",
    "interleaved": "interleaves-transfers",
    "length-differs": "announces-other-length",
    "length-item": "announces-twice",
    "length-of-one-segment": "announces-length-of-one",
    "item-type": "announces-by-other-type",
    "item-flags": "sets-item-flags",
    "retried": "retries-refused-bundle",
    "keepalive-interval": "interval-of-29",
}

LOST = {
    "second-init": "crashes-on-second-init",
    "item-overrun": "hangs-on-overrun",
    "refuse-nothing": "stops-serving-after-unknown-refusal",
}
