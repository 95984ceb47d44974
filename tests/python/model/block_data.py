"""What the data of a block says: "The words of a type".

The data of previous node, bundle age and hop count blocks is that of RFC 9171 section 4.4, of
security blocks that of RFC 9172 section 3.6, and of administrative records that of RFC 9171
section 6.1. It is read by the rules that hold for the same items elsewhere in a bundle.
"""

from functools import lru_cache
from typing import NamedTuple, Optional

from . import bundle

NEGATIVE, SIMPLE = 1, 7
FALSE, TRUE = 20, 21

# Block type codes (RFC 9171 section 4.4 and RFC 9172 section 3.6)
PAYLOAD, PREVIOUS_NODE, BUNDLE_AGE, HOP_COUNT, INTEGRITY, CONFIDENTIALITY = 1, 6, 7, 10, 11, 12

# Flags of a bundle (RFC 9171 section 4.2.3)
FRAGMENT, ADMINISTRATIVE = 0x000001, 0x000002

# The type of a bundle status report among the administrative records (RFC 9171 section 6.1)
STATUS_REPORT = 1

# What an array may have if its number of elements is left open
ANY = range(2**64)


class Malformed(NamedTuple):
    """Data that is not that of its type, and the offset in the bundle at which it fails.

    `is_limit` says that the toolkit does not read it, and the RFC may permit it.
    """
    at: int
    is_limit: bool = False


class PreviousNode(NamedTuple):
    """The node that forwarded the bundle (RFC 9171 section 4.4.1)."""
    node: object


class BundleAge(NamedTuple):
    """Milliseconds (RFC 9171 section 4.4.2)."""
    age: int


class HopCount(NamedTuple):
    """The limit and the count (RFC 9171 section 4.4.3)."""
    limit: int
    count: int


class Security(NamedTuple):
    """The beginning of an abstract security block (RFC 9172 section 3.6), to its source.

    The flags are those of the context.
    """
    targets: list
    context: int
    flags: int
    source: object


class StatusReport(NamedTuple):
    """A bundle status report (RFC 9171 section 6.1.1).

    `assertions` has False, True or a time for each status: received, forwarded, delivered, deleted,
    and any beyond these. The source, time, sequence number and fragment are those of its subject.
    """
    assertions: list
    reason: int
    source: object
    time: int
    sequence: int
    fragment: Optional[tuple]


class OtherRecord(NamedTuple):
    """An administrative record of another type (RFC 9171 section 6.1)."""
    kind: int


class DataScan(bundle.Scan):
    """The data of a block. Where a fault of it is, the block fails; its code is not shown."""

    def is_limit(self, code):
        """Whether the last head fails by a limit of the toolkit.

        These are another scheme than dtn and ipn, a long name, and a head of indefinite length. An
        item that ends too early (B1) is none, nor are bytes behind a whole item (B2).
        """
        return code in ("B9", "B11") or code not in ("B1", "B2") and self.content[self.place] in bundle.INDEFINITE

    def boolean(self):
        """A Boolean. It is one byte, so a longer head with the same number is none."""
        head = self.head()
        if self.at - self.place > 1 or head not in ((SIMPLE, FALSE), (SIMPLE, TRUE)):
            self.fault("B5")
        return head == (SIMPLE, TRUE)

    def integer(self):
        """An integer, which may be negative (RFC 8949 section 3.1)."""
        major, value = self.head()
        if major not in (bundle.UNSIGNED, NEGATIVE):
            self.fault("B5")
        return -1 - value if major == NEGATIVE else value

    def end(self):
        """The end of the data. A byte that follows is a fault."""
        self.place = self.at
        if self.at < len(self.content):
            self.fault("B2")

    def previous_node(self):
        """One endpoint ID (RFC 9171 section 4.4.1)."""
        node = self.endpoint()
        self.end()
        return PreviousNode(node)

    def bundle_age(self):
        """One unsigned integer (RFC 9171 section 4.4.2)."""
        age = self.unsigned()
        self.end()
        return BundleAge(age)

    def hop_count(self):
        """An array of two unsigned integers (RFC 9171 section 4.4.3)."""
        self.array([2])
        limit, count = self.unsigned(), self.unsigned()
        self.end()
        return HopCount(limit, count)

    def security(self):
        """The beginning of an abstract security block (RFC 9172 section 3.6).

        These are its targets, its context identifier, its context flags and its source. Neither an
        array is round them nor is the rest of the block read.
        """
        targets = [self.unsigned() for _ in range(self.array(ANY))]
        context, flags, source = self.integer(), self.unsigned(), self.endpoint()
        return Security(targets, context, flags, source)

    def assertion(self):
        """A status (RFC 9171 section 6.1.1): whether it is asserted, or the time of it.

        A time follows only where it is asserted.
        """
        count = self.array([1, 2])
        is_asserted = self.boolean()
        if count == 2 and not is_asserted:
            self.fault("B5")
        return self.unsigned() if count == 2 else is_asserted

    def record(self):
        """An administrative record (RFC 9171 section 6.1).

        What is in a record that is no status report is not read.
        """
        self.array([2])
        kind = self.unsigned()
        return self.status_report() if kind == STATUS_REPORT else OtherRecord(kind)

    def status_report(self):
        """A bundle status report (RFC 9171 section 6.1.1). Two elements more are for a fragment."""
        count = self.array([4, 6])
        assertions = [self.assertion() for _ in range(self.array(ANY[4:]))]
        reason, source = self.unsigned(), self.endpoint()
        self.array([2])
        time, sequence = self.unsigned(), self.unsigned()
        fragment = (self.unsigned(), self.unsigned()) if count == 6 else None
        self.end()
        return StatusReport(assertions, reason, source, time, sequence, fragment)


# How the data of each type is read. Payloads are read only if they are administrative records.
READERS = {
    PREVIOUS_NODE: DataScan.previous_node,
    BUNDLE_AGE: DataScan.bundle_age,
    HOP_COUNT: DataScan.hop_count,
    INTEGRITY: DataScan.security,
    CONFIDENTIALITY: DataScan.security,
}


def reader_of(kind, bundle_flags):
    """How the data of a block of this type is read in a bundle with these flags, or None.

    The payload of a fragment is a part of an administrative record at most.
    """
    if kind == PAYLOAD:
        return DataScan.record if bundle_flags & (ADMINISTRATIVE | FRAGMENT) == ADMINISTRATIVE else None
    return READERS.get(kind)


@lru_cache(1024)
def reading_of(block, bundle_flags):
    """What the data of a block says, and the offset in the bundle of its first long head, or None.

    A head is long if it is longer than its number needs. Only the heads that are read count, and
    those of malformed data do not. What the data says is None if it is not read.
    """
    reader = reader_of(block.kind, bundle_flags)
    if reader is None:
        return None, None
    scan = DataScan(block.data)
    try:
        content = reader(scan)
    except bundle.Fault as fault:
        code, place, _ = fault.args
        return Malformed(block.data_at + place, scan.is_limit(code)), None
    return content, None if scan.long_head is None else block.data_at + scan.long_head


def content_of(block, bundle_flags):
    """What the data of a block says in a bundle with these flags. None if it is not read."""
    return reading_of(block, bundle_flags)[0]
