"""Examples of how the module is called, which docs/LIBRARIES.md shows word for word.

    example.py bundle < BUNDLE      writes the endpoint IDs of a bundle, or its fault
    example.py blocks < BUNDLE      writes the types of its blocks, and the lengths of their data
    example.py payload < BUNDLE     writes the payload of a bundle while it comes
    example.py data < RECORDING     writes the data of a recording
    example.py receive < RECORDING  writes the same as it comes, and judges the order of messages
    example.py pack < BUNDLES       writes bundles as the stream of a sender
    example.py send < BUNDLE        writes a bundle as the segments of a transfer
    example.py acknowledge < RECORDING  writes the XFER_ACK of each segment of a recording
    example.py make < PAYLOAD       writes a bundle with this payload
"""

import sys

import tcpclkit


def show_bundle(content):
    """Returns the endpoint IDs and the length of the payload of a good bundle, as a text."""
    it = tcpclkit.bundle(content)
    return f"{it.source} -> {it.destination}: {len(it.payload)} bytes"


def show_blocks(content):
    """Writes a line for each canonical block of a bundle."""
    for it in tcpclkit.blocks_of(content):
        if it.block_type is not None:
            print(f"type {it.block_type}: {len(it.data)} bytes")


def copy_payload(source, output):
    """Writes the payload of a bundle while it comes."""
    scan, piece, before = tcpclkit.Scan(), None, 0
    while scan.is_going and piece != b"":
        piece = source.read(32)
        taken = scan.feed(piece)
        payload = scan.verdict().payload
        if payload is not None and payload.stop > before:
            output.write(piece[max(payload.start - before, 0):payload.stop - before])
        before += taken
    scan.bundle()


def copy_data(recording, output):
    """Writes the data of a recording's segments, joined."""
    tcpclkit.contact(recording)
    for message in tcpclkit.messages(recording):
        if message.kind == tcpclkit.Kind.XFER_SEGMENT:
            output.write(message.data)


def receive_data(source, output):
    """Writes the data of a session's segments as it comes."""
    held, piece, order = b"", None, tcpclkit.Order()
    tcpclkit.contact(source.read(tcpclkit.CONTACT_LENGTH))
    # where `held` begins, where the last message began, and its data that is still to come
    at, begun, left = tcpclkit.CONTACT_LENGTH, 0, 0
    while piece != b"":
        piece = source.read(32)
        held += piece
        used = min(left, len(held))
        output.write(held[:used])
        left -= used
        try:
            for message in tcpclkit.messages(held, used):
                order.judge(message)
                begun, used = at + message.offset, message.head_end
                if message.kind == tcpclkit.Kind.XFER_SEGMENT:
                    output.write(message.data)
                    used += len(message.data)
                    left = message.length - len(message.data)
        except tcpclkit.Fault as fault:
            if not fault.is_truncated:
                raise tcpclkit.Fault(fault.code, fault.number, at + fault.offset) from fault
        at, held = at + used, held[used:]
    if held or left:
        raise tcpclkit.Fault(tcpclkit.Code.WIRE_TRUNCATED, 0, begun if left else at)


def pack_bundles(bundles):
    """Packs bundles as the stream of a sender whose peer takes segments of 20 bytes."""
    return tcpclkit.pack(bundles, b"ipn:1.0", peer_segment=20)


def send_bundle(bundle, transfer, output):
    """Writes a bundle as the segments of a transfer to a peer that takes 20 bytes in each."""
    flags = tcpclkit.SEGMENT_START
    for at in range(0, len(bundle), 20):
        flags |= tcpclkit.SEGMENT_END if at + 20 >= len(bundle) else 0
        segment = tcpclkit.Message(
            0, tcpclkit.Kind.XFER_SEGMENT, flags, id=transfer, data=bundle[at:at + 20]
        )
        output.write(tcpclkit.write_message(segment))
        flags = 0


def acknowledge(segment, received, output):
    """Writes the XFER_ACK of a segment. `received` bytes of its transfer have come."""
    fields = segment.flags, None, None, segment.id, received
    output.write(tcpclkit.write_message(tcpclkit.Message(0, tcpclkit.Kind.XFER_ACK, *fields)))


def acknowledge_all(recording, output):
    """Writes the XFER_ACK of each segment of a recording."""
    received = 0
    try:
        tcpclkit.contact(recording)
        for message in tcpclkit.messages(recording):
            if message.kind == tcpclkit.Kind.XFER_SEGMENT and not message.is_cut:
                if message.flags & tcpclkit.SEGMENT_START:
                    received = 0
                received += message.length
                acknowledge(message, received, output)
    except tcpclkit.Fault:
        pass  # What came before it is acknowledged.


def make_bundle(payload):
    """Returns a bundle from dtn://node/a to ipn:2.1 with this payload."""
    source, destination = map(tcpclkit.read_eid_text, ("dtn://node/a", "ipn:2.1"))
    primary = tcpclkit.Bundle(
        flags=0, destination=destination, source=source, report_to=tcpclkit.Dtn(None),
        time=800_000_000_000, sequence=1, lifetime=60000,
    )
    block = tcpclkit.Block(0, 0, flags=0, check=2, block_type=1, number=1, data=payload)
    blocks = tcpclkit.write_primary(primary, check=2) + tcpclkit.write_block(block)
    return tcpclkit.BUNDLE_FIRST + blocks + tcpclkit.BUNDLE_LAST


def main():
    """Does what the argument asks for. Returns the exit status, or the text of a fault."""
    try:
        if sys.argv[1:] == ["payload"]:
            copy_payload(sys.stdin.buffer, sys.stdout.buffer)
            return 0
        if sys.argv[1:] == ["receive"]:
            receive_data(sys.stdin.buffer, sys.stdout.buffer)
            return 0
        content = sys.stdin.buffer.read()
        if sys.argv[1:] == ["bundle"]:
            print(show_bundle(content))
        elif sys.argv[1:] == ["blocks"]:
            show_blocks(content)
        elif sys.argv[1:] == ["pack"]:
            run = pack_bundles(content)
            sys.stdout.buffer.write(run.output)
            sys.stderr.buffer.write(run.report)
            return run.exit_status
        elif sys.argv[1:] == ["send"]:
            send_bundle(content, 0, sys.stdout.buffer)
        elif sys.argv[1:] == ["acknowledge"]:
            acknowledge_all(content, sys.stdout.buffer)
        elif sys.argv[1:] == ["make"]:
            sys.stdout.buffer.write(make_bundle(content))
        else:
            copy_data(content, sys.stdout.buffer)
    except tcpclkit.Fault as fault:
        return f"byte {fault.offset}: {fault}"
    return 0


if __name__ == "__main__":
    sys.exit(main())
