#!/usr/bin/env python3
"""Does what tests/gate/library-callers asks for on standard input, with the module `tcpclkit`.

The jobs and the answers are those of caller.c beside this file.
"""

import sys

import tcpclkit
from tcpclkit import Kind


def escaped(content):
    """Returns bytes as the program's lines show them."""
    return "".join(chr(it) if 0x20 < it < 0x7F and it != 0x5C else f"\\x{it:02x}" for it in content)


def fault_line(fault):
    """Returns the line of a fault of a recording."""
    return f"tcpclkit: byte {fault.offset}: {fault}\n"


# ---- bundles


def judgement(content):
    """Returns the judgement of a bundle as `unpack` writes it, and the bundle or None."""
    try:
        it = tcpclkit.bundle(content)
    except tcpclkit.Fault as fault:
        return f"bad={str(fault).split()[0]} byte={fault.offset}", None
    text = f"good source={it.source} time={it.time} sequence={it.sequence}"
    text += f" destination={it.destination} payload={len(it.payload)}"
    return text + (f" fragment={it.fragment[0]}/{it.fragment[1]}" if it.fragment else ""), it


def primary_line(it):
    """Returns the line of the fields of a primary block that come before its first fault."""
    line = f"primary accepted={it.accepted} whole={int(it.is_whole)}"
    for name in ("flags", "destination", "source", "report_to"):
        value = getattr(it, name)
        line += f" {name.replace('_', '-')}={value}" if value is not None else ""
    line += f" creation={it.creation[0]}/{it.creation[1]}" if it.creation else ""
    line += f" lifetime={it.lifetime}" if it.lifetime is not None else ""
    return line + (f" fragment={it.fragment[0]}/{it.fragment[1]}" if it.fragment else "")


def compare_scan(content):
    """Feeds the bytes to a scan in pieces. What it has found is what the bytes that it took are."""
    scan, at, size = tcpclkit.Scan(), 0, 1 + len(content) % 13
    while scan.is_going and at < len(content):
        at += scan.feed(content[at:at + size])
    if scan.verdict() != tcpclkit.verdict(content[:at]):
        raise ValueError("the bytes in pieces have another verdict")
    if scan.end(len(content)) != tcpclkit.verdict(content):
        raise ValueError("the end of the bytes in pieces is another")
    if scan.primary() != tcpclkit.primary(content[:at]):
        raise ValueError("the bytes in pieces have another primary block")
    try:
        it = scan.bundle()
    except tcpclkit.Fault:
        return
    if it._replace(payload=content[it.payload]) != tcpclkit.bundle(content[:at]):
        raise ValueError("the bytes in pieces are another bundle")


def judge(content):
    """The verdict, where the payload is, and further fields of a good bundle."""
    text, it = judgement(content)
    lines, verdict = [text], tcpclkit.verdict(content)
    if (verdict.fault is None) != (it is not None):
        raise ValueError("the verdict differs from that of `bundle`")
    compare_scan(content)
    if verdict.payload is not None:
        start, end = verdict.payload.start, verdict.payload.stop
        lines.append(f"payload {start} {end - start}")
    if it is not None:
        lines.append(f"flags={it.flags} lifetime={it.lifetime} blocks={it.blocks}")
    lines.append(primary_line(tcpclkit.primary(content)))
    return 0 if it else 1, "".join(f"{line}\n" for line in lines).encode(), b""


def block_line(it):
    """Returns the line of a block."""
    words = "primary"
    if it.block_type is not None:
        start, length = it.data.start, it.data.stop - it.data.start
        words = f"block type={it.block_type} number={it.number}"
        words += f" data-at={start} data-length={length}"
    return f"{words} at={it.offset} length={it.length} flags={it.flags} check={it.check}\n"


def blocks_in_pieces(content, size):
    """Returns the blocks of a bundle that comes in pieces of this size, and its fault or None."""
    scan, blocks, at, taken, head = tcpclkit.Scan(), [], 0, 1, None
    while scan.is_going and taken:
        taken, it = scan.next_block(content[at:at + size])
        at += taken
        if head is not None and it is not None and not is_begun(head, it):
            raise ValueError("a block ends as another one than it began")
        blocks += [] if it is None else [it]
        head = scan.block_head()
    return blocks, scan.verdict().fault


def is_begun(head, it):
    """Returns whether a block that went on is the one that ends next."""
    same = it.offset, it.flags, it.check, it.block_type, it.number
    return (
        head[:5] == same and head.data_length == it.data.stop - it.data.start
        and head.data.start == it.data_at == it.data.start and head.data.stop <= it.data.stop
    )


def compare_words(content, blocks):
    """Compares what the data of the blocks says with the lines of the tool, one after another."""
    lines = tcpclkit.blocks(content, bundles=True).output.decode()
    for it in blocks[1:]:
        data = content[it.data]
        words = it.with_data(data).words(blocks[0])
        name = tcpclkit.block_type_name(it.block_type)
        for part in (
            f" at={it.offset} length={it.length} type={it.block_type}/{name} flags=",
            f" data-at={it.data_at} data-length={len(data)}{' ' if words else ''}{words}\n",
        ):
            _, found, lines = lines.partition(part)
            if not found:
                raise ValueError("the words of a block are not those of its line")


def show(content):
    """The blocks of the bundle that the bytes begin with, and its fault if there is one."""
    blocks, fault = blocks_in_pieces(content, 1 + len(content) % 13)
    whole = []
    try:
        whole += tcpclkit.blocks_of(content)
    except tcpclkit.Fault as found:
        if found != fault:
            raise ValueError("the blocks in pieces have another fault") from found
    # (after a fault, a list has none of the blocks before it)
    if fault is None and whole != [with_data(it, content) for it in blocks]:
        raise ValueError("the blocks in pieces are others")
    compare_words(content, blocks)
    lines = [block_line(it) for it in blocks]
    lines += [] if fault is None else [f"bad={str(fault).split()[0]} byte={fault.offset}\n"]
    return int(fault is not None), "".join(lines).encode(), b""


def with_data(it, content):
    """Returns a block with the bytes of its data in place of where they are."""
    return it if it.data is None else it.with_data(content[it.data])


# ---- messages


def items(it):
    """Returns the number of extension items of a message and each of them."""
    each = "".join(
        f" item={one.flags:02x}:{one.item_type:04x}:{len(one.value)}" for one in it.items
    )
    return f" items={len(it.items)}{each}"


def line(it):
    """Returns the line of a message."""
    if it.kind == Kind.XFER_SEGMENT:
        listed = "" if it.items is None else items(it)
        words = f"xfer-segment flags={it.flags:02x} id={it.id}{listed} length={it.length}"
    elif it.kind == Kind.XFER_ACK:
        words = f"xfer-ack flags={it.flags:02x} id={it.id} length={it.length}"
    elif it.kind == Kind.XFER_REFUSE:
        words = f"xfer-refuse reason={it.reason:02x}/{it.reason_name} id={it.id}"
    elif it.kind == Kind.KEEPALIVE:
        words = "keepalive"
    elif it.kind == Kind.SESS_TERM:
        words = f"sess-term flags={it.flags:02x} reason={it.reason:02x}/{it.reason_name}"
    elif it.kind == Kind.MSG_REJECT:
        words = f"msg-reject reason={it.reason:02x}/{it.reason_name} header={it.header:02x}"
    else:
        words = f"sess-init keepalive={it.keepalive} segment-mru={it.segment_mru}"
        words += f" transfer-mru={it.transfer_mru} node={escaped(it.node)}{items(it)}"
    return f"{it.offset} {words}\n"


def read(content):
    """What `list` writes, made of the messages."""
    lines, status, report = [], 0, ""
    try:
        lines.append(f"0 contact version=4 flags={tcpclkit.contact(content):02x}\n")
        for it in tcpclkit.messages(content):
            if not it.is_cut:
                lines.append(line(it))
    except tcpclkit.Fault as fault:
        status, report = 3, fault_line(fault)
    return status, "".join(lines).encode(), report.encode()


# ---- transfers


class Walk:
    """What `unpack` writes, made of messages and bundles."""

    def __init__(self):
        self.output, self.report, self.status = bytearray(), [], 0
        self.first, self.start, self.is_open = None, 0, False

    def end(self):
        """Adds the line of the transfer that is over."""
        data = bytes(self.output[self.start:])
        announced = self.first.announced
        if self.is_open:
            words = "abandoned"
        elif announced.is_bad:
            words = "bad-length-item"
        elif announced.total not in (None, len(data)):
            words = f"length-differs announced={announced.total}"
        else:
            words = judgement(data)[0]
        length = f"written={len(data)} length={len(data)}"
        self.report.append(f"transfer {self.first.id} start={self.start} {length} {words}\n")
        if not words.startswith("good "):
            self.status = 1

    def take(self, it, turn):
        """Takes a message and its turn, which is None for a stray segment."""
        if turn is None or turn.begins is None:
            return
        if turn.begins:
            if turn.abandoned is not None:
                self.end()
            self.first, self.start = it, len(self.output)
        self.output += it.data
        self.is_open = not turn.is_last
        if turn.is_last and not it.is_cut:
            self.end()


def walk(content, goes_on=False):
    """What `unpack` writes, made of messages and bundles; or what `unpack --keep-going` does."""
    it, order = Walk(), tcpclkit.Order()
    try:
        tcpclkit.contact(content)
        for message in tcpclkit.messages(content):
            if goes_on:
                turn, fault = order.take(message)
                if fault is not None:
                    it.report.append(fault_line(fault))
                    it.status = 1
            else:
                turn = order.judge(message)
            it.take(message, turn)
        if it.is_open:
            it.end()
    except tcpclkit.Fault as fault:
        it.report.append(fault_line(fault))
        it.status = 3
    return it.status, bytes(it.output), "".join(it.report).encode()


def go_on(content):
    """What `unpack --keep-going` writes, made of the same."""
    return walk(content, goes_on=True)


# ---- answers


def answers(content, of_id, length, whole):
    """What the answers of a recording do to a transfer."""
    sent, lines = tcpclkit.Sent(of_id, length, whole == 1), []
    try:
        tcpclkit.contact(content)
        for it in tcpclkit.messages(content):
            if it.kind not in (Kind.XFER_ACK, Kind.XFER_REFUSE):
                continue
            code = 0
            try:
                sent.judge(it)
            except tcpclkit.Fault as fault:
                code = int(fault.code)
            lines.append(f"{it.offset} {code} {sent.acknowledged}\n")
    except tcpclkit.Fault:
        pass  # The question is about the messages before it.
    return 0, "".join(lines).encode(), b""


# ---- writing


def rewrite(content):
    """A recording, read and written message by message, up to its first fault."""
    output, status, report = [], 0, ""
    try:
        output.append(tcpclkit.write_contact(tcpclkit.contact(content)))
        for it in tcpclkit.messages(content):
            if not it.is_cut:
                output.append(tcpclkit.write_message(it))
    except tcpclkit.Fault as fault:
        status, report = 3, fault_line(fault)
    return status, b"".join(output), report.encode()


def written_block(block):
    """Writes a canonical block in one go. In pieces, the bytes are the same."""
    head = tcpclkit.write_block_head(tcpclkit.BlockHead(
        offset=0, flags=block.flags, check=block.check, block_type=block.block_type,
        number=block.number, data_length=len(block.data),
    ))
    check, content = tcpclkit.Check(block.check), head + block.data
    for at in range(0, len(content), 7):
        check.feed(content[at:at + 7])
    if tcpclkit.write_block(block) != content + check.field():
        raise ValueError("a block in pieces is another one")
    return content + check.field()


def rebuild(content, check):
    """A good bundle, read and written block by block, with one type of check values or its own."""
    try:
        it = tcpclkit.bundle(content)
    except tcpclkit.Fault:
        return 1, b"", b""
    output = [tcpclkit.BUNDLE_FIRST]
    for block in tcpclkit.blocks_of(content):
        if check != 3:
            block = block._replace(check=check)
        is_primary = block.block_type is None
        output.append(
            tcpclkit.write_primary(it, block.check) if is_primary else written_block(block)
        )
    return 0, b"".join([*output, tcpclkit.BUNDLE_LAST]), b""


# ---- texts


def names(number):
    """Returns the names that a number has as a block type and as reasons."""
    kinds = Kind.XFER_REFUSE, Kind.SESS_TERM, Kind.MSG_REJECT
    found = [tcpclkit.block_type_name(number), tcpclkit.report_reason_name(number)]
    found += [tcpclkit.Message(0, kind, reason=number % 256).reason_name for kind in kinds]
    return " ".join(found) + "\n"


def bundle_of(eid, text):
    """Returns a bundle that has an endpoint ID wherever it can have one."""
    length, check = len(text), len(text) % 3
    it = tcpclkit.Bundle(0, eid, eid, eid, time=length, sequence=length, lifetime=length)
    output = [tcpclkit.BUNDLE_FIRST, tcpclkit.write_primary(it, check)]
    for block_type, number, data in [
        (6, 2, tcpclkit.write_eid(eid)), (7, 3, tcpclkit.write_age(length)),
        (10, 4, tcpclkit.write_hop_count(length, 2**64 - 1 - length)), (1, 1, text),
    ]:
        output.append(written_block(tcpclkit.Block(0, 0, 0, check, block_type, number, data)))
    return b"".join([*output, tcpclkit.BUNDLE_LAST])


def texts(content):
    """The names of the number that is the length, and what is made of an endpoint ID's text."""
    report = names(len(content))
    try:
        eid = tcpclkit.read_eid_text(content.decode())
    except ValueError:
        return 1, b"", report.encode()
    return 0, bundle_of(eid, content), f"{report}{eid}".encode()


# ---- jobs


def tool(name, numbers, content):
    """What a tool writes."""
    if name == "list":
        run = tcpclkit.list_messages(content)
    elif name == "unpack":
        only_one, transfer, payload, keep_going = numbers
        wanted = transfer if only_one else None
        run = tcpclkit.unpack(content, wanted, payload == 1, keep_going == 1)
    elif name == "blocks":
        only_one, transfer, keep_going, bundles = numbers
        wanted = transfer if only_one else None
        run = tcpclkit.blocks(content, wanted, keep_going == 1, bundles == 1)
    elif name == "check":
        must, has_segment, segment, has_transfer, transfer, bundles = numbers
        limits = segment if has_segment else None, transfer if has_transfer else None
        run = tcpclkit.check(content, must == 1, *limits, bundles == 1)
    elif name == "more":
        run = tcpclkit.pack_more(content, *numbers)
    else:
        length = numbers[-1]
        run = tcpclkit.pack(content[length:], content[:length], *numbers[:-2], numbers[-2] == 1)
    return run.exit_status, run.output, run.report


def main():
    """Answers each job."""
    source, target = sys.stdin.buffer, sys.stdout.buffer
    by_name = {
        "show": show, "judge": judge, "read": read, "walk": walk, "go-on": go_on,
        "answers": answers, "rewrite": rewrite, "rebuild": rebuild, "texts": texts,
    }
    for words in iter(source.readline, b""):
        name, *numbers, length = words.decode().split()
        content, numbers = source.read(int(length)), [*map(int, numbers)]
        by_hand = by_name.get(name)
        answer = by_hand(content, *numbers) if by_hand else tool(name, numbers, content)
        status, output, report = answer
        target.write(b"%d %d %d\n" % (status, len(output), len(report)) + output + report)
        target.flush()


if __name__ == "__main__":
    main()
