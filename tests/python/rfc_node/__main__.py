#!/usr/bin/env python3
"""usage: python3 tests/python/rfc_node/__main__.py (--listen HOST:PORT | --connect HOST:PORT) [OPTION]..

A node of TCPCLv4 that keeps RFC 9174, or breaks it in one chosen way.
"""

import argparse
import asyncio
import os
import signal
import sys

sys.dont_write_bytecode = True
sys.path.insert(0, f"{os.path.dirname(os.path.realpath(__file__))}/..")

from rfc_node.entity import Entity
from rfc_node.session import Session, Settings
from rfc_node.wrong import SWITCHES, wrong_session


def address(text):
    """Returns the host and the port of HOST:PORT."""
    host, _, port = text.rpartition(":")
    if not host or not port.isdigit() or int(port) > 65535:
        raise argparse.ArgumentTypeError("an address is HOST:PORT")
    return host.strip("[]"), int(port)


def parsed(arguments):
    """Returns the arguments."""
    own = Settings()
    parser = argparse.ArgumentParser(description="A node of TCPCLv4 that keeps RFC 9174, or breaks it in one way.")
    role = parser.add_mutually_exclusive_group(required=True)
    role.add_argument("--listen", type=address, metavar="HOST:PORT", help="serve connections; port 0 is a free one")
    role.add_argument("--connect", type=address, metavar="HOST:PORT", help="open a connection, again and again")
    role.add_argument("--list", action="store_true", help="print the wrong switches, a line each")
    parser.add_argument("--wrong", action="append", default=[], choices=sorted(SWITCHES), metavar="NAME")
    parser.add_argument("--send", type=int, metavar="N", help="bundles in each session (0, or 1 with --connect)")
    parser.add_argument("--node", default=own.node, metavar="ID", help="the node ID, which may be empty")
    parser.add_argument("--keepalive", type=int, default=own.keepalive, metavar="S")
    parser.add_argument("--segment-mru", type=int, default=own.segment_mru, metavar="N")
    parser.add_argument("--transfer-mru", type=int, default=own.transfer_mru, metavar="N")
    return parser.parse_args(arguments)


def listing():
    """Returns a line for each wrong switch: its name, its section, and the sentence that it breaks."""
    return "".join(f"{name}\t{it.section}\t{it.sentence}\n" for name, it in SWITCHES.items())


def main(arguments):
    """Runs the node until it is killed."""
    chosen = parsed(arguments)
    if chosen.list:
        sys.stdout.write(listing())
        return
    bundles = (1 if chosen.connect else 0) if chosen.send is None else chosen.send
    settings = Settings(chosen.node, chosen.keepalive, chosen.segment_mru, chosen.transfer_mru, bundles)
    entity = Entity(settings, wrong_session(Session, chosen.wrong))
    signal.signal(signal.SIGTERM, signal.SIG_DFL)
    asyncio.run(entity.serve(*chosen.listen) if chosen.listen else entity.visit(*chosen.connect))


if __name__ == "__main__":
    try:
        main(sys.argv[1:])
    except KeyboardInterrupt:
        sys.exit(130)
    except OSError as error:
        sys.exit(f"rfc_node: {error}")
