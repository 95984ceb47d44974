"""The tools of the program by their words. The scripts that try the program go by this table."""

from . import blocks, checking, tools

TOOLS = {
    "list": tools.listing,
    "unpack": tools.unpacking,
    "blocks": blocks.block_listing,
    "check": checking.checking,
    "pack": tools.packing,
}
