"""The syntax of node IDs and endpoint IDs: URIs, and those of the schemes dtn and ipn."""

import re

# A scheme, a colon, and bytes that a URI may have (RFC 3986 sections 2 and 3.1). A `%` begins an
# octet in hexadecimal digits (section 2.1).
URI = re.compile(rb"([A-Za-z][A-Za-z0-9+.-]*):((?:[!#-$&-;=?-Z[\]_a-z~]|%[0-9A-Fa-f]{2})*)")

# What follows `dtn:`: `none`, or the name of a node between slashes, and a demux (RFC 9171 section
# 4.2.5.1.1). The name is a reg-name (RFC 3986 section 3.2.2).
DTN_NONE = re.compile(rb"none", re.IGNORECASE)
DTN_NAME = re.compile(rb"//((?:[A-Za-z0-9._~!$&'()*+,;=-]|%[0-9A-Fa-f]{2})*)/([\x21-\x7e]*)")

# What follows `ipn:`: two numbers (RFC 9171 section 4.2.5.1.2), or three
IPN_NUMBERS = re.compile(rb"(?:([0-9]+)\.)?([0-9]+)\.([0-9]+)")

# The schemes, in lower case
DTN, IPN = b"dtn", b"ipn"


def demux_of(name):
    """The demux of a dtn name, which is what follows `dtn:`. None if it has not this syntax."""
    found = DTN_NAME.fullmatch(name)
    return found and found[2]


def parts_of(node):
    """The scheme of a node ID in lower case, and what follows the colon."""
    scheme, _, rest = node.partition(b":")
    return scheme.lower(), rest


def is_node_id(node):
    """Whether a node ID is a URI, and one of its scheme if this is dtn or ipn."""
    if not URI.fullmatch(node):
        return False
    scheme, rest = parts_of(node)
    if scheme == DTN:
        return bool(DTN_NONE.fullmatch(rest)) or demux_of(rest) is not None
    return scheme != IPN or rest.startswith(b"!") or bool(IPN_NUMBERS.fullmatch(rest))


# ---- nodes: two are the same if they are equal


def node_of_name(name):
    """The node that a dtn name is of, or None if it has not this syntax."""
    found = DTN_NAME.fullmatch(name)
    return found and (DTN, found[1].lower())


def node_of_numbers(allocator, node):
    """The node that an ipn name is of."""
    return IPN, allocator, node


def node_of_endpoint(endpoint):
    """The node that an endpoint ID of a bundle is of, or None.

    The number 0 (dtn:none) is no node's. Of two numbers of an ipn name, the first is the node's, and
    the allocator is 0.
    """
    if isinstance(endpoint, tuple):
        return node_of_numbers(*(0, *endpoint)[-3:-1])
    return None if endpoint is None else node_of_name(endpoint)


def node_of_id(node):
    """The node that a node ID of a SESS_INIT is of, or None."""
    scheme, rest = parts_of(node)
    if scheme == DTN and is_node_id(node):
        return node_of_name(rest)
    found = IPN_NUMBERS.fullmatch(rest) if scheme == IPN else None
    return found and node_of_numbers(int(found[1] or 0), int(found[2]))
