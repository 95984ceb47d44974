"""Which addresses the probe may speak with: those of this machine and of private networks."""

import ipaddress
import socket

# The networks of nodes that are the user's own (RFC 1918, RFC 4193, RFC 4291), and loopback
PRIVATE = [
    ipaddress.ip_network(it)
    for it in ("127.0.0.0/8", "10.0.0.0/8", "172.16.0.0/12", "192.168.0.0/16", "::1/128", "fc00::/7", "fe80::/10")
]


class Refused(Exception):
    """An address that the probe does not speak with. The text says why."""


def split(text):
    """Returns the host and the port of an address: `HOST:PORT`, `[::1]:4556`, or without the port."""
    host, colon, port = text.rpartition(":")
    if text.startswith("[") and text.endswith("]") or not colon:
        host, port = text, "4556"
    if host.startswith("[") and host.endswith("]"):
        host = host[1:-1]
    elif ":" in host:
        raise Refused(f"{text}: an IPv6 address needs brackets, such as [::1]:4556")
    if not host or not (port.isascii() and port.isdigit() and int(port) < 1 << 16):
        raise Refused(f"{text}: no address such as 127.0.0.1:4556")
    return host, int(port)


def is_private(number):
    """Returns whether an address is one of loopback or of a private network. A mapped IPv4 address is
    taken for the IPv4 address, and a zone (`fe80::1%eth0`) is left out."""
    address = ipaddress.ip_address(number.partition("%")[0])
    if address.version == 6 and address.ipv4_mapped is not None:
        address = address.ipv4_mapped
    return any(address.version == it.version and address in it for it in PRIVATE)


def resolved(host, port):
    """Returns the numbers of a host, as (family, sockaddr). The name is looked up once."""
    try:
        found = socket.getaddrinfo(host, port, type=socket.SOCK_STREAM, proto=socket.IPPROTO_TCP)
    except OSError as error:
        raise Refused(f"{host}: {error.strerror or error}") from None
    return list(dict.fromkeys((family, address) for family, _, _, _, address in found))


def allowed(text, is_mine, is_listening=False):
    """Returns the numbers of an address, as (family, sockaddr).

    Each has to be loopback or private, unless `is_mine`.
    """
    host, port = split(text)
    if port == 0 and not is_listening:
        raise Refused(f"{text}: no port to connect to")
    found = resolved(host, port)
    for _, address in found:
        if not (is_mine or is_listening or is_private(address[0])):
            raise Refused(f"{address[0]} is neither loopback nor private; --mine says that the node is yours")
    return found
