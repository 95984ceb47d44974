"""A small node of TCPCLv4, written from RFC 9174 and RFC 9171 alone, that can be told to break one rule."""
