"""Tests of the node: its bytes, its answers to each peer, and sessions between two of it."""
