"""Holds sessions with a node, one for each case, and judges what the node does."""
