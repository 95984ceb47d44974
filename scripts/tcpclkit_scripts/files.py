"""The files that a capture is written to."""

import os
from collections import OrderedDict

# How many files may be open at a time, and how many bytes are read at once.
OPEN, PIECE = 200, 1 << 16


class Files:
    """Files of a folder that are appended to and read. At most OPEN of them are open at a time."""

    def __init__(self, folder):
        self.folder, self.opened = folder, OrderedDict()

    def path(self, name):
        """Returns the path of a file."""
        return f"{self.folder}/{name}"

    def file(self, name):
        """Returns an open file, which is made if it is not there."""
        file = self.opened.pop(name, None) or open(self.path(name), "ab+", buffering=0)
        self.opened[name] = file
        if len(self.opened) > OPEN:
            self.opened.popitem(last=False)[1].close()
        return file

    def append(self, name, content):
        """Appends to a file."""
        file, view = self.file(name), memoryview(content)
        while view:
            view = view[file.write(view) :]

    def pieces(self, name, begin, end):
        """Yields the bytes of a file between two offsets."""
        while begin < end:
            piece = os.pread(self.file(name).fileno(), min(PIECE, end - begin), begin)
            yield piece
            begin += len(piece)

    def remove(self, name):
        """Removes a file."""
        self.opened.pop(name).close()
        os.unlink(self.path(name))

    def close(self):
        """Closes all files."""
        while self.opened:
            self.opened.popitem()[1].close()
