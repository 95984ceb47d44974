"""A TCP connection with a node. What passes is recorded, with times."""

import asyncio
import os
import socket
import struct
import time
from collections import deque

from tcpclkit_scripts.packets import spelled_time
from tcpclkit_scripts.shown import Arrived

from .reading import Incoming

# How the node ended the connection: by a FIN, by an RST; or not, since it sent too much
FIN, RST, FLOOD = "fin", "rst", "flood"

# How many bytes are read at once, and how many of a node are read in a case. The probe sends no more than
# MOST_SENT bytes
PIECE, MOST, MOST_SENT = 1 << 16, 1 << 24, 2 << 20

# How long the node gets for each byte that is sent by itself, and at most for all of them, in seconds
PAUSE, SLOWEST = 0.002, 30


class Record:
    """The recording of one side: its bytes, and a file of times as tcpclkit-capture writes it."""

    def __init__(self, folder, name):
        self.size, self.files = 0, []
        if folder is not None:
            self.files = [open(f"{folder}/{name}.{it}", "wb", buffering=0) for it in ("tcpcl", "times")]

    def add(self, data):
        """Adds bytes that pass now."""
        self.size += len(data)
        if self.files:
            self.files[0].write(data)
            self.files[1].write(f"{self.size} {spelled_time(time.time_ns())}\n".encode())

    def close(self):
        """Closes the files."""
        for file in self.files:
            file.close()


class Connection:
    """A connection. Side a is the probe, and side b the node.

    incoming  the messages of the node; `arrived` has how many bytes of the probe were sent when each
              byte of the node came: the node had read no more than these
    end       how the node ended the connection, or None
    is_first  whether the node ended it before the probe did
    is_over   whether the probe has ended its side
    on_read   is called with each message, before anybody who waits
    """

    def __init__(self, sock, folder=None):
        sock.setblocking(False)
        sock.setsockopt(socket.IPPROTO_TCP, socket.TCP_NODELAY, 1)
        self.sock, self.loop = sock, asyncio.get_running_loop()
        self.sent, self.got = Record(folder, "a"), Record(folder, "b")
        self.incoming, self.arrived, self.on_read = Incoming(), Arrived(), lambda message: None
        self.end, self.is_first, self.is_over, self.was_reset, self.is_cut = None, False, False, False, False
        self.queue, self.waiters, self.heard = deque(), set(), time.monotonic()
        self.is_idle, self.descriptor = True, sock.fileno()
        self.loop.add_reader(self.descriptor, self.read)
        self.task = self.loop.create_task(self.write())

    # ---- what the node sends

    def read(self):
        """Reads what the node has sent, once there is something."""
        try:
            data = self.sock.recv(PIECE)
        except BlockingIOError:
            return
        except OSError:
            self.note_end(RST)
            return
        if not data:
            self.note_end(RST if self.was_reset else FIN)
            return
        self.sock.setsockopt(socket.IPPROTO_TCP, socket.TCP_QUICKACK, 1)
        self.arrived.add(self.got.size, self.got.size + len(data), self.sent.size)
        self.got.add(data)
        self.heard = time.monotonic()
        for message in self.incoming.feed(data):
            self.on_read(message)
        if self.got.size > MOST:
            self.note_end(FLOOD)
        self.wake()

    def note_end(self, how):
        """Notes how the node ended the connection."""
        self.end, self.is_first = how, not self.is_over
        self.loop.remove_reader(self.descriptor)
        self.wake()

    def wake(self):
        """Lets those who wait look again."""
        for waiter in self.waiters:
            if not waiter.done():
                waiter.set_result(None)

    async def wait(self, test, seconds=None):
        """Waits until a test holds. Returns whether it does in time."""
        until = None if seconds is None else self.loop.time() + seconds
        while not test():
            left = None if until is None else until - self.loop.time()
            if left is not None and left <= 0:
                return False
            waiter = self.loop.create_future()
            self.waiters.add(waiter)
            try:
                await asyncio.wait_for(waiter, left)
            except asyncio.TimeoutError:
                pass
            finally:
                self.waiters.discard(waiter)
        return True

    # ---- what the probe sends

    def put(self, data, is_slow=False):
        """Lets bytes be sent after those before them: byte by byte if `is_slow`."""
        self.queue.append((data, is_slow))
        self.is_idle = False
        self.wake()

    async def write(self):
        """Sends what is put."""
        while True:
            await self.wait(lambda: self.queue)
            data, is_slow = self.queue[0]
            for piece in (data[at : at + 1] for at in range(len(data))) if is_slow else (data,):
                if not self.is_over and not self.is_cut:
                    await self.write_piece(piece, is_slow)
            self.queue.popleft()
            self.is_idle = not self.queue
            self.wake()

    async def write_piece(self, data, is_slow):
        """Sends bytes. If `is_slow`, gives the node time to read them."""
        view = memoryview(data)
        self.is_cut = self.sent.size + len(view) > MOST_SENT
        while view and not self.is_cut:
            try:
                count = self.sock.send(view)
                self.sent.add(view[:count])
                view = view[count:]
            except BlockingIOError:
                await self.may_write()
            except OSError as error:
                self.was_reset = self.was_reset or isinstance(error, ConnectionResetError)
                self.is_cut = True
                return
        if is_slow:
            await asyncio.sleep(PAUSE)

    async def may_write(self):
        """Waits until bytes may be written."""
        waiter = self.loop.create_future()
        self.loop.add_writer(self.descriptor, lambda: waiter.done() or waiter.set_result(None))
        try:
            await waiter
        finally:
            if not self.is_gone():
                self.loop.remove_writer(self.descriptor)

    async def sent_slowly(self):
        """Waits until nothing is left that is sent byte by byte: the wait for an answer begins then."""
        await self.wait(lambda: self.end is not None or not any(is_slow for _, is_slow in self.queue), SLOWEST)

    async def flush(self, seconds):
        """Waits until all that was put is sent, or cannot be. Returns whether it is sent."""
        await self.wait(lambda: self.is_idle or self.end is not None, seconds)
        return self.is_idle and not self.is_cut

    # ---- the end

    def finish(self):
        """Ends the side of the probe by a FIN."""
        if not self.is_over:
            self.is_over = True
            try:
                self.sock.shutdown(socket.SHUT_WR)
            except OSError:
                pass

    def reset(self):
        """Ends the connection by an RST."""
        self.is_over = True
        self.sock.setsockopt(socket.SOL_SOCKET, socket.SO_LINGER, struct.pack("ii", 1, 0))
        self.close()

    def is_gone(self):
        """Returns whether the connection is closed on both sides."""
        return self.sock.fileno() < 0

    def close(self):
        """Closes the connection and the recordings."""
        self.is_over = True
        self.task.cancel()
        for record in (self.sent, self.got):
            record.close()
        if not self.is_gone():
            self.loop.remove_reader(self.descriptor)
            self.loop.remove_writer(self.descriptor)
            self.sock.close()


def folder_of(path, number, name):
    """Makes the folder of a case. Returns its path."""
    made = os.path.join(path, f"{number:03}-{name}")
    os.makedirs(made, exist_ok=True)
    return made
