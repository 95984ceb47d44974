"""Runs nodes from the command line."""

import asyncio
import os
import subprocess
import sys

TOP = os.path.realpath(f"{os.path.dirname(os.path.realpath(__file__))}/../../../..")
MAIN = f"{TOP}/tests/python/rfc_node/__main__.py"


def start(*options):
    """Starts a node."""
    return subprocess.Popen([sys.executable, "-B", MAIN, *options], stdout=subprocess.PIPE, stderr=subprocess.PIPE)


async def listening(*options):
    """Starts a node that listens. Returns its process and its port, once it says so."""
    node = start("--listen", "127.0.0.1:0", *options)
    line = await asyncio.get_running_loop().run_in_executor(None, node.stdout.readline)
    return node, int(line.decode().rpartition(":")[2])


def end(node):
    """Ends a node, if it has not ended. Returns its status before that, and what it wrote as errors."""
    status = node.poll()
    node.kill()
    return status, node.communicate()[1]
