"""Sessions between two nodes, run from the command line, and what `check-session` says of them."""

import asyncio
import os
import subprocess
import sys
import tempfile
import unittest

from rfc_node import __main__ as command
from rfc_node.cases import CASES, options_of
from rfc_node.tests.relay import Relay
from rfc_node.tests.running import MAIN, TOP, end, listening, start
from rfc_node.tests.talking import TalkCase
from rfc_node.wrong import SWITCHES

PROGRAM = f"{TOP}/crates/tcpclkit/out/tcpclkit"

# Options of the node that listens, and of the one that connects; how many bundles each of them gets across
SESSIONS = [
    ([], [], 0, 1),
    (["--send", "2"], ["--send", "3", "--node", "ipn:3.0"], 2, 3),
    (["--send", "1", "--segment-mru", "100"], ["--send", "2", "--segment-mru", "7"], 1, 2),
    (["--send", "1", "--node", "dtn://one/"], ["--node", "dtn://other/", "--keepalive", "0"], 1, 1),
    (["--send", "1", "--transfer-mru", "100"], ["--send", "2"], 1, 0),
    (["--send", "2", "--node", ""], ["--node", "", "--segment-mru", "18446744073709551615"], 2, 1),
]


async def record(accepting, connecting):
    """Returns both recordings of a session between nodes with these options, and what they wrote as errors."""
    listener, port = await listening(*accepting)
    async with Relay("127.0.0.1", port) as relay:
        connector = start("--connect", f"127.0.0.1:{relay.port}", *connecting)
        try:
            await asyncio.wait_for(relay.ended.wait(), 60)
        finally:
            errors = [end(node)[1] for node in (connector, listener)]
    return relay.sessions[0], errors


def judged(recordings, folder):
    """Runs check-session on recordings. Returns its status and all that it writes."""
    names = [f"{folder}/{side}.tcpcl" for side in "ab"]
    for name, content in zip(names, recordings):
        with open(name, "wb") as file:
            file.write(content)
    command = [f"{TOP}/scripts/check-session", "--tcpclkit", PROGRAM, "--closed", "ab", *names]
    done = subprocess.run(command, stdout=subprocess.PIPE, stderr=subprocess.STDOUT, check=False)
    return done.returncode, done.stdout.decode()


def good_bundles(recording):
    """Returns how many good bundles `unpack` finds in a recording."""
    done = subprocess.run([PROGRAM, "unpack"], input=recording, stdout=subprocess.PIPE, stderr=subprocess.PIPE,
                          check=False)
    return done.stderr.decode().count(" good ") if done.returncode == 0 else done.stderr.decode()


class Sessions(TalkCase):
    """Lets two nodes talk to each other."""

    async def test_sessions(self):
        """No rule is broken, and the bundles are good."""
        self.assertTrue(os.path.exists(PROGRAM), "./build makes the program")
        results = await asyncio.gather(*(record(accepting, connecting) for accepting, connecting, *_ in SESSIONS))
        for (accepting, connecting, back, forth), (recordings, errors) in zip(SESSIONS, results):
            with self.subTest(f"{accepting} {connecting}"), tempfile.TemporaryDirectory() as folder:
                self.assertEqual(judged(recordings, folder), (0, ""))
                self.assertEqual([good_bundles(it) for it in recordings], [forth, back])
                self.assertEqual(errors, [b"", b""])


class CommandLine(unittest.TestCase):
    """Tries the command line."""

    def test_list(self):
        """The list has a line for each switch: its name, a section, and a sentence."""
        listed = subprocess.run([sys.executable, "-B", MAIN, "--list"], stdout=subprocess.PIPE, check=True)
        lines = [line.split("\t") for line in listed.stdout.decode().splitlines()]
        self.assertEqual([line[0] for line in lines], list(SWITCHES))
        for name, section, sentence in lines:
            self.assertRegex(section, r"^[4-6](\.\d)*$", name)
            self.assertRegex(sentence, r"^\w.*\.$", name)

    def test_options(self):
        """The options for each case turn its switch on."""
        for case, name in CASES.items():
            given = command.parsed(["--listen", "[::1]:0", *options_of(case)])
            self.assertEqual((given.wrong, given.listen), ([name], ("::1", 0)), case)

    def test_refused(self):
        """A node without a role, or with a switch that does not exist, does not start."""
        for options in ([], ["--listen", "127.0.0.1:0", "--wrong", "none"], ["--listen", "nowhere"]):
            done = subprocess.run([sys.executable, "-B", MAIN, *options], stderr=subprocess.DEVNULL, check=False)
            self.assertEqual(done.returncode, 2, options)


if __name__ == "__main__":
    unittest.main()
