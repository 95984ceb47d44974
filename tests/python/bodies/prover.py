"""Runs of the prover: on a crate as it is, and on a copy of it with edits."""

import contextlib
import glob
import os
import re
import shlex
import shutil
import signal
import subprocess
import tempfile
import threading
from typing import NamedTuple

from sums import PARTS, Sums, is_built

from . import judge

# A check that takes longer comes to no verdict.
SECONDS = 3600
# A command under which each run is started, such as one that waits for its turn
UNDER = "TCPCLKIT_CHECK_BY"


class Run(NamedTuple):
    """What a run printed, with its exit status, its processor time and its peak memory."""
    status: int
    text: str
    seconds: float
    bytes: int


class Kit:
    """The Rattle kit: its folder, and the line that identifies it."""

    def __init__(self):
        said = [self._say("doc"), self._say("version")]
        self.folder, self.identity = os.path.dirname(os.path.realpath(said[0])), said[1]
        self.rattle = f"{self.folder}/bin/rattle"

    @staticmethod
    def _say(word):
        """Returns what `rt` prints for a word."""
        ran = subprocess.run(["rt", word], stdout=subprocess.PIPE, text=True, check=True)
        return ran.stdout.strip()


class Prover:
    """Starts the prover, and ends what it started if the script ends early."""

    def __init__(self, kit, crates):
        self.kit, self.crates = kit, crates
        self.under = shlex.split(os.environ.get(UNDER, ""))
        self.running, self.guard, self.is_stopped = set(), threading.Lock(), False

    def stop(self):
        """Ends all runs."""
        with self.guard:
            self.is_stopped = True
            for pid in self.running:
                with contextlib.suppress(OSError):
                    os.killpg(pid, signal.SIGKILL)

    def _kill(self, pid):
        """Ends a run that takes too long."""
        with self.guard:
            if pid in self.running:
                os.killpg(pid, signal.SIGKILL)

    def _start(self, words, folder, file):
        """Starts a run in a process group of its own."""
        with self.guard:
            if self.is_stopped:
                raise KeyboardInterrupt
            ran = subprocess.Popen(
                [*self.under, *words], cwd=folder, stdin=subprocess.DEVNULL, stdout=file,
                stderr=subprocess.STDOUT, start_new_session=True,
            )
            self.running.add(ran.pid)
        return ran

    def run(self, words, folder):
        """Runs a command in a folder, and returns what came of it."""
        with tempfile.TemporaryFile() as file:
            ran = self._start(words, folder, file)
            timer = threading.Timer(SECONDS, self._kill, [ran.pid])
            timer.start()
            _, status, used = os.wait4(ran.pid, 0)
            timer.cancel()
            with self.guard:
                self.running.discard(ran.pid)
            ran.returncode = os.WEXITSTATUS(status) or -os.WTERMSIG(status)
            file.seek(0)
            text = file.read().decode(errors="replace")
        return Run(ran.returncode, text, used.ru_utime + used.ru_stime, used.ru_maxrss * 1024)

    def prove(self, crate, jobs):
        """Proves a crate as it is. The checks of edits begin with what this leaves in its out/.

        `rt lib` has nothing to prove where `./build` or an earlier run built the library. For other
        crates `rt` notes no such thing, but `./build` does.
        """
        sweep(crate)
        is_library = not crate.is_static and not crate.is_program
        is_kept = os.path.isdir(f"{crate.folder}/out/incremental")
        if is_kept and not is_library and is_built(Sums(self.crates, self.kit.identity), crate.name):
            return Run(0, "", 0.0, 0)
        word = "lib" if is_kept and is_library else "check"
        return self.run(["rt", word, "--jobs", str(jobs)], crate.folder)

    def _words(self, crate):
        """Returns the command that checks a crate in the folder where it is run, as `rt` does."""
        kit, words = self.kit.folder, [self.kit.rattle, "check", "--crate-name", crate.name]
        words += [f"src/{'main' if crate.is_program else 'lib'}.rt"]
        for name in ["std", *[it for it in crate.uses if it not in crate.own_uses]]:
            words += ["--extern", f"{name}={kit}/rlibs/{name}.rlib"]
        words += ["-L", f"dependency={kit}/rlibs"]
        for name in crate.own_uses:
            words += ["--extern", f"{name}={self._rlibs(name)}/{name}.rlib"]
        for name in crate.own_below:
            words += ["-L", f"dependency={self._rlibs(name)}"]
        words += ["--antt-project", f"{kit}/rattle/logic/antt-project.json"]
        words += ["--logic-built", f"{kit}/logic_built", "--links", f"{crate.name}="]
        words += ["--crate-type", "staticlib"] if crate.is_static else []
        return [*words, "--jobs", "1", "--incremental", "incremental"]

    def _rlibs(self, name):
        """Returns the folder of the library that `rt check` built of a crate."""
        return f"{self.crates[name].folder}/out/rlib"

    def check(self, crate, texts):
        """Checks a copy of a crate with these texts in place of its own, over its kept work.

        The copy is in out/, since links need the same file system.
        """
        prefix, out = f"rt-edit-{os.getpid()}-", f"{crate.folder}/out"
        with tempfile.TemporaryDirectory(prefix=prefix, dir=out) as room:
            for part in PARTS:
                if os.path.isdir(f"{crate.folder}/{part}"):
                    shutil.copytree(f"{crate.folder}/{part}", f"{room}/{part}")
            for path, text in texts.items():
                with open(f"{room}/{path}", "w", encoding="utf-8", newline="") as file:
                    file.write(text)
            link_tree(f"{crate.folder}/out/incremental", f"{room}/incremental")
            ran = self.run(self._words(crate), room)
        if judge.STALE.search(ran.text):
            raise RuntimeError(f"the kept work of a crate below {crate.name} cannot be used")
        return ran


def sweep(crate):
    """Removes the copies that a script left which was killed."""
    for path in glob.glob(f"{crate.folder}/out/rt-edit-*"):
        owner = re.match(r"rt-edit-(\d+)-", os.path.basename(path))
        if owner and not os.path.exists(f"/proc/{owner[1]}"):
            shutil.rmtree(path, ignore_errors=True)


def link_tree(folder, to):
    """Copies the kept work of a crate by links: a check replaces its files and writes into none."""

    def link(one, other):
        try:
            return os.link(one, other)
        except OSError:
            return shutil.copy2(one, other)

    shutil.copytree(folder, to, copy_function=link)
