"""What earlier runs found: the edits that were refused, by a checksum of all that a verdict reads.

The entries are beside the kit, or in the user's cache if nothing can be written there. So a run in
any checkout on this machine uses them. Only refusals are kept.
"""

import json
import os
import tempfile

from sums import Sums, content, sum_of

from .judge import Goal, Verdict

FOLDER = "rattle-kept-edits"
# A verdict also depends on how output is judged.
JUDGE = f"{os.path.dirname(__file__)}/judge.py"


class Kept:
    """The refusals that earlier runs kept, unless the run is to try all anew."""

    def __init__(self, kit, crates, anew=False):
        self.sums = Sums(crates, sum_of(kit.identity, content(JUDGE)))
        self.anew, self.folder = anew, None
        cache = os.environ.get("XDG_CACHE_HOME") or os.path.expanduser("~/.cache")
        for folder in [os.path.dirname(kit.folder), f"{cache}/tcpclkit"]:
            try:
                os.makedirs(f"{folder}/{FOLDER}", 0o700, exist_ok=True)
            except OSError:
                continue
            if os.access(f"{folder}/{FOLDER}", os.W_OK):
                self.folder = f"{folder}/{FOLDER}"
                return

    def _path(self, edit):
        """Returns the file of an edit's verdict."""
        return f"{self.folder}/{sum_of(self.sums.of(edit.crate), edit.pairs)}"

    def get(self, edit):
        """Returns the verdict that an earlier run kept of an edit, or None."""
        if not self.folder or self.anew:
            return None
        try:
            with open(self._path(edit), encoding="utf-8") as file:
                verdict = Verdict(**json.load(file))
            verdict = verdict._replace(goals=tuple(Goal(*it) for it in verdict.goals))
        except (OSError, ValueError, TypeError):
            # Or an entry of an older form, without the goals
            return None
        return verdict if verdict.is_refusal() else None

    def put(self, edit, verdict):
        """Keeps the verdict on an edit that was refused."""
        if not self.folder or not verdict.is_refusal():
            return
        try:
            with tempfile.NamedTemporaryFile(
                "w", dir=self.folder, delete=False, encoding="utf-8"
            ) as file:
                json.dump(verdict._asdict(), file)
            os.replace(file.name, self._path(edit))
        except OSError:
            self.folder = None
