"""Tries edits: many in one check where they change different functions, the others alone."""

import time
from collections import Counter, defaultdict
from concurrent.futures import FIRST_COMPLETED, ThreadPoolExecutor, wait
from typing import NamedTuple

from . import edit as edits
from . import judge, source
from .judge import UNJUDGED


class Task(NamedTuple):
    """A run of the prover: of a crate as it is if it has no edits. `alone`: its edit is judged
    by all that the prover refuses."""
    crate: str
    edits: tuple = ()
    alone: bool = False


def batches_of(found):
    """Returns the tasks that try these edits of a crate, with one edit for a function in each."""
    by_function, alone = defaultdict(list), []
    for edit in found:
        if edit.function:
            by_function[edit.function].append(edit)
        else:
            alone.append(edit)
    rounds = max(map(len, by_function.values()), default=0)
    batches = [
        tuple(edit for group in by_function.values() for edit in group[at:at + 1])
        for at in range(rounds)
    ]
    return [as_task(batch) for batch in batches] + [as_task([edit]) for edit in alone]


def for_promises(found):
    """Returns one edit for each promise, so that they take as few checks as possible."""
    by_crate = defaultdict(lambda: defaultdict(list))
    for edit in found:
        for promise in edit.promises:
            by_crate[edit.crate][promise].append(edit)
    return [edit for by_promise in by_crate.values() for edit in chosen_of(by_promise)]


def chosen_of(by_promise):
    """Returns one edit for each promise of a crate. As few as possible change the same function."""
    choices = {
        promise: [edit for edit in its if edit.function] or its[:1]
        for promise, its in by_promise.items()
    }
    # The same with the edits first that break several promises
    shared = {name: sorted(its, key=lambda it: -len(it.promises)) for name, its in choices.items()}
    numbers = range(1, len(choices) + 1)
    tries = (matched(its, most) for most in numbers for its in (choices, shared))
    chosen = list(dict.fromkeys(next(filter(None, tries)).values()))
    # An edit can break the promises of others too.
    for edit in list(chosen):
        others = {promise for other in chosen if other is not edit for promise in other.promises}
        if others.issuperset(edit.promises):
            chosen.remove(edit)
    return chosen


def matched(choices, most):
    """Returns an edit for each promise, at most `most` for a function, or None if there are none.

    Promises can share an edit. A promise can take the place of one that has another place.
    """
    places = defaultdict(dict)

    def place(promise, seen):
        ways = [(places[edit.function or edit], edit) for edit in choices[promise]]
        ways = [(its, edit) for its, edit in ways if id(its) not in seen]
        for its, edit in ways:
            if edit in its.values() or len(set(its.values())) < most:
                its[promise] = edit
                return True
        for its, edit in ways:
            others = [] if id(its) in seen else list(its)
            seen.add(id(its))
            for other in others:
                if place(other, seen):
                    del its[other]
                if len(set(its.values())) < most:
                    its[promise] = edit
                    return True
        return False

    if not all(place(promise, set()) for promise in choices):
        return None
    return {promise: edit for its in places.values() for promise, edit in its.items()}


def as_task(batch):
    """Returns the task that tries these edits together."""
    return Task(batch[0].crate, tuple(batch), len(batch) == 1)


def halves(batch):
    """Returns the tasks that try both halves of a batch."""
    middle = (len(batch) + 1) // 2
    return [as_task(part) for part in (batch[:middle], batch[middle:])]


def parted(batch, output, texts):
    """Returns the tasks after a batch whose text the front end refused.

    The edits at whose functions it found errors are tried alone, and the others together.
    """
    crate = batch[0].crate
    found = {
        source.function_at(crate, line.file, texts[line.file], line.number)
        for line in output.compiler_errors() if line.file in texts
    }
    faulty = [edit for edit in batch if edit.function in found]
    others = [edit for edit in batch if edit.function not in found]
    if not faulty:
        return halves(batch)
    return [as_task([edit]) for edit in faulty] + ([as_task(others)] if others else [])


class Trial:
    """The edits to try, with what came of them. Crates are proved first, lower ones before."""

    def __init__(self, prover, kept, jobs, say=print, until=None):
        self.prover, self.kept, self.jobs, self.say, self.until = prover, kept, jobs, say, until
        self.verdicts, self.known = {}, set()
        self.checks, self.alone, self.seconds = Counter(), Counter(), defaultdict(float)
        self.base, self.most = defaultdict(float), 0
        self.waiting, self.left, self.unproved = [], {}, {}
        self.untried = []

    def run(self, found):
        """Tries all of these edits."""
        by_crate = defaultdict(list)
        for edit in found:
            verdict = judge.failed(judge.UNFIT, edit.problem) if edit.problem else self.kept.get(edit)
            if verdict:
                self.verdicts[edit] = verdict
                self.known.update([] if edit.problem else [edit])
            else:
                by_crate[edit.crate].append(edit)
        # The crates that are still to be proved, with their edits
        self.left = dict(by_crate)
        self.waiting = [Task(name) for name in self.prover.crates if name in by_crate]
        with ThreadPoolExecutor(self.jobs) as pool:
            try:
                self._run_tasks(pool)
            finally:
                self.prover.stop()

    def _is_ready(self, task):
        """Returns whether a crate can be proved: those below it come first."""
        below = self.prover.crates[task.crate].own_below
        return not any(name in self.left for name in below)

    def ready(self, running):
        """Returns the tasks that can start beside those that run.

        Proofs of crates as they are come first, since other tasks wait for them. But one runs at a
        time, with all jobs: `rt` locks the crates below, and nearly all crates share some.
        """
        proofs = [task for task in self.waiting if not task.edits and self._is_ready(task)]
        is_proving = any(not task.edits for task in running)
        return proofs[:0 if is_proving else 1] + [task for task in self.waiting if task.edits]

    def _stop_in_time(self):
        """Starts no further task once the time is up."""
        if self.until is not None and time.monotonic() >= self.until:
            self.untried += [edit for task in self.waiting for edit in task.edits]
            self.untried += [edit for its in self.left.values() for edit in its]
            self.waiting, self.left = [], {}

    def _run_tasks(self, pool):
        """Runs tasks, and those that come of them, until none is left or the time is up."""
        running = {}
        while self.waiting or running:
            self._stop_in_time()
            for task in self.ready(running.values())[:self.jobs - len(running)]:
                self.waiting.remove(task)
                running[pool.submit(self._do, task)] = task
            done, _ = wait(running, return_when=FIRST_COMPLETED)
            for future in done:
                self.waiting += self._take(running.pop(future), *future.result())

    def _do(self, task):
        """Runs the prover for a task. Returns the texts that it checked, and what came of it."""
        crate = self.prover.crates[task.crate]
        if not task.edits:
            return {}, self.prover.prove(crate, self.jobs)
        texts = task.edits[0].texts
        if len(task.edits) > 1:
            texts = edits.merged(task.edits, crate.folder)
        return texts, self.prover.check(crate, texts)

    def _take(self, task, texts, ran):
        """Takes what came of a task. Returns the tasks that follow."""
        self.most = max(self.most, ran.bytes)
        if not task.edits:
            self.base[task.crate] += ran.seconds
            return self._after_proof(task.crate, ran)
        self.checks[task.crate] += 1
        self.seconds[task.crate] += ran.seconds
        output = judge.Output(ran.status, ran.text)
        if task.alone:
            self.alone[task.crate] += 1
            self._settle(task.edits[0], judged_alone(task.edits[0], output))
            follow = []
        elif not output.ended():
            follow = parted(task.edits, output, texts)
        else:
            follow = self._judge(task.edits, output)
        self._tell(task, ran, follow)
        return follow

    def _after_proof(self, name, ran):
        """Returns the tasks of a crate's edits, once it is proved."""
        found = self.left.pop(name, [])
        self.say(f"{name}: proved as it is, {ran.seconds:.0f} s" if ran.status == 0 else "\n".join(
            [*ran.text.splitlines()[-6:], f"{name} is not proved, so its edits are not tried"]))
        if ran.status == 0:
            return batches_of(found)
        for edit in found:
            self._settle(edit, judge.failed(UNJUDGED, "the crate is not proved as it is"))
        return []

    def _judge(self, batch, output):
        """Judges the edits of a batch. Returns the tasks for those without a clear verdict."""
        follow = []
        for edit in batch:
            verdict = judge.of_function(output, edit.function)
            if verdict.is_refusal():
                self._settle(edit, verdict)
            else:
                follow.append(as_task([edit]))
        return follow

    def _settle(self, edit, verdict):
        """Notes the verdict on an edit."""
        self.verdicts[edit] = verdict
        self.kept.put(edit, verdict)
        if not verdict.is_refusal():
            self.say(told(edit, verdict))

    def _tell(self, task, ran, follow):
        """Prints what a check came to."""
        count = sum(len(it.edits) for it in follow)
        again = f", {count} to be tried again" if count else ""
        what = task.edits[0].name if task.alone else f"{len(task.edits)} edits"
        self.say(f"{task.crate}: {what} in {ran.seconds:.0f} s{again}")


def judged_alone(edit, output):
    """Judges an edit that was applied alone. If it has no verdict, its function's line says why."""
    verdict = judge.of_whole(output)
    if verdict.kind == UNJUDGED and edit.function and output.named(edit.function):
        return judge.failed(UNJUDGED, judge.of_function(output, edit.function).text)
    return verdict


def told(edit, verdict):
    """Returns the line on an edit that was not refused."""
    return f"FAILED {edit}: {verdict.kind}: {verdict.text}"
