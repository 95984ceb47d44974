"""Runs the cases: `good` first, and then the others, each in a session of its own."""

import asyncio
import os
import socket
import time

from . import act_begin, act_end, act_from, act_to  # noqa: F401 (they fill ACTS)
from . import addresses, dry, fuzz, table, verdict
from .acts import ACTS
from .bundles import Route, bundle, endpoint
from .connection import FIN, MOST_SENT, Connection, folder_of
from .report import LOST, OK, SKIPPED, Result
from .talk import NoSession, Skipped, Talk

# The greatest limit of a node that a case exceeds: what the probe may send, less what else it sends
EXCEEDED = MOST_SENT - (1 << 14)

# How long the probe waits between two looks whether the node serves, in seconds, at first and at most
FIRST_PAUSE, LAST_PAUSE = 0.2, 5.0


# How often a case is tried that comes to no session
ATTEMPTS = 3


class NoNode(Exception):
    """No further connection with the node comes about. The text says why."""


class Base:
    """What the node does in `good`.

    answer    `ack` or `refuse`, as it answers a good transfer; `is_deaf`: neither
    limits    the numbers of its SESS_INIT; `interval` is its keepalive interval
    closes    whether it closes the connection after both SESS_TERM
    ends      whether it ends the session by itself
    can_tls   whether its contact header has CAN_TLS
    broken    the rules that it breaks, which other cases leave out
    """

    def __init__(self):
        self.answer, self.is_deaf, self.limits, self.interval, self.node = None, False, (0, 0, 0), 0, ""
        self.closes, self.ends, self.can_tls, self.broken, self.sends = True, False, False, set(), True


class Probe:
    """All that the sessions of a run share."""

    def __init__(self, given, tcpclkit, targets, report):
        self.given, self.tcpclkit, self.report = given, tcpclkit, report
        self.timeout, self.patience, self.node, self.command = given.timeout, given.patience, given.node, given.send
        self.limits = {
            "keepalive": given.keepalive, "segment_mru": given.segment_mru, "transfer_mru": given.transfer_mru
        }
        self.role = table.CONNECTS if given.listen else table.ACCEPTS
        self.base, self.route, self.no_route, self.count, self.lost_by = Base(), None, None, 0, None
        self.targets, self.coming, self.running, self.now = targets, None, set(), None

    def bundle(self, payload=b"tcpclkit-probe"):
        """Returns a bundle that no other session of the run has."""
        self.count += 1
        return bundle(self.route, self.count, payload, self.now)

    # ---- connections

    async def start(self):
        """Begins to listen at the first address, and says where, if the node connects."""
        if self.role == table.ACCEPTS:
            return
        family, address = self.targets[0]
        listener = socket.socket(family, socket.SOCK_STREAM)
        listener.setsockopt(socket.SOL_SOCKET, socket.SO_REUSEADDR, 1)
        listener.bind(address)
        listener.listen(8)
        listener.setblocking(False)
        self.coming = listener
        host, port = listener.getsockname()[:2]
        print(f"listening on {f'[{host}]' if ':' in host else host}:{port}", flush=True)

    async def connect(self, folder=None):
        """Returns the next connection with the node."""
        if self.role == table.CONNECTS:
            return Connection(await self.accept(), folder)
        until, pause = time.monotonic() + self.timeout, FIRST_PAUSE / 32
        while True:
            for family, address in self.targets:
                try:
                    sock = await self.connected(family, address)
                    self.targets = [(family, address)]
                    return Connection(sock, folder)
                except asyncio.TimeoutError:
                    why = f"no connection within {self.timeout:g} s"
                except OSError as error:
                    why = os.strerror(error.errno)
            if time.monotonic() > until:
                raise NoSession(why)
            await asyncio.sleep(pause)
            pause = min(2 * pause, FIRST_PAUSE)

    async def connected(self, family, address):
        """Returns a socket that is connected to an address."""
        sock = socket.socket(family, socket.SOCK_STREAM)
        sock.setblocking(False)
        try:
            await asyncio.wait_for(asyncio.get_running_loop().sock_connect(sock, address), self.timeout)
        except BaseException:
            sock.close()
            raise
        return sock

    async def accept(self):
        """Returns the next connection that the node makes."""
        loop, until = asyncio.get_running_loop(), time.monotonic() + self.given.wait
        while True:
            try:
                sock, peer = await asyncio.wait_for(loop.sock_accept(self.coming), until - time.monotonic())
            except (asyncio.TimeoutError, ValueError):
                raise NoNode(f"the node has not connected within {self.given.wait:g} s") from None
            if self.given.mine or addresses.is_private(peer[0]):
                return sock
            sock.close()

    # ---- cases

    async def good(self, case):
        """Runs the case `good`, and takes what it shows of the node."""
        talk, results, why = await self.hold(case)
        if talk is None or talk.init is None or why:
            raise NoNode(str(why or talk.why("no SESS_INIT")))
        self.take_base(talk)
        return results

    def find_route(self, init):
        """Finds where bundles are to go: to the node with this SESS_INIT, unless an option names another one."""
        node, (_, *limits) = self.given.destination or init.node, init.numbers
        if endpoint(node) is None or node == "dtn:none":
            self.no_route = "the node names no node ID that bundles can be for; --destination names one"
            return
        self.route = Route(endpoint(self.node), endpoint(node))
        if len(self.bundle()) > min(limits):
            self.route, self.no_route = None, f"its limit of {min(limits)} is below the length of a bundle"

    def take_base(self, talk):
        """Takes what a session shows of the node."""
        base, sent = self.base, next(iter(talk.transfers), None)
        base.answer = None if sent is None else talk.answer(sent)
        base.is_deaf = base.answer is None
        base.limits, base.interval, base.node = talk.init.numbers, talk.init.numbers[0], talk.init.node
        base.closes = talk.connection.end == FIN and talk.connection.is_first
        base.ends = talk.term_of_node is not None and not talk.term_of_node[1]
        base.can_tls = bool(talk.connection.incoming.contact[1] & 1)

    def why_not(self, case):
        """Returns why a case cannot be tried, or None."""
        reasons = {
            table.TAKES: self.why_no_bundle(),
            table.SENDS: None if self.base.sends else "the node sent no bundle",
            table.NO_TLS: "the node sets CAN_TLS too" if self.base.can_tls else None,
            table.SEGMENT_MRU: above("segment", self.base.limits[1]),
            table.TRANSFER_MRU: above("transfer", self.base.limits[2]),
        }
        if case.role not in (table.ANY, self.role):
            return f"it is for nodes that {'connect' if case.role == table.CONNECTS else 'accept a connection'}"
        return next((reasons[it] for it in case.needs if reasons[it]), None)

    def why_no_bundle(self):
        """Returns why no bundle can be sent, or None."""
        if self.route is None:
            return self.no_route
        if self.base.is_deaf:
            return "the node did not answer the bundle of `good`"
        return None

    async def case(self, case):
        """Runs a case, and returns its results."""
        why = self.why_not(case)
        if self.lost_by is not None:
            why = f"the node has not served since {self.lost_by}"
        if why is not None:
            return [Result(SKIPPED, why)]
        self.running.add(case.name)
        try:
            for _ in range(ATTEMPTS):
                talk, results, why = await self.hold(case)
                if not isinstance(why, NoSession):
                    break
            is_clean = talk is not None and talk.has_term and talk.term_of_node and talk.connection.end == FIN
            if not is_clean and self.role == table.ACCEPTS:
                lost = await self.look(case.name)
                results = lost or results
            if case.name == "sent-good" and why:
                self.base.sends = False
            if why is None or results[0].word == LOST:
                return results
            return [Result(SKIPPED, str(why) if isinstance(why, Skipped) else f"no session: {why}")]
        finally:
            self.running.discard(case.name)

    async def hold(self, case):
        """Holds the session of a case. Returns it, the results, and why it could not be held, or None."""
        folder = folder_of(self.given.folder, table.CASES.index(case) + 1, case.name)
        action, talk, why = ACTS[case.name], None, None
        try:
            connection = await self.connect(folder)
            talk = Talk(self, connection, self.role, action.is_fair)
            await action.call(talk, *action.parameters)
        except (NoSession, Skipped) as error:
            why = error
        if talk is None:
            return None, [Result(OK)], why
        try:
            await talk.end()
        finally:
            talk.close()
        return talk, await self.judge(case, talk, folder, why), why

    async def judge(self, case, talk, folder, why):
        """Returns the results of a session. Writes its messages."""
        loop = asyncio.get_running_loop()
        broken = await loop.run_in_executor(None, verdict.of_rules, self.tcpclkit, folder, case, talk)
        written = await loop.run_in_executor(None, verdict.lines, self.tcpclkit, folder)
        with open(f"{folder}/lines.txt", "w", encoding="utf-8") as file:
            file.writelines(written)
        broken = [it for it in broken if it.rule not in self.base.broken]
        if why is None:
            broken = verdict.own(case, talk) + broken
        if case.name in ("good", "sent-good"):
            self.base.broken |= {it.rule for it in broken}
        if self.given.must:
            broken = [it for it in broken if it.level == table.MUST]
        return results_of(case, broken)

    # ---- whether the node still serves

    async def serves(self):
        """Returns whether the node serves a session as it served `good`."""
        talk = None
        try:
            talk = Talk(self, await self.connect(), self.role)
            await talk.open()
            await talk.serve()
            await talk.end()
        except NoSession:
            return False
        finally:
            if talk is not None:
                talk.close()
        return bool(talk.notes["served"]) or self.route is None or self.base.is_deaf

    async def look(self, name):
        """Looks whether the node serves after a case. Returns the result of one that does not, or None."""
        until, pause, beside = time.monotonic() + self.patience, FIRST_PAUSE, sorted(self.running - {name})
        while not await self.serves():
            if time.monotonic() > until:
                self.lost_by = self.lost_by or name
                words = [f"seconds={self.patience:g}", *(["beside=" + ",".join(beside)] if beside else [])]
                return [Result(LOST, " ".join(words))]
            await asyncio.sleep(pause)
            pause = min(2 * pause, LAST_PAUSE)
        return None


def above(name, limit):
    """Returns why a case cannot exceed a limit of the node, or None."""
    return f"2 MiB do not exceed its {name} MRU of {limit}" if limit > EXCEEDED else None


def results_of(case, broken):
    """Returns the results of what a node breaks. The case `good` has one for each rule."""
    if not broken:
        return [Result(OK)]
    if case.name == "good":
        firsts = {it.rule: it for it in reversed(broken)}
        ordered = sorted(firsts.values(), key=lambda it: it.level != table.MUST)
        return [Result(it.level, f"{it.rule} expected={it.expected} got={it.got}") for it in ordered]
    first, others = verdict.gravest(broken)
    also = f" also={','.join(others)}" if others else ""
    return [Result(first.level, f"{first.rule} expected={first.expected} got={first.got}{also}")]


async def run(probe, cases):
    """Runs `good` and these cases. Returns why there was no session, or None."""
    try:
        await begin(probe)
        await run_all(probe, [case for case in cases if case is not table.CASES[0]])
    except NoNode as error:
        return str(error)
    return None


async def begin(probe):
    """Runs `good`."""
    await probe.start()
    begun, good = time.monotonic(), table.CASES[0]
    results = await probe.good(good)
    probe.report.add(good.name, class_of(good), time.monotonic() - begun, results)


def class_of(case):
    """Returns the group and the section of a case, as JUnit shows them."""
    return f"{case.group}.{verdict.section_of(case)}"


async def run_all(probe, cases):
    """Runs cases, at most as many at a time as the option says. `sent-good` comes first, since what it shows
    of the node matters to others, and `crowd` last and alone."""
    first = [case for case in cases if case.name == "sent-good"]
    last = [case for case in cases if case.group == "crowd"]
    left = [case for case in reversed(cases) if case not in first + last]
    jobs = 1 if probe.given.listen else probe.given.jobs

    async def work():
        while left:
            await run_one(probe, left.pop())

    for case in first:
        await run_one(probe, case)
    await asyncio.gather(*(work() for _ in range(jobs)))
    for case in last:
        await run_one(probe, case)


async def run_one(probe, case):
    """Runs a case, and reports it."""
    probe.report.progress(case.name)
    begun = time.monotonic()
    results = await probe.case(case)
    probe.report.add(case.name, class_of(case), time.monotonic() - begun, results)


# ---- streams without a case


async def play(probe, stream):
    """Sends a stream, and closes the connection. Waits for the node to do so too."""
    try:
        connection = await probe.connect()
    except NoSession:
        return
    if probe.role == table.CONNECTS:
        await connection.wait(lambda: connection.incoming.contact or connection.end, probe.timeout)
    connection.put(stream)
    await connection.flush(probe.timeout)
    connection.finish()
    if not await connection.wait(lambda: connection.end, probe.timeout):
        connection.reset()
    connection.close()


async def try_streams(probe, streams):
    """Sends streams, each with its name and maybe a file to keep it in, until one after which the node
    does not serve. Returns how many the node has survived, and the result of the one that it has not."""
    count = 0
    for name, stream, path in streams:
        probe.report.progress(name)
        await play(probe, stream)
        lost = await probe.look(name) if probe.role == table.ACCEPTS else None
        if lost is not None:
            if path is not None:
                with open(path, "wb") as file:
                    file.write(stream)
            return count, name, lost
        count += 1
    return count, None, None


async def run_fuzz(probe, count, seed, faults):
    """Runs `good`, and then sends that many streams. Returns why there was no session, or None."""
    try:
        await begin(probe)
        corpus = fuzz.Corpus(probe, await dry.streams(probe), faults, seed)
        named = ((f"fuzz-{it}", corpus.stream(it), f"{probe.given.folder}/fuzz-{it}.tcpcl") for it in range(count))
        survived, name, lost = await try_streams(probe, named)
        probe.report.add(name or "fuzz", "fuzz", 0, lost or [Result(OK, f"streams={survived} seed={seed}")])
    except NoNode as error:
        return str(error)
    return None


async def run_play(probe, path):
    """Runs `good`, and then sends the stream of a file. Returns why there was no session, or None."""
    with open(path, "rb") as file:
        stream = file.read()
    try:
        await begin(probe)
        _, _, lost = await try_streams(probe, [("play", stream, None)])
        probe.report.add("play", "fuzz", 0, lost or [Result(OK)])
    except NoNode as error:
        return str(error)
    return None
