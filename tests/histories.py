#!/usr/bin/env python3
"""Whether ONE order explains what many clients of the built program NBDJ see, and what kills and power cuts leave.

usage: tests/histories.py [--operations N] [--seed S] [--kills K] [--cache MODE] [--in-flight N] [--keep FOLDER] [--only-checker]

Twelve clients write, clear, flush and read a few blocks of one image. Half of them use TCP, half a Unix socket; half send one request at a time,
half up to eight, or up to 16 where the server works on as many at a time (`--in-flight 16`); then replies are matched by
their cookies, each of which has to come once. Each WRITE puts a value of its own into each sector, so what a READ finds names the write. Then the server is killed (SIGKILL) or
its power is cut: then any part of what it wrote since the last sync stays (tests/preloads/undo_calls.c). It starts again over the same image, and the clients go
on. For each life of the server tests/history_checker.py decides from the requests, the answers, their times and what is left whether one order fits,
as docs/ASSURANCE.md promises it. This is done for `writeback`, `writethrough` and `ordered`, each over images of its own, with one and with 16
requests of a client in progress at a time.

Not decided: the answers to BLOCK_STATUS, because no client asks; writes of parts of sectors, which other tests send; whether and how soon a request is
answered. Times are those of this process, so an order that only the exact times of the server would exclude fits. A life for which neither an order
nor a contradiction is found counts as undecided, and isn't a failure.

N is the number of requests that are answered (10,000), K that of kills and power cuts (one for each 400 requests), MODE one of the three. The seed is
printed. With the same seed each client draws the same requests, but the schedule differs. With --keep the history of a life that no order fits is
written to FOLDER. First the checker is checked: with histories and verdicts that were written by hand, and with small drawn histories, for which all
orders are tried; --only-checker does that alone. Prints a line for each check that fails, and last 'N passed, M failed'.
"""
import argparse
import collections
import contextlib
import itertools
import mmap
import os
import random
import selectors
import signal
import socket
import struct
import subprocess
import sys
import tempfile
import time

import checks
from checks import BLOCK, FUA, MIB, NO_HOLE, check, connect, format_image, read_address, build_preload, reply, serve, shake, take_all
from history_checker import FITS, FLUSH, NEVER, READ, UNDECIDED, WRITE, WRONG, Command, confirmed, judge

SECTOR = 512
SECTORS = BLOCK // SECTOR
# The blocks that clients write, and those after them that are only read: more than there are frames, so that blocks leave memory.
LIVE, FILLER, FRAMES = 64, 640, 512
CELLS = range(LIVE * SECTORS)
AREAS = {1: 2097152, 2: 4194304}
CODES = {"READ": checks.READ, "WRITE": checks.WRITE, "FLUSH": checks.FLUSH, "TRIM": checks.TRIM, "WRITE_ZEROES": checks.ZEROES}
CLIENTS, DEPTH, PER_LIFE, SECONDS = 12, 8, 400, 120
# How many requests of a client the server works on at a time.
IN_FLIGHT = (1, 16)
MODES = {"writeback": 5, "writethrough": 2, "ordered": 3}
# How often a client sends each kind: one that does everything, one that mostly writes, one that mostly reads.
KINDS = ("READ", "filler", "WRITE", "WRITE_ZEROES", "TRIM", "FLUSH")
HABITS = ((40, 3, 38, 6, 4, 6), (12, 1, 66, 8, 5, 8), (75, 8, 10, 2, 1, 4))


# Histories that were written by hand, to check the checker. A letter is a client; the last numbers are the times of a request and its answer.


def wrote(client, value, cells, sent, answered=NEVER, fua=False):
    return Command(client, WRITE, sent, answered, cells, (value,) * len(cells), fua)


def found(client, values, sent, answered, first=0):
    return Command(client, READ, sent, answered, range(first, first + len(values)), values)


def flushed(client, sent, answered=NEVER):
    return Command(client, FLUSH, sent, answered)


ONE, TWO, BOTH = range(0, 1), range(1, 2), range(0, 2)
# A name, the mode, the value of each cell at the opening, the commands, the value of each cell at the next opening, and the verdict.
BY_HAND = [
    ("a READ shows what was answered before", "writeback", (7,), [wrote("a", 1, ONE, 1, 2), found("b", (1,), 3, 4)], (1,), FITS),
    ("a READ shows what it overtook", "writeback", (7,), [wrote("a", 1, ONE, 1, 4), found("b", (7,), 2, 3)], (1,), FITS),
    ("a READ shows what isn't answered yet", "writeback", (7,), [wrote("a", 1, ONE, 1, 4), found("b", (1,), 2, 3)], (1,), FITS),
    ("a stale READ", "writeback", (7,), [wrote("a", 1, ONE, 1, 2), found("b", (7,), 3, 4)], (1,), WRONG),
    ("a client's stale READ of its own write", "ordered", (7,), [wrote("a", 1, ONE, 1, 2), found("a", (7,), 3, 4)], (7,), WRONG),
    ("two writes at once, and READs that agree", "writeback", (7,), [wrote("a", 1, ONE, 1, 4), wrote("b", 2, ONE, 2, 3), found("c", (1,), 5, 6), found("d", (1,), 7, 8)], (1,), FITS),
    ("two writes at once, and READs that don't agree", "writeback", (7,), [wrote("a", 1, ONE, 1, 4), wrote("b", 2, ONE, 2, 3), found("c", (1,), 5, 6), found("d", (2,), 7, 8)], (2,), WRONG),
    ("a READ goes back in time between two clients", "ordered", (7,), [wrote("a", 1, ONE, 1, 9), found("b", (1,), 2, 3), found("c", (7,), 4, 5)], (7,), WRONG),
    ("two READs at once differ", "ordered", (7,), [wrote("a", 1, ONE, 1, 9), found("b", (1,), 2, 5), found("c", (7,), 3, 6)], (7,), FITS),
    ("a READ of two cells has half of a write", "writeback", (7, 8), [wrote("a", 1, BOTH, 1, 4), found("b", (1, 8), 2, 3)], (1, 1), WRONG),
    ("READs that see two writes in opposite orders", "writeback", (7, 8), [wrote("a", 1, ONE, 1, 9), wrote("b", 2, TWO, 1, 9), found("c", (1, 8), 2, 5), found("d", (7, 2), 2, 5)], (1, 2), WRONG),
    ("cells of two writes at once are mixed", "writeback", (7, 8), [wrote("a", 1, BOTH, 1, 4), wrote("b", 2, BOTH, 2, 3), found("c", (1, 2), 5, 6)], (1, 2), WRONG),
    ("three writes at once, of which each comes last somewhere", "writeback", (7, 8, 9),
     [wrote("a", 1, range(0, 2), 1, 9), wrote("b", 2, range(1, 3), 1, 9), wrote("c", 3, (0, 2), 1, 9), found("d", (1, 2, 3), 10, 11)], (1, 2, 3), WRONG),
    ("three writes at once, in one order", "writeback", (7, 8, 9),
     [wrote("a", 1, range(0, 2), 1, 9), wrote("b", 2, range(1, 3), 1, 9), wrote("c", 3, (0, 2), 1, 9), found("d", (3, 2, 3), 10, 11)], (3, 2, 3), FITS),
    ("requests of one client on their way at once may take any order", "writeback", (7,), [wrote("a", 1, ONE, 1, 5), wrote("a", 2, ONE, 2, 6), found("b", (1,), 7, 8)], (1,), FITS),
    ("a value that nobody wrote", "writeback", (7,), [wrote("a", 1, ONE, 1, 2), found("b", (5,), 3, 4)], (1,), WRONG),
    ("a value in another cell", "writeback", (7, 8), [wrote("a", 1, ONE, 1, 2), found("b", (1, 1), 3, 4)], (1, 8), WRONG),
    ("a value that wasn't sent yet", "writeback", (7,), [found("b", (1,), 1, 2), wrote("a", 1, ONE, 3, 4)], (1,), WRONG),
    ("an update of a part of a block takes another one back", "writeback", (7, 8), [wrote("a", 1, ONE, 1, 2), wrote("b", 2, TWO, 3, 4), found("c", (7, 2), 5, 6)], (7, 2), WRONG),
    # What a kill leaves.
    ("a write without an answer is there", "writeback", (7,), [wrote("a", 1, ONE, 1)], (1,), FITS),
    ("a write without an answer isn't there", "writethrough", (7,), [wrote("a", 1, ONE, 1)], (7,), FITS),
    ("an answered write that nobody flushed is lost", "writeback", (7,), [wrote("a", 1, ONE, 1, 2)], (7,), FITS),
    ("it was read too", "writeback", (7,), [wrote("a", 1, ONE, 1, 2), found("b", (1,), 3, 4)], (7,), FITS),
    ("an answered write is lost in writethrough", "writethrough", (7,), [wrote("a", 1, ONE, 1, 2)], (7,), WRONG),
    ("a flushed write is lost", "writeback", (7,), [wrote("a", 1, ONE, 1, 2), flushed("a", 3, 4)], (7,), WRONG),
    ("a write is lost that another client flushed", "writeback", (7,), [wrote("a", 1, ONE, 1, 2), flushed("b", 3, 4)], (7,), WRONG),
    ("a FLUSH that wasn't answered confirms nothing", "writeback", (7,), [wrote("a", 1, ONE, 1, 2), flushed("b", 3)], (7,), FITS),
    ("a FLUSH that was sent before the answer confirms nothing", "writeback", (7,), [wrote("a", 1, ONE, 1, 3), flushed("b", 2, 4)], (7,), FITS),
    ("a FLUSH confirms nothing in ordered", "ordered", (7,), [wrote("a", 1, ONE, 1, 2), flushed("a", 3, 4)], (7,), FITS),
    ("a flushed write is lost, though later ones of its cell would hide it", "writeback", (7,), [wrote("a", 1, ONE, 1, 2), flushed("a", 3, 4), wrote("b", 2, ONE, 5, 6)], (7,), WRONG),
    ("a flushed write is under a later one", "writeback", (7,), [wrote("a", 1, ONE, 1, 2), flushed("a", 3, 4), wrote("b", 2, ONE, 5, 6)], (2,), FITS),
    ("what a READ saw before a FLUSH was no answer to its writer", "writeback", (7,), [wrote("a", 1, ONE, 1), found("b", (1,), 2, 3), flushed("b", 4, 5)], (7,), FITS),
    ("a FUA write is lost", "writeback", (7,), [wrote("a", 1, ONE, 1, 2, fua=True)], (7,), WRONG),
    ("a FUA write is lost in ordered", "ordered", (7,), [wrote("a", 1, ONE, 1, 2, fua=True)], (7,), FITS),
    ("a FUA write without an answer is lost", "writeback", (7,), [wrote("a", 1, ONE, 1, fua=True)], (7,), FITS),
    ("a FUA write is there, and an earlier one isn't", "writeback", (7, 8), [wrote("a", 1, ONE, 1, 2), wrote("b", 2, TWO, 3, 4, fua=True)], (7, 2), WRONG),
    ("a write is there, and one that was answered before isn't", "ordered", (7, 8), [wrote("a", 1, ONE, 1, 2), wrote("b", 2, TWO, 3, 4)], (7, 2), WRONG),
    ("two writes at once, of which one is there", "ordered", (7, 8), [wrote("a", 1, ONE, 1, 3), wrote("b", 2, TWO, 2, 4)], (7, 2), FITS),
    ("an unanswered write is there, and one that was answered before isn't", "ordered", (7, 8), [wrote("a", 1, ONE, 1, 2), wrote("b", 2, TWO, 3)], (7, 2), WRONG),
    ("a write is there, and one that a READ saw before isn't", "ordered", (7, 8), [wrote("a", 1, ONE, 1), found("b", (1,), 2, 3), wrote("c", 2, TWO, 4)], (7, 2), WRONG),
    ("a write is there, and one isn't that a READ of another one implies", "ordered", (7, 8, 9),
     [wrote("a", 1, ONE, 1, 8), wrote("b", 2, TWO, 2, 3), found("c", (7, 2), 4, 5), found("c", (1, 2), 6, 7), wrote("d", 3, (2,), 9)], (1, 8, 3), WRONG),
    ("half of a write is there", "ordered", (7, 8), [wrote("a", 1, BOTH, 1, 2)], (1, 8), WRONG),
    ("half of an unanswered write is there", "ordered", (7, 8), [wrote("a", 1, BOTH, 1)], (7, 1), WRONG),
    ("half of a write is under a later one", "ordered", (7, 8), [wrote("a", 1, BOTH, 1, 2), wrote("b", 2, TWO, 3, 4)], (1, 2), FITS),
    ("an overwritten value is back under a later write", "ordered", (7, 8), [wrote("a", 1, ONE, 1, 2), wrote("a", 2, ONE, 3, 4), wrote("a", 3, TWO, 5, 6)], (1, 3), WRONG),
    ("a value from before the opening is there that isn't the opening's", "ordered", (7,), [wrote("a", 1, ONE, 1, 2)], (6,), WRONG),
    # Zeroes, which name no write.
    ("zeroes after a write", "writeback", (7,), [wrote("a", 1, ONE, 1, 2), wrote("b", 0, ONE, 3, 4), found("c", (0,), 5, 6)], (0,), FITS),
    ("zeroes from before a write", "writeback", (0,), [wrote("a", 1, ONE, 1, 2), found("c", (0,), 3, 4)], (1,), WRONG),
    ("zeroes that a later write has replaced", "writeback", (7,), [wrote("b", 0, ONE, 1, 2), wrote("a", 1, ONE, 3, 4), found("c", (0,), 5, 6)], (1,), WRONG),
    ("zeroes that were sent too late", "writeback", (7,), [found("c", (0,), 1, 2), wrote("b", 0, ONE, 3, 4)], (0,), WRONG),
    ("zeroes of one of two that are on their way", "writeback", (7,), [wrote("a", 0, ONE, 1), wrote("b", 0, ONE, 2), found("c", (0,), 3, 4)], (7,), FITS),
    ("zeroes that one of two commands may have left, and a write after both", "writeback", (7,),
     [wrote("a", 0, ONE, 1, 4), wrote("b", 0, ONE, 2, 3), wrote("c", 1, ONE, 5, 8), found("d", (1,), 6, 7), found("e", (0,), 9, 10)], (1,), WRONG),
    ("zeroes of a cell that was cleared with another one", "ordered", (7, 8), [wrote("a", 0, BOTH, 1, 4), found("b", (0, 8), 2, 3)], (0, 0), WRONG),
    ("flushed zeroes are lost", "writeback", (7,), [wrote("a", 0, ONE, 1, 2), flushed("a", 3, 4)], (7,), WRONG),
    ("a TRIM of no cell is lost", "writethrough", (7,), [wrote("a", 0, (), 1, 2)], (7,), FITS),
]


def check_by_hand():
    for name, mode, opening, commands, end, wanted in BY_HAND:
        check(f"by hand: {name}", wanted, judge(mode, dict(enumerate(opening)), commands, end and dict(enumerate(end)))[0])


def some_order(mode, opening, commands, end):
    """Whether an order fits: all are tried."""
    must = {id(it) for it in confirmed(mode, commands)} if end else set()
    seen = set()

    def goes_on(left, state, is_over):
        if is_over and all(it.answered == NEVER for it in left):
            return True
        key = (tuple(id(it) for it in left), tuple(state.values()), is_over)
        if key in seen:
            return False
        seen.add(key)
        if not is_over and state == end and not any(id(it) in must for it in left) and goes_on(left, state, True):
            return True
        for it in left:
            rest = [other for other in left if other is not it]
            if any(other.answered < it.sent for other in rest):
                continue
            after = dict(state)
            if it.kind == WRITE:
                after.update(zip(it.cells, it.values))
            elif any(state[cell] != value for cell, value in zip(it.cells, it.values)):
                continue
            if goes_on(rest, after, is_over):
                return True
        return False

    asked = [it for it in commands if it.kind == WRITE and len(it.cells) or it.kind == READ and it.answered < NEVER]
    return goes_on(asked, dict(opening), end is None)


def drawn_history(source, most, count):
    """A history of a correct server over a few cells; in about every second one some values are changed."""
    opening = {cell: source.choice((0, 900 + cell)) for cell in range(most)}
    commands = []
    for number in range(1, count + 1):
        sent = source.randrange(2 * count)
        answered = NEVER if source.randrange(7) == 0 else sent + source.randint(1, 6)
        first = source.randrange(most)
        cells = range(first, source.randint(first, most - 1) + 1)
        kind = source.choice((WRITE, WRITE, READ, READ, FLUSH))
        values = (source.choice((0, number, number)),) * len(cells)
        commands.append(Command(number, kind, sent, answered, cells if kind != FLUSH else (), values, source.randrange(5) == 0))
    state, states = dict(opening), [dict(opening)]
    for _, number in sorted((source.uniform(it.sent, min(it.answered, 3 * count)), it.client) for it in commands):
        it = commands[number - 1]
        if it.kind == READ:
            it.values = tuple(state[cell] for cell in it.cells)
        elif it.kind == WRITE:
            state.update(zip(it.cells, it.values))
            states.append(dict(state))
    end = source.choice(states)
    is_right = source.randrange(2)
    if not is_right:
        for it in [it for it in commands if it.kind == READ and source.randrange(2)]:
            it.values = tuple(source.choice(states)[cell] for cell in it.cells)
        end = {cell: source.choice(states)[cell] if source.randrange(3) == 0 else value for cell, value in end.items()}
    return opening, commands, None if source.randrange(5) == 0 else end


def check_drawn(seed):
    """Compares verdicts on small histories with a search through all orders."""
    source = random.Random(f"{seed} drawn")
    verdicts = collections.Counter()
    for number in range(500):
        mode = source.choice(list(MODES))
        opening, commands, end = drawn_history(source, source.randint(1, 4), source.randint(2, 7))
        fits, verdict = some_order(mode, opening, commands, end), judge(mode, opening, commands, end)[0]
        verdicts[fits, verdict] += 1
        if verdict not in (FITS if fits else WRONG, UNDECIDED):
            check(f"drawn history {number} of seed {seed}, {mode}: {opening} {[(str(it), it.values, it.has_fua) for it in commands]} {end}", fits, verdict)
    check("drawn histories of both kinds", True, min(verdicts[True, FITS], verdicts[False, WRONG]) >= 50 or dict(verdicts))
    check("hardly any drawn history is undecided", True, verdicts[True, UNDECIDED] + verdicts[False, UNDECIDED] <= 5 or dict(verdicts))


# The server, its image, and what a power cut leaves of that.


def pattern(value, cell):
    return struct.pack(">II", value, cell) * (SECTOR // 8) if value else bytes(SECTOR)


def values_of(cells, data):
    """The value of each cell. A cell that isn't from one write is an error."""
    values = []
    for at, cell in enumerate(cells):
        bytes_of = data[at * SECTOR:(at + 1) * SECTOR]
        value = int.from_bytes(bytes_of[:4], "big")
        if bytes_of != pattern(value, cell):
            raise ValueError(f"sector {cell} isn't from one write: {bytes_of[:24].hex()}..")
        values.append(value)
    return tuple(values)


FILLED = b"".join(pattern(1, cell) for cell in range(LIVE * SECTORS, (LIVE + FILLER) * SECTORS))


def unsynced(log):
    """Offset and old bytes of each write that no sync has confirmed, in the order of the writes."""
    writes, confirmed_number = [], 0
    with open(log, "rb") as file, contextlib.ExitStack() as stack:
        size = os.fstat(file.fileno()).st_size
        text = stack.enter_context(mmap.mmap(file.fileno(), 0, prot=mmap.PROT_READ)) if size else b""
        at = 0
        while at + 24 <= size:
            kind, count, offset, number = struct.unpack("=c3xIQQ", text[at:at + 24])
            if kind == b"S":
                confirmed_number = max(confirmed_number, number)
            elif at + 24 + count <= size:
                writes.append((number, offset, at + 24, count))
            at += 24 + count
        return [(offset, text[start:start + count]) for number, offset, start, count in writes if number > confirmed_number]


def cut(image, log, source):
    """Turns an image into one that a power cut may leave. The number of writes that no sync had confirmed."""
    writes = unsynced(log)
    way = source.choice(("old", "writes", "pieces", "pieces"))
    with open(image, "r+b") as file:
        seen = []
        for offset, old in writes:
            file.seek(offset)
            seen.append(file.read(len(old)))
        for offset, old in reversed(writes):
            file.seek(offset)
            file.write(old)
        for (offset, _), new in zip(writes, seen):
            at, keeps = 0, source.randrange(2)
            while at < len(new) and way != "old":
                end = min(len(new), at + source.choice((1, 17, 512, 4096, 65536)))
                kept = ("old", "new")[keeps] if way == "writes" else source.choice(("old", "new", "new", "zeroes", "noise"))
                if kept != "old":
                    file.seek(offset + at)
                    file.write({"new": new[at:end], "zeroes": bytes(end - at), "noise": source.randbytes(end - at)}[kept])
                at = end
    return len(writes)


class Server:
    """A server of one image, which is started and killed again and again."""

    def __init__(self, folder, mode, in_flight, layout, source):
        self.folder, self.mode, self.in_flight, self.source = folder, mode, in_flight, source
        name = f"{folder}/{mode}-{in_flight}"
        self.image, self.path, self.log = f"{name}.img", name, f"{name}.log"
        self.process = self.port = None
        format_image(self.image, "--blocks", str(LIVE + FILLER), "--area", str(AREAS[layout]), "--layout", str(layout))

    def launch(self, *more):
        """Starts the process, and draws how slow its syncs are and whether a power cut ends it."""
        source = self.source
        self.is_cut = source.randrange(2)
        slow = source.choice((0, 1000, 4000, 15000))
        preloads = [build_preload(self.folder, "undo_calls")] * self.is_cut + [build_preload(self.folder, "slow_sync")] * (slow > 0)
        with contextlib.suppress(FileNotFoundError):
            os.unlink(self.log)
        environment = {**os.environ, "SLOW_SYNC_US": str(slow), "UNDO_IMAGE": self.image, "UNDO_LOG": self.log, "LD_PRELOAD": ":".join(preloads)}
        words = ["--listen", "127.0.0.1:0", "--unix", self.path, "--workers", "16", "--frames", str(FRAMES), "--in-flight", str(self.in_flight)]
        words += ["--cache", self.mode, "--flush-interval", source.choice(("0.02", "0.2", "1", "0")), *more]
        self.process = serve(self.image, *words, env=environment, stderr=subprocess.PIPE)

    def listen(self):
        port, path = read_address(self.process), read_address(self.process)
        if not port or not path:
            raise ValueError(f"the server doesn't open the image: {self.process.stderr.read()}")
        self.port = int(port)

    def end(self):
        """Kills the process, and cuts the power if that was drawn. What was done."""
        self.process.kill()
        self.process.communicate()
        if not self.is_cut:
            return "kill"
        return f"power cut with {cut(self.image, self.log, self.source)} writes unsynced" if os.path.exists(self.log) else "power cut"

    def connect(self, by_tcp):
        if by_tcp:
            client = socket.create_connection(("127.0.0.1", self.port), timeout=SECONDS)
            client.setsockopt(socket.IPPROTO_TCP, socket.TCP_NODELAY, 1)
        else:
            client = connect(self.path, SECONDS)
        shake(client)
        return client


def request(kind, cookie, offset=0, length=0, flags=0):
    return checks.request(CODES[kind], cookie, offset, length, flags)


def ask(client, kind, offset=0, length=0, data=b""):
    """Sends a request and waits for its answer; the data of a READ."""
    client.sendall(request(kind, 1, offset, length) + data)
    answer = take_all(client, 16)
    if answer != reply(1):
        raise ValueError(f"a {kind} was answered {answer.hex()}")
    return take_all(client, length) if kind == "READ" else b""


# The clients.


class Client:
    """A client through all lives of a server, with a connection to the present one."""

    def __init__(self, number, in_flight, seed):
        self.in_flight = in_flight
        self.number, self.source = number, random.Random(f"{seed} client {number}")
        self.by_tcp, self.habit = number % 2, HABITS[number // 4 % len(HABITS)]
        self.depth = max(DEPTH, in_flight) if number % 4 < 2 else 1
        self.values = self.cookie = 0

    def connect(self, server, is_rare):
        """Connects. If `is_rare`, FLUSHes are rare and no write has FUA."""
        self.is_rare = is_rare
        self.socket = server.connect(self.by_tcp)
        self.socket.setblocking(False)
        self.unsent, self.unread, self.waiting = bytearray(), bytearray(), {}

    def sectors(self):
        """First sector and count: mostly within a few of the first blocks, whole or in part; now and then many blocks."""
        source = self.source
        block = int(LIVE * source.random() ** 3)
        way = source.randrange(20)
        if way < 11:
            return block * SECTORS, min(source.choice((1, 1, 2, 3)), LIVE - block) * SECTORS
        if way < 19:
            first = block * SECTORS + source.randrange(SECTORS)
            return first, min(source.randint(1, 20), LIVE * SECTORS - first)
        first = source.randrange(LIVE * SECTORS - SECTORS)
        return first, source.randint(SECTORS, LIVE * SECTORS - first)

    def draw(self):
        """The next command, and its request as bytes."""
        source = self.source
        kind = source.choices(KINDS, self.habit)[0]
        if kind == "FLUSH" and self.is_rare and source.randrange(4):
            kind = "WRITE"
        self.cookie += 1
        if kind == "FLUSH":
            return Command(self.number, FLUSH, 0), request(kind, self.cookie)
        if kind == "filler":
            length = source.choice((1, 16, 256))
            first = LIVE + source.randrange(FILLER - length)
            return Command(self.number, READ, 0, name=first * BLOCK, values=length * BLOCK), request("READ", self.cookie, first * BLOCK, length * BLOCK)
        first, count = self.sectors()
        if kind == "READ":
            return Command(self.number, READ, 0, cells=range(first, first + count)), request(kind, self.cookie, first * SECTOR, count * SECTOR)
        flags = FUA * (source.randrange(16) == 0 and not self.is_rare) + NO_HOLE * (kind == "WRITE_ZEROES" and source.randrange(2))
        value, cells, data = 0, range(first, first + count), b""
        if kind == "WRITE":
            self.values += 1
            value = (self.number + 1) << 26 | self.values
            data = b"".join(pattern(value, cell) for cell in cells)
        elif kind == "TRIM":
            # (only of whole blocks)
            cells = range(-(-first // SECTORS) * SECTORS, max((first + count) // SECTORS, -(-first // SECTORS)) * SECTORS)
        name = kind + " FUA" * (flags & FUA)
        command = Command(self.number, WRITE, 0, cells=cells, values=(value,) * len(cells), has_fua=bool(flags & FUA), name=name)
        return command, request(kind, self.cookie, first * SECTOR, count * SECTOR, flags) + data

    def ask(self, history):
        """Sends requests until as many wait for an answer as this client may have."""
        if len(self.waiting) > self.depth // 2:
            return
        while len(self.waiting) < self.depth:
            command, text = self.draw()
            history.append(command)
            self.waiting[self.cookie] = command
            command.sent = time.monotonic_ns()
            self.unsent += text
            self.push()

    def push(self):
        with contextlib.suppress(BlockingIOError):
            while self.unsent:
                del self.unsent[:self.socket.send(self.unsent)]

    def take(self):
        """Receives what has come: the commands that were answered, and whether the connection is still open."""
        is_there, answers = True, []
        try:
            piece = self.socket.recv(MIB)
            is_there = bool(piece)
            self.unread += piece
        except BlockingIOError:
            pass
        except OSError:
            is_there = False
        now = time.monotonic_ns()
        while self.waiting and len(self.unread) >= 16:
            cookie = int.from_bytes(self.unread[8:16], "big")
            if self.in_flight == 1 or cookie not in self.waiting:
                cookie = next(iter(self.waiting))
            command, wanted = self.waiting[cookie], reply(cookie)
            if self.unread[:16] != wanted:
                raise ValueError(f"{command} was answered {self.unread[:16].hex()}, and not {wanted.hex()}")
            is_filler = command.kind == READ and not command.cells
            length = (command.values if is_filler else len(command.cells) * SECTOR) if command.kind == READ else 0
            if len(self.unread) < 16 + length:
                break
            command.answered = now
            data = bytes(self.unread[16:16 + length])
            del self.unread[:16 + length]
            del self.waiting[cookie]
            answers.append(command)
            if is_filler:
                first = command.name - LIVE * BLOCK
                if data != FILLED[first:first + length]:
                    raise ValueError(f"a READ of {length} bytes at {command.name} shows other bytes than were written there at first")
            elif command.kind == READ:
                command.values = values_of(command.cells, data)
        return answers, is_there


def live(server, clients, most, source):
    """Serves the clients until `most` requests are answered, and kills the server: a little later, or at once when the next answer confirms a
    write, because a confirmation that came too early is wrong only then. The history, the number of answers, and how the server was ended."""
    history, count, selector, until = [], 0, selectors.DefaultSelector(), None
    is_rare, wait, at_answer = source.randrange(3) == 0, source.random() ** 2 * 0.03, source.randrange(3) > 0
    for client in clients:
        client.connect(server, is_rare)
        selector.register(client.socket, selectors.EVENT_READ, client)
    for client in clients:
        client.ask(history)
    began = time.monotonic()
    while until is None or time.monotonic() < until:
        confirms = False
        for key, _ in selector.select(0.002):
            answers, is_there = key.data.take()
            count += len(answers)
            confirms = confirms or any(it.kind == FLUSH or it.has_fua or it.kind == WRITE and server.mode == "writethrough" for it in answers)
            if not is_there:
                raise ValueError(f"the server has closed a connection: {server.process.stderr.read()}")
            if until is not None and at_answer and confirms:
                break
        if until is not None and at_answer and confirms:
            break
        for client in clients:
            client.push()
            client.ask(history)
        now = time.monotonic()
        if until is None and count >= most:
            until = now + (1 if at_answer else wait)
        if now - began > SECONDS:
            raise ValueError(f"only {count} requests were answered in {SECONDS} seconds")
    how = server.end()
    for client in clients:
        with client.socket:
            while True:
                answers, is_there = client.take()
                count += len(answers)
                if not is_there:
                    break
    selector.close()
    return [it for it in history if it.kind != READ or it.cells], count, how


def open_image(server, source):
    """Starts the server and reads all blocks that clients write. Sometimes it is killed during the start before, or after the READs."""
    while source.randrange(5) == 0:
        server.launch()
        time.sleep(source.random() * 0.05)
        server.end()
    server.launch()
    server.listen()
    with server.connect(source.randrange(2)) as client:
        cells = dict(zip(CELLS, values_of(CELLS, ask(client, "READ", 0, LIVE * BLOCK))))
        if source.randrange(4) == 0:
            for first in range(0, FILLER * BLOCK, MIB):
                length = min(MIB, FILLER * BLOCK - first)
                if ask(client, "READ", LIVE * BLOCK + first, length) != FILLED[first:first + length]:
                    raise ValueError(f"{length} bytes at {LIVE * BLOCK + first} aren't those that were written there at first")
    if source.randrange(3) == 0:
        # (the next server has no block in memory)
        server.end()
        server.launch()
        server.listen()
    return cells


def fill(server):
    """Writes the blocks that are only read later. This server isn't killed: it stores all and ends."""
    server.launch("--sessions", "1")
    server.listen()
    with server.connect(0) as client:
        for first in range(0, FILLER * BLOCK, MIB):
            length = min(MIB, FILLER * BLOCK - first)
            ask(client, "WRITE", LIVE * BLOCK + first, length, FILLED[first:first + length])
    server.process.communicate(timeout=SECONDS)


def keep(folder, name, opening, history, end):
    with open(f"{folder}/{name}.txt", "w", encoding="utf-8") as file:
        print("opening", opening, file=file)
        for it in sorted(history, key=lambda it: it.sent):
            print(it, it.values[:1] if it.kind == WRITE else it.values, file=file)
        print("end", end, file=file)


class Totals:
    def __init__(self):
        self.operations, self.verdicts, self.seconds, self.ends = 0, collections.Counter(), 0, collections.Counter()


def run(folder, mode, in_flight, operations, kills, seed, kept, totals):
    source = random.Random(f"{seed} {mode} {in_flight}")
    server = Server(folder, mode, in_flight, source.choice((1, 2)), source)
    clients = [Client(number, in_flight, f"{seed} {mode} {in_flight}") for number in range(CLIENTS)]
    try:
        fill(server)
        opening = open_image(server, source)
        for life in range(1, kills + 1):
            name = f"{mode}, {in_flight} in flight, life {life}"
            history, count, how = live(server, clients, (operations + kills - life) // kills, source)
            operations_of_life = sum(1 for it in history if it.answered < NEVER)
            totals.operations += count
            totals.ends[how.partition(" with")[0]] += 1
            end = open_image(server, source)
            began = time.monotonic()
            verdict, why = judge(mode, opening, history, end)
            totals.seconds += time.monotonic() - began
            totals.verdicts[verdict] += 1
            if verdict == WRONG:
                if kept:
                    keep(kept, f"{mode}-{in_flight}-{life}", opening, history, end)
                check(f"{name} of {operations_of_life} requests, which ended by a {how}: one order fits", "none that is excluded", why)
                return
            check(f"{name}: one order fits", True, verdict != WRONG)
            opening = end
    except (ValueError, OSError) as error:
        check(f"{mode}, {in_flight} in flight: each request is answered Ok, and each sector is from one write", "no error", f"{error}")
    finally:
        if server.process and server.process.poll() is None:
            server.process.kill()
            server.process.communicate()


def main():
    words = argparse.ArgumentParser(usage=__doc__.split("\n")[2].removeprefix("usage: "))
    words.add_argument("--operations", type=int, default=10000)
    words.add_argument("--seed", type=int, default=int(time.time()))
    words.add_argument("--kills", type=int)
    words.add_argument("--cache", choices=list(MODES))
    words.add_argument("--in-flight", type=int, choices=range(1, 17), metavar="N")
    words.add_argument("--keep")
    words.add_argument("--only-checker", action="store_true")
    given = words.parse_args()
    # (so that no server outlives a test that is stopped)
    signal.signal(signal.SIGTERM, lambda *_: sys.exit(1))
    print(f"the seed is {given.seed}", flush=True)
    began = time.monotonic()
    check_by_hand()
    check_drawn(given.seed)
    print(f"the checker was checked in {time.monotonic() - began:.1f} s", flush=True)
    modes = [given.cache] if given.cache else list(MODES)
    several = [given.in_flight] if given.in_flight else IN_FLIGHT
    parts = sum(MODES[mode] for mode in modes) * len(several)
    kills = given.kills or max(given.operations // PER_LIFE, 1)
    totals = Totals()
    with tempfile.TemporaryDirectory() as folder:
        for mode, in_flight in itertools.product(modes, several) if not given.only_checker else ():
            part = MODES[mode] / parts
            run(folder, mode, in_flight, int(given.operations * part), max(round(kills * part), 1), given.seed, given.keep, totals)
    if not given.only_checker:
        ends = ", ".join(f"{count} {end}s" for end, count in totals.ends.items())
        told = ", ".join(f"{totals.verdicts[verdict]} lives {verdict}" for verdict in (FITS, UNDECIDED, WRONG))
        print(f"{totals.operations} requests answered, {ends}; {told}; {time.monotonic() - began:.0f} s, {totals.seconds:.1f} of them to judge")
    return checks.finish()


if __name__ == "__main__":
    sys.exit(main())
