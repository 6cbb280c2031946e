#!/usr/bin/env python3
"""A client over libnbd that knows what each byte has to hold. tests/clients.sh runs it; each command prints one line, `ok ..` or what is wrong.

commands URI structured|simple  sends a seeded mix of all commands and flags, of whole blocks, of sectors and of any bytes, and compares each
                                answer with a model of the image
refusals URI                    sends requests that have to be refused
unasked URI                     doesn't ask for block sizes
flood URI LOG FIRST COUNT PID FLUSHES
                                writes blocks over 4 connections, keeps in LOG what was sent and what a FLUSH or FUA confirmed, and kills the
                                process after FLUSHES confirmed FLUSHes, while further requests are in flight
verify URI LOG                  reads those blocks: each has what was confirmed last, or what was sent later
mixed IMAGE A B                 each block of IMAGE is that of the file A or that of the file B, up to their ends
"""
import errno
import json
import os
import random
import select
import signal
import struct
import sys

BLOCK, SECTOR, MIB = 4096, 512, 1 << 20
DATA, ZERO, HOLE = 0, 2, 3


def import_nbd():
    # (here, because `mixed` doesn't need it)
    import nbd
    return nbd


def block_of(block, number):
    """The bytes of the write of a block with this number: they differ by block, write and place."""
    return b"".join(struct.pack(">III", block, number, place) for place in range(BLOCK // 12 + 1))[:BLOCK]


def touched(offset, length):
    """The blocks that have a byte in the range."""
    return range(offset // BLOCK, (offset + length - 1) // BLOCK + 1)


def bytes_of(offset, length, number):
    """The bytes of a write with this number, of any range."""
    begin = offset % BLOCK
    return b"".join(block_of(block, number) for block in touched(offset, length))[begin:begin + length]


def connected(uri):
    nbd = import_nbd()
    client = nbd.NBD()
    client.connect_uri(uri)
    return client


# The mix of commands.


class Model:
    """The bytes of an image and the states of its blocks."""

    def __init__(self, blocks):
        self.states = [HOLE] * blocks
        self.data = bytearray(blocks * BLOCK)

    def put(self, offset, data):
        self.data[offset:offset + len(data)] = data
        for block in touched(offset, len(data)):
            self.states[block] = DATA

    def zero(self, offset, length, state):
        """A data block that is zeroed in part stays data."""
        self.data[offset:offset + length] = bytes(length)
        for block in touched(offset, length):
            is_whole = offset <= block * BLOCK and (block + 1) * BLOCK <= offset + length
            if is_whole or self.states[block] != DATA:
                self.states[block] = state

    def trim(self, offset, length):
        """Only whole blocks become holes."""
        first, end = (offset + BLOCK - 1) // BLOCK, (offset + length) // BLOCK
        if first < end:
            self.zero(first * BLOCK, (end - first) * BLOCK, HOLE)

    def read(self, offset, length):
        return bytes(self.data[offset:offset + length])

    def runs(self, offset, length, is_same):
        """The longest runs of bytes whose blocks have one state, as [state of the first, count of bytes]."""
        found = []
        for block in touched(offset, length):
            state = self.states[block]
            count = min((block + 1) * BLOCK, offset + length) - max(block * BLOCK, offset)
            if found and is_same(found[-1][0], state):
                found[-1][1] += count
            else:
                found.append([state, count])
        return found


def any_range(source, size):
    """A range of whole blocks, sectors or any bytes, at few places so that ranges overlap; some at the end."""
    unit = source.choice([BLOCK, SECTOR, 1])
    near = source.randrange(64 * BLOCK) // unit * unit
    offset = near if source.randrange(2) else size - unit - near
    # (most are short: about half end in the block where they begin)
    most = min(MIB, size - offset, source.choice([BLOCK, 4 * BLOCK, MIB]))
    return offset, max(source.randrange(most + 1) // unit * unit, unit)


def chunks_of(client, count, offset, flags):
    """The data of a structured READ, and for each chunk its kind, offset and length."""
    met = []

    def chunk(data, place, status, _error):
        met.append((status, place, len(data)))
        return 0

    data = client.pread_structured(count, offset, chunk, flags)
    return data, sorted(met, key=lambda it: it[1])


def status_of(client, count, offset, flags):
    entries = []

    def extent(context, _offset, found, _error):
        if context == "base:allocation":
            entries.extend(found)
        return 0

    client.block_status(count, offset, extent, flags)
    return [[state, length] for length, state in zip(entries[0::2], entries[1::2])]


def commands(uri, kind):
    nbd = import_nbd()
    structured = kind == "structured"
    client = nbd.NBD()
    client.set_request_structured_replies(structured)
    # (FUA is allowed on each request, but libnbd's own checks would refuse it on some)
    client.set_strict_mode(0)
    if structured:
        client.add_meta_context("base:allocation")
    client.connect_uri(uri)
    if client.get_structured_replies_negotiated() != structured:
        return f"structured replies are {client.get_structured_replies_negotiated()}"
    size = client.get_size()
    fua, df, no_hole, one = nbd.CMD_FLAG_FUA, nbd.CMD_FLAG_DF, nbd.CMD_FLAG_NO_HOLE, nbd.CMD_FLAG_REQ_ONE
    random_source = random.Random(23)
    model = Model(size // BLOCK)
    client.trim(size // 2, 0)
    client.trim(size - size // 2, size // 2)
    met = {}
    kinds = ["write", "read", "trim", "zero", "flush"] + (["chunks", "whole", "status"] if structured else [])
    for number in range(1, 3001):
        what = random_source.choice(kinds)
        offset, length = any_range(random_source, size)
        flag = random_source.choice([0, fua])
        is_in_blocks = (offset | length) % BLOCK == 0
        met[what, flag, is_in_blocks] = met.get((what, flag, is_in_blocks), 0) + 1
        where = f"step {number}, {what} of {length} bytes at {offset} with flags {flag}"
        if what == "write":
            data = bytes_of(offset, length, number)
            client.pwrite(data, offset, flag)
            model.put(offset, data)
        elif what == "trim":
            client.trim(length, offset, flag)
            model.trim(offset, length)
        elif what == "zero":
            keeps = random_source.choice([0, no_hole])
            client.zero(length, offset, flag | keeps)
            model.zero(offset, length, ZERO if keeps else HOLE)
        elif what == "flush":
            client.flush(flag)
        elif what == "read":
            if client.pread(length, offset, flag) != model.read(offset, length):
                return f"{where}: other bytes"
        elif what in ("chunks", "whole"):
            whole = what == "whole"
            data, got = chunks_of(client, length, offset, flag | (df if whole else 0))
            if data != model.read(offset, length):
                return f"{where}: other bytes"
            wanted, place = [], offset
            for state, run in model.runs(offset, length, lambda a, b: (a == DATA) == (b == DATA)):
                wanted.append((nbd.READ_DATA if state == DATA else nbd.READ_HOLE, place, run))
                place += run
            if got != ([(nbd.READ_DATA, offset, length)] if whole else wanted):
                return f"{where}: chunks {got}"
        elif what == "status":
            got = status_of(client, length, offset, flag)
            if got != model.runs(offset, length, lambda a, b: a == b):
                return f"{where}: runs {got}"
            got = status_of(client, length, offset, flag | one)
            if got != model.runs(offset, length, lambda a, b: a == b)[:1]:
                return f"{where}: with REQ_ONE runs {got}"
    if len(met) != 4 * len(kinds):
        return f"met {met}"
    for offset in range(0, size, MIB):
        if client.pread(MIB, offset) != model.read(offset, MIB):
            return f"other bytes in the end from byte {offset} on"
    client.shutdown()
    return "ok"


# What is refused.


def refusals(uri):
    nbd = import_nbd()
    client = nbd.NBD()
    client.set_strict_mode(0)
    client.add_meta_context("base:allocation")
    client.connect_uri(uri)
    size = client.get_size()
    trials = [
        ("a WRITE of no byte", errno.EINVAL, lambda: client.pwrite(b"", 0)),
        ("a READ of no byte", errno.EINVAL, lambda: client.pread(0, 0)),
        ("a TRIM of no byte", errno.EINVAL, lambda: client.trim(0, size - 1)),
        ("a WRITE_ZEROES of no byte", errno.EINVAL, lambda: client.zero(0, size)),
        ("a BLOCK_STATUS of no byte", errno.EINVAL, lambda: status_of(client, 0, 5, 0)),
        ("a WRITE that ends a byte past the end", errno.ENOSPC, lambda: client.pwrite(bytes(SECTOR), size - SECTOR + 1)),
        ("a WRITE after the end", errno.ENOSPC, lambda: client.pwrite(b"x", size)),
        ("a WRITE_ZEROES that ends a byte past the end", errno.ENOSPC, lambda: client.zero(2, size - 1)),
        ("a TRIM that ends a byte past the end", errno.EINVAL, lambda: client.trim(BLOCK, size - BLOCK + 1)),
        ("a READ that ends a byte past the end", errno.EINVAL, lambda: client.pread(2, size - 1)),
        ("a BLOCK_STATUS that ends a byte past the end", errno.EINVAL, lambda: status_of(client, 2, size - 1, 0)),
        ("a WRITE of a byte more than 1 MiB", errno.EINVAL, lambda: client.pwrite(bytes(MIB + 1), 0)),
        ("a READ of a byte more than 1 MiB", errno.EINVAL, lambda: client.pread(MIB + 1, 0)),
        ("DF on a WRITE", errno.EINVAL, lambda: client.pwrite(bytes(BLOCK), 0, nbd.CMD_FLAG_DF)),
        ("a CACHE", errno.EINVAL, lambda: client.cache(BLOCK, 0)),
    ]
    for name, wanted, trial in trials:
        try:
            trial()
            return f"{name} was accepted"
        except nbd.Error as error:
            if error.errnum != wanted:
                return f"{name}: {error}"
    # The session goes on.
    client.pwrite(bytes_of(30000, 1000, 1), 30000)
    if client.pread(1000, 30000) != bytes_of(30000, 1000, 1):
        return "other bytes after the refusals"
    client.shutdown()
    for name, prepare in [("another export", lambda it: it.set_export_name("another"))]:
        other = nbd.NBD()
        prepare(other)
        try:
            # (connect_uri would set the name of the export)
            if uri.startswith("nbd+unix"):
                other.connect_unix(uri.partition("socket=")[2])
            else:
                host, _, port = uri.partition("://")[2].strip("/").partition(":")
                other.connect_tcp(host, port)
            return f"{name} was accepted"
        except nbd.Error:
            pass
    return "ok"


def unasked(uri):
    """A client that doesn't ask for block sizes is served within them, also by bytes; a longer request is refused."""
    nbd = import_nbd()
    client = nbd.NBD()
    client.set_request_block_size(False)
    client.set_strict_mode(0)
    client.connect_uri(uri)
    sizes = [client.get_block_size(it) for it in (nbd.SIZE_MINIMUM, nbd.SIZE_PREFERRED, nbd.SIZE_MAXIMUM)]
    if sizes != [0, 0, 0]:
        return f"it was told the sizes {sizes}"
    for offset, length in ((5, 7), (SECTOR, SECTOR), (3 * BLOCK - 1, 2), (1, MIB)):
        data = bytes_of(offset, length, length)
        client.pwrite(data, offset)
        if client.pread(length, offset) != data:
            return f"other bytes of {length} at {offset}"
    try:
        client.pwrite(bytes(MIB + SECTOR), 0)
        return "a WRITE of more than 1 MiB was accepted"
    except nbd.Error as error:
        if error.errnum != errno.EINVAL:
            return f"a WRITE of more than 1 MiB: {error}"
    client.shutdown()
    return "ok"


# Writes, and which of them were confirmed.


class Flood:
    CONNECTIONS, IN_FLIGHT = 4, 8

    def __init__(self, uri, first, count):
        self.nbd = import_nbd()
        self.random_source = random.Random(first + count)
        self.first, self.count = first, count
        self.number = 0
        # By block: the numbers of all writes, of the last one answered, and of the last one confirmed.
        self.sent, self.answered, self.acknowledged = {}, {}, {}
        self.on_their_way = set()
        self.flushing, self.flushes = False, 0
        self.clients = [connected(uri) for _ in range(self.CONNECTIONS)]
        self.counts = [0] * self.CONNECTIONS
        self.is_over = False

    def done(self, index, act):
        def completed(error):
            self.counts[index] -= 1
            if error.value == 0:
                act()
            else:
                self.is_over = True
            return 1
        self.counts[index] += 1
        return completed

    def write(self, index):
        """Writes a block that has no write in flight; about each fifth write has FUA."""
        block = self.first + self.random_source.randrange(self.count)
        if block in self.on_their_way:
            return
        self.number += 1
        number, has_fua = self.number, self.random_source.randrange(5) == 0
        self.sent.setdefault(block, []).append(number)
        self.on_their_way.add(block)

        def act():
            self.on_their_way.discard(block)
            self.answered[block] = number
            if has_fua:
                self.acknowledged[block] = number
        buffer = self.nbd.Buffer.from_bytearray(bytearray(block_of(block, number)))
        flags = self.nbd.CMD_FLAG_FUA if has_fua else 0
        self.clients[index].aio_pwrite(buffer, block * BLOCK, self.done(index, act), flags)

    def flush(self, index):
        """Sends a FLUSH, which confirms what was answered before, on any connection."""
        before = dict(self.answered)
        self.flushing = True

        def act():
            self.flushing = False
            self.flushes += 1
            for block, number in before.items():
                self.acknowledged[block] = max(number, self.acknowledged.get(block, 0))
        self.clients[index].aio_flush(self.done(index, act))

    def step(self):
        poll = select.poll()
        for index, client in enumerate(self.clients):
            while not self.is_over and self.counts[index] < self.IN_FLIGHT:
                if not self.flushing and self.random_source.randrange(16) == 0:
                    self.flush(index)
                else:
                    self.write(index)
            direction = client.aio_get_direction()
            events = (select.POLLIN if direction & self.nbd.AIO_DIRECTION_READ else 0)
            events |= (select.POLLOUT if direction & self.nbd.AIO_DIRECTION_WRITE else 0)
            poll.register(client.aio_get_fd(), events)
        fds = {client.aio_get_fd(): client for client in self.clients}
        for fd, event in poll.poll(10_000):
            client = fds[fd]
            direction = client.aio_get_direction()
            if event & (select.POLLIN | select.POLLHUP | select.POLLERR) and direction & self.nbd.AIO_DIRECTION_READ:
                client.aio_notify_read()
            elif event & (select.POLLOUT | select.POLLERR) and direction & self.nbd.AIO_DIRECTION_WRITE:
                client.aio_notify_write()

    def run(self, pid, flushes):
        is_killed = False
        try:
            while not self.is_over:
                if self.flushes >= flushes and not is_killed:
                    os.kill(pid, signal.SIGKILL)
                    is_killed = True
                self.step()
        except self.nbd.Error:
            pass
        return is_killed


def flood(uri, log, first, count, pid, flushes):
    it = Flood(uri, int(first), int(count))
    is_killed = it.run(int(pid), int(flushes))
    with open(log, "w", encoding="ascii") as file:
        json.dump([[block, numbers, it.acknowledged.get(block, 0)] for block, numbers in it.sent.items()], file)
    return f"ok {it.number} writes, {it.flushes} flushes" if is_killed else f"the server was gone after {it.flushes} flushes"


def verify(uri, log):
    client = connected(uri)
    with open(log, encoding="ascii") as file:
        rows = json.load(file)
    lost, later, wrong = 0, 0, []
    for block, numbers, acknowledged in rows:
        data = client.pread(BLOCK, block * BLOCK)
        number = struct.unpack(">III", data[:12])[1]
        # (a block without a confirmed write may still be a hole)
        is_whole = data == block_of(block, number) if number else data == bytes(BLOCK)
        if not is_whole or number < acknowledged or number not in [0, *numbers]:
            wrong.append(f"block {block} has {number}, {acknowledged} was confirmed, {numbers[-1]} sent")
        later += number > acknowledged
        lost += number < numbers[-1]
    client.shutdown()
    confirmed = sum(1 for row in rows if row[2])
    if wrong or not confirmed:
        return f"{len(wrong)} of {len(rows)} blocks are wrong, {confirmed} have a confirmed write: {wrong[:3]}"
    return f"ok {confirmed} blocks with a confirmed write, {later} have a later one, {lost} lack their last one"


def mixed(image, first, second):
    counts, wrong = [0, 0], []
    with open(image, "rb") as it, open(first, "rb") as a, open(second, "rb") as b:
        block = 0
        while (one := a.read(BLOCK)) and (two := b.read(BLOCK)):
            data = it.read(BLOCK)
            if data not in (one, two):
                wrong.append(block)
            counts[data == two] += 1
            block += 1
    return f"ok {block} blocks" if block and not wrong else f"{len(wrong)} of {block} blocks are of neither: {wrong[:5]}"


def main():
    acts = {act.__name__: act for act in (commands, refusals, unasked, flood, verify, mixed)}
    print(acts[sys.argv[1]](*sys.argv[2:]))


if __name__ == "__main__":
    main()
