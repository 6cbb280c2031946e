#!/usr/bin/env python3
"""How `serve` of the built program NBDJ starts, runs and ends, as an operator sees it: what kills leave, eight clients at once, slow, failing
and hanging devices, `--cache ordered`, limits on what is pending, stops, dead clients, another writer of the image, unreadable sectors,
checkpoints that yield their processor, memory after a load, the log, more clients than workers, slow handshakes, several listeners, sockets from
systemd, a log that nobody reads, a long start, and locks.

usage: tests/operating.py [SCENARIO ..]          (SCENARIO: the name of one of the functions below that `main` lists; by default all)

Prints a line for each check that fails, and last 'N passed, M failed'.
"""
import bisect
import contextlib
import os
import pty
import random
import re
import resource
import select
import signal
import socket
import struct
import subprocess
import sys
import tempfile
import threading
import time
from concurrent.futures import ThreadPoolExecutor

import checks
from checks import (
    BLOCK, BLOCKS, DISC, EIO, FLAGS, FLUSH, FRAMES, FUA, HANDSHAKE, LONG_HANDSHAKE, MIB, NBDJ, READ, TOP, TRIM, WRITE, ZEROES, Server, block_of,
    build_preload, check, connect, format_image, read_address, preload_settings, reply, request, run, run_scenario, serve, take,
)

SECTOR = 512
# The blocks that each of eight clients has for itself, together more than there are frames, and how often it asks for something.
OWN_BLOCKS, OWN_REQUESTS = 160, 500
# The blocks that each of eight clients writes round for round, and how often.
ROUND_BLOCKS, ROUNDS = 16, 20


def write(client, cookie, count, flags=0):
    """Whether a WRITE of `count` bytes, at MIB times its cookie, is answered Ok."""
    client.sendall(request(WRITE, cookie, cookie * MIB, count, flags) + bytes([cookie]) * count)
    return take(client, 16) == reply(cookie)


def recover(server):
    """What a recovery of a server's image prints; the server has ended."""
    return run("recover", server.image)[1].strip()


def kill_and_recover(server):
    server.kill()
    return recover(server)


def read_image(server):
    """The bytes of the image that an ended server has left, read by `pipe`."""
    asked = b"".join(request(READ, place, place * MIB, MIB) for place in range(BLOCKS * BLOCK // MIB))
    read = run("pipe", server.image, given=asked + request(DISC, 0))[1]
    return b"".join(read[place + 16:place + 16 + MIB] for place in range(0, len(read), MIB + 16))


def wait_for_end(server, seconds=20):
    """The status and the standard error of a server that ends by itself; "it goes on" if it doesn't."""
    try:
        return server.process.wait(timeout=seconds), server.process.stderr.read()
    except subprocess.TimeoutExpired:
        return "it goes on", ""


def kills(folder):
    """Writes that no client has flushed, and a kill: after the end of the session, after the interval, and without an interval."""
    with Server(folder, "left", 2, "--flush-interval", "0") as server:
        with server.new_client() as client:
            check("three writes", True, all(write(client, cookie, MIB // 4) for cookie in (0, 1, 2)))
            client.sendall(request(DISC, 9))
            check("the end of the session", b"", take(client, 1))
        check("a kill after the end of a session", "commands 3", kill_and_recover(server))
    with Server(folder, "cut", 2, "--flush-interval", "0") as server:
        with server.new_client() as client:
            check("a write before a connection is cut", True, write(client, 1, MIB // 4))
            client.shutdown(socket.SHUT_RDWR)
        time.sleep(1)
        check("a kill after a connection was cut", "commands 1", kill_and_recover(server))
    for name, words, wait, found in (("interval", ("--flush-interval", "1"), 2.5, 3), ("never", ("--flush-interval", "0"), 2.5, 0), ("usual", (), 2.5, 3),
                                    ("tenths", ("--flush-interval", "0.2"), 0.8, 3)):
        with Server(folder, name, 2, *words) as server, server.new_client() as client:
            # (if a quarter of the frames were dirty, a checkpoint would store the writes)
            check(f"{name}: three writes", True, all(write(client, cookie, MIB // 8) for cookie in (0, 1, 2)))
            time.sleep(wait)
            check(f"{name}: a kill after {wait} seconds", f"commands {found}", kill_and_recover(server))


def keep_writing(client, seconds):
    """Sends one WRITE after another and no FLUSH; how many there were."""
    end = time.monotonic() + seconds
    cookie = 0
    while time.monotonic() < end:
        cookie += 1
        client.sendall(request(WRITE, cookie, BLOCK, BLOCK) + block_of(cookie))
        if take(client, 16) != reply(cookie):
            break
        time.sleep(0.01)
    return cookie


def intervals(folder):
    """The interval counts from the first write, even if the client goes on writing."""
    with Server(folder, "writing", 2, "--flush-interval", "1") as server, server.new_client() as client:
        count = keep_writing(client, 4)
        found = int(kill_and_recover(server).split()[1])
        check("at least a third of four seconds of writes is stored", True, found >= count // 3 or (found, count))


class Sectors:
    """The numbers of the writes of each sector, in order, and which of them were confirmed, by a FLUSH on any connection or by FUA."""

    def __init__(self, count):
        self.sent = [[] for _ in range(count)]
        self.answered, self.acknowledged = [0] * count, [0] * count
        self.lock, self.flushes = threading.Lock(), 0

    @staticmethod
    def bytes_of(sector, number):
        return b"".join(struct.pack(">III", sector, number, place) for place in range(SECTOR // 12 + 1))[:SECTOR]

    def batch(self, client, own, number, source):
        """Sends writes of some sectors at once; False if the server is gone. About one in 30 has FUA."""
        sectors = source.sample(own, source.randrange(1, 9))
        flags = [source.randrange(30) == 0 for _ in sectors]
        asked = b""
        for step, (sector, has_fua) in enumerate(zip(sectors, flags)):
            self.sent[sector].append(number + step)
            asked += request(WRITE, number + step, sector * SECTOR, SECTOR, int(has_fua)) + self.bytes_of(sector, number + step)
        client.sendall(asked)
        for step, (sector, has_fua) in enumerate(zip(sectors, flags)):
            if take(client, 16) != reply(number + step):
                return False
            with self.lock:
                self.answered[sector] = number + step
                if has_fua:
                    self.acknowledged[sector] = number + step
        return True

    def flush(self, client):
        with self.lock:
            before = list(self.answered)
        client.sendall(request(FLUSH, 1))
        if take(client, 16) != reply(1):
            return False
        with self.lock:
            self.acknowledged = [max(pair) for pair in zip(self.acknowledged, before)]
            self.flushes += 1
        return True

    def write(self, client, own, source):
        """Sends batches, and a FLUSH now and then, until the connection ends."""
        number = 1
        try:
            while self.batch(client, own, number, source) and (source.randrange(12) or self.flush(client)):
                number += 8
        except OSError:
            pass


def sectors(folder):
    """Three connections write sectors of 512 bytes for 10 seconds, neighbours in one block, until a kill. Each sector then has one of its
    writes, none older than a confirmed one; and the sectors of each connection are as after some prefix of its writes."""
    count = BLOCKS * BLOCK // SECTOR
    it = Sectors(count)
    # (few enough that most are written again and again, over more blocks than there are frames)
    owned = [range(index, count // 4, 3) for index in range(3)]
    with Server(folder, "sectors", 4) as server:
        clients = [server.new_client() for _ in owned]
        threads = [threading.Thread(target=it.write, args=(client, own, random.Random(own[0]))) for client, own in zip(clients, owned)]
        for thread in threads:
            thread.start()
        time.sleep(10)
        check("sectors: the server lives", None, server.process.poll())
        server.kill()
        for thread in threads:
            thread.join()
        for client in clients:
            client.close()
        check("sectors: the recovery", "commands", recover(server).split()[0])
        image = read_image(server)
    check("sectors: the image that is read", count * SECTOR, len(image))
    found = [struct.unpack(">I", image[sector * SECTOR + 4:sector * SECTOR + 8])[0] for sector in range(count)]
    torn = [sector for sector, number in enumerate(found)
            if image[sector * SECTOR:(sector + 1) * SECTOR] != (it.bytes_of(sector, number) if number else bytes(SECTOR))]
    check("sectors: each has the bytes of one write", [], torn[:9])
    check("sectors: one that was sent", [], [sector for sector, number in enumerate(found) if number not in [0, *it.sent[sector]]][:9])
    check("sectors: none older than what was acknowledged", [], [sector for sector in range(count) if found[sector] < it.acknowledged[sector]][:9])
    for index, own in enumerate(owned):
        last = max(found[sector] for sector in own)
        amiss = [sector for sector in own if found[sector] != max((number for number in it.sent[sector] if number <= last), default=0)]
        check(f"sectors: connection {index} is as after a prefix of its writes", [], amiss[:9])
    writes = sum(len(numbers) for numbers in it.sent)
    check("sectors: there were writes, and flushes", True, writes > 1000 and it.flushes > 9 or (writes, it.flushes))
    print(f"sectors: {writes} writes of {SECTOR} bytes, {it.flushes} flushes", flush=True)


def in_turn(folder):
    """Three connections take turns to write a block, each after the answer to the one before it, until a kill. The image is as after the first
    N writes, where N is what the recovery prints."""
    of_block, number, source, good = [[0] for _ in range(256)], 0, random.Random(9), True
    with Server(folder, "in_turn", 4, "--flush-interval", "1") as server:
        clients = [server.new_client() for _ in range(3)]
        end = time.monotonic() + 2.5
        while good and time.monotonic() < end:
            number += 1
            block = source.randrange(len(of_block))
            of_block[block].append(number)
            client = clients[number % 3]
            client.sendall(request(WRITE, number, block * BLOCK, BLOCK) + block_of(number))
            good = take(client, 16) == reply(number)
        check("in turn: each write is answered", True, good)
        count = int(kill_and_recover(server).split()[1])
        for client in clients:
            client.close()
        image = read_image(server)
    check("in turn: the writes of a second or more are stored", True, number > count // 2 > 50 or (number, count))
    wanted = [max(it for it in numbers if it <= count) for numbers in of_block]
    amiss = [block for block, number in enumerate(wanted) if image[block * BLOCK:(block + 1) * BLOCK] != (block_of(number) if number else bytes(BLOCK))]
    check("in turn: the image is as after a prefix of the writes", [], amiss[:9])
    print(f"in turn: {number} writes, {count} stored", flush=True)


def run_client(server, own, source):
    """Sends requests on a part of the image that one client has for itself, and compares each answer with plain bytes; those bytes at the
    end."""
    first, plain = own * OWN_BLOCKS * BLOCK, bytearray(OWN_BLOCKS * BLOCK)
    with server.new_client() as client:
        for cookie in range(OWN_REQUESTS):
            kind = source.choice([WRITE, WRITE, WRITE, READ, READ, TRIM, ZEROES, FLUSH])
            length = 0 if kind == FLUSH else source.choice([BLOCK, BLOCK, 2 * BLOCK, 8 * BLOCK, source.randrange(1, 3 * BLOCK)])
            place = 0 if kind == FLUSH else source.randrange(len(plain) - length + 1)
            if kind != FLUSH and length % BLOCK == 0:
                place -= place % BLOCK
            data = source.randbytes(length) if kind == WRITE else b""
            client.sendall(request(kind, cookie, 0 if kind == FLUSH else first + place, length) + data)
            if kind == WRITE:
                plain[place:place + length] = data
            elif kind == ZEROES:
                plain[place:place + length] = bytes(length)
            elif kind == TRIM:
                # (a TRIM zeroes whole blocks only)
                inner = range(-(-place // BLOCK) * BLOCK, (place + length) // BLOCK * BLOCK)
                plain[inner.start:max(inner.start, inner.stop)] = bytes(len(inner))
            wanted = reply(cookie) + (plain[place:place + length] if kind == READ else b"")
            found = take(client, len(wanted))
            if found != wanted:
                check(f"{server.name}: request {cookie} of client {own}, kind {kind}, {length} bytes at {place}", wanted[:16].hex(), found[:16].hex() + " and other data")
                break
        client.sendall(request(DISC, 0))
    return bytes(plain)


def eight(folder):
    """Eight clients at once over areas so small that a checkpoint is always running, in both layouts: each reads what it wrote, and what it
    wrote is stored. There is no flush interval, so the flusher has to be called by several FLUSHes that wait."""
    for name, made in (("eight", []), ("eight, layout 2", ["--layout", "2"])):
        image = os.path.join(folder, f"{name}.img")
        area = "4194304" if made else "2097152"
        format_image(image, "--blocks", str(BLOCKS), "--area", area, *made)
        with Server(folder, name, 8, "--sessions", "8", "--flush-interval", "0", made=True) as server:
            with ThreadPoolExecutor(8) as pool:
                images = list(pool.map(lambda own: run_client(server, own, random.Random(own)), range(8)))
            check(f"{name}: the end", (0, ""), wait_for_end(server))
            # Each checkpoint writes two headers, with the next two generations.
            with open(image, "rb") as file:
                slots = file.read(2 * BLOCK)
            generation = max(int.from_bytes(slots[at + 9:at + 17], "big") for at in (0, BLOCK))
            check(f"{name}: ten checkpoints went on", True, generation > 20 or generation)
            found = read_image(server)
            for own, plain in enumerate(images):
                check(f"{name}: what client {own} wrote", True, found[own * len(plain):(own + 1) * len(plain)] == plain)


def is_silent(client):
    """Whether no byte has come for the client."""
    return not select.select([client], [], [], 0)[0]


def slow_syncs(folder, seconds=5):
    """The settings of a server whose device takes this many seconds for each sync."""
    return preload_settings(folder, "slow_sync", SLOW_SYNC_US=str(seconds * 1000000))


def beside(folder):
    """While one client waits for the device, another one is answered. Replies that are due are sent before a FLUSH waits. A FLUSH covers
    what other clients were answered before."""
    with Server(folder, "beside", 2, "--flush-interval", "0", **slow_syncs(folder)) as server, server.new_client(60) as one, server.new_client(60) as other:
        one.sendall(request(WRITE, 1, MIB, BLOCK, FUA) + bytes([1]) * BLOCK)
        time.sleep(0.5)
        check("a write is answered while a sync is held", True, write(other, 2, BLOCK))
        check("a write while a sync is held: it waits", True, is_silent(one))
        check("a write while a sync is held: it is done", reply(1), take(one, 16))
        other.sendall(request(TRIM, 3, 0, BLOCK) + request(FLUSH, 4))
        check("before a flush waits: the reply that is due", reply(3), take(other, 16))
        check("before a flush waits: it waits", True, is_silent(other))
        check("before a flush waits: it is done", reply(4), take(other, 16))
        check("commands of two clients, and a kill", "commands 3", kill_and_recover(server))
    with Server(folder, "covered", 2, "--flush-interval", "0") as server, server.new_client() as one, server.new_client() as other:
        check("sixteen writes", True, all(write(one, cookie, BLOCK) for cookie in range(16)))
        other.sendall(request(FLUSH, 77) + request(READ, 78, 5 * MIB, BLOCK))
        check("another client's flush and read", reply(77) + reply(78) + bytes([5]) * BLOCK, take(other, 32 + BLOCK))
        check("what another client's flush covered, and a kill", "commands 16", kill_and_recover(server))


def unflushed(folder):
    """In ordered a FLUSH makes nothing durable: neither it nor FUA waits for a sync, and a kill loses the writes before it."""
    with Server(folder, "unflushed", 2, "--cache", "ordered", "--flush-interval", "0", **slow_syncs(folder)) as server, server.new_client() as client:
        begun = time.monotonic()
        check("a write in ordered", True, write(client, 1, BLOCK))
        check("a write with FUA in ordered", True, write(client, 2, BLOCK, FUA))
        client.sendall(request(FLUSH, 3) + request(READ, 4, MIB, BLOCK))
        check("a flush in ordered", reply(3) + reply(4) + bytes([1]) * BLOCK, take(client, 32 + BLOCK))
        check("none of them waits for a sync", True, time.monotonic() - begun < 4)
        check("a kill after a flush in ordered", "commands 0", kill_and_recover(server))


def bounded(folder):
    """While each sync takes two seconds: `--loss-bytes` limits what is pending, and with `--loss-seconds` a write waits for an older one."""
    quarter = MIB // 4
    with Server(folder, "bytes", 2, "--cache", "ordered", "--loss-bytes", "2M", "--flush-interval", "0", **slow_syncs(folder, 2)) as server, server.new_client(60) as client:
        for cookie in range(8):
            client.sendall(request(WRITE, cookie, cookie * quarter, quarter) + bytes([cookie]) * quarter)
        check("seven writes of 262,157 bytes each are pending", b"".join(reply(cookie) for cookie in range(7)), take(client, 7 * 16))
        time.sleep(1)
        check("the eighth waits", True, is_silent(client))
        check("the eighth is answered once a group is stored", reply(7), take(client, 16))
        check("a kill then leaves some", True, int(kill_and_recover(server).split()[1]) >= 1)
    with Server(folder, "seconds", 2, "--loss-seconds", "0.5", "--flush-interval", "0", **slow_syncs(folder, 2)) as server, server.new_client(60) as client:
        check("a first write", True, write(client, 1, BLOCK))
        check("a second one at once", True, write(client, 2, BLOCK))
        time.sleep(1)
        client.sendall(request(READ, 9, MIB, BLOCK) + request(WRITE, 3, 3 * MIB, BLOCK) + bytes([3]) * BLOCK)
        check("a read while the first is old", reply(9) + bytes([1]) * BLOCK, take(client, 16 + BLOCK))
        time.sleep(1)
        check("a write waits while the first is old", True, is_silent(client))
        check("it is answered once the first is stored", reply(3), take(client, 16))
        check("a kill then leaves the two", "commands 2", kill_and_recover(server))


class Prefixes:
    """The writes of one client, numbered from 1 on, each of a whole block, and how many of them the READs of others have shown."""

    def __init__(self, count):
        self.of_block = [[0] for _ in range(count)]
        self.sent = self.answered = self.least = self.reads = 0
        self.amiss = []

    def write(self, client, source, end):
        """Sends batches of writes."""
        while time.monotonic() < end:
            numbers = range(self.sent + 1, self.sent + source.randrange(2, 17))
            asked = b""
            for number in numbers:
                block = source.randrange(len(self.of_block))
                self.of_block[block].append(number)
                asked += request(WRITE, number, block * BLOCK, BLOCK) + block_of(number)
            self.sent = numbers[-1]
            client.sendall(asked)
            for number in numbers:
                if take(client, 16) != reply(number):
                    self.amiss.append(f"write {number} isn't answered")
                    return
                self.answered = number

    def read(self, client, first, count):
        """Checks that a READ shows a prefix of the writes: with all that were answered before it or shown by an earlier READ, and no unsent one."""
        answered = self.answered
        client.sendall(request(READ, 7, first * BLOCK, count * BLOCK))
        found = take(client, 16 + count * BLOCK)
        sent = self.sent
        if found[:16] != reply(7):
            self.amiss.append(f"a READ at block {first} isn't answered")
            return
        numbers = [struct.unpack_from(">I", found, 16 + place * BLOCK)[0] for place in range(count)]
        if found[16:] != b"".join(block_of(number) if number else bytes(BLOCK) for number in numbers):
            self.amiss.append(f"a block from {first} on has the bytes of no write")
            return
        # The longest prefix in which no block has a later write than the one found.
        most = sent
        for block, number in enumerate(numbers, first):
            of_block = self.of_block[block]
            place = bisect.bisect_right(of_block, number)
            if of_block[place - 1] != number:
                self.amiss.append(f"block {block} has write {number}, which is of another block")
            most = min(most, of_block[place] - 1 if place < len(of_block) else sent)
        least = max(answered, self.least, *numbers)
        if most < least:
            self.amiss.append(f"block {first}: at most the first {most} writes are shown, but {answered} were answered, {self.least} shown before, and {max(numbers)} is there")
        self.least = max(self.least, *numbers)
        self.reads += 1


def shown(folder):
    """While one client writes more blocks than there are frames, two others take turns to read some of them: neither READ shows a shorter
    prefix than the one before it."""
    it, source = Prefixes(FRAMES * 2), random.Random(7)
    with Server(folder, "shown", 3) as server, server.new_client() as writer, server.new_client() as one, server.new_client() as other:
        end = time.monotonic() + 4
        writes = threading.Thread(target=it.write, args=(writer, random.Random(8), end))
        writes.start()
        while time.monotonic() < end and not it.amiss:
            count = source.choice([1, 3, 16, 64])
            first = source.randrange(len(it.of_block) - count)
            it.read(one, first, count)
            it.read(other, first, count)
        writes.join()
        check("shown: each READ shows a prefix of the writes, none shorter than the one before", [], it.amiss[:9])
        check("shown: there were writes and reads", True, it.sent > 500 and it.reads > 50 or (it.sent, it.reads))
        print(f"shown: {it.sent} writes, {it.reads} reads", flush=True)


def asked_to_end(folder):
    """The server ends when standard input does: with a client that waits, one that reads no reply, and none."""
    for name, flushes in (("waiting", False), ("flushed", True)):
        with Server(folder, name, 2, "--until-eof", "--flush-interval", "0", stdin=subprocess.PIPE) as server, server.new_client() as client:
            check(f"{name}: a write", True, write(client, 1, MIB // 4))
            if flushes:
                client.sendall(request(FLUSH, 2))
                check(f"{name}: a flush", reply(2), take(client, 16))
            server.process.stdin.write("not looked at\n")
            server.process.stdin.flush()
            time.sleep(0.3)
            check(f"{name}: it goes on", None, server.process.poll())
            server.process.stdin.close()
            check(f"{name}: the end of the session", b"", take(client, 1))
            check(f"{name}: the end of the input", (0, ""), wait_for_end(server))
            check(f"{name}: what was answered is stored", "commands 1", recover(server))
    with Server(folder, "deaf-end", 2, "--until-eof", stdin=subprocess.PIPE) as server, server.new_client() as client:
        client.settimeout(2)
        try:
            for cookie in range(200):
                client.sendall(request(READ, cookie, 0, MIB))
        except OSError:
            pass
        begun = time.monotonic()
        server.process.stdin.close()
        check("a client that reads no reply: the end", (0, ""), wait_for_end(server))
        check("a client that reads no reply: at most 9 seconds", True, time.monotonic() - begun < 9 or time.monotonic() - begun)
    with Server(folder, "empty-end", 4, "--until-eof") as server:
        check("an empty input", (0, ""), wait_for_end(server))
    image = os.path.join(folder, "empty-end.img")
    path = os.path.join(folder, "end.sock")
    done = run("serve", image, "--unix", path, "--until-eof", seconds=20)
    check("an empty input at a Unix socket", (0, f"listening {path}\n", "", False), (*done, os.path.exists(path)))


def keep_writing_blocks(client, blocks, answered):
    """Writes one block after another, none flushed, until the connection ends; `answered` gets the last answered write of each."""
    number = 0
    try:
        while True:
            number += 1
            block = blocks[number % len(blocks)]
            client.sendall(request(WRITE, number, block * BLOCK, BLOCK) + block_of(number))
            if take(client, 16) != reply(number):
                return
            answered[block] = number
    except OSError:
        pass


def reset_signals():
    """Resets signals: a shell can't trap one that was ignored when it began, as SIGINT in the background and SIGHUP under nohup."""
    for number in (signal.SIGTERM, signal.SIGINT, signal.SIGHUP):
        signal.signal(number, signal.SIG_DFL)


def managed(folder):
    """nbdj-server is stopped while clients write, as service managers do it, by a signal to the main process or to its group: each answered
    write is stored, and the status is 0."""
    script = os.path.join(TOP, "packaging", "nbdj-server")
    ways = (("terminated", os.kill, signal.SIGTERM), ("interrupted", os.kill, signal.SIGINT), ("hung-up", os.kill, signal.SIGHUP),
            ("group", os.killpg, signal.SIGTERM))
    for name, send, number in ways:
        settings = {"program": (script,), "env": {**os.environ, "NBDJ": NBDJ}, "start_new_session": True, "preexec_fn": reset_signals}
        with Server(folder, name, 4, "--flush-interval", "0", **settings) as server:
            answered = {}
            clients = [server.new_client() for _ in range(3)]
            threads = [threading.Thread(target=keep_writing_blocks, args=(client, range(index * 100, index * 100 + 100), answered)) for index, client in enumerate(clients)]
            for thread in threads:
                thread.start()
            time.sleep(1)
            send(server.process.pid, number)
            check(f"{name}: the end", (0, ""), wait_for_end(server))
            # (otherwise the clients would not end)
            server.process.kill()
            for thread in threads:
                thread.join()
            for client in clients:
                client.close()
            image = read_image(server)
            found = {block: struct.unpack_from(">I", image, block * BLOCK)[0] for block in answered}
            check(f"{name}: what was answered is stored", [], [block for block in answered if found[block] < answered[block]][:9])
            check(f"{name}: there were writes", True, len(answered) > 9 or len(answered))
    with Server(folder, "killed", 4, "--flush-interval", "0", **settings) as server, server.new_client() as client:
        check("killed: a write", True, write(client, 1, BLOCK))
        server.process.kill()
        check("killed: nbdj ends, and stores what was answered", b"", take(client, 1))
        server.process.wait(timeout=60)
        for _ in range(100):
            found = recover(server)
            if found:
                break
            time.sleep(0.1)
        check("killed: what is stored", "commands 1", found)
    done = subprocess.run([script, os.path.join(folder, "none.img"), "--unix", "none.sock"], env=settings["env"], stdin=subprocess.DEVNULL, capture_output=True,
                          text=True, timeout=20)
    check("nbdj-server of a missing image", (1, "nbdj: cannot open"), (done.returncode, done.stderr.splitlines()[-1][:17]))
    statuses = {early_signal(script, os.path.join(folder, "killed.img"), settings["env"], millis) for millis in range(0, 40, 2) for _ in range(4)}
    # (before the shell has read the first lines, the signal ends it)
    check("nbdj-server: a signal to the group right after the start", set(), statuses - {0, -signal.SIGTERM})


def early_signal(script, image, environment, millis):
    """The status of nbdj-server if its group gets a signal this many milliseconds after the start."""
    server = subprocess.Popen([script, image, "--unix", f"{image}.sock"], env=environment, stdin=subprocess.DEVNULL, stdout=subprocess.DEVNULL,
                              stderr=subprocess.DEVNULL, start_new_session=True, preexec_fn=reset_signals)
    time.sleep(millis / 1000)
    os.killpg(server.pid, signal.SIGTERM)
    return server.wait(timeout=20)


def idle(folder):
    """A client that is silent after its handshake is disconnected, and one that sends something in time isn't."""
    with Server(folder, "idle", 1, "--idle-timeout", "2", "--flush-interval", "0") as server:
        with server.new_client() as client:
            for cookie in (1, 2, 3):
                time.sleep(1)
                check("a client that sends something", True, write(client, cookie, BLOCK))
            begun = time.monotonic()
            check("a client that sends nothing more", b"", take(client, 1))
            waited = time.monotonic() - begun
            check("it waited 1.5 to 8 seconds", True, 1.5 < waited < 8 or waited)
        server.goes_on("after an idle client")


def limit_file_size(count=0):
    """The settings of a server that can write this many bytes after the headers, and none after those, as if the disk were full."""

    def limit():
        resource.setrlimit(resource.RLIMIT_FSIZE, (8192 + count, 8192 + count))
        signal.signal(signal.SIGXFSZ, signal.SIG_IGN)

    return {"preexec_fn": limit, "restore_signals": False}


def failing(folder):
    """A device that is full: waiting requests get EIO, and the server ends, or stays with `--on-fault stay`."""
    with Server(folder, "failing", 3, **limit_file_size()) as server, server.new_client() as other, server.new_client() as client:
        check("failing: a write", True, write(client, 1, BLOCK))
        client.sendall(request(FLUSH, 2))
        check("failing: a flush", reply(2, EIO), take(client, 16))
        check("failing: its session ends", b"", take(client, 1))
        check("failing: another session ends", b"", take(other, 1))
        status, errors = wait_for_end(server)
        told = [re.sub(r"write of \d+ bytes at \d+", "write of N bytes at K", line) for line in errors.splitlines()]
        wanted = [f"nbdj: {server.image}: write of N bytes at K: File too large (os error 27)", "nbdj: device fault (1)"]
        check("failing: the end", (1, wanted), (status, told))
        check("failing: the image", "commands 0", recover(server))
    with Server(folder, "staying", 3, "--on-fault", "stay", **limit_file_size()) as server, server.new_client() as client:
        check("staying: a write", True, write(client, 1, BLOCK))
        client.sendall(request(WRITE, 4, 0, BLOCK, FUA) + bytes(BLOCK))
        check("staying: a write with FUA", reply(4, EIO), take(client, 16))
        for cookie in (2, 3):
            client.sendall(request(FLUSH, cookie))
            check("staying: a flush", reply(cookie, EIO), take(client, 16))
        # The order is stopped, so a write fails though it needn't be stored now.
        client.sendall(request(WRITE, 5, 0, BLOCK) + bytes(BLOCK))
        check("staying: a write", reply(5, EIO), take(client, 16))
        check("staying: it lives", None, server.process.poll())
        told = server.read_log(1)
        server.kill()
        told = "".join([*told, server.process.stderr.read()]).splitlines()
        check("staying: it told once", [True], [line.endswith(": File too large (os error 27)") for line in told])


def second_writer(folder):
    """Another process changes the header in force: the server ends before it would change the header, and stores nothing more."""
    with Server(folder, "second writer", 2) as server, server.new_client() as client:
        check("second writer: a write", True, write(client, 1, BLOCK))
        with open(server.image, "r+b") as image:
            # The header that `format` has written stands in slot 0, its generation in bytes 9 to 16.
            image.seek(9)
            image.write((7).to_bytes(8, "big"))
            image.seek(0)
            left = image.read(2 * BLOCK)
        try:
            # Long before 8 MiB are stored, the first area, of 2 MiB, is full, and the header has to change.
            goes_on = all(write(client, 1 + number % 4, MIB // 4, FUA) for number in range(32))
        except ConnectionError:
            goes_on = False
        check("second writer: all writes are stored", False, goes_on)
        told = f"nbdj: {server.image}: the header isn't the one this process wrote last: something else has written to this image"
        check("second writer: the end", (1, [told, "nbdj: device fault (1)"]), (lambda it: (it[0], it[1].splitlines()))(wait_for_end(server)))
        with open(server.image, "rb") as image:
            check("second writer: the headers stay", True, image.read(2 * BLOCK) == left)


def write_rounds(client, own):
    """Writes the blocks of one client in rounds, each with a FLUSH, until one isn't confirmed; how many were."""
    first = own * ROUND_BLOCKS
    for number in range(1, ROUNDS + 1):
        data = bytes([own * (ROUNDS + 1) + number]) * BLOCK
        try:
            for asked in [*(request(WRITE, 1, block * BLOCK, BLOCK) + data for block in range(first, first + ROUND_BLOCKS)), request(FLUSH, 1)]:
                client.sendall(asked)
                if take(client, 16) != reply(1):
                    return number - 1
        except ConnectionError:
            return number - 1
    return ROUNDS


def failing_amid_eight(folder):
    """A device fails while eight clients write: each is answered or disconnected, the server ends, and what a FLUSH confirmed is there."""
    for room in (100_000, 700_000, 1_500_000):
        with Server(folder, f"failing after {room}", 8, **limit_file_size(room)) as server:
            with contextlib.ExitStack() as stack, ThreadPoolExecutor(8) as pool:
                clients = [stack.enter_context(server.new_client()) for _ in range(8)]
                confirmed = list(pool.map(write_rounds, clients, range(8)))
            status, errors = wait_for_end(server)
            check(f"{server.name}: the end", (1, True), (status, errors.endswith("nbdj: device fault (1)\n") or errors))
            check(f"{server.name}: some rounds aren't confirmed", True, sum(confirmed) < 8 * ROUNDS)
            number = int(recover(server).split()[1])
            check(f"{server.name}: commands", True, number >= sum(confirmed) * ROUND_BLOCKS or (number, confirmed))
            found = read_image(server)
            for own, least in enumerate(confirmed):
                for block in range(own * ROUND_BLOCKS, (own + 1) * ROUND_BLOCKS):
                    data = found[block * BLOCK:(block + 1) * BLOCK]
                    number = data[0] - own * (ROUNDS + 1) if data[0] else 0
                    if not least <= number <= ROUNDS or data != data[:1] * BLOCK:
                        check(f"{server.name}: block {block}", f"a round from {least} on", number)


def gathered(folder):
    """Two clients whose groups are stored together, and then one of them alone: its groups don't wait for the other client forever."""

    def flushes(client, own, times):
        for number in range(times):
            client.sendall(request(WRITE, 2 * number, own * BLOCK, BLOCK) + bytes([number + 1]) * BLOCK + request(FLUSH, 2 * number + 1, 0, 0))
            if take(client, 32) != reply(2 * number) + reply(2 * number + 1):
                return number
        return times

    with Server(folder, "gathered", 2, **preload_settings(folder, "slow_sync", SLOW_SYNC_US="4000")) as server, server.new_client() as one, server.new_client() as other:
        with ThreadPoolExecutor(2) as pool:
            together = list(pool.map(lambda it: flushes(*it), [(one, 0, 6), (other, 1, 6)]))
        check("gathered: both", [6, 6], together)
        check("gathered: one alone", 12, flushes(one, 0, 12))


def unreadable(folder):
    """A sector that can't be read: a READ of it, and a WRITE of part of its block, get EIO, and no other request notices."""
    bad, lines = 9, []
    with Server(folder, "unreadable", 3) as server, server.new_client() as client:
        client.sendall(request(WRITE, 1, 0, 16 * BLOCK) + bytes([1]) * 16 * BLOCK + request(DISC, 2))
        check("unreadable: a write", reply(1), take(client, 16))
        check("unreadable: the end of the session", b"", take(client, 1))
        # (the next start copies it into the image)
        check("unreadable: a kill", "commands 1", kill_and_recover(server))
    with open(server.image, "rb") as file:
        data = file.read().rindex(bytes([1]) * 16 * BLOCK)
    place = data + bad * BLOCK + 700
    settings = preload_settings(folder, "fail_calls", BAD_BYTE=str(place))
    with Server(folder, "unreadable", 3, made=True, **settings) as server, server.new_client() as one, server.new_client() as other:
        answers = []
        for number in range(1, 501):
            one.sendall(request(WRITE, number, (100 + number) * BLOCK, BLOCK) + block_of(number))
            answers.append(take(one, 16))
        check("unreadable: the blocks that one client writes", [reply(number) for number in range(1, 501)], answers)
        for cookie in (1, 2):
            other.sendall(request(READ, cookie, bad * BLOCK, BLOCK))
            check("unreadable: a read of the sector", reply(cookie, EIO), take(other, 16))
        other.sendall(request(READ, 3, (bad + 1) * BLOCK, BLOCK))
        check("unreadable: a read of the next block", reply(3) + bytes([1]) * BLOCK, take(other, 16 + BLOCK))
        other.sendall(request(WRITE, 4, bad * BLOCK, SECTOR) + bytes(SECTOR))
        check("unreadable: a write of a part of the block", reply(4, EIO), take(other, 16))
        other.sendall(request(WRITE, 5, (bad + 2) * BLOCK, SECTOR) + bytes([5]) * SECTOR)
        check("unreadable: a write of a part of another block", reply(5), take(other, 16))
        one.sendall(request(FLUSH, 501))
        check("unreadable: a flush of the one client", reply(501), take(one, 16))
        other.sendall(request(WRITE, 6, bad * BLOCK, BLOCK) + block_of(6))
        check("unreadable: a write of the whole block", reply(6), take(other, 16))
        other.sendall(request(READ, 7, bad * BLOCK, BLOCK))
        check("unreadable: a read of what was written", reply(7) + block_of(6), take(other, 16 + BLOCK))
        check("unreadable: it lives", None, server.process.poll())
        # (a thread of its own writes the log: a kill could come before it does)
        lines = server.read_log(1)
        server.kill()
        lines = "".join([*lines, server.process.stderr.read()]).splitlines()
    check("unreadable: it is told once", [f"nbdj: {server.image}: read of {BLOCK} bytes at {place - 700}: Input/output error (os error 5)"], lines)
    recover(server)
    image = read_image(server)
    amiss = [number for number in range(1, 501) if image[(100 + number) * BLOCK:(101 + number) * BLOCK] != block_of(number)]
    check("unreadable: what was flushed is there", [], amiss[:9])


def yielding(folder):
    """The checkpointer yields after each step if a FLUSH waits or waited for the last group; not if none did, nor while writers are slowed down or
    the journal is full. A step copies at most 4 blocks that lie apart, or 16 once half of the frames are dirty."""
    few, many, most = FRAMES * 3 // 8, FRAMES * 5 // 8, FRAMES * 15 // 16
    # (while the first group is stored, which takes so long, all is written; and a quarter of the frames is dirty, so a checkpoint begins)
    slow_syncs, slow_writes = {"SLOW_SYNC_US": "400000"}, {"SLOW_WRITE_US": "2000"}
    for name, slow, apart, repeats, flush_after, longest in (
        ("yielding", slow_syncs, few, 1, few, range(4, 5)), ("yielding half dirty", slow_syncs, many, 1, many, range(16, 17)),
        ("yielding to nobody", slow_syncs, few, 1, FRAMES, range(17, FRAMES)), ("yielding though slowed", slow_syncs, most, 1, most, range(17, FRAMES)),
        ("yielding though full", slow_writes, few, 16, few // 4, range(17, FRAMES)),
    ):
        log, copied = os.path.join(folder, f"{name}.calls"), []
        settings = preload_settings(folder, "fail_calls", CALLS_LOG=log, **slow)
        settings["env"]["LD_PRELOAD"] += f":{build_preload(folder, 'slow_sync')}"
        # (only the last row fills half of an area)
        area = 2097152 if repeats > 1 else 8388608
        format_image(os.path.join(folder, f"{name}.img"), "--blocks", str(BLOCKS), "--area", str(area))
        with Server(folder, name, 1, made=True, **settings) as server, server.new_client() as client:
            sent = []
            for number in range(1, apart * repeats + 1):
                sent.append(request(WRITE, len(sent), 2 * (number % apart) * BLOCK, BLOCK) + block_of(number))
                if number % flush_after == 0:
                    sent.append(request(FLUSH, len(sent)))
            threading.Thread(target=client.sendall, args=(b"".join(sent),)).start()
            check(f"{name}: answers", b"".join(map(reply, range(len(sent)))), take(client, 16 * len(sent)))
            end = time.monotonic() + 20
            while sum(copied) < FRAMES // 4 and time.monotonic() < end:
                time.sleep(0.05)
                # (what is advised of groups lies in the two areas, before the data)
                advised = [re.findall(rb"posix_fadvise (\d+)", calls) for calls in read_file(log).split(b"sched_yield")]
                copied = [sum(int(place) > 8192 + 2 * area for place in places) for places in advised]
        check(f"{name}: blocks are copied", True, FRAMES // 4 <= sum(copied))
        check(f"{name}: the most blocks between two yields", True, max(copied) in longest or max(copied))


def kept(folder):
    """Memory that was in use for groups and for the data of WRITEs and READs goes back to the system within seconds after a load."""
    count, turns, short = 8, 12, 128
    with Server(folder, "kept", count) as server:
        def load(number):
            begin = number * 2 * MIB
            sent = [request(WRITE, 1, begin, MIB) + bytes([number]) * MIB, request(READ, 2, begin, MIB), request(READ, 3, begin + MIB, MIB)]
            sent += [request(WRITE, 4, begin + MIB + at * BLOCK, BLOCK) + block_of(at) for at in range(short)]
            sent = b"".join([*sent, request(FLUSH, 5)])
            with server.new_client() as client:
                for _ in range(turns):
                    threading.Thread(target=client.sendall, args=(sent,)).start()
                    check(f"kept: answers to client {number}", reply(5), take(client, (4 + short) * 16 + 2 * MIB)[-16:])
        clients = [threading.Thread(target=load, args=(number,)) for number in range(count)]
        for client in clients:
            client.start()
        for client in clients:
            client.join()
        server.watch()
        # Beside the frames: 3 MiB for the program, and 16 for what the C library keeps.
        bound, end = FRAMES * BLOCK + 19 * MIB, time.monotonic() + 30
        while server.resident() > bound and time.monotonic() < end:
            time.sleep(0.5)
        check("kept: memory after a load", True, server.resident() <= bound or (server.most, server.resident()))


def told(folder):
    """What the log has of two clients that come one after the other."""
    with Server(folder, "told", 1, "--verbose") as server:
        with server.new_client() as client:
            check("told: a write", True, write(client, 1, 2 * BLOCK))
            client.sendall(request(READ, 2, 0, BLOCK))
            check("told: a read", reply(2), take(client, 16 + BLOCK)[:16])
            client.sendall(request(DISC, 3))
            check("told: the end of the first session", b"", take(client, 1))
        # (the log has at most one line of a kind in a second)
        time.sleep(1.2)
        with server.connect() as client:
            client.sendall(LONG_HANDSHAKE + request(FLUSH, 1))
            check("told: a greeting", 18, len(take(client, 18)))
            client.shutdown(socket.SHUT_WR)
            while client.recv(MIB):
                pass
        lines = server.read_log(8)
        server.kill()
        lines = "".join([*lines, server.process.stderr.read()]).splitlines()
        lines = [re.sub(r"\d+\.\d+ s$", "T s", re.sub(r"127\.0\.0\.1:\d+", "A", line)) for line in lines]
        lines = [re.sub(r"nbdj [0-9.]+ serves", "nbdj V serves", line) for line in lines]
        check("what is told", [f"nbdj: {server.image}: {line}" for line in (
            f"nbdj V serves {server.image} as '': {BLOCKS * BLOCK} bytes in layout 1, writeback, 1 workers, 1 in flight, at most 67108864 bytes pending",
            "recovered 0 commands in T s",
            "client 1 came from A",
            "client 1 agreed on simple replies",
            "client 1 left after 2 requests, 4096 bytes read and 8192 written",
            "client 2 came from A",
            "client 2 agreed on structured replies and base:allocation",
            "client 2 was gone, or its session ended from here, after 1 requests, 0 bytes read and 0 written",
        )], lines)


def refused_when_full(folder):
    """With `--when-full refuse` a client is disconnected before any byte while all workers are busy, and served once one is free."""
    with Server(folder, "refusing", 1, "--when-full", "refuse") as server:
        for _ in range(2):
            with server.new_client() as client:
                for _ in range(3):
                    with server.connect(5) as other:
                        check("refusing: one client too many", b"", take(other, 1))
                check("refusing: the client that is served", True, write(client, 1, BLOCK))
                client.sendall(request(DISC, 9))
                check("refusing: the end of its session", b"", take(client, 1))
        lines = server.read_log(1)
        server.kill()
        lines = "".join([*lines, server.process.stderr.read()]).splitlines()
    check("refusing: the log, once a minute", [f"nbdj: {server.image}: all 1 workers have a client, and further ones are refused"], lines)


def is_open(client):
    """Whether a connection is still open; no reply is due on it."""
    client.setblocking(False)
    try:
        return client.recv(1) != b""
    except BlockingIOError:
        return True


def silent_handshakes(folder):
    """A client that doesn't finish its handshake loses its worker after a second if another client waits, and otherwise keeps it."""
    for way, words in (("wait", ()), ("refuse", ("--when-full", "refuse"))):
        with Server(folder, f"unshaken-{way}", 2, *words) as server:
            silent = [server.connect() for _ in range(2)]
            check(f"{way}: both are greeted", [18, 18], [len(take(client, 18)) for client in silent])
            if way == "refuse":
                with server.connect(5) as early:
                    check("refuse: a client within the second", b"", take(early, 1))
                time.sleep(1.2)
            # (without the rule it would be 30 seconds)
            with server.new_client(15) as client:
                check(f"{way}: a client while others are silent", True, write(client, 1, BLOCK))
                check(f"{way}: one of them gave up its worker", [False, True], sorted(map(is_open, silent)))
                client.sendall(request(DISC, 9))
                check(f"{way}: the end of its session", b"", take(client, 1))
            server.goes_on(f"{way}: silent handshakes")
    with Server(folder, "unhurried", 1) as server, server.connect() as client:
        client.sendall(FLAGS)
        time.sleep(2.5)
        client.sendall(HANDSHAKE[len(FLAGS):])
        check("unhurried: a slow handshake while no other client waits", 104, len(take(client, 104)))
        check("unhurried: a write", True, write(client, 1, BLOCK))


def is_served(client):
    """Whether a client on this connection is greeted and served; otherwise what it got."""
    with client:
        client.settimeout(20)
        client.sendall(HANDSHAKE + request(FLUSH, 7) + request(DISC, 8))
        found = take(client, 18 + 32 + 34 + 20 + 16 + 1)
        return (found[:8], found[104:]) == (b"NBDMAGIC", reply(7)) or found


def many_listeners(folder):
    """Several addresses and sockets at once: a line for each, clients at each, and the files are gone at the end."""
    image, paths = os.path.join(folder, "many.img"), [os.path.join(folder, name) for name in ("one.sock", "two.sock")]
    format_image(image, "--size", "16M")
    words = ["--unix", paths[0], "--listen", "127.0.0.1:0", "--unix", paths[1], "--listen", "127.0.0.1:0", "--unix-mode", "0600"]
    with serve(image, *words, "--until-eof", stdin=subprocess.PIPE, stderr=subprocess.PIPE) as server:
        said = [read_address(server) for _ in range(4)]
        check("many: the lines, addresses first", (True, paths), (all(said), said[2:]))
        for _ in range(2):
            for port in map(int, said[:2]):
                check("many: a client of an address", True, is_served(socket.create_connection(("127.0.0.1", port))))
            for path in paths:
                check("many: a client of a socket", True, is_served(connect(path)))
        check("many: the modes", ["0o600", "0o600"], [oct(os.stat(path).st_mode & 0o777) for path in paths])
        server.stdin.close()
        check("many: the end", (0, ""), (server.wait(timeout=20), server.stderr.read()))
        check("many: the files are gone", [False, False], [os.path.exists(path) for path in paths])
    words = ["--listen", "127.0.0.1:0", "--unix", paths[0], "--unix", os.path.join(folder, "none", "three.sock")]
    done = run("serve", image, *words, seconds=20)
    check("many: one that can't be made", (1, "", f"nbdj: {words[-1]}: No such file or directory (os error 2)\nnbdj: stream fault (21)\n", False),
          (*done, os.path.exists(paths[0])))


def start_with(sockets, *words, program=(NBDJ, "serve"), environment=None):
    """Starts a server with listening sockets at the descriptors from 3 on, as systemd does."""
    def place():
        reset_signals()
        copies = [os.dup(it.fileno()) for it in sockets]
        for at, copy in enumerate(copies):
            os.dup2(copy, 3 + at)

    script = 'LISTEN_PID=$$ LISTEN_FDS=$0 exec "$@"'
    return subprocess.Popen(["sh", "-c", script, str(len(sockets)), *program, *words], stdin=subprocess.PIPE, stdout=subprocess.PIPE, stderr=subprocess.PIPE,
                            text=True, close_fds=False, preexec_fn=place, env=environment)


def activated(folder):
    """Sockets that the server is started with: clients that come before the start, or during a restart, are served too."""
    image, path = os.path.join(folder, "activated.img"), os.path.join(folder, "activated.sock")
    format_image(image, "--size", "16M")
    with socket.create_server(("127.0.0.1", 0)) as tcp, socket.socket(socket.AF_UNIX) as unix:
        unix.bind(path)
        unix.listen()
        port = tcp.getsockname()[1]
        # (systemd's own sockets don't block)
        tcp.setblocking(False)
        for turn in range(2):
            early = [socket.create_connection(("127.0.0.1", port)), connect(path)]
            with start_with([tcp, unix], image, "--until-eof") as server:
                check(f"activated {turn}: early clients", [True, True], [is_served(client) for client in early])
                check(f"activated {turn}: later clients", [True, True], [is_served(socket.create_connection(("127.0.0.1", port))), is_served(connect(path))])
                server.stdin.close()
                check(f"activated {turn}: the end", (0, "", ""), (server.wait(timeout=20), server.stdout.read(), server.stderr.read()))
            check(f"activated {turn}: the socket's file stays", True, os.path.exists(path))
        with start_with([tcp], image, "--until-eof", "--export-name", "disk", "--fresh-name") as server:
            told = server.stderr.readline()
            check("activated: a fresh name is told on standard error", f"nbdj: {image}: export disk-", re.sub(r"\d+\n$", "", told))
            server.stdin.close()
            check("activated: its end", (0, ""), (server.wait(timeout=20), server.stdout.read()))
        script, environment = os.path.join(TOP, "packaging", "nbdj-server"), {**os.environ, "NBDJ": NBDJ}
        with start_with([tcp], image, program=(script,), environment=environment) as server:
            check("activated, by nbdj-server: a client", True, is_served(socket.create_connection(("127.0.0.1", port))))
            server.terminate()
            check("activated, by nbdj-server: the end", (0, ""), (server.wait(timeout=20), server.stderr.read()))
        for words in (("--listen", "127.0.0.1:0"), ("--unix", f"{path}.other")):
            with start_with([tcp], image, *words) as server:
                said = server.communicate(timeout=20)
                check(f"activated: {words[0]} is refused", (2, "", "error: --listen and --unix can't be used with the sockets of LISTEN_FDS"),
                      (server.returncode, said[0], said[1].splitlines()[0]))
        status, _, errors = run("serve", image, env={**os.environ, "LISTEN_PID": "1", "LISTEN_FDS": "1"}, seconds=20)
        check("activated: sockets for another process", (2, "error: one of --listen <ADDR> and --unix <SOCKET> is wanted"), (status, errors.splitlines()[0]))
    with open(image, "rb") as file, start_with([file], image) as server:
        said = server.communicate(timeout=20)
        check("activated: a descriptor that is no socket", (1, ["nbdj: LISTEN_FDS: Socket operation on non-socket (os error 88)", "nbdj: stream fault (21)"]),
              (server.returncode, said[1].splitlines()))


def crowded(folder):
    """More clients than the server may open files for: the log says so."""
    few = {"preexec_fn": lambda: resource.setrlimit(resource.RLIMIT_NOFILE, (9, 9)), "restore_signals": False}
    with Server(folder, "crowded", 8, **few) as server:
        clients = [server.connect() for _ in range(8)]
        warning, line = server.read_log(2)
        for client in clients:
            client.close()
        check("crowded: the log warns of it", True, "file descriptors are free" in warning)
        check("crowded: the log", f"nbdj: {server.image}: a client can't be accepted: Too many open files (os error 24)\n", line)
        server.goes_on("after a crowd")


def full_pipe():
    """A full pipe: the end that nobody reads, and the end to write to."""
    silent, full = os.pipe()
    os.set_blocking(full, False)
    try:
        while True:
            os.write(full, bytes(4096))
    except BlockingIOError:
        os.set_blocking(full, True)
    return silent, full


def unheard(folder):
    """The log goes into a full pipe: clients are still served, and the server still ends, also after a device fault."""
    silent, full = full_pipe()
    with Server(folder, "unheard", 2, "--verbose", "--until-eof", stdin=subprocess.PIPE, stderr=full) as server:
        for _ in range(3):
            with server.new_client(5) as client:
                check("unheard: a write", True, write(client, 1, 2 * BLOCK))
                client.sendall(request(FLUSH, 2))
                check("unheard: a flush", reply(2), take(client, 16))
                client.sendall(request(DISC, 3))
                check("unheard: the end of the session", b"", take(client, 1))
        server.process.stdin.close()
        check("unheard: the end", 0, server.process.wait(timeout=20))
    with Server(folder, "unheard fault", 2, stderr=full, **limit_file_size()) as server, server.new_client(5) as client:
        check("unheard fault: a write", True, write(client, 1, BLOCK))
        client.sendall(request(FLUSH, 2))
        check("unheard fault: a flush", reply(2, EIO), take(client, 16))
        check("unheard fault: the end of the session", b"", take(client, 1))
        check("unheard fault: the end", 1, server.process.wait(timeout=20))
    os.close(silent)
    os.close(full)


def copied(folder):
    """The log has a line of a checkpoint, which begins because the write takes a quarter of the frames."""
    with Server(folder, "copied", 1, "--verbose") as server:
        with server.new_client() as client:
            check("copied: a write", True, write(client, 0, MIB // 2))
            client.sendall(request(FLUSH, 9))
            check("copied: a flush", reply(9), take(client, 16))
            late = threading.Timer(20, server.process.kill)
            late.start()
            line = next((it for it in server.process.stderr if "checkpoint" in it), "")
            late.cancel()
        check("copied: the log", f"nbdj: {server.image}: checkpoint of 128 blocks in T s\n", re.sub(r"\d+\.\d{3} s$", "T s", line, flags=re.M))


def long_opening(folder):
    """An opening that takes six seconds shows its progress, in lines or as a bar on a terminal; a short one shows none."""
    with Server(folder, "long", 1, "--flush-interval", "0") as server, server.new_client() as client:
        # Less than a quarter of the frames, so no checkpoint begins; copied in 13 pieces of 32 KiB.
        check("long: a write", True, write(client, 1, 100 * BLOCK))
        client.sendall(request(FLUSH, 9))
        check("long: a flush", reply(9), take(client, 16))
        server.kill()
    slowly = preload_settings(folder, "slow_sync", SLOW_WRITE_US="500000")
    with open(server.image, "rb") as file:
        image = file.read()

    def recover(**settings):
        with open(server.image, "wb") as file:
            file.write(image)
        return subprocess.run([NBDJ, "recover", server.image], stdout=subprocess.PIPE, text=True, timeout=60, **settings)

    found = recover(stderr=subprocess.PIPE)
    check("long: a short one", ("commands 1\n", ""), (found.stdout, found.stderr))
    found = recover(stderr=subprocess.PIPE, **slowly)
    check("long: the commands", "commands 1\n", found.stdout)
    check("long: a line", ["nbdj: 0 of at most N MiB copied, 0 MiB/s"], [re.sub(r"most [12] MiB", "most N MiB", it) for it in found.stderr.splitlines()])
    reader, terminal = pty.openpty()
    with contextlib.closing(open(reader, "rb", buffering=0)) as shown:
        check("long: on a terminal", "commands 1\n", recover(stderr=terminal, **slowly).stdout)
        os.close(terminal)
        told = b""
        with contextlib.suppress(OSError):
            while piece := shown.read(65536):
                told += piece
    bars = told.decode().split("\r")
    check("long: many bars", True, len(bars) > 5)
    check("long: a bar", True, all(re.fullmatch(r"(nbdj: \[#*\.*\] \d of at most \d MiB copied, 0 MiB/s(, at most \d+ s left)? )?\n?", it) for it in bars))
    check("long: the last one", ["nbdj: [" + "#" * 30 + "] 1 of at most 1 MiB copied, 0 MiB/s, at most 0 s left ", "\n"], bars[-2:])


def put_and_flush(server, client, cookie):
    """Writes a block at MIB times the cookie, and flushes."""
    check(f"{server.name}: a write", True, write(client, cookie, BLOCK))
    client.sendall(request(FLUSH, cookie))
    check(f"{server.name}: a flush", reply(cookie), take(client, 16))


def start_waiting(image, *words, **settings):
    """Starts a command that waits for the lock of an image."""
    return subprocess.Popen([NBDJ, *words[:1], image, "--wait-lock", *words[1:]], stdout=subprocess.PIPE, stderr=subprocess.PIPE, text=True, **settings)


def waiting(folder):
    """`--wait-lock`: a command waits while another process has the lock, says so once, and then finds what that one has left."""
    refused = []
    with Server(folder, "locked", 1) as server, server.new_client() as client:
        said = f"nbdj: {server.image}: another process has locked it; waiting for it\n"
        put_and_flush(server, client, 1)
        for command in (["recover", server.image], ["upgrade", server.image], ["serve", server.image, "--listen", "127.0.0.1:0"]):
            status, output, errors = run(*command)
            refused.append((status, output, errors.splitlines()[-1:]))
        check("locked: without --wait-lock", [(4, "", [f"nbdj: {server.image} is in use"])] * 3, refused)
        asked = start_waiting(server.image, "serve", "--listen", "127.0.0.1:0", "--until-eof", stdin=subprocess.PIPE)
        waits = start_waiting(server.image, "recover")
        time.sleep(1.3)
        check("locked: they wait", (None, None), (asked.poll(), waits.poll()))
        check("locked: a stop while it waits", ("", said), asked.communicate(timeout=20))
        check("locked: its status", 0, asked.returncode)
        put_and_flush(server, client, 2)
        server.process.kill()
        check("locked: what is found once the lock is free", ("commands 2\n", said), waits.communicate(timeout=20))
        check("locked: the status then", 0, waits.returncode)
    with Server(folder, "locked", 1, made=True) as server:
        waits = start_waiting(server.image, "serve", "--listen", "127.0.0.1:0")
        check("locked: what a server says", said, waits.stderr.readline())
        server.process.kill()
        check("locked: it serves then", True, read_address(waits) != "")
        upgrades = start_waiting(server.image, "upgrade")
        check("locked: what an upgrade says", said, upgrades.stderr.readline())
        waits.kill()
        waits.communicate(timeout=20)
        check("locked: it upgrades then", ("area too small (22)", 1), (upgrades.communicate(timeout=20)[1].strip().removeprefix("nbdj: "), upgrades.returncode))
    check("locked: no wait for a missing file", 1, run("recover", os.path.join(folder, "nothing.img"), "--wait-lock", seconds=20)[0])


@contextlib.contextmanager
def serve_hampered(folder, name, *words, made=False, **settings):
    """A server whose device hangs once the file NAME.stuck is there, and whose lock is lost once NAME.lost is; and a function that makes one."""

    def make(what):
        with open(os.path.join(folder, f"{name}.{what}"), "wb"):
            pass

    places = {"STUCK": os.path.join(folder, f"{name}.stuck"), "LOST": os.path.join(folder, f"{name}.lost")}
    with Server(folder, name, 2, *words, made=made, **preload_settings(folder, "stuck_calls", **places), **settings) as server:
        yield server, make
    for place in places.values():
        if os.path.exists(place):
            os.remove(place)


def read_file(path):
    with open(path, "rb") as file:
        return file.read()


def late(folder):
    """`--device-timeout`: a device call that hangs ends the server, which stores nothing more and disconnects its clients."""
    limit = ("--device-timeout", "2")
    with serve_hampered(folder, "late", *limit, "--flush-interval", "0") as (server, make), server.new_client() as other, server.new_client() as client:
        told = [f"nbdj: {server.image}: a call of the device has taken longer than 2.000 s", "nbdj: device fault (1)"]
        put_and_flush(server, client, 1)
        check("late: a write that isn't flushed", True, write(client, 2, BLOCK))
        make("stuck")
        before, begun = read_file(server.image), time.monotonic()
        client.sendall(request(FLUSH, 3))
        check("late: the flush has no answer", b"", take(client, 16))
        check("late: another session ends", b"", take(other, 1))
        status, errors = wait_for_end(server)
        check("late: the end", (1, told), (status, errors.splitlines()))
        check("late: it came in time", True, 2 <= time.monotonic() - begun < 15 or time.monotonic() - begun)
        check("late: nothing more was stored", True, before == read_file(server.image))
    check("late: what was confirmed is there", "commands 1", recover(server))
    # A read without locks, of a block that isn't in memory.
    with serve_hampered(folder, "late", *limit, made=True) as (server, make), server.new_client() as client:
        make("stuck")
        client.sendall(request(READ, 1, MIB, BLOCK))
        check("late: a read has no answer", b"", take(client, 16))
        check("late: the end by a read", (1, "\n".join(told) + "\n"), wait_for_end(server))
    # An opening that hangs, while standard error is a full pipe.
    silent, full = full_pipe()
    stuck = os.path.join(folder, "late.stuck")
    with open(stuck, "wb"):
        pass
    opening = serve(server.image, "--listen", "127.0.0.1:0", *limit, stderr=full, **preload_settings(folder, "stuck_calls", STUCK=stuck))
    try:
        check("late: an opening", ("", 1), (opening.communicate(timeout=20)[0], opening.returncode))
    finally:
        opening.kill()
        opening.wait()
        os.remove(stuck)
        os.close(silent)
        os.close(full)
    # Slow calls within the limit.
    settings = preload_settings(folder, "slow_sync", SLOW_SYNC_US="50000")
    with Server(folder, "slow and in time", 1, "--device-timeout", "10", "--lock-check", "0.01", **settings) as server, server.new_client() as client:
        for cookie in range(1, 6):
            put_and_flush(server, client, cookie)
        check("slow and in time: a kill", "commands 5", kill_and_recover(server))


def shut_out(folder):
    """`--lock-check`: a lost lock or a failed sync is a device fault, even while no client asks for anything."""
    with serve_hampered(folder, "shut out", "--lock-check", "0.2") as (server, make), server.new_client() as client:
        put_and_flush(server, client, 1)
        check("shut out: a write that isn't flushed", True, write(client, 2, BLOCK))
        time.sleep(0.5)
        client.sendall(request(READ, 3, MIB, BLOCK))
        check("shut out: a read before", reply(3), take(client, 16 + BLOCK)[:16])
        make("lost")
        check("shut out: its session ends", b"", take(client, 1))
        wanted = [f"nbdj: {server.image}: lock check: File descriptor in bad state (os error 77)", "nbdj: device fault (1)"]
        status, errors = wait_for_end(server)
        check("shut out: the end", (1, wanted), (status, errors.splitlines()))
    with serve_hampered(folder, "shut out and staying", "--lock-check", "0.2", "--on-fault", "stay") as (server, make), server.new_client() as client:
        put_and_flush(server, client, 1)
        make("lost")
        errors = server.process.stderr.readline()
        check("shut out and staying: the log", f"nbdj: {server.image}: lock check: File descriptor in bad state (os error 77)\n", errors)
        for asked in (request(READ, 2, MIB, BLOCK), request(WRITE, 2, 0, BLOCK) + bytes(BLOCK), request(FLUSH, 2)):
            client.sendall(asked)
            check("shut out and staying: it no longer answers from memory", reply(2, EIO), take(client, 16))
        check("shut out and staying: it lives", None, server.process.poll())
    with serve_hampered(folder, "unchecked") as (server, make), server.new_client() as client:
        put_and_flush(server, client, 1)
        make("lost")
        time.sleep(0.5)
        put_and_flush(server, client, 2)
    # An idle server syncs only in these checks.
    settings = preload_settings(folder, "fail_calls", FAIL_CALL="fdatasync 30")
    with Server(folder, "unsynced", 1, "--lock-check", "0.02", **settings) as server:
        wanted = [f"nbdj: {server.image}: lock check: Input/output error (os error 5)", "nbdj: device fault (1)"]
        status, errors = wait_for_end(server)
        check("unsynced: the end", (1, wanted), (status, errors.splitlines()))


def main():
    scenarios = [kills, intervals, sectors, in_turn, eight, beside, unflushed, bounded, shown, asked_to_end, managed, idle, failing, second_writer,
                 failing_amid_eight, gathered, unreadable, yielding, kept, told, refused_when_full, silent_handshakes, many_listeners, activated, crowded,
                 unheard, copied, long_opening, waiting, late, shut_out]
    unknown = set(sys.argv[1:]) - {it.__name__ for it in scenarios}
    if unknown:
        sys.exit(f"operating.py: there is no scenario {', '.join(sorted(unknown))}")
    with tempfile.TemporaryDirectory() as folder:
        for scenario in scenarios:
            if sys.argv[1:] and scenario.__name__ not in sys.argv[1:]:
                continue
            run_scenario(scenario, folder)
    return checks.finish()


if __name__ == "__main__":
    sys.exit(main())
