#!/usr/bin/env python3
"""Several requests of one connection at a time (`serve --in-flight N`), over sessions by hand: replies overtake others exactly where they may,
each request is answered once, and ends, faults and limits keep their meaning while requests wait. Device calls hang while a file exists
(tests/preloads/stuck_calls.c), or syncs are slow (slow_sync.c).

usage: tests/in_flight.py [SCENARIO ..]

Prints a line for each check that fails, and last 'N passed, M failed'.
"""
import contextlib
import os
import re
import select
import signal
import socket
import subprocess
import sys
import threading
import time

import checks
from checks import BLOCK, DISC, FLUSH, FUA, MIB, READ, WRITE, Server, block_of, check, preload_settings, reply, request, reset, take

# How long nothing comes where a reply has to wait, and the longest wait for one that comes.
QUIET, LONG = 0.3, 20


class Held(Server):
    """A server whose device calls hang while it is held."""

    def __init__(self, folder, name, *words, workers=2, **settings):
        self.stuck = os.path.join(folder, f"{name}.stuck")
        super().__init__(folder, name, workers, *words, **preload_settings(folder, "stuck_calls", STUCK=self.stuck), **settings)

    def __exit__(self, *given):
        self.let_go()
        super().__exit__(*given)

    def hold(self):
        with open(self.stuck, "w", encoding="ascii"):
            pass

    def let_go(self):
        with contextlib.suppress(FileNotFoundError):
            os.unlink(self.stuck)

    def dirty_client(self, *blocks):
        """A client that has written these blocks, so that a FLUSH has to store them and READs of them find them in memory."""
        client = self.new_client(LONG)
        for block in blocks or (0,):
            client.sendall(request(WRITE, 1, block * BLOCK, BLOCK) + block_of(block))
            take(client, 16)
        return client


def is_quiet(client, seconds=QUIET):
    return not select.select([client], [], [], seconds)[0]


def replies_of(client, count):
    """The next simple replies without data, as cookies and errors, in whatever order they come."""
    text = take(client, 16 * count)
    return sorted((int.from_bytes(text[at + 8:at + 16], "big"), int.from_bytes(text[at + 4:at + 8], "big")) for at in range(0, len(text), 16))


def overtaking(folder):
    """READ and WRITE overtake a FLUSH; after a DISC the FLUSH is answered, and then the connection ends."""
    piece = request(FLUSH, 2) + request(READ, 3, 0, BLOCK) + request(WRITE, 4, BLOCK, BLOCK) + block_of(7) + request(READ, 5, BLOCK, BLOCK) + request(DISC, 6)
    others = reply(3) + block_of(0) + reply(4) + reply(5) + block_of(7)
    for count in (2, 16):
        with Held(folder, f"overtaking-{count}", "--in-flight", str(count)) as server, server.dirty_client() as client:
            server.hold()
            client.sendall(piece)
            check(f"{count} in flight: READ and WRITE are answered first", others, take(client, len(others)))
            check(f"{count} in flight: the FLUSH isn't", True, is_quiet(client))
            server.let_go()
            check(f"{count} in flight: it is, and then the connection ends", reply(2), take(client, 17))
    with Held(folder, "in-order", "--in-flight", "1") as server, server.dirty_client() as client:
        server.hold()
        client.sendall(piece)
        check("1 in flight: nothing overtakes the FLUSH", True, is_quiet(client))
        server.let_go()
        check("1 in flight: replies come in order, and then the connection ends", reply(2) + others, take(client, 16 + len(others) + 1))
    with Held(folder, "usual") as server, server.dirty_client() as client:
        server.hold()
        client.sendall(piece)
        check("by default nothing overtakes the FLUSH", True, is_quiet(client))
        server.let_go()
        check("by default replies come in order", reply(2) + others, take(client, 16 + len(others) + 1))


def limited(folder):
    """No more requests than N are in progress: with N - 1 of them waiting, others go on, and with N none does."""
    for count in (2, 4, 16):
        with Held(folder, f"limited-{count}", "--in-flight", str(count)) as server, server.dirty_client() as client:
            server.hold()
            for cookie in range(count - 1):
                client.sendall(request(WRITE, 10 + cookie, (1 + cookie) * BLOCK, BLOCK, FUA) + block_of(cookie))
            client.sendall(request(READ, 2, 0, BLOCK))
            check(f"{count - 1} of {count} wait: a READ is answered", reply(2) + block_of(0), take(client, 16 + BLOCK))
            client.sendall(request(WRITE, 9 + count, count * BLOCK, BLOCK, FUA) + block_of(count))
            client.sendall(request(READ, 3, 0, BLOCK))
            check(f"{count} of {count} wait: nothing is answered", True, is_quiet(client))
            server.let_go()
            text = take(client, 16 * (count + 1) + BLOCK)
            found = text.replace(reply(3) + block_of(0), b"", 1)
            wanted = sorted(reply(10 + cookie) for cookie in range(count))
            check(f"{count}: then each is answered once", wanted, sorted(found[at:at + 16] for at in range(0, len(found), 16)))
            check(f"{count}: and nothing else comes", True, is_quiet(client))


def durable(folder):
    """What was confirmed while other requests overtook it is there after a kill."""
    with Held(folder, "durable", "--in-flight", "16") as server:
        with server.new_client(LONG) as client:
            text = b"".join(request(WRITE, 100 + at, at * BLOCK, BLOCK, FUA) + block_of(at) + request(READ, 200 + at, (at + 20) * BLOCK, BLOCK) for at in range(16))
            client.sendall(text)
            found = take(client, 16 * 32 + 16 * BLOCK)
            check("durable: each is answered", 16 * 32 + 16 * BLOCK, len(found))
        server.kill()
    with Server(folder, "durable", 1, made=True) as server, server.new_client(LONG) as client:
        client.sendall(request(READ, 1, 0, 16 * BLOCK))
        check("durable: all FUA writes are there", reply(1) + b"".join(map(block_of, range(16))), take(client, 16 + 16 * BLOCK))


def ends(folder):
    """However a session ends, requests that wait are answered, and the worker takes the next client."""
    for name, way in (("half", lambda client: client.shutdown(socket.SHUT_WR)), ("magic", lambda client: client.sendall(bytes(28))),
                      ("long", lambda client: client.sendall(request(WRITE, 9, 0, 33554433)))):
        with Held(folder, f"ends-{name}", "--in-flight", "16", workers=1) as server:
            with server.dirty_client() as client:
                server.hold()
                client.sendall(request(FLUSH, 2) + request(READ, 3, 0, BLOCK))
                check(f"{name}: the READ is answered", reply(3) + block_of(0), take(client, 16 + BLOCK))
                way(client)
                check(f"{name}: the FLUSH isn't yet", True, is_quiet(client))
                server.let_go()
                check(f"{name}: it is, and then the connection ends", reply(2), take(client, 17))
            server.goes_on(name)
    for name, way in (("vanishes", reset), ("closes", socket.socket.close)):
        with Held(folder, f"ends-{name}", "--in-flight", "16", workers=1) as server:
            client = server.dirty_client()
            server.hold()
            for cookie in range(16):
                client.sendall(request(FLUSH, 2 + cookie))
            time.sleep(QUIET)
            way(client)
            server.let_go()
            server.goes_on(name)


def parts(folder):
    """A request that isn't whole holds up no reply, and is answered once it is whole."""
    with Held(folder, "parts", "--in-flight", "16") as server, server.dirty_client() as client:
        server.hold()
        text = request(WRITE, 3, BLOCK, BLOCK) + block_of(3)
        client.sendall(request(FLUSH, 2) + text[:2000])
        check("half a WRITE: nothing comes while the FLUSH waits", True, is_quiet(client))
        server.let_go()
        check("half a WRITE: the FLUSH is answered", reply(2), take(client, 16))
        client.sendall(text[2000:])
        check("the WRITE is whole", reply(3), take(client, 16))
        client.sendall(request(READ, 4, BLOCK, BLOCK))
        check("what it wrote", reply(4) + block_of(3), take(client, 16 + BLOCK))


def silent(folder):
    """A client that waits for a reply isn't silent: --idle-timeout cuts it only afterwards."""
    with Held(folder, "silent", "--in-flight", "16", "--idle-timeout", "1") as server, server.dirty_client() as client:
        server.hold()
        client.sendall(request(FLUSH, 2))
        check("silent: it isn't cut while it waits", True, is_quiet(client, 2.5))
        server.let_go()
        check("silent: it gets its reply", reply(2), take(client, 16))
        began = time.monotonic()
        check("silent: then it is cut", b"", take(client, 1))
        check("silent: within twice the limit", True, time.monotonic() - began < 3)


def shared(folder):
    """FUA writes of one connection, and its writes in writethrough, share their syncs."""
    for name, flags, words in (("fua", FUA, ()), ("writethrough", 0, ("--cache", "writethrough"))):
        settings = preload_settings(folder, "slow_sync", SLOW_SYNC_US="20000")
        with Server(folder, f"shared-{name}", 1, "--in-flight", "16", *words, **settings) as server, server.new_client(LONG) as client:
            began = time.monotonic()
            client.sendall(b"".join(request(WRITE, at, at * BLOCK, BLOCK, flags) + block_of(at) for at in range(16)))
            check(f"{name}: each is answered", [(at, 0) for at in range(16)], replies_of(client, 16))
            # (one after another they take 32 syncs, 640 ms)
            check(f"{name}: they take less than half of the time of 32 syncs", True, time.monotonic() - began < 0.32)


def faults(folder):
    """A device that hangs for too long: each request that waits gets EIO or the end, and the server ends."""
    with Held(folder, "faults", "--in-flight", "16", "--device-timeout", "0.5") as server, server.dirty_client() as client:
        server.hold()
        client.sendall(b"".join(request(FLUSH, 2 + at) for at in range(8)))
        found = take(client, 8 * 16)
        wanted = {reply(2 + at, checks.EIO) for at in range(8)}
        check("a call that hangs: no FLUSH is answered Ok", set(), {found[at:at + 16] for at in range(0, len(found) // 16 * 16, 16)} - wanted)
        server.let_go()
        with contextlib.suppress(subprocess.TimeoutExpired):
            server.process.wait(timeout=LONG)
        check("a call that hangs: the server ends", 1, server.process.poll())


def terminated(folder):
    """At the end of its input a server answers what it has read, also what waits."""
    with Held(folder, "terminated", "--in-flight", "16", "--until-eof", stdin=subprocess.PIPE) as server, server.dirty_client() as client:
        server.hold()
        client.sendall(request(FLUSH, 2) + request(READ, 3, 0, BLOCK))
        check("terminated: the READ is answered", reply(3) + block_of(0), take(client, 16 + BLOCK))
        server.process.stdin.close()
        time.sleep(QUIET)
        server.let_go()
        check("terminated: the FLUSH is, and then the connection ends", reply(2), take(client, 17))
        with contextlib.suppress(subprocess.TimeoutExpired):
            server.process.wait(timeout=LONG)
        check("terminated: the server ends well", 0, server.process.poll())


def hostile(folder):
    """A client that takes no replies, and floods of FLUSHes, leave others their service and memory its bound."""
    with Server(folder, "hostile", 2, "--in-flight", "16") as server, server.connect(LONG) as deaf:
        deaf.sendall(checks.HANDSHAKE)
        deaf.setblocking(False)
        ask = b"".join(request(READ, at, 0, MIB) + request(FLUSH, at) for at in range(64)) * 50
        with contextlib.suppress(BlockingIOError):
            while ask:
                ask = ask[deaf.send(ask):]
        for turn in range(3):
            time.sleep(0.2)
            server.goes_on(f"a client that takes nothing, {turn}", kept=8 * MIB)
    with Server(folder, "flood", 2, "--in-flight", "16") as server, server.new_client(LONG) as client:
        count = 20000
        text = b"".join(request(WRITE, 2 * at, at % 64 * BLOCK, BLOCK) + block_of(at) + request(FLUSH, 2 * at + 1) for at in range(count))
        sender = threading.Thread(target=client.sendall, args=(text,))
        sender.start()
        found = replies_of(client, 2 * count)
        sender.join()
        check("a flood: each request is answered once", [(at, 0) for at in range(2 * count)], found)
        server.goes_on("after a flood", kept=32 * MIB)


def in_progress(path):
    """What `nbdj status` says of requests in progress."""
    return re.search(r", (\d+) requests in progress\n", checks.run("status", path)[1]).group(1)


def told(folder):
    """How many requests are in progress is a figure, and the most of a connection stand in the log's line of its end."""
    path = os.path.join(folder, "told.status")
    with Held(folder, "told", "--in-flight", "16", "--verbose", "--status", path) as server:
        with server.dirty_client() as client:
            check("told: no request is in progress", "0", in_progress(path))
            server.hold()
            client.sendall(b"".join(request(FLUSH, cookie) for cookie in range(2, 7)) + request(READ, 9, 0, BLOCK))
            check("told: a READ is answered", reply(9) + block_of(0), take(client, 16 + BLOCK))
            check("told: five requests are in progress", "5", in_progress(path))
            server.let_go()
            check("told: they are answered", [(cookie, 0) for cookie in range(2, 7)], replies_of(client, 5))
            check("told: none is in progress", "0", in_progress(path))
            client.sendall(request(DISC, 10))
            take(client, 1)
        wanted = f"nbdj: {server.image}: client 1 left after 7 requests, at most 5 in progress, 4096 bytes read and 4096 written\n"
        check("told: the most are in the log", wanted, server.read_log(5)[-1])


SCENARIOS = (overtaking, limited, durable, ends, parts, silent, shared, faults, terminated, hostile, told)


def main(words):
    known = {scenario.__name__: scenario for scenario in SCENARIOS}
    if set(words) - set(known):
        sys.exit(f"{sys.argv[0]}: the scenarios are {' '.join(known)}")
    # (so that no server outlives a test that is stopped)
    signal.signal(signal.SIGTERM, lambda *_: sys.exit(1))
    return checks.run_scenarios([known[word] for word in words] or SCENARIOS)


if __name__ == "__main__":
    sys.exit(main(sys.argv[1:]))
