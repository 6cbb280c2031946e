#!/usr/bin/env python3
"""Clients that break the protocol, against `serve` of the built program NBDJ: silent, slow and disconnected ones, and random bytes.

After each of them the server lives, its resident memory is below a bound, and a good client is served. No check depends on the speed of
the machine. Prints a line for each check that fails, and last 'N passed, M failed'.
"""
import contextlib
import os
import random
import select
import socket
import struct
import sys
import tempfile
import threading
import time

import checks
from checks import (
    BLOCK, BLOCKS, DISC, EINVAL, FLAGS, FLUSH, FRAMES, GO, HANDSHAKE, LONG_HANDSHAKE, MIB, READ, SET_CONTEXT, STATUS, STRUCTURED, TRIM, WRITE, ZEROES,
    Server, block_of, check, reset, format_image, go, read_address, option, reply, request, run, run_scenario, serve, shake, take,
)

SECONDS, SEED = 10, int(os.environ.get("HOSTILE_SEED", "29"))


def silent(folder):
    """64 clients are silent. Four at a time have a worker, for a second each because others wait; a good client comes last."""
    with Server(folder, "silent", 4) as server:
        clients = [server.connect(120) for _ in range(64)]
        begun = time.monotonic()
        server.goes_on("64 silent clients", 120)
        waited = time.monotonic() - begun
        check("64 silent clients: the good one waited 14 to 60 seconds", True, 14 <= waited <= 60 or waited)
        # Each was greeted and then disconnected.
        ends = [take(client, 19) for client in clients]
        check("64 silent clients: each is greeted and disconnected", 64, sum(1 for end in ends if len(end) == 18 and end[:8] == b"NBDMAGIC"))
        for client in clients:
            client.close()


def slow_handshake(folder):
    """A silence during the handshake ends the session too."""
    with Server(folder, "slow", 1, "--handshake-timeout", "1") as server:
        for count in (1, 4, 12, len(FLAGS) + 20, len(HANDSHAKE) - 1):
            with server.connect() as client:
                client.sendall(HANDSHAKE[:count])
                check(f"a silence after {count} bytes", 18, len(take(client, 100)))
        server.goes_on("silences during the handshake")
        # After the handshake a client may be silent for longer.
        with server.new_client() as client:
            time.sleep(2.5)
            client.sendall(request(FLUSH, 5))
            check("a silence after the handshake", reply(5), take(client, 16))


def announced(folder):
    """Clients that announce a WRITE of 1 MiB and send a byte of it."""
    with Server(folder, "announced", 16) as server:
        server.goes_on("before the announced WRITEs")
        clients = [server.new_client() for _ in range(15)]
        for client in clients:
            client.sendall(request(WRITE, 9, 0, MIB) + b"x")
        time.sleep(0.2)
        server.goes_on("WRITEs that are announced")
        for number, client in enumerate(clients):
            if number % 2:
                reset(client)
            else:
                client.close()
        server.goes_on("WRITEs that were announced")
        with server.new_client() as client:
            client.sendall(request(READ, 1, 0, BLOCK))
            check("of an announced WRITE nothing is there", reply(1) + bytes(BLOCK), take(client, 16 + BLOCK))


def deaf(folder):
    """Clients that ask for more than their sockets hold and never read. Others are still served, and their workers are free later."""
    with Server(folder, "deaf", 4) as server:
        with server.new_client() as client:
            for number in range(4):
                client.sendall(request(WRITE, number, number * MIB, MIB) + block_of(number) * 256)
            take(client, 4 * 16)
        clients = [server.new_client() for _ in range(3)]
        for client in clients:
            client.setblocking(False)
            sent, end = 0, time.monotonic() + 1
            asked = b"".join(request(READ, cookie, cookie % 4 * MIB, MIB) for cookie in range(20_000))
            while time.monotonic() < end and sent < len(asked):
                if select.select([], [client], [], 0.2)[1]:
                    sent += client.send(asked[sent:sent + 65536])
                server.watch()
        time.sleep(0.5)
        server.goes_on("clients that read no replies")
        server.goes_on("clients that read no replies, again")
        for client in clients:
            reset(client)
        server.goes_on("clients that read no replies are gone")
        others = [server.new_client() for _ in range(3)]
        server.goes_on("their workers")
        for client in others:
            client.close()


def half_closed(folder):
    """Clients that end one direction of their connection."""
    with Server(folder, "half", 2) as server:
        with server.connect() as client:
            client.shutdown(socket.SHUT_WR)
            check("half-closed at once", (18, b""), (len(take(client, 18)), take(client, 1)))
        with server.connect() as client:
            client.sendall(HANDSHAKE[:11])
            client.shutdown(socket.SHUT_WR)
            check("half-closed in the handshake", (18, b""), (len(take(client, 18)), take(client, 1)))
        server.goes_on("half-closed clients")
        # Requests before the end are answered, though no DISC came.
        with server.new_client() as client:
            client.sendall(request(WRITE, 1, 5 * BLOCK, BLOCK) + block_of(77) + request(READ, 2, 5 * BLOCK, BLOCK))
            client.shutdown(socket.SHUT_WR)
            wanted = reply(1) + reply(2) + block_of(77)
            check("half-closed after requests", True, take(client, len(wanted) + 1) == wanted)
        with server.new_client() as client:
            client.sendall(request(WRITE, 1, 6 * BLOCK, BLOCK) + block_of(78)[:100])
            client.shutdown(socket.SHUT_WR)
            check("half-closed in a WRITE", b"", take(client, 1))
        with server.new_client() as client:
            client.shutdown(socket.SHUT_RD)
            with contextlib.suppress(OSError):
                for cookie in range(200):
                    client.sendall(request(READ, cookie, 0, MIB))
        server.goes_on("half-closed clients with requests")
        with server.new_client() as client:
            client.sendall(request(READ, 1, 6 * BLOCK, BLOCK))
            check("half a WRITE leaves nothing", reply(1) + bytes(BLOCK), take(client, 16 + BLOCK))


def cut(folder):
    """A session that ends after each byte of its handshake and first requests, by a close and by a reset."""
    with Server(folder, "cut", 2) as server:
        whole = LONG_HANDSHAKE + request(READ, 1, 0, BLOCK) + request(STATUS, 2, 0, BLOCK) + request(WRITE, 3, 0, BLOCK)
        for count in range(len(whole) + 1):
            for end in (socket.socket.close, reset):
                client = server.connect()
                # (the server may have closed already)
                with contextlib.suppress(OSError):
                    client.sendall(whole[:count])
                end(client)
            if count % 40 == 0:
                server.goes_on(f"a session cut after {count} bytes")
        server.goes_on("sessions that were cut")


def parted(folder):
    """A whole session in two pieces, split at each byte: the answers are the same each time."""
    data = block_of(7)
    whole = FLAGS + option(STRUCTURED) + go() + request(WRITE, 1, 0, BLOCK) + data + request(READ, 2, 0, BLOCK)
    whole += request(FLUSH, 3) + request(DISC, 4)
    answer = struct.Struct(">QIII")
    wanted = bytes.fromhex("4e42444d41474943 49484156454f5054 0003")
    wanted += answer.pack(0x3E889045565A9, STRUCTURED, 1, 0)
    wanted += answer.pack(0x3E889045565A9, GO, 3, 12) + struct.pack(">HQH", 0, BLOCKS * BLOCK, 0x01ED)
    wanted += answer.pack(0x3E889045565A9, GO, 3, 14) + struct.pack(">HIII", 3, 1, BLOCK, MIB) + answer.pack(0x3E889045565A9, GO, 1, 0)
    wanted += reply(1)
    wanted += struct.pack(">IHHQIQ", 0x668E33EF, 1, 1, 2, BLOCK + 8, 0) + data + reply(3)
    wrong = []
    with Server(folder, "parted", 2) as server:
        for place in range(1, len(whole)):
            with server.connect() as client:
                client.sendall(whole[:place])
                # (so that the server probably reads the first piece by itself)
                time.sleep(0.0003)
                client.sendall(whole[place:])
                if take(client, len(wanted) + 1) != wanted:
                    wrong.append(place)
        check(f"a session split at each of {len(whole) - 1} places: where the answers differ", [], wrong[:9])
        server.goes_on("split sessions")


def largest(folder):
    """The largest image, all holes: a write, the longest possible trim, and the states of its bytes as one run, though the blocks that they
    touch have more bytes than 32 bits can count."""
    blocks, image = 1 << 24, os.path.join(folder, "largest.img")
    format_image(image, "--blocks", str(blocks), "--area", "4194304", "--layout", "2")
    with serve(image, "--listen", "127.0.0.1:0", "--frames", str(FRAMES), "--sessions", "1") as server:
        with socket.create_connection(("127.0.0.1", int(read_address(server))), timeout=60) as client:
            shake(client, LONG_HANDSHAKE)
            client.sendall(request(WRITE, 1, 5 * BLOCK, BLOCK) + block_of(1) + request(TRIM, 2, 1, 0xFFFFFFFF))
            client.sendall(request(STATUS, 3, 1, 0xFFFFFFFF) + request(FLUSH, 4) + request(DISC, 5))
            wanted = "67446698 00000000 0000000000000001 67446698 00000000 0000000000000002"
            wanted += "668e33ef 0001 0005 0000000000000003 0000000c 00000001 ffffffff 00000003 67446698 00000000 0000000000000004"
            check("the answers of the largest image", bytes.fromhex(wanted).hex(), take(client, 16 * 3 + 32 + 1).hex())
        check("the largest image: the server ends", 0, server.wait(timeout=60))
    _, told, _ = run("check", image)
    check("a check of the largest image", f"layout 2\nblocks {blocks}\nmode 0\nbase 0\ncommands 2\ndata 0\nzero 0\nhole {blocks}\n", told)
    os.unlink(image)


def oversized(folder):
    """Lengths that are too large: of options, of names, of requests."""
    with Server(folder, "oversized", 2) as server:
        for number in (1, GO, SET_CONTEXT, 99):
            for length in (65_537, 33_554_433, 0xFFFFFFFF):
                with server.connect() as client:
                    # (the server may close before it has read all)
                    with contextlib.suppress(OSError):
                        client.sendall(FLAGS + b"IHAVEOPT" + struct.pack(">II", number, length))
                        for _ in range(64):
                            client.sendall(bytes(65_536))
                            server.watch()
        server.goes_on("options that are too long")
        with server.connect() as client:
            client.sendall(FLAGS + option(99, bytes(33_554_432)) + go())
            found = take(client, 18 + 20 + 32 + 34 + 20)
            check("an option of 32 MiB is dropped", (0x80000009, 1), (struct.unpack(">I", found[30:34])[0], struct.unpack(">I", found[-8:-4])[0]))
            server.watch()
            client.sendall(request(WRITE, 1, 0, 33_554_432))
            for _ in range(32):
                client.sendall(bytes(MIB))
                server.watch()
            check("a WRITE of 32 MiB is refused", reply(1, EINVAL), take(client, 16))
            client.sendall(request(READ, 2, 0, 0xFFFFF000) + request(TRIM, 3, 0xFFFFFFFFFFFFF000, 0xFFFFF000))
            wanted = reply(2, EINVAL) + reply(3, EINVAL)
            check("a READ and a TRIM that are too long", wanted, take(client, 32))
            client.sendall(request(WRITE, 4, 0, 33_554_433))
            check("a WRITE that is longer closes", b"", take(client, 1))
        server.goes_on("requests that are too long")


def random_session(source):
    """What a random client sends: random bytes, alone or after a handshake; a changed handshake; or requests with random fields."""
    kind = source.randrange(4)
    if kind == 0:
        return source.randbytes(source.randrange(1, 400))
    if kind == 1:
        return source.choice([HANDSHAKE, LONG_HANDSHAKE]) + source.randbytes(source.randrange(1, 20_000))
    if kind == 2:
        changed = bytearray(LONG_HANDSHAKE + request(READ, 1, 0, BLOCK))
        for _ in range(source.randrange(1, 6)):
            changed[source.randrange(len(changed))] = source.randrange(256)
        return bytes(changed)
    requests = b""
    for cookie in range(source.randrange(1, 30)):
        offset = source.choice([0, source.randrange(BLOCKS) * BLOCK, source.randrange(BLOCKS * BLOCK), source.getrandbits(64)])
        length = source.choice([0, BLOCK, source.randrange(64) * BLOCK, source.randrange(MIB), source.getrandbits(32)])
        number = source.choice([READ, WRITE, FLUSH, TRIM, ZEROES, STATUS, source.getrandbits(16)])
        requests += request(number, cookie, offset, length, source.choice([0, 1, 2, 4, 8, source.getrandbits(16)]))
        if number == WRITE:
            requests += source.randbytes(min(length, 2 * MIB))
    return source.choice([HANDSHAKE, LONG_HANDSHAKE]) + requests


def random_bytes(folder):
    """Random sessions for SECONDS seconds, two at a time."""
    with Server(folder, "random", 4) as server:
        counts = [0, 0]

        def sender(index, end):
            source = random.Random(SEED + index)
            while time.monotonic() < end and server.process.poll() is None:
                session = random_session(source)
                # (the server may have closed, or be busy with a reply that nobody reads)
                with contextlib.suppress(OSError), server.connect(2) as client:
                    client.sendall(session)
                    if source.randrange(2):
                        client.shutdown(socket.SHUT_WR)
                        take(client, source.randrange(MIB))
                    elif source.randrange(2):
                        reset(client)
                counts[index] += 1

        end = time.monotonic() + SECONDS
        threads = [threading.Thread(target=sender, args=(index, end)) for index in range(2)]
        for thread in threads:
            thread.start()
        while any(thread.is_alive() for thread in threads):
            time.sleep(0.05)
            server.watch()
        for thread in threads:
            thread.join()
        # (it keeps buffers for later requests: up to 16 MiB for the data of WRITEs, and 16 for READs)
        server.goes_on(f"random bytes of seed {SEED}", kept=32 * MIB)
        check("there were random sessions", True, min(counts) > 20 or counts)
        print(f"{sum(counts)} random sessions of seed {SEED}", flush=True)


def main():
    with tempfile.TemporaryDirectory() as folder:
        # This one waits for half a minute, so the others run meanwhile.
        aside = threading.Thread(target=run_scenario, args=(silent, folder))
        aside.start()
        for scenario in (slow_handshake, announced, deaf, half_closed, cut, parted, largest, oversized, random_bytes):
            run_scenario(scenario, folder)
        aside.join()
    return checks.finish()


if __name__ == "__main__":
    sys.exit(main())
