#!/usr/bin/env python3
"""400 restarts of `serve` of the built program NBDJ over one image of each layout. Each server is killed (SIGKILL) while it opens the image,
while its client is idle, or while its client writes.

After a kill without load the image is, byte for byte, what the client read before. After a kill under load it is the image after a prefix of
the client's commands, and the prefix has every confirmed one. About half of the commands are of whole blocks, the others of any bytes. If the
image is wrong, the last bytes of both header slots are printed. Prints a line for each check that fails, and last 'N passed, M failed'.
"""
import contextlib
import os
import random
import struct
import subprocess
import sys
import tempfile
import threading
import time
from concurrent.futures import ThreadPoolExecutor

import checks
from checks import BLOCK, FLUSH, NO_HOLE, READ, TRIM, WRITE, ZEROES, check, connect, format_image, read_address, reply, request, serve, shake, take_all

BLOCKS = 256
# `--area` by layout; each journal area has 2 MiB in both.
AREAS = {1: 2097152, 2: 4194304}
RESTARTS, SECONDS = 400, 90
SEED = int(os.environ.get("RESTARTS_SEED", "41"))


class Client:
    """A client at a Unix socket, with simple replies."""

    def __init__(self, path):
        self.socket = connect(path)
        shake(self.socket)
        self.cookie = 0

    def ask(self, kind, offset=0, length=0, data=b"", flags=0):
        """The data of a READ, or nothing; a ValueError if the reply isn't Ok."""
        self.cookie += 1
        self.socket.sendall(request(kind, self.cookie, offset, length, flags) + data)
        answer = take_all(self.socket, 16)
        if answer != reply(self.cookie):
            raise ValueError(f"a reply {answer.hex()} to request {self.cookie}")
        return take_all(self.socket, length) if kind == READ else b""

    def image(self):
        return self.ask(READ, 0, BLOCKS * BLOCK)

    def close(self):
        self.socket.close()


class Load:
    """The commands of one client in their order, each as an offset and the bytes that it leaves there, and how many a FLUSH has confirmed."""

    numbers = 0

    def __init__(self):
        self.sent, self.confirmed = [], 0

    def command(self, client, source):
        unit = source.choice((BLOCK, 1))
        length = min(1 + int(source.expovariate(0.4 * unit / BLOCK)), 32 * BLOCK // unit) * unit
        offset = source.randrange((BLOCKS * BLOCK - length) // unit + 1) * unit
        kind = source.choices((WRITE, TRIM, ZEROES), (8, 1, 1))[0]
        data = bytes(length)
        if kind == WRITE:
            Load.numbers += 1
            data = b"".join(struct.pack(">II", Load.numbers, place) for place in range(offset // 8, (offset + length) // 8 + 1))[offset % 8:][:length]
        if kind == TRIM:
            # (a TRIM zeroes whole blocks only)
            first, end = (offset + BLOCK - 1) // BLOCK, (offset + length) // BLOCK
            self.sent.append((first * BLOCK, bytes(max(end - first, 0) * BLOCK)))
        else:
            self.sent.append((offset, data))
        client.ask(kind, offset, length, data if kind == WRITE else b"", source.choice((0, NO_HOLE)) if kind == ZEROES else 0)

    def run(self, client, source):
        """Sends commands, and a FLUSH now and then, until the connection ends."""
        with contextlib.suppress(OSError):
            while True:
                for _ in range(source.randrange(1, 12)):
                    self.command(client, source)
                count = len(self.sent)
                client.ask(FLUSH)
                self.confirmed = count

    def leaves(self, image):
        """The images that a kill may leave, each with its number of commands: from the confirmed ones on, one more each time."""
        image = bytearray(image)
        for count in range(len(self.sent) + 1):
            if count >= self.confirmed:
                yield count, bytes(image)
            if count < len(self.sent):
                offset, data = self.sent[count]
                image[offset: offset + len(data)] = data


class Restarts:
    def __init__(self, image, path):
        self.image, self.path = image, path
        self.slots = []
        self.server = None

    def start(self):
        self.server = serve(self.image, "--unix", self.path, "--frames", "512", "--flush-interval", "0", stderr=subprocess.PIPE)

    def listens(self):
        return read_address(self.server) == self.path or self.server.stderr.read()

    def kill(self):
        self.server.kill()
        self.server.communicate()
        with open(self.image, "rb") as file:
            self.slots = self.slots[-4:] + [[file.read(40).hex(), (file.seek(BLOCK), file.read(40).hex())[1]]]

    def print_slots(self, name):
        """Prints the last header slots, for a failure."""
        for one, other in self.slots:
            print(f"{name}: slots {one} {other}", flush=True)


def differing(one, other):
    return [it for it in range(BLOCKS) if one[it * BLOCK: (it + 1) * BLOCK] != other[it * BLOCK: (it + 1) * BLOCK]][:8]


def run(folder, layout):
    source = random.Random(SEED * layout)
    restarts = Restarts(os.path.join(folder, f"{layout}.img"), os.path.join(folder, f"socket{layout}"))
    format_image(restarts.image, "--blocks", str(BLOCKS), "--area", str(AREAS[layout]), "--layout", str(layout))
    known, load = bytes(BLOCKS * BLOCK), Load()
    ways = dict.fromkeys(("opening", "idle", "load"), 0)
    began = time.monotonic()
    for number in range(1, RESTARTS + 1):
        if time.monotonic() - began > SECONDS:
            print(f"{number - 1} restarts of layout {layout} in {SECONDS} seconds, and not {RESTARTS}", flush=True)
            break
        way = source.choices(("opening", "idle", "load"), (2, 2, 5))[0]
        ways[way] += 1
        restarts.start()
        if way == "opening":
            time.sleep(source.random() * 0.02)
            restarts.kill()
            continue
        said = restarts.listens()
        if said is not True:
            check(f"layout {layout}, restart {number}: it listens", True, said)
            restarts.print_slots(f"layout {layout}, restart {number}")
            return ways
        client = Client(restarts.path)
        found = client.image()
        stands = next((count for count, image in load.leaves(known) if image == found), None)
        if stands is None:
            near = next(load.leaves(known))[1]
            restarts.print_slots(f"layout {layout}, restart {number}")
            check(f"layout {layout}, restart {number}: the image after {load.confirmed} to {len(load.sent)} commands", "none", f"blocks {differing(near, found)}")
            return ways
        check(f"layout {layout}, restart {number}: the image is one that a kill may leave", True, load.confirmed <= stands <= len(load.sent))
        known, load = found, Load()
        if way == "load":
            worker = threading.Thread(target=load.run, args=(client, random.Random(source.random())))
            worker.start()
            time.sleep(source.random() * 0.08)
            restarts.kill()
            worker.join()
        else:
            time.sleep(source.random() * 0.01)
            restarts.kill()
        client.close()
    return ways


def main():
    with tempfile.TemporaryDirectory() as folder, ThreadPoolExecutor(len(AREAS)) as both:
        for layout, ways in zip(AREAS, both.map(lambda layout: run(folder, layout), AREAS)):
            print(f"kills of layout {layout}:", ", ".join(f"{count} {way}" for way, count in ways.items()), flush=True)
    return checks.finish()


if __name__ == "__main__":
    sys.exit(main())
