#!/usr/bin/env python3
"""100,000 writes through `pipe` of the built program NBDJ, over a journal whose areas have 2 MiB and fill every few hundred writes: 70,000 over
two areas, and 30,000 over four. Half of the writes are of a block, the others of any bytes.

Each life of the server is killed (SIGKILL) once it has answered a seeded number of requests, or ends with its input. Then the image is
recovered: it has to be the image after a prefix of the writes that has every confirmed one. The next life goes on from there. Prints a line
for each check that fails, and last 'N passed, M failed'.
"""
import contextlib
import os
import random
import struct
import subprocess
import sys
import tempfile
import threading

import checks
from checks import BLOCK, DISC, FLUSH, NBDJ, WRITE, check, reply, request, run

BLOCKS, SEED = 2048, 17


def bytes_of(number, offset, length):
    """The bytes of the write with this number, which differ from write to write and from place to place."""
    cells = range(offset // 8, (offset + length + 7) // 8)
    return b"".join(struct.pack(">II", number, place) for place in cells)[offset % 8:][:length]


def any_range(random_source):
    if random_source.randrange(2):
        return random_source.randrange(BLOCKS) * BLOCK, BLOCK
    length = random_source.choice([random_source.randrange(1, 600), random_source.randrange(1, 2 * BLOCK)])
    return random_source.randrange(BLOCKS * BLOCK - length + 1), length


def requests_of(writes, random_source):
    """The requests of a life, each with the number of the last write so far: the writes, a FLUSH after about every hundred, and a DISC."""
    requests = []
    for number, offset, length in writes:
        requests.append((WRITE, number, offset, bytes_of(number, offset, length)))
        if random_source.randrange(100) == 0:
            requests.append((FLUSH, number, 0, b""))
    requests.append((DISC, writes[-1][0], 0, b""))
    return requests


def text_of(requests):
    for cookie, (kind, _, offset, data) in enumerate(requests):
        yield request(kind, cookie, offset, len(data)) + data


def feed(stream, requests):
    """Writes the requests, until the server is killed."""
    with contextlib.suppress(BrokenPipeError), stream:
        for text in text_of(requests):
            stream.write(text)


def live(image, requests, answers_wanted):
    """Serves the requests, and kills the server after this many answers; how many were answered Ok, and the status."""
    with subprocess.Popen([NBDJ, "pipe", image], stdin=subprocess.PIPE, stdout=subprocess.PIPE, stderr=subprocess.DEVNULL) as server:
        feeder = threading.Thread(target=feed, args=(server.stdin, requests), daemon=True)
        feeder.start()
        answered = 0
        while answered < answers_wanted:
            answer = server.stdout.read(16)
            if len(answer) < 16:
                break
            if answer != reply(answered):
                check(f"reply {answered}", reply(answered).hex(), answer.hex())
            answered += 1
        if answered == answers_wanted:
            server.kill()
        status = server.wait(timeout=60)
        feeder.join(timeout=60)
    return answered, status


def fill(layout, writes_wanted, lives):
    """Sends the writes over an image of this layout, in several lives of the server."""
    random_source = random.Random(SEED * layout)
    area = 2097152 * layout
    begin = 8192 + 2 * area + 2 * BLOCK
    image, written = bytearray(BLOCKS * BLOCK), set()
    last, killed = 0, 0
    with tempfile.TemporaryDirectory() as folder:
        path = os.path.join(folder, "d.img")
        check("format", (0, f"formatted {begin + BLOCKS * BLOCK}\n", ""), run("format", path, "--blocks", str(BLOCKS), "--area", str(area), "--layout", str(layout)))
        for life in range(lives):
            count = (writes_wanted - last) // (lives - life) + 1
            writes = [(last + 1 + index, *any_range(random_source)) for index in range(count)]
            requests = requests_of(writes, random_source)
            # (each fifth life, and the last one, ends with its input)
            whole = life % 5 == 4 or life == lives - 1
            wanted = len(requests) if whole else random_source.randrange(count // 2, len(requests) - 1)
            answered, status = live(path, requests, wanted)
            if whole:
                check(f"layout {layout}, life {life}: the end", (len(requests) - 1, 0), (answered, status))
            else:
                check(f"layout {layout}, life {life}: the kill", (wanted, -9), (answered, status))
                killed += 1
            confirmed = max([number for kind, number, _, _ in requests[:answered] if kind == FLUSH], default=last)
            confirmed = writes[-1][0] if whole else confirmed
            status, recovered, _ = run("recover", path)
            found = int(recovered.split()[1]) if status == 0 else -1
            check(f"layout {layout}, life {life}: {confirmed} to {writes[-1][0]} commands", True, confirmed <= found <= writes[-1][0])
            for number, offset, length in writes:
                if number <= found:
                    image[offset:offset + length] = bytes_of(number, offset, length)
                    written |= set(range(offset // BLOCK, (offset + length - 1) // BLOCK + 1))
            with open(path, "rb") as file:
                file.seek(begin)
                data = file.read()
            check(f"layout {layout}, life {life}: the bytes of the image", len(image), len(data))
            differ = [block for block in range(BLOCKS) if data[block * BLOCK:(block + 1) * BLOCK] != image[block * BLOCK:(block + 1) * BLOCK]]
            check(f"layout {layout}, life {life}: the blocks that differ", [], differ[:9])
            last = found
        counts = len(written), BLOCKS - len(written)
        numbers = {"blocks": BLOCKS, "mode": 0, "base": last, "commands": last, "data": counts[0], "zero": 0, "hole": counts[1]}
        first = "" if layout == 1 else f"layout {layout}\n"
        check("check", (0, first + "".join(f"{name} {number}\n" for name, number in numbers.items()), ""), run("check", path))
        check("lives that were killed", True, killed >= lives // 2)
    print(f"{last} writes over layout {layout} in {lives} lives, {killed} of them killed")


def main():
    fill(1, 70_000, 14)
    fill(2, 30_000, 6)
    return checks.finish()


if __name__ == "__main__":
    sys.exit(main())
