#!/usr/bin/env python3
"""Random scripts of `rehearse` and random sessions of `pipe` of the built program NBDJ, compared with an image of plain bytes.

A script has all commands, of sixteen connections, checkpoints and crashes, over a small image and over one with more blocks than frames.
Sessions come one after another over one image, whose journal of 2 MiB fills meanwhile; each ends with a READ of the whole image. Prints a line for each check that fails, and last 'N passed, M failed'.
"""
import os
import random
import sys
import tempfile

import checks
from checks import BLOCK, DISC, FLUSH, FUA, MIB, NO_HOLE, READ, TRIM, WRITE, ZEROES, check, format_image, reply, request, run

DATA, ZERO, HOLE = 0, 2, 3
# Two kinds of scripts, with 512 frames: blocks of the image, bytes of an area, most blocks of a command, and steps.
SCRIPTS = [(24, 2 * MIB, 5, 1500), (700, 16 * MIB, 40, 1500)]
MOST_WRITTEN = 400
SESSION_BLOCKS, SESSIONS, SESSION_TURNS = 48, 6, 150
SEEDS = 4711, 20260, 998244353


def place_in_block(draws):
    """A place in a block or at its end, often next to one of its ends."""
    return draws.choice([0, 1, BLOCK - 1, BLOCK, *[draws.randrange(BLOCK)] * 2])


class Image:
    """The bytes of an image, and the status of each block in base:allocation."""

    def __init__(self, blocks):
        self.bytes = bytearray(blocks * BLOCK)
        self.states = [HOLE] * blocks

    def copy(self):
        other = Image(0)
        other.bytes, other.states = bytearray(self.bytes), list(self.states)
        return other

    def fill(self, start, end, byte):
        self.bytes[start:end] = bytes([byte]) * (end - start)

    def first_byte(self, block):
        return self.bytes[block * BLOCK]

    def touched(self, start, end):
        return range(start // BLOCK, -(-end // BLOCK))

    def covered(self, start, end):
        return range(-(-start // BLOCK), end // BLOCK)

    def runs(self, first, same):
        """The longest runs of equal blocks from `first` on: first block and length of each."""
        found = [[first, 1]]
        for block in range(first + 1, len(self.states)):
            if same(block - 1, block):
                found[-1][1] += 1
            else:
                found.append([block, 1])
        return found


class Script:
    """A script, what it has to print, and what the device holds after it."""

    def __init__(self, draws, blocks, area, most, mode):
        self.draws, self.blocks, self.most, self.mode = draws, blocks, most, mode
        self.lines, self.printed = [], []
        # The image with all commands, and with those that are stored.
        self.image = Image(blocks)
        self.stored = self.image.copy()
        # How many commands there are, are stored, and are in map and data.
        self.count = self.durable = self.base = 0
        # The blocks last written by a command that isn't in map and data yet.
        self.written = set()
        self.line(f"format {blocks} {area} 512 {mode}".rstrip(), "done")

    def line(self, line, printed):
        self.lines.append(line)
        self.printed.append(printed)

    def ask(self, connection, what):
        """Sends and serves a request, and asks for its answer, whose output comes next."""
        self.line(f"send {connection} {what}", "done")
        self.line(f"serve {connection}", "done")
        self.lines.append(f"answer {connection}")

    def drawn_blocks(self):
        """A few blocks, as the first one and the end."""
        first = self.draws.randrange(self.blocks - 1)
        return first, first + 1 + self.draws.randrange(min(self.blocks - first, self.most))

    def drawn_bytes(self):
        """Bytes of a few blocks, which often begin or end at a border of blocks, or next to one."""
        first, end = self.drawn_blocks()
        start = BLOCK * first + min(place_in_block(self.draws), BLOCK - 1)
        return start, max(BLOCK * (end - 1) + place_in_block(self.draws), start + 1)

    def write(self, start, end, byte):
        self.image.fill(start, end, byte)
        for block in self.image.touched(start, end):
            self.image.states[block] = DATA
            self.written.add(block)
        self.count += 1

    def zero(self, start, end, state):
        """The blocks that a range touches get this state, except data blocks that it covers in part."""
        self.image.fill(start, end, 0)
        for block in self.image.touched(start, end):
            if self.image.states[block] == DATA and block not in self.image.covered(start, end):
                self.written.add(block)
            else:
                self.image.states[block] = state
                self.written.discard(block)
        self.count += 1

    def trim(self, start, end):
        for block in self.image.covered(start, end):
            self.image.fill(block * BLOCK, (block + 1) * BLOCK, 0)
            self.image.states[block] = HOLE
            self.written.discard(block)
        self.count += 1

    def store(self):
        done = "done" if self.durable < self.count else "held"
        for line in ("seal", "append", "publish"):
            self.line(line, done)
        self.durable = self.count
        self.stored = self.image.copy()

    def answered(self, connection):
        self.printed.append(f"answer {connection} ok")

    def answered_stored(self, connection):
        """The answer, which waits until everything is stored, except in ordered."""
        if self.durable < self.count and self.mode != "ordered":
            self.printed.append("held")
            self.store()
            self.lines.append(f"answer {connection}")
        self.answered(connection)

    def command(self, connection, what, edit, *words):
        fua = self.draws.randrange(8) == 0
        self.ask(connection, what + " fua" * fua)
        edit(*words)
        (self.answered_stored if fua else self.answered)(connection)

    def put(self, connection):
        first, end = self.drawn_blocks()
        byte = self.draws.randrange(256)
        self.command(connection, f"put {first} {end - first} {byte:02x}", self.write, first * BLOCK, end * BLOCK, byte)

    def clear(self, connection):
        first, end = self.drawn_blocks()
        kind, state = self.draws.choice([("zero", ZERO), ("hole", HOLE)])
        self.command(connection, f"clear {kind} {first} {end - first}", self.zero, first * BLOCK, end * BLOCK, state)

    def put_bytes(self, connection):
        start, end = self.drawn_bytes()
        byte = self.draws.randrange(256)
        self.command(connection, f"bytes {start} {end - start} {byte:02x}", self.write, start, end, byte)

    def zero_bytes(self, connection):
        start, end = self.drawn_bytes()
        kind, state = self.draws.choice([("zero", ZERO), ("hole", HOLE)])
        self.command(connection, f"zeroes {start} {end - start} {kind}", self.zero, start, end, state)

    def trim_bytes(self, connection):
        start, end = self.drawn_bytes()
        self.command(connection, f"trim {start} {end - start}", self.trim, start, end)

    def flush(self, connection):
        self.ask(connection, "flush")
        self.answered_stored(connection)

    def read(self, connection):
        first, end = self.drawn_blocks()
        self.ask(connection, f"read {first} {end - first}")
        self.printed.append(f"answer {connection} bytes" + "".join(f" {self.image.first_byte(it):02x}" for it in range(first, end)))

    def status(self, connection):
        first, _ = self.drawn_blocks()
        self.ask(connection, f"status {first} {self.blocks - first}")
        states = self.image.states
        runs = self.image.runs(first, lambda one, other: states[one] == states[other])
        self.printed.append(f"answer {connection} runs" + "".join(f" {length}:{states[block]}" for block, length in runs))

    def checkpoint(self, connection):
        """A whole checkpoint, with a READ between its steps."""
        self.store()
        if self.durable == self.base:
            self.line("rotate", "held")
            return
        some = "done" if self.written else "held"
        self.line("rotate", "done")
        self.line("copy 999", some)
        self.read(connection)
        self.line("map", "done")
        self.line("finish", "done")
        self.line("clean", some)
        self.base = self.durable
        self.written.clear()

    def crash(self):
        """A crash: what was stored is found, and copied into map and data."""
        self.lines.append("crash " + self.draws.choice(["old", "new", f"{self.draws.randrange(256):02x}"]))
        self.image = self.stored.copy()
        self.count = self.base = self.durable
        self.written.clear()
        self.printed.append(f"opened {self.count}")
        image = self.image
        for block, length in image.runs(0, lambda one, other: (image.states[one], image.first_byte(one)) == (image.states[other], image.first_byte(other))):
            self.printed.append(f"run {block} {length} {'d?zh'[image.states[block]]} {image.first_byte(block):02x}")

    def turn(self):
        connection = 1 + self.draws.randrange(16)
        # Up to these limits commands always fit into the area, and blocks into the frames.
        if self.count - self.base > 60 or len(self.written) > MOST_WRITTEN:
            self.checkpoint(connection)
        kind = self.draws.randrange(50)
        if kind == 0:
            self.crash()
        elif kind == 1:
            self.checkpoint(connection)
        elif kind == 2:
            self.store()
        else:
            limits = (4, self.flush), (8, self.clear), (14, self.put), (21, self.put_bytes), (27, self.zero_bytes), (31, self.trim_bytes), (40, self.status), (50, self.read)
            next(step for limit, step in limits if kind < limit)(connection)


class Session:
    """The requests of one connection, their replies, and the bytes of the image."""

    def __init__(self, draws):
        self.draws = draws
        self.image = bytearray(SESSION_BLOCKS * BLOCK)
        self.cookie = 0

    def range(self):
        """A range over at most eight blocks: whole ones, or from within the first to within the last."""
        first = self.draws.randrange(SESSION_BLOCKS)
        length = BLOCK * (1 + self.draws.randrange(min(8, SESSION_BLOCKS - first)))
        if self.draws.randrange(2):
            return first * BLOCK, length
        front = min(place_in_block(self.draws), length - 1)
        return first * BLOCK + front, length - front - min(place_in_block(self.draws), length - 1 - front)

    def bytes(self, count):
        """Bytes that differ from place to place."""
        seed, step = self.draws.randrange(256), 1 + self.draws.randrange(97)
        return bytes((place * step + seed) % 256 for place in range(count))

    def turn(self):
        """A request, and its reply with data."""
        self.cookie += 1
        offset, length = self.range()
        fua = FUA * (self.draws.randrange(6) == 0)
        kind, flags = self.draws.choice([(FLUSH, 0), (TRIM, fua), (ZEROES, fua), (ZEROES, fua | NO_HOLE), *[(WRITE, fua)] * 5, *[(READ, fua)] * 7])
        data, shown = b"", b""
        if kind == FLUSH:
            offset = length = 0
        elif kind == WRITE:
            data = self.bytes(length)
            self.image[offset : offset + length] = data
        elif kind == READ:
            shown = bytes(self.image[offset : offset + length])
        else:
            start, end = offset, offset + length
            if kind == TRIM:
                # (parts of blocks stay as they are)
                start, end = -(-start // BLOCK) * BLOCK, end // BLOCK * BLOCK
            self.image[start:end] = bytes(max(end - start, 0))
        return request(kind, self.cookie, offset, length, flags) + data, reply(self.cookie) + shown

    def talk(self):
        turns = [self.turn() for _ in range(SESSION_TURNS)]
        turns.append((request(READ, 0, 0, len(self.image)) + request(DISC, 0, 0, 0), reply(0) + self.image))
        return b"".join(it[0] for it in turns), b"".join(it[1] for it in turns)


def check_script(seed, mode, blocks, area, most, turns):
    script = Script(random.Random(seed), blocks, area, most, mode)
    for _ in range(turns):
        script.turn()
    status, output, errors = run("rehearse", given="".join(f"{it}\n" for it in script.lines), seconds=120)
    printed = output.splitlines()
    name = f"the script of seed {seed} over {blocks} blocks {mode}".rstrip()
    check(f"how {name} ends", (0, "", len(script.printed)), (status, errors, len(printed)))
    differ = [place for place, (wanted, got) in enumerate(zip(script.printed, printed)) if wanted != got][:1]
    check(f"what {name} prints", [], [(place, script.printed[place], printed[place]) for place in differ])


def check_sessions(folder, seed, *words):
    session, image = Session(random.Random(seed)), os.path.join(folder, f"{seed}.img")
    format_image(image, "--blocks", str(SESSION_BLOCKS), "--area", str(2 * MIB))
    for number in range(SESSIONS):
        stream, replies = session.talk()
        status, output, errors = run("pipe", image, *words, given=stream, seconds=120)
        name = " ".join([f"session {number} of seed {seed}", *words])
        check(f"how {name} ends", (0, b"", len(replies)), (status, errors, len(output)))
        check(f"what {name} is answered", None, next((place for place, (one, other) in enumerate(zip(replies, output)) if one != other), None))


def main():
    with tempfile.TemporaryDirectory() as folder:
        for seed in SEEDS:
            for shape in SCRIPTS:
                check_script(seed, "", *shape)
            check_script(seed, "ordered", *SCRIPTS[0])
            check_sessions(folder, seed)
        check_sessions(folder, SEEDS[0] + 1, "--cache", "ordered")
    return checks.finish()


if __name__ == "__main__":
    sys.exit(main())
