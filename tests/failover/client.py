#!/usr/bin/env python3
"""A client that knows what it may expect. It writes blocks of 4 KiB one after another, each with a number of its own, and sends a FLUSH after
each few. When its connection ends it connects anew, until it can, and reads all blocks back: they have to be the image after some prefix
of its writes, and the prefix has to have every write that a FLUSH confirmed.

Prints a line for each event and a summary. Exit status: 0 all was there; 1 a confirmed write is lost, or the image is that of no prefix;
2 it could not connect any more.
"""
import argparse
import os
import random
import struct
import sys
import time

import nbd

BLOCK = 4096


class Gone(Exception):
    """The connection has ended, or no answer came in time."""


class Connection:
    """A connection of which no call waits for longer than its patience; those of the kernel wait for a quarter of an hour."""

    def __init__(self, uri, patience):
        self.patience = patience
        self.handle = nbd.NBD()
        self.handle.aio_connect_uri(uri)
        self.poll(self.handle.aio_is_ready)

    def poll(self, is_done):
        end = time.monotonic() + self.patience
        while not is_done():
            left = end - time.monotonic()
            if left <= 0 or self.handle.aio_is_dead() or self.handle.aio_is_closed():
                raise Gone("no answer in time" if left <= 0 else "the connection has ended")
            self.handle.poll(int(min(left, 0.2) * 1000) + 1)

    def call(self, name, *arguments):
        try:
            cookie = getattr(self.handle, "aio_" + name)(*arguments)
            self.poll(lambda: self.handle.aio_command_completed(cookie))
        except nbd.Error as error:
            raise Gone(f"{name}: {error.errno or error.string}") from error


class Client:
    def __init__(self, options):
        self.options = options
        self.drawn = random.Random(options.seed)
        # Which block each write went to; the first one has the number 1.
        self.history = [None]
        self.confirmed = 0
        self.gaps = []
        self.rounds = []
        self.answered = time.monotonic()

    def say(self, text):
        print(f"{time.strftime('%H:%M:%S', time.gmtime())}.{int(time.time() * 1000) % 1000:03d} {self.options.name}: {text}", flush=True)

    def connect(self):
        begin = time.monotonic()
        fault = None
        while time.monotonic() - begin < self.options.patience:
            try:
                return Connection(self.options.uri, self.options.timeout)
            except (nbd.Error, Gone) as error:
                fault = error
                time.sleep(0.1)
        self.say(f"gave up connecting: {fault}")
        return sys.exit(2)

    def bytes_of(self, number, at):
        return struct.pack("<QQ", number, at) * (BLOCK // 16)

    def found(self, connection):
        """The number of the write that each block holds, 0 for none."""
        numbers = []
        for at in range(self.options.blocks):
            if at % 128 == 0:
                count = min(128, self.options.blocks - at)
                buffer = nbd.Buffer(count * BLOCK)
                connection.call("pread", buffer, (self.options.base + at) * BLOCK)
                data = bytes(buffer.to_bytearray())
            block = data[at % 128 * BLOCK:(at % 128 + 1) * BLOCK]
            number = struct.unpack_from("<Q", block)[0]
            if number and block != self.bytes_of(number, at) or not number and any(block):
                self.say(f"BAD: block {at} is torn, or another's")
                sys.exit(1)
            numbers.append(number)
        return numbers

    def after(self, count):
        """What each block holds after the first writes."""
        numbers = [0] * self.options.blocks
        for number in range(1, count + 1):
            numbers[self.history[number]] = number
        return numbers

    def verify(self, connection):
        """Whether the image is that after a prefix with all that was confirmed, which is the history from now on."""
        found = self.found(connection)
        count = max(found)
        if count >= len(self.history):
            self.say(f"BAD: write {count} was never sent")
            sys.exit(1)
        others = sum(it != wanted for it, wanted in zip(found, self.after(count)))
        lost = sum(it < wanted for it, wanted in zip(found, self.after(self.confirmed)))
        self.say(f"read back: the first {count} writes; {self.confirmed} confirmed, {len(self.history) - 1} sent; blocks that differ {others}, confirmed and lost {lost}")
        if others or lost or count < self.confirmed:
            self.say("BAD: this is the image after no prefix with all that was confirmed")
            sys.exit(1)
        self.history = self.history[:count + 1]

    def round(self, connection):
        begin = time.monotonic()
        for _ in range(self.options.per_flush):
            at = self.drawn.randrange(self.options.blocks)
            number = len(self.history)
            self.history.append(at)
            connection.call("pwrite", self.bytes_of(number, at), (self.options.base + at) * BLOCK)
        sent = len(self.history) - 1
        connection.call("flush")
        self.confirmed = sent
        self.answered = time.monotonic()
        self.rounds.append(self.answered - begin)

    def go_on(self):
        """A new connection, once what is found over it is as it has to be."""
        while True:
            connection = self.connect()
            try:
                self.verify(connection)
                return connection
            except Gone as fault:
                self.say(f"connection lost again: {fault}")
                time.sleep(0.1)

    def run(self):
        connection = self.go_on()
        end = time.monotonic() + self.options.seconds
        while time.monotonic() < end or self.options.until and not os.path.exists(self.options.until):
            try:
                self.round(connection)
            except Gone as fault:
                lost = time.monotonic()
                self.say(f"connection lost: {fault}; {self.confirmed} confirmed, {len(self.history) - 1} sent")
                connection = self.go_on()
                self.gaps.append(time.monotonic() - self.answered)
                self.say(f"goes on after {self.gaps[-1]:.2f} s without an answer")
                end += time.monotonic() - lost
        self.verify(connection)
        rounds = sorted(self.rounds)
        middle = rounds[len(rounds) // 2] * 1000 if rounds else 0
        self.say(f"summary: {len(rounds)} rounds of {self.options.per_flush} writes and a FLUSH, {len(rounds) / max(sum(rounds), 1e-9):.0f} a second, median {middle:.1f} ms, longest {rounds[-1] * 1000 if rounds else 0:.0f} ms; connections lost {len(self.gaps)}, gaps {[round(gap, 2) for gap in self.gaps]} s")
        connection.handle.shutdown()


def main():
    parser = argparse.ArgumentParser(description=__doc__)
    parser.add_argument("uri")
    parser.add_argument("seconds", type=float)
    parser.add_argument("--until", help="goes on, however long that takes, until this file is there")
    parser.add_argument("--blocks", type=int, default=512)
    parser.add_argument("--base", type=int, default=0, help="its first block in the image")
    parser.add_argument("--name", default="client")
    parser.add_argument("--per-flush", type=int, default=4)
    parser.add_argument("--seed", type=int, default=1)
    parser.add_argument("--timeout", type=float, default=3, help="seconds without an answer after which it gives a connection up")
    parser.add_argument("--patience", type=float, default=90, help="seconds for which it tries to connect")
    Client(parser.parse_args()).run()


if __name__ == "__main__":
    main()
