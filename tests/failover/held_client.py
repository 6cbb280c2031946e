#!/usr/bin/env python3
"""A client that does what it is told, on one connection: held_client.py URI BLOCK, and on standard input lines `write BYTE`, `flush`, `read`, or
`watch SECONDS`, which reads the block ten times a second and tells from when to when it was answered what. Prints a line for each."""
import sys
import time

import nbd


def stamp():
    return f"{time.strftime('%H:%M:%S', time.gmtime())}.{int(time.time() * 1000) % 1000:03d}"


def watch(handle, at, seconds):
    end = time.monotonic() + seconds
    last = None
    while time.monotonic() < end:
        try:
            last = (bytes(handle.pread(1, at)), time.time())
        except nbd.Error as error:
            return f"{last[0]!r} until {last[1]:.2f}, then {error.errno or error.string}"
        time.sleep(0.1)
    return f"{last[0]!r} until {last[1]:.2f}, and no end"


def carry_out(handle, at, words):
    try:
        match words:
            case ["write", byte]:
                handle.pwrite(byte.encode() * 4096, at)
            case ["flush"]:
                handle.flush()
            case ["read"]:
                return repr(bytes(handle.pread(1, at)))
            case ["watch", seconds]:
                return watch(handle, at, float(seconds))
        return "Ok"
    except nbd.Error as error:
        return error.errno or error.string


def main():
    handle = nbd.NBD()
    handle.connect_uri(sys.argv[1])
    for line in sys.stdin:
        words = line.split()
        print(f"{stamp()} held client: {' '.join(words)}: {carry_out(handle, int(sys.argv[2]) * 4096, words)}", flush=True)


if __name__ == "__main__":
    main()
