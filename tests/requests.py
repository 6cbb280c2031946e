#!/usr/bin/env python3
"""Requests of any bytes, and the ways to begin a session, over sockets of `serve` of the built program NBDJ: bytes in, bytes out.

Each stream is sent in one piece and, if it is shorter than 400 bytes, in two pieces, split at each place. The expected answers were
computed by hand. Prints a line for each check that fails, and last 'N passed, M failed'.
"""
import contextlib
import socket
import struct
import sys
import time

import checks
from checks import (
    BLOCK, DF, DISC, FLUSH, FUA, LONG_HANDSHAKE, MIB, NO_HOLE, READ, REQ_ONE, STATUS, TRIM, WRITE, ZEROES, check, connect, reply, request,
    serve_new, shake,
)

MOST_SPLIT = 400
GREETING = bytes.fromhex("4e42444d41474943 49484156454f5054 0003")


def of(*parts):
    """Bytes, and hexadecimal digits."""
    return b"".join(bytes.fromhex(part) if isinstance(part, str) else part for part in parts)


def connect_structured(path):
    """A client that has structured replies and the context."""
    client = connect(path)
    shake(client, LONG_HANDSHAKE)
    return client


def take_until_reset(client, count):
    """This many bytes; fewer if the server closes, also by a reset because of input that it hasn't read."""
    found = b""
    with contextlib.suppress(ConnectionResetError):
        while len(found) < count and (piece := client.recv(count - len(found))):
            found += piece
    return found


def answers(begin, path, pieces, count):
    """What the pieces are answered, up to one byte more than `count`; the client ends its side after them."""
    with begin(path) as client:
        for piece in pieces:
            # (the server may close before it has read all)
            with contextlib.suppress(OSError):
                client.sendall(piece)
        with contextlib.suppress(OSError):
            client.shutdown(socket.SHUT_WR)
        return take_until_reset(client, count + 1)


def check_stream(name, begin, path, sent, wanted):
    """Checks the answers to a stream that is sent in one piece, and in two, split at each place."""
    check(name, wanted.hex(" ", 4), answers(begin, path, [sent], len(wanted)).hex(" ", 4))
    if len(sent) < MOST_SPLIT:
        wrong = [place for place in range(1, len(sent)) if answers(begin, path, [sent[:place], sent[place:]], len(wanted)) != wanted]
        check(f"{name}: split, where the answers differ", [], wrong[:9])


# Before each of these comes a WRITE of block 0, all bytes 'A', in an image of 16 blocks. Each can be sent again with the same answers.
FIRST = request(WRITE, 1, 0, BLOCK) + b"A" * BLOCK

REQUESTS = [
    ("the states of a range within blocks", request(STATUS, 11, 100, 5000),
     of("668e33ef 0001 0005 000000000000000b 00000014 00000001 00000f9c 00000000 000003ec 00000003")),
    ("one state of it", request(STATUS, 12, 100, 5000, REQ_ONE),
     of("668e33ef 0001 0005 000000000000000c 0000000c 00000001 00000f9c 00000000")),
    ("a read over the end of data", request(READ, 13, 4000, 200),
     of("668e33ef 0000 0001 000000000000000d 00000068 0000000000000fa0", b"A" * 96,
        "668e33ef 0001 0002 000000000000000d 0000000c 0000000000001000 00000068")),
    ("the same as one chunk", request(READ, 14, 4000, 200, DF),
     of("668e33ef 0001 0001 000000000000000e 000000d0 0000000000000fa0", b"A" * 96, bytes(104))),
    ("a read of the last byte", request(READ, 15, 65535, 1),
     of("668e33ef 0001 0002 000000000000000f 0000000c 000000000000ffff 00000001")),
    ("a read of one byte more", request(READ, 16, 65535, 2),
     of("668e33ef 0001 8001 0000000000000010 00000006 00000016 0000")),
    ("a write of one byte more", request(WRITE, 17, 65535, 2) + b"xy", reply(17, 28)),
    ("zeroes of a block, and states from a byte before to a byte after", request(ZEROES, 18, BLOCK, BLOCK, NO_HOLE) + request(STATUS, 19, 4095, 4098),
     of(reply(18), "668e33ef 0001 0005 0000000000000013 0000001c 00000001 00000001 00000000 00001000 00000002 00000001 00000003")),
    ("the state of a range inside a block", request(STATUS, 20, 4097, 10),
     of("668e33ef 0001 0005 0000000000000014 0000000c 00000001 0000000a 00000003")),
    ("a write with FUA over two holes, and a read around it", request(WRITE, 21, 8191, 3, FUA) + b"abc" + request(READ, 22, 8190, 6),
     of(reply(21), "668e33ef 0001 0001 0000000000000016 0000000e 0000000000001ffe 006162630000")),
    ("zeroes over the end of data, its states and its bytes",
     request(ZEROES, 23, 3840, 512) + request(STATUS, 24, 0, 12288) + request(READ, 25, 3839, 2),
     of(reply(23), "668e33ef 0001 0005 0000000000000018 00000014 00000001 00001000 00000000 00002000 00000003",
        "668e33ef 0001 0001 0000000000000019 0000000a 0000000000000eff 4100")),
    ("a trim inside blocks", request(TRIM, 26, 1, 8190) + request(READ, 27, 4095, 1),
     of(reply(26), "668e33ef 0001 0001 000000000000001b 00000009 0000000000000fff 41")),
    ("a trim of a block and a byte, and the block written again", request(TRIM, 28, 0, 4097) + request(READ, 29, 4095, 2) + FIRST,
     of(reply(28), "668e33ef 0001 0002 000000000000001d 0000000c 0000000000000fff 00000002", reply(1))),
    ("the states of data, zeroes and a hole, and the first of them",
     request(ZEROES, 5, BLOCK, BLOCK, NO_HOLE) + request(STATUS, 6, 0, 12288) + request(STATUS, 7, 0, 12288, REQ_ONE),
     of(reply(5), "668e33ef 0001 0005 0000000000000006 0000001c 00000001 00001000 00000000 00001000 00000002 00001000 00000003",
        "668e33ef 0001 0005 0000000000000007 0000000c 00000001 00001000 00000000")),
    ("a read of a block of data and a hole, and the same as one chunk", request(READ, 10, 0, 8192) + request(READ, 10, 0, 8192, DF),
     of("668e33ef 0000 0001 000000000000000a 00001008 0000000000000000", b"A" * BLOCK,
        "668e33ef 0001 0002 000000000000000a 0000000c 0000000000001000 00001000",
        "668e33ef 0001 0001 000000000000000a 00002008 0000000000000000", b"A" * BLOCK, bytes(BLOCK))),
    ("a read of a hole", request(READ, 31, 8192, BLOCK), of("668e33ef 0001 0002 000000000000001f 0000000c 0000000000002000 00001000")),
    ("a flush of a block", request(FLUSH, 32, BLOCK, 0) + request(FLUSH, 33, 0, BLOCK), of(reply(32, 22), reply(33, 22))),
]

NOTHING = [
    (f"{what} of no byte at {place}", request(kind, 30, place, 0),
     of("668e33ef 0001 8001 000000000000001e 00000006 00000016 0000") if kind in (READ, STATUS) else reply(30, 22))
    for what, kind in (("a read", READ), ("a write", WRITE), ("a trim", TRIM), ("zeroes", ZEROES), ("states", STATUS))
    for place in (0, 5, 65536, 65537)
]

EXPORT_NAME = "49484156454f5054 00000001 00000000"
# The export of 16 blocks, with simple replies.
EXPORT = "0000000000010000 016d"

BEGINNINGS = [
    ("the name of the export, without zeroes", of("00000003", EXPORT_NAME), of(GREETING, EXPORT)),
    ("the name of the export, with zeroes", of("00000001", EXPORT_NAME), of(GREETING, EXPORT, bytes(124))),
    ("the name after structured replies", of("00000003 49484156454f5054 00000008 00000000", EXPORT_NAME),
     of(GREETING, "0003e889045565a9 00000008 00000001 00000000", "0000000000010000 01ed")),
    ("the name of another export", of("00000003 49484156454f5054 00000001 00000001 61"), GREETING),
    ("a GO that asks for nothing, and a read of a byte",
     of("00000003 49484156454f5054 00000007 00000006 00000000 0000", request(READ, 2, 0, 1)),
     of(GREETING, "0003e889045565a9 00000007 00000003 0000000c 0000", EXPORT, "0003e889045565a9 00000007 00000001 00000000",
        reply(2), "00")),
    ("an INFO that asks for sizes, and an ABORT",
     of("00000003 49484156454f5054 00000006 00000008 00000000 0001 0003", "49484156454f5054 00000002 00000000"),
     of(GREETING, "0003e889045565a9 00000006 00000003 0000000c 0000", EXPORT,
        "0003e889045565a9 00000006 00000003 0000000e 0003 00000001 00001000 00100000", "0003e889045565a9 00000006 00000001 00000000",
        "0003e889045565a9 00000002 00000001 00000000")),
    ("the name of the export and a flush at once", of("00000001", EXPORT_NAME, request(FLUSH, 5)),
     of(GREETING, EXPORT, bytes(124), reply(5))),
]


def requests(folder):
    for number, (name, sent, wanted) in enumerate(REQUESTS):
        with serve_new(folder, f"requests-{number}", 16) as path:
            check(f"{name}: the first write", reply(1), answers(connect_structured, path, [FIRST], 16))
            check_stream(name, connect_structured, path, sent, wanted)
            check_stream(f"{name}, and a DISC", connect_structured, path, sent + request(DISC, 9, 7, 7), wanted)


def nothing(folder):
    with serve_new(folder, "nothing", 16) as path:
        hole = of("668e33ef 0001 0002 0000000000000007 0000000c 0000000000000000 00001000")
        check_stream("a read of a new image", connect_structured, path, request(READ, 7, 0, BLOCK), hole)
        for name, sent, wanted in NOTHING:
            check_stream(name, connect_structured, path, sent, wanted)


def beginnings(folder):
    with serve_new(folder, "beginnings", 16) as path:
        for name, sent, wanted in BEGINNINGS:
            check_stream(name, connect, path, sent, wanted)


def by_turns(folder):
    """2,050 blocks, of which the even ones are data, all bytes 'A': states and bytes from byte 1 on."""
    with serve_new(folder, "turns", 2050) as path:
        for begin in range(0, 2050, 256):
            even = range(begin, min(begin + 256, 2050), 2)
            sent = b"".join(request(WRITE, 1, block * BLOCK, BLOCK) + b"A" * BLOCK for block in even)
            check(f"the even blocks from {begin} on", True, answers(connect_structured, path, [sent], 16 * len(even)) == reply(1) * len(even))
        check_stream("1,024 states of many", connect_structured, path, request(STATUS, 255, 1, 2050 * BLOCK - 2),
             of("668e33ef 0001 0005 00000000000000ff 00002004 00000001 00000fff 00000000", "00001000 00000003 00001000 00000000" * 511, "00001000 00000003"))
        # 257 blocks are touched, the last one by one byte.
        wanted = of("668e33ef 0000 0001 0000000000000007 00001007 0000000000000001", b"A" * 4095)
        for block in range(1, 256, 2):
            place = struct.pack(">Q", block * BLOCK)
            wanted += of("668e33ef 0000 0002 0000000000000007 0000000c", place, "00001000")
            if block < 255:
                place = struct.pack(">Q", (block + 1) * BLOCK)
                wanted += of("668e33ef 0000 0001 0000000000000007 00001008", place, b"A" * BLOCK)
        wanted += of("668e33ef 0001 0001 0000000000000007 00000009 0000000000100000 41")
        found = answers(connect_structured, path, [request(READ, 7, 1, MIB)], len(wanted))
        check("a read of 1 MiB from byte 1 on", True, found == wanted or (len(wanted), len(found)))


# Each type, with the flags that it may have besides FUA, and the answer if it succeeds; what is read is a hole.
TYPES = [
    (READ, DF, f"668e33ef 0001 0002 %016x 0000000c {15 * BLOCK:016x} 00001000"),
    (WRITE, 0, "67446698 00000000 %016x"),
    (FLUSH, 0, "67446698 00000000 %016x"),
    (TRIM, 0, "67446698 00000000 %016x"),
    (5, None, ""),
    (ZEROES, NO_HOLE, "67446698 00000000 %016x"),
    (STATUS, REQ_ONE, "668e33ef 0001 0005 %016x 0000000c 00000001 00001000 00000003"),
    (8, None, ""),
    (0xFFFF, None, ""),
]


def flags(folder):
    """Each type of request with each flag by itself."""
    with serve_new(folder, "flags", 16) as path:
        for kind, allowed, done in TYPES:
            sent = wanted = b""
            for bit in range(16):
                cookie, flag = 0x0102030405060700 + bit, 1 << bit
                place = (0, 0) if kind == FLUSH else ((15 if kind in (READ, STATUS) else 1) * BLOCK, BLOCK)
                sent += request(kind, cookie, *place, flag) + b"A" * (BLOCK * (kind == WRITE))
                if allowed is not None and flag & (FUA | allowed):
                    # (with DF the reply has the bytes of a hole)
                    wanted += of(f"668e33ef 0001 0001 {cookie:016x} 00001008 {15 * BLOCK:016x}", bytes(BLOCK)) if flag == DF else of(done % cookie)
                else:
                    wanted += of(f"668e33ef 0001 8001 {cookie:016x} 00000006 00000016 0000") if kind in (READ, STATUS) else reply(cookie, 22)
            check(f"type {kind} with each flag", True, answers(connect_structured, path, [sent], len(wanted)) == wanted)
        for bit in range(16):
            check(f"a DISC with flag {bit}", b"", answers(connect_structured, path, [request(DISC, 1, 0, 0, 1 << bit) + request(FLUSH, 2)], 1))


def lengths(folder):
    """WRITEs that are accepted, dropped and not read, their heads cut in two, and a wrong magic number after a request."""
    with serve_new(folder, "lengths", 2050) as path:
        for length, error in ((0, 22), (1, 0), (BLOCK, 0), (MIB, 0), (MIB + 1, 22), (32 * MIB, 22)):
            head = request(WRITE, 8, 0, length)
            for cut in (0, 1, 27, 28):
                pieces = [head[:cut], head[cut:], bytes([7]) * length, request(FLUSH, 9)]
                check(f"a WRITE of {length} bytes, cut at {cut}", reply(8, error) + reply(9), answers(connect_structured, path, pieces, 32))
        check("a WRITE that is too long", reply(7), answers(connect_structured, path, [request(FLUSH, 7) + request(WRITE, 8, 0, 32 * MIB + 1)], 16))
        for place in range(4):
            broken = bytearray(request(FLUSH, 8))
            broken[place] ^= 1
            sent = request(FLUSH, 7) + broken + request(FLUSH, 9)
            check(f"another magic number at {place}", reply(7), answers(connect_structured, path, [sent], 16))


def runs(folder):
    """Of an image in which every second block is data BLOCK_STATUS tells 1,024 runs, each of a block, and with REQ_ONE one."""
    with serve_new(folder, "runs", 2050, "--frames", "4096") as path, connect_structured(path) as client:
        for block in range(0, 2050, 2):
            client.sendall(request(WRITE, block, block * BLOCK, BLOCK) + b"A" * BLOCK)
        check("the blocks are written", b"".join(reply(block) for block in range(0, 2050, 2)), checks.take(client, 1025 * 16))
        client.sendall(request(STATUS, 1, 0, 2050 * BLOCK) + request(STATUS, 2, 0, 2050 * BLOCK, REQ_ONE))
        told = b"".join(struct.pack(">II", BLOCK, 0 if block % 2 == 0 else 3) for block in range(1024))
        wanted = of("668e33ef 0001 0005 0000000000000001 00002004 00000001", told, "668e33ef 0001 0005 0000000000000002 0000000c 00000001 00001000 00000000")
        check("the states of 2,050 blocks", True, checks.take(client, len(wanted)) == wanted)


def buffers(folder):
    """READs whose lengths rise and fall, on two connections, with other requests between them. A short READ takes the buffer of the one before it."""
    blocks, lengths = 64, (1, BLOCK, 512, 65535, 65536, 65537, BLOCK - 1, 3, 2 * 65536, 100, BLOCK + 1, 2)
    image = bytearray((place * 7 + place // BLOCK * 13) % 251 for place in range(blocks * BLOCK))
    with serve_new(folder, "buffers", blocks) as path, connect(path) as one, connect(path) as other:
        for client in (one, other):
            shake(client)
        one.sendall(request(WRITE, 1, 0, len(image)) + image)
        check("the image is written", reply(1), checks.take(one, 16))
        for turn, length in enumerate(lengths * 2):
            place = turn * 5003 % (len(image) - length + 1)
            for client, offset in ((one, place), (other, len(image) - length - place), (one, 0)):
                # (two at once: the second one's buffer is the first one's)
                client.sendall(request(READ, turn, offset, length) + request(READ, turn + 1, offset // 2, length))
                wanted = reply(turn) + image[offset:offset + length] + reply(turn + 1) + image[offset // 2:offset // 2 + length]
                found = checks.take(client, len(wanted))
                check(f"READs of {length} bytes at {offset} and {offset // 2}, turn {turn}", True, found == wanted or (len(wanted), len(found)))
            image[place:place + 3] = bytes((turn, 255, turn))
            other.sendall(request(WRITE, 3, place, 3) + bytes((turn, 255, turn)) + request(FLUSH, 4))
            check(f"a WRITE and a FLUSH, turn {turn}", reply(3) + reply(4), checks.take(other, 32))


def data(folder):
    """WRITEs whose lengths rise and fall, on two connections: the data of one come to lie where those of an earlier one were."""
    blocks, lengths = 512, (BLOCK, 1, MIB, BLOCK, 512, 2 * BLOCK, BLOCK + 1, 3 * BLOCK, BLOCK, 65536, MIB // 2, BLOCK - 1, MIB, 2, BLOCK, 65536)
    image, pattern = bytearray(blocks * BLOCK), bytes(range(251)) * (MIB // 251 + 2)
    with serve_new(folder, "data", blocks) as path, connect(path) as one, connect(path) as other:
        for client in (one, other):
            shake(client)
        # (first at whole blocks, then anywhere)
        for turn, (step, length) in enumerate((step, length) for step in (BLOCK, 1) for length in lengths):
            for number, client in enumerate((one, other)):
                sent = []
                for cookie in range(2):
                    place = (turn * 5003 + number * 700001 + cookie * BLOCK) % (len(image) - length + 1) // step * step
                    first = (turn * 31 + number * 11 + cookie * 5) % 251
                    image[place:place + length] = pattern[first:first + length]
                    sent.append(request(WRITE, cookie, place, length) + pattern[first:first + length])
                client.sendall(b"".join([*sent, request(FLUSH, 2)]))
                check(f"data of {length} bytes, turn {turn}", reply(0) + reply(1) + reply(2), checks.take(client, 48))
            one.sendall(request(READ, 3, 0, MIB) + request(READ, 4, MIB, MIB))
            wanted = reply(3) + image[:MIB] + reply(4) + image[MIB:]
            check(f"the image, turn {turn}", True, checks.take(one, len(wanted)) == wanted)


def unread(folder):
    """A client that doesn't read yet what a long READ was answered: its next request is served all the same."""
    with serve_new(folder, "unread", 128) as path, connect(path) as one, connect(path) as other:
        for client in (one, other):
            shake(client)
        # (Linux keeps 208 KiB of replies for a Unix socket, or a chunk more, unless the server asks for more room)
        length, end = 400 * 1024, time.monotonic() + 20
        one.sendall(request(READ, 1, 0, length) + request(WRITE, 2, length, BLOCK) + bytes([9]) * BLOCK)
        found = b"\0"
        while found == b"\0" and time.monotonic() < end:
            other.sendall(request(READ, 3, length, 1))
            found = checks.take(other, 17)[16:]
        check("unread: the WRITE after a long READ", bytes([9]), found)
        check("unread: what was answered", True, checks.take(one, 16 + length + 16) == reply(1) + bytes(length) + reply(2))


def ordered(folder):
    """In ordered a FLUSH and FUA are answered Ok, though they make nothing durable. Invalid requests are refused as in other modes."""
    with serve_new(folder, "ordered", 16, "--cache", "ordered", "--flush-interval", "0") as path:
        sent = FIRST + request(WRITE, 2, BLOCK, 4, FUA) + b"BBBB" + request(FLUSH, 3) + request(FLUSH, 4, 1, 0) + request(TRIM, 5, 0, BLOCK, FUA)
        check_stream("requests in ordered", connect_structured, path, sent, reply(1) + reply(2) + reply(3) + reply(4, 22) + reply(5))


if __name__ == "__main__":
    sys.exit(checks.run_scenarios((requests, nothing, beginnings, by_turns, flags, lengths, runs, buffers, data, unread, ordered)))
