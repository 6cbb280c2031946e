#!/usr/bin/env python3
"""Handshakes over a socket of `serve` of the built program NBDJ, bytes in and bytes out: each option in each state of the handshake, what
follows it, data that are too long, and sessions that are broken off.

An EXPORT_NAME and requests after an option show what it has changed. The expected answers were written by hand.
Prints a line for each check that fails, and last 'N passed, M failed'.
"""
import os
import re
import struct
import subprocess
import sys

import checks
from checks import BLOCK, DISC, FLUSH, READ, STATUS, WRITE, check, connect, format_image, read_address, reply, request, run, serve, serve_new
from requests import GREETING, answers, check_stream, of

MAGIC, REPLY = "49484156454f5054", "0003e889045565a9"
ABORT, LIST, STARTTLS, INFO, GO, STRUCTURED_REPLY, LIST_CONTEXT, SET_CONTEXT = 2, 3, 5, 6, 7, 8, 9, 10
ALLOCATION = "626173653a616c6c6f636174696f6e"
# A byte of the last block, which is a hole.
LAST = 15 * BLOCK


def option(number, data=""):
    data = of(data)
    return of(MAGIC) + struct.pack(">II", number, len(data)) + data


def option_reply(number, kind, data=""):
    data = of(data)
    return of(REPLY) + struct.pack(">III", number, kind, len(data)) + data


def ack(number):
    return option_reply(number, 1)


def error_reply(number, error):
    return option_reply(number, 0x80000000 + error)


def export(flags):
    return option_reply(GO, 3, f"0000 0000000000010000 {flags}")


EXPORTS = of(option_reply(LIST, 2, "00000000"), ack(LIST))
SELECT, SELECTS = f"00000000 00000001 0000000f {ALLOCATION}", of(option_reply(SET_CONTEXT, 4, f"00000001 {ALLOCATION}"), ack(SET_CONTEXT))
GO_TOLD = of(option_reply(GO, 3, "0000 0000000000010000 01ed"), option_reply(GO, 3, "0003 00000001 00001000 00100000"), ack(GO))
INFO_TOLD = of(option_reply(INFO, 3, "0000 0000000000010000 016d"), option_reply(INFO, 3, "0003 00000001 00001000 00100000"), ack(INFO))
LISTED = of(option_reply(LIST_CONTEXT, 4, f"00000000 {ALLOCATION}"), ack(LIST_CONTEXT))

# A state of the handshake: what leads to it, the answers to that, the transmission flags, and the replies to a READ and a BLOCK_STATUS.
PLAIN = (b"", b"", "016d", of(reply(5), "00", reply(6, 22)))
NO_STATES = "668e33ef 0001 8001 0000000000000006 00000006 00000016 0000"
STATES = "668e33ef 0001 0005 0000000000000006 0000000c 00000001 00001000 00000003"
CHUNK = f"668e33ef 0001 0002 0000000000000005 0000000c {LAST:016x} 00000001"
STRUCTURED = (option(STRUCTURED_REPLY), ack(STRUCTURED_REPLY), "01ed", of(CHUNK, NO_STATES))
SELECTED = (STRUCTURED[0] + option(SET_CONTEXT, SELECT), STRUCTURED[1] + SELECTS, "01ed", of(CHUNK, STATES))

PROBES = request(READ, 5, LAST, 1) + request(STATUS, 6, LAST, BLOCK)
NEXT_OPTION, TRANSMISSION, NOTHING = "an option", "transmission", "nothing"

# An option with its data, the state before it, the answer, the state after it, and what follows.
OPTIONS = [
    (ABORT, "07", SELECTED, ack(ABORT), SELECTED, NOTHING),
    (LIST, "", STRUCTURED, EXPORTS, STRUCTURED, NEXT_OPTION),
    (LIST, "00", PLAIN, error_reply(LIST, 3), PLAIN, NEXT_OPTION),
    (STARTTLS, "", PLAIN, error_reply(STARTTLS, 1), PLAIN, NEXT_OPTION),
    (STRUCTURED_REPLY, "", PLAIN, ack(STRUCTURED_REPLY), STRUCTURED, NEXT_OPTION),
    (STRUCTURED_REPLY, "", SELECTED, ack(STRUCTURED_REPLY), SELECTED, NEXT_OPTION),
    (STRUCTURED_REPLY, "00000000", PLAIN, error_reply(STRUCTURED_REPLY, 3), PLAIN, NEXT_OPTION),
    *[(number, data, SELECTED, error_reply(number, 1), SELECTED, NEXT_OPTION) for number, data in (
        (11, "ff"), (0, ""), (4, "0102"), (11, ""), (0x07000000, "00000000 0000"), (0xFFFFFFFF, "ff"), (STARTTLS, "09"),
    )],
    # The name of the export, and of another one.
    (1, "61", PLAIN, b"", PLAIN, NOTHING),
    (1, "00000000", PLAIN, b"", PLAIN, NOTHING),
    # Options that ask for information.
    (GO, "00000000 0001 0003", STRUCTURED, GO_TOLD, STRUCTURED, TRANSMISSION),
    (GO, "00000000 0002 0000 0001", SELECTED, of(export("01ed"), ack(GO)), SELECTED, TRANSMISSION),
    (GO, "00000001 78 0001 0003", PLAIN, error_reply(GO, 6), PLAIN, NEXT_OPTION),
    (GO, "00000005 0000", PLAIN, error_reply(GO, 3), PLAIN, NEXT_OPTION),
    (INFO, "00000000 0002 0101 0003", PLAIN, INFO_TOLD, PLAIN, NEXT_OPTION),
    *[(number, data, PLAIN, error_reply(number, 3), PLAIN, NEXT_OPTION) for number, data in (
        # Counts that are too small or too large, half a type after the last one, a name that is longer than the data.
        (GO, "00000000 0001 0003 0102"), (INFO, "00000000 0003 0003 0102"), (GO, "00000000 ffff 0003"), (GO, "00000000 0001 0003 01"),
        (INFO, "ffffffff 0000"),
        # Data that end early.
        *[(GO, of("00000000 0001 0003")[:end]) for end in range(8)], *[(INFO, of("00000000 0002 0000 0003")[:end]) for end in range(10)],
    )],
    (INFO, "00000000 0000", PLAIN, of(option_reply(INFO, 3, "0000 0000000000010000 016d"), ack(INFO)), PLAIN, NEXT_OPTION),
    # Selections of contexts, and lists of them.
    (SET_CONTEXT, SELECT, PLAIN, error_reply(SET_CONTEXT, 3), PLAIN, NEXT_OPTION),
    (SET_CONTEXT, SELECT, STRUCTURED, SELECTS, SELECTED, NEXT_OPTION),
    (SET_CONTEXT, SELECT, SELECTED, SELECTS, SELECTED, NEXT_OPTION),
    (SET_CONTEXT, "00000000 00000001 00000005 626173653a", SELECTED, ack(SET_CONTEXT), STRUCTURED, NEXT_OPTION),
    (SET_CONTEXT, "00000000 00000000", SELECTED, ack(SET_CONTEXT), STRUCTURED, NEXT_OPTION),
    (SET_CONTEXT, "00000001 78 00000000", SELECTED, error_reply(SET_CONTEXT, 6), STRUCTURED, NEXT_OPTION),
    (SET_CONTEXT, "00000000", SELECTED, error_reply(SET_CONTEXT, 3), STRUCTURED, NEXT_OPTION),
    *[(SET_CONTEXT, data, SELECTED, error_reply(SET_CONTEXT, 3), STRUCTURED, NEXT_OPTION) for data in (
        "00000000 00000002 00000001 78", "00000000 00000000 00000001 78", "00000000 ffffffff 00000001 78", "00000000 00000001 ffffffff 78",
        *[of(SELECT)[:end] for end in range(27)],
    )],
    *[(LIST_CONTEXT, data, SELECTED, error_reply(LIST_CONTEXT, 3), SELECTED, NEXT_OPTION) for data in (
        "00000005 6162", "00000000 00000001 00000001 7800", *[of("00000000 00000001 00000001 78")[:end] for end in range(13)],
    )],
    (LIST_CONTEXT, "00000000 00000000", PLAIN, error_reply(LIST_CONTEXT, 3), PLAIN, NEXT_OPTION),
    (LIST_CONTEXT, "00000000 00000000", SELECTED, LISTED, SELECTED, NEXT_OPTION),
    (LIST_CONTEXT, "00000000 00000002 00000001 78 00000005 626173653a", STRUCTURED, LISTED, STRUCTURED, NEXT_OPTION),
    (LIST_CONTEXT, "00000000 00000001 00000006 626173653a61", STRUCTURED, ack(LIST_CONTEXT), STRUCTURED, NEXT_OPTION),
    # Data of 65,536 bytes are looked at, longer ones are dropped.
    (LIST, bytes(65_536), PLAIN, error_reply(LIST, 3), PLAIN, NEXT_OPTION),
    (LIST, bytes(65_537), SELECTED, error_reply(LIST, 9), SELECTED, NEXT_OPTION),
    (LIST, bytes(1_000_000), PLAIN, error_reply(LIST, 9), PLAIN, NEXT_OPTION),
    (SET_CONTEXT, bytes(65_537), SELECTED, error_reply(SET_CONTEXT, 9), STRUCTURED, NEXT_OPTION),
]


def options(folder):
    with serve_new(folder, "options", 16) as path:
        for number, data, before, written, after, follows in OPTIONS:
            for flags, zeroes in ((1, 124), (3, 0)):
                sent = of(f"{flags:08x}", before[0], option(number, data))
                wanted = of(GREETING, before[1], written)
                if follows == NEXT_OPTION:
                    sent += option(LIST) + option(1)
                    wanted += EXPORTS + of("0000000000010000", after[2], bytes(zeroes))
                if follows != NOTHING:
                    wanted += after[3]
                name = f"option {number} with {len(of(data))} bytes {of(data)[:40].hex(' ', 4)}, flags {flags}, after {len(before[0])} bytes"
                check(name, wanted.hex(" ", 4), answers(connect, path, [sent + PROBES], len(wanted)).hex(" ", 4))


# A READ of the last block, a WRITE of two bytes across a border of blocks, a FLUSH and a DISC.
REQUESTS = request(READ, 2, LAST, 1) + request(WRITE, 3, BLOCK - 1, 2) + b"AB" + request(FLUSH, 5) + request(DISC, 7)
SIMPLE = of(reply(2), "00", reply(3), reply(5))
CHUNKS = of(f"668e33ef 0001 0002 0000000000000002 0000000c {LAST:016x} 00000001", reply(3), reply(5))

# What a client sends, and what it is answered after the greeting.
BEGINNINGS = [
    ("a name with zeroes", of("00000001", option(1)), of("0000000000010000 016d", bytes(124), SIMPLE)),
    ("a name without zeroes", of("00000003", option(1)), of("0000000000010000 016d", SIMPLE)),
    ("a name with zeroes after structured replies", of("00000001", STRUCTURED[0], option(1)),
     of(STRUCTURED[1], "0000000000010000 01ed", bytes(124), CHUNKS)),
    ("a name without zeroes after structured replies", of("00000003", STRUCTURED[0], option(1)),
     of(STRUCTURED[1], "0000000000010000 01ed", CHUNKS)),
    ("a GO that asks for nothing", of("00000003", option(GO, "00000000 0000")), of(export("016d"), ack(GO), SIMPLE)),
    # The name's length is 5, in 6 bytes; an INFO that asks for the sizes doesn't count for the GO after it.
    ("a GO that is malformed, an INFO and a GO",
     of("00000003", option(GO, "00000005 6162"), option(INFO, "00000000 0001 0003"), option(GO, "00000000 0000")),
     of(error_reply(GO, 3), INFO_TOLD, export("016d"), ack(GO), SIMPLE)),
    ("options in turn",
     of("00000003", option(LIST, "00"), option(STARTTLS, "abcd"), option(STRUCTURED_REPLY), option(0x63), option(GO, "00000000 0001 0003")),
     of(error_reply(LIST, 3), error_reply(STARTTLS, 1), ack(STRUCTURED_REPLY), error_reply(0x63, 1), GO_TOLD, CHUNKS)),
    # These end a session: client flags other than those of a fixed newstyle, another name, an ABORT, another magic number, and a GO in
    # place of a request.
    *[(f"client flags {flags}", of(flags, option(1)), b"") for flags in (
        "00000000", "00000002", "00000004", "00000005", "00000007", "00000101", "00400003", "80000001", "80000003", "01000001")],
    *[(f"the name of another export, flags {flags}", of(flags, option(1, "61")), b"") for flags in ("00000001", "00000003")],
    ("a name that is too long", of("00000003", MAGIC, "00000001 00010001"), b""),
    ("a length of 32 MiB and a byte", of("00000003", MAGIC, "00000003 02000001"), b""),
    ("an ABORT", of("00000003", option(ABORT), option(LIST)), ack(ABORT)),
    ("an ABORT with data", of("00000003", option(ABORT, "010203"), "ffffffff"), ack(ABORT)),
    ("a second GO", of("00000003", option(GO, "00000000 0001 0003"), option(GO, "00000000 0001 0003")),
     of(export("016d"), option_reply(GO, 3, "0003 00000001 00001000 00100000"), ack(GO))),
]


def beginnings(folder):
    with serve_new(folder, "handshakes", 16) as path:
        check("an empty input", GREETING, answers(connect, path, [], 18))
        for name, sent, written in BEGINNINGS:
            check_stream(name, connect, path, sent + REQUESTS, GREETING + written)


# The bytes of a name that isn't all ASCII, the same as a string, and the answer to a LIST.
NAME = "76 6d c3 a9"
NAMED = f"00000004 {NAME}"
LISTS_NAME = of(option_reply(LIST, 2, NAMED), ack(LIST))

# An option for an export of this name, after structured replies: the answer, and whether transmission begins.
NAMES = [
    (LIST, "", LISTS_NAME, False),
    (1, NAME, of("0000000000010000 01ed"), True),
    (GO, f"{NAMED} 0000", of(export("01ed"), ack(GO)), True),
    (INFO, f"{NAMED} 0000", of(option_reply(INFO, 3, "0000 0000000000010000 01ed"), ack(INFO)), False),
    (SET_CONTEXT, f"{NAMED} 00000001 0000000f {ALLOCATION}", SELECTS, False),
    (LIST_CONTEXT, f"{NAMED} 00000000", LISTED, False),
    # The empty name, a shorter one, a longer one, and one with another last byte belong to no export.
    *[(number, f"{name}{rest}", error_reply(number, 6), False) for number, rest in ((GO, " 0000"), (INFO, " 0000"), (SET_CONTEXT, SELECT[8:]), (LIST_CONTEXT, " 00000000"))
      for name in ("00000000", "00000003 76 6d c3", f"00000005 {NAME} 00", "00000004 76 6d c3 a8")],
    *[(1, name, b"", None) for name in ("", "76 6d c3", f"{NAME} 00", "76 6d c3 a8")],
]


def names(folder):
    with serve_new(folder, "named", 16, "--export-name", of(NAME).decode()) as path:
        for number, data, written, begins in NAMES:
            sent = of("00000003", STRUCTURED[0], option(number, data))
            wanted = of(GREETING, STRUCTURED[1], written)
            if begins is False:
                sent += option(LIST)
                wanted += LISTS_NAME
            sent += request(READ, 5, LAST, 1)
            wanted += of(CHUNK) if begins else b""
            name = f"option {number} with {of(data)[:40].hex(' ', 4)} over a name"
            check(name, wanted.hex(" ", 4), answers(connect, path, [sent], len(wanted)).hex(" ", 4))


def unflushed(folder):
    """In `ordered` neither FLUSH nor FUA is offered, and both are answered."""
    with serve_new(folder, "unflushed", 16, "--cache", "ordered") as path:
        for name, before, flags, follows in (("plain", PLAIN, "0161", SIMPLE), ("structured", STRUCTURED, "01e1", CHUNKS)):
            sent = of("00000003", before[0], option(INFO, "00000000 0000"), option(1)) + request(WRITE, 9, 0, 1, 1) + b"C" + REQUESTS
            wanted = of(GREETING, before[1], option_reply(INFO, 3, f"0000 0000000000010000 {flags}"), ack(INFO), f"0000000000010000 {flags}", reply(9), follows)
            check(f"unflushed: {name}", wanted.hex(" ", 4), answers(connect, path, [sent], len(wanted)).hex(" ", 4))


def ask_go(path, name):
    """The answer to a GO for this name, after the greeting."""
    data = struct.pack(">I", len(name)) + name.encode() + bytes(2)
    wanted = len(GREETING) + max(len(export("016d")) + len(ack(GO)), len(error_reply(GO, 6)))
    return answers(connect, path, [of("00000003", option(GO, data))], wanted)[len(GREETING):]


def fresh(folder):
    """A name that differs at each start: clients of an earlier one are refused."""
    image, path = os.path.join(folder, "fresh.img"), os.path.join(folder, "fresh.sock")
    format_image(image, "--blocks", "16", "--area", "2097152")
    names = []
    for _ in range(3):
        with serve(image, "--unix", path, "--export-name", "vm", "--fresh-name") as server:
            check("fresh: it listens", path, read_address(server))
            line = server.stdout.readline()
            check("fresh: the line", True, re.fullmatch(r"export vm-\d+\n", line) is not None)
            names.append(line.split()[-1])
            check("fresh: its name", of(export("016d"), ack(GO)), ask_go(path, names[-1]))
            for other in ["vm", "", *names[:-1]]:
                check("fresh: another name", error_reply(GO, 6), ask_go(path, other))
            server.kill()
    check("fresh: three names", 3, len(set(names)))
    check("fresh: without a name", 2, run("serve", image, "--unix", path, "--fresh-name")[0])
    for length, status in ((4_075, None), (4_076, 2)):
        with serve(image, "--unix", path, "--export-name", "x" * length, "--fresh-name", stderr=subprocess.PIPE) as server:
            check(f"fresh: a name of {length} bytes", path if status is None else "", read_address(server))
            server.kill() if status is None else check("fresh: its status", status, server.wait(20))


DATA = bytes(place % 253 for place in range(BLOCK))
WHOLE = of("00000003", STRUCTURED[0], option(GO, "00000000 0001 0003"), request(WRITE, 0x0102030405060708, 0, BLOCK), DATA,
           request(READ, 2, 0, BLOCK), request(FLUSH, 3), request(DISC, 4))
WHOLE_TOLD = of(GREETING, STRUCTURED[1], GO_TOLD, reply(0x0102030405060708),
                "668e33ef 0001 0001 0000000000000002 00001008 0000000000000000", DATA, reply(3))


def whole(folder):
    """A whole session in two pieces, byte by byte, and with a changed byte in the magic number of its second option."""
    with serve_new(folder, "whole", 16) as path:
        for cut in [*range(160), *range(len(WHOLE) - 100, len(WHOLE))]:
            check(f"cut at {cut}", True, answers(connect, path, [WHOLE[:cut], WHOLE[cut:]], len(WHOLE_TOLD)) == WHOLE_TOLD)
        check("byte by byte", True, answers(connect, path, [bytes([it]) for it in WHOLE], len(WHOLE_TOLD)) == WHOLE_TOLD)
        for place in range(20, 28):
            broken = bytearray(WHOLE)
            broken[place] ^= 1
            wanted = of(GREETING, STRUCTURED[1])
            check(f"another byte at {place}", wanted, answers(connect, path, [bytes(broken)], len(wanted)))


if __name__ == "__main__":
    sys.exit(checks.run_scenarios((options, beginnings, names, unflushed, fresh, whole)))
