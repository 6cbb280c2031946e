#!/usr/bin/env python3
"""Runs the built program NBDJ again and again, and refuses another one of its calls for memory each time, up to the last: with each script of
tests/scripts, with format, pipe, recover, upgrade and check on a file, and with a server and clients.

usage: tests/memory.py [--built-tests] [--long] [--sample SEED]

--built-tests adds the tests of each crate that `rt ci` built. --sample refuses about one call in eight, drawn from the seed. A script whose call
was refused has to print what a slightly changed script prints with enough memory; that is run by the program itself, or by ORACLE, a command that
reads a script and prints what `nbdj rehearse` does. Of long tests only samples of the calls are refused, with --long all. Prints a line for each
run that does what a refusal must not do, how many runs there were, and last 'N passed, M failed': a script, a command and a test are one check
each, however many runs that takes.
"""
import argparse
import contextlib
import glob
import itertools
import os
import random
import re
import shlex
import shutil
import signal
import struct
import subprocess
import sys
import tempfile
import threading
import time
from concurrent.futures import ThreadPoolExecutor

import checks
from checks import (
    BLOCK, DISC, ENOMEM, FLUSH, HANDSHAKE, NBDJ, READ, TOP, WRITE, ZEROES, check, connect, counting, format_image, read_address, build_preload, reply,
    serve, shake, take, take_all,
)

ORACLE = shlex.split(os.environ.get("ORACLE", "")) or [NBDJ, "rehearse"]
words = argparse.ArgumentParser(description="Refuses the program one call for memory after another.")
words.add_argument("--built-tests", action="store_true")
words.add_argument("--long", action="store_true")
words.add_argument("--sample", type=int, metavar="SEED")
OPTIONS = words.parse_args()
LONG = OPTIONS.long
# With --sample one call in SPARSE is refused.
SPARSE = 8
# How many calls of a built test are refused one by one, and how many samples of the later ones.
IN_TURN, SAMPLES = (10**9, 0) if LONG else (60, 60)
# Scripts over hundreds of blocks, which only --long tries.
LONG_SCRIPTS = {"area_of_half_the_bytes_is_full", "room_after_each_finish", "two_finishes_and_one_clean"}
BLOCKS = 16
refused = 0


def refusal(call, met):
    """The variables of a process whose call for memory of this number is refused; it then makes the file `met`."""
    return {"REFUSE_AT": str(call), "REFUSE_MET": met, "LD_PRELOAD": "./refuse_memory.so"}


class Run:
    """A run of a command: its status, below 0 if a signal or the time limit ended it, and what it printed."""

    numbers = itertools.count()

    def __init__(self, words, given=b"", call=None, seconds=20):
        """With `call` the call for memory with that number is refused; `met` says whether there was such a call."""
        met = f"met-{next(Run.numbers)}"
        environment = dict(os.environ)
        if call is not None:
            environment |= refusal(call, met)
        with subprocess.Popen(words, stdin=subprocess.PIPE, stdout=subprocess.PIPE, stderr=subprocess.PIPE, env=environment) as process:
            try:
                self.output, errors = process.communicate(given, timeout=seconds)
            except subprocess.TimeoutExpired:
                process.kill()
                self.output, errors = process.communicate()
            self.status = process.returncode
        self.errors = errors.decode(errors="replace").strip()
        self.met = os.path.exists(met)
        if self.met:
            os.unlink(met)
        tell_documents(errors)

    def ended_for_memory(self):
        """Whether it says that there is no memory, or that a file can't be opened, which may have the same cause."""
        return self.status == 1 and re.fullmatch(r"nbdj: (no memory \(0\)|cannot open .*)", self.errors) is not None


def tell_documents(errors):
    """Keeps messages of the program, for the check of the documents."""
    if os.environ.get("NBDJ_TOLD") and errors:
        with counting, open(os.environ["NBDJ_TOLD"], "ab") as told:
            told.write(errors)


def calls_in_turn(name):
    """The numbers of the calls to refuse: all, or some drawn from the seed."""
    if OPTIONS.sample is None:
        return itertools.count(1)
    drawn = random.Random(f"{OPTIONS.sample} {name}")
    return itertools.accumulate(drawn.randint(1, 2 * SPARSE - 1) for _ in itertools.count())


def refuse_each(name, words, given, amiss, whole=lambda run: ""):
    """Refuses each call of a command, up to the first number of a call that it never makes. `amiss` returns what is wrong with a run whose
    call was refused, `whole` what is wrong with the last run; both return nothing if all is well."""
    wrong, calls = [], 0
    wanted = calls_in_turn(name)
    while batch := list(itertools.islice(wanted, 32)):
        runs = list(pool.map(lambda call: Run(words, given, call), batch))
        for call, run in zip(batch, runs):
            if not run.met:
                wrong += [f"with no call refused: {it}" for it in [whole(run)] if it]
                break
            calls += 1
            wrong += [f"call {call}: {it}" for it in [amiss(run)] if it]
        if not runs[-1].met:
            break
    conclude(name, calls, wrong)


def conclude(name, calls, wrong):
    """Makes one check of all runs of a command."""
    global refused
    refused += calls
    for it in wrong[:5]:
        print(f"{name}: {it}", flush=True)
    check(name, "calls were refused, 0 runs were wrong", f"{'calls' if calls else 'no calls'} were refused, {len(wrong)} runs were wrong")


# Scripts.


class Script:
    """A script with what it prints with enough memory, and changed scripts with what they print. `step` is the number of a line of the
    script, and `at` that of the first line that it prints, both from 1."""

    def __init__(self, path):
        self.name = os.path.basename(path)[: -len(".in")]
        with open(path, encoding="ascii") as file:
            self.lines = file.read().splitlines()
        with open(f"{path[: -len('.in')]}.out", encoding="ascii") as file:
            self.wanted = file.read().splitlines()
        self.replays = {}

    def replay(self, lines):
        """What these lines print with enough memory, and the status."""
        text = "".join(f"{it}\n" for it in lines)
        if text not in self.replays:
            run = Run(ORACLE, text.encode())
            self.replays[text] = run.output.decode().splitlines(), run.status
        printed, status = self.replays[text]
        return list(printed), status

    def without(self, step, at):
        """The script with this step refused."""
        printed, status = self.replay(self.lines[: step - 1] + self.lines[step:])
        return printed[: at - 1] + ["failed 0"] + printed[at - 1:], status

    def faulty(self, step, at, kind, k):
        """The script in which the k-th device call of this kind from the step on fails."""
        printed, status = self.replay(self.lines[: step - 1] + [f"fault {kind} {k}"] + self.lines[step - 1:])
        return printed[: at - 1] + printed[at:], status

    def unsent(self, step, at):
        """The script in which the request that this step answers got ENOMEM."""
        connection = self.lines[step - 1].split()[1]
        sent = max(i for i, line in enumerate(self.lines[: step - 1]) if line.split()[:2] == ["send", connection])
        printed, status = self.replay(self.lines[:sent] + [f"send {connection} put 0 0 41"] + self.lines[sent + 1:])
        printed[at - 1: at] = [it.replace("error 22", "error 12") for it in printed[at - 1: at]]
        return printed, status

    def unserved(self, step, at):
        """The script in which a request that was held before is answered ENOMEM without being served."""
        connection = self.lines[step - 1].split()[1]
        printed, status = self.replay(self.lines[: step - 2] + self.lines[step:])
        return printed[: at - 2] + ["done", f"answer {connection} error 12"] + printed[at - 2:], status

    def copied(self, step, at, count):
        """The script in which a step of several copies was refused after `count` of them."""
        printed, status = self.replay(self.lines[: step - 1] + [f"copy {count}"] + self.lines[step:])
        return printed[: at - 1] + ["failed 0"] + printed[at:], status

    def unmarked(self):
        """The script in which armed crashes leave what the last good sync left."""
        return self.replay([re.sub(r"^(crash at \d+) .*", r"\1 old", it) for it in self.lines])

    def unapplied(self):
        """The script in which a write that fails leaves what was there. So if the second write of a group fails, that of its gate, the device
        is as after a failure of the first one."""
        return self.replay([re.sub(r"^fault write 2$", "fault write 1", it) for it in self.lines])

    def step_of(self, at):
        """The line of the script that printed this line of the wanted output; a crash prints several."""
        steps, last = 0, ""
        for line in self.wanted[:at]:
            if not line.startswith("run") and not (line.startswith("opened") and last == "stopped"):
                steps += 1
            last = line
        return steps

    def candidates(self, printed, at):
        """What may be printed if the line `at` is the first that differs, depending on the step that got no memory."""
        step, got = self.step_of(at), printed[at - 1] if at <= len(printed) else ""
        late = next((i for i, it in enumerate(printed[at:], at + 1) if re.match("answer .* error 12$", it)), None)
        if got == "failed 0":
            yield self.without(step, at)
            if self.lines[step - 1].startswith("copy "):
                yield from (self.copied(step, at, count) for count in range(1, 9))
        elif re.match("answer .*error 12$", got):
            yield self.unsent(step, at)
            if self.lines[step - 2].startswith("serve "):
                yield self.unserved(step, at)
        elif got.startswith("opened"):
            # A write that was stopped may have left what was there.
            yield self.unmarked()
            yield self.unapplied()
        elif late:
            # A READ that got no memory met no device fault; that shows before its answer.
            yield self.unsent(self.step_of(late), late)
        # The simulated device couldn't record a call, which then failed.
        for kind in ("write", "sync"):
            for k in range(1, 5):
                yield self.faulty(step, at, kind, k)

    def amiss(self, run):
        """What is wrong with a run whose call was refused."""
        if run.status < 0:
            return f"it ended with {run.status}"
        printed = run.output.decode().splitlines()
        if printed == self.wanted and run.status == 0:
            return ""
        at = next((i for i, (one, other) in enumerate(zip(printed, self.wanted), 1) if one != other), min(len(printed), len(self.wanted)) + 1)
        # The program says that there is no memory.
        if run.status == 1 and len(printed) < at and run.errors == "nbdj: no memory (0)":
            return ""
        # A format or an opening is refused because memory or the record of a device call was refused; so is an opening in which a crash
        # was armed.
        if run.status == 1 and len(printed) == at and printed[-1] in ("failed 0", "failed 1") and not run.errors:
            if at == 1 or self.wanted[at - 1: at] == ["stopped"] or "opened" in "".join(self.wanted[at - 1: at]):
                return ""
        if (printed, run.status) in self.candidates(printed, at):
            return ""
        return f"line {at} is {printed[at - 1: at]}, status {run.status}"


def refuse_scripts():
    for path in sorted(glob.glob(f"{TOP}/tests/scripts/*.in")):
        script = Script(path)
        if script.name in LONG_SCRIPTS and not LONG:
            continue
        text = "".join(f"{it}\n" for it in script.lines).encode()
        refuse_each(
            f"script {script.name}",
            [NBDJ, "rehearse"],
            text,
            script.amiss,
            lambda run, script=script: "" if run.output.decode().splitlines() == script.wanted else "it prints something else",
        )


# Commands on a file. If memory runs out, they leave an image with a prefix of what was sent; `format` leaves the old file.


def request(kind, cookie, offset, data=b"", flags=0, length=None):
    return checks.request(kind, cookie, offset, len(data) if length is None else length, flags) + data


def filled(letter):
    return letter * BLOCK


def image_of(image):
    """A copy of an image for a run of its own."""
    copy = f"image-{next(Run.numbers)}"
    shutil.copyfile(image, copy)
    return copy


class FileCommand:
    """A command on a copy of an image, with one call refused."""

    def __init__(self, words, image, given, call):
        self.image = image_of(image)
        self.run = Run([NBDJ, *(self.image if it == "IMAGE" else it for it in words)], given, call)

    def content(self):
        with open(self.image, "rb") as file:
            return file.read()

    def close(self):
        os.unlink(self.image)


def refuse_on_file(name, words, image, amiss, whole, given=b""):
    """As `refuse_each`, with a new copy of the image for each run, at which `amiss` and `whole` look too."""
    wrong, calls = [], 0
    for call in calls_in_turn(name):
        with contextlib.closing(FileCommand(words, image, given, call)) as tried:
            if not tried.run.met:
                wrong += [f"with no call refused: {it}" for it in [whole(tried)] if it]
                break
            calls += 1
            wrong += [f"call {call}: {it}" for it in [amiss(tried)] if it]
    conclude(name, calls, wrong)


def recover(image):
    """What the program prints when it recovers an image."""
    run = Run([NBDJ, "recover", image])
    return run.output.decode().strip() or run.errors


def refuse_format():
    with open("old.img", "wb") as file:
        file.write(b"".join(struct.pack(">I", it) for it in range(1_250_000)))
    with open("old.img", "rb") as file:
        old = file.read()

    def amiss(tried):
        if tried.run.status == 0 or (tried.run.ended_for_memory() and tried.content() == old):
            return ""
        return f"status {tried.run.status}, {tried.run.errors}, and the file has {'not ' if tried.content() == old else ''}changed"

    words = ["format", "IMAGE", "--size", "64K", "--area", "2M", "--force"]
    refuse_on_file("format over an old file", words, "old.img", amiss, lambda tried: "" if tried.run.output == b"formatted 4276224\n" else "not formatted")


PIPED = [
    request(WRITE, 1, 0, filled(b"A")),
    request(FLUSH, 2, 0),
    # (a byte of block 0 and two of block 1, so old bytes are read; then a command with an edge)
    request(WRITE, 3, BLOCK - 1, b"BBB", flags=1),
    request(ZEROES, 4, 5, length=2 * BLOCK),
    request(DISC, 5, 0),
]


def refuse_pipe():
    wanted = b"".join(reply(it) for it in range(1, 5))

    def amiss(tried):
        run = tried.run
        if run.status != 0 and not run.ended_for_memory():
            return f"status {run.status}, {run.errors}"
        # Each reply is that of the whole run, or ENOMEM. An Ok of the FLUSH confirms one write, that of the FUA write two.
        stored = 0
        for at in range(0, len(run.output), 16):
            answer = run.output[at: at + 16]
            if answer == wanted[at: at + 16]:
                stored = {16: 1, 32: 2}.get(at, stored)
            elif answer != reply(at // 16 + 1, ENOMEM):
                return f"a reply {answer.hex()}"
        found = re.fullmatch(r"commands ([0-3])", recover(tried.image))
        if not found or (int(found[1]) < stored and run.status != 0):
            return f"found {found and found[0]}, stored {stored}"
        return ""

    refuse_on_file("pipe", ["pipe", "IMAGE"], "fresh.img", amiss, lambda tried: "" if tried.run.output == wanted else "other replies", b"".join(PIPED))


def group_of(number, block, byte):
    """The bytes of a group with one put of a block, and the closed gate after it."""
    body = struct.pack(">BQI", 1, block, 1) + filled(byte)
    return b"\x01" + struct.pack(">IQI", len(body), number, 1) + body + b"\x00"


def fill_areas(image, layout):
    """Writes an image with all areas in use, as a crash may leave it: each has one group, which fills a block."""
    format_image(image, "--blocks", str(BLOCKS), "--area", "4194304", "--layout", str(layout))
    areas = 2 * layout
    with open(image, "r+b") as file:
        # (the byte of the areas in use: their number, in layout 1 less one)
        file.seek(29)
        file.write(bytes([areas if layout == 2 else areas - 1]))
        for area in range(areas):
            file.seek(8192 + area * 8388608 // areas)
            file.write(group_of(area + 1, 2 * area + 1, b"ABCD"[area: area + 1]))


def refuse_opening(name, words, image, number, printed):
    """As `refuse_on_file`, for a command that opens an image: a later recovery always finds this number."""

    def amiss(tried):
        if tried.run.status != 0 and not tried.run.ended_for_memory():
            return f"status {tried.run.status}, {tried.run.errors}"
        # The next opening finishes what ended because memory ran out.
        found = recover(tried.image)
        return "" if found == f"commands {number}" else f"found {found}"

    refuse_on_file(name, words, image, amiss, lambda tried: "" if tried.run.output == printed else "another line")


def refuse_openings():
    shutil.copyfile("fresh.img", "stored.img")
    Run([NBDJ, "pipe", "stored.img"], b"".join(PIPED))
    refuse_opening("recover", ["recover", "IMAGE"], "stored.img", 3, b"commands 3\n")
    # These openings read the lists of several areas, and make several checkpoints.
    fill_areas("two.img", 1)
    fill_areas("four.img", 2)
    refuse_opening("recover with two areas in use", ["recover", "IMAGE"], "two.img", 2, b"commands 2\n")
    refuse_opening("recover with four areas in use", ["recover", "IMAGE"], "four.img", 4, b"commands 4\n")
    refuse_opening("upgrade with two areas in use", ["upgrade", "IMAGE"], "two.img", 2, b"layout 2\n")
    refuse_opening("upgrade of layout 2", ["upgrade", "IMAGE"], "four.img", 4, b"layout 2\n")


def refuse_check(name, image):
    with open(image, "rb") as file:
        stored = file.read()
    wanted = Run([NBDJ, "check", image]).output

    def amiss(tried):
        if tried.content() != stored:
            return "the image has changed"
        if tried.run.output == wanted and tried.run.status == 0 or not tried.run.output and tried.run.ended_for_memory():
            return ""
        return f"status {tried.run.status}, {tried.run.errors}"

    refuse_on_file(name, ["check", "IMAGE"], image, amiss, lambda tried: "" if tried.run.output == wanted else "other lines")


# A server with clients.


class Client:
    """A client at a Unix socket, with simple replies. It counts the answers that were ENOMEM."""

    def __init__(self, path):
        self.refused = 0
        self.socket = connect(path)
        shake(self.socket)

    def ask(self, kind, cookie, offset, data=b"", length=0):
        """The bytes of a READ, or whether another request is answered Ok."""
        self.socket.sendall(request(kind, cookie, offset, data, length=length or len(data)))
        if not self.is_done(cookie):
            self.refused += 1
            return None
        return take_all(self.socket, length) if kind == READ else True

    def is_done(self, cookie):
        """Whether the next reply is Ok, and not ENOMEM; it has to be one of them."""
        answer = take_all(self.socket, 16)
        if answer not in (reply(cookie), reply(cookie, ENOMEM)):
            raise ValueError(f"a reply {answer.hex()} to request {cookie}")
        return answer == reply(cookie)

    def close(self):
        self.socket.close()


def converse(path, block):
    """Writes a block, reads it, and flushes. How many answers were ENOMEM, 9 if the connection was lost, and whether the block is known to
    be stored."""
    written = flushed = False
    try:
        with contextlib.closing(Client(path)) as client:
            written = client.ask(WRITE, 1, block * BLOCK, filled(b"ABC"[block: block + 1]))
            seen = client.ask(READ, 2, block * BLOCK, length=BLOCK)
            if written and seen is not None and seen != filled(b"ABC"[block: block + 1]):
                raise ValueError("a READ shows other bytes")
            flushed = client.ask(FLUSH, 3, 0)
            client.socket.sendall(request(DISC, 4, 0))
            return client.refused, bool(written and flushed)
    except OSError:
        return 9, bool(written and flushed)


# First block and length of each WRITE of a client that sends all of them at once; the third is longer than what the server reads at a time.
SENT = [(8, 1), (9, 1), (10, 24), (40, 1), (41, 1)]


def converse_at_once(path):
    """Sends several WRITEs before it reads an answer. How many answers were ENOMEM, 9 if the connection was lost, and of each WRITE whether
    it was answered Ok, or None if there was no answer."""
    answers = []
    try:
        with contextlib.closing(Client(path)) as client:
            client.socket.sendall(b"".join(request(WRITE, it, first * BLOCK, filled(b"E") * blocks) for it, (first, blocks) in enumerate(SENT)))
            for cookie in range(len(SENT)):
                answers.append(client.is_done(cookie))
            client.socket.sendall(request(DISC, 9, 0))
            return answers.count(False), answers
    except OSError:
        return 9, answers + [None] * (len(SENT) - len(answers))


def judge_sent(answers, found):
    """What is wrong with the WRITEs that are found: one answered Ok has to be there, a refused one must not be, and of those without an answer
    a prefix is there."""
    unknown = []
    for (first, blocks), answer in zip(SENT, answers):
        there = [found(block) == filled(b"E") for block in range(first, first + blocks)]
        if len(set(there)) > 1 or (answer is not None and there[0] != answer):
            return f"the WRITE of block {first} was answered {answer}, and is there: {there}"
        unknown += [there[0]] if answer is None else []
    return f"of the WRITEs without an answer these are there: {unknown}" if unknown != sorted(unknown, reverse=True) else ""


# Lines that the server may log while it goes on.
GOES_ON = re.compile(r"nbdj: [^:]*: (no memory to store what was written, which is tried again|all \d+ workers have a client, and further ones wait|\d+ lines left out)")


def was_met(image, path, met):
    """Whether a call was refused, which the file `met` tells; the files of the server are removed."""
    is_met = os.path.exists(met)
    for it in (image, path, met):
        with contextlib.suppress(FileNotFoundError):
            os.unlink(it)
    return is_met


def serve_refused(call):
    """A server with one call refused, and four clients one after another: what is wrong, and whether there was such a call."""
    name = f"served-{next(Run.numbers)}"
    image, path, met = f"{name}.img", f"{name}.sock", f"{name}.met"
    shutil.copyfile("wide.img", image)
    words = ["--unix", path, "--sessions", "4", "--workers", "1", "--frames", "512"]
    with serve(image, *words, stderr=subprocess.PIPE, env={**os.environ, **refusal(call, met)}) as server:
        # (a server that hangs is killed, which its status shows)
        limit = threading.Timer(30, server.kill)
        limit.start()
        try:
            talks = [converse(path, 0), converse_at_once(path), converse(path, 1), converse(path, 2)] if read_address(server) else []
            told = server.communicate()[1]
        except ValueError as error:
            server.kill()
            return f"{error}", os.path.exists(met)
        finally:
            limit.cancel()
    tell_documents(told.encode())
    amiss = judge_served(server.returncode, told.strip(), talks, image)
    return amiss, was_met(image, path, met)


def judge_served(status, errors, talks, image):
    """What is wrong with a server whose call was refused: at most one client may get ENOMEM or lose its connection; the server may end only
    before it listens; what was flushed has to be there."""
    errors = "\n".join(line for line in errors.splitlines() if not GOES_ON.fullmatch(line))
    harmed = [it for it in talks if it[0]]
    if status == 1 and errors == "nbdj: no memory (0)":
        if talks:
            return "it said that it listens, and then that it has no memory"
    elif status != 0 or errors or len(harmed) > 1 or any(1 < it[0] < 9 for it in harmed):
        return f"status {status}, {errors}, clients {talks}"
    blocks = max(first + count for first, count in SENT)
    stored = Run([NBDJ, "pipe", image], b"".join(request(READ, it, it * BLOCK, length=BLOCK) for it in range(blocks)) + request(DISC, 3, 0)).output

    def found(block):
        return stored[block * (16 + BLOCK) + 16: (block + 1) * (16 + BLOCK)]

    known = talks[:1] + talks[2:]
    for block, (_, flushed) in enumerate(known):
        if flushed and found(block) != filled(b"ABC"[block: block + 1]):
            return f"block {block} was flushed and isn't there"
    # (a server that ended because memory ran out needn't have stored what wasn't flushed)
    return judge_sent(talks[1][1], found) if status == 0 else ""


def talk_while_short(path):
    """Writes blocks and flushes twice; whether the first FLUSH was answered Ok, so that the blocks are stored. A TimeoutError after 15
    seconds."""
    try:
        with connect(path, 15) as client:
            client.sendall(HANDSHAKE)
            if len(take(client, 104)) < 104:
                return False
            asked = [request(WRITE, it, it * BLOCK, filled(b"S")) for it in range(4)] + [request(FLUSH, 4, 0), request(FLUSH, 5, 0)]
            client.sendall(b"".join(asked))
            replies = take(client, 16 * len(asked))
    except (ConnectionError, FileNotFoundError):
        return False
    errors = [struct.unpack_from(">IIQ", replies, at)[1] for at in range(0, len(replies) - 15, 16)]
    return len(errors) > 4 and not any(errors[:5])


def serve_short(call):
    """A server with all calls from this one on refused, and three clients at once. Each has to be answered or disconnected, and the server
    has to stop when its input ends. What is wrong, and whether there was such a call."""
    name = f"short-{next(Run.numbers)}"
    image, path, met = f"{name}.img", f"{name}.sock", f"{name}.met"
    shutil.copyfile("wide.img", image)
    words = ["--unix", path, "--workers", "3", "--frames", "512", "--until-eof"]
    environment = {**os.environ, **refusal(call, met), "REFUSE_ON": "1"}
    with serve(image, *words, stdin=subprocess.PIPE, stderr=subprocess.PIPE, env=environment) as server:
        amiss, stored = "", False
        try:
            listened = read_address(server) != ""
            if listened:
                with ThreadPoolExecutor(3) as clients:
                    stored = any(clients.map(talk_while_short, [path] * 3))
            errors = server.communicate(timeout=40)[1].splitlines()
            told = [line for line in errors if not GOES_ON.fullmatch(line)]
            if (server.returncode, told, listened) not in [(0, [], True), (1, ["nbdj: no memory (0)"], False), (1, ["nbdj: device fault (1)"], True)]:
                amiss = f"status {server.returncode}, {errors}"
        except (subprocess.TimeoutExpired, TimeoutError) as error:
            server.kill()
            amiss = f"{error!r}"
    asked = b"".join(request(READ, it, it * BLOCK, length=BLOCK) for it in range(4)) + request(DISC, 5, 0)
    found = Run([NBDJ, "pipe", image], asked).output
    if stored and found != b"".join(reply(it) + filled(b"S") for it in range(4)):
        amiss = amiss or "what was flushed isn't there"
    return amiss, was_met(image, path, met)


def refuse_servers(name, tried, numbers, at_once):
    """Refuses calls of servers, up to the first number of a call that is never made."""
    wrong, calls = [], 0
    while batch := list(itertools.islice(numbers, at_once)):
        runs = list(pool.map(tried, batch))
        wrong += [f"call {call}: {amiss}" for call, (amiss, _) in zip(batch, runs) if amiss]
        calls += sum(met for _, met in runs)
        if not runs[-1][1]:
            break
    conclude(name, calls, wrong)


def refuse_serve():
    """One call is refused; then all calls from some number on, up to the last that a server makes."""
    format_image("wide.img", "--blocks", "64", "--area", "2097152")
    refuse_servers("serve", serve_refused, calls_in_turn("serve"), 16)
    refuse_servers("serve without memory from some call on", serve_short, itertools.accumulate(itertools.cycle((1, 5, 9))), 12)


# Built tests.


def calls_to_refuse():
    """The numbers of the first calls, and fewer and fewer of the later ones."""
    yield from range(1, IN_TURN + 1)
    step, call = 1.0, float(IN_TURN)
    for _ in range(SAMPLES):
        step *= 1.12
        call += step
        yield int(call)


def refuse_test(built, test):
    """Refuses the calls of a test. It has to end by itself: to pass, or to say where it stopped. A test of refused memory must not stop at
    an assertion. Some tests need no memory."""
    name = f"{os.path.basename(built)}, {test}"
    began = time.monotonic()
    whole = Run([built, test])
    if whole.status != 0:
        return conclude(name, 1, [f"status {whole.status} with all memory"])
    if time.monotonic() - began > 0.5 and not LONG:
        return print(f"only with --long: {name}, because it takes more than half a second", flush=True)
    ends = "^test result: ok|^the test failed" if "refused_memory" in test else "^test result: ok|^the test failed|^test stopped at"
    wrong, calls = [], 0
    wanted = calls_to_refuse()
    while batch := list(itertools.islice(wanted, 32)):
        # (a test over sockets waits up to half a minute if a thread couldn't be started)
        runs = list(pool.map(lambda call: Run([built, test], b"", call, seconds=60), batch))
        for call, run in zip(batch, runs):
            calls += run.met
            said = run.output.decode(errors="replace") + run.errors
            # (a test that stops ends by SIGABRT)
            if run.met and (run.status == -signal.SIGKILL or not re.search(ends, said, re.MULTILINE)):
                wrong.append(f"call {call}: status {run.status}")
        if not runs[-1].met:
            break
    if calls:
        conclude(name, calls, wrong)


def refuse_tests():
    found = 0
    for built in sorted(glob.glob(f"{TOP}/crates/*/out/*_tests")):
        for test in re.findall(r"^(.*): test$", Run([built, "--list"]).output.decode(), re.MULTILINE):
            found += 1
            refuse_test(built, test)
    check("there are tests", True, found > 0)


with tempfile.TemporaryDirectory() as folder, ThreadPoolExecutor(len(os.sched_getaffinity(0))) as pool:
    os.chdir(folder)
    build_preload(".", "refuse_memory")
    format_image("fresh.img", "--blocks", str(BLOCKS), "--area", "2097152")
    refuse_scripts()
    refuse_format()
    refuse_pipe()
    refuse_openings()
    refuse_check("check", "stored.img")
    refuse_check("check with four areas in use", "four.img")
    refuse_serve()
    if OPTIONS.built_tests or LONG:
        refuse_tests()
    print(f"{refused} runs with memory refused")
    sys.exit(checks.finish())
