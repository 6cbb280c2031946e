#!/usr/bin/env python3
"""The figures of `serve --status` of the built program NBDJ: after a known load, during a slow sync, after a device fault, and for clients
that send no valid request; and how `nbdj status` prints them.

Prints a line for each check that fails, and last 'N passed, M failed'. The bytes of a command in the journal are those of docs/FORMATS.md: 13
and its data, and 17 for each group.
"""
import contextlib
import json
import os
import pty
import random
import re
import select
import shutil
import socket
import stat
import subprocess
import sys
import threading
import time

import checks
from checks import (
    BLOCK, BLOCKS, DISC, EINVAL, EIO, FLUSH, FRAMES, MIB, NBDJ, READ, TOP, TRIM, WRITE, ZEROES, Server, check, connect, format_image, reply, request,
    take,
)
from hostile import SEED
from operating import limit_file_size, slow_syncs

ROUNDS = 10_000


def ask(path, method="GET", target="/status", version="HTTP/1.1", seconds=20):
    """The status line, the fields and the body of the answer from the socket at a path."""
    return send_raw(path, f"{method} {target} {version}\r\nHost: x\r\n\r\n".encode(), seconds)


def send_raw(path, sent, seconds=20):
    with connect(path, seconds) as client:
        with contextlib.suppress(BrokenPipeError, ConnectionResetError):
            client.sendall(sent)
            client.shutdown(socket.SHUT_WR)
        found = b""
        with contextlib.suppress(ConnectionResetError):
            while piece := client.recv(65536):
                found += piece
    head, _, body = found.partition(b"\r\n\r\n")
    lines = head.decode("latin-1").split("\r\n")
    return lines[0], dict(line.split(": ", 1) for line in lines[1:] if ": " in line), body.decode()


def figures(path):
    return json.loads(ask(path)[2])


def samples(path):
    """The samples of /metrics, by their name and labels."""
    lines = ask(path, target="/metrics")[2].splitlines()
    return {name: float(value) for name, _, value in (line.rpartition(" ") for line in lines if not line.startswith("#"))}


@contextlib.contextmanager
def serve_with_status(folder, name, *words, **settings):
    """A server with a status socket, and the path of that socket."""
    path = os.path.join(folder, f"{name}.status")
    with Server(folder, name, 2, "--status", path, *words, **settings) as server:
        yield server, path


def write(client, cookie, offset, data, flags=0):
    client.sendall(request(WRITE, cookie, offset, len(data), flags) + data)
    return take(client, 16)


def send(client, kind, cookie, offset, length):
    client.sendall(request(kind, cookie, offset, length))
    return take(client, 16)


def known_load(client):
    """Five WRITEs of a block, a TRIM and a WRITE_ZEROES of 16 blocks, three READs of two blocks, and one beyond the end."""
    for number in range(5):
        check("known: a write", reply(number), write(client, number, number * BLOCK, bytes([number + 1]) * BLOCK))
    check("known: a trim", reply(5), send(client, TRIM, 5, MIB, 16 * BLOCK))
    check("known: a write of zeroes", reply(6), send(client, ZEROES, 6, 2 * MIB, 16 * BLOCK))
    for number in range(3):
        check("known: a read", reply(7 + number), send(client, READ, 7 + number, 0, 2 * BLOCK))
        take(client, 2 * BLOCK)
    check("known: a read beyond the end", reply(10, EINVAL), send(client, READ, 10, BLOCKS * BLOCK, BLOCK))


BODIES = 5 * (13 + BLOCK) + 2 * 13

BEFORE = {
    "clients": 1, "connections": 1, "requests_in_progress": 0, "accepted_number": 7, "durable_number": 0, "base_number": 0, "pending_commands": 7,
    "pending_bytes": BODIES, "groups": 0, "group_commands": 0, "group_bytes": 0, "journal_areas": 2, "journal_areas_in_use": 0,
    "journal_used_bytes": 0, "journal_free_bytes": 2 * 2097152, "checkpoints": 0, "checkpoint_blocks": 0, "delayed_writes": 0,
    "refused_allocations": 0, "frames": {"dirty": 5, "clean": 0, "free": FRAMES - 5},
    "errors": {"EIO": 0, "ENOMEM": 0, "EINVAL": 1, "ENOSPC": 0},
    "requests": {"read": 4, "write": 5, "flush": 0, "trim": 1, "write_zeroes": 1, "block_status": 0, "other": 0},
    "request_bytes": {"read": 7 * BLOCK, "write": 5 * BLOCK, "trim": 16 * BLOCK, "write_zeroes": 16 * BLOCK, "block_status": 0},
}

AFTER = {
    **BEFORE, "durable_number": 7, "pending_commands": 0, "pending_bytes": 0, "pending_age_microseconds": 0, "groups": 1,
    "group_commands": 7, "group_bytes": BODIES + 17, "journal_areas_in_use": 1, "journal_used_bytes": BODIES + 17,
    "journal_free_bytes": 2 * 2097152 - BODIES - 17, "requests": {**BEFORE["requests"], "flush": 1},
}


def known(folder):
    """A known load, before and after a FLUSH."""
    with serve_with_status(folder, "known", "--flush-interval", "0", "--until-eof", stdin=subprocess.PIPE) as (server, path):
        check("known: the mode of the socket", 0o600, stat.S_IMODE(os.stat(path).st_mode))
        with server.new_client() as client:
            began = time.monotonic()
            known_load(client)
            time.sleep(0.3)
            least = time.monotonic() - began
            syncs = figures(path)["syncs"]
            before = figures(path)
            most = time.monotonic() - began
            check("known: before a flush", BEFORE, {name: before.get(name) for name in BEFORE})
            age = before["pending_age_microseconds"] / 1e6
            check("known: the age of what is pending", True, 0.3 <= age <= most and age >= least - 0.3)
            check("known: a flush", reply(11), send(client, FLUSH, 11, 0, 0))
            after = figures(path)
            check("known: after a flush", AFTER, {name: after.get(name) for name in AFTER})
            check("known: the group took two syncs", 2, after["syncs"] - syncs)
            check_latencies(after)
            check_metrics(path)
            client.sendall(request(DISC, 12))
            take(client, 1)
        check("known: a client that left", True, holds_within(lambda: figures(path)["clients"] == 0))
        check("known: the name of the image", server.image, figures(path)["image"])
        check_printed(path)
        server.process.stdin.close()
        check("known: the end", 0, server.process.wait(timeout=20))
        check("known: the socket is gone", False, os.path.exists(path))


def holds_within(holds, seconds=10):
    """Whether a condition holds within some seconds."""
    late = time.monotonic() + seconds
    while not holds():
        if time.monotonic() > late:
            return False
        time.sleep(0.01)
    return True


def check_latencies(after):
    for command, count in (("read", 4), ("write", 5), ("flush", 1)):
        latency = after["request_duration_microseconds"][command]
        check(f"known: each {command} is timed", count, latency["count"])
        bounds = sorted(int(bound) for bound in latency["buckets"])
        counts = [latency["buckets"][str(bound)] for bound in bounds]
        longer = count - sum(counts)
        least = sum(n * (bound + 1) for n, bound in zip(counts, [-1, *bounds])) + longer * (bounds[-1] + 1)
        most = sum(n * bound for n, bound in zip(counts, bounds)) + longer * 60_000_000
        check(f"known: the time of {command}s is what their buckets say", True, least <= latency["total"] <= most or latency)
    check("known: a flush takes as long as its group at least", True,
          after["request_duration_microseconds"]["flush"]["total"] >= after["group_append_microseconds"])
    check("known: a group takes as long as its syncs at least", True, after["group_append_microseconds"] > 0)


def check_metrics(path):
    """/metrics has the same figures, in the format of Prometheus."""
    line, fields, text = ask(path, target="/metrics")
    check("known: /metrics", "HTTP/1.1 200 OK", line)
    check("known: its type", "text/plain; version=0.0.4; charset=utf-8", fields.get("Content-Type"))
    check("known: its length", len(text.encode()), int(fields["Content-Length"]))
    found = samples(path)
    wanted = {
        "nbdj_pending_bytes": 0, "nbdj_durable_number": 7, "nbdj_groups_total": 1, "nbdj_group_bytes_total": BODIES + 17,
        'nbdj_requests_total{command="write"}': 5, 'nbdj_request_bytes_total{command="read"}': 7 * BLOCK,
        'nbdj_errors_total{error="EINVAL"}': 1, 'nbdj_frames{state="dirty"}': 5,
        'nbdj_request_duration_seconds_bucket{command="write",le="+Inf"}': 5,
        'nbdj_request_duration_seconds_count{command="flush"}': 1,
    }
    check("known: the samples", wanted, {name: found.get(name) for name in wanted})
    buckets = [value for name, value in found.items() if name.startswith('nbdj_request_duration_seconds_bucket{command="read"')]
    check("known: a bucket counts those below it too", sorted(buckets), buckets)
    check_format(text)
    if shutil.which("promtool"):
        judged = subprocess.run(["promtool", "check", "metrics"], input=text, capture_output=True, text=True, timeout=60)
        check("known: promtool", (0, "", ""), (judged.returncode, judged.stdout, judged.stderr))
        judged = subprocess.run(["promtool", "check", "rules", f"{TOP}/packaging/alerts.yml"], capture_output=True, text=True, timeout=60)
        check("known: promtool on the alerts", (0, ""), (judged.returncode, judged.stderr))
    else:
        print("promtool isn't installed, so only this script checks the format")


SAMPLE = re.compile(r'([a-z_]+)(\{[a-z_]+="[^"]*"(?:,[a-z_]+="[^"]*")*\})? (-?[0-9.]+)')


def check_format(text):
    """Each family has a line of HELP and one of TYPE, then its samples, each once. The figures that alerts and dashboard use are there."""
    amiss, families, samples_seen, family = [], {}, set(), None
    for line in text.splitlines():
        words = line.split(" ", 3)
        if words[:2] == ["#", "HELP"]:
            family = words[2]
            amiss += [line] if family in families or len(words) < 4 else []
            families[family] = None
        elif words[:2] == ["#", "TYPE"]:
            amiss += [line] if words[2] != family or words[3] not in ("counter", "gauge", "histogram") else []
            families[family] = words[3]
        elif sample := SAMPLE.fullmatch(line):
            name = sample[1]
            stem = re.sub("_(bucket|sum|count)$", "", name) if families.get(family) == "histogram" else name
            is_named = families.get(family) != "counter" or name.endswith("_total")
            amiss += [line] if stem != family or not is_named or line.rpartition(" ")[0] in samples_seen else []
            samples_seen.add(line.rpartition(" ")[0])
        else:
            amiss.append(line)
    check("known: the format", [], amiss)
    for name in ("alerts.yml", "grafana.json"):
        with open(f"{TOP}/packaging/{name}", encoding="utf-8") as file:
            used = set(re.findall(r"\bnbdj_[a-z_]+", file.read()))
        known_names = {re.match("[a-z_]+", sample)[0] for sample in samples_seen}
        check(f"known: the figures that {name} names", (True, []), (len(used) > 2, sorted(used - known_names)))


def run(*words):
    return checks.run("status", *words)


def check_printed(path):
    """How `nbdj status` prints the figures."""
    status, output, _ = run(path)
    check("printed: the status", 0, status)
    lines = output.splitlines()
    check("printed: requests", ["write        5, 20.0 KiB, N each"], [re.sub(r"\d+\.\d+ ms", "N", it) for it in lines if it.startswith("write")])
    check("printed: the journal", [f"journal      [{'.' * 32}] 20.1 KiB of 4.0 MiB, 1 of 2 areas"], [it for it in lines if it.startswith("journal")])
    check("printed: the frames", [f"frames       [{'.' * 32}] 5 dirty, 0 clean, {FRAMES - 5} free"], [it for it in lines if it.startswith("frames")])
    check("printed: the numbers", ["numbers      0 in the image, 7 stored, 7 accepted"], [it for it in lines if it.startswith("numbers")])
    status, output, _ = run(path, "--json")
    found, wanted = json.loads(output), figures(path)
    found["uptime_microseconds"] = wanted["uptime_microseconds"] = 0
    check("printed: as JSON", (0, wanted, 1), (status, found, output.count("\n")))
    nowhere = path + ".none"
    for words in ((), ("-v",)):
        wanted = (1, "", f"nbdj: {nowhere}: there is no such socket\nnbdj: no figures from {nowhere}\n")
        check(f"printed: no server there {' '.join(words)}", wanted, run(nowhere, *words))
    check("printed: both forms", 2, run(path, "--json", "--watch")[0])
    check_watched(path)


def check_watched(path):
    """With `--watch` there is a line each second, or a screen on a terminal."""
    with subprocess.Popen([NBDJ, "status", path, "--watch"], stdout=subprocess.PIPE, text=True) as watching:
        lines = [watching.stdout.readline() for _ in range(2)]
        watching.kill()
    row = "reads 0/s writes 0/s flushes 0/s errors 0/s pending 0 B journal 0% dirty 5 durable 7\n"
    check("watched: two lines", [row, row], lines)
    ours, theirs = pty.openpty()
    with subprocess.Popen([NBDJ, "status", path, "--watch"], stdout=theirs) as watching:
        screen, late = b"", time.monotonic() + 20
        while b"free" not in screen and time.monotonic() < late:
            if select.select([ours], [], [], 1)[0]:
                screen += os.read(ours, 65536)
        watching.kill()
    os.close(ours)
    os.close(theirs)
    check("watched: a screen", (True, True), (screen.startswith(b"\x1b[H\x1b[2J"), b"now 0/s" in screen))


def requests_of_others(folder):
    """Requests that aren't for one of the three paths."""
    with serve_with_status(folder, "others") as (server, path):
        for name, sent_bytes, wanted in (
            ("another path", b"GET /x HTTP/1.1\r\n\r\n", "404 Not Found"),
            ("another method", b"POST /status HTTP/1.1\r\n\r\n", "405 Method Not Allowed"),
            ("a GET of what is posted", b"GET /store HTTP/1.1\r\n\r\n", "405 Method Not Allowed"),
            ("no request", b"\x00\x01\r\n\r\n", "400 Bad Request"),
            ("a long head", b"GET /status HTTP/1.1\r\nX: " + b"x" * 5000, "431 Request Header Fields Too Large"),
            ("many fields", b"GET /status HTTP/1.1\r\n" + b"X: x\r\n" * 40 + b"\r\n", "431 Request Header Fields Too Large"),
            ("an old version", b"GET /status HTTP/1.0\r\n\r\n", "200 OK"),
        ):
            line, fields, body = send_raw(path, sent_bytes)
            check(f"others: {name}", f"HTTP/1.1 {wanted}", line)
            check(f"others: {name}, its length", str(len(body.encode())), fields.get("Content-Length"))
        check("others: half a request", ("", {}, ""), send_raw(path, b"GET /sta"))
        server.goes_on("after other requests")


def mutated(folder):
    """Requests with random bytes changed, removed and added, while another client reads from the export."""
    drawn = random.Random(SEED)
    good = b"GET /metrics HTTP/1.1\r\nHost: x\r\nAccept: */*\r\n\r\n"
    with serve_with_status(folder, "mutated") as (server, path):
        worst, is_over = [0.0], threading.Event()

        def go_on():
            with server.new_client() as client:
                while not is_over.is_set():
                    began = time.monotonic()
                    send(client, READ, 1, 0, BLOCK)
                    take(client, BLOCK)
                    worst[0] = max(worst[0], time.monotonic() - began)

        reader = threading.Thread(target=go_on)
        reader.start()
        for _ in range(ROUNDS):
            bad = bytearray(good)
            for _ in range(drawn.randrange(1, 6)):
                place = drawn.randrange(len(bad))
                bad[place:place + drawn.randrange(3)] = bytes(drawn.randrange(256) for _ in range(drawn.randrange(3)))
                bad = bad or bytearray(b"x")
            send_raw(path, bytes(bad))
        is_over.set()
        reader.join()
        check("mutated: a client of the export never waits for a second", True, worst[0] < 1)
        check("mutated: a good request", "HTTP/1.1 200 OK", ask(path)[0])
        server.goes_on("after mutated requests")


def silent(folder):
    """Four silent clients occupy the status socket: a fifth one waits, and clients of the export don't."""
    with serve_with_status(folder, "silent", "--until-eof", stdin=subprocess.PIPE) as (server, path):
        with contextlib.ExitStack() as clients:
            for _ in range(4):
                clients.enter_context(connect(path))
            began = time.monotonic()
            server.goes_on("during silent clients of the status socket")
            check("silent: the export's clients don't wait", True, time.monotonic() - began < 1.5)
            check("silent: a further one is answered", "HTTP/1.1 200 OK", ask(path)[0])
            check("silent: it waits for no more than three seconds", True, time.monotonic() - began < 4.5)
            for _ in range(4):
                clients.enter_context(connect(path))
            server.process.stdin.close()
            check("silent: the end", 0, server.process.wait(timeout=20))


def slow(folder):
    """While a sync takes five seconds, the figures come at once, with what is pending."""
    with serve_with_status(folder, "slow", "--flush-interval", "0", **slow_syncs(folder)) as (server, path):
        with server.new_client() as client:
            check("slow: a write", reply(1), write(client, 1, 0, bytes(BLOCK)))
            client.sendall(request(FLUSH, 2))
            time.sleep(0.5)
            began = time.monotonic()
            found = figures(path)
            check("slow: the figures come at once", True, time.monotonic() - began < 1)
            check("slow: what is pending", (1, 13 + BLOCK, 0, 1), (found["pending_commands"], found["pending_bytes"], found["durable_number"], found["accepted_number"]))
            check("slow: its age", True, 400_000 <= found["pending_age_microseconds"] <= 5_000_000)
            check("slow: the flush", reply(2), take(client, 16))
            latency = figures(path)["request_duration_microseconds"]["flush"]
            check("slow: a flush of more than a second is in no bucket with a bound", (1, 0), (latency["count"], sum(latency["buckets"].values())))
            check("slow: its time", True, latency["total"] > 5_000_000)


def faulty(folder):
    """After a device fault a server with `--on-fault stay` still gives its figures."""
    with serve_with_status(folder, "faulty", "--on-fault", "stay", **limit_file_size()) as (server, path):
        with server.new_client() as client:
            write(client, 1, 0, bytes(BLOCK))
            check("faulty: a flush", reply(2, EIO), send(client, FLUSH, 2, 0, 0))
        found = figures(path)
        check("faulty: the error is counted", (1, 1), (found["errors"]["EIO"], found["requests"]["flush"]))
        check("faulty: nothing is durable", 0, found["durable_number"])


def stored(folder):
    """Unflushed writes are stored once `nbdj status --store` has returned, and a kill loses only later ones."""
    with serve_with_status(folder, "stored", "--flush-interval", "0") as (server, path):
        check("stored: nothing yet", (0, "stored 0\n", ""), run(path, "--store"))
        with server.new_client() as client:
            for number in range(3):
                write(client, number, number * BLOCK, bytes([number + 1]) * BLOCK)
            check("stored: pending before", 3, figures(path)["pending_commands"])
            check("stored: three writes", (0, "stored 3\n", ""), run(path, "--store"))
            check("stored: nothing pending", (0, 3), (figures(path)["pending_commands"], figures(path)["durable_number"]))
            check("stored: as a request", ("HTTP/1.1 200 OK", "3\n"), ask(path, "POST", "/store")[::2])
            write(client, 9, 3 * BLOCK, bytes([4]) * BLOCK)
            server.kill()
        check("stored: after a kill", "commands 3\n", checks.run("recover", server.image)[1])
    wanted = (1, "", f"nbdj: {path}: no server listens there any more\nnbdj: not stored by {path}\n")
    check("stored: no server", wanted, run(path, "--store"))


def stored_slowly(folder):
    """While `--store` waits for two syncs of five seconds, figures come at once, and a second `--store` gets 409 and tries again."""
    with serve_with_status(folder, "slowly", "--flush-interval", "0", **slow_syncs(folder)) as (server, path):
        with server.new_client() as client:
            write(client, 1, 0, bytes(BLOCK))
            began = time.monotonic()
            first = subprocess.Popen([NBDJ, "status", "--store", path], stdout=subprocess.PIPE, text=True)
            time.sleep(1)
            check("slowly: a second one", "HTTP/1.1 409 Conflict", ask(path, "POST", "/store")[0])
            asked = time.monotonic()
            check("slowly: figures meanwhile", 1, figures(path)["pending_commands"])
            check("slowly: figures at once", True, time.monotonic() - asked < 1)
            check("slowly: the second one waits for the first", (0, "stored 1\n", ""), run(path, "--store"))
            check("slowly: the first", ("stored 1\n", 0), (first.communicate(timeout=60)[0], first.returncode))
            check("slowly: not before the syncs", True, time.monotonic() - began > 9)


def stored_by_a_device_that_fails(folder):
    """`--store` fails after a device fault."""
    with serve_with_status(folder, "unstored", "--on-fault", "stay", "--flush-interval", "0", **limit_file_size()) as (server, path):
        with server.new_client() as client:
            write(client, 1, 0, bytes(BLOCK))
            wanted = (1, "", f"nbdj: {path}: the server answers that it can't\nnbdj: not stored by {path}\n")
            check("unstored: it says so", wanted, run(path, "--store"))
            check("unstored: nothing is durable", 0, figures(path)["durable_number"])


def unopened(folder):
    """A status socket that can't be made."""
    path = os.path.join(folder, "no", "where")
    image = os.path.join(folder, "unopened.img")
    format_image(image, "--size", "4M", "--area", "4M")
    found = checks.run("serve", image, "--unix", os.path.join(folder, "s"), "--status", path)
    check("unopened: the messages", (1, "", f"nbdj: {path}: No such file or directory (os error 2)\nnbdj: stream fault (21)\n"), found)


def largest(folder):
    """An image of 2^24 blocks, all holes: a WRITE makes a frame dirty, a TRIM of all that a request can name none, and the states of 2 GiB
    are one run."""
    image, path, status = (os.path.join(folder, f"largest.{kind}") for kind in ("img", "sock", "status"))
    try:
        format_image(image, "--blocks", str(1 << 24), "--area", "2097152")
    except subprocess.CalledProcessError:
        print("largest: skipped, because the file system allows no file of 64 GiB with holes")
        return
    with checks.serve(image, "--unix", path, "--status", status, "--flush-interval", "0") as server:
        try:
            check("largest: it listens", path, checks.read_address(server))
            with connect(path) as client:
                checks.shake(client, checks.LONG_HANDSHAKE)
                check("largest: a write", reply(1), write(client, 1, 5 * BLOCK, b"A" * BLOCK))
                check("largest: a dirty frame", (1, 1), (figures(status)["accepted_number"], figures(status)["frames"]["dirty"]))
                check("largest: a trim", reply(2), send(client, TRIM, 2, 0, 1048575 * BLOCK))
                check("largest: no dirty frame", (2, 0), (figures(status)["accepted_number"], figures(status)["frames"]["dirty"]))
                client.sendall(request(checks.STATUS, 3, 0, 524288 * BLOCK))
                check("largest: the states", "668e33ef000100050000000000000003 0000000c000000018000000000000003",
                      take(client, 32).hex(" ", -16))
        finally:
            server.kill()
    os.unlink(image)


SCENARIOS = (largest, known, requests_of_others, mutated, silent, slow, faulty, stored, stored_slowly, stored_by_a_device_that_fails, unopened)

if __name__ == "__main__":
    sys.exit(checks.run_scenarios(SCENARIOS))
