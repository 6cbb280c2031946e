#!/usr/bin/env python3
"""Checks of the built program NBDJ on an administrator's bad days: clients that vanish, disks that are full, devices that fail, sockets that
belong to others, names that are no text, and what a server then tells. The last line is 'N passed, M failed'. As root it uses network
namespaces and a small file system in memory; what can't be tried here is skipped by name.
"""
import contextlib
import ctypes
import json
import os
import re
import resource
import shutil
import signal
import socket
import stat
import struct
import subprocess
import sys
import tempfile
import threading
import time

import checks
from checks import (
    BLOCK, DISC, EIO, FLUSH, FUA, HANDSHAKE, MIB, NBDJ, READ, TOP, WRITE, Server, block_of, check, connect, format_image, preload_settings, read_address, reply,
    request, run, run_scenario, serve, shake, take,
)


LIBC = ctypes.CDLL(None)
CLONE_NEWNET = 0x40000000


def ask(path, text="GET /status HTTP/1.1\r\n\r\n"):
    """What a status socket answers to a request."""
    with connect(path) as client:
        client.sendall(text.encode())
        found = bytearray()
        while piece := client.recv(65536):
            found += piece
    return found.decode()


def figures(path):
    return json.loads(ask(path).split("\r\n\r\n", 1)[1])


@contextlib.contextmanager
def running(image, *words, **settings):
    """A server, which is killed at the end."""
    with serve(image, *words, **settings) as server:
        try:
            yield server
        finally:
            if server.poll() is None:
                server.kill()


@contextlib.contextmanager
def served(folder, name, *words, size="16M", area=(), given=(), **settings):
    """A server at a Unix socket with a status socket; the process and both paths."""
    image, path, status = (os.path.join(folder, f"{name}{end}") for end in (".img", ".sock", ".status"))
    if not os.path.exists(image):
        format_image(image, "--size", size, *area)
    with running(image, "--unix", path, "--status", status, *words, **{"stderr": subprocess.PIPE, **settings}) as server:
        check(f"{name}: it listens", path, read_address(server))
        yield server, path, status


def wait_for(found, seconds=10):
    """Waits until something holds; whether it does."""
    end = time.monotonic() + seconds
    while time.monotonic() < end:
        if found():
            return True
        time.sleep(0.05)
    return bool(found())


def vanished(folder):
    """A client whose host is gone loses its worker; one that is idle doesn't."""
    name, here, there = f"nbdj{os.getpid()}", f"v{os.getpid()}a", f"v{os.getpid()}b"
    ip = shutil.which("ip")
    made = ip and os.geteuid() == 0 and subprocess.run([ip, "netns", "add", name], capture_output=True, check=False).returncode == 0
    if not made:
        print("skipped: a client that vanishes: no network namespaces here")
        return
    try:
        for words in (f"link add {here} type veth peer name {there} netns {name}", f"addr add 10.213.77.1/24 dev {here}", f"link set {here} up",
                      f"-n {name} addr add 10.213.77.2/24 dev {there}", f"-n {name} link set {there} up"):
            subprocess.run([ip, *words.split()], check=True, capture_output=True)
        image = os.path.join(folder, "vanished.img")
        format_image(image, "--size", "16M")
        with running(image, "--listen", "10.213.77.1:0", "--workers", "1", "--keepalive", "4", stderr=subprocess.DEVNULL) as server:
            port = int(read_address(server))
            # (one descriptor of a namespace is enough for a socket in it)
            with open(f"/run/netns/{name}", "rb") as other, open("/proc/self/ns/net", "rb") as own:
                check("vanished: the other namespace", 0, LIBC.setns(other.fileno(), CLONE_NEWNET))
                try:
                    gone = socket.create_connection(("10.213.77.1", port), timeout=10)
                finally:
                    LIBC.setns(own.fileno(), CLONE_NEWNET)
            shake(gone)
            # An idle client whose host answers stays.
            time.sleep(6)
            gone.sendall(request(READ, 1, 0, BLOCK))
            check("vanished: an idle client is served", reply(1), take(gone, 16 + BLOCK)[:16])
            subprocess.run([ip, "-n", name, "link", "set", there, "down"], check=True)
            began = time.monotonic()
            with socket.create_connection(("10.213.77.1", port), timeout=20) as client:
                try:
                    shake(client)
                    found = True
                except OSError as error:
                    found = repr(error)
            check("vanished: the next client is served", True, found)
            check("vanished: within twice the time", True, time.monotonic() - began < 9 or time.monotonic() - began)
            gone.close()
        with running(image, "--listen", "127.0.0.1:0", stderr=subprocess.DEVNULL) as server:
            port = int(read_address(server))
            with socket.create_connection(("127.0.0.1", port)) as client:
                shake(client)
                told = subprocess.run(["ss", "-tno", f"sport = :{port}"], capture_output=True, text=True, check=False).stdout if shutil.which("ss") else "keepalive"
                check("vanished: without the option a timer runs", True, "keepalive" in told or told)
            server.kill()
    finally:
        subprocess.run([ip, "netns", "del", name], check=False)
        subprocess.run([ip, "link", "del", here], check=False, capture_output=True)


def replaced(folder):
    """A server that ends leaves the sockets that another one has made since."""
    with served(folder, "replaced", "--until-eof", stdin=subprocess.PIPE) as (server, path, status):
        others = []
        for place in (path, status):
            os.unlink(place)
            other = socket.socket(socket.AF_UNIX)
            other.bind(place)
            others.append(other)
        server.stdin.close()
        check("replaced: the end", 0, server.wait(timeout=20))
        check("replaced: the others' sockets", [True, True], [os.path.exists(place) for place in (path, status)])
        for other in others:
            other.close()
    for place in (path, status):
        os.unlink(place)
    with served(folder, "replaced", "--until-eof", stdin=subprocess.PIPE) as (server, path, status):
        server.stdin.close()
        server.wait(timeout=20)
        check("replaced: its own sockets", [False, False], [os.path.exists(place) for place in (path, status)])


def failed(folder):
    """A server that stays after its device failed tells that, with the cause, and that writes wait ever longer."""
    settings = preload_settings(folder, "fail_calls", FAIL_CALL="fdatasync 3")
    with served(folder, "failed", "--on-fault", "stay", **settings) as (server, path, status), connect(path) as client:
        shake(client)
        check("failed: not at first", (0, ""), (figures(status)["failed"], figures(status)["failure"]))
        refused = None
        for cookie in range(1, 20):
            client.sendall(request(WRITE, cookie, cookie * MIB % (8 * MIB), BLOCK) + block_of(cookie) + request(FLUSH, 100 + cookie))
            answers = take(client, 32)
            if answers != reply(cookie) + reply(100 + cookie):
                refused = cookie
                break
        check("failed: a request is refused", True, refused is not None)
        time.sleep(0.5)
        found = figures(status)
        check("failed: the figure", (1, "failed"), (found["failed"], found.get("state")))
        check("failed: the cause", True, found["failure"].endswith("sync: Input/output error (os error 5)") or found["failure"])
        check("failed: what is pending grows older", True, found["pending_commands"] == 0 or found["pending_age_microseconds"] > 400_000 or found)
        check("failed: something is pending", True, found["pending_commands"] > 0)
        check("failed: nbdj status", True, "failed       " in run("status", status)[1])
        text = ask(status, "GET /metrics HTTP/1.1\r\n\r\n")
        check("failed: the metric", True, bool(re.search(r'^nbdj_failed\{cause="[^"]+"\} 1$', text, re.M)))


def told_setup(folder):
    """How a server runs stands in its figures and its log."""
    words = ("--cache", "ordered", "--workers", "3", "--in-flight", "16", "--export-name", "disk \"1\"", "--loss-bytes", "4M", "--verbose", "--until-eof")
    with served(folder, "setup", *words, stdin=subprocess.PIPE) as (server, path, status):
        found = figures(status)
        wanted = {"cache": "ordered", "workers": 3, "in_flight": 16, "export": "disk \"1\"", "loss_bytes": 4 * MIB, "size": 16 * MIB, "layout": 2,
                  "path": os.path.realpath(os.path.join(folder, "setup.img"))}
        check("setup: /status", wanted, {key: found.get(key) for key in wanted})
        text = ask(status, "GET /metrics HTTP/1.1\r\n\r\n")
        check("setup: /metrics", True, f'\nnbdj_info{{path="{wanted["path"]}",export="disk \\"1\\"",cache="ordered",size="16777216",layout="2",workers="3",'
              'in_flight="16",loss_bytes="4194304"} 1\n' in text)
        page = run("status", status)[1]
        check("setup: nbdj status", True, "serves       'disk \"1\"', 16.0 MiB in layout 2, ordered, 3 workers, 16 in flight, at most 4.0 MiB pending\n" in page or page)
        with connect(path) as client:
            shake(client, HANDSHAKE.replace(struct.pack(">I", 0) + struct.pack(">HH", 1, 3), struct.pack(">I", 8) + b'disk "1"' + struct.pack(">HH", 1, 3), 1)
                  .replace(struct.pack(">II", 7, 8), struct.pack(">II", 7, 16)))
            watching = subprocess.Popen([NBDJ, "status", status, "--watch"], stdout=subprocess.PIPE, text=True)
            for cookie in range(40):
                client.sendall(request(READ, cookie, 0, BLOCK))
                take(client, 16 + BLOCK)
                time.sleep(0.05)
            lines = [watching.stdout.readline() for _ in range(2)]
            watching.kill()
            watching.wait()
        row = r"; reads, half within \d+\.\d{3} ms, 99% \d+\.\d{3} ms, all \d+\.\d{3} ms"
        check("setup: the latencies of the last second", True, any(re.search(row, line) for line in lines) or lines)
        server.stdin.close()
        status_code, log = server.wait(timeout=20), server.stderr.read()
        check("setup: the first line of the log", True, " serves " in log.splitlines()[0] and wanted["path"] in log.splitlines()[0] or log)
        check("setup: a clean end is logged", (0, f"nbdj: {os.path.join(folder, 'setup.img')}: ended as asked; every answered write is stored"),
              (status_code, log.splitlines()[-1]))


def asked_plainly(folder):
    """HEAD, a query, and an output that can't be written."""
    with served(folder, "plain") as (_, _path, status):
        check("plain: a query", "HTTP/1.1 200 OK", ask(status, "GET /metrics?name=x HTTP/1.1\r\n\r\n").split("\r\n")[0])
        head = ask(status, "HEAD /status HTTP/1.1\r\n\r\n")
        check("plain: HEAD", ("HTTP/1.1 200 OK", ""), (head.split("\r\n")[0], head.split("\r\n\r\n", 1)[1]))
        with open("/dev/full", "wb") as full:
            done = subprocess.run([NBDJ, "status", status], stdout=full, stderr=subprocess.PIPE, text=True, timeout=20, check=False)
        check("plain: an output that is full", (1, "nbdj: standard output: "), (done.returncode, done.stderr[:23]))
    nowhere, dead = os.path.join(folder, "nowhere"), os.path.join(folder, "dead")
    check("plain: no socket", (1, "", f"nbdj: {nowhere}: there is no such socket\nnbdj: no figures from {nowhere}\n"), run("status", nowhere))
    with socket.socket(socket.AF_UNIX) as bound:
        bound.bind(dead)
    check("plain: a dead socket", (1, "", f"nbdj: {dead}: no server listens there any more\nnbdj: no figures from {dead}\n"), run("status", dead))


def no_text(folder):
    """Names are refused that aren't UTF-8, before anything is done."""
    image = os.path.join(folder, "t\udcff.img")
    for words in (("format", image, "--size", "4M"), ("serve", image, "--unix", "s"), ("check", image), ("status", image)):
        done = subprocess.run([NBDJ, *words], capture_output=True, timeout=20, check=False)
        check(f"no text: {words[0]}", (2, b"", b"nbdj: " + os.fsencode(image) + b" isn't UTF-8\n"), (done.returncode, done.stdout, done.stderr))
    check("no text: nothing is made", False, os.path.exists(image))


def refused_words(folder):
    """Addresses that are none are faults of the command line; an option given twice has its last value."""
    image = os.path.join(folder, "words.img")
    check("words: an image", 0, run("format", image, "--size", "1G", "--size", "8M")[0])
    check("words: the last value counts", True, "blocks 2048" in run("check", image)[1])
    check("words: a new image is its owner's", 0o600, stat.S_IMODE(os.stat(image).st_mode))
    for address in ("", "0", "10809", "127.0.0.1:65536", "127.0.0.1:", ":10809"):
        status, _, errors = run("serve", image, "--listen", address)
        check(f"words: the address '{address}'", (2, f"error: invalid value '{address}' for '--listen <ADDR>'"), (status, errors.split(": it is")[0]))
    for option, value in (("--on-fault", "no"), ("--when-full", "no"), ("--on-full", "no"), ("--unix-mode", "8"), ("--loss-bytes", "1"), ("--loss-seconds", "x")):
        errors = run("serve", image, "--unix", "s", option, value)[2]
        check(f"words: {option} {value}", f"error: invalid value '{value}' for '{option} <", errors[:len(option) + len(value) + 31])


def few_descriptors(folder):
    """Too few descriptors are told."""
    image, path, status = (os.path.join(folder, f"few{end}") for end in (".img", ".sock", ".status"))
    format_image(image, "--size", "4M")
    for most in range(5, 12):
        try:
            done = subprocess.run([NBDJ, "serve", image, "--unix", path, "--status", status], capture_output=True, text=True, timeout=3, check=False,
                                  stdin=subprocess.DEVNULL, preexec_fn=lambda: resource.setrlimit(resource.RLIMIT_NOFILE, (most, most)))
            told = done.stderr
        except subprocess.TimeoutExpired as late:
            told = (late.stderr or b"").decode()
        check(f"few descriptors: {most}", True, "open files" in told or "descriptors" in told or told)


def grown(folder):
    """With `ulimit -f` a write is an error that is told, and no end without a word; and nbdj-server needs no /proc."""
    image, path = os.path.join(folder, "grown.img"), os.path.join(folder, "grown.sock")
    format_image(image, "--size", "64M", "--area", "4M")
    script = os.path.join(TOP, "packaging", "nbdj-server")

    def limit():
        signal.signal(signal.SIGXFSZ, signal.SIG_DFL)
        resource.setrlimit(resource.RLIMIT_FSIZE, (16 * MIB, 16 * MIB))

    environment = {**os.environ, "NBDJ": NBDJ}
    with running(image, "--unix", path, program=(script,), stderr=subprocess.PIPE, env=environment, preexec_fn=limit) as server:
        read_address(server)
        with contextlib.suppress(OSError), connect(path) as client:
            shake(client)
            for cookie in range(8):
                client.sendall(request(WRITE, cookie, 48 * MIB + cookie * MIB, MIB) + bytes([1]) * MIB + request(FLUSH, 100 + cookie))
                if len(take(client, 32)) < 32:
                    break
        try:
            status = server.wait(timeout=20)
        except subprocess.TimeoutExpired:
            status = "it goes on"
            server.kill()
        errors = server.stderr.read()
        check("grown: the end", (1, True), (status, "File too large" in errors or errors))


@contextlib.contextmanager
def small_disk(folder, size):
    """A file system in memory of this size; None where there can be none."""
    place = os.path.join(folder, "small")
    os.makedirs(place, exist_ok=True)
    done = subprocess.run(["mount", "-t", "tmpfs", "-o", f"size={size}", "none", place], capture_output=True, check=False)
    if done.returncode != 0:
        print("skipped: a full disk: nothing can be mounted here")
        yield None
        return
    try:
        yield place
    finally:
        subprocess.run(["umount", "-l", place], check=False)


def full(folder):
    """A full disk under a file with holes: the server waits and goes on, at an opening too, and nothing confirmed is lost by a kill."""
    with small_disk(folder, "24M") as place:
        if not place:
            return
        ballast = os.path.join(place, "ballast")
        image = os.path.join(place, "full.img")
        format_image(image, "--size", "64M", "--area", "4M")
        with open(ballast, "wb") as file, contextlib.suppress(OSError):
            for _ in range(12):
                file.write(bytes(MIB))
                file.flush()
        os.truncate(ballast, os.stat(ballast).st_size // MIB * MIB)
        free = os.statvfs(place).f_bavail * BLOCK // MIB
        print(f"full: {free} MiB are free")
        flushed, errors = 0, []
        with served(place, "full", "--device-timeout", "2", "--frames", "4096") as (server, path, status):
            reader = threading.Thread(target=lambda: errors.extend(iter(server.stderr.readline, "")))
            reader.start()
            with connect(path) as client, connect(path) as other:
                shake(client)
                shake(other)
                client.settimeout(3)
                try:
                    for cookie in range(48):
                        client.sendall(request(WRITE, cookie, cookie * MIB, MIB) + bytes([cookie + 1]) * MIB + request(FLUSH, 100 + cookie))
                        take(client, 32)
                        flushed = cookie + 1
                except socket.timeout:
                    pass
                check("full: a write waits", True, 0 < flushed < 48 or flushed)
                check("full: it is told", True, wait_for(lambda: any("no space left on device: what is copied waits" in line for line in errors)) or errors)
                check("full: the figure", 1, figures(status).get("disk_full"))
                check("full: nbdj status", True, "disk full    " in run("status", status)[1])
                other.sendall(request(READ, 7, 0, BLOCK))
                check("full: a READ goes on", reply(7) + bytes([1]) * BLOCK, take(other, 16 + BLOCK))
                time.sleep(3)
                check("full: no call of the device takes too long", None, server.poll())
                os.unlink(ballast)
                other.sendall(request(FLUSH, 8))
                check("full: a FLUSH is answered then", reply(8), take(other, 16))
                check("full: it goes on once space is freed", True, wait_for(lambda: figures(status).get("disk_full") == 0))
                check("full: the end of the wait is told", True, wait_for(lambda: any("goes on after" in line for line in errors)) or errors)
                check("full: the wait has a figure", True, figures(status).get("disk_full_wait_microseconds", 0) > 1_000_000)
            server.kill()
            reader.join(20)
    with small_disk(folder, "24M") as place:
        ballast, image = os.path.join(place, "ballast"), os.path.join(place, "again.img")
        format_image(image, "--size", "64M", "--area", "4M")
        with served(place, "again", stderr=subprocess.DEVNULL) as (server, path, status):
            with connect(path) as client:
                shake(client)
                client.settimeout(3)
                confirmed = 0
                with contextlib.suppress(socket.timeout):
                    for cookie in range(48):
                        client.sendall(request(WRITE, cookie, cookie * MIB, MIB) + bytes([cookie + 1]) * MIB + request(FLUSH, 100 + cookie))
                        if len(take(client, 32)) == 32:
                            confirmed = cookie + 1
            check("full: a kill meanwhile", True, server.poll() is None and 0 < confirmed < 48 or confirmed)
            server.kill()
        check("full: a recovery says what is missing", 1, run("recover", image)[0])
        # An opening waits too, and goes on.
        with open(ballast, "wb"):
            pass
        status = os.path.join(place, "waiting.status")
        with running(image, "--unix", os.path.join(place, "again.sock"), "--status", status, stderr=subprocess.PIPE) as server:
            waiting = server.stderr.readline()
            check("full: an opening waits", True, "no space left on device: what is copied waits" in waiting or waiting)
            found, page = figures(status), run("status", status)[1]
            check("full: the figures meanwhile", ("opening", 1), (found.get("state"), found.get("disk_full")))
            check("full: nbdj status meanwhile", True, "\ndisk full    " in page and "\nopening      " in page or page)
            subprocess.run(["mount", "-o", "remount,size=128M", place], check=True)
            path = read_address(server)
            check("full: an opening goes on", True, path.endswith("again.sock"))
            with connect(path) as client:
                shake(client)
                kept = []
                for cookie in range(confirmed):
                    client.sendall(request(READ, cookie, cookie * MIB, MIB))
                    kept.append(take(client, 16 + MIB)[16:] == bytes([cookie + 1]) * MIB)
            check("full: all that was confirmed is there", [True] * confirmed, kept)
            server.kill()
    with small_disk(folder, "24M") as place:
        format_image(os.path.join(place, "stop.img"), "--size", "64M", "--area", "4M")
        with served(place, "stop", "--on-full", "stop") as (server, path, status), connect(path) as client:
            shake(client)
            with contextlib.suppress(OSError):
                for cookie in range(48):
                    client.sendall(request(WRITE, cookie, cookie * MIB, MIB) + bytes([1]) * MIB + request(FLUSH, 100 + cookie))
                    if len(take(client, 32)) < 32:
                        break
            check("full: --on-full stop ends the server", 1, server.wait(timeout=20))


def waits(folder):
    """Each wait of a write has a figure, which agrees with the client's clock."""
    def asked(name, count, size, *words, area=(), pause=0, span=200, **slow):
        settings = preload_settings(folder, "slow_sync", **{key: str(value) for key, value in slow.items()})
        with served(folder, name, *words, size="256M", area=area, stderr=subprocess.DEVNULL, **settings) as (_, path, status), connect(path, 120) as client:
            shake(client)
            waited, longest = 0.0, 0.0
            for cookie in range(count):
                time.sleep(pause)
                began = time.monotonic()
                client.sendall(request(WRITE, cookie, cookie % span * size, size) + bytes([cookie % 251]) * size)
                take(client, 16)
                took = time.monotonic() - began
                waited += took if took > 0.002 else 0
                longest = max(longest, took)
            found = figures(status)
        os.unlink(os.path.join(folder, f"{name}.img"))
        return waited, {key: micros / 1e6 for key, micros in found["wait_microseconds"].items()}, found["waits"]

    for name, wanted, arguments, slow in (
        ("journal", ("journal", "loss_bytes"), (250, MIB // 2, "--frames", "65536", "--flush-interval", "0.01"), {"SLOW_SYNC_US": 50000}),
        ("frames", ("frames", "throttle"), (250, 16 * BLOCK, "--frames", "512"), {"SLOW_SYNC_US": 50000}),
        ("loss bytes", ("loss_bytes", "journal"), (100, MIB // 4, "--loss-bytes", "2M"), {"SLOW_SYNC_US": 100000}),
        ("loss seconds", ("loss_seconds",), (60, BLOCK, "--loss-seconds", "0.01"), {"SLOW_SYNC_US": 100000}),
    ):
        area = ("--area", "4M") if name == "journal" else ()
        waited, seconds, counts = asked(name, *arguments, area=area, pause=0.02 if name == "loss seconds" else 0, **slow)
        total = sum(seconds.values())
        print(f"waits, {name}: the client waited {waited:.2f} s; {seconds}")
        check(f"waits, {name}: the client has waited", True, waited > 1 or waited)
        check(f"waits, {name}: the figures agree with its clock", True, abs(total - waited) <= 0.1 * waited + 0.2 or (waited, seconds))
        check(f"waits, {name}: by its name", True, seconds[wanted[0]] > 0.25 * waited and counts[wanted[0]] > 0 or (waited, seconds))


def notified(folder):
    """A service manager is told that clients are served, and that the server ends."""
    place = os.path.join(folder, "notify")
    with socket.socket(socket.AF_UNIX, socket.SOCK_DGRAM) as manager:
        manager.bind(place)
        manager.settimeout(10)
        for address in (place, f"@nbdj-{os.getpid()}"):
            with socket.socket(socket.AF_UNIX, socket.SOCK_DGRAM) as hidden:
                hidden.settimeout(10)
                if address.startswith("@"):
                    hidden.bind("\0" + address[1:])
                told = hidden if address.startswith("@") else manager
                environment = {**os.environ, "NOTIFY_SOCKET": address}
                with served(folder, "notified", "--until-eof", stdin=subprocess.PIPE, env=environment) as (server, _path, _status):
                    try:
                        check(f"notified at {address[0]}: ready", b"READY=1", told.recv(1000).split(b"\n")[0])
                        server.stdin.close()
                        check(f"notified at {address[0]}: the end", b"STOPPING=1", told.recv(1000).split(b"\n")[0])
                    except socket.timeout:
                        check(f"notified at {address[0]}", "a datagram", "none")
                    server.wait(timeout=20)


def misnamed(folder):
    """The log has the name that a refused client asked for."""
    words = ("--export-name", "disk", "--verbose", "--until-eof")
    with served(folder, "misnamed", *words, stdin=subprocess.PIPE) as (server, path, _status):
        with connect(path) as client:
            client.sendall(checks.FLAGS + checks.go(b"another\n"))
            take(client, 18 + 20)
        with connect(path) as client:
            client.sendall(checks.FLAGS + checks.go(b"disk"))
            take(client, 18 + 20)
        time.sleep(0.5)
        server.stdin.close()
        server.wait(timeout=20)
        lines = [line for line in server.stderr.read().splitlines() if "asked for" in line]
        check("misnamed: the log", [f"nbdj: {os.path.join(folder, 'misnamed.img')}: client 1 asked for another export, 'another?'"], lines)


def damaged(folder):
    """Damage is told with its place; `check --deep` tells each group, and what would be lost."""
    area = 2 * MIB
    image = os.path.join(folder, "damaged.img")
    format_image(image, "--blocks", "4096", "--area", str(area))
    path = os.path.join(folder, "damaged.sock")
    with running(image, "--unix", path, stderr=subprocess.DEVNULL) as server:
        read_address(server)
        with connect(path) as client:
            shake(client)
            for cookie in range(3):
                client.sendall(request(WRITE, cookie, cookie * BLOCK, BLOCK) + block_of(cookie) + request(FLUSH, 10 + cookie))
                take(client, 32)
    with open(image, "rb") as file:
        whole = file.read()
    group = 17 + 13 + BLOCK
    status, printed, _ = run("check", image, "--deep")
    wanted = [f"area 0, group {number} at {8192 + (number - 1) * group}: 1 writes from number {number}, {group} bytes" for number in (1, 2, 3)]
    check("damaged: the groups of a whole image", (0, wanted), (status, [line for line in printed.splitlines() if line.startswith("area ")]))
    second, map_slot = 8192 + group, 8192 + 2 * area
    cases = (
        (second + 5, b"\xff", 12, "damaged group", f"area 0, group 2 at offset {second}, whose first write is number 2: its first number isn't the next one"),
        (second + 13, bytes(4), 12, "damaged group", f"area 0, group 2 at offset {second}, whose first write is number 2: it has no command"),
        (map_slot + 3, b"\xc0", 6, "bad map", f"map slot 0, the byte at offset {map_slot + 3}: block 15 has code 3"),
        (29, b"\x09", 8, "bad header", "header slot 0 at offset 0, or the file's length, breaks a rule"),
    )
    for at, piece, number, text, place in cases:
        with open(image, "wb") as file:
            file.write(whole[:at] + piece + whole[at + len(piece):])
        errors = run("check", image, "-v")[2]
        check(f"damaged: check at {at}", True, errors.endswith(f"nbdj: {image}: {place}\nnbdj: {text} ({number})\n") or errors)
        _, printed, _ = run("check", image, "--deep")
        lost = [line for line in printed.splitlines() if line.startswith("damaged")]
        if number == 12:
            check(f"damaged: what would be lost at {at}", True, len(lost) == 1 and lost[0].endswith("; writes from number 2 on would be lost") or lost)
        with running(image, "--unix", path, stderr=subprocess.PIPE) as server:
            errors = server.stderr.read()
        check(f"damaged: serve at {at}", True, errors.endswith(f"nbdj: {image}: {place}\nnbdj: {text} ({number})\n") or errors)


# In layout 2 the first of four areas of 32 MiB takes all of the journal that `fill_journal` writes: 14 groups of one put of 256 blocks each.
AREA, WRITES, PLACES = 32 * MIB, 14, 12
USED = WRITES * (17 + 13 + MIB)


def fill_journal(folder, name):
    """An image after 14 flushed writes of 1 MiB to 12 places, none of which was copied; its path."""
    image = os.path.join(folder, f"{name}.img")
    format_image(image, "--size", "64M", "--area", "64M")
    given = b"".join(request(WRITE, cookie, cookie % PLACES * MIB, MIB) + bytes([cookie + 1]) * MIB + request(FLUSH, 100 + cookie) for cookie in range(WRITES))
    status, answers, _ = run("pipe", image, given=given + request(DISC, 0))
    check(f"{name}: all is stored", (0, b"".join(reply(it) + reply(100 + it) for it in range(WRITES))), (status, answers))
    with open(image, "rb") as file:
        first = file.read(32)
        check(f"{name}: layout 2, one area of 32 MiB in use, the first", (b"NBDJRNL2", AREA, 1, 0), (first[1:9], int.from_bytes(first[25:29], "big"), first[29], first[30]))
        file.seek(8192 + USED - (17 + 13 + MIB))
        group = file.read(17)
        check(f"{name}: the last group", (1, 13 + MIB, WRITES, 1), struct.unpack(">BIQI", group))
    return image


def slow_disk(folder, reads=20000, writes=1000):
    """The environment of a program whose reads and writes of a file each take this many microseconds more. (A block is copied with up to three others.)"""
    return preload_settings(folder, "slow_sync", SLOW_READ_US=str(reads), SLOW_WRITE_US=str(writes))


def is_listening(path):
    with contextlib.suppress(OSError):
        connect(path).close()
        return True
    return False


@contextlib.contextmanager
def opening(image, *words, **settings):
    """A server that opens its image, once its status socket is there; the process, and the paths of both sockets."""
    path, status = image.replace(".img", ".sock"), image.replace(".img", ".status")
    with running(image, "--unix", path, "--status", status, *words, **{"stderr": subprocess.PIPE, **settings}) as server:
        check("opening: the status socket", True, wait_for(lambda: is_listening(status)))
        yield server, path, status


def kept(path):
    """Whether the server at this socket has what `fill_journal` wrote."""
    with connect(path) as client:
        shake(client)
        for place in range(PLACES):
            client.sendall(request(READ, place, place * MIB, MIB))
            last = place + PLACES if place + PLACES < WRITES else place
            if take(client, 16 + MIB) != reply(place) + bytes([last + 1]) * MIB:
                return False
    return True


def check_progress(found):
    """What was told during an opening, from one answer to the next."""
    scanned, unscanned, copied, uncopied = ([it[f"opening_{key}_bytes"] for it in found] for key in ("scanned", "unscanned", "copied", "uncopied"))
    for name, series in (("scanned", scanned), ("copied", copied)):
        check(f"opened: {name} bytes grow", (True, True), (series == sorted(series), len(set(series)) > 4 or len(set(series))))
    for name, series in (("unscanned", unscanned), ("uncopied", uncopied)):
        check(f"opened: {name} bytes shrink", (True, True), (series == sorted(series, reverse=True), len(set(series)) > 4 or len(set(series))))
    rows = list(zip(scanned, unscanned, copied, uncopied))
    amiss = [row for row in rows if row[1] and (row[0] + row[1], row[2], row[3]) != (AREA, 0, AREA)]
    check("opened: during the scan", [], amiss[:5])
    # (the last read of the scan has the last gate, which is closed, and at most 1 MiB)
    amiss = [row for row in rows if not row[1] and not (USED < row[0] <= USED + MIB and row[2] % BLOCK == 0 and row[2] + row[3] == row[0])]
    check("opened: after it", [], amiss[:5])
    check("opened: both are seen", (True, True), (any(row[1] for row in rows), any(not row[1] for row in rows)))


def opened(folder):
    """While an image is opened, which takes a second or two, the status socket tells how far that is; afterwards all goes on as usual."""
    image = fill_journal(folder, "opened")
    shutil.copyfile(image, os.path.join(folder, "whole"))
    with opening(image, **slow_disk(folder, 50000, 2000)) as (server, path, status):
        pages, began = [], time.monotonic()
        for pause in (0.4, 0):
            asked = time.monotonic()
            pages.append(run("status", status)[1])
            check("opened: nbdj status answers within 0.2 s", True, time.monotonic() - asked < 0.2 or time.monotonic() - asked)
            time.sleep(pause)
        check("opened: nbdj status says so", [True, True], ["\nopening      no client is served yet\njournal      " in page or page for page in pages])
        lines = [re.findall("^journal +(.*) scanned, at most (.*) left\ncopied +0 B into the image, at most 32.0 MiB left$", page, re.M) for page in pages]
        check("opened: nbdj status has other figures each time", (1, 1, True), (len(lines[0]), len(lines[1]), lines[0] != lines[1]))
        text = ask(status, "GET /metrics HTTP/1.1\r\n\r\n")
        check("opened: /metrics", (True, True), ("\nnbdj_opening 1\n" in text, bool(re.search("^nbdj_opening_scanned_bytes [1-9][0-9]*$", text, re.M))))
        check("opened: /store", "HTTP/1.1 409 Conflict", ask(status, "POST /store HTTP/1.1\r\n\r\n").split("\r\n")[0])
        check("opened: another path", "HTTP/1.1 404 Not Found", ask(status, "GET /x HTTP/1.1\r\n\r\n").split("\r\n")[0])
        storing = subprocess.Popen([NBDJ, "status", "--store", status], stdout=subprocess.PIPE, text=True)
        watching = subprocess.Popen([NBDJ, "status", "--watch", status], stdout=subprocess.PIPE, text=True)
        found, longest = [], 0.0
        while time.monotonic() < began + 20:
            asked = time.monotonic()
            now = figures(status)
            longest = max(longest, time.monotonic() - asked)
            if now.get("state") != "opening":
                break
            found.append(now)
            time.sleep(0.02)
        print(f"opened: {len(found)} answers in {time.monotonic() - began:.2f} s, each within {longest:.3f} s")
        check("opened: each answer comes within 0.2 s", True, longest < 0.2 or longest)
        check("opened: the state", (True, "serving"), (len(found) > 10 or len(found), now.get("state")))
        check_progress(found or [dict.fromkeys((f"opening_{key}_bytes" for key in ("scanned", "unscanned", "copied", "uncopied")), 0)])
        check("opened: it listens", path, read_address(server))
        check("opened: what was copied", (PLACES * MIB, 0, 0), tuple(now.get(f"opening_{key}_bytes") for key in ("copied", "unscanned", "uncopied")))
        check("opened: --watch", True, watching.stdout.readline().startswith("opening: scanned "))
        watching.kill()
        check("opened: --store waits for the opening", (f"stored {WRITES}\n", 0), (storing.communicate(timeout=20)[0], storing.returncode))
        check("opened: the image", True, kept(path))
        now, text = figures(status), ask(status, "GET /metrics HTTP/1.1\r\n\r\n")
        check("opened: figures afterwards", ("serving", PLACES, True), (now.get("state"), now["requests"]["read"], "\nnbdj_opening 0\n" in text))
        check("opened: nbdj status afterwards", False, "opening" in run("status", status)[1])


def opened_in_two_areas(folder):
    """An opening that goes on with a checkpoint: it scans both areas in use before it copies what each has."""
    image, path = os.path.join(folder, "two.img"), os.path.join(folder, "two.fill")
    format_image(image, "--size", "64M", "--area", "64M")
    # (16 MiB are in the first area, whose copy is slow, and 8 in the second one)
    with running(image, "--unix", path, "--frames", "16384", stderr=subprocess.DEVNULL, **slow_disk(folder, 0, 5000)) as server:
        read_address(server)
        with connect(path, 60) as client:
            shake(client)
            for cookie in range(24):
                client.sendall(request(WRITE, cookie, cookie % 20 * MIB, MIB) + bytes([cookie + 1]) * MIB + request(FLUSH, 100 + cookie))
                take(client, 32)
        server.kill()
    with open(image, "rb") as file:
        slots = [file.read(4096) for _ in range(2)]
    check("two areas: both are in use", (2, 0), max((slot[9:17], slot[29], slot[30]) for slot in slots if slot[0] == 1)[1:])
    groups, found = 24 * (17 + 13 + MIB), []
    with opening(image, **slow_disk(folder, 20000, 500)) as (server, path, status):
        while (now := figures(status)).get("state") == "opening" and len(found) < 1000:
            found.append(tuple(now[f"opening_{key}_bytes"] for key in ("scanned", "unscanned", "copied", "uncopied")))
            time.sleep(0.02)
        check("two areas: it listens", path, read_address(server))
        check("two areas: what was copied", (24 * MIB, 0, 0), tuple(now.get(f"opening_{key}_bytes") for key in ("copied", "unscanned", "uncopied")))
    amiss = [it for it in found if it[1] and (it[0] + it[1], it[2], it[3]) != (2 * AREA, 0, 2 * AREA)]
    amiss += [it for it in found if not it[1] and not (groups < it[0] <= groups + 2 * MIB and it[2] + it[3] == it[0])]
    check("two areas: the figures", (True, []), (len(found) > 10, amiss[:5]))


def opened_beside_silence(folder):
    """A client that says nothing delays neither the opening nor a refusal, and has its answer afterwards."""
    whole, took = os.path.join(folder, "whole"), []
    image = fill_journal(folder, "beside")
    os.replace(image, whole)
    slow = slow_disk(folder, 10000, 500)
    for silent in (False, True, True, True):
        shutil.copyfile(whole, image)
        with opening(image, **slow) as (server, path, status), connect(status) as client:
            began = time.monotonic()
            if silent:
                client.sendall(b"GET /status HT")
            else:
                client.close()
            check("silence: it listens", path, read_address(server))
            took.append(time.monotonic() - began)
            if silent:
                # (four clients are answered at a time, and this one is among them)
                check("silence: others are answered", "serving", figures(status).get("state"))
                client.sendall(b"TP/1.1\r\n\r\n")
                text = take(client, 1 << 20).decode()
                check("silence: the answer", True, '"state":"serving"' in text.replace(" ", "") or text)
            check("silence: the image", True, kept(path))
    print(f"silence: the openings took {', '.join(f'{it:.3f}' for it in took)} s")
    check("silence: no opening takes 0.3 s longer", True, max(took) < took[0] + 0.3 or took)


def unopened(folder):
    """An opening that fails, or is ended, ends as without a status socket."""
    whole, image = os.path.join(folder, "unopened.whole"), fill_journal(folder, "unopened")
    os.replace(image, whole)
    third = 8192 + 2 * (17 + 13 + MIB)
    for at, piece, refusal in ((29, b"\x09", "bad header (8)"), (0, b"\x00", "no header (7)"), (third + 5, b"\xff", "damaged group (12)")):
        ends = []
        for words in ((), ("--status", image.replace(".img", ".status"))):
            shutil.copyfile(whole, image)
            with open(image, "r+b") as file:
                file.seek(at)
                file.write(piece)
            with running(image, "--unix", image.replace(".img", ".sock"), *words, stderr=subprocess.PIPE, **slow_disk(folder)) as server:
                silent = None
                if words and at > 8192 and wait_for(lambda: is_listening(words[1])):
                    silent = connect(words[1])
                ends.append((*server.communicate(timeout=20), server.wait(timeout=20), os.path.exists(image.replace(".img", ".status"))))
                if silent:
                    silent.close()
        check(f"unopened: {refusal}", True, ends[0] == ends[1] and ends[0][2:] == (1, False) and ends[0][1].endswith(f"nbdj: {refusal}\n") or ends)
    for how in (signal.SIGTERM, signal.SIGKILL):
        shutil.copyfile(whole, image)
        with opening(image, **slow_disk(folder)) as (server, path, status):
            time.sleep(0.3)
            check(f"unopened: the state before {how.name}", "opening", figures(status).get("state"))
            server.send_signal(how)
            check(f"unopened: the end by {how.name}", -how, server.wait(timeout=20))
        with opening(image) as (server, path, status):
            check(f"unopened: after {how.name}", path, read_address(server))
            check(f"unopened: the image after {how.name}", True, kept(path))
    shutil.copyfile(whole, image)
    with opening(image, "--until-eof", stdin=subprocess.PIPE, **slow_disk(folder)) as (server, path, status):
        server.stdin.close()
        check("unopened: the state once the input has ended", "opening", figures(status).get("state"))
        check("unopened: the end of the input", (path, 0), (read_address(server), server.wait(timeout=20)))
    # A socket that somebody has removed meanwhile doesn't hold the opening up.
    shutil.copyfile(whole, image)
    with opening(image, **slow_disk(folder)) as (server, path, status):
        os.unlink(status)
        check("unopened: without the status socket's file", path, read_address(server))
        check("unopened: the image without it", True, kept(path))


def main():
    scenarios = [vanished, replaced, failed, told_setup, asked_plainly, no_text, refused_words, few_descriptors, grown, full, waits, notified, misnamed, damaged, opened, opened_in_two_areas,
                 opened_beside_silence, unopened]
    unknown = set(sys.argv[1:]) - {it.__name__ for it in scenarios}
    if unknown:
        sys.exit(f"bad_days.py: there is no scenario {', '.join(sorted(unknown))}")
    with tempfile.TemporaryDirectory() as folder:
        for scenario in scenarios:
            if not sys.argv[1:] or scenario.__name__ in sys.argv[1:]:
                run_scenario(scenario, folder)
    return checks.finish()


if __name__ == "__main__":
    sys.exit(main())
