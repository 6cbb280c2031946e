"""What the checks in Python share: they count what holds, speak the NBD protocol, and run the built program NBDJ and servers of it.

Import it first; a script then ends with `sys.exit(checks.finish())`.
"""
import contextlib
import os
import socket
import struct
import subprocess
import sys
import tempfile
import threading
import time

TOP = os.path.dirname(os.path.dirname(os.path.abspath(__file__)))
NBDJ = os.environ.get("NBDJ") or sys.exit(f"{os.path.basename(sys.argv[0])}: NBDJ has to name the program, as NBDJ=$PWD/crates/nbdj/out/nbdj")

BLOCK, MIB = 4096, 1 << 20
READ, WRITE, DISC, FLUSH, TRIM, ZEROES, STATUS = 0, 1, 2, 3, 4, 6, 7
FUA, NO_HOLE, DF, REQ_ONE = 1, 2, 4, 8
EIO, ENOMEM, EINVAL, ENOSPC = 5, 12, 22, 28
# Options of the handshake, and the answer that ends one.
STRUCTURED, SET_CONTEXT, GO, ACK = 8, 10, 7, 1


# Counting.

passed, failed = 0, 0
counting = threading.Lock()


def check(name, wanted, got):
    global passed, failed
    with counting:
        if wanted == got:
            passed += 1
        else:
            failed += 1
            print(f"FAILED {name}\n  wanted: {wanted}\n  got:    {got}", flush=True)


def finish():
    """Prints the last line of a script; whether a check failed."""
    print(f"{passed} passed, {failed} failed")
    return failed > 0


def run_scenario(scenario, *arguments):
    """Runs a function that makes checks, and prints how long it took. An error that ends it is a failed check."""
    began = time.monotonic()
    try:
        scenario(*arguments)
    except (OSError, ValueError, IndexError, struct.error, subprocess.SubprocessError) as error:
        check(f"{scenario.__name__}: it comes to its end", "no error", repr(error))
    print(f"{scenario.__name__}: {time.monotonic() - began:.1f} s", flush=True)


def run_scenarios(scenarios):
    """Runs each with the path of one temporary folder, and ends as `finish` does."""
    with tempfile.TemporaryDirectory() as folder:
        for scenario in scenarios:
            run_scenario(scenario, folder)
    return finish()


# The program.


def run(*words, given="", seconds=60, **settings):
    """Runs the program; its status, its output and its errors, which are bytes if the input is."""
    done = subprocess.run([NBDJ, *words], input=given, capture_output=True, text=isinstance(given, str), timeout=seconds, **settings)
    return done.returncode, done.stdout, done.stderr


def format_image(path, *words):
    """Makes an image by `nbdj format`."""
    subprocess.run([NBDJ, "format", path, *words], check=True, stdin=subprocess.DEVNULL, stdout=subprocess.DEVNULL, timeout=60)


def serve(image, *words, program=(NBDJ, "serve"), **settings):
    """Starts a server, whose output is a pipe."""
    settings = {"stdin": subprocess.DEVNULL, "stdout": subprocess.PIPE, "text": True, **settings}
    return subprocess.Popen([*program, image, *words], **settings)


def read_address(server):
    """Waits for the next line `listening ADDRESS`; the address, or nothing if the server says something else or ends."""
    word, _, address = server.stdout.readline().rstrip("\n").partition(" ")
    return address if word == "listening" else ""


def build_preload(folder, name):
    """Makes a library of tests/preloads/NAME.c, unless it is there; its path."""
    library = os.path.join(folder, f"{name}.so")
    if not os.path.exists(library):
        words = ["-Wall", "-Werror", "-shared", "-fPIC", "-O2", "-pthread", "-o", library, f"{TOP}/tests/preloads/{name}.c", "-ldl"]
        subprocess.run([os.environ.get("CC", "cc"), *words], check=True)
    return library


def preload_settings(folder, name, **variables):
    """The settings of a process with this library preloaded and these variables."""
    return {"env": {**os.environ, **variables, "LD_PRELOAD": build_preload(folder, name)}}


# The protocol.


def request(kind, cookie, offset=0, length=0, flags=0):
    return struct.pack(">IHHQQI", 0x25609513, flags, kind, cookie, offset, length)


def reply(cookie, error=0):
    """A simple reply."""
    return struct.pack(">IIQ", 0x67446698, error, cookie)


def option(number, data=b""):
    return b"IHAVEOPT" + struct.pack(">II", number, len(data)) + data


def go(name=b"", types=(3,)):
    """A GO that asks for block sizes."""
    return option(GO, struct.pack(">I", len(name)) + name + struct.pack(f">H{len(types)}H", len(types), *types))


def set_context():
    query = b"base:allocation"
    return option(SET_CONTEXT, struct.pack(">III", 0, 1, len(query)) + query)


FLAGS = struct.pack(">I", 3)
# The one leads to simple replies, the other to structured ones and the context base:allocation.
HANDSHAKE = FLAGS + go()
LONG_HANDSHAKE = FLAGS + option(STRUCTURED) + set_context() + go()


def block_of(number):
    """The bytes of a block that differ from those of every other number."""
    return b"".join(struct.pack(">II", number, place) for place in range(BLOCK // 8))


def connect(path, seconds=20):
    """A client at a Unix socket."""
    client = socket.socket(socket.AF_UNIX)
    client.settimeout(seconds)
    client.connect(path)
    return client


def take(client, count):
    """This many bytes; fewer if the server closes."""
    found = bytearray()
    while len(found) < count and (piece := client.recv(count - len(found))):
        found += piece
    return bytes(found)


def take_all(client, count):
    """This many bytes; a ConnectionError if the server closes."""
    found = take(client, count)
    if len(found) < count:
        raise ConnectionError("the server has gone")
    return found


def shake(client, handshake=HANDSHAKE):
    """Sends a handshake that ends with a GO, and reads what it is answered; a ValueError if an option is refused."""
    client.sendall(handshake)
    take_all(client, 18)
    answered = 0, 0
    while answered != (GO, ACK):
        _, number, kind, length = struct.unpack(">QIII", take_all(client, 20))
        take_all(client, length)
        if kind >> 31:
            raise ValueError(f"option {number} of the handshake is answered {kind:x}")
        answered = number, kind


def reset(client):
    """Closes with a reset, so that the server's next write fails."""
    client.setsockopt(socket.SOL_SOCKET, socket.SO_LINGER, struct.pack("ii", 1, 0))
    client.close()


# A server that a scenario has for itself.

# The blocks of its image, and its frames.
BLOCKS, FRAMES = 4096, 512


def most_resident(workers):
    """What a server may have resident: the frames; 8 MiB for the program, its map and a group that is stored; and for each worker 4 MiB, for
    a request's data, its reply, other replies that are due, and the stack."""
    return FRAMES * BLOCK + 8 * MIB + workers * 4 * MIB


class Server:
    """A server by TCP of the image FOLDER/NAME.img, which is made unless `made` says that it is there."""

    def __init__(self, folder, name, workers, *words, made=False, program=(NBDJ, "serve"), **settings):
        self.name, self.workers = name, workers
        # (in `ordered` neither FLUSH nor FUA is offered)
        self.flags = 0x0161 if "ordered" in words else 0x016D
        self.image = os.path.join(folder, f"{name}.img")
        if not made:
            format_image(self.image, "--blocks", str(BLOCKS), "--area", "2097152")
        words = ["--listen", "127.0.0.1:0", "--frames", str(FRAMES), "--workers", str(workers), *words]
        self.process = serve(self.image, *words, program=program, **{"stderr": subprocess.PIPE, **settings})
        port = read_address(self.process)
        check(f"{name}: it listens", True, port != "")
        self.port = int(port)
        self.writes = 0
        self.most = 0

    def __enter__(self):
        return self

    def __exit__(self, *_):
        self.kill()
        print(f"{self.name}: at most {self.most} bytes resident with {self.workers} workers", flush=True)
        self.process.stdout.close()
        if self.process.stderr:
            self.process.stderr.close()

    def kill(self):
        """Kills it if it goes on, and waits until it is gone."""
        if self.process.poll() is None:
            self.process.kill()
        self.process.wait(timeout=60)

    def read_log(self, count):
        """The next lines of its standard error; what there is of them once 20 seconds are over, when it is killed."""
        late = threading.Timer(20, self.process.kill)
        late.start()
        lines = [self.process.stderr.readline() for _ in range(count)]
        late.cancel()
        return lines

    def connect(self, seconds=20):
        client = socket.create_connection(("127.0.0.1", self.port), timeout=seconds)
        client.setsockopt(socket.IPPROTO_TCP, socket.TCP_NODELAY, 1)
        return client

    def new_client(self, seconds=20):
        """A client whose handshake is over, with simple replies."""
        client = self.connect(seconds)
        client.sendall(HANDSHAKE)
        found = take(client, 18 + 32 + 34 + 20)
        size, flags = struct.unpack(">QH", found[18 + 22:18 + 32])
        wanted = (b"NBDMAGICIHAVEOPT", BLOCKS * BLOCK, self.flags)
        if (found[:16], size, flags) != wanted:
            check(f"{self.name}: the handshake", wanted, (found[:16], size, flags))
        return client

    def resident(self):
        """Bytes; 0 of a server that has ended."""
        try:
            with open(f"/proc/{self.process.pid}/status", encoding="ascii") as file:
                rows = dict(line.split(":", 1) for line in file)
        except OSError:
            return 0
        return int(rows["VmRSS"].split()[0]) * 1024 if "VmRSS" in rows else 0

    def watch(self):
        self.most = max(self.most, self.resident())

    def goes_on(self, name, seconds=20, kept=0):
        """Checks that it lives, that its memory is below the bound and `kept` more, and that a good client writes, flushes and reads."""
        check(f"{name}: the server lives", None, self.process.poll())
        if self.process.poll() is not None:
            return
        self.watch()
        bound = most_resident(self.workers) + kept
        check(f"{name}: resident memory of 1 to {bound} bytes", True, self.most if not 0 < self.most <= bound else True)
        self.writes += 1
        offset, data = self.writes % BLOCKS * BLOCK, block_of(self.writes)
        try:
            with self.new_client(seconds) as client:
                # (one after another: replies to requests that are in progress together may come in any order)
                wanted, found = reply(1) + reply(2) + reply(3) + data, b""
                for text, size in ((request(WRITE, 1, offset, BLOCK) + data, 16), (request(FLUSH, 2), 16), (request(READ, 3, offset, BLOCK), 16 + BLOCK)):
                    client.sendall(text)
                    found += take(client, size)
                client.sendall(request(DISC, 4))
                end = take(client, 1)
            check(f"{name}: a good client", (True, b""), (found == wanted or found[:48].hex(), end))
        except OSError as error:
            check(f"{name}: a good client", "is served", error)


@contextlib.contextmanager
def serve_new(folder, name, blocks, *words):
    """The path of the Unix socket of a server of a new image."""
    image, path = os.path.join(folder, f"{name}.img"), os.path.join(folder, f"{name}.sock")
    format_image(image, "--blocks", str(blocks), "--area", "2097152")
    with serve(image, "--unix", path, *words) as server:
        try:
            check(f"{name}: it listens", path, read_address(server))
            yield path
            check(f"{name}: it lives", None, server.poll())
        finally:
            server.kill()
    os.unlink(image)
