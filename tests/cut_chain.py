"""A file system over a served image whose disk can be cut: program, ext4, loop device, nbdfuse, NBD server, a file on the disk.

The disk is an NBD server of this process. What is written to it is volatile until a sync that began after it; at a cut each range that isn't
synced keeps old bytes, new ones or others. It needs root, and Debian's nbdkit, libnbd-bin, fuse3 and e2fsprogs.
"""
import contextlib
import os
import random
import signal
import socket
import struct
import subprocess
import threading
import time

BLOCK = 4096
READ, WRITE, DISC, FLUSH, TRIM, ZEROES = 0, 1, 2, 3, 4, 6
INFO, GO, ABORT, OPTION_REPLY = 6, 7, 2, 0x3E889045565A9
ENVIRONMENT = {**os.environ, "LC_ALL": "C", "PATH": "/usr/sbin:/usr/bin:/sbin:/bin:" + os.environ.get("PATH", "")}


def run(words, seconds=120, check=True, **settings):
    """Runs a command; its output. If it fails, a RuntimeError; with check=False the status and the output instead."""
    found = subprocess.run(words, stdin=subprocess.DEVNULL, stdout=subprocess.PIPE, stderr=subprocess.STDOUT, timeout=seconds, env=ENVIRONMENT, **settings)
    text = found.stdout.decode(errors="replace")
    if not check:
        return found.returncode, text
    if found.returncode:
        raise RuntimeError(f"{' '.join(map(str, words))}: status {found.returncode}: {text[-600:]}")
    return text


def take(client, count):
    found = bytearray()
    while len(found) < count:
        piece = client.recv(count - len(found))
        if not piece:
            raise OSError("the client is gone")
        found += piece
    return bytes(found)


class CutDisk:
    """An NBD server of a volatile disk, in this process."""

    def __init__(self, image):
        self.size = len(image)
        self.synced, self.seen = bytearray(image), bytearray(image)
        # Offset, length and moment of each write since the last sync.
        self.unsynced = []
        self.lock, self.is_frozen, self.syncs = threading.Lock(), False, 0
        self.listener = socket.create_server(("127.0.0.1", 0), backlog=64)
        self.port = self.listener.getsockname()[1]
        threading.Thread(target=self.accept, daemon=True).start()

    def accept(self):
        with contextlib.suppress(OSError):
            while True:
                client, _ = self.listener.accept()
                threading.Thread(target=self.serve, args=(client,), daemon=True).start()

    def serve(self, client):
        with contextlib.suppress(OSError), client:
            client.setsockopt(socket.IPPROTO_TCP, socket.TCP_NODELAY, 1)
            if self.negotiate(client):
                while self.answer(client):
                    pass

    def negotiate(self, client):
        """Makes the handshake; whether requests follow."""
        client.sendall(b"NBDMAGICIHAVEOPT\0\3")
        take(client, 4)
        while True:
            option, length = struct.unpack(">8xII", take(client, 16))
            take(client, length)

            def tell(kind, data=b""):
                client.sendall(struct.pack(">QIII", OPTION_REPLY, option, kind, len(data)) + data)

            if option in (INFO, GO):
                # (flags, FLUSH, FUA, TRIM, WRITE_ZEROES, and that several connections see one disk)
                tell(3, struct.pack(">HQH", 0, self.size, 0x16D))
                tell(1)
                if option == GO:
                    return True
            elif option == ABORT:
                tell(1)
                return False
            else:
                tell(0x80000001)

    def answer(self, client):
        """Answers a request; whether another one may follow."""
        flags, kind, cookie, offset, length = struct.unpack(">4xHHQQI", take(client, 28))
        data = take(client, length) if kind == WRITE else bytes(length)
        if kind == DISC:
            return False
        found = b""
        with self.lock:
            if self.is_frozen:
                return False
            if kind == READ:
                found = bytes(self.seen[offset:offset + length])
            elif kind in (WRITE, TRIM, ZEROES):
                self.seen[offset:offset + length] = data
                self.unsynced.append((offset, length, time.time()))
            if kind == FLUSH or flags & 1:
                self.sync()
        client.sendall(struct.pack(">IIQ", 0x67446698, 0, cookie) + found)
        return True

    def sync(self):
        for offset, length, _ in self.unsynced:
            self.synced[offset:offset + length] = self.seen[offset:offset + length]
        self.unsynced = []
        self.syncs += 1

    def freeze(self):
        with self.lock:
            self.is_frozen = True

    def cut(self, drawn, tears):
        """Makes `synced` what a power cut may have left: `tears` any bytes in what isn't synced, otherwise old or new blocks.

        Without tears a write that is older than five seconds is kept, as if the kernel had written it back by then: kinder than a real disk.
        """
        new = drawn.choice((0.5, 0.9, 0.99))
        last = max((when for _, _, when in self.unsynced), default=0)
        chosen = {}
        for offset, length, when in self.unsynced:
            place, end = offset, offset + length
            if not tears and when < last - 5:
                self.synced[place:end] = self.seen[place:end]
                continue
            while place < end:
                if tears:
                    piece = min(end, place + drawn.choice((1, 17, 512, 4096, 65536)))
                    kept = drawn.choice(("old", "new", "new", "zeroes", "noise"))
                else:
                    piece = min(end, (place // BLOCK + 1) * BLOCK)
                    kept = chosen.setdefault(place // BLOCK, "new" if drawn.random() < new else "old")
                if kept == "new":
                    self.synced[place:piece] = self.seen[place:piece]
                elif kept == "zeroes":
                    self.synced[place:piece] = bytes(piece - place)
                elif kept == "noise":
                    self.synced[place:piece] = drawn.randbytes(piece - place)
                place = piece
        self.unsynced = []

    def close(self):
        with contextlib.suppress(OSError):
            self.listener.shutdown(socket.SHUT_RDWR)
        self.listener.close()


def is_mounted(folder):
    """Also true if the process of the mount is gone, unlike os.path.ismount."""
    with open("/proc/self/mounts", encoding="utf-8") as lines:
        return any(line.split()[1] == os.path.realpath(folder) for line in lines)


def mount_export(uri, folder, connections=4):
    """Starts nbdfuse, which shows an export as the file `nbd` of a folder; its process."""
    os.makedirs(folder, exist_ok=True)
    process = subprocess.Popen(["nbdfuse", "-C", str(connections), folder, uri], env=ENVIRONMENT, stdin=subprocess.DEVNULL, stdout=subprocess.DEVNULL, stderr=subprocess.DEVNULL)
    for _ in range(1500):
        if is_mounted(folder) and os.path.exists(f"{folder}/nbd"):
            return process
        if process.poll() is not None:
            break
        time.sleep(0.01)
    raise RuntimeError(f"nbdfuse doesn't mount {uri}")


def unmount(folder, tries=200):
    for turn in range(tries):
        if not is_mounted(folder):
            return
        run(["umount", *(["-l"] if turn > tries * 3 // 4 else []), folder], check=False)
        time.sleep(0.05)


def unmount_export(folder, process):
    unmount(folder, 100)
    try:
        process.wait(5)
    except subprocess.TimeoutExpired:
        process.kill()
        process.wait()


def await_socket(path, process):
    """Waits for a server's socket."""
    for _ in range(6000):
        if os.path.exists(path):
            return
        if process.poll() is not None:
            raise RuntimeError(f"the server ended with status {process.returncode} before {path} was there")
        time.sleep(0.01)
    raise RuntimeError(f"no server at {path}")


class Chain:
    """A file system over a server, in one folder. `serve` returns the words that start a server of an image at a socket. The image is a file on a
    disk that can be cut, or a plain one. Without `has_flushes` the kernel sends none, as Linux's own NBD client does if the server doesn't offer
    FLUSH; the loop device over nbdfuse can't learn that."""

    def __init__(self, folder, disk, serve, options, image=None, environment=None, has_flushes=True):
        os.makedirs(folder, exist_ok=True)
        self.folder, self.disk, self.mount = folder, disk, f"{folder}/mount"
        if disk:
            self.back = mount_export(f"nbd://127.0.0.1:{disk.port}", f"{folder}/back", 1)
            image = f"{folder}/back/nbd"
        path = f"{folder}/socket"
        with contextlib.suppress(FileNotFoundError):
            os.unlink(path)
        self.log = open(f"{folder}/server.log", "ab")
        self.server = subprocess.Popen(serve(image, path), env={**ENVIRONMENT, **(environment or {})}, stdin=subprocess.DEVNULL, stdout=self.log, stderr=self.log)
        await_socket(path, self.server)
        self.front = mount_export(f"nbd+unix:///?socket={path}", f"{folder}/front")
        self.loop = run(["losetup", "-f", "--show", "--direct-io=on", f"{folder}/front/nbd"]).strip()
        # (a loop device keeps this when it gets another file)
        self.set_cache("write back" if has_flushes else "write through")
        os.makedirs(self.mount, exist_ok=True)
        run(["mount", "-t", "ext4", "-o", options, self.loop, self.mount])

    def set_cache(self, kind):
        """Makes the kernel send flushes to a device that is `write back`, and none to one that is `write through`."""
        with open(f"/sys/block/{os.path.basename(self.loop)}/queue/write_cache", "w", encoding="ascii") as file:
            file.write(kind)

    def cut(self):
        """Stops server and disk at one moment; that moment. The server never runs again."""
        moment = time.time()
        os.kill(self.server.pid, signal.SIGSTOP)
        self.disk.freeze()
        self.server.kill()
        self.server.wait()
        return moment

    def take_down(self):
        unmount(self.mount)
        self.set_cache("write back")
        run(["losetup", "-d", self.loop], check=False)
        unmount_export(f"{self.folder}/front", self.front)
        if self.server.poll() is None:
            self.server.terminate()
            self.server.wait()
        if self.disk:
            unmount_export(f"{self.folder}/back", self.back)
            self.disk.close()
        self.log.close()


def isolate(path, words):
    """Runs the script in a mount namespace of its own, so that no other process keeps a mount busy."""
    if not os.environ.get("CUTS_ISOLATED"):
        os.environ["CUTS_ISOLATED"] = "1"
        os.execvp("unshare", ["unshare", "-m", "--propagation", "private", "python3", path, *words])


def random_from(seed, turn):
    return random.Random(seed * 1000 + turn)
