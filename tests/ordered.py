#!/usr/bin/env python3
"""Power cuts under databases on a file system over the built program NBDJ with `--cache ordered`, where no FLUSH waits for the disk.

usage: tests/ordered.py [--cuts N] [--seed N] [--only SERVER] [--keep]

SQLite in two journal modes, and PostgreSQL and MariaDB if they are installed, commit on ext4 that sends its flushes, until the server and its
disk stop at one moment. The disk then keeps what was synced, and may have any bytes in the rest. After the recovery of each layer the file
system has to be clean and each database whole: no row is missing before the last one. Confirmed commits may be lost. The same load runs over two
more servers: `--cache writeback`, where none may be lost; and nbdkit under a file system that sends no flushes (barrier=0), which some cut has
to corrupt: otherwise these checks show nothing.

Only root can mount, so without it, or without a client that it needs, the script says so and checks nothing. It prints a line for each cut, one
for each check that fails, and last 'N passed, M failed'.
"""
import argparse
import os
import shutil
import subprocess
import sys
import tempfile
import time

import checks
from checks import NBDJ, check, format_image
from cut_chain import ENVIRONMENT, Chain, CutDisk, await_socket, random_from, isolate, run, unmount
from databases import MariaDb, Postgres, Sqlite, make_file_system

SIZE = 384 << 20
DATABASES = [it for it in (Sqlite("wal", "wal"), Sqlite("delete", "delete"), Postgres(), MariaDb()) if it.is_there]
NEEDED = ("nbdkit", "nbdfuse", "nbdcopy", "mkfs.ext4", "e2fsck", "losetup", "unshare")


def prepare(folder):
    """A file system with the databases, as a file."""
    raw = f"{folder}/prepared.raw"
    with open(raw, "wb") as file:
        file.truncate(SIZE)
    make_file_system(folder, raw, DATABASES)
    return raw


def copy_image(folder, image, raw, into):
    """Copies a file into an image, or an image into a file."""
    path = f"{folder}/copy"
    with subprocess.Popen([NBDJ, "serve", image, "--unix", path, "--sessions", "1"], env=ENVIRONMENT, stdin=subprocess.DEVNULL, stdout=subprocess.DEVNULL) as server:
        await_socket(path, server)
        uri = f"nbd+unix:///?socket={path}"
        run(["nbdcopy", "--connections=1", *(["--flush", raw, uri] if into else [uri, raw])], seconds=300)
        if server.wait(120):
            raise RuntimeError(f"the server of the copy ended with status {server.returncode}")


class Nbdj:
    """The program over an image of its own, in a cache mode."""

    options, tears = "barrier=1", True

    def __init__(self, mode):
        self.name = f"--cache {mode}"
        self.mode = mode

    def words(self, image, path):
        return [NBDJ, "serve", image, "--unix", path, "--workers", "8", "--cache", self.mode]

    def made(self, folder, raw):
        image = f"{folder}/made.img"
        format_image(image, "--blocks", str(SIZE // 4096), "--area", str(16 << 20))
        copy_image(folder, image, raw, True)
        return image

    def opened(self, folder, image, raw):
        copy_image(folder, image, raw, False)


class Nbdkit:
    """The peer over a plain file, under a file system that sends no flushes."""

    name, options, tears = "nbdkit without flushes", "barrier=0", False

    def words(self, image, path):
        return ["nbdkit", "-f", "-U", path, "file", image]

    def made(self, folder, raw):
        return shutil.copyfile(raw, f"{folder}/made.img")

    def opened(self, folder, image, raw):
        shutil.copyfile(image, raw)


def cut_once(folder, server, image, drawn):
    """Loads the databases until a cut: what is wrong then; for each database how many commits are lost, within how many seconds, and how many there were; the syncs."""
    disk = CutDisk(image)
    chain = Chain(f"{folder}/chain", disk, server.words, server.options)
    started, loads = [], []
    try:
        for database in DATABASES:
            loads.append(database.start(chain.mount, f"{folder}/room"))
            started.append(database)
        time.sleep(drawn.uniform(2, 7))
        moment = chain.cut()
    finally:
        if chain.server.poll() is None:
            chain.cut()
        for database in started:
            database.kill()
        chain.take_down()
    disk.cut(drawn, server.tears)
    with open(f"{folder}/cut.img", "wb") as file:
        file.write(disk.synced)
    server.opened(folder, f"{folder}/cut.img", f"{folder}/cut.raw")
    wrong, lasts = judge(folder, f"{folder}/cut.raw")
    lost = [(*commits.lost(last, moment), len(commits.moments)) for commits, last in zip(loads, lasts)]
    return wrong, lost, disk.syncs


def judge(folder, raw):
    """What is wrong with a file system after its own recovery, and the last row of each database."""
    wrong, mount = [], f"{folder}/judged"
    run(["e2fsck", "-y", "-E", "journal_only", raw], check=False)
    status, text = run(["e2fsck", "-fn", raw], check=False)
    if status:
        wrong.append(f"e2fsck: status {status}, {text.count(chr(10))} lines")
        run(["e2fsck", "-fy", raw], check=False, seconds=300)
    os.makedirs(mount, exist_ok=True)
    try:
        run(["mount", "-o", "loop", raw, mount])
    except RuntimeError as error:
        return [*wrong, str(error)[-200:]], [0] * len(DATABASES)
    try:
        found = [database.judge(mount, f"{folder}/room") for database in DATABASES]
    finally:
        unmount(mount)
    return wrong + [it for faults, _ in found for it in faults], [last for _, last in found]


def cuts_of(folder, server, raw, count, seed):
    """Makes this many cuts: how many left something wrong, and what each lost."""
    with open(server.made(folder, raw), "rb") as file:
        image = file.read()
    corrupt, losses = 0, []
    for turn in range(count):
        wrong, lost, syncs = cut_once(folder, server, image, random_from(seed, turn))
        corrupt += bool(wrong)
        losses += lost
        told = ", ".join(f"{database.name} {gone} of {of} commits, {seconds:.2f} s" for database, (gone, seconds, of) in zip(DATABASES, lost))
        print(f"{server.name}: cut {turn}: {'; '.join(wrong) or 'whole'}; lost: {told}; {syncs} syncs", flush=True)
    os.unlink(f"{folder}/made.img")
    return corrupt, losses


def main():
    words = argparse.ArgumentParser(usage=__doc__.split("\n")[2].removeprefix("usage: "))
    words.add_argument("--cuts", type=int, default=3, help="cuts of each server; by default 3")
    words.add_argument("--seed", type=int, default=1)
    words.add_argument("--only", choices=("ordered", "writeback", "nbdkit"), help="only this server; by default all three")
    words.add_argument("--keep", action="store_true", help="keeps the folder with the last images")
    asked = words.parse_args()
    missing = [it for it in NEEDED if not shutil.which(it, path=ENVIRONMENT["PATH"])]
    if missing or os.geteuid():
        print(f"skipped: {', '.join(missing) or 'only root can mount'}\n0 passed, 0 failed")
        return 0
    isolate(os.path.abspath(__file__), sys.argv[1:])
    folder = tempfile.mkdtemp(prefix="ordered.")
    # (the user of PostgreSQL goes through it)
    os.chmod(folder, 0o755)
    try:
        raw = prepare(folder)
        if asked.only in (None, "ordered"):
            corrupt, losses = cuts_of(folder, Nbdj("ordered"), raw, asked.cuts, asked.seed)
            check("ordered: nothing is corrupt after a cut", 0, corrupt)
            check("ordered: there were commits", True, all(of > 0 for _, _, of in losses))
        if asked.only in (None, "writeback"):
            corrupt, losses = cuts_of(folder, Nbdj("writeback"), raw, asked.cuts, asked.seed)
            check("writeback: nothing is corrupt after a cut", 0, corrupt)
            check("writeback: no commit is lost", 0, sum(gone for gone, _, _ in losses))
        if asked.only in (None, "nbdkit"):
            corrupt, _ = cuts_of(folder, Nbdkit(), raw, asked.cuts, asked.seed)
            check("nbdkit without flushes: some cut corrupts", True, corrupt > 0)
    finally:
        if not asked.keep:
            shutil.rmtree(folder, ignore_errors=True)
    return checks.finish()


if __name__ == "__main__":
    sys.exit(main())
