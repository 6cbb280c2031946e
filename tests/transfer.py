#!/usr/bin/env python3
"""`import` and `export` of the built program NBDJ: raw files of any length, sparse ones, streams, images of both layouts with a full journal,
damaged ones, sources that fail or get shorter, a target that is the source or isn't empty, images in use, calls that fail, and kills.

Expected bytes are those that the script wrote. Prints a line for each check that fails, and last 'N passed, M failed'.
"""
import fcntl
import os
import random
import subprocess
import sys
import tempfile
import time

import checks
from checks import BLOCK, DISC, FLUSH, MIB, NBDJ, TRIM, WRITE, ZEROES, check, request, run

AREA = "2M"


def padded(data, size=None):
    """The bytes of an image that is made of these."""
    whole = size or -(-len(data) // BLOCK) * BLOCK
    return data + bytes(whole - len(data))


def write(path, data):
    with open(path, "wb") as file:
        file.write(data)
    return path


def read(path):
    with open(path, "rb") as file:
        return file.read()


def pattern(seed, blocks, chance=0.5):
    """Blocks of which some are zero, some have one byte set, and the others any bytes."""
    source = random.Random(seed)
    parts = []
    for _ in range(blocks):
        drawn = source.random()
        if drawn < chance / 2:
            parts.append(bytes(BLOCK))
        elif drawn < chance:
            place = source.randrange(BLOCK)
            parts.append(bytes(place) + b"\x01" + bytes(BLOCK - place - 1))
        else:
            parts.append(source.randbytes(BLOCK))
    return b"".join(parts)


def counts(image):
    """What `check` tells of an image."""
    status, output, _ = run("check", image)
    return status, dict(line.split(" ") for line in output.splitlines())


def export(image, folder, *words):
    target = os.path.join(folder, "exported")
    if os.path.exists(target):
        os.unlink(target)
    status, output, errors = run("export", image, target, *words)
    return status, output, errors, read(target) if os.path.exists(target) else None


def lengths(folder):
    """Sources of any length come back padded with zeroes, and that is said."""
    source, image = f"{folder}/raw", f"{folder}/image"
    for length in (1, 4095, 4096, 4097, MIB - 1, MIB, MIB + 1, 3 * MIB + 5):
        data = random.Random(length).randbytes(length)
        write(source, data)
        status, output, errors = run("import", source, image, "--area", AREA, "--force")
        wanted = len(padded(data))
        said = "" if length % BLOCK == 0 else f"nbdj: {source}: {length} bytes, padded with zeroes to {wanted}\n"
        check(f"import of {length} bytes", (0, f"imported {wanted}\n", said), (status, output, errors))
        check(f"export of {length} bytes", (0, f"exported {wanted}\n", "", padded(data)), export(image, folder))
    write(source, b"")
    status, _, errors = run("import", source, image, "--force")
    check("import of no bytes", (1, f"nbdj: {source} has no bytes; --size gives the image some\n"), (status, errors))


def states(folder):
    """Blocks that are all zero are holes, and those with a single byte set are data."""
    source, image = f"{folder}/raw", f"{folder}/image"
    data = pattern(5, 700)
    write(source, data)
    some = sum(any(data[at:at + BLOCK]) for at in range(0, len(data), BLOCK))
    for layout in ("1", "2"):
        status, _, errors = run("import", source, image, "--area", "4M", "--layout", layout, "--force")
        check(f"layout {layout}: import", (0, ""), (status, errors))
        status, told = counts(image)
        wanted = {"blocks": "700", "mode": "0", "base": "0", "commands": "0", "data": str(some), "zero": "0", "hole": str(700 - some)}
        check(f"layout {layout}: states", (0, wanted), (status, {name: told.get(name) for name in wanted}))
        check(f"layout {layout}: export", data, export(image, folder)[3])


def sparse(folder):
    """A sparse source of 64 GiB is read in seconds, and its image and what is exported of that are sparse."""
    source, image, target = f"{folder}/raw", f"{folder}/image", f"{folder}/back"
    with open(source, "wb") as file:
        file.truncate(64 << 30)
        file.seek((64 << 30) - 3)
        file.write(b"end")
        file.seek(5 * MIB + 7)
        file.write(b"middle")
    began = time.monotonic()
    check("64 GiB: import", 0, run("import", source, image, "--force")[0])
    check("64 GiB: states", "2", counts(image)[1].get("data"))
    check("64 GiB: export", 0, run("export", image, target)[0])
    check("64 GiB: it takes seconds", True, time.monotonic() - began < 50)
    check("64 GiB: sparse", True, os.stat(target).st_blocks * 512 < MIB and os.stat(target).st_size == 64 << 30)
    with open(target, "rb") as file:
        file.seek(5 * MIB)
        check("64 GiB: the middle", bytes(7) + b"middle" + bytes(3), file.read(16))
        file.seek((64 << 30) - 5)
        check("64 GiB: the end", b"\0\0end", file.read(5))
    for path in (source, image, target):
        os.unlink(path)


def streams(folder):
    """Standard input and output."""
    image = f"{folder}/image"
    data = pattern(8, 300)
    status, output, _ = run("import", "-", image, "--size", "2M", "--area", AREA, "--force", given=data)
    check("from a stream", (0, f"imported {2 * MIB}\n".encode()), (status, output))
    done = subprocess.run([NBDJ, "export", image, "-"], stdin=subprocess.DEVNULL, capture_output=True, timeout=60)
    check("to a stream", (0, padded(data, 2 * MIB), b""), (done.returncode, done.stdout, done.stderr))
    status, _, errors = run("import", "-", image, "--size", "1M", "--area", AREA, "--force", given=data)
    check("a stream that is too long", (1, b"nbdj: stream fault (21)\n"), (status, errors))
    check("and its image doesn't open", 3, run("check", image)[0])
    check("a stream of no size", 2, run("import", "-", image, "--force", given=b"")[0])
    with open("/dev/full", "wb") as full:
        done = subprocess.run([NBDJ, "export", image, "-"], stdin=subprocess.DEVNULL, stdout=full, stderr=subprocess.PIPE, timeout=60)
    check("an image that doesn't open", (3, b"nbdj: no header (7)\n"), (done.returncode, done.stderr))
    run("import", "-", image, "--size", "2M", "--area", AREA, "--force", given=data)
    with open("/dev/full", "wb") as full:
        done = subprocess.run([NBDJ, "export", image, "-"], stdin=subprocess.DEVNULL, stdout=full, stderr=subprocess.PIPE, timeout=60)
    check("a full output", (1, b"nbdj: stream fault (21)\n"), (done.returncode, done.stderr))


def journals(folder):
    """An image whose journal is full is read with it, and isn't changed; a larger image of it has the same bytes, and zeroes after them."""
    image, larger = f"{folder}/image", f"{folder}/larger"
    for layout in ("1", "2"):
        source = random.Random(int(layout))
        blocks, disk, stream = 512, bytearray(512 * BLOCK), []
        checks.format_image(image, "--size", "2M", "--area", "4M", "--layout", layout, "--force")
        for cookie in range(700):
            kind = source.choice([WRITE, WRITE, WRITE, ZEROES, TRIM])
            offset = source.randrange(blocks) * BLOCK + (source.randrange(BLOCK) if source.randrange(2) else 0)
            length = min(source.choice([BLOCK, 600, 9000, 3 * BLOCK]), len(disk) - offset)
            data = source.randbytes(length) if kind == WRITE else b""
            stream.append(request(kind, cookie, offset, length) + data)
            if kind == WRITE:
                disk[offset:offset + length] = data
            elif kind == ZEROES:
                disk[offset:offset + length] = bytes(length)
            else:
                first, last = -(-offset // BLOCK) * BLOCK, (offset + length) // BLOCK * BLOCK
                if first < last:
                    disk[first:last] = bytes(last - first)
        stream.append(request(FLUSH, 1, 0, 0) + request(DISC, 2, 0, 0))
        check(f"layout {layout}: pipe", 0, run("pipe", image, given=b"".join(stream))[0])
        before = read(image)
        told = counts(image)[1]
        check(f"layout {layout}: the journal isn't empty", True, told["commands"] != told["base"])
        check(f"layout {layout}: export with the journal", (0, bytes(disk)), (lambda it: (it[0], it[3]))(export(image, folder)))
        check(f"layout {layout}: export changes nothing", True, read(image) == before)
        check(f"layout {layout}: import with the journal", 0, run("import", image, larger, "--size", "3M", "--area", AREA, "--force")[0])
        check(f"layout {layout}: import changes nothing", True, read(image) == before)
        check(f"layout {layout}: the larger image", padded(bytes(disk), 3 * MIB), export(larger, folder)[3])
        status, _, errors = run("import", image, larger, "--size", "1M", "--force")
        check(f"layout {layout}: a smaller image", (1, f"nbdj: {image} has {2 * MIB} bytes, and --size only {MIB}\n"), (status, errors))
        run("recover", image)
        check(f"layout {layout}: export after a recovery", bytes(disk), export(image, folder)[3])


def refusals(folder):
    """Sources and targets that aren't taken."""
    source, image = f"{folder}/raw", f"{folder}/image"
    data = pattern(3, 40)
    write(source, data)
    check("a target that is the source", (1, "", f"nbdj: {source} is the source\n"), run("import", source, source, "--force"))
    check("which stays as it was", data, read(source))
    run("import", source, image, "--area", AREA, "--force")
    before = read(image)
    check("a target that holds data", (1, "", f"nbdj: {image} holds data, which --force replaces\n"), run("import", source, image))
    check("an export to itself", (1, "", f"nbdj: {image} is the image\n"), run("export", image, image, "--force"))
    check("an export over data", (1, "", f"nbdj: {source} holds data, which --force replaces\n"), run("export", image, source))
    check("all stays as it was", (before, data), (read(image), read(source)))
    check("a source that isn't there", (1, "", f"nbdj: cannot open {folder}/none\n"), run("import", f"{folder}/none", f"{folder}/new"))
    check("no new image is left", False, os.path.exists(f"{folder}/new"))
    for path, words in ((image, ("export", image, f"{folder}/new")), (source, ("import", source, f"{folder}/new"))):
        with open(path, "rb") as held:
            fcntl.flock(held, fcntl.LOCK_EX)
            check(f"{words[0]}: in use", (4, "", f"nbdj: {path} is in use\n"), run(*words))
    damaged = bytearray(before)
    damaged[10] ^= 1
    damaged[30] = 77
    write(f"{folder}/bad", damaged)
    wanted = run("check", f"{folder}/bad")
    check("a damaged image: export", (wanted[0], wanted[2]), (lambda it: (it[0], it[2]))(run("export", f"{folder}/bad", f"{folder}/new")))
    check("a damaged image: import", (wanted[0], wanted[2]), (lambda it: (it[0], it[2]))(run("import", f"{folder}/bad", f"{folder}/new")))
    check("nothing is made of a damaged image", False, os.path.exists(f"{folder}/new"))
    small = run("import", source, f"{folder}/new", "--area", "2M", "--layout", "2")
    check("areas that are too small", (1, "", "nbdj: area too small (22)\n"), small)


def kills(folder):
    """A kill leaves what the file held, or one that doesn't open; or the whole image."""
    source, image = f"{folder}/raw", f"{folder}/image"
    data = random.Random(1).randbytes(24 * MIB)
    write(source, data)
    random_source = random.Random(9)
    seen = set()
    for _ in range(20):
        checks.format_image(image, "--size", "1M", "--area", AREA, "--force")
        process = subprocess.Popen([NBDJ, "import", source, image, "--area", AREA, "--force"], stdout=subprocess.DEVNULL, stderr=subprocess.DEVNULL)
        time.sleep(random_source.random() * 0.15)
        process.kill()
        process.wait()
        status, output, _ = run("check", image)
        told = dict(line.split(" ") for line in output.splitlines())
        state = {"256": "old", "6144": "new"}.get(told.get("blocks"), "none") if status == 0 else "none"
        seen.add(state)
        check("a kill leaves one of three", True, (status, state) in ((0, "old"), (0, "new"), (3, "none")))
        if state == "new":
            check("the new image is whole", data, export(image, folder)[3])
    print(f"kills left: {', '.join(sorted(seen))}")


def main():
    with tempfile.TemporaryDirectory() as folder:
        for scenario in (lengths, states, sparse, streams, journals, refusals, kills):
            checks.run_scenario(scenario, folder)
    return checks.finish()


if __name__ == "__main__":
    sys.exit(main())
