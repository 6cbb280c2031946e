#!/usr/bin/env python3
"""Within a guest, on a mounted file system: records.py write FILE PROGRESS appends records with numbers from 1 on, syncs each, and then writes
its number to PROGRESS; records.py read FILE prints how many there are, all in order and whole."""
import hashlib
import os
import sys

BYTES = 1000


def record(number):
    text = b"%d %s " % (number, hashlib.sha256(b"%d" % number).hexdigest().encode())
    return text + b"." * (BYTES - len(text) - 1) + b"\n"


def main():
    way, path = sys.argv[1:3]
    if way == "write":
        file = os.open(path, os.O_WRONLY | os.O_CREAT | os.O_APPEND)
        with open(sys.argv[3], "wb", buffering=0) as progress:
            number = os.fstat(file).st_size // BYTES
            while True:
                number += 1
                os.write(file, record(number))
                os.fsync(file)
                progress.write(b"%d\n" % number)
    with open(path, "rb") as file:
        data = file.read()
    count = 0
    while data[count * BYTES:(count + 1) * BYTES] == record(count + 1):
        count += 1
    print(count, "more" if data[count * BYTES:].strip(b"\0") else "end")


main()
