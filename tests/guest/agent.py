#!/usr/bin/env python3
"""Within a guest: carries out the commands that the test asks for. On the port each line asks for one, as JSON ["COMMAND", SECONDS]; the answer is
a line [STATUS, "OUTPUT"], where the status of a command that takes longer is null."""
import json
import subprocess

with open("/dev/virtio-ports/commands", "r+b", buffering=0) as port:
    begun = b""
    while True:
        while b"\n" not in begun:
            begun += port.read(65536) or b""
        line, begun = begun.split(b"\n", 1)
        command, seconds = json.loads(line)
        try:
            done = subprocess.run(command, shell=True, executable="/bin/bash", stdin=subprocess.DEVNULL, stdout=subprocess.PIPE, stderr=subprocess.STDOUT, timeout=seconds)
            answer = [done.returncode, done.stdout.decode(errors="replace")]
        except subprocess.TimeoutExpired as late:
            answer = [None, (late.stdout or b"").decode(errors="replace")]
        left = json.dumps(answer).encode() + b"\n"
        while left:
            left = left[port.write(left):]
