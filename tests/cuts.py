#!/usr/bin/env python3
"""Streams of `pipe` and `rehearse` of the built program NBDJ that come in pieces, end anywhere, or fail. The expected output was written by
hand. Prints a line for each check that fails, and last 'N passed, M failed'.
"""
import os
import resource
import signal
import socket
import subprocess
import sys
import tempfile

import checks
from checks import BLOCK, DISC, ENOSPC, FLUSH, NBDJ, WRITE, check, format_image, reply, request

SCRIPT = b"format 16 2097152 512\nsend 1 put 0 1 41\nserve 1\nanswer 1\nseal\ncrash at 3 01\nappend\n"
PRINTED = b"done\ndone\ndone\nanswer 1 ok\ndone\narmed\nstopped\nopened 1\nrun 0 1 d 41\nrun 1 15 h 00\n"


def run(words, pieces, **settings):
    """The status, the output and the errors of a run whose input comes in these pieces."""
    one, other = socket.socketpair()
    with one, other, tempfile.TemporaryFile() as output, tempfile.TemporaryFile() as errors:
        settings = {"stdout": output, "stderr": errors, **settings}
        with subprocess.Popen([NBDJ, *words], stdin=other, **settings) as process:
            other.close()
            for piece in pieces:
                one.sendall(piece)
            one.shutdown(socket.SHUT_WR)
            status = process.wait(timeout=60)
        output.seek(0)
        errors.seek(0)
        return status, output.read(), errors.read()


def cut_streams():
    """A FLUSH, a WRITE past the end, and a DISC: split at each place, and ended there."""
    format_image("d.img", "--blocks", "16", "--area", "2097152")
    requests = [request(FLUSH, 1), request(WRITE, 2, 16 * BLOCK - 99, 100) + bytes(100), request(DISC, 3)]
    stream, replies = b"".join(requests), [reply(1), reply(2, ENOSPC)]
    ends = [len(requests[0]), len(requests[0] + requests[1])]
    for place in range(len(stream)):
        check(f"cut at {place}", (0, b"".join(replies), b""), run(["pipe", "d.img"], [stream[:place], stream[place:]]))
        answered = b"".join(it for it, end in zip(replies, ends) if end <= place)
        check(f"ended at {place}", (1, answered, b"nbdj: peer closed (19)\n"), run(["pipe", "d.img"], [stream[:place]]))
    check("byte by byte", (0, b"".join(replies), b""), run(["pipe", "d.img"], [bytes([it]) for it in stream]))


def scripts():
    """A script that arrives byte by byte, one whose input fails, and one whose output accepts only N bytes."""
    check("a script byte by byte", (0, PRINTED, b""), run(["rehearse"], [bytes([it]) for it in SCRIPT]))
    for room in (0, 1, 4, 5, 30, len(PRINTED) - 1):

        def limited():
            resource.setrlimit(resource.RLIMIT_FSIZE, (room, room))
            signal.signal(signal.SIGXFSZ, signal.SIG_IGN)

        # (Errors go to a pipe, which has no limit.)
        with tempfile.TemporaryFile() as output:
            done = subprocess.run([NBDJ, "rehearse"], input=SCRIPT, stdout=output, stderr=subprocess.PIPE, preexec_fn=limited, restore_signals=False, timeout=60)
            output.seek(0)
            check(f"an output with room for {room} bytes", (1, PRINTED[:room], b"nbdj: stream fault (21)\n"), (done.returncode, output.read(), done.stderr))
    # A peer that closes with bytes unread resets the connection; the reset comes after what it sent.
    one, other = socket.socketpair()
    other.sendall(b"unread")
    one.sendall(b"format 16 2097152 512\nsend 1 flush\nserve")
    one.close()
    with other:
        done = subprocess.run([NBDJ, "rehearse"], stdin=other, capture_output=True, timeout=60)
    check("an input that fails", (1, b"done\ndone\n", b"nbdj: stream fault (21)\n"), (done.returncode, done.stdout, done.stderr))


def main():
    with tempfile.TemporaryDirectory() as folder:
        os.chdir(folder)
        cut_streams()
        scripts()
    return checks.finish()


if __name__ == "__main__":
    sys.exit(main())
