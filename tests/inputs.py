"""Standard inputs of tests/programs and tests/reread that redirection from a file cannot produce.

    python3 tests/inputs.py parts FILE AT... | COMMAND    writes FILE in parts, cut at these bytes, each when COMMAND has read those before it
    python3 tests/inputs.py fails FILE COMMAND...         runs COMMAND on an input that yields FILE and then fails to read
    python3 tests/inputs.py entries LOG COMMAND...        runs COMMAND and sends each entry of LOG when the line of the entry before is printed
"""

import fcntl
import os
import select
import signal
import socket
import struct
import subprocess
import sys
import termios
import time
from pathlib import Path

sys.dont_write_bytecode = True
sys.path.insert(0, str(Path(__file__).resolve().parent.parent / "samples"))

from logs import HEADER


def wait_until_read(pipe):
    """Waits until the pipe is empty or has no reader."""
    poll = select.poll()
    poll.register(pipe, 0)
    for _ in range(20000):
        (left,) = struct.unpack("i", fcntl.ioctl(pipe, termios.FIONREAD, bytes(4)))
        if left == 0 or poll.poll(0):
            return
        time.sleep(0.001)
    sys.exit("tests/inputs.py: the parts are not read")


def write(pipe, part):
    while part:
        part = part[os.write(pipe, part):]


def write_parts(data, cuts):
    pipe = sys.stdout.fileno()
    try:
        for start, end in zip([0] + cuts, cuts + [len(data)]):
            write(pipe, data[start:end])
            wait_until_read(pipe)
    except BrokenPipeError:  # COMMAND has ended: its output shows whether that was right
        pass


def run_on_failing(data, command):
    """Closing a socket with an unread byte resets the connection: the other end reads what was sent, then a read fails."""
    ours, its = socket.socketpair()
    its.sendall(b"\0")
    ours.sendall(data)
    ours.close()
    os.dup2(its.fileno(), 0)
    os.execvp(command[0], command)


def run_on_entries(log, command):
    """For a log without a cut entry. Copies what COMMAND prints."""
    signal.alarm(20)  # ends this script if a line does not come
    process = subprocess.Popen(command, stdin=subprocess.PIPE, stdout=subprocess.PIPE, bufsize=0)
    at = 0
    while at < len(log):
        _, length = struct.unpack_from(HEADER, log, at)
        end = at + struct.calcsize(HEADER) + length
        write(process.stdin.fileno(), log[at:end])
        at, line = end, b""
        while not line.startswith(b"entry "):
            line = process.stdout.readline() or sys.exit("tests/inputs.py: the output has ended")
            sys.stdout.buffer.write(line)
    process.stdin.close()
    sys.stdout.buffer.write(process.stdout.read())
    sys.exit(process.wait())


if __name__ == "__main__":
    what, name, *others = sys.argv[1:]
    contents = Path(name).read_bytes()
    if what == "parts":
        write_parts(contents, [int(at) for at in others])
    elif what == "fails":
        run_on_failing(contents, others)
    else:
        run_on_entries(contents, others)
