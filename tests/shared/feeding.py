"""Programs that are fed: an input in pieces, and little memory."""

import fcntl
import shlex
import struct
import subprocess
import tempfile
import termios
import time

from tests.shared.trial import Wrong

# All the address space that a program gets.
MEMORY_KIB = 8192


def unread(pipe):
    """How many bytes wait in a pipe."""
    return struct.unpack("i", fcntl.ioctl(pipe, termios.FIONREAD, bytes(4)))[0]


def pieces(data, length):
    """Data cut into pieces of a length."""
    return (data[start : start + length] for start in range(0, len(data), length))


def feed(child, parts):
    """Writes each part when the one before is read, until the child ends; gives the number of
    bytes that it read."""
    written = 0
    try:
        for part in parts:
            written += child.stdin.write(part)
            while unread(child.stdin) and child.poll() is None:
                time.sleep(0)
    except BrokenPipeError:
        pass
    return written - unread(child.stdin)


def fed(program, parts):
    """What a command writes for an input in parts, and the number of bytes that it read."""
    with tempfile.TemporaryFile() as sink:
        child = subprocess.Popen(shlex.split(program), stdin=subprocess.PIPE, stdout=sink, bufsize=0)
        taken = feed(child, parts)
        child.stdin.close()
        if child.wait() != 0:
            raise Wrong(f"an input in pieces: status {child.returncode}")
        sink.seek(0)
        return sink.read(), taken


def bounded(program, data):
    """What a command writes within the memory that it gets."""
    limited = f"ulimit -v {MEMORY_KIB} && exec {program}"
    done = subprocess.run(["sh", "-c", limited], input=data, stdout=subprocess.PIPE)
    if done.returncode != 0:
        raise Wrong(f"{len(data)} bytes within {MEMORY_KIB} KiB: status {done.returncode}")
    return done.stdout
