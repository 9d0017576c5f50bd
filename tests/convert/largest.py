"""largest.py: the largest file, dim 4,096 and 65,536 slots, 134,479,896 bytes. It is made and compared as a stream, so that no side holds it whole.

What is measured:
- the rate: bytes of the input over the seconds from the program's start to its end, where it reads a file that was just written (so from memory, not from the disk)
  and writes to /dev/null; the best of three runs. Under 200 MB (10^6 bytes) a second is a failure, but not in the gate, which asks no Rust and may run beside other work. To a file, and from pipe to pipe, it is printed alone, since the
  disk or this script sets the pace there.
- the memory: VmHWM of /proc/PID/status, the most that was resident at once, the program's own pages among it. (ru_maxrss of a child begins with what Python itself
  had at the fork.) From a file it is read every millisecond; through the pipes once, when all but the last byte was taken. From 4,000,000 bytes on is a failure."""
import os
import random
import struct
import tempfile
import threading
import time

import model
from files import SEED, any_scales
from program import await_taken

DIM, COUNT = model.MOST_DIM, model.MOST_COUNT
BLOCK = model.block_size(DIM)
LEAST_RATE, MOST_MEMORY = 200e6, 4_000_000
CHUNK = 1 << 18


def stream(convert):
    """The file, or what becomes of it, in chunks, and at last the count. Each slot's codes begin with its number, so that none can stand for another."""
    draw, changed = random.Random(23), 0
    yield model.head(259 if convert else 1, DIM, SEED, COUNT)
    for _ in range(COUNT // 1024):
        scales = any_scales(draw, 1024)
        if convert:
            halves, which = model.halves(scales)
            changed += sum(which)
            yield struct.pack("<1024H", *halves)
        else:
            yield struct.pack("<1024I", *scales)
    pool = draw.randbytes(3 * BLOCK)
    for first in range(0, COUNT, 128):
        yield b"".join(struct.pack("<I", slot) + pool[slot % 1999 : slot % 1999 + BLOCK - 4] for slot in range(first, first + 128))
    if convert:
        yield bytes(4)
        yield changed


def compare(read):
    """Where what `read` gives begins to differ from what is wanted (None: nowhere), and the count that is wanted."""
    at, differs = 0, None
    for right in stream(True):
        if isinstance(right, int):
            return at if differs is None and read(1) else differs, right
        found = b""
        while len(found) < len(right) and (data := read(len(right) - len(found))):
            found += data
        if differs is None and found != right:
            differs = at
        at += len(right)


def compared(judge, what, ended, differs, count):
    """`ended` has the status and the error output."""
    found = f"status and error output {ended}, {count} scales change" + (f", output differs from byte {differs:,} on" if differs is not None else "")
    judge.that(what, ended == (0, b"%d\n" % count) and differs is None, found)


def peak(pid):
    """The most bytes that were resident so far; 0 where it has ended."""
    with open(f"/proc/{pid}/status") as status:
        return next((int(line.split()[1]) * 1024 for line in status if line.startswith("VmHWM")), 0)


def largest(program, judge):
    with tempfile.TemporaryDirectory(prefix="convert.") as folder:
        path = f"{folder}/file"
        with open(path, "wb") as file:
            for chunk in stream(False):
                file.write(chunk)
        size = os.path.getsize(path)
        return f"{size:,} bytes; " + "; ".join((from_file(program, judge, path, size), through_pipes(program, judge, path, size)))


def timed(program, path, stdout, stderr, watch=lambda: None):
    with open(path, "rb") as file:
        began = time.perf_counter()
        program.start(file.fileno(), stdout, stderr)
        watch()
        return program.end(), time.perf_counter() - began


def from_file(program, judge, path, size):
    most = 0

    def watch():
        nonlocal most
        # Its status isn't asked for meanwhile: an ended program stays there, without memory, till `end`.
        while now := peak(program.running):
            most = max(most, now)
            time.sleep(0.001)

    with open(f"{path}.out", "w+b") as out, open(f"{path}.err", "w+b") as err, open(os.devnull, "wb") as null:
        statuses, seconds = zip(*(timed(program, path, null.fileno(), err.fileno()) for _ in range(3)))
        err.truncate(0)
        err.seek(0)
        status, _ = timed(program, path, out.fileno(), err.fileno(), watch)
        said = os.pread(err.fileno(), 100, 0)
        out.seek(0)
        differs, count = compare(out.read)
        compared(judge, "the largest file", (status, said), differs, count)
        out.truncate(0)
        out.seek(0)
        _, to_file = timed(program, path, out.fileno(), null.fileno())
    rate = size / min(seconds)
    judge.that("the largest file to /dev/null", statuses == (0, 0, 0), f"status {statuses}")
    if judge.rust is not None:
        judge.that("the rate", rate >= LEAST_RATE, f"{rate / 1e6:,.0f} MB a second")
    judge.that("the memory", 0 < most < MOST_MEMORY, f"{most:,} bytes")
    from_file = f"from a file {min(seconds):.2f} s, {rate / 1e6:,.0f} MB a second, peak {most:,} bytes"
    return f"{from_file}; to a file {to_file:.2f} s, {size / to_file / 1e6:,.0f} MB a second"


def through_pipes(program, judge, path, size):
    (read, feed), (drain, write), (said, tell) = os.pipe(), os.pipe(), os.pipe()
    found = []
    reader = threading.Thread(target=lambda: found.append(compare(lambda n: os.read(drain, n))))
    reader.start()
    began = time.perf_counter()
    program.start(read, write, tell)
    for fd in (read, write, tell):
        os.close(fd)
    most = 0
    with open(path, "rb") as file:
        try:
            left = size - 1
            while left:
                data = file.read(min(CHUNK, left))
                os.write(feed, data)
                left -= len(data)
            await_taken(feed)
            most = peak(program.running)
            os.write(feed, file.read())
        except BrokenPipeError:
            pass
    os.close(feed)
    reader.join()
    status = program.end()
    seconds = time.perf_counter() - began
    ended = status, os.read(said, 100)
    os.close(drain)
    os.close(said)
    compared(judge, "the largest file through pipes", ended, *found[0])
    judge.that("the memory through pipes", 0 < most < MOST_MEMORY, f"{most:,} bytes")
    return f"through pipes {seconds:.2f} s, {size / seconds / 1e6:,.0f} MB a second, peak {most:,} bytes"
