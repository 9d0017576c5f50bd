"""failing.py: input that can't be read and output that can't be written. The status is 4, with a message on the error output that is no count and no refusal."""
import os
import random
import re
import resource
import signal
import tty

import model
from files import any_scales, make
from program import Ran, contents, put

PIPE = (signal.SIGPIPE,)


def failures(program, judge):
    draw = random.Random(11)
    small, empty = make(3, any_scales(draw, 3)), make(3)
    # Its output is more than a pipe holds.
    large = make(1, any_scales(draw, 65536))
    folder, full = os.open("/", os.O_RDONLY), os.open("/dev/full", os.O_RDWR)

    def ended(stdin, stdout, stderr, default=PIPE):
        program.start(stdin, stdout, stderr, default)
        return program.end()

    def run(file, stdout, default=PIPE):
        put(program.input, file)
        put(program.said, b"")
        status = ended(program.input, stdout, program.said, default)
        return Ran(status, b"", contents(program.said))

    def fails(what, ran):
        told = ran.err.strip() and not re.search(rb"^(\d+|refused \d+)$", ran.err, re.MULTILINE)
        judge.that(what, ran.status == 4 and told, f"status {ran.status}, {ran.err[:60]!r}")

    def refuses(what, ran, number):
        judge.that(what, ran[::2] == model.refused(number)[::2], f"status {ran.status}, {ran.err[:60]!r}, and not 3, 'refused {number}'")

    # ---- standard output
    for what, file in (("no slot", empty), ("3 slots", small), ("65,536 slots", large)):
        fails(f"output closed, {what}", run(file, None))
        fails(f"output full, {what}", run(file, full))
        for default, acts in ((PIPE, "as from a shell"), ((), "ignored")):
            read, write = os.pipe()
            os.close(read)
            fails(f"output without a reader, SIGPIPE {acts}, {what}", run(file, write, default))
            os.close(write)
    # A reader that goes when it has read some of it, while the program waits for room.
    for taken in (1, 24, 28, 4095, 4096, 65536, 100000):
        put(program.input, large)
        put(program.said, b"")
        read, write = os.pipe()
        program.start(program.input, write, program.said)
        os.close(write)
        left = taken
        while left and (data := os.read(read, left)):
            left -= len(data)
        os.close(read)
        fails(f"the reader of the output goes after {taken:,} bytes", Ran(program.end(), b"", contents(program.said)))
    # Room for a part of the output, down to its last byte. The error output is a pipe, which the bound isn't for. SIGXFSZ is ignored, so that the write fails.
    for what, file in (("no slot", empty), ("3 slots", small), ("65,536 slots", large)):
        right = model.converted(file)
        end = len(right.out)
        for room in (*range(end), end) if end < 100 else (0, 4096, 65536, end - 65536, end - 5, end - 4, end - 1, end):
            put(program.input, file)
            put(program.output, b"")
            said, write = os.pipe()
            soft, hard = resource.getrlimit(resource.RLIMIT_FSIZE)
            resource.setrlimit(resource.RLIMIT_FSIZE, (room, hard))
            program.start(program.input, program.output, write)
            resource.setrlimit(resource.RLIMIT_FSIZE, (soft, hard))
            os.close(write)
            status = program.end()
            ran = Ran(status, contents(program.output), os.read(said, 1000))
            os.close(said)
            if room < end:
                fails(f"room for {room:,} bytes of {end:,}, {what}", ran)
            else:
                judge.by_model(f"room for all {end:,} bytes, {what}", file, ran, 0)
    # Before the head has passed there is nothing to write, so a refusal by the head is said all the same.
    for number, file in ((14, small[:23]), (15, b"X" + small[1:]), (16, make(version=2)), (20, make(4097))):
        refuses(f"output full, refused {number}", run(file, full), number)
        refuses(f"output closed, refused {number}", run(file, None), number)

    # ---- standard input
    for what, stdin in (("a directory", folder), ("closed", None), ("for writing only", os.open("/dev/null", os.O_WRONLY))):
        put(program.output, b"")
        put(program.said, b"")
        fails(f"input {what}", Ran(ended(stdin, program.output, program.said), b"", contents(program.said)))
    put(program.said, b"")
    fails("input and output closed", Ran(ended(None, None, program.said), b"", contents(program.said)))
    # A terminal whose other side has gone gives what was sent, then EIO: so reading fails midway, and that is no 14.
    for size in (*range(1, len(small)), len(small)):
        ran = hung_up(program, small[:size])
        if size < len(small):
            fails(f"input fails after {size} bytes of {len(small)}", ran)
        else:
            # The program needn't look at what follows.
            judge.that("input fails behind the codes", ran.status == 4 or ran == model.converted(small), ran)

    # ---- error output: a count that can't be written is a failure too
    for what, stderr in (("full", full), ("closed", None)):
        for file, statuses in ((small, (4,)), (empty, (4,)), (small[:-1], (3, 4)), (small[:9], (3, 4))):
            put(program.input, file)
            put(program.output, b"")
            status = ended(program.input, program.output, stderr)
            judge.that(f"error output {what}, {len(file)} bytes of {len(small)}", status in statuses, f"status {status} and not {statuses}")


def hung_up(program, data):
    put(program.output, b"")
    put(program.said, b"")
    ours, theirs = os.openpty()
    tty.setraw(theirs)
    os.write(theirs, data)
    os.close(theirs)
    program.start(ours, program.output, program.said)
    os.close(ours)
    return Ran(program.end(), contents(program.output), contents(program.said))
