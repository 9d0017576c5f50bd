"""program.py: the program run on a file, on pieces through a pipe, or with input and output that fail. A run that isn't over after PATIENCE seconds is killed, and
the third such ends the test."""
import fcntl
import os
import select
import signal
import struct
import sys
import termios
from collections import namedtuple

PATIENCE = 60
# Status (less than 0 where a signal ended it), standard output and error output.
Ran = namedtuple("Ran", "status out err")


def put(fd, data):
    """Makes data the contents of a file in memory, to be read from its start."""
    os.ftruncate(fd, 0)
    os.lseek(fd, 0, os.SEEK_SET)
    while data:
        data = data[os.write(fd, data):]
    os.lseek(fd, 0, os.SEEK_SET)


def contents(fd):
    return os.pread(fd, os.fstat(fd).st_size, 0)


class Program:
    def __init__(self, path):
        self.path, self.running, self.killed = path, None, 0
        self.input, self.output, self.said = (os.memfd_create(name) for name in ("input", "output", "said"))
        signal.signal(signal.SIGALRM, self.kill)

    def kill(self, *_):
        if self.running:
            os.kill(self.running, signal.SIGKILL)
            self.killed += 1

    def start(self, stdin, stdout, stderr, default=(signal.SIGPIPE,)):
        """None is a descriptor that is closed. The signals of `default` act as they do in a program that a shell starts; Python has SIGPIPE and SIGXFSZ ignored."""
        actions = [(os.POSIX_SPAWN_CLOSE, number) if fd is None else (os.POSIX_SPAWN_DUP2, fd, number) for number, fd in enumerate((stdin, stdout, stderr))]
        signal.setitimer(signal.ITIMER_REAL, PATIENCE)
        self.running = os.posix_spawn(self.path, [self.path], os.environ, file_actions=actions, setsigdef=default)

    def end(self):
        """The status, once it has ended."""
        _, status = os.waitpid(self.running, 0)
        self.running = None
        signal.setitimer(signal.ITIMER_REAL, 0)
        if self.killed == 3:
            sys.exit(f"convert: {self.path} wasn't over after {PATIENCE} seconds, three times")
        return os.waitstatus_to_exitcode(status)

    def whole(self, file, start=0):
        """Run on a file, read from the byte `start` on."""
        put(self.input, file)
        os.lseek(self.input, start, os.SEEK_SET)
        put(self.output, b"")
        put(self.said, b"")
        self.start(self.input, self.output, self.said)
        return Ran(self.end(), contents(self.output), contents(self.said))

    def pieces(self, pieces, pause=lambda: None):
        """Run on a pipe, into which each piece is put when the program has taken the one before: so no read gets bytes of two."""
        put(self.output, b"")
        put(self.said, b"")
        read, write = os.pipe()
        self.start(read, self.output, self.said)
        os.close(read)
        try:
            for piece in pieces:
                os.write(write, piece)
                await_taken(write)
                pause()
        except BrokenPipeError:
            pass  # it has refused, or has all that it needs
        os.close(write)
        return Ran(self.end(), contents(self.output), contents(self.said))


def await_taken(pipe):
    """Waits until the pipe is empty."""
    poll = select.poll()
    poll.register(pipe, 0)
    while struct.unpack("i", fcntl.ioctl(pipe, termios.FIONREAD, bytes(4)))[0]:
        if poll.poll(0):
            raise BrokenPipeError
        os.sched_yield()
