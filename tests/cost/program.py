"""One run of a program: its input from a file or through a pipe, what it writes and its status, and how far it has read."""
import contextlib
import fcntl
import os
import select
import signal
import struct
import termios
import time
from collections import namedtuple

PATIENCE = 20  # seconds until a run is ended
LONG_ASLEEP = 50
PIECE = 65536  # what the program reads at a time

Ran = namedtuple('Ran', 'wrote said status')


def right(ran, line):
    """Exactly the line on standard output, nothing on the other, status 0."""
    return ran == Ran(line, b'', 0)


class Late(Exception):
    pass


def late(*_):
    raise Late


signal.signal(signal.SIGALRM, late)


def state_of(child):
    """R for running, S for asleep and so on."""
    with open(f'/proc/{child}/stat', encoding='ascii') as stat:
        return stat.read().rpartition(')')[2].split()[0]


class Program:
    def __init__(self, path):
        self.path = os.path.abspath(path)
        self.out, self.err, self.text = (os.memfd_create(name) for name in ('out', 'err', 'text'))

    def start(self, stdin):
        """Starts it with a file as standard input, None for a closed one."""
        for file in self.out, self.err:
            os.ftruncate(file, 0)
            os.lseek(file, 0, os.SEEK_SET)
        given = (os.POSIX_SPAWN_CLOSE, 0) if stdin is None else (os.POSIX_SPAWN_DUP2, stdin, 0)
        actions = [given, (os.POSIX_SPAWN_DUP2, self.out, 1), (os.POSIX_SPAWN_DUP2, self.err, 2)]
        # Python ignores SIGPIPE, and what it starts would too
        return os.posix_spawn(self.path, [self.path], os.environ, file_actions=actions, setsigdef=[signal.SIGPIPE])

    def end(self, child, patience=PATIENCE):
        """Waits for its end; the status is None if it does not come."""
        signal.setitimer(signal.ITIMER_REAL, patience)
        try:
            status = os.waitstatus_to_exitcode(os.waitpid(child, 0)[1])
        except Late:
            os.kill(child, signal.SIGKILL)
            os.waitpid(child, 0)
            status = None
        finally:
            signal.setitimer(signal.ITIMER_REAL, 0)
        return Ran(*(os.pread(file, os.fstat(file).st_size, 0) for file in (self.out, self.err)), status)

    def sleeps(self, child):
        """Whether it is asleep, seen so often in a row that it waits for something, or else has ended."""
        until, asleep = time.monotonic() + PATIENCE, 0
        while asleep < LONG_ASLEEP and time.monotonic() < until:
            if os.waitid(os.P_PID, child, os.WEXITED | os.WNOHANG | os.WNOWAIT) is not None:
                return False
            asleep = asleep + 1 if state_of(child) == 'S' else 0
            time.sleep(0.001)
        return asleep == LONG_ASLEEP

    def end_open(self, child, feed):
        """Waits for its end while the pipe stays open. One that has read all and is asleep waits for more: the status is None."""
        return self.end(child, 0.001 if feed.taken() and self.sleeps(child) else PATIENCE)

    def over(self, stdin):
        return self.end(self.start(stdin))

    def over_file(self, text):
        """The run, and how many bytes of the file were read."""
        os.ftruncate(self.text, 0)
        os.pwrite(self.text, text, 0)
        os.lseek(self.text, 0, os.SEEK_SET)
        return self.over(self.text), os.lseek(self.text, 0, os.SEEK_CUR)

    def over_pipe(self, text):
        """All of a short text stands in the pipe before the program begins."""
        with pipe() as (source, sink):
            sink.write(text)
            sink.close()
            return self.over(source.fileno())

    @contextlib.contextmanager
    def fed(self, flags=0):
        """The program, and the pipe that it reads. One that is not waited for is ended."""
        with pipe(flags) as (source, sink):
            child = self.start(source.fileno())
            source.close()
            yield child, Feed(sink)
        with contextlib.suppress(ChildProcessError):
            self.end(child, 1)


@contextlib.contextmanager
def pipe(flags=0):
    source, sink = os.pipe2(flags | os.O_CLOEXEC)
    with open(source, 'rb', buffering=0) as source, open(sink, 'wb', buffering=0) as sink:
        yield source, sink


class Feed:
    """The end of a pipe that is written to."""

    def __init__(self, sink):
        self.sink = sink
        self.hears = select.poll()
        self.hears.register(sink, 0)
        fcntl.fcntl(sink, fcntl.F_SETPIPE_SZ, 4 * PIECE)

    def write(self, text):
        """Writes all of it; whether somebody is there to read it."""
        signal.setitimer(signal.ITIMER_REAL, PATIENCE)
        try:
            while text:
                text = text[self.sink.write(text):]
        except (BrokenPipeError, Late):
            return False
        finally:
            signal.setitimer(signal.ITIMER_REAL, 0)
        return True

    def taken(self):
        """Waits until all that was written is read; whether it was."""
        until = time.monotonic() + PATIENCE
        while struct.unpack('i', fcntl.ioctl(self.sink, termios.FIONREAD, bytes(4)))[0]:
            if self.hears.poll(0) or time.monotonic() > until:
                return False
            os.sched_yield()
        return True

    def pieces(self, text, size):
        """Writes so many bytes at a time, each when those before have been read; whether all were."""
        return all(self.write(text[at:at + size]) and self.taken() for at in range(0, len(text), size))

    def close(self):
        self.sink.close()
