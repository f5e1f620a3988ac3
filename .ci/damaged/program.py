"""Runs the program, at the cost of little more than its start."""
import os
import resource
import signal
from collections import namedtuple

ROOT = os.path.dirname(os.path.dirname(os.path.dirname(os.path.abspath(__file__))))
BUILT = os.path.join(ROOT, "crates", "pvgate", "out", "pvgate")
# Seconds of a processor, and seconds, that no run takes but one that hangs. The plain gateway is slow where there are many rows.
BUSIEST, LONGEST = 120, 900
BODIES = (("replay",), ("replay", "--plain"))

# The status is a number, or says how the program died.
Ran = namedtuple("Ran", "printed status")


class Late(Exception):
    """The program hasn't ended."""


def is_late(*_):
    raise Late


class Program:
    """The program, with files in memory for its streams. One at a time uses it, in the main thread of a process."""

    def __init__(self, path):
        self.path = path
        self.input, self.output, self.mapped = (os.memfd_create(name) for name in ("script", "printed", "counter"))
        self.nothing = os.open("/dev/null", os.O_WRONLY)
        self.actions = [(os.POSIX_SPAWN_DUP2, self.input, 0), (os.POSIX_SPAWN_DUP2, self.output, 1),
                        (os.POSIX_SPAWN_DUP2, self.nothing, 2)]
        signal.signal(signal.SIGALRM, is_late)

    def run(self, words, script=b"", environment=None):
        """What it prints on standard output, and how it ends."""
        replace(self.input, script)
        replace(self.output, b"")
        pid = os.posix_spawn(self.path, [self.path, *words], environment or {}, file_actions=self.actions)
        status = ended(pid)
        return Ran(os.pread(self.output, os.fstat(self.output).st_size, 0), status)


def replace(file, data):
    os.ftruncate(file, 0)
    os.lseek(file, 0, os.SEEK_SET)
    while data:
        data = data[os.write(file, data):]
    os.lseek(file, 0, os.SEEK_SET)


def ended(pid):
    """Waits for a run, and ends it where it hangs."""
    resource.prlimit(pid, resource.RLIMIT_CPU, (BUSIEST, BUSIEST))
    signal.setitimer(signal.ITIMER_REAL, LONGEST)
    try:
        status = os.waitstatus_to_exitcode(os.waitpid(pid, 0)[1])
    except Late:
        os.kill(pid, signal.SIGKILL)
        os.waitpid(pid, 0)
        return "hangs"
    finally:
        signal.setitimer(signal.ITIMER_REAL, 0)
    if status in (-signal.SIGXCPU, -signal.SIGKILL):
        return "hangs"
    return f"signal {-status}" if status < 0 else status
