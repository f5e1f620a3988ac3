#!/usr/bin/env python3
"""Runs all tests and stories, with no proof: `tools/test.py [--jobs N] [WORD ..]`.

The tests of each crate that has some are compiled from the sources, and so is the program, where none is built of them. Then
each test runs by itself, and with the program what .ci/ tells of command lines, of clients and servers over sockets, and of
libca, where that is installed. WORDs choose the crates and scripts whose names have one of them. What fails is told with the
end of what it printed. The last line has the counts; the status is 1 where one failed, or nothing was run.
"""
import argparse
import os
import re
import signal
import subprocess
import sys
import threading
import time
from concurrent.futures import ThreadPoolExecutor

sys.dont_write_bytecode = True
import unproved  # noqa: E402

SECONDS = 600  # that a test may take, or a script
MEMORY = 5_000_000  # KB that a compilation takes
SCRIPTS = (".ci/command_line.py", ".ci/serve.py", ".ci/clients.py")
COUNTS = re.compile(r"(\d+) passed, (\d+) failed\s*\Z")


class Counts:
    """What passed and what failed, told as it comes."""

    def __init__(self):
        self.passed, self.failed, self.is_stopped = 0, 0, False
        self.began, self.lock = time.monotonic(), threading.Lock()

    def say(self, text):
        print(f"{time.monotonic() - self.began:4.0f} s  {text}", flush=True)

    def add(self, name, passed, failed, printed=""):
        with self.lock:
            self.passed, self.failed = self.passed + passed, self.failed + failed
            if failed and not self.is_stopped:
                self.say(f"FAILED {name}\n{printed.rstrip()[-3000:]}")

    def stop(self, *_):
        """Ends all that runs, and begins nothing more."""
        self.is_stopped = True
        for task in os.listdir("/proc/self/task"):
            for child in unproved.read(f"/proc/self/task/{task}/children").split():
                os.kill(int(child), signal.SIGTERM)
        sys.exit(1)


def run(*words, **environment):
    """The status, or None where it doesn't end, and what is printed."""
    inherited = {name: word for name, word in os.environ.items() if not name.startswith("MAKE")}
    try:
        ran = subprocess.run(words, cwd=unproved.ROOT, env=inherited | environment, stdin=subprocess.DEVNULL,
                             stdout=subprocess.PIPE, stderr=subprocess.STDOUT, timeout=SECONDS)
        return ran.returncode, ran.stdout.decode(errors="replace")
    except subprocess.TimeoutExpired as late:
        return None, f"{(late.stdout or b'').decode(errors='replace')}\nnot done within {SECONDS} seconds"


def compiled(counts, crate, memory):
    """The path of a crate's tests, or of the program, once it is there; None where it doesn't compile."""
    if crate == "pvgate" and unproved.is_up_to_date(unproved.PROVED, crate):
        return unproved.PROVED
    try:
        with memory:
            if counts.is_stopped:
                return None
            path = unproved.compiled(crate)
    except unproved.NotCompiled as fault:
        return counts.add(f"{crate}: it isn't compiled", 0, 1, str(fault))
    counts.say(f"{crate}: compiled")
    return path


def test(counts, crate, binary, name):
    if not counts.is_stopped:
        status, printed = run(binary, name)
        counts.add(f"{crate}: {name}", int(status == 0), int(status != 0), printed)


def script(counts, path, program):
    """Runs a script, whose last line has the counts of what it checked, or says that it was skipped."""
    status, printed = run(sys.executable, "-B", path, *([] if path.endswith("command_line.py") else [program]), PVGATE=program)
    found = COUNTS.search(printed)
    passed, failed = map(int, found.groups()) if found else (0, 0)
    counts.add(path, passed, failed or int(status != 0), printed)
    counts.say(f"{path}: {(printed.strip().splitlines() or [''])[-1]}")


def tests(counts, crate, memory, pool):
    """Compiles the tests of a crate, and has them run."""
    binary = compiled(counts, crate, memory)
    listed = run(binary, "--list")[1].splitlines() if binary else []
    names = [it.removesuffix(": test") for it in listed if it.endswith(": test")]
    return [pool.submit(test, counts, crate, binary, it) for it in names]


def run_all(counts, jobs, words):
    available = int(re.search(r"MemAvailable: *(\d+)", unproved.read("/proc/meminfo"))[1])
    memory = threading.Semaphore(max(1, min(jobs, available // MEMORY)))
    scripts, crates = (
        [it for it in names if not words or any(word in it for word in words)]
        for names in (SCRIPTS, [it for it in unproved.libraries() if unproved.has_tests(it)]))
    # What stands on most takes longest, and comes first.
    crates.sort(key=lambda it: len(unproved.with_all_below(it)), reverse=True)
    with ThreadPoolExecutor(jobs) as pool, ThreadPoolExecutor() as compilers:
        program = compilers.submit(compiled, counts, "pvgate", memory) if scripts else None
        crates = [compilers.submit(tests, counts, it, memory, pool) for it in crates]
        for runs in [it.result() for it in crates]:
            for it in runs:
                it.result()
    # These have processes of their own, and what they wait for comes late beside others.
    for it in scripts:
        if program.result():
            script(counts, it, program.result())


def main():
    parser = argparse.ArgumentParser(description=__doc__, formatter_class=argparse.RawDescriptionHelpFormatter)
    parser.add_argument("--jobs", type=int, default=os.cpu_count() or 1)
    parser.add_argument("words", nargs="*", metavar="WORD")
    given = parser.parse_args()
    counts = Counts()
    for it in (signal.SIGINT, signal.SIGTERM):
        signal.signal(it, counts.stop)
    run_all(counts, given.jobs, given.words)
    print(f"{counts.passed} passed, {counts.failed} failed")
    return 1 if counts.failed or not counts.passed else 0


if __name__ == "__main__":
    sys.exit(main())
