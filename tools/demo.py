#!/usr/bin/env python3
"""Shows the gateway at work, on this machine alone: `tools/demo.py [PROGRAM]`.

The stand-in server `examples/ioc.py` has the variables of a small machine. The gateway stands before it, with the rules of
`examples/site.pvlist`. `examples/ca.py` watches two variables through it, by the names that the rules give them, writes one of
them, and writes another, which it may not. Without PROGRAM it is the built one, or else one that is compiled from the sources.
It ends by itself, within 20 seconds of the gateway's start; the status is 1 where something came out otherwise.
"""
import os
import signal
import socket
import subprocess
import sys
import time

sys.dont_write_bytecode = True
import unproved  # noqa: E402

EXAMPLES = os.path.join(unproved.ROOT, "examples")
LONGEST = 18  # seconds
WATCHED, WRITTEN = "BEAM:CURRENT", "S01:MAG:Q1:SET"


class Otherwise(Exception):
    """What came out otherwise than it has to."""


def free_address():
    """An address of this machine whose port neither TCP nor UDP uses."""
    while True:
        with socket.socket() as one, socket.socket(socket.AF_INET, socket.SOCK_DGRAM) as other:
            one.bind(("127.0.0.1", 0))
            try:
                other.bind(one.getsockname())
                return f"127.0.0.1:{one.getsockname()[1]}"
            except OSError:
                continue


class Demo:
    """All that was started, and ends with it."""

    def __init__(self, program):
        self.program, self.started = program, []
        self.there, self.here = free_address(), free_address()

    def start(self, *words):
        it = subprocess.Popen(words, stdin=subprocess.PIPE, stdout=subprocess.PIPE, stderr=subprocess.STDOUT, text=True)
        self.started.append(it)
        return it

    def ca(self, *words):
        return self.start(sys.executable, "-B", f"{EXAMPLES}/ca.py", *words, "--at", self.here)

    def end(self):
        for it in reversed(self.started):
            it.kill()
            it.communicate()


def name(process):
    return os.path.basename(next(it for it in process.args if it not in (sys.executable, "-B")))


def say(text):
    print(text, flush=True)


def lines_until(process, wanted):
    """Prints lines of a process, up to one that is wanted."""
    for line in process.stdout:
        say(f"    {line.rstrip()}")
        if wanted(line):
            return
    raise Otherwise(f"{name(process)} ended")


def ended(process, status, wanted):
    """Prints what a process says to its end, which has to have a text in it, and its status."""
    printed = process.communicate()[0]
    say("".join(f"    {line}\n" for line in printed.splitlines()).rstrip("\n"))
    if process.returncode != status or wanted not in printed:
        raise Otherwise(f"{name(process)} ended with {process.returncode}, and not as wanted")


def show(demo):
    say(f"A server with a few variables, examples/ioc.py {demo.there}:")
    lines_until(demo.start(sys.executable, "-B", f"{EXAMPLES}/ioc.py", demo.there), lambda it: it.startswith("serving"))
    words = ["serve", demo.here, demo.there, "--rules", f"{EXAMPLES}/site.pvlist", "--groups", f"{EXAMPLES}/site.groups"]
    say(f"The gateway, pvgate serve {demo.here} {demo.there} --rules examples/site.pvlist --groups examples/site.groups:")
    gateway = demo.start(demo.program, *words)
    lines_until(gateway, lambda it: it.startswith("listening"))
    say(f"A client watches two variables of that server, by the names that the rules give them, ca.py monitor {WATCHED} {WRITTEN}:")
    monitor = demo.ca("monitor", WATCHED, WRITTEN)
    seen = []
    lines_until(monitor, lambda it: seen.append(it.split()[0]) or seen.count(WATCHED) > 2 and WRITTEN in seen)
    say(f"Another one writes, ca.py put {WRITTEN} 13.5:")
    ended(demo.ca("put", WRITTEN, "13.5"), 0, f"new {WRITTEN} 13.5")
    say("The first one sees it:")
    lines_until(monitor, lambda it: it.startswith(WRITTEN) and it.endswith(" 13.5\n"))
    say(f"The rules refuse others, ca.py put {WATCHED} 1:")
    ended(demo.ca("put", WATCHED, "1"), 1, "not written")
    gateway.stdin.write("quit\n")
    gateway.stdin.flush()
    if gateway.wait() != 0:
        raise Otherwise(f"the gateway ended with {gateway.returncode}")


def stop(*_):
    raise Otherwise(f"it isn't done within {LONGEST} seconds")


def program():
    """The program that is given, or was built, or else is compiled now."""
    if len(sys.argv) > 1:
        return os.path.abspath(sys.argv[1])
    if os.access(unproved.PROVED, os.X_OK):
        return unproved.PROVED
    if not unproved.is_up_to_date(f"{unproved.BUILT}/pvgate", "pvgate"):
        say("The program is compiled from the sources first, with no proof, which takes some minutes.")
    try:
        return unproved.compiled("pvgate")
    except unproved.NotCompiled as fault:
        sys.exit(str(fault))


def main():
    signal.signal(signal.SIGTERM, lambda *_: sys.exit(1))
    signal.signal(signal.SIGALRM, stop)
    demo, began = Demo(program()), time.monotonic()
    signal.alarm(LONGEST)
    try:
        show(demo)
    except Otherwise as fault:
        sys.exit(f"demo: {fault}")
    finally:
        signal.alarm(0)
        demo.end()
    say(f"Seen in {time.monotonic() - began:.0f} seconds: values under an alias, a write that a client sees, and one that is refused.")


if __name__ == "__main__":
    main()
