#!/usr/bin/env python3
"""Refuses the built server one allocation of a short round, at each of them in turn, by the library of `.ci/refused.py`.

    bench/refused.py [--program PATH] [--from N] [--to N]

The server is started before a stand-in IOC. Two clients come, one after the other: each opens a channel, subscribes, reads, writes,
takes an update and sends an ECHO; then the server is told to end. Whatever was refused, it ends: with status 4 (it ran out of memory
before it listened, or the engine did), or as it was told to, with 0, and then a connection may have been cut off for it. Printed are how
many allocations there are, and how it ended how often. The status is 1 where it hung, died or ended otherwise. It needs a C compiler;
run by hand, for some minutes.
"""
import os
import subprocess
import sys
import tempfile
from collections import Counter

import common  # (sets the paths)
import preloaded
from served.client import Client
from served.room import free_port, text_of, variable
from served.upstream import Upstream

SOON, LATE = 4, 20  # seconds: for an answer that may never come, and for the end


def client_round(address, up, name):
    """What a client does; it ends early where the server doesn't answer or cuts it off."""
    client = Client(address)
    client.socket.settimeout(SOON)
    try:
        channel = client.open(name, SOON)
        if channel:
            own = client.watch(channel)
            client.update(own)
            client.values(channel)
            client.write(channel, [5])
            up.give(name, [7])
            client.update(own)
        return bool(channel) and client.echo()
    except (OSError, AttributeError):  # no answer: the connection has ended
        return False
    finally:
        client.close()


class Refusing:
    """Runs the server with a call refused."""

    def __init__(self, program, library):
        self.program, self.library = program, library
        self.count = preloaded.Count(os.memfd_create("calls"))

    def start(self, at, address, up):
        self.count.clear()
        words = preloaded.environment(self.library, "memory", at, self.count.file)
        return subprocess.Popen([self.program, "serve", text_of(address), text_of(up.address)], env=os.environ | words, pass_fds=[self.count.file],
                                stdin=subprocess.PIPE, stdout=subprocess.PIPE, stderr=subprocess.DEVNULL)

    def run(self, at):
        """How the server ended, how many rounds went well, and how many allocations there were."""
        up, address, well = Upstream([variable("V", values=[1]), variable("W", values=[1])]), ("127.0.0.1", free_port()), 0
        process = self.start(at, address, up)
        try:
            if process.stdout.readline().startswith(b"listening"):
                for name in ("V", "W"):
                    try:
                        well += client_round(address, up, name)
                    except OSError:  # nobody listens any more
                        break
            try:
                process.communicate(b"reload\nask\nquit\n", LATE)
            except subprocess.TimeoutExpired:
                process.kill()
                return "hangs", well, 0
            return process.returncode, well, self.count.calls()
        finally:
            process.kill()
            process.wait()
            up.stop()


def run_all(refusing, first, last):
    ample, well, calls = refusing.run(0)
    if (ample, well) != (0, 2):
        sys.exit(f"without a refusal: status {ample}, {well} rounds")
    ends, faults = Counter(), 0
    for at in range(first, min(last, calls) + 1):
        status, well, _ = refusing.run(at)
        ends[status, well] += 1
        if status not in (0, 4):
            faults += 1
            print(f"allocation {at}: {status}", flush=True)
    print(f"refused: {calls} allocations, {sum(ends.values())} of them refused: "
          + ", ".join(f"{ends[it]} times status {it[0]} after {it[1]} rounds" for it in sorted(ends, key=str)))
    return 1 if faults else 0


def main():
    parser = common.parser(__doc__)
    parser.add_argument("--from", type=int, default=1, dest="first")
    parser.add_argument("--to", type=int, default=10_000, dest="last")
    given = parser.parse_args()
    if preloaded.COMPILER is None:
        sys.exit("there is no C compiler")
    program = common.built(given.program)
    with tempfile.TemporaryDirectory(prefix="refused-") as folder:
        return run_all(Refusing(program, preloaded.built(folder)), given.first, given.last)


if __name__ == "__main__":
    sys.exit(main())
