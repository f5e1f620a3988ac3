#!/usr/bin/env python3
"""What the built server holds, with --site, of large values and of many that differ.

    bench/bytes.py [--program PATH] [WORD ..]      WORDs: counts, padded; all if not given

- counts: 8,000 subscriptions of one client to one array of 800,000 CHARs, each of another count. One update comes, which the client doesn't take for
  three seconds, and then does: how much memory the server takes, and how late an ECHO of another client is meanwhile.
- padded: a server sends 16 MiB with each message of the properties of 200 variables, of which some 50 bytes count, and 5 KB of values in between:
  how much memory the server keeps.

The status is 1 where a bar isn't met. Other work on the machine makes all figures worse.
"""
import sys
import threading
import time

import common  # (sets the paths)
import ca_wire as ca
from served.keeping import Padded
from served.room import variable

ELEMENTS, SUBSCRIPTIONS = 800_000, 8_000


class Beside(threading.Thread):
    """Says ECHO again and again; `begin` forgets how late one was, and how much memory the server had at most."""

    def __init__(self, room, server):
        super().__init__(daemon=True)
        self.client, self.folder = room.client(server), f"/proc/{server.process.pid}"
        self.client.echo()
        self.over = threading.Event()
        self.begin()
        self.start()

    def begin(self):
        self.latest = 0.0
        with open(f"{self.folder}/clear_refs", "w") as file:
            file.write("5")

    def most(self):
        """The most memory in MB that it had since."""
        with open(f"{self.folder}/status") as file:
            return next(int(line.split()[1]) for line in file if line.startswith("VmHWM:")) * 1024 / 1e6

    def run(self):
        while not self.over.wait(0.005):
            began = time.monotonic()
            self.client.echo()
            self.latest = max(self.latest, time.monotonic() - began)

    def stop(self):
        self.over.set()
        self.join()


def size_of(count):
    """The bytes of an update of so many CHARs."""
    size = -(-count // 8) * 8
    return size + (16 if size < 0xFFFF and count < 0xFFFF else 24)


def take(link, most):
    """Takes so many bytes; how many came."""
    buffer, taken = bytearray(1 << 20), 0
    while taken < most:
        some = link.recv_into(buffer)
        if not some:
            break
        taken += some
    return taken


def counts(room):
    asked = [ELEMENTS // SUBSCRIPTIONS * (it + 1) for it in range(SUBSCRIPTIONS)]
    whole = sum(map(size_of, asked))
    up = room.upstream(variable("A", ca.CHAR, [0], ELEMENTS))
    server = room.server(up, options=("--site",))
    reader = room.client(server)
    channel = reader.open("A")
    reader.values(channel)
    reader.socket.settimeout(120)
    began = time.monotonic()
    adding = threading.Thread(target=lambda: reader.socket.sendall(b"".join(ca.subscribe(channel.sid, 1000 + it, ca.CHAR, count) for it, count in enumerate(asked))))
    adding.start()
    good = take(reader.socket, whole) == whole
    adding.join()
    print(f"counts: {len(asked):,} subscriptions have their first values after {time.monotonic() - began:.1f} s", flush=True)
    beside = Beside(room, server)
    time.sleep(1)
    alone, resident = beside.latest, server.resident()
    beside.begin()
    up.give("A", [1])
    time.sleep(3)
    late, held = beside.latest, beside.most()
    beside.begin()
    began = time.monotonic()
    good = take(reader.socket, whole) == whole and good
    took, taken = time.monotonic() - began, beside.most()
    beside.stop()
    print(f"counts: {resident:.0f} MB before an update, {held:.0f} MB at most while its reader waits, {taken:.0f} MB while it takes {whole / 1e9:.2f} GB in {took:.1f} s; "
          f"an ECHO after {alone * 1e3:.0f} ms at most before, {late * 1e3:.0f} ms, {beside.latest * 1e3:.0f} ms", flush=True)
    room.check("all updates came", good)
    room.check("memory of one update", max(held, taken) - resident < 16, f"{max(held, taken) - resident:.0f} MB more")


def padded(room):
    names = [f"P{it}" for it in range(200)]
    up = room.upstream(*(Padded(it, ca.LONG, range(1_250)) for it in names))
    server = room.server(up, options=("--site",))
    client = room.client(server)
    channels = [client.open(it) for it in names]
    before = server.resident()
    began = time.monotonic()
    for it in channels:
        room.equal(f"properties of {it.name}", client.values(it, ca.CTRL + ca.LONG, 1), [0])
    for it in channels:
        client.update(client.watch(it, ca.CTRL + ca.LONG))
    time.sleep(1)
    print(f"padded: {before:.0f} MB before, {server.resident():.0f} MB once 200 variables have sent 16 MiB of properties each, {time.monotonic() - began:.1f} s", flush=True)
    room.check("what counts is kept", server.resident() - before < 100, f"{server.resident() - before:.0f} MB more")


PARTS = {"counts": counts, "padded": padded}


def main():
    given = common.parser(__doc__, PARTS).parse_args()
    return common.run("bytes", common.built(given.program), common.chosen(PARTS, given.words))


if __name__ == "__main__":
    sys.exit(main())
