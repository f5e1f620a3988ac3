#!/usr/bin/env python3
"""What clients with many channels cost the built server with --site: memory, and the time in which others aren't served.

    bench/many.py [--program PATH] [--many N] [WORD ..]      WORDs: one, eight; both if not given

- one: a client has 65,536 channels and as many subscriptions, on 1,000 variables: how long that takes, the memory of each, an update to
  all, and its leaving; beside each the longest time that an ECHO of another client took.
- eight: eight such clients.

With --many N they have N of each. The status is 1 where a bar isn't met. Other work on the machine makes all figures worse.
"""
import json
import socket
import struct
import sys
import time

import common  # (sets the paths)
from load import FORK, ca
from served.reports import told
from served.room import free_port, text_of, variable

MANY = 65_536
NAMES = 1_000
PIECE = 2_048  # requests that go out before replies are waited for


class Holder:
    """A client that counts what comes by command, and keeps the SIDs of its channels."""

    def __init__(self, address):
        self.link = socket.create_connection(address)
        self.link.setsockopt(socket.IPPROTO_TCP, socket.TCP_NODELAY, 1)
        self.left, self.counts, self.sids = b"", {}, []
        self.link.sendall(ca.greeting("many", "desk1"))

    def hear(self):
        """Takes what came; False at the end."""
        piece = self.link.recv(1 << 20)
        text, at = self.left + piece, 0
        while len(text) - at >= 16:
            command, size, _, _, _, p2 = struct.unpack_from(">HHHHII", text, at)
            if len(text) - at < 16 + size:
                break
            self.counts[command] = self.counts.get(command, 0) + 1
            if command == ca.CREATE_CHAN:
                self.sids.append(p2)
            at += 16 + size
        self.left = text[at:]
        return bool(piece)

    def until(self, command, many):
        while self.counts.get(command, 0) < many:
            if not self.hear():
                raise RuntimeError(f"the gateway hung up: {self.counts}")

    def open_all(self, names, many):
        """Opens so many channels on these names, in turn; the seconds that took."""
        began, had = time.monotonic(), len(self.sids)
        for at in range(0, many, PIECE):
            self.link.sendall(b"".join(ca.create(names[it % len(names)], it) for it in range(at, at + PIECE)))
            self.until(ca.CREATE_CHAN, had + at + PIECE)
        return time.monotonic() - began

    def watch_all(self, many):
        """Subscribes once on each channel, and takes the first update of each; the seconds that took."""
        began = time.monotonic()
        for at in range(0, many, PIECE):
            self.link.sendall(b"".join(ca.subscribe(sid, at + it, ca.LONG, 1) for it, sid in enumerate(self.sids[at:at + PIECE])))
            self.until(ca.EVENT_ADD, at + PIECE)
        return time.monotonic() - began


class Echoes:
    """Another client, in a process of its own, which says ECHO again and again: the longest time that one took."""

    def __init__(self, address):
        self.worst, self.stops = FORK.Value("d", 0.0), FORK.Event()
        self.process = FORK.Process(target=self.run, args=(address,), daemon=True)
        self.process.start()

    def run(self, address):
        link = ca.Connection(address, 300)
        link.send(ca.greeting("other", "desk2"))
        while not self.stops.is_set():
            began = time.monotonic()
            link.send(ca.message(ca.ECHO))
            link.take(lambda it: it.command == ca.ECHO)
            self.worst.value = max(self.worst.value, time.monotonic() - began)
            time.sleep(0.002)

    def take(self):
        """The longest since this was last asked, in milliseconds."""
        time.sleep(0.01)
        took, self.worst.value = self.worst.value, 0.0
        return took * 1e3

    def end(self):
        self.stops.set()
        self.process.join(10)


class Crowd:
    """A gateway before a server of 1,000 variables that are connected, and another client that says ECHO."""

    def __init__(self, room):
        self.names = [f"MANY:{it:04}:{'X' * 16}" for it in range(NAMES)]
        self.up = room.upstream(*(variable(it, values=[1]) for it in self.names))
        self.status = ("127.0.0.1", free_port())
        self.server = room.server(self.up, options=("--site", "--status", text_of(self.status)))
        first = room.client(self.server)
        room.eventually("the server is connected", lambda: self.server.has_logged("upstream 1", "connected"))
        for at in range(0, NAMES, 50):
            first.search(*self.names[at:at + 50])
        for name in self.names:
            first.watch(first.open(name))
        self.echoes = Echoes(self.server.address)
        time.sleep(0.5)
        self.echoes.take()

    def figures(self):
        return json.loads(told(self.status))

    def update(self, holders, value, many):
        """Has each variable change, and each subscription of all told; the seconds that took."""
        had = [it.counts.get(ca.EVENT_ADD, 0) for it in holders]
        began = time.monotonic()
        self.up.do(lambda: [self.up.set(name, [value], 0, 0) for name in self.names])
        for holder, before in zip(holders, had):
            holder.until(ca.EVENT_ADD, before + many)
        return time.monotonic() - began

    def leave(self, holders):
        """Has them hang up; the seconds until nothing of theirs is there."""
        began = time.monotonic()
        for it in holders:
            it.link.close()
        while self.figures()["channels"] > NAMES:
            time.sleep(0.02)
        return time.monotonic() - began


def of_many(room, many, each):
    """So many clients, one after the other, with so many channels each."""
    crowd = Crowd(room)
    server, echoes, holders = crowd.server, crowd.echoes, []
    base = server.resident()
    opened, opening = 0.0, 0.0
    for _ in range(many):
        holders.append(Holder(server.address))
        opened += holders[-1].open_all(crowd.names, each)
        opening = max(opening, echoes.take())
    channels = server.resident()
    watched, watching = 0.0, 0.0
    for it in holders:
        watched += it.watch_all(each)
        watching = max(watching, echoes.take())
    subs = server.resident()
    spent = server.processor()
    took = crowd.update(holders, 7, each)
    spent = server.processor() - spent
    updating = echoes.take()
    counts = crowd.figures()
    left = crowd.leave(holders)
    leaving = echoes.take()
    after = server.resident()
    print(f"{many} with {each} channels and subscriptions each: opened in {opened:.2f} s (ECHO {opening:.0f} ms), "
          f"{(channels - base) * 1e6 / many / each:.0f} bytes a channel; watched in {watched:.2f} s (ECHO {watching:.0f} ms), "
          f"{(subs - channels) * 1e6 / many / each:.0f} bytes a subscription; an update to all in {took:.2f} s, {spent:.2f} of a processor (ECHO {updating:.0f} ms); "
          f"gone in {left:.2f} s (ECHO {leaving:.0f} ms); {base:.0f}, {channels:.0f}, {subs:.0f} and then {after:.0f} MB", flush=True)
    room.equal("all channels are there", counts["channels"], many * each + NAMES)
    room.equal("and all subscriptions", counts["subscriptions"], many * each + NAMES)
    room.check("a channel and its subscription take 2 KiB at most", (subs - base) * 1e6 / many / each <= 2048)
    room.check("nobody waits for 100 ms for each that leaves", leaving <= 100 * many, f"{leaving:.0f} ms")
    echoes.end()
    room.equal("quit", server.quit(), 0)


PARTS = {"one": lambda room, each: of_many(room, 1, each), "eight": lambda room, each: of_many(room, 8, each)}


def main():
    parser = common.parser(__doc__, PARTS)
    parser.add_argument("--many", type=int, default=MANY)
    given = parser.parse_args()
    return common.run("many", common.built(given.program), common.chosen(PARTS, given.words), given.many)


if __name__ == "__main__":
    sys.exit(main())
