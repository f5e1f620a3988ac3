#!/usr/bin/env python3
"""What 1,000 servers that are found by search cost the built server.

    bench/servers.py [--program PATH]

A process has 1,000 false IOCs on addresses of the loopback network, with 20 names each, and answers searches for all of them. One client
opens all 20,000 names: how soon it has them, how much memory that takes, and how long an ECHO takes beside them and beside ten servers.
Half of the servers go and come back at other ports: how soon all names are back, with --reconnect 2. The client goes: when servers that
nobody needs are left, with --forget 5 and --idle 5.

The status is 1 where a bar isn't met. It takes two minutes. Other work on the machine makes all figures worse.
"""
import json
import multiprocessing
import selectors
import socket
import statistics
import struct
import sys
import time

import common  # (sets the paths)
import load
from load import ca
from served.room import free_port, text_of

NAMES = 20
OPTIONS = ("--site", "--reconnect", "2", "--names", "524288", "--forget", "5", "--idle", "5")


def host_of(place):
    return f"127.10.{place // 250}.{place % 250 + 1}"


def names_of(servers):
    return [f"S{place:04}:{it:02}" for place in range(servers) for it in range(NAMES)]


class Farm:
    """False IOCs, each with a listener, and one socket on which searches for the names of all are answered."""

    def __init__(self, servers, port):
        self.ports = [port] * servers
        self.poll = selectors.DefaultSelector()
        self.listeners = [self.listen(place) for place in range(servers)]
        self.links = [set() for _ in range(servers)]
        self.searches = load.asker("127.0.0.1")
        self.poll.register(self.searches, selectors.EVENT_READ, self.answer)

    def listen(self, place):
        link = socket.socket()
        link.setsockopt(socket.SOL_SOCKET, socket.SO_REUSEADDR, 1)
        link.bind((host_of(place), self.ports[place]))
        link.listen(8)
        self.poll.register(link, selectors.EVENT_READ, lambda: self.accept(place, link))
        return link

    def accept(self, place, listener):
        link, _ = listener.accept()
        link.setsockopt(socket.IPPROTO_TCP, socket.TCP_NODELAY, 1)
        frames = ca.Frames()
        self.links[place].add(link)
        self.poll.register(link, selectors.EVENT_READ, lambda: self.hear(place, link, frames))
        link.sendall(ca.message(ca.VERSION, count=ca.MINOR))

    def hear(self, place, link, frames):
        try:
            piece = link.recv(1 << 16)
        except OSError:
            piece = b""
        if not piece:
            self.drop(place, link)
            return
        said = b"".join(self.replies(it) for it in frames.feed(piece))
        if said:
            link.sendall(said)

    @staticmethod
    def replies(it):
        if it.command == ca.CREATE_CHAN:
            return ca.message(ca.ACCESS_RIGHTS, p1=it.p1, p2=3) + ca.message(ca.CREATE_CHAN, dtype=ca.LONG, count=1, p1=it.p1, p2=it.p1)
        if it.command == ca.EVENT_ADD:
            return load.update(it.p2, 1)
        if it.command == ca.ECHO:
            return ca.message(ca.ECHO)
        return b""

    def drop(self, place, link):
        self.links[place].discard(link)
        self.poll.unregister(link)
        link.close()

    def answer(self):
        datagram, sender = self.searches.recvfrom(1 << 16)
        said = []
        for it in ca.Frames().feed(datagram):
            if it.command != ca.SEARCH:
                continue
            name = it.payload.rstrip(b"\0").decode()
            place = int(name[1:5]) if name[:1] == "S" else len(self.ports)
            if place < len(self.ports):
                host = struct.unpack(">I", socket.inet_aton(host_of(place)))[0]
                said.append(ca.message(ca.SEARCH, struct.pack(">H", ca.MINOR), dtype=self.ports[place], p1=host, p2=it.p1))
        if said:
            self.searches.sendto(b"".join(said), sender)

    def move(self, port):
        """Each second server goes, and listens again at another port."""
        for place in range(0, len(self.ports), 2):
            self.poll.unregister(self.listeners[place])
            self.listeners[place].close()
            for link in list(self.links[place]):
                self.drop(place, link)
            self.ports[place] = port
            self.listeners[place] = self.listen(place)

    def run(self, here):
        self.poll.register(here, selectors.EVENT_READ, lambda: self.move(here.recv()))
        here.send(self.searches.getsockname())
        while True:
            for key, _ in self.poll.select():
                key.data()


def farm(here, servers, port):
    Farm(servers, port).run(here)


class Farmer:
    """The process of the false IOCs."""

    def __init__(self, room, servers):
        self.pipe, there = multiprocessing.Pipe()
        self.process = multiprocessing.get_context("fork").Process(target=farm, args=(there, servers, free_port()), daemon=True)
        self.process.start()
        room.started.append(self.process.kill)
        self.address = self.pipe.recv()


class Opener:
    """A client that looks for names as libca does, and opens a channel on each one that is found."""

    def __init__(self, address, names):
        self.names, self.left, self.open, self.lost, self.echoes = names, {}, set(), 0, 0
        self.address = address
        self.link = socket.create_connection(address)
        self.link.setsockopt(socket.IPPROTO_TCP, socket.TCP_NODELAY, 1)
        self.frames = ca.Frames()
        self.link.sendall(ca.greeting("bench", "desk1"))
        self.searches = load.asker("127.0.9.1")
        self.poll = selectors.DefaultSelector()
        self.poll.register(self.link, selectors.EVENT_READ, self.hear)
        self.poll.register(self.searches, selectors.EVENT_READ, self.hear_found)
        self.seek(range(len(names)))

    def seek(self, cids):
        self.left.update((cid, self.names[cid]) for cid in cids)
        self.gap, self.due = 0.032, time.monotonic()

    def ask(self):
        for it in load.searches(self.left):
            self.searches.sendto(it, self.address)
        self.due, self.gap = time.monotonic() + self.gap, min(2 * self.gap, 4.0)

    def hear_found(self):
        said = []
        for it in ca.Frames().feed(self.searches.recv(1 << 16)):
            if it.command == ca.SEARCH and self.left.pop(it.p2, None) is not None:
                said.append(ca.create(self.names[it.p2], it.p2))
        if said:
            self.link.sendall(b"".join(said))

    def hear(self):
        lost = []
        for it in self.frames.feed(self.link.recv(1 << 20)):
            if it.command == ca.CREATE_CHAN:
                self.open.add(it.p1)
            elif it.command in (ca.SERVER_DISCONN, ca.CREATE_CH_FAIL):
                self.open.discard(it.p1)
                lost.append(it.p1)
            elif it.command == ca.ECHO:
                self.echoes += 1
        if lost:
            self.lost += len(lost)
            self.seek(lost)

    def turn(self):
        if self.left and time.monotonic() >= self.due:
            self.ask()
        for key, _ in self.poll.select(0.005):
            key.data()

    def until(self, test, seconds):
        """How soon that comes true; None where it doesn't in time."""
        began = time.monotonic()
        while not test():
            if time.monotonic() - began > seconds:
                return None
            self.turn()
        return time.monotonic() - began

    def has_all(self, seconds):
        return self.until(lambda: len(self.open) == len(self.names), seconds)

    def echo(self):
        """The milliseconds of an ECHO, half of 300 of them."""
        took = []
        for _ in range(300):
            wanted, began = self.echoes + 1, time.monotonic()
            self.link.sendall(ca.message(ca.ECHO))
            self.until(lambda: self.echoes >= wanted, 5)
            took.append((time.monotonic() - began) * 1e3)
        return statistics.median(took)

    def close(self):
        self.link.close()
        self.searches.close()


def found_count(status):
    with socket.create_connection(status) as link:
        text = b""
        while piece := link.recv(1 << 16):
            text += piece
    return json.loads(text)["upstreams_found"]


def seconds(took):
    return "not all" if took is None else f"{took:.1f} s"


def served_by(room, servers):
    """Such servers, a gateway that searches there, and a client with all names."""
    farmer = Farmer(room, servers)
    status = ("127.0.0.1", free_port())
    server = room.server(options=(*OPTIONS, "--search", text_of(farmer.address), "--status", text_of(status)))
    opener = Opener(server.address, names_of(servers))
    room.started.append(opener.close)
    return farmer, server, status, opener


def few(room, beside_few):
    _, _, _, opener = served_by(room, 10)
    room.check("all names of ten servers", opener.has_all(30) is not None)
    beside_few.append(opener.echo())


def many(room, beside_few):
    farmer, server, status, opener = served_by(room, 1000)
    took = opener.has_all(60)
    print(f"20,000 names at 1,000 servers: all after {seconds(took)}", flush=True)
    room.check("all within 20 s", took is not None and took <= 20, f"{len(opener.open)} of 20,000, {seconds(took)}")
    memory, echo, alone = server.resident(), opener.echo(), beside_few[0]
    print(f"{memory:.0f} MB resident; ECHO {echo:.3f} ms beside 1,000 servers, {alone:.3f} ms beside ten", flush=True)
    room.check("at most 400 MB", memory <= 400, f"{memory:.0f} MB")
    room.check("ECHO at most four times as long as beside ten", echo <= 4 * alone, f"{echo:.3f} ms, {alone:.3f} ms")
    farmer.pipe.send(free_port())
    back = opener.until(lambda: opener.lost >= 10_000 and len(opener.open) == 20_000, 60)
    print(f"half of the servers move: their 10,000 names are lost and back after {seconds(back)}", flush=True)
    room.check("all back within 15 s", back is not None and back <= 15, f"{opener.lost} lost, {len(opener.open)} of 20,000, {seconds(back)}")
    opener.close()
    began = time.monotonic()
    room.wait(lambda: found_count(status) == 0, 60)
    left, took = found_count(status), time.monotonic() - began
    print(f"without a client {1_000 - left} of 1,000 servers are left after {took:.0f} s", flush=True)
    room.check("idle servers are left within 25 s", left == 0 and took <= 25, f"{left} stay, {took:.0f} s")


def main():
    given = common.parser(__doc__).parse_args()
    beside_few = []
    return common.run("servers", common.built(given.program), (few, many), beside_few)


if __name__ == "__main__":
    sys.exit(main())
