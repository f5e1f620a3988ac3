#!/usr/bin/env python3
"""What well-behaved clients see of the built server beside clients that never read, say little, or come and go without end.

    bench/crowds.py [--program PATH] [WORD ..]      WORDs: lazy, echoing, idle, going, announced, dead, long; all if not given

- lazy: two clients are subscribed to 100 variables that change 50,000 times a second together, with nobody beside them and then with a
  third that never reads. The milliseconds from the sending of an update to its coming are given as half, 99 in 100 and all are below.
- echoing: a client sends ECHO and never reads, until it is cut off.
- idle: 200 clients say nothing, and 200 send a byte a second, for 20 seconds.
- going: one client opens and closes 10,000 connections.
- announced: 1,000 clients announce the most that a payload may have, and then send some of it.
- dead: a client of libca has 1,000 names that no server has, beside 16 servers, for 20 seconds, without an option and with --back-off. The
  datagrams that come to all servers and their bytes are counted, and how soon a live name is found meanwhile. It is passed over where Debian's
  packages libca4.13.5 and libcom3.17.6 aren't installed.
- long: datagrams of 64 KB with names that are new come ten times a second, beside 4,096 rules, of which some match all of a kind.

The status is 1 where a bar isn't met. All is on 127.0.0.1, and takes two minutes. Other work on the machine makes all figures worse.
"""
import os
import selectors
import socket
import statistics
import struct
import subprocess
import sys
import threading
import time
from types import SimpleNamespace

import common  # (sets the paths)
import load
from load import UPDATE, Feeder, Taker, ca, update, wait
from served import libca
from served.idlers import Watcher, come_and_go, connected, most_announced, threads
from served.room import free_port, text_of, variable

NAMES = [f"V{it:03}" for it in range(100)]
RATE, SECONDS, TURNS, READERS = 50_000, 6, 3, 2
MOST_WAIT = 16_384  # messages


def milliseconds(seconds):
    """Half, 99 in 100 and all are below these."""
    ranks = statistics.quantiles(seconds, n=100)
    return ranks[49] * 1e3, ranks[98] * 1e3, max(seconds) * 1e3


def told(figures):
    return "half {:.2f}, 99 in 100 {:.2f}, all {:.1f} ms".format(*figures)


class Stamper(Feeder):
    """A server whose values are the microseconds at which they were sent."""

    def stamped(self, link, numbers, seconds, rate, base):
        began, sent = time.monotonic(), 0
        while (now := time.monotonic()) < began + seconds:
            due = int((now - began) * rate)
            stamp = int(now * 1e6) - base
            if due > sent:
                link.sendall(b"".join(update(numbers[at % len(numbers)], stamp) for at in range(sent, due)))
                sent = due
            time.sleep(0.0005)
        return sent


def arrivals(takers, base, is_over):
    """Listens until it is over and nothing comes any more; the seconds that each update took."""
    selector, taken, trips = selectors.DefaultSelector(), bytearray(1 << 20), []
    for it in takers:
        selector.register(it.link.socket, selectors.EVENT_READ, it)
    while True:
        ready = selector.select(0.3)
        if not ready and is_over():
            selector.close()
            return trips
        for key, _ in ready:
            piece = key.data.rest + taken[:key.data.take(taken)]
            now, whole = time.monotonic() * 1e6 - base, len(piece) // UPDATE * UPDATE
            key.data.rest = piece[whole:]
            trips += [(now - it[9]) / 1e6 for it in struct.iter_unpack(">HHHHIIIIIi", piece[:whole])]


def fed(feeder, takers):
    """A while of updates: the seconds that each took to come, and how many were sent."""
    base, sent = int(time.monotonic() * 1e6), []
    feeding = threading.Thread(target=lambda: sent.append(feeder.ask("stamped", SECONDS, RATE, base)))
    feeding.start()
    trips = arrivals(takers, base, lambda: not feeding.is_alive())
    feeding.join()
    return trips, sent[0]


def held_by(taker):
    """Reads what waits for a client that never read: how many messages, and whether it is still connected."""
    taker.link.socket.settimeout(2)
    many = 0
    try:
        while piece := taker.link.socket.recv(1 << 20):
            many += len(piece)
    except TimeoutError:
        return many // UPDATE, True
    return many // UPDATE, False


def lazy(room):
    feeder = Stamper([load.Variable(name, ca.LONG, [0]) for name in NAMES], True)
    room.started.append(feeder.stop)
    server = room.server(SimpleNamespace(address=("127.0.0.1", feeder.port)))
    takers = [Taker(server.address, NAMES) for _ in range(READERS)]
    wait(lambda: feeder.ask("ready"))
    seen = {False: [], True: []}
    resident, most = server.resident(), 0
    for _ in range(TURNS):
        for beside in (False, True):
            never = Taker(server.address, NAMES) if beside else None
            trips, sent = fed(feeder, takers)
            most = max(most, server.resident())
            seen[beside].append(milliseconds(trips))
            print(f"  {sent / SECONDS:,.0f} updates a second, {len(trips) / SECONDS:,.0f} came"
                  f"{' beside one that never reads' * beside}: {told(seen[beside][-1])}", flush=True)
            if never:
                many, stays = held_by(never)
                room.check("it isn't cut off", stays)
                print(f"  for it there waited {many:,} messages, those in sockets with them", flush=True)
                never.link.socket.close()
    alone, beside = ([statistics.median(them) for them in zip(*seen[it])] for it in (False, True))
    print(f"lazy: alone {told(alone)}; beside it {told(beside)}; memory {resident:.1f} MB at first, {most:.1f} MB at most")
    for label, one, other in zip(("half", "99 in 100"), alone, beside):
        room.check(f"{label} are no more than twice as late", other <= 2 * one + 0.1, f"{other:.2f} ms, not {one:.2f}")


def echoing(room):
    server = room.server(room.upstream(variable("V", values=[1])))
    watcher, one = Watcher(room, server), room.client(server)
    port = one.socket.getsockname()[1]
    one.socket.settimeout(0.2)
    sent, began, some = 0, time.monotonic(), ca.message(ca.ECHO) * 1000
    try:
        while time.monotonic() < began + 60:
            try:
                sent += one.socket.send(some)
            except TimeoutError:
                if server.has_logged(f"127.0.0.1:{port})"):
                    break
    except ConnectionError:
        pass
    took = time.monotonic() - began
    room.eventually("it is cut off", lambda: server.has_logged(f"127.0.0.1:{port})", f"{MOST_WAIT}"))
    is_well, _ = watcher.stop()
    room.check("another is served", is_well)
    print(f"echoing: cut off after {took:.2f} s and {sent // 16:,} messages that were sent, most of which lay in sockets; {server.resident():.1f} MB; "
          f"another client's ECHO: {told(milliseconds(watcher.trips))}")


def watched(room, server, act):
    """What a client that does as it should sees meanwhile."""
    watcher = Watcher(room, server)
    act()
    is_well, _ = watcher.stop()
    room.check("it is served", is_well)
    return milliseconds(watcher.trips)


def idle(room):
    server = room.server(room.upstream(variable("V", values=[1])))
    alone, resident = watched(room, server, lambda: time.sleep(10)), server.resident()
    silent, slow = connected(room, server, 200), connected(room, server, 200)

    def creep():
        for byte in (ca.message(ca.ECHO, bytes(64)) * 2)[:20]:
            for link in slow:
                link.sendall(bytes([byte]))
            time.sleep(1)
    beside = watched(room, server, creep)
    print(f"idle: alone {told(alone)}; beside 400 {told(beside)}; {server.resident() - resident:.1f} MB more for them")
    for link in (*silent, *slow):
        link.close()


def serving(room):
    """A gateway whose server is there, so that what it holds for it counts from the beginning."""
    server = room.server(room.upstream(variable("V", values=[1])))
    room.client(server).open("V")
    return server


def going(room):
    server = serving(room)
    files, running = server.files(), threads(server)
    come_and_go(server.address, 1000)
    wait(lambda: server.files() <= files and threads(server) <= running)
    resident, began, took = server.resident(), time.monotonic(), []

    def act():
        come_and_go(server.address, 10_000)
        took.append(time.monotonic() - began)
    beside = watched(room, server, act)
    wait(lambda: server.files() <= files and threads(server) <= running)
    print(f"going: 10,000 connections in {took[0]:.1f} s; another client's ECHO: {told(beside)}; {server.resident() - resident:.1f} MB more; "
          "all descriptors and threads are back")


def announced(room):
    server = serving(room)
    size, files = most_announced(room, server), server.files()
    none = server.resident()
    links = connected(room, server, 1000)
    told_of, before, sent = [], server.resident(), 0
    for link in links:
        link.sendall(struct.pack(">HHHHIIII", ca.ECHO, 0xFFFF, 0, 0, 0, 0, size, 0))
    for more in (0, 4096, 61_440):
        for link in links:
            link.sendall(bytes(more))
        sent += more
        time.sleep(2)
        told_of.append(f"{sent:,} bytes each: {server.resident() - before:.1f} MB more")
        room.check("what is held is what came", server.resident() - before < 10 + 3 * sent / 1e3, told_of[-1])
    for link in links:
        link.close()
    wait(lambda: server.files() <= files)
    print(f"announced: {none:.1f} MB, {before:.1f} MB with 1,000 clients; they announce {size:,} bytes and send {'; '.join(told_of)}; "
          f"{server.resident():.1f} MB once they are gone")


class Ears:
    """So many servers that hear what they are asked for by UDP, and answer nothing."""

    def __init__(self, room, many):
        self.sockets = [socket.socket(socket.AF_INET, socket.SOCK_DGRAM) for _ in range(many)]
        self.datagrams = self.bytes = 0
        self.selector = selectors.DefaultSelector()
        for it in self.sockets:
            it.bind(("127.0.0.1", 0))
            it.setblocking(False)
            it.setsockopt(socket.SOL_SOCKET, socket.SO_RCVBUF, 1 << 22)
            self.selector.register(it, selectors.EVENT_READ)
        self.upstreams = [SimpleNamespace(address=it.getsockname()) for it in self.sockets]
        self.thread = threading.Thread(target=self.hear, daemon=True)
        self.thread.start()

    def hear(self):
        while True:
            for key, _ in self.selector.select():
                try:
                    while True:
                        self.bytes += len(key.fileobj.recv(1 << 16))
                        self.datagrams += 1
                except BlockingIOError:
                    pass


# What a process of its own does: many channels on names that aren't there.
LOOKING = """
import sys, time
sys.path[:0] = sys.argv[1:3]
import served
from served import libca
host, _, port = sys.argv[3].rpartition(":")
library = libca.Library((host, int(port)), int(sys.argv[6]))
channels = [library.channel(f"DEAD:{it:04}") for it in range(int(sys.argv[4]))]
print("begun", flush=True)
time.sleep(float(sys.argv[5]))
"""


def dead(room):
    if not libca.is_installed():
        print("dead: libca isn't installed")
        return
    for options in ((), ("--back-off",)):
        ears, up = Ears(room, 15), room.upstream(*(variable(f"LIVE{it}", values=[1]) for it in range(10)))
        server = room.server(*ears.upstreams, up, options=options)
        looking = subprocess.Popen([sys.executable, "-c", LOOKING, os.path.join(common.ROOT, ".ci"), os.path.join(common.ROOT, "examples"),
                                    text_of(server.address), "1000", "20", str(free_port())], stdout=subprocess.PIPE, stderr=subprocess.DEVNULL)
        room.started.append(looking.kill)
        looking.stdout.readline()
        client, took = room.client(server), []
        for it in range(10):
            time.sleep(1.5)
            began = time.monotonic()
            client.search(f"LIVE{it}")
            room.eventually(f"LIVE{it} is asked for", lambda: any(row[3].name == f"LIVE{it}" for row in list(up.channels)))
            took.append(time.monotonic() - began)
        looking.wait()
        # The sixteenth server gets what each of the others does.
        datagrams, size = ears.datagrams * 16 // 15, ears.bytes * 16 // 15
        print(f"dead{''.join(f' {it}' for it in options)}: {datagrams:,} datagrams and {size / 1e6:.2f} MB upstream; a live name has a channel "
              f"{statistics.median(took) * 1e3:.0f} ms after its search, at most {max(took) * 1e3:.0f}", flush=True)
        if options:
            room.check("at most 4,000 datagrams and 6 MB", datagrams <= 4000 and size <= 6e6, f"{datagrams}, {size}")
            room.check("a live name is found within 0.2 s", max(took) <= 0.2, f"{max(took):.3f} s")
        server.kill()


def long(room):
    rules = ["EVALUATION ORDER ALLOW, DENY"]
    for it in range(1365):
        rules += [f"A{it}:.* ALLOW", f"B{it}:\\(.*\\) ALIAS C{it}:\\1", f"D{it}:.* DENY FROM 10.0.0.{it % 250}"]
    rules.append(".* ALLOW")
    for options in ((), ("--back-off",)):
        server = room.server(room.upstream(variable("V", values=[1])), rules="".join(f"{it}\n" for it in rules), options=options)
        alone = watched(room, server, lambda: time.sleep(5))
        asker = socket.socket(socket.AF_INET, socket.SOCK_DGRAM)

        def ask():
            for at in range(100):
                asker.sendto(b"".join(ca.search(f"{at:03}{it:04}", it) for it in range(2_700)), server.address)
                time.sleep(0.1)
        beside = watched(room, server, ask)
        print(f"long{''.join(f' {it}' for it in options)}: another client's ECHO alone {told(alone)}; beside it {told(beside)}", flush=True)
        room.check("another client's ECHO takes less than 50 ms", beside[2] < 50, told(beside))
        server.kill()


PARTS = {it.__name__: it for it in (lazy, echoing, idle, going, announced, dead, long)}


def main():
    parser = common.parser(__doc__)
    parser.add_argument("words", nargs="*", metavar="WORD")
    given = parser.parse_args()
    return common.run("crowds", common.built(given.program), common.chosen(PARTS, given.words))


if __name__ == "__main__":
    sys.exit(main())
