#!/usr/bin/env python3
"""What a site asks of the built server with --site: names that many hosts look for, dead and alive, and peers that are gone without a word.

    bench/site.py [--program PATH] [WORD ..]      WORDs: hosts, bursts, random, short, cold, away, stopped, vanished; all if not given

- hosts: nine hosts look for 500 live names each, and then a tenth for 20 new ones: how soon all of these are found.
- bursts: 200 hosts look for 60 dead names each, in bursts, while a server with 1,000 channels of a client goes and comes back: how soon the
  client has them again, with the dead names and without.
- random: one host sends three datagrams of 2,000 random names each second: how soon a live name is found meanwhile.
- short: one host sends a thousand datagrams of 30 random names each second: how soon a live name is found meanwhile.
- cold: a client looks for 1,000 names that nobody looked for before: how soon it has 1,000 channels, from the server itself and from the gateway.
- away: a server is away for 90 seconds: how soon ten names are found again, with --forget 20 and without.
- stopped: a server's process is stopped: when its clients are told, and when they have it again once it goes on.
- vanished: 1,024 clients say and take nothing any more: when their seats are free.

Hosts are loopback addresses. Searches go as those of libca: again after 32 ms, 64, and so on. The status is 1 where a bar isn't met. It takes
nine minutes. Other work on the machine makes all figures worse.
"""
import multiprocessing
import os
import random
import select
import signal
import socket
import statistics
import struct
import subprocess
import sys
import threading
import time

import common  # (sets the paths)
from load import VERSION, asker, ca, searches
from served.room import variable


class Seeker:
    """A host that looks for names as libca does: again after 32 ms, then 64 and so on, until they are found."""

    def __init__(self, address, names, source):
        self.address, self.left = address, dict(enumerate(names))
        self.link = asker(source)
        self.gap, self.due = 0.032, time.monotonic()
        self.began = self.due

    def turn(self, now):
        """Asks where it is time to."""
        if now < self.due or not self.left:
            return
        for it in searches(self.left):
            self.link.sendto(it, self.address)
        self.due, self.gap = now + self.gap, min(2 * self.gap, 30.0)

    def hear(self):
        """Takes what was replied."""
        text = self.link.recv(65_536)
        while len(text) >= 16:
            command, size, _, _, _, p2 = struct.unpack(">HHHHII", text[:16])
            if command == 6:
                self.left.pop(p2, None)
            text = text[16 + size:]

    def close(self):
        self.link.close()


def seek(seekers, seconds):
    """Has them look until all is found, or for so long; the seconds that it took, None where something wasn't found."""
    began = time.monotonic()
    by = {it.link.fileno(): it for it in seekers}
    poll = select.poll()
    for number in by:
        poll.register(number, select.POLLIN)
    while True:
        now = time.monotonic()
        looking = [it for it in seekers if it.left]
        if not looking:
            return now - began
        if now - began > seconds:
            return None
        for it in looking:
            it.turn(now)
        wait = min(it.due for it in looking) - time.monotonic()
        for number, _ in poll.poll(max(0.0, min(wait, 0.1)) * 1e3):
            by[number].hear()


def found(address, names, source, seconds=60):
    """How soon a host finds all of these names."""
    it = Seeker(address, names, source)
    try:
        return seek([it], seconds)
    finally:
        it.close()


def milliseconds(seconds):
    return "not at all" if seconds is None else f"{seconds * 1e3:.0f} ms"


def live(prefix, many):
    return [f"{prefix}:{it:04}" for it in range(many)]


def hosts(room):
    names = [live(f"H{host}", 500) for host in range(9)]
    new = live("NEW", 20)
    up = room.upstream(*(variable(it, values=[1]) for it in sum(names, []) + new))
    server = room.server(up, options=("--site",))
    seekers = [Seeker(server.address, its, f"127.0.1.{host + 1}") for host, its in enumerate(names)]
    first = seek(seekers, 120)
    took = found(server.address, new, "127.0.1.100")
    print(f"hosts: 9 x 500 names found after {milliseconds(first)}, then 20 new ones after {milliseconds(took)}", flush=True)
    room.check("20 new names are found within 0.5 s", took is not None and took <= 0.5, milliseconds(took))


def seek_dead(address, many, names):
    """So many hosts look for so many dead names each, in bursts, as long as the process lives."""
    seekers = [Seeker(address, [f"DEAD{it}:{n:02}" for n in range(names)], f"127.0.{2 + it // 200}.{it % 200 + 1}") for it in range(many)]
    while True:
        now = time.monotonic()
        for it in seekers:
            it.turn(now)
            it.gap = min(it.gap, 2.0)
        time.sleep(0.02)


class Dead:
    """Hosts that look for dead names in bursts, in a process of its own, until it is stopped."""

    def __init__(self, address, many, names):
        self.process = multiprocessing.get_context("spawn").Process(target=seek_dead, args=(address, many, names), daemon=True)
        self.process.start()

    def stop(self):
        self.process.kill()
        self.process.join()


def back_after(room, server, up, client, names):
    """How soon a client has its channels again once their server listens again."""
    up.stop()
    room.eventually("the server is gone", lambda: server.has_logged("upstream 1", "lost"))
    server.logged.clear()
    time.sleep(2)
    up.start()
    seeker = Seeker(server.address, names, "127.0.9.1")
    server.write("connect 1")
    took = seek([seeker], 120)
    seeker.close()
    return took


def bursts(room):
    names = live("LIVE", 1000)
    took = {}
    for dead in (0, 200):
        up = room.upstream(*(variable(it, values=[1]) for it in names))
        server = room.server(up, options=("--site",))
        found(server.address, names, "127.0.9.1")
        client = room.client(server)
        for it in names:
            client.open(it)
        beside = Dead(server.address, dead, 60) if dead else None
        if beside:
            time.sleep(15)
        took[dead] = min(back_after(room, server, up, client, names) for _ in range(3))
        if beside:
            beside.stop()
        server.kill()
    print(f"bursts: 1,000 names found again {milliseconds(took[0])} after their server listens, {milliseconds(took[200])} beside 200 hosts with 60 dead names each", flush=True)
    room.check("as soon as without dead names, within a fifth", took[200] <= 1.2 * took[0], took)


def beside_random_names(room, label, datagrams, each):
    """How soon a live name is found while one host sends so many datagrams a second, of so many random names each."""
    names = live("LIVE", 10)
    up = room.upstream(*(variable(it, values=[1]) for it in names))
    server = room.server(up, options=("--site",))
    over = threading.Event()
    link = socket.socket(socket.AF_INET, socket.SOCK_DGRAM)
    link.bind(("127.0.4.1", 0))

    def flood():
        draw, sent, began = random.Random(1), 0, time.monotonic()
        while not over.is_set():
            while sent < (time.monotonic() - began) * datagrams:
                link.sendto(VERSION + b"".join(ca.search(f"R{draw.randrange(10**6):06}", it) for it in range(each)), server.address)
                sent += 1
            over.wait(0.001)
    thread = threading.Thread(target=flood, daemon=True)
    thread.start()
    took = []
    time.sleep(15)
    for it in names:
        time.sleep(0.73)
        took.append(found(server.address, [it], "127.0.5.1"))
    over.set()
    thread.join()
    print(f"{label}: a new live name is found after {milliseconds(statistics.median(took))}, at most {milliseconds(max(took))}, beside "
          f"{datagrams:,} datagrams a second of one host with {each:,} random names each", flush=True)
    room.check("a new name is found within 0.2 s", max(took) <= 0.2, took)


def random_names(room):
    beside_random_names(room, "random", 3, 2_000)


def short(room):
    beside_random_names(room, "short", 1_000, 30)


def channels(address, names, source):
    """How soon a client that looks for names has a channel on each."""
    began = time.monotonic()
    seeker = Seeker(address, names, source)
    took = seek([seeker], 60)
    seeker.close()
    if took is None:
        return None
    link = socket.create_connection(address)
    link.sendall(VERSION + b"".join(ca.create(name, cid) for cid, name in enumerate(names)))
    made, text = 0, b""
    while made < len(names):
        piece = link.recv(65_536)
        if not piece:
            return None
        text += piece
        while len(text) >= 16:
            command, size = struct.unpack(">HH", text[:4])
            if len(text) < 16 + size:
                break
            made += command in (18, 26)
            text = text[16 + size:]
    link.close()
    return time.monotonic() - began


def ioc(names):
    """A server in a process of its own: its process and its address."""
    code = ("import sys; sys.path[:0] = sys.argv[1:3]; import served; from served.upstream import Upstream; from served.room import variable, text_of;"
            "up = Upstream([variable(it, values=[1]) for it in sys.argv[3].split()]); print(text_of(up.address), flush=True); up.thread.join()")
    process = subprocess.Popen([sys.executable, "-c", code, os.path.join(common.ROOT, ".ci"), os.path.join(common.ROOT, "examples"), " ".join(names)],
                               stdout=subprocess.PIPE)
    host, _, port = process.stdout.readline().decode().strip().rpartition(":")
    return process, (host, int(port))


class Apart:
    """A server of another process."""

    def __init__(self, room, names):
        self.process, self.address = ioc(names)
        room.started.append(self.process.kill)


def cold(room):
    names = live("COLD", 1000)
    direct, through = [], []
    for _ in range(3):
        up = Apart(room, names)
        direct.append(channels(up.address, names, "127.0.6.1"))
        server = room.server(up, options=("--site",))
        through.append(channels(server.address, names, "127.0.6.1"))
        server.kill()
        up.process.kill()
    print(f"cold: 1,000 channels after {milliseconds(min(direct))} from the server, after {milliseconds(min(through))} from the gateway", flush=True)
    room.check("1,000 cold names within 0.35 s", min(through) <= 0.35, through)


def away(room):
    names = live("AWAY", 10)
    took = {}
    for options in (("--forget", "3600"), ("--forget", "20")):
        up = room.upstream(*(variable(it, values=[1]) for it in names))
        server = room.server(up, options=("--site", "--reconnect", "1", *options))
        found(server.address, names, "127.0.7.1")
        up.stop()
        seeker = Seeker(server.address, names, "127.0.7.1")
        began = time.monotonic()
        threading.Timer(90, up.start).start()
        seek([seeker], 180)
        took[options[1]] = time.monotonic() - began - 90
        seeker.close()
        server.kill()
    print(f"away: ten names found {milliseconds(took['20'])} after their server listens again with --forget 20, {milliseconds(took['3600'])} without ageing", flush=True)
    room.check("as soon as without ageing", took["20"] <= 1.2 * took["3600"] + 1, took)


def stopped(room):
    up = Apart(room, ["V"])
    server = room.server(up, options=("--site", "--reconnect", "1"))
    found(server.address, ["V"], "127.0.8.1")
    client = room.client(server)
    channel = client.open("V")
    os.kill(up.process.pid, signal.SIGSTOP)
    began = time.monotonic()
    told = client.answer(ca.SERVER_DISCONN, "p1", channel.cid, 60)
    took = time.monotonic() - began if told else None
    os.kill(up.process.pid, signal.SIGCONT)
    again = found(server.address, ["V"], "127.0.8.1")
    print(f"stopped: a client is told {milliseconds(took)} after its server stopped, and finds it {milliseconds(again)} after it goes on", flush=True)
    room.check("told after 20 to 26 s", took is not None and 15 <= took <= 26, took)
    room.check("it is found again", again is not None)


def vanished(room):
    up = room.upstream(variable("V", values=[1]))
    server = room.server(up, options=("--site", "--clients-of-host", "1024"))
    links = [socket.create_connection(server.address) for _ in range(1024)]
    for it in links:
        it.sendall(VERSION)
    began = time.monotonic()
    room.eventually("they are connected", lambda: server.files() > 1024)
    poll = select.poll()
    for it in links:
        poll.register(it, select.POLLRDHUP | select.POLLHUP)
    gone = set()
    while len(gone) < 1024 and time.monotonic() - began < 120:
        for number, _ in poll.poll(1000):
            gone.add(number)
            poll.unregister(number)
    took = time.monotonic() - began
    print(f"vanished: {len(gone)} of 1,024 seats are free after {took:.0f} s", flush=True)
    room.check("all seats are free within 75 s", len(gone) == 1024 and took <= 75, f"{len(gone)}, {took:.0f} s")


PARTS = {"hosts": hosts, "bursts": bursts, "random": random_names, "short": short, "cold": cold, "away": away, "stopped": stopped, "vanished": vanished}


def main():
    given = common.parser(__doc__, PARTS).parse_args()
    return common.run("site", common.built(given.program), common.chosen(PARTS, given.words))


if __name__ == "__main__":
    sys.exit(main())
