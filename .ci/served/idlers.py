"""Clients that say little, nothing, or less than they announced, and one that comes and goes without end."""
import socket
import struct
import threading
import time

import ca_wire as ca
from served.room import PATIENCE, variable

SLOW = ca.message(ca.ECHO, bytes(64))  # 80 bytes, of which a few come in a story
ANNOUNCED = (1 << 24, 1 << 20)  # bytes of payload: the most that some version takes
HELD = 4096  # bytes of it that come
STALL = 5  # seconds that no answer takes, on a machine that does other work too


class Watcher:
    """A client that does as it should, in a thread of its own: one ECHO after the other, and the seconds that each took."""

    def __init__(self, room, server):
        self.client, self.trips, self.goes = room.client(server), [], True
        self.is_well = self.client.echo()
        self.thread = threading.Thread(target=self.run, daemon=True)
        self.thread.start()

    def run(self):
        try:
            while self.goes and self.is_well:
                began = time.monotonic()
                self.is_well = self.client.echo()
                self.trips.append(time.monotonic() - began)
                time.sleep(0.01)
        except OSError:
            self.is_well = False

    def stop(self):
        """Whether it was served all the while, and what took longest."""
        self.goes = False
        self.thread.join(PATIENCE)
        self.client.close()
        return self.is_well and bool(self.trips), max(self.trips, default=0)


def was_served(room, watcher):
    is_well, longest = watcher.stop()
    room.check("another client is served all the while", is_well and longest < STALL, f"{longest:.2f} s")


def connected(room, server, many):
    """So many connections, greeted in bunches, since the system's queue of connections is short."""
    links = []
    room.started.append(lambda: [it.close() for it in links])
    for at in range(many):
        links.append(socket.create_connection(server.address, timeout=PATIENCE))
        if at % 64 == 63 or at == many - 1:
            for link in links[at // 64 * 64:]:
                take(link, 16)
    return links


def take(link, size):
    """So many bytes, or those until the stream ends."""
    data = b""
    while len(data) < size:
        piece = link.recv(size - len(data))
        if not piece:
            break
        data += piece
    return data


def threads(server):
    with open(f"/proc/{server.process.pid}/status") as file:
        return next(int(line.split()[1]) for line in file if line.startswith("Threads:"))


def idling(room):
    """200 clients that say nothing, 200 that send a byte at a time, 100 that ended their sending, and one that is served all the while."""
    up = room.upstream(variable("V", values=[0]))
    server = room.server(up)
    good = room.client(server)
    own = good.watch(good.open("V"))
    room.equal("subscribed", good.update(own), [0])
    files, running, resident = server.files(), threads(server), server.resident()
    watcher = Watcher(room, server)
    silent, slow, halved = (connected(room, server, many) for many in (200, 200, 100))
    for link in halved:
        link.shutdown(socket.SHUT_WR)
    for at, byte in enumerate(SLOW[:6], 1):
        for link in slow:
            link.sendall(bytes([byte]))
        up.give("V", [at])
        time.sleep(1)
    room.equal("each value comes beside them", good.updates_until(own, [6]), [[it] for it in range(1, 7)])
    room.check("who ended its sending is gone", all(take(link, 1) == b"" for link in halved))
    room.check("memory of 500 of them", server.resident() - resident < 60, f"{server.resident() - resident:.0f} MB")
    for link in slow:
        link.sendall(SLOW[6:])
    room.check("a slow one is answered at its end", all(take(link, len(SLOW)) == SLOW for link in slow))
    was_served(room, watcher)
    for link in (*silent, *slow, *halved):
        link.close()
    room.eventually("descriptors and threads are back", lambda: server.files() <= files and threads(server) <= running)
    room.equal("quit", server.quit(), 0)


def most_announced(room, server):
    """The most that this version takes: more ends the connection."""
    for size in ANNOUNCED:
        link = connected(room, server, 1)[0]
        link.sendall(struct.pack(">HHHHIIII", ca.ECHO, 0xFFFF, 0, 0, 0, 0, size, 0))
        link.settimeout(3)
        try:
            ended = take(link, 1) == b""
        except TimeoutError:
            ended = False
        link.close()
        if not ended:
            return size
    return None


def announcing(room):
    """1,000 clients that announce as much as they may, and send little of it: what is held is what came."""
    server = room.server(room.upstream(variable("V", values=[0])))
    good = room.client(server)
    channel = good.open("V")
    size, files = most_announced(room, server), server.files()
    links = connected(room, server, 1000)
    before = server.resident()
    for link in links:
        link.sendall(struct.pack(">HHHHIIII", ca.ECHO, 0xFFFF, 0, 0, 0, 0, size, 0))
    room.check("the others go on", good.values(channel) == [0] and good.echo())
    announced = server.resident() - before
    room.check(f"1,000 that announced {size} bytes", announced < 20, f"{announced:.1f} MB more")
    for link in links:
        link.sendall(bytes(HELD))
    room.check("and go on", good.values(channel) == [0] and good.echo())
    time.sleep(1)
    held = server.resident() - before
    room.check(f"1,000 that sent {HELD} bytes of it", held < 40, f"{held:.1f} MB more")
    for link in links:
        link.close()
    room.eventually("the descriptors are back", lambda: server.files() <= files)
    room.check("the server is well", good.values(channel) == [0])
    room.equal("quit", server.quit(), 0)


def come_and_go(address, many):
    """So many connections, one after the other: reset, closed, greeted first, or in the middle of a message."""
    hello = ca.greeting() + ca.create("V", 1) + ca.message(ca.ECHO)
    for at in range(many):
        with socket.create_connection(address, timeout=PATIENCE) as link:
            if at % 4:
                link.setsockopt(socket.SOL_SOCKET, socket.SO_LINGER, struct.pack("ii", 1, 0))
            if at % 3 == 1:
                link.sendall(hello[:at % len(hello)])
            elif at % 3 == 2:
                link.sendall(hello)
                take(link, 16)


def coming(room, many=10_000):
    """A client that opens and closes 10,000 connections leaves nothing behind."""
    up = room.upstream(variable("V", values=[0]))
    server = room.server(up)
    good = room.client(server)
    good.open("V")
    come_and_go(server.address, 200)
    watcher = Watcher(room, server)
    room.eventually("the first are gone", lambda: up.count_clients() == 1 and server.files() < 40)
    files, running, resident = server.files(), threads(server), server.resident()
    come_and_go(server.address, many)
    was_served(room, watcher)
    room.eventually("descriptors and threads are back", lambda: server.files() <= files and threads(server) <= running)
    grown = server.resident() - resident
    room.check("and so is memory", grown < 10, f"{grown:.1f} MB more")
    room.equal("quit", server.quit(), 0)
