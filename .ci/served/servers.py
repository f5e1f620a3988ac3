"""Servers that go, come back, or aren't there."""
import socket
import time

import ca_wire as ca
from served.room import text_of, variable

SYN_SENT = "02"
AT_ONCE = 32


def losing(room):
    up = room.upstream(variable("V", values=[1]), variable("W", values=[2]))
    up.statuses["W"] = None
    server = room.server(up)
    client, other = room.client(server), room.client(server)
    one, two = client.open("V"), client.open("W")
    also = other.open("V")
    own = client.watch(one)
    room.equal("subscribed", client.update(own), [1])
    waits = client.start_write(two, [5])
    room.eventually("the write is on its way", lambda: len(up.writes) == 1)
    up.stop()
    gone = [client.take(lambda it: it.command == ca.SERVER_DISCONN).p1 for _ in range(2)]
    room.equal("SERVER_DISCONN for each channel, in order", gone, [one.cid, two.cid])
    room.check("for the other client too", other.answer(ca.SERVER_DISCONN, "p1", also.cid) is not None)
    room.check("no reply for the write that waited", client.echo() and not any(it.p2 == waits for it in client.inbox))
    room.check("a channel can't be made meanwhile", client.try_open("V") is None)
    client.send(ca.message(ca.READ_NOTIFY, b"", ca.LONG, 1, one.sid, 1))
    room.equal("the channel is gone", client.error(), ca.BADCHID)
    room.eventually("the loss is logged, with what to write", lambda: server.has_logged("upstream 1", "lost", "connect 1"))
    server.write("connect 1")
    room.eventually("a server that isn't there is logged", lambda: server.has_logged("upstream 1", "reached"))
    back(room, up, server, client)


def back(room, up, server, client):
    up.statuses.clear()
    for way in ("stopped", "its connection reset"):
        up.start() if way == "stopped" else up.cut_connections()
        # The loss of a connection may be known later than the next line is read.
        room.eventually(f"connected again, {way}", lambda: server.write("connect 1") or up.count_clients() == 1)
        channel = client.open("V")
        room.equal(f"read again, {way}", channel and client.values(channel), [1])
        own = client.watch(channel)
        room.equal(f"subscribed again, {way}", client.update(own), [1])
        room.equal(f"written again, {way}", client.write(channel, [1]), ca.NORMAL)
    up.disconnect("V")
    room.check("a server drops one channel", client.take(lambda it: it.command == ca.SERVER_DISCONN and it.p1 == channel.cid) is not None)
    room.check("and it is made again", client.open("V") is not None)
    room.equal("quit", server.quit(), 0)


class Deaf:
    """A server that never completes a connection, since its queue of them is full."""

    def __init__(self, room):
        self.listener = socket.create_server(("127.0.0.1", 0), backlog=0)
        self.address = self.listener.getsockname()
        self.waiting = [socket.socket() for _ in range(4)]
        for it in self.waiting:
            it.setblocking(False)
            it.connect_ex(self.address)
        room.started.append(lambda: [it.close() for it in (self.listener, *self.waiting)])


def unanswered(room):
    """Nobody waits for a server that doesn't complete a connection."""
    up = room.upstream(variable("V", values=[1]))
    server = room.server(Deaf(room), up)
    client = room.client(server)
    channel = client.open("V")
    room.equal("the other server is there", channel and client.values(channel), [1])
    room.check("the connection isn't made", not server.has_logged("upstream 1"))
    server.write("connect 1", "connect 1", "ask")
    room.check("and all goes on", client.echo())
    began = time.monotonic()
    room.equal("quit", server.quit(), 0)
    room.check("it doesn't wait for the connection", time.monotonic() - began < 20)


def several(room):
    """Three servers, one of which isn't there at first."""
    late = room.upstream(variable("LATE", values=[3]))
    late.stop()
    one, other = (room.upstream(variable(name, values=[value]), variable("BOTH", values=[1])) for name, value in (("A", 1), ("B", 2)))
    ups = [one, late, other]
    server = room.server(*ups)
    room.eventually("the one that isn't there is logged", lambda: server.has_logged("upstream 2", "connect 2"))
    client = room.client(server)
    a, b, both = (client.open(name) for name in ("A", "B", "BOTH"))
    room.equal("each has its values", [client.values(it) for it in (a, b, both)], [[1], [2], [1]])
    room.equal("a name of two servers has one channel", sum(it[3].name == "BOTH" for up in ups for it in up.channels), 1)
    late.start()
    room.check("the late one isn't connected by itself", client.open("LATE", 1) is None)
    server.write("connect 2")
    channel = client.open("LATE")
    room.equal("it is after a line", channel and client.values(channel), [3])
    ups[0].stop()
    gone = client.take(lambda it: it.command == ca.SERVER_DISCONN and it.p1 == a.cid)
    room.check("one server goes, its channels go", gone is not None)
    room.equal("the others stay", [client.values(b), client.values(channel)], [[2], [3]])
    again = client.open("BOTH")
    room.equal("a name of both is found at the other", again and client.values(again), [1])


def being_made(port):
    """How many connections to this port are being made."""
    with open("/proc/net/tcp") as file:
        rows = [line.split()[2:4] for line in file.readlines()[1:]]
    return sum(state == SYN_SENT and peer.endswith(f":{port:04X}") for peer, state in rows)


def connecting(room):
    """Of servers that say nothing at all few are connected to at once, and none for long, so others come soon."""
    up = room.upstream(variable("A", values=[1]))
    with socket.create_server(("127.0.0.1", 0), backlog=0) as mute, socket.create_connection(mute.getsockname()):
        server = room.server(*[At(mute.getsockname())] * 2 * AT_ONCE, up, options=("--servers", "100", "--reconnect", "1"))
        seen, began = [], time.monotonic()
        room.eventually("the last one is connected to", lambda: seen.append(being_made(mute.getsockname()[1])) or server.has_logged("INFO", f"upstream {2 * AT_ONCE + 1} ({text_of(up.address)}) connected"))
        room.check("after two times five seconds", time.monotonic() - began < 30, time.monotonic() - began)
        room.equal("so many were connected to at once", max(seen), AT_ONCE)
        client = room.client(server)
        room.check("a channel", client.open("A"))
        room.equal("quit", server.quit(), 0)


class At:
    """A server that is there no further."""

    def __init__(self, address):
        self.address = address
