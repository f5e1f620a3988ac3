"""Clients that ask for, or write, much more than anybody reads: they are held, what waits for them stays small, and others go on."""
import queue
import socket
import threading
import time

import ca_wire as ca
from served.room import PATIENCE, variable
from served.upstream import Upstream

LARGE = 500_000  # elements of 4 bytes
READS = 1_000  # of which each is answered with a payload of its own
LARGEST = (16 << 20) - 64  # bytes of a payload; a variable that could be told in none with a time stamp isn't connected
WRITES = 40
MOST_MEMORY = 300  # MB; some 100 as it is
PLAIN_STATUS = ca.STS + ca.LONG


def two(room):
    """A gateway before two servers, with a large array and a little value; its two clients, and their channels on these."""
    up, beside = room.upstream(variable("V", values=[0] * LARGE)), room.upstream(variable("W", values=[7]))
    server = room.server(up, beside)
    reader, other = room.client(server), room.client(server)
    channel, own = reader.open("V"), other.open("W")
    room.equal("the array is read once", len(reader.read(channel).payload), 4 * LARGE)
    return server, reader, other, channel, own


def ask_ahead(client, channel):
    """Asks for the array many times, for one element less at every other: no two answers have the same bytes. Says which come."""
    owns = [client.number() for _ in range(READS)]
    client.send(*(ca.message(ca.READ_NOTIFY, b"", PLAIN_STATUS, LARGE - own % 2, channel.sid, own) for own in owns))
    return owns


def largest(server, seconds):
    """The most memory that it has in the next seconds, in MB."""
    found, until = 0.0, time.monotonic() + seconds
    while time.monotonic() < until:
        found = max(found, server.resident())
        time.sleep(0.02)
    return found


def served_on(room, server, other, own):
    """Others go on, and little waits."""
    memory = largest(server, 3)
    room.check("the memory", memory < MOST_MEMORY, f"{memory:.0f} MB")
    room.check("another client is served", other.echo() and other.values(own) == [7])


def reading_ahead(room):
    """Who asks for a large array 1,000 times and doesn't read is held; once it reads, it gets each answer, in order."""
    server, reader, other, channel, own = two(room)
    owns = ask_ahead(reader, channel)
    served_on(room, server, other, own)
    wrong = 0
    for number in owns:
        it = reader.take(lambda it: it.command == ca.READ_NOTIFY)
        wrong += it is None or (it.p2, it.count) != (number, LARGE - number % 2)
    room.equal("each answer comes in its turn", wrong, 0)
    room.check("who asked goes on", reader.echo())
    room.equal("quit", server.quit(), 0)


def reading_and_leaving(room):
    """Who asks so and leaves is gone, with all that waits for it."""
    server, reader, other, channel, own = two(room)
    ask_ahead(reader, channel)
    served_on(room, server, other, own)
    name = f"({reader.socket.getsockname()[0]}:{reader.socket.getsockname()[1]})"
    reader.close()
    room.eventually("its end is heard", lambda: server.has_logged("client", name, "gone"))
    served_on(room, server, other, own)
    room.equal("quit", server.quit(), 0)


class Sink(Upstream):
    """It counts writes, and keeps none."""

    counted = 0

    def written(self, client, it, own):
        self.counted += len(it.payload) == LARGEST
        return ca.NORMAL


def writing_ahead(room):
    """Who writes the largest payloads to a server that stops reading is held; once it reads, each arrives."""
    up, beside = Sink([variable("V", count=LARGEST // 4)]), room.upstream(variable("W", values=[7]))
    room.started.append(up.stop)
    server = room.server(up, beside)
    writer, other = room.client(server), room.client(server)
    channel, own = writer.open("V"), other.open("W")
    room.check("both have channels", channel is not None and own is not None)
    stays, awake = threading.Event(), queue.Queue()
    up.calls.put((stays.wait, awake))
    up.button.send(b"x")
    text = ca.message(ca.WRITE, bytes(LARGEST), ca.LONG, LARGEST // 4, channel.sid, 0)
    writing = threading.Thread(target=lambda: [writer.send(text) for _ in range(WRITES)], daemon=True)
    writing.start()
    served_on(room, server, other, own)
    stays.set()
    awake.get(timeout=PATIENCE)
    writing.join(PATIENCE)
    room.eventually("each write arrives", lambda: up.counted == WRITES)
    room.check("the server isn't cut off", not server.has_logged("upstream 1", "cut off"))
    room.check("who wrote goes on", writer.echo())
    room.equal("quit", server.quit(), 0)


def write_on(client, text):
    """Writes until it can't."""
    try:
        for _ in range(WRITES):
            client.send(text)
    except OSError:
        pass


def speak(link, is_over):
    """Sends what says nothing, so that its gateway takes the server for alive."""
    while not is_over.wait(0.2):
        link.send(ca.message(ca.ECHO, b"", 0, 0, 0, 0))


def leaving_ahead(room):
    """Who writes so to a server that never reads, and leaves, is cut off for its silence, and its end is heard."""
    up = Sink([variable("V", count=LARGEST // 4)])
    room.started.append(up.stop)
    server = room.server(up, options=("--alive", "1"))
    writer = room.client(server)
    channel = writer.open("V")
    stays, awake = threading.Event(), queue.Queue()
    threading.Thread(target=speak, args=(up.channels[0][0].link, stays), daemon=True).start()
    up.calls.put((stays.wait, awake))
    up.button.send(b"x")
    text = ca.message(ca.WRITE, bytes(LARGEST), ca.LONG, LARGEST // 4, channel.sid, 0)
    writing = threading.Thread(target=write_on, args=(writer, text), daemon=True)
    writing.start()
    writing.join(3)
    room.check("who writes is held", writing.is_alive())
    name = f"({writer.socket.getsockname()[0]}:{writer.socket.getsockname()[1]})"
    writer.socket.shutdown(socket.SHUT_RDWR)
    writing.join(PATIENCE)
    writer.close()
    room.eventually("it is cut off", lambda: server.has_logged("client 1", name, "cut off: nothing came from it or went to it for 4 s"))
    after = room.client(server)
    name = f"({after.socket.getsockname()[0]}:{after.socket.getsockname()[1]})"
    room.check("its number is free", after.echo() and server.has_logged("client 1", name, "connected"))
    room.check("the server isn't cut off", not server.has_logged("upstream 1", "cut off"))
    stays.set()
    awake.get(timeout=PATIENCE)
    room.equal("quit", server.quit(), 0)
