"""Clients that write, or subscribe and cancel, faster than a server reads: it stays everybody's, and nobody else waits."""
import queue
import threading
import time

import ca_wire as ca
from served.room import PATIENCE, variable
from served.upstream import Upstream

MANY = 40_000  # more than twice as many as cut a server off
SIZE = 100  # elements of 4 bytes, so that the system's buffers hold few of the writes
PAUSE = 0.0002  # seconds that the slow server takes for a write
MOST_ECHO = 0.5  # seconds; some milliseconds on an idle machine
FLIPS = 500  # subscriptions and their cancels that are sent at once


class Slow(Upstream):
    """It takes its time for each write."""

    def written(self, client, it, own):
        time.sleep(PAUSE)
        return super().written(client, it, own)


def slow(room, *variables):
    it = Slow(variables)
    room.started.append(it.stop)
    return it


class Writer:
    """A thread that sends so many writes at once, of ones, twos and so on, and waits for whoever reads."""

    def __init__(self, client, channel, many):
        self.client = client
        self.text = b"".join(ca.message(ca.WRITE, ca.elements(5, [it + 1] * SIZE), 5, SIZE, channel.sid, 0) for it in range(many))
        self.thread = threading.Thread(target=self.send, daemon=True)
        self.thread.start()

    def send(self):
        try:
            self.client.send(self.text)
        except OSError:
            pass


def longest_echo(client, is_over):
    """The longest that an ECHO takes, in seconds, until it is over."""
    longest = 0.0
    while not is_over():
        began = time.monotonic()
        client.echo()
        longest = max(longest, time.monotonic() - began)
        time.sleep(0.01)
    return longest


def holding(room):
    """All writes of one who writes too fast arrive, in order, and the server isn't cut off."""
    up = slow(room, variable("V", values=[0] * SIZE), variable("W", values=[7]))
    server = room.server(up)
    writer, other = room.client(server), room.client(server)
    channel, own = writer.open("V"), other.open("W")
    room.equal("another client reads", other.values(own), [7])
    before = server.resident()
    Writer(writer, channel, MANY)
    longest = longest_echo(other, lambda: len(up.writes) >= MANY or server.has_logged("upstream 1", "lost"))
    room.check("another client's ECHO comes meanwhile", longest < MOST_ECHO, f"{longest:.3f} s")
    room.equal("all writes arrive", len(up.writes), MANY)
    sent = [int.from_bytes(payload[:4], "big") for name, _, _, payload in up.writes if name == "V"]
    room.check("in order", sent == list(range(1, MANY + 1)))
    room.check("the server isn't cut off", not server.has_logged("upstream 1", "cut off") and up.count_clients() == 1)
    room.check("its memory", server.resident() < before + 64, f"{server.resident() - before:.0f} MB more")
    room.check("the writer goes on", writer.echo())
    room.equal("quit", server.quit(), 0)


def is_held(client, channel):
    """Sends some writes, and says whether the ECHO behind them isn't answered for a while."""
    own = client.number()
    writes = ca.message(ca.WRITE, ca.elements(5, [1] * SIZE), 5, SIZE, channel.sid, 0) * 50
    client.send(writes + ca.message(ca.ECHO, b"", 0, 0, own, 0))
    try:
        return client.answer(ca.ECHO, "p1", own, 2.0) is None
    except TimeoutError:
        return True


def leaving_held(room):
    """Who is held by a server that reads nothing may leave, and others go on."""
    up, beside = room.upstream(variable("V", values=[0] * SIZE)), room.upstream(variable("W", values=[7]))
    server = room.server(up, beside)
    writer, other = room.client(server), room.client(server)
    channel, own = writer.open("V"), other.open("W")
    room.check("both have channels", channel is not None and own is not None)
    stays, awake = threading.Event(), queue.Queue()
    up.calls.put((stays.wait, awake))
    up.button.send(b"x")
    room.eventually("who writes is held", lambda: is_held(writer, channel))
    room.equal("another client reads from another server", other.values(own), [7])
    name = f"({writer.socket.getsockname()[0]}:{writer.socket.getsockname()[1]})"
    writer.close()
    room.eventually("its end is heard", lambda: server.has_logged("client", name, "gone"))
    room.check("another client goes on", other.echo() and other.values(own) == [7])
    room.check("the server isn't cut off", not server.has_logged("upstream 1", "cut off"))
    stays.set()
    awake.get(timeout=60)
    third = room.client(server)
    room.check("the server serves once it reads", third.open("V") is not None)
    room.equal("quit", server.quit(), 0)


class Flipper:
    """Two threads of a client: one subscribes and cancels again and again until it is stopped, the other takes what comes."""

    def __init__(self, client, channel):
        self.client, self.sending = client, client.socket.dup()
        cancel = ca.message(ca.EVENT_CANCEL, b"", channel.base, 0, channel.sid, 1)
        self.text = (ca.subscribe(channel.sid, 1, channel.base) + cancel) * FLIPS
        self.flips, self.goes_on = 0, True
        self.threads = [threading.Thread(target=it, daemon=True) for it in (self.send, self.hear)]
        for it in self.threads:
            it.start()

    def send(self):
        self.sending.settimeout(PATIENCE)
        try:
            while self.goes_on:
                self.sending.sendall(self.text)
                self.flips += FLIPS
        except OSError:
            pass

    def hear(self):
        while self.threads[0].is_alive() and not self.client.ended:
            self.client.fill(0.1)
            self.client.inbox.clear()

    def stands(self):
        """Whether it is sent no further for a while."""
        before = self.flips
        time.sleep(1)
        return self.flips == before

    def stop(self):
        self.goes_on = False
        for it in self.threads:
            it.join(PATIENCE)
        self.sending.close()


def flipping(room):
    """Who subscribes and cancels faster than a server reads has it not cut off, and is held alone."""
    up, beside = room.upstream(variable("V")), room.upstream(variable("W", values=[7]))
    server = room.server(up, beside)
    client, other = room.client(server), room.client(server)
    channel, own = client.open("V"), other.open("W")
    room.check("both have channels", channel is not None and own is not None)
    stays, awake = threading.Event(), queue.Queue()
    up.calls.put((stays.wait, awake))
    up.button.send(b"x")
    flipper = Flipper(client, channel)
    room.eventually("who flips is held", lambda: flipper.stands() or server.has_logged("upstream 1", "cut off"))
    room.check("another client is served by another server", other.echo() and other.values(own) == [7])
    held = flipper.flips
    stays.set()
    awake.get(timeout=PATIENCE)
    room.eventually("it goes on once the server reads", lambda: flipper.flips >= held + 20 * FLIPS)
    room.check("and others with it", other.echo() and other.values(own) == [7])
    flipper.stop()
    room.check("the server isn't cut off", not server.has_logged("upstream 1", "cut off") and up.count_clients() == 1)
    last = client.watch(channel)
    room.equal("its last subscription is told the value", client.update(last), [0])
    room.equal("the server has it alone", len(up.subscriptions("V")), 1)
    room.equal("quit", server.quit(), 0)
