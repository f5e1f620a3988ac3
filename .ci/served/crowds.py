"""Many clients, few descriptors, clients that never read, and an end under all that."""
import resource
import selectors
import socket
import threading
import time

import ca_wire as ca
from served.room import PATIENCE, variable

MOST = 1024


class Crowd:
    """Many connections that do little, each with a list of what it got."""

    def __init__(self, address, many):
        self.links = []
        self.frames, self.got, self.ended = {}, {}, set()
        self.selector = selectors.DefaultSelector()
        for at in range(many):
            if at % 64 == 0:  # the system's queue of connections is short
                self.until(has(ca.VERSION))
            link = socket.create_connection(address, timeout=PATIENCE)
            link.setblocking(False)
            self.links.append(link)
            self.frames[link], self.got[link] = ca.Frames(), []
            self.selector.register(link, selectors.EVENT_READ)

    def listen(self, seconds):
        for key, _ in self.selector.select(seconds):
            link = key.fileobj
            try:
                piece = link.recv(1 << 16)
            except ConnectionError:
                piece = b""
            if piece:
                self.got[link] += self.frames[link].feed(piece)
            else:
                self.ended.add(link)
                self.selector.unregister(link)

    def until(self, test):
        """Listens until the test is true of what each connection got; says whether it came true of all."""
        until = time.monotonic() + PATIENCE
        while not all(test(self.got[link]) for link in self.links):
            if time.monotonic() > until:
                return False
            self.listen(0.1)
        return True

    def send(self, data):
        for link in self.links:
            link.sendall(data)

    def close(self):
        for link in self.links:
            link.close()
        self.selector.close()


def has(command, many=1):
    return lambda got: sum(it.command == command for it in got) >= many


def thousand(room):
    many = min(MOST, resource.getrlimit(resource.RLIMIT_NOFILE)[1] - 100)
    up = room.upstream(variable("V", values=[1]))
    server = room.server(up)
    first = room.client(server)
    first.open("V")
    files = server.files()
    crowd = Crowd(server.address, many - 1)
    room.started.append(crowd.close)
    room.check("all are greeted", crowd.until(has(ca.VERSION)))
    if many == MOST:
        too_many = room.client(server)
        room.check("one more is refused", too_many.take(lambda it: it.command == ca.VERSION) is None)
    crowd.send(ca.greeting() + ca.create("V", 1))
    room.check("all have a channel", crowd.until(has(ca.CREATE_CHAN)))
    for link in crowd.links:
        made = next(it for it in crowd.got[link] if it.command == ca.CREATE_CHAN)
        link.sendall(ca.subscribe(made.p2, 1, ca.LONG))
    room.check("all have the value", crowd.until(has(ca.EVENT_ADD)))
    up.give("V", [2])
    room.check("all have the update", crowd.until(has(ca.EVENT_ADD, 2)))
    room.equal("one subscription upstream", len(up.subscriptions("V")), 1)
    room.check("memory of a thousand clients", server.resident() < 200, f"{server.resident():.0f} MB")
    room.check("nobody was cut off", not crowd.ended)
    crowd.close()
    room.eventually("the descriptors are back", lambda: server.files() <= files)
    again = room.client(server)
    room.check("there is room again", again.open("V") is not None and first.echo())
    room.equal("quit", server.quit(), 0)


def descriptors(room):
    """Clients that come when only those kept for servers are left are refused, nothing spins, and what is closed makes room."""
    up = room.upstream(variable("V", values=[1]))
    server = room.server(up, most_files=40)
    first = room.client(server)
    channel = first.open("V")
    links = [socket.create_connection(server.address, timeout=PATIENCE) for _ in range(80)]
    room.started.append(lambda: [it.close() for it in links])
    room.eventually("the descriptors of clients are used up", lambda: server.has_logged("refused: no descriptors are free"))
    room.check("and no others", server.files() <= 34, server.files())
    began, busy = time.monotonic(), server.processor()
    time.sleep(2)
    spent, share = server.processor() - busy, time.monotonic() - began
    room.check("it doesn't spin", spent < share / 2, f"{spent:.2f} s of {share:.2f} s")
    room.check("who is there is served", first.echo() and first.values(channel) == [1])
    for link in links:
        link.close()
    room.eventually("their descriptors are free", lambda: server.files() <= 16)
    room.eventually("then there is room", lambda: room.admitted(server) is not None)
    after = room.client(server)
    again = after.open("V")
    room.equal("who comes then is served", again and after.values(again), [1])
    server.write("reload", "ask")
    room.check("and all goes on", after.echo())
    room.equal("quit", server.quit(), 0)


class Flood:
    """Gives a variable new values as fast as it can, in a thread, until it is stopped."""

    def __init__(self, up, name, count=1):
        self.up, self.name, self.count, self.value, self.goes = up, name, count, 0, True
        self.thread = threading.Thread(target=self.run, daemon=True)
        self.thread.start()

    def run(self):
        while self.goes:
            self.up.do(self.some)

    def some(self):
        for _ in range(20):
            self.value += 1
            self.up.set(self.name, [self.value] * self.count)

    def stop(self):
        self.goes = False
        self.thread.join(PATIENCE)


def never_reading(room):
    """A client that doesn't read is held back or cut off; another one gets each value, in order."""
    up = room.upstream(variable("V", values=[0] * 50), variable("W", values=[0]))
    server = room.server(up)
    reader, lazy = room.client(server), room.client(server)
    own = reader.watch(reader.open("V"), count=1)
    asleep = lazy.open("V")
    for _ in range(50):
        lazy.watch(asleep, ca.TIME + ca.LONG)
    room.equal("subscribed", reader.update(own), [0])
    flood = Flood(up, "V", 50)
    seen = [reader.update(own)[0] for _ in range(3000)]
    # What clients want together may change while the lazy one subscribes: a value comes anew then.
    room.check("the reader's values rise", all(one <= other for one, other in zip(seen, seen[1:])) and len(set(seen)) > 2900)
    room.check("memory beside one that never reads", server.resident() < 300, f"{server.resident():.0f} MB")
    flood.stop()
    up.give("V", [-1] * 50)
    room.equal("the last value comes", reader.updates_until(own, [-1])[-1], [-1])
    room.check("who never reads isn't cut off for that", not server.has_logged(f"127.0.0.1:{lazy.socket.getsockname()[1]})", "cut off"))
    echoes(room, server, lazy)
    room.check("the reader goes on", reader.echo())
    room.equal("quit", server.quit(), 0)


def echoes(room, server, lazy, most=16384, size=512):
    """More answers than may wait cut a client off."""
    port = lazy.socket.getsockname()[1]
    lazy.socket.settimeout(1)
    many, why = ca.message(ca.ECHO, bytes(size)) * 200, f"cut off: {most} messages waited for it"
    until = time.monotonic() + PATIENCE
    try:
        while time.monotonic() < until and not server.has_logged(f"127.0.0.1:{port})", why):
            try:
                lazy.socket.sendall(many)
            except TimeoutError:
                continue
    except ConnectionError:
        pass
    room.eventually(f"a client for which {most} messages wait is cut off", lambda: server.has_logged(f"127.0.0.1:{port})", why))


def never_reading_on_a_site(room):
    """It is told how many messages waited, which are more on a site."""
    server = room.server(room.upstream(variable("V")), options=("--site",))
    lazy = room.client(server)
    room.check("it is served", lazy.echo())
    echoes(room, server, lazy, 262144, 0)
    room.equal("quit", server.quit(), 0)


def quitting(room):
    """`quit` and the end of input, while values come in a flood and nobody reads."""
    for way in ("quit", "the end of input"):
        up = room.upstream(variable("V", values=[0] * 100))
        server = room.server(up)
        opener = room.client(server)
        opener.open("V")
        crowd = Crowd(server.address, 200)
        room.started.append(crowd.close)
        crowd.send(ca.greeting() + ca.create("V", 1))
        room.check(f"{way}: all have a channel", crowd.until(has(ca.CREATE_CHAN)))
        for link in crowd.links:
            made = next(it for it in crowd.got[link] if it.command == ca.CREATE_CHAN)
            link.sendall(ca.subscribe(made.p2, 1, ca.TIME + ca.LONG))
        flood = Flood(up, "V", 100)
        time.sleep(2)
        began = time.monotonic()
        if way == "quit":
            server.write("quit")
        else:
            server.process.stdin.close()
        room.equal(f"{way} ends it", server.status(), 0)
        room.check(f"{way} ends it soon", time.monotonic() - began < 20, f"{time.monotonic() - began:.2f} s")
        flood.stop()
        crowd.close()
        up.stop()


def open_all(crowd, asker, names):
    """Opens channels on these names for the one connection of a crowd, whose places are their CIDs: the SID of each."""
    link, = crowd.links
    made, asked = {}, 0
    while len(made) < len(names):
        left = [at for at in range(len(names)) if at not in made]
        for at in range(0, len(left), 400):
            asker.search(*(names[it] for it in left[at:at + 400]), sender=asker.caller)
            time.sleep(0.01)
        crowd.send(b"".join(ca.create(names[it], it) for it in left))
        asked += len(left)
        answers = (ca.CREATE_CHAN, ca.CREATE_CH_FAIL)
        if not crowd.until(lambda got: sum(it.command in answers for it in got) >= asked):
            return made
        made = {it.p1: it.p2 for it in crowd.got[link] if it.command == ca.CREATE_CHAN}
    return made


def leaving_many(room):
    """Who has more subscriptions at a server than messages usually wait for one goes: the server stays for the others."""
    names = [f"V{at}" for at in range(20_000)]
    up = room.upstream(*(variable(it, values=[7]) for it in names))
    server = room.server(up, options=("--site",))
    other = room.client(server)
    channel = other.open(names[0])
    archiver = Crowd(server.address, 1)
    room.started.append(archiver.close)
    archiver.send(ca.greeting())
    made = open_all(archiver, other, names)
    room.equal("it has a channel on each", len(made), len(names))
    archiver.send(b"".join(ca.subscribe(sid, 1 + at, ca.LONG) for at, sid in made.items()))
    room.check("and each value", archiver.until(has(ca.EVENT_ADD, len(names))))
    room.equal("subscriptions at the server", len(up.subscriptions(names[-1])), 1)
    archiver.close()
    room.eventually("all are cancelled", lambda: not any(up.subscriptions(it) for it in (names[1], names[-1])))
    room.check("the server isn't cut off for that", not server.has_logged("upstream 1", "cut off") and not server.has_logged("upstream 1", "lost"))
    room.equal("the other one reads on", other.values(channel), [7])
    room.equal("one connection at the server, as before", up.count_clients(), 1)
    room.equal("quit", server.quit(), 0)
