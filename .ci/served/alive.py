"""Who is gone without a word: servers that stop, clients that vanish, and names that nobody looks for any more."""
import json
import socket
import threading
import time

import ca_wire as ca
from served.reports import told
from served.room import PATIENCE, free_port, text_of, variable


class Stopped:
    """An upstream that says nothing from now on, as a process that was sent SIGSTOP: its connections stand."""

    def __init__(self, up):
        self.go_on = threading.Event()
        began = threading.Event()
        up.calls.put((lambda: (began.set(), self.go_on.wait(PATIENCE)), Ignored()))
        up.button.send(b"x")
        began.wait(PATIENCE)

    def end(self):
        self.go_on.set()


class Ignored:
    def put(self, it):
        pass


def count(server, *words):
    return sum(all(word in line for word in words) for line in list(server.logged))


def stopped(room):
    """A server that is stopped is asked and then lost, and comes back; one that answers stays, however quiet it is."""
    up, quiet = room.upstream(variable("V", values=[1])), room.upstream(variable("W", values=[2]))
    server = room.server(up, quiet, options=("--alive", "3", "--reconnect", "1", "--log", "debug"))
    client = room.client(server)
    own = client.watch(client.open("V"))
    room.equal("an update", client.update(own), [1])
    room.check("it is said that it watches", server.has_logged("INFO", "connections are watched", "nothing for 3 s"))
    asked = count(server, "upstream 2", "is asked whether it is there")
    still = Stopped(up)
    began = time.monotonic()
    room.check("its channel goes", client.take(lambda it: it.command == ca.SERVER_DISCONN) is not None)
    took = time.monotonic() - began
    room.check("after three seconds and five more", 6 < took < 25, f"{took:.1f} s")
    room.check("it was asked first", server.has_logged("DEBUG", "upstream 1", "is asked whether it is there"))
    room.eventually("and is cut off", lambda: server.has_logged("WARN", "upstream 1", "cut off: it said nothing for 3 s"))
    still.end()
    room.eventually("it is connected again", lambda: count(server, "INFO", "upstream 1", "connected") > 1)
    room.eventually("and serves", lambda: (again := client.try_open("V")) is not None and client.values(again) == [1])
    room.check("a quiet one is asked again and again", count(server, "upstream 2", "is asked whether it is there") > asked + 1)
    room.equal("and stays", (count(server, "upstream 2", "cut off"), count(server, "upstream 2", "lost"), count(server, "INFO", "upstream 2")), (0, 0, 1))
    room.equal("quit", server.quit(), 0)


def replacing(room):
    """`connect N` connects again to a server that was asked and says nothing, and to no other."""
    up = room.upstream(variable("V", values=[1]))
    server = room.server(up, options=("--alive", "2", "--log", "debug"))
    client = room.client(server)
    room.check("a channel", client.open("V") is not None)
    server.write("connect 1")
    still = Stopped(up)
    room.eventually("it is asked", lambda: server.has_logged("DEBUG", "upstream 1", "is asked whether it is there"))
    room.equal("a connection that speaks stands", count(server, "INFO", "upstream 1", "connected"), 1)
    server.write("connect 1")
    room.eventually("it is ended", lambda: server.has_logged("WARN", "upstream 1", "cut off: it said nothing when it was asked"))
    room.eventually("and connected to again", lambda: count(server, "INFO", "upstream 1", "connected") == 2)
    still.end()
    room.eventually("and serves", lambda: (again := client.open("V", 5)) is not None and client.values(again) == [1])
    room.equal("quit", server.quit(), 0)


def vanishing(room):
    """A client that says nothing and is given nothing is cut off; one that only reads isn't."""
    up = room.upstream(variable("V", values=[0]))
    server = room.server(up, options=("--alive", "1", "--log", "debug"))
    gone, reader = room.client(server), room.client(server)
    room.check("both are there", gone.echo() and reader.echo())
    own = reader.watch(reader.open("V"))
    number = next(it.split("client ")[1].split()[0] for it in server.logged if f":{gone.socket.getsockname()[1]})" in it and "connected" in it)
    began = time.monotonic()
    at = 0
    while time.monotonic() < began + 10:
        at += 1
        up.give("V", [at])
        time.sleep(0.5)
    room.check("who says nothing is cut off", server.has_logged("WARN", f"client {number} ", "cut off: nothing came from it or went to it for 4 s"))
    room.check("its connection ends", gone.take(lambda it: False) is None)
    room.equal("who reads is there", reader.updates_until(own, [at], 10)[-1], [at])
    room.equal("and nobody else was cut off", count(server, "cut off"), 1)
    room.equal("quit", server.quit(), 0)


def unwatched(room):
    """Without --alive nobody is cut off, and it is said."""
    up = room.upstream(variable("V", values=[1]))
    server = room.server(up, options=("--log", "debug"))
    client = room.client(server)
    room.check("a channel", client.open("V") is not None)
    room.check("it is said", server.has_logged("INFO", "connections are not watched"))
    still = Stopped(up)
    time.sleep(8)
    room.equal("nobody is asked or cut off", (count(server, "is asked"), count(server, "cut off")), (0, 0))
    still.end()
    room.check("the client is there", client.echo())
    room.equal("quit", server.quit(), 0)


def names_of(address):
    return json.loads(told(address))["names_remembered"]


def aging(room):
    """Names that nobody looks for are forgotten, those that somebody does aren't."""
    up = room.upstream(variable("V", values=[1]))
    address = ("127.0.0.1", free_port())
    server = room.server(up, options=("--forget", "2", "--log", "debug", "--status", text_of(address)))
    client = room.client(server)
    client.search("OLD:1", "OLD:2", "KEPT")
    room.eventually("three are remembered", lambda: names_of(address) == 3)
    until = time.monotonic() + 7
    while time.monotonic() < until:
        client.search("KEPT")
        time.sleep(0.3)
    room.check("time passed", server.has_logged("DEBUG", "aged"))
    room.equal("one is remembered still", names_of(address), 1)
    room.check("and a live one is found", client.found("V", PATIENCE) is not None)
    room.equal("quit", server.quit(), 0)


def late(room):
    """One search is enough, where a name is there or comes within five seconds; one that isn't there gets no answer."""
    up = room.upstream(*(variable(f"LATE:{it:04}:{'X' * 12}", values=[it]) for it in range(1000)))
    server = room.server(up, options=("--site", "--log", "debug"))
    client = room.client(server)
    room.eventually("the server is there", lambda: server.has_logged("upstream 1", "connected"))
    time.sleep(0.3)
    client.search(f"LATE:0000:{'X' * 12}", "NOT:THERE")
    replies = client.replies(5)
    room.check("one search is answered", replies is not None and [it.p2 for it in replies if it.command == ca.SEARCH] == [1], replies)
    room.equal("with the port", replies and replies[-1].dtype, server.address[1])
    room.equal("and once", client.replies(1), None)
    answered, took = many_late(server, [f"LATE:{it:04}:{'X' * 12}" for it in range(1, 1000)])
    room.equal("each of 999 names is answered", answered, 999)
    print(f"999 names cold in {took:.3f} s", flush=True) if took > 5 else None
    room.check("soon", took < 5, f"{took:.2f} s")
    room.equal("quit", server.quit(), 0)


def many_late(server, names):
    """Searches for each name once, 28 in a datagram, and answers how many were answered, and in how many seconds."""
    with socket.socket(socket.AF_INET, socket.SOCK_DGRAM) as asker:
        asker.settimeout(0.1)
        began, last, found = time.monotonic(), 0.0, set()
        for at in range(0, len(names), 28):
            asked = b"".join(ca.search(name, 1 + at + it) for it, name in enumerate(names[at:at + 28]))
            asker.sendto(ca.message(ca.VERSION, count=ca.MINOR) + asked, server.address)
        while len(found) < len(names) and time.monotonic() < began + 6:
            try:
                found |= {it.p2 for it in ca.Frames().feed(asker.recv(1 << 16)) if it.command == ca.SEARCH}
                last = time.monotonic()
            except TimeoutError:
                pass
        return len(found), last - began


def punctual(room):
    """Without --late nothing is answered later."""
    up = room.upstream(variable("V", values=[1]))
    server = room.server(up, options=("--log", "debug"))
    client = room.client(server)
    room.eventually("the server is there", lambda: server.has_logged("upstream 1", "connected"))
    time.sleep(0.3)
    client.search("V")
    room.equal("one search alone", client.replies(2), None)
    client.search("V")
    room.check("a second one is answered", client.replies(PATIENCE) is not None)
    room.equal("quit", server.quit(), 0)


def search_all(clients):
    """Each looks for 500 names, with a rest between two datagrams: the system keeps few of them."""
    for client in clients:
        for at in range(0, 500, 50):
            client.search(*(f"N{it:03}" for it in range(at, at + 50)))
            time.sleep(0.005)


def many_hosts(room):
    """Nine hosts that look for 500 names each leave room for the names of another."""
    up = room.upstream(*(variable(f"N{it:03}", values=[it]) for it in range(500)), *(variable(f"NEW{it}", values=[it]) for it in range(20)))
    address = ("127.0.0.1", free_port())
    server = room.server(up, options=("--site", "--status", text_of(address)))
    room.eventually("the server is there", lambda: server.has_logged("upstream 1", "connected"))
    crowd = [room.client(server, source=f"127.0.1.{host}") for host in range(1, 10)]
    room.eventually("all are remembered", lambda: search_all(crowd) or names_of(address) >= 4500)
    client = room.client(server, source="127.0.2.1")
    for it in range(20):
        room.check(f"NEW{it} is found", client.found(f"NEW{it}", PATIENCE) is not None)
        channel = client.open(f"NEW{it}")
        room.equal(f"NEW{it} is read", channel and client.values(channel), [it])
    room.eventually("what is open isn't remembered", lambda: names_of(address) <= 4500)
    room.equal("quit", server.quit(), 0)


def scaled(room):
    """The numbers that the command line says hold, and are told."""
    up = room.upstream(variable("V", values=[1]))
    address = ("127.0.0.1", free_port())
    server = room.server(up, options=("--clients", "2", "--names", "512", "--status", text_of(address)))
    one, two, three = (room.client(server) for _ in range(3))
    room.check("two are served", one.echo() and two.echo())
    room.check("the third is closed at once", three.take(lambda it: False) is None)
    room.eventually("and told of", lambda: server.has_logged("WARN", "refused: 2 clients are connected"))
    limits = json.loads(told(address))["limits"]
    room.equal("the limits that hold", (limits["clients"]["most"], limits["names_remembered"]["most"]), (2, 512))
    for at in range(0, 600, 50):
        one.search(*(f"DEAD{it}" for it in range(at, at + 50)))
    room.eventually("a host has its share of names", lambda: names_of(address) == 256)
    room.check("and a live one is found", one.found("V", PATIENCE) is not None)
    room.equal("quit", server.quit(), 0)


class Promising:
    """An upstream that answers the first search for a name, and then neither makes its channel nor answers again."""

    def __init__(self, room):
        self.listener = socket.create_server(("127.0.0.1", 0))
        self.address = self.listener.getsockname()
        self.searches = socket.socket(socket.AF_INET, socket.SOCK_DGRAM)
        self.searches.bind(self.address)
        self.links, self.heard, self.answered = [], bytearray(), False
        room.started.append(lambda: [it.close() for it in (self.listener, self.searches, *self.links)])
        threading.Thread(target=self.accept, daemon=True).start()
        threading.Thread(target=self.answer, daemon=True).start()

    def accept(self):
        try:
            link, _ = self.listener.accept()
            self.links.append(link)
            link.sendall(ca.message(ca.VERSION, count=ca.MINOR))
            while piece := link.recv(1 << 16):
                self.heard += piece
        except OSError:
            pass

    def answer(self):
        try:
            while True:
                datagram, sender = self.searches.recvfrom(1 << 16)
                asked = [it.p1 for it in ca.Frames().feed(datagram) if it.command == ca.SEARCH]
                if asked and not self.answered:
                    self.answered = True
                    self.searches.sendto(ca.message(ca.VERSION, count=ca.MINOR) + ca.found(self.address[1], asked[0]), sender)
        except OSError:
            pass


def promised(room):
    """A variable whose server doesn't make the channel is looked for at the others again."""
    promising, up = Promising(room), room.upstream(variable("V", values=[7]))
    up.stop()
    server = room.server(promising, up, options=("--forget", "1", "--reconnect", "1"))
    client = room.client(server)
    room.check("nobody serves it yet", client.try_open("V") is None)
    client.search("V")
    room.eventually("a channel is asked for", lambda: b"V\0" in bytes(promising.heard).partition(b"gw\0")[2])
    up.start()
    room.eventually("the other server is there", lambda: server.has_logged("INFO", "upstream 2", "connected"))
    channel = client.open("V")
    room.equal("it has the variable", channel and client.values(channel), [7])
    room.equal("quit", server.quit(), 0)
