"""Name servers, which are asked over TCP for names."""
import os
import socket
import threading
import time

import ca_wire as ca
from served.asking import Hearer
from served.found import SENDER, gateway, reply
from served.room import free_port, text_of, variable
from served.upstream import Upstream

VERSION = ca.message(ca.VERSION, count=ca.MINOR)
RUBBISH = [b"HTTP/1.1 400 Bad Request\r\n\r\n", VERSION + ca.message(ca.SEARCH, bytes(1032)), bytes.fromhex("00060004") + bytes(16)]


class Elsewhere(Upstream):
    """A server on another address of the loopback net."""

    def start(self):
        self.address = self.address or ("127.0.0.2", 0)
        super().start()


class NameServer:
    """A false one: on each connection it says something, and then answers each search by what a story makes of CID and name."""

    def __init__(self, room, make=lambda cid, name: b"", first=(), then=VERSION, echoes=True, piece=1 << 16, starts=True):
        self.make, self.first, self.then, self.echoes, self.piece = make, list(first), then, echoes, piece
        self.address = ("127.0.0.1", free_port())
        self.heard = []  # of each connection the time, and its messages with their times
        self.links, self.listener = [], None
        room.started.append(self.stop)
        if starts:
            self.start()

    def start(self):
        self.listener = socket.create_server(self.address)
        threading.Thread(target=self.accept, args=(self.listener,), daemon=True).start()

    def stop(self):
        for it in [self.listener] * bool(self.listener) + self.links:
            try:
                it.shutdown(socket.SHUT_RDWR)
            except OSError:
                pass
            it.close()
        self.links, self.listener = [], None

    def accept(self, listener):
        while True:
            try:
                link, _ = listener.accept()
            except OSError:
                return
            link.setsockopt(socket.IPPROTO_TCP, socket.TCP_NODELAY, 1)
            self.links.append(link)
            self.heard.append((time.monotonic(), []))
            threading.Thread(target=self.converse, args=(link, self.heard[-1][1]), daemon=True).start()

    def converse(self, link, heard):
        try:
            self.say(link, self.first.pop(0) if self.first else self.then)
            frames = ca.Frames()
            while True:
                piece = link.recv(1 << 16)
                if not piece:
                    return link.close()
                for it in frames.feed(piece):
                    heard.append((time.monotonic(), it))
                    if it.command == ca.SEARCH:
                        self.say(link, self.make(it.p1, it.payload.rstrip(b"\0").decode()))
                    elif it.command == ca.ECHO and self.echoes:
                        self.say(link, ca.message(ca.ECHO))
        except OSError:
            pass

    def say(self, link, text):
        for at in range(0, len(text), self.piece):
            link.sendall(text[at:at + self.piece])
            time.sleep(0.002)

    def commands(self, at=0):
        """Those that came on a connection."""
        return [it.command for _, it in self.heard[at][1]] if len(self.heard) > at else []

    def times(self, name):
        """When the name was asked for."""
        return [when for _, heard in self.heard for when, it in heard if it.command == ca.SEARCH and it.payload.rstrip(b"\0").decode() == name]


def of(*ups):
    """Says which of these servers have a name, and each where the stream comes from."""
    return lambda cid, name: b"".join(reply(cid, up.address[1]) for up in ups if name in up.variables)


def through(*places):
    return tuple(word for place in places for word in ("--name-server", text_of(place.address)))


def told(server):
    """What is logged of name servers."""
    return [line.partition("name server ")[2] for line in list(server.logged) if "] name server " in line]


def said_of(number, place, *words):
    return [f"{number} ({text_of(place.address)}) {it}" for it in words]


def check_told(room, server, *lines):
    """Just this is logged of name servers, those of each in order."""
    room.check("what is logged", room.wait(lambda: sorted(told(server), key=first_word) == list(lines), 10), f"{told(server)}, not {lines}")


def first_word(line):
    return line.split()[0]


def name_serving(room):
    """Names that are found through a name server alone, whose replies come in odd pieces, and one of which is on another host."""
    near, far = room.upstream(variable("A", values=[1]), variable("B", values=[2])), Elsewhere([variable("C", values=[3])])
    room.started.append(far.stop)

    def make(cid, name):
        if name == "B":  # as servers of EPICS base say it on a stream
            return ca.message(ca.SEARCH, dtype=near.address[1], p1=SENDER, p2=cid)
        return reply(cid, far.address[1], 0x7F000002) if name == "C" else of(near)(cid, name)
    place = NameServer(room, make, piece=3)
    server = room.server(options=through(place))
    client = room.client(server)
    for name, value in (("A", 1), ("B", 2), ("C", 3)):
        channel = client.open(name)
        room.equal(name, channel and client.values(channel), [value])
    room.equal("it is greeted", [(it.command, it.payload) for _, it in place.heard[0][1][:3]],
               [(ca.VERSION, b""), (ca.CLIENT_NAME, b"pvgate\0\0"), (ca.HOST_NAME, b"gw".ljust(8, b"\0"))])
    room.equal("nothing else is said than what it is asked for", set(place.commands()[3:]), {ca.SEARCH})
    client.search("DEAD")
    room.eventually("a name that it doesn't have is asked for again", lambda: len(place.times("DEAD")) > 2)
    check_told(room, server, *said_of(1, place, "connected"))
    room.check("the servers are found ones", server.has_logged("INFO", "upstream 1", "connected") and server.has_logged("INFO", "upstream 2", "connected"), server.logged)
    room.equal("quit", server.quit(), 0)


def name_serving_beside(room):
    """Two name servers, one of which is named by its host, beside an UPSTREAM and a search."""
    named, one, two, other = (room.upstream(variable(name, values=[value])) for name, value in (("N", 1), ("A", 2), ("B", 3), ("S", 4)))
    places = [NameServer(room, of(one)), NameServer(room, of(two))]
    by_name = ("--name-server", f"localhost:{places[1].address[1]}")
    server = room.server(named, options=(*through(places[0]), *by_name, "--search", text_of(other.address)))
    client = room.client(server)
    for name, value in (("N", 1), ("A", 2), ("B", 3), ("S", 4)):
        channel = client.open(name)
        room.equal(name, channel and client.values(channel), [value])
    room.check("both are asked for what the other has", places[0].times("B") and places[1].times("A"))
    check_told(room, server, *said_of(1, places[0], "connected"), *said_of(2, places[1], "connected"))
    room.equal("quit", server.quit(), 0)
    server = room.server(named, options=through(places[0]))
    client = room.client(server)
    for name, value in (("N", 1), ("A", 2)):
        channel = client.open(name)
        room.equal(f"{name}, with no search", channel and client.values(channel), [value])
    room.equal("quit", server.quit(), 0)


def name_serving_nowhere(room):
    """Hosts that the system doesn't know, or that lead to the gateway itself, can't be reached."""
    own = free_port()
    server = gateway(room, f"0.0.0.0:{own}", "--name-server", "nowhere.invalid:5064", "--name-server", f"localhost:{own}")
    for number, place in ((1, "0.0.0.0:0"), (2, f"127.0.0.1:{own}")):
        line = f"name server {number} ({place}) can't be reached, and is tried again"
        room.eventually(f"that of {number} is told", lambda: server.has_logged("WARN", line))
    time.sleep(1.5)
    room.equal("once", len(told(server)), 2)
    room.equal("quit", server.quit(), 0)


def name_serving_rubbish(room):
    """What is no stream of a name server's is cut off, told once, and tried again."""
    up = room.upstream(variable("A", values=[1]))
    place = NameServer(room, of(up), first=RUBBISH)
    server = room.server(options=through(place))
    room.eventually("it is cut off", lambda: server.has_logged("WARN", "name server 1", "cut off: it sent what no name server sends; it is tried again"))
    client = room.client(server)
    channel = client.open("A")
    room.equal("once it speaks as one, its names are found", channel and client.values(channel), [1])
    room.equal("connections", len(place.heard), len(RUBBISH) + 1)
    check_told(room, server, *said_of(1, place, "connected", "cut off: it sent what no name server sends; it is tried again", "connected"))
    room.equal("quit", server.quit(), 0)


def name_serving_lost(room):
    """One that can't be reached, comes, goes and comes back: told once each time, and asked for what waits once it is connected."""
    up = room.upstream(variable("A", values=[1]), variable("B", values=[2]))
    place = NameServer(room, of(up), starts=False)
    server = room.server(options=through(place))
    client = room.client(server)
    time.sleep(1.5)
    client.search("A")
    time.sleep(1.7)
    place.start()
    room.eventually("it is connected to", lambda: place.times("A"))
    room.check("a name that waits is asked for at once", place.times("A")[0] - place.heard[0][0] < 1.2, place.heard)
    channel = client.open("A")
    room.equal("it is found", channel and client.values(channel), [1])
    place.stop()
    room.eventually("that it is lost is told", lambda: server.has_logged("WARN", "name server 1", "lost: its connection ended; it is tried again"))
    room.equal("what was found stays", client.values(channel), [1])
    time.sleep(1.5)
    place.start()
    channel = client.open("B")
    room.equal("it is asked again", channel and client.values(channel), [2])
    check_told(room, server, *said_of(
        1, place, "can't be reached, and is tried again", "connected", "lost: its connection ended; it is tried again", "connected"))
    room.equal("quit", server.quit(), 0)


def name_serving_mute(room):
    """One that says nothing is asked whether it is there, and cut off; one that answers that stays."""
    mute, other = NameServer(room, then=b"", echoes=False), NameServer(room, then=b"")
    server = room.server(options=(*through(mute, other), "--alive", "1"))
    tasks = f"/proc/{server.process.pid}/task"
    room.eventually("both are connected to", lambda: ca.HOST_NAME in mute.commands() and ca.HOST_NAME in other.commands())
    threads = len(os.listdir(tasks))
    room.eventually("it is connected to again and again", lambda: ca.HOST_NAME in mute.commands(2))
    room.equal("no thread stays", len(os.listdir(tasks)), threads)
    room.check("it was asked each time", all(mute.commands(at).count(ca.ECHO) == 1 for at in (0, 1)), mute.heard)
    room.check("after a second, and another one it had", 1.8 < mute.heard[1][0] - mute.heard[0][0] < 20, mute.heard)
    why = "cut off: it said nothing for 1 s, and nothing when it was asked; it is tried again"
    check_told(room, server, *said_of(1, mute, "connected", why), *said_of(2, other, "connected"))
    room.equal("the other one stays", len(other.heard), 1)
    room.check("it is asked too", other.commands().count(ca.ECHO) > 1, other.heard)
    room.equal("quit", server.quit(), 0)


class Unreading(NameServer):
    """Says something again and again, and reads nothing."""

    def converse(self, link, heard):
        try:
            while True:
                link.sendall(VERSION)
                time.sleep(0.3)
        except OSError:
            pass


def name_serving_unread(room):
    """One that doesn't read is left once what is written to it isn't taken, and tried again."""
    place = Unreading(room)
    server = room.server(options=(*through(place), "--alive", "2"))
    client = room.client(server)
    names = [f"{it:04}:".ljust(255, "X") for it in range(4000)]
    for at in range(0, len(names), 100):
        client.search(*names[at:at + 100])
        time.sleep(0.01)
    room.eventually("it is left", lambda: server.has_logged("WARN", "name server 1", "lost: its connection ended; it is tried again"))
    room.eventually("it is connected to again", lambda: len(place.heard) > 1)
    room.equal("quit", server.quit(), 0)


def name_serving_outside(room):
    """Replies count where a datagram's would: in the nets, for what was asked, and not for the gateway itself."""
    up, hearer = room.upstream(variable("A", values=[1])), Hearer(room)
    port = up.address[1]
    strange = {}
    place = NameServer(room, lambda cid, name: strange[name](cid))
    server = room.server(options=(*through(place), "--from", "127.0.0.0/8"))
    strange.update({"OUT": lambda cid: reply(cid, port, 0x0A000001), "OWN": lambda cid: reply(cid, server.address[1]), "ZERO": lambda cid: reply(cid, port, 0),
                    "CID": lambda cid: reply(cid + 7919, port) + reply(0, port) + reply(SENDER, port), "PORT": lambda cid: reply(cid, 0),
                    "OTHER": lambda cid: ca.message(ca.CREATE_CHAN, p1=cid, p2=1) + ca.found(hearer.address[1], 1), "A": lambda cid: reply(cid, port)})
    client = room.client(server)
    client.search(*(name for name in strange if name != "A"))
    room.eventually("all are asked for", lambda: all(place.times(name) for name in strange if name != "A"))
    time.sleep(1)
    room.equal("nobody is connected to", (up.count_clients(), server.has_logged("upstream 1")), (0, False))
    channel = client.open("A")
    room.equal("a good one is served", channel and client.values(channel), [1])
    room.equal("quit", server.quit(), 0)
    server = room.server(options=(*through(place), "--from", "10.0.0.0/8"))
    client = room.client(server)
    client.search("A")
    before = len(place.times("A"))
    room.eventually("it is asked for", lambda: len(place.times("A")) > before)
    time.sleep(1)
    room.check("a name server outside the nets isn't believed", up.count_clients() == 0 and client.try_open("A") is None, server.logged)
    room.equal("quit", server.quit(), 0)


def name_serving_gateway(room):
    """Another gateway is a name server for what it serves, and answers once it can."""
    up = room.upstream(variable("A", values=[1]))
    inner = room.server(up, options=("--site",))
    outer = room.server(options=through(inner))
    client = room.client(outer)
    channel = client.open("A")
    room.equal("a name that is found through both", channel and client.values(channel), [1])
    up.give("A", [2])
    room.eventually("what it is changed to", lambda: client.values(channel) == [2])
    check_told(room, outer, *said_of(1, inner, "connected"))
    for it in (outer, inner):
        room.equal("quit", it.quit(), 0)
