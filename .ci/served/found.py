"""Servers that are found by search, and replies that lead to none."""
import json
import socket
import struct
import threading
import time

import ca_wire as ca
from served.asking import Hearer
from served.room import Server, free_port, text_of, variable

SENDER = 0xFFFFFFFF  # the server is where the datagram came from


def reply(cid, port, host=SENDER, minor=ca.MINOR):
    """The server of a name that was asked for under a CID is at this host and port."""
    return ca.message(ca.SEARCH, struct.pack(">H", minor), dtype=port, p1=host, p2=cid)


class Answerer:
    """Answers searches by UDP alone: each CID and name by the messages that a story makes of them."""

    def __init__(self, room, make, address=("127.0.0.1", 0)):
        self.make, self.asked = make, []
        self.socket = socket.socket(socket.AF_INET, socket.SOCK_DGRAM)
        self.socket.setsockopt(socket.SOL_SOCKET, socket.SO_REUSEADDR, 1)
        self.socket.bind(address)
        self.address = self.socket.getsockname()
        threading.Thread(target=self.answer, daemon=True).start()
        room.started.append(self.socket.close)

    def answer(self):
        while True:
            try:
                datagram, sender = self.socket.recvfrom(1 << 16)
            except OSError:
                return
            for it in ca.Frames().feed(datagram):
                if it.command == ca.SEARCH:
                    name = it.payload.rstrip(b"\0").decode()
                    self.asked.append(name)
                    said = b"".join(self.make(it.p1, name))
                    if said:
                        self.socket.sendto(said, sender)


def searching_at(*places):
    """The options of a gateway that searches at these addresses."""
    return ("--site", *(word for place in places for word in ("--search", text_of(place.address))))


def gateway(room, listen, *options):
    """A gateway at an address of the story's choice."""
    server = Server(room.words(listen, [], options=options))
    room.started.append(server.kill)
    room.eventually("it listens", lambda: server.printed)
    return server


def status(server, address):
    """What the gateway tells of itself."""
    with socket.create_connection(address, 60) as link:
        return json.loads(link.makefile().readline())


def searching(room):
    """Servers that no word of the command line names: found, lost, and found again."""
    one, two = room.upstream(variable("A", values=[1]), variable("B", values=[2])), room.upstream(variable("C", values=[3]))
    reports = ("127.0.0.1", free_port())
    server = room.server(options=(*searching_at(one, two), "--status", text_of(reports)))
    client = room.client(server)
    for name, value in (("A", 1), ("B", 2), ("C", 3)):
        channel = client.open(name)
        room.equal(name, channel and client.values(channel), [value])
    room.check("told", server.has_logged("INFO", "upstream 1", "connected") and server.has_logged("INFO", "upstream 2", "connected"), server.logged)
    told = status(server, reports)
    room.equal("they are counted, and not listed", (told["upstreams"], told["upstreams_found"]), ([], 2))
    one.stop()
    room.eventually("one is lost", lambda: server.has_logged("WARN", "found by search, lost"))
    one.start()
    channel = client.open("A")
    room.equal("it is found again", channel and client.values(channel), [1])
    room.equal("quit", server.quit(), 0)


def beside(room):
    """Servers of the command line are searched for too, wherever they are; others only in the nets that are given."""
    named, other = room.upstream(variable("A", values=[1])), room.upstream(variable("B", values=[2]))
    server = room.server(named, options=(*searching_at(other), "--from", "10.0.0.0/8"))
    client = room.client(server)
    channel = client.open("A")
    room.equal("what the named one has", channel and client.values(channel), [1])
    client.search("B")
    time.sleep(1.5)
    room.check("nobody connects to the other one", other.count_clients() == 0 and client.try_open("B") is None, server.logged)
    named.stop()
    room.eventually("it is lost", lambda: server.has_logged("WARN", "upstream 1", "lost"))
    named.start()
    channel = client.open("A")
    room.equal("it is connected to again, as it answers", channel and client.values(channel), [1])
    room.equal("quit", server.quit(), 0)


def idle(room):
    """A server is left that nobody has needed for long, and found again; one that is named, or needed, isn't."""
    named, one, two = (room.upstream(variable(name, values=[value])) for name, value in (("A", 1), ("B", 2), ("C", 3)))
    server = room.server(named, options=(*searching_at(one, two), "--idle", "2", "--forget", "1"))
    client = room.client(server)
    for name, value in (("A", 1), ("C", 3)):
        room.equal(name, client.values(client.open(name)), [value])
    other = room.client(server)
    room.equal("B", other.values(other.open("B")), [2])
    other.close()
    room.eventually("it is left", lambda: server.has_logged("INFO", "nobody wanted a variable of it for 2 s") and one.count_clients() == 0)
    time.sleep(2.5)
    room.equal("the others stay", (named.count_clients(), two.count_clients()), (1, 1))
    room.equal("it is found again", client.values(client.open("B")), [2])
    room.equal("quit", server.quit(), 0)


def broadcasting(room):
    """Two servers of a host that share the port of their searches hear a broadcast both; the gateway's own comes back to it."""
    ups = [room.upstream(variable(name, values=[value])) for name, value in (("A", 1), ("B", 2))]
    port, reports = free_port(), ("127.0.0.1", free_port())

    def of(up):
        return lambda cid, name: [reply(cid, up.address[1])] if name in up.variables else []
    for up in ups:
        Answerer(room, of(up), ("0.0.0.0", port))
    own = free_port()
    places = [word for it in (port, own) for word in ("--search", f"127.255.255.255:{it}")]
    server = gateway(room, f"0.0.0.0:{own}", "--site", *places, "--status", text_of(reports))
    server.address = ("127.0.0.1", own)
    client = room.client(server, source="127.0.0.2")
    for name, value in (("A", 1), ("B", 2)):
        channel = client.open(name)
        room.equal(name, channel and client.values(channel), [value])
    client.search("DEAD")
    time.sleep(2)
    room.equal("what it asked for itself isn't remembered, but what the client looked for", status(server, reports)["names_remembered"], 3)
    room.equal("quit", server.quit(), 0)


def disbelieved(room):
    """Replies that lead nowhere, each alone and 64 KB of them at once."""
    up = room.upstream(variable("GOOD", values=[7]))
    port = up.address[1]
    server = None

    def strange(cid):
        return {"ZERO": [reply(cid, port, 0)], "CAST": [reply(cid, port, 0xE0000001)], "OWN": [reply(cid, server.address[1], 0x7F000001)],
                "CID": [reply(cid + 7919, port), reply(0, port), reply(SENDER, port)], "OLD": [reply(cid, port, minor=7)], "PORT": [reply(cid, 0)],
                "SHORT": [ca.message(ca.SEARCH, dtype=port, p1=SENDER, p2=cid)], "OUT": [reply(cid, port, 0x0A000001)],
                "GOOD": [b"", reply(cid, port)], "MANY": [reply(cid, 1 + it % 9, 0x7F000001) for it in range(2700)]}
    answerer = Answerer(room, lambda cid, name: strange(cid)[name])
    server = room.server(options=(*searching_at(answerer), "--from", "127.0.0.0/8", "--log", "debug"))
    client = room.client(server)
    names = [name for name in strange(1) if name not in ("GOOD", "MANY")]
    client.search(*names)
    room.eventually("all are asked for", lambda: set(names) <= set(answerer.asked))
    time.sleep(1)
    room.check("nobody is connected to", up.count_clients() == 0 and not server.has_logged("upstream 1"), server.logged)
    client.search("MANY")
    room.eventually("a server that isn't there is told of", lambda: server.has_logged("WARN", "found by search, can't be reached"))
    room.check("that two have a name is told too", server.has_logged("WARN", "both have MANY"), server.logged)
    channel = client.open("GOOD")
    room.equal("a good one is served", channel and client.values(channel), [7])
    room.equal("quit", server.quit(), 0)


def mute(room):
    """A server that takes connections and says nothing is lost, and its name found elsewhere."""
    up = room.upstream(variable("A", values=[1]))
    door = socket.create_server(("127.0.0.1", 0))
    room.started.append(door.close)
    ports = [door.getsockname()[1]]
    answerer = Answerer(room, lambda cid, name: [reply(cid, ports[0])])
    server = room.server(options=(*searching_at(answerer), "--alive", "1"))
    room.client(server).search("A")
    link, _ = door.accept()
    room.started.append(link.close)
    ports[0] = up.address[1]
    room.eventually("it is cut off", lambda: server.has_logged("WARN", "found by search, cut off: it said nothing"))
    client = room.client(server)
    channel = client.open("A")
    room.equal("the name is found elsewhere", channel and client.values(channel), [1])
    room.equal("quit", server.quit(), 0)


def overfull(room):
    """One server more than may be known is told of, and two that have the same name."""
    one, two = room.upstream(variable("A", values=[1]), variable("BOTH", values=[1])), room.upstream(variable("B", values=[2]), variable("BOTH", values=[2]))
    server = room.server(options=(*searching_at(one, two), "--servers", "1"))
    client = room.client(server)
    channel = client.open("A")
    room.equal("the first", channel and client.values(channel), [1])
    client.search("B")
    room.eventually("it is told", lambda: server.has_logged("WARN", "one server more than 1 was found"))
    room.check("the other isn't connected to", two.count_clients() == 0 and client.try_open("B") is None)
    client.search("BOTH")
    room.eventually("a name of two is told of", lambda: server.has_logged("WARN", "both have BOTH"))
    room.equal("quit", server.quit(), 0)


def facing(room):
    """Two gateways that search at each other ask for a dead name more and more seldom."""
    hearer = Hearer(room)
    ports = [free_port(), free_port()]
    servers = [gateway(room, f"127.0.0.1:{own}", "--site", "--search", f"127.0.0.1:{other}", "--search", text_of(hearer.address))
               for own, other in (ports, ports[::-1])]
    servers[0].address = ("127.0.0.1", ports[0])
    client = room.client(servers[0])
    client.search("DEAD")
    time.sleep(6)
    times = len(hearer.times("DEAD"))
    room.check("each asks for it a few times", 4 <= times <= 16, times)
    room.equal("nothing is found", [it for server in servers for it in server.logged if "upstream" in it and "watched" not in it], [])
    for server in servers:
        room.equal("quit", server.quit(), 0)


def hiding(room):
    """A server that can't be reached, and always answers first, doesn't hide one that has the name too."""
    up, nowhere = room.upstream(variable("A", values=[1])), free_port()
    quick = Answerer(room, lambda cid, name: [reply(cid, nowhere)])

    def slowly(cid, name):
        time.sleep(0.1)
        return [reply(cid, up.address[1])]
    slow = Answerer(room, slowly)
    server = room.server(options=searching_at(quick, slow))
    client = room.client(server)
    channel = client.open("A", 20)
    room.equal("it is found at the other", channel and client.values(channel), [1])
    room.check("the one that answers first is told of", server.has_logged("WARN", f"127.0.0.1:{nowhere}", "can't be reached"), server.logged)
    room.equal("quit", server.quit(), 0)


def ignoring(room):
    """Two gateways that hear each other's broadcasts remember for good what the other asks for; one that is ignored isn't heard."""
    for options, remembered in (((), (2, 1)), (("--ignore", "10.0.0.0/8", "--ignore", "127.0.0.1/32", "--forget", "1"), (1, 0))):
        ports, reports = [free_port(), free_port()], [("127.0.0.1", free_port()) for _ in range(2)]
        places = [word for it in ports for word in ("--search", f"127.255.255.255:{it}")]
        servers = [gateway(room, f"0.0.0.0:{port}", "--site", *places, *options, "--status", text_of(at)) for port, at in zip(ports, reports)]
        servers[0].address = ("127.0.0.1", ports[0])
        client = room.client(servers[0], source="127.0.0.2")

        def counts():
            return tuple(status(server, at)["names_remembered"] for server, at in zip(servers, reports))
        seen = []
        room.eventually(f"what is remembered with {options}", lambda: client.search("DEAD") or seen.append(counts()) or seen[-1] == remembered)
        if options:
            room.eventually("nothing is once nobody looks for it", lambda: seen.append(counts()) or seen[-1] == (0, 0))
            room.check("the other one never remembered anything", not any(other for _, other in seen), seen)
        for server in servers:
            room.equal("quit", server.quit(), 0)
