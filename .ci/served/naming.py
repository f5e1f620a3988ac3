"""Servers whose hosts are named, and looked up."""
import json
import os
import socket
import subprocess

from served.beacons import come_back
from served.found import Answerer, gateway, reply
from served.room import Server, free_port, text_of, variable
from served.upstream import Upstream

# Hides the system's hosts from a program behind a file of the story's own.
HIDING = 'mount --bind "$0" /etc/hosts && exec "$@"'


def named(place):
    return f"localhost:{place.address[1]}"


def naming(room):
    """A host that the system knows, and one that it doesn't, which is tried again."""
    up, own, reports = room.upstream(variable("A", values=[1])), free_port(), ("127.0.0.1", free_port())
    server = gateway(room, f"127.0.0.1:{own}", named(up), "nowhere.invalid:5064", "--reconnect", "1", "--status", text_of(reports))
    server.address = ("127.0.0.1", own)
    client = room.client(server)
    channel = client.open("A")
    room.equal("one that is known", channel and client.values(channel), [1])
    room.eventually("one that isn't is told of", lambda: server.has_logged("WARN", "upstream 2", "can't be reached"))
    with socket.create_connection(reports, 60) as link:
        told = json.loads(link.makefile().readline())["upstreams"]
    room.equal("where they are", [(it["address"], it["connected"]) for it in told], [(text_of(up.address), True), ("0.0.0.0:0", False)])
    come_back(room, server, up, 1)
    channel = client.open("A")
    room.equal("it is looked up again", channel and client.values(channel), [1])
    room.equal("quit", server.quit(), 0)


def naming_searched(room):
    """Hosts are named at which servers are searched for, and beside which; one that isn't known ends the gateway."""
    up, other = room.upstream(variable("A", values=[1])), room.upstream(variable("B", values=[2]))
    server = room.server(options=(named(other), "--search", named(up)))
    client = room.client(server)
    for name, value in (("A", 1), ("B", 2)):
        channel = client.open(name)
        room.equal(name, channel and client.values(channel), [value])
    room.equal("quit", server.quit(), 0)
    for words in (["--search", "nowhere.invalid:5064"], ["nowhere.invalid:5064", "--search", text_of(up.address)]):
        it = subprocess.run([room.program, "serve", "127.0.0.1:0", *words], stdin=subprocess.DEVNULL, capture_output=True, timeout=60)
        room.equal("its status and what is told", (it.returncode, it.stderr), (3, b"pvgate: the host isn't known: nowhere.invalid:5064\n"))


class At(Upstream):
    """A server at an address of the story's choice."""

    def __init__(self, room, address, variables):
        self.first = address
        super().__init__(variables)
        room.started.append(self.stop)

    def start(self):
        self.address = self.address or self.first
        super().start()


def may_hide():
    """Whether hosts can be hidden: root may, mostly."""
    return os.getuid() == 0 and subprocess.run(["unshare", "-m", "true"], capture_output=True, check=False).returncode == 0


def naming_moved(room):
    """Hosts that lead elsewhere after a while: of a server, and of the place where others are searched for."""
    if not may_hide():
        return
    up, other, own = At(room, ("127.0.0.2", 0), [variable("A", values=[1])]), room.upstream(variable("S", values=[3])), free_port()

    def make(cid, name):
        return [reply(cid, other.address[1], 0x7F000001)] if name == "S" else []
    place = Answerer(room, make, ("127.0.0.2", 0))
    hosts = room.file("hosts", "127.0.0.1 localhost\n127.0.0.2 ioc.test place.test\n")
    options = ("--search", f"place.test:{place.address[1]}", "--reconnect", "1")
    words = room.words(f"127.0.0.1:{own}", [f"ioc.test:{up.address[1]}"], options=options)
    server = Server(["unshare", "-m", "sh", "-c", HIDING, hosts, *words])
    room.started.append(server.kill)
    room.eventually("it listens", lambda: server.printed)
    server.address = ("127.0.0.1", own)
    client = room.client(server)
    for name, value in (("A", 1), ("S", 3)):
        channel = client.open(name)
        room.equal(name, channel and client.values(channel), [value])
    up.stop()
    room.eventually("it is lost", lambda: server.has_logged("WARN", "upstream 1", "lost"))
    moved, elsewhere = At(room, ("127.0.0.3", up.address[1]), [variable("A", values=[2])]), Answerer(room, make, ("127.0.0.3", place.address[1]))
    room.file("hosts", "127.0.0.1 localhost\n127.0.0.3 ioc.test place.test\n")
    channel = client.open("A")
    room.equal("it is found where it moved to", channel and client.values(channel), [2])
    room.check("under its number", server.has_logged("INFO", f"upstream 1 ({text_of(moved.address)}) connected"), server.logged)
    room.equal("with one connection", moved.count_clients(), 1)
    room.eventually("others are searched for there within a minute", lambda: client.search("T") or "T" in elsewhere.asked, 90)
    room.equal("quit", server.quit(), 0)
