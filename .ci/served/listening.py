"""Several addresses on which clients are served."""
import socket
import struct

import ca_wire as ca
from served.beacons import Ear
from served.found import gateway
from served.room import free_port, text_of, variable


def reply_to(name, address, source="127.0.0.1"):
    """Where the reply to a search comes from, and which port it names."""
    with socket.socket(socket.AF_INET, socket.SOCK_DGRAM) as own:
        own.setsockopt(socket.SOL_SOCKET, socket.SO_BROADCAST, 1)
        own.bind((source, 0))
        own.settimeout(30)
        own.sendto(ca.message(ca.VERSION, count=ca.MINOR) + ca.search(name, 7) + ca.search("NONE", 8), address)
        datagram, sender = own.recvfrom(1 << 16)
    return sender, [(it.dtype, it.p2) for it in ca.Frames().feed(datagram) if it.command == ca.SEARCH]


def listening(room):
    """Two addresses with ports of their own, and a net's broadcasts."""
    up, ear = room.upstream(variable("A", values=[1])), Ear(room)
    one, two = ("127.0.0.1", free_port()), ("127.0.0.2", free_port())
    net = ("127.255.255.255", one[1])
    server = gateway(room, text_of(one), text_of(up.address), *(word for it in (two, net) for word in ("--listen", text_of(it))),
                     "--late", "--beacons", text_of(ear.address))
    room.eventually("each address is told", lambda: server.printed == [f"listening {text_of(it)}" for it in (one, two, net)])
    for address in (one, two):
        server.address = address
        client = room.client(server)
        channel = client.open("A")
        room.equal(f"a channel at {address[0]}", channel and client.values(channel), [1])
        room.equal(f"a search at {address[0]}", reply_to("A", address), (address, [(address[1], 7)]))
    room.equal("one that is broadcast", reply_to("A", net), (one, [(one[1], 7)]))
    up.stop()
    room.eventually("it is lost", lambda: server.has_logged("WARN", "upstream 1", "lost"))
    with socket.socket(socket.AF_INET, socket.SOCK_DGRAM) as late:
        late.settimeout(30)
        late.bind(("127.0.0.1", 0))
        late.sendto(ca.message(ca.VERSION, count=ca.MINOR) + ca.search("A", 9), two)
        up.start()
        server.write("connect 1", "ask")
        until = room.wait(lambda: server.has_logged("INFO", "upstream 1", "connected"), 5)
        server.write("ask")
        datagram, sender = late.recvfrom(1 << 16)
    room.equal("late, from there too", (until, sender, [(it.dtype, it.p2) for it in ca.Frames().feed(datagram) if it.command == ca.SEARCH]), (True, two, [(two[1], 9)]))
    room.eventually("beacons of each port", lambda: {one[1], two[1]} <= {struct.unpack(">H", it[6:8])[0] for _, it, _ in list(ear.heard)})
    room.equal("quit", server.quit(), 0)


def listening_broadcast(room):
    """Addresses that aren't the first of their interface, beside its broadcasts: what is said for these comes from there. Servers may be
    searched for by the same broadcasts."""
    up, ear = room.upstream(variable("A", values=[1])), Ear(room)
    places = [("127.0.0.2", free_port()), ("127.0.0.3", free_port())]
    nets = [("127.255.255.255", port) for _, port in places]
    listens = [word for it in (nets[0], *places[1:], nets[1]) for word in ("--listen", text_of(it))]
    server = gateway(room, text_of(places[0]), text_of(up.address), *listens, "--beacons", text_of(ear.address), "--search", text_of(nets[0]))
    server.address = places[0]
    client = room.client(server)
    room.check("a channel", client.open("A"))
    for place, net in zip(places, nets):
        room.equal(f"a search that is broadcast to {net[1]}", reply_to("A", net), (place, [(place[1], 7)]))
        room.equal(f"one at {place[0]}", reply_to("A", place), (place, [(place[1], 7)]))
    room.eventually("beacons come from each", lambda: {sender for _, _, sender in list(ear.heard)} >= set(places))
    room.equal("and from nowhere else", {sender for _, _, sender in list(ear.heard)}, set(places))
    room.equal("quit", server.quit(), 0)
