"""Which names servers are asked for, how often and in which datagrams, and how long datagrams of clients are answered."""
import socket
import threading
import time

import ca_wire as ca
from served.room import PATIENCE, variable

SEARCHES = 2729  # of a name of one letter, in the longest datagram


class Hearer:
    """A server of which nothing is known but what it is asked for, by UDP; it answers nothing."""

    def __init__(self, room):
        self.socket = socket.socket(socket.AF_INET, socket.SOCK_DGRAM)
        self.socket.bind(("127.0.0.1", 0))
        self.address = self.socket.getsockname()
        self.heard = []  # the time and the bytes of each datagram
        threading.Thread(target=self.hear, daemon=True).start()
        room.started.append(self.socket.close)

    def hear(self):
        while True:
            try:
                datagram = self.socket.recv(1 << 16)
            except OSError:
                return
            self.heard.append((time.monotonic(), datagram))

    def asks(self):
        """The time, the name and the CID of each ask."""
        return [(at, it.payload.rstrip(b"\0").decode(), it.p1) for at, datagram in list(self.heard)
                for it in ca.Frames().feed(datagram) if it.command == ca.SEARCH]

    def times(self, name):
        return [at for at, asked, _ in self.asks() if asked == name]


def asking(room):
    """All names that are wanted in few datagrams, and no more than ten times a second."""
    hearer = Hearer(room)
    server = room.server(hearer)
    client = room.client(server)
    client.search("T1")
    room.eventually("a name is asked for", lambda: hearer.heard)
    alone = bytes.fromhex("000000000000000d0000000000000000" "000600080005000d0000000100000001" "5431000000000000")
    room.equal("the bytes of one name's ask", hearer.heard[0][1], alone)
    names = [f"N{it:04}:{'X' * 24}" for it in range(60)]
    client.search(*reversed(names))
    room.eventually("all are asked for", lambda: {name for _, name, _ in hearer.asks()} == {"T1", *names})
    last = [ca.Frames().feed(it) for _, it in hearer.heard[1:]]
    room.equal("in order, and as many in a datagram as fit", [len(it) for it in last], [29, 29, 6])
    room.check("each begins with VERSION", all(it[0] == ca.Message(ca.VERSION, 0, ca.MINOR, 0, 0, b"") for it in last), last[0][0])
    asks = hearer.asks()[1:]
    room.equal("the names, in order", [name for _, name, _ in asks], [*names, "T1"])
    room.equal("under rising CIDs", [cid for _, _, cid in asks], list(range(2, 63)))
    at_once(room, hearer, client)
    room.equal("quit", server.quit(), 0)


def at_once(room, hearer, client):
    before = len(hearer.times("T1"))
    for it in range(20):
        client.search(f"LATER{it}")
        time.sleep(0.005)
    room.eventually("the last of them is asked for", lambda: hearer.times("LATER19"))
    times = len(hearer.times("T1")) - before
    spent = hearer.times("LATER19")[0] - hearer.times("LATER0")[0]
    room.check("datagrams that come together are one asking", times <= 2 + spent / 0.1, f"{times} in {spent:.3f} s")


def gaps(hearer, name, since):
    times = [at for at in hearer.times(name) if at > since]
    return [later - at for at, later in zip(times, times[1:])]


def backing_off(room):
    """Dead names are asked for more and more seldom, and live ones at once."""
    hearer, up, late = Hearer(room), room.upstream(variable("V", values=[1]), variable("W", values=[1])), room.upstream(variable("LATE", values=[1]))
    late.stop()
    server = room.server(hearer, up, late, options=("--back-off", "--log", "debug"))
    client = room.client(server)
    room.eventually("a server is there", lambda: server.has_logged("upstream 2", "connected"))
    time.sleep(0.2)
    until = time.monotonic() + 4
    while time.monotonic() < until:
        client.search("DEAD", "DEAD:TOO")
        time.sleep(0.05)
    for name in ("DEAD", "DEAD:TOO"):
        times = len(hearer.times(name))
        room.check(f"{name} is asked for at most 8 times in 4 s, and at least 4 times", 4 <= times <= 8, times)
    room.check("both in one datagram", len(hearer.heard) <= 10, len(hearer.heard))
    room.check("a live name is found", client.found("V", PATIENCE) is not None)
    times = len(hearer.times("V"))
    room.check("after few asks", times <= 6, times)
    room.check("it has a channel", client.open("V") is not None)
    time.sleep(1)
    room.equal("one that has a link is asked for no more", len(hearer.times("V")), times)
    asked_soon(room, hearer, "a line `ask`", lambda: server.write("ask"))
    late.start()
    asked_soon(room, hearer, "a server that connects", lambda: server.write("connect 3"))
    over_tcp(room, hearer, server, client)
    room.equal("quit", server.quit(), 0)


def asked_soon(room, hearer, label, act):
    """A name that is asked for every two seconds or less often is asked for twice within seven tenths of a second."""
    room.eventually("a long gap", lambda: gaps(hearer, "DEAD", 0)[-1] > 1.5)
    since = time.monotonic()
    act()
    room.eventually(f"{label} has it asked for soon", lambda: any(gap < 0.7 for gap in gaps(hearer, "DEAD", since)))


def over_tcp(room, hearer, server, client):
    """What is looked for over TCP alone is asked for too, until a sweep."""
    room.check("a name over TCP isn't there", client.try_open("OVER:TCP") is None)
    room.eventually("it is asked for", lambda: hearer.times("OVER:TCP"))
    server.write("sweep")
    room.eventually("a sweep", lambda: server.has_logged("swept"))
    counts = len(hearer.times("DEAD"))
    time.sleep(3)
    room.check("what was swept is asked for no more", len(hearer.times("DEAD")) <= counts + 1)


def leading(room):
    """With --back-off a name that leads to another one is asked for under that."""
    hearer, up = Hearer(room), room.upstream(variable("REAL", values=[5]))
    server = room.server(hearer, up, rules="OTHER ALIAS REAL\nTHIRD DENY\n", options=("--site",))
    client = room.client(server)
    client.search("THIRD")
    room.check("it is found", client.found("OTHER", PATIENCE) is not None)
    channel = client.open("OTHER")
    room.equal("its value", channel and client.values(channel), [5])
    room.equal("the other name was asked for, and no other", {name for _, name, _ in hearer.asks()}, {"REAL"})
    room.file("rules", "OTHER ALIAS REAL2\n")
    server.write("reload")
    room.check("its channel goes", client.take(lambda it: it.command == ca.SERVER_DISCONN and it.p1 == channel.cid) is not None)
    client.search("OTHER")
    room.eventually("the new one is asked for", lambda: hearer.times("REAL2"))
    room.equal("quit", server.quit(), 0)


def answering(room):
    """A datagram with many names gets one reply, and the longest one as few as hold it."""
    names = [f"V{it:02}" for it in range(40)]
    up = room.upstream(variable("V", values=[1]), *(variable(name, values=[1]) for name in names))
    server = room.server(up)
    client = room.client(server)
    room.check("all have channels", all(client.open(name) for name in ("V", *names)))
    while client.replies(0.3):
        pass
    client.search(*names)
    replies = client.replies(PATIENCE)
    room.equal("each is answered, in order", [it.p2 for it in replies[1:]], list(range(1, 41)))
    room.check("by one datagram", replies[0].command == ca.VERSION and client.replies(0.3) is None)
    client.asker.sendto(b"".join(ca.search("V", it) for it in range(SEARCHES)), server.address)
    found = []
    while len(found) < SEARCHES and (replies := client.replies(5)):
        found += [it.p2 for it in replies if it.command == ca.SEARCH]
    room.equal("the longest datagram is answered", found, list(range(SEARCHES)))
    room.equal("quit", server.quit(), 0)


def clashing(room):
    """Two servers that have one name are told of once."""
    one, other = (room.upstream(variable("BOTH", values=[1])) for _ in range(2))
    server = room.server(one, other)
    client = room.client(server)

    def told():
        return [line for line in list(server.logged) if "BOTH" in line]
    for times in range(2):
        channel = client.open("BOTH")
        room.check("it is served", channel is not None)
        room.eventually("that both have it is logged", told)
        for up in (one, other):
            up.disconnect("BOTH")
        gone = client.take(lambda it: it.command == ca.SERVER_DISCONN and it.p1 == channel.cid)
        room.check(f"it goes, {times}", gone is not None)
    room.check("served again", client.open("BOTH") is not None and client.echo())
    room.equal("once", len(told()), 1)
    both = ["[WARN  pvgate] upstreams {} and {} both have BOTH: the first that answers serves it".format(*it) for it in ((1, 2), (2, 1))]
    room.check("as a warning, with both numbers", told() and told()[0] in both, told())
    room.equal("quit", server.quit(), 0)


def own_port(room):
    """On a site servers are asked from a port of its own, on which nobody but they is heard."""
    for options in ((), ("--site",)):
        up = room.upstream(variable("V", values=[3]), variable("W", values=[4]))
        asked = []
        up.answer = lambda searches=up.searches: asked.append(searches.recvfrom(1 << 16))
        server = room.server(up, options=options)
        client = room.client(server)
        client.search("V", "W")
        room.eventually("the server is asked", lambda: asked)
        datagram, sender = asked[0]
        room.equal(f"from LISTEN's port, {options}", sender == server.address, not options)
        cids = [it.p1 for it in ca.Frames().feed(datagram) if it.command == ca.SEARCH]
        head = ca.message(ca.VERSION, count=ca.MINOR)
        replies = [head + ca.found(up.address[1], it) for it in cids]
        with socket.socket(socket.AF_INET, socket.SOCK_DGRAM) as stranger:
            stranger.sendto(b"".join(replies), sender)
            time.sleep(0.5)
        room.check("what another port answers isn't heard", len(up.channels) == 0, up.channels)
        up.searches.sendto(replies[0], sender)
        channel = client.open("V")
        room.equal("what the server answers is", channel and client.values(channel), [3])
        up.searches.sendto(replies[1], server.address)
        channel = client.open("W")
        room.equal("on LISTEN too", channel and client.values(channel), [4])
        room.equal("quit", server.quit(), 0)
