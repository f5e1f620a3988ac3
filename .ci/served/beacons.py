"""Beacons: those that the gateway sends, by which clients know that it is there and that servers came back, and those of servers."""
import socket
import struct
import threading
import time

import ca_wire as ca
from served.asking import Hearer
from served.found import Answerer, reply
from served.room import free_port, text_of, variable

BEACON = 13
CONFIRM = 17
REPEATER = 5065


class Ear:
    """Keeps the datagrams that come to an address, each with its time and its sender."""

    def __init__(self, room, address=("127.0.0.1", 0)):
        self.heard = []
        self.socket = socket.socket(socket.AF_INET, socket.SOCK_DGRAM)
        self.socket.bind(address)
        self.address = self.socket.getsockname()
        threading.Thread(target=self.listen, daemon=True).start()
        room.started.append(self.socket.close)

    def listen(self):
        while True:
            try:
                datagram, sender = self.socket.recvfrom(1 << 16)
            except OSError:
                return
            self.heard.append((time.monotonic(), datagram, sender))

    def gaps(self, first=0):
        """The milliseconds between beacons, from one on."""
        times = [at for at, _, _ in list(self.heard)[first:]]
        return [1000 * (b - a) for a, b in zip(times, times[1:])]

    def has_small(self, first):
        """Whether three gaps in a row, from a beacon on, begin anew."""
        gaps = self.gaps(first)
        return any(max(gaps[at:at + 3]) < 300 for at in range(len(gaps) - 2))


def times_of(server, *words):
    """How often it was logged."""
    return len([line for line in list(server.logged) if all(word in line for word in words)])


def come_back(room, server, up, number):
    """A server goes and comes back."""
    before = times_of(server, f"upstream {number}", "connected")
    up.stop()
    room.eventually("it is lost", lambda: server.has_logged("WARN", f"upstream {number}", "lost"))
    up.start()
    room.eventually("it is connected to again", lambda: times_of(server, f"upstream {number}", "connected") > before)


def beaconing(room):
    """Gaps and IDs of beacons, and what a server does to them that comes back."""
    up, other = room.upstream(variable("A", values=[1])), room.upstream(variable("B", values=[2]))
    near, far = Ear(room), Ear(room, ("127.255.255.255", 0))
    server = room.server(up, other, options=("--beacons", text_of(near.address), "--beacons", text_of(far.address), "--reconnect", "1"))
    client = room.client(server)
    channel = client.open("A")
    room.equal("a name is found", channel and client.values(channel), [1])
    room.eventually("seven beacons come", lambda: len(near.heard) >= 7 and len(far.heard) >= 7)
    for ear in (near, far):
        room.equal("each has the next ID", [it for _, it, _ in ear.heard[:7]],
                   [struct.pack(">HHHHII", BEACON, 0, ca.MINOR, server.address[1], number, 0) for number in range(7)])
        room.equal("each comes from LISTEN", {sender for _, _, sender in ear.heard}, {server.address})
    wanted = [20 * 2 ** at for at in range(6)]
    # The first three may be late themselves, where the machine does other things: so the next one seems early.
    room.check("the gaps grow", all(gap > least - 100 for gap, least in zip(near.gaps(), wanted)) and near.gaps()[5] > 500, near.gaps())
    count = len(near.heard)
    come_back(room, server, other, 2)
    room.check("a server without names changes nothing", not near.has_small(count - 1), near.gaps())
    count = len(near.heard)
    come_back(room, server, up, 1)
    room.eventually("gaps are small again", lambda: near.has_small(count - 1))
    room.eventually("and grow again", lambda: near.gaps()[-1] > 500)
    count = len(near.heard)
    come_back(room, server, up, 1)
    time.sleep(1)
    room.check("they aren't small twice in a minute", not near.has_small(count - 1), near.gaps())
    room.equal("IDs go on", [struct.unpack(">I", it[8:12])[0] for _, it, _ in near.heard], list(range(len(near.heard))))
    room.equal("quit", server.quit(), 0)


def beaconing_found(room):
    """A server that was left, as nobody needed it, doesn't come back when it is found again; one that is found elsewhere does."""
    ups, ear = [room.upstream(variable(name, values=[value])) for name, value in (("A", 1), ("B", 2))], Ear(room)
    place = Answerer(room, lambda cid, name: [reply(cid, up.address[1]) for up in ups if name in up.variables])
    server = room.server(options=("--search", text_of(place.address), "--idle", "2", "--forget", "1", "--beacons", text_of(ear.address)))
    client, other = room.client(server), room.client(server)
    for it, name, value in ((client, "A", 1), (other, "B", 2)):
        room.equal(name, it.values(it.open(name)), [value])
    other.close()
    room.eventually("one is left", lambda: server.has_logged("INFO", "nobody wanted a variable of it for 2 s"))
    room.eventually("gaps are long", lambda: ear.gaps()[-1:] and ear.gaps()[-1] > 1000)
    count = len(ear.heard)
    room.equal("it is found again", client.values(client.open("B")), [2])
    time.sleep(1)
    room.check("that changes nothing", not ear.has_small(count - 1), ear.gaps())
    ups[0].stop()
    room.eventually("the other is lost", lambda: server.has_logged("WARN", "found by search, lost"))
    ups[0].address = ("127.0.0.1", free_port())
    ups[0].start()
    room.equal("it is found at another port", client.values(client.open("A")), [1])
    room.eventually("gaps are small again", lambda: ear.has_small(count - 1))
    room.equal("quit", server.quit(), 0)


class Repeater:
    """Stands in for the repeater of this host; where there is one already, beacons are given to that."""

    def __init__(self, room):
        self.clients, self.asked = [], 0
        self.socket = socket.socket(socket.AF_INET, socket.SOCK_DGRAM)
        try:
            self.socket.bind(("127.0.0.1", REPEATER))
            threading.Thread(target=self.confirm, daemon=True).start()
        except OSError:
            self.clients.append(("127.0.0.1", REPEATER))
        room.started.append(self.socket.close)

    def stop(self):
        try:
            self.socket.shutdown(socket.SHUT_RDWR)  # which wakes whoever receives there
        except OSError:
            pass
        self.socket.close()

    def confirm(self):
        while True:
            try:
                datagram, sender = self.socket.recvfrom(1 << 16)
            except OSError:
                return
            if not sender or not sender[1]:
                return
            if not datagram:
                self.asked += 1
                self.clients += [sender] * (sender not in self.clients)
                self.socket.sendto(struct.pack(">HHHHII", CONFIRM, 0, 0, 0, 0, 0x7F000001), sender)

    def tell(self, port, number, host=0x0A000007):
        """A server at this host and port sends the beacon of this ID."""
        for client in self.clients:
            self.socket.sendto(struct.pack(">HHHHII", BEACON, 0, ca.MINOR, port, number, host), client)


def hearing(room):
    """A beacon of a server that is new, or began anew, has names asked for sooner: at once those that a server had."""
    repeater, hearer, up = Repeater(room), Hearer(room), room.upstream(variable("A", values=[1]))
    server = room.server(options=("--search", text_of(hearer.address), "--search", text_of(up.address), "--from", "10.0.0.0/8", "--from", "127.0.0.0/8", "--hear-beacons"))
    room.eventually("it asks the repeater", lambda: repeater.clients)
    client = room.client(server)
    channel = client.open("A")
    room.equal("a name is found", channel and client.values(channel), [1])
    up.stop()
    client.search("DEAD")
    # Both are asked for after 0.5, 1, 2, 4 and 8 seconds, and next after 16 more.
    room.eventually("it is lost", lambda: server.has_logged("WARN", "upstream 1", "lost"))
    room.eventually("a dead one is asked for six times", lambda: len(hearer.times("DEAD")) >= 6)
    last, lost = hearer.times("DEAD")[5], len(hearer.times("A"))
    repeater.tell(5064, 3)
    room.eventually("the one that is lost is asked for", lambda: len(hearer.times("A")) > lost)
    room.check("at once", hearer.times("A")[lost] - last < 4, hearer.times("A")[lost] - last)
    room.eventually("the dead one is asked for", lambda: len(hearer.times("DEAD")) >= 7)
    room.check("within 8.2 seconds", hearer.times("DEAD")[6] - last < 12, hearer.times("DEAD")[6] - last)
    for number, news, host in ((4, False, 0x0A000007), (1, False, 0x0B000007), (2, True, 0x0A000007)):
        room.wait(lambda: time.monotonic() - hearer.times("A")[-1] > 1)
        lost = len(hearer.times("A"))
        repeater.tell(5064, number, host)
        room.equal(f"beacon {number}", room.wait(lambda: len(hearer.times("A")) > lost, 2), news)
    if repeater.asked:
        leaving_repeater(room, repeater, hearer)
    room.equal("quit", server.quit(), 0)


def is_free(port):
    with socket.socket(socket.AF_INET, socket.SOCK_DGRAM) as own:
        try:
            own.bind(("127.0.0.1", port))
            return True
        except OSError:
            return False


def leaving_repeater(room, repeater, hearer):
    """The repeater is asked again each minute: when it has gone beacons are heard in its place, which is let go after another one."""
    room.equal("it has one client", len(repeater.clients), 1)
    repeater.stop()
    room.eventually("its port is taken within a minute", lambda: not is_free(REPEATER), 90)
    room.wait(lambda: time.monotonic() - hearer.times("A")[-1] > 1)
    lost = len(hearer.times("A"))
    with socket.socket(socket.AF_INET, socket.SOCK_DGRAM) as own:
        own.sendto(struct.pack(">HHHHII", BEACON, 0, ca.MINOR, 5064, 0, 0x0A000007), ("127.0.0.1", REPEATER))
    room.eventually("a beacon is heard there", lambda: len(hearer.times("A")) > lost, 4)
    room.eventually("it is let go", lambda: is_free(REPEATER), 90)
