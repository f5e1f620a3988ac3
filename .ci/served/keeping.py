"""What is kept of large messages, and what is laid out of a value that many ask for in different ways."""
import time

import ca_wire as ca
from ioc import Variable
from served.room import variable

MOST = 1 << 24  # the bytes of the longest payload
MANY, SUBSCRIPTIONS, ELEMENTS = 30, 300, 800_000


class Padded(Variable):
    """One whose properties come with bytes behind them that don't count, as many as there may be."""

    def payload(self, dtype, count):
        payload, count = super().payload(dtype, count)
        return (payload.ljust(MOST, b"\xee") if dtype >= ca.CTRL else payload), count


def padded(room):
    """A message keeps what counts of it, and not the block in which it came; nor does a value that came behind such a message."""
    names = [f"P{it}" for it in range(MANY)]
    up = room.upstream(*(Padded(it, ca.LONG, range(1_250)) for it in names))
    server = room.server(up)
    client = room.client(server)
    channels = [client.open(it) for it in names]
    before = server.resident()
    owns = [client.watch(it, ca.CTRL + ca.LONG) for it in channels]
    for it, own in zip(channels, owns):
        room.equal(f"properties and values of {it.name}", client.update(own), list(range(1_250)))
    for it in names:
        up.give(it, range(1, 1_251))
    for it, own in zip(channels, owns):
        room.equal(f"the next values of {it.name}", client.update(own), list(range(1, 1_251)))
    room.check("what doesn't count isn't kept", server.resident() < before + 120, f"{before:.0f} to {server.resident():.0f} MB")


def counted(room):
    """Subscriptions of different counts are told one by one, as their client takes what was told."""
    asked = [ELEMENTS - it for it in range(SUBSCRIPTIONS)]
    up = room.upstream(variable("A", ca.CHAR, [1], ELEMENTS))
    server = room.server(up, options=("--site",))
    client = room.client(server)
    channel = client.open("A")
    owns = []
    for count in asked:
        owns.append(client.watch(channel, count=count))
        client.answer(ca.EVENT_ADD, "p2", owns[-1])
    before, most = server.resident(), 0
    up.give("A", [2])
    other = room.client(server)
    room.wait(lambda: other.values(other.open("A"), count=1) == [2])
    time.sleep(0.5)
    most = server.resident()
    for own, count in zip(owns, asked):
        it = client.answer(ca.EVENT_ADD, "p2", own)
        room.check("each is told as many as it asked for", it.count == count and it.payload[:2] == b"\x02\0", it[:5])
        most = max(most, server.resident())
    room.check("a value more than may wait is laid out", most < before + 24, f"{before:.0f} to {most:.0f} MB")


def shared(room):
    """Clients that ask for two types in turn share both, though the values are large."""
    up = room.upstream(variable("A", ca.CHAR, [1], ELEMENTS))
    server = room.server(up)
    clients = [room.client(server) for _ in range(24)]
    owns = [it.watch(it.open("A"), (ca.STS, ca.CTRL)[at % 2] + ca.CHAR) for at, it in enumerate(clients)]
    for it, own in zip(clients, owns):
        room.equal("the first values", it.update(own)[:2], [1])
    before = server.resident()
    for value in range(2, 12):
        up.give("A", [value] + [0] * (ELEMENTS - 1))
    other = room.client(server)
    channel = other.open("A")
    room.eventually("all updates came", lambda: other.values(channel, count=1) == [11])
    room.check("240 payloads of 800 kB that wait are 20", server.resident() < before + 60, f"{before:.0f} to {server.resident():.0f} MB")
    for it, own in zip(clients, owns):
        room.check("the last values come", it.updates_until(own, [11] + [0] * (ELEMENTS - 1))[-1][:1] == [11])
