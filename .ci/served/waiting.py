"""How much waits for a client that doesn't read: too much of a large array cuts it off, small values are held back before."""
import json
import time

import ca_wire as ca
from served.crowds import Flood
from served.reports import told
from served.room import PATIENCE, free_port, text_of, variable

LARGE = 12_500  # elements of 4 bytes
SMALL = 20
GIVEN = 5_000  # values, each told 50 times: more than the system's buffers take


def told_of(server, client, *words):
    return server.has_logged(f"127.0.0.1:{client.socket.getsockname()[1]})", *words)


def waiting_too_much(room):
    """Of two clients of a large array the one that never reads is cut off, and the other gets every value."""
    up = room.upstream(variable("V", values=[0] * LARGE))
    server = room.server(up, options=["--most-waiting", "1"])
    reader, lazy = room.client(server), room.client(server)
    asleep, own = lazy.open("V"), reader.watch(reader.open("V"))
    room.equal("subscribed", reader.update(own), [0] * LARGE)
    lazy.watch(asleep)
    value, missed, until = 0, 0, time.monotonic() + PATIENCE
    while not told_of(server, lazy, "more than 1 MiB waited for it") and time.monotonic() < until:
        value += 1
        up.give("V", [value] * LARGE)
        missed += reader.update(own) != [value] * LARGE
    room.check("a client for which more than 1 MiB waits is cut off", told_of(server, lazy, "cut off: more than 1 MiB waited for it"))
    room.equal("who reads gets each value", missed, 0)
    room.check("the memory of both", server.resident() < 150, f"{server.resident():.0f} MB")
    lazy.take(lambda _: False)
    room.check("its connection is closed", lazy.ended)
    up.give("V", [-1] * LARGE)
    room.equal("the reader goes on", reader.update(own), [-1] * LARGE)
    room.check("and isn't cut off", reader.echo() and not told_of(server, reader, "cut off"))
    room.equal("quit", server.quit(), 0)


def waiting_in_all(room):
    """Of sixteen clients that never read as few are cut off as leave 8 MiB that wait for all; others stay."""
    up = room.upstream(variable("V", values=[0] * LARGE), variable("W", values=[0]))
    address = ("127.0.0.1", free_port())
    server = room.server(up, options=["--site", "--most-in-all", "8", "--status", text_of(address)])
    reader, little = room.client(server), room.client(server)
    own = reader.watch(reader.open("V"))
    room.equal("subscribed", reader.update(own), [0] * LARGE)
    little.watch(little.open("W"))
    lazy = [room.client(server) for _ in range(16)]
    for client in lazy:
        client.watch(client.open("V"))
    value, missed, more, until = 0, 0, 60, time.monotonic() + PATIENCE
    while more and time.monotonic() < until:
        value += 1
        up.give("V", [value] * LARGE), up.give("W", [value])
        missed += reader.update(own) != [value] * LARGE
        more -= in_all(address)["met"] > 0
    room.equal("values went on after the first was cut off", more, 0)
    room.equal("who reads gets each value", missed, 0)
    time.sleep(1)  # a few looks at all connections
    found = in_all(address)
    room.check("what is left may wait", found["used"] <= found["most"] == 8 << 20, found)
    room.check("some are cut off, and not all", 1 <= found["met"] < len(lazy), found)
    room.check("as few as will do", found["used"] > 4 << 20, found)
    room.eventually("each is told of", lambda: cut_for_all(server) == found["met"])
    room.check("the memory of all", server.resident() < 150, f"{server.resident():.0f} MB")
    room.check("who reads, and for whom little waits, go on", reader.echo() and little.echo())
    room.check("and aren't cut off", not any(told_of(server, it, "cut off") for it in (reader, little)))
    room.equal("quit", server.quit(), 0)


def in_all(address):
    return json.loads(told(address))["limits"]["bytes_of_all_clients"]


def cut_for_all(server):
    return sum("cut off: " in it and " bytes waited for it, and more than 8 MiB for all clients" in it and "WARN" in it for it in list(server.logged))


def waiting_little(room):
    """A client that doesn't read small values isn't cut off; once it reads, it gets the last one."""
    up = room.upstream(variable("V", values=[0] * SMALL))
    server = room.server(up, options=["--most-waiting", "1"])
    reader, lazy = room.client(server), room.client(server)
    own, asleep = reader.watch(reader.open("V")), lazy.open("V")
    many = [lazy.watch(asleep) for _ in range(50)]
    flood = Flood(up, "V", SMALL)
    room.eventually("values come", lambda: flood.value >= GIVEN)
    flood.stop()
    up.give("V", [-1] * SMALL)
    room.equal("who reads has the last", reader.updates_until(own, [-1] * SMALL)[-1], [-1] * SMALL)
    time.sleep(1)  # a few looks at all connections
    room.check("who doesn't isn't cut off", not told_of(server, lazy, "cut off"))
    seen = updates_until_last(lazy, len(many))
    room.check("and gets the last, and not all before", seen is not None and seen < len(many) * flood.value, f"{seen} of {len(many) * flood.value}")
    room.check("it goes on", lazy.echo() and not told_of(server, lazy, "cut off"))
    room.equal("quit", server.quit(), 0)


def updates_until_last(client, many):
    """How many updates came, until each of so many subscriptions got -1; None where they don't come."""
    seen, last, until = 0, 0, time.monotonic() + PATIENCE
    while last < many:
        if client.ended or time.monotonic() > until:
            return None
        client.fill(1)
        updates = [it for it in client.inbox if it.command == ca.EVENT_ADD]
        client.inbox = [it for it in client.inbox if it.command != ca.EVENT_ADD]
        seen += len(updates)
        last += sum(it.payload[:4] == b"\xff\xff\xff\xff" for it in updates)
    return seen
