"""Clients that search on their connections."""
import time

import ca_wire as ca
from served.room import variable

QUIET = 1.5  # seconds in which nothing may come

RULES = ".* ALLOW\nSHOWN:\\(.*\\) ALIAS \\1\nB DENY FROM desk2\nC DENY FROM 127.0.0.1\n"


def seek(client, *sought):
    client.send(b"".join(ca.search(name, cid) for name, cid in sought))


def answers(client, count, seconds=None):
    """So many SEARCH replies, by their CIDs, and the ports that they tell."""
    came = [client.take(lambda it: it.command == ca.SEARCH, seconds) for _ in range(count)]
    return sorted((it.p2, it.dtype, it.p1, it.count, it.payload) if it else None for it in came)


def served(server, *cids):
    return sorted((cid, server.address[1], 0xFFFFFFFF, 0, b"\0\x0d" + bytes(6)) for cid in cids)


def answer(client, seconds):
    """A SEARCH reply, if one comes."""
    try:
        return client.take(lambda it: it.command == ca.SEARCH, seconds)
    except TimeoutError:
        return None


def quiet(client):
    """Whether no SEARCH reply comes, though an ECHO comes back."""
    return client.echo() and answer(client, QUIET) is None


def seeking(room):
    """With --site names are answered for on the connection: late where they have to be found first, then at once."""
    up = room.upstream(variable("A", values=[1]), variable("B", values=[2]), variable("C", values=[3]))
    server = room.server(up, options=["--site"], rules=RULES)
    client, other = room.client(server), room.client(server, host="desk2")
    seek(client, ("A", 17))
    room.equal("a name that wasn't sought before is answered late", answers(client, 1), served(server, 17))
    channel = client.open("A")
    room.equal("and served", channel and client.values(channel), [1])
    seek(client, ("A", 18), ("SHOWN:A", 19))
    room.equal("one that is connected, and one that leads to it, at once", answers(client, 2), served(server, 18, 19))
    seek(client, ("NOWHERE", 20))
    room.check("a name that nobody has is met with silence", quiet(client))
    seek(other, ("B", 17))
    room.check("so is one that the rules refuse to the host that the client says", quiet(other))
    seek(client, ("B", 21))
    room.equal("for another host it is answered", answers(client, 1), served(server, 21))
    seek(other, ("B", 18))
    room.check("and still not for the first", quiet(other))
    seek(client, ("C", 22))
    room.check("HOST_NAME counts, not the address: the answer isn't late, where the address is refused", quiet(client))
    seek(client, ("C", 23))
    room.equal("but comes with the next search", answers(client, 1), served(server, 23))
    client.send(ca.message(ca.SEARCH, b"NONULEND", 5, ca.MINOR, 24, 24))
    room.equal("a name without an end isn't understood", client.error(), 142)
    many = [(f"SHOWN:{name}", 100 + at) for at, name in enumerate("AB" * 500)]
    seek(client, *many)
    room.equal("a thousand at once", answers(client, len(many)), served(server, *(cid for _, cid in many)))
    room.equal("quit", server.quit(), 0)


def seeking_lost(room):
    """Who seeks a name while its server is away is answered within a second of its return."""
    up = room.upstream(variable("A", values=[1]))
    server = room.server(up, options=["--site", "--reconnect", "1"])
    client = room.client(server)
    room.check("it is served", client.open("A"))
    up.stop()
    room.eventually("the server is lost", lambda: server.has_logged("upstream 1", "lost"))
    seek(client, ("A", 31))
    room.check("nothing comes meanwhile", quiet(client))
    up.start()
    until, came = time.monotonic() + 60, None
    while came is None and time.monotonic() < until:
        seek(client, ("A", 32))
        came = answer(client, 1)
    room.check("it is answered again", came and came.p2 in (31, 32), came)
    room.equal("quit", server.quit(), 0)


def seeking_left(room):
    """Who comes when a client has gone, and has its number, gets no answer to what that one sought."""
    up = room.upstream(variable("A", values=[1]), variable("B", values=[2]))
    server = room.server(up, options=["--site"])
    room.check("it is served", room.client(server).open("B"))
    up.stop()
    room.eventually("the server is lost", lambda: server.has_logged("upstream 1", "lost"))
    first = room.client(server)
    seek(first, ("A", 41), ("B", 42))
    room.check("nothing comes", first.echo())
    first.close()
    room.eventually("it is gone", lambda: server.has_logged("client 2 ", "gone"))
    second = room.client(server)
    room.check("another one has its number", second.echo() and sum("client 2 " in it and it.endswith(" connected") for it in server.logged) == 2)
    up.start()
    server.write("connect 1")
    room.eventually("the server comes", lambda: sum("upstream 1 " in it and it.endswith(" connected") for it in server.logged) == 2)
    other = room.client(server)
    room.equal("its names are served", [bool(other.open(name)) for name in "AB"], [True, True])
    room.check("nothing comes to the other one", quiet(second))
    room.equal("quit", server.quit(), 0)


def seeking_in_vain(room):
    """Without --site a search on a connection isn't understood, and nobody is asked for the name."""
    up = room.upstream(variable("A", values=[1]))
    server = room.server(up)
    client = room.client(server)
    seek(client, ("A", 17))
    room.equal("it isn't understood", client.error(), 142)
    room.check("nor answered", quiet(client))
    room.equal("quit", server.quit(), 0)
