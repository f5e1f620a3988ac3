"""Bytes that are no messages, connections half closed or cut, and datagrams of every kind."""
import os
import random
import socket
import struct
import subprocess
import time

import ca_wire as ca
from served.room import variable


def damaged(room):
    up = room.upstream(variable("V", values=[1]))
    server = room.server(up)
    good = room.client(server)
    channel = good.open("V")
    own = good.watch(channel)
    room.equal("subscribed", good.update(own), [1])
    files = server.files()
    faulty_streams(room, server)
    cut_streams(room, server)
    half_closed(room, server)
    datagrams(room, server, good)
    three_searches(room, server)
    from_the_server(room, up, server, good, channel)
    up.give("V", [2])
    room.equal("the client that was there saw nothing of it", good.updates_until(own, [2]), [[1], [2]])
    room.eventually("all descriptors are back", lambda: server.files() <= files)
    room.check("the server is idle", good.echo() and server.process.poll() is None)
    room.equal("quit", server.quit(), 0)


def faulty_streams(room, server):
    """A framing fault, or too old a version, ends the connection and that alone."""
    for label, word, data in (
            ("a size of 5", "8", struct.pack(">HHHHII", 23, 5, 0, 0, 0, 0)),
            ("a size of FFFF with a count", "8", struct.pack(">HHHHII", 23, 0xFFFF, 0, 5, 0, 0)),
            ("an extended size that is no multiple of 8", "8", struct.pack(">HHHHIIII", 23, 0xFFFF, 0, 0, 0, 0, 12, 1)),
            ("an extended size over the limit", "16777216", struct.pack(">HHHHIIII", 23, 0xFFFF, 0, 0, 0, 0, 16_777_224, 1)),
            ("version 8", "version", ca.message(ca.VERSION, count=8))):
        client = room.client(server)
        room.check(f"before {label}", client.echo())
        port = client.socket.getsockname()[1]
        client.send(data, ca.message(ca.ECHO))
        room.check(f"{label} ends the connection", client.take(lambda it: it.command in (ca.ECHO, ca.ERROR)) is None)
        room.eventually(f"{label} is logged", lambda: server.has_logged(f"127.0.0.1:{port})", "cut off", word))
        client.close()


def cut_streams(room, server):
    """Random bytes, messages cut anywhere, and connections that are reset."""
    chance = random.Random(7)
    whole = ca.greeting() + ca.create("V", 1) + ca.message(ca.ECHO, bytes(64)) + ca.subscribe(1, 2, ca.LONG)
    for turn in range(60):
        data = chance.randbytes(chance.randrange(1, 2000)) if turn % 3 == 0 else whole[:chance.randrange(1, len(whole))]
        if turn % 3 == 1:
            place = chance.randrange(len(data))
            data = data[:place] + bytes([data[place] ^ 1 << chance.randrange(8)]) + data[place + 1:]
        with socket.create_connection(server.address, timeout=30) as link:
            if turn % 2:
                link.setsockopt(socket.SOL_SOCKET, socket.SO_LINGER, struct.pack("ii", 1, 0))
            try:
                link.sendall(data)
            except ConnectionError:
                pass
    client = room.client(server)
    for byte in ca.message(ca.ECHO, b"12345678"):
        client.send(bytes([byte]))
        time.sleep(0.001)
    room.equal("an ECHO cut after each byte", client.take(lambda it: it.command == ca.ECHO).payload, b"12345678")
    client.send(struct.pack(">HHHHIIII", ca.ECHO, 0xFFFF, 0, 0, 0, 0, 0, 0))
    room.equal("an ECHO in extended form", client.take(lambda it: it.command == ca.ECHO), ca.Message(ca.ECHO, 0, 0, 0, 0, b""))
    client.close()


def half_closed(room, server):
    """A client that ends its sending is a client that is gone."""
    client = room.client(server)
    room.check("before it ends its sending", client.echo())
    client.socket.shutdown(socket.SHUT_WR)
    room.check("the other half is closed too", client.take(lambda _: False) is None)
    client.close()


def datagrams(room, server, good):
    chance = random.Random(9)
    with socket.socket(socket.AF_INET, socket.SOCK_DGRAM) as sender:
        whole = ca.message(ca.VERSION, count=ca.MINOR) + ca.search("V", 3)
        for data in (b"", b"\0", whole[:20], whole[:-1], bytes(65_507), struct.pack(">HHHHII", 6, 5, 0, 0, 0, 0) + ca.search("V", 4),
                     ca.message(ca.SEARCH, b"no nul!!", 5, 13, 5, 5), ca.message(ca.SEARCH, b"\0", 5, 13, 5, 5), ca.found(1, 1) * 100,
                     *(chance.randbytes(chance.randrange(1, 600)) for _ in range(200))):
            sender.sendto(data, server.address)
    room.check("the datagrams are over", bool(good.found("V", 60)))
    many = 2700
    good.asker.setsockopt(socket.SOL_SOCKET, socket.SO_RCVBUF, 1 << 20)
    room.wait(lambda: good.replies(0.3) is None)
    good.asker.sendto(b"".join(ca.search("V", it) for it in range(many)), server.address)
    replies = good.replies(60)
    room.check("a reply to 2,700 searches", replies is not None and [it.p2 for it in replies[1:]] == list(range(many)))


# A gateway that serves V once it is searched for, as a script.
SERVING = f"""open u1
server u1 {ca.message(ca.VERSION, count=ca.MINOR).hex()}
search 10.0.0.9 {ca.search("V", 1).hex()}
found V u1
server u1 {(ca.message(ca.ACCESS_RIGHTS, p1=1, p2=3) + ca.message(ca.CREATE_CHAN, b"", ca.LONG, 1, 1, 1)).hex()}
"""


def replayed(room, datagrams):
    """What a script's gateway replies to each of them; its port is 5064."""
    lines = "".join(f"search 10.0.0.9 {it.hex() or '-'}\n" for it in datagrams)
    ran = subprocess.run([room.program, "replay"], input=(SERVING + lines).encode(), capture_output=True, check=True)
    return [ca.Frames().feed(bytes.fromhex(it.split(b" ")[1].decode().replace("-", "")))
            for it in ran.stdout.splitlines() if it.startswith(b"reply ")][1:]


def three_searches(room, server):
    """A datagram with three searches, cut at each place, and with each byte 00 and FF, is answered as a script says."""
    whole = ca.message(ca.VERSION, count=ca.MINOR) + ca.search("V", 17) + ca.search("U", 18) + ca.search("V", 19)
    damaged = [whole[:at] for at in range(len(whole) + 1)]
    damaged += [whole[:at] + byte + whole[at + 1:] for at in range(len(whole)) for byte in (b"\0", b"\xff")]
    wanted = replayed(room, damaged)
    room.check("a script replies to some", [it.p2 for it in wanted[len(whole)]] == [0, 17, 19] and [] in wanted and len(wanted) == len(damaged))
    with socket.socket(socket.AF_INET, socket.SOCK_DGRAM) as sender:
        sender.settimeout(10)
        seen = [replies(sender, server, it, 100_000 + at) for at, it in enumerate(damaged)]
    own = [[it._replace(dtype=server.address[1]) if it.command == ca.SEARCH else it for it in reply] for reply in wanted]
    wrong = [at for at, (one, other) in enumerate(zip(seen, own)) if one != other]
    room.check(f"{len(damaged)} damaged datagrams", not wrong, f"{wrong[:5]}: {[(seen[at], own[at]) for at in wrong[:1]]}")


def replies(sender, server, datagram, number):
    """The messages that a datagram is answered with: those before the answer to a search that follows it."""
    sender.sendto(datagram, server.address)
    sender.sendto(ca.message(ca.VERSION, count=ca.MINOR) + ca.search("V", number), server.address)
    got = []
    while True:
        reply = ca.Frames().feed(sender.recv(1 << 16))
        if reply[-1].p2 == number:
            return got
        got += reply


def from_the_server(room, up, server, good, channel):
    """What a server says that isn't asked for changes nothing."""
    for make in (lambda cid, sid: ca.message(99, b"12345678", 1, 2, cid, sid),
                 lambda cid, sid: ca.message(ca.EVENT_ADD, bytes(24), 6, 1, 1, 4_000_000),
                 lambda cid, sid: ca.message(ca.WRITE_NOTIFY, b"", 5, 1, 1, 77),
                 lambda cid, sid: ca.message(ca.CREATE_CHAN, b"", 5, 1, cid, sid),
                 lambda cid, sid: ca.message(ca.SERVER_DISCONN, p1=99_999),
                 lambda cid, sid: ca.message(ca.CREATE_CH_FAIL, p1=cid)):
        up.say_to("V", make)
    up.give("V", [1])
    room.equal("the channel is as before", good.values(channel), [1])
    other = room.upstream(variable("X", values=[1]))
    for label, data in (("a size of 5", struct.pack(">HHHHII", 0, 5, 0, 0, 0, 0)), ("bytes that are no message", b"\xff\xfe\xfd\xfb" + os.urandom(4000))):
        inner = room.server(other)
        client = room.client(inner)
        own = client.open("X")
        other.say_to("X", lambda cid, sid: data)
        room.check(f"{label} from a server is its end", client.answer(ca.SERVER_DISCONN, "p1", own.cid) is not None)
        room.eventually(f"{label} is logged", lambda: inner.has_logged("upstream 1", "connect 1"))
        room.equal("quit after it", inner.quit(), 0)
