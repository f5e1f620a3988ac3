"""The lines on standard input, the command line, and how the server ends."""
import os
import socket
import subprocess

import ca_wire as ca
from served.room import Server, free_port, text_of, variable


def ordering(room):
    up = room.upstream(variable("V", values=[1]))
    server = room.server(up)
    client = room.client(server)
    room.check("a name that isn't there yet", client.try_open("LATER") is None)
    up.do(lambda: up.variables.update(LATER=variable("LATER", values=[2])))
    for line in ("", "nonsense", "ask now", " ask", "connect", "connect 0", "connect 2", "connect x", "connect 1", "connect 99999999999",
                 "quit now", "x" * 100_000, "\x00\x01", "reload", "sweep sweep"):
        server.write(line)
    server.process.stdin.write(b"\xff\xfe\n")
    server.write("ask")
    room.eventually("after a line `ask` the name is found", lambda: client.try_open("LATER") is not None)
    room.equal("one channel upstream", len(up.channels), 1)
    room.equal("`connect` of what is connected does nothing", up.count_clients(), 1)
    sweeping(room, up, server, client)
    room.check("the server is there after all these lines", client.echo() and server.process.poll() is None)
    room.equal("nothing was printed for them", len(server.printed), 1)
    room.equal("quit", server.quit(), 0)
    room.check("the client sees the end", client.take(lambda it: False) is None)
    room.equal("nothing was printed at the end", len(server.printed), 1)


def sweeping(room, up, server, client):
    room.check("a name that is remembered", client.try_open("V") is None)
    server.write("ask")
    room.eventually("its link is made", lambda: len(up.channels) == 2)
    link = up.channels[1]
    room.wait(lambda: bool(client.found("V", 1)))
    server.write("sweep")
    room.eventually("a sweep ends the link that no channel needs", lambda: link[2] not in link[0].channels)
    room.check("the channel that stands stays", up.channels[0][2] in link[0].channels)
    server.write("ask")
    room.check("what was swept isn't asked for", client.echo() and len(up.channels) == 2)
    again = client.open("V")
    room.equal("it is there again when a client wants it", again and client.values(again), [1])


def remembering(room):
    """4,096 names are remembered that no server has; one more isn't, until a sweep."""
    up = room.upstream(variable("V", values=[1]))
    server = room.server(up)
    client = room.client(server)
    for at in range(0, 4096, 512):
        client.send(*(ca.create(f"MISSING:{it}", it) for it in range(at, at + 512)))
        for it in range(at, at + 512):
            client.answer(ca.CREATE_CH_FAIL, "p1", it)
        server.write("ask")
    room.check("a name past those that are remembered", client.try_open("V") is None)
    server.write("ask")
    room.eventually("many of them are logged", lambda: server.has_logged("of 4096", "sweep"))
    room.check("it isn't asked for", client.try_open("V") is None and not up.channels)
    room.eventually("that the table is full is told", lambda: server.has_logged("WARN", "limit met", "4096 searched names are remembered"))
    server.write("sweep")
    channel = client.open("V")
    room.equal("it is after a sweep", channel and client.values(channel), [1])


def run(room, *words, **options):
    """Exit status and both outputs of a server that ends by itself, or at the end of its empty input."""
    ran = subprocess.run([room.program, "serve", *words], stdin=subprocess.DEVNULL, timeout=60,
                         **({"stdout": subprocess.PIPE, "stderr": subprocess.PIPE} | options))
    return ran.returncode, ran.stdout


def starting(room):
    here, there = (text_of(("127.0.0.1", free_port())) for _ in range(2))
    good = room.file("good", ".* ALLOW\n")
    bad = room.file("bad", "A ALLOW\nB GRANT\n")
    groups = room.file("groups", "ops MAYBE\n")
    missing = f"{room.folder}/missing"
    nothing = b""
    for label, words, status, printed in (
            ("no upstream", [here], 2, nothing), ("no address", [], 2, nothing), ("a bad address", ["here", there], 2, nothing),
            ("an address without port", ["127.0.0.1", there], 2, nothing), ("a bad upstream", [here, "127.0.0.1:99999"], 2, nothing),
            ("17 upstreams", [here] + [there] * 17, 2, nothing), ("an option that isn't there", [here, there, "--rule", good], 2, nothing),
            ("arguments before files", ["here", there, "--rules", missing], 2, nothing),
            ("a missing file", [here, there, "--rules", missing], 3, nothing),
            ("files before their texts", [here, there, "--rules", bad, "--groups", missing], 3, nothing),
            ("refused rules", [here, there, "--rules", bad], 1, b"line 2: NoVerb\n"),
            ("rules before groups", [here, there, "--rules", bad, "--groups", groups], 1, b"line 2: NoVerb\n"),
            ("refused groups", [here, there, "--rules", good, "--groups", groups], 1, b"groups line 1: BadGroup\n"),
            ("an address of another machine", ["192.0.2.1:5064", there], 3, nothing),
            ("16 upstreams and the end of input", [here] + [there] * 16, 0, f"listening {here}\n".encode())):
        room.equal(label, run(room, *words), (status, printed))
    with open("/dev/full", "wb") as full:
        room.equal("a full standard output", run(room, here, there, stdout=full)[0], 3)
    taken(room, there)
    unreadable_input(room, here, there)


def taken(room, there):
    """Both a TCP port and a UDP port must be free."""
    up = room.upstream(variable("V", values=[1]))
    server = room.server(up)
    room.equal("a second server on the port", run(room, text_of(server.address), there), (3, b""))
    client = room.client(server)
    room.equal("the first one serves on", client.values(client.open("V")), [1])
    with socket.socket(socket.AF_INET, socket.SOCK_DGRAM) as other:
        address = ("127.0.0.1", free_port())
        other.bind(address)
        room.equal("a UDP port that is taken", run(room, text_of(address), there), (3, b""))
    room.equal("quit", server.quit(), 0)
    again = Server([room.program, "serve", text_of(server.address), there])
    room.started.append(again.kill)
    room.eventually("the port is free again at once", lambda: again.printed == [f"listening {text_of(server.address)}"])
    again.process.stdin.close()
    room.equal("the end of input", again.status(), 0)


def unreadable_input(room, here, there):
    folder = os.open(room.folder, os.O_RDONLY)
    ran = subprocess.run([room.program, "serve", here, there], stdin=folder, stdout=subprocess.PIPE, stderr=subprocess.PIPE, timeout=60)
    os.close(folder)
    room.equal("a standard input that can't be read", ran.returncode, 3)
