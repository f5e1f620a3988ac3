"""What must not stop the gateway: a log that nobody reads, the deepest patterns, files that are none, lines without end, a host with
many clients, and clients that hold every descriptor."""
import fcntl
import json
import os
import socket
import subprocess
import threading
import time

import ca_wire as ca
from served.reports import told
from served.room import PATIENCE, free_port, text_of, variable

CROWD = 400  # clients that come and go, of each of which two lines tell
SMALL = 4096  # bytes that the pipe of the log holds: fewer lines than come in a second
SET_PIPE_SIZE = 1031  # of fcntl
BETWEEN = 0.02  # seconds between two readings of a rule file
SOON = 10  # seconds that an end takes on a machine that does much else; on an idle one 0.3


def crowd(server, many):
    """So many clients come, and go at once."""
    for _ in range(many):
        with socket.create_connection(server.address, timeout=PATIENCE) as link:
            link.settimeout(PATIENCE)
            link.recv(1)


def unread(room):
    """Nobody reads standard error: all else goes on, and what was left out is told where somebody reads at last."""
    up = room.upstream(variable("V", values=[1]))
    inward, outward = os.pipe()
    fcntl.fcntl(outward, SET_PIPE_SIZE, SMALL)
    server = room.server(up, options=("--reconnect", "1", "--log", "info"), stderr=outward)
    os.close(outward)
    try:
        crowd(server, CROWD)
        client = room.client(server)
        channel = client.open("V")
        room.equal("a client is served beside a log that nobody reads", channel and client.values(channel), [1])
        up.stop()
        room.eventually("a lost server's channel goes", lambda: client.take(lambda it: it.command == ca.SERVER_DISCONN) is not None)
        up.start()
        room.eventually("it comes back", lambda: (again := client.try_open("V")) is not None and client.values(again) == [1])
        told = room_for_all(room, inward, server)
        lines = sum(" client " in it and ("connected" in it or "gone" in it) for it in told)
        dropped = [int(it.split("] ")[1].split()[0]) for it in told if it.endswith(" lines dropped")]
        room.check("lines of one kind are at most 50 a second, and the others are told of", lines < 2 * CROWD and len(dropped) > 0, (lines, dropped))
        room.equal("each line is there or counted", lines + sum(dropped), 2 * CROWD + 1)
        room.check("in order", told[0].startswith("[INFO  pvgate] no rule file"), told[:2])
    finally:
        os.close(inward)
    began = time.monotonic()
    room.equal("quit, with a reader that has gone", server.quit(), 0)
    room.check("it ends soon", time.monotonic() - began < SOON, f"{time.monotonic() - began:.2f} s")


def room_for_all(room, inward, server):
    """All lines of the log so far, until each that was dropped is told of."""
    os.set_blocking(inward, False)
    text = b""
    until = time.monotonic() + 5
    while time.monotonic() < until:
        try:
            text += os.read(inward, 1 << 16)
        except BlockingIOError:
            time.sleep(0.05)
    return text.decode().splitlines()


def unwritable(room):
    """A pipe that is full at the end, a full disk, and no standard error at all."""
    up = room.upstream(variable("V", values=[1]))
    inward, outward = os.pipe()
    os.set_blocking(outward, False)
    try:
        while True:
            os.write(outward, bytes(1 << 12))
    except BlockingIOError:
        os.set_blocking(outward, True)
    with open("/dev/full", "wb") as full:
        for label, stream in (("a pipe that is full", outward), ("a full disk", full)):
            server = beginning(room, up, stream)
            client = room.client(server)
            room.equal(f"{label}: a client is served", client.values(client.open("V")), [1])
            room.file("rules", "nonsense\n")
            server.write("reload")
            room.eventually(f"{label}: a line of the log holds no order up", lambda: server.printed[1:] == ["line 1: NoVerb"])
            began = time.monotonic()
            room.equal(f"{label}: quit", server.quit(), 0)
            room.check(f"{label}: it ends soon", time.monotonic() - began < SOON, f"{time.monotonic() - began:.2f} s")
            room.eventually(f"{label}: its connection is gone", lambda: up.count_clients() == 0)
    os.close(inward), os.close(outward)
    words = room.words(f"127.0.0.1:{free_port()}", [text_of(up.address)])
    ran = subprocess.run(["sh", "-c", 'exec "$@" 2>&-', "sh", *words], input=b"ask\nreload\nquit\n", stdout=subprocess.PIPE, timeout=60)
    room.equal("no standard error", ran.returncode, 0)


def beginning(room, up, stream):
    """A gateway whose start says nothing on standard error: its rules are told of there before it listens."""
    return room.server(up, rules=".* ALLOW\n", options=("--log", "warn"), stderr=stream)


def deep(room):
    """The deepest patterns that are good are read at the start and by `reload`, and run on a name."""
    up = room.upstream(variable("AAAA", values=[1]), variable("B", values=[2]))
    shapes = ((("--plain-groups",), "(", ")*"), ((), r"\(", r"\)*"), (("--plain-groups",), "(A|", ")"), ((), r"\(A\|", r"\)"))
    for options, before, behind in shapes:
        deepest, text = deepest_of(room, options, before, behind)
        room.check("patterns may be deep", deepest > 90, deepest)
        server = room.server(up, rules=text, options=options)
        client = room.client(server)
        channel = client.open("AAAA") if behind.endswith("*") else client.open("B")
        room.check(f"{before} {deepest} deep: a name is found", channel is not None)
        server.write("reload")
        room.eventually("it is read again", lambda: server.has_logged("the new rules hold"))
        room.check("and run again", client.try_open("C") is None and client.echo())
        room.equal("quit", server.quit(), 0)


def deepest_of(room, options, before, behind):
    """How deep a pattern of this shape may be, and a rule file of it."""
    good, bad = 1, 350
    while bad - good > 1:
        half = (good + bad) // 2
        path = room.file("deep", deep_text(before, behind, half))
        ran = subprocess.run([room.program, "check-rules", path, *options], stdout=subprocess.DEVNULL, stderr=subprocess.DEVNULL, timeout=60)
        good, bad = (half, bad) if ran.returncode == 0 else (good, half)
    return good, deep_text(before, behind, good)


def deep_text(before, behind, many):
    return before * many + ("A" if behind.endswith("*") else "B") + behind * many + " ALLOW\n"


def files(room):
    """What is no regular file of at most 16 MiB is refused, at the start and by `reload`."""
    up = room.upstream(variable("V", values=[1]))
    fifo, large = os.path.join(room.folder, "fifo"), room.file("large", "# x\n" * (1 << 22) + "#\n")
    os.mkfifo(fifo)
    here = f"127.0.0.1:{free_port()}"
    for label, path in (("a FIFO", fifo), ("a device", "/dev/zero"), ("a folder", room.folder), ("a file of more than 16 MiB", large)):
        words = [room.program, "serve", here, text_of(up.address), "--rules", path]
        ran = subprocess.run(words, stdin=subprocess.DEVNULL, capture_output=True, timeout=60)
        room.equal(f"{label} at the start", (ran.returncode, ran.stdout), (3, b""))
        room.check(f"{label}: it says so", b"rules refused: " in ran.stderr, ran.stderr)
    server = room.server(up, rules=".* ALLOW\n")
    client = room.client(server)
    path = os.path.join(room.folder, "rules")
    for label, other, said in (("a FIFO", fifo, "is no regular file"), ("a file of more than 16 MiB", large, "has more than 16777216 bytes")):
        os.unlink(path)
        os.link(other, path)
        server.write("reload")
        room.eventually(f"{label} by `reload`", lambda: server.has_logged("WARN", "rules refused", said))
    room.equal("the rules hold on", client.values(client.open("V")), [1])
    rewritten(room, server, path)
    room.equal("quit", server.quit(), 0)


def rewritten(room, server, path):
    """A file that somebody writes in place is taken once it rests, and never half of it."""
    os.unlink(path)
    texts = ("", ".* ALLOW\n" * 250, ".* ALLOW\n" * 500)
    goes, rests = [True], [0.0]

    def write():
        with open(path, "w") as file:
            while goes[0]:
                for text in texts:
                    began = time.monotonic()
                    file.seek(0)
                    file.truncate()
                    file.write(text)
                    file.flush()
                    time.sleep(0.003)
                    rests[0] = max(rests[0], time.monotonic() - began)
    writer = threading.Thread(target=write, daemon=True)
    writer.start()

    def refused():
        server.write("reload")
        return room.wait(lambda: server.has_logged("WARN", "rules refused", "changes while it is read"), 0.5)
    room.eventually("a file that changes all the while is refused", refused)
    goes[0] = False
    writer.join(PATIENCE)
    read = sum(server.has_logged(f"rules read: {it} rows") for it in (0, 250))
    # Where the machine is busy the writer may rest for as long as two readings take, and then its half file stands there.
    room.check("none of it was taken", read == 0 or rests[0] > BETWEEN, f"{read} parts, {rests[0]:.3f} s")
    server.write("reload")
    room.eventually("it is taken once it rests", lambda: server.has_logged("rules read: 500 rows"))


def endless(room):
    """A line without end is passed over, and takes no memory."""
    up = room.upstream(variable("V", values=[1]))
    server = room.server(up, options=("--log", "debug"))
    before = server.resident()
    for _ in range(64):
        server.process.stdin.write(b"quit" * (1 << 18))
    server.process.stdin.flush()
    room.check("64 MiB of a line", server.resident() < before + 4, f"{before:.1f} to {server.resident():.1f} MB")
    server.process.stdin.write(b"\n" + b" " * 1024 + b"\nsweep\n")
    server.process.stdin.flush()
    room.eventually("the next line is an order again", lambda: server.has_logged("swept"))
    room.equal("each long line is none", sum("a line that is no order" in it for it in server.logged), 2)
    server.process.stdin.write(b"quit")
    server.process.stdin.close()
    room.equal("a last line without a line feed", server.status(), 0)


def seats(room):
    """A host has at most so many clients."""
    up = room.upstream(variable("V", values=[1]))
    server = room.server(up, options=("--clients-of-host", "2"))
    one, two, three = (room.client(server) for _ in range(3))
    room.check("two are served", one.open("V") is not None and two.open("V") is not None)
    room.check("the third is closed at once", three.take(lambda it: False) is None)
    port = three.socket.getsockname()[1]
    room.eventually("and told of", lambda: server.has_logged(f"WARN  pvgate] a client (127.0.0.1:{port}) refused: as many clients of its host"))
    other = room.client(server, source="127.0.0.2")
    room.check("another host has its own", other.open("V") is not None)
    two.close()
    room.eventually("a seat that is left is taken", lambda: room.admitted(server) is not None)
    room.check("the first is there", one.echo() and other.echo())
    room.equal("quit", server.quit(), 0)


def kept(room):
    """With every descriptor in use a lost server comes back, and clients beyond are refused."""
    up = room.upstream(variable("V", values=[1]))
    server = room.server(up, most_files=40, options=("--reconnect", "1"))
    first = room.client(server)
    room.check("a channel", first.open("V") is not None)
    links = [socket.create_connection(server.address, timeout=PATIENCE) for _ in range(60)]
    room.started.append(lambda: [it.close() for it in links])
    room.eventually("clients beyond are told of", lambda: server.has_logged("WARN", "refused: no descriptors are free"))
    for _ in range(2):
        up.stop()
        room.check("the server is lost", first.take(lambda it: it.command == ca.SERVER_DISCONN) is not None)
        up.start()
        room.eventually("it comes back", lambda: first.try_open("V") is not None)
    server.write("reload", "connect 1")
    room.check("who is there is served", first.echo())
    for link in links:
        link.close()
    room.eventually("and then there is room for others", lambda: room.admitted(server) is not None)
    room.equal("quit", server.quit(), 0)


def numbered(room):
    """Numbers begin where they are told to; a number that wasn't given out is none, and after the last the gateway ends."""
    up = room.upstream(variable("V", values=[1]))
    server = room.server(up, options=("--first", "4294967290"))
    client = room.client(server)
    channel = client.open("V")
    room.equal("the first", channel.sid, 4_294_967_290)
    room.equal("it is read", client.values(channel), [1])
    client.send(ca.message(ca.READ_NOTIFY, b"", ca.LONG, 1, channel.sid + 1, client.number()))
    room.equal("the next one isn't given out", client.error(), 410)
    for number in range(4_294_967_291, 4_294_967_295):
        room.equal("the next", client.try_open("V").sid, number)
    room.equal("all are read", client.values(channel), [1])
    client.send(ca.create("V", client.number()))
    room.equal("there is none behind the last", server.status(), 4)
    room.check("it is told", server.has_logged("ERROR", "the gateway ran out of memory or numbers, and ends"))


def again(room):
    """On a site numbers come again: behind the last one those are given out that nothing has any more."""
    up = room.upstream(variable("V", values=[1]), variable("W", values=[0]))
    server = room.server(up, options=("--site", "--first", "4294967290"))
    client = room.client(server)
    kept, numbers = client.open("V"), []
    watched = client.watch(kept)
    room.equal("the first number", kept.sid, 4_294_967_290)
    for it in range(20):
        channel = client.open("W")
        numbers.append(channel.sid)
        room.equal("it is written", client.write(channel, [it]), ca.NORMAL)
        client.send(ca.message(ca.CLEAR_CHANNEL, p1=channel.sid, p2=channel.cid))
        room.check("it is cleared", client.answer(ca.CLEAR_CHANNEL, "p1", channel.sid) is not None)
    room.equal("the others come in turn", numbers, [4_294_967_291 + it % 4 for it in range(20)])
    room.equal("each write arrived once", [it[3][:4] for it in up.writes if it[0] == "W"], [it.to_bytes(4, "big") for it in range(20)])
    room.equal("what stands has its number still", client.values(kept), [1])
    up.give("V", [7])
    room.equal("and is told of", client.updates_until(watched, [7])[-1], [7])
    room.equal("quit", server.quit(), 0)


def limited(room):
    """Each limit that a client meets is told once, with how often, and counted in what the gateway tells of itself."""
    up = room.upstream(variable("V", values=[1]), variable("W", values=[2]))
    up.statuses["W"] = None
    address = ("127.0.0.1", free_port())
    server = room.server(up, options=("--status", text_of(address)))
    client = room.client(server)
    one, two = client.open("V"), client.open("W")
    client.send(*(ca.create("V", 100 + it) for it in range(4100)))
    room.check("channels", client.take(lambda it: it.command == ca.CREATE_CH_FAIL) is not None and client.echo())
    client.send(*(ca.subscribe(one.sid, 1 + it, ca.LONG) for it in range(8200)))
    room.equal("subscriptions", client.error(), 48)
    room.check("all were heard", client.echo())
    for _ in range(260):
        client.start_write(two, [5])
    room.equal("writes", client.take(lambda it: it.command == ca.WRITE_NOTIFY).p1, 160)
    room.check("all were heard", client.echo())
    for words in (("a client has 4096 channels",), ("a client has 8192 subscriptions",), ("256 writes of a client wait",)):
        room.eventually(f"{words[0]}: it is told", lambda: server.has_logged("WARN", "limit met", *words))
    ours = [it for it in list(server.logged) if "limit met" in it and "updates are held back" not in it]
    room.equal("each once", len(ours), 3)
    limits = json.loads(told(address))["limits"]
    room.equal("they are used up", [limits[it]["used"] for it in ("channels_of_a_client", "subscriptions_of_a_client", "writes_of_a_client")], [4096, 8192, 256])
    room.equal("and counted", [limits[it]["met"] for it in ("channels_of_a_client", "subscriptions_of_a_client", "writes_of_a_client")], [6, 8, 4])
    room.equal("quit", server.quit(), 0)


def roomy(room):
    """On a site a client may have 65,536 channels and as many subscriptions, and one more of each is refused as ever."""
    up = room.upstream(variable("V", values=[1]))
    address = ("127.0.0.1", free_port())
    server = room.server(up, options=("--site", "--status", text_of(address)))
    client = room.client(server)
    one = client.open("V")
    for at in range(0, 65_536, 1_024):
        client.send(*(ca.create("V", 100_000 + at + it) for it in range(1_024)))
        room.check("they are heard", client.echo())
        client.inbox.clear()
    for at in range(0, 65_536, 1_024):
        client.send(*(ca.subscribe(one.sid, 1 + at + it, ca.LONG) for it in range(1_024)))
        room.check("they are heard", client.echo())
        client.inbox.clear()
    limits = json.loads(told(address))["limits"]
    room.equal("as many as may be", [limits[it]["used"] for it in ("channels_of_a_client", "subscriptions_of_a_client")], [65_536] * 2)
    room.equal("one channel too many", limits["channels_of_a_client"]["met"], 1)
    client.send(ca.subscribe(one.sid, 70_000, ca.LONG))
    room.equal("one subscription too many", client.error(), 48)
    room.equal("quit", server.quit(), 0)
