"""Servers that are deaf, that come and go, hosts that nobody knows, and floods: what is beside them isn't held up."""
import os
import shutil
import socket
import subprocess
import sys
import threading
import time

import ca_wire as ca
from served.found import Answerer, reply, searching_at
from served.resolving import MUTE, Names
from served.room import free_port, text_of, variable

DEAF = 300
FLOOD = 40  # servers a second, more than can be tried
SOON = 3  # seconds for what comes in a tenth of one on an idle machine


def host_of(at):
    """An address of the loopback net."""
    return 0x7F010001 + at


class DeafHosts:
    """All addresses of the loopback net at one port, where no connection is completed: the queue of them is full."""

    def __init__(self, room):
        self.listener = socket.create_server(("0.0.0.0", 0), backlog=0)
        self.port = self.listener.getsockname()[1]
        self.waiting = [socket.socket() for _ in range(4)]
        for it in self.waiting:
            it.setblocking(False)
            it.connect_ex(("127.0.0.1", self.port))
        room.started.append(lambda: [it.close() for it in (self.listener, *self.waiting)])


def deaf(room):
    """Beside 300 servers that answer searches and take no connection, as a name server's stale entries, one that was never tried comes at once."""
    up, nobody = room.upstream(*(variable(f"A{it}", values=[it]) for it in range(3))), DeafHosts(room)

    def where(cid, name):
        return [reply(cid, nobody.port, host_of(int(name[4:])))] if name.startswith("DEAD") else [reply(cid, up.address[1])]
    answerer = Answerer(room, where)
    server = room.server(options=searching_at(answerer))
    client = room.client(server)
    names = [f"DEAD{it:03}" for it in range(DEAF)]
    for at in range(0, DEAF, 30):
        client.search(*names[at:at + 30])
        time.sleep(0.02)
    # Each is tried once, 24 at once at least, and each for two seconds.
    time.sleep(2 * DEAF / 24 + 4)
    room.check("all of them are tried", server.has_logged("WARN", f"127.1.1.{DEAF - 256}:{nobody.port}", "can't be reached"))
    began = time.monotonic()
    channel = client.open("A0", 30)
    took = time.monotonic() - began
    room.equal("it is found", channel and client.values(channel), [0])
    room.check("at once", took < SOON, f"{took:.1f} s")
    print(f"deaf: {took:.2f} s", flush=True)
    room.equal("quit", server.quit(), 0)


def failed_before(room):
    """A server whose attempt failed is tried again though others that take no connection are found all the time."""
    up, nobody, goes_on = room.upstream(variable("A0", values=[0])), DeafHosts(room), threading.Event()

    def where(cid, name):
        if name == "A0":
            return [reply(cid, up.address[1])]
        return [reply(cid, nobody.port, host_of(int(name[4:])))] if answerer.asked.count(name) == 1 else []
    answerer = Answerer(room, where)
    server = room.server(options=searching_at(answerer))
    client, other = room.client(server), room.client(server)
    up.stop()
    client.search("A0")
    room.eventually("its attempt fails", lambda: server.has_logged("WARN", f"127.0.0.1:{up.address[1]}", "can't be reached"))

    def flood():
        for at in range(30 * FLOOD):
            other.search(f"DEAD{at:04}")
            if goes_on.wait(1 / FLOOD):
                return
    flooding = threading.Thread(target=flood, daemon=True)
    flooding.start()
    time.sleep(4)
    up.start()
    began = time.monotonic()
    channel = client.open("A0", 30)
    took = time.monotonic() - began
    room.check("they come all the time", flooding.is_alive())
    goes_on.set()
    flooding.join()
    room.equal("it is found", channel and client.values(channel), [0])
    room.check("soon", took < 2 + SOON, f"{took:.1f} s")
    print(f"failed_before: {took:.2f} s", flush=True)
    room.equal("quit", server.quit(), 0)


def returning(room):
    """A server that is found by search and ends again and again is found as soon each time."""
    up = room.upstream(variable("A", values=[1]))
    server = room.server(options=searching_at(up))
    client = room.client(server)
    room.check("a channel", client.open("A") is not None)
    took = []
    for _ in range(6):
        up.stop()
        client.take(lambda it: it.command == ca.SERVER_DISCONN)
        time.sleep(1)
        up.start()
        began = time.monotonic()
        channel = client.open("A")
        took.append(time.monotonic() - began)
        room.equal("its value", channel and client.values(channel), [1])
        time.sleep(0.3)
    room.check("each time within two seconds and some", max(took) < 2 + SOON, [f"{it:.1f}" for it in took])
    print(f"returning: {' '.join(f'{it:.2f}' for it in took)} s", flush=True)
    room.equal("quit", server.quit(), 0)


def connecting_past_hosts(room):
    """UPSTREAMs that are named by hosts of which the resolver says nothing hold one of the others up neither at the start nor later."""
    names = Names(room, MUTE)
    if not names.is_there:
        return
    up, late = (room.upstream(variable(name, values=[1])) for name in "AB")
    late.stop()
    with socket.socket(socket.AF_INET, socket.SOCK_DGRAM) as mute:
        try:
            mute.bind((MUTE, 53))
        except OSError as fault:
            print(f"skipped: port 53 can't be had: {fault}")
            return
        upstreams = [Named(f"h{it}.lab") for it in range(40)]
        began = time.monotonic()
        server = room.server(*upstreams, up, late, options=("--servers", "100", "--reconnect", "1"))
        room.eventually("the one at an address is connected", lambda: server.has_logged("INFO", "upstream 41", "connected"))
        took = time.monotonic() - began
        room.check("at once", took < SOON, f"{took:.1f} s")
        late.start()
        began = time.monotonic()
        room.eventually("one that comes later is", lambda: server.has_logged("INFO", "upstream 42", "connected"))
        again = time.monotonic() - began
        room.check("at the next look", again < 1 + SOON, f"{again:.1f} s")
        print(f"connecting_past_hosts: {took:.2f} s, {again:.2f} s", flush=True)
        client = room.client(server)
        channel = client.open("A")
        room.equal("its value", channel and client.values(channel), [1])
        room.equal("quit", server.quit(), 0)


class Named:
    """A server that is named by its host."""

    def __init__(self, host):
        self.address = (host, 5064)


class Flood:
    """A host that searches for dead names as fast as it can, until it ends."""

    def __init__(self, room, address, source, names=20_000):
        self.names = names
        self.socket = socket.socket(socket.AF_INET, socket.SOCK_DGRAM)
        self.socket.bind((source, 0))
        self.address, self.goes_on = address, True
        self.thread = threading.Thread(target=self.run, daemon=True)
        self.thread.start()
        room.started.append(self.end)

    def run(self):
        at = 0
        while self.goes_on:
            asked = b"".join(ca.search(f"DEAD:{it % self.names}", 1 + it) for it in range(at, at + 28))
            self.socket.sendto(ca.message(ca.VERSION, count=ca.MINOR) + asked, self.address)
            at += 28
            time.sleep(0.0002)

    def end(self):
        self.goes_on = False
        self.thread.join(10)
        self.socket.close()


def late_beside(room):
    """Beside one host's flood of searches for dead names one search of another host is enough."""
    count = 25
    up = room.upstream(*(variable(f"LIVE:{it}", values=[it]) for it in range(count)))
    server = room.server(up, options=("--site",))
    client = room.client(server, source="127.0.2.1")
    room.eventually("the server is there", lambda: server.has_logged("upstream 1", "connected"))
    Flood(room, server.address, "127.0.1.1")
    time.sleep(2)
    answered = 0
    for it in range(count):
        client.search(f"LIVE:{it}")
        replies = client.replies(6)
        answered += replies is not None
    room.equal("so many are answered", answered, count)
    print(f"late_beside: {answered} of {count}", flush=True)
    room.equal("quit", server.quit(), 0)


def dropping(room):
    """Where too many names are missing, that some aren't looked for is told, once a minute."""
    server = room.server(room.upstream(variable("V")), options=("--site",))
    floods = [Flood(room, server.address, f"127.0.1.{it}", 1_000_000) for it in (1, 2)]
    words = ("WARN", "names aren't looked for: too many are missing")
    room.eventually("it is told", lambda: server.has_logged(*words))
    time.sleep(1)
    room.equal("once", sum(words[1] in line for line in list(server.logged)), 1)
    for it in floods:
        it.end()
    client = room.client(server, source="127.0.2.1")
    room.check("another host's name is found", client.open("V") is not None)
    room.equal("quit", server.quit(), 0)


# The program is in a net of its own, in which nothing is but the loopback interface.
ALONE = """#!/bin/sh
[ "$ALONE" ] || ALONE=1 exec unshare -n "$0" "$@"
ip link set lo up || exit 9
exec {program} "$@"
"""

SEARCHING = "import socket, sys; socket.socket(socket.AF_INET, socket.SOCK_DGRAM).sendto(bytes.fromhex(sys.argv[2]), ('127.0.0.1', int(sys.argv[1])))"


def unsent(room):
    """A place of searches to which no net leads is told of once, and once it is searched at again."""
    wrapper = room.file("alone", ALONE.format(program=room.program))
    os.chmod(wrapper, 0o755)
    if not shutil.which("ip") or not shutil.which("nsenter") or subprocess.run([wrapper, "--version"], capture_output=True).returncode != 0:
        print("skipped: no net can be had for the program alone, as by root")
        return
    room.program = wrapper
    place = f"10.99.0.7:{free_port()}"
    server = room.server(options=("--search", place, "--search", f"127.0.0.1:{free_port()}"))

    def inside(*words):
        return subprocess.run(["nsenter", f"--net=/proc/{server.process.pid}/ns/net", *words], capture_output=True).returncode

    def told():
        return [line for line in list(server.logged) if "searches " in line]

    def search(name):
        asked = ca.message(ca.VERSION, count=ca.MINOR) + ca.search(name, 1)
        return inside(sys.executable, "-c", SEARCHING, str(server.address[1]), asked.hex())
    room.equal("a client searches there", search("DEAD"), 0)
    room.eventually("that nothing can be sent is told", told)
    search("DEAD:TOO")
    time.sleep(2)
    unsaid, again = f"[WARN  pvgate] searches can't be sent to {place}", f"[INFO  pvgate] searches are sent to {place} again"
    room.equal("once", told(), [unsaid])
    room.equal("a net that leads there", inside("ip", "address", "add", "10.99.0.1/24", "dev", "lo"), 0)
    search("DEAD:AGAIN")
    room.eventually("that is told", lambda: len(told()) > 1)
    search("DEAD:AT:LAST")
    time.sleep(2)
    room.equal("once, too", told(), [unsaid, again])
    room.equal("quit", server.quit(), 0)
