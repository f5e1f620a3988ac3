"""What benches put round the gateway and round the relay: a server that feeds updates, and clients that take them; and how names are looked for."""
import multiprocessing
import os
import select
import selectors
import socket
import struct
import subprocess
import time

import common  # noqa: F401  (sets the paths)
import ca_wire as ca
from ioc import Ioc, Variable
from served.room import Server

UPDATE = 32  # bytes of an update of a LONG with its time
ARRAY = 1_000_000  # elements, and nearly so many bytes
WINDOW = 8  # arrays that may be on their way, since they are held in memory
PATIENCE = 120
VERSION = ca.message(ca.VERSION, count=ca.MINOR)
MOST = 1_400  # bytes of a datagram of a client
FORK = multiprocessing.get_context("fork")


def update(own, value):
    return struct.pack(">HHHHIIIIIi", ca.EVENT_ADD, 16, ca.TIME + ca.LONG, 1, 1, own, 0, 1_000_000_000, 0, value)


def asker(host):
    """A socket for datagrams of this host, with room for many."""
    link = socket.socket(socket.AF_INET, socket.SOCK_DGRAM)
    link.setsockopt(socket.SOL_SOCKET, socket.SO_RCVBUF, 1 << 22)
    link.bind((host, 0))
    return link


def searches(wanted):
    """The datagrams that look for names, which have CIDs, each as full as libca makes it."""
    datagram = VERSION
    for cid, name in wanted.items():
        one = ca.search(name, cid)
        if len(datagram) + len(one) > MOST:
            yield datagram
            datagram = VERSION
        datagram += one
    yield datagram


def wait(test, seconds=PATIENCE):
    until = time.monotonic() + seconds
    while not test():
        if time.monotonic() > until:
            raise TimeoutError("it didn't come to that")
        time.sleep(0.002)


class Program:
    """The gateway or the relay, running."""

    files, resident = Server.files, Server.resident

    def __init__(self, words, port):
        self.address = ("127.0.0.1", port)
        self.process = subprocess.Popen(words, stdin=subprocess.PIPE, stdout=subprocess.PIPE, stderr=subprocess.DEVNULL)
        if not self.process.stdout.readline().startswith(b"listening"):
            raise RuntimeError(f"{words[0]} doesn't run")

    def processor(self):
        """The seconds of a processor that its threads have had."""
        spent = 0
        for thread in os.listdir(f"/proc/{self.process.pid}/task"):
            try:
                with open(f"/proc/{self.process.pid}/task/{thread}/schedstat") as file:
                    spent += int(file.read().split()[0])
            except OSError:
                continue
        return spent / 1e9

    def quit(self):
        """Asks it to end, answers how long that took."""
        began = time.monotonic()
        self.process.stdin.write(b"quit\n")
        self.process.stdin.flush()
        self.process.wait(PATIENCE)
        return time.monotonic() - began

    def stop(self):
        if self.process.poll() is None:
            self.process.kill()
        self.process.wait()
        self.process.stdin.close()
        self.process.stdout.close()


class Feeder:
    """A server in a process of its own, which feeds the one who connects: the gateway subscribes, the relay doesn't."""

    def __init__(self, variables, subscribes):
        self.got = FORK.Value("l", 0)  # arrays that every client has
        self.here, there = FORK.Pipe()
        for _ in range(50):
            try:
                self.ioc = Ioc(("127.0.0.1", 0), variables)
                break
            except OSError:
                continue
        self.port = self.ioc.address[1]
        self.subscribes = subscribes
        self.process = FORK.Process(target=self.run, args=(there,), daemon=True)
        self.process.start()
        for it in (self.ioc.listener, self.ioc.searches):  # they are the process's now
            it.close()

    def run(self, there):
        """Serves until it is told what to feed; then feeds, and serves again."""
        while True:
            self.ioc.turn(0.002)
            if not there.poll():
                continue
            what, *words = there.recv()
            if what == "end":
                return
            if what == "ready":
                there.send(bool(self.ioc.clients) and (not self.subscribes or all(it.subscriptions for it in self.ioc.variables.values())))
                continue
            link = next(iter(self.ioc.clients))
            link.setblocking(True)
            there.send(getattr(self, what)(link, self.numbers(), *words))
            link.setblocking(False)

    def numbers(self):
        """The subscription's number of each variable."""
        if not self.subscribes:
            return list(range(1, 1 + len(self.ioc.variables)))
        return [next(iter(it.subscriptions)).asked.p2 for it in self.ioc.variables.values()]

    def paced(self, link, numbers, seconds, every):
        """One update after the other, so many seconds apart."""
        began, many = time.monotonic(), 0
        while many * every < seconds:
            left = began + many * every - time.monotonic()
            if left > 0:
                time.sleep(left)
            link.sendall(update(numbers[many % len(numbers)], 1 + many // len(numbers)))
            many += 1
        return many

    def flooded(self, link, numbers, rounds):
        """As fast as it goes: so many rounds over all variables."""
        for start in range(1, rounds + 1, 100):
            link.sendall(b"".join(update(own, value) for value in range(start, min(start + 100, rounds + 1)) for own in numbers))

    def repeated(self, link, numbers, rounds):
        """The same for who doesn't look at the values."""
        some = b"".join(update(own, 1) for own in numbers) * 100
        for _ in range(rounds // 100):
            link.sendall(some)

    def arrays(self, link, numbers, many):
        payload = ca.payload_of(ca.TIME + ca.CHAR, ca.Value([7] * ARRAY, 0, 0, ca.EPOCH))
        data = ca.message(ca.EVENT_ADD, payload, ca.TIME + ca.CHAR, ARRAY, 1, numbers[0])
        for sent in range(many):
            while sent - self.got.value >= WINDOW:
                time.sleep(0.0002)
            link.sendall(data)
        return len(data)

    def endless(self, link, numbers):
        """A flood until the connection ends."""
        some = b"".join(update(own, 1) for own in numbers) * 20
        try:
            while True:
                link.sendall(some)
        except OSError:
            return None

    def ask(self, *words):
        self.here.send(words)
        return self.here.recv()

    def stop(self):
        self.process.kill()
        self.process.join()


class Taker:
    """One client: of the gateway, where it subscribes to names, or of the relay."""

    def __init__(self, address, names=(), dtype=ca.TIME + ca.LONG):
        self.link = ca.Connection(address, PATIENCE)
        self.last = {}
        if names:
            self.link.send(ca.greeting("bench"))
            self.subscribe(names, dtype)
        self.link.socket.setblocking(False)
        self.bytes = 0
        self.rest = b""
        self.in_order = True

    def subscribe(self, names, dtype):
        channels = connect(self.link, names)
        for own, name in enumerate(names, 1):
            self.link.send(ca.subscribe(channels[name], own, dtype))
        for own in range(1, len(names) + 1):
            self.link.take(lambda it: it.command == ca.EVENT_ADD and it.p2 == own)
            self.last[own] = 0

    def take(self, buffer):
        """What has come, in bytes."""
        many = self.link.socket.recv_into(buffer)
        self.bytes += many
        return many

    def follow(self, piece):
        """Looks whether each variable's values rise by one."""
        piece = self.rest + piece
        whole = len(piece) // UPDATE * UPDATE
        self.rest = piece[whole:]
        for it in struct.iter_unpack(">HHHHIIIIIi", piece[:whole]):
            self.in_order &= it[9] == self.last[it[5]] + 1
            self.last[it[5]] = it[9]


def connect(link, names):
    """Searches and makes channels as fast as they come: the SID of each name. A datagram asks for 40 names, and there is a
    millisecond between two, since what comes in a burst overflows the gateway's socket."""
    address, made, found, left = link.socket.getpeername(), {}, set(), []
    with socket.socket(socket.AF_INET, socket.SOCK_DGRAM) as asker:
        asker.setsockopt(socket.SOL_SOCKET, socket.SO_RCVBUF, 1 << 20)
        while len(made) < len(names):
            left = left or [cid for cid in range(len(names)) if cid not in found]
            asker.sendto(b"".join(ca.search(names[cid], cid) for cid in left[:40] if cid not in found), address)
            left = left[40:]
            until = time.monotonic() + 0.001
            while time.monotonic() < until:
                for cid in replies(asker, link.socket) - found:
                    found.add(cid)
                    link.send(ca.create(names[cid], cid))
                if link.fill(0):
                    made |= {names[it.p1]: it.p2 for it in link.inbox if it.command == ca.CREATE_CHAN}
                    link.inbox.clear()
    return made


def replies(asker, other):
    """The numbers that were answered for, once one of the two has something, or a short time is over."""
    ready = select.select([asker, other], [], [], 0.001)[0]
    if asker not in ready:
        return set()
    return {it.p2 for it in ca.Frames().feed(asker.recv(1 << 16)) if it.command == ca.SEARCH}


def take_all(takers, are_done, follows=False, tell=None):
    """Lets the clients take what comes until the test is true; the seconds from the first to the last byte."""
    buffer = bytearray(1 << 20)
    selector = selectors.DefaultSelector()
    for taker in takers:
        selector.register(taker.link.socket, selectors.EVENT_READ, taker)
    began = None
    until = time.monotonic() + PATIENCE
    while not are_done():
        if time.monotonic() > until:
            raise TimeoutError("not all came")
        for key, _ in selector.select(0.1):
            many = key.data.take(buffer)
            began = began or time.monotonic()
            if follows:
                key.data.follow(bytes(buffer[:many]))
        if tell:
            tell()
    selector.close()
    return time.monotonic() - (began or time.monotonic())


def all_at_once(address, many):
    """Connects so many clients together, each of which speaks first; the seconds until all are greeted, and their sockets."""
    selector, greeted, until = selectors.DefaultSelector(), [], time.monotonic() + PATIENCE

    def start():
        link = socket.socket()
        link.setblocking(False)
        link.connect_ex(address)
        selector.register(link, selectors.EVENT_WRITE)

    def go_on(link, events):
        if events & selectors.EVENT_WRITE:
            link.send(ca.message(ca.VERSION, count=ca.MINOR))
            selector.modify(link, selectors.EVENT_READ)
        elif link.recv(64):
            selector.unregister(link)
            greeted.append(link)
        else:
            raise ConnectionError("it was closed")

    began = time.monotonic()
    for _ in range(many):
        start()
    while len(greeted) < many:
        if time.monotonic() > until:
            raise TimeoutError(f"{len(greeted)} of {many} clients were greeted")
        for key, events in selector.select(0.1):
            try:
                go_on(key.fileobj, events)
            except OSError:  # the system's queue of connections was full: again
                selector.unregister(key.fileobj)
                key.fileobj.close()
                start()
    return time.monotonic() - began, greeted
