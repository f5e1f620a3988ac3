#!/usr/bin/env python3
"""Measures what clients of a site get of large values and of many at once, each beside the same straight from the server.

    bench/programs.py [--program PATH] [WORD ..]      WORDs: slow, unread, writers, gets, monitors; all if not given

- slow: a client takes 1 MB a second of an array of 1 MB that changes ten times a second: how old is what it sees. Once it reads small pieces
  of its socket, and once it is a program of libca whose callback takes a second for each value.
- unread: 16 clients subscribe to arrays of 4 MB that change, and never read; the gateway has 4 GB of addresses. How late others are served.
- writers: 20 programs of libca write at 10 Hz while their eight servers are killed and started again in turn, 50 times, 1 to 2 s apart: how
  many of them abort. libca looks for a lost name after up to 10 s, so each crash meets writers that write.
- gets: 1,000 ca_get in one ca_pend_io(5), of variables that nobody looked for before, of ones that another client has channels on and never
  reads, and of ones that it watches without taking what comes; caget_many of pyepics where it is installed; 571 put callbacks at once to a
  server that is 5 ms away.
- monitors: a program of libca with 20,000 channels, and monitors on 5,000 variables that change once a second: whether each value comes.

Programs of libca are processes of their own (bench/callers.py) and have no exception handler. Where the library isn't in the system's path,
LD_LIBRARY_PATH says where it is; for pyepics PYTHONPATH and PYEPICS_LIBCA. The status is 1 where a bar isn't met. It takes ten minutes.
Other work on the machine makes all figures worse.
"""
import importlib.util
import json
import os
import signal
import socket
import statistics
import subprocess
import sys
import threading
import time

import common  # (sets the paths)
import load
from callers import Apart, Caller, ca, libca
from served.room import Room

ARRAY = 1_000_000
PIECE = 10_000
LATE = 0.5  # seconds that others may wait beside 16 clients that never read
CRASHES, SERVERS, WRITERS = 50, 8, 20
MANY = 1000

# 1,000 values at once, as pyepics has it; all channels are new.
PYEPICS = """
import json, sys, time, epics
names = [f"{sys.argv[1]}:{it:05}" for it in range(int(sys.argv[2]))]
began = time.monotonic()
seen = epics.caget_many(names)
print(json.dumps({"getting": time.monotonic() - began, "missing": sum(it is None for it in seen)}))
"""


class Way:
    """Straight to some servers, or through the gateway."""

    def __init__(self, room, label, servers, repeater, **more):
        self.room, self.label, self.repeater = room, label, repeater
        self.ups = [Apart(room, variables, **more) for variables in servers]
        self.server = room.server(*self.ups, options=("--site", "--reconnect", "1")) if label == "gateway" else None
        self.addresses = [self.server.address] if self.server else [up.address for up in self.ups]
        self.address = self.addresses[0]

    def caller(self, role, **facts):
        return Caller(self.room, role, self.addresses, self.repeater, **facts)

    def end(self):
        for it in (self.server, *self.ups):
            if it:
                it.kill()


def both(room, variables, repeater, measured, **more):
    """What is measured on each way to a server: straight first."""
    told = []
    for label in ("server", "gateway"):
        way = Way(room, label, [variables], repeater, **more)
        told.append(measured(way))
        way.end()
    return told


def subscribed(address, names, dtype, seconds=30):
    """A connection that is subscribed to these names."""
    link = ca.Connection(address, seconds)
    link.send(ca.greeting("bench"))
    for own, (name, sid) in enumerate(load.connect(link, names).items()):
        link.send(ca.subscribe(sid, own, dtype))
    return link


def paced_ages(way, seconds=40):
    """How old each value is once it is read, by a client that reads pieces of its socket."""
    link = subscribed(way.address, ["A:00000"], ca.TIME + ca.CHAR)
    ages, began = [], time.monotonic()
    for at in range(int(seconds * ARRAY / PIECE)):
        left = began + at * PIECE / ARRAY - time.monotonic()
        if left > 0:
            time.sleep(left)
        for it in link.frames.feed(link.socket.recv(PIECE)):
            if it.command == ca.EVENT_ADD and it.payload:
                ages.append(time.time() - ca.value_of(it.dtype, 1, it.payload[:24]).stamp)
    link.socket.close()
    return ages


def library_ages(way, seconds=40):
    return [age for _, age in way.caller("slow", names=[["A", 1]], seconds=seconds).last().get("ages", [])]


def oldest(ages):
    return max(ages[3:], default=float("inf"))


def slow(room, repeater):
    for label, measured in (("small pieces", paced_ages), ("a program of libca", library_ages)):
        straight, through = both(room, [["A", 1, ARRAY, 10]], repeater, measured)
        print(f"slow: {label} at 1 MB/s see values {oldest(straight):.1f} s old at most from the server, {oldest(through):.1f} s from the "
              f"gateway ({statistics.median(through[3:] or [0]):.1f} s in the middle of {len(through)})", flush=True)
        room.check(f"values that {label} see are at most 5 s old", oldest(through) <= 5, oldest(through))


class Looker(threading.Thread):
    """A client that sees how long an ECHO and a read take, and how late updates are."""

    def __init__(self, address):
        super().__init__(daemon=True)
        self.link = ca.Connection(address, 60)
        self.link.send(ca.greeting("bench"))
        self.sids = load.connect(self.link, ["S:00000", "READ:00000"])
        self.link.send(ca.subscribe(self.sids["S:00000"], 1, ca.TIME + ca.LONG))
        self.echoes, self.reads, self.late, self.fault, self.over = [], [], [], None, threading.Event()

    def asked(self, took, message, test):
        began = time.monotonic()
        self.link.send(message)
        if self.link.take(test, 30) is None:
            raise ConnectionError("the connection ended")
        took.append(time.monotonic() - began)

    def updates(self):
        kept = []
        for it in self.link.inbox:
            if it.command == ca.EVENT_ADD:
                self.late.append(time.time() - ca.value_of(it.dtype, 1, it.payload).stamp)
            else:
                kept.append(it)
        self.link.inbox[:] = kept

    def run(self):
        try:
            while not self.over.is_set():
                self.asked(self.echoes, ca.message(ca.ECHO), lambda it: it.command == ca.ECHO)
                read = ca.message(ca.READ_NOTIFY, b"", ca.LONG, 1, self.sids["READ:00000"], 9)
                self.asked(self.reads, read, lambda it: it.command == ca.READ_NOTIFY)
                self.updates()
                self.link.fill(0.01)
                self.updates()
        except (OSError, TimeoutError) as fault:
            self.fault = repr(fault)

    def told(self):
        return " and ".join(f"{what} {statistics.median(it) * 1e3:.1f} ms, {max(it) * 1e3:.0f} at most" if it else f"{what} not at all"
                            for what, it in (("an ECHO", self.echoes), ("a read", self.reads), ("updates", self.late[1:])))


def bounded(program, folder):
    """The program with 4 GB of addresses."""
    path = os.path.join(folder, "bounded")
    with open(path, "w") as file:
        file.write(f'#!/bin/sh\nulimit -v 4194304\nexec {program} "$@"\n')
    os.chmod(path, 0o755)
    return path


def addresses(server):
    with open(f"/proc/{server.process.pid}/statm") as file:
        return int(file.read().split()[0]) * os.sysconf("SC_PAGESIZE") / 1e6


def unread_beside(way, clients, seconds=30):
    looker = Looker(way.address)
    idle = [subscribed(way.address, [f"BIG:{it:05}" for it in range(4)], ca.TIME + ca.CHAR) for _ in range(clients)]
    looker.start()
    most = [0, 0]
    until = time.monotonic() + seconds
    while time.monotonic() < until and (not way.server or way.server.process.poll() is None):
        if way.server:
            most = [max(most[0], way.server.resident()), max(most[1], addresses(way.server))]
        time.sleep(0.2)
    looker.over.set()
    looker.join(60)
    for it in idle:
        it.socket.close()
    alive = not way.server or way.server.process.poll() is None
    return looker, alive, most


def unread(room, repeater):
    program, room.program = room.program, bounded(room.program, room.folder)
    variables = [["BIG", 4, 4_000_000, 5], ["S", 1, 1, 10], ["READ", 1, 1, 0]]
    (straight, _, _), (through, alive, most) = both(room, variables, repeater, lambda way: unread_beside(way, 16))
    room.program = program
    print(f"unread: beside 16 clients that never read 4 arrays of 4 MB each, {through.told()} from the gateway ({most[0]:.0f} MB, "
          f"{most[1]:.0f} MB of addresses); {straight.told()} from the server", flush=True)
    room.check("the gateway lives", alive)
    room.check("others are served", through.fault is None and straight.fault is None, (through.fault, straight.fault))
    for what in ("echoes", "reads", "late"):
        own, other = max(getattr(through, what)[1:], default=60), max(getattr(straight, what)[1:], default=0)
        room.check(f"{what} are within {LATE} s, or as from the server", own <= max(LATE, other), (own, other))


class Writers:
    """Programs that write, each at two variables of each of some servers, and which of these are connected."""

    def __init__(self, way):
        self.way = way
        self.callers = [way.caller("writer", names=[[f"W{it}S{up}", 2] for up in range(SERVERS)], threads=it % 2 == 0) for it in range(WRITERS)]

    def living(self):
        return [it for it in self.callers if it.process.poll() is None]

    @staticmethod
    def connected(caller):
        return {own for own, up in {it["own"]: it["up"] for it in list(caller.told)}.items() if up}

    def ready(self, up=None):
        """How many of those that live have all variables of a server, or of all servers."""
        wanted = set(range(2 * SERVERS)) if up is None else {2 * up, 2 * up + 1}
        return sum(wanted <= self.connected(it) for it in self.living())


def aborted_writers(way, crashes):
    """How many writers aborted, how many wrote at a crash in the mean, whether all that live write again at the end, and what they complained of."""
    it = Writers(way)
    Room.wait(lambda: it.ready() == WRITERS, 60)
    wrote = []
    for at in range(crashes):
        up = at % SERVERS
        wrote.append(it.ready(up))
        way.ups[up].kill()
        time.sleep(0.5)
        way.ups[up].start()
        time.sleep(0.5 + at % 10 / 10)
    again = Room.wait(lambda: it.ready() == len(it.living()), 40)
    aborted = [one.process.returncode for one in it.callers if one.process.poll() is not None].count(-signal.SIGABRT)
    gone = WRITERS - len(it.living()) - aborted
    complaints = sorted({line.strip() for one in it.callers for line in one.complained if "Error:" in line})
    for one in it.living():
        one.end()
    return aborted, gone, statistics.mean(wrote), again, complaints


def writers(room, repeater):
    servers = [[[f"W{it}S{up}", 2, 1, 0] for it in range(WRITERS)] for up in range(SERVERS)]
    for label, crashes in (("server", 10), ("gateway", CRASHES)):
        way = Way(room, label, servers, repeater)
        aborted, gone, wrote, again, complaints = aborted_writers(way, crashes)
        way.end()
        print(f"writers: {aborted} of {WRITERS} abort and {gone} end in {crashes} crashes of {SERVERS} servers in turn, at which {wrote:.1f} write "
              f"to it in the mean, {label}; all that live write again: {'yes' if again else 'no'} {complaints[:3]}", flush=True)
        room.check(f"no writer aborts ({label})", aborted == gone == 0, (aborted, gone))
        room.check(f"all that live write again ({label})", again)


def holder(way, prefix, subscribes):
    """A client that has channels on all of a prefix, and reads none; it subscribes to each and takes nothing, where it does."""
    names = [f"{prefix}:{it:05}" for it in range(MANY)]
    if subscribes:
        return subscribed(way.address, names, ca.TIME + ca.LONG)
    link = ca.Connection(way.address, 60)
    link.send(ca.greeting("bench"))
    load.connect(link, names)
    return link


def pyepics_gets(way, prefix):
    here = {"EPICS_CA_ADDR_LIST": f"{way.address[0]}:{way.address[1]}", "EPICS_CA_AUTO_ADDR_LIST": "NO", "EPICS_CA_REPEATER_PORT": str(way.repeater)}
    done = subprocess.run([sys.executable, "-c", PYEPICS, prefix, str(MANY)], env=os.environ | here, capture_output=True, timeout=120, check=False)
    return json.loads(done.stdout.splitlines()[-1]) if done.returncode == 0 else {"missing": MANY, "getting": 0, "fault": done.stderr.decode()[-300:]}


def gets_of(way):
    told = {"cold": way.caller("gets", names=[["COLD", MANY]]).last()}
    for what, subscribes in (("held", False), ("watched", True)):
        link = holder(way, what.upper(), subscribes)
        told[what] = way.caller("gets", names=[[what.upper(), MANY]]).last()
        link.socket.close()
    if importlib.util.find_spec("epics"):
        told["pyepics"] = pyepics_gets(way, "PY")
    return told


def gets(room, repeater):
    variables = [[it, MANY, 1, 0] for it in ("COLD", "HELD", "WATCHED", "PY")]
    straight, through = both(room, variables, repeater, gets_of)
    for what, own in through.items():
        other = straight[what]
        print(f"gets: 1,000 {what}: {own.get('missing')} missing from the gateway, connected after {own.get('connecting', 0):.2f} s and read after "
              f"{own.get('getting', 0):.2f} s; from the server {other.get('missing')} missing, {other.get('connecting', 0):.2f} s and "
              f"{other.get('getting', 0):.2f} s", flush=True)
        room.check(f"all {what} values come", own.get("missing") == 0 and own.get("status", 1) == 1 and own.get("connected", 1) == 1, own)
    variables = [["P", 571, 1, 0]]
    straight, through = both(room, variables, repeater, lambda way: way.caller("puts", names=[["P", 571]]).last(), delay=0.005)
    own, other = (f"{it.get('done')} done and {it.get('failed')} refused after {it.get('took', 0) * 1e3:.0f} ms" for it in (through, straight))
    print(f"gets: 571 put callbacks to a server 5 ms away: {own} from the gateway; {other} from the server", flush=True)
    room.check("all put callbacks are done", through.get("done") == 571, through)


def monitors(room, repeater):
    variables = [["M", 5_000, 1, 1], ["X", 15_000, 1, 0]]
    facts = {"names": [["M", 5_000], ["X", 15_000]], "monitored": 5_000, "seconds": 20, "patience": 120}
    told = both(room, variables, repeater, lambda way: way.caller("monitors", **facts).last())
    for label, own in zip(("server", "gateway"), told):
        print(f"monitors: {own.get('connected')} of 20,000 channels after {own.get('connecting', 0):.1f} s, {label}; {own.get('updates')} of 100,000 "
              f"updates in 20 s of {own.get('monitored')} variables, {own.get('gaps')} left out, {own.get('late', 0) * 1e3:.0f} ms late at most", flush=True)
    through = told[1]
    room.check("all channels connect", through.get("connected") == 20_000, through)
    whole = through.get("monitored") == 5_000 and through.get("gaps") == 0
    room.check("each value comes", whole and through.get("updates", 0) >= 99_000, through)


PARTS = {"slow": slow, "unread": unread, "writers": writers, "gets": gets, "monitors": monitors}


def main():
    given = common.parser(__doc__, PARTS).parse_args()
    program = common.built(given.program)
    if not libca.is_installed():
        sys.exit("programs: libca 4.13.5 and libCom 3.17.6 (Debian's libca4.13.5, libcom3.17.6) aren't installed")
    with socket.socket(socket.AF_INET, socket.SOCK_DGRAM) as repeater:  # so that the library starts none
        repeater.bind(("127.0.0.1", 0))
        return common.run("programs", program, common.chosen(PARTS, given.words), repeater.getsockname()[1])


if __name__ == "__main__":
    sys.exit(main())
