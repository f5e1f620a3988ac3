"""What bench/programs.py puts round the gateway, in processes of their own: servers that it may kill, and clients of libca.

    bench/callers.py server FACTS      FACTS as `Apart` writes them; it prints the address on which it listens
    bench/callers.py ROLE FACTS        a client, as `Caller` starts it, which prints what it saw as lines of JSON

Clients use libca 4.13.5 by ctypes, with no exception handler, as most programs have none: an exception that isn't a warning aborts them.
"""
import ctypes
import heapq
import json
import os
import struct
import subprocess
import sys
import threading
import time

import common  # noqa: F401  (sets the paths)
import ca_wire as ca
from ioc import Client, Ioc, Variable
from served import libca


class Large(Variable):
    """An array of CHAR whose bytes aren't made anew for each client."""

    def __init__(self, name, many):
        super().__init__(name, ca.CHAR, [0], count=many)
        self.body = bytes(many)

    def payload(self, dtype, count):
        many = count or self.count
        front = struct.pack(">" + ca.front_letters(dtype), *ca.front_of(dtype, self.value, self.properties))
        return front.ljust(ca.value_offset(dtype), b"\0") + self.body[:many], many


class Far(Client):
    """A client that what it says reaches only after a while."""

    def hear(self, it):
        if self.ioc.delay:
            heapq.heappush(self.ioc.late, (time.monotonic() + self.ioc.delay, self.ioc.number(), self, it))
        else:
            super().hear(it)


class Served(Ioc):
    """Variables of a kind: so many of a prefix, of so many elements, which change so often in a second."""

    def __init__(self, facts):
        import ioc
        ioc.Client = Far
        self.delay, self.late, self.counted = facts.get("delay", 0), [], 0
        variables, self.moving = [], []
        for prefix, many, elements, often in facts["variables"]:
            names = [f"{prefix}:{it:05}" for it in range(many)]
            own = [Large(it, elements) if elements > 1 else Variable(it, ca.LONG, [at]) for at, it in enumerate(names)]
            variables += own
            self.moving += [(at / len(own) / often, self.number(), 1 / often, it) for at, it in enumerate(own)] if often else []
        super().__init__(tuple(facts["address"]), variables)

    def number(self):
        self.counted += 1
        return self.counted

    def run(self):
        began = time.monotonic()
        heapq.heapify(self.moving)
        while True:
            now = time.monotonic()
            dues = [began + self.moving[0][0]] if self.moving else []
            dues += [self.late[0][0]] if self.late else []
            self.turn(max(0.0, min([1.0, *(it - now for it in dues)])))
            now = time.monotonic()
            while self.moving and began + self.moving[0][0] <= now:
                due, own, gap, it = self.moving[0]
                heapq.heapreplace(self.moving, (due + gap, own, gap, it))
                self.set(it.name, [it.value.values[0] + 1] if it.count == 1 else [0])
            while self.late and self.late[0][0] <= now:
                _, _, client, it = heapq.heappop(self.late)
                if client.link in self.clients:
                    Client.hear(client, it)


def server(facts):
    it = Served(facts)
    print(f"{it.address[0]}:{it.address[1]}", flush=True)
    it.run()


class Apart:
    """A server in a process of its own, which may be killed and started again at the same address."""

    def __init__(self, room, variables, **more):
        self.facts = {"variables": variables, "address": ["127.0.0.1", 0], **more}
        self.start()
        room.started.append(self.kill)

    def start(self):
        for _ in range(20):
            self.process = subprocess.Popen([sys.executable, __file__, "server", json.dumps(self.facts)], stdout=subprocess.PIPE)
            host, _, port = self.process.stdout.readline().decode().strip().rpartition(":")
            if port:
                break
            time.sleep(0.1)
        self.address = (host, int(port))
        self.facts["address"] = list(self.address)

    def kill(self):
        self.process.kill()
        self.process.wait()
        self.process.stdout.close()


class Caller:
    """A program of libca, running: what it says line by line, and how it ended."""

    def __init__(self, room, role, addresses, repeater, **facts):
        here = {"EPICS_CA_ADDR_LIST": " ".join(f"{host}:{port}" for host, port in addresses), "EPICS_CA_AUTO_ADDR_LIST": "NO",
                "EPICS_CA_REPEATER_PORT": str(repeater), "EPICS_CA_MAX_ARRAY_BYTES": "20000000"}
        self.process = subprocess.Popen([sys.executable, __file__, role, json.dumps(facts)], stdin=subprocess.PIPE, stdout=subprocess.PIPE,
                                        stderr=subprocess.PIPE, env=os.environ | here)
        self.told, self.complained = [], []
        self.threads = [threading.Thread(target=self.collect, args=it, daemon=True)
                        for it in ((self.process.stdout, self.told, json.loads), (self.process.stderr, self.complained, bytes.decode))]
        for it in self.threads:
            it.start()
        room.started.append(self.kill)

    @staticmethod
    def collect(stream, lines, made):
        for line in stream:
            lines.append(made(line))

    def last(self, seconds=300):
        """What it said last, once it ended; nothing where it doesn't end or said nothing."""
        try:
            self.process.wait(seconds)
        except subprocess.TimeoutExpired:
            return {}
        for it in self.threads:
            it.join()
        return self.told[-1] if self.told else {}

    def end(self):
        """Has it end by itself; its status."""
        try:
            self.process.stdin.close()
            self.process.wait(20)
        except (OSError, subprocess.TimeoutExpired):
            self.kill()
        return self.process.returncode

    def kill(self):
        if self.process.poll() is None:
            self.process.kill()
        self.process.wait()


class Program:
    """libca, as a program has it: with calls back from threads of its own, or while it waits alone."""

    def __init__(self, threads):
        for name in libca.LIBRARIES:
            self.calls = ctypes.CDLL(name, ctypes.RTLD_GLOBAL)
        self.kept = []
        self.calls.ca_pend_io.argtypes = self.calls.ca_pend_event.argtypes = [ctypes.c_double]
        self.calls.ca_context_create(1 if threads else 0)

    def keep(self, callback):
        self.kept.append(callback)
        return callback

    def channel(self, name, changed=None, own=None):
        made = ctypes.c_void_p()
        status = self.calls.ca_create_channel(name.encode(), changed, ctypes.c_void_p(own), 0, ctypes.byref(made))
        if status != ca.NORMAL:
            raise RuntimeError(f"ca_create_channel: {status}")
        return made


def say(**facts):
    print(json.dumps(facts), flush=True)


def names_of(facts):
    return [f"{prefix}:{it:05}" for prefix, many in facts["names"] for it in range(many)]


def gets(facts):
    """All channels in one ca_pend_io(5), then all values in another."""
    program, names = Program(False), names_of(facts)
    began = time.monotonic()
    channels = [program.channel(it) for it in names]
    connected = program.calls.ca_pend_io(5.0)
    made = time.monotonic()
    places = (ctypes.c_int * len(names))(*[-1] * len(names))
    for at, it in enumerate(channels):
        program.calls.ca_array_get(ca.LONG, ctypes.c_ulong(1), it, ctypes.byref(places, 4 * at))
    status = program.calls.ca_pend_io(5.0)
    say(connected=connected, connecting=made - began, status=status, getting=time.monotonic() - made, missing=sum(it == -1 for it in places))


def puts(facts):
    """As many put callbacks at once."""
    program, names = Program(False), names_of(facts)
    channels = [program.channel(it) for it in names]
    connected = program.calls.ca_pend_io(10.0)
    seen = []
    heard = program.keep(libca.ON_EVENT(lambda it: seen.append((it.status, time.monotonic()))))
    value = ctypes.c_int(5)
    began = time.monotonic()
    for it in channels:
        program.calls.ca_array_put_callback(ca.LONG, ctypes.c_ulong(1), it, ctypes.byref(value), heard, None)
    program.calls.ca_flush_io()
    while len(seen) < len(names) and time.monotonic() - began < 10:
        program.calls.ca_pend_event(0.001)
    say(connected=connected, done=sum(status == ca.NORMAL for status, _ in seen), failed=sum(status != ca.NORMAL for status, _ in seen),
        took=max([at for _, at in seen], default=began) - began)


def writer(facts):
    """Writes each of its variables at each turn of a tenth of a second, until its input ends; tells each change of a connection."""
    threads, names = facts["threads"], names_of(facts)
    program = Program(threads)

    def changed_of(own):
        return program.keep(libca.ON_CHANGE(lambda it: say(own=own, up=it.op == libca.UP)))
    channels = [program.channel(it, changed_of(own)) for own, it in enumerate(names)]
    over = threading.Event()
    threading.Thread(target=lambda: (sys.stdin.read(), over.set()), daemon=True).start()
    value, gap = ctypes.c_int(0), facts.get("gap", 0.1)
    while not over.is_set():
        for it in channels:
            program.calls.ca_array_put(ca.LONG, ctypes.c_ulong(1), it, ctypes.byref(value))
        program.calls.ca_flush_io()
        value.value += 1
        if threads:
            time.sleep(gap)
        else:  # half of the time it waits for the library, in the other half it does something else
            program.calls.ca_pend_event(gap / 2)
            time.sleep(gap / 2)
    os._exit(0)


def monitors(facts):
    """Channels on all names, and a monitor on the first ones: whether each value comes, and how late."""
    program, names = Program(True), names_of(facts)
    up, last, gaps, late, many = set(), {}, [0], [0.0], [0]
    callback = program.keep(libca.ON_CHANGE(lambda it: (up.add if it.op == libca.UP else up.discard)(it.channel)))
    began = time.monotonic()
    channels = [program.channel(it, callback) for it in names]
    program.calls.ca_flush_io()
    while len(up) < len(names) and time.monotonic() - began < facts["patience"]:
        time.sleep(0.02)
    connecting = time.monotonic() - began

    def heard(it):
        if it.status != ca.NORMAL or not it.dbr:
            return
        seconds, parts, value = struct.unpack_from("=IIi", ctypes.string_at(it.dbr, 16), 4)
        many[0] += 1
        if it.user in last:
            gaps[0] += value != last[it.user] + 1
            late[0] = max(late[0], time.time() - (ca.EPOCH + seconds + parts / 1e9))
        last[it.user] = value
    event = program.keep(libca.ON_EVENT(heard))
    for own, it in enumerate(channels[:facts["monitored"]]):
        program.calls.ca_create_subscription(ca.TIME + ca.LONG, ctypes.c_ulong(1), it, 5, event, ctypes.c_void_p(own + 1), None)
    program.calls.ca_flush_io()
    time.sleep(facts.get("settling", 5))
    late[0] = 0.0
    before = many[0]
    time.sleep(facts["seconds"])
    say(connected=len(up), connecting=connecting, monitored=len(last), updates=many[0] - before, gaps=gaps[0], late=late[0])
    os._exit(0)


def slow(facts):
    """A monitor of an array, whose callback takes a second for each megabyte."""
    program, ages, ready = Program(True), [], threading.Event()
    callback = program.keep(libca.ON_CHANGE(lambda it: ready.set()))
    channel = program.channel(names_of(facts)[0], callback)
    program.calls.ca_flush_io()
    ready.wait(60)
    began = time.monotonic()

    def heard(it):
        if it.status == ca.NORMAL and it.dbr:
            seconds, parts = struct.unpack_from("=II", ctypes.string_at(it.dbr, 12), 4)
            ages.append((time.monotonic() - began, time.time() - (ca.EPOCH + seconds + parts / 1e9)))
            time.sleep(it.count / 1e6)
    program.calls.ca_create_subscription(ca.TIME + ca.CHAR, ctypes.c_ulong(0), channel, 5, program.keep(libca.ON_EVENT(heard)), None, None)
    program.calls.ca_flush_io()
    time.sleep(facts["seconds"])
    say(ages=ages)
    os._exit(0)


ROLES = {"gets": gets, "puts": puts, "writer": writer, "monitors": monitors, "slow": slow, "server": server}

if __name__ == "__main__":
    ROLES[sys.argv[1]](json.loads(sys.argv[2]))
