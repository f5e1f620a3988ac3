#!/usr/bin/env python3
"""Measures the built server, side by side with a relay that parses nothing, and says which bars are met.

Run by hand, from anywhere: bench/serve.py [PROGRAM]. It needs a C compiler, takes about three minutes, and prints a table;
the status is 1 where a bar isn't met. Other work on the machine makes all figures worse.
"""
import os
import statistics
import subprocess
import sys
import tempfile
import threading
import time

import common  # (sets the paths)
import load
from load import UPDATE, Feeder, Program, Taker, ca, connect, take_all, wait
from served.room import free_port

HERE = os.path.dirname(os.path.abspath(__file__))
GATEWAY = os.path.abspath(sys.argv[1] if len(sys.argv) > 1 else common.BUILT)
CLIENTS, NAMES = 10, [f"V{it:03}" for it in range(100)]
PACED = (8.0, 0.001)  # seconds, and seconds from one update to the next
ROUNDS = {"gateway": 400, "relay": 20_000}
ARRAYS = 60


def gateway(*upstreams):
    port = free_port()
    return Program([GATEWAY, "serve", f"127.0.0.1:{port}", *(f"127.0.0.1:{it}" for it in upstreams)], port)


def relay(folder, upstream):
    port = free_port()
    return Program([f"{folder}/relay", str(port), str(upstream)], port)


class Line:
    """A feeder, the gateway or the relay, and clients that are subscribed."""

    def __init__(self, folder, between, variables, many=CLIENTS, dtype=ca.TIME + ca.LONG):
        is_gateway = between == "gateway"
        self.feeder = Feeder(variables, is_gateway)
        self.program = gateway(self.feeder.port) if is_gateway else relay(folder, self.feeder.port)
        names = [it.name for it in variables] if is_gateway else ()
        self.takers = [Taker(self.program.address, names, dtype) for _ in range(many)]
        wait(lambda: self.feeder.ask("ready"))
        if not is_gateway:  # the relay has greeted the server, and forwards what it answers
            time.sleep(0.2)
            for taker in self.takers:
                drained(taker)

    def feed(self, *words):
        """Begins to feed; the clients have to take it."""
        feeding = threading.Thread(target=self.feeder.ask, args=words)
        feeding.start()
        return feeding

    def end(self):
        for taker in self.takers:
            taker.link.socket.close()
        self.program.stop()
        self.feeder.stop()


def drained(taker):
    try:
        return taker.link.socket.recv(1 << 16)
    except BlockingIOError:
        return b""


def longs():
    return [load.Variable(name, ca.LONG, [0]) for name in NAMES]


def paced(folder, between):
    """Microseconds of a processor for each delivered update."""
    line = Line(folder, between, longs())
    seconds, every = PACED
    many = int(seconds / every) * UPDATE
    busy = line.program.processor()
    feeding = line.feed("paced", seconds, every)
    take_all(line.takers, lambda: all(it.bytes >= many for it in line.takers))
    spent = line.program.processor() - busy
    feeding.join()
    line.end()
    return spent / (many / UPDATE * CLIENTS) * 1e6


def flooded(folder, between):
    """Delivered updates a second; whether each client had each value, in order."""
    line = Line(folder, between, longs())
    rounds = ROUNDS[between]
    is_gateway = between == "gateway"
    feeding = line.feed("flooded" if is_gateway else "repeated", rounds)
    wanted = rounds * len(NAMES) * UPDATE
    if is_gateway:  # what is skipped doesn't come: the last value of each variable does
        seconds = take_all(line.takers, lambda: all(value == rounds for it in line.takers for value in it.last.values()), True)
    else:
        seconds = take_all(line.takers, lambda: all(it.bytes >= wanted for it in line.takers))
    feeding.join()
    line.end()
    return sum(it.bytes for it in line.takers) / UPDATE / seconds, all(it.in_order for it in line.takers)


def arrays(folder, between):
    """GB of arrays delivered a second."""
    line = Line(folder, between, [load.Variable("A", ca.CHAR, [0] * load.ARRAY)], dtype=ca.TIME + ca.CHAR)
    size = load.ARRAY + 40
    wanted = ARRAYS * size

    def tell():
        line.feeder.got.value = min(it.bytes for it in line.takers) // size

    feeding = line.feed("arrays", ARRAYS)
    seconds = take_all(line.takers, lambda: all(it.bytes >= wanted for it in line.takers), tell=tell)
    feeding.join()
    line.end()
    return sum(it.bytes for it in line.takers) / seconds / 1e9


def echoes(idle):
    """The median round trip of an ECHO beside idle connections, in milliseconds."""
    program = gateway(free_port())
    others = [greeted(program) for _ in range(idle)]
    link = greeted(program)
    trips = []
    for _ in range(1500):
        began = time.perf_counter()
        link.send(ca.message(ca.ECHO))
        link.take()
        trips.append(time.perf_counter() - began)
    for it in (*others, link):
        it.socket.close()
    program.stop()
    return statistics.median(trips) * 1e3


def greeted(program):
    link = ca.Connection(program.address, load.PATIENCE)
    link.take()
    return link


def crowd():
    """Seconds until 1,024 clients that come at once are greeted, MB resident, seconds until all are gone."""
    program = gateway(free_port())
    greeted(program).socket.close()
    time.sleep(0.5)
    files = program.files()
    took, links = load.all_at_once(program.address, 1024)
    resident = program.resident()
    began = time.monotonic()
    for link in links:
        link.close()
    wait(lambda: program.files() <= files)
    closing = time.monotonic() - began
    program.stop()
    return took, resident, closing


def searching():
    """Seconds for one client to search and connect 4,000 names."""
    names = [f"N{it:04}" for it in range(4000)]
    feeder = Feeder([load.Variable(name, ca.LONG, [0]) for name in names], False)
    program = gateway(feeder.port)
    link = greeted(program)
    link.send(ca.greeting("bench"))
    wait(lambda: feeder.ask("ready"))
    began = time.monotonic()
    made = connect(link, names)
    took = time.monotonic() - began
    link.socket.close()
    program.stop()
    feeder.stop()
    return took if all(made.values()) else float("inf")


def quitting(folder, clients):
    """Seconds until it has ended, with so many clients that never read, under a flood."""
    line = Line(folder, "gateway", longs(), 1)
    others = [Taker(line.program.address, NAMES[:10]) for _ in range(clients)]
    if clients:
        line.feed("endless")
        time.sleep(2)
    took = line.program.quit()
    for it in others:
        it.link.socket.close()
    line.end()
    return took


def in_turn(one, other, times=3):
    """The medians of two measurements that are made in turn: what wakes of threads cost changes from one second to the next."""
    made = [(one(), other()) for _ in range(times)]
    return (statistics.median(it) for it in zip(*made))


def bars(folder):
    """What is measured, the bar, and whether it is met."""
    few, many = echoes(10), echoes(1000)
    seen = f"{many:.3f} ms; {few:.3f} ms at 10"
    yield "round trip of an ECHO at 1,000 idle connections", seen, f"{min(3 * few, 0.2):.3f} ms", many <= min(3 * few, 0.2)
    own, other = in_turn(lambda: paced(folder, "gateway"), lambda: paced(folder, "relay"))
    yield "processor time of a paced update, 10 x 100", f"{own:.1f} us; relay {other:.2f} us", f"{4 * other:.1f} us", own <= 4 * other
    (own, in_order), (other, _) = flooded(folder, "gateway"), flooded(folder, "relay")
    yield "updates a second as fast as it goes, 10 x 100", f"{own:,.0f}; relay {other:,.0f}", f"{other / 10:,.0f}", own >= other / 10
    yield "  each value, in order", "yes" if in_order else "no", "yes", in_order
    own, other = arrays(folder, "gateway"), arrays(folder, "relay")
    yield "arrays of 1 MB, 10 clients", f"{own:.2f} GB/s; relay {other:.2f}", f"{other:.2f} GB/s", own >= other
    took, resident, closing = crowd()
    yield "1,024 clients at once are greeted", f"{took:.1f} s", "all", True
    yield "  memory", f"{resident:.0f} MB", "100 MB", resident <= 100
    yield "  all are closed", f"{closing:.2f} s", "1 s", closing <= 1
    took = searching()
    yield "4,000 names are searched and connected", f"{took:.2f} s", "1 s", took <= 1
    for label, clients in (("idle", 0), ("under flood, 200 clients that never read", 200)):
        took = quitting(folder, clients)
        yield f"quit, {label}", f"{took:.3f} s", "0.3 s", took <= 0.3


def main():
    common.raise_limit()
    are_met = True
    with tempfile.TemporaryDirectory(prefix="bench-") as folder:
        subprocess.run(["cc", "-O2", "-Wall", "-o", f"{folder}/relay", os.path.join(HERE, "relay.c")], check=True)
        print(common.head("What", "Measured", "Bar", "Met"))
        for what, measured, bar, is_met in bars(folder):
            print(common.row(what, measured, bar, "yes" if is_met else "NO"), flush=True)
            are_met &= is_met
    return 0 if are_met else 1


if __name__ == "__main__":
    sys.exit(main())
