#!/usr/bin/env python3
"""Times what it costs to hand large values to many readers, and how much memory they hold.

Run by hand, from anywhere: bench/payloads.py [TIMES]. One variable has LONG elements, and clients of
one subscription each ask for all of them in one type. The clients are held, so that nothing is
printed: what is measured is what the gateway does. An update that many subscribe to is compared
with one that a single client subscribes to, of which most is spent on reading the line; what the
others add is compared with a plain copy of as many bytes.
"""
import time

import common
import gateway
from gateway import connected, create, fastest, memory, message, subscribe, update

LARGE = 262_140  # LONG elements of an update of 1 MiB
MOST = 4_194_300  # of one of 16 MiB, the most that there may be


def readers(many, count):
    """One variable of so many elements, with clients that are held and subscribe to all of them."""
    yield "open u1"
    yield "server u1 " + message(0, count=13)
    yield "open s1 10.0.0.5"
    yield "client s1 " + create(1, "V000001")
    yield from connected(1, "V000001", count)
    for number in range(1, many + 1):
        yield f"open s{number} 10.0.0.5"
        yield f"client s{number} " + create(1, "V000001")
        yield f"client s{number} " + subscribe(number, 1, count)
        yield f"hold s{number}"


def handing_out(many, count, updates, times):
    """Seconds that so many updates take."""
    base = list(readers(many, count))
    bare, _ = fastest(base, times)
    full, _ = fastest(base + ["server u1 " + update(1, 42, count)] * updates, times)
    return full - bare


def copying(size):
    """Seconds that a plain copy of so many bytes takes."""
    source = bytes(size)
    start = time.perf_counter()
    _copy = bytearray(source)
    return time.perf_counter() - start


def main():
    times = common.number(1, 3)
    one, many = (handing_out(readers, 10_000, 200, times) for readers in (1, 100))
    print(f"an update of 10000 elements: {one / 200 * 1e6:8.1f} us to 1 client, {many / 200 * 1e6:8.1f} us to 100: {many / one:5.2f} times")
    for name, count, updates in (("1 MiB", LARGE, 20), ("16 MiB", MOST, 4)):
        one, ten = (handing_out(readers, count, updates, times) for readers in (1, 10))
        size = 9 * updates * 4 * count
        copied = size / copying(size) / 1e9
        print(f"updates of {name} to 9 clients more: {size / max(ten - one, 1e-6) / 1e9:8.2f} GB/s, a plain copy {copied:8.2f} GB/s")
    before = memory(list(readers(1_000, LARGE)))
    after = memory([*readers(1_000, LARGE), "server u1 " + update(1, 42, LARGE)])
    print(f"the same update of 1 MiB waiting for 1000 clients: {(after - before) / 1024:8.2f} MiB more")


if __name__ == "__main__":
    gateway.need_program(gateway.PROGRAM)
    main()
