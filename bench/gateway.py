#!/usr/bin/env python3
"""Times what one event costs beside many variables, and how much memory a variable takes.

Run by hand, from anywhere: bench/gateway.py [MOST] [TIMES]. A script sets variables up, each with a
channel and a subscription of a client (up to 4,000 a client), and is replayed with and without more
messages, TIMES times each (3 if not given); the difference of the fastest runs is their cost, in
time of the processor. Prints the cost of each kind of message beside 100 variables and beside MOST
(10,000 if not given), of an update that many subscribe to, of a client and of a server that is lost
beside many others, and of messages beside many reads that wait.
"""
import os
import subprocess
import sys
import tempfile
import time

import common

PROGRAM = os.environ.get("PVGATE", common.BUILT)

CHANNELS = 4_000  # of a client; a session may have 4,096
SEARCHES = 2_000  # names that are looked for before they are forgotten; 4,096 are remembered
WRITING = 100  # writes that wait before the server answers them
BEGIN = "V"  # how the names of variables begin; six digits follow


def name_of(number):
    return f"{BEGIN}{number:06}"


def message(command, payload="", dtype=0, count=0, p1=0, p2=0):
    """A message's bytes as digits; the payload is padded to a multiple of 8 bytes."""
    payload += "0" * (-len(payload) % 16)
    size = len(payload) // 2
    if size > 0xFFF0 or count > 0xFFFE:
        return f"{command:04x}ffff{dtype:04x}0000{p1:08x}{p2:08x}{size:08x}{count:08x}{payload}"
    return f"{command:04x}{size:04x}{dtype:04x}{count:04x}{p1:08x}{p2:08x}{payload}"


def create(cid, name):
    return message(18, (name.encode() + b"\0").hex(), p1=cid, p2=13)


def subscribe(sid, own, count=1, dtype=5):
    return message(1, "0" * 24 + "00010000", dtype=dtype, count=count, p1=sid, p2=own)


def update(own, value=42, count=1):
    """An update of a LONG with its time stamp, under the gateway's subscription of this ID."""
    return message(1, "000000003b9aca0000000000" + f"{value:08x}" * count, dtype=19, count=count, p1=1, p2=own)


def connected(cid, name, count=1, server="u1"):
    """The lines that give the next link, of this CID, to a variable that was asked for."""
    yield f"found {name} {server}"
    yield f"server {server} " + message(22, p1=cid, p2=3) + message(18, dtype=5, count=count, p1=cid, p2=1_000 + cid)


def variables(many):
    """Variables, each with a channel, a subscription and a value."""
    for place in range(many):
        client, cid = f"s{1 + place // CHANNELS}", place + 1
        name = name_of(cid)
        if place % CHANNELS == 0:
            yield f"open {client} 10.0.0.5"
        yield f"client {client} " + create(cid, name)
        yield from connected(cid, name)
        yield f"client {client} " + create(cid, name) + subscribe(cid, cid)
        yield "server u1 " + update(cid)
        if cid % SEARCHES == 0:
            yield "sweep"


def beside(many):
    return ["open u1", "server u1 " + message(0, count=13), "open s1000 10.0.0.6", *variables(many)]


def replay(lines):
    """Replays a script once. Gives the seconds of processor, and how many lines were printed."""
    with tempfile.TemporaryFile("w+") as script, tempfile.TemporaryFile() as out:
        script.write("\n".join(lines) + "\n")
        script.flush()
        script.seek(0)
        child = subprocess.Popen([PROGRAM, "replay"], stdin=script, stdout=out)
        _, status, used = os.wait4(child.pid, 0)
        child.returncode = os.waitstatus_to_exitcode(status)
        if child.returncode:
            sys.exit(f"the replay ended with status {child.returncode}")
        out.seek(0)
        printed = sum(piece.count(b"\n") for piece in iter(lambda: out.read(1 << 20), b""))
        return used.ru_utime + used.ru_stime, printed


def memory(lines):
    """The peak of memory in KiB, read while the program waits for more of the script."""
    with tempfile.TemporaryFile() as out:
        child = subprocess.Popen([PROGRAM, "replay"], stdin=subprocess.PIPE, stdout=out)
        child.stdin.write(("\n".join(lines) + "\n").encode())
        child.stdin.flush()
        size = -1
        while size < os.fstat(out.fileno()).st_size or size == 0:
            size = os.fstat(out.fileno()).st_size
            time.sleep(0.5)
        with open(f"/proc/{child.pid}/status") as status:
            peak = next(int(line.split()[1]) for line in status if line.startswith("VmHWM"))
        child.communicate()
        return peak


def fastest(lines, times):
    runs = [replay(lines) for _ in range(times)]
    return min(run[0] for run in runs), runs[0][1]


def cost(base, more, printed, each, times):
    """Microseconds of each of so many messages that are added to a script, and print so many lines."""
    bare, lines_before = fastest(base, times)
    full, lines = fastest(base + more, times)
    if lines - lines_before != printed:
        sys.exit(f"{lines - lines_before} lines more, where {printed} were to come")
    return (full - bare) / each * 1e6


def read():
    return "client s1 " + message(15, dtype=5, count=1, p1=1, p2=0x21)


def subscribed():
    return "client s1 " + subscribe(1, 999_999) + message(2, dtype=5, count=1, p1=1, p2=999_999)


def writes(many):
    for first in range(1, many, WRITING):
        ids = range(first, first + WRITING)
        asked = (message(19, "0000002a", dtype=5, count=1, p1=1, p2=ioid) for ioid in ids)
        yield "client s1 " + "".join(asked)
        yield "server u1 " + "".join(message(19, dtype=5, count=1, p1=1, p2=ioid) for ioid in ids)


def events(most, times):
    """What each kind of message costs beside few variables and beside many."""
    many = 20_000
    kinds = [
        ("update of one variable", ["server u1 " + update(1)] * many, 1),
        ("read that is covered", [read()] * many, 1),
        ("ECHO of another client", ["client s1000 " + message(23)] * many, 1),
        ("subscription made and given up", [subscribed()] * many, 2),
        ("WRITE_NOTIFY and its reply", list(writes(many)), 2),
    ]
    for name, more, printed in kinds:
        few, lots = (cost(beside(size), more, many * printed, many, times) for size in (100, most))
        print(f"{name:32} {few:8.2f} us beside 100, {lots:8.2f} us beside {most}: {lots / few:5.2f} times", flush=True)


def setting_up(most, times):
    """What a variable costs to set up, in time and in memory."""
    empty, _ = fastest(beside(0), times)
    bare = memory(beside(0))
    first = None
    for many in (100, 1_000, most, 6 * most):
        script = beside(many)
        took, _ = fastest(script, times)
        each = (took - empty) / many * 1e6
        first = first or each
        held = (memory(script) - bare) / many
        print(f"{many:7} variables: {each:8.2f} us each to set up ({each / first:5.2f} times), {held:6.2f} KiB each", flush=True)


def subscribers(times):
    """What an update costs with many subscribers to one variable."""
    for count in (8, 10_000):
        alone = None
        for many in (1, 100, 1_000):
            lines = ["open u1", "server u1 " + message(0, count=13), "open s1 10.0.0.5", "client s1 " + create(1, name_of(1))]
            lines += connected(1, name_of(1), count)
            lines.append("client s1 " + create(1, name_of(1)))
            lines += ["client s1 " + subscribe(1, own, count) for own in range(1, many + 1)]
            updates = max(20, (20_000 if count == 8 else 2_000) // many)
            each = cost(lines, ["server u1 " + update(1, 42, count)] * updates, updates * many, updates * many, times)
            alone = each if many == 100 else alone
            told = f" ({each / alone:5.2f} times)" if many == 1_000 else ""
            print(f"update of {count:6} elements to {many:5} subscribers: {each:8.2f} us each{told}", flush=True)


def losses(times):
    """What it costs that a client with 4,000 channels goes, beside others and beside none."""
    alone = None
    for others in (0, 13):
        lines = ["open u1", "server u1 " + message(0, count=13), *variables((others + 1) * CHANNELS)]
        each = cost(lines, [f"lost s{others + 1}"], 2 * CHANNELS, 1, times)
        alone = alone or each
        print(f"a client with {CHANNELS} channels is lost beside {others * CHANNELS:6} of others: {each / 1e3:8.2f} ms ({each / alone:5.2f} times)", flush=True)


def elsewhere(many, first):
    """So many variables of another server, from this CID on, each with a channel of a client of its own."""
    yield from ["open u2", "server u2 " + message(0, count=13), "open s900 10.0.0.7"]
    for cid in range(first, first + many):
        yield "client s900 " + create(cid, f"W{cid:06}")
        yield from connected(cid, f"W{cid:06}", server="u2")
        yield "client s900 " + create(cid, f"W{cid:06}")


def lost_servers(most, times):
    """What it costs that a server with 100 variables goes, beside few variables of another and beside many."""
    few, lots = (cost([*beside(size), *elsewhere(100, size + 1)], ["lost u2"], 100, 1, times) for size in (100, most))
    print(f"a server with 100 variables is lost: {few / 1e3:8.2f} ms beside 100 of another, {lots / 1e3:8.2f} ms beside {most} ({lots / few:5.2f} times)", flush=True)


def waiting(clients):
    """Clients that each wait for 250 values of variables that have none."""
    yield from ["open s900 10.0.0.7", "client s900 " + create(2, "W000002")]
    yield from connected(2, "W000002")
    for client in range(100, 100 + clients):
        yield f"open s{client} 10.0.0.8"
        yield f"client s{client} " + create(2, "W000002")
        yield f"client s{client} " + "".join(message(15, dtype=5, count=1, p1=client - 98, p2=ioid) for ioid in range(250))


def beside_waiting(times):
    """What an update and an ECHO cost beside many clients that wait for values of another variable."""
    many, together = 20_000, 1_000  # messages of one line are followed by one drain of all connections
    kinds = (("update", "server u1 " + update(1) * together), ("ECHO", "client s1000 " + message(23) * together))
    for name, line in kinds:
        few, lots = (cost([*beside(1), *waiting(clients)], [line] * (many // together), many, many, times) for clients in (1, 800))
        print(f"{name:6} beside 250 reads that wait {few:8.2f} us, beside 200,000 of 800 clients {lots:8.2f} us ({lots / few:5.2f} times)", flush=True)


def need_program(path):
    if not os.access(path, os.X_OK):
        sys.exit("build pvgate first: ./pvgate --build")


def main():
    most, times = common.number(1, 10_000), common.number(2, 3)
    need_program(PROGRAM)
    events(most, times)
    setting_up(most, times)
    subscribers(times)
    losses(times)
    lost_servers(most, times)
    beside_waiting(times)


if __name__ == "__main__":
    main()
