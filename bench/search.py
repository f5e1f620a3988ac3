#!/usr/bin/env python3
"""Times what a search by datagram costs beside many names that are remembered or connected.

Run by hand, from anywhere: bench/search.py [MOST] [TIMES]. A datagram searches for 1, 20 or 100
names, beside 100 or 4,096 names that are remembered and have no server, or 100 or MOST (400 if not
given) that are connected, each with a channel of a client. Its names are among those. A script that
sets this up is replayed with and without the datagrams, TIMES times each (3 if not given); the
difference of the least processor times is their cost. Prints microseconds a datagram, with the events
in which its names are looked for from then on.
"""
import os
import resource
import subprocess
import sys
import tempfile

import common
from gateway import PROGRAM, connected, create, need_program

HOST = "10.0.0.9"


def names(count):
    return [f"V{number}" for number in range(count)]


def search(searched):
    """The line of a datagram that searches for these names."""
    heads = (f"000600080005000d{cid:08x}{cid:08x}" for cid in range(len(searched)))
    found = (head + name.encode().ljust(8, b"\0").hex() for head, name in zip(heads, searched))
    return f"search {HOST} " + "".join(found) + "\n"


def remembered(count):
    """A script after which so many names are remembered."""
    yield search(names(count))


def served(count):
    """A script after which a client has channels on so many variables, and no search is remembered."""
    wanted = "client s1 " + "".join(create(8, name) for name in names(count)) + "\n"
    yield "open s1 10.0.0.5\nopen u1\n" + wanted
    for number, name in enumerate(names(count)):
        yield "".join(f"{line}\n" for line in connected(number + 1, name))
    yield wanted + "sweep\n"


def processor_seconds():
    """Seconds of processor that all programs took that were run so far."""
    used = resource.getrusage(resource.RUSAGE_CHILDREN)
    return used.ru_utime + used.ru_stime


def replay(script_file):
    """Replays once. Gives seconds of processor, and how many lines were printed."""
    with open(script_file) as script:
        start = processor_seconds()
        done = subprocess.run([PROGRAM, "replay"], stdin=script, stdout=subprocess.PIPE, check=True)
        return processor_seconds() - start, done.stdout.count(b"\n")


def cost(setup, line, count, times):
    """Microseconds of a line of the script, which is played so many times."""
    with tempfile.TemporaryDirectory() as folder:
        without, with_them = (os.path.join(folder, file) for file in ("without", "with"))
        # The names are remembered before the time counts.
        script = setup + line
        for file, more in ((without, ""), (with_them, line * count)):
            with open(file, "w") as out:
                out.write(script + more)
        bare = [replay(without) for _ in range(times)]
        full = [replay(with_them) for _ in range(times)]
    more = full[0][1] - bare[0][1]
    if more != count:
        sys.exit(f"{more} lines more, where {count} were to come")
    return (min(run[0] for run in full) - min(run[0] for run in bare)) / count * 1e6


def main():
    most, times = common.number(1, 400), common.number(2, 3)
    need_program(PROGRAM)
    for how, counts, setup in (("remembered", (100, 4_096), remembered), ("connected", (100, most), served)):
        for count in counts:
            script = "".join(setup(count))
            for searched in (1, 20, 100):
                often = max(1, 10_000_000 // (searched * count))
                micros = cost(script, search(names(searched)), often, times)
                print(f"{count:6} names {how:10} a search of {searched:3} names {micros:12.1f} us", flush=True)


if __name__ == "__main__":
    main()
