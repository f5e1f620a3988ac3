#!/usr/bin/env python3
"""Times `pvgate replay` on inputs that show whether its cost is linear.

Run by hand, from anywhere: bench/replay.py [TIMES]. Each input is replayed TIMES times (3 if not
given), and the fastest run counts. Prints messages a second, wall time and the peak of memory of
each input, and then ratios that should be near 1. Needs GNU time as /usr/bin/time.
"""
import os
import subprocess
import sys
import tempfile
import time

import common
from gateway import need_program

PROGRAM = common.BUILT

OPEN = "open s1 10.0.0.5\n"
ECHO = "0017" + "0" * 28
LARGE = 1_048_576  # bytes of a large payload
LARGE_ECHO = "0017ffff" + "0" * 24 + f"{LARGE:08x}" + "0" * 8 + "5a" * LARGE


def echoes(lines, messages):
    """A script of so many lines, each with so many messages without a payload."""
    yield OPEN
    for _ in range(lines):
        yield "client s1 " + ECHO * messages + "\n"


def in_pieces(digits, pieces):
    """A script that gives these bytes in so many lines of nearly equal length."""
    yield OPEN
    total = len(digits) // 2
    cuts = [2 * (total * i // pieces) for i in range(pieces + 1)]
    for start, end in zip(cuts, cuts[1:]):
        yield "client s1 " + digits[start:end] + "\n"


def replay(script_file, printed, peak_file):
    """Replays once. Gives seconds, and the peak of memory in KiB."""
    timed = ["/usr/bin/time", "-f", "%M", "-o", peak_file, PROGRAM, "replay"]
    with open(script_file) as script, open(printed, "w") as out:
        start = time.perf_counter()
        subprocess.run(timed, stdin=script, stdout=out, check=True)
        seconds = time.perf_counter() - start
    with open(peak_file) as peak:
        return seconds, int(peak.read())


def measure(name, script, messages, times):
    """Replays a script of so many messages. Prints and gives its least time."""
    with tempfile.TemporaryDirectory() as folder:
        script_file, printed, peak_file = (
            os.path.join(folder, file) for file in ("script", "printed", "peak")
        )
        with open(script_file, "w") as file:
            file.writelines(script)
        replay(script_file, printed, peak_file)
        with open(printed) as file:
            lines = sum(1 for _ in file)
        # The greeting is a message too.
        if lines != messages + 1:
            sys.exit(f"{name}: {lines} lines, where {messages + 1} were to come")
        runs = [replay(script_file, os.devnull, peak_file) for _ in range(times)]
    seconds = min(run[0] for run in runs)
    peak = max(run[1] for run in runs) / 1024
    rate = f"{messages / seconds:12,.0f}" if messages > 1 else " " * 11 + "-"
    print(f"{name:32} {rate} messages/s {seconds:9.4f} s {peak:8.1f} MiB", flush=True)
    return seconds


def main():
    times = common.number(1, 3)
    need_program(PROGRAM)
    start = measure("a session alone", echoes(0, 0), 0, times)
    one = measure("ECHO, 16,000 in 1 line", echoes(1, 16_000), 16_000, times) - start
    many = measure("ECHO, 16,000 in 1,000 lines each", echoes(1_000, 16_000), 16_000_000, times) - start
    few = measure("ECHO of 1 MiB in 1,000 lines", in_pieces(LARGE_ECHO, 1_000), 1, times)
    more = measure("ECHO of 1 MiB in 60,000 lines", in_pieces(LARGE_ECHO, 60_000), 1, times)
    most = measure("ECHO of 1 MiB in 600,000 lines", in_pieces(LARGE_ECHO, 600_000), 1, times)
    print("The start of the program is left out of the first ratio.")
    print(f"cost of a message, in 1,000 lines to in 1 line: {many / 1_000 / one:.2f}")
    print(f"cost of the whole, in 60,000 lines to in 1,000: {more / few:.2f}")
    # A line has a cost of its own, beside that of its bytes. It must not depend on what came before.
    near = (more - few) / 59_000
    far = (most - more) / 540_000
    print(f"a further line: {near * 1e9:.0f} ns up to 60,000, {far * 1e9:.0f} ns up to 600,000")
    print(f"cost of a further line, up to 600,000 to up to 60,000: {far / near:.2f}")


if __name__ == "__main__":
    main()
