#!/usr/bin/env python3
"""Says what the gate costs: the processor seconds of each crate's proof, seed, edits and tests.

    .ci/gate_times.py --keep FILE rt ci ..     runs the command, and keeps the times in FILE as it goes
    .ci/gate_times.py --keep FILE --pid N      the same of a run that has begun: of what process N and those below do from now on
    .ci/gate_times.py FILE                     prints the table of a run, which may have been cut off
    .ci/gate_times.py BEFORE AFTER             prints how many seconds more the second run took

proof: the proof of a crate and the build of its program; seed: what its must-fail edits begin from; edits: the edits' own
tries; tests: the proof of its tests, and the runs of tests and program. What belongs to no crate is in the row `others`.
The processes below the command are looked at every two seconds; what one used after the last look is known from the time
that its parent was told, so the total is exact, and each part within some seconds a process. `.ci/run` keeps the times of its
own run so, and prints the table at its end. The status is the command's, or 0.
"""
import argparse
import json
import os
import re
import signal
import subprocess
import sys
import time

KINDS = ("proof", "seed", "edits", "tests")
OTHERS = ("others", "proof")
LOOK, WRITE = 2.0, 2.0
TICKS = os.sysconf("SC_CLK_TCK")


def text_of(path):
    try:
        with open(path, "rb") as file:
            return file.read().decode(errors="replace")
    except OSError:
        return ""


def processes():
    """The parent of each process, its own seconds, and those of the children that ended."""
    found = {}
    for name in os.listdir("/proc"):
        if name.isdigit():
            fields = text_of(f"/proc/{name}/stat").rpartition(")")[2].split()
            if fields:
                own, ended = (sum(map(int, fields[at : at + 2])) / TICKS for at in (11, 13))
                found[int(name)] = int(fields[1]), own, ended
    return found


def below(root, every):
    """The process and all below it, parents first."""
    children = {}
    for number, (parent, _, _) in every.items():
        children.setdefault(parent, []).append(number)
    found = [root] if root in every else []
    for number in found:
        found += children.get(number, [])
    return found


def task_of(words):
    """The crate and the kind of work of a process with this command line, or None where it is a part of another's."""
    if "--crate-name" in words[:-1]:
        crate = words[words.index("--crate-name") + 1]
        kept = words[words.index("--incremental") + 1] if "--incremental" in words[:-1] else ""
        if "--test" in words:
            return crate, "tests"
        if re.search(r"/rt-edits-[^/]*/seed$", kept):
            return crate, "seed"
        if "/rt-edits-" in kept or "--only" in words:
            return crate, "edits"
        return crate, "proof"
    made = next((it for it in words if re.search(r"(^|/)(rt-run-[^/]*/bin|out)/\w+(\.by-rattle)?(\.o)?$", it)), None)
    if made:
        name = os.path.basename(made).split(".")[0]
        is_run = "/rt-run-" in made or made == words[0] or name.endswith("_tests")
        return name.removesuffix("_tests"), "tests" if is_run else "proof"
    return None


def task_at(number):
    """The same of a process that runs; one in a copy made for edits tries these."""
    words = text_of(f"/proc/{number}/cmdline").split("\0")[:-1]
    # (what rt puts before each command it starts)
    if "-ISc" in words:
        return None
    task = task_of(words)
    if task and task[1] == "proof":
        try:
            return (task[0], "edits") if re.search("/rt-edit-|/also-refused-", os.readlink(f"/proc/{number}/cwd")) else task
        except OSError:
            return task
    return task


class Times:
    """The seconds of each crate and kind that were seen below a process."""

    def __init__(self, root):
        self.root, self.seconds, self.total, self.rest = root, {}, None, 0.0
        # The task of each process that has one, and the seconds of it and of what it started.
        self.tasks, self.seen = {}, {}

    def add(self, task, seconds):
        self.seconds[task] = self.seconds.get(task, 0.0) + seconds

    def tasks_of(self, found, every):
        """The process, itself or above, whose task each process is a part of."""
        owner = {}
        for number in found:
            above = owner.get(every[number][0])
            if above is None and number not in self.tasks:
                task = task_at(number)
                if task:
                    self.tasks[number] = task
            owner[number] = above if above is not None else number if number in self.tasks else None
        return owner

    def look(self):
        """Adds what was used since the last look."""
        every = processes()
        found = below(self.root, every)
        if not found:
            return
        owner, now = self.tasks_of(found, every), {}
        for number in found:
            if owner[number] is not None:
                now[owner[number]] = now.get(owner[number], 0.0) + every[number][1] + every[number][2]
        total = sum(own + ended for own, ended in (every[it][1:] for it in found))
        # (at the first look, what a run that had begun used before it counts of the tasks that still run alone)
        self.share(now, sum(now.values()) if self.total is None else total - self.total)
        self.total = total

    def share(self, now, used):
        """Adds the seconds of the tasks that run; the rest is of those that ended since the last look, or of no task."""
        for number, seconds in now.items():
            more = seconds - self.seen.get(number, 0.0)
            self.add(self.tasks[number], more)
            used -= more
        ended = [self.tasks.pop(it) for it in list(self.seen) if it not in now]
        # (a process that ended during a look is in neither its own seconds nor its parent's, until the next look)
        self.rest += used
        if self.rest > 0:
            for task in ended or [OTHERS]:
                self.add(task, self.rest / max(len(ended), 1))
            self.rest = 0.0
        self.seen = now


def write(seconds, wall, path):
    """Writes the times, whole or not at all."""
    rows = {}
    for (crate, kind), spent in seconds.items():
        rows.setdefault(crate, {})[kind] = round(spent, 2)
    with open(f"{path}.new", "w", encoding="utf-8") as file:
        json.dump({"wall": round(wall, 1), "crates": rows}, file, indent=1, sort_keys=True)
    os.replace(f"{path}.new", path)


def watched(root, ended, path):
    """Looks at a process until it has ended, and keeps the times as it goes."""
    times, begun = Times(root), time.monotonic()
    written = begun
    is_ended = False
    while not is_ended:
        time.sleep(LOOK)
        is_ended = ended()
        times.look()
        if time.monotonic() - written >= WRITE:
            written = time.monotonic()
            write(times.seconds, written - begun, path)
    write(times.seconds, time.monotonic() - begun, path)


def run(words, path):
    """Runs a command and keeps its times, and answers its status; a signal to end is passed on to it."""
    with subprocess.Popen(words) as ran:
        for it in (signal.SIGTERM, signal.SIGINT, signal.SIGHUP):
            signal.signal(it, lambda number, _: ran.send_signal(number))
        # (it is waited for once it was looked at last, so that its number is not another's)
        watched(ran.pid, lambda: is_over(ran.pid), path)
        return ran.wait()


def is_over(number):
    return text_of(f"/proc/{number}/stat").rpartition(")")[2].split()[:1] in ([], ["Z"])


def read(path):
    with open(path, encoding="utf-8") as file:
        found = json.load(file)
    return found["crates"], found["wall"]


def difference(before, after):
    return {
        crate: {it: after.get(crate, {}).get(it, 0.0) - before.get(crate, {}).get(it, 0.0) for it in KINDS}
        for crate in {*before, *after}
    }


def line(name, figures):
    return f"{name:<20}" + "".join(f"{it:>10.1f}" for it in [*figures, sum(figures)])


def print_table(rows, wall):
    """Prints seconds by crate and kind, and their sums, the last in minutes too."""
    print(f"{'processor seconds':<20}" + "".join(f"{it:>10}" for it in (*KINDS, "all")))
    for crate in sorted(rows, key=lambda it: (it == OTHERS[0], it)):
        print(line(crate, [rows[crate].get(it, 0.0) for it in KINDS]))
    totals = [sum(it.get(kind, 0.0) for it in rows.values()) for kind in KINDS]
    print(line("total", totals))
    print(line("minutes", [it / 60 for it in totals]))
    print(f"wall: {wall / 60:.1f} minutes")


def main():
    parser = argparse.ArgumentParser(description=__doc__, formatter_class=argparse.RawDescriptionHelpFormatter)
    parser.add_argument("--keep", metavar="FILE")
    parser.add_argument("--pid", type=int, metavar="N")
    parser.add_argument("words", nargs=argparse.REMAINDER, metavar="FILE or COMMAND")
    given = parser.parse_args()
    status, files = 0, given.words
    if given.keep:
        files = [given.keep]
        if given.pid:
            watched(given.pid, lambda: is_over(given.pid), given.keep)
        elif given.words:
            status = run(given.words, given.keep)
        else:
            parser.error("--keep wants a command, or --pid")
    if len(files) not in (1, 2):
        parser.error("give one file or two, or --keep FILE COMMAND ..")
    rows, wall = read(files[-1])
    if len(files) == 2:
        before, was = read(files[0])
        rows, wall = difference(before, rows), wall - was
    print_table(rows, wall)
    return status


if __name__ == "__main__":
    sys.exit(main())
