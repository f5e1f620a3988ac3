#!/usr/bin/env python3
"""Tries the edits crates/NAME/also-refused/*.edit, which `rt ci` leaves out: the prover must refuse each of them too.

    .ci/also_refused.py --minutes M [--since COMMIT] [--jobs N] [CRATE ..]    as many as there is time for, as the gate does
    .ci/also_refused.py [--jobs N] [--alone] [--list] [CRATE ..]              all of them

Run it over built libraries (after `rt ci`, or once `rt check` proves what is tried). The sources are copied to a scratch folder,
where `rt` begins with the libraries that are built. Each edit is refused, still proved (a clause says too little, or the edit
changes no meaning), or no longer applies, as one does that doesn't compile; one that was not tried (its check was killed, say)
needs another run. The status is 0 where none is still proved and none fails to apply, and, without --minutes, all were tried.

Edits of different functions are tried together first, since a function's proof reads no other's body: one check of those
functions, where each edit is refused if a goal of the function that it stands in isn't proved. An edit outside of functions has a
check of the crate. What is not refused so is tried alone, as a must-fail edit of the copy, by `rt must-fail`.
Without --minutes each crate is proved first as it stands, and its edits are tried in checks of the crate. --alone tries all
alone, which costs several times as much.

--minutes M ends M minutes after it began, or a minute later: what runs then is ended. Edits of crates that changed since
COMMIT (by default the parent of the first commit of the last three days) are tried first, then others, in an order that hangs
on the commit's hash: so each edit is tried at its own change, and all come round in some runs. --jobs N has N crates at work
at once there, 2 by default; else it is how many checks run at once. --list tries nothing: it prints each crate's edits, those
of must-fail too, and marks those that don't apply: an edit whose old text doesn't stand once in its file. The status is 0
where all apply.
"""
import argparse
import concurrent.futures
import os
import signal
import sys
import tempfile
import threading
import time

sys.path.insert(0, os.path.dirname(os.path.abspath(__file__)))
from refusals.choosing import parts  # noqa: E402
from refusals.edits import GATE, TRIED, crates, edits  # noqa: E402
from refusals.tries import MEANINGS, PROVED, BAD, REFUSED, TOGETHER, copied, tried, tried_alone  # noqa: E402


# So many seconds what is being tried may go on once the time is over.
GRACE = 60


def listed(crate):
    """Prints a crate's edits, and counts those that don't apply."""
    bad = 0
    for folder in (GATE, TRIED):
        found = edits(crate, folder)
        if found:
            print(f"{crate}/{folder}: {len(found)}")
        for edit in found:
            texts, why = edit.change({})
            bad += texts is None
            print(f"  {edit.name}{'' if texts else f': DOES NOT APPLY: {why}'}")
    return bad


def counted(came):
    return ", ".join(f"{came.count(it)} {it}" for it in MEANINGS.values())


def run(names, jobs, is_alone):
    """Tries the edits of these crates, one crate after the other, and gives what came of each edit."""
    found = []
    with tempfile.TemporaryDirectory(prefix="also-refused-") as room:
        copied(room)
        for crate in names:
            its = edits(crate, TRIED)
            came = tried_alone(its, crate, room, jobs) if is_alone else tried(its, crate, room, jobs, True)
            print(f"{crate}: {counted([it for _, it in came])}", flush=True)
            found += [it for _, it in came]
    print(f"crates: {len(names)}, edits: {len(found)}: {counted(found)}")
    return found


class Shift:
    """Parts of edits that several threads try, each crate at one of them at a time, until the time is over."""

    def __init__(self, found, minutes):
        self.left, self.busy, self.came = list(found), set(), []
        self.until = time.monotonic() + minutes * 60
        self.turn = threading.Condition()

    def is_over(self):
        return time.monotonic() >= self.until

    def is_late(self):
        """What runs still is ended then: a crate's check, or an edit tried alone, may take a quarter of an hour."""
        return time.monotonic() >= self.until + GRACE

    def take(self):
        """The next part whose crate nobody is at, or None where there is none or the time is over."""
        with self.turn:
            while self.left and not self.is_over():
                found = next((it for it in self.left if it[0] not in self.busy), None)
                if found:
                    self.left.remove(found)
                    self.busy.add(found[0])
                    return found
                self.turn.wait(1)
        return None

    def work(self):
        """Tries parts, in a scratch repository of its own."""
        with tempfile.TemporaryDirectory(prefix="also-refused-") as room:
            copied(room)
            for crate, found in iter(self.take, None):
                came = tried(found, crate, room, 1, False, self.is_over, self.is_late)
                with self.turn:
                    self.came += came
                    self.busy.discard(crate)
                    self.turn.notify_all()


def run_for(names, minutes, since, jobs):
    """Tries edits of these crates until the time is over, and gives what came of each that was tried."""
    found, changed = parts(names, since, TOGETHER)
    shift = Shift(found, minutes)
    with concurrent.futures.ThreadPoolExecutor(jobs) as pool:
        for it in [pool.submit(shift.work) for _ in range(jobs)]:
            it.result()
    tries = {edit.path: meant for edit, meant in shift.came}
    of_changed = [it for crate, its in found if crate in changed for it in its]
    left = sum(it.path not in tries for it in of_changed)
    print(f"crates that changed: {len(changed & {it for it, _ in found})}, of their {len(of_changed)} edits {left} had no time")
    print(f"edits: {len(tries)} of {sum(len(its) for _, its in found)}: {counted(list(tries.values()))}")
    return list(tries.values())


def main():
    parser = argparse.ArgumentParser(description=__doc__, formatter_class=argparse.RawDescriptionHelpFormatter)
    parser.add_argument("--minutes", type=float, metavar="M")
    parser.add_argument("--since", metavar="COMMIT")
    parser.add_argument("--jobs", type=int, metavar="N")
    parser.add_argument("--alone", action="store_true")
    parser.add_argument("--list", action="store_true")
    parser.add_argument("names", nargs="*", metavar="CRATE")
    given = parser.parse_args()
    known = crates()
    lacking = [it for it in given.names if it not in known]
    if lacking:
        sys.exit(f"crates.txt has no crate {lacking[0]}")
    names = [it for it in known if not given.names or it in given.names]
    if given.list:
        bad = sum(listed(it) for it in names)
        print(f"{bad} edits don't apply")
        return 1 if bad else 0
    # (the scratch folder goes, and what runs in it, also where this is told to end)
    signal.signal(signal.SIGTERM, lambda *_: sys.exit(143))
    if given.minutes is not None:
        found = run_for(names, given.minutes, given.since, given.jobs or 2)
        return 1 if PROVED in found or BAD in found else 0
    found = run([it for it in names if edits(it, TRIED)], given.jobs, given.alone)
    return 0 if all(it == REFUSED for it in found) else 1


if __name__ == "__main__":
    sys.exit(main())
