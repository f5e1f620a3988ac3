#!/usr/bin/env python3
"""Runs the built server with clients and servers over real sockets: `serve.py [PROGRAM [STORY..]]`.

Each story has a gateway, servers and clients of its own, on free ports, and runs in a process of its own, several
at a time. Prints each check that failed, and a last line with the counts; the status is 1 where one failed.
Whatever still runs after LONGEST seconds is ended, and counts as failed. Many a check is of a time, which a machine that
also does other things can miss: a few stories that failed are told once more, each alone, and that counts.
"""
import os
import resource
import signal
import subprocess
import sys
import tempfile
import time
import traceback

ROOT = os.path.dirname(os.path.dirname(os.path.abspath(__file__)))
LONGEST = 500
AGAIN = 3  # stories that are told again; where more failed it wasn't the machine

sys.dont_write_bytecode = True
sys.path.insert(0, os.path.join(ROOT, ".ci"))
import served  # noqa: E402  (sets the path to examples/)
from served import (access, ahead, alive, asking, attacked, beacons, chain, crowds, damage, found, holding, idlers, keeping, lines, listening, name_servers, naming, packaged, repeating, reports, resolving, rules, samples, seeking, servers,  # noqa: E402
                    standing, values, waiting)
from served.room import Room  # noqa: E402

# The long ones first.
STORIES = [beacons.hearing, naming.naming_moved, attacked.deaf, attacked.late_beside, attacked.dropping, crowds.thousand, crowds.never_reading, crowds.never_reading_on_a_site, crowds.quitting, crowds.leaving_many, idlers.announcing, idlers.idling, idlers.coming,
           damage.damaged, repeating.reconnecting, repeating.sweeping, samples.examples, crowds.descriptors,
           beacons.beaconing, beacons.beaconing_found, name_servers.name_serving_lost, name_servers.name_serving_rubbish, name_servers.name_serving_mute, name_servers.name_serving_unread, name_servers.name_serving,
           name_servers.name_serving_beside, name_servers.name_serving_outside, name_servers.name_serving_nowhere, name_servers.name_serving_gateway, listening.listening, listening.listening_broadcast, naming.naming, naming.naming_searched, seeking.seeking, seeking.seeking_lost, seeking.seeking_left, seeking.seeking_in_vain, servers.losing, servers.connecting, servers.several, servers.unanswered, values.creating, values.reading, values.watching,
           values.writing, rules.rights, rules.hosts, access.granting, access.refusing, access.checking_hosts, access.checking_mapped_hosts, access.checking_written_hosts, access.looking_up_hosts, resolving.waiting_for_hosts, resolving.keeping_hosts, resolving.finding_hosts, lines.ordering, lines.starting, lines.remembering,
           chain.chained, packaged.packaged, repeating.unrepeated, repeating.levels, reports.reporting,
           reports.reporting_nowhere, waiting.waiting_too_much, waiting.waiting_little, waiting.waiting_in_all, standing.unread, standing.unwritable, standing.deep,
           standing.files, standing.endless, standing.seats, standing.kept, standing.limited, standing.numbered, standing.again, standing.roomy, asking.backing_off, asking.asking,
           asking.leading, asking.answering, asking.clashing, asking.own_port, found.searching, found.beside, found.idle, found.broadcasting, found.disbelieved, found.mute, found.overfull, found.hiding, found.facing, found.ignoring, holding.holding, holding.leaving_held, ahead.writing_ahead, ahead.reading_ahead, ahead.reading_and_leaving, ahead.leaving_ahead, holding.flipping, keeping.padded, keeping.counted, keeping.shared, alive.stopped, alive.replacing, alive.vanishing,
           alive.unwatched, alive.aging, alive.late, alive.punctual, alive.many_hosts, alive.scaled, alive.promised, attacked.returning, attacked.failed_before, attacked.connecting_past_hosts, attacked.unsent]


def tell(program, name):
    """Runs one story here; its last line has the counts."""
    most = resource.getrlimit(resource.RLIMIT_NOFILE)[1]
    resource.setrlimit(resource.RLIMIT_NOFILE, (most, most))
    room = Room(program)
    try:
        next(it for it in STORIES if it.__name__ == name)(room)
    except Exception:
        room.check(f"{name} ran to its end", False, traceback.format_exc(limit=-4))
    room.end()
    print(f"counts {room.passed} {len(room.failed)}")


class Run:
    """A story in a process of its own."""

    def __init__(self, program, story):
        self.story, self.name = story, story.__name__
        self.began = time.monotonic()
        words = [sys.executable, os.path.abspath(__file__), "--story", program, self.name]
        self.process = subprocess.Popen(words, stdin=subprocess.DEVNULL, stdout=subprocess.PIPE, stderr=subprocess.STDOUT,
                                        start_new_session=True)

    def end(self):
        """Ends it with all that it started."""
        os.killpg(self.process.pid, signal.SIGKILL)

    def result(self, ended):
        """The counts, once it is over; prints what it printed."""
        if not ended:
            self.end()
        said = self.process.communicate()[0].decode(errors="replace").splitlines()
        counts = said.pop().split() if said and said[-1].startswith("counts ") else None
        if counts is None:
            said.append(f"failed: it {'ended' if ended else 'was ended'} without counts")
        for line in said:
            print(f"{self.name}: {line}")
        print(f"{self.name}: {time.monotonic() - self.began:.1f} s", file=sys.stderr, flush=True)
        return (int(counts[1]), int(counts[2])) if counts else (0, 1)


def run_all(program, stories, at_once):
    """Each story and its counts, in the order in which they ended."""
    until = time.monotonic() + LONGEST
    waiting, running, told = list(stories), [], []
    try:
        while waiting or running:
            while waiting and len(running) < at_once:
                running.append(Run(program, waiting.pop(0)))
            late = time.monotonic() > until
            for run in [it for it in running if late or it.process.poll() is not None]:
                running.remove(run)
                told.append((run.story, *run.result(run.process.poll() is not None)))
            time.sleep(0.05)
    finally:
        for run in running:
            run.end()
    return told


def tell_all(program, stories):
    """The counts of all stories together."""
    told = run_all(program, stories, max(2, min(4, os.cpu_count() or 2)))
    missed = [story for story, _, failed in told if failed]
    if 0 < len(missed) <= AGAIN:
        print(f"told once more, alone: {' '.join(it.__name__ for it in missed)}", flush=True)
        told = [it for it in told if it[0] not in missed] + run_all(program, missed, 1)
    return sum(it[1] for it in told), sum(it[2] for it in told)


def main():
    if sys.argv[1:2] == ["--story"]:
        return tell(*sys.argv[2:])
    program = os.path.abspath(sys.argv[1] if len(sys.argv) > 1 else os.path.join(ROOT, "crates", "pvgate", "out", "pvgate"))
    if not os.access(program, os.X_OK):
        sys.exit(f"{program} isn't built")
    names = sys.argv[2:]
    signal.signal(signal.SIGTERM, lambda *_: sys.exit(1))
    with tempfile.TemporaryDirectory(prefix="serve-") as folder:
        os.environ["TMPDIR"] = folder
        passed, failed = tell_all(program, [it for it in STORIES if not names or it.__name__ in names])
    print(f"served: {passed} passed, {failed} failed")
    return 1 if failed else 0


if __name__ == "__main__":
    sys.exit(main())
