"""Divides work between processes, in an order that a seed gives, until a budget of processor time is used, or a little more time than
it would take on an idle machine is over.

Each piece of work has a number of parts. The pieces get equal shares of the time, so that a dear one doesn't take it all; what
one doesn't use, as all its parts are done, is the others'. A piece has a name, a family under which its parts are counted, their count,
`do`, which answers a text where something is wrong, and `notes`, counts of its own.
"""
import argparse
import hashlib
import heapq
import multiprocessing
import os
import resource
import signal
import subprocess
import sys
import time
from collections import Counter, namedtuple
from math import gcd

from damaged.program import BUILT, ROOT

FORK = multiprocessing.get_context("fork")
TOLD = 25  # faults that one process keeps
LONGER = 1.25  # so much longer than on an idle machine it may take

Done = namedtuple("Done", "counts faults spent")


def seed_of_commit(root):
    """The commit's hash, by which each commit tries another part."""
    ran = subprocess.run(["git", "-C", root, "rev-parse", "HEAD"], capture_output=True, text=True)
    return ran.stdout.strip() if ran.returncode == 0 else "none"


def parser(doc, only):
    """What reads the arguments of a script whose work is divided so: for which program, how much of it, and by how many processes."""
    it = argparse.ArgumentParser(description=doc.split("\n")[0])
    it.add_argument("--program", default=BUILT)
    it.add_argument("--jobs", type=int, default=os.cpu_count() or 1)
    it.add_argument("--budget", type=float)
    it.add_argument("--all", action="store_true")
    it.add_argument("--seed", default=seed_of_commit(ROOT))
    it.add_argument("--list", action="store_true")
    it.add_argument("--only", metavar=only)
    it.add_argument("words", nargs="*", metavar="WORD")
    return it


def processor():
    """Seconds of a processor that this process and those it waited for have had."""
    spent = 0.0
    for who in (resource.RUSAGE_SELF, resource.RUSAGE_CHILDREN):
        it = resource.getrusage(who)
        spent += it.ru_utime + it.ru_stime
    return spent


class Order:
    """The numbers below a count in an order that the seed gives, those of one process out of several."""

    def __init__(self, count, seed, at, of):
        number = int.from_bytes(hashlib.sha256(seed.encode()).digest()[:16], "big")
        self.count, self.next, self.of = count, at, of
        self.first, self.step = number % max(count, 1), (number >> 64) % max(count, 1) | 1
        while gcd(self.step, self.count) > 1:
            self.step += 1

    def take(self):
        if self.next >= self.count:
            return None
        place = self.next
        self.next += self.of
        return (self.first + place * self.step) % self.count


def work_through(pieces, at, of, budget, seed):
    """The part of one process."""
    began, until, counts, faults = processor(), time.monotonic() + LONGER * (budget or 0), Counter(), []
    orders = [Order(piece.count, f"{seed} {piece.name}", at, of) for piece in pieces]
    waiting = [(0.0, number) for number in range(len(pieces))]
    while waiting and (budget is None or processor() - began < budget and time.monotonic() < until):
        spent, number = heapq.heappop(waiting)
        before, part = processor(), orders[number].take()
        if part is None:
            continue
        piece = pieces[number]
        counts[piece.family] += 1
        fault = piece.do(part)
        if fault:
            counts["faults"] += 1
            faults += [fault] if len(faults) < TOLD else []
        heapq.heappush(waiting, (spent + processor() - before, number))
    return Done(sum((piece.notes for piece in pieces), counts), faults, processor() - began)


def work_by(make_pieces, jobs, budget, seed):
    """All of it, by so many processes. `make_pieces` is called in each of them."""
    def tell(at, end):
        end.send(work_through(make_pieces(), at, jobs, budget and budget / jobs, seed))
        end.close()

    signal.signal(signal.SIGTERM, lambda *_: sys.exit(1))  # the processes end with this one
    running = []
    for at in range(jobs):
        here, there = FORK.Pipe(duplex=False)
        process = FORK.Process(target=tell, args=(at, there), daemon=True)
        process.start()
        there.close()
        running.append((process, here))
    counts, faults, spent = Counter(), [], 0.0
    for process, here in running:
        done = here.recv()  # EOFError where the process failed
        process.join()
        counts, faults, spent = counts + done.counts, faults + done.faults, spent + done.spent
    return Done(counts, faults, spent)


def work_as_given(name, given, each, make_pieces):
    """As much of it as the arguments say, for so many seconds of each process if they say nothing; tells what that is."""
    budget = given.budget or (None if given.all else each * given.jobs)
    print(f"{name}: seed {given.seed}, {'everything' if budget is None else f'{budget:.0f} s of a processor'}", flush=True)
    return work_by(make_pieces, given.jobs, budget, given.seed)
