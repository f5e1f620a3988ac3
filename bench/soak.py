#!/usr/bin/env python3
"""Runs the built server for ten minutes under use that never rests, and says whether anything is left behind.

    bench/soak.py [--program PATH] [--seconds N] [--clients N] [--seed TEXT]

200 clients come, search, subscribe, read, write and go (`visitors.py`). Two upstreams (`.ci/served/upstream.py`) change their
values, die, and return; each second there is a sweep and another rule file, a faulty one now and then. After the first minute and
at the end all stand still, with all upstreams there and all names served: descriptors, threads and resident memory are
printed, and at the end they may not be more than they were (memory: by more than a tenth). Each subscription that stands then
has the last value of its name, each read and write its answer; once all clients are gone descriptors and threads are those of the
beginning. The status is 1 where something isn't so. It needs a processor or two; run by hand.
"""
import random
import sys
import time
from collections import Counter

import common  # (sets the paths)
from served.idlers import threads
from served.room import PATIENCE, variable
from visitors import Visitor

NAMES = [f"V{it:02}" for it in range(40)]  # served, those of even numbers by the first upstream
ALIASES = [f"Q{it:02}" for it in range(0, 40, 4)]
NOBODY = [f"X{it:02}" for it in range(20)]
OPEN = "Q\\(.*\\) ALIAS V\\1 ops\n.* ALLOW ops\n"
RULES = [OPEN, OPEN + "V.[37] DENY\n", OPEN + "Q.* DENY FROM lab7\n", "EVALUATION ORDER DENY, ALLOW\n" + OPEN + "V0.* DENY\n",
         "Q\\(.*\\) ALIAS V\\1 eng\nV[01]. ALLOW ops\nV[23]. ALLOW eng\n", "Q1\\(.*\\) ALIAS V0\\1 eng\n.* ALLOW\n", OPEN + "T2 GRANT\n"]
GROUPS = ["ops WRITE\neng WRITE\n", "ops READ\n", "ops WRITE\neng READ\n", "eng NONE\n"]
ASKS_KEPT = 65_536
CALM = 15  # seconds
CHANGES = 10  # times a second that variables get other values


class Soak:
    """The gateway, what stands round it, and the thread that directs."""

    def __init__(self, room, seed, clients):
        self.room, self.seed, self.names = room, seed, NAMES + ALIASES + NOBODY
        self.chance = random.Random(f"{seed} director")
        self.is_still, self.is_over, self.value = True, False, 0
        self.counts = Counter()
        self.ups = [room.upstream(*(variable(name, values=[0]) for name in NAMES[at::2])) for at in range(2)]
        self.server = room.server(*self.ups, rules=OPEN, groups=GROUPS[0])
        self.address = self.server.address
        room.eventually("the upstreams are connected", self.are_connected)
        self.fill_asks()
        self.at_first = self.measured()
        self.visitors = [Visitor(self, it) for it in range(clients)]
        for it in self.visitors:
            it.start()

    def fill_asks(self):
        """Makes as many asks as the gateway keeps, so that these don't come to its memory later; a datagram makes one for each name."""
        client = self.room.client(self.server)
        for at in range(0, 1000, 200):
            client.search(*(f"Z{it:03}" for it in range(at, at + 200)))
        resident = 0
        while self.server.resident() > resident + 0.05:
            resident = self.server.resident()
            for _ in range(ASKS_KEPT // 1000):
                client.search("Z000")
                time.sleep(0.05)
            self.room.check("the gateway goes on", client.echo())
        self.server.write("sweep")
        client.close()

    def real(self, name):
        return f"V{name[1:]}"

    def are_connected(self):
        return all(up.thread and up.count_clients() == 1 for up in self.ups)

    def measured(self):
        """Descriptors, threads and MB of the gateway, once they are the same for two seconds."""
        seen = None
        for _ in range(30):
            now = (self.server.files(), threads(self.server))
            if now == seen:
                break
            seen = now
            time.sleep(2)
        return (*now, self.server.resident())

    def bustle(self, seconds):
        """Lets them go on for so long."""
        self.is_still = False
        begin, second, dead = time.monotonic(), 0, {}
        while time.monotonic() < begin + seconds and self.server.process.poll() is None:
            if time.monotonic() - begin >= second:
                second += 1
                self.edit(self.chance.choice(RULES), self.chance.choice(GROUPS))
                self.server.write("sweep", "connect 1", "connect 2", "ask")
                self.disturb(second, dead)
                if second % 60 == 0:
                    print(f"  {second} s on: {self.server.resident():.1f} MB", flush=True)
            self.change()
            time.sleep(1 / CHANGES)
        for up in dead:
            up.start()

    def disturb(self, second, dead):
        """Upstreams die, and return."""
        for up in [it for it, until in dead.items() if second >= until]:
            del dead[up]
            up.start()
        if second % 6 == 0:
            up = self.chance.choice([it for it in self.ups if it not in dead] or [None])
            if up and self.chance.random() < 0.5:
                up.cut_connections()
            elif up:
                up.stop()
                dead[up] = second + self.chance.randrange(1, 5)
            self.counts["upstreams lost"] += up is not None

    def edit(self, rules, groups):
        self.counts["edits"] += 1
        self.room.file("rules", rules)
        self.room.file("groups", groups)
        self.server.write("reload")

    def change(self):
        """Some variables get other values, sometimes with an alarm."""
        for up in self.ups:
            if up.thread:
                for name in self.chance.sample(list(up.variables), 3):
                    self.value += 1
                    up.give(name, [self.value], self.chance.choice((0, 0, 0, 7)), self.chance.choice((0, 2)))

    def rest(self):
        """All go on for a while with everything there, so that subscriptions stand, and then stand still."""
        self.edit(OPEN, GROUPS[0])
        self.room.eventually("the upstreams are connected again",
                             lambda: self.server.write("connect 1", "connect 2") or self.are_connected())
        for _ in range(CALM):
            self.server.write("ask")
            self.change()
            time.sleep(1)
        self.is_still = True
        self.room.eventually("all clients stand", lambda: all(it.stands for it in self.visitors))
        return self.measured()

    def settle(self):
        """Each name gets a last value; every subscription that stands has to get it."""
        values = {}
        for up in self.ups:
            for name in up.variables:
                self.value += 1
                values[name] = [self.value]
                up.give(name, values[name])
        standing = sum(len(it.subscriptions) for it in self.visitors)
        came = self.room.wait(lambda: not any(it.behind(values) for it in self.visitors), 2 * PATIENCE)
        late = [f"client {it.number} {text}" for it in self.visitors for text in it.behind(values)]
        self.room.check(f"{standing} subscriptions have their last values, and all is answered", came, "; ".join(late[:5]))
        self.room.check("subscriptions stand", standing > 0)

    def end(self):
        """All clients go, and the gateway ends."""
        self.is_over = True
        for it in self.visitors:
            it.join(PATIENCE)
        faults = [fault for it in self.visitors for fault in it.faults]
        self.room.check("no client saw a fault", not faults, f"{len(faults)}: " + "; ".join(faults[:5]))
        gone = self.measured()
        told("at the end, no client", gone)
        self.room.equal("descriptors and threads are those of the beginning", gone[:2], self.at_first[:2])
        self.room.equal("quit", self.server.quit(), 0)


def told(label, measured):
    print(f"{label}: {measured[0]} descriptors, {measured[1]} threads, {measured[2]:.1f} MB", flush=True)


def soak(room, given):
    it = Soak(room, given.seed, given.clients)
    told("at first, no client", it.at_first)
    minute = min(60, given.seconds / 4)
    it.bustle(minute)
    first = it.rest()
    told(f"after {minute:.0f} s", first)
    it.bustle(given.seconds - minute)
    last = it.rest()
    told(f"after {given.seconds} s", last)
    room.check("no more descriptors", last[0] <= first[0], f"{last[0]}, not {first[0]}")
    room.check("no more threads", last[1] <= first[1], f"{last[1]}, not {first[1]}")
    room.check("no more memory", last[2] <= 1.1 * first[2], f"{last[2]:.1f} MB, not {first[2]:.1f}")
    it.settle()
    it.end()
    counts = sum((visitor.counts for visitor in it.visitors), it.counts)
    print(", ".join(f"{counts[name]:,} {name}" for name in sorted(counts)))


def main():
    parser = common.parser(__doc__)
    parser.add_argument("--seconds", type=int, default=600)
    parser.add_argument("--clients", type=int, default=200)
    parser.add_argument("--seed", default="1")
    given = parser.parse_args()
    return common.run("soak", common.built(given.program), [soak], given)


if __name__ == "__main__":
    sys.exit(main())
