"""Clients of bench/soak.py: each comes, looks for names, reads, writes, subscribes and goes, as chance has it, in a thread of its own."""
import random
import socket
import struct
import threading
import time
from collections import Counter

from served.client import Channel, Client, ca

ACTS = ("search", "open", "open", "open", "watch", "watch", "cancel", "clear", "read", "read", "write", "tell", "pause", "echo")
MASKS = (ca.VALUE, ca.VALUE | ca.ALARM, ca.VALUE | ca.LOG | ca.ALARM, ca.LOG, ca.ALARM)
MOST_CHANNELS, MOST_SUBSCRIPTIONS = 8, 12
GOING = 0.02  # how often, of its acts, one goes
# Codes of ERROR that are as they should be: of a channel that was just taken away, and of a write without the right.
EXPECTED = {ca.BADCHID, ca.NOWTACCESS}


class Visitor(threading.Thread):
    """One client after another. What it knows is read by the thread that directs, once all stand still."""

    def __init__(self, soak, number):
        super().__init__(daemon=True)
        self.soak, self.number = soak, number
        self.chance = random.Random(f"{soak.seed} {number}")
        self.counts, self.faults = Counter(), []
        self.client, self.stands = None, False
        self.forget()

    def forget(self):
        self.wanted, self.rights, self.channels, self.subscriptions, self.waiting = {}, {}, {}, {}, {}
        self.crossing = set()  # what may still be answered, though its channel was cleared
        self.paused = False

    def run(self):
        while not self.soak.is_over:
            try:
                self.visit()
            except (OSError, TimeoutError) as fault:
                self.faults.append(f"client {self.number}: {fault!r}")
            self.stands = False

    def visit(self):
        """From coming to going."""
        self.forget()
        self.client = Client(self.soak.address, self.chance.choice(("desk1", "desk2", "lab7")))
        self.counts["visits"] += 1
        while not self.soak.is_over:
            if self.soak.is_still:
                self.stand()
            elif self.chance.random() < GOING:
                break
            else:
                self.stands = False
                getattr(self, self.chance.choice(ACTS))()
            self.hear(self.chance.uniform(0.05, 0.5))
            if self.client.ended:
                self.faults.append(f"client {self.number}: it was cut off")
                break
        self.go()

    def stand(self):
        """Does nothing more, but for taking what comes."""
        if self.paused:
            self.pause()
        self.stands = True

    def go(self):
        """Ends the connection: closed, reset, with half a message sent, or with its sending ended first."""
        way = self.chance.randrange(4)
        link = self.client.socket
        if way == 1:
            link.setsockopt(socket.SOL_SOCKET, socket.SO_LINGER, struct.pack("ii", 1, 0))
        elif way == 2:
            self.client.send(ca.create("V00", 1)[:self.chance.randrange(1, 24)])
        elif way == 3:
            link.shutdown(socket.SHUT_WR)
        self.client.close()

    def hear(self, seconds):
        """Takes what comes in this time."""
        until = time.monotonic() + seconds
        while not self.client.ended and (left := until - time.monotonic()) > 0:
            self.client.fill(left)
            messages, self.client.inbox = self.client.inbox, []
            for it in messages:
                self.take(it)

    def take(self, it):
        if it.command == ca.ACCESS_RIGHTS:
            self.rights[it.p1] = it.p2
        elif it.command in (ca.CREATE_CHAN, ca.CREATE_CH_FAIL):
            name = self.wanted.pop(it.p1, None)
            if name is None:
                self.faults.append(f"client {self.number}: a channel that it didn't ask for: {it}")
            elif it.command == ca.CREATE_CHAN:
                self.channels[it.p1] = Channel(name, it.p1, it.p2, it.dtype, it.count, self.rights.get(it.p1))
        elif it.command == ca.SERVER_DISCONN:
            self.lose(it.p1)
        elif it.command == ca.EVENT_ADD and it.p2 in self.subscriptions:
            self.counts["updates"] += 1
            self.subscriptions[it.p2][2] = ca.value_of(it.dtype, it.count, it.payload).values
        elif it.command in (ca.READ_NOTIFY, ca.WRITE_NOTIFY):
            self.counts["answers"] += 1
            if self.waiting.pop(it.p2, None) is None and it.p2 not in self.crossing:
                self.faults.append(f"client {self.number}: an answer that it didn't ask for: {it}")
        elif it.command == ca.ERROR and it.p2 not in EXPECTED:
            self.faults.append(f"client {self.number}: ERROR {it.p2}")

    def lose(self, cid):
        """A channel is gone, with all that stood on it."""
        self.counts["lost channels"] += 1
        self.channels.pop(cid, None)
        self.subscriptions = {own: it for own, it in self.subscriptions.items() if it[0] != cid}
        self.waiting = {own: it for own, it in self.waiting.items() if it != cid}

    def behind(self, values):
        """The subscriptions that haven't the values that their names have, and what waits for an answer."""
        late = [f"{self.channels[cid].name}: {seen}" for cid, mask, seen in list(self.subscriptions.values())
                if mask != ca.ALARM and seen != values[self.soak.real(self.channels[cid].name)]]
        return late + [f"{self.channels[cid].name}: no answer" for cid in list(self.waiting.values())]

    def some_channel(self):
        return self.chance.choice(list(self.channels.values())) if self.channels else None

    # What it does.

    def search(self):
        self.client.search(*self.chance.sample(self.soak.names, 5))
        self.counts["search replies"] += len(self.client.replies(0.05) or ())

    def open(self):
        if len(self.channels) + len(self.wanted) < MOST_CHANNELS:
            cid, name = self.client.number(), self.chance.choice(self.soak.names)
            self.wanted[cid] = name
            self.client.send(ca.create(name, cid))

    def watch(self):
        channel = self.some_channel()
        if channel and len(self.subscriptions) < MOST_SUBSCRIPTIONS:
            mask = self.chance.choice(MASKS)
            own = self.client.watch(channel, self.chance.choice((ca.LONG, ca.TIME + ca.LONG)), 0, mask)
            self.subscriptions[own] = [channel.cid, mask, None]
            self.counts["subscriptions"] += 1

    def cancel(self):
        if self.subscriptions:
            own = self.chance.choice(list(self.subscriptions))
            channel = self.channels[self.subscriptions.pop(own)[0]]
            self.client.send(ca.message(ca.EVENT_CANCEL, b"", ca.LONG, 1, channel.sid, own))

    def clear(self):
        channel = self.some_channel()
        if channel and self.chance.random() < 0.5:
            self.client.send(ca.message(ca.CLEAR_CHANNEL, b"", 0, 0, channel.sid, channel.cid))
            self.crossing |= {own for own, cid in self.waiting.items() if cid == channel.cid}
            self.lose(channel.cid)

    def read(self):
        channel = self.some_channel()
        if channel:
            self.waiting[self.client.ask(channel)] = channel.cid

    def write(self):
        channel = self.some_channel()
        if channel:
            self.waiting[self.client.start_write(channel, [self.chance.randrange(1 << 30)])] = channel.cid

    def tell(self):
        """A write that isn't answered."""
        channel = self.some_channel()
        if channel:
            self.client.start_write(channel, [self.chance.randrange(1 << 30)], command=ca.WRITE)

    def pause(self):
        self.paused = not self.paused
        self.client.send(ca.message(ca.EVENTS_OFF if self.paused else ca.EVENTS_ON))

    def echo(self):
        self.client.send(ca.message(ca.ECHO, bytes(8 * self.chance.randrange(20))))
