"""A client of a story: it keeps asking until a channel is there, and takes replies by what they answer."""
import socket
import time
from collections import namedtuple

import ca_wire as ca

Channel = namedtuple("Channel", "name cid sid base count rights")


class Client(ca.Connection):
    def __init__(self, address, host="desk1", source=None, user="someone"):
        super().__init__(address, 60, (source, 0) if source else None)
        self.address = address
        self.last = 0
        self.source = source
        self.asker = self.datagrams()
        # What is searched for while a channel isn't there yet: nobody reads what comes back.
        self.caller = self.datagrams()
        self.send(ca.greeting(user, host))

    def datagrams(self):
        """A socket for searches, of the host that the client is on."""
        own = socket.socket(socket.AF_INET, socket.SOCK_DGRAM)
        if self.source:
            own.bind((self.source, 0))
        return own

    def close(self):
        for it in (self.socket, self.asker, self.caller):
            it.close()

    def number(self):
        self.last += 1
        return self.last

    def answer(self, command, field, number, seconds=None):
        return self.take(lambda it: it.command == command and getattr(it, field) == number, seconds)

    def error(self):
        """The code of the next ERROR."""
        return self.take(lambda it: it.command == ca.ERROR).p2

    def echo(self, payload=b""):
        """Whether an ECHO comes back; what was sent before it has been handled then."""
        own = self.number()
        self.send(ca.message(ca.ECHO, payload, 7, 3, own, 5))
        return self.answer(ca.ECHO, "p1", own) == ca.Message(ca.ECHO, 7, 3, own, 5, payload)

    def search(self, *names, sender=None):
        """One datagram that asks for these names, under rising numbers from 1."""
        asked = b"".join(ca.search(name, 1 + at) for at, name in enumerate(names))
        (sender or self.asker).sendto(ca.message(ca.VERSION, count=ca.MINOR) + asked, self.address)

    def replies(self, seconds):
        """The messages of the next datagram, or None."""
        self.asker.settimeout(seconds)
        try:
            return ca.Frames().feed(self.asker.recv(1 << 16))
        except (TimeoutError, ConnectionError):
            return None

    def found(self, name, seconds):
        """Searches until the name is answered for."""
        until = time.monotonic() + seconds
        while time.monotonic() < until:
            self.search(name)
            replies = self.replies(0.2)
            if replies:
                # A reply to an earlier one may still come: it is none to the next search.
                self.asker.close()
                self.asker = self.datagrams()
                return replies
        return None

    def try_open(self, name):
        """One CREATE_CHAN: the channel, or None where it fails."""
        cid = self.number()
        self.send(ca.create(name, cid))
        made = self.take(lambda it: it.command in (ca.CREATE_CHAN, ca.CREATE_CH_FAIL) and it.p1 == cid)
        if made is None or made.command == ca.CREATE_CH_FAIL:
            return None
        rights = self.answer(ca.ACCESS_RIGHTS, "p1", cid)
        return Channel(name, cid, made.p2, made.dtype, made.count, rights.p2)

    def open(self, name, seconds=60):
        """Asks until the channel is there; None where it doesn't come."""
        until = time.monotonic() + seconds
        while True:
            channel = self.try_open(name)
            if channel is not None or self.ended or time.monotonic() > until:
                return channel
            self.search(name, sender=self.caller)
            time.sleep(0.05)

    def ask(self, channel, dtype=None, count=0):
        """Sends a read, answers its number."""
        own = self.number()
        self.send(ca.message(ca.READ_NOTIFY, b"", channel.base if dtype is None else dtype, count, channel.sid, own))
        return own

    def read(self, channel, dtype=None, count=0):
        return self.answer(ca.READ_NOTIFY, "p2", self.ask(channel, dtype, count))

    def values(self, channel, dtype=None, count=0):
        """The values read, or the code of the refusal."""
        reply = self.read(channel, dtype, count)
        return ca.value_of(reply.dtype, reply.count, reply.payload).values if reply.p1 == ca.NORMAL else reply.p1

    def start_write(self, channel, values, base=None, count=None, payload=None, command=ca.WRITE_NOTIFY):
        own = self.number()
        base = channel.base if base is None else base
        payload = ca.elements(base % 7, values) if payload is None else payload
        self.send(ca.message(command, payload, base, len(values) if count is None else count, channel.sid, own))
        return own

    def write(self, channel, values, **fields):
        """The status of a WRITE_NOTIFY."""
        return self.answer(ca.WRITE_NOTIFY, "p2", self.start_write(channel, values, **fields)).p1

    def watch(self, channel, dtype=None, count=0, mask=ca.VALUE | ca.ALARM):
        own = self.number()
        self.send(ca.subscribe(channel.sid, own, channel.base if dtype is None else dtype, count, mask))
        return own

    def update(self, own, seconds=None):
        """The values of the subscription's next update."""
        it = self.answer(ca.EVENT_ADD, "p2", own, seconds)
        return None if it is None else ca.value_of(it.dtype, it.count, it.payload).values

    def updates_until(self, own, values, seconds=60):
        """All updates of a subscription, up to one with these values; they end without it where it doesn't come."""
        seen, until = [], time.monotonic() + seconds
        while not seen or seen[-1] != values:
            try:
                update = self.update(own, max(0.0, until - time.monotonic()))
            except TimeoutError:
                update = None
            if update is None:
                return [*seen, "no more"]
            seen.append(update)
        return seen
