#!/usr/bin/env python3
"""A stand-in for an EPICS IOC: a few variables, some of which change, served over Channel Access.

    examples/ioc.py [ADDRESS]     (127.0.0.1:5070 if not given)

The names suit examples/site.pvlist. It ends at an interrupt. Standard library only.
"""
import math
import selectors
import socket
import struct
import sys
import time

import ca_wire as ca

FULL = 1 << 20  # bytes that wait for a client; beyond them it gets the latest values alone


class Variable:
    """A named value; `change` makes the next values out of a count of seconds, or is None."""

    def __init__(self, name, base, values, count=None, rights=3, change=None, period=1.0, properties=ca.Properties()):
        self.name, self.base, self.rights, self.properties = name, base, rights, properties
        self.count = len(values) if count is None else count
        self.change, self.period, self.due = change, period, 0.0
        self.subscriptions = {}
        self.value = ca.Value(list(values), 0, 0, time.time())

    def payload(self, dtype, count):
        """The payload and the number of elements, of which 0 asks for all that are there."""
        values = self.value.values if count == 0 else (self.value.values + self.filling(count))[:count]
        if dtype % 7 != self.base:
            values = self.as_type(dtype % 7, values)
        return ca.payload_of(dtype, self.value._replace(values=values), self.properties), len(values)

    def given(self, asked):
        """The payload, the number of elements and the status of what was asked for; infinity isn't given as a whole number."""
        try:
            return *self.payload(asked.dtype, asked.count), ca.NORMAL
        except (ValueError, IndexError, OverflowError, struct.error):
            return b"", asked.count, ca.BADTYPE

    def as_type(self, base, values):
        """Values in another plain type; a state is the text that it has, if it has one."""
        states = self.properties.states
        if self.base == ca.ENUM and base == ca.STRING:
            return [states[it] if it < len(states) else str(it) for it in values]
        return ca.as_type(base, values)

    def read_as(self, base, values):
        """Values that are written in some plain type; ValueError where they can't be had."""
        states = list(self.properties.states)
        if self.base == ca.ENUM and base == ca.STRING:
            values = [states.index(it) if it in states else it for it in values]
        return ca.as_type(self.base, values)

    def filling(self, count):
        return ["" if self.base == ca.STRING else 0] * max(0, count - len(self.value.values))


class Subscription:
    def __init__(self, client, variable, asked, mask):
        self.client, self.variable, self.asked, self.mask = client, variable, asked, mask


class Client:
    """One connection, its channels and its subscriptions."""

    def __init__(self, ioc, link):
        self.ioc, self.link = ioc, link
        self.frames, self.out = ca.Frames(), bytearray()
        self.channels, self.subscriptions, self.owed = {}, {}, {}
        self.paused = False

    def say(self, *messages):
        for it in messages:
            self.out += it
        self.ioc.watch(self)

    def owe(self, subscription):
        """The subscription's latest value, now or as soon as there is room."""
        if self.paused or len(self.out) > FULL:
            self.owed[subscription] = True
            return
        asked = subscription.asked
        if subscription.variable.rights & 1:
            payload, count, code = subscription.variable.given(asked)
            self.say(ca.message(ca.EVENT_ADD, payload, asked.dtype, count, code, asked.p2))

    def pay(self):
        if not self.paused and len(self.out) <= FULL:
            owed, self.owed = self.owed, {}
            for subscription in owed:
                self.owe(subscription)

    def hear(self, it):
        """Does what one message asks for."""
        if it.command == ca.CREATE_CHAN:
            self.create(it)
        elif it.command == ca.ECHO:
            self.say(ca.message(ca.ECHO, it.payload, it.dtype, it.count, it.p1, it.p2))
        elif it.command in (ca.EVENTS_OFF, ca.EVENTS_ON):
            self.paused = it.command == ca.EVENTS_OFF
            self.pay()
        elif it.command in CHANNEL_REQUESTS:
            variable = self.channels.get(it.p1)
            if variable is None:
                echo = struct.pack(">HHHHII", it.command, len(it.payload) % 0xFFFF, it.dtype, it.count % 0xFFFF, it.p1, it.p2)
                self.say(ca.message(ca.ERROR, echo + b"unknown channel\0", p1=0xFFFFFFFF, p2=ca.BADCHID))
            else:
                CHANNEL_REQUESTS[it.command](self, it, variable)

    def create(self, it):
        name = it.payload.split(b"\0")[0].decode(errors="replace")
        variable = self.ioc.variables.get(name)
        if variable is None:
            return self.say(ca.message(ca.CREATE_CH_FAIL, p1=it.p1))
        self.ioc.last_sid += 1
        self.channels[self.ioc.last_sid] = variable
        self.ioc.opened(self, it.p1, self.ioc.last_sid, variable)
        self.say(ca.message(ca.ACCESS_RIGHTS, p1=it.p1, p2=variable.rights),
                 ca.message(ca.CREATE_CHAN, b"", variable.base, variable.count, it.p1, self.ioc.last_sid))

    def clear(self, it, _):
        for own in [own for own, kept in self.subscriptions.items() if kept.asked.p1 == it.p1]:
            self.forget(own)
        del self.channels[it.p1]
        self.say(ca.message(ca.CLEAR_CHANNEL, b"", 0, 0, it.p1, it.p2))

    def add(self, it, variable):
        mask, = struct.unpack_from(">H", it.payload, 12)
        subscription = Subscription(self, variable, it, mask)
        self.subscriptions[it.p2] = subscription
        variable.subscriptions[subscription] = True
        self.owe(subscription)

    def cancel(self, it, _):
        self.forget(it.p2)
        self.say(ca.message(ca.EVENT_ADD, b"", it.dtype, it.count, it.p1, it.p2))

    def forget(self, own):
        subscription = self.subscriptions.pop(own, None)
        if subscription is not None:
            subscription.variable.subscriptions.pop(subscription, None)
            self.owed.pop(subscription, None)

    def read(self, it, variable):
        payload, count, code = variable.given(it) if variable.rights & 1 else (b"", it.count, ca.NORDACCESS)
        self.say(ca.message(ca.READ_NOTIFY, payload, it.dtype, count, code, it.p2))

    def write(self, it, variable):
        code = self.ioc.written(self, it, variable)
        if it.command == ca.WRITE_NOTIFY and code is not None:
            self.say(ca.message(ca.WRITE_NOTIFY, b"", it.dtype, it.count, code, it.p2))

    def gone(self):
        for own in list(self.subscriptions):
            self.forget(own)


CHANNEL_REQUESTS = {ca.CLEAR_CHANNEL: Client.clear, ca.EVENT_ADD: Client.add, ca.EVENT_CANCEL: Client.cancel,
                    ca.READ_NOTIFY: Client.read, ca.WRITE: Client.write, ca.WRITE_NOTIFY: Client.write}


class Ioc:
    """Serves variables on an address, from one thread."""

    def __init__(self, address, variables):
        self.variables = {variable.name: variable for variable in variables}
        self.last_sid = 0
        self.clients = {}
        self.selector = selectors.DefaultSelector()
        self.listener = socket.create_server(address, backlog=128)
        self.address = self.listener.getsockname()
        self.searches = socket.socket(socket.AF_INET, socket.SOCK_DGRAM)
        self.searches.bind(self.address)
        for it in (self.listener, self.searches):
            it.setblocking(False)
            self.selector.register(it, selectors.EVENT_READ)

    def set(self, name, values, status=0, severity=0):
        """Gives a variable new values and tells who subscribed."""
        variable = self.variables[name]
        old, variable.value = variable.value, ca.Value(list(values), status, severity, time.time())
        alarm = ca.ALARM if (old.status, old.severity) != (status, severity) else 0
        for subscription in list(variable.subscriptions):
            if subscription.mask & (ca.VALUE | ca.LOG | alarm):
                subscription.client.owe(subscription)

    def describe(self, name, properties):
        """Gives a variable other properties and tells who subscribed to these."""
        variable = self.variables[name]
        variable.properties = properties
        for subscription in list(variable.subscriptions):
            if subscription.mask & ca.PROPERTY:
                subscription.client.owe(subscription)

    def opened(self, client, cid, sid, variable):
        """A channel was made; there to be overridden."""

    def written(self, client, it, variable):
        """Performs a write; answers its status, or None where no reply is to be sent."""
        if not variable.rights & 2:
            return ca.NOWTACCESS
        try:
            values = variable.read_as(it.dtype, ca.values_in(it.dtype, it.count, it.payload))
            ca.elements(variable.base, values)  # what no reader could be given isn't taken
        except (ValueError, IndexError, OverflowError, struct.error):
            return ca.PUTFAIL
        self.set(variable.name, values)
        return ca.NORMAL

    def watch(self, client):
        wanted = selectors.EVENT_READ | (selectors.EVENT_WRITE if client.out else 0)
        if client.link in self.clients and self.selector.get_key(client.link).events != wanted:
            self.selector.modify(client.link, wanted)

    def change(self, now):
        """Gives new values to the variables whose time has come; answers when the next one's comes."""
        moving = [it for it in self.variables.values() if it.change]
        for variable in moving:
            if variable.due <= now:
                variable.due = now + variable.period
                self.set(variable.name, variable.change(now))
        return min((it.due for it in moving), default=now + 1)

    def turn(self, seconds):
        """Waits at most so long, and handles what came."""
        for key, events in self.selector.select(seconds):
            if key.fileobj is self.listener:
                self.accept()
            elif key.fileobj is self.searches:
                self.answer()
            elif key.fileobj in self.clients:
                self.serve(self.clients[key.fileobj], events)

    def accept(self):
        try:
            link, _ = self.listener.accept()
        except OSError:
            return
        link.setblocking(False)
        link.setsockopt(socket.IPPROTO_TCP, socket.TCP_NODELAY, 1)
        client = self.clients[link] = Client(self, link)
        self.selector.register(link, selectors.EVENT_READ)
        client.say(ca.message(ca.VERSION, count=ca.MINOR))

    def answer(self):
        try:
            datagram, sender = self.searches.recvfrom(1 << 16)
        except OSError:
            return
        asked = [it for it in ca.Frames().feed(datagram) if it.command == ca.SEARCH]
        known = [it.p1 for it in asked if it.payload.split(b"\0")[0].decode(errors="replace") in self.variables]
        if known:
            replies = b"".join(ca.found(self.address[1], cid) for cid in known)
            self.searches.sendto(ca.message(ca.VERSION, count=ca.MINOR) + replies, sender)

    def serve(self, client, events):
        try:
            if events & selectors.EVENT_WRITE:
                del client.out[:client.link.send(client.out)]
                client.pay()
                self.watch(client)
            if events & selectors.EVENT_READ:
                piece = client.link.recv(1 << 16)
                if not piece:
                    return self.drop(client)
                for it in client.frames.feed(piece):
                    client.hear(it)
        except BlockingIOError:
            pass
        except OSError:
            self.drop(client)

    def drop(self, client):
        """Ends a connection."""
        if self.clients.pop(client.link, None):
            client.gone()
            self.selector.unregister(client.link)
            client.link.close()

    def close(self):
        for client in list(self.clients.values()):
            self.drop(client)
        for it in (self.listener, self.searches):
            self.selector.unregister(it)
            it.close()
        self.selector.close()

    def run(self):
        while True:
            now = time.time()
            self.turn(max(0.0, self.change(now) - now))


def site():
    """The variables of a small machine."""
    start = time.time()
    return [
        Variable("S01:DCCT:CURRENT", ca.DOUBLE, [0.0], rights=1, change=lambda now: [float(int(now - start))],
                 properties=ca.Properties("mA", 1, (500.0, 0.0, 450.0, 400.0, 10.0, 5.0, 500.0, 0.0))),
        Variable("S01:MAG:Q1:SP", ca.DOUBLE, [12.5], properties=ca.Properties("A", 2, (20.0, -20.0, 0, 0, 0, 0, 20.0, -20.0))),
        Variable("S01:VAC:V1:OPEN", ca.ENUM, [0], properties=ca.Properties(states=("CLOSED", "OPEN"))),
        Variable("LOG:OPERATOR", ca.STRING, ["nobody"]),
        Variable("S01:BPM:H:POS", ca.LONG, [0] * 8, rights=1, period=0.5,
                 change=lambda now: [int(1000 * math.sin(now + it)) for it in range(8)]),
        Variable("S01:BPM:WAVE", ca.DOUBLE, [0.0] * 500, rights=1, period=2.0,
                 change=lambda now: [round(math.sin(now + it / 50), 4) for it in range(500)]),
        Variable("S01:ILK:DOOR", ca.ENUM, [1], rights=1, properties=ca.Properties(states=("SHUT", "OPEN"))),
        Variable("S01:CAM:1", ca.CHAR, [0] * 64, rights=1),
    ]


def main():
    host, _, port = (sys.argv[1] if len(sys.argv) > 1 else "127.0.0.1:5070").rpartition(":")
    try:
        ioc = Ioc((host, int(port)), site())
    except (OSError, ValueError) as fault:
        sys.exit(f"ioc.py: {fault}")
    print(f"serving {', '.join(ioc.variables)} on {host}:{port}", flush=True)
    try:
        ioc.run()
    except KeyboardInterrupt:
        ioc.close()


if __name__ == "__main__":
    main()
