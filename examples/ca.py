#!/usr/bin/env python3
"""Reads, writes and watches process variables over Channel Access, through the gateway or at an IOC.

    examples/ca.py get NAME..              the value of each
    examples/ca.py put NAME VALUE..        writes, and says what stands afterwards
    examples/ca.py monitor NAME..          each new value, until an interrupt
    examples/ca.py info NAME..             type, count, rights, alarm and time

Options: --at ADDRESS (127.0.0.1:5064), --as TYPE (STRING, SHORT, FLOAT, ENUM, CHAR, LONG or DOUBLE),
--wait SECONDS (5), --number N (a monitor ends after so many values). Standard library only.
"""
import argparse
import socket
import sys
import time
from collections import namedtuple

import ca_wire as ca

Channel = namedtuple("Channel", "name cid sid base count rights")


class Missing(Exception):
    """What is wanted didn't come in time, or was refused."""


def look(address, names, seconds):
    """Searches until each name was answered for, as clients do: the address that answered, by name."""
    until, answered = time.monotonic() + seconds, {}
    with socket.socket(socket.AF_INET, socket.SOCK_DGRAM) as asker:
        asker.settimeout(0.1)
        while len(answered) < len(names):
            if time.monotonic() > until:
                raise Missing(f"{', '.join(it for it in names if it not in answered)}: not found")
            asked = [ca.search(name, cid) for cid, name in enumerate(names) if name not in answered]
            asker.sendto(ca.message(ca.VERSION, count=ca.MINOR) + b"".join(asked), address)
            try:
                while True:
                    datagram, sender = asker.recvfrom(1 << 16)
                    for it in ca.Frames().feed(datagram):
                        if it.command == ca.SEARCH and it.p2 < len(names):
                            answered[names[it.p2]] = (sender[0], it.dtype)
            except (TimeoutError, ConnectionError):
                time.sleep(0.05)
    return answered


def open_channel(link, name, cid):
    """Makes a channel; the variable was found, so it is refused only where the rules refuse this host."""
    link.send(ca.create(name, cid))
    made = link.take(lambda it: it.command in (ca.CREATE_CHAN, ca.CREATE_CH_FAIL) and it.p1 == cid)
    if made is None or made.command == ca.CREATE_CH_FAIL:
        raise Missing(f"{name}: refused")
    rights = link.take(lambda it: it.command == ca.ACCESS_RIGHTS and it.p1 == cid)
    return Channel(name, cid, made.p2, made.dtype, made.count, rights.p2)


def read(link, channel, base=None):
    """The value now, with its alarm and time."""
    dtype = ca.TIME + (channel.base if base is None else base)
    link.send(ca.message(ca.READ_NOTIFY, b"", dtype, 0, channel.sid, channel.cid))
    reply = link.take(lambda it: it.command == ca.READ_NOTIFY and it.p2 == channel.cid)
    if reply is None or reply.p1 != ca.NORMAL:
        raise Missing(f"{channel.name}: not read ({reply.p1 if reply else 'the connection ended'})")
    return ca.value_of(dtype, reply.count, reply.payload)


def write(link, channel, words):
    """Writes words: numbers in the variable's own type, anything else as text."""
    try:
        base, values = channel.base, ca.as_type(channel.base, words)
    except ValueError:
        base, values = ca.STRING, words
    link.send(ca.message(ca.WRITE_NOTIFY, ca.elements(base, values), base, len(values), channel.sid, channel.cid))
    reply = link.take(lambda it: it.command == ca.WRITE_NOTIFY and it.p2 == channel.cid)
    if reply is None or reply.p1 != ca.NORMAL:
        raise Missing(f"{channel.name}: not written ({reply.p1 if reply else 'the connection ended'})")


def shown(name, value, stamp=False):
    words = [name]
    if stamp:
        words.append(time.strftime("%H:%M:%S", time.localtime(value.stamp)) + f"{value.stamp % 1:.3f}"[1:])
    if len(value.values) != 1:
        words.append(str(len(value.values)))
    words += [str(it) for it in value.values]
    return " ".join(words)


def get(link, channels, options):
    for channel in channels:
        print(shown(channel.name, read(link, channel, options.base)))


def put(link, channels, options):
    old = new = read(link, channels[0])
    print("old", shown(channels[0].name, old))
    write(link, channels[0], options.words)
    for _ in range(20):  # a read is answered from the last update, which may follow the reply of the write
        new = read(link, channels[0])
        if new != old:
            break
        time.sleep(0.1)
    print("new", shown(channels[0].name, new))


def monitor(link, channels, options):
    for it in channels:
        link.send(ca.subscribe(it.sid, it.cid, ca.TIME + (it.base if options.base is None else options.base)))
    many = 0
    while many != options.number:
        it = link.take(lambda it: it.command in (ca.EVENT_ADD, ca.ACCESS_RIGHTS, ca.SERVER_DISCONN, ca.ERROR), 1e9)
        if it is None:
            raise Missing("the connection ended")
        if it.command == ca.EVENT_ADD:
            print(shown(channels[it.p2].name, ca.value_of(it.dtype, it.count, it.payload), True), flush=True)
            many += 1
        elif it.command == ca.ACCESS_RIGHTS:
            print(f"{channels[it.p1].name} rights {RIGHTS[it.p2 & 3]}", flush=True)
        elif it.command == ca.SERVER_DISCONN:
            print(f"{channels[it.p1].name} disconnected", flush=True)
        else:
            raise Missing(f"refused with {it.p2}")


RIGHTS = ("none", "read", "write alone", "read, write")


def info(link, channels, _):
    for channel in channels:
        print(f"{channel.name}\n    type {ca.NAMES[channel.base]}, count {channel.count}, rights {RIGHTS[channel.rights & 3]}")
        if channel.rights & 1:
            value = read(link, channel)
            when = time.strftime("%Y-%m-%d %H:%M:%S", time.localtime(value.stamp))
            print(f"    status {value.status}, severity {value.severity}, time {when}")


def options_of(arguments):
    parser = argparse.ArgumentParser(description=__doc__, formatter_class=argparse.RawDescriptionHelpFormatter)
    parser.add_argument("what", choices=("get", "put", "monitor", "info"))
    parser.add_argument("words", nargs="+", metavar="NAME")
    parser.add_argument("--at", default="127.0.0.1:5064")
    parser.add_argument("--as", dest="base", choices=ca.NAMES)
    parser.add_argument("--wait", type=float, default=5)
    parser.add_argument("--number", type=int, default=-1)
    options = parser.parse_args(arguments)
    options.base = None if options.base is None else ca.NAMES.index(options.base)
    if options.what == "put" and len(options.words) < 2:
        parser.error("put wants a name and a value")
    options.names, options.words = (options.words[:1], options.words[1:]) if options.what == "put" else (options.words, [])
    host, _, port = options.at.rpartition(":")
    options.address = (host, int(port))
    return options


def main():
    options = options_of(sys.argv[1:])
    try:
        servers = look(options.address, options.names, options.wait)
        if len(set(servers.values())) > 1:
            raise Missing("the names are at several servers; ask for one at a time")
        with ca.Connection(servers[options.names[0]], options.wait) as link:
            link.send(ca.greeting())
            channels = [open_channel(link, name, cid) for cid, name in enumerate(options.names)]
            {"get": get, "put": put, "monitor": monitor, "info": info}[options.what](link, channels, options)
    except (Missing, OSError) as fault:
        sys.exit(f"ca.py: {fault}")
    except KeyboardInterrupt:
        pass


if __name__ == "__main__":
    main()
