#!/usr/bin/env python3
"""Performs a script of `pvgate replay` on the model: standard input to standard output."""
import re
import sys

import access
import rules
import values
import wire
from gateway import Gateway, UsedUp
from rows import FIRST, PORT, PROPERTIES, VALUES, Limits
from wire import framed, is_name, is_word, message

GOOD, BAD_INPUT, FAILED = 0, 2, 4
U32, USIZE = 2**32 - 1, 2**64 - 1
LIMITS = {field.replace("_", "-"): field for field in vars(Limits())}


class BadLine(Exception):
    """The line is none of a script."""


def number(word, most):
    if not re.fullmatch("[0-9]+", word) or int(word) > most:
        raise BadLine
    return int(word)


def dest(word, kinds="su"):
    if word[:1] not in tuple(kinds):
        raise BadLine
    return word[0], number(word[1:], U32)


def data(word):
    if word == "-":
        return b""
    if not re.fullmatch("([0-9a-fA-F]{2})+", word):
        raise BadLine
    return bytes.fromhex(word)


def flag(word):
    if word not in ("0", "1"):
        raise BadLine
    return word == "1"


def host_named(word):
    if not is_word(word):
        raise BadLine
    return word


def name(word):
    if not is_name(word):
        raise BadLine
    return word


def hexadecimal(text):
    return text.hex() or "-"


class Replay:
    """A gateway, the script that is performed on it, and what it prints."""

    def __init__(self, script, first=FIRST):
        self.gateway = Gateway(first)
        self.lines = script.split("\n")
        if self.lines[-1] == "":
            self.lines.pop()
        self.place = 0
        self.printed = []
        self.intakes, self.held = {}, set()

    def run(self):
        """What is printed, and the status at the end."""
        while self.place < len(self.lines):
            line_number = self.place + 1
            try:
                self.line(self.next_lines(1)[0])
            except BadLine:
                self.printed.append(f"line {line_number}: bad")
                return self.output(), BAD_INPUT
            except UsedUp:
                self.printed.append("failed")
                return self.output(), FAILED
        return self.output(), GOOD

    def output(self):
        return "".join(line + "\n" for line in self.printed)

    def next_lines(self, count):
        self.place += count
        return self.lines[self.place - count:self.place]

    def line(self, line):
        shut = None
        if line and not line.startswith("#"):
            words = line.split(" ")
            perform = {
                ("open", 3): self.open_session, ("open", 2): self.open_server,
                ("lost", 2): self.lost, ("client", 3): self.client, ("server", 3): self.server,
                ("found", 3): self.found, ("search", 3): self.search, ("sweep", 1): self.sweep,
                ("edit", 3): self.edit, ("edit", 4): self.edit, ("asks", 1): self.asks, ("read", 5): self.read,
                ("sub", 2): self.subscription, ("props", 2): self.properties,
                ("rights", 3): self.rights,
                ("hold", 2): self.hold, ("flow", 2): self.flow, ("drain", 3): self.drain,
                ("limit", 3): self.limit, ("age", 1): self.age, ("probe", 2): self.probe,
                ("seek", 4): self.seek,
            }.get((words[0], len(words)))
            if perform is None or "" in words:
                raise BadLine
            shut = perform(*words[1:])
        self.print_waiting()
        if shut:
            self.end(shut[0], f"shut {shut[0][0]}{shut[0][1]} {shut[1]}")
        while marked := sorted(d for d in self.intakes if self.gateway.boxes[d].marked):
            self.end(marked[0], f"end {marked[0][0]}{marked[0][1]}")

    # What each line does.

    def open_session(self, at, host):
        session = dest(at, "s")
        self.gateway.step("opened", session[1], host_named(host))
        self.begin(session)

    def open_server(self, at):
        server = dest(at, "u")
        self.gateway.step("up_opened", server[1])
        self.begin(server)

    def begin(self, at):
        if at in self.gateway.boxes:
            self.intakes.setdefault(at, b"")

    def lost(self, at):
        self.lose(dest(at))

    def lose(self, at):
        self.gateway.step("lost" if at[0] == "s" else "up_lost", at[1])
        self.intakes.pop(at, None)

    def client(self, at, text):
        return self.feed("client", dest(at, "s"), data(text))

    def server(self, at, text):
        return self.feed("server", dest(at, "u"), data(text))

    def feed(self, event, at, text):
        if at not in self.intakes:
            return None
        messages, self.intakes[at], fault = framed(self.intakes[at] + text)
        for said in messages:
            self.gateway.step(event, at[1], said)
        return (at, fault) if fault else None

    def found(self, asked, at):
        self.gateway.step("found", name(asked), dest(at, "u")[1])

    def search(self, host, datagram):
        host_named(host)
        asked = [(wire.nul_ended(said.payload, is_name), said.p1) for said in framed(data(datagram))[0]
                 if said.command == wire.SEARCH]
        asked = [(searched, cid) for searched, cid in asked if searched]
        replies = [message(wire.SEARCH, PORT, 0, wire.NO_CHANNEL, cid, b"\0\x0d")
                   for searched, cid in asked if self.is_connected(host, searched)]
        version = message(wire.VERSION, 0, 13, 0, 0)
        reply = version + b"".join(replies) if replies else b""
        self.printed.append("reply " + hexadecimal(reply))
        for searched, _ in asked:
            self.gateway.step("search", host, searched)

    def is_connected(self, host, searched):
        lead = rules.resolved(self.gateway.rules, host, searched)
        link = self.gateway.link(lead.real) if lead else None
        return link is not None and link.state == "connected"

    def sweep(self):
        self.gateway.step("sweep")

    def edit(self, rule_count, group_count, access_count="0"):
        sizes = [number(count, USIZE) for count in (rule_count, group_count, access_count)]
        if self.place + sum(sizes) > len(self.lines):
            raise BadLine
        texts = ["".join(line + "\n" for line in self.next_lines(size)) for size in sizes]
        refused = "refused line"
        try:
            read = rules.read_rules(texts[0]) if sizes[0] else None
            refused = "refused groups line"
            groups = rules.read_groups(texts[1]) if sizes[1] else {}
            refused = "refused access line"
            granting = access.read_access(texts[2]) if sizes[2] else None
        except rules.Fault as fault:
            self.printed.append(f"{refused} {fault.line}: {fault.cause}")
        else:
            self.gateway.step("edit", read, groups, granting)

    def asks(self):
        self.printed.append(" ".join(["asks", *self.gateway.asks()]))

    def read(self, at, sid, dtype, count):
        named = dest(at, "s")[1], number(sid, U32)
        dtype, count = number(dtype, 2**16 - 1), number(count, U32)
        self.printed.append(self.reading(self.gateway.channel(*named), dtype, count))

    def reading(self, channel, dtype, count):
        if channel is None:
            return "no channel"
        code = self.gateway.read_refusal(channel, dtype, count)
        link = self.gateway.link(channel.real)
        if code:
            return f"refused {code}"
        if not self.gateway.covers(link, dtype, count):
            return "waits"
        given, value = values.laid_out(link, dtype, count)
        return f"value {given} {hexadecimal(wire.filled(value))}"

    def upstream(self, asked, subject):
        link = self.gateway.link(name(asked))
        return link.upstream.get(subject) if link else None

    def subscription(self, asked):
        sub = self.upstream(asked, VALUES)
        self.printed.append(f"sub {sub.id} {sub.mask} {sub.count}" if sub else "sub -")

    def properties(self, asked):
        sub = self.upstream(asked, PROPERTIES)
        self.printed.append(f"props {sub.id}" if sub else "props -")

    def rights(self, at, sid):
        channel = self.gateway.channel(dest(at, "s")[1], number(sid, U32))
        rights = self.gateway.rights(channel) if channel else "-"
        self.printed.append(f"rights {rights}")

    def hold(self, at):
        self.held.add(dest(at))

    def flow(self, at):
        self.held.discard(dest(at))

    def drain(self, at, count):
        self.take(dest(at), number(count, USIZE))

    def limit(self, limit, value):
        if limit not in LIMITS:
            raise BadLine
        if isinstance(getattr(self.gateway.limits, LIMITS[limit]), bool):
            value = flag(value)
        else:
            value = number(value, USIZE)
        self.gateway.step("limit", LIMITS[limit], value)

    def age(self):
        self.gateway.step("age")

    def probe(self, server):
        self.gateway.step("probe", number(server, U32))

    def seek(self, at, cid, variable):
        self.gateway.step("seek", dest(at, "s")[1], number(cid, U32), name(variable))

    # What follows each line.

    def take(self, at, count):
        taken = []
        self.gateway.step("drain", at, count, taken)
        self.printed.extend(f"{at[0]}{at[1]} {text.hex()}" for text in taken)

    def print_waiting(self):
        for at in sorted(self.intakes):
            while at not in self.held and self.gateway.boxes[at].messages:
                self.take(at, 1_024)

    def end(self, at, line):
        self.printed.append(line)
        self.lose(at)
        self.print_waiting()


def main():
    output, status = Replay(sys.stdin.read()).run()
    sys.stdout.write(output)
    sys.exit(status)


if __name__ == "__main__":
    main()
