#!/usr/bin/env python3
"""Turns Channel Access messages into words: what `pvgate replay` prints, scripts, and captured bytes.

    ./pvgate replay < examples/first.replay | tools/explain.py     a line with bytes becomes a line for each message:
                                                                   s1 CREATE_CHAN cid 7 sid 1 LONG[1]
    tools/explain.py < examples/first.replay                       so do the lines of a script that have bytes
    tools/explain.py < crates/story_tests/src/stories/ages.rt     and those of stories, where `> ` stands before what is printed
    tools/explain.py --from client < BYTES                         the bytes that a client sent, as they were captured
    tools/explain.py --from server < BYTES                         those that a server sent, a gateway too

All other lines stay as they are. A message that isn't whole is told once the rest of it has come. Values are shown
behind their type, then the alarm and the time, where the type has them. Standard library only.
"""
import argparse
import os
import re
import sys
import time

sys.dont_write_bytecode = True
sys.path.insert(0, os.path.join(os.path.dirname(os.path.dirname(os.path.abspath(__file__))), "examples"))
import ca_wire as ca  # noqa: E402

COMMANDS = {0: "VERSION", 1: "EVENT_ADD", 2: "EVENT_CANCEL", 3: "READ", 4: "WRITE", 5: "SNAPSHOT", 6: "SEARCH", 7: "BUILD", 8: "EVENTS_OFF",
            9: "EVENTS_ON", 10: "READ_SYNC", 11: "ERROR", 12: "CLEAR_CHANNEL", 13: "RSRV_IS_UP", 14: "NOT_FOUND", 15: "READ_NOTIFY",
            16: "READ_BUILD", 17: "REPEATER_CONFIRM", 18: "CREATE_CHAN", 19: "WRITE_NOTIFY", 20: "CLIENT_NAME", 21: "HOST_NAME",
            22: "ACCESS_RIGHTS", 23: "ECHO", 24: "REPEATER_REGISTER", 25: "SIGNAL", 26: "CREATE_CH_FAIL", 27: "SERVER_DISCONN"}
STATUSES = {1: "NORMAL", 48: "ALLOCMEM", 72: "TOLARGE", 114: "BADTYPE", 142: "INTERNAL", 152: "GETFAIL", 160: "PUTFAIL", 176: "BADCOUNT",
            330: "BADMASK", 368: "NORDACCESS", 376: "NOWTACCESS", 410: "BADCHID"}
FORMS = ("", "STS_", "TIME_", "GR_", "CTRL_")
RIGHTS = ("none", "read", "write alone", "read, write")
MASKS = ((ca.VALUE, "VALUE"), (ca.LOG, "LOG"), (ca.ALARM, "ALARM"), (ca.PROPERTY, "PROPERTY"))
NOBODY = 0xFFFFFFFF
SHOWN = 10  # so many values of an array are shown

CLIENT, SERVER = "client", "server"  # who sent a message

# A line with bytes: of a script, of what a replay prints, and of a story, which has `> ` before what is printed, and bytes that
# are there N times as `[N from 1:BYTES]`. A story is a text of Rust, so `b"` stands before its first line, and a quote behind it.
LINES = re.compile(r'((?:.*\bb")?(?:> )?)(client s\d+|server u\d+|search \S+|s\d+|u\d+|reply) ((?:[0-9a-fA-F]{2})+)(?:"[,;])?')
REPEATED = re.compile(r"\[(\d+) from \d+:((?:[0-9a-f]{2})+)\]")
STORY = re.compile(r'\bb"')
OPENS = re.compile(r'(?:.*\bb")?open ([su]\d+)\b')


def text_in(payload):
    text = payload.split(b"\0")[0].decode(errors="replace")
    return text if text.isprintable() else repr(text)


def status(code):
    return STATUSES.get(code, f"status {code}")


def type_of(it):
    """The type and the count, as LONG[1]."""
    if it.dtype >= len(FORMS) * len(ca.NAMES):
        return f"type {it.dtype}[{it.count}]"
    return f"{FORMS[it.dtype // 7]}{ca.NAMES[it.dtype % 7]}[{it.count}]"


def value(it):
    """The values of a payload, with what its type says of them."""
    if it.dtype >= len(FORMS) * len(ca.NAMES) or len(it.payload) < ca.value_offset(it.dtype):
        return f"{type_of(it)} and {len(it.payload)} bytes"
    found = ca.value_of(it.dtype, min(it.count, len(it.payload)), it.payload)
    texts = [repr(each) if it.dtype % 7 == ca.STRING else f"{each:g}" if isinstance(each, float) else str(each) for each in found.values[:SHOWN]]
    words = [type_of(it), *texts, *([".."] if len(found.values) > SHOWN else [])]
    if it.dtype >= ca.STS:
        words.append(f"alarm {found.status} severity {found.severity}")
    if ca.TIME <= it.dtype < ca.GR:
        words.append("at " + time.strftime("%Y-%m-%d %H:%M:%S", time.gmtime(found.stamp)) + f"{found.stamp % 1:.3f}"[1:] + " UTC")
    return " ".join(words)


def mask(it):
    bits = int.from_bytes(it.payload[12:14], "big") if len(it.payload) >= 14 else 0
    return "+".join(name for bit, name in MASKS if bits & bit) or f"mask {bits}"


def error(it):
    """What an ERROR is about: the header of the request, and a text."""
    about = int.from_bytes(it.payload[:2], "big")
    at = 24 if it.payload[2:4] == b"\xff\xff" and it.payload[6:8] == b"\0\0" else 16
    channel = "" if it.p1 == NOBODY else f"cid {it.p1} "
    return f"{channel}{status(it.p2)} of {COMMANDS.get(about, f'command {about}')}: {text_in(it.payload[at:])}"


# What a client says.
ASKED = {
    ca.VERSION: lambda it: f"minor version {it.count}",
    ca.EVENT_ADD: lambda it: f"sid {it.p1} subscription {it.p2} {type_of(it)} {mask(it)}",
    ca.EVENT_CANCEL: lambda it: f"sid {it.p1} subscription {it.p2} {type_of(it)}",
    ca.WRITE: lambda it: f"sid {it.p1} ioid {it.p2} {value(it)}",
    ca.SEARCH: lambda it: f"cid {it.p1} {text_in(it.payload)}",
    ca.EVENTS_OFF: lambda it: "",
    ca.EVENTS_ON: lambda it: "",
    ca.CLEAR_CHANNEL: lambda it: f"sid {it.p1} cid {it.p2}",
    ca.READ_NOTIFY: lambda it: f"sid {it.p1} ioid {it.p2} {type_of(it)}",
    ca.CREATE_CHAN: lambda it: f"cid {it.p1} {text_in(it.payload)} minor version {it.p2}",
    ca.WRITE_NOTIFY: lambda it: f"sid {it.p1} ioid {it.p2} {value(it)}",
    ca.CLIENT_NAME: lambda it: text_in(it.payload),
    ca.HOST_NAME: lambda it: text_in(it.payload),
    ca.ECHO: lambda it: "",
}

# What a server says.
TOLD = {
    ca.VERSION: lambda it: f"minor version {it.count}",
    ca.EVENT_ADD: lambda it: f"subscription {it.p2} " + (f"{status(it.p1)} {value(it)}" if it.payload else f"{type_of(it)} cancelled"),
    ca.SEARCH: lambda it: f"cid {it.p2} port {it.dtype}",
    ca.ERROR: error,
    ca.CLEAR_CHANNEL: lambda it: f"sid {it.p1} cid {it.p2}",
    ca.READ_NOTIFY: lambda it: f"ioid {it.p2} {status(it.p1)} {value(it) if it.payload else type_of(it)}",
    ca.CREATE_CHAN: lambda it: f"cid {it.p1} sid {it.p2} {type_of(it)}",
    ca.WRITE_NOTIFY: lambda it: f"ioid {it.p2} {status(it.p1)} {type_of(it)}",
    ca.ACCESS_RIGHTS: lambda it: f"cid {it.p1} {RIGHTS[it.p2 & 3]}",
    ca.ECHO: lambda it: "",
    ca.CREATE_CH_FAIL: lambda it: f"cid {it.p1}",
    ca.SERVER_DISCONN: lambda it: f"cid {it.p1}",
}


def words(it, sender):
    """A message in words."""
    say = (ASKED if sender == CLIENT else TOLD).get(it.command)
    name = COMMANDS.get(it.command, f"command {it.command}")
    rest = say(it) if say else f"type {it.dtype} count {it.count} p1 {it.p1} p2 {it.p2} and {len(it.payload)} bytes"
    return f"{name} {rest}".rstrip()


def sender_of(front):
    """Who sent the bytes of a line that begins so. The gateway is a client of servers, and a server to clients."""
    return CLIENT if front.startswith(("client", "search", "u")) else SERVER


def that_go_on(streams, line):
    """The streams that aren't begun anew by a line: a story begins all, a connection that opens its own."""
    opens = OPENS.match(line)
    if STORY.search(line):
        return {}
    return {front: it for front, it in streams.items() if front.split()[-1] != opens[1]} if opens else streams


def explained(lines):
    """The lines in words."""
    streams = {}
    for line in lines:
        streams = that_go_on(streams, line)
        found = LINES.fullmatch(REPEATED.sub(lambda it: it[2] * int(it[1]), line.strip()))
        if not found:
            yield line + "\n"
            continue
        front, piece = found[2], bytes.fromhex(found[3])
        shown = found[1] + front
        is_datagram = front.startswith(("search", "reply"))
        stream = ca.Frames() if is_datagram else streams.setdefault(front, ca.Frames())
        messages = stream.feed(piece)
        for it in messages:
            yield f"{shown} {words(it, sender_of(front))}\n"
        if not messages:
            yield f"{shown} {len(piece)} bytes, and no whole message yet\n"
        elif is_datagram and stream.bytes:
            yield f"{shown} {len(stream.bytes)} bytes more, no whole message\n"


def captured(pieces, sender):
    """Bytes in words, a line for each message."""
    stream = ca.Frames()
    for piece in pieces:
        for it in stream.feed(piece):
            yield words(it, sender) + "\n"
    if stream.bytes:
        yield f"{len(stream.bytes)} bytes more, no whole message\n"


def main():
    parser = argparse.ArgumentParser(description=__doc__, formatter_class=argparse.RawDescriptionHelpFormatter)
    parser.add_argument("--from", dest="sender", choices=(CLIENT, SERVER), help="standard input is bytes that this one sent")
    sender = parser.parse_args().sender
    if sender:
        out = captured(iter(lambda: sys.stdin.buffer.read1(1 << 16), b""), sender)
    else:
        out = explained(line.rstrip("\n") for line in sys.stdin)
    try:
        for line in out:
            sys.stdout.write(line)
            sys.stdout.flush()
    except (BrokenPipeError, KeyboardInterrupt):
        os.dup2(os.open(os.devnull, os.O_WRONLY), 1)


if __name__ == "__main__":
    main()
