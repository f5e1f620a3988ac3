"""Channels, reads, subscriptions and writes, as one client and several meet them."""
import struct

import ca_wire as ca
from served.room import variable

NATIVE = {ca.STRING: ["a", "", "x" * 39], ca.SHORT: [-7, 0, 32767], ca.FLOAT: [0.5, -2.25, 0.0], ca.ENUM: [0, 1, 65535],
          ca.CHAR: [1, 2, 255], ca.LONG: [-7, 5, 1 << 30], ca.DOUBLE: [0.1, -1e300, 0.0]}
PROPERTIES = {ca.STRING: ca.Properties(), ca.SHORT: ca.Properties("mm", 0, (100, -100, 90, 80, -80, -90, 100, -100)),
              ca.FLOAT: ca.Properties("V", 3, (10.5, -10.5, 9.0, 8.0, -8.0, -9.0, 10.0, -10.0)),
              ca.ENUM: ca.Properties(states=("OFF", "ON", "x" * 26)), ca.CHAR: ca.Properties("count", 0, (255, 0, 250, 240, 10, 5, 255, 1)),
              ca.LONG: ca.Properties("Hz", 0, (1 << 30, -5, 9, 8, -8, -9, 7, -7)),
              ca.DOUBLE: ca.Properties("mA", -1, (1e300, -1e300, 0.5, 0.25, -0.25, -0.5, 1e3, -1e3))}
FORMS = (0, ca.STS, ca.TIME, ca.GR, ca.CTRL)
WIDER = {(ca.CHAR, ca.SHORT), (ca.CHAR, ca.LONG), (ca.SHORT, ca.LONG), (ca.ENUM, ca.LONG),
         (ca.CHAR, ca.STRING), (ca.SHORT, ca.STRING), (ca.LONG, ca.STRING), (ca.ENUM, ca.STRING)}


def of_each_type():
    return [variable(ca.NAMES[base], base, values, properties=PROPERTIES[base]) for base, values in NATIVE.items()]


def creating(room):
    up = room.upstream(variable("T1", ca.LONG, [5], rights=1), variable("T2", ca.DOUBLE, [0.5] * 20))
    server = room.server(up)
    room.eventually("the upstream is logged", lambda: server.has_logged("upstream 1", "connected"))
    client = room.client(server)
    room.equal("VERSION comes first", client.take(), ca.Message(ca.VERSION, 0, 13, 0, 0, b""))
    room.eventually("the client is logged", lambda: server.has_logged("client 1", "127.0.0.1", "connected"))
    room.check("CREATE_CHAN fails where the variable isn't connected yet", client.try_open("T1") is None)
    channel = client.open("T1")
    room.equal("type, count and rights of a channel", channel and channel[3:], (ca.LONG, 1, 1))
    other = client.open("T2")
    room.equal("type, count and rights of an array", other and other[3:], (ca.DOUBLE, 20, 3))
    room.check("a second channel of the name has a SID of its own", client.open("T1").sid not in (channel.sid, other.sid))
    room.equal("one channel upstream for each name", len(up.channels), 2)
    room.check("a name that no server has fails", client.try_open("T3") is None)
    room.check("a name of 256 letters fails", client.try_open("T" * 256) is None)
    room.check("ECHO", client.echo() and client.echo(bytes(range(8))) and client.echo(bytes(70_000)))
    client.send(ca.message(ca.ECHO, b"12345678", 1, 70_000, 2, 3))
    room.equal("ECHO with a large count", client.take(), ca.Message(ca.ECHO, 1, 70_000, 2, 3, b"12345678"))
    client.send(ca.message(ca.CLEAR_CHANNEL, p1=channel.sid, p2=99))
    room.equal("CLEAR_CHANNEL", client.take(), ca.Message(ca.CLEAR_CHANNEL, 0, 0, channel.sid, 99, b""))
    client.send(ca.message(ca.READ_NOTIFY, b"", ca.LONG, 1, channel.sid, 1))
    room.equal("a read of what was cleared", client.error(), ca.BADCHID)
    for command in (3, ca.SEARCH, 10, 99):
        client.send(ca.message(command))
        room.equal(f"command {command}", client.error(), 142)
    searching(room, server, client)
    client.close()
    room.eventually("a client that goes is logged", lambda: server.has_logged("client 1", "gone"))
    room.equal("quit", server.quit(), 0)
    room.check("closing is logged", server.has_logged("closing"))


def searching(room, server, client):
    client.search("T1", "T3", "T2")
    head, *replies = client.replies(60)
    room.equal("a reply begins with VERSION", head[:3], (ca.VERSION, 0, 13))
    room.equal("names that are connected are answered for", [(it.dtype, it.p1, it.p2) for it in replies],
               [(server.address[1], 0xFFFFFFFF, 1), (server.address[1], 0xFFFFFFFF, 3)])
    room.equal("the payload of a reply", {it.payload for it in replies}, {b"\0\r" + bytes(6)})
    client.search("T3")
    room.equal("nothing else is", client.replies(0.5), None)


def reading(room):
    up = room.upstream(*of_each_type(), variable("HELD"))
    client = room.client(room.server(up))
    channels = {base: client.open(ca.NAMES[base]) for base in NATIVE}
    for base, values in NATIVE.items():
        up.give(ca.NAMES[base], values, status=3, severity=2)
    for base, values in NATIVE.items():
        channel, name = channels[base], ca.NAMES[base]
        for form in FORMS:
            reply = client.read(channel, base + form)
            wanted = ca.payload_of(base + form, up.variables[name].value, PROPERTIES[base])
            room.equal(f"{name} read in form {form}", reply[:4], (ca.READ_NOTIFY, base + form, 3, 1))
            room.equal(f"payload of {name} in form {form}", reply.payload[:len(wanted)], wanted)
        room.equal(f"two of {name}", client.values(channel, count=2), values[:2])
        room.equal(f"four of {name}", client.values(channel, count=4), ca.BADCOUNT)
        for asked in NATIVE:
            wanted = up.variables[name].as_type(asked, values) if asked == base or (base, asked) in WIDER else ca.BADTYPE
            for form in FORMS:
                room.equal(f"{name} as {ca.NAMES[asked]} in form {form}", client.values(channel, asked + form), wanted)
        for dtype in (35, 36, 0xFFFF):
            room.equal(f"{name} as type {dtype}", client.read(channel, dtype).p1, ca.BADTYPE)
    without_right(room, up, client, channels[ca.LONG])
    after_updates(room, up, client)
    waiting(room, up, client, channels[ca.FLOAT])


def without_right(room, up, client, channel):
    up.set_rights("LONG", 0)
    room.equal("rights that a server takes", client.answer(ca.ACCESS_RIGHTS, "p1", channel.cid).p2, 0)
    room.equal("a read without the right", client.values(channel), ca.NORDACCESS)
    up.set_rights("LONG", 3)
    room.equal("rights that a server gives", client.answer(ca.ACCESS_RIGHTS, "p1", channel.cid).p2, 3)
    room.equal("a read with the right again", client.values(channel), NATIVE[ca.LONG])
    up.give("LONG", [1])
    room.wait(lambda: client.values(channel) == [1])
    room.equal("a value of fewer elements", client.values(channel), [1])
    room.equal("the same, filled", client.values(channel, count=3), [1, 0, 0])


def after_updates(room, up, client):
    channel = client.open("SHORT")
    own = client.watch(channel)
    room.equal("a subscription begins with the value", client.update(own), NATIVE[ca.SHORT])
    up.give("SHORT", [9, 8, 7])
    room.equal("and goes on", client.update(own), [9, 8, 7])
    room.equal("a read after an update", client.values(channel), [9, 8, 7])


def waiting(room, up, client, channel):
    """A server that sends no value leaves reads waiting, 256 of them."""
    held = client.open("HELD")
    up.do(lambda: setattr(up.variables["HELD"], "rights", 0))
    asked = [client.ask(held) for _ in range(256)]
    room.equal("read 257 that would wait", client.values(held), ca.GETFAIL)
    room.equal("a read of another variable that waits for nothing", client.values(channel), NATIVE[ca.FLOAT])
    room.check("none of them was answered", not any(it.command == ca.READ_NOTIFY for it in client.inbox))
    room.eventually("the gateway subscribed", lambda: len(up.subscriptions("HELD")) == 1)
    up.fail_updates("HELD", ca.NORDACCESS)
    room.equal("an update that failed answers them all", {client.answer(ca.READ_NOTIFY, "p2", own).p1 for own in asked}, {ca.GETFAIL})
    again = client.ask(held)
    up.do(lambda: setattr(up.variables["HELD"], "rights", 3))
    up.give("HELD", [5])
    room.equal("and a value those that wait then", client.answer(ca.READ_NOTIFY, "p2", again).p1, ca.NORMAL)


def watching(room):
    up = room.upstream(variable("V", ca.LONG, [0] * 4), variable("W", ca.DOUBLE, [0.5]))
    server = room.server(up)
    first, second = room.client(server), room.client(server)
    one, two = first.open("V"), second.open("V")
    value, alarm = first.watch(one, mask=1), first.watch(one, mask=4)
    log, some = second.watch(two, ca.TIME + ca.LONG, mask=2), second.watch(two, ca.STRING, count=2)
    watched = ((first, value), (first, alarm), (second, log), (second, some))
    room.equal("each begins with the value", [it.update(own) for it, own in watched], [[0] * 4, [0] * 4, [0] * 4, ["0", "0"]])
    room.eventually("one subscription upstream", lambda: up.subscriptions("V") == [(7, ca.TIME + ca.LONG, 0)])
    up.give("V", [1, 2, 3, 4])
    up.give("V", [5, 6, 7, 8], status=3, severity=1)
    # What clients want together changed, so the first value may have come anew.
    room.equal("VALUE", first.updates_until(value, [5, 6, 7, 8])[-2:], [[1, 2, 3, 4], [5, 6, 7, 8]])
    room.equal("ALARM", first.updates_until(alarm, [5, 6, 7, 8]), [[5, 6, 7, 8]])
    room.equal("LOG", second.updates_until(log, [5, 6, 7, 8])[-2:], [[1, 2, 3, 4], [5, 6, 7, 8]])
    room.equal("two elements as text", second.updates_until(some, ["5", "6"])[-2:], [["1", "2"], ["5", "6"]])
    pausing(room, up, first, value)
    describing(room, up, first)
    cancelling(room, up, first, second, (one, two), (value, alarm, log, some))
    refused_subscriptions(room, first, one)


def pausing(room, up, client, own):
    client.send(ca.message(ca.EVENTS_OFF))
    room.check("events are off", client.echo())
    for last in (11, 12, 13):
        up.give("V", [last] * 4, status=3, severity=1)
    other = client.open("W")
    seen = client.values(other)
    room.check("nothing comes while events are off", seen == [0.5] and not any(it.command == ca.EVENT_ADD for it in client.inbox))
    client.send(ca.message(ca.EVENTS_ON))
    room.equal("the latest value comes once", client.updates_until(own, [13] * 4), [[13] * 4])


def describing(room, up, client):
    """A subscription to properties makes one upstream of its own, which goes with it."""
    channel = client.open("W")
    own = client.watch(channel, ca.CTRL + ca.DOUBLE, mask=ca.PROPERTY)
    reply = client.answer(ca.EVENT_ADD, "p2", own)
    room.equal("properties begin with the value", reply.payload, ca.payload_of(ca.CTRL + ca.DOUBLE, up.variables["W"].value))
    room.eventually("a subscription upstream to each", lambda: sorted(it[0] for it in up.subscriptions("W")) == [5, 8])
    new = ca.Properties("mA", 2, (9.0, 1.0, 8.0, 7.0, 3.0, 2.0, 9.5, 0.5))
    up.tell_properties("W", new)
    reply = client.answer(ca.EVENT_ADD, "p2", own)
    room.equal("new properties are told", reply.payload, ca.payload_of(ca.CTRL + ca.DOUBLE, up.variables["W"].value, new))
    client.send(ca.message(ca.EVENT_CANCEL, b"", ca.CTRL + ca.DOUBLE, 0, channel.sid, own))
    room.eventually("and the subscription goes", lambda: [it[0] for it in up.subscriptions("W")] == [5])


def cancelling(room, up, first, second, channels, owns):
    one, two = channels
    value, alarm, log, some = owns
    for client, channel, own, dtype, count in ((first, one, value, ca.LONG, 0), (first, one, alarm, ca.LONG, 0),
                                               (second, two, log, ca.TIME + ca.LONG, 0)):
        client.send(ca.message(ca.EVENT_CANCEL, b"", dtype, count, channel.sid, own))
        answer = client.take(lambda it: it.command == ca.EVENT_ADD and it.p2 == own and not it.payload)
        room.equal("a subscription is cancelled", answer, ca.Message(ca.EVENT_ADD, dtype, count, channel.sid, own, b""))
    room.eventually("two elements are left upstream", lambda: up.subscriptions("V") == [(5, ca.TIME + ca.LONG, 2)])
    second.send(ca.message(ca.CLEAR_CHANNEL, p1=two.sid, p2=two.cid))
    room.eventually("no subscription upstream", lambda: up.subscriptions("V") == [])
    own = first.watch(one)
    room.equal("subscribed again", first.update(own), [13] * 4)
    up.give("V", [14] * 4)
    room.equal("an update of it", first.update(own), [14] * 4)
    room.check("nothing for what was cancelled", second.echo() and not any(it.p2 in (value, alarm) for it in first.inbox))
    second.send(ca.message(ca.EVENT_CANCEL, b"", ca.LONG, 0, two.sid, some))
    room.equal("a cancelling on no channel", second.error(), ca.BADCHID)


def refused_subscriptions(room, client, channel):
    for label, code, fields in (("no mask", 330, {"mask": 0}), ("mask of other bits", 330, {"mask": 0xFFF0}), ("type", 114, {"dtype": ca.DOUBLE}),
                                ("count", 176, {"count": 5})):
        client.watch(channel, **fields)
        room.equal(f"a subscription refused for its {label}", client.error(), code)
    own = client.watch(channel)
    client.send(ca.subscribe(channel.sid, own, ca.LONG))
    room.equal("a subscription under a number that stands", client.error(), 142)
    client.send(ca.message(ca.EVENT_ADD, bytes(8), ca.LONG, 1, channel.sid, 999))
    room.equal("a subscription without a mask", client.error(), 142)


def writing(room):
    up = room.upstream(*of_each_type(), variable("R", rights=1), variable("HELD"))
    client = room.client(room.server(up))
    for base, values in NATIVE.items():
        channel = client.open(ca.NAMES[base])
        new = values[::-1]
        room.equal(f"WRITE_NOTIFY of {channel.name}", client.write(channel, new), ca.NORMAL)
        wanted = ca.elements(base, new)
        room.equal(f"what came of {channel.name}", up.writes[-1][:3] + (up.writes[-1][3][:len(wanted)],), (channel.name, base, 3, wanted))
        room.eventually(f"the new value of {channel.name}", lambda: client.values(channel) == new)
    channel = client.open("LONG")
    client.start_write(channel, [77], command=ca.WRITE)
    room.eventually("WRITE comes", lambda: up.writes[-1] == ("LONG", ca.LONG, 1, struct.pack(">ixxxx", 77)))
    client.start_write(channel, ["12"], base=ca.STRING, payload=b"12", command=ca.WRITE)
    room.eventually("a short text comes as 40 bytes", lambda: up.writes[-1] == ("LONG", ca.STRING, 1, b"12".ljust(40, b"\0")))
    refused_writes(room, up, client, channel)
    held_writes(room, up, client)


def refused_writes(room, up, client, channel):
    many = len(up.writes)
    room.equal("a write of no elements", client.write(channel, [], count=0), ca.BADCOUNT)
    room.equal("a write of too many", client.write(channel, [1] * 4), ca.BADCOUNT)
    room.equal("a write that is short", client.write(channel, [1], count=3), ca.BADCOUNT)
    room.equal("a write of a TIME type", client.write(channel, [1], base=ca.TIME + ca.LONG), ca.BADTYPE)
    room.equal("a write without the right", client.write(client.open("R"), [1]), ca.NOWTACCESS)
    client.start_write(client.open("R"), [1], command=ca.WRITE)
    room.equal("WRITE without the right", client.error(), ca.NOWTACCESS)
    client.start_write(channel._replace(sid=0xFFFF), [1])
    room.equal("a write on no channel", client.error(), ca.BADCHID)
    room.equal("none of these came", len(up.writes), many)
    up.statuses["LONG"] = ca.PUTFAIL
    room.equal("the server's own status", client.write(channel, [1]), ca.PUTFAIL)
    up.statuses["LONG"] = 400
    room.equal("whatever it is", client.write(channel, [1]), 400)


def held_writes(room, up, client):
    """A server that doesn't answer leaves writes waiting, 256 of them."""
    up.statuses["HELD"] = None
    channel = client.open("HELD")
    for value in range(256):
        client.start_write(channel, [value])
    room.equal("write 257 that would wait", client.write(channel, [256]), ca.PUTFAIL)
    room.eventually("256 came", lambda: sum(it[0] == "HELD" for it in up.writes) == 256)
    client.start_write(channel, [257], command=ca.WRITE)
    room.eventually("WRITE has no limit", lambda: sum(it[0] == "HELD" for it in up.writes) == 257)
    up.disconnect("HELD")
    room.check("the channel goes with its writes", client.answer(ca.SERVER_DISCONN, "p1", channel.cid) is not None)
    room.check("the client goes on", client.echo())
    up.statuses.clear()
    room.equal("and writes again", client.write(client.open("HELD"), [1]), ca.NORMAL)
