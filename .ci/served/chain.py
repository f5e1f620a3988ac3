"""A gateway whose server is a gateway."""
import ca_wire as ca
from served.room import variable


def chained(room):
    many = [variable(f"N{it}", values=[it]) for it in range(100)]
    states = variable("S", ca.ENUM, [1], properties=ca.Properties(states=("OFF", "ON")))
    up = room.upstream(variable("V", values=[1, 2, 3]), variable("W", ca.STRING, ["a"]), states, *many)
    inner = room.server(up, rules=".* ALLOW ops\n", groups="ops WRITE\n")
    outer = room.server(inner)
    near, one, two = room.client(inner), room.client(outer), room.client(outer)
    first, second, close = one.open("V"), two.open("V"), near.open("V")
    room.equal("a channel through both", first and first[3:], (ca.LONG, 3, 3))
    room.equal("one channel at the server", sum(it[3].name == "V" for it in up.channels), 1)
    room.equal("get", (one.values(first), two.values(second, ca.TIME + ca.LONG, 2), near.values(close)), ([1, 2, 3], [1, 2], [1, 2, 3]))
    text = one.open("W")
    room.equal("a text", one.values(text), ["a"])
    room.equal("a state by its text", one.values(one.open("S"), ca.STRING), ["ON"])
    room.equal("one subscription to properties at the server", [it[:2] for it in up.subscriptions("S") if it[0] == ca.PROPERTY], [(ca.PROPERTY, ca.CTRL + ca.ENUM)])
    watched = ((one, one.watch(first)), (two, two.watch(second, ca.STRING)), (near, near.watch(close)))
    room.equal("monitor", [it.update(own) for it, own in watched], [[1, 2, 3], ["1", "2", "3"], [1, 2, 3]])
    room.equal("put", (one.write(first, [4, 5, 6]), up.writes[-1][:3]), (ca.NORMAL, ("V", ca.LONG, 3)))
    all_have(room, "its updates", watched, [4, 5, 6])
    one.start_write(text, ["b"], command=ca.WRITE)
    room.eventually("put without a reply", lambda: one.values(text) == ["b"])
    room.eventually("one subscription at the server", lambda: len(up.subscriptions("V")) == 1)
    losing_rights(room, up, inner, (one, first), (two, second), watched)
    ending(room, up, inner, outer, one, first)


def all_have(room, label, watched, values):
    """The second of the three subscriptions is one to texts."""
    wanted = [values, [str(it) for it in values], values]
    room.equal(label, [client.updates_until(own, new)[-1] for (client, own), new in zip(watched, wanted)], wanted)


def rights_of(*clients):
    return [client.answer(ca.ACCESS_RIGHTS, "p1", channel.cid).p2 for client, channel in clients]


def losing_rights(room, up, inner, reader, other, watched):
    (one, first), (two, second) = reader, other
    room.file("groups", "ops READ\n")
    inner.write("reload")
    room.equal("the write right goes at both", rights_of(reader, other), [1, 1])
    room.equal("a write without it", one.write(first, [7]), ca.NOWTACCESS)
    up.set_rights("V", 0)
    room.equal("no right is left", rights_of(reader, other), [0, 0])
    room.equal("a read without it", one.values(first), ca.NORDACCESS)
    up.set_rights("V", 3)
    room.file("groups", "ops WRITE\n")
    inner.write("reload")
    room.check("both rights again", all(it.take(lambda it: it.command == ca.ACCESS_RIGHTS and it.p2 == 3) for it in (one, two)))
    up.give("V", [8, 8, 8])
    all_have(room, "and updates", watched, [8, 8, 8])


def ending(room, up, inner, outer, client, first):
    client.search(*(f"N{it}" for it in range(100)))
    for it in range(100):
        client.try_open(f"N{it}")
    many = [client.open(f"N{it}") for it in range(100)]
    room.equal("many names", [client.values(it) for it in many], [[it] for it in range(100)])
    up.stop()
    room.check("the server goes", client.answer(ca.SERVER_DISCONN, "p1", first.cid) is not None)
    up.start()
    room.eventually("the inner one is connected again", lambda: inner.write("connect 1") or up.count_clients() == 1)
    again = client.open("V")
    room.equal("and all is there", again and client.values(again), [8, 8, 8])
    room.equal("the inner one quits", inner.quit(), 0)
    room.check("as a server that goes", client.answer(ca.SERVER_DISCONN, "p1", again.cid) is not None)
    room.equal("the outer one quits", outer.quit(), 0)
