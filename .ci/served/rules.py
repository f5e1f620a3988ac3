"""What the rules do for clients that are connected: rights, aliases, refusals, hosts, and edits of all these."""
import ca_wire as ca
from served.room import variable

RULES = r"""
.*            ALLOW everyone
SET:.*        ALLOW operators
\(.*\):OLD    ALIAS \1:NEW operators
SECRET.*      DENY
"""


def rights(room):
    up = room.upstream(variable("V", values=[1]), variable("SET:V", values=[2]), variable("A:NEW", values=[3]), variable("SECRET"),
                       variable("B:NEW", values=[4]))
    server = room.server(up, rules=RULES, groups="everyone READ\noperators WRITE\n")
    room.eventually("the rules are logged", lambda: server.has_logged("rules", "4 rows"))
    client, other = room.client(server), room.client(server)
    read_only, both, alias = (client.open(name) for name in ("V", "SET:V", "A:OLD"))
    room.equal("rights by group", (read_only.rights, both.rights, alias.rights), (1, 3, 3))
    room.equal("values", [client.values(it) for it in (read_only, both, alias)], [[1], [2], [3]])
    room.check("a refused name", client.open("SECRET", 1) is None and not any(it[3].name == "SECRET" for it in up.channels))
    room.equal("a write by the rules", (client.write(read_only, [7]), client.write(both, [7])), (ca.NOWTACCESS, ca.NORMAL))
    room.equal("a write by an alias", (client.write(alias, [8]), up.writes[-1][0]), (ca.NORMAL, "A:NEW"))
    seen, also = client.watch(read_only), other.watch(other.open("V"))
    room.equal("subscribed", (client.update(seen), other.update(also)), ([1], [1]))
    edited(room, server, up, (client, seen, read_only), (other, also))
    refused(room, server, up, (client, seen, read_only))
    led_elsewhere(room, server, client, alias)


def edited(room, server, up, one, two):
    """Groups are edited while clients are connected."""
    (client, seen, channel), (other, also) = one, two
    room.file("groups", "everyone NONE\noperators READ\n")
    server.write("reload")
    room.equal("the read right goes", client.answer(ca.ACCESS_RIGHTS, "p1", channel.cid).p2, 0)
    room.check("for the other too", other.take(lambda it: it.command == ca.ACCESS_RIGHTS).p2 == 0)
    room.equal("a read without it", client.values(channel), ca.NORDACCESS)
    up.give("V", [5])
    room.check("no update without it", client.echo() and not any(it.command == ca.EVENT_ADD for it in client.inbox))
    room.file("groups", "everyone WRITE\noperators READ\n")
    server.write("reload")
    room.equal("both rights come", client.answer(ca.ACCESS_RIGHTS, "p1", channel.cid).p2, 3)
    room.equal("the update that was owed", (client.update(seen), other.update(also)), ([5], [5]))
    room.equal("a write now", client.write(channel, [6]), ca.NORMAL)
    room.equal("its update", (client.updates_until(seen, [6])[-1], other.updates_until(also, [6])[-1]), ([6], [6]))
    room.eventually("the reload is logged", lambda: server.has_logged("reload"))


def refused(room, server, up, one):
    """Files that aren't good leave the rules as they are."""
    client, seen, channel = one
    room.file("rules", "A ALLOW\n# x\nB GRANT\n")
    server.write("reload")
    room.eventually("a refused reload is told", lambda: "line 3: NoVerb" in server.printed)
    room.file("rules", RULES)
    room.file("groups", "everyone\n")
    server.write("reload")
    room.eventually("a refused group file is told", lambda: "groups line 1: BadGroup" in server.printed)
    room.file("rules", "X DENY\n" * 4097)
    server.write("reload")
    room.eventually("too many rows are told", lambda: "line 4097: TooManyLines" in server.printed)
    room.file("groups", "everyone WRITE\noperators WRITE\n")
    with open(f"{room.folder}/rules", "wb") as file:
        file.write(b".* DENY\n\xff\n")
    server.write("reload", "ask")
    room.eventually("a file that can't be read is logged", lambda: server.has_logged("rules refused", "read"))
    up.give("V", [9])
    room.equal("all is as before", (client.updates_until(seen, [9])[-1], client.write(channel, [10])), ([9], ca.NORMAL))
    room.equal("nothing else was printed", len(server.printed), 4)


def led_elsewhere(room, server, client, alias):
    room.file("rules", RULES.replace(r"ALIAS \1:NEW", "ALIAS B:NEW").replace("SECRET", "V"))
    server.write("reload")
    gone = [client.take(lambda it: it.command == ca.SERVER_DISCONN).p1 for _ in range(2)]
    room.equal("channels whose names lead elsewhere or nowhere go", len(set(gone)), 2)
    room.check("the alias is one of them", alias.cid in gone)
    again = client.open("A:OLD")
    room.equal("the alias leads to the other variable", again and client.values(again), [4])
    room.check("the denied name is refused", client.open("V", 1) is None)
    room.equal("a channel that no edit touched", client.values(client.open("SET:V")), [7])


def hosts(room):
    rules = ".* ALLOW\nV DENY FROM lab7\nW DENY FROM 127.0.0.2, lab7\nU DENY FROM 127.0.0.1\n"
    up = room.upstream(*(variable(name, values=[1]) for name in "UVW"))
    server = room.server(up, rules=rules)
    desk, lab, far = room.client(server), room.client(server, "LAB7"), room.client(server, "desk2", "127.0.0.2")
    room.equal("a host that no rule names", desk.values(desk.open("V")), [1])
    room.check("HOST_NAME decides, in any case of letters", lab.open("V", 1) is None and desk.try_open("V") is not None)
    room.check("HOST_NAME in place of the address", far.open("W") is not None)
    room.check("a name that was found for others is found", bool(lab.found("V", 30)))
    room.check("a search goes by the address", far.found("W", 1) is None and bool(desk.found("W", 30)))
    lab.send(ca.text(ca.HOST_NAME, "desk9"))
    room.check("the host is fixed from the first CREATE_CHAN on", lab.try_open("V") is None)
    silent = room.client(server)
    silent.send(ca.text(ca.HOST_NAME, "127.0.0.1"))
    room.check("a later HOST_NAME before it counts", silent.open("U", 1) is None and desk.open("U") is not None)
    edit_of_hosts(room, server, desk, far)


def edit_of_hosts(room, server, desk, far):
    room.file("rules", ".* ALLOW\nV DENY FROM desk1\nW DENY FROM desk2\n")
    server.write("reload")
    room.check("an edit takes the channels of one host", far.take(lambda it: it.command == ca.SERVER_DISCONN) is not None)
    room.check("and those of the other", desk.take(lambda it: it.command == ca.SERVER_DISCONN) is not None)
    room.check("what is allowed is found now", far.open("V") is not None and desk.open("W") is not None)
