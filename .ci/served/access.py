"""Rights by user and host, as an access security file says, and edits of it."""
import ca_wire as ca
from served.found import SENDER, reply
from served.name_servers import NameServer
from served.room import Server, free_port, text_of, variable

RULES = "V ALLOW\nM ALLOW magnets\nLOW ALLOW magnets 0\nH ALLOW hidden\n"
ACCESS = """
UAG(ops) {anna}
HAG(room) {desk1, DESK3}   # the control room
ASG(DEFAULT) { RULE(1, READ) }
ASG(magnets) {
    RULE(1, READ)
    RULE(1, WRITE, TRAPWRITE) {UAG(ops) HAG(room)}
    RULE(0, WRITE) {HAG(room)}
}
ASG(hidden)
"""
TAKEN = ACCESS.replace("RULE(1, WRITE, TRAPWRITE)", "RULE(1, READ)")
HALF = ACCESS.partition("    RULE(0")[0]
NOWHERE = "no-such-host.invalid"
UNKNOWN = f"host {NOWHERE} has no address: no client counts as it"
CALCULATED = "ASG(DEFAULT) {\n    INPA(S01:MODE)\n    RULE(1, WRITE) {CALC(\"A=1\")}\n}\n"


def started(room, access, *options, rules=RULES):
    up = room.upstream(*(variable(name, values=[1]) for name in ("V", "M", "LOW", "H")))
    return up, room.server(up, rules=rules, options=["--access", room.file("access", access), *options])


def rights(client, *names):
    return [client.open(name).rights for name in names]


def told(client, channel):
    """The rights that the next ACCESS_RIGHTS of the channel tells."""
    return client.answer(ca.ACCESS_RIGHTS, "p1", channel.cid).p2


def is_told_nothing(client):
    return client.echo() and not any(it.command == ca.ACCESS_RIGHTS for it in client.inbox)


def granting(room):
    """Users and hosts have different rights on the same variables."""
    up, server = started(room, ACCESS)
    room.eventually("the file is logged", lambda: server.has_logged("INFO", "access file read"))
    anna, ben, far = room.client(server, user="anna"), room.client(server, user="ben"), room.client(server, "desk2", user="anna")
    room.equal("of a user in the control room", rights(anna, "V", "M", "LOW", "H"), [1, 3, 3, 0])
    room.equal("of another one there", rights(ben, "V", "M", "LOW", "H"), [1, 1, 3, 0])
    room.equal("of the first elsewhere", rights(far, "V", "M", "LOW", "H"), [1, 1, 1, 0])
    room.equal("hosts in any case of letters, users not",
               [rights(room.client(server, host, user=user), "M") for host, user in (("Desk3", "anna"), ("desk1", "Anna"))], [[3], [1]])
    room.equal("who writes", [it.write(it.open("M"), [7]) for it in (anna, ben, far)], [ca.NORMAL, ca.NOWTACCESS, ca.NOWTACCESS])
    room.equal("once", [name for name, *_ in up.writes], ["M"])
    room.equal("who reads", (ben.values(ben.open("M")), ben.values(ben.open("H"))), ([7], ca.NORDACCESS))
    saying(room, server, ben)
    edited(room, server, up, anna, ben)
    room.equal("quit", server.quit(), 0)


def saying(room, server, late):
    """What a client says counts until its first channel, the last of it."""
    late.send(ca.text(ca.CLIENT_NAME, "anna"))
    room.equal("a user that is said behind a channel", rights(late, "M"), [1])
    other = room.client(server, "desk2", user="ben")
    other.send(ca.text(ca.CLIENT_NAME, "cleo") + ca.text(ca.HOST_NAME, "desk1") + ca.text(ca.CLIENT_NAME, "anna"))
    room.equal("the last before it", rights(other, "M"), [3])
    silent = room.client(server, user="")
    room.equal("no user", rights(silent, "M", "LOW"), [1, 3])


def edited(room, server, up, anna, ben):
    """A reload takes a right away at once, and gives it back."""
    own, others = anna.open("M"), ben.open("M")
    room.equal("before", (own.rights, others.rights), (3, 1))
    many = len(up.writes)
    for it in (anna, ben):
        it.inbox.clear()
    room.file("access", TAKEN)
    server.write("reload")
    room.equal("the right to write goes", told(anna, own), 1)
    room.equal("a write without it", (anna.write(own, [8]), len(up.writes)), (ca.NOWTACCESS, many))
    room.check("who has the same rights is told nothing", is_told_nothing(ben))
    room.file("access", ACCESS)
    server.write("reload")
    room.equal("it comes back", told(anna, own), 3)
    room.equal("a write with it", (anna.write(own, [9]), up.writes[-1][0]), (ca.NORMAL, "M"))
    room.check("who never had it is told nothing", is_told_nothing(ben))
    room.eventually("both are logged", lambda: sum("reload" in line for line in server.logged) == 2)
    room.equal("and nothing is printed", len(server.printed), 1)


def refusing(room):
    """A faulty file ends the start, and at a reload changes nothing."""
    path = room.file("access", CALCULATED)
    refused = Server([room.program, "serve", "127.0.0.1:0", "127.0.0.1:1", "--access", path])
    room.started.append(refused.kill)
    room.equal("the status of the start", refused.status(), 1)
    room.equal("what is printed", refused.printed, ["access line 2: Calculated"])
    room.check("and logged", refused.has_logged("WARN", "rules refused: access line 2: Calculated"), refused.logged)
    up, server = started(room, ACCESS, "--site")
    anna = room.client(server, user="anna")
    own = anna.open("M")
    room.equal("before", own.rights, 3)
    anna.inbox.clear()
    for label, text, line in (("CALC", CALCULATED, "access line 2: Calculated"), ("a group that isn't there", "ASG(a) {\n\nRULE(1, READ) {UAG(b)}}", "access line 3: NoUsers"),
                              ("half a file", HALF, f"access line {HALF.count(chr(10)) + 1}: Unfinished")):
        room.file("access", text)
        server.write("reload")
        room.eventually(f"{label} is printed", lambda: server.printed[-1] == line)
        room.eventually(f"and logged: {label}", lambda: server.has_logged("WARN", f"rules refused: {line}"))
    room.file("access", "")
    server.write("reload")
    room.eventually("an empty one is refused with --site", lambda: server.has_logged("access is empty"))
    with open(path, "wb") as file:
        file.write(b"ASG(DEFAULT) # \xff\n")
    server.write("reload", "ask")
    room.eventually("one that can't be read is logged", lambda: server.has_logged("rules refused", "access can't be read"))
    room.check("nobody was told of a right", is_told_nothing(anna))
    room.equal("and all is as before", (anna.write(own, [5]), up.writes[-1][0], rights(room.client(server, user="anna"), "M")), (ca.NORMAL, "M", [3]))
    # The rule file is looked at first, and the new access file isn't taken without it.
    room.file("access", TAKEN)
    room.file("rules", "V GRANT\n")
    server.write("reload")
    room.eventually("the rule file's fault comes first", lambda: server.printed[-1] == "line 1: NoVerb")
    room.check("then the other file isn't taken", is_told_nothing(anna))
    room.equal("quit", server.quit(), 0)


def checking_hosts(room):
    """With --check-host a client's host is its address, for rights and for DENY FROM; elsewhere it is what the client says."""
    access, rules = ACCESS.replace("desk1, DESK3", "127.0.0.1"), RULES + "V DENY FROM desk9\n"
    for options, wanted in (((), [1, 3]), (("--site",), [1, 3]), (("--check-host",), [3, 1]), (("--site", "--check-host"), [3, 1])):
        _, server = started(room, access, *options, rules=rules)
        near, far = room.client(server, "desk9", user="anna"), room.client(server, "127.0.0.1", "127.0.0.2", user="anna")
        room.equal(f"{options}: rights by the host", [rights(it, "M")[0] for it in (near, far)], wanted)
        if "--check-host" in options:
            room.check(f"{options}: a host that is said isn't refused", near.open("V") is not None)
            room.file("rules", RULES + "V DENY FROM 127.0.0.1\n")
            server.write("reload")
            room.check(f"{options}: the address is", near.take(lambda it: it.command == ca.SERVER_DISCONN) is not None and near.open("V", 1) is None)
            room.check(f"{options}: that of another one isn't", far.open("V") is not None)
        else:
            room.check(f"{options}: a host that is said is refused", far.open("V") is not None and near.try_open("V") is None)
        room.equal(f"{options}: quit", server.quit(), 0)


def at_ipv6(room, access, *options):
    """A gateway whose LISTEN is all interfaces of IPv6, at an address of IPv4."""
    up = room.upstream(variable("M", values=[1]))
    names = NameServer(room, lambda cid, name: reply(cid, up.address[1], SENDER))
    port, files = free_port(), ["--access", room.file("access", access), "--name-server", text_of(names.address)]
    server = Server(room.words(f"[::]:{port}", [], RULES, options=[*files, *options]))
    room.started.append(server.kill)
    room.eventually(f"{options}: it listens", lambda: server.printed)
    server.address = ("127.0.0.1", port)
    return server


def checking_mapped_hosts(room):
    """A client of IPv4 at a LISTEN of IPv6 has the address that it has at one of IPv4, where hosts are checked."""
    access = ACCESS.replace("desk1, DESK3", "127.0.0.1")
    for options, wanted in ((("--check-host",), 3), ((), 1)):
        server = at_ipv6(room, access, *options)
        room.equal(f"{options}: rights", rights(room.client(server, "desk9", user="anna"), "M"), [wanted])
        room.equal(f"{options}: quit", server.quit(), 0)


def checking_written_hosts(room):
    """With --check-host an address is found however it is written; else hosts are texts."""
    access, elsewhere = (ACCESS.replace("desk1, DESK3", it) for it in ("::FFFF:127.0.0.1, 0:0:0:0:0:0:0:1", "10.0.0.8"))
    for options, wanted in ((("--check-host",), 3), ((), 1)):
        server = at_ipv6(room, access, *options)
        four = room.client(server, "desk9", user="anna")
        room.equal(f"{options}: rights by IPv4", rights(four, "M"), [wanted])
        server.address = ("::1", server.address[1])
        six = room.client(server, "desk9", user="anna")
        room.equal(f"{options}: rights by IPv6", six.try_open("M").rights, wanted)
        room.file("access", elsewhere)
        room.file("rules", RULES + "M DENY FROM ::ffff:7f00:1, 0::1\n")
        server.write("reload")
        if options:
            room.check("both are refused", all(it.take(lambda it: it.command == ca.SERVER_DISCONN) and it.try_open("M") is None for it in (four, six)))
        else:
            room.eventually("the reload is logged", lambda: server.has_logged("reload"))
            room.check("nobody is refused", all(it.try_open("M") is not None for it in (four, six)))
        room.check(f"{options}: no name is looked for", not server.has_logged("has no address"))
        room.equal(f"{options}: quit", server.quit(), 0)


def looking_up_hosts(room):
    """With --check-host hosts that the files name are looked up, at the start and at each reload; else what a client says is compared."""
    access, rules = ACCESS.replace("desk1, DESK3", f"LocalHost, {NOWHERE}"), RULES + f"V DENY FROM {NOWHERE}\n"
    for options, wanted, told_once in (((), [1, 3], 0), (("--check-host",), [3, 1], 1)):
        _, server = started(room, access, *options, rules=rules)
        near, far = room.client(server, "desk9", user="anna"), room.client(server, "localhost", "127.0.0.2", user="anna")
        room.equal(f"{options}: rights by the host", [rights(it, "M")[0] for it in (near, far)], wanted)
        room.equal(f"{options}: rights by the user and the host", [rights(room.client(server, "desk9", user="ben"), "M", "LOW")], [[1, wanted[0]]])
        room.check(f"{options}: nobody is the host that isn't found", near.open("V") is not None and far.open("V") is not None)
        room.eventually(f"{options}: it is told once", lambda: sum(UNKNOWN in line for line in server.logged) == told_once)
        room.file("rules", RULES + "V DENY FROM elsewhere.invalid, localhost\n")
        server.write("reload")
        refused, other = (near, far) if options else (far, near)
        room.check(f"{options}: it is refused by its name", refused.take(lambda it: it.command == ca.SERVER_DISCONN) is not None and refused.try_open("V") is None)
        room.check(f"{options}: another one isn't", other.open("V", 1) is not None)
        room.eventually(f"{options}: both names that aren't found are told", lambda: sum("has no address" in line for line in server.logged) == 3 * told_once)
        room.equal(f"{options}: quit", server.quit(), 0)
