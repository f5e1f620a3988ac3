#!/usr/bin/env python3
"""Runs the built server with the client library of EPICS base (libca 4.13.5, by ctypes): `clients.py [PROGRAM]`.

Where Debian's packages libca4.13.5 and libcom3.17.6 aren't installed it says so and ends with 0. pyepics is run too where
it is installed (Debian's python3-pyepics). Prints each check that failed, and a last line with the counts; the status is 1
where one failed.
"""
import functools
import json
import os
import pwd
import socket
import subprocess
import sys
import threading
import traceback

ROOT = os.path.dirname(os.path.dirname(os.path.abspath(__file__)))
LONGEST = 400

sys.dont_write_bytecode = True
sys.path.insert(0, os.path.join(ROOT, ".ci"))
import served  # noqa: E402  (sets the path to examples/)
import ca_wire as ca  # noqa: E402
from served import libca  # noqa: E402
from served.beacons import REPEATER  # noqa: E402
from served.found import gateway  # noqa: E402
from served.other_user import OtherUser  # noqa: E402
from served.repeaters import by_repeater  # noqa: E402
from served.room import Room, Server, free_port, text_of, variable  # noqa: E402
from served.values import FORMS, NATIVE, PROPERTIES, WIDER  # noqa: E402

MANY = 1000
PYTHONS = (sys.executable, "/usr/bin/python3")

# What pyepics tells of channels: their properties by type, and an ENUM as text.
PYEPICS = """
import json, sys, epics
told = {}
for name in sys.argv[1:]:
    pv = epics.PV(name, connection_timeout=60)
    told[name] = {k: v for k, v in (pv.get_ctrlvars(timeout=60) or {}).items() if isinstance(v, (int, float, str, list, tuple))}
    told[name]["text"] = pv.get(as_string=True, timeout=60)
print(json.dumps(told, default=str))
"""
# The user that it runs as (root may say another), and what it may do with a variable, at first and each time that it is told.
PYEPICS_ACCESS = """
import json, os, pwd, sys
if sys.argv[1]:
    os.setgroups([])
    os.setgid(pwd.getpwnam(sys.argv[1]).pw_gid)
    os.setuid(pwd.getpwnam(sys.argv[1]).pw_uid)
import epics
told = []
pv = epics.PV(sys.argv[2], access_callback=lambda read, write, **rest: told.append([bool(read), bool(write)]))
for line in sys.stdin:
    if line.strip() == "connect":
        print(json.dumps(pv.wait_for_connection(60)), flush=True)
    elif line.strip() == "put":
        try:
            done = pv.put(5, wait=True, timeout=60)
        except epics.ca.CASeverityException:
            done = None
        print(json.dumps(done), flush=True)
    else:
        epics.ca.poll(evt=0.05, iot=1)
        print(json.dumps([told, bool(pv.read_access), bool(pv.write_access)]), flush=True)
os._exit(0)
"""
PYEPICS_LIMITS = ("upper_disp_limit", "lower_disp_limit", "upper_alarm_limit", "upper_warning_limit", "lower_warning_limit",
                  "lower_alarm_limit", "upper_ctrl_limit", "lower_ctrl_limit")


def variables():
    every = [variable(ca.NAMES[base], base, values, properties=PROPERTIES[base]) for base, values in NATIVE.items()]
    single = [variable(f"ONE:{ca.NAMES[base]}", base, values[:1], properties=PROPERTIES[base]) for base, values in NATIVE.items()]
    return [*every, *single, variable("V", values=[1]), variable("LARGE", ca.LONG, range(200_000)),
            *(variable(f"N{it:04}", values=[it]) for it in range(MANY))]


def connecting(room, up, server, library):
    channels = {name: library.channel(name) for name in up.variables if not name.startswith("N0")}
    for name, channel in channels.items():
        room.eventually(f"{name} connects", channel.is_connected)
        wanted = up.variables[name]
        room.equal(f"type, count and rights of {name}", channel.facts(), (wanted.base, wanted.count, True, True))
        room.equal(f"port of {name}'s server", channel.host().rpartition(":")[2], str(server.address[1]))
    lost = library.channel("MISSING")
    room.check("a name that isn't there doesn't connect", not room.wait(lost.is_connected, 1))
    lost.clear()
    return channels


def getting(room, up, channels):
    for base, values in NATIVE.items():
        name = ca.NAMES[base]
        up.give(name, values, status=3, severity=2)
        for form in FORMS:
            for count in (1, 2, 3):
                wanted = ca.payload_of(base + form, up.variables[name].value._replace(values=values[:count]), PROPERTIES[base])
                room.equal(f"get {count} of {name} in form {form}", channels[name].get(base + form, count)[:3], (ca.NORMAL, count, wanted))
        for asked in NATIVE:
            if asked != base:
                getting_as(room, up.variables[name], channels[name], asked)
        single = channels[f"ONE:{name}"]
        room.equal(f"get one {name}", ca.values_in(base, 1, single.get(base, 1)[2]), values[:1])
    large = channels["LARGE"].get(ca.LONG, 200_000)
    room.equal("get 200,000 elements", large[:2], (ca.NORMAL, 200_000))
    room.check("each of them", ca.values_in(ca.LONG, 200_000, large[2]) == list(range(200_000)))


def getting_as(room, own, channel, asked):
    """Values in another base, in each form; units and limits come along where that base has them."""
    for form in FORMS:
        label = f"{own.name} as {ca.NAMES[asked]} in form {form}"
        status, _, payload, _ = channel.get(asked + form, 3)
        good = (own.base, asked) in WIDER
        room.equal(f"get {label}", status, ca.NORMAL if good else ca.BADTYPE)
        if good:
            properties = ca.Properties() if own.base == ca.ENUM else own.properties
            wanted = ca.payload_of(asked + form, own.value._replace(values=own.as_type(asked, own.value.values)), properties)
            room.equal(f"what came of {label}", payload, wanted)


def putting(room, up, channels):
    for base, values in NATIVE.items():
        name = ca.NAMES[base]
        for count in (1, 2, 3):
            new = values[::-1][:count]
            room.equal(f"put {count} of {name}", channels[name].put(base, new), ca.NORMAL)
            wanted = ca.elements(base, new)
            room.equal(f"what came of {count} {name}", up.writes[-1][:3] + (up.writes[-1][3][:len(wanted)],), (name, base, count, wanted))
        room.equal(f"put one {name}", channels[f"ONE:{name}"].put(base, values[1:2]), ca.NORMAL)
        room.eventually("and read it", lambda: ca.values_in(base, 1, channels[f"ONE:{name}"].get(base, 1)[2]) == values[1:2])
    many = len(up.writes)
    room.equal("put without a callback", channels["V"].put_alone(ca.LONG, [5]), ca.NORMAL)
    room.eventually("comes", lambda: up.writes[many:] and up.writes[many][:2] == ("V", ca.LONG))
    room.equal("put as text", channels["V"].put(ca.STRING, ["1"]), ca.NORMAL)
    up.statuses["V"] = ca.PUTFAIL
    room.equal("a put that the server refuses", channels["V"].put(ca.LONG, [1]), ca.PUTFAIL)
    up.statuses.clear()
    large = list(range(200_000, 0, -1))
    room.equal("put 200,000 elements", channels["LARGE"].put(ca.LONG, large), ca.NORMAL)
    room.eventually("and read them", lambda: ca.values_in(ca.LONG, 200_000, channels["LARGE"].get(ca.LONG, 200_000)[2]) == large)


def states(room, up, channels):
    """What caput does with an ENUM and a text: it reads the texts, and writes one of them."""
    channel, texts = channels["ONE:ENUM"], PROPERTIES[ca.ENUM].states
    status, _, payload, _ = channel.get(ca.GR + ca.ENUM, 1)
    found = [payload[at:at + ca.STATE_TEXT].split(b"\0")[0].decode() for at in range(6, 6 + ca.STATES * ca.STATE_TEXT, ca.STATE_TEXT)]
    room.equal("the texts of states", (status, tuple(found[:len(texts)])), (ca.NORMAL, texts))
    for text in ("ON", "OFF"):
        room.equal(f"put {text}", channel.put(ca.STRING, [text]), ca.NORMAL)
        room.equal(f"{text} comes as text", up.writes[-1][:3], ("ONE:ENUM", ca.STRING, 1))
        room.eventually(f"and {text} is read", lambda: ca.values_in(ca.STRING, 1, channel.get(ca.STRING, 1)[2]) == [text])
    room.equal("its number", ca.values_in(ca.ENUM, 1, channel.get(ca.ENUM, 1)[2]), [0])


def describing(room, up, channels):
    """A subscription with PROPERTY is told new properties with the value that stands; one without isn't told of them."""
    channel = channels["ONE:DOUBLE"]
    own, dtype = up.variables["ONE:DOUBLE"], ca.CTRL + ca.DOUBLE
    told, silent = channel.watch(dtype, 1, ca.PROPERTY), channel.watch(dtype, 1, ca.VALUE)
    for seen in (told, silent):
        wanted = ca.payload_of(dtype, own.value, own.properties)
        room.eventually("it begins with value and properties", lambda: seen.seen and seen.seen[-1][2] == wanted)
    many = len(silent.seen)
    new = PROPERTIES[ca.DOUBLE]._replace(units="A", precision=4)
    up.tell_properties("ONE:DOUBLE", new)
    room.eventually("new properties are told", lambda: told.seen[-1][2] == ca.payload_of(dtype, own.value, new))
    up.give("ONE:DOUBLE", [4.5])
    room.eventually("and come with the next value", lambda: silent.seen[-1][2] == ca.payload_of(dtype, own.value, new))
    room.equal("once", len(silent.seen), many + 1)
    for seen in (told, silent):
        seen.clear()
    up.tell_properties("ONE:DOUBLE", PROPERTIES[ca.DOUBLE])


@functools.lru_cache(maxsize=None)
def python_of_pyepics():
    """The interpreter that has it: this one, or the system's."""
    tries = (subprocess.run([it, "-c", "import epics"], capture_output=True, check=False).returncode for it in PYTHONS)
    return next((it for it, status in zip(PYTHONS, tries) if status == 0), None)


def searching_at(server):
    return os.environ | {"EPICS_CA_ADDR_LIST": f"{server.address[0]}:{server.address[1]}", "EPICS_CA_AUTO_ADDR_LIST": "NO"}


def pyepics(room, up, server):
    """get_ctrlvars of each type, as pyepics tells it, and what it gives of an ENUM as text."""
    names = [f"ONE:{ca.NAMES[base]}" for base in NATIVE]
    words = [python_of_pyepics(), "-c", PYEPICS, *names]
    done = subprocess.run(words, env=searching_at(server), capture_output=True, timeout=120, check=False)
    told = json.loads(done.stdout) if done.returncode == 0 else {}
    room.check("pyepics ran", told, done.stderr.decode()[-400:])
    for base, name in zip(NATIVE, names):
        own, seen = up.variables[name].properties, told.get(name, {})
        if base == ca.ENUM:
            room.equal("enum_strs in pyepics", tuple(seen.get("enum_strs", ())), own.states)
            room.equal("an ENUM as text in pyepics", seen.get("text"), own.states[up.variables[name].value.values[0]])
        elif base != ca.STRING:
            room.equal(f"units of {name} in pyepics", seen.get("units"), own.units)
            limits = [seen.get(it, float("nan")) for it in PYEPICS_LIMITS]
            if base == ca.CHAR:  # which pyepics has with a sign
                limits = [it % 256 for it in limits]
            close = all(abs(a - b) <= 1e-6 * abs(b) for a, b in zip(limits, own.limits))
            room.check(f"limits of {name} in pyepics", close, limits)
        if base in (ca.FLOAT, ca.DOUBLE):
            room.equal(f"precision of {name} in pyepics", seen.get("precision"), own.precision)


def monitoring(room, up, channels):
    """A subscription with each mask; what clients want together changes, so a value may come anew at first."""
    channel = channels["V"]
    up.give("V", [0])
    watched = {mask: channel.watch(ca.TIME + ca.LONG, 1, mask) for mask in (1, 2, 4, 3, 5, 6, 7)}
    text = channel.watch(ca.STRING, 1, 1)
    for mask, seen in watched.items():
        room.eventually(f"mask {mask} begins with the value", lambda: seen.values()[-1:] == [[0]])
    up.give("V", [1])
    up.give("V", [2], severity=1, status=3)
    up.give("V", [3], severity=1, status=3)
    for mask, seen in watched.items():
        wanted = [[1], [2], [3]] if mask & 3 else [[2]]
        room.eventually(f"mask {mask} has its updates", lambda: seen.values()[-len(wanted):] == wanted)
    room.eventually("as text", lambda: text.values()[-1:] == [["3"]])
    for seen in [*watched.values(), text]:
        seen.clear()
    room.eventually("no subscription is left", lambda: up.subscriptions("V") == [])
    array = channels["DOUBLE"].watch(ca.TIME + ca.DOUBLE, 2, 5)
    up.give("DOUBLE", [4.5, 5.5, 6.5])
    room.eventually("two elements of an array", lambda: array.values()[-1:] == [[4.5, 5.5]])
    whole = channels["CHAR"].watch(ca.CHAR, 0, 1)
    up.give("CHAR", [9, 8])
    room.eventually("as many elements as there are", lambda: whole.values()[-1:] == [[9, 8]])
    array.clear()
    whole.clear()


def rights(room, up, server, channels):
    channel, large = channels["V"], channels["LARGE"]
    before = len(channel.rights)
    room.file("groups", "everyone READ\nlarge WRITE\n")
    server.write("reload")
    room.eventually("the write right goes", lambda: channel.rights[-1] == (True, False))
    room.equal("a put without it", channel.put(ca.LONG, [1]), ca.NOWTACCESS)
    room.check("no right of another group changes", large.rights[-1] == (True, True))
    room.file("groups", "everyone NONE\nlarge WRITE\n")
    server.write("reload")
    room.eventually("the read right goes", lambda: channel.rights[-1] == (False, False))
    room.equal("a get without it", channel.get(ca.LONG, 1)[0], ca.NORDACCESS)
    up.set_rights("V", 1)
    room.file("groups", "everyone WRITE\nlarge WRITE\n")
    server.write("reload")
    room.eventually("what the server leaves comes back", lambda: channel.rights[-1] == (True, False))
    up.set_rights("V", 3)
    room.eventually("all comes back", lambda: channel.rights[-1] == (True, True))
    room.check("each change is told once", len(channel.rights) - before <= 5, channel.rights[before:])


def reconnecting(room, up, server, channels):
    channel = channels["V"]
    seen = channel.watch(ca.LONG, 1, 1)
    up.give("V", [7])
    room.eventually("subscribed", lambda: seen.values()[-1:] == [[7]])
    up.stop()
    room.eventually("the server is lost, the channel disconnects", lambda: not channel.is_connected())
    up.start()
    room.eventually("the gateway is connected again", lambda: server.write("connect 1") or up.count_clients() == 1)
    room.eventually("the channel connects again by itself", channel.is_connected)
    up.give("V", [8])
    room.eventually("and so does its subscription", lambda: seen.values()[-1:] == [[8]])
    room.equal("and it is read", ca.values_in(ca.LONG, 1, channel.get(ca.LONG, 1)[2]), [8])
    room.equal("and written", channel.put(ca.LONG, [9]), ca.NORMAL)
    room.equal("the connection callback told each change", channel.changes, [libca.UP, libca.DOWN, libca.UP])
    seen.clear()


def many_names(room, library):
    names = [f"N{it:04}" for it in range(MANY)]
    many = [library.channel(name) for name in names]
    room.eventually(f"{MANY} names connect", lambda: all(it.is_connected() for it in many))
    # 256 reads of a client may wait at once.
    for at in range(0, MANY, 200):
        replies = [it.start_get(ca.LONG, 1) for it in many[at:at + 200]]
        seen = [it.wait() for it in replies]
        values = [ca.values_in(ca.LONG, 1, payload) for status, _, payload, _ in seen if status == ca.NORMAL]
        room.equal(f"{len(seen)} are read", values, [[at + it] for it in range(len(seen))])
    for it in many:
        it.clear()


def another_gateway(room, up, server, library, channels):
    """The gateway itself goes, and one at the same address comes."""
    room.equal("quit", server.quit(), 0)
    room.eventually("all disconnect", lambda: not any(it.is_connected() for it in channels.values()))
    again = Server(room.words(text_of(server.address), [text_of(up.address)], ".* ALLOW everyone\n", "everyone WRITE\n"))
    room.started.append(again.kill)
    room.eventually("all connect to the next one", lambda: all(it.is_connected() for it in channels.values()), 120)
    room.equal("and read from it", channels["V"].get(ca.LONG, 1)[0], ca.NORMAL)
    library.end()
    room.equal("quit again", again.quit(), 0)


def by_name_server(room, up, repeater):
    """The library searches on its connection to the gateway alone, also for what nobody sought before."""
    server = room.server(up, options=["--site"])
    library = libca.Library(server.address, repeater, by_datagram=False)
    channel = library.channel("V")
    room.eventually("a channel connects without a datagram", channel.is_connected)
    room.equal("get", channel.get(ca.LONG, 1)[0], ca.NORMAL)
    room.equal("put", channel.put(ca.LONG, [11]), ca.NORMAL)
    seen = channel.watch(ca.LONG, 1, 1)
    up.give("V", [12])
    room.eventually("monitor", lambda: seen.values()[-1:] == [[12]])
    many = [library.channel(f"N{it:04}") for it in range(MANY)]
    room.eventually(f"{MANY} names connect", lambda: all(it.is_connected() for it in many))
    lost = library.channel("MISSING")
    room.check("a name that isn't there doesn't connect", not room.wait(lost.is_connected, 1))
    room.equal("nothing that it complains of", library.exceptions, [])
    library.end()
    room.equal("quit by order", server.quit(), 0)


def by_search(room, up, repeater):
    """The library on one net, and on another a server of which no word of the command line says where it is."""
    address = ("127.1.0.1", free_port())
    server = Server(room.words(text_of(address), [], options=["--search", text_of(up.address), "--from", "127.0.0.0/16", "--site"]))
    room.started.append(server.kill)
    room.eventually("it listens on one net", lambda: server.printed == [f"listening {text_of(address)}"])
    library = libca.Library(address, repeater)
    channel = library.channel("V")
    room.eventually("a channel connects to what was found", channel.is_connected)
    room.equal("by the gateway's address", channel.host(), text_of(address))
    room.equal("put to what was found", channel.put(ca.LONG, [21]), ca.NORMAL)
    room.equal("get what was put", ca.values_in(ca.LONG, 1, channel.get(ca.LONG, 1)[2]), [21])
    many = [library.channel(f"N{it:04}") for it in range(MANY)]
    room.eventually(f"{MANY} names are found", lambda: all(it.is_connected() for it in many))
    room.equal("no complaint of what was found", library.exceptions, [])
    library.end()
    room.equal("quit of the gateway that searches", server.quit(), 0)


def by_other_port(room, up, repeater):
    """Where the library searches on its connection to a LISTEN of another port, it stays on that connection."""
    first, other = (("127.0.0.1", free_port()) for _ in range(2))
    server = gateway(room, text_of(first), text_of(up.address), "--site", "--listen", text_of(other))
    library = libca.Library(other, repeater, by_datagram=False)
    channel = library.channel("V")
    room.eventually("a channel connects by the other port", channel.is_connected)
    room.check("and there", channel.host().endswith(f":{other[1]}"), channel.host())
    room.equal("get by the other port", channel.get(ca.LONG, 1)[0], ca.NORMAL)
    room.equal("nothing is complained of there", library.exceptions, [])
    library.end()
    room.equal("quit of the one with two ports", server.quit(), 0)


def access_for(user):
    """A file by which one user may write, from this host."""
    return (f'UAG(ops) {{"{user}"}}\nHAG(here) {{"{socket.gethostname()}"}}\n'
            "ASG(DEFAULT) {\n    RULE(1, READ)\n    RULE(1, WRITE) {UAG(ops) HAG(here)}\n}\n")


def by_user(room, up, repeater):
    """Rights go by the user that the library says, and change at a reload. Root runs a second client, of another user."""
    own, rights = pwd.getpwuid(os.getuid()).pw_name, ((True, False), (True, True))
    server = room.server(up, options=["--access", room.file("access", access_for(own))])
    library = libca.Library(server.address, repeater)
    channel = library.channel("V")
    room.eventually("a channel connects", channel.is_connected)
    room.eventually("its user may write", lambda: channel.rights[-1:] == [rights[1]])
    room.equal("and does", channel.put(ca.LONG, [1]), ca.NORMAL)
    other = OtherUser("nobody", server, repeater, "V") if os.getuid() == 0 else None
    if other:
        room.eventually("that of another user connects", lambda: other.ask("connected"))
        room.equal("the other user may only read", other.ask("rights"), [list(rights[0])])
        room.equal("its write is refused", other.ask("put"), ca.NOWTACCESS)
    for user, mine in (("nobody", 0), (own, 1), ("nobody", 0)):
        room.file("access", access_for(user))
        server.write("reload")
        room.eventually(f"a reload for {user} is told", lambda: channel.rights[-1] == rights[mine])
        room.equal(f"a write after it, for {user}", channel.put(ca.LONG, [2]), ca.NORMAL if mine else ca.NOWTACCESS)
        if other:
            room.eventually(f"the other user is told of {user}", lambda: other.ask("rights")[-1] == list(rights[1 - mine]))
            room.equal(f"and writes, for {user}", other.ask("put"), ca.NOWTACCESS if mine else ca.NORMAL)
    room.equal("each change is told once", channel.rights, [rights[it] for it in (1, 0, 1, 0)])
    room.equal("nothing is complained of", library.exceptions, [])
    if other:
        other.end()
    library.end()
    room.equal("quit at last", server.quit(), 0)


class EpicsUser:
    """A channel of pyepics in a process of its own; one question and its answer at a time."""

    def __init__(self, server, user, name):
        words = [python_of_pyepics(), "-c", PYEPICS_ACCESS, user, name]
        self.process = subprocess.Popen(words, env=searching_at(server), stdin=subprocess.PIPE, stdout=subprocess.PIPE, text=True)

    def ask(self, word):
        print(word, file=self.process.stdin, flush=True)
        return json.loads(self.process.stdout.readline() or "null")

    def end(self):
        self.process.stdin.close()
        self.process.wait(libca.PATIENCE)
        self.process.stdout.close()


def by_user_in_pyepics(room, up):
    """pyepics tells rights by the user, and each change of them at a reload; a write without the right isn't done."""
    own = pwd.getpwuid(os.getuid()).pw_name
    server = room.server(up, options=["--access", room.file("access", access_for(own))])
    users = [(EpicsUser(server, "", "V"), own)] + ([(EpicsUser(server, "nobody", "V"), "nobody")] if os.getuid() == 0 else [])
    for user, name in users:
        room.check(f"{name} connects in pyepics", user.ask("connect"))
        room.eventually(f"rights of {name} in pyepics", lambda: user.ask("rights")[1:] == [True, name == own])
    for writer in ("nobody", own):
        many = len(up.writes)
        for user, name in users:
            room.equal(f"a write of {name} in pyepics, which {'is' if name == own else 'is not'} done", user.ask("put") == 1, name == own)
        room.equal(f"so only writes of {own} came", len(up.writes), many + sum(name == own for _, name in users))
        room.file("access", access_for(writer))
        server.write("reload")
        own = writer
        for user, name in users:
            room.eventually(f"{name} is told of {writer} in pyepics", lambda: user.ask("rights")[0][-1:] == [[True, name == writer]])
    for user, _ in users:
        user.end()
    room.equal("quit of the gateway of users", server.quit(), 0)


def run(room, repeater):
    up = room.upstream(*variables())
    server = room.server(up, rules=".* ALLOW everyone\nLARGE ALLOW large\n", groups="everyone WRITE\nlarge WRITE\n")
    library = libca.Library(server.address, repeater)
    channels = connecting(room, up, server, library)
    getting(room, up, channels)
    putting(room, up, channels)
    states(room, up, channels)
    describing(room, up, channels)
    if python_of_pyepics():
        pyepics(room, up, server)
    monitoring(room, up, channels)
    rights(room, up, server, channels)
    reconnecting(room, up, server, channels)
    many_names(room, library)
    another_gateway(room, up, server, library, channels)
    room.equal("nothing that the library complains of", library.exceptions, [])
    by_name_server(room, up, repeater)
    by_other_port(room, up, repeater)
    by_search(room, up, repeater)
    by_repeater(room, REPEATER)
    by_user(room, up, repeater)
    if python_of_pyepics():
        by_user_in_pyepics(room, up)


def main():
    program = os.path.abspath(sys.argv[1] if len(sys.argv) > 1 else os.path.join(ROOT, "crates", "pvgate", "out", "pvgate"))
    if not libca.is_installed():
        print("clients: skipped, since libca 4.13.5 and libCom 3.17.6 (Debian's libca4.13.5, libcom3.17.6) aren't installed")
        return 0
    if not os.access(program, os.X_OK):
        sys.exit(f"{program} isn't built")
    watchdog = threading.Timer(LONGEST, lambda: (print("clients: not done in time", flush=True), room.end(), os._exit(1)))
    watchdog.daemon = True
    watchdog.start()
    room = Room(program)
    with socket.socket(socket.AF_INET, socket.SOCK_DGRAM) as repeater:  # so that the library starts none
        repeater.bind(("127.0.0.1", 0))
        try:
            run(room, repeater.getsockname()[1])
        except Exception:
            room.check("it ran to its end", False, traceback.format_exc(limit=-4))
        room.end()
    print(f"clients: {room.passed} passed, {len(room.failed)} failed", flush=True)
    # The library's threads may still be about; nothing of them is needed.
    os._exit(1 if room.failed else 0)


if __name__ == "__main__":
    sys.exit(main())
