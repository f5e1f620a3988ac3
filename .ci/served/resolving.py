"""Hosts that rule files name, by a resolver that answers as a story says: with --check-host."""
import os
import shutil
import socket
import subprocess
import time

import ca_wire as ca
from served.access import ACCESS, RULES, rights, started

KEPT = "host far.lab has no address now: it keeps those that it had"
UNKNOWN = "host far.lab has no address: no client counts as it"
LATE = "1 of the hosts got no answer in time: each keeps the addresses that it had"
NOBODY = "127.0.0.97"  # where no name server is
MUTE = "127.0.0.98"  # where one says nothing
BOUND = 10  # seconds for all look-ups together

# The program sees these files in place of the system's, and nobody else does.
WRAPPER = """#!/bin/sh
[ "$RESOLVING" ] || RESOLVING=1 exec unshare -m "$0" "$@"
for it in hosts resolv.conf nsswitch.conf; do mount --bind {folder}/$it /etc/$it || exit 9; done
exec {program} "$@"
"""


class Names:
    """What the system of a story's gateways knows of hosts."""

    def __init__(self, room, resolver=NOBODY):
        self.room = room
        self.say()
        room.file("resolv.conf", f"nameserver {resolver}\noptions timeout:30 attempts:1\n")
        room.file("nsswitch.conf", "hosts: files dns\n")
        wrapper = room.file("wrapped", WRAPPER.format(folder=room.folder, program=room.program))
        os.chmod(wrapper, 0o755)
        self.is_there = shutil.which("unshare") is not None and subprocess.run([wrapper, "--version"], capture_output=True).returncode == 0
        if self.is_there:
            room.program = wrapper
        else:
            print("skipped: no file can be mounted for the program alone, as by root")

    def say(self, **hosts):
        """From now on these are the hosts, by the names before .lab, and no other is found."""
        self.room.file("hosts", "127.0.0.1 localhost\n" + "".join(f"{address} {name}.lab\n" for name, address in hosts.items()))


def is_cut(client):
    return client.take(lambda it: it.command == ca.SERVER_DISCONN) is not None


def reloaded(room, server, times):
    server.write("reload")
    room.eventually(f"reload {times} is logged", lambda: sum("reload: " in line for line in list(server.logged)) == times)


def keeping_hosts(room):
    """A host that isn't found at a reload keeps its addresses, for rights and for DENY FROM, until it is found or not named."""
    names = Names(room)
    if not names.is_there:
        return
    names.say(far="127.0.0.2")
    access, rules = ACCESS.replace("desk1, DESK3", "Far.lab"), RULES + "V DENY FROM far.lab\n"
    _, server = started(room, access, "--check-host", rules=rules)
    near, far = room.client(server, user="anna"), room.client(server, "desk2", "127.0.0.2", user="anna")
    room.equal("at the start", (rights(near, "V", "M"), rights(far, "M"), far.try_open("V")), ([1, 1], [3], None))
    names.say()
    for times in (1, 2):
        reloaded(room, server, times)
        room.eventually(f"it is told at reload {times}", lambda: sum(KEPT in line for line in list(server.logged)) == times)
        room.equal(f"all is as before after reload {times}", (rights(near, "V", "M"), rights(far, "M"), far.try_open("V")), ([1, 1], [3], None))
    names.say(far="127.0.0.1")
    reloaded(room, server, 3)
    room.check("where it moved to it is refused", is_cut(near) and near.try_open("V") is None)
    room.equal("and has its rights, which others lost", (rights(near, "M"), far.open("V").rights, rights(far, "M")), ([3], 1, [1]))
    room.file("rules", RULES)
    room.file("access", ACCESS)
    names.say()
    reloaded(room, server, 4)
    room.equal("where it isn't named it doesn't count", (rights(near, "V", "M"), server.has_logged(UNKNOWN)), ([1, 1], False))
    room.file("rules", rules)
    reloaded(room, server, 5)
    room.eventually("named again it isn't known", lambda: server.has_logged("WARN", UNKNOWN))
    room.check("so it isn't refused", near.try_open("V") is not None)
    room.equal("quit", server.quit(), 0)


def finding_hosts(room):
    """A host that isn't found at the start is nobody, which is told, until a reload finds it."""
    names = Names(room)
    if not names.is_there:
        return
    _, server = started(room, ACCESS.replace("desk1, DESK3", "far.lab"), "--check-host", rules=RULES + "V DENY FROM far.lab\n")
    room.eventually("it is told", lambda: server.has_logged("WARN", UNKNOWN))
    far = room.client(server, "desk2", "127.0.0.2", user="anna")
    room.equal("it is nobody", rights(far, "V", "M"), [1, 1])
    names.say(far="127.0.0.2")
    reloaded(room, server, 1)
    room.check("found, it is refused", is_cut(far) and far.try_open("V") is None)
    room.equal("and has its rights", rights(far, "M"), [3])
    room.check("no address was kept", not server.has_logged(KEPT))
    room.equal("quit", server.quit(), 0)


def waiting_for_hosts(room):
    """Where the resolver says nothing a reload ends all the same, and takes nothing away; other hosts are found meanwhile."""
    names = Names(room, MUTE)
    if not names.is_there:
        return
    with socket.socket(socket.AF_INET, socket.SOCK_DGRAM) as mute:
        try:
            mute.bind((MUTE, 53))
        except OSError as fault:
            print(f"skipped: port 53 can't be had: {fault}")
            return
        names.say(far="127.0.0.2")
        access, rules = ACCESS.replace("desk1, DESK3", "near.lab, far.lab"), RULES + "V DENY FROM far.lab\n"
        _, server = timed(room, "the start", lambda: started(room, access, "--check-host", rules=rules))
        near, far = room.client(server, user="anna"), room.client(server, "desk2", "127.0.0.2", user="anna")
        room.equal("at the start", (rights(near, "V", "M"), rights(far, "M"), far.try_open("V")), ([1, 1], [3], None))
        names.say(near="127.0.0.1")
        timed(room, "the reload", lambda: reloaded(room, server, 1))
        room.equal("each time it is counted who wasn't answered for", sum(LATE in line for line in list(server.logged)), 2)
        room.equal("he keeps his addresses, and another one is found", (rights(near, "V", "M"), rights(far, "M"), far.try_open("V")), ([1, 3], [3], None))
        room.equal("quit", server.quit(), 0)


def timed(room, label, do):
    """Does what the resolver holds up."""
    began = time.monotonic()
    done = do()
    took = time.monotonic() - began
    room.check(f"{label} ends in time", BOUND - 1 < took < BOUND + 15, took)
    return done
