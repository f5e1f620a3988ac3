"""What `make install` and `make dist` make: the program serves as the units start it, by a FIFO, and does by itself what the sample says."""
import os
import subprocess

from served.room import PATIENCE, Server, free_port, text_of, variable

ROOT = os.path.join(os.path.dirname(os.path.abspath(__file__)), "..", "..")
ORDERS = "/run/pvgate.orders"
FILES = ("bin/pvgate", "share/man/man1/pvgate.1", "share/bash-completion/completions/pvgate", "share/doc/pvgate/LICENSE-MIT",
         "share/doc/pvgate/LICENSE-APACHE", "share/pvgate/arguments", "share/pvgate/tools/explain.py", "share/pvgate/examples/ca.py",
         "share/pvgate/examples/site.pvlist", "share/pvgate/examples/first.replay",
         *(f"lib/systemd/system/pvgate{it}" for it in (".service", ".socket", "-connect.service", "-connect.timer", "-sweep.service", "-sweep.timer")))


def run(*words, **options):
    done = subprocess.run(words, stdin=subprocess.DEVNULL, stdout=subprocess.PIPE, stderr=subprocess.STDOUT, timeout=2 * PATIENCE, **options)
    return done.returncode, done.stdout.decode(errors="replace")


def make(room, *words):
    status, said = run("make", "-s", *words, f"PROGRAM={room.program}", cwd=ROOT)
    return room.check(f"make {words[0]}", status == 0, said)


class Installed:
    """What was installed below a folder."""

    def __init__(self, folder):
        self.folder, self.usr, self.orders = folder, f"{folder}/usr", f"{folder}/orders"

    def unit(self, name, key):
        """What a unit says behind this key, with the FIFO in this folder."""
        with open(f"{self.usr}/lib/systemd/system/{name}") as file:
            found = next(line for line in file if line.startswith(f"{key}="))
        return found.partition("=")[2].strip().replace(ORDERS, self.orders).replace("%%", "%")

    def arguments(self, listen, upstream):
        """Those of the sample, with other addresses and the files of the examples."""
        with open(f"{self.usr}/share/pvgate/arguments") as file:
            said = next(line for line in file if line.startswith("PVGATE_SERVE=")).removeprefix("PVGATE_SERVE=").split()
        moved = {"0.0.0.0:5064": listen, "10.0.1.20:5064": upstream}
        moved |= {f"/etc/pvgate/{name}": f"{self.usr}/share/pvgate/examples/site.{name}" for name in ("pvlist", "groups")}
        return [moved.get(word, word) for word in said]

    def write(self, name, key="ExecStart"):
        """Runs the line by which a unit writes orders."""
        shell, option, script = self.unit(name, key).lstrip("+").split(" ", 2)
        return run(shell, option, script.strip("'"))


def packaged(room):
    if not make(room, "install", f"DESTDIR={room.folder}", "PREFIX=/usr"):
        return
    it = Installed(room.folder)
    found = sorted(os.path.relpath(os.path.join(folder, name), it.usr) for folder, _, names in os.walk(it.usr) for name in names)
    room.equal("nothing is missing", [name for name in FILES if name not in found], [])
    serving(room, it)
    reading(room, it)
    archived(room)


def started(room, it, upstream):
    """The program as the service starts it: it has the FIFO open both ways, so its end never comes."""
    address = ("127.0.0.1", free_port())
    arguments = it.arguments(text_of(address), text_of(upstream.address))
    program, command, rest = it.unit("pvgate.service", "ExecStart").split(" ", 2)
    room.equal("the service starts what was installed", (program, command, rest), ("/usr/bin/pvgate", "serve", "$PVGATE_SERVE"))
    orders = os.open(it.orders, os.O_RDWR)
    server = Server([it.folder + program, command, *arguments], stdin=orders)
    os.close(orders)
    server.address = address
    room.started.append(server.kill)
    room.eventually("it listens", lambda: server.printed == [f"listening {text_of(address)}"])
    return server


def serving(room, it):
    os.mkfifo(it.orders, 0o600)
    room.equal("the socket makes the FIFO", it.unit("pvgate.socket", "ListenFIFO"), it.orders)
    up = room.upstream(variable("S01:MAG:Q1:SP", values=[7]))
    server = started(room, it, up)
    client = room.client(server)
    channel = client.open("S01:MAG:Q1:SET")
    room.equal("it serves by the sample's rules", channel and client.values(channel), [7])
    room.equal("ExecReload", it.write("pvgate.service", "ExecReload")[0], 0)
    room.eventually("the rules are read again", lambda: server.has_logged("reload: the new rules hold"))
    room.equal("the timers' lines", (it.write("pvgate-sweep.service")[0], it.write("pvgate-connect.service")[0]), (0, 0))
    up.stop()
    room.eventually("the server is lost", lambda: server.has_logged("upstream 1", "lost"))
    up.start()
    room.eventually("it is connected again by itself", lambda: sum("upstream 1" in line and line.endswith("connected") for line in list(server.logged)) == 2)
    again = client.open("S01:MAG:Q1:SET")
    room.equal("the value is back", again and client.values(again), [7])
    room.check("the ends of the writers weren't the end of its input", server.process.poll() is None)
    with open(it.orders, "w") as orders:
        orders.write("quit\n")
    room.equal("quit", server.status(), 0)


def reading(room, it):
    """What was installed beside the program."""
    share = f"{it.usr}/share/pvgate"
    status, said = run("bash", "-c", f"'{it.usr}/bin/pvgate' replay < {share}/examples/first.replay | {share}/tools/explain.py")
    with open(f"{share}/examples/first.explained") as file:
        room.equal("an example, explained", (status, said), (0, file.read()))
    status, said = run("bash", "-c", f". {it.usr}/share/bash-completion/completions/pvgate && complete -p pvgate")
    room.check("the completion", status == 0 and "_pvgate" in said, said)
    with open(f"{it.usr}/share/man/man1/pvgate.1") as file:
        room.check("the manual page", ".TH PVGATE 1" in file.read())


def archived(room):
    out = f"{room.folder}/out"
    os.mkdir(out)
    if make(room, "dist", f"OUT={out}", "PREFIX=/usr"):
        name = next((it for it in os.listdir(out)), "")
        room.check("the archive alone is left", os.listdir(out) == [name] and name.endswith("-linux-x86_64.tar.gz"), os.listdir(out))
        room.equal("it is unpacked", run("tar", "-C", out, "-xzf", f"{out}/{name}"), (0, ""))
        status, said = run(f"{out}/{name.removesuffix('.tar.gz')}/usr/bin/pvgate", "--version")
        room.check("its program runs", status == 0 and said.startswith("pvgate "), said)
