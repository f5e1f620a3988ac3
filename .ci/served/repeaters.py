"""libca with the repeater that it starts: this hands beacons of servers on to the gateway, and those of the gateway to clients."""
import json
import os
import socket
import struct
import subprocess
import sys
import threading
import time

sys.dont_write_bytecode = True
sys.path.insert(0, os.path.join(os.path.dirname(os.path.abspath(__file__)), ".."))
import served  # noqa: E402,F401  (sets the path to examples/)
import ca_wire as ca  # noqa: E402
from served import libca  # noqa: E402
from served.asking import Hearer  # noqa: E402
from served.beacons import BEACON, REPEATER  # noqa: E402
from served.room import Server, free_port, text_of, variable  # noqa: E402

# libca starts a program of this name, which is the library's own repeater; packages of the library alone have none.
PROGRAM = "caRepeater"
TEXT = f"""#!{sys.executable}
import ctypes
for name in {libca.LIBRARIES!r}:
    library = ctypes.CDLL(name, ctypes.RTLD_GLOBAL)
getattr(library, "_Z11ca_repeaterv")()  # C++, as the library has it
"""
GROWN = 12  # seconds that the gap between two searches has at least: the next would come 16 seconds after the last, or 33
SOON = 10  # libca searches within 8.2 seconds of a beacon that tells news


class Searcher:
    """A program of libca that looks for a name at some addresses, and starts its repeater."""

    def __init__(self, room, addresses, name):
        self.program = room.file(PROGRAM, TEXT)
        os.chmod(self.program, 0o755)
        words = [sys.executable, "-B", os.path.abspath(__file__), " ".join(map(text_of, addresses)), name]
        paths = os.environ | {"PATH": f"{room.folder}:{os.environ['PATH']}"}
        self.process = subprocess.Popen(words, env=paths, stdin=subprocess.PIPE, stdout=subprocess.PIPE, text=True, start_new_session=True)
        room.started.append(self.end)

    def is_connected(self):
        print(file=self.process.stdin, flush=True)
        return json.loads(self.process.stdout.readline() or "null")

    def end(self):
        """Ends it, and the repeater that it started, which by itself goes on; no other one of this host."""
        subprocess.run(["pkill", "-f", self.program], check=False)
        self.process.stdin.close()
        self.process.wait(libca.PATIENCE)
        self.process.stdout.close()


def is_taken():
    with socket.socket(socket.AF_INET, socket.SOCK_DGRAM) as it:
        try:
            it.bind(("", REPEATER))
        except OSError:
            return True
    return False


def hearing(room, hearer):
    """A beacon that comes by libca's repeater has a dead name asked for sooner."""
    server = room.server(options=("--search", text_of(hearer.address), "--from", "10.0.0.0/8", "--hear-beacons"))
    room.client(server).search("DEAD")
    room.eventually("a dead name is asked for six times", lambda: len(hearer.times("DEAD")) >= 6)
    last = hearer.times("DEAD")[5]
    with socket.socket(socket.AF_INET, socket.SOCK_DGRAM) as it:
        it.sendto(struct.pack(">HHHHII", BEACON, 0, ca.MINOR, 5064, 3, 0x0A000007), ("127.0.0.1", REPEATER))
    room.eventually("it is asked for again", lambda: len(hearer.times("DEAD")) >= 7)
    room.check("within 8.2 seconds, not 16", hearer.times("DEAD")[6] - last < 12, hearer.times("DEAD")[6] - last)
    room.equal("quit of the gateway that hears", server.quit(), 0)


def sending(room, up, address, hearer, searcher):
    """A program whose search gap has grown looks for its name as soon as the gateway's beacons come."""
    def gap():
        times = hearer.times("LATE")
        return times[-1] - times[-2] if len(times) > 1 else 0
    room.eventually("the program's search gap grows", lambda: gap() > GROWN, 120)
    count, began = len(hearer.times("LATE")), time.monotonic()
    server = Server(room.words(text_of(address), [text_of(up.address)], options=["--beacons", f"127.0.0.1:{REPEATER}", "--late"]))
    room.started.append(server.kill)
    room.eventually("it searches", lambda: len(hearer.times("LATE")) > count)
    room.check("sooner than its gap says", hearer.times("LATE")[count] - began < SOON, hearer.times("LATE")[count] - began)
    room.eventually("and connects", searcher.is_connected)
    room.check("as soon", time.monotonic() - began < SOON + 2, time.monotonic() - began)
    room.equal("quit of the gateway that sends", server.quit(), 0)


def by_repeater(room, port):
    """Both ways, side by side: gaps take half a minute to grow."""
    if is_taken():
        print(f"clients: nothing is tried of libca's repeater, since port {port} is taken")
        return
    up, near, far = room.upstream(variable("LATE", values=[1])), Hearer(room), Hearer(room)
    address = ("127.0.0.1", free_port())
    searcher = Searcher(room, (near.address, address), "LATE")
    room.eventually("libca's repeater stands", is_taken)
    other = threading.Thread(target=hearing, args=(room, far))
    other.start()
    sending(room, up, address, near, searcher)
    other.join()
    searcher.end()
    room.started.remove(searcher.end)


def main():
    addresses, name = sys.argv[1:]
    first, _, others = addresses.partition(" ")
    host, _, port = first.rpartition(":")
    channel = libca.Library((host, f"{port} {others}"), REPEATER).channel(name)
    for _ in sys.stdin:
        print(json.dumps(channel.is_connected()), flush=True)
    os._exit(0)  # the library's threads may still be about


if __name__ == "__main__":
    main()
