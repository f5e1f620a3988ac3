"""What the gateway tells of itself, one line of JSON to whoever connects to the address of --status."""
import json
import socket
import subprocess

from served.room import free_port, text_of, variable

KEYS = ["clients", "upstreams", "channels", "links", "subscriptions", "reads_waiting", "writes_waiting", "names_remembered", "edits",
        "messages_in", "messages_out", "largest_outbox_bytes", "limits"]
LIMITS = {"names_remembered": 4096, "channels_of_a_client": 4096, "subscriptions_of_a_client": 8192, "reads_of_a_client": 256,
          "writes_of_a_client": 256, "links": 65536, "clients": 1024, "messages_before_updates_are_held": 4096, "messages_of_a_connection": 16384}


def told(address, request=b""):
    """All that comes on a connection, until its end."""
    with socket.create_connection(address, 60) as peer:
        if request:
            peer.sendall(request)
        found = b""
        while piece := peer.recv(65_536):
            found += piece
        return found


def figures(address, *names):
    found = json.loads(told(address))
    return [found[it] for it in names]


def reporting(room):
    up = room.upstream(variable("V", values=[1]), variable("W", values=[2]))
    up.statuses["W"] = None
    address = ("127.0.0.1", free_port())
    nobody = f"127.0.0.1:{free_port()}"
    server = room.server(up, Nobody(nobody), rules=".* ALLOW\n", options=["--status", text_of(address)])
    room.eventually("the server is connected", lambda: json.loads(told(address))["upstreams"][0]["connected"])
    line = told(address)
    room.check("it is one line", line.endswith(b"}\n") and line.count(b"\n") == 1, line)
    found = json.loads(line)
    room.equal("its keys, in order", list(found), KEYS)
    servers = [{"number": 1, "address": text_of(up.address), "connected": True}, {"number": 2, "address": nobody, "connected": False}]
    room.equal("servers", found["upstreams"], servers)
    # The greeting of the first server may be on its way still.
    limits = {it: {"used": 0, "most": most, "met": 0} for it, most in LIMITS.items()}
    room.eventually("limits", lambda: json.loads(told(address))["limits"] == limits)
    room.equal("nothing is there yet", [found[it] for it in KEYS[2:9]] + [found["clients"]], [0] * 8)
    client, other = room.client(server), room.client(server)
    one, two = client.open("V"), client.open("W")
    other.open("V")
    client.watch(one), client.watch(one), other.echo(), client.echo()
    client.start_write(two, [5])
    room.eventually("the write waits", lambda: len(up.writes) == 1)
    # (each name is looked for by datagram from one host, and then in a CREATE_CHAN of another)
    counted = [3, 2, 2, 0, 1, 4, 2]
    room.wait(lambda: figures(address, *KEYS[2:8], "clients") == counted)
    room.equal("rows are counted", figures(address, *KEYS[2:8], "clients"), counted)
    before = json.loads(told(address))
    room.equal("limits are used", [it["used"] for it in before["limits"].values()][:7], [4, 2, 2, 0, 1, 2, 2])
    room.check("messages are counted", before["messages_in"] > found["messages_in"] and before["messages_out"] > found["messages_out"])
    for _ in range(100):
        client.echo()
    after = json.loads(told(address))
    more = [after[it] - before[it] for it in ("messages_in", "messages_out")]
    room.check("each message once", all(100 <= it <= 110 for it in more), more)
    server.write("reload", "reload")
    room.eventually("edits are counted", lambda: figures(address, "edits") == [2])
    with socket.create_connection(address, 60):
        room.check("who connects first and reads nothing is in nobody's way", told(address))
    client.close(), other.close()
    room.eventually("nothing stays of clients", lambda: figures(address, "clients", "channels", "subscriptions", "writes_waiting") == [0] * 4)
    room.equal("quit", server.quit(), 0)


class Nobody:
    """The address of a server that isn't there."""

    def __init__(self, text):
        host, _, port = text.partition(":")
        self.address = (host, int(port))


def reporting_nowhere(room):
    """An address that another program listens on ends the gateway before it listens."""
    up = room.upstream(variable("V"))
    with socket.create_server(("127.0.0.1", 0)) as taken:
        words = room.words("127.0.0.1:0", [text_of(up.address)], options=["--status", text_of(taken.getsockname())])
        ran = subprocess.run(words, stdin=subprocess.DEVNULL, capture_output=True, timeout=60)
    room.equal("its status, and that it printed nothing", (ran.returncode, ran.stdout), (3, b""))
    room.check("it says why", b"the address of --status can't be listened on: " in ran.stderr, ran.stderr)
