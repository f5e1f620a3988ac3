"""Orders that are repeated without anybody writing them, and what is logged at each level."""
import time

from served.idlers import threads
from served.room import text_of, variable
from served.servers import Deaf


def count(server, *words):
    return sum(all(word in line for word in words) for line in list(server.logged))


def reconnecting(room):
    """A server that isn't there at the start, comes, dies and comes back, with nobody at the console."""
    up = room.upstream(variable("V", values=[1]))
    up.stop()
    server = room.server(up, options=("--reconnect", "1", "--log", "debug"))
    client = room.client(server)
    room.check("a name that nobody serves yet", client.try_open("V") is None)
    outage(room, server, 1)
    up.start()
    room.eventually("it is connected once it is there", lambda: count(server, "upstream 1", "connected") == 1)
    room.eventually("what a client looked for is asked for, without a search", lambda: len(up.channels) == 1)
    for times in (2, 3):
        channel = client.open("V")
        own = client.watch(channel)
        room.equal("subscribed", client.update(own), [1])
        up.stop()
        room.eventually("the loss is logged", lambda: count(server, "upstream 1", "lost", "connect 1") == times - 1)
        outage(room, server, times)
        up.start()
        room.eventually("it is connected again", lambda: count(server, "upstream 1", "connected") == times)
    channel = client.open("V")
    room.equal("read again", channel and client.values(channel), [1])
    stays(room, server, up)
    ordered(room, server, up)
    room.equal("quit", server.quit(), 0)


def outage(room, server, times):
    """It is tried again and again, and that is logged once for each loss, but for those who look for a cause."""
    again = count(server, "still can't be reached")
    room.eventually("a first try fails", lambda: count(server, "WARN", "can't be reached") == times)
    room.eventually("and others", lambda: count(server, "[DEBUG pvgate] upstream 1", "still can't be reached") >= again + 2)
    room.equal("one is told of", count(server, "WARN", "can't be reached"), times)


def stays(room, server, up):
    """A connection that stands stays, and waiting costs next to nothing."""
    tried, used = count(server, "reached"), server.processor()
    time.sleep(5)
    room.equal("a server that is connected isn't tried", (up.count_clients(), count(server, "reached")), (1, tried))
    room.check("it doesn't spin", server.processor() - used < 0.5, f"{server.processor() - used:.2f} s of 5")


def ordered(room, server, up):
    """Who writes `connect 1` is always answered."""
    up.stop()
    room.eventually("a last loss", lambda: count(server, "still can't be reached") > 0 and count(server, "lost") == 3)
    warned = count(server, "WARN", "can't be reached")
    room.eventually("each try that is ordered is told", lambda: server.write("connect 1") or count(server, "WARN", "can't be reached") > warned + 2)


def unrepeated(room):
    """Without the option nobody tries; with it a server that never answers is tried by one thread at a time."""
    up = room.upstream(variable("V", values=[1]))
    up.stop()
    server = room.server(up)
    room.eventually("it isn't there", lambda: count(server, "can't be reached") == 1)
    up.start()
    time.sleep(3)
    room.equal("it isn't tried again", (up.count_clients(), count(server, "reached")), (0, 1))
    server.write("connect 1")
    room.eventually("but by a line", lambda: up.count_clients() == 1)
    room.equal("quit", server.quit(), 0)
    server = room.server(Deaf(room), up, options=("--reconnect", "1"))
    room.eventually("the other server is there", lambda: count(server, "INFO", "upstream 2", "connected") == 1)
    time.sleep(1)
    running = threads(server)
    time.sleep(3)
    room.equal("one thread waits for the one that never answers", threads(server), running)
    room.equal("quit, beside it", server.quit(), 0)


def sweeping(room):
    """A dead name is forgotten by itself, and comes again when it is looked for again."""
    up = room.upstream(variable("V", values=[1]))
    server = room.server(up, options=("--sweep", "2", "--log", "debug"))
    client = room.client(server)
    channel = client.open("V")
    for _ in range(2):
        asked = count(server, "names asked for: 1")
        room.eventually("a dead name is asked for",
                        lambda: client.try_open("DEAD") or server.write("ask") or count(server, "names asked for: 1") > asked)
        swept(room, server)
        asked = count(server, "names asked for")
        server.write("ask", "a barrier")
        room.eventually("the order was performed", lambda: client.echo() and server.has_logged("no order"))
        swept(room, server)
        room.equal("it is forgotten", count(server, "names asked for"), asked)
    room.equal("a channel that stands stays", client.values(channel), [1])
    room.equal("quit", server.quit(), 0)


def swept(room, server):
    times = count(server, "[DEBUG pvgate] swept")
    room.eventually("a sweep", lambda: count(server, "[DEBUG pvgate] swept") > times)


def levels(room):
    """The same events at each level: each has the lines of those before it, and the one that stands is the third."""
    up = room.upstream(variable("V", values=[1]))
    told = {level: events(room, up, ("--log", level)) for level in ("error", "warn", "info", "debug")}
    warned = ["[WARN  pvgate] rules refused: line 1: NoVerb"]
    informed = ["[INFO  pvgate] connections are not watched: one that is gone without a word stays until the system notices",
                "[INFO  pvgate] rules read: 1 rows", f"[INFO  pvgate] upstream 1 ({text_of(up.address)}) connected", "[INFO  pvgate] client 1 (HERE) connected",
                "[INFO  pvgate] client 1 (HERE) gone", "[INFO  pvgate] closing"]
    sought = ["[DEBUG pvgate] a line that is no order", "[DEBUG pvgate] swept: searched names are forgotten"]
    room.equal("error", told["error"], [])
    room.equal("warn", told["warn"], warned)
    room.equal("info", told["info"], sorted(warned + informed))
    room.equal("without the option", events(room, up, ()), told["info"])
    asked = [line for line in told["debug"] if line == "[DEBUG pvgate] names asked for: 1"]
    room.equal("debug", told["debug"], sorted(warned + informed + sought + asked))
    room.check("names are asked for", len(asked) > 0)


def events(room, up, options):
    """What is logged of a client that comes and goes, faulty rules, a line that is no order, and a sweep."""
    server = room.server(up, rules=".* ALLOW\n", options=options)
    room.eventually("the server is connected", lambda: up.count_clients() == 1)
    files = server.files()
    client = room.client(server)
    here = text_of(client.socket.getsockname())
    room.check("its channel", client.open("V") is not None)
    client.close()
    room.eventually("it is gone", lambda: server.files() == files)
    room.file("rules", "nonsense\n")
    server.write("reload", "nonsense", "sweep")
    room.eventually("the rules are refused", lambda: server.printed[1:] == ["line 1: NoVerb"])
    room.equal("quit", server.quit(), 0)
    room.eventually("its connection is gone", lambda: up.count_clients() == 0)
    return sorted(line.replace(here, "HERE") for line in server.logged)
