"""What examples/ has: the stand-in IOC, the site's rules and the commands, as the front page shows them."""
import os
import subprocess
import sys

from served.room import PATIENCE, Server, free_port

EXAMPLES = os.path.join(os.path.dirname(os.path.abspath(__file__)), "..", "..", "examples")


def ca(*words):
    return subprocess.run([sys.executable, "-B", f"{EXAMPLES}/ca.py", *words], capture_output=True, timeout=2 * PATIENCE)


def examples(room):
    here, there = (f"127.0.0.1:{free_port()}" for _ in range(2))
    ioc = subprocess.Popen([sys.executable, "-B", f"{EXAMPLES}/ioc.py", there], stdout=subprocess.PIPE)
    room.started.append(lambda: (ioc.kill(), ioc.communicate()))
    room.check("the IOC says what it serves", ioc.stdout.readline().startswith(b"serving S01:DCCT:CURRENT"))
    server = Server([room.program, "serve", here, there, "--rules", f"{EXAMPLES}/site.pvlist", "--groups", f"{EXAMPLES}/site.groups"])
    room.started.append(server.kill)
    if not room.eventually("the gateway listens", lambda: server.printed == [f"listening {here}"]):
        return

    def command(*words, at=here):
        ran = ca(*words, "--at", at, "--wait", str(PATIENCE))
        return ran.returncode, ran.stdout.decode()

    room.equal("get", command("get", "LOG:OPERATOR", "S01:MAG:Q1:SET"), (0, "LOG:OPERATOR nobody\nS01:MAG:Q1:SET 12.5\n"))
    room.equal("put by another name", command("put", "S01:MAG:Q1:SET", "14.25"), (0, "old S01:MAG:Q1:SET 12.5\nnew S01:MAG:Q1:SET 14.25\n"))
    room.equal("put a text", command("put", "LOG:OPERATOR", "anna maria")[0], 0)
    seen = command("get", "LOG:OPERATOR", "S01:MAG:Q1:SP", at=there)
    room.equal("get at the IOC itself", seen, (0, "LOG:OPERATOR anna maria\nS01:MAG:Q1:SP 14.25\n"))
    room.equal("put no state, as infinity is", command("put", "S01:VAC:V1:OPEN", "inf", at=there)[0], 1)
    room.equal("put what may be read alone", command("put", "BEAM:CURRENT", "1")[0], 1)
    status, told = command("monitor", "BEAM:CURRENT", "--number", "3")
    values = [float(line.split()[-1]) for line in told.splitlines()]
    room.check("monitor", status == 0 and len(values) == 3 and values == sorted(values), told)
    status, told = command("info", "S01:BPM:H:POS", "S01:CAM:1")
    room.check("info", status == 0 and "type LONG, count 8, rights read\n" in told and "rights none" in told, told)
    refused = ca("get", "S01:ILK:DOOR", "--at", here, "--wait", "1")
    room.equal("a name that the rules refuse", (refused.returncode, refused.stderr), (1, b"ca.py: S01:ILK:DOOR: not found\n"))
    room.equal("quit", server.quit(), 0)
