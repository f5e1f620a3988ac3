#!/usr/bin/env python3
"""Runs the built program with command lines, files and streams, good and bad: what it prints and its exit status.

Run at the top of the repository, once `pvgate` is built. No contract speaks of the command line, so these runs do.
"""
import os
import re
import subprocess
import sys
import tempfile

PROGRAM = os.path.abspath(os.environ.get("PVGATE", "crates/pvgate/out/pvgate"))

# The kit that the documents say all is proved with.
with open("docs/PROOF.md") as file:
    KIT = re.search(r"^(rattle-kit-\S+) logic \w+$", file.read(), re.M).group(1)

# On which `serve` listens, and its UPSTREAM, where nobody answers.
SITE = ["127.0.0.1:0", "127.0.0.1:1"]

FILES = {
    "rules": b"\\(.*\\):SET ALIAS \\1:SP ops\n.*:SET DENY FROM lab7\nX.* DENY\n",
    "deny-first": b"EVALUATION ORDER DENY, ALLOW\n.* ALLOW\n",
    "not-here": b"A DENY FROM localhost\n.* ALLOW\n",
    "empty": b"",
    "no-verb": b"A ALLOW\n# x\nB GRANT\n",
    "no-utf-8": b".* ALLOW\n\xff\n",
    "plain": b"(.*):SET ALIAS \\1:SP ops\n",
    "choice": b".* ALLOW\n(A|B):ILK DENY\nC|D DENY\n",
    "groups": b"ops READ\n",
    "no-rights": b"ops NONE\n",
    "bad-groups": b"ops MAYBE\n",
    "strange": b"A ALLOW\n\t~A\x01 \xc3\xa9\x7f\r\n",
    "long": b"A" * 2000 + b"\n",
    "longest": b"A" * 199 + b"\xc3\xa9 B\n",
    "shorter": b"A" * 198 + b" B\n",
    "unended": b"ops READ\n\nops WRITE\r",
    "dear": b".* ALLOW\n# x\n" + b"(" * 120 + b"a*" + b")*" * 120 + b" DENY\nB DENY\n",
    "levels": b"V ALLOW ops\nV0 ALLOW ops 0\nV1 ALLOW ops 1\nW ALLOW others 0\n",
    "access": b"UAG(ops) {anna}\nHAG(room) {desk1}\nASG(DEFAULT) {RULE(1, READ)}\nASG(ops) {RULE(1, READ) RULE(1, WRITE, TRAPWRITE) {UAG(ops) HAG(room)}}\n",
    "by-level": b"ASG(ops) {RULE(0, WRITE) RULE(1, READ)}\n",
    "calculated": b"ASG(ops) {\n  RULE(1, READ)\n  RULE(1, WRITE) {CALC(\"A=1\")}\n}\n",
    "unfinished": b"ASG(ops) {\n",
    "slow": b".* ALLOW\n" + b".*" * 500 + b" DENY\n",
}

OK = b"ok 3 rows ALLOW, DENY\n"

# Arguments, what is printed, and the status.
CHECKS = [
    ("rules", OK, 0),
    ("rules --host desk1", OK, 0),
    ("rules --name A:SET", OK + b"admitted A:SP ops write\n", 0),
    ("rules --name A:SET --host desk1", OK + b"admitted A:SP ops write\n", 0),
    ("rules --name A:SET --host desk1 --groups groups", OK + b"admitted A:SP ops read\n", 0),
    ("rules --name A:SET --groups no-rights", OK + b"admitted A:SP ops none\n", 0),
    ("rules --name A:SET --host LAB7", OK + b"refused\n", 0),
    ("rules --name X1:SET --host desk1", OK + b"refused\n", 0),
    ("deny-first --name T1", b"ok 1 rows DENY, ALLOW\nadmitted T1 - write\n", 0),
    ("not-here --name A", b"ok 2 rows ALLOW, DENY\nrefused\n", 0),
    ("not-here --name A --host elsewhere", b"ok 2 rows ALLOW, DENY\nadmitted A - write\n", 0),
    ("empty", b"ok 0 rows ALLOW, DENY\n", 0),
    ("no-verb", b"line 3: NoVerb\n", 1),
    ("no-verb --name A", b"line 3: NoVerb\n", 1),
    ("rules --groups bad-groups", b"groups line 1: BadGroup\n", 1),
    ("no-verb --groups bad-groups", b"line 3: NoVerb\n", 1),
    ("plain --name A:SET", b"line 1: BadReference\n", 1),
    ("plain --name A:SET --plain-groups", b"ok 1 rows ALLOW, DENY\nadmitted A:SP ops write\n", 0),
    ("rules --plain-groups", b"line 1: BadReference\n", 1),
    ("choice --name B:ILK", OK + b"admitted B:ILK - write\n", 0),
    ("choice --name B:ILK --plain-groups", OK + b"refused\n", 0),
    ("rules --plain-groups --plain-groups", b"", 2),
    ("rules --plain-groups yes", b"", 2),
    ("rules --name A/B", OK + b"refused\n", 0),
    ("rules --name " + "A" * 256, b"", 2),
    ("rules --host " + "A" * 128, b"", 2),
    ("missing --name " + "A" * 256, b"", 2),
    ("rules --groups", b"", 2),
    ("rules rules", b"", 2),
    ("--name A", b"", 2),
    ("rules --port 1", b"", 2),
    ("missing", b"", 3),
    ("no-verb --groups missing", b"", 3),
    ("missing --groups bad-groups", b"", 3),
    ("no-utf-8", b"", 3),
    ("rules --groups no-utf-8", b"", 3),
    (".", b"", 3),
    ("rules --access access", OK, 0),
    ("rules --name A:SET --access access", OK + b"admitted A:SP ops read\n", 0),
    ("rules --name A:SET --access access --user anna", OK + b"admitted A:SP ops read\n", 0),
    ("rules --name A:SET --access access --user anna --host desk1", OK + b"admitted A:SP ops write recorded\n", 0),
    ("rules --name A:SET --access access --user anna --host DESK1", OK + b"admitted A:SP ops write recorded\n", 0),
    ("rules --name A:SET --access access --user Anna --host desk1", OK + b"admitted A:SP ops read\n", 0),
    ("rules --name A:SET --access access --user ben --host desk1", OK + b"admitted A:SP ops read\n", 0),
    ("rules --name A:SET --access access --user anna --host lab7", OK + b"refused\n", 0),
    ("rules --name X --access access --user anna", OK + b"refused\n", 0),
    ("rules --name A:SET --access empty --user anna", OK + b"admitted A:SP ops none\n", 0),
    ("deny-first --name T1 --access access --user anna", b"ok 1 rows DENY, ALLOW\nadmitted T1 - read\n", 0),
    ("deny-first --name T1 --access by-level", b"ok 1 rows DENY, ALLOW\nadmitted T1 - none\n", 0),
    *((f"levels --name {name} --access by-level", b"ok 4 rows ALLOW, DENY\nadmitted " + f"{name} {told}\n".encode(), 0)
      for name, told in (("V", "ops read"), ("V0", "ops write"), ("V1", "ops read"), ("W", "others none"))),
    ("rules --access calculated", b"access line 3: Calculated\n", 1),
    ("rules --access calculated --name A --user anna", b"access line 3: Calculated\n", 1),
    ("rules --access unfinished", b"access line 2: Unfinished\n", 1),
    ("no-verb --access calculated", b"line 3: NoVerb\n", 1),
    ("rules --access access --groups groups", b"", 2),
    ("no-verb --groups groups --access missing", b"", 2),
    ("rules --access access --user anna", b"", 2),
    ("rules --name A --user anna", b"", 2),
    ("rules --name A --user anna --groups groups", b"", 2),
    ("rules --name A --access access --user", b"", 2),
    ("rules --access", b"", 2),
    ("rules --access access --access access", b"", 2),
    ("rules --access access --check-host", b"", 2),
    ("rules --access missing", b"", 3),
    ("rules --access no-utf-8", b"", 3),
    ("rules --access .", b"", 3),
]

# Arguments of `serve` that end it before it listens, what is printed, and the status. Nobody answers at the UPSTREAM.
SERVE_REFUSALS = [
    ("", b"", 2),
    ("127.0.0.1:0", b"", 2),
    ("127.0.0.1 127.0.0.1:1", b"", 2),
    ("127.0.0.1:70000 127.0.0.1:1", b"", 2),
    ("localhost:0 127.0.0.1:1", b"", 2),
    *((f"127.0.0.1:0 127.0.0.1:1 {word}", b"", 2) for word in ("somewhere", "somewhere:0", "somewhere:70000", "some/where:1", "10.0.0.256:1", ":1")),
    ("127.0.0.1:0" + " 127.0.0.1:1" * 17, b"", 2),
    ("127.0.0.1:0 127.0.0.1:1 --rules", b"", 2),
    ("127.0.0.1:0 127.0.0.1:1 --port 1", b"", 2),
    ("127.0.0.1:0 127.0.0.1:1 --most-waiting", b"", 2),
    ("127.0.0.1:0 127.0.0.1:1 --most-waiting 0", b"", 2),
    ("127.0.0.1:0 127.0.0.1:1 --most-waiting 1.5", b"", 2),
    ("127.0.0.1:0 127.0.0.1:1 --most-waiting 4294967296", b"", 2),
    ("127.0.0.1:0 127.0.0.1:1 --most-waiting +1", b"", 2),
    *((f"127.0.0.1:0 127.0.0.1:1 {option}{value}", b"", 2) for option in ("--reconnect", "--sweep")
      for value in ("", " 0", " 86401", " 4294967297", " 1.5", " +1", " ten", " 10s", f" 10 {option} 10")),
    *((f"127.0.0.1:0 127.0.0.1:1 --log{value}", b"", 2) for value in ("", " trace", " INFO", " off", " 3", " info,debug", " info --log info")),
    *((f"127.0.0.1:0 127.0.0.1:1 --status{value}", b"", 2) for value in ("", " 127.0.0.1", " localhost:0", " 127.0.0.1:0 --status 127.0.0.1:0")),
    *((f"127.0.0.1:0 127.0.0.1:1 --clients-of-host{value}", b"", 2)
      for value in ("", " 0", " 1025", " 4294967297", " 1.5", " +1", " ten", " 10 --clients-of-host 10")),
    *((f"127.0.0.1:0 127.0.0.1:1 {option}{value}", b"", 2) for option, more in (("--clients", 4097), ("--servers", 1025), ("--names", 1048577), ("--alive", 3601), ("--forget", 86401))
      for value in ("", " 0", f" {more}", " 4294967297", " 1.5", " +1", " -1", " ten", " 10s", f" 10 {option} 10")),
    *((f"127.0.0.1:0 127.0.0.1:1 {option}{value}", b"", 2) for option, more in (("--first", 4294967295), ("--most-in-all", 4294967296))
      for value in ("", " 0", f" {more}", " 18446744073709551617", " 1.5", " +1", " -1", " ten", f" 10 {option} 10")),
    ("127.0.0.1:0 127.0.0.1:1 127.0.0.1:2 --servers 1", b"", 2),
    ("127.0.0.1:0" + " 127.0.0.1:1" * 17 + " --site --servers 16", b"", 2),
    ("127.0.0.1:0" + " 127.0.0.1:1" * 1025 + " --site", b"", 2),
    ("127.0.0.1:0 127.0.0.1:1 --rules .", b"", 3),
    ("127.0.0.1:0 127.0.0.1:1 --rules /dev/zero", b"", 3),
    *((f"127.0.0.1:0 127.0.0.1:1 {option}{value}", b"", 2) for option in ("--back-off", "--late", "--site", "--check-host")
      for value in ("=", "=1", "=true", " yes", " 1", f" {option}")),
    ("127.0.0.1:0 127.0.0.1:1 --status 192.0.2.1:0", b"", 3),
    ("127.0.0.1:0 127.0.0.1:1 --status 192.0.2.1:0 --rules no-verb", b"line 3: NoVerb\n", 1),
    ("127.0.0.1 127.0.0.1:1 --rules missing", b"", 2),
    ("127.0.0.1:0 127.0.0.1:1 --rules missing", b"", 3),
    ("127.0.0.1:0 127.0.0.1:1 --rules no-utf-8", b"", 3),
    ("127.0.0.1:0 127.0.0.1:1 --groups missing", b"", 3),
    ("127.0.0.1:0 127.0.0.1:1 --rules no-verb --groups missing", b"", 3),
    ("127.0.0.1:0 127.0.0.1:1 --rules no-verb", b"line 3: NoVerb\n", 1),
    ("127.0.0.1:0 127.0.0.1:1 --rules rules --groups bad-groups", b"groups line 1: BadGroup\n", 1),
    ("127.0.0.1:0 127.0.0.1:1 --rules no-verb --groups bad-groups", b"line 3: NoVerb\n", 1),
    ("127.0.0.1:0 127.0.0.1:1 --rules plain", b"line 1: BadReference\n", 1),
    *((f"127.0.0.1:0 127.0.0.1:1 --access{value}", b"", 2) for value in ("", " access --groups groups", " access --access access", " access --user anna")),
    *((f"127.0.0.1:0 127.0.0.1:1 --access {value}", b"", 3) for value in ("missing", "no-utf-8", ".", "/dev/zero", "missing --rules no-verb")),
    ("127.0.0.1:0 127.0.0.1:1 --access calculated", b"access line 3: Calculated\n", 1),
    ("127.0.0.1:0 127.0.0.1:1 --rules rules --access calculated --site", b"access line 3: Calculated\n", 1),
    ("127.0.0.1:0 127.0.0.1:1 --rules no-verb --access calculated", b"line 3: NoVerb\n", 1),
    ("127.0.0.1:0 127.0.0.1:1 --rules rules --plain-groups", b"line 1: BadReference\n", 1),
    *((f"127.0.0.1:0 --search{value}", b"", 2) for value in ("", " localhost:0", " localhost", " :5064", " 10.0.0.256:5064", " 10.0.0.1", " 10.0.0.1:0", " 10.0.0.1:70000", " 0.0.0.0:5064", " 10.0.0.0/8",
                                                             " [::1]:5064 --search 10.0.0.1:5064", " [::1]:5064 127.0.0.1:1", " 127.0.0.1:2 127.0.0.1:1 127.0.0.1:1")),
    *((f"127.0.0.1:0 --name-server{value}", b"", 2) for value in ("", " localhost:0", " localhost", " :5064", " 10.0.0.256:5064", " 10.0.0.1", " 10.0.0.1:0", " 10.0.0.1:70000", " 0.0.0.0:5064", " 10.0.0.0/8",
                                                                  " 10.0.0.1:5064 [::1]:1", " 10.0.0.1:5064 127.0.0.1:1 127.0.0.1:1", " 10.0.0.1:5064" + " --name-server 10.0.0.1:5064" * 16)),
    *((f"127.0.0.1:0 --search 10.0.0.1:5064 --from{value}", b"", 2) for value in ("", " 10.0.0.0", " 10.0.0.0/33", " 10.0.0.1/8", " ten/8", " 10.0.0.0/-1", " 10.0.0.0/8 --from 10/8")),
    ("127.0.0.1:0 127.0.0.1:1 --from 10.0.0.0/8", b"", 2),
    ("127.0.0.1:0 127.0.0.1:1 --idle 300", b"", 2),
    *((f"127.0.0.1:0 --search 10.0.0.1:5064 --idle{value}", b"", 2) for value in ("", " 0", " 86401", " 1s", " 3 --idle 4")),
    ("127.0.0.1:0 127.0.0.1:1 --hear-beacons", b"", 2),
    *((f"127.0.0.1:0 --search 127.0.0.1:2 --hear-beacons{value}", b"", 2) for value in ("=", "=1", " --hear-beacons")),
    *((f"127.0.0.1:0 127.0.0.1:1 --beacons{value}", b"", 2) for value in ("", " localhost:5065", " 10.0.0.1", " 10.0.0.1:0", " 10.0.0.1:70000", " 0.0.0.0:5065", " [::1]:5065",
                                                                         " 10.0.0.1:5065 --beacons 10.0.0.1:0")),
    ("[::1]:0 127.0.0.1:1 --beacons 127.0.0.1:5065", b"", 2),
    *((f"127.0.0.1:0 127.0.0.1:1 --listen{value}", b"", 2) for value in ("", " localhost:0", " 127.0.0.1", " 127.0.0.1:70000")),
    ("127.0.0.1:0 127.0.0.1:1 --listen 192.0.2.1:0", b"", 3),
    ("127.0.0.1:0 127.0.0.1:1 --listen [::1]:0 --beacons 127.0.0.1:5065", b"", 2),
    ("127.0.0.1:5998 --search 127.0.0.1:5998", b"", 2),
    ("0.0.0.0:5998 --search 127.0.0.1:5998", b"", 2),
    ("127.0.0.1:5998 --name-server 127.0.0.1:5998", b"", 2),
    ("0.0.0.0:5998 --name-server 127.0.0.1:5998", b"", 2),
    *((f"127.0.0.1:0 127.0.0.1:1 --ignore{value}", b"", 2) for value in ("", " 10.0.0.1", " 10.0.0.0/33", " 10.0.0.1/8", " ten/8", " 10.0.0.0/8 --ignore 10/8")),
    ("192.0.2.1:0 127.0.0.1:1 --rules no-verb", b"line 3: NoVerb\n", 1),
    ("192.0.2.1:0 127.0.0.1:1 --rules rules", b"", 3),
]

# Arguments of `serve` that are refused, and what is said of them.
REFUSED = [
    ("0.0.0.0:5998 127.0.0.1:5998 --search 127.0.0.1:1", "the UPSTREAM is the gateway itself: 127.0.0.1:5998"),
    ("127.0.0.1:5998 127.0.0.1:5999 --listen 127.0.0.1:5999", "the UPSTREAM is the gateway itself: 127.0.0.1:5999"),
    ("127.0.0.1:5998 localhost:5998 --search 127.0.0.1:1", "the UPSTREAM is the gateway itself: localhost:5998"),
    ("127.0.0.1:5998 --search 127.0.0.1:5998", "the address of --search is the gateway's own: 127.0.0.1:5998"),
    ("127.0.0.1:5998 --listen 127.0.0.2:5998 --search 127.0.0.2:5998", "the address of --search is the gateway's own: 127.0.0.2:5998"),
    ("127.0.0.1:5998 --listen 127.0.0.2:5998 --name-server 127.0.0.2:5998", "the address of --name-server is the gateway's own: 127.0.0.2:5998"),
    ("127.0.0.1:5998 127.0.0.1:1 --ignore 10.0.0.1/8", "the net is bad, as 10.0.0.0/8 is good: 10.0.0.1/8: bits are set behind those of the net"),
]

# Arguments that have a rule file read, orders, and the lines of which a note is written to standard error. It changes
# nothing else of what is printed, as the runs above show.
NOTES = [
    ("check-rules rules", b"", []),
    ("check-rules no-verb", b"", []),
    ("check-rules plain", b"", [1]),
    ("check-rules plain --plain-groups", b"", []),
    ("check-rules choice", b"", [2]),
    ("check-rules choice --plain-groups", b"", []),
    ("check-rules choice --groups bad-groups", b"", [2]),
    ("serve 127.0.0.1:0 127.0.0.1:1", b"", []),
    ("serve 127.0.0.1:0 127.0.0.1:1 --rules plain", b"", [1]),
    ("serve 127.0.0.1:0 127.0.0.1:1 --rules choice", b"", [2]),
    ("serve 127.0.0.1:0 127.0.0.1:1 --rules choice", b"reload\n", [2, 2]),
    ("serve 127.0.0.1:0 127.0.0.1:1 --rules choice --plain-groups", b"reload\n", []),
]

# Options of `serve` that are good.
SERVE_OPTIONS = [
    "--most-waiting 1", "--reconnect 1", "--reconnect 86400", "--sweep 1", "--sweep 86400", "--sweep 007 --reconnect 10",
    "--log error", "--log warn", "--log info", "--log debug", "--log debug --reconnect 1 --sweep 1 --rules rules",
    "--status 127.0.0.1:0", "--status [::1]:0 --log error", "--clients-of-host 1", "--clients-of-host 1024",
    "--access access", "--check-host", "--rules rules --access access --check-host --site",
    "--back-off", "--site", "--site --back-off", "--reconnect 1 --back-off --sweep 1",
    "--clients 1", "--clients 4096", "--servers 1", "--servers 1024", "--names 1", "--names 1048576", "--alive 1", "--alive 3600", "--forget 1", "--forget 86400",
    "--first 1", "--first 4294967294", "--most-in-all 1", "--most-in-all 4294967295", "--site --most-in-all 1 --first 2",
    "--late", "--site --late --clients 10 --servers 20 --names 30 --alive 40 --forget 50 --clients-of-host 60",
    "--search 127.0.0.1:2", "--search 127.255.255.255:2 --search 127.0.0.1:2 --from 10.0.0.0/8 --from 127.0.0.1/32 --servers 2 --idle 86400",
    "localhost:1", "nowhere.invalid:1", "--search localhost:2", "localhost:3 --search 127.0.0.1:2", "--search 127.0.0.1:2 --hear-beacons", "--beacons 127.0.0.1:2", "--beacons 127.255.255.255:2 --beacons 127.0.0.1:3 --site",
    "--name-server 127.0.0.1:2", "--name-server nowhere.invalid:1 --from 10.0.0.0/8 --idle 1 --hear-beacons", "--name-server [::1]:2 --search localhost:3", "--site" + " --name-server localhost:2" * 16,
    "--ignore 10.0.0.1/32 --ignore 2001:db8::/32", "--ignore 0.0.0.0/0 --search 127.0.0.1:2",
    "--servers 17" + " 127.0.0.1:1" * 16, "--site" + " 127.0.0.1:1" * 40,
]

# Arguments of `check-rules`, and all that it writes to standard error.
NOTE = "note: line 1: ( ) | stand for themselves here; --plain-groups reads them as groups"
SAID = [
    ("rules", []),
    ("no-verb", ["line 3: says: B GRANT"]),
    ("no-verb --name A --groups bad-groups", ["line 3: says: B GRANT"]),
    ("rules --groups bad-groups", ["groups line 1: says: ops MAYBE"]),
    ("plain", [NOTE, "line 1: says: (.*):SET ALIAS \\1:SP ops"]),
    ("rules --plain-groups", ["line 1: says: \\(.*\\):SET ALIAS \\1:SP ops"]),
    ("strange", ["line 2: says: \\x09~A\\x01 \\xc3\\xa9\\x7f"]),
    ("long", ["line 1: says: " + "A" * 200]),
    ("longest", ["line 1: says: " + "A" * 199 + "\\"]),
    ("shorter", ["line 1: says: " + "A" * 198 + " B"]),
    ("rules --access access --name A --user anna", []),
    ("rules --access calculated", ["access line 3: says:   RULE(1, WRITE) {CALC(\"A=1\")}"]),
    ("rules --access unfinished", ["access line 2: says: "]),
    ("rules --groups unended", ["groups line 3: says: ops WRITE\\x0d"]),
    ("dear --plain-groups", ["note: line 3: its pattern takes more than 1 MiB or 5 ms to make ready"]),
    ("slow", ["note: line 2: its pattern takes more than 1 MiB or 5 ms to make ready"]),
]

# Names and hosts that the two rule files of the examples, one in each syntax, answer alike.
ASKED = [
    "S01:DCCT:CURRENT", "BEAM:CURRENT", "S01:MAG:Q1 --host lab7", "S02:MAG:Q1 --host lab7", "S01:MAG:Q1:SET",
    "S02:MAG:Q1:SET --host guest", "S01:HPOS", "S02:VPOS", "S02:XPOS", "S01:(H|V)POS", "S01:CAM:1", "S01:ILK:DOOR", "LOG:1",
]

# A script, what is printed of it, and the status.
SCRIPTS = [
    (b"", b"", 0),
    (b"open s1 10.0.0.5\n", b"s1 000000000000000d0000000000000000\n", 0),
    (b"open s1 10.0.0.5", b"s1 000000000000000d0000000000000000\n", 0),
    (b"asks\nclose s1\nasks\n", b"asks\nline 2: bad\n", 2),
]


def run(words, **streams):
    streams = {"input": b""} | streams if "stdin" not in streams else streams
    return subprocess.run([PROGRAM, *words], stderr=subprocess.PIPE, timeout=60, **streams)


def checks():
    for line, printed, status in CHECKS:
        yield f"check-rules {line[:60]}", ["check-rules", *line.split(" ")], {}, printed, status


def replays():
    for script, printed, status in SCRIPTS:
        for options in ([], ["--plain"]):
            yield f"replay {' '.join(options)} of {script[:30]}", ["replay", *options], {"input": script}, printed, status


def serve_refusals():
    for line, printed, status in SERVE_REFUSALS:
        yield f"serve {line[:60]}", ["serve", *line.split()], {}, printed, status


def others():
    yield "no argument", [], {}, b"", 2
    yield "an unknown program", ["server"], {}, b"", 2
    yield "an argument too many", ["replay", "x"], {}, b"", 2
    yield "--version", ["--version"], {}, f"pvgate 0.1.0 (proved with {KIT})\n".encode(), 0
    yield "an argument that is no UTF-8", [b"check-rules", b"\xff"], {}, b"", 2


def told(label, ran, printed, status):
    """Says what came out otherwise, and whether nothing did."""
    out = ran.stdout if ran.stdout is not None else b""
    if (out, ran.returncode) == (printed, status):
        return True
    print(f"{label}: printed {out!r} and ended with {ran.returncode}, not {printed!r} and {status}")
    return False


def full_streams():
    """A stream that can't be written, or read, is status 3."""
    with open("/dev/full", "wb") as full:
        yield told("check-rules to a full device", run(["check-rules", "rules"], stdout=full), b"", 3)
        script = b"open s1 10.0.0.5\n"
        yield told("replay to a full device", run(["replay"], stdout=full, input=script), b"", 3)
        yield told("serve to a full device", run(["serve", *SITE], stdout=full), b"", 3)
    folder = os.open(".", os.O_RDONLY)
    yield told("replay of a folder", run(["replay"], stdin=folder, stdout=subprocess.PIPE), b"", 3)
    yield listened("serve with orders from a folder", run(["serve", *SITE], stdin=folder, stdout=subprocess.PIPE), b"", 3)
    os.close(folder)


def listened(label, ran, printed, status):
    """Says what came out otherwise, after a first line that tells the address, and whether nothing did."""
    first, _, rest = ran.stdout.partition(b"\n")
    address = first.removeprefix(b"listening 127.0.0.1:")
    if first != address and address.isdigit():
        return told(label, subprocess.CompletedProcess(ran.args, ran.returncode, rest), printed, status)
    return told(label, ran, b"listening 127.0.0.1:PORT\n" + printed, status)


def serving():
    """A gateway with no client: its orders, and an address that another one has."""
    orders = b"ask\nsweep\nconnect 1\nconnect 2\nconnect 0\nconnect +1\n\xff\n\nquit \nQUIT\nask"
    yield listened("serve to the end of input", run(["serve", *SITE], input=orders, stdout=subprocess.PIPE), b"", 0)
    yield listened("serve until quit", run(["serve", *SITE], input=b"quit\nreload\n", stdout=subprocess.PIPE), b"", 0)
    files = ["--rules", "changing", "--groups", "groups"]
    with open("changing", "wb") as file:
        file.write(FILES["rules"])
    first = subprocess.Popen([PROGRAM, "serve", *SITE, *files], stdin=subprocess.PIPE, stdout=subprocess.PIPE, stderr=subprocess.PIPE)
    address = first.stdout.readline().split()[-1].decode()
    yield told("serve on an address in use", run(["serve", address, "127.0.0.1:1"], stdout=subprocess.PIPE), b"", 3)
    with open("changing", "wb") as file:
        file.write(FILES["no-verb"])
    first.stdin.write(b"reload\n")
    first.stdin.flush()
    line = first.stdout.readline()
    os.remove("changing")
    rest, complained = first.communicate(b"reload\nask\nquit\n", timeout=60)
    yield told("reload of bad files, and of none", subprocess.CompletedProcess([], first.returncode, line + rest), b"line 3: NoVerb\n", 0)
    told_of = complained.decode().splitlines()
    wanted = ["rules read: 3 rows", "rules refused: line 3: NoVerb", "rules refused: changing can't be read", "closing"]
    missing = [text for text in wanted if sum(text in line for line in told_of) != 1]
    if missing:
        print(f"serve: not logged once: {missing}, but {told_of}")
    yield not missing


def options():
    """Options of `serve` with which it listens until the end of input, and prints nothing else."""
    for line in SERVE_OPTIONS:
        yield listened(f"serve {line}", run(["serve", *SITE, *line.split()], stdout=subprocess.PIPE), b"", 0)


def said():
    """What a faulty line said is told on standard error, behind the note, and nothing else."""
    for line, lines in SAID:
        ran = run(["check-rules", *line.split()], stdout=subprocess.PIPE)
        wanted = "".join(f"{it}\n" for it in lines).encode()
        if ran.stderr != wanted:
            print(f"check-rules {line}: told {ran.stderr!r}, not {wanted!r}")
        yield ran.stderr == wanted


def refused():
    """What is said of arguments that are refused."""
    for line, why in REFUSED:
        ran = run(["serve", *line.split()], stdout=subprocess.PIPE)
        wanted = f"pvgate: {why}\n".encode()
        if ran.stderr != wanted:
            print(f"serve {line}: told {ran.stderr!r}, not {wanted!r}")
        yield told(f"serve {line}", ran, b"", 2) and ran.stderr == wanted


def helps():
    """Help goes to standard output, and names what it helps with."""
    for words, word in ((["--help"], b"check-rules"), (["replay", "--help"], b"--plain"), (["check-rules", "--help"], b"--groups"), (["serve", "--help"], b"UPSTREAM")):
        ran = run(words, stdout=subprocess.PIPE)
        yield told(" ".join(words), ran, ran.stdout if word in ran.stdout else b"help with " + word, 0)


def notes():
    """What is noted of a rule file is a line of standard error for each time that it is read, of its first such row."""
    for words, orders, lines in NOTES:
        ran = run(words.split(), stdout=subprocess.PIPE, input=orders)
        noted = [line for line in ran.stderr.decode().splitlines() if "note:" in line]
        wanted = [f"note: line {line}: ( ) | stand for themselves here; --plain-groups reads them as groups" for line in lines]
        if noted != wanted:
            print(f"{words}: noted {noted}, not {wanted}")
        yield noted == wanted


def example_rules(root):
    """The rule files of the examples are good, each in its own syntax, need no note there and answer the same."""
    groups = ["--groups", f"{root}/examples/site.groups"]
    for asked in ASKED:
        asked = ["--name", *asked.split()]
        first = run(["check-rules", f"{root}/examples/site.pvlist", *groups, *asked], stdout=subprocess.PIPE)
        other = run(["check-rules", f"{root}/examples/plain.pvlist", "--plain-groups", *groups, *asked], stdout=subprocess.PIPE)
        yield told(f"site.pvlist {asked}", first, first.stdout if first.stdout.startswith(b"ok 11 rows") else b"ok 11 rows", 0)
        yield told(f"plain.pvlist {asked}", other, first.stdout, 0) and first.stderr == other.stderr == b""


def examples(root):
    """The scripts of the examples are good, and both gateways print the same of them."""
    for name in sorted(os.listdir(f"{root}/examples")):
        if name.endswith(".replay"):
            with open(f"{root}/examples/{name}", "rb") as file:
                script = file.read()
            first = run(["replay"], input=script, stdout=subprocess.PIPE)
            yield told(name, first, first.stdout or b"something", 0)
            yield told(f"{name} --plain", run(["replay", "--plain"], input=script, stdout=subprocess.PIPE), first.stdout, 0)
            yield told(f"{name} --first 1", run(["replay", "--first", "1"], input=script, stdout=subprocess.PIPE), first.stdout, 0)


def numbered(first):
    """A client gets its channel, whose number is the first, as is that of the channel that the server is asked for."""
    cid = f"{first:08x}"
    return ("open s1 10.0.0.5\nopen u1\nserver u1 000000000000000d0000000000000000\nclient s1 0012000800000000000000070000000d5431000000000000\n"
            f"found T1 u1\nserver u1 0016000000000000{cid}00000003\nserver u1 0012000000050001{cid}00000065\n"
            "client s1 0012000800000000000000070000000d5431000000000000\n").encode()


def numbers():
    """Numbers that a replay gives out begin where they are told to, on both gateways; after the last it fails."""
    for first in (1, 2, 4_294_967_294):
        words = ["replay", "--first", str(first)]
        ran = run(words, input=numbered(first), stdout=subprocess.PIPE)
        made = f"\ns1 001200000005000100000007{first:08x}\n".encode()
        yield told(f"--first {first}", ran, ran.stdout if made in ran.stdout else made, 0)
        yield told(f"--plain --first {first}", run([*words, "--plain"], input=numbered(first), stdout=subprocess.PIPE), ran.stdout, 0)
    again = numbered(4_294_967_294) + b"client s1 0012000800000000000000080000000d5431000000000000\n"
    for options in ([], ["--plain"]):
        ran = run(["replay", "--first", "4294967294", *options], input=again, stdout=subprocess.PIPE)
        yield told("a number behind the last", ran, ran.stdout if ran.stdout.endswith(b"\nfailed\n") else b"failed", 4)
    for value in ([], ["0"], ["4294967295"], ["18446744073709551617"], ["1.5"], ["+1"], ["ten"], ["1", "--first", "1"]):
        yield told(f"replay --first {value}", run(["replay", "--first", *value], input=numbered(1), stdout=subprocess.PIPE), b"", 2)


def main():
    if not os.access(PROGRAM, os.X_OK):
        sys.exit(f"{PROGRAM} isn't built")
    root = os.getcwd()
    with tempfile.TemporaryDirectory(prefix="command-line-") as room:
        os.chdir(room)
        for name, text in FILES.items():
            with open(name, "wb") as file:
                file.write(text)
        cases = [*checks(), *replays(), *serve_refusals(), *others()]
        done = [told(label, run(words, stdout=subprocess.PIPE, **streams), printed, status) for label, words, streams, printed, status in cases]
        done += [*full_streams(), *serving(), *options(), *said(), *refused(), *helps(), *notes(), *example_rules(root), *examples(root), *numbers()]
        os.chdir(root)
    print(f"command lines: {sum(done)} passed, {len(done) - sum(done)} failed")
    return 0 if all(done) else 1


if __name__ == "__main__":
    sys.exit(main())
