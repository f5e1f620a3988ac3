"""The commands that documents show in blocks of `sh`: each is run, or stands here with the reason why it isn't."""
import os
import re
import shutil
import subprocess
import tempfile

from documented import ROOT, blocks, markdown_files, read

# Commands that are run, with what is run in their place; PROGRAM stands for ./pvgate.
RUN = {
    "make demo": "tools/demo.py PROGRAM",
    "make refused": "make -s refused",
    "out/unproved/pvgate check-rules examples/site.pvlist --groups examples/site.groups --name BEAM:CURRENT":
        "PROGRAM check-rules examples/site.pvlist --groups examples/site.groups --name BEAM:CURRENT",
    "./pvgate replay < examples/first.replay": "PROGRAM replay < examples/first.replay",
    "./pvgate replay < examples/subscribe.replay | tools/explain.py": "PROGRAM replay < examples/subscribe.replay | tools/explain.py",
}

WRITES_PAGES = "it writes pages that .ci/documents.py makes and compares"
BY_SYSTEMD = "it needs systemd and its rights; .ci/serve.py starts what is installed by hand, in its story `packaged`"
INSTALLED = "it writes outside the repository; .ci/serve.py installs into a folder, in its story `packaged`"
SERVES = "it takes the port 5064; .ci/serve.py runs it on others"

# Commands that aren't run, and why.
NOT_RUN = {
    "make test": "it takes a quarter of an hour for what the gate does already",
    "tools/unproved.py": "it compiles for minutes; it is run by hand, and by `make test`",
    "./pvgate --build": "it proves and builds everything, which the gate does already",
    "examples/ioc.py": "it runs until it is ended; .ci/serve.py runs it, in its story `examples`",
    "./pvgate serve 127.0.0.1:5064 127.0.0.1:5070 --rules examples/site.pvlist --groups examples/site.groups": SERVES,
    "examples/ca.py monitor BEAM:CURRENT": "it needs the gateway; .ci/serve.py runs it, in its story `examples`",
    "./pvgate serve 0.0.0.0:5064 --search 10.0.1.255:5064 --rules gateway.pvlist --access gateway.access --site": SERVES,
    "./pvgate serve 10.0.0.1:5064 --search 10.0.1.255:5064 --from 10.0.1.0/24 --site": SERVES,
    "mkfifo orders": INSTALLED,
    "./pvgate serve 127.0.0.1:5064 127.0.0.1:5070 <> orders 2>> pvgate.log &": INSTALLED,
    "echo reload > orders": INSTALLED,
    "make install": INSTALLED,
    "mkdir -p /etc/pvgate": INSTALLED,
    "cp /usr/local/share/pvgate/arguments /etc/pvgate/": INSTALLED,
    "cp gateway.pvlist /etc/pvgate/pvlist; cp gateway.groups /etc/pvgate/groups": INSTALLED,
    "systemctl daemon-reload": BY_SYSTEMD,
    "systemctl enable --now pvgate.service": BY_SYSTEMD,
    "procServ -n pvgate -c /etc/pvgate 4051 /usr/local/bin/pvgate serve 0.0.0.0:5064 10.0.1.20:5064 --rules pvlist --groups groups":
        "it needs procServ, with which it was tried by hand",
    ".ci/also_refused.py gateway_core": "it proves, for minutes; it is run by hand",
    ".ci/callers_pages.py": WRITES_PAGES,
    "packaging/man.py PROGRAM": WRITES_PAGES,
    "packaging/completion.py PROGRAM": WRITES_PAGES,
    ".ci/examples.py PROGRAM": WRITES_PAGES,
}

# Programs beside pvgate whose help is printed at least.
HELPS = ["examples/ca.py --help", "tools/explain.py --help", "tools/wrong_bodies.py --help", "tools/test.py --help", "tools/unproved.py --help"]


def shown():
    """Each command that a document shows: the document, the command, and the text that it is said to print, or None."""
    for path in markdown_files():
        pieces = blocks(read(path))
        for place, (language, lines) in enumerate(pieces):
            if language != "sh":
                continue
            whole = "\n".join(lines).replace("\\\n", " ").split("\n")
            commands = [" ".join(re.sub(r"\s# .*", "", it).split()) for it in whole if it.strip()]
            behind = pieces[place + 1:place + 3]
            printed = behind[1][1] if len(behind) == 2 and behind[1][0] == "text" and not "".join(behind[0][1]).strip() else None
            yield from ((path, it, None) for it in commands[:-1])
            yield from ((path, it, printed) for it in commands[-1:])


def ran(command, program):
    """What a command prints, and its status."""
    words = ["bash", "-c", command.replace("PROGRAM", '"$PROGRAM"')]
    it = subprocess.run(words, cwd=ROOT, env=os.environ | {"PROGRAM": program or ""}, stdin=subprocess.DEVNULL,
                        stdout=subprocess.PIPE, stderr=subprocess.STDOUT, timeout=60)
    return it.stdout.decode(errors="replace"), it.returncode


def command_fault(path, command, printed, program):
    if command in NOT_RUN:
        return None
    if command not in RUN:
        return f"{path}: `{command}` is neither run nor excused in .ci/documented/commands.py"
    if program is None:
        return None
    out, status = ran(RUN[command], program)
    if status != 0 or (printed is not None and out.rstrip("\n") != "\n".join(printed)):
        return f"{path}: `{command}` printed {out!r} and ended with {status}"
    return None


def commands(program):
    found = list(shown())
    for it in found:
        yield command_fault(*it, program)
    for command in {**RUN, **NOT_RUN}.keys() - {it[1] for it in found}:
        yield f".ci/documented/commands.py: no document shows `{command}` any more"
    for command in HELPS:
        out, status = ran(command, program)
        yield None if status == 0 and "usage" in out.lower() else f"{command} ended with {status}"


def unbuilt():
    """`./pvgate` where nothing is built tells the two ways to get a program, and ends with 1."""
    with tempfile.TemporaryDirectory() as folder:
        shutil.copy(f"{ROOT}/pvgate", folder)
        done = subprocess.run([f"{folder}/pvgate", "--help"], stdin=subprocess.DEVNULL, capture_output=True, timeout=60)
    told = all(it in done.stderr for it in (b"tools/unproved.py", b"pvgate --build"))
    yield None if done.returncode == 1 and not done.stdout and told else f"./pvgate, where nothing is built, ended with {done.returncode}"
