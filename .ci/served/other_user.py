"""A client of libca in a process of another user, whose name is the one that the library says."""
import json
import os
import pwd
import subprocess
import sys

sys.dont_write_bytecode = True
sys.path.insert(0, os.path.join(os.path.dirname(os.path.abspath(__file__)), ".."))
import served  # noqa: E402,F401  (sets the path to examples/)
import ca_wire as ca  # noqa: E402
from served import libca  # noqa: E402


class OtherUser:
    """A channel that such a process has; one question and its answer at a time."""

    def __init__(self, user, server, repeater, name):
        words = [sys.executable, "-B", os.path.abspath(__file__), user, *map(str, server.address), str(repeater), name]
        self.process = subprocess.Popen(words, stdin=subprocess.PIPE, stdout=subprocess.PIPE, text=True)

    def ask(self, *words):
        print(*words, file=self.process.stdin, flush=True)
        return json.loads(self.process.stdout.readline() or "null")

    def end(self):
        self.process.stdin.close()
        self.process.wait(libca.PATIENCE)
        self.process.stdout.close()


def main():
    user, host, port, repeater, name = sys.argv[1:]
    os.setgroups([])
    os.setgid(pwd.getpwnam(user).pw_gid)
    os.setuid(pwd.getpwnam(user).pw_uid)
    channel = libca.Library((host, int(port)), int(repeater)).channel(name)
    answers = {"connected": channel.is_connected, "rights": lambda: channel.rights, "put": lambda: channel.put(ca.LONG, [3])}
    for line in sys.stdin:
        print(json.dumps(answers[line.strip()]()), flush=True)
    os._exit(0)  # the library's threads may still be about


if __name__ == "__main__":
    main()
