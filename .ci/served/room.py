"""What a story has at hand: checks, a folder, and all that it started, which ends with it."""
import os
import random
import resource
import shutil
import socket
import subprocess
import tempfile
import threading
import time

import ca_wire as ca
from served.client import Client
from served.upstream import Upstream

PATIENCE = 60  # seconds for anything that comes at once on an idle machine


def free_port():
    """A port that neither TCP nor UDP uses, below those that the system gives out by itself."""
    while True:
        port = random.randrange(10_000, 32_000)
        with socket.socket() as one, socket.socket(socket.AF_INET, socket.SOCK_DGRAM) as other:
            try:
                one.bind(("127.0.0.1", port))
                other.bind(("127.0.0.1", port))
                return port
            except OSError:
                continue


def text_of(address):
    return f"{address[0]}:{address[1]}"


class Server:
    """The gateway, running."""

    def __init__(self, words, most_files=None, stdin=subprocess.PIPE, stderr=subprocess.PIPE):
        def limited():
            if most_files is not None:
                resource.setrlimit(resource.RLIMIT_NOFILE, (most_files, most_files))
        self.process = subprocess.Popen(words, stdin=stdin, stdout=subprocess.PIPE, stderr=stderr, preexec_fn=limited)
        self.printed, self.logged = [], []
        self.readers = [threading.Thread(target=self.collect, args=it, daemon=True)
                        for it in ((self.process.stdout, self.printed), (self.process.stderr, self.logged)) if it[0] is not None]
        for reader in self.readers:
            reader.start()

    @staticmethod
    def collect(stream, lines):
        for line in stream:
            lines.append(line.decode(errors="replace").rstrip("\n"))

    def write(self, *lines):
        self.process.stdin.write("".join(f"{line}\n" for line in lines).encode())
        self.process.stdin.flush()

    def has_logged(self, *words):
        return any(all(word in line for word in words) for line in list(self.logged))

    def status(self, seconds=PATIENCE):
        """Its exit status, once it ended; None where it doesn't end."""
        try:
            status = self.process.wait(seconds)
        except subprocess.TimeoutExpired:
            return None
        for reader in self.readers:
            reader.join(seconds)
        return status

    def quit(self):
        self.write("quit")
        return self.status()

    def files(self):
        return len(os.listdir(f"/proc/{self.process.pid}/fd"))

    def resident(self):
        """Its memory in MB."""
        with open(f"/proc/{self.process.pid}/statm") as file:
            return int(file.read().split()[1]) * resource.getpagesize() / 1e6

    def processor(self):
        """The seconds that it has had of a processor."""
        with open(f"/proc/{self.process.pid}/stat") as file:
            fields = file.read().rpartition(")")[2].split()
        return (int(fields[11]) + int(fields[12])) / os.sysconf("SC_CLK_TCK")

    def kill(self):
        if self.process.poll() is None:
            self.process.kill()
            self.process.wait()
        for stream in (self.process.stdin, self.process.stdout, self.process.stderr):
            try:
                if stream is not None:
                    stream.close()
            except OSError:
                pass


class Room:
    """Counts the checks of a story, and ends what it started."""

    def __init__(self, program):
        self.program = program
        self.folder = tempfile.mkdtemp(prefix="served-")
        self.started = []
        self.passed, self.failed = 0, []

    def check(self, label, good, seen=""):
        if good:
            self.passed += 1
        else:
            self.failed.append(label)
            print(f"failed: {label}{f': {seen}' if seen != '' else ''}"[:600], flush=True)
        return good

    def equal(self, label, seen, wanted):
        return self.check(label, seen == wanted, f"{seen!r}, not {wanted!r}")

    def eventually(self, label, test, seconds=PATIENCE):
        """The test comes true, within a time that only a failure takes."""
        return self.check(label, self.wait(test, seconds))

    @staticmethod
    def wait(test, seconds=PATIENCE):
        until = time.monotonic() + seconds
        while not test():
            if time.monotonic() > until:
                return False
            time.sleep(0.02)
        return True

    def file(self, name, text):
        path = os.path.join(self.folder, name)
        with open(path, "w") as file:
            file.write(text)
        return path

    def upstream(self, *variables):
        it = Upstream(variables)
        self.started.append(it.stop)
        return it

    def words(self, listen, upstreams, rules=None, groups=None, options=()):
        words = [self.program, "serve", listen, *upstreams, *options]
        for option, name, text in (("--rules", "rules", rules), ("--groups", "groups", groups)):
            if text is not None:
                words += [option, self.file(name, text)]
        return words

    def server(self, *upstreams, rules=None, groups=None, most_files=None, options=(), stderr=subprocess.PIPE):
        """A gateway before these upstreams, listening."""
        for _ in range(5):
            address = ("127.0.0.1", free_port())
            words = self.words(text_of(address), [text_of(up.address) for up in upstreams], rules, groups, options)
            it = Server(words, most_files, stderr=stderr)
            it.address = address
            self.started.append(it.kill)
            if self.wait(lambda: it.printed or it.process.poll() is not None):
                if it.printed == [f"listening {text_of(address)}"]:
                    return it
        raise RuntimeError(f"the server didn't start: {it.printed} {it.logged}")

    def client(self, server, host="desk1", source=None, user="someone"):
        it = Client(server.address, host, source, user)
        self.started.append(it.close)
        return it

    def admitted(self, server):
        """A client that is served; None where it is refused."""
        try:
            it = self.client(server)
            return it if it.echo() else None
        except OSError:
            return None

    def end(self):
        for stop in reversed(self.started):
            try:
                stop()
            except Exception as fault:
                self.check("all that was started ends", False, repr(fault))
        shutil.rmtree(self.folder)


def variable(name, base=ca.LONG, values=(0,), count=None, rights=3, properties=ca.Properties()):
    from ioc import Variable
    return Variable(name, base, list(values), count, rights, properties=properties)
