"""A server behind the gateway: the stand-in IOC in a thread of its own, which does what a story asks for."""
import queue
import socket
import struct
import threading
import time

import ca_wire as ca
from ioc import Ioc


class Upstream(Ioc):
    """All calls are for the story's thread; what is told of writes is copied."""

    def __init__(self, variables):
        self.kept = variables
        self.address = self.listener = None
        self.thread = None
        self.writes = []  # name, type, count and payload of each
        self.statuses = {}  # what writes of a name are answered with; None for no answer
        self.start()

    def start(self):
        """Listens, at the same address as before."""
        place = self.address or ("127.0.0.1", 0)
        for _ in range(50):
            try:
                super().__init__(place, self.kept)
                break
            except OSError:  # TCP's port is taken for UDP, or another has it for a while
                if self.listener:
                    self.listener.close()
                time.sleep(0.01)
        else:
            raise OSError(f"nothing can listen at {place}")
        self.channels = []  # client, CID, SID and variable of each that was made
        self.calls = queue.Queue()
        self.bell, self.button = socket.socketpair()
        self.bell.setblocking(False)
        self.selector.register(self.bell, 1)
        self.thread = threading.Thread(target=self.loop, daemon=True)
        self.thread.start()

    def loop(self):
        while True:
            self.turn(1)
            try:
                while self.bell.recv(1024):
                    pass
            except BlockingIOError:
                pass
            while not self.calls.empty():
                call, done = self.calls.get()
                if call is None:
                    self.close()
                done.put(call() if call else None)
                if call is None:
                    return

    def do(self, call):
        """Performs a call in the IOC's thread, and answers what it does."""
        done = queue.Queue()
        self.calls.put((call, done))
        self.button.send(b"x")
        return done.get(timeout=60)

    def stop(self):
        """Ends, with its connections and its port."""
        if self.thread:
            self.do(None)
            self.thread.join(60)
            self.thread = None
            self.bell.close()
            self.button.close()

    def opened(self, client, cid, sid, variable):
        self.channels.append((client, cid, sid, variable))

    def written(self, client, it, variable):
        self.writes.append((variable.name, it.dtype, it.count, it.payload))
        status = self.statuses.get(variable.name, ca.NORMAL)
        return super().written(client, it, variable) if status == ca.NORMAL else status

    def give(self, name, values, status=0, severity=0):
        self.do(lambda: self.set(name, values, status, severity))

    def tell_properties(self, name, properties):
        self.do(lambda: self.describe(name, properties))

    def subscriptions(self, name):
        """Mask, type and count of each subscription of a variable."""
        return self.do(lambda: [(it.mask, it.asked.dtype, it.asked.count) for it in self.variables[name].subscriptions])

    def say_to(self, name, make):
        """Sends to each open channel of a variable what `make` makes of its CID and SID."""
        def call():
            for client, cid, sid, variable in self.channels:
                if variable.name == name and sid in client.channels:
                    client.say(make(cid, sid))
        self.do(call)

    def set_rights(self, name, rights):
        self.do(lambda: setattr(self.variables[name], "rights", rights))
        self.say_to(name, lambda cid, _: ca.message(ca.ACCESS_RIGHTS, p1=cid, p2=rights))

    def disconnect(self, name):
        self.say_to(name, lambda cid, _: ca.message(ca.SERVER_DISCONN, p1=cid))

    def fail_updates(self, name, status):
        """Says an update that failed to each subscription of a variable."""
        def call():
            for it in list(self.variables[name].subscriptions):
                it.client.say(ca.message(ca.EVENT_ADD, b"", it.asked.dtype, it.asked.count, status, it.asked.p2))
        self.do(call)

    def cut_connections(self):
        """Resets each connection, and goes on listening."""
        def call():
            for client in list(self.clients.values()):
                client.link.setsockopt(socket.SOL_SOCKET, socket.SO_LINGER, struct.pack("ii", 1, 0))
                self.drop(client)
        self.do(call)

    def count_clients(self):
        return self.do(lambda: len(self.clients))
