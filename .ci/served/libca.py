"""The client library of EPICS base, by ctypes: channels whose calls wait, and lists of what callbacks told."""
import ctypes
import os
import queue
import struct

import ca_wire as ca

LIBRARIES = ("libCom.so.3.17.6", "libca.so.4.13.5")
PATIENCE = 60
CONNECTED = 2  # of ca_state
UP, DOWN = 6, 7  # of a connection callback


class Event(ctypes.Structure):
    _fields_ = [("user", ctypes.c_void_p), ("channel", ctypes.c_void_p), ("dtype", ctypes.c_long), ("count", ctypes.c_long),
                ("dbr", ctypes.c_void_p), ("status", ctypes.c_int)]


class Change(ctypes.Structure):
    _fields_ = [("channel", ctypes.c_void_p), ("op", ctypes.c_long)]


class Rights(ctypes.Structure):
    _fields_ = [("channel", ctypes.c_void_p), ("bits", ctypes.c_uint)]


class Trouble(ctypes.Structure):
    _fields_ = [("user", ctypes.c_void_p), ("channel", ctypes.c_void_p), ("dtype", ctypes.c_long), ("count", ctypes.c_long),
                ("dbr", ctypes.c_void_p), ("status", ctypes.c_long), ("op", ctypes.c_long), ("context", ctypes.c_char_p),
                ("file", ctypes.c_char_p), ("line", ctypes.c_uint)]


ON_EVENT = ctypes.CFUNCTYPE(None, Event)
ON_CHANGE = ctypes.CFUNCTYPE(None, Change)
ON_RIGHTS = ctypes.CFUNCTYPE(None, Rights)
ON_TROUBLE = ctypes.CFUNCTYPE(None, Trouble)


def is_installed():
    try:
        for name in LIBRARIES:
            ctypes.CDLL(name, ctypes.RTLD_GLOBAL)
    except OSError:
        return False
    return True


def bytes_in(dtype, count, place):
    """The bytes of a value in memory, in the order of the wire."""
    base, offset = dtype % 7, ca.value_offset(dtype)
    size = struct.calcsize(ca.LETTERS[base])
    raw = ctypes.string_at(place, offset + size * count)
    letters = ca.front_letters(dtype)
    front = struct.pack(f">{letters}", *struct.unpack_from(f"={letters}", raw))
    if base == ca.STRING:
        # What follows a text's NUL is nobody's.
        body = b"".join(raw[at:at + 40].split(b"\0")[0].ljust(40, b"\0") for at in range(offset, len(raw), 40))
    else:
        letter = ca.LETTERS[base]
        body = struct.pack(f">{count}{letter}", *struct.unpack_from(f"={count}{letter}", raw, offset))
    return front.ljust(offset, b"\0") + body


class Library:
    """One context of the library, with callbacks in threads of its own, which searches at one address: by datagram, or on a connection."""

    def __init__(self, address, repeater, by_datagram=True):
        place = f"{address[0]}:{address[1]}"
        os.environ |= {"EPICS_CA_ADDR_LIST": place if by_datagram else "", "EPICS_CA_AUTO_ADDR_LIST": "NO",
                       "EPICS_CA_NAME_SERVERS": "" if by_datagram else place,
                       "EPICS_CA_MAX_SEARCH_PERIOD": "60", "EPICS_CA_REPEATER_PORT": str(repeater), "EPICS_CA_MAX_ARRAY_BYTES": "2000000"}
        for name in LIBRARIES:
            self.calls = ctypes.CDLL(name, ctypes.RTLD_GLOBAL)
        self.calls.ca_host_name.restype = ctypes.c_char_p
        self.calls.ca_field_type.restype = ctypes.c_short
        self.calls.ca_element_count.restype = ctypes.c_ulong
        self.kept = []  # callbacks, which the library calls as long as it lives
        self.exceptions = []
        self.call("ca_context_create", 1)
        self.call("ca_add_exception_event", self.keep(ON_TROUBLE(self.troubled)), None)

    def troubled(self, it):
        # A lost connection is told as 200 (disconnected) in a context of its own; it is what stories make.
        if it.status >> 3 != 24:
            self.exceptions.append((it.status, (it.context or b"").decode()))

    def keep(self, callback):
        self.kept.append(callback)
        return callback

    def call(self, name, *words):
        status = getattr(self.calls, name)(*words)
        if status != ca.NORMAL:
            raise RuntimeError(f"{name}: {status}")

    def channel(self, name):
        return LibraryChannel(self, name)

    def flush(self):
        self.calls.ca_flush_io()

    def end(self):
        self.calls.ca_context_destroy()


class Reply:
    """What a callback is going to tell, once."""

    def __init__(self):
        self.told = queue.Queue()

    def hear(self, it):
        payload = bytes_in(it.dtype, it.count, it.dbr) if it.dbr and it.status == ca.NORMAL else b""
        self.told.put((it.status, it.count, payload, it.dtype))

    def wait(self):
        return self.told.get(timeout=PATIENCE)


class Watch:
    """A subscription and what it told so far."""

    def __init__(self, library, own):
        self.library, self.own, self.seen = library, own, []

    def hear(self, it):
        if it.status == ca.NORMAL and it.dbr:
            self.seen.append((it.dtype, it.count, bytes_in(it.dtype, it.count, it.dbr)))

    def values(self):
        return [ca.value_of(*it).values for it in list(self.seen)]

    def clear(self):
        self.library.call("ca_clear_subscription", self.own)
        self.library.flush()


class LibraryChannel:
    def __init__(self, library, name):
        self.library, self.calls, self.own = library, library.calls, ctypes.c_void_p()
        self.changes, self.rights = [], []
        callback = library.keep(ON_CHANGE(lambda it: self.changes.append(it.op)))
        library.call("ca_create_channel", name.encode(), callback, None, 0, ctypes.byref(self.own))
        library.call("ca_replace_access_rights_event", self.own, library.keep(ON_RIGHTS(self.heard_rights)))
        library.flush()

    def heard_rights(self, it):
        self.rights.append((bool(it.bits & 1), bool(it.bits & 2)))

    def is_connected(self):
        return self.calls.ca_state(self.own) == CONNECTED

    def facts(self):
        """Type, count, and whether it may be read and written."""
        return (self.calls.ca_field_type(self.own), self.calls.ca_element_count(self.own), bool(self.calls.ca_read_access(self.own)),
                bool(self.calls.ca_write_access(self.own)))

    def host(self):
        return self.calls.ca_host_name(self.own).decode()

    def start_get(self, dtype, count):
        reply = Reply()
        callback = self.library.keep(ON_EVENT(reply.hear))
        status = self.calls.ca_array_get_callback(dtype, ctypes.c_ulong(count), self.own, callback, None)
        if status != ca.NORMAL:
            reply.told.put((status, 0, b"", dtype))
        self.library.flush()
        return reply

    def get(self, dtype, count):
        """Status, count, payload and type of a read."""
        return self.start_get(dtype, count).wait()

    def memory(self, base, values):
        """Values as the library wants them."""
        if base == ca.STRING:
            return b"".join(it.encode().ljust(40, b"\0") for it in values)
        return struct.pack(f"={len(values)}{ca.LETTERS[base]}", *values)

    def put(self, base, values):
        """The status of a write with its reply."""
        reply = Reply()
        callback = self.library.keep(ON_EVENT(reply.hear))
        status = self.calls.ca_array_put_callback(base, ctypes.c_ulong(len(values)), self.own, self.memory(base, values), callback, None)
        self.library.flush()
        return status if status != ca.NORMAL else reply.wait()[0]

    def put_alone(self, base, values):
        status = self.calls.ca_array_put(base, ctypes.c_ulong(len(values)), self.own, self.memory(base, values))
        self.library.flush()
        return status

    def watch(self, dtype, count, mask):
        own = ctypes.c_void_p()
        it = Watch(self.library, own)
        callback = self.library.keep(ON_EVENT(it.hear))
        self.library.call("ca_create_subscription", dtype, ctypes.c_ulong(count), self.own, mask, callback, None, ctypes.byref(own))
        self.library.flush()
        return it

    def clear(self):
        self.library.call("ca_clear_channel", self.own)
        self.library.flush()
