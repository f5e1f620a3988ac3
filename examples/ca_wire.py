"""The wire form of Channel Access, as far as a small client and a small server need it.

A message is a header of 16 bytes (24 in the extended form) and a payload, padded with zeros to a
multiple of 8 bytes. All numbers are big-endian.
"""
import socket
import struct
import time
from collections import namedtuple

VERSION, EVENT_ADD, EVENT_CANCEL, WRITE, SEARCH, EVENTS_OFF, EVENTS_ON = 0, 1, 2, 4, 6, 8, 9
ERROR, CLEAR_CHANNEL, READ_NOTIFY, CREATE_CHAN, WRITE_NOTIFY = 11, 12, 15, 18, 19
CLIENT_NAME, HOST_NAME, ACCESS_RIGHTS, ECHO, CREATE_CH_FAIL, SERVER_DISCONN = 20, 21, 22, 23, 26, 27

MINOR = 13  # the minor version that both sides say
NORMAL, BADTYPE, GETFAIL, PUTFAIL, BADCOUNT, NORDACCESS, NOWTACCESS, BADCHID = 1, 114, 152, 160, 176, 368, 376, 410

STRING, SHORT, FLOAT, ENUM, CHAR, LONG, DOUBLE = range(7)
NAMES = ("STRING", "SHORT", "FLOAT", "ENUM", "CHAR", "LONG", "DOUBLE")
LETTERS = ("40s", "h", "f", "H", "B", "i", "d")  # of an element, as struct has them
OFFSETS = ((0, 0, 0, 0, 0, 0, 0), (4, 4, 4, 4, 5, 4, 8), (12, 14, 12, 14, 15, 12, 16),
           (4, 24, 40, 422, 19, 36, 64), (4, 28, 48, 422, 21, 44, 80))  # of the elements, by form
STS, TIME, GR, CTRL = 7, 14, 21, 28  # what the forms add to a type's number
STATES, STATE_TEXT = 16, 26  # the most texts of states, and the bytes of each
VALUE, LOG, ALARM, PROPERTY = 1, 2, 4, 8  # the bits of an event mask
EPOCH = 631_152_000  # the first second of 1990, from which time stamps count

Message = namedtuple("Message", "command dtype count p1 p2 payload")
Value = namedtuple("Value", "values status severity stamp")
# What a variable has beside its value. Limits: upper and lower display, upper alarm, upper warning, lower warning,
# lower alarm, upper and lower control.
Properties = namedtuple("Properties", "units precision limits states", defaults=("", 0, (0,) * 8, ()))


def message(command, payload=b"", dtype=0, count=0, p1=0, p2=0):
    """The bytes of a message."""
    payload += bytes(-len(payload) % 8)
    size = len(payload)
    if size < 0xFFFF and count < 0xFFFF:
        return struct.pack(">HHHHII", command, size, dtype, count, p1, p2) + payload
    return struct.pack(">HHHHIIII", command, 0xFFFF, dtype, 0, p1, p2, size, count) + payload


def text(command, words, **fields):
    """A message whose payload is a text that a NUL ends."""
    return message(command, words.encode() + b"\0", **fields)


def search(name, cid):
    return text(SEARCH, name, dtype=5, count=MINOR, p1=cid, p2=cid)


def found(port, cid):
    """What a server answers to a search."""
    return message(SEARCH, struct.pack(">H", MINOR), dtype=port, p1=0xFFFFFFFF, p2=cid)


def create(name, cid):
    return text(CREATE_CHAN, name, p1=cid, p2=MINOR)


def subscribe(sid, own, dtype, count=0, mask=VALUE | ALARM):
    return message(EVENT_ADD, struct.pack(">12xHxx", mask), dtype, count, sid, own)


def greeting(user="user", host=None):
    """What a client says first."""
    host = socket.gethostname() if host is None else host
    return message(VERSION, count=MINOR) + text(CLIENT_NAME, user) + text(HOST_NAME, host)


class Frames:
    """Takes pieces of bytes, gives whole messages."""

    def __init__(self):
        self.bytes = bytearray()

    def feed(self, piece):
        """The messages that this piece makes whole."""
        self.bytes += piece
        done, messages = 0, []
        while len(self.bytes) - done >= 16:
            command, size, dtype, count, p1, p2 = struct.unpack_from(">HHHHII", self.bytes, done)
            head = 16
            if size == 0xFFFF and count == 0:
                if len(self.bytes) - done < 24:
                    break
                size, count = struct.unpack_from(">II", self.bytes, done + 16)
                head = 24
            if len(self.bytes) - done < head + size:
                break
            payload = bytes(self.bytes[done + head:done + head + size])
            messages.append(Message(command, dtype, count, p1, p2, payload))
            done += head + size
        del self.bytes[:done]
        return messages


def value_offset(dtype):
    """Where the elements begin in a payload of this type."""
    return OFFSETS[dtype // 7][dtype % 7]


def front_letters(dtype):
    """What stands before the elements, as struct has it."""
    base, form = dtype % 7, dtype // 7
    if form < 3 or base == STRING:
        return ("", "hh", "hhII", "hh", "hh")[form]
    if base == ENUM:
        return f"hhh{STATES * STATE_TEXT}s"
    precision = "hxx" if base in (FLOAT, DOUBLE) else ""
    return f"hh{precision}8s{6 if dtype < CTRL else 8}{LETTERS[base]}"


def front_of(dtype, value, properties):
    """The fields that `front_letters` has letters for."""
    base, form = dtype % 7, dtype // 7
    fields = [value.status, value.severity] if form else []
    if form == 2:
        seconds = max(0, value.stamp - EPOCH)
        fields += [int(seconds), int(seconds % 1 * 1e9)]
    if form < 3 or base == STRING:
        return fields
    if base == ENUM:
        texts = (it.encode()[:STATE_TEXT].ljust(STATE_TEXT, b"\0") for it in properties.states)
        return [*fields, len(properties.states), b"".join(texts)]
    precision = [properties.precision] if base in (FLOAT, DOUBLE) else []
    return [*fields, *precision, properties.units.encode(), *properties.limits[:6 if dtype < CTRL else 8]]


def elements(base, values):
    """The bytes of some values of a plain type."""
    if base == STRING:
        values = [value.encode()[:39] for value in values]
    return struct.pack(f">{len(values)}{LETTERS[base]}" if base != STRING else ">" + "40s" * len(values), *values)


def values_in(base, count, payload):
    """As many values of a plain type as the payload has, at most `count`."""
    size = struct.calcsize(LETTERS[base])
    if base == STRING:  # a single one may come short
        return [payload[at:at + 40].split(b"\0")[0].decode(errors="replace") for at in range(0, 40 * count, 40)]
    count = min(count, len(payload) // size)
    return list(struct.unpack_from(f">{count}{LETTERS[base]}", payload))


def payload_of(dtype, value, properties=Properties()):
    """The payload of a type with this value."""
    front = struct.pack(">" + front_letters(dtype), *front_of(dtype, value, properties))
    return front.ljust(value_offset(dtype), b"\0") + elements(dtype % 7, value.values)


def value_of(dtype, count, payload):
    """The value that `payload_of` wrote."""
    status = severity = stamp = 0
    if dtype >= STS:
        status, severity = struct.unpack_from(">hh", payload)
    if dtype // 7 == 2:
        seconds, parts = struct.unpack_from(">II", payload, 4)
        stamp = EPOCH + seconds + parts / 1e9
    return Value(values_in(dtype % 7, count, payload[value_offset(dtype):]), status, severity, stamp)


def as_type(base, values):
    """The same values in another plain type, as a server converts what is written; ValueError where it can't."""
    if base == STRING:
        return [str(value) for value in values]
    if base in (FLOAT, DOUBLE):
        return [float(value) for value in values]
    bits = 8 * struct.calcsize(LETTERS[base])
    whole = [int(float(value)) % (1 << bits) for value in values]
    signed = LETTERS[base] in "hi"
    return [value - (1 << bits) if signed and value >> (bits - 1) else value for value in whole]


class Connection:
    """A client's connection, whose messages are taken one by one; TimeoutError where none comes in time."""

    def __init__(self, address, seconds=30, source=None):
        self.socket = socket.create_connection(address, timeout=seconds, source_address=source)
        self.socket.setsockopt(socket.IPPROTO_TCP, socket.TCP_NODELAY, 1)
        self.seconds = seconds
        self.frames = Frames()
        self.inbox = []
        self.ended = False

    def __enter__(self):
        return self

    def __exit__(self, *_):
        self.socket.close()

    def send(self, *messages):
        self.socket.settimeout(self.seconds)
        self.socket.sendall(b"".join(messages))

    def fill(self, seconds):
        """Waits until something came, or the end, or the time is over; says whether something did."""
        self.socket.settimeout(max(seconds, 0.001))
        try:
            piece = self.socket.recv(1 << 18)
        except (TimeoutError, BlockingIOError):
            return False
        except ConnectionError:
            piece = b""
        self.ended = self.ended or not piece
        self.inbox += self.frames.feed(piece)
        return True

    def take(self, test=lambda _: True, seconds=None):
        """The first message that passes the test, out of those that came and those that come; None at the end."""
        until = time.monotonic() + (self.seconds if seconds is None else seconds)
        looked = 0
        while True:
            for place in range(looked, len(self.inbox)):
                if test(self.inbox[place]):
                    return self.inbox.pop(place)
            looked = len(self.inbox)
            left = until - time.monotonic()
            if self.ended:
                return None
            if left <= 0:
                raise TimeoutError("no such message came")
            self.fill(left)
