"""Messages of Channel Access: headers, framing, and texts in payloads."""
import struct
from typing import NamedTuple, Optional

MAX_PAYLOAD = 16_777_216
MOST_OF_NAME, MOST_OF_WORD = 255, 127
VERSION, EVENT_ADD, EVENT_CANCEL, WRITE = 0, 1, 2, 4
SEARCH, EVENTS_OFF, EVENTS_ON, ERROR, CLEAR_CHANNEL = 6, 8, 9, 11, 12
READ_NOTIFY, CREATE_CHAN, WRITE_NOTIFY, CLIENT_NAME, HOST_NAME = 15, 18, 19, 20, 21
ACCESS_RIGHTS, ECHO, CREATE_CH_FAIL, SERVER_DISCONN = 22, 23, 26, 27
NO_CHANNEL = 0xFFFFFFFF


class Message(NamedTuple):
    command: int
    dtype: int
    count: int
    p1: int
    p2: int
    payload: bytes


def padded(length):
    return (length + 7) // 8 * 8


def filled(payload):
    """A payload, filled up with zero bytes."""
    return payload.ljust(padded(len(payload)), b"\0")


def head(command, size, dtype, count, p1, p2):
    """A header in its canonical form."""
    if size >= 0xFFFF or count >= 0xFFFF:
        plain = struct.pack(">HHHHII", command, 0xFFFF, dtype, 0, p1, p2)
        return plain + struct.pack(">II", size, count)
    return struct.pack(">HHHHII", command, size, dtype, count, p1, p2)


def message(command, dtype, count, p1, p2, payload=b""):
    """A whole message, its payload filled up with zero bytes."""
    payload = filled(payload)
    return head(command, len(payload), dtype, count, p1, p2) + payload


def read_one(data):
    """The first message of the bytes and its length, None where more are needed, or the word for a
    framing fault."""
    if len(data) < 16:
        return None
    command, size, dtype, count, p1, p2 = struct.unpack(">HHHHII", data[:16])
    start = 16
    if size == 0xFFFF and count == 0:
        if len(data) < 24:
            return None
        size, count = struct.unpack(">II", data[16:24])
        start = 24
    if size % 8:
        return "misaligned"
    if size > MAX_PAYLOAD:
        return "toolarge"
    if len(data) < start + size:
        return None
    return Message(command, dtype, count, p1, p2, data[start:start + size]), start + size


def framed(data):
    """The whole messages of the bytes, what is left behind them, and the word for a fault."""
    messages = []
    while True:
        read = read_one(data)
        if read is None:
            return messages, data, None
        if isinstance(read, str):
            return messages, data, read
        messages.append(read[0])
        data = data[read[1]:]


def is_word(text, most=MOST_OF_WORD):
    """Whether a text is a host or a group, or with another limit a name."""
    data = text.encode()
    return 1 <= len(data) <= most and all(33 <= byte <= 126 for byte in data)


def is_name(text):
    """Whether a text is the name of a variable."""
    return is_word(text, MOST_OF_NAME)


def nul_ended(payload, is_read) -> Optional[str]:
    """The name or the host up to the first NUL of a payload, if it is one."""
    text, nul, _ = payload.partition(b"\0")
    if not nul or not all(33 <= byte <= 126 for byte in text):
        return None
    return text.decode() if is_read(text.decode()) else None
