"""DBR types: where a payload's parts stand, and conversions between bases."""
import struct
from dataclasses import dataclass

from rows import PROPERTIES
from wire import MAX_PAYLOAD, padded

STRING, SHORT, FLOAT, ENUM, CHAR, LONG, DOUBLE = range(7)
ELEMENT = {STRING: 40, SHORT: 2, FLOAT: 4, ENUM: 2, CHAR: 1, LONG: 4, DOUBLE: 8}
PLAIN, STS, TIME, GR, CTRL = range(5)
OFFSET = {
    PLAIN: dict.fromkeys(range(7), 0),
    STS: {STRING: 4, SHORT: 4, FLOAT: 4, ENUM: 4, CHAR: 5, LONG: 4, DOUBLE: 8},
    TIME: {STRING: 12, SHORT: 14, FLOAT: 12, ENUM: 14, CHAR: 15, LONG: 12, DOUBLE: 16},
    GR: {STRING: 4, SHORT: 24, FLOAT: 40, ENUM: 422, CHAR: 19, LONG: 36, DOUBLE: 64},
    CTRL: {STRING: 4, SHORT: 28, FLOAT: 48, ENUM: 422, CHAR: 21, LONG: 44, DOUBLE: 80},
}
LIMITS = {PLAIN: 0, STS: 0, TIME: 0, GR: 6, CTRL: 8}
STATES, STATE_TEXT, UNITS = 16, 26, 8
WIDER = {(CHAR, SHORT), (CHAR, LONG), (SHORT, LONG), (ENUM, LONG)}
AS_TEXT = {(CHAR, STRING), (SHORT, STRING), (LONG, STRING), (ENUM, STRING)}


def base_and_form(dtype):
    """The base and the form of a type, None where it isn't served."""
    return (dtype % 7, dtype // 7) if 0 <= dtype < 35 else None


def time_type(base):
    return base + 14


def type_for(subject, base):
    """The type that a server is asked to tell values or properties in."""
    return base + (28 if subject == PROPERTIES else 14)


def offset(dtype):
    base, form = base_and_form(dtype)
    return OFFSET[form][base]


def size_of(dtype, count):
    return offset(dtype) + ELEMENT[base_and_form(dtype)[0]] * count


def fits(dtype, count):
    return padded(size_of(dtype, count)) <= MAX_PAYLOAD


def converts(native, asked):
    return native == asked or (native, asked) in WIDER | AS_TEXT


def needs_properties(native, dtype):
    """A type can't be told of a variable without its properties: units and limits, or texts."""
    base, form = base_and_form(dtype)
    return (form in (GR, CTRL) and base != STRING) or (native == ENUM and base == STRING)


def number_in(native, element):
    return int.from_bytes(element, "big", signed=native in (SHORT, LONG))


def state_text(number, states):
    """The text of a state, the number where there is none."""
    known = int.from_bytes(states[:2], "big", signed=True)
    if number >= min(known, STATES):
        return str(number).encode()
    start = 2 + number * STATE_TEXT
    return states[start:start + STATE_TEXT].partition(b"\0")[0]


def converted(native, asked, element, states=b""):
    if native == asked:
        return element
    number = number_in(native, element)
    if asked == STRING:
        text = state_text(number, states) if native == ENUM else str(number).encode()
        return text.ljust(40, b"\0")
    return number.to_bytes(ELEMENT[asked], "big", signed=number < 0)


@dataclass
class LastMessage:
    """What is kept of an update: its alarm, its stamp, its elements, and the count asked for."""
    status: int
    severity: int
    seconds: int
    nanoseconds: int
    elements: list
    asked_with: int

    def alarm(self):
        return self.status, self.severity


def read_update(native, count, payload, asked_with):
    """An update in the TIME form of its base."""
    fields = struct.unpack(">HHII", payload[:12])
    start, size = OFFSET[TIME][native], ELEMENT[native]
    elements = [payload[start + n * size:start + (n + 1) * size] for n in range(count)]
    return LastMessage(*fields, elements, asked_with)


@dataclass
class Properties:
    """What a variable tells beside its value, each as its bytes came; no bytes for what it lacks."""
    states: bytes = b""
    precision: bytes = b""
    units: bytes = b""
    limits: tuple = ()


def read_properties(native, payload):
    """The properties in the CTRL form of a base."""
    body, size = payload[4:OFFSET[CTRL][native]], ELEMENT[native]
    if native == STRING:
        return Properties()
    if native == ENUM:
        return Properties(states=body)
    precision = body[:2] if native in (FLOAT, DOUBLE) else b""
    units = body[2 * len(precision):][:UNITS]
    limits = body[2 * len(precision) + UNITS:]
    return Properties(b"", precision, units, tuple(
        limits[n * size:(n + 1) * size] for n in range(LIMITS[CTRL])))


def converted_properties(native, asked, properties):
    """The properties as another base has them: a state has none as a number, a text tells none."""
    if native == asked:
        return properties
    if asked == STRING:
        return Properties()
    if native == ENUM:
        return Properties(units=bytes(UNITS), limits=(bytes(ELEMENT[asked]),) * LIMITS[CTRL])
    limits = tuple(converted(native, asked, limit) for limit in properties.limits)
    return Properties(units=properties.units, limits=limits)


def property_bytes(form, properties):
    precision = properties.precision + bytes(len(properties.precision))
    limits = properties.limits[:LIMITS[form]]
    return properties.states + precision + properties.units + b"".join(limits)


def laid_out(link, dtype, count):
    """How many elements are given of what a link was told, and the payload without its padding."""
    last, native = link.last, link.native
    properties = link.properties if needs_properties(native, dtype) else Properties()
    base, form = base_and_form(dtype)
    shown = last.elements[:count] if count else last.elements
    missing = count - len(shown) if count else 0
    body = b"".join(converted(native, base, element, properties.states) for element in shown)
    front = b""
    if form != PLAIN:
        front = struct.pack(">HH", last.status, last.severity)
    if form == TIME:
        front += struct.pack(">II", last.seconds, last.nanoseconds)
    if form in (GR, CTRL):
        front += property_bytes(form, converted_properties(native, base, properties))
    body += bytes(missing * ELEMENT[base])
    return len(shown) + missing, front.ljust(offset(dtype), b"\0") + body
