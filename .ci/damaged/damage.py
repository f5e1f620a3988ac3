"""What is done to a script, and what it then has to print.

A damage is a place and a kind. The place is `LINE.NUMBER`, lines counted from 1 and the rest from 0:

- of a byte that a connection or a datagram brings: `cut` (nothing of that stream comes from here on), `gap` (what is left of its
  line doesn't come, its later lines do), `00` and `ff` (the byte is that one);
- of a word: `drop`, `double`;
- of a character of a line: `short` (the line ends here), `part` (the word ends here), `byte` (the character is FF, no UTF-8).
"""
from array import array
from bisect import bisect_right
from itertools import accumulate

from damaged import lines

# Of a line with more messages than this only so many at its beginning and its end are damaged, and as many between, since they
# are alike and the plain gateway takes seconds for thousands; and so for the lines of a script that has more of them.
MANY, ENDS_OF_MANY = 64, 2
MANY_LINES, ENDS_OF_LINES = 160, 16

# With more clients, channels and subscriptions than this the plain gateway takes seconds for a script: of the damage that is left
# so many of a family are done, evenly chosen.
MANY_ROWS, FEW = 1_000, 64
MAKE_ROWS = (b"\0\x01", b"\0\x12")  # EVENT_ADD, CREATE_CHAN

STREAMS = (b"client ", b"server ")
SET = {"00": 0x00, "ff": 0xFF}
# Of a longer word only the characters at its ends are damaged.
LONG_WORD, ENDS = 24, 12


class Span:
    """Damage of one kind to one line, at a list of places."""

    def __init__(self, line, kind, places, make):
        self.line, self.kind, self.places, self.make = line, kind, places, make


def bytes_of(line):
    """What stands before a line's bytes, and these; None where it brings none."""
    if not line.startswith((*STREAMS, b"search ")) or not lines.is_good(line):
        return None
    head, _, word = line.rpartition(b" ")
    return head + b" ", b"" if word == b"-" else bytes.fromhex(word.decode())


def messages(data):
    """The places behind the whole messages of some bytes."""
    done, behind = 0, []
    while len(data) - done >= 16:
        size, count, head = int.from_bytes(data[done + 2:done + 4], "big"), int.from_bytes(data[done + 6:done + 8], "big"), 16
        if (size, count) == (0xFFFF, 0):
            size, head = int.from_bytes(data[done + 16:done + 20], "big"), 24
        done += head + size
        if done > len(data):
            break
        behind.append(done)
    return behind


def some(count, most, ends):
    """The numbers below a count, or some of them where they are too many."""
    if count <= most:
        return list(range(count))
    between = [count * it // (ends + 1) for it in range(1, ends + 1)]
    return sorted({*range(ends), *between, *range(count - ends, count)})


def is_wide(script):
    """Whether not all of a script is damaged, unless it is asked for."""
    return len(script.lines) > MANY_LINES or any(
        len(messages(data[1])) > MANY for data in map(bytes_of, script.lines) if data and len(data[1]) > 16 * MANY)


def is_slow(script):
    """Whether a script makes so many rows that the plain gateway takes seconds for it."""
    rows = sum(line.startswith(b"open ") for line in script.lines)
    for data in [found[1] for found in map(bytes_of, script.lines) if found]:
        rows += sum(data[begin:begin + 2] in MAKE_ROWS for begin in [0, *messages(data)])
    return rows > MANY_ROWS


def hexadecimal(data):
    return data.hex().encode() or b"-"


def later_lines(script, place):
    """The lines of the same connection behind this one, up to where it is lost or opened again."""
    name = script.lines[place].split(b" ")[1]
    for later in range(place + 1, len(script.lines)):
        words = script.lines[later].split(b" ")
        if words[:2] in ([b"lost", name], [b"open", name]):
            return
        if words[0] + b" " in STREAMS and words[1:2] == [name]:
            yield later


def few(spans, most):
    """So many of the damages at most, evenly chosen."""
    all_places = [(span, place) for span in spans for place in span.places]
    count = len(all_places)
    chosen = all_places if count <= most else [all_places[count * it // most] for it in range(most)]
    return [Span(span.line, span.kind, [place for of, place in chosen if of is span], span.make) for span in spans]


class Damages:
    """All the damage that is done to a script: of streams and datagrams, or of its lines as text."""

    def __init__(self, script, family, every=False):
        self.script, self.every = script, every
        self.spans = list({"bytes": self.of_streams, "datagrams": self.of_datagrams, "lines": self.of_lines}[family]())
        if not every and is_slow(script):
            self.spans = few(self.spans, FEW)
        self.ends = list(accumulate(len(span.places) for span in self.spans))
        self.count = self.ends[-1] if self.ends else 0

    def at(self, number):
        """A damage by its number: its span and its place in the line."""
        span = self.spans[bisect_right(self.ends, number)]
        return span, span.places[number - self.ends[bisect_right(self.ends, number)]]

    def called(self, text):
        """A damage by its name, as `12.5:ff`."""
        place, _, kind = text.partition(":")
        line, _, number = place.partition(".")
        for span in self.spans:
            if (str(span.line + 1), span.kind) == (line, kind) and int(number) in span.places:
                return span, int(number)
        return None

    def made(self, span, place):
        """The lines of the damaged script."""
        return span.make(span.line, place)

    def entry_lines(self):
        """The lines that are performed, up to the first bad one."""
        return [place for place, behind in lines.entries(self.script.lines) if behind is not None]

    def bytes_at(self, line):
        """The bytes of a line, and the places among them that are damaged."""
        data = bytes_of(self.script.lines[line])[1]
        behind = messages(data)
        if self.every or len(behind) <= MANY:
            return data, array("I", range(len(data)))
        whole = [range(begin, end) for begin, end in zip([0, *behind], behind)]
        return data, array("I", [place for it in some(len(whole), MANY, ENDS_OF_MANY) for place in whole[it]])

    def of_streams(self):
        for line in self.entry_lines():
            if self.script.lines[line].startswith(STREAMS):
                data, places = self.bytes_at(line)
                yield Span(line, "cut", places, self.cut)
                if any(True for _ in later_lines(self.script, line)):
                    yield Span(line, "gap", places, self.gap)
                yield from self.set_bytes(line, data, places)

    def of_datagrams(self):
        for line in self.entry_lines():
            if self.script.lines[line].startswith(b"search "):
                data, places = self.bytes_at(line)
                yield Span(line, "cut", places, self.gap)
                yield from self.set_bytes(line, data, places)

    def set_bytes(self, line, data, places):
        for kind, value in SET.items():
            other = array("I", (place for place in places if data[place] != value))
            yield Span(line, kind, other, lambda line, place, value=value: self.set(line, place, value))

    def replaced(self, line, text):
        return [*self.script.lines[:line], text, *self.script.lines[line + 1:]]

    def gap(self, line, place):
        head, data = bytes_of(self.script.lines[line])
        return self.replaced(line, head + hexadecimal(data[:place]))

    def cut(self, line, place):
        changed = self.gap(line, place)
        for later in later_lines(self.script, line):
            changed[later] = bytes_of(changed[later])[0] + b"-"
        return changed

    def set(self, line, place, value):
        head, data = bytes_of(self.script.lines[line])
        return self.replaced(line, head + hexadecimal(data[:place] + bytes([value]) + data[place + 1:]))

    def of_lines(self):
        count = len(self.script.lines)
        for line in range(count) if self.every else some(count, MANY_LINES, ENDS_OF_LINES):
            text = self.script.lines[line]
            words = text.split(b" ")
            for kind, make in (("drop", self.drop), ("double", self.double)):
                yield Span(line, kind, range(len(words)), make)
            at = characters(words)
            yield Span(line, "short", at, lambda line, place: self.replaced(line, self.script.lines[line][:place]))
            yield Span(line, "byte", at, self.no_text)
            yield Span(line, "part", array("I", (it for it in at if text[it:it + 1] != b" ")), self.part)

    def drop(self, line, place):
        words = self.script.lines[line].split(b" ")
        return self.replaced(line, b" ".join(words[:place] + words[place + 1:]))

    def double(self, line, place):
        words = self.script.lines[line].split(b" ")
        return self.replaced(line, b" ".join(words[:place + 1] + words[place:]))

    def no_text(self, line, place):
        text = self.script.lines[line]
        return self.replaced(line, text[:place] + b"\xff" + text[place + 1:])

    def part(self, line, place):
        text = self.script.lines[line]
        end = text.find(b" ", place)
        return self.replaced(line, text[:place] + (b"" if end < 0 else text[end:]))


def characters(words):
    """The places of characters that are damaged."""
    places, at = array("I"), 0
    for word in words:
        ends = range(len(word) + 1) if len(word) <= LONG_WORD else [*range(ENDS), *range(len(word) - ENDS, len(word) + 1)]
        places.extend(at + it for it in ends)
        at += len(word) + 1
    places.pop()  # behind the last character
    return places
