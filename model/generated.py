"""Scripts and rule files, each made from a random source alone, so that a seed makes it again."""
import struct

import values
import wire
from rows import FIRST, LAST, PROPERTIES, VALUES
from wire import message

NAMES = ["T1", "T2", "A:SET", "A:SP", "B"]
HOSTS = ["lab7", "LAB7", "10.0.0.5", "desk1"]
TYPES = [5] * 6 + [19, 19, 12, 0, 0, 14, 4, 1, 3, 6, 2, 20, 7, 35]
TYPES += [33, 33, 26, 26, 31, 24, 28, 21, 22, 27, 29, 30, 34]
BASES = [values.LONG] * 5 + [values.ENUM] * 3 + [
    values.STRING, values.SHORT, values.CHAR, values.DOUBLE, values.FLOAT]
COUNTS = [1] * 4 + [0, 2, 3, 4, 5, 20]
SIDS = [1, 1, 1, 2, 2, 3, 4, 9]
RULES = [
    ".* ALLOW", ".* ALLOW ops 1", "T1 DENY", "T1 ALIAS T2", "A:SET ALIAS A:SP ops",
    "\\(.*\\):SET ALIAS \\1:SP ops", "T1 DENY FROM lab7", "T. ALLOW g2", "B DENY", "B ALIAS T1 ops",
    "EVALUATION ORDER DENY, ALLOW", "# nothing", ".* DENY FROM desk1", ".* ALLOW g2 0", "T1 ALLOW ops 0",
]
FAULTY_RULES = ["A", "[A ALLOW", "T1 PERMIT", "X DENY FROM"]
GROUPS = ["ops READ", "ops NONE", "g2 WRITE", "ops WRITE", "g2 READ"]
USERS = ["me", "you", "Me"]
LISTED = ["UAG", "HAG"]
MEMBERS = {"UAG": [*USERS, '"me"', "him"], "HAG": [*HOSTS, '"DESK1"', "lab8"]}
LISTS = ["a", "b", '"c"']
SECURED = ["DEFAULT", "ops", '"g2"']
HEADS = ["(1, READ)", "(1,WRITE)", "(0, READ)", "(0, WRITE)", "(1, NONE)", "(1, WRITE, TRAPWRITE)", "( 0 , WRITE,NOTRAPWRITE )"]
FAULTY_ACCESS = [
    "RULE", "ASG(ops {", "UAG(a) {me,}", 'HAG("a', "é", "}", "{", "ASG(ops) { CALC(\"A=1\") }", "INPA(x)", "METHOD(\"ca\")",
    "ASG(x y)", "UAG() {}", "ASG(z) { RULE(2, READ) }", "ASG(z) { RULE(1, MAYBE) }", "ASG(z) { RULE(1, READ, TRAP) }",
    "ASG(z) { RULE(1, READ) { UAG(none) } }", "ASG(z) { RULE(1, READ) { HAG(none) } }", "ASG(z) { RULE(1, READ) { ASG(ops) } }",
    "ASG(z) { RULE(1, READ) {", "asg(ops)", '"ASG"(ops)', "HAG(x) me", "ASG(z) { UAG(a) {me} }", "UAG(\"a b\") {}", "UAG(d) {me you}",
]
LIMITS = [
    "sessions", "servers", "links", "searches", "share", "channels", "subscriptions", "reads",
    "writes", "searches", "share",
]
FLAGS = ["makes-room", "passes-over-gone", "answers-searches"] * 3 + ["reuses-numbers", "tells-unreadable", "checks-hosts"]


def text(word):
    return word.encode() + b"\0"


class Scripts:
    """Scripts of a few clients, servers and names."""

    def __init__(self, source):
        self.source = source
        self.lines = []
        self.base = self.pick(BASES)
        self.first = FIRST

    def nth(self, number):
        """The number that is given out so late, where the first is given out first; they may come again."""
        return self.first + (number - 1) % (LAST + 1 - self.first)

    def sid(self):
        return self.nth(self.pick(SIDS))

    def pick(self, *choices):
        return self.source.choice(choices[0] if len(choices) == 1 else choices)

    def chance(self, part):
        return self.source.random() < part

    def native(self):
        """The base of a variable, which is mostly that of the script."""
        return self.base if self.chance(0.8) else self.pick(BASES)

    def type(self):
        """A type that may be asked for: mostly one that the script's base is had as."""
        if self.chance(0.3):
            return self.pick(TYPES)
        bases = [base for base in range(7) if values.converts(self.base, base)]
        return self.pick(bases) + 7 * self.pick(0, 0, 1, 2, 2, 3, 4, 4)

    def bytes(self, count):
        return bytes(self.source.randrange(256) for _ in range(count))

    def add(self, *words):
        self.lines.append(" ".join(str(word) for word in words))

    def script(self):
        self.begin()
        kinds = [self.client_line] * 40 + [self.server_line] * 28 + [self.found] * 6
        kinds += [self.search] * 5 + [self.edit] * 4 + [self.question] * 8
        kinds += [self.connection] * 4 + [self.flow] * 3 + [self.meet] * 3 + [self.upkeep] * 3
        for _ in range(self.source.randint(5, 60)):
            self.pick(kinds)()
        return "\n".join(self.lines) + "\n"

    def begin(self):
        for _ in range(self.pick(0, 0, 0, 1, 2, 4)):
            self.limit()
        for chance, line in [(0.2, "limit passes-over-gone 1"), (0.3, "limit answers-searches 1"),
                             (0.1, "limit checks-hosts 1"), (0.9, "open s1 10.0.0.5"), (0.7, f"open s2 {self.pick(HOSTS)}"),
                             (0.9, "open u1"), (0.6, "open u2")]:
            if self.chance(chance):
                self.add(line)
        for session in ("s1", "s2"):
            if self.chance(0.5):
                self.add("client", session, message(wire.CLIENT_NAME, 0, 0, 0, 0, text(self.pick(USERS))).hex())
        if self.chance(0.3):
            self.edit()
        if self.chance(0.7):
            self.add("server", "u1", message(wire.VERSION, 0, 13, 0, 0).hex())
        if self.chance(0.8):
            self.serve("T1", 1, 1)
        if self.chance(0.5):
            self.serve("T2", self.pick(1, 2), 2)
        if self.chance(0.8):
            self.meet()

    def serve(self, name, server, cid):
        """A name is wanted, found and connected, and channels are made on it."""
        create = message(wire.CREATE_CHAN, 0, 0, 7, 13, text(name)).hex()
        link = self.nth(cid)
        made = message(wire.ACCESS_RIGHTS, 0, 0, link, 3)
        made += message(wire.CREATE_CHAN, self.native(), self.pick(1, 3), link, 100 + cid)
        self.add("client", self.pick("s1", "s1", "s1", "s2"), create)
        self.add("found", name, f"u{server}")
        self.add("server", f"u{server}", made.hex())
        for _ in range(2):
            self.add("client", self.session(), create)

    def meet(self):
        """A client asks, and a server tells what it may have been asked."""
        for _ in range(self.source.randint(1, 6)):
            self.client_line()
            self.add("client", self.session(), self.pick(self.event_add, self.read_notify)().hex())
            self.add("server", f"u{self.pick(1, 1, 1, 2)}", self.updates().hex())

    def session(self):
        return f"s{self.pick(1, 1, 1, 2, 2, 3)}"

    def server(self):
        return f"u{self.pick(1, 1, 1, 2, 2, 3)}"

    def several(self, one, cut):
        said = b"".join(one() for _ in range(self.pick(1, 1, 1, 2, 3)))
        if self.chance(cut):
            said = said[:self.source.randrange(len(said) + 1)]
        return said.hex() or "-"

    def client_line(self):
        self.add("client", self.session(), self.several(self.request, 0.03))

    def server_line(self):
        self.add("server", self.server(), self.several(self.reply, 0.02))

    def request(self):
        kinds = [self.create] * 25 + [self.event_add] * 20 + [self.read_notify] * 15
        kinds += [self.on_channel] * 10 + [self.plain_request] * 14 + [self.write] * 7
        return self.pick(kinds)()

    def create(self):
        name = text(self.pick(NAMES))
        if self.chance(0.05):
            name = self.pick(b"", b"x" * 8, b"\0", b"a b\0")
        return message(wire.CREATE_CHAN, 0, 0, self.pick(7, 8, 9), 13, name)

    def event_add(self):
        events = bytes(12) + struct.pack(">HH", self.pick(1, 1, 4, 5, 2, 7, 8, 9, 15, 24, 0), 0)
        payload = events if self.chance(0.95) else bytes(8)
        dtype, count, sid = self.type(), self.pick(COUNTS), self.sid()
        return message(wire.EVENT_ADD, dtype, count, sid, self.pick(31, 32, 33, 34), payload)

    def read_notify(self):
        dtype, count, sid = self.type(), self.pick(COUNTS), self.sid()
        return message(wire.READ_NOTIFY, dtype, count, sid, self.pick(21, 22))

    def on_channel(self):
        if self.chance(0.6):
            return message(wire.EVENT_CANCEL, 5, 1, self.sid(), self.pick(31, 32, 33, 34))
        return message(wire.CLEAR_CHANNEL, 0, 0, self.sid(), self.pick(7, 8, 9))

    def plain_request(self):
        return self.pick(
            message(wire.EVENTS_OFF, 0, 0, 0, 0), message(wire.EVENTS_ON, 0, 0, 0, 0),
            message(wire.EVENTS_ON, 0, 0, 0, 0),
            message(wire.HOST_NAME, 0, 0, 0, 0, self.pick(text(self.pick(HOSTS)), b"  ")),
            message(wire.CLIENT_NAME, 0, 0, 0, 0, self.pick(text("me"), text("you"), b" ")),
            message(wire.VERSION, 0, self.pick(13, 13, 11, 9, 8), 0, 0),
            message(wire.ECHO, self.pick(0, 3), self.pick(0, 70_000), 5, 6, bytes(self.pick(0, 8))),
            message(self.pick(3, 7, 99, 27), 1, 1, 1, 1),
            message(wire.SEARCH, 5, 13, 17, 99, self.pick(text(self.pick(NAMES)), text(self.pick(NAMES)), b"  ")))

    def write(self):
        command, dtype = self.pick(wire.WRITE, wire.WRITE_NOTIFY), self.pick(5, 5, 0, 4, 6, 7)
        count, sid = self.pick(COUNTS), self.sid()
        payload = self.bytes(self.pick(0, 4, 8, 8, 16, 40))
        return message(command, dtype, count, sid, self.pick(41, 42), payload)

    def reply(self):
        cid = self.nth(self.pick(1, 1, 2, 2, 3, 4, 5, 9))
        rights, minor = self.pick(3, 3, 3, 1, 0, 2, 7), self.pick(13, 12, 0)
        ioid = self.nth(self.pick(1, 2, 3))
        kinds = [self.update] * 20 + [self.description] * 10 + [self.updates] * 20
        kinds += [lambda: self.made(cid)] * 25
        kinds += [lambda: message(wire.ACCESS_RIGHTS, 0, 0, cid, rights)] * 20
        kinds += [lambda: message(wire.CREATE_CH_FAIL, 0, 0, cid, 0)] * 4
        kinds += [lambda: message(wire.SERVER_DISCONN, 0, 0, cid, 0)] * 4
        kinds += [lambda: message(wire.VERSION, 0, minor, 0, 0)] * 4
        kinds += [lambda: message(wire.WRITE_NOTIFY, 5, 1, self.pick(1, 160), ioid)] * 5
        kinds += [lambda: message(self.pick(6, 17, 11), 0, 0, 0, 0)] * 3
        return self.pick(kinds)()

    def made(self, cid):
        dtype = self.native() if self.chance(0.95) else 7
        count = self.pick(1, 1, 3, 20, 0)
        return message(wire.CREATE_CHAN, dtype, count, cid, self.pick(101, 102, 103))

    def updates(self):
        """Both kinds under each of the first IDs: those that don't count are passed over."""
        return b"".join(
            self.update(number) + self.description(number) for number in range(1, self.pick(3, 6, 9)))

    def update(self, number=None):
        base, count = self.native(), self.pick(1, 1, 1, 0, 2, 3, 20)
        dtype = values.type_for(VALUES, base) if self.chance(0.95) else base
        alarm = self.pick(0, 0, 3), self.pick(0, 0, 1)
        fields = struct.pack(">HHII", *alarm, self.pick(5, 1000), 7)
        value = self.bytes(values.ELEMENT[base] * count)
        payload = fields.ljust(values.OFFSET[values.TIME][base], b"\0") + value
        if self.chance(0.05):
            payload = payload[:8]
        status, sub = self.pick(1, 1, 1, 1, 1, 152), number or self.pick(1, 1, 2, 3, 4, 5, 6)
        return message(wire.EVENT_ADD, dtype, count, status, self.nth(sub), payload)

    def description(self, number=None):
        """What a server tells of properties, mostly in a CTRL type."""
        base, count = self.native(), self.pick(1, 1, 1, 0, 0, 2)
        dtype = values.type_for(PROPERTIES, base) if self.chance(0.95) else base + 21
        payload = bytes(4) + self.bytes(values.size_of(dtype, count) - 4)
        if base == values.ENUM:
            states = struct.pack(">H", self.pick(2, 2, 3, 16, 17, 0, 65_535))
            texts = b"".join(self.text_of_state() for _ in range(values.STATES))
            payload = bytes(4) + states + texts + self.bytes(values.ELEMENT[base] * count)
        if self.chance(0.05):
            payload = payload[:8]
        status, sub = self.pick(1, 1, 1, 1, 1, 1, 152), number or self.pick(1, 2, 2, 2, 3, 4, 5, 6)
        return message(wire.EVENT_ADD, dtype, count, status, self.nth(sub), payload)

    def text_of_state(self):
        text = self.pick(b"OFF", b"ON", b"", b"x" * 30, b"A\0B")
        return text.ljust(values.STATE_TEXT, b"\0")[:values.STATE_TEXT]

    def found(self):
        self.add("found", self.pick(NAMES), self.server())

    def search(self):
        datagram = b"".join(self.searched() for _ in range(self.source.randint(0, 4)))
        if self.chance(0.15):
            datagram = datagram[:self.source.randrange(len(datagram) + 1)]
        if self.chance(0.05):
            datagram += bytes([0, 6, 0, 5]) + bytes(12)
        self.add("search", self.pick(HOSTS), datagram.hex() or "-")

    def searched(self):
        command = self.pick([wire.SEARCH] * 5 + [wire.VERSION, wire.ECHO])
        payload = text(self.pick(NAMES)) if self.chance(0.9) else b"noending"
        return message(command, self.pick(5, 10), 13, self.pick(17, 18), 17, payload)

    def edit(self):
        rules = [self.pick(RULES) for _ in range(self.source.randint(0, 4))]
        if rules and self.chance(0.5):
            rules[0] = ".* ALLOW" + self.pick("", " ops", " g2")
        if self.chance(0.1):
            rules.append(self.pick(FAULTY_RULES))
        groups = [self.pick(GROUPS) for _ in range(self.source.randint(0, 2))]
        if self.chance(0.05):
            groups.append("ops MAYBE")
        access = self.access() if self.chance(0.6) else []
        self.add("edit", len(rules), len(groups), *([len(access)] if access or self.chance(0.1) else []))
        self.lines += rules + groups + access

    def access(self):
        """The lines of an access security file."""
        known = {"UAG": [], "HAG": []}
        parts = [self.list_of(self.pick(LISTED), known) for _ in range(self.source.randint(0, 3))]
        names = self.source.sample(SECURED, self.source.randint(0, 3))
        parts += [self.secured(name, known) for name in names + (["ops"] if self.chance(0.05) else [])]
        if self.chance(0.1):
            parts.insert(self.source.randint(0, len(parts)), self.pick(FAULTY_ACCESS))
        lines = [piece for part in parts for piece in part.split("\n")]
        return lines + [self.pick("", "# end", "\t")] if self.chance(0.2) or not lines else lines

    def list_of(self, kind, known):
        name = self.pick(LISTS) if self.chance(0.05) else self.pick([it for it in LISTS if it not in known[kind]] or LISTS)
        known[kind].append(name)
        members = [self.pick(MEMBERS[kind]) for _ in range(self.source.randint(0, 3))]
        return f"{kind}({name})" + ("" if not members and self.chance(0.5) else self.gap() + "{" + ", ".join(members) + "}")

    def secured(self, name, known):
        rules = [self.rule(known) for _ in range(self.source.randint(0, 3))]
        return f"ASG({name}) {{{self.gap()}" + self.gap().join(rules) + self.gap() + "}"

    def rule(self, known):
        parties = [f"{kind}({self.pick(known[kind])}{self.pick('', '', ',' + self.pick(known[kind]))})"
                   for kind in LISTED if known[kind] and self.chance(0.5)]
        return "RULE" + self.pick(HEADS) + (" {" + self.gap().join(parties) + "}" if parties or self.chance(0.1) else "")

    def gap(self):
        return self.pick(" ", " ", "\n", " # {\n", "\t")

    def question(self):
        read = self.session(), self.sid(), self.type(), self.pick(COUNTS)
        self.pick([
            lambda: self.add("asks"), lambda: self.add("sub", self.pick(NAMES)),
            lambda: self.add("props", self.pick("T1", "T2", *NAMES)),
            lambda: self.add("rights", self.session(), self.sid()),
            lambda: self.add("read", *read),
        ])()

    def connection(self):
        self.pick([
            lambda: self.add("lost", self.session()), lambda: self.add("lost", self.server()),
            lambda: self.add("open", self.session(), self.pick(HOSTS)),
            lambda: self.add("open", self.server()), lambda: self.add("open", self.server()),
        ])()

    def flow(self):
        dest = self.pick(self.session(), self.server())
        self.pick([
            lambda: self.add("hold", dest), lambda: self.add("flow", dest),
            lambda: self.add("flow", dest), lambda: self.add("drain", dest, self.pick(0, 1, 5)),
            lambda: self.add("sweep"),
        ])()

    def upkeep(self):
        """Somebody sees after the gateway."""
        self.pick(self.limit, self.age, self.age, self.probe, self.seek)()

    def limit(self):
        if self.chance(0.3):
            self.add("limit", self.pick(FLAGS), self.pick(1, 1, 1, 0))
        elif self.chance(0.1):
            self.add("limit", "update-bytes", self.pick(0, 1, 24, 40, 100, 2**64 - 1))
        elif self.chance(0.1):
            self.add("limit", "messages", self.pick(0, 1, 2, 3, 4, 8, 16_384, 16_384))
        else:
            self.add("limit", self.pick(LIMITS), self.pick(0, 1, 1, 2, 2, 3, 3, 4, 5, 100))

    def age(self):
        self.add("age")

    def probe(self):
        self.add("probe", self.pick(1, 1, 2, 3))

    def seek(self):
        self.add("seek", self.session(), self.pick(17, 18), self.pick(NAMES))


PIECES = [
    "A", "B", "1", ":", "A:SET", "x", "-", "&", "\\.", "\\[", "\\]", "]", "(", ")", "|", "{", "}",
    "^A", "A$", ".", ".*", "A*", "B?", "1+", "[AB]", "[^A]", "[A-B1]", "[]A]", "[^]:]", "[A-]",
    "[.*]", "[^&~-]", "\\(", "\\)", "\\|", "\\(.*\\)", "\\(A\\|B\\)", "\\(.\\)", "\\-", "\\:",
    "(.*)", "(A|B)", "(.)",
]
BAD_PIECES = ["\\w", "\\1", "\\", "[", "é", "[é]", "[a", "[^"]
ASKED = [
    "A", "B", "A:B", "A:SET", "B:1", "AB1", "a", "A.B", "X(1)", "A|B", "[A]", "A-B", "^A", "A&B",
]
ORDERS = ["ALLOW, DENY", "DENY, ALLOW", "DENY,ALLOW", "ALLOW DENY", "deny allow ,", "ALLOW", ""]
REALS = ["B", "A:SP", "\\1", "\\1:SP", "x\\2\\1", "\\1\\1", "A\\", "\\0", "B\\3"]
DENIED = ["lab7", "LAB7, desk1", "desk1", "lab8 lab9,lab7", "", "é", "from"]


class RuleFiles:
    """Rule files and group files, good and faulty."""

    def __init__(self, source):
        self.source = source

    def pick(self, *choices):
        return self.source.choice(choices[0] if len(choices) == 1 else choices)

    def chance(self, part):
        return self.source.random() < part

    def rules(self):
        end = self.pick("\n", "\n", "\r\n")
        lines = [self.line() for _ in range(self.source.randint(0, 6))]
        return end.join(lines) + self.pick("", end, end)

    def groups(self):
        if self.chance(0.4):
            return None
        good = ["ops READ", "ops NONE", "g2 write", "ops WRITE", "", "# x", "Ops read"]
        lines = good if self.chance(0.97) else ["ops MAYBE", "ops", "ops READ x"]
        return "\n".join(self.pick(lines) for _ in range(self.source.randint(0, 4)))

    def line(self):
        kinds = [self.blank] * 6 + [self.order] * 8 + [self.allow] * 40 + [self.alias] * 25
        kinds += [self.deny] * 17 + [self.no_row] * 3
        line = self.pick(kinds)()
        return line + self.pick(" # c", "#c", " #") if self.chance(0.1) else line

    def gap(self):
        return self.pick(" ", " ", "\t", "  ", " \t")

    def keyword(self, word):
        return self.pick(word, word, word.lower(), word.capitalize())

    def blank(self):
        return self.pick("", "# x", "  ", "\t# DENY")

    def order(self):
        words = self.keyword("EVALUATION") + self.gap() + self.keyword("ORDER")
        return words + " " + self.pick(ORDERS)

    def pattern(self):
        pieces = "".join(self.pick(PIECES) for _ in range(self.source.randint(1, 5)))
        return pieces + self.pick(BAD_PIECES) if self.chance(0.03) else pieces

    def group(self, part):
        if not self.chance(part):
            return ""
        group = self.gap() + self.pick("ops", "g2", "Ops")
        if self.chance(0.3):
            group += self.gap() + self.pick("0", "1", "0", "1", "2", "ops x")
        return group

    def allow(self):
        return self.pattern() + self.gap() + self.keyword("ALLOW") + self.group(0.5)

    def alias(self):
        row = self.pattern() + self.gap() + self.keyword("ALIAS")
        return row + self.gap() + self.pick(REALS) + self.group(0.4) if self.chance(0.97) else row

    def deny(self):
        row = self.pattern() + self.gap() + self.keyword("DENY")
        if self.chance(0.4):
            return row
        return row + self.gap() + self.pick("", "FROM ", "from ", ",FROM, ") + self.pick(DENIED)

    def no_row(self):
        return self.pick("A", "A B", "ALLOW", "A PERMIT x", "[A")
