"""What a gateway knows of its clients, servers, variables and searches, and its limits."""
from dataclasses import dataclass, field
from typing import Any

VALUE, LOG, ALARM, PROPERTY = 1, 2, 4, 8
SERVED_EVENTS = VALUE | LOG | ALARM | PROPERTY
VALUES, PROPERTIES = "values", "properties"
MINOR, LOWEST_MINOR = 13, 9
PORT = 5064
FIRST, LAST = 1, 0xFFFF_FFFE
UPDATES_WAIT, MESSAGES_WAIT = 4_096, 16_384


@dataclass
class Limits:
    """How much a gateway takes on, and what it does where it is full."""
    sessions: int = 1_024
    servers: int = 16
    links: int = 65_536
    searches: int = 4_096
    share: int = 4_096
    channels: int = 4_096
    subscriptions: int = 8_192
    reads: int = 256
    writes: int = 256
    messages: int = MESSAGES_WAIT
    update_bytes: int = 2**64 - 1
    makes_room: bool = False
    reuses_numbers: bool = False
    passes_over_gone: bool = False
    tells_unreadable: bool = False
    answers_searches: bool = False
    checks_hosts: bool = False


@dataclass
class Session:
    peer: str
    host: str
    user: str = ""
    host_fixed: bool = False
    paused: bool = False


@dataclass(eq=False)
class Search:
    """Somebody at a host looks for a name; it is fresh where that was since the last age."""
    host: str
    name: str
    fresh: bool = True

    def is_from(self, host):
        return self.host.lower() == host.lower()


@dataclass(eq=False)
class Channel:
    session: int
    sid: int
    cid: int
    asked: str
    real: str
    rights: int
    reach: int = 0
    needs_properties: bool = False


@dataclass(eq=False)
class Subscription:
    session: int
    id: int
    sid: int
    dtype: int
    count: int
    mask: int
    owed: bool = True


@dataclass(eq=False)
class Waiting:
    """A read or a write of a client; a write has its server and its own number there."""
    session: int
    sid: int
    dtype: int
    count: int
    ioid: int
    server: int = 0
    id: int = 0


@dataclass
class Upstream:
    """A subscription of a link: what is asked for, and the count as it was sent."""
    id: int
    mask: int
    count: int
    sent: int


@dataclass(eq=False)
class Link:
    """A variable on a server: its subscriptions there by their subject, and what they told last."""
    cid: int
    server: int
    name: str
    state: str = "creating"
    rights: int = 0
    sid: int = 0
    native: int = 0
    count: int = 0
    upstream: dict = field(default_factory=dict)
    last: Any = None
    properties: Any = None


@dataclass
class Outbox:
    messages: list = field(default_factory=list)
    marked: bool = False
