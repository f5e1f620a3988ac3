"""A gateway, by the protocol's tables and the rules of the gateway: one event at a time."""
import struct

import values
import wire
from access import DEFAULT
from codes import (
    ECA_ALLOCMEM, ECA_BADCHID, ECA_BADCOUNT, ECA_BADMASK, ECA_BADTYPE, ECA_GETFAIL, ECA_INTERNAL,
    ECA_NORDACCESS, ECA_NOWTACCESS, ECA_PUTFAIL, ECA_TOLARGE, TEXTS,
)
from rows import (
    ALARM, FIRST, LAST, LOWEST_MINOR, MESSAGES_WAIT, MINOR, PORT, PROPERTIES, PROPERTY, SERVED_EVENTS,
    UPDATES_WAIT, VALUE, VALUES,
    Channel, Limits, Link, Outbox, Search, Session, Subscription, Upstream, Waiting,
)
from rules import resolved
from servers import Servers
from wire import message


class UsedUp(Exception):
    """There is no number left."""


class Gateway(Servers):
    """Its state, by lists. Connections are ("s", number) and ("u", number)."""

    def __init__(self, first=FIRST):
        self.sessions, self.servers, self.boxes = {}, {}, {}
        self.channels, self.subs, self.reads, self.writes = [], [], [], []
        self.links, self.searches = [], []
        self.rules, self.groups, self.access = None, {}, None
        self.first, self.again = first, set()
        self.next = dict.fromkeys(("sid", "cid", "sub", "ioid"), first)
        self.limits, self.last_age = Limits(), dict(self.next)

    def turned(self, number):
        """Behind the last number comes the first one, where numbers come again."""
        return self.first if self.limits.reuses_numbers and number == LAST + 1 else number

    def number(self, counter, had):
        """The next number; once its counter began again, the next that none of these rows has."""
        number = self.turned(self.next[counter])
        if number != self.next[counter]:
            self.again.add(counter)
        tries = len(had)
        while counter in self.again and number in had and tries:
            number, tries = self.turned(number + 1), tries - 1
        if number > LAST or counter in self.again and number in had:
            raise UsedUp
        self.next[counter] = number + 1
        return number

    def is_older(self, counter, number):
        """Whether a number that a row has was given out before the last age."""
        then, now = self.last_age[counter], self.next[counter]
        return number < then or now <= number if then <= now else now <= number < then

    # What is sent.

    def send(self, dest, text):
        box = self.boxes.get(dest)
        if box is None or box.marked:
            return
        most = self.limits.messages if dest[0] == "s" else max(self.limits.messages, MESSAGES_WAIT)
        if len(box.messages) >= most:
            box.marked = True
        else:
            box.messages.append(text)

    def tell(self, session, *parts):
        self.send(("s", session), message(*parts))

    def ask(self, server, *parts):
        self.send(("u", server), message(*parts))

    def acts(self, dest):
        return dest in self.boxes and not self.boxes[dest].marked

    # What is known.

    def channel(self, session, sid):
        return next((c for c in self.channels if (c.session, c.sid) == (session, sid)), None)

    def link(self, name):
        return next((link for link in self.links if link.name == name), None)

    def link_at(self, server, cid):
        return next((x for x in self.links if (x.server, x.cid) == (server, cid)), None)

    def lead(self, channel):
        return resolved(self.rules, self.sessions[channel.session].host, channel.asked)

    def left_to(self, row, lead):
        """The rights that the policy leaves to a session's user on its host; without an access security file to all."""
        if self.access is not None:
            return self.access.granted(row.user, row.host, lead.group or DEFAULT, lead.level).right
        return 3 if lead.group is None else self.groups.get(lead.group, 3)

    def rights(self, channel):
        link, lead = self.link(channel.real), self.lead(channel)
        if link is None or lead is None:
            return 0
        return link.rights & self.left_to(self.sessions[channel.session], lead)

    def may_read(self, channel):
        return bool(self.rights(channel) & 1)

    def is_served(self, channel):
        link, lead = self.link(channel.real), self.lead(channel)
        connected = link is not None and link.state == "connected"
        return connected and lead is not None and lead.real == channel.real

    def wanted(self):
        leads = (resolved(self.rules, search.host, search.name) for search in self.searches)
        return {channel.real for channel in self.channels} | {lead.real for lead in leads if lead}

    def asks(self):
        missing = (name for name in self.wanted() if self.link(name) is None)
        return sorted(missing, key=str.encode)

    def readers(self, link):
        """The channels and the subscriptions that read a link's variable."""
        if link.state != "connected":
            return [], []
        readable = [c for c in self.channels if c.real == link.name and self.may_read(c)]
        owners = {(c.session, c.sid) for c in readable}
        subs = [sub for sub in self.subs if (sub.session, sub.sid) in owners]
        return [c for c in readable if c.reach], subs

    def want(self, link, subject):
        """What the readers of a link's variable want together: events and count, or None."""
        channels, subs = self.readers(link)
        if subject == PROPERTIES:
            wanted = any(c.needs_properties for c in channels) or any(
                sub.mask & PROPERTY or values.needs_properties(link.native, sub.dtype)
                for sub in subs)
            return (PROPERTY, 1) if wanted else None
        if not channels and not subs:
            return None
        mask = VALUE | ALARM
        for sub in subs:
            mask |= sub.mask & ~PROPERTY & SERVED_EVENTS
        counts = [c.reach for c in channels] + [sub.count or link.count for sub in subs]
        return mask, max(counts)

    def covers(self, link, dtype, count):
        if link.last is None or (count or link.count) > link.last.asked_with:
            return False
        return link.properties is not None or not values.needs_properties(link.native, dtype)

    def refusal(self, link, dtype, count):
        """Why a value of this type and count can't be given over a link."""
        known = values.base_and_form(dtype)
        if known is None or not values.converts(link.native, known[0]):
            return ECA_BADTYPE
        if count > link.count:
            return ECA_BADCOUNT
        return None if values.fits(dtype, count or link.count) else ECA_TOLARGE

    def read_refusal(self, channel, dtype, count):
        refusal = self.refusal(self.link(channel.real), dtype, count)
        return refusal or (None if self.may_read(channel) else ECA_NORDACCESS)

    # Events, each followed by what others are owed.

    def step(self, event, *parts):
        getattr(self, event)(*parts)
        self.tell_channels()
        self.owe_withheld()
        self.tell_links()
        self.answer_reads()
        self.give_updates()

    def opened(self, session, host):
        if session in self.sessions or len(self.sessions) >= self.limits.sessions:
            return
        self.sessions[session] = Session(host, host)
        self.boxes["s", session] = Outbox()
        self.tell(session, wire.VERSION, 0, MINOR, 0, 0)

    def lost(self, session):
        if self.sessions.pop(session, None) is None:
            return
        del self.boxes["s", session]
        for rows in (self.channels, self.subs, self.reads, self.writes):
            rows[:] = [row for row in rows if row.session != session]

    def up_opened(self, server):
        if server in self.servers or len(self.servers) >= self.limits.servers:
            return
        self.servers[server] = 0
        self.boxes["u", server] = Outbox()
        self.ask(server, wire.VERSION, 0, MINOR, 0, 0)
        self.ask(server, wire.CLIENT_NAME, 0, 0, 0, 0, b"pvgate\0")
        self.ask(server, wire.HOST_NAME, 0, 0, 0, 0, b"gw\0")

    def up_lost(self, server):
        if self.servers.pop(server, None) is None:
            return
        del self.boxes["u", server]
        self.links = [link for link in self.links if link.server != server]
        self.writes = [write for write in self.writes if write.server != server]

    def found(self, name, server):
        full = len(self.links) >= self.limits.links
        if full or not self.acts(("u", server)) or name not in self.asks():
            return
        link = Link(self.number("cid", {link.cid for link in self.links}), server, name)
        self.links.append(link)
        self.ask(server, wire.CREATE_CHAN, 0, 0, link.cid, MINOR, name.encode() + b"\0")

    def search(self, host, name):
        """Somebody at the host looks for a name."""
        if resolved(self.rules, host, name) is not None:
            self.remember(host, name)

    def search_for(self, host, name):
        return next((s for s in self.searches if s.is_from(host) and s.name == name), None)

    def remember(self, host, name):
        search = self.search_for(host, name)
        if search:
            search.fresh = True
            if self.limits.makes_room:
                self.searches.remove(search)
                self.searches.append(search)
        elif self.limits.makes_room:
            self.make_room(host)
            self.searches.append(Search(host, name))
        elif len(self.searches) < self.limits.searches:
            self.searches.append(Search(host, name))

    def make_room(self, host):
        """One old search goes where the host has its share, or where all are as many as may be."""
        own = [search for search in self.searches if search.is_from(host)]
        if own and len(own) >= self.limits.share:
            self.searches.remove(own[0])
        elif self.searches and len(self.searches) >= self.limits.searches:
            self.searches.pop(0)

    def sweep(self):
        self.searches = []

    def edit(self, rules, groups, access):
        self.rules, self.groups, self.access = rules, groups, access

    def limit(self, name, value):
        setattr(self.limits, name, value)

    def age(self):
        """What was asked for before the last age and didn't come is given up."""
        for link in [link for link in self.links if self.owes_properties(link)]:
            self.fail_reads(link, PROPERTIES)
        self.links = [link for link in self.links
                      if link.state != "creating" or not self.is_older("cid", link.cid)]
        self.last_age = dict(self.next)
        self.searches = [search for search in self.searches if search.fresh]
        for search in self.searches:
            search.fresh = False

    def owes_properties(self, link):
        asked = link.upstream.get(PROPERTIES)
        return asked is not None and self.is_older("sub", asked.id) and link.properties is None

    def probe(self, server):
        self.ask(server, wire.ECHO, 0, 0, 0, 0)

    def drain(self, dest, count, taken):
        if dest in self.boxes:
            taken.extend(self.boxes[dest].messages[:count])
            del self.boxes[dest].messages[:count]

    # What follows from an event.

    def remove(self, channel):
        self.channels.remove(channel)
        for rows in (self.subs, self.reads, self.writes):
            rows[:] = [row for row in rows
                       if (row.session, row.sid) != (channel.session, channel.sid)]

    def tell_channels(self):
        for channel in sorted(self.channels, key=lambda c: c.session):
            rights = self.rights(channel)
            if not self.is_served(channel):
                self.remove(channel)
                self.tell(channel.session, wire.SERVER_DISCONN, 0, 0, channel.cid, 0)
            elif rights != channel.rights:
                before, channel.rights = channel.rights, rights
                self.tell(channel.session, wire.ACCESS_RIGHTS, 0, 0, channel.cid, rights)
                if before & 1 and not rights & 1:
                    for sub in self.subs:
                        if (sub.session, sub.sid) == (channel.session, channel.sid):
                            self.tell_unreadable(sub)

    def tell_unreadable(self, sub):
        """A subscription is told that its channel may not be read, where that is wanted."""
        if self.limits.tells_unreadable:
            size = max(values.offset(sub.dtype), 1)
            self.tell(sub.session, wire.EVENT_ADD, sub.dtype, 0, ECA_NORDACCESS, sub.id, bytes(size))

    def owe_withheld(self):
        for sub in self.subs:
            sub.owed |= not self.may_read(self.channel(sub.session, sub.sid))

    def tell_links(self):
        for link in list(self.links):
            for subject in (VALUES, PROPERTIES):
                want, present = self.want(link, subject), link.upstream.get(subject)
                if want != (present and (present.mask, present.count)):
                    self.subscribe(link, subject, want)
            if link.name not in self.wanted():
                if link.state == "connected":
                    self.ask(link.server, wire.CLEAR_CHANNEL, 0, 0, link.sid, link.cid)
                self.links.remove(link)

    def subscribe(self, link, subject, want):
        dtype, present = values.type_for(subject, link.native), link.upstream.pop(subject, None)
        if present:
            self.ask(link.server, wire.EVENT_CANCEL, dtype, present.sent, link.sid, present.id)
        if want is None:
            link.properties = None
            if subject == VALUES:
                link.last = None
            return
        mask, count = want
        whole = subject == VALUES and count == link.count and self.servers[link.server] >= MINOR
        had = {asked.id for other in self.links if other.server == link.server
               for asked in other.upstream.values()}
        sent, number = 0 if whole else count, self.number("sub", had)
        link.upstream[subject] = Upstream(number, mask, count, sent)
        events = bytes(12) + struct.pack(">HH", mask, 0)
        self.ask(link.server, wire.EVENT_ADD, dtype, sent, link.sid, number, events)

    def answer_reads(self):
        for read in sorted(self.reads, key=lambda read: read.session):
            channel = self.channel(read.session, read.sid)
            link = self.link(channel.real)
            if not self.may_read(channel):
                self.refuse_read(read, ECA_NORDACCESS)
            elif self.covers(link, read.dtype, read.count):
                self.reads.remove(read)
                count, value = values.laid_out(link, read.dtype, read.count)
                self.tell(read.session, wire.READ_NOTIFY, read.dtype, count, 1, read.ioid, value)

    def refuse_read(self, read, code):
        self.reads.remove(read)
        self.tell(read.session, wire.READ_NOTIFY, read.dtype, read.count, code, read.ioid)

    def give_updates(self):
        for sub in sorted(self.subs, key=lambda sub: sub.session):
            channel, box = self.channel(sub.session, sub.sid), self.boxes["s", sub.session]
            link = self.link(channel.real)
            takes = not self.sessions[sub.session].paused and not box.marked
            takes = takes and len(box.messages) < UPDATES_WAIT
            takes = takes and sum(map(len, box.messages)) < self.limits.update_bytes
            given = takes and self.may_read(channel) and self.covers(link, sub.dtype, sub.count)
            if sub.owed and given:
                sub.owed = False
                count, value = values.laid_out(link, sub.dtype, sub.count)
                self.tell(sub.session, wire.EVENT_ADD, sub.dtype, count, 1, sub.id, value)

    # Clients' messages.

    def client(self, session, request):
        if not self.acts(("s", session)):
            return
        channel = self.channel(session, request.p1)
        over_channel = {
            wire.EVENT_ADD: self.event_add,
            wire.EVENT_CANCEL: self.event_cancel,
            wire.CLEAR_CHANNEL: self.clear_channel,
            wire.READ_NOTIFY: self.read_notify,
            wire.WRITE: self.write,
            wire.WRITE_NOTIFY: self.write_notify,
        }
        if request.command in over_channel:
            short = request.command == wire.EVENT_ADD and len(request.payload) < 16
            if short:
                cid = channel.cid if channel else wire.NO_CHANNEL
                self.error(session, request, ECA_INTERNAL, cid)
            elif channel is None:
                self.on_no_channel(session, request)
            else:
                over_channel[request.command](session, request, channel)
        else:
            self.session_said(session, request)

    def on_no_channel(self, session, request):
        end = LAST + 1 if "sid" in self.again else self.next["sid"]
        was_given_out = self.first <= request.p1 < max(end, self.next["sid"])
        if not (self.limits.passes_over_gone and was_given_out):
            self.error(session, request, ECA_BADCHID)

    def session_said(self, session, request):
        row = self.sessions[session]
        if request.command == wire.VERSION:
            if request.count < LOWEST_MINOR:
                self.boxes["s", session].marked = True
        elif request.command in (wire.EVENTS_OFF, wire.EVENTS_ON):
            row.paused = request.command == wire.EVENTS_OFF
        elif request.command == wire.CREATE_CHAN:
            self.create_channel(session, request)
        elif request.command == wire.HOST_NAME:
            host = wire.nul_ended(request.payload, wire.is_word)
            if host and not row.host_fixed and not self.limits.checks_hosts:
                row.host = host
        elif request.command == wire.ECHO:
            self.tell(session, *request)
        elif request.command == wire.SEARCH and self.limits.answers_searches:
            self.search_on(session, request)
        elif request.command == wire.CLIENT_NAME:
            user = wire.nul_ended(request.payload, wire.is_name)
            if user and not row.host_fixed:
                row.user = user
        else:
            self.error(session, request, ECA_INTERNAL)

    def error(self, session, request, code, cid=wire.NO_CHANNEL):
        head = wire.head(request.command, len(request.payload), *request[1:5])
        self.tell(session, wire.ERROR, 0, 0, cid, code, head + TEXTS.get(code, b"") + b"\0")

    def search_on(self, session, request):
        """A client searches on its connection."""
        name = wire.nul_ended(request.payload, wire.is_name)
        if name:
            self.seek(session, request.p1, name)
        else:
            self.error(session, request, ECA_INTERNAL)

    def seek(self, session, cid, name):
        """A search on a connection is answered where the name is connected."""
        if not self.acts(("s", session)):
            return
        host = self.sessions[session].host
        lead = resolved(self.rules, host, name)
        link = self.link(lead.real) if lead else None
        if lead:
            self.remember(host, name)
        if link and link.state == "connected":
            self.tell(session, wire.SEARCH, PORT, 0, wire.NO_CHANNEL, cid, struct.pack(">H", MINOR))

    def create_channel(self, session, request):
        row = self.sessions[session]
        row.host_fixed = True
        name = wire.nul_ended(request.payload, wire.is_name)
        lead = resolved(self.rules, row.host, name) if name else None
        full = sum(c.session == session for c in self.channels) >= self.limits.channels
        link = self.link(lead.real) if lead else None
        if lead is None or full or link is None or link.state != "connected":
            if lead and not full:
                self.remember(row.host, name)
            self.tell(session, wire.CREATE_CH_FAIL, 0, 0, request.p1, 0)
            return
        rights = link.rights & self.left_to(row, lead)
        sid = self.number("sid", {c.sid for c in self.channels if c.session == session})
        self.channels.append(Channel(session, sid, request.p1, name, lead.real, rights))
        self.tell(session, wire.ACCESS_RIGHTS, 0, 0, request.p1, rights)
        self.tell(session, wire.CREATE_CHAN, link.native, link.count, request.p1, sid)
        search = self.search_for(row.peer, name)
        if search and self.limits.makes_room:
            self.searches.remove(search)

    def event_add(self, session, request, channel):
        mask = struct.unpack(">H", request.payload[12:14])[0]
        own = [sub for sub in self.subs if sub.session == session]
        code = self.refusal(self.link(channel.real), request.dtype, request.count)
        if any(sub.id == request.p2 for sub in own):
            code = ECA_INTERNAL
        elif code is None and not mask & SERVED_EVENTS:
            code = ECA_BADMASK
        elif code is None and len(own) >= self.limits.subscriptions:
            code = ECA_ALLOCMEM
        if code:
            self.error(session, request, code, channel.cid)
        else:
            sub = Subscription(session, request.p2, channel.sid, request.dtype, request.count, mask)
            self.subs.append(sub)
            if not self.may_read(channel):
                self.tell_unreadable(sub)

    def event_cancel(self, session, request, channel):
        named = (session, request.p2, channel.sid)
        sub = next((x for x in self.subs if (x.session, x.id, x.sid) == named), None)
        if sub is None:
            self.error(session, request, ECA_INTERNAL, channel.cid)
            return
        self.subs.remove(sub)
        self.tell(session, wire.EVENT_ADD, request.dtype, request.count, request.p1, request.p2)

    def clear_channel(self, session, request, channel):
        self.remove(channel)
        self.tell(session, wire.CLEAR_CHANNEL, 0, 0, request.p1, request.p2)

    def read_notify(self, session, request, channel):
        link = self.link(channel.real)
        read = Waiting(session, channel.sid, request.dtype, request.count, request.p2)
        code = self.read_refusal(channel, request.dtype, request.count)
        waiting = sum(other.session == session for other in self.reads)
        covered = code or self.covers(link, request.dtype, request.count)
        if not covered and waiting >= self.limits.reads:
            code = ECA_GETFAIL
        self.reads.append(read)
        if code:
            self.refuse_read(read, code)
        else:
            channel.reach = max(channel.reach, request.count or link.count)
            needs = values.needs_properties(link.native, request.dtype)
            channel.needs_properties = channel.needs_properties or needs

    # Writes.

    def written(self, channel, request):
        """The bytes that are handed on of a write, or why it is refused."""
        dtype, count, payload = request.dtype, request.count, request.payload
        if dtype > values.DOUBLE:
            return None, ECA_BADTYPE
        if not 1 <= count <= self.link(channel.real).count:
            return None, ECA_BADCOUNT
        size = values.ELEMENT[dtype] * count
        if dtype == values.STRING and count == 1 and payload:
            value = payload[:size].partition(b"\0")[0].ljust(size, b"\0")
        elif len(payload) < size:
            return None, ECA_BADCOUNT
        else:
            value = payload[:size]
        return value, None if self.rights(channel) & 2 else ECA_NOWTACCESS

    def write(self, session, request, channel):
        value, code = self.written(channel, request)
        if code:
            self.error(session, request, code, channel.cid)
        else:
            link = self.link(channel.real)
            self.ask(link.server, wire.WRITE, request.dtype, request.count, link.sid, 0, value)

    def write_notify(self, session, request, channel):
        value, code = self.written(channel, request)
        waiting = sum(other.session == session for other in self.writes)
        if code is None and waiting >= self.limits.writes:
            code = ECA_PUTFAIL
        dtype, count = request.dtype, request.count
        if code:
            self.tell(session, wire.WRITE_NOTIFY, dtype, count, code, request.p2)
            return
        link = self.link(channel.real)
        number = self.number("ioid", {w.id for w in self.writes if w.server == link.server})
        write = Waiting(session, channel.sid, dtype, count, request.p2, link.server, number)
        self.writes.append(write)
        self.ask(link.server, wire.WRITE_NOTIFY, dtype, count, link.sid, number, value)
