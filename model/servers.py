"""What servers' messages do to a gateway."""
import values
import wire
from codes import ECA_GETFAIL, ECA_NORMAL
from rows import ALARM, LOG, PROPERTIES, PROPERTY, VALUE, VALUES
from wire import Message


class Servers:
    """The part of a gateway that servers talk to."""

    def server(self, server, reply: Message):
        if not self.acts(("u", server)):
            return
        link = self.link_at(server, reply.p1)
        if reply.command == wire.VERSION:
            self.servers[server] = reply.count
        elif reply.command == wire.EVENT_ADD:
            self.update(server, reply)
        elif reply.command == wire.CREATE_CHAN:
            self.channel_made(server, link, reply)
        elif reply.command == wire.WRITE_NOTIFY:
            self.write_over(server, reply)
        elif reply.command == wire.ACCESS_RIGHTS and link:
            link.rights = reply.p2 & 3
        elif reply.command == wire.CREATE_CH_FAIL and link and link.state == "creating":
            self.links.remove(link)
        elif reply.command == wire.SERVER_DISCONN and link:
            self.links.remove(link)

    def channel_made(self, server, link, reply):
        usable = reply.dtype <= values.DOUBLE and reply.count >= 1
        usable = usable and values.fits(values.time_type(reply.dtype), reply.count)
        if link and link.state != "creating":
            return
        if link and usable:
            link.state, link.sid = "connected", reply.p2
            link.native, link.count = reply.dtype, reply.count
            return
        if link:
            link.state = "unusable"
        self.ask(server, wire.CLEAR_CHANNEL, 0, 0, reply.p2, reply.p1)

    def update(self, server, reply):
        for link in self.links:
            for subject, upstream in link.upstream.items():
                if (link.server, upstream.id) == (server, reply.p2):
                    self.told(link, subject, upstream, reply)
                    return

    def told(self, link, subject, upstream, reply):
        if reply.p1 != ECA_NORMAL:
            self.fail_reads(link, subject)
            return
        known = reply.dtype == values.type_for(subject, link.native)
        known = known and reply.count <= upstream.count
        if not known or len(reply.payload) < values.size_of(reply.dtype, reply.count):
            return
        events = VALUE | LOG
        if subject == PROPERTIES:
            events = PROPERTY
            link.properties = values.read_properties(link.native, reply.payload)
        elif self.value_came(link, reply, upstream.count):
            events |= ALARM
        for sub in self.subs:
            if sub.mask & events and self.channel(sub.session, sub.sid).real == link.name:
                sub.owed = True

    def value_came(self, link, reply, asked_with):
        """Takes a value, and says whether its alarm is another than that of the one before."""
        before = link.last
        link.last = values.read_update(link.native, reply.count, reply.payload, asked_with)
        return before is None or before.alarm() != link.last.alarm()

    def fail_reads(self, link, subject):
        """Reads fail that can't be answered without what a server doesn't tell."""
        for read in list(self.reads):
            fails = subject == VALUES or values.needs_properties(link.native, read.dtype)
            if fails and self.channel(read.session, read.sid).real == link.name:
                self.refuse_read(read, ECA_GETFAIL)

    def write_over(self, server, reply):
        named = (server, reply.p2)
        write = next((w for w in self.writes if (w.server, w.id) == named), None)
        if write:
            self.writes.remove(write)
            over = write.dtype, write.count, reply.p1, write.ioid
            self.tell(write.session, wire.WRITE_NOTIFY, *over)
