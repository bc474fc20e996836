"""One bridge of a record: its frames, each with what left of it, and its scenarios.

A frame that leaves a device is the latest one with the same bytes but for the tag that entered the bridge and hasn't left there yet.

A scenario has its limits, and a record has none. So a bridge is judged in windows, each by a scenario of its own, which begins with what the
kernel's tables have then, put in as old as it is. Of a frame are kept the bytes that decide something.
"""
import collections

import named
import packets
from kernel import Changes
from model import HOST, MOST_PORTS, QUERIER, Item, Model
from window import Bounds, Cut, Frame, Window

MOST_CUTS = 250          # quiet moments of a window at which the tables are compared
MOST_LOOKED = 4 * 10**6  # lines that are replayed for that, at most
OWN_QUERIER_WAITS = 10 * 10**9
OWN_QUERIER_AGAIN = 100 * 10**9
FORGETS = 300 * 10**9    # ns: what was heard before is of no use any more, and no window begins earlier


class Case:
    """`judge`: what takes a window once all is known of it."""
    sees_host = True

    def __init__(self, time, bridge, lacks, bounds=Bounds(), judge=None):
        self.bridge, self.born, self.lacks, self.bounds, self.judge = bridge, time, lacks, bounds, judge
        self.is_over, self.in_use = False, bool(lacks)
        self.window, self.closing = None, collections.deque()
        self.recent, self.entered = collections.defaultdict(collections.deque), collections.deque()
        self.joined = {}  # source and destination of frames that the kernel has joined -> when the last one passed
        self.notes, self.uncompared = collections.Counter(), collections.Counter()
        self.asked_at, self.last_event, self.unseen = None, None, False
        self.gone = collections.defaultdict(list)  # when entries and members went: key -> moments
        self.snooped = named.Snooped(bounds)
        self.own_query_due, self.own_query_six, self.own_querier_since = None, False, None
        self.cached = {}  # what follows from the configuration, until it changes
        self.odd = []  # (moment, device, name) of messages of an odd form
        self.heard, self.left = {}, {}  # when a station spoke, or a member reported or left, by the keys of the tables
        self.told, self.changes = {}, []  # when entries and members came, and when the configuration changed
        self.known_ports, self.tally = {}, None
        self.routers_told = []  # ports that the state at the start has as routers'
        self.pending = []  # (moment, kind, device, VLAN, what) that was learned before, or with a command that the scenario has otherwise
        if not lacks:
            self.open(time)

    @property
    def model(self):
        return self.window.model

    # ---- windows ----

    def open(self, time):
        """Begins a window with what the kernel has."""
        present = self.bridge.ports
        self.window = Window(time, Model(self.window.model if self.window else None, present), self.why_skipped(time))
        self.snooped.keep(self.model.numbers.values())
        self.bridge.changes = Changes(True)
        self.cached.clear()
        if present:
            self.begin(time)

    def why_skipped(self, time):
        since, until = self.bounds.since, self.bounds.until
        if since is not None and time < since:
            return "before --since"
        if until is not None and time >= until:
            return "from --until on"
        if len(self.bridge.ports) > MOST_PORTS:
            return "the bridge has more than %d ports" % MOST_PORTS
        return None

    def begin(self, time):
        """Puts in what the kernel learned before, in the order in which it was last heard."""
        self.put_off(self.bridge.fdb, self.bridge.mdb, time)
        oldest = max(min((each[0] for each in self.pending), default=time), time - FORGETS)
        queriers = list(self.snooped.living_routers(time))
        oldest = min([oldest] + [max(moment, time - FORGETS) for moment, _, _ in queriers])
        self.model.sync(self.bridge, oldest, oldest)
        self.model.forgotten.clear()
        for moment, version, number in queriers:
            self.pending.append((moment, "querier", number, 0, version))
        self.teach_pending(oldest)
        if self.own_query_due is not None and self.own_querier_since <= time:
            self.own_query_due = oldest - 1

    def put_off(self, addresses, members, time):
        """Notes entries, and members by reports, that are to be put in."""
        for vid, mac in addresses:
            device, kind = self.bridge.fdb[vid, mac]
            if kind == "learned" and self.bridge.counts(vid):
                self.pending.append((self.heard.get((vid, mac), time), "learned", device, vid, mac))
        for vid, group, device in members:
            if not self.bridge.mdb[vid, group, device] and self.bridge.counts(vid):
                self.pending.append((self.heard.get((vid, group, device), time), "member", device, vid, group))

    def close(self, time):
        if self.unseen and self.window.frames and not self.window.skip and not self.is_over:
            self.cut(time)
        self.window.end = time
        self.closing.append(self.window)

    def renew(self, time):
        self.close(time)
        self.open(time)

    def settle(self, time):
        """Judges the windows of which nothing more is to be known."""
        while self.closing and time > self.closing[0].end + max(self.bounds.late, self.bounds.flight):
            self.finish(self.closing.popleft())

    def finish(self, window):
        if self.bridge.switch_ports and not self.bounds.chip:
            window.skip = window.skip or "at a bridge with ports of a switch"
        if window.skip:
            self.uncompared[window.skip] += len(window.frames) + len(window.strangers)
        elif window.frames or window.strangers:
            self.judge(self, window)
        self.prune(window.end)

    def prune(self, time):
        """Forgets what is of no use behind a moment."""
        self.changes = [each for each in self.changes if each > time - self.bounds.flight]
        self.odd = [each for each in self.odd if each[0] > time - FORGETS]
        for key, moments in list(self.gone.items()):
            if moments[-1] < time - self.bounds.flight:
                del self.gone[key]
        for known in (self.heard, self.left, self.told):
            for key in [key for key, moment in known.items() if moment < time - FORGETS]:
                if key not in self.bridge.fdb and key not in self.bridge.mdb:
                    del known[key]

    def end(self, time):
        """Judges what is left."""
        if not self.is_over:
            self.quiet(time)
        if self.window and self.window.end is None:
            self.close(time)
        self.is_over = True
        while self.closing:
            self.finish(self.closing.popleft())

    def pass_bounds(self, time):
        """Begins a window where the judging begins or ends, and where the window is full and no change is near."""
        is_full = self.window.is_full(self.bounds) and not named.is_near_change(self, time)
        if is_full or self.window.skip != self.why_skipped(time):
            self.renew(time)

    # ---- what the kernel says ----

    def asked(self, time):
        self.quiet(time)
        self.asked_at = time

    def changed(self, time):
        if not self.bridge.changes.of_tables_alone():
            self.cached.clear()
        if self.is_over or self.window is None:
            return
        has_room = not self.bridge.changes.ports or self.window.skip or self.model.has_room(self.bridge.ports)
        if not has_room or self.window.is_heavy():
            self.renew(time)
            return
        if self.model.snooping and not self.bridge.is_snooping():
            self.snooping_ends(time)
        before = len(self.model.items)
        if self.bridge.ports or self.model.up:
            begin = self.asked_at if self.asked_at is not None and time - self.asked_at < self.bounds.flight else time
            self.model.sync(self.bridge, begin, time)
            self.remember(time)
            self.teach_pending(time)
        if len(self.model.items) > before:
            self.changes.append(time)
        self.follow_querier(time)

    def snooping_ends(self, time):
        """The kernel forgets members by reports with the command, and tells of them before it."""
        self.snooped.flush(time)
        for key, moments in list(self.gone.items()):
            if len(key) == 3 and time - moments[-1] < named.SOON and key not in self.bridge.mdb:
                self.notes["snooping-flush"] += 1
                self.end_member(time, key)

    def remember(self, time):
        """What the scenario lost with a command by which the kernel keeps it is to be learned again."""
        for device, vid in self.model.forgotten:
            if device is None:
                self.put_off(self.bridge.fdb, self.bridge.mdb, time)
            elif self.model.place(self.bridge, device, vid):
                kernel_vid = vid if self.bridge.is_aware() else 0
                self.put_off(self.bridge.addresses.at(device, kernel_vid), self.bridge.groups.at(device, kernel_vid), time)
        self.model.forgotten.clear()

    def teach_pending(self, time):
        """Puts in, by frames, what the kernel learned unseen."""
        waiting, self.pending = self.pending, []
        for moment, kind, device, vid, what in sorted(waiting, key=lambda each: each[0]):
            if kind == "querier":
                self.hear_again(max(moment, time), what, device)
                continue
            name = self.model.place(self.bridge, device, vid or 1)
            if name is None:
                continue
            number = HOST if name == "host" else self.model.numbers[device]
            self.notes["put in by a frame: " + kind] += 1
            if kind == "learned" and name != "host":
                self.window.taught.add((vid, what))
                self.model.teach(max(moment, time), number, name, vid or 1, what)
            elif kind == "member":
                self.window.followed.add((vid, what, device))
                self.model.join(max(moment, time), number, name.replace("host", "HOST"), vid or 1, what)

    def hear_again(self, time, version, number):
        """A querier that was heard in a window before."""
        name = self.model.names.get(number)
        vlans = self.model.vlans.get(name)
        if vlans:
            vid = next((vid for vid, (pvid, _) in vlans.items() if pvid), next(iter(vlans)))
            self.model.hear(time, number, name, vid, version)

    def started(self, time):
        """The state at the start is whole: the scenario begins."""
        self.open(time)
        self.snooped.told |= {self.model.number(port) for port in self.routers_told}
        self.changes.append(time)
        self.follow_querier(time)
        self.start_queriers(time)

    def start_queriers(self, time):
        """Queriers that were known before the record."""
        state = self.bridge.options.get("querier_state") or {}
        for version, port, timer in ((4, 2, 3), (6, 6, 7)):
            device = state.get(port)
            if timer in state and device in self.bridge.ports and self.bridge.ports[device].is_up():
                number = self.model.number(self.bridge.ports[device])
                self.hear_again(time, version, number)
                self.snooped.heard_before(version, number, time)
                self.notes["a querier from before the record"] += 1

    def address(self, time, entry, gone, how):
        self.unseen = True
        key = entry.vid, entry.mac
        before = self.bridge.addresses.drop(key) or (None, None)
        self.bridge.changes.addresses.add(key)
        (self.bridge.locked.add if entry.locked and not gone else self.bridge.locked.discard)(key)
        if gone:
            self.address_gone(time, entry, before, how)
        else:
            self.bridge.addresses.put(key, (entry.index, entry.kind))
            self.told[key] = time
            if entry.sticky:
                self.notes["sticky entries, which are static ones here"] += 1
            self.address_changed(time, entry, before, how)
        self.changed(time)

    def address_gone(self, time, entry, before, how):
        key = entry.vid, entry.mac
        self.gone[key].append(time)
        if self.window is None:
            return
        if not how and (self.bridge.options.get("stp_state") or key in self.window.taught):
            how = "time"  # a change of the topology shortens it, and a frame that was put in began it anew
        self.window.taught.discard(key)
        if before[1] == "learned" and how and self.bridge.counts(entry.vid):
            self.sync_moments(time)
            self.model.forget(entry.vid or 1, entry.mac)

    def address_changed(self, time, entry, before, how):
        key = entry.vid or 1, entry.mac
        if self.window is None or not self.bridge.counts(entry.vid):
            return
        if entry.kind != "learned" and before[1] == "learned":
            self.sync_moments(time)
            self.model.forget(*key)
        elif entry.kind == "learned" and (how == "command" or self.is_of_before(entry.vid, entry.mac)):
            self.pending.append((time, "learned", entry.index, entry.vid, entry.mac))
        elif entry.kind == "learned" and before[1] == "extern":
            self.model.fdb.pop(key, None)  # a station that moves takes over what a chip learned, in both
        elif entry.kind == "static" and before[1] == "static" and before[0] != entry.index and not how:
            self.notes["static-moves"] += 1

    def member(self, time, member, gone, by_command):
        self.unseen = True
        if member.source is not None and not gone:
            self.bridge.sources.add((member.vid, member.address))
        if member.source not in (None, b"*"):
            self.notes["members by source (S,G), which a scenario can't say"] += not gone
            self.bridge.note_source(member, gone)
            return
        if member.group is None:
            self.notes["groups by MAC, which a scenario can't say"] += not gone
            return
        key = member.vid, member.group, member.index
        self.bridge.changes.members.add(key)
        before = self.bridge.groups.drop(key)
        self.bridge.includes.discard(key)
        if member.includes and not gone:
            self.bridge.includes.add(key)
        if gone:
            self.member_gone(time, key, before, by_command)
            if not self.bridge.members_at(key[:2]):
                self.bridge.sources.discard((member.vid, member.address))
        else:
            self.bridge.groups.put(key, bool(before or by_command or member.permanent))
            self.told[key] = time
            if before is False and self.bridge.mdb[key]:
                self.end_member(time, key)
            elif not self.bridge.mdb[key] and self.window and self.is_of_before(*key):
                self.pending.append((time, "member", member.index, member.vid, member.group))
        self.changed(time)

    def is_of_before(self, *key):
        """Whether what is told now came by a frame of the window before."""
        return self.heard.get(key, self.window.begin) < self.window.begin

    def member_gone(self, time, key, before, by_command):
        self.gone[key].append(time)
        if before and not by_command and key[2] == self.bridge.index:
            self.notes["host-group-end"] += 1
        if before is False and self.window:
            why = "by command" if by_command else self.why_followed(time, key)
            if why:
                self.end_member(time, key)
                if why != "by command":
                    self.notes[why] += 1
            self.window.followed.discard(key)

    def why_followed(self, time, key):
        """Why the scenario doesn't end a membership by itself that the kernel ends, or None."""
        if key in self.window.followed:
            return "put in by a frame, and ended"
        if self.snooped.asked_of(time, key[1]):
            return "group-query"
        return "snooping times" if named.has_own_times(self.bridge) else None

    def end_member(self, time, key):
        if self.window is None:
            return
        vid, group, device = key
        name = self.model.place(self.bridge, device, vid or 1)
        if name and self.bridge.counts(vid):
            self.sync_moments(time)
            self.model.forget_member(vid or 1, group, name)
            if name == "host":
                self.model.forget_member(vid or 1, group, "HOST")

    def router(self, time, router, gone):
        (self.bridge.routers.discard if gone else self.bridge.routers.add)(router.index)
        self.cached.clear()
        port = self.bridge.ports.get(router.index)
        if port and not gone and self.in_use and self.lacks:
            self.routers_told.append(port)

    def ended(self, time):
        """The bridge is gone, and its tables with it."""
        self.quiet(time)
        self.is_over = True
        self.end(time)

    def sync_moments(self, time):
        self.model.moments = (self.asked_at if self.asked_at is not None and time - self.asked_at < self.bounds.flight else time), time

    # ---- the bridge's own querier ----

    def follow_querier(self, time):
        if not self.bridge.options.get("mcast_querier"):
            self.own_querier_since = self.snooped.own_six = None
        elif self.own_querier_since is None:
            waits = (self.bridge.options.get("query_response_interval") or 1000) * 10**7
            self.own_querier_since = time if self.in_use else self.born + OWN_QUERIER_WAITS if time - self.born < 10**8 else time + waits
            self.own_query_six = self.own_query_six or self.in_use
            self.snooped.own_six = None if self.snooped.knows(6, time) else bytes(16)  # while another one is known it doesn't ask
        if self.own_querier_since is not None and self.bridge.is_snooping():
            if self.own_query_due is None:
                self.own_query_due = max(time, self.own_querier_since)
        elif self.own_query_due is not None:
            self.own_query_due = None
            self.snooped.own_querier_off(time)

    def own_queries(self, time):
        """The querier of the bridge is known once it has waited; in the scenario its queries enter at a port of their own."""
        while self.own_query_due is not None and time > self.own_query_due and "QUERIER" in self.model.up and not self.is_over:
            if time - self.own_query_due > FORGETS:  # long quiet: the last ones are enough
                self.own_query_due = time - FORGETS
            at, self.own_query_due = self.own_query_due, self.own_query_due + OWN_QUERIER_AGAIN
            for version in (4, 6) if self.own_query_six else (4,):
                self.own_query(at, version)

    def own_query(self, time, version):
        self.notes["queries of the bridge's own, put in"] += 1
        self.model.moments = time, time
        self.model.enter(time, QUERIER, packets.query(version, None))

    # ---- frames ----

    def cache(self, key, find):
        """What follows from the configuration, found once."""
        if key not in self.cached:
            self.cached[key] = find()
        return self.cached[key]

    def settings_of(self, device):
        """The kernel's configuration of a device, in words."""
        port = self.bridge.ports.get(device)
        return self.cache(("words", device), lambda: port.describe(self.bridge) if port else self.bridge.describe())

    def settings_on(self):
        """By setting the numbers of the ports that have it (of the flags: that don't)."""
        return self.cached.get("on") or self.cache("on", self.find_settings)

    def find_settings(self):
        ports = {self.number_of(each.index): each for each in self.bridge.ports.values()}
        on = {setting: {n for n, each in ports.items() if each.has(setting)} for setting in named.SETTINGS}
        on["bcast_flood"] = {n for n, each in ports.items() if not each.flags["bcast_flood"]}
        return on

    def quiet(self, time):
        """Remembers the kernel's tables where nothing happened for a while."""
        was_quiet = self.last_event is not None and time - self.last_event > self.bounds.quiet
        if was_quiet and self.unseen and self.window and self.window.frames and not self.window.skip and not self.is_over:
            self.cut(time)
        self.last_event = time

    def cut(self, time):
        window = self.window
        if len(window.cuts) >= MOST_CUTS or window.looked > MOST_LOOKED:
            self.notes["quiet moments at which the tables weren't compared"] += 1
            return
        self.own_queries(time)
        self.model.at(time - 2 * 10**6)
        window.looked += len(self.model.items)
        sources = {(packets.group_text(group), vid or 1) for vid, group in self.bridge.sources if len(group) in (4, 16)}
        cut = Cut(time, self.kernel_fdb(), self.kernel_mdb(), sources)
        keys = (*cut.fdb.values(), *cut.mdb.values())
        cut.due = {key for key in keys if named.is_due(self, key, time)}
        cut.late = {key for key in keys if named.is_late(self, key, time)}
        cut.came = {key: self.told[key] for key in keys if key in self.told}
        cut.recent = {(key[1], key[0] or 1) for key, moment in self.heard.items() if time - moment <= self.bounds.near}
        cut.place = len(self.model.items)
        window.cuts.append(cut)
        self.model.items.append(Item(cut=cut))
        self.unseen = False

    def kernel_fdb(self):
        """The kernel's addresses, as `show fdb` has them, each with its key."""
        rows = {}
        for (vid, mac), (device, kind) in self.bridge.fdb.items():
            if self.bridge.counts(vid) and (vid or 1) in self.model.used and not (kind == "local" and (vid or 1) not in self.model.vlans["host"]):
                port = self.bridge.ports.get(device)
                name = "host" if kind == "local" or device == self.bridge.index else self.model.name(port) if port else "?%d" % device
                if kind == "learned" or self.model.place(self.bridge, self.bridge.index if name == "host" else device, vid or 1):
                    rows["%s dev %s vlan %d %s" % (mac, name, vid or 1, kind)] = vid, mac
        return rows

    def kernel_mdb(self):
        rows = {}
        for vid, group, device in self.bridge.mdb:
            if self.bridge.counts(vid):
                name = self.model.place(self.bridge, device, vid or 1)
                if name:
                    rows["dev %s grp %s vlan %d" % (name, group, vid or 1)] = vid, group, device
        return rows

    def number_of(self, device):
        if device == self.bridge.index:
            return 0
        return self.model.numbers.get(device) or self.model.number(self.bridge.ports[device])

    def frame(self, packet):
        """A frame at the bridge's device or a port's. What the bridge's device sends enters the bridge, and what it gets left it."""
        is_host, time = packet.device == self.bridge.index, packet.time
        enters = packet.left == is_host
        if self.lacks or self.window is None:
            self.uncompared["before the state at the start was whole"] += 1
            if enters:
                self.remember_frame(Frame(time, -1, b"", packet.length), packet)
            return
        if self.closing:
            self.settle(time)
        self.quiet(time)
        if enters:
            self.pass_bounds(time)
            self.enter(packet, HOST if is_host else self.number_of(packet.device))
        else:
            self.leave(packet)

    def enter(self, packet, number):
        time, device = packet.time, packet.device
        self.own_queries(time)
        data = packets.deciding(packet.data, packet.length)
        why = self.unfit(packet, number)
        frame = Frame(time, number, data or packet.data[:packets.KEPT], packet.length)
        self.remember_frame(frame, packet)
        if why or data is None:
            self.uncompared[why or "a message, or to a group, and shortened"] += 1
            if len(packet.data) >= packets.SHORTEST:
                self.teach_unfit(time, number, device, frame.data)
            return
        given = data
        if not self.bridge.is_aware():
            frame.kept_tag, given = packets.tag_of(data), packets.bare(data)
        else:
            self.use(time, device, packets.vid_of(data))
        frame.view = named.View(self, number, device, given, time, packet.length)
        frame.settings = self.settings_of(device)
        frame.expected = named.expected(self, frame, given)
        self.window.frames.append(frame)
        self.unseen = True
        if frame.expected is None:
            self.model.enter(time, number, given.hex(), frame)
        else:
            self.model.at(time)
        frame.item = len(self.model.items) - 1
        self.heard[frame.view.source] = time
        self.window.taught.discard(frame.view.source)
        if frame.view.is_group or frame.expected:
            named.react(self, frame, given)

    def use(self, time, device, vid):
        """Mirrors a VLAN in which a frame enters."""
        port = self.bridge.ports.get(device)
        if not vid or vid in self.model.used or vid not in (port.vlans if port else self.bridge.vlans_of_host()):
            return
        self.model.moments = time, time
        self.model.use(self.bridge, {vid})
        self.model.forgotten.clear()
        self.cached.clear()
        for each in (self.bridge.index, *self.bridge.ports):
            self.put_off(self.bridge.addresses.at(each, vid), self.bridge.groups.at(each, vid), time)
        self.teach_pending(time)

    def unfit(self, packet, number):
        """Why a frame isn't judged, or None."""
        port = self.bridge.ports.get(packet.device)
        mtu = port.mtu if port else self.bridge.mtu
        if mtu and packet.length > mtu + packets.HEADER:
            self.joined[packet.data[:12]] = packet.time
            return packets.joined_words(port.name if port else self.bridge.name)
        why = self.cache("unfit", lambda: (named.unfit_bridge(self.bridge),))[0]
        return why or named.unfit(self.bridge, packet.data, packet.length, number == HOST)

    def note_message(self, time, vid, device, message):
        """When members reported, and left."""
        if message and message.kind in ("report", "records", "leave"):
            for group in message.groups:
                moments = self.left if group in message.leaves else self.heard
                moments[vid, packets.group_text(group), device] = time

    def teach_unfit(self, time, number, device, data):
        """The kernel learns from a frame that isn't judged, too."""
        self.use(time, device, packets.vid_of(data) if self.bridge.is_aware() else 0)
        view = named.View(self, number, device, data if self.bridge.is_aware() else packets.bare(data), time, len(data))
        if view.port and view.port.is_up() and view.admitted and view.port.flags["learning"] and not data[6] & 1:
            if (view.source_entry or (0, ""))[1] != "local":
                self.model.teach(time, number, self.model.name(view.port), view.vid, data[6:12].hex(":"))

    def remember_frame(self, frame, packet):
        key, rest = packets.parted(packet.data, packet.length)
        self.recent[key].append((frame, rest))
        self.entered.append((frame.time, key))
        while self.entered[0][0] < frame.time - self.bounds.flight:
            _, old = self.entered.popleft()
            self.recent[old].popleft()
            if not self.recent[old]:
                del self.recent[old]

    def leave(self, packet):
        number = self.number_of(packet.device)
        key, rest = packets.parted(packet.data, packet.length)
        for frame, its_rest in reversed(self.recent.get(key, ())):
            if (rest == its_rest or None in (rest, its_rest)) and self.may_leave(frame, packet, number):
                kept = packets.bare(frame.data)
                frame.out.append((number, packets.head(packet.data, min(packets.KEPT, len(kept))) + kept[packets.KEPT:]))
                return
        self.stranger(packet.time, number, packet.device, packet.data)

    def may_leave(self, frame, packet, number):
        """Whether this may be what left of the frame: at another port, and not yet there."""
        if packet.time - frame.time >= self.bounds.flight or any(each == number for each, _ in frame.out):
            return False
        port = self.bridge.ports.get(packet.device)
        return frame.number != number or bool(port and port.has("hairpin"))

    def stranger(self, time, number, device, data):
        """A frame that left without having entered."""
        why = self.why_strange(time, number, device, data)
        if why:
            self.uncompared[why] += 1
        elif self.window.skip:
            self.uncompared[self.window.skip] += 1
        else:
            self.window.strangers.append((time, number, data[:packets.KEPT]))

    def why_strange(self, time, number, device, data):
        """Why a frame leaves without having entered, or None."""
        source = data[6:12]
        if time - self.joined.get(data[:12], -self.bounds.flight) < self.bounds.flight:
            return "a part of a frame that the kernel had joined"
        if data[:6] == b"\x01\x80\xc2\0\0\0" and self.bridge.options.get("stp_state"):
            return "the bridge's own BPDU"
        message = packets.message_of(data)
        if message and message.kind == "query" and source == self.bridge.mac:
            self.hear_own_query(time, message, data)
            return "the bridge's own %s query" % {4: "IGMP", 6: "MLD"}[message.version]
        if not self.sees_host and source == self.bridge.mac:
            return "sent by the switch itself"
        if number and source == self.bridge.ports[device].mac:
            return "sent by a port's own device"
        if packets.asks_address(data) and (self.settings_on()["neigh_suppress"] or self.settings_on()["proxyarp"]):
            return "answered by the bridge (neigh_suppress, proxyarp)"
        if any(self.settings_on()[setting] for setting in named.CHANGES_BYTES):
            return "changed on its way (%s)" % ", ".join(named.CHANGES_BYTES)
        return None

    def hear_own_query(self, time, message, data):
        if message.version != 6:
            return
        if self.own_querier_since is not None:
            self.snooped.own_six = packets.addresses(data)[0]
        if not self.own_query_six:
            self.own_query_six = True
            if self.own_querier_since is not None and time > self.own_querier_since and self.own_query_due is not None:
                self.own_query(time, 6)
