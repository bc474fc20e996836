"""The differences of docs/KERNEL.md, as they show in a record, and what a scenario can't say.

Of some frames the kernel's way is known beforehand, and they would leave another state in the scenario: `expected` gives the ports
that the kernel must use then, and the frame doesn't enter the scenario. Of others the difference is named afterwards, by `name_of`, which
tests as narrowly as a record allows: an unnamed difference is unexplained. `react` sets the scenario right behind a frame of which it is
known that the two go on differently.
"""
import bisect
import collections

import kernel
import packets

HOLDS = 255 * 10**9      # ns: how long a querier or a router port is known
OWN_LATE = 10**9         # ns: how late the querier of the bridge begins, at most
MEMBERSHIP, LEAVE = 255 * 10**9, 19 * 10**8  # ns without a report, or behind a leave, from which a membership may be due
LEARNING = 2             # a port's state
CHANGES_BYTES = ("mcast_to_unicast", "vlan_tunnel")
# settings of a port that a scenario lacks, by what alone they change: what enters there, what leaves there, or who asks for an address
AT_ENTRY, AT_EXIT = ("vlan_tunnel", "mrp_ring", "mab"), ("vlan_tunnel", "mcast_to_unicast", "backup_port", "mrp_ring")
QUESTIONS = ("neigh_suppress", "proxyarp")
LEFT_OUT = QUESTIONS + AT_EXIT + ("mab",)
PROMISCUOUS, BY_SOURCES = "left out: a promiscuous host", "left out: sources (S,G)"
TOO_LONG = "left out: longer than the MTU of a port"
SETTINGS = LEFT_OUT + ("hairpin", "mcast_router")
SOON = 5 * 10**7         # ns within which the kernel tells all of one change
DEFAULT_TIMES = {"last_member_interval": 100, "membership_interval": 26000, "querier_interval": 25500}

# `teaches`: whether the kernel learns the source all the same
Expected = collections.namedtuple("Expected", "name ports teaches")


def has_sources(bridge, version):
    """Whether the kernel looks at the sources of groups."""
    return bridge.options.get("igmp_version", 2) == 3 if version == 4 else bridge.options.get("mld_version", 1) == 2


def has_own_times(bridge):
    return any(bridge.options.get(name, usual) != usual for name, usual in DEFAULT_TIMES.items())


def unfit_bridge(bridge):
    """Why no frame of a bridge is judged, or None."""
    if bridge.options.get("vlan_protocol", 0x8100) != 0x8100:
        return "the bridge's VLANs are of 802.1ad"
    if bridge.has_option(kernel.MST):
        return "the bridge has a spanning tree for each VLAN (mst_enable)"
    return None


def unfit(bridge, data, length, by_host):
    """Why a frame isn't judged, or None."""
    if length > packets.LONGEST:
        return "longer than %d bytes" % packets.LONGEST
    if len(data) < packets.SHORTEST:
        return "shorter than %d bytes" % packets.SHORTEST
    if bridge.is_aware() or not packets.tag_of(data):
        return None
    if packets.bare(data)[12:14] == packets.TAG:
        return "two tags, and the bridge doesn't look at them"
    if by_host and packets.is_group(data):
        return "to a group, with a tag of the host's, and the bridge doesn't look at it"
    return None


# What was known of queriers and routers when a frame entered, for its version of IP: sets of numbers. `routers` of its version, `others`
# of the other one, `late`: those whose time is over, as long as the kernel may be late; `passed`: those whose queries were passed over,
# `passed_here` of the version; `knows` a querier, and `waits` until the time for answers is over
Heard = collections.namedtuple("Heard", "routers others late passed passed_here announced told flushed knows waits own_off")


class Snooped:
    """What the messages of the record say of queriers and routers."""

    def __init__(self, bounds):
        self.bounds = bounds
        self.querier = {4: (None, 0, 0), 6: (None, 0, 0)}  # the address, until when it is known, and until when it waits
        self.routers = {4: {}, 6: {}}  # number -> until when
        self.announced, self.passed_over = {}, {4: {}, 6: {}}
        self.own_six = None  # the address of the bridge's own MLD querier while it is on, zeros before it asked
        self.asked, self.told, self.own_off, self.flushed = {}, set(), None, set()

    def general(self, time, version, number, source, delay):
        address, until, waits = self.querier[version]
        known = address is not None and any(address) and until > time
        if known and source > address or version == 6 and self.own_six is not None and source > self.own_six:
            self.passed_over[version][number] = time + HOLDS
            return
        self.querier[version] = source, time + HOLDS, waits if until > time else time + delay * 10**6
        self.routers[version][number] = time + HOLDS
        self.flushed.discard(number)

    def heard_before(self, version, number, time):
        self.querier[version] = b"", time + HOLDS, time
        self.routers[version][number] = time + HOLDS

    def knows(self, version, time):
        return self.querier[version][1] > time

    def asked_of(self, time, group):
        return time - self.asked.get(group, -self.bounds.late) < self.bounds.late

    def keep(self, numbers):
        """Forgets the ports that have no number any more."""
        kept = {0, *numbers}
        for moments in (*self.routers.values(), *self.passed_over.values(), self.announced):
            for number in moments.keys() - kept:
                del moments[number]
        self.told &= kept
        self.flushed &= kept

    def living_routers(self, time):
        """(moment, version, number) of each querier that is known: when it was heard, and where."""
        for version, ports in self.routers.items():
            for number in living(ports, time):
                yield ports[number] - HOLDS, version, number

    def own_querier_off(self, time):
        self.own_off = time

    def flush(self, time):
        """Snooping goes off: the kernel forgets the router ports."""
        self.flushed |= living(self.routers[4], time) | living(self.routers[6], time)
        self.routers = {4: {}, 6: {}}

    def at(self, version, time):
        """What is known now; None where a frame has no version of IP."""
        if version is None:
            return None
        here, passed = living(self.routers[version], time), {each: living(self.passed_over[each], time) for each in (4, 6)}
        late = living(self.routers[version], time - self.bounds.late) - here
        return Heard(here, living(self.routers[10 - version], time), late, passed[4] | passed[6], passed[version],
                     living(self.announced, time), frozenset(self.told), frozenset(self.flushed), self.knows(version, time),
                     self.querier[version][2] > time - self.bounds.near, self.own_off)


def living(moments, time):
    return {number for number, until in moments.items() if until > time}


def is_near_change(case, time):
    at = bisect.bisect_left(case.changes, time - case.bounds.near + 1)
    return at < len(case.changes) and case.changes[at] < time + case.bounds.near


def sends(case, view, ports):
    """Whether the kernel's own tables send a frame to these ports: to all that floods, or to members and routers."""
    if ports == view.flood or view.heard is None:
        return True
    return (view.snooping or is_near_change(case, view.time)) and is_of_tables(view, ports)


def of_tables(view):
    """The ports of members and routers: those by which the frame leaves, and those by which it may leave, too."""
    members = view.wanted & view.reachable if view.is_payload else set()
    heard, known = view.heard, view.routers | {0}
    possible = (heard.routers | heard.late | heard.announced | heard.told | view.router_settings) & known
    sure = heard.routers & view.routers - heard.told - heard.passed - view.router_settings
    if view.has_own_times:
        possible, sure = known, set()
    return members | sure & view.reachable, members | possible & view.reachable


def is_of_tables(view, ports):
    """Whether these ports are those of members and routers."""
    least, most = of_tables(view)
    return least <= ports <= most


# differences that say by which ports a frame leaves in Linux, and no other way was named so
EXACT = {"teach-first", "own-address", "link-down", "leave-flood", "query-delay", PROMISCUOUS, TOO_LONG}


def is_checked(frame, name, linux):
    """Whether the name says by which ports the frame leaves in Linux: by just those it left by."""
    view = frame.view
    if frame.expected is not None or name in EXACT:
        return True
    if name == "host-floods":
        return linux == view.reachable
    if not view.is_group or view.heard is None:
        return name in ("vlan-del-keeps", "late-end")
    least, most = of_tables(view)
    return view.snooping and least == most == linux


def router_differences(view):
    """Of each difference its name, the ports that it makes routers' in the scenario alone, and those in the kernel alone."""
    heard, members = view.heard, set(view.members) if view.is_payload else set()  # a message goes to routers alone
    yield "routers-two", heard.others - heard.routers - members, set()
    yield "query-order", heard.passed - members, set()
    yield "snooping-flush", heard.flushed - members, set()
    yield "router-messages", set(), heard.announced
    yield "late-end", set(), heard.late
    yield "left out: mcast_router", view.router_settings, view.router_settings
    yield "left out: a router port from before the record", set(), heard.told


class Ports:
    """What the configuration says of the ports of a bridge, whatever the frame: numbers of ports, 0 is the host."""

    def __init__(self, case):
        bridge, model = case.bridge, case.model
        self.others = {case.number_of(each.index): each for each in bridge.ports.values()}
        names = {number: model.name(port) for number, port in self.others.items()}
        self.vlans = {number: model.vlans[name] for number, name in names.items() if name in model.up}
        flags = {number: model.flags[names[number]] for number in self.vlans}
        self.isolated = {number for number in self.vlans if flags[number]["isolated"]}
        self.quiet = {number for number in self.vlans if not flags[number]["mcast_flood"]}
        self.hairpin = {number for number, port in self.others.items() if port.has("hairpin")}
        self.on, self.options = case.settings_on(), dict(bridge.options)
        self.promiscuous, self.snooping, self.is_aware = bridge.promiscuous, bridge.is_snooping(), bridge.is_aware()
        self.router_settings = self.on["mcast_router"] | ({0} if bridge.options.get("mcast_router", 1) != 1 else set())
        self.routers = {case.number_of(each) for each in bridge.routers if each in bridge.ports}
        self.states = {number: port.vlan_states for number, port in self.others.items() if port.vlan_states}
        self.group_fwd_mask = bridge.options.get("group_fwd_mask", 0)
        self.smallest_mtu = min((each.mtu for each in self.others.values() if each.mtu), default=packets.LONGEST)
        self.switches = {number: each.switch for number, each in self.others.items() if each.switch}
        self.has_own_times = has_own_times(bridge)


class Place:
    """What the configuration says of the frames of a VLAN that enter at a port; `ports` has what it says whatever the VLAN."""
    __slots__ = ("ports", "port", "vid", "admitted", "host_in_vlan", "in_vlan", "reachable", "quiet", "flood", "blocked", "forwards")

    def __init__(self, case, number, device, tag):
        self.ports = ports = case.cache("ports", lambda: Ports(case))
        model = case.model
        self.port = ports.others.get(number)
        vlans = ports.vlans.get(number, {}) if self.port else model.vlans.get("HOST", {})
        self.vid = vid = tag or next((vid for vid, (pvid, _) in vlans.items() if pvid), 0)
        self.admitted, self.host_in_vlan = vid in vlans, vid in model.vlans["host"]
        self.in_vlan = case.cache(("VLAN", vid), lambda: {other for other, vlans in ports.vlans.items() if vid in vlans})
        # the ports by which a frame of this VLAN may leave at all
        self.reachable = self.find_reachable(number) if self.admitted else set()
        # those among them with `mcast_flood off`
        self.quiet = self.reachable & ports.quiet
        # where a frame to a group leaves that is flooded; of what the host sends that leaves no port out
        self.flood = self.reachable - self.quiet if self.port else self.reachable
        self.blocked = {other for other, states in ports.states.items() if states.get(vid, kernel.FORWARDING) != kernel.FORWARDING}
        self.forwards = bool(self.port and self.port.others.get("group_fwd_mask", 0) | ports.group_fwd_mask)

    def find_reachable(self, number):
        found = self.in_vlan - ({number} - self.ports.hairpin)
        if number in self.ports.isolated:
            found -= self.ports.isolated
        return found | {0} if self.port and self.host_in_vlan else found

    def __getattr__(self, name):
        return getattr(self.ports, name)


class View:
    """What the kernel's tables said of a frame when it entered: numbers of ports, 0 is the host. `place` has what the configuration said."""
    __slots__ = ("place", "number", "device", "time", "data", "length", "key", "source", "source_entry", "entry", "entry_number", "entry_place",
                 "is_old", "is_late", "is_group", "group", "members", "has_sources", "due", "unreachable", "wanted", "heard", "own_since",
                 "is_payload", "is_locked")

    def __init__(self, case, number, device, data, time, length):
        bridge, tag = case.bridge, packets.vid_of(data)
        self.number, self.device, self.time, self.data, self.length = number, device, time, data, length
        self.place = case.cached.get((number, tag)) or case.cache((number, tag), lambda: Place(case, number, device, tag))
        vid = self.place.vid if self.place.is_aware else 0
        self.key, self.source = (vid, data[:6].hex(":")), (vid, data[6:12].hex(":"))
        self.source_entry, self.entry = bridge.fdb.get(self.source), bridge.fdb.get(self.key)
        self.is_locked = self.source in bridge.locked
        self.entry_number, self.entry_place = self.place_of_entry(case) if self.entry else (None, None)
        self.is_old = bool(self.entry) and self.entry[1] == "learned" and is_due(case, self.key, time)
        self.is_late = self.is_old and is_late(case, self.key, time)
        self.is_group, self.own_since = packets.is_group(data), case.own_querier_since
        self.group, self.members, self.has_sources, self.due, self.unreachable, self.wanted = b"", {}, False, set(), set(), set()
        self.heard, self.is_payload = None, True
        if data[0] & 1:
            self.look_at_group(case, data, time)

    def __getattr__(self, name):
        return getattr(self.place, name)

    def look_at_group(self, case, data, time):
        self.find_members(case, data)
        self.heard = case.snooped.at(self.version(), time)
        message = packets.message_of(data)
        self.is_payload = message is None or message.kind == "other"

    def learns(self):
        return bool(self.place.port) and bool(self.place.port.flags["learning"])

    def too_small(self):
        """The ports that take no frame as long as this one."""
        if self.length <= self.place.smallest_mtu + packets.HEADER:
            return set()
        return {number for number, port in self.place.others.items() if port.mtu and self.length > port.mtu + packets.HEADER}

    def place_of_entry(self, case):
        """The number of the port where the kernel has the destination, and whether that is "host", "down", "outside" of the VLAN or
        "here"."""
        device, kind = self.entry
        if kind == "local" or device == case.bridge.index:
            return 0, "host"
        port = case.bridge.ports.get(device)
        if port is None or not port.is_up():
            return None, "down"
        number = case.number_of(device)
        return number, "here" if number in self.place.in_vlan else "outside"

    def find_members(self, case, data):
        """The group of the packet, with its members in the kernel: number -> key."""
        found = packets.addresses(data)
        self.group = found[1] if found else b""
        keys = case.bridge.members_at((self.key[0], packets.group_text(self.group)))
        self.members = {case.number_of(key[2]): key for key in keys}
        self.has_sources = (self.key[0], self.group) in case.bridge.sources
        self.due = {number for number, key in self.members.items() if is_due(case, key, self.time)}
        self.unreachable = self.members.keys() - self.place.in_vlan - {0}
        self.wanted = self.find_wanted(case, found[0]) if found else set()

    def find_wanted(self, case, source):
        """The members to which the kernel's table sends a packet of this source (br_mdb_get, br_multicast_flood)."""
        bridge = case.bridge
        by_sources = has_sources(bridge, self.version())
        devices = bridge.by_source.get((self.key[0], self.group, source)) if by_sources else None
        if devices is not None:
            known = {device: blocked for device, blocked in devices.items() if device == bridge.index or device in bridge.ports}
            return {case.number_of(device) for device, blocked in known.items() if not blocked} | set(self.members) & {0}
        return {number for number, key in self.members.items() if not by_sources or key not in bridge.includes}

    def version(self):
        return {4: 4, 16: 6}.get(len(self.group))


# ---- what the kernel does, known beforehand ----


def expected(case, frame, data):
    view, port = frame.view, frame.view.port
    if port and port.state == LEARNING:
        return Expected("left out: a port that is learning", set(), True)
    if packets.tag_of(data) and len(data) < 19:
        return Expected("short-tag", set(), False)
    if port and port.has("locked") and not packets.is_reserved(data) and view.admitted:
        if view.source_entry is None or view.source_entry[0] != port.index or view.source_entry[1] == "local" or view.is_locked:
            return Expected("locked", set(), False)
    if view.snooping and view.admitted and packets.is_group(data) and not packets.is_reserved(data):
        return expected_of_group(view, data)
    return None


def expected_of_group(view, data):
    """Of a frame to a group, while snooping is on."""
    if packets.kind_of(data) in (packets.V4, packets.V6):
        fault = packets.fault_of(data)
        if fault:
            return Expected(fault, set(), True)
    message = packets.message_of(data)
    if not message or message.kind != "query":
        return None
    source, to = packets.addresses(data)
    if message.version == 6 and source[:2] != b"\xfe\x80":
        return Expected("query-source6", set(), True)
    if not any(message.groups[0]) and to != packets.ALL_NODES[message.version]:
        return Expected("query-destination", set(), True)
    if not any(message.groups[0]) and message.sources:
        return Expected("query-sources", view.flood, True)
    if message.version == 6 and message.delay == 0 and message.short:
        return Expected("query-zero-delay", view.flood, True)
    return None


# ---- what is set right behind a frame ----


def react(case, frame, data):
    view = frame.view
    if view.port and view.admitted and view.port.flags["learning"] and teaches(case.bridge, frame, data):
        case.model.teach(frame.time, view.number, case.model.name(view.port), view.vid, data[6:12].hex(":"))
        case.notes["learned from a frame that doesn't enter the scenario"] += 1
    if view.admitted and view.snooping and packets.is_group(data) and not (frame.expected and not frame.expected.ports):
        react_to_message(case, frame, data)


def teaches(bridge, frame, data):
    """Whether the kernel learns the source where the scenario doesn't."""
    if data[6] & 1 or not any(data[6:12]) or (frame.view.source_entry or (0, ""))[1] == "local":
        return False
    if frame.expected:
        return frame.expected.teaches and frame.view.port.is_up()
    if not packets.is_reserved(data) or data[5] == 1 or data[5] == 0 and not bridge.options.get("stp_state"):
        return False
    forwards = bridge.options.get("group_fwd_mask", 0) >> data[5] & 1
    return bool(forwards or not bridge.has_option(kernel.NO_LINKLOCAL_LEARN))


def react_to_message(case, frame, data):
    message, view, snooped = packets.message_of(data), frame.view, case.snooped
    case.note_message(frame.time, view.key[0], view.device, message)
    source = (packets.addresses(data) or (b"", b""))[0]
    name, number = (case.model.name(view.port), view.number) if view.port else ("HOST", 0)
    if packets.oddity(data):
        case.odd.append((frame.time, view.device, packets.oddity(data)))
    if packets.announces_router(data):
        snooped.announced[number] = frame.time + HOLDS
    elif message and packets.is_general(message):
        snooped.general(frame.time, message.version, number, source, message.delay)
        if not any(source):
            case.model.hear(frame.time, view.number, name, view.vid, message.version)
            case.notes["query-zero"] += 1
    elif message and message.kind == "query":
        snooped.asked[packets.group_text(message.groups[0])] = frame.time
    elif message and message.leaves and snooped.knows(message.version, frame.time) and ends_nothing(case.bridge, view, message):
        keep_members(case, frame, message, name)


def ends_nothing(bridge, view, message):
    """Whether a leave, with a querier known, is of the older versions, and not at a port with `fastleave`."""
    return not has_sources(bridge, message.version) and not (view.port and view.port.flags["fastleave"])


def keep_members(case, frame, message, name):
    """With a querier known a leave ends nothing in the kernel: a report behind it keeps the member."""
    view = frame.view
    for group in message.leaves:
        text = packets.group_text(group)
        key = view.key[0], text, view.device
        if case.bridge.mdb.get(key) is False:
            case.window.followed.add(key)
            case.model.join(frame.time, view.number, name, view.vid, text)
            case.notes["leave-querier"] += 1


# ---- the names of differences ----


def of_row(case, key, cut):
    """Of an entry or a member that the kernel has and the scenario hasn't."""
    if key in cut.late or key in cut.due and went_soon(case, key, cut.time):
        return "late-end"
    came = cut.came.get(key)
    if came is None:
        return None
    return of_odd_message(case, key, came) or ("near a change" if is_near_change(case, came) else None)


def of_odd_message(case, key, came):
    """A member that a message of an odd form made."""
    for time, device, name in case.odd:
        if len(key) == 3 and key[2] == device and 0 <= came - time < SOON:
            return name
    return None


def went_soon(case, key, time):
    """Whether the kernel ended it by itself soon afterwards."""
    return any(time < gone < time + case.bounds.late for gone in case.gone.get(key, ()))


def is_due(case, key, time):
    """Whether the time of an entry or a member is over, by what was heard until now."""
    heard = case.heard.get(key)
    if heard is None or len(key) == 2:
        return heard is None or time - heard >= case.bridge.options.get("ageing_time", 30000) * 10**7
    left = case.left.get(key, 0)
    return time - heard >= MEMBERSHIP or left >= heard and time - left >= LEAVE or case.snooped.asked_of(time, key[1])


def is_late(case, key, time):
    """Whether the time of an address was over a moment ago, so that the kernel may still have it."""
    heard = case.heard.get(key)
    return len(key) == 2 and heard is not None and 0 <= time - heard - case.bridge.options.get("ageing_time", 30000) * 10**7 < case.bounds.late


def of_unicast(case, frame, ours, linux):
    view = frame.view
    heard = linux - ({0} if view.promiscuous else set())
    if frame.data[:6] == frame.data[6:12] and view.learns() and heard <= {view.number} & view.on["hairpin"]:
        return "teach-first"
    if heard:
        ends_late = view.is_late or view.is_old and went_soon(case, view.key, view.time)
        return "late-end" if ends_late and heard == {view.entry_number} != ours else None
    if view.entry_place == "host":
        return None if view.host_in_vlan else "own-address"
    return {"down": "link-down", "outside": "vlan-del-keeps"}.get(view.entry_place)


def of_group(case, frame, ours, linux):
    """A difference of a frame to a group. Most names need that the kernel's own tables send it where it went."""
    view, message = frame.view, packets.message_of(frame.view.data)
    follows = sends(case, view, linux)
    rules = BESIDE_TABLES + (GROUP_RULES if follows else [])
    for name, holds in rules:
        if holds(case, view, message, ours, linux):
            return name
    return of_oddity(view, ours, linux) or (of_routers(view, ours, linux) if follows and view.heard else None)


def of_routers(view, ours, linux):
    """Router ports that one of the two has: the names of all differences by which they are explained."""
    names, surplus, lacking = [], ours - linux, linux - ours
    for name, more, fewer in router_differences(view):
        if more & surplus or fewer & lacking:
            names.append(name)
            surplus, lacking = surplus - more, lacking - fewer
    return ", ".join(names) if not surplus and not lacking else None


def is_leave(case, view, message, ours, linux):
    return bool(message and view.snooping and message.kind in ("leave", "records") and linux == view.flood)


def is_by_sources(case, view, message, ours, linux):
    return view.has_sources and message is None and is_of_tables(view, linux)


def waits_for_querier(case, view, message, ours, linux):
    return bool(view.heard and view.heard.waits and linux == view.flood)


def has_no_querier(case, view, message, ours, linux):
    """The one querier that was heard was passed over for the bridge's own, which doesn't count yet."""
    return bool(view.heard and view.heard.passed_here and not view.heard.knows and linux == view.flood)


def own_querier(case, view, message, ours, linux):
    late = view.own_since is not None and 0 <= view.time - view.own_since < OWN_LATE
    heard = view.heard
    ended = heard and heard.own_off is not None and 0 <= view.time - heard.own_off < HOLDS and not heard.knows
    # it counts from the moment at which snooping begins, and in the scenario from its query on
    floods = ours == view.reachable - view.quiet
    begins = floods and view.own_since is not None and view.time >= view.own_since and is_near_change(case, view.time)
    return bool(linux == view.flood and (late or ended) or begins)


def ends_members_late(case, view, message, ours, linux):
    late = {number for number in view.due if went_soon(case, view.members[number], view.time)}
    if not late or message:
        return False
    return not ours - linux and linux - ours <= late or ours == view.flood and set(view.members) <= late


def is_outside(case, view, message, ours, linux):
    return message is None and bool(view.unreachable) and view.unreachable >= set(view.members) - linux


def disagrees(case, view, message, ours, linux):
    return bool(packets.addresses(view.data)) and not packets.agrees(view.data)


def is_other_igmp(case, view, message, ours, linux):
    return bool(message and message.kind == "other") and ours == view.flood


def of_oddity(view, ours, linux):
    """A message of an odd form, that goes as ordinary payload does, or as a message, or is dropped."""
    return packets.oddity(view.data) if view.snooping and linux <= view.flood | set(view.members) else None


def has_vlan_snooping(case, view, message, ours, linux):
    return bool(view.options.get("multi_boolopt", 0) & kernel.VLAN_SNOOPING) and linux <= view.flood | set(view.members)


def is_forwarded(case, view, message, ours, linux):
    """A reserved address, to which the host sends as to any, and by which the bridge may be told to forward."""
    return packets.is_reserved(view.data) and linux - {0} == view.flood - {0} and (not view.port or view.forwards)


def floods_all(case, view, message, ours, linux):
    return not view.port and linux == view.flood and not ours - linux and linux - ours <= view.quiet


# of frames that the tables of the record don't decide
BESIDE_TABLES = [("left out: mcast_vlan_snooping", has_vlan_snooping), ("left out: group_fwd_mask", is_forwarded)]
# of frames that go where the kernel's tables send them
GROUP_RULES = [
    ("leave-flood", is_leave), (BY_SOURCES, is_by_sources), ("query-delay", waits_for_querier),
    ("query-order", has_no_querier),
    ("left out: the bridge's own querier", own_querier), ("late-end", ends_members_late), ("vlan-del-keeps", is_outside),
    ("ip-destination", disagrees), ("igmp-type", is_other_igmp), ("host-floods", floods_all)]


def may_change(setting, view, ports):
    """Whether the setting may change that a frame leaves by these ports."""
    concerned = view.on[setting]
    if setting in QUESTIONS:
        return bool(concerned) and packets.asks_address(view.data)
    return setting in AT_ENTRY and view.number in concerned or setting in AT_EXIT and bool(concerned) and ports <= concerned


def of_settings(frame, ours, linux):
    """A setting of a port that the scenario lacks."""
    view = frame.view
    if ours - linux and not linux - ours and ours - linux == ours & view.too_small():
        return TOO_LONG
    if view.number in view.on["hairpin"] and linux - ours == {view.number} and not ours - linux:
        return "left out: hairpin"
    for setting in LEFT_OUT:
        if may_change(setting, view, ours ^ linux):
            return "left out: " + setting
    if view.blocked and not linux - ours and (view.number in view.blocked and not linux or ours - linux <= view.blocked):
        return "left out: state of a VLAN"
    if not view.port and frame.data[:6] == b"\xff" * 6 and not ours - linux and linux - ours <= view.on["bcast_flood"]:
        return "host-floods"
    return None


def name_of(case, frame, ours, linux):
    """The name of the difference between the ports that the scenario gives and those of the kernel, or None."""
    if frame.view.promiscuous and 0 in linux - ours:
        if linux - {0} == ours:
            return PROMISCUOUS
        name = name_of_ports(case, frame, ours, linux - {0})
        if name:
            return name
    return name_of_ports(case, frame, ours, linux)


def name_of_ports(case, frame, ours, linux):
    name = of_settings(frame, ours, linux)
    if name is None:
        name = of_group(case, frame, ours, linux) if packets.is_group(frame.data) else of_unicast(case, frame, ours, linux)
    return name
