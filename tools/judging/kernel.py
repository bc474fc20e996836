"""The configuration and the tables of the bridges, as netlink messages tell them.

For each bridge there is a case (made by `open_case`), which hears of each change:

    case.asked(time)                          a command is on its way
    case.changed(time)                        the configuration is another one
    case.address(time, entry, gone, how)      an address entry came, changed or went
    case.member(time, member, gone, by_command)
    case.router(time, router, gone)
    case.started(time)                        the state at the start of the record is whole
    case.ended(time)

HOW is "command" where a command asked for just this, "flush" where one asked for many to go, and "" where the bridge did it by itself.
"""
import struct

import netlink

FORWARDING = 3
FLAGS = {"learning": 1, "flood": 1, "mcast_flood": 1, "bcast_flood": 1, "isolated": 0, "fastleave": 0}
NO_LINKLOCAL_LEARN, VLAN_SNOOPING, MST = 1, 2, 4  # bits of multi_boolopt
DUMPS = {netlink.GETLINK, netlink.GETNEIGH, netlink.GETMDB}
GRACE = 10 * 10**6  # ns that a command is taken to last where it asked for no answer


class Port:
    def __init__(self, index, name):
        self.index, self.name, self.mac, self.state = index, name, None, 0
        self.flags, self.others, self.vlans, self.vlan_states = dict(FLAGS), {}, {}, {}
        self.mtu, self.switch, self.pvid, self.vlan_list = None, None, 0, None
        self.unread = {}

    def take(self, settings):
        for name, value in settings.items():
            if name == "state":
                self.state = value
            elif name in self.flags:
                self.flags[name] = value
            else:
                self.others[name] = value

    def set_vlans(self, vlans):
        self.vlans, self.vlan_list = vlans, None
        self.pvid = next((vid for vid, (pvid, _) in vlans.items() if pvid), 0)

    def is_up(self):
        return self.state == FORWARDING

    def has(self, other):
        """Whether a setting that the scenario language lacks is on."""
        return self.others.get(other, 0) not in (0, 1 if other == "mcast_router" else 0)

    def describe(self, bridge):
        """Its configuration in words."""
        state = {0: "disabled", 1: "listening", 2: "learning", 3: "forwarding", 4: "blocking"}.get(self.state, str(self.state))
        flags = ["%s %s" % (flag, "on" if value else "off") for flag, value in self.flags.items() if value != FLAGS[flag]]
        others = ["%s %d" % (name, value) for name, value in self.others.items() if self.has(name)]
        return "; ".join([state] + ([vlan_words(self.vlans)] if bridge.is_aware() else ["VLAN-unaware"]) + flags + others)


def vlan_words(vlans):
    if len(vlans) > 12:
        return "%d VLANs" % len(vlans)
    return "VLAN " + ", ".join("%d%s%s" % (vid, " PVID" * pvid, " untagged" * untagged) for vid, (pvid, untagged) in sorted(vlans.items()))


def change_membership(vlans, pvid, vid, flags):
    """Sets a membership, or takes it away where there are no flags; returns the PVID then, and the VLANs whose membership changed."""
    changed = {vid}
    if flags is None:
        vlans.pop(vid, None)
        return (0 if pvid == vid else pvid), changed
    if flags[0] and pvid != vid:
        if pvid in vlans:
            vlans[pvid] = False, vlans[pvid][1]
            changed.add(pvid)
        pvid = vid
    elif pvid == vid and not flags[0]:
        pvid = 0
    vlans[vid] = flags
    return pvid, changed


class Changes:
    """What changed of a bridge since the scenario was brought to it: of `ports` by index the VLANs, or None for all; of the host's too."""

    def __init__(self, whole=False):
        self.whole, self.options, self.ports, self.addresses, self.members = whole, whole, {}, set(), set()

    def port(self, index, vids=None):
        known = self.ports.get(index, set())
        self.ports[index] = None if vids is None or known is None else known | set(vids)

    def of_tables_alone(self):
        return not (self.whole or self.options or self.ports)


class Table:
    """Entries by key, and by their place: (device, VLAN) -> keys. `place` gives the device of an entry."""

    def __init__(self, place):
        self.entries, self.places, self.place = {}, {}, place

    def put(self, key, value):
        self.drop(key)
        self.entries[key] = value
        self.places.setdefault(self.place(key, value), {})[key] = None

    def drop(self, key):
        """The value that was there, or None."""
        if key not in self.entries:
            return None
        value = self.entries.pop(key)
        place = self.place(key, value)
        del self.places[place][key]
        if not self.places[place]:
            del self.places[place]
        return value

    def at(self, device, vid):
        return list(self.places.get((device, vid), ()))


class Bridge:
    def __init__(self, index, name):
        self.index, self.name, self.mac, self.promiscuous = index, name, None, False
        self.options, self.ports, self.host_vlans, self.host_pvid, self.host_vlan_list, self.mtu = {}, {}, None, 0, None, None
        # (VLAN, address) -> (device, kind), and (VLAN, group, device) -> whether permanent
        self.addresses = Table(lambda key, entry: (index if entry[1] == "local" else entry[0], key[0]))
        self.groups = Table(lambda key, permanent: (key[2], key[0]))
        self.fdb, self.mdb = self.addresses.entries, self.groups.entries
        self.sources = set()  # (VLAN, group as bytes) where sources count
        self.by_source = {}   # (VLAN, group, source), as bytes -> device -> whether it doesn't want this source
        self.includes = set()  # keys of `mdb`: members that want named sources alone
        self.routers = set()  # devices
        self.locked = set()  # keys of `fdb`: entries by which no station may send
        self.changes, self.unread, self.switch_ports = Changes(True), {}, set()

    def is_aware(self):
        return bool(self.options.get("vlan_filtering"))

    def is_snooping(self):
        return bool(self.options.get("mcast_snooping", 1))

    def has_option(self, bit):
        return bool(self.options.get("multi_boolopt", 0) & bit)

    def vlans_of_host_as_told(self):
        if self.host_vlans is None:
            pvid = self.options.get("default_pvid", 1)
            return {pvid: (True, True)} if pvid else {}
        return self.host_vlans

    def set_host_vlans(self, vlans):
        self.host_vlans, self.host_vlan_list = vlans, None
        self.host_pvid = next((vid for vid, (pvid, _) in vlans.items() if pvid), 0)

    def vlans_of_host(self):
        return self.vlans_of_host_as_told() if self.is_aware() else {1: (True, True)}

    def pvids(self):
        """The VLANs in which frames without a tag are."""
        told = {port.pvid for port in self.ports.values()} | {self.host_pvid, *(self.vlans_of_host() if self.host_vlans is None else ())}
        return told - {0}

    def vlans_of(self, port):
        return port.vlans if self.is_aware() else {1: (True, True)}

    def members_at(self, group_key):
        """The keys of the members of a group: of (VLAN, group)."""
        return [key for key in ((*group_key, device) for device in (self.index, *self.ports)) if key in self.mdb]

    def concerned(self, changes, table, keys):
        """The keys of a table that may have another place or kind now: `keys`, and those at the ports and VLANs that changed."""
        if changes.whole:
            return set(table.entries)
        found = set(keys)
        for device, vids in changes.ports.items():
            told = self.vlans_of_host() if device == self.index else self.vlans_of(self.ports[device]) if device in self.ports else ()
            for vid in told if vids is None else vids:
                found.update(table.at(device, vid if self.is_aware() else 0))
        return found

    def describe(self):
        words = ["the bridge itself", vlan_words(self.vlans_of_host()) if self.is_aware() else "VLAN-unaware"]
        return "; ".join(words + (["promiscuous"] if self.promiscuous else []))

    def note_source(self, member, gone):
        """A member by source."""
        key = member.vid, member.address, member.source
        devices = self.by_source.setdefault(key, {})
        if gone:
            devices.pop(member.index, None)
        else:
            devices[member.index] = member.blocked
        if not devices:
            del self.by_source[key]

    def counts(self, vid):
        """Whether entries of this VLAN count: those of number 0 are of a bridge that doesn't look at tags."""
        return self.is_aware() == (vid > 0)


class Request:
    def __init__(self, time, message):
        self.time, self.type, self.seq, self.flags = time, message.type, message.seq, message.flags
        self.mac = self.member = None
        self.flushes = False
        if self.type in (netlink.NEWNEIGH, netlink.DELNEIGH):
            entry = netlink.neighbour(message)
            self.mac = entry.mac if entry else None
            self.flushes = self.type == netlink.DELNEIGH and bool(self.flags & netlink.BULK)
        elif self.type in (netlink.NEWMDB, netlink.DELMDB):
            self.member = netlink.requested_member(message)
        elif self.type in (netlink.NEWLINK, netlink.SETLINK):
            asked = netlink.link(message)
            self.flushes = "flush" in asked.port or "fdb_flush" in asked.options


class Kernel:
    def __init__(self, open_case):
        self.open_case, self.cases, self.ended = open_case, {}, []
        self.bridge_of, self.requests, self.dumps, self.unread = {}, [], {}, 0

    def case_of(self, device):
        """The case of a bridge or of the bridge that has this port."""
        return self.cases.get(device) or self.cases.get(self.bridge_of.get(device))

    def packet(self, time, data):
        """The messages of a packet; one that can't be read is counted."""
        for message in netlink.messages(data):
            try:
                self.message(time, message)
            except (struct.error, IndexError, ValueError, TypeError):
                self.unread += 1

    def message(self, time, message):
        if message.type == netlink.ERROR:
            self.answered(time, *netlink.error(message))
        elif message.type == netlink.DONE:
            self.dumped(time, message.seq)
        elif message.flags & netlink.REQUEST and message.type in netlink.CONFIGURES:
            self.requests = [each for each in self.requests if each.time + 10**10 > time] + [Request(time, message)]
            for case in list(self.cases.values()):
                case.asked(time)
        elif message.flags & netlink.REQUEST and message.type in DUMPS:
            self.dumps[message.seq] = message.type
        else:
            self.told(time, message, bool(message.flags & netlink.MULTI))

    def answered(self, time, kind, seq):
        if self.requests:
            self.requests = [each for each in self.requests if (each.type, each.seq) != (kind, seq)]
        if kind in DUMPS:  # the kernel has no such table
            self.dumped(time, seq)

    def dumped(self, time, seq):
        kind = self.dumps.pop(seq, None)
        for case in list(self.cases.values()):
            if case.lacks and kind in case.lacks:
                case.lacks.discard(kind)
                if not case.lacks:
                    case.started(time)

    def asking(self, time, *kinds):
        """The commands of these kinds that are being carried out."""
        return [each for each in self.requests if each.type in kinds and (each.flags & 4 or time - each.time < GRACE)]

    def told(self, time, message, is_dump):
        if message.type in (netlink.NEWLINK, netlink.SETLINK, netlink.DELLINK):
            # a command that takes VLANs from a port is told as an end of its link, too
            gone = message.type == netlink.DELLINK and not self.asking(time, netlink.DELVLAN)
            self.link(time, netlink.link(message), gone, is_dump)
        elif message.type in (netlink.NEWNEIGH, netlink.DELNEIGH):
            self.neighbour(time, netlink.neighbour(message), message.type == netlink.DELNEIGH, is_dump)
        elif message.type in (netlink.NEWMDB, netlink.DELMDB, netlink.GETMDB):
            for each in netlink.members(message):
                self.group(time, each, message.type == netlink.DELMDB, is_dump)
        elif message.type in (netlink.NEWVLAN, netlink.DELVLAN):
            for each in netlink.vlans(message):
                self.vlan(time, each, message.type == netlink.DELVLAN)

    # ---- links ----

    def link(self, time, link, gone, is_dump):
        if gone:
            self.link_gone(time, link)
            return
        if link.family == 0 and link.kind == "bridge":
            self.bridge(time, link, is_dump)
        if link.family == netlink.AF_BRIDGE and link.index in self.cases:
            self.host_vlans(time, self.cases[link.index], link)
        elif link.master in self.cases:
            self.port(time, self.cases[link.master], link)
        elif link.index in self.bridge_of and link.family == 0:
            self.leave(time, link.index)

    def host_vlans(self, time, case, link):
        bridge = case.bridge
        if link.vlan_list is not None and link.vlan_list != bridge.host_vlan_list:
            bridge.set_host_vlans(netlink.vlan_table(link.vlan_list, link.order))
            bridge.host_vlan_list = link.vlan_list
            bridge.changes.port(bridge.index)
        case.changed(time)

    def link_gone(self, time, link):
        if link.family == 0 and link.index in self.cases:
            case = self.cases.pop(link.index)
            self.bridge_of = {port: bridge for port, bridge in self.bridge_of.items() if bridge != link.index}
            case.ended(time)
            self.ended.append(case)
        else:
            self.leave(time, link.index)

    def bridge(self, time, link, is_dump):
        if link.index not in self.cases:
            bridge = Bridge(link.index, link.name)
            self.cases[link.index] = self.open_case(time, bridge, set(DUMPS) if is_dump else set())
        case = self.cases[link.index]
        bridge = case.bridge
        before = bridge.promiscuous, bridge.mac, dict(bridge.options)
        if link.promiscuity is not None:
            bridge.promiscuous = link.promiscuity > 0
        if link.mac and any(link.mac):
            bridge.mac = link.mac
        bridge.mtu = link.mtu or bridge.mtu
        bridge.options.update(link.options)
        bridge.unread.update(link.unread)
        if (bridge.promiscuous, bridge.mac, bridge.options) != before:
            bridge.changes.options = True
        case.changed(time)

    def port(self, time, case, link):
        bridge = case.bridge
        if self.bridge_of.get(link.index, bridge.index) != bridge.index:
            self.leave(time, link.index)
        is_new = link.index not in bridge.ports
        port = bridge.ports.setdefault(link.index, Port(link.index, link.name))
        self.bridge_of[link.index], case.known_ports[link.index] = bridge.index, port
        before = port.state, dict(port.flags), dict(port.others)
        port.mac, port.mtu, port.switch = link.mac or port.mac, link.mtu or port.mtu, link.switch or port.switch
        port.take(link.port)
        port.unread.update(link.unread)
        if link.switch:
            bridge.switch_ports.add(port.name)
        if link.vlan_list is not None and link.vlan_list != port.vlan_list:
            self.port_vlans(bridge, port, link)
        if is_new or (port.state, port.flags, port.others) != before:
            bridge.changes.port(link.index, None if is_new or port.state != before[0] else ())
        case.changed(time)

    def port_vlans(self, bridge, port, link):
        told = netlink.vlan_table(link.vlan_list, link.order)
        differ = {vid for vid in told.keys() | port.vlans.keys() if told.get(vid) != port.vlans.get(vid)}
        port.set_vlans(told)
        port.vlan_list = link.vlan_list
        if differ:
            bridge.changes.port(port.index, differ)

    def leave(self, time, index):
        case = self.cases.get(self.bridge_of.pop(index, None))
        if case and index in case.bridge.ports:
            case.bridge.ports[index].state = 0
            case.bridge.changes.port(index)
            case.changed(time)
            del case.bridge.ports[index]

    def vlan(self, time, told, gone):
        case = self.case_of(told.index)
        if not case:
            return
        bridge = case.bridge
        port = bridge.ports.get(told.index)
        if not port and bridge.host_vlans is None:
            bridge.set_host_vlans(dict(bridge.vlans_of_host_as_told()))
        vlans, pvid, changed = (port.vlans, port.pvid, set()) if port else (bridge.host_vlans, bridge.host_pvid, set())
        for vid in told.vids:
            if gone or vlans.get(vid) != (told.pvid, told.untagged) or told.pvid != (pvid == vid):
                pvid, more = change_membership(vlans, pvid, vid, None if gone else (told.pvid, told.untagged))
                changed |= more
            if port and told.state is not None:
                port.vlan_states[vid] = told.state
        if port:
            port.pvid, port.vlan_list = pvid, None
        else:
            bridge.host_pvid, bridge.host_vlan_list = pvid, None
        bridge.changes.port(told.index, changed)
        case.changed(time)

    # ---- addresses and groups ----

    def neighbour(self, time, entry, gone, is_dump):
        case = self.cases.get(entry.master) if entry else None
        if not case or is_dump and not case.lacks:
            return
        how = "command" if any(each.mac == entry.mac for each in self.asking(time, netlink.DELNEIGH if gone else netlink.NEWNEIGH)) else ""
        if gone and not how and any(each.flushes for each in self.asking(time, netlink.DELNEIGH, netlink.NEWLINK, netlink.SETLINK)):
            how = "flush"
        case.address(time, entry, gone, how)

    def group(self, time, told, gone, is_dump):
        case = self.cases.get(told.bridge)
        if not case or is_dump and not case.lacks:
            return
        if hasattr(told, "group"):
            asked = self.asking(time, netlink.DELMDB if gone else netlink.NEWMDB)
            case.member(time, told, gone, any(each.member == (told.vid, told.group, told.index) for each in asked))
        else:
            case.router(time, told, gone)
