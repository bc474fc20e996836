"""Netlink messages of the family ROUTE that speak of a bridge, decoded as far as the judge reads them.

Their numbers are in the byte order of the host that recorded them, which a message's own length tells.
"""
import collections
import struct

NEWLINK, DELLINK, GETLINK, SETLINK = 16, 17, 18, 19
NEWNEIGH, DELNEIGH, GETNEIGH = 28, 29, 30
NEWMDB, DELMDB, GETMDB = 84, 85, 86
NEWVLAN, DELVLAN, GETVLAN = 112, 113, 114
ERROR, DONE = 2, 3
CONFIGURES = {NEWLINK, DELLINK, SETLINK, NEWNEIGH, DELNEIGH, NEWMDB, DELMDB, NEWVLAN, DELVLAN}
REQUEST, MULTI, BULK = 1, 2, 0x100
AF_BRIDGE = 7

Message = collections.namedtuple("Message", "type flags seq body order")
# switch: the id of the switch that has the port, as bytes; unread: (attribute, value) that are set and not understood; vlan_list: the bytes
# of the VLANs, of which `vlans` makes a table
Link = collections.namedtuple("Link", "family index flags name mac master kind promiscuity mtu switch options port vlan_list unread order")
Neighbour = collections.namedtuple("Neighbour", "index master mac vid kind sticky locked")
# address: of the group, as bytes; group: as a scenario spells it, or None for one by MAC; includes: whether it wants named sources alone;
# blocked: whether it doesn't want this source
Member = collections.namedtuple("Member", "bridge index vid group address permanent source includes blocked")
Router = collections.namedtuple("Router", "bridge index version4 version6 permanent")
# pvid, untagged and state are None where the message doesn't tell them
Vlan = collections.namedtuple("Vlan", "index vids pvid untagged state")

PORT_FLAGS = {8: "learning", 9: "flood", 27: "mcast_flood", 30: "bcast_flood", 33: "isolated", 7: "fastleave"}
PORT_OTHERS = {4: "hairpin", 5: "guard", 6: "root_block", 10: "proxyarp", 12: "proxyarp", 29: "vlan_tunnel", 28: "mcast_to_unicast",
               32: "neigh_suppress", 34: "backup_port", 35: "mrp_ring", 36: "mrp_ring", 39: "locked", 40: "mab"}
# of ports, and of bridges: what tells a state or a count, or changes nothing that a frame does, by the number of the attribute
PORT_TELLS = {2, 3, 11, *range(13, 24), 26, 37, 38, 41}
BRIDGE_TELLS = {1, 2, 3, 6, *range(10, 20), 24, 26, 28, 29, 33, 35, 40, 41, 42, 45, 48}
# of others the name, and the value in which they change nothing
PORT_NAMES = {42: ("mcast_max_groups", 0), 43: ("neigh_vlan_suppress", 0), 44: ("backup_nhid", 0)}
BRIDGE_NAMES = {20: ("group_address", 0x0180C2000000), 27: ("mcast_hash_max", 4096), 36: ("nf_call_iptables", 0), 37: ("nf_call_ip6tables", 0),
                38: ("nf_call_arptables", 0), 49: ("fdb_max_learned", 0)}
SWITCH_ID, MTU = 36, 4
OPTIONS = {4: "ageing_time", 5: "stp_state", 7: "vlan_filtering", 8: "vlan_protocol", 9: "group_fwd_mask", 22: "mcast_router",
           23: "mcast_snooping", 25: "mcast_querier", 30: "last_member_interval", 31: "membership_interval", 32: "querier_interval",
           34: "query_response_interval", 39: "default_pvid", 43: "igmp_version", 44: "mld_version", 46: "multi_boolopt",
           47: "querier_state"}


def order_of(data):
    """The byte order of a packet of nlmon: the one in which its first message's length fits."""
    return ">" if 16 <= int.from_bytes(data[:4], "big") <= len(data) else "<"


def messages(data):
    """The messages of a packet of nlmon."""
    at, order = 0, order_of(data)
    while at + 16 <= len(data):
        length, kind, flags, seq, _ = struct.unpack_from(order + "IHHII", data, at)
        if length < 16 or at + length > len(data):
            return
        yield Message(kind, flags, seq, data[at + 16:at + length], order)
        at += (length + 3) & ~3


def attributes(data, order):
    found, at = [], 0
    while at + 4 <= len(data):
        length, kind = struct.unpack_from(order + "HH", data, at)
        if length < 4:
            break
        found.append((kind & 0x3FFF, data[at + 4:at + length]))
        at += (length + 3) & ~3
    return found


def number(value, order):
    """A number of whatever width the kernel gave it; None where it gave none."""
    return None if value is None else int.from_bytes(value, "big" if order == ">" else "little")


def text(value):
    return None if value is None else value.split(b"\0")[0].decode(errors="replace")


def port_settings(data, order, unread):
    """Of a port: its state, flags and the like, as far as the message has them."""
    found = {}
    for kind, value in attributes(data or b"", order):
        if kind == 1:
            found["state"] = value[0]
        elif kind in PORT_FLAGS:
            found[PORT_FLAGS[kind]] = value[0]
        elif kind == 24:
            found["flush"] = 1
        elif kind == 25:
            found["mcast_router"] = value[0]
        elif kind == 31:
            found["group_fwd_mask"] = number(value, order)
        elif kind in PORT_OTHERS:
            found[PORT_OTHERS[kind]] = max(number(value, order), found.get(PORT_OTHERS[kind], 0))
        elif kind not in PORT_TELLS:
            note_unread(unread, "port attribute", kind, PORT_NAMES, number(value, order))
    return found


def note_unread(unread, what, kind, names, value):
    name, usual = names.get(kind, ("unknown", 0))
    unread["%s %d (%s)" % (what, kind, name)] = value if value != usual else None


def vlan_entries(data, order):
    if len(data) % 8 == 0:  # each of 8 bytes, where there is nothing else
        entries = list(struct.iter_unpack(order + "4H", data))
        if all(length == 8 and kind == 2 for length, kind, _, _ in entries):
            return [each[2:] for each in entries]
    return [struct.unpack(order + "HH", value) for kind, value in attributes(data, order) if kind == 2]


def vlan_table(data, order):
    """The memberships by VLAN, (whether the PVID, whether untagged)."""
    found, begin = {}, None
    for flags, vid in vlan_entries(data, order):
        if flags & 8:
            begin = vid
            continue
        for each in range(begin if flags & 16 and begin else vid, min(vid, 4095) + 1):
            found[each] = bool(flags & 2), bool(flags & 4)
        begin = None
    return found


def bridge_options(data, order, unread):
    options = {}
    for each, value in attributes(data, order):
        if each == 46:
            options["multi_boolopt"] = number(value[:4], order)
        elif each == 47:
            options["querier_state"] = {kind: number(inner, order) for kind, inner in attributes(value, order)}
        elif each == 8:
            options["vlan_protocol"] = int.from_bytes(value, "big")
        elif each in OPTIONS:
            options[OPTIONS[each]] = number(value, order)
        elif each == 21:
            options["fdb_flush"] = 1
        elif each not in BRIDGE_TELLS:
            value = int.from_bytes(value, "big") if each == 20 else number(value, order)
            note_unread(unread, "bridge attribute", each, BRIDGE_NAMES, value)
    return options


def link(message):
    body, order, unread = message.body, message.order, {}
    family, index, flags = struct.unpack_from(order + "BxxxiI", body)
    given = dict(attributes(body[16:], order))
    info = dict(attributes(given.get(18, b""), order))
    kind = text(info.get(1))
    options = bridge_options(info.get(2, b""), order, unread) if kind == "bridge" else {}
    settings = given.get(12) if family == AF_BRIDGE else info.get(5) if text(info.get(4)) == "bridge" else None
    return Link(family, index, flags, text(given.get(3)), given.get(1), number(given.get(10), order) or 0, kind, number(given.get(30), order),
                number(given.get(MTU), order), given.get(SWITCH_ID), options, port_settings(settings, order, unread),
                given.get(26) if family == AF_BRIDGE else None, unread, order)


def neighbour(message):
    """An address entry of a bridge, or None where it is another neighbour or one of the device itself."""
    body, order = message.body, message.order
    family, index, state, flags, _ = struct.unpack_from(order + "BxxxiHBB", body)
    given = dict(attributes(body[12:], order))
    if family != AF_BRIDGE or 2 not in given or len(given[2]) != 6:
        return None
    kind = "local" if state & 0x80 else "static" if state & 0x40 else "extern" if flags & 0x10 else "learned"
    extended = number(given.get(15), order) or 0
    return Neighbour(index, number(given.get(9), order) or 0, given[2].hex(":"), number(given.get(5), order) or 0, kind, bool(flags & 0x40),
                     bool(extended & 2))


def group_text(protocol, address):
    if protocol == 0x0800:
        return ".".join(map(str, address[:4]))
    return address[:16].hex(":", 2) if protocol == 0x86DD else None


def entry_member(bridge, entry, source, mode, order):
    index, state, flags, vid = struct.unpack_from(order + "IBBH", entry)
    protocol = int.from_bytes(entry[24:26], "big")
    address = entry[8:12] if protocol == 0x0800 else entry[8:24] if protocol == 0x86DD else entry[8:14]
    return Member(bridge, index, vid, group_text(protocol, address), address, bool(state & 1), source, mode == 1,
                  bool(flags & 8))


def members(message):
    """The members and router ports that a message of groups tells."""
    body, order = message.body, message.order
    bridge = struct.unpack_from(order + "Bxxxi", body)[1]
    found = []
    for kind, value in attributes(body[8:], order):
        for _, inner in attributes(value, order):
            if kind == 1:
                found += table_members(bridge, inner, order)
            elif kind == 2:
                found.append(router(bridge, inner, order))
    return found


def table_members(bridge, data, order):
    found = []
    for kind, value in attributes(data, order):
        if kind == 1 and len(value) >= 28:
            given = dict(attributes(value[28:], order))
            source = given.get(4) or (b"*" if 2 in given else None)
            found.append(entry_member(bridge, value, source, number(given.get(3), order), order))
    return found


def router(bridge, data, order):
    given = dict(attributes(data[4:], order))
    six, four = number(given.get(4), order) or 0, number(given.get(3), order) or 0
    kind = number(given.get(2), order) or 0
    return Router(bridge, number(data[:4], order), bool(four), bool(six), kind == 2)


def requested_member(message):
    """What a command asks to come or go: the bridge, and (VLAN, group, port), or None."""
    body, order = message.body, message.order
    bridge = struct.unpack_from(order + "Bxxxi", body)[1]
    for kind, value in attributes(body[8:], order):
        if kind == 1 and len(value) >= 28:
            each = entry_member(bridge, value, None, None, order)
            return each.vid, each.group, each.index
    return None


def vlans(message):
    """The VLANs of a device that the message tells."""
    body, order = message.body, message.order
    index = struct.unpack_from(order + "BxHI", body)[2]
    found = []
    for kind, value in attributes(body[8:], order):
        given = dict(attributes(value, order)) if kind == 1 else {}
        if 1 in given:
            flags, first = struct.unpack(order + "HH", given[1])
            last = min(number(given.get(2), order) or first, 4095)
            found.append(Vlan(index, range(first, last + 1), bool(flags & 2), bool(flags & 4), number(given.get(3), order)))
    return found


def error(message):
    """Of an acknowledgement the type and the number of what it answers."""
    return struct.unpack_from(message.order + "H", message.body, 8)[0], struct.unpack_from(message.order + "I", message.body, 12)[0]
