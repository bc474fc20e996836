"""A scenario that is brought to the configuration of a bridge, command by command.

The host as a sender is the port HOST, which learns nothing and gets nothing but what it asked for; what leaves there counts as the
host's. A querier of the bridge's own is the port QUERIER, at which queries enter; what leaves there isn't looked at.
"""
import re

import kernel
import packets

HOST, QUERIER = 253, 254
MOST_PORTS = HOST - 1
DEFAULT_VLANS = {1: (True, True)}
FLAGS = {"learning": 1, "flood": 1, "mcast_flood": 1, "bcast_flood": 1, "isolated": 0, "fastleave": 0}
SILENT = dict(FLAGS, learning=0, flood=0, mcast_flood=0, bcast_flood=0)


class Item:
    """A line of the scenario: `begin` and `end` are the moments between which the kernel did what the command says, `frame` is the
    frame of the record that enters, `may_fail` says that a refusal is expected, `cut` is where tables are compared, and `is_old` says of
    a command that the kernel had done it long before."""
    __slots__ = ("text", "begin", "end", "frame", "may_fail", "cut", "is_old")

    def __init__(self, text="", begin=0, end=0, frame=None, may_fail=False, cut=None, is_old=False):
        self.text, self.begin, self.end, self.frame, self.may_fail, self.cut = text, begin, end, frame, may_fail, cut
        self.is_old = is_old


PUBLISH, SERVE = Item("publish"), Item("serve")


class Model:
    """`before`: the model of the part of the record before this one, whose ports keep their numbers where they are among `present`."""

    def __init__(self, before=None, present=()):
        self.items, self.start, self.clock = [], None, 0
        self.names, self.numbers, self.mac = {}, {}, None
        if before:
            self.mac = before.mac
            self.numbers = {index: number for index, number in before.numbers.items() if index in present}
            self.names = {number: before.names[number] for number in self.numbers.values()}
        self.up, self.flags, self.vlans = set(), {}, {"host": dict(DEFAULT_VLANS)}
        self.sources = set()  # of frames that entered, whose addresses may have been learned
        self.fdb, self.groups = {}, {}  # what commands made: (VLAN, address) -> (port, kind), and (VLAN, group, port)
        self.ageing, self.snooping, self.aware = 300, True, None
        self.used, self.is_using = {1}, False  # the VLANs in which a frame entered, or may enter without a tag: no others are mirrored
        self.moments = (0, 0)  # of the change that is being mirrored
        self.forgotten = set()  # (device, VLAN) whose learned entries went with a command that keeps them in the kernel
        self.size = self.weight = 0  # bytes of its lines, and at least as many as the changes that they make

    # ---- lines ----

    def number(self, port):
        """The number of a port, and its name in the scenario."""
        if port.index not in self.numbers:
            number = next(number for number in range(1, len(self.names) + 2) if number not in self.names)
            self.numbers[port.index] = number
            fits = re.fullmatch(r"[A-Za-z0-9._-]{1,15}", port.name or "") and port.name not in ("host", "HOST", "QUERIER")
            self.names[number] = port.name if fits and port.name not in self.names.values() else "port%d" % number
        return self.numbers[port.index]

    def name(self, port):
        return self.names[self.number(port)]

    def number_named(self, name):
        """None where no port has the name."""
        return next((number for number, each in self.names.items() if each == name), None)

    def has_room(self, ports):
        """Whether there is a number for each of these ports."""
        return len(self.numbers) + sum(1 for index in ports if index not in self.numbers) <= MOST_PORTS

    def head(self):
        lines = ["scenario 1"] + (["bridge " + self.mac.hex(":")] if self.mac else [])
        lines += ["port %d %s soft" % each for each in sorted(self.names.items())]
        return lines + ["port %d HOST soft" % HOST, "port %d QUERIER soft" % QUERIER]

    def at(self, time):
        if self.start is None:
            self.start = time
        moment = (time - self.start) // 10**6
        if moment > self.clock:
            self.clock = moment
            self.items.append(Item("now %d" % moment))
            self.size += 16

    def command(self, words, may_fail=False, weight=1):
        self.at(self.moments[1])
        self.items.append(Item("cmd " + words, *self.moments, may_fail=may_fail, is_old=self.is_using))
        self.size += len(words) + 5
        self.weight += weight

    def enter(self, time, number, digits, frame=None):
        self.at(time)
        self.sources.add(digits[12:24])
        self.items += [PUBLISH, Item("rx %d %s" % (number, digits), frame=frame), SERVE]
        self.size += len(digits) + 32
        self.weight += 2

    # ---- the configuration ----

    def sync(self, bridge, begin, end):
        """Brings the scenario to what the kernel has, of which `bridge.changes` changed between these moments."""
        self.moments = begin, end
        changes, bridge.changes = bridge.changes, kernel.Changes()
        if bridge.mac:
            self.mac = self.mac or bridge.mac
        if self.aware != bridge.is_aware():
            self.clear() if self.aware is not None else None
            self.aware = bridge.is_aware()
            changes = kernel.Changes(True)
        if changes.options:
            self.sync_options(bridge)
        if changes.ports or changes.whole:
            self.use(bridge, bridge.pvids())
        if changes.options or bridge.index in changes.ports:
            self.sync_host(bridge)
        for index in bridge.ports if changes.whole else changes.ports:
            if index in bridge.ports:
                self.sync_port(bridge, bridge.ports[index], changes.ports.get(index))
        self.sync_addresses(bridge, changes)
        self.sync_groups(bridge, changes)

    def use(self, bridge, vids):
        """Mirrors these VLANs from now on, as they are."""
        new = vids - self.used
        self.used |= new
        if not new or self.aware is not True:
            return
        self.is_using = True
        for port in bridge.ports.values():
            if self.name(port) in self.up:
                self.sync_vlans(self.name(port), port.index, port.vlans, new)
        for name in ("host", "HOST") if "HOST" in self.up else ():
            self.sync_vlans(name, bridge.index, bridge.vlans_of_host(), new)
        changes = kernel.Changes()
        for device in (bridge.index, *bridge.ports):
            changes.port(device, new)
        self.sync_addresses(bridge, changes)
        self.sync_groups(bridge, changes)
        self.is_using = False

    def clear(self):
        """Forgets all, since entries of a bridge that looks at tags and of one that doesn't are others."""
        for name in sorted(self.up):
            self.port_down(name)
        for vid in sorted(self.vlans["host"]):
            self.vlan_del("host", vid)
        self.forgotten.add((None, None))

    def sync_options(self, bridge):
        ageing = bridge.options.get("ageing_time", 30000) // 100
        if ageing != self.ageing and 1 <= ageing <= 1000000:
            self.command("ageing %d" % ageing)
            self.ageing = ageing
        if bridge.is_snooping() != self.snooping:
            self.snooping = bridge.is_snooping()
            self.command("snooping %s" % ("on" if self.snooping else "off"))

    def sync_host(self, bridge):
        for name in ("HOST", "QUERIER"):
            if name not in self.up:
                self.port_up(name)
                self.sync_flags(name, SILENT)
        self.sync_flags("HOST", dict(SILENT, flood=int(bridge.promiscuous), mcast_flood=int(bridge.promiscuous)))
        for name in ("host", "HOST"):
            self.sync_vlans(name, bridge.index, bridge.vlans_of_host())

    def sync_port(self, bridge, port, vids=None):
        """`vids`: the VLANs that changed, or None for all."""
        name = self.name(port)
        if not port.is_up():
            if name in self.up:
                self.port_down(name)
            return
        if name not in self.up:
            self.port_up(name)
            # what was learned before the port forwards
            self.forgotten |= {(port.index, vid) for vid in self.used}
            vids = None
        self.sync_vlans(name, port.index, bridge.vlans_of(port), vids)
        self.sync_flags(name, port.flags)

    def port_up(self, name):
        self.command("port up " + name, weight=4)
        self.up.add(name)
        self.flags[name], self.vlans[name] = dict(FLAGS), dict(DEFAULT_VLANS)

    def port_down(self, name):
        self.fdb = {key: value for key, value in self.fdb.items() if value[0] != name}
        self.groups = {key: value for key, value in self.groups.items() if key[2] != name}
        self.command("port down " + name, weight=4 + len(self.vlans[name]))
        self.up.discard(name)
        del self.flags[name], self.vlans[name]

    def sync_flags(self, name, want):
        for flag, value in want.items():
            if self.flags[name][flag] != value:
                self.command("link %s %s %s" % (name, flag, "on" if value else "off"))
                self.flags[name][flag] = value

    def sync_vlans(self, name, device, want, vids=None):
        have = self.vlans[name]
        concerned = sorted(self.used if vids is None or self.aware is False else self.used & set(vids))
        for vid in concerned:
            if want.get(vid, (False,))[0] and vid not in have:  # the PVID moves by itself
                self.vlan_add(name, vid, want[vid])
                have.update({each: (False, untagged) for each, (pvid, untagged) in have.items() if pvid and each != vid})
        for vid in concerned:
            if vid in have and want.get(vid) != have[vid]:
                self.vlan_del(name, vid)
                if vid in want:
                    self.forgotten.add((device, vid))
        for vid in concerned:
            if vid in want and vid not in have:
                self.vlan_add(name, vid, want[vid])

    def vlan_add(self, name, vid, flags):
        pvid, untagged = flags
        self.command("vlan add vid %d dev %s%s%s" % (vid, name, " pvid" if pvid else "", " untagged" if untagged else ""), weight=2)
        self.vlans[name][vid] = flags

    def vlan_del(self, name, vid):
        self.command("vlan del vid %d dev %s" % (vid, name), weight=2)
        del self.vlans[name][vid]
        for key in [key for key, value in self.fdb.items() if key[0] == vid and value[0] == name]:
            del self.fdb[key]
        for key in [key for key in self.groups if key[0] == vid and key[2] == name]:
            del self.groups[key]

    def place(self, bridge, device, vid):
        """The name of a device where the scenario can have entries of it in that VLAN, or None."""
        port = bridge.ports.get(device)
        name = "host" if device == bridge.index else self.name(port) if port and port.is_up() else None
        return name if name and vid in self.vlans.get(name, {}) else None

    def sync_addresses(self, bridge, changes):
        keys = bridge.concerned(changes, bridge.addresses, changes.addresses)
        want = {(vid or 1, mac): self.wanted_address(bridge, vid, mac) for vid, mac in keys if bridge.counts(vid)}
        for key in self.fdb if changes.whole else ():
            want.setdefault(key, None)
        for vid, mac in [key for key in want if key in self.fdb and want[key] != self.fdb[key]]:
            self.command("fdb del %s vlan %d" % (mac, vid))
            del self.fdb[vid, mac]
        for vid, mac in sorted(key for key in want if want[key] and key not in self.fdb):
            name, kind = want[vid, mac]
            if mac.replace(":", "") in self.sources:
                self.forget(vid, mac)
            self.command("fdb add %s dev %s vlan %d %s" % (mac, name, vid, kind))
            self.fdb[vid, mac] = name, kind

    def wanted_address(self, bridge, vid, mac):
        """The port and the kind of an entry that a command makes, or None."""
        device, kind = bridge.fdb.get((vid, mac), (None, "learned"))
        if kind == "learned":
            return None
        name = self.place(bridge, bridge.index if kind == "local" else device, vid or 1)
        return (name, "local" if name == "host" else kind) if name else None

    def sync_groups(self, bridge, changes):
        want = {}
        for vid, group, device in bridge.concerned(changes, bridge.groups, changes.members):
            if bridge.counts(vid):
                name = self.place(bridge, device, vid or 1)
                if name:
                    want[vid or 1, group, name] = bool(bridge.mdb.get((vid, group, device)))
        for key in self.groups if changes.whole else ():
            want.setdefault(key, False)
        for vid, group, name in [key for key in want if key in self.groups and not want[key]]:
            self.command("mdb del %s dev %s vlan %d" % (group, name, vid))
            del self.groups[vid, group, name]
        for vid, group, name in sorted(key for key in want if want[key] and key not in self.groups):
            self.command("mdb add %s dev %s vlan %d" % (group, name, vid))
            self.groups[vid, group, name] = True

    # ---- what the bridge learned ----

    def forget(self, vid, mac):
        self.command("fdb del %s vlan %d" % (mac, vid), may_fail=True)

    def forget_member(self, vid, group, name):
        self.command("mdb del %s dev %s vlan %d" % (group, name, vid), may_fail=True)

    def teach(self, time, number, name, vid, mac):
        """A frame by which the bridge learns an address; without it the address was learned before."""
        self.moments = time, time
        learns = self.flags[name]["learning"]
        if not learns:
            self.command("link %s learning on" % name)
        self.enter(time, number, packets.teaching(mac, self.tag(name, vid)))
        if not learns:
            self.command("link %s learning off" % name)

    def join(self, time, number, name, vid, group):
        """A report by which a port becomes a member."""
        self.moments = time, time
        self.enter(time, number, packets.membership(group, self.tag(name, vid)))
        self.forget(vid, bytes.fromhex(packets.SENDER).hex(":"))

    def hear(self, time, number, name, vid, version):
        """A query, by which a querier is known and the port is a router's."""
        self.moments = time, time
        self.enter(time, number, packets.query(version, self.tag(name, vid)))
        self.forget(vid, bytes.fromhex(packets.SENDER).hex(":"))

    def tag(self, name, vid):
        """The VLAN that a frame of this VLAN must name at the port, or None."""
        return None if self.vlans[name].get(vid, (False, False))[0] else vid
