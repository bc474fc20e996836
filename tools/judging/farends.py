"""Captures at the far ends of a switch's links, in the place of a record: for a switch whose chip forwards, so that its processor doesn't
see the frames.

What the far end sends enters the switch, and what it receives left it, by the direction flags of its capture. Without them the
first capture that has a frame, whatever its tag, is taken for that of its sender. The clocks of all captures are to be one, but for a skew.

The commands are those of a scenario, with or without `cmd`, in lines that may begin with a moment in seconds of the captures' clock:

    bridge 02:00:00:00:00:01
    port up swp1
    vlan add vid 10 dev swp1 pvid untagged
    1796041837.75 link swp1 isolated on

Those without a moment come before all frames. Where no line is `port up`, all ports are up from the beginning.
"""
import ipaddress
import re

import captures
import kernel
import packets
import records
from case import Case

BEFORE = 10**9  # ns before the first frame, where the commands without a moment are put
SENT, RECEIVED = 2, 1


class Broken(Exception):
    """The captures or the commands can't be read."""


class FarCase(Case):
    """A switch that is seen from outside: the host's copies aren't, and nothing tells of its tables."""
    sees_host = False

    def cut(self, time):
        pass


def read(ports, commands, skew, open_case):
    """The name, the case, its commands and its frames, of what is captured by port, of words NAME=FILE."""
    names, found = [], []
    for index, word in enumerate(ports, 1):
        name, _, path = word.partition("=")
        if not path or name in names:
            raise Broken("--port is NAME=FILE, each NAME once, and not %s" % word)
        names.append(name)
        with open(path, "rb") as file:
            interfaces, given = captures.read(file.read())
        if any(interfaces[each.interface].link != captures.ETHERNET for each in given):
            raise Broken("%s: not of Ethernet alone" % path)
        found += [(each.time * 1000, index, each) for each in given]
    if not found:
        raise Broken("no frames are in the captures")
    found = sorted(directed(sorted(found, key=lambda each: each[0]), round(skew * 10**9)), key=lambda each: each.time)
    changes = read_commands(commands, names) if commands else []
    case = open_case(found[0].time)(found[0].time - BEFORE, bridge_of(names), set(), FarCase)
    return "far ends", case, changes, found


def bridge_of(names):
    bridge = kernel.Bridge(0, "switch")
    bridge.options = {"vlan_filtering": 1, "multi_boolopt": kernel.NO_LINKLOCAL_LEARN}
    for index, name in enumerate(names, 1):
        bridge.ports[index] = kernel.Port(index, name)
    return bridge


def directed(found, skew):
    """The packets; what left is put later by the skew of the clocks."""
    first = {}
    for time, index, each in found:
        key, direction = packets.bare(each.data), each.direction
        if not direction:
            entered = first.get(key)
            if entered is None or time - entered[0] > 10**9:
                first[key] = time, index
                direction = SENT
            else:
                direction = SENT if entered[1] == index else RECEIVED
        left = direction == RECEIVED
        yield records.Packet(time + (skew if left else 0), index, left, each.data, each.length)


def run(case, found, changes):
    changes = sorted(changes, key=lambda each: each[0])
    if not any(words[:2] == ["port", "up"] for _, words in changes):
        changes[:0] = [(0, ["port", "up", port.name]) for port in case.bridge.ports.values()]
    for packet in found:
        while changes and changes[0][0] <= packet.time:
            moment, words = changes.pop(0)
            Commands(case.bridge).change(words)
            case.changed(max(moment, case.born))
        case.frame(packet)


def read_commands(path, names):
    """(moment, words) of each line. A word that isn't understood is a fault of its line."""
    found, tried = [], Commands(bridge_of(names))
    with open(path, errors="replace") as file:
        for number, line in enumerate(file, 1):
            words = line.split()
            if not words or words[0].startswith("#"):
                continue
            moment = 0
            try:
                if words[0][0].isdigit():
                    moment = int(float(words.pop(0)) * 10**9)
                words = words[1:] if words[:1] == ["cmd"] else words
                tried.change(words)
            except IndexError as error:
                raise Broken("%s line %d: a word is missing: %s" % (path, number, line.strip())) from error
            except (Broken, ValueError, OverflowError) as error:
                raise Broken("%s line %d: not understood: %s (%s)" % (path, number, line.strip(), error)) from error
            found.append((moment, words))
    return found


def mac_of(word):
    if not re.fullmatch("([0-9A-Fa-f]{2}:){5}[0-9A-Fa-f]{2}", word):
        raise Broken("no address: %s" % word)
    return word.lower()


def vid_of(word):
    if not re.fullmatch("[0-9]{1,4}", word) or not 1 <= int(word) <= 4094:
        raise Broken("no VLAN: %s" % word)
    return int(word)


def number_of(word, most):
    if not re.fullmatch("[0-9]{1,9}", word) or not 1 <= int(word) <= most:
        raise Broken("no number up to %d: %s" % (most, word))
    return int(word)


def one_of(word, meanings):
    if word not in meanings:
        raise Broken("%s, and none of %s" % (word, ", ".join(meanings)))
    return meanings[word]


def words_like(words, form):
    """The words in the places of `_` where all others are those of the form."""
    form = form.split()
    if len(words) != len(form) or any(want not in ("_", word) for word, want in zip(words, form)):
        raise Broken("it isn't like: %s" % " ".join(form))
    return [word for word, want in zip(words, form) if want == "_"]


class Commands:
    """Does what commands of a scenario say to a bridge."""

    def __init__(self, bridge):
        self.bridge = bridge

    def change(self, words):
        kinds = {"bridge": self.name_bridge, "port": self.port, "link": self.link, "vlan": self.vlan, "fdb": self.fdb, "mdb": self.mdb,
                 "ageing": self.ageing, "snooping": self.snooping}
        one_of(words[0], kinds)(words)

    def port_named(self, name):
        return one_of(name, {port.name: port for port in self.bridge.ports.values()})

    def device_named(self, name):
        return self.bridge.index if name == "host" else self.port_named(name).index

    def name_bridge(self, words):
        mac, = words_like(words, "bridge _")
        self.bridge.mac = bytes.fromhex(mac_of(mac).replace(":", ""))
        self.bridge.changes.options = True

    def port(self, words):
        state, name = words_like(words, "port _ _")
        port = self.port_named(name)
        port.state = one_of(state, {"up": kernel.FORWARDING, "down": 0})
        port.flags = dict(kernel.FLAGS)
        port.set_vlans({1: (True, True)})
        self.bridge.changes.port(port.index)

    def link(self, words):
        name, flag, value = words_like(words, "link _ _ _")
        port = self.port_named(name)
        one_of(flag, kernel.FLAGS)
        port.flags[flag] = one_of(value, {"on": 1, "off": 0})
        self.bridge.changes.port(port.index, ())

    def vlan(self, words):
        """vlan add|del vid V dev DEV [pvid] [untagged]"""
        flags = words[6:]
        known = one_of(words[1], {"add": {"pvid", "untagged"}, "del": set()})
        if set(flags) - known or len(set(flags)) < len(flags):
            raise Broken("unknown words: %s" % " ".join(flags))
        vid, name = words_like(words[2:6], "vid _ dev _")
        port = self.port_named(name) if name != "host" else None
        vlans = dict(port.vlans if port else self.bridge.vlans_of_host())
        pvid = port.pvid if port else self.bridge.host_pvid
        given = ("pvid" in flags, "untagged" in flags) if words[1] == "add" else None
        _, changed = kernel.change_membership(vlans, pvid, vid_of(vid), given)
        (port.set_vlans if port else self.bridge.set_host_vlans)(vlans)
        self.bridge.changes.port(port.index if port else self.bridge.index, changed)

    def fdb(self, words):
        """fdb add MAC dev DEV vlan V KIND, fdb del MAC vlan V"""
        if words[1] == "del":
            mac, vid = words_like(words, "fdb del _ vlan _")
        else:
            mac, name, vid, kind = words_like(words, "fdb add _ dev _ vlan _ _")
        key = vid_of(vid), mac_of(mac)
        self.bridge.changes.addresses.add(key)
        if words[1] == "del":
            self.bridge.addresses.drop(key)
        else:
            entry = self.device_named(name), one_of(kind, {each: each for each in ("static", "local", "extern")})
            self.bridge.addresses.put(key, entry)

    def mdb(self, words):
        """mdb add|del GROUP dev DEV vlan V"""
        what, group, name, vid = words_like(words, "mdb _ _ dev _ vlan _")
        address = ipaddress.ip_address(group)
        if not address.is_multicast:
            raise Broken("no group: %s" % group)
        key = vid_of(vid), packets.group_text(address.packed), self.device_named(name)
        self.bridge.changes.members.add(key)
        if one_of(what, {"add": True, "del": False}):
            self.bridge.groups.put(key, True)
        else:
            self.bridge.groups.drop(key)

    def ageing(self, words):
        value, = words_like(words, "ageing _")
        self.bridge.options["ageing_time"] = number_of(value, 1000000) * 100
        self.bridge.changes.options = True

    def snooping(self, words):
        value, = words_like(words, "snooping _")
        self.bridge.options["mcast_snooping"] = one_of(value, {"on": 1, "off": 0})
        self.bridge.changes.options = True
