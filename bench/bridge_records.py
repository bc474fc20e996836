"""Records of a Linux bridge, made without one: the netlink messages and the frames, in the form of tools/record."""
import os
import struct
import sys

HERE = os.path.dirname(os.path.abspath(__file__))
sys.path[:0] = [os.path.join(HERE, "../tools"), os.path.join(HERE, "../tools/judging")]
import captures
import netlink

NLMON = 824
BRIDGE, MULTI = 7, 2
FORWARDING = 3


class Messages:
    """Netlink messages, in the byte order of a host: `<` or `>`."""

    def __init__(self, order="<"):
        self.order = order

    def pack(self, form, *values):
        return struct.pack(self.order + form, *values)

    def attribute(self, kind, value):
        return self.pack("HH", 4 + len(value), kind) + value + bytes(-len(value) % 4)

    def number(self, kind, value):
        return self.attribute(kind, self.pack("I", value))

    def message(self, kind, body, flags=0, seq=0):
        return self.pack("IHHII", 16 + len(body), kind, flags, seq, 0) + body

    def dump(self, kind, seq, answers):
        """A request for a table, its answers, and their end."""
        yield self.message(kind, b"\0" * 16, netlink.REQUEST | 0x300, seq)
        for each in answers:
            yield each
        yield self.message(netlink.DONE, b"\0" * 4, MULTI, seq)

    def bridge(self, index, name, options=(), flags=MULTI, mtu=1500):
        information = self.attribute(1, b"bridge\0") + self.attribute(2, b"".join(self.attribute(kind, value) for kind, value in options))
        body = self.pack("BxHiII", 0, 0, index, 0x1043, 0) + self.attribute(3, name.encode() + b"\0")
        body += self.attribute(1, bytes.fromhex("02000000fe%02x" % (index % 256))) + self.number(4, mtu) + self.attribute(18, information)
        return self.message(netlink.NEWLINK, body, flags)

    def port(self, index, name, bridge, settings=(), flags=MULTI, mtu=1500, more=b"", kind=netlink.NEWLINK):
        """A port as the kernel tells of it in its family 0."""
        told = b"".join(self.attribute(each, value) for each, value in settings)
        information = self.attribute(4, b"bridge\0") + self.attribute(5, told)
        body = self.pack("BxHiII", 0, 0, index, 0x1043, 0) + self.attribute(3, name.encode() + b"\0")
        body += self.attribute(1, bytes.fromhex("02000000fd%02x" % (index % 256))) + self.number(4, mtu) + self.number(10, bridge)
        return self.message(kind, body + more + self.attribute(18, information), flags)

    def state(self, value=FORWARDING):
        return 1, bytes([value])

    def vlans(self, index, name, bridge, memberships, flags=MULTI):
        """The VLANs of a device, as (VLAN, flags): 2 is the PVID, 4 untagged."""
        told = b"".join(self.attribute(2, self.pack("HH", each, vid)) for vid, each in memberships)
        body = self.pack("BxHiII", BRIDGE, 0, index, 0x1043, 0) + self.attribute(3, name.encode() + b"\0")
        return self.message(netlink.NEWLINK, body + self.number(10, bridge) + self.attribute(26, told), flags)

    def address(self, index, bridge, mac, vid, state=2, flags=0, kind=netlink.NEWNEIGH):
        """An entry; of states 2 is a learned one's, 64 a static one's, 128 a local one's."""
        body = self.pack("BxHiHBB", BRIDGE, 0, index, state, 0, 0)
        return self.message(kind, body + self.attribute(2, mac) + self.number(9, bridge) + self.attribute(5, self.pack("H", vid)), flags)

    def member(self, index, bridge, group, vid, flags=0, kind=netlink.NEWMDB):
        """A member of an IPv4 group by its report."""
        entry = self.pack("IBBH", index, 0, 0, vid) + group + b"\0" * 12 + b"\x08\0\0\0"
        told = self.attribute(1, self.attribute(1, self.attribute(1, entry)))
        return self.message(kind, self.pack("Bxxxi", BRIDGE, bridge) + told, flags)

    def router(self, index, bridge, flags=0):
        told = self.attribute(2, self.attribute(1, self.pack("I", index) + self.number(3, 25500)))
        return self.message(netlink.NEWMDB, self.pack("Bxxxi", BRIDGE, bridge) + told, flags)


class Writer:
    """Writes a record as tools/record does. `kept`: bytes of each frame, or None for all."""

    def __init__(self, out, kept=None):
        self.out, self.kept, self.devices = out, kept, {}
        out.write(captures.section() + captures.description(captures.Interface(253, "nlmon0", "netlink")))

    def netlink(self, time, message):
        """`time`: in microseconds."""
        data = struct.pack(">HH10xH", 4, NLMON, 0) + message
        self.out.write(captures.packet(captures.Packet(0, time, data, len(data), 0)))

    def frame(self, time, device, left, data):
        if device not in self.devices:
            self.devices[device] = len(self.devices) + 1
            self.out.write(captures.description(captures.Interface(captures.ETHERNET, "d%d" % device, "ifindex %d" % device)))
        self.out.write(captures.packet(captures.Packet(self.devices[device], time, data[:self.kept], len(data), 2 if left else 1)))

    def end(self, time, lost=0):
        self.out.write(captures.statistics(0, time, lost))


def small(out, order="<", frames=None, ports=3, settings=(), lost=0, gap=20000, learns=True, **more):
    """A bridge of a few ports, whose devices are 2 and further ones: stations 0a, 0b and so on at them speak to all, then each to the one before.
    Or `frames` says what enters: (frame, its device or None, the devices where it leaves, netlink messages behind it..), `gap` µs apart."""
    say, write, known = Messages(order), Writer(out), set()
    links = [say.bridge(1, "br0", [(7, b"\1"), (46, say.pack("II", 1, 1))])]
    links += [say.port(index, "p%d" % index, 1, [say.state(), *settings], **more) for index in range(2, ports + 2)]
    vlans = [say.vlans(index, "p%d" % index, 1, [(1, 6)]) for index in range(2, ports + 2)] + [say.vlans(1, "br0", 1, [(1, 6)])]
    time = 10**12
    for kind, seq, answers in ((netlink.GETLINK, 1, links), (netlink.GETLINK, 2, vlans), (netlink.GETNEIGH, 3, []), (netlink.GETMDB, 4, [])):
        for message in say.dump(kind, seq, answers):
            write.netlink(time, message)
    for data, entry, leaves, *messages in spoken(ports) if frames is None else frames:
        time += gap
        if entry is not None:
            write.frame(time, entry, entry == 1, data)
        if learns and entry not in (None, 1) and data[6:12] not in known:
            known.add(data[6:12])
            write.netlink(time + 1, say.address(entry, 1, data[6:12], 1))
        for at, each in enumerate(leaves):
            write.frame(time + 2 + at, each, each != 1, data)
        for each in messages:
            write.netlink(time + 100, each)
    write.end(time + 1000, lost)


def spoken(ports):
    """(frame, the device where it enters, or None, those where it leaves)"""
    stations = [bytes([2, 0, 0, 0, *divmod(8 + index, 256)]) for index in range(2, ports + 2)]
    rest = b"\x88\xb5" + b"\0" * 46
    for index, each in enumerate(stations, 2):
        yield b"\xff" * 6 + each + rest, index, [other for other in range(1, ports + 2) if other != index]
    for index, each in enumerate(stations, 2):
        to = index - 1 if index > 2 else ports + 1
        yield stations[to - 2] + each + rest, index, [to]
