"""Captures: pcapng and classic pcap are read, pcapng is written."""
import collections
import io
import struct

# interface: its index among those of the whole file; time: microseconds; length: that of the packet before it was shortened; direction:
# 1 where the interface received it, 2 where it sent it, 0 where that isn't told
Packet = collections.namedtuple("Packet", "interface time data length direction", defaults=(0,))
# note: what the file says of it for people
Interface = collections.namedtuple("Interface", "link name note", defaults=("",))
ETHERNET = 1
SECTION, DESCRIPTION, OLD_PACKET, SIMPLE_PACKET, STATISTICS, PACKET = 0x0A0D0D0A, 1, 2, 3, 5, 6
NAME, NOTE, RESOLUTION = 2, 3, 9  # options of a description
FLAGS = 2  # of a packet
DROPPED = 5  # of statistics
LONGEST_BLOCK = 1 << 26  # bytes
PCAP_MAGICS = {0xA1B2C3D4: 1, 0xA1B23C4D: 1000}


class Broken(Exception):
    """The file is no capture, or a broken one."""


def read(data):
    """The interfaces and the packets of a capture."""
    if len(data) < 12:
        raise Broken("too short for a capture")
    if struct.unpack_from("<I", data)[0] == SECTION:
        return read_pcapng(data)
    for order in "<>":
        magic = struct.unpack_from(order + "I", data)[0]
        if magic in PCAP_MAGICS:
            return read_pcap(data, order, PCAP_MAGICS[magic])
    raise Broken("neither pcapng nor pcap")


def read_pcap(data, order, parts):
    """A classic capture: one interface; times are seconds and microseconds, or parts of these."""
    if len(data) < 24:
        raise Broken("its header is cut off")
    link = struct.unpack_from(order + "I", data, 20)[0] & 0xFFFF
    packets, at = [], 24
    while at < len(data):
        if at + 16 > len(data):
            raise Broken(f"the packet at {at} is cut off")
        seconds, fraction, captured, length = struct.unpack_from(order + "4I", data, at)
        at += 16
        if at + captured > len(data):
            raise Broken(f"the packet at {at - 16} is cut off")
        packets.append(Packet(0, seconds * 10**6 + fraction // parts, data[at:at + captured], length))
        at += captured
    return [Interface(link, "")], packets


def options(data, order):
    """Of each option, by its number, the first value."""
    found, at = {}, 0
    while at + 4 <= len(data):
        code, length = struct.unpack_from(order + "2H", data, at)
        if code == 0:
            break
        found.setdefault(code, data[at + 4:at + 4 + length])
        at += 4 + (length + 3) // 4 * 4
    return found


def microseconds(ticks, resolution):
    """Of a time stamp, by the interface's option for its resolution: a power of ten, or of two where the highest bit is set."""
    power = resolution[0] if resolution else 6
    return ticks * 10**6 // (2 ** (power & 0x7F) if power & 0x80 else 10**power)


class Reader:
    """A pcapng file, read block by block: `interfaces` grows as they are described, `dropped` as it is said how many packets were lost."""

    def __init__(self, file):
        self.file, self.first, self.at = file, 0, 0
        self.set_order("<")
        self.interfaces, self.resolutions, self.dropped = [], [], []

    def set_order(self, order):
        self.order, self.begin = order, struct.Struct(order + "2I")
        self.heads = {PACKET: struct.Struct(order + "5I"), OLD_PACKET: struct.Struct(order + "2H4I")}
        self.flags = struct.pack(order + "2H", FLAGS, 4)  # where these are the first option

    def blocks(self):
        """The type and the body of each block."""
        while True:
            head = self.file.read(8)
            if not head:
                return
            if head[:4] == b"\x0a\x0d\x0d\x0a":
                head += self.file.read(4)
                self.set_order("<" if head[8:] == b"\x4d\x3c\x2b\x1a" else ">")
            if len(head) < 8:
                raise Broken(f"the block at {self.at} is cut off")
            kind, length = self.begin.unpack_from(head)
            if not 12 <= length <= LONGEST_BLOCK or length % 4:
                raise Broken(f"the block at {self.at} has a wrong length")
            body = head[8:] + self.file.read(length - len(head))
            if len(body) != length - 8:
                raise Broken(f"the block at {self.at} is cut off")
            self.at += length
            yield kind, body[:-4]

    def packets(self):
        try:
            for kind, body in self.blocks():
                if kind in (PACKET, OLD_PACKET):
                    yield self.packet(kind, body)
                elif kind == SIMPLE_PACKET:
                    yield self.simple_packet(body)
                else:
                    self.describe(kind, body)
        except struct.error as error:
            raise Broken("a block is too short for what it is") from error

    def describe(self, kind, body):
        if kind == SECTION:
            self.first = len(self.interfaces)
        elif kind == DESCRIPTION:
            given = options(body[8:], self.order)
            name, note = [given.get(each, b"").decode("utf-8", "replace") for each in (NAME, NOTE)]
            self.interfaces.append(Interface(struct.unpack_from(self.order + "H", body)[0], name, note))
            self.resolutions.append(given.get(RESOLUTION))
        elif kind == STATISTICS:
            value = options(body[12:], self.order).get(DROPPED)
            self.dropped += [struct.unpack(self.order + "Q", value)[0]] if value else []

    def packet(self, kind, body):
        fields = self.heads[kind].unpack_from(body)
        number, high, low, captured, length = fields if kind == PACKET else (fields[0], *fields[2:])
        if self.first + number >= len(self.interfaces):
            raise Broken(f"a packet of interface {number}, which isn't described")
        if 20 + captured > len(body):
            raise Broken("a packet is longer than its block")
        resolution = self.resolutions[self.first + number]
        time = high << 32 | low if resolution is None else microseconds(high << 32 | low, resolution)
        at = 20 + (captured + 3) // 4 * 4
        if kind != PACKET or at >= len(body):
            flags = None
        elif body[at:at + 4] == self.flags:
            flags = body[at + 4:at + 8]
        else:
            flags = options(body[at:], self.order).get(FLAGS)
        direction = struct.unpack(self.order + "I", flags)[0] & 3 if flags else 0
        return Packet(self.first + number, time, body[20:20 + captured], length, direction)

    def simple_packet(self, body):
        if self.first >= len(self.interfaces):
            raise Broken("a packet of no interface")
        length = struct.unpack_from(self.order + "I", body)[0]
        return Packet(self.first, 0, body[4:4 + length], length)


def read_pcapng(data):
    reader = Reader(io.BytesIO(data))
    packets = list(reader.packets())
    return reader.interfaces, packets


def block(kind, body):
    body += bytes(-len(body) % 4)
    length = struct.pack("<I", len(body) + 12)
    return struct.pack("<I", kind) + length + body + length


def option(code, value):
    return struct.pack("<2H", code, len(value)) + value + bytes(-len(value) % 4)


def section():
    return block(SECTION, struct.pack("<I2Hq", 0x1A2B3C4D, 1, 0, -1))


def description(interface):
    given = b"".join(option(code, value.encode()) for code, value in ((NAME, interface.name), (NOTE, interface.note)) if value)
    return block(DESCRIPTION, struct.pack("<2HI", interface.link, 0, 0) + given + (option(0, b"") if given else b""))


def packet(each):
    head = struct.pack("<5I", each.interface, each.time >> 32, each.time & 0xFFFFFFFF, len(each.data), each.length)
    flags = option(FLAGS, struct.pack("<I", each.direction)) + option(0, b"") if each.direction else b""
    return block(PACKET, head + each.data + bytes(-len(each.data) % 4) + flags)


def statistics(interface, time, dropped):
    given = option(DROPPED, struct.pack("<Q", dropped)) + option(0, b"")
    return block(STATISTICS, struct.pack("<3I", interface, time >> 32, time & 0xFFFFFFFF) + given)


def write(names, packets):
    """A pcapng section of Ethernet interfaces with these names, nameless where a name is empty, and of these packets."""
    return section() + b"".join([description(Interface(ETHERNET, name)) for name in names] + [packet(each) for each in packets])
