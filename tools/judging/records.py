"""Records of a bridge: what tools/record wrote, or the same as text.

As text a record has a line `P NANOSECONDS IFINDEX PKTTYPE HATYPE HEX` for each packet, where PKTTYPE is the kernel's (4 is a frame that
left the device, 6 and 7 are of netlink) and HATYPE is 1 for Ethernet and 824 for nlmon. `E lost N of M` says what the socket dropped. A line
`=== NAME` begins a record and `=== end` ends it; other lines are for people.
"""
import collections
import gzip
import os
import re
import sys
import zlib

sys.path.append(os.path.join(os.path.dirname(os.path.abspath(__file__)), ".."))
import captures

NETLINK, LEFT = 253, 2
ROUTE = 0  # the netlink family
SLL_NETLINK = b"\x03\x38"
SECTION, GZIP = b"\x0a\x0d\x0d\x0a", b"\x1f\x8b"
AT_ONCE = 1 << 20  # bytes

# device: None for netlink; left: whether it left the device; length: that of the frame before it was shortened
Packet = collections.namedtuple("Packet", "time device left data length")


class Record:
    """Its packets are read once, in the order of the kernel. While they are, `faults` gets lines for people, `skipped` counts packets that
    aren't looked at, by their reason, and `count` all of them."""

    def __init__(self, name, source):
        self.name, self.source = name, source
        self.faults, self.skipped, self.count, self.last, self.foreign = [], collections.Counter(), 0, 0, set()

    def packets(self):
        try:
            for packet in self.source(self):
                self.count += 1
                self.last = max(self.last, packet.time)
                yield packet if packet.time == self.last else packet._replace(time=self.last)
        except captures.Broken as fault:
            self.faults.append("the record is broken off: %s" % fault)
        except (EOFError, zlib.error, gzip.BadGzipFile) as fault:
            self.faults.append("the record is broken off: its compression is: %s" % fault)
        if self.foreign:
            names = ", ".join(sorted(self.foreign))
            self.faults.append("%s: tools/record didn't write this; its frames lack their direction or their device" % names)


def read(path):
    """The records of a file, which may be compressed by gzip; `-` is the standard input. Each is to be read before the next one is asked for."""
    name = os.path.basename(path)
    with open(0 if path == "-" else path, "rb", buffering=AT_ONCE, closefd=path != "-") as raw:
        file = gzip.open(raw) if raw.peek(2)[:2] == GZIP else raw
        try:
            begin = file.peek(4)[:4]
        except (EOFError, zlib.error, gzip.BadGzipFile):
            begin = b""
        if begin == SECTION:
            reader = captures.Reader(file)
            yield Record(name, lambda record: of_capture(reader, record))
        else:
            yield from of_text(name, file)


def device_of(interface):
    """The kernel's number of a device, as tools/record noted it."""
    found = re.fullmatch(r"ifindex (\d{1,9})", interface.note)
    return int(found[1]) if found else None


def of_capture(reader, record):
    devices = []
    for each in reader.packets():
        while len(devices) < len(reader.interfaces):
            devices.append(device_of(reader.interfaces[len(devices)]))
        interface, device = reader.interfaces[each.interface], devices[each.interface]
        if interface.link == NETLINK:
            if each.length > len(each.data):
                record.skipped["netlink packets that were shortened"] += 1
            elif each.data[2:4] == SLL_NETLINK and int.from_bytes(each.data[14:16], "big") == ROUTE:
                yield Packet(each.time * 1000, None, False, each.data[16:], each.length)
        elif device is None or not each.direction or interface.link != captures.ETHERNET:
            record.foreign.add(interface.name or "a capture without names")
            record.skipped["packets without a direction or a device"] += 1
        else:
            yield Packet(each.time * 1000, device, each.direction == LEFT, each.data, each.length)
    record.faults += ["%d packets were lost while it was recorded" % each for each in reader.dropped if each]


def of_text(name, file):
    """Whatever has no line of a packet is no record."""
    lines, open_, known = [], True, False
    try:
        for line in file:
            line = line.decode(errors="replace").rstrip("\n")
            if line.startswith("=== end"):
                yield of_lines(name, lines)
                lines, open_ = [], False
            elif line.startswith("=== "):
                name, lines, open_, known = " ".join(word for word in line[4:].split() if word != "true"), [], True, True
            elif line.startswith(("P ", "E ")):
                lines.append(line)
    except (EOFError, zlib.error, gzip.BadGzipFile) as fault:
        lines.append("E the record is broken off: its compression is: %s" % fault)
    if open_ and (lines or known):
        yield of_lines(name, lines + ["E the record is cut off"])


def of_lines(name, lines):
    return Record(name, lambda record: of_words(lines, record))


def of_words(lines, record):
    for line in lines:
        words = line.split(" ")
        if words[0] == "E":
            record.faults += [line[2:]] if words[1:3] != ["lost", "0"] else []
            continue
        try:
            time, device, kind, hardware = map(int, words[1:5])
            data = bytes.fromhex(words[5])
        except (ValueError, IndexError):
            record.faults.append("a line that can't be read: %s" % line[:80])
            continue
        if hardware in (1, 824):
            yield Packet(time, None if hardware == 824 else device, hardware == 1 and kind == 4, data, len(data))
