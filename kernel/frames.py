"""Frames as hexadecimal text, from the few things that a scenario says of them."""

import collections

# a station that isn't one of the letters: its address as hexadecimal digits, and those of IP
Sender = collections.namedtuple("Sender", "mac v4 v6")
STATIONS = {letter: "02000000000" + letter for letter in "abcdef"}
BROADCAST = "ffffffffffff"


def checksum(data):
    """The internet checksum (RFC 1071) over an even or odd number of bytes."""
    data += b"\0" * (len(data) % 2)
    total = sum(int.from_bytes(data[i:i + 2], "big") for i in range(0, len(data), 2))
    while total >> 16:
        total = (total & 0xffff) + (total >> 16)
    return (0xffff - total).to_bytes(2, "big")


def sender(source):
    """A station by its letter."""
    if isinstance(source, Sender):
        return source
    return Sender(STATIONS[source], "10.0.0.%d" % (ord(source) - 96), "fe80::" + source)


def ethernet(to, source, kind="88b5", body=b"\0" * 46, tag=None):
    """`to` is an address or a station's letter; `tag` is (priority, drop eligible, VLAN)."""
    tagged = "" if tag is None else "8100%04x" % (tag[0] << 13 | tag[1] << 12 | tag[2])
    return STATIONS.get(to, to) + STATIONS.get(source, source) + tagged + kind + body.hex()


def v4_bytes(text):
    return bytes(int(part) for part in text.split("."))


def v6_bytes(text):
    left, _, right = text.partition("::")
    left, right = [[part.zfill(4) for part in side.split(":") if part] for side in (left, right)]
    return bytes.fromhex("".join(left + ["0000"] * (8 - len(left) - len(right)) + right))


def v6_text(text):
    """All eight groups, as a scenario has them."""
    return v6_bytes(text).hex(":", 2)


def group_address(group):
    if ":" in group:
        return "3333" + v6_bytes(group)[12:].hex()
    return "01005e%06x" % (int.from_bytes(v4_bytes(group), "big") & 0x7fffff)


def v4(to, source, body, protocol, tag):
    head = bytes([0x45, 0]) + (20 + len(body)).to_bytes(2, "big") + bytes([0, 0, 0, 0, 1, protocol])
    source = sender(source)
    addresses = v4_bytes(source.v4) + v4_bytes(to)
    head += checksum(head + addresses) + addresses
    return ethernet(group_address(to), source.mac, "0800", head + body, tag)


def v6(to, source, body, tag, message=False):
    """`message`: behind a hop-by-hop header with a router alert, an ICMPv6 body whose checksum is filled in."""
    source = sender(source)
    addresses = v6_bytes(source.v6) + v6_bytes(to)
    if message:
        pseudo = addresses + len(body).to_bytes(4, "big") + b"\0\0\0\x3a"
        body = bytes.fromhex("3a00050200000100") + body[:2] + checksum(pseudo + body) + body[4:]
    head = bytes([0x60, 0, 0, 0]) + len(body).to_bytes(2, "big") + bytes([0 if message else 17, 1]) + addresses
    return ethernet(group_address(to), source.mac, "86dd", head + body, tag)


def igmp(kind, group, source, to, tag, code=0):
    body = bytes([kind, code, 0, 0]) + v4_bytes(group)
    return v4(to, source, body[:2] + checksum(body) + body[4:], 2, tag)


def mld(kind, group, source, to, tag, delay=0):
    return v6(to, source, bytes([kind, 0, 0, 0]) + delay.to_bytes(2, "big") + b"\0\0" + v6_bytes(group), tag, True)


def report(group, source, tag=None):
    """Of IGMPv2 or MLDv1."""
    return mld(131, group, source, group, tag) if ":" in group else igmp(0x16, group, source, group, tag)


def leave(group, source, tag=None):
    return mld(132, group, source, "ff02::2", tag) if ":" in group else igmp(0x17, group, source, "224.0.0.2", tag)


def query(six, source, tag=None):
    """A general query that asks for answers within 0.1 s."""
    return mld(130, "::", source, "ff02::1", tag, 100) if six else igmp(0x11, "0.0.0.0", source, "224.0.0.1", tag, 1)


def records(six, source, items, tag=None):
    """An IGMPv3 or MLDv2 report; an item is (type, group, addresses of sources)."""
    address = v6_bytes if six else v4_bytes
    body = bytes([143 if six else 0x22, 0, 0, 0, 0, 0]) + len(items).to_bytes(2, "big")
    for kind, group, sources in items:
        body += bytes([kind, 0]) + len(sources).to_bytes(2, "big") + address(group) + b"".join(map(address, sources))
    if six:
        return v6("ff02::16", source, body, tag, True)
    return v4("224.0.0.22", source, body[:2] + checksum(body) + body[4:], 2, tag)


def payload(group, source, tag=None):
    """A UDP datagram to a group, as the bridge sees it."""
    body = bytes.fromhex("1000200000080000") + b"\0" * 18
    return v6(group, source, body, tag) if ":" in group else v4(group, source, body, 17, tag)
