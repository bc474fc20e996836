"""What is read of a frame, and the frames that the judge puts in by itself."""
import collections
import os
import sys

sys.path.append(os.path.join(os.path.dirname(os.path.abspath(__file__)), "../../kernel"))
import frames

TAG = b"\x81\x00"
LONGEST, SHORTEST = 9022, 14
HEADER = 18  # bytes of a frame beyond its MTU: the Ethernet header, and a tag
KEPT = 60    # bytes without tag that are kept of a frame whose payload decides nothing, and of a shortened one
V4, V6 = 0x0800, 0x86DD
ALL_NODES = {4: bytes([224, 0, 0, 1]), 6: bytes.fromhex("ff02" + "00" * 13 + "01")}
# version: 4 or 6; kind: "report", "leave", "records", "query" or "other"; groups: those that it names, as bytes, and leaves those that
# the sender leaves; delay: ms for answers; sources: how many; short: whether it is of the older form
Message = collections.namedtuple("Message", "version kind groups leaves delay sources short")


def bare(data):
    """A frame without its tag."""
    return data[:12] + data[16:] if data[12:14] == TAG else data


def tag_of(data):
    return data[12:16] if data[12:14] == TAG else b""


def head(data, size):
    """The first bytes of a frame, so many beside its tag; zeros where it has fewer."""
    size += 4 if data[12:14] == TAG else 0
    return data[:size].ljust(size, b"\0")


def deciding(data, length):
    """The bytes of a frame that decide where it goes, as long as it was: payload to one station or to all decides nothing, and isn't kept. None
    where too few were recorded."""
    if len(data) < SHORTEST:
        return None
    untagged = length - (4 if data[12:14] == TAG else 0)
    if not is_group(data) or kind_of(data) not in (V4, V6):
        return head(data, min(KEPT, untagged)) if len(data) < length or untagged > KEPT else data
    if len(data) == length:
        return data
    return None if may_be_message(data) or len(data) < KEPT else head(data, KEPT).ljust(length, b"\0")


def may_be_message(data):
    """Whether it is IGMP, or may be MLD."""
    return (header_of(bare(data)) or (4, 0, 2))[0::2] in ((4, 2), (6, 0))


def parted(data, length):
    """What frames have in common that are the same but for their tag, and the rest of their bytes, or None where it wasn't recorded."""
    whole = bare(data)
    key = whole[:KEPT], length - (len(data) - len(whole))
    return key, whole[KEPT:] if len(data) == length else None


def joined_words(name):
    """Why a frame of more bytes than a device takes isn't judged."""
    return "joined by the kernel, so above the MTU (`ethtool -K %s gro off gso off tso off`)" % name


def vid_of(data):
    return int.from_bytes(data[14:16], "big") & 4095 if data[12:14] == TAG else 0


def kind_of(data):
    return int.from_bytes(bare(data)[12:14], "big")


def is_reserved(data):
    return data[:5] == b"\x01\x80\xc2\0\0" and data[5] < 16


def is_group(data):
    """Whether it goes to more than one station, and not to all."""
    return data[0] & 1 == 1 and data[:6] != b"\xff" * 6


def header_of(data):
    """The version and length of the IP header of a frame without tag, and the number of what is in it; None where it isn't IP."""
    if data[12:14] == b"\x08\0" and len(data) >= 34 and data[14] >> 4 == 4:
        return 4, (data[14] & 15) * 4, data[23]
    if data[12:14] == b"\x86\xdd" and len(data) >= 54 and data[14] >> 4 == 6:
        return 6, 40, data[20]
    return None


def fault_of(data):
    """Why the kernel's snooping drops a packet: the name of a difference, or None."""
    data = bare(data)
    header = header_of(data)
    if header is None:
        return "broken-drop"
    if header[0] == 6:
        length = int.from_bytes(data[18:20], "big")
        if not 0 < length <= len(data) - 54:
            return "broken-drop" if length else "empty6-drop"
    else:
        if not 20 <= header[1] <= int.from_bytes(data[16:18], "big") <= len(data) - 14:
            return "broken-drop"
        if frames.checksum(data[14:14 + header[1]]) != b"\0\0":
            return "sum-drop"
    return fault_of_message(data, header)


def fault_of_message(data, header):
    body = message_bytes(data)
    if body is None:
        return None
    if header[0] == 4:
        return None if len(body) >= 8 and frames.checksum(body) == b"\0\0" else "broken-drop"
    if len(body) < 8:
        return "broken-drop"
    pseudo = data[22:54] + len(body).to_bytes(4, "big") + b"\0\0\0\x3a"
    return None if frames.checksum(pseudo + body) == b"\0\0" else "broken-drop" if body[0] in MLD else "sum-drop"


def addresses(data):
    """Source and destination of the packet in the frame."""
    data = bare(data)
    header = header_of(data)
    if header is None:
        return None
    return (data[26:30], data[30:34]) if header[0] == 4 else (data[22:38], data[38:54])


def message_bytes(data):
    """The bytes of what may be a message of IGMP or MLD in a frame without tag, or None."""
    header = header_of(data)
    if header and header[0] == 4 and header[2] == 2:
        return data[14 + header[1]:14 + int.from_bytes(data[16:18], "big")]
    if header and header[0] == 6 and header[2] == 0 and len(data) > 62 and data[54] == 58:
        return data[54 + (data[55] + 1) * 8:54 + int.from_bytes(data[18:20], "big")]
    return None


IGMP = {0x11: "query", 0x12: "report", 0x16: "report", 0x17: "leave", 0x22: "records"}
MLD = {130: "query", 131: "report", 132: "leave", 143: "records"}


def message_of(data):
    """A message of IGMP or MLD, or None."""
    data = bare(data)
    body = message_bytes(data)
    if body is None:
        return None
    if header_of(data)[0] == 4:
        return message(4, IGMP.get(body[0], "other") if len(body) >= 8 else "other", body, body[4:8], body[1:2], 100, body[10:12], 8)
    if len(body) < 24 and body[:1] != b"\x8f" or body[0] not in MLD:
        return None
    return message(6, MLD[body[0]], body, body[8:24], body[4:6], 1, body[26:28], 24)


def message(version, kind, body, group, delay, unit, sources, short):
    if kind == "records":
        found = records(body, 4 if version == 4 else 16)
        leaves = [address for form, address, count in found if form in (1, 3) and not count]
        return Message(version, kind, [address for _, address, _ in found], leaves, 0, 0, False)
    return Message(version, kind, [group], [group] if kind == "leave" else [], int.from_bytes(delay, "big") * unit,
                   int.from_bytes(sources, "big") if kind == "query" else 0, len(body) == short)


def records(body, size):
    """Of each record its type, its group and how many sources it names."""
    found, at = [], 8
    for _ in range(int.from_bytes(body[6:8], "big")):
        if at + 4 + size > len(body):
            break
        count = int.from_bytes(body[at + 2:at + 4], "big")
        found.append((body[at], body[at + 4:at + 4 + size], count))
        at += 4 + size + count * size + body[at + 1] * 4
    return found


def oddity(data):
    """The difference of docs/KERNEL.md that a message of an odd form makes, or None."""
    data = bare(data)
    header = header_of(data)
    if header is None:
        return None
    body = message_bytes(data)
    if body is None:
        chained = header[0] == 6 and header[2] == 0 and len(data) > 55 and data[54] in (0, 43, 44, 60)
        return "header-chain" if chained else None
    if header[0] == 4 and int.from_bytes(data[20:22], "big") & 0x3FFF:
        return "igmp-fragment"
    if header[0] == 6 and body[:1] and body[0] in MLD and 8 <= len(body) < 24 and body[0] != 143:
        return "mld-short"
    message = message_of(data)
    if message and message.kind == "records":
        return odd_records(body, 4 if header[0] == 4 else 16)
    if message and message.kind in ("report", "leave") and not is_multicast(message.groups[0]):
        return "group-any"
    return None


def odd_records(body, size):
    at = 8
    for _ in range(int.from_bytes(body[6:8], "big")):
        if at + 4 + size > len(body):
            return "record-partial"
        if body[at + 1]:
            return "record-auxiliary"
        if body[at] == 6:
            return "record-type6"
        if not is_multicast(body[at + 4:at + 4 + size]):
            return "group-any"
        at += 4 + size + int.from_bytes(body[at + 2:at + 4], "big") * size
    return "record-partial" if at > len(body) else None


def is_multicast(address):
    return address[0] >> 4 == 14 if len(address) == 4 else address[:1] == b"\xff"


def is_general(message):
    return message.kind == "query" and not any(message.groups[0]) and not message.sources


def announces_router(data):
    """Whether it is a PIM hello, or an advertisement of a multicast router (RFC 4286)."""
    data = bare(data)
    header = header_of(data)
    if header is None:
        return False
    if header[0] == 4:
        inside = data[14 + header[1]:]
        return header[2] == 103 and inside[:1] == b"\x20" or header[2] == 2 and inside[:1] == b"\x30"
    if header[2] == 103:
        return data[54:55] == b"\x20"
    return (message_bytes(data) or b"")[:1] == b"\x97"


def agrees(data):
    """Whether the frame goes to the address of its packet's group."""
    to = addresses(data)[1]
    return is_multicast(to) and frames.group_address(group_text(to)) == data[:6].hex()


def group_text(address):
    """As a scenario spells it."""
    return ".".join(map(str, address)) if len(address) == 4 else address.hex(":", 2)


def asks_address(data):
    """Whether it is of ARP or neighbour discovery."""
    data = bare(data)
    return kind_of(data) == 0x0806 or (header_of(data) or (0, 0, 0))[0::2] == (6, 58) and data[54:55] in (b"\x87", b"\x88")


def describe(data):
    """A frame in a few words."""
    inner = bare(data)
    tag = " tag %d" % vid_of(data) if inner is not data else ""
    words = "type %04x" % kind_of(data)
    if kind_of(data) == 0x0806 and len(inner) > 21:
        words = "ARP " + {1: "request", 2: "reply"}.get(inner[21], "?")
    elif addresses(inner):
        words = describe_packet(inner)
    return "%s > %s%s %s" % (inner[6:12].hex(":"), inner[:6].hex(":"), tag, words)


def describe_packet(data):
    version, length, inside = header_of(data)
    source, to = map(group_text, addresses(data))
    message = message_of(data)
    if message:
        what = "%s %s" % ("IGMP" if version == 4 else "MLD", message.kind)
    else:
        what = {1: "ICMP", 2: "IGMP", 6: "TCP", 17: "UDP", 58: "ICMPv6"}.get(inside, "protocol %d" % inside)
        if inside == 58 and len(data) > 54:
            what += " %d" % data[54]
    return "IPv%d %s > %s %s" % (version, source, to, what)


# ---- frames that the judge puts in ----

SENDER = "02000000fffe"  # the source of what is put in, which is forgotten at once


def tagged(vid):
    return (0, 0, vid) if vid else None


def query(version, vid):
    """A general query."""
    return frames.query(version == 6, frames.Sender(SENDER, "10.255.255.254", "fe80::fffe"), tagged(vid))


def membership(group, vid):
    """A report of a group, as a scenario spells it."""
    return frames.report(group, frames.Sender(SENDER, "10.255.255.253", "fe80::fffe"), tagged(vid))


def to_unknown_group(data):
    """A frame of the same station, with its tag, to a group that nobody asks for."""
    return bytes.fromhex("0100000000fe") + data[6:12] + (data[12:16] if data[12:14] == TAG else b"") + b"\x88\xb5\0\0"


def teaching(source, vid):
    """A frame that teaches its source, and is of no other use."""
    return frames.ethernet("02fffffffffe", source.replace(":", ""), "88b5", b"\0\0", tagged(vid))
