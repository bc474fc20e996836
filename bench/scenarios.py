#!/usr/bin/env python3
"""scenarios.py NAME: writes the scenario of that name, by which docs/BENCHMARKS.md counts instructions."""
import random
import sys


def ports(count, kind="soft"):
    """So many ports, which are up."""
    yield "scenario 1"
    for i in range(1, count + 1):
        yield f"port {i} p{i} {kind}"
    for i in range(1, count + 1):
        yield f"cmd port up p{i}"
    yield "publish"


def broadcasts(count, payload):
    for _ in range(count):
        yield f"rx 1 ffffffffffff02000000000a88b5{payload}"
        yield "serve"


def large():
    """1,400 broadcasts to 59 ports."""
    yield from ports(59)
    yield from broadcasts(1400, "0102")


def blank():
    """65,000 blank lines."""
    yield "scenario 1"
    for _ in range(65000):
        yield ""


def frames():
    """31 broadcasts of 1,000 bytes to 63 ports."""
    yield from ports(63)
    yield from broadcasts(31, "0" * 1972)


def links():
    """100,000 commands that each change a flag."""
    yield from ports(1)
    for _ in range(50000):
        yield "cmd link p1 flood off"
        yield "cmd link p1 flood on"


def learned():
    """30,000 frames among 12,000 stations behind 60 ports, with a publication each 1,000."""
    chance = random.Random(1)
    yield from ports(60)
    for i in range(1, 30001):
        source, destination = chance.randrange(12000), chance.randrange(12000)
        yield f"rx {source % 60 + 1} 0200{destination:08x}0200{source:08x}88b50102"
        yield "serve"
        if i % 1000 == 0:
            yield "publish"


def audit():
    """16,384 addresses at ports of four chips, each of which has applied all updates but the last 1,000."""
    yield "scenario 1"
    for i in range(1, 17):
        yield f"port {i} p{i} chip {(i + 3) // 4}"
    for i in range(1, 17):
        yield f"cmd port up p{i}"
    for station in range(16384):
        address = ":".join(f"{byte:02x}" for byte in (0x020000000000 + station).to_bytes(6, "big"))
        yield f"cmd fdb add {address} dev p{station % 16 + 1} vlan 1 static"
    for i in range(1, 5):
        for _ in range(15384):
            yield f"turn {i}"


def mixed():
    """100,000 frames among eight stations behind four ports of the chip and two of software, with reports, turns, publications and
    moments."""
    yield "scenario 1"
    for i in range(1, 5):
        yield f"port {i} g{i} chip 1"
    for i in (5, 6):
        yield f"port {i} g{i} soft"
    for i in range(1, 7):
        yield f"cmd port up g{i}"
    yield "publish"
    x = 7
    for i in range(1, 100001):
        x = (x * 6364136223846793005 + 1442695040888963407) % 2**64
        n = x >> 33
        d, source = n // 48 % 9, n // 6 % 8
        destination = "ffffffffffff" if d == 8 else f"02000000001{d}"
        yield f"rx {n % 6 + 1} {destination}02000000001{source}88b50000"
        yield "serve"
        if i % 3 == 0:
            yield "report 1"
        if i % 5 == 0:
            yield "turn 1"
        if i % 7 == 0:
            yield "publish"
        if i % 64 == 0:
            yield f"now {1000 * i}"


def known():
    """16,384 stations behind one port, each of which has spoken. Nothing is published, so no frame leaves."""
    yield "scenario 1"
    yield "port 1 p1 soft"
    yield "cmd port up p1"
    for station in range(16384):
        yield f"rx 1 0180c2000014{0x020000000000 + station:012x}88b50102"
        yield "serve"


def frames_to(destination):
    """200,000 frames of known stations to this address."""
    chance = random.Random(2)
    yield from known()
    for _ in range(200000):
        yield f"rx 1 {destination}{0x020000000000 + chance.randrange(16384):012x}88b50102"
        yield "serve"


def sights():
    """Frames that renew their source's entry."""
    yield from frames_to("0180c2000014")


def no_sights():
    """The same to a reserved address, which teach nothing."""
    yield from frames_to("0180c2000001")


def moments():
    """200,000 moments at which nothing ends."""
    yield from known()
    for moment in range(200000):
        yield f"now {moment}"


def summed(data, place):
    """The bytes with their checksum (RFC 1071) at this place."""
    total = sum(int.from_bytes(data[i:i + 2], "big") for i in range(0, len(data), 2))
    while total > 0xFFFF:
        total = (total & 0xFFFF) + (total >> 16)
    return data[:place] + (0xFFFF - total).to_bytes(2, "big") + data[place + 2:]


def packet(port, protocol, to, body):
    """A packet of version 4 from the station of a port to a group, in a frame."""
    header = bytes([0x45, 0]) + (20 + len(body)).to_bytes(2, "big") + bytes([0, 0, 0, 0, 1, protocol, 0, 0, 10, 0, 0, port])
    frame = bytes([1, 0, 0x5E, to[1] & 0x7F, *to[2:], 2, 0, 0, 0, 0, port, 8, 0]) + summed(header + bytes(to), 10) + body
    return f"rx {port} {frame.hex()}"


def igmp(port, to, kind, group):
    """A message of IGMP version 2."""
    return packet(port, 2, to, summed(bytes([kind, 0, 0, 0, *group]), 2))


def snooping():
    """20,000 reports and leaves at six ports, three of four of them reports, for 300 groups; behind each a frame of payload to
    one of them; a query each 500, a publication each 100, a moment each 50, a second later."""
    chance = random.Random(3)
    yield from ports(6)
    for i in range(20000):
        if i % 500 == 0:
            yield igmp(i // 500 % 6 + 1, (224, 0, 0, 1), 0x11, (0, 0, 0, 0))
            yield "serve"
        n = chance.randrange(300)
        group = (239, 1, n // 256, n % 256)
        port = chance.randrange(6) + 1
        yield igmp(port, (224, 0, 0, 2), 0x17, group) if chance.randrange(4) == 0 else igmp(port, group, 0x16, group)
        yield "serve"
        n = chance.randrange(300)
        yield packet(chance.randrange(6) + 1, 17, (239, 1, n // 256, n % 256), bytes(8))
        yield "serve"
        if i % 100 == 99:
            yield "publish"
        if i % 50 == 49:
            yield f"now {20 * (i + 1)}"


SCENARIOS = {f.__name__: f for f in (
    large, blank, frames, links, learned, mixed, audit, known, sights, no_sights, moments, snooping)}

if __name__ == "__main__":
    for line in SCENARIOS[sys.argv[1]]():
        print(line)
    print("end")
