#!/usr/bin/env python3
"""busy_bridge.py [FRAMES [PORTS [VLANS [SECONDS]]]]: the record of a busy bridge, made here, judged by tools/judge while it is made.

The bridge has so many trunk ports (30), each in so many VLANs (4,094), and 40 stations at each port; so many full-size frames (1,000,000)
enter it in so many seconds (600): 94 of 100 to one known station, 5 to a group with members, 1 in 1,000 to all. Stations are learned and
talk to those of their VLAN, a querier asks, members report, and once in 20 s a VLAN is taken from a port and given back, and once in a
minute a port goes down and comes up. The record never lies on the disk. At the end stand the time that the judge took, and the most
memory. With `-` before the numbers the record is written to the standard output.
"""
import itertools
import os
import random
import resource
import subprocess
import sys
import time

sys.dont_write_bytecode = True
HERE = os.path.dirname(os.path.abspath(__file__))
sys.path.append(os.path.join(HERE, "../kernel"))
import bridge_records
import frames
import netlink

BRIDGE, FIRST = 1, 2  # devices
STATIONS, FULL = 40, 1500  # at each port, and bytes of payload
GROUPS = 20
AGEING, QUIET = 300 * 10**6, 3 * 10**4  # µs
SETTLED = 16 * 10**6  # µs until the querier counts, and its members are known


class Station:
    def __init__(self, number, port, vid):
        self.mac, self.port, self.vid = (0x020000000000 + number).to_bytes(6, "big"), port, vid


class Bridge:
    """What Linux would do, as far as the benchmark's frames go."""

    def __init__(self, out, ports, vlans, seconds, count):
        self.draw, self.say, self.write = random.Random(1), bridge_records.Messages(), bridge_records.Writer(out)
        self.ports, self.vids, self.end, self.count = range(FIRST, FIRST + ports), range(1, vlans + 1), seconds * 10**6, count
        used = [self.draw.choice(self.vids) for _ in range(max(2, ports * STATIONS // 12))]
        self.stations = [Station(number, FIRST + number % ports, self.draw.choice(used)) for number in range(ports * STATIONS)]
        self.by_vid = {}
        for each in self.stations:
            self.by_vid.setdefault(each.vid, []).append(each)
        self.known, self.members, self.router, self.down, self.without, self.heard = {}, {}, None, set(), set(), {}
        self.sent = 0  # frames that entered
        self.payload = bytes(self.draw.randrange(256) for _ in range(FULL))

    def memberships(self):
        return [(vid, 6 if vid == 1 else 0) for vid in self.vids]

    def start(self):
        say = self.say
        links = [say.bridge(BRIDGE, "br0", [(7, b"\1"), (46, say.pack("II", 1, 1))])]
        links += [say.port(index, "p%d" % index, BRIDGE, [say.state()]) for index in self.ports]
        vlans = [say.vlans(index, "p%d" % index, BRIDGE, self.memberships()) for index in self.ports]
        vlans.append(say.vlans(BRIDGE, "br0", BRIDGE, [(1, 6)]))
        for seq, (kind, answers) in enumerate(((netlink.GETLINK, links), (netlink.GETLINK, vlans), (netlink.GETNEIGH, []), (netlink.GETMDB, []))):
            for message in say.dump(kind, seq, answers):
                self.write.netlink(0, message)

    def tag(self, vid):
        return b"" if vid == 1 else b"\x81\0" + vid.to_bytes(2, "big")

    def send(self, now, source, to, rest, leaves):
        """A frame of a station, with or without its tag, that leaves by these devices."""
        if source.port in self.down or (source.port, source.vid) in self.without:
            return
        data = to + source.mac + self.tag(source.vid) + rest
        self.sent += 1
        self.write.frame(now, source.port, False, data)
        self.heard[source.vid, source.mac] = now
        if self.known.get((source.vid, source.mac)) != source.port:
            self.known[source.vid, source.mac] = source.port
            self.write.netlink(now + 1, self.say.address(source.port, BRIDGE, source.mac, source.vid))
        for device in leaves:
            self.write.frame(now + 2, device, device != BRIDGE, data)

    def all_but(self, source):
        reached = [each for each in self.ports if each != source.port and each not in self.down and (each, source.vid) not in self.without]
        return reached + ([BRIDGE] if source.vid == 1 else [])

    def to_one(self, now, source, rest):
        others = [each for each in self.by_vid[source.vid] if each is not source]
        peer = self.draw.choice(others or [source])
        port = self.known.get((peer.vid, peer.mac))
        leaves = [each for each in self.all_but(source) if each != BRIDGE] if port is None else {port} - {source.port}
        self.send(now, source, peer.mac, rest, leaves)

    def to_group(self, now, source):
        group = "239.1.1.%d" % self.draw.randrange(GROUPS)
        sender = frames.Sender(source.mac.hex(), "10.0.0.9", "fe80::9")
        body = b"\x10\0\x20\0" + (FULL - 20).to_bytes(2, "big") + b"\0\0" + self.payload[:FULL - 28]
        datagram = bytes.fromhex(frames.v4(group, sender, body, 17, None))
        members = self.members.get((source.vid, group), set()) | {self.router}
        able = set(self.all_but(source)) - {BRIDGE}
        self.send(now, source, datagram[:6], datagram[12:], sorted(members & able))

    def report(self, now, source, group):
        sender = frames.Sender(source.mac.hex(), "10.0.0.9", "fe80::9")
        message = bytes.fromhex(frames.report(group, sender))
        router = [self.router] if self.router in self.all_but(source) else []
        if source.port in self.down or (source.port, source.vid) in self.without:
            return
        known = self.members.setdefault((source.vid, group), set())
        is_new = source.port not in known
        known.add(source.port)
        self.send(now, source, message[:6], message[12:], router)
        if is_new:
            self.write.netlink(now + 3, self.say.member(source.port, BRIDGE, frames.v4_bytes(group), source.vid))

    def query(self, now):
        source = self.stations[0]
        message = bytes.fromhex(frames.igmp(0x11, "0.0.0.0", frames.Sender(source.mac.hex(), "10.0.0.1", "fe80::1"), "224.0.0.1", None, 100))
        if self.router is None:
            self.router = source.port
            self.write.netlink(now + 1, self.say.router(source.port, BRIDGE))
        self.send(now, source, message[:6], message[12:], self.all_but(source))

    def all_report(self, now):
        for number, group in enumerate(["239.1.1.%d" % each for each in range(GROUPS)] * 5):
            self.report(now + number * 100, self.stations[7 * number % len(self.stations)], group)

    def flap_vlan(self, now):
        port, vid = self.draw.choice(self.ports[1:]), self.draw.choice(list(self.by_vid))
        if port in self.down or vid == 1:
            return
        if (port, vid) in self.without:
            self.without.discard((port, vid))
        else:
            self.without.add((port, vid))
            self.forget(now, lambda where, its: (where, its) == (port, vid))
        left = [each for each in self.memberships() if (port, each[0]) not in self.without]
        self.write.netlink(now, self.say.vlans(port, "p%d" % port, BRIDGE, left, 0))

    def flap_port(self, now):
        if self.down:
            port = self.down.pop()
            self.write.netlink(now, self.say.port(port, "p%d" % port, BRIDGE, [self.say.state()], 0))
            return
        port = self.draw.choice(self.ports[1:])
        self.down.add(port)
        self.forget(now, lambda where, _: where == port)
        self.write.netlink(now, self.say.port(port, "p%d" % port, BRIDGE, [self.say.state(0)], 0))

    def forget(self, now, concerns):
        for (vid, mac), port in [each for each in self.known.items() if concerns(each[1], each[0][0])]:
            del self.known[vid, mac]
            self.write.netlink(now, self.say.address(port, BRIDGE, mac, vid, kind=netlink.DELNEIGH))
        for (vid, group), ports in self.members.items():
            for port in [each for each in ports if concerns(each, vid)]:
                ports.discard(port)
                self.write.netlink(now, self.say.member(port, BRIDGE, frames.v4_bytes(group), vid, kind=netlink.DELMDB))

    def age(self, now):
        for vid, mac in [key for key in self.known if now - self.heard[key] > AGEING]:
            port = self.known.pop((vid, mac))
            self.write.netlink(now, self.say.address(port, BRIDGE, mac, vid, kind=netlink.DELNEIGH))

    def events(self):
        """(moment, what happens then) beside the frames, in order."""
        def each(first, gap, what):
            return [(moment, what) for moment in range(first, 2 * self.end, gap)]
        minute = 60 * 10**6
        return sorted(each(126 * 10**6, 125 * 10**6, self.query) + each(SETTLED - 10**6, 125 * 10**6, self.all_report) +
                      each(20500000, minute // 3, self.flap_vlan) + each(62500000, minute, self.flap_port) + each(5700000, minute // 12, self.age),
                      key=lambda event: event[0])

    def run(self):
        self.start()
        self.query(10**6)
        events, last, rest = self.events(), 0, b"\x88\xb5" + self.payload
        for turn in itertools.count():
            if self.sent >= self.count:
                break
            now = 2 * 10**6 + turn * (self.end - 2 * 10**6) // self.count
            while events and events[0][0] <= now:
                last, what = events.pop(0)
                what(last)
            if now - last > QUIET and (not events or events[0][0] - now > QUIET):  # else the judge would have two answers
                self.speak(now, self.draw.choice(self.stations), rest)
        self.write.end(now)

    def speak(self, now, source, rest):
        kind = self.draw.random()
        if kind < 0.001 or self.known.get((source.vid, source.mac)) is None:
            self.send(now, source, b"\xff" * 6, rest, self.all_but(source))
        elif kind < 0.05 and now > SETTLED:
            self.to_group(now, source)
        else:
            self.to_one(now, source, rest)


def main(words):
    to_output = words[:1] == ["-"]
    count, ports, vlans, seconds = [int(word) for word in words[to_output:]] + [1000000, 30, 4094, 600][len(words) - to_output:]
    if to_output:
        Bridge(sys.stdout.buffer, ports, vlans, seconds, count).run()
        return 0
    began = time.monotonic()
    judge = subprocess.Popen([os.path.join(HERE, "../tools/judge"), "--least", str(count // 2), "-"], stdin=subprocess.PIPE)
    Bridge(judge.stdin, ports, vlans, seconds, count).run()
    judge.stdin.close()
    status = judge.wait()
    used = resource.getrusage(resource.RUSAGE_CHILDREN)
    print("%.0f s by the clock, %.0f s of the processor, at most %.0f MB in one process" % (
        time.monotonic() - began, used.ru_utime + used.ru_stime, used.ru_maxrss / 1024))
    return status


if __name__ == "__main__":
    sys.exit(main(sys.argv[1:]))
