"""Random scenarios, of steps in which no difference of docs/KERNEL.md shows.

What they keep off is said where they do. Everything else that a line of software ports can say is in them. Where ports are the
chip's, it reports each frame that it has to report directly behind the frame, and takes all its turns there and behind each command and
moment by which addresses or groups may go; each third scenario of these is of edition 2, where members of groups wait for turns, too.
"""
import random

import frames

PORTS = range(1, 6)
CHIP_PORTS = range(1, 4)
ROAMERS = "abcde"  # stations that send; f has static and local entries, since Linux moves a static entry with its station
V4_GROUPS = ["239.1.2.3", "239.1.2.4", "239.9.9.9", "224.0.0.5", "224.0.1.1"]
V6_GROUPS = ["ff05::1234", "ff05::99", "ff02::1", "ff02::2"]
FLAGS = ["learning", "flood", "mcast_flood", "bcast_flood", "isolated", "fastleave"]
EARLY = 200000  # ms; before this no entry or membership ends by itself, and the kernel's late timers don't show
LATE = 2000000  # ms; by then all have ended
TURNS = 16  # more than ever are pending: the rest is refused, and isn't compared


def mac(station):
    return bytes.fromhex(frames.STATIONS[station]).hex(":")


class Maker:
    def __init__(self, seed, number, has_chip):
        self.random = random.Random("%s/%d" % (seed, number))
        self.chip_ports = CHIP_PORTS if has_chip else []
        self.lines = ["scenario 2" if has_chip and number % 3 == 2 else "scenario 1"]
        self.lines += ["port %d p%d %s" % (port, port, "chip 1" if port in self.chip_ports else "soft") for port in PORTS]
        self.clock = 0
        self.member = {port: {} for port in PORTS}  # of each port that is up, its VLANs: whether untagged
        self.member[0] = {1: True}
        self.pvid = {}
        self.snooping = self.chance(.85)
        # Version of the one querier, or none: Linux keeps router ports apart by version. It asks at one port from one
        # address, since Linux keeps to the lowest address.
        self.querier = self.random.choice([None, 4, 4, 6])
        self.querier_port = self.random.choice(PORTS)
        self.asked = False
        self.late = self.chance(.4)

    def chance(self, part):
        return self.random.random() < part

    def device(self, port):
        return "p%d" % port if port else "host"

    def command(self, words):
        self.lines.append("cmd " + words)

    def wait(self, milliseconds):
        self.clock += milliseconds
        self.lines.append("now %d" % self.clock)
        self.turns()

    def turns(self):
        if self.chip_ports:
            self.lines += ["turn 1"] * TURNS

    def rx(self, port, data):
        self.lines.append("rx %d %s" % (port, data))
        if port in self.chip_ports:
            self.lines.append("report 1")
        self.turns()

    # ---- commands ----

    def port_up(self, port):
        self.command("port up p%d" % port)
        if port not in self.pvid:
            self.member[port], self.pvid[port] = {1: True}, 1

    def port_down(self, port):
        self.command("port down p%d" % port)
        self.turns()
        self.member[port] = {}
        self.pvid.pop(port, None)

    def link(self):
        self.command("link p%d %s %s" % (self.random.choice(PORTS), self.random.choice(FLAGS), self.random.choice(["on", "off"])))

    def vlan(self):
        """Linux takes `vlan add` again, and `vlan del` of what isn't there; `vlan del` keeps entries by command and groups,
        so only VLAN 20 is left, which has none."""
        port, vlan = self.random.choice([0] + list(PORTS)), self.random.choice([10, 10, 20])
        if port and port not in self.pvid:
            self.command("vlan add vid %d dev p%d" % (vlan, port))
        elif vlan not in self.member[port]:
            untagged, pvid = self.chance(.4), vlan == 10 and port > 0 and self.chance(.4)
            self.member[port][vlan] = untagged
            if pvid:
                self.pvid[port] = vlan
            self.command("vlan add vid %d dev %s%s%s" % (
                vlan, self.device(port), " pvid" if pvid else "", " untagged" if untagged else ""))
        elif vlan == 20:
            del self.member[port][vlan]
            self.command("vlan del vid 20 dev %s" % self.device(port))
            self.turns()

    def address(self):
        port, vlan = self.random.choice([0] + list(PORTS)), self.random.choice([1, 1, 10])
        if self.chance(.4):
            self.command("fdb del %s vlan %d" % (mac(self.random.choice("abcdef")), vlan))
            self.turns()
        else:
            self.command("fdb add %s dev %s vlan %d %s" % (mac("f"), self.device(port), vlan, "static" if port else "local"))
            self.turns()

    def group(self):
        """Linux takes `mdb add` outside of the port's VLANs, refuses `mdb` while snooping is off, and ends the host's
        memberships."""
        port, vlan = self.random.choice(PORTS if self.late else [0] + list(PORTS)), self.random.choice([1, 1, 10])
        group = self.random.choice(V4_GROUPS + V6_GROUPS)
        group = frames.v6_text(group) if ":" in group else group
        if self.snooping and (self.chance(.3) or vlan in self.member[port]):
            what = "add" if vlan in self.member[port] and self.chance(.7) else "del"
            self.command("mdb %s %s dev %s vlan %d" % (what, group, self.device(port), vlan))
            self.turns()

    def age(self):
        """Every learned entry ends."""
        if self.clock + 100000 < EARLY:
            self.command("ageing 40")
            self.wait(90000)
            self.command("ageing %d" % self.random.choice([300, 600]))

    def any_command(self):
        kind = self.random.randrange(16)
        if kind < 4:
            self.link()
        elif kind < 8:
            self.vlan()
        elif kind < 11:
            self.address()
        elif kind < 13:
            self.group()
        elif kind == 13:
            self.port_down(self.random.choice(PORTS))
        elif kind == 14:
            self.port_up(self.random.choice(PORTS))
        elif self.chance(.3):
            self.age()

    # ---- frames ----

    def tag(self, vlans):
        if self.chance(.6):
            return None
        return self.random.choice([0, 0, 3, 7]), self.random.choice([0, 0, 1]), self.random.choice(vlans)

    def plain(self, port, source):
        tag = self.tag([0, 1, 10, 10, 20] if self.chance(.9) else [4095, 7])
        others = [station for station in "abcdef" if station != source]  # Linux teaches before it looks up
        to = self.random.choice(others * 2 + [frames.BROADCAST] * 3 + ["03000000000b", "01005e010203", "333300001234", "0180c2000010"])
        self.rx(port, frames.ethernet(to, "01005e000009" if self.chance(.02) else source, tag=tag))

    def reserved(self, port, source):
        """Linux hands 02 to 0F to the host whatever its VLANs, without a tag."""
        last = self.random.randrange(16)
        if last < 2 or self.member[0].get(self.pvid.get(port)):
            self.rx(port, frames.ethernet("0180c20000%02x" % last, source))

    def payload(self, port, source):
        self.rx(port, frames.payload(self.random.choice(V4_GROUPS + V6_GROUPS), source, self.tag([0, 1, 10, 10, 20])))

    def message(self, port, source):
        """Linux floods leaves and records where a querier is known, and lets the querier end what is left."""
        tag, six = self.tag([0, 1, 10, 10]), self.chance(.4)
        groups = V6_GROUPS if six else V4_GROUPS
        kind = self.random.randrange(4)
        if kind < 2 or self.asked:
            self.rx(port, frames.report(self.random.choice(groups), source, tag))
        elif kind == 2:
            self.rx(port, frames.leave(self.random.choice(groups), source, tag))
            self.wait(4100)
        else:
            items = [(self.random.randrange(6), self.random.choice(groups), ["fe80::7" if six else "10.0.0.7"] * self.random.randrange(3))
                     for _ in range(self.random.randrange(4))]
            self.rx(port, frames.records(six, source, items, tag))
            self.wait(4100)

    def query(self):
        """Linux knows a querier only after the time that its query gives for answers."""
        if self.querier and self.snooping and self.clock % LATE + 1000 < EARLY:
            self.rx(self.querier_port, frames.query(self.querier == 6, "e", self.tag([0, 1, 10])))
            self.wait(1000)
            self.asked = True

    def any_frame(self):
        port, source, kind = self.random.choice(PORTS), self.random.choice(ROAMERS), self.random.randrange(20)
        if kind < 7:
            self.plain(port, source)
        elif kind == 7:
            self.reserved(port, source)
        elif kind < 13:
            self.payload(port, source)
        elif kind < 18:
            if self.clock % LATE + 5000 < EARLY:
                self.message(port, source)
        else:
            self.query()

    def make(self):
        if not self.snooping:  # Linux forgets what it learned by snooping when that is switched off, so it begins so
            self.command("snooping off")
        for port in PORTS:
            self.port_up(port)
        if self.chance(.3):  # Linux takes `fdb add .. extern` over an entry that is there, so it comes first
            self.command("fdb add %s dev p%d vlan 1 extern" % (mac(self.random.choice(ROAMERS)), self.random.choice(PORTS)))
        for count in range(45):
            if not self.snooping and count == 15:
                self.snooping = True
                self.command("snooping on")
            if self.chance(.25):
                self.any_command()
            else:
                self.any_frame()
        if self.late:
            self.wait(LATE - self.clock)
            for _ in range(8):
                self.any_frame()
        return "\n".join(self.lines + ["end"]) + "\n"


def random_scenario(seed, number, has_chip):
    return Maker(seed, number, has_chip).make()
