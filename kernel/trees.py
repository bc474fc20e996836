"""Random scenarios of the spanning tree, of steps in which no difference of docs/KERNEL.md shows.

What they keep off is said where they do. Moments are half a second or a second apart, and a `now` stands at each, so that whatever is due
has a moment of its own: messages, commands and some frames come there, stations are learned a quarter of the way to the next one, and frames
to them come half-way.
"""
import random

import frames

KIND = "# A scenario of the tree."
GROUP = "0180c2000000"
STATIONS = ["0200000000%02x" % (0x10 + i) for i in range(4)]
UNKNOWN, ASKER = "0200000000ee", "0200000000dd"  # who never sends, and to whom nobody does
SECOND = 256  # of a message's times
# What a scenario is about: several neighbours with the same times; one with any times and flags; one with any forward delay
SEVERAL, ONE, DELAY = range(3)


def message_frame(source, body, padded=True, length=None, llc="424203"):
    data = GROUP + source + "%04x" % (len(body) + 3 if length is None else length) + llc + body.hex()
    return data.ljust(120, "0") if padded else data


def config(flags, root, cost, bridge, port, age, times, version=0, kind=0, protocol=0):
    """The body of a configuration message; times are (max age, hello, forward delay)."""
    parts = ((protocol, 2), (version, 1), (kind, 1), (flags, 1), (root, 8), (cost, 4), (bridge, 8), (port, 2), (age, 2), *((time, 2) for time in times))
    return b"".join(number.to_bytes(size, "big") for number, size in parts)


TCN = bytes([0, 0, 0, 0x80])
WORST = 0xffff << 48 | 0x0200000000ff  # below every bridge


class Maker:
    def __init__(self, seed, number):
        self.random = random.Random("tree %s/%d" % (seed, number))
        self.kind = self.random.choice([SEVERAL, SEVERAL, ONE, DELAY])
        self.ports = range(1, self.random.choice([2, 3, 4, 5]) + 1)
        self.lines = [KIND, "scenario 1"] + ["port %d p%d soft" % (port, port) for port in self.ports]
        self.grid = 1000 if self.kind == DELAY else self.random.choice([1000, 1000, 500])
        self.clock, self.up, self.on = 0, set(), False
        self.deadlines = {}  # by port and vector, the moment at which what was told ends
        self.steady, self.steady_age = None, self.random.choice([0, 0, 1]) * SECOND  # who tells the same again and again
        # Of equal vectors at two ports the lower port is the root port; Linux takes a new priority of a port into account late.
        self.has_ties = self.chance(.4)
        self.quiet_until, self.ageing = 0, 300
        self.taught = []  # (port, station), to be learned
        self.neighbours = [self.random.choice([4096, 32768, 61440]) << 48 | 0x02000000b000 + i for i in range(1, 5)]
        self.roots = sorted(self.neighbours[:2] + [self.random.choice([0, 32768]) << 48 | 0x02000000a001])
        self.priorities = [4096, 8192, 32768, 40960, 65535]
        self.times = (self.random.choice([6, 10, 16, 20, 40]) * SECOND, self.random.choice([1, 2, 4]) * SECOND, 15 * SECOND)
        self.change = self.random.choice([0, 0, 1])
        self.main = 1 if self.kind == DELAY else self.random.choice(self.ports)

    def chance(self, part):
        return self.random.random() < part

    def command(self, words):
        self.lines.append("cmd " + words)

    def rx(self, port, data):
        self.lines.append("rx %d %s" % (port, data))

    # ---- commands ----

    def port_up(self):
        """The kernel numbers its ports itself: the lowest number that is free."""
        down = [port for port in self.ports if port not in self.up]
        if down:
            self.command("port up p%d" % down[0])
            self.up.add(down[0])

    def port_down(self):
        port = self.random.choice(self.ports)
        if self.kind == DELAY and port == self.main:
            return
        self.command("port down p%d" % port)
        self.up.discard(port)

    def switch(self, on):
        """Linux forgets what it learned when the bridge goes down, so all has ended by then; and it sends nothing as the bridge comes up, so
        that no port is held yet."""
        if on != self.on:
            self.learn()
            if self.clock:
                self.ageing = 1
                self.command("ageing 1")  # Linux collects at once, and here the next moment does
                for _ in range(2000 // self.grid):
                    self.pass_on(True)
                self.ageing = 300
                self.next_moment()
            if on and self.up:
                self.lines.append("# Linux differs: nothing is sent at once")
                self.quiet_until = self.clock + 2000
            self.command("stp %s" % ("on" if on else "off"))
            self.on = on

    def link(self):
        port = self.random.choice(self.ports)
        if self.chance(.6) or self.has_ties:
            self.command("link p%d cost %d" % (port, self.random.choice([1, 4, 19, 100, 100, 250, 65535])))
        else:
            self.command("link p%d priority %d" % (port, 4 * self.random.randrange(64)))

    def any_command(self):
        kind = self.random.randrange(12)
        if kind < 4:
            self.link()
        elif kind < 6 and self.kind != DELAY:
            self.command("stp priority %d" % self.random.choice(self.priorities))
        elif kind < 8:
            self.port_down()
        elif kind < 11:
            self.port_up()
        elif self.chance(.4) and self.kind != DELAY:
            self.switch(not self.on)

    # ---- messages ----

    def teller(self):
        return self.random.choice(self.ports) if self.kind == SEVERAL or self.chance(.2) else self.main

    def vector_of(self, port):
        """What a neighbour tells at the port: root, cost, itself and its port, no vector at two ports but where they may tie."""
        if self.kind != SEVERAL and port != self.main:
            return WORST, 0, WORST, 0x8001
        neighbour = self.random.choice(self.neighbours)
        root = self.random.choice([each for each in self.roots if each <= neighbour] or [neighbour])
        cost = 0 if root == neighbour else self.random.choice([0, 4, 19, 100, 119, 200, 1000000])
        return root, cost, neighbour, 0x8001 if self.has_ties else 0x8000 + 16 * self.random.randrange(3) + port

    def any_config(self, port):
        vector = self.vector_of(port)
        flags, times = self.change | self.random.choice([0, 0, 0x80]), self.times
        if self.kind == ONE and vector[0] != WORST:  # Linux takes flags and times of a root port with its next message alone
            flags = self.random.choice([0, 0, 1, 0x80, 0x81])
            times = (self.random.choice([8, 10, 16, 20, 40]) * SECOND, self.random.choice([1, 2, 4]) * SECOND, 15 * SECOND)
        self.tell(port, vector, flags, self.random.choice([0, 0, 0, 1, 2, 3]) * SECOND, times)

    def tell(self, port, vector, flags, age, times):
        self.deadlines[port, vector] = self.clock + (times[0] - age) * 1000 // SECOND
        self.rx(port, message_frame("02000000b0%02x" % port, config(flags, *vector, age, times), self.chance(.7)))

    def tell_again(self):
        """The steady neighbour's hello."""
        if self.steady and self.clock % 2000 == 0 and self.on and self.clock >= self.quiet_until:
            port, vector, times = self.steady
            if self.is_near_an_end((port, vector)):
                return
            flags = self.change if self.kind == SEVERAL else self.random.choice([0, 0, 0, 1, 0x80, 0x81])
            self.tell(port, vector, flags, self.steady_age, times)

    def is_near_an_end(self, renewed):
        """Whether something that was told, but for what is told again, is nearly too old: then Linux still passes it on."""
        return any(0 < end - self.clock <= 2000 for told, end in self.deadlines.items() if told != renewed)

    def broken(self):
        """What is no message for either."""
        body = config(0, *self.vector_of(self.main), 0, self.times)
        source = "02000000b0f0"
        return self.random.choice([
            message_frame(source, body[:self.random.randrange(5, 35)]),
            message_frame(source, body, length=300),
            message_frame(source, body, length=37),
            message_frame(source, body, padded=False)[:-2],
            message_frame("03000000b0f0", body),
            message_frame(source, body, llc="424303"),
            message_frame(source, body, llc="4242f3"),
            message_frame(source, b"\1" + body[1:]),
            message_frame(source, body[:3] + b"\2" + body[4:]),
            message_frame(source, TCN[:3]),
        ])

    def message(self):
        if self.clock < self.quiet_until or self.is_near_an_end(None):
            return
        port = self.teller()
        kind = self.random.randrange(10)
        if kind < 7 and not (self.kind == DELAY and port == self.main):
            self.any_config(port)
        elif kind < 9:
            self.rx(self.random.choice(self.ports), message_frame("02000000b0%02x" % port, TCN, self.chance(.7)))
        else:
            self.rx(port, self.broken())

    # ---- frames ----

    def teach(self):
        """A frame, and a station that sends one soon behind: an address is never too old at a moment at which a topology change may end."""
        self.rx(self.random.choice(self.ports), frames.ethernet(frames.BROADCAST, ASKER))
        self.taught.append((self.random.choice(self.ports), self.random.choice(STATIONS)))

    def learn(self):
        if self.taught:
            self.lines.append("now %d" % (self.clock + self.grid // 4))
        for port, station in self.taught:
            self.rx(port, frames.ethernet(frames.BROADCAST, station))
        self.taught = []

    def look(self):
        """Linux collects what is too old at its own times, but also when the ageing time is set."""
        self.lines += ["now %d" % (self.clock + self.grid // 2), "cmd ageing %d" % self.ageing]
        for _ in range(self.random.randrange(3)):
            self.rx(self.random.choice(self.ports), frames.ethernet(self.random.choice(STATIONS + [UNKNOWN]), ASKER))

    def happen(self):
        """What comes at a moment; nothing more once that has taken moments."""
        began = self.clock
        for _ in range(self.random.choice([0, 0, 1, 1, 2, 3])):
            if self.clock != began:
                return
            kind = self.random.randrange(10)
            if kind < 6 and self.on:
                self.message()
            elif kind < 8:
                self.teach()
            else:
                self.any_command()

    def next_moment(self):
        self.clock += self.grid
        self.lines.append("now %d" % self.clock)
        self.tell_again()

    def pass_on(self, quiet=False):
        self.next_moment()
        if not quiet:
            self.happen()
            self.learn()
        self.look()

    def choose_steady(self):
        if self.kind == DELAY and self.steady is None:
            times = (20 * SECOND, 2 * SECOND, self.random.choice([4, 6, 10, 20, 30]) * SECOND)
            self.steady = self.main, (1, 4, self.neighbours[0], 0x8001), times
        elif self.kind != DELAY:
            port = self.main if self.kind == ONE else self.random.choice(self.ports)
            self.steady = (port, self.vector_of(port), self.times) if self.chance(.7) else None

    def make(self):
        if self.chance(.3):
            self.command("stp priority %d" % self.random.choice(self.priorities))
        self.switch(True)
        if self.kind == DELAY:  # Linux lets a delay that has begun end as it began, so the first port is forwarding before the other delay
            self.port_up()
            for _ in range(32000 // self.grid):
                self.pass_on(True)
            self.choose_steady()
            for _ in range(2):
                self.pass_on(True)
        else:
            for _ in self.ports:
                self.port_up()
        for count in range(self.random.choice([30, 45, 60])):
            if count % 25 == 0:
                self.choose_steady()
            self.pass_on(self.chance(.4))
        return "\n".join(self.lines + ["end"]) + "\n"


def random_scenario(seed, number):
    return Maker(seed, number).make()
