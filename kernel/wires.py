"""Bridges wired together, of the kernel and of `switchbr`, and whether they come to the same tree.

A topology is of two to five bridges and of wires between their ports, also two between the same bridges, or one from a bridge to itself. Of
`switchbr` each bridge is a run, and what leaves by a port enters at the other end of its wire; of the kernel each is a bridge of one guest,
its ports are pairs of veth, and its timers are the kernel's own. Bridges, costs and priorities are at random. When it is quiet, when a wire
has been cut (at one end or both) and it is quiet again, and when it has been mended, each port's state and each bridge's root, cost
and root port are compared. With $KERNEL_HERE the kernel is this machine's own, in a network namespace for each topology.
"""
import collections
import concurrent.futures
import itertools
import os
import random
import subprocess

import machine
import tree

KIND = "# Bridges wired together."
QUIET = 60  # seconds: a message ages for 20, and a port takes 30 to forward
WHENS = ("whole", "cut", "mended")


def random_topology(seed, number):
    """As text: lines `bridge B PRIORITY`, `wire B PORT B PORT`, `port B PORT COST PRIORITY` and `cut B PORT`."""
    chosen = random.Random("wires %s/%d" % (seed, number))
    bridges = list(range(1, chosen.choice([2, 3, 4, 5, 5]) + 1))
    pairs = [(bridge, chosen.choice(bridges[:bridge - 1])) for bridge in bridges[1:]]
    pairs += [tuple(chosen.sample(bridges, 2)) for _ in range(chosen.randrange(1, 4))]
    if chosen.random() < .3:
        pairs.append((chosen.choice(bridges),) * 2)
    lines, count = [KIND], collections.Counter()
    lines += ["bridge %d %d" % (bridge, chosen.choice([4096, 32768, 32768, 61440])) for bridge in bridges]
    wires = []
    for pair in pairs:
        ends = []
        for bridge in pair:
            count[bridge] += 1
            ends.append((bridge, count[bridge]))
        wires.append(ends)
        lines.append("wire %d %d %d %d" % (*ends[0], *ends[1]))
    lines += ["port %d %d %d %d" % (*end, chosen.choice([4, 19, 19, 100, 100]), chosen.choice([16, 128, 128])) for ends in wires for end in ends]
    ends = chosen.choice([each for each in wires if each[0][0] != each[1][0]])
    lines += ["cut %d %d" % end for end in ends[:chosen.choice([1, 2])]]
    return "\n".join(lines + ["end"]) + "\n"


class Topology:
    """What such a text says. An end of a wire is a bridge and a port."""

    def __init__(self, name, text):
        self.name, self.lines, self.recorded = name, [], None
        self.priority, self.ports, self.other, self.cost, self.port_priority, self.wires, self.cut = {}, {}, {}, {}, {}, [], []
        for at, line in enumerate(text.splitlines()):
            word, *numbers = line.split()
            if word == "end":
                self.recorded = text.splitlines()[at + 1:]
                break
            self.lines.append(line)
            if word != "#":
                self.take(word, [int(number) for number in numbers])
        self.bridges = sorted(self.priority)

    def take(self, word, numbers):
        end, rest = tuple(numbers[:2]), tuple(numbers[2:])
        if word == "bridge":
            self.priority[end[0]], self.ports[end[0]] = end[1], 0
        elif word == "wire":
            self.wires.append((end, rest))
            self.other[end], self.other[rest] = rest, end
        elif word == "port":
            self.cost[end], self.port_priority[end] = rest
            self.ports[end[0]] = max(self.ports[end[0]], end[1])
        elif word == "cut":
            self.cut.append(end)


# ---- the kernel ----

def device(end):
    return "b%dp%d" % end


def script(topology):
    """Commands for the guest's shell, which has an `ip` of its own."""
    lines = ["echo '=== %s'" % topology.name]
    for bridge in topology.bridges:
        lines.append("/sbin/ip link add br%d address 02:00:00:00:00:%02x type bridge stp_state 1 priority %d" % (bridge, bridge, topology.priority[bridge]))
    lines += ["/sbin/ip link add %s type veth peer name %s" % (device(one), device(other)) for one, other in topology.wires]
    for bridge in topology.bridges:
        for port in range(1, topology.ports[bridge] + 1):
            lines += join(topology, (bridge, port))
    lines += ["/sbin/ip link set br%d up" % bridge for bridge in topology.bridges]
    lines += ["sleep %d" % QUIET] + tells("whole")
    lines += ["/sbin/ip link set %s nomaster" % device(end) for end in topology.cut] + ["sleep %d" % QUIET] + tells("cut")
    for end in topology.cut:
        lines += join(topology, end)
    lines += ["sleep %d" % QUIET] + tells("mended")
    lines += ["/sbin/ip link del br%d" % bridge for bridge in topology.bridges] + ["/sbin/ip link del " + device(one) for one, _ in topology.wires]
    return "\n".join(lines) + "\n"


def join(topology, end):
    name = device(end)
    return ["/sbin/ip link set %s up master br%d" % (name, end[0]), "echo %d > /sys/class/net/%s/brport/path_cost" % (topology.cost[end], name),
            "echo %d > /sys/class/net/%s/brport/priority" % (topology.port_priority[end] // 4, name)]


def tells(when):
    return ["echo '=== %s'" % when, "grep -H . /sys/class/net/*/brport/state /sys/class/net/br*/bridge/root_id "
            "/sys/class/net/br*/bridge/root_path_cost /sys/class/net/br*/bridge/root_port"]


def by_kernel(topologies, limit, is_here):
    """What the guest, or this machine's own kernel, wrote of each topology, by its name."""
    if is_here:
        with concurrent.futures.ThreadPoolExecutor(len(topologies)) as pool:
            written = itertools.chain(*pool.map(lambda each: machine.here(script(each), limit), topologies))
    else:
        written = machine.lines({"job/script": "".join(map(script, topologies)).encode()}, limit)
    told, name = collections.defaultdict(list), None
    for line in written:
        if line.startswith("===") and line.split()[1] not in WHENS:
            name = line.split()[1]
        elif name:
            told[name].append(line)
    return told


def files_of(lines):
    """By `whole`, `cut` and `mended`: what each port's and each bridge's files say."""
    told, when = {each: {} for each in WHENS}, None
    for line in lines:
        if line.startswith("==="):
            when = line.split()[1]
        elif when and line.startswith("/sys/class/net/"):
            path, value = line[len("/sys/class/net/"):].split(":", 1)
            told[when][path] = value
    return told


# ---- switchbr ----

class Run:
    """A bridge of the program, fed line by line."""

    def __init__(self, program, topology, bridge):
        self.process = subprocess.Popen([program, "replay"], stdin=subprocess.PIPE, stdout=subprocess.PIPE, text=True)
        self.lines, self.steps, self.up = [], 0, set()
        self.write("scenario 1", "bridge 02:00:00:00:00:%02x" % bridge)
        self.write(*("port %d %s soft" % (port, device((bridge, port))) for port in range(1, topology.ports[bridge] + 1)))
        self.do("cmd stp priority %d" % topology.priority[bridge])
        self.do("cmd stp on")

    def write(self, *lines):
        self.lines += lines
        self.process.stdin.write("\n".join(lines) + "\n")
        self.process.stdin.flush()

    def do(self, *lines):
        """Steps of which the last has an answer; gives what left, by (port, bytes)."""
        self.write(*lines)
        self.steps += len(lines)
        sent = []
        while True:
            words = self.process.stdout.readline().split()
            if words[:1] == ["ctl"]:
                sent.append((int(words[1]), words[2]))
            elif words[:1] in (["ok"], ["refused"]) and int(words[1]) == self.steps:
                return sent
            elif words[:1] in ([], ["bad"]):
                raise ValueError("a run ended: %s" % words)

    def end(self):
        self.process.communicate("end\n")


class Wired:
    """The runs of a topology; what leaves at a moment enters at once."""

    def __init__(self, program, topology):
        self.program, self.topology = program, topology
        self.runs = {bridge: Run(program, topology, bridge) for bridge in topology.bridges}
        self.clock = 0

    def carry(self, bridge, sent):
        waiting = collections.deque((bridge, port, data) for port, data in sent)
        while waiting:
            bridge, port, data = waiting.popleft()
            to, at = self.topology.other[bridge, port]
            if at in self.runs[to].up:
                sent = self.runs[to].do("publish", "rx %d %s" % (at, data), "serve")
                waiting.extend((to, port, data) for port, data in sent)

    def join(self, end):
        bridge, port = end
        run, name = self.runs[bridge], device(end)
        run.up.add(port)
        for words in ("port up %s" % name, "link %s cost %d" % (name, self.topology.cost[end]),
                      "link %s priority %d" % (name, self.topology.port_priority[end])):
            self.carry(bridge, run.do("cmd " + words))

    def leave(self, end):
        bridge, port = end
        self.runs[bridge].up.discard(port)
        self.carry(bridge, self.runs[bridge].do("cmd port down " + device(end)))

    def wait(self):
        for _ in range(QUIET):
            self.clock += 1000
            for bridge, run in self.runs.items():
                self.carry(bridge, run.do("now %d" % self.clock))

    def ask(self):
        return {bridge: tree.Asked(self.program, run.lines, sorted(run.up), self.clock, True) for bridge, run in self.runs.items()}

    def tells(self):
        """By `whole`, `cut` and `mended`: what each bridge has of the tree."""
        for bridge in self.topology.bridges:
            for port in range(1, self.topology.ports[bridge] + 1):
                self.join((bridge, port))
        self.wait()
        yield "whole", self.ask()
        for end in self.topology.cut:
            self.leave(end)
        self.wait()
        yield "cut", self.ask()
        for end in self.topology.cut:
            self.join(end)
        self.wait()
        yield "mended", self.ask()
        for run in self.runs.values():
            run.end()


def differences(asked, files, counts):
    """What differs between the bridges of the program and those of the kernel."""
    for bridge, mine in asked.items():
        for port, state in mine.states.items():
            its = files.get("%s/brport/state" % device((bridge, port)))
            counts["states"] += 1
            counts["blocked"] += state == tree.BLOCKING
            if state != its:
                yield "port %d of bridge %d: state %s, and in Linux %s" % (port, bridge, state, its)
        its = [files.get("br%d/bridge/%s" % (bridge, what), "0").replace(".", "") for what in ("root_id", "root_path_cost", "root_port")]
        counts["roots"] += 1
        if (mine.root, mine.cost, mine.port) != (its[0], int(its[1]), int(its[2])):
            yield "bridge %d: root %s at cost %s by port %s, and in Linux %s" % (bridge, mine.root, mine.cost, mine.port, its)


def judge(program, topology, lines, counts):
    """Tells what differs in a topology."""
    linux = files_of(lines)
    counts["topologies"] += 1
    for when, asked in Wired(program, topology).tells():
        words = list(differences(asked, linux[when], counts))
        counts["differ"] += bool(words)
        for each in words[:3]:
            print("%s, %s: %s" % (topology.name, when, each))


def tell(counts):
    print("%d topologies, each whole, cut and mended: %d differ (%d states of ports, %d of them blocked; %d of roots)" % tuple(
        counts[each] for each in ("topologies", "differ", "states", "blocked", "roots")))
    return counts["differ"] == 0 < counts["states"]


def compare(program, topologies, limit, folder=None, is_here=False):
    """Whether they come to the same tree in the kernel; in a folder they are kept with what the kernel told."""
    counts, linux = collections.Counter(), by_kernel(topologies, limit, is_here)
    for topology in topologies:
        judge(program, topology, linux[topology.name], counts)
        if folder:
            name = os.uname().release if is_here else machine.release()
            with open(os.path.join(folder, "wires-%s.topology" % topology.name), "w") as file:
                file.write("\n".join([*topology.lines, "# Linux " + name, "end", *linux[topology.name]]) + "\n")
    return tell(counts)


def compare_recorded(program, topologies):
    counts = collections.Counter()
    for topology in topologies:
        judge(program, topology, topology.recorded, counts)
    return tell(counts)
