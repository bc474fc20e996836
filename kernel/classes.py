"""A second reading of what a chip does with a frame: from the words of docs/FORMATS.md, and from what the kernel's bridge does with it.

Frames at ports of the chip are handed to the kernel without the mark, whatever the chip does with them, so that it sends each by all ports
by which one bridge sends it. By these ports, the scenario's commands, the frame's bytes and the listing `show fdb`, the class follows.
"""
import subprocess

HOST = 0


class Reader:
    """Follows the commands of a scenario, as FORMATS tells what they do."""

    def __init__(self, program, chip):
        self.program, self.chip = program, chip
        self.numbers, self.vlans, self.pvid, self.snooping = {"host": HOST}, {}, {}, True

    def declare(self, words):
        if words[0] == "port":
            self.numbers[words[2]] = int(words[1])

    def take(self, words):
        """A command that was accepted."""
        if words[:2] == ["port", "up"]:
            self.vlans[self.numbers[words[2]]], self.pvid[self.numbers[words[2]]] = {1}, 1
        elif words[:2] == ["port", "down"]:
            self.vlans.pop(self.numbers[words[2]], None)
        elif words[0] == "snooping":
            self.snooping = words[1] == "on"
        elif words[0] == "vlan":
            port, vlan = self.numbers[words[5]], int(words[3])
            if words[1] == "add":
                self.vlans.setdefault(port, {1}).add(vlan)
                if "pvid" in words[6:]:
                    self.pvid[port] = vlan
            else:
                self.vlans.setdefault(port, {1}).discard(vlan)
                if self.pvid.get(port) == vlan:
                    del self.pvid[port]

    def class_of(self, port, data, out, before):
        """The class of a frame at the port that one bridge sends by the ports `out`; before are the scenario's lines up to it."""
        tag = int(data[28:32], 16) & 4095 if data[24:28] == "8100" else 0
        vlan = tag or self.pvid.get(port)
        foreign = [each for each in out if each not in self.chip]
        if vlan not in self.vlans.get(port, ()):
            return "drop"
        if self.snooping and is_message(data[24:] if data[24:28] != "8100" else data[32:]):
            return "trap"
        if data[:11] == "0180c200000" and data[11] not in "01":
            return "trap" if out else "drop"
        if not int(data[1], 16) & 1 and self.entry_of(data, vlan, before) not in self.chip | {None}:
            return "trap" if out else "drop"
        return "copy" if foreign else "forward" if out else "drop"

    def entry_of(self, data, vlan, before):
        """The port of the entry of the frame's destination, or None."""
        done = subprocess.run([self.program, "show", "fdb"], input=("\n".join(before + ["end"]) + "\n").encode(), stdout=subprocess.PIPE, timeout=60)
        wanted = [bytes.fromhex(data[:12]).hex(":"), str(vlan)]
        for line in done.stdout.decode().splitlines():
            words = line.split()
            if len(words) == 6 and [words[0], words[4]] == wanted:
                return self.numbers[words[2]]
        return None


def is_message(payload):
    """Whether what begins at the type is an IGMP message, or an MLD message behind a hop-by-hop header."""
    if payload[:4] == "0800":
        return payload[22:24] == "02"
    return payload[:4] == "86dd" and payload[16:18] == "00" and payload[84:86] == "3a" and int(payload[100:102], 16) in (130, 131, 132, 143)


def read(program, scenario, ours, linux):
    """Of each frame at a port of the chip its number, its line and the class that it must have."""
    reader, step, frame = Reader(program, {int(port) for port in scenario.chip}), 0, 0
    for at, line in enumerate(scenario.lines):
        words = line.split()
        if words[0] in ("scenario", "bridge", "port"):
            reader.declare(words)
            continue
        step += 1
        frame += words[0] == "rx"
        if words[0] == "cmd" and ours.answers.get(step, ("",))[0] == "ok":
            reader.take(words[1:])
        elif words[0] == "rx" and frame in ours.classes:
            out = sorted({port for port, _ in linux.sent[frame]})
            yield frame, line, reader.class_of(int(words[1]), words[2], out, scenario.lines[:at])
