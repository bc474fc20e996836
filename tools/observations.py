"""Observations: what a switch was seen to do in a scenario, for the question whether that was possible.

A record has a scenario's steps, whether the switch took them, what its kernel told of address entries (marks) behind each, and the frames
that were seen. It becomes an observation so:

- A command that the switch refused is left out.
- What the switch learned (`extern_learn`) is `cmd fdb add .. extern` behind the step in which it was told, if the port learns in that VLAN;
  what it forgot by itself is `cmd fdb del`. An entry without a VLAN is one of the port's PVID.
- A command that put an entry over another one is a deletion and that command.
- The mark `offload` behind the command that made the entry is `applied D N` with the largest N: the driver sets it once the entry stands in
  the switch's table, and takes the updates in their order, so all of them are applied by then. The kernel tells nobody that it is set, so the
  entries have to be asked for.
"""
import collections
import dataclasses
import re

MOST = 1048576  # updates of a run: as many as there are
HOST = 0
WORD = re.compile("[A-Za-z0-9._:-]+")


class Broken(Exception):
    pass


@dataclasses.dataclass(frozen=True)
class Mark:
    """What the kernel told of an address entry: that it is there, or gone; its words, `offload` and `extern_learn` among them."""
    there: bool
    device: str
    address: str
    vlan: int
    words: frozenset


@dataclasses.dataclass
class Step:
    words: list
    taken: bool = True
    marks: list = dataclasses.field(default_factory=list)


@dataclasses.dataclass
class Record:
    head: list
    ports: dict  # of each number the device and its domain, 0 for software
    steps: list
    saw: dict  # of each frame the (port, bytes)

    def domain(self, device):
        return next(domain for name, domain in self.ports.values() if name == device)


def read(text):
    """The record of a scenario of which nothing is known yet."""
    record = Record([], {}, [], collections.defaultdict(list))
    for line in text.splitlines():
        words = line.split()
        if not words or line.startswith("#") or words[0] in ("publish", "serve", "turn", "report"):
            continue
        if words == ["end"]:
            return record
        if not all(map(WORD.fullmatch, words)):
            raise Broken("no line of a scenario: %s" % line)
        if words[:2] == ["cmd", "fdb"]:
            words[3] = words[3].lower()
        if words[0] in ("cmd", "now", "rx"):
            record.steps.append(Step(words))
        elif words[0] in ("scenario", "bridge", "port"):
            record.head.append(" ".join(words))
            if words[0] == "port":
                record.ports[int(words[1])] = words[2], int(words[4]) if words[3] == "chip" else 0
        else:
            raise Broken("not for a switch: %s" % line)
    raise Broken("a scenario without its end")


class Tables:
    """The ports' VLANs, and the entries that the observation has made."""

    def __init__(self):
        self.members, self.pvid, self.quiet, self.entries = {}, {}, set(), {}

    def forget(self, which):
        self.entries = {key: held for key, held in self.entries.items() if not which(key[0], held[0])}

    def follow(self, words):
        """A command that the switch has taken."""
        if words[:2] == ["port", "up"]:
            self.members[words[2]], self.pvid[words[2]] = {1}, 1
        elif words[:2] == ["port", "down"]:
            self.members.pop(words[2], None)
            self.quiet.discard(words[2])
            self.forget(lambda _, device: device == words[2])
        elif words[0] == "link" and words[2] == "learning":
            (self.quiet.discard if words[3] == "on" else self.quiet.add)(words[1])
        elif words[0] == "vlan":
            self.follow_vlan(words[1], int(words[3]), words[5], words[6:])
        elif words[:2] == ["fdb", "add"]:
            self.entries[int(words[6]), words[2]] = words[4], words[7]
        elif words[:2] == ["fdb", "del"]:
            self.entries.pop((int(words[4]), words[2]), None)

    def follow_vlan(self, what, vlan, device, flags):
        if what == "add":
            self.members.setdefault(device, set()).add(vlan)
            if "pvid" in flags:
                self.pvid[device] = vlan
            return
        self.members.get(device, set()).discard(vlan)
        if self.pvid.get(device) == vlan:
            del self.pvid[device]
        self.forget(lambda at, holder: at == vlan and holder == device)

    def makes_room(self, words):
        """The deletion ahead of a command that put an entry over another one."""
        if words[:2] == ["fdb", "add"] and self.entries.pop((int(words[6]), words[2]), None):
            yield "cmd fdb del %s vlan %s" % (words[2], words[6])

    def lines(self, mark):
        """The commands that say what the switch learned or forgot."""
        vlan = mark.vlan or self.pvid.get(mark.device, 0)
        key, delete = (vlan, mark.address), "cmd fdb del %s vlan %d" % (mark.address, vlan)
        held = self.entries.get(key)
        if "extern_learn" not in mark.words or held and held[1] != "extern":
            return []
        if not mark.there:
            return [delete] if self.entries.pop(key, None) else []
        if mark.device in self.quiet or vlan not in self.members.get(mark.device, ()) or held == (mark.device, "extern"):
            return []
        self.entries[key] = mark.device, "extern"
        return [delete] * bool(held) + ["cmd fdb add %s dev %s vlan %d extern" % (mark.address, mark.device, vlan)]


def acknowledged(step):
    """The device whose driver has told that the entry of this command stands in the switch."""
    words = step.words
    if words[:3] != ["cmd", "fdb", "add"]:
        return None
    wanted = words[5], words[3], int(words[7])
    told = any(mark.there and "offload" in mark.words and (mark.device, mark.address, mark.vlan) == wanted for mark in step.marks)
    return words[5] if told else None


def steps_of(record):
    tables = Tables()
    for step in record.steps:
        if not step.taken:
            continue
        yield from tables.makes_room(step.words[1:])
        yield " ".join(step.words)
        if step.words[0] == "cmd":
            tables.follow(step.words[1:])
        if device := acknowledged(step):
            yield "applied %d %d" % (record.domain(device), MOST)
        for mark in step.marks:
            yield from tables.lines(mark)


def observation(record, blind=(HOST,)):
    """Its text; nobody watches the blind ports."""
    lines = record.head + list(steps_of(record)) + ["end", "seen 1"] + ["blind %d" % port for port in blind]
    for frame in sorted(record.saw):
        lines += ["saw %d %d %s" % (frame, port, data) for port, data in sorted(record.saw[frame])]
    return "\n".join(lines + ["end", ""])
